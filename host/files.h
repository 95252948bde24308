/* What the host programs share: a message that says why something could not be done, how words are shown, and files that are read whole
   and written whole. */
#ifndef FILES_H
#define FILES_H

#include <stdbool.h>
#include <stddef.h>
#include <stdint.h>

/* Why something could not be done, in words, without a line end. */
typedef struct {
    char text[1024];
} message;

/* Writes the message as printf does, cut where it is too long; gives false, so that `return fail(..)` tells a caller both. */
bool fail(message *why, const char *format, ...) __attribute__((format(printf, 2, 3)));

/* A word or a file's name as it is shown to people: control bytes as \xNN, the middle left out where it is long. */
typedef struct {
    char text[400];
} shown_text;
shown_text shown(const char *word);

/* Whether standard output is a terminal that takes colour, and the user has not said otherwise (NO_COLOR). */
bool takes_colour(void);

/* The ending of a noun behind this number: nothing for 1, else s. */
const char *plural(size_t count);

/* Reads the whole file, at most so many bytes; `what` names what it should be, for the message. The caller frees the bytes.
   On false nothing is to be freed, and the message says what was wrong and what is expected. */
bool read_file(const char *path, const char *what, size_t most, uint8_t **bytes, size_t *length, message *why);

/* A sort of files that a program writes. */
enum { HEADS = 2, MOST_HEAD = 32 };
typedef struct {
    const char *name, *content; /* "record file", "record": what it and what it holds are called in messages */
    const char *heads[HEADS];   /* each such file begins with one of these, all of one length; null: there are no more */
    size_t head_length;
    bool replaces; /* one that stands at the name is replaced */
} file_sort;

/* Writes the bytes to the file. They are written under a temporary name beside it (FILE.new), synced and renamed: whenever power or
   process ends, FILE is the one before or this one, whole. What a save left at FILE.new is overwritten; anything else there is not, and
   a FILE that ends in .new is refused. Who saves to the same FILE is waited for, two seconds at most. What stands at FILE and is not of
   this sort is not replaced. On false FILE is as it was, but where the message says that its folder cannot be synced: then it is this
   one, and may be the one before once power has failed. */
bool write_file(const char *path, const file_sort *sort, const void *bytes, size_t length, message *why);

#endif
