/* Reading the words of a command line: numbers, times, the names of inputs. */
#ifndef WORDS_H
#define WORDS_H

#include <stdbool.h>
#include <stddef.h>
#include <stdint.h>

/* The next word of the line, null if there is none. The line is cut behind it, and then begins behind it. */
char *next_word(char **line);

/* The rest of the line as one word, for a file's name may hold blanks; null if there is none. */
char *whole_rest(char *line);

/* The word as a whole number in this range. */
bool read_number(const char *word, uint64_t least, uint64_t greatest, uint64_t *number);

/* The word as a time in whole ticks: 50 (ticks), 500ms, 2.5s, 3min. */
bool read_time(const char *word, uint64_t *ticks);

/* I1 to I24 and AI1 to AI8, as the place of latch's input word. */
bool read_input(const char *word, size_t *place);

#endif
