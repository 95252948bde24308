#define _DEFAULT_SOURCE
#include "files.h"

#include <errno.h>
#include <fcntl.h>
#include <stdarg.h>
#include <stdio.h>
#include <stdlib.h>
#include <string.h>
#include <sys/file.h>
#include <sys/stat.h>
#include <time.h>
#include <unistd.h>

bool fail(message *why, const char *format, ...) {
    va_list words;
    va_start(words, format);
    vsnprintf(why->text, sizeof why->text, format, words);
    va_end(words);
    return false;
}

/* Adds so many bytes of the word at the text's end. */
static void add_shown(shown_text *to, const char *word, size_t count) {
    size_t at = strlen(to->text);
    for (size_t i = 0; i < count; i++) {
        const unsigned char byte = (unsigned char)word[i];
        at += (size_t)snprintf(to->text + at, sizeof to->text - at, byte < ' ' || byte == 0x7F ? "\\x%02x" : "%c", byte);
    }
}

shown_text shown(const char *word) {
    enum { PART = 48 }; /* a byte takes four characters at most, so two parts and dots between them have room */
    shown_text text = {""};
    const size_t length = strlen(word);
    if (length <= 2 * PART) {
        add_shown(&text, word, length);
    } else {
        add_shown(&text, word, PART);
        add_shown(&text, "..", 2);
        add_shown(&text, word + length - PART, PART);
    }
    return text;
}

bool takes_colour(void) {
    const char *terminal = getenv("TERM"), *without = getenv("NO_COLOR");
    return isatty(STDOUT_FILENO) && (without == NULL || *without == 0) && terminal != NULL && strcmp(terminal, "dumb") != 0;
}

const char *plural(size_t count) { return count == 1 ? "" : "s"; }

/* ---- reading */

static bool is_file(int file) {
    struct stat about;
    return fstat(file, &about) == 0 && S_ISREG(about.st_mode);
}

/* Opens it, if it is a file: a folder or a device is not read. */
static int open_file(const char *path, const char *what, message *why) {
    const int file = open(path, O_RDONLY | O_NONBLOCK | O_CLOEXEC);
    if (file < 0) {
        fail(why, "%s cannot be opened: %s; a file with %s is expected", shown(path).text, strerror(errno), what);
        return -1;
    }
    if (!is_file(file)) {
        close(file);
        fail(why, "%s is not a file; a file with %s is expected", shown(path).text, what);
        return -1;
    }
    return file;
}

/* Reads up to `room` bytes. */
static ssize_t read_up_to(int file, uint8_t *bytes, size_t room) {
    size_t count = 0;
    while (count < room) {
        const ssize_t more = read(file, bytes + count, room - count);
        if (more < 0 && errno == EINTR)
            continue;
        if (more < 0)
            return -1;
        if (more == 0)
            break;
        count += (size_t)more;
    }
    return (ssize_t)count;
}

bool read_file(const char *path, const char *what, size_t most, uint8_t **bytes, size_t *length, message *why) {
    const int file = open_file(path, what, why);
    if (file < 0)
        return false;
    uint8_t *memory = malloc(most + 1);
    const ssize_t count = memory == NULL ? -1 : read_up_to(file, memory, most + 1);
    const int error = errno;
    close(file);
    if (count < 0 || (size_t)count > most) {
        free(memory);
        return count < 0 ? fail(why, "%s cannot be read: %s", shown(path).text, strerror(error))
                         : fail(why, "%s is too long: %s has at most %zu bytes", shown(path).text, what, most);
    }
    *bytes = memory;
    *length = (size_t)count;
    return true;
}

/* ---- writing */

static bool not_saved(const char *path, const char *what, message *why) {
    const char *error = strerror(errno);
    return fail(why, "%s is as it was: %s: %s", shown(path).text, what, error);
}

/* Whether the open file begins as files of this sort do; `cut` takes one that ends within that too. */
static bool begins_as(int file, const file_sort *sort, bool cut) {
    char first[MOST_HEAD];
    const ssize_t count = pread(file, first, sort->head_length, 0);
    if (count < 0 || (!cut && (size_t)count < sort->head_length))
        return false;
    for (unsigned i = 0; i < HEADS; i++)
        if (sort->heads[i] != NULL && memcmp(first, sort->heads[i], (size_t)count) == 0)
            return true;
    return false;
}

/* Tells that what stands at FILE is kept. */
static bool not_replaced(const char *path, const char *is, const char *what, const file_sort *sort, message *why) {
    return fail(why, "%s is %s%s and is not replaced; %s%s%sa name that is free is expected", shown(path).text, is, what,
                sort->replaces ? "a " : "", sort->replaces ? sort->name : "", sort->replaces ? " or " : "");
}

/* Whether nothing stands at FILE, or what may be replaced. */
static bool may_be_replaced(const char *path, const file_sort *sort, message *why) {
    const int file = open(path, O_RDONLY | O_NONBLOCK | O_NOFOLLOW | O_CLOEXEC);
    if (file < 0 && errno == ENOENT)
        return true;
    if (file < 0)
        return errno == ELOOP ? not_replaced(path, "a link", "", sort, why) : not_saved(path, "it cannot be opened", why);
    const bool plain = is_file(file), own = plain && begins_as(file, sort, false);
    close(file);
    if (!plain)
        return not_replaced(path, "not a file", "", sort, why);
    if (!sort->replaces)
        return not_replaced(path, "there already", "", sort, why);
    return own || not_replaced(path, "no ", sort->name, sort, why);
}

/* Opens the folder that FILE stands in. */
static int open_folder(const char *path) {
    const char *slash = strrchr(path, '/');
    const size_t length = slash == NULL ? 0 : (size_t)(slash - path) + 1;
    char *folder = malloc(length + sizeof ".");
    if (folder == NULL)
        return -1;
    memcpy(folder, path, length);
    memcpy(folder + length, ".", sizeof ".");
    const int opened = open(folder, O_RDONLY | O_DIRECTORY | O_CLOEXEC);
    free(folder);
    return opened;
}

/* Locks the file. Who holds it is waited for, two seconds at most. */
static bool lock(int file) {
    enum { MOST_TIMES = 200 };
    static const struct timespec hundredth = {.tv_nsec = 10000000};
    int status = flock(file, LOCK_EX | LOCK_NB);
    for (unsigned times = 0; status != 0 && (errno == EWOULDBLOCK || errno == EINTR) && times < MOST_TIMES; times++) {
        nanosleep(&hundredth, NULL);
        status = flock(file, LOCK_EX | LOCK_NB);
    }
    return status == 0;
}

/* Whether the open file stands under this name. */
static bool stands_at(int file, const char *path) {
    struct stat own, there;
    return fstat(file, &own) == 0 && lstat(path, &there) == 0 && own.st_dev == there.st_dev && own.st_ino == there.st_ino;
}

/* Opens the temporary file and locks it: who saves to the same FILE waits. What was renamed while the lock was awaited is left alone
   and the next one opened; each time another has saved. On -1 errno tells why: EEXIST where no save can have left what stands there. */
static int open_locked(const char *temporary, const file_sort *sort) {
    enum { MOST_TIMES = 10000 };
    for (unsigned times = 0; times < MOST_TIMES; times++) {
        const int file = open(temporary, O_RDWR | O_CREAT | O_NOFOLLOW | O_NONBLOCK | O_CLOEXEC, 0644);
        if (file < 0)
            return -1;
        const bool plain = is_file(file), locked = plain && lock(file), own = locked && stands_at(file, temporary);
        const int error = plain && !own ? errno : EEXIST;
        if (own && begins_as(file, sort, true))
            return file;
        close(file);
        errno = error;
        if (!locked || own)
            return -1;
    }
    errno = EBUSY;
    return -1;
}

static bool not_opened(const char *path, message *why) {
    switch (errno) {
    case EWOULDBLOCK:
        return not_saved(path, "another program is saving to it, and does not end", why);
    case EEXIST:
    case ELOOP:
    case EISDIR:
        return fail(why, "%s is as it was: at its temporary name, with .new behind it, stands what no save has left; move that away",
                    shown(path).text);
    default:
        return not_saved(path, "its temporary file (.new) cannot be opened and locked", why);
    }
}

static bool write_whole(int file, const char *bytes, size_t length) {
    while (length > 0) {
        const ssize_t count = write(file, bytes, length);
        if (count < 0 && errno != EINTR)
            return false;
        if (count > 0) {
            bytes += count;
            length -= (size_t)count;
        }
    }
    return true;
}

static bool sync_whole(int file) {
    int status;
    do
        status = fsync(file);
    while (status != 0 && errno == EINTR);
    return status == 0;
}

/* Fills the locked temporary file and gives it FILE's name; where that fails, it is removed. */
static bool fill_and_rename(int file, const char *temporary, const char *path, const char *bytes, size_t length, message *why) {
    const char *what = NULL;
    if (ftruncate(file, 0) != 0)
        what = "its temporary file (.new) cannot be emptied";
    else if (!write_whole(file, bytes, length))
        what = "its temporary file (.new) cannot be written";
    else if (!sync_whole(file))
        what = "its temporary file (.new) cannot be synced";
    else if (rename(temporary, path) != 0)
        what = "its temporary file (.new) cannot be renamed";
    if (what == NULL)
        return true;
    not_saved(path, what, why);
    unlink(temporary);
    return false;
}

/* Puts the bytes at FILE, whole. A folder on a file system that cannot sync one is not synced. */
static bool put_file(const char *path, const char *temporary, const file_sort *sort, const char *bytes, size_t length, message *why) {
    const int folder = open_folder(path);
    if (folder < 0)
        return not_saved(path, "its folder cannot be opened", why);
    const int file = open_locked(temporary, sort);
    bool saved = file >= 0 ? fill_and_rename(file, temporary, path, bytes, length, why) : not_opened(path, why);
    if (saved && !sync_whole(folder) && errno != EINVAL)
        saved = fail(why, "%s is this %s, but its folder cannot be synced: %s; if power fails now, it may be the one before",
                     shown(path).text, sort->content, strerror(errno));
    if (file >= 0)
        close(file);
    close(folder);
    return saved;
}

bool write_file(const char *path, const file_sort *sort, const void *bytes, size_t length, message *why) {
    static const char behind[] = ".new";
    const size_t path_len = strlen(path), behind_len = sizeof behind - 1;
    if (path_len == 0)
        return fail(why, "the name of a file is expected");
    if (path_len >= behind_len && strcmp(path + path_len - behind_len, behind) == 0)
        return fail(why, "%s ends in .new, as only the temporary file of a save does; another name is expected", shown(path).text);
    if (!may_be_replaced(path, sort, why))
        return false;
    char *temporary = malloc(path_len + sizeof behind);
    if (temporary == NULL)
        return not_saved(path, "there is no memory", why);
    memcpy(temporary, path, path_len);
    memcpy(temporary + path_len, behind, sizeof behind);
    const bool saved = put_file(path, temporary, sort, bytes, length, why);
    free(temporary);
    return saved;
}
