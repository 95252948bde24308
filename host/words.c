#include "words.h"

#include "circuit.h"

#include <string.h>

static const char blanks[] = " \t";

char *next_word(char **line) {
    char *word = *line + strspn(*line, blanks);
    char *end = word + strcspn(word, blanks);
    *line = *end == 0 ? end : end + 1;
    *end = 0;
    return *word == 0 ? NULL : word;
}

char *whole_rest(char *line) {
    char *rest = line + strspn(line, blanks);
    size_t length = strlen(rest);
    while (length > 0 && strchr(blanks, rest[length - 1]) != NULL)
        rest[--length] = 0;
    return length == 0 ? NULL : rest;
}

/* Reads digits, as many as there are; false if there is none, or their number is above the greatest. */
static bool read_digits(const char **at, uint64_t greatest, uint64_t *number) {
    const char *from = *at;
    for (*number = 0; '0' <= **at && **at <= '9' && *number <= greatest; ++*at)
        *number = 10 * *number + (uint64_t)(**at - '0');
    return *at != from && *number <= greatest;
}

bool read_number(const char *word, uint64_t least, uint64_t greatest, uint64_t *number) {
    return read_digits(&word, greatest, number) && *word == 0 && *number >= least;
}

bool read_time(const char *word, uint64_t *ticks) {
    enum { MOST = 100000000, TICK = 10000 };
    static const struct {
        const char *name;
        uint64_t microseconds;
    } units[] = {{"", TICK}, {"ms", 1000}, {"s", 1000000}, {"min", 60000000}};
    uint64_t whole, hundredths = 0;
    if (!read_digits(&word, MOST, &whole))
        return false;
    if (*word == '.') {
        const char *from = ++word;
        if (!read_digits(&word, MOST, &hundredths) || word - from > 2)
            return false;
        hundredths *= word - from == 1 ? 10 : 1;
    }
    for (size_t i = 0; i < sizeof units / sizeof *units; i++)
        if (strcmp(word, units[i].name) == 0) {
            const uint64_t microseconds = whole * units[i].microseconds + hundredths * (units[i].microseconds / 100);
            *ticks = microseconds / TICK;
            return microseconds % TICK == 0;
        }
    return false;
}

bool read_input(const char *word, size_t *place) {
    const bool is_analog = *word == 'A' || *word == 'a';
    uint64_t number;
    if (word[is_analog] != 'I' && word[is_analog] != 'i')
        return false;
    if (!read_number(word + is_analog + 1, 1, is_analog ? ANALOG_INPUTS : DIGITAL_INPUTS, &number))
        return false;
    *place = is_analog ? SERIFDOVE_INPUT_AI(number) : SERIFDOVE_INPUT_I(number);
    return true;
}
