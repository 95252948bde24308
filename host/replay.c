/* Plays a trace: reads calls from standard input, makes each by the C interface, and prints what it answered and left. */
#define _POSIX_C_SOURCE 200809L
#include "serifdove.h"
#include "trace.h"

#include <stdbool.h>
#include <stdio.h>
#include <stdlib.h>
#include <string.h>

static const char usage[] = "usage: replay <TRACE\n"
                            "Plays the trace on standard input and prints a line for each call. Lines of a trace:\n"
                            "  C HEX                    the circuit for the calls that follow; - is no bytes\n"
                            "  R COUNT WORD..           the record before the next call\n"
                            "  O COUNT WORD..           the output words before the next call\n"
                            "  > check, > cold, > warm, > latch E COUNT WORD.., > run C, > publish\n"
                            "                           a call\n"
                            "  > rec COUNT WORD..       the record is replaced\n"
                            "  > out COUNT WORD..       the output words are replaced\n"
                            "  < .., # .., .            passed over: an answer, a comment, the end of a sequence\n"
                            "A line that is printed for a call:\n"
                            "  < NUMBER PLACE FIRST SECOND COUNT RECORD-WORD.. COUNT OUTPUT-WORD..\n"
                            "Status 0, or 2 with a message for a malformed line.\n";

/* ---- what is lent */

typedef struct {
    uint8_t *bytes;
    size_t count, room;
} byte_list;

typedef struct {
    int32_t *words;
    size_t count, room;
} word_list;

static byte_list circuit;
static word_list record, outputs, inputs;

static _Noreturn void fail(const char *what) {
    fflush(stdout);
    fprintf(stderr, "replay: %s\n", what);
    exit(2);
}

/* The memory with room for one more item of this size. */
static void *grown(void *memory, size_t count, size_t *room, size_t size) {
    if (count < *room)
        return memory;
    const size_t wanted = *room == 0 ? 64 : 2 * *room;
    if (wanted > SIZE_MAX / size || (memory = realloc(memory, wanted * size)) == NULL)
        fail("there is no memory for a line this long");
    *room = wanted;
    return memory;
}

static void add_byte(byte_list *to, uint8_t byte) {
    to->bytes = grown(to->bytes, to->count, &to->room, sizeof *to->bytes);
    to->bytes[to->count++] = byte;
}

static void add_word(word_list *to, int32_t word) {
    to->words = grown(to->words, to->count, &to->room, sizeof *to->words);
    to->words[to->count++] = word;
}

/* ---- reading a line */

static size_t line_number;
static const char *at; /* what is still to be read of the line */

static _Noreturn void malformed(const char *what) {
    fflush(stdout);
    fprintf(stderr, "replay: line %zu: %s\n", line_number, what);
    exit(2);
}

static void read_space(void) {
    if (*at != ' ')
        malformed(*at == 0 ? "the line ends too early" : "single spaces part the words of a line");
    at++;
}

static void read_end(void) {
    if (*at != 0)
        malformed("there is too much on the line");
}

static bool is_digit(char c) { return '0' <= c && c <= '9'; }

/* A space and a decimal number in this range. */
static int64_t read_number(int64_t least, int64_t greatest) {
    int64_t number = 0;
    read_space();
    const bool negative = *at == '-';
    at += negative;
    if (!is_digit(*at))
        malformed("a decimal number is missing");
    for (; is_digit(*at); at++) {
        number = 10 * number + (*at - '0');
        if ((negative ? -number : number) < least || (negative ? -number : number) > greatest)
            malformed("a number is out of range");
    }
    return negative ? -number : number;
}

/* How many words follow, and these words, up to the end of the line. */
static void read_words(word_list *to) {
    const int64_t count = read_number(0, UINT32_MAX);
    to->count = 0;
    while (*at != 0)
        add_word(to, (int32_t)read_number(INT32_MIN, INT32_MAX));
    if (to->count != (size_t)count)
        malformed("there are not as many words as the line says");
}

static unsigned read_hex_digit(void) {
    static const char digits[] = "0123456789abcdef0123456789ABCDEF";
    const char *found = *at == 0 ? NULL : strchr(digits, *at);
    if (found == NULL)
        malformed("a circuit is an even number of hexadecimal digits, or -");
    at++;
    return (unsigned)(found - digits) % 16;
}

static void read_circuit(void) {
    read_space();
    circuit.count = 0;
    if (strcmp(at, "-") == 0)
        return;
    do {
        const unsigned high = read_hex_digit();
        add_byte(&circuit, (uint8_t)(high << 4 | read_hex_digit()));
    } while (*at != 0);
}

/* ---- calls */

static void print_answer(serifdove_answer a) { trace_answer(stdout, a, record.words, record.count, outputs.words, outputs.count); }

static void play_check(void) {
    read_end();
    print_answer(serifdove_check(circuit.bytes, circuit.count));
}

static void play_cold(void) {
    read_end();
    print_answer(serifdove_cold_start(circuit.bytes, circuit.count, record.words, record.count));
}

static void play_warm(void) {
    read_end();
    print_answer(serifdove_warm_start(circuit.bytes, circuit.count, record.words, record.count));
}

static void play_latch(void) {
    const int32_t e = (int32_t)read_number(INT32_MIN, INT32_MAX);
    read_words(&inputs);
    print_answer(serifdove_latch(circuit.bytes, circuit.count, record.words, record.count, inputs.words, inputs.count, e));
}

static void play_run(void) {
    const uint32_t c = (uint32_t)read_number(0, UINT32_MAX);
    read_end();
    print_answer(serifdove_run(circuit.bytes, circuit.count, record.words, record.count, c));
}

static void play_publish(void) {
    read_end();
    print_answer(serifdove_publish(circuit.bytes, circuit.count, record.words, record.count, outputs.words, outputs.count));
}

static void read_record(void) { read_words(&record); }

static void read_outputs(void) { read_words(&outputs); }

/* ---- lines */

/* What each line begins with; a space or the end of the line follows. */
static const struct {
    const char *head;
    void (*play)(void);
} lines[] = {
    {"C", read_circuit},         {"R", read_record},     {"O", read_outputs},     {"> check", play_check},
    {"> cold", play_cold},       {"> warm", play_warm},  {"> latch", play_latch}, {"> run", play_run},
    {"> publish", play_publish}, {"> rec", read_record}, {"> out", read_outputs}, {".", read_end},
};

static void play_line(const char *line) {
    if (line[0] == '<' || line[0] == '#')
        return;
    for (size_t i = 0; i < sizeof lines / sizeof *lines; i++) {
        const size_t length = strlen(lines[i].head);
        if (strncmp(line, lines[i].head, length) == 0 && (line[length] == ' ' || line[length] == 0)) {
            at = line + length;
            lines[i].play();
            return;
        }
    }
    malformed("it begins with none of C, R, O, >, <, #, . and a call that is known");
}

static void play_all(void) {
    char *line = NULL;
    size_t room = 0;
    ssize_t length;
    while ((length = getline(&line, &room, stdin)) >= 0) {
        line_number++;
        if (length > 0 && line[length - 1] == '\n')
            line[--length] = 0;
        if (strlen(line) != (size_t)length)
            malformed("there is a zero byte on it");
        play_line(line);
    }
    free(line);
    if (!feof(stdin))
        fail("standard input cannot be read");
}

int main(int argc, char **argv) {
    if (argc == 2 && strcmp(argv[1], "--help") == 0) {
        fputs(usage, stdout);
        return 0;
    }
    if (argc != 1) {
        fputs(usage, stderr);
        return 2;
    }
    play_all();
    free(circuit.bytes);
    free(record.words);
    free(outputs.words);
    free(inputs.words);
    if (fflush(stdout) != 0 || ferror(stdout))
        fail("standard output cannot be written");
    return 0;
}
