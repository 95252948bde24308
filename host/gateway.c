/* The gateway in a terminal or a pipe: runs a circuit by commands, in turns as short as one likes, and looks at it between any two
   blocks. */
#define _POSIX_C_SOURCE 200809L
#include "box.h"
#include "circuit_file.h"
#include "look.h"
#include "record_file.h"
#include "refusals.h"
#include "words.h"

#include <errno.h>
#include <inttypes.h>
#include <stdarg.h>
#include <stdlib.h>
#include <string.h>
#include <sys/stat.h>
#include <time.h>
#include <unistd.h>

static const char usage[] = "usage: gateway CIRCUIT [--turn N] [--script FILE] [--series 0BA6]\n"
                            "Judges the circuit in the file CIRCUIT, begins with a cold start, and takes commands, one a line.\n"
                            "A file whose name ends in .csv holds the circuit as rows (docs/ROWS.md), any other its bytes.\n"
                            "  --turn N       a turn works out N blocks, 1 to 4294967295, or all; without it, all\n"
                            "  --script FILE  takes the commands from FILE instead of standard input\n"
                            "  --series 0BA6  begins only if the circuit also fits that older series: 200 blocks, Q1 to Q16,\n"
                            "                 AQ1 and AQ2, M1 to M27, AM1 to AM6, all else as ever; it then runs the same\n"
                            "The command `help` tells the commands. Status 0: all were carried out; 1: some were not;\n"
                            "2: it could not begin, or its output cannot be written.\n";

enum { ALL_WELL, SOME_REFUSED, CANNOT_GO_ON };
enum { GREATEST_E = 65535, MOST_SCANS = 1000000, LONGEST_LINE = 4096 };

static box gateway;
static uint32_t turn = UINT32_MAX; /* how many blocks a turn works out */
static const char *script;         /* null: standard input */
static const series *fit;          /* that the circuit must fit; null: none */
static size_t line_number;
static bool at_a_terminal; /* somebody types the commands */
static bool some_refused, is_over;
static size_t current; /* the command that is carried out */

/* ---- messages */

/* Tells why a command was not carried out. */
static void refuse(const char *format, ...) __attribute__((format(printf, 1, 2)));
static void refuse(const char *format, ...) {
    va_list words;
    fflush(stdout);
    fprintf(stderr, "gateway: ");
    if (!at_a_terminal)
        fprintf(stderr, "line %zu: ", line_number);
    va_start(words, format);
    vfprintf(stderr, format, words);
    va_end(words);
    fputc('\n', stderr);
    some_refused = true;
}

/* Tells what would fit the phase. */
static void refuse_phase(const char *call) {
    const unsigned to_go = blocks_to_go(&gateway);
    if (!is_in_scan(&gateway))
        refuse("%s is refused (22): no scan is open; latch opens one", call);
    else if (to_go > 0)
        refuse("%s is refused (22): a scan is open with %u block%s to go; run, then publish", call, to_go, plural(to_go));
    else
        refuse("%s is refused (22): a scan is open and worked out; publish closes it", call);
}

/* True if the call was accepted; else it is told why not. */
static bool is_accepted(const char *call, serifdove_answer answer) {
    if (answer.number == SERIFDOVE_WRONG_PHASE)
        refuse_phase(call);
    else if (answer.number != SERIFDOVE_ACCEPTED)
        refuse("%s is refused (%zu): %s; %s", call, answer.number, refusal_meaning(answer.number), refusal_cure(answer.number));
    return answer.number == SERIFDOVE_ACCEPTED;
}

/* The form of the command that is carried out: "look [FIRST [LAST]]". */
static shown_text form_of_current(void);

/* True if nothing is left of the line; else it is told. */
static bool is_end(char *line) {
    const char *word = next_word(&line);
    if (word != NULL)
        refuse("`%s` is too much; expected is: %s", shown(word).text, form_of_current().text);
    return word == NULL;
}

/* True if there is a word; else it is told. */
static bool is_there(const char *word) {
    if (word == NULL)
        refuse("a word is missing; expected is: %s", form_of_current().text);
    return word != NULL;
}

/* ---- inputs */

static void print_inputs(void) { print_words(stdout, gateway.inputs, SERIFDOVE_INPUT_WORD_COUNT, input_name, "all inputs 0"); }

/* One input and its value into these words; else it is told. */
static bool set_one(int32_t *inputs, const char *input, const char *value) {
    size_t place;
    uint64_t number;
    if (!read_input(input, &place)) {
        refuse("`%s` is no input; expected is I1 to I%d or AI1 to AI%d", shown(input).text, DIGITAL_INPUTS, ANALOG_INPUTS);
        return false;
    }
    const bool is_digital = place < DIGITAL_INPUTS;
    if (!is_there(value))
        return false;
    if (!read_number(value, 0, is_digital ? 1 : 1000, &number)) {
        refuse("`%s` is no value of %s; expected is %s", shown(value).text, input, is_digital ? "0 or 1" : "0 to 1000");
        return false;
    }
    inputs[place] = (int32_t)number;
    return true;
}

static void set_inputs(char *line) {
    int32_t inputs[SERIFDOVE_INPUT_WORD_COUNT];
    memcpy(inputs, gateway.inputs, sizeof inputs);
    for (char *input; (input = next_word(&line)) != NULL;) {
        char *equals = strchr(input, '=');
        if (equals != NULL)
            *equals++ = 0;
        if (!set_one(inputs, input, equals != NULL ? equals : next_word(&line)))
            return;
    }
    memcpy(gateway.inputs, inputs, sizeof inputs);
    printf("set: ");
    print_inputs();
    printf("\n");
}

/* ---- time */

/* e for a latch, up to when it counts, and the ticks that are too many for it. */
typedef struct {
    int32_t e;
    struct timespec until;
    int64_t surplus;
} elapsed;

static struct timespec last_latch; /* up to when the last latch counted */
static bool has_latched;

/* The ticks that the clock counted since the last latch, 0 at the first one. A rest below a tick counts at the next. A surplus does
   not: a delay or a stairway switch that begins in this scan must not count time from before it. */
static elapsed by_the_clock(struct timespec now) {
    enum { TICK = 10000000, SECOND = 1000000000 };
    if (!has_latched)
        return (elapsed){0, now, 0};
    const int64_t counted = ((int64_t)(now.tv_sec - last_latch.tv_sec) * SECOND + (now.tv_nsec - last_latch.tv_nsec)) / TICK;
    if (counted > GREATEST_E)
        return (elapsed){GREATEST_E, now, counted - GREATEST_E};
    const int64_t nanoseconds = last_latch.tv_nsec + counted * TICK;
    return (elapsed){(int32_t)counted, {last_latch.tv_sec + (time_t)(nanoseconds / SECOND), (long)(nanoseconds % SECOND)}, 0};
}

/* e by the word, or by the clock if there is none; else it is told. */
static bool read_elapsed(const char *word, elapsed *time) {
    struct timespec now;
    uint64_t ticks;
    clock_gettime(CLOCK_MONOTONIC, &now);
    if (word == NULL) {
        *time = by_the_clock(now);
        return true;
    }
    if (!read_time(word, &ticks)) {
        refuse("`%s` is no time; expected are whole ticks of 10 ms, such as 50, 500ms, 2.5s or 3min", shown(word).text);
        return false;
    }
    if (ticks > GREATEST_E) {
        refuse("`%s` is too long for one latch; expected is at most %d ticks, which are 655.35s", shown(word).text, GREATEST_E);
        return false;
    }
    *time = (elapsed){(int32_t)ticks, now, 0};
    return true;
}

/* ---- a scan */

static bool make_latch(const elapsed *time) {
    if (!is_accepted("latch", latch(&gateway, time->e)))
        return false;
    last_latch = time->until;
    has_latched = true;
    if (time->surplus > 0)
        printf("latch: the clock counted %" PRId64 " ticks more than e can be; they are not counted\n", time->surplus);
    return true;
}

static void open_scan(char *line) {
    elapsed time;
    const char *word = next_word(&line);
    if (!is_end(line) || !read_elapsed(word, &time) || !make_latch(&time))
        return;
    printf("latch: e %" PRId32 " (%s); ", time.e, time_of(time.e).text);
    print_inputs();
    printf("\n");
}

/* The word as a number of blocks, or `all`; else it is told. */
static bool read_blocks(const char *word, uint64_t least, uint32_t *blocks) {
    uint64_t number = UINT32_MAX;
    if (strcmp(word, "all") != 0 && !read_number(word, least, UINT32_MAX, &number)) {
        refuse("`%s` is no number of blocks; expected is %" PRIu64 " to %" PRIu32 ", or all", shown(word).text, least, UINT32_MAX);
        return false;
    }
    *blocks = (uint32_t)number;
    return true;
}

static void run_blocks(char *line) {
    const char *word = next_word(&line);
    uint32_t c = turn;
    if ((word != NULL && !read_blocks(word, 0, &c)) || !is_end(line))
        return;
    const serifdove_answer answer = run(&gateway, c);
    if (is_accepted("run", answer))
        printf("run: %zu block%s worked out, %zu to go\n", answer.first, plural(answer.first), answer.second);
}

/* "Q1 1; changed: Q1 0 -> 1", with the outputs as they were. */
static void print_outputs(const int32_t *before) {
    const char *between = "; changed: ";
    print_words(stdout, gateway.outputs, SERIFDOVE_OUTPUT_WORD_COUNT, output_name, "all outputs 0");
    for (size_t i = 0; i < SERIFDOVE_OUTPUT_WORD_COUNT; i++) {
        if (gateway.outputs[i] == before[i])
            continue;
        printf("%s%s %" PRId32 " -> %" PRId32, between, output_name(i).text, before[i], gateway.outputs[i]);
        between = ", ";
    }
    printf("%s\n", *between == ';' ? "; nothing changed" : "");
}

static void close_scan(char *line) {
    int32_t before[SERIFDOVE_OUTPUT_WORD_COUNT];
    memcpy(before, gateway.outputs, sizeof before);
    if (!is_end(line) || !is_accepted("publish", publish(&gateway)))
        return;
    printf("publish: ");
    print_outputs(before);
}

/* Latch, turns and publish; how many turns there were, 0 if a call was refused. */
static size_t whole_scan(const elapsed *time) {
    size_t turns = 0;
    if (!make_latch(time))
        return 0;
    for (serifdove_answer answer = {.second = 1}; answer.second > 0; turns++)
        if (!is_accepted("run", answer = run(&gateway, turn)))
            return 0;
    return is_accepted("publish", publish(&gateway)) ? turns : 0;
}

/* One scan of so many; it is told if it is the last or changed an output. False if a call was refused. */
static bool one_scan(const char *word, uint64_t i, uint64_t count) {
    elapsed time;
    int32_t before[SERIFDOVE_OUTPUT_WORD_COUNT];
    memcpy(before, gateway.outputs, sizeof before);
    if (!read_elapsed(word, &time))
        return false;
    const size_t turns = whole_scan(&time);
    if (turns == 0)
        return false;
    if (i == count || memcmp(before, gateway.outputs, sizeof before) != 0) {
        printf("scan %" PRIu64 " of %" PRIu64 ": e %" PRId32 " (%s), %zu turn%s; ", i, count, time.e, time_of(time.e).text, turns,
               plural(turns));
        print_outputs(before);
    }
    return true;
}

static void whole_scans(char *line) {
    const char *word = next_word(&line), *times = next_word(&line);
    uint64_t count = 1;
    if (times != NULL && !read_number(times, 1, MOST_SCANS, &count)) {
        refuse("`%s` is no number of scans; expected is 1 to %d", shown(times).text, MOST_SCANS);
        return;
    }
    bool goes_on = is_end(line);
    for (uint64_t i = 1; i <= count && goes_on; i++)
        goes_on = one_scan(word, i, count);
}

static void set_turn(char *line) {
    const char *word = next_word(&line);
    uint32_t blocks;
    if (!is_there(word) || !read_blocks(word, 1, &blocks) || !is_end(line))
        return;
    turn = blocks;
    if (turn == UINT32_MAX)
        printf("turn: all blocks\n");
    else
        printf("turn: %" PRIu32 " block%s\n", turn, plural(turn));
}

/* ---- looking, starting */

/* The word as a block's number, from the least on; else it is told. */
static bool read_block(const char *word, uint64_t least, uint64_t *number) {
    const unsigned n = gateway.circuit.n;
    if (read_number(word, least, n, number))
        return true;
    if (n == 0)
        refuse("`%s` is no block: this circuit has none", shown(word).text);
    else
        refuse("`%s` is no block; expected is %" PRIu64 " to %u", shown(word).text, least, n);
    return false;
}

static void look_at(char *line) {
    const char *first_word = next_word(&line), *last_word = next_word(&line);
    uint64_t first = 1, last = gateway.circuit.n;
    if (first_word != NULL) {
        if (!read_block(first_word, 1, &first))
            return;
        last = first;
    }
    if ((last_word != NULL && !read_block(last_word, first, &last)) || !is_end(line))
        return;
    const sight at = {&gateway.circuit, gateway.record, gateway.outputs, gateway.published, takes_colour()};
    look(stdout, &at, (unsigned)first, (unsigned)last);
}

static void start_cold(char *line) {
    if (!is_end(line))
        return;
    const bool was_in_scan = is_in_scan(&gateway);
    if (is_accepted("cold", cold_start(&gateway)))
        printf("cold: begun anew%s\n", was_in_scan ? "; the scan that was open is given up, its outputs were not published" : "");
}

static void start_warm(char *line) {
    if (is_end(line) && is_accepted("warm", warm_start(&gateway)))
        printf("warm: begun anew, retentive blocks kept\n");
}

/* ---- files */

/* The file's name, which is the rest of the line; else it is told. */
static char *file_name(char *line) {
    char *path = whole_rest(line);
    return is_there(path) ? path : NULL;
}

static void save_file(char *line) {
    const char *path = file_name(line);
    message why;
    if (path == NULL)
        return;
    if (save_record(path, gateway.bytes, gateway.circuit.length, gateway.record, gateway.record_len, &why))
        printf("save: %s\n", shown(path).text);
    else
        refuse("%s", why.text);
}

static void load_file(char *line) {
    const char *path = file_name(line);
    message why;
    if (path == NULL)
        return;
    if (is_in_scan(&gateway)) {
        refuse("load is refused: a scan is open and would be lost; close it by run and publish, or give it up by cold");
        return;
    }
    if (!load(&gateway, path, &why)) {
        refuse("%s; the record is as it was", why.text);
        return;
    }
    printf("load: %s, ", shown(path).text);
    print_phase(stdout, &gateway.circuit, gateway.record);
    printf("\n");
}

static void close_trace(void) {
    message why;
    if (end_trace(&gateway, &why))
        printf("trace: ended\n");
    else
        refuse("%s", why.text);
}

static void trace_file(char *line) {
    const char *path = whole_rest(line);
    message why;
    if (path == NULL && gateway.trace == NULL)
        refuse("no trace is being written: trace FILE begins one");
    else if (path == NULL)
        close_trace();
    else if (gateway.trace != NULL)
        refuse("a trace is being written: trace alone ends it, then another can begin");
    else if (begin_trace(&gateway, path, &why))
        printf("trace: %s\n", shown(path).text);
    else
        refuse("%s", why.text);
}

/* ---- the commands */

static void quit(char *line) { is_over = is_end(line); }

static void help(char *line);

static const struct {
    const char *name, *words, *what, *more;
    void (*carry_out)(char *line);
    bool takes_file; /* its words are a file's name */
} commands[] = {
    {"set", "INPUT VALUE ..", "inputs for the next latch; alone: shows them",
     "I1 to I24 take 0 or 1, AI1 to AI8 take 0 to 1000: set I1 1 AI2 250, or set I1=1. A line with a fault sets nothing.", set_inputs,
     false},
    {"latch", "[TIME]", "reads the inputs and opens a scan",
     "TIME is what passed since the last latch: 50 (ticks of 10 ms), 500ms, 2.5s, 3min. Alone: by the clock, 0 at the first.",
     open_scan, false},
    {"run", "[N]", "works out the next N blocks; alone: a turn", "N is 0 to 4294967295, or all. Outputs and flags stay as they were.",
     run_blocks, false},
    {"publish", "", "closes the scan: outputs and flags change, all at once", "Refused while blocks are to go.", close_scan, false},
    {"scan", "[TIME [COUNT]]", "latch, turns and publish, COUNT times",
     "Printed are the last scan and those in which an output changed. COUNT is 1 to 1000000.", whole_scans, false},
    {"turn", "N", "how many blocks a turn works out from now on", "N is 1 to 4294967295, or all.", set_turn, false},
    {"look", "[FIRST [LAST]]", "shows where the scan stands, and the blocks", "Between any two blocks. Outputs are shown as published.",
     look_at, false},
    {"warm", "", "warm start: begins anew, retentive blocks are kept", "Refused in a scan.", start_warm, false},
    {"cold", "", "cold start: begins anew", "A scan that is open is given up.", start_cold, false},
    {"save", "FILE", "writes the record to FILE, whole or not at all",
     "It replaces a record file, and nothing else. FILE may not end in .new, where it is written first.", save_file, true},
    {"load", "FILE", "takes the record from FILE", "It must be whole, of this circuit, and sound. Refused in a scan.", load_file, true},
    {"trace", "[FILE]", "writes every call from now on to FILE; alone: ends it", "FILE must not be there yet. replay plays it again.",
     trace_file, true},
    {"help", "[COMMAND]", "tells the commands, or more of one",
     "A word that begins with # begins a comment, but not behind save, load and trace.", help, false},
    {"quit", "", "ends; so does the end of input", "A trace is ended; a record that was not saved is lost.", quit, false},
};
enum { COMMANDS = sizeof commands / sizeof *commands };

static shown_text form_of_current(void) {
    shown_text form;
    snprintf(form.text, sizeof form.text, "%s%s%s", commands[current].name, *commands[current].words == 0 ? "" : " ",
             commands[current].words);
    return form;
}

/* Which command this is; COMMANDS if none, which is told. */
static size_t command_of(const char *word) {
    size_t i = 0;
    while (i < COMMANDS && strcmp(commands[i].name, word) != 0)
        i++;
    if (i == COMMANDS)
        refuse("there is no command `%s`; help tells those that there are", shown(word).text);
    return i;
}

static void help(char *line) {
    const char *word = next_word(&line);
    const size_t only = word == NULL ? COMMANDS : command_of(word);
    if ((word != NULL && only == COMMANDS) || !is_end(line))
        return;
    for (size_t i = 0; i < COMMANDS; i++)
        if (only == COMMANDS || only == i)
            printf("%-8s%-15s%s\n", commands[i].name, commands[i].words, commands[i].what);
    if (word != NULL)
        printf("%23s%s\n", "", commands[only].more);
}

/* Where a word begins with #, at the line's beginning or behind a blank; null if none does. */
static char *comment_of(char *line) {
    for (char *at = line; (at = strchr(at, '#')) != NULL; at++)
        if (at == line || at[-1] == ' ' || at[-1] == '\t')
            return at;
    return NULL;
}

/* Carries out the current command with the rest of its line. What seems a comment could be a part of a file's name: that is refused. */
static void carry_out_current(char *line) {
    char *comment = comment_of(line);
    if (comment != NULL && commands[current].takes_file) {
        refuse("behind %s no word may begin with #: a file's name is the rest of the line", commands[current].name);
        return;
    }
    if (comment != NULL)
        *comment = 0;
    commands[current].carry_out(line);
}

static void carry_out(char *line) {
    message why;
    const char *word = next_word(&line);
    if (word == NULL || *word == '#')
        return;
    current = command_of(word);
    if (current < COMMANDS)
        carry_out_current(line);
    if (gateway.trace != NULL && gateway.trace_error != 0 && !end_trace(&gateway, &why))
        refuse("%s; it is ended", why.text);
}

/* ---- lines */

typedef enum { LINE, TOO_LONG, ZERO_BYTE, NO_LINE } sort_of_line;

/* Reads a line without its end. A last line may lack its end; one that cannot be read to its end is none. */
static sort_of_line read_line(FILE *from, char *line) {
    sort_of_line sort = LINE;
    size_t length = 0;
    int c = getc(from);
    if (c == EOF)
        return NO_LINE;
    for (; c != EOF && c != '\n'; c = getc(from))
        if (c == 0)
            sort = ZERO_BYTE;
        else if (length == LONGEST_LINE)
            sort = TOO_LONG;
        else
            line[length++] = (char)c;
    if (length > 0 && line[length - 1] == '\r')
        length--;
    line[length] = 0;
    return ferror(from) ? NO_LINE : sort;
}

static void carry_out_all(FILE *from) {
    static char line[LONGEST_LINE + 1];
    while (!is_over) {
        if (at_a_terminal)
            printf("gateway> ");
        fflush(stdout);
        const sort_of_line sort = read_line(from, line);
        line_number++;
        if (sort == NO_LINE && at_a_terminal)
            printf("\n");
        if (sort == NO_LINE)
            break;
        if (sort == LINE)
            carry_out(line);
        else
            refuse(sort == TOO_LONG ? "a line has at most %d bytes"
                                    : "a zero byte stands in the line; a line is text of at most %d bytes",
                   LONGEST_LINE);
    }
    if (ferror(from))
        refuse("the commands cannot be read any further: %s", strerror(errno));
}

/* ---- beginning and ending */

static _Noreturn void cannot_begin(const char *why) {
    fprintf(stderr, "gateway: %s\n", why);
    exit(CANNOT_GO_ON);
}

/* How long a turn is, by the word behind --turn. */
static void read_turn(const char *word) {
    uint64_t number = UINT32_MAX;
    message why;
    if (word == NULL || (strcmp(word, "all") != 0 && !read_number(word, 1, UINT32_MAX, &number))) {
        fail(&why, "--turn needs a number of blocks, 1 to 4294967295, or all%s%s", word == NULL ? "" : ", not ",
             word == NULL ? "" : shown(word).text);
        cannot_begin(why.text);
    }
    turn = (uint32_t)number;
}

/* Which series the circuit must fit, by the word behind --series. */
static void choose_series(const char *word) {
    message why;
    if (!read_series(word, &fit, &why))
        cannot_begin(why.text);
}

/* The circuit's name; null if there is none. */
static const char *read_options(int count, char **words) {
    const char *path = NULL;
    for (int i = 1; i < count; i++) {
        const char *next = i + 1 < count ? words[i + 1] : NULL;
        if (strcmp(words[i], "--turn") == 0) {
            read_turn(next);
            i++;
        } else if (strcmp(words[i], "--script") == 0) {
            if (next == NULL)
                cannot_begin("--script needs the name of a file with commands");
            script = next;
            i++;
        } else if (strcmp(words[i], "--series") == 0) {
            choose_series(next);
            i++;
        } else if (words[i][0] == '-' || path != NULL) {
            fprintf(stderr, "gateway: `%s` is not expected\n%s", shown(words[i]).text, usage);
            exit(CANNOT_GO_ON);
        } else {
            path = words[i];
        }
    }
    return path;
}

/* Opens where the commands come from. */
static FILE *open_commands(void) {
    struct stat about;
    message why;
    FILE *from = script == NULL ? stdin : fopen(script, "r");
    if (from != NULL && (fstat(fileno(from), &about) != 0 || !S_ISDIR(about.st_mode)))
        return from;
    fail(&why, "the script %s cannot be opened: %s; a file with commands is expected",
         script == NULL ? "on standard input" : shown(script).text, from == NULL ? strerror(errno) : "it is a folder");
    cannot_begin(why.text);
}

/* Reads and judges the circuit, and starts. */
static void begin(const char *path) {
    circuit_bytes c;
    if (take_circuit("gateway", path, fit, &c) != CIRCUIT_TAKEN)
        exit(CANNOT_GO_ON);
    if (!open_box(&gateway, c.bytes, c.length))
        cannot_begin("there is no memory for the record");
    cold_start(&gateway);
    printf("circuit: %s, %zu bytes, %zu block%s, %zu row%s%s; cold start\n", shown(path).text, c.length, c.blocks, plural(c.blocks),
           c.rows, plural(c.rows), fits(fit).text);
}

static void end(void) {
    if (gateway.trace != NULL)
        close_trace();
    if (is_in_scan(&gateway)) {
        printf("quit: ");
        print_phase(stdout, &gateway.circuit, gateway.record);
        printf(": it was not published\n");
    }
    close_box(&gateway);
}

int main(int count, char **words) {
    if (count == 2 && (strcmp(words[1], "--help") == 0 || strcmp(words[1], "-h") == 0)) {
        fputs(usage, stdout);
        return ALL_WELL;
    }
    const char *path = read_options(count, words);
    if (path == NULL) {
        fputs(usage, stderr);
        return CANNOT_GO_ON;
    }
    FILE *from = open_commands();
    at_a_terminal = script == NULL && isatty(STDIN_FILENO);
    begin(path);
    carry_out_all(from);
    end();
    if (from != stdin)
        fclose(from);
    if (fflush(stdout) != 0 || ferror(stdout))
        cannot_begin("standard output cannot be written");
    return some_refused ? SOME_REFUSED : ALL_WELL;
}
