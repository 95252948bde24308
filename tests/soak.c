/* Starts the gateway over and over, gives it commands by chance, and kills it at any moment, most often while it saves. It plays the
   same commands itself: each line that the gateway printed must be as expected, and each record file must be whole and hold the record
   of the last save that the gateway told of, or of the one behind it.

   soak [--minutes N] [--seed S] [--self-test NAME] -- FOLDER GATEWAY-WORD..

   In FOLDER, which should be empty, stand the circuit, the last life's commands and what was said to them, and the record files. */
#define _DEFAULT_SOURCE
#include "../host/record_file.h"
#include "records.h"

#include <errno.h>
#include <fcntl.h>
#include <inttypes.h>
#include <signal.h>
#include <stdarg.h>
#include <stdio.h>
#include <stdlib.h>
#include <string.h>
#include <sys/stat.h>
#include <sys/wait.h>
#include <time.h>
#include <unistd.h>

enum { LINE = 2048, MOST_LINES = 256, MOST_SAVES = 64, FILES = 3, LIVES_OF_A_CIRCUIT = 12, LONGEST_LIFE = 120 /* seconds */ };

static const char usage[] = "usage: soak.sh [--minutes N] [--seed S]\n"
                            "N is a number above 0, such as 1 or 0.5; S is a whole number from 0 on.\n";

static const char *const file_names[FILES] = {"box.record", "dock door 4.record", "again.record"};

static const char *folder;
static uint64_t seed, circuit_seed; /* each life has a seed of its own: the circuit's, and its number among the circuit's lives */
static struct { uint64_t circuits, lives, commands, refused, lines, saves, kills, inside, loads; } counted;

static _Noreturn void mismatch(const char *format, ...) {
    va_list words;
    va_start(words, format);
    printf("soak: mismatch: ");
    vprintf(format, words);
    va_end(words);
    printf("\nsoak: seed %" PRIu64 ", circuit %" PRIu64 ", life %" PRIu64 "; from this circuit on: --seed %" PRIu64
           "\nsoak: the files are kept in %s\n",
           seed, counted.circuits, counted.lives, circuit_seed, folder);
    fflush(stdout);
    exit(1);
}

static _Noreturn void stop(const char *what) {
    perror(what);
    exit(2);
}

/* A gateway that does not end, ends when the pipe is closed with this process. */
static void on_alarm(int number) {
    static const char text[] = "soak: mismatch: a life takes more than two minutes; see the folder's commands\n";
    (void)number;
    _exit(write(STDOUT_FILENO, text, sizeof text - 1) < 0 ? 2 : 1);
}

/* ---- what is expected of a life */

typedef enum { WHOLE, BEGINS, LOOK } how_like;

/* A line of standard output. The save of this number is told by it, if not 0. */
static struct {
    char text[LINE];
    how_like how;
    unsigned save;
} expected[MOST_LINES];
static unsigned expected_count;

/* The numbers of the lines that are refused. */
static unsigned refused[MOST_LINES], refused_count;

/* The saves, from 1 on. */
static struct {
    unsigned file;
    int32_t words[MOST_RECORD];
} saved[MOST_SAVES + 1];
static unsigned saved_count;

static void expect(how_like how, const char *format, ...) {
    va_list words;
    if (expected_count == MOST_LINES)
        mismatch("a life has too many lines");
    va_start(words, format);
    vsnprintf(expected[expected_count].text, LINE, format, words);
    va_end(words);
    expected[expected_count].how = how;
    expected[expected_count++].save = 0;
}

/* ---- the box, played here too */

static circuit made;
static size_t words;
static int32_t record[MOST_RECORD], outputs[SERIFDOVE_OUTPUT_WORD_COUNT], inputs[SERIFDOVE_INPUT_WORD_COUNT];
static uint32_t turn;

/* What each file holds at this point of the life. */
static struct {
    bool is_there;
    int32_t words[MOST_RECORD];
} stored[FILES];

static FILE *commands;
static unsigned line_number;
static const char *told_wrong; /* the self-test's name, or null */

static bool is_told_wrong(const char *name) { return told_wrong != NULL && strcmp(told_wrong, name) == 0; }

static void command(const char *format, ...) {
    va_list rest;
    va_start(rest, format);
    vfprintf(commands, format, rest);
    va_end(rest);
    fputc('\n', commands);
    line_number++;
    counted.commands++;
}

/* Whether it is accepted; else the command is refused. */
static bool is_accepted(serifdove_answer answer) {
    if (answer.number != 0) {
        refused[refused_count++] = line_number;
        counted.refused++;
    }
    return answer.number == 0;
}

static void must_be_refused(void) { is_accepted((serifdove_answer){.number = 1}); }

/* ", Q3 1, AQ2 70" into the text: the words that are not 0, with the names of `digital` and of the others. */
static void add_words(char *text, const int32_t *list, size_t count, size_t digital, const char *letter, const char *none) {
    const size_t begin = strlen(text);
    for (size_t i = 0; i < count; i++)
        if (list[i] != 0)
            snprintf(text + strlen(text), LINE - strlen(text), "%s%s%s%zu %" PRId32, strlen(text) == begin ? "" : ", ",
                     i < digital ? "" : "A", letter, i < digital ? i + 1 : i - digital + 1, list[i]);
    if (strlen(text) == begin)
        snprintf(text + begin, LINE - begin, "%s", none);
}

static void expect_outputs(const int32_t *before) {
    char text[LINE] = "publish: ";
    bool changed = false;
    add_words(text, outputs, SERIFDOVE_OUTPUT_WORD_COUNT, SERIFDOVE_AQ(1), "Q", "all outputs 0");
    for (size_t i = 0; i < SERIFDOVE_OUTPUT_WORD_COUNT; i++)
        if (outputs[i] != before[i]) {
            const bool analog = i >= SERIFDOVE_AQ(1);
            snprintf(text + strlen(text), LINE - strlen(text), "%s%sQ%zu %" PRId32 " -> %" PRId32,
                     changed ? ", " : "; changed: ", analog ? "A" : "", analog ? i - SERIFDOVE_AQ(1) + 1 : i + 1, before[i],
                     outputs[i]);
            changed = true;
        }
    expect(WHOLE, "%s%s", text, changed ? "" : "; nothing changed");
}

static void phase_text(char *text) {
    if (record[SERIFDOVE_PHASE] == 0)
        snprintf(text, LINE, "waiting");
    else
        snprintf(text, LINE, "in a scan, %" PRId32 " of %u blocks done", record[SERIFDOVE_DONE], made.n);
}

/* ---- the commands by chance */

static void do_set(chance *with) {
    char text[LINE] = "", line[LINE] = "set: ";
    for (unsigned times = below(with, 5); times > 0; times--) {
        const unsigned i = below(with, SERIFDOVE_INPUT_WORD_COUNT);
        const bool analog = i >= SERIFDOVE_INPUT_AI(1);
        inputs[i] = analog ? usual_value(with, 0, 1000) : (int32_t)below(with, 2);
        snprintf(text + strlen(text), sizeof text - strlen(text), " %sI%u %" PRId32, analog ? "A" : "",
                 analog ? i - SERIFDOVE_INPUT_AI(1) + 1 : i + 1, inputs[i]);
    }
    command("set%s", text);
    add_words(line, inputs, SERIFDOVE_INPUT_WORD_COUNT, SERIFDOVE_INPUT_AI(1), "I", "all inputs 0");
    expect(WHOLE, "%s", line);
}

static bool latch(int32_t e) {
    return is_accepted(serifdove_latch(made.bytes, made.length, record, words, inputs, SERIFDOVE_INPUT_WORD_COUNT, e));
}

static void do_latch(chance *with) {
    const int32_t e = random_e(&made, with, record);
    if (once_in(with, 4))
        command("latch %" PRId32 "0ms", e);
    else
        command("latch %" PRId32, e);
    if (latch(e))
        expect(BEGINS, "latch: e %" PRId32 " (", e);
}

static void do_run(chance *with) {
    uint32_t c = once_in(with, 8) ? UINT32_MAX - below(with, 2) : below(with, made.n + 2);
    if (once_in(with, 3)) {
        c = turn;
        command("run");
    } else {
        command("run %" PRIu32, c);
    }
    const serifdove_answer answer = serifdove_run(made.bytes, made.length, record, words, c);
    if (is_accepted(answer))
        expect(WHOLE, "run: %zu block%s worked out, %zu to go", answer.first, answer.first == 1 ? "" : "s", answer.second);
}

static void do_publish(chance *with) {
    int32_t before[SERIFDOVE_OUTPUT_WORD_COUNT];
    (void)with;
    memcpy(before, outputs, sizeof before);
    command("publish");
    if (is_accepted(serifdove_publish(made.bytes, made.length, record, words, outputs, SERIFDOVE_OUTPUT_WORD_COUNT)))
        expect_outputs(before);
}

static void do_scan(chance *with) {
    const int32_t e = random_e(&made, with, record);
    command("scan %" PRId32, e);
    if (!latch(e))
        return;
    serifdove_run(made.bytes, made.length, record, words, UINT32_MAX);
    serifdove_publish(made.bytes, made.length, record, words, outputs, SERIFDOVE_OUTPUT_WORD_COUNT);
    expect(BEGINS, "scan 1 of 1: e %" PRId32 " (", e);
}

static void do_start(bool warm) {
    command(warm ? "warm" : "cold");
    if (is_accepted(warm ? serifdove_warm_start(made.bytes, made.length, record, words)
                         : serifdove_cold_start(made.bytes, made.length, record, words)))
        expect(BEGINS, warm ? "warm: " : "cold: ");
}

static void do_turn(chance *with) {
    turn = 1 + below(with, made.n + 1);
    command("turn %" PRIu32, turn);
    expect(WHOLE, "turn: %" PRIu32 " block%s", turn, turn == 1 ? "" : "s");
}

static void do_look(chance *with) {
    const unsigned first = 1 + below(with, made.n);
    char phase[LINE];
    if (once_in(with, 4))
        command("look");
    else
        command("look %u %u", first, first + below(with, made.n - first + 1));
    phase_text(phase);
    expect(LOOK, "phase    %s", phase);
}

static void do_save(unsigned file) {
    if (saved_count == MOST_SAVES)
        return;
    command("save %s", file_names[file]);
    expect(WHOLE, is_told_wrong("another_line") ? "saved: %s" : "save: %s", file_names[file]);
    expected[expected_count - 1].save = ++saved_count;
    saved[saved_count].file = file;
    memcpy(saved[saved_count].words, record, words * sizeof *record);
    saved[saved_count].words[SERIFDOVE_AM(1)] += is_told_wrong("another_word");
    stored[file].is_there = true;
    memcpy(stored[file].words, record, words * sizeof *record);
}

static void do_load(unsigned file) {
    char phase[LINE];
    command("load %s", file_names[file]);
    if (record[SERIFDOVE_PHASE] == 1 || !stored[file].is_there) {
        must_be_refused();
        return;
    }
    memcpy(record, stored[file].words, words * sizeof *record);
    phase_text(phase);
    expect(WHOLE, "load: %s, %s", file_names[file], phase);
}

/* Refused in any phase. */
static const char *const bad_commands[] = {
    "frobnicate",
    "set I25 1",
    "set I1 2",
    "set AI1 1001",
    "set I1",
    "set AI9 1",
    "latch 65536",
    "latch x",
    "latch 1 2",
    "latch -1",
    "run -1",
    "run 4294967296",
    "run x",
    "run 1 1",
    "publish now",
    "warm now",
    "cold now",
    "save",
    "load",
    "load missing.record",
    "load .",
    "save .",
    "save missing/x",
    "save circuit",
    "load circuit",
    "load torn.record",
    "look 0",
    "look 401",
    "turn 0",
    "turn",
    "help frobnicate",
    "trace",
    "scan x",
    "scan 1 0",
    "quit now",
    "Cold",
    "\x01",
};

static void do_bad(chance *with) {
    command("%s", bad_commands[below(with, sizeof bad_commands / sizeof *bad_commands)]);
    must_be_refused();
}

static void do_nothing(chance *with) { command(once_in(with, 2) ? "# a comment" : ""); }

static void do_warm(chance *with) {
    (void)with;
    do_start(true);
}

static void do_cold_seldom(chance *with) {
    if (once_in(with, 3))
        do_start(false);
}

static void do_some_save(chance *with) { do_save(below(with, FILES)); }

static void do_some_load(chance *with) { do_load(below(with, FILES)); }

/* What is done beside going on with the scan, each as often as it stands here. */
static void (*const asides[])(chance *) = {do_warm, do_cold_seldom, do_bad, do_look, do_turn, do_some_load, do_nothing,  do_publish,
                                           do_scan, do_scan,        do_set, do_set,  do_set,  do_some_save, do_some_save};

static void do_something(chance *with) {
    enum { CHOICES = 24 };
    const unsigned which = below(with, CHOICES);
    if (which < sizeof asides / sizeof *asides)
        asides[which](with);
    else if (record[SERIFDOVE_PHASE] == 0)
        do_latch(with);
    else if (record[SERIFDOVE_DONE] < (int32_t)made.n)
        do_run(with);
    else
        do_publish(with);
}

/* ---- a life */

/* Writes a life's commands: what was kept is loaded and saved again, then things by chance, then saves at every step. */
static void write_life(chance *with) {
    commands = fopen("commands", "w");
    if (commands == NULL)
        stop("commands");
    expected_count = refused_count = saved_count = line_number = 0;
    memset(inputs, 0, sizeof inputs);
    memset(outputs, 0, sizeof outputs);
    serifdove_cold_start(made.bytes, made.length, record, words);
    expect(BEGINS, "circuit: ");
    for (unsigned file = 0; file < FILES; file++)
        if (stored[file].is_there) {
            if (record[SERIFDOVE_PHASE] == 1)
                do_start(false);
            do_load(file);
            do_save(FILES - 1);
        }
    for (unsigned steps = below(with, 60); steps > 0; steps--)
        do_something(with);
    for (unsigned steps = below(with, 12); steps > 0; steps--) {
        do_something(with);
        do_save(below(with, FILES));
    }
    if (fclose(commands) != 0)
        stop("commands");
}

/* The gateway, with the commands in its pipe, which stays open in the second file. */
static pid_t start_gateway(char **gateway, int *pipe_end) {
    char turn_word[16];
    int ends[2];
    snprintf(turn_word, sizeof turn_word, "%" PRIu32, turn);
    unlink("said");
    unlink("errors");
    if (pipe(ends) != 0)
        stop("pipe");
    const pid_t child = fork();
    if (child < 0)
        stop("fork");
    if (child == 0) {
        char *all[32];
        unsigned count = 0;
        for (; gateway[count] != NULL && count < 24; count++)
            all[count] = gateway[count];
        all[count++] = "circuit";
        all[count++] = "--turn";
        all[count++] = turn_word;
        all[count] = NULL;
        const int said = open("said", O_WRONLY | O_CREAT | O_EXCL, 0644), errors = open("errors", O_WRONLY | O_CREAT | O_EXCL, 0644);
        if (said < 0 || errors < 0 || dup2(ends[0], 0) < 0 || dup2(said, 1) < 0 || dup2(errors, 2) < 0)
            _exit(126);
        close(ends[0]);
        close(ends[1]);
        execvp(all[0], all);
        _exit(127);
    }
    close(ends[0]);
    *pipe_end = ends[1];
    return child;
}

static uint64_t microseconds(void) {
    struct timespec now;
    clock_gettime(CLOCK_MONOTONIC, &now);
    return (uint64_t)now.tv_sec * 1000000 + (uint64_t)now.tv_nsec / 1000;
}

static bool is_there(const char *name) {
    struct stat about;
    return lstat(name, &about) == 0;
}

/* Whether the gateway is inside a save. */
static bool is_saving(void) {
    char name[64];
    bool found = false;
    for (unsigned file = 0; file < FILES; file++) {
        snprintf(name, sizeof name, "%s.new", file_names[file]);
        found = found || is_there(name);
    }
    return found;
}

static bool has_leftover; /* a temporary file of an earlier life is still there: no save can be seen by it */

static void remove_temporary(void) {
    char name[64];
    for (unsigned file = 0; file < FILES; file++) {
        snprintf(name, sizeof name, "%s.new", file_names[file]);
        unlink(name);
    }
}

static void give_commands(int pipe_end) {
    static char text[1 << 17];
    FILE *from = fopen("commands", "r");
    const size_t length = from == NULL ? 0 : fread(text, 1, sizeof text, from);
    if (from == NULL || fclose(from) != 0 || length == sizeof text)
        stop("commands");
    for (size_t at = 0; at < length;) {
        const ssize_t count = write(pipe_end, text + at, length - at);
        if (count < 0 && errno == EPIPE)
            mismatch("the gateway has ended by itself");
        if (count < 0)
            stop("pipe");
        at += (size_t)count;
    }
}

static uint64_t usual_time = 20000; /* that a whole life takes, in microseconds */

/* Kills it at some moment, once in two when a save is seen, if one can be. */
static void kill_gateway(chance *with, pid_t child) {
    const uint64_t from = microseconds(), most = usual_time;
    int status;
    if (once_in(with, 2) && !has_leftover) {
        const uint64_t skip = below(with, (uint32_t)most);
        while (microseconds() - from < most && !(microseconds() - from >= skip && is_saving()))
            ;
        if (once_in(with, 2))
            usleep(below(with, 500));
    } else {
        usleep(below(with, (uint32_t)most));
    }
    if (kill(child, SIGKILL) != 0 || waitpid(child, &status, 0) != child)
        stop("kill");
    if (!WIFSIGNALED(status))
        mismatch("the gateway has ended by itself, with status %d", WEXITSTATUS(status));
    counted.kills++;
    counted.inside += !has_leftover && is_saving();
}

/* Lets it end; its status tells whether a command was refused. */
static void let_end(pid_t child, uint64_t from) {
    int status;
    if (waitpid(child, &status, 0) != child)
        stop("waitpid");
    usual_time = (7 * usual_time + 2 * (microseconds() - from)) / 8;
    if (!WIFEXITED(status) || WEXITSTATUS(status) != (refused_count > 0))
        mismatch("the gateway ends with status %d, %d is expected", status, refused_count > 0);
}

/* ---- what was said */

static bool is_a_command_line(const char *line) {
    static const char *const heads[] = {
        "set: ", "latch: ", "run: ", "publish: ", "scan ", "warm: ", "cold: ", "save: ", "load: ", "turn: ", "phase ", "quit: "};
    for (size_t i = 0; i < sizeof heads / sizeof *heads; i++)
        if (strncmp(line, heads[i], strlen(heads[i])) == 0)
            return true;
    return false;
}

/* Gives each whole line of the file to the judge, without its end. A last line without its end is passed over. */
static void judge_lines(const char *name, void (*judge)(const char *line)) {
    char *line = NULL;
    size_t room = 0;
    ssize_t length;
    FILE *from = fopen(name, "r");
    while (from != NULL && (length = getline(&line, &room, from)) >= 0 && line[length - 1] == '\n') {
        line[length - 1] = 0;
        judge(line);
    }
    if (from != NULL)
        fclose(from);
    free(line);
}

/* How many of the expected lines were said, and of the refusals told, in their order. */
static unsigned said, told;

/* The next of the expected lines. Lines behind a look's first are passed over. */
static void judge_said(const char *line) {
    if (said > 0 && expected[said - 1].how == LOOK && !is_a_command_line(line))
        return;
    if (said == expected_count)
        mismatch("said: '%s'; nothing more is expected", line);
    const char *text = expected[said].text;
    if (expected[said].how == WHOLE ? strcmp(line, text) != 0 : strncmp(line, text, strlen(text)) != 0)
        mismatch("said: '%s'; expected: '%s'", line, text);
    said++;
}

/* The next of the refusals. */
static void judge_told(const char *line) {
    char text[64];
    if (told == refused_count)
        mismatch("told: '%s'; no refusal is expected", line);
    snprintf(text, sizeof text, "gateway: line %u: ", refused[told++]);
    if (strncmp(line, text, strlen(text)) != 0)
        mismatch("told: '%s'; expected: '%s'", line, text);
}

/* ---- what is in the files */

/* What each file held when the life began. */
static bool was_there[FILES];
static int32_t was[FILES][MOST_RECORD];

/* The self-tests' faults in a file, between kill and load. */
static void spoil(const char *name) {
    struct stat about;
    message why;
    if (is_told_wrong("torn_file") && stat(name, &about) == 0 && truncate(name, about.st_size / 2) != 0)
        stop(name);
    if (is_told_wrong("first_save_back") && saved_count > 2 && saved[saved_count].file == saved[1].file)
        save_record(name, made.bytes, made.length, saved[1].words, words, &why);
    if (is_told_wrong("file_lost"))
        unlink(name);
}

/* The file holds what the last save that was told of left, or the one behind it; `saves` were told of. */
static void judge_file(unsigned file, unsigned saves) {
    static int32_t found[MOST_RECORD];
    const size_t size = words * sizeof *found;
    const int32_t *last = was_there[file] ? was[file] : NULL, *next = NULL;
    message why;
    for (unsigned k = 1; k <= saves; k++)
        if (saved[k].file == file)
            last = saved[k].words;
    if (saves < saved_count && saved[saves + 1].file == file)
        next = saved[saves + 1].words;
    spoil(file_names[file]);
    stored[file].is_there = is_there(file_names[file]);
    if (!stored[file].is_there && last != NULL)
        mismatch("%s is gone", file_names[file]);
    if (!stored[file].is_there)
        return;
    if (!load_record(file_names[file], made.bytes, made.length, found, words, &why))
        mismatch("refused: %s", why.text);
    if ((last == NULL || memcmp(found, last, size) != 0) && (next == NULL || memcmp(found, next, size) != 0))
        mismatch("%s holds neither the record of the last save nor that of the next", file_names[file]);
    memcpy(stored[file].words, found, size);
}

static void judge_life(bool is_whole) {
    unsigned saves = 0;
    said = told = 0;
    judge_lines("said", judge_said);
    judge_lines("errors", judge_told);
    counted.lines += said;
    for (unsigned i = 0; i < said; i++) {
        if (expected[i].save != 0)
            saves = expected[i].save;
        counted.loads += strncmp(expected[i].text, "load: ", strlen("load: ")) == 0;
    }
    counted.saves += saves;
    if (is_whole && (said != expected_count || told != refused_count))
        mismatch("%u of %u lines said, %u of %u refusals told", said, expected_count, told, refused_count);
    for (unsigned file = 0; file < FILES; file++)
        judge_file(file, saves);
}

static void live(chance *with, char **gateway) {
    int pipe_end;
    const bool by_chance = once_in(with, 8), is_whole = counted.lives < 3 || by_chance;
    counted.lives++;
    alarm(LONGEST_LIFE);
    has_leftover = is_saving();
    for (unsigned file = 0; file < FILES; file++) {
        was_there[file] = stored[file].is_there;
        memcpy(was[file], stored[file].words, sizeof was[file]);
    }
    turn = 1 + below(with, made.n);
    const uint32_t first_turn = turn;
    write_life(with);
    turn = first_turn;
    const uint64_t from = microseconds();
    const pid_t child = start_gateway(gateway, &pipe_end);
    give_commands(pipe_end);
    if (!is_whole)
        kill_gateway(with, child);
    close(pipe_end);
    if (is_whole) {
        if (record[SERIFDOVE_PHASE] == 1)
            expect(BEGINS, "quit: ");
        let_end(child, from);
    }
    judge_life(is_whole);
    if (!once_in(with, 4))
        remove_temporary();
}

/* ---- the whole */

static void put_file(const char *name, const void *bytes, size_t length) {
    FILE *to = fopen(name, "wb");
    if (to == NULL || fwrite(bytes, 1, length, to) != length || fclose(to) != 0)
        stop(name);
}

static void begin_circuit_files(chance *with) {
    static const char torn[] = "serifdove record 1\ncircuit 34 485d2266\nrecord 167 0 0 1 0";
    lively_circuit(&made, with, (unsigned)between(with, 1, once_in(with, 6) ? MOST_BLOCKS : 30), 4 + below(with, 24), 0);
    words = SERIFDOVE_RECORD_WORDS(made.n);
    put_file("circuit", made.bytes, made.length);
    put_file("torn.record", torn, sizeof torn - 1);
    for (unsigned file = 0; file < FILES; file++) {
        unlink(file_names[file]);
        stored[file].is_there = false;
    }
    remove_temporary();
    counted.circuits++;
}

static void soak(double minutes, char **gateway) {
    const uint64_t from = microseconds(), most = (uint64_t)(minutes * 60e6);
    do {
        chance with = chance_of(circuit_seed = seed + counted.circuits * (LIVES_OF_A_CIRCUIT + 1));
        begin_circuit_files(&with);
        for (unsigned life = 1; life <= LIVES_OF_A_CIRCUIT; life++) {
            with = chance_of(circuit_seed + life);
            live(&with, gateway);
        }
    } while (microseconds() - from < most);
    printf("soak: seed %" PRIu64 ": %" PRIu64 " circuits, %" PRIu64 " lives, %" PRIu64 " commands given, %" PRIu64
           " of them to be refused, %" PRIu64 " lines as expected\n",
           seed, counted.circuits, counted.lives, counted.commands, counted.refused, counted.lines);
    printf("soak: %" PRIu64 " saves told, %" PRIu64 " kills, %" PRIu64 " of them inside a save, %" PRIu64 " loads told\n",
           counted.saves, counted.kills, counted.inside, counted.loads);
    if (counted.inside == 0 && told_wrong == NULL)
        mismatch("no kill fell inside a save");
}

static bool read_minutes(const char *word, double *minutes) {
    char *end;
    if (word[0] == 0 || strspn(word, "0123456789.") != strlen(word))
        return false;
    *minutes = strtod(word, &end);
    return *end == 0 && *minutes > 0 && *minutes <= 1e6;
}

static bool read_seed(const char *word) {
    char *end;
    errno = 0;
    seed = strtoull(word, &end, 10);
    return word[0] != 0 && strspn(word, "0123456789") == strlen(word) && errno == 0 && *end == 0;
}

int main(int argc, char **argv) {
    double minutes = 1;
    int at = 1;
    bool good = true;
    seed = (uint64_t)time(NULL) << 16 ^ (uint64_t)getpid();
    for (; good && at + 1 < argc && strcmp(argv[at], "--") != 0; at += 2)
        if (strcmp(argv[at], "--minutes") == 0)
            good = read_minutes(argv[at + 1], &minutes);
        else if (strcmp(argv[at], "--seed") == 0)
            good = read_seed(argv[at + 1]);
        else if (strcmp(argv[at], "--self-test") == 0)
            told_wrong = argv[at + 1];
        else
            good = false;
    if (!good || at + 2 >= argc || strcmp(argv[at], "--") != 0) {
        fputs(usage, stderr);
        return 2;
    }
    folder = argv[at + 1];
    if (chdir(folder) != 0)
        stop(folder);
    signal(SIGPIPE, SIG_IGN);
    signal(SIGALRM, on_alarm);
    printf("soak: seed %" PRIu64 ", %g minutes, in %s\n", seed, minutes, folder);
    fflush(stdout);
    soak(minutes, argv + at + 2);
    return 0;
}
