/* Plays a truck's visit at dock door 3 on the supplied circuit: scan by scan what is read, worked out and published, each scan in turns
   of another length, with printer jobs between them. Beside it the same scans are done in one go on a second record, and every word is
   compared. */
#define _POSIX_C_SOURCE 200809L
#include "box.h"
#include "circuit_file.h"
#include "refusals.h"

#include <inttypes.h>
#include <stdarg.h>
#include <stdlib.h>
#include <string.h>
#include <unistd.h>

static const char usage[] = "usage: demo CIRCUIT [--break FAULT]\n"
                            "Plays a truck's visit at dock door 3 on the circuit of samples/harbour.csv, scan by scan.\n"
                            "--break FAULT is for the test: the program meets this fault on purpose, and must tell it.\n"
                            "  reading   in scan 7 the second record reads another I6\n"
                            "  output    in scan 5 an output word changes before the publish\n"
                            "  flag      in scan 5 a flag changes before the publish\n"
                            "  turn      in scan 5 a turn works out one block more than it was asked for\n"
                            "  refused   in scan 5 the refused publish changes the record\n"
                            "  yard      in scan 5 the leveller is not down, and the door stays shut\n"
                            "Status 0: all was as it must be, and the same scans in one go gave the same words.\n"
                            "       1: it was not; the first difference is told.\n"
                            "       2: the circuit is refused or another one, or output cannot be written.\n";

enum status { FINE = 0, DIFFERS = 1, CANNOT = 2 };

/* ---- the visit. The table stands here and not in a file, so that readings and the outputs that must follow, worked out by hand, stand
   side by side, and no second form of file is to be judged. */

/* A word of the inputs or outputs by its name. A list of them ends with one that has no name. */
typedef struct {
    const char *name;
    int32_t value;
} named_value;

enum { MOST_NAMED = 8, ALL = SERIFDOVE_MOST_BLOCKS };

typedef struct {
    const char *story;
    int32_t e;
    uint32_t turn;                    /* how many blocks a turn works out */
    named_value reading[MOST_NAMED];  /* what is read otherwise than in the scan before */
    named_value expected[MOST_NAMED]; /* what the publish must leave; all other outputs are 0 */
    bool has_empty_turn;              /* its first turn works out no block */
    bool is_hasty;                    /* a publish is tried with blocks to go */
} scan;

static const scan visit[] = {
    {.story = "The box is switched on. Door 3 is shut, nobody is there; the pit stands at 42.0 %.",
     .e = 0,
     .turn = ALL,
     .reading = {{"I3", 1}, {"I7", 1}, {"AI1", 420}},
     .expected = {{"Q7", 1}, {"AQ1", 420}}},
    {.story = "A truck docks at door 3.", .e = 500, .turn = 3, .reading = {{"I4", 1}}, .expected = {{"Q7", 1}, {"AQ1", 420}}},
    {.story = "OPEN is pressed with the leveller still up: the door must stay shut.",
     .e = 200,
     .turn = 1,
     .reading = {{"I1", 1}},
     .expected = {{"Q7", 1}, {"AQ1", 420}}},
    {.story = "OPEN is let go, and the leveller comes down: nothing may move by itself.",
     .e = 100,
     .turn = 8,
     .reading = {{"I1", 0}, {"I5", 1}},
     .expected = {{"Q7", 1}, {"AQ1", 420}},
     .has_empty_turn = true},
    {.story = "OPEN is pressed again: now the door must go up, and the truck's lamp turn red.",
     .e = 150,
     .turn = 2,
     .reading = {{"I1", 1}},
     .expected = {{"Q1", 1}, {"Q8", 1}, {"AQ1", 420}},
     .is_hasty = true},
    {.story = "OPEN is let go; the door leaves the ground and goes on rising.",
     .e = 100,
     .turn = 4,
     .reading = {{"I1", 0}, {"I7", 0}},
     .expected = {{"Q1", 1}, {"Q8", 1}, {"AQ1", 420}}},
    {.story = "The door stands open: its motor must stop.",
     .e = 600,
     .turn = ALL,
     .reading = {{"I6", 1}},
     .expected = {{"Q8", 1}, {"AQ1", 420}}},
    {.story = "A pallet comes into the doorway: lane 1 must run.",
     .e = 300,
     .turn = 5,
     .reading = {{"I8", 1}},
     .expected = {{"Q3", 1}, {"Q8", 1}, {"AQ1", 420}}},
    {.story = "The pallet is through: the lane runs on, 3 s. The pit is above 60 %: the pump must run.",
     .e = 200,
     .turn = 3,
     .reading = {{"I8", 0}, {"AI1", 640}},
     .expected = {{"Q3", 1}, {"Q4", 1}, {"Q8", 1}, {"AQ1", 640}}},
    {.story = "CLOSE is pressed while the lane still runs: the door must stay open.",
     .e = 150,
     .turn = 8,
     .reading = {{"I2", 1}},
     .expected = {{"Q3", 1}, {"Q4", 1}, {"Q8", 1}, {"AQ1", 640}}},
    {.story = "CLOSE is let go. 3 s after the pallet the lane must stop.",
     .e = 150,
     .turn = 6,
     .reading = {{"I2", 0}},
     .expected = {{"Q4", 1}, {"Q8", 1}, {"AQ1", 640}}},
    {.story = "5 s above 60 %: the level alarm must come on. The stairs button is pressed.",
     .e = 200,
     .turn = 7,
     .reading = {{"I9", 1}, {"AI1", 705}},
     .expected = {{"Q4", 1}, {"Q5", 1}, {"Q6", 1}, {"Q8", 1}, {"AQ1", 705}}},
    {.story = "CLOSE is pressed, the lane stands: the door must come down. The stairs button is let go.",
     .e = 100,
     .turn = 2,
     .reading = {{"I2", 1}, {"I9", 0}},
     .expected = {{"Q2", 1}, {"Q4", 1}, {"Q5", 1}, {"Q6", 1}, {"Q8", 1}, {"AQ1", 705}}},
    {.story = "On its way down the emergency stop is pressed: the door must stop where it is.",
     .e = 100,
     .turn = 4,
     .reading = {{"I2", 0}, {"I3", 0}, {"I6", 0}},
     .expected = {{"Q4", 1}, {"Q5", 1}, {"Q6", 1}, {"Q8", 1}, {"AQ1", 705}}},
    {.story = "The emergency stop is pulled out again: nothing may move by itself.",
     .e = 1000,
     .turn = 3,
     .reading = {{"I3", 1}},
     .expected = {{"Q4", 1}, {"Q5", 1}, {"Q6", 1}, {"Q8", 1}, {"AQ1", 705}}},
    {.story = "CLOSE again: the door must come down. The pit is below 50 %: pump and alarm must stop.",
     .e = 100,
     .turn = 5,
     .reading = {{"I2", 1}, {"AI1", 480}},
     .expected = {{"Q2", 1}, {"Q6", 1}, {"Q8", 1}, {"AQ1", 480}}},
    {.story = "The door is shut: its motor must stop, and the truck gets its green lamp.",
     .e = 700,
     .turn = 6,
     .reading = {{"I2", 0}, {"I7", 1}},
     .expected = {{"Q6", 1}, {"Q7", 1}, {"AQ1", 480}}},
    {.story = "The truck has left. Two minutes after its button the light on the stairs must go off.",
     .e = 10100,
     .turn = ALL,
     .reading = {{"I4", 0}, {"I5", 0}},
     .expected = {{"Q7", 1}, {"AQ1", 480}}},
};

enum { SCANS = sizeof visit / sizeof *visit };

/* What stands behind the words of this circuit. */
static const struct {
    const char *name, *meaning;
} meanings[] = {
    {"I1", "button OPEN"},    {"I2", "button CLOSE"},  {"I3", "emergency stop not pressed"},
    {"I4", "truck docked"},   {"I5", "leveller down"}, {"I6", "door open"},
    {"I7", "door shut"},      {"I8", "pallet seen"},   {"I9", "button stairs"},
    {"AI1", "pit level"},     {"Q1", "door motor UP"}, {"Q2", "door motor DOWN"},
    {"Q3", "lane 1 runs"},    {"Q4", "pit pump"},      {"Q5", "level alarm"},
    {"Q6", "stairs light"},   {"Q7", "lamp green"},    {"Q8", "lamp red"},
    {"AQ1", "level display"},
};

/* The labels of its blocks, by which the circuit is known. */
static const char *const labels[] = {"open_press", "close_press", "clear",         "lane_stop", "lane",
                                     "up_stop",    "up",          "blocked",       "down_stop", "down",
                                     "level",      "level_alarm", "stairs, 2 min", "may_leave", "stay"};

enum { BLOCKS = sizeof labels / sizeof *labels };

static const char *meaning_of(const char *name) {
    for (size_t i = 0; i < sizeof meanings / sizeof *meanings; i++)
        if (strcmp(meanings[i].name, name) == 0)
            return meanings[i].meaning;
    return "";
}

/* ---- faults on purpose */

typedef enum { NO_FAULT, READING, OUTPUT, FLAG, TURN, REFUSED, YARD, FAULTS } fault;

static const char *const fault_names[FAULTS] = {"", "reading", "output", "flag", "turn", "refused", "yard"};

enum { READING_SCAN = 7, FAULT_SCAN = 5 };

static fault broken = NO_FAULT;

/* ---- the two boxes, of one circuit */

static box in_turns, in_one_go;
static unsigned scan_number, turn_number, turns, jobs;
static size_t job_bytes;
static uint32_t job_sum;

/* What is lent to the calls, copied. */
typedef struct {
    int32_t record[SERIFDOVE_RECORD_WORDS(SERIFDOVE_MOST_BLOCKS)];
    int32_t outputs[SERIFDOVE_OUTPUT_WORD_COUNT];
} lent;

static lent lent_to(const box *b) {
    lent l = {0};
    memcpy(l.record, b->record, b->record_len * sizeof *b->record);
    memcpy(l.outputs, b->outputs, sizeof b->outputs);
    return l;
}

static bool is_met(fault f) { return broken == f && scan_number == FAULT_SCAN; }

/* ---- printing: lines of at most WIDTH columns, in colour on a terminal */

enum { WIDTH = 100, INDENT = 12, BLOCKS_WIDTH = 9, PRINTER_COLUMN = 74 };

typedef enum { PLAIN, STRONG, FAINT, CHANGED, GOOD } style;

static bool has_colour;
static int column;
static bool is_first; /* nothing of the list on this line is printed yet */

static const char *colour(style s) {
    static const char *const codes[] = {"\033[0m", "\033[1m", "\033[2m", "\033[1;33m", "\033[1;32m"};
    return has_colour ? codes[s] : "";
}

static void begin_line(const char *head) {
    printf("  %s%-*s%s", colour(FAINT), INDENT - 2, head, colour(PLAIN));
    column = INDENT;
    is_first = true;
}

static void end_line(void) {
    printf("\n");
    column = 0;
}

/* On this line, or on the next where this column is passed. */
static void move_to(int wanted) {
    if (column > wanted)
        end_line();
    printf("%*s", wanted - column, "");
    column = wanted;
}

static void put(style s, const char *text) {
    printf("%s%s%s", s == PLAIN ? "" : colour(s), text, s == PLAIN ? "" : colour(PLAIN));
    column += (int)strlen(text);
}

/* One more of a list, on the next line where this one has no room for it and a comma. */
static void put_item(style s, const char *text) {
    if (!is_first)
        put(PLAIN, ",");
    if (column + 1 + (int)strlen(text) >= WIDTH)
        move_to(INDENT);
    else if (!is_first)
        put(PLAIN, " ");
    put(s, text);
    is_first = false;
}

typedef struct {
    char text[WIDTH + 1];
} line_text;

static line_text text_of(const char *format, ...) __attribute__((format(printf, 1, 2)));
static line_text text_of(const char *format, ...) {
    line_text t;
    va_list arguments;
    va_start(arguments, format);
    vsnprintf(t.text, sizeof t.text, format, arguments);
    va_end(arguments);
    return t;
}

/* ---- what was read and what was published */

/* An analog word of this circuit is a level in tenths of a percent. */
static line_text value_text(bool is_analog, int32_t value) {
    return is_analog ? text_of("%" PRId32 ".%" PRId32 " %%", value / 10, value % 10) : text_of("%" PRId32, value);
}

static line_text on_text(name n, bool is_analog, int32_t value) {
    return text_of("%s %s%s%s", n.text, meaning_of(n.text), is_analog ? " " : "", is_analog ? value_text(true, value).text : "");
}

/* The inputs that are not 0; in colour those that were 0 or another value in the scan before. */
static void tell_inputs(const int32_t *before, const int32_t *inputs) {
    begin_line("read");
    for (size_t i = 0; i < SERIFDOVE_INPUT_WORD_COUNT; i++)
        if (inputs[i] != 0)
            put_item(inputs[i] == before[i] ? PLAIN : CHANGED, on_text(input_name(i), i >= DIGITAL_INPUTS, inputs[i]).text);
    end_line();
}

static void tell_outputs(const char *head, const char *how, const int32_t *outputs) {
    begin_line(head);
    put(PLAIN, how);
    for (size_t i = 0; i < SERIFDOVE_OUTPUT_WORD_COUNT; i++)
        if (outputs[i] != 0)
            put_item(PLAIN, on_text(output_name(i), i >= DIGITAL_OUTPUTS, outputs[i]).text);
    if (is_first)
        put_item(PLAIN, "nothing is on");
    end_line();
}

static void tell_changes(const int32_t *before, const int32_t *after) {
    begin_line("publish");
    put(PLAIN, "all at once: ");
    for (size_t i = 0; i < SERIFDOVE_OUTPUT_WORD_COUNT; i++) {
        const name n = output_name(i);
        const bool is_analog = i >= DIGITAL_OUTPUTS;
        if (after[i] != before[i])
            put_item(CHANGED, text_of("%s %s %s -> %s", n.text, meaning_of(n.text), value_text(is_analog, before[i]).text,
                                      value_text(is_analog, after[i]).text)
                                  .text);
    }
    end_line();
}

/* Outputs before and after the publish. */
static void tell_publish(const int32_t *before, const int32_t *after) {
    if (memcmp(before, after, sizeof in_turns.outputs) == 0) {
        tell_outputs("publish", "no output changes: ", after);
        return;
    }
    tell_outputs("till here", "outputs untouched: ", before);
    tell_changes(before, after);
    tell_outputs("on now", "", after);
}

/* ---- what a turn worked out */

/* What became of block k; no text where its output is as it was, and no time of it runs. */
static line_text block_text(unsigned k, const int32_t *before, const int32_t *after) {
    const block *b = &in_turns.circuit.block[k];
    const int32_t old = before[SERIFDOVE_BLOCK_OUTPUT(k)], value = after[SERIFDOVE_BLOCK_OUTPUT(k)];
    const int32_t ticks = after[SERIFDOVE_BLOCK_NUMBER(k)];
    const line_text head = text_of("B%u %s (%s)", k, label_of(b).text, kind_of(b->kind)->name);
    if (value != old)
        return text_of("%s %" PRId32 " -> %" PRId32, head.text, old, value);
    if (has_time(b->kind) && ticks != before[SERIFDOVE_BLOCK_NUMBER(k)])
        return text_of("%s at %s of %s", head.text, time_of(ticks).text, time_of(ticks_of(b, WHOLE_TIME)).text);
    return text_of("%s", "");
}

/* The `count` blocks behind those done. */
static line_text blocks_text(unsigned done, unsigned count) {
    if (count == 0)
        return text_of("none");
    return count == 1 ? text_of("B%u", done + 1) : text_of("B%u-B%u", done + 1, done + count);
}

/* The blocks that the turn worked out, and below each other what became of those that changed. */
static void tell_turn(unsigned done, unsigned count, const int32_t *before, const int32_t *after) {
    begin_line(text_of("turn %u", turn_number).text);
    put(PLAIN, blocks_text(done, count).text);
    for (unsigned k = done + 1; k <= done + count; k++) {
        const line_text t = block_text(k, before, after);
        if (t.text[0] == 0)
            continue;
        move_to(INDENT + BLOCKS_WIDTH);
        put(CHANGED, t.text);
    }
    if (column > INDENT + BLOCKS_WIDTH)
        return;
    move_to(INDENT + BLOCKS_WIDTH);
    put(FAINT, count == 0 ? "an empty turn" : "no change");
}

/* ---- the printer: other work of the box */

/* Puts a pallet label together and takes its sum. */
static size_t print_label(unsigned job) {
    enum { MODULUS = 65521, FIRST_PALLET = 7340, FIRST_ORDER = 51200, PALLETS_AN_ORDER = 3 };
    char label[WIDTH + 1];
    uint32_t low = 1, high = 0;
    const int length = snprintf(label, sizeof label, "HARBOUR|DOOR 3|LANE 1|JOB %04u|PALLET %06u|ORDER %u|24 CARTONS|288 kg", job,
                                FIRST_PALLET + job, FIRST_ORDER + job / PALLETS_AN_ORDER);
    for (const char *at = label; *at != 0; at++) {
        low = (low + (unsigned char)*at) % MODULUS;
        high = (high + low) % MODULUS;
    }
    job_sum ^= high << 16 | low;
    return (size_t)length;
}

static void do_printer_job(void) {
    const size_t length = print_label(++jobs);
    job_bytes += length;
    move_to(PRINTER_COLUMN - 1);
    put(PLAIN, " ");
    put(FAINT, text_of("printer: job %u, %zu bytes", jobs, length).text);
}

/* ---- comparing */

static line_text record_word_text(size_t word) {
    static const char *const first[] = {"the phase", "blocks done", "the mark", "e"};
    static const char *const of_block[] = {"the output", "the remembered word", "the number"};
    if (word < SERIFDOVE_I(1))
        return text_of("%s", first[word]);
    if (word < SERIFDOVE_M(1))
        return text_of("%s", input_name(word - SERIFDOVE_I(1)).text);
    if (word < SERIFDOVE_AM(1))
        return text_of("M%zu", word - SERIFDOVE_M(1) + 1);
    if (word < SERIFDOVE_BLOCK_OUTPUT(1))
        return text_of("AM%zu", word - SERIFDOVE_AM(1) + 1);
    const unsigned k = (unsigned)(word - SERIFDOVE_BLOCK_OUTPUT(1)) / 3 + 1;
    return text_of("%s of B%u %s", of_block[(word - SERIFDOVE_BLOCK_OUTPUT(1)) % 3], k, label_of(&in_turns.circuit.block[k]).text);
}

/* Where the words first differ; `count` where they do not. */
static size_t first_difference(const int32_t *a, const int32_t *b, size_t count) {
    size_t i = 0;
    while (i < count && a[i] == b[i])
        i++;
    return i;
}

/* They have the same words; else the first difference is told, each value behind where it stands. */
static bool is_same(const lent *a, const char *where_a, const lent *b, const char *where_b, message *why) {
    size_t i = first_difference(a->record, b->record, in_turns.record_len);
    if (i < in_turns.record_len)
        return fail(why, "record word %s: %s %" PRId32 ", %s %" PRId32, record_word_text(i).text, where_a, a->record[i], where_b,
                    b->record[i]);
    i = first_difference(a->outputs, b->outputs, SERIFDOVE_OUTPUT_WORD_COUNT);
    if (i < SERIFDOVE_OUTPUT_WORD_COUNT)
        return fail(why, "output word %s: %s %" PRId32 ", %s %" PRId32, output_name(i).text, where_a, a->outputs[i], where_b,
                    b->outputs[i]);
    return true;
}

static bool is_accepted(serifdove_answer answer, const char *call, message *why) {
    return answer.number == SERIFDOVE_ACCEPTED ||
           fail(why, "%s is refused: %zu, %s", call, answer.number, refusal_meaning(answer.number));
}

/* ---- a scan in turns */

/* The turn worked out just the next c blocks, or those that were left: of all words lent only theirs and blocks done have changed. */
static bool is_just_the_turn(uint32_t c, serifdove_answer answer, const lent *before, const lent *after, message *why) {
    const uint32_t done = (uint32_t)before->record[SERIFDOVE_DONE], left = in_turns.circuit.n - done, count = c < left ? c : left;
    lent allowed = *before;
    if (answer.first != count || answer.second != left - count)
        return fail(why,
                    "turn %u, a run of %" PRIu32 " blocks, answers %zu worked out and %zu to go; expected are %" PRIu32 " and %" PRIu32,
                    turn_number, c, answer.first, answer.second, count, left - count);
    allowed.record[SERIFDOVE_DONE] = (int32_t)(done + count);
    const size_t from = SERIFDOVE_BLOCK_OUTPUT(done + 1), end = SERIFDOVE_BLOCK_OUTPUT(done + count + 1);
    memcpy(allowed.record + from, after->record + from, (end - from) * sizeof *after->record);
    return is_same(after, text_of("turn %u makes it", turn_number).text, &allowed, "it must be", why);
}

/* The faults of a turn that are met on purpose. */
static void break_turn(void) {
    if (is_met(OUTPUT))
        in_turns.outputs[SERIFDOVE_Q(1)] ^= 1;
    if (is_met(FLAG))
        in_turns.record[SERIFDOVE_M(1)] ^= 1;
}

static bool do_turn(uint32_t c, message *why) {
    const lent before = lent_to(&in_turns);
    turn_number++;
    turns++;
    const serifdove_answer answer = run(&in_turns, c + is_met(TURN));
    break_turn();
    const lent after = lent_to(&in_turns);
    if (!is_accepted(answer, "run", why) || !is_just_the_turn(c, answer, &before, &after, why))
        return false;
    tell_turn((unsigned)before.record[SERIFDOVE_DONE], (unsigned)answer.first, before.record, after.record);
    if (answer.second > 0)
        do_printer_job();
    end_line();
    return true;
}

/* A publish with blocks to go is refused, and changes nothing. */
static bool try_publish(message *why) {
    const unsigned to_go = blocks_to_go(&in_turns);
    const lent before = lent_to(&in_turns);
    const serifdove_answer answer = publish(&in_turns);
    if (is_met(REFUSED))
        in_turns.record[SERIFDOVE_BLOCK_OUTPUT(1)] ^= 1;
    const lent after = lent_to(&in_turns);
    if (answer.number != SERIFDOVE_WRONG_PHASE || answer.place != 0 || answer.first != 0 || answer.second != 0)
        return fail(why, "publish with %u blocks to go answers %zu; expected is %d", to_go, answer.number, SERIFDOVE_WRONG_PHASE);
    if (!is_same(&after, "the refused publish makes it", &before, "it must stay", why))
        return false;
    begin_line("too early");
    put(STRONG, text_of("publish with %u blocks to go: refused by number %zu, nothing has changed", to_go, answer.number).text);
    end_line();
    return true;
}

/* The turns of a scan; the hasty one tries to publish behind the turn that works out the door's motor. */
static bool do_turns(const scan *s, message *why) {
    enum { DOOR_MOTOR = 7 };
    bool is_hasty = s->is_hasty;
    if (s->has_empty_turn && !do_turn(0, why))
        return false;
    while (blocks_to_go(&in_turns) > 0) {
        if (!do_turn(s->turn, why))
            return false;
        if (!is_hasty || in_turns.record[SERIFDOVE_DONE] < DOOR_MOTOR)
            continue;
        is_hasty = false;
        if (!try_publish(why))
            return false;
    }
    return true;
}

static bool do_in_turns(const scan *s, message *why) {
    turn_number = 0;
    return is_accepted(latch(&in_turns, s->e), "latch", why) && do_turns(s, why) && is_accepted(publish(&in_turns), "publish", why);
}

/* ---- a scan in one go */

/* The second box reads what the first one read. */
static bool do_in_one_go(const scan *s, message *why) {
    memcpy(in_one_go.inputs, in_turns.inputs, sizeof in_turns.inputs);
    if (broken == READING && scan_number == READING_SCAN)
        in_one_go.inputs[SERIFDOVE_INPUT_I(6)] ^= 1;
    return is_accepted(latch(&in_one_go, s->e), "latch in one go", why) &&
           is_accepted(run(&in_one_go, UINT32_MAX), "run in one go", why) && is_accepted(publish(&in_one_go), "publish in one go", why);
}

static bool is_same_in_one_go(message *why) {
    const lent turns_left = lent_to(&in_turns), one_go_left = lent_to(&in_one_go);
    return is_same(&turns_left, "in turns", &one_go_left, "in one go", why);
}

/* ---- the visit */

/* The word of this name, which is one of them. */
static size_t word_of(const char *wanted, size_t count, name (*name_of)(size_t word)) {
    size_t i = 0;
    while (i + 1 < count && strcmp(name_of(i).text, wanted) != 0)
        i++;
    return i;
}

static void put_values(const named_value *list, int32_t *to, size_t count, name (*name_of)(size_t word)) {
    for (; list->name != NULL; list++)
        to[word_of(list->name, count, name_of)] = list->value;
}

/* What is published is what the table foretells. */
static bool is_expected(const scan *s, message *why) {
    int32_t expected[SERIFDOVE_OUTPUT_WORD_COUNT] = {0};
    put_values(s->expected, expected, SERIFDOVE_OUTPUT_WORD_COUNT, output_name);
    const size_t i = first_difference(in_turns.outputs, expected, SERIFDOVE_OUTPUT_WORD_COUNT);
    return i == SERIFDOVE_OUTPUT_WORD_COUNT || fail(why, "%s %s is %" PRId32 "; worked out by hand it is %" PRId32, output_name(i).text,
                                                    meaning_of(output_name(i).text), in_turns.outputs[i], expected[i]);
}

static void tell_scan(const scan *s) {
    const line_text when = scan_number == 1 ? text_of("the first (e %" PRId32 ")", s->e)
                                            : text_of("%s after the one before (e %" PRId32 ")", time_of(s->e).text, s->e);
    const line_text how = s->turn >= in_turns.circuit.n ? text_of("in one turn")
                                                        : text_of("in turns of %" PRIu32 " block%s", s->turn, s->turn == 1 ? "" : "s");
    printf("\n%sScan %u%s, %s, %s\n", colour(STRONG), scan_number, colour(PLAIN), when.text, how.text);
    begin_line("yard");
    put(STRONG, s->story);
    end_line();
}

static bool do_scan(const scan *s, message *why) {
    int32_t inputs[SERIFDOVE_INPUT_WORD_COUNT], outputs[SERIFDOVE_OUTPUT_WORD_COUNT];
    memcpy(inputs, in_turns.inputs, sizeof inputs);
    memcpy(outputs, in_turns.outputs, sizeof outputs);
    put_values(s->reading, in_turns.inputs, SERIFDOVE_INPUT_WORD_COUNT, input_name);
    if (is_met(YARD))
        in_turns.inputs[SERIFDOVE_INPUT_I(5)] = 0;
    tell_scan(s);
    tell_inputs(inputs, in_turns.inputs);
    if (!do_in_turns(s, why))
        return false;
    tell_publish(outputs, in_turns.outputs);
    return do_in_one_go(s, why) && is_same_in_one_go(why) && is_expected(s, why);
}

static bool do_visit(message *why) {
    if (!is_accepted(cold_start(&in_turns), "cold start", why) || !is_accepted(cold_start(&in_one_go), "cold start in one go", why))
        return false;
    for (scan_number = 1; scan_number <= SCANS; scan_number++) {
        message what;
        if (!do_scan(&visit[scan_number - 1], &what))
            return fail(why, "scan %u: %s", scan_number, what.text);
    }
    return true;
}

static void tell_beginning(const char *path) {
    printf("%sA truck at dock door 3%s, by the circuit %s: %u blocks, %u rows\n\n", colour(STRONG), colour(PLAIN), path,
           in_turns.circuit.n, in_turns.circuit.rows);
    printf("The box runs the yard's circuit scan by scan. In a scan it reads all buttons and sensors once, works\n"
           "out the circuit's blocks from this one reading, and then publishes: motors and lamps change all at\n"
           "once, or not at all. The box has other work too: so it works out a few blocks in a turn, does a\n"
           "printer job, and goes on with the next turn. How a scan is cut into turns must change nothing of it.\n"
           "Here each scan is cut otherwise than the one before, and done a second time in one go, to compare.\n\n"
           "I are buttons and sensors, B blocks, Q motors and lamps, AI and AQ levels; 0 is off, 1 is on. The\n"
           "scans lie further apart than on the box, so that something happens in each.\n");
}

static void tell_end(void) {
    const size_t words = in_turns.record_len, compared = SCANS * (words + SERIFDOVE_OUTPUT_WORD_COUNT);
    printf("\n%sThat was the visit:%s %d scans in %u turns, and %u printer jobs between the turns\n", colour(STRONG), colour(PLAIN),
           SCANS, turns, jobs);
    printf("(%zu bytes, sum %08" PRIx32 ").\n", job_bytes, job_sum);
    printf("  - After each turn just the blocks asked for were worked out; no output and no flag had changed.\n"
           "  - The publish that came too early was refused, and changed nothing.\n"
           "  - Each publish left the outputs that were worked out by hand beforehand.\n");
    printf("  - %sThe same %d scans in one go gave the same %zu words%s (all %zu of the record and all %d outputs).\n", colour(GOOD),
           SCANS, compared, colour(PLAIN), words, SERIFDOVE_OUTPUT_WORD_COUNT);
}

/* ---- the program */

/* The circuit is the one that the story is of, as far as its labels tell. */
static bool is_harbour(const circuit *c, const char *path, message *why) {
    if (c->n != BLOCKS)
        return fail(why, "%s has %u blocks; the story is of samples/harbour.csv, which has %d", path, c->n, BLOCKS);
    for (unsigned k = 1; k <= BLOCKS; k++)
        if (strcmp(label_of(&c->block[k]).text, labels[k - 1]) != 0)
            return fail(why, "%s: block %u is '%s'; the story is of samples/harbour.csv, where it is '%s'", path, k,
                        label_of(&c->block[k]).text, labels[k - 1]);
    return true;
}

/* Opens a box with the circuit of this file. On false what is to be told is told. */
static bool open_with(box *b, const char *path) {
    message why;
    circuit_bytes c;
    if (take_circuit("demo", path, NULL, &c) != CIRCUIT_TAKEN)
        return false;
    if (!open_box(b, c.bytes, c.length))
        fail(&why, "there is no memory for the record of %s", path);
    else if (is_harbour(&b->circuit, path, &why))
        return true;
    fprintf(stderr, "demo: %s\n", why.text);
    return false;
}

static enum status play(const char *path) {
    message why;
    if (!open_with(&in_turns, path) || !open_with(&in_one_go, path))
        return CANNOT;
    tell_beginning(path);
    if (!do_visit(&why)) {
        fflush(stdout);
        fprintf(stderr, "demo: %s\n", why.text);
        return DIFFERS;
    }
    tell_end();
    return FINE;
}

static fault fault_of(const char *text) {
    fault f = FAULTS - 1;
    while (f > NO_FAULT && strcmp(fault_names[f], text) != 0)
        f--;
    return f;
}

int main(int count, char **arguments) {
    if (count == 2 && (strcmp(arguments[1], "--help") == 0 || strcmp(arguments[1], "-h") == 0))
        return fputs(usage, stdout) < 0 || fflush(stdout) != 0 ? CANNOT : FINE;
    if (count == 4 && strcmp(arguments[2], "--break") == 0)
        broken = fault_of(arguments[3]);
    if (count < 2 || arguments[1][0] == '-' || (count > 2 && broken == NO_FAULT)) {
        fputs(usage, stderr);
        return CANNOT;
    }
    has_colour = takes_colour();
    const enum status status = play(arguments[1]);
    close_box(&in_turns);
    close_box(&in_one_go);
    if (fflush(stdout) == 0 && !ferror(stdout))
        return status;
    fprintf(stderr, "demo: standard output cannot be written\n");
    return CANNOT;
}
