#include "wrong_kinds.h"

#include "record.h"

#include <stdio.h>
#include <stdlib.h>
#include <string.h>

static const side *const oracle = &sides[ORACLE];

/* ---- other bytes for a circuit */

static uint8_t *copy_of(const uint8_t *circuit, size_t length) {
    static uint8_t copy[1 << 18];
    if (length > 0)
        memcpy(copy, circuit, length);
    return copy;
}

/* ---- the order of the times */

enum { TIME = 4, TIMES = 3 * TIME, BEFORE_TIMES = 3 + 2 + 3 + 4 }; /* bytes */

/* The greater one first; no time is below 0, so they go as their bytes do. */
static int by_order(const void *a, const void *b) { return memcmp(b, a, TIME); }

static void put_in_order(uint8_t *times) {
    for (unsigned i = 0; i < TIMES; i += TIME)
        if (times[i] >= 0x80)
            return;
    qsort(times, TIMES / TIME, TIME, by_order);
}

const uint8_t *times_in_order(const uint8_t *circuit, size_t length) {
    uint8_t *copy = copy_of(circuit, length);
    for (size_t at = 0; at + BEFORE_TIMES + TIMES <= length; at += 3 + two_at(copy + at + 1))
        if (copy[at] == BLOCK && copy[at + 3] == STAIRWAY_SWITCH && two_at(copy + at + 1) == BEFORE_TIMES + TIMES - 3)
            put_in_order(copy + at + BEFORE_TIMES);
    return copy;
}

static serifdove_answer starts_times_in_any_order(const uint8_t *circuit, size_t circuit_len, int32_t *record, size_t record_len) {
    return oracle->cold_start(times_in_order(circuit, circuit_len), circuit_len, record, record_len);
}

/* ---- the sort of an amplifier */

typedef struct {
    unsigned class, by; /* a connector of the one to an amplifier gets the other */
    unsigned blocks;    /* so far */
    uint8_t kinds[MOST_BLOCKS + 1];
} replacement;

static void replace_connector(const replacement *r, uint8_t *at) {
    const connector c = connector_at(at);
    if (c.class != r->class || c.number == 0 || c.number > r->blocks || r->kinds[c.number] != AMPLIFIER)
        return;
    at[0] = (uint8_t)(c.inverted ? r->by | 0x80 : r->by);
    at[1] = at[2] = 0;
}

/* In a row, or a block of a known kind, that has its length. */
static void replace_in_field(replacement *r, unsigned tag, uint8_t *content, size_t length) {
    if (tag == ROW && length == ROW_CONTENT)
        replace_connector(r, content + 2);
    if (tag != BLOCK || length == 0 || content[0] > KINDS || r->blocks == MOST_BLOCKS)
        return;
    const kind_rule *rule = &oracle_kind_rules[content[0]];
    for (unsigned i = 0; length == content_length(rule) && i < rule->digital + rule->analog; i++)
        replace_connector(r, content + 2 + 3 * i);
    r->kinds[++r->blocks] = content[0];
}

static const uint8_t *replaced(const uint8_t *circuit, size_t length, unsigned class, unsigned by) {
    replacement r = {.class = class, .by = by, .blocks = 0};
    uint8_t *copy = copy_of(circuit, length);
    for (size_t at = 0; length - at >= 3 && two_at(copy + at + 1) <= length - at - 3; at += 3 + two_at(copy + at + 1))
        replace_in_field(&r, copy[at], copy + at + 3, two_at(copy + at + 1));
    return copy;
}

const uint8_t *no_digital_amplifiers(const uint8_t *circuit, size_t length) { return replaced(circuit, length, DIGITAL_BLOCK, HI); }

const uint8_t *no_analog_amplifiers(const uint8_t *circuit, size_t length) {
    enum { UNKNOWN_CLASS = 5 };
    return replaced(circuit, length, ANALOG_BLOCK, UNKNOWN_CLASS);
}

static serifdove_answer starts_digital_amplifiers(const uint8_t *circuit, size_t circuit_len, int32_t *record, size_t record_len) {
    return oracle->cold_start(no_digital_amplifiers(circuit, circuit_len), circuit_len, record, record_len);
}

/* ---- words of the record */

/* The content of this block, from 1, in an accepted circuit. */
static const uint8_t *content_of(const uint8_t *circuit, unsigned number) {
    const uint8_t *field = circuit;
    while (field[0] != BLOCK || --number > 0)
        field += 3 + two_at(field + 1);
    return field + 3;
}

static serifdove_answer forgets_counts(const uint8_t *circuit, size_t circuit_len, int32_t *record, size_t record_len) {
    const serifdove_answer answer = oracle->warm_start(circuit, circuit_len, record, record_len);
    for (unsigned k = 1; answer.number == 0 && block_words(k) < record_len; k++)
        if (content_of(circuit, k)[0] == UP_DOWN_COUNTER)
            record[block_words(k) + NUMBER] = 0;
    return answer;
}

static serifdove_answer stops_switches(const uint8_t *circuit, size_t circuit_len, int32_t *record, size_t record_len) {
    const serifdove_answer answer = oracle->warm_start(circuit, circuit_len, record, record_len);
    for (unsigned k = 1; answer.number == 0 && block_words(k) < record_len; k++)
        if (content_of(circuit, k)[0] == STAIRWAY_SWITCH)
            record[block_words(k) + REMEMBERED] %= 2;
    return answer;
}

static serifdove_answer refuses_running_switches(const uint8_t *circuit, size_t circuit_len, int32_t *record, size_t record_len,
                                                 const int32_t *inputs, size_t inputs_len, int32_t e) {
    serifdove_answer answer = oracle->latch(circuit, circuit_len, record, record_len, inputs, inputs_len, e);
    for (unsigned k = 1; answer.number == 0 && block_words(k) < record_len; k++)
        if (content_of(circuit, k)[0] == STAIRWAY_SWITCH && record[block_words(k) + REMEMBERED] >= 2)
            answer.number = 21;
    return answer;
}

/* The first amplifier's output that is this one, of an accepted circuit and a record of its length; NULL where there is none. */
static int32_t *amplifier_output(const uint8_t *circuit, int32_t *record, size_t record_len, int32_t output) {
    for (unsigned k = 1; block_words(k) < record_len; k++)
        if (content_of(circuit, k)[0] == AMPLIFIER && record[block_words(k) + OUTPUT] == output)
            return record + block_words(k) + OUTPUT;
    return NULL;
}

/* Latches though an amplifier's output is this one, which is not sound. */
static serifdove_answer latch_beyond(int32_t output, const uint8_t *circuit, size_t circuit_len, int32_t *record, size_t record_len,
                                     const int32_t *inputs, size_t inputs_len, int32_t e) {
    serifdove_answer answer = oracle->latch(circuit, circuit_len, record, record_len, inputs, inputs_len, e);
    int32_t *found = answer.number == 21 ? amplifier_output(circuit, record, record_len, output) : NULL;
    if (found == NULL)
        return answer;
    *found = 0;
    answer = oracle->latch(circuit, circuit_len, record, record_len, inputs, inputs_len, e);
    *found = output;
    return answer;
}

static serifdove_answer takes_output_32768(const uint8_t *circuit, size_t circuit_len, int32_t *record, size_t record_len,
                                           const int32_t *inputs, size_t inputs_len, int32_t e) {
    return latch_beyond(GREATEST_VALUE + 1, circuit, circuit_len, record, record_len, inputs, inputs_len, e);
}

static serifdove_answer takes_output_minus_32769(const uint8_t *circuit, size_t circuit_len, int32_t *record, size_t record_len,
                                                 const int32_t *inputs, size_t inputs_len, int32_t e) {
    return latch_beyond(LEAST_VALUE - 1, circuit, circuit_len, record, record_len, inputs, inputs_len, e);
}

static serifdove_answer refuses_output_minus_32768(const uint8_t *circuit, size_t circuit_len, int32_t *record, size_t record_len,
                                                   const int32_t *inputs, size_t inputs_len, int32_t e) {
    serifdove_answer answer = oracle->latch(circuit, circuit_len, record, record_len, inputs, inputs_len, e);
    if (answer.number == 0 && amplifier_output(circuit, record, record_len, LEAST_VALUE) != NULL)
        answer.number = 21;
    return answer;
}

/* ---- rules: the blocks are worked out one by one, and what one of this kind becomes is changed */

typedef struct {
    const uint8_t *content;
    const int32_t *record, *before; /* before: the block's words before it was worked out */
    int32_t *own;
} worked_out;

typedef void wrong_rule(const worked_out *b);

static unsigned changed_kind;
static wrong_rule *change;

static serifdove_answer runs_wrongly(const uint8_t *circuit, size_t circuit_len, int32_t *record, size_t record_len, uint32_t c) {
    serifdove_answer answer = oracle->run(circuit, circuit_len, record, record_len, 0);
    size_t turn = 0;
    for (; answer.number == 0 && answer.second > 0 && turn < c; turn++) {
        const unsigned number = (unsigned)record[DONE] + 1;
        int32_t *own = record + block_words(number), before[WORDS_OF_A_BLOCK];
        const uint8_t *content = content_of(circuit, number);
        memcpy(before, own, sizeof before);
        answer = oracle->run(circuit, circuit_len, record, record_len, 1);
        if (content[0] == changed_kind)
            change(&(worked_out){content, record, before, own});
    }
    answer.first = turn;
    return answer;
}

static int32_t parameter(const worked_out *b, unsigned i) { return parameter_at(&oracle_kind_rules[b->content[0]], b->content, i); }

/* Input i, from 0. */
static int32_t input(const worked_out *b, unsigned i) { return oracle_value(b->record, connector_at(b->content + 2 + 3 * i)); }

static bool is_on(const worked_out *b, unsigned i) { return input(b, i) == 1; }

/* ---- wrong rules of the off-delay */

static void level_sets_q(const worked_out *b) {
    if (is_on(b, 0) && !is_on(b, 1))
        b->own[OUTPUT] = 1;
}

static void forgets_trg_under_r(const worked_out *b) {
    if (is_on(b, 1))
        b->own[REMEMBERED] = 0;
}

static void ta_stays_while_trg_is_1(const worked_out *b) {
    if (is_on(b, 0) && b->before[REMEMBERED] == 1 && !is_on(b, 1))
        b->own[NUMBER] = b->before[NUMBER];
}

/* ---- wrong rules of the counter */

static void held_at_999998(const worked_out *b) {
    if (b->before[NUMBER] == MOST_COUNT - 1 && b->own[NUMBER] == MOST_COUNT)
        b->own[NUMBER] = MOST_COUNT - 1;
}

static void forgets_cnt_under_r(const worked_out *b) {
    if (is_on(b, 0))
        b->own[REMEMBERED] = 0;
}

static void q_is_0_under_r(const worked_out *b) {
    if (is_on(b, 0))
        b->own[OUTPUT] = 0;
}

/* Dir of the scan before, which stands in no word of the record, is kept here. */
static void reads_dir_a_scan_late(const worked_out *b) {
    static bool was_down[MOST_BLOCKS];
    bool *late = &was_down[(size_t)(b->own - b->record - block_words(1)) / WORDS_OF_A_BLOCK];
    const bool down = is_on(b, 2);
    if (*late != down && !is_on(b, 0))
        b->own[NUMBER] = b->before[NUMBER] - (b->own[NUMBER] - b->before[NUMBER]);
    *late = down;
}

static void thresholds_of_a_trigger(const worked_out *b) {
    const int32_t on = parameter(b, 0), off = parameter(b, 1), count = b->own[NUMBER];
    if (on >= off)
        b->own[OUTPUT] = count > on ? 1 : count <= off ? 0 : b->before[OUTPUT];
}

/* ---- wrong rules of the switch */

static int32_t ticks(const worked_out *b, unsigned i) {
    static const int32_t ticks_of_one[3] = {1, 100, 6000};
    return ticks_of_one[parameter(b, 0)] * parameter(b, i);
}

/* As if Trg had been 0 before. */
static void e_added_on_the_fall(const worked_out *b) {
    if (b->before[REMEMBERED] != 3 || b->own[REMEMBERED] == 3)
        return;
    b->own[REMEMBERED] = 2;
    b->own[NUMBER] = 0;
    oracle_work_out(b->content, b->record, b->own);
}

/* Dark for so long, so long before the end. */
static void darken(const worked_out *b, int32_t warning, int32_t dark) {
    const int32_t from = ticks(b, 1) - warning, ta = b->own[NUMBER];
    if (b->own[REMEMBERED] == 2)
        b->own[OUTPUT] = ta < from || ta >= from + dark;
}

static void warning_and_dark_exchanged(const worked_out *b) { darken(b, ticks(b, 3), ticks(b, 2)); }

static void dark_a_tick_late(const worked_out *b) { darken(b, ticks(b, 2) - 1, ticks(b, 3) - 1); }

static void runs_on_at_t(const worked_out *b) {
    if (b->before[REMEMBERED] < 2 || b->own[REMEMBERED] >= 2)
        return;
    b->own[OUTPUT] = 1;
    b->own[REMEMBERED] = 2;
    b->own[NUMBER] = ticks(b, 1);
}

/* ---- wrong rules of what has an actual value */

typedef struct {
    range ends;
    bool before_b, rounded_down;
} holding;

static const holding right = {.ends = {LEAST_VALUE, GREATEST_VALUE}}, none = {.ends = {INT32_MIN, INT32_MAX}};

static int32_t held(int32_t value, range ends) {
    return value < ends.least ? ends.least : value > ends.greatest ? ends.greatest : value;
}

/* The actual value of input i, held so. */
static int32_t actual(const worked_out *b, unsigned i, holding h) {
    const int32_t product = input(b, i) * parameter(b, 0), quotient = product / 100 - (h.rounded_down && product % 100 < 0);
    return h.before_b ? held(quotient, h.ends) + parameter(b, 1) : held(quotient + parameter(b, 1), h.ends);
}

static void judge(const worked_out *b, int32_t value, int32_t off) {
    b->own[OUTPUT] = oracle_triggered(value, parameter(b, 2), off, b->before[OUTPUT]);
}

/* Works out the block again: a comparator, a differential trigger or an amplifier. */
static void work_out_held(const worked_out *b, holding h) {
    const int32_t x = actual(b, 0, h);
    if (b->content[0] == COMPARATOR)
        judge(b, x - actual(b, 1, h), parameter(b, 3));
    else if (b->content[0] == DIFFERENTIAL_TRIGGER)
        judge(b, x, parameter(b, 2) + parameter(b, 3));
    else
        b->own[OUTPUT] = x;
}

static void not_held(const worked_out *b) { work_out_held(b, none); }

static void held_before_b(const worked_out *b) { work_out_held(b, (holding){.ends = right.ends, .before_b = true}); }

static void held_at_minus_32767(const worked_out *b) { work_out_held(b, (holding){.ends = {-32767, GREATEST_VALUE}}); }

static void held_at_minus_32769(const worked_out *b) { work_out_held(b, (holding){.ends = {-32769, GREATEST_VALUE}}); }

static void held_at_32766(const worked_out *b) { work_out_held(b, (holding){.ends = {LEAST_VALUE, 32766}}); }

static void held_at_32768(const worked_out *b) { work_out_held(b, (holding){.ends = {LEAST_VALUE, 32768}}); }

static void rounded_down(const worked_out *b) { work_out_held(b, (holding){.ends = right.ends, .rounded_down = true}); }

static void difference_alone_held(const worked_out *b) {
    judge(b, held(actual(b, 0, none) - actual(b, 1, none), right.ends), parameter(b, 3));
}

static void off_held(const worked_out *b) { judge(b, actual(b, 0, right), held(parameter(b, 2) + parameter(b, 3), right.ends)); }

static void kept_from_before(const worked_out *b) { b->own[OUTPUT] = b->before[OUTPUT]; }

/* ---- by name */

/* The ways in which each kind that shows it can be wrong. */
#define HELD_WRONGLY(wrong_name, wrong_kind)                                                                                           \
    {{.name = wrong_name "_not_held", .run = runs_wrongly}, wrong_kind, not_held},                                                     \
        {{.name = wrong_name "_held_before_b", .run = runs_wrongly}, wrong_kind, held_before_b},                                       \
        {{.name = wrong_name "_held_at_minus_32767", .run = runs_wrongly}, wrong_kind, held_at_minus_32767},                           \
        {{.name = wrong_name "_held_at_minus_32769", .run = runs_wrongly}, wrong_kind, held_at_minus_32769},                           \
        {{.name = wrong_name "_held_at_32766", .run = runs_wrongly}, wrong_kind, held_at_32766},                                       \
        {{.name = wrong_name "_held_at_32768", .run = runs_wrongly}, wrong_kind, held_at_32768},                                       \
        {{.name = wrong_name "_rounded_down", .run = runs_wrongly}, wrong_kind, rounded_down}

/* Calls that are not named stay as they are. */
static const struct {
    side wrong;
    unsigned kind;
    wrong_rule *rule;
} all[] = {
    {{.name = "starts_times_in_any_order", .cold_start = starts_times_in_any_order}, 0, NULL},
    {{.name = "forgets_counts", .warm_start = forgets_counts}, 0, NULL},
    {{.name = "stops_switches", .warm_start = stops_switches}, 0, NULL},
    {{.name = "refuses_running_switches", .latch = refuses_running_switches}, 0, NULL},
    {{.name = "level_sets_q", .run = runs_wrongly}, OFF_DELAY, level_sets_q},
    {{.name = "forgets_trg_under_r", .run = runs_wrongly}, OFF_DELAY, forgets_trg_under_r},
    {{.name = "ta_stays_while_trg_is_1", .run = runs_wrongly}, OFF_DELAY, ta_stays_while_trg_is_1},
    {{.name = "count_held_at_999998", .run = runs_wrongly}, UP_DOWN_COUNTER, held_at_999998},
    {{.name = "forgets_cnt_under_r", .run = runs_wrongly}, UP_DOWN_COUNTER, forgets_cnt_under_r},
    {{.name = "q_is_0_under_r", .run = runs_wrongly}, UP_DOWN_COUNTER, q_is_0_under_r},
    {{.name = "reads_dir_a_scan_late", .run = runs_wrongly}, UP_DOWN_COUNTER, reads_dir_a_scan_late},
    {{.name = "thresholds_of_a_trigger", .run = runs_wrongly}, UP_DOWN_COUNTER, thresholds_of_a_trigger},
    {{.name = "e_added_on_the_fall", .run = runs_wrongly}, STAIRWAY_SWITCH, e_added_on_the_fall},
    {{.name = "warning_and_dark_exchanged", .run = runs_wrongly}, STAIRWAY_SWITCH, warning_and_dark_exchanged},
    {{.name = "dark_a_tick_late", .run = runs_wrongly}, STAIRWAY_SWITCH, dark_a_tick_late},
    {{.name = "runs_on_at_t", .run = runs_wrongly}, STAIRWAY_SWITCH, runs_on_at_t},
    {{.name = "starts_digital_amplifiers", .cold_start = starts_digital_amplifiers}, 0, NULL},
    {{.name = "takes_output_32768", .latch = takes_output_32768}, 0, NULL},
    {{.name = "takes_output_minus_32769", .latch = takes_output_minus_32769}, 0, NULL},
    {{.name = "refuses_output_minus_32768", .latch = refuses_output_minus_32768}, 0, NULL},
    HELD_WRONGLY("comparator", COMPARATOR),
    HELD_WRONGLY("differential", DIFFERENTIAL_TRIGGER),
    HELD_WRONGLY("amplifier", AMPLIFIER),
    {{.name = "difference_alone_held", .run = runs_wrongly}, COMPARATOR, difference_alone_held},
    {{.name = "off_held", .run = runs_wrongly}, DIFFERENTIAL_TRIGGER, off_held},
    {{.name = "kept_from_before", .run = runs_wrongly}, AMPLIFIER, kept_from_before},
};

bool make_kinds_wrong(side *archive, const char *name) {
    for (size_t i = 0; i < sizeof all / sizeof *all; i++)
        if (strcmp(all[i].wrong.name, name) == 0) {
            changed_kind = all[i].kind;
            change = all[i].rule;
            put_calls(archive, &all[i].wrong);
            return true;
        }
    return false;
}

void print_wrong_kinds(void) {
    for (size_t i = 0; i < sizeof all / sizeof *all; i++)
        puts(all[i].wrong.name);
}
