/* Walks through a sample's circuit: scans with random inputs, times and turns, in each of which the sample's rules hold.

   sample_walks CIRCUIT EXPECT SEED SCANS

   The rules are lines of EXPECT, samples/NAME.expect:
       never Q1 Q2         in no scan are all of these on
       without I3: Q1 Q2   in each scan that read a 0 there, all of these are off
   The scan that breaks one is printed, and the status is 1. So it is where an output that a rule names is never on: such a rule shows
   nothing. */
#include "../host/files.h"
#include "circuits.h"
#include "serifdove.h"

#include <inttypes.h>
#include <stdio.h>
#include <stdlib.h>
#include <string.h>

enum { MOST_RULES = 32, LONGEST_LINE = 256, LONGEST_FILE = 65536, DIGITAL_INPUTS = 24, DIGITAL_OUTPUTS = 20, GREATEST_ANALOG = 1000 };
enum { SCANS_OF_A_MOOD = 64, SCANS_TO_A_WARM_START = 500, ANALOG_STEP = 60 };

typedef struct {
    char text[LONGEST_LINE];
    unsigned input; /* of `without`: k of Ik; 0 of `never` */
    uint32_t outputs;
} rule;

static rule rules[MOST_RULES];
static unsigned rule_count;
static uint32_t was_on; /* the outputs that were on in some scan */

static uint8_t *circuit_bytes;
static size_t circuit_length;
static int32_t record[SERIFDOVE_RECORD_WORDS(SERIFDOVE_MOST_BLOCKS)];
static size_t record_length;
static int32_t inputs[SERIFDOVE_INPUT_WORD_COUNT], outputs[SERIFDOVE_OUTPUT_WORD_COUNT];

/* For the next scans, each input: once in how many scans it rises, and falls. */
static uint32_t rise[DIGITAL_INPUTS + 1], fall[DIGITAL_INPUTS + 1];

static _Noreturn void stop(const char *what) {
    printf("sample_walks: %s\n", what);
    exit(2);
}

/* ---- the rules */

/* k of a word such as Q1, with this letter; at most so many. */
static unsigned number_of(const char *word, char letter, unsigned most) {
    char *end;
    const unsigned long k = word != NULL && word[0] == letter ? strtoul(word + 1, &end, 10) : 0;
    if (k < 1 || k > most || (*end != 0 && *end != ':'))
        stop("a rule names something else than outputs, and I with a number behind `without`");
    return (unsigned)k;
}

static void add_rule(const char *line) {
    static const char blanks[] = " \n";
    char copy[LONGEST_LINE];
    rule *r = &rules[rule_count++];
    strcpy(copy, line);
    memcpy(r->text, line, strcspn(line, "\n"));
    const char *word = strtok(copy, blanks);
    r->input = strcmp(word, "without") == 0 ? number_of(strtok(NULL, blanks), 'I', DIGITAL_INPUTS) : 0;
    while ((word = strtok(NULL, blanks)) != NULL)
        r->outputs |= 1u << SERIFDOVE_Q(number_of(word, 'Q', DIGITAL_OUTPUTS));
}

static void read_rules(const char *path) {
    char line[LONGEST_LINE];
    FILE *from = fopen(path, "r");
    if (from == NULL)
        stop("the rules cannot be read");
    while (fgets(line, sizeof line, from) != NULL)
        if ((strncmp(line, "never ", 6) == 0 || strncmp(line, "without ", 8) == 0) && rule_count < MOST_RULES)
            add_rule(line);
    fclose(from);
    if (rule_count == 0 || rule_count == MOST_RULES)
        stop("there are no rules, or too many");
}

static bool is_broken(const rule *r, uint32_t on) {
    if (r->input == 0)
        return (on & r->outputs) == r->outputs;
    return inputs[SERIFDOVE_INPUT_I(r->input)] == 0 && (on & r->outputs) != 0;
}

static bool is_needed(unsigned k) {
    for (unsigned i = 0; i < rule_count; i++)
        if (rules[i].input == k)
            return true;
    return false;
}

/* ---- the scans */

static void must(serifdove_answer answer) {
    if (answer.number != SERIFDOVE_ACCEPTED)
        stop("a call is refused");
}

/* An input without which something is off is mostly on, so that things run. */
static void change_mood(chance *with) {
    static const uint32_t odds[] = {2, 3, 8, 64};
    for (unsigned k = 1; k <= DIGITAL_INPUTS; k++) {
        rise[k] = is_needed(k) && !once_in(with, 3) ? 2 : odds[below(with, 4)];
        fall[k] = is_needed(k) && !once_in(with, 3) ? 32 : odds[below(with, 4)];
    }
}

static void change_inputs(chance *with) {
    for (unsigned k = 1; k <= DIGITAL_INPUTS; k++) {
        int32_t *word = &inputs[SERIFDOVE_INPUT_I(k)];
        *word ^= once_in(with, *word == 0 ? rise[k] : fall[k]);
    }
    for (unsigned place = DIGITAL_INPUTS; place < SERIFDOVE_INPUT_WORD_COUNT; place++) {
        const int32_t value = inputs[place] + between(with, -ANALOG_STEP, ANALOG_STEP);
        inputs[place] = value < 0 ? 0 : value > GREATEST_ANALOG ? GREATEST_ANALOG : value;
    }
}

static void scan(chance *with) {
    static const int32_t times[] = {0, 1, 50, 50, 50, 299, 1000, 12000, 65535};
    const int32_t e = times[below(with, sizeof times / sizeof *times)];
    must(serifdove_latch(circuit_bytes, circuit_length, record, record_length, inputs, SERIFDOVE_INPUT_WORD_COUNT, e));
    must(serifdove_run(circuit_bytes, circuit_length, record, record_length, below(with, 9)));
    must(serifdove_run(circuit_bytes, circuit_length, record, record_length, SERIFDOVE_MOST_BLOCKS));
    must(serifdove_publish(circuit_bytes, circuit_length, record, record_length, outputs, SERIFDOVE_OUTPUT_WORD_COUNT));
}

static uint32_t outputs_on(void) {
    uint32_t on = 0;
    for (unsigned k = 1; k <= DIGITAL_OUTPUTS; k++)
        on |= (uint32_t)(outputs[SERIFDOVE_Q(k)] != 0) << SERIFDOVE_Q(k);
    return on;
}

/* Judges the scan that was published; false and a line where a rule is broken. */
static bool holds(uint64_t number) {
    const uint32_t on = outputs_on();
    was_on |= on;
    for (unsigned i = 0; i < rule_count; i++)
        if (is_broken(&rules[i], on)) {
            printf("sample_walks: scan %" PRIu64 " breaks: %s\n", number, rules[i].text);
            return false;
        }
    return true;
}

static bool walk(chance *with, uint64_t scans) {
    must(serifdove_cold_start(circuit_bytes, circuit_length, record, record_length));
    for (uint64_t number = 0; number < scans; number++) {
        if (number % SCANS_OF_A_MOOD == 0)
            change_mood(with);
        change_inputs(with);
        scan(with);
        if (!holds(number + 1))
            return false;
        if (once_in(with, SCANS_TO_A_WARM_START))
            must(serifdove_warm_start(circuit_bytes, circuit_length, record, record_length));
    }
    return true;
}

/* `never` of a single output says that it is never on; of all others an output must have been. */
static bool shows_something(void) {
    for (unsigned i = 0; i < rule_count; i++) {
        const bool is_single = rules[i].input == 0 && (rules[i].outputs & (rules[i].outputs - 1)) == 0;
        if (!is_single && (rules[i].outputs & ~was_on) != 0) {
            printf("sample_walks: an output of this rule is never on: %s\n", rules[i].text);
            return false;
        }
    }
    return true;
}

int main(int words, char **word) {
    message why;
    if (words != 5)
        stop("usage: sample_walks CIRCUIT EXPECT SEED SCANS");
    if (!read_file(word[1], "a circuit", LONGEST_FILE, &circuit_bytes, &circuit_length, &why))
        stop(why.text);
    const serifdove_answer answer = serifdove_check(circuit_bytes, circuit_length);
    must(answer);
    record_length = SERIFDOVE_RECORD_WORDS(answer.first);
    read_rules(word[2]);
    chance with = chance_of(strtoull(word[3], NULL, 10));
    const uint64_t scans = strtoull(word[4], NULL, 10);
    const bool well = walk(&with, scans) && shows_something();
    free(circuit_bytes);
    if (well)
        printf("%u rules hold in %" PRIu64 " scans\n", rule_count, scans);
    return well ? 0 : 1;
}
