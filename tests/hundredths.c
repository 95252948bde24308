/* What the archive makes of products of either sign: circuits of amplifiers, each with a gain of its own, whose outputs must be what C's own
   quotient gives, which goes toward zero.
   hundredths                     every gain with every input from -1000 to 1000; some gains with every input of 16 bits
   hundredths --all               every gain with every input of 16 bits
   hundredths --self-test NAME    the quotient is made wrong in the way named; this must be found
   hundredths --self-test-names   the names of these ways */
#include "circuits.h"
#include "serifdove.h"

#include <inttypes.h>
#include <stdio.h>
#include <stdlib.h>
#include <string.h>

enum { GREATEST_GAIN = 1000, GREATEST_OFFSET = 10000, GREATEST_INPUT = 1000, HUNDRED = 100 };

static int32_t held(int32_t value) { return held_to(value, LEAST_VALUE, GREATEST_VALUE); }

/* ---- quotients that must be found, each with the offset added and held */

static int32_t shifted(int32_t product, int64_t multiplier, int64_t divisor) {
    const int64_t wide = product * multiplier;
    return (int32_t)(wide / divisor) - (wide % divisor < 0);
}

static const int64_t multiplier = 1374389535, divisor = (int64_t)1 << 37;

static int32_t multiplier_less_by_one(int32_t product, int32_t offset) {
    return held(shifted(product, multiplier - 1, divisor) + (product < 0) + offset);
}

static int32_t shift_less_by_one(int32_t product, int32_t offset) {
    return held(shifted(product, multiplier, divisor / 2) + (product < 0) + offset);
}

static int32_t one_more_left_out(int32_t product, int32_t offset) { return held(shifted(product, multiplier, divisor) + offset); }

static int32_t one_more_at_zero_too(int32_t product, int32_t offset) {
    return held(shifted(product, multiplier, divisor) + (product <= 0) + offset);
}

static int32_t size_alone(int32_t product, int32_t offset) { return held(abs(product / HUNDRED) + offset); }

static int32_t rounded_down(int32_t product, int32_t offset) {
    return held(product / HUNDRED - (product % HUNDRED < 0) + offset);
}

static int32_t rounded(int32_t product, int32_t offset) {
    return held((product + (product < 0 ? -HUNDRED / 2 : HUNDRED / 2)) / HUNDRED + offset);
}

static int32_t fraction_of_the_sum_dropped(int32_t product, int32_t offset) { return held((product + offset * HUNDRED) / HUNDRED); }

static int32_t cut_to_32_bits(int32_t product, int32_t offset) {
    return held((int32_t)((uint32_t)(product * multiplier) >> 5) + offset);
}

static const struct {
    const char *name;
    int32_t (*actual)(int32_t product, int32_t offset);
} ways[] = {
    {"multiplier_less_by_one", multiplier_less_by_one},
    {"shift_less_by_one", shift_less_by_one},
    {"one_more_left_out", one_more_left_out},
    {"one_more_at_zero_too", one_more_at_zero_too},
    {"size_alone", size_alone},
    {"rounded_down", rounded_down},
    {"rounded", rounded},
    {"fraction_of_the_sum_dropped", fraction_of_the_sum_dropped},
    {"cut_to_32_bits", cut_to_32_bits},
};

enum { WAYS = sizeof ways / sizeof *ways };

static int32_t (*wrong)(int32_t product, int32_t offset);

/* ---- one circuit of amplifiers on AM1 */

static circuit made;
static int32_t gains[MOST_BLOCKS + 1], offsets[MOST_BLOCKS + 1], record[SERIFDOVE_RECORD_WORDS(MOST_BLOCKS)];
static uint64_t tried, negative, between_ends;

static void make_amplifiers(unsigned n) {
    static const unsigned from_flag[1][2] = {{8, 1}};
    begin_circuit(&made, n);
    for (unsigned k = 1; k <= n; k++)
        add_given_block(&made, AMPLIFIER, 0, from_flag, (const int32_t[]){gains[k], offsets[k]});
    end_circuit(&made);
}

static void compare(unsigned k, int32_t input) {
    const int32_t product = input * gains[k], expected = actual_of(input, gains[k], offsets[k]);
    const int32_t given = wrong != NULL ? wrong(product, offsets[k]) : record[SERIFDOVE_BLOCK_OUTPUT(k)];
    tried++;
    negative += product < 0;
    between_ends += LEAST_VALUE < expected && expected < GREATEST_VALUE;
    if (given == expected)
        return;
    printf("hundredths: mismatch: input %" PRId32 ", gain %" PRId32 ", offset %" PRId32 ": %" PRId32 ", expected %" PRId32 "\n", input,
           gains[k], offsets[k], given, expected);
    exit(1);
}

/* Works the made circuit out on these inputs, each in a scan of its own. */
static void try_inputs(int32_t least, int32_t greatest) {
    const size_t words = SERIFDOVE_RECORD_WORDS(made.n);
    for (int32_t input = least; input <= greatest; input++) {
        memset(record, 0, sizeof record);
        record[SERIFDOVE_PHASE] = 1;
        record[SERIFDOVE_AM(1)] = input;
        const serifdove_answer told = serifdove_run(made.bytes, made.length, record, words, made.n);
        if (told.number != SERIFDOVE_ACCEPTED || told.second != 0) {
            printf("hundredths: mismatch: input %" PRId32 ": the run answers %zu\n", input, told.number);
            exit(1);
        }
        for (unsigned k = 1; k <= made.n; k++)
            compare(k, input);
    }
}

/* ---- what is tried */

/* Every gain with offset 0, as many as a circuit has room for at once. */
static void try_gains(int32_t least, int32_t greatest) {
    unsigned n = 0;
    for (int32_t gain = -GREATEST_GAIN; gain <= GREATEST_GAIN; gain++) {
        gains[++n] = gain;
        offsets[n] = 0;
        if (n == MOST_BLOCKS || gain == GREATEST_GAIN) {
            make_amplifiers(n);
            try_inputs(least, greatest);
            n = 0;
        }
    }
}

/* Some gains of either sign, with offsets of either sign, which bring more products between the ends. */
static void try_some_gains(void) {
    static const int32_t some[] = {1, 2, 3, 7, 10, 33, 49, 50, 51, 64, 99, 100, 101, 128, 333, 999, 1000},
                         some_offsets[] = {-GREATEST_OFFSET, -1, 0, GREATEST_OFFSET};
    unsigned n = 0;
    for (size_t i = 0; i < sizeof some / sizeof *some; i++)
        for (size_t j = 0; j < sizeof some_offsets / sizeof *some_offsets; j++)
            for (int sign = -1; sign <= 1; sign += 2) {
                gains[++n] = sign * some[i];
                offsets[n] = some_offsets[j];
            }
    make_amplifiers(n);
    try_inputs(LEAST_VALUE, GREATEST_VALUE);
}

int main(int words, char **word) {
    const char *first = words > 1 ? word[1] : "";
    if (words == 2 && strcmp(first, "--self-test-names") == 0) {
        for (unsigned i = 0; i < WAYS; i++)
            printf("%s\n", ways[i].name);
        return 0;
    }
    for (unsigned i = 0; words == 3 && strcmp(first, "--self-test") == 0 && i < WAYS; i++)
        if (strcmp(word[2], ways[i].name) == 0)
            wrong = ways[i].actual;
    const bool all = words == 2 && strcmp(first, "--all") == 0;
    if (words > 1 && !all && wrong == NULL) {
        fprintf(stderr, "usage: hundredths [--all | --self-test NAME | --self-test-names]\n");
        return 2;
    }
    try_gains(all ? LEAST_VALUE : -GREATEST_INPUT, all ? GREATEST_VALUE : GREATEST_INPUT);
    try_some_gains();
    printf("hundredths: %" PRIu64 " products, %" PRIu64 " of them below zero, %" PRIu64 " with a value between the ends: as C has them\n", tried,
           negative, between_ends);
    return 0;
}
