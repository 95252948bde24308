/* Compares the calls on a record with the oracle's, call by call and word by word.

   traces [SEED] [COUNT]      at least COUNT calls, 300,000 if none is named
   traces --self-test NAME    the archive's calls are made wrong in the way named; this must be found
   traces --self-test-names   the names of these ways

   A mismatch is printed as a trace, which host/replay.c plays. */
#include "calls.h"
#include "sweeps.h"
#include "wrong_sides.h"

#include <inttypes.h>
#include <stdio.h>
#include <string.h>

static circuit made;
static lent_words words;

static const call cold = {.name = COLD_START}, warm = {.name = WARM_START}, publish = {.name = PUBLISH};

static void begin_lively(chance *with, unsigned n, unsigned rows, unsigned last_kind) {
    lively_circuit(&made, with, n, rows, last_kind);
    lend_circuit(&made);
    words.record_length = SERIFDOVE_RECORD_WORDS(n);
    words.outputs_length = SERIFDOVE_OUTPUT_WORD_COUNT;
}

static call some_latch(chance *with) {
    int32_t inputs[SERIFDOVE_INPUT_WORD_COUNT];
    random_inputs(with, inputs);
    return latch_of(random_e(&made, with, words.record), inputs);
}

/* All inputs but a few are as the last latch left them. */
static call quiet_latch(chance *with) {
    call latch = some_latch(with), kept = latch_of(latch.e, words.record + SERIFDOVE_I(1));
    for (unsigned k = below(with, 4); k > 0; k--) {
        const unsigned i = below(with, once_in(with, 2) ? 4 : SERIFDOVE_INPUT_WORD_COUNT);
        kept.inputs[i] = latch.inputs[i];
    }
    return kept;
}

static unsigned to_go(void) { return made.n - (unsigned)words.record[SERIFDOVE_DONE]; }

/* A run, which must work out just the next blocks: at most c, and no word but theirs and the blocks-done word may change. */
static void run_exactly(const char *scenario, uint32_t c) {
    static lent_words kept;
    const call run = run_of(c);
    const unsigned left = to_go(), turn = c < left ? c : left, from = made.n - left + 1;
    copy_words(&kept, &words);
    const serifdove_answer answer = compare_call(scenario, &words, &run);
    if (!same_answer(answer, (serifdove_answer){0, 0, turn, left - turn}))
        tell_mismatch("not the next blocks");
    kept.record[SERIFDOVE_DONE] += (int32_t)turn;
    memcpy(kept.record + SERIFDOVE_BLOCK_OUTPUT(from), words.record + SERIFDOVE_BLOCK_OUTPUT(from), 3 * turn * sizeof *kept.record);
    if (!same_words(&kept, &words))
        tell_mismatch("a word of no such block");
}

/* A call that must be refused in a scan, or a run of no blocks: nothing may change. */
static void disturb(chance *with) {
    static lent_words kept;
    const call latch = some_latch(with), run = run_of(0);
    const call *all[] = {&latch, &warm, &run, &publish};
    const unsigned which = below(with, to_go() > 0 ? 4 : 3);
    copy_words(&kept, &words);
    const serifdove_answer answer = compare_call("between turns", &words, all[which]);
    if ((which != 2 && answer.number != 22) || !same_words(&kept, &words))
        tell_mismatch("a call between turns is not refused, or changes something");
}

/* ---- every way to part a scan into turns, against the scan in one go */

/* Bit i of `cuts`: a turn ends behind block i + 1. The last turn asks for what is left, or for more. */
static void scan_in_turns(chance *with, unsigned cuts) {
    unsigned turn = 0;
    for (unsigned k = 1; k <= made.n; k++) {
        turn++;
        if (cuts >> (k - 1) & 1) {
            if (once_in(with, 2))
                disturb(with);
            run_exactly("a turn", turn);
            turn = 0;
        }
    }
    if (once_in(with, 2))
        disturb(with);
    run_exactly("the last turn", once_in(with, 2) ? turn : UINT32_MAX - below(with, 2));
    expect_number("parted scan", &words, &publish, 0);
}

static void part_scans(chance *with, unsigned n) {
    static lent_words latched, at_once;
    begin_lively(with, n, between(with, 0, 20), 0);
    expect_number("parted scan", &words, &cold, 0);
    for (unsigned scan = 0; scan < 3; scan++) {
        const call latch = some_latch(with);
        expect_number("parted scan", &words, &latch, 0);
        copy_words(&latched, &words);
        run_exactly("one go", n);
        expect_number("one go", &words, &publish, 0);
        copy_words(&at_once, &words);
        for (unsigned cuts = 0; cuts < 1u << (n == 0 ? 0 : n - 1); cuts++) {
            copy_words(&words, &latched);
            scan_in_turns(with, cuts);
            if (!same_words(&words, &at_once))
                tell_mismatch("a scan in turns is not the scan in one go");
        }
    }
}

/* ---- all sizes, and every sort of c */

static void try_size(chance *with, unsigned n) {
    static lent_words latched;
    const uint32_t amounts[] = {0, 1, n - 1, n, n + 1, UINT32_MAX};
    begin_lively(with, n, (unsigned)between(with, 0, DESTINATIONS), 0);
    expect_number("sizes", &words, &cold, 0);
    const call latch = some_latch(with);
    expect_number("sizes", &words, &latch, 0);
    copy_words(&latched, &words);
    for (size_t i = 0; i < sizeof amounts / sizeof *amounts; i++) {
        copy_words(&words, &latched);
        run_exactly("sizes", amounts[i]);
    }
    expect_number("sizes", &words, &publish, 0);
    expect_number("sizes", &words, &warm, 0);
}

/* ---- many scans behind one another */

static void scan_once(const char *scenario, chance *with, const call *latch) {
    expect_number(scenario, &words, latch, 0);
    do
        run_exactly(scenario, once_in(with, 2) ? UINT32_MAX : below(with, made.n + 2));
    while (to_go() > 0);
    expect_number(scenario, &words, &publish, 0);
}

/* From a cold start, or from a sound record that is lent; quiet, or with other inputs in each scan. */
static void long_run(chance *with, unsigned n, unsigned scans, unsigned last_kind) {
    const bool quiet = once_in(with, 2);
    begin_lively(with, n, 8 + below(with, 24), last_kind);
    random_record(&made, with, false, words.record);
    if (once_in(with, 2))
        expect_number("long run", &words, &cold, 0);
    for (unsigned scan = 0; scan < scans; scan++) {
        const call latch = quiet ? quiet_latch(with) : some_latch(with);
        scan_once("long run", with, &latch);
        if (once_in(with, 40))
            expect_number("long run", &words, &warm, 0);
    }
}

/* ---- any call on any words */

/* Breaks a word, or a length, once in a while. */
static void spoil(chance *with, call *c) {
    switch (below(with, 24)) {
    case 0:
        words.record_length += below(with, 2) ? 1 : (size_t)-1;
        break;
    case 1:
    case 2:
        words.record[below(with, (uint32_t)words.record_length)] = between(with, -40000, 70000);
        break;
    case 3:
        words.outputs_length = below(with, MOST_WORDS + 1);
        break;
    case 4:
        c->inputs_length = below(with, MOST_WORDS + 1);
        break;
    case 5:
        c->inputs[below(with, SERIFDOVE_INPUT_WORD_COUNT)] = between(with, -1, 1001);
        break;
    case 6:
        c->e = between(with, -2, 65537);
        break;
    }
}

/* The call most often suits the record; all but cold starts are equally frequent. */
static void any_call(chance *with) {
    const unsigned name = once_in(with, 12) ? COLD_START : WARM_START + below(with, 4);
    const bool scanning = name == RUN || name == PUBLISH;
    words.record_length = SERIFDOVE_RECORD_WORDS(made.n);
    words.outputs_length = SERIFDOVE_OUTPUT_WORD_COUNT;
    random_record(&made, with, once_in(with, 12) ? !scanning : scanning, words.record);
    if (name == PUBLISH && words.record[SERIFDOVE_PHASE] == 1 && !once_in(with, 8))
        words.record[SERIFDOVE_DONE] = (int32_t)made.n;
    if (name == RUN && words.record[SERIFDOVE_PHASE] == 1)
        words.record[SERIFDOVE_E] = random_e(&made, with, words.record);
    call c = name == LATCH ? some_latch(with) : (call){.name = name};
    c.c = once_in(with, 4) ? below(with, 3) : made.n;
    spoil(with, &c);
    compare_call("any words", &words, &c);
}

/* Most often the last block has much to remember. */
static void any_calls(chance *with, unsigned n, unsigned calls) {
    static const unsigned rich[] = {9, 10, 12, COUNTER, COUNTER, STAIRWAY, STAIRWAY};
    begin_lively(with, n, below(with, 24), once_in(with, 3) ? 1 + below(with, KINDS) : rich[below(with, sizeof rich / sizeof *rich)]);
    for (unsigned k = 0; k < calls; k++)
        any_call(with);
}

/* ---- circuits that are changed: most are refused */

static void changed_circuit(chance *with) {
    static uint8_t bytes[sizeof made.bytes];
    begin_lively(with, below(with, 8), below(with, 8), 1 + below(with, KINDS));
    random_record(&made, with, once_in(with, 2), words.record);
    const call latch = some_latch(with);
    for (unsigned times = 0; times < 8; times++) {
        const unsigned name = below(with, CALLS);
        const call c = name == LATCH ? latch : (call){.name = name, .c = below(with, 4)};
        size_t length = once_in(with, 8) ? below(with, (uint32_t)made.length + 1) : made.length;
        memcpy(bytes, made.bytes, made.length);
        for (unsigned k = 1 + below(with, 3); k > 0; k--)
            bytes[below(with, (uint32_t)made.length)] = (uint8_t)(once_in(with, 3) ? below(with, 256) : below(with, KINDS + 1));
        lend_bytes(bytes, length);
        compare_call("changed circuit", &words, &c);
    }
}

/* ---- the whole */

static void once(chance *with) {
    sweep_kinds();
    sweep_refusals(with);
    for (unsigned n = 0; n <= MOST_BLOCKS; n++)
        try_size(with, n);
    long_run(with, MOST_BLOCKS, 20, 0);
}

static void round_of(chance *with) {
    for (unsigned n = 0; n <= 6; n++)
        part_scans(with, n);
    for (unsigned k = 0; k < 4; k++)
        long_run(with, 1 + below(with, 16), 200, 0);
    for (unsigned kind = COUNTER; kind <= AMPLIFIER; kind++)
        long_run(with, 1 + below(with, 3), 400, kind);
    long_run(with, 17 + below(with, 48), 100, 0);
    for (unsigned k = 0; k < 100; k++)
        any_calls(with, below(with, 12), 40);
    for (unsigned k = 0; k < 200; k++)
        changed_circuit(with);
}

int main(int argc, char **argv) {
    uint64_t seed = 1, count = 300000;
    side archive = sides[ARCHIVE];
    if (argc == 2 && strcmp(argv[1], "--self-test-names") == 0) {
        print_wrong_names();
        return 0;
    }
    if (argc == 3 && strcmp(argv[1], "--self-test") == 0) {
        if (!make_wrong(&archive, argv[2])) {
            fprintf(stderr, "traces: there is no self-test %s\n", argv[2]);
            return 2;
        }
        count = 1;
    } else {
        seed_and_count(argc, argv, &seed, &count);
    }
    chance with = chance_of(seed);
    begin_comparing(&archive);
    printf("traces: seed %" PRIu64 "\n", seed);
    once(&with);
    do
        round_of(&with);
    while (calls_compared() < count);
    printf("traces: seed %" PRIu64 ", %" PRIu64 " calls compared, each made twice by the archive\n", seed, calls_compared());
    return report_calls() ? 0 : 1;
}
