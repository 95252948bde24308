/* The calls keep nothing between them: two threads, each on a record and a text of its own, get the same answers and leave the same
   words and bytes as one after the other.

   threads [SEED] [COUNT]      COUNT pairs of plays, 150 if none is named
   threads --self-test NAME    the calls are made wrong in the way named; this must be found
   threads --self-test-names   the names of these ways */
#define _POSIX_C_SOURCE 200809L
#include "records.h"
#include "row_texts.h"
#include "sides.h"

#include <inttypes.h>
#include <pthread.h>
#include <sched.h>
#include <stdatomic.h>
#include <stdio.h>
#include <stdlib.h>
#include <string.h>

enum { CALLS_OF_A_PLAY = 1500, THREADS = 2 };

/* ---- the calls, right or wrong */

static side calls;

/* Wrong: the record goes through memory that all threads share. */
static int32_t staged[MOST_RECORD];

static void stage(const int32_t *record, size_t record_len) {
    memcpy(staged, record, record_len * sizeof *record);
    sched_yield();
}

static serifdove_answer staged_run(const uint8_t *circuit, size_t circuit_len, int32_t *record, size_t record_len, uint32_t c) {
    stage(record, record_len);
    const serifdove_answer answer = serifdove_run(circuit, circuit_len, staged, record_len, c);
    memcpy(record, staged, record_len * sizeof *record);
    return answer;
}

/* Wrong: the answer is kept in a place of its own. */
static serifdove_answer kept_answer_run(const uint8_t *circuit, size_t circuit_len, int32_t *record, size_t record_len, uint32_t c) {
    static volatile serifdove_answer kept;
    const serifdove_answer answer = serifdove_run(circuit, circuit_len, record, record_len, c);
    kept.number = answer.number;
    kept.first = answer.first;
    kept.second = answer.second;
    sched_yield();
    return (serifdove_answer){kept.number, 0, kept.first, kept.second};
}

/* Wrong: the text goes through memory that all threads share. */
static serifdove_answer staged_write_rows(const uint8_t *circuit, size_t circuit_len, uint8_t *text, size_t text_len) {
    static uint8_t staged_text[TEXT_ROOM];
    const serifdove_answer answer = serifdove_write_rows(circuit, circuit_len, staged_text, text_len);
    sched_yield();
    memcpy(text, staged_text, answer.first);
    return answer;
}

static bool share_record;

/* Calls that are not named stay as they are. */
static const struct {
    const char *name;
    run_function *run;
    rows_function *write_rows;
    bool share_record;
} wrong[] = {
    {"record_kept_between", staged_run, NULL, false},
    {"answer_kept_between", kept_answer_run, NULL, false},
    {"text_kept_between", NULL, staged_write_rows, false},
    {"one_record_for_both", NULL, NULL, true},
};

/* ---- a play: calls by chance on one record */

typedef struct {
    const circuit *on;
    uint64_t seed;
    int32_t own_record[MOST_RECORD], *record, outputs[SERIFDOVE_OUTPUT_WORD_COUNT];
    uint8_t text[TEXT_ROOM], read[LONGEST_CIRCUIT];
    /* what each call answered and left, as one number */
    uint64_t left[CALLS_OF_A_PLAY];
    /* how many calls are made; how many while the other play was under way */
    atomic_uint made;
    unsigned at_once;
} play;

static uint64_t mixed_in(uint64_t hash, const void *memory, size_t size) {
    const uint8_t *bytes = memory;
    for (size_t i = 0; i < size; i++)
        hash = (hash ^ bytes[i]) * 0x100000001B3u;
    return hash;
}

static uint64_t left_by(const play *p, serifdove_answer answer) {
    const uint64_t basis = 0xCBF29CE484222325u;
    const size_t numbers[] = {answer.number, answer.place, answer.first, answer.second};
    return mixed_in(mixed_in(mixed_in(basis, numbers, sizeof numbers), p->record, SERIFDOVE_RECORD_WORDS(p->on->n) * sizeof *p->record),
                    p->outputs, sizeof p->outputs);
}

static serifdove_answer some_latch(play *p, chance *with) {
    int32_t inputs[SERIFDOVE_INPUT_WORD_COUNT];
    random_inputs(with, inputs);
    return calls.latch(p->on->bytes, p->on->length, p->record, SERIFDOVE_RECORD_WORDS(p->on->n), inputs, SERIFDOVE_INPUT_WORD_COUNT,
                       random_e(p->on, with, p->record));
}

/* The circuit is written out and read again; what is written goes into the answer. */
static serifdove_answer both_on_rows(play *p) {
    const serifdove_answer written = calls.write_rows(p->on->bytes, p->on->length, p->text, sizeof p->text);
    serifdove_answer answer = calls.read_rows(p->text, written.first, p->read, sizeof p->read);
    answer.place += mixed_in(mixed_in(written.second, p->text, written.first), p->read, answer.first);
    return answer;
}

static serifdove_answer some_check(const play *p, chance *with) {
    return (once_in(with, 2) ? calls.check_profile : calls.check)(p->on->bytes, p->on->length);
}

/* Most often the call that suits the phase, in turns of any length. */
static serifdove_answer some_call(play *p, chance *with) {
    const uint8_t *bytes = p->on->bytes;
    const size_t length = p->on->length, words = SERIFDOVE_RECORD_WORDS(p->on->n);
    const bool in_scan = p->record[SERIFDOVE_PHASE] == 1, done = p->record[SERIFDOVE_DONE] == (int32_t)p->on->n;
    switch (below(with, 16)) {
    case 0:
        return once_in(with, 4) ? both_on_rows(p) : some_check(p, with);
    case 1:
        return calls.warm_start(bytes, length, p->record, words);
    case 2:
        return calls.publish(bytes, length, p->record, words, p->outputs, SERIFDOVE_OUTPUT_WORD_COUNT);
    case 3:
        return once_in(with, 8) ? calls.cold_start(bytes, length, p->record, words) : some_latch(p, with);
    }
    if (!in_scan)
        return some_latch(p, with);
    if (!done)
        return calls.run(bytes, length, p->record, words, once_in(with, 4) ? UINT32_MAX : below(with, p->on->n + 2));
    return calls.publish(bytes, length, p->record, words, p->outputs, SERIFDOVE_OUTPUT_WORD_COUNT);
}

static play plays[THREADS];
static pthread_barrier_t begin;

static void play_all(play *p) {
    chance with = chance_of(p->seed);
    memset(p->outputs, 0, sizeof p->outputs);
    calls.cold_start(p->on->bytes, p->on->length, p->record, SERIFDOVE_RECORD_WORDS(p->on->n));
    const play *other = &plays[p == &plays[0]];
    for (unsigned k = 0; k < CALLS_OF_A_PLAY; k++) {
        const unsigned others = atomic_load_explicit(&other->made, memory_order_relaxed);
        p->left[k] = left_by(p, some_call(p, &with));
        atomic_store_explicit(&p->made, k + 1, memory_order_relaxed);
        p->at_once += others > 0 && others < CALLS_OF_A_PLAY;
    }
}

static void *play_in_a_thread(void *p) {
    pthread_barrier_wait(&begin);
    play_all(p);
    return NULL;
}

/* ---- comparing */

static circuit made[THREADS];

/* Both plays one after the other, then at once; 0 if they left the same, else the number of the first call that did not. */
static unsigned first_difference(void) {
    static uint64_t alone[THREADS][CALLS_OF_A_PLAY];
    pthread_t thread[THREADS];
    for (unsigned i = 0; i < THREADS; i++) {
        play_all(&plays[i]);
        memcpy(alone[i], plays[i].left, sizeof alone[i]);
    }
    for (unsigned i = 0; i < THREADS; i++) {
        atomic_store(&plays[i].made, 0);
        plays[i].at_once = 0;
    }
    for (unsigned i = 0; i < THREADS; i++)
        if (pthread_create(&thread[i], NULL, play_in_a_thread, &plays[i]) != 0) {
            fprintf(stderr, "threads: a thread cannot be made\n");
            exit(2);
        }
    for (unsigned i = 0; i < THREADS; i++)
        pthread_join(thread[i], NULL);
    for (unsigned k = 0; k < THREADS * CALLS_OF_A_PLAY; k++)
        if (plays[k % THREADS].left[k / THREADS] != alone[k % THREADS][k / THREADS])
            return k / THREADS + 1;
    return 0;
}

/* Two plays, on two circuits or on one. */
static void begin_plays(chance *with, bool one_circuit) {
    const unsigned most = once_in(with, 4) ? MOST_BLOCKS : 40;
    for (unsigned i = 0; i < THREADS; i++) {
        play *p = &plays[i];
        lively_circuit(&made[i], with, (unsigned)between(with, 1, (int32_t)most), 4 + below(with, 24), 0);
        p->on = &made[one_circuit ? 0 : i];
        p->seed = (uint64_t)below(with, UINT32_MAX) << 8 | i;
        p->record = plays[share_record ? 0 : i].own_record;
        atomic_store(&p->made, 0);
    }
}

static bool make_wrong(const char *name) {
    for (size_t i = 0; i < sizeof wrong / sizeof *wrong; i++)
        if (strcmp(wrong[i].name, name) == 0) {
            calls.run = wrong[i].run != NULL ? wrong[i].run : calls.run;
            calls.write_rows = wrong[i].write_rows != NULL ? wrong[i].write_rows : calls.write_rows;
            share_record = wrong[i].share_record;
            return true;
        }
    return false;
}

static int compare_plays(uint64_t seed, uint64_t count) {
    chance with = chance_of(seed);
    uint64_t at_once = 0;
    for (uint64_t pair = 0; pair < count; pair++) {
        const bool one_circuit = pair % 2 == 0;
        begin_plays(&with, one_circuit);
        const unsigned call = first_difference();
        if (call != 0) {
            printf("threads: mismatch: seed %" PRIu64 ", pair %" PRIu64 " on %s: call %u answers or leaves other than alone\n", seed,
                   pair, one_circuit ? "one circuit" : "two circuits", call);
            return 1;
        }
        for (unsigned i = 0; i < THREADS; i++)
            at_once += plays[i].at_once;
    }
    printf("threads: seed %" PRIu64 ", %" PRIu64 " pairs of plays, %" PRIu64 " calls, %" PRIu64
           " of them while the other play was under way\n",
           seed, count, count * THREADS * CALLS_OF_A_PLAY, at_once);
    if (at_once == 0)
        printf("threads: mismatch: no two plays were under way at once\n");
    return at_once == 0;
}

int main(int argc, char **argv) {
    uint64_t seed = 1, count = 150;
    calls = sides[ARCHIVE];
    if (argc == 2 && strcmp(argv[1], "--self-test-names") == 0) {
        for (size_t i = 0; i < sizeof wrong / sizeof *wrong; i++)
            printf("%s\n", wrong[i].name);
        return 0;
    }
    if (argc == 3 && strcmp(argv[1], "--self-test") == 0) {
        if (!make_wrong(argv[2])) {
            fprintf(stderr, "threads: there is no self-test %s\n", argv[2]);
            return 2;
        }
    } else {
        seed_and_count(argc, argv, &seed, &count);
    }
    pthread_barrier_init(&begin, NULL, THREADS);
    const int status = compare_plays(seed, count);
    pthread_barrier_destroy(&begin);
    return status;
}
