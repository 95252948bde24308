#define _GNU_SOURCE
#include "measure.h"

#include <pthread.h>
#include <stdlib.h>
#include <string.h>
#include <sys/mman.h>
#include <time.h>

size_t refusals;

const char *reached(bool yes) { return yes ? "reached" : "not reached"; }

/* ---- time */

enum { ROUNDS = 15, ROUND_NANOSECONDS = 10000000, MOST_TIMES = 100000 };

static double now(void) {
    struct timespec t;
    clock_gettime(CLOCK_MONOTONIC, &t);
    return (double)t.tv_sec * 1e9 + (double)t.tv_nsec;
}

/* Nanoseconds for each of so many times. */
static double time_task(task *what, const side *by, subject *on, unsigned many) {
    const double begin = now();
    for (unsigned i = 0; i < many; i++)
        what(by, on);
    return (now() - begin) / many;
}

/* So many times that a round is long enough for the clock. */
static unsigned times_for(task *what, subject on[SIDES]) {
    unsigned many = 1;
    double round;
    do {
        round = 0;
        for (unsigned k = 0; k < SIDES; k++)
            round += time_task(what, &sides[k], &on[k], many) * many / SIDES;
        many = round < ROUND_NANOSECONDS ? 2 * many : many;
    } while (round < ROUND_NANOSECONDS / 2 && many < MOST_TIMES);
    return many;
}

static int by_size(const void *a, const void *b) {
    const double x = *(const double *)a, y = *(const double *)b;
    return (x > y) - (x < y);
}

times time_both(task *what, subject on[SIDES]) {
    const unsigned many = times_for(what, on);
    double took[SIDES][ROUNDS];
    times all;
    for (unsigned round = 0; round < ROUNDS; round++)
        for (unsigned k = 0; k < SIDES; k++)
            took[k][round] = time_task(what, &sides[k], &on[k], many);
    for (unsigned k = 0; k < SIDES; k++) {
        qsort(took[k], ROUNDS, sizeof *took[k], by_size);
        all.best[k] = took[k][0];
        all.median[k] = took[k][ROUNDS / 2];
    }
    return all;
}

/* ---- stack: a thread on a painted stack of its own */

enum { STACK = 1 << 18, PAINT = 0xA5 };

typedef struct {
    task *what;
    const side *by;
    subject *on;
} order;

static void *carry_out(void *given) {
    const order *o = given;
    o->what(o->by, o->on);
    return NULL;
}

static void nothing(const side *by, subject *on) {
    (void)by;
    (void)on;
}

/* How far down the stack was written. */
static size_t depth_of(task *what, const side *by, subject *on) {
    order o = {what, by, on};
    pthread_attr_t attributes;
    pthread_t thread;
    size_t clean = 0;
    uint8_t *stack = mmap(NULL, STACK, PROT_READ | PROT_WRITE, MAP_PRIVATE | MAP_ANONYMOUS, -1, 0);
    if (stack == MAP_FAILED)
        exit(2);
    memset(stack, PAINT, STACK);
    pthread_attr_init(&attributes);
    if (pthread_attr_setstack(&attributes, stack, STACK) != 0 || pthread_create(&thread, &attributes, carry_out, &o) != 0)
        exit(2);
    pthread_join(thread, NULL);
    pthread_attr_destroy(&attributes);
    while (clean < STACK && stack[clean] == PAINT)
        clean++;
    munmap(stack, STACK);
    return STACK - clean;
}

size_t stack_of(task *what, const side *by, subject *on) {
    const size_t base = depth_of(nothing, by, on), depth = depth_of(what, by, on);
    return depth > base ? depth - base : 0;
}
