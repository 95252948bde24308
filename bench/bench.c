/* Times the archive's calls beside the oracle's, check and whole scans, and measures the stack of each call.
   The last line tells what is missed by far; the status is 1 then. */
#include "circuits.h"
#include "measure.h"

#include <stdio.h>
#include <stdlib.h>
#include <string.h>

enum { SIZES = 4 };

static const unsigned sizes[SIZES] = {0, 100, 200, 400};
static circuit circuits[SIZES];

/* What is to be reached, and what is missed by far. */
static const double most_ratio = 1.0, most_growth = 4.4, far_growth = 6.0;
enum { MOST_STACK = 16 * 1024 };

/* ---- tasks */

static size_t words_of(const subject *on) { return SERIFDOVE_RECORD_WORDS(on->c->n); }

static void check(const side *by, subject *on) { told(by->check(on->c->bytes, on->length)); }

static void check_profile(const side *by, subject *on) { told(by->check_profile(on->c->bytes, on->length)); }

static void cold_start(const side *by, subject *on) { told(by->cold_start(on->c->bytes, on->length, on->record, words_of(on))); }

static void warm_start(const side *by, subject *on) { told(by->warm_start(on->c->bytes, on->length, on->record, words_of(on))); }

/* The inputs are others in each scan. */
static void latch(const side *by, subject *on) {
    for (unsigned k = 1; k <= 24; k++)
        on->inputs[SERIFDOVE_INPUT_I(k)] ^= 1;
    on->inputs[SERIFDOVE_INPUT_AI(1)] = 1000 - on->inputs[SERIFDOVE_INPUT_AI(1)];
    told(by->latch(on->c->bytes, on->length, on->record, words_of(on), on->inputs, SERIFDOVE_INPUT_WORD_COUNT, 1));
}

/* A turn; gives how many blocks are to go. */
static size_t run(const side *by, subject *on) {
    return told(by->run(on->c->bytes, on->length, on->record, words_of(on), on->turn)).second;
}

static void publish(const side *by, subject *on) {
    told(by->publish(on->c->bytes, on->length, on->record, words_of(on), on->outputs, SERIFDOVE_OUTPUT_WORD_COUNT));
}

static void whole_scan(const side *by, subject *on) {
    latch(by, on);
    while (run(by, on) > 0)
        continue;
    publish(by, on);
}

/* A turn in the middle of a scan, again and again. */
static void same_turn(const side *by, subject *on) {
    on->record[SERIFDOVE_DONE] = (int32_t)on->c->n / 2;
    run(by, on);
}

static void run_turn(const side *by, subject *on) { run(by, on); }

/* ---- subjects */

static subject on[SIDES];

/* Each side starts on this circuit; what they leave later is compared. */
static void begin_on(unsigned size, uint32_t turn) {
    for (unsigned k = 0; k < SIDES; k++) {
        memset(&on[k], 0, sizeof on[k]);
        on[k].c = &circuits[size];
        on[k].length = circuits[size].length;
        on[k].turn = turn;
        cold_start(&sides[k], &on[k]);
    }
}

static times timed(task *what) {
    const times t = time_both(what, on);
    if (refusals > 0 || memcmp(on[ARCHIVE].record, on[ORACLE].record, sizeof on[ORACLE].record) != 0 ||
        memcmp(on[ARCHIVE].outputs, on[ORACLE].outputs, sizeof on[ORACLE].outputs) != 0) {
        printf("bench: a call was refused, or archive and oracle leave different words\n");
        exit(2);
    }
    return t;
}

/* ---- tables of times: the best round of each side, the ratio of these, and that of the median rounds */

static double worst_ratio;

static void print_times(times t) {
    const double ratio = t.best[ARCHIVE] / t.best[ORACLE];
    printf(" %.0f | %.0f | %.2f | %.2f |\n", t.best[ARCHIVE], t.best[ORACLE], ratio, t.median[ARCHIVE] / t.median[ORACLE]);
    if (on[ARCHIVE].c->n > 0 && ratio > worst_ratio)
        worst_ratio = ratio;
}

static const char columns[] = "archive, ns | oracle, ns | ratio | of medians |\n|---|---|---|---|---|";

static times time_at(unsigned size, task *what, uint32_t turn) {
    begin_on(size, turn);
    for (unsigned k = 0; k < SIDES; k++)
        latch(&sides[k], &on[k]);
    return timed(what);
}

/* How the archive's time grows from 100 to 400 blocks. Where it seems to grow too much both are measured again, at most twice, and the
   least counts: the machine's clock may have changed in between. */
static double growth_of(const char *name, times at_100, times at_400, task *what, uint32_t turn) {
    double least = at_400.best[ARCHIVE] / at_100.best[ARCHIVE];
    for (unsigned again = 0; again < 2 && least > most_growth; again++) {
        at_100 = time_at(1, what, turn);
        at_400 = time_at(3, what, turn);
        const double growth = at_400.best[ARCHIVE] / at_100.best[ARCHIVE];
        printf("%s: growth %.2f, measured again: %.2f\n\n", name, least, growth);
        least = growth < least ? growth : least;
    }
    return least;
}

/* Times a task in a scan, at each size from this one on; gives its growth. */
static double time_sizes(const char *name, task *what, uint32_t turn, unsigned from) {
    times t[SIZES];
    printf("| %s: blocks | bytes | %s---|\n", name, columns);
    for (unsigned s = from; s < SIZES; s++) {
        t[s] = time_at(s, what, turn);
        printf("| %u | %zu |", sizes[s], circuits[s].length);
        print_times(t[s]);
    }
    printf("\n");
    return growth_of(name, t[1], t[3], what, turn);
}

static void time_scans(void) {
    static const uint32_t turns[] = {UINT32_MAX, 8, 1};
    printf("| a scan: blocks | blocks a turn | %s---|\n", columns);
    for (unsigned s = 1; s < SIZES; s += 2)
        for (size_t i = 0; i < sizeof turns / sizeof *turns; i++) {
            begin_on(s, turns[i]);
            const times t = timed(whole_scan);
            if (turns[i] == UINT32_MAX)
                printf("| %u | all |", sizes[s]);
            else
                printf("| %u | %u |", sizes[s], (unsigned)turns[i]);
            print_times(t);
        }
    printf("\n");
}

/* ---- stack */

static const struct {
    const char *name;
    task *what;
} calls[] = {
    {"check", check},
    {"check for 0BA6", check_profile},
    {"cold start", cold_start},
    {"warm start", warm_start},
    {"latch", latch},
    {"run", run_turn},
    {"publish", publish},
};

enum { CALLS = sizeof calls / sizeof *calls };

static void deepen(size_t *most, task *what, unsigned k) {
    const size_t depth = stack_of(what, &sides[k], &on[k]);
    if (depth > *most)
        *most = depth;
}

/* The greatest over the sizes: a scan from its start on, then each call with the circuit cut, and with the first kind unknown. */
static void measure_stack(size_t most[CALLS][SIDES]) {
    memset(most, 0, CALLS * sizeof *most);
    for (unsigned s = 0; s < SIZES; s++) {
        uint8_t *kind = &circuits[s].bytes[9];
        const uint8_t before = *kind;
        begin_on(s, UINT32_MAX);
        for (unsigned k = 0; k < SIDES; k++)
            for (unsigned i = 0; i < CALLS; i++) {
                deepen(&most[i][k], calls[i].what, k);
                on[k].length--;
                deepen(&most[i][k], calls[i].what, k);
                on[k].length++;
                *kind = 0;
                deepen(&most[i][k], calls[i].what, k);
                *kind = before;
            }
    }
}

/* Prints the table; gives the archive's greatest. */
static size_t report_stack(void) {
    size_t most[CALLS][SIDES], worst = 0;
    measure_stack(most);
    printf("| greatest stack, bytes | archive | oracle |\n|---|---|---|\n");
    for (unsigned i = 0; i < CALLS; i++) {
        printf("| %s | %zu | %zu |\n", calls[i].name, most[i][ARCHIVE], most[i][ORACLE]);
        worst = most[i][ARCHIVE] > worst ? most[i][ARCHIVE] : worst;
    }
    printf("\n");
    return worst;
}

/* ---- the whole */

int main(void) {
    for (unsigned s = 0; s < SIZES; s++)
        full_circuit(&circuits[s], sizes[s]);
    const double check_growth = time_sizes("check", check, 0, 0);
    time_scans();
    const double turn_growth = time_sizes("a turn of one block", same_turn, 1, 1);
    const size_t stack = report_stack();
    const double growth = check_growth > turn_growth ? check_growth : turn_growth;
    printf("ratio from 100 blocks on at most %.1f: %.2f, %s\n", most_ratio, worst_ratio, reached(worst_ratio <= most_ratio));
    printf("growth from 100 to 400 blocks at most %.1f: check %.2f, a turn %.2f, %s\n", most_growth, check_growth, turn_growth,
           reached(growth <= most_growth));
    printf("stack at most %d bytes: %zu, %s\n", MOST_STACK, stack, reached(stack <= MOST_STACK));
    if (growth > far_growth || stack > MOST_STACK) {
        printf("bench: the stack is too large, or the growth is missed by far\n");
        return 1;
    }
    return 0;
}
