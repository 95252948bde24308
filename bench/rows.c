/* Times the archive's calls on rows beside the oracle's, and measures the stack of each. The last line tells what is missed by far; the
   status is 1 then. */
#include "circuits.h"
#include "measure.h"

#include <stdio.h>
#include <stdlib.h>
#include <string.h>

enum { SIZES = 4 };

static const unsigned sizes[SIZES] = {50, 100, 200, 400};
static circuit circuits[SIZES];
static row_text texts[SIZES];

/* What is to be reached, and what is missed by far. Growth: the time for a byte at the greatest size over that at the smallest. */
static const double most_ratio = 1.25, most_growth = 1.1, far_growth = 3.0;
enum { MOST_STACK = 16 * 1024 };

/* ---- tasks */

static void read_rows(const side *by, subject *on) {
    told(by->read_rows(on->text->bytes, on->text_length, on->written, LONGEST_CIRCUIT));
}

static void write_rows(const side *by, subject *on) { told(by->write_rows(on->c->bytes, on->length, on->written, TEXT_ROOM)); }

/* ---- subjects: blocks of all kinds, labels that have a comma and such that have none, a row for each destination */

static void make_subjects(void) {
    chance with = chance_of(1);
    for (unsigned s = 0; s < SIZES; s++) {
        circuit *c = &circuits[s];
        full_circuit(c, sizes[s]);
        for (unsigned f = 0; f < c->fields; f += 4)
            if (c->bytes[c->place[f]] == LABEL)
                memcpy(c->bytes + c->place[f] + 3, "Door no.3, north", 16);
        put_circuit_text(&texts[s], &with, c, style_of(0));
    }
}

static subject on[SIDES];

static void begin_on(unsigned size) {
    static uint8_t written[SIDES][TEXT_ROOM];
    memset(written, 0, sizeof written);
    for (unsigned k = 0; k < SIDES; k++) {
        memset(&on[k], 0, sizeof on[k]);
        on[k].c = &circuits[size];
        on[k].length = circuits[size].length;
        on[k].text = &texts[size];
        on[k].text_length = texts[size].length;
        on[k].written = written[k];
    }
}

/* ---- time */

static times timed(task *what) {
    const times t = time_both(what, on);
    if (refusals > 0 || memcmp(on[ARCHIVE].written, on[ORACLE].written, TEXT_ROOM) != 0) {
        printf("bench: a call was refused, or archive and oracle write different bytes\n");
        exit(2);
    }
    return t;
}

typedef struct {
    double ratio, growth; /* the worst ratio */
} outcome;

/* The best round of each side, the archive's speed by it, the ratio of these, and that of the median rounds. */
static outcome time_sizes(const char *name, task *what) {
    double a_byte[SIZES];
    outcome o = {0, 0};
    printf("| %s: blocks | bytes of text | archive, ns | oracle, ns | archive, bytes/s | ratio | of medians |\n", name);
    printf("|---|---|---|---|---|---|---|\n");
    for (unsigned s = 0; s < SIZES; s++) {
        begin_on(s);
        const times t = timed(what);
        const double ratio = t.best[ARCHIVE] / t.best[ORACLE];
        a_byte[s] = t.best[ARCHIVE] / (double)texts[s].length;
        o.ratio = ratio > o.ratio ? ratio : o.ratio;
        printf("| %u | %zu | %.0f | %.0f | %.0f | %.2f | %.2f |\n", sizes[s], texts[s].length, t.best[ARCHIVE], t.best[ORACLE],
               1e9 / a_byte[s], ratio, t.median[ARCHIVE] / t.median[ORACLE]);
    }
    printf("\n");
    o.growth = a_byte[SIZES - 1] / a_byte[0];
    return o;
}

/* ---- stack */

static void deepen(size_t most[SIDES], task *what) {
    for (unsigned k = 0; k < SIDES; k++) {
        const size_t depth = stack_of(what, &sides[k], &on[k]);
        most[k] = depth > most[k] ? depth : most[k];
    }
}

/* The greatest over the sizes, whole and cut: a text in its first row, a circuit by a byte. */
static void measure_stack(size_t most[SIDES], task *what) {
    most[ARCHIVE] = most[ORACLE] = 0;
    for (unsigned s = 0; s < SIZES; s++) {
        begin_on(s);
        deepen(most, what);
        for (unsigned k = 0; k < SIDES; k++) {
            on[k].length--;
            on[k].text_length = 5;
        }
        deepen(most, what);
    }
}

/* Prints the table; gives the archive's greatest. */
static size_t report_stack(void) {
    size_t reading[SIDES], writing[SIDES];
    measure_stack(reading, read_rows);
    measure_stack(writing, write_rows);
    printf("| greatest stack, bytes | archive | oracle |\n|---|---|---|\n");
    printf("| read rows | %zu | %zu |\n| write rows | %zu | %zu |\n\n", reading[ARCHIVE], reading[ORACLE], writing[ARCHIVE],
           writing[ORACLE]);
    return reading[ARCHIVE] > writing[ARCHIVE] ? reading[ARCHIVE] : writing[ARCHIVE];
}

/* ---- the whole */

int main(void) {
    make_subjects();
    const outcome reading = time_sizes("read rows", read_rows), writing = time_sizes("write rows", write_rows);
    const size_t stack = report_stack();
    const double ratio = reading.ratio > writing.ratio ? reading.ratio : writing.ratio;
    const double growth = reading.growth > writing.growth ? reading.growth : writing.growth;
    printf("rows, ratio at most %.2f: read %.2f, write %.2f, %s\n", most_ratio, reading.ratio, writing.ratio,
           reached(ratio <= most_ratio));
    printf("rows, a byte at 400 blocks over one at 50, at most %.1f: read %.2f, write %.2f, %s\n", most_growth, reading.growth,
           writing.growth, reached(growth <= most_growth));
    printf("rows, stack at most %d bytes: %zu, %s\n", MOST_STACK, stack, reached(stack <= MOST_STACK));
    if (growth > far_growth || stack > MOST_STACK) {
        printf("bench: the stack is too large, or the growth is missed by far\n");
        return 1;
    }
    return 0;
}
