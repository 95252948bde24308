#define _POSIX_C_SOURCE 200809L
#include "series.h"

#include "refusals.h"

#include <strings.h>

static const series the_0ba6 = {
    .name = "0BA6",
    .check = serifdove_check_profile,
    .blocks = SERIFDOVE_0BA6_BLOCKS,
    .most = {[TO_Q] = SERIFDOVE_0BA6_Q, [TO_M] = SERIFDOVE_0BA6_M, [TO_AQ] = SERIFDOVE_0BA6_AQ, [TO_AM] = SERIFDOVE_0BA6_AM},
};

bool read_series(const char *word, const series **to, message *why) {
    if (word == NULL)
        return fail(why, "--series needs the name of a series: %s", the_0ba6.name);
    if (strcasecmp(word, the_0ba6.name) != 0)
        return fail(why, "there is no series `%s` here; expected is %s", shown(word).text, the_0ba6.name);
    *to = &the_0ba6;
    return true;
}

fits_text fits(const series *s) {
    fits_text t = {0};
    if (s != NULL)
        snprintf(t.text, sizeof t.text, "; fits %s", s->name);
    return t;
}

/* ---- what of a circuit the series has not */

/* One of them: the number of blocks, an input, or the connector or destination of a row. */
typedef struct {
    size_t number, place;  /* of its refusal: the number, and where its field begins */
    unsigned class;        /* of which destinations the series has too few */
    unsigned block;        /* in which block, from 1; 0: in none */
    size_t input;          /* and which of its inputs, from 0 */
    const output_row *row; /* in which row; null: in none */
} misfit;

enum { LISTED = 5 }; /* how many are told by name, behind the first */

/* How many there are, and the first of them: by their fields' order, in a block by that of the inputs, in a row the connector first. */
typedef struct {
    size_t count;
    misfit first[1 + LISTED];
} misfits;

static void enter(misfits *to, misfit m) {
    if (to->count < sizeof to->first / sizeof *to->first)
        to->first[to->count] = m;
    to->count++;
}

/* Whether the series has no such destination, nor a flag that it would write. Class 0 is that of no destination: nothing is above it. */
static bool is_above(const series *s, unsigned class, unsigned number) { return class != 0 && number > s->most[class]; }

static void look_into_block(const series *s, const circuit *c, unsigned k, misfits *to) {
    const block *b = &c->block[k];
    for (size_t i = 0; i < MOST_OF_A_BLOCK; i++)
        if (is_above(s, written_by(b->inputs[i]), b->inputs[i].number))
            enter(to, (misfit){SERIFDOVE_CONNECTOR, b->place, written_by(b->inputs[i]), k, i, NULL});
}

static void look_into_row(const series *s, const output_row *r, misfits *to) {
    if (is_above(s, written_by(r->from), r->from.number))
        enter(to, (misfit){SERIFDOVE_CONNECTOR, r->place, written_by(r->from), 0, 0, r});
    if (is_above(s, r->class, r->number))
        enter(to, (misfit){SERIFDOVE_DESTINATION, r->place, r->class, 0, 0, r});
}

static misfits find_misfits(const series *s, const circuit *c) {
    misfits found = {.count = 0};
    if (c->n > s->blocks)
        enter(&found, (misfit){.number = SERIFDOVE_NUMBER_OF_BLOCKS});
    for (unsigned k = 1; k <= c->n; k++)
        look_into_block(s, c, k, &found);
    for (unsigned i = 0; i < c->rows; i++)
        look_into_row(s, &c->row[i], &found);
    return found;
}

/* ---- how it is told */

/* "M1 to M27": what the series has of this class. */
typedef struct {
    char text[48];
} range_text;

static range_text range_of(const series *s, unsigned class) {
    range_text r;
    snprintf(r.text, sizeof r.text, "%s %s %s", destination_name(class, 1).text, s->most[class] == 2 ? "and" : "to",
             destination_name(class, s->most[class]).text);
    return r;
}

/* "block 2, kind 10, off-delay, label `lamp`: its input R is M28" */
static void print_input(FILE *to, const block *b, unsigned number, size_t input) {
    const kind *k = kind_of(b->kind);
    fprintf(to, "block %u, kind %u, %s", number, b->kind, k->name);
    if (b->label_length > 0)
        fprintf(to, ", label `%s`", label_of(b).text);
    fprintf(to, ": its input ");
    if (k->inputs[input][0] == 0)
        fprintf(to, "%zu", input + 1);
    else
        fprintf(to, "%s", k->inputs[input]);
    fprintf(to, " is %s", connector_name(b->inputs[input]).text);
}

/* "the output row to Q1: its connector is M28", or "the output row to Q17" */
static void print_output_row(FILE *to, const output_row *r, bool by_connector) {
    fprintf(to, "the output row to %s", destination_name(r->class, r->number).text);
    if (by_connector)
        fprintf(to, ": its connector is %s", connector_name(r->from).text);
}

/* What of a block or a row it is, and behind it what the series has. */
static void print_misfit(FILE *to, const series *s, const circuit *c, const misfit *m) {
    if (m->row != NULL)
        print_output_row(to, m->row, m->number == SERIFDOVE_CONNECTOR);
    else
        print_input(to, &c->block[m->block], m->block, m->input);
    fprintf(to, "; %s has %s", s->name, range_of(s, m->class).text);
}

static void tell_first(FILE *to, const series *s, const circuit *c, const misfit *m, const circuit_source *of) {
    if (m->number == SERIFDOVE_NUMBER_OF_BLOCKS) {
        if (of->text == NULL)
            fprintf(to, "  The header says %u blocks; %s has at most %u.\n", c->n, s->name, s->blocks);
        else
            fprintf(to, "  %s has at most %u blocks.\n", s->name, s->blocks);
        tell_surplus_block(to, s->blocks, of->text, of->text_length);
        return;
    }
    fprintf(to, "  It is ");
    print_misfit(to, s, c, m);
    fprintf(to, ".\n");
    tell_cells_of_field(to, of, m->place, m->input, m->number, range_of(s, m->class).text);
}

/* The others: how many, and the first of them, a line each. */
static void tell_others(FILE *to, const series *s, const circuit *c, const misfits *found, const circuit_source *of) {
    const size_t others = found->count - 1, listed = others < LISTED ? others : LISTED;
    if (others > 0)
        fprintf(to, "  %zu more place%s not fit:\n", others, others == 1 ? " does" : "s do");
    for (size_t i = 1; i <= listed; i++) {
        fprintf(to, "    ");
        print_place_of_field(to, of, found->first[i].place);
        fprintf(to, ": ");
        print_misfit(to, s, c, &found->first[i]);
        fprintf(to, "\n");
    }
    if (others > listed)
        fprintf(to, "    and %zu more\n", others - listed);
}

/* What each number says of a circuit that serifdove_check accepts, behind the series' name, and what to do about it. */
static const struct {
    const char *meaning, *cure;
} words[] = {
    [SERIFDOVE_NUMBER_OF_BLOCKS] = {"has not so many blocks", "leave blocks out, or split the circuit"},
    [SERIFDOVE_CONNECTOR] =
        {"has not the flag that a connector names",
         "take a lower flag that is free (not M8, which is 1 in the first scan), in the row that writes it and wherever it "
         "is read; or split the circuit"},
    [SERIFDOVE_DESTINATION] =
        {"has not the row's destination",
         "take a lower output or flag that is free (not M8, which is 1 in the first scan), a flag wherever it is read too; or "
         "split the circuit"},
};

void tell_misfit(FILE *to, const series *s, serifdove_answer answer, const circuit_source *of) {
    static circuit c;
    const bool is_known = answer.number < sizeof words / sizeof *words && words[answer.number].meaning != NULL;
    lay_out(&c, of->bytes, of->length);
    const misfits found = find_misfits(s, &c);
    fprintf(to, "  Refusal %zu at ", answer.number);
    print_place_of_field(to, of, answer.place);
    fprintf(to, ": %s%s%s.\n", is_known ? s->name : "", is_known ? " " : "",
            is_known ? words[answer.number].meaning : refusal_meaning(answer.number));
    if (found.count > 0 && found.first[0].number == answer.number && found.first[0].place == answer.place) {
        tell_first(to, s, &c, &found.first[0], of);
        tell_others(to, s, &c, &found, of);
    }
    fprintf(to, "  What to do: %s.\n", is_known ? words[answer.number].cure : refusal_cure(answer.number));
}
