/* Compares serifdove_read_rows and serifdove_write_rows with the oracle's, input by input, in answers and in every byte lent.

   rows_compare [SEED] [COUNT]      at least COUNT texts, 1,000,000 if none is named, and circuits beside
   rows_compare --self-test NAME    the proved calls are made wrong in the way named; this must be found
   rows_compare --self-test-names   prints the names

   The archive makes each call twice: both slices with their end at a page that cannot be touched, then with their beginning there. The
   first slice stands in memory that cannot be written. */
#define _POSIX_C_SOURCE 200809L
#include "constructed.h"
#include "guarded.h"
#include "row_texts.h"
#include "sides.h"
#include "wrong_rows.h"

#include <inttypes.h>
#include <stdio.h>
#include <stdlib.h>
#include <string.h>
#include <unistd.h>

enum { READ, WRITE, CALLS };

static const char *const call_names[CALLS] = {"read_rows", "write_rows"};

static side proved;

/* ---- what was compared */

enum { NAMED, VALID, DAMAGED, FAULTY_ROWS, RANDOM_BYTES, MANY_ROWS, SORTS };

static const char *const sort_names[SORTS] = {"named", "valid", "damaged", "faulty rows", "random bytes", "many rows"};

enum { NUMBERS = 35 };

static uint64_t compared[CALLS][SORTS], answered[CALLS][NUMBERS];

static uint64_t all_compared(int call) {
    uint64_t sum = 0;
    for (int sort = 0; sort < SORTS; sort++)
        sum += compared[call][sort];
    return sum;
}

/* ---- telling a mismatch */

enum { ROOM = TEXT_ROOM };

static guarded from_memory, to_memory;
static uint8_t before[ROOM], want_bytes[ROOM];

static struct {
    int call;
    const char *name;
    const uint8_t *from;
    size_t length, room;
} now;

static void print_answer(const char *who, serifdove_answer a) {
    printf("  %-8s %zu %zu %zu %zu\n", who, a.number, a.place, a.first, a.second);
}

/* The text as a string of C, the circuit in hexadecimal. */
static void print_input(void) {
    printf("  %zu bytes, room for %zu: ", now.length, now.room);
    for (size_t i = 0; i < now.length; i++) {
        const uint8_t byte = now.from[i];
        if (now.call == WRITE)
            printf(" %02X", byte);
        else if (byte < ' ' || byte > '~' || byte == '"' || byte == '\\')
            printf("\\%03o", byte);
        else
            putchar(byte);
    }
    printf("\n");
}

static _Noreturn void fail(const char *what, const char *who, serifdove_answer got, const char *other, serifdove_answer want) {
    printf("rows: mismatch: %s: %s (%s)\n", call_names[now.call], what, now.name);
    print_answer(who, got);
    print_answer(other, want);
    print_input();
    exit(1);
}

/* A page was touched that may not be. Nothing but a call runs then, so printing is safe. */
static void on_fault(int signal) {
    (void)signal;
    printf("rows: mismatch: %s: memory outside the slices was touched, or the first slice was written (%s)\n", call_names[now.call],
           now.name);
    print_input();
    fflush(stdout);
    _exit(1);
}

/* ---- comparing */

enum { AT_THE_END, AT_THE_BEGINNING, PLACEMENTS };

/* Where a slice stands; an empty one at the beginning is a null pointer. */
static uint8_t *placed(uint8_t *view, size_t length, unsigned placement) {
    if (placement == AT_THE_BEGINNING)
        return length == 0 ? NULL : view;
    return view + ROOM - length;
}

static rows_function *call_of(const side *by) { return now.call == READ ? by->read_rows : by->write_rows; }

static void put_bytes(uint8_t *to, const uint8_t *from, size_t length) {
    if (length > 0)
        memcpy(to, from, length);
}

static void compare_placed(serifdove_answer want, unsigned placement) {
    uint8_t *to = placed(to_memory.lent, now.room, placement);
    put_bytes(placed(from_memory.own, now.length, placement), now.from, now.length);
    put_bytes(to, before, now.room);
    const serifdove_answer got = call_of(&proved)(placed(from_memory.lent, now.length, placement), now.length, to, now.room);
    if (!same_answer(got, want))
        fail(placement == AT_THE_END ? "answer, ends at the guard page" : "answer, beginnings at the guard page", "proved", got,
             "oracle", want);
    if (now.room > 0 && memcmp(to, want_bytes, now.room) != 0)
        fail("bytes", "proved", got, "oracle", want);
}

/* What the oracle leaves stands in want_bytes. */
static serifdove_answer compare(int call, int sort, const char *name, const uint8_t *from, size_t length, size_t room) {
    now.call = call;
    now.name = name;
    now.from = from;
    now.length = length;
    now.room = room;
    put_bytes(want_bytes, before, room);
    const serifdove_answer want = call_of(&sides[ORACLE])(from, length, want_bytes, room);
    for (unsigned placement = 0; placement < PLACEMENTS; placement++)
        compare_placed(want, placement);
    if (want.number >= NUMBERS)
        fail("no such number", "both", want, "both", want);
    compared[call][sort]++;
    answered[call][want.number]++;
    return want;
}

/* Likewise, where the answer is known, and where accepted the bytes written too. */
static void compare_known(int call, int sort, const char *name, const uint8_t *from, size_t length, size_t room, serifdove_answer known,
                          const uint8_t *written) {
    const serifdove_answer got = compare(call, sort, name, from, length, room);
    if (!same_answer(got, known))
        fail("not the answer that was constructed", "both", got, "known", known);
    if (written != NULL && known.first > 0 && memcmp(want_bytes, written, known.first) != 0)
        fail("not the bytes that were constructed", "both", got, "known", known);
    if (memcmp(want_bytes + known.first, before + known.first, room - known.first) != 0)
        fail("bytes that must stay", "both", got, "known", known);
}

static serifdove_answer refused(unsigned number, size_t place) { return (serifdove_answer){number, place, 0, 0}; }

/* With more room than is needed, just enough, one byte too little, and none. */
static void compare_rooms(int call, int sort, const char *name, const uint8_t *from, size_t length, serifdove_answer known,
                          const uint8_t *written) {
    const size_t need = known.first;
    compare_known(call, sort, name, from, length, need + 1 + length % 40, known, written);
    compare_known(call, sort, name, from, length, need, known, written);
    if (need > 0)
        compare_known(call, sort, name, from, length, need - 1, refused(33, 0), NULL);
    if (need > 1)
        compare_known(call, sort, name, from, length, 0, refused(33, 0), NULL);
}

/* ---- named ones */

static void compare_named_text(const char *name, const uint8_t *text, size_t length, serifdove_answer known) {
    if (known.number == 0)
        compare_rooms(READ, NAMED, name, text, length, known, NULL);
    else
        compare_known(READ, NAMED, name, text, length, length % 64, known, NULL);
}

static void compare_named_circuit(const char *name, const uint8_t *bytes, size_t length, serifdove_answer check) {
    if (check.number != 0)
        compare_known(WRITE, NAMED, name, bytes, length, length % 64, check, NULL);
    else
        compare(WRITE, NAMED, name, bytes, length, 256 + 4 * length);
}

/* ---- valid circuits, as texts and written out */

static circuit made;
static row_text written, styled;

static void make_valid(chance *with, unsigned n, unsigned rows, unsigned last_kind) {
    random_circuit(&made, with, n, rows, last_kind);
    put_hard_labels(&made, with);
    put_circuit_text(&written, with, &made, style_of(0));
}

/* The made circuit in this style, read. */
static void compare_style(chance *with, unsigned style) {
    const serifdove_answer known = {0, 0, made.length, made.n + made.rows};
    put_circuit_text(&styled, with, &made, style_of(style));
    compare_rooms(READ, VALID, "valid", styled.bytes, styled.length, known, made.bytes);
}

/* The made circuit, written out. */
static void compare_written(void) {
    const serifdove_answer known = {0, 0, written.length, made.n + made.rows};
    compare_rooms(WRITE, VALID, "valid", made.bytes, made.length, known, written.bytes);
}

/* ---- damage: one byte changed, left out or put in, or all from it on cut off */

static uint8_t damaged[ROOM];

/* The bytes from `from` up to `to` replaced by these. */
static void splice(chance *with, int call, const uint8_t *bytes, size_t length, size_t from, size_t to, const uint8_t *by,
                   size_t count) {
    const size_t need = call == READ ? made.length : written.length;
    const size_t rooms[] = {need + 8, need + 8, need + 8, need, need - 1, need / 2};
    put_bytes(damaged, bytes, from);
    put_bytes(damaged + from, by, count);
    put_bytes(damaged + from + count, bytes + to, length - to);
    compare(call, DAMAGED, "damaged", damaged, from + count + length - to, rooms[below(with, 6)]);
}

static void damage_text(chance *with, const row_text *t) {
    static const uint8_t bytes[] = {'"', ',', '\r', '\n', '0', '1', '9', '-', 'a', ' ', 0, 255};
    for (size_t i = 0; i < t->length; i++) {
        for (size_t k = 0; k < sizeof bytes; k++) {
            splice(with, READ, t->bytes, t->length, i, i + 1, bytes + k, 1);
            splice(with, READ, t->bytes, t->length, i, i, bytes + k, 1);
        }
        splice(with, READ, t->bytes, t->length, i, i + 1, NULL, 0);
        splice(with, READ, t->bytes, t->length, i, t->length, NULL, 0);
    }
}

/* So many damages, each to the whole text. */
static void damage_somewhere(chance *with, const row_text *t, unsigned times) {
    static const uint8_t bytes[] = {'"', ',', '\r', '\n', '0', '-', 'a'};
    for (unsigned k = 0; k < times; k++) {
        const size_t i = below(with, (uint32_t)t->length), left_out = below(with, 2), put_in = below(with, 2);
        const uint8_t byte = bytes[below(with, sizeof bytes)];
        splice(with, READ, t->bytes, t->length, i, i + left_out, &byte, put_in);
    }
}

static void damage_circuit(chance *with) {
    for (size_t i = 0; i < made.length; i++) {
        const uint8_t old = made.bytes[i];
        const uint8_t some[] = {(uint8_t)below(with, 256), (uint8_t)(old + 1), (uint8_t)(old ^ 0x80), (uint8_t)(old - 1), 0};
        for (size_t k = 0; k < sizeof some; k++)
            splice(with, WRITE, made.bytes, made.length, i, i + 1, some + k, 1);
        splice(with, WRITE, made.bytes, made.length, i, i, some, 1);
        splice(with, WRITE, made.bytes, made.length, i, i + 1, NULL, 0);
        splice(with, WRITE, made.bytes, made.length, i, made.length, NULL, 0);
    }
}

/* ---- rows whose cells have faults now and then */

static void add_string(row_cells *r, const char *text) { add_text(r, text, strlen(text)); }

/* A number in this range, most often; else one outside it, or none. */
static void add_odd_number(row_cells *r, chance *with, int32_t least, int32_t greatest) {
    static const char *const odd[] = {
        "",           "-",           "-1",         "-0",         "+1",      " 1",   "1 ",
        "1.0",        "0x1",         "a",          "256",        "65536",   "-128", "1-",
        "2147483648", "-2147483649", "4294967296", "4294967297", "1e1",     "--1",  "99999999999999999999",
        "\"",         "1\"",         "\r",         "1\r",        "\r\n1",   "1,1",  "18446744073709551617",
        "-\xB2",      "\xFF",        "32768",      "0000000",    "00000001"};
    if (once_in(with, 50))
        add_string(r, odd[below(with, sizeof odd / sizeof *odd)]);
    else
        add_number(r, below(with, 3) == 0 ? least : below(with, 2) == 0 ? greatest : (int32_t)below(with, 20));
}

static void add_odd_label(row_cells *r, chance *with) {
    static const uint8_t bytes[] = {'"', '"', ',', '\r', '\n', 'a', '0', 0, 255};
    uint8_t label[18];
    const size_t length = once_in(with, 12) ? 17 + below(with, 2) : once_in(with, 4) ? 16 : below(with, 17);
    for (size_t i = 0; i < length; i++)
        label[i] = bytes[below(with, sizeof bytes)];
    add_text(r, label, length);
}

static void odd_block_cells(row_cells *r, chance *with) {
    const unsigned kind = 1 + below(with, KINDS);
    add_number(r, BLOCK);
    add_number(r, once_in(with, 30) ? (int32_t)below(with, 300) : (int32_t)kind);
    add_odd_number(r, with, 0, 255);
    for (unsigned i = 0; i < inputs_of(kind); i++) {
        add_odd_number(r, with, 0, 255);
        add_odd_number(r, with, 0, 65535);
    }
    for (unsigned i = 0; i < shapes[kind].parameters; i++)
        add_odd_number(r, with, INT32_MIN, INT32_MAX);
    const unsigned mark = once_in(with, 24) ? 2 : below(with, 2);
    add_number(r, (int32_t)mark);
    if (mark == 0 && !once_in(with, 24))
        add_text(r, NULL, 0);
    else
        add_odd_label(r, with);
}

static void odd_row_cells(row_cells *r, chance *with) {
    r->count = 0;
    if (once_in(with, 40))
        add_odd_number(r, with, 0, 272);
    else if (!once_in(with, 3)) {
        odd_block_cells(r, with);
    } else {
        add_number(r, ROW);
        for (unsigned i = 0; i < 4; i++)
            add_odd_number(r, with, 0, i < 3 ? 255 : 65535);
    }
    if (once_in(with, 24))
        r->count--;
    if (once_in(with, 24))
        add_text(r, NULL, 0);
    if (r->count == 0)
        add_string(r, "\"");
}

static void compare_odd_rows(chance *with) {
    static const uint8_t stray[] = {'"', '"', '\n', '\r', ' ', ','};
    const unsigned rows = 1 + below(with, 4);
    const text_style style = style_of(below(with, TEXT_STYLES));
    row_cells r;
    styled.length = 0;
    for (unsigned k = 0; k < rows; k++) {
        odd_row_cells(&r, with);
        put_row_text(&styled, with, &r, style);
    }
    if (!style.end_of_the_last)
        drop_last_end(&styled);
    if (styled.length > 0 && once_in(with, 4)) {
        const size_t at = below(with, (uint32_t)styled.length);
        styled.bytes[at] = stray[below(with, sizeof stray)];
    }
    compare(READ, FAULTY_ROWS, "faulty rows", styled.bytes, styled.length, once_in(with, 8) ? below(with, 64) : 256);
}

/* ---- random bytes, behind a beginning that may be good */

static void compare_random_bytes(chance *with) {
    static const uint8_t common[] = {'"', '"', '"', ',', ',', ',', '\r', '\n', '\n', '0', '1', '1', '4', '6', '8', '-', 'a', ' '};
    static const char *const beginnings[] = {
        "", "", "16,8,0,1,1,1,", "16,8,0,1,1,0,", "16,9,0,1,1,", "16,17,0,", "16,18,0,1,1,", "16,19,0,7,1,", "48,", "48,1,1,6,1\n", "16,8,0,1,1,1,\""};
    const char *beginning = beginnings[below(with, sizeof beginnings / sizeof *beginnings)];
    const size_t begun = strlen(beginning), length = begun + below(with, 33);
    uint8_t bytes[64];
    const bool any = once_in(with, 8);
    put_bytes(bytes, (const uint8_t *)beginning, begun);
    for (size_t i = begun; i < length; i++)
        bytes[i] = any ? (uint8_t)below(with, 256) : common[below(with, sizeof common)];
    compare(READ, RANDOM_BYTES, "random bytes", bytes, length, once_in(with, 8) ? below(with, 32) : 96);
}

/* ---- many rows */

static void add_many(chance *with, text_style style, unsigned count, bool blocks) {
    for (unsigned k = 0; k < count; k++) {
        row_cells r = {.count = 0};
        add_number(&r, blocks ? BLOCK : ROW);
        add_number(&r, blocks ? 8 : 1 + (int32_t)below(with, 4));
        add_number(&r, (int32_t)below(with, 2));
        add_number(&r, 6);
        add_number(&r, (int32_t)below(with, 65536));
        if (blocks)
            add_string(&r, "0");
        if (blocks)
            add_text(&r, NULL, 0);
        put_row_text(&styled, with, &r, style);
    }
}

/* So many blocks, then so many output rows; then, where it is not NULL, a row with a fault of this number. */
static void compare_many(chance *with, unsigned blocks, unsigned rows, const char *bad, unsigned number) {
    const text_style style = style_of(below(with, TEXT_STYLES));
    const serifdove_answer good = {0, 0, 6 + 8 * (blocks + rows) + 3, blocks + rows};
    styled.length = 0;
    add_many(with, style, blocks, true);
    add_many(with, style, rows, false);
    if (bad != NULL) {
        put_bytes(styled.bytes + styled.length, (const uint8_t *)bad, strlen(bad));
        styled.length += strlen(bad);
    } else if (!style.end_of_the_last) {
        drop_last_end(&styled);
    }
    if (bad == NULL && blocks <= MOST_BLOCKS) {
        compare_rooms(READ, MANY_ROWS, "many rows", styled.bytes, styled.length, good, NULL);
        return;
    }
    const serifdove_answer known = bad != NULL ? refused(number, blocks + rows + 1) : refused(34, 0);
    compare_known(READ, MANY_ROWS, "many rows", styled.bytes, styled.length, good.first, known, NULL);
    compare_known(READ, MANY_ROWS, "many rows", styled.bytes, styled.length, good.first - 1, known, NULL);
    compare_known(READ, MANY_ROWS, "many rows", styled.bytes, styled.length, 0, known, NULL);
}

static void compare_all_many(chance *with) {
    static const unsigned blocks[] = {0, 1, 255, 256, 257, 399, 400, 401, 402, 512, 656, 1000}, rows[] = {0, 1, 156, 300};
    for (size_t b = 0; b < sizeof blocks / sizeof *blocks; b++)
        for (size_t r = 0; r < sizeof rows / sizeof *rows; r++) {
            compare_many(with, blocks[b], rows[r], NULL, 0);
            compare_many(with, blocks[b], rows[r], "48,1,1,6,\"1", 30);
            compare_many(with, blocks[b], rows[r], "\n", 31);
            compare_many(with, blocks[b], rows[r], "48,1,1,6,-1", 32);
        }
    compare_many(with, 0, 5000, NULL, 0);
}

/* ---- beyond what a byte or two can count: zeros, cells, bytes of a label, rows and blocks */

/* The text between these, so many times, and what must be answered. */
static void compare_repeated(const char *beginning, const char *repeated, size_t times, const char *end, serifdove_answer known) {
    size_t length = strlen(beginning);
    put_bytes(damaged, (const uint8_t *)beginning, length);
    for (size_t k = 0; k < times; k++, length += strlen(repeated))
        put_bytes(damaged + length, (const uint8_t *)repeated, strlen(repeated));
    put_bytes(damaged + length, (const uint8_t *)end, strlen(end));
    compare_known(READ, MANY_ROWS, "repeated", damaged, length + strlen(end), known.first + 16, known, NULL);
}

static serifdove_answer accepted(size_t bytes, size_t rows) { return (serifdove_answer){0, 0, bytes, rows}; }

static void compare_all_repeated(void) {
    static const char block_row[] = "16,8,0,1,1,0,\n", output_row[] = "48,1,1,6,1\n", labelled[] = "16,8,0,1,1,1,";
    for (size_t zeros = 1; zeros <= 600; zeros++)
        compare_repeated("", "0", zeros, block_row, accepted(17, 1));
    compare_repeated("", "0", 100000, block_row, accepted(17, 1));
    compare_repeated("16,9,0,1,1,-", "0", 100000, ",1,0,", accepted(25, 1));
    for (size_t over = 256; over <= 65536; over *= 256) {
        compare_repeated(output_row, ",", 4 + over, "", refused(31, 2));
        compare_repeated("48,1,1", ",1", 2 + over, "", refused(31, 1));
        compare_repeated(labelled, "x", 16 + over, "", refused(32, 1));
        compare_repeated(labelled, "x", over, "", refused(32, 1));
        compare_repeated("16,8,0,1,1,1,\"", "\"\"", over, "\"", refused(32, 1));
        compare_repeated("", output_row, over + 1, "", accepted(9 + 8 * (over + 1), over + 1));
        compare_repeated("", output_row, over + 1, "x", refused(31, over + 2));
    }
    compare_repeated("", block_row, 65536 + 3, "", refused(34, 0));
    compare_repeated("", block_row, 65536 + 3, "\"", refused(30, 65536 + 4));
}

/* ---- the whole run */

static void once(chance *with) {
    each_named_text(compare_named_text);
    each_named(compare_named_circuit);
    for (unsigned n = 0; n <= MOST_BLOCKS; n += n < 20 ? 1 : 19) {
        make_valid(with, n, (unsigned)between(with, 0, DESTINATIONS), 0);
        compare_written();
        compare_style(with, n % TEXT_STYLES);
    }
    make_valid(with, MOST_BLOCKS, DESTINATIONS, 0);
    compare_written();
    compare_style(with, 3);
    damage_somewhere(with, &written, 200);
    compare_all_many(with);
    compare_all_repeated();
}

/* A small circuit with a block of each kind in turn, in each style in turn: whole, and with each damage. */
static void round_of(chance *with, unsigned round) {
    const unsigned few = 1 + below(with, 2), n = below(with, 12), rows = below(with, 12);
    make_valid(with, few, rows % 2, 1 + round % KINDS);
    compare_written();
    for (unsigned style = 0; style < TEXT_STYLES; style++)
        compare_style(with, style);
    put_circuit_text(&styled, with, &made, style_of(round % TEXT_STYLES));
    damage_text(with, &styled);
    damage_circuit(with);
    for (unsigned k = 0; k < 3000; k++)
        compare_odd_rows(with);
    for (unsigned k = 0; k < 2000; k++)
        compare_random_bytes(with);
    make_valid(with, n, rows, 0);
    compare_written();
    compare_style(with, round % TEXT_STYLES);
}

static bool can_be(int call, unsigned number) { return number == 0 || number == 33 || (call == READ ? number >= 30 : number <= 11); }

static bool report(uint64_t seed) {
    bool all_seen = true;
    printf("rows: seed %" PRIu64 ", %" PRIu64 " texts read, %" PRIu64 " circuits written, each twice by the archive\n", seed,
           all_compared(READ), all_compared(WRITE));
    for (int sort = 0; sort < SORTS; sort++)
        printf("  %-16s %10" PRIu64 " %10" PRIu64 "\n", sort_names[sort], compared[READ][sort], compared[WRITE][sort]);
    for (int call = 0; call < CALLS; call++) {
        printf("  %s:", call_names[call]);
        for (unsigned number = 0; number < NUMBERS; number++) {
            if (can_be(call, number))
                printf(" %u: %" PRIu64 "%s", number, answered[call][number], number < 33 + (call == READ) ? "," : "\n");
            all_seen = all_seen && (answered[call][number] > 0) == can_be(call, number);
        }
    }
    if (!all_seen)
        printf("rows: a number that a call can give was never seen, or one that it cannot give\n");
    return all_seen;
}

int main(int words, char **word) {
    uint64_t seed = 1, count = 1000000;
    const bool self_test = words > 1 && strcmp(word[1], "--self-test") == 0;
    proved = sides[ARCHIVE];
    if (words > 1 && strcmp(word[1], "--self-test-names") == 0) {
        print_wrong_rows();
        return 0;
    }
    if (self_test && (words != 3 || !make_wrong_rows(&proved, word[2]))) {
        fprintf(stderr, "rows: --self-test and one of --self-test-names\n");
        return 2;
    }
    if (self_test)
        count = 1;
    else
        seed_and_count(words, word, &seed, &count);
    chance with = chance_of(seed);
    for (size_t i = 0; i < sizeof before; i++)
        before[i] = (uint8_t)below(&with, 256);
    from_memory = guarded_memory(ROOM, true);
    to_memory = guarded_memory(ROOM, false);
    on_touch(on_fault);
    printf("rows: seed %" PRIu64 "\n", seed);
    once(&with);
    for (unsigned round = 0; all_compared(READ) < count || round < KINDS; round++)
        round_of(&with, round);
    return report(seed) ? 0 : 1;
}
