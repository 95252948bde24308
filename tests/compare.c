/* Compares serifdove_check with oracle_check, input by input.

   compare [SEED] [COUNT]      at least COUNT inputs, 2,000,000 if none is named
   compare --self-test NAME    one of the two is made wrong in the way named; this must be found
   compare --self-test-names   the names of these ways

   A slice stands in memory that cannot be written, its end or its beginning at a page that cannot be read. */
#define _POSIX_C_SOURCE 200809L
#include "circuits.h"
#include "constructed.h"
#include "guarded.h"
#include "oracle.h"
#include "sides.h"
#include "wrong_kinds.h"

#include <stdio.h>
#include <stdlib.h>
#include <string.h>
#include <unistd.h>

static check_function *proved = serifdove_check, *reference = oracle_check;

/* ---- what was compared */

enum { CONSTRUCTED, VALID, BYTE_CHANGED, FIELD_CHANGED, TWICE_CHANGED, TRUNCATED, RANDOM_BYTES, RANDOM_FIELDS, SORTS };

static const char *const sort_names[SORTS] = {
    "constructed", "valid", "byte changed", "field changed", "changed more than once", "truncated", "random bytes", "random fields",
};

static uint64_t compared[SORTS], answered[12], blocks_of_kind[KINDS + 1], calls;

static uint64_t all_compared(void) {
    uint64_t sum = 0;
    for (int sort = 0; sort < SORTS; sort++)
        sum += compared[sort];
    return sum;
}

enum { ROOM = 1 << 17 };

static guarded slice;

/* ---- telling a mismatch */

static const char *now_name;
static const uint8_t *now_bytes;
static size_t now_length;

static void print_answer(const char *who, serifdove_answer a) {
    printf("  %-8s %zu %zu %zu %zu\n", who, a.number, a.place, a.first, a.second);
}

static void print_circuit(void) {
    printf("  %zu bytes:", now_length);
    for (size_t i = 0; i < now_length; i++)
        printf(" %02X", now_bytes[i]);
    printf("\n");
}

static void fail(const char *what, const char *who, serifdove_answer got, const char *other, serifdove_answer want) {
    printf("compare: mismatch: %s (%s)\n", what, now_name);
    print_answer(who, got);
    print_answer(other, want);
    print_circuit();
    exit(1);
}

/* A touched guard page or a write to the slice. Nothing but a check runs then, so printing is safe. */
static void on_fault(int signal) {
    (void)signal;
    printf("compare: mismatch: memory outside the slice was touched, or the slice was written (%s)\n", now_name);
    print_circuit();
    fflush(stdout);
    _exit(1);
}

/* ---- comparing */

static serifdove_answer lend(check_function *check, size_t offset) {
    memcpy(slice.own + offset, now_bytes, now_length);
    const serifdove_answer answer = check(slice.lent + offset, now_length);
    if (memcmp(slice.own + offset, now_bytes, now_length) != 0)
        fail("the slice has changed", "answer", answer, "answer", answer);
    return answer;
}

/* The proved answer with the slice's end at a guard page, and for all but long slices with its beginning there too. */
static serifdove_answer compare(int sort, const char *name, const uint8_t *bytes, size_t length) {
    now_name = name;
    now_bytes = bytes;
    now_length = length;
    const serifdove_answer want = lend(reference, ROOM - length), got = lend(proved, ROOM - length);
    if (!same_answer(got, want))
        fail("end at the guard page", "proved", got, "oracle", want);
    calls++;
    if (length < 1024 || sort == CONSTRUCTED || sort == VALID) {
        const serifdove_answer again = lend(proved, 0);
        if (!same_answer(again, want))
            fail("beginning at the guard page", "proved", again, "oracle", want);
        calls++;
    }
    if (got.number > 11)
        fail("no such number", "proved", got, "oracle", want);
    compared[sort]++;
    answered[got.number]++;
    return got;
}

static void compare_known(const char *name, const uint8_t *bytes, size_t length, serifdove_answer want) {
    const serifdove_answer got = compare(CONSTRUCTED, name, bytes, length);
    if (!same_answer(got, want))
        fail("not what was constructed", "both", got, "known", want);
}

static void compare_null(void) {
    now_name = "null pointer";
    const serifdove_answer want = {1, 0, 0, 0}, got = proved(NULL, 0);
    if (!same_answer(got, want))
        fail("null pointer", "proved", got, "known", want);
}

/* ---- valid circuits */

static circuit made;

static void compare_valid(chance *with, unsigned n, unsigned rows, unsigned last_kind) {
    random_circuit(&made, with, n, rows, last_kind);
    const serifdove_answer want = {0, 0, n, rows}, got = compare(VALID, "valid", made.bytes, made.length);
    if (!same_answer(got, want))
        fail("a valid circuit", "both", got, "known", want);
    for (unsigned k = 1; k <= n; k++)
        blocks_of_kind[made.kinds[k]]++;
}

/* ---- changes of the made circuit */

static uint8_t changed[sizeof made.bytes];

static void truncate_everywhere(void) {
    for (size_t length = 0; length < made.length; length++)
        compare(TRUNCATED, "truncated", made.bytes, length);
}

static void change_every_byte(void) {
    memcpy(changed, made.bytes, made.length);
    for (size_t i = 0; i < made.length; i++) {
        for (unsigned value = 0; value < 256; value++) {
            changed[i] = (uint8_t)value;
            compare(BYTE_CHANGED, "byte changed", changed, made.length);
        }
        changed[i] = made.bytes[i];
    }
}

/* Each byte: some values that are near it or at an end, and one by chance. */
static void change_some_bytes(chance *with, unsigned values) {
    memcpy(changed, made.bytes, made.length);
    for (size_t i = 0; i < made.length; i++) {
        const uint8_t old = made.bytes[i];
        const uint8_t some[] = {(uint8_t)below(with, 256), (uint8_t)(old + 1), (uint8_t)(old ^ 0x80), (uint8_t)(old - 1), 0};
        for (unsigned k = 0; k < values; k++) {
            changed[i] = some[k];
            compare(BYTE_CHANGED, "byte changed", changed, made.length);
        }
        changed[i] = old;
    }
}

/* The bytes from `from` up to `to` replaced by these. */
static void splice(size_t from, size_t to, const uint8_t *bytes, size_t length) {
    memcpy(changed, made.bytes, from);
    memcpy(changed + from, bytes, length);
    memcpy(changed + from + length, made.bytes + to, made.length - to);
    compare(FIELD_CHANGED, "field changed", changed, from + length + made.length - to);
}

static void replace_byte(size_t at, unsigned value) {
    const uint8_t byte = (uint8_t)value;
    splice(at, at + 1, &byte, 1);
}

static void replace_two(size_t at, unsigned value) {
    uint8_t bytes[2];
    put_two(bytes, value);
    splice(at, at + 2, bytes, 2);
}

static size_t field_end(unsigned f) { return f + 1 < made.fields ? made.place[f + 1] : made.length; }

/* Drops, doubles and exchanges the field, changes its tag and length. */
static void change_whole_field(unsigned f) {
    static const uint8_t tags[] = {0x00, HEADER, 0x02, BLOCK, LABEL, ROW, END, 0x80, 0xFF};
    const size_t from = made.place[f], to = field_end(f), size = to - from;
    uint8_t two[128];
    splice(from, to, made.bytes, 0);
    splice(to, to, made.bytes + from, size);
    if (f + 1 < made.fields) {
        memcpy(two, made.bytes + to, field_end(f + 1) - to);
        memcpy(two + field_end(f + 1) - to, made.bytes + from, size);
        splice(from, field_end(f + 1), two, field_end(f + 1) - from);
    }
    for (size_t k = 0; k < sizeof tags; k++)
        replace_byte(from, tags[k]);
    replace_two(from + 1, (unsigned)size - 3 + 1);
    replace_two(from + 1, ((unsigned)size - 3 - 1) & 0xFFFF);
    memcpy(two, made.bytes + from, size);
    two[size] = 0;
    put_two(two + 1, (unsigned)size - 3 + 1);
    splice(from, to, two, size + 1);
    if (size > 3) {
        put_two(two + 1, (unsigned)size - 3 - 1);
        splice(from, to, two, size - 1);
    }
}

static void insert_labels(unsigned f) {
    static const uint8_t label[20] = {LABEL};
    uint8_t bytes[sizeof label];
    for (unsigned length = 0; length <= 17; length += length == 0 ? 16 : 1) {
        memcpy(bytes, label, sizeof label);
        put_two(bytes + 1, length);
        splice(field_end(f), field_end(f), bytes, 3 + length);
    }
}

/* A connector replaced by one of each class with numbers at the ends of every range. */
static void replace_connector(size_t at, unsigned own) {
    static const uint8_t classes[] = {0,    1,    2,    3,    4,    5,    6,    7,    8,    9,    10,
                                      0x7F, 0x80, 0x81, 0x82, 0x83, 0x84, 0x85, 0x86, 0x87, 0x89, 0xFF};
    const unsigned numbers[] = {0, 1, 8, 9, 24, 25, 64, 65, own - 1, own, own + 1, made.n, made.n + 1, 257};
    for (size_t i = 0; i < sizeof classes; i++)
        for (size_t k = 0; k < sizeof numbers / sizeof *numbers; k++) {
            uint8_t bytes[3] = {classes[i], 0, 0};
            put_two(bytes + 1, numbers[k] & 0xFFFF);
            splice(at, at + 3, bytes, 3);
        }
}

static void replace_four(size_t at, int32_t value) {
    uint8_t bytes[4];
    put_four(bytes, value);
    splice(at, at + 4, bytes, 4);
}

static void replace_parameter(size_t at, int32_t least, int32_t greatest) {
    const int32_t values[] = {least, least - 1, least + 1, greatest,  greatest + 1, greatest - 1, 0,
                              -1,    257,       5999,      INT32_MIN, 6000,         INT32_MAX};
    for (size_t i = 0; i < sizeof values / sizeof *values; i++)
        replace_four(at, values[i]);
}

/* Each time replaced by each, by one less and by one more. */
static void replace_times(size_t from, unsigned own) {
    const unsigned kind = made.kinds[own];
    for (unsigned i = 1; i <= times_of(kind); i++)
        for (unsigned other = 1; other <= times_of(kind); other++)
            for (int32_t beside = -1; beside <= 1; beside++)
                replace_four(from + parameter_at(kind, i), parameter_of(&made, own, other) + beside);
}

static void change_block(size_t from, unsigned own) {
    static const uint8_t options[] = {0, 1, 2, 3, 0x80, 0x81, 0xFF}, unknown[] = {0, 20, 21, 32, 0x81, 0xFF};
    const unsigned kind = made.bytes[from + 3];
    for (unsigned other = 1; other <= KINDS; other++)
        replace_byte(from + 3, other);
    for (size_t i = 0; i < sizeof unknown; i++)
        replace_byte(from + 3, unknown[i]);
    for (size_t i = 0; i < sizeof options; i++)
        replace_byte(from + 4, options[i]);
    for (unsigned i = 0; i < inputs_of(kind); i++)
        replace_connector(from + input_at(i), own);
    for (unsigned i = 0; i < shapes[kind].parameters; i++)
        replace_parameter(from + parameter_at(kind, i), shapes[kind].least[i], shapes[kind].greatest[i]);
    replace_times(from, own);
}

static void change_row(size_t from) {
    static const uint8_t numbers[] = {0, 1, 2, 8, 9, 20, 21, 64, 65, 255};
    for (unsigned class = 0; class <= 6; class++)
        for (size_t i = 0; i < sizeof numbers; i++) {
            const uint8_t destination[2] = {(uint8_t)class, numbers[i]};
            splice(from + 3, from + 5, destination, 2);
        }
    replace_connector(from + 5, made.n);
}

static void change_header(void) {
    const unsigned numbers[] = {made.n + 1, made.n - 1, 0, 256, 400, 401, 65535};
    for (size_t i = 0; i < sizeof numbers / sizeof *numbers; i++)
        replace_two(4, numbers[i] & 0xFFFF);
}

static void change_every_field(void) {
    unsigned own = 0;
    for (unsigned f = 0; f < made.fields; f++) {
        const size_t from = made.place[f];
        change_whole_field(f);
        insert_labels(f);
        if (made.bytes[from] == HEADER)
            change_header();
        if (made.bytes[from] == BLOCK)
            change_block(from, ++own);
        if (made.bytes[from] == ROW)
            change_row(from);
    }
}

/* Two to four bytes changed. */
static void change_more_than_once(chance *with) {
    memcpy(changed, made.bytes, made.length);
    for (unsigned k = 2 + below(with, 3); k > 0; k--)
        changed[below(with, (uint32_t)made.length)] = (uint8_t)(once_in(with, 3) ? below(with, 256) : below(with, KINDS + 1));
    compare(TWICE_CHANGED, "changed more than once", changed, made.length);
}

/* ---- inputs that no valid circuit stands behind */

static void compare_random_bytes(chance *with) {
    static const uint8_t common[] = {0, 0, 0, 1, 1, 2, 3, 5, 6, HEADER, BLOCK, LABEL, ROW, END};
    uint8_t bytes[48];
    const size_t length = below(with, sizeof bytes + 1);
    const bool any = once_in(with, 2);
    for (size_t i = 0; i < length; i++)
        bytes[i] = any ? (uint8_t)below(with, 256) : common[below(with, sizeof common)];
    if (length >= 6 && !once_in(with, 3))
        memcpy(bytes, "\1\0\3\1\0", 5);
    compare(RANDOM_BYTES, "random bytes", bytes, length);
}

static uint8_t *random_connector(chance *with, uint8_t *at) {
    static const uint8_t classes[] = {0, 1, 1, 1, 2, 3, 4, 4, 6, 6, 7, 7, 8, 9, 0x81, 0x82, 0x83, 0x84, 0x86, 5, 0x80, 0x87, 0xFF};
    static const uint8_t numbers[] = {0, 1, 1, 1, 2, 2, 3, 4, 8, 9, 24, 25, 64, 65};
    at[0] = classes[below(with, sizeof classes)];
    put_two(at + 1, at[0] == 0 || at[0] == 2 || at[0] == 3 ? below(with, 16) / 15 : numbers[below(with, sizeof numbers)]);
    return at + 3;
}

/* Any kind, or one that there is not. */
static unsigned random_kind(chance *with) {
    const unsigned kind = below(with, KINDS + 2);
    return kind <= KINDS ? kind : 20 + below(with, 256 - 20);
}

/* Parameters that most often fit; else each in the widest range, or one beside. */
static void odd_parameters(chance *with, unsigned kind, int32_t *values) {
    random_parameters(with, kind, values);
    for (unsigned i = 0; i < shapes[kind].parameters; i++) {
        if (once_in(with, 8))
            values[i] = between(with, shapes[kind].least[i], shapes[kind].greatest[i]);
        if (once_in(with, 16))
            values[i] += once_in(with, 2) ? 1 : -1;
    }
}

static uint8_t *random_block(chance *with, uint8_t *at) {
    const unsigned kind = once_in(with, 24) ? random_kind(with) : once_in(with, 4) ? 12 : 7 + below(with, KINDS - 6);
    const unsigned known = 1 <= kind && kind <= KINDS ? kind : 8;
    int32_t values[4] = {0, 0, 0, 0};
    uint8_t *begin = at;
    at[3] = (uint8_t)kind;
    at[4] = (uint8_t)(once_in(with, 8) ? below(with, 3) : 0);
    at += 5;
    for (unsigned i = 0; i < inputs_of(known); i++) {
        do
            random_connector(with, at);
        while (!once_in(with, 8) && (shapes[known].inputs[i] == 'a') != (at[0] >= 7 && at[0] <= 9));
        at += 3;
    }
    odd_parameters(with, known, values);
    for (unsigned i = 0; i < shapes[known].parameters; i++, at += 4)
        put_four(at, values[i]);
    put_two(begin + 1, (unsigned)(at - begin) - 3 + (once_in(with, 24) ? 1 : 0));
    return at;
}

static uint8_t *random_row(chance *with, uint8_t *at) {
    put_two(at + 1, once_in(with, 24) ? 4 : 5);
    at[3] = (uint8_t)(once_in(with, 8) ? below(with, 6) : 1 + below(with, 4));
    at[4] = (uint8_t)(once_in(with, 16) ? below(with, 70) : 1 + below(with, 4));
    return random_connector(with, at + 5);
}

/* A field with this tag, most often in a valid form. */
static uint8_t *random_field(chance *with, uint8_t *at, unsigned tag, unsigned n) {
    at[0] = (uint8_t)tag;
    switch (tag) {
    case HEADER:
        put_two(at + 1, once_in(with, 32) ? 2 : 3);
        at[3] = once_in(with, 32) ? 2 : 1;
        put_two(at + 4, n);
        return at + 6;
    case BLOCK:
        return random_block(with, at);
    case ROW:
        return random_row(with, at);
    default:
        put_two(at + 1, once_in(with, 32) ? 1 : 0);
        return at + 3;
    }
}

/* Header, blocks with a label here and there, rows, end; now and then a field in the wrong place or a wrong number of blocks. */
static void compare_random_fields(chance *with) {
    static const uint8_t any[] = {HEADER, BLOCK, LABEL, ROW, END, 0x00, 0xFF};
    uint8_t bytes[512], *at = bytes;
    const unsigned blocks = below(with, 4), rows = below(with, 4), stray = below(with, 40);
    const unsigned fields = 1 + blocks + rows + 1;
    for (unsigned f = 0; f < fields; f++) {
        const unsigned tag = f == 0 ? HEADER : f <= blocks ? BLOCK : f <= blocks + rows ? ROW : END;
        if (f == stray)
            at = random_field(with, at, any[below(with, sizeof any)], blocks);
        at = random_field(with, at, tag, once_in(with, 16) ? below(with, 5) : blocks);
        if (tag == BLOCK && once_in(with, 4))
            at = random_field(with, at, LABEL, 0);
    }
    if (once_in(with, 16))
        *at++ = 0;
    compare(RANDOM_FIELDS, "random fields", bytes, (size_t)(at - bytes));
}

/* ---- the whole run */

static void once(chance *with) {
    compare_null();
    each_constructed(compare_known);
    for (unsigned n = 0; n <= MOST_BLOCKS; n++)
        compare_valid(with, n, (unsigned)between(with, 0, DESTINATIONS), 0);
    compare_valid(with, MOST_BLOCKS, DESTINATIONS, 0);
    change_some_bytes(with, 1);
    compare_valid(with, 100, DESTINATIONS, 0);
    truncate_everywhere();
}

/* Small circuits, the last block of each kind in turn; every sixteenth round a larger one. */
static void round_of(chance *with, unsigned round) {
    compare_valid(with, 1 + below(with, 2), below(with, 3), 1 + round % KINDS);
    change_every_byte();
    truncate_everywhere();
    for (unsigned k = 0; k < 4; k++) {
        compare_valid(with, 1 + below(with, 4), below(with, 4), 1 + (4 * round + k) % KINDS);
        change_every_field();
        truncate_everywhere();
    }
    for (unsigned k = 0; k < 500; k++) {
        compare_valid(with, below(with, 12), below(with, 8), 0);
        for (unsigned times = 0; times < 6; times++)
            change_more_than_once(with);
    }
    for (unsigned k = 0; k < 4000; k++)
        compare_random_fields(with);
    for (unsigned k = 0; k < 2000; k++)
        compare_random_bytes(with);
    if (round % 16 == 0) {
        compare_valid(with, 30 + below(with, 30), below(with, 60), 0);
        change_some_bytes(with, 5);
        truncate_everywhere();
    }
}

static bool report(uint64_t seed) {
    bool all_seen = true;
    printf("compare: seed %llu, %llu inputs, %llu calls of serifdove_check\n", (unsigned long long)seed,
           (unsigned long long)all_compared(), (unsigned long long)calls);
    for (int sort = 0; sort < SORTS; sort++)
        printf("  %-24s %10llu\n", sort_names[sort], (unsigned long long)compared[sort]);
    printf("  answers:");
    for (unsigned number = 0; number <= 11; number++) {
        printf(" %u: %llu%s", number, (unsigned long long)answered[number], number < 11 ? "," : "\n");
        all_seen = all_seen && answered[number] > 0;
    }
    for (unsigned kind = 1; kind <= KINDS; kind++)
        all_seen = all_seen && blocks_of_kind[kind] > 0;
    if (!all_seen)
        printf("compare: a number from 0 to 11 or a kind was never seen\n");
    return all_seen;
}

/* ---- wrong ones, that must be found */

static serifdove_answer wrong_place(const uint8_t *circuit, size_t length) {
    serifdove_answer answer = oracle_check(circuit, length);
    answer.place += answer.number == 7;
    return answer;
}

static serifdove_answer wrong_rows(const uint8_t *circuit, size_t length) {
    serifdove_answer answer = oracle_check(circuit, length);
    answer.second += answer.second == DESTINATIONS;
    return answer;
}

static serifdove_answer times_in_any_order(const uint8_t *circuit, size_t length) {
    return oracle_check(times_in_order(circuit, length), length);
}

static serifdove_answer digital_amplifiers(const uint8_t *circuit, size_t length) {
    return oracle_check(no_digital_amplifiers(circuit, length), length);
}

static serifdove_answer multiplexers_alone_are_analog(const uint8_t *circuit, size_t length) {
    return oracle_check(no_analog_amplifiers(circuit, length), length);
}

static serifdove_answer reads_behind(const uint8_t *circuit, size_t length) {
    const volatile uint8_t *at = circuit;
    (void)at[length];
    return oracle_check(circuit, length);
}

static serifdove_answer reads_before(const uint8_t *circuit, size_t length) {
    const volatile uint8_t *at = circuit;
    (void)*(at - 1);
    return oracle_check(circuit, length);
}

static serifdove_answer writes(const uint8_t *circuit, size_t length) {
    volatile uint8_t *at = (volatile uint8_t *)(uintptr_t)circuit;
    if (length > 0)
        at[0] = at[0];
    return oracle_check(circuit, length);
}

static const struct {
    const char *name;
    check_function **which, *wrong;
} all_wrong[] = {
    {"wrong_place", &reference, wrong_place},
    {"wrong_rows", &reference, wrong_rows},
    {"times_in_any_order", &proved, times_in_any_order},
    {"digital_amplifiers", &proved, digital_amplifiers},
    {"multiplexers_alone_are_analog", &proved, multiplexers_alone_are_analog},
    {"reads_behind", &proved, reads_behind},
    {"reads_before", &proved, reads_before},
    {"writes", &proved, writes},
};

static bool make_wrong(const char *name) {
    for (size_t i = 0; i < sizeof all_wrong / sizeof *all_wrong; i++)
        if (strcmp(all_wrong[i].name, name) == 0) {
            *all_wrong[i].which = all_wrong[i].wrong;
            return true;
        }
    return false;
}

static void print_wrong_names(void) {
    for (size_t i = 0; i < sizeof all_wrong / sizeof *all_wrong; i++)
        puts(all_wrong[i].name);
}

int main(int words, char **word) {
    uint64_t seed = 1, count = 2000000;
    if (words == 2 && strcmp(word[1], "--self-test-names") == 0) {
        print_wrong_names();
        return 0;
    }
    if (words > 1 && strcmp(word[1], "--self-test") == 0) {
        if (words != 3 || !make_wrong(word[2])) {
            fprintf(stderr, "compare: --self-test and one of --self-test-names\n");
            return 2;
        }
        count = 1;
    } else {
        seed_and_count(words, word, &seed, &count);
    }
    chance with = chance_of(seed);
    slice = guarded_memory(ROOM, true);
    on_touch(on_fault);
    printf("compare: seed %llu\n", (unsigned long long)seed);
    once(&with);
    for (unsigned round = 0; all_compared() < count || round < KINDS; round++)
        round_of(&with, round);
    return report(seed) ? 0 : 1;
}
