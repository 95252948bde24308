/* Compares serifdove_check_profile with oracle_check_profile and, on the same circuits, serifdove_check with oracle_check; and holds
   the profile's answer against check's.

   profile [SEED] [COUNT]      all small cases, then COUNT different circuits near each limit of 0BA6, 500,000 if none is named;
                               about half of them are then cut, or changed in a byte or two, near the limit or anywhere
   profile --blocks ..         likewise, near the limit of blocks alone; --others: near all other limits
   profile --self-test NAME    a call is made wrong in the way named; this must be found
   profile --self-test-names   the names of these ways

   A slice stands in memory that cannot be written, its end or its beginning at a page that cannot be read. */
#define _POSIX_C_SOURCE 200809L
#include "circuits.h"
#include "constructed.h"
#include "guarded.h"
#include "oracle.h"
#include "sides.h"

#include <inttypes.h>
#include <stdio.h>
#include <stdlib.h>
#include <string.h>
#include <unistd.h>

enum { CHECK, PROFILE, CALLS };

static const char *const call_names[CALLS] = {"check", "check_profile"};

static check_function *calls[SIDES][CALLS] = {
    [ARCHIVE] = {serifdove_check, serifdove_check_profile},
    [ORACLE] = {oracle_check, oracle_check_profile},
};

/* ---- the limits */

enum { BLOCKS, Q, AQ, M, AM, M_OF_BLOCKS, M_OF_ROWS, AM_OF_BLOCKS, AM_OF_ROWS, LIMITS };

typedef struct limit limit;

/* Puts this number where the limit bites, into the circuit. */
typedef void put_function(chance *with, const limit *l, unsigned number);

static put_function put_blocks, put_destination, put_connector_of_block, put_connector_of_row;

struct limit {
    const char *name;
    put_function *put;
    unsigned class;        /* of the destination or of the connector */
    unsigned most, widest; /* by 0BA6 and by document 01 */
    unsigned number;       /* the refusal of more */
};

static const limit limits[LIMITS] = {
    [BLOCKS] = {"blocks", put_blocks, 0, SERIFDOVE_0BA6_BLOCKS, 400, 4},
    [Q] = {"Q as destination", put_destination, 1, SERIFDOVE_0BA6_Q, 20, 9},
    [AQ] = {"AQ as destination", put_destination, 3, SERIFDOVE_0BA6_AQ, 8, 9},
    [M] = {"M as destination", put_destination, 2, SERIFDOVE_0BA6_M, 64, 9},
    [AM] = {"AM as destination", put_destination, 4, SERIFDOVE_0BA6_AM, 64, 9},
    [M_OF_BLOCKS] = {"M in a block's connector", put_connector_of_block, 4, SERIFDOVE_0BA6_M, 64, 6},
    [M_OF_ROWS] = {"M in a row's connector", put_connector_of_row, 4, SERIFDOVE_0BA6_M, 64, 6},
    [AM_OF_BLOCKS] = {"AM in a block's connector", put_connector_of_block, 8, SERIFDOVE_0BA6_AM, 64, 6},
    [AM_OF_ROWS] = {"AM in a row's connector", put_connector_of_row, 8, SERIFDOVE_0BA6_AM, 64, 6},
};

/* ---- what was compared */

enum { NUMBERS = 12 };

static struct {
    uint64_t circuits;     /* with a number near the limit, each different */
    uint64_t accepted;     /* by the profile */
    uint64_t at_the_limit; /* likewise */
    uint64_t one_above;    /* refused by the limit's number, while check accepts */
} met[LIMITS];

static uint64_t swept, answered[CALLS][NUMBERS], refused_otherwise;

/* ---- telling a mismatch */

enum { ROOM = 1 << 17 };

static guarded slice;

static struct {
    const char *name;
    const uint8_t *bytes;
    size_t length;
    serifdove_answer answers[SIDES][CALLS];
} now;

static void print_bytes(void) {
    printf("  %zu bytes:", now.length);
    for (size_t i = 0; i < now.length; i++)
        printf(" %02X", now.bytes[i]);
    printf("\n");
}

static void fail(const char *what) {
    printf("profile: mismatch: %s (%s)\n", what, now.name);
    for (int call = 0; call < CALLS; call++)
        for (int by = 0; by < SIDES; by++) {
            const serifdove_answer a = now.answers[by][call];
            printf("  %-8s %-14s %zu %zu %zu %zu\n", sides[by].name, call_names[call], a.number, a.place, a.first, a.second);
        }
    print_bytes();
    exit(1);
}

/* A touched guard page or a write to the slice. Nothing but a call runs then, so printing is safe. */
static void on_fault(int signal) {
    (void)signal;
    printf("profile: mismatch: memory outside the slice was touched, or the slice was written (%s)\n", now.name);
    print_bytes();
    fflush(stdout);
    _exit(1);
}

/* ---- what the profile's answer says beside check's */

static unsigned two_at(const uint8_t *bytes) { return (unsigned)bytes[0] << 8 | bytes[1]; }

static bool is_field(size_t place) {
    size_t at = 0;
    while (at < place && at + 3 <= now.length)
        at += 3 + two_at(now.bytes + at + 1);
    return at == place && at < now.length;
}

static bool flag_fits(unsigned class, unsigned number) {
    const unsigned plain = class & 0x7F;
    return number <= (plain == 4 ? SERIFDOVE_0BA6_M : plain == 8 ? SERIFDOVE_0BA6_AM : 65535);
}

static bool destination_fits(unsigned class, unsigned number) {
    static const unsigned most[5] = {255, SERIFDOVE_0BA6_Q, SERIFDOVE_0BA6_M, SERIFDOVE_0BA6_AQ, SERIFDOVE_0BA6_AM};
    return class > 4 || number <= most[class];
}

/* Whether so many connectors fit. */
static bool connectors_fit(const uint8_t *at, unsigned many) {
    for (; many > 0; many--, at += 3)
        if (!flag_fits(at[0], two_at(at + 1)))
            return false;
    return true;
}

/* Whether the refusal names what does not fit: the header's n, a flag at a block or row, a row's destination. */
static bool names_misfit(serifdove_answer a) {
    const uint8_t *field = now.bytes + a.place;
    if (!is_field(a.place))
        return false;
    if (a.number == 4)
        return a.place == 0 && two_at(field + 4) > SERIFDOVE_0BA6_BLOCKS;
    if (a.number == 6 && field[0] == BLOCK)
        return !connectors_fit(field + input_at(0), inputs_of(field[3]));
    if (a.number == 6)
        return field[0] == ROW && !connectors_fit(field + 5, 1);
    return a.number == 9 && field[0] == ROW && !destination_fits(field[3], field[4]);
}

/* It is check's answer; or it refuses what does not fit, in no later field than check does, and in the same by a lower number. */
static void hold_against_check(void) {
    const serifdove_answer check = now.answers[ARCHIVE][CHECK], profile = now.answers[ARCHIVE][PROFILE];
    if (same_answer(profile, check))
        return;
    if (profile.number == 0)
        fail("the profile accepts, check has another answer");
    if (!names_misfit(profile) || profile.first != 0 || profile.second != 0)
        fail("the profile refuses what fits, check has another answer");
    if (check.number == 0)
        return;
    if (profile.place > check.place || (profile.place == check.place && profile.number > check.number))
        fail("check refuses an earlier field, or by a lower number");
    refused_otherwise++;
}

/* ---- comparing */

static const uint8_t *lend(size_t offset) {
    if (now.length > 0)
        memcpy(slice.own + offset, now.bytes, now.length);
    return slice.lent + offset;
}

/* Both calls of both sides with the slice's end at a guard page; the archive's profile, for all but long slices, with its beginning
   there too. */
static void compare(const char *name, const uint8_t *bytes, size_t length) {
    now.name = name;
    now.bytes = bytes;
    now.length = length;
    const uint8_t *lent = lend(ROOM - length);
    for (int by = 0; by < SIDES; by++)
        for (int call = 0; call < CALLS; call++)
            now.answers[by][call] = calls[by][call](lent, length);
    for (int call = 0; call < CALLS; call++) {
        const serifdove_answer answer = now.answers[ARCHIVE][call];
        if (!same_answer(answer, now.answers[ORACLE][call]))
            fail(call_names[call]);
        if (answer.number >= NUMBERS)
            fail("no such number");
        answered[call][answer.number]++;
    }
    if (length < 512 && !same_answer(calls[ARCHIVE][PROFILE](lend(0), length), now.answers[ORACLE][PROFILE]))
        fail("check_profile, beginning at the guard page");
    hold_against_check();
}

/* ---- small circuits of every sort */

static circuit made;

/* The profile must refuse the circuit by this number in the field at `place`; where that is 0, it must answer as check does. */
static void sweep(const char *name, const uint8_t *bytes, size_t length, unsigned number, size_t place) {
    const serifdove_answer refused = {number, place, 0, 0};
    compare(name, bytes, length);
    swept++;
    if (!same_answer(now.answers[ARCHIVE][PROFILE], number == 0 ? now.answers[ORACLE][CHECK] : refused))
        fail("not what was constructed");
}

static void sweep_made(const char *name, unsigned number, size_t place) { sweep(name, made.bytes, made.length, number, place); }

/* Check must answer this. */
static void sweep_known(const char *name, const uint8_t *bytes, size_t length, serifdove_answer want) {
    compare(name, bytes, length);
    swept++;
    if (!same_answer(now.answers[ARCHIVE][CHECK], want))
        fail("not what was constructed");
}

/* Circuits that fit, by chance, of every length; the last has a row for each destination that there is. */
static void sweep_fitting(chance *with) {
    enum { ROWS = SERIFDOVE_0BA6_Q + SERIFDOVE_0BA6_M + SERIFDOVE_0BA6_AQ + SERIFDOVE_0BA6_AM };
    for (unsigned n = 0; n <= SERIFDOVE_0BA6_BLOCKS; n++) {
        const unsigned rows = n == SERIFDOVE_0BA6_BLOCKS ? ROWS : below(with, ROWS + 1);
        fitting_circuit(&made, with, n, rows, 0);
        sweep_known("fitting", made.bytes, made.length, (serifdove_answer){0, 0, n, rows});
        if (now.answers[ARCHIVE][PROFILE].number != 0)
            fail("not what was constructed");
    }
}

/* Every destination: from an input, from the last flag that fits, and from the next. */
static void sweep_destinations(void) {
    for (unsigned class = 0; class < 256; class++)
        for (unsigned number = 0; number < 256; number++) {
            const bool analog = class == 3 || class == 4;
            const unsigned flag = analog ? 8 : 4, last = analog ? SERIFDOVE_0BA6_AM : SERIFDOVE_0BA6_M;
            const unsigned sources[3][2] = {{analog ? 7 : 1, 1}, {flag, last}, {flag, last + 1}};
            for (unsigned k = 0; k < 3; k++) {
                begin_circuit(&made, 0);
                add_row(&made, class, number, sources[k][0], sources[k][1]);
                end_circuit(&made);
                sweep_made("destination", k == 2 ? 6 : destination_fits(class, number) ? 0 : 9, 6);
            }
        }
}

/* A connector with every class byte, or with those of flags, and numbers up to 70 and the last. */
static void sweep_connector(const char *name, size_t field, size_t at, bool every_class) {
    for (unsigned class = 0; class < 256; class++) {
        if (!every_class && flag_fits(class, 65535))
            continue;
        for (unsigned number = 0; number <= 65535; number = number == 70 ? 65535 : number + 1) {
            put_connector(made.bytes + at, class, number);
            sweep_made(name, flag_fits(class, number) ? 0 : 6, field);
        }
    }
}

/* A digital block, and each that is analog. */
static void add_one_of_each_sort(void) {
    add_plain_block(&made, 1);
    add_plain_block(&made, MULTIPLEXER);
    add_plain_block(&made, AMPLIFIER);
}

/* Block 4 of each kind, behind an AND, a multiplexer and an amplifier; every class in those that have one digital and two analog
   inputs. */
static void sweep_connectors_of_blocks(void) {
    for (unsigned kind = 1; kind <= KINDS; kind++)
        for (unsigned i = 0; i < inputs_of(kind); i++) {
            begin_circuit(&made, 4);
            add_one_of_each_sort();
            add_plain_block(&made, kind);
            end_circuit(&made);
            sweep_connector("connector of a block", made.block[4], made.block[4] + input_at(i), kind == 8 || kind == COMPARATOR);
        }
}

/* Rows of Q, M, AQ, AM and of an unknown class. */
static void sweep_connectors_of_rows(void) {
    for (unsigned class = 1; class <= 5; class++) {
        begin_circuit(&made, 3);
        add_one_of_each_sort();
        const size_t row = made.length;
        add_row(&made, class, 1, 0, 0);
        end_circuit(&made);
        sweep_connector("connector of a row", row, row + 5, true);
    }
}

/* ---- circuits with many blocks, most of them NOT */

enum { NOT_FIELD = 8, ROW_FIELD = 8, END_FIELD = 3, MOST_NOTS = 402 };

static uint8_t nots[MOST_NOTS][NOT_FIELD];
static uint8_t changed[sizeof made.bytes + sizeof nots];
static size_t changed_length;

static uint8_t *row_of(unsigned r) { return changed + changed_length - END_FIELD - ROW_FIELD * (made.rows - r); }

/* The made circuit with n in its header and so many NOT behind its blocks. */
static void join_nots(unsigned n, unsigned count) {
    const size_t head = made.length - END_FIELD - ROW_FIELD * made.rows, between_them = NOT_FIELD * count;
    memcpy(changed, made.bytes, head);
    memcpy(changed + head, nots, between_them);
    memcpy(changed + head + between_them, made.bytes + head, made.length - head);
    put_two(changed + 4, n);
    changed_length = made.length + between_them;
}

/* A NOT with this connector. */
static void put_not(uint8_t *at, unsigned class, unsigned number) {
    static const uint8_t head[] = {BLOCK, 0, 5, 8, 0};
    memcpy(at, head, sizeof head);
    put_connector(at + input_at(0), class, number);
}

/* Every n that there may be and one more, with that many blocks, one less and one more; and every n without a block. */
static void sweep_blocks(void) {
    for (unsigned k = 0; k < MOST_NOTS; k++)
        put_not(nots[k], 1, 1 + k % 24);
    begin_circuit(&made, 0);
    end_circuit(&made);
    for (unsigned n = 0; n < MOST_NOTS; n++)
        for (unsigned count = n == 0 ? 0 : n - 1; count <= n + 1 && count <= MOST_NOTS; count++) {
            join_nots(n, count);
            sweep("n blocks", changed, changed_length, n > SERIFDOVE_0BA6_BLOCKS ? 4 : 0, 0);
        }
    for (unsigned n = 0; n < 65536; n++) {
        join_nots(n, 0);
        sweep("n without blocks", changed, changed_length, n > SERIFDOVE_0BA6_BLOCKS ? 4 : 0, 0);
    }
}

/* ---- circuits near a limit, by chance */

enum { NEAR = 5 };

static size_t at_limit; /* where the field begins into which a number near the limit was put */

static bool is_near(const limit *l, unsigned number) { return number + NEAR >= l->most && number <= l->most + NEAR; }

/* One above the limit and the limit most often; others beside them, ends of document 01, any. */
static unsigned near(chance *with, const limit *l) {
    const unsigned odd[] = {0, l->widest, l->widest + 1, 255, 256, 256 + l->most, 256 + l->most + 1, 65535};
    switch (below(with, 16)) {
    case 0:
        return odd[below(with, sizeof odd / sizeof *odd)];
    case 1:
        return 1 + below(with, l->widest);
    case 2:
    case 3:
    case 4:
        return (l->most < NEAR ? 0 : l->most - NEAR) + below(with, 2 * NEAR + 1);
    default:
        return l->most + (once_in(with, 3) ? 0 : 1);
    }
}

/* A block of n that this one may name, seldom one that it may not. */
static unsigned named_by(chance *with, unsigned own, unsigned n) {
    if (own == 1 || once_in(with, 8))
        return once_in(with, 2) ? own : n + below(with, 3) - 1;
    return own - 1 - below(with, own < 9 ? own - 1 : 8);
}

/* How many blocks stand behind a header that says n: near the limit that many, or about as many; else few. */
static unsigned blocks_for(chance *with, const limit *l, unsigned n) {
    if (!is_near(l, n))
        return NEAR + below(with, NEAR);
    return once_in(with, 4) ? l->most - NEAR + below(with, 2 * NEAR + 1) : n;
}

/* In every second circuit a NOT names a block, and in some a row one near n. From circuit to circuit one NOT changes. */
static void put_blocks(chance *with, const limit *l, unsigned n) {
    const unsigned count = blocks_for(with, l, n) - made.n, k = below(with, count), invert = once_in(with, 2) ? 0x80 : 0;
    if (once_in(with, 2))
        put_not(nots[k], 6 + invert, named_by(with, made.n + 1 + k, n));
    join_nots(n, count);
    put_not(nots[k], 1 + invert, 1 + below(with, 24));
    if (made.rows > 0 && once_in(with, 4))
        put_connector(row_of(0) + 5, 6, n + below(with, 3) - 1);
    at_limit = once_in(with, 2) ? 0 : changed_length - END_FIELD - ROW_FIELD * made.rows;
}

static uint8_t *some_row(chance *with) {
    uint8_t *row = row_of(below(with, made.rows));
    at_limit = (size_t)(row - changed);
    return row;
}

/* Of a row; at times its connector does not fit either, its class is unknown, or another row has the same. */
static void put_destination(chance *with, const limit *l, unsigned number) {
    const bool digital = l->class <= 2;
    uint8_t *row = some_row(with);
    if (digital != (row[3] <= 2))
        put_connector(row + 5, digital ? 1 : 7, 1 + below(with, 8));
    if (once_in(with, 8))
        put_connector(row + 5, digital ? 4 : 8, near(with, &limits[digital ? M_OF_ROWS : AM_OF_ROWS]));
    row[3] = (uint8_t)(once_in(with, 16) ? 5 * below(with, 52) : l->class);
    row[4] = (uint8_t)number;
    if (once_in(with, 16))
        memcpy(row_of(below(with, made.rows)) + 3, row + 3, 2);
}

/* A flag, inverted or not; analog ones seldom are. */
static void put_flag(chance *with, uint8_t *at, const limit *l, unsigned number) {
    put_connector(at, l->class + (once_in(with, l->class == 4 ? 2 : 32) ? 0x80 : 0), number);
}

/* At times the row's destination does not fit either, or has a class that is unknown or of the other sort. */
static void put_connector_of_row(chance *with, const limit *l, unsigned number) {
    const bool digital = l->class == 4;
    uint8_t *row = some_row(with);
    if (digital != (row[3] <= 2)) {
        row[3] = (uint8_t)((digital ? 1 : 3) + below(with, 2));
        row[4] = (uint8_t)(1 + below(with, 2));
    }
    if (once_in(with, 8))
        row[3] = (uint8_t)below(with, 7);
    if (once_in(with, 8))
        row[4] = (uint8_t)below(with, 70);
    put_flag(with, row + 5, l, number);
}

static bool takes(unsigned kind, const limit *l) { return shapes[kind].inputs[0] == (l->class == 4 ? 'd' : 'a'); }

/* Any of its inputs. */
static void put_connector_of_block(chance *with, const limit *l, unsigned number) {
    const unsigned any = 1 + below(with, made.n), own = takes(made.kinds[any], l) ? any : made.n;
    const size_t input = input_at(below(with, inputs_of(made.kinds[own])));
    at_limit = made.block[own];
    put_flag(with, changed + at_limit + input, l, number);
}

/* A circuit that fits, with room for what the limit is about: a row, or a block that takes such flags. */
static void make_fitting(chance *with, const limit *l) {
    unsigned n = below(with, 4), rows = below(with, 4), last_kind = 0;
    if (l->put == put_blocks)
        n /= 2;
    else if (l->put != put_connector_of_block)
        rows++;
    else
        for (n++; last_kind == 0 || !takes(last_kind, l);)
            last_kind = 1 + below(with, KINDS);
    fitting_circuit(&made, with, n, rows, last_kind);
}

/* Cut, longer by a byte, or one or two bytes changed: near what was put, or anywhere. */
static void damage(chance *with) {
    const uint32_t way = below(with, 8);
    if (way == 0)
        changed_length = below(with, (uint32_t)changed_length);
    if (way == 1)
        changed[changed_length++] = (uint8_t)below(with, 256);
    for (uint32_t times = way < 2 ? 0 : 1 + way % 2; times > 0; times--) {
        const size_t near_it = at_limit + below(with, 16), anywhere = below(with, (uint32_t)changed_length);
        uint8_t *at = changed + (once_in(with, 2) && near_it < changed_length ? near_it : anywhere);
        const unsigned any = below(with, 256), values[] = {any, any % 10, *at + 1u, *at - 1u, *at ^ 0x80u};
        *at = (uint8_t)values[below(with, sizeof values / sizeof *values)];
    }
}

/* ---- each circuit counts once */

static uint64_t *hashes;
static size_t hash_room; /* a power of two */

static uint64_t hash_of(const uint8_t *bytes, size_t length) {
    uint64_t hash = length, eight;
    size_t i = 0;
    for (; i + sizeof eight <= length; i += sizeof eight) {
        memcpy(&eight, bytes + i, sizeof eight);
        hash = (hash ^ eight) * 0x9E3779B97F4A7C15u;
        hash ^= hash >> 29;
    }
    for (; i < length; i++)
        hash = (hash ^ bytes[i]) * 0x9E3779B97F4A7C15u;
    hash ^= hash >> 29;
    return hash == 0 ? 1 : hash;
}

/* Whether a circuit with this hash was met; from now on it was. */
static bool met_before(uint64_t hash) {
    size_t at = (size_t)hash & (hash_room - 1);
    while (hashes[at] != 0 && hashes[at] != hash)
        at = (at + 1) & (hash_room - 1);
    const bool before = hashes[at] == hash;
    hashes[at] = hash;
    return before;
}

static void forget_hashes(uint64_t count) {
    free(hashes);
    for (hash_room = 1; hash_room < 2 * count;)
        hash_room *= 2;
    hashes = calloc(hash_room, sizeof *hashes);
    if (hashes == NULL) {
        perror("profile: calloc");
        exit(2);
    }
}

/* ---- the whole run */

static void compare_near(chance *with, int which) {
    const limit *l = &limits[which];
    const unsigned number = near(with, l);
    const bool whole = once_in(with, 2);
    join_nots(made.n, 0);
    l->put(with, l, number);
    if (!whole)
        damage(with);
    if (met_before(hash_of(changed, changed_length)))
        return;
    compare(l->name, changed, changed_length);
    const serifdove_answer check = now.answers[ARCHIVE][CHECK], profile = now.answers[ARCHIVE][PROFILE];
    met[which].circuits += is_near(l, number);
    met[which].accepted += profile.number == 0;
    met[which].at_the_limit += whole && number == l->most && profile.number == 0;
    met[which].one_above += whole && number == l->most + 1 && profile.number == l->number && check.number == 0;
}

/* Four circuits are made from one that fits. */
static void compare_limit(uint64_t seed, int which, uint64_t count) {
    chance with = chance_of(LIMITS * seed + (uint64_t)which);
    forget_hashes(2 * count);
    for (uint64_t k = 0; met[which].circuits < count && k < 2 * count; k++) {
        if (k % 4 == 0)
            make_fitting(&with, &limits[which]);
        compare_near(&with, which);
    }
}

static void compare_all(uint64_t seed, uint64_t count, bool blocks, bool others) {
    chance with = chance_of(seed);
    if (blocks)
        sweep_blocks();
    if (others) {
        sweep_destinations();
        sweep_connectors_of_blocks();
        sweep_connectors_of_rows();
    }
    each_named(sweep_known);
    sweep_fitting(&with);
    for (int which = 0; which < LIMITS; which++)
        if (which == BLOCKS ? blocks : others)
            compare_limit(seed, which, count);
}

static bool report_limit(int which, uint64_t count) {
    printf("  %-26s %10" PRIu64 " %10" PRIu64 " %10" PRIu64 " %10" PRIu64 " by %u\n", limits[which].name, met[which].circuits,
           met[which].accepted, met[which].at_the_limit, met[which].one_above, limits[which].number);
    if (met[which].circuits >= count && met[which].at_the_limit > 0 && met[which].one_above > 0)
        return true;
    printf("profile: %s: fewer than %" PRIu64 ", or none accepted at the limit, or none refused above\n", limits[which].name, count);
    return false;
}

static bool report_answers(int call) {
    bool all_seen = true;
    printf("  %s:", call_names[call]);
    for (unsigned number = 0; number < NUMBERS; number++) {
        printf(" %u: %" PRIu64 "%s", number, answered[call][number], number + 1 < NUMBERS ? "," : "\n");
        all_seen = all_seen && answered[call][number] > 0;
    }
    return all_seen;
}

static bool report(uint64_t seed, uint64_t count, bool blocks, bool others) {
    bool all_seen = refused_otherwise > 0;
    printf("profile: seed %" PRIu64 ", %" PRIu64 " small cases, then near each limit, about half of them cut or changed besides:\n", seed,
           swept);
    printf("  %-26s %10s %10s %10s %10s\n", "", "circuits", "accepted", "at it", "one above, refused");
    for (int which = 0; which < LIMITS; which++)
        if (which == BLOCKS ? blocks : others)
            all_seen = report_limit(which, count) && all_seen;
    printf("  refused by both, otherwise: %" PRIu64 "\n", refused_otherwise);
    for (int call = 0; call < CALLS; call++)
        all_seen = report_answers(call) && all_seen;
    if (!all_seen)
        printf("profile: a limit is not reached, or a number from 0 to 11 or a difference was never seen\n");
    return all_seen;
}

/* ---- wrong ones, that must be found */

typedef struct {
    const char *name;
    int call;
    bool on_both_sides;
    check_function *wrong; /* if it is NULL, the oracle, with these limits and flags */
    oracle_limits limits;
    struct {
        unsigned tag;             /* of the fields whose connectors it changes; 0: blocks and rows */
        unsigned class, most, by; /* flags of this class above `most` are taken for this one */
    } flags;
} wrong_way;

static const wrong_way *way;

static void replace_flag(uint8_t *at) {
    const unsigned number = two_at(at + 1);
    if (way->flags.class != 0 && (at[0] & 0x7F) == way->flags.class && number > way->flags.most && number <= 64)
        put_two(at + 1, way->flags.by);
}

static void replace_flags_of(uint8_t *field, size_t content) {
    const unsigned kind = content > 0 && field[3] <= KINDS ? field[3] : 0;
    if (way->flags.tag != 0 && way->flags.tag != field[0])
        return;
    if (field[0] == ROW && content == 5)
        replace_flag(field + 5);
    if (field[0] == BLOCK && kind != 0 && 3 + content == parameter_at(kind, shapes[kind].parameters))
        for (unsigned i = 0; i < inputs_of(kind); i++)
            replace_flag(field + input_at(i));
}

static serifdove_answer within_wrong_limits(const uint8_t *circuit, size_t length) {
    static uint8_t copy[ROOM];
    size_t content;
    memcpy(copy, circuit, length);
    for (size_t at = 0; at + 3 <= length; at += 3 + content) {
        content = two_at(copy + at + 1);
        if (content <= length - at - 3)
            replace_flags_of(copy + at, content);
    }
    return oracle_check_within(&way->limits, copy, length);
}

static serifdove_answer refused_at_0(const uint8_t *circuit, size_t length) {
    serifdove_answer answer = oracle_check_profile(circuit, length);
    answer.place = 0;
    return answer;
}

static serifdove_answer reads_behind(const uint8_t *circuit, size_t length) {
    const volatile uint8_t *at = circuit + length;
    (void)*at;
    return oracle_check_profile(circuit, length);
}

static serifdove_answer reads_before(const uint8_t *circuit, size_t length) {
    const volatile uint8_t *at = circuit - 1;
    (void)*at;
    return oracle_check_profile(circuit, length);
}

static serifdove_answer writes(const uint8_t *circuit, size_t length) {
    volatile uint8_t *at = (volatile uint8_t *)(uintptr_t)circuit;
    *at = *at;
    return oracle_check_profile(circuit, length);
}

#define OF_0BA6 {200, 16, 2, 27, 6}

static const wrong_way wrong_ways[] = {
    {.name = "n_199", .call = PROFILE, .limits = {199, 16, 2, 27, 6}},
    {.name = "n_201", .call = PROFILE, .limits = {201, 16, 2, 27, 6}},
    {.name = "q_15", .call = PROFILE, .limits = {200, 15, 2, 27, 6}},
    {.name = "q_17", .call = PROFILE, .limits = {200, 17, 2, 27, 6}},
    {.name = "aq_1", .call = PROFILE, .limits = {200, 16, 1, 27, 6}},
    {.name = "aq_3", .call = PROFILE, .limits = {200, 16, 3, 27, 6}},
    {.name = "m_26", .call = PROFILE, .limits = {200, 16, 2, 26, 6}},
    {.name = "m_28", .call = PROFILE, .limits = {200, 16, 2, 28, 6}},
    {.name = "am_5", .call = PROFILE, .limits = {200, 16, 2, 27, 5}},
    {.name = "am_7", .call = PROFILE, .limits = {200, 16, 2, 27, 7}},
    {.name = "document_01", .call = PROFILE, .wrong = oracle_check},
    {.name = "m_free_in_connectors", .call = PROFILE, .limits = OF_0BA6, .flags = {0, 4, 27, 1}},
    {.name = "m_free_in_blocks", .call = PROFILE, .limits = OF_0BA6, .flags = {BLOCK, 4, 27, 1}},
    {.name = "m_free_in_rows", .call = PROFILE, .limits = OF_0BA6, .flags = {ROW, 4, 27, 1}},
    {.name = "m_free_as_destination", .call = PROFILE, .limits = {200, 16, 2, 64, 6}, .flags = {0, 4, 27, 65}},
    {.name = "am_free_in_connectors", .call = PROFILE, .limits = OF_0BA6, .flags = {0, 8, 6, 1}},
    {.name = "am_free_in_blocks", .call = PROFILE, .limits = OF_0BA6, .flags = {BLOCK, 8, 6, 1}},
    {.name = "am_free_in_rows", .call = PROFILE, .limits = OF_0BA6, .flags = {ROW, 8, 6, 1}},
    {.name = "am_free_as_destination", .call = PROFILE, .limits = {200, 16, 2, 27, 64}, .flags = {0, 8, 6, 65}},
    {.name = "refused_at_0", .call = PROFILE, .wrong = refused_at_0},
    {.name = "reads_behind", .call = PROFILE, .wrong = reads_behind},
    {.name = "reads_before", .call = PROFILE, .wrong = reads_before},
    {.name = "writes", .call = PROFILE, .wrong = writes},
    {.name = "check_within_0ba6", .call = CHECK, .wrong = oracle_check_profile},
    {.name = "both_n_201", .call = PROFILE, .on_both_sides = true, .limits = {201, 16, 2, 27, 6}},
    {.name = "both_refused_at_0", .call = PROFILE, .on_both_sides = true, .wrong = refused_at_0},
    {.name = "both_check_q_15", .call = CHECK, .on_both_sides = true, .limits = {400, 15, 8, 64, 64}},
};

static bool make_wrong(const char *name) {
    for (size_t i = 0; i < sizeof wrong_ways / sizeof *wrong_ways; i++)
        if (strcmp(wrong_ways[i].name, name) == 0) {
            way = &wrong_ways[i];
            for (int by = 0; by < (way->on_both_sides ? SIDES : 1); by++)
                calls[by][way->call] = way->wrong != NULL ? way->wrong : within_wrong_limits;
            return true;
        }
    return false;
}

static void print_wrong_names(void) {
    for (size_t i = 0; i < sizeof wrong_ways / sizeof *wrong_ways; i++)
        puts(wrong_ways[i].name);
}

int main(int words, char **word) {
    const char *first = words > 1 ? word[1] : "";
    const bool blocks = strcmp(first, "--others") != 0, others = strcmp(first, "--blocks") != 0;
    uint64_t seed = 1, count = 500000;
    if (strcmp(first, "--self-test-names") == 0) {
        print_wrong_names();
        return 0;
    }
    if (strcmp(first, "--self-test") == 0) {
        if (words != 3 || !make_wrong(word[2])) {
            fprintf(stderr, "profile: --self-test and one of --self-test-names\n");
            return 2;
        }
        count = 1000;
    } else {
        const int told = blocks && others ? 0 : 1;
        seed_and_count(words - told, word + told, &seed, &count);
    }
    slice = guarded_memory(ROOM, true);
    on_touch(on_fault);
    compare_all(seed, count, blocks, others);
    return report(seed, count, blocks, others) ? 0 : 1;
}
