#include "wrong_rows.h"

#include "row_texts.h"
#include "wrong_kinds.h"

#include <stdio.h>
#include <string.h>

static const side *const oracle = &sides[ORACLE];

/* ---- texts taken for others: byte i, inside quotes or not, becomes what `tell` puts */

typedef size_t tell_byte(const uint8_t *text, size_t length, size_t i, bool quoted, uint8_t *to);

static serifdove_answer read_retold(tell_byte *tell, const uint8_t *text, size_t text_len, uint8_t *circuit, size_t circuit_len) {
    static uint8_t retold[3 * TEXT_ROOM];
    size_t length = 0;
    bool quoted = false;
    for (size_t i = 0; i < text_len; i++) {
        length += tell(text, text_len, i, quoted, retold + length);
        quoted ^= text[i] == '"';
    }
    return oracle->read_rows(retold, length, circuit, circuit_len);
}

static size_t lone_lf_is_text(const uint8_t *text, size_t length, size_t i, bool quoted, uint8_t *to) {
    const bool lone = !quoted && i + 1 < length && text[i] == '\n' && (i == 0 || text[i - 1] != '\r');
    *to = lone ? 'x' : text[i];
    return 1;
}

static size_t lone_cr_is_an_end(const uint8_t *text, size_t length, size_t i, bool quoted, uint8_t *to) {
    const bool lone = !quoted && text[i] == '\r' && i + 1 < length && text[i + 1] != '\n';
    *to = lone ? '\n' : text[i];
    return 1;
}

/* A quote that stands behind one that seemed to close its cell. */
static size_t doubled_is_two(const uint8_t *text, size_t length, size_t i, bool quoted, uint8_t *to) {
    const bool second = !quoted && text[i] == '"' && i > 0 && text[i - 1] == '"';
    (void)length;
    memset(to, text[i], 3);
    return second ? 3 : 1;
}

static bool is_plain_text(uint8_t byte) { return byte != '"' && byte != ',' && byte != '\r' && byte != '\n'; }

/* Byte 17 of a cell that has no more is left out. */
static size_t label_17_is_16(const uint8_t *text, size_t length, size_t i, bool quoted, uint8_t *to) {
    bool whole = !quoted && i >= 17 && text[i - 17] == ',' && (i + 1 == length || !is_plain_text(text[i + 1]));
    for (size_t k = 0; whole && k <= 16; k++)
        whole = is_plain_text(text[i - k]);
    *to = text[i];
    return whole ? 0 : 1;
}

#define RETOLD(name, tell)                                                                                                             \
    static serifdove_answer name(const uint8_t *text, size_t text_len, uint8_t *circuit, size_t circuit_len) {                         \
        return read_retold(tell, text, text_len, circuit, circuit_len);                                                                \
    }

RETOLD(lone_lf_ends_no_row, lone_lf_is_text)
RETOLD(lone_cr_ends_a_row, lone_cr_is_an_end)
RETOLD(keeps_doubled_quotes, doubled_is_two)
RETOLD(takes_a_label_of_17_bytes, label_17_is_16)

/* A last row without a line end is not seen. */
static serifdove_answer loses_the_last_row(const uint8_t *text, size_t text_len, uint8_t *circuit, size_t circuit_len) {
    while (text_len > 0 && text[text_len - 1] != '\n')
        text_len--;
    return oracle->read_rows(text, text_len, circuit, circuit_len);
}

/* ---- wrong answers of reading */

static bool begins_with_a_letter(const uint8_t *text, size_t length) { return length > 0 && text[0] >= 'A'; }

static serifdove_answer tells_32_before_31(const uint8_t *text, size_t text_len, uint8_t *circuit, size_t circuit_len) {
    serifdove_answer answer = oracle->read_rows(text, text_len, circuit, circuit_len);
    if (answer.number == 31 && answer.place == 1 && begins_with_a_letter(text, text_len))
        answer.number = 32;
    return answer;
}

static serifdove_answer tells_31_before_30(const uint8_t *text, size_t text_len, uint8_t *circuit, size_t circuit_len) {
    serifdove_answer answer = oracle->read_rows(text, text_len, circuit, circuit_len);
    if (answer.number == 30 && answer.place == 1 && begins_with_a_letter(text, text_len))
        answer.number = 31;
    return answer;
}

static serifdove_answer stops_at_block_401(const uint8_t *text, size_t text_len, uint8_t *circuit, size_t circuit_len) {
    const serifdove_answer answer = oracle->read_rows(text, text_len, circuit, circuit_len);
    return answer.place > 401 ? (serifdove_answer){34, 0, 0, 0} : answer;
}

static serifdove_answer refuses_400_blocks(const uint8_t *text, size_t text_len, uint8_t *circuit, size_t circuit_len) {
    static uint8_t spare[2 * TEXT_ROOM];
    const serifdove_answer answer = oracle->read_rows(text, text_len, spare, sizeof spare);
    if (answer.number == 0 && (spare[4] << 8 | spare[5]) == 400)
        return (serifdove_answer){34, 0, 0, 0};
    return oracle->read_rows(text, text_len, circuit, circuit_len);
}

static serifdove_answer tells_33_before_34(const uint8_t *text, size_t text_len, uint8_t *circuit, size_t circuit_len) {
    serifdove_answer answer = oracle->read_rows(text, text_len, circuit, circuit_len);
    if (answer.number == 34 && circuit_len < 1000)
        answer.number = 33;
    return answer;
}

static serifdove_answer counts_rows_from_0(const uint8_t *text, size_t text_len, uint8_t *circuit, size_t circuit_len) {
    serifdove_answer answer = oracle->read_rows(text, text_len, circuit, circuit_len);
    answer.place -= answer.number == 32;
    return answer;
}

static serifdove_answer knows_18_kinds(const uint8_t *text, size_t text_len, uint8_t *circuit, size_t circuit_len) {
    static const char amplifier_row[] = "16,19,";
    const size_t length = strlen(amplifier_row);
    const serifdove_answer answer = oracle->read_rows(text, text_len, circuit, circuit_len);
    if (answer.number == 0 && text_len > length && memcmp(text, amplifier_row, length) == 0)
        return (serifdove_answer){31, 1, 0, 0};
    return answer;
}

/* ---- wrong bytes of the second slice, by either call */

static unsigned touched_on;

static serifdove_answer touched(serifdove_answer answer, uint8_t *to, size_t to_len) {
    if (answer.number == touched_on && answer.first < to_len)
        to[answer.first] ^= 1;
    return answer;
}

static serifdove_answer read_touching(const uint8_t *text, size_t text_len, uint8_t *circuit, size_t circuit_len) {
    return touched(oracle->read_rows(text, text_len, circuit, circuit_len), circuit, circuit_len);
}

static serifdove_answer write_touching(const uint8_t *circuit, size_t circuit_len, uint8_t *text, size_t text_len) {
    return touched(oracle->write_rows(circuit, circuit_len, text, text_len), text, text_len);
}

static serifdove_answer read_with_room_short_by_one(const uint8_t *text, size_t text_len, uint8_t *circuit, size_t circuit_len) {
    return oracle->read_rows(text, text_len, circuit, circuit_len - (circuit_len > 0));
}

static serifdove_answer write_with_room_short_by_one(const uint8_t *circuit, size_t circuit_len, uint8_t *text, size_t text_len) {
    return oracle->write_rows(circuit, circuit_len, text, text_len - (text_len > 0));
}

/* ---- wrong answers and texts of writing */

static serifdove_answer ends_rows_with_lf(const uint8_t *circuit, size_t circuit_len, uint8_t *text, size_t text_len) {
    serifdove_answer answer = oracle->write_rows(circuit, circuit_len, text, text_len);
    if (answer.first > 0)
        text[--answer.first - 1] = '\n';
    return answer;
}

static serifdove_answer loses_a_minus(const uint8_t *circuit, size_t circuit_len, uint8_t *text, size_t text_len) {
    const serifdove_answer answer = oracle->write_rows(circuit, circuit_len, text, text_len);
    uint8_t *minus = answer.first > 0 ? memchr(text, '-', answer.first) : NULL;
    if (minus != NULL)
        *minus = '0';
    return answer;
}

static serifdove_answer leaves_a_quote_single(const uint8_t *circuit, size_t circuit_len, uint8_t *text, size_t text_len) {
    const serifdove_answer answer = oracle->write_rows(circuit, circuit_len, text, text_len);
    for (size_t i = 1; i < answer.first; i++)
        if (text[i - 1] == '"' && text[i] == '"')
            text[i] = ' ';
    return answer;
}

static serifdove_answer forgets_the_place(const uint8_t *circuit, size_t circuit_len, uint8_t *text, size_t text_len) {
    serifdove_answer answer = oracle->write_rows(circuit, circuit_len, text, text_len);
    answer.place = answer.number == 10 ? 0 : answer.place;
    return answer;
}

static serifdove_answer writes_times_in_any_order(const uint8_t *circuit, size_t circuit_len, uint8_t *text, size_t text_len) {
    return oracle->write_rows(times_in_order(circuit, circuit_len), circuit_len, text, text_len);
}

static serifdove_answer counts_one_row_more(const uint8_t *circuit, size_t circuit_len, uint8_t *text, size_t text_len) {
    serifdove_answer answer = oracle->write_rows(circuit, circuit_len, text, text_len);
    answer.second += answer.second == 400 + 156;
    return answer;
}

/* ---- memory that may not be touched, or not be written */

static enum { NOTHING, BEFORE_THE_FIRST, BEHIND_THE_FIRST, BEFORE_THE_SECOND, BEHIND_THE_SECOND, THE_FIRST } reached;

static void read_at(const uint8_t *slice, ptrdiff_t offset) {
    if (slice != NULL)
        (void)*((const volatile uint8_t *)slice + offset);
}

static void reach(const uint8_t *from, size_t from_len, const uint8_t *to, size_t to_len) {
    volatile uint8_t *written = (volatile uint8_t *)(uintptr_t)from;
    if (reached == BEFORE_THE_FIRST)
        read_at(from, -1);
    if (reached == BEHIND_THE_FIRST)
        read_at(from, (ptrdiff_t)from_len);
    if (reached == BEFORE_THE_SECOND)
        read_at(to, -1);
    if (reached == BEHIND_THE_SECOND)
        read_at(to, (ptrdiff_t)to_len);
    if (reached == THE_FIRST && from_len > 0)
        *written = *written;
}

static serifdove_answer read_reaching(const uint8_t *text, size_t text_len, uint8_t *circuit, size_t circuit_len) {
    reach(text, text_len, circuit, circuit_len);
    return oracle->read_rows(text, text_len, circuit, circuit_len);
}

static serifdove_answer write_reaching(const uint8_t *circuit, size_t circuit_len, uint8_t *text, size_t text_len) {
    reach(circuit, circuit_len, text, text_len);
    return oracle->write_rows(circuit, circuit_len, text, text_len);
}

/* ---- by name */

static const struct {
    const char *name;
    rows_function *read, *write; /* the one that is wrong */
    unsigned touched_on;
    int reached;
} all[] = {
    {"keeps_doubled_quotes", keeps_doubled_quotes, NULL, 0, 0},
    {"lone_lf_ends_no_row", lone_lf_ends_no_row, NULL, 0, 0},
    {"lone_cr_ends_a_row", lone_cr_ends_a_row, NULL, 0, 0},
    {"takes_a_label_of_17_bytes", takes_a_label_of_17_bytes, NULL, 0, 0},
    {"loses_the_last_row", loses_the_last_row, NULL, 0, 0},
    {"tells_32_before_31", tells_32_before_31, NULL, 0, 0},
    {"tells_31_before_30", tells_31_before_30, NULL, 0, 0},
    {"tells_33_before_34", tells_33_before_34, NULL, 0, 0},
    {"stops_at_block_401", stops_at_block_401, NULL, 0, 0},
    {"refuses_400_blocks", refuses_400_blocks, NULL, 0, 0},
    {"counts_rows_from_0", counts_rows_from_0, NULL, 0, 0},
    {"knows_18_kinds", knows_18_kinds, NULL, 0, 0},
    {"read_with_room_short_by_one", read_with_room_short_by_one, NULL, 0, 0},
    {"reads_and_touches_bytes_behind", read_touching, NULL, 0, 0},
    {"reads_and_touches_on_30", read_touching, NULL, 30, 0},
    {"reads_and_touches_on_31", read_touching, NULL, 31, 0},
    {"reads_and_touches_on_32", read_touching, NULL, 32, 0},
    {"reads_and_touches_on_33", read_touching, NULL, 33, 0},
    {"reads_and_touches_on_34", read_touching, NULL, 34, 0},
    {"write_with_room_short_by_one", NULL, write_with_room_short_by_one, 0, 0},
    {"ends_rows_with_lf", NULL, ends_rows_with_lf, 0, 0},
    {"loses_a_minus", NULL, loses_a_minus, 0, 0},
    {"leaves_a_quote_single", NULL, leaves_a_quote_single, 0, 0},
    {"forgets_the_place", NULL, forgets_the_place, 0, 0},
    {"counts_one_row_more", NULL, counts_one_row_more, 0, 0},
    {"writes_times_in_any_order", NULL, writes_times_in_any_order, 0, 0},
    {"writes_and_touches_bytes_behind", NULL, write_touching, 0, 0},
    {"writes_and_touches_on_10", NULL, write_touching, 10, 0},
    {"writes_and_touches_on_33", NULL, write_touching, 33, 0},
    {"reads_before_text", read_reaching, NULL, 0, BEFORE_THE_FIRST},
    {"reads_behind_text", read_reaching, NULL, 0, BEHIND_THE_FIRST},
    {"reads_before_room_for_circuit", read_reaching, NULL, 0, BEFORE_THE_SECOND},
    {"reads_behind_room_for_circuit", read_reaching, NULL, 0, BEHIND_THE_SECOND},
    {"writes_text", read_reaching, NULL, 0, THE_FIRST},
    {"reads_before_circuit", NULL, write_reaching, 0, BEFORE_THE_FIRST},
    {"reads_behind_circuit", NULL, write_reaching, 0, BEHIND_THE_FIRST},
    {"reads_before_room_for_text", NULL, write_reaching, 0, BEFORE_THE_SECOND},
    {"reads_behind_room_for_text", NULL, write_reaching, 0, BEHIND_THE_SECOND},
    {"writes_circuit", NULL, write_reaching, 0, THE_FIRST},
};

bool make_wrong_rows(side *archive, const char *name) {
    for (size_t i = 0; i < sizeof all / sizeof *all; i++)
        if (strcmp(all[i].name, name) == 0) {
            archive->read_rows = all[i].read != NULL ? all[i].read : archive->read_rows;
            archive->write_rows = all[i].write != NULL ? all[i].write : archive->write_rows;
            touched_on = all[i].touched_on;
            reached = all[i].reached;
            return true;
        }
    return false;
}

void print_wrong_rows(void) {
    for (size_t i = 0; i < sizeof all / sizeof *all; i++)
        puts(all[i].name);
}
