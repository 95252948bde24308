/* The messages about rows (host/row_text.c) on texts by chance: for each that the library refuses by 30 to 32, the reader of messages
   finds the row, and tells a cell or the row as a whole. What is printed is plain text, and no line of it is long. What the library
   accepts is not changed by trimming, and trimming twice is trimming once. Where check refuses what was read, row and cells are told.
   Where a comma parts a block behind its kind and before its label, and empty cells stand behind it, the trimmed row is refused, or it
   is the block as it was. Of a circuit that does not fit the older series (host/series.c) the message tells the row, what is first in
   it that does not fit, and as many more places as have to be mended until the library accepts it.

   row_messages SEED COUNT */
#define _POSIX_C_SOURCE 200809L
#include "../host/circuit.h"
#include "../host/row_text.h"
#include "../host/series.h"

#include <stdlib.h>
#include <string.h>

enum { MOST_TEXT = 700, ROOM = 65536, LONGEST_LINE = 420, KINDS = 19 };

static uint64_t state;
static unsigned below(unsigned limit) {
    state = state * 6364136223846793005u + 1442695040888963407u;
    return (unsigned)(state >> 33) % limit;
}

static uint8_t text[MOST_TEXT];
static size_t length;
static size_t checked[SERIFDOVE_SURPLUS_BYTES + 1]; /* how many circuits check refused by each number */

static _Noreturn void mismatch(const char *what) {
    printf("row_messages: mismatch: %s, of the text", what);
    for (size_t i = 0; i < length; i++)
        printf(" %02x", text[i]);
    printf("\n");
    exit(1);
}

/* ---- texts */

static const char *const good_rows[] = {
    "16,8,0,1,1,0,",
    "16,1,0,1,1,129,2,0,0,6,1,1,\"Door 3, north\"",
    "\"16\",\"9\",\"1\",\"1\",\"1\",\"0\",\"300\",\"1\",\"a \"\"b\"\"\r\nc\"",
    "16,13,0,7,1,-100,10,500,-500,1,level",
    "16,15,0,3,0,1,1,1,2,-32768,32767,0,1,0,",
    "16,12,1,1,1,1,2,0,0,1,8,1,shift",
    "16,17,1,1,3,1,1,1,2,20,5,1,pallets",
    "16,18,1,1,4,1,60,15,1,1,stairs",
    "16,19,0,7,2,-1000,10000,1,gain",
    "48,1,1,6,1",
    "048,0003,2,9,5",
    "48,1,1,6,1,,,,",
    ",,,,,",
    "\xef\xbb\xbf",
};
static const uint8_t bytes_by_chance[] = "\"\",,\r\n\n0149-;\t x\xc3\xbc\x1b";

static void add(const char *bytes) {
    const size_t count = strlen(bytes);
    if (length + count <= MOST_TEXT) {
        memcpy(text + length, bytes, count);
        length += count;
    }
}

static uint8_t byte_by_chance(void) {
    return below(20) == 0 ? (uint8_t)below(256) : bytes_by_chance[below(sizeof bytes_by_chance - 1)];
}

/* Puts another byte for one, takes one out, or puts one in. */
static void damage(void) {
    const size_t at = below((unsigned)length + 1);
    const unsigned how = below(3);
    if (how == 0 && at < length) {
        text[at] = byte_by_chance();
    } else if (how == 1 && at < length) {
        memmove(text + at, text + at + 1, --length - at);
    } else if (how == 2 && length < MOST_TEXT) {
        memmove(text + at + 1, text + at, length++ - at);
        text[at] = byte_by_chance();
    }
}

/* Rows, most of them good ones, damaged at some places; or bytes by chance. */
static void make_text(void) {
    const unsigned sort = below(4), rows = below(6);
    length = 0;
    for (unsigned i = 0; i < rows && sort > 0; i++) {
        add(good_rows[below(below(3) > 0 ? 10 : sizeof good_rows / sizeof *good_rows)]);
        add(below(2) == 0 ? "\n" : "\r\n");
    }
    for (unsigned i = 0; i < below(60) && sort == 0; i++)
        text[length++] = byte_by_chance();
    for (unsigned damages = below(3); damages > 0; damages--)
        damage();
}

/* ---- what is tried */

static void judge_lines(const char *told, size_t count) {
    size_t column = 0;
    for (size_t i = 0; i < count; i++) {
        column = told[i] == '\n' ? 0 : column + 1;
        if (told[i] != '\n' && (told[i] < ' ' || told[i] > '~'))
            mismatch("a byte that is no plain text is printed");
        if (column > LONGEST_LINE)
            mismatch("a line is too long");
    }
}

static char *told;
static size_t told_count;

static FILE *begin_message(void) {
    FILE *to = open_memstream(&told, &told_count);
    if (to == NULL)
        exit(2);
    return to;
}

/* What is told ends here; the caller frees it. */
static void end_message(FILE *to) {
    if (fclose(to) != 0)
        exit(2);
    judge_lines(told, told_count);
}

static bool is_told_first(const char *expected) { return strncmp(told, expected, strlen(expected)) == 0; }

/* On which line the row begins: the rows before it are good, so a quote opens or closes where it stands. */
static size_t line_of(size_t row) {
    size_t line = 1, rows = 1;
    bool quoted = false;
    for (size_t i = 0; i < length && rows < row; i++) {
        quoted = quoted != (text[i] == '"');
        line += text[i] == '\n';
        rows += text[i] == '\n' && !quoted;
    }
    return line;
}

static void judge_message(serifdove_answer answer) {
    char expected[80];
    FILE *to = begin_message();
    tell_refused_rows(to, answer, text, length);
    end_message(to);
    snprintf(expected, sizeof expected, "  Refusal %zu at row %zu (line %zu of the file): ", answer.number, answer.place,
             line_of(answer.place));
    if (!is_told_first(expected))
        mismatch("the row, or what is wrong with it, is not found");
    if (strstr(told, "\n  Cell ") == NULL && strstr(told, "\n  The row: ") == NULL)
        mismatch("neither a cell nor the row is told");
    free(told);
}

/* The message on a circuit that was read from the text and that check refuses: with the cells, but for 4. */
static void judge_circuit(const uint8_t *bytes, size_t count) {
    const serifdove_answer answer = serifdove_check(bytes, count);
    char expected[80];
    if (answer.number == SERIFDOVE_ACCEPTED)
        return;
    FILE *to = begin_message();
    tell_refused_circuit_of_rows(to, answer, &(circuit_source){bytes, count, text, length});
    end_message(to);
    snprintf(expected, sizeof expected, "  Refusal %zu at row ", answer.number);
    if (!is_told_first(expected))
        mismatch("the row that check refuses is not found");
    if ((strstr(told, "\n  Cell") == NULL) != (answer.number == SERIFDOVE_NUMBER_OF_BLOCKS))
        mismatch("the cells that check refuses are not told");
    free(told);
    checked[answer.number]++;
}

static void judge_trimming(bool is_accepted) {
    uint8_t once[MOST_TEXT], twice[MOST_TEXT];
    const trimmed t = trim_rows(text, length, once), again = trim_rows(once, t.length, twice);
    if (is_accepted && (t.length != length || memcmp(text, once, length) != 0))
        mismatch("trimming changes an accepted text");
    if (!again.had_mark && (again.length != t.length || memcmp(once, twice, t.length) != 0))
        mismatch("trimming twice is not trimming once");
}

/* ---- numbers that a comma parts */

/* A block of any kind in the text, with small numbers and often without a label; the bytes from behind its kind up to its label. */
static void make_block(size_t *from, size_t *end) {
    static const char *const numbers[] = {"0", "1", "2", "10", "11", "100", "1001", "\"1\"", "01"};
    static const char *const labels[] = {"", "", "0", "1", "x", "\"\""};
    const unsigned number = 1 + below(KINDS);
    const kind *k = kind_of(number);
    const size_t cells = 2 * count_of(k->inputs) + count_of(k->parameters);
    char head[16];
    snprintf(head, sizeof head, "16,%u,0", number);
    length = 0;
    add(head);
    *from = length - 1;
    for (size_t i = 0; i < cells; i++) {
        add(",");
        add(numbers[below(sizeof numbers / sizeof *numbers)]);
    }
    const bool has_label = below(2) == 0;
    add(has_label ? ",1," : ",0,");
    *end = length;
    add(has_label ? labels[below(sizeof labels / sizeof *labels)] : "");
}

/* Parts a block by a comma, puts empty cells behind it, and trims it: what it is then, 0 refused and 1 as it was; 2
   where no row was to be parted, since the numbers do not fit their places or the text is accepted without trimming. */
static unsigned part_and_trim(void) {
    uint8_t whole[MOST_TEXT], again[MOST_TEXT], copy[MOST_TEXT];
    size_t from, end;
    make_block(&from, &end);
    const size_t at = from + below((unsigned)(end - from));
    const serifdove_answer as_it_was = serifdove_read_rows(text, length, whole, sizeof whole);
    memmove(text + at + 1, text + at, length++ - at);
    text[at] = ',';
    for (unsigned i = below(4); i > 0; i--)
        add(below(4) == 0 ? ",\"\"" : ",");
    if (as_it_was.number != SERIFDOVE_ACCEPTED || serifdove_read_rows(text, length, again, sizeof again).number == SERIFDOVE_ACCEPTED)
        return 2;
    const trimmed t = trim_rows(text, length, copy);
    const serifdove_answer answer = serifdove_read_rows(copy, t.length, again, sizeof again);
    if (answer.number != SERIFDOVE_ACCEPTED)
        return 0;
    if (answer.first != as_it_was.first || memcmp(whole, again, answer.first) != 0)
        mismatch("trimming makes another block of a row that a comma has parted");
    return 1;
}

/* ---- the older series */

enum { FIRST_CONNECTOR = FIELD_HEAD + 2, CONNECTOR_BYTES = 3, ROW_BYTES = FIELD_HEAD + 5, ANALOG = 7 };

static const series *older;
static size_t fitting, mended;
static size_t misfits_of_kind[KINDS + 1], misfits_of_rows[SERIFDOVE_SURPLUS_BYTES + 1]; /* what was refused first, by kind or number */

/* The cells of a connector, most often to a flag, which is often near the last that the series has. */
static void add_connector(bool analog) {
    char cells[24];
    const bool is_flag = below(4) > 0;
    const unsigned class = analog ? (is_flag ? 8 : 7) : is_flag ? 4 : 1, inverted = !analog && below(3) == 0 ? 128 : 0;
    const unsigned of_series = analog ? SERIFDOVE_0BA6_AM : SERIFDOVE_0BA6_M;
    const unsigned limit = !is_flag ? ANALOG_INPUTS : below(2) == 0 ? FLAGS : of_series + 1;
    snprintf(cells, sizeof cells, ",%u,%u", class + inverted, 1 + below(limit));
    add(cells);
}

static void add_block(void) {
    const unsigned number = 1 + below(KINDS);
    const kind *k = kind_of(number);
    char head[16];
    snprintf(head, sizeof head, "16,%u,0", number);
    add(head);
    for (size_t i = 0; i < count_of(k->inputs); i++)
        add_connector(k->inputs[i][0] == 'A');
    for (size_t i = 0; i < count_of(k->parameters); i++)
        add(",1");
    add(below(2) == 0 ? ",0,\n" : ",1,\"a\nb\"\n");
}

static void add_output_row(void) {
    static const unsigned most[] = {[TO_Q] = DIGITAL_OUTPUTS, [TO_M] = FLAGS, [TO_AQ] = ANALOG_OUTPUTS, [TO_AM] = FLAGS};
    const unsigned class = TO_Q + below(TO_AM);
    char head[16];
    snprintf(head, sizeof head, "48,%u,%u", class, 1 + below(most[class]));
    add(head);
    add_connector(class >= TO_AQ);
    add("\n");
}

static bool is_refused_so(serifdove_answer answer, const uint8_t *circuit, size_t count) {
    const serifdove_answer again = serifdove_check_profile(circuit, count);
    return again.number == answer.number && again.place == answer.place;
}

/* Puts hi or AI1 for it. */
static void make_harmless(uint8_t *connector) {
    static const uint8_t hi[CONNECTOR_BYTES] = {3}, analog_input[CONNECTOR_BYTES] = {ANALOG, 0, 1};
    memcpy(connector, (connector[0] & 0x7F) >= ANALOG ? analog_input : hi, CONNECTOR_BYTES);
}

/* Which connector of the field is the first that the profile refuses: with those from it on harmless it answers otherwise. */
static size_t refused_connector(serifdove_answer answer, const uint8_t *circuit, size_t count) {
    static uint8_t copy[ROOM];
    const uint8_t *field = circuit + answer.place;
    size_t i = field[0] == BLOCK_TAG ? count_of(kind_of(field[FIELD_HEAD])->inputs) : 1;
    memcpy(copy, circuit, count);
    while (i > 0 && is_refused_so(answer, copy, count))
        make_harmless(copy + answer.place + FIRST_CONNECTOR + CONNECTOR_BYTES * --i);
    return i;
}

/* How many places the library alone finds: each that it refuses is made harmless, or its row is taken away. */
static size_t count_misfits(uint8_t *circuit, size_t count) {
    size_t misfits = 0;
    for (serifdove_answer answer; (answer = serifdove_check_profile(circuit, count)).number != SERIFDOVE_ACCEPTED; misfits++) {
        uint8_t *field = circuit + answer.place;
        if (misfits == MOST_TEXT || answer.place + ROW_BYTES > count)
            mismatch("what does not fit cannot be mended");
        if (answer.number == SERIFDOVE_DESTINATION) {
            count -= ROW_BYTES;
            memmove(field, field + ROW_BYTES, count - answer.place);
        } else {
            make_harmless(field + FIRST_CONNECTOR + CONNECTOR_BYTES * refused_connector(answer, circuit, count));
        }
    }
    return misfits;
}

/* From which row the field at this place was read. */
static size_t row_at(const uint8_t *circuit, size_t place) {
    size_t row = 1;
    for (size_t at = 0; at < place; at += FIELD_HEAD + content_length(circuit + at))
        row += circuit[at] == BLOCK_TAG || circuit[at] == ROW_TAG;
    return row;
}

/* "its input R is !M28; ", "its connector is AM7; ", "the output row to Q17; ": what is refused first. */
static void name_first(serifdove_answer answer, const uint8_t *circuit, size_t count, char *words, size_t room) {
    static const char *const destinations[] = {"", "Q", "M", "AQ", "AM"}, *const numbers[] = {"1", "2", "3", "4"};
    const uint8_t *field = circuit + answer.place;
    if (answer.number == SERIFDOVE_DESTINATION) {
        snprintf(words, room, "the output row to %s%u; ", destinations[field[FIELD_HEAD]], field[FIELD_HEAD + 1]);
        misfits_of_rows[answer.number]++;
        return;
    }
    const size_t i = refused_connector(answer, circuit, count);
    const uint8_t *connector = field + FIRST_CONNECTOR + CONNECTOR_BYTES * i;
    const bool in_block = field[0] == BLOCK_TAG;
    const char *input = in_block ? kind_of(field[FIELD_HEAD])->inputs[i] : "";
    snprintf(words, room, "its %s%s is %s%s%u; ", in_block ? "input " : "connector", in_block && *input == 0 ? numbers[i] : input,
             connector[0] >= 0x80 ? "!" : "", connector[0] == ANALOG + 1 ? "AM" : "M", connector[2]);
    ++*(in_block ? &misfits_of_kind[field[FIELD_HEAD]] : &misfits_of_rows[answer.number]);
}

static void judge_misfit(serifdove_answer answer, uint8_t *circuit, size_t count) {
    char expected[80], first[80];
    size_t others = 0;
    FILE *to = begin_message();
    tell_misfit(to, older, answer, &(circuit_source){circuit, count, text, length});
    end_message(to);
    const size_t row = row_at(circuit, answer.place);
    snprintf(expected, sizeof expected, "  Refusal %zu at row %zu (line %zu of the file): 0BA6 has not ", answer.number, row,
             line_of(row));
    const char *its_line = strstr(told, "\n  It is "), *cells = strstr(told, "\n  Cells "), *more = strstr(told, " more place");
    if (!is_told_first(expected) || its_line == NULL || cells == NULL)
        mismatch("the place that does not fit is not told with its row and cells");
    name_first(answer, circuit, count, first, sizeof first);
    const char *named = strstr(its_line, first);
    if (named == NULL || named > cells)
        mismatch("the place that does not fit is not named");
    while (more != NULL && *more != '\n')
        more--;
    if (more != NULL)
        others = strtoul(more, NULL, 10);
    if (1 + others != count_misfits(circuit, count))
        mismatch("another number of places does not fit than is told");
    mended += 1 + others;
    free(told);
}

/* A circuit of flags by chance, which check accepts most often: if it does not fit, what is told of it. */
static void try_series(uint8_t *circuit) {
    length = 0;
    for (unsigned blocks = below(4); blocks > 0; blocks--)
        add_block();
    for (unsigned rows = below(5); rows > 0; rows--)
        add_output_row();
    const size_t count = serifdove_read_rows(text, length, circuit, ROOM).first;
    if (serifdove_check(circuit, count).number != SERIFDOVE_ACCEPTED)
        return;
    const serifdove_answer answer = serifdove_check_profile(circuit, count);
    if (answer.number == SERIFDOVE_ACCEPTED)
        fitting++;
    else
        judge_misfit(answer, circuit, count);
}

/* True if something came of every sort. */
static bool has_all_misfits(void) {
    size_t least = fitting;
    for (size_t k = 1; k <= KINDS; k++)
        least = misfits_of_kind[k] < least ? misfits_of_kind[k] : least;
    return least > 0 && misfits_of_rows[SERIFDOVE_CONNECTOR] > 0 && misfits_of_rows[SERIFDOVE_DESTINATION] > 0;
}

int main(int count, char **words) {
    static uint8_t circuit[ROOM];
    message why;
    size_t parted[3] = {0};
    size_t accepted = 0, refused[3] = {0};
    if (count != 3 || !read_series("0BA6", &older, &why))
        return 2;
    state = strtoull(words[1], NULL, 10);
    for (unsigned long texts = strtoul(words[2], NULL, 10); texts > 0; texts--) {
        parted[part_and_trim()]++;
        try_series(circuit);
        make_text();
        const serifdove_answer answer = serifdove_read_rows(text, length, circuit, sizeof circuit);
        accepted += answer.number == SERIFDOVE_ACCEPTED;
        judge_trimming(answer.number == SERIFDOVE_ACCEPTED);
        if (answer.number == SERIFDOVE_ACCEPTED) {
            judge_circuit(circuit, answer.first);
            continue;
        }
        if (answer.number < SERIFDOVE_QUOTE || answer.number > SERIFDOVE_NUMBER_OR_LABEL)
            mismatch("no number of a row is answered");
        refused[answer.number - SERIFDOVE_QUOTE]++;
        judge_message(answer);
    }
    if (accepted == 0 || refused[0] == 0 || refused[1] == 0 || refused[2] == 0 || parted[0] == 0 || parted[1] == 0 ||
        !has_all_misfits())
        mismatch("an answer never came");
    for (size_t number = SERIFDOVE_NUMBER_OF_BLOCKS; number <= SERIFDOVE_INDEX_USED_TWICE; number++)
        if (checked[number] == 0)
            mismatch("check never refused by one of 4 to 10");
    printf("row_messages: %zu texts accepted, %zu refused by 30, %zu by 31, %zu by 32, each told\n", accepted, refused[0], refused[1],
           refused[2]);
    printf("row_messages: %zu blocks parted by a comma and trimmed are refused, %zu are as they were\n", parted[0], parted[1]);
    printf("row_messages: %zu circuits fit the older series; in others %zu places do not, as many as are told\n", fitting, mended);
    return 0;
}
