#include "refusals.h"

#include "circuit.h"

#include <inttypes.h>

typedef struct {
    const char *meaning, *cure;
} words;

static const words refusals[] = {
    [SERIFDOVE_CUT_SHORT] = {"the bytes end inside a field or before the end field", "ask the supplier for the whole file"},
    [SERIFDOVE_TAG_OR_LENGTH] =
        {"the field's tag is unknown or out of place, or its content has a wrong length",
         "if this is a circuit at all, it was damaged on its way or made wrongly: compare it with the supplier's"},
    [SERIFDOVE_VERSION] = {"the version is not 1", "ask the supplier for a circuit of version 1"},
    [SERIFDOVE_NUMBER_OF_BLOCKS] = {"the header says more than 400 blocks, or there are more or fewer blocks than it says",
                                    "let the header's number be the number of blocks, at most 400"},
    [SERIFDOVE_KIND_OR_OPTION] = {"the block's kind is unknown, or its option is not allowed",
                                  "kinds are " ALL_KINDS ", and only kinds " RETENTIVE_KINDS " may be retentive"},
    [SERIFDOVE_CONNECTOR] = {"a connector is not allowed there",
                             "look at its class, its number, its inversion, and whether the block that it names is digital or analog"},
    [SERIFDOVE_OWN_OR_LATER_BLOCK] = {"the block names itself or a later block",
                                      "let it name an earlier block, or take the value over a flag"},
    [SERIFDOVE_PARAMETER] = {"a parameter is out of range, or times are not in order",
                             "compare the block's parameters with their ranges (docs/OPERATING.md, Limits; of rows: docs/ROWS.md); of a "
                             "stairway switch T!L is at most T!, and T! at most T"},
    [SERIFDOVE_DESTINATION] = {"the row's destination is unknown or used twice",
                               "there are Q1 to Q20, M1 to M64, AQ1 to AQ8 and AM1 to AM64; give each one row at most"},
    [SERIFDOVE_INDEX_USED_TWICE] = {"the shift register's index is used twice", "give each shift register an index of its own, 1 to 4"},
    [SERIFDOVE_SURPLUS_BYTES] = {"bytes follow the end field", "cut the file behind its end field, or ask the supplier what they are"},
    [SERIFDOVE_RECORD_LENGTH] = {"the record has a wrong length", "lend 164 + 3n words for a circuit of n blocks"},
    [SERIFDOVE_RECORD_NOT_SOUND] = {"the record is not sound",
                                    "somebody else wrote it, or it is of another circuit: load a saved one, or cold"},
    [SERIFDOVE_WRONG_PHASE] = {"the call does not fit the phase", "look tells the phase"},
    [SERIFDOVE_INPUT_WORDS] = {"not 32 input words, or one of them or e is out of range",
                               "I1 to I24 are 0 or 1, AI1 to AI8 are 0 to 1000, e is 0 to 65535"},
    [SERIFDOVE_OUTPUT_WORDS] = {"not 28 output words", "lend 28 output words"},
    [SERIFDOVE_QUOTE] = {"a quote is not closed, is followed by a stray byte, or stands in a cell that does not begin with one",
                         "put a cell that holds a comma, a quote or a line end in quotes, and write each quote inside it twice"},
    [SERIFDOVE_TAG_KIND_OR_COLUMNS] = {"the tag or the kind is unknown, or the number of cells is wrong",
                                       "compare the row with the columns of its kind (docs/ROWS.md)"},
    [SERIFDOVE_NUMBER_OR_LABEL] = {"a cell is not a number, or a number or label does not fit its place",
                                   "mend that cell; docs/ROWS.md tells what each column takes"},
    [SERIFDOVE_NO_ROOM] = {"there is no room for what is to be written",
                           "a circuit has at most 400 blocks and 156 output rows: look for rows that do not belong there"},
    [SERIFDOVE_TOO_MANY_BLOCKS] = {"more than 400 rows are blocks", "split the circuit: it has at most 400 blocks"},
};

static words words_of(size_t number) {
    const words unknown = {"this number is none of the list", "tell the makers of the gateway"};
    const bool known = number < sizeof refusals / sizeof *refusals && refusals[number].meaning != NULL;
    return known ? refusals[number] : unknown;
}

const char *refusal_meaning(size_t number) { return words_of(number).meaning; }

const char *refusal_cure(size_t number) { return words_of(number).cure; }

/* ---- a refused circuit */

/* A sort of field: how long its content is (of a block: by its kind), and where it may stand. */
static const struct {
    unsigned tag;
    const char *name;
    size_t least, greatest;
    const char *length, *place;
} fields[] = {
    {HEADER_TAG, "a header", 3, 3, "a header has 3 bytes", "a header stands at the beginning, once"},
    {BLOCK_TAG, "a block", 1, SIZE_MAX, "a block has a kind", "blocks stand behind the header and before the rows"},
    {LABEL_TAG, "a label", 0, 16, "a label has at most 16 bytes", "a label stands behind its block, one at most"},
    {ROW_TAG, "a row", 5, 5, "a row has 5 bytes", "rows stand behind the blocks"},
    {END_TAG, "an end field", 0, 0, "an end field has no content", "the end field stands last"},
};
enum { SORTS = sizeof fields / sizeof *fields };

/* Which sort of field has this tag; SORTS if none. */
static size_t sort_of(unsigned tag) {
    size_t i = 0;
    while (i < SORTS && fields[i].tag != tag)
        i++;
    return i;
}

/* The kind of the block that begins here; null if it is not told, or unknown. */
static const kind *kind_at(const uint8_t *field, size_t rest) {
    return rest > FIELD_HEAD && field[0] == BLOCK_TAG && content_length(field) > 0 ? kind_of(field[FIELD_HEAD]) : NULL;
}

/* How many blocks begin before the place. The fields before it are whole. */
static unsigned blocks_before(const uint8_t *bytes, size_t place) {
    unsigned count = 0;
    for (size_t at = 0; at < place; at += FIELD_HEAD + content_length(bytes + at))
        count += bytes[at] == BLOCK_TAG;
    return count;
}

void tell_block(FILE *to, const uint8_t *bytes, size_t length, size_t place) {
    const kind *k = kind_at(bytes + place, length - place);
    if (k != NULL)
        fprintf(to, "  It is block %u, kind %u, %s.\n", blocks_before(bytes, place) + 1, bytes[place + FIELD_HEAD], k->name);
}

static void tell_field(FILE *to, const uint8_t *bytes, size_t length, size_t place) {
    if (place == length) {
        fprintf(to, "  The bytes end here, after %zu of them.\n", length);
        return;
    }
    const size_t sort = sort_of(bytes[place]), rest = length - place;
    const kind *k = kind_at(bytes + place, rest);
    fprintf(to, "  There begins %s (tag %02x)", sort == SORTS ? "no field that is known" : fields[sort].name, bytes[place]);
    if (bytes[place] == BLOCK_TAG)
        fprintf(to, ", block %u", blocks_before(bytes, place) + 1);
    if (k != NULL)
        fprintf(to, ", kind %u, %s", bytes[place + FIELD_HEAD], k->name);
    if (rest >= FIELD_HEAD)
        fprintf(to, ", content of %zu byte%s", content_length(bytes + place), plural(content_length(bytes + place)));
    fprintf(to, ".\n");
}

/* What refusal 2 holds of the whole field that begins here: a wrong length, else it stands in a wrong place. */
static void tell_tag_or_length(FILE *to, const uint8_t *field, size_t place) {
    const size_t sort = sort_of(field[0]), content = content_length(field);
    const kind *k = kind_at(field, FIELD_HEAD + 1);
    if (sort == SORTS)
        fprintf(to, "  Tags are 01 header, 10 block, 20 label, 30 row, 7f end.\n");
    else if (content < fields[sort].least || content > fields[sort].greatest)
        fprintf(to, "  Its length is wrong: %s.\n", fields[sort].length);
    else if (k != NULL && content != block_length(k))
        fprintf(to, "  Its length is wrong: kind %u, %s, has %zu bytes.\n", field[FIELD_HEAD], k->name, block_length(k));
    else
        fprintf(to, "  It is out of place: %s.\n", place == 0 ? "a circuit begins with its header" : fields[sort].place);
}

/* Which part of refusal 8 holds of the block that begins here; only a stairway switch has two. */
static void tell_times(FILE *to, const uint8_t *field) {
    const kind *k = kind_of(field[FIELD_HEAD]);
    if (field[FIELD_HEAD] != STAIRWAY_SWITCH)
        return;
    const int32_t t = parameter_at(field, k, WHOLE_TIME), warning = parameter_at(field, k, WARNING_TIME),
                  dark = parameter_at(field, k, DARK_TIME);
    fprintf(to, "  Its times are T %" PRId32 ", T! %" PRId32 ", T!L %" PRId32 ": %s.\n", t, warning, dark,
            dark <= warning && warning <= t ? "in order, so a parameter is out of range" : "not T!L <= T! <= T");
}

/* One line of hexadecimal bytes, and below it a mark if the place stands in it. */
static void print_hex_line(FILE *to, const uint8_t *bytes, size_t from, size_t end, size_t place, bool is_last) {
    fprintf(to, "  %6zu ", from);
    for (size_t i = from; i < end; i++)
        fprintf(to, " %02x", bytes[i]);
    fprintf(to, "\n");
    if (from <= place && (place < end || (place == end && is_last)))
        fprintf(to, "         %*s^^ byte %zu\n", (int)(3 * (place - from)) + 1, "", place);
}

static void print_bytes_around(FILE *to, const uint8_t *bytes, size_t length, size_t place) {
    enum { LINE = 16, BEFORE = 1, LINES = 4 };
    const size_t line = place / LINE, first = (line > BEFORE ? line - BEFORE : 0) * LINE;
    for (size_t from = first; from < length && from < first + LINES * LINE; from += LINE) {
        const bool is_last = length - from <= LINE;
        print_hex_line(to, bytes, from, is_last ? length : from + LINE, place, is_last);
    }
}

void tell_refused_circuit(FILE *to, serifdove_answer answer, const uint8_t *bytes, size_t length) {
    fprintf(to, "  Refusal %zu at byte %zu: %s.\n", answer.number, answer.place, refusal_meaning(answer.number));
    if (answer.number != SERIFDOVE_SURPLUS_BYTES)
        tell_field(to, bytes, length, answer.place);
    if (answer.number == SERIFDOVE_TAG_OR_LENGTH)
        tell_tag_or_length(to, bytes + answer.place, answer.place);
    if (answer.number == SERIFDOVE_PARAMETER)
        tell_times(to, bytes + answer.place);
    print_bytes_around(to, bytes, length, answer.place);
    fprintf(to, "  What to do: %s.\n", refusal_cure(answer.number));
}
