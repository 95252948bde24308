/* Serifdove, for hosts in C11 and C++17. Link with libserifdove.a (x86-64). */
#ifndef SERIFDOVE_H
#define SERIFDOVE_H

#include <stddef.h>
#include <stdint.h>

#ifdef __cplusplus
extern "C" {
#endif

/* The numbers that an answer can begin with. The first field with a fault is named, with the lowest number that holds for it; of a
   text the first row with a fault, likewise. */
enum serifdove_number {
    /* no number below holds */
    SERIFDOVE_ACCEPTED = 0,

    /* the slice ends inside a field or before the end field */
    SERIFDOVE_CUT_SHORT = 1,
    /* a field's tag is unknown or out of place, or its content has a wrong length */
    SERIFDOVE_TAG_OR_LENGTH = 2,
    /* the version is not 1 */
    SERIFDOVE_VERSION = 3,
    /* more than 400 blocks, a block too many, or blocks missing at the first row or the end field */
    SERIFDOVE_NUMBER_OF_BLOCKS = 4,
    /* a block's kind is unknown, or its option is not allowed */
    SERIFDOVE_KIND_OR_OPTION = 5,
    /* a connector is not allowed there: its class, number or inversion, the sort of the block that it names, or a block number
       that is 0 or above the number of blocks */
    SERIFDOVE_CONNECTOR = 6,
    /* a block names itself or a later block */
    SERIFDOVE_OWN_OR_LATER_BLOCK = 7,
    /* a parameter is out of range, or the three times of a stairway switch are not T!L <= T! <= T */
    SERIFDOVE_PARAMETER = 8,
    /* a row's destination is unknown or used twice */
    SERIFDOVE_DESTINATION = 9,
    /* a shift register index is used twice */
    SERIFDOVE_INDEX_USED_TWICE = 10,
    /* bytes follow the end field */
    SERIFDOVE_SURPLUS_BYTES = 11,

    /* the record has a wrong length */
    SERIFDOVE_RECORD_LENGTH = 20,
    /* the record is not sound */
    SERIFDOVE_RECORD_NOT_SOUND = 21,
    /* wrong phase: warm start or latch in a scan; run while waiting; publish while waiting or with blocks to go */
    SERIFDOVE_WRONG_PHASE = 22,
    /* latch: not 32 input words, or a digital one, an analog one or e out of range */
    SERIFDOVE_INPUT_WORDS = 23,
    /* publish: not 28 output words */
    SERIFDOVE_OUTPUT_WORDS = 24,

    /* a quote is not closed, is followed by a stray byte, or stands in a cell that does not begin with one */
    SERIFDOVE_QUOTE = 30,
    /* a row's tag is not 16 or 48, its kind is unknown, or its number of cells is wrong */
    SERIFDOVE_TAG_KIND_OR_COLUMNS = 31,
    /* a cell is not a number, or its number is too large for its place; a label mark is not 0 or 1, a label stands behind mark 0,
       or has more than 16 bytes */
    SERIFDOVE_NUMBER_OR_LABEL = 32,
    /* the lent slice has no room for what is to be written */
    SERIFDOVE_NO_ROOM = 33,
    /* more than 400 rows are blocks */
    SERIFDOVE_TOO_MANY_BLOCKS = 34
};

/* What a call answers: four numbers. */
typedef struct {
    /* one of serifdove_number */
    size_t number;
    /* for 1 to 10 the offset of the faulty field's first byte (the length, where 1 finds no field); for 11 that of the first
       surplus byte; for 30 to 32 the row, counted from 1; else 0 */
    size_t place;
    /* on refusal 0; else what the call says */
    size_t first;
    size_t second;
} serifdove_answer;

/* Checks a circuit: `length` bytes from `circuit` on. It answers every byte string, with 0 or with one of 1 to 11.
   Accepted: first is the number of blocks, second the number of rows.
   It reads no byte outside these, writes none, keeps nothing between calls, and may run in any number of threads at once.
   A null pointer with length 0 is an empty circuit. How much stack it was measured to take: docs/PERFORMANCE.md. */
serifdove_answer serifdove_check(const uint8_t *circuit, size_t length);

/* ---- the older series, 0BA6: what a circuit may have at most to fit it; all else is as in any circuit */

enum serifdove_0ba6 {
    /* blocks */
    SERIFDOVE_0BA6_BLOCKS = 200,
    /* Q1 to Q16, AQ1 and AQ2, as a row's destination */
    SERIFDOVE_0BA6_Q = 16,
    SERIFDOVE_0BA6_AQ = 2,
    /* M1 to M27, AM1 to AM6, as a row's destination and in connectors */
    SERIFDOVE_0BA6_M = 27,
    SERIFDOVE_0BA6_AM = 6
};

/* Checks whether a circuit fits the series 0BA6: as serifdove_check, with all that is said there of its answer, its slice and its
   threads, but against these limits. More than 200 blocks are 4; a connector to M28 to M64 or AM7 to AM64 is 6; one of these flags, Q17
   to Q20 or AQ3 to AQ8 as a destination is 9.
   What it accepts, serifdove_check accepts with the same answer. No other call asks for the series: scans and rows are the same,
   whichever check a circuit was judged by. Where serifdove_check accepts and this refuses, its number is 4, with place 0, or 6 or 9,
   with the place of the first field that does not fit. Where serifdove_check refuses, this refuses too, perhaps an earlier field, or
   the same field with a lower number. */
serifdove_answer serifdove_check_profile(const uint8_t *circuit, size_t length);

/* ---- the run record: what the host keeps between calls, as signed words */

enum serifdove_limit {
    /* the greatest number of blocks */
    SERIFDOVE_MOST_BLOCKS = 400,
    /* how many words latch reads: I1 to I24, then the eight analog inputs */
    SERIFDOVE_INPUT_WORD_COUNT = 32,
    /* how many words publish writes: Q1 to Q20, then AQ1 to AQ8 */
    SERIFDOVE_OUTPUT_WORD_COUNT = 28
};

/* How many words the record of a circuit with n blocks has. */
#define SERIFDOVE_RECORD_WORDS(n) (164 + 3 * (n))

/* Where each word of a record stands. A host may look at them between two calls, and may keep a copy of a record and lend that
   later. What the words may be is judged by each call but cold start (21). */
enum serifdove_record_word {
    /* 0 waiting, 1 in a scan: from an accepted latch to an accepted publish */
    SERIFDOVE_PHASE = 0,
    /* how many blocks of this scan are worked out; 0 while waiting */
    SERIFDOVE_DONE = 1,
    /* 1 from a start to the first publish behind it */
    SERIFDOVE_MARK = 2,
    /* e, the ticks that the scan's latch was given; 0 while waiting */
    SERIFDOVE_E = 3
};

/* Inputs as the last latch read them, k from 1: I1 to I24 are 0 or 1, analog inputs 1 to 8 are 0 to 1000. */
#define SERIFDOVE_I(k) (3 + (k))
#define SERIFDOVE_AI(k) (27 + (k))
/* Flags as the last publish wrote them, k from 1: M1 to M64 are 0 or 1, AM1 to AM64 are -32,768 to 32,767. */
#define SERIFDOVE_M(k) (35 + (k))
#define SERIFDOVE_AM(k) (99 + (k))
/* The three words of block k, from 1: its output (0 or 1; of a multiplexer and of an analog amplifier -32,768 to 32,767), what it
   remembers (0 or 1; of a stairway switch its Trg, and 2 more while it runs), and its number (Ta in ticks, the count of an up/down
   counter, 0 to 999,999, or the shift register with bit j weighing 2^(j-1)). A word that the block's kind has no use for is 0. */
#define SERIFDOVE_BLOCK_OUTPUT(k) (161 + 3 * (k))
#define SERIFDOVE_BLOCK_REMEMBERED(k) (162 + 3 * (k))
#define SERIFDOVE_BLOCK_NUMBER(k) (163 + 3 * (k))

/* Where each word of latch's inputs stands, k from 1. */
#define SERIFDOVE_INPUT_I(k) ((k)-1)
#define SERIFDOVE_INPUT_AI(k) (23 + (k))
/* Where each word of publish's outputs stands, k from 1. */
#define SERIFDOVE_Q(k) ((k)-1)
#define SERIFDOVE_AQ(k) (19 + (k))

/* ---- the calls on a record

   All five take the circuit, which is judged afresh, and a record of `record_len` words. What is refused, in this order: 1 to 11
   for the circuit, as by check and with check's place; 20 for a record that has not SERIFDOVE_RECORD_WORDS(n) words; then what
   stands at the call. The first that holds is answered, and nothing lent changes.

   A scan goes from an accepted latch to an accepted publish. However its blocks are shared out among runs, and whatever is called in
   between but cold start, the publish leaves the record and the outputs of the scan done in one run; until then no output word and
   no flag changes.

   Lengths count bytes of the circuit and words of the others. A null pointer with length 0 is an empty slice. The slices of one call
   may not overlap. A call reads and writes nothing outside them, never writes circuit and inputs, and keeps nothing between calls:
   calls on different records and outputs may run in any number of threads at once. */

/* Begins anew, whatever the record held. Refused by nothing more.
   Accepted: first and second are 0. All words of the record become 0, but M8 and the mark become 1. */
serifdove_answer serifdove_cold_start(const uint8_t *circuit, size_t circuit_len, int32_t *record, size_t record_len);

/* Begins anew and keeps what retentive blocks hold. Refused by 21, and by 22 in a scan, also where all blocks are done.
   Accepted: first and second are 0. The record becomes that of a cold start, but the three words of each retentive block stay. */
serifdove_answer serifdove_warm_start(const uint8_t *circuit, size_t circuit_len, int32_t *record, size_t record_len);

/* Reads the inputs and opens a scan; e is the ticks of 10 ms since the last latch. Refused by 21, by 22 in a scan, and by 23: not
   SERIFDOVE_INPUT_WORD_COUNT input words, one of the first 24 not 0 or 1, one of the last 8 not 0 to 1000, or e not 0 to 65,535.
   Accepted: first and second are 0. The phase becomes 1, and e and the inputs are stored; all other words stay. */
serifdove_answer serifdove_latch(const uint8_t *circuit, size_t circuit_len, int32_t *record, size_t record_len, const int32_t *inputs,
                                 size_t inputs_len, int32_t e);

/* Works out the next c blocks of the scan, or those that are left where they are fewer. Refused by 21, and by 22 while waiting.
   Accepted: first is how many blocks this call worked out, second how many are to go. Their three words each and the blocks-done word
   change, all other words stay; with c 0 or no block to go, none changes. */
serifdove_answer serifdove_run(const uint8_t *circuit, size_t circuit_len, int32_t *record, size_t record_len, uint32_t c);

/* Closes the scan. Refused by 21, by 22 while waiting or with blocks to go, and by 24: not SERIFDOVE_OUTPUT_WORD_COUNT output words.
   Accepted: first and second are 0. Each output word and each flag becomes what its row reads, all at once from the flags as they
   were, and 0 without a row; M8 becomes 0 where the mark was 1. Then mark, phase, blocks done and e are 0. Inputs and
   blocks stay. */
serifdove_answer serifdove_publish(const uint8_t *circuit, size_t circuit_len, int32_t *record, size_t record_len, int32_t *outputs,
                                   size_t outputs_len);

/* ---- rows: a circuit as text, by RFC 4180

   A text is bytes. A row begins wherever bytes are left behind the row before, so an empty text has no rows; it is cells parted by
   commas, and ends with LF, with CRLF, or with the text. A cell that begins with a quote ends with the next quote that is not
   doubled, and two quotes in it stand for one; it may hold commas and line ends. Every other cell holds all bytes up to a comma, a line
   end or the end of the text; a CR without LF is one of them. A blank line is a row of one empty cell.

   A block is the row   16, kind, options, class and number of each input, each parameter, mark, label
   and an output row    48, class, number, class and number of its connector
   where the mark is 1, or 0 with an empty label. Numbers are decimal digits, with any number of zeros in front, and a minus may stand
   before a parameter; classes, numbers and parameters are those of the circuit's bytes, inversion as 128 more in the class.

   Lengths count bytes. A null pointer with length 0 is an empty slice. The two slices of a call may not overlap. A call reads and
   writes nothing outside them, never writes the first, and keeps nothing between calls: calls that write to different slices may run
   in any number of threads at once. On refusal the second slice stays as it was. */

/* Reads a text's rows into a circuit: header, the fields of each row in turn (a block's, then its label's where the mark is 1), end.
   Refused by 30, 31 and 32, the first row with a fault, with the lowest number that holds for it; where no row has one by 34; then by
   33, exactly when the fields need more than circuit_len bytes.
   Accepted: first is how many bytes were written, second how many rows were read; the bytes behind stay. Whether the circuit is a
   good one is for serifdove_check to say. */
serifdove_answer serifdove_read_rows(const uint8_t *text, size_t text_len, uint8_t *circuit, size_t circuit_len);

/* Writes a circuit's blocks and rows as a text, a row each, in order. Refused by 1 to 11 for the circuit, as by check and with
   check's place; then by 33, exactly when the text needs more than text_len bytes.
   Accepted: first is how many bytes were written, second how many rows; the bytes behind stay. Numbers have no zeros in front, each row
   ends with CRLF, and a cell is quoted only if it holds a comma, a quote, CR or LF. Read again, the text gives the circuit's bytes. */
serifdove_answer serifdove_write_rows(const uint8_t *circuit, size_t circuit_len, uint8_t *text, size_t text_len);

#ifdef __cplusplus
}
#endif

#endif
