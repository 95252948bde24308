/* Calls on a record, made by the oracle and by the archive and compared word by word. The archive makes each call twice: all slices
   with their end at a page that cannot be touched, then with their beginning there. Circuit and inputs cannot be written. */
#ifndef CALLS_H
#define CALLS_H

#include "records.h"
#include "sides.h"

enum { COLD_START, WARM_START, LATCH, RUN, PUBLISH, CALLS };

typedef struct {
    unsigned name; /* one of the above */
    int32_t e;     /* latch */
    int32_t inputs[MOST_WORDS];
    size_t inputs_length;
    uint32_t c; /* run */
} call;

call run_of(uint32_t c);
call latch_of(int32_t e, const int32_t *inputs); /* with 32 input words */

/* Record and outputs: lent to a call, and as it leaves them. */
typedef struct {
    size_t record_length, outputs_length;
    int32_t outputs[MOST_WORDS];
    int32_t record[MOST_RECORD];
} lent_words;

void copy_words(lent_words *to, const lent_words *from);
bool same_words(const lent_words *a, const lent_words *b);

/* Before all else: which calls stand for the archive's. */
void begin_comparing(const side *archive);

/* The circuit of the calls that follow, which stays as it is meanwhile; or any bytes, of which no block is counted. */
void lend_circuit(const circuit *made);
void lend_bytes(const uint8_t *bytes, size_t length);

/* Makes the call; `words` become what it leaves. A difference ends the program. `scenario` tells what is being tried. */
serifdove_answer compare_call(const char *scenario, lent_words *words, const call *made);

/* Likewise, and the answer's number must be this one. */
void expect_number(const char *scenario, lent_words *words, const call *made, unsigned number);

/* Ends the program: what was just compared is not what it must be. The call is printed as a trace. */
_Noreturn void tell_mismatch(const char *what);

uint64_t calls_compared(void);

/* Prints how often each call got each number, how often each kind was worked out, and what tests/ends.h counts. False where one was
   never met. */
bool report_calls(void);

#endif
