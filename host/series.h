/* An older series that a circuit may be asked to fit, and in words for people what stands in the way. The library's answer decides;
   where the look at the circuit here does not find first what the library told, the message says only what the library said. */
#ifndef SERIES_H
#define SERIES_H

#include "circuit.h"
#include "row_text.h"

/* A series: the call that judges whether a circuit fits it, and what it has. */
typedef struct {
    const char *name;
    serifdove_answer (*check)(const uint8_t *circuit, size_t length);
    unsigned blocks;          /* how many */
    unsigned most[TO_AM + 1]; /* the greatest number of a destination, by its class; so that of a flag too */
} series;

/* The series of the word behind --series, in capitals or not. On false, as without a word (null), the message says what is expected. */
bool read_series(const char *word, const series **to, message *why);

/* "; fits 0BA6", for a line that tells of a circuit; nothing where no series is asked for (null). */
typedef struct {
    char text[24];
} fits_text;

fits_text fits(const series *s);

/* Tells why the circuit does not fit, which serifdove_check accepts and the series' check refused with this answer: number, place,
   meaning; the field and what of it the series has not, of rows the cells too; what else it has not, the first few by name; and what to
   do. */
void tell_misfit(FILE *to, const series *s, serifdove_answer answer, const circuit_source *of);

#endif
