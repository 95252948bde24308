/* Calls that answer what the environment says, whatever they are lent: NUMBER and PLACE, then 0, 0. A program that is built with one of
   them in place of the library's shows what it tells of an answer that its own look does not come to. */
#include "serifdove.h"

#include <stdlib.h>

serifdove_answer told_read_rows(const uint8_t *text, size_t text_len, uint8_t *circuit, size_t circuit_len);
serifdove_answer told_profile(const uint8_t *circuit, size_t length);

static serifdove_answer told(void) {
    return (serifdove_answer){(size_t)atoi(getenv("NUMBER")), (size_t)atoi(getenv("PLACE")), 0, 0};
}

serifdove_answer told_read_rows(const uint8_t *text, size_t text_len, uint8_t *circuit, size_t circuit_len) {
    (void)text, (void)text_len, (void)circuit, (void)circuit_len;
    return told();
}

serifdove_answer told_profile(const uint8_t *circuit, size_t length) {
    (void)circuit, (void)length;
    return told();
}
