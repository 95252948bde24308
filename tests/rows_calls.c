/* Calls serifdove_read_rows and serifdove_write_rows as it is told, request by request, so that a script can ask for many at once.

   stdin, each request: R or W, the length of the first slice, its bytes, the length of the second slice.
   stdout, each answer: its four numbers, then the bytes written.
   Lengths and numbers are four bytes each, the high one first. */
#include "serifdove.h"

#include <stdio.h>
#include <stdlib.h>

enum { ROOM = 1 << 20 };

static uint8_t from[ROOM], to[ROOM];

static void take(uint8_t *bytes, size_t length) {
    if (fread(bytes, 1, length, stdin) != length) {
        fprintf(stderr, "rows_calls: a request is cut\n");
        exit(2);
    }
}

static size_t take_length(void) {
    uint8_t b[4];
    take(b, sizeof b);
    const size_t length = (size_t)b[0] << 24 | (size_t)b[1] << 16 | (size_t)b[2] << 8 | b[3];
    if (length > ROOM) {
        fprintf(stderr, "rows_calls: a slice is too long\n");
        exit(2);
    }
    return length;
}

static void give_number(size_t number) {
    for (int shift = 24; shift >= 0; shift -= 8)
        putchar((int)(number >> shift & 0xFF));
}

static void give(serifdove_answer a) {
    give_number(a.number);
    give_number(a.place);
    give_number(a.first);
    give_number(a.second);
    fwrite(to, 1, a.first, stdout);
}

int main(void) {
    int call;
    while ((call = getchar()) != EOF) {
        const size_t length = take_length();
        take(from, length);
        const size_t room = take_length();
        give(call == 'R' ? serifdove_read_rows(from, length, to, room) : serifdove_write_rows(from, length, to, room));
    }
    return fflush(stdout) == 0 && !ferror(stdout) ? 0 : 2;
}
