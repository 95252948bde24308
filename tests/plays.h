/* Scans of one block behind one another, worked out by hand from the papers. */
#ifndef PLAYS_H
#define PLAYS_H

#include <stddef.h>
#include <stdint.h>

enum { MOST_PLAYED = 9 }; /* scans */

typedef struct {
    const char *name;
    unsigned kind;
    int32_t parameters[4], before[3];
    const char *inputs[3]; /* of each input a digit a scan */
    int32_t e;             /* of each scan */
    /* what each scan leaves: output and remembered word, a digit a scan, and the number word */
    const char *outputs, *remembered;
    int32_t numbers[MOST_PLAYED];
} play;

extern const play plays[];
extern const size_t play_count;

/* One scan of a block on analog values. */
typedef struct {
    const char *name;
    unsigned kind;
    int32_t parameters[4];
    int32_t x, y; /* Ax and Ay */
    int32_t before, output;
} analog_play;

extern const analog_play analog_plays[];
extern const size_t analog_play_count;

enum { MOST_CHAINED = 4, AM_ROWS = 2 };

/* Scans of amplifiers that read one another, and AM1 and AM2, behind one another. */
typedef struct {
    const char *name;
    unsigned n;
    struct {
        unsigned class, number; /* what it reads */
        int32_t a, b;
    } blocks[MOST_CHAINED];
    unsigned rows[AM_ROWS];  /* which block the rows of AM1 and AM2 name */
    int32_t before[AM_ROWS]; /* AM1 and AM2 before the first scan */
    int32_t input;           /* AI1 in each scan */
    unsigned scans;
    int32_t outputs[MOST_PLAYED][MOST_CHAINED]; /* of each scan and block */
} chain;

extern const chain chains[];
extern const size_t chain_count;

#endif
