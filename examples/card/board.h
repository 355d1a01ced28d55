/* The card without its CPU: the module, and what is at its wires. */
#ifndef BOARD_H
#define BOARD_H

#include "../feed.h"
#include "qsm.h"

enum { BIT = 32 * SCBR, CHARACTER = 10 * BIT }; /* system clocks, on TXD */
#define NEVER UINT64_MAX

struct board {
    struct qsm qsm;
    struct qsm_answer seen; /* the last: pins, request, clock */
    uint64_t due;           /* when they or RXD change next */

    /* The sender at RXD: its text and level, bits sent, the end of this one. */
    const char *text;
    bool rxd;
    uint64_t sent, edge;

    /* The listener at TXD: samples to come, those of the frame, the time of the next; a line. */
    unsigned bits, frame;
    uint64_t sample;
    char line[80];
    size_t length;

    /* The converters at the queue: what was shifted in. */
    unsigned word;
};

/* After a reset, with a text that is going to be sent. */
void board_start(struct board *b, const char *text);

/* Time passes up to a clock. The module is called where pins, request or RXD change, and at the end. */
void board_keep(struct board *b, uint64_t clock);

/* An answer of the module to an access. */
void board_see(struct board *b, struct qsm_answer next);

#endif
