/*
 * line.h: the line between two cards. It carries symbols, a millisecond at a time, and delays them; on request it spoils one frame.
 */
#ifndef LINE_H
#define LINE_H

#include <stdbool.h>
#include <stdint.h>

/* Symbols in a millisecond: 216 kbit/s on the line (clause 4.3.1.1 with n = 3 and i = 2), three bits a symbol. */
#define BLOCK 72

#define MAX_DELAY 100 /* milliseconds */

/* One symbol as a card sends it. `frame` and `bit` are for the line's faults: the far card is handed the level and nothing else. */
struct symbol {
    int32_t level;  /* in steps of 1/131072; 0 is silence */
    unsigned frame; /* which frame of this card, from 1; 0 where it belongs to none */
    unsigned bit;   /* which bit of it, from 1 */
};

/* One direction. */
struct line {
    unsigned delay;            /* milliseconds */
    unsigned flip;             /* the frame in which one bit is flipped; 0 for none */
    unsigned drop;             /* the frame that is lost: silence is heard in its place; 0 for none */
    unsigned flipped, dropped; /* symbols that were */
    unsigned slot;             /* where the next block goes */
    int32_t on_the_way[MAX_DELAY + 1][BLOCK];
};

/* Takes the block that is sent in this millisecond and gives the one that is heard in it. */
void line_carry(struct line *line, const struct symbol sent[BLOCK], int32_t heard[BLOCK]);

#endif
