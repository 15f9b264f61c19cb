/* line.c: see line.h. */
#include "line.h"

#include <string.h>

/* The bit that is flipped: the middle of the coefficients, under the check bits and far from the frame's end. */
#define FLIPPED_BIT 2000

static int32_t carried(struct line *line, struct symbol s)
{
    if (s.frame != 0 && s.frame == line->drop) {
        line->dropped++;
        return 0;
    }
    if (s.frame != 0 && s.frame == line->flip && s.bit == FLIPPED_BIT) {
        line->flipped++;
        return -s.level;
    }
    return s.level;
}

void line_carry(struct line *line, const struct symbol sent[BLOCK], int32_t heard[BLOCK])
{
    for (unsigned i = 0; i < BLOCK; i++) {
        line->on_the_way[line->slot][i] = carried(line, sent[i]);
    }
    line->slot = (line->slot + 1) % (line->delay + 1);
    memcpy(heard, line->on_the_way[line->slot], sizeof line->on_the_way[0]);
}
