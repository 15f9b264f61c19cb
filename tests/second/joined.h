/*
 * joined.h: a third opinion on what a receiver gives. All bits of a stream stand joined in one array and are searched at once, in the
 * words of sdsl.h, without lumps and without states. It shares no line with the reference.
 */
#ifndef JOINED_H
#define JOINED_H

#include "sdsl.h"

#include <stdbool.h>

/* A frame that is given: its place, and its octets descrambled. */
struct found {
    size_t place;
    uint8_t frame[SDSL_FRAME_OCTETS];
};

/* Bits stand one to an element, each 0 or 1, from 0, the first that was heard; `len` counts them all. */

/* What the check bits of the frame at a place leave: 0 where they are right. It has 23 bits before it and 4,227 from it on. */
uint32_t rest_at(uint32_t end, const uint8_t *bits, size_t place);

/* Whether a frame lies at a place; if so `frame` has its octets. */
bool lies_at(uint32_t end, const uint8_t *bits, size_t len, size_t place, uint8_t *frame);

/* All that is given, at most `most`. Says how many that are. */
size_t search_joined(uint32_t end, const uint8_t *bits, size_t len, struct found *found, size_t most);

#endif
