/* joined.c: see joined.h. */
#include "joined.h"

#include <string.h>

#define STATE_BITS 23
#define REST_BITS (SDSL_FRAME_BITS - SDSL_SYNC_BITS)

/*
 * The bits behind the sync word of the frame at a place, descrambled, from plain[0] on. Sync bits are not scrambled and do not clock, so
 * they are left out of the bits that came scrambled: the 23 before the frame, then those behind its sync word.
 */
static void descramble_at(uint32_t end, const uint8_t *bits, size_t place, uint8_t *plain)
{
    size_t tap = end == SDSL_LTU ? 5 : 18;
    uint8_t scrambled[STATE_BITS + REST_BITS];
    memcpy(scrambled, bits + place - STATE_BITS, STATE_BITS);
    memcpy(scrambled + STATE_BITS, bits + place + SDSL_SYNC_BITS, REST_BITS);
    for (size_t i = 0; i < REST_BITS; i++) {
        const uint8_t *bit = scrambled + STATE_BITS + i;
        plain[i] = (uint8_t)(*bit ^ *(bit - tap) ^ *(bit - STATE_BITS));
    }
}

/* The register of the divisor, over the message and the check bits behind it. */
uint32_t rest_at(uint32_t end, const uint8_t *bits, size_t place)
{
    uint8_t plain[REST_BITS];
    uint32_t reg = 0;
    descramble_at(end, bits, place, plain);
    for (size_t i = 0; i < REST_BITS; i++) {
        uint32_t out = reg >> 15 ^ plain[i];
        reg = (reg << 1 & 0xFFFF) ^ out * 0x1021;
    }
    return reg;
}

static bool stands_at(const uint8_t *bits, size_t place, const char *sync)
{
    for (size_t i = 0; i < SDSL_SYNC_BITS; i++) {
        if (bits[place + i] != (sync[i] == '1')) {
            return false;
        }
    }
    return true;
}

bool lies_at(uint32_t end, const uint8_t *bits, size_t len, size_t place, uint8_t *frame)
{
    if (place < STATE_BITS || place + SDSL_FRAME_BITS > len) {
        return false;
    }
    if (!stands_at(bits, place, "11111001101011") && !stands_at(bits, place, "11010110011111")) {
        return false;
    }
    if (rest_at(end, bits, place) != 0) {
        return false;
    }
    uint8_t plain[REST_BITS];
    descramble_at(end, bits, place, plain);
    memset(frame, 0, SDSL_FRAME_OCTETS);
    for (size_t i = 0; i < SDSL_FRAME_BITS; i++) {
        unsigned bit = i < SDSL_SYNC_BITS ? bits[place + i] : plain[i - SDSL_SYNC_BITS];
        frame[i / 8] = (uint8_t)(frame[i / 8] | bit << i % 8);
    }
    return true;
}

/* The earliest, then the earliest behind that frame's last bit, and so on. */
size_t search_joined(uint32_t end, const uint8_t *bits, size_t len, struct found *found, size_t most)
{
    size_t count = 0;
    size_t place = 0;
    while (place < len && count < most) {
        if (lies_at(end, bits, len, place, found[count].frame)) {
            found[count].place = place;
            count++;
            place += SDSL_FRAME_BITS;
        } else {
            place++;
        }
    }
    return count;
}
