/* receive.c: the receiver: streams of bits, usual and dear, a pass over one of them, and the same in plain C, by the bit. See bench.h. */
#include "bench.h"

#include "../tests/second/harness.h"

#include <string.h>

#define STATE_BITS 23
#define LAST (SDSL_FRAME_BITS - 1) /* so many places behind a frame's first bit is its last */
#define TRAINING_SYNC 0x3E6Bu      /* 11111001101011, the first bit highest */
#define FINAL_SYNC 0x359Fu         /* 11010110011111 */

/* What a receiver holds. Ours has the line room; plain C has a ring of bits, one an octet, and the 14 with which a frame would begin. */
#define RING 8192 /* more than a frame and the 23 bits before it */
static struct {
    struct sdsl_receiver state;
    uint8_t room[SDSL_LINE_OCTETS];
    uint8_t ring[RING];
    uint32_t window;
} held;

static bool is_sync(uint32_t word)
{
    return word == TRAINING_SYNC || word == FINAL_SYNC;
}

/* ---- Plain C, as one might well write it first ---- */

/* The frame that begins at a place, descrambled; and whether its check bits are right, by a register of 16 bits. */
static bool frame_at(uint32_t end, uint32_t place, uint8_t *frame)
{
    uint32_t tap = end == SDSL_LTU ? 5 : 18, state = 0, rest = 0;
    memset(frame, 0, SDSL_FRAME_OCTETS);
    for (uint32_t i = 0; i < STATE_BITS; i++) {
        state = state << 1 | held.ring[(place - STATE_BITS + i) % RING];
    }
    for (uint32_t i = 0; i < SDSL_FRAME_BITS; i++) {
        uint32_t bit = held.ring[(place + i) % RING];
        if (i >= SDSL_SYNC_BITS) {
            uint32_t scrambled = bit;
            bit ^= (state >> (tap - 1) ^ state >> (STATE_BITS - 1)) & 1u;
            state = state << 1 | scrambled;
            rest = rest << 1 ^ ((rest >> 15 ^ bit) & 1u ? 0x1021u : 0);
        }
        frame[i / 8] |= (uint8_t)(bit << i % 8);
    }
    return (rest & 0xFFFFu) == 0;
}

struct sdsl_received plain_receive_start(uint32_t end)
{
    struct sdsl_received got = {0};
    got.answer = end > SDSL_NTU ? SDSL_UNKNOWN : SDSL_DONE;
    got.state.end = got.answer == SDSL_DONE ? end : 0;
    return got;
}

struct sdsl_received plain_receive(struct sdsl_receiver state, uint8_t *room, size_t room_len, const uint8_t *lump, size_t lump_len,
                                   size_t bits, uint8_t *frame, size_t frame_len)
{
    struct sdsl_received got = {SDSL_DONE, 0, 0, state};
    (void)room;
    if (bits > 8 * lump_len || room_len != SDSL_LINE_OCTETS || frame_len != SDSL_FRAME_OCTETS) {
        got.answer = SDSL_BAD_LENGTH;
    } else if (state.end > SDSL_NTU) {
        got.answer = SDSL_UNKNOWN;
    } else if (bits > SDSL_LUMP_BITS_MAX || bits > SDSL_HEARD_MAX - state.heard) {
        got.answer = SDSL_OUT_OF_RANGE;
    }
    if (got.answer != SDSL_DONE) {
        return got;
    }
    uint32_t window = held.window;
    uint64_t least = LAST + (uint64_t)(state.from > SDSL_PLACE_MIN ? state.from : SDSL_PLACE_MIN);
    for (uint32_t k = 0; k < bits; k++) {
        uint32_t newest = state.heard + k;
        held.ring[newest % RING] = lump[k / 8] >> k % 8 & 1u;
        window = (window << 1 | held.ring[(newest - LAST + SDSL_SYNC_BITS - 1) % RING]) & 0x3FFFu;
        if (is_sync(window) && newest >= least && !got.given) {
            uint8_t tried[SDSL_FRAME_OCTETS];
            if (frame_at(state.end, newest - LAST, tried)) {
                memcpy(frame, tried, sizeof tried);
                got.given = 1;
                got.place = newest - LAST;
                got.state.from = newest + 1;
            }
        }
    }
    held.window = window;
    got.state.heard = state.heard + (uint32_t)bits;
    return got;
}

/* ---- Streams ---- */

/* A stream begins with its lead, which a receiver has heard before a pass begins, so that every bit of the pass can end a frame. */
#define LEAD (8 * SDSL_LINE_OCTETS)
#define FRAMES_LEAD 24 /* the 23 bits before a frame, and one more, so that the frames begin at an octet */

static struct {
    size_t lead;
    uint8_t octets[(LEAD + CHANCE_BITS) / 8];
    __typeof__(held) ours, plain; /* what the two hold behind the lead */
} streams[STREAMS];

static void set_bit(uint8_t *octets, size_t place)
{
    octets[place / 8] |= (uint8_t)(1u << place % 8);
}

/* Frames one behind the other, as the LTU sends them from its start: before them is the state that its scrambler starts with. */
static void make_frames(uint8_t *octets)
{
    uint32_t state = sdsl_scrambler_start(SDSL_LTU).state;
    for (size_t i = 0; i < STATE_BITS; i++) {
        if (state >> (STATE_BITS - 1 - i) & 1u) {
            set_bit(octets, FRAMES_LEAD - STATE_BITS + i);
        }
    }
    for (size_t i = 0; i < FRAMES_BITS; i++) {
        if (get_bit(line[SDSL_LTU][i / SDSL_FRAME_BITS], 1 + i % SDSL_FRAME_BITS)) {
            set_bit(octets, FRAMES_LEAD + i);
        }
    }
}

/*
 * Sync words as close as they can stand. The last 7 bits of a training word are the first of a final one, so that one may begin 7 bits
 * behind the other; the last 5 of a final word are the first of a training one: 9 bits. Two of a kind are never closer than 12.
 */
static void make_worst(uint8_t *octets, size_t bits)
{
    for (size_t place = 0; place + SDSL_SYNC_BITS <= bits; place += place % 16 == 0 ? 7 : 9) {
        for (size_t i = 0; i < SDSL_SYNC_BITS; i++) {
            if ((place % 16 == 0 ? TRAINING_SYNC : FINAL_SYNC) >> (SDSL_SYNC_BITS - 1 - i) & 1u) {
                set_bit(octets, place + i);
            }
        }
    }
}

/* The sync words at the places where frames begin whose last bits are the WORST_BITS behind the lead. */
static size_t words_tried(const uint8_t *octets)
{
    size_t words = 0;
    for (size_t place = LEAD - LAST; place < LEAD - LAST + WORST_BITS; place++) {
        uint32_t word = 0;
        for (size_t i = 0; i < SDSL_SYNC_BITS; i++) {
            word = word << 1 | get_bit(octets, 1 + place + i);
        }
        words += is_sync(word);
    }
    return words;
}

/* A call. Only a lump of one bit may begin inside an octet. */
static struct sdsl_received take(const struct library *library, size_t stream, size_t at, size_t bits, uint8_t *frame)
{
    const uint8_t *octets = streams[stream].octets + at / 8;
    uint8_t single = (uint8_t)(*octets >> at % 8);
    struct sdsl_received got = library->receive(held.state, held.room, sizeof held.room, bits == 1 ? &single : octets, (bits + 7) / 8, bits,
                                                frame, SDSL_FRAME_OCTETS);
    held.state = got.state;
    return got;
}

static void hear_lead(const struct library *library, size_t stream)
{
    memset(&held, 0, sizeof held);
    held.state = library->receive_start(SDSL_LTU).state;
    for (size_t at = 0; at < streams[stream].lead; at += 8) {
        take(library, stream, at, 8, results.octets);
    }
}

/* The worst stream has to have a sync word in 8 bits, and no frame. */
bool make_streams(void)
{
    uint8_t *worst = streams[WORST_STREAM].octets, *nearly = streams[NEARLY_STREAM].octets;
    random_octets(streams[CHANCE_STREAM].octets, sizeof streams[CHANCE_STREAM].octets);
    make_frames(streams[FRAMES_STREAM].octets);
    make_worst(worst, LEAD + WORST_BITS);
    for (size_t i = 0; i < (LEAD + WORST_BITS) / 8; i++) {
        nearly[i] = worst[i] ^ (i % 2 == 1 ? 0x20 : 0); /* the last bit of a training word, the 7th of the final one in it */
    }
    memset(streams[ONES_STREAM].octets, 0xFF, sizeof streams[ONES_STREAM].octets);
    for (size_t s = 0; s < STREAMS; s++) {
        streams[s].lead = s == FRAMES_STREAM ? FRAMES_LEAD : LEAD;
        hear_lead(&ours, s);
        streams[s].ours = held;
        hear_lead(&plain, s);
        streams[s].plain = held;
    }
    return words_tried(worst) == WORST_BITS / 8 && words_tried(nearly) == 0 && receive(&plain, WORST_STREAM, WORST_BITS, LUMP) == 0 &&
           receive(&plain, FRAMES_STREAM, FRAMES_BITS, LUMP) == BATCH;
}

/* ---- A pass ---- */

size_t receive(const struct library *library, size_t stream, size_t bits, size_t lump)
{
    size_t lead = streams[stream].lead, given = 0, calls = 0;
    held = library == &plain ? streams[stream].plain : streams[stream].ours;
    for (size_t done = 0; done < bits; done += lump) {
        size_t taken = lump < bits - done ? lump : bits - done;
        struct sdsl_received got = take(library, stream, lead + done, taken, results.octets + given * SDSL_FRAME_OCTETS);
        given += got.given;
        results.numbers[calls++] = got.answer + 16 * got.given + 32 * got.place;
    }
    results.numbers[calls++] = held.state.heard;
    results.numbers[calls++] = held.state.from;
    return given;
}
