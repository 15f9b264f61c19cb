/*
 * sending.h: what the groups frame and scrambler share: what sdsl_frame_send is given, a third opinion on what it has to give, and
 * comparing it with both that and the reference.
 */
#ifndef SENDING_H
#define SENDING_H

#include "harness.h"
#include "sdsl.h"

#define LAST_STATE 8388607u

/* What a frame is sent from. There is room for buffers that are a little too long. */
struct sending {
    uint32_t end;
    uint32_t state;
    uint32_t kind;
    uint32_t count;
    uint8_t coefficients[SDSL_COEFFICIENT_OCTETS + 8];
    size_t coefficients_len; /* a length beyond the room is only said: the call is lent 720 octets */
    uint32_t a;
    uint32_t b;
    uint8_t vendor[SDSL_VENDOR_OCTETS + 8];
    size_t vendor_len;
    size_t frame_len;
};

/* A good one with chance contents, end and state. Behind the used coefficients stands anything at all. */
void make_sending(struct sending *in, uint32_t kind);

uint32_t random_state(void);

/* ---- The third opinion ---- */

/*
 * What is due: the first refusal that applies, or 0; the next state; and if nothing is refused the frame before it is scrambled, and as
 * it goes out. A bit of a field is found from its place, check bits and scrambled bits by shift registers. This shares no line with the
 * reference, and is never given a buffer of the call.
 */
struct due {
    uint32_t answer;
    uint32_t state;
    uint8_t plain[SDSL_FRAME_OCTETS];
    uint8_t line[SDSL_FRAME_OCTETS];
};

struct due due_of(const struct sending *in);

/* Whether the check bits of 529 octets are right, whatever else they hold, by the same register. */
bool has_right_check_bits(const uint8_t *frame);

/* ---- One side ---- */

/* The library or the reference, for cases whose result is known from elsewhere. */
struct side {
    const char *name;
    struct sdsl_scrambled (*send)(uint32_t end, uint32_t state, uint32_t kind, uint32_t count,
                                  const uint8_t *coefficients, size_t coefficients_len, uint32_t a, uint32_t b,
                                  const uint8_t *vendor, size_t vendor_len, uint8_t *frame, size_t frame_len);
    struct sdsl_scrambled (*descramble)(uint32_t end, uint32_t state, const uint8_t *in, size_t in_len, uint8_t *out, size_t out_len);
    struct sdsl_frame_fields (*read)(const uint8_t *frame, size_t frame_len, uint8_t *coefficients, size_t coefficients_len,
                                     uint8_t *vendor, size_t vendor_len, uint8_t *reserved, size_t reserved_len);
    uint32_t (*check)(const uint8_t *frame, size_t frame_len);
};

extern const struct side sides[2]; /* the library, then the reference */

/* Sends with right lengths, whatever `in` says of them. */
struct sdsl_scrambled send_by(const struct side *side, const struct sending *in, uint8_t *line);

/* ---- Comparisons ---- */

struct send_tallies {
    struct tally sends; /* against the reference */
    struct tally dues; /* both against the third opinion */
};

/* Two comparisons. Gives what the library gave. */
struct sdsl_scrambled try_send(const struct sending *in, struct send_tallies *tallies);

/*
 * What the receiving side has to make of a sent frame, in its two steps from in->state: the sender's fields, and its next state. Gives
 * the state that the receiver goes on with.
 */
uint32_t want_received(struct comparison *comparison, const struct side *side, const struct sending *in, struct sdsl_scrambled sent,
                       const uint8_t *line);

#endif
