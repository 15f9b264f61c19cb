/* sending.c: see sending.h. */
#include "sending.h"

#if defined SECOND_FRAME || defined SECOND_SCRAMBLER

#include "reference.h"

#include <string.h>

uint32_t random_state(void)
{
    return (uint32_t)below(LAST_STATE + 1);
}

void make_sending(struct sending *in, uint32_t kind)
{
    in->end = (uint32_t)below(2);
    in->state = random_state();
    in->kind = kind;
    in->count = (uint32_t)between(128, 180);
    random_octets(in->coefficients, sizeof in->coefficients);
    for (size_t i = 0; i < in->count; i++) {
        static const int32_t ends[] = {-2097152, -2097151, -1, 0, 1, 2097150, 2097151};
        set_number(in->coefficients, i, below(8) == 0 ? ends[below(ITEMS(ends))] : between(-2097152, 2097151));
    }
    in->coefficients_len = SDSL_COEFFICIENT_OCTETS;
    in->a = (uint32_t)below(2097152);
    in->b = (uint32_t)below(2097152);
    random_octets(in->vendor, sizeof in->vendor);
    in->vendor_len = SDSL_VENDOR_OCTETS;
    in->frame_len = SDSL_FRAME_OCTETS;
}

/* ---- The third opinion ---- */

static bool is_number_wrong(const struct sending *in)
{
    bool wrong = in->a >> 21 != 0 || in->b >> 21 != 0;
    for (size_t i = 0; i < SDSL_COEFFICIENTS && i < in->count; i++) {
        int32_t number = get_number(in->coefficients, i);
        wrong = wrong || number < SDSL_COEFFICIENT_MIN || number > SDSL_COEFFICIENT_MAX;
    }
    return wrong;
}

/* Every fault on its own, by its number; then the lowest. */
static uint32_t answer_due(const struct sending *in)
{
    bool faulty[5] = {false};
    bool training = in->kind == SDSL_TRAINING;
    faulty[1] = in->coefficients_len != SDSL_COEFFICIENT_OCTETS || in->vendor_len != SDSL_VENDOR_OCTETS ||
                in->frame_len != SDSL_FRAME_OCTETS;
    faulty[2] = in->kind > 1 || in->end > 1;
    faulty[3] = training && (in->count < SDSL_COUNT_MIN || in->count > SDSL_COUNT_MAX);
    faulty[4] = in->state > LAST_STATE || (training && is_number_wrong(in));
    for (uint32_t answer = 1; answer <= 4; answer++) {
        if (faulty[answer]) {
            return answer;
        }
    }
    return 0;
}

/* Bit n of a frame, by the field that it lies in; 0 for reserved and check bits and for the pad. */
static uint32_t bit_due(const struct sending *in, size_t n)
{
    bool training = in->kind == SDSL_TRAINING;
    if (n < 15) {
        return (training ? 0x359Fu : 0x3E6Bu) >> (n - 1) & 1; /* octets 9F 35, and 6B 3E */
    }
    if (n >= 4017) {
        return n < 4145 && get_bit(in->vendor, n - 4016);
    }
    if (!training) {
        return 0;
    }
    if (n >= 3996) {
        return in->b >> (n - 3996) & 1;
    }
    if (n >= 3975) {
        return in->a >> (n - 3975) & 1;
    }
    size_t i = (n - 15) / 22;
    return i < in->count ? (uint32_t)get_number(in->coefficients, i) >> (n - 15) % 22 & 1 : 0;
}

/* The divisor's register after bits 15 to `last`; bits[n] is bit n. */
static uint32_t rest_after(const uint8_t *bits, size_t last)
{
    uint32_t reg = 0;
    for (size_t n = 15; n <= last; n++) {
        uint32_t out = (reg >> 15 ^ bits[n]) & 1;
        reg = (reg << 1 & 0xFFFF) ^ out * 0x1021;
    }
    return reg;
}

bool has_right_check_bits(const uint8_t *frame)
{
    uint8_t bits[SDSL_FRAME_BITS + 1];
    for (size_t n = 1; n <= SDSL_FRAME_BITS; n++) {
        bits[n] = get_bit(frame, n);
    }
    return rest_after(bits, SDSL_FRAME_BITS) == 0;
}

/* Into octets of zeros. */
static void add_bits(const uint8_t *bits, uint8_t *octets)
{
    for (size_t n = 1; n <= SDSL_FRAME_BITS; n++) {
        octets[(n - 1) / 8] = (uint8_t)(octets[(n - 1) / 8] | bits[n] << (n - 1) % 8);
    }
}

struct due due_of(const struct sending *in)
{
    struct due due = {answer_due(in), in->state, {0}, {0}};
    if (due.answer != 0) {
        return due;
    }
    uint8_t bits[SDSL_FRAME_BITS + 1];
    for (size_t n = 1; n <= SDSL_FRAME_BITS; n++) {
        bits[n] = (uint8_t)bit_due(in, n);
    }
    uint32_t rest = rest_after(bits, 4211);
    for (size_t n = 4212; n <= 4227; n++) {
        bits[n] = rest >> (4227 - n) & 1;
    }
    add_bits(bits, due.plain);
    unsigned tap = in->end == SDSL_LTU ? 5 : 18;
    for (size_t n = 15; n <= 4227; n++) {
        bits[n] = (uint8_t)((bits[n] ^ due.state >> (tap - 1) ^ due.state >> 22) & 1);
        due.state = (due.state << 1 | bits[n]) & LAST_STATE;
    }
    add_bits(bits, due.line);
    return due;
}

/* ---- One side ---- */

const struct side sides[2] = {
    {"library", sdsl_frame_send, sdsl_descramble_frame, sdsl_frame_read, sdsl_frame_check},
    {"reference", ref_frame_send, ref_descramble_frame, ref_frame_read, ref_frame_check},
};

struct sdsl_scrambled send_by(const struct side *side, const struct sending *in, uint8_t *line)
{
    return side->send(in->end, in->state, in->kind, in->count, in->coefficients, SDSL_COEFFICIENT_OCTETS, in->a, in->b,
                      in->vendor, SDSL_VENDOR_OCTETS, line, SDSL_FRAME_OCTETS);
}

/* ---- Comparisons ---- */

/* A length that is beyond all rooms here is only said. */
static size_t lent_for(size_t said, size_t right)
{
    return said <= right + 8 ? said : right;
}

static void want_due(struct comparison *comparison, const struct due *due, struct sdsl_scrambled got, const uint8_t *frame,
                     const struct pair *room)
{
    want(comparison, got.answer == due->answer, "another answer was due");
    want(comparison, got.state == due->state, "another state was due");
    if (due->answer == 0) {
        want(comparison, memcmp(frame, due->line, sizeof due->line) == 0, "another frame was due");
    } else {
        want(comparison, same_octets(frame, room->before, room->len), "the room was to stay as it was");
    }
}

struct sdsl_scrambled try_send(const struct sending *in, struct send_tallies *tallies)
{
    struct pair coefficients = lend(in->coefficients, lent_for(in->coefficients_len, SDSL_COEFFICIENT_OCTETS));
    struct pair vendor = lend(in->vendor, lent_for(in->vendor_len, SDSL_VENDOR_OCTETS));
    size_t room = lent_for(in->frame_len, SDSL_FRAME_OCTETS);
    struct pair frame = below(4) == 0 ? lend_ones(room) : lend_junk(room);
    struct sdsl_scrambled lib = sdsl_frame_send(in->end, in->state, in->kind, in->count, coefficients.lib, in->coefficients_len,
                                                in->a, in->b, vendor.lib, in->vendor_len, frame.lib, in->frame_len);
    struct sdsl_scrambled ref = ref_frame_send(in->end, in->state, in->kind, in->count, coefficients.ref, in->coefficients_len,
                                               in->a, in->b, vendor.ref, in->vendor_len, frame.ref, in->frame_len);
    struct comparison comparison = {NULL};
    want(&comparison, lib.answer == ref.answer, "answers differ");
    want(&comparison, lib.answer <= SDSL_OUT_OF_RANGE, "an answer that sending does not give");
    want(&comparison, lib.state == ref.state, "states differ");
    want(&comparison, lib.answer == 0 || lib.state == in->state, "a refused call changed the state");
    want_kept(&comparison, &coefficients, "coefficients changed");
    want_kept(&comparison, &vendor, "vendor data changed");
    want_written(&comparison, &frame, lib.answer, "frames differ");
    settle(comparison, &tallies->sends,
           "end %u state 0x%x kind %u count %u lengths %zu %zu %zu a %u b %u: library %u state 0x%x, reference %u state 0x%x", in->end,
           in->state, in->kind, in->count, in->coefficients_len, in->vendor_len, in->frame_len, in->a, in->b, lib.answer, lib.state,
           ref.answer, ref.state);
    struct due due = due_of(in);
    struct comparison known = {NULL};
    want_due(&known, &due, lib, frame.lib, &frame);
    want_due(&known, &due, ref, frame.ref, &frame);
    settle(known, &tallies->dues, "end %u state 0x%x kind %u count %u lengths %zu %zu %zu a %u b %u: library %u, reference %u", in->end,
           in->state, in->kind, in->count, in->coefficients_len, in->vendor_len, in->frame_len, in->a, in->b, lib.answer, ref.answer);
    give_back(&coefficients);
    give_back(&vendor);
    give_back(&frame);
    return lib;
}

uint32_t want_received(struct comparison *comparison, const struct side *side, const struct sending *in, struct sdsl_scrambled sent,
                       const uint8_t *line)
{
    uint8_t frame[SDSL_FRAME_OCTETS];
    uint8_t coefficients[SDSL_COEFFICIENT_OCTETS] = {0};
    uint8_t vendor[SDSL_VENDOR_OCTETS] = {0};
    uint8_t reserved[SDSL_RESERVED_OCTETS];
    memset(frame, 255, sizeof frame);
    memset(reserved, 255, sizeof reserved);
    struct sdsl_scrambled heard = side->descramble(in->end, in->state, line, SDSL_FRAME_OCTETS, frame, sizeof frame);
    struct sdsl_frame_fields fields = side->read(frame, sizeof frame, coefficients, sizeof coefficients, vendor, sizeof vendor,
                                                 reserved, sizeof reserved);
    bool training = in->kind == SDSL_TRAINING;
    want(comparison, heard.answer == SDSL_DONE && fields.answer == SDSL_DONE, "what was sent is refused");
    want(comparison, heard.state == sent.state, "the sender's next state does not come back");
    want(comparison, fields.kind == in->kind, "another kind");
    want(comparison, memcmp(vendor, in->vendor, sizeof vendor) == 0, "other vendor data");
    want(comparison, fields.a == (training ? in->a : 0) && fields.b == (training ? in->b : 0), "other words");
    for (size_t k = 0; k < SDSL_COEFFICIENTS; k++) {
        int32_t due = training && k < in->count ? get_number(in->coefficients, k) : 0;
        want(comparison, get_number(coefficients, k) == due, "other coefficients");
    }
    for (size_t k = 0; k < sizeof reserved; k++) {
        want(comparison, reserved[k] == (training ? 0 : 255), "other reserved octets");
    }
    return heard.state;
}

#endif
