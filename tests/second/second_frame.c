/*
 * second_frame.c: the group `frame`: sdsl_frame_send, sdsl_frame_read and sdsl_frame_check, and sdsl_descramble_frame where a sent frame
 * has to come back.
 */
#include "harness.h"

#ifdef SECOND_FRAME

#include "reference.h"
#include "sending.h"

#include <stdio.h>
#include <string.h>

static struct send_tallies sends = {{"sdsl_frame_send", 0, 0}, {"sent as due", 0, 0}};
static struct tally reads = {"sdsl_frame_read", 0, 0};
static struct tally checks = {"sdsl_frame_check", 0, 0};
static struct tally round_trips = {"sent, then read", 0, 0};
static struct tally runs = {"runs of frames", 0, 0};
static struct tally on_line = {"not descrambled", 0, 0};
static struct tally same_again = {"sent again, same", 0, 0};
static struct tally other_again = {"sent again, other", 0, 0};
static struct tally overs = {"sent over", 0, 0};
static struct tally given = {"reserved octets", 0, 0};
static struct tally orders = {"refusals in order", 0, 0};
static struct tally texts = {"answer 8 in words", 0, 0};
static struct tally examples = {"examples 1 to 8", 0, 0};

#define FRAME_BITS 4227
#define FRAME_BITS_WITH_PAD 4232
#define FIRST_RESERVED 4145
#define LAST_RESERVED 4211
#define NEVER 8 /* not an answer any more: it once stood for a reserved bit */

/* The lengths of what frame_read is lent. */
struct lengths {
    size_t frame;
    size_t coefficients;
    size_t vendor;
    size_t reserved;
};

static const struct lengths right_lengths = {529, 720, 16, 9};

/* ---- One comparison each (sending has its own in sending.c) ---- */

struct answers {
    uint32_t lib;
    uint32_t ref;
};

/* `what` tells in a word or two what was done to the frame, and `number` which one it was. */
static struct answers try_read(const uint8_t *octets, struct lengths len, const char *what, size_t number)
{
    struct pair frame = lend(octets, len.frame);
    struct pair coefficients = lend_junk(len.coefficients);
    struct pair vendor = lend_junk(len.vendor);
    struct pair reserved = below(4) == 0 ? lend_ones(len.reserved) : lend_junk(len.reserved);
    struct sdsl_frame_fields lib = sdsl_frame_read(frame.lib, frame.len, coefficients.lib, coefficients.len, vendor.lib, vendor.len,
                                                   reserved.lib, reserved.len);
    struct sdsl_frame_fields ref = ref_frame_read(frame.ref, frame.len, coefficients.ref, coefficients.len, vendor.ref, vendor.len,
                                                  reserved.ref, reserved.len);
    struct comparison comparison = {NULL};
    want(&comparison, lib.answer == ref.answer, "answers differ");
    want(&comparison, lib.answer != NEVER, "answers 8");
    want(&comparison, lib.kind == ref.kind && lib.a == ref.a && lib.b == ref.b, "fields differ");
    want_kept(&comparison, &frame, "the frame changed");
    want_written(&comparison, &coefficients, lib.answer, "coefficients differ");
    want_written(&comparison, &vendor, lib.answer, "vendor data differs");
    want_written(&comparison, &reserved, lib.answer, "reserved octets differ");
    if (lib.kind == SDSL_FINAL) {
        want_kept(&comparison, &coefficients, "a final frame wrote coefficients");
        want_kept(&comparison, &reserved, "a final frame wrote reserved octets");
    }
    settle(comparison, &reads, "%s %zu, lengths %zu %zu %zu %zu: library %u kind %u a %u b %u, reference %u kind %u a %u b %u",
           what, number, len.frame, len.coefficients, len.vendor, len.reserved, lib.answer, lib.kind, lib.a, lib.b,
           ref.answer, ref.kind, ref.a, ref.b);
    give_back(&frame);
    give_back(&coefficients);
    give_back(&vendor);
    give_back(&reserved);
    return (struct answers){lib.answer, ref.answer};
}

static void try_check(const uint8_t *octets, size_t frame_len, const char *what, size_t number)
{
    struct pair frame = lend(octets, frame_len);
    uint32_t lib = sdsl_frame_check(frame.lib, frame.len);
    uint32_t ref = ref_frame_check(frame.ref, frame.len);
    struct comparison comparison = {NULL};
    want(&comparison, lib == ref, "answers differ");
    want(&comparison, lib != NEVER, "answers 8");
    want_kept(&comparison, &frame, "the frame changed");
    settle(comparison, &checks, "%s %zu, length %zu: library %u, reference %u", what, number, frame_len, lib, ref);
    give_back(&frame);
}

/* A frame of the right length. */
static void try_frame(const uint8_t *octets, const char *what, size_t number)
{
    try_read(octets, right_lengths, what, number);
    try_check(octets, SDSL_FRAME_OCTETS, what, number);
}

/* ---- Frames ---- */

/* Reserved bits as nine octets: none of them, one, the two of a card of another make, all, or any. */
static void any_reserved(uint8_t *nine)
{
    memset(nine, 0, SDSL_RESERVED_OCTETS);
    switch (below(6)) {
    case 0:
        break;
    case 1:
        flip_bit(nine, (size_t)between(1, 67));
        break;
    case 2:
        nine[0] = 3;
        break;
    case 3:
        memset(nine, 255, SDSL_RESERVED_OCTETS);
        nine[8] = 7;
        break;
    default:
        random_octets(nine, SDSL_RESERVED_OCTETS);
        nine[8] &= 7;
    }
}

/* Gives a frame these reserved bits, and the right check bits. */
static void put_reserved(uint8_t *frame, const uint8_t *nine)
{
    for (size_t n = FIRST_RESERVED; n <= LAST_RESERVED; n++) {
        if (get_bit(frame, n) != get_bit(nine, n - 4144)) {
            flip_bit(frame, n);
        }
    }
    ref_put_check_bits(frame);
}

/* A good frame of either kind; there is room for one octet too many behind. */
static void make_frame(uint8_t *frame, uint32_t kind)
{
    struct sending in;
    make_sending(&in, kind);
    random_octets(frame, SDSL_FRAME_OCTETS + 1);
    ref_make_frame(kind, in.count, in.coefficients, in.a, in.b, in.vendor, frame);
    /* A final frame's payload is arbitrary: fill it, and put the right check bits behind it. */
    if (kind == SDSL_FINAL && below(4) != 0) {
        for (size_t n = 15; n <= 4211; n++) {
            if (below(2) == 1) {
                flip_bit(frame, n);
            }
        }
        ref_put_check_bits(frame);
    }
    /* A training frame of another make may have any reserved bits. */
    if (kind == SDSL_TRAINING) {
        uint8_t nine[SDSL_RESERVED_OCTETS];
        any_reserved(nine);
        put_reserved(frame, nine);
    }
}

/* ---- Sending ---- */

static const uint32_t odd_numbers[] = {0, 1, 2, 3, 255, 256, 257, 65536, 65537, 2147483648, 2147483649, 4294967295};
static const uint32_t counts[] = {0, 1, 127, 128, 129, 179, 180, 181, 255, 256, 384, 65535, 65664, 2147483648, 2147483776, 4294967295};
static const uint32_t words[] = {0, 1, 2, 1048575, 1048576, 2097150, 2097151, 2097152, 4194303, 2147483648, 4294967295};

/* All 180 coefficients within their range, whatever the count is going to be. */
static void good_coefficients(struct sending *in)
{
    for (size_t i = 0; i < SDSL_COEFFICIENTS; i++) {
        set_number(in->coefficients, i, between(-2097152, 2097151));
    }
}

/* Odd kinds with odd ends and every count at an edge; counts around the range, in both kinds. */
static void send_kinds_and_counts(void)
{
    struct sending in;
    for (size_t k = 0; k < ITEMS(odd_numbers); k++) {
        for (size_t c = 0; c < ITEMS(counts); c++) {
            make_sending(&in, SDSL_TRAINING);
            good_coefficients(&in);
            in.kind = odd_numbers[k];
            in.count = counts[c];
            try_send(&in, &sends);
            in.kind = (uint32_t)below(2);
            in.end = odd_numbers[k];
            try_send(&in, &sends);
        }
        for (size_t e = 0; e < ITEMS(odd_numbers); e++) {
            make_sending(&in, SDSL_TRAINING);
            in.kind = odd_numbers[k];
            in.end = odd_numbers[e];
            try_send(&in, &sends);
        }
    }
    for (uint32_t count = 120; count <= 190; count++) {
        for (uint32_t kind = 0; kind < 2; kind++) {
            make_sending(&in, kind);
            memset(in.coefficients, 0, sizeof in.coefficients);
            in.count = count;
            try_send(&in, &sends);
        }
    }
}

/* A and B at and beyond their ends; each coefficient there, used, unused and just at the border of the two. */
static void send_numbers(void)
{
    static const int32_t numbers[] = {-2097152, 2097151, -2097153, 2097152, 4194303, -4194304, 4194304, INT32_MIN, INT32_MAX};
    struct sending in;
    for (size_t i = 0; i < ITEMS(words); i++) {
        for (size_t k = 0; k < ITEMS(words); k++) {
            for (uint32_t kind = 0; kind < 2; kind++) {
                make_sending(&in, kind);
                in.a = words[i];
                in.b = words[k];
                try_send(&in, &sends);
            }
        }
    }
    for (uint32_t i = 0; i < SDSL_COEFFICIENTS; i++) {
        for (size_t k = 0; k < ITEMS(numbers); k++) {
            static const uint32_t used[] = {128, 180};
            for (size_t u = 0; u < ITEMS(used); u++) {
                make_sending(&in, SDSL_TRAINING);
                good_coefficients(&in);
                set_number(in.coefficients, i, numbers[k]);
                in.count = used[u];
                try_send(&in, &sends);
                in.count = i < 128 ? 128 : i;
                try_send(&in, &sends);
                in.count = i < 127 ? 128 : i + 1;
                try_send(&in, &sends);
            }
        }
    }
}

/* Single bits: each of a coefficient's, of A's, of B's and of the vendor data's. */
static void send_single_bits(void)
{
    struct sending in;
    for (size_t bit = 0; bit < 22; bit++) {
        for (size_t i = 0; i < SDSL_COEFFICIENTS; i += 7) {
            make_sending(&in, SDSL_TRAINING);
            memset(in.coefficients, 0, sizeof in.coefficients);
            in.count = 180;
            set_number(in.coefficients, i, bit == 21 ? -2097152 : 1 << bit);
            in.a = bit < 21 ? 1u << bit : 0;
            in.b = bit < 21 ? 1u << (20 - bit) : 0;
            memset(in.vendor, 0, sizeof in.vendor);
            try_send(&in, &sends);
        }
    }
    for (size_t n = 1; n <= 128; n++) {
        for (uint32_t kind = 0; kind < 2; kind++) {
            make_sending(&in, kind);
            memset(in.vendor, 0, sizeof in.vendor);
            flip_bit(in.vendor, n);
            try_send(&in, &sends);
        }
    }
}

static const size_t coefficient_lengths[] = {0, 0, 1, 180, 528, 529, 716, 719, 720, 721, 724};
static const size_t vendor_lengths[] = {0, 0, 1, 9, 15, 16, 17, 24};
static const size_t frame_lengths[] = {0, 0, 1, 527, 528, 529, 530};
static const size_t reserved_lengths[] = {0, 0, 1, 8, 9, 10, 16, 529, 720};

static void all_lengths(void)
{
    struct sending in;
    uint8_t frame[SDSL_FRAME_OCTETS + 1];
    for (size_t c = 0; c < ITEMS(coefficient_lengths); c++) {
        for (size_t v = 0; v < ITEMS(vendor_lengths); v++) {
            for (size_t f = 0; f < ITEMS(frame_lengths); f++) {
                for (uint32_t kind = 0; kind < 3; kind++) {
                    make_sending(&in, kind);
                    in.coefficients_len = coefficient_lengths[c];
                    in.vendor_len = vendor_lengths[v];
                    in.frame_len = frame_lengths[f];
                    try_send(&in, &sends);
                }
                for (uint32_t kind = 0; kind < 2; kind++) {
                    make_frame(frame, kind);
                    for (size_t r = 0; r < ITEMS(reserved_lengths); r++) {
                        struct lengths len = {frame_lengths[f], coefficient_lengths[c], vendor_lengths[v], reserved_lengths[r]};
                        try_read(frame, len, "a good frame", kind);
                    }
                    try_check(frame, frame_lengths[f], "a good frame", kind);
                }
            }
        }
    }
}

/*
 * Lengths whose low octets are right, up to the top of size_t; one, two or all three buffers of no octets; coefficients of as many octets
 * as are in use. All are refused, but 180 in use.
 */
static void send_odd_lengths(void)
{
    struct sending in;
    for (uint32_t kind = 0; kind < 2; kind++) {
        for (size_t power = 10; power < 8 * sizeof(size_t); power++) {
            for (unsigned which = 1; which < 8; which++) {
                size_t step = (size_t)1 << power;
                step = below(2) == 0 ? step : 0 - step;
                make_sending(&in, kind);
                in.coefficients_len += which & 1 ? step : 0;
                in.vendor_len += which & 2 ? step : 0;
                in.frame_len += which & 4 ? step : 0;
                try_send(&in, &sends);
            }
        }
        for (unsigned turn = 0; turn < 56; turn++) {
            make_sending(&in, kind);
            in.coefficients_len = (turn % 7 + 1) & 1 ? 0 : in.coefficients_len;
            in.vendor_len = (turn % 7 + 1) & 2 ? 0 : in.vendor_len;
            in.frame_len = (turn % 7 + 1) & 4 ? 0 : in.frame_len;
            try_send(&in, &sends);
        }
        for (uint32_t count = 128; count <= 180; count++) {
            make_sending(&in, kind);
            good_coefficients(&in);
            in.count = count;
            in.coefficients_len = 4 * (size_t)count;
            try_send(&in, &sends);
        }
    }
}

/* The faults that a sending can have. */
enum { COEFFICIENT_ROOM = 1, VENDOR_ROOM = 2, FRAME_ROOM = 4, KIND = 8, END = 16, COUNT = 32, NUMBER = 64, A = 128, B = 256, STATE = 512 };

/* A sending with this set of faults. */
static void make_faulty(struct sending *in, unsigned set, uint32_t kind, unsigned turn)
{
    static const uint32_t bad_counts[] = {0, 127, 181, 4294967295};
    static const int32_t bad_numbers[] = {-2097153, 2097152, INT32_MIN, INT32_MAX};
    make_sending(in, kind);
    if (set & COEFFICIENT_ROOM) {
        in->coefficients_len = turn % 2 == 0 ? 719 : 721;
    }
    if (set & VENDOR_ROOM) {
        in->vendor_len = turn % 2 == 0 ? 15 : 17;
    }
    if (set & FRAME_ROOM) {
        in->frame_len = turn % 2 == 0 ? 528 : 530;
    }
    if (set & KIND) {
        in->kind = odd_numbers[2 + below(ITEMS(odd_numbers) - 2)];
    }
    if (set & END) {
        in->end = odd_numbers[2 + below(ITEMS(odd_numbers) - 2)];
    }
    if (set & NUMBER) {
        set_number(in->coefficients, (size_t)below(128), bad_numbers[turn]);
    }
    if (set & COUNT) {
        in->count = bad_counts[turn];
    }
    if (set & A) {
        in->a = turn == 0 ? 2097152 : (random32() | 2097152);
    }
    if (set & B) {
        in->b = turn == 0 ? 2097152 : (random32() | 2097152);
    }
    if (set & STATE) {
        in->state = turn == 0 ? 8388608 : (random_state() | 1u << (23 + below(9)));
    }
}

/*
 * Every set of faults at once, so every pair among them: the order of the checks shows. Count, coefficients, A and B are no faults of a
 * final frame.
 */
static void send_faults(void)
{
    for (unsigned set = 0; set < 1024; set++) {
        for (uint32_t kind = 0; kind < 2; kind++) {
            for (unsigned turn = 0; turn < 4; turn++) {
                struct sending in;
                make_faulty(&in, set, kind, turn);
                uint32_t got = try_send(&in, &sends).answer;
                bool training = kind == SDSL_TRAINING;
                bool bad_number = (set & STATE) != 0 || (training && (set & (NUMBER | A | B)) != 0);
                uint32_t due = set & (COEFFICIENT_ROOM | VENDOR_ROOM | FRAME_ROOM) ? 1
                               : set & (KIND | END)                              ? 2
                               : training && set & COUNT                         ? 3
                               : bad_number                                      ? 4
                                                                                 : 0;
                struct comparison comparison = {got == due ? NULL : "not the first of the refusals"};
                settle(comparison, &orders, "sent with faults %u, kind %u: library %u, and %u was due", set, kind, got, due);
            }
        }
    }
}

/* ---- Reading ---- */

enum { COEFFICIENTS = 1, VENDOR = 2, LENGTH = 4, SYNC = 8, PAD = 16, CHECK = 32, RESERVED = 64, SETS = 128 };

/* A frame with this set of faults. RESERVED is not one of them: it changes reserved bits and puts the check bits right. */
static void try_faults(unsigned set, uint32_t kind, unsigned turn, size_t reserved_len)
{
    uint8_t frame[SDSL_FRAME_OCTETS + 1];
    make_frame(frame, kind);
    if (set & RESERVED) {
        for (unsigned i = 0; i <= turn; i++) {
            flip_bit(frame, (size_t)between(FIRST_RESERVED, LAST_RESERVED));
        }
        ref_put_check_bits(frame);
    }
    if (set & CHECK) {
        static const int32_t from[] = {4212, 15, FIRST_RESERVED};
        static const int32_t to[] = {FRAME_BITS, FIRST_RESERVED - 1, LAST_RESERVED};
        flip_bit(frame, (size_t)between(from[turn % 3], to[turn % 3]));
    }
    if (set & PAD) {
        flip_bit(frame, (size_t)between(FRAME_BITS + 1, FRAME_BITS_WITH_PAD));
    }
    if (set & SYNC) {
        flip_bit(frame, (size_t)between(1, 14));
    }
    struct lengths len = right_lengths;
    if (set & LENGTH) {
        len.frame = turn % 2 == 0 ? 528 : 530;
    }
    if (set & COEFFICIENTS) {
        len.coefficients = turn % 2 == 0 ? 719 : 721;
    }
    if (set & VENDOR) {
        len.vendor = turn % 2 == 0 ? 15 : 17;
    }
    len.reserved = reserved_len;
    struct answers got = try_read(frame, len, "faults", set);
    bool bad_length = (set & (LENGTH | COEFFICIENTS | VENDOR)) != 0 || reserved_len != 9;
    uint32_t due = bad_length ? 1 : set & SYNC ? 5 : set & PAD ? 6 : set & CHECK ? 7 : 0;
    struct comparison comparison = {got.lib == due && got.ref == due ? NULL : "not the first of the refusals"};
    settle(comparison, &orders, "faults %u, kind %u, fourth room %zu: library %u, reference %u, and %u was due", set, kind, reserved_len,
           got.lib, got.ref, due);
    if (reserved_len == SDSL_RESERVED_OCTETS) {
        try_check(frame, len.frame, "faults", set); /* has no fourth room */
    }
}

/* Every set of faults with a fourth room, for the reserved octets, that is right; reserved_rooms has the others. */
static void read_faults(void)
{
    for (unsigned set = 0; set < SETS; set++) {
        for (uint32_t kind = 0; kind < 2; kind++) {
            for (unsigned turn = 0; turn < 6; turn++) {
                try_faults(set, kind, turn, SDSL_RESERVED_OCTETS);
            }
        }
    }
}

/* Each single bit flipped; where it is one of the message, also with the check bits put right. */
static void damage(uint32_t kind)
{
    uint8_t good[SDSL_FRAME_OCTETS + 1];
    uint8_t frame[SDSL_FRAME_OCTETS];
    make_frame(good, kind);
    try_frame(good, "a good frame", kind);
    for (size_t n = 1; n <= FRAME_BITS_WITH_PAD; n++) {
        memcpy(frame, good, sizeof frame);
        flip_bit(frame, n);
        try_frame(frame, "flipped bit", n);
        if (n >= 15 && n <= 4211 && (n % 4 == 0 || n > 3960)) {
            ref_put_check_bits(frame);
            try_frame(frame, "flipped bit, check bits put right,", n);
        }
    }
    for (size_t i = 0; i < scaled(1000); i++) {
        memcpy(frame, good, sizeof frame);
        size_t n = (size_t)between(1, FRAME_BITS_WITH_PAD);
        flip_bit(frame, n);
        flip_bit(frame, (size_t)between(1, FRAME_BITS_WITH_PAD));
        try_frame(frame, "two bits flipped, one of them", n);
    }
    /* A multiple of the divisor on top changes the frame and leaves the check bits right. */
    for (size_t n = 15; n + 16 <= FRAME_BITS; n += n < 4100 ? 61 : 1) {
        memcpy(frame, good, sizeof frame);
        flip_bit(frame, n);
        flip_bit(frame, n + 4);
        flip_bit(frame, n + 11);
        flip_bit(frame, n + 16);
        try_frame(frame, "the divisor added from bit", n);
    }
}

/* The sync word: all 16,384 of them on frames that are good otherwise. */
static void all_syncs(void)
{
    uint8_t frame[SDSL_FRAME_OCTETS + 1];
    make_frame(frame, SDSL_TRAINING);
    for (size_t word = 0; word < 16384; word++) {
        for (size_t n = 1; n <= 14; n++) {
            if (get_bit(frame, n) != ((word >> (n - 1) & 1) == 1)) {
                flip_bit(frame, n);
            }
        }
        try_check(frame, SDSL_FRAME_OCTETS, "sync word", word);
        if (word % 16 == 15) {
            try_frame(frame, "sync word", word);
        }
    }
}

/* ---- By chance ---- */

static void random_frames(void)
{
    struct sending in;
    uint8_t frame[SDSL_FRAME_OCTETS + 1];
    uint8_t good[SDSL_FRAME_OCTETS + 1];
    for (size_t i = 0; i < scaled(3000); i++) {
        make_sending(&in, (uint32_t)below(2));
        try_send(&in, &sends);
    }
    for (size_t i = 0; i < scaled(1500); i++) {
        make_frame(frame, SDSL_TRAINING);
        try_frame(frame, "training frame", i);
        make_frame(frame, SDSL_FINAL);
        try_frame(frame, "final frame", i);
        /* Noise, then noise that is made good step by step. */
        make_frame(good, (uint32_t)below(2));
        random_octets(frame, SDSL_FRAME_OCTETS);
        try_frame(frame, "noise", i);
        frame[0] = good[0];
        frame[1] = (uint8_t)((good[1] & 63) | (frame[1] & 192));
        try_frame(frame, "noise with sync", i);
        frame[528] &= 7;
        try_frame(frame, "noise with sync and pad", i);
        ref_put_check_bits(frame);
        try_frame(frame, "noise with sync, pad and check bits", i);
    }
}

/* ---- There and back ---- */

/* Sent by one side and descrambled and read by one, the fields and the next state come back: the library is one of the two, or both. */
static void round_trip(void)
{
    for (size_t i = 0; i < scaled(4500); i++) {
        const struct side *sender = &sides[i % 3 == 2];
        const struct side *receiver = &sides[i % 3 == 1];
        struct sending in;
        uint8_t line[SDSL_FRAME_OCTETS];
        make_sending(&in, (uint32_t)below(2));
        random_octets(line, sizeof line);
        struct sdsl_scrambled sent = send_by(sender, &in, line);
        struct comparison comparison = {sent.answer == SDSL_DONE ? NULL : "refused"};
        want_received(&comparison, receiver, &in, sent, line);
        settle(comparison, &round_trips, "end %u state 0x%x kind %u count %u a %u b %u, sent by the %s, read by the %s", in.end, in.state,
               in.kind, in.count, in.a, in.b, sender->name, receiver->name);
    }
}

/* One more frame of a run: sent from `*sender`, received from `*receiver`; both go on to the next state. */
static void go_on(struct comparison *comparison, const struct sending *start, uint32_t *sender, uint32_t *receiver)
{
    struct sending in;
    uint8_t line[SDSL_FRAME_OCTETS] = {0};
    make_sending(&in, (uint32_t)below(2));
    in.end = start->end;
    in.state = *sender;
    if (below(4) == 0) { /* a refused call between: it hands the state back, so the run goes on from there */
        struct sending refused = in;
        refused.kind += 2;
        *sender = try_send(&refused, &sends).state;
        want(comparison, *sender == in.state, "a refused call changed the state");
    }
    uint32_t next = try_send(&in, &sends).state;
    struct sdsl_scrambled sent = send_by(&sides[0], &in, line);
    want(comparison, sent.answer == SDSL_DONE && sent.state == next, "two results for the same call");
    in.state = *receiver;
    *receiver = want_received(comparison, &sides[0], &in, sent, line);
    *sender = sent.state;
}

/* Frames of both kinds one after the other with the state handed on, none to forty of them, from a start and from any state. */
static void frame_runs(void)
{
    for (size_t i = 0; i < scaled(90) + 11; i++) {
        size_t frames = i < 11 ? 4 * i : (size_t)below(12);
        struct sending start;
        make_sending(&start, SDSL_TRAINING);
        uint32_t sender = i % 2 == 0 ? 0 : start.state;
        uint32_t receiver = sender;
        struct comparison comparison = {NULL};
        for (size_t k = 0; k < frames; k++) {
            go_on(&comparison, &start, &sender, &receiver);
        }
        want(&comparison, sender == receiver, "the two ends of the line differ after the run");
        settle(comparison, &runs, "end %u, %zu frames: sender 0x%x, receiver 0x%x", start.end, frames, sender, receiver);
    }
}

/*
 * A frame as it stands on the line, checked and read without descrambling it: 7, for chosen frames and for frames by chance, unless the
 * check bits happen to be right (1 in 65,536), which the driver finds out for itself.
 */
static void try_on_line(const struct sending *in, bool chosen)
{
    uint8_t line[SDSL_FRAME_OCTETS] = {0};
    struct sdsl_scrambled sent = send_by(&sides[0], in, line);
    uint32_t due = has_right_check_bits(line) ? SDSL_DONE : SDSL_BAD_CHECK;
    for (size_t i = 0; i < ITEMS(sides); i++) {
        uint32_t checked = sides[i].check(line, sizeof line);
        struct comparison comparison = {NULL};
        want(&comparison, sent.answer == SDSL_DONE, "refused");
        want(&comparison, checked == due && (!chosen || checked == SDSL_BAD_CHECK), "what is on the line is taken for a frame");
        settle(comparison, &on_line, "end %u state 0x%x kind %u, checked by the %s: %u", in->end, in->state, in->kind, sides[i].name,
               checked);
    }
    try_frame(line, "as it stands on the line", in->kind);
}

static void not_descrambled(void)
{
    struct sending in;
    for (uint32_t end = 0; end < 2; end++) {
        for (uint32_t kind = 0; kind < 2; kind++) {
            for (unsigned which = 0; which < 6; which++) {
                make_sending(&in, kind);
                memset(in.coefficients, which < 3 ? 0 : 255, sizeof in.coefficients);
                memset(in.vendor, which % 3 == 0 ? 0 : 255, sizeof in.vendor);
                in.end = end;
                in.state = which % 3 == 2 ? LAST_STATE : which % 3;
                in.count = which < 3 ? 128 : 180;
                in.a = 1 + which;
                in.b = 2;
                in.vendor[0] = 1; /* with nothing set at all a frame from state 0 is its own scrambled form: see the examples */
                try_on_line(&in, true);
            }
        }
    }
    for (size_t i = 0; i < scaled(500); i++) {
        make_sending(&in, (uint32_t)below(2));
        try_on_line(&in, false);
    }
}

/* ---- Reserved bits, on either side ---- */

/*
 * Whether a frame is answered so, with this kind (and with no other number where it is refused), and the fourth room, which held
 * `before`, holds `after`.
 */
static bool reads_as(const struct side *side, const uint8_t *frame, uint32_t answer, uint32_t kind, const uint8_t *before,
                     const uint8_t *after)
{
    uint8_t coefficients[SDSL_COEFFICIENT_OCTETS];
    uint8_t vendor[SDSL_VENDOR_OCTETS];
    uint8_t reserved[SDSL_RESERVED_OCTETS];
    memcpy(reserved, before, sizeof reserved);
    struct sdsl_frame_fields fields = side->read(frame, SDSL_FRAME_OCTETS, coefficients, sizeof coefficients, vendor, sizeof vendor,
                                                 reserved, sizeof reserved);
    return fields.answer == answer && fields.kind == kind && (answer == SDSL_DONE || (fields.a == 0 && fields.b == 0)) &&
           memcmp(reserved, after, sizeof reserved) == 0;
}

/*
 * Reads a frame with the reserved bits `nine` into a room of ones, of zeros, and of the inverse of those bits (try_frame has other
 * rooms). A training frame that is answered with 0 leaves `nine` there; any other call leaves what was there.
 */
static void try_reserved(const uint8_t *frame, uint32_t answer, uint32_t kind, const uint8_t *nine, const char *what, size_t number)
{
    for (size_t i = 0; i < ITEMS(sides); i++) {
        uint32_t checked = sides[i].check(frame, SDSL_FRAME_OCTETS);
        for (unsigned room = 0; room < 3; room++) {
            uint8_t before[SDSL_RESERVED_OCTETS];
            for (size_t k = 0; k < sizeof before; k++) {
                before[k] = (uint8_t)(room == 0 ? 255 : room == 1 ? 0 : 255 - nine[k]);
            }
            bool gives = answer == SDSL_DONE && kind == SDSL_TRAINING;
            struct comparison comparison = {NULL};
            want(&comparison, reads_as(&sides[i], frame, answer, answer == SDSL_DONE ? kind : 0, before, gives ? nine : before),
                 "another answer, or other octets");
            want(&comparison, checked == answer, "checking answers otherwise");
            settle(comparison, &given, "%s %zu by the %s, kind %u, room %u: %u was due", what, number, sides[i].name, kind, room, answer);
        }
    }
    try_frame(frame, what, number);
}

/* A good frame with these reserved bits; then with one of them wrong; then with the check bits put right for it. */
static void try_pattern(uint32_t kind, const uint8_t *nine, const char *what, size_t number)
{
    uint8_t frame[SDSL_FRAME_OCTETS + 1];
    uint8_t changed[SDSL_RESERVED_OCTETS];
    make_frame(frame, kind);
    put_reserved(frame, nine);
    try_reserved(frame, SDSL_DONE, kind, nine, what, number);
    memcpy(changed, nine, sizeof changed);
    size_t n = (size_t)between(1, 67);
    flip_bit(frame, 4144 + n);
    flip_bit(changed, n);
    try_reserved(frame, SDSL_BAD_CHECK, kind, changed, "a reserved bit wrong,", n);
    ref_put_check_bits(frame);
    try_reserved(frame, SDSL_DONE, kind, changed, "a reserved bit changed,", n);
}

/* The nine octets: each reserved bit alone, all but one, none, all, any; in frames of either kind, and damaged. */
static void reserved_bits(void)
{
    /* A card of another make sets bits 4145 and 4146; all else is zero, and the check bits make the octets D0 8A. */
    uint8_t frame[SDSL_FRAME_OCTETS + 1] = {0x9f, 0x35};
    uint8_t nine[SDSL_RESERVED_OCTETS] = {0x03};
    frame[518] = 0x03;
    frame[526] = 0xd0;
    frame[527] = 0x8a;
    try_reserved(frame, SDSL_DONE, SDSL_TRAINING, nine, "two reserved bits,", 2);
    for (uint32_t kind = 0; kind < 2; kind++) {
        memset(nine, 0, sizeof nine);
        try_pattern(kind, nine, "reserved bits,", 0);
        memset(nine, 255, sizeof nine);
        nine[8] = 7;
        try_pattern(kind, nine, "reserved bits,", 67);
        for (size_t n = 1; n <= 67; n++) {
            memset(nine, 0, sizeof nine);
            flip_bit(nine, n);
            try_pattern(kind, nine, "reserved bit alone,", n);
            memset(nine, 255, sizeof nine);
            nine[8] = 7;
            flip_bit(nine, n);
            try_pattern(kind, nine, "all reserved bits but", n);
            /* The same bit wrong in a frame with none, all or any of the others. */
            for (unsigned turn = 0; turn < 4; turn++) {
                any_reserved(nine);
                make_frame(frame, kind);
                put_reserved(frame, nine);
                flip_bit(frame, 4144 + n);
                flip_bit(nine, n);
                try_reserved(frame, SDSL_BAD_CHECK, kind, nine, "wrong reserved bit", n);
                ref_put_check_bits(frame);
                try_reserved(frame, SDSL_DONE, kind, nine, "changed reserved bit", n);
            }
        }
        for (size_t i = 0; i < scaled(200); i++) {
            any_reserved(nine);
            try_pattern(kind, nine, "any reserved bits,", i);
        }
    }
}

/* A fourth room said to be longer than it is, by a length with 9 in its low octets. The call is refused, so nothing is touched. */
static void try_huge_room(uint32_t kind, size_t reserved_len)
{
    uint8_t octets[SDSL_FRAME_OCTETS + 1];
    make_frame(octets, kind);
    struct pair frame = lend(octets, SDSL_FRAME_OCTETS);
    struct pair coefficients = lend_junk(SDSL_COEFFICIENT_OCTETS);
    struct pair vendor = lend_junk(SDSL_VENDOR_OCTETS);
    struct pair reserved = lend_ones(SDSL_RESERVED_OCTETS);
    struct sdsl_frame_fields lib = sdsl_frame_read(frame.lib, frame.len, coefficients.lib, coefficients.len, vendor.lib, vendor.len,
                                                   reserved.lib, reserved_len);
    struct sdsl_frame_fields ref = ref_frame_read(frame.ref, frame.len, coefficients.ref, coefficients.len, vendor.ref, vendor.len,
                                                  reserved.ref, reserved_len);
    struct comparison comparison = {NULL};
    want(&comparison, lib.answer == SDSL_BAD_LENGTH && ref.answer == SDSL_BAD_LENGTH, "answers differ");
    want(&comparison, lib.kind == 0 && lib.a == 0 && lib.b == 0, "numbers with a refusal");
    want_kept(&comparison, &frame, "the frame changed");
    want_kept(&comparison, &coefficients, "a refused call wrote lent memory");
    want_kept(&comparison, &vendor, "a refused call wrote lent memory");
    want_kept(&comparison, &reserved, "a refused call wrote lent memory");
    settle(comparison, &reads, "kind %u, a fourth room of %zu: library %u, reference %u", kind, reserved_len, lib.answer, ref.answer);
    give_back(&frame);
    give_back(&coefficients);
    give_back(&vendor);
    give_back(&reserved);
}

/* The fourth room: its lengths together with every set of the other faults, so that the order of the checks shows; then many more. */
static void reserved_rooms(void)
{
    static const size_t rooms[] = {0, 0, 8, 9, 10, 16};
    for (size_t r = 0; r < ITEMS(rooms); r++) {
        for (unsigned set = 0; set < SETS; set++) {
            for (uint32_t kind = 0; kind < 2; kind++) {
                for (unsigned turn = 0; turn < 3; turn++) {
                    try_faults(set, kind, turn, rooms[r]);
                }
            }
        }
    }
    for (uint32_t kind = 0; kind < 2; kind++) {
        for (size_t length = 0; length <= 800; length++) {
            try_faults(0, kind, 0, length);
        }
        for (size_t power = 8; power < 8 * sizeof(size_t); power++) {
            try_huge_room(kind, ((size_t)1 << power) + 9);
            try_huge_room(kind, 0 - ((size_t)1 << power) + 9);
        }
    }
}

/* What stands in a room before a frame is sent into it: ones, a frame, or anything. */
static void fill_room(uint8_t *room, unsigned how, const uint8_t *frame)
{
    random_octets(room, SDSL_FRAME_OCTETS);
    if (how == 0) {
        memset(room, 255, SDSL_FRAME_OCTETS);
    } else if (how == 1) {
        memcpy(room, frame, SDSL_FRAME_OCTETS);
    }
}

/*
 * Reads a training frame, sends it again with a count of 180 and descrambles it: over ones, over the frame that was read, and over
 * anything. Where the nine octets are all zero it comes out the same. Where they are not it differs: it has no reserved bit, and the
 * check bits for that.
 */
static void try_again(const struct side *side, const uint8_t *frame, const uint8_t *nine, unsigned room, const char *what, size_t number)
{
    static const uint8_t none[SDSL_RESERVED_OCTETS] = {0};
    struct sending in;
    uint8_t reserved[SDSL_RESERVED_OCTETS];
    uint8_t line[SDSL_FRAME_OCTETS];
    uint8_t again[SDSL_FRAME_OCTETS];
    make_sending(&in, SDSL_TRAINING);
    random_octets(in.coefficients, sizeof in.coefficients);
    random_octets(reserved, sizeof reserved);
    random_octets(again, sizeof again);
    fill_room(line, room, frame);
    struct sdsl_frame_fields fields = side->read(frame, SDSL_FRAME_OCTETS, in.coefficients, SDSL_COEFFICIENT_OCTETS,
                                                 in.vendor, SDSL_VENDOR_OCTETS, reserved, sizeof reserved);
    in.kind = fields.kind;
    in.count = 180;
    in.a = fields.a;
    in.b = fields.b;
    struct sdsl_scrambled sent = send_by(side, &in, line);
    struct sdsl_scrambled heard = side->descramble(in.end, in.state, line, sizeof line, again, sizeof again);
    bool zero = memcmp(reserved, none, sizeof reserved) == 0;
    bool same = memcmp(again, frame, sizeof again) == 0;
    struct comparison comparison = {NULL};
    want(&comparison, fields.answer == SDSL_DONE && sent.answer == SDSL_DONE && heard.answer == SDSL_DONE, "refused");
    want(&comparison, fields.kind == SDSL_TRAINING, "another kind");
    want(&comparison, memcmp(reserved, nine, sizeof reserved) == 0, "other reserved octets");
    want(&comparison, zero == same, zero ? "another frame" : "the same frame");
    uint8_t due[SDSL_FRAME_OCTETS];
    memcpy(due, frame, sizeof due);
    put_reserved(due, none);
    want(&comparison, memcmp(again, due, sizeof again) == 0, "not the frame with no reserved bit");
    settle(comparison, zero ? &same_again : &other_again, "%s %zu by the %s, room %u: read %u, sent %u, descrambled %u", what, number,
           side->name, room, fields.answer, sent.answer, heard.answer);
}

/* A frame with these reserved bits, by either side, into each room. */
static void try_agains(const uint8_t *nine, const char *what, size_t number)
{
    uint8_t frame[SDSL_FRAME_OCTETS + 1];
    make_frame(frame, SDSL_TRAINING);
    put_reserved(frame, nine);
    for (size_t i = 0; i < ITEMS(sides); i++) {
        for (unsigned room = 0; room < 3; room++) {
            try_again(&sides[i], frame, nine, room, what, number);
        }
    }
}

static void sent_again(void)
{
    uint8_t nine[SDSL_RESERVED_OCTETS];
    for (size_t n = 1; n <= 67; n++) {
        memset(nine, 0, sizeof nine);
        try_agains(nine, "no reserved bit,", n);
        flip_bit(nine, n);
        try_agains(nine, "reserved bit alone,", n);
        memset(nine, 255, sizeof nine);
        nine[8] = 7;
        try_agains(nine, "all reserved bits,", n);
        flip_bit(nine, n);
        try_agains(nine, "all reserved bits but", n);
    }
    for (size_t i = 0; i < scaled(400); i++) {
        any_reserved(nine);
        try_agains(nine, "any reserved bits,", i);
    }
}

/*
 * Over ones, over another frame, over the frame itself before it is scrambled and over anything: what is sent is what is sent over
 * zeros, the pad is zero, and descrambled its reserved bits are.
 */
static void sent_over(void)
{
    for (size_t i = 0; i < ITEMS(sides); i++) {
        for (size_t turn = 0; turn < scaled(600) + 4; turn++) {
            struct sending in;
            uint8_t over_zeros[SDSL_FRAME_OCTETS] = {0};
            uint8_t over[SDSL_FRAME_OCTETS];
            uint8_t old[SDSL_FRAME_OCTETS + 1];
            uint8_t plain[SDSL_FRAME_OCTETS] = {0};
            make_sending(&in, (uint32_t)(turn % 4 < 2 ? turn % 2 : below(2)));
            make_frame(old, (uint32_t)below(2));
            if (turn % 8 == 2) {
                memcpy(old, due_of(&in).plain, SDSL_FRAME_OCTETS);
            }
            fill_room(over, turn % 4 < 2 ? 0 : (unsigned)(turn % 4 - 1), old);
            struct sdsl_scrambled first = send_by(&sides[i], &in, over_zeros);
            struct sdsl_scrambled second = send_by(&sides[i], &in, over);
            sides[i].descramble(in.end, in.state, over, sizeof over, plain, sizeof plain);
            struct comparison comparison = {NULL};
            want(&comparison, first.answer == SDSL_DONE && second.answer == SDSL_DONE, "refused");
            want(&comparison, first.state == second.state, "the state depends on the room");
            want(&comparison, over[528] < 8, "a pad bit is set");
            for (size_t n = FIRST_RESERVED; n <= LAST_RESERVED; n++) {
                want(&comparison, !get_bit(plain, n), "a reserved bit is set");
            }
            want(&comparison, memcmp(over, over_zeros, SDSL_FRAME_OCTETS) == 0, "the room shows through");
            settle(comparison, &overs, "kind %u, turn %zu, by the %s: %u", in.kind, turn, sides[i].name, second.answer);
        }
    }
}

/* In words, 8 is a number that is not an answer. (That no call answers 8 is part of each comparison.) */
static void eight_unused(void)
{
    static const char words[] = "not an answer of this library";
    for (uint32_t answer = 0; answer <= 16; answer++) {
        bool used = answer <= 12 && answer != NEVER;
        struct comparison comparison = {NULL};
        want(&comparison, (strcmp(sdsl_answer_text(answer), words) == 0) != used, "other words");
        settle(comparison, &texts, "%u: %s", answer, sdsl_answer_text(answer));
    }
}

/* ---- The paper's examples, on either side ---- */

static void example(bool good, int number, const struct side *side)
{
    struct comparison comparison = {good ? NULL : "not as in the paper"};
    settle(comparison, &examples, "example %d by the %s", number, side->name);
}

/* Nothing is set but what a case sets: 128 coefficients of zero, A, B and vendor data zero. */
static struct sending nothing(uint32_t end, uint32_t state, uint32_t kind)
{
    struct sending in;
    memset(&in, 0, sizeof in);
    in.end = end;
    in.state = state;
    in.kind = kind;
    in.count = 128;
    return in;
}

/* Sends and descrambles; true if both went, the sync bits stand on the line as they are, and the two states are equal. */
static bool there_and_back(const struct side *side, const struct sending *in, uint8_t *frame)
{
    uint8_t line[SDSL_FRAME_OCTETS] = {0};
    struct sdsl_scrambled sent = send_by(side, in, line);
    struct sdsl_scrambled heard = side->descramble(in->end, in->state, line, sizeof line, frame, SDSL_FRAME_OCTETS);
    bool straight = line[0] == frame[0] && (line[1] & 63) == (frame[1] & 63);
    return sent.answer == 0 && heard.answer == 0 && straight && sent.state == heard.state;
}

/* Whether `place` is the one bit set among bits `first` to `last`. */
static bool only(const uint8_t *frame, size_t place, size_t first, size_t last)
{
    for (size_t n = first; n <= last; n++) {
        if (get_bit(frame, n) != (n == place)) {
            return false;
        }
    }
    return true;
}

/* Examples 1 to 3, descrambled. */
static void field_examples(const struct side *side, uint32_t end, uint32_t state)
{
    uint8_t frame[SDSL_FRAME_OCTETS];
    struct sending in = nothing(end, state, SDSL_TRAINING);
    bool good = there_and_back(side, &in, frame);
    example(good && frame[0] == 0x9f && frame[1] == 0x35, 1, side);
    in = nothing(end, state, SDSL_FINAL);
    good = there_and_back(side, &in, frame);
    example(good && frame[0] == 0x6b && frame[1] == 0x3e, 1, side);

    in = nothing(end, state, SDSL_TRAINING);
    set_number(in.coefficients, 0, 1);
    good = there_and_back(side, &in, frame);
    example(good && only(frame, 15, 15, 4211), 2, side);
    set_number(in.coefficients, 0, -2097152);
    good = there_and_back(side, &in, frame);
    example(good && only(frame, 36, 15, 4211), 2, side);

    in = nothing(end, state, SDSL_TRAINING);
    in.a = 1;
    good = there_and_back(side, &in, frame);
    example(good && only(frame, 3975, 15, 4211), 3, side);
    in.a = 0;
    in.b = 1048576;
    good = there_and_back(side, &in, frame);
    example(good && only(frame, 4016, 15, 4211), 3, side);
}

/*
 * Examples 4 and 5 are messages that no card sends: one reserved bit. The right check bits are accepted in a frame of either kind, and
 * nothing else is. A training frame gives nine octets with that bit, a final frame leaves the ones that stood there.
 */
static void check_examples(const struct side *side, int number, uint32_t kind)
{
    static const size_t example_4[] = {4211, 4215, 4222, 4227};
    static const size_t example_5[] = {4210, 4214, 4221, 4226};
    static const uint8_t octets_4[SDSL_RESERVED_OCTETS] = {0, 0, 0, 0, 0, 0, 0, 0, 4};
    static const uint8_t octets_5[SDSL_RESERVED_OCTETS] = {0, 0, 0, 0, 0, 0, 0, 0, 2};
    static const uint8_t ones[SDSL_RESERVED_OCTETS] = {255, 255, 255, 255, 255, 255, 255, 255, 255};
    uint8_t frame[SDSL_FRAME_OCTETS];
    struct sending in = nothing(SDSL_LTU, 1, kind);
    bool good = there_and_back(side, &in, frame);
    for (size_t i = 0; i < 4; i++) {
        flip_bit(frame, number == 4 ? example_4[i] : example_5[i]);
    }
    example(good && side->check(frame, sizeof frame) == SDSL_DONE, number, side);
    const uint8_t *octets = kind == SDSL_FINAL ? ones : number == 4 ? octets_4 : octets_5;
    example(good && reads_as(side, frame, SDSL_DONE, kind, ones, octets), number, side);
    for (size_t n = 4212; n <= 4227; n++) {
        flip_bit(frame, n);
        example(side->check(frame, sizeof frame) == SDSL_BAD_CHECK, number, side);
        example(reads_as(side, frame, SDSL_BAD_CHECK, 0, ones, ones), number, side);
        flip_bit(frame, n);
    }
}

/* Examples 6 to 8 on the line: coefficients of -1 put ones behind the sync bits, and these bits go out. */
static void ones_example(const struct side *side, int number, uint32_t end, uint32_t state, const char *expected)
{
    uint8_t line[SDSL_FRAME_OCTETS] = {0};
    struct sending in = nothing(end, state, SDSL_TRAINING);
    memset(in.coefficients, 255, SDSL_COEFFICIENT_OCTETS);
    bool good = send_by(side, &in, line).answer == SDSL_DONE;
    for (size_t n = 0; n < strlen(expected); n++) {
        good = good && get_bit(line, 15 + n) == (expected[n] == '1');
    }
    example(good, number, side);
}

/*
 * Whole frames as they go out: their first and last twelve octets and the next state, worked out apart from this program. Where nothing
 * is set and the state is 0 the scrambled frame is the frame itself.
 */
static const struct line_example {
    uint32_t end;
    uint32_t state;
    uint32_t kind;
    int32_t coefficient; /* C(1) */
    uint8_t vendor; /* the last octet of it */
    uint32_t next;
    uint8_t first[12];
    uint8_t last[12];
} line_examples[] = {
    {0, 0, 1, 0, 0x80, 0x165db3, {0x6b, 0x3e}, {0x80, 0x10, 0x42, 0x48, 0x21, 0x85, 0x34, 0x56, 0x48, 0xd3, 0x6d, 0x06}},
    {1, 0, 1, 0, 0x80, 0x0861ff, {0x6b, 0x3e}, {0x80, 0x00, 0x00, 0x42, 0x00, 0x08, 0x20, 0x20, 0x84, 0x30, 0xfc, 0x07}},
    {0, 0, 0, 1, 0, 0x70b071, {0x9f, 0x75, 0x08, 0x21, 0xa4, 0x90, 0x42, 0x1a, 0x2b, 0xa4, 0xb9, 0x42},
     {0x67, 0x1b, 0x0f, 0xf2, 0xf3, 0x39, 0x3e, 0x3e, 0x7b, 0x68, 0x70, 0x04}},
    {1, 0, 0, 1, 0, 0x72b386, {0x9f, 0x75, 0x00, 0x00, 0x21, 0x00, 0x04, 0x10, 0x10, 0x42, 0x48, 0x00},
     {0x02, 0x76, 0x5e, 0xd9, 0x42, 0xca, 0x67, 0x08, 0x7a, 0x6a, 0x0e, 0x03}},
    {0, 1, 1, 0, 0, 0x608bc5, {0x6b, 0x3e, 0x84, 0x10, 0x52, 0x48, 0x21, 0x8d, 0x15, 0xd2, 0x5c, 0x21},
     {0xb3, 0x8d, 0x07, 0xf9, 0xf9, 0x1c, 0x1f, 0x9f, 0x3d, 0x88, 0x1e, 0x05}},
    {1, 1, 1, 0, 0, 0x648372, {0x6b, 0x3e, 0x00, 0x80, 0x10, 0x00, 0x02, 0x08, 0x08, 0x21, 0x24, 0x00},
     {0x01, 0x3b, 0xaf, 0x6c, 0x21, 0xe5, 0x33, 0x04, 0x3d, 0x09, 0x76, 0x02}},
    {0, 0, 0, 0, 0, 0, {0x9f, 0x35}, {0}},
    {1, 0, 1, 0, 0, 0, {0x6b, 0x3e}, {0}},
};

static void on_line_examples(const struct side *side)
{
    for (size_t i = 0; i < ITEMS(line_examples); i++) {
        const struct line_example *x = &line_examples[i];
        uint8_t line[SDSL_FRAME_OCTETS] = {0};
        struct sending in = nothing(x->end, x->state, x->kind);
        set_number(in.coefficients, 0, x->coefficient);
        in.vendor[15] = x->vendor;
        struct sdsl_scrambled sent = send_by(side, &in, line);
        struct comparison comparison = {NULL};
        want(&comparison, sent.answer == SDSL_DONE && sent.state == x->next, "refused, or another state");
        want(&comparison, memcmp(line, x->first, 12) == 0 && memcmp(line + 517, x->last, 12) == 0, "other octets");
        uint32_t due = x->state == 0 && x->coefficient == 0 && x->vendor == 0 ? SDSL_DONE : SDSL_BAD_CHECK;
        want(&comparison, side->check(line, sizeof line) == due, "another answer to what is on the line");
        settle(comparison, &examples, "frame %zu on the line, by the %s", i, side->name);
    }
}

static void paper_examples(const struct side *side)
{
    static const uint32_t from[] = {0, 1, 4194304, LAST_STATE};
    for (size_t i = 0; i < ITEMS(from); i++) {
        field_examples(side, SDSL_LTU, from[i]);
        field_examples(side, SDSL_NTU, from[i]);
    }
    for (int number = 4; number <= 5; number++) {
        check_examples(side, number, SDSL_TRAINING);
        check_examples(side, number, SDSL_FINAL);
    }
    ones_example(side, 6, SDSL_LTU, 0, "1111100000111110000011100");
    ones_example(side, 7, SDSL_NTU, 0, "111111111111111111000001");
    ones_example(side, 8, SDSL_LTU, LAST_STATE, "1");
    ones_example(side, 8, SDSL_NTU, LAST_STATE, "1");
    on_line_examples(side);
}

void second_frame(void)
{
    for (size_t i = 0; i < ITEMS(sides); i++) {
        paper_examples(&sides[i]);
    }
    send_kinds_and_counts();
    send_numbers();
    send_single_bits();
    all_lengths();
    send_odd_lengths();
    send_faults();
    read_faults();
    damage(SDSL_TRAINING);
    damage(SDSL_FINAL);
    all_syncs();
    random_frames();
    round_trip();
    frame_runs();
    not_descrambled();
    reserved_bits();
    reserved_rooms();
    sent_again();
    sent_over();
    eight_unused();
    const struct tally tallies[] = {sends.sends, sends.dues, reads, checks, orders, round_trips, runs, on_line, same_again, other_again,
                                    overs, given, texts, examples};
    print_group("frame", tallies, ITEMS(tallies));
}

#endif
