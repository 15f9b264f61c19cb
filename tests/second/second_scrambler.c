/*
 * second_scrambler.c: the group `scrambler`: its start, a bit and a run, there and back; a whole frame there, by sdsl_frame_send, from
 * every kind of state, and back.
 */
#include "harness.h"

#ifdef SECOND_SCRAMBLER

#include "reference.h"
#include "sending.h"

#include <string.h>

static struct tally starts = {"sdsl_scrambler_start", 0, 0};
static struct tally bit_scrambles = {"sdsl_scramble_bit", 0, 0};
static struct tally bit_descrambles = {"sdsl_descramble_bit", 0, 0};
static struct tally scrambles = {"sdsl_scramble", 0, 0};
static struct tally descrambles = {"sdsl_descramble", 0, 0};
static struct send_tallies sends = {{"sdsl_frame_send", 0, 0}, {"sent as due", 0, 0}};
static struct tally by_runs = {"as a run of bits", 0, 0};
static struct tally dues = {"answers that are due", 0, 0};
static struct tally frame_descrambles = {"sdsl_descramble_frame", 0, 0};
static struct tally round_trips = {"there and back", 0, 0};
static struct tally examples = {"examples 6 to 8", 0, 0};

typedef struct sdsl_scrambled_bit bit_step(uint32_t end, uint32_t state, uint32_t bit);
typedef struct sdsl_scrambled octets_run(uint32_t end, uint32_t state, const uint8_t *in, size_t in_len, size_t bits,
                                         uint8_t *out, size_t out_len);

/* The two directions, each with both sides' functions. */
static const struct direction {
    bit_step *lib_bit;
    bit_step *ref_bit;
    struct tally *bit_tally;
    octets_run *lib;
    octets_run *ref;
    struct tally *tally;
} directions[2] = {
    {sdsl_scramble_bit, ref_scramble_bit, &bit_scrambles, sdsl_scramble, ref_scramble, &scrambles},
    {sdsl_descramble_bit, ref_descramble_bit, &bit_descrambles, sdsl_descramble, ref_descramble, &descrambles},
};

/* ---- One comparison each ---- */

/* What both kinds of call have in common; `in` and `out` are the lent pair. */
static struct comparison compare(struct sdsl_scrambled lib, struct sdsl_scrambled ref, uint32_t state,
                                 const struct pair *in, const struct pair *out)
{
    struct comparison comparison = {NULL};
    want(&comparison, lib.answer == ref.answer, "answers differ");
    want(&comparison, lib.state == ref.state, "states differ");
    want(&comparison, lib.answer == 0 || lib.state == state, "a refused call changed the state");
    want_kept(&comparison, in, "the input changed");
    want_written(&comparison, out, lib.answer, "outputs differ");
    return comparison;
}

static void try_run(const struct direction *direction, uint32_t end, uint32_t state, const uint8_t *octets, size_t in_len, size_t bits,
                    size_t out_len)
{
    struct pair in = lend(octets, in_len);
    struct pair out = lend_junk(out_len);
    struct sdsl_scrambled lib = direction->lib(end, state, in.lib, in.len, bits, out.lib, out.len);
    struct sdsl_scrambled ref = direction->ref(end, state, in.ref, in.len, bits, out.ref, out.len);
    settle(compare(lib, ref, state, &in, &out), direction->tally,
           "end %u state 0x%x lengths %zu %zu bits %zu: library %u state 0x%x, reference %u state 0x%x", end, state, in_len, out_len, bits,
           lib.answer, lib.state, ref.answer, ref.state);
    give_back(&in);
    give_back(&out);
}

/* The answer that is due to a whole frame back; all its octets are there, whatever the lengths say. */
static uint32_t answer_due(uint32_t end, uint32_t state, const uint8_t *octets, size_t in_len, size_t out_len)
{
    const uint32_t answers[] = {in_len != 529 || out_len != 529 ? 1 : 0, end > 1 ? 2 : 0, state > LAST_STATE ? 4 : 0,
                                octets[528] > 7 ? 6 : 0};
    for (size_t i = 0; i < ITEMS(answers); i++) {
        if (answers[i] != 0) {
            return answers[i];
        }
    }
    return 0;
}

/* A whole frame back: two comparisons. */
static void try_frame(uint32_t end, uint32_t state, const uint8_t *octets, size_t in_len, size_t out_len)
{
    struct pair in = lend(octets, in_len);
    struct pair out = lend_junk(out_len);
    struct sdsl_scrambled lib = sdsl_descramble_frame(end, state, in.lib, in.len, out.lib, out.len);
    struct sdsl_scrambled ref = ref_descramble_frame(end, state, in.ref, in.len, out.ref, out.len);
    settle(compare(lib, ref, state, &in, &out), &frame_descrambles,
           "end %u state 0x%x lengths %zu %zu: library %u state 0x%x, reference %u state 0x%x", end, state, in_len, out_len, lib.answer,
           lib.state, ref.answer, ref.state);
    uint32_t due = answer_due(end, state, octets, in_len, out_len);
    struct comparison known = {lib.answer == due && ref.answer == due ? NULL : "another answer was due"};
    settle(known, &dues, "a frame back, end %u state 0x%x lengths %zu %zu: library %u, reference %u, and %u was due", end, state, in_len,
           out_len, lib.answer, ref.answer, due);
    give_back(&in);
    give_back(&out);
}

static void try_start(uint32_t end)
{
    struct sdsl_scrambled lib = sdsl_scrambler_start(end);
    struct sdsl_scrambled ref = ref_scrambler_start(end);
    struct comparison comparison = {NULL};
    want(&comparison, lib.answer == ref.answer, "answers differ");
    want(&comparison, lib.state == ref.state, "states differ");
    settle(comparison, &starts, "end %u: library %u state 0x%x, reference %u state 0x%x", end, lib.answer, lib.state, ref.answer,
           ref.state);
}

static void try_bit(const struct direction *direction, uint32_t end, uint32_t state, uint32_t bit)
{
    struct sdsl_scrambled_bit lib = direction->lib_bit(end, state, bit);
    struct sdsl_scrambled_bit ref = direction->ref_bit(end, state, bit);
    struct comparison comparison = {NULL};
    want(&comparison, lib.answer == ref.answer, "answers differ");
    want(&comparison, lib.bit == ref.bit, "bits differ");
    want(&comparison, lib.state == ref.state, "states differ");
    want(&comparison, lib.answer == 0 || (lib.bit == 0 && lib.state == state), "a refused call gave a bit or changed the state");
    settle(comparison, direction->bit_tally, "end %u state 0x%x bit %u: library %u bit %u state 0x%x, reference %u bit %u state 0x%x", end,
           state, bit, lib.answer, lib.bit, lib.state, ref.answer, ref.bit, ref.state);
}

/* ---- Runs ---- */

static const uint32_t ends[] = {0, 1, 2, 3, 5, 18, 255, 256, 257, 65536, 65537, 2147483648, 2147483649, 4294967295};
static const uint32_t states[] = {0, 1, 2, 16, 131072, 4194304, 8388606, 8388607, 8388608, 8388609, 16777216, 2147483648, 4294967295};

/* Every end with every state and every bit, and each single bit of the state. */
static void bit_edges(const struct direction *direction)
{
    static const uint32_t bits[] = {0, 1, 2, 3, 255, 256, 257, 65537, 2147483648, 4294967295};
    for (size_t e = 0; e < ITEMS(ends); e++) {
        try_start(ends[e]);
        for (size_t s = 0; s < ITEMS(states); s++) {
            for (size_t b = 0; b < ITEMS(bits); b++) {
                try_bit(direction, ends[e], states[s], bits[b]);
            }
        }
    }
    for (uint32_t end = 0; end < 2; end++) {
        for (uint32_t bit = 0; bit < 2; bit++) {
            for (uint32_t place = 0; place < 23; place++) {
                try_bit(direction, end, 1u << place, bit);
                try_bit(direction, end, LAST_STATE - (1u << place), bit);
            }
        }
    }
    for (size_t i = 0; i < scaled(20000); i++) {
        try_start(random32());
        try_bit(direction, (uint32_t)below(2), random_state(), (uint32_t)below(2));
    }
}

/* Every end with every state, on a few lengths and counts; 0 bits and no octets among them. */
static void run_edges(const struct direction *direction)
{
    uint8_t octets[16];
    for (size_t e = 0; e < ITEMS(ends); e++) {
        for (size_t s = 0; s < ITEMS(states); s++) {
            static const size_t lengths[] = {0, 0, 1, 3, 4};
            for (size_t l = 0; l < ITEMS(lengths); l++) {
                size_t most = 8 * lengths[l];
                const size_t counts[] = {0, 1, 7, 8, 9, most, most + 1, most + 7, most + 8, SIZE_MAX, SIZE_MAX - 6, SIZE_MAX - 7,
                                         SIZE_MAX / 8, SIZE_MAX / 8 + 1, SIZE_MAX / 8 + 2, SIZE_MAX / 2 + 1};
                for (size_t c = 0; c < ITEMS(counts); c++) {
                    random_octets(octets, sizeof octets);
                    try_run(direction, ends[e], states[s], octets, lengths[l], counts[c], lengths[l]);
                }
            }
        }
    }
}

/* Every length up to twelve with every count up to one octet too many; and unequal lengths. */
static void run_lengths(const struct direction *direction)
{
    uint8_t octets[16];
    for (uint32_t end = 0; end < 2; end++) {
        for (size_t len = 0; len <= 12; len++) {
            for (size_t bits = 0; bits <= 8 * len + 9; bits++) {
                random_octets(octets, sizeof octets);
                try_run(direction, end, random_state(), octets, len, bits, len);
            }
        }
        for (size_t in_len = 0; in_len <= 5; in_len++) {
            for (size_t out_len = 0; out_len <= 5; out_len++) {
                for (size_t bits = 0; bits <= 41; bits++) {
                    random_octets(octets, sizeof octets);
                    try_run(direction, end, random_state(), octets, in_len, bits, out_len);
                }
            }
        }
    }
}

/* Each single bit of the state, and of the input, through all places that it reaches. */
static void run_single_bits(const struct direction *direction)
{
    uint8_t octets[10];
    for (uint32_t end = 0; end < 2; end++) {
        for (size_t bits = 0; bits <= 80; bits++) {
            for (uint32_t place = 0; place < 23; place++) {
                memset(octets, 0, sizeof octets);
                try_run(direction, end, 1u << place, octets, sizeof octets, bits, sizeof octets);
                memset(octets, 255, sizeof octets);
                try_run(direction, end, LAST_STATE - (1u << place), octets, sizeof octets, bits, sizeof octets);
            }
            for (size_t n = 1; n <= 80; n++) {
                memset(octets, 0, sizeof octets);
                flip_bit(octets, n);
                try_run(direction, end, 0, octets, sizeof octets, bits, sizeof octets);
            }
        }
    }
}

/* Every set of faults at once: input and output length, the count, the end, the state. */
static void run_faults(const struct direction *direction)
{
    enum { LENGTHS = 1, COUNT = 2, END = 4, STATE = 8, SETS = 16 };
    uint8_t octets[16];
    for (unsigned set = 0; set < SETS; set++) {
        for (unsigned turn = 0; turn < 16; turn++) {
            size_t in_len = 1 + (size_t)below(12);
            size_t out_len = set & LENGTHS ? (turn % 2 == 0 ? in_len - 1 : in_len + 1) : in_len;
            size_t bits = set & COUNT ? 8 * in_len + 1 + (turn < 8 ? 0 : (size_t)random32()) : (size_t)below(8 * in_len + 1);
            uint32_t end = set & END ? ends[2 + below(ITEMS(ends) - 2)] : (uint32_t)below(2);
            uint32_t state = set & STATE ? (random32() | 8388608) : random_state();
            random_octets(octets, sizeof octets);
            try_run(direction, end, state, octets, in_len, bits, out_len);
        }
    }
}

static void random_runs(const struct direction *direction)
{
    uint8_t octets[700];
    for (size_t i = 0; i < scaled(40000); i++) {
        size_t len = (size_t)below(i % 20 == 0 ? sizeof octets + 1 : 40);
        random_octets(octets, len);
        if (i % 7 == 0) {
            memset(octets, i % 2 == 0 ? 0 : 255, len); /* long runs of one value */
        }
        size_t bits = i % 3 == 0 ? 8 * len : (size_t)below(8 * len + 1);
        try_run(direction, (uint32_t)below(2), random_state(), octets, len, bits, len);
    }
}

/* ---- Whole frames back ---- */

/* Octets of a frame by chance, the pad zero. Sync and check bits are not looked at. */
static void make_frame(uint8_t *frame)
{
    random_octets(frame, SDSL_FRAME_OCTETS + 1);
    frame[SDSL_FRAME_OCTETS - 1] &= 7;
    if (below(2) == 0) {
        frame[0] = 0x9f;
        frame[1] = (uint8_t)(0x35 | (frame[1] & 192));
    }
}

static void frame_edges(void)
{
    uint8_t frame[SDSL_FRAME_OCTETS + 1];
    for (size_t e = 0; e < ITEMS(ends); e++) {
        for (size_t s = 0; s < ITEMS(states); s++) {
            make_frame(frame);
            try_frame(ends[e], states[s], frame, SDSL_FRAME_OCTETS, SDSL_FRAME_OCTETS);
        }
    }
    static const size_t lengths[] = {0, 0, 1, 528, 529, 530};
    for (size_t i = 0; i < ITEMS(lengths); i++) {
        for (size_t o = 0; o < ITEMS(lengths); o++) {
            for (uint32_t end = 0; end < 3; end++) {
                make_frame(frame);
                try_frame(end, random_state(), frame, lengths[i], lengths[o]);
            }
        }
    }
    for (uint32_t end = 0; end < 2; end++) {
        /* Each of the 32 pads. */
        for (uint8_t pad = 0; pad < 32; pad++) {
            make_frame(frame);
            frame[SDSL_FRAME_OCTETS - 1] = (uint8_t)(frame[SDSL_FRAME_OCTETS - 1] | pad << 3);
            try_frame(end, random_state(), frame, SDSL_FRAME_OCTETS, SDSL_FRAME_OCTETS);
        }
        /* Each of the first 64 and last 32 bits alone, from both extreme states. */
        for (size_t n = 1; n <= 4227; n += n == 64 ? 4132 : 1) {
            memset(frame, 0, sizeof frame);
            flip_bit(frame, n);
            try_frame(end, 0, frame, SDSL_FRAME_OCTETS, SDSL_FRAME_OCTETS);
            try_frame(end, LAST_STATE, frame, SDSL_FRAME_OCTETS, SDSL_FRAME_OCTETS);
        }
    }
}

static void frame_faults(void)
{
    enum { IN = 1, OUT = 2, END = 4, STATE = 8, PAD = 16, SETS = 32 };
    uint8_t frame[SDSL_FRAME_OCTETS + 1];
    for (unsigned set = 0; set < SETS; set++) {
        for (unsigned turn = 0; turn < 8; turn++) {
            make_frame(frame);
            if (set & PAD) {
                flip_bit(frame, (size_t)between(4228, 4232));
            }
            size_t in_len = set & IN ? (turn % 2 == 0 ? 528 : 530) : 529;
            size_t out_len = set & OUT ? (turn % 2 == 0 ? 528 : 530) : 529;
            uint32_t end = set & END ? ends[2 + below(ITEMS(ends) - 2)] : (uint32_t)below(2);
            uint32_t state = set & STATE ? (random32() | 8388608) : random_state();
            try_frame(end, state, frame, in_len, out_len);
        }
    }
}

/* Any octets, and frames as they come off the line. */
static void random_frames(void)
{
    uint8_t frame[SDSL_FRAME_OCTETS + 1];
    for (size_t i = 0; i < scaled(1500); i++) {
        make_frame(frame);
        try_frame((uint32_t)below(2), random_state(), frame, SDSL_FRAME_OCTETS, SDSL_FRAME_OCTETS);
        struct sending in;
        make_sending(&in, (uint32_t)below(2));
        try_frame(in.end, in.state, due_of(&in).line, SDSL_FRAME_OCTETS, SDSL_FRAME_OCTETS);
    }
}

/* ---- Whole frames there ---- */

/* Every end with every state and both kinds; states with one bit set, all but one, and a bit too many. */
static void send_states(void)
{
    struct sending in;
    for (uint32_t kind = 0; kind < 2; kind++) {
        for (size_t e = 0; e < ITEMS(ends); e++) {
            for (size_t s = 0; s < ITEMS(states); s++) {
                make_sending(&in, kind);
                in.end = ends[e];
                in.state = states[s];
                try_send(&in, &sends);
            }
        }
        for (uint32_t end = 0; end < 2; end++) {
            for (uint32_t place = 0; place < 32; place++) {
                make_sending(&in, kind);
                in.end = end;
                in.state = 1u << place;
                try_send(&in, &sends);
                in.state = LAST_STATE ^ 1u << place; /* from 23 on: every bit of a state, and one above */
                try_send(&in, &sends);
                in.state = random_state() | 1u << place;
                try_send(&in, &sends);
            }
        }
    }
}

/* Field bit n of a frame set alone, from 15 to 4144. */
static void set_field_bit(struct sending *in, size_t n)
{
    memset(in->coefficients, 0, sizeof in->coefficients);
    memset(in->vendor, 0, sizeof in->vendor);
    in->count = 180;
    in->a = n >= 3975 && n < 3996 ? 1u << (n - 3975) : 0;
    in->b = n >= 3996 && n < 4017 ? 1u << (n - 3996) : 0;
    if (n >= 4017) {
        flip_bit(in->vendor, n - 4016);
    } else if (n < 3975) {
        size_t place = (n - 15) % 22;
        set_number(in->coefficients, (n - 15) / 22, place == 21 ? -2097152 : 1 << place);
    }
}

/* Single field bits from both extreme states: the first 50, the last 50, and every eleventh between; then no bit, and every bit. */
static void send_bits(void)
{
    struct sending in;
    for (uint32_t end = 0; end < 2; end++) {
        for (size_t n = 15; n <= 4144; n += n < 64 || n > 4094 ? 1 : 11) {
            make_sending(&in, n >= 4017 && below(2) == 0 ? SDSL_FINAL : SDSL_TRAINING);
            set_field_bit(&in, n);
            in.end = end;
            in.state = 0;
            try_send(&in, &sends);
            in.state = LAST_STATE;
            try_send(&in, &sends);
        }
        for (unsigned which = 0; which < 8; which++) {
            make_sending(&in, which % 2);
            memset(in.coefficients, which < 4 ? 0 : 255, sizeof in.coefficients);
            memset(in.vendor, which < 4 ? 0 : 255, sizeof in.vendor);
            in.a = which < 4 ? 0 : 2097151;
            in.b = in.a;
            in.end = end;
            in.state = which % 4 < 2 ? 0 : LAST_STATE;
            try_send(&in, &sends);
        }
    }
}

static void send_by_chance(void)
{
    for (size_t i = 0; i < scaled(1500); i++) {
        struct sending in;
        make_sending(&in, (uint32_t)below(2));
        in.state = below(16) == 0 ? random32() : in.state;
        in.end = below(16) == 0 ? random32() : in.end;
        try_send(&in, &sends);
    }
}

#define BEHIND_SYNC (SDSL_FRAME_BITS - SDSL_SYNC_BITS)

/* The bits of a frame behind its sync bits, packed from the first octet on. */
static void take_behind_sync(const uint8_t *frame, uint8_t *packed)
{
    memset(packed, 0, SDSL_FRAME_OCTETS);
    for (size_t n = 1; n <= BEHIND_SYNC; n++) {
        if (get_bit(frame, SDSL_SYNC_BITS + n)) {
            flip_bit(packed, n);
        }
    }
}

/*
 * Frames sent one after the other with the state handed on. Behind their sync bits they are what sdsl_scramble makes of the frames' own
 * bits as one run, in its own states; and what sdsl_scramble_bit makes of them, bit by bit, for the first of a run.
 */
static void sent_as_runs(void)
{
    for (size_t i = 0; i < scaled(150) + 10; i++) {
        struct comparison comparison = {NULL};
        struct sending in;
        make_sending(&in, SDSL_TRAINING);
        uint32_t end = in.end;
        uint32_t by_frame = i % 4 == 0 ? 0 : in.state;
        uint32_t by_run = by_frame;
        uint32_t by_bit = by_frame;
        size_t frames = (size_t)below(6);
        for (size_t k = 0; k < frames; k++) {
            uint8_t line[SDSL_FRAME_OCTETS], due[SDSL_FRAME_OCTETS], plain[SDSL_FRAME_OCTETS], run[SDSL_FRAME_OCTETS] = {0};
            make_sending(&in, (uint32_t)below(2));
            in.end = end;
            in.state = by_frame;
            by_frame = try_send(&in, &sends).state;
            send_by(&sides[0], &in, line);
            take_behind_sync(line, due);
            take_behind_sync(due_of(&in).plain, plain);
            by_run = sdsl_scramble(end, by_run, plain, sizeof plain, BEHIND_SYNC, run, sizeof run).state;
            want(&comparison, memcmp(run, due, sizeof run) == 0, "a run of its bits gives others");
            want(&comparison, by_run == by_frame, "a run of its bits gives another state");
            for (size_t n = 1; n <= BEHIND_SYNC && k == 0; n++) {
                struct sdsl_scrambled_bit step = sdsl_scramble_bit(end, by_bit, get_bit(plain, n));
                want(&comparison, step.bit == get_bit(due, n), "bit by bit it is another frame");
                by_bit = step.state;
            }
            want(&comparison, k > 0 || by_bit == by_frame, "bit by bit it is another state");
        }
        settle(comparison, &by_runs, "end %u, %zu frames", end, frames);
    }
}

/* ---- Round trips ---- */

/* Scrambled by the library in two runs and descrambled by it in one: the input and the sender's next state come back. */
static void round_trip(void)
{
    uint8_t in[100];
    uint8_t sent[100];
    uint8_t back[100];
    for (size_t i = 0; i < scaled(5000); i++) {
        uint32_t end = (uint32_t)below(2);
        uint32_t state = random_state();
        size_t first = (size_t)below(50);
        size_t len = first + (size_t)below(50);
        random_octets(in, sizeof in);
        memset(sent, 0, sizeof sent);
        memset(back, 0, sizeof back);
        struct sdsl_scrambled half = sdsl_scramble(end, state, in, first, 8 * first, sent, first);
        struct sdsl_scrambled whole = sdsl_scramble(end, half.state, in + first, len - first, 8 * (len - first), sent + first, len - first);
        struct sdsl_scrambled received = sdsl_descramble(end, state, sent, len, 8 * len, back, len);
        struct comparison comparison = {NULL};
        want(&comparison, half.answer == 0 && whole.answer == 0 && received.answer == 0, "refused");
        want(&comparison, same_octets(in, back, len), "the input does not come back");
        want(&comparison, whole.state == received.state, "the sender's next state does not come back");
        settle(comparison, &round_trips, "end %u state 0x%x octets %zu and %zu", end, state, first, len - first);
    }
    /* A whole frame by the library: its fields and the sender's next state come back, and its sync bits stand on the line as they are. */
    for (size_t i = 0; i < scaled(500); i++) {
        struct sending fields;
        uint8_t line[SDSL_FRAME_OCTETS] = {0};
        make_sending(&fields, (uint32_t)below(2));
        struct sdsl_scrambled there = send_by(&sides[0], &fields, line);
        struct comparison comparison = {there.answer == 0 ? NULL : "refused"};
        bool training = fields.kind == SDSL_TRAINING;
        want(&comparison, line[0] == (training ? 0x9f : 0x6b) && (line[1] & 63) == (training ? 0x35 : 0x3e), "sync bits were scrambled");
        want_received(&comparison, &sides[0], &fields, there, line);
        settle(comparison, &round_trips, "a frame, end %u state 0x%x", fields.end, fields.state);
    }
    /* Any octets that the receiving side descrambles, put on the line by the reference: the octets and the next state come back. */
    for (size_t i = 0; i < scaled(500); i++) {
        uint8_t frame[SDSL_FRAME_OCTETS + 1];
        uint8_t line[SDSL_FRAME_OCTETS] = {0};
        uint8_t read[SDSL_FRAME_OCTETS] = {0};
        uint32_t end = (uint32_t)below(2);
        uint32_t state = random_state();
        make_frame(frame);
        uint32_t next = ref_put_on_line(end, state, frame, line);
        struct sdsl_scrambled here = sdsl_descramble_frame(end, state, line, sizeof line, read, sizeof read);
        struct comparison comparison = {here.answer == 0 ? NULL : "refused"};
        want(&comparison, memcmp(frame, read, sizeof read) == 0, "the frame does not come back");
        want(&comparison, next == here.state, "the sender's next state does not come back");
        settle(comparison, &round_trips, "any octets, end %u state 0x%x", end, state);
    }
}

/* ---- The paper's examples 6 to 8, on either side ---- */

/* `count` ones from a state give these bits. */
static void example(octets_run *scramble, const char *side, int number, uint32_t end, uint32_t state, const char *expected)
{
    uint8_t in[4] = {255, 255, 255, 255};
    uint8_t out[4] = {0};
    size_t count = strlen(expected);
    struct comparison comparison = {NULL};
    want(&comparison, scramble(end, state, in, sizeof in, count, out, sizeof out).answer == 0, "refused");
    for (size_t n = 1; n <= count; n++) {
        want(&comparison, get_bit(out, n) == (expected[n - 1] == '1'), "not as in the paper");
    }
    settle(comparison, &examples, "example %d by the %s", number, side);
}

static void paper_examples(octets_run *scramble, const char *side)
{
    example(scramble, side, 6, SDSL_LTU, 0, "1111100000111110000011100");
    example(scramble, side, 7, SDSL_NTU, 0, "111111111111111111000001");
    example(scramble, side, 8, SDSL_LTU, LAST_STATE, "1");
    example(scramble, side, 8, SDSL_NTU, LAST_STATE, "1");
}

void second_scrambler(void)
{
    paper_examples(sdsl_scramble, "library");
    paper_examples(ref_scramble, "reference");
    for (size_t i = 0; i < 2; i++) {
        bit_edges(&directions[i]);
        run_edges(&directions[i]);
        run_lengths(&directions[i]);
        run_single_bits(&directions[i]);
        run_faults(&directions[i]);
        random_runs(&directions[i]);
    }
    frame_edges();
    frame_faults();
    random_frames();
    send_states();
    send_bits();
    send_by_chance();
    sent_as_runs();
    round_trip();
    const struct tally tallies[] = {starts, bit_scrambles, bit_descrambles, scrambles, descrambles, frame_descrambles, dues,
                                    sends.sends, sends.dues, by_runs, round_trips, examples};
    print_group("scrambler", tallies, ITEMS(tallies));
}

#endif
