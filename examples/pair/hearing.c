/* hearing.c: what a card makes of the line. */
#include "card.h"

#include <stdio.h>
#include <string.h>

/* How long a receiver adapts before it has converged: a maker's own affair (clause 4.1), here three seconds of signal. */
#define ADAPTING 3000

/* So much silence between activation and data mode is no loss of a symbol or two. */
#define SILENT_SYMBOLS 8

/* Where in a millisecond the host asks the line chip for bits: it takes as many as there are, and the second time there are none. */
static const unsigned asked[] = {31, 31, 32, 65, BLOCK};

static uint32_t last_bit_first(uint32_t word)
{
    uint32_t turned = 0;
    for (unsigned i = 0; i < SDSL_WORD_BITS; i++) {
        turned |= (word >> i & 1) << (SDSL_WORD_BITS - 1 - i);
    }
    return turned;
}

/* Reserved bits that the far card sets: nothing follows from them here, but a host may know what they mean. */
static void tell_reserved(const struct card *card, const uint8_t reserved[SDSL_RESERVED_OCTETS])
{
    char numbers[5 * SDSL_RESERVED_BITS + 1] = "";
    for (size_t i = 0; i < SDSL_RESERVED_BITS; i++) {
        if (bit_at(reserved, i)) {
            snprintf(numbers + strlen(numbers), sizeof numbers - strlen(numbers), " %zu", SDSL_RESERVED_BIT + i);
        }
    }
    if (numbers[0] != '\0') {
        card_tell(card, "in which reserved bits are set:%s", numbers);
    }
}

/* Frames that were not given, by where the one that was given begins. Before the first nobody can tell. */
static void tell_missed(const struct card *card, uint32_t due, uint32_t place)
{
    uint32_t missed = due == 0 ? 0 : (place - due) / SDSL_FRAME_BITS;
    if (missed > 0) {
        card_tell(card, "misses %u frame%s", missed, missed == 1 ? "" : "s");
    }
}

/* A frame of the far card that was given: it reads, and is reported. */
static void hear_frame(struct card *card, const uint8_t frame[SDSL_FRAME_OCTETS])
{
    struct wishes got = {0};
    uint8_t reserved[SDSL_RESERVED_OCTETS];
    struct sdsl_frame_fields fields =
        sdsl_frame_read(frame, SDSL_FRAME_OCTETS, got.coefficients, sizeof got.coefficients, got.vendor, sizeof got.vendor,
                        reserved, sizeof reserved);
    must(fields.answer, "sdsl_frame_read");
    card->hear.given++;
    if (fields.kind == SDSL_FINAL) {
        card->hear.finals++;
        card_tell(card, "hears F_c (%u of 2)", card->hear.finals);
        if (card->hear.finals == 2) {
            card_report(card, SDSL_SECOND_FC_OVER);
        }
    } else if (card->state.phase == SDSL_SR || card->state.phase == SDSL_TC) {
        got.a = card->turned ? last_bit_first(fields.a) : fields.a;
        got.b = card->turned ? last_bit_first(fields.b) : fields.b;
        card->far = got;
        card_tell(card, "reads a frame: A %u, B %u, \"%.*s\"", got.a, got.b, (int)sizeof got.vendor, (const char *)got.vendor);
        tell_reserved(card, reserved);
        card_report(card, card->end == SDSL_LTU ? SDSL_TR_SEEN : SDSL_TC_SEEN);
    }
}

/* Whether the far card's frames are awaited. */
static bool hears_frames(const struct card *card)
{
    uint32_t phase = card->state.phase;
    return (phase == SDSL_SR || phase == SDSL_TR || phase == SDSL_TC) && card->hear.adapted >= ADAPTING;
}

/*
 * A millisecond of frames, lump by lump. The receiver gives each frame in the lump that brings its last bit; one that was spoilt on the
 * line is not given. Returns how many symbols were taken: those behind the last frame that is awaited are not.
 */
static unsigned hear_frames(struct card *card, const int32_t in[BLOCK])
{
    struct receiver *r = &card->hear;
    unsigned taken = 0;
    for (size_t l = 0; l < sizeof asked / sizeof asked[0]; l++) {
        uint8_t lump[BLOCK / 8] = {0}, frame[SDSL_FRAME_OCTETS];
        unsigned bits = asked[l] - taken;
        for (unsigned i = 0; i < bits; i++) {
            lump[i / 8] |= (uint8_t)((in[taken + i] > 0) << (i % 8));
        }
        uint32_t due = r->frames.from; /* frames follow one another, so the next begins here; before the first this is 0 */
        struct sdsl_received got = sdsl_receive(r->frames, r->line, sizeof r->line, lump, sizeof lump, bits, frame, sizeof frame);
        must(got.answer, "sdsl_receive");
        r->frames = got.state;
        taken += bits;
        if (got.given) {
            tell_missed(card, due, got.place);
            hear_frame(card, frame);
            if (!hears_frames(card)) {
                return taken - (got.state.heard - got.state.from);
            }
        }
    }
    return taken;
}

/*
 * The three bits of a code. Viterbi decoding belongs elsewhere; on a clean line it is enough to follow the encoder: X3 and X2 stand in
 * the code, and X1 is the bit with which the far encoder, by the words we asked it to use, gives this code.
 */
static unsigned follow(struct card *card, uint32_t code)
{
    struct receiver *r = &card->hear;
    unsigned known = (code >> 2 & 1) << 1 | (code >> 3 & 1);
    for (unsigned symbol = known; symbol <= SDSL_SYMBOL_MAX; symbol += 4) {
        struct sdsl_encoded tried = sdsl_encode(card->own.a, card->own.b, r->reg, symbol);
        must(tried.answer, "sdsl_encode");
        if (tried.code == code) {
            r->reg = tried.reg;
            return symbol;
        }
    }
    r->misfits++;
    r->reg = sdsl_encode(card->own.a, card->own.b, r->reg, known).reg;
    return known;
}

/* Data mode: the sender's steps the other way round, with the coefficients and words that this card asked for. */
static void hear_data(struct card *card, const int32_t *in, unsigned count)
{
    struct receiver *r = &card->hear;
    uint8_t xs[4 * BLOCK], ys[4 * BLOCK] = {0}, line[3 * BLOCK / 8] = {0}, plain[3 * BLOCK / 8];
    for (unsigned m = 0; m < count; m++) {
        sdsl_put_number(ys, m, in[m]);
    }
    must(sdsl_unprecode(card->own.coefficients, sizeof card->own.coefficients, r->history, sizeof r->history, ys, 4 * count,
                        xs, 4 * count), "sdsl_unprecode");
    for (unsigned m = 0; m < count; m++) {
        int32_t x = sdsl_get_number(xs, m);
        struct sdsl_symbol_code code = sdsl_level_code(x / SDSL_SIXTEENTH);
        r->misfits += code.answer != SDSL_DONE || x % SDSL_SIXTEENTH != 0;
        unsigned symbol = follow(card, code.code);
        for (unsigned k = 0; k < 3; k++) {
            unsigned bit = symbol >> (2 - k) & 1;
            line[(3 * m + k) / 8] |= (uint8_t)(bit << ((3 * m + k) % 8));
        }
    }
    struct sdsl_scrambled run = sdsl_descramble(far_end(card), r->scrambler, line, sizeof line, 3 * count, plain, sizeof plain);
    must(run.answer, "sdsl_descramble");
    r->scrambler = run.state;
    for (unsigned i = 0; i < 3 * count; i++) {
        record_bit(&r->data, bit_at(plain, i));
    }
}

/* Data mode begins with the first symbol after a silence. */
static void hear_rest(struct card *card, const int32_t *in, unsigned count)
{
    struct receiver *r = &card->hear;
    while (count > 0 && !r->begun) {
        r->begun = in[0] != 0 && r->silent >= SILENT_SYMBOLS;
        r->silent = in[0] == 0 ? r->silent + 1 : 0;
        if (!r->begun) {
            in++;
            count--;
        }
    }
    if (count > 0) {
        hear_data(card, in, count);
    }
}

/* C_r, and convergence, by whether there is a signal at all. */
static void hear_signal(struct card *card, bool signal)
{
    struct receiver *r = &card->hear;
    uint32_t phase = card->state.phase;
    if (phase == SDSL_AWAIT && signal) {
        card_report(card, SDSL_CR_BEGINS);
    } else if (phase == SDSL_HEARING && !signal) {
        card_report(card, SDSL_CR_ENDED);
    } else if ((phase == SDSL_QUIET || phase == SDSL_SC || phase == SDSL_SR) && signal && !card->deaf) {
        r->adapted++;
    }
    /* Convergence counts only while the card sends S_c or S_r: the host keeps it and reports it then. */
    if ((phase == SDSL_SC || phase == SDSL_SR) && r->adapted >= ADAPTING && card->state.converged == 0) {
        card_tell(card, "its receiver has converged");
        card_report(card, SDSL_CONVERGED);
    }
}

void card_hear(struct card *card, const int32_t in[BLOCK])
{
    bool signal = false;
    for (unsigned i = 0; i < BLOCK; i++) {
        signal = signal || in[i] != 0;
    }
    hear_signal(card, signal);
    unsigned taken = hears_frames(card) ? hear_frames(card, in) : 0;
    uint32_t phase = card->state.phase;
    if (phase == SDSL_FC || phase == SDSL_SETTLING || phase == SDSL_VALID) {
        hear_rest(card, in + taken, BLOCK - taken);
    }
}
