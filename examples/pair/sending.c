/* sending.c: what a card puts on the line. Activation: clauses 4.1.2 to 4.1.6; data mode: clause 4.3. */
#include "card.h"

#include <string.h>

/*
 * Between the last activation symbol and the first of data mode the line is silent for a moment, so that the far end sees where data
 * begins; clause 4.1.2.7 allows 200 symbols.
 */
#define GAP_SYMBOLS 16

static int32_t activation(unsigned bit)
{
    struct sdsl_level level = sdsl_activation_level(bit);
    must(level.answer, "sdsl_activation_level");
    return level.sixteenths * SDSL_SIXTEENTH;
}

/* C_r, S_c and S_r: logical ones through the scrambler. */
static unsigned send_ones(struct card *card, struct symbol *out, unsigned room)
{
    uint8_t ones[BLOCK / 8], line[BLOCK / 8];
    memset(ones, 0xFF, sizeof ones);
    struct sdsl_scrambled run = sdsl_scramble(card->end, card->send.scrambler, ones, sizeof ones, room, line, sizeof line);
    must(run.answer, "sdsl_scramble");
    card->send.scrambler = run.state;
    for (unsigned i = 0; i < room; i++) {
        out[i].level = activation(bit_at(line, i));
    }
    return room;
}

static void put_bit(uint8_t *octets, size_t place, unsigned bit)
{
    octets[place / 8] = (uint8_t)((octets[place / 8] & ~(1u << place % 8)) | bit << place % 8);
}

/* Sets bits 4145 and 4146 of a frame that is not scrambled, and gives it the check bits that it then needs (clause 4.1.3.6, bit by bit). */
static void set_reserved(uint8_t frame[SDSL_FRAME_OCTETS])
{
    uint32_t left = 0;
    put_bit(frame, SDSL_RESERVED_BIT - 1, 1);
    put_bit(frame, SDSL_RESERVED_BIT, 1);
    for (size_t n = SDSL_COEFFICIENT_BIT; n < SDSL_CHECK_BIT; n++) {
        uint32_t top = left >> 15 ^ bit_at(frame, n - 1);
        left = (left << 1 & 0xFFFF) ^ (top ? 0x1021 : 0);
    }
    for (size_t i = 0; i < 16; i++) {
        put_bit(frame, SDSL_CHECK_BIT - 1 + i, left >> (15 - i) & 1);
    }
}

/*
 * Turns a frame that the library sent, from this state on, into one that a card of another make sends, and gives its next state. The
 * library sends no reserved bit that is set, so this stands in for the other card: what is under the scrambling is changed, and
 * scrambled again bit by bit. Sync goes out as it is and does not clock the state.
 */
static uint32_t send_newer(uint32_t end, uint32_t state, uint8_t line[SDSL_FRAME_OCTETS])
{
    uint8_t frame[SDSL_FRAME_OCTETS];
    must(sdsl_descramble_frame(end, state, line, SDSL_FRAME_OCTETS, frame, sizeof frame).answer, "sdsl_descramble_frame");
    set_reserved(frame);
    for (size_t n = SDSL_COEFFICIENT_BIT; n <= SDSL_FRAME_BITS; n++) {
        struct sdsl_scrambled_bit out = sdsl_scramble_bit(end, state, bit_at(frame, n - 1));
        must(out.answer, "sdsl_scramble_bit");
        put_bit(line, n - 1, out.bit);
        state = out.state;
    }
    return state;
}

/* The next frame: T_c and T_r carry what this card's receiver asks of the far card; F_c carries vendor data only. */
static void next_frame(struct card *card)
{
    struct sender *s = &card->send;
    const struct wishes *own = &card->own;
    uint32_t kind = card->state.phase == SDSL_FC ? SDSL_FINAL : SDSL_TRAINING;
    struct sdsl_scrambled sent =
        sdsl_frame_send(card->end, s->scrambler, kind, own->count, own->coefficients, sizeof own->coefficients, own->a, own->b,
                        own->vendor, sizeof own->vendor, s->frame, sizeof s->frame);
    must(sent.answer, "sdsl_frame_send");
    s->scrambler = card->newer && kind == SDSL_TRAINING ? send_newer(card->end, s->scrambler, s->frame) : sent.state;
    s->bit = 0;
    s->frames++;
    s->finals += kind == SDSL_FINAL;
}

/* Frames one after the other. F_c begins when the T_c frame that is under way has ended; after the second one report 7 is due. */
static unsigned send_frame(struct card *card, struct symbol *out, unsigned room)
{
    struct sender *s = &card->send;
    if (s->bit == SDSL_FRAME_BITS) {
        next_frame(card);
    }
    unsigned n = 0;
    while (n < room && s->bit < SDSL_FRAME_BITS) {
        out[n].level = activation(bit_at(s->frame, s->bit));
        out[n].frame = s->frames;
        out[n].bit = ++s->bit;
        n++;
    }
    if (s->bit == SDSL_FRAME_BITS && s->finals == 2) {
        card_report(card, SDSL_SECOND_FC_OVER);
    }
    return n;
}

/* The next payload bit: a greeting, then chance; idle ones until payload is valid. */
static unsigned next_bit(struct card *card)
{
    static const char greeting[] = "Hello, this is the ";
    struct sender *s = &card->send;
    if (card->state.phase != SDSL_VALID) {
        s->payload_from = s->data.bits + 1;
        return 1;
    }
    size_t place = s->data.bits - s->payload_from, length = 8 * (sizeof greeting - 1);
    if (place < length) {
        return bit_at((const uint8_t *)greeting, place);
    }
    if (place < length + 24) {
        return bit_at((const uint8_t *)card->name, place - length);
    }
    s->chance ^= s->chance << 13;
    s->chance ^= s->chance >> 7;
    s->chance ^= s->chance << 17;
    return (unsigned)(s->chance >> 32 & 1);
}

/* Data mode: bits, scrambler, three bits a symbol, encoder, level, precoder; words and coefficients are those of the far card's frame. */
static unsigned send_data(struct card *card, struct symbol *out, unsigned room)
{
    struct sender *s = &card->send;
    uint8_t plain[3 * BLOCK / 8] = {0}, line[3 * BLOCK / 8], symbols[BLOCK], codes[BLOCK], xs[4 * BLOCK], ys[4 * BLOCK];
    for (unsigned i = 0; i < 3 * room; i++) {
        unsigned bit = next_bit(card);
        record_bit(&s->data, bit);
        plain[i / 8] |= (uint8_t)(bit << (i % 8));
    }
    struct sdsl_scrambled run = sdsl_scramble(card->end, s->scrambler, plain, sizeof plain, 3 * room, line, sizeof line);
    must(run.answer, "sdsl_scramble");
    s->scrambler = run.state;
    for (unsigned m = 0; m < room; m++) {
        symbols[m] = (uint8_t)(4 * bit_at(line, 3 * m) + 2 * bit_at(line, 3 * m + 1) + bit_at(line, 3 * m + 2)); /* X1 X2 X3 */
    }
    struct sdsl_encoded_run coded = sdsl_encode_run(card->far.a, card->far.b, s->reg, symbols, room, codes, room);
    must(coded.answer, "sdsl_encode_run");
    s->reg = coded.reg;
    for (unsigned m = 0; m < room; m++) {
        struct sdsl_level level = sdsl_data_level(codes[m]);
        must(level.answer, "sdsl_data_level");
        sdsl_put_number(xs, m, level.sixteenths * SDSL_SIXTEENTH);
    }
    must(sdsl_precode(card->far.coefficients, sizeof card->far.coefficients, s->history, sizeof s->history, xs, 4 * room, ys, 4 * room),
         "sdsl_precode");
    for (unsigned m = 0; m < room; m++) {
        out[m].level = sdsl_get_number(ys, m);
    }
    return room;
}

/* Some symbols of what the phase sends: at least one, at most `room`. */
static unsigned send_some(struct card *card, struct symbol *out, unsigned room)
{
    switch (card->state.phase) {
    case SDSL_CR:
    case SDSL_SC:
    case SDSL_SR:
        return send_ones(card, out, room);
    case SDSL_TC:
    case SDSL_TR:
    case SDSL_FC:
        return send_frame(card, out, room);
    case SDSL_SETTLING:
    case SDSL_VALID:
        if (card->send.gap < GAP_SYMBOLS) {
            card->send.gap++;
            return 1;
        }
        return send_data(card, out, room);
    default:
        return room;
    }
}

void card_send(struct card *card, struct symbol out[BLOCK])
{
    memset(out, 0, BLOCK * sizeof out[0]);
    for (unsigned sent = 0; sent < BLOCK;) {
        sent += send_some(card, out + sent, BLOCK - sent);
    }
}
