/* card.c: see card.h. */
#include "card.h"

#include <stdarg.h>
#include <stdio.h>
#include <stdlib.h>
#include <string.h>

/* What a card does in each phase, for the story; by enum sdsl_phase. */
static const char *const doings[SDSL_PHASE_MAX + 1] = {
    "its silence is over", "pre-activation has ended; waits 0.3 s", "pre-activation has ended; listens for C_r", "sends C_r for 1 s",
    "C_r is heard", "is silent", "sends S_c", "sends S_r", "sends T_c frames:", "sends T_r frames:", "sends F_c, two final frames",
    "data mode has begun", "payload is valid", "gives up and is silent"};

void must(uint32_t answer, const char *call)
{
    if (answer != SDSL_DONE) {
        fprintf(stderr, "pair: %s: %s\n", call, sdsl_answer_text(answer));
        exit(3);
    }
}

void record_bit(struct record *record, unsigned bit)
{
    if (record->bits < 8 * (size_t)RECORD_OCTETS) {
        record->octets[record->bits / 8] |= (uint8_t)(bit << (record->bits % 8));
        record->bits++;
    }
}

unsigned bit_at(const uint8_t *octets, size_t place)
{
    return (unsigned)octets[place / 8] >> (place % 8) & 1;
}

/*
 * What a receiver computes while it adapts is a maker's own affair; here the coefficients fall off with their number and the seed
 * gives their signs and sizes. The words are different at the two ends, so that whose words are used where can be seen.
 */
static void make_wishes(struct wishes *own, uint32_t end, uint64_t seed)
{
    own->count = end == SDSL_LTU ? 150 : SDSL_COUNT_MIN;
    own->a = end == SDSL_LTU ? 366 : 6021;
    own->b = end == SDSL_LTU ? 817 : 3467;
    memcpy(own->vendor, end == SDSL_LTU ? "LTU card 117" : "NTU card 204", 12);
    for (uint32_t k = 0; k < own->count; k++) {
        seed = seed * UINT64_C(6364136223846793005) + UINT64_C(1442695040888963407);
        int32_t c = ((int32_t)(seed >> 47) - SDSL_STEPS / 2) / (int32_t)(k + 1); /* at most one half in size */
        sdsl_put_number(own->coefficients, k, c);
    }
}

void card_start(struct card *card, uint32_t end, uint64_t seed)
{
    memset(card, 0, sizeof *card);
    struct sdsl_stepped started = sdsl_start(end, SDSL_SILENCE_DEFAULT);
    must(started.answer, "sdsl_start");
    card->name = end == SDSL_LTU ? "LTU" : "NTU";
    card->end = end;
    card->state = started.state;
    struct sdsl_scrambled scrambler = sdsl_scrambler_start(end);
    must(scrambler.answer, "sdsl_scrambler_start");
    card->send.scrambler = scrambler.state;
    card->send.bit = SDSL_FRAME_BITS;
    card->send.chance = seed * 2 + end + 1;
    make_wishes(&card->own, end, card->send.chance);
    /* The register starts alike with any words; those that the far card asks for are not known yet. */
    struct sdsl_encoded_run encoder = sdsl_encoder_start(card->own.a, card->own.b);
    must(encoder.answer, "sdsl_encoder_start");
    card->send.reg = encoder.reg;
    card->hear.reg = encoder.reg;
    /* Here a card makes one attempt. With more of them, start a receiver for each. */
    struct sdsl_received frames = sdsl_receive_start(far_end(card));
    must(frames.answer, "sdsl_receive_start");
    card->hear.frames = frames.state;
    must(sdsl_history_start(card->send.history, sizeof card->send.history), "sdsl_history_start");
    must(sdsl_history_start(card->hear.history, sizeof card->hear.history), "sdsl_history_start");
}

const char *card_phase(const struct card *card)
{
    return sdsl_phase_text(card->state.phase);
}

uint32_t far_end(const struct card *card)
{
    return card->end == SDSL_LTU ? SDSL_NTU : SDSL_LTU;
}

void card_tell(const struct card *card, const char *format, ...)
{
    if (card->quiet) {
        return;
    }
    printf("%7.3f s  %s  %-10s", card->now / 1000.0, card->name, card_phase(card));
    va_list arguments;
    va_start(arguments, format);
    vprintf(format, arguments);
    va_end(arguments);
    printf("\n");
}

void card_report(struct card *card, uint32_t code)
{
    uint32_t before = card->state.phase;
    uint32_t since = card->state.attempt;
    struct sdsl_stepped stepped = sdsl_step(card->state, code);
    must(stepped.answer, "sdsl_step");
    card->state = stepped.state;
    if (stepped.phase == before) {
        return;
    }
    if (stepped.phase == SDSL_SETTLING) {
        card->trained = since;
    }
    card->gave_up = card->gave_up || stepped.phase == SDSL_EXCEPTION;
    if (stepped.phase == SDSL_TC || stepped.phase == SDSL_TR) {
        card_tell(card, "%s A %u, B %u, %u coefficients", doings[stepped.phase], card->own.a, card->own.b, card->own.count);
    } else if (stepped.phase == SDSL_EXCEPTION) {
        const char *why = code == SDSL_TICK ? "no data mode by the 15,000th tick" : "the far end sends no data";
        card_tell(card, "%s: %s", doings[stepped.phase], why);
    } else {
        card_tell(card, "%s", doings[stepped.phase]);
    }
}

void card_tick(struct card *card)
{
    card->now++;
    card_report(card, SDSL_TICK);
    /* A host of a real card would look for its data frames; this one looks whether there is a signal at all. */
    if (card->state.phase == SDSL_SETTLING && card->state.ticks == SDSL_SETTLING_TICKS - 1 && !card->hear.begun) {
        card_report(card, SDSL_ABNORMAL);
    }
}
