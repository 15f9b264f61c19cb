/*
 * dear.c: inputs that are dearest by construction, for the column "worst seen"; see bench.h.
 *
 * A case is one such input for one operation. Of all cases of an operation the dearest counts. Sides have to agree on each of them too.
 */
#include "bench.h"

#include "../tests/second/harness.h"
#include "../tests/second/reference.h"

#include <stdio.h>
#include <string.h>

/* ---- Frames ---- */

enum { GOOD, ALL_ONES, LAST_CHECK, FRAME_CASES };
static const char *const frame_names[FRAME_CASES] = {"nothing refused", "every payload bit is one", "refused at its last check"};
static uint8_t dear_frames[2][FRAME_CASES][SDSL_FRAME_OCTETS]; /* by kind */
static uint8_t ends[2][SDSL_COEFFICIENT_OCTETS];               /* all coefficients at their least, all at -1 */
static uint8_t full_vendor[SDSL_VENDOR_OCTETS];

/* The last check of either kind is that of the check bits: the last of them is wrong. */
static void make_frames(void)
{
    memset(full_vendor, 0xFF, sizeof full_vendor);
    for (size_t k = 0; k < SDSL_COEFFICIENTS; k++) {
        set_number(ends[0], k, SDSL_COEFFICIENT_MIN);
        set_number(ends[1], k, -1);
    }
    for (uint32_t kind = SDSL_TRAINING; kind <= SDSL_FINAL; kind++) {
        for (size_t c = 0; c < FRAME_CASES; c++) {
            ref_make_frame(kind, SDSL_COUNT_MAX, ends[c == ALL_ONES], SDSL_WORD_MAX, SDSL_WORD_MAX, full_vendor, dear_frames[kind][c]);
        }
        flip_bit(dear_frames[kind][LAST_CHECK], SDSL_CHECK_BIT + 15);
        for (size_t n = SDSL_COEFFICIENT_BIT; n < SDSL_CHECK_BIT; n++) {
            if (!get_bit(dear_frames[kind][ALL_ONES], n)) {
                flip_bit(dear_frames[kind][ALL_ONES], n);
            }
        }
        ref_put_check_bits(dear_frames[kind][ALL_ONES]);
    }
}

static void frame_name(size_t which, char *text, size_t room)
{
    snprintf(text, room, "%s", frame_names[which]);
}

/* Sent: coefficients at their least or at -1, and every bit of the first state one or none. */
#define SENT_CASES 4

static void sent_name(size_t which, char *text, size_t room)
{
    snprintf(text, room, "180 coefficients, %s; %s of the state one", which % 2 == 0 ? "each the least" : "each -1",
             which < 2 ? "every bit" : "no bit");
}

static void send_frames(const struct library *library, uint32_t end, uint32_t kind, size_t which)
{
    struct sdsl_scrambled next = {0, which < 2 ? SDSL_SCRAMBLER_MAX : 0};
    for (size_t i = 0; i < BATCH; i++) {
        next = library->frame_send(end, next.state, kind, SDSL_COUNT_MAX, ends[which % 2], SDSL_COEFFICIENT_OCTETS, SDSL_WORD_MAX,
                                   SDSL_WORD_MAX, full_vendor, sizeof full_vendor, results.octets, SDSL_FRAME_OCTETS);
        results.numbers[i] = next.answer + 16 * next.state;
    }
}

#define SEND_PASS(name, end, kind) \
    static void name(const struct library *library, size_t which) { send_frames(library, end, kind, which); }

SEND_PASSES(SEND_PASS)

/* Both kinds: a case of one, then a case of the other. */
static void check(const struct library *library, size_t which)
{
    for (size_t i = 0; i < BATCH; i++) {
        results.numbers[i] = library->frame_check(dear_frames[which / FRAME_CASES][which % FRAME_CASES], SDSL_FRAME_OCTETS);
    }
}

static void check_name(size_t which, char *text, size_t room)
{
    snprintf(text, room, "%s frame, %s", which < FRAME_CASES ? "a training" : "a final", frame_names[which % FRAME_CASES]);
}

static void read_frames(const struct library *library, uint32_t kind, size_t which, size_t count)
{
    for (size_t i = 0; i < count; i++) {
        struct sdsl_frame_fields fields =
            library->frame_read(dear_frames[kind][which], SDSL_FRAME_OCTETS, results.octets, SDSL_COEFFICIENT_OCTETS,
                                results.octets + SDSL_COEFFICIENT_OCTETS, SDSL_VENDOR_OCTETS,
                                results.octets + SDSL_COEFFICIENT_OCTETS + SDSL_VENDOR_OCTETS, SDSL_RESERVED_OCTETS);
        memcpy(results.numbers + 4 * i, &fields, sizeof fields);
    }
}

static void read_training(const struct library *library, size_t which)
{
    read_frames(library, SDSL_TRAINING, which, BATCH);
}

static void read_final(const struct library *library, size_t which)
{
    read_frames(library, SDSL_FINAL, which, BATCH);
}

static void read_cards(const struct library *library, size_t which)
{
    read_frames(library, SDSL_TRAINING, which, CARDS);
}

/* ---- Descrambler: every bit one, in the frame and in the state, or none ---- */

static void descramble_frames(const struct library *library, uint32_t end, size_t which)
{
    struct sdsl_scrambled next = {0, which == 0 ? SDSL_SCRAMBLER_MAX : 0};
    for (size_t i = 0; i < BATCH; i++) {
        next = library->descramble_frame(end, next.state, dear_frames[SDSL_FINAL][which == 0 ? ALL_ONES : GOOD], SDSL_FRAME_OCTETS,
                                         results.octets, SDSL_FRAME_OCTETS);
        results.numbers[i] = next.answer + 16 * next.state;
    }
}

static void bits_name(size_t which, char *text, size_t room)
{
    snprintf(text, room, "%s", which == 0 ? "every bit one" : "nearly every bit zero");
}

static void descramble_ltu(const struct library *library, size_t which)
{
    descramble_frames(library, SDSL_LTU, which);
}

static void descramble_ntu(const struct library *library, size_t which)
{
    descramble_frames(library, SDSL_NTU, which);
}

/* ---- Symbols: every bit one; and refused for the last symbol or sample ---- */

static uint8_t sevens[2][RUN], largest[2][4 * RUN], least_past[SDSL_HISTORY_OCTETS];

static void make_symbols(void)
{
    memset(sevens, 7, sizeof sevens);
    sevens[1][RUN - 1] = 8;
    for (size_t m = 0; m < RUN; m++) {
        set_number(largest[0], m, SDSL_SAMPLE_MAX);
        set_number(largest[1], m, m == RUN - 1 ? SDSL_SAMPLE_MAX + 1 : SDSL_SAMPLE_MAX);
    }
    for (size_t k = 0; k < SDSL_COEFFICIENTS; k++) {
        set_number(least_past, k, SDSL_SAMPLE_MIN);
    }
}

static void symbols_name(size_t which, char *text, size_t room)
{
    snprintf(text, room, "%s", which == 0 ? "every bit one" : "refused for the last symbol");
}

static void samples_name(size_t which, char *text, size_t room)
{
    snprintf(text, room, "%s", which == 0 ? "every coefficient and past output the least" : "refused for the last sample");
}

static void encode_run(const struct library *library, size_t which)
{
    struct sdsl_encoded_run run =
        library->encode_run(SDSL_WORD_MAX, SDSL_WORD_MAX, SDSL_REGISTER_MAX, sevens[which], RUN, results.octets, RUN);
    results.numbers[0] = run.answer;
    results.numbers[1] = run.reg;
}

static void encode_each(const struct library *library, size_t which)
{
    for (size_t m = 0; m < RUN; m++) {
        struct sdsl_encoded one = library->encode(SDSL_WORD_MAX, SDSL_WORD_MAX, SDSL_REGISTER_MAX, sevens[which][RUN - 1]);
        memcpy(results.numbers + 4 * m, &one, sizeof one);
    }
}

static void samples(__typeof__(sdsl_precode) *pass, size_t which)
{
    uint8_t *past = results.octets + sizeof largest[0];
    memcpy(past, least_past, sizeof least_past);
    results.numbers[0] = pass(ends[0], SDSL_COEFFICIENT_OCTETS, past, sizeof least_past, largest[which], sizeof largest[which],
                              results.octets, sizeof largest[which]);
}

static void precode(const struct library *library, size_t which)
{
    samples(library->precode, which);
}

static void unprecode(const struct library *library, size_t which)
{
    samples(library->unprecode, which);
}

/* ---- Supervisor: every code in every phase: early in it, at its last tick, and at the attempt's last tick ---- */

#define STEPS 250
enum { EARLY, LAST_TICK, LAST_OF_ATTEMPT, MOMENTS };
static const struct {
    uint32_t end, phase, last;
} phases[] = {
    {SDSL_LTU, SDSL_READY, 0}, {SDSL_LTU, SDSL_AWAIT, 0}, {SDSL_LTU, SDSL_HEARING, 0}, {SDSL_LTU, SDSL_QUIET, SDSL_LTU_QUIET_TICKS - 1},
    {SDSL_LTU, SDSL_SC, SDSL_SC_TICKS - 1}, {SDSL_LTU, SDSL_TC, 0}, {SDSL_LTU, SDSL_FC, 0},
    {SDSL_LTU, SDSL_SETTLING, SDSL_SETTLING_TICKS - 1}, {SDSL_LTU, SDSL_VALID, 0}, {SDSL_LTU, SDSL_EXCEPTION, SDSL_SILENCE_MIN - 1},
    {SDSL_NTU, SDSL_READY, 0}, {SDSL_NTU, SDSL_GAP, SDSL_GAP_TICKS - 1}, {SDSL_NTU, SDSL_CR, SDSL_CR_TICKS - 1},
    {SDSL_NTU, SDSL_QUIET, SDSL_NTU_QUIET_TICKS - 1}, {SDSL_NTU, SDSL_SR, SDSL_STATE_TICKS_MAX}, {SDSL_NTU, SDSL_TR, 0},
    {SDSL_NTU, SDSL_SETTLING, SDSL_SETTLING_TICKS - 1}, {SDSL_NTU, SDSL_VALID, 0}, {SDSL_NTU, SDSL_EXCEPTION, SDSL_SILENCE_MIN - 1},
};
#define CODE_CASES (ITEMS(phases) * MOMENTS * (SDSL_REPORT_MAX + 1))

static struct sdsl_supervisor state_of(size_t which)
{
    size_t phase = which / (MOMENTS * (SDSL_REPORT_MAX + 1)), moment = which / (SDSL_REPORT_MAX + 1) % MOMENTS;
    struct sdsl_supervisor state = {phases[phase].end, phases[phase].phase, 0, 0, SDSL_SILENCE_MIN, 1, 0};
    state.ticks = moment == LAST_TICK ? phases[phase].last : 0;
    state.attempt = moment == LAST_OF_ATTEMPT ? SDSL_STATE_ATTEMPT_MAX : 0;
    return state;
}

static void code_name(size_t which, char *text, size_t room)
{
    static const char *const moments[MOMENTS] = {"", " at its last tick", " at the attempt's last tick"};
    struct sdsl_supervisor state = state_of(which);
    snprintf(text, room, "%s in %s%s, code %zu", state.end == SDSL_LTU ? "LTU" : "NTU", sdsl_phase_text(state.phase),
             moments[which / (SDSL_REPORT_MAX + 1) % MOMENTS], which % (SDSL_REPORT_MAX + 1));
}

static void step(const struct library *library, size_t which)
{
    struct sdsl_supervisor state = state_of(which);
    for (size_t i = 0; i < STEPS; i++) {
        struct sdsl_stepped stepped = library->step(state, (uint32_t)(which % (SDSL_REPORT_MAX + 1)));
        results.numbers[i] = 100000 * stepped.answer + 1000 * stepped.phase + stepped.attempt % 1000;
        results.state = stepped.state;
    }
}

/* The same code again and again: the first one may leave the phase, so this is a run in the phase or in the one behind it. */
static void run_codes(const struct library *library, size_t which)
{
    uint8_t *codes = results.octets;
    memset(codes, (int)(which % (SDSL_REPORT_MAX + 1)), STEPS);
    struct sdsl_run run = library->run_codes(state_of(which), codes, STEPS);
    results.numbers[0] = run.answer + (uint32_t)(run.attempts + run.opened_at + run.outcome + run.ended_at);
    results.state = run.state;
}

/* ---- Data-mode frames ---- */

/* For operations that are not handed the next frame's check bits: the cases that do not differ in them alone. */
#define WRITTEN_CASES OTHER_CHECK

/* One frame again and again. */
static void same_frame(const struct library *library, data_operation *operation, const struct data_set *set, size_t which)
{
    for (size_t i = 0; i < BATCH; i++) {
        operation(library, set, &set->dear[which], i);
    }
}

static void data_name(size_t which, char *text, size_t room)
{
    static const char *const names[DATA_CASES] = {"every bit one", "every bit zero", "refused for its check bits, the last check"};
    snprintf(text, room, "%s", names[which]);
}

#define DATA_PASS(name, operation, set) \
    static void name(const struct library *library, size_t which) { same_frame(library, operation, &data_sets[set], which); }

DATA_PASSES(DATA_PASS)

/* ---- Messages ---- */

static void message_batch(const struct library *library, message_operation *operation, const struct message_set *set, size_t which)
{
    for (size_t i = 0; i < BATCH; i++) {
        operation(library, set, &set->dear[which][i], i);
    }
}

static void message_name(size_t which, char *text, size_t room)
{
    static const char *const names[MESSAGE_CASES] = {"number and contents all 7E", "each of number and contents 7E by an even chance",
                                                     "refused for the check sequence, the last check"};
    snprintf(text, room, "%s", names[which]);
}

#define MESSAGE_PASS(name, operation, set) \
    static void name(const struct library *library, size_t which) { message_batch(library, operation, &message_sets[set], which); }

MESSAGE_PASSES(MESSAGE_PASS)

#define SEQUENCE_PASS(name, set) \
    static void name(const struct library *library, size_t which) \
    { \
        sequences_of(library, message_sets[set].size, message_sets[set].dear[which]); \
    }

SEQUENCE_PASSES(SEQUENCE_PASS)

/* ---- The receiver: each row's lumps, of the dear streams ---- */

static void stream_name(size_t which, char *text, size_t room)
{
    static const char *const names[DEAR_STREAMS] = {"a sync word at every 7th and 9th bit in turn", "as many, each with a wrong bit",
                                                    "every bit one"};
    snprintf(text, room, "%s", names[which]);
}

#define RECEIVE_PASS(name, stream, bits, lump) \
    static void name(const struct library *library, size_t which) { receive(library, WORST_STREAM + which, WORST_BITS, lump); }

RECEIVE_PASSES(RECEIVE_PASS)

/* For operations that do not look at a message's form. */
#define UNREAD_CASES WRONG_SEQUENCE

/* In the order of rows.c. */
const struct dear dears[] = {
    {SENT_CASES, BATCH, send_training_ltu, sent_name}, {SENT_CASES, BATCH, send_training_ntu, sent_name},
    {SENT_CASES, BATCH, send_final_ltu, sent_name}, {SENT_CASES, BATCH, send_final_ntu, sent_name},
    {2 * FRAME_CASES, BATCH, check, check_name}, {FRAME_CASES, BATCH, read_training, frame_name},
    {FRAME_CASES, BATCH, read_final, frame_name}, {2, BATCH, descramble_ltu, bits_name},
    {2, BATCH, descramble_ntu, bits_name}, {2, RUN, encode_run, symbols_name},
    {2, RUN, encode_each, symbols_name}, {2, RUN, precode, samples_name}, {2, RUN, unprecode, samples_name},
    {CODE_CASES, STEPS, step, code_name}, {CODE_CASES, STEPS, run_codes, code_name}, {FRAME_CASES, 1, read_cards, frame_name},
    {WRITTEN_CASES, BATCH, write_synchronous_24, data_name}, {WRITTEN_CASES, BATCH, write_synchronous_289, data_name},
    {WRITTEN_CASES, BATCH, write_plesiochronous_24, data_name}, {WRITTEN_CASES, BATCH, write_plesiochronous_289, data_name},
    {DATA_CASES, BATCH, check_synchronous_24, data_name}, {DATA_CASES, BATCH, check_synchronous_289, data_name},
    {DATA_CASES, BATCH, check_plesiochronous_24, data_name}, {DATA_CASES, BATCH, check_plesiochronous_289, data_name},
    {DATA_CASES, BATCH, read_synchronous_24, data_name}, {DATA_CASES, BATCH, read_synchronous_289, data_name},
    {DATA_CASES, BATCH, read_plesiochronous_24, data_name}, {DATA_CASES, BATCH, read_plesiochronous_289, data_name},
    {WRITTEN_CASES, BATCH, six_24, data_name}, {WRITTEN_CASES, BATCH, six_289, data_name},
    {UNREAD_CASES, BATCH, write_2, message_name}, {UNREAD_CASES, BATCH, write_20, message_name},
    {UNREAD_CASES, BATCH, write_20_flags, message_name}, {UNREAD_CASES, BATCH, write_75, message_name},
    {UNREAD_CASES, BATCH, write_75_flags, message_name}, {MESSAGE_CASES, BATCH, read_2, message_name},
    {MESSAGE_CASES, BATCH, read_20, message_name}, {MESSAGE_CASES, BATCH, read_20_flags, message_name},
    {MESSAGE_CASES, BATCH, read_75, message_name}, {MESSAGE_CASES, BATCH, read_75_flags, message_name},
    {MESSAGE_CASES, BATCH, hand_up_20, message_name},
    {UNREAD_CASES, BATCH, sequence_2, message_name}, {UNREAD_CASES, BATCH, sequence_20, message_name},
    {UNREAD_CASES, BATCH, sequence_75, message_name},
    {DEAR_STREAMS, WORST_BITS, receive_chance, stream_name}, {DEAR_STREAMS, WORST_BITS, receive_by_8, stream_name},
    {DEAR_STREAMS, WORST_BITS, receive_by_1, stream_name}, {DEAR_STREAMS, WORST_BITS, receive_frames, stream_name},
    {DEAR_STREAMS, WORST_BITS, receive_worst, stream_name},
};
const size_t dear_count = ITEMS(dears);

void make_dear_inputs(void)
{
    make_frames();
    make_symbols();
}
