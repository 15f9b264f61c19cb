/* rows.c: see bench.h. */
#include "bench.h"

#include "../tests/second/harness.h"
#include "../tests/second/reference.h"

#include <string.h>

const struct library ours = {
    "ours",
    sdsl_frame_send, sdsl_frame_check, sdsl_frame_read, sdsl_descramble_frame,
    sdsl_encode, sdsl_encode_run, sdsl_precode, sdsl_unprecode, sdsl_start, sdsl_step, sdsl_run_codes,
    sdsl_data_write, sdsl_data_crc, sdsl_data_read, sdsl_data_check,
    sdsl_eoc_write, sdsl_eoc_read, sdsl_eoc_hand_up, sdsl_receive_start, sdsl_receive, trial_sequence,
};
const struct library plain = {
    "plain C",
    ref_frame_send, ref_frame_check, ref_frame_read, ref_descramble_frame,
    ref_encode, ref_encode_run, ref_precode, ref_unprecode, ref_start, ref_step, ref_run_codes,
    ref_data_write, ref_data_crc, ref_data_read, ref_data_check,
    ref_eoc_write, ref_eoc_read, ref_eoc_hand_up, plain_receive_start, plain_receive, sequence_by_bit,
};

struct results results;
uint8_t batch[BATCH][SDSL_FRAME_OCTETS];
uint8_t cards[CARDS][SDSL_FRAME_OCTETS];
uint8_t unscrambled[2][BATCH][SDSL_FRAME_OCTETS];
uint8_t line[2][BATCH][SDSL_FRAME_OCTETS];

/* ---- Inputs ---- */

static struct {
    uint8_t coefficients[SDSL_COEFFICIENT_OCTETS];
    uint8_t vendor[SDSL_VENDOR_OCTETS];
    uint32_t a, b;
} sent[BATCH];
static uint8_t training[BATCH][SDSL_FRAME_OCTETS], finals[BATCH][SDSL_FRAME_OCTETS];
static uint32_t word_a, word_b;
static uint8_t symbols[RUN];
static uint8_t taps[SDSL_COEFFICIENT_OCTETS];
static uint8_t history[SDSL_HISTORY_OCTETS];
static uint8_t xs[4 * RUN], ys[4 * RUN];
static uint8_t codes[CODES];

static uint32_t chance_word(void)
{
    return (uint32_t)below(SDSL_WORD_MAX + 1u);
}

static void make_frame(uint32_t kind, uint8_t *frame)
{
    uint8_t coefficients[SDSL_COEFFICIENT_OCTETS], vendor[SDSL_VENDOR_OCTETS];
    for (size_t k = 0; k < SDSL_COEFFICIENTS; k++) {
        set_number(coefficients, k, between(SDSL_COEFFICIENT_MIN, SDSL_COEFFICIENT_MAX));
    }
    random_octets(vendor, sizeof vendor);
    ref_make_frame(kind, SDSL_COUNT_MAX, coefficients, chance_word(), chance_word(), vendor, frame);
}

static void make_frames(void)
{
    for (size_t i = 0; i < BATCH; i++) {
        for (size_t k = 0; k < SDSL_COEFFICIENTS; k++) {
            set_number(sent[i].coefficients, k, between(SDSL_COEFFICIENT_MIN, SDSL_COEFFICIENT_MAX));
        }
        random_octets(sent[i].vendor, SDSL_VENDOR_OCTETS);
        sent[i].a = chance_word();
        sent[i].b = chance_word();
        for (uint32_t kind = SDSL_TRAINING; kind <= SDSL_FINAL; kind++) {
            ref_make_frame(kind, SDSL_COUNT_MAX, sent[i].coefficients, sent[i].a, sent[i].b, sent[i].vendor, unscrambled[kind][i]);
        }
        make_frame(SDSL_TRAINING, training[i]);
        make_frame(SDSL_FINAL, finals[i]);
        make_frame(SDSL_TRAINING, batch[i]);
        if (i % 7 == 3) {
            flip_bit(batch[i], SDSL_COEFFICIENT_BIT + below(3960));
        }
    }
    for (size_t i = 0; i < CARDS; i++) {
        make_frame(i % 3 == 2 ? SDSL_FINAL : SDSL_TRAINING, cards[i]);
        static const size_t spoilt[4] = {SDSL_SYNC_BIT, SDSL_FRAME_BITS + 1, SDSL_A_BIT, SDSL_RESERVED_BIT};
        if (i % 17 < 2) {
            flip_bit(cards[i], spoilt[i % 4]);
        }
    }
    for (uint32_t end = SDSL_LTU; end <= SDSL_NTU; end++) {
        uint32_t state = sdsl_scrambler_start(end).state;
        for (size_t i = 0; i < BATCH; i++) {
            state = ref_put_on_line(end, state, training[i], line[end][i]);
        }
    }
}

/* Coefficients that fall off as those of a line do, so that y is a few foldings away from x and not a thousand. */
static void make_symbols(void)
{
    uint8_t past[SDSL_HISTORY_OCTETS];
    word_a = chance_word();
    word_b = chance_word();
    for (int32_t k = 0; k < SDSL_COEFFICIENTS; k++) {
        int32_t most = 4 * SDSL_STEPS / (4 + k);
        set_number(taps, (size_t)k, between(-most, most));
        set_number(history, (size_t)k, between(SDSL_SAMPLE_MIN, SDSL_SAMPLE_MAX));
    }
    for (size_t m = 0; m < RUN; m++) {
        symbols[m] = (uint8_t)below(8);
        set_number(xs, m, SDSL_SIXTEENTH * (2 * between(0, 15) - 15));
    }
    memcpy(past, history, sizeof past);
    ref_precode(taps, sizeof taps, past, sizeof past, xs, sizeof xs, ys, sizeof ys);
}

/* Start-ups of an LTU, one after the other: ticks, now and then the report that the phase awaits, at times a fault. */
static void make_codes(void)
{
    static const uint8_t awaited[14] = {1, 0, 2, 0, 3, 0, 4, 0, 6, 0, 7, 0, 8, 0};
    struct sdsl_supervisor state = ref_start(SDSL_LTU, SDSL_SILENCE_MIN).state;
    for (size_t i = 0; i < CODES; i++) {
        codes[i] = below(64) == 0 ? awaited[state.phase] : below(4096) == 0 ? SDSL_ABNORMAL : SDSL_TICK;
        state = ref_step(state, codes[i]).state;
    }
}

bool make_inputs(void)
{
    start_chance(0x5d51, 1.0);
    make_frames();
    make_symbols();
    make_codes();
    make_dear_inputs();
    return make_data_inputs() && make_message_inputs() && make_streams();
}

/* ---- A pass of each operation ---- */

/* Every frame sent, the state handed on. */
static void send_frames(const struct library *library, uint32_t end, uint32_t kind)
{
    struct sdsl_scrambled next = sdsl_scrambler_start(end);
    for (size_t i = 0; i < BATCH; i++) {
        next = library->frame_send(end, next.state, kind, SDSL_COUNT_MAX, sent[i].coefficients, SDSL_COEFFICIENT_OCTETS, sent[i].a,
                                   sent[i].b, sent[i].vendor, SDSL_VENDOR_OCTETS, results.octets + i * SDSL_FRAME_OCTETS,
                                   SDSL_FRAME_OCTETS);
        results.numbers[2 * i] = next.answer;
        results.numbers[2 * i + 1] = next.state;
    }
}

#define SEND_PASS(name, end, kind) \
    static void name(const struct library *library) { send_frames(library, end, kind); }

SEND_PASSES(SEND_PASS)

static void check(const struct library *library)
{
    for (size_t i = 0; i < BATCH; i++) {
        results.numbers[i] = library->frame_check(batch[i], SDSL_FRAME_OCTETS);
    }
}

static void read_frames(const struct library *library, uint8_t (*frames)[SDSL_FRAME_OCTETS], size_t count)
{
    for (size_t i = 0; i < count; i++) {
        uint8_t *coefficients = results.octets + i * (SDSL_COEFFICIENT_OCTETS + SDSL_VENDOR_OCTETS + SDSL_RESERVED_OCTETS);
        uint8_t *vendor = coefficients + SDSL_COEFFICIENT_OCTETS;
        struct sdsl_frame_fields fields = library->frame_read(frames[i], SDSL_FRAME_OCTETS, coefficients, SDSL_COEFFICIENT_OCTETS, vendor,
                                                              SDSL_VENDOR_OCTETS, vendor + SDSL_VENDOR_OCTETS, SDSL_RESERVED_OCTETS);
        memcpy(results.numbers + 4 * i, &fields, sizeof fields);
    }
}

static void read_training(const struct library *library)
{
    read_frames(library, training, BATCH);
}

static void read_final(const struct library *library)
{
    read_frames(library, finals, BATCH);
}

static void read_cards(const struct library *library)
{
    read_frames(library, cards, CARDS);
}

/* Every frame descrambled, the state handed on. */
static void descramble_frames(const struct library *library, uint32_t end)
{
    struct sdsl_scrambled next = sdsl_scrambler_start(end);
    for (size_t i = 0; i < BATCH; i++) {
        next = library->descramble_frame(end, next.state, line[end][i], SDSL_FRAME_OCTETS, results.octets + i * SDSL_FRAME_OCTETS,
                                         SDSL_FRAME_OCTETS);
        results.numbers[2 * i] = next.answer;
        results.numbers[2 * i + 1] = next.state;
    }
}

static void descramble_ltu(const struct library *library)
{
    descramble_frames(library, SDSL_LTU);
}

static void descramble_ntu(const struct library *library)
{
    descramble_frames(library, SDSL_NTU);
}

static void encode_run(const struct library *library)
{
    uint32_t start = sdsl_encoder_start(word_a, word_b).reg;
    struct sdsl_encoded_run run = library->encode_run(word_a, word_b, start, symbols, RUN, results.octets, RUN);
    results.numbers[0] = run.answer;
    results.numbers[1] = run.reg;
}

static void encode_each(const struct library *library)
{
    uint32_t reg = sdsl_encoder_start(word_a, word_b).reg;
    for (size_t m = 0; m < RUN; m++) {
        struct sdsl_encoded one = library->encode(word_a, word_b, reg, symbols[m]);
        reg = one.reg;
        memcpy(results.numbers + 4 * m, &one, sizeof one);
    }
}

/* A run of samples through the precoder or its inverse, which have one type. */
static void samples_by(__typeof__(sdsl_precode) *run, const uint8_t *samples)
{
    uint8_t *past = results.octets + sizeof xs;
    memcpy(past, history, sizeof history);
    results.numbers[0] = run(taps, sizeof taps, past, sizeof history, samples, sizeof xs, results.octets, sizeof xs);
}

static void precode(const struct library *library)
{
    samples_by(library->precode, xs);
}

static void unprecode(const struct library *library)
{
    samples_by(library->unprecode, ys);
}

static void precode_narrow(void)
{
    samples_by(narrow_precode, xs);
}

static void unprecode_narrow(void)
{
    samples_by(narrow_unprecode, ys);
}

static const struct other precode_others[] = {{"C, narrow products", precode_narrow}, {NULL, NULL}};
static const struct other unprecode_others[] = {{"C, narrow products", unprecode_narrow}, {NULL, NULL}};

static void step(const struct library *library)
{
    struct sdsl_stepped stepped = library->start(SDSL_LTU, SDSL_SILENCE_MIN);
    for (size_t i = 0; i < CODES; i++) {
        stepped = library->step(stepped.state, codes[i]);
        results.numbers[i] = 100000 * stepped.answer + 1000 * stepped.phase + stepped.attempt % 1000;
    }
    results.state = stepped.state;
}

static void run_codes(const struct library *library)
{
    struct sdsl_run run = library->run_codes(library->start(SDSL_LTU, SDSL_SILENCE_MIN).state, codes, CODES);
    results.numbers[0] = run.answer;
    results.numbers[1] = (uint32_t)run.attempts;
    results.numbers[2] = (uint32_t)run.opened_at;
    results.numbers[3] = run.outcome;
    results.numbers[4] = (uint32_t)run.ended_at;
    results.state = run.state;
}

static void data_frames(const struct library *library, data_operation *operation, const struct data_set *set)
{
    for (size_t i = 0; i < BATCH; i++) {
        operation(library, set, &set->usual[i], i);
    }
}

/* A pass of an operation over the usual frames of a set. */
#define DATA_PASS(name, operation, set) \
    static void name(const struct library *library) { data_frames(library, operation, &data_sets[set]); }

DATA_PASSES(DATA_PASS)

static void messages(const struct library *library, message_operation *operation, const struct message_set *set)
{
    for (size_t i = 0; i < BATCH; i++) {
        operation(library, set, &set->usual[i], i);
    }
}

/* A pass of an operation over the usual messages of a set, and other ways to the same. */
#define MESSAGE_PASS(name, operation, set) \
    static void name(const struct library *library) { messages(library, operation, &message_sets[set]); } \
    static void name##_one_pass(void) { name(&one_pass); } \
    static void name##_table(void) { name(&one_pass_table); } \
    static const struct other name##_others[] = { \
        {"C, one pass", name##_one_pass}, {"C, osmo_crc16_ccitt", WITH_OSMOCORE(name##_table)}, {NULL, NULL}};

MESSAGE_PASSES(MESSAGE_PASS)

#define SEQUENCE_PASS(name, set) \
    static void name(const struct library *library) { sequences_of(library, message_sets[set].size, message_sets[set].usual); } \
    static void name##_table(void) { name(&one_pass_table); } \
    static const struct other name##_others[] = {{"osmo_crc16_ccitt", WITH_OSMOCORE(name##_table)}, {NULL, NULL}};

SEQUENCE_PASSES(SEQUENCE_PASS)

#define RECEIVE_PASS(name, stream, bits, lump) \
    static void name(const struct library *library) { receive(library, stream, bits, lump); }

RECEIVE_PASSES(RECEIVE_PASS)

const struct row rows[] = {
    {"send a training frame, LTU", "frame", BATCH, 5, 20, send_training_ltu, send_training_ltu_others, false},
    {"send a training frame, NTU", "frame", BATCH, 5, 20, send_training_ntu, send_training_ntu_others, false},
    {"send a final frame, LTU", "frame", BATCH, 6, 12, send_final_ltu, send_final_ltu_others, false},
    {"send a final frame, NTU", "frame", BATCH, 6, 12, send_final_ntu, send_final_ntu_others, false},
    {"check a frame", "frame", BATCH, 6, 45, check, check_others, false},
    {"read a training frame", "frame", BATCH, 4, 26, read_training, NULL, false},
    {"read a final frame", "frame", BATCH, 4, 11, read_final, NULL, false},
    {"descramble a frame, LTU", "frame", BATCH, 25, 40, descramble_ltu, descramble_ltu_others, false},
    {"descramble a frame, NTU", "frame", BATCH, 25, 40, descramble_ntu, descramble_ntu_others, false},
    {"encoder, in a run", "symbol", RUN, 1, 1, encode_run, NULL, false},
    {"encoder, a call each", "symbol", RUN, 1, 1, encode_each, NULL, false},
    {"precoder, in a run", "symbol", RUN, 1, 1, precode, precode_others, true},
    {"precoder's inverse, in a run", "symbol", RUN, 1, 1, unprecode, unprecode_others, true},
    {"supervisor, a call each", "step", CODES, 1, 1, step, NULL, false},
    {"supervisor, in a run", "step", CODES, 1, 1, run_codes, NULL, false},
    {"sorter's heart: read 340 frames", "340", 1, 1, 1, read_cards, NULL, false},
    {"write a data-mode frame, synchronous, k = 24", "frame", BATCH, 10, 10, write_synchronous_24, NULL, false},
    {"write a data-mode frame, synchronous, k = 289", "frame", BATCH, 10, 10, write_synchronous_289, NULL, false},
    {"write a data-mode frame, plesiochronous, k = 24", "frame", BATCH, 10, 10, write_plesiochronous_24, NULL, false},
    {"write a data-mode frame, plesiochronous, k = 289", "frame", BATCH, 10, 10, write_plesiochronous_289, NULL, false},
    {"check a data-mode frame, synchronous, k = 24", "frame", BATCH, 10, 10, check_synchronous_24, NULL, false},
    {"check a data-mode frame, synchronous, k = 289", "frame", BATCH, 10, 10, check_synchronous_289, NULL, false},
    {"check a data-mode frame, plesiochronous, k = 24", "frame", BATCH, 10, 10, check_plesiochronous_24, NULL, false},
    {"check a data-mode frame, plesiochronous, k = 289", "frame", BATCH, 10, 10, check_plesiochronous_289, NULL, false},
    {"read a data-mode frame, synchronous, k = 24", "frame", BATCH, 10, 10, read_synchronous_24, NULL, false},
    {"read a data-mode frame, synchronous, k = 289", "frame", BATCH, 10, 10, read_synchronous_289, NULL, false},
    {"read a data-mode frame, plesiochronous, k = 24", "frame", BATCH, 10, 10, read_plesiochronous_24, NULL, false},
    {"read a data-mode frame, plesiochronous, k = 289", "frame", BATCH, 10, 10, read_plesiochronous_289, NULL, false},
    {"six check bits, synchronous, k = 24", "frame", BATCH, 10, 10, six_24, six_24_others, false},
    {"six check bits, synchronous, k = 289", "frame", BATCH, 10, 10, six_289, six_289_others, false},
    {"write a message of 2 octets", "message", BATCH, 1, 1, write_2, write_2_others, false},
    {"write a message of 20 octets", "message", BATCH, 1, 1, write_20, write_20_others, false},
    {"write a message of 20 octets, contents all 7E", "message", BATCH, 1, 1, write_20_flags, write_20_flags_others, false},
    {"write a message of 75 octets", "message", BATCH, 1, 1, write_75, write_75_others, false},
    {"write a message of 75 octets, contents all 7E", "message", BATCH, 1, 1, write_75_flags, write_75_flags_others, false},
    {"read a message of 2 octets", "message", BATCH, 1, 1, read_2, read_2_others, false},
    {"read a message of 20 octets", "message", BATCH, 1, 1, read_20, read_20_others, false},
    {"read a message of 20 octets, contents all 7E", "message", BATCH, 1, 1, read_20_flags, read_20_flags_others, false},
    {"read a message of 75 octets", "message", BATCH, 1, 1, read_75, read_75_others, false},
    {"read a message of 75 octets, contents all 7E", "message", BATCH, 1, 1, read_75_flags, read_75_flags_others, false},
    {"hand a message of 20 octets up to 4 units", "message", BATCH, 1, 1, hand_up_20, hand_up_20_others, false},
    {"check sequence of 2 octets", "message", BATCH, 1, 4, sequence_2, sequence_2_others, false},
    {"check sequence of 20 octets", "message", BATCH, 1, 4, sequence_20, sequence_20_others, false},
    {"check sequence of 75 octets", "message", BATCH, 1, 4, sequence_75, sequence_75_others, false},
    {"receive random bits in lumps of 4,096", "bit", CHANCE_BITS, 2, 2, receive_chance, NULL, false},
    {"receive random bits in lumps of 8", "bit", 4 * LUMP, 0, 0, receive_by_8, NULL, false},
    {"receive random bits in lumps of 1", "bit", LUMP, 0, 0, receive_by_1, NULL, false},
    {"receive frames back to back in lumps of 4,096", "bit", FRAMES_BITS, 0, 0, receive_frames, NULL, false},
    {"receive the worst stream in lumps of 4,096", "bit", WORST_BITS, 0, 0, receive_worst, NULL, false},
};
const size_t row_count = ITEMS(rows);
const struct row *const encoder_row = &rows[9], *const precoder_row = &rows[11], *const data_row = &rows[16],
                        *const message_row = &rows[30];
const struct limit limits[LIMITS] = {{&rows[44], 0.01}, {&rows[48], 1.0 / 3}, {&rows[46], 1}};
