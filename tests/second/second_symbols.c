/* second_symbols.c: the group `symbols`: levels, encoder, precoder and the sample for the shaper. */
#include "harness.h"

#ifdef SECOND_SYMBOLS

#include "reference.h"

#include <string.h>

static struct tally activation_levels = {"sdsl_activation_level", 0, 0};
static struct tally data_levels = {"sdsl_data_level", 0, 0};
static struct tally level_codes = {"sdsl_level_code", 0, 0};
static struct tally encoder_starts = {"sdsl_encoder_start", 0, 0};
static struct tally encodes = {"sdsl_encode", 0, 0};
static struct tally encode_runs = {"sdsl_encode_run", 0, 0};
static struct tally history_starts = {"sdsl_history_start", 0, 0};
static struct tally precodes = {"sdsl_precode", 0, 0};
static struct tally unprecodes = {"sdsl_unprecode", 0, 0};
static struct tally shapers = {"sdsl_shaper", 0, 0};
static struct tally round_trips = {"precode, then unprecode", 0, 0};
static struct tally examples = {"examples 9 to 13", 0, 0};

#define WORDS 2097152u    /* A and B are below this */
#define REGISTERS 1048576u /* and the register below this */

static const uint32_t odd_numbers[] = {255, 256, 257, 263, 271, 65536, 65537, 65551, 2147483647, 2147483648, 2147483649, 2147483663,
                                       4294967280, 4294967294, 4294967295};

/* ---- Levels ---- */

static void try_level(struct tally *tally, struct sdsl_level (*library)(uint32_t), struct sdsl_level (*reference)(uint32_t), uint32_t n)
{
    struct sdsl_level lib = library(n);
    struct sdsl_level ref = reference(n);
    struct comparison comparison = {NULL};
    want(&comparison, lib.answer == ref.answer, "answers differ");
    want(&comparison, lib.sixteenths == ref.sixteenths, "levels differ");
    settle(comparison, tally, "%u: library %u level %d, reference %u level %d", n, lib.answer, lib.sixteenths, ref.answer,
           ref.sixteenths);
}

static void try_activation_level(uint32_t bit)
{
    try_level(&activation_levels, sdsl_activation_level, ref_activation_level, bit);
}

static void try_data_level(uint32_t code)
{
    try_level(&data_levels, sdsl_data_level, ref_data_level, code);
}

static void try_level_code(int32_t sixteenths)
{
    struct sdsl_symbol_code lib = sdsl_level_code(sixteenths);
    struct sdsl_symbol_code ref = ref_level_code(sixteenths);
    struct comparison comparison = {NULL};
    want(&comparison, lib.answer == ref.answer, "answers differ");
    want(&comparison, lib.code == ref.code, "codes differ");
    settle(comparison, &level_codes, "level %d: library %u code %u, reference %u code %u", sixteenths, lib.answer, lib.code, ref.answer,
           ref.code);
}

static void levels(void)
{
    for (uint32_t number = 0; number < 1000; number++) {
        try_activation_level(number);
        try_data_level(number);
    }
    for (size_t i = 0; i < ITEMS(odd_numbers); i++) {
        try_activation_level(odd_numbers[i]);
        try_data_level(odd_numbers[i]);
        try_level_code((int32_t)odd_numbers[i]);
    }
    for (int32_t level = -70000; level <= 70000; level++) {
        try_level_code(level);
    }
    for (int32_t level = -20; level <= 20; level++) {
        try_level_code(INT32_MIN + 20 + level);
        try_level_code(INT32_MAX - 20 + level);
        try_level_code(16777216 + level);
    }
    for (size_t i = 0; i < scaled(20000); i++) {
        try_activation_level(random32());
        try_data_level(random32());
        try_level_code((int32_t)random32());
    }
}

/* ---- The encoder ---- */

static void try_encoder_start(uint32_t a, uint32_t b)
{
    struct sdsl_encoded_run lib = sdsl_encoder_start(a, b);
    struct sdsl_encoded_run ref = ref_encoder_start(a, b);
    struct comparison comparison = {NULL};
    want(&comparison, lib.answer == ref.answer, "answers differ");
    want(&comparison, lib.reg == ref.reg, "registers differ");
    settle(comparison, &encoder_starts, "a 0x%x b 0x%x: library %u register 0x%x, reference %u register 0x%x", a, b, lib.answer, lib.reg,
           ref.answer, ref.reg);
}

static void try_encode(uint32_t a, uint32_t b, uint32_t reg, uint32_t symbol)
{
    struct sdsl_encoded lib = sdsl_encode(a, b, reg, symbol);
    struct sdsl_encoded ref = ref_encode(a, b, reg, symbol);
    struct comparison comparison = {NULL};
    want(&comparison, lib.answer == ref.answer, "answers differ");
    want(&comparison, lib.code == ref.code, "codes differ");
    want(&comparison, lib.sixteenths == ref.sixteenths, "levels differ");
    want(&comparison, lib.reg == ref.reg, "registers differ");
    want(&comparison, lib.answer == 0 || lib.reg == reg, "a refused call changed the register");
    settle(comparison, &encodes, "a 0x%x b 0x%x register 0x%x symbol %u: library %u code %u level %d register 0x%x, reference %u code %u"
           " level %d register 0x%x", a, b, reg, symbol, lib.answer, lib.code, lib.sixteenths, lib.reg, ref.answer, ref.code,
           ref.sixteenths, ref.reg);
}

static void try_encode_run(uint32_t a, uint32_t b, uint32_t reg, const uint8_t *octets, size_t symbols_len, size_t codes_len)
{
    struct pair symbols = lend(octets, symbols_len);
    struct pair codes = lend_junk(codes_len);
    struct sdsl_encoded_run lib = sdsl_encode_run(a, b, reg, symbols.lib, symbols.len, codes.lib, codes.len);
    struct sdsl_encoded_run ref = ref_encode_run(a, b, reg, symbols.ref, symbols.len, codes.ref, codes.len);
    struct comparison comparison = {NULL};
    want(&comparison, lib.answer == ref.answer, "answers differ");
    want(&comparison, lib.reg == ref.reg, "registers differ");
    want(&comparison, lib.answer == 0 || lib.reg == reg, "a refused call changed the register");
    want_kept(&comparison, &symbols, "the symbols changed");
    want_written(&comparison, &codes, lib.answer, "codes differ");
    settle(comparison, &encode_runs, "a 0x%x b 0x%x register 0x%x lengths %zu %zu: library %u register 0x%x, reference %u register 0x%x",
           a, b, reg, symbols_len, codes_len, lib.answer, lib.reg, ref.answer, ref.reg);
    give_back(&symbols);
    give_back(&codes);
}

static uint32_t random_word(void)
{
    return (uint32_t)below(WORDS);
}

static uint32_t random_register(void)
{
    return (uint32_t)below(REGISTERS);
}

static void random_symbols(uint8_t *symbols, size_t len)
{
    random_octets(symbols, len);
    for (size_t i = 0; i < len; i++) {
        symbols[i] &= 7;
    }
}

static void encoder_edges(void)
{
    static const uint32_t words[] = {0, 1, 2, 1048575, 1048576, 2097151, 2097152, 2097153, 4194303, 2147483648, 4294967295};
    static const uint32_t registers[] = {0, 1, 2, 524288, 1048575, 1048576, 1048577, 2097151, 2147483648, 4294967295};
    static const uint32_t symbols[] = {0, 1, 2, 3, 4, 5, 6, 7, 8, 9, 255, 256, 260, 65536, 2147483648, 2147483652, 4294967295};
    uint8_t run[4];
    /* Every set of faults is among these. */
    for (size_t i = 0; i < ITEMS(words); i++) {
        for (size_t k = 0; k < ITEMS(words); k++) {
            try_encoder_start(words[i], words[k]);
            for (size_t r = 0; r < ITEMS(registers); r++) {
                for (size_t s = 0; s < ITEMS(symbols); s++) {
                    try_encode(words[i], words[k], registers[r], symbols[s]);
                }
                random_symbols(run, sizeof run);
                try_encode_run(words[i], words[k], registers[r], run, sizeof run, sizeof run);
                try_encode_run(words[i], words[k], registers[r], run, sizeof run, 3);
                try_encode_run(words[i], words[k], registers[r], run, 0, 0);
                run[below(sizeof run)] = 8;
                try_encode_run(words[i], words[k], registers[r], run, sizeof run, sizeof run);
                try_encode_run(words[i], words[k], registers[r], run, 3, sizeof run);
            }
        }
    }
    /* Each single bit of a word against each single bit of the register. */
    for (uint32_t word_bit = 0; word_bit < 21; word_bit++) {
        for (uint32_t register_bit = 0; register_bit < 20; register_bit++) {
            for (uint32_t symbol = 0; symbol < 8; symbol++) {
                try_encode(1u << word_bit, 0, 1u << register_bit, symbol);
                try_encode(0, 1u << word_bit, 1u << register_bit, symbol);
            }
        }
    }
    /* Symbols out of range, at each place of a run. */
    for (size_t len = 1; len <= 40; len++) {
        for (size_t place = 0; place < len; place++) {
            static const uint8_t wrong[] = {8, 9, 15, 16, 128, 255};
            uint8_t long_run[40];
            random_symbols(long_run, sizeof long_run);
            long_run[place] = wrong[below(ITEMS(wrong))];
            try_encode_run(random_word(), random_word(), random_register(), long_run, len, len);
        }
    }
    for (size_t symbols_len = 0; symbols_len < 8; symbols_len++) {
        for (size_t codes_len = 0; codes_len < 8; codes_len++) {
            for (unsigned turn = 0; turn < 8; turn++) {
                uint8_t short_run[8];
                random_symbols(short_run, sizeof short_run);
                try_encode_run(random_word(), random_word(), random_register(), short_run, symbols_len, codes_len);
            }
        }
    }
}

static void random_encoding(void)
{
    uint8_t run[300];
    for (size_t i = 0; i < scaled(100000); i++) {
        try_encoder_start(random_word(), random_word());
        try_encode(random_word(), random_word(), random_register(), (uint32_t)below(8));
    }
    for (size_t i = 0; i < scaled(5000); i++) {
        size_t len = (size_t)below(i % 10 == 0 ? sizeof run + 1 : 60);
        random_symbols(run, len);
        try_encode_run(random_word(), random_word(), random_register(), run, len, len);
    }
}

/* ---- The precoder ---- */

/* Every length up to a little too long, over whatever the memory held. */
static void start_histories(void)
{
    for (size_t len = 0; len <= SDSL_HISTORY_OCTETS + 40; len++) {
        for (unsigned turn = 0; turn < (len == SDSL_HISTORY_OCTETS ? 100u : 2u); turn++) {
            struct pair history = lend_junk(len);
            uint32_t lib = sdsl_history_start(history.lib, history.len);
            uint32_t ref = ref_history_start(history.ref, history.len);
            struct comparison comparison = {NULL};
            want(&comparison, lib == ref, "answers differ");
            want_written(&comparison, &history, lib, "histories differ");
            settle(comparison, &history_starts, "length %zu: library %u, reference %u", len, lib, ref);
            give_back(&history);
        }
    }
}

#define SAMPLES 400

/* What precode and unprecode are given; there is room for buffers that are a little too long. */
struct input {
    uint8_t coefficients[SDSL_COEFFICIENT_OCTETS + 4];
    size_t coefficients_len;
    uint8_t history[SDSL_COEFFICIENT_OCTETS + 4];
    size_t history_len;
    uint8_t samples[4 * SAMPLES];
    size_t samples_len;
    size_t results_len;
};

typedef uint32_t precoder(const uint8_t *coefficients, size_t coefficients_len, uint8_t *history, size_t history_len,
                          const uint8_t *samples, size_t samples_len, uint8_t *results, size_t results_len);

static void try_precoder(const struct input *in, precoder *lib_function, precoder *ref_function, struct tally *tally, const char *what)
{
    struct pair coefficients = lend(in->coefficients, in->coefficients_len);
    struct pair history = lend(in->history, in->history_len);
    struct pair samples = lend(in->samples, in->samples_len);
    struct pair results = lend_junk(in->results_len);
    uint32_t lib = lib_function(coefficients.lib, coefficients.len, history.lib, history.len, samples.lib, samples.len, results.lib,
                                results.len);
    uint32_t ref = ref_function(coefficients.ref, coefficients.len, history.ref, history.len, samples.ref, samples.len, results.ref,
                                results.len);
    struct comparison comparison = {NULL};
    want(&comparison, lib == ref, "answers differ");
    want_kept(&comparison, &coefficients, "coefficients changed");
    want_kept(&comparison, &samples, "samples changed");
    want_written(&comparison, &results, lib, "results differ");
    want_written(&comparison, &history, lib, "histories differ");
    bool sample = in->samples_len >= 4 && in->results_len >= 4;
    settle(comparison, tally, "%s, lengths %zu %zu %zu %zu, first sample %d: library %u first result %d, reference %u first result %d",
           what, in->coefficients_len, in->history_len, in->samples_len, in->results_len, sample ? get_number(in->samples, 0) : 0, lib,
           sample ? get_number(results.lib, 0) : 0, ref, sample ? get_number(results.ref, 0) : 0);
    give_back(&coefficients);
    give_back(&history);
    give_back(&samples);
    give_back(&results);
}

static void try_both(const struct input *in, const char *what)
{
    try_precoder(in, sdsl_precode, ref_precode, &precodes, what);
    try_precoder(in, sdsl_unprecode, ref_unprecode, &unprecodes, what);
}

/* All zero, with so many samples. */
static void make_zero(struct input *in, size_t samples)
{
    memset(in, 0, sizeof *in);
    in->coefficients_len = SDSL_COEFFICIENT_OCTETS;
    in->history_len = SDSL_COEFFICIENT_OCTETS;
    in->samples_len = 4 * samples;
    in->results_len = 4 * samples;
}

/* A number of a range by chance, now and then one near its ends or near zero. */
static int32_t some_number(int32_t highest)
{
    switch (below(10)) {
    case 0:
        return -highest - 1;
    case 1:
        return highest;
    case 2:
        return between(-2, 2);
    default:
        return between(-highest - 1, highest);
    }
}

/* A good input by chance. Mood 0 has all coefficients, 1 a few, 2 small ones, 3 extremes only. */
static void make_input(struct input *in, size_t samples)
{
    make_zero(in, samples);
    uint64_t mood = below(4);
    for (size_t i = 0; i < SDSL_COEFFICIENTS; i++) {
        int32_t coefficient = some_number(2097151);
        if (mood == 1 && below(40) != 0) {
            coefficient = 0;
        } else if (mood == 2) {
            coefficient = between(-3, 3);
        } else if (mood == 3) {
            coefficient = below(2) == 0 ? -2097152 : 2097151;
        }
        set_number(in->coefficients, i, coefficient);
        set_number(in->history, i, mood == 3 ? (below(2) == 0 ? -131072 : 131071) : some_number(131071));
    }
    for (size_t i = 0; i < samples; i++) {
        set_number(in->samples, i, some_number(131071));
    }
}

#define BORDERS 8192 /* more than there are */

/* The same size with the other sign; the lowest number has none, and gives the highest. A border's is a border. */
static int32_t other_sign(int32_t number, int32_t highest)
{
    return number < -highest ? highest : -number;
}

/*
 * The borders of a number that is kept in two parts, the low one so wide: its multiples, the powers of two, and both ends of the range,
 * each with its neighbours. Gives how many there are.
 */
static size_t make_borders(int32_t *borders, int32_t width, int32_t highest)
{
    size_t count = 0;
    for (int32_t at = -highest - 1; at <= highest + 1; at += width) {
        for (int32_t beside = -1; beside <= 1; beside++) {
            borders[count++] = at + beside;
        }
    }
    for (int32_t power = 1; power <= highest; power *= 2) {
        for (int32_t beside = -1; beside <= 1; beside++) {
            borders[count++] = power + beside;
            borders[count++] = -power + beside;
        }
    }
    size_t kept = 0;
    for (size_t i = 0; i < count; i++) {
        if (borders[i] >= -highest - 1 && borders[i] <= highest) {
            borders[kept++] = borders[i];
        }
    }
    return kept;
}

/*
 * As it stands, and then with a coefficient of 1 at one place whose past output brings the sum to a half, and to just below it: so the
 * sum shows to its last bit, and not only in what rounding leaves of it.
 */
static void try_to_the_bit(struct input *in, size_t place, const char *what)
{
    int64_t sum = 0;
    try_both(in, what);
    for (size_t k = 0; k < SDSL_COEFFICIENTS; k++) {
        sum += k == place ? 0 : (int64_t)get_number(in->coefficients, k) * get_number(in->history, k);
    }
    set_number(in->coefficients, place, 1);
    for (int64_t wanted = 65535; wanted <= 65536; wanted++) {
        set_number(in->history, place, (int32_t)((wanted - sum) % 131072));
        try_both(in, what);
    }
}

/* One product alone. */
static void try_product(int32_t coefficient, int32_t output, size_t place)
{
    struct input in;
    make_zero(&in, 1);
    set_number(in.coefficients, place, coefficient);
    set_number(in.history, place, output);
    try_to_the_bit(&in, (place + 90) % 180, "a border of two parts");
}

/*
 * A library may build a product from narrower ones, so that a coefficient or an output is kept in two parts. At every border of such
 * parts: each coefficient with borders of outputs of both signs, each output with borders of coefficients of both signs, and many at once,
 * 180 of one pair of signs or as they stand.
 */
static void product_borders(void)
{
    static int32_t coefficients[BORDERS], outputs[BORDERS];
    size_t all_coefficients = make_borders(coefficients, 2048, 2097151);
    size_t all_outputs = make_borders(outputs, 512, 131071);
    for (size_t c = 0; c < all_coefficients; c++) {
        int32_t output = outputs[(5 * c + c / 3) % all_outputs];
        try_product(coefficients[c], output, c % 180);
        try_product(coefficients[c], other_sign(output, 131071), c % 180);
    }
    for (size_t p = 0; p < all_outputs; p++) {
        int32_t coefficient = coefficients[(7 * p + p / 3) % all_coefficients];
        try_product(coefficient, outputs[p], p % 180);
        try_product(other_sign(coefficient, 2097151), outputs[p], p % 180);
    }
    for (size_t first = 0; first < all_coefficients; first += 20) {
        for (unsigned signs = 0; signs < 5; signs++) {
            struct input in;
            make_zero(&in, 2);
            for (size_t k = 0; k < SDSL_COEFFICIENTS; k++) {
                int32_t coefficient = coefficients[(first + k) % all_coefficients];
                int32_t output = outputs[(first + 5 * k + k / 3) % all_outputs];
                bool turn_coefficient = signs < 4 && (coefficient < 0) != (signs % 2 == 1);
                bool turn_output = signs < 4 && (output < 0) != (signs / 2 == 1);
                set_number(in.coefficients, k, turn_coefficient ? other_sign(coefficient, 2097151) : coefficient);
                set_number(in.history, k, turn_output ? other_sign(output, 131071) : output);
            }
            try_to_the_bit(&in, 179, "borders of two parts, 180 at once");
        }
    }
}

/* One coefficient and one past value, with samples around zero and at both ends: halves, and the fold at the ends. */
static void precoder_edges(void)
{
    static const int32_t coefficients[] = {-2097152, -2097151, -131073, -131072, -131071, -65537, -65536, -65535, -3, -2, -1, 0,
                                           1, 2, 3, 65535, 65536, 65537, 131071, 131072, 131073, 2097150, 2097151};
    static const int32_t past[] = {-131072, -131071, -98304, -65537, -65536, -65535, -32769, -32768, -32767, -16384, -2, -1, 0,
                                   1, 2, 16384, 32767, 32768, 32769, 65535, 65536, 65537, 98304, 131070, 131071};
    static const size_t places[] = {0, 1, 90, 178, 179};
    static const int32_t samples[] = {-131072, -131071, -1, 0, 1, 131070, 131071};
    struct input in;
    for (size_t c = 0; c < ITEMS(coefficients); c++) {
        for (size_t p = 0; p < ITEMS(past); p++) {
            for (size_t s = 0; s < ITEMS(samples); s++) {
                make_zero(&in, 2);
                size_t place = places[(c + p + s) % ITEMS(places)];
                set_number(in.coefficients, place, coefficients[c]);
                set_number(in.history, place, past[p]);
                set_number(in.samples, 0, samples[s]);
                set_number(in.samples, 1, samples[(s + 3) % ITEMS(samples)]);
                try_both(&in, "one coefficient");
            }
        }
    }
    /* Extremes all through. */
    for (unsigned signs = 0; signs < 8; signs++) {
        make_zero(&in, 200);
        for (size_t i = 0; i < SDSL_COEFFICIENTS; i++) {
            set_number(in.coefficients, i, signs & 1 ? -2097152 : 2097151);
            set_number(in.history, i, signs & 2 ? -131072 : 131071);
        }
        for (size_t i = 0; i < 200; i++) {
            set_number(in.samples, i, signs & 4 ? -131072 : 131071);
        }
        try_both(&in, "extremes");
    }
    /* Nothing to do. */
    for (unsigned turn = 0; turn < 8; turn++) {
        make_input(&in, 0);
        try_both(&in, "no samples");
    }
    product_borders();
}

/* A full sum whose last part is chosen so that it ends exactly on a half, or just beside one. */
static void halves(void)
{
    for (size_t i = 0; i < scaled(1500); i++) {
        struct input in;
        make_input(&in, 3);
        set_number(in.coefficients, 179, below(2) == 0 ? 1 : -1);
        int64_t sum = 0;
        for (size_t k = 0; k < 179; k++) {
            sum += (int64_t)get_number(in.coefficients, k) * get_number(in.history, k);
        }
        int64_t wanted = 65536 + between(-2, 2);
        int64_t rest = (wanted - sum) % 131072;
        if (get_number(in.coefficients, 179) < 0) {
            rest = -rest;
        }
        set_number(in.history, 179, (int32_t)rest);
        try_both(&in, "near a half");
    }
}

static void precoder_ranges(void)
{
    static const int32_t bad_coefficients[] = {-2097153, 2097152, 4194303, INT32_MIN, INT32_MAX};
    static const int32_t bad_values[] = {-131073, 131072, 262143, INT32_MIN, INT32_MAX};
    struct input in;
    for (size_t i = 0; i < SDSL_COEFFICIENTS; i++) {
        for (size_t k = 0; k < ITEMS(bad_values); k++) {
            make_input(&in, 2);
            set_number(in.coefficients, i, bad_coefficients[k]);
            try_both(&in, "a coefficient out of range");
            make_input(&in, 2);
            set_number(in.history, i, bad_values[k]);
            try_both(&in, "a past value out of range");
            make_input(&in, 0);
            set_number(below(2) == 0 ? in.coefficients : in.history, i, bad_coefficients[k]);
            try_both(&in, "no samples, and a number out of range");
        }
    }
    for (size_t samples = 1; samples <= 12; samples++) {
        for (size_t i = 0; i < samples; i++) {
            for (size_t k = 0; k < ITEMS(bad_values); k++) {
                make_input(&in, samples);
                set_number(in.samples, i, bad_values[k]);
                try_both(&in, "a sample out of range");
            }
        }
    }
}

static void precoder_lengths(void)
{
    static const size_t lengths[] = {0, 0, 4, 180, 716, 719, 720, 721, 724};
    static const size_t sample_lengths[] = {0, 0, 1, 2, 3, 4, 5, 8, 12};
    struct input in;
    for (size_t c = 0; c < ITEMS(lengths); c++) {
        for (size_t h = 0; h < ITEMS(lengths); h++) {
            make_input(&in, 4);
            in.coefficients_len = lengths[c];
            in.history_len = lengths[h];
            try_both(&in, "lengths");
        }
    }
    for (size_t s = 0; s < ITEMS(sample_lengths); s++) {
        for (size_t r = 0; r < ITEMS(sample_lengths); r++) {
            make_input(&in, 4);
            in.samples_len = sample_lengths[s];
            in.results_len = sample_lengths[r];
            try_both(&in, "lengths");
        }
    }
}

/* Every set of faults at once. */
static void precoder_faults(void)
{
    enum { COEFFICIENTS = 1, HISTORY = 2, UNEQUAL = 4, NO_MULTIPLE = 8, COEFFICIENT = 16, PAST = 32, SAMPLE = 64, SETS = 128 };
    for (unsigned set = 0; set < SETS; set++) {
        for (unsigned turn = 0; turn < 4; turn++) {
            struct input in;
            make_input(&in, 5);
            if (set & COEFFICIENTS) {
                in.coefficients_len = turn % 2 == 0 ? 716 : 724;
            }
            if (set & HISTORY) {
                in.history_len = turn % 2 == 0 ? 716 : 724;
            }
            if (set & UNEQUAL) {
                in.results_len = turn % 2 == 0 ? 16 : 24;
            }
            if (set & NO_MULTIPLE) {
                in.samples_len -= 1 + turn % 3;
                in.results_len -= 1 + turn % 3;
            }
            if (set & COEFFICIENT) {
                set_number(in.coefficients, (size_t)below(179), turn < 2 ? -2097153 : 2097152);
            }
            if (set & PAST) {
                set_number(in.history, (size_t)below(179), turn < 2 ? -131073 : 131072);
            }
            if (set & SAMPLE) {
                set_number(in.samples, (size_t)below(3), turn < 2 ? -131073 : 131072);
            }
            try_both(&in, "faults");
        }
    }
}

static void random_precoding(void)
{
    for (size_t i = 0; i < scaled(4000); i++) {
        struct input in;
        make_input(&in, (size_t)below(i % 40 == 0 ? SAMPLES + 1 : 12));
        try_both(&in, "by chance");
    }
}

/* Precoded by the library and back again, the samples are as before, and both ends remember the same. */
static void round_trip(void)
{
    for (size_t i = 0; i < scaled(1000); i++) {
        struct input in;
        make_input(&in, (size_t)below(30));
        uint8_t sent[4 * 30] = {0};
        uint8_t back[4 * 30] = {0};
        uint8_t here[SDSL_COEFFICIENT_OCTETS];
        uint8_t there[SDSL_COEFFICIENT_OCTETS];
        memcpy(here, in.history, sizeof here);
        memcpy(there, in.history, sizeof there);
        uint32_t precoded = sdsl_precode(in.coefficients, in.coefficients_len, here, sizeof here, in.samples, in.samples_len, sent,
                                         in.samples_len);
        uint32_t unprecoded = sdsl_unprecode(in.coefficients, in.coefficients_len, there, sizeof there, sent, in.samples_len, back,
                                             in.samples_len);
        struct comparison comparison = {NULL};
        want(&comparison, precoded == 0 && unprecoded == 0, "refused");
        want(&comparison, same_octets(in.samples, back, in.samples_len), "the samples do not come back");
        want(&comparison, memcmp(here, there, sizeof here) == 0, "the ends remember differently");
        settle(comparison, &round_trips, "%zu samples: precode %u, unprecode %u", in.samples_len / 4, precoded, unprecoded);
    }
}

/* ---- The sample for the shaper ---- */

static uint32_t bits_of(float value)
{
    uint32_t bits;
    memcpy(&bits, &value, sizeof bits);
    return bits;
}

static void try_shaper(int32_t y)
{
    struct sdsl_shaped lib = sdsl_shaper(y);
    struct sdsl_shaped ref = ref_shaper(y);
    struct comparison comparison = {NULL};
    want(&comparison, lib.answer == ref.answer, "answers differ");
    want(&comparison, bits_of(lib.value) == bits_of(ref.value), "values differ");
    settle(comparison, &shapers, "y %d: library %u value %.9g, reference %u value %.9g", y, lib.answer, (double)lib.value, ref.answer,
           (double)ref.value);
}

static void shaper(void)
{
    for (int32_t y = -131072 - 1000; y <= 131071 + 1000; y++) {
        try_shaper(y);
    }
    for (int32_t far = 0; far < 40; far++) {
        try_shaper(INT32_MIN + far);
        try_shaper(INT32_MAX - far);
    }
    for (size_t i = 0; i < scaled(20000); i++) {
        try_shaper((int32_t)random32());
    }
}

/* ---- The paper's examples 9 to 13, on either side ---- */

struct side {
    const char *name;
    struct sdsl_encoded (*encode)(uint32_t a, uint32_t b, uint32_t reg, uint32_t symbol);
    precoder *precode;
    precoder *unprecode;
    struct sdsl_shaped (*shaper)(int32_t y);
};

static void example(bool good, int number, const struct side *side)
{
    struct comparison comparison = {good ? NULL : "not as in the paper"};
    settle(comparison, &examples, "example %d by the %s", number, side->name);
}

/* C(1) = coefficient and y(m-1) = past: x gives y, and y gives x. */
static void precoder_example(int number, const struct side *side, int32_t coefficient, int32_t past, int32_t x, int32_t y)
{
    uint8_t coefficients[SDSL_COEFFICIENT_OCTETS] = {0};
    uint8_t history[SDSL_COEFFICIENT_OCTETS] = {0};
    uint8_t sample[4];
    uint8_t result[4] = {0};
    set_number(coefficients, 0, coefficient);
    set_number(history, 0, past);
    set_number(sample, 0, x);
    uint32_t answer = side->precode(coefficients, sizeof coefficients, history, sizeof history, sample, 4, result, 4);
    example(answer == 0 && get_number(result, 0) == y, number, side);
    example(get_number(history, 0) == y && get_number(history, 1) == past, number, side);
    memset(history, 0, sizeof history);
    set_number(history, 0, past);
    set_number(sample, 0, y);
    answer = side->unprecode(coefficients, sizeof coefficients, history, sizeof history, sample, 4, result, 4);
    example(answer == 0 && get_number(result, 0) == x, number, side);
}

static void paper_examples(const struct side *side)
{
    struct sdsl_encoded first = side->encode(1, 2, 0, 5);
    example(first.answer == 0 && first.sixteenths == 13, 9, side);
    struct sdsl_encoded second = side->encode(1, 2, first.reg, 3);
    example(second.answer == 0 && second.sixteenths == 3 && second.reg == 2, 9, side);

    precoder_example(10, side, 65536, 73728, 73728, 36864);
    precoder_example(11, side, -131072, 122880, 122880, -16384);
    struct sdsl_shaped shaped = side->shaper(-16384);
    example(shaped.answer == 0 && bits_of(shaped.value) == bits_of(-0.125f), 11, side);
    /* y = x - v shows v. */
    precoder_example(12, side, 1, 65536, 0, -1);
    precoder_example(12, side, 1, -65536, 0, 0);
    precoder_example(12, side, 1, -65537, 0, 1);

    uint8_t coefficients[SDSL_COEFFICIENT_OCTETS];
    for (size_t i = 0; i < SDSL_COEFFICIENTS; i++) {
        set_number(coefficients, i, -2097152);
    }
    static const int32_t xs[] = {-131072, -131071, -1, 0, 1, 73728, 131070, 131071};
    for (size_t i = 0; i < ITEMS(xs); i++) {
        uint8_t history[SDSL_COEFFICIENT_OCTETS];
        uint8_t sample[4];
        uint8_t result[4] = {0};
        for (size_t k = 0; k < SDSL_COEFFICIENTS; k++) {
            set_number(history, k, -131072);
        }
        set_number(sample, 0, xs[i]);
        uint32_t answer = side->precode(coefficients, sizeof coefficients, history, sizeof history, sample, 4, result, 4);
        example(answer == 0 && get_number(result, 0) == xs[i], 13, side);
    }
}

void second_symbols(void)
{
    static const struct side library = {"library", sdsl_encode, sdsl_precode, sdsl_unprecode, sdsl_shaper};
    static const struct side reference = {"reference", ref_encode, ref_precode, ref_unprecode, ref_shaper};
    paper_examples(&library);
    paper_examples(&reference);
    levels();
    encoder_edges();
    random_encoding();
    start_histories();
    precoder_edges();
    halves();
    precoder_ranges();
    precoder_lengths();
    precoder_faults();
    random_precoding();
    round_trip();
    shaper();
    const struct tally tallies[] = {activation_levels, data_levels, level_codes, encoder_starts, encodes, encode_runs, history_starts,
                                    precodes, unprecodes, shapers, round_trips, examples};
    print_group("symbols", tallies, ITEMS(tallies));
}

#endif
