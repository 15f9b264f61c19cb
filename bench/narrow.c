/*
 * narrow.c: the precoder in plain C with narrow products; see bench.h. It does the library's work as C would: a coefficient is split into
 * 11 and 11 bits, an output into 9 and 9, by a shift and a mask; each of the four products is 16 by 16 bits, and four sums of 32 bits are
 * put together at the end. So that nothing holds it back it is compiled with -O3 and has no checks: its inputs are the rows' own.
 */
#pragma GCC optimize("O3")
#include "bench.h"

#include <string.h>

#define TAPS SDSL_COEFFICIENTS

static int32_t narrow(int16_t a, int16_t b)
{
    return (int32_t)a * (int32_t)b;
}

static int64_t sum(const int32_t *coefficients, const int32_t *past)
{
    int32_t high_high = 0, high_low = 0, low_high = 0, low_low = 0;
    for (int k = 0; k < TAPS; k++) {
        int16_t c_high = (int16_t)(coefficients[k] >> 11), c_low = (int16_t)(coefficients[k] & 2047);
        int16_t y_high = (int16_t)(past[k] >> 9), y_low = (int16_t)(past[k] & 511);
        high_high += narrow(c_high, y_high);
        high_low += narrow(c_high, y_low);
        low_high += narrow(c_low, y_high);
        low_low += narrow(c_low, y_low);
    }
    return (int64_t)high_high * 1048576 + (int64_t)high_low * 2048 + (int64_t)low_high * 512 + low_low;
}

static int32_t folded(int64_t u)
{
    return (int32_t)((u + SDSL_STEPS) & (2 * SDSL_STEPS - 1)) - SDSL_STEPS;
}

static uint32_t run(bool back, const uint8_t *coefficients, uint8_t *history, const uint8_t *given, size_t len, uint8_t *found)
{
    int32_t taps[TAPS], past[TAPS];
    for (size_t k = 0; k < TAPS; k++) {
        taps[k] = sdsl_get_number(coefficients, k);
        past[k] = sdsl_get_number(history, k);
    }
    for (size_t m = 0; m < len / 4; m++) {
        int32_t z = sdsl_get_number(given, m);
        int64_t v = (sum(taps, past) + SDSL_STEPS / 2) >> 17;
        int32_t w = folded(back ? z + v : z - v);
        memmove(past + 1, past, sizeof past - sizeof *past);
        past[0] = back ? z : w;
        sdsl_put_number(found, m, w);
    }
    for (size_t k = 0; k < TAPS; k++) {
        sdsl_put_number(history, k, past[k]);
    }
    return SDSL_DONE;
}

uint32_t narrow_precode(const uint8_t *coefficients, size_t coefficients_len, uint8_t *history, size_t history_len, const uint8_t *xs,
                        size_t xs_len, uint8_t *ys, size_t ys_len)
{
    (void)coefficients_len, (void)history_len, (void)ys_len;
    return run(false, coefficients, history, xs, xs_len, ys);
}

uint32_t narrow_unprecode(const uint8_t *coefficients, size_t coefficients_len, uint8_t *history, size_t history_len, const uint8_t *ys,
                          size_t ys_len, uint8_t *xs, size_t xs_len)
{
    (void)coefficients_len, (void)history_len, (void)xs_len;
    return run(true, coefficients, history, ys, ys_len, xs);
}
