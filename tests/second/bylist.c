/* bylist.c: see bylist.h. */
#include "bylist.h"

#include "sdsl.h"

#define NEVER SIZE_MAX

struct list {
    const uint8_t *codes;
    size_t len;
};

/* The place of the n-th tick after a place; what comes after NEVER never comes. */
static size_t nth_tick_after(struct list list, size_t place, size_t n)
{
    if (place == NEVER) {
        return NEVER;
    }
    for (size_t i = place + 1; i < list.len; i++) {
        if (list.codes[i] == SDSL_TICK) {
            n--;
            if (n == 0) {
                return i;
            }
        }
    }
    return NEVER;
}

/* The first place with this code, at or behind `from`. */
static size_t first_from(struct list list, size_t from, uint8_t code)
{
    for (size_t i = from; i < list.len; i++) {
        if (list.codes[i] == code) {
            return i;
        }
    }
    return NEVER;
}

/* The first place with this code after a place. */
static size_t first_after(struct list list, size_t place, uint8_t code)
{
    return place == NEVER ? NEVER : first_from(list, place + 1, code);
}

static size_t later(size_t one, size_t other)
{
    return one > other ? one : other;
}

static size_t earlier(size_t one, size_t other)
{
    return one < other ? one : other;
}

/* Where the attempt that opens at a place reaches data mode if nothing goes wrong. Reports that come too early are not counted. */
static size_t data_mode_of(struct list list, uint32_t end, size_t opening)
{
    if (end == SDSL_NTU) {
        size_t sr = nth_tick_after(list, opening, 1000 + 1500); /* C_r, then Quiet */
        size_t tr = later(first_after(list, sr, SDSL_CONVERGED), first_after(list, sr, SDSL_TC_SEEN));
        return first_after(list, tr, SDSL_SECOND_FC_OVER);
    }
    size_t quiet = first_after(list, opening, SDSL_CR_ENDED);
    size_t sc = nth_tick_after(list, quiet, 500);
    size_t tc = later(first_after(list, sc, SDSL_CONVERGED), nth_tick_after(list, sc, 5000));
    size_t fc = first_after(list, tc, SDSL_TR_SEEN);
    return first_after(list, fc, SDSL_SECOND_FC_OVER);
}

/* The tick with which the card is ready again: its silence has passed since `place` and since every code 8 after it. */
static size_t ready_after(struct list list, size_t place, uint32_t silence)
{
    for (;;) {
        size_t again = first_after(list, place, SDSL_ABNORMAL);
        size_t ready = nth_tick_after(list, place, silence);
        if (again > ready || again == NEVER) {
            return ready;
        }
        place = again;
    }
}

struct by_list run_by_list(uint32_t end, uint32_t silence, const uint8_t *codes, size_t len)
{
    struct list list = {codes, len};
    struct by_list result = {0, 0, SDSL_NONE_OPENED, 0};
    size_t hears_from = 0; /* ready at the start */
    for (;;) {
        size_t trouble = first_from(list, hears_from, SDSL_ABNORMAL);
        size_t asked = first_from(list, hears_from, SDSL_PRE_ACTIVATION_ENDED);
        size_t opening = NEVER;
        if (asked < trouble) {
            opening = end == SDSL_NTU ? nth_tick_after(list, asked, 300) : first_after(list, asked, SDSL_CR_BEGINS);
        }
        if (opening < trouble) {
            size_t data_mode = data_mode_of(list, end, opening);
            size_t exception = earlier(trouble, nth_tick_after(list, opening, 15000));
            result.attempts++;
            result.opened_at = opening;
            result.outcome = SDSL_STILL_OPEN;
            result.ended_at = 0;
            if (data_mode < exception) {
                result.outcome = SDSL_IN_DATA_MODE;
                result.ended_at = data_mode;
            } else if (exception != NEVER) {
                result.outcome = SDSL_IN_EXCEPTION;
                result.ended_at = exception;
                trouble = exception;
            }
        }
        size_t ready = ready_after(list, trouble, silence);
        if (ready == NEVER) {
            return result;
        }
        hears_from = ready + 1;
    }
}
