/*
 * others.c: other ways to what the library does; see bench.h. Each way to the check bits answers 0 or SDSL_BAD_CHECK for the frames of
 * `batch`, as sdsl_frame_check does there.
 *
 * The frame's bits lie least bit first in their octets and the first on the line is the highest power, so an octet's turn through a
 * reflected register (0x8408 for D^16 + D^12 + D^5 + 1, starting at 0) has the order of the line, and what stands in it at the end is
 * c1 to c16, least bit first.
 */
#include "bench.h"

#ifdef OSMOCORE /* its version, in quotes: bench/compile defines it where the library was found */
#include <osmocom/core/bits.h>
#include <osmocom/core/crc16.h>
#include <osmocom/core/crc16gen.h>
#include <osmocom/core/crc8gen.h>
#endif

#define MESSAGE_BITS (SDSL_CHECK_BIT - SDSL_COEFFICIENT_BIT)

static uint32_t bit_of(const uint8_t *frame, size_t n)
{
    return frame[(n - 1) / 8] >> ((n - 1) % 8) & 1u;
}

static uint32_t by_bit(uint32_t rest, const uint8_t *frame, size_t first, size_t last)
{
    for (size_t n = first; n <= last; n++) {
        rest = (rest ^ bit_of(frame, n)) & 1u ? rest >> 1 ^ 0x8408u : rest >> 1;
    }
    return rest;
}

/* The 16 check bits in the frame, c1 at weight 1. */
static uint32_t received(const uint8_t *frame)
{
    const uint8_t *at = frame + (SDSL_CHECK_BIT - 1) / 8;
    return ((uint32_t)at[0] | (uint32_t)at[1] << 8 | (uint32_t)at[2] << 16) >> (SDSL_CHECK_BIT - 1) % 8 & 0xFFFFu;
}

/* A register of 16 bits, one bit of the frame at a time: what a card's host would have at first. */
static void register_by_bit(void)
{
    for (size_t i = 0; i < BATCH; i++) {
        uint32_t rest = by_bit(0, batch[i], SDSL_COEFFICIENT_BIT, SDSL_CHECK_BIT - 1);
        results.numbers[i] = rest == received(batch[i]) ? SDSL_DONE : SDSL_BAD_CHECK;
    }
}

/* For ways that take whole octets: the message's first two bits end octet 1 and its last three begin octet 526; these go by the bit. */
typedef uint32_t octets_way(uint32_t rest, const uint8_t *octets, size_t count);

__attribute__((unused)) static void by_octets(octets_way *way)
{
    for (size_t i = 0; i < BATCH; i++) {
        uint32_t rest = by_bit(0, batch[i], SDSL_COEFFICIENT_BIT, 16);
        rest = way(rest, batch[i] + 2, 524);
        rest = by_bit(rest, batch[i], 8 * 526 + 1, SDSL_CHECK_BIT - 1);
        results.numbers[i] = rest == received(batch[i]) ? SDSL_DONE : SDSL_BAD_CHECK;
    }
}

#ifdef OSMOCORE

static const struct osmo_crc16gen_code code = {.bits = 16, .poly = 0x1021, .init = 0, .remainder = 0};
static ubit_t unpacked[BATCH][SDSL_FRAME_BITS];

/* The six check bits of a data-mode frame: X^6 + X + 1, over the bits that they cover. */
#define COVERED_MOST (48 * SDSL_DATA_SIZE_MAX + 28)
static const struct osmo_crc8gen_code six_code = {.bits = 6, .poly = 3, .init = 0, .remainder = 0};
static ubit_t covered[DATA_SETS][BATCH][COVERED_MOST];

static size_t covered_in(size_t size)
{
    return 48 * size + 28;
}

/* Unpacks the four runs of bits that a synchronous frame's check bits cover, one behind the other. */
static void unpack_covered(ubit_t *bits, const uint8_t *frame, unsigned int size)
{
    unsigned int block = 12 * size;
    osmo_pbit2ubit_ext(bits, 0, frame, 14, block + 6, 1);
    osmo_pbit2ubit_ext(bits, block + 6, frame, block + 22, block + 8, 1);
    osmo_pbit2ubit_ext(bits, 2 * block + 14, frame, 2 * block + 32, block + 8, 1);
    osmo_pbit2ubit_ext(bits, 3 * block + 22, frame, 3 * block + 42, block + 6, 1);
}

void prepare_others(void)
{
    for (size_t i = 0; i < BATCH; i++) {
        osmo_pbit2ubit_ext(unpacked[i], 0, batch[i], 0, SDSL_FRAME_BITS, 1);
        unpack_covered(covered[SYNCHRONOUS_24][i], data_sets[SYNCHRONOUS_24].usual[i].frame, 24);
        unpack_covered(covered[SYNCHRONOUS_289][i], data_sets[SYNCHRONOUS_289].usual[i].frame, 289);
    }
}

/* What sdsl_data_crc gives; the six that stand in the frame are read by the bit. */
static void put_sixes(size_t i, const uint8_t *frame, size_t size, const ubit_t *bits)
{
    size_t block = 12 * size;
    results.numbers[3 * i] = SDSL_DONE;
    results.numbers[3 * i + 1] = bit_of(frame, block + 21) << 5 | bit_of(frame, block + 22) << 4 | bit_of(frame, 2 * block + 31) << 3 |
                                 bit_of(frame, 2 * block + 32) << 2 | bit_of(frame, 3 * block + 41) << 1 | bit_of(frame, 3 * block + 42);
    results.numbers[3 * i + 2] = osmo_crc8gen_compute_bits(&six_code, bits, (int)covered_in(size));
}

static void osmo_six(const struct data_set *set)
{
    for (size_t i = 0; i < BATCH; i++) {
        ubit_t bits[COVERED_MOST];
        unpack_covered(bits, set->usual[i].frame, set->size);
        put_sixes(i, set->usual[i].frame, set->size, bits);
    }
}

static void osmo_six_unpacked(const struct data_set *set)
{
    for (size_t i = 0; i < BATCH; i++) {
        put_sixes(i, set->usual[i].frame, set->size, covered[set - data_sets][i]);
    }
}

static void osmo_six_24(void)
{
    osmo_six(&data_sets[SYNCHRONOUS_24]);
}

static void osmo_six_289(void)
{
    osmo_six(&data_sets[SYNCHRONOUS_289]);
}

static void osmo_six_24_unpacked(void)
{
    osmo_six_unpacked(&data_sets[SYNCHRONOUS_24]);
}

static void osmo_six_289_unpacked(void)
{
    osmo_six_unpacked(&data_sets[SYNCHRONOUS_289]);
}

static uint32_t judged(const ubit_t *bits)
{
    return osmo_crc16gen_check_bits(&code, bits + SDSL_COEFFICIENT_BIT - 1, MESSAGE_BITS, bits + SDSL_CHECK_BIT - 1) == 0 ? SDSL_DONE
                                                                                                                          : SDSL_BAD_CHECK;
}

static void osmo_gen(void)
{
    for (size_t i = 0; i < BATCH; i++) {
        ubit_t bits[SDSL_FRAME_BITS];
        osmo_pbit2ubit_ext(bits, 0, batch[i], 0, SDSL_FRAME_BITS, 1);
        results.numbers[i] = judged(bits);
    }
}

static void osmo_gen_unpacked(void)
{
    for (size_t i = 0; i < BATCH; i++) {
        results.numbers[i] = judged(unpacked[i]);
    }
}

/* With a table of 256. */
static uint32_t osmo_octets(uint32_t rest, const uint8_t *octets, size_t count)
{
    return osmo_crc16_ccitt((uint16_t)rest, octets, count);
}

static void osmo_table(void)
{
    by_octets(osmo_octets);
}

#else

#define osmo_gen NULL
#define osmo_gen_unpacked NULL
#define osmo_table NULL
#define osmo_six_24 NULL
#define osmo_six_289 NULL
#define osmo_six_24_unpacked NULL
#define osmo_six_289_unpacked NULL

void prepare_others(void)
{
}

#endif

/* Defined where libcrcutil was found, with its version; crcutil.cpp calls it. */
#ifdef CRCUTIL
octets_way crcutil_octets;

static void crcutil_words(void)
{
    by_octets(crcutil_octets);
}
#else
#define crcutil_words NULL
#endif

const struct other check_others[] = {
    {"osmo_crc16gen", osmo_gen},
    {"osmo_crc16gen, bits unpacked beforehand", osmo_gen_unpacked},
    {"osmo_crc16_ccitt, by the octet", osmo_table},
    {"libcrcutil, by the word", crcutil_words},
    {"bit-serial register, plain C", register_by_bit},
    {NULL, NULL},
};

const struct other six_24_others[] = {
    {"osmo_crc8gen", osmo_six_24},
    {"osmo_crc8gen, bits unpacked beforehand", osmo_six_24_unpacked},
    {NULL, NULL},
};
const struct other six_289_others[] = {
    {"osmo_crc8gen", osmo_six_289},
    {"osmo_crc8gen, bits unpacked beforehand", osmo_six_289_unpacked},
    {NULL, NULL},
};

/*
 * Defined where GNU Radio's header was found, with its version; its passes are in radio.cpp. It has no activation frame to write: it is
 * handed the frames of the rows for sending as they are before they are scrambled.
 */
#ifdef RADIO
void radio_training_ltu(void), radio_training_ntu(void), radio_final_ltu(void), radio_final_ntu(void);
void radio_descramble_ltu(void), radio_descramble_ntu(void);
#else
#define radio_training_ltu NULL
#define radio_training_ntu NULL
#define radio_final_ltu NULL
#define radio_final_ntu NULL
#define radio_descramble_ltu NULL
#define radio_descramble_ntu NULL
#endif

#define WRITTEN "GNU Radio's lfsr, frames written beforehand"
const struct other send_training_ltu_others[] = {{WRITTEN, radio_training_ltu}, {NULL, NULL}};
const struct other send_training_ntu_others[] = {{WRITTEN, radio_training_ntu}, {NULL, NULL}};
const struct other send_final_ltu_others[] = {{WRITTEN, radio_final_ltu}, {NULL, NULL}};
const struct other send_final_ntu_others[] = {{WRITTEN, radio_final_ntu}, {NULL, NULL}};
const struct other descramble_ltu_others[] = {{"GNU Radio's lfsr", radio_descramble_ltu}, {NULL, NULL}};
const struct other descramble_ntu_others[] = {{"GNU Radio's lfsr", radio_descramble_ntu}, {NULL, NULL}};

#ifndef OSMOCORE
#define OSMOCORE "not here"
#endif
#ifndef CRCUTIL
#define CRCUTIL "not here"
#endif
#ifndef RADIO
#define RADIO "not here"
#endif
const char others_found[] = "libosmocore " OSMOCORE ", libcrcutil " CRCUTIL ", GNU Radio " RADIO;
