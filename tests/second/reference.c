/*
 * reference.c: the second implementation, from the sentences of SCOPE and the requests, by the bit and with no tricks.
 *
 * Bits are kept one to an array element and numbered from 1, as in the paper: bits[n] is bit n and bits[0] is not used. Refusals stand
 * in each function in the order of the paper's table. Everything is checked before the first octet of lent memory is written.
 */
#include "reference.h"

#include <stdbool.h>
#include <stdlib.h>

/* ---- Bits and numbers in octets ---- */

/* Bit n has weight 2 to the power (n-1) mod 8 in octet (n-1)/8. */
static void unpack(const uint8_t *octets, size_t count, uint8_t *bits)
{
    for (size_t n = 1; n <= count; n++) {
        bits[n] = (uint8_t)((octets[(n - 1) / 8] >> ((n - 1) % 8)) % 2);
    }
}

/* The other way; only bits 1 to count of the octets change. */
static void pack(const uint8_t *bits, size_t count, uint8_t *octets)
{
    for (size_t n = 1; n <= count; n++) {
        int weight = 1 << ((n - 1) % 8);
        int others = octets[(n - 1) / 8] & ~weight;
        octets[(n - 1) / 8] = (uint8_t)(others + weight * bits[n]);
    }
}

/* Number i, from 0, of a buffer of numbers: four octets, low octet first, two's complement. */
static int64_t number_at(const uint8_t *octets, size_t i)
{
    int64_t number = 0;
    int64_t weight = 1;
    for (size_t k = 0; k < 4; k++) {
        number += weight * octets[4 * i + k];
        weight *= 256;
    }
    if (number >= 2147483648) {
        number -= 4294967296;
    }
    return number;
}

static void put_number(uint8_t *octets, size_t i, int64_t number)
{
    if (number < 0) {
        number += 4294967296;
    }
    for (size_t k = 0; k < 4; k++) {
        octets[4 * i + k] = (uint8_t)(number % 256);
        number /= 256;
    }
}

/* An array of bits (or what else) that the caller frees. */
static void *room_for(size_t count, size_t size)
{
    void *room = calloc(count + 1, size);
    if (room == NULL) {
        abort();
    }
    return room;
}

/* ---- The activation frame ---- */

#define FRAME_BITS 4232 /* with the five pad bits */
#define LAST_BIT 4227

#define FIRST_COEFFICIENT_BIT 15
#define A_BIT 3975
#define B_BIT 3996
#define VENDOR_BIT 4017
#define RESERVED_BIT 4145
#define CHECK_BIT 4212

#define MESSAGE_BITS (4211 - 15 + 1)

static const char training_sync[] = "11111001101011";
static const char final_sync[] = "11010110011111";

/* Writes a number from bit `first` on, least bit first. */
static void put_field(uint8_t *bits, size_t first, size_t width, int64_t number)
{
    for (size_t i = 0; i < width; i++) {
        bits[first + i] = (uint8_t)(number % 2);
        number /= 2;
    }
}

/* Reads a number from bit `first` on, least bit first. */
static int64_t get_field(const uint8_t *bits, size_t first, size_t width)
{
    int64_t number = 0;
    int64_t weight = 1;
    for (size_t i = 0; i < width; i++) {
        number += weight * bits[first + i];
        weight *= 2;
    }
    return number;
}

static void put_sync(uint8_t *bits, const char *sync)
{
    for (size_t n = 1; n <= 14; n++) {
        bits[n] = sync[n - 1] == '1';
    }
}

static bool has_sync(const uint8_t *bits, const char *sync)
{
    for (size_t n = 1; n <= 14; n++) {
        if (bits[n] != (sync[n - 1] == '1')) {
            return false;
        }
    }
    return true;
}

/* Whether bits `first` to `last` are all zero. */
static bool all_zero(const uint8_t *bits, size_t first, size_t last)
{
    for (size_t n = first; n <= last; n++) {
        if (bits[n] != 0) {
            return false;
        }
    }
    return true;
}

/*
 * Check bits c[1] to c[16] of a frame's bits 15 to 4211, by schoolbook division. rest[0] is the coefficient of the highest power: the
 * message times D^16 has 16 zeros behind the message.
 */
static void divide(const uint8_t *bits, uint8_t *c)
{
    /* The divisor's D^16, D^12, D^5 and 1 stand so many places behind the coefficient that they take away. */
    static const size_t places[4] = {0, 4, 11, 16};
    uint8_t rest[MESSAGE_BITS + 16] = {0};
    for (size_t i = 0; i < MESSAGE_BITS; i++) {
        rest[i] = bits[FIRST_COEFFICIENT_BIT + i];
    }
    for (size_t i = 0; i < MESSAGE_BITS; i++) {
        if (rest[i] == 1) {
            for (size_t k = 0; k < 4; k++) {
                rest[i + places[k]] = (uint8_t)(1 - rest[i + places[k]]);
            }
        }
    }
    for (size_t i = 1; i <= 16; i++) {
        c[i] = rest[MESSAGE_BITS + i - 1];
    }
}

static void put_check_bits(uint8_t *bits)
{
    uint8_t c[17];
    divide(bits, c);
    for (size_t i = 1; i <= 16; i++) {
        bits[CHECK_BIT + i - 1] = c[i];
    }
}

void ref_put_check_bits(uint8_t *frame)
{
    uint8_t bits[FRAME_BITS + 1];
    unpack(frame, FRAME_BITS, bits);
    put_check_bits(bits);
    pack(bits, FRAME_BITS, frame);
}

/* A frame of these fields before it is scrambled, its pad zero. Nothing is checked here. */
static void make_bits(uint32_t kind, uint32_t count, const uint8_t *coefficients, uint32_t a, uint32_t b, const uint8_t *vendor,
                      uint8_t *bits)
{
    for (size_t n = 0; n <= FRAME_BITS; n++) {
        bits[n] = 0;
    }
    put_sync(bits, kind == SDSL_TRAINING ? training_sync : final_sync);
    if (kind == SDSL_TRAINING) {
        for (size_t i = 0; i < count; i++) {
            int64_t number = number_at(coefficients, i);
            if (number < 0) {
                number += 4194304;
            }
            put_field(bits, FIRST_COEFFICIENT_BIT + 22 * i, 22, number);
        }
        put_field(bits, A_BIT, 21, a);
        put_field(bits, B_BIT, 21, b);
    }
    unpack(vendor, 128, bits + VENDOR_BIT - 1);
    put_check_bits(bits);
}

void ref_make_frame(uint32_t kind, uint32_t count, const uint8_t *coefficients, uint32_t a, uint32_t b, const uint8_t *vendor,
                    uint8_t *frame)
{
    uint8_t bits[FRAME_BITS + 1];
    make_bits(kind, count, coefficients, a, b, vendor, bits);
    pack(bits, FRAME_BITS, frame);
}

/* Refusals 5 to 7 of a frame of the right length, and its kind. Reserved bits are under the check bits, and not judged otherwise. */
static uint32_t judge(const uint8_t *bits, uint32_t *kind)
{
    if (!has_sync(bits, training_sync) && !has_sync(bits, final_sync)) {
        return SDSL_NO_SYNC;
    }
    *kind = has_sync(bits, training_sync) ? SDSL_TRAINING : SDSL_FINAL;
    if (!all_zero(bits, LAST_BIT + 1, FRAME_BITS)) {
        return SDSL_BAD_PAD;
    }
    uint8_t c[17];
    divide(bits, c);
    for (size_t i = 1; i <= 16; i++) {
        if (bits[CHECK_BIT + i - 1] != c[i]) {
            return SDSL_BAD_CHECK;
        }
    }
    return SDSL_DONE;
}

struct sdsl_frame_fields ref_frame_read(const uint8_t *frame, size_t frame_len,
                                        uint8_t *coefficients, size_t coefficients_len,
                                        uint8_t *vendor, size_t vendor_len,
                                        uint8_t *reserved, size_t reserved_len)
{
    struct sdsl_frame_fields fields = {0, 0, 0, 0};
    if (frame_len != 529 || coefficients_len != 720 || vendor_len != 16 || reserved_len != 9) {
        fields.answer = SDSL_BAD_LENGTH;
        return fields;
    }
    uint8_t bits[FRAME_BITS + 1];
    uint32_t kind = 0;
    unpack(frame, FRAME_BITS, bits);
    fields.answer = judge(bits, &kind);
    if (fields.answer != SDSL_DONE) {
        return fields;
    }

    fields.kind = kind;
    pack(bits + VENDOR_BIT - 1, 128, vendor);
    if (kind == SDSL_TRAINING) {
        for (size_t i = 0; i < 180; i++) {
            int64_t number = get_field(bits, FIRST_COEFFICIENT_BIT + 22 * i, 22);
            if (number >= 2097152) {
                number -= 4194304;
            }
            put_number(coefficients, i, number);
        }
        fields.a = (uint32_t)get_field(bits, A_BIT, 21);
        fields.b = (uint32_t)get_field(bits, B_BIT, 21);
        /* Nine octets have 72 bits: the 67 reserved ones, and five zeros. */
        uint8_t nine[72 + 1] = {0};
        for (size_t i = 1; i <= 67; i++) {
            nine[i] = bits[RESERVED_BIT + i - 1];
        }
        pack(nine, 72, reserved);
    }
    return fields;
}

uint32_t ref_frame_check(const uint8_t *frame, size_t frame_len)
{
    if (frame_len != 529) {
        return SDSL_BAD_LENGTH;
    }
    uint8_t bits[FRAME_BITS + 1];
    uint32_t kind = 0;
    unpack(frame, FRAME_BITS, bits);
    return judge(bits, &kind);
}

/* ---- The data-mode frame ---- */

/*
 * Table 7.2 in letters, one for each bit, in the order in which they are sent:
 *
 *     s  sync word       e  eoc01 to eoc20   i  sbid1, sbid2
 *     f  fbit1 to fbit4  c  crc1 to crc6     x  stuffing bits, or the two spare bits of the synchronous form
 *
 * So the third e is eoc03: the bits of each letter come in their own order, from the first on. Behind each of these four rows come 12
 * payload sub-blocks of k bits, and at the frame's end a tail of x.
 */
static const char *const overhead_rows[4] = {"ssssssssssssssff", "eeeeccfiee", "eeeeccfeei", "eeeecceeee"};

#define DATA_BITS_ROOM 14000 /* more than the bits of the longest frame, 13,922 */

/* How many x a frame of this form has, if nothing is stuffed. */
static size_t plain_tail(uint32_t form)
{
    return form == SDSL_SYNCHRONOUS ? 2 : 0;
}

/* Bit n of octets, from 1. */
static uint8_t data_bit(const uint8_t *octets, size_t n)
{
    return (uint8_t)((octets[(n - 1) / 8] >> ((n - 1) % 8)) % 2);
}

/* A frame taken apart, bit by bit. */
struct dealt {
    uint32_t number['x' + 1]; /* for each letter its bits as a number, the first at weight 1 */
    uint32_t weight['x' + 1]; /* that of the letter's next bit */
    uint8_t payload[DATA_BITS_ROOM]; /* bits 1 to payload_bits */
    size_t payload_bits;
    uint8_t covered[DATA_BITS_ROOM]; /* what the crc covers, bits 1 to m */
    size_t m;
    size_t frame_bits; /* without the room behind */
};

static void deal_letter(uint32_t form, char letter, uint8_t bit, struct dealt *d)
{
    size_t l = (size_t)letter;
    d->number[l] += d->weight[l] * bit;
    d->weight[l] *= 2;
    bool stuffing = letter == 'x' && form == SDSL_PLESIOCHRONOUS;
    if (letter != 's' && letter != 'c' && !stuffing) {
        d->m++;
        d->covered[d->m] = bit;
    }
}

static void deal(uint32_t form, uint32_t k, size_t tail, const uint8_t *frame, struct dealt *d)
{
    for (size_t l = 0; l <= 'x'; l++) {
        d->number[l] = 0;
        d->weight[l] = 1;
    }
    d->payload_bits = 0;
    d->m = 0;
    size_t n = 0;
    for (size_t row = 0; row < 4; row++) {
        for (const char *letter = overhead_rows[row]; *letter != '\0'; letter++) {
            n++;
            deal_letter(form, *letter, data_bit(frame, n), d);
        }
        size_t run = 12 * (size_t)k;
        uint8_t *payload = d->payload + d->payload_bits;
        uint8_t *covered = d->covered + d->m;
        for (size_t i = 1; i <= run; i++) {
            uint8_t bit = data_bit(frame, n + i);
            payload[i] = bit;
            covered[i] = bit;
        }
        n += run;
        d->payload_bits += run;
        d->m += run;
    }
    for (size_t i = 0; i < tail; i++) {
        n++;
        deal_letter(form, 'x', data_bit(frame, n), d);
    }
    d->frame_bits = n;
}

/* The six c that stand in a frame: the first, crc1, weighs 32. */
static uint32_t carried_crc(const struct dealt *d)
{
    uint32_t crc = 0;
    for (size_t i = 0; i < 6; i++) {
        crc = 2 * crc + (d->number['c'] >> i) % 2;
    }
    return crc;
}

/*
 * The crc that the next frame has to carry, by schoolbook division: the covered bits, the first of them the coefficient of the highest
 * power, with six zeros behind them, by X^6 + X + 1. The coefficient of X^5 in what is left is crc1 and weighs 32.
 */
static uint32_t due_crc(struct dealt *d)
{
    uint8_t *rest = d->covered;
    for (size_t i = 1; i <= 6; i++) {
        rest[d->m + i] = 0;
    }
    /* From each coefficient on the divisor is taken away as often as the coefficient says: its X^6 there, its X and 1 behind. */
    size_t m = d->m;
    for (size_t i = 1; i <= m; i++) {
        rest[i + 5] = (uint8_t)((rest[i + 5] + rest[i]) % 2);
        rest[i + 6] = (uint8_t)((rest[i + 6] + rest[i]) % 2);
    }
    uint32_t crc = 0;
    for (size_t i = 1; i <= 6; i++) {
        crc = 2 * crc + rest[m + i];
    }
    return crc;
}

/* A form that there is not might have the room of either. */
static bool is_data_room(uint32_t form, size_t frame_len)
{
    if (form == SDSL_SYNCHRONOUS) {
        return frame_len == 1740;
    }
    if (form == SDSL_PLESIOCHRONOUS) {
        return frame_len == 1741;
    }
    return frame_len == 1740 || frame_len == 1741;
}

static bool is_data_payload(uint32_t size, size_t payload_len)
{
    return (uint64_t)payload_len == 6 * (uint64_t)size;
}

static bool is_data_form(uint32_t form)
{
    return form == SDSL_SYNCHRONOUS || form == SDSL_PLESIOCHRONOUS;
}

/* k = i + 8 n with i from 0 to 7 and n from 3 to 36; where n is 36, i is 0 or 1. */
static bool is_data_size(uint32_t size)
{
    uint32_t i = size % 8;
    uint32_t n = size / 8;
    return n >= 3 && n <= 36 && (n < 36 || i <= 1);
}

/* Puts the next bit, number *n + 1, into a frame of zeros. */
static void put_next(uint8_t *frame, size_t *n, uint32_t bit)
{
    frame[*n / 8] = (uint8_t)(frame[*n / 8] + (bit << (*n % 8)));
    (*n)++;
}

struct sdsl_data_written ref_data_write(uint32_t form, uint32_t size, uint32_t sync,
                                        struct sdsl_data_overhead overhead,
                                        const uint8_t *payload, size_t payload_len,
                                        uint8_t *frame, size_t frame_len)
{
    struct sdsl_data_written result = {0, 0};
    if (!is_data_room(form, frame_len) || !is_data_payload(size, payload_len)) {
        result.answer = SDSL_BAD_LENGTH;
        return result;
    }
    if (!is_data_form(form)) {
        result.answer = SDSL_UNKNOWN;
        return result;
    }
    bool synchronous = form == SDSL_SYNCHRONOUS;
    if (!is_data_size(size) || sync > 16383 || overhead.indicators > 15 || overhead.eoc > 1048575 || overhead.crc > 63 ||
        (synchronous && overhead.spare > 15)) {
        result.answer = SDSL_OUT_OF_RANGE;
        return result;
    }
    if (overhead.stuffing != 0 && (synchronous || overhead.stuffing != 4)) {
        result.answer = SDSL_BAD_STUFFING;
        return result;
    }

    for (size_t i = 0; i < frame_len; i++) {
        frame[i] = 0;
    }
    /* What i and x hold, the first at weight 1: the spare bits, or whether there is stuffing, and stuffing bits, which are ONE. */
    uint32_t spare = synchronous ? overhead.spare : overhead.stuffing == 4 ? 63 : 0;
    size_t tail = synchronous ? 2 : overhead.stuffing;
    size_t n = 0;
    size_t payload_bits = 0;
    for (size_t row = 0; row < 4; row++) {
        for (const char *letter = overhead_rows[row]; *letter != '\0'; letter++) {
            switch (*letter) {
            case 's':
                put_next(frame, &n, sync % 2);
                sync /= 2;
                break;
            case 'f':
                put_next(frame, &n, overhead.indicators % 2);
                overhead.indicators /= 2;
                break;
            case 'e':
                put_next(frame, &n, overhead.eoc % 2);
                overhead.eoc /= 2;
                break;
            case 'c': /* crc1 weighs 32: once it is out, crc2 does */
                put_next(frame, &n, overhead.crc / 32 % 2);
                overhead.crc *= 2;
                break;
            default: /* i */
                put_next(frame, &n, spare % 2);
                spare /= 2;
                break;
            }
        }
        for (size_t i = 0; i < 12 * (size_t)size; i++) {
            payload_bits++;
            put_next(frame, &n, data_bit(payload, payload_bits));
        }
    }
    for (size_t i = 0; i < tail; i++) {
        put_next(frame, &n, spare % 2);
        spare /= 2;
    }
    struct dealt d;
    deal(form, size, tail, frame, &d);
    result.crc = due_crc(&d);
    return result;
}

struct sdsl_data_crcs ref_data_crc(uint32_t form, uint32_t size, const uint8_t *frame, size_t frame_len)
{
    struct sdsl_data_crcs result = {0, 0, 0};
    if (!is_data_room(form, frame_len)) {
        result.answer = SDSL_BAD_LENGTH;
    } else if (!is_data_form(form)) {
        result.answer = SDSL_UNKNOWN;
    } else if (!is_data_size(size)) {
        result.answer = SDSL_OUT_OF_RANGE;
    } else {
        struct dealt d;
        deal(form, size, plain_tail(form), frame, &d);
        result.carried = carried_crc(&d);
        result.due = due_crc(&d);
    }
    return result;
}

/* The refusals of a reader, but that for its payload's length. Where there is none the frame comes back taken apart. */
static uint32_t judge_data(uint32_t form, uint32_t size, uint32_t sync, uint32_t next_crc, const uint8_t *frame, size_t frame_len,
                           struct dealt *d)
{
    if (!is_data_room(form, frame_len)) {
        return SDSL_BAD_LENGTH;
    }
    if (!is_data_form(form)) {
        return SDSL_UNKNOWN;
    }
    if (!is_data_size(size) || sync > 16383 || next_crc > 63) {
        return SDSL_OUT_OF_RANGE;
    }

    for (size_t n = 1; n <= 14; n++) {
        if (data_bit(frame, n) != (sync >> (n - 1)) % 2) {
            return SDSL_NO_SYNC;
        }
    }
    deal(form, size, plain_tail(form), frame, d);
    if (form == SDSL_PLESIOCHRONOUS && d->number['i'] != 0) {
        if (d->number['i'] != 3) {
            return SDSL_BAD_STUFFING;
        }
        deal(form, size, 4, frame, d);
        if (d->number['x'] != 15) {
            return SDSL_BAD_STUFFING;
        }
    }
    /* Bits to the end of the octet in which the frame ends, then octets. */
    size_t n = d->frame_bits;
    while (n % 8 != 0) {
        n++;
        if (data_bit(frame, n) != 0) {
            return SDSL_BAD_PAD;
        }
    }
    for (size_t i = n / 8; i < frame_len; i++) {
        if (frame[i] != 0) {
            return SDSL_BAD_PAD;
        }
    }
    if (due_crc(d) != next_crc) {
        return SDSL_BAD_CHECK;
    }
    return SDSL_DONE;
}

struct sdsl_data_fields ref_data_read(uint32_t form, uint32_t size, uint32_t sync, uint32_t next_crc,
                                      const uint8_t *frame, size_t frame_len,
                                      uint8_t *payload, size_t payload_len)
{
    struct sdsl_data_fields fields = {0, {0, 0, 0, 0, 0}};
    if (!is_data_payload(size, payload_len)) {
        fields.answer = SDSL_BAD_LENGTH;
        return fields;
    }
    struct dealt d;
    fields.answer = judge_data(form, size, sync, next_crc, frame, frame_len, &d);
    if (fields.answer != SDSL_DONE) {
        return fields;
    }
    fields.overhead.indicators = d.number['f'];
    fields.overhead.eoc = d.number['e'];
    fields.overhead.crc = carried_crc(&d);
    if (form == SDSL_SYNCHRONOUS) {
        fields.overhead.spare = d.number['i'] + 4 * d.number['x'];
    } else {
        fields.overhead.stuffing = d.number['i'] == 3 ? 4 : 0;
    }
    pack(d.payload, d.payload_bits, payload);
    return fields;
}

uint32_t ref_data_check(uint32_t form, uint32_t size, uint32_t sync, uint32_t next_crc, const uint8_t *frame, size_t frame_len)
{
    struct dealt d;
    return judge_data(form, size, sync, next_crc, frame, frame_len, &d);
}

/* ---- Messages of the operations channel, eoc ---- */

/*
 * Table 10.4. Between the two flags of a message stand these octets, which are called plain as long as they are not escaped:
 *
 *     1             source in the high four bits, destination in the low four
 *     2             message number
 *     3 to L + 2    contents
 *     L + 3, L + 4  check sequence
 *
 * The request allows octets 1 to L + 2 to be 75 at most and two at least. So there are 4 to 77 plain octets, and L is 0 to 73.
 */
#define EOC_FLAG 0x7E
#define EOC_ESCAPE 0x7D
#define EOC_PLAIN_MIN 4
#define EOC_PLAIN_MAX 77
#define EOC_CONTENTS 73
#define EOC_ROOM 156 /* all 77 escaped, and two flags */
#define EOC_UNIT 79

/*
 * The FCS-16 of RFC 1662 by schoolbook division: the bits in the order in which they are sent, each octet's lowest first, the first of
 * them the coefficient of the highest power, with sixteen zeros behind them, by X^16 + X^12 + X^5 + 1. That the register starts with
 * ones means that the first sixteen bits are turned over. What is left is turned over too. The coefficient of X^15 is sent first, so it
 * is the lowest bit of the first octet.
 */
static void check_sequence(const uint8_t *octets, size_t count, uint8_t *two)
{
    size_t m = 8 * count;
    uint8_t *rest = room_for(m + 16, 1);
    unpack(octets, m, rest);
    for (size_t i = 1; i <= 16; i++) {
        rest[i] = (uint8_t)(1 - rest[i]);
    }
    /* From each coefficient on the divisor is taken away as often as the coefficient says: its X^16 there, the others behind. */
    for (size_t i = 1; i <= m; i++) {
        rest[i + 4] = (uint8_t)((rest[i + 4] + rest[i]) % 2);
        rest[i + 11] = (uint8_t)((rest[i + 11] + rest[i]) % 2);
        rest[i + 16] = (uint8_t)((rest[i + 16] + rest[i]) % 2);
    }
    uint8_t c[17];
    for (size_t i = 1; i <= 16; i++) {
        c[i] = (uint8_t)(1 - rest[m + i]);
    }
    free(rest);
    pack(c, 16, two);
}

/* Escapes plain octets; says how many they become. */
static size_t put_escapes(const uint8_t *plain, size_t count, uint8_t *inner)
{
    size_t n = 0;
    for (size_t i = 0; i < count; i++) {
        if (plain[i] == EOC_FLAG || plain[i] == EOC_ESCAPE) {
            inner[n] = EOC_ESCAPE;
            inner[n + 1] = plain[i] == EOC_FLAG ? 0x5E : 0x5D;
            n += 2;
        } else {
            inner[n] = plain[i];
            n++;
        }
    }
    return n;
}

struct sdsl_eoc_written ref_eoc_write(uint32_t source, uint32_t destination, uint32_t number,
                                      const uint8_t *contents, size_t contents_len,
                                      uint8_t *room, size_t room_len)
{
    struct sdsl_eoc_written result = {0, 0};
    if (room_len != EOC_ROOM) {
        result.answer = SDSL_BAD_LENGTH;
        return result;
    }
    if (source > 15 || destination > 15 || number > 255) {
        result.answer = SDSL_OUT_OF_RANGE;
        return result;
    }
    if (contents_len > EOC_CONTENTS) {
        result.answer = SDSL_BAD_SIZE;
        return result;
    }

    uint8_t plain[EOC_PLAIN_MAX] = {0};
    size_t count = 2 + contents_len;
    plain[0] = (uint8_t)(16 * source + destination);
    plain[1] = (uint8_t)number;
    for (size_t i = 0; i < contents_len; i++) {
        plain[2 + i] = contents[i];
    }
    check_sequence(plain, count, plain + count);

    uint8_t inner[2 * EOC_PLAIN_MAX];
    size_t n = put_escapes(plain, count + 2, inner);
    for (size_t i = 0; i < EOC_ROOM; i++) {
        room[i] = 0;
    }
    room[0] = EOC_FLAG;
    for (size_t i = 0; i < n; i++) {
        room[1 + i] = inner[i];
    }
    room[1 + n] = EOC_FLAG;
    result.length = (uint32_t)(n + 2);
    return result;
}

/* A flag at either end, which are two octets, and none between them. */
static bool has_flags(const uint8_t *octets, size_t len)
{
    if (len < 2 || octets[0] != EOC_FLAG || octets[len - 1] != EOC_FLAG) {
        return false;
    }
    for (size_t i = 1; i < len - 1; i++) {
        if (octets[i] == EOC_FLAG) {
            return false;
        }
    }
    return true;
}

/* Behind every escape, and still before the closing flag, one of the two that may stand there. */
static bool has_escapes(const uint8_t *inner, size_t n)
{
    for (size_t i = 0; i < n; i++) {
        if (inner[i] == EOC_ESCAPE) {
            if (i + 1 == n || (inner[i + 1] != 0x5E && inner[i + 1] != 0x5D)) {
                return false;
            }
        }
    }
    return true;
}

/* Takes the escapes out, where has_escapes; says how many plain octets there are. */
static size_t take_escapes(const uint8_t *inner, size_t n, uint8_t *plain)
{
    size_t count = 0;
    for (size_t i = 0; i < n; i++) {
        if (inner[i] == EOC_ESCAPE) {
            i++;
            plain[count] = inner[i] == 0x5E ? EOC_FLAG : EOC_ESCAPE;
        } else {
            plain[count] = inner[i];
        }
        count++;
    }
    return count;
}

/*
 * The refusals of a reader, but that for its room. Each looks at the whole message before the next is looked at. Where there is none the
 * plain octets, up to 77, come back.
 */
static uint32_t judge_message(const uint8_t *octets, size_t len, uint8_t *plain, size_t *count)
{
    if (!has_flags(octets, len)) {
        return SDSL_BAD_FLAG;
    }
    if (!has_escapes(octets + 1, len - 2)) {
        return SDSL_BAD_ESCAPE;
    }
    uint8_t *all = room_for(len - 2, 1);
    *count = take_escapes(octets + 1, len - 2, all);
    bool fits = *count >= EOC_PLAIN_MIN && *count <= EOC_PLAIN_MAX;
    for (size_t i = 0; i < *count && fits; i++) {
        plain[i] = all[i];
    }
    free(all);
    if (!fits) {
        return SDSL_BAD_SIZE;
    }
    uint8_t due[2] = {0, 0};
    check_sequence(plain, *count - 2, due);
    if (plain[*count - 2] != due[0] || plain[*count - 1] != due[1]) {
        return SDSL_BAD_CHECK;
    }
    return SDSL_DONE;
}

/* What the plain octets say. */
static struct sdsl_eoc_message message_of(const uint8_t *plain, size_t count)
{
    struct sdsl_eoc_message message = {SDSL_DONE, plain[0] / 16, plain[0] % 16, plain[1], (uint32_t)(count - 4)};
    return message;
}

/* The contents, and zeros behind them up to 73. */
static void put_contents(const uint8_t *plain, size_t count, uint8_t *contents)
{
    for (size_t i = 0; i < EOC_CONTENTS; i++) {
        contents[i] = i < count - 4 ? plain[2 + i] : 0;
    }
}

struct sdsl_eoc_message ref_eoc_read(const uint8_t *octets, size_t octets_len,
                                     uint8_t *contents, size_t contents_len)
{
    struct sdsl_eoc_message message = {0, 0, 0, 0, 0};
    if (contents_len != EOC_CONTENTS) {
        message.answer = SDSL_BAD_LENGTH;
        return message;
    }
    uint8_t plain[EOC_PLAIN_MAX] = {0};
    size_t count = 0;
    message.answer = judge_message(octets, octets_len, plain, &count);
    if (message.answer != SDSL_DONE) {
        return message;
    }
    message = message_of(plain, count);
    put_contents(plain, count, contents);
    return message;
}

/* Its own address, that of the adjacent unit, and that of all units. */
static bool is_meant(uint32_t own, uint32_t destination)
{
    return destination == own || destination == 0 || destination == 15;
}

struct sdsl_eoc_handed_up ref_eoc_hand_up(const uint8_t *octets, size_t octets_len,
                                          uint8_t *units, size_t units_len)
{
    struct sdsl_eoc_handed_up result = {0, 0};
    if (units_len % EOC_UNIT != 0) {
        result.answer = SDSL_BAD_LENGTH;
        return result;
    }
    for (size_t at = 0; at < units_len; at += EOC_UNIT) {
        if (units[at] > 15) {
            result.answer = SDSL_OUT_OF_RANGE;
            return result;
        }
    }
    uint8_t plain[EOC_PLAIN_MAX] = {0};
    size_t count = 0;
    result.answer = judge_message(octets, octets_len, plain, &count);
    if (result.answer != SDSL_DONE) {
        return result;
    }

    struct sdsl_eoc_message message = message_of(plain, count);
    for (size_t at = 0; at < units_len; at += EOC_UNIT) {
        if (is_meant(units[at], message.destination)) {
            units[at + 1] = 1;
            units[at + 2] = (uint8_t)message.source;
            units[at + 3] = (uint8_t)message.destination;
            units[at + 4] = (uint8_t)message.number;
            units[at + 5] = (uint8_t)message.length;
            put_contents(plain, count, units + at + 6);
            result.units++;
        }
    }
    return result;
}

/* ---- The scrambler ---- */

/*
 * The scrambled bits of a run stand in one array together with the 23 before it: s(n) is s[22 + n]. So s(0), the newest before the run,
 * is s[22], and s(-22), the oldest that is needed, is s[0].
 */

static size_t tap_of(uint32_t end)
{
    return end == SDSL_LTU ? 5 : 18;
}

/* A state holds the last 23 scrambled bits, newest at weight 1. */
static void recall(uint32_t state, uint8_t *s)
{
    for (size_t back = 0; back <= 22; back++) {
        s[22 - back] = (uint8_t)(state % 2);
        state /= 2;
    }
}

static uint32_t state_after(const uint8_t *s, size_t n)
{
    uint32_t state = 0;
    uint32_t weight = 1;
    for (size_t back = 0; back <= 22; back++) {
        state += weight * s[22 + n - back];
        weight *= 2;
    }
    return state;
}

/* f[1] to f[count] in; out[1] to out[count] and the next state back. */
static uint32_t scramble_bits(uint32_t end, uint32_t state, const uint8_t *f, size_t count, uint8_t *out)
{
    size_t tap = tap_of(end);
    uint8_t *s = room_for(23 + count, 1);
    recall(state, s);
    for (size_t n = 1; n <= count; n++) {
        s[22 + n] = (uint8_t)((f[n] + s[22 + n - tap] + s[22 + n - 23]) % 2);
        out[n] = s[22 + n];
    }
    uint32_t next = state_after(s, count);
    free(s);
    return next;
}

/* The received bits are the scrambled ones. */
static uint32_t descramble_bits(uint32_t end, uint32_t state, const uint8_t *received, size_t count, uint8_t *out)
{
    size_t tap = tap_of(end);
    uint8_t *s = room_for(23 + count, 1);
    recall(state, s);
    for (size_t n = 1; n <= count; n++) {
        s[22 + n] = received[n];
    }
    for (size_t n = 1; n <= count; n++) {
        out[n] = (uint8_t)((s[22 + n] + s[22 + n - tap] + s[22 + n - 23]) % 2);
    }
    uint32_t next = state_after(s, count);
    free(s);
    return next;
}

/* Refusals 2 and 4, or 0. */
static uint32_t judge_scrambler(uint32_t end, uint32_t state)
{
    if (end != SDSL_LTU && end != SDSL_NTU) {
        return SDSL_UNKNOWN;
    }
    return state >= 8388608 ? SDSL_OUT_OF_RANGE : SDSL_DONE;
}

typedef uint32_t bits_run(uint32_t end, uint32_t state, const uint8_t *in, size_t count, uint8_t *out);

static struct sdsl_scrambled run_octets(bits_run *run, uint32_t end, uint32_t state,
                                        const uint8_t *in, size_t in_len, size_t bits,
                                        uint8_t *out, size_t out_len)
{
    struct sdsl_scrambled result = {0, state};
    size_t whole_octets = bits / 8;
    size_t octets_needed = bits % 8 == 0 ? whole_octets : whole_octets + 1;
    if (in_len != out_len || octets_needed > in_len) {
        result.answer = SDSL_BAD_LENGTH;
        return result;
    }
    result.answer = judge_scrambler(end, state);
    if (result.answer != SDSL_DONE) {
        return result;
    }
    uint8_t *in_bits = room_for(bits, 1);
    uint8_t *out_bits = room_for(bits, 1);
    unpack(in, bits, in_bits);
    result.state = run(end, state, in_bits, bits, out_bits);
    pack(out_bits, bits, out);
    free(in_bits);
    free(out_bits);
    return result;
}

/* One bit is a run of one. */
static struct sdsl_scrambled_bit run_bit(bits_run *run, uint32_t end, uint32_t state, uint32_t bit)
{
    struct sdsl_scrambled_bit result = {0, 0, state};
    uint8_t in[2] = {0, (uint8_t)(bit % 2)};
    uint8_t out[2] = {0, 0};
    result.answer = judge_scrambler(end, state);
    if (result.answer == SDSL_DONE && bit > 1) {
        result.answer = SDSL_OUT_OF_RANGE;
    }
    if (result.answer == SDSL_DONE) {
        result.state = run(end, state, in, 1, out);
        result.bit = out[1];
    }
    return result;
}

/* The starting state is 0. */
struct sdsl_scrambled ref_scrambler_start(uint32_t end)
{
    struct sdsl_scrambled result = {end == SDSL_LTU || end == SDSL_NTU ? SDSL_DONE : SDSL_UNKNOWN, 0};
    return result;
}

struct sdsl_scrambled_bit ref_scramble_bit(uint32_t end, uint32_t state, uint32_t bit)
{
    return run_bit(scramble_bits, end, state, bit);
}

struct sdsl_scrambled_bit ref_descramble_bit(uint32_t end, uint32_t state, uint32_t bit)
{
    return run_bit(descramble_bits, end, state, bit);
}

struct sdsl_scrambled ref_scramble(uint32_t end, uint32_t state,
                                   const uint8_t *in, size_t in_len, size_t bits,
                                   uint8_t *out, size_t out_len)
{
    return run_octets(scramble_bits, end, state, in, in_len, bits, out, out_len);
}

struct sdsl_scrambled ref_descramble(uint32_t end, uint32_t state,
                                     const uint8_t *in, size_t in_len, size_t bits,
                                     uint8_t *out, size_t out_len)
{
    return run_octets(descramble_bits, end, state, in, in_len, bits, out, out_len);
}

/* ---- A whole frame through the scrambler, and back ---- */

/* The 14 sync bits pass straight through and do not clock the state; the run begins behind them. The pad is zero. */
static uint32_t run_behind_sync(bits_run *run, uint32_t end, uint32_t state, const uint8_t *in, uint8_t *out)
{
    for (size_t n = 1; n <= 14; n++) {
        out[n] = in[n];
    }
    for (size_t n = LAST_BIT + 1; n <= FRAME_BITS; n++) {
        out[n] = 0;
    }
    return run(end, state, in + 14, LAST_BIT - 14, out + 14);
}

uint32_t ref_put_on_line(uint32_t end, uint32_t state, const uint8_t *frame, uint8_t *line)
{
    uint8_t plain[FRAME_BITS + 1];
    uint8_t sent[FRAME_BITS + 1];
    unpack(frame, FRAME_BITS, plain);
    uint32_t next = run_behind_sync(scramble_bits, end, state, plain, sent);
    pack(sent, FRAME_BITS, line);
    return next;
}

struct sdsl_scrambled ref_descramble_frame(uint32_t end, uint32_t state,
                                           const uint8_t *in, size_t in_len,
                                           uint8_t *out, size_t out_len)
{
    struct sdsl_scrambled result = {0, state};
    if (in_len != 529 || out_len != 529) {
        result.answer = SDSL_BAD_LENGTH;
        return result;
    }
    result.answer = judge_scrambler(end, state);
    if (result.answer != SDSL_DONE) {
        return result;
    }
    uint8_t received[FRAME_BITS + 1];
    uint8_t plain[FRAME_BITS + 1];
    unpack(in, FRAME_BITS, received);
    if (!all_zero(received, LAST_BIT + 1, FRAME_BITS)) {
        result.answer = SDSL_BAD_PAD;
        return result;
    }
    result.state = run_behind_sync(descramble_bits, end, state, received, plain);
    pack(plain, FRAME_BITS, out);
    return result;
}

/* Whether one of a training frame's numbers is outside its range. Of the coefficients only those in use are looked at. */
static bool has_bad_number(uint32_t count, const uint8_t *coefficients, uint32_t a, uint32_t b)
{
    for (size_t i = 0; i < count; i++) {
        int64_t number = number_at(coefficients, i);
        if (number < -2097152 || number > 2097151) {
            return true;
        }
    }
    return a > 2097151 || b > 2097151;
}

/*
 * The refusals of writing and of scrambling stand in one list. Of a final frame count, coefficients, A and B are not looked at, but its
 * end and state are. There is no pad to refuse: the frame that is made here has zeros there.
 */
struct sdsl_scrambled ref_frame_send(uint32_t end, uint32_t state, uint32_t kind, uint32_t count,
                                     const uint8_t *coefficients, size_t coefficients_len,
                                     uint32_t a, uint32_t b,
                                     const uint8_t *vendor, size_t vendor_len,
                                     uint8_t *frame, size_t frame_len)
{
    struct sdsl_scrambled result = {SDSL_DONE, state};
    bool training = kind == SDSL_TRAINING;
    if (coefficients_len != 720 || vendor_len != 16 || frame_len != 529) {
        result.answer = SDSL_BAD_LENGTH;
    } else if ((kind != SDSL_TRAINING && kind != SDSL_FINAL) || (end != SDSL_LTU && end != SDSL_NTU)) {
        result.answer = SDSL_UNKNOWN;
    } else if (training && (count < 128 || count > 180)) {
        result.answer = SDSL_BAD_COUNT;
    } else if ((training && has_bad_number(count, coefficients, a, b)) || state >= 8388608) {
        result.answer = SDSL_OUT_OF_RANGE;
    }
    if (result.answer != SDSL_DONE) {
        return result;
    }
    uint8_t plain[FRAME_BITS + 1];
    uint8_t sent[FRAME_BITS + 1];
    make_bits(kind, count, coefficients, a, b, vendor, plain);
    result.state = run_behind_sync(scramble_bits, end, state, plain, sent);
    pack(sent, FRAME_BITS, frame);
    return result;
}

/* ---- The receiver ---- */

#define LINE_OCTETS 532
#define LINE_BITS 4256
#define LUMP_BITS_MAX 4096
#define STATE_BITS 23

/*
 * Whether a frame lies behind 23 bits: window[1] to window[23] are those that come before it, and its 4,227 come next. If it does,
 * `plain` has it, descrambled, with zeros for the pad.
 */
static bool is_frame(uint32_t end, const uint8_t *window, uint8_t *plain)
{
    const uint8_t *sent = window + STATE_BITS;
    if (!has_sync(sent, training_sync) && !has_sync(sent, final_sync)) {
        return false;
    }
    /* The oldest goes in first, so the one right before the frame ends up at weight 1. */
    uint32_t state = 0;
    for (size_t i = 1; i <= STATE_BITS; i++) {
        state = 2 * state + window[i];
    }
    for (size_t n = 1; n <= FRAME_BITS; n++) {
        plain[n] = n <= 14 ? sent[n] : 0;
    }
    descramble_bits(end, state, sent + 14, LAST_BIT - 14, plain + 14);
    uint32_t kind = 0;
    return judge(plain, &kind) == SDSL_DONE;
}

/* An unknown end is handed back, so that every call with that state is refused too. */
struct sdsl_received ref_receive_start(uint32_t end)
{
    struct sdsl_received result = {SDSL_DONE, 0, 0, {end, 0, 0}};
    if (end != SDSL_LTU && end != SDSL_NTU) {
        result.answer = SDSL_UNKNOWN;
    }
    return result;
}

/* The refusals of a call, or 0. */
static uint32_t judge_lump(struct sdsl_receiver state, size_t line_len, size_t lump_len, size_t bits, size_t frame_len)
{
    size_t whole_octets = bits / 8;
    size_t needed = bits % 8 == 0 ? whole_octets : whole_octets + 1;
    if (needed > lump_len || line_len != LINE_OCTETS || frame_len != 529) {
        return SDSL_BAD_LENGTH;
    }
    if (state.end != SDSL_LTU && state.end != SDSL_NTU) {
        return SDSL_UNKNOWN;
    }
    if (bits > LUMP_BITS_MAX) {
        return SDSL_OUT_OF_RANGE;
    }
    uint64_t in_all = (uint64_t)state.heard + bits;
    if (in_all > 4294967295) {
        return SDSL_OUT_OF_RANGE;
    }
    return SDSL_DONE;
}

/*
 * The bits of the line, oldest first, and those of the lump stand in one array, b[1] to b[4256] and on. Bit k of the lump, k from 0, is
 * b[4257 + k], so the 4,227 bits that end with it begin at b[31 + k], and the 23 before them at b[8 + k].
 */
struct sdsl_received ref_receive(struct sdsl_receiver state,
                                 uint8_t *line, size_t line_len,
                                 const uint8_t *lump, size_t lump_len, size_t bits,
                                 uint8_t *frame, size_t frame_len)
{
    struct sdsl_received result = {SDSL_DONE, 0, 0, state};
    result.answer = judge_lump(state, line_len, lump_len, bits, frame_len);
    if (result.answer != SDSL_DONE) {
        return result;
    }
    uint8_t *b = room_for(LINE_BITS + bits, 1);
    unpack(line, LINE_BITS, b);
    unpack(lump, bits, b + LINE_BITS);
    for (size_t k = 0; k < bits; k++) {
        int64_t last = (int64_t)state.heard + (int64_t)k;
        int64_t place = last - (LAST_BIT - 1);
        if (place < STATE_BITS || place < (int64_t)state.from) {
            continue;
        }
        uint8_t plain[FRAME_BITS + 1];
        if (is_frame(state.end, b + 7 + k, plain)) {
            pack(plain, FRAME_BITS, frame);
            result.given = 1;
            result.place = (uint32_t)place;
            result.state.from = (uint32_t)(last + 1);
            break;
        }
    }
    result.state.heard = (uint32_t)(state.heard + bits);
    pack(b + bits, LINE_BITS, line);
    free(b);
    return result;
}

/* ---- Symbols ---- */

/* Place n is the level of the code Y3 Y2 Y1 Y0 that is n as a number. */
static const int32_t level_of_code[16] = {
    -15, -13, -11, -9, -7, -5, -3, -1, /* 0000 to 0111 */
    9, 11, 13, 15,                     /* 1000 to 1011 */
    1, 3, 5, 7,                        /* 1100 to 1111 */
};

struct sdsl_level ref_activation_level(uint32_t bit)
{
    struct sdsl_level result = {0, 0};
    if (bit > 1) {
        result.answer = SDSL_OUT_OF_RANGE;
        return result;
    }
    result.sixteenths = bit == 1 ? 9 : -9;
    return result;
}

struct sdsl_level ref_data_level(uint32_t code)
{
    struct sdsl_level result = {0, 0};
    if (code > 15) {
        result.answer = SDSL_OUT_OF_RANGE;
        return result;
    }
    result.sixteenths = level_of_code[code];
    return result;
}

struct sdsl_symbol_code ref_level_code(int32_t sixteenths)
{
    struct sdsl_symbol_code result = {SDSL_OUT_OF_RANGE, 0};
    for (uint32_t code = 0; code < 16; code++) {
        if (level_of_code[code] == sixteenths) {
            result.answer = SDSL_DONE;
            result.code = code;
        }
    }
    return result;
}

/*
 * Encodes symbols, keeping the list of all X1. The 20 before the run come from the register: x1[0] is the oldest, x1[19] the newest
 * before the run, and x1[20 + m] that of symbol m. codes[m] is Y3 Y2 Y1 Y0 as a number. The register after the run comes back.
 */
static uint32_t encode_all(uint32_t a, uint32_t b, uint32_t reg, const uint8_t *symbols, size_t count, uint8_t *codes)
{
    uint8_t *x1 = room_for(20 + count, 1);
    for (size_t back = 0; back < 20; back++) {
        x1[19 - back] = (uint8_t)(reg % 2);
        reg /= 2;
    }
    for (size_t m = 0; m < count; m++) {
        uint8_t x2 = symbols[m] / 2 % 2;
        uint8_t x3 = symbols[m] % 2;
        x1[20 + m] = symbols[m] / 4;
        /* a0 meets the current X1, a20 the oldest */
        int left_by_a = 0;
        int left_by_b = 0;
        uint32_t a_rest = a;
        uint32_t b_rest = b;
        for (size_t i = 0; i <= 20; i++) {
            if (a_rest % 2 == 1 && x1[20 + m - i] == 1) {
                left_by_a++;
            }
            if (b_rest % 2 == 1 && x1[20 + m - i] == 1) {
                left_by_b++;
            }
            a_rest /= 2;
            b_rest /= 2;
        }
        codes[m] = (uint8_t)(8 * x3 + 4 * x2 + 2 * (left_by_a % 2) + left_by_b % 2);
    }
    uint32_t after = 0;
    uint32_t weight = 1;
    for (size_t back = 0; back < 20; back++) {
        after += weight * x1[20 + count - 1 - back];
        weight *= 2;
    }
    free(x1);
    return after;
}

/* No X1 has been sent yet. */
struct sdsl_encoded_run ref_encoder_start(uint32_t a, uint32_t b)
{
    struct sdsl_encoded_run result = {0, 0};
    if (a > 2097151 || b > 2097151) {
        result.answer = SDSL_OUT_OF_RANGE;
    }
    return result;
}

struct sdsl_encoded ref_encode(uint32_t a, uint32_t b, uint32_t reg, uint32_t symbol)
{
    struct sdsl_encoded result = {0, 0, 0, reg};
    if (symbol > 7 || a > 2097151 || b > 2097151 || reg >= 1048576) {
        result.answer = SDSL_OUT_OF_RANGE;
        return result;
    }
    uint8_t one_symbol = (uint8_t)symbol;
    uint8_t code = 0;
    result.reg = encode_all(a, b, reg, &one_symbol, 1, &code);
    result.code = code;
    result.sixteenths = level_of_code[code];
    return result;
}

struct sdsl_encoded_run ref_encode_run(uint32_t a, uint32_t b, uint32_t reg,
                                       const uint8_t *symbols, size_t symbols_len,
                                       uint8_t *codes, size_t codes_len)
{
    struct sdsl_encoded_run result = {0, reg};
    if (symbols_len != codes_len) {
        result.answer = SDSL_BAD_LENGTH;
        return result;
    }
    if (a > 2097151 || b > 2097151 || reg >= 1048576) {
        result.answer = SDSL_OUT_OF_RANGE;
        return result;
    }
    for (size_t m = 0; m < symbols_len; m++) {
        if (symbols[m] > 7) {
            result.answer = SDSL_OUT_OF_RANGE;
            return result;
        }
    }
    result.reg = encode_all(a, b, reg, symbols, symbols_len, codes);
    return result;
}

/* ---- The precoder ---- */

/*
 * v: S/131,072 rounded to the nearest whole number, halves upward. That is the highest whole number that is not above S/131,072 + 1/2;
 * it is looked for from far below in steps that are halved. |S| is at most 180 * 2^21 * 2^17, so v lies within 2^29.
 */
static int64_t rounded(int64_t sum)
{
    int64_t v = -536870912;
    for (int64_t step = 536870912; step >= 1; step /= 2) {
        int64_t higher = v + step;
        if (2 * 131072 * higher <= 2 * sum + 131072) {
            v = higher;
        }
    }
    return v;
}

/* The one number from -131,072 to 131,071 that is a whole number of times 262,144 away. */
static int64_t brought_into_range(int64_t u)
{
    while (u > 131071) {
        u -= 262144;
    }
    while (u < -131072) {
        u += 262144;
    }
    return u;
}

/* Whether all numbers of a buffer lie within the two ends. */
static bool all_within(const uint8_t *octets, size_t len, int64_t lowest, int64_t highest)
{
    for (size_t i = 0; i < len / 4; i++) {
        int64_t number = number_at(octets, i);
        if (number < lowest || number > highest) {
            return false;
        }
    }
    return true;
}

/*
 * Both ends of the line. The precoder is given x and finds y = x - v brought into range; the receiving end is given y and finds
 * x = y + v brought into range. Both keep the list of all y: y[0] to y[179] are those before the run, the newest last.
 */
static uint32_t run_precoder(bool receiving, const uint8_t *coefficients, size_t coefficients_len,
                             uint8_t *history, size_t history_len,
                             const uint8_t *given, size_t given_len,
                             uint8_t *found, size_t found_len)
{
    if (coefficients_len != 720 || history_len != 720 || given_len != found_len || given_len % 4 != 0) {
        return SDSL_BAD_LENGTH;
    }
    if (!all_within(coefficients, 720, -2097152, 2097151) || !all_within(history, 720, -131072, 131071)
        || !all_within(given, given_len, -131072, 131071)) {
        return SDSL_OUT_OF_RANGE;
    }
    size_t count = given_len / 4;
    int64_t c[181];
    for (size_t k = 1; k <= 180; k++) {
        c[k] = number_at(coefficients, k - 1);
    }
    int64_t *y = room_for(180 + count, sizeof *y);
    for (size_t k = 1; k <= 180; k++) {
        y[180 - k] = number_at(history, k - 1);
    }
    for (size_t m = 180; m < 180 + count; m++) {
        int64_t sum = 0;
        for (size_t k = 1; k <= 180; k++) {
            sum += c[k] * y[m - k];
        }
        int64_t v = rounded(sum);
        int64_t number = number_at(given, m - 180);
        if (receiving) {
            y[m] = number;
            put_number(found, m - 180, brought_into_range(number + v));
        } else {
            y[m] = brought_into_range(number - v);
            put_number(found, m - 180, y[m]);
        }
    }
    for (size_t k = 1; k <= 180; k++) {
        put_number(history, k - 1, y[180 + count - k]);
    }
    free(y);
    return SDSL_DONE;
}

/* All zero at first. */
uint32_t ref_history_start(uint8_t *history, size_t history_len)
{
    if (history_len != 720) {
        return SDSL_BAD_LENGTH;
    }
    for (size_t i = 0; i < 720; i++) {
        history[i] = 0;
    }
    return SDSL_DONE;
}

uint32_t ref_precode(const uint8_t *coefficients, size_t coefficients_len,
                     uint8_t *history, size_t history_len,
                     const uint8_t *xs, size_t xs_len,
                     uint8_t *ys, size_t ys_len)
{
    return run_precoder(false, coefficients, coefficients_len, history, history_len, xs, xs_len, ys, ys_len);
}

uint32_t ref_unprecode(const uint8_t *coefficients, size_t coefficients_len,
                       uint8_t *history, size_t history_len,
                       const uint8_t *ys, size_t ys_len,
                       uint8_t *xs, size_t xs_len)
{
    return run_precoder(true, coefficients, coefficients_len, history, history_len, ys, ys_len, xs, xs_len);
}

/* y has at most 18 bits, so the float holds it exactly, and each halving is exact. */
struct sdsl_shaped ref_shaper(int32_t y)
{
    struct sdsl_shaped result = {0, 0.0f};
    if (y < -131072 || y > 131071) {
        result.answer = SDSL_OUT_OF_RANGE;
        return result;
    }
    result.value = (float)y;
    for (int halvings = 0; halvings < 17; halvings++) {
        result.value /= 2.0f;
    }
    return result;
}

/* ---- The start-up supervisor ---- */

static bool is_phase_of(uint32_t end, uint32_t phase)
{
    switch (phase) {
    case SDSL_READY:
    case SDSL_QUIET:
    case SDSL_SETTLING:
    case SDSL_VALID:
    case SDSL_EXCEPTION:
        return true;
    case SDSL_GAP:
    case SDSL_CR:
    case SDSL_SR:
    case SDSL_TR:
        return end == SDSL_NTU;
    case SDSL_AWAIT:
    case SDSL_HEARING:
    case SDSL_SC:
    case SDSL_TC:
    case SDSL_FC:
        return end == SDSL_LTU;
    default:
        return false;
    }
}

/* An attempt opens on entering C_r or Hearing and ends on entering Settling or Exception. */
static bool is_in_attempt(uint32_t phase)
{
    return phase == SDSL_CR || phase == SDSL_HEARING || phase == SDSL_QUIET || phase == SDSL_SR || phase == SDSL_TR
           || phase == SDSL_SC || phase == SDSL_TC || phase == SDSL_FC;
}

/*
 * A change of phase. Phase ticks start at 0; marks count only from here on; the attempt's ticks go on within an attempt, start at 0 when
 * it opens, and are 0 outside; the silence is kept.
 */
static struct sdsl_supervisor enter(struct sdsl_supervisor s, uint32_t phase)
{
    s.phase = phase;
    s.ticks = 0;
    s.converged = 0;
    s.seen = 0;
    if (phase == SDSL_CR || phase == SDSL_HEARING || !is_in_attempt(phase)) {
        s.attempt = 0;
    }
    return s;
}

/*
 * The phase by now: the following one if the phase's ticks, and its marks where it has any, are what it lasts until; else the same.
 * What a single report ends is in `take`.
 */
static uint32_t phase_by_now(struct sdsl_supervisor s)
{
    switch (s.phase) {
    case SDSL_GAP:
        return s.ticks >= 300 ? SDSL_CR : s.phase;
    case SDSL_CR:
        return s.ticks >= 1000 ? SDSL_QUIET : s.phase;
    case SDSL_QUIET:
        if (s.end == SDSL_NTU) {
            return s.ticks >= 1500 ? SDSL_SR : s.phase;
        }
        return s.ticks >= 500 ? SDSL_SC : s.phase;
    case SDSL_SR:
        return s.converged != 0 && s.seen != 0 ? SDSL_TR : s.phase;
    case SDSL_SC:
        return s.ticks >= 5000 && s.converged != 0 ? SDSL_TC : s.phase;
    case SDSL_SETTLING:
        return s.ticks >= 1000 ? SDSL_VALID : s.phase;
    case SDSL_EXCEPTION:
        return s.ticks >= s.silence ? SDSL_READY : s.phase;
    default:
        return s.phase;
    }
}

static struct sdsl_supervisor go_on(struct sdsl_supervisor s)
{
    uint32_t phase = phase_by_now(s);
    return phase == s.phase ? s : enter(s, phase);
}

static struct sdsl_supervisor tick(struct sdsl_supervisor s)
{
    if (s.phase == SDSL_READY || s.phase == SDSL_AWAIT || s.phase == SDSL_VALID) {
        return s;
    }
    s.ticks++;
    if (is_in_attempt(s.phase)) {
        s.attempt++;
        if (s.attempt >= 15000) {
            return enter(s, SDSL_EXCEPTION);
        }
    }
    s = go_on(s);
    if (s.ticks > 59999) {
        s.ticks = 59999;
    }
    return s;
}

/* One code from 0 to 8 on a state in its ranges. */
static struct sdsl_supervisor take(struct sdsl_supervisor s, uint32_t code)
{
    switch (code) {
    case SDSL_TICK:
        return tick(s);
    case SDSL_PRE_ACTIVATION_ENDED:
        if (s.phase == SDSL_READY) {
            return enter(s, s.end == SDSL_NTU ? SDSL_GAP : SDSL_AWAIT);
        }
        return s;
    case SDSL_CR_BEGINS:
        return s.phase == SDSL_AWAIT ? enter(s, SDSL_HEARING) : s;
    case SDSL_CR_ENDED:
        return s.phase == SDSL_HEARING ? enter(s, SDSL_QUIET) : s;
    case SDSL_CONVERGED:
        if (s.phase == SDSL_SR || s.phase == SDSL_SC) {
            s.converged = 1;
            return go_on(s);
        }
        return s;
    case SDSL_TC_SEEN:
        if (s.phase == SDSL_SR) {
            s.seen = 1;
            return go_on(s);
        }
        return s;
    case SDSL_TR_SEEN:
        return s.phase == SDSL_TC ? enter(s, SDSL_FC) : s;
    case SDSL_SECOND_FC_OVER:
        return s.phase == SDSL_TR || s.phase == SDSL_FC ? enter(s, SDSL_SETTLING) : s;
    default: /* 8, abnormal */
        if (s.phase == SDSL_EXCEPTION) {
            s.ticks = 0; /* the silence again; the phase does not change */
            return s;
        }
        return enter(s, SDSL_EXCEPTION);
    }
}

/* Refusals of a state: 2 or 4, or 0. */
static uint32_t judge_state(struct sdsl_supervisor s)
{
    if (s.end != SDSL_LTU && s.end != SDSL_NTU) {
        return SDSL_UNKNOWN;
    }
    if (!is_phase_of(s.end, s.phase) || s.attempt > 14999 || s.ticks > 59999 || s.silence < 2000 || s.silence > 60000) {
        return SDSL_OUT_OF_RANGE;
    }
    return SDSL_DONE;
}

struct sdsl_stepped ref_start(uint32_t end, uint32_t silence)
{
    struct sdsl_stepped result = {0, 0, 0, {0, 0, 0, 0, 0, 0, 0}};
    if (end != SDSL_LTU && end != SDSL_NTU) {
        result.answer = SDSL_UNKNOWN;
        return result;
    }
    if (silence == 0) {
        silence = 5000;
    }
    if (silence < 2000 || silence > 60000) {
        result.answer = SDSL_OUT_OF_RANGE;
        return result;
    }
    result.phase = SDSL_READY;
    result.state.end = end;
    result.state.phase = SDSL_READY;
    result.state.silence = silence;
    return result;
}

struct sdsl_stepped ref_step(struct sdsl_supervisor state, uint32_t code)
{
    struct sdsl_stepped result = {0, 0, 0, state};
    if (code > 8) {
        result.answer = SDSL_UNKNOWN;
        return result;
    }
    result.answer = judge_state(state);
    if (result.answer != SDSL_DONE) {
        return result;
    }
    result.state = take(state, code);
    result.phase = result.state.phase;
    if (is_in_attempt(result.phase)) {
        result.attempt = result.state.attempt;
    }
    return result;
}

struct sdsl_run ref_run_codes(struct sdsl_supervisor state, const uint8_t *codes, size_t codes_len)
{
    struct sdsl_run result = {0, 0, 0, SDSL_NONE_OPENED, 0, state};
    result.answer = judge_state(state);
    if (result.answer != SDSL_DONE) {
        return result;
    }
    for (size_t place = 0; place < codes_len; place++) {
        if (codes[place] > 8) {
            continue;
        }
        uint32_t before = state.phase;
        state = take(state, codes[place]);
        if (state.phase == before) {
            continue;
        }
        if (state.phase == SDSL_CR || state.phase == SDSL_HEARING) {
            result.attempts++;
            result.opened_at = place;
            result.outcome = SDSL_STILL_OPEN;
            result.ended_at = 0;
        } else if (result.outcome == SDSL_STILL_OPEN && state.phase == SDSL_SETTLING) {
            result.outcome = SDSL_IN_DATA_MODE;
            result.ended_at = place;
        } else if (result.outcome == SDSL_STILL_OPEN && state.phase == SDSL_EXCEPTION) {
            result.outcome = SDSL_IN_EXCEPTION;
            result.ended_at = place;
        }
    }
    result.state = state;
    return result;
}
