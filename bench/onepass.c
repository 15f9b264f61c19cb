/*
 * onepass.c: messages of the operations channel in plain C, in one pass by the octet, as one might well write them from sdsl.h; see
 * bench.h. All checks, their order, and the zeros behind form and contents are the header's. The check sequence goes by the bit, in the
 * same pass; or, where libosmocore was found, by its table, in a run of its own. So that nothing holds it back it is compiled with -O3.
 */
#pragma GCC optimize("O3")
#include "bench.h"

#include <string.h>

#ifdef OSMOCORE
#include <osmocom/core/crc16.h>
#else
/* Never called: the ways that name it are then not here. */
#define osmo_crc16_ccitt(rest, octets, count) ((void)(octets), (void)(count), (uint16_t)(rest))
#endif

#define FLAG 0x7E
#define ESCAPE 0x7D
#define TURNED_OVER 0x20 /* what an escaped octet differs by */
#define PLAIN_MIN 4      /* octets between the flags, without escapes */
#define PLAIN_MAX 77
#define START 0xFFFFu
#define ONES 0xFFFFu
#define GOOD 0xF0B8u /* what a message and its check sequence leave (RFC 1662) */

enum way { BY_BIT, BY_TABLE };

static inline uint32_t by_bit(uint32_t rest, uint8_t octet)
{
    rest ^= octet;
    for (int i = 0; i < 8; i++) {
        rest = rest & 1u ? rest >> 1 ^ 0x8408u : rest >> 1;
    }
    return rest;
}

static inline uint32_t by_table(uint32_t rest, const uint8_t *octets, size_t count)
{
    return osmo_crc16_ccitt((uint16_t)rest, octets, count);
}

uint32_t sequence_by_bit(const uint8_t *octets, size_t count)
{
    uint32_t rest = START;
    for (size_t i = 0; i < count; i++) {
        rest = by_bit(rest, octets[i]);
    }
    return rest ^ ONES;
}

static uint32_t sequence_by_table(const uint8_t *octets, size_t count)
{
    return by_table(START, octets, count) ^ ONES;
}

/* ---- Writing ---- */

static inline size_t put(uint8_t *room, size_t at, uint8_t octet)
{
    if (octet == FLAG || octet == ESCAPE) {
        room[at++] = ESCAPE;
        octet ^= TURNED_OVER;
    }
    room[at++] = octet;
    return at;
}

static inline struct sdsl_eoc_written written_by(enum way way, uint32_t source, uint32_t destination, uint32_t number,
                                                 const uint8_t *contents, size_t contents_len, uint8_t *room, size_t room_len)
{
    if (room_len != SDSL_EOC_FORM_MAX) {
        return (struct sdsl_eoc_written){SDSL_BAD_LENGTH, 0};
    }
    if (source > SDSL_EOC_ADDRESS_MAX || destination > SDSL_EOC_ADDRESS_MAX || number > SDSL_EOC_NUMBER_MAX) {
        return (struct sdsl_eoc_written){SDSL_OUT_OF_RANGE, 0};
    }
    if (contents_len > SDSL_EOC_CONTENTS_MAX) {
        return (struct sdsl_eoc_written){SDSL_BAD_SIZE, 0};
    }
    uint8_t head[2] = {(uint8_t)(source << 4 | destination), (uint8_t)number};
    uint32_t rest = way == BY_BIT ? by_bit(by_bit(START, head[0]), head[1]) : by_table(by_table(START, head, 2), contents, contents_len);
    room[0] = FLAG;
    size_t at = put(room, put(room, 1, head[0]), head[1]);
    for (size_t i = 0; i < contents_len; i++) {
        if (way == BY_BIT) {
            rest = by_bit(rest, contents[i]);
        }
        at = put(room, at, contents[i]);
    }
    rest ^= ONES;
    at = put(room, put(room, at, (uint8_t)(rest & 0xFF)), (uint8_t)(rest >> 8));
    room[at++] = FLAG;
    memset(room + at, 0, SDSL_EOC_FORM_MAX - at);
    return (struct sdsl_eoc_written){SDSL_DONE, (uint32_t)at};
}

/* ---- Reading ---- */

/* The answer; where it is 0, the octets between the flags without escapes, and how many they are. */
static inline uint32_t judged_by(enum way way, const uint8_t *octets, size_t len, uint8_t *plain, size_t *count)
{
    if (len < 2 || octets[0] != FLAG || octets[len - 1] != FLAG) {
        return SDSL_BAD_FLAG;
    }
    uint32_t rest = START;
    size_t n = 0;
    bool other_escape = false;
    for (size_t i = 1; i < len - 1; i++) {
        uint8_t octet = octets[i];
        if (octet == FLAG) {
            return SDSL_BAD_FLAG;
        }
        if (octet == ESCAPE) {
            uint8_t next = octets[i + 1] ^ TURNED_OVER;
            if (next != FLAG && next != ESCAPE) {
                other_escape = true;
                continue;
            }
            octet = next;
            i++;
        }
        if (n < PLAIN_MAX) {
            plain[n] = octet;
            if (way == BY_BIT) {
                rest = by_bit(rest, octet);
            }
        }
        n++;
    }
    if (other_escape) {
        return SDSL_BAD_ESCAPE;
    }
    if (n < PLAIN_MIN || n > PLAIN_MAX) {
        return SDSL_BAD_SIZE;
    }
    if (way == BY_TABLE) {
        rest = by_table(START, plain, n);
    }
    *count = n;
    return rest == GOOD ? SDSL_DONE : SDSL_BAD_CHECK;
}

static inline void put_contents(uint8_t *contents, const uint8_t *plain, size_t count)
{
    memcpy(contents, plain + 2, count - PLAIN_MIN);
    memset(contents + count - PLAIN_MIN, 0, PLAIN_MAX - count);
}

static inline struct sdsl_eoc_message message_by(enum way way, const uint8_t *octets, size_t octets_len, uint8_t *contents,
                                                 size_t contents_len)
{
    uint8_t plain[PLAIN_MAX];
    size_t count;
    if (contents_len != SDSL_EOC_CONTENTS_MAX) {
        return (struct sdsl_eoc_message){SDSL_BAD_LENGTH, 0, 0, 0, 0};
    }
    uint32_t answer = judged_by(way, octets, octets_len, plain, &count);
    if (answer != SDSL_DONE) {
        return (struct sdsl_eoc_message){answer, 0, 0, 0, 0};
    }
    put_contents(contents, plain, count);
    return (struct sdsl_eoc_message){SDSL_DONE, plain[0] >> 4, plain[0] & 15, plain[1], (uint32_t)(count - PLAIN_MIN)};
}

/* ---- Handing up ---- */

static inline struct sdsl_eoc_handed_up handed_by(enum way way, const uint8_t *octets, size_t octets_len, uint8_t *units,
                                                  size_t units_len)
{
    uint8_t plain[PLAIN_MAX];
    size_t count, taken = 0;
    if (units_len % SDSL_EOC_UNIT_OCTETS != 0) {
        return (struct sdsl_eoc_handed_up){SDSL_BAD_LENGTH, 0};
    }
    for (size_t at = 0; at < units_len; at += SDSL_EOC_UNIT_OCTETS) {
        if (units[at] > SDSL_EOC_ADDRESS_MAX) {
            return (struct sdsl_eoc_handed_up){SDSL_OUT_OF_RANGE, 0};
        }
    }
    uint32_t answer = judged_by(way, octets, octets_len, plain, &count);
    if (answer != SDSL_DONE) {
        return (struct sdsl_eoc_handed_up){answer, 0};
    }
    uint8_t source = plain[0] >> 4, destination = plain[0] & 15;
    for (size_t at = 0; at < units_len; at += SDSL_EOC_UNIT_OCTETS) {
        if (destination == units[at] || destination == SDSL_EOC_ADJACENT || destination == SDSL_EOC_EVERY_UNIT) {
            const uint8_t head[5] = {1, source, destination, plain[1], (uint8_t)(count - PLAIN_MIN)};
            memcpy(units + at + 1, head, sizeof head);
            put_contents(units + at + 6, plain, count);
            taken++;
        }
    }
    return (struct sdsl_eoc_handed_up){SDSL_DONE, taken};
}

/* ---- Both ways ---- */

#define WAY(way, write, read, hand_up) \
    static struct sdsl_eoc_written write(uint32_t source, uint32_t destination, uint32_t number, const uint8_t *contents, \
                                         size_t contents_len, uint8_t *room, size_t room_len) \
    { \
        return written_by(way, source, destination, number, contents, contents_len, room, room_len); \
    } \
    static struct sdsl_eoc_message read(const uint8_t *octets, size_t octets_len, uint8_t *contents, size_t contents_len) \
    { \
        return message_by(way, octets, octets_len, contents, contents_len); \
    } \
    static struct sdsl_eoc_handed_up hand_up(const uint8_t *octets, size_t octets_len, uint8_t *units, size_t units_len) \
    { \
        return handed_by(way, octets, octets_len, units, units_len); \
    }

WAY(BY_BIT, write_by_bit, read_by_bit, hand_up_by_bit)
WAY(BY_TABLE, write_by_table, read_by_table, hand_up_by_table)

const struct library one_pass = {
    .name = "C, one pass", .eoc_write = write_by_bit, .eoc_read = read_by_bit, .eoc_hand_up = hand_up_by_bit, .sequence = sequence_by_bit};
const struct library one_pass_table = {.name = "C, osmo_crc16_ccitt", .eoc_write = write_by_table, .eoc_read = read_by_table,
                                       .eoc_hand_up = hand_up_by_table, .sequence = sequence_by_table};
