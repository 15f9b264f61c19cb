/* data.c: the data-mode frame: inputs, usual and dear, and the operations on one frame. See bench.h. */
#include "bench.h"

#include "../tests/second/harness.h"

#include <string.h>

struct data_set data_sets[DATA_SETS] = {
    [SYNCHRONOUS_24] = {.form = SDSL_SYNCHRONOUS, .size = 24, .room = SDSL_DATA_SYNCHRONOUS_OCTETS},
    [SYNCHRONOUS_289] = {.form = SDSL_SYNCHRONOUS, .size = 289, .room = SDSL_DATA_SYNCHRONOUS_OCTETS},
    [PLESIOCHRONOUS_24] = {.form = SDSL_PLESIOCHRONOUS, .size = 24, .room = SDSL_DATA_PLESIOCHRONOUS_OCTETS},
    [PLESIOCHRONOUS_289] = {.form = SDSL_PLESIOCHRONOUS, .size = 289, .room = SDSL_DATA_PLESIOCHRONOUS_OCTETS},
};

/* ---- Inputs ---- */

/* By our own function; the rows for writing see that plain C writes the same. */
static uint32_t write_one(const struct data_set *set, struct data_frame *one)
{
    struct sdsl_data_written written = sdsl_data_write(set->form, set->size, one->sync, one->overhead, one->payload,
                                                       SDSL_DATA_PAYLOAD_OCTETS(set->size), one->frame, set->room);
    one->next_crc = written.crc;
    return written.answer;
}

/* Frames one after the other, each with the check bits of the one before it; every second plesiochronous frame is stuffed. */
static uint32_t make_usual(struct data_set *set)
{
    uint32_t refused = 0, crc = 0;
    for (size_t i = 0; i < BATCH; i++) {
        struct data_frame *one = &set->usual[i];
        one->sync = SDSL_DATA_SYNC;
        one->overhead.indicators = (uint32_t)below(16);
        one->overhead.eoc = (uint32_t)below(1u << 20);
        one->overhead.spare = set->form == SDSL_SYNCHRONOUS ? (uint32_t)below(16) : 0;
        one->overhead.stuffing = set->form == SDSL_PLESIOCHRONOUS ? 4 * (uint32_t)(i % 2) : 0;
        one->overhead.crc = crc;
        random_octets(one->payload, sizeof one->payload);
        refused |= write_one(set, one);
        crc = one->next_crc;
    }
    return refused;
}

/* Every bit one, every bit zero, and every bit one with other check bits behind it. */
static uint32_t make_dear(struct data_set *set)
{
    uint32_t refused = 0;
    for (size_t c = 0; c < DATA_CASES; c++) {
        struct data_frame *one = &set->dear[c];
        if (c != ALL_ZERO) {
            one->sync = 0x3FFF;
            one->overhead.indicators = 15;
            one->overhead.eoc = 0xFFFFF;
            one->overhead.spare = set->form == SDSL_SYNCHRONOUS ? 15 : 0;
            one->overhead.stuffing = set->form == SDSL_PLESIOCHRONOUS ? 4 : 0;
            one->overhead.crc = 63;
            memset(one->payload, 0xFF, sizeof one->payload);
        }
        refused |= write_one(set, one);
        one->next_crc ^= c == OTHER_CHECK;
    }
    return refused;
}

bool make_data_inputs(void)
{
    uint32_t refused = 0;
    for (size_t s = 0; s < DATA_SETS; s++) {
        refused |= make_usual(&data_sets[s]);
        refused |= make_dear(&data_sets[s]);
    }
    return refused == SDSL_DONE;
}

/* ---- One frame through an operation ---- */

void write_data(const struct library *library, const struct data_set *set, const struct data_frame *one, size_t i)
{
    struct sdsl_data_written written =
        library->data_write(set->form, set->size, one->sync, one->overhead, one->payload, SDSL_DATA_PAYLOAD_OCTETS(set->size),
                            results.octets + i * set->room, set->room);
    memcpy(results.numbers + 2 * i, &written, sizeof written);
}

void check_data(const struct library *library, const struct data_set *set, const struct data_frame *one, size_t i)
{
    results.numbers[i] = library->data_check(set->form, set->size, one->sync, one->next_crc, one->frame, set->room);
}

void read_data(const struct library *library, const struct data_set *set, const struct data_frame *one, size_t i)
{
    size_t len = SDSL_DATA_PAYLOAD_OCTETS(set->size);
    struct sdsl_data_fields fields =
        library->data_read(set->form, set->size, one->sync, one->next_crc, one->frame, set->room, results.octets + i * len, len);
    memcpy(results.numbers + 6 * i, &fields, sizeof fields);
}

void six_of_data(const struct library *library, const struct data_set *set, const struct data_frame *one, size_t i)
{
    struct sdsl_data_crcs six = library->data_crc(set->form, set->size, one->frame, set->room);
    memcpy(results.numbers + 3 * i, &six, sizeof six);
}
