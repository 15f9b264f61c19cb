/*
 * every.c: calls every function of include/sdsl.h with something it takes, and tries its named limits. C11 and C++.
 * tests/header/test compares the names called here with those that the header declares.
 */
#include "sdsl.h"

#include <stdio.h>
#include <string.h>

static int failed;

static void look(int good, const char *what)
{
    printf("%s: %s\n", good ? "pass" : "FAIL", what);
    failed += !good;
}

/* A frame goes out scrambled, and takes the other card's two steps to come in. */
static void frames(void)
{
    uint8_t coefficients[SDSL_COEFFICIENT_OCTETS] = {0};
    uint8_t vendor[SDSL_VENDOR_OCTETS] = {0xF0, 0xF1};
    uint8_t reserved[SDSL_RESERVED_OCTETS] = {0xFF, 1, 2, 3, 4, 5, 6, 7, 0xFF}, none[SDSL_RESERVED_OCTETS] = {0};
    uint8_t line[SDSL_FRAME_OCTETS], frame[SDSL_FRAME_OCTETS];
    struct sdsl_scrambled sent = sdsl_frame_send(SDSL_NTU, SDSL_SCRAMBLER_MAX, SDSL_TRAINING, SDSL_COUNT_MAX, coefficients,
                                                 sizeof coefficients, 1, SDSL_WORD_MAX, vendor, sizeof vendor, line, sizeof line);
    look(sent.answer == SDSL_DONE && line[0] == 0x9F && line[SDSL_FRAME_OCTETS - 1] < 8 && sent.state <= SDSL_SCRAMBLER_MAX &&
         sdsl_frame_check(line, sizeof line) == SDSL_BAD_CHECK, "sdsl_frame_send");
    struct sdsl_scrambled back = sdsl_descramble_frame(SDSL_NTU, SDSL_SCRAMBLER_MAX, line, sizeof line, frame, sizeof frame);
    look(back.answer == SDSL_DONE && back.state == sent.state && memcmp(line, frame, sizeof frame) != 0, "sdsl_descramble_frame");
    look(sdsl_frame_check(frame, sizeof frame) == SDSL_DONE, "sdsl_frame_check");
    struct sdsl_frame_fields got = sdsl_frame_read(frame, sizeof frame, coefficients, sizeof coefficients, vendor, sizeof vendor,
                                                   reserved, sizeof reserved);
    look(got.answer == SDSL_DONE && got.kind == SDSL_TRAINING && got.a == 1 && got.b == SDSL_WORD_MAX && vendor[1] == 0xF1 &&
         memcmp(reserved, none, sizeof none) == 0, "sdsl_frame_read");
}

/* Two data-mode frames, one behind the other: the second carries the check bits of the first. */
static void data_frames(void)
{
    uint8_t payload[SDSL_DATA_PAYLOAD_OCTETS(SDSL_DATA_SIZE_MAX)], got[SDSL_DATA_PAYLOAD_OCTETS(SDSL_DATA_SIZE_MAX)];
    uint8_t first[SDSL_DATA_PLESIOCHRONOUS_OCTETS], second[SDSL_DATA_PLESIOCHRONOUS_OCTETS];
    for (size_t i = 0; i < sizeof payload; i++)
        payload[i] = (uint8_t)(7 * i);
    struct sdsl_data_overhead overhead = {SDSL_LOSD | SDSL_SEGA | SDSL_PS | SDSL_SEGD, 0xA5A5A, 0, 4, 21};
    struct sdsl_data_written one = sdsl_data_write(SDSL_PLESIOCHRONOUS, SDSL_DATA_SIZE_MAX, SDSL_DATA_SYNC, overhead, payload, sizeof payload,
                                                   first, sizeof first);
    overhead.crc = one.crc;
    overhead.stuffing = 0;
    struct sdsl_data_written two = sdsl_data_write(SDSL_PLESIOCHRONOUS, SDSL_DATA_SIZE_MAX, SDSL_DATA_SYNC, overhead, payload, sizeof payload,
                                                   second, sizeof second);
    look(one.answer == SDSL_DONE && two.answer == SDSL_DONE && first[0] == 0x3F && first[1] == 0xCC, "sdsl_data_write");
    struct sdsl_data_crcs six = sdsl_data_crc(SDSL_PLESIOCHRONOUS, SDSL_DATA_SIZE_MAX, second, sizeof second);
    look(six.answer == SDSL_DONE && six.carried == one.crc && six.due == two.crc, "sdsl_data_crc");
    look(sdsl_data_check(SDSL_PLESIOCHRONOUS, SDSL_DATA_SIZE_MAX, SDSL_DATA_SYNC, six.carried, first, sizeof first) == SDSL_DONE &&
         sdsl_data_check(SDSL_PLESIOCHRONOUS, SDSL_DATA_SIZE_MAX, SDSL_DATA_SYNC, six.carried ^ 1, first, sizeof first) == SDSL_BAD_CHECK,
         "sdsl_data_check");
    struct sdsl_data_fields fields = sdsl_data_read(SDSL_PLESIOCHRONOUS, SDSL_DATA_SIZE_MAX, SDSL_DATA_SYNC, six.carried, first, sizeof first,
                                                    got, sizeof got);
    look(fields.answer == SDSL_DONE && fields.overhead.indicators == 15 && fields.overhead.eoc == 0xA5A5A && fields.overhead.spare == 0 &&
         fields.overhead.stuffing == 4 && fields.overhead.crc == 21 && memcmp(got, payload, sizeof got) == 0, "sdsl_data_read");

    uint8_t room[SDSL_DATA_SYNCHRONOUS_OCTETS];
    overhead.spare = 15;
    look(sdsl_data_write(SDSL_SYNCHRONOUS, SDSL_DATA_SIZE_MIN, SDSL_DATA_SYNC, overhead, payload, SDSL_DATA_PAYLOAD_OCTETS(SDSL_DATA_SIZE_MIN),
                         room, sizeof room).answer == SDSL_DONE &&
         sdsl_data_crc(SDSL_SYNCHRONOUS, SDSL_DATA_SIZE_MIN - 1, room, sizeof room).answer == SDSL_OUT_OF_RANGE &&
         sdsl_data_crc(SDSL_SYNCHRONOUS, SDSL_DATA_SIZE_MAX + 1, room, sizeof room).answer == SDSL_OUT_OF_RANGE &&
         sdsl_data_crc(SDSL_PLESIOCHRONOUS + 1, SDSL_DATA_SIZE_MIN, room, sizeof room).answer == SDSL_UNKNOWN, "the limits of a data-mode frame");
}

/* A record is its octets, one behind the other, in this order. */
static int is_packed(void)
{
    return sizeof(struct sdsl_eoc_unit) == SDSL_EOC_UNIT_OCTETS && SDSL_EOC_UNIT_OCTETS == 79 &&
           sizeof(struct sdsl_eoc_unit[3]) == 3 * SDSL_EOC_UNIT_OCTETS && offsetof(struct sdsl_eoc_unit, own) == 0 &&
           offsetof(struct sdsl_eoc_unit, present) == 1 && offsetof(struct sdsl_eoc_unit, source) == 2 &&
           offsetof(struct sdsl_eoc_unit, destination) == 3 && offsetof(struct sdsl_eoc_unit, number) == 4 &&
           offsetof(struct sdsl_eoc_unit, length) == 5 && offsetof(struct sdsl_eoc_unit, contents) == 6;
}

/* A message with both octets that are escaped, from the LTU to regenerator 1, over the line to three units. */
static void messages(void)
{
    const uint8_t sent[3] = {0x7D, 0x00, 0x7E};
    uint8_t room[SDSL_EOC_FORM_MAX], got[SDSL_EOC_CONTENTS_MAX];
    memset(room, 0xA5, sizeof room);
    struct sdsl_eoc_written made = sdsl_eoc_write(SDSL_EOC_LTU, SDSL_EOC_REGENERATOR_1, 0x88, sent, sizeof sent, room, sizeof room);
    const uint8_t begins[8] = {0x7E, 0x13, 0x88, 0x7D, 0x5D, 0x00, 0x7D, 0x5E};
    look(made.answer == SDSL_DONE && made.length == 11 && memcmp(room, begins, sizeof begins) == 0 && room[10] == 0x7E && room[11] == 0 &&
         room[SDSL_EOC_FORM_MAX - 1] == 0, "sdsl_eoc_write");

    memset(got, 0xA5, sizeof got);
    struct sdsl_eoc_message message = sdsl_eoc_read(room, made.length, got, sizeof got);
    look(message.answer == SDSL_DONE && message.source == SDSL_EOC_LTU && message.destination == SDSL_EOC_REGENERATOR_1 &&
         message.number == 0x88 && message.length == 3 && memcmp(got, sent, sizeof sent) == 0 && got[3] == 0 &&
         got[SDSL_EOC_CONTENTS_MAX - 1] == 0, "sdsl_eoc_read");

    look(is_packed(), "struct sdsl_eoc_unit has 79 octets and no padding");
    struct sdsl_eoc_unit units[3];
    memset(units, 0xA5, sizeof units);
    units[0].own = SDSL_EOC_NTU;
    units[1].own = SDSL_EOC_REGENERATOR_1;
    units[2].own = SDSL_EOC_ADDRESS_MAX;
    struct sdsl_eoc_handed_up up = sdsl_eoc_hand_up(room, made.length, (uint8_t *)units, sizeof units);
    look(up.answer == SDSL_DONE && up.units == 1 && units[0].present == 0xA5 && units[2].present == 0xA5 &&
         units[1].own == SDSL_EOC_REGENERATOR_1 && units[1].present == 1 && units[1].source == SDSL_EOC_LTU &&
         units[1].destination == SDSL_EOC_REGENERATOR_1 && units[1].number == 0x88 && units[1].length == 3 &&
         memcmp(units[1].contents, got, sizeof got) == 0, "sdsl_eoc_hand_up");
    const uint32_t all[2] = {SDSL_EOC_ADJACENT, SDSL_EOC_EVERY_UNIT};
    int good = 1;
    for (int i = 0; i < 2; i++) {
        made = sdsl_eoc_write(SDSL_EOC_NTU, all[i], 1, NULL, 0, room, sizeof room);
        up = sdsl_eoc_hand_up(room, made.length, (uint8_t *)units, sizeof units);
        good = good && up.answer == SDSL_DONE && up.units == 3 && units[0].destination == all[i] && units[2].source == SDSL_EOC_NTU;
    }
    look(good && sdsl_eoc_hand_up(room, made.length, NULL, 0).answer == SDSL_DONE, "every unit, and none at all");
}

/* The octets 7E, then so many and 7E again. */
static uint32_t read_many(size_t count, uint8_t octet)
{
    uint8_t form[512], contents[SDSL_EOC_CONTENTS_MAX];
    memset(form, octet, sizeof form);
    form[0] = form[count + 1] = 0x7E;
    return sdsl_eoc_read(form, count + 2, contents, sizeof contents).answer;
}

/* Each named limit of a message is the library's, and so is each of its three refusals. */
static void message_limits(void)
{
    uint8_t sent[SDSL_EOC_CONTENTS_MAX + 1], room[SDSL_EOC_FORM_MAX + 1], contents[SDSL_EOC_CONTENTS_MAX + 1];
    memset(sent, 0x7E, sizeof sent);
    struct sdsl_eoc_written most = {0, 0};
    for (uint32_t n = 0; n < 65536 && most.length != SDSL_EOC_FORM_MAX; n++) { /* until the check sequence is escaped too */
        for (int i = 0; i < 16; i++) {
            sent[i] = (uint8_t)(0x7D + (n >> i) % 2);
        }
        most = sdsl_eoc_write(7, 14, 0x7D, sent, SDSL_EOC_CONTENTS_MAX, room, SDSL_EOC_FORM_MAX);
    }
    look(most.answer == SDSL_DONE && most.length == SDSL_EOC_FORM_MAX &&
         sdsl_eoc_write(7, 14, 0x7D, sent, SDSL_EOC_CONTENTS_MAX + 1, room, SDSL_EOC_FORM_MAX).answer == SDSL_BAD_SIZE &&
         sdsl_eoc_write(7, 14, 0x7D, sent, 0, room, SDSL_EOC_FORM_MAX - 1).answer == SDSL_BAD_LENGTH &&
         sdsl_eoc_write(7, 14, 0x7D, sent, 0, room, SDSL_EOC_FORM_MAX + 1).answer == SDSL_BAD_LENGTH, "the most contents and their form");
    look(sdsl_eoc_read(room, most.length, contents, SDSL_EOC_CONTENTS_MAX).length == SDSL_EOC_CONTENTS_MAX &&
         sdsl_eoc_read(room, most.length, contents, SDSL_EOC_CONTENTS_MAX - 1).answer == SDSL_BAD_LENGTH &&
         sdsl_eoc_read(room, most.length, contents, SDSL_EOC_CONTENTS_MAX + 1).answer == SDSL_BAD_LENGTH, "the room for contents");
    look(sdsl_eoc_write(SDSL_EOC_ADDRESS_MAX, SDSL_EOC_ADDRESS_MAX, SDSL_EOC_NUMBER_MAX, sent, 0, room, SDSL_EOC_FORM_MAX).answer == SDSL_DONE &&
         sdsl_eoc_write(SDSL_EOC_ADDRESS_MAX + 1, 0, 0, sent, 0, room, SDSL_EOC_FORM_MAX).answer == SDSL_OUT_OF_RANGE &&
         sdsl_eoc_write(0, SDSL_EOC_ADDRESS_MAX + 1, 0, sent, 0, room, SDSL_EOC_FORM_MAX).answer == SDSL_OUT_OF_RANGE &&
         sdsl_eoc_write(0, 0, SDSL_EOC_NUMBER_MAX + 1, sent, 0, room, SDSL_EOC_FORM_MAX).answer == SDSL_OUT_OF_RANGE,
         "the largest address and message number");
    struct sdsl_eoc_unit unit;
    memset(&unit, 0, sizeof unit);
    unit.own = SDSL_EOC_ADDRESS_MAX + 1;
    look(sdsl_eoc_hand_up(room, 6, (uint8_t *)&unit, sizeof unit).answer == SDSL_OUT_OF_RANGE &&
         sdsl_eoc_hand_up(room, 6, (uint8_t *)&unit, sizeof unit - 1).answer == SDSL_BAD_LENGTH, "an own address, and a whole record");
    look(read_many(2 + SDSL_EOC_CONTENTS_MAX + 2, 0) == SDSL_BAD_CHECK && read_many(2 + SDSL_EOC_CONTENTS_MAX + 3, 0) == SDSL_BAD_SIZE &&
         read_many(4, 0) == SDSL_BAD_CHECK && read_many(3, 0) == SDSL_BAD_SIZE && read_many(400, 0) == SDSL_BAD_SIZE, "SDSL_BAD_SIZE");
    look(read_many(5, 0x7D) == SDSL_BAD_ESCAPE && read_many(5, 0x7E) == SDSL_BAD_FLAG && read_many(0, 0) == SDSL_BAD_SIZE &&
         sdsl_eoc_read(NULL, 0, contents, SDSL_EOC_CONTENTS_MAX).answer == SDSL_BAD_FLAG, "SDSL_BAD_ESCAPE and SDSL_BAD_FLAG");
}

/* Example 7 of SCOPE: the NTU from state 0, 24 ones: eighteen 1, five 0, one 1. */
static void runs(void)
{
    const uint8_t ones[3] = {0xFF, 0xFF, 0xFF}, line[3] = {0xFF, 0xFF, 0x83};
    uint8_t out[3];
    struct sdsl_scrambled start = sdsl_scrambler_start(SDSL_NTU);
    look(start.answer == SDSL_DONE && start.state == 0 && sdsl_scrambler_start(SDSL_NTU + 1).answer == SDSL_UNKNOWN,
         "sdsl_scrambler_start");
    struct sdsl_scrambled sent = sdsl_scramble(SDSL_NTU, start.state, ones, 3, 24, out, 3);
    look(sent.answer == SDSL_DONE && memcmp(out, line, 3) == 0, "sdsl_scramble");
    look(sdsl_descramble(SDSL_NTU, start.state, line, 3, 24, out, 3).state == sent.state && memcmp(out, ones, 3) == 0,
         "sdsl_descramble");
    int bits = 1, back = 1;
    uint32_t sending = start.state, hearing = start.state;
    for (int i = 0; i < 24; i++) {
        struct sdsl_scrambled_bit one = sdsl_scramble_bit(SDSL_NTU, sending, 1), heard = sdsl_descramble_bit(SDSL_NTU, hearing, one.bit);
        bits = bits && one.answer == SDSL_DONE && one.bit == (line[i / 8] >> (i % 8) & 1u);
        back = back && heard.answer == SDSL_DONE && heard.bit == 1;
        sending = one.state;
        hearing = heard.state;
    }
    look(bits && sending == sent.state && sdsl_scramble_bit(SDSL_LTU, 0, 2).answer == SDSL_OUT_OF_RANGE, "sdsl_scramble_bit");
    look(back && hearing == sent.state, "sdsl_descramble_bit");
}

/* A final frame behind three octets, heard in lumps of any size; and a receiver's named limits. */
static void receiver(void)
{
    const uint8_t before[3] = {0x12, 0x34, 0xD5}; /* 24 bits: the last 23 are the scrambler's state */
    uint8_t frame[SDSL_FRAME_OCTETS] = {0x6B, 0x3E}, sent[SDSL_FRAME_OCTETS], heard[SDSL_FRAME_OCTETS], line[SDSL_LINE_OCTETS + 1];
    uint8_t lump[SDSL_LUMP_BITS_MAX / 8 + 1] = {0}, unused[SDSL_COEFFICIENT_OCTETS] = {0}, vendor[SDSL_VENDOR_OCTETS] = {0};
    uint32_t state = 0;
    for (int i = 1; i < 24; i++) {
        state = 2 * state + (before[i / 8] >> (i % 8) & 1u);
    }
    sdsl_frame_send(SDSL_NTU, state, SDSL_FINAL, 0, unused, sizeof unused, 0, 0, vendor, sizeof vendor, sent, sizeof sent);
    memset(line, 0xA5, sizeof line);
    memset(heard, 0xA5, sizeof heard);
    struct sdsl_received got = sdsl_receive_start(SDSL_NTU);
    look(got.answer == SDSL_DONE && got.state.end == SDSL_NTU && got.state.heard == 0 && got.given == 0 &&
         sdsl_receive_start(SDSL_NTU + 1).answer == SDSL_UNKNOWN, "sdsl_receive_start");
    got = sdsl_receive(got.state, line, SDSL_LINE_OCTETS, before, sizeof before, 24, heard, sizeof heard);
    got = sdsl_receive(got.state, line, SDSL_LINE_OCTETS, NULL, 0, 0, heard, sizeof heard);
    int quiet = got.answer == SDSL_DONE && got.given == 0 && got.state.heard == 24 && line[SDSL_LINE_OCTETS - 1] == 0xD5;
    for (size_t i = 0; i + 1 < sizeof sent; i++) {
        got = sdsl_receive(got.state, line, SDSL_LINE_OCTETS, sent + i, 1, 8, heard, sizeof heard);
        quiet = quiet && got.answer == SDSL_DONE && got.given == 0 && got.place == 0 && heard[i] == 0xA5;
    }
    got = sdsl_receive(got.state, line, SDSL_LINE_OCTETS, sent + 528, 1, 3, heard, sizeof heard);
    look(quiet && got.answer == SDSL_DONE && got.given == 1 && got.place == 24 && got.state.from == 24 + SDSL_FRAME_BITS &&
         got.state.heard == got.state.from && memcmp(heard, frame, sizeof frame) == 0 && line[SDSL_LINE_OCTETS] == 0xA5, "sdsl_receive");

    const size_t most = SDSL_LUMP_BITS_MAX;
    struct sdsl_receiver last = got.state;
    last.heard = SDSL_HEARD_MAX - SDSL_LUMP_BITS_MAX;
    look(sdsl_receive(last, line, SDSL_LINE_OCTETS, lump, sizeof lump, most, heard, sizeof heard).answer == SDSL_DONE &&
         sdsl_receive(got.state, line, SDSL_LINE_OCTETS, lump, sizeof lump, most + 1, heard, sizeof heard).answer == SDSL_OUT_OF_RANGE,
         "the largest lump");
    last.heard++;
    look(sdsl_receive(last, line, SDSL_LINE_OCTETS, lump, sizeof lump, most, heard, sizeof heard).answer == SDSL_OUT_OF_RANGE &&
         sdsl_receive(last, line, SDSL_LINE_OCTETS, lump, sizeof lump, most - 1, heard, sizeof heard).state.heard == SDSL_HEARD_MAX,
         "the most bits in all");
    look(sdsl_receive(got.state, line, SDSL_LINE_OCTETS - 1, lump, 1, 8, heard, sizeof heard).answer == SDSL_BAD_LENGTH &&
         sdsl_receive(got.state, line, SDSL_LINE_OCTETS + 1, lump, 1, 8, heard, sizeof heard).answer == SDSL_BAD_LENGTH &&
         sdsl_receive(got.state, line, SDSL_LINE_OCTETS, lump, 1, 9, heard, sizeof heard).answer == SDSL_BAD_LENGTH, "the line room");

    /* Behind zeros a frame of zeros is sent as zeros: given behind so many bits, and not behind one fewer. */
    int given[2];
    for (uint32_t fewer = 0; fewer < 2; fewer++) {
        size_t first = SDSL_PLACE_MIN - fewer, rest = SDSL_FRAME_BITS - SDSL_LUMP_BITS_MAX;
        got = sdsl_receive_start(SDSL_LTU);
        got = sdsl_receive(got.state, line, SDSL_LINE_OCTETS, lump, sizeof lump, first, heard, sizeof heard);
        got = sdsl_receive(got.state, line, SDSL_LINE_OCTETS, frame, sizeof frame, SDSL_LUMP_BITS_MAX, heard, sizeof heard);
        got = sdsl_receive(got.state, line, SDSL_LINE_OCTETS, lump, sizeof lump, rest, heard, sizeof heard);
        given[fewer] = got.given == 1 && got.place == SDSL_PLACE_MIN;
    }
    look(given[0] && !given[1] && got.given == 0, "the least place");
}

/* Examples 9, 10 and 11. */
static void symbols(void)
{
    const uint8_t two[2] = {5, 3};
    uint8_t codes[2];
    look(sdsl_activation_level(1).sixteenths == 9, "sdsl_activation_level");
    look(sdsl_data_level(SDSL_CODE_MAX).sixteenths == 7, "sdsl_data_level");
    look(sdsl_level_code(7).code == SDSL_CODE_MAX, "sdsl_level_code");
    struct sdsl_encoded_run start = sdsl_encoder_start(1, 2);
    look(start.answer == SDSL_DONE && start.reg == 0 && sdsl_encoder_start(SDSL_WORD_MAX, SDSL_WORD_MAX).answer == SDSL_DONE &&
         sdsl_encoder_start(0, SDSL_WORD_MAX + 1).answer == SDSL_OUT_OF_RANGE, "sdsl_encoder_start");
    look(sdsl_encode(1, 2, start.reg, 5).sixteenths == 13, "sdsl_encode");
    look(sdsl_encode_run(1, 2, start.reg, two, 2, codes, 2).reg == 2 && codes[0] == 10 && codes[1] == 13, "sdsl_encode_run");

    uint8_t coefficients[SDSL_COEFFICIENT_OCTETS] = {0, 0, 1, 0};
    uint8_t history[SDSL_HISTORY_OCTETS] = {0, 0x20, 1, 0}, past[SDSL_HISTORY_OCTETS] = {0, 0x20, 1, 0};
    const uint8_t x[SDSL_SAMPLE_OCTETS] = {0, 0x20, 1, 0}, y[SDSL_SAMPLE_OCTETS] = {0, 0x90, 0, 0};
    uint8_t out[SDSL_SAMPLE_OCTETS], zeros[SDSL_HISTORY_OCTETS] = {0}, made[SDSL_HISTORY_OCTETS];
    memset(made, 0xA5, sizeof made);
    look(sdsl_history_start(made, sizeof made - 1) == SDSL_BAD_LENGTH && made[0] == 0xA5 &&
         sdsl_history_start(made, sizeof made) == SDSL_DONE && memcmp(made, zeros, sizeof made) == 0, "sdsl_history_start");
    look(sdsl_precode(coefficients, sizeof coefficients, history, sizeof history, x, sizeof x, out, sizeof out) == SDSL_DONE &&
         memcmp(out, y, sizeof y) == 0, "sdsl_precode");
    look(sdsl_unprecode(coefficients, sizeof coefficients, past, sizeof past, y, sizeof y, out, sizeof out) == SDSL_DONE &&
         memcmp(out, x, sizeof x) == 0, "sdsl_unprecode");
    look(sdsl_shaper(-16384).value == -0.125f, "sdsl_shaper");
}

static void supervisor(void)
{
    const uint8_t codes[2] = {SDSL_PRE_ACTIVATION_ENDED, SDSL_CR_BEGINS};
    struct sdsl_stepped card = sdsl_start(SDSL_LTU, SDSL_SILENCE_MAX);
    look(card.answer == SDSL_DONE && card.phase == SDSL_READY && card.state.silence == SDSL_SILENCE_MAX, "sdsl_start");
    look(sdsl_step(card.state, SDSL_PRE_ACTIVATION_ENDED).phase == SDSL_AWAIT, "sdsl_step");
    struct sdsl_run run = sdsl_run_codes(card.state, codes, sizeof codes);
    look(run.attempts == 1 && run.opened_at == 1 && run.state.phase == SDSL_HEARING, "sdsl_run_codes");
}

/* No number up to the last is left out. */
#define ALL_USED UINT32_MAX

/* Whether each number up to `last` but `unused` has a text of its own, and every other number the same one. */
static int own_texts(const char *(*text)(uint32_t), uint32_t last, uint32_t unused)
{
    int good = 1;
    for (uint32_t i = 0; i <= last + 1; i++) {
        int used = i <= last && i != unused;
        good = good && (strcmp(text(i), text(UINT32_MAX)) != 0) == used;
        for (uint32_t k = 0; k < i; k++) {
            good = good && !(used && strcmp(text(i), text(k)) == 0);
        }
    }
    return good;
}

/* Phases and reports by the names that the paper gives them. */
static void texts(void)
{
    static const char *const phases[] = {"Ready", "Gap", "Await", "C_r", "Hearing", "Quiet", "S_c", "S_r", "T_c", "T_r", "F_c",
                                         "Settling", "Valid", "Exception"};
    static const char *const reports[] = {"one millisecond", "pre-activation ended", "C_r begins", "C_r has ended",
                                          "own receiver converged", "T_c seen", "T_r seen", "second F_c frame over", "abnormal"};
    int good = own_texts(sdsl_phase_text, SDSL_PHASE_MAX, ALL_USED);
    look(own_texts(sdsl_answer_text, SDSL_BAD_SIZE, 8) && strcmp(sdsl_answer_text(SDSL_DONE), "done") == 0,
         "sdsl_answer_text: 0 to 7 and 9 to 12, and none for 8");
    for (uint32_t i = 0; i <= SDSL_PHASE_MAX; i++) {
        good = good && strcmp(sdsl_phase_text(i), phases[i]) == 0;
    }
    look(good, "sdsl_phase_text");
    good = own_texts(sdsl_report_text, SDSL_REPORT_MAX, ALL_USED);
    for (uint32_t i = 0; i <= SDSL_REPORT_MAX; i++) {
        good = good && strcmp(sdsl_report_text(i), reports[i]) == 0;
    }
    look(good, "sdsl_report_text");
}

/* Numbers in four octets, at both ends of an int32_t and beside each octet's edge. */
static void numbers(void)
{
    static const int32_t tried[] = {0, 1, -1, 255, 256, -256, -257, 65535, 65536, -65537, 16777215, 16777216, -16777217,
                                    SDSL_COEFFICIENT_MIN, SDSL_COEFFICIENT_MAX, INT32_MIN, INT32_MAX};
    const size_t count = sizeof tried / sizeof tried[0];
    uint8_t buffer[4 * (sizeof tried / sizeof tried[0]) + 1];
    const uint8_t minus_two[4] = {0xFE, 0xFF, 0xFF, 0xFF}, half[4] = {0, 0, 1, 0};
    int good = 1;
    memset(buffer, 0xA5, sizeof buffer);
    for (size_t k = 0; k < count; k++) {
        sdsl_put_number(buffer, k, tried[k]);
    }
    for (size_t k = 0; k < count; k++) {
        uint64_t octets = 0;
        for (size_t i = 4; i > 0; i--) {
            octets = 256 * octets + buffer[4 * k + i - 1];
        }
        good = good && octets == (uint64_t)tried[k] % UINT64_C(4294967296) && sdsl_get_number(buffer, k) == tried[k];
    }
    look(good && buffer[4 * count] == 0xA5 && sdsl_get_number(minus_two, 0) == -2, "sdsl_get_number");
    look(memcmp(buffer, tried, sizeof tried) == 0, "an array of int32_t has the octets of its numbers, on this machine");
    sdsl_put_number(buffer, 1, SDSL_STEPS / 2);
    look(memcmp(buffer + 4, half, 4) == 0 && sdsl_get_number(buffer, 0) == 0 && sdsl_get_number(buffer, 2) == -1, "sdsl_put_number");
}

/* The version's string is made of its numbers. */
static void version(void)
{
    char made[64];
    snprintf(made, sizeof made, "%d.%d.%d", SDSL_VERSION_MAJOR, SDSL_VERSION_MINOR, SDSL_VERSION_PATCH);
    look(strcmp(made, SDSL_VERSION) == 0, "SDSL_VERSION");
}

/* What sending a training frame answers, by this end from this state, with this count, first coefficient and A. */
static uint32_t sends_by(uint32_t end, uint32_t state, uint32_t count, int32_t coefficient, uint32_t a)
{
    uint8_t coefficients[SDSL_COEFFICIENT_OCTETS] = {0}, vendor[SDSL_VENDOR_OCTETS] = {0}, frame[SDSL_FRAME_OCTETS];
    sdsl_put_number(coefficients, 0, coefficient);
    return sdsl_frame_send(end, state, SDSL_TRAINING, count, coefficients, sizeof coefficients, a, a, vendor, sizeof vendor, frame,
                           sizeof frame).answer;
}

static uint32_t sends(uint32_t count, int32_t coefficient, uint32_t a)
{
    return sends_by(SDSL_LTU, 0, count, coefficient, a);
}

/* What reading a training frame answers, with so many octets of room for the reserved bits. */
static uint32_t read_into(size_t reserved_len)
{
    uint8_t coefficients[SDSL_COEFFICIENT_OCTETS], vendor[SDSL_VENDOR_OCTETS], reserved[SDSL_RESERVED_OCTETS + 1];
    uint8_t frame[SDSL_FRAME_OCTETS] = {0x9F, 0x35};
    return sdsl_frame_read(frame, sizeof frame, coefficients, sizeof coefficients, vendor, sizeof vendor, reserved, reserved_len).answer;
}

/* What a run of ticks makes of a state: the number of ticks until the phase is left. */
static int lasts(struct sdsl_supervisor state)
{
    uint32_t phase = state.phase;
    int ticks = 0;
    while (state.phase == phase && ticks < 70000) {
        state = sdsl_step(state, SDSL_TICK).state;
        ticks++;
    }
    return ticks;
}

/* Each named limit is the library's: it is taken, and the next number is not. */
static void limits(void)
{
    look(sends(SDSL_COUNT_MIN, 0, 0) == SDSL_DONE && sends(SDSL_COUNT_MIN - 1, 0, 0) == SDSL_BAD_COUNT &&
         sends(SDSL_COUNT_MAX, 0, 0) == SDSL_DONE && sends(SDSL_COUNT_MAX + 1, 0, 0) == SDSL_BAD_COUNT, "the limits of a count");
    look(sends(SDSL_COUNT_MIN, SDSL_COEFFICIENT_MIN, SDSL_WORD_MAX) == SDSL_DONE &&
         sends(SDSL_COUNT_MIN, SDSL_COEFFICIENT_MAX, 0) == SDSL_DONE &&
         sends(SDSL_COUNT_MIN, SDSL_COEFFICIENT_MIN - 1, 0) == SDSL_OUT_OF_RANGE &&
         sends(SDSL_COUNT_MIN, SDSL_COEFFICIENT_MAX + 1, 0) == SDSL_OUT_OF_RANGE &&
         sends(SDSL_COUNT_MIN, 0, SDSL_WORD_MAX + 1) == SDSL_OUT_OF_RANGE, "the limits of a coefficient and of A and B");
    look(sends_by(SDSL_NTU, SDSL_SCRAMBLER_MAX, SDSL_COUNT_MIN, 0, 0) == SDSL_DONE &&
         sends_by(SDSL_NTU, SDSL_SCRAMBLER_MAX + 1, SDSL_COUNT_MIN, 0, 0) == SDSL_OUT_OF_RANGE &&
         sends_by(SDSL_NTU, SDSL_SCRAMBLER_MAX + 1, SDSL_COUNT_MIN - 1, 0, 0) == SDSL_BAD_COUNT &&
         sends_by(SDSL_NTU + 1, SDSL_SCRAMBLER_MAX + 1, SDSL_COUNT_MIN - 1, 0, 0) == SDSL_UNKNOWN,
         "the largest state of a sender, and end before count before state");
    look(read_into(SDSL_RESERVED_OCTETS) == SDSL_DONE && read_into(SDSL_RESERVED_OCTETS - 1) == SDSL_BAD_LENGTH &&
         read_into(SDSL_RESERVED_OCTETS + 1) == SDSL_BAD_LENGTH && SDSL_RESERVED_BIT + SDSL_RESERVED_BITS == SDSL_CHECK_BIT,
         "the room for reserved bits");
    look(sdsl_scramble(SDSL_LTU, SDSL_SCRAMBLER_MAX, NULL, 0, 0, NULL, 0).answer == SDSL_DONE &&
         sdsl_scramble(SDSL_LTU, SDSL_SCRAMBLER_MAX + 1, NULL, 0, 0, NULL, 0).answer == SDSL_OUT_OF_RANGE, "the scrambler's largest state");
    look(sdsl_encode(0, 0, SDSL_REGISTER_MAX, SDSL_SYMBOL_MAX).answer == SDSL_DONE &&
         sdsl_encode(0, 0, SDSL_REGISTER_MAX + 1, 0).answer == SDSL_OUT_OF_RANGE &&
         sdsl_encode(0, 0, 0, SDSL_SYMBOL_MAX + 1).answer == SDSL_OUT_OF_RANGE &&
         sdsl_data_level(SDSL_CODE_MAX + 1).answer == SDSL_OUT_OF_RANGE, "the largest register, symbol and code");
    look(sdsl_shaper(SDSL_SAMPLE_MIN).value == -1.0f && sdsl_shaper(SDSL_SAMPLE_MIN - 1).answer == SDSL_OUT_OF_RANGE &&
         sdsl_shaper(SDSL_SAMPLE_MAX).answer == SDSL_DONE && sdsl_shaper(SDSL_SAMPLE_MAX + 1).answer == SDSL_OUT_OF_RANGE &&
         sdsl_shaper(9 * SDSL_SIXTEENTH).value == 0.5625f && SDSL_STEPS == -SDSL_SAMPLE_MIN, "the limits of a sample");
    look(sdsl_start(SDSL_LTU, SDSL_SILENCE_MIN - 1).answer == SDSL_OUT_OF_RANGE &&
         sdsl_start(SDSL_LTU, SDSL_SILENCE_MAX + 1).answer == SDSL_OUT_OF_RANGE &&
         sdsl_start(SDSL_LTU, SDSL_SILENCE_MIN).state.silence == SDSL_SILENCE_MIN, "the limits of a silence");
    look(sdsl_start(SDSL_LTU, SDSL_SILENCE_DEFAULT).state.silence == SDSL_SILENCE_DEFAULT_TICKS &&
         sdsl_start(SDSL_NTU, SDSL_SILENCE_DEFAULT).state.silence == SDSL_SILENCE_DEFAULT_TICKS, "the default silence");

    struct sdsl_supervisor ltu = sdsl_start(SDSL_LTU, SDSL_SILENCE_DEFAULT).state, ntu = sdsl_start(SDSL_NTU, SDSL_SILENCE_DEFAULT).state;
    look(sdsl_step(ltu, SDSL_REPORT_MAX).answer == SDSL_DONE && sdsl_step(ltu, SDSL_REPORT_MAX + 1).answer == SDSL_UNKNOWN &&
         sdsl_step(ltu, SDSL_REPORT_MAX).phase == SDSL_PHASE_MAX, "the last report and the last phase");
    ltu.phase = ntu.phase = SDSL_EXCEPTION;
    look(lasts(ltu) == SDSL_SILENCE_DEFAULT_TICKS && lasts(ntu) == SDSL_SILENCE_DEFAULT_TICKS, "the time of the default silence");
    ltu.silence = ntu.silence = SDSL_SILENCE_MIN;
    look(lasts(ltu) == SDSL_SILENCE_MIN && lasts(ntu) == SDSL_SILENCE_MIN, "the time of the shortest silence");
    ltu.phase = ntu.phase = SDSL_QUIET;
    look(lasts(ltu) == SDSL_LTU_QUIET_TICKS && lasts(ntu) == SDSL_NTU_QUIET_TICKS, "the quiet times");
    ltu.phase = SDSL_HEARING;
    look(lasts(ltu) == SDSL_ATTEMPT_TICKS, "the longest attempt");
    ltu.phase = SDSL_SC;
    ltu.converged = 1;
    look(lasts(ltu) == SDSL_SC_TICKS, "the least time of S_c");
    ntu.phase = SDSL_GAP;
    look(lasts(ntu) == SDSL_GAP_TICKS, "the gap before C_r");
    ntu.phase = SDSL_CR;
    look(lasts(ntu) == SDSL_CR_TICKS, "the time of C_r");
    ntu.phase = SDSL_SETTLING;
    look(lasts(ntu) == SDSL_SETTLING_TICKS, "the settling time");
    ntu.ticks = SDSL_STATE_TICKS_MAX;
    ntu.attempt = SDSL_STATE_ATTEMPT_MAX;
    look(sdsl_step(ntu, SDSL_CONVERGED).answer == SDSL_DONE, "a state with its largest numbers");
    ntu.ticks++;
    look(sdsl_step(ntu, SDSL_CONVERGED).answer == SDSL_OUT_OF_RANGE, "a state with too many ticks");
    ntu.ticks = 0;
    ntu.attempt++;
    look(sdsl_step(ntu, SDSL_CONVERGED).answer == SDSL_OUT_OF_RANGE, "a state with too long an attempt");
}

int main(void)
{
    frames();
    data_frames();
    messages();
    message_limits();
    runs();
    receiver();
    symbols();
    supervisor();
    texts();
    numbers();
    version();
    limits();
    return failed != 0;
}
