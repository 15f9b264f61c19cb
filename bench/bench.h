/*
 * bench.h: what the benchmark's parts share.
 *
 *   bench.c     rounds, the clock, the table
 *   rows.c      what is measured: inputs, and a pass over them for each operation
 *   data.c      inputs and operations of the data-mode frame
 *   eoc.c       inputs and operations of messages of the operations channel
 *   onepass.c   those messages in plain C, in one pass
 *   receive.c   streams of bits for the receiver, a pass over one of them, and the receiver in plain C, by the bit
 *   narrow.c    the precoder in plain C with narrow products
 *   dear.c      the inputs that are dearest by construction
 *   others.c    other ways: a bit-serial register in plain C, and where they were found libosmocore, libcrcutil and GNU Radio
 *   crcutil.cpp libcrcutil
 *   radio.cpp   GNU Radio's scrambler
 *   shift.S     where the two libraries lie in memory
 *
 * A pass does an operation once over all its inputs, always from the same start, and leaves everything it found in `results`. So the
 * results of two sides can be compared after any number of passes.
 */
#ifndef BENCH_H
#define BENCH_H

#include "sdsl.h"

#include <stdbool.h>
#include <stddef.h>
#include <stdint.h>

#define BATCH 20    /* frames in a pass */
#define CARDS 340   /* frames for the sorter */
#define RUN 2048    /* symbols in a run of the encoder or precoder */
#define CODES 20000 /* codes for the supervisor */
#define LUMP SDSL_LUMP_BITS_MAX /* bits that the receiver takes in a call, at most */

/* A side: the functions of sdsl.h, ours or those of tests/second/reference.c; the receiver's in plain C are in receive.c. */
struct library {
    const char *name;
    __typeof__(sdsl_frame_send) *frame_send;
    __typeof__(sdsl_frame_check) *frame_check;
    __typeof__(sdsl_frame_read) *frame_read;
    __typeof__(sdsl_descramble_frame) *descramble_frame;
    __typeof__(sdsl_encode) *encode;
    __typeof__(sdsl_encode_run) *encode_run;
    __typeof__(sdsl_precode) *precode;
    __typeof__(sdsl_unprecode) *unprecode;
    __typeof__(sdsl_start) *start;
    __typeof__(sdsl_step) *step;
    __typeof__(sdsl_run_codes) *run_codes;
    __typeof__(sdsl_data_write) *data_write;
    __typeof__(sdsl_data_crc) *data_crc;
    __typeof__(sdsl_data_read) *data_read;
    __typeof__(sdsl_data_check) *data_check;
    __typeof__(sdsl_eoc_write) *eoc_write;
    __typeof__(sdsl_eoc_read) *eoc_read;
    __typeof__(sdsl_eoc_hand_up) *eoc_hand_up;
    __typeof__(sdsl_receive_start) *receive_start;
    __typeof__(sdsl_receive) *receive;
    uint32_t (*sequence)(const uint8_t *octets, size_t count); /* the check sequence alone; sdsl.h does not have it */
};
extern const struct library ours, plain;

/* What a pass found. One of these is written by all sides in turn, so that all are lent the same memory. */
struct results {
    uint32_t numbers[CODES];
    struct sdsl_supervisor state;
    uint8_t octets[CARDS * (SDSL_COEFFICIENT_OCTETS + SDSL_VENDOR_OCTETS + SDSL_RESERVED_OCTETS)];
};
extern struct results results;

/* Another way to the same result: a pass, and where the library it needs was not found at compile time none. */
struct other {
    const char *name;
    void (*pass)(void);
};

/* An operation. */
struct row {
    const char *operation;
    const char *unit; /* what the nanoseconds are for */
    size_t units;     /* in a pass */
    int target;       /* how many times as fast as plain C it has to be, emulated; 0 where nothing is asked */
    int native;       /* and on a real x86-64 */
    void (*pass)(const struct library *library);
    const struct other *others; /* other ways, the first one in the main table; the last has no name */
    bool beside_other; /* the target is beside the first other way, which does the same work, and not beside plain C */
};
extern const struct row rows[];
extern const size_t row_count;
extern const struct row *const encoder_row, *const precoder_row;
extern const struct row *const data_row, *const message_row; /* the first of the data-mode frame's, and the first behind them */
#define DATA_NANOSECONDS 60000                               /* that a data-mode frame may take */

/* What a bit may take in the receiver, as a part of the time that it lasts at the highest rate; on a real x86-64. */
struct limit {
    const struct row *row;
    double part;
};
#define LIMITS 3
extern const struct limit limits[LIMITS];

/* The inputs that are dearest by construction, one for each row: cases, and a pass over one of them. */
#define CASES 520 /* of one row, at most */
struct dear {
    size_t cases;
    size_t units; /* in a pass */
    void (*pass)(const struct library *library, size_t which);
    void (*name)(size_t which, char *text, size_t room);
};
extern const struct dear dears[];
extern const size_t dear_count;
void make_dear_inputs(void);

/* Inputs, made once from one seed. */
bool make_inputs(void); /* false where one could not be made */
extern uint8_t batch[BATCH][SDSL_FRAME_OCTETS]; /* frames with good sync and pad; three with bad check bits */
extern uint8_t cards[CARDS][SDSL_FRAME_OCTETS]; /* training and final frames, 40 of them refused with 5 to 7 */

extern uint8_t unscrambled[2][BATCH][SDSL_FRAME_OCTETS]; /* by kind: what is sent, before it is scrambled */
extern uint8_t line[2][BATCH][SDSL_FRAME_OCTETS];        /* by end: training frames, sent one after the other from its start */

/* Data-mode frames of each form, with the smallest and the largest payload. */
enum { SYNCHRONOUS_24, SYNCHRONOUS_289, PLESIOCHRONOUS_24, PLESIOCHRONOUS_289, DATA_SETS };
enum { ALL_ONE, ALL_ZERO, OTHER_CHECK, DATA_CASES }; /* the dear ones: the last is refused, the check bits behind it being others */
struct data_frame {
    uint32_t sync;
    struct sdsl_data_overhead overhead;
    uint32_t next_crc; /* the check bits of this frame */
    uint8_t payload[SDSL_DATA_PAYLOAD_OCTETS(SDSL_DATA_SIZE_MAX)];
    uint8_t frame[SDSL_DATA_PLESIOCHRONOUS_OCTETS];
};
struct data_set {
    uint32_t form, size;
    size_t room; /* octets of a frame */
    struct data_frame usual[BATCH], dear[DATA_CASES];
};
extern struct data_set data_sets[DATA_SETS];
bool make_data_inputs(void); /* false where a frame was refused */

/* One data-mode frame through an operation: what is found goes to place i of `results`. */
typedef void data_operation(const struct library *library, const struct data_set *set, const struct data_frame *one, size_t i);
data_operation write_data, check_data, read_data, six_of_data;

/* Messages of 2, 20 and 75 octets, addresses, number and contents together; with contents of 7E alone, or with nothing to escape. */
enum { ORDINARY_2, ORDINARY_20, FLAGS_20, ORDINARY_75, FLAGS_75, MESSAGE_SETS };
enum { ALL_FLAGS, SOME_FLAGS, WRONG_SEQUENCE, MESSAGE_CASES }; /* the dear ones: the last is refused */
#define MESSAGE_MAX (2 + SDSL_EOC_CONTENTS_MAX)
struct message {
    uint8_t octets[MESSAGE_MAX]; /* source and destination, which is every unit; number; contents */
    uint8_t form[SDSL_EOC_FORM_MAX];
    size_t form_len;
};
struct message_set {
    size_t size;
    bool flags; /* contents of 7E alone */
    struct message usual[BATCH], dear[MESSAGE_CASES][BATCH];
};
extern struct message_set message_sets[MESSAGE_SETS];
bool make_message_inputs(void); /* false where a message was refused */

/* One message through an operation: what is found goes to place i of `results`. */
typedef void message_operation(const struct library *library, const struct message_set *set, const struct message *one, size_t i);
message_operation write_message, read_message, hand_up_message;

/* The check sequences of BATCH messages, one call each and nothing between the calls: one of two octets takes less than two nanoseconds. */
void sequences_of(const struct library *library, size_t size, const struct message *messages);

/* Streams of bits for the receiver: of chance, of frames one behind the other, and the dear ones. */
enum { CHANCE_STREAM, FRAMES_STREAM, WORST_STREAM, NEARLY_STREAM, ONES_STREAM, STREAMS };
#define DEAR_STREAMS (STREAMS - WORST_STREAM)
#define CHANCE_BITS (31 * LUMP)
#define FRAMES_BITS (BATCH * SDSL_FRAME_BITS)
#define WORST_BITS LUMP  /* and so many of the other dear ones */
bool make_streams(void); /* false where one is not what it has to be */

/* So many bits of a stream, in lumps of so many, to a receiver that has heard what goes before them. How many frames were given. */
size_t receive(const struct library *library, size_t stream, size_t bits, size_t lump);
__typeof__(sdsl_receive_start) plain_receive_start;
__typeof__(sdsl_receive) plain_receive;

/* Messages in plain C, in one pass: the check sequence by the bit, and by libosmocore's table. They have no other functions. */
extern const struct library one_pass, one_pass_table;
uint32_t sequence_by_bit(const uint8_t *octets, size_t count);
#ifdef OSMOCORE
#define WITH_OSMOCORE(pass) pass
#else
#define WITH_OSMOCORE(pass) (0 ? (pass) : NULL)
#endif
uint32_t trial_sequence(const uint8_t *octets, size_t count); /* ours, by crate checktrial */

extern const struct other check_others[], six_24_others[], six_289_others[];
extern const struct other send_training_ltu_others[], send_training_ntu_others[], send_final_ltu_others[], send_final_ntu_others[];
extern const struct other descramble_ltu_others[], descramble_ntu_others[];
void prepare_others(void);
extern const char others_found[]; /* which libraries the program was compiled with */

/* The precoder and its inverse in plain C with narrow products, without checks. */
__typeof__(sdsl_precode) narrow_precode;
__typeof__(sdsl_unprecode) narrow_unprecode;

/* What is measured of sending, in the order of the rows: PASS(name, end, kind). */
#define SEND_PASSES(PASS) \
    PASS(send_training_ltu, SDSL_LTU, SDSL_TRAINING) \
    PASS(send_training_ntu, SDSL_NTU, SDSL_TRAINING) \
    PASS(send_final_ltu, SDSL_LTU, SDSL_FINAL) \
    PASS(send_final_ntu, SDSL_NTU, SDSL_FINAL)

/* And of data-mode frames: PASS(name, operation, set). */
#define DATA_PASSES(PASS) \
    PASS(write_synchronous_24, write_data, SYNCHRONOUS_24) \
    PASS(write_synchronous_289, write_data, SYNCHRONOUS_289) \
    PASS(write_plesiochronous_24, write_data, PLESIOCHRONOUS_24) \
    PASS(write_plesiochronous_289, write_data, PLESIOCHRONOUS_289) \
    PASS(check_synchronous_24, check_data, SYNCHRONOUS_24) \
    PASS(check_synchronous_289, check_data, SYNCHRONOUS_289) \
    PASS(check_plesiochronous_24, check_data, PLESIOCHRONOUS_24) \
    PASS(check_plesiochronous_289, check_data, PLESIOCHRONOUS_289) \
    PASS(read_synchronous_24, read_data, SYNCHRONOUS_24) \
    PASS(read_synchronous_289, read_data, SYNCHRONOUS_289) \
    PASS(read_plesiochronous_24, read_data, PLESIOCHRONOUS_24) \
    PASS(read_plesiochronous_289, read_data, PLESIOCHRONOUS_289) \
    PASS(six_24, six_of_data, SYNCHRONOUS_24) \
    PASS(six_289, six_of_data, SYNCHRONOUS_289)

/* And of messages. */
#define MESSAGE_PASSES(PASS) \
    PASS(write_2, write_message, ORDINARY_2) \
    PASS(write_20, write_message, ORDINARY_20) \
    PASS(write_20_flags, write_message, FLAGS_20) \
    PASS(write_75, write_message, ORDINARY_75) \
    PASS(write_75_flags, write_message, FLAGS_75) \
    PASS(read_2, read_message, ORDINARY_2) \
    PASS(read_20, read_message, ORDINARY_20) \
    PASS(read_20_flags, read_message, FLAGS_20) \
    PASS(read_75, read_message, ORDINARY_75) \
    PASS(read_75_flags, read_message, FLAGS_75) \
    PASS(hand_up_20, hand_up_message, ORDINARY_20)

/* And of check sequences: PASS(name, set). */
#define SEQUENCE_PASSES(PASS) \
    PASS(sequence_2, ORDINARY_2) \
    PASS(sequence_20, ORDINARY_20) \
    PASS(sequence_75, ORDINARY_75)

/* And of the receiver: PASS(name, stream, bits in a pass, bits in a lump). */
#define RECEIVE_PASSES(PASS) \
    PASS(receive_chance, CHANCE_STREAM, CHANCE_BITS, LUMP) \
    PASS(receive_by_8, CHANCE_STREAM, 4 * LUMP, 8) \
    PASS(receive_by_1, CHANCE_STREAM, LUMP, 1) \
    PASS(receive_frames, FRAMES_STREAM, FRAMES_BITS, LUMP) \
    PASS(receive_worst, WORST_STREAM, WORST_BITS, LUMP)

#endif
