/*
 * sdsl.h: SDSL activation (ETSI TS 101 524-2), from bits off the line to the start-up, the data-mode frame and the messages of the
 * operations channel (part 1), proved, for a card's host software in C11 or C++. Link with libsdsl.a.
 *
 * What holds for every function
 * - Every call ends and answers with one of the numbers of enum sdsl_answer. There is nothing to check before a call.
 * - A refused call (any answer but 0) leaves all lent memory as it was and hands a state back unchanged; every other number that it
 *   returns is 0.
 * - Checks run in the order of the answers' numbers, and the first that applies is answered; for data-mode frames the order is 1, 2, 4,
 *   5, 9, 6, 7, for messages of the operations channel 1, 4, 10, 11, 12, 7. Each function's comment lists the answers that it can give,
 *   in their order; it gives no other.
 * - All memory is the caller's. A buffer is lent for the time of the call, as a pointer and its length in octets; the library keeps no
 *   pointer. A pointer may be NULL where its length is 0. A buffer that is written (no `const`) must not overlap another buffer of the
 *   same call: to work in place, lend a copy.
 * - The library has no state of its own, takes no lock and allocates nothing: any thread may call anything at any time. States
 *   (scrambler, receiver with its line room, register, history, supervisor) are the caller's: keep what comes back and pass it to the
 *   next call.
 * - It needs memcpy, memmove and memset of the C library, and nothing else.
 * - No call takes more than SDSL_STACK_OCTETS octets of stack, beside what those three take.
 *
 * Bits in octets. Bit n of the paper, n from 1, has weight 1 << ((n - 1) % 8) in octet (n - 1) / 8. The first bit on the line is
 * bit 1. This holds for frames of both kinds, for vendor data, for payload, for the scrambler's runs, and for a receiver's lumps and
 * line room.
 *
 * Numbers in octets. A buffer of coefficients, outputs or samples holds each number in four octets, low octet first, in two's
 * complement: coefficient 1 stands in octets 0 to 3. sdsl_put_number and sdsl_get_number put a number there and get it back. On a
 * little-endian machine this is how an int32_t lies in memory, so there an array of int32_t may be lent as it is, cast to uint8_t *.
 * The precoder's values are in steps of 1/131072.
 *
 * Times are in ticks of one millisecond.
 *
 * The examples below are bodies of functions, behind #include <assert.h> and <string.h>. The gate compiles and runs them.
 */
#ifndef SDSL_H
#define SDSL_H

#include <stddef.h>
#include <stdint.h>

/* The version of this header and of the library that belongs to it. */
#define SDSL_VERSION_MAJOR 0
#define SDSL_VERSION_MINOR 6
#define SDSL_VERSION_PATCH 1
#define SDSL_VERSION "0.6.1"

#ifdef __cplusplus
extern "C" {
#endif

#define SDSL_STACK_OCTETS 3072 /* the stack that a call takes, at most */

/* What comes back. */
enum sdsl_answer {
    SDSL_DONE = 0,         /* done */
    SDSL_BAD_LENGTH = 1,   /* a lent buffer has the wrong length */
    SDSL_UNKNOWN = 2,      /* unknown end, frame kind, form or report code */
    SDSL_BAD_COUNT = 3,    /* coefficient count outside 128 to 180 */
    SDSL_OUT_OF_RANGE = 4, /* a number outside its range */
    SDSL_NO_SYNC = 5,      /* the sync word is not an expected one */
    SDSL_BAD_PAD = 6,      /* an unused bit behind the frame is not zero */
    SDSL_BAD_CHECK = 7,    /* the check bits differ */
    /* 8 is not used; it was: a reserved bit is not zero */
    SDSL_BAD_STUFFING = 9, /* stuffing bits that the form cannot have (data-mode frame) */
    SDSL_BAD_FLAG = 10,    /* a flag is missing or stands inside the message (operations channel) */
    SDSL_BAD_ESCAPE = 11,  /* an escape other than 7D 5E and 7D 5D (operations channel) */
    SDSL_BAD_SIZE = 12     /* the message is too long or too short (operations channel) */
};

/*
 * An answer in plain English, for a log or a screen; a number that is not an answer gives words that say so. The text is a constant:
 * do not free it. Like the other functions that this header defines as `static inline`, it is not in the library, which returns
 * numbers only.
 *
 * Example:
 *     assert(strcmp(sdsl_answer_text(SDSL_BAD_CHECK), "the check bits differ") == 0);
 */
static inline const char *sdsl_answer_text(uint32_t answer)
{
    switch (answer) {
    case SDSL_DONE:
        return "done";
    case SDSL_BAD_LENGTH:
        return "a lent buffer has the wrong length";
    case SDSL_UNKNOWN:
        return "unknown end, frame kind, form or report code";
    case SDSL_BAD_COUNT:
        return "coefficient count outside 128 to 180";
    case SDSL_OUT_OF_RANGE:
        return "a number outside its range";
    case SDSL_NO_SYNC:
        return "the sync word is not an expected one";
    case SDSL_BAD_PAD:
        return "an unused bit behind the frame is not zero";
    case SDSL_BAD_CHECK:
        return "the check bits differ";
    case SDSL_BAD_STUFFING:
        return "stuffing bits that the form cannot have (data-mode frame)";
    case SDSL_BAD_FLAG:
        return "a flag is missing or stands inside the message (operations channel)";
    case SDSL_BAD_ESCAPE:
        return "an escape other than 7D 5E and 7D 5D (operations channel)";
    case SDSL_BAD_SIZE:
        return "the message is too long or too short (operations channel)";
    default:
        return "not an answer of this library";
    }
}

/* The two ends of the line. */
enum sdsl_end { SDSL_LTU = 0, SDSL_NTU = 1 };

/*
 * Puts a number into a buffer of numbers, four octets each: `place` counts numbers from 0, so coefficient k has place k - 1. The buffer
 * must have at least 4 * (place + 1) octets.
 *
 * Example:
 *     uint8_t coefficients[720] = {0};
 *     sdsl_put_number(coefficients, 179, -131072); // coefficient 180 is -1
 *     assert(coefficients[716] == 0x00 && coefficients[718] == 0xFE && coefficients[719] == 0xFF);
 *     assert(sdsl_get_number(coefficients, 179) == -131072 && sdsl_get_number(coefficients, 178) == 0);
 */
static inline void sdsl_put_number(uint8_t *buffer, size_t place, int32_t number)
{
    uint32_t bits = (uint32_t)number;
    buffer[4 * place] = (uint8_t)(bits & 0xFF);
    buffer[4 * place + 1] = (uint8_t)(bits >> 8 & 0xFF);
    buffer[4 * place + 2] = (uint8_t)(bits >> 16 & 0xFF);
    buffer[4 * place + 3] = (uint8_t)(bits >> 24);
}

/* Gets the number at a place of such a buffer. */
static inline int32_t sdsl_get_number(const uint8_t *buffer, size_t place)
{
    uint32_t bits = (uint32_t)buffer[4 * place] | (uint32_t)buffer[4 * place + 1] << 8 | (uint32_t)buffer[4 * place + 2] << 16 |
                    (uint32_t)buffer[4 * place + 3] << 24;
    return bits < 0x80000000u ? (int32_t)bits : -(int32_t)(0xFFFFFFFFu - bits) - 1;
}

/* ---- The activation frame (clause 4.1.3) ---- */

/*
 * A frame is sent scrambled or not at all: sdsl_frame_send takes the fields and gives the frame as it goes out on the line. What comes
 * in takes two steps: sdsl_descramble_frame (below, with the scrambler), then sdsl_frame_read. Frames that have to be found first, in
 * bits off the line, are sdsl_receive's (further below).
 */

/* The two kinds of activation frame: T_c and T_r are training frames, F_c is a final frame. */
enum sdsl_kind { SDSL_TRAINING = 0, SDSL_FINAL = 1 };

#define SDSL_FRAME_OCTETS 529           /* an activation frame in memory */
#define SDSL_COEFFICIENTS 180           /* precoder coefficients in a frame; the precoder remembers as many outputs */
#define SDSL_COEFFICIENT_OCTETS 720     /* 180 numbers of four octets */
#define SDSL_VENDOR_OCTETS 16           /* vendor data */
#define SDSL_RESERVED_OCTETS 9          /* the reserved bits, as reading hands them back */
#define SDSL_COUNT_MIN 128              /* coefficients in use, at least */
#define SDSL_COUNT_MAX 180              /* coefficients in use, at most */
#define SDSL_COEFFICIENT_MIN (-2097152) /* -16 in steps of 1/131072 */
#define SDSL_COEFFICIENT_MAX 2097151
#define SDSL_WORD_MAX 2097151u          /* A and B run from 0 to this; a0 and b0 weigh 1, a20 and b20 weigh 1048576 */

/* Where each field of a frame begins, and how many bits it has. Bits count from 1 (see "Bits in octets" above). */
#define SDSL_FRAME_BITS 4227    /* bits on the line; five zero bits, the pad, fill the last octet */
#define SDSL_SYNC_BIT 1         /* 14 bits: 11111001101011 training, 11010110011111 final, left bit first */
#define SDSL_SYNC_BITS 14
#define SDSL_COEFFICIENT_BIT 15 /* coefficient k begins at SDSL_COEFFICIENT_BIT + (k - 1) * SDSL_COEFFICIENT_BITS, least bit first */
#define SDSL_COEFFICIENT_BITS 22
#define SDSL_A_BIT 3975         /* 21 bits, a0 first */
#define SDSL_B_BIT 3996         /* 21 bits, b0 first */
#define SDSL_WORD_BITS 21
#define SDSL_VENDOR_BIT 4017    /* 128 bits */
#define SDSL_RESERVED_BIT 4145  /* 67 bits: sent as zero; read as they are, under the check bits */
#define SDSL_RESERVED_BITS 67
#define SDSL_CHECK_BIT 4212     /* 16 bits, c1 first */

#define SDSL_SCRAMBLER_MAX 8388607u /* the largest state of a scrambler, 2^23 - 1 */

/* The answer, and the scrambler's state for the next call: the last 23 scrambled bits, the newest at weight 1. */
struct sdsl_scrambled {
    uint32_t answer; /* enum sdsl_answer */
    uint32_t state;  /* after a refusal the one that was passed in, if there was one, else 0 */
};

/*
 * Sends a frame: writes the 529 octets as they go out on the line, and gives the state for the next frame. The 14 sync bits go out as
 * they are and do not clock the state; the bits behind them are scrambled; the pad is zero. The reserved bits under the scrambling are
 * zero.
 *   end           the end that sends, SDSL_LTU or SDSL_NTU
 *   state         0 to SDSL_SCRAMBLER_MAX, where this end's scrambler stands: it starts with sdsl_scrambler_start's state and runs on, so
 *                 take the one that came back with the frame before, or with sdsl_scramble of what went out before the first frame
 *   kind          SDSL_TRAINING or SDSL_FINAL
 *   count         how many coefficients are in use, 128 to 180; the rest are sent as zero, whatever the buffer holds
 *   coefficients  720 octets; only the first `count` numbers are looked at, each from -2097152 to 2097151
 *   a, b          the encoder's words, 0 to 2097151; the lowest bit of a is a0, the first on the line
 *   vendor        16 octets
 *   frame         529 octets, written: what goes out. The frame as it is before scrambling never stands there
 * A final frame carries vendor data only: count, coefficients, a and b are ignored, but end, state and the lengths of all three buffers
 * must still be right.
 * The coefficients and words in a card's frame are those that its own receiver asks the far card's transmitter to use (clause 4.3.3.2).
 * Answers 0, 1, 2 (kind or end), 3, 4 (coefficient, a, b or state).
 *
 * Example:
 *     uint8_t coefficients[SDSL_COEFFICIENT_OCTETS] = {0}, vendor[SDSL_VENDOR_OCTETS] = "bench 7", reserved[SDSL_RESERVED_OCTETS];
 *     uint8_t line[SDSL_FRAME_OCTETS], heard[SDSL_FRAME_OCTETS];
 *     uint32_t start = sdsl_scrambler_start(SDSL_LTU).state;
 *     sdsl_put_number(coefficients, 0, SDSL_STEPS / 2); // coefficient 1 is one half
 *     struct sdsl_scrambled sent = sdsl_frame_send(SDSL_LTU, start, SDSL_TRAINING, SDSL_COUNT_MIN, coefficients, sizeof coefficients,
 *                                                  1, 2, vendor, sizeof vendor, line, sizeof line);
 *     assert(sent.answer == SDSL_DONE && line[0] == 0x9F); // sync goes out as it is
 *     // The far card: first descramble, then read.
 *     struct sdsl_scrambled got = sdsl_descramble_frame(SDSL_LTU, start, line, sizeof line, heard, sizeof heard);
 *     struct sdsl_frame_fields fields = sdsl_frame_read(heard, sizeof heard, coefficients, sizeof coefficients, vendor, sizeof vendor,
 *                                                       reserved, sizeof reserved);
 *     assert(fields.answer == SDSL_DONE && fields.a == 1 && fields.b == 2 && got.state == sent.state);
 *     assert(sdsl_frame_check(line, sizeof line) == SDSL_BAD_CHECK); // as it stands on the line it cannot be read
 */
struct sdsl_scrambled sdsl_frame_send(uint32_t end, uint32_t state, uint32_t kind, uint32_t count,
                                      const uint8_t *coefficients, size_t coefficients_len,
                                      uint32_t a, uint32_t b,
                                      const uint8_t *vendor, size_t vendor_len,
                                      uint8_t *frame, size_t frame_len);

/* What reading a frame gives. For a final frame a and b are 0. */
struct sdsl_frame_fields {
    uint32_t answer; /* enum sdsl_answer */
    uint32_t kind;   /* enum sdsl_kind */
    uint32_t a;      /* 0 to SDSL_WORD_MAX */
    uint32_t b;
};

/*
 * Reads a frame of 529 octets. It returns kind, A and B, and writes
 *   coefficients  720 octets, all 180 coefficients, from a training frame only
 *   vendor        16 octets, from a frame of either kind
 *   reserved      9 octets, the 67 reserved bits, from a training frame only: bit 4145 has weight 1 in the first octet, bit 4211 weight
 *                 4 in the last, whose top five bits become zero
 * A final frame leaves `coefficients` and `reserved` as they were, but their lengths must still be right.
 * Reserved bits are not judged: a card of another make may set some. (In part 1, bits 4145 and 4146 hold the number of wire pairs less
 * one, or the number of this pair less one.) They are under the check bits. sdsl_frame_send puts zeros there, so a training frame
 * that is read, sent again with a count of 180 and descrambled comes out the same exactly where all nine octets are zero.
 * A frame does not say how many coefficients are in use: unused ones are zero. Look at `answer` first: after a refusal kind is 0, which
 * is also SDSL_TRAINING.
 * Answers 0, 1, 5, 6, 7.
 *
 * Example:
 *     uint8_t coefficients[SDSL_COEFFICIENT_OCTETS], vendor[SDSL_VENDOR_OCTETS], reserved[SDSL_RESERVED_OCTETS];
 *     uint8_t frame[SDSL_FRAME_OCTETS] = {0x9F, 0x35};
 *     frame[(SDSL_RESERVED_BIT - 1) / 8] = 0x03; // another maker's card sets two of them,
 *     frame[526] = 0xD0, frame[527] = 0x8A;      // and these are the check bits of such a frame
 *     struct sdsl_frame_fields got = sdsl_frame_read(frame, sizeof frame, coefficients, sizeof coefficients, vendor, sizeof vendor,
 *                                                    reserved, sizeof reserved);
 *     assert(got.answer == SDSL_DONE && got.kind == SDSL_TRAINING && got.a == 0 && got.b == 0);
 *     assert(reserved[0] == 0x03 && reserved[8] == 0);
 */
struct sdsl_frame_fields sdsl_frame_read(const uint8_t *frame, size_t frame_len,
                                         uint8_t *coefficients, size_t coefficients_len,
                                         uint8_t *vendor, size_t vendor_len,
                                         uint8_t *reserved, size_t reserved_len);

/*
 * Gives the answer that sdsl_frame_read would give to a frame of 529 octets, and writes nothing.
 * Answers 0, 1, 5, 6, 7.
 *
 * Example:
 *     uint8_t frame[SDSL_FRAME_OCTETS] = {0x9F, 0x35};
 *     assert(sdsl_frame_check(frame, sizeof frame) == SDSL_DONE);
 *     frame[(SDSL_A_BIT - 1) / 8] ^= 1 << ((SDSL_A_BIT - 1) % 8); // one bit goes wrong on the line
 *     assert(sdsl_frame_check(frame, sizeof frame) == SDSL_BAD_CHECK);
 */
uint32_t sdsl_frame_check(const uint8_t *frame, size_t frame_len);

/* ---- The data-mode frame (part 1, clauses 7.1.2 to 7.1.5) ---- */

/* The two forms: in the plesiochronous form four stuffing bits or none stand at the frame's end, in the synchronous two spare bits. */
enum sdsl_data_form { SDSL_SYNCHRONOUS = 0, SDSL_PLESIOCHRONOUS = 1 };

#define SDSL_DATA_SYNC 0x0C3Fu          /* the sync word that the paper prints, 11111100001100, its first bit lowest */
#define SDSL_DATA_SIZE_MIN 24           /* the size k = i + 8 n of a payload sub-block, from n = 3, i = 0 */
#define SDSL_DATA_SIZE_MAX 289          /* to n = 36, i = 1 */
#define SDSL_DATA_SYNCHRONOUS_OCTETS 1740   /* the room of a frame, whatever its size is */
#define SDSL_DATA_PLESIOCHRONOUS_OCTETS 1741
#define SDSL_DATA_PAYLOAD_OCTETS(size) (6 * (size_t)(size)) /* 48 sub-blocks */

/* The indicator bits. Each is ONE when all is well; where one has no meaning (ps from the LTU), send ONE. */
#define SDSL_LOSD 1u /* ZERO: no signal at the far end's application interface */
#define SDSL_SEGA 2u /* ZERO: check bits of a frame that came in were wrong */
#define SDSL_PS 4u   /* ZERO: the NTU's local power has failed */
#define SDSL_SEGD 8u /* ZERO: loss of synchronization on what comes in */

/*
 * What a data-mode frame carries beside its sync word and its payload. In each number the first bit on the line weighs 1; only crc is
 * the other way about, as the paper has it: crc1 weighs 32 and crc6 weighs 1.
 */
struct sdsl_data_overhead {
    uint32_t indicators; /* losd 1, sega 2, ps 4, segd 8 */
    uint32_t eoc;        /* 20 bits: eoc01 weighs 1, eoc20 weighs 524288 */
    uint32_t spare;      /* synchronous form: sbid1 1, sbid2 2, spa1 4, spa2 8; send ONEs where they have no use. In the plesiochronous
                            form it is not looked at and comes back 0 */
    uint32_t stuffing;   /* plesiochronous form: 4 or 0 stuffing bits, which are ONE; synchronous form: 0 */
    uint32_t crc;        /* the six check bits that stand in this frame: those of the frame before it. In a first frame any value */
};

/* What writing a data-mode frame gives. */
struct sdsl_data_written {
    uint32_t answer; /* enum sdsl_answer */
    uint32_t crc;    /* the six check bits of this frame, which the next frame has to carry */
};

/*
 * Writes a data-mode frame: sync word, overhead bits, payload, stuffing or spare bits; the rest of the room becomes zero.
 *   form      SDSL_SYNCHRONOUS or SDSL_PLESIOCHRONOUS
 *   size      k, 24 to 289 bits: i Z-bits and n B-channels of 8
 *   sync      the sync word that pre-activation agreed on, 14 bits, the first lowest; the paper prints SDSL_DATA_SYNC
 *   overhead  the other bits
 *   payload   6 * size octets, the first bit on the line at weight 1 of the first
 *   frame     1,740 octets (synchronous) or 1,741 (plesiochronous), written
 * Answers 0, 1, 2 (form), 4 (size, sync, indicators, eoc, crc; spare in the synchronous form), 9 (stuffing), in this order.
 *
 * Example:
 *     uint8_t payload[SDSL_DATA_PAYLOAD_OCTETS(24)] = {0}, frame[SDSL_DATA_SYNCHRONOUS_OCTETS];
 *     struct sdsl_data_overhead overhead = {SDSL_LOSD | SDSL_SEGA, 0, 0, 0, 0};
 *     struct sdsl_data_written one = sdsl_data_write(SDSL_SYNCHRONOUS, 24, SDSL_DATA_SYNC, overhead, payload, sizeof payload,
 *                                                    frame, sizeof frame);
 *     assert(one.answer == SDSL_DONE && frame[0] == 0x3F && frame[1] == 0xCC); // sync, then losd and sega
 *     overhead.crc = one.crc; // the next frame carries this one's check bits
 */
struct sdsl_data_written sdsl_data_write(uint32_t form, uint32_t size, uint32_t sync,
                                         struct sdsl_data_overhead overhead,
                                         const uint8_t *payload, size_t payload_len,
                                         uint8_t *frame, size_t frame_len);

/* The six check bits that stand in a frame, and the six that the next frame has to carry. */
struct sdsl_data_crcs {
    uint32_t answer;  /* enum sdsl_answer */
    uint32_t carried; /* those of the frame before */
    uint32_t due;     /* those of this frame */
};

/*
 * The check bits of a data-mode frame. Its sync word, stuffing bits and the room behind it are not looked at, so that the six that it
 * carries can be had of a frame that is itself damaged.
 * Answers 0, 1, 2 (form), 4 (size), in this order.
 *
 * Example:
 *     uint8_t frame[SDSL_DATA_PLESIOCHRONOUS_OCTETS] = {0};
 *     frame[1197 / 8] |= 1 << (1197 % 8); // the last payload bit of a frame of size 24
 *     struct sdsl_data_crcs six = sdsl_data_crc(SDSL_PLESIOCHRONOUS, 24, frame, sizeof frame);
 *     assert(six.answer == SDSL_DONE && six.carried == 0 && six.due == 3);
 */
struct sdsl_data_crcs sdsl_data_crc(uint32_t form, uint32_t size, const uint8_t *frame, size_t frame_len);

/* What reading a data-mode frame gives. */
struct sdsl_data_fields {
    uint32_t answer; /* enum sdsl_answer */
    struct sdsl_data_overhead overhead;
};

/*
 * Reads a data-mode frame and writes its payload.
 *   form      SDSL_SYNCHRONOUS or SDSL_PLESIOCHRONOUS
 *   size      k, 24 to 289
 *   sync      the sync word that the frame has to have, 14 bits
 *   next_crc  the six check bits that the frame after this one carries
 *   frame     1,740 or 1,741 octets
 *   payload   6 * size octets, written
 * The check bits of a frame travel in the frame after it. So a receiver reads a frame when the next has come. One that cannot wait, or
 * has no next frame, passes the six that are due by sdsl_data_crc: then 7 cannot come, and it compares when the next frame is there.
 * Answers 0, 1, 2 (form), 4 (size, sync, next_crc), 5 (another sync word), 9 (sbid1 and sbid2 differ, or announce stuffing bits that
 * are not all ONE), 6 (a bit behind the frame is not zero), 7 (next_crc is not the one due), in this order.
 *
 * Example:
 *     uint8_t payload[SDSL_DATA_PAYLOAD_OCTETS(24)] = "hello", first[SDSL_DATA_SYNCHRONOUS_OCTETS], second[SDSL_DATA_SYNCHRONOUS_OCTETS];
 *     struct sdsl_data_overhead overhead = {15, 0, 15, 0, 0}; // indicators and spare bits are ONE
 *     struct sdsl_data_written one = sdsl_data_write(SDSL_SYNCHRONOUS, 24, SDSL_DATA_SYNC, overhead, payload, sizeof payload,
 *                                                    first, sizeof first);
 *     overhead.crc = one.crc;
 *     sdsl_data_write(SDSL_SYNCHRONOUS, 24, SDSL_DATA_SYNC, overhead, payload, sizeof payload, second, sizeof second);
 *     // The first frame is here and cannot wait: its own six are handed in, so all but 7 is checked.
 *     struct sdsl_data_crcs own = sdsl_data_crc(SDSL_SYNCHRONOUS, 24, first, sizeof first);
 *     struct sdsl_data_fields got = sdsl_data_read(SDSL_SYNCHRONOUS, 24, SDSL_DATA_SYNC, own.due, first, sizeof first,
 *                                                  payload, sizeof payload);
 *     assert(got.answer == SDSL_DONE && got.overhead.indicators == 15 && memcmp(payload, "hello", 5) == 0);
 *     // The second has come: were the bits of the first right?
 *     assert(sdsl_data_crc(SDSL_SYNCHRONOUS, 24, second, sizeof second).carried == own.due);
 */
struct sdsl_data_fields sdsl_data_read(uint32_t form, uint32_t size, uint32_t sync, uint32_t next_crc,
                                       const uint8_t *frame, size_t frame_len,
                                       uint8_t *payload, size_t payload_len);

/*
 * Gives the answer that sdsl_data_read would give with room for the payload, and writes nothing.
 * Answers 0, 1, 2 (form), 4 (size, sync, next_crc), 5, 9, 6, 7, in this order.
 *
 * Example:
 *     uint8_t frame[SDSL_DATA_PLESIOCHRONOUS_OCTETS] = {0x3F, 0x0C};
 *     assert(sdsl_data_check(SDSL_PLESIOCHRONOUS, 24, SDSL_DATA_SYNC, 0, frame, sizeof frame) == SDSL_DONE);
 *     frame[311 / 8] ^= 1 << (311 % 8); // sbid1 alone announces stuffing
 *     assert(sdsl_data_check(SDSL_PLESIOCHRONOUS, 24, SDSL_DATA_SYNC, 0, frame, sizeof frame) == SDSL_BAD_STUFFING);
 */
uint32_t sdsl_data_check(uint32_t form, uint32_t size, uint32_t sync, uint32_t next_crc,
                         const uint8_t *frame, size_t frame_len);

/* ---- Messages of the operations channel, eoc (part 1, clauses 10.5.5.1 to 10.5.5.6) ---- */

#define SDSL_EOC_CONTENTS_MAX 73 /* octets of contents, at most; the room that reading wants */
#define SDSL_EOC_FORM_MAX 156    /* octets of a written form, at most; the room that writing wants */
#define SDSL_EOC_ADDRESS_MAX 15u /* an address has four bits */
#define SDSL_EOC_NUMBER_MAX 255u /* a message number is an octet */

/* Addresses (table 10.5). Regenerators 1 to 8 are 3 to 10; 11 and 12 are reserved, 13 and 14 not allowed. None of them is refused. */
enum sdsl_eoc_address {
    SDSL_EOC_ADJACENT = 0, /* as destination: the unit at the other end of this segment */
    SDSL_EOC_LTU = 1,
    SDSL_EOC_NTU = 2,
    SDSL_EOC_REGENERATOR_1 = 3,
    SDSL_EOC_EVERY_UNIT = 15 /* as destination: every unit */
};

/* What writing a message gives. */
struct sdsl_eoc_written {
    uint32_t answer; /* enum sdsl_answer */
    uint32_t length; /* the octets of the form, 6 to 156, from the first flag to the last */
};

/*
 * Writes a message in its one form: flag 7E; source in the high four bits of an octet and destination in the low four; message number;
 * contents; check sequence (RFC 1662, FCS-16), low octet first; flag 7E. Between the flags 7E is written 7D 5E and 7D is written 7D 5D,
 * in every octet, those of the check sequence too.
 *   source, destination  0 to 15 (enum sdsl_eoc_address)
 *   number               0 to 255 (table 10.6: 1 Discovery Probe, 2 Inventory Request, 130 Inventory Response, 139 Status/SNR ..)
 *   contents             0 to 73 octets
 *   room                 156 octets, written: the form first, zero behind it
 * Send the first `length` octets of the room, each octet's lowest bit first. One flag may end a message and begin the next, and a host
 * may send more 7E between messages; before a Discovery Probe (message 1) the paper wants at least five flags, so send four or more of
 * your own before the form.
 * The paper counts the check sequence into its limit of 75 octets; this library does not. So another maker's card may drop a message
 * with 72 or 73 octets of contents.
 * Answers 0, 1 (room), 4 (source, destination, number), 12 (contents), in this order.
 *
 * Example:
 *     uint8_t room[SDSL_EOC_FORM_MAX];
 *     struct sdsl_eoc_written sent = sdsl_eoc_write(SDSL_EOC_LTU, SDSL_EOC_NTU, 2, NULL, 0, room, sizeof room); // Inventory Request
 *     const uint8_t form[] = {0x7E, 0x12, 0x02, 0x74, 0x8A, 0x7E};
 *     assert(sent.answer == SDSL_DONE && sent.length == sizeof form && memcmp(room, form, sizeof form) == 0 && room[6] == 0);
 */
struct sdsl_eoc_written sdsl_eoc_write(uint32_t source, uint32_t destination, uint32_t number,
                                       const uint8_t *contents, size_t contents_len,
                                       uint8_t *room, size_t room_len);

/* What reading a message gives. */
struct sdsl_eoc_message {
    uint32_t answer;      /* enum sdsl_answer */
    uint32_t source;      /* 0 to 15 */
    uint32_t destination; /* 0 to 15 */
    uint32_t number;      /* 0 to 255 */
    uint32_t length;      /* octets of contents, 0 to 73 */
};

/*
 * Reads a message and writes its contents. It takes exactly what sdsl_eoc_write writes: a message has one form.
 *   octets    any number of octets, from one flag to the next: take other flags between messages off before
 *   contents  73 octets, written: the contents first, zero behind them
 * Answers 0, 1 (contents), 10 (under two octets, the first or the last is not 7E, or a 7E between them), 11 (a 7D with neither 5E nor 5D
 * behind it), 12 (fewer than two octets or more than 75 before the check sequence, without escapes), 7 (check sequence), in this order:
 * the first that applies to the whole message, wherever in it.
 *
 * Example:
 *     const uint8_t heard[] = {0x7E, 0x21, 0x8B, 0x06, 0x00, 0x01, 0x89, 0x8E, 0x7E}; // NTU to LTU, Status/SNR: a margin of 6 dB
 *     uint8_t contents[SDSL_EOC_CONTENTS_MAX];
 *     struct sdsl_eoc_message got = sdsl_eoc_read(heard, sizeof heard, contents, sizeof contents);
 *     assert(got.answer == SDSL_DONE && got.source == SDSL_EOC_NTU && got.destination == SDSL_EOC_LTU && got.number == 139);
 *     assert(got.length == 3 && contents[0] == 6 && contents[1] == 0 && contents[2] == 1 && contents[3] == 0);
 */
struct sdsl_eoc_message sdsl_eoc_read(const uint8_t *octets, size_t octets_len,
                                      uint8_t *contents, size_t contents_len);

/*
 * The record of a unit: 79 octets, without padding, so that an array of records may be lent as octets, cast to uint8_t *. A regenerator
 * has an address for each direction: give the one of the side that the message came in on.
 */
struct sdsl_eoc_unit {
    uint8_t own;         /* its own address, 0 to 15; the host sets it */
    uint8_t present;     /* 1 once a message stands here; the host may set it to 0 again */
    uint8_t source;      /* the last message that was meant for this unit */
    uint8_t destination;
    uint8_t number;
    uint8_t length;      /* octets of contents, 0 to 73 */
    uint8_t contents[SDSL_EOC_CONTENTS_MAX]; /* zero behind them */
};

#define SDSL_EOC_UNIT_OCTETS 79 /* sizeof(struct sdsl_eoc_unit) */

/* What handing a message up gives. */
struct sdsl_eoc_handed_up {
    uint32_t answer; /* enum sdsl_answer */
    size_t units;    /* how many units took the message; 0 is possible, and no refusal */
};

/*
 * Reads a message and hands it up to the units that it is meant for: those whose own address is the destination, and every unit where
 * the destination is 0 (SDSL_EOC_ADJACENT) or 15 (SDSL_EOC_EVERY_UNIT). In the record of such a unit all but its own address is
 * written. Every other record stays as it is.
 *   octets  as for sdsl_eoc_read
 *   units   a whole number of records, one for each unit that hears this segment; none is allowed
 * Answers 0, 1 (units: no whole number of records), 4 (an own address over 15), 10, 11, 12, 7 (as sdsl_eoc_read), in this order.
 *
 * Example:
 *     const uint8_t heard[] = {0x7E, 0x12, 0x02, 0x74, 0x8A, 0x7E}; // LTU to NTU, Inventory Request
 *     struct sdsl_eoc_unit units[2];
 *     memset(units, 0, sizeof units);
 *     units[0].own = SDSL_EOC_NTU;
 *     units[1].own = SDSL_EOC_REGENERATOR_1;
 *     struct sdsl_eoc_handed_up up = sdsl_eoc_hand_up(heard, sizeof heard, (uint8_t *)units, sizeof units);
 *     assert(up.answer == SDSL_DONE && up.units == 1);
 *     assert(units[0].present == 1 && units[0].source == SDSL_EOC_LTU && units[0].number == 2 && units[1].present == 0);
 */
struct sdsl_eoc_handed_up sdsl_eoc_hand_up(const uint8_t *octets, size_t octets_len,
                                           uint8_t *units, size_t units_len);

/* ---- The scrambler (clause 4.1.5; part 1, clause 7.1.6) ---- */

/*
 * The state that the scrambler of an end, SDSL_LTU or SDSL_NTU, starts with.
 * Answers 0, 2 (end).
 *
 * Example:
 *     struct sdsl_scrambled start = sdsl_scrambler_start(SDSL_LTU);
 *     struct sdsl_scrambled_bit first = sdsl_scramble_bit(SDSL_LTU, start.state, 1);
 *     struct sdsl_scrambled_bit heard = sdsl_descramble_bit(SDSL_LTU, start.state, first.bit);
 *     assert(first.answer == SDSL_DONE && first.bit == 1 && heard.bit == 1 && heard.state == first.state);
 */
struct sdsl_scrambled sdsl_scrambler_start(uint32_t end);

/* What one bit gives: the answer, the bit that comes out, and the state for the next call. */
struct sdsl_scrambled_bit {
    uint32_t answer; /* enum sdsl_answer */
    uint32_t bit;    /* 0 or 1 */
    uint32_t state;  /* after a refusal the one that was passed in */
};

/*
 * Scrambles one bit.
 *   end    the end that sends, SDSL_LTU or SDSL_NTU
 *   state  0 to SDSL_SCRAMBLER_MAX
 *   bit    0 or 1
 * Answers 0, 2 (end), 4 (state or bit).
 */
struct sdsl_scrambled_bit sdsl_scramble_bit(uint32_t end, uint32_t state, uint32_t bit);

/*
 * Undoes sdsl_scramble_bit, given the sender's end and the state that the sender had before the bit.
 * Answers 0, 2 (end), 4 (state or bit).
 */
struct sdsl_scrambled_bit sdsl_descramble_bit(uint32_t end, uint32_t state, uint32_t bit);

/*
 * Scrambles the first `bits` bits of `in` into `out`, which has the same length. The other bits of `out` stay as they were.
 *   end    the end that sends, SDSL_LTU or SDSL_NTU
 *   state  0 to SDSL_SCRAMBLER_MAX
 *   bits   how many bits; with 0 the state comes back unchanged
 * Answers 0, 1 (bits over eight times the length, or unequal lengths), 2 (end), 4 (state).
 *
 * Example:
 *     const uint8_t ones[4] = {0xFF, 0xFF, 0xFF, 0x01};
 *     uint8_t sent[4] = {0}, heard[4] = {0};
 *     uint32_t start = sdsl_scrambler_start(SDSL_LTU).state;
 *     struct sdsl_scrambled there = sdsl_scramble(SDSL_LTU, start, ones, 4, 25, sent, 4);
 *     assert(there.answer == SDSL_DONE && sent[0] == 0x1F); // 11111000.. on the line, first bit first
 *     struct sdsl_scrambled back = sdsl_descramble(SDSL_LTU, start, sent, 4, 25, heard, 4);
 *     assert(back.state == there.state && memcmp(heard, ones, 4) == 0);
 */
struct sdsl_scrambled sdsl_scramble(uint32_t end, uint32_t state,
                                    const uint8_t *in, size_t in_len, size_t bits,
                                    uint8_t *out, size_t out_len);

/*
 * Undoes sdsl_scramble: given the sender's end and the state that the sender had before the run, it gives back the sender's input and
 * the sender's next state. A receiver that does not know the sender's state gets the right bits after the first 23.
 * Answers 0, 1 (bits over eight times the length, or unequal lengths), 2 (end), 4 (state).
 */
struct sdsl_scrambled sdsl_descramble(uint32_t end, uint32_t state,
                                      const uint8_t *in, size_t in_len, size_t bits,
                                      uint8_t *out, size_t out_len);

/*
 * Descrambles a whole frame, 529 octets in and out, given the sender's end and the state that the sender had before the frame: it gives
 * the frame that sdsl_frame_send made of its fields, and the sender's next state. The 14 sync bits pass straight through and do not
 * clock the state. The five pad bits must be zero, and are zero in the output; sync and check bits are not checked, which
 * sdsl_frame_read does. Pass the state that comes back to the call for the next frame.
 * Answers 0, 1, 2 (end), 4 (state), 6.
 *
 * Example:
 *     uint8_t unused[SDSL_COEFFICIENT_OCTETS] = {0}, vendor[SDSL_VENDOR_OCTETS] = "second", line[2][SDSL_FRAME_OCTETS];
 *     uint8_t heard[SDSL_FRAME_OCTETS];
 *     uint32_t there = sdsl_scrambler_start(SDSL_NTU).state, here = there; // two frames, one after the other
 *     for (int i = 0; i < 2; i++)
 *         there = sdsl_frame_send(SDSL_NTU, there, SDSL_FINAL, 0, unused, sizeof unused, 0, 0, vendor, sizeof vendor, line[i],
 *                                 sizeof line[i]).state;
 *     for (int i = 0; i < 2; i++)
 *         here = sdsl_descramble_frame(SDSL_NTU, here, line[i], sizeof line[i], heard, sizeof heard).state;
 *     assert(here == there && sdsl_frame_check(heard, sizeof heard) == SDSL_DONE);
 *     assert(memcmp(line[0], line[1], sizeof heard) != 0); // the same fields from another state
 */
struct sdsl_scrambled sdsl_descramble_frame(uint32_t end, uint32_t state,
                                            const uint8_t *in, size_t in_len,
                                            uint8_t *out, size_t out_len);

/* ---- The receiver: bits as they come off the line ---- */

#define SDSL_LINE_OCTETS 532         /* the room in which a receiver keeps the last bits of the line */
#define SDSL_LUMP_BITS_MAX 4096      /* bits that one call takes, at most */
#define SDSL_HEARD_MAX 4294967295u   /* bits that a receiver takes in all */
#define SDSL_PLACE_MIN 23            /* the least place of a frame: 23 bits come before it */

/* A receiver's state. Keep it, with its line room, and pass both to the next call; do not change them. */
struct sdsl_receiver {
    uint32_t end;   /* the end whose bits are heard, enum sdsl_end */
    uint32_t heard; /* the bits so far */
    uint32_t from;  /* the place to go on from: behind the last frame that was given, at first 0 */
};

/* What a start and a call give. */
struct sdsl_received {
    uint32_t answer;            /* enum sdsl_answer */
    uint32_t given;             /* 1 where a frame was given, else 0 */
    uint32_t place;             /* the place of its first sync bit, 23 or more; with none 0 */
    struct sdsl_receiver state; /* for the next call; after a refusal the one that was passed in */
};

/*
 * Starts a receiver.
 *   end  the end whose bits are heard: an LTU hears SDSL_NTU, an NTU hears SDSL_LTU
 * It needs a line room of SDSL_LINE_OCTETS octets beside it, which may hold anything. A refused start hands the end back in a state
 * that every call refuses.
 * Answers 0, 2 (end).
 */
struct sdsl_received sdsl_receive_start(uint32_t end);

/*
 * Takes the next bits off the line, however many the line chip has, and gives the activation frame that ends in them, if one does.
 *   state  what the start or the last call gave
 *   line   532 octets, the last 4,256 bits of the line, oldest first, so that the newest stands at weight 128 of the last octet: written
 *          by every call that is not refused
 *   lump   the bits, as they lie in a frame: the first at weight 1 of octet 0
 *   bits   how many, 0 to 4,096; the rest of the lump is not looked at. An empty lump has 0, and may be NULL with a length of 0
 *   frame  529 octets, written only where `given` is 1: the frame, descrambled, its pad zero. sdsl_frame_read takes it with answer 0
 * Bits are counted from 0, the first that the receiver took; a frame's place is that of its first sync bit.
 * A frame lies at a place with at least 23 bits before it, where one of the two sync words stands, and the rest, descrambled with those
 * 23 bits as state, reads with answer 0. The earliest such place is given, then the earliest behind that frame's last bit, and so on,
 * in the call that brings the frame's last bit. What is given, and where, does not depend on how the bits were cut into lumps. A call
 * never gives two: a frame has 4,227 bits.
 * Answers 0, 1 (bits over eight times the lump's octets, or line or frame of another length), 2 (end), 4 (bits over 4,096, or more than
 * 4,294,967,295 in all).
 *
 * Example:
 *     uint8_t unused[SDSL_COEFFICIENT_OCTETS] = {0}, vendor[SDSL_VENDOR_OCTETS] = {0};
 *     uint8_t sent[SDSL_FRAME_OCTETS], line[SDSL_LINE_OCTETS], heard[SDSL_FRAME_OCTETS];
 *     const uint8_t before[3] = {0, 0, 0x40}; // 23 bits: their last is a one, so the LTU's scrambler stands at 1
 *     sdsl_frame_send(SDSL_LTU, 1, SDSL_FINAL, 0, unused, sizeof unused, 0, 0, vendor, sizeof vendor, sent, sizeof sent);
 *     struct sdsl_received got = sdsl_receive_start(SDSL_LTU);
 *     got = sdsl_receive(got.state, line, sizeof line, before, sizeof before, 23, heard, sizeof heard);
 *     got = sdsl_receive(got.state, line, sizeof line, sent, sizeof sent, 4096, heard, sizeof heard);
 *     assert(got.answer == SDSL_DONE && got.given == 0); // 131 bits are still to come, from octet 512 on
 *     got = sdsl_receive(got.state, line, sizeof line, sent + 512, sizeof sent - 512, 131, heard, sizeof heard);
 *     assert(got.given == 1 && got.place == 23 && sdsl_frame_check(heard, sizeof heard) == SDSL_DONE);
 */
struct sdsl_received sdsl_receive(struct sdsl_receiver state,
                                  uint8_t *line, size_t line_len,
                                  const uint8_t *lump, size_t lump_len, size_t bits,
                                  uint8_t *frame, size_t frame_len);

/* ---- Symbols: levels and the encoder (clauses 4.1.6 and 4.3.3) ---- */

#define SDSL_SYMBOL_MAX 7u         /* three bits X1 X2 X3, X1 at weight 4 */
#define SDSL_CODE_MAX 15u          /* four bits Y3 Y2 Y1 Y0, Y3 at weight 8 */
#define SDSL_REGISTER_MAX 1048575u /* the largest register, 2^20 - 1 */
#define SDSL_SIXTEENTH 8192        /* steps of the precoder in a sixteenth: x = sixteenths * SDSL_SIXTEENTH */

/* A level in sixteenths: an odd number from -15 to 15. */
struct sdsl_level {
    uint32_t answer; /* enum sdsl_answer */
    int32_t sixteenths;
};

/* A symbol's code Y3 Y2 Y1 Y0, Y3 at weight 8. */
struct sdsl_symbol_code {
    uint32_t answer; /* enum sdsl_answer */
    uint32_t code;   /* 0 to SDSL_CODE_MAX */
};

/*
 * The level of a bit during activation: 0 gives -9, 1 gives 9.
 * Answers 0, 4 (over 1).
 *
 * Example:
 *     assert(sdsl_activation_level(0).sixteenths == -9 && sdsl_activation_level(1).sixteenths == 9);
 *     assert(sdsl_data_level(12).sixteenths == 1 && sdsl_level_code(1).code == 12);
 *     assert(sdsl_level_code(2).answer == SDSL_OUT_OF_RANGE);
 */
struct sdsl_level sdsl_activation_level(uint32_t bit);

/*
 * The level of a code in data mode. Codes 0 to 7 have the levels -15, -13 and so on to -1; codes 12 to 15 have 1, 3, 5, 7; codes 8
 * to 11 have 9, 11, 13, 15.
 * Answers 0, 4 (over 15).
 */
struct sdsl_level sdsl_data_level(uint32_t code);

/*
 * The code of a level: the inverse of sdsl_data_level.
 * Answers 0, 4 (not one of the sixteen levels).
 */
struct sdsl_symbol_code sdsl_level_code(int32_t sixteenths);

/* The answer, and the register for the next symbol: the last 20 X1, the newest at weight 1. */
struct sdsl_encoded_run {
    uint32_t answer; /* enum sdsl_answer */
    uint32_t reg;    /* after a refusal the one that was passed in, if there was one, else 0 */
};

/*
 * The register that an encoder with the words a and b, 0 to SDSL_WORD_MAX, starts with.
 * Answers 0, 4 (a or b).
 */
struct sdsl_encoded_run sdsl_encoder_start(uint32_t a, uint32_t b);

/* What encoding a symbol gives: its code, its level, and the register for the next symbol. */
struct sdsl_encoded {
    uint32_t answer; /* enum sdsl_answer */
    uint32_t code;   /* 0 to SDSL_CODE_MAX */
    int32_t sixteenths;
    uint32_t reg;    /* after a refusal the one that was passed in */
};

/*
 * Encodes one symbol: three bits X1 X2 X3, first in time first, as a number in which X1 has weight 4. Y3 is X3 and Y2 is X2. Word a
 * gives Y1 and word b gives Y0; a0 and b0 meet the current X1.
 *   a, b    0 to SDSL_WORD_MAX, as read from the far card's frame
 *   reg     0 to SDSL_REGISTER_MAX
 *   symbol  0 to SDSL_SYMBOL_MAX
 * Answers 0, 4.
 *
 * Example:
 *     struct sdsl_encoded_run start = sdsl_encoder_start(1, 2);
 *     struct sdsl_encoded first = sdsl_encode(1, 2, start.reg, 5); // bits 101
 *     struct sdsl_encoded then = sdsl_encode(1, 2, first.reg, 3);  // bits 011
 *     assert(first.sixteenths == 13 && then.sixteenths == 3 && then.reg == 2);
 */
struct sdsl_encoded sdsl_encode(uint32_t a, uint32_t b, uint32_t reg, uint32_t symbol);

/*
 * Encodes many symbols. Each takes an octet of `symbols` (0 to 7), and its code an octet of `codes` (0 to 15). The two have the same
 * length, which may be 0. Everything is checked before anything is written.
 * Answers 0, 1, 4 (a, b, reg or a symbol).
 *
 * Example:
 *     const uint8_t symbols[2] = {5, 3};
 *     uint8_t codes[2];
 *     struct sdsl_encoded_run run = sdsl_encode_run(1, 2, sdsl_encoder_start(1, 2).reg, symbols, 2, codes, 2);
 *     assert(run.answer == SDSL_DONE && codes[0] == 10 && codes[1] == 13 && run.reg == 2);
 */
struct sdsl_encoded_run sdsl_encode_run(uint32_t a, uint32_t b, uint32_t reg,
                                        const uint8_t *symbols, size_t symbols_len,
                                        uint8_t *codes, size_t codes_len);

/* ---- The precoder (clause 4.3.4) ---- */

#define SDSL_STEPS 131072         /* steps in 1: a step is 1/131072 */
#define SDSL_SAMPLE_MIN (-131072) /* x, y and past outputs, at least: -1 */
#define SDSL_SAMPLE_MAX 131071    /* x, y and past outputs, at most: a step below 1 */
#define SDSL_HISTORY_OCTETS 720   /* the last 180 outputs, four octets each */
#define SDSL_SAMPLE_OCTETS 4      /* one sample of a run */

/*
 * Makes the history that a precoder starts with: 180 outputs, all zero.
 *   history  720 octets, written
 * Answers 0, 1.
 *
 * Example:
 *     uint8_t history[SDSL_HISTORY_OCTETS];
 *     assert(sdsl_history_start(history, sizeof history) == SDSL_DONE && sdsl_get_number(history, 179) == 0);
 */
uint32_t sdsl_history_start(uint8_t *history, size_t history_len);

/*
 * Precodes a run of samples, xs to ys. A single symbol is a run of four octets.
 *   coefficients  720 octets: the 180 of the far card's frame, unused ones zero, each from -2097152 to 2097151
 *   history       720 octets: the last 180 outputs, newest first, from sdsl_history_start on; the run brings it up to date
 *   xs, ys        of the same length, a multiple of 4, which may be 0
 * Each x, each y and each number of the history lies from -131072 to 131071. Everything is checked before anything is written.
 * Answers 0, 1, 4.
 *
 * Example:
 *     uint8_t coefficients[SDSL_COEFFICIENT_OCTETS] = {0}, history[SDSL_HISTORY_OCTETS], past[SDSL_HISTORY_OCTETS];
 *     uint8_t x[SDSL_SAMPLE_OCTETS], y[SDSL_SAMPLE_OCTETS], heard[SDSL_SAMPLE_OCTETS];
 *     sdsl_put_number(coefficients, 0, SDSL_STEPS / 2); // C(1) is one half
 *     sdsl_put_number(x, 0, 9 * SDSL_SIXTEENTH);        // x is 73728, that is 9/16
 *     sdsl_history_start(history, sizeof history);
 *     sdsl_put_number(history, 0, 9 * SDSL_SIXTEENTH);  // the output before it was 9/16
 *     memcpy(past, history, sizeof past);               // the far end has the same past
 *     assert(sdsl_precode(coefficients, sizeof coefficients, history, sizeof history, x, 4, y, 4) == SDSL_DONE);
 *     assert(sdsl_get_number(y, 0) == 36864);
 *     assert(sdsl_unprecode(coefficients, sizeof coefficients, past, sizeof past, y, 4, heard, 4) == SDSL_DONE);
 *     assert(memcmp(heard, x, 4) == 0 && memcmp(past, history, sizeof past) == 0);
 */
uint32_t sdsl_precode(const uint8_t *coefficients, size_t coefficients_len,
                      uint8_t *history, size_t history_len,
                      const uint8_t *xs, size_t xs_len,
                      uint8_t *ys, size_t ys_len);

/*
 * Undoes sdsl_precode, at the receiving end: given the ys, the same coefficients and the same past, it gives the xs back. The run
 * brings the history up to date with the ys. Lengths and ranges are those of sdsl_precode.
 * Answers 0, 1, 4.
 */
uint32_t sdsl_unprecode(const uint8_t *coefficients, size_t coefficients_len,
                        uint8_t *history, size_t history_len,
                        const uint8_t *ys, size_t ys_len,
                        uint8_t *xs, size_t xs_len);

/* A sample for the shaper: exactly y / 131072, from -1 to just below 1. */
struct sdsl_shaped {
    uint32_t answer; /* enum sdsl_answer */
    float value;
};

/*
 * The float that the spectral shaper takes for y; nothing is lost.
 * Answers 0, 4 (y outside -131072 to 131071; the value is then 0).
 *
 * Example:
 *     assert(sdsl_shaper(-16384).value == -0.125f);
 */
struct sdsl_shaped sdsl_shaper(int32_t y);

/* ---- The start-up supervisor (clauses 4.1.2 and 4.1.8) ---- */

/* Report codes. A tick is one millisecond; the others take no time. A report that a phase does not await changes nothing. */
enum sdsl_report {
    SDSL_TICK = 0,                 /* one millisecond has passed */
    SDSL_PRE_ACTIVATION_ENDED = 1, /* pre-activation ended */
    SDSL_CR_BEGINS = 2,            /* C_r begins (LTU: it is heard) */
    SDSL_CR_ENDED = 3,             /* C_r has ended (LTU) */
    SDSL_CONVERGED = 4,            /* own receiver converged; counts only in S_c or S_r, so report it again there */
    SDSL_TC_SEEN = 5,              /* T_c seen (NTU) */
    SDSL_TR_SEEN = 6,              /* T_r seen (LTU) */
    SDSL_SECOND_FC_OVER = 7,       /* second F_c frame over: the LTU has sent it, or the NTU has heard it */
    SDSL_ABNORMAL = 8              /* abnormal; leads from every phase to Exception */
};
#define SDSL_REPORT_MAX 8u

/*
 * What a report code says, for a log or a screen; a number that is not a report code gives words that say so.
 *
 * Example:
 *     assert(strcmp(sdsl_report_text(SDSL_CR_BEGINS), "C_r begins") == 0);
 */
static inline const char *sdsl_report_text(uint32_t code)
{
    switch (code) {
    case SDSL_TICK:
        return "one millisecond";
    case SDSL_PRE_ACTIVATION_ENDED:
        return "pre-activation ended";
    case SDSL_CR_BEGINS:
        return "C_r begins";
    case SDSL_CR_ENDED:
        return "C_r has ended";
    case SDSL_CONVERGED:
        return "own receiver converged";
    case SDSL_TC_SEEN:
        return "T_c seen";
    case SDSL_TR_SEEN:
        return "T_r seen";
    case SDSL_SECOND_FC_OVER:
        return "second F_c frame over";
    case SDSL_ABNORMAL:
        return "abnormal";
    default:
        return "not a report code of this library";
    }
}

/* Phases, in the order of a start-up. In an attempt the phase is one of SDSL_CR to SDSL_FC. */
enum sdsl_phase {
    SDSL_READY = 0,
    SDSL_GAP = 1,       /* NTU: 300 ticks before C_r */
    SDSL_AWAIT = 2,     /* LTU: waits for C_r */
    SDSL_CR = 3,        /* NTU: sends C_r for 1,000 ticks; entering it opens an attempt */
    SDSL_HEARING = 4,   /* LTU: hears C_r; entering it opens an attempt */
    SDSL_QUIET = 5,     /* NTU: 1,500 ticks; LTU: 500 */
    SDSL_SC = 6,        /* LTU: until it has lasted 5,000 ticks and the receiver has converged in it */
    SDSL_SR = 7,        /* NTU: until the receiver has converged and T_c was seen, both in it */
    SDSL_TC = 8,        /* LTU: until T_r is seen */
    SDSL_TR = 9,        /* NTU: until the second F_c frame is over */
    SDSL_FC = 10,       /* LTU: until the second F_c frame is over */
    SDSL_SETTLING = 11, /* data mode has begun; 1,000 ticks */
    SDSL_VALID = 12,    /* payload is valid */
    SDSL_EXCEPTION = 13 /* silent; then Ready again */
};
#define SDSL_PHASE_MAX 13u

/*
 * The name of a phase as the paper writes it, for a log or a screen; a number that is not a phase gives words that say so.
 *
 * Example:
 *     assert(strcmp(sdsl_phase_text(SDSL_SR), "S_r") == 0);
 */
static inline const char *sdsl_phase_text(uint32_t phase)
{
    switch (phase) {
    case SDSL_READY:
        return "Ready";
    case SDSL_GAP:
        return "Gap";
    case SDSL_AWAIT:
        return "Await";
    case SDSL_CR:
        return "C_r";
    case SDSL_HEARING:
        return "Hearing";
    case SDSL_QUIET:
        return "Quiet";
    case SDSL_SC:
        return "S_c";
    case SDSL_SR:
        return "S_r";
    case SDSL_TC:
        return "T_c";
    case SDSL_TR:
        return "T_r";
    case SDSL_FC:
        return "F_c";
    case SDSL_SETTLING:
        return "Settling";
    case SDSL_VALID:
        return "Valid";
    case SDSL_EXCEPTION:
        return "Exception";
    default:
        return "not a phase of this library";
    }
}

/* Times in ticks. */
#define SDSL_GAP_TICKS 300
#define SDSL_CR_TICKS 1000
#define SDSL_NTU_QUIET_TICKS 1500
#define SDSL_LTU_QUIET_TICKS 500
#define SDSL_SC_TICKS 5000
#define SDSL_SETTLING_TICKS 1000
#define SDSL_ATTEMPT_TICKS 15000     /* an attempt still open at its 15,000th tick ends in Exception */
#define SDSL_SILENCE_DEFAULT 0       /* for sdsl_start: stands for SDSL_SILENCE_DEFAULT_TICKS */
#define SDSL_SILENCE_DEFAULT_TICKS 5000
#define SDSL_SILENCE_MIN 2000        /* taken, and kept, where it is asked for */
#define SDSL_SILENCE_MAX 60000
#define SDSL_STATE_TICKS_MAX 59999   /* a state's `ticks`, at most */
#define SDSL_STATE_ATTEMPT_MAX 14999 /* a state's `attempt`, at most */

/* A supervisor's state. Keep it and pass it to the next call; do not change it. */
struct sdsl_supervisor {
    uint32_t end;       /* enum sdsl_end */
    uint32_t phase;     /* enum sdsl_phase, one of this end's */
    uint32_t ticks;     /* since the phase was entered, up to 59999 */
    uint32_t attempt;   /* ticks since the attempt opened, up to 14999 */
    uint32_t silence;   /* 2000 to 60000 */
    uint32_t converged; /* 0: report 4 has not been heard in this phase; else it has */
    uint32_t seen;      /* 0: report 5 has not been heard in this phase; else it has */
};

/* What a start and a step give. */
struct sdsl_stepped {
    uint32_t answer;  /* enum sdsl_answer; look at it before the phase, which is 0 after a refusal */
    uint32_t phase;   /* enum sdsl_phase, after the code */
    uint32_t attempt; /* in an attempt the ticks since it opened, else 0 */
    struct sdsl_supervisor state; /* for the next call */
};

/*
 * Starts a supervisor.
 *   end      SDSL_LTU or SDSL_NTU
 *   silence  ticks in Exception before Ready, 2000 to 60000; 0 stands for the default, 5000
 * A refused start gives a state of zeros, which every step refuses.
 * Answers 0, 2 (end), 4 (silence).
 *
 * Example:
 *     struct sdsl_stepped card = sdsl_start(SDSL_NTU, SDSL_SILENCE_DEFAULT);
 *     card = sdsl_step(card.state, SDSL_PRE_ACTIVATION_ENDED);
 *     for (int i = 0; i < SDSL_GAP_TICKS; i++) {
 *         card = sdsl_step(card.state, SDSL_TICK);
 *     }
 *     assert(card.answer == SDSL_DONE && card.phase == SDSL_CR && card.attempt == 0);
 */
struct sdsl_stepped sdsl_start(uint32_t end, uint32_t silence);

/*
 * Takes one code, a tick or a report. A refused state comes back unchanged.
 * Answers 0, 2 (a code over 8, or a state whose end is unknown), 4 (a state out of its ranges).
 */
struct sdsl_stepped sdsl_step(struct sdsl_supervisor state, uint32_t code);

/* How the last attempt that opened in a run stands at the end of the run. */
enum sdsl_outcome { SDSL_NONE_OPENED = 0, SDSL_STILL_OPEN = 1, SDSL_IN_DATA_MODE = 2, SDSL_IN_EXCEPTION = 3 };

/* What a run over a list of codes gives. Places in the list count from 0. There is padding in it: compare two of them by field. */
struct sdsl_run {
    uint32_t answer;    /* enum sdsl_answer */
    uint64_t attempts;  /* how many attempts opened in the list */
    uint64_t opened_at; /* the place of the code that opened the last one; 0 where none opened */
    uint32_t outcome;   /* enum sdsl_outcome, of the last one */
    uint64_t ended_at;  /* the place of the code that ended it; 0 where none did */
    struct sdsl_supervisor state; /* for the next call */
};

/*
 * Takes a list of codes, an octet each, which may be empty. Codes over 8 are skipped, but count as places. A refused state comes back
 * unchanged.
 * Answers 0, 2 (a state whose end is unknown), 4 (a state out of its ranges).
 *
 * Example:
 *     uint8_t codes[1 + SDSL_GAP_TICKS] = {SDSL_PRE_ACTIVATION_ENDED}; // then 300 ticks
 *     struct sdsl_run run = sdsl_run_codes(sdsl_start(SDSL_NTU, SDSL_SILENCE_DEFAULT).state, codes, sizeof codes);
 *     assert(run.answer == SDSL_DONE && run.attempts == 1 && run.opened_at == 300 && run.outcome == SDSL_STILL_OPEN);
 */
struct sdsl_run sdsl_run_codes(struct sdsl_supervisor state, const uint8_t *codes, size_t codes_len);

#ifdef __cplusplus
}
#endif

#endif
