/* A frame is sent; the other card descrambles and reads it, and refuses it after a bit went wrong. make first && ./run first */
#include "sdsl.h"
#include <stdio.h>

int main(void)
{
    uint8_t coefficients[SDSL_COEFFICIENT_OCTETS] = {0}, vendor[SDSL_VENDOR_OCTETS] = "bench 7", reserved[SDSL_RESERVED_OCTETS];
    uint8_t line[SDSL_FRAME_OCTETS], frame[SDSL_FRAME_OCTETS];
    uint32_t start = sdsl_scrambler_start(SDSL_LTU).state;

    /* The LTU sends a training frame with A = 1. Only its sync goes out as it is. The state that comes back is for its next frame. */
    sdsl_put_number(coefficients, 0, SDSL_STEPS / 2); /* coefficient 1 is one half */
    struct sdsl_scrambled sent = sdsl_frame_send(SDSL_LTU, start, SDSL_TRAINING, SDSL_COUNT_MIN, coefficients, sizeof coefficients,
                                                 1, 0, vendor, sizeof vendor, line, sizeof line);
    printf("send: %u, first octet %02X\n", sent.answer, line[0]);

    /* The NTU reads what came, and has not descrambled it: refused, and nothing that was lent has changed. */
    struct sdsl_frame_fields got = sdsl_frame_read(line, sizeof line, coefficients, sizeof coefficients, vendor, sizeof vendor,
                                                   reserved, sizeof reserved);
    printf("read: %u, %s\n", got.answer, sdsl_answer_text(got.answer));

    /* First descramble, with the sender's end and state; then read. Reserved bits are zero here; a card of another make may set some. */
    struct sdsl_scrambled heard = sdsl_descramble_frame(SDSL_LTU, start, line, sizeof line, frame, sizeof frame);
    got = sdsl_frame_read(frame, sizeof frame, coefficients, sizeof coefficients, vendor, sizeof vendor, reserved, sizeof reserved);
    printf("descramble: %u\n", heard.answer);
    printf("read: %u, kind %u, A %u, B %u, vendor %.16s, reserved %02X..\n", got.answer, got.kind, got.a, got.b, (char *)vendor, reserved[0]);

    /* One bit wrong on the line. */
    line[100] ^= 4;
    sdsl_descramble_frame(SDSL_LTU, start, line, sizeof line, frame, sizeof frame);
    printf("check: %u\n", sdsl_frame_check(frame, sizeof frame));
}
