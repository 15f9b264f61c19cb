#include <sdsl.h>
#include <stdio.h>

int main(void)
{
    uint8_t c[SDSL_COEFFICIENT_OCTETS] = {0}, v[SDSL_VENDOR_OCTETS] = {0}, line[SDSL_FRAME_OCTETS], frame[SDSL_FRAME_OCTETS];
    fprintf(stderr, "%s\n", sdsl_answer_text(sdsl_frame_send(SDSL_NTU, 1, SDSL_TRAINING, SDSL_COUNT_MIN, c, sizeof c, 0, 0,
                                                             v, sizeof v, line, sizeof line).answer));
    return sdsl_descramble_frame(SDSL_NTU, 1, line, sizeof line, frame, sizeof frame).answer || !fwrite(frame, sizeof frame, 1, stdout);
}
