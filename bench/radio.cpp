// radio.cpp: GNU Radio's scrambler (gnuradio/digital/lfsr.h, Debian: gnuradio-dev) over the benchmark's frames; see bench.h.
// It takes a bit at a time, one to an octet, so frames are unpacked before and packed again behind it, which is counted. Its register
// turned round is our state, and its scrambled bits come out after a delay of the register's 23 (tests/radio says how).
#define HAVE_BUILTIN_PARITYL 1
#include <gnuradio/digital/lfsr.h>

#include <cstring>
extern "C" {
#include "bench.h"
}

static const size_t SYNC = SDSL_SYNC_BITS;
static const size_t PAYLOAD = SDSL_FRAME_BITS - SDSL_SYNC_BITS;
static const size_t DELAY = 23;

static gr::digital::lfsr register_of(uint32_t end)
{
    unsigned tap = end == SDSL_LTU ? 5 : 18;
    return gr::digital::lfsr(1u | 1u << (23 - tap), 0, 22);
}

static void unpack(const uint8_t *frame, uint8_t *bits)
{
    for (size_t i = 0; i < PAYLOAD; i++) {
        bits[i] = frame[(SYNC + i) / 8] >> ((SYNC + i) % 8) & 1;
    }
}

static void pack(const uint8_t *sync_of, const uint8_t *bits, uint8_t *frame)
{
    std::memset(frame, 0, SDSL_FRAME_OCTETS);
    frame[0] = sync_of[0];
    frame[1] = sync_of[1] & 0x3F;
    for (size_t i = 0; i < PAYLOAD; i++) {
        frame[(SYNC + i) / 8] |= static_cast<uint8_t>(bits[i] << ((SYNC + i) % 8));
    }
}

// The state behind a frame whose scrambled bits are these.
static uint32_t state_behind(const uint8_t *bits)
{
    uint32_t state = 0;
    for (size_t back = 0; back < DELAY; back++) {
        state |= static_cast<uint32_t>(bits[PAYLOAD - 1 - back]) << back;
    }
    return state;
}

static void scramble(uint32_t end, uint32_t kind)
{
    static uint8_t out[BATCH * PAYLOAD + DELAY], in[PAYLOAD];
    gr::digital::lfsr reg = register_of(end);
    uint8_t *next = out;
    for (size_t i = 0; i < BATCH; i++) {
        unpack(unscrambled[kind][i], in);
        for (uint8_t bit : in) {
            *next++ = reg.next_bit_scramble(bit);
        }
    }
    for (size_t i = 0; i < DELAY; i++) {
        *next++ = reg.next_bit_scramble(0);
    }
    for (size_t i = 0; i < BATCH; i++) {
        const uint8_t *bits = out + DELAY + i * PAYLOAD;
        pack(unscrambled[kind][i], bits, results.octets + i * SDSL_FRAME_OCTETS);
        results.numbers[2 * i] = SDSL_DONE;
        results.numbers[2 * i + 1] = state_behind(bits);
    }
}

static void descramble(uint32_t end)
{
    static uint8_t in[PAYLOAD], out[PAYLOAD];
    gr::digital::lfsr reg = register_of(end);
    for (size_t i = 0; i < BATCH; i++) {
        unpack(line[end][i], in);
        for (size_t n = 0; n < PAYLOAD; n++) {
            out[n] = reg.next_bit_descramble(in[n]);
        }
        pack(line[end][i], out, results.octets + i * SDSL_FRAME_OCTETS);
        results.numbers[2 * i] = SDSL_DONE;
        results.numbers[2 * i + 1] = state_behind(in);
    }
}

extern "C" {
void radio_training_ltu(void) { scramble(SDSL_LTU, SDSL_TRAINING); }
void radio_training_ntu(void) { scramble(SDSL_NTU, SDSL_TRAINING); }
void radio_final_ltu(void) { scramble(SDSL_LTU, SDSL_FINAL); }
void radio_final_ntu(void) { scramble(SDSL_NTU, SDSL_FINAL); }
void radio_descramble_ltu(void) { descramble(SDSL_LTU); }
void radio_descramble_ntu(void) { descramble(SDSL_NTU); }
}
