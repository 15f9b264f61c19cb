// Prints the lines of tests/radio/vectors: END DIRECTION STATE INPUT OUTPUT. All the scrambling is GNU Radio's (gnuradio/digital/lfsr.h).
// GNU Radio's register takes the newest bit at its top and works on the rest shifted down, so our state (newest at weight 1) is its seed
// turned round, s(n-23) is its bit 0 and s(n-tap) its bit 23 - tap. Its scrambled bits come out after a delay of the register's 23.
#define HAVE_BUILTIN_PARITYL 1
#include <gnuradio/digital/lfsr.h>
#include <cstdio>
#include <random>
#include <vector>

static const unsigned octets = 1500;

static uint64_t turned(uint64_t state)
{
    uint64_t out = 0;
    for (int i = 0; i < 23; i++)
        out |= ((state >> i) & 1) << (22 - i);
    return out;
}

static void hex(const std::vector<int> &bits)
{
    for (unsigned i = 0; i < octets; i++) {
        unsigned octet = 0;
        for (int b = 0; b < 8; b++)
            octet |= static_cast<unsigned>(bits[8 * i + b]) << b;
        std::printf("%02x", octet);
    }
}

int main()
{
    std::mt19937 random(20261115);
    const unsigned taps[2] = {5, 18};
    const uint64_t states[3] = {0, 1, 0x5a1234};
    for (int end = 0; end < 2; end++)
        for (int back = 0; back < 2; back++)
            for (uint64_t state : states) {
                gr::digital::lfsr reg(1u | 1u << (23 - taps[end]), turned(state), 22);
                std::vector<int> in, out;
                for (unsigned i = 0; i < 8 * octets; i++)
                    in.push_back(random() >> 31);
                if (back)
                    for (int bit : in)
                        out.push_back(reg.next_bit_descramble(bit));
                else {
                    for (int bit : in)
                        out.push_back(reg.next_bit_scramble(bit));
                    for (int i = 0; i < 23; i++)
                        out.push_back(reg.next_bit_scramble(0));
                    out.erase(out.begin(), out.begin() + 23);
                }
                std::printf("%d %s %u ", end, back ? "back" : "out", static_cast<unsigned>(state));
                hex(in);
                std::printf(" ");
                hex(out);
                std::printf("\n");
            }
}
