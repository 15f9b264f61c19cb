/* Compares sdsl_scramble and sdsl_descramble with the lines 'END DIRECTION STATE INPUT OUTPUT' on standard input. */
#include "sdsl.h"
#include <stdio.h>
#include <stdlib.h>
#include <string.h>

#define OCTETS 1500

static int octets_of(const char *hex, uint8_t *out)
{
    for (size_t i = 0; i < OCTETS; i++) {
        unsigned octet;
        if (sscanf(hex + 2 * i, "%2x", &octet) != 1)
            return 0;
        out[i] = (uint8_t)octet;
    }
    return hex[2 * OCTETS] == 0;
}

int main(void)
{
    static char input[2 * OCTETS + 2], wanted[2 * OCTETS + 2];
    static uint8_t in[OCTETS], want[OCTETS], got[OCTETS];
    char direction[8];
    unsigned end, state;
    int lines = 0;
    while (scanf("%u %7s %u %3001s %3001s", &end, direction, &state, input, wanted) == 5) {
        if (!octets_of(input, in) || !octets_of(wanted, want)) {
            puts("FAIL: a line of vectors cannot be read");
            return 1;
        }
        memset(got, 0xFF, sizeof got);
        int back = strcmp(direction, "back") == 0;
        struct sdsl_scrambled r = back ? sdsl_descramble(end, state, in, OCTETS, 8 * OCTETS, got, OCTETS)
                                       : sdsl_scramble(end, state, in, OCTETS, 8 * OCTETS, got, OCTETS);
        int right = r.answer == 0 && memcmp(got, want, OCTETS) == 0;
        printf("%s: GNU Radio, %s, %s, state %u, %d bits\n", right ? "pass" : "FAIL", end ? "NTU" : "LTU",
               back ? "descrambled" : "scrambled", state, 8 * OCTETS);
        lines++;
    }
    if (lines != 12) {
        puts("FAIL: vectors has not twelve lines");
        return 1;
    }
    return 0;
}
