/*
 * Reads requests 'HEX AT BITS' from standard input, one a line, and prints the check bits of each as a number; of a request
 * 'HEX AT BITS GENERATOR DEGREE START' the remainder by that generator, behind that start; of a request 'HEX COUNT' the check sequence of
 * the first COUNT octets.
 */
#include <stdint.h>
#include <stdio.h>
#include <stdlib.h>
#include <string.h>

uint32_t trial_check_bits(const uint8_t *octets, size_t len, size_t at, uint32_t bits);
uint32_t trial_from_start(uint32_t generator, uint32_t degree, uint32_t start, const uint8_t *octets, size_t len, size_t at,
                          uint32_t bits);
uint32_t trial_sequence(const uint8_t *octets, size_t len);

static char line[1 << 16];
static uint8_t octets[sizeof line / 2];

int main(void)
{
    while (fgets(line, sizeof line, stdin)) {
        char *rest = strchr(line, ' ');
        if (!rest)
            return 1;
        size_t len = (size_t)(rest - line) / 2;
        for (size_t i = 0; i < len; i++) {
            char two[3] = {line[2 * i], line[2 * i + 1], 0};
            octets[i] = (uint8_t)strtoul(two, NULL, 16);
        }
        unsigned long long at;
        unsigned bits, generator, degree, start;
        int numbers = sscanf(rest, "%llu %u %u %u %u", &at, &bits, &generator, &degree, &start);
        if (numbers == 1)
            printf("%u\n", (unsigned)trial_sequence(octets, at));
        else if (numbers == 5)
            printf("%u\n", (unsigned)trial_from_start(generator, degree, start, octets, len, at, bits));
        else
            printf("%u\n", (unsigned)trial_check_bits(octets, len, at, bits));
    }
    return 0;
}
