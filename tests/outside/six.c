/* Reads requests 'FORM SIZE HEX' from standard input, one a line, HEX a frame's room, and prints 'ANSWER CARRIED DUE' by sdsl_data_crc. */
#include "sdsl.h"

#include <stdio.h>
#include <stdlib.h>
#include <string.h>

static char line[1 << 14];
static uint8_t room[sizeof line / 2];

int main(void)
{
    while (fgets(line, sizeof line, stdin)) {
        char *rest;
        uint32_t form = (uint32_t)strtoul(line, &rest, 10);
        uint32_t size = (uint32_t)strtoul(rest, &rest, 10);
        rest += strspn(rest, " ");
        size_t len = strspn(rest, "0123456789abcdef") / 2;
        for (size_t i = 0; i < len; i++) {
            char two[3] = {rest[2 * i], rest[2 * i + 1], 0};
            room[i] = (uint8_t)strtoul(two, NULL, 16);
        }
        struct sdsl_data_crcs six = sdsl_data_crc(form, size, room, len);
        printf("%u %u %u\n", (unsigned)six.answer, (unsigned)six.carried, (unsigned)six.due);
    }
    return 0;
}
