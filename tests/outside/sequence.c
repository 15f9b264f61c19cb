/*
 * Reads requests from standard input, one a line, and prints 'HEX ANSWER', after a refusal ' ANSWER':
 *   write HEX  the octets of a message before its check sequence: its form, by sdsl_eoc_write
 *   read HEX   a form, from flag to flag: the octets before its check sequence, by sdsl_eoc_read
 */
#include "sdsl.h"

#include <stdio.h>
#include <stdlib.h>
#include <string.h>

static char line[1 << 12];
static uint8_t octets[sizeof line / 2];

static size_t take(const char *hex)
{
    size_t len = strspn(hex, "0123456789abcdef") / 2;
    for (size_t i = 0; i < len; i++) {
        char two[3] = {hex[2 * i], hex[2 * i + 1], 0};
        octets[i] = (uint8_t)strtoul(two, NULL, 16);
    }
    return len;
}

static void show(const uint8_t *some, size_t len)
{
    for (size_t i = 0; i < len; i++)
        printf("%02x", some[i]);
}

static uint32_t write_it(size_t len)
{
    uint8_t room[SDSL_EOC_FORM_MAX];
    struct sdsl_eoc_written made = sdsl_eoc_write(octets[0] >> 4, octets[0] & 15, octets[1], octets + 2, len - 2, room, sizeof room);
    show(room, made.length);
    return made.answer;
}

static uint32_t read_it(size_t len)
{
    uint8_t contents[SDSL_EOC_CONTENTS_MAX];
    struct sdsl_eoc_message got = sdsl_eoc_read(octets, len, contents, sizeof contents);
    const uint8_t two[2] = {(uint8_t)(got.source << 4 | got.destination), (uint8_t)got.number};
    show(two, got.answer == SDSL_DONE ? 2 : 0);
    show(contents, got.length);
    return got.answer;
}

int main(void)
{
    while (fgets(line, sizeof line, stdin)) {
        int reading = strncmp(line, "read ", 5) == 0;
        size_t len = take(line + (reading ? 5 : 6));
        if (!reading && (strncmp(line, "write ", 6) != 0 || len < 2))
            return 1;
        uint32_t answer = reading ? read_it(len) : write_it(len);
        printf(" %u\n", (unsigned)answer);
    }
    return 0;
}
