/* harness.c: see harness.h. */
#include "harness.h"

#include <stdarg.h>
#include <stdio.h>
#include <stdlib.h>
#include <string.h>

#define GUARD_OCTETS 64
#define MAX_GUARDS (2 * GUARD_OCTETS + 7) /* both guards of a zone, the first one up to 7 octets longer */
#define MAX_LINES 20
#define MAX_LINES_EACH 5 /* so that one function cannot hide another */

/* ---- Chance ---- */

static uint64_t chance;
static double case_scale = 1.0;

void start_chance(uint64_t seed, double scale)
{
    chance = seed;
    case_scale = scale;
}

/* The end of splitmix64. */
static uint64_t mixed(uint64_t z)
{
    z = (z ^ (z >> 30)) * UINT64_C(0xbf58476d1ce4e5b9);
    z = (z ^ (z >> 27)) * UINT64_C(0x94d049bb133111eb);
    return z ^ (z >> 31);
}

uint64_t random64(void)
{
    chance += UINT64_C(0x9e3779b97f4a7c15);
    return mixed(chance);
}

uint32_t random32(void)
{
    return (uint32_t)(random64() >> 32);
}

uint64_t below(uint64_t limit)
{
    return random64() % limit;
}

int32_t between(int32_t lowest, int32_t highest)
{
    return (int32_t)(lowest + (int64_t)below((uint64_t)((int64_t)highest - lowest + 1)));
}

void random_octets(uint8_t *octets, size_t len)
{
    for (size_t i = 0; i < len; i++) {
        octets[i] = (uint8_t)(random64() >> 56);
    }
}

size_t scaled(size_t cases)
{
    return (size_t)((double)cases * case_scale);
}

void set_number(uint8_t *octets, size_t i, int32_t number)
{
    uint32_t rest = (uint32_t)number;
    for (size_t k = 0; k < 4; k++) {
        octets[4 * i + k] = (uint8_t)(rest & 255);
        rest >>= 8;
    }
}

int32_t get_number(const uint8_t *octets, size_t i)
{
    uint32_t number = 0;
    for (size_t k = 4; k > 0; k--) {
        number = number << 8 | octets[4 * i + k - 1];
    }
    return (int32_t)number;
}

void flip_bit(uint8_t *octets, size_t n)
{
    octets[(n - 1) / 8] = (uint8_t)(octets[(n - 1) / 8] ^ (1 << ((n - 1) % 8)));
}

bool get_bit(const uint8_t *octets, size_t n)
{
    return (octets[(n - 1) / 8] >> ((n - 1) % 8) & 1) == 1;
}

bool same_octets(const uint8_t *one, const uint8_t *other, size_t len)
{
    return len == 0 || memcmp(one, other, len) == 0;
}

/* ---- Lent memory ---- */

static uint8_t *take_memory(size_t len)
{
    uint8_t *memory = malloc(len > 0 ? len : 1);
    if (memory == NULL) {
        fprintf(stderr, "second: no memory\n");
        exit(2);
    }
    return memory;
}

/* The octets of a zone's two guards, one after the other. */
static void make_guards(uint64_t guard, uint8_t *octets, size_t len)
{
    uint64_t eight = 0;
    for (size_t i = 0; i < len; i++) {
        eight = i % 8 == 0 ? mixed(guard + i / 8) : eight >> 8;
        octets[i] = (uint8_t)(eight & 255);
    }
}

static uint8_t *make_zone(const uint8_t *contents, size_t len, size_t front, uint64_t guard)
{
    uint8_t guards[MAX_GUARDS];
    make_guards(guard, guards, front + GUARD_OCTETS);
    uint8_t *zone = take_memory(front + len + GUARD_OCTETS);
    memcpy(zone, guards, front);
    memcpy(zone + front + len, guards + front, GUARD_OCTETS);
    if (len > 0) {
        memcpy(zone + front, contents, len);
    }
    return zone;
}

static bool guards_whole(const uint8_t *zone, size_t len, size_t front, uint64_t guard)
{
    uint8_t guards[MAX_GUARDS];
    make_guards(guard, guards, front + GUARD_OCTETS);
    return memcmp(zone, guards, front) == 0 && memcmp(zone + front + len, guards + front, GUARD_OCTETS) == 0;
}

struct pair lend(const uint8_t *contents, size_t len)
{
    struct pair pair;
    pair.len = len;
    pair.front = GUARD_OCTETS + (size_t)below(8);
    pair.lib_guard = random64();
    pair.ref_guard = random64();
    pair.lib_zone = make_zone(contents, len, pair.front, pair.lib_guard);
    pair.ref_zone = make_zone(contents, len, pair.front, pair.ref_guard);
    pair.before = take_memory(len);
    if (len > 0) {
        memcpy(pair.before, contents, len);
    }
    bool null = len == 0 && below(2) == 0;
    pair.lib = null ? NULL : pair.lib_zone + pair.front;
    pair.ref = null ? NULL : pair.ref_zone + pair.front;
    return pair;
}

struct pair lend_junk(size_t len)
{
    uint8_t *contents = take_memory(len);
    random_octets(contents, len);
    struct pair pair = lend(contents, len);
    free(contents);
    return pair;
}

struct pair lend_ones(size_t len)
{
    uint8_t *contents = take_memory(len);
    memset(contents, 255, len);
    struct pair pair = lend(contents, len);
    free(contents);
    return pair;
}

void give_back(struct pair *pair)
{
    free(pair->lib_zone);
    free(pair->ref_zone);
    free(pair->before);
}

/* ---- Comparing ---- */

static uint64_t all_made;
static uint64_t all_differing;
static unsigned lines_printed;

void want(struct comparison *comparison, bool good, const char *otherwise)
{
    if (!good && comparison->wrong == NULL) {
        comparison->wrong = otherwise;
    }
}

static void want_guards(struct comparison *comparison, const struct pair *pair)
{
    want(comparison, guards_whole(pair->lib_zone, pair->len, pair->front, pair->lib_guard),
         "the library wrote outside a lent buffer");
    want(comparison, guards_whole(pair->ref_zone, pair->len, pair->front, pair->ref_guard),
         "the reference wrote outside a lent buffer");
}

void want_kept(struct comparison *comparison, const struct pair *pair, const char *otherwise)
{
    want_guards(comparison, pair);
    want(comparison, same_octets(pair->lib, pair->before, pair->len), otherwise);
    want(comparison, same_octets(pair->ref, pair->before, pair->len), otherwise);
}

void want_written(struct comparison *comparison, const struct pair *pair, uint32_t answer, const char *otherwise)
{
    want_guards(comparison, pair);
    want(comparison, same_octets(pair->lib, pair->ref, pair->len), otherwise);
    if (answer != 0) {
        want(comparison, same_octets(pair->lib, pair->before, pair->len), "a refused call wrote lent memory");
    }
}

void settle(struct comparison comparison, struct tally *tally, const char *format, ...)
{
    tally->made++;
    all_made++;
    if (comparison.wrong == NULL) {
        return;
    }
    tally->differ++;
    all_differing++;
    if (lines_printed >= MAX_LINES || tally->differ > MAX_LINES_EACH) {
        return;
    }
    lines_printed++;
    printf("%s: %s: ", tally->function, comparison.wrong);
    va_list arguments;
    va_start(arguments, format);
    vprintf(format, arguments);
    va_end(arguments);
    printf("\n");
}

void print_group(const char *name, const struct tally *tallies, size_t count)
{
    uint64_t made = 0;
    uint64_t differ = 0;
    for (size_t i = 0; i < count; i++) {
        made += tallies[i].made;
        differ += tallies[i].differ;
    }
    printf("%s: %llu comparisons, %llu differ\n", name, (unsigned long long)made, (unsigned long long)differ);
    for (size_t i = 0; i < count; i++) {
        printf("  %-22s %9llu", tallies[i].function, (unsigned long long)tallies[i].made);
        if (tallies[i].differ > 0) {
            printf(", %llu differ", (unsigned long long)tallies[i].differ);
        }
        printf("\n");
    }
}

uint64_t comparisons_made(void)
{
    return all_made;
}

uint64_t comparisons_differing(void)
{
    return all_differing;
}
