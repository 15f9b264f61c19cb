/*
 * harness.h: what the groups of the driver share: chance, lent memory between guard zones, and the count of comparisons.
 */
#ifndef HARNESS_H
#define HARNESS_H

#include <stdbool.h>
#include <stddef.h>
#include <stdint.h>

/* Which groups are compiled in. With none named, all are. */
#if defined SECOND_ALL || \
    !(defined SECOND_FRAME || defined SECOND_DATA || defined SECOND_EOC || defined SECOND_SCRAMBLER || defined SECOND_RECEIVER || \
      defined SECOND_SYMBOLS || defined SECOND_STARTUP)
#undef SECOND_FRAME
#undef SECOND_DATA
#undef SECOND_EOC
#undef SECOND_SCRAMBLER
#undef SECOND_RECEIVER
#undef SECOND_SYMBOLS
#undef SECOND_STARTUP
#define SECOND_FRAME
#define SECOND_DATA
#define SECOND_EOC
#define SECOND_SCRAMBLER
#define SECOND_RECEIVER
#define SECOND_SYMBOLS
#define SECOND_STARTUP
#endif

#define ITEMS(array) (sizeof(array) / sizeof((array)[0]))

/* ---- Chance, all of it from one seed ---- */

void start_chance(uint64_t seed, double scale);
uint64_t random64(void);
uint32_t random32(void);
uint64_t below(uint64_t limit); /* 0 to limit - 1 */
int32_t between(int32_t lowest, int32_t highest);
void random_octets(uint8_t *octets, size_t len);
size_t scaled(size_t cases); /* a number of random cases, by the driver's second argument */

/* Four octets, low octet first: number i, from 0, of a buffer. */
void set_number(uint8_t *octets, size_t i, int32_t number);
int32_t get_number(const uint8_t *octets, size_t i);

/* Bit n, from 1, as SCOPE lays it. */
void flip_bit(uint8_t *octets, size_t n);
bool get_bit(const uint8_t *octets, size_t n);

/* memcmp that allows NULL with length 0. */
bool same_octets(const uint8_t *one, const uint8_t *other, size_t len);

/* ---- Lent memory ---- */

/*
 * One lent buffer for each side, with the same contents. Each lies between two guard zones of 64 octets with contents of their own, at
 * a chance alignment. A buffer of length 0 is NULL in half of the cases.
 */
struct pair {
    size_t len;
    uint8_t *lib; /* what the library is lent */
    uint8_t *ref; /* what the reference is lent */
    uint8_t *before;
    uint8_t *lib_zone;
    uint8_t *ref_zone;
    size_t front; /* octets before the buffer in its zone */
    uint64_t lib_guard;
    uint64_t ref_guard;
};

struct pair lend(const uint8_t *contents, size_t len);
struct pair lend_junk(size_t len);
struct pair lend_ones(size_t len); /* every bit set */
void give_back(struct pair *pair);

/* ---- Comparing ---- */

/* How often a function was compared, and how often it differed. */
struct tally {
    const char *function;
    uint64_t made;
    uint64_t differ;
};

/*
 * One comparison: everything that one call returned and all memory it was lent, against the reference. The first thing that is wrong
 * is kept in `wrong`, and `settle` counts the comparison and prints it if something was.
 */
struct comparison {
    const char *wrong;
};

void want(struct comparison *comparison, bool good, const char *otherwise);
/* A const buffer: nothing changed, on either side. */
void want_kept(struct comparison *comparison, const struct pair *pair, const char *otherwise);
/* A written buffer: both sides hold the same, guard zones are whole, and after a refusal nothing changed. */
void want_written(struct comparison *comparison, const struct pair *pair, uint32_t answer, const char *otherwise);
void settle(struct comparison comparison, struct tally *tally, const char *format, ...) __attribute__((format(printf, 3, 4)));

/* The groups. Each ends with its line of counts through print_group. */
void second_frame(void);
void second_data(void);
void second_eoc(void);
void second_scrambler(void);
void second_receiver(void);
void second_symbols(void);
void second_startup(void);

void print_group(const char *name, const struct tally *tallies, size_t count);
uint64_t comparisons_made(void);
uint64_t comparisons_differing(void);

#endif
