/*
 * bench.c: measures every operation of the library beside plain C and what else there is; see bench.h and docs/PERFORMANCE.md.
 *
 *   bench [ROUNDS [MILLISECONDS [FILE]]]   the table; in each round each side of each row has so many milliseconds (8 and 5)
 *   bench --frames DIR                     writes the sorter's 340 frames to DIR/001 .. DIR/340
 *
 * Sides take turns, and of all rounds the best counts. FILE carries the best of one run on to the next (bench/run). The clock is the
 * processor time of this thread. After each turn the side's results are compared with ours: the status is 1 where any differ.
 *
 * "Worst seen" is the dearest of a row's dear cases (dear.c), each by its own best, as a ratio to the usual time. Only ours is timed on
 * them; that plain C agrees is seen once.
 */
#define _POSIX_C_SOURCE 200809L
#include "bench.h"

#include <cpuid.h>
#include <stdio.h>
#include <stdlib.h>
#include <string.h>
#include <time.h>

#define SIDES 8 /* ours, plain C, and up to six others */
#define ROWS 56

/* A symbol lasts so long at the paper's highest rate, 2,312 kbit/s and 8 kbit/s of overhead with three bits to a symbol. */
#define SYMBOL_NANOSECONDS (3e6 / (2312 + 8))

/* One side of a row. */
struct side {
    const struct library *library; /* NULL for another way */
    const struct other *other;
    size_t passes; /* in a turn; 0 where the side is not here */
    double best;   /* nanoseconds a unit */
};

static struct side sides[ROWS][SIDES];
static double dear_best[ROWS][CASES]; /* nanoseconds a unit */
static volatile uint8_t sink;
static size_t differing;

static double now(void)
{
    struct timespec time;
    if (clock_gettime(CLOCK_THREAD_CPUTIME_ID, &time) != 0) {
        abort();
    }
    return 1e9 * (double)time.tv_sec + (double)time.tv_nsec;
}

static void pass(const struct row *row, const struct side *side)
{
    if (side->library != NULL) {
        row->pass(side->library);
    } else {
        side->other->pass();
    }
    sink ^= (uint8_t)(results.octets[7] ^ results.numbers[1]);
}

/* Nanoseconds for `passes` of them. */
static double turn(const struct row *row, const struct side *side, size_t passes)
{
    double before = now();
    for (size_t i = 0; i < passes; i++) {
        pass(row, side);
    }
    return now() - before;
}

/* How many passes fill a turn. */
static size_t passes_for(const struct row *row, const struct side *side, double nanoseconds)
{
    size_t passes = 1;
    double took = turn(row, side, passes);
    while (took < nanoseconds / 2) {
        passes *= 2;
        took = turn(row, side, passes);
    }
    return passes;
}

/* A turn of each side, one after the other; the first side, ours, is what the others have to agree with. */
static void measure(const struct row *row, struct side *of_row)
{
    static struct results first;
    for (size_t s = 0; s < SIDES; s++) {
        struct side *side = &of_row[s];
        if (side->passes == 0) {
            continue;
        }
        memset(&results, 0, sizeof results);
        double took = turn(row, side, side->passes) / (double)(side->passes * row->units);
        if (side->best == 0 || took < side->best) {
            side->best = took;
        }
        if (s == 0) {
            first = results;
        } else if (memcmp(&first, &results, sizeof first) != 0) {
            differing++;
            printf("DIFFERS: %s: %s\n", row->operation, side->library != NULL ? side->library->name : side->other->name);
        }
    }
}

static void set_up(double nanoseconds)
{
    for (size_t r = 0; r < row_count; r++) {
        sides[r][0].library = &ours;
        sides[r][1].library = &plain;
        for (size_t s = 2; s < SIDES && rows[r].others != NULL && rows[r].others[s - 2].name != NULL; s++) {
            sides[r][s].other = &rows[r].others[s - 2];
        }
        for (size_t s = 0; s < SIDES; s++) {
            struct side *side = &sides[r][s];
            if (side->library != NULL || (side->other != NULL && side->other->pass != NULL)) {
                side->passes = passes_for(&rows[r], side, nanoseconds);
            }
        }
    }
}

/* ---- Dear inputs ---- */

static void dear_passes(size_t r, size_t which, size_t passes)
{
    for (size_t i = 0; i < passes; i++) {
        dears[r].pass(&ours, which);
        sink ^= (uint8_t)(results.octets[7] ^ results.numbers[1]);
    }
}

/* A row's cases share the time of one side: each of them has as many passes as fill its part, and one at least. */
static void measure_dear(size_t r, double nanoseconds)
{
    for (size_t which = 0; which < dears[r].cases; which++) {
        size_t passes = 1;
        double took = 0;
        dear_passes(r, which, 1); /* so that what went before does not count */
        for (; took < nanoseconds / (double)dears[r].cases / 2; passes *= 2) {
            double before = now();
            dear_passes(r, which, passes);
            took = now() - before;
            double one = took / (double)(passes * dears[r].units);
            if (dear_best[r][which] == 0 || one < dear_best[r][which]) {
                dear_best[r][which] = one;
            }
        }
    }
}

/* Whether plain C finds the same on every dear case. */
static void compare_dear(void)
{
    static struct results first;
    for (size_t r = 0; r < row_count; r++) {
        for (size_t which = 0; which < dears[r].cases; which++) {
            char text[128];
            memset(&results, 0, sizeof results);
            dears[r].pass(&ours, which);
            first = results;
            memset(&results, 0, sizeof results);
            dears[r].pass(&plain, which);
            if (memcmp(&first, &results, sizeof first) != 0) {
                differing++;
                dears[r].name(which, text, sizeof text);
                printf("DIFFERS: %s: plain C: %s\n", rows[r].operation, text);
            }
        }
    }
}

/* The dearest case of a row. */
static size_t worst_of(size_t r)
{
    size_t worst = 0;
    for (size_t which = 1; which < dears[r].cases; which++) {
        if (dear_best[r][which] > dear_best[r][worst]) {
            worst = which;
        }
    }
    return worst;
}

/* ---- The best so far, in a file ---- */

static int load_best(const char *name)
{
    int rounds = 0;
    size_t r, s;
    double best;
    FILE *file = fopen(name, "r");
    if (file == NULL) {
        return 0;
    }
    if (fscanf(file, "%d", &rounds) != 1) {
        rounds = 0;
    }
    while (fscanf(file, "%zu %zu %lf", &r, &s, &best) == 3 && r < ROWS && s < SIDES + CASES) {
        *(s < SIDES ? &sides[r][s].best : &dear_best[r][s - SIDES]) = best;
    }
    fclose(file);
    return rounds;
}

static void store_best(const char *name, int rounds)
{
    FILE *file = fopen(name, "w");
    if (file == NULL) {
        perror(name);
        exit(2);
    }
    fprintf(file, "%d\n", rounds);
    for (size_t r = 0; r < row_count; r++) {
        for (size_t s = 0; s < SIDES; s++) {
            fprintf(file, "%zu %zu %.3f\n", r, s, sides[r][s].best);
        }
        for (size_t which = 0; which < dears[r].cases; which++) {
            fprintf(file, "%zu %zu %.3f\n", r, SIDES + which, dear_best[r][which]);
        }
    }
    fclose(file);
}

/* ---- Where it runs ---- */

/* Whether the processor is QEMU's translator: it says so in the leaf for hypervisors. */
static bool emulated(void)
{
    unsigned int a, b, c, d;
    char signature[13] = {0};
    __cpuid(0x40000000, a, b, c, d);
    memcpy(signature, &b, 4);
    memcpy(signature + 4, &c, 4);
    memcpy(signature + 8, &d, 4);
    return a >= 0x40000000 && strcmp(signature, "TCGTCGTCGTCG") == 0;
}

static void print_processor(void)
{
    unsigned int words[12] = {0};
    char name[49] = "unknown";
    if (__get_cpuid_max(0x80000000, NULL) >= 0x80000004) {
        for (unsigned int leaf = 0; leaf < 3; leaf++) {
            __cpuid(0x80000002 + leaf, words[4 * leaf], words[4 * leaf + 1], words[4 * leaf + 2], words[4 * leaf + 3]);
        }
        memcpy(name, words, 48);
    }
    const char *host = getenv("BENCH_HOST");
    if (emulated()) {
        printf("Processor: %s. EMULATED: %s (all sides alike).\n", host != NULL ? host : "not told", name);
    } else {
        printf("Processor: %s. Not emulated.\n", name);
    }
}

/* ---- The table ---- */

#ifndef RATTLE
#define RATTLE "not told"
#endif

static void print_heading(int rounds, double milliseconds)
{
    print_processor();
    printf("Compilers: plain C by gcc %s -O2; ours by Rattle (%s). Beside them: %s.\n", __VERSION__, RATTLE, others_found);
    printf("Best of %d rounds of %g ms of processor time a side, sides in turn. Nanoseconds; a ratio over 1 is ours the faster.\n\n",
           rounds, milliseconds);
}

static void print_other(const struct side *side, double own)
{
    if (side->passes == 0) {
        printf(" not here | |\n");
    } else {
        printf(" %.*f | %.2f |\n", own < 100 ? 1 : 0, side->best, side->best / own);
    }
}

static void print_table(void)
{
    printf("| Operation | Unit | Plain C | Ours | Ratio | Target | Worst seen | Another way | Theirs | Ratio |\n"
           "|---|---|---:|---:|---:|---|---:|---|---:|---:|\n");
    for (size_t r = 0; r < row_count; r++) {
        const struct side *side = sides[r];
        int digits = side[0].best < 100 ? 1 : 0;
        double ratio = side[1].best / side[0].best;
        double asked = rows[r].beside_other ? side[2].best / side[0].best : ratio;
        int target = emulated() ? rows[r].target : rows[r].native;
        char aim[64] = "none";
        if (target > 0) {
            snprintf(aim, sizeof aim, "%d%s, %s", target, rows[r].beside_other ? " in the last column" : "",
                     asked >= target ? "met" : "not met");
        }
        printf("| %s | %s | %.*f | %.*f | %.2f | %s | %.2f |", rows[r].operation, rows[r].unit, digits, side[1].best, digits,
               side[0].best, ratio, aim, dear_best[r][worst_of(r)] / side[0].best);
        if (side[2].other == NULL) {
            printf(" | | |\n");
        } else {
            printf(" %s |", side[2].other->name);
            print_other(&side[2], side[0].best);
        }
    }
    for (size_t r = 0; r < row_count; r++) {
        if (sides[r][3].other != NULL) {
            printf("\n| Other ways: %s | Theirs | Ratio |\n|---|---:|---:|\n", rows[r].operation);
            for (size_t s = 2; s < SIDES && sides[r][s].other != NULL; s++) {
                printf("| %s |", sides[r][s].other->name);
                print_other(&sides[r][s], sides[r][0].best);
            }
        }
    }
}

static void print_worst(void)
{
    for (size_t r = 0; r < row_count; r++) {
        char text[128];
        size_t worst = worst_of(r);
        dears[r].name(worst, text, sizeof text);
        printf("worst seen, %s: %s (%zu tried)\n", rows[r].operation, text, dears[r].cases);
    }
}

static void print_to_spare(const struct row *row)
{
    double own = sides[row - rows][0].best;
    printf("%s: %.1f ns of the %.1f ns that a symbol lasts at the highest rate: one core keeps up %.1f times%s.\n",
           row->operation, own, SYMBOL_NANOSECONDS, SYMBOL_NANOSECONDS / own,
           emulated() ? " (EMULATED; says little of a real x86-64)" : "");
}

/* In activation a symbol has one bit. */
static void print_limit(const struct limit *limit)
{
    double own = sides[limit->row - rows][0].best, most = limit->part * SYMBOL_NANOSECONDS;
    printf("%s: %.1f ns of the %.1f ns that a bit lasts at the highest rate; it may take %.1f: %s.\n", limit->row->operation, own,
           SYMBOL_NANOSECONDS, most, emulated() ? "not judged (EMULATED)" : own <= most ? "met" : "not met");
}

/* The longest that a data-mode frame took: by the usual inputs of a row, or by its dearest. */
static void print_longest(void)
{
    double longest = 0;
    const struct row *of = data_row;
    for (size_t r = (size_t)(data_row - rows); r < (size_t)(message_row - rows); r++) {
        double dear = dear_best[r][worst_of(r)];
        double took = dear > sides[r][0].best ? dear : sides[r][0].best;
        if (took > longest) {
            longest = took;
            of = &rows[r];
        }
    }
    printf("a data-mode frame takes at most %.0f ns (%s); it may take %d: %s%s.\n", longest, of->operation, DATA_NANOSECONDS,
           longest <= DATA_NANOSECONDS ? "met" : "not met", emulated() ? " (EMULATED)" : "");
}

static int write_frames_to(const char *folder)
{
    for (int i = 0; i < CARDS; i++) {
        char name[4096];
        snprintf(name, sizeof name, "%s/%03d", folder, i + 1);
        FILE *file = fopen(name, "wb");
        if (file == NULL || fwrite(cards[i], SDSL_FRAME_OCTETS, 1, file) != 1 || fclose(file) != 0) {
            perror(name);
            return 1;
        }
    }
    return 0;
}

int main(int count, char **words)
{
    if (!make_inputs()) {
        fprintf(stderr, "bench: an input was refused by sdsl_data_write or sdsl_eoc_write, or a stream is not what it has to be\n");
        return 2;
    }
    if (count == 3 && strcmp(words[1], "--frames") == 0) {
        return write_frames_to(words[2]);
    }
    int rounds = count > 1 ? atoi(words[1]) : 8;
    double milliseconds = count > 2 ? atof(words[2]) : 5;
    const char *carried = count > 3 ? words[3] : NULL;
    for (size_t r = 0; r < dear_count; r++) {
        rounds = dears[r].cases <= CASES ? rounds : 0;
    }
    if (count > 4 || rounds < 1 || milliseconds <= 0 || row_count > ROWS || dear_count != row_count) {
        fprintf(stderr, "usage: bench [ROUNDS [MILLISECONDS [FILE]]] | bench --frames DIR\n");
        return 2;
    }
    prepare_others();
    int before = carried != NULL ? load_best(carried) : 0;
    compare_dear();
    set_up(1e6 * milliseconds);
    print_heading(before + rounds, milliseconds);
    for (int round = 0; round < rounds; round++) {
        for (size_t r = 0; r < row_count; r++) {
            measure(&rows[r], sides[r]);
            measure_dear(r, 1e6 * milliseconds);
        }
    }
    if (carried != NULL) {
        store_best(carried, before + rounds);
    }
    print_table();
    printf("\n");
    print_to_spare(encoder_row);
    print_to_spare(precoder_row);
    print_longest();
    for (size_t i = 0; i < LIMITS; i++) {
        print_limit(&limits[i]);
    }
    print_worst();
    printf("%s\n", differing == 0 ? "All sides agree." : "SIDES DIFFER.");
    return differing == 0 ? 0 : 1;
}
