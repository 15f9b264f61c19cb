/*
 * second.c: compares the library with the reference.
 *
 *     second [seed [scale]]
 *
 * The seed (decimal, or hexadecimal with 0x) decides every random case; the scale multiplies their number (1 by default, 0.1 for a
 * tenth). The groups are in second_frame.c, second_data.c, second_eoc.c, second_scrambler.c, second_receiver.c, second_symbols.c and
 * second_startup.c. The status is 0 if nothing differs, 1 if something does, 2 if the arguments make no sense.
 */
#include "harness.h"

#include <errno.h>
#include <stdio.h>
#include <stdlib.h>

#define DEFAULT_SEED UINT64_C(0x101524201524)

int main(int argc, char **argv)
{
    uint64_t seed = DEFAULT_SEED;
    double scale = 1.0;
    char *rest = NULL;
    bool understood = argc <= 3;
    if (argc > 1) {
        errno = 0;
        seed = strtoull(argv[1], &rest, 0);
        understood = understood && errno == 0 && rest != argv[1] && *rest == '\0';
    }
    if (argc > 2) {
        scale = strtod(argv[2], &rest);
        understood = understood && rest != argv[2] && *rest == '\0' && scale >= 0.0 && scale <= 10000.0;
    }
    if (!understood) {
        fprintf(stderr, "usage: second [seed [scale]]\n");
        return 2;
    }

    setvbuf(stdout, NULL, _IOLBF, BUFSIZ); /* what was found stays to be seen if the library crashes */

#ifdef SECOND_FRAME
    start_chance(seed, scale);
    second_frame();
#endif
#ifdef SECOND_DATA
    start_chance(seed, scale);
    second_data();
#endif
#ifdef SECOND_EOC
    start_chance(seed, scale);
    second_eoc();
#endif
#ifdef SECOND_SCRAMBLER
    start_chance(seed, scale);
    second_scrambler();
#endif
#ifdef SECOND_RECEIVER
    start_chance(seed, scale);
    second_receiver();
#endif
#ifdef SECOND_SYMBOLS
    start_chance(seed, scale);
    second_symbols();
#endif
#ifdef SECOND_STARTUP
    start_chance(seed, scale);
    second_startup();
#endif

    printf("%llu comparisons, %llu differ (seed 0x%llx)\n", (unsigned long long)comparisons_made(),
           (unsigned long long)comparisons_differing(), (unsigned long long)seed);
    return comparisons_differing() == 0 ? 0 : 1;
}
