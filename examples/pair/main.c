/*
 * main.c: trains a pair of cards in memory and says how it went. See README.md.
 * Status 0: data mode, every payload bit right. 1: not so. 2: the arguments make no sense.
 */
#include "card.h"

#include <errno.h>
#include <stdio.h>
#include <stdlib.h>
#include <string.h>

#define PAYLOAD_BITS 43200 /* compared in each direction: 200 ms */
#define LONGEST 40000      /* milliseconds; nothing takes so long */
#define SHOWN 22           /* octets of payload that are shown */

struct options {
    unsigned delay, drop, flip;
    int deaf, turned, newer; /* an end, or -1 */
    uint64_t seed;
    bool quiet;
};

static void usage(const char *wrong, const char *argument)
{
    fprintf(stderr,
            "pair: %s: %s\n"
            "usage: pair [--flip] [--drop N] [--deaf END] [--turned END] [--newer END] [--delay MS] [--seed N]\n"
            "            [--quiet]\n"
            "  --flip        one bit of the LTU's first frame is flipped on the line\n"
            "  --drop N      the LTU's frame N (1 to 1000) is lost on the line\n"
            "  --deaf END    the receiver of END (LTU or NTU) never converges\n"
            "  --turned END  END reads A and B last bit first\n"
            "  --newer END   END sets two of the reserved bits of its training frames\n"
            "  --delay MS    the line's delay in each direction, 0 to %d; 1 where not given\n"
            "  --seed N      other coefficients and another payload\n"
            "  --quiet       only how it went\n",
            wrong, argument, MAX_DELAY);
    exit(2);
}

static uint64_t number(const char *option, const char *value, uint64_t least, uint64_t most)
{
    char *rest = NULL;
    errno = 0;
    if (value == NULL || value[0] < '0' || value[0] > '9') {
        usage("wants a number", option);
    }
    uint64_t n = strtoull(value, &rest, 10);
    if (errno != 0 || *rest != '\0' || n < least || n > most) {
        usage("takes no such number", option);
    }
    return n;
}

static int end(const char *option, const char *value)
{
    if (value == NULL || (strcmp(value, "LTU") != 0 && strcmp(value, "NTU") != 0)) {
        usage("wants LTU or NTU", option);
    }
    return strcmp(value, "LTU") == 0 ? SDSL_LTU : SDSL_NTU;
}

static struct options read_options(char **argv)
{
    struct options o = {.delay = 1, .deaf = -1, .turned = -1, .newer = -1, .seed = 1};
    for (char **a = argv + 1; *a != NULL; a++) {
        if (strcmp(*a, "--flip") == 0) {
            o.flip = 1;
        } else if (strcmp(*a, "--quiet") == 0) {
            o.quiet = true;
        } else if (strcmp(*a, "--drop") == 0) {
            o.drop = (unsigned)number(*a, a[1], 1, 1000);
            a++;
        } else if (strcmp(*a, "--delay") == 0) {
            o.delay = (unsigned)number(*a, a[1], 0, MAX_DELAY);
            a++;
        } else if (strcmp(*a, "--seed") == 0) {
            o.seed = number(*a, a[1], 0, UINT64_MAX);
            a++;
        } else if (strcmp(*a, "--deaf") == 0) {
            o.deaf = end(*a, a[1]);
            a++;
        } else if (strcmp(*a, "--turned") == 0) {
            o.turned = end(*a, a[1]);
            a++;
        } else if (strcmp(*a, "--newer") == 0) {
            o.newer = end(*a, a[1]);
            a++;
        } else {
            usage("not understood", *a);
        }
    }
    return o;
}

/* Payload bits of `from` that `to` has heard. */
static size_t heard(const struct card *from, const struct card *to)
{
    size_t bits = to->hear.data.bits;
    return from->state.phase == SDSL_VALID && bits > from->send.payload_from ? bits - from->send.payload_from : 0;
}

/* Whether nothing more is to come. */
static bool over(const struct card *ltu, const struct card *ntu)
{
    return (ltu->gave_up && ntu->gave_up) || (heard(ltu, ntu) >= PAYLOAD_BITS && heard(ntu, ltu) >= PAYLOAD_BITS);
}

/* Compares the payload of one direction, shows how it begins, and gives the number of wrong bits. */
static size_t compare(const struct card *from, const struct card *to)
{
    size_t wrong = 0, first = from->send.payload_from;
    uint8_t shown[SHOWN] = {0};
    for (size_t i = 0; i < PAYLOAD_BITS; i++) {
        unsigned bit = bit_at(to->hear.data.octets, first + i);
        wrong += bit != bit_at(from->send.data.octets, first + i);
        if (i < 8 * SHOWN) {
            shown[i / 8] |= (uint8_t)(bit << (i % 8));
        }
    }
    for (size_t i = 0; i < SHOWN; i++) {
        shown[i] = shown[i] >= ' ' && shown[i] <= '~' ? shown[i] : '.';
    }
    printf("%s to %s: %d payload bits, %zu wrong; \"%.*s\"\n", from->name, to->name, PAYLOAD_BITS, wrong, SHOWN, (const char *)shown);
    if (to->hear.misfits > 0) {
        printf("            %u of %zu symbols fit no path: the %s asked for A %u, B %u, the %s sends with A %u, B %u\n", to->hear.misfits,
               to->hear.data.bits / 3, to->name, to->own.a, to->own.b, from->name, from->far.a, from->far.b);
    }
    return wrong;
}

int main(int argc, char **argv)
{
    (void)argc;
    static struct card ltu, ntu;
    static struct line down, up;
    struct options o = read_options(argv);
    card_start(&ltu, SDSL_LTU, o.seed);
    card_start(&ntu, SDSL_NTU, o.seed);
    ltu.quiet = ntu.quiet = o.quiet;
    ltu.deaf = o.deaf == SDSL_LTU;
    ntu.deaf = o.deaf == SDSL_NTU;
    ltu.turned = o.turned == SDSL_LTU;
    ntu.turned = o.turned == SDSL_NTU;
    ltu.newer = o.newer == SDSL_LTU;
    ntu.newer = o.newer == SDSL_NTU;
    down = (struct line){.delay = o.delay, .flip = o.flip, .drop = o.drop};
    up = (struct line){.delay = o.delay};

    card_report(&ltu, SDSL_PRE_ACTIVATION_ENDED);
    card_report(&ntu, SDSL_PRE_ACTIVATION_ENDED);
    for (unsigned ms = 0; ms < LONGEST && !over(&ltu, &ntu); ms++) {
        struct symbol from_ltu[BLOCK], from_ntu[BLOCK];
        int32_t at_ltu[BLOCK], at_ntu[BLOCK];
        card_send(&ltu, from_ltu);
        card_send(&ntu, from_ntu);
        line_carry(&down, from_ltu, at_ntu);
        line_carry(&up, from_ntu, at_ltu);
        card_hear(&ltu, at_ltu);
        card_hear(&ntu, at_ntu);
        card_tick(&ltu);
        card_tick(&ntu);
    }

    if (o.flip) {
        printf("on the line: %s of the LTU's frame 1 flipped\n", down.flipped == 1 ? "one bit" : "no bit");
    }
    if (o.drop) {
        printf("on the line: %u symbols lost\n", down.dropped);
    }
    if (o.flip || o.drop) {
        printf("the LTU sent %u frames, %u of them F_c; the NTU was given %u\n", ltu.send.frames, ltu.send.finals, ntu.hear.given);
    }
    if (heard(&ltu, &ntu) < PAYLOAD_BITS || heard(&ntu, &ltu) < PAYLOAD_BITS) {
        printf("not trained: the LTU is in %s, the NTU in %s\n", card_phase(&ltu), card_phase(&ntu));
        return 1;
    }
    size_t wrong = compare(&ltu, &ntu) + compare(&ntu, &ltu);
    printf("trained (LTU in %.3f s, NTU in %.3f s, 15 s allowed), and %s\n", ltu.trained / 1000.0, ntu.trained / 1000.0,
           wrong == 0 ? "every payload bit is right" : "the payload is wrong");
    return wrong != 0;
}
