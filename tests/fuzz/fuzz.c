/*
 * fuzz.c: feeds arbitrary octets to every function of sdsl.h.
 *
 *     fuzz [seed [inputs]]
 *
 * An input decides which function is called, with which numbers, lengths and contents. Every lent buffer lies against a page that may
 * not be touched, at its front or at its end as the input says, and against a pattern on the other side; a buffer of length 0 may be
 * NULL. After each call: the answer is one that the header lists for the function (8 is listed for none), nothing outside the lent
 * memory has changed, const buffers hold what they held, and after a refusal so does everything, the state comes back equal and every
 * other number is 0.
 *
 * Inputs come from the seed: new ones, and changed copies of those that were the first or latest to get an answer. At the end it prints
 * how often each answer of each function was seen; one that the header lists and no input got is a failure too.
 *
 * LLVMFuzzerTestOneInput is the entry that clang's -fsanitize=fuzzer wants; -DFUZZ_ENTRY_ONLY leaves this file's main out.
 */
#define _DEFAULT_SOURCE
#include "fuzz_answers.h" /* from the header: see test */
#include "sdsl.h"

#include <setjmp.h>
#include <signal.h>
#include <stdbool.h>
#include <stdio.h>
#include <stdlib.h>
#include <string.h>
#include <sys/mman.h>
#include <unistd.h>

int LLVMFuzzerTestOneInput(const uint8_t *data, size_t size);

#define ANSWERS 13
#define ITEMS(array) (sizeof(array) / sizeof((array)[0]))

/* ---- The input ---- */

static struct {
    const uint8_t *data;
    size_t size, at;
    uint64_t number; /* which input of this seed */
    uint64_t seed;
    unsigned function;
} input;

static uint8_t take8(void)
{
    return input.at < input.size ? input.data[input.at++] : 0;
}

static uint64_t take(unsigned octets)
{
    uint64_t n = 0;
    while (octets-- > 0) {
        n = n << 8 | take8();
    }
    return n;
}

static void failed(const char *what)
{
    printf("FAIL: %s: %s (seed %llu, input %llu)\n  ", fuzz_functions[input.function].name, what, (unsigned long long)input.seed,
           (unsigned long long)input.number);
    for (size_t i = 0; i < input.size && i < 256; i++) {
        printf("%02x", input.data[i]);
    }
    printf("\n");
    fflush(stdout);
#ifdef FUZZ_ENTRY_ONLY
    abort();
#else
    _exit(1);
#endif
}

static void want(bool good, const char *otherwise)
{
    if (!good) {
        failed(otherwise);
    }
}

/* A number that is mostly from least to most, sometimes just beside, sometimes any. */
static uint32_t number(int64_t least, int64_t most)
{
    switch (take8() % 16) {
    case 0:
        return (uint32_t)take(4);
    case 1: {
        const int64_t edges[4] = {least - 1, least, most, most + 1};
        return (uint32_t)edges[take8() % 4];
    }
    default:
        return (uint32_t)(least + (int64_t)(take(4) % (uint64_t)(most - least + 1)));
    }
}

/* A length that is mostly the right one. */
static size_t length(size_t right)
{
    switch (take8() % 24) {
    case 0:
        return 0;
    case 1:
        return right > 0 ? right - 1 : 0;
    case 2:
        return right + 1;
    case 3:
        return take(2) % 2048;
    default:
        return right;
    }
}

/* ---- Lent memory ---- */

#define FENCE 65536 /* octets that may not be touched, on either side; a multiple of any page */
#define ROOM 65536
#define PATTERN 256 /* octets that are looked at on the side without a fence */

struct lent {
    uint8_t *room; /* ROOM octets between two fences */
    uint8_t *p;
    size_t len;
    bool written; /* lent without const */
    bool at_front;
    uint8_t before[4096];
};

static struct lent lents[4];
static unsigned lent_count;

static void fence_in(void)
{
    for (unsigned i = 0; i < ITEMS(lents) && lents[i].room == NULL; i++) {
        uint8_t *all = mmap(NULL, ROOM + 3 * FENCE, PROT_NONE, MAP_PRIVATE | MAP_ANONYMOUS, -1, 0);
        if (all == MAP_FAILED) {
            perror("fuzz: mmap");
            exit(2);
        }
        lents[i].room = all + 2 * FENCE - (uintptr_t)all % FENCE;
        if (mprotect(lents[i].room, ROOM, PROT_READ | PROT_WRITE) != 0) {
            perror("fuzz: mprotect");
            exit(2);
        }
    }
}

static uint8_t *pattern_of(const struct lent *l)
{
    return l->at_front ? l->room + l->len : l->room + ROOM - l->len - PATTERN;
}

static struct lent *lend(size_t len, bool written)
{
    struct lent *l = &lents[lent_count++];
    uint8_t how = take8();
    l->len = len;
    l->written = written;
    l->at_front = how & 1;
    l->p = l->at_front ? l->room : l->room + ROOM - len;
    memset(pattern_of(l), 0xA5 ^ (int)lent_count, PATTERN);
    if (len == 0 && how & 2) {
        l->p = NULL;
    }
    return l;
}

/* Any octets: zeros, ones in every bit, those of the input, or many made of eight of them. */
static void fill(struct lent *l)
{
    if (l->len == 0) {
        return;
    }
    uint8_t how = take8() % 4;
    uint64_t s = take(8) | 1;
    for (size_t i = 0; i < l->len; i++) {
        s ^= s << 13;
        s ^= s >> 7;
        s ^= s << 17;
        l->p[i] = how == 0 ? 0 : how == 1 ? take8() : how == 2 ? 255 : (uint8_t)(s >> 32);
    }
}

/* Numbers of four octets from least to most, mostly: at their edges, or anywhere; sometimes one is outside. */
static void fill_numbers(struct lent *l, int32_t least, int32_t most)
{
    fill(l);
    uint8_t how = take8() % 8;
    if (how == 0) {
        return; /* any octets */
    }
    for (size_t i = 0; i + 4 <= l->len; i += 4) {
        uint32_t any = (uint32_t)sdsl_get_number(l->p, i / 4);
        int64_t n = how == 1 ? (any & 1 ? least : most) : least + (int64_t)(any % ((uint32_t)(most - least) + 1));
        if (how == 2 && i == 4 * (l->len / 8)) {
            n = any & 1 ? (int64_t)least - 1 : (int64_t)most + 1;
        }
        for (unsigned k = 0; k < 4; k++) {
            l->p[i + k] = (uint8_t)((uint64_t)n >> (8 * k));
        }
    }
}

static void put_bit(uint8_t *octets, size_t n, unsigned value)
{
    uint8_t weight = (uint8_t)(1 << ((n - 1) % 8));
    octets[(n - 1) / 8] = (uint8_t)((octets[(n - 1) / 8] & ~weight) | (value ? weight : 0));
}

static void put_check_bits(uint8_t *frame)
{
    uint32_t rest = 0;
    for (size_t n = SDSL_COEFFICIENT_BIT; n < SDSL_CHECK_BIT; n++) {
        uint32_t bit = frame[(n - 1) / 8] >> ((n - 1) % 8) & 1;
        rest = rest << 1 ^ ((rest >> 15 ^ bit) & 1 ? 0x1021 : 0);
        rest &= 0xFFFF;
    }
    for (unsigned i = 0; i < 16; i++) {
        put_bit(frame, SDSL_CHECK_BIT + i, rest >> (15 - i) & 1);
    }
}

/*
 * A frame that is right as far as the input says: sync, pad, check bits; and then perhaps a bit that is not. Its reserved bits are any,
 * or zero.
 */
static void fill_frame(struct lent *l)
{
    fill(l);
    if (l->len != SDSL_FRAME_OCTETS) {
        return;
    }
    unsigned right = take8() % 8, final = take8() & 1, wrong = (unsigned)take(2);
    if (right >= 1) {
        for (unsigned i = 0; i < SDSL_SYNC_BITS; i++) {
            put_bit(l->p, SDSL_SYNC_BIT + i, (final ? "11010110011111" : "11111001101011")[i] - '0');
        }
    }
    for (unsigned n = SDSL_FRAME_BITS + 1; right >= 2 && n <= 8 * SDSL_FRAME_OCTETS; n++) {
        put_bit(l->p, n, 0);
    }
    for (unsigned n = SDSL_RESERVED_BIT; right >= 4 && right % 2 == 0 && n < SDSL_CHECK_BIT; n++) {
        put_bit(l->p, n, 0);
    }
    if (right >= 3) {
        put_check_bits(l->p);
    }
    if (right >= 6 && wrong < 8 * SDSL_FRAME_OCTETS) {
        put_bit(l->p, wrong + 1, take8() & 1);
    }
}

/* What reading a data-mode frame is asked, mostly what is right for it. */
struct data_request {
    uint32_t sync, next_crc;
};

static size_t data_octets(uint32_t form)
{
    return form == SDSL_SYNCHRONOUS ? SDSL_DATA_SYNCHRONOUS_OCTETS : SDSL_DATA_PLESIOCHRONOUS_OCTETS;
}

/* Mostly a small size, which takes less time. */
static uint32_t data_size(void)
{
    return take8() % 4 == 0 ? number(SDSL_DATA_SIZE_MIN, SDSL_DATA_SIZE_MAX) : number(SDSL_DATA_SIZE_MIN, SDSL_DATA_SIZE_MIN + 8);
}

/* The payload's length. Of a size that is too large for any buffer here it is six times the size only in 32 bits, or in 16. */
static size_t data_payload(uint32_t size)
{
    uint32_t six = 6 * size;
    return length(six <= 2048 ? six : six % 65536 % 2048);
}

/* The six check bits due after the first 48 size + 46 bits of a frame and, in the synchronous form, two more. */
static uint32_t data_due(const uint8_t *frame, uint32_t form, uint32_t size)
{
    uint32_t rest = 0;
    for (size_t n = 15; n <= 48 * size + (form == SDSL_SYNCHRONOUS ? 48 : 46); n++) {
        size_t in_row = n <= 12 * size + 16 ? 0 : (n - 17) % (12 * size + 10) + 1 - 12 * size; /* 1 to 10: before a payload block */
        if (in_row != 5 && in_row != 6) { /* where the crc stands */
            uint32_t bit = frame[(n - 1) / 8] >> ((n - 1) % 8) & 1;
            rest = (rest << 1 ^ ((rest >> 5 ^ bit) & 1 ? 3 : 0)) & 63;
        }
    }
    return rest;
}

/* A frame that is right as far as the input says: sync, stuffing, room behind, check bits; and then perhaps a bit that is not. */
static struct data_request fill_data_frame(struct lent *l, uint32_t form, uint32_t size)
{
    struct data_request q = {.sync = number(0, 16383)};
    q.next_crc = number(0, 63);
    fill(l);
    unsigned right = take8() % 8, stuffed = take8() & 1, wrong = (unsigned)take(2);
    if (form > SDSL_PLESIOCHRONOUS || l->len != data_octets(form) || size < SDSL_DATA_SIZE_MIN || size > SDSL_DATA_SIZE_MAX) {
        return q;
    }
    unsigned last = 48 * size + (form == SDSL_SYNCHRONOUS ? 48 : stuffed ? 50 : 46);
    for (unsigned i = 0; right >= 1 && i < 14; i++) {
        put_bit(l->p, 1 + i, q.sync >> i & 1);
    }
    if (right >= 2 && form == SDSL_PLESIOCHRONOUS) {
        put_bit(l->p, 12 * size + 24, stuffed);
        put_bit(l->p, 24 * size + 36, stuffed);
        for (unsigned n = 48 * size + 47; n <= last; n++) {
            put_bit(l->p, n, 1);
        }
    }
    if (right >= 3) {
        unsigned n = last;
        while (n % 8 != 0) {
            put_bit(l->p, ++n, 0);
        }
        memset(l->p + n / 8, 0, l->len - n / 8);
    }
    if (right >= 4) {
        q.next_crc = data_due(l->p, form, size);
    }
    if (right >= 7 && wrong < 8 * l->len) {
        put_bit(l->p, wrong + 1, take8() & 1);
    }
    return q;
}

/* Behind so many octets of a message the two of its check sequence, by RFC 1662's way to make its table. */
static void put_sequence(uint8_t *plain, size_t count)
{
    uint32_t rest = 0xFFFF;
    for (size_t i = 0; i < 8 * count; i++) {
        rest = rest >> 1 ^ ((rest ^ plain[i / 8] >> i % 8) & 1 ? 0x8408 : 0);
    }
    plain[count] = (uint8_t)~rest;
    plain[count + 1] = (uint8_t)(~rest >> 8);
}

/* The octets that mean something in a form, of 7D also what stands behind it. */
static uint8_t special(uint64_t n)
{
    return (uint8_t)"\x7E\x7D\x5E\x5D"[n % 4];
}

/* So many octets for between the flags, without escapes: mostly 4 to 77. Few or many of them are special. */
static size_t any_plain(uint8_t *plain)
{
    uint8_t how = take8() % 32;
    size_t count = 4 + take8() % 74u;
    count = how == 0 ? take(2) % 1000 : how < 4 ? 74 + count % 8 : how < 8 ? count % 6 : count;
    unsigned specials = take8() % 8;
    uint64_t s = take(8) | 1;
    for (size_t i = 0; i < count; i++) {
        s ^= s << 13;
        s ^= s >> 7;
        s ^= s << 17;
        plain[i] = (s >> 20) % 8 < specials ? special(s >> 40) : (uint8_t)(s >> 32);
    }
    return count;
}

/* The octets between two flags, of 7E and 7D escaped those that have to be. Says how many that is. */
static size_t put_form(const uint8_t *plain, size_t count, bool flags, bool escapes, uint8_t *form)
{
    size_t len = 0;
    form[len++] = 0x7E;
    for (size_t i = 0; i < count; i++) {
        if ((flags && plain[i] == 0x7E) || (escapes && plain[i] == 0x7D)) {
            form[len++] = 0x7D;
            form[len++] = plain[i] ^ 0x20;
        } else {
            form[len++] = plain[i];
        }
    }
    form[len++] = 0x7E;
    return len;
}

/* A bit, an octet put instead, taken away or put between, or the end cut off. Says how many octets there are then. */
static size_t damage(uint8_t *form, size_t len)
{
    size_t place = len > 0 ? take(2) % len : 0;
    uint8_t how = take8(), octet = take8();
    octet = how & 16 ? special(octet) : octet;
    switch (len > 0 ? how % 5 : 3) {
    case 0:
        form[place] ^= (uint8_t)(1 << octet % 8);
        return len;
    case 1:
        form[place] = octet;
        return len;
    case 2:
        memmove(form + place, form + place + 1, len - place - 1);
        return len - 1;
    case 3:
        memmove(form + place + 1, form + place, len - place);
        form[place] = octet;
        return len + 1;
    default:
        return octet % 2 ? place : len - 1;
    }
}

/*
 * Any octets, or a message that is right as far as the input says: flags, escapes, check sequence; and then perhaps up to three places
 * that are not.
 */
static struct lent *lend_message(void)
{
    static uint8_t plain[1024], form[2 * sizeof plain + 8];
    unsigned right = take8() % 12;
    if (right == 0) {
        struct lent *any = lend(take(2) % 1024, false);
        fill(any);
        return any;
    }
    size_t count = any_plain(plain);
    if (right != 1 && count >= 2) {
        put_sequence(plain, count - 2);
    }
    size_t len = put_form(plain, count, right != 2, right != 3, form);
    for (unsigned n = right >= 7 ? 1 + take8() % 3 : 0; n > 0; n--) {
        len = damage(form, len);
    }
    struct lent *l = lend(len, false);
    for (size_t i = 0; i < len; i++) {
        l->p[i] = form[i];
    }
    return l;
}

/* Any octets, or many special ones. */
static void fill_contents(struct lent *l)
{
    fill(l);
    unsigned how = take8() % 4;
    for (size_t i = 0; i < l->len; i++) {
        l->p[i] = l->p[i] % 4u < how ? special(l->p[i] >> 2) : l->p[i];
    }
}

static void keep(void)
{
    for (unsigned i = 0; i < lent_count; i++) {
        if (lents[i].len > 0) {
            memcpy(lents[i].before, lents[i].p, lents[i].len);
        }
    }
}

static bool is_kept(const struct lent *l)
{
    return l->len == 0 || memcmp(l->p, l->before, l->len) == 0;
}

/* What has to hold of memory after a call. */
static void look_after(uint32_t answer)
{
    for (unsigned i = 0; i < lent_count; i++) {
        const struct lent *l = &lents[i];
        const uint8_t *pattern = pattern_of(l);
        for (size_t k = 0; k < PATTERN; k++) {
            want(pattern[k] == (uint8_t)(0xA5 ^ (i + 1)), "writes outside a lent buffer");
        }
        bool same = is_kept(l);
        want(same || l->written, "changes a const buffer");
        want(same || answer == SDSL_DONE, "changes a buffer and refuses");
    }
}

/* ---- The functions. Each makes one call, looks at the numbers that come back, and gives the answer. ---- */

/* The answer that a sending has to get: one list, in number order. */
struct sent_fields {
    uint32_t end, state, kind, count, a, b;
    const struct lent *coefficients, *vendor;
};

static uint32_t send_due(struct sent_fields s, size_t frame_len)
{
    if (s.coefficients->len != SDSL_COEFFICIENT_OCTETS || s.vendor->len != SDSL_VENDOR_OCTETS || frame_len != SDSL_FRAME_OCTETS) {
        return SDSL_BAD_LENGTH;
    }
    if (s.kind > SDSL_FINAL || s.end > SDSL_NTU) {
        return SDSL_UNKNOWN;
    }
    bool training = s.kind == SDSL_TRAINING;
    if (training && (s.count < SDSL_COUNT_MIN || s.count > SDSL_COUNT_MAX)) {
        return SDSL_BAD_COUNT;
    }
    bool right = s.state <= SDSL_SCRAMBLER_MAX && (!training || (s.a <= SDSL_WORD_MAX && s.b <= SDSL_WORD_MAX));
    for (size_t i = 0; training && i < s.count; i++) {
        int32_t n = sdsl_get_number(s.coefficients->p, i);
        right = right && n >= SDSL_COEFFICIENT_MIN && n <= SDSL_COEFFICIENT_MAX;
    }
    return right ? SDSL_DONE : SDSL_OUT_OF_RANGE;
}

/* What was sent, in the two steps of the receiving side: the fields come back, and the next state. */
static void look_at_sent(struct sent_fields s, uint32_t next, const uint8_t *line)
{
    uint8_t frame[SDSL_FRAME_OCTETS], coefficients[SDSL_COEFFICIENT_OCTETS], vendor[SDSL_VENDOR_OCTETS], nine[SDSL_RESERVED_OCTETS];
    bool training = s.kind == SDSL_TRAINING;
    want(line[0] == (training ? 0x9F : 0x6B) && (line[1] & 63) == (training ? 0x35 : 0x3E), "sends other sync bits");
    want(line[SDSL_FRAME_OCTETS - 1] <= 7, "leaves a one above the frame's last bit");
    struct sdsl_scrambled heard = sdsl_descramble_frame(s.end, s.state, line, SDSL_FRAME_OCTETS, frame, sizeof frame);
    want(heard.answer == SDSL_DONE && heard.state == next, "gives a state that is not the receiver's");
    memset(nine, 0, sizeof nine);
    struct sdsl_frame_fields r = sdsl_frame_read(frame, sizeof frame, coefficients, sizeof coefficients, vendor, sizeof vendor,
                                                 nine, sizeof nine);
    want(r.answer == SDSL_DONE && r.kind == s.kind, "sends what cannot be read");
    want(memcmp(vendor, s.vendor->before, sizeof vendor) == 0, "sends other vendor data");
    want(nine[8] == 0 && memcmp(nine, nine + 1, sizeof nine - 1) == 0, "sends a reserved bit");
    want(!training || (r.a == s.a && r.b == s.b), "sends other words");
    for (size_t i = 0; training && i < SDSL_COEFFICIENTS; i++) {
        int32_t n = i < s.count ? sdsl_get_number(s.coefficients->before, i) : 0;
        want(sdsl_get_number(coefficients, i) == n, "sends other coefficients");
    }
}

static uint32_t scrambled(struct sdsl_scrambled r, uint32_t state, bool moved)
{
    want(r.answer == SDSL_DONE ? r.state <= SDSL_SCRAMBLER_MAX : r.state == state, "gives a wrong state");
    want(moved || r.state == state, "moves a state over no bits");
    return r.answer;
}

static uint32_t try_frame_send(void)
{
    struct sent_fields s = {.end = number(SDSL_LTU, SDSL_NTU)};
    s.state = number(0, SDSL_SCRAMBLER_MAX);
    s.kind = number(SDSL_TRAINING, SDSL_FINAL);
    s.count = number(SDSL_COUNT_MIN, SDSL_COUNT_MAX);
    s.a = number(0, SDSL_WORD_MAX);
    s.b = number(0, SDSL_WORD_MAX);
    struct lent *c = lend(length(SDSL_COEFFICIENT_OCTETS), false), *v = lend(length(SDSL_VENDOR_OCTETS), false);
    struct lent *f = lend(length(SDSL_FRAME_OCTETS), true);
    s.coefficients = c;
    s.vendor = v;
    fill_numbers(c, SDSL_COEFFICIENT_MIN, SDSL_COEFFICIENT_MAX);
    fill(v);
    fill_frame(f);
    keep();
    uint32_t due = send_due(s, f->len);
    struct sdsl_scrambled r = sdsl_frame_send(s.end, s.state, s.kind, s.count, c->p, c->len, s.a, s.b, v->p, v->len, f->p, f->len);
    want(r.answer == due, "takes another length or number, or refuses the right ones");
    if (r.answer == SDSL_DONE) {
        look_at_sent(s, r.state, f->p);
    }
    return scrambled(r, s.state, true);
}

static uint32_t try_frame_read(void)
{
    struct lent *f = lend(length(SDSL_FRAME_OCTETS), false), *c = lend(length(SDSL_COEFFICIENT_OCTETS), true);
    struct lent *v = lend(length(SDSL_VENDOR_OCTETS), true), *nine = lend(length(SDSL_RESERVED_OCTETS), true);
    fill_frame(f);
    fill(c);
    fill(v);
    fill(nine);
    keep();
    struct sdsl_frame_fields r = sdsl_frame_read(f->p, f->len, c->p, c->len, v->p, v->len, nine->p, nine->len);
    bool lengths = f->len == SDSL_FRAME_OCTETS && c->len == SDSL_COEFFICIENT_OCTETS && v->len == SDSL_VENDOR_OCTETS &&
                   nine->len == SDSL_RESERVED_OCTETS;
    want((r.answer == SDSL_BAD_LENGTH) == !lengths, "takes another length, or refuses the right ones");
    want(r.answer == SDSL_DONE || (r.kind | r.a | r.b) == 0, "gives numbers and refuses");
    want(r.kind <= SDSL_FINAL && r.a <= SDSL_WORD_MAX && r.b <= SDSL_WORD_MAX, "gives a number out of its range");
    want(r.kind == SDSL_TRAINING || ((r.a | r.b) == 0 && is_kept(c)), "gives a final frame's coefficients");
    want(r.kind == SDSL_TRAINING || is_kept(nine), "gives a final frame's reserved bits");
    want(r.answer != SDSL_DONE || r.kind == SDSL_FINAL || nine->p[8] <= 7, "leaves a one above the 67 reserved bits");
    return r.answer;
}

static uint32_t try_frame_check(void)
{
    struct lent *f = lend(length(SDSL_FRAME_OCTETS), false);
    fill_frame(f);
    keep();
    return sdsl_frame_check(f->p, f->len);
}

static uint32_t try_data_write(void)
{
    uint32_t form = number(SDSL_SYNCHRONOUS, SDSL_PLESIOCHRONOUS), size = data_size(), sync = number(0, 16383);
    struct sdsl_data_overhead overhead = {.indicators = number(0, 15)};
    overhead.eoc = number(0, 1048575);
    overhead.crc = number(0, 63);
    overhead.spare = form == SDSL_SYNCHRONOUS ? number(0, 15) : (uint32_t)take(4);
    overhead.stuffing = take8() % 16 == 0 ? number(0, 4) : form == SDSL_SYNCHRONOUS ? 0 : 4 * (take8() % 2);
    struct lent *p = lend(data_payload(size), false), *f = lend(length(data_octets(form)), true);
    fill(p);
    fill(f);
    keep();
    struct sdsl_data_written r = sdsl_data_write(form, size, sync, overhead, p->p, p->len, f->p, f->len);
    want(r.answer == SDSL_DONE ? r.crc <= 63 : r.crc == 0, "gives wrong check bits");
    return r.answer;
}

static uint32_t try_data_crc(void)
{
    uint32_t form = number(SDSL_SYNCHRONOUS, SDSL_PLESIOCHRONOUS), size = data_size();
    struct lent *f = lend(length(data_octets(form)), false);
    fill_data_frame(f, form, size);
    keep();
    struct sdsl_data_crcs r = sdsl_data_crc(form, size, f->p, f->len);
    want(r.answer == SDSL_DONE ? r.carried <= 63 && r.due <= 63 : (r.carried | r.due) == 0, "gives wrong check bits");
    return r.answer;
}

static uint32_t try_data_read(void)
{
    uint32_t form = number(SDSL_SYNCHRONOUS, SDSL_PLESIOCHRONOUS), size = data_size();
    struct lent *f = lend(length(data_octets(form)), false), *p = lend(data_payload(size), true);
    struct data_request q = fill_data_frame(f, form, size);
    fill(p);
    keep();
    struct sdsl_data_fields r = sdsl_data_read(form, size, q.sync, q.next_crc, f->p, f->len, p->p, p->len);
    struct sdsl_data_overhead o = r.overhead;
    if (r.answer == SDSL_DONE) {
        bool synchronous = form == SDSL_SYNCHRONOUS;
        want(o.indicators <= 15 && o.eoc <= 1048575 && o.crc <= 63, "gives a number out of its range");
        want(synchronous ? o.spare <= 15 && o.stuffing == 0 : o.spare == 0 && (o.stuffing == 0 || o.stuffing == 4),
             "gives spare or stuffing bits that the form does not have");
    } else {
        want((o.indicators | o.eoc | o.spare | o.stuffing | o.crc) == 0, "gives numbers and refuses");
    }
    return r.answer;
}

static uint32_t try_data_check(void)
{
    uint32_t form = number(SDSL_SYNCHRONOUS, SDSL_PLESIOCHRONOUS), size = data_size();
    struct lent *f = lend(length(data_octets(form)), false);
    struct data_request q = fill_data_frame(f, form, size);
    keep();
    return sdsl_data_check(form, size, q.sync, q.next_crc, f->p, f->len);
}

/* Whether all octets from this one on are zero. */
static bool is_cleared(const uint8_t *octets, size_t from, size_t to)
{
    bool zero = true;
    for (size_t i = from; i < to; i++) {
        zero = zero && octets[i] == 0;
    }
    return zero;
}

static uint32_t try_eoc_write(void)
{
    uint32_t source = number(0, SDSL_EOC_ADDRESS_MAX), destination = number(0, SDSL_EOC_ADDRESS_MAX), n = number(0, SDSL_EOC_NUMBER_MAX);
    struct lent *c = lend(take8() % 4 == 0 ? length(SDSL_EOC_CONTENTS_MAX) : take8() % (SDSL_EOC_CONTENTS_MAX + 1), false);
    struct lent *room = lend(length(SDSL_EOC_FORM_MAX), true);
    fill_contents(c);
    fill(room);
    keep();
    struct sdsl_eoc_written r = sdsl_eoc_write(source, destination, n, c->p, c->len, room->p, room->len);
    bool right = source <= SDSL_EOC_ADDRESS_MAX && destination <= SDSL_EOC_ADDRESS_MAX && n <= SDSL_EOC_NUMBER_MAX;
    uint32_t due = room->len != SDSL_EOC_FORM_MAX   ? SDSL_BAD_LENGTH
                   : !right                         ? SDSL_OUT_OF_RANGE
                   : c->len > SDSL_EOC_CONTENTS_MAX ? SDSL_BAD_SIZE
                                                    : SDSL_DONE;
    want(r.answer == due, "takes another length or number, or refuses the right ones");
    if (r.answer == SDSL_DONE) {
        want(r.length >= c->len + 6 && r.length <= 2 * c->len + 10, "gives a length that no form of these contents has");
        want(room->p[0] == 0x7E && room->p[r.length - 1] == 0x7E, "writes no flag at an end");
        want(is_cleared(room->p, r.length, room->len), "leaves something behind the form");
    } else {
        want(r.length == 0, "gives a number and refuses");
    }
    return r.answer;
}

static uint32_t try_eoc_read(void)
{
    struct lent *m = lend_message(), *c = lend(length(SDSL_EOC_CONTENTS_MAX), true);
    fill(c);
    keep();
    struct sdsl_eoc_message r = sdsl_eoc_read(m->p, m->len, c->p, c->len);
    want((r.answer == SDSL_BAD_LENGTH) == (c->len != SDSL_EOC_CONTENTS_MAX), "takes another length, or refuses the right one");
    if (r.answer == SDSL_DONE) {
        uint8_t again[SDSL_EOC_FORM_MAX];
        want(r.source <= SDSL_EOC_ADDRESS_MAX && r.destination <= SDSL_EOC_ADDRESS_MAX && r.number <= SDSL_EOC_NUMBER_MAX &&
             r.length <= SDSL_EOC_CONTENTS_MAX, "gives a number out of its range");
        want(is_cleared(c->p, r.length, c->len), "leaves something behind the contents");
        struct sdsl_eoc_written w = sdsl_eoc_write(r.source, r.destination, r.number, c->p, r.length, again, sizeof again);
        want(w.answer == SDSL_DONE && w.length == m->len && memcmp(again, m->p, m->len) == 0, "takes what is not written so");
    } else {
        want((r.source | r.destination | r.number | r.length) == 0, "gives numbers and refuses");
    }
    return r.answer;
}

/* Records with any octets, whose own addresses are mostly right; says whether they all are. Many have a message already. */
static bool fill_units(struct lent *l)
{
    bool right = true;
    fill(l);
    uint8_t how = take8() % 8;
    for (size_t at = 0; at + 1 < l->len; at += SDSL_EOC_UNIT_OCTETS) {
        l->p[at] = how == 0 ? (uint8_t)number(0, SDSL_EOC_ADDRESS_MAX) : take8() % (SDSL_EOC_ADDRESS_MAX + 1);
        l->p[at + 1] = l->p[at + 1] % 4 == 3 ? 1 : l->p[at + 1];
        right = right && l->p[at] <= SDSL_EOC_ADDRESS_MAX;
    }
    return right;
}

/* What the record of a unit holds after a message that sdsl_eoc_read reads so, and whether it took it. */
static bool hand_one(struct sdsl_eoc_unit *unit, struct sdsl_eoc_message read, const uint8_t *contents)
{
    if (read.answer != SDSL_DONE || (read.destination != unit->own && read.destination != SDSL_EOC_ADJACENT &&
                                     read.destination != SDSL_EOC_EVERY_UNIT)) {
        return false;
    }
    unit->present = 1;
    unit->source = (uint8_t)read.source;
    unit->destination = (uint8_t)read.destination;
    unit->number = (uint8_t)read.number;
    unit->length = (uint8_t)read.length;
    memcpy(unit->contents, contents, SDSL_EOC_CONTENTS_MAX);
    return true;
}

static uint32_t try_eoc_hand_up(void)
{
    struct lent *m = lend_message(), *u = lend(length(SDSL_EOC_UNIT_OCTETS * (take8() % 6)), true);
    bool right = fill_units(u), whole = u->len % SDSL_EOC_UNIT_OCTETS == 0;
    uint8_t contents[SDSL_EOC_CONTENTS_MAX];
    keep();
    struct sdsl_eoc_handed_up r = sdsl_eoc_hand_up(m->p, m->len, u->p, u->len);
    struct sdsl_eoc_message read = sdsl_eoc_read(m->p, m->len, contents, sizeof contents);
    want(r.answer == (!whole ? SDSL_BAD_LENGTH : !right ? SDSL_OUT_OF_RANGE : read.answer), "answers otherwise than sdsl_eoc_read");
    size_t took = 0;
    for (size_t at = 0; r.answer == SDSL_DONE && at < u->len; at += SDSL_EOC_UNIT_OCTETS) {
        struct sdsl_eoc_unit unit;
        memcpy(&unit, u->before + at, sizeof unit);
        took += hand_one(&unit, read, contents);
        want(memcmp(u->p + at, &unit, sizeof unit) == 0, "leaves a record as sdsl_eoc_read does not have it");
    }
    want(r.units == took, "counts other units");
    return r.answer;
}

typedef struct sdsl_scrambled run_function(uint32_t, uint32_t, const uint8_t *, size_t, size_t, uint8_t *, size_t);

static uint32_t try_scrambler_start(void)
{
    struct sdsl_scrambled r = sdsl_scrambler_start(number(SDSL_LTU, SDSL_NTU));
    want(r.state == 0, "starts with a state that is not 0");
    return r.answer;
}

static uint32_t try_bit(struct sdsl_scrambled_bit (*f)(uint32_t, uint32_t, uint32_t))
{
    uint32_t end = number(SDSL_LTU, SDSL_NTU), state = number(0, SDSL_SCRAMBLER_MAX);
    struct sdsl_scrambled_bit r = f(end, state, number(0, 1));
    want(r.answer == SDSL_DONE ? r.bit <= 1 && r.state <= SDSL_SCRAMBLER_MAX : r.bit == 0 && r.state == state,
         "gives a wrong bit or state");
    return r.answer;
}

static uint32_t try_scramble_bit(void)
{
    return try_bit(sdsl_scramble_bit);
}

static uint32_t try_descramble_bit(void)
{
    return try_bit(sdsl_descramble_bit);
}

static uint32_t try_run(run_function *f)
{
    uint32_t end = number(SDSL_LTU, SDSL_NTU), state = number(0, SDSL_SCRAMBLER_MAX);
    size_t len = take(2) % 300;
    struct lent *in = lend(len, false), *out = lend(length(len), true);
    uint8_t how = take8() % 8;
    size_t bits = how == 0   ? (size_t)take(8)
                  : how == 1 ? 8 * len + take8() % 3 - 1
                  : how == 2 ? SIZE_MAX - take8() % 16 /* so many that adding to them runs over */
                             : (size_t)take(3) % (8 * len + 1);
    fill(in);
    fill(out);
    keep();
    return scrambled(f(end, state, in->p, in->len, bits, out->p, out->len), state, bits > 0);
}

static uint32_t try_scramble(void)
{
    return try_run(sdsl_scramble);
}

static uint32_t try_descramble(void)
{
    return try_run(sdsl_descramble);
}

static uint32_t try_descramble_frame(void)
{
    uint32_t end = number(SDSL_LTU, SDSL_NTU), state = number(0, SDSL_SCRAMBLER_MAX);
    struct lent *in = lend(length(SDSL_FRAME_OCTETS), false), *out = lend(length(SDSL_FRAME_OCTETS), true);
    fill_frame(in);
    fill(out);
    keep();
    return scrambled(sdsl_descramble_frame(end, state, in->p, in->len, out->p, out->len), state, true);
}

/* A receiver's numbers: few bits so far, or some, or nearly as many as can be; and any place to go on from, often one in reach. */
static struct sdsl_receiver any_receiver(void)
{
    struct sdsl_receiver s = {.end = number(SDSL_LTU, SDSL_NTU)};
    switch (take8() % 8) {
    case 0:
        s.heard = (uint32_t)take(4);
        break;
    case 1:
        s.heard = SDSL_HEARD_MAX - (uint32_t)(take(2) % 8200);
        break;
    default:
        s.heard = (uint32_t)(take(2) % 12000);
    }
    switch (take8() % 8) {
    case 0:
        s.from = (uint32_t)take(4);
        break;
    case 1:
        s.from = s.heard;
        break;
    case 2:
        s.from = s.heard - (uint32_t)(take(2) % 4300);
        break;
    default:
        s.from = 0;
    }
    return s;
}

static unsigned bit_at(const uint8_t *octets, size_t n)
{
    return octets[(n - 1) / 8] >> ((n - 1) % 8) & 1;
}

/* The line room and the lump, one bit to an element, oldest first; the lump's begin at LINE_BITS. */
#define LINE_BITS (8 * SDSL_LINE_OCTETS)
static uint8_t heard_bits[LINE_BITS + SDSL_LUMP_BITS_MAX];

static void join(const uint8_t *line, const uint8_t *lump, size_t bits)
{
    for (size_t i = 0; i < LINE_BITS + bits; i++) {
        heard_bits[i] = (uint8_t)(i < LINE_BITS ? bit_at(line, i + 1) : bit_at(lump, i - LINE_BITS + 1));
    }
}

/* The state that a descrambler has before the frame that bit k of the lump ends. */
static uint32_t state_before(size_t k)
{
    uint32_t state = 0;
    for (size_t i = 0; i < 23; i++) {
        state = state << 1 | heard_bits[k + 7 + i];
    }
    return state;
}

/* Puts a frame, scrambled, where bit k of the lump ends it. */
static void put_heard(uint32_t end, size_t k, const uint8_t *frame, uint8_t *line, uint8_t *lump)
{
    uint32_t state = state_before(k);
    for (size_t n = 1; n <= SDSL_FRAME_BITS; n++) {
        unsigned bit = bit_at(frame, n);
        if (n > SDSL_SYNC_BITS) {
            bit ^= (state >> (end == SDSL_LTU ? 4 : 17) ^ state >> 22) & 1;
            state = state << 1 | bit;
        }
        size_t place = k + 30 + n;
        if (place <= LINE_BITS) {
            put_bit(line, place, bit);
        } else {
            put_bit(lump, place - LINE_BITS, bit);
        }
    }
}

static bool same_receiver(struct sdsl_receiver s, struct sdsl_receiver t)
{
    return s.end == t.end && s.heard == t.heard && s.from == t.from;
}

static uint32_t try_receive_start(void)
{
    uint32_t end = number(SDSL_LTU, SDSL_NTU);
    struct sdsl_received r = sdsl_receive_start(end);
    struct sdsl_receiver fresh = {end, 0, 0};
    want(r.given == 0 && r.place == 0 && same_receiver(r.state, fresh), "starts with something heard");
    want(r.answer == (end <= SDSL_NTU ? SDSL_DONE : SDSL_UNKNOWN), "takes another end, or refuses one of the two");
    return r.answer;
}

/* What was given is what stands there: descrambling gives it, and checking takes it. */
static void look_at_given(struct sdsl_received r, struct sdsl_receiver s, size_t bits, const uint8_t *frame)
{
    uint64_t behind = (uint64_t)r.place + SDSL_FRAME_BITS;
    want(r.place >= SDSL_PLACE_MIN && r.place >= s.from, "gives a frame too early");
    want(behind > s.heard && behind <= (uint64_t)s.heard + bits && r.state.from == behind, "gives a frame that does not end in the lump");
    size_t k = (size_t)(behind - 1 - s.heard);
    uint8_t sent[SDSL_FRAME_OCTETS] = {0}, plain[SDSL_FRAME_OCTETS];
    for (size_t n = 1; n <= SDSL_FRAME_BITS; n++) {
        put_bit(sent, n, heard_bits[k + 30 + n - 1]);
    }
    want(sdsl_descramble_frame(s.end, state_before(k), sent, sizeof sent, plain, sizeof plain).answer == SDSL_DONE &&
         memcmp(plain, frame, sizeof plain) == 0, "gives another frame than descrambling");
    want(sdsl_frame_check(frame, SDSL_FRAME_OCTETS) == SDSL_DONE, "gives what is no frame");
}

static uint32_t try_receive(void)
{
    struct sdsl_receiver s = any_receiver();
    size_t len = take8() % 8 == 0 ? take(2) % 2048 : take(2) % 700;
    struct lent *line = lend(length(SDSL_LINE_OCTETS), true), *lump = lend(len, false), *f = lend(length(SDSL_FRAME_OCTETS), true);
    uint8_t how = take8() % 16;
    size_t bits = how == 0   ? (size_t)take(8)
                  : how == 1 ? 8 * len + take8() % 3 - 1
                  : how == 2 ? SIZE_MAX - take8() % 16 /* so many that adding to them runs over */
                  : how == 3 ? (size_t)SDSL_LUMP_BITS_MAX - 2 + take8() % 5
                  : how == 4 ? 0
                             : (size_t)take(3) % (8 * len + 1) % (SDSL_LUMP_BITS_MAX + 1);
    /* Often the contents of the frame room are heard, and bit k of the lump ends them: at the least place, or where to go on, or beside. */
    bool heard = take8() % 4 != 0;
    size_t k = bits > 0 ? (size_t)take(2) % SDSL_LUMP_BITS_MAX % bits : 0;
    how = take8() % 8;
    s.heard = how == 1 ? SDSL_FRAME_BITS + SDSL_PLACE_MIN - 3 - (uint32_t)k + take8() % 4 : s.heard;
    s.from = how == 2 ? s.heard + (uint32_t)k - SDSL_FRAME_BITS + take8() % 3 : s.from;
    fill(line);
    fill(lump);
    fill_frame(f);
    bool lengths = bits <= 8 * len && line->len == SDSL_LINE_OCTETS && f->len == SDSL_FRAME_OCTETS;
    bool ranges = bits <= SDSL_LUMP_BITS_MAX && s.heard + (uint64_t)bits <= SDSL_HEARD_MAX;
    uint32_t due = !lengths ? SDSL_BAD_LENGTH : s.end > SDSL_NTU ? SDSL_UNKNOWN : !ranges ? SDSL_OUT_OF_RANGE : SDSL_DONE;
    uint64_t lies = UINT64_MAX; /* the place of a frame that is there */
    if (due == SDSL_DONE) {
        join(line->p, lump->p, bits);
        if (heard && bits > 0) {
            uint64_t end = (uint64_t)s.heard + k, first = s.from > SDSL_PLACE_MIN ? s.from : SDSL_PLACE_MIN;
            bool good = sdsl_frame_check(f->p, f->len) == SDSL_DONE && end >= first + SDSL_FRAME_BITS - 1;
            lies = good ? end - (SDSL_FRAME_BITS - 1) : lies;
            put_heard(s.end, k, f->p, line->p, lump->p);
            join(line->p, lump->p, bits);
        }
    }
    fill(f);
    keep();
    struct sdsl_received r = sdsl_receive(s, line->p, line->len, lump->p, lump->len, bits, f->p, f->len);
    want(r.answer == due, "takes another length or number, or refuses the right ones");
    if (r.answer != SDSL_DONE) {
        want((r.given | r.place) == 0 && same_receiver(r.state, s), "gives numbers and refuses");
        return r.answer;
    }
    want(r.given <= 1 && r.state.end == s.end && r.state.heard == s.heard + bits, "gives a wrong state");
    if (r.given == 1) {
        look_at_given(r, s, bits, f->p);
        want(r.place <= lies, "gives a later frame and not the first");
    } else {
        want(lies == UINT64_MAX, "does not give a frame that lies there");
        want(r.place == 0 && r.state.from == s.from && is_kept(f), "gives no frame, but a place or octets");
    }
    for (size_t i = 0; i < LINE_BITS; i++) {
        want(bit_at(line->p, i + 1) == heard_bits[bits + i], "leaves other bits of the line than the last");
    }
    return r.answer;
}

static bool is_level(int32_t sixteenths)
{
    return sixteenths >= -15 && sixteenths <= 15 && sixteenths % 2 != 0;
}

static uint32_t try_activation_level(void)
{
    struct sdsl_level r = sdsl_activation_level(number(0, 1));
    want(r.answer == SDSL_DONE ? r.sixteenths == 9 || r.sixteenths == -9 : r.sixteenths == 0, "gives no level of activation");
    return r.answer;
}

static uint32_t try_data_level(void)
{
    struct sdsl_level r = sdsl_data_level(number(0, SDSL_CODE_MAX));
    want(r.answer == SDSL_DONE ? is_level(r.sixteenths) : r.sixteenths == 0, "gives no level");
    return r.answer;
}

static uint32_t try_level_code(void)
{
    int32_t level = (int32_t)number(-15, 15);
    struct sdsl_symbol_code r = sdsl_level_code(level);
    want((r.answer == SDSL_DONE) == is_level(level), "takes what is no level, or refuses one");
    want(r.answer == SDSL_DONE ? r.code <= SDSL_CODE_MAX : r.code == 0, "gives a wrong code");
    return r.answer;
}

static uint32_t try_encoder_start(void)
{
    uint32_t a = number(0, SDSL_WORD_MAX), b = number(0, SDSL_WORD_MAX);
    struct sdsl_encoded_run r = sdsl_encoder_start(a, b);
    want(r.reg == 0, "starts with a register that is not 0");
    return r.answer;
}

static uint32_t try_encode(void)
{
    uint32_t a = number(0, SDSL_WORD_MAX), b = number(0, SDSL_WORD_MAX), reg = number(0, SDSL_REGISTER_MAX);
    struct sdsl_encoded r = sdsl_encode(a, b, reg, number(0, SDSL_SYMBOL_MAX));
    if (r.answer == SDSL_DONE) {
        want(r.code <= SDSL_CODE_MAX && is_level(r.sixteenths) && r.reg <= SDSL_REGISTER_MAX, "gives a number out of its range");
    } else {
        want(r.code == 0 && r.sixteenths == 0 && r.reg == reg, "gives numbers and refuses");
    }
    return r.answer;
}

static uint32_t try_encode_run(void)
{
    uint32_t a = number(0, SDSL_WORD_MAX), b = number(0, SDSL_WORD_MAX), reg = number(0, SDSL_REGISTER_MAX);
    size_t len = take(2) % 200;
    struct lent *symbols = lend(len, false), *codes = lend(length(len), true);
    fill(symbols);
    fill(codes);
    bool right = take8() % 8 != 0;
    for (size_t i = 0; right && i < len; i++) {
        symbols->p[i] %= SDSL_SYMBOL_MAX + 1;
    }
    keep();
    struct sdsl_encoded_run r = sdsl_encode_run(a, b, reg, symbols->p, symbols->len, codes->p, codes->len);
    want(r.answer == SDSL_DONE ? r.reg <= SDSL_REGISTER_MAX : r.reg == reg, "gives a wrong register");
    return r.answer;
}

static uint32_t try_history_start(void)
{
    struct lent *h = lend(length(SDSL_HISTORY_OCTETS), true);
    fill(h);
    keep();
    uint32_t answer = sdsl_history_start(h->p, h->len);
    for (size_t i = 0; answer == SDSL_DONE && i < h->len; i++) {
        want(h->p[i] == 0, "leaves an output that is not 0");
    }
    return answer;
}

static uint32_t try_samples(uint32_t (*f)(const uint8_t *, size_t, uint8_t *, size_t, const uint8_t *, size_t, uint8_t *, size_t))
{
    size_t len = 4 * (take8() % 12);
    struct lent *c = lend(length(SDSL_COEFFICIENT_OCTETS), false), *h = lend(length(SDSL_HISTORY_OCTETS), true);
    struct lent *from = lend(length(len), false), *to = lend(take8() % 16 == 0 ? length(len) : from->len, true);
    fill_numbers(c, SDSL_COEFFICIENT_MIN, SDSL_COEFFICIENT_MAX);
    fill_numbers(h, SDSL_SAMPLE_MIN, SDSL_SAMPLE_MAX);
    fill_numbers(from, SDSL_SAMPLE_MIN, SDSL_SAMPLE_MAX);
    fill(to);
    keep();
    uint32_t answer = f(c->p, c->len, h->p, h->len, from->p, from->len, to->p, to->len);
    for (size_t i = 0; answer == SDSL_DONE && i + 4 <= to->len; i += 4) {
        int32_t n = sdsl_get_number(to->p, i / 4);
        want(n >= SDSL_SAMPLE_MIN && n <= SDSL_SAMPLE_MAX, "gives a sample out of its range");
    }
    return answer;
}

static uint32_t try_precode(void)
{
    return try_samples(sdsl_precode);
}

static uint32_t try_unprecode(void)
{
    return try_samples(sdsl_unprecode);
}

static uint32_t try_shaper(void)
{
    int32_t y = (int32_t)number(SDSL_SAMPLE_MIN, SDSL_SAMPLE_MAX);
    struct sdsl_shaped r = sdsl_shaper(y);
    want(r.answer == SDSL_DONE ? r.value == (float)y / (float)SDSL_STEPS : r.value == 0.0f, "gives another float");
    return r.answer;
}

static bool same_state(struct sdsl_supervisor s, struct sdsl_supervisor t)
{
    return s.end == t.end && s.phase == t.phase && s.ticks == t.ticks && s.attempt == t.attempt && s.silence == t.silence &&
           s.converged == t.converged && s.seen == t.seen;
}

static bool is_state(struct sdsl_supervisor s)
{
    return s.end <= SDSL_NTU && s.phase <= SDSL_PHASE_MAX && s.ticks <= SDSL_STATE_TICKS_MAX && s.attempt <= SDSL_STATE_ATTEMPT_MAX &&
           s.silence >= SDSL_SILENCE_MIN && s.silence <= SDSL_SILENCE_MAX;
}

static struct sdsl_supervisor any_state(void)
{
    static const uint8_t phases[2][10] = {
        {SDSL_READY, SDSL_AWAIT, SDSL_HEARING, SDSL_QUIET, SDSL_SC, SDSL_TC, SDSL_FC, SDSL_SETTLING, SDSL_VALID, SDSL_EXCEPTION},
        {SDSL_READY, SDSL_GAP, SDSL_CR, SDSL_QUIET, SDSL_SR, SDSL_TR, SDSL_SETTLING, SDSL_VALID, SDSL_EXCEPTION, SDSL_EXCEPTION}};
    struct sdsl_supervisor s;
    s.end = number(SDSL_LTU, SDSL_NTU);
    s.phase = s.end <= SDSL_NTU && take8() % 16 != 0 ? phases[s.end][take8() % 10] : number(0, SDSL_PHASE_MAX);
    s.ticks = number(0, SDSL_STATE_TICKS_MAX);
    s.attempt = number(0, SDSL_STATE_ATTEMPT_MAX);
    s.silence = number(SDSL_SILENCE_MIN, SDSL_SILENCE_MAX);
    s.converged = number(0, 1);
    s.seen = number(0, 1);
    return s;
}

static uint32_t try_start(void)
{
    uint32_t end = number(SDSL_LTU, SDSL_NTU);
    uint32_t silence = take8() % 4 == 0 ? SDSL_SILENCE_DEFAULT : number(SDSL_SILENCE_MIN, SDSL_SILENCE_MAX);
    struct sdsl_stepped r = sdsl_start(end, silence);
    struct sdsl_supervisor zeros = {0, 0, 0, 0, 0, 0, 0};
    want(r.phase == SDSL_READY && r.attempt == 0, "starts outside Ready");
    want(r.answer == SDSL_DONE ? is_state(r.state) && r.state.end == end : same_state(r.state, zeros), "gives a wrong state");
    want(r.answer != SDSL_DONE || r.state.silence == (silence == SDSL_SILENCE_DEFAULT ? SDSL_SILENCE_DEFAULT_TICKS : silence),
         "gives another silence");
    bool taken = silence == SDSL_SILENCE_DEFAULT || (silence >= SDSL_SILENCE_MIN && silence <= SDSL_SILENCE_MAX);
    want(end > SDSL_NTU || taken == (r.answer == SDSL_DONE), "refuses a silence that it has to take, or takes another");
    return r.answer;
}

static uint32_t try_step(void)
{
    struct sdsl_supervisor s = any_state();
    struct sdsl_stepped r = sdsl_step(s, number(0, SDSL_REPORT_MAX));
    want(r.answer == SDSL_DONE ? is_state(r.state) && r.phase == r.state.phase && r.attempt <= SDSL_STATE_ATTEMPT_MAX
                               : same_state(r.state, s) && (r.phase | r.attempt) == 0, "gives a wrong state");
    return r.answer;
}

static uint32_t try_run_codes(void)
{
    struct sdsl_supervisor s = any_state();
    struct lent *codes = lend(take(2) % 3000, false);
    fill(codes);
    if (take8() % 8 != 0) {
        for (size_t i = 0; i < codes->len; i++) { /* mostly ticks, so that something happens */
            codes->p[i] = codes->p[i] < 250 ? SDSL_TICK : codes->p[i] == 255 ? 9 : (uint8_t)(1 + (codes->p[i] + i) % 8);
        }
    }
    keep();
    struct sdsl_run r = sdsl_run_codes(s, codes->p, codes->len);
    if (r.answer == SDSL_DONE) {
        want(is_state(r.state) && r.attempts <= codes->len && r.outcome <= SDSL_IN_EXCEPTION, "gives a number out of its range");
        want((r.attempts == 0) == (r.outcome == SDSL_NONE_OPENED) && (r.attempts > 0 || (r.opened_at == 0 && r.ended_at == 0)),
             "opens none and ends one");
        want(r.attempts == 0 || (r.opened_at < codes->len && r.ended_at < codes->len), "gives a place outside the list");
    } else {
        want(same_state(r.state, s) && (r.attempts | r.opened_at | r.outcome | r.ended_at) == 0, "gives numbers and refuses");
    }
    return r.answer;
}

/* One for each of fuzz_functions, by name. */
static const struct {
    const char *name;
    uint32_t (*call)(void);
} tries[] = {
#define TRY(function) {"sdsl_" #function, try_##function}
    TRY(frame_send), TRY(frame_read), TRY(frame_check), TRY(data_write), TRY(data_crc), TRY(data_read), TRY(data_check),
    TRY(eoc_write), TRY(eoc_read), TRY(eoc_hand_up),
    TRY(scrambler_start), TRY(scramble_bit), TRY(descramble_bit), TRY(scramble), TRY(descramble), TRY(descramble_frame),
    TRY(receive_start), TRY(receive),
    TRY(activation_level), TRY(data_level), TRY(level_code), TRY(encoder_start), TRY(encode), TRY(encode_run), TRY(history_start),
    TRY(precode), TRY(unprecode), TRY(shaper), TRY(start), TRY(step), TRY(run_codes),
};

static uint64_t seen[ITEMS(fuzz_functions)][ANSWERS];
static uint32_t last_answer;

int LLVMFuzzerTestOneInput(const uint8_t *data, size_t size)
{
    static uint32_t (*calls[ITEMS(fuzz_functions)])(void);
    if (calls[0] == NULL) {
        fence_in();
        for (unsigned i = 0; i < ITEMS(fuzz_functions); i++) {
            for (unsigned k = 0; k < ITEMS(tries); k++) {
                calls[i] = strcmp(tries[k].name, fuzz_functions[i].name) == 0 ? tries[k].call : calls[i];
            }
            input.function = i;
            want(calls[i] != NULL, "is in the header and not tried here");
            want((fuzz_functions[i].answers >> 8 & 1) == 0, "lists answer 8, which is not used");
        }
    }
    input.data = data;
    input.size = size;
    input.at = 0;
    input.function = take8() % ITEMS(fuzz_functions);
    lent_count = 0;
    last_answer = calls[input.function]();
    want(last_answer < ANSWERS && fuzz_functions[input.function].answers >> last_answer & 1,
         "gives an answer that the header does not list");
    look_after(last_answer);
    seen[input.function][last_answer]++;
    return 0;
}

#ifndef FUZZ_ENTRY_ONLY

static sigjmp_buf back;
static volatile sig_atomic_t probing;

static void on_fault(int signal_number)
{
    (void)signal_number;
    if (probing) {
        siglongjmp(back, 1);
    }
    failed("touches memory that it was not lent");
}

/* Whether this machine, or its emulation, notices a touch at all. */
static bool faults(volatile uint8_t *p)
{
    probing = 1;
    if (sigsetjmp(back, 1) == 0) {
        *p = *p;
        probing = 0;
        return false;
    }
    probing = 0;
    return true;
}

/* ---- Inputs from a seed ---- */

#define LONGEST 2600
struct kept {
    size_t size;
    uint8_t data[LONGEST];
};
static struct kept corpus[ITEMS(fuzz_functions)][ANSWERS]; /* the latest input that got this answer of this function */
static uint64_t chance;

static uint64_t any(uint64_t below)
{
    chance ^= chance << 13;
    chance ^= chance >> 7;
    chance ^= chance << 17;
    return (chance >> 16) % below;
}

static void new_input(struct kept *k)
{
    k->size = any(16) == 0 ? any(LONGEST) : 64 + any(64);
    for (size_t i = 0; i < k->size; i++) {
        k->data[i] = (uint8_t)any(256);
    }
}

/* A kept input with a few octets changed, or cut. */
static void changed_input(struct kept *k)
{
    const struct kept *from = &corpus[any(ITEMS(fuzz_functions))][any(ANSWERS)];
    if (from->size == 0) {
        new_input(k);
        return;
    }
    *k = *from;
    for (uint64_t n = 1 + any(6); n > 0; n--) {
        size_t place = any(k->size);
        switch (any(4)) {
        case 0:
            k->data[place] ^= (uint8_t)(1 << any(8));
            break;
        case 1:
            k->data[place] = (uint8_t)(k->data[place] + 1 - 2 * any(2));
            break;
        case 2:
            k->data[place] = (uint8_t)any(256);
            break;
        default:
            k->size = any(8) == 0 && place > 0 ? place : k->size;
        }
    }
}

int main(int argc, char **argv)
{
    input.seed = argc > 1 ? strtoull(argv[1], NULL, 10) : 1;
    uint64_t inputs = argc > 2 ? strtoull(argv[2], NULL, 10) : 1000000;
    static struct kept k;
    chance = input.seed * 0x9e3779b97f4a7c15 + 1;
    signal(SIGSEGV, on_fault);
    signal(SIGBUS, on_fault);
    fence_in();
    for (unsigned i = 0; i < ITEMS(lents); i++) {
        if (!faults(lents[i].room - 1) || !faults(lents[i].room + ROOM) || faults(lents[i].room) || faults(lents[i].room + ROOM - 1)) {
            printf("FAIL: the fences do not hold here\n");
            return 1;
        }
    }
    for (input.number = 1; input.number <= inputs; input.number++) {
        if (any(3) == 0) {
            new_input(&k);
        } else {
            changed_input(&k);
        }
        LLVMFuzzerTestOneInput(k.data, k.size);
        struct kept *place = &corpus[input.function][last_answer];
        if (place->size == 0 || any(4) == 0) {
            *place = k;
        }
    }

    int missing = 0;
    printf("%llu calls, seed %llu; how often each answer was seen:\n", (unsigned long long)inputs, (unsigned long long)input.seed);
    for (unsigned i = 0; i < ITEMS(fuzz_functions); i++) {
        printf("  %-22s", fuzz_functions[i].name);
        for (unsigned a = 0; a < ANSWERS; a++) {
            if (fuzz_functions[i].answers >> a & 1) {
                printf(" %u: %llu%s", a, (unsigned long long)seen[i][a], seen[i][a] == 0 ? " NEVER" : "");
                missing += seen[i][a] == 0;
            }
        }
        printf("\n");
    }
    return missing != 0;
}

#endif
