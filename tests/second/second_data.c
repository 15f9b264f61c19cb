/* second_data.c: the group `data`: sdsl_data_write, sdsl_data_crc, sdsl_data_read and sdsl_data_check. */
#include "harness.h"

#ifdef SECOND_DATA

#include "reference.h"

#include <stdio.h>
#include <string.h>

static struct tally writes = {"sdsl_data_write", 0, 0};
static struct tally crcs = {"sdsl_data_crc", 0, 0};
static struct tally reads = {"sdsl_data_read", 0, 0};
static struct tally checks = {"sdsl_data_check", 0, 0};
static struct tally places = {"places of table 7.2", 0, 0};
static struct tally chains = {"chains of frames", 0, 0};
static struct tally examples = {"examples", 0, 0};

#define K_MIN 24
#define K_MAX 289
#define ROOM_MAX 1741 /* octets of the longer room */

static const uint32_t forms[] = {SDSL_SYNCHRONOUS, SDSL_PLESIOCHRONOUS};
static const uint32_t odd_forms[] = {2, 3, 4, 255, 256, 257, 65536, 65537, 2147483648, 2147483649, 4294967294, 4294967295};

static size_t room_of(uint32_t form)
{
    return form == SDSL_SYNCHRONOUS ? 1740 : 1741;
}

/* A frame's bits on the line. */
static size_t bits_of(uint32_t form, uint32_t size, uint32_t stuffing)
{
    return 48 * (size_t)size + (form == SDSL_SYNCHRONOUS ? 48 : 46 + (size_t)stuffing);
}

/* Any octets, up to 4,096 of them: a window into noise that is made once, for new ones each time would take too long. */
static const uint8_t *some_octets(void)
{
    static uint8_t noise[8192];
    static bool made;
    if (!made) {
        random_octets(noise, sizeof noise);
        made = true;
    }
    return noise + below(4096);
}

/* What data_write is given. */
struct input {
    uint32_t form;
    uint32_t size;
    uint32_t sync;
    struct sdsl_data_overhead overhead;
    const uint8_t *payload;
    size_t payload_len;
    size_t frame_len;
};

/* What data_read and data_check are given beside the frame. */
struct request {
    uint32_t form;
    uint32_t size;
    uint32_t sync;
    uint32_t next_crc;
    size_t frame_len;
    size_t payload_len;
};

/* ---- One comparison each ---- */

static bool same_overhead(struct sdsl_data_overhead one, struct sdsl_data_overhead other)
{
    return one.indicators == other.indicators && one.eoc == other.eoc && one.spare == other.spare && one.stuffing == other.stuffing &&
           one.crc == other.crc;
}

static void try_write(const struct input *in)
{
    struct pair payload = lend(in->payload, in->payload_len);
    struct pair frame = lend(some_octets(), in->frame_len);
    struct sdsl_data_written lib =
        sdsl_data_write(in->form, in->size, in->sync, in->overhead, payload.lib, payload.len, frame.lib, frame.len);
    struct sdsl_data_written ref =
        ref_data_write(in->form, in->size, in->sync, in->overhead, payload.ref, payload.len, frame.ref, frame.len);
    struct comparison comparison = {NULL};
    want(&comparison, lib.answer == ref.answer, "answers differ");
    want(&comparison, lib.crc == ref.crc, "check bits differ");
    want(&comparison, lib.answer == SDSL_DONE || lib.crc == 0, "a refused call gave check bits");
    want_kept(&comparison, &payload, "the payload changed");
    want_written(&comparison, &frame, lib.answer, "frames differ");
    settle(comparison, &writes,
           "form %u size %u sync %u overhead %u %u %u %u %u lengths %zu %zu: library %u crc %u, reference %u crc %u", in->form, in->size,
           in->sync, in->overhead.indicators, in->overhead.eoc, in->overhead.spare, in->overhead.stuffing, in->overhead.crc,
           in->payload_len, in->frame_len, lib.answer, lib.crc, ref.answer, ref.crc);
    give_back(&payload);
    give_back(&frame);
}

/* `what` tells in a word or two what was done to the frame, and `number` which one it was. */
static void try_crc(uint32_t form, uint32_t size, const uint8_t *octets, size_t frame_len, const char *what, size_t number)
{
    struct pair frame = lend(octets, frame_len);
    struct sdsl_data_crcs lib = sdsl_data_crc(form, size, frame.lib, frame.len);
    struct sdsl_data_crcs ref = ref_data_crc(form, size, frame.ref, frame.len);
    struct comparison comparison = {NULL};
    want(&comparison, lib.answer == ref.answer, "answers differ");
    want(&comparison, lib.carried == ref.carried && lib.due == ref.due, "check bits differ");
    want_kept(&comparison, &frame, "the frame changed");
    settle(comparison, &crcs, "%s %zu, form %u size %u length %zu: library %u carried %u due %u, reference %u carried %u due %u", what,
           number, form, size, frame_len, lib.answer, lib.carried, lib.due, ref.answer, ref.carried, ref.due);
    give_back(&frame);
}

static void try_read(struct request q, const uint8_t *octets, const char *what, size_t number)
{
    struct pair frame = lend(octets, q.frame_len);
    struct pair payload = lend(some_octets(), q.payload_len);
    struct sdsl_data_fields lib =
        sdsl_data_read(q.form, q.size, q.sync, q.next_crc, frame.lib, frame.len, payload.lib, payload.len);
    struct sdsl_data_fields ref = ref_data_read(q.form, q.size, q.sync, q.next_crc, frame.ref, frame.len, payload.ref, payload.len);
    struct comparison comparison = {NULL};
    want(&comparison, lib.answer == ref.answer, "answers differ");
    want(&comparison, same_overhead(lib.overhead, ref.overhead), "overhead differs");
    want_kept(&comparison, &frame, "the frame changed");
    want_written(&comparison, &payload, lib.answer, "payloads differ");
    settle(comparison, &reads,
           "%s %zu, form %u size %u sync %u next_crc %u lengths %zu %zu: library %u (%u %u %u %u %u), reference %u (%u %u %u %u %u)", what,
           number, q.form, q.size, q.sync, q.next_crc, q.frame_len, q.payload_len, lib.answer, lib.overhead.indicators, lib.overhead.eoc,
           lib.overhead.spare, lib.overhead.stuffing, lib.overhead.crc, ref.answer, ref.overhead.indicators, ref.overhead.eoc,
           ref.overhead.spare, ref.overhead.stuffing, ref.overhead.crc);
    give_back(&frame);
    give_back(&payload);
}

static void try_check(struct request q, const uint8_t *octets, const char *what, size_t number)
{
    struct pair frame = lend(octets, q.frame_len);
    uint32_t lib = sdsl_data_check(q.form, q.size, q.sync, q.next_crc, frame.lib, frame.len);
    uint32_t ref = ref_data_check(q.form, q.size, q.sync, q.next_crc, frame.ref, frame.len);
    struct comparison comparison = {NULL};
    want(&comparison, lib == ref, "answers differ");
    want_kept(&comparison, &frame, "the frame changed");
    settle(comparison, &checks, "%s %zu, form %u size %u sync %u next_crc %u length %zu: library %u, reference %u", what, number, q.form,
           q.size, q.sync, q.next_crc, q.frame_len, lib, ref);
    give_back(&frame);
}

/* All three that look at a frame. */
static void try_frame(struct request q, const uint8_t *octets, const char *what, size_t number)
{
    try_read(q, octets, what, number);
    try_check(q, octets, what, number);
    try_crc(q.form, q.size, octets, q.frame_len, what, number);
}

/* ---- Inputs ---- */

/* A good input with chance contents. In the plesiochronous form `spare` is anything at all. */
static struct input make_input(uint32_t form, uint32_t size, uint32_t stuffing)
{
    struct input in;
    in.form = form;
    in.size = size;
    in.sync = below(2) == 0 ? SDSL_DATA_SYNC : (uint32_t)below(16384);
    in.overhead.indicators = (uint32_t)below(16);
    in.overhead.eoc = (uint32_t)below(1048576);
    in.overhead.spare = form == SDSL_SYNCHRONOUS ? (uint32_t)below(16) : random32();
    in.overhead.stuffing = form == SDSL_SYNCHRONOUS ? 0 : stuffing;
    in.overhead.crc = (uint32_t)below(64);
    in.payload = some_octets();
    in.payload_len = 6 * (size_t)size;
    in.frame_len = room_of(form);
    return in;
}

static struct input any_input(uint32_t size)
{
    uint32_t form = (uint32_t)below(2);
    return make_input(form, size, 4 * (uint32_t)below(2));
}

/* Mostly a small size, since those take less time. */
static uint32_t any_size(void)
{
    return (uint32_t)(below(16) == 0 ? between(K_MIN, K_MAX) : between(K_MIN, 40));
}

/* The frame of an input, by the reference, and the request by which it reads. `frame` has ROOM_MAX octets. */
static struct request make_frame(const struct input *in, uint8_t *frame)
{
    struct request q = {in->form, in->size, in->sync, 0, in->frame_len, in->payload_len};
    q.next_crc = ref_data_write(in->form, in->size, in->sync, in->overhead, in->payload, in->payload_len, frame, in->frame_len).crc;
    return q;
}

/* The request with the six that are now due. */
static struct request put_right(struct request q, const uint8_t *frame)
{
    q.next_crc = ref_data_crc(q.form, q.size, frame, q.frame_len).due;
    return q;
}

static void set_bit(uint8_t *octets, size_t n, bool bit)
{
    if (get_bit(octets, n) != bit) {
        flip_bit(octets, n);
    }
}

/* ---- Every size ---- */

/* Table 7.2 as it is printed: the bit's number is `ks` k + `plus`. Its letter is that of the field, and `number` counts from 0. */
static const struct {
    size_t ks;
    size_t plus;
    char field; /* f fbit, e eoc, c crc, i sbid */
    unsigned number;
} table_7_2[] = {
    {0, 15, 'f', 0},   {0, 16, 'f', 1},   {12, 17, 'e', 0},  {12, 18, 'e', 1},  {12, 19, 'e', 2},  {12, 20, 'e', 3},
    {12, 21, 'c', 0},  {12, 22, 'c', 1},  {12, 23, 'f', 2},  {12, 24, 'i', 0},  {12, 25, 'e', 4},  {12, 26, 'e', 5},
    {24, 27, 'e', 6},  {24, 28, 'e', 7},  {24, 29, 'e', 8},  {24, 30, 'e', 9},  {24, 31, 'c', 2},  {24, 32, 'c', 3},
    {24, 33, 'f', 3},  {24, 34, 'e', 10}, {24, 35, 'e', 11}, {24, 36, 'i', 1},  {36, 37, 'e', 12}, {36, 38, 'e', 13},
    {36, 39, 'e', 14}, {36, 40, 'e', 15}, {36, 41, 'c', 4},  {36, 42, 'c', 5},  {36, 43, 'e', 16}, {36, 44, 'e', 17},
    {36, 45, 'e', 18}, {36, 46, 'e', 19},
};

/* The library's frame against the table, with no help of the reference. */
static void try_places(const struct input *in)
{
    uint8_t frame[ROOM_MAX];
    size_t k = in->size;
    bool synchronous = in->form == SDSL_SYNCHRONOUS;
    struct comparison comparison = {NULL};
    memcpy(frame, some_octets(), sizeof frame);
    want(&comparison,
         sdsl_data_write(in->form, in->size, in->sync, in->overhead, in->payload, in->payload_len, frame, in->frame_len).answer == 0,
         "refused");
    for (size_t n = 1; n <= 14; n++) {
        want(&comparison, get_bit(frame, n) == ((in->sync >> (n - 1) & 1) == 1), "a sync bit is elsewhere");
    }
    for (size_t i = 0; i < ITEMS(table_7_2); i++) {
        unsigned number = table_7_2[i].number;
        uint32_t bit = 0;
        switch (table_7_2[i].field) {
        case 'f':
            bit = in->overhead.indicators >> number & 1;
            break;
        case 'e':
            bit = in->overhead.eoc >> number & 1;
            break;
        case 'c':
            bit = in->overhead.crc >> (5 - number) & 1;
            break;
        default:
            bit = synchronous ? in->overhead.spare >> number & 1 : in->overhead.stuffing == 4;
            break;
        }
        want(&comparison, get_bit(frame, table_7_2[i].ks * k + table_7_2[i].plus) == (bit == 1), "an overhead bit is elsewhere");
    }
    for (size_t p = 0; p < 48 * k; p++) {
        size_t quarter = p / (12 * k);
        if (get_bit(frame, 17 + 10 * quarter + p) != get_bit(in->payload, p + 1)) {
            want(&comparison, false, "a payload bit is elsewhere");
        }
    }
    for (size_t n = 48 * k + 47; n <= 8 * in->frame_len; n++) {
        size_t behind = n - (48 * k + 47);
        bool bit = synchronous ? behind < 2 && (in->overhead.spare >> (2 + behind) & 1) == 1 : behind < in->overhead.stuffing;
        want(&comparison, get_bit(frame, n) == bit, "a bit behind the payload is wrong");
    }
    settle(comparison, &places, "form %u size %u stuffing %u", in->form, in->size, in->overhead.stuffing);
}

static void every_size(void)
{
    uint8_t frame[ROOM_MAX];
    for (uint32_t size = K_MIN; size <= K_MAX; size++) {
        for (unsigned way = 0; way < 3; way++) {
            struct input in = make_input(way == 0 ? SDSL_SYNCHRONOUS : SDSL_PLESIOCHRONOUS, size, way == 2 ? 4 : 0);
            try_write(&in);
            try_places(&in);
            struct request q = make_frame(&in, frame);
            try_read(q, frame, "good frame of size", size);
            if (size % 3 == way) {
                try_check(q, frame, "good frame of size", size);
            } else {
                try_crc(q.form, size, frame, q.frame_len, "good frame of size", size);
            }
        }
    }
    /* Each overhead bit alone, and each alone missing. */
    static const uint32_t sizes[] = {24, 25};
    static const uint8_t zeros[6 * 25];
    for (size_t s = 0; s < ITEMS(sizes); s++) {
        for (unsigned bit = 0; bit < 20; bit++) {
            for (unsigned way = 0; way < 4; way++) {
                struct input in = make_input(forms[way % 2], sizes[s], 0);
                uint32_t turn = way < 2 ? 0 : ~(uint32_t)0;
                in.payload = zeros;
                in.sync = ((uint32_t)1 << bit % 14 ^ turn) & 16383;
                in.overhead.indicators = ((uint32_t)1 << bit % 4 ^ turn) & 15;
                in.overhead.eoc = ((uint32_t)1 << bit ^ turn) & 1048575;
                in.overhead.crc = ((uint32_t)1 << bit % 6 ^ turn) & 63;
                in.overhead.spare = ((uint32_t)1 << bit % 4 ^ turn) & 15;
                try_write(&in);
                try_frame(make_frame(&in, frame), frame, "overhead bit", bit);
            }
        }
    }
}

/* ---- Lengths, sizes, forms and ranges ---- */

static void all_lengths(void)
{
    struct request q;
    for (size_t len = 0; len <= 1760; len++) {
        for (uint32_t form = 0; form < 3; form++) {
            if (len == room_of(form) && form < 2) {
                continue; /* that is what the others are about */
            }
            q = (struct request){form, K_MIN, SDSL_DATA_SYNC, 0, len, 6 * K_MIN};
            const uint8_t *frame = some_octets();
            try_check(q, frame, "length", len);
            try_crc(form, K_MIN, frame, len, "length", len);
            if (len % 16 == 12 || len < 160 || len > 1720) {
                struct input in = make_input(form % 2, K_MIN, 0);
                in.form = form;
                in.frame_len = len;
                try_write(&in);
                try_read(q, frame, "length", len);
            }
        }
        /* Payloads of every length beside the right one, of sizes that are right and that are not. */
        static const uint32_t sizes[] = {0, 23, 24, 289, 290};
        for (size_t s = 0; s < ITEMS(sizes); s++) {
            if (sizes[s] != 0 && len % 6 != 0 && len % 4 != 1 && len > 150 && len < 1730) {
                continue;
            }
            struct input in = any_input(sizes[s]);
            if (len == 6 * sizes[s] && below(4) != 0) {
                in.form = odd_forms[below(ITEMS(odd_forms))];
            }
            in.payload_len = len;
            try_write(&in);
            q = (struct request){in.form, in.size, in.sync, in.overhead.crc, in.frame_len, len};
            try_read(q, some_octets(), "payload length", len);
        }
    }
}

/* A payload as long as the size makes it, more than there is in memory. The call is refused, so nothing of it may be touched. */
static void try_huge(uint32_t form, uint32_t size)
{
    struct input in = make_input(form % 2, K_MIN, 0);
    struct pair payload = lend(in.payload, 8);
    struct pair frame = lend(some_octets(), room_of(form));
    size_t payload_len = 6 * (size_t)size;
    struct sdsl_data_written lib = sdsl_data_write(form, size, in.sync, in.overhead, payload.lib, payload_len, frame.lib, frame.len);
    struct sdsl_data_written ref = ref_data_write(form, size, in.sync, in.overhead, payload.ref, payload_len, frame.ref, frame.len);
    struct comparison comparison = {NULL};
    want(&comparison, lib.answer == ref.answer && lib.crc == ref.crc, "answers differ");
    want_kept(&comparison, &payload, "the payload changed");
    want_kept(&comparison, &frame, "a refused call wrote lent memory");
    settle(comparison, &writes, "form %u size %u and all its payload: library %u, reference %u", form, size, lib.answer, ref.answer);

    struct sdsl_data_fields read = sdsl_data_read(form, size, in.sync, 0, frame.lib, frame.len, payload.lib, payload_len);
    struct sdsl_data_fields due = ref_data_read(form, size, in.sync, 0, frame.ref, frame.len, payload.ref, payload_len);
    comparison.wrong = NULL;
    want(&comparison, read.answer == due.answer && same_overhead(read.overhead, due.overhead), "answers differ");
    want_kept(&comparison, &payload, "a refused call wrote lent memory");
    want_kept(&comparison, &frame, "the frame changed");
    settle(comparison, &reads, "form %u size %u and all its payload: library %u, reference %u", form, size, read.answer, due.answer);
    give_back(&payload);
    give_back(&frame);
}

static void all_sizes(void)
{
    /* Where 6 k runs over 32 bits: to 2 octets, to 0, to 144 (k = 24), to 1,734 (k = 289), to 1,740. */
    static const uint32_t odd_sizes[] = {
        715827882, 715827883, 1431655766, 2147483648, 2863311531, 2863311532, 3579139414, 2147483672, 2147483937, 2147483938, 4294967295,
        4294967294, 4294967272, 65536, 65560, 16777240, 256, 280, 2147483647, 1073741824,
    };
    for (uint32_t size = 0; size <= 360; size++) {
        if (size >= K_MIN && size <= K_MAX) {
            continue;
        }
        for (uint32_t form = 0; form < 3; form++) {
            struct input in = make_input(form % 2, size, 0);
            in.form = form;
            struct request q = {form, size, in.sync, in.overhead.crc, in.frame_len, in.payload_len};
            try_write(&in);
            try_frame(q, some_octets(), "size", size);
        }
    }
    for (size_t i = 0; i < ITEMS(odd_sizes); i++) {
        uint32_t size = odd_sizes[i];
        static const size_t lengths[] = {0, 2, 4, 144, 1734, 1740};
        for (uint32_t form = 0; form < 3; form++) {
            size_t wrapped = (uint32_t)(6 * size);
            for (size_t l = 0; l <= ITEMS(lengths); l++) {
                struct input in = make_input(form % 2, K_MIN, 0);
                in.form = form;
                in.size = size;
                in.payload_len = l < ITEMS(lengths) ? lengths[l] : wrapped <= 2000 ? wrapped : 6 * (size_t)(size % 256);
                struct request q = {form, size, in.sync, in.overhead.crc, in.frame_len, in.payload_len};
                try_write(&in);
                try_frame(q, some_octets(), "size", size);
            }
            if (size > K_MAX) {
                try_huge(form, size);
            }
        }
    }
}

static void all_forms(void)
{
    uint8_t frame[ROOM_MAX + 1] = {0};
    for (size_t i = 0; i < ITEMS(odd_forms); i++) {
        for (size_t len = 1738; len <= 1742; len++) {
            for (uint32_t size = 23; size <= 290; size += 89) { /* 23, 112, 201, 290 */
                struct input in = make_input(SDSL_PLESIOCHRONOUS, size, 4);
                in.form = odd_forms[i];
                in.frame_len = len;
                struct request q = {in.form, size, 0, 0, len, in.payload_len};
                try_write(&in);
                try_frame(q, frame, "form", in.form);
            }
        }
    }
}

/* Each number at its ends and beyond them, and every stuffing. */
static void all_ranges(void)
{
    uint8_t frame[ROOM_MAX];
    static const uint32_t tops[] = {16383, 15, 1048575, 63, 15, 63}; /* sync, indicators, eoc, crc, spare, next_crc */
    for (size_t which = 0; which < ITEMS(tops); which++) {
        uint32_t top = tops[which];
        const uint32_t numbers[] = {
            0, 1, top / 2, top - 1, top, top + 1, top + 2, 2 * top, 2 * top + 1, 2 * top + 2, 256 + top, 65536, 65536 + top, 16777216,
            2147483648, 2147483648 + top, 4294967295 - top, 4294967295,
        };
        for (size_t i = 0; i < ITEMS(numbers); i++) {
            for (unsigned way = 0; way < 12; way++) {
                struct input in = make_input(forms[way % 2], (uint32_t)between(K_MIN, 32), way % 4 == 3 ? 4 : 0);
                struct request q = make_frame(&in, frame);
                uint32_t *number = which == 0   ? &in.sync
                                   : which == 1 ? &in.overhead.indicators
                                   : which == 2 ? &in.overhead.eoc
                                   : which == 3 ? &in.overhead.crc
                                   : which == 4 ? &in.overhead.spare
                                                : &q.next_crc;
                *number = numbers[i];
                if (which < 5) {
                    try_write(&in);
                }
                q.sync = in.sync;
                if (which == 0 || which == 5) {
                    try_read(q, frame, "a number", numbers[i]);
                    try_check(q, frame, "a number", numbers[i]);
                }
            }
        }
    }
    static const uint32_t stuffings[] = {0, 1, 2, 3, 4, 5, 6, 7, 8, 12, 16, 260, 65540, 2147483648, 2147483652, 4294967292, 4294967295};
    for (size_t i = 0; i < ITEMS(stuffings); i++) {
        for (unsigned way = 0; way < 8; way++) {
            struct input in = make_input(forms[way % 2], (uint32_t)between(K_MIN, 40), 0);
            in.overhead.stuffing = stuffings[i];
            try_write(&in);
        }
    }
}

/* Numbers of every kind, right or wrong as they come. */
static uint32_t any_number(uint32_t top)
{
    switch (below(8)) {
    case 0:
        return top + 1;
    case 1:
        return random32();
    default:
        return (uint32_t)below((uint64_t)top + 1);
    }
}

static void random_numbers(void)
{
    for (size_t i = 0; i < scaled(25000); i++) {
        struct input in = any_input(below(3) == 0 ? (uint32_t)between(10, 24) : (uint32_t)between(290, 295));
        if (below(4) == 0) {
            in.form = any_number(1);
        }
        in.sync = any_number(16383);
        in.overhead.indicators = any_number(15);
        in.overhead.eoc = any_number(1048575);
        in.overhead.crc = any_number(63);
        in.overhead.stuffing = any_number(4);
        in.overhead.spare = any_number(15);
        if (below(4) == 0) {
            in.frame_len = 1739 + (size_t)below(4);
        }
        if (below(4) == 0) {
            in.payload_len = in.payload_len + 1 - (size_t)below(3);
        }
        try_write(&in);
        struct request q = {in.form, in.size, in.sync, in.overhead.crc, in.frame_len, in.payload_len};
        try_read(q, some_octets(), "numbers", i);
        try_check(q, some_octets(), "numbers", i);
    }
}

/* ---- Every set of faults at once, so every pair among them: the order of the checks shows ---- */

static void write_faults(void)
{
    enum { PAYLOAD = 1, FRAME = 2, FORM = 4, SIZE = 8, SYNC = 16, INDICATORS = 32, EOC = 64, CRC = 128, SPARE = 256, STUFFING = 512 };
    static const uint32_t bad_sizes[] = {0, 23, 290, 291};
    static const uint32_t bad_stuffings[2][4] = {{4, 1, 2, 4294967295}, {1, 2, 8, 4294967295}};
    for (unsigned set = 0; set < 2 * STUFFING; set++) {
        for (unsigned turn = 0; turn < 8; turn++) {
            uint32_t form = forms[turn % 2];
            struct input in = make_input(form, set & SIZE ? bad_sizes[turn / 2] : (uint32_t)between(K_MIN, 30), turn & 4);
            if (set & PAYLOAD) {
                in.payload_len += in.payload_len == 0 || turn < 4 ? 1 : (size_t)-1;
            }
            if (set & FRAME) {
                in.frame_len = turn < 4 ? 3481 - in.frame_len : turn < 6 ? 1739 : 1742; /* 3,481: the other form's room */
                if (set & FORM) {
                    in.frame_len = turn < 4 ? 1739 : 1742;
                }
            }
            if (set & FORM) {
                in.form = odd_forms[below(ITEMS(odd_forms))];
            }
            if (set & SYNC) {
                in.sync = turn < 4 ? 16384 : random32() | 16384;
            }
            if (set & INDICATORS) {
                in.overhead.indicators = turn < 4 ? 16 : random32() | 16;
            }
            if (set & EOC) {
                in.overhead.eoc = turn < 4 ? 1048576 : random32() | 1048576;
            }
            if (set & CRC) {
                in.overhead.crc = turn < 4 ? 64 : random32() | 64;
            }
            if (set & SPARE) {
                in.overhead.spare = turn < 4 ? 16 : random32() | 16;
            }
            if (set & STUFFING) {
                in.overhead.stuffing = bad_stuffings[form][turn / 2];
            }
            try_write(&in);
        }
    }
}

static void read_faults(void)
{
    enum { PAYLOAD = 1, FRAME = 2, FORM = 4, SIZE = 8, SYNC = 16, NEXT = 32, WORD = 64, SBID = 128, STUFFING = 256, ROOM = 512, CRC = 1024 };
    for (unsigned set = 0; set < 2 * CRC; set++) {
        for (unsigned turn = 0; turn < 4; turn++) {
            uint8_t frame[ROOM_MAX + 1];
            uint32_t size = (uint32_t)between(K_MIN, 28);
            struct input in = make_input(forms[turn % 2], size, set & STUFFING ? 4 : turn < 2 ? 4 : 0);
            struct request q = make_frame(&in, frame);
            frame[ROOM_MAX] = 0;
            size_t last = bits_of(in.form, size, in.overhead.stuffing);
            if (set & STUFFING) {
                flip_bit(frame, 48 * size + 47 + (size_t)below(in.form == SDSL_SYNCHRONOUS ? 2 : 4));
            }
            if (set & SBID) {
                flip_bit(frame, turn < 2 ? 12 * size + 24 : 24 * size + 36);
            }
            q = put_right(q, frame);
            if (set & CRC) {
                q.next_crc ^= (uint32_t)between(1, 63);
            }
            if (set & ROOM) {
                /* Far enough behind that it is behind a frame with stuffing bits too. */
                flip_bit(frame, turn < 2 ? last + 5 : (size_t)between((int32_t)last + 5, (int32_t)(8 * in.frame_len)));
            }
            if (set & WORD) {
                flip_bit(frame, (size_t)between(1, 14));
            }
            if (set & SYNC) {
                q.sync |= 16384u << below(18);
            }
            if (set & NEXT) {
                q.next_crc |= 64u << below(26);
            }
            if (set & SIZE) {
                q.size = turn < 2 ? 23 : 290;
                q.payload_len = 6 * q.size;
            }
            if (set & FORM) {
                q.form = odd_forms[below(ITEMS(odd_forms))];
            }
            if (set & FRAME) {
                q.frame_len = set & FORM || turn < 2 ? (turn % 2 == 0 ? 1739 : 1742) : 3481 - q.frame_len;
            }
            try_check(q, frame, "faults", set);
            if (set & PAYLOAD) {
                q.payload_len += turn < 2 ? 1 : (size_t)-1;
            }
            try_read(q, frame, "faults", set);
        }
    }
}

/* ---- Damaged frames ---- */

/* Each single bit of a frame flipped, and each of the room behind it, or there only every so many (`step`). All are checked; behind the
 * frame fewer are read. */
static void damage_small(uint32_t form, uint32_t stuffing, size_t step)
{
    uint8_t frame[ROOM_MAX];
    struct input in = make_input(form, K_MIN, stuffing);
    struct request q = make_frame(&in, frame);
    size_t last = bits_of(form, K_MIN, stuffing);
    try_frame(q, frame, "a good frame, stuffing", stuffing);
    for (size_t n = 1; n <= 8 * q.frame_len; n += n < last + 100 ? 1 : step) {
        flip_bit(frame, n);
        try_check(q, frame, "flipped bit", n);
        if (n <= last + 8) {
            try_read(q, frame, "flipped bit", n);
            try_crc(form, K_MIN, frame, q.frame_len, "flipped bit", n);
            try_read(put_right(q, frame), frame, "flipped bit, check bits put right,", n);
        } else if (n % 8 == 3 || n > 8 * q.frame_len - 64) {
            try_read(q, frame, "flipped bit", n);
            try_crc(form, K_MIN, frame, q.frame_len, "flipped bit", n);
        }
        flip_bit(frame, n);
    }
    /* A multiple of X^6 + X + 1 on top, within a run of payload, changes the frame and leaves the check bits right. */
    for (size_t n = 17; n + 6 <= 12 * K_MIN + 16; n += 3) {
        flip_bit(frame, n);
        flip_bit(frame, n + 5);
        flip_bit(frame, n + 6);
        try_read(q, frame, "the divisor added from bit", n);
        try_check(q, frame, "the divisor added from bit", n);
    }
}

/* The largest: bits at and beside every border of the table. */
static void damage_large(uint32_t form, uint32_t stuffing)
{
    uint8_t frame[ROOM_MAX];
    size_t k = K_MAX;
    struct input in = make_input(form, K_MAX, stuffing);
    struct request q = make_frame(&in, frame);
    const size_t borders[] = {1, 15, 12 * k + 21, 24 * k + 31, 36 * k + 41, 48 * k + 46, 8 * q.frame_len};
    for (size_t b = 0; b < ITEMS(borders); b++) {
        for (int32_t beside = -9; beside <= 9; beside++) {
            int32_t n = (int32_t)borders[b] + beside;
            if (n >= 1 && n <= (int32_t)(8 * q.frame_len)) {
                flip_bit(frame, (size_t)n);
                try_frame(q, frame, "flipped bit", (size_t)n);
                flip_bit(frame, (size_t)n);
            }
        }
    }
}

/* sbid1, sbid2 and the six bits behind the payload in every way. */
static void all_stuffings(void)
{
    uint8_t frame[ROOM_MAX];
    static const uint32_t sizes[] = {24, 25, 26, 27};
    for (size_t s = 0; s < ITEMS(sizes); s++) {
        size_t k = sizes[s];
        for (size_t f = 0; f < ITEMS(forms); f++) {
            struct input in = make_input(forms[f], sizes[s], 0);
            struct request q = make_frame(&in, frame);
            for (size_t way = 0; way < 256; way++) {
                set_bit(frame, 12 * k + 24, (way & 1) != 0);
                set_bit(frame, 24 * k + 36, (way & 2) != 0);
                for (size_t i = 0; i < 6; i++) {
                    set_bit(frame, 48 * k + 47 + i, (way >> (2 + i) & 1) != 0);
                }
                q = put_right(q, frame);
                try_read(q, frame, "stuffing", way);
                try_check(q, frame, "stuffing", way);
                q.next_crc ^= (uint32_t)below(2);
                try_check(q, frame, "stuffing, perhaps another crc,", way);
            }
        }
    }
    /* The largest frame ends with, or just before, its room. */
    for (size_t way = 0; way < 64; way++) {
        struct input in = make_input(SDSL_PLESIOCHRONOUS, K_MAX, 0);
        struct request q = make_frame(&in, frame);
        set_bit(frame, 12 * K_MAX + 24, (way & 1) != 0);
        set_bit(frame, 24 * K_MAX + 36, (way & 2) != 0);
        for (size_t i = 0; i < 4; i++) {
            set_bit(frame, 48 * K_MAX + 47 + i, (way >> (2 + i) & 1) != 0);
        }
        try_check(put_right(q, frame), frame, "stuffing", way);
    }
}

/* All 16,384 sync words: each written, and read as itself and as another. The check bits are the same for all. */
static void all_syncs(void)
{
    uint8_t frame[ROOM_MAX];
    struct request q = {0, 0, 0, 0, 0, 0};
    for (uint32_t word = 0; word < 16384; word++) {
        struct input in = make_input(forms[word / 64 % 2], K_MIN, word / 128 % 2 == 0 ? 0 : 4);
        in.sync = word;
        try_write(&in);
        if (word % 64 == 0) {
            q = make_frame(&in, frame);
        }
        for (size_t n = 1; n <= 14; n++) {
            set_bit(frame, n, (word >> (n - 1) & 1) == 1);
        }
        q.sync = word;
        if (word % 16 == 5) {
            try_read(q, frame, "sync word", word);
        } else if (word % 2 == 1) {
            try_check(q, frame, "sync word", word);
        }
        q.sync = word % 4 == 0 ? SDSL_DATA_SYNC : word ^ 1u << below(14);
        try_check(q, frame, "another sync word than", word);
    }
}

static void random_damage(void)
{
    uint8_t frame[ROOM_MAX];
    for (size_t i = 0; i < scaled(1000); i++) {
        struct input in = any_input(any_size());
        try_write(&in);
        struct request q = make_frame(&in, frame);
        int32_t last = (int32_t)bits_of(in.form, in.size, in.overhead.stuffing);
        for (uint64_t flips = below(4); flips > 0; flips--) {
            int32_t from = below(2) == 0 ? 1 : 15;
            int32_t to = below(8) == 0 ? (int32_t)(8 * q.frame_len) : last;
            flip_bit(frame, (size_t)between(from, to));
        }
        try_check(q, frame, "damaged frame", i);
        q = below(2) == 0 ? put_right(q, frame) : q;
        try_frame(q, frame, "damaged frame", i);
    }
    /* Noise, then noise that is made good step by step. */
    for (size_t i = 0; i < scaled(700); i++) {
        struct input in = any_input((uint32_t)between(K_MIN, 32));
        uint8_t good[ROOM_MAX];
        struct request q = make_frame(&in, good);
        memcpy(frame, some_octets(), sizeof frame);
        try_frame(put_right(q, frame), frame, "noise", i);
        frame[0] = good[0];
        frame[1] = (uint8_t)((good[1] & 63) | (frame[1] & 192));
        try_check(put_right(q, frame), frame, "noise with sync", i);
        if (in.form == SDSL_PLESIOCHRONOUS) {
            set_bit(frame, 12 * in.size + 24, in.overhead.stuffing == 4);
            set_bit(frame, 24 * in.size + 36, in.overhead.stuffing == 4);
            for (size_t n = 48 * in.size + 47; in.overhead.stuffing == 4 && n <= 48 * in.size + 50; n++) {
                set_bit(frame, n, true);
            }
            try_check(put_right(q, frame), frame, "noise with sync and stuffing", i);
        }
        size_t n = bits_of(in.form, in.size, in.overhead.stuffing);
        while (n % 8 != 0) {
            n++;
            set_bit(frame, n, false);
        }
        memset(frame + n / 8, 0, sizeof frame - n / 8);
        try_check(q, frame, "noise with sync, stuffing and room", i);
        try_frame(put_right(q, frame), frame, "noise that is a frame", i);
    }
}

/* ---- Chains: written by the library one after the other, and read by the library when the next has come ---- */

#define CHAIN_MAX 6

static void chain(uint32_t form, uint32_t size, size_t count)
{
    static uint8_t frames[CHAIN_MAX][ROOM_MAX];
    struct input in[CHAIN_MAX];
    uint32_t crc = (uint32_t)below(64); /* that of the first: any value */
    struct sdsl_data_written written[CHAIN_MAX];
    size_t room = room_of(form);
    for (size_t i = 0; i < count; i++) {
        in[i] = make_input(form, size, 4 * (uint32_t)below(2));
        in[i].overhead.crc = crc;
        written[i] = sdsl_data_write(form, size, in[i].sync, in[i].overhead, in[i].payload, in[i].payload_len, frames[i], room);
        crc = written[i].crc;
    }
    for (size_t i = 0; i < count; i++) {
        struct comparison comparison = {NULL};
        uint8_t payload[6 * K_MAX];
        struct sdsl_data_crcs own = sdsl_data_crc(form, size, frames[i], room);
        struct sdsl_data_crcs next = i + 1 < count ? sdsl_data_crc(form, size, frames[i + 1], room) : own;
        uint32_t next_crc = i + 1 < count ? next.carried : own.due; /* the last has no next frame */
        struct sdsl_data_fields got = sdsl_data_read(form, size, in[i].sync, next_crc, frames[i], room, payload, in[i].payload_len);
        want(&comparison, written[i].answer == 0 && own.answer == 0 && next.answer == 0 && got.answer == 0, "refused");
        want(&comparison, own.due == written[i].crc && own.carried == in[i].overhead.crc, "other check bits");
        want(&comparison, got.overhead.indicators == in[i].overhead.indicators && got.overhead.eoc == in[i].overhead.eoc, "other bits");
        want(&comparison, got.overhead.spare == (form == SDSL_SYNCHRONOUS ? in[i].overhead.spare : 0), "other spare bits");
        want(&comparison, got.overhead.stuffing == in[i].overhead.stuffing, "other stuffing");
        want(&comparison, got.overhead.crc == in[i].overhead.crc, "another crc in the frame");
        want(&comparison, memcmp(payload, in[i].payload, in[i].payload_len) == 0, "another payload");
        settle(comparison, &chains, "form %u size %u frame %zu: wrote %u, read %u", form, size, i, written[i].answer, got.answer);

        /* With another frame's six it is refused, unless they happen to be the same. */
        comparison.wrong = NULL;
        uint32_t other = written[below(count)].crc;
        uint32_t due = other == written[i].crc ? SDSL_DONE : SDSL_BAD_CHECK;
        want(&comparison, sdsl_data_check(form, size, in[i].sync, other, frames[i], room) == due, "another answer than due");
        settle(comparison, &chains, "form %u size %u frame %zu, checked with %u, not %u", form, size, i, other, written[i].crc);
    }
}

static void all_chains(void)
{
    for (uint32_t size = K_MIN; size <= K_MAX; size++) {
        chain(SDSL_SYNCHRONOUS, size, 2);
        chain(SDSL_PLESIOCHRONOUS, size, 2);
    }
    for (size_t i = 0; i < scaled(100); i++) {
        uint32_t form = (uint32_t)below(2);
        chain(form, (uint32_t)between(K_MIN, 60), CHAIN_MAX);
    }
}

/* ---- Examples with literal results, on either side ---- */

struct side {
    const char *name;
    struct sdsl_data_written (*write)(uint32_t form, uint32_t size, uint32_t sync, struct sdsl_data_overhead overhead,
                                      const uint8_t *payload, size_t payload_len, uint8_t *frame, size_t frame_len);
    struct sdsl_data_crcs (*crc)(uint32_t form, uint32_t size, const uint8_t *frame, size_t frame_len);
    struct sdsl_data_fields (*read)(uint32_t form, uint32_t size, uint32_t sync, uint32_t next_crc, const uint8_t *frame,
                                    size_t frame_len, uint8_t *payload, size_t payload_len);
    uint32_t (*check)(uint32_t form, uint32_t size, uint32_t sync, uint32_t next_crc, const uint8_t *frame, size_t frame_len);
};

static void example(bool good, const char *what, const struct side *side)
{
    struct comparison comparison = {good ? NULL : "not as it should be"};
    settle(comparison, &examples, "%s by the %s", what, side->name);
}

/* Whether the ones of a frame are those of the list, which ends with 0. */
static bool ones_are(const uint8_t *frame, size_t frame_len, const size_t *list)
{
    for (size_t n = 1; n <= 8 * frame_len; n++) {
        bool listed = n == *list;
        if (get_bit(frame, n) != listed) {
            return false;
        }
        list += listed;
    }
    return true;
}

static void paper_examples(const struct side *side)
{
    static const struct sdsl_data_overhead none = {0, 0, 0, 0, 0};
    static const uint8_t zeros[144];
    struct sdsl_data_overhead overhead = none;
    uint8_t frame[ROOM_MAX];
    uint8_t payload[144] = {0};

    overhead.indicators = SDSL_LOSD | SDSL_SEGA;
    struct sdsl_data_written wrote = side->write(SDSL_SYNCHRONOUS, 24, 0x0c3f, overhead, zeros, 144, frame, 1740);
    example(wrote.answer == 0 && frame[0] == 0x3f && frame[1] == 0xcc, "sync, losd and sega", side);

    /* The last payload bit alone, frame bit 1,198: X + 1, and with two spare bits behind it X^3 + X^2. */
    payload[143] = 128;
    wrote = side->write(SDSL_PLESIOCHRONOUS, 24, 0, none, payload, 144, frame, 1741);
    example(wrote.answer == 0 && wrote.crc == 3 && ones_are(frame, 1741, (const size_t[]){1198, 0}), "the last payload bit", side);
    struct sdsl_data_crcs six = side->crc(SDSL_PLESIOCHRONOUS, 24, frame, 1741);
    example(six.answer == 0 && six.carried == 0 && six.due == 3, "the last payload bit's crc", side);
    wrote = side->write(SDSL_SYNCHRONOUS, 24, 0, none, payload, 144, frame, 1740);
    example(wrote.answer == 0 && wrote.crc == 12 && ones_are(frame, 1740, (const size_t[]){1198, 0}), "the last, synchronous,", side);
    six = side->crc(SDSL_SYNCHRONOUS, 24, frame, 1740);
    example(six.answer == 0 && six.carried == 0 && six.due == 12, "its crc", side);
    overhead = none;
    overhead.spare = 8;
    wrote = side->write(SDSL_SYNCHRONOUS, 24, 0, overhead, zeros, 144, frame, 1740);
    example(wrote.answer == 0 && wrote.crc == 3 && ones_are(frame, 1740, (const size_t[]){1200, 0}), "spa2 alone", side);
    example(side->check(SDSL_SYNCHRONOUS, 24, 0, 3, frame, 1740) == 0, "spa2 alone, checked with 3,", side);
    example(side->check(SDSL_SYNCHRONOUS, 24, 0, 12, frame, 1740) == SDSL_BAD_CHECK, "spa2 alone, checked with 12,", side);

    /* A stuffed frame of zeros: sbid1, sbid2 and four stuffing bits. */
    overhead = none;
    overhead.stuffing = 4;
    wrote = side->write(SDSL_PLESIOCHRONOUS, 24, 0, overhead, zeros, 144, frame, 1741);
    example(wrote.answer == 0 && ones_are(frame, 1741, (const size_t[]){312, 612, 1199, 1200, 1201, 1202, 0}), "stuffing", side);
    struct sdsl_data_fields got = side->read(SDSL_PLESIOCHRONOUS, 24, 0, wrote.crc, frame, 1741, payload, 144);
    example(got.answer == 0 && got.overhead.stuffing == 4 && got.overhead.spare == 0 && payload[143] == 0, "stuffing read", side);
    for (size_t n = 1199; n <= 1202; n++) {
        flip_bit(frame, n);
        example(side->check(SDSL_PLESIOCHRONOUS, 24, 0, wrote.crc, frame, 1741) == SDSL_BAD_STUFFING, "a stuffing bit gone", side);
        flip_bit(frame, n);
    }
    flip_bit(frame, 1203);
    example(side->check(SDSL_PLESIOCHRONOUS, 24, 0, wrote.crc, frame, 1741) == SDSL_BAD_PAD, "a fifth stuffing bit", side);
    flip_bit(frame, 312);
    example(side->check(SDSL_PLESIOCHRONOUS, 24, 0, wrote.crc, frame, 1741) == SDSL_BAD_STUFFING, "sbid1 gone", side);

    /* crc1 weighs 32 and stands first of its six. */
    overhead = none;
    overhead.crc = 32;
    wrote = side->write(SDSL_SYNCHRONOUS, 24, 0, overhead, zeros, 144, frame, 1740);
    example(wrote.answer == 0 && wrote.crc == 0 && ones_are(frame, 1740, (const size_t[]){309, 0}), "crc1 alone", side);
    six = side->crc(SDSL_SYNCHRONOUS, 24, frame, 1740);
    example(six.answer == 0 && six.carried == 32 && six.due == 0, "crc1 alone, as carried,", side);
}

void second_data(void)
{
    static const struct side library = {"library", sdsl_data_write, sdsl_data_crc, sdsl_data_read, sdsl_data_check};
    static const struct side reference = {"reference", ref_data_write, ref_data_crc, ref_data_read, ref_data_check};
    paper_examples(&library);
    paper_examples(&reference);
    every_size();
    all_lengths();
    all_sizes();
    all_forms();
    all_ranges();
    random_numbers();
    write_faults();
    read_faults();
    damage_small(SDSL_SYNCHRONOUS, 0, 1);
    damage_small(SDSL_PLESIOCHRONOUS, 0, 1);
    damage_small(SDSL_PLESIOCHRONOUS, 4, 7);
    damage_large(SDSL_SYNCHRONOUS, 0);
    damage_large(SDSL_PLESIOCHRONOUS, 4);
    all_stuffings();
    all_syncs();
    random_damage();
    all_chains();
    const struct tally tallies[] = {writes, crcs, reads, checks, places, chains, examples};
    print_group("data", tallies, ITEMS(tallies));
}

#endif
