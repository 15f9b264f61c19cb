/*
 * second_receiver.c: the group `receiver`: sdsl_receive_start and sdsl_receive, call by call and over whole streams, and frames that
 * sdsl_frame_send sends.
 */
#include "harness.h"

#ifdef SECOND_RECEIVER

#include "joined.h"
#include "reference.h"

#include <string.h>

static struct tally starts = {"sdsl_receive_start", 0, 0};
static struct tally receives = {"sdsl_receive", 0, 0};
static struct tally streams = {"streams joined", 0, 0};
static struct tally rooms = {"states and line rooms", 0, 0};
static struct tally made_ups = {"made-up states", 0, 0};
static struct tally dues = {"answers that are due", 0, 0};
static struct tally sents = {"sent, then received", 0, 0};
static struct tally examples = {"examples", 0, 0};

#define FRAME_BITS 4227
#define FRAME_OCTETS 529
#define SYNC_BITS 14
#define STATE_BITS 23
#define LINE_BITS 4256
#define LINE_OCTETS 532
#define LUMP_BITS 4096
#define LUMP_OCTETS 512
#define MOST_HEARD 4294967295
#define ROOM 640 /* octets of any buffer that the driver keeps, so that some can be lent that are too long */

/* The library and the reference, for cases whose result is known from elsewhere. */
struct side {
    const char *name;
    struct sdsl_received (*start)(uint32_t end);
    struct sdsl_received (*receive)(struct sdsl_receiver state, uint8_t *line, size_t line_len, const uint8_t *lump, size_t lump_len,
                                    size_t bits, uint8_t *frame, size_t frame_len);
    struct sdsl_scrambled (*send)(uint32_t end, uint32_t state, uint32_t kind, uint32_t count, const uint8_t *coefficients,
                                  size_t coefficients_len, uint32_t a, uint32_t b, const uint8_t *vendor, size_t vendor_len,
                                  uint8_t *frame, size_t frame_len);
};

static const struct side sides[2] = {
    {"library", sdsl_receive_start, sdsl_receive, sdsl_frame_send},
    {"reference", ref_receive_start, ref_receive, ref_frame_send},
};

static const uint32_t ends[] = {0, 1, 2, 3, 5, 18, 255, 256, 257, 65536, 65537, 2147483648, 2147483649, 4294967295};

/* ---- One comparison each ---- */

/* What a call is given. `line` and `lump` have the octets that are lent, as many as their lengths say. */
struct call {
    struct sdsl_receiver state;
    const uint8_t *line;
    size_t line_len;
    const uint8_t *lump;
    size_t lump_len;
    size_t bits;
    size_t frame_len;
};

/* What came of it. Line and frame are the library's. */
struct outcome {
    struct sdsl_received lib;
    struct sdsl_received ref;
    uint8_t line[ROOM];
    uint8_t frame[ROOM];
    bool frame_kept;
};

static bool same_state(struct sdsl_receiver one, struct sdsl_receiver other)
{
    return one.end == other.end && one.heard == other.heard && one.from == other.from;
}

/* The numbers that both kinds of call return; `state` is the one that a refusal has to give. */
static void compare(struct comparison *comparison, struct sdsl_received lib, struct sdsl_received ref, struct sdsl_receiver state)
{
    want(comparison, lib.answer == ref.answer, "answers differ");
    want(comparison, lib.given == ref.given, "one gives a frame and the other does not");
    want(comparison, lib.place == ref.place, "places differ");
    want(comparison, same_state(lib.state, ref.state), "states differ");
    want(comparison, lib.answer == SDSL_DONE || (lib.given == 0 && lib.place == 0), "a refused call gave a frame or a place");
    want(comparison, lib.answer == SDSL_DONE || same_state(lib.state, state), "a refused call changed the state");
}

static struct sdsl_received try_start(uint32_t end)
{
    struct sdsl_received lib = sdsl_receive_start(end);
    struct sdsl_received ref = ref_receive_start(end);
    struct sdsl_receiver fresh = {end, 0, 0};
    struct comparison comparison = {NULL};
    compare(&comparison, lib, ref, fresh);
    want(&comparison, lib.answer == (end <= 1 ? SDSL_DONE : SDSL_UNKNOWN), "another answer than due");
    want(&comparison, lib.given == 0 && lib.place == 0 && same_state(lib.state, fresh), "no fresh start");
    settle(comparison, &starts, "end %u: library %u state %u %u %u, reference %u state %u %u %u", end, lib.answer, lib.state.end,
           lib.state.heard, lib.state.from, ref.answer, ref.state.end, ref.state.heard, ref.state.from);
    return lib;
}

static struct outcome try_receive(const struct call *call)
{
    struct outcome out;
    struct pair line = lend(call->line, call->line_len);
    struct pair lump = lend(call->lump, call->lump_len);
    struct pair frame = lend_junk(call->frame_len);
    out.lib = sdsl_receive(call->state, line.lib, line.len, lump.lib, lump.len, call->bits, frame.lib, frame.len);
    out.ref = ref_receive(call->state, line.ref, line.len, lump.ref, lump.len, call->bits, frame.ref, frame.len);
    out.frame_kept = same_octets(frame.lib, frame.before, frame.len);
    struct comparison comparison = {NULL};
    compare(&comparison, out.lib, out.ref, call->state);
    want(&comparison, out.lib.given == 1 || out.frame_kept, "a call without a frame wrote the frame room");
    want_kept(&comparison, &lump, "the lump changed");
    want_written(&comparison, &line, out.lib.answer, "line rooms differ");
    want_written(&comparison, &frame, out.lib.answer, "frames differ");
    settle(comparison, &receives, "end %u heard %u from %u, lengths %zu %zu %zu, %zu bits: library %u (%u, place %u), reference %u (%u, "
           "place %u)", call->state.end, call->state.heard, call->state.from, call->line_len, call->lump_len, call->frame_len, call->bits,
           out.lib.answer, out.lib.given, out.lib.place, out.ref.answer, out.ref.given, out.ref.place);
    for (size_t i = 0; i < line.len && i < sizeof out.line; i++) {
        out.line[i] = line.lib[i];
    }
    for (size_t i = 0; i < frame.len && i < sizeof out.frame; i++) {
        out.frame[i] = frame.lib[i];
    }
    give_back(&line);
    give_back(&lump);
    give_back(&frame);
    return out;
}

static void want_due(const struct outcome *out, uint32_t due, const char *what, size_t number)
{
    struct comparison comparison = {out->lib.answer == due && out->ref.answer == due ? NULL : "another answer than due"};
    settle(comparison, &dues, "%s %zu: library %u, reference %u, and %u was due", what, number, out->lib.answer, out->ref.answer, due);
}

/* ---- Streams ---- */

#define STREAM_MAX 64000

/* Bits of a line, one to an element, from 0 on. */
struct stream {
    uint32_t end;
    size_t len;
    uint8_t bit[STREAM_MAX];
};

static const char *const words[2] = {"11111001101011", "11010110011111"};

static void put_octets(const uint8_t *bit, size_t count, uint8_t *octets)
{
    for (size_t i = 0; i < count; i += 8) {
        unsigned octet = 0;
        for (size_t k = 0; k < 8 && i + k < count; k++) {
            octet |= (unsigned)bit[i + k] << k;
        }
        octets[i / 8] = (uint8_t)octet;
    }
}

static void add_noise(struct stream *s, size_t count)
{
    for (size_t i = 0; i < count; i++) {
        s->bit[s->len] = (uint8_t)below(2);
        s->len++;
    }
}

static void add_zeros(struct stream *s, size_t count)
{
    memset(s->bit + s->len, 0, count);
    s->len += count;
}

/* From here on the stream is heard. */
static void drop(struct stream *s, size_t count)
{
    memmove(s->bit, s->bit + count, s->len - count);
    s->len -= count;
}

static void put_sync(struct stream *s, size_t place, size_t kind)
{
    for (size_t i = 0; i < SYNC_BITS; i++) {
        s->bit[place + i] = words[kind][i] == '1';
    }
}

static bool stands(const struct stream *s, size_t place, size_t kind)
{
    for (size_t i = 0; i < SYNC_BITS; i++) {
        if (s->bit[place + i] != (words[kind][i] == '1')) {
            return false;
        }
    }
    return true;
}

/* A list of places: bits that may be changed, 64 at most, or frames, four at most. */
struct places {
    size_t count;
    size_t place[64];
};

static void list_run(struct places *list, size_t first, size_t count)
{
    for (size_t i = 0; i < count; i++) {
        list->place[list->count] = first + i;
        list->count++;
    }
}

/* What the check bits of all these frames leave, 16 bits each. */
static uint64_t rests(const struct stream *s, const struct places *frames)
{
    uint64_t all = 0;
    for (size_t i = 0; i < frames->count; i++) {
        all = all << 16 | rest_at(s->end, s->bit, frames->place[i]);
    }
    return all;
}

/*
 * Makes the check bits of all these frames right at once, as they stand scrambled on the line, by flipping some of the loose bits. To
 * flip a bit always makes the same change in the rests, so this is a system of equations, solved by elimination. Says whether there is
 * a way.
 */
static bool seal(struct stream *s, const struct places *frames, const struct places *loose)
{
    /* The row of a bit has this bit highest in its change, and says which loose bits make that change. */
    struct {
        uint64_t change;
        uint64_t flips;
    } rows[64] = {{0, 0}};
    uint64_t rest = rests(s, frames);
    for (size_t i = 0; i < loose->count; i++) {
        s->bit[loose->place[i]] ^= 1;
        uint64_t change = rests(s, frames) ^ rest;
        s->bit[loose->place[i]] ^= 1;
        uint64_t flips = (uint64_t)1 << i;
        for (size_t b = 64; b > 0 && change != 0; b--) {
            if ((change >> (b - 1) & 1) == 0) {
                continue;
            }
            if (rows[b - 1].flips == 0) {
                rows[b - 1].change = change;
                rows[b - 1].flips = flips;
                break;
            }
            change ^= rows[b - 1].change;
            flips ^= rows[b - 1].flips;
        }
    }
    uint64_t flips = 0;
    for (size_t b = 64; b > 0; b--) {
        if ((rest >> (b - 1) & 1) == 1) {
            rest ^= rows[b - 1].change;
            flips ^= rows[b - 1].flips;
        }
    }
    for (size_t i = 0; i < loose->count && rest == 0; i++) {
        s->bit[loose->place[i]] = (uint8_t)(s->bit[loose->place[i]] ^ (flips >> i & 1));
    }
    return rest == 0;
}

/* A frame's last 16 bits, so that it is a frame, whatever else it holds. */
static void seal_last(struct stream *s, size_t place)
{
    struct places frames = {1, {place}};
    struct places loose = {0, {0}};
    list_run(&loose, place + FRAME_BITS - 16, 16);
    seal(s, &frames, &loose);
}

/* A sync word where no frame lies, or only by chance. */
static void plant(struct stream *s, size_t from, size_t to)
{
    size_t place = from + (size_t)below(to - from - SYNC_BITS);
    put_sync(s, place, (size_t)below(2));
}

/* ---- What a stream is made of ---- */

/* A frame with any payload and any reserved bits, with so many false sync words inside. */
static size_t add_frame(struct stream *s, size_t kind, size_t planted)
{
    size_t place = s->len;
    add_noise(s, FRAME_BITS);
    put_sync(s, place, kind);
    for (size_t i = 0; i < planted; i++) {
        plant(s, place + SYNC_BITS, place + FRAME_BITS - 16);
    }
    seal_last(s, place);
    return place;
}

/* A frame of any fields, as a card sends it behind the bits that the stream ends with. */
static void add_made(struct stream *s, uint32_t kind)
{
    uint8_t coefficients[720];
    uint8_t vendor[16];
    uint8_t frame[FRAME_OCTETS];
    for (size_t i = 0; i < 180; i++) {
        set_number(coefficients, i, between(-2097152, 2097151));
    }
    random_octets(vendor, sizeof vendor);
    uint32_t count = (uint32_t)between(128, 180);
    uint32_t a = (uint32_t)below(2097152);
    uint32_t b = (uint32_t)below(2097152);
    ref_make_frame(kind, count, coefficients, a, b, vendor, frame);
    /* The scrambled bits alone, with the 23 before the frame. */
    uint8_t sent[STATE_BITS + FRAME_BITS];
    size_t tap = s->end == SDSL_LTU ? 5 : 18;
    memcpy(sent, s->bit + s->len - STATE_BITS, STATE_BITS);
    for (size_t n = 1; n <= FRAME_BITS; n++) {
        uint8_t bit = get_bit(frame, n);
        if (n > SYNC_BITS) {
            size_t i = STATE_BITS + n - SYNC_BITS - 1;
            bit = (uint8_t)(bit ^ sent[i - tap] ^ sent[i - STATE_BITS]);
            sent[i] = bit;
        }
        s->bit[s->len] = bit;
        s->len++;
    }
}

/* One bit of a frame, or of the 23 before it. */
static void damage(struct stream *s, size_t place)
{
    s->bit[place - STATE_BITS + (size_t)below(STATE_BITS + FRAME_BITS)] ^= 1;
}

/*
 * Two frames, both good, the second one so many bits behind the first. Nothing is added where that cannot be. Bits that decide the
 * check bits of both stand before the first, inside it and at the second one's end.
 */
static bool add_two(struct stream *s, size_t apart, size_t kind, size_t other)
{
    size_t len = s->len;
    size_t first = len + 30;
    size_t second = first + apart;
    struct places frames = {2, {first, second}};
    struct places loose = {0, {0}};
    list_run(&loose, first - STATE_BITS, STATE_BITS);
    list_run(&loose, first + (apart > 900 && apart < 1100 ? 1500 : 1000), 20);
    list_run(&loose, second + FRAME_BITS - 21, 21);
    for (size_t turn = 0; turn < 16; turn++) { /* where they are very near, not every noise can be made to do */
        s->len = len;
        add_noise(s, second + FRAME_BITS - len);
        put_sync(s, first, kind);
        put_sync(s, second, other);
        if (stands(s, first, kind) && seal(s, &frames, &loose)) {
            return true;
        }
    }
    s->len = len;
    return false;
}

/*
 * Several frames, all good, each of which begins inside the one before; and one more behind the first one's end, still inside the
 * others. The sync words come first, then each frame's last 16 bits, in the order of places. With `spoilt` the first has a wrong bit
 * that does not matter to the others.
 */
static void add_overlapping(struct stream *s, size_t count, bool spoilt)
{
    size_t place[8];
    size_t at = s->len + 30;
    for (size_t i = 0; i < count; i++) {
        place[i] = at;
        at += 60 + (size_t)below(600);
    }
    place[count] = place[0] + FRAME_BITS + (size_t)below(30);
    size_t last = place[count] + FRAME_BITS;
    add_noise(s, last - s->len);
    for (size_t i = 0; i <= count; i++) {
        put_sync(s, place[i], (size_t)below(2));
    }
    for (size_t i = 0; i <= count; i++) {
        seal_last(s, place[i]);
    }
    if (spoilt) {
        s->bit[place[0] + SYNC_BITS + (size_t)below(20)] ^= 1;
    }
}

/* How far apart two frames may begin, at the edges: sync words that share bits, check bits that are shared, sync word in check bits. */
static const size_t distances[] = {7,    9,    12,   13,   14,   15,   16,   17,   22,   23,   24,   30,   37,   100,  1000, 2000,
                                   4095, 4096, 4190, 4196, 4197, 4198, 4203, 4204, 4210, 4211, 4212, 4213, 4214, 4220, 4225, 4226,
                                   4227, 4228, 4240};

/* One part of a stream, by chance. */
static void add_part(struct stream *s)
{
    size_t kind = (size_t)below(2);
    size_t second = (size_t)below(2);
    switch (below(12)) {
    case 0:
        add_noise(s, (size_t)below(300));
        break;
    case 1:
        add_frame(s, kind, 0);
        break;
    case 2:
        add_frame(s, kind, 1 + (size_t)below(6));
        break;
    case 3:
    case 4:
        add_made(s, (uint32_t)kind);
        add_made(s, (uint32_t)second);
        break;
    case 5:
        damage(s, add_frame(s, kind, (size_t)below(3)));
        break;
    case 6: /* a bit too many, or one lost, and then a frame that has to be found again */
        add_frame(s, kind, 0);
        add_noise(s, 1);
        s->len -= 2 * (size_t)below(2);
        add_frame(s, 1 - kind, 0);
        break;
    case 7: /* a frame that breaks off */
        add_frame(s, kind, 0);
        s->len -= 1 + (size_t)below(FRAME_BITS);
        break;
    case 8:
        add_noise(s, 100 + (size_t)below(200));
        for (size_t i = 0; i < 5; i++) {
            plant(s, s->len - 100, s->len);
        }
        break;
    case 9:
        add_two(s, distances[below(ITEMS(distances))], kind, second);
        break;
    case 10:
        add_overlapping(s, 2 + (size_t)below(5), second == 0);
        break;
    default: /* zeros, whose frames are zeros too */
        add_zeros(s, 40);
        put_sync(s, s->len - SYNC_BITS, kind);
        add_zeros(s, FRAME_BITS - SYNC_BITS + (size_t)below(3));
    }
}

/* A stream that is heard from some bit on, mostly in mid-frame. */
static void make_line(struct stream *s, uint32_t end, size_t target)
{
    s->end = end;
    s->len = 0;
    add_noise(s, 64);
    add_frame(s, (size_t)below(2), 1);
    while (s->len < target + FRAME_BITS) {
        add_part(s);
    }
    add_noise(s, (size_t)below(60));
    drop(s, (size_t)below(FRAME_BITS + 64));
}

/* ---- A stream, cut into lumps ---- */

enum cut {
    SINGLE,   /* one bit a call */
    EIGHT,    /* eight */
    LARGEST,  /* 4,096 */
    STEADY,   /* any other number, the same in each call */
    ODD,      /* any numbers, with empty lumps between */
    AT_ENDS,  /* lumps that end with a frame's last bit, one before it or one behind it */
    REFUSALS, /* any numbers, with refused calls between */
    CUTS
};

static const char *const cut_names[CUTS] = {"single bits", "eights", "4,096 bits", "steady sizes", "odd sizes", "ends of frames",
                                            "refusals between"};

static size_t least(size_t one, size_t other)
{
    return one < other ? one : other;
}

/* How many bits the next lump has, where `left` are left and the next frame that is given ends behind so many. */
static size_t lump_size(enum cut cut, size_t steady, size_t left, size_t to_end)
{
    size_t size = 0;
    switch (cut) {
    case SINGLE:
    case EIGHT:
    case LARGEST:
    case STEADY:
        size = steady;
        break;
    case AT_ENDS:
        size = to_end <= LUMP_BITS ? to_end + 1 - (size_t)below(3) : below(2) == 0 ? LUMP_BITS : (size_t)below(LUMP_BITS);
        break;
    default:
        switch (below(5)) {
        case 0:
            size = 0;
            break;
        case 1:
            size = (size_t)below(30);
            break;
        case 2:
            size = LUMP_BITS - (size_t)below(3);
            break;
        default:
            size = (size_t)below(below(2) == 0 ? LUMP_BITS : 700);
        }
    }
    return least(least(size, LUMP_BITS), left);
}

/* A lump of so many bits, with anything behind them; says how many octets it has. */
static size_t make_lump(const uint8_t *bit, size_t bits, uint8_t *lump)
{
    size_t len = (bits + 7) / 8 + (below(4) == 0 ? (size_t)below(4) : 0);
    random_octets(lump, len);
    if (bits % 8 != 0) {
        uint8_t behind = lump[bits / 8];
        put_octets(bit, bits, lump);
        lump[bits / 8] = (uint8_t)(lump[bits / 8] | (behind >> bits % 8) << bits % 8);
    } else {
        put_octets(bit, bits, lump);
    }
    return len;
}

/* One of the faults, by its number, put into a good call; says the answer. The lump has 513 octets or more. */
#define FAULTS 7
static uint32_t spoil(struct call *call, size_t fault)
{
    switch (fault) {
    case 0:
        call->bits = 8 * call->lump_len + 1;
        return 1;
    case 1:
        call->line_len -= 1;
        return 1;
    case 2:
        call->frame_len -= 1;
        return 1;
    case 3:
        call->frame_len += 1;
        return 1;
    case 4:
        call->state.end = ends[2 + below(ITEMS(ends) - 2)];
        return 2;
    case 5:
        call->lump_len = LUMP_OCTETS + 1;
        call->bits = LUMP_BITS + 1;
        return 4;
    default:
        call->lump_len = LUMP_OCTETS;
        call->bits = 1 + (size_t)below(LUMP_BITS);
        call->state.heard = (uint32_t)(MOST_HEARD - below(call->bits));
        return 4;
    }
}

#define FOUND_MAX 20

/* What is given of a stream, when all its bits are read at once. */
struct given {
    size_t count;
    struct found found[FOUND_MAX];
};

static void search(const struct stream *s, struct given *given)
{
    given->count = search_joined(s->end, s->bit, s->len, given->found, FOUND_MAX);
}

/* The state that is due after a call, and a line room with these 4,256 bits. */
static void want_room(const struct outcome *out, struct sdsl_receiver due, const uint8_t *bit)
{
    uint8_t line[LINE_OCTETS];
    put_octets(bit, LINE_BITS, line);
    struct comparison comparison = {NULL};
    want(&comparison, same_state(out->lib.state, due), "another state than due");
    want(&comparison, memcmp(out->line, line, sizeof line) == 0, "not the last 4,256 bits in the line room");
    settle(comparison, &rooms, "end %u, after %u bits: state %u %u %u, and from %u was due", due.end, due.heard, out->lib.state.end,
           out->lib.state.heard, out->lib.state.from, due.from);
}

/*
 * Hears a stream lump by lump, by the library and by the reference, and holds what is given against the joined search: each frame in
 * the call that brings its last bit, and no other. `before` is what the line room holds at the start. The state is that of a start, or
 * one by which `base` bits were heard before and no place among the first 23 may be tried: then all places are greater by `base`.
 */
static void hear(const struct stream *s, const struct given *given, const uint8_t *before, enum cut cut, uint32_t base)
{
    static uint8_t all[LINE_BITS + STREAM_MAX];
    size_t steady = cut == SINGLE ? 1 : cut == EIGHT ? 8 : cut == LARGEST ? LUMP_BITS : 30 + (size_t)below(below(2) == 0 ? 300 : 4000);
    uint8_t line[ROOM];
    uint8_t lump[ROOM];
    struct comparison whole = {NULL};
    for (size_t i = 0; i < LINE_BITS; i++) {
        all[i] = get_bit(before, i + 1);
    }
    memcpy(all + LINE_BITS, s->bit, s->len);
    memcpy(line, before, LINE_OCTETS);
    struct sdsl_receiver due = {s->end, base, base == 0 ? 0 : base + STATE_BITS};
    struct sdsl_receiver state = base == 0 ? try_start(s->end).state : due;
    size_t next = 0;
    size_t heard = 0;
    while (heard < s->len) {
        const struct found *found = next < given->count ? &given->found[next] : NULL;
        size_t to_end = found == NULL ? SIZE_MAX : found->place + FRAME_BITS - heard;
        size_t bits = lump_size(cut, steady, s->len - heard, to_end);
        random_octets(lump, sizeof lump); /* a refused call may be lent all of it */
        struct call call = {state, line, LINE_OCTETS, lump, make_lump(s->bit + heard, bits, lump), bits, FRAME_OCTETS};
        if (cut == REFUSALS && below(2) == 0) {
            struct call spoilt = call;
            size_t fault = (size_t)below(FAULTS);
            uint32_t answer = spoil(&spoilt, fault);
            struct outcome refused = try_receive(&spoilt);
            want_due(&refused, answer, "a call between, with fault", fault);
        }
        struct outcome out = try_receive(&call);
        want(&whole, out.lib.answer == SDSL_DONE, "refused");
        if (to_end <= bits) {
            want(&whole, out.lib.given == 1, "not given in the call that brings its last bit");
            want(&whole, out.lib.place == base + found->place, "another place");
            want(&whole, memcmp(out.frame, found->frame, FRAME_OCTETS) == 0, "another frame");
            due.from = (uint32_t)(base + found->place + FRAME_BITS);
            next++;
        } else {
            want(&whole, out.lib.given == 0 && out.lib.place == 0, "given where none ends");
            want(&whole, out.frame_kept, "the frame room written where none ends");
        }
        heard += bits;
        due.heard = (uint32_t)(base + heard);
        want_room(&out, due, all + heard);
        state = out.lib.state;
        memcpy(line, out.line, LINE_OCTETS);
    }
    want(&whole, next == given->count, "fewer given than there are");
    settle(whole, &streams, "end %u, %zu bits behind %u, in %s (%zu), %zu frames, the first at %zu", s->end, s->len, base, cut_names[cut],
           steady, given->count, given->count > 0 ? given->found[0].place : 0);
}

static void hear_in(const struct stream *s, const uint8_t *before, enum cut cut)
{
    static struct given given;
    search(s, &given);
    hear(s, &given, before, cut, 0);
}

/* In the four ways that take the fewest calls. */
static void hear_in_four(const struct stream *s, const uint8_t *before)
{
    static struct given given;
    search(s, &given);
    hear(s, &given, before, LARGEST, 0);
    hear(s, &given, before, ODD, 0);
    hear(s, &given, before, AT_ENDS, 0);
    hear(s, &given, before, REFUSALS, 0);
}

/* In every way but by the bit and by eights. */
static void hear_in_five(const struct stream *s, const uint8_t *before)
{
    hear_in_four(s, before);
    hear_in(s, before, STEADY);
}

static struct stream one;
static struct stream other;

/* Short streams by the bit, by eights and in every other way. */
static void short_streams(void)
{
    uint8_t before[LINE_OCTETS];
    for (size_t i = 0; i < 1 + scaled(1); i++) {
        random_octets(before, sizeof before);
        make_line(&one, (uint32_t)(i % 2), FRAME_BITS);
        if (i == 0) { /* always: in mid-frame, then one of the other kind, and two whose sync words share bits */
            one.len = 0;
            add_noise(&one, 60);
            add_frame(&one, 0, 2);
            drop(&one, 3000);
            add_made(&one, 1);
            add_two(&one, 7, 0, 1);
        }
        hear_in(&one, before, SINGLE);
        hear_in(&one, before, EIGHT);
        hear_in_five(&one, before);
    }
    for (size_t i = 0; i < scaled(3); i++) {
        random_octets(before, sizeof before);
        make_line(&one, (uint32_t)(i % 2), FRAME_BITS + (size_t)below(2 * FRAME_BITS));
        hear_in(&one, before, EIGHT);
        hear_in_five(&one, before);
    }
}

/* Long ones in every way but by the bit and by eights. */
static void long_streams(void)
{
    uint8_t before[LINE_OCTETS];
    for (size_t i = 0; i < 4 + scaled(26); i++) {
        random_octets(before, sizeof before);
        if (i % 8 == 0) {
            memset(before, i % 16 == 0 ? 0 : 255, sizeof before);
        }
        make_line(&one, (uint32_t)(i % 2), 4 * FRAME_BITS + (size_t)below(6 * FRAME_BITS));
        hear_in_five(&one, before);
    }
}

/* Frames of both kinds back to back, and the same with one of them damaged at each of a few places. */
static void back_to_back(void)
{
    uint8_t before[LINE_OCTETS];
    random_octets(before, sizeof before);
    for (uint32_t end = 0; end < 2; end++) {
        size_t first[3];
        one.end = end;
        one.len = 0;
        add_noise(&one, STATE_BITS);
        for (size_t i = 0; i < ITEMS(first); i++) {
            first[i] = add_frame(&one, i % 2, 0);
        }
        hear_in_five(&one, before);
        /* Each of the 23 bits before the second, its sync bits, one behind them, and its last 17. */
        for (size_t i = 0; i < STATE_BITS + FRAME_BITS; i += i == 37 ? FRAME_BITS + STATE_BITS - 17 - 37 : 1) {
            size_t place = first[1] - STATE_BITS + i;
            one.bit[place] ^= 1;
            hear_in_four(&one, before);
            one.bit[place] ^= 1;
        }
    }
}

/* Two good frames, so many bits apart, and one behind them. Where the two overlap only the first is given. */
static void two_frames(void)
{
    uint8_t before[LINE_OCTETS];
    random_octets(before, sizeof before);
    for (uint32_t end = 0; end < 2; end++) {
        for (size_t d = 0; d < ITEMS(distances); d++) {
            for (size_t kinds = 0; kinds < 4; kinds++) {
                if (distances[d] >= SYNC_BITS && (kinds == 0 || kinds == 3) == (d % 2 == 0)) {
                    continue; /* two of the four are enough */
                }
                one.end = end;
                one.len = 0;
                add_noise(&one, 40);
                if (add_two(&one, distances[d], kinds / 2, kinds % 2)) {
                    add_made(&one, (uint32_t)below(2));
                    hear_in_four(&one, before);
                }
            }
        }
    }
}

/* Many good frames in one another. */
static void overlapping(void)
{
    uint8_t before[LINE_OCTETS];
    random_octets(before, sizeof before);
    for (size_t i = 0; i < 8; i++) {
        one.end = (uint32_t)(i % 2);
        one.len = 0;
        add_noise(&one, 25);
        add_overlapping(&one, 2 + i / 2, i % 4 > 1);
        add_overlapping(&one, 3, false);
        add_made(&one, SDSL_FINAL);
        hear_in_five(&one, before);
    }
}

/*
 * A stream that is first heard so many bits before a frame, or in it, where the line room already holds what came before on the line.
 * That is never looked at: a frame is given only from place 23 on. And the same with any other bits in the room.
 */
static void first_bits(void)
{
    uint8_t before[LINE_OCTETS];
    for (uint32_t end = 0; end < 2; end++) {
        other.end = one.end = end;
        other.len = 0;
        add_noise(&other, LINE_BITS + 100);
        size_t place = add_frame(&other, end, 0);
        size_t second = add_frame(&other, 1 - end, 0);
        add_noise(&other, 20);
        /* From 30 bits before the first one to its third bit; and its last five. The second is there, or not, or not quite. */
        for (size_t start = place - 30; start <= second; start += start == place + 3 ? FRAME_BITS - 8 : 1) {
            size_t stop = start % 3 == 0 ? second + FRAME_BITS : start % 3 == 1 ? second : second + FRAME_BITS - 1;
            one.len = stop - start;
            memcpy(one.bit, other.bit + start, one.len);
            put_octets(other.bit + start - LINE_BITS, LINE_BITS, before);
            hear_in_four(&one, before);
            random_octets(before, sizeof before);
            hear_in(&one, before, LARGEST);
        }
    }
}

/* Sync words all over, and lines of one value with a frame in them. */
static void odd_lines(void)
{
    uint8_t before[LINE_OCTETS];
    random_octets(before, sizeof before);
    for (uint32_t end = 0; end < 2; end++) {
        one.end = end;
        for (size_t kind = 0; kind < 3; kind++) { /* the third time both in turn */
            one.len = 0;
            add_noise(&one, 40);
            for (size_t i = 0; i < 400; i++) {
                add_zeros(&one, SYNC_BITS);
                put_sync(&one, one.len - SYNC_BITS, kind < 2 ? kind : i % 2);
            }
            seal_last(&one, 40 + SYNC_BITS * (30 + (size_t)below(40)));
            hear_in_four(&one, before);
        }
        for (uint8_t value = 0; value < 2; value++) {
            one.len = 3 * FRAME_BITS;
            memset(one.bit, value, one.len);
            for (size_t kind = 0; kind < 2; kind++) {
                size_t place = 30 + kind * (FRAME_BITS + 3);
                put_sync(&one, place, kind);
                seal_last(&one, place);
            }
            hear_in_five(&one, before);
        }
    }
}

/* A stream that ends with the last bit that can be heard, and one that comes to the bit before. Then only empty lumps are taken. */
static void last_streams(void)
{
    static struct given given;
    uint8_t before[LINE_OCTETS];
    const uint8_t lump[1] = {255};
    for (size_t i = 0; i < 4; i++) {
        random_octets(before, sizeof before);
        make_line(&one, (uint32_t)(i % 2), 2 * FRAME_BITS);
        add_frame(&one, i / 2, 0);
        search(&one, &given);
        uint32_t base = (uint32_t)(MOST_HEARD - one.len - i / 2);
        for (enum cut cut = LARGEST; cut < CUTS; cut++) {
            hear(&one, &given, before, cut, base);
        }
        for (size_t bits = 0; bits < 4; bits++) {
            struct call call = {{one.end, (uint32_t)(base + one.len), base}, before, LINE_OCTETS, lump, sizeof lump, bits, FRAME_OCTETS};
            struct outcome out = try_receive(&call);
            want_due(&out, bits <= i / 2 ? 0 : 4, "at the last bit, and more bits:", bits);
        }
    }
}

/* ---- Made-up states ---- */

/* A line room and a lump in one, and which bits of the lump end a frame. */
struct made {
    struct stream b;
    size_t bits;
    size_t count;
    size_t k[4];
};

static struct made made;

/* Chance bits in which just these bits of the lump end a frame, in rising order. */
static void make_up(uint32_t end, size_t bits, size_t count, const size_t *k)
{
    uint8_t frame[FRAME_OCTETS];
    bool more = true;
    while (more) {
        made.b.end = end;
        made.b.len = 0;
        made.bits = bits;
        made.count = count;
        add_noise(&made.b, LINE_BITS + bits);
        for (size_t i = 0; i < count; i++) {
            made.k[i] = k[i];
            put_sync(&made.b, k[i] + 30, (size_t)below(2));
        }
        for (size_t i = 0; i < count; i++) {
            seal_last(&made.b, k[i] + 30);
        }
        size_t lying = 0;
        for (size_t i = 0; i < bits; i++) {
            lying += lies_at(end, made.b.bit, made.b.len, i + 30, frame);
        }
        more = lying != count; /* a frame by chance: once in many million calls */
    }
}

/* One call with these bits and this state, and what the header's words say of it, over whole numbers. */
static void try_made(int64_t heard, int64_t from)
{
    if (heard < 0 || heard + (int64_t)made.bits > MOST_HEARD || from < 0 || from > MOST_HEARD) {
        return;
    }
    uint8_t line[ROOM];
    uint8_t lump[ROOM];
    uint8_t frame[FRAME_OCTETS];
    put_octets(made.b.bit, LINE_BITS, line);
    size_t lump_len = make_lump(made.b.bit + LINE_BITS, made.bits, lump);
    struct sdsl_receiver state = {made.b.end, (uint32_t)heard, (uint32_t)from};
    struct call call = {state, line, LINE_OCTETS, lump, lump_len, made.bits, FRAME_OCTETS};
    struct outcome out = try_receive(&call);
    struct sdsl_receiver due = {made.b.end, (uint32_t)(heard + (int64_t)made.bits), (uint32_t)from};
    int64_t place = 0;
    for (size_t i = 0; i < made.count && place == 0; i++) {
        int64_t lies = heard + (int64_t)made.k[i] - (FRAME_BITS - 1);
        if (lies >= STATE_BITS && lies >= from) {
            place = lies;
            due.from = (uint32_t)(lies + FRAME_BITS);
            lies_at(made.b.end, made.b.bit, made.b.len, made.k[i] + 30, frame);
        }
    }
    put_octets(made.b.bit + made.bits, LINE_BITS, line);
    struct comparison comparison = {NULL};
    want(&comparison, out.lib.answer == SDSL_DONE, "refused");
    want(&comparison, out.lib.given == (place > 0) && out.lib.place == place, "another place");
    want(&comparison, place == 0 || memcmp(out.frame, frame, sizeof frame) == 0, "another frame");
    want(&comparison, same_state(out.lib.state, due), "another state");
    want(&comparison, memcmp(out.line, line, LINE_OCTETS) == 0, "another line room");
    settle(comparison, &made_ups, "end %u heard %lld from %lld, %zu bits, %zu frames, the first ends with bit %zu: %u at %u, and %lld was "
           "due", made.b.end, (long long)heard, (long long)from, made.bits, made.count, made.k[0], out.lib.given, out.lib.place,
           (long long)place);
}

/* Every place that matters for the first frame of what was made up, with every place to go on from. */
static void every_state(void)
{
    static const int64_t places[] = {-4226, -4225, -4204, -2000, -24,  -23,  -1,    0,          1,          21,        22,
                                     23,    24,    46,    4226,  4227, 4250, 65536, 2147483647, 2147483648, 4294963068};
    int64_t k = (int64_t)made.k[0];
    for (size_t p = 0; p < ITEMS(places); p++) {
        int64_t place = places[p];
        int64_t heard = place + FRAME_BITS - 1 - k;
        const int64_t froms[] = {0, 1, 22, 23, 24, place - 1, place, place + 1, place + 23, place + FRAME_BITS, heard, heard + k,
                                 heard + (int64_t)made.bits, 2147483647, 2147483648, MOST_HEARD};
        for (size_t f = 0; f < ITEMS(froms); f++) {
            try_made(heard, froms[f]);
        }
    }
    /* The least and the most that can have been heard. */
    for (int64_t heard = 0; heard < 3; heard++) {
        try_made(heard, 0);
        try_made(MOST_HEARD - (int64_t)made.bits - heard, 0);
        try_made(MOST_HEARD - (int64_t)made.bits - heard, MOST_HEARD - FRAME_BITS);
        try_made(MOST_HEARD - (int64_t)made.bits - heard, MOST_HEARD);
    }
}

static void made_up_states(void)
{
    static const struct {
        size_t bits;
        size_t count;
        size_t k[4];
    } cases[] = {
        {1, 1, {0}},          {2, 1, {1}},       {8, 1, {7}},         {9, 1, {0}},         {4096, 1, {0}},
        {4096, 1, {4095}},    {4095, 1, {2047}}, {4096, 2, {0, 16}},  {300, 2, {40, 299}}, {4096, 3, {100, 2000, 4095}},
        {4090, 4, {5, 40, 1000, 4089}},
    };
    for (size_t i = 0; i < ITEMS(cases); i++) {
        make_up((uint32_t)(i % 2), cases[i].bits, cases[i].count, cases[i].k);
        every_state();
        /* Each of the frames in turn is the first that may be given. */
        for (size_t f = 0; f < made.count; f++) {
            for (int64_t heard = 5000; heard < 20000; heard += 4999) {
                int64_t place = heard + (int64_t)made.k[f] - (FRAME_BITS - 1);
                try_made(heard, place - 1);
                try_made(heard, place);
                try_made(heard, place + 1);
            }
        }
    }
    for (size_t i = 0; i < scaled(100); i++) {
        size_t bits = 40 + (size_t)below(LUMP_BITS - 39);
        size_t k[2] = {(size_t)below(bits - 20), 0};
        k[1] = least(k[0] + 16 + (size_t)below(bits), bits - 1);
        make_up((uint32_t)below(2), bits, k[1] - k[0] < 16 ? 1 : 2, k);
        for (size_t turn = 0; turn < 8; turn++) {
            int64_t heard = turn % 2 == 0 ? (int64_t)below(20000) : (int64_t)random32();
            int64_t near = heard + (int64_t)k[0] - (FRAME_BITS - 1) + between(-2, 2);
            try_made(heard, turn % 3 == 0 ? (int64_t)random32() : turn % 3 == 1 ? near : 0);
        }
    }
}

/* A frame's last bits, with each number of bits before the lump and each state that such a frame can have. */
static void last_bits(void)
{
    for (uint32_t end = 0; end < 2; end++) {
        for (size_t bits = 1; bits <= 40; bits++) {
            size_t k[1] = {(size_t)below(bits)};
            make_up(end, bits, 1, k);
            int64_t heard = 4249 - (int64_t)k[0];
            for (int64_t more = -2; more <= 2; more++) {
                try_made(heard + more, 0);
                try_made(heard + more, 23 + more);
                try_made(heard + more, 24 + more);
            }
        }
    }
}

/* ---- Refusals ---- */

static uint8_t some_line[ROOM];
static uint8_t some_lump[5000];

/* A line room and a lump whose first bits end a frame; the rest is chance. */
static void make_some(uint32_t end)
{
    size_t k[2] = {0, 100};
    make_up(end, LUMP_BITS, 2, k);
    random_octets(some_line, sizeof some_line);
    random_octets(some_lump, sizeof some_lump);
    put_octets(made.b.bit, LINE_BITS, some_line);
    put_octets(made.b.bit + LINE_BITS, LUMP_BITS, some_lump);
}

static struct call some_call(uint32_t end, uint32_t heard, size_t lump_len, size_t bits)
{
    struct call call = {{end, heard, 0}, some_line, LINE_OCTETS, some_lump, lump_len, bits, FRAME_OCTETS};
    return call;
}

static void try_call(const struct call *call, uint32_t due, const char *what, size_t number)
{
    struct outcome out = try_receive(call);
    want_due(&out, due, what, number);
}

/* Every end, at the start and in a state. A start that was refused gives a state that is refused. */
static void every_end(void)
{
    for (size_t e = 0; e < ITEMS(ends) + scaled(200); e++) {
        uint32_t end = e < ITEMS(ends) ? ends[e] : random32();
        struct sdsl_received start = try_start(end);
        struct call call = some_call(0, 0, 20, 160);
        call.state = start.state;
        try_call(&call, end <= 1 ? 0 : 2, "end", end);
        call.state.heard = 5000;
        try_call(&call, end <= 1 ? 0 : 2, "end", end);
    }
}

/* Every length of lump up to twelve with every count up to one octet too many; and around the largest. */
static void counts(void)
{
    for (size_t len = 0; len <= 12; len++) {
        for (size_t bits = 0; bits <= 8 * len + 9; bits++) {
            for (uint32_t end = 0; end < 3; end++) {
                struct call call = some_call(end, 5000, len, bits);
                try_call(&call, bits > 8 * len ? 1 : end == 2 ? 2 : 0, "count", bits);
            }
        }
    }
    for (size_t len = 510; len <= 514; len++) {
        for (size_t bits = 4078; bits <= 4114; bits++) {
            struct call call = some_call((uint32_t)(bits % 2), 5000, len, bits);
            try_call(&call, bits > 8 * len ? 1 : bits > LUMP_BITS ? 4 : 0, "count", bits);
        }
    }
    /* A large lump, of which only the first bits are taken, or none. */
    for (size_t bits = 0; bits <= LUMP_BITS + 3; bits += bits == 20 ? LUMP_BITS - 30 : 1) {
        struct call call = some_call((uint32_t)(bits % 2), 5000, sizeof some_lump, bits);
        try_call(&call, bits > LUMP_BITS ? 4 : 0, "count", bits);
    }
}

/* Every length of the line room and of the frame room up to 600. */
static void lengths(void)
{
    for (size_t len = 0; len <= 600; len++) {
        struct call call = some_call((uint32_t)(len % 2), 5000, 3, len % 25);
        call.line_len = len;
        try_call(&call, len == LINE_OCTETS ? 0 : 1, "line room of", len);
        call.line_len = LINE_OCTETS;
        call.frame_len = len;
        try_call(&call, len == FRAME_OCTETS ? 0 : 1, "frame room of", len);
    }
}

/* What all bits so far may come to. */
static void totals(void)
{
    static const size_t sizes[] = {0, 1, 2, 7, 8, 9, 100, 255, 256, 257, 4095, 4096};
    for (size_t i = 0; i < ITEMS(sizes); i++) {
        for (int64_t over = -4; over <= 4; over++) {
            int64_t heard = MOST_HEARD - (int64_t)sizes[i] + over;
            if (heard > MOST_HEARD) {
                continue;
            }
            for (uint32_t end = 0; end < 2; end++) {
                struct call call = some_call(end, (uint32_t)heard, LUMP_OCTETS, sizes[i]);
                call.state.from = over % 2 == 0 ? 0 : random32();
                try_call(&call, over > 0 ? 4 : 0, "a total at the edge, bits", sizes[i]);
            }
        }
    }
    for (size_t i = 0; i < scaled(300); i++) {
        size_t bits = (size_t)below(LUMP_BITS + 1);
        uint32_t heard = (uint32_t)(MOST_HEARD - below(2 * LUMP_BITS));
        struct call call = some_call((uint32_t)below(2), heard, LUMP_OCTETS, bits);
        try_call(&call, (uint64_t)heard + bits > MOST_HEARD ? 4 : 0, "a total near the most,", bits);
    }
}

/*
 * Lengths and counts up to the top of size_t. The memory is not there, so only calls that are refused; `lump_len`, `line_len` and
 * `frame_len` are what is said, and more than enough is lent.
 */
static void try_huge(struct sdsl_receiver state, size_t line_len, size_t lump_len, size_t bits, size_t frame_len, uint32_t due)
{
    struct pair line = lend(some_line, sizeof some_line);
    struct pair lump = lend(some_lump, ROOM);
    struct pair frame = lend_junk(ROOM);
    struct sdsl_received lib = sdsl_receive(state, line.lib, line_len, lump.lib, lump_len, bits, frame.lib, frame_len);
    struct sdsl_received ref = ref_receive(state, line.ref, line_len, lump.ref, lump_len, bits, frame.ref, frame_len);
    struct comparison comparison = {NULL};
    compare(&comparison, lib, ref, state);
    want(&comparison, lib.answer == due, "another answer than due");
    want_kept(&comparison, &line, "a refused call wrote the line room");
    want_kept(&comparison, &lump, "the lump changed");
    want_kept(&comparison, &frame, "a refused call wrote the frame room");
    settle(comparison, &receives, "end %u, lengths %zu %zu %zu, %zu bits: library %u, reference %u, and %u was due", state.end, line_len,
           lump_len, frame_len, bits, lib.answer, ref.answer, due);
    give_back(&line);
    give_back(&lump);
    give_back(&frame);
}

static void huge_lengths(void)
{
    const struct sdsl_receiver good = {SDSL_NTU, 5000, 0};
    const struct sdsl_receiver unknown = {2, 5000, 0};
    const struct sdsl_receiver full = {SDSL_LTU, (uint32_t)MOST_HEARD, 0};
    for (size_t power = 10; power < 8 * sizeof(size_t); power++) {
        const size_t powers[] = {(size_t)1 << power, 0 - ((size_t)1 << power)};
        for (size_t p = 0; p < ITEMS(powers); p++) {
            try_huge(good, powers[p] + LINE_OCTETS, 10, 80, FRAME_OCTETS, 1);
            try_huge(good, LINE_OCTETS, 10, 80, powers[p] + FRAME_OCTETS, 1);
            try_huge(good, powers[p] + LINE_OCTETS, powers[p] + 10, 80, powers[p] + FRAME_OCTETS, 1);
            /* So many octets that eight times as many is not in size_t: a count that is over them in size_t is not over them. */
            for (size_t len = 0; len < 3; len++) {
                for (size_t bits = 0; bits <= 40; bits += 20) {
                    try_huge(unknown, LINE_OCTETS, powers[p] + len, bits, FRAME_OCTETS, 2);
                    try_huge(full, LINE_OCTETS, powers[p] + len, bits + 1, FRAME_OCTETS, 4);
                }
                for (size_t bits = 4097; bits < 4110; bits += 4) {
                    try_huge(good, LINE_OCTETS, powers[p] + len, bits, FRAME_OCTETS, 4);
                }
            }
            /* Counts with low bits that would be taken, over the lump and not over it. */
            for (size_t bits = 0; bits <= 16; bits += bits < 8 ? 1 : 4) {
                size_t many = powers[p] + bits;
                size_t enough = many / 8 + 1;
                try_huge(good, LINE_OCTETS, 2, many, FRAME_OCTETS, 1);
                try_huge(unknown, LINE_OCTETS, many / 8 - (many % 8 == 0), many, FRAME_OCTETS, 1);
                try_huge(unknown, LINE_OCTETS, enough, many, FRAME_OCTETS, 2);
                if (many > LUMP_BITS) {
                    try_huge(good, LINE_OCTETS, enough, many, FRAME_OCTETS, 4);
                    try_huge(good, LINE_OCTETS, SIZE_MAX, many, FRAME_OCTETS, 4);
                }
            }
        }
    }
    for (size_t back = 0; back < 20; back++) {
        for (size_t len = 0; len < 3; len++) {
            try_huge(good, LINE_OCTETS, len, SIZE_MAX - back, FRAME_OCTETS, 1);
        }
        try_huge(good, LINE_OCTETS, SIZE_MAX / 8, SIZE_MAX - back, FRAME_OCTETS, back < 7 ? 1 : 4);
        try_huge(good, LINE_OCTETS, SIZE_MAX / 8 + 1, SIZE_MAX - back, FRAME_OCTETS, 4);
    }
}

/* Every set of faults at once: the count, both rooms, the end, too many bits, too many in all. */
static void all_faults(void)
{
    enum { COUNT = 1, LINE = 2, FRAME = 4, END = 8, MANY = 16, TOTAL = 32, SETS = 64 };
    for (unsigned set = 0; set < SETS; set++) {
        for (unsigned turn = 0; turn < 12; turn++) {
            size_t bits = set & MANY ? LUMP_BITS + 1 + (turn % 3 == 0 ? 0 : (size_t)below(200)) : 1 + (size_t)below(LUMP_BITS);
            size_t needed = (bits + 7) / 8;
            struct call call = some_call((uint32_t)(turn % 2), 5000, needed, bits);
            if (set & COUNT) {
                call.lump_len = turn % 2 == 0 ? needed - 1 : (size_t)below(needed);
            }
            if (set & LINE) {
                call.line_len = turn % 3 == 0 ? 0 : turn % 3 == 1 ? LINE_OCTETS - 1 : LINE_OCTETS + 1;
            }
            if (set & FRAME) {
                call.frame_len = turn % 4 == 0 ? 0 : turn % 4 == 1 ? FRAME_OCTETS - 1 : turn % 4 == 2 ? FRAME_OCTETS + 1 : LINE_OCTETS;
            }
            if (set & END) {
                call.state.end = ends[2 + (set / 16 + turn) % (ITEMS(ends) - 2)];
            }
            if (set & TOTAL) {
                call.state.heard = (uint32_t)(MOST_HEARD - (turn % 3 == 0 ? bits - 1 : below(bits)));
            }
            call.state.from = turn % 5 == 0 ? random32() : 0;
            uint32_t due = set & (COUNT | LINE | FRAME) ? 1 : set & END ? 2 : set & (MANY | TOTAL) ? 4 : 0;
            try_call(&call, due, "faults in set", set);
        }
    }
}

/* ---- Examples with literal results, on either side ---- */

static void example(bool good, const char *what, const struct side *side)
{
    struct comparison comparison = {good ? NULL : "not as it should be"};
    settle(comparison, &examples, "%s by the %s", what, side->name);
}

/* Hears the stream `one` in lumps of so many bits, with an empty one behind each. */
static struct sdsl_received hear_by(const struct side *side, size_t size, struct given *given)
{
    uint8_t line[LINE_OCTETS];
    uint8_t lump[LUMP_OCTETS];
    uint8_t frame[FRAME_OCTETS];
    memset(line, 255, sizeof line);
    struct sdsl_received got = side->start(one.end);
    given->count = 0;
    for (size_t at = 0; at < one.len; at += size) {
        size_t bits = least(size, one.len - at);
        memset(frame, 255, sizeof frame);
        put_octets(one.bit + at, bits, lump);
        got = side->receive(got.state, line, sizeof line, lump, (bits + 7) / 8, bits, frame, sizeof frame);
        if (got.given == 1 && given->count < FOUND_MAX) {
            given->found[given->count].place = got.place;
            memcpy(given->found[given->count].frame, frame, sizeof frame);
            given->count++;
        }
        got = side->receive(got.state, line, sizeof line, NULL, 0, 0, frame, sizeof frame);
    }
    return got;
}

/* Whether these are the places that were given, and all frames zeros behind the sync words of these kinds. */
static bool are_zeros(const struct given *given, size_t count, const size_t *places, const size_t *kinds)
{
    static const uint8_t first[2][2] = {{0x9F, 0x35}, {0x6B, 0x3E}};
    static const uint8_t zeros[FRAME_OCTETS];
    bool good = given->count == count;
    for (size_t i = 0; i < count && good; i++) {
        const struct found *found = &given->found[i];
        good = found->place == places[i] && memcmp(found->frame, first[kinds[i]], 2) == 0 &&
               memcmp(found->frame + 2, zeros, FRAME_OCTETS - 2) == 0;
    }
    return good;
}

/* Behind zeros a frame of zeros is sent as zeros, by either end. */
static void zero_lines(const struct side *side, uint32_t end, size_t size)
{
    static struct given given;
    static const size_t kinds[] = {0, 1, 0};
    static const size_t later[] = {1, 0};
    static const size_t places[] = {23, 4250, 8477};
    one.end = end;
    one.len = 0;
    add_zeros(&one, 23 + 3 * FRAME_BITS);
    for (size_t i = 0; i < 3; i++) {
        put_sync(&one, places[i], kinds[i]);
    }
    struct sdsl_received got = hear_by(side, size, &given);
    example(are_zeros(&given, 3, places, kinds), "three frames of zeros", side);
    example(got.answer == 0 && got.given == 0 && got.place == 0 && got.state.end == end && got.state.heard == 12704 &&
                got.state.from == 12704, "the state behind them", side);
    one.bit[4250 + 2000] = 1;
    got = hear_by(side, size, &given);
    example(are_zeros(&given, 2, (const size_t[]){23, 8477}, (const size_t[]){0, 0}), "the second with a wrong bit", side);
    one.bit[4250 + 2000] = 0;
    drop(&one, 1);
    got = hear_by(side, size, &given);
    example(are_zeros(&given, 2, (const size_t[]){4249, 8476}, later), "22 bits before the first", side);
    one.len -= 1;
    got = hear_by(side, size, &given);
    example(are_zeros(&given, 1, (const size_t[]){4249}, later), "one bit of the last is missing", side);
    example(got.state.heard == 12702 && got.state.from == 8476, "the state one bit before its end", side);

    /* A sync word that is no frame, since another stands in what would be its payload: that one is a frame. */
    one.len = 0;
    add_zeros(&one, 123 + FRAME_BITS);
    put_sync(&one, 23, 0);
    put_sync(&one, 123, 1);
    got = hear_by(side, size, &given);
    example(are_zeros(&given, 1, (const size_t[]){123}, later), "a frame inside what is none", side);
    example(got.state.from == 123 + FRAME_BITS, "the place behind it", side);
}

/* Message bits all zero but 4211, example 4 of the paper: the frame has bits 4215, 4222 and 4227 too. As each end sends it. */
static void example_four(const struct side *side)
{
    static const size_t sent[2][9] = {
        {4211, 4215, 4216, 4220, 4221, 4222, 4225, 4226, 0}, /* each one comes again five bits later, unless two meet */
        {4211, 4215, 4222, 4227, 0, 0, 0, 0, 0},             /* eighteen bits later there are no more */
    };
    static const size_t due[] = {1, 2, 3, 4, 5, 8, 9, 11, 13, 14, 4211, 4215, 4222, 4227};
    static struct given given;
    for (uint32_t end = 0; end < 2; end++) {
        uint8_t frame[FRAME_OCTETS] = {0};
        for (size_t i = 0; i < ITEMS(due); i++) {
            flip_bit(frame, due[i]);
        }
        one.end = end;
        one.len = 0;
        add_zeros(&one, 40 + FRAME_BITS);
        put_sync(&one, 40, 0);
        for (size_t i = 0; sent[end][i] != 0; i++) {
            one.bit[40 + sent[end][i] - 1] = 1;
        }
        hear_by(side, 777, &given);
        example(given.count == 1 && given.found[0].place == 40 && memcmp(given.found[0].frame, frame, sizeof frame) == 0,
                "example 4 of the paper", side);
        one.end = 1 - end;
        hear_by(side, 777, &given);
        example(given.count == 0, "example 4 heard as the other end's", side);
    }
}

/* The header's own, and an end that there is not. */
static void header_example(const struct side *side)
{
    uint8_t frame[FRAME_OCTETS] = {0x6B, 0x3E};
    uint8_t sent[FRAME_OCTETS];
    uint8_t line[LINE_OCTETS] = {0};
    uint8_t heard[FRAME_OCTETS] = {0};
    const uint8_t before[3] = {0, 0, 0x40};
    const uint8_t unused[720] = {0};
    const uint8_t vendor[16] = {0};
    example(side->send(SDSL_LTU, 1, SDSL_FINAL, 0, unused, sizeof unused, 0, 0, vendor, sizeof vendor, sent, sizeof sent).answer == 0,
            "a final frame is sent", side);
    struct sdsl_received got = side->start(SDSL_LTU);
    example(got.answer == 0 && got.given == 0 && got.place == 0 && got.state.end == 0 && got.state.heard == 0 && got.state.from == 0,
            "a start", side);
    got = side->receive(got.state, line, sizeof line, before, sizeof before, 23, heard, sizeof heard);
    example(got.answer == 0 && got.given == 0 && got.state.heard == 23 && line[531] == 0x80 && line[528] == 0, "23 bits", side);
    got = side->receive(got.state, line, sizeof line, sent, sizeof sent, 4096, heard, sizeof heard);
    example(got.answer == 0 && got.given == 0 && got.place == 0 && heard[0] == 0, "4,096 bits", side);
    got = side->receive(got.state, line, sizeof line, sent + 512, sizeof sent - 512, 131, heard, sizeof heard);
    example(got.answer == 0 && got.given == 1 && got.place == 23 && memcmp(heard, frame, sizeof frame) == 0, "the last 131 bits", side);
    example(got.state.heard == 4250 && got.state.from == 4250, "the state behind it", side);

    got = side->start(2);
    example(got.answer == SDSL_UNKNOWN && got.state.end == 2 && got.state.heard == 0 && got.state.from == 0, "an unknown end", side);
    got = side->receive(got.state, line, sizeof line, before, sizeof before, 23, heard, sizeof heard);
    example(got.answer == SDSL_UNKNOWN && got.state.end == 2 && got.state.heard == 0 && got.given == 0, "a call with it", side);
}

/* A frame of any fields, sent by a side from a state, behind the bits of the stream. `plain` is the frame before it is scrambled. */
static uint32_t add_sent(const struct side *sender, uint32_t state, uint8_t *plain)
{
    uint8_t coefficients[720];
    uint8_t vendor[16];
    uint8_t line[FRAME_OCTETS] = {0};
    for (size_t i = 0; i < 180; i++) {
        set_number(coefficients, i, between(-2097152, 2097151));
    }
    random_octets(vendor, sizeof vendor);
    uint32_t kind = (uint32_t)below(2);
    uint32_t count = (uint32_t)between(128, 180);
    uint32_t a = (uint32_t)below(2097152);
    uint32_t b = (uint32_t)below(2097152);
    ref_make_frame(kind, count, coefficients, a, b, vendor, plain);
    struct sdsl_scrambled sent = sender->send(one.end, state, kind, count, coefficients, sizeof coefficients, a, b, vendor, sizeof vendor,
                                              line, sizeof line);
    for (size_t n = 1; n <= FRAME_BITS; n++) {
        one.bit[one.len] = get_bit(line, n);
        one.len++;
    }
    return sent.state;
}

/*
 * What was sent is there: frames that one side sends one after the other with the state handed on, the first from the 23 bits before it,
 * are given by one side in their order, as they were before they were scrambled. The library is one of the two, or both.
 */
static void sent_streams(void)
{
    static struct given given;
    static const size_t sizes[] = {97, 1000, 4096};
    for (size_t i = 0; i < 9 + scaled(90); i++) {
        uint8_t plain[4][FRAME_OCTETS];
        size_t count = 1 + (size_t)below(4);
        one.end = (uint32_t)below(2);
        one.len = 0;
        add_noise(&one, STATE_BITS + (size_t)below(100));
        size_t place = one.len;
        uint32_t state = 0;
        for (size_t k = place - STATE_BITS; k < place; k++) {
            state = 2 * state + one.bit[k];
        }
        for (size_t k = 0; k < count; k++) {
            state = add_sent(&sides[i % 3 == 2], state, plain[k]);
        }
        hear_by(&sides[i % 3 == 1], sizes[below(ITEMS(sizes))], &given);
        struct comparison comparison = {given.count == count ? NULL : "not as many given as were sent"};
        for (size_t k = 0; k < count && comparison.wrong == NULL; k++) {
            want(&comparison, given.found[k].place == place + k * FRAME_BITS, "another place");
            want(&comparison, memcmp(given.found[k].frame, plain[k], FRAME_OCTETS) == 0, "another frame");
        }
        settle(comparison, &sents, "end %u, %zu frames from %zu on, sent by the %s, received by the %s: %zu given", one.end, count, place,
               sides[i % 3 == 2].name, sides[i % 3 == 1].name, given.count);
    }
}

static void all_examples(const struct side *side)
{
    static const size_t sizes[] = {97, 1000, 4096};
    header_example(side);
    example_four(side);
    for (size_t i = 0; i < ITEMS(sizes); i++) {
        zero_lines(side, SDSL_LTU, sizes[i]);
        zero_lines(side, SDSL_NTU, sizes[i]);
    }
}

void second_receiver(void)
{
    for (size_t i = 0; i < ITEMS(sides); i++) {
        all_examples(&sides[i]);
    }
    short_streams();
    long_streams();
    back_to_back();
    two_frames();
    overlapping();
    first_bits();
    odd_lines();
    last_streams();
    made_up_states();
    last_bits();
    make_some(SDSL_LTU);
    every_end();
    counts();
    lengths();
    totals();
    huge_lengths();
    all_faults();
    sent_streams();
    const struct tally tallies[] = {starts, receives, streams, rooms, made_ups, dues, sents, examples};
    print_group("receiver", tallies, ITEMS(tallies));
}

#endif
