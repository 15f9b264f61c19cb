/* second_eoc.c: the group `eoc`: sdsl_eoc_write, sdsl_eoc_read and sdsl_eoc_hand_up. */
#include "harness.h"

#ifdef SECOND_EOC

#include "reference.h"

#include <string.h>

static struct tally writes = {"sdsl_eoc_write", 0, 0};
static struct tally reads = {"sdsl_eoc_read", 0, 0};
static struct tally hand_ups = {"sdsl_eoc_hand_up", 0, 0};
static struct tally forms = {"forms by the driver", 0, 0};
static struct tally dues = {"answers that are due", 0, 0};
static struct tally agains = {"read, then written", 0, 0};
static struct tally round_trips = {"write, read, write", 0, 0};
static struct tally records = {"records by the driver", 0, 0};
static struct tally agreements = {"handed up as read", 0, 0};
static struct tally examples = {"examples", 0, 0};

#define FLAG 0x7E
#define ESCAPE 0x7D
#define ROOM 156    /* octets of the room that writing wants */
#define CONTENTS 73 /* of the room that reading wants, and the most contents */
#define UNIT 79     /* of a unit's record */
#define PLAIN_MIN 4
#define PLAIN_MAX 77

/* The octets that matter to flags and escapes, and some beside them. */
static const uint8_t special[] = {0x7E, 0x7D, 0x5E, 0x5D, 0x7F, 0x7C, 0x5F, 0x20};

/* The library and the reference, for cases whose result is known from elsewhere. */
struct side {
    const char *name;
    struct sdsl_eoc_written (*write)(uint32_t source, uint32_t destination, uint32_t number, const uint8_t *contents,
                                     size_t contents_len, uint8_t *room, size_t room_len);
    struct sdsl_eoc_message (*read)(const uint8_t *octets, size_t octets_len, uint8_t *contents, size_t contents_len);
    struct sdsl_eoc_handed_up (*hand_up)(const uint8_t *octets, size_t octets_len, uint8_t *units, size_t units_len);
};

static const struct side sides[2] = {
    {"library", sdsl_eoc_write, sdsl_eoc_read, sdsl_eoc_hand_up},
    {"reference", ref_eoc_write, ref_eoc_read, ref_eoc_hand_up},
};

/* What eoc_write is given. */
struct input {
    uint32_t source;
    uint32_t destination;
    uint32_t number;
    const uint8_t *contents;
    size_t contents_len;
    size_t room_len;
};

/* What both sides answered. */
struct answers {
    uint32_t lib;
    uint32_t ref;
};

/* ---- The driver's own forms, by a register and by an exclusive-or with 20 ---- */

#define LIST_MAX 1024

/* Octets that are put together one after the other: a body (all before the check sequence), plain octets (with it), or a form. */
struct list {
    size_t len;
    uint8_t octets[LIST_MAX];
};

static void add(struct list *list, uint8_t octet)
{
    list->octets[list->len] = octet;
    list->len++;
}

static void add_all(struct list *list, const uint8_t *octets, size_t len)
{
    for (size_t i = 0; i < len; i++) {
        add(list, octets[i]);
    }
}

static void add_escaped(struct list *list, uint8_t octet)
{
    bool escape = octet == FLAG || octet == ESCAPE;
    if (escape) {
        add(list, ESCAPE);
    }
    add(list, (uint8_t)(escape ? octet ^ 0x20 : octet));
}

/* The other way, where all escapes are good. */
static void add_plain(struct list *list, const uint8_t *octets, size_t len)
{
    for (size_t i = 0; i < len; i++) {
        bool escape = octets[i] == ESCAPE && i + 1 < len;
        i += escape;
        add(list, (uint8_t)(escape ? octets[i] ^ 0x20 : octets[i]));
    }
}

/* The register of FCS-16 behind these octets, not yet complemented. */
static uint32_t fcs(uint32_t start, const uint8_t *octets, size_t len)
{
    uint32_t reg = start;
    for (size_t i = 0; i < len; i++) {
        reg ^= octets[i];
        for (unsigned bit = 0; bit < 8; bit++) {
            reg = (reg & 1) == 1 ? (reg >> 1) ^ 0x8408 : reg >> 1;
        }
    }
    return reg;
}

static uint32_t right_check(const struct list *body)
{
    return fcs(0xFFFF, body->octets, body->len) ^ 0xFFFF;
}

static void add_two(struct list *list, uint32_t two)
{
    add(list, (uint8_t)(two & 255));
    add(list, (uint8_t)(two >> 8));
}

/* Plain octets, escaped and between flags. */
static void frame(const struct list *plain, struct list *form)
{
    form->len = 0;
    add(form, FLAG);
    for (size_t i = 0; i < plain->len; i++) {
        add_escaped(form, plain->octets[i]);
    }
    add(form, FLAG);
}

/* A body with this check sequence, escaped and between flags. */
static void frame_with(const struct list *body, uint32_t two, struct list *form)
{
    struct list plain;
    plain.len = 0;
    add_all(&plain, body->octets, body->len);
    add_two(&plain, two);
    frame(&plain, form);
}

/* The form of a body. */
static void make_form(const struct list *body, struct list *form)
{
    frame_with(body, right_check(body), form);
}

static void make_body(struct list *body, uint32_t addresses, uint32_t number, const uint8_t *contents, size_t len)
{
    body->len = 0;
    add(body, (uint8_t)addresses);
    add(body, (uint8_t)number);
    add_all(body, contents, len);
}

static bool is_special(uint32_t octet)
{
    return memchr(special, (int)octet, ITEMS(special)) != NULL;
}

static uint8_t any_octet(void)
{
    return below(4) == 0 ? special[below(ITEMS(special))] : (uint8_t)below(256);
}

/* A body of so many octets. */
static void any_body(struct list *body, size_t len)
{
    body->len = 0;
    while (body->len < len) {
        add(body, any_octet());
    }
}

/* Mostly a short one, since those take less time. */
static size_t any_length(void)
{
    return (size_t)(below(4) == 0 ? between(2, 75) : between(2, 12));
}

static struct input input_of(const struct list *body)
{
    return (struct input){body->octets[0] / 16, body->octets[0] % 16, body->octets[1], body->octets + 2, body->len - 2, ROOM};
}

static void put_in(struct list *list, size_t place, uint8_t octet)
{
    memmove(list->octets + place + 1, list->octets + place, list->len - place);
    list->octets[place] = octet;
    list->len++;
}

static void take_out(struct list *list, size_t place)
{
    memmove(list->octets + place, list->octets + place + 1, list->len - place - 1);
    list->len--;
}

/* ---- One comparison each ---- */

static struct answers try_write(const struct input *in)
{
    struct pair contents = lend(in->contents, in->contents_len);
    struct pair room = lend_junk(in->room_len);
    struct sdsl_eoc_written lib =
        sdsl_eoc_write(in->source, in->destination, in->number, contents.lib, contents.len, room.lib, room.len);
    struct sdsl_eoc_written ref =
        ref_eoc_write(in->source, in->destination, in->number, contents.ref, contents.len, room.ref, room.len);
    struct comparison comparison = {NULL};
    want(&comparison, lib.answer == ref.answer, "answers differ");
    want(&comparison, lib.length == ref.length, "lengths differ");
    want(&comparison, lib.answer == SDSL_DONE || lib.length == 0, "a refused call gave a length");
    want_kept(&comparison, &contents, "the contents changed");
    want_written(&comparison, &room, lib.answer, "forms differ");
    settle(comparison, &writes, "from %u to %u number %u, %zu octets, room %zu: library %u length %u, reference %u length %u", in->source,
           in->destination, in->number, in->contents_len, in->room_len, lib.answer, lib.length, ref.answer, ref.length);
    give_back(&contents);
    give_back(&room);
    return (struct answers){lib.answer, ref.answer};
}

/* What the library has read it writes again in the same octets: a message has one form. */
static void try_again(const uint8_t *octets, size_t len, const struct sdsl_eoc_message *message, const uint8_t *contents)
{
    uint8_t room[ROOM];
    memset(room, FLAG, sizeof room);
    struct sdsl_eoc_written wrote =
        sdsl_eoc_write(message->source, message->destination, message->number, contents, message->length, room, sizeof room);
    struct comparison comparison = {NULL};
    want(&comparison, wrote.answer == SDSL_DONE, "refused");
    want(&comparison, wrote.length == len && len <= ROOM && memcmp(room, octets, len) == 0, "another form");
    settle(comparison, &agains, "from %u to %u number %u, %u octets, of a form of %zu: %u length %u", message->source,
           message->destination, message->number, message->length, len, wrote.answer, wrote.length);
}

static bool same_message(const struct sdsl_eoc_message *one, const struct sdsl_eoc_message *other)
{
    return one->source == other->source && one->destination == other->destination && one->number == other->number &&
           one->length == other->length;
}

/* `what` tells in a word or two what was done to the message, and `number` which one it was. */
static struct answers try_read(const uint8_t *message, size_t len, size_t room_len, const char *what, size_t number)
{
    static const struct sdsl_eoc_message none = {0, 0, 0, 0, 0};
    struct pair octets = lend(message, len);
    struct pair contents = lend_junk(room_len);
    struct sdsl_eoc_message lib = sdsl_eoc_read(octets.lib, octets.len, contents.lib, contents.len);
    struct sdsl_eoc_message ref = ref_eoc_read(octets.ref, octets.len, contents.ref, contents.len);
    struct comparison comparison = {NULL};
    want(&comparison, lib.answer == ref.answer, "answers differ");
    want(&comparison, same_message(&lib, &ref), "fields differ");
    want(&comparison, lib.answer == SDSL_DONE || same_message(&lib, &none), "numbers with a refusal");
    want_kept(&comparison, &octets, "the message changed");
    want_written(&comparison, &contents, lib.answer, "contents differ");
    settle(comparison, &reads, "%s %zu, lengths %zu %zu: library %u (%u %u %u %u), reference %u (%u %u %u %u)", what, number, len,
           room_len, lib.answer, lib.source, lib.destination, lib.number, lib.length, ref.answer, ref.source, ref.destination, ref.number,
           ref.length);
    if (lib.answer == SDSL_DONE && room_len == CONTENTS) {
        try_again(message, len, &lib, contents.lib);
    }
    give_back(&octets);
    give_back(&contents);
    return (struct answers){lib.answer, ref.answer};
}

static struct answers try_hand_up(const uint8_t *message, size_t len, const uint8_t *before, size_t units_len, const char *what,
                                  size_t number)
{
    struct pair octets = lend(message, len);
    struct pair units = lend(before, units_len);
    struct sdsl_eoc_handed_up lib = sdsl_eoc_hand_up(octets.lib, octets.len, units.lib, units.len);
    struct sdsl_eoc_handed_up ref = ref_eoc_hand_up(octets.ref, octets.len, units.ref, units.len);
    struct comparison comparison = {NULL};
    want(&comparison, lib.answer == ref.answer, "answers differ");
    want(&comparison, lib.units == ref.units, "counts differ");
    want(&comparison, lib.answer == SDSL_DONE || lib.units == 0, "units with a refusal");
    want_kept(&comparison, &octets, "the message changed");
    want_written(&comparison, &units, lib.answer, "records differ");
    settle(comparison, &hand_ups, "%s %zu, lengths %zu %zu: library %u units %zu, reference %u units %zu", what, number, len, units_len,
           lib.answer, lib.units, ref.answer, ref.units);
    give_back(&octets);
    give_back(&units);
    return (struct answers){lib.answer, ref.answer};
}

static void want_due(struct answers got, uint32_t due, const char *what, size_t number)
{
    struct comparison comparison = {got.lib == due && got.ref == due ? NULL : "another answer than due"};
    settle(comparison, &dues, "%s %zu: library %u, reference %u, and %u was due", what, number, got.lib, got.ref, due);
}

/* Records with chance contents, and with addresses that a unit can have. */
static void make_units(uint8_t *units, size_t count)
{
    random_octets(units, count * UNIT);
    for (size_t i = 0; i < count; i++) {
        units[i * UNIT] = (uint8_t)below(16);
    }
}

/* Reads a message, and hands it up to none or some units. */
static struct answers try_message(const uint8_t *octets, size_t len, const char *what, size_t number)
{
    uint8_t units[3 * UNIT];
    size_t count = (size_t)below(4);
    make_units(units, count);
    try_hand_up(octets, len, units, count * UNIT, what, number);
    return try_read(octets, len, CONTENTS, what, number);
}

static void try_list(const struct list *form, const char *what, size_t number)
{
    try_message(form->octets, form->len, what, number);
}

/* The same where the answer is known. */
static void try_due(const struct list *form, uint32_t due, const char *what, size_t number)
{
    want_due(try_message(form->octets, form->len, what, number), due, what, number);
}

/* What either side writes, against the driver's own form. */
static void try_form(const struct list *body)
{
    struct list form;
    make_form(body, &form);
    struct input in = input_of(body);
    for (size_t i = 0; i < ITEMS(sides); i++) {
        uint8_t room[ROOM];
        memset(room, ESCAPE, sizeof room);
        struct sdsl_eoc_written wrote =
            sides[i].write(in.source, in.destination, in.number, in.contents, in.contents_len, room, sizeof room);
        struct comparison comparison = {NULL};
        want(&comparison, wrote.answer == SDSL_DONE, "refused");
        want(&comparison, wrote.length == form.len && memcmp(room, form.octets, form.len) == 0, "another form");
        for (size_t k = form.len; k < ROOM; k++) {
            want(&comparison, room[k] == 0, "the room behind the form is not zero");
        }
        settle(comparison, &forms, "from %u to %u number %u, %zu octets, by the %s: %u length %u", in.source, in.destination, in.number,
               in.contents_len, sides[i].name, wrote.answer, wrote.length);
    }
}

/* Writes a body, by the reference and by the driver, and reads its form. */
static void try_body(const struct list *body, const char *what, size_t number)
{
    struct list form;
    struct input in = input_of(body);
    try_write(&in);
    try_form(body);
    make_form(body, &form);
    try_due(&form, SDSL_DONE, what, number);
}

/* ---- Fields ---- */

/* Every octet of addresses with every message number, and nothing else. */
static void every_empty(void)
{
    struct list body;
    struct list form;
    for (uint32_t addresses = 0; addresses < 256; addresses++) {
        for (uint32_t number = 0; number < 256; number++) {
            make_body(&body, addresses, number, NULL, 0);
            struct input in = input_of(&body);
            try_write(&in);
            make_form(&body, &form);
            try_read(form.octets, form.len, CONTENTS, "addresses and number", 256 * addresses + number);
            if (number % 16 == addresses / 16) {
                try_form(&body);
            }
        }
    }
}

/* Every value in every field, beside octets that have to be escaped and others; and nothing but that value. */
static void every_octet(void)
{
    struct list body;
    for (size_t value = 0; value < 256; value++) {
        for (size_t place = 0; place < 6; place++) {
            any_body(&body, 6);
            body.octets[place] = (uint8_t)value;
            try_body(&body, "an octet of", value);
        }
        size_t len = value % 2 == 0 ? 75 : any_length();
        any_body(&body, len);
        memset(body.octets, (int)value, len);
        try_body(&body, "all octets", value);
    }
}

/* Check sequences with every value in either octet, and all pairs of those values that are escaped or look like it. */
static void every_check(void)
{
    bool low_seen[256] = {false};
    bool high_seen[256] = {false};
    struct list body;
    for (size_t tail = 0; tail < 65536; tail++) {
        const uint8_t contents[2] = {(uint8_t)(tail & 255), (uint8_t)(tail >> 8)};
        make_body(&body, 0x12, 139, contents, 2);
        uint32_t two = right_check(&body);
        uint32_t low = two & 255;
        uint32_t high = two >> 8;
        if (!low_seen[low] || !high_seen[high] || (is_special(low) && is_special(high))) {
            low_seen[low] = true;
            high_seen[high] = true;
            try_body(&body, "check sequence", two);
        }
    }
}

/* Each number at its ends and beyond them. */
static void all_ranges(void)
{
    static const uint32_t addresses[] = {
        0, 1, 2, 7, 13, 14, 15, 16, 17, 31, 32, 126, 240, 255, 256, 257, 271, 65535, 65536, 65537, 2147483648, 2147483649, 4294967280,
        4294967281, 4294967295,
    };
    static const uint32_t numbers[] = {
        0, 1, 125, 126, 139, 254, 255, 256, 257, 381, 382, 65535, 65536, 65661, 2147483648, 2147483774, 4294967040, 4294967295,
    };
    for (size_t s = 0; s < ITEMS(addresses); s++) {
        for (size_t d = 0; d < ITEMS(addresses); d++) {
            for (size_t n = 0; n < ITEMS(numbers); n++) {
                static const uint8_t contents[1] = {0x7E};
                struct input in = {addresses[s], addresses[d], numbers[n], contents, n % 2, ROOM};
                bool good = in.source <= 15 && in.destination <= 15 && in.number <= 255;
                want_due(try_write(&in), good ? 0 : 4, "numbers", 10000 * s + 100 * d + n);
            }
        }
    }
}

/* ---- Lengths ---- */

#define LONG_OCTETS 100100

static uint8_t long_octets[LONG_OCTETS];

static void write_lengths(void)
{
    static const size_t rooms[] = {0, 0, 6, 73, 75, 77, 79, 154, 155, 157, 158, 312, 412};
    static const size_t longer[] = {1000, 4096, 65535, 65536, 65541, 65609, 65610, 100000};
    struct list body;
    for (size_t len = 0; len <= 400; len++) {
        any_body(&body, 2 + len);
        struct input in = input_of(&body);
        want_due(try_write(&in), len <= 73 ? 0 : 12, "contents of length", len);
        for (size_t r = 0; r < ITEMS(rooms); r++) {
            in.room_len = rooms[r];
            want_due(try_write(&in), 1, "contents of length", len);
        }
        /* A room of every length; below, one of the form's own. */
        any_body(&body, any_length());
        in = input_of(&body);
        in.room_len = len;
        want_due(try_write(&in), len == ROOM ? 0 : 1, "room of length", len);
    }
    for (size_t len = 2; len <= 75; len++) {
        struct list form;
        any_body(&body, len);
        make_form(&body, &form);
        struct input in = input_of(&body);
        in.room_len = form.len;
        want_due(try_write(&in), form.len == ROOM ? 0 : 1, "a room of the form's length", form.len);
    }
    for (size_t l = 0; l < ITEMS(longer); l++) {
        struct input in = {1, 2, 3, long_octets, longer[l], ROOM};
        want_due(try_write(&in), 12, "contents of length", longer[l]);
        in.source = 16;
        want_due(try_write(&in), 4, "contents of length", longer[l]);
    }
}

static void read_lengths(void)
{
    static const size_t rooms[] = {0, 0, 1, 72, 74, 75, 77, 79, 146, 156, 329};
    struct list body;
    struct list form;
    for (size_t len = 0; len <= 400; len++) {
        for (unsigned turn = 0; turn < 4; turn++) {
            any_body(&body, len);
            if (turn < 2) {
                memset(body.octets, turn == 0 ? FLAG : ESCAPE, len);
            }
            make_form(&body, &form);
            try_due(&form, len >= 2 && len <= 75 ? 0 : 12, "octets before the check sequence", len);
            size_t room = rooms[below(ITEMS(rooms))];
            want_due(try_read(form.octets, form.len, room, "room of length", room), 1, "room of length", room);
        }
        any_body(&body, any_length());
        make_form(&body, &form);
        want_due(try_read(form.octets, form.len, len, "room of length", len), len == CONTENTS ? 0 : 1, "room of length", len);
        size_t contents = body.len - 2;
        want_due(try_read(form.octets, form.len, contents, "room of length", contents), contents == CONTENTS ? 0 : 1, "room of length",
                 contents);
    }
}

/* Fewer than four plain octets, whose last two are or are not the check sequence of those before. */
static void too_short(void)
{
    struct list body;
    struct list form;
    body.len = 0;
    frame(&body, &form);
    try_due(&form, 12, "nothing between two flags", 0);
    make_form(&body, &form);
    try_due(&form, 12, "the check sequence of nothing", 0);
    for (size_t value = 0; value < 256; value++) {
        body.len = 0;
        add(&body, (uint8_t)value);
        frame(&body, &form);
        try_due(&form, 12, "one octet", value);
        make_form(&body, &form);
        try_due(&form, 12, "one octet and its check sequence", value);
        for (size_t turn = 0; turn < 8; turn++) {
            any_body(&body, 1 + turn % 3);
            body.octets[0] = (uint8_t)value;
            frame(&body, &form);
            try_due(&form, 12, "one to three octets, the first", value);
        }
    }
}

/* A length that is only said, with the right number in its low octets. The call is refused, so nothing there may be touched. */
static void try_huge_write(size_t contents_len, size_t room_len)
{
    struct pair contents = lend_junk(CONTENTS);
    struct pair room = lend_junk(ROOM);
    struct sdsl_eoc_written lib = sdsl_eoc_write(1, 2, 3, contents.lib, contents_len, room.lib, room_len);
    struct sdsl_eoc_written ref = ref_eoc_write(1, 2, 3, contents.ref, contents_len, room.ref, room_len);
    struct comparison comparison = {NULL};
    uint32_t due = room_len != ROOM ? SDSL_BAD_LENGTH : SDSL_BAD_SIZE;
    want(&comparison, lib.answer == due && ref.answer == due, "answers differ");
    want(&comparison, lib.length == 0, "a refused call gave a length");
    want_kept(&comparison, &contents, "the contents changed");
    want_kept(&comparison, &room, "a refused call wrote lent memory");
    settle(comparison, &writes, "lengths %zu %zu: library %u, reference %u", contents_len, room_len, lib.answer, ref.answer);
    give_back(&contents);
    give_back(&room);
}

static void try_huge_read(const struct list *form, size_t octets_len, size_t room_len)
{
    struct pair octets = lend(form->octets, form->len);
    struct pair contents = lend_junk(CONTENTS);
    struct sdsl_eoc_message lib = sdsl_eoc_read(octets.lib, octets_len, contents.lib, room_len);
    struct sdsl_eoc_message ref = ref_eoc_read(octets.ref, octets_len, contents.ref, room_len);
    struct comparison comparison = {NULL};
    want(&comparison, lib.answer == SDSL_BAD_LENGTH && ref.answer == SDSL_BAD_LENGTH, "answers differ");
    want(&comparison, same_message(&lib, &ref) && lib.number == 0 && lib.length == 0, "numbers with a refusal");
    want_kept(&comparison, &octets, "the message changed");
    want_kept(&comparison, &contents, "a refused call wrote lent memory");
    settle(comparison, &reads, "lengths %zu %zu: library %u, reference %u", octets_len, room_len, lib.answer, ref.answer);
    give_back(&octets);
    give_back(&contents);
}

static void try_huge_hand_up(const struct list *form, size_t octets_len, size_t units_len)
{
    uint8_t before[3 * UNIT];
    make_units(before, 3);
    struct pair octets = lend(form->octets, form->len);
    struct pair units = lend(before, sizeof before);
    struct sdsl_eoc_handed_up lib = sdsl_eoc_hand_up(octets.lib, octets_len, units.lib, units_len);
    struct sdsl_eoc_handed_up ref = ref_eoc_hand_up(octets.ref, octets_len, units.ref, units_len);
    struct comparison comparison = {NULL};
    want(&comparison, lib.answer == SDSL_BAD_LENGTH && ref.answer == SDSL_BAD_LENGTH, "answers differ");
    want(&comparison, lib.units == 0 && ref.units == 0, "units with a refusal");
    want_kept(&comparison, &octets, "the message changed");
    want_kept(&comparison, &units, "a refused call wrote lent memory");
    settle(comparison, &hand_ups, "lengths %zu %zu: library %u, reference %u", octets_len, units_len, lib.answer, ref.answer);
    give_back(&octets);
    give_back(&units);
}

/* Powers of two added to every length that is looked at, or taken from it. */
static void huge_lengths(void)
{
    struct list body;
    struct list form;
    any_body(&body, 12);
    make_form(&body, &form);
    for (size_t power = 8; power < 8 * sizeof(size_t); power++) {
        const size_t powers[] = {(size_t)1 << power, 0 - ((size_t)1 << power)};
        for (size_t p = 0; p < ITEMS(powers); p++) {
            try_huge_write(12, powers[p] + ROOM);
            try_huge_write(powers[p] + ROOM, powers[p] + ROOM);
            for (size_t len = 0; len <= CONTENTS; len++) {
                try_huge_write(powers[p] + len, ROOM);
            }
            try_huge_read(&form, form.len, powers[p] + CONTENTS);
            try_huge_read(&form, powers[p] + form.len, powers[p] + CONTENTS);
            try_huge_read(&form, powers[p] + form.len, CONTENTS - 1);
            for (size_t units = 0; units <= 3; units++) {
                size_t units_len = powers[p] + units * UNIT;
                if (units_len % UNIT != 0) { /* 2^64 - 2^25 is a multiple of 79 */
                    try_huge_hand_up(&form, form.len, units_len);
                    try_huge_hand_up(&form, powers[p] + form.len, units_len);
                }
            }
        }
    }
}

/* ---- Flags and escapes ---- */

static void add_flags(struct list *list, size_t flags)
{
    for (size_t i = 0; i < flags; i++) {
        add(list, FLAG);
    }
}

/* Flags and nothing else, more flags than a message has, and two messages in one. */
static void flags_and_fill(void)
{
    struct list body;
    struct list form;
    struct list other;
    for (size_t flags = 0; flags <= 200; flags++) {
        form.len = 0;
        add_flags(&form, flags);
        try_due(&form, flags == 2 ? 12 : 10, "flags alone,", flags);
        /* Before a form, behind it, and on both sides. */
        for (unsigned way = 1; way <= 3; way++) {
            any_body(&body, any_length());
            make_form(&body, &other);
            form.len = 0;
            add_flags(&form, way % 2 == 1 ? flags : 0);
            add_all(&form, other.octets, other.len);
            add_flags(&form, way / 2 == 1 ? flags : 0);
            try_due(&form, flags == 0 ? 0 : 10, "more flags,", flags);
        }
    }
    /* Two messages, with one flag between them or with two. */
    for (size_t turn = 0; turn < 64; turn++) {
        any_body(&body, 2 + turn % 8);
        make_form(&body, &form);
        any_body(&body, 2 + turn / 8);
        make_form(&body, &other);
        form.len -= turn % 2;
        add_all(&form, other.octets, other.len);
        try_due(&form, 10, "two messages,", turn);
    }
}

/* Every octet in the place of a flag; forms without one or both; a flag in every place. */
static void missing_flags(void)
{
    struct list body;
    struct list form;
    for (size_t value = 0; value < 256; value++) {
        any_body(&body, any_length());
        make_form(&body, &form);
        form.octets[0] = (uint8_t)value;
        try_due(&form, value == FLAG ? 0 : 10, "opening flag", value);
        form.octets[form.len - 1] = (uint8_t)value;
        try_due(&form, value == FLAG ? 0 : 10, "both flags", value);
        form.octets[0] = FLAG;
        try_due(&form, value == FLAG ? 0 : 10, "closing flag", value);
        form.octets[form.len - 1] = FLAG;
        add(&form, (uint8_t)value);
        try_due(&form, 10, "an octet behind the closing flag,", value);
        form.len--;
        put_in(&form, 0, (uint8_t)value);
        try_due(&form, 10, "an octet before the opening flag,", value);
    }
    any_body(&body, 75);
    make_form(&body, &form);
    for (size_t place = 1; place < form.len; place++) {
        put_in(&form, place, FLAG);
        try_due(&form, 10, "a flag put in at", place);
        take_out(&form, place);
    }
    try_due(&form, 0, "the same without it", 0);
    form.len--;
    try_due(&form, 10, "no closing flag", 0);
    take_out(&form, 0);
    try_due(&form, 10, "no flags", 0);
    add(&form, FLAG);
    try_due(&form, 10, "no opening flag", 0);
}

/* The plain octet at `place` as it is, or as RFC 1662 would let a sender escape any octet; all others as they have to be. */
static void frame_except(const struct list *plain, size_t place, bool escape, struct list *form)
{
    form->len = 0;
    add(form, FLAG);
    for (size_t i = 0; i < plain->len; i++) {
        if (i == place && escape) {
            add(form, ESCAPE);
            add(form, (uint8_t)(plain->octets[i] ^ 0x20));
        } else if (i == place) {
            add(form, plain->octets[i]);
        } else {
            add_escaped(form, plain->octets[i]);
        }
    }
    add(form, FLAG);
}

/* Octets that are escaped and should not be, and the other way about, with the right check sequence. */
static void foreign_escapes(void)
{
    struct list plain;
    struct list form;
    for (size_t value = 0; value < 256; value++) {
        for (size_t place = 0; place < 8; place++) {
            any_body(&plain, 6);
            if (place < 6) {
                plain.octets[place] = (uint8_t)value;
            }
            add_two(&plain, right_check(&plain));
            uint8_t octet = plain.octets[place];
            uint32_t due = octet == FLAG || octet == ESCAPE ? 0 : octet == 0x5E ? 10 : 11; /* 5E becomes 7D 7E */
            frame_except(&plain, place, true, &form);
            try_due(&form, due, "escaped, and maybe it should not be,", octet);
            frame_except(&plain, place, false, &form);
            if (octet == ESCAPE) {
                try_list(&form, "not escaped,", octet);
            } else {
                try_due(&form, octet == FLAG ? 10 : 0, "not escaped,", octet);
            }
        }
    }
    /* A 7D with every octet behind it, put in at every place; a lone 7D at every place. */
    any_body(&plain, 7);
    make_form(&plain, &form);
    for (size_t place = 1; place < form.len; place++) {
        put_in(&form, place, ESCAPE);
        try_list(&form, "an escape put in at", place);
        for (size_t value = 0; value < 256; value++) {
            put_in(&form, place + 1, (uint8_t)value);
            try_list(&form, "an escape and an octet put in at", 256 * place + value);
            take_out(&form, place + 1);
        }
        take_out(&form, place);
    }
}

/* 7D as the last octet before the closing flag, behind every octet; and as the last but one, before every octet. */
static void last_escapes(void)
{
    struct list body;
    struct list form;
    for (size_t value = 0; value < 256; value++) {
        any_body(&body, any_length());
        make_form(&body, &form);
        form.len--;
        add(&form, (uint8_t)value);
        add(&form, ESCAPE);
        add(&form, FLAG);
        try_due(&form, value == FLAG ? 10 : 11, "7D before the closing flag, behind", value);
        form.len -= 3;
        add(&form, ESCAPE);
        add(&form, (uint8_t)value);
        add(&form, FLAG);
        if (value == 0x5E || value == 0x5D) {
            try_list(&form, "an escape too many at the end,", value);
        } else {
            try_due(&form, value == FLAG ? 10 : 11, "7D before the last octet,", value);
        }
    }
}

/* ---- Check sequences that are not that of RFC 1662 ---- */

#define CHECK_WAYS 14

/* The register of the same divisor with each octet's highest bit first. */
static uint32_t turned_fcs(const uint8_t *octets, size_t len)
{
    uint32_t reg = 0xFFFF;
    for (size_t i = 0; i < len; i++) {
        reg ^= (uint32_t)octets[i] << 8;
        for (unsigned bit = 0; bit < 8; bit++) {
            reg = (reg & 0x8000) != 0 ? ((reg << 1) ^ 0x1021) & 0xFFFF : (reg << 1) & 0xFFFF;
        }
    }
    return reg;
}

static uint32_t exchanged(uint32_t two)
{
    return two >> 8 | (two & 255) << 8;
}

static uint32_t other_check(const struct list *body, size_t way)
{
    struct list inner;
    frame(body, &inner); /* flags and escapes in it */
    const uint8_t *octets = body->octets;
    size_t len = body->len;
    uint32_t right = right_check(body);
    const uint32_t ways[CHECK_WAYS] = {
        right ^ 0xFFFF,                                        /* not complemented */
        exchanged(right),                                      /* high octet first */
        exchanged(right) ^ 0xFFFF,                             /* both */
        fcs(0, octets, len) ^ 0xFFFF,                          /* started at zero */
        fcs(0, octets, len),                                   /* and not complemented */
        fcs(0xFFFF, inner.octets + 1, inner.len - 2) ^ 0xFFFF, /* over the escaped octets */
        fcs(0xFFFF, inner.octets, inner.len - 1) ^ 0xFFFF,     /* and over the opening flag */
        fcs(0xFFFF, octets + 1, len - 1) ^ 0xFFFF,             /* without the addresses */
        fcs(0xFFFF, octets + 2, len - 2) ^ 0xFFFF,             /* over the contents alone */
        fcs(0xFFFF, octets, len - 1) ^ 0xFFFF,                 /* without the last octet */
        turned_fcs(octets, len) ^ 0xFFFF,                      /* highest bits first */
        exchanged(turned_fcs(octets, len)),                    /* the same, high octet first, not complemented */
        0,
        0xFFFF,
    };
    return ways[way];
}

static void other_checks(void)
{
    struct list body;
    struct list form;
    for (size_t i = 0; i < scaled(300) + 74; i++) {
        any_body(&body, i < 74 ? 2 + i : any_length());
        uint32_t right = right_check(&body);
        for (size_t way = 0; way < CHECK_WAYS; way++) {
            uint32_t two = other_check(&body, way);
            frame_with(&body, two, &form);
            try_due(&form, two == right ? 0 : 7, "another check sequence, way", way);
        }
        for (unsigned bit = 0; bit < 16; bit++) {
            frame_with(&body, right ^ 1u << bit, &form);
            try_due(&form, 7, "one bit of the check sequence,", bit);
        }
        /* Not escaped, which is the right form unless it holds 7E or 7D. */
        frame(&body, &form);
        form.len--;
        add_two(&form, right);
        add(&form, FLAG);
        try_list(&form, "a check sequence that is not escaped,", i);
    }
}

/* ---- Damage ---- */

/* Each octet of a form replaced, taken out, doubled, exchanged with the next, or with another octet before it. */
static void damage_octets(const struct list *good)
{
    struct list form = *good;
    for (size_t place = 0; place < good->len; place++) {
        uint8_t octet = good->octets[place];
        for (size_t i = 0; i < ITEMS(special); i++) {
            form.octets[place] = special[i];
            try_list(&form, "an octet replaced at", place);
            form.octets[place] = octet;
            put_in(&form, place, special[i]);
            try_list(&form, "an octet put in at", place);
            take_out(&form, place);
        }
        put_in(&form, place, octet);
        try_list(&form, "an octet doubled at", place);
        take_out(&form, place);
        take_out(&form, place);
        try_list(&form, "an octet taken out at", place);
        put_in(&form, place, octet);
        if (place + 1 < good->len) {
            form.octets[place] = good->octets[place + 1];
            form.octets[place + 1] = octet;
            try_list(&form, "octets exchanged at", place);
            form.octets[place] = octet;
            form.octets[place + 1] = good->octets[place + 1];
        }
        try_message(good->octets, place, "the first octets,", place);
        try_message(good->octets + place, good->len - place, "all but the first octets,", place);
    }
}

/* Each single bit flipped: of a form, and of its plain octets before they are escaped. */
static void damage_bits(const struct list *body)
{
    struct list form;
    make_form(body, &form);
    try_due(&form, 0, "a good form of", form.len);
    for (size_t n = 1; n <= 8 * form.len; n++) {
        flip_bit(form.octets, n);
        try_list(&form, "flipped bit", n);
        flip_bit(form.octets, n);
    }
    struct list plain;
    plain.len = 0;
    add_all(&plain, body->octets, body->len);
    add_two(&plain, right_check(body));
    for (size_t n = 1; n <= 8 * plain.len; n++) {
        flip_bit(plain.octets, n);
        frame(&plain, &form);
        try_due(&form, 7, "flipped plain bit", n);
        if (n <= 8 * body->len) {
            plain.len -= 2;
            make_form(&plain, &form);
            try_due(&form, 0, "flipped plain bit, check sequence put right,", n);
            plain.len += 2;
        }
        flip_bit(plain.octets, n);
    }
    /* A multiple of X^16 + X^12 + X^5 + 1 on top changes the message and leaves the check sequence right. */
    for (size_t n = 1; n + 16 <= 8 * plain.len; n++) {
        flip_bit(plain.octets, n);
        flip_bit(plain.octets, n + 4);
        flip_bit(plain.octets, n + 11);
        flip_bit(plain.octets, n + 16);
        frame(&plain, &form);
        try_due(&form, 0, "the divisor added from bit", n);
    }
}

/* The longest form: all 75 octets and the check sequence are escaped. */
static void make_longest(struct list *body)
{
    static const uint8_t tail[16] = {0x7D, 0x7E, 0x7D, 0x7D, 0x7D, 0x7D, 0x7D, 0x7D, 0x7E, 0x7D, 0x7D, 0x7E, 0x7E, 0x7E, 0x7D, 0x7E};
    body->len = 0;
    add_flags(body, 59);
    add_all(body, tail, sizeof tail);
}

static void damage(void)
{
    static const size_t lengths[] = {2, 3, 5, 20, 75, 75};
    struct list body;
    struct list form;
    for (size_t i = 0; i < ITEMS(lengths); i++) {
        any_body(&body, lengths[i]);
        if (i + 1 == ITEMS(lengths)) {
            make_longest(&body);
        }
        make_form(&body, &form);
        damage_bits(&body);
        damage_octets(&form);
    }
    for (size_t i = 0; i < scaled(4000); i++) {
        any_body(&body, any_length());
        make_form(&body, &form);
        for (uint64_t flips = below(4); flips > 0; flips--) {
            flip_bit(form.octets, (size_t)between(1, (int32_t)(8 * form.len)));
        }
        try_list(&form, "damaged form", i);
    }
}

/* ---- Every set of faults at once, so every pair among them: the order of the checks shows ---- */

static void write_faults(void)
{
    enum { ROOM_LEN = 1, SOURCE = 2, DESTINATION = 4, NUMBER = 8, SIZE = 16 };
    for (unsigned set = 0; set < 2 * SIZE; set++) {
        for (unsigned turn = 0; turn < 24; turn++) {
            struct list body;
            any_body(&body, set & SIZE ? (turn % 2 == 0 ? 76 : (size_t)between(76, 300)) : any_length());
            struct input in = input_of(&body);
            if (set & ROOM_LEN) {
                in.room_len = turn % 3 == 0 ? 155 : turn % 3 == 1 ? 157 : (size_t)below(156);
            }
            if (set & SOURCE) {
                in.source = turn % 2 == 0 ? 16 : random32() | 16;
            }
            if (set & DESTINATION) {
                in.destination = turn % 2 == 0 ? 16 : random32() | 16;
            }
            if (set & NUMBER) {
                in.number = turn % 2 == 0 ? 256 : random32() | 256;
            }
            uint32_t due = set & ROOM_LEN ? 1 : set & (SOURCE | DESTINATION | NUMBER) ? 4 : set & SIZE ? 12 : 0;
            want_due(try_write(&in), due, "faults of writing", set);
        }
    }
}

enum { BAD_FLAG = 1, BAD_ESCAPE = 2, BAD_SIZE = 4, BAD_CHECK = 8, FORM_SETS = 16 };

/* A place between the flags: the first, the last or any. */
static size_t any_place(const struct list *form)
{
    uint64_t way = below(4);
    return way == 0 ? 1 : way == 1 ? form->len - 1 : (size_t)between(1, (int32_t)form->len - 1);
}

/* Puts in a 7D with neither 5E nor 5D behind it, between the flags. */
static void spoil_escape(struct list *form)
{
    static const uint8_t behind[] = {0x7D, 0x5F, 0x5C, 0x20, 0x7C, 0x7F, 0x00, 0xDE};
    size_t place = any_place(form);
    if (below(4) == 0) {
        put_in(form, form->len - 1, ESCAPE);
    } else {
        put_in(form, place, behind[below(ITEMS(behind))]);
        put_in(form, place, ESCAPE);
    }
}

static void spoil_flag(struct list *form)
{
    static const uint8_t instead[] = {0x7D, 0x5E, 0x7F, 0xFE, 0x3F, 0x00};
    uint8_t octet = instead[below(ITEMS(instead))];
    switch (below(6)) {
    case 0:
        form->octets[0] = octet;
        break;
    case 1:
        form->octets[form->len - 1] = octet;
        break;
    case 2:
        take_out(form, 0);
        break;
    case 3:
        form->len--;
        break;
    default:
        put_in(form, any_place(form), FLAG);
        break;
    }
}

/* A form with this set of faults. */
static void make_faulty(unsigned set, struct list *form)
{
    struct list plain;
    size_t len = any_length();
    if (set & BAD_SIZE) {
        len = below(2) == 0 ? (size_t)below(2) : 76 + (size_t)below(200);
    }
    any_body(&plain, len);
    add_two(&plain, right_check(&plain));
    if (set & BAD_CHECK) {
        flip_bit(plain.octets, (size_t)between(1, (int32_t)(8 * plain.len)));
    }
    if (set & BAD_SIZE && below(4) == 0) {
        plain.len = (size_t)below(4);
    }
    frame(&plain, form);
    if (set & BAD_ESCAPE) {
        spoil_escape(form);
    }
    if (set & BAD_FLAG) {
        spoil_flag(form);
    }
}

static uint32_t due_of(unsigned set)
{
    return set & BAD_FLAG ? 10 : set & BAD_ESCAPE ? 11 : set & BAD_SIZE ? 12 : set & BAD_CHECK ? 7 : 0;
}

static void read_faults(void)
{
    struct list form;
    for (unsigned set = 0; set < 2 * FORM_SETS; set++) {
        for (unsigned turn = 0; turn < 80; turn++) {
            make_faulty(set % FORM_SETS, &form);
            size_t room = set < FORM_SETS ? CONTENTS : turn % 3 == 0 ? 72 : turn % 3 == 1 ? 74 : (size_t)below(73);
            struct answers got = try_read(form.octets, form.len, room, "faults of reading", set);
            want_due(got, room != CONTENTS ? 1 : due_of(set), "faults of reading", set);
        }
    }
}

static void hand_up_faults(void)
{
    enum { UNITS = FORM_SETS, OWN = 2 * FORM_SETS };
    struct list form;
    uint8_t units[7 * UNIT];
    for (unsigned set = 0; set < 2 * OWN; set++) {
        for (unsigned turn = 0; turn < 40; turn++) {
            size_t count = 1 + (size_t)below(6);
            make_units(units, count + 1);
            make_faulty(set % FORM_SETS, &form);
            if (set & OWN) {
                units[(size_t)below(count) * UNIT] = turn % 2 == 0 ? 16 : (uint8_t)between(16, 255);
            }
            size_t units_len = count * UNIT;
            if (set & UNITS) {
                units_len += turn % 4 == 0 ? 1 : turn % 4 == 1 ? (size_t)-1 : 1 + (size_t)below(78);
            }
            uint32_t due = set & UNITS ? 1 : set & OWN ? 4 : due_of(set);
            want_due(try_hand_up(form.octets, form.len, units, units_len, "faults of handing up", set), due, "faults of handing up", set);
        }
    }
}

/* ---- All short messages of a small alphabet, noise, and junk of any length ---- */

/* Up to six octets of five kinds, in every order. */
static void small_alphabet(void)
{
    static const uint8_t letters[] = {0x7E, 0x7D, 0x5E, 0x5D, 0x12};
    size_t ways = 1;
    for (size_t len = 0; len <= 6; len++) {
        for (size_t way = 0; way < ways; way++) {
            struct list raw;
            struct list framed;
            raw.len = 0;
            framed.len = 0;
            for (size_t rest = way; raw.len < len; rest /= ITEMS(letters)) {
                add(&raw, letters[rest % ITEMS(letters)]);
            }
            try_read(raw.octets, raw.len, CONTENTS, "octets of five kinds, way", way);
            /* Between flags, then with the check sequence that belongs to it. */
            add(&framed, FLAG);
            add_all(&framed, raw.octets, raw.len);
            add(&framed, FLAG);
            try_list(&framed, "octets of five kinds between flags, way", way);
            struct list plain;
            plain.len = 0;
            add_plain(&plain, raw.octets, raw.len);
            uint32_t two = right_check(&plain);
            framed.len--;
            add_escaped(&framed, (uint8_t)(two & 255));
            add_escaped(&framed, (uint8_t)(two >> 8));
            add(&framed, FLAG);
            try_list(&framed, "octets of five kinds and their check sequence, way", way);
        }
        ways *= ITEMS(letters);
    }
}

/* A flag at either end, and none between. */
static void mend_flags(struct list *form)
{
    while (form->len < 2) {
        add(form, FLAG);
    }
    for (size_t i = 1; i + 1 < form->len; i++) {
        while (form->octets[i] == FLAG) {
            form->octets[i] = any_octet();
        }
    }
    form->octets[0] = FLAG;
    form->octets[form->len - 1] = FLAG;
}

/* 5E or 5D behind each 7D. */
static void mend_escapes(struct list *form)
{
    for (size_t i = 1; i + 1 < form->len; i++) {
        if (form->octets[i] == ESCAPE && i + 2 == form->len) {
            form->octets[i] = 0x5E;
        } else if (form->octets[i] == ESCAPE) {
            i++;
            form->octets[i] = below(2) == 0 ? 0x5E : 0x5D;
        }
    }
}

/* Noise that is made good step by step. */
static void noise(void)
{
    struct list form;
    struct list plain;
    for (size_t i = 0; i < scaled(6000); i++) {
        any_body(&form, (size_t)(below(4) == 0 ? between(0, 240) : between(0, 16)));
        try_list(&form, "noise", i);
        mend_flags(&form);
        try_list(&form, "noise with flags", i);
        mend_escapes(&form);
        try_list(&form, "noise with flags and escapes", i);
        plain.len = 0;
        add_plain(&plain, form.octets + 1, form.len - 2);
        while (plain.len < PLAIN_MIN) {
            add(&plain, any_octet());
        }
        plain.len = plain.len > PLAIN_MAX ? PLAIN_MAX : plain.len;
        frame(&plain, &form);
        try_list(&form, "noise with flags, escapes and size", i);
        plain.len -= 2;
        make_form(&plain, &form);
        try_due(&form, 0, "noise that is a message", i);
        /* Any octets at all with a right frame round them. */
        any_body(&plain, (size_t)between(0, 120));
        make_form(&plain, &form);
        try_due(&form, plain.len >= 2 && plain.len <= 75 ? 0 : 12, "noise in a frame of length", plain.len);
    }
}

/*
 * Long octets between flags: nothing but 7D 5E and 7D 5D, or without 7E and 7D. The latter begin with a whole message of no contents and
 * end with the check sequence of all that stands before it.
 */
static void make_long(size_t len, bool escapes)
{
    static const uint8_t start[5] = {0x7E, 0x12, 0x02, 0x74, 0x8A};
    for (size_t i = 0; i < len; i++) {
        long_octets[i] = (uint8_t)(escapes ? (i % 2 == 1 ? ESCAPE : 0x5D + below(2)) : below(0x7D));
    }
    uint32_t two = 0x7D7D;
    while (!escapes && (is_special(two & 255) || is_special(two >> 8))) {
        memcpy(long_octets, start, sizeof start);
        long_octets[5] = (uint8_t)below(0x7D);
        two = fcs(0xFFFF, long_octets + 1, len - 4) ^ 0xFFFF;
        long_octets[len - 3] = (uint8_t)(two & 255);
        long_octets[len - 2] = (uint8_t)(two >> 8);
    }
    if (long_octets[len - 2] == ESCAPE) {
        long_octets[len - 2] = 0x5E;
    }
    long_octets[0] = FLAG;
    long_octets[len - 1] = FLAG;
}

/* With a flag or a 7D that stands for nothing at these places; 0 is none. */
static void try_long(size_t len, size_t flag_at, size_t escape_at)
{
    uint8_t kept[3] = {long_octets[escape_at], long_octets[escape_at + 1], long_octets[flag_at]};
    if (escape_at > 0) {
        long_octets[escape_at] = ESCAPE;
        long_octets[escape_at + 1] = 0x41;
    }
    if (flag_at > 0) {
        long_octets[flag_at] = FLAG;
    }
    uint32_t due = flag_at > 0 ? 10 : escape_at > 0 ? 11 : 12;
    want_due(try_message(long_octets, len, "long octets", len), due, "long octets", len);
    long_octets[flag_at] = kept[2];
    long_octets[escape_at] = kept[0];
    long_octets[escape_at + 1] = kept[1];
}

/* Faults at the start, in the middle and at the end, alone and together. */
static void long_junk(void)
{
    /* Between the flags stand 4 or 77 octets more than 256 or 65,536, or other numbers. */
    static const size_t lengths[] = {262, 335, 600, 4097, 65542, 65615, 100000};
    for (size_t l = 0; l < ITEMS(lengths); l++) {
        size_t len = lengths[l];
        const size_t flag_places[] = {0, 1, len / 2, len - 2};
        const size_t escape_places[] = {0, 1, len / 2, len - 3};
        for (unsigned way = 0; way < 2; way++) {
            make_long(len, way == 1);
            for (size_t f = 0; f < ITEMS(flag_places); f++) {
                for (size_t e = 0; e < ITEMS(escape_places); e++) {
                    try_long(len, flag_places[f], escape_places[e]);
                }
            }
        }
    }
}

/* ---- Handing up ---- */

/* What the record of a unit that takes a message has to hold; its own address stays. */
static void fill_record(uint8_t *record, const struct list *body)
{
    record[1] = 1;
    record[2] = body->octets[0] >> 4;
    record[3] = body->octets[0] & 15;
    record[4] = body->octets[1];
    record[5] = (uint8_t)(body->len - 2);
    memset(record + 6, 0, CONTENTS);
    memcpy(record + 6, body->octets + 2, body->len - 2);
}

/* A good message and units with good addresses: who takes it, and what the records then hold, on either side. */
static void try_records(const struct list *body, const uint8_t *units, size_t count, const char *what, size_t number)
{
    static uint8_t due[LONG_OCTETS];
    static uint8_t got[LONG_OCTETS];
    struct list form;
    size_t takers = 0;
    uint8_t destination = body->octets[0] & 15;
    make_form(body, &form);
    memcpy(due, units, count * UNIT);
    for (size_t i = 0; i < count; i++) {
        if (destination == 0x0 || destination == 0xF || units[i * UNIT] == destination) {
            fill_record(due + i * UNIT, body);
            takers++;
        }
    }
    for (size_t i = 0; i < ITEMS(sides); i++) {
        memcpy(got, units, count * UNIT);
        struct sdsl_eoc_handed_up up = sides[i].hand_up(form.octets, form.len, got, count * UNIT);
        struct comparison comparison = {NULL};
        want(&comparison, up.answer == SDSL_DONE, "refused");
        want(&comparison, up.units == takers, "another number of units");
        want(&comparison, memcmp(got, due, count * UNIT) == 0, "other records");
        settle(comparison, &records, "%s %zu to %u by the %s: %u units %zu of %zu, and %zu were due", what, number, destination,
               sides[i].name, up.answer, up.units, count, takers);
    }
    try_hand_up(form.octets, form.len, units, count * UNIT, what, number);
}

static void any_message(struct list *body, size_t destination)
{
    any_body(body, any_length());
    body->octets[0] = (uint8_t)((body->octets[0] & 0xF0) | destination);
}

/* Every own address, also those that there are not, with every destination, as one of up to three units. */
static void every_own(void)
{
    struct list body;
    struct list form;
    uint8_t units[3 * UNIT];
    for (size_t own = 0; own < 256; own++) {
        for (size_t destination = 0; destination < 16; destination++) {
            any_message(&body, destination);
            size_t count = 1 + (own + destination) % 3;
            make_units(units, count);
            units[(size_t)below(count) * UNIT] = (uint8_t)own;
            if (own < 16) {
                try_records(&body, units, count, "own address", own);
            } else {
                make_form(&body, &form);
                want_due(try_hand_up(form.octets, form.len, units, count * UNIT, "own address", own), 4, "own address", own);
            }
        }
    }
    /* A wrong one in each place of up to six. */
    for (size_t count = 1; count <= 6; count++) {
        for (size_t place = 0; place < count; place++) {
            for (size_t i = 0; i < ITEMS(special); i++) {
                uint8_t more[6 * UNIT];
                make_units(more, count);
                more[place * UNIT] = i == 0 ? 16 : i == 1 ? 255 : special[i];
                any_message(&body, i % 3 == 0 ? 0 : i % 3 == 1 ? 15 : more[0] % 16);
                make_form(&body, &form);
                want_due(try_hand_up(form.octets, form.len, more, count * UNIT, "a wrong own address at", place), 4,
                         "a wrong own address at", place);
            }
        }
    }
}

/* All sixteen addresses at once, from every source to every destination; then units as they come. */
static void many_units(void)
{
    struct list body;
    uint8_t units[16 * UNIT];
    for (size_t addresses = 0; addresses < 256; addresses++) {
        make_units(units, 16);
        for (size_t own = 0; own < 16; own++) {
            units[own * UNIT] = (uint8_t)(addresses % 2 == 0 ? own : 15 - own);
        }
        any_message(&body, 0);
        body.octets[0] = (uint8_t)addresses;
        try_records(&body, units, 16, "sixteen units, addresses", addresses);
    }
    for (size_t i = 0; i < scaled(4000); i++) {
        size_t count = (size_t)below(7);
        make_units(units, count);
        for (size_t k = 0; k < count; k++) {
            units[k * UNIT] = (uint8_t)(below(3) == 0 ? below(4) : units[k * UNIT]); /* some the same */
            units[k * UNIT + 1] %= 2;
        }
        any_message(&body, (size_t)(below(2) == 0 ? below(4) : below(16)));
        try_records(&body, units, count, "units", i);
    }
}

/* Units of every length: with a message that is good, and with one that is not. */
static void units_lengths(void)
{
    struct list body;
    struct list form;
    uint8_t units[8 * UNIT];
    make_units(units, 8);
    for (size_t len = 0; len <= sizeof units; len++) {
        any_message(&body, len % 16);
        make_form(&body, &form);
        want_due(try_hand_up(form.octets, form.len, units, len, "units of length", len), len % UNIT == 0 ? 0 : 1, "units of length", len);
        form.len--;
        want_due(try_hand_up(form.octets, form.len, units, len, "units of length", len), len % UNIT == 0 ? 10 : 1, "units of length", len);
    }
    /* Many records, for all or for some, and the last of them with a wrong address. */
    for (size_t count = 100; count * UNIT <= LONG_OCTETS; count += 389) {
        make_units(long_octets, count);
        for (size_t destination = 0; destination <= 15; destination += 5) {
            any_message(&body, destination);
            make_form(&body, &form);
            uint8_t *last = long_octets + (count - 1) * UNIT;
            *last = (uint8_t)(4 + below(2));
            try_records(&body, long_octets, count, "many units,", count);
            *last = 16;
            want_due(try_hand_up(form.octets, form.len, long_octets, count * UNIT, "units", count), 4, "units", count);
        }
    }
}

/* Handing up answers as reading does, and the record of a unit that takes the message holds what reading gives. */
static void try_agreement(const struct side *side, const struct list *form)
{
    uint8_t contents[CONTENTS];
    uint8_t before[UNIT];
    uint8_t record[UNIT];
    random_octets(contents, sizeof contents);
    make_units(before, 1);
    memcpy(record, before, sizeof record);
    struct sdsl_eoc_message message = side->read(form->octets, form->len, contents, sizeof contents);
    struct sdsl_eoc_handed_up up = side->hand_up(form->octets, form->len, record, sizeof record);
    struct comparison comparison = {NULL};
    want(&comparison, message.answer == up.answer, "answers differ");
    want(&comparison, record[0] == before[0], "another own address");
    if (up.units == 1) {
        want(&comparison, record[1] == 1, "no message present");
        want(&comparison, record[2] == message.source && record[3] == message.destination && record[4] == message.number &&
                              record[5] == message.length, "other fields");
        want(&comparison, memcmp(record + 6, contents, sizeof contents) == 0, "other contents");
    } else {
        want(&comparison, up.units == 0 && memcmp(record, before, sizeof record) == 0, "the record was written");
    }
    settle(comparison, &agreements, "a form of %zu by the %s: read %u, handed up %u, units %zu", form->len, side->name, message.answer,
           up.answer, up.units);
}

/* ---- Written, read and written again ---- */

static void try_round_trip(const struct side *side, const struct list *body)
{
    struct input in = input_of(body);
    uint8_t room[ROOM];
    uint8_t again[ROOM];
    uint8_t contents[CONTENTS];
    random_octets(room, sizeof room);
    random_octets(again, sizeof again);
    random_octets(contents, sizeof contents);
    struct sdsl_eoc_written first =
        side->write(in.source, in.destination, in.number, in.contents, in.contents_len, room, sizeof room);
    struct sdsl_eoc_message message = side->read(room, first.length <= ROOM ? first.length : ROOM, contents, sizeof contents);
    struct sdsl_eoc_written second =
        side->write(message.source, message.destination, message.number, contents, message.length, again, sizeof again);
    struct comparison comparison = {NULL};
    want(&comparison, first.answer == SDSL_DONE && message.answer == SDSL_DONE && second.answer == SDSL_DONE, "refused");
    want(&comparison, message.source == in.source && message.destination == in.destination, "other addresses");
    want(&comparison, message.number == in.number && message.length == in.contents_len, "another number or length");
    want(&comparison, memcmp(contents, in.contents, in.contents_len) == 0, "other contents");
    for (size_t i = in.contents_len; i < CONTENTS; i++) {
        want(&comparison, contents[i] == 0, "the room behind the contents is not zero");
    }
    want(&comparison, second.length == first.length && memcmp(again, room, sizeof again) == 0, "another form");
    settle(comparison, &round_trips, "from %u to %u number %u, %zu octets, by the %s: wrote %u, read %u, wrote %u", in.source,
           in.destination, in.number, in.contents_len, side->name, first.answer, message.answer, second.answer);
}

static void all_round_trips(void)
{
    struct list body;
    struct list form;
    for (size_t i = 0; i < scaled(6000) + 74; i++) {
        any_body(&body, i < 74 ? 2 + i : any_length());
        unsigned set = below(3) == 0 ? (unsigned)below(FORM_SETS) : 0;
        make_faulty(set, &form);
        for (size_t s = 0; s < ITEMS(sides); s++) {
            try_round_trip(&sides[s], &body);
            try_agreement(&sides[s], &form);
        }
    }
}

/* ---- Examples with literal results, on either side ---- */

static void example(bool good, const char *what, const struct side *side)
{
    struct comparison comparison = {good ? NULL : "not as it should be"};
    settle(comparison, &examples, "%s by the %s", what, side->name);
}

static const struct {
    const char *what;
    uint32_t source;
    uint32_t destination;
    uint32_t number;
    size_t contents_len;
    uint8_t contents[8];
    size_t form_len;
    uint8_t form[16];
} literals[] = {
    {"Inventory Request", 1, 2, 2, 0, {0}, 6, {0x7E, 0x12, 0x02, 0x74, 0x8A, 0x7E}},
    {"Status/SNR", 2, 1, 139, 3, {0x06, 0x00, 0x01}, 9, {0x7E, 0x21, 0x8B, 0x06, 0x00, 0x01, 0x89, 0x8E, 0x7E}},
    {"Discovery Probe", 1, 0, 1, 1, {0x00}, 7, {0x7E, 0x10, 0x01, 0x00, 0x81, 0x5A, 0x7E}},
    {"addresses 7E and number 7D", 7, 14, 0x7D, 0, {0}, 8, {0x7E, 0x7D, 0x5E, 0x7D, 0x5D, 0xF1, 0xCD, 0x7E}},
    /* The digits 1 to 9, whose check sequence is in many books: 906E. */
    {"123456789", 3, 1, 0x32, 7, {0x33, 0x34, 0x35, 0x36, 0x37, 0x38, 0x39}, 13,
     {0x7E, 0x31, 0x32, 0x33, 0x34, 0x35, 0x36, 0x37, 0x38, 0x39, 0x6E, 0x90, 0x7E}},
    /* One bit apart on the line, and both are messages. */
    {"7C 5E", 1, 2, 0x78, 4, {0x8E, 0x85, 0x7C, 0x5E}, 10, {0x7E, 0x12, 0x78, 0x8E, 0x85, 0x7C, 0x5E, 0x58, 0xA6, 0x7E}},
    {"7D 5E", 1, 2, 0x78, 3, {0x8E, 0x85, 0x7E}, 10, {0x7E, 0x12, 0x78, 0x8E, 0x85, 0x7D, 0x5E, 0x58, 0xA6, 0x7E}},
};

static void literal_examples(const struct side *side)
{
    static const uint8_t zeros[ROOM];
    for (size_t i = 0; i < ITEMS(literals); i++) {
        size_t len = literals[i].contents_len;
        size_t form_len = literals[i].form_len;
        uint8_t room[ROOM];
        uint8_t contents[CONTENTS];
        memset(room, 255, sizeof room);
        memset(contents, 255, sizeof contents);
        struct sdsl_eoc_written wrote = side->write(literals[i].source, literals[i].destination, literals[i].number,
                                                    literals[i].contents, len, room, sizeof room);
        example(wrote.answer == 0 && wrote.length == form_len && memcmp(room, literals[i].form, form_len) == 0 &&
                    memcmp(room + form_len, zeros, ROOM - form_len) == 0, literals[i].what, side);
        struct sdsl_eoc_message got = side->read(literals[i].form, form_len, contents, sizeof contents);
        example(got.answer == 0 && got.source == literals[i].source && got.destination == literals[i].destination &&
                    got.number == literals[i].number && got.length == len && memcmp(contents, literals[i].contents, len) == 0 &&
                    memcmp(contents + len, zeros, CONTENTS - len) == 0, literals[i].what, side);
    }
}

/* The most octets: 75 before the check sequence, and 76. */
static void longest_examples(const struct side *side)
{
    struct list body;
    struct list form;
    uint8_t room[ROOM];
    uint8_t contents[CONTENTS];
    body.len = 0;
    add_flags(&body, 75);
    frame_with(&body, 0x3FDD, &form);
    struct sdsl_eoc_message got = side->read(form.octets, form.len, contents, sizeof contents);
    example(form.len == 154 && got.answer == 0 && got.source == 7 && got.destination == 14 && got.number == 0x7E && got.length == 73 &&
                memcmp(contents, body.octets, 73) == 0, "75 octets 7E", side);
    add(&body, FLAG);
    frame_with(&body, 0x67D6, &form);
    got = side->read(form.octets, form.len, contents, sizeof contents);
    example(form.len == 156 && got.answer == SDSL_BAD_SIZE && got.length == 0, "76 octets 7E", side);

    make_longest(&body);
    frame_with(&body, 0x7D7D, &form);
    struct sdsl_eoc_written wrote = side->write(7, 14, 0x7E, body.octets + 2, 73, room, sizeof room);
    example(form.len == 156 && wrote.answer == 0 && wrote.length == 156 && memcmp(room, form.octets, 156) == 0, "the longest form", side);
    got = side->read(room, 156, contents, sizeof contents);
    example(got.answer == 0 && got.length == 73 && memcmp(contents, body.octets + 2, 73) == 0, "the longest form read", side);
    example(side->write(7, 14, 0x7E, body.octets, 74, room, sizeof room).answer == SDSL_BAD_SIZE, "74 octets of contents", side);
}

/* Records as the header lays them, lent as octets. */
static void unit_examples(const struct side *side)
{
    static const uint8_t request[] = {0x7E, 0x12, 0x02, 0x74, 0x8A, 0x7E};
    static const uint8_t status[] = {0x7E, 0x21, 0x8B, 0x06, 0x00, 0x01, 0x89, 0x8E, 0x7E};
    static const uint8_t probe[] = {0x7E, 0x10, 0x01, 0x00, 0x81, 0x5A, 0x7E};
    struct sdsl_eoc_unit units[3] = {
        {.own = SDSL_EOC_NTU}, {.own = SDSL_EOC_REGENERATOR_1}, {.own = SDSL_EOC_LTU, .contents = {9, 9, 9, 9}},
    };
    uint8_t *octets = (uint8_t *)units;
    example(sizeof units[0] == UNIT, "a record of 79 octets", side);
    struct sdsl_eoc_handed_up up = side->hand_up(request, sizeof request, octets, sizeof units);
    example(up.answer == 0 && up.units == 1 && units[0].own == 2 && units[0].present == 1 && units[0].source == 1 &&
                units[0].destination == 2 && units[0].number == 2 && units[0].length == 0, "a request to the NTU", side);
    example(units[1].present == 0 && units[1].number == 0 && units[2].present == 0 && units[2].contents[3] == 9, "the others", side);
    up = side->hand_up(status, sizeof status, octets, sizeof units);
    example(up.answer == 0 && up.units == 1 && units[2].own == 1 && units[2].present == 1 && units[2].source == 2 &&
                units[2].number == 139 && units[2].length == 3 && units[2].contents[0] == 6 && units[2].contents[2] == 1 &&
                units[2].contents[3] == 0 && units[0].number == 2 && units[1].present == 0, "a status to the LTU", side);
    up = side->hand_up(probe, sizeof probe, octets, sizeof units);
    example(up.answer == 0 && up.units == 3 && units[0].number == 1 && units[1].number == 1 && units[2].number == 1 &&
                units[1].own == 3 && units[1].destination == 0 && units[2].contents[0] == 0, "a probe to the adjacent unit", side);
    up = side->hand_up(status, sizeof status, NULL, 0);
    example(up.answer == 0 && up.units == 0, "no units", side);
    up = side->hand_up(status, sizeof status - 1, NULL, 0);
    example(up.answer == SDSL_BAD_FLAG && up.units == 0, "no units, and no closing flag", side);
}

void second_eoc(void)
{
    for (size_t i = 0; i < ITEMS(sides); i++) {
        literal_examples(&sides[i]);
        longest_examples(&sides[i]);
        unit_examples(&sides[i]);
    }
    every_empty();
    every_octet();
    every_check();
    all_ranges();
    write_lengths();
    read_lengths();
    too_short();
    huge_lengths();
    flags_and_fill();
    missing_flags();
    foreign_escapes();
    last_escapes();
    other_checks();
    damage();
    write_faults();
    read_faults();
    hand_up_faults();
    small_alphabet();
    noise();
    long_junk();
    every_own();
    many_units();
    units_lengths();
    all_round_trips();
    const struct tally tallies[] = {writes, reads, hand_ups, forms, dues, agains, round_trips, records, agreements, examples};
    print_group("eoc", tallies, ITEMS(tallies));
}

#endif
