/* eoc.c: messages of the operations channel: inputs, usual and dear, and the operations on one message. See bench.h. */
#include "bench.h"

#include "../tests/second/harness.h"

#include <string.h>

#define FLAG 0x7E
#define ESCAPE 0x7D
#define UNITS 4 /* that a message is handed up to */

struct message_set message_sets[MESSAGE_SETS] = {
    [ORDINARY_2] = {.size = 2, .flags = false},
    [ORDINARY_20] = {.size = 20, .flags = false},
    [FLAGS_20] = {.size = 20, .flags = true},
    [ORDINARY_75] = {.size = 75, .flags = false},
    [FLAGS_75] = {.size = 75, .flags = true},
};

static struct sdsl_eoc_written written(const struct library *library, size_t size, const struct message *one, uint8_t *form)
{
    const uint8_t *octets = one->octets;
    return library->eoc_write(octets[0] >> 4, octets[0] & 15, octets[1], octets + 2, size - 2, form, SDSL_EOC_FORM_MAX);
}

/* ---- Inputs ---- */

/* An octet that is not escaped. */
static uint8_t ordinary(void)
{
    uint8_t octet;
    do {
        octet = (uint8_t)below(256);
    } while (octet == FLAG || octet == ESCAPE);
    return octet;
}

/* The form by our own function; the rows for writing see that plain C writes the same. True where it was refused. */
static bool refuses(const struct message_set *set, struct message *one)
{
    struct sdsl_eoc_written form = written(&ours, set->size, one, one->form);
    one->form_len = form.length;
    return form.answer != SDSL_DONE;
}

/* Of addresses, number and check sequence nothing is escaped; of the contents nothing, or all of it. */
static bool make_usual(const struct message_set *set, struct message *one)
{
    do {
        one->octets[0] = (uint8_t)(16 * below(16) + SDSL_EOC_EVERY_UNIT);
        one->octets[1] = ordinary();
        for (size_t k = 2; k < set->size; k++) {
            one->octets[k] = set->flags ? FLAG : ordinary();
        }
        if (refuses(set, one)) {
            return false;
        }
    } while (one->form_len != 4 + set->size + (set->flags ? set->size - 2 : 0));
    return true;
}

/* Number and contents of 7E alone; each of their octets 7E by an even chance; and so, with a wrong bit in the check sequence. */
static bool make_dear(const struct message_set *set, struct message *one, size_t which)
{
    do {
        one->octets[0] = (uint8_t)(16 * below(16) + SDSL_EOC_EVERY_UNIT);
        for (size_t k = 1; k < set->size; k++) {
            one->octets[k] = which == ALL_FLAGS || below(2) == 0 ? FLAG : ordinary();
        }
        if (refuses(set, one)) {
            return false;
        }
    } while (one->form[one->form_len - 2] < 0x80); /* then the wrong bit makes no flag and no escape */
    one->form[one->form_len - 2] ^= which == WRONG_SEQUENCE;
    return true;
}

bool make_message_inputs(void)
{
    bool made = true;
    for (size_t s = 0; s < MESSAGE_SETS; s++) {
        struct message_set *set = &message_sets[s];
        for (size_t i = 0; i < BATCH; i++) {
            made = make_usual(set, &set->usual[i]) && made;
            for (size_t which = 0; which < MESSAGE_CASES; which++) {
                made = make_dear(set, &set->dear[which][i], which) && made;
            }
        }
    }
    return made;
}

/* ---- One message through an operation ---- */

void write_message(const struct library *library, const struct message_set *set, const struct message *one, size_t i)
{
    struct sdsl_eoc_written form = written(library, set->size, one, results.octets + i * SDSL_EOC_FORM_MAX);
    memcpy(results.numbers + 2 * i, &form, sizeof form);
}

void read_message(const struct library *library, const struct message_set *set, const struct message *one, size_t i)
{
    (void)set;
    struct sdsl_eoc_message message =
        library->eoc_read(one->form, one->form_len, results.octets + i * SDSL_EOC_CONTENTS_MAX, SDSL_EOC_CONTENTS_MAX);
    memcpy(results.numbers + 5 * i, &message, sizeof message);
}

/* All units are meant. Each has an address of its own, which the host sets once; here it counts, on every side alike. */
void hand_up_message(const struct library *library, const struct message_set *set, const struct message *one, size_t i)
{
    (void)set;
    uint8_t *units = results.octets + i * UNITS * SDSL_EOC_UNIT_OCTETS;
    for (size_t u = 0; u < UNITS; u++) {
        units[u * SDSL_EOC_UNIT_OCTETS] = (uint8_t)(1 + u);
    }
    struct sdsl_eoc_handed_up up = library->eoc_hand_up(one->form, one->form_len, units, UNITS * SDSL_EOC_UNIT_OCTETS);
    results.numbers[2 * i] = up.answer;
    results.numbers[2 * i + 1] = (uint32_t)up.units;
}

/* ---- Check sequences ---- */

void sequences_of(const struct library *library, size_t size, const struct message *messages)
{
    uint32_t (*sequence)(const uint8_t *octets, size_t count) = library->sequence;
    for (size_t i = 0; i < BATCH; i++) {
        results.numbers[i] = sequence(messages[i].octets, size);
    }
}
