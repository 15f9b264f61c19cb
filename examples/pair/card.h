/*
 * card.h: a line card's host, everything of SDSL through sdsl.h. A millisecond is: card_send, the line, card_hear, card_tick.
 *
 *   card.c     the supervisor: ticks, reports and the story that is printed
 *   sending.c  what a card puts on the line in each phase
 *   hearing.c  what it makes of the line: frames in activation, payload in data mode
 */
#ifndef CARD_H
#define CARD_H

#include "line.h"
#include "sdsl.h"

#include <stdbool.h>

/* What a receiver asks of the far transmitter; a training frame carries it (clauses 4.1.3 and 4.3.3.2). */
struct wishes {
    uint32_t count; /* of coefficients */
    uint8_t coefficients[SDSL_COEFFICIENT_OCTETS];
    uint32_t a, b;
    uint8_t vendor[SDSL_VENDOR_OCTETS];
};

/* Data bits in the order of the line, from the first symbol of data mode; laid in octets as in a frame. */
#define RECORD_OCTETS 65536
struct record {
    size_t bits;
    uint8_t octets[RECORD_OCTETS];
};
void record_bit(struct record *record, unsigned bit);
unsigned bit_at(const uint8_t *octets, size_t place); /* places from 0 */

/* Transmitter. */
struct sender {
    uint32_t scrambler;
    uint8_t frame[SDSL_FRAME_OCTETS]; /* being sent, scrambled */
    unsigned bit;                     /* its next bit, from 0; SDSL_FRAME_BITS where none is under way */
    unsigned frames, finals;          /* begun; final ones that are over */
    unsigned gap;                     /* silent symbols sent before the first of data mode */
    uint32_t reg;                     /* the encoder's */
    uint8_t history[SDSL_HISTORY_OCTETS];
    struct record data;
    size_t payload_from;              /* its first payload bit in `data`; before it idle ones */
    uint64_t chance;                  /* what makes the payload */
};

/* Receiver. In activation the library finds the frames: it wants its state and the line room back with each lump of bits. */
struct receiver {
    unsigned adapted; /* milliseconds of signal so far */
    struct sdsl_receiver frames;
    uint8_t line[SDSL_LINE_OCTETS];
    unsigned given, finals; /* frames; final ones among them */
    unsigned silent;        /* symbols of silence in a row */
    bool begun;             /* the first symbol of data mode was heard */
    uint32_t scrambler, reg;
    uint8_t history[SDSL_HISTORY_OCTETS];
    struct record data;
    unsigned misfits; /* symbols that the far encoder cannot have sent, by the words it was asked to use */
};

struct card {
    const char *name;
    uint32_t end;
    struct sdsl_supervisor state;
    struct wishes own; /* what its receiver asks of the far card */
    struct wishes far; /* what the far card's frame asked of it */
    bool deaf;         /* a fault: its receiver never converges */
    bool turned;       /* a fault: it reads A and B last bit first */
    bool newer;        /* a card of another make: it sets two of the reserved bits */
    bool quiet;        /* prints no story */
    unsigned now;      /* milliseconds */
    unsigned trained;  /* ticks from the opening to data mode */
    bool gave_up;      /* it was in Exception */
    struct sender send;
    struct receiver hear;
};

/* An end of the line in Ready. The seed makes what its receiver asks for and its payload. */
void card_start(struct card *card, uint32_t end, uint64_t seed);

/* A report, or a tick; tells the story where the phase changes. */
void card_report(struct card *card, uint32_t code);
void card_tick(struct card *card);

const char *card_phase(const struct card *card); /* its name */
uint32_t far_end(const struct card *card);       /* whose bits it hears */

/* A line of the story. */
void card_tell(const struct card *card, const char *format, ...) __attribute__((format(printf, 2, 3)));

void card_send(struct card *card, struct symbol out[BLOCK]);
void card_hear(struct card *card, const int32_t in[BLOCK]);

/* Whether a refusal came from the library where none can: that would be this host's mistake. */
void must(uint32_t answer, const char *call);

#endif
