/* Random numbers, the octets of random commands, octets as digits, and events. */
#ifndef CONFORMANCE_OCTETS_H
#define CONFORMANCE_OCTETS_H

#include "conformance.h"

#define COUNT(list) (sizeof list / sizeof list[0])

/* The next number of a sequence whose state is not 0. */
uint64_t conformance_next(uint64_t *state);

/* A number from 0 to bound - 1. */
unsigned conformance_below(uint64_t *state, unsigned bound);

/* What the inputs do in a script. */
enum theme {
    ORDINARY,
    OVERFLOWING, /* all of some inputs change at each scan, and few polls come */
    CALM,        /* filters are long, and inputs seldom change */
    STEADY       /* scans and polls alone, long enough for block numbers to come round */
};

/* What the CPU's end and the inputs are at. */
struct course {
    enum theme theme;
    unsigned number;
    uint64_t levels, moving; /* the inputs that change together */
};

/* The levels of the next scan. */
uint64_t conformance_levels(struct course *course, uint64_t *state);

/* The inputs that change together in a course of this theme: mostly all, otherwise a number of them that divides 255. */
uint64_t conformance_moving(enum theme theme, uint64_t *state);

/* The octets of a command, with at most CONFORMANCE_LONGEST_FRAME of them. Each returns how many there are. */
size_t conformance_command(uint8_t *octets, uint64_t *state);
size_t conformance_configuration(uint8_t *octets, uint64_t *state);
size_t conformance_hostile(uint8_t *octets, uint64_t *state);

/* Writes a load of the counter to the front of `octets`, and returns how many octets it has. */
size_t conformance_load(uint32_t number, uint8_t *octets, size_t room);

/* A configuration of all inputs, all reported, with filters as the theme has them. */
size_t conformance_open(uint8_t *octets, enum theme theme, uint64_t *state);

/* Octets as pairs of hexadecimal digits. Reading returns how many there are; FAILED if there are more than `most`, or if the
 * words are anything else. */
void conformance_write_octets(const uint8_t *octets, size_t length, FILE *out);
size_t conformance_read_octets(const char *words, uint8_t *octets, size_t most);

/* An event, with the octets of its frame, if there is one. */
struct event conformance_event(enum event_kind kind, const uint8_t *octets, size_t length);

int conformance_has_event(const struct script *script, enum event_kind kind);

#endif
