/* Random frames, for the tests of the library for C. */
#ifndef RANDOM_FRAMES_H
#define RANDOM_FRAMES_H

#include "random_numbers.h"

#include <stddef.h>

enum { LONGEST = 800 };

/* Fills the octets; most of them begin with a type and have a length near the one it needs, a third with the type of a
 * configuration or of a block. */
static size_t fill(uint8_t *octets) {
    static const uint16_t needed[] = {2, 5, 2, 1, 1, 2, 17, 9, 9, 2, 9, 1, 8, 2, 2, 13, 13, 8, 9, 9, 9, 2, 9, 9};
    size_t length = below(LONGEST + 1), place;
    unsigned kind = below(24), count = below(256);
    int begins = below(8) != 0;
    if (below(3) == 0) kind = below(2) ? 2 : 17;
    if (begins) {
        length = needed[kind];
        if (kind == 2 || kind == 17) length += 3 * count;
        if (below(4) == 0) length = length + below(3) - 1;
    }
    for (place = 0; place < length; place++) octets[place] = (uint8_t)next_random();
    if (begins && length > 0) octets[0] = (uint8_t)(kind < 12 ? 49 + kind : 165 + kind);
    if (begins && kind == 2 && length > 1) octets[1] = (uint8_t)count;
    if (begins && kind == 17 && length > 2) octets[2] = (uint8_t)count;
    return length;
}

#endif
