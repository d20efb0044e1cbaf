/* Random numbers, the same on each processor, for the tests of the library for C. */
#ifndef RANDOM_NUMBERS_H
#define RANDOM_NUMBERS_H

#include <stdint.h>

static uint64_t random_state;

/* xorshift64* */
static uint64_t next_random(void) {
    random_state ^= random_state >> 12;
    random_state ^= random_state << 25;
    random_state ^= random_state >> 27;
    return random_state * UINT64_C(2685821657736338717);
}

static unsigned below(unsigned bound) { return (unsigned)((next_random() >> 33) % bound); }

#endif
