/* A module that samples by a clock of its own: what its answers say that does not depend on when it sampled. */
#ifndef CONFORMANCE_CLOCK_H
#define CONFORMANCE_CLOCK_H

#include "conformance.h"

/* Two times of the tester in milliseconds, between which something happened. */
struct span {
    int64_t first, last;
};

/* What is known of such a module. */
struct observer {
    struct span counted_from; /* the counter was `base` */
    uint32_t base;
    uint64_t levels, ignored, reported; /* as set, as configured, and ever reported since the reset */
    uint8_t leading[64], trailing[64];
    int64_t steady_since[64];
    uint8_t states[64];      /* after the last entry of the input, or UNKNOWN */
    uint64_t hazy;           /* inputs whose waiting entries may be of before they were last configured */
    int is_loaded;           /* waiting entries may have stamps of before a load */
    int has_last;            /* an entry came */
    uint16_t last_stamp;
    uint8_t last_input;
    size_t kept_length;
    uint8_t kept[FIO2070_LONGEST_FRAME]; /* the block that was sent last */
};

/* The fields that depend on the module's clock. */
#define CONFORMANCE_CLOCK_FIELDS \
    (FIELD_BIT(STAMP) | FIELD_BIT(INPUTS) | FIELD_BIT(COUNT) | FIELD_BIT(ENTRY) | FIELD_BIT(MORE) | FIELD_BIT(LOST) | \
     FIELD_BIT(BLOCK_STAMP) | FIELD_BIT(REPEAT))

/* Milliseconds of a clock that goes on evenly. They have 64 bits, since in 32 they would end after 24 days. */
int64_t conformance_now_ms(void);

void conformance_clock_reset(struct observer *observer, struct span span);
void conformance_clock_levels(struct observer *observer, uint64_t levels);
void conformance_clock_load(struct observer *observer, uint32_t number, struct span span);

/* The fields of an answer that no clock explains, in the place of those that depend on it; `observed` of the difference
 * says why. */
uint32_t conformance_clock_fields(struct observer *observer, struct span span, uint8_t per_block, uint32_t fields,
                                  struct difference *difference);

#endif
