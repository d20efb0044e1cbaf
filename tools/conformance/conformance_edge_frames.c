/* Scripts of edges of a module: the octets of its commands, and commands between samples and entries. */
#include "conformance_edges.h"

#include <string.h>

static void add(struct edge *edge, const uint8_t *octets, size_t length) {
    conformance_edge_octets(edge, EVENT_FRAME, octets, length);
}

/* Questions that change nothing. */
static void ask_all(struct edge *edge) {
    conformance_edge_command(edge, FIO2070_TYPE_RAW_INPUTS);
    conformance_edge_command(edge, FIO2070_TYPE_FILTERED_INPUTS);
    conformance_edge_pair(edge, FIO2070_TYPE_STATUS, 0);
    conformance_edge_command(edge, FIO2070_TYPE_IDENTIFY);
    conformance_edge_command(edge, FIO2070_TYPE_IDENTIFY);
}

/* Inputs change, and entries of them come. */
static void use(struct edge *edge) {
    conformance_edge_change(edge, ALL);
    conformance_edge_change(edge, conformance_next(edge->state));
    conformance_edge_poll(edge, 1);
}

/* ---- Starts ---- */

static void ask_at_start(struct edge *edge, unsigned given) {
    (void)given;
    ask_all(edge);
    conformance_edge_poll(edge, 0);
    conformance_edge_poll(edge, 0);
    conformance_edge_pair(edge, FIO2070_TYPE_WATCHDOG, 50);
    conformance_edge_pair(edge, FIO2070_TYPE_WATCHDOG, 50);
    conformance_edge_event(edge, EVENT_SYNC);
    conformance_edge_change(edge, ALL);
    conformance_edge_scans(edge, 7);
    ask_all(edge);
    conformance_edge_open(edge, 1, 1);
    use(edge);
}

/* All that a restart takes back: entries were pushed out, half of the samples of a change were taken, a load was asked
 * for, and flags, timeout and outputs were set. */
static void dirty(struct edge *edge) {
    uint8_t octets[17];
    unsigned scans;
    conformance_edge_open(edge, 1, 1);
    conformance_edge_pair(edge, FIO2070_TYPE_STATUS, 255);
    conformance_edge_pair(edge, FIO2070_TYPE_WATCHDOG, 50);
    memset(octets, 255, sizeof octets);
    octets[0] = FIO2070_TYPE_SET_OUTPUTS;
    add(edge, octets, 17);
    conformance_edge_change(edge, ALL);
    conformance_edge_poll(edge, 1);
    for (scans = 0; scans < 17; scans++) conformance_edge_change(edge, ALL);
    conformance_edge_open(edge, 3, 3);
    conformance_edge_change(edge, ALL);
    conformance_edge_scans(edge, 1);
    conformance_edge_load(edge, 1000);
}

static void restart(struct edge *edge, unsigned given) {
    dirty(edge);
    conformance_edge_event(edge, EVENT_RESTART);
    ask_all(edge);
    for (given = 0; given < 3; given++) {
        conformance_edge_scans(edge, given == 0 ? 3 : 1);
        conformance_edge_command(edge, FIO2070_TYPE_FILTERED_INPUTS);
    }
    conformance_edge_event(edge, EVENT_SYNC);
    conformance_edge_pair(edge, FIO2070_TYPE_WATCHDOG, 50);
    conformance_edge_poll(edge, 0);
    conformance_edge_change(edge, ALL);
    conformance_edge_scans(edge, 6);
    conformance_edge_poll(edge, 1);
    ask_all(edge);
}

/* The first poll after a restart is for the block that was sent last. */
static void restart_and_poll(struct edge *edge, unsigned given) {
    (void)given;
    dirty(edge);
    conformance_edge_event(edge, EVENT_RESTART);
    conformance_edge_poll(edge, 0);
    conformance_edge_open(edge, 1, 1);
    use(edge);
}

/* ---- Fields ---- */

static void clear_flags(struct edge *edge, unsigned given) {
    static const uint8_t masks[] = {0, 1, 2, 4, 8, 16, 32, 64, 127, 128, 129, 255};
    for (given = 0; given < COUNT(masks); given++) {
        conformance_edge_event(edge, EVENT_RESTART);
        conformance_edge_pair(edge, FIO2070_TYPE_STATUS, masks[given]);
        conformance_edge_pair(edge, FIO2070_TYPE_STATUS, 0);
    }
}

/* The counter is loaded with each of these numbers, and goes on from it. */
static void load(struct edge *edge, unsigned given) {
    static const uint32_t numbers[] = {0,          1,          65534,      65535,       65536,      16777215,
                                       16777216,   2147483647, 2147483648, 4294967294u, 4294967295u, 0};
    conformance_edge_open(edge, 1, 1);
    for (given = 0; given < COUNT(numbers); given++) {
        conformance_edge_load(edge, numbers[given]);
        conformance_edge_event(edge, EVENT_SYNC);
        conformance_edge_pair(edge, FIO2070_TYPE_STATUS, 0);
        use(edge);
    }
}

/* Levels and controls all 1, all 0, and one octet of them alone. */
static void set_outputs(struct edge *edge, unsigned given) {
    uint8_t octets[17];
    for (given = 0; given < 24; given++) {
        memset(octets, given % 2 == 0 ? 255 : 0, sizeof octets);
        if (given >= 2) memset(octets + (given % 4 < 2 ? 1 : 9), given % 3 == 0 ? 255 : 0, 8);
        if (given >= 8) octets[1 + given % 16] ^= 255;
        octets[0] = FIO2070_TYPE_SET_OUTPUTS;
        add(edge, octets, 17);
    }
}

static void set_timeouts(struct edge *edge, unsigned given) {
    static const uint8_t timeouts[] = {0, 1, 9, 10, 11, 50, 99, 100, 101, 127, 128, 129, 200, 254, 255, 0};
    for (given = 0; given < COUNT(timeouts); given++) {
        conformance_edge_pair(edge, FIO2070_TYPE_WATCHDOG, timeouts[given]);
    }
}

/* ---- Configurations ---- */

/* Items of random inputs; the last 64 name each input once. */
static size_t write_items(uint8_t *octets, unsigned count, uint64_t *state) {
    unsigned item;
    octets[0] = FIO2070_TYPE_CONFIGURE_INPUTS;
    octets[1] = (uint8_t)count;
    for (item = 0; item < count; item++) {
        unsigned input = count - item <= 64 ? (item * 37) % 64 : conformance_below(state, 64);
        octets[2 + 3 * item] = (uint8_t)(input | (conformance_below(state, 8) == 0 ? 128u : 0u));
        octets[3 + 3 * item] = (uint8_t)conformance_below(state, 3);
        octets[4 + 3 * item] = (uint8_t)conformance_below(state, 3);
    }
    return 2 + 3 * (size_t)count;
}

static void configure(struct edge *edge, unsigned given) {
    static const uint8_t counts[] = {0, 1, 2, 63, 64, 65, 85, 86, 127, 128, 129, 170, 191, 192, 200, 254, 255};
    uint8_t octets[2 + 3 * 255];
    conformance_edge_open(edge, 1, 1);
    for (given = 0; given < COUNT(counts); given++) {
        add(edge, octets, write_items(octets, counts[given], edge->state));
        conformance_edge_change(edge, ALL);
        conformance_edge_scans(edge, 2);
        use(edge);
    }
}

/* A configuration is refused while entries wait and samples were taken, and would have changed filters. */
static void refuse(struct edge *edge, unsigned count, unsigned place, uint8_t item) {
    uint8_t octets[2 + 3 * 255];
    size_t length = write_items(octets, count, edge->state);
    octets[2 + 3 * place] = item;
    conformance_edge_change(edge, (uint64_t)0xff << conformance_below(edge->state, 56));
    conformance_edge_scans(edge, 2);
    conformance_edge_change(edge, conformance_next(edge->state));
    add(edge, octets, length);
    conformance_edge_scans(edge, 1);
    conformance_edge_poll(edge, 1);
}

static void refuse_items(struct edge *edge, unsigned given) {
    static const uint8_t counts[] = {1, 2, 64, 65, 128, 129, 254, 255};
    static const uint8_t absent[] = {64, 127, 65, 192, 100, 255};
    conformance_edge_open(edge, 2, 2);
    for (given = 0; given < 3 * COUNT(counts); given++) {
        unsigned count = counts[given / 3], place = given % 3 == 0 ? count - 1 : given % 3 == 1 ? 0 : count / 2;
        refuse(edge, count, place, absent[given % COUNT(absent)]);
    }
}

/* ---- Octets ---- */

static size_t right_length(uint8_t type) {
    static const uint8_t lengths[] = {2, 5, 2, 1, 1, 2, 17, 1, 1, 2, 1, 1};
    return lengths[type - FIO2070_TYPE_STATUS];
}

/* Each command too short and too long; bodies and unknown types of the lengths that frames may have, or not. */
static void try_lengths(struct edge *edge, unsigned given) {
    static const unsigned lengths[] = {0, 1, 255, 256, 257, 512, 772, 773, 774, 1023, 1024};
    static const uint8_t types[] = {56, 57, 59, 61, 48, 0, 255};
    uint8_t octets[CONFORMANCE_LONGEST_FRAME], type;
    unsigned row;
    memset(octets, 0, sizeof octets);
    conformance_edge_open(edge, 1, 1);
    for (type = FIO2070_TYPE_STATUS; type <= FIO2070_TYPE_IDENTIFY; type++) {
        octets[0] = type;
        for (given = 0; given < 4; given++) add(edge, octets, right_length(type) - 1 + given);
        use(edge);
    }
    for (row = 0; row < COUNT(types); row++) {
        octets[0] = types[row];
        for (given = row % 2; given < COUNT(lengths); given += 2) add(edge, octets, lengths[given]);
        use(edge);
    }
    ask_all(edge);
}

/* Each first octet, alone or with few after it. */
static void try_types(struct edge *edge, unsigned given) {
    uint8_t octets[8];
    unsigned type;
    (void)given;
    conformance_edge_open(edge, 1, 1);
    for (type = 0; type < 256; type++) {
        uint64_t rest = conformance_next(edge->state);
        memcpy(octets, &rest, sizeof octets);
        octets[0] = (uint8_t)type;
        add(edge, octets, 1 + conformance_below(edge->state, 3) * conformance_below(edge->state, 4) % 8);
        if (type % 16 == 15) use(edge);
    }
    ask_all(edge);
}

/* Each command often, and refused frames and LINESYNC more often than an octet counts to. */
static void repeat_all(struct edge *edge, unsigned given) {
    uint8_t octets[17], type;
    memset(octets, 0, sizeof octets);
    conformance_edge_open(edge, 1, 1);
    for (type = FIO2070_TYPE_STATUS; type <= FIO2070_TYPE_IDENTIFY; type++) {
        octets[0] = type;
        for (given = 0; given < 33; given++) add(edge, octets, right_length(type));
    }
    use(edge);
    for (given = 0; given < 260; given++) add(edge, octets, given % 4 == 0 ? 0 : 2);
    use(edge);
    for (given = 0; given < 70; given++) conformance_edge_event(edge, EVENT_SYNC);
    load(edge, 0);
    for (given = 0; given < 12; given++) {
        conformance_edge_open(edge, (uint8_t)(1 + given % 2), (uint8_t)(1 + given % 2));
        conformance_edge_change(edge, ALL);
        conformance_edge_scans(edge, 1);
        conformance_edge_poll(edge, 1);
    }
}

/* ---- Between samples and entries ---- */

enum { INTERRUPTIONS = 28 };

/* What may come between two scans. */
static void interrupt(struct edge *edge, unsigned which) {
    static const uint8_t others[][6] = {{49, 0}, {49, 255}, {58, 10}, {58, 200}, {56, 1}, {57, 1}, {59, 1}, {48, 1},
                                        {61, 1}, {54, 0, 0}, {51, 1, 0}, {51, 1}, {51, 0}, {51, 1, 64, 1, 1},
                                        {51, 1, 5, 3, 3}, {51, 1, 133, 3, 3}, {51, 1, 5, 3, 3}};
    static const uint8_t lengths[] = {2, 2, 2, 2, 2, 2, 2, 2, 2, 3, 3, 2, 2, 5, 5, 5, 5};
    uint8_t octets[CONFORMANCE_LONGEST_FRAME];
    memset(octets, 56, sizeof octets);
    switch (which) {
    case 0: conformance_edge_poll(edge, 1); break;
    case 1: conformance_edge_poll(edge, 0); break;
    case 2: conformance_edge_poll(edge, 100); break;
    case 3: conformance_edge_command(edge, FIO2070_TYPE_RAW_INPUTS); break;
    case 4: conformance_edge_command(edge, FIO2070_TYPE_FILTERED_INPUTS); break;
    case 5: conformance_edge_command(edge, FIO2070_TYPE_IDENTIFY); break;
    case 6: conformance_edge_event(edge, EVENT_SYNC); break;
    case 7: add(edge, octets, 0); break;
    case 8: add(edge, octets, sizeof octets); break;
    case 9: conformance_edge_load(edge, 70000); break;
    case 10: conformance_edge_open(edge, 3, 3); break;
    default: add(edge, others[which - 11], lengths[which - 11]); break;
    }
}

/* Each of them comes while entries wait and half of the samples of a change were taken. */
static void interrupt_all(struct edge *edge, unsigned given) {
    for (given = 0; given < INTERRUPTIONS; given++) {
        conformance_edge_open(edge, 3, 3);
        conformance_edge_change(edge, 0xff0f0f);
        conformance_edge_scans(edge, 2);
        conformance_edge_change(edge, (uint64_t)0xf00f << 32 | 0x0f0f);
        conformance_edge_scans(edge, 1);
        interrupt(edge, given);
        conformance_edge_scans(edge, 2);
        conformance_edge_poll(edge, 1);
    }
}

const struct edge_row CONFORMANCE_EDGE_FRAME_ROWS[CONFORMANCE_EDGE_FRAMES] = {
    {ask_at_start, 0}, {set_timeouts, 0}, {set_outputs, 0}, {restart, 0},       {clear_flags, 0}, {load, 0},
    {refuse_items, 0}, {configure, 0},    {try_lengths, 0}, {interrupt_all, 0}, {try_types, 0},   {restart_and_poll, 0},
    {repeat_all, 0}};
