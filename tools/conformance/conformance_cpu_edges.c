/* Scripts of edges of a CPU's end: polls without answers, and blocks that a module seldom sends. */
#include "conformance_edges.h"

#include <string.h>

/* ---- Frames that come to the CPU's end ---- */

/* Writes a block, as an answer carries it. Returns how many octets it has. */
static size_t write_block(uint8_t *octets, uint8_t number, uint8_t status, uint32_t stamp, unsigned count,
                          const uint8_t *entries) {
    size_t length = 3 + 3 * (size_t)count;
    int octet;
    octets[0] = FIO2070_TYPE_POLL + FIO2070_TYPE_ANSWER;
    octets[1] = number;
    octets[2] = (uint8_t)count;
    memcpy(octets + 3, entries, 3 * (size_t)count);
    octets[length++] = status;
    for (octet = 3; octet >= 0; octet--) octets[length++] = (uint8_t)(stamp >> 8 * octet);
    return length;
}

static void hear_block(struct edge *edge, uint8_t number, uint8_t status, uint32_t stamp, unsigned count,
                       const uint8_t *entries) {
    uint8_t octets[FIO2070_LONGEST_FRAME];
    conformance_edge_octets(edge, EVENT_HEAR, octets, write_block(octets, number, status, stamp, count, entries));
}

/* Entries of any inputs, in both states. */
static void random_entries(uint8_t *entries, unsigned count, uint64_t *state) {
    unsigned place;
    for (place = 0; place < 3 * count; place++) entries[place] = (uint8_t)conformance_next(state);
}

/* The CPU's end hears a block. If its number is the one that is due, the next one is due afterwards. */
static void hear(struct edge *edge, uint8_t number, uint8_t status, unsigned count, uint32_t stamp) {
    uint8_t entries[3 * 255];
    random_entries(entries, count, edge->state);
    hear_block(edge, number, status, stamp, count, entries);
    if (number == edge->number) edge->number++;
}

static void hear_due(struct edge *edge, uint8_t status, unsigned count) {
    conformance_edge_event(edge, EVENT_POLL);
    hear(edge, edge->number, status, count, (uint32_t)conformance_next(edge->state));
}

/* ---- A line with a module ---- */

/* A poll, and the module's answer to it. */
static void ask(struct edge *edge) {
    conformance_edge_event(edge, EVENT_POLL);
    conformance_edge_event(edge, EVENT_DELIVER);
    conformance_edge_event(edge, EVENT_ANSWER);
    edge->number++;
}

static void send(struct edge *edge, const uint8_t *octets, size_t length) {
    conformance_edge_octets(edge, EVENT_COMMAND, octets, length);
    conformance_edge_event(edge, EVENT_DELIVER);
    conformance_edge_event(edge, EVENT_ANSWER);
}

static void open(struct edge *edge) {
    uint8_t octets[CONFORMANCE_LONGEST_FRAME];
    send(edge, octets, conformance_open(octets, OVERFLOWING, edge->state));
}

/* ---- Outages ---- */

enum outage { LOST_POLLS, LOST_ANSWERS, UNREADABLE, STALE, OTHER };

/* This many successive polls get no block; then the line is good again. */
static void stay_out(struct edge *edge, enum outage outage, unsigned polls) {
    uint8_t other[2] = {FIO2070_TYPE_LOAD_COUNTER + FIO2070_TYPE_ANSWER, 0};
    while (polls-- > 0) {
        conformance_edge_event(edge, EVENT_POLL);
        if (outage == LOST_ANSWERS) conformance_edge_event(edge, EVENT_DELIVER);
        if (outage == UNREADABLE) conformance_edge_octets(edge, EVENT_HEAR, other, polls % 2);
        if (outage == STALE) hear(edge, (uint8_t)(edge->number + 2), 0, 2, 1000);
        other[1] = (uint8_t)polls;
        if (outage == OTHER) conformance_edge_octets(edge, EVENT_HEAR, other, sizeof other);
    }
    ask(edge);
    ask(edge);
}

static void fill_outage(struct edge *edge, unsigned outage) {
    open(edge);
    conformance_edge_change(edge, ALL);
    ask(edge);
    conformance_edge_change(edge, ALL);
    stay_out(edge, (enum outage)outage, outage == LOST_ANSWERS ? 110 : 300);
    if (outage == LOST_POLLS) return;
    conformance_edge_change(edge, ALL);
    stay_out(edge, (enum outage)outage, 6 + conformance_below(edge->state, 8));
}

/* Each number of lost answers up to this one. */
static void lose_each(struct edge *edge, unsigned most) {
    unsigned polls;
    open(edge);
    for (polls = 1; polls <= most; polls++) {
        conformance_edge_change(edge, ALL);
        stay_out(edge, LOST_ANSWERS, polls);
    }
}

/* Before any answer. */
static void begin_out(struct edge *edge, unsigned polls) { stay_out(edge, LOST_POLLS, polls); }

static void lose_answers(struct edge *edge, unsigned polls) { stay_out(edge, LOST_ANSWERS, polls); }

/* ---- Blocks ---- */

/* Each number, each status and each count of entries, then more than 65,536 items in all, and more than 1,024 blocks. */
static void hear_all_blocks(struct edge *edge, unsigned given) {
    unsigned block;
    for (block = 0; block < 256; block++) {
        hear_due(edge, (uint8_t)(block * 37 + given), block % 2 == 0 ? block : 256 - block);
    }
    for (block = 0; block < 264; block++) hear_due(edge, 0, 128);
    for (block = 0; block < 510; block++) hear_due(edge, 0, 1);
}

/* Statuses with few entries and with none, one after the other. */
static void hear_statuses(struct edge *edge, unsigned given) {
    static const uint8_t statuses[] = {0, 1, 2, 3, 4, 4, 5, 6, 7, 8, 9, 10, 11, 12, 12, 13, 14, 15, 16, 32, 64, 128, 240, 255, 4};
    for (given = 0; given < 2 * COUNT(statuses); given++) hear_due(edge, statuses[given / 2], given % 2 * 3);
}

/* Blocks as they were before, with the next number, and with entries that are all the same. */
static void hear_same(struct edge *edge, unsigned given) {
    uint8_t entries[3 * 4];
    for (given = 0; given < 24; given++) {
        uint8_t status = given % 6 == 2 ? FIO2070_BIT_AGAIN : given % 12 == 5 ? FIO2070_BIT_LOST : 0;
        if (given % 6 == 0) random_entries(entries, 4, edge->state);
        if (given % 6 == 3) memset(entries, (int)given, sizeof entries);
        conformance_edge_event(edge, EVENT_POLL);
        hear_block(edge, edge->number++, status, 70000 + given / 6, given < 12 ? 4 : 1, entries);
    }
}

/* Counts of entries about the edges of octets and of frames. */
static void hear_counts(struct edge *edge, unsigned given) {
    static const uint8_t counts[] = {0, 1, 2, 63, 64, 65, 84, 85, 86, 127, 128, 129, 170, 171, 200, 254, 255, 255};
    for (given = 0; given < COUNT(counts); given++) hear_due(edge, given % 3 == 0 ? 4 : 0, counts[given]);
}

/* Blocks with each other number than the one that is due. */
static void hear_strangers(struct edge *edge, unsigned given) {
    uint8_t due;
    hear_due(edge, 0, 2);
    due = edge->number;
    for (given = 1; given < 256; given++) {
        if (given % 16 == 1) conformance_edge_event(edge, EVENT_POLL);
        hear(edge, (uint8_t)(due + given), 0, 1, 100000);
    }
    hear_due(edge, 0, 1);
}

/* Stamps at the edges of 16 and of 32 bits, with entries at, before and after them. */
static void hear_stamps(struct edge *edge, unsigned given) {
    static const uint32_t stamps[] = {0,          1,           65535,       65536,   65537, 131071,     131072,
                                      2147483647, 2147483648u, 4294967295u, 4294901760u, 5, 4294901759u};
    static const uint16_t after[] = {0, 1, 2, 0xffff, 0xfffe, 0x8000, 0x7fff, 0x8001};
    uint8_t entries[3 * 12];
    for (given = 0; given < COUNT(stamps); given++) {
        unsigned entry;
        random_entries(entries, 12, edge->state);
        for (entry = 0; entry < 10; entry++) {
            unsigned low = entry < 8 ? (stamps[given] + after[entry]) & 0xffff : entry == 8 ? 0 : 0xffff;
            entries[3 * entry + 1] = (uint8_t)(low >> 8);
            entries[3 * entry + 2] = (uint8_t)low;
        }
        conformance_edge_event(edge, EVENT_POLL);
        hear_block(edge, edge->number++, 0, stamps[given], 12, entries);
    }
}

/* ---- Octets ---- */

/* Blocks that are due, with octets too few and too many; a count of their own, or of a block that is whole. */
static void hear_lengths(struct edge *edge, unsigned given) {
    static const uint8_t counts[] = {0, 1, 2, 85, 128, 254, 255};
    uint8_t octets[CONFORMANCE_LONGEST_FRAME], entries[3 * 255];
    for (given = 0; given < COUNT(counts); given++) {
        size_t length, cut;
        memset(octets, 0, sizeof octets);
        random_entries(entries, 255, edge->state);
        length = write_block(octets, edge->number, 0, 1000, counts[given], entries);
        conformance_edge_event(edge, EVENT_POLL);
        for (cut = 1; cut < 8; cut++) conformance_edge_octets(edge, EVENT_HEAR, octets, length - cut);
        for (cut = 1; cut < 5; cut++) conformance_edge_octets(edge, EVENT_HEAR, octets, length + cut);
        conformance_edge_octets(edge, EVENT_HEAR, octets, given % 2 == 0 ? 774 : 1024);
        hear_due(edge, 0, 1);
    }
}

/* Each first octet, alone, as a block that is due, and as an answer of another type may be. */
static void hear_types(struct edge *edge, unsigned given) {
    static const size_t lengths[] = {8, 2, 2, 13, 13, 8, 6, 1, 773, 2, 2, 2};
    uint8_t octets[CONFORMANCE_LONGEST_FRAME];
    unsigned type;
    (void)given;
    memset(octets, 0, sizeof octets);
    conformance_edge_octets(edge, EVENT_HEAR, octets, 0);
    for (type = 0; type < 256; type++) {
        int is_other = type >= 177 && type <= 188;
        octets[0] = (uint8_t)type;
        octets[1] = edge->number;
        if (type != 182) conformance_edge_octets(edge, EVENT_HEAR, octets, is_other ? lengths[type - 177] : 8);
        if (is_other || type % 16 == 0) conformance_edge_octets(edge, EVENT_HEAR, octets, 1);
        octets[1] = 255;
        if (is_other && type != 182) conformance_edge_octets(edge, EVENT_HEAR, octets, lengths[type - 177]);
        octets[1] = edge->number;
        if (type >= 183 && type <= 188) conformance_edge_octets(edge, EVENT_HEAR, octets, 8);
        if (type % 32 == 31) hear_due(edge, 0, 1);
    }
}

/* Other commands, with their answers: configurations, refused ones too, and what has edges of its own. */
static void send_commands(struct edge *edge, unsigned given) {
    uint8_t octets[CONFORMANCE_LONGEST_FRAME];
    for (given = 0; given < 40; given++) {
        size_t length = given % 3 == 0 ? conformance_configuration(octets, edge->state)
                                       : conformance_command(octets, edge->state);
        send(edge, octets, length);
        if (given % 3 != 0) continue;
        octets[0] = FIO2070_TYPE_CONFIGURE_INPUTS;
        memset(octets + 1, given % 2 == 0 ? 64 : 1, 4);
        octets[1] = 1;
        send(edge, octets, 5);
        conformance_edge_event(edge, EVENT_SYNC);
        open(edge);
        conformance_edge_change(edge, ALL);
        ask(edge);
    }
}

/* An answer comes again and again, and then a poll does. */
static void repeat_frames(struct edge *edge, unsigned times) {
    unsigned left;
    open(edge);
    conformance_edge_change(edge, ALL);
    ask(edge);
    for (left = times; left > 0; left--) conformance_edge_event(edge, EVENT_ANSWER);
    conformance_edge_change(edge, ALL);
    conformance_edge_event(edge, EVENT_POLL);
    for (left = times / 4; left > 0; left--) conformance_edge_event(edge, EVENT_DELIVER);
    conformance_edge_event(edge, EVENT_ANSWER);
    ask(edge);
}

/* ---- All ---- */

static const struct edge_row ROWS[] = {
    {hear_stamps, 0}, {hear_same, 0}, {hear_counts, 0}, {hear_statuses, 0},         {fill_outage, LOST_POLLS},
    {hear_lengths, 0},          {begin_out, 33},  {lose_answers, 33},         {fill_outage, UNREADABLE},
    {fill_outage, STALE},       {hear_types, 0},  {send_commands, 0},         {fill_outage, OTHER},
    {fill_outage, LOST_ANSWERS}, {hear_strangers, 0}, {repeat_frames, 300},   {lose_each, 20},
    {hear_all_blocks, 0},       {begin_out, 300}, {lose_answers, 300}};

const unsigned CONFORMANCE_CPU_EDGES = COUNT(ROWS);

void conformance_cpu_edge(struct script *script, unsigned number, size_t most, uint64_t *state) {
    const struct edge_row *row =
        number < CONFORMANCE_CPU_EDGES ? &ROWS[number] : &CONFORMANCE_CPU_LONG_ROWS[number - CONFORMANCE_CPU_EDGES];
    script->id = 2;
    script->per_block = FIO2070_MOST_ENTRIES;
    script->number = conformance_block_number(state);
    conformance_fill(row, script, script->number, most, state);
}
