/* The long scripts of a run: what a program does only after thousands of scans, polls or blocks, and each size of a
 * configuration and of a block. A run has each of them once, if it has room for all. */
#include "conformance_edges.h"

#include <string.h>

/* More than 4,096: how many polls there are for a block, and how many blocks before it. */
enum { MANY = 4200 };

/* ---- Of a module ---- */

/* What has to be as it was: the block that was sent, what waits, flags and levels. */
static void ask_after_silence(struct edge *edge) {
    conformance_edge_poll(edge, 0);
    conformance_edge_poll(edge, 1);
    conformance_edge_pair(edge, FIO2070_TYPE_STATUS, 0);
    conformance_edge_command(edge, FIO2070_TYPE_RAW_INPUTS);
    conformance_edge_command(edge, FIO2070_TYPE_FILTERED_INPUTS);
}

/* 70,000 scans with few frames: silences above powers of 2, and at last an input that moves in each scan. A load is
 * requested before them, and done after them. */
static void scan_on(struct edge *edge, unsigned given) {
    static const unsigned silences[] = {4200, 8300, 16500, 32800};
    uint8_t octets[17] = {FIO2070_TYPE_SET_OUTPUTS, 255, 1};
    conformance_edge_open(edge, 1, 1);
    conformance_edge_octets(edge, EVENT_FRAME, octets, sizeof octets);
    conformance_edge_load(edge, 100000);
    conformance_edge_pair(edge, FIO2070_TYPE_WATCHDOG, 10);
    conformance_edge_poll(edge, 1);
    for (given = 0; given < sizeof silences / sizeof silences[0]; given++) {
        conformance_edge_change(edge, ALL);
        conformance_edge_scans(edge, silences[given]);
        ask_after_silence(edge);
    }
    for (given = 0; given < 8200; given++) {
        conformance_edge_change(edge, 1);
        if (given % 250 == 249) conformance_edge_poll(edge, 1);
    }
    conformance_edge_event(edge, EVENT_SYNC);
    ask_after_silence(edge);
}

/* Many blocks, and then as many polls for one. */
static void poll_on(struct edge *edge, unsigned given) {
    conformance_edge_open(edge, 1, 1);
    for (given = 0; given < MANY; given++) {
        if (given % 16 == 0) conformance_edge_change(edge, 1);
        conformance_edge_poll(edge, 1);
        if (given % 64 == 0) conformance_edge_poll(edge, 0);
    }
    conformance_edge_change(edge, ALL);
    conformance_edge_poll(edge, 1);
    conformance_edge_change(edge, ALL);
    for (given = 0; given < MANY; given++) conformance_edge_poll(edge, 0);
    conformance_edge_poll(edge, 1);
    conformance_edge_poll(edge, 1);
}

/* Configurations and blocks of each size. */
static void try_sizes(struct edge *edge, unsigned given) {
    uint8_t octets[2 + 3 * 255];
    unsigned left;
    memset(octets, 1, sizeof octets);
    octets[0] = FIO2070_TYPE_CONFIGURE_INPUTS;
    for (given = 0; given < 256; given++) {
        octets[1] = (uint8_t)given;
        conformance_edge_octets(edge, EVENT_FRAME, octets, 2 + 3 * (size_t)given);
    }
    conformance_edge_open(edge, 1, 1);
    for (given = 0; given < 256; given++) {
        for (left = given; left >= 64; left -= 64) conformance_edge_change(edge, ALL);
        conformance_edge_change(edge, ((uint64_t)1 << left) - 1);
        conformance_edge_poll(edge, 1);
    }
}

const struct edge_row CONFORMANCE_LONG_ROWS[CONFORMANCE_LONG] = {{try_sizes, 0}, {poll_on, 0}, {scan_on, 0}};

/* ---- Of a CPU's end ---- */

static void send_to_module(struct edge *edge) {
    conformance_edge_event(edge, EVENT_POLL);
    conformance_edge_event(edge, EVENT_DELIVER);
}

/* Many blocks, and then as many polls without an answer. */
static void ask_on(struct edge *edge, unsigned given) {
    uint8_t octets[CONFORMANCE_LONGEST_FRAME];
    conformance_edge_octets(edge, EVENT_COMMAND, octets, conformance_open(octets, OVERFLOWING, edge->state));
    conformance_edge_event(edge, EVENT_DELIVER);
    for (given = 0; given < MANY; given++) {
        if (given % 4 == 0) conformance_edge_change(edge, ALL);
        send_to_module(edge);
        conformance_edge_event(edge, EVENT_ANSWER);
    }
    conformance_edge_change(edge, ALL);
    for (given = 0; given < MANY; given++) conformance_edge_event(edge, EVENT_POLL);
    for (given = 0; given < 3; given++) {
        send_to_module(edge);
        conformance_edge_event(edge, EVENT_ANSWER);
    }
}

const struct edge_row CONFORMANCE_CPU_LONG_ROWS[CONFORMANCE_CPU_LONG] = {{ask_on, 0}};
