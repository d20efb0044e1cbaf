/* Scripts of edges of a module: its filters, its waiting entries, and long runs. */
#include "conformance_edges.h"

/* ---- Events ---- */

void conformance_edge_octets(struct edge *edge, enum event_kind kind, const uint8_t *octets, size_t length) {
    struct event event = conformance_event(kind, octets, length);
    if (edge->script->length >= edge->most) return;
    event.inputs = kind == EVENT_SCAN ? edge->levels : 0;
    conformance_add(edge->script, &event);
}

void conformance_edge_event(struct edge *edge, enum event_kind kind) { conformance_edge_octets(edge, kind, NULL, 0); }

void conformance_edge_scans(struct edge *edge, unsigned count) {
    while (count-- > 0) conformance_edge_event(edge, EVENT_SCAN);
}

void conformance_edge_change(struct edge *edge, uint64_t inputs) {
    edge->levels ^= inputs;
    conformance_edge_scans(edge, 1);
}

void conformance_edge_command(struct edge *edge, uint8_t type) { conformance_edge_octets(edge, EVENT_FRAME, &type, 1); }

void conformance_edge_pair(struct edge *edge, uint8_t type, uint8_t second) {
    uint8_t octets[2];
    octets[0] = type;
    octets[1] = second;
    conformance_edge_octets(edge, EVENT_FRAME, octets, 2);
}

void conformance_edge_poll(struct edge *edge, unsigned plus) {
    edge->number = (uint8_t)(edge->number + plus);
    conformance_edge_pair(edge, FIO2070_TYPE_POLL, edge->number);
}

/* All inputs are reported, with filters that go up and down by this step from one input to the next. */
static void open_all(struct edge *edge, unsigned leading, unsigned trailing, unsigned step) {
    uint8_t octets[2 + 3 * 64];
    unsigned input;
    octets[0] = FIO2070_TYPE_CONFIGURE_INPUTS;
    octets[1] = 64;
    for (input = 0; input < 64; input++) {
        octets[2 + 3 * input] = (uint8_t)input;
        octets[3 + 3 * input] = (uint8_t)(leading + step * input);
        octets[4 + 3 * input] = (uint8_t)(trailing - step * input);
    }
    conformance_edge_octets(edge, EVENT_FRAME, octets, sizeof octets);
}

void conformance_edge_open(struct edge *edge, uint8_t leading, uint8_t trailing) { open_all(edge, leading, trailing, 0); }

void conformance_edge_load(struct edge *edge, uint32_t number) {
    uint8_t octets[5];
    conformance_edge_octets(edge, EVENT_FRAME, octets, conformance_load(number, octets, sizeof octets));
}

uint8_t conformance_block_number(uint64_t *state) {
    if (conformance_below(state, 2) == 0) return (uint8_t)conformance_below(state, 256);
    return (uint8_t)(254 + conformance_below(state, 4));
}

unsigned conformance_run_length(uint64_t *state) {
    static const unsigned counted[] = {10, 11, 16, 17, 20, 21, 32, 33, 50, 51, 64, 65, 100, 101, 128, 129, 255, 256, 257, 300};
    if (conformance_below(state, 4) == 0) return 10 + conformance_below(state, 291);
    return counted[conformance_below(state, sizeof counted / sizeof counted[0])];
}

/* ---- Filters ---- */

/* Each input has filters of its own, 64 values from `first` on, and each state changes both ways. */
static void sweep_filters(struct edge *edge, unsigned first) {
    open_all(edge, first, first + 63, 1);
    for (edge->levels = 0; ; edge->levels = ALL) {
        conformance_edge_scans(edge, first + 65);
        conformance_edge_poll(edge, 1);
        if (edge->levels != 0) return;
    }
}

/* ---- Waiting entries ---- */

/* Lets this many entries wait. */
static void let_wait(struct edge *edge, unsigned entries) {
    for (; entries >= 64; entries -= 64) conformance_edge_change(edge, ALL);
    if (entries > 0) conformance_edge_change(edge, ((uint64_t)1 << entries) - 1);
}

/* Numbers of waiting entries near those for which blocks and the buffer have room; each block is requested twice. */
static void fill_buffer(struct edge *edge, unsigned given) {
    static const unsigned counts[] = {1,   63,  64,  65,   127,  128,  129,  254,  255,  256,  257,  509, 510,
                                      511, 512, 767, 1020, 1022, 1023, 1024, 1025, 1026, 1087, 1279, 1280, 2047};
    size_t row;
    unsigned blocks;
    conformance_edge_open(edge, 1, 1);
    conformance_edge_poll(edge, 1);
    for (row = given; row < sizeof counts / sizeof counts[0]; row += 2) {
        let_wait(edge, counts[row]);
        for (blocks = 0; blocks * 255 <= counts[row] && blocks < 6; blocks++) {
            conformance_edge_poll(edge, 1);
            if (blocks == 0) conformance_edge_poll(edge, 0);
        }
    }
}

/* ---- Long runs ---- */

/* A block is requested again, often; meanwhile entries are pushed out, if that is wanted. */
static void repeat_block(struct edge *edge, unsigned overflows) {
    unsigned left = overflows ? 40 : 300;
    conformance_edge_open(edge, 1, 1);
    conformance_edge_change(edge, ALL);
    conformance_edge_poll(edge, 1);
    conformance_edge_poll(edge, 0);
    let_wait(edge, overflows ? 1100 : 64);
    while (left-- > 0) conformance_edge_poll(edge, 0);
    for (left = overflows ? 6 : 2; left > 0; left--) conformance_edge_poll(edge, 1);
}

/* Each difference of two numbers, and so each number. */
static void poll_all_numbers(struct edge *edge, unsigned given) {
    unsigned plus;
    (void)given;
    conformance_edge_open(edge, 1, 1);
    for (plus = 0; plus < 256; plus++) {
        if (plus % 16 == 0) conformance_edge_change(edge, 1);
        conformance_edge_poll(edge, plus);
    }
}

/* No frame comes for this many milliseconds: what was requested, and what waits, is as it was. */
static void stay_silent(struct edge *edge, unsigned scans) {
    uint8_t octets[17] = {FIO2070_TYPE_SET_OUTPUTS, 255, 1};
    conformance_edge_open(edge, 1, 1);
    conformance_edge_change(edge, ALL);
    conformance_edge_poll(edge, 1);
    conformance_edge_change(edge, ALL);
    conformance_edge_octets(edge, EVENT_FRAME, octets, sizeof octets);
    conformance_edge_pair(edge, FIO2070_TYPE_WATCHDOG, 10);
    conformance_edge_load(edge, 100000);
    conformance_edge_scans(edge, scans);
    conformance_edge_poll(edge, 0);
    conformance_edge_poll(edge, 1);
    conformance_edge_pair(edge, FIO2070_TYPE_STATUS, 0);
    conformance_edge_event(edge, EVENT_SYNC);
    conformance_edge_command(edge, FIO2070_TYPE_FILTERED_INPUTS);
    conformance_edge_change(edge, ALL);
    conformance_edge_poll(edge, 1);
}

/* More than 65,536 entries, in more than 256 blocks, and then more blocks than 1,024. */
static void go_on(struct edge *edge, unsigned rounds) {
    unsigned left;
    conformance_edge_open(edge, 1, 1);
    for (left = rounds; left > 0; left--) {
        conformance_edge_change(edge, ALL);
        conformance_edge_change(edge, ALL);
        conformance_edge_change(edge, ALL);
        conformance_edge_poll(edge, 1);
    }
    for (left = 0; left < 690; left++) conformance_edge_poll(edge, 1);
}

/* ---- All ---- */

void conformance_fill(const struct edge_row *row, struct script *script, uint8_t number, size_t most, uint64_t *state) {
    struct edge edge;
    edge.script = script;
    edge.most = most < CONFORMANCE_LONGEST ? most : (size_t)CONFORMANCE_LONGEST;
    edge.state = state;
    edge.levels = ALL;
    edge.number = number;
    row->fill(&edge, row->given);
}

static const struct edge_row ROWS[] = {
    {repeat_block, 1}, {fill_buffer, 0},     {fill_buffer, 1},      {poll_all_numbers, 0}, {sweep_filters, 0},
    {repeat_block, 0}, {sweep_filters, 192}, {sweep_filters, 64},   {sweep_filters, 128},  {stay_silent, 2100},
    {go_on, 345}};

enum { OF_RUNS = sizeof ROWS / sizeof ROWS[0] };

const unsigned CONFORMANCE_EDGES = OF_RUNS + CONFORMANCE_EDGE_FRAMES;

void conformance_edge(struct script *script, const struct maker *maker, unsigned number, size_t most, uint64_t *state) {
    const struct edge_row *row = number < CONFORMANCE_EDGE_FRAMES ? &CONFORMANCE_EDGE_FRAME_ROWS[number]
                                 : number < CONFORMANCE_EDGES     ? &ROWS[number - CONFORMANCE_EDGE_FRAMES]
                                                                  : &CONFORMANCE_LONG_ROWS[number - CONFORMANCE_EDGES];
    script->id = maker->id;
    script->per_block = maker->per_block;
    conformance_fill(row, script, conformance_block_number(state), most, state);
}
