/* Scripts of edges: numbers, lengths and runs that programs tend to get wrong, and that random scripts seldom meet. */
#ifndef CONFORMANCE_EDGES_H
#define CONFORMANCE_EDGES_H

#include "conformance_octets.h"

/* How many scripts of edges there are of each end, the cheapest first. */
extern const unsigned CONFORMANCE_EDGES, CONFORMANCE_CPU_EDGES;

/* Long scripts, which have the numbers after these. A run of at least CONFORMANCE_LONG_EVENTS has each of them once. */
enum { CONFORMANCE_LONG = 3, CONFORMANCE_CPU_LONG = 1, CONFORMANCE_LONG_EVENTS = 200000 };

/* Fills an empty script with the edge of this number, at most this many events. */
void conformance_edge(struct script *script, const struct maker *maker, unsigned number, size_t most, uint64_t *state);
void conformance_cpu_edge(struct script *script, unsigned number, size_t most, uint64_t *state);

/* A number of a block: often one about 0. */
uint8_t conformance_block_number(uint64_t *state);

/* How many times something is repeated, 10 to 300: mostly a number that programs count up to. */
unsigned conformance_run_length(uint64_t *state);

/* ---- For the files of edges ---- */

#define ALL (~(uint64_t)0) /* inputs */

/* A script that grows. */
struct edge {
    struct script *script;
    size_t most; /* events */
    uint64_t *state;
    uint64_t levels;
    uint8_t number; /* of the last poll, or of the block that is due */
};

struct edge_row {
    void (*fill)(struct edge *edge, unsigned given);
    unsigned given;
};

/* Those of frames that come to a module; they are the shorter ones. */
enum { CONFORMANCE_EDGE_FRAMES = 13 };
extern const struct edge_row CONFORMANCE_EDGE_FRAME_ROWS[CONFORMANCE_EDGE_FRAMES];

extern const struct edge_row CONFORMANCE_LONG_ROWS[CONFORMANCE_LONG], CONFORMANCE_CPU_LONG_ROWS[CONFORMANCE_CPU_LONG];

void conformance_edge_event(struct edge *edge, enum event_kind kind);
void conformance_edge_octets(struct edge *edge, enum event_kind kind, const uint8_t *octets, size_t length);

/* This many scans of the levels as they are, and one in which these inputs change. */
void conformance_edge_scans(struct edge *edge, unsigned count);
void conformance_edge_change(struct edge *edge, uint64_t inputs);

/* Frames to the module: a command of one octet or two, and a poll with the number so far after the one before. */
void conformance_edge_command(struct edge *edge, uint8_t type);
void conformance_edge_pair(struct edge *edge, uint8_t type, uint8_t second);
void conformance_edge_poll(struct edge *edge, unsigned plus);

/* All inputs are reported, with these filters. */
void conformance_edge_open(struct edge *edge, uint8_t leading, uint8_t trailing);

/* Command 50. */
void conformance_edge_load(struct edge *edge, uint32_t number);

/* Fills an empty script with the edge of a row, from this block number on. */
void conformance_fill(const struct edge_row *row, struct script *script, uint8_t number, size_t most, uint64_t *state);

#endif
