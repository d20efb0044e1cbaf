/* A module, or a CPU's end, that is not in this process: it is asked by lines, over a pipe, a socket or a serial adapter.
 * README.md in this folder has the lines. */
#ifndef CONFORMANCE_WIRE_H
#define CONFORMANCE_WIRE_H

#include "conformance.h"

enum {
    WIRE_LONGEST_LINE = 17 * FIO2070_MOST_RECORD_ITEMS + 32, /* a record's; a frame of the longest takes less */
    WIRE_TAIL = 600 /* octets of standard error that are kept */
};

struct wire {
    int file;           /* -1 if it could not be opened */
    int deadline_ms;    /* for each line that the module's side writes */
    int has_own_clock;  /* the levels are set when they change, and a step is a millisecond of waiting */
    const char *target; /* as it was opened, and by what */
    int (*open)(struct wire *wire);
    long process; /* that was started, 0 for none */
    int errors;   /* the standard error of that process, -1 for none */
    int has_answered, has_failed;
    enum hurry hurry;
    int is_new;         /* it was asked nothing since it was opened */
    int64_t slowest_ms; /* of the lines that came, except the first after it was opened */
    int has_levels;
    uint64_t levels;
    uint8_t number; /* of the block that a CPU's end asks for next */
    size_t kept, tail_length;      /* octets that came after the last line, and of standard error */
    char why[80];                  /* it could not be opened */
    char fault[80];                /* why it failed */
    char asked[WIRE_LONGEST_LINE]; /* the last line that it was asked */
    char failure[1200];            /* both, and the last lines of standard error */
    char octets[2 * WIRE_LONGEST_LINE], tail[WIRE_TAIL];
};

/* Begins a command with its standard input and output, opens a serial adapter as it was set up, or connects to
 * HOST:PORT. All of the wire is 0 but its deadline and its clock. Returns 0 if that failed. The words have to last. */
enum wire_kind { WIRE_COMMAND, WIRE_SERIAL, WIRE_SOCKET };
int conformance_wire_open(struct wire *wire, const char *target, enum wire_kind kind);

/* Closes it. A process that does not end by the deadline is killed. */
void conformance_wire_close(struct wire *wire);

/* The end over a wire, as a maker, and how it fails. */
void conformance_wire_maker(struct wire *wire, uint8_t id, uint8_t per_block, struct maker *maker);
void conformance_wire_cpu_maker(struct wire *wire, struct cpu_maker *maker);
void conformance_wire_outside(struct wire *wire, struct outside *outside);

/* ---- Between the files of a wire ---- */

/* Sends the module's side a line, and reads the line that it answers. Returns 0 if it failed. */
int conformance_wire_ask(struct wire *wire, const char *line, char said[WIRE_LONGEST_LINE]);

/* The same for a line that is answered with `done`, and for one that is answered with `none`, or with a word and octets.
 * The latter returns how many octets there are, FAILED if it failed. */
void conformance_wire_ask_done(void *context, const char *line);
size_t conformance_wire_ask_octets(struct wire *wire, const char *line, const char *word,
                                   uint8_t octets[FIO2070_LONGEST_FRAME]);

/* Pairs of hexadecimal digits, and a line end. */
void conformance_wire_put_octets(char *line, const uint8_t *octets, size_t length);

/* Notes why the module's side failed, first alone. Returns 0. */
int conformance_wire_fail(struct wire *wire, const char *fault, const char *line);

#endif
