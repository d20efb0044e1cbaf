/* A module that is not in this process, as a maker: its lines, and its answers. */
#define _POSIX_C_SOURCE 200809L
#include "conformance_octets.h"
#include "conformance_wire.h"

#include <string.h>
#include <time.h>

void conformance_wire_ask_done(void *context, const char *line) {
    struct wire *wire = (struct wire *)context;
    char said[WIRE_LONGEST_LINE];
    if (conformance_wire_ask(wire, line, said) && strcmp(said, "done") != 0) conformance_wire_fail(wire, "not `done`: ", said);
}

static void reset(void *context) { conformance_wire_ask_done(context, "reset\n"); }

static void line_sync(void *context) { conformance_wire_ask_done(context, "sync\n"); }

void conformance_wire_put_octets(char *line, const uint8_t *octets, size_t length) {
    while (length-- > 0) line += sprintf(line, "%02x", *octets++);
    strcpy(line, "\n");
}

static void set_levels(struct wire *wire, uint64_t inputs) {
    char line[WIRE_LONGEST_LINE] = "inputs ";
    uint8_t octets[8];
    int octet;
    for (octet = 0; octet < 8; octet++, inputs >>= 8) octets[octet] = (uint8_t)inputs;
    conformance_wire_put_octets(line + strlen(line), octets, 8);
    conformance_wire_ask_done(wire, line);
}

static void step(void *context, uint64_t inputs) {
    static const struct timespec millisecond = {0, 1000000};
    struct wire *wire = (struct wire *)context;
    if (!wire->has_own_clock || !wire->has_levels || wire->levels != inputs) set_levels(wire, inputs);
    wire->has_levels = 1;
    wire->levels = inputs;
    if (wire->has_own_clock && !wire->has_failed) nanosleep(&millisecond, NULL);
}

size_t conformance_wire_ask_octets(struct wire *wire, const char *line, const char *word,
                                   uint8_t octets[FIO2070_LONGEST_FRAME]) {
    char said[WIRE_LONGEST_LINE];
    size_t count = 0;
    if (!conformance_wire_ask(wire, line, said)) return CONFORMANCE_FAILED;
    if (strcmp(said, "none") == 0) return 0;
    if (strncmp(said, word, strlen(word)) == 0) {
        count = conformance_read_octets(said + strlen(word), octets, FIO2070_LONGEST_FRAME);
    }
    if (count > 0 && count != CONFORMANCE_FAILED) return count;
    conformance_wire_fail(wire, "neither octets nor `none`: ", said);
    return CONFORMANCE_FAILED;
}

static size_t exchange(void *context, const uint8_t *octets, size_t length, uint8_t answer[FIO2070_LONGEST_FRAME]) {
    char line[WIRE_LONGEST_LINE] = "frame ";
    conformance_wire_put_octets(line + strlen(line), octets, length);
    return conformance_wire_ask_octets((struct wire *)context, line, "answer ", answer);
}

void conformance_wire_maker(struct wire *wire, uint8_t id, uint8_t per_block, struct maker *maker) {
    const struct maker made = {wire, id, per_block, reset, step, line_sync, exchange, NULL, NULL};
    *maker = made;
}
