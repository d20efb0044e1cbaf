/* What a controller reads of a line, as the input of a fuzzer: the calls of the wire find the frames, and examples/controller takes
 * them. What is written is read back, and whatever comes, commands and messages have their lengths. */
#include "controller_link.h"

#include <stdlib.h>
#include <string.h>

/* Octets of the input that are none of the line: one slot passes; a message comes, whose length is in the next octet; an octet of
 * the line is lost. */
enum { SLOT = 1, MESSAGE = 2, LOSS = 3, SLOT_MS = 10 };

static void require(int holds) {
    if (!holds) abort();
}

static void start(struct fio2070_wire *wire) { fio2070_wire_start(wire, FIO2070_WIRE_ADDRESS, FIO2070_WIRE_CONTROL); }

static void write_and_read(const uint8_t *message, size_t length) {
    static struct fio2070_wire wire;
    uint8_t frame[FIO2070_WIRE_LONGEST], heard;
    size_t count = fio2070_wire_write(FIO2070_WIRE_ADDRESS, FIO2070_WIRE_CONTROL, message, length, frame, sizeof frame);
    require(length > 0 ? count > length && count <= sizeof frame : count == 0);
    if (length == 0) return;
    start(&wire);
    require(fio2070_wire_read(&wire, frame, count, &heard) == count && heard == FIO2070_WIRE_MESSAGE);
    require(fio2070_wire_message_length(&wire) == length);
    require(memcmp(wire.octets + 2, message, length) == 0);
}

static void pass_slot(struct controller_link *link, uint32_t now) {
    size_t length = controller_link_next(link, now);
    require(length <= FIO2070_LONGEST_FRAME);
    if (length > 0) write_and_read(link->command, length);
}

int LLVMFuzzerTestOneInput(const uint8_t *octets, size_t length) {
    static const struct fio2070_configuration_item inputs[] = {{1, 0, 5, 5}, {2, 0, 5, 5}};
    static struct fio2070_wire line;
    static struct controller_link link;
    struct fio2070_record_item items[FIO2070_MOST_RECORD_ITEMS];
    struct controller_settings settings = {50, 1000, inputs, 2};
    const uint8_t *end = octets + length;
    uint32_t now = 0;
    uint8_t heard;
    start(&line);
    require(controller_link_start(&link, settings, length > 0 ? *octets : 0) == 0);
    for (; octets < end; octets++) {
        if (*octets == SLOT) {
            pass_slot(&link, now += SLOT_MS);
        } else if (*octets == MESSAGE && end - octets > 1 && end - octets > 1 + octets[1]) {
            write_and_read(octets + 2, octets[1]);
            controller_link_hear(&link, octets + 2, octets[1], items);
            octets += 1 + octets[1];
        } else if (*octets == LOSS) {
            fio2070_wire_lose(&line);
        } else if (fio2070_wire_read(&line, octets, 1, &heard) == 1 && heard == FIO2070_WIRE_MESSAGE) {
            size_t count = fio2070_wire_message_length(&line);
            require(count > 0 && count <= FIO2070_LONGEST_FRAME);
            controller_link_hear(&link, line.octets + 2, count, items);
        }
        require(line.held <= sizeof line.octets);
    }
    return 0;
}
