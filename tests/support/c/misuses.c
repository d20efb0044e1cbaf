/* Uses of the library about which a compiler warns. MISUSE is the number of one, or 0 for right uses only. */
#include "fio2070.h"

void drops(uint8_t *out, size_t room, char *text);
const char *says(const struct fio2070_heard *heard);
const char *rules(uint8_t rule, uint8_t content);
const char *faults(uint8_t kind, uint8_t configured, uint8_t started, uint8_t type);
const char *lines(struct fio2070_wire *wire, struct fio2070_wire_bits *bits, uint8_t *out);
void keeps(struct fio2070_sized_module *module, struct fio2070_slot *slots, uint8_t *out, size_t room);

static const uint8_t frame[] = {0x36, 5};

/* A result that is dropped: 1 a fault, 2 to 4 a count, 5 a text that may have had no room. */
void drops(uint8_t *out, size_t room, char *text) {
    static const struct fio2070_poller poller = {5};
    struct fio2070_command command;
    struct fio2070_entry entries[1];
    struct fio2070_fault fault = fio2070_decode_command(frame, sizeof frame, &command);
    if (fio2070_encode_command(&command, NULL, 0, NULL, 0, out, room) > room || fio2070_poller_poll(&poller, out, room) > room) return;
    if (fio2070_block_entries(out, room, entries, 1) > 1 || fio2070_fault_text(&fault, text, room) >= room) return;
#if MISUSE == 1
    fio2070_decode_command(frame, sizeof frame, &command);
#elif MISUSE == 2
    fio2070_encode_command(&command, NULL, 0, NULL, 0, out, room);
#elif MISUSE == 3
    fio2070_block_entries(out, room, entries, 1);
#elif MISUSE == 4
    fio2070_poller_poll(&poller, out, room);
#elif MISUSE == 5
    fio2070_rule_text(FIO2070_RULE_PAIR, text, room);
/* Arguments that are swapped or of another kind. */
#elif MISUSE == 6
    if (fio2070_fault_text(text, &fault, room) > room) return;
#elif MISUSE == 7
    if (fio2070_fault_text(&fault, out, room) > room) return;
#elif MISUSE == 8
    if (fio2070_encode_command(out, NULL, 0, NULL, 0, &command, room) > room) return;
#elif MISUSE == 9
    if (fio2070_block_entries(out, room, 1, entries) > 1) return;
#elif MISUSE == 10
    if (fio2070_read_block(frame, sizeof frame, &command).kind != FIO2070_FAULT_NONE) return;
/* Names of the older header. */
#elif MISUSE == 11
    if (fault.kind == FIO2070_NO_FAULT) return;
#elif MISUSE == 12
    if (fio2070_show_length(frame, sizeof frame) > room) return;
#endif
}

/* A switch that forgets a value: 21 to 27. */
const char *says(const struct fio2070_heard *heard) {
    switch ((enum fio2070_heard_kind)heard->kind) {
    case FIO2070_HEARD_TAKEN: return "taken";
    case FIO2070_HEARD_UNREADABLE: return "unreadable";
    case FIO2070_HEARD_OTHER: return "other";
    case FIO2070_HEARD_STALE: return "stale";
#if MISUSE != 21
    case FIO2070_HEARD_NO_ROOM: return "no room";
#endif
    }
    return "";
}

const char *rules(uint8_t rule, uint8_t content) {
    switch ((enum fio2070_rule)rule) {
    case FIO2070_RULE_NONE: break;
    case FIO2070_RULE_READABLE: case FIO2070_RULE_PAIR: case FIO2070_RULE_NUMBER: case FIO2070_RULE_ADVANCE:
    case FIO2070_RULE_SAME: case FIO2070_RULE_SEQUENCE: case FIO2070_RULE_LIMITS: case FIO2070_RULE_REST:
#if MISUSE != 22
    case FIO2070_RULE_REFUSAL:
#endif
        return "a rule";
    }
    switch ((enum fio2070_content_rule)content) {
#if MISUSE != 23
    case FIO2070_CONTENT_NONE: break;
#endif
    case FIO2070_CONTENT_ORDER: case FIO2070_CONTENT_FRESH: case FIO2070_CONTENT_ALTERNATE: case FIO2070_CONTENT_APART:
    case FIO2070_CONTENT_IGNORED: case FIO2070_CONTENT_STATE: case FIO2070_CONTENT_CLOCK: case FIO2070_CONTENT_DONE:
    case FIO2070_CONTENT_ACCEPTED: case FIO2070_CONTENT_CLEARED: case FIO2070_CONTENT_WATCHDOG: return "a rule on content";
    }
    return "";
}

const char *faults(uint8_t kind, uint8_t configured, uint8_t started, uint8_t type) {
    switch ((enum fio2070_fault_kind)kind) {
    case FIO2070_FAULT_NONE: break;
#if MISUSE != 24
    case FIO2070_FAULT_EMPTY:
#endif
    case FIO2070_FAULT_TOO_LONG: case FIO2070_FAULT_UNKNOWN_TYPE: case FIO2070_FAULT_WRONG_LENGTH: return "a fault";
    }
    switch ((enum fio2070_configured_kind)configured) {
    case FIO2070_CONFIGURED_APPLIED: break;
#if MISUSE != 25
    case FIO2070_CONFIGURED_TOO_MANY_ITEMS:
#endif
    case FIO2070_CONFIGURED_ABSENT_INPUT: return "refused";
    }
    switch ((enum fio2070_start_kind)started) {
    case FIO2070_STARTED: break;
#if MISUSE != 26
    case FIO2070_REFUSED: return "not started";
#endif
    }
    switch ((enum fio2070_type)type) {
    case FIO2070_TYPE_STATUS: case FIO2070_TYPE_LOAD_COUNTER: case FIO2070_TYPE_CONFIGURE_INPUTS: case FIO2070_TYPE_RAW_INPUTS:
    case FIO2070_TYPE_FILTERED_INPUTS: case FIO2070_TYPE_POLL: case FIO2070_TYPE_SET_OUTPUTS: case FIO2070_TYPE_TRACK_INPUTS:
    case FIO2070_TYPE_COMPLEX_OUTPUTS: case FIO2070_TYPE_WATCHDOG: case FIO2070_TYPE_CONTROLLER_ID:
#if MISUSE != 27
    case FIO2070_TYPE_IDENTIFY:
#endif
        return "a command";
    }
    return "";
}

/* A line: 31 to 33 results that are dropped, 34 to 36 arguments of another kind, 37 a switch that forgets a value. */
const char *lines(struct fio2070_wire *wire, struct fio2070_wire_bits *bits, uint8_t *out) {
    uint8_t heard = FIO2070_WIRE_NOTHING;
    if (fio2070_wire_write(FIO2070_WIRE_ADDRESS, FIO2070_WIRE_CONTROL, frame, sizeof frame, out, FIO2070_WIRE_LONGEST) == 0) return "";
    if (fio2070_wire_bits_read(bits, out, 1, &heard) != 1 || fio2070_wire_read(wire, out, 1, &heard) != 1) return "";
#if MISUSE == 31
    fio2070_wire_read(wire, out, 1, &heard);
#elif MISUSE == 32
    fio2070_wire_bits_read(bits, out, 1, &heard);
#elif MISUSE == 33
    fio2070_wire_write(FIO2070_WIRE_ADDRESS, FIO2070_WIRE_CONTROL, frame, sizeof frame, out, FIO2070_WIRE_LONGEST);
#elif MISUSE == 34
    if (fio2070_wire_read(bits, out, 1, &heard) != 1) return "";
#elif MISUSE == 35
    if (fio2070_wire_read(wire, *out, 1, &heard) != 1) return "";
#elif MISUSE == 36
    if (fio2070_wire_read(wire, out, &heard, 1) != 1) return "";
#endif
    switch ((enum fio2070_wire_heard)heard) {
    case FIO2070_WIRE_NOTHING: break;
    case FIO2070_WIRE_MESSAGE: case FIO2070_WIRE_OTHER: return "a frame";
#if MISUSE != 37
    case FIO2070_WIRE_DAMAGED: return "damage";
#endif
    }
    return "";
}

/* A module over a ring of the caller. */
void keeps(struct fio2070_sized_module *module, struct fio2070_slot *slots, uint8_t *out, size_t room) {
    static struct fio2070_slot array[64];
    static const struct fio2070_limits limits = {64, 255, 0};
    if (fio2070_sized_module_start(module, 2, limits) != FIO2070_STARTED) return;
    fio2070_sized_module_scan(module, FIO2070_RING(array), ~(uint64_t)0);
    if (fio2070_sized_module_receive(module, FIO2070_RING(array), frame, sizeof frame, out, room) > room) return;
    (void)slots;
#if MISUSE == 51
    fio2070_sized_module_scan(module, FIO2070_RING(slots), ~(uint64_t)0);
#elif MISUSE == 52
    fio2070_sized_module_scan(module, array, ~(uint64_t)0);
#elif MISUSE == 53
    fio2070_sized_module_scan(FIO2070_RING(array), module, ~(uint64_t)0);
#elif MISUSE == 54
    if (fio2070_sized_module_receive(module, frame, sizeof frame, FIO2070_RING(array), out, room) > room) return;
#elif MISUSE == 55
    fio2070_sized_module_start(module, 2, limits);
#elif MISUSE == 56
    fio2070_sized_module_receive(module, FIO2070_RING(array), frame, sizeof frame, out, room);
#elif MISUSE == 57
    if (fio2070_sized_module_start(module, limits, 2) != FIO2070_STARTED) return;
#endif
}
