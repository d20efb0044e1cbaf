/* SPDX-License-Identifier: MIT
 * Copyright (c) 2026 Wapukiro maintainers */
/* The calls of fio2070.h over the translated module. Arguments lie where the caller has them; structs with numbers of
 * several octets are put into little-endian octets before a call, and taken from them after it. */
#include <string.h>

#include "fio2070.h"

/* The data of a call, its stack, and four arguments. */
enum { WINDOWS = 6 };

/* One of these: the low half of the first octet's address, how many octets there are, and how many of them may be written. */
struct window {
    uint8_t *octets;
    uint32_t first, length, writable;
};

#define MACHINE_FIELDS             \
    uint32_t count;                \
    struct window windows[WINDOWS];

@TRANSLATED@

/* Begins a call: its stack, and the data that it may read. */
#define MACHINE(call)                                   \
    struct machine machine;                             \
    uint8_t stack[STACK_##call > 0 ? STACK_##call : 1]; \
    machine_globals(&machine);                          \
    begin(&machine, stack, sizeof stack, TABLE_##call); \
    machine.count = 1;                                  \
    machine.g0 = ((uint64_t)1 << 32) + sizeof stack

static void begin(struct machine *m, uint8_t *stack, uint32_t size, const uint8_t *table) {
    struct window *data = &m->windows[0], *own = &m->windows[1];
    data->octets = own->octets = stack;
    data->first = data->length = data->writable = own->first = 0;
    own->length = own->writable = size;
    if (table != NO_TABLE) {
        data->octets = (uint8_t *)(uintptr_t)(table + 8);
        data->first = load32(table);
        data->length = load32(table + 4);
    }
}

/* Gives the machine an argument, and returns its address there. */
static uint64_t window(struct machine *m, const void *octets, size_t length, uint8_t is_mutable) {
    struct window *it = &m->windows[++m->count];
#if SIZE_MAX > 0xFFFFFFFFu
    if (length > 0xFFFFFFFFu) length = 0xFFFFFFFFu;
#endif
    it->octets = (uint8_t *)(uintptr_t)octets;
    it->first = 0;
    it->length = (uint32_t)length;
    it->writable = is_mutable ? it->length : 0;
    return (uint64_t)m->count << 32;
}
#define READS(octets, length) window(&machine, octets, length, 0)
#define WRITES(octets, length) window(&machine, octets, length, 1)

/* Whether the processor has the module's order of octets. */
static const uint16_t one = 1;
#define IS_LITTLE (*(const uint8_t *)&one)

static uint16_t get16(const uint8_t *p) { return (uint16_t)(p[0] | (uint16_t)p[1] << 8); }
static uint32_t get32(const uint8_t *p) { return get16(p) | (uint32_t)get16(p + 2) << 16; }
static uint64_t get64(const uint8_t *p) { return get32(p) | (uint64_t)get32(p + 4) << 32; }
static void put16(uint8_t *p, uint16_t v) { p[0] = (uint8_t)v; p[1] = (uint8_t)(v >> 8); }
static void put32(uint8_t *p, uint32_t v) { put16(p, (uint16_t)v); put16(p + 2, (uint16_t)(v >> 16)); }
static void put64(uint8_t *p, uint64_t v) { put32(p, (uint32_t)v); put32(p + 4, (uint32_t)(v >> 32)); }

/* What the library alone writes is the same octets everywhere; see fio2070.h. */
#define SAME(name, is, expected) typedef char name[(is) == (expected) ? 1 : -1]
SAME(size_of_content_checker, sizeof(struct fio2070_content_checker), 696);
SAME(size_of_judge, sizeof(struct fio2070_judge), 728);
SAME(size_of_counter, sizeof(struct fio2070_counter), 12);
SAME(size_of_filters, sizeof(struct fio2070_filters), 216);
SAME(size_of_sized_module, sizeof(struct fio2070_sized_module), 1056);
SAME(size_of_slot, sizeof(struct fio2070_slot), 3);
SAME(size_of_outputs, sizeof(struct fio2070_outputs), 16);
SAME(size_of_item, sizeof(struct fio2070_configuration_item), 4);
SAME(size_of_entry, sizeof(struct fio2070_entry), 4);
SAME(size_of_poller, sizeof(struct fio2070_poller), 1);
SAME(size_of_record_item, sizeof(struct fio2070_record_item), 12);
SAME(size_of_wire, sizeof(struct fio2070_wire), 786);
SAME(size_of_wire_bits, sizeof(struct fio2070_wire_bits), 792);

static struct fio2070_fault fault_in(const uint8_t *p) {
    struct fio2070_fault fault;
    memset(&fault, 0, sizeof fault);
    fault.kind = p[0];
    fault.code = p[1];
    fault.needed = get16(p + 2);
    fault.got = get64(p + 8);
    return fault;
}

static void put_fault(uint8_t *p, const struct fio2070_fault *fault) {
    p[0] = fault->kind;
    p[1] = fault->code;
    put16(p + 2, fault->needed);
    put64(p + 8, fault->got);
}

/* ---- Texts ---- */

size_t fio2070_fault_text(const struct fio2070_fault *fault, char *text, size_t room) {
    uint8_t octets[16] = {0};
    MACHINE(fio2070_fault_text);
    put_fault(octets, fault);
    {
        uint64_t a = READS(octets, 16), b = WRITES(text, room);
        return (size_t)call_fio2070_fault_text(&machine, a, b, room);
    }
}

size_t fio2070_heard_text(const struct fio2070_heard *heard, char *text, size_t room) {
    uint8_t octets[32] = {0};
    MACHINE(fio2070_heard_text);
    octets[0] = heard->kind;
    octets[1] = heard->code;
    octets[2] = heard->number;
    octets[3] = heard->status;
    put32(octets + 4, heard->stamp);
    put16(octets + 8, heard->items);
    octets[10] = heard->entries;
    put_fault(octets + 16, &heard->fault);
    {
        uint64_t a = READS(octets, 32), b = WRITES(text, room);
        return (size_t)call_fio2070_heard_text(&machine, a, b, room);
    }
}

/* Calls that take numbers and octets, and write to the room that they are given. */
#define ENCODES(name, takes, ...)                                          \
    size_t fio2070_##name takes {                                          \
        MACHINE(fio2070_##name);                                           \
        {                                                                  \
            uint64_t to = WRITES(out, room);                               \
            return (size_t)call_fio2070_##name(&machine, __VA_ARGS__);     \
        }                                                                  \
    }

ENCODES(rule_text, (uint8_t rule, char *out, size_t room), rule, to, room)
ENCODES(content_rule_text, (uint8_t rule, char *out, size_t room), rule, to, room)
ENCODES(show, (const uint8_t *octets, size_t length, char *out, size_t room), READS(octets, length), length, to, room)

uint32_t fio2070_version(void) {
    MACHINE(fio2070_version);
    return call_fio2070_version(&machine);
}

/* ---- Blocks ---- */

/* Calls that read so many octets of a message, of which `settle` makes what the caller gets if there is no fault. */
#define DECODES(name, count, type, settle)                                                         \
    struct fio2070_fault fio2070_##name(const uint8_t *octets, size_t length, type *it) {          \
        uint8_t fault[16] = {0}, into[count] = {0};                                                \
        MACHINE(fio2070_##name);                                                                   \
        {                                                                                          \
            uint64_t a = WRITES(fault, 16), b = READS(octets, length), c = WRITES(into, count);    \
            call_fio2070_##name(&machine, a, b, length, c);                                        \
        }                                                                                          \
        if (fault[0] == FIO2070_FAULT_NONE) settle;                                                \
        return fault_in(fault);                                                                    \
    }

static void settle_header(struct fio2070_block_header *header, const uint8_t *into) {
    memset(header, 0, sizeof *header);
    header->number = into[0];
    header->status = into[1];
    header->count = into[2];
    header->stamp = get32(into + 4);
}

DECODES(read_block, 8, struct fio2070_block_header, settle_header(it, into))

/* Entries that the module wrote, in the processor's own order of octets. */
static void settle_entries(struct fio2070_entry *entries, size_t count) {
    size_t place;
    for (place = 0; !IS_LITTLE && place < count; place++) entries[place].stamp = get16((const uint8_t *)&entries[place].stamp);
}

size_t fio2070_block_entries(const uint8_t *octets, size_t length, struct fio2070_entry *entries, size_t room) {
    size_t count;
    MACHINE(fio2070_block_entries);
    {
        uint64_t a = READS(octets, length), b = WRITES(entries, room * sizeof *entries);
        count = (size_t)call_fio2070_block_entries(&machine, a, length, b, room);
    }
    if (count <= room) settle_entries(entries, count);
    return count;
}

uint32_t fio2070_widen(uint32_t answer_stamp, uint16_t stamp) {
    MACHINE(fio2070_widen);
    return call_fio2070_widen(&machine, answer_stamp, stamp);
}

/* ---- How often to poll over a line ---- */

uint8_t fio2070_plan(const struct fio2070_line *line, struct fio2070_pace *pace) {
    uint8_t from[24] = {0}, into[32] = {0}, planned;
    MACHINE(fio2070_plan);
    put32(from, line->rate);
    put32(from + 4, line->answer);
    put32(from + 8, line->other);
    put16(from + 12, line->lost);
    put16(from + 14, line->waiting);
    from[16] = line->per_block;
    from[17] = line->inputs;
    from[18] = line->filter;
    from[19] = line->stop_bits;
    put16(from + 20, line->drift);
    put16(from + 22, line->jitter);
    {
        uint64_t a = READS(from, 24), b = WRITES(into, 32);
        planned = (uint8_t)call_fio2070_plan(&machine, a, b);
    }
    if (planned == FIO2070_PACE_FOUND) {
        pace->scans = get64(into);
        pace->round = get64(into + 8);
        pace->late = get64(into + 16);
        pace->load = get64(into + 24);
    }
    return planned;
}

/* ---- Any message ---- */

static void settle_command(struct fio2070_command *command, const uint8_t *into) {
    memset(command, 0, sizeof *command);
    command->code = into[0];
    command->clear = into[1];
    command->block = into[2];
    command->timeout = into[3];
    command->count = into[4];
    command->body = get16(into + 6);
    command->load = get32(into + 8);
    memcpy(command->levels, into + 12, 8);
    memcpy(command->controls, into + 20, 8);
}

DECODES(decode_command, 28, struct fio2070_command, settle_command(it, into))

size_t fio2070_command_items(const uint8_t *octets, size_t length, struct fio2070_configuration_item *items,
                             size_t room) {
    MACHINE(fio2070_command_items);
    uint64_t a = READS(octets, length), b = WRITES(items, room * sizeof *items);
    return (size_t)call_fio2070_command_items(&machine, a, length, b, room);
}

static void settle_answer(struct fio2070_answer *answer, const uint8_t *into) {
    memset(answer, 0, sizeof *answer);
    answer->code = into[0];
    answer->flags = into[1];
    answer->receive_errors = into[2];
    answer->transmit_errors = into[3];
    answer->status = into[4];
    answer->block = into[5];
    answer->count = into[6];
    answer->body = get16(into + 10);
    answer->stamp = get32(into + 12);
    answer->inputs = get64(into + 16);
}

DECODES(decode_answer, 24, struct fio2070_answer, settle_answer(it, into))

/* ---- Writing ---- */

/* The structs in the module's order of octets. */
static void put_command(uint8_t into[28], const struct fio2070_command *command) {
    into[0] = command->code;
    into[1] = command->clear;
    into[2] = command->block;
    into[3] = command->timeout;
    into[4] = command->count;
    into[5] = command->reserved;
    put16(into + 6, command->body);
    put32(into + 8, command->load);
    memcpy(into + 12, command->levels, 8);
    memcpy(into + 20, command->controls, 8);
}

static void put_answer(uint8_t into[24], const struct fio2070_answer *answer) {
    into[0] = answer->code;
    into[1] = answer->flags;
    into[2] = answer->receive_errors;
    into[3] = answer->transmit_errors;
    into[4] = answer->status;
    into[5] = answer->block;
    into[6] = answer->count;
    memcpy(into + 7, answer->reserved, 3);
    put16(into + 10, answer->body);
    put32(into + 12, answer->stamp);
    put64(into + 16, answer->inputs);
}

size_t fio2070_encode_command(const struct fio2070_command *command, const struct fio2070_configuration_item *items,
                              size_t count, const uint8_t *body, size_t length, uint8_t *out, size_t room) {
    uint8_t fields[28];
    MACHINE(fio2070_encode_command);
    put_command(fields, command);
    {
        uint64_t a = READS(fields, 28), b = READS(items, count * sizeof *items), c = READS(body, length),
                 to = WRITES(out, room);
        return (size_t)call_fio2070_encode_command(&machine, a, b, count, c, length, to, room);
    }
}

size_t fio2070_encode_answer(const struct fio2070_answer *answer, const struct fio2070_entry *entries, size_t count,
                             const uint8_t *body, size_t length, uint8_t *out, size_t room) {
    /* Entries in the module's order of octets. Of more than 255 it reads none; a window that ends there would show it. */
    uint8_t fields[24], octets[FIO2070_MOST_ENTRIES * 4];
    uint64_t a, from, c, to;
    MACHINE(fio2070_encode_answer);
    put_answer(fields, answer);
    a = READS(fields, 24), c = READS(body, length), to = WRITES(out, room);
    if (IS_LITTLE) {
        from = READS(entries, count * sizeof *entries);
    } else {
        size_t place, most = count < FIO2070_MOST_ENTRIES ? count : FIO2070_MOST_ENTRIES;
        for (place = 0; place < most; place++) {
            octets[4 * place] = entries[place].input;
            octets[4 * place + 1] = entries[place].state;
            put16(octets + 4 * place + 2, entries[place].stamp);
        }
        from = READS(octets, 4 * most);
    }
    return (size_t)call_fio2070_encode_answer(&machine, a, from, count, c, length, to, room);
}

ENCODES(poller_poll, (const struct fio2070_poller *poller, uint8_t *out, size_t room), READS(poller, 1), to, room)

/* ---- The CPU's end ---- */

struct fio2070_heard fio2070_poller_hear(struct fio2070_poller *poller, const uint8_t *octets, size_t length,
                                         struct fio2070_record_item *items, size_t room) {
    uint8_t into[32] = {0};
    struct fio2070_heard heard;
    size_t place;
    MACHINE(fio2070_poller_hear);
    {
        uint64_t a = WRITES(into, 32), b = WRITES(poller, 1), c = READS(octets, length),
                 d = WRITES(items, room * sizeof *items);
        call_fio2070_poller_hear(&machine, a, b, c, length, d, room);
    }
    memset(&heard, 0, sizeof heard);
    heard.kind = into[0];
    heard.code = into[1];
    heard.number = into[2];
    heard.status = into[3];
    heard.stamp = get32(into + 4);
    heard.items = get16(into + 8);
    heard.entries = into[10];
    heard.fault = fault_in(into + 16);
    for (place = 0; !IS_LITTLE && heard.kind == FIO2070_HEARD_TAKEN && place < heard.items; place++) {
        struct fio2070_record_item *it = &items[place];
        it->stamp = get16((const uint8_t *)&it->stamp);
        it->wide = get32((const uint8_t *)&it->wide);
    }
    return heard;
}

/* ---- Parts of a module, and the module ---- */

/* Calls over a struct of the library's own. */
#define OVER(part, name, constness, result, returns, takes, ...)                                   \
    result fio2070_##part##_##name takes {                                                         \
        MACHINE(fio2070_##part##_##name);                                                          \
        {                                                                                          \
            uint64_t it = window(&machine, part, sizeof *part, constness);                         \
            returns call_fio2070_##part##_##name(&machine, __VA_ARGS__);                           \
        }                                                                                          \
    }

/* Starts of such a struct, with the limits of a module. */
#define BEGINS(part, name, takes, ...)                                                             \
    uint8_t fio2070_##part##_##name takes {                                                        \
        uint8_t octets[4] = {0};                                                                   \
        MACHINE(fio2070_##part##_##name);                                                          \
        put16(octets, limits.waiting);                                                             \
        octets[2] = limits.per_block;                                                              \
        {                                                                                          \
            uint64_t it = WRITES(part, sizeof *part), given = READS(octets, 4);                    \
            return (uint8_t)call_fio2070_##part##_##name(&machine, __VA_ARGS__);                   \
        }                                                                                          \
    }

OVER(poller, start, 1, void, , (struct fio2070_poller * poller, uint8_t number), it, number)

OVER(counter, start, 1, void, , (struct fio2070_counter * counter), it)
OVER(counter, tick, 1, void, , (struct fio2070_counter * counter), it)
OVER(counter, ask_load, 1, void, , (struct fio2070_counter * counter, uint32_t number), it, number)
OVER(counter, line_sync, 1, void, , (struct fio2070_counter * counter), it)
OVER(counter, now, 0, uint32_t, return, (const struct fio2070_counter *counter), it)

OVER(checker, start, 1, void, , (struct fio2070_checker * checker), it)

BEGINS(checker, start_within, (struct fio2070_checker * checker, struct fio2070_limits limits), it, given)
BEGINS(checker, start_anywhere, (struct fio2070_checker * checker, struct fio2070_limits limits), it, given)
OVER(checker, sent, 1, uint8_t, return (uint8_t),
     (struct fio2070_checker * checker, const uint8_t *octets, size_t length, struct fio2070_breach *breach), it,
     READS(octets, length), length, WRITES(breach, sizeof *breach))
OVER(checker, heard, 1, uint8_t, return (uint8_t),
     (struct fio2070_checker * checker, const uint8_t *octets, size_t length, struct fio2070_breach *breach), it,
     READS(octets, length), length, WRITES(breach, sizeof *breach))

OVER(content, start, 1, void, , (struct fio2070_content_checker * content), it)
OVER(content, start_begun, 1, void, , (struct fio2070_content_checker * content), it)
OVER(content, sent, 1, void, , (struct fio2070_content_checker * content, const uint8_t *octets, size_t length), it,
     READS(octets, length), length)

uint8_t fio2070_content_heard(struct fio2070_content_checker *content, const uint8_t *octets, size_t length,
                              struct fio2070_content_breach *breach) {
    uint8_t rule;
    MACHINE(fio2070_content_heard);
    {
        uint64_t a = WRITES(content, sizeof *content), b = READS(octets, length), c = WRITES(breach, sizeof *breach);
        rule = (uint8_t)call_fio2070_content_heard(&machine, a, b, length, c);
    }
    breach->items = get16((const uint8_t *)&breach->items);
    return rule;
}

/* ---- The judge of a link ---- */

BEGINS(judge, start_anywhere, (struct fio2070_judge * judge, struct fio2070_limits limits), it, given)
BEGINS(judge, start_begun, (struct fio2070_judge * judge, struct fio2070_limits limits), it, given)
OVER(judge, lose, 1, void, , (struct fio2070_judge * judge), it)

/* What a judge says of a frame. */
#define JUDGES(part, name, takes, ...)                                                             \
    uint8_t fio2070_##part##_##name takes {                                                        \
        uint8_t kind;                                                                              \
        MACHINE(fio2070_##part##_##name);                                                          \
        {                                                                                          \
            uint64_t it = WRITES(part, sizeof *part), frame = READS(octets, length),               \
                     to = WRITES(outcome, sizeof *outcome);                                        \
            kind = (uint8_t)call_fio2070_##part##_##name(&machine, __VA_ARGS__);                   \
        }                                                                                          \
        outcome->items = get16((const uint8_t *)&outcome->items);                                  \
        return kind;                                                                               \
    }

JUDGES(judge, sent,
       (struct fio2070_judge * judge, uint8_t at, const uint8_t *octets, size_t length, struct fio2070_judge_outcome *outcome),
       it, at, frame, length, to)
JUDGES(judge, heard, (struct fio2070_judge * judge, const uint8_t *octets, size_t length, struct fio2070_judge_outcome *outcome),
       it, frame, length, to)

/* ---- Frames on a line ---- */

OVER(wire, start, 1, void, , (struct fio2070_wire * wire, uint16_t address, uint16_t control), it, address, control)
OVER(wire, read, 1, size_t, return (size_t),
     (struct fio2070_wire * wire, const uint8_t *octets, size_t length, uint8_t *heard), it, READS(octets, length), length,
     WRITES(heard, 1))
OVER(wire, lose, 1, void, , (struct fio2070_wire * wire), it)
OVER(wire, message_length, 0, size_t, return (size_t), (const struct fio2070_wire *wire), it)
OVER(wire_bits, start, 1, void, , (struct fio2070_wire_bits * wire_bits, uint16_t address, uint16_t control), it, address,
     control)
OVER(wire_bits, read, 1, size_t, return (size_t),
     (struct fio2070_wire_bits * wire_bits, const uint8_t *line, size_t length, uint8_t *heard), it, READS(line, length),
     length, WRITES(heard, 1))
OVER(wire_bits, message_length, 0, size_t, return (size_t), (const struct fio2070_wire_bits *wire_bits), it)

ENCODES(wire_write,
        (uint8_t address, uint8_t control, const uint8_t *message, size_t length, uint8_t *out, size_t room), address,
        control, READS(message, length), length, to, room)

uint16_t fio2070_wire_check(const uint8_t *octets, size_t length) {
    MACHINE(fio2070_wire_check);
    return (uint16_t)call_fio2070_wire_check(&machine, READS(octets, length), length);
}

/* ---- Logs ---- */

#ifndef FIO2070_NO_LOG
SAME(size_of_log_batch, sizeof(struct fio2070_log_batch), 565264);

OVER(log, start, 1, void, , (struct fio2070_log_reader * log, uint8_t form), it, form)
OVER(log, end, 1, void, , (struct fio2070_log_reader * log), it)

/* A batch with its numbers in the module's order of octets instead of the processor's, or the other way; so many are in use. */
static void settle_batch(struct fio2070_log_batch *batch, uint32_t verdicts, uint32_t frames, uint32_t places) {
    uint32_t place;
    batch->verdict_count = get32((const uint8_t *)&batch->verdict_count);
    batch->frame_count = get32((const uint8_t *)&batch->frame_count);
    batch->octet_count = get32((const uint8_t *)&batch->octet_count);
    batch->place_count = get32((const uint8_t *)&batch->place_count);
    for (place = 0; place < verdicts && place < 4096; place++) {
        struct fio2070_log_verdict *it = &batch->verdicts[place];
        it->line = get64((const uint8_t *)&it->line);
        it->time = get64((const uint8_t *)&it->time);
        it->frames = get32((const uint8_t *)&it->frames);
        it->places = get32((const uint8_t *)&it->places);
    }
    for (place = 0; place < places && place < 20480; place++) {
        struct fio2070_log_place *it = &batch->places[place];
        it->line = get64((const uint8_t *)&it->line);
        it->start = get32((const uint8_t *)&it->start);
        it->end = get32((const uint8_t *)&it->end);
    }
    for (place = 0; place < frames && place < 20480; place++)
        batch->lengths[place] = get16((const uint8_t *)&batch->lengths[place]);
}

size_t fio2070_log_read(struct fio2070_log_reader *reader, const uint8_t *octets, size_t length,
                        struct fio2070_log_batch *batch) {
    size_t taken;
    MACHINE(fio2070_log_read);
    {
        uint64_t a = WRITES(reader, sizeof *reader), b = READS(octets, length), c = WRITES(batch, sizeof *batch);
        taken = (size_t)call_fio2070_log_read(&machine, a, b, length, c);
    }
    if (!IS_LITTLE)
        settle_batch(batch, get32((const uint8_t *)&batch->verdict_count), get32((const uint8_t *)&batch->frame_count),
                     get32((const uint8_t *)&batch->place_count));
    return taken;
}

/* What is written of forms: its numbers are put into the processor's order of octets. */
void fio2070_log_forms(const struct fio2070_log_reader *reader, struct fio2070_log_form_list *forms) {
    uint32_t place;
    MACHINE(fio2070_log_forms);
    {
        uint64_t a = READS(reader, sizeof *reader), b = WRITES(forms, sizeof *forms);
        call_fio2070_log_forms(&machine, a, b);
    }
    forms->count = get32((const uint8_t *)&forms->count);
    for (place = 0; place < forms->count && place < 16; place++) {
        struct fio2070_log_read_as *it = &forms->forms[place];
        it->from = get64((const uint8_t *)&it->from);
        it->lines = get64((const uint8_t *)&it->lines);
        it->damaged = get64((const uint8_t *)&it->damaged);
    }
}

uint32_t fio2070_log_like(struct fio2070_log_reader *reader, const uint8_t *octets, size_t length) {
    MACHINE(fio2070_log_like);
    {
        uint64_t a = WRITES(reader, sizeof *reader), b = READS(octets, length);
        return (uint32_t)call_fio2070_log_like(&machine, a, b, length);
    }
}

SAME(size_of_log_judge, sizeof(struct fio2070_log_judge), 752);

BEGINS(log_judge, start, (struct fio2070_log_judge * log_judge, struct fio2070_limits limits, uint8_t place, uint8_t start), it,
       given, place, start)
OVER(log_judge, lose, 1, void, , (struct fio2070_log_judge * log_judge), it)
OVER(log_judge, possible, 1, void, , (struct fio2070_log_judge * log_judge), it)
OVER(log_judge, miss, 1, void, , (struct fio2070_log_judge * log_judge), it)
JUDGES(log_judge, frame,
       (struct fio2070_log_judge * log_judge, uint8_t from_cpu, uint8_t said, const uint8_t *octets, size_t length,
        struct fio2070_judge_outcome *outcome),
       it, from_cpu, said, frame, length, to)

/* A batch that a call is given, which is as it was when the call returns: the second time its numbers are exchanged back. */
static void settle_given(const struct fio2070_log_batch *batch, uint32_t verdicts, uint32_t frames, uint32_t places) {
    if (!IS_LITTLE) settle_batch((struct fio2070_log_batch *)(uintptr_t)batch, verdicts, frames, places);
}

uint32_t fio2070_log_judge_batch(struct fio2070_log_judge *judge, uint8_t as_said, const struct fio2070_log_batch *batch,
                                 struct fio2070_judge_outcome outcomes[20480]) {
    const uint32_t verdicts = batch->verdict_count, frames = batch->frame_count, places = batch->place_count;
    uint32_t place, count;
    MACHINE(fio2070_log_judge_batch);
    settle_given(batch, verdicts, frames, places);
    {
        uint64_t a = WRITES(judge, sizeof *judge), b = READS(batch, sizeof *batch), c = WRITES(outcomes, 20480 * sizeof *outcomes);
        count = (uint32_t)call_fio2070_log_judge_batch(&machine, a, as_said, b, c);
    }
    settle_given(batch, verdicts, frames, places);
    for (place = 0; place < count; place++) outcomes[place].items = get16((const uint8_t *)&outcomes[place].items);
    return count;
}

uint32_t fio2070_log_batch_part(const struct fio2070_log_batch *batch, const uint8_t *mask, size_t length,
                                struct fio2070_log_batch *part) {
    const uint32_t verdicts = batch->verdict_count, frames = batch->frame_count, places = batch->place_count;
    uint32_t count;
    MACHINE(fio2070_log_batch_part);
    settle_given(batch, verdicts, frames, places);
    {
        uint64_t a = READS(batch, sizeof *batch), b = READS(mask, length), c = WRITES(part, sizeof *part);
        count = (uint32_t)call_fio2070_log_batch_part(&machine, a, b, length, c);
    }
    settle_given(batch, verdicts, frames, places);
    if (!IS_LITTLE)
        settle_batch(part, get32((const uint8_t *)&part->verdict_count), get32((const uint8_t *)&part->frame_count), 0);
    return count;
}

SAME(size_of_log_signs, sizeof(struct fio2070_log_signs), 836);

OVER(log_signs, start, 1, void, , (struct fio2070_log_signs * log_signs), it)
OVER(log_signs, frame, 1, void, ,
     (struct fio2070_log_signs * log_signs, uint8_t from_cpu, uint8_t said, const uint8_t *octets, size_t length), it, from_cpu,
     said, READS(octets, length), length)
OVER(log_signs, sign, 0, uint8_t, return (uint8_t), (const struct fio2070_log_signs *log_signs), it)

void fio2070_log_signs_batch(struct fio2070_log_signs *signs, uint8_t as_said, const struct fio2070_log_batch *batch) {
    const uint32_t verdicts = batch->verdict_count, frames = batch->frame_count, places = batch->place_count;
    MACHINE(fio2070_log_signs_batch);
    settle_given(batch, verdicts, frames, places);
    {
        uint64_t a = WRITES(signs, sizeof *signs), b = READS(batch, sizeof *batch);
        call_fio2070_log_signs_batch(&machine, a, as_said, b);
    }
    settle_given(batch, verdicts, frames, places);
}

/* Counts with their numbers of 64 bits, which are at the front, in the module's order of octets instead of the processor's, or
 * the other way. */
static void settle_counts(struct fio2070_log_counts *counts) {
    uint8_t *octets = (uint8_t *)counts;
    size_t place;
    for (place = 0; place < offsetof(struct fio2070_log_counts, has_sent_at); place += 8) {
        uint64_t number = get64(octets + place);
        memcpy(octets + place, &number, 8);
    }
}

SAME(size_of_log_counts, sizeof(struct fio2070_log_counts), 5200);

OVER(log_counts, start, 1, void, , (struct fio2070_log_counts * log_counts), it)
OVER(log_counts, lose, 1, void, , (struct fio2070_log_counts * log_counts), it)

uint8_t fio2070_log_counts_frame(struct fio2070_log_counts *counts, uint8_t has_time, uint64_t time, const uint8_t *octets,
                                 size_t length, uint64_t *taken) {
    uint8_t is_known;
    MACHINE(fio2070_log_counts_frame);
    if (!IS_LITTLE) settle_counts(counts);
    {
        uint64_t a = WRITES(counts, sizeof *counts), b = READS(octets, length), c = WRITES(taken, sizeof *taken);
        is_known = (uint8_t)call_fio2070_log_counts_frame(&machine, a, has_time, time, b, length, c);
    }
    if (!IS_LITTLE) settle_counts(counts);
    *taken = get64((const uint8_t *)taken);
    return is_known;
}

uint32_t fio2070_log_counts_batch(struct fio2070_log_counts *counts, const struct fio2070_log_batch *batch,
                                  uint64_t taken[20480]) {
    const uint32_t verdicts = batch->verdict_count, frames = batch->frame_count, places = batch->place_count;
    uint32_t place, count;
    MACHINE(fio2070_log_counts_batch);
    settle_given(batch, verdicts, frames, places);
    if (!IS_LITTLE) settle_counts(counts);
    {
        uint64_t a = WRITES(counts, sizeof *counts), b = READS(batch, sizeof *batch), c = WRITES(taken, 20480 * sizeof *taken);
        count = (uint32_t)call_fio2070_log_counts_batch(&machine, a, b, c);
    }
    settle_given(batch, verdicts, frames, places);
    if (!IS_LITTLE) settle_counts(counts);
    for (place = 0; place < count; place++) taken[place] = get64((const uint8_t *)&taken[place]);
    return count;
}

/* Stretches with their numbers of several octets, which are at the front, in the module's order of octets instead of the
 * processor's, or the other way. */
static void settle_stretches(struct fio2070_log_stretches *stretches) {
    uint8_t *octets = (uint8_t *)stretches;
    size_t place;
    for (place = 0; place < offsetof(struct fio2070_log_stretches, stamp); place += 8) {
        uint64_t number = get64(octets + place);
        memcpy(octets + place, &number, 8);
    }
    stretches->stamp = get32((const uint8_t *)&stretches->stamp);
    stretches->length = get16((const uint8_t *)&stretches->length);
}

SAME(size_of_log_stretches, sizeof(struct fio2070_log_stretches), 936);

OVER(log_stretches, start, 1, void, , (struct fio2070_log_stretches * log_stretches), it)

uint32_t fio2070_log_stretches_batch(struct fio2070_log_stretches *stretches, const struct fio2070_log_batch *batch,
                                     const struct fio2070_judge_outcome outcomes[20480],
                                     struct fio2070_log_seam seams[20480]) {
    const uint32_t verdicts = batch->verdict_count, frames = batch->frame_count, places = batch->place_count;
    uint32_t place, count;
    MACHINE(fio2070_log_stretches_batch);
    settle_given(batch, verdicts, frames, places);
    if (!IS_LITTLE) settle_stretches(stretches);
    {
        /* Of the outcomes only numbers of one octet are read. */
        uint64_t a = WRITES(stretches, sizeof *stretches), b = READS(batch, sizeof *batch),
                 c = READS(outcomes, 20480 * sizeof *outcomes), d = WRITES(seams, 20480 * sizeof *seams);
        count = (uint32_t)call_fio2070_log_stretches_batch(&machine, a, b, c, d);
    }
    settle_given(batch, verdicts, frames, places);
    if (!IS_LITTLE) settle_stretches(stretches);
    for (place = 0; place < count; place++) {
        seams[place].pause = get64((const uint8_t *)&seams[place].pause);
        seams[place].frame = get32((const uint8_t *)&seams[place].frame);
    }
    return count;
}
#endif

OVER(filters, start, 1, void, , (struct fio2070_filters * filters), it)
OVER(filters, scan, 1, uint64_t, return, (struct fio2070_filters * filters, uint64_t raw), it, raw)
OVER(filters, filtered, 0, uint64_t, return, (const struct fio2070_filters *filters), it)
OVER(filters, raw, 0, uint64_t, return, (const struct fio2070_filters *filters), it)

struct fio2070_configured fio2070_filters_configure(struct fio2070_filters *filters,
                                                    const struct fio2070_configuration_item *items, size_t count) {
    uint8_t into[16] = {0};
    struct fio2070_configured configured;
    MACHINE(fio2070_filters_configure);
    {
        uint64_t a = WRITES(into, 16), b = WRITES(filters, sizeof *filters), c = READS(items, count * sizeof *items);
        call_fio2070_filters_configure(&machine, a, b, c, count);
    }
    memset(&configured, 0, sizeof configured);
    configured.kind = into[0];
    configured.place = get64(into + 8);
    return configured;
}

BEGINS(sized_module, start, (struct fio2070_sized_module * sized_module, uint8_t id, struct fio2070_limits limits), it, id, given)
OVER(sized_module, restart, 1, void, , (struct fio2070_sized_module * sized_module), it)
OVER(sized_module, scan, 1, void, , (struct fio2070_sized_module * sized_module, struct fio2070_ring ring, uint64_t raw), it,
     WRITES(ring.slots, ring.capacity * 3), ring.capacity, raw)
OVER(sized_module, line_sync, 1, void, , (struct fio2070_sized_module * sized_module), it)
OVER(sized_module, raise, 1, void, , (struct fio2070_sized_module * sized_module, uint8_t mask), it, mask)
OVER(sized_module, set_errors, 1, void, ,
     (struct fio2070_sized_module * sized_module, uint8_t receive, uint8_t transmit), it, receive, transmit)
OVER(sized_module, count_receive_error, 1, void, , (struct fio2070_sized_module * sized_module), it)
OVER(sized_module, count_transmit_error, 1, void, , (struct fio2070_sized_module * sized_module), it)
OVER(sized_module, receive, 1, size_t, return (size_t),
     (struct fio2070_sized_module * sized_module, struct fio2070_ring ring, const uint8_t *octets, size_t length, uint8_t *out,
      size_t room),
     it, WRITES(ring.slots, ring.capacity * 3), ring.capacity, READS(octets, length), length, WRITES(out, room), room)
OVER(sized_module, makers_command, 1, uint8_t, return (uint8_t),
     (struct fio2070_sized_module * sized_module, const uint8_t *octets, size_t length), it, READS(octets, length), length)
OVER(sized_module, answer_other, 1, size_t, return (size_t),
     (struct fio2070_sized_module * sized_module, uint8_t command, const uint8_t *body, size_t length, uint8_t *out, size_t room),
     it, command, READS(body, length), length, WRITES(out, room), room)

struct fio2070_state fio2070_sized_module_state(const struct fio2070_sized_module *sized_module) {
    uint8_t into[48] = {0};
    struct fio2070_state state;
    MACHINE(fio2070_sized_module_state);
    {
        uint64_t a = WRITES(into, 48), b = READS(sized_module, sizeof *sized_module);
        call_fio2070_sized_module_state(&machine, a, b);
    }
    memset(&state, 0, sizeof state);
    state.filtered = get64(into);
    state.raw = get64(into + 8);
    memcpy(&state.outputs, into + 16, 16);
    state.counter = get32(into + 32);
    state.waiting = get16(into + 36);
    state.flags = into[38];
    state.watchdog_ms = into[39];
    memcpy(&state.errors, into + 40, 2);
    return state;
}
