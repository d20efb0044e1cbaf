/* The decoders, the encoders, the filters and the counter. */
#include "../encode.h"
#include "calls.h"

#include <stdlib.h>
#include <string.h>

/* A message that was read is written back as the same octets. */
static void encode_again(const struct fio2070_command *command, const struct fio2070_answer *answer, const uint8_t *frame, size_t length) {
    struct fio2070_configuration_item items[FIO2070_MOST_ENTRIES];
    struct fio2070_entry entries[FIO2070_MOST_ENTRIES];
    uint8_t back[FIO2070_LONGEST_FRAME];
    size_t count;
    if (command != NULL) {
        count = fio2070_command_items(frame, length, items, FIO2070_MOST_ENTRIES);
        count = fio2070_encode_command(command, items, count == FIO2070_NO_MESSAGE ? 0 : count, frame + 1, command->body, back, sizeof back);
    } else {
        count = fio2070_block_entries(frame, length, entries, FIO2070_MOST_ENTRIES);
        count = fio2070_encode_answer(answer, entries, count == FIO2070_NO_MESSAGE ? 0 : count, frame + 1, answer->body, back, sizeof back);
    }
    require(count == length && memcmp(back, frame, length) == 0, "a message that was read is written as the same octets");
}

static void decode_command(const uint8_t *frame, size_t length, size_t room) {
    struct fio2070_command command;
    struct fio2070_configuration_item *items = (struct fio2070_configuration_item *)untouched(room * sizeof *items), *item;
    struct fio2070_fault fault;
    size_t count;
    untouch(&command, sizeof command);
    fault = fio2070_decode_command(frame, length, &command);
    mix_fault(&fault);
    require(fault.kind == 0 || is_untouched(&command, sizeof command), "a command that is refused changes nothing");
    if (fault.kind == 0) {
        mix(command.code), mix(command.clear), mix(command.block), mix(command.timeout), mix(command.count);
        mix(command.body), mix(command.load);
        mix_octets(command.levels, 8), mix_octets(command.controls, 8), mix(command.reserved);
    }
    count = written(fio2070_command_items(frame, length, items, room), room, items, sizeof *items);
    for (item = items; item < items + count; item++) mix(item->input), mix(item->ignore), mix(item->leading), mix(item->trailing);
    if (fault.kind == 0) encode_again(&command, NULL, frame, length);
    free(items);
}

static void decode_block(const uint8_t *frame, size_t length, size_t room) {
    struct fio2070_block_header header;
    struct fio2070_entry *entries = (struct fio2070_entry *)untouched(room * sizeof *entries), *entry;
    struct fio2070_fault fault;
    size_t count;
    untouch(&header, sizeof header);
    fault = fio2070_read_block(frame, length, &header);
    mix_fault(&fault);
    require(fault.kind == 0 || is_untouched(&header, sizeof header), "a block that is refused changes nothing");
    if (fault.kind == 0) mix(header.number), mix(header.status), mix(header.count), mix(header.stamp), mix(header.reserved);
    count = written(fio2070_block_entries(frame, length, entries, room), room, entries, sizeof *entries);
    for (entry = entries; entry < entries + count; entry++) mix(entry->input), mix(entry->state), mix(entry->stamp);
    free(entries);
}

static void decode_answer(const uint8_t *frame, size_t length) {
    struct fio2070_answer answer;
    struct fio2070_fault fault;
    untouch(&answer, sizeof answer);
    fault = fio2070_decode_answer(frame, length, &answer);
    mix_fault(&fault);
    require(fault.kind == 0 || is_untouched(&answer, sizeof answer), "an answer that is refused changes nothing");
    if (fault.kind == 0) {
        mix(answer.code), mix(answer.flags), mix(answer.receive_errors), mix(answer.transmit_errors), mix(answer.status);
        mix(answer.block), mix(answer.count), mix(answer.body), mix(answer.stamp), mix(answer.inputs);
        mix_octets(answer.reserved, sizeof answer.reserved);
        encode_again(NULL, &answer, frame, length);
    }
}

static void show(const uint8_t *frame, size_t length, size_t room) {
    char *text = (char *)untouched(room);
    size_t count = fio2070_show(frame, length, text, room);
    mix(count);
    if (count < room) {
        require(strlen(text) == count, "a text has the length that is returned");
        mix_octets(text, count);
    } else {
        require(is_untouched(text, room), "no text is written where there is too little room");
    }
    free(text);
}

void call_decoders(struct input *input) {
    while (input->left > 0) {
        size_t length, room = take8(input), most = take16(input) % MOST_TEXT;
        uint32_t answer_stamp = take32(input);
        uint8_t *frame = take_frame(input, &length);
        decode_command(frame, length, room);
        decode_block(frame, length, room);
        decode_answer(frame, length);
        show(frame, length, most);
        mix(fio2070_widen(answer_stamp, take16(input)));
        free(frame);
    }
}

/* A struct of any octets: mostly of a type, with the fields of that type or all of them. */
static struct fio2070_command any_command(struct input *input) {
    struct fio2070_command command = command_of((uint8_t)(48 + take8(input) % 14));
    command.clear = take8(input), command.block = take8(input), command.timeout = take8(input);
    command.load = take32(input);
    take_into(input, command.levels, sizeof command.levels);
    take_into(input, command.controls, sizeof command.controls);
    if (take8(input) % 4 != 0) {
        if (command.code != FIO2070_TYPE_STATUS) command.clear = 0;
        if (command.code != FIO2070_TYPE_POLL) command.block = 0;
        if (command.code != FIO2070_TYPE_WATCHDOG) command.timeout = 0;
        if (command.code != FIO2070_TYPE_LOAD_COUNTER) command.load = 0;
        if (command.code != FIO2070_TYPE_SET_OUTPUTS)
            memset(command.levels, 0, sizeof command.levels), memset(command.controls, 0, sizeof command.controls);
    }
    return command;
}

static struct fio2070_answer any_answer(struct input *input) {
    struct fio2070_answer answer = answer_of((uint8_t)(176 + take8(input) % 14));
    uint8_t type = (uint8_t)(answer.code - FIO2070_TYPE_ANSWER);
    answer.flags = take8(input), answer.receive_errors = take8(input), answer.transmit_errors = take8(input);
    answer.status = take8(input), answer.block = take8(input), answer.stamp = take32(input), answer.inputs = take64(input);
    if (take8(input) % 4 != 0) {
        if (type != FIO2070_TYPE_STATUS) answer.flags = answer.receive_errors = answer.transmit_errors = 0;
        if (type != FIO2070_TYPE_RAW_INPUTS && type != FIO2070_TYPE_FILTERED_INPUTS) answer.inputs = 0;
        if (type != FIO2070_TYPE_POLL) answer.block = 0;
        if (type > FIO2070_TYPE_POLL) answer.stamp = 0;
        if (type != FIO2070_TYPE_POLL && type != FIO2070_TYPE_WATCHDOG) answer.status = 0;
    }
    return answer;
}

/* An encoder, with a list or a body, or none. */
static size_t encode(struct input *input, uint8_t *out, size_t room) {
    size_t count = take8(input), length, place, done;
    struct fio2070_command command = any_command(input);
    struct fio2070_answer answer = any_answer(input);
    struct fio2070_configuration_item *items = (struct fio2070_configuration_item *)untouched(count * sizeof *items);
    struct fio2070_entry *entries = (struct fio2070_entry *)untouched(count * sizeof *entries);
    uint8_t kind = take8(input), *body = take_frame(input, &length);
    for (place = 0; place < count; place++) {
        items[place].input = entries[place].input = take8(input);
        items[place].ignore = entries[place].state = take8(input);
        items[place].leading = take8(input);
        items[place].trailing = take8(input);
        entries[place].stamp = take16(input);
    }
    if (kind & 2) count = 0;
    if (kind & 4) length = 0;
    command.count = answer.count = (uint8_t)count;
    command.body = answer.body = (uint16_t)length;
    done = kind & 1 ? fio2070_encode_command(&command, items, count, body, length, out, room)
                    : fio2070_encode_answer(&answer, entries, count, body, length, out, room);
    free(items), free(entries), free(body);
    return done;
}

void call_encoders(struct input *input) {
    while (input->left > 0) {
        size_t room = take16(input) % 900u, count;
        uint8_t *out = (uint8_t *)untouched(room);
        count = encode(input, out, room);
        mix_octets(out, written(count, room, out, 1));
        free(out);
    }
}

void call_parts(struct input *input) {
    struct fio2070_filters *filters = (struct fio2070_filters *)untouched(sizeof *filters);
    struct fio2070_counter counter;
    fio2070_filters_start(filters);
    fio2070_counter_start(&counter);
    if (has_garbage && take8(input) % 2) take_into(input, filters, sizeof *filters), take_into(input, &counter, sizeof counter);
    while (input->left > 0) {
        struct fio2070_configuration_item items[300];
        size_t count = take8(input) % 8 ? take8(input) % 8u : take16(input) % 301u, place;
        struct fio2070_configured configured;
        for (place = 0; place < count; place++) {
            items[place].input = (uint8_t)(take8(input) % 70), items[place].ignore = take8(input) % 2;
            items[place].leading = take8(input) % 8, items[place].trailing = take8(input) % 8;
        }
        configured = fio2070_filters_configure(filters, items, count);
        mix(configured.kind), mix(configured.place);
        for (count = take8(input) % 16; count > 0; count--) mix(fio2070_filters_scan(filters, take64(input)));
        mix(fio2070_filters_filtered(filters)), mix(fio2070_filters_raw(filters));
        fio2070_counter_tick(&counter);
        if (take8(input) % 4 == 0) fio2070_counter_ask_load(&counter, take32(input));
        if (take8(input) % 4 == 0) fio2070_counter_line_sync(&counter);
        mix(fio2070_counter_now(&counter));
    }
    free(filters);
}
