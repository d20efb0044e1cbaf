/* A module, a poller and the checkers. */
#include "../encode.h"
#include "calls.h"

#include <stdlib.h>
#include <string.h>

/* ---- A module ---- */

struct device {
    struct fio2070_sized_module *module;
    struct fio2070_ring ring;
};

/* An answer is a message; with too little room nothing is written. */
static void receive(const struct device *device, struct input *input) {
    size_t length, room = take8(input) % 8 ? FIO2070_LONGEST_FRAME : take16(input) % 800u, count;
    uint8_t *frame = take_frame(input, &length), *answer = (uint8_t *)untouched(room);
    struct fio2070_answer read;
    count = fio2070_sized_module_receive(device->module, device->ring, frame, length, answer, room);
    count = written(count, room, answer, 1);
    mix_octets(answer, count);
    if (count > 0) require(fio2070_decode_answer(answer, count, &read).kind == 0, "an answer of a module is a message");
    free(frame), free(answer);
}

static void happen(const struct device *device, struct input *input) {
    struct fio2070_sized_module *module = device->module;
    uint64_t levels;
    uint8_t first, times;
    switch (take8(input) % 8) {
    case 0: fio2070_sized_module_scan(module, device->ring, take64(input)); break;
    case 1:
        times = take8(input);
        for (levels = take64(input); times > 0; times--, levels = ~levels * 3) fio2070_sized_module_scan(module, device->ring, levels);
        break;
    case 2: fio2070_sized_module_line_sync(module); break;
    case 3:
        fio2070_sized_module_raise(module, take8(input));
        fio2070_sized_module_count_receive_error(module);
        break;
    case 4:
        first = take8(input);
        fio2070_sized_module_set_errors(module, first, take8(input));
        fio2070_sized_module_count_transmit_error(module);
        break;
    case 5:
        if (take8(input) % 8 == 0) fio2070_sized_module_restart(module);
        break;
    default: receive(device, input);
    }
}

static void mix_module(const struct fio2070_sized_module *module) {
    struct fio2070_state state = fio2070_sized_module_state(module);
    mix_octets(state.outputs.levels, 8), mix_octets(state.outputs.controls, 8);
    mix(state.watchdog_ms), mix(state.counter), mix(state.filtered), mix(state.raw), mix(state.flags);
    mix(state.errors.receive), mix(state.errors.transmit), mix_octets(state.reserved, sizeof state.reserved);
}

/* Each input is reported, so that there is something to poll. */
static void configure(const struct device *device) {
    struct fio2070_configuration_item items[64];
    uint8_t command[FIO2070_LONGEST_FRAME], answer[FIO2070_LONGEST_FRAME];
    size_t length;
    for (length = 0; length < 64; length++) {
        items[length].input = (uint8_t)length;
        items[length].ignore = 0;
        items[length].leading = items[length].trailing = (uint8_t)(length % 4);
    }
    length = encode_items(items, 64, command, sizeof command);
    mix(fio2070_sized_module_receive(device->module, device->ring, command, length, answer, sizeof answer));
}

void call_module(struct input *input) {
    struct device device;
    struct fio2070_limits limits = {0, 0, 0};
    uint8_t how = take8(input), started;
    struct fio2070_slot *slots;
    limits.waiting = how % 2 ? take16(input) : (uint16_t)(take8(input) % 64 + 1);
    limits.per_block = take8(input);
    device.module = (struct fio2070_sized_module *)untouched(sizeof *device.module);
    started = fio2070_sized_module_start(device.module, take8(input), limits);
    mix(started);
    require(started == FIO2070_STARTED || is_untouched(device.module, sizeof *device.module), "a start that is refused changes nothing");
    device.ring.capacity = limits.waiting;
    if (has_garbage && how & 4) device.ring.capacity = take16(input) % 9000u;
    if (has_garbage && how & 8) take_into(input, device.module, sizeof *device.module);
    slots = (struct fio2070_slot *)untouched(device.ring.capacity * sizeof *slots);
    device.ring.slots = device.ring.capacity > 0 ? slots : NULL;
    if (started == FIO2070_STARTED || has_garbage) configure(&device);
    while (input->left > 0 && (started == FIO2070_STARTED || has_garbage)) {
        size_t waiting;
        happen(&device, input);
        mix_module(device.module);
        waiting = fio2070_sized_module_state(device.module).waiting;
        mix(waiting);
        require(how & 12 || started != FIO2070_STARTED || waiting <= limits.waiting, "no more entries wait than the limit");
    }
    free(slots), free(device.module);
}

/* ---- A poller ---- */

/* Most frames become a block with the number that is asked for. */
static size_t make_block(uint8_t number, uint8_t *frame, size_t length) {
    size_t count = (length - 8) / 3, place;
    frame[0] = FIO2070_TYPE_POLL + FIO2070_TYPE_ANSWER;
    frame[1] = number;
    frame[2] = (uint8_t)count;
    for (place = 0; place < count; place++) frame[3 + 3 * place] &= 0xbf;
    return 8 + 3 * (count % 256);
}

static void hear(struct fio2070_poller *poller, struct input *input) {
    size_t length, room = take8(input) % 4 ? FIO2070_MOST_RECORD_ITEMS : take8(input), place;
    uint8_t *frame = take_frame(input, &length), number = poller->number, poll[2];
    struct fio2070_record_item *items = (struct fio2070_record_item *)untouched(room * sizeof *items);
    struct fio2070_heard heard;
    char text[FIO2070_LONGEST_TEXT];
    if (length >= 8 && length <= FIO2070_LONGEST_FRAME && take8(input) % 4) length = make_block(number, frame, length);
    heard = fio2070_poller_hear(poller, frame, length, items, room);
    mix(heard.kind), mix(heard.code), mix(heard.number), mix(heard.status), mix(heard.stamp), mix(heard.items), mix(heard.entries);
    mix_fault(&heard.fault);
    if (heard.kind == FIO2070_HEARD_TAKEN) {
        require(poller->number == (uint8_t)(number + 1) && heard.items <= room, "a block that is taken fits, and the number goes on");
        for (place = 0; place < heard.items; place++) {
            mix(items[place].gap), mix(items[place].input), mix(items[place].state), mix(items[place].stamp), mix(items[place].wide);
            mix_octets(items[place].reserved, sizeof items[place].reserved);
        }
        room -= heard.items;
    } else {
        require(poller->number == number, "what is not taken changes no number");
        heard.items = 0;
    }
    require(is_untouched(items + heard.items, room * sizeof *items), "nothing is written beyond the items");
    mix_octets(text, fio2070_heard_text(&heard, text, sizeof text));
    require(fio2070_poller_poll(poller, poll, 2) == 2 && poll[1] == poller->number, "a poll has the number");
    free(items), free(frame);
}

void call_poller(struct input *input) {
    struct fio2070_poller poller;
    fio2070_poller_start(&poller, take8(input));
    while (input->left > 0) {
        struct fio2070_heard garbage;
        char text[80];
        hear(&poller, input);
        take_into(input, &garbage, has_garbage ? sizeof garbage : 0);
        if (has_garbage) mix(fio2070_heard_text(&garbage, text, take8(input) % sizeof text));
    }
}

/* ---- Checkers ---- */

static void mix_outcome(const struct fio2070_judge_outcome *found, uint8_t kind) {
    require(kind == found->kind && kind <= FIO2070_OUTCOME_NOT_JUDGED && found->reserved == 0, "the kind that is returned is that of the outcome");
    require(found->items <= FIO2070_MOST_RECORD_ITEMS && found->why <= FIO2070_WHY_LATE_ABOVE, "the outcome is in its ranges");
    mix(kind), mix(found->why), mix(found->rule), mix(found->has_due), mix(found->due), mix(found->got), mix(found->input);
    mix(found->items);
}

static void judge(struct fio2070_judge *judge, struct input *input, const uint8_t *frame, size_t length, int is_sent) {
    uint8_t how = take8(input), kind;
    struct fio2070_judge_outcome *found = (struct fio2070_judge_outcome *)untouched(sizeof *found);
    if (how % 8 == 0) fio2070_judge_lose(judge);
    kind = is_sent ? fio2070_judge_sent(judge, (uint8_t)(how >> 3), frame, length, found)
                   : fio2070_judge_heard(judge, frame, length, found);
    require(found->why <= FIO2070_WHY_PLACE_LOST, "the judge of a link knows no late answers");
    mix_outcome(found, kind);
    free(found);
}

static void judge_in_log(struct fio2070_log_judge *judge, struct input *input, const uint8_t *frame, size_t length, int is_sent) {
    uint8_t how = take8(input), kind;
    struct fio2070_judge_outcome *found = (struct fio2070_judge_outcome *)untouched(sizeof *found);
    if (how % 8 == 0) fio2070_log_judge_lose(judge);
    if (how % 8 == 1) fio2070_log_judge_possible(judge);
    if (how % 8 == 2) fio2070_log_judge_miss(judge);
    kind = fio2070_log_judge_frame(judge, (uint8_t)(is_sent ? 1 + how / 8 : 0), (uint8_t)(how >> 4), frame, length, found);
    mix_outcome(found, kind);
    free(found);
}

static void mix_counts(const struct fio2070_log_counts *it) {
    unsigned place;
    mix(it->frames), mix(it->polls), mix(it->repeats), mix(it->unanswered), mix(it->marks), mix(it->entries), mix(it->restarts);
    mix(it->sent_at), mix(it->waits), mix(it->reset), mix(it->first_reset);
    for (place = 0; place < 256; place++) mix(it->types[place]), mix(it->fills[place]);
    for (place = 0; place < 128; place++) mix(it->inputs[place]);
}

static void count(struct fio2070_log_counts *counts, struct input *input, const uint8_t *frame, size_t length) {
    uint8_t how = take8(input), is_known;
    uint64_t taken = UNTOUCHED, above = counts->frames;
    if (how % 8 == 0) fio2070_log_counts_lose(counts);
    is_known = fio2070_log_counts_frame(counts, (uint8_t)(how >> 4), take16(input), frame, length, &taken);
    require(is_known <= 1 && (is_known || taken == 0) && (how >> 4 || !is_known), "a time is taken by an answer with a time");
    require(counts->frames == above + 1, "each frame is counted");
    mix(taken), mix_counts(counts);
}

static void check(struct fio2070_checker *checker, struct fio2070_content_checker *content, struct fio2070_judge *link,
                  struct fio2070_log_judge *log, struct fio2070_log_counts *counts, struct input *input, uint8_t polled) {
    size_t length;
    int is_sent = take8(input) % 2;
    uint8_t *frame = take_frame(input, &length), rule;
    struct fio2070_breach breach;
    struct fio2070_content_breach found = {0, 0, 0};
    char text[FIO2070_LONGEST_TEXT];
    if (length > 1 && take8(input) % 2) frame[1] = polled;
    rule = is_sent ? fio2070_checker_sent(checker, frame, length, &breach) : fio2070_checker_heard(checker, frame, length, &breach);
    require(rule == breach.rule, "the rule that is returned is that of the breach");
    mix(rule), mix(breach.has_due), mix(breach.due), mix(breach.got);
    mix_octets(text, fio2070_rule_text(rule, text, sizeof text));
    if (is_sent) {
        fio2070_content_sent(content, frame, length);
    } else {
        rule = fio2070_content_heard(content, frame, length, &found);
        require(rule == found.rule && found.items <= FIO2070_MOST_RECORD_ITEMS, "the rule on content is that of its breach");
        mix_octets(text, fio2070_content_rule_text(rule, text, sizeof text));
    }
    mix(found.rule), mix(found.input), mix(found.items);
    judge(link, input, frame, length, is_sent);
    judge_in_log(log, input, frame, length, is_sent);
    count(counts, input, frame, length);
    free(frame);
}

/* A start that is refused leaves what was there, with which any call does something. */
static void begin(uint8_t started, void *it, size_t size) {
    mix(started);
    if (started == FIO2070_STARTED) return;
    require(is_untouched(it, size), "a start that is refused changes nothing");
    memset(it, UNTOUCHED, size);
}

void call_checkers(struct input *input) {
    struct fio2070_checker checker;
    struct fio2070_content_checker *content = (struct fio2070_content_checker *)untouched(sizeof *content);
    struct fio2070_judge *link = (struct fio2070_judge *)untouched(sizeof *link);
    struct fio2070_log_judge *log = (struct fio2070_log_judge *)untouched(sizeof *log);
    struct fio2070_log_counts *counts = (struct fio2070_log_counts *)untouched(sizeof *counts);
    struct fio2070_limits limits = {0, 0, 0};
    uint8_t how = take8(input), polled = 0;
    untouch(&checker, sizeof checker);
    limits.waiting = how & 1 ? take16(input) : FIO2070_STANDARD_WAITING;
    limits.per_block = how & 1 ? take8(input) : FIO2070_MOST_ENTRIES;
    fio2070_checker_start(&checker);
    mix(how & 16 ? fio2070_checker_start_anywhere(&checker, limits) : fio2070_checker_start_within(&checker, limits));
    if (how & 2) fio2070_content_start(content); else fio2070_content_start_begun(content);
    begin(how & 2 ? fio2070_judge_start_anywhere(link, limits) : fio2070_judge_start_begun(link, limits), link, sizeof *link);
    begin(fio2070_log_judge_start(log, limits, (uint8_t)(how >> 6), (uint8_t)(how >> 4)), log, sizeof *log);
    if (has_garbage && how & 4) take_into(input, content, sizeof *content);
    if (has_garbage && how & 32) take_into(input, link, sizeof *link);
    if (has_garbage && how & 64) take_into(input, log, sizeof *log);
    fio2070_log_counts_start(counts);
    if (has_garbage && how & 8) take_into(input, &checker, sizeof checker);
    if (has_garbage && how & 128) take_into(input, counts, sizeof *counts);
    while (input->left > 0) check(&checker, content, link, log, counts, input, polled), polled = (uint8_t)(polled + (take8(input) % 3 == 0));
    free(content);
    free(link);
    free(log);
    free(counts);
}
