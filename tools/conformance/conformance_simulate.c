/* Lets the ends of `fio2070 simulate` send the frames that come to the module, so that simulate runs the script. */
#include "conformance_fresh.h"
#include "conformance_link.h"

#include <string.h>

/* A script that grows, and the proved ends after it. */
struct growth {
    struct script script;
    struct link link;
    int is_full;
};

static void add(struct growth *growth, enum event_kind kind, const struct event *frame) {
    struct event event = *frame;
    event.kind = kind;
    if (conformance_add(&growth->script, &event) == NULL) growth->is_full = 1;
    conformance_link_go(&growth->link, &event);
}

int conformance_is_poll(const struct event *event) {
    return event->kind == EVENT_FRAME && event->length == 2 && event->octets[0] == FIO2070_TYPE_POLL;
}

uint8_t conformance_next_poll(const struct script *script, size_t place, uint8_t other) {
    for (; place < script->length; place++) {
        if (conformance_is_poll(&script->events[place])) return script->events[place].octets[1];
    }
    return other;
}

/* A frame that comes to the module is sent and delivered, if simulate can send it. The CPU takes the
 * answer to a poll if the next poll has the next number; otherwise the answer is lost. */
static void add_frame(struct growth *growth, const struct script *script, size_t place) {
    const struct event *event = &script->events[place];
    struct fio2070_command command;
    uint8_t number = growth->link.cpu.number;
    memset(&command, 0, sizeof command);
    if (conformance_is_poll(event) && event->octets[1] == number) {
        add(growth, EVENT_POLL, event);
        add(growth, EVENT_DELIVER, event);
        if (conformance_next_poll(script, place + 1, number) == (uint8_t)(number + 1)) add(growth, EVENT_ANSWER, event);
    } else if (!conformance_is_poll(event) &&
               fio2070_decode_command(event->octets, event->length, &command).kind == FIO2070_FAULT_NONE) {
        add(growth, EVENT_COMMAND, event);
        add(growth, EVENT_DELIVER, event);
    } else {
        add(growth, EVENT_FRAME, event);
    }
}

void conformance_simulate(const struct ends *ends, struct fresh *fresh, struct script *script) {
    static struct growth growth;
    static struct difference ignored;
    size_t place, length;
    growth.is_full = 0;
    growth.script.length = 0;
    growth.script.id = script->id;
    growth.script.per_block = script->per_block;
    growth.script.number = conformance_next_poll(script, 0, script->number);
    conformance_link_start(&growth.link, NULL, &growth.script);
    for (place = 0; place < script->length; place++) {
        if (script->events[place].kind == EVENT_FRAME) {
            add_frame(&growth, script, place);
        } else {
            add(&growth, script->events[place].kind, &script->events[place]);
        }
    }
    length = conformance_fresh_compare(fresh, ends, &growth.script, &ignored);
    if (growth.is_full || length != growth.script.length) return;
    conformance_copy(script, &growth.script);
}
