/* Variants of a script that was shrunk, which show what its difference does not come from. */
#include "conformance_octets.h"
#include "conformance_suspect.h"

#include <string.h>

static struct script variant;

static int differs(const struct ends *ends) {
    static struct difference ignored;
    return conformance_compare(ends, &variant, &ignored) > 0;
}

/* The variant has the first events of the script. */
static void begin_variant(const struct script *script, size_t events) {
    conformance_copy(&variant, script);
    variant.length = events;
}

static void add_frame(const uint8_t *octets, size_t length) {
    struct event event = conformance_event(EVENT_FRAME, octets, length);
    conformance_add(&variant, &event);
}

/* The variant begins with the configuration of all inputs as it is at the start, except for the ignore flag, which is given. */
static void begin_configured(const struct script *script, unsigned ignore) {
    uint8_t octets[2 + 3 * 64];
    unsigned input;
    begin_variant(script, 0);
    memset(octets, 5, sizeof octets);
    octets[0] = FIO2070_TYPE_CONFIGURE_INPUTS;
    octets[1] = 64;
    for (input = 0; input < 64; input++) octets[2 + 3 * input] = (uint8_t)(input | ignore);
    add_frame(octets, sizeof octets);
}

static int is_configuration(const struct event *event) {
    return (event->kind == EVENT_FRAME || event->kind == EVENT_COMMAND) && event->length > 1 &&
           event->octets[0] == FIO2070_TYPE_CONFIGURE_INPUTS && event->length == 2 + 3u * event->octets[1];
}

int conformance_comes_from_start(const struct ends *ends, const struct script *script) {
    size_t place;
    begin_configured(script, 128);
    for (place = 0; place < script->length; place++) conformance_add(&variant, &script->events[place]);
    return !differs(ends);
}

int conformance_comes_from_ignored(const struct ends *ends, const struct script *script) {
    uint8_t octets[CONFORMANCE_LONGEST_FRAME];
    size_t place, item;
    begin_configured(script, 0);
    for (place = 0; place < script->length; place++) {
        struct event event = script->events[place];
        if (is_configuration(&event)) {
            memcpy(octets, event.octets, event.length);
            for (item = 2; item < event.length; item += 3) octets[item] &= 127;
            event.octets = octets;
        }
        conformance_add(&variant, &event);
    }
    return !differs(ends);
}

/* ---- Along the proved module ---- */

/* The inputs that an event configures. */
static uint64_t configured(const struct event *event) {
    uint64_t inputs = 0;
    size_t item;
    for (item = 2; is_configuration(event) && item < event->length; item += 3) {
        inputs |= (uint64_t)1 << (event->octets[item] & 63);
    }
    return inputs;
}

int conformance_interrupts_samples(const struct ends *ends, const struct script *script) {
    static struct link link;
    struct view view;
    uint64_t pending, named = 0;
    size_t place;
    (void)ends;
    conformance_link_start(&link, NULL, script);
    for (place = 0; place + 1 < script->length; place++) {
        const struct event *event = &script->events[place];
        conformance_look(&link.module, &view);
        pending = link.history.has_scanned ? link.history.levels ^ view.filtered : 0;
        if (event->kind == EVENT_RESTART) pending = 0;
        if (event->kind == EVENT_COMMAND || event->kind == EVENT_FRAME) named = configured(event);
        if (event->kind != EVENT_SCAN && event->kind != EVENT_POLL && event->kind != EVENT_COMMAND &&
            event->kind != EVENT_ANSWER && pending != 0 && (pending & ~named) != 0) {
            return 1;
        }
        if (event->kind == EVENT_DELIVER || event->kind == EVENT_FRAME) named = 0;
        conformance_link_go(&link, event);
    }
    return 0;
}

/* The number of the event that made the last entry, from 1. */
static size_t last_made(const struct script *script) {
    static struct link link;
    size_t place, made = 0;
    conformance_link_start(&link, NULL, script);
    for (place = 0; place < script->length; place++) {
        unsigned long entries = link.history.entries;
        conformance_link_go(&link, &script->events[place]);
        if (link.history.entries > entries) made = place + 1;
    }
    return made;
}

enum lack conformance_lack(const struct ends *ends, const struct script *script) {
    static const uint8_t filtered[] = {FIO2070_TYPE_FILTERED_INPUTS}, poll[] = {FIO2070_TYPE_POLL, 0};
    begin_variant(script, script->length - 1);
    add_frame(filtered, sizeof filtered);
    if (differs(ends)) return LACKS_STATE;
    begin_variant(script, last_made(script));
    add_frame(poll, sizeof poll);
    return differs(ends) ? LACKS_TRANSITION : LACKS_WAITING;
}
