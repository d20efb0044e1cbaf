/* Leaves out of a script what its difference does not need: events, items and entries, changes of inputs, and the size
 * of its numbers. */
#include "conformance_trial.h"

#include <string.h>

/* A script of this many events is worth another look; one that is many times longer than MANY is not tried without each scan
 * alone. */
enum { LONG = 40, MANY = 512 };

/* Whether there is an event at this place, and time for more trials. */
static int goes_on(const struct shrinking *shrinking, size_t place) {
    return place < shrinking->script->length && !conformance_is_over(shrinking);
}

/* ---- Events ---- */

/* The trial lacks a run of events. */
static void leave_out(size_t first, size_t run) {
    struct event *events = conformance_trial.events + first;
    conformance_trial.length -= run;
    memmove(events, events + run, (conformance_trial.length - first) * sizeof *events);
}

/* Keeps only the last events, with the CPU's number as it is before them. Returns 1 if they are enough. */
static int begin_at(struct shrinking *shrinking, size_t first) {
    static struct link link;
    size_t place;
    conformance_link_start(&link, NULL, shrinking->script);
    for (place = 0; place < first; place++) conformance_link_go(&link, &shrinking->script->events[place]);
    conformance_begin_trial(shrinking);
    conformance_trial.number = link.cpu.number;
    leave_out(0, first);
    return conformance_take_trial(shrinking);
}

/* Leaves out the first events of a CPU's script. Returns 1 if some could be. */
static int begin_later(struct shrinking *shrinking) {
    size_t last, length = shrinking->script->length;
    for (last = 1; last < length && goes_on(shrinking, 0); last += 1 + last / 16) {
        if (begin_at(shrinking, length - last)) return 1;
    }
    return 0;
}

/* Whether a run is not worth a trial: a few of very many scans. */
static int is_slight(const struct script *script, size_t first, size_t run) {
    return run < script->length / MANY && script->events[first].kind == EVENT_SCAN;
}

/* Leaves out a run of events. Returns 1 if it could. */
static int drop_run_of_events(struct shrinking *shrinking, size_t first, size_t run) {
    conformance_begin_trial(shrinking);
    leave_out(first, run);
    return conformance_take_trial(shrinking);
}

/* Leaves out events, in runs of half the script down to one. Returns 1 if some could be. */
static int drop_events(struct shrinking *shrinking) {
    size_t run, first;
    int dropped = 0;
    for (run = shrinking->script->length / 2 + 1; run > 0; run /= 2) {
        for (first = 0; first + run <= shrinking->script->length && goes_on(shrinking, first);) {
            if (!is_slight(shrinking->script, first, run) && drop_run_of_events(shrinking, first, run)) {
                dropped = 1;
            } else {
                first += run;
            }
        }
    }
    return dropped;
}

/* Leaves out the few events of a very long script that are no scans, each alone. */
static void drop_frames(struct shrinking *shrinking) {
    const struct script *script = shrinking->script;
    size_t place, frames = 0;
    for (place = 0; place < script->length; place++) frames += script->events[place].kind != EVENT_SCAN;
    if (frames > script->length / MANY) return;
    for (place = 0; goes_on(shrinking, place);) {
        if (script->events[place].kind == EVENT_SCAN || !drop_run_of_events(shrinking, place, 1)) place++;
    }
}

/* ---- Inputs ---- */

/* Lets a scan change all inputs, so that fewer scans give as many entries. */
static int change_all_inputs(struct shrinking *shrinking) {
    uint64_t levels = ~(uint64_t)0;
    size_t place;
    int changed = 0;
    for (place = 0; goes_on(shrinking, place); place++) {
        if (shrinking->script->events[place].kind != EVENT_SCAN) continue;
        levels = ~levels;
        if (shrinking->script->events[place].inputs == levels) continue;
        conformance_begin_trial(shrinking);
        conformance_trial.events[place].inputs = levels;
        changed |= conformance_take_trial(shrinking);
        if (place < shrinking->script->length) levels = shrinking->script->events[place].inputs;
    }
    return changed;
}

/* Lets scans change fewer inputs: all levels 1, then half of them, down to each alone. */
static void calm_scans(struct shrinking *shrinking) {
    size_t place;
    unsigned width, first;
    for (place = 0; goes_on(shrinking, place); place++) {
        if (shrinking->script->events[place].kind != EVENT_SCAN) continue;
        for (width = 64; width > 0; width /= 2) {
            for (first = 0; first < 64 && place < shrinking->script->length; first += width) {
                uint64_t mask = (width == 64 ? ~(uint64_t)0 : ((uint64_t)1 << width) - 1) << first;
                conformance_begin_trial(shrinking);
                conformance_trial.events[place].inputs |= mask;
                if (conformance_trial.events[place].inputs != shrinking->script->events[place].inputs) conformance_take_trial(shrinking);
            }
        }
    }
}

/* ---- Items ---- */

/* Gives an event of the trial other octets. */
static void set_octets(size_t place, const uint8_t *octets, size_t length) {
    struct event event = conformance_trial.events[place];
    event.octets = octets;
    event.length = length;
    if (conformance_add(&conformance_trial, &event) == NULL) return;
    conformance_trial.events[place] = conformance_trial.events[--conformance_trial.length];
}

/* Tries an event with other octets. Returns 1 if they are enough. */
static int try_octets(struct shrinking *shrinking, size_t place, const uint8_t *octets, size_t length) {
    conformance_begin_trial(shrinking);
    set_octets(place, octets, length);
    return conformance_take_trial(shrinking);
}

/* Where the count is in the octets of an event: the items of a configuration, or the entries of a block, follow it.
 * 0 if there is none. */
static size_t count_place(const struct event *event) {
    if (event->length > 1 && event->kind != EVENT_HEAR && event->octets[0] == FIO2070_TYPE_CONFIGURE_INPUTS) return 1;
    if (event->length > 2 && event->octets[0] == FIO2070_TYPE_POLL + FIO2070_TYPE_ANSWER) return 2;
    return 0;
}

/* Leaves out some items or entries of an event. Returns 1 if it could. */
static int drop_run(struct shrinking *shrinking, size_t place, size_t at, size_t first, size_t run) {
    const struct event *event = &shrinking->script->events[place];
    uint8_t octets[CONFORMANCE_LONGEST_FRAME];
    uint8_t *item = octets + at + 1 + 3 * first;
    size_t length = event->length - 3 * run;
    memcpy(octets, event->octets, event->length);
    octets[at] = (uint8_t)(octets[at] - run);
    memmove(item, item + 3 * run, length - at - 1 - 3 * first);
    return try_octets(shrinking, place, octets, length);
}

/* Leaves out items or entries, in runs of half of them down to one. */
static void drop_items(struct shrinking *shrinking, size_t place) {
    const struct script *script = shrinking->script;
    size_t at = count_place(&script->events[place]), run, first;
    if (at == 0) return;
    for (run = script->events[place].octets[at] / 2u + 1; run > 0; run /= 2) {
        for (first = 0; place < script->length && first + run <= script->events[place].octets[at];) {
            if (script->events[place].length < at + 1 + 3u * script->events[place].octets[at]) return;
            if (!drop_run(shrinking, place, at, first, run)) first += run;
        }
    }
}

/* ---- Numbers ---- */

/* Tries an octet of a frame with another value. Returns 1 if it could be. */
static int try_octet(struct shrinking *shrinking, size_t place, size_t octet, uint8_t value) {
    const struct event *event = &shrinking->script->events[place];
    uint8_t octets[CONFORMANCE_LONGEST_FRAME];
    memcpy(octets, event->octets, event->length);
    octets[octet] = value;
    return try_octets(shrinking, place, octets, event->length);
}

/* Makes an octet of a frame as small as it may be, but no smaller than this. */
static void lower_octet(struct shrinking *shrinking, size_t place, size_t octet, uint8_t low) {
    const struct script *script = shrinking->script;
    uint8_t bit;
    if (script->events[place].octets[octet] == low || try_octet(shrinking, place, octet, low)) return;
    for (bit = 128; bit > 0 && place < script->length; bit /= 2) {
        uint8_t clear = script->events[place].octets[octet] & (uint8_t)~bit;
        if (clear >= low && clear != script->events[place].octets[octet]) try_octet(shrinking, place, octet, clear);
    }
    while (place < script->length && script->events[place].octets[octet] > low + 1) {
        uint8_t middle = (uint8_t)(low + (script->events[place].octets[octet] - low) / 2);
        if (!try_octet(shrinking, place, octet, middle)) low = middle;
    }
}

/* Filters of 1, if they are enough, and inputs that exist and are open; for a single item the lowest input. */
static void lower_items(struct shrinking *shrinking, size_t place) {
    const struct script *script = shrinking->script;
    size_t octet, count = script->events[place].octets[1];
    for (octet = 2; place < script->length && octet < script->events[place].length; octet++) {
        uint8_t item = script->events[place].octets[octet];
        if (octet % 3 != 2) {
            lower_octet(shrinking, place, octet, 1);
        } else if (count == 1) {
            lower_octet(shrinking, place, octet, 0);
        } else {
            if (item & 64) try_octet(shrinking, place, octet, item & 191);
            if (item & 128 && place < script->length) {
                try_octet(shrinking, place, octet, script->events[place].octets[octet] & 127);
            }
        }
    }
}

/* Loads the last number, so that fewer scans go round. */
static void raise_load(struct shrinking *shrinking, size_t place) {
    static const uint8_t last[] = {FIO2070_TYPE_LOAD_COUNTER, 255, 255, 255, 255};
    const struct event *event = &shrinking->script->events[place];
    if (event->length == sizeof last && event->octets[0] == last[0]) try_octets(shrinking, place, last, sizeof last);
}

/* Cuts a body, and lowers the numbers of a frame. */
static void lower_frame(struct shrinking *shrinking, size_t place) {
    const struct script *script = shrinking->script;
    size_t octet, length;
    if (count_place(&script->events[place]) == 1) {
        lower_items(shrinking, place);
        return;
    }
    for (length = 1; place < script->length && length < script->events[place].length; length *= 2) {
        conformance_begin_trial(shrinking);
        conformance_trial.events[place].length = length;
        if (conformance_take_trial(shrinking)) break;
    }
    for (octet = 1; octet < 64 && place < script->length && octet < script->events[place].length; octet++) {
        lower_octet(shrinking, place, octet, 0);
    }
}

/* Takes so much off the numbers of all polls and blocks. */
static void shift_numbers(struct shrinking *shrinking, uint8_t shift) {
    uint8_t octets[CONFORMANCE_LONGEST_FRAME];
    size_t place;
    if (shift == 0) return;
    conformance_begin_trial(shrinking);
    for (place = 0; place < conformance_trial.length; place++) {
        const struct event *event = &conformance_trial.events[place];
        int is_block =
            event->kind == EVENT_HEAR && event->length > 1 && event->octets[0] == FIO2070_TYPE_POLL + FIO2070_TYPE_ANSWER;
        if (!conformance_is_poll(event) && !is_block) continue;
        memcpy(octets, event->octets, event->length);
        octets[1] = (uint8_t)(octets[1] - shift);
        set_octets(place, octets, event->length);
    }
    conformance_trial.number = (uint8_t)(conformance_trial.number - shift);
    conformance_take_trial(shrinking);
}

static int has_octets(const struct event *event) {
    return event->kind == EVENT_FRAME || event->kind == EVENT_COMMAND || event->kind == EVENT_HEAR;
}

static void shrink(struct shrinking *shrinking) {
    const struct script *script = shrinking->script;
    size_t place;
    drop_frames(shrinking);
    while ((shrinking->ends.cpu != NULL && begin_later(shrinking)) || drop_events(shrinking) ||
           change_all_inputs(shrinking)) {
    }
    for (place = 0; goes_on(shrinking, place); place++) {
        if (has_octets(&script->events[place])) raise_load(shrinking, place);
    }
    drop_events(shrinking);
    for (place = 0; goes_on(shrinking, place); place++) drop_items(shrinking, place);
    calm_scans(shrinking);
    shift_numbers(shrinking, shrinking->ends.cpu != NULL ? script->number : conformance_next_poll(script, 0, 0));
    for (place = 0; goes_on(shrinking, place); place++) {
        if (has_octets(&script->events[place])) lower_frame(shrinking, place);
    }
    drop_events(shrinking);
    if (script->length < LONG) return;
    /* With filters of 1 each scan may change all inputs. */
    while (change_all_inputs(shrinking) && drop_events(shrinking)) {
    }
    calm_scans(shrinking);
}

int conformance_shrink(const struct ends *ends, struct fresh *fresh, struct script *script, struct difference *difference,
                       struct spent *spent) {
    struct shrinking shrinking;
    conformance_begin_trials(&shrinking, ends, fresh, script, difference, spent);
    shrink(&shrinking);
    conformance_end_trials(&shrinking);
    return !conformance_is_over(&shrinking);
}
