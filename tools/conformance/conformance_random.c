/* Random scripts of a module whose CPU polls, loses answers, configures and errs. */
#include "conformance_edges.h"

#include <string.h>

const struct mix CONFORMANCE_MIX = {100, 30, 10, 40, 80, 20, 30, 2, 250, 60, 40};

/* Now and then no frame comes for at most this many scans, as while a CPU restarts. */
enum { LONGEST_SILENCE = 1200 };

/* How many events a script has, apart from a silence. */
static size_t random_length(enum theme theme, uint64_t *state) {
    if (theme == CALM) return 500 + conformance_below(state, 2500);
    if (theme == STEADY) return conformance_below(state, 16) == 0 ? 20000 : 1000 + conformance_below(state, 4000);
    if (conformance_below(state, 16) == 0) return 400 + conformance_below(state, 2000);
    return 20 + conformance_below(state, 380);
}

static enum theme random_theme(const struct mix *mix, uint64_t *state) {
    unsigned rest = conformance_below(state, 1000);
    if (rest < mix->overflows) return OVERFLOWING;
    if ((rest -= mix->overflows) < mix->calm) return CALM;
    return rest - mix->calm < mix->steady ? STEADY : ORDINARY;
}

/* The mix of a theme. */
static struct mix mix_of(const struct mix *mix, enum theme theme) {
    struct mix themed = *mix;
    if (theme == OVERFLOWING) themed.polls /= 4;
    if (theme == CALM) {
        themed.polls /= 4;
        themed.configurations /= 40;
        themed.others /= 4;
        themed.hostile /= 4;
        themed.restarts /= 8;
    }
    if (theme == STEADY) {
        themed.polls *= 2;
        themed.out_of_sequence = themed.configurations = themed.restarts = 0;
    }
    return themed;
}

static size_t write_poll(uint8_t octets[2], unsigned number) {
    octets[0] = FIO2070_TYPE_POLL;
    octets[1] = (uint8_t)number;
    return 2;
}

/* A number out of sequence: one near the number before, one shortly before 0, or any. */
static unsigned stray_number(unsigned number, uint64_t *state) {
    switch (conformance_below(state, 3)) {
    case 0: return number + 253 + conformance_below(state, 7);
    case 1: return 254;
    default: return conformance_below(state, 256);
    }
}

/* Makes of a frame that comes to the module a random one, or LINESYNC, a restart or a scan. */
static void random_event(struct event *event, uint8_t *octets, const struct mix *mix, struct course *course,
                         uint64_t *state) {
    unsigned rest = conformance_below(state, 1000);
    event->octets = octets;
    if (rest < mix->polls) {
        event->length = write_poll(octets, ++course->number);
    } else if ((rest -= mix->polls) < mix->repeats) {
        event->length = write_poll(octets, course->number);
    } else if ((rest -= mix->repeats) < mix->out_of_sequence) {
        course->number = stray_number(course->number, state);
        event->length = write_poll(octets, course->number);
    } else if ((rest -= mix->out_of_sequence) < mix->configurations) {
        event->length = conformance_configuration(octets, state);
    } else if ((rest -= mix->configurations) < mix->others) {
        event->length = conformance_command(octets, state);
    } else if ((rest -= mix->others) < mix->hostile) {
        event->length = conformance_hostile(octets, state);
    } else if ((rest -= mix->hostile) < mix->syncs) {
        event->kind = EVENT_SYNC;
    } else if ((rest -= mix->syncs) < mix->restarts) {
        event->kind = EVENT_RESTART;
    } else {
        event->kind = EVENT_SCAN;
        event->inputs = conformance_levels(course, state);
    }
}

static void add_frame(struct script *script, const uint8_t *octets, size_t length) {
    struct event event = conformance_event(EVENT_FRAME, octets, length);
    conformance_add(script, &event);
}

/* Now and then commands before the first scan, and a load of the counter; mostly all inputs are opened. */
static void begin(struct script *script, enum theme theme, uint64_t *state) {
    static const struct event sync = {EVENT_SYNC, 0, 0, NULL, 0};
    uint8_t octets[CONFORMANCE_LONGEST_FRAME];
    unsigned count = conformance_below(state, 4) == 0 ? conformance_below(state, 4) : 0;
    while (count-- > 0) add_frame(script, octets, conformance_command(octets, state));
    if (conformance_below(state, 4) == 0) {
        add_frame(script, octets,
                  conformance_load((uint32_t)conformance_next(state), octets, sizeof octets));
        conformance_add(script, &sync);
    }
    if (theme != ORDINARY || conformance_below(state, 8) != 0) {
        add_frame(script, octets, conformance_open(octets, theme, state));
    }
}

/* The poll before comes again and again, as if all answers were lost. */
static void repeat_poll(struct script *script, const struct course *course, uint64_t *state) {
    uint8_t octets[2];
    unsigned left;
    for (left = conformance_run_length(state); left > 0; left--) add_frame(script, octets, write_poll(octets, course->number));
}

static void add_scan(struct script *script, struct course *course, uint64_t *state) {
    struct event event = conformance_event(EVENT_SCAN, NULL, 0);
    event.inputs = conformance_levels(course, state);
    conformance_add(script, &event);
}

/* The entries of one block, or one more, if the number of moving inputs divides that number; then a poll. */
static void fill_block(struct script *script, struct course *course, uint64_t *state) {
    uint8_t octets[2];
    unsigned inputs = 0, scans;
    uint64_t left;
    for (left = course->moving; left != 0; left &= left - 1) inputs++;
    for (scans = (FIO2070_MOST_ENTRIES + 1) / inputs; scans > 0; scans--) add_scan(script, course, state);
    add_frame(script, octets, write_poll(octets, ++course->number));
}

void conformance_random(struct script *script, const struct maker *maker, const struct mix *mix, size_t most,
                        uint64_t *state) {
    uint8_t octets[CONFORMANCE_LONGEST_FRAME];
    struct course course;
    struct mix themed;
    size_t length, silence, first;
    course.theme = random_theme(mix, state);
    course.number = conformance_block_number(state);
    course.levels = ~(uint64_t)0;
    course.moving = conformance_moving(course.theme, state);
    themed = mix_of(mix, course.theme);
    length = random_length(course.theme, state);
    silence = conformance_below(state, 12) == 0 ? conformance_below(state, LONGEST_SILENCE) : 0;
    first = conformance_below(state, (unsigned)length);
    script->id = maker->id;
    script->per_block = maker->per_block;
    begin(script, course.theme, state);
    if (course.theme == OVERFLOWING && conformance_below(state, 2) == 0) fill_block(script, &course, state);
    while (script->length < length + silence && script->length < most) {
        struct event event = conformance_event(EVENT_FRAME, NULL, 0);
        if (script->length >= first && script->length < first + silence) {
            add_scan(script, &course, state);
            continue;
        }
        if (conformance_below(state, 2000) == 0) repeat_poll(script, &course, state);
        random_event(&event, octets, &themed, &course, state);
        conformance_add(script, &event);
    }
    if (script->length > most) script->length = most;
}
