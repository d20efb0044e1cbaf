/* Random scripts of a CPU's end, on a bus that loses, repeats and delays frames. */
#include "conformance_edges.h"
#include "conformance_link.h"

#include <string.h>

const struct cpu_mix CONFORMANCE_CPU_MIX = {100, 100, 100, 100, 100, 150, 10, 250};

/* A script that grows, and both proved ends after it. */
struct growth {
    struct script *script;
    size_t most; /* events */
    struct link link;
    struct course course;
    int is_orderly;
    uint64_t *state;
};

/* How many events a script has: one of many blocks is long enough for numbers to come round. */
static size_t random_length(enum theme theme, uint64_t *state) {
    if (theme == STEADY) return conformance_below(state, 8) == 0 ? 20000 : 1000 + conformance_below(state, 6000);
    return 20 + conformance_below(state, conformance_below(state, 16) == 0 ? 2400 : 380);
}

/* An event happens, if the script has room for it. */
static void happen(struct growth *growth, const struct event *event) {
    if (growth->script->length >= growth->most || conformance_add(growth->script, event) == NULL) return;
    conformance_link_go(&growth->link, event);
}

static void add(struct growth *growth, enum event_kind kind, unsigned back) {
    struct event event = conformance_event(kind, NULL, 0);
    event.back = back;
    happen(growth, &event);
}

static void add_frame(struct growth *growth, enum event_kind kind, const uint8_t *octets, size_t length) {
    struct event event = conformance_event(kind, octets, length);
    happen(growth, &event);
}

static void add_scans(struct growth *growth, unsigned count, enum theme theme) {
    struct event event = conformance_event(EVENT_SCAN, NULL, 0);
    growth->course.theme = theme;
    while (count-- > 0) {
        event.inputs = conformance_levels(&growth->course, growth->state);
        happen(growth, &event);
    }
}

/* A command other than a poll: a configuration, also one that is refused, one that reports all inputs again, or another. */
static size_t random_command(uint8_t *octets, uint64_t *state) {
    switch (conformance_below(state, 4)) {
    case 0: return conformance_configuration(octets, state);
    case 1: return conformance_open(octets, OVERFLOWING, state);
    default: return conformance_command(octets, state);
    }
}

/* A command of the controller, and its answer, if there is one; loads of the counter happen at once. */
static void add_command(struct growth *growth, const struct cpu_mix *mix) {
    uint8_t octets[CONFORMANCE_LONGEST_FRAME];
    unsigned long answered = growth->link.answered;
    add_frame(growth, EVENT_COMMAND, octets, random_command(octets, growth->state));
    add(growth, EVENT_DELIVER, 0);
    if (growth->link.answered > answered && conformance_below(growth->state, 1000) >= mix->lost_answers) {
        add(growth, EVENT_ANSWER, 0);
    }
    add(growth, EVENT_SYNC, 0);
}

/* How many entries a block has that no module made. */
static size_t random_count(uint64_t *state) {
    switch (conformance_below(state, 8)) {
    case 0: return 255;
    case 1: return conformance_below(state, 256);
    case 2: return 80 + conformance_below(state, 10);
    default: return conformance_below(state, 4);
    }
}

/* The number that is due, or one next to it. */
static uint8_t near_number(const struct growth *growth) {
    if (conformance_below(growth->state, 2) == 0) return growth->link.cpu.number;
    return (uint8_t)(growth->link.cpu.number + conformance_below(growth->state, 3) - 1);
}

/* A block with the number that is due, or with one near it; its stamp is now and then near 0. */
static size_t random_block(uint8_t *octets, const struct growth *growth) {
    struct fio2070_entry entries[FIO2070_MOST_ENTRIES];
    uint64_t *state = growth->state;
    size_t count = random_count(state), place;
    uint32_t stamp = (uint32_t)conformance_next(state) >> (conformance_below(state, 3) == 0 ? 16 : 0);
    struct fio2070_answer answer;
    memset(entries, 0, sizeof entries);
    for (place = 0; place < count; place++) {
        entries[place].input = (uint8_t)conformance_below(state, 128);
        entries[place].state = (uint8_t)conformance_below(state, 2);
        entries[place].stamp =
            (uint16_t)(stamp - conformance_below(state, conformance_below(state, 2) == 0 ? 2 : 65536) + 1);
    }
    memset(&answer, 0, sizeof answer);
    answer.code = FIO2070_TYPE_POLL + FIO2070_TYPE_ANSWER;
    answer.count = (uint8_t)count;
    answer.status = (uint8_t)conformance_next(state);
    answer.block = near_number(growth);
    answer.stamp = stamp;
    return fio2070_encode_answer(&answer, entries, count, NULL, 0, octets, FIO2070_LONGEST_FRAME);
}

/* An answer of another type, with a body of any length. */
static size_t random_other(uint8_t *octets, uint64_t *state) {
    static const uint8_t types[] = {183, 184, 185, 187, 188};
    uint8_t body[FIO2070_LONGEST_FRAME];
    size_t length = conformance_below(state, conformance_below(state, 2) == 0 ? 8 : 773), place;
    for (place = 0; place < length; place++) body[place] = (uint8_t)conformance_next(state);
    octets[0] = types[conformance_below(state, 5)];
    memcpy(octets + 1, body, length);
    return 1 + length;
}

/* Changes the octets of an answer, or not. Returns how many there are. */
static size_t spoil(uint8_t *octets, size_t length, uint64_t *state) {
    static const uint8_t types[] = {183, 184, 185, 187, 188, 54};
    switch (conformance_below(state, 12)) {
    case 0: octets[conformance_below(state, (unsigned)length)] = (uint8_t)conformance_next(state); return length;
    case 1: return conformance_below(state, (unsigned)length);
    case 2: return length - 1;
    case 3: octets[length] = (uint8_t)conformance_next(state); return length + 1;
    case 4: return conformance_hostile(octets, state);
    case 5: return random_other(octets, state);
    case 6: octets[0] = types[conformance_below(state, 6)]; return length;
    default: return length;
    }
}

/* Octets that no module sent: a block or an answer with an octet changed, cut short, or with one too many. */
static void add_hostile(struct growth *growth) {
    const struct frame *answer = &growth->link.answers[growth->link.answered % KEPT_ANSWERS];
    uint8_t octets[CONFORMANCE_LONGEST_FRAME];
    uint64_t *state = growth->state;
    size_t length = answer->length;
    memcpy(octets, answer->octets, answer->length);
    if (length == 0 || conformance_below(state, 2) == 0) length = random_block(octets, growth);
    add_frame(growth, EVENT_HEAR, octets, spoil(octets, length, state));
}

static int happens(const struct growth *growth, unsigned share) {
    return conformance_below(growth->state, 1000) < share;
}

/* What becomes of a poll that was delivered. */
static void add_answers(struct growth *growth, const struct cpu_mix *mix, unsigned disorder) {
    if (happens(growth, mix->lost_answers)) return;
    if (!growth->is_orderly && happens(growth, mix->late_answers)) {
        add(growth, EVENT_POLL, 0);
        add(growth, EVENT_DELIVER, 0);
        add(growth, EVENT_ANSWER, 1);
    }
    add(growth, EVENT_ANSWER, 0);
    if (disorder < mix->repeats) add(growth, EVENT_ANSWER, 0);
    if (disorder >= 1000 - mix->hostile && !growth->is_orderly) add_hostile(growth);
}

/* Scans, a poll and what becomes of it. */
static void add_poll(struct growth *growth, const struct cpu_mix *mix, enum theme theme) {
    unsigned disorder = growth->is_orderly ? 1000 : conformance_below(growth->state, 1000);
    if (happens(growth, mix->overflows)) {
        add_scans(growth, 17, OVERFLOWING);
    } else if (theme == STEADY) {
        add_scans(growth, 1 + conformance_below(growth->state, 3), OVERFLOWING);
    } else {
        add_scans(growth, conformance_below(growth->state, 3), ORDINARY);
    }
    add(growth, EVENT_POLL, 0);
    if (happens(growth, mix->lost_polls)) return;
    add(growth, EVENT_DELIVER, 0);
    if (disorder < mix->repeats) add(growth, EVENT_DELIVER, 0);
    add_answers(growth, mix, disorder);
}

/* No poll is answered for a while: it does not come to the module, or its answer does not come back. */
static void stay_out(struct growth *growth) {
    unsigned left = conformance_run_length(growth->state), kind = conformance_below(growth->state, 2);
    for (; left > 0; left--) {
        add(growth, EVENT_POLL, 0);
        if (kind == 0) add(growth, EVENT_DELIVER, 0);
    }
}

static void begin(struct growth *growth, struct script *script, const struct cpu_mix *mix, uint64_t *state) {
    uint8_t octets[CONFORMANCE_LONGEST_FRAME];
    script->id = 2;
    script->per_block = FIO2070_MOST_ENTRIES;
    script->number = conformance_block_number(state);
    growth->script = script;
    growth->course.levels = growth->course.moving = ~(uint64_t)0;
    growth->is_orderly = conformance_below(state, 1000) < mix->orderly;
    growth->state = state;
    conformance_link_start(&growth->link, NULL, script);
    add_frame(growth, EVENT_COMMAND, octets, conformance_open(octets, OVERFLOWING, state));
    add(growth, EVENT_DELIVER, 0);
}

void conformance_cpu_random(struct script *script, const struct cpu_mix *mix, size_t most, uint64_t *state) {
    static struct growth growth;
    enum theme theme = conformance_below(state, 64) == 0 ? STEADY : ORDINARY;
    size_t length = random_length(theme, state);
    growth.most = length < most ? length : most;
    begin(&growth, script, mix, state);
    while (script->length < growth.most) {
        if (conformance_below(state, 1000) < mix->others) add_command(&growth, mix);
        if (conformance_below(state, 1000) == 0) stay_out(&growth);
        add_poll(&growth, mix, theme);
    }
}
