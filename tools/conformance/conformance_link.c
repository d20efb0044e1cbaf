/* The proved ends of the link, and the end under test next to one of them. */
#include "conformance_link.h"
#include "conformance_octets.h"

#include <string.h>

static void set_frame(struct frame *frame, const uint8_t *octets, size_t length) {
    frame->length = length;
    if (length > 0) memcpy(frame->octets, octets, length);
}

/* A line of the transcript. */
static void log_frame(const struct link *link, char direction, const uint8_t *octets, size_t length) {
    if (link->transcript == NULL) return;
    fprintf(link->transcript, "%s%c ", link->head, direction);
    conformance_write_octets(octets, length, link->transcript);
    fputs("\n", link->transcript);
}

/* Keeps how many octets or items a call returned, at most this many. Returns 1 if it failed. */
static int has_failed(struct difference *difference, size_t *count, size_t most, size_t returned) {
    difference->has_failed = returned == CONFORMANCE_FAILED;
    *count = difference->has_failed ? 0 : returned < most ? returned : most;
    return difference->has_failed;
}

static void keep_frame(struct difference *difference, const uint8_t *octets, size_t length) {
    difference->frame_length = length;
    if (length > 0) memcpy(difference->frame, octets, length);
}

/* Keeps the fields in which the ends differ, without those that the rules of the event pass over. Returns whether one
 * is left. */
static int differs(const struct link *link, struct difference *difference, uint32_t fields) {
    int rule;
    difference->exercised = link->exercised;
    difference->fields = fields;
    if (fields == 0 || !conformance_meets(&link->exercised, &link->ends.masked)) return fields != 0;
    for (rule = 0; rule < RULES; rule++) {
        if (conformance_has(&link->exercised, (enum rule)rule) &&
            conformance_has(&link->ends.masked, (enum rule)rule)) {
            difference->fields &= ~CONFORMANCE_RULE_ROWS[rule].fields;
        }
    }
    return difference->fields != 0;
}

static void remember(struct link *link) {
    conformance_look(&link->module, &link->before);
    if ((link->ends.left_out.words[0] | link->ends.left_out.words[1]) == 0) return;
    link->memory.module = link->module;
    link->memory.history = link->history;
    link->memory.cpu = link->cpu;
    link->memory.cpu_history = link->cpu_history;
}

/* Undoes an event that exercised a rule that is left out. Returns 1 if it did. */
static int is_undone(struct link *link) {
    if (!conformance_meets(&link->exercised, &link->ends.left_out)) return 0;
    link->module = link->memory.module;
    link->history = link->memory.history;
    link->cpu = link->memory.cpu;
    link->cpu_history = link->memory.cpu_history;
    if (link->ends.module != NULL) memset(&link->exercised, 0, sizeof link->exercised);
    return 1;
}

/* ---- At the module ---- */

static void ask_module(const struct maker *maker, struct difference *difference) {
    if (maker->outputs != NULL) maker->outputs(maker->context, difference->got_outputs, difference->got_outputs + 8);
    if (maker->watchdog_ms != NULL) difference->got_timeout = maker->watchdog_ms(maker->context);
}

/* What no answer shows, compared if the maker offers it. */
static uint32_t hidden_fields(const struct link *link, struct difference *difference) {
    const struct maker *maker = link->ends.module;
    struct fio2070_outputs outputs = fio2070_module_state(&link->module).outputs;
    uint32_t fields = 0;
    memcpy(difference->expected_outputs, outputs.levels, 8);
    memcpy(difference->expected_outputs + 8, outputs.controls, 8);
    difference->expected_timeout = fio2070_module_state(&link->module).watchdog_ms;
    ask_module(maker, difference);
    if (maker->outputs != NULL && memcmp(difference->expected_outputs, difference->got_outputs, 16) != 0) {
        fields |= FIELD_BIT(OUTPUTS);
    }
    if (maker->watchdog_ms != NULL && difference->expected_timeout != difference->got_timeout) {
        fields |= FIELD_BIT(TIMEOUT);
    }
    return fields;
}

/* How often a module under test answered 56, 57 and 59, to which the proved one has no answer. */
static unsigned long makers_answers[3];

unsigned long conformance_makers_answers(unsigned place) { return makers_answers[place]; }

static void count_makers_answer(const uint8_t *octets, size_t length, const struct difference *difference) {
    static const uint8_t types[] = {FIO2070_TYPE_TRACK_INPUTS, FIO2070_TYPE_COMPLEX_OUTPUTS, FIO2070_TYPE_CONTROLLER_ID};
    unsigned place;
    for (place = 0; place < 3; place++) {
        makers_answers[place] += length > 0 && octets[0] == types[place] && difference->expected_length == 0 &&
                                 difference->got_length > 0 && difference->got[0] == types[place] + FIO2070_TYPE_ANSWER;
    }
}

/* The module under test gets the frame that the proved one got. */
static int compare_answers(struct link *link, const uint8_t *octets, size_t length, struct difference *difference) {
    const struct maker *maker = link->ends.module;
    struct span span = {link->ends.has_own_clock ? conformance_now_ms() : 0, 0};
    uint32_t fields;
    keep_frame(difference, octets, length);
    if (has_failed(difference, &difference->got_length, FIO2070_LONGEST_FRAME,
                   maker->exchange(maker->context, octets, length, difference->got))) {
        return 1;
    }
    count_makers_answer(octets, length, difference);
    fields = conformance_answer_fields(difference);
    if (link->ends.has_own_clock) {
        span.last = conformance_now_ms();
        fields = conformance_clock_fields(&link->observer, span, maker->per_block, fields, difference);
    }
    return differs(link, difference, fields | hidden_fields(link, difference));
}

/* A frame comes to the module. */
static int exchange(struct link *link, const uint8_t *octets, size_t length, struct difference *difference) {
    difference->expected_length =
        fio2070_module_receive(&link->module, octets, length, difference->expected, FIO2070_LONGEST_FRAME);
    if (difference->expected_length > FIO2070_LONGEST_FRAME) difference->expected_length = 0; /* no command */
    conformance_saw_frame(&link->history, &link->before, octets, length, difference->expected,
                          difference->expected_length, &link->exercised);
    if (link->ends.cpu == NULL && is_undone(link)) return 0;
    if (difference->expected_length > 0) {
        link->answered++;
        set_frame(&link->answers[link->answered % KEPT_ANSWERS], difference->expected, difference->expected_length);
    }
    return link->ends.module != NULL && compare_answers(link, octets, length, difference);
}

static void scan(struct link *link, uint64_t inputs) {
    const struct maker *maker = link->ends.module;
    fio2070_module_scan(&link->module, inputs);
    conformance_saw_scan(&link->history, &link->before, &link->module, inputs, &link->exercised);
    if (maker == NULL || is_undone(link)) return;
    maker->step(maker->context, inputs);
    if (link->ends.has_own_clock) conformance_clock_levels(&link->observer, inputs);
}

static void sync_line(struct link *link) {
    const struct maker *maker = link->ends.module;
    struct span span = {0, 0};
    int is_load = link->history.is_asked;
    fio2070_module_line_sync(&link->module);
    conformance_saw_sync(&link->history, &link->exercised);
    if (maker == NULL || is_undone(link)) return;
    if (link->ends.has_own_clock) span.first = conformance_now_ms();
    maker->line_sync(maker->context);
    if (!link->ends.has_own_clock || !is_load) return;
    span.last = conformance_now_ms();
    conformance_clock_load(&link->observer, fio2070_module_state(&link->module).counter, span);
}

/* A module with a clock of its own is reset with all levels 1, which its first sample then finds. */
static void reset_maker(struct link *link) {
    const struct maker *maker = link->ends.module;
    struct span span = {0, 0};
    if (!link->ends.has_own_clock) {
        maker->reset(maker->context);
        return;
    }
    maker->step(maker->context, ~(uint64_t)0);
    span.first = conformance_now_ms();
    maker->reset(maker->context);
    span.last = conformance_now_ms();
    conformance_clock_reset(&link->observer, span);
}

static void restart(struct link *link) {
    fio2070_module_restart(&link->module);
    conformance_saw_restart(&link->history, &link->before, &link->exercised);
    if (link->ends.module != NULL && !is_undone(link)) reset_maker(link);
}

/* ---- At the CPU's end ---- */

/* A frame comes to the CPU's end. */
static int hear(struct link *link, const uint8_t *octets, size_t length, struct difference *difference) {
    const struct cpu_maker *maker = link->ends.cpu;
    struct fio2070_heard heard;
    heard = fio2070_poller_hear(&link->cpu, octets, length, difference->expected_record, FIO2070_MOST_RECORD_ITEMS);
    if (maker == NULL) return 0;
    memset(&link->exercised, 0, sizeof link->exercised);
    conformance_saw_heard(&link->cpu_history, octets, length, &heard, difference->expected_record, &link->exercised);
    if (is_undone(link)) return 0;
    log_frame(link, '<', octets, length);
    keep_frame(difference, octets, length);
    difference->expected_length = difference->got_length = 0;
    difference->heard = heard.kind;
    difference->expected_items = heard.items;
    if (has_failed(difference, &difference->got_items, FIO2070_MOST_RECORD_ITEMS,
                   maker->hear(maker->context, octets, length, difference->got_record))) {
        return 1;
    }
    difference->expected_number = link->cpu.number;
    difference->got_number = maker->number(maker->context);
    return differs(link, difference, conformance_heard_fields(difference));
}

/* The CPU's end polls. */
static int poll(struct link *link, struct difference *difference) {
    const struct cpu_maker *maker = link->ends.cpu;
    size_t length = fio2070_poller_poll(&link->cpu, difference->expected, FIO2070_LONGEST_FRAME);
    if (maker != NULL) conformance_saw_poll(&link->cpu_history, &link->exercised);
    if (maker != NULL && is_undone(link)) return 0;
    set_frame(&link->command, difference->expected, length);
    link->sent++;
    if (maker == NULL) return 0;
    difference->expected_length = length;
    if (has_failed(difference, &difference->got_length, FIO2070_LONGEST_FRAME,
                   maker->poll(maker->context, difference->got))) {
        return 1;
    }
    log_frame(link, '>', difference->got, difference->got_length);
    return differs(link, difference,
                   length != difference->got_length || memcmp(difference->expected, difference->got, length) != 0
                       ? FIELD_BIT(POLL)
                       : 0);
}

unsigned long conformance_link_answer(const struct link *link, const struct event *event) {
    unsigned long number;
    if (event->back >= KEPT_ANSWERS || event->back >= link->answered) return 0;
    number = link->answered - event->back;
    return number < link->delivered ? 0 : number;
}

/* An answer comes to the CPU's end. */
static int deliver_answer(struct link *link, const struct event *event, struct difference *difference) {
    unsigned long number = conformance_link_answer(link, event);
    const struct frame *answer = &link->answers[number % KEPT_ANSWERS];
    if (number == 0) return 0;
    link->delivered = number;
    return hear(link, answer->octets, answer->length, difference);
}

/* ---- Events ---- */

int conformance_link_step(struct link *link, const struct event *event, struct difference *difference) {
    memset(&link->exercised, 0, sizeof link->exercised);
    remember(link);
    switch (event->kind) {
    case EVENT_SCAN: scan(link, event->inputs); return 0;
    case EVENT_SYNC: sync_line(link); return 0;
    case EVENT_RESTART: restart(link); return 0;
    case EVENT_FRAME: return exchange(link, event->octets, event->length, difference);
    case EVENT_POLL: return poll(link, difference);
    case EVENT_COMMAND:
        set_frame(&link->command, event->octets, event->length);
        link->sent++;
        log_frame(link, '>', event->octets, event->length);
        return 0;
    case EVENT_DELIVER:
        return link->sent == 0 ? 0 : exchange(link, link->command.octets, link->command.length, difference);
    case EVENT_ANSWER: return deliver_answer(link, event, difference);
    case EVENT_HEAR: return hear(link, event->octets, event->length, difference);
    }
    return 0;
}

void conformance_link_go(struct link *link, const struct event *event) {
    static struct difference ignored;
    conformance_link_step(link, event, &ignored);
}

void conformance_link_start(struct link *link, const struct ends *ends, const struct script *script) {
    struct fio2070_limits limits = FIO2070_STANDARD_LIMITS;
    memset(link, 0, sizeof *link);
    if (ends != NULL) link->ends = *ends;
    limits.per_block = script->per_block;
    (void)!fio2070_module_start(&link->module, script->id, limits); /* a script has limits in range */
    conformance_begin(&link->history);
    link->cpu.number = script->number;
    if (link->ends.module != NULL) reset_maker(link);
    if (link->ends.cpu != NULL) link->ends.cpu->reset(link->ends.cpu->context, script->number);
}
