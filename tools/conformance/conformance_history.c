/* What of the past of a module the rules speak of, and which rules an event at a module exercises. */
#include "conformance_history.h"

#include <string.h>

void conformance_begin(struct history *history) {
    memset(history, 0, sizeof *history);
    memset(history->leading, 5, sizeof history->leading);
    memset(history->trailing, 5, sizeof history->trailing);
    history->ignored = history->levels = ~(uint64_t)0;
    history->is_reset_flag_up = 1;
}

void conformance_look(const struct fio2070_module *module, struct view *view) {
    struct fio2070_state state = fio2070_module_state(module);
    view->filtered = state.filtered;
    view->waiting = state.waiting;
    view->counter = state.counter;
}

static void put_if(struct rule_set *rules, enum rule rule, int condition) {
    if (condition) conformance_put(rules, rule);
}

/* ---- Scans ---- */

/* An input's filtered state changed, by a filter of this many samples. */
static void saw_change(struct history *history, unsigned input, int is_high, struct rule_set *rules) {
    uint64_t bit = (uint64_t)1 << input;
    unsigned filter = is_high ? history->trailing[input] : history->leading[input];
    conformance_put(rules, is_high ? RULE_TRAILING_FILTER : RULE_LEADING_FILTER);
    put_if(rules, RULE_FILTER_OF_ZERO, filter == 0);
    put_if(rules, RULE_CASE_LONG_FILTER, filter >= 200 && filter < 255);
    put_if(rules, RULE_CASE_FILTER_255, filter == 255);
    put_if(rules, RULE_FILTERS_AT_START, (history->configured & bit) == 0);
    put_if(rules, RULE_IGNORED_INPUT, (history->ignored & bit) != 0);
}

void conformance_saw_scan(struct history *history, const struct view *before, const struct fio2070_module *after,
                          uint64_t inputs, struct rule_set *rules) {
    uint64_t filtered = fio2070_module_state(after).filtered, changed = before->filtered ^ filtered, left;
    uint64_t reported = changed & ~history->ignored;
    unsigned long entries = history->entries;
    unsigned input;
    conformance_put(rules, RULE_COUNTER_STEP);
    put_if(rules, RULE_COUNTER_BITS, before->counter > 0xffff);
    put_if(rules, RULE_COUNTER_AROUND, before->counter == 0xffffffff);
    for (left = changed, input = 0; left != 0; left >>= 1, input++) {
        if (left & 1) saw_change(history, input, (int)(filtered >> input & 1), rules);
        if (reported >> input & 1) history->entries++;
    }
    put_if(rules, RULE_ENTRY, reported != 0);
    put_if(rules, RULE_COUNTER_AT_START, reported != 0 && !history->is_loaded);
    put_if(rules, RULE_ENTRY_ORDER, (reported & (reported - 1)) != 0 || (reported != 0 && before->waiting > 0));
    put_if(rules, RULE_MOST_WAITING, reported != 0 && fio2070_module_state(after).waiting == FIO2070_STANDARD_WAITING);
    put_if(rules, RULE_PUSHED_OUT, before->waiting + history->entries - entries > FIO2070_STANDARD_WAITING);
    put_if(rules, RULE_CASE_500_SCANS, history->scans >= 500);
    put_if(rules, RULE_CASE_30000_ENTRIES, reported != 0 && history->entries > 30000);
    history->scans++;
    history->has_scanned = history->is_changed = 1;
    history->levels = inputs;
}

/* ---- The line and restarts ---- */

void conformance_saw_sync(struct history *history, struct rule_set *rules) {
    conformance_put(rules, history->is_asked ? RULE_LOAD_AT_SYNC : RULE_SYNC_ALONE);
    if (history->is_asked) history->is_loaded = history->is_changed = 1;
    history->is_asked = 0;
}

void conformance_saw_restart(struct history *history, const struct view *before, struct rule_set *rules) {
    conformance_put(rules, RULE_RESTART);
    put_if(rules, RULE_RESTART_LOSES, before->waiting > 0 || history->kept > 0);
    put_if(rules, RULE_RESTART_LOAD, history->is_asked);
    put_if(rules, RULE_RESTART_POLL, history->has_polled);
    conformance_begin(history);
}

/* ---- Frames ---- */

static void saw_fault(const struct fio2070_fault *fault, size_t length, struct rule_set *rules) {
    static const enum rule refusals[] = {RULE_EMPTY_FRAME, RULE_EMPTY_FRAME, RULE_FRAME_TOO_LONG, RULE_UNKNOWN_TYPE,
                                         RULE_WRONG_LENGTH};
    conformance_put(rules, refusals[fault->kind]);
    conformance_put(rules, RULE_REFUSED);
    put_if(rules, RULE_CASE_LONG_REFUSED, length > 256);
}

/* The inputs that a configuration names, and whether it names one twice. */
static uint64_t named_inputs(const struct fio2070_configuration_item *items, size_t count, int *is_twice) {
    uint64_t named = 0;
    size_t place;
    *is_twice = 0;
    for (place = 0; place < count; place++) {
        uint64_t bit = (uint64_t)1 << (items[place].input & 63);
        *is_twice |= (named & bit) != 0;
        named |= bit;
    }
    return named;
}

static void apply(struct history *history, const struct fio2070_configuration_item *item) {
    uint64_t bit = (uint64_t)1 << item->input;
    history->leading[item->input] = item->leading;
    history->trailing[item->input] = item->trailing;
    history->configured |= bit;
    history->ignored = item->ignore ? history->ignored | bit : history->ignored & ~bit;
}

static void saw_configuration(struct history *history, const struct view *before, const uint8_t *octets, size_t length,
                              uint8_t status, struct rule_set *rules) {
    struct fio2070_configuration_item items[FIO2070_MOST_ENTRIES];
    size_t count = fio2070_command_items(octets, length, items, FIO2070_MOST_ENTRIES), place;
    int is_twice;
    uint64_t named;
    if (count > FIO2070_MOST_ENTRIES) return;
    named = named_inputs(items, count, &is_twice);
    conformance_put(rules, status & FIO2070_BIT_ERROR ? RULE_ABSENT_INPUT : RULE_ITEMS_APPLY);
    put_if(rules, RULE_CASE_65_ITEMS, count > 64);
    put_if(rules, RULE_CASE_255_ITEMS, count == 255);
    if (status & FIO2070_BIT_ERROR) return;
    put_if(rules, RULE_ITEM_SETS, count > 0);
    put_if(rules, RULE_LAST_ITEM_HOLDS, is_twice);
    put_if(rules, RULE_SAMPLES_ANEW, (named & (history->levels ^ before->filtered)) != 0);
    for (place = 0; place < count; place++) apply(history, &items[place]);
}

static void saw_new_block(struct history *history, const struct view *before, uint8_t number, uint8_t status,
                          struct rule_set *rules) {
    int is_next = (uint8_t)(history->number + 1) == number;
    conformance_put(rules, RULE_NEW_BLOCK);
    conformance_put(rules, RULE_BLOCK_STAMP);
    conformance_put(rules, RULE_BLOCK_NUMBER);
    put_if(rules, RULE_COUNTER_AT_START, !history->is_loaded);
    put_if(rules, RULE_FIRST_POLL, !history->has_polled);
    put_if(rules, RULE_SEQUENCE, history->has_polled && !is_next);
    put_if(rules, RULE_AFTER_255, history->has_polled && is_next && number == 0);
    put_if(rules, RULE_CURRENT_NUMBER, history->was_out_of_sequence && is_next);
    put_if(rules, RULE_BLOCK_SIZE, before->waiting >= 255);
    put_if(rules, RULE_MORE, before->waiting >= 255);
    put_if(rules, RULE_LOST, status & FIO2070_BIT_LOST);
    put_if(rules, RULE_CASE_256_BLOCKS, history->blocks >= 256);
    history->was_out_of_sequence = history->has_polled && !is_next;
    history->is_changed = 0;
    history->blocks++;
}

static void saw_repeat(struct history *history, const struct view *before, struct rule_set *rules) {
    conformance_put(rules, RULE_SENT_AGAIN);
    put_if(rules, RULE_REPEAT, history->is_changed || history->was_out_of_sequence || history->kept > 0);
    put_if(rules, RULE_KEPT_APART, history->kept > 0 && before->waiting > 0);
}

static void saw_block(struct history *history, const struct view *before, const uint8_t *octets, const uint8_t *answer,
                      size_t length, struct rule_set *rules) {
    if (history->has_polled && history->number == octets[1]) {
        saw_repeat(history, before, rules);
    } else {
        saw_new_block(history, before, octets[1], answer[length - 5], rules);
    }
    put_if(rules, RULE_CASE_130_POLLS, history->polls >= 130);
    put_if(rules, RULE_CASE_FULL_BLOCK, length == FIO2070_LONGEST_FRAME);
    history->has_polled = 1;
    history->number = octets[1];
    history->kept = answer[2];
    history->polls++;
}

static void saw_status(struct history *history, uint8_t clear, struct rule_set *rules) {
    conformance_put(rules, RULE_ERROR_COUNTS);
    put_if(rules, RULE_FLAGS_CLEARED, history->is_reset_flag_up ? clear & FIO2070_BIT_WAS_RESET : 1);
    put_if(rules, RULE_FLAGS_AT_START, history->is_reset_flag_up && !(clear & FIO2070_BIT_WAS_RESET));
    if (clear & FIO2070_BIT_WAS_RESET) history->is_reset_flag_up = 0;
}

static void saw_load(struct history *history, struct rule_set *rules) {
    conformance_put(rules, RULE_LOAD_ANSWER);
    put_if(rules, RULE_LATER_LOAD, history->is_asked);
    history->is_asked = 1;
}

static void put_both(struct rule_set *rules, enum rule one, enum rule other) {
    conformance_put(rules, one);
    conformance_put(rules, other);
}

void conformance_saw_frame(struct history *history, const struct view *before, const uint8_t *octets, size_t length,
                           const uint8_t *answer, size_t answer_length, struct rule_set *rules) {
    struct fio2070_command command;
    struct fio2070_fault fault;
    memset(&command, 0, sizeof command);
    fault = fio2070_decode_command(octets, length, &command);
    if (fault.kind != FIO2070_FAULT_NONE) {
        saw_fault(&fault, length, rules);
        return;
    }
    put_if(rules, RULE_CASE_LONG_COMMAND, length > 256);
    put_if(rules, RULE_ANSWER_TYPE, answer_length > 0);
    put_if(rules, RULE_FRAME_LENGTH, length > CONFORMANCE_SHORT_FRAME || answer_length > CONFORMANCE_SHORT_FRAME);
    put_if(rules, RULE_COUNTER_AT_START,
           !history->is_loaded && (command.code == FIO2070_TYPE_STATUS || command.code == FIO2070_TYPE_RAW_INPUTS ||
                                   command.code == FIO2070_TYPE_FILTERED_INPUTS || command.code == FIO2070_TYPE_SET_OUTPUTS));
    switch (command.code) {
    case FIO2070_TYPE_STATUS: saw_status(history, command.clear, rules); break;
    case FIO2070_TYPE_LOAD_COUNTER: saw_load(history, rules); break;
    case FIO2070_TYPE_CONFIGURE_INPUTS: saw_configuration(history, before, octets, length, answer[1], rules); break;
    case FIO2070_TYPE_RAW_INPUTS:
        put_if(rules, RULE_RAW_AT_START, !history->has_scanned); /* and as 53 */
    /* fall through */
    case FIO2070_TYPE_FILTERED_INPUTS: conformance_put(rules, RULE_INPUTS_ANSWER); break;
    case FIO2070_TYPE_POLL: saw_block(history, before, octets, answer, answer_length, rules); break;
    case FIO2070_TYPE_SET_OUTPUTS: put_both(rules, RULE_OUTPUTS_KEPT, RULE_OUTPUTS_ANSWER); break;
    case FIO2070_TYPE_WATCHDOG: put_both(rules, RULE_WATCHDOG_TIMEOUT, RULE_WATCHDOG_BEFORE); break;
    case FIO2070_TYPE_IDENTIFY: conformance_put(rules, RULE_IDENTIFICATION); break;
    default: conformance_put(rules, RULE_NO_ANSWER); break;
    }
}
