/* The rule of docs/PROTOCOL.md that a difference is about. A script that was shrunk has nothing that its difference
 * does not need, so the rules that it exercises say what that is. */
#include "conformance_octets.h"
#include "conformance_suspect.h"

#include <string.h>

/* What a script did before its difference, and the rule that explains one in these fields. Of several the first is
 * named. */
struct suspect {
    enum rule done, rule;
    uint32_t fields;
};

#define ANY UINT32_MAX
#define STATES \
    (FIELD_BIT(INPUTS) | FIELD_BIT(COUNT) | FIELD_BIT(ENTRY) | FIELD_BIT(MORE) | FIELD_BIT(LOST) | FIELD_BIT(REPEAT))
#define TIMES (FIELD_BIT(STAMP) | FIELD_BIT(BLOCK_STAMP) | FIELD_BIT(ENTRY))
#define ORDER (FIELD_BIT(SEQUENCE) | FIELD_BIT(AGAIN))
#define HIDDEN (FIELD_BIT(OUTPUTS) | FIELD_BIT(TIMEOUT))
#define SUSPECT(rule, fields) {RULE_##rule, RULE_##rule, fields}

/* What must change nothing, or make all as it was. */
static const struct suspect STRANGERS[] = {
    SUSPECT(EMPTY_FRAME, ANY),
    SUSPECT(FRAME_TOO_LONG, ANY),
    SUSPECT(UNKNOWN_TYPE, ANY),
    SUSPECT(WRONG_LENGTH, ANY),
    SUSPECT(NO_ANSWER, ANY),
    SUSPECT(RESTART_LOAD, TIMES),
    SUSPECT(RESTART_LOSES, STATES),
    SUSPECT(RESTART_POLL, ORDER | FIELD_BIT(COUNT) | FIELD_BIT(REPEAT)),
    SUSPECT(RESTART, ANY),
    SUSPECT(ABSENT_INPUT, STATES),
    SUSPECT(FLAGS_CLEARED, STATES | TIMES | ORDER),
    SUSPECT(INPUTS_ANSWER, STATES | TIMES | ORDER),
    SUSPECT(OUTPUTS_ANSWER, STATES | TIMES | ORDER),
    SUSPECT(WATCHDOG_TIMEOUT, STATES | TIMES | ORDER),
    SUSPECT(IDENTIFICATION, STATES | TIMES | ORDER)};

/* What changes something, the rarest first. */
static const struct suspect STEPS[] = {
    SUSPECT(COUNTER_AROUND, TIMES),
    SUSPECT(LATER_LOAD, TIMES),
    SUSPECT(LOAD_AT_SYNC, TIMES),
    SUSPECT(SYNC_ALONE, TIMES),
    {RULE_LOAD_ANSWER, RULE_LOAD_AT_SYNC, TIMES},
    SUSPECT(SAMPLES_ANEW, STATES),
    SUSPECT(LAST_ITEM_HOLDS, STATES),
    SUSPECT(FILTER_OF_ZERO, STATES),
    SUSPECT(PUSHED_OUT, STATES),
    SUSPECT(MOST_WAITING, STATES),
    SUSPECT(FILTERS_AT_START, STATES),
    SUSPECT(IGNORED_INPUT, STATES),
    SUSPECT(BLOCK_SIZE, FIELD_BIT(COUNT) | FIELD_BIT(MORE)),
    SUSPECT(ENTRY_ORDER, FIELD_BIT(ENTRY)),
    {RULE_SENT_AGAIN, RULE_REPEAT, STATES | ORDER},
    SUSPECT(TRAILING_FILTER, FIELD_BIT(COUNT) | FIELD_BIT(INPUTS)),
    SUSPECT(LEADING_FILTER, FIELD_BIT(COUNT) | FIELD_BIT(INPUTS)),
    SUSPECT(ENTRY, FIELD_BIT(ENTRY)),
    {RULE_COUNTER_STEP, RULE_LEADING_FILTER, FIELD_BIT(COUNT)},
    SUSPECT(COUNTER_STEP, FIELD_BIT(STAMP)),
    SUSPECT(COUNTER_AT_START, FIELD_BIT(STAMP))};

static enum rule first_suspect(const struct suspect *suspects, size_t count, uint32_t fields,
                               const struct rule_set *exercised) {
    size_t row;
    for (row = 0; row < count; row++) {
        if (conformance_has(exercised, suspects[row].done) && (fields & suspects[row].fields)) return suspects[row].rule;
    }
    return RULES;
}

/* What changed something: of the rules that the script exercised without a need, those that it does not come from are left
 * out. */
static enum rule first_step(const struct ends *ends, const struct script *script, const struct difference *both,
                            const struct rule_set *exercised) {
    struct rule_set needed = *exercised;
    enum rule rule;
    for (;;) {
        rule = first_suspect(STEPS, COUNT(STEPS), both->fields, &needed);
        if (both->is_whole) return rule;
        if ((rule != RULE_FILTERS_AT_START || conformance_comes_from_start(ends, script)) &&
            (rule != RULE_IGNORED_INPUT || conformance_comes_from_ignored(ends, script))) {
            return rule;
        }
        needed.words[rule / 64] &= ~(UINT64_C(1) << rule % 64);
    }
}

/* The rule of samples that start anew where they must not, and of entries that a new block lacks; RULES for others. */
static enum rule rule_of_lack(const struct ends *ends, const struct script *script, const struct difference *both,
                              const struct rule_set *exercised) {
    int is_block = both->frame_length == 2 && both->frame[0] == FIO2070_TYPE_POLL && both->expected_length > 2;
    if (both->is_whole || !(both->fields & STATES)) return RULES;
    if (conformance_interrupts_samples(ends, script)) return RULE_SAMPLES_ANEW;
    if (!is_block || !(both->fields & FIELD_BIT(COUNT)) || both->got_length >= both->expected_length) return RULES;
    if (conformance_has(&both->exercised, RULE_BLOCK_SIZE) || conformance_has(exercised, RULE_MOST_WAITING)) return RULES;
    switch (conformance_lack(ends, script)) {
    case LACKS_WAITING: return RULE_BLOCK_SIZE;
    case LACKS_TRANSITION: return both->expected[2] > 64 ? RULE_BLOCK_SIZE : RULE_ENTRY;
    case LACKS_STATE: return RULES;
    }
    return RULES;
}

/* The first of these rules that an event exercised; the last of them if it exercised none. */
static enum rule first_of(const enum rule *rules, size_t count, const struct rule_set *event) {
    while (count-- > 1 && !conformance_has(event, *rules)) rules++;
    return *rules;
}

/* The rule of an answer to a command, if nothing before it is suspect. */
static enum rule rule_of_command(uint8_t code, uint32_t fields, const struct rule_set *event) {
    switch (code) {
    case FIO2070_TYPE_STATUS:
        if (fields & FIELD_BIT(ERRORS)) return RULE_ERROR_COUNTS;
        return conformance_has(event, RULE_FLAGS_AT_START) ? RULE_FLAGS_AT_START : RULE_FLAGS_CLEARED;
    case FIO2070_TYPE_LOAD_COUNTER: return RULE_LOAD_ANSWER;
    case FIO2070_TYPE_CONFIGURE_INPUTS:
        return conformance_has(event, RULE_ABSENT_INPUT) ? RULE_ABSENT_INPUT : RULE_ITEMS_APPLY;
    case FIO2070_TYPE_RAW_INPUTS: return conformance_has(event, RULE_RAW_AT_START) ? RULE_RAW_AT_START : RULE_INPUTS_ANSWER;
    case FIO2070_TYPE_FILTERED_INPUTS: return RULE_INPUTS_ANSWER;
    case FIO2070_TYPE_SET_OUTPUTS: return fields & FIELD_BIT(OUTPUTS) ? RULE_OUTPUTS_KEPT : RULE_OUTPUTS_ANSWER;
    case FIO2070_TYPE_WATCHDOG: return fields & FIELD_BIT(TIMEOUT) ? RULE_WATCHDOG_TIMEOUT : RULE_WATCHDOG_BEFORE;
    case FIO2070_TYPE_IDENTIFY: return RULE_IDENTIFICATION;
    case FIO2070_TYPE_POLL: return RULE_NEW_BLOCK;
    default: return RULE_NO_ANSWER;
    }
}

/* The rule of a bit or a number that only a block answer has; RULES for other fields. */
static enum rule rule_of_block(uint32_t fields, const struct rule_set *event) {
    if (fields & FIELD_BIT(AGAIN)) return conformance_has(event, RULE_FIRST_POLL) ? RULE_FIRST_POLL : RULE_SENT_AGAIN;
    if (fields & FIELD_BIT(REPEAT)) return conformance_has(event, RULE_KEPT_APART) ? RULE_KEPT_APART : RULE_REPEAT;
    if (fields & FIELD_BIT(NUMBER)) return RULE_BLOCK_NUMBER;
    if (fields & FIELD_BIT(SEQUENCE)) {
        if (conformance_has(event, RULE_FIRST_POLL)) return RULE_FIRST_POLL;
        if (conformance_has(event, RULE_AFTER_255)) return RULE_AFTER_255;
        return conformance_has(event, RULE_CURRENT_NUMBER) ? RULE_CURRENT_NUMBER : RULE_SEQUENCE;
    }
    if (fields & FIELD_BIT(UNNAMED)) return RULE_NEW_BLOCK;
    if (fields & (FIELD_BIT(COUNT) | FIELD_BIT(ENTRY))) return RULES;
    if (fields & FIELD_BIT(LOST)) return RULE_LOST;
    if (fields & FIELD_BIT(MORE)) return RULE_MORE;
    return RULES;
}

/* What the script did before its last event, which the difference needs. */
static void exercised_before(const struct ends *ends, const struct script *script, struct rule_set *exercised) {
    struct script before = *script;
    before.length--;
    conformance_exercised(ends, &before, exercised);
}

/* Whether a frame came to the module, of all that an event may be. */
static int is_of_frame(const struct rule_set *event) {
    return conformance_has(event, RULE_ANSWER_TYPE) || conformance_has(event, RULE_NO_ANSWER) ||
           conformance_has(event, RULE_REFUSED);
}

/* The rule at which the module crashed or hung, if no frame came to it: the rarest of those that the event exercised. */
static enum rule rule_of_step(const struct rule_set *event) {
    static const enum rule rules[] = {RULE_RESTART,     RULE_COUNTER_AROUND, RULE_LOAD_AT_SYNC, RULE_SYNC_ALONE,
                                      RULE_PUSHED_OUT,  RULE_MOST_WAITING,   RULE_FILTER_OF_ZERO, RULE_ENTRY_ORDER,
                                      RULE_ENTRY,       RULE_COUNTER_STEP};
    return first_of(rules, COUNT(rules), event);
}

static const enum rule REFUSALS[] = {RULE_EMPTY_FRAME, RULE_FRAME_TOO_LONG, RULE_UNKNOWN_TYPE, RULE_WRONG_LENGTH, RULES};

/* A difference at a module. */
static enum rule judge_module(const struct ends *ends, const struct script *script, const struct difference *both) {
    uint8_t code = both->frame_length > 0 ? both->frame[0] : 0;
    struct rule_set exercised;
    enum rule rule;
    if ((both->fields & FIELD_BIT(FAILURE)) && !is_of_frame(&both->exercised)) return rule_of_step(&both->exercised);
    if (both->is_whole) {
        memset(&exercised, 0, sizeof exercised);
        if (both->fields & (FIELD_BIT(STAMP) | FIELD_BIT(BLOCK_STAMP))) return RULE_COUNTER_STEP;
    } else {
        exercised_before(ends, script, &exercised);
    }
    if ((both->fields & ~HIDDEN) == 0 && conformance_has(&exercised, RULE_RESTART)) return RULE_RESTART;
    if ((both->fields & ~HIDDEN) == 0 && code != FIO2070_TYPE_SET_OUTPUTS && code != FIO2070_TYPE_WATCHDOG) {
        return both->fields & FIELD_BIT(OUTPUTS) ? RULE_OUTPUTS_KEPT : RULE_WATCHDOG_TIMEOUT;
    }
    rule = first_of(REFUSALS, COUNT(REFUSALS), &both->exercised);
    if (rule != RULES) return rule;
    if (both->fields & FIELD_BIT(TYPE)) return RULE_ANSWER_TYPE;
    if (both->got_length == 0 && conformance_has(&both->exercised, RULE_FRAME_LENGTH)) return RULE_FRAME_LENGTH;
    if ((both->fields & FIELD_BIT(FAILURE)) && conformance_has(&both->exercised, RULE_SENT_AGAIN)) return RULE_SENT_AGAIN;
    if (both->fields & (FIELD_BIT(PRESENCE) | FIELD_BIT(LENGTH) | FIELD_BIT(FAILURE))) {
        return rule_of_command(code, both->fields, &both->exercised);
    }
    rule = first_suspect(STRANGERS, COUNT(STRANGERS), both->fields, &exercised);
    if (rule == RULES && code == FIO2070_TYPE_POLL) rule = rule_of_block(both->fields, &both->exercised);
    conformance_join(&exercised, &both->exercised);
    if (rule == RULES) rule = rule_of_lack(ends, script, both, &exercised);
    if (rule == RULES) rule = first_step(ends, script, both, &exercised);
    if (rule == RULES && both->fields == FIELD_BIT(BLOCK_STAMP)) rule = RULE_BLOCK_STAMP;
    if (rule == RULES && both->fields == FIELD_BIT(INPUTS) && code == FIO2070_TYPE_FILTERED_INPUTS && !both->is_whole &&
        conformance_comes_from_start(ends, script)) {
        rule = RULE_FILTERS_AT_START;
    }
    return rule != RULES ? rule : rule_of_command(code, both->fields, &both->exercised);
}

/* ---- At a CPU's end ---- */

/* Whether the frame was ignored although a block should have been taken. */
static int is_left(const struct difference *both) {
    return both->got_items == 0 && both->expected_number == (uint8_t)(both->got_number + 1);
}

/* Whether the block is passed over with the status 0 too. */
static int is_left_with_status_0(const struct ends *ends, const struct script *script, const struct difference *both) {
    static struct script plain;
    static struct difference difference;
    uint8_t octets[CONFORMANCE_LONGEST_FRAME];
    struct event event;
    memcpy(octets, both->frame, both->frame_length);
    octets[both->frame_length - 5] = 0;
    event = conformance_event(EVENT_HEAR, octets, both->frame_length);
    conformance_copy(&plain, script);
    plain.length--;
    conformance_add(&plain, &event);
    return conformance_compare(ends, &plain, &difference) == plain.length && is_left(&difference);
}

static enum rule rule_of_items(const struct difference *both) {
    size_t place = conformance_first_item(both);
    const struct fio2070_record_item *expected = &both->expected_record[place], *got = &both->got_record[place];
    if (place >= both->expected_items && got->gap) return RULE_GAP_MARK;
    if (place >= both->got_items && expected->gap && !is_left(both)) return RULE_GAP_MARK;
    if (place < both->expected_items && expected->input > 63 &&
        (place >= both->got_items || expected->input != got->input)) {
        return RULE_HIGH_INPUT;
    }
    if (place >= both->expected_items || place >= both->got_items) return RULE_TAKEN_WHOLE;
    if (expected->gap != got->gap) return RULE_GAP_MARK;
    if (both->fields & FIELD_BIT(ITEM)) return RULE_ITEMS_IN_ORDER;
    return conformance_has(&both->exercised, RULE_WIDE_AROUND) ? RULE_WIDE_AROUND : RULE_WIDE_TIME;
}

/* The rule at which the CPU's end crashed or hung. */
static enum rule rule_of_failure(const struct rule_set *event) {
    static const enum rule rules[] = {RULE_UNREADABLE,  RULE_OTHER_ANSWER, RULE_TAKEN_ONCE,      RULE_STALE,
                                      RULE_EMPTY_BLOCK, RULE_GAP_MARK,     RULE_BLOCK_LENGTH,    RULE_UNNAMED_BITS,
                                      RULE_HIGH_INPUT,  RULE_TAKEN_WHOLE,  RULE_SAME_UNTIL_TAKEN, RULE_POLL_NUMBER};
    return first_of(rules, COUNT(rules), event);
}

static enum rule judge_cpu(const struct ends *ends, const struct script *script, const struct difference *both) {
    static const enum rule heard[] = {RULE_UNREADABLE, RULE_OTHER_ANSWER, RULE_TAKEN_ONCE, RULE_STALE, RULES};
    enum rule rule = first_of(heard, COUNT(heard), &both->exercised);
    if (both->fields & FIELD_BIT(FAILURE)) return rule_of_failure(&both->exercised);
    if (both->fields & FIELD_BIT(POLL)) {
        return conformance_has(&both->exercised, RULE_SAME_UNTIL_TAKEN) ? RULE_SAME_UNTIL_TAKEN : RULE_POLL_NUMBER;
    }
    if (rule != RULES) return rule;
    if (is_left(both) && conformance_has(&both->exercised, RULE_UNNAMED_BITS)) return RULE_UNNAMED_BITS;
    if (is_left(both) && !is_left_with_status_0(ends, script, both)) return RULE_TAKEN_WHOLE;
    if (is_left(both) && conformance_has(&both->exercised, RULE_BLOCK_LENGTH)) return RULE_BLOCK_LENGTH;
    if (both->fields & (FIELD_BIT(ITEMS) | FIELD_BIT(GAP) | FIELD_BIT(ITEM) | FIELD_BIT(WIDE))) {
        return rule_of_items(both);
    }
    if (conformance_has(&both->exercised, RULE_NUMBER_AROUND)) return RULE_NUMBER_AROUND;
    return is_left(both) && conformance_has(&both->exercised, RULE_EMPTY_BLOCK) ? RULE_EMPTY_BLOCK : RULE_NUMBER_RISES;
}

enum rule conformance_judge(const struct ends *ends, const struct script *script, const struct difference *difference) {
    return ends->module != NULL ? judge_module(ends, script, difference) : judge_cpu(ends, script, difference);
}
