/* A module written from docs/PROTOCOL.md, with its quirks: its start, its scans and the frames that it takes. */
#include "module.h"

#include <string.h>

static const struct quirk RIGHT[] = {
    {COUNTER_STEP, 1}, {COUNTER_BITS, 32}, {LOAD_IS_DONE, 1}, {LOAD_BITS, 32}, {LOAD_ANSWERED, 1}, {ZERO_ACTS_AS, 1},
    {MOST_FILTER, 255}, {FILTER_BITS, 8}, {FILTER_NEVER, 256}, {FILTER_AT_ONCE, 256}, {FILTER_AT_START, 5},
    {IGNORED_AT_START, 1}, {STATES_AT_START, 1}, {RAW_AT_START, 1}, {CONFIGURED_STATE, 2}, {IGNORED_MOVES, 1},
    {INPUTS, 64}, {MOST_INPUT, 63}, {ABSENT_STATUS, 1}, {ABSENT_LOOKED_AT, 255}, {MOST_ITEMS, 255}, {ITEMS_READ, 255},
    {ENTRIES_OF_A_SCAN, 64}, {MOST_WAITING, 1024}, {REPEATS, 1}, {AGAIN_SET, 1}, {REPEAT_MASK, 255},
    {FIRST_NUMBER, 256}, {SEQUENCE_SET, 1}, {SEQUENCE_MODULO, 256}, {STRAY_IS_CURRENT, 1}, {BLOCK_SIZE, 255},
    {MORE_FROM, 256}, {LOST_SET, 1}, {LOST_BIT, 4}, {MORE_BIT, 8}, {BLOCK_STAMP_BITS, 32}, {EMPTY_ANSWERED, 1},
    {FLAGS_AT_START, 128}, {OUTPUTS_LENGTH, 5}, {OUTPUTS_STAMPED, 1}, {OUTPUTS_KEPT, 16}, {TIMEOUT_LEAST, 10},
    {TIMEOUT_MOST, 100}, {TIMEOUT_NEGATIVE, 256}, {BEFORE_SET, 1}, {IDENTIFICATION, 2}, {IDENTIFICATION_LENGTH, 1},
    {TYPE_PLUS, 128}, {CRASH_ON_ENTRIES, 100000}, {CRASH_FROM_LENGTH, 100000}, {CRASH_AT_TYPE, 256},
    {CRASH_AT_ITEMS, 256}, {CRASH_AT_REPEAT, 100000}, {HANG_AT_TYPE, 256}, {HANG_AT_ITEMS, 256}, {STAMP_LEFT, -1},
    {FILTER_LEFT, 256}, {LOAD_LEFT, 0x7fedcba9}, {ITEM_COUNT_BITS, 8}, {OUTPUTS_LEFT, -1}, {AGAIN_MOST, 100000},
    {MOST_REPEATS, 100000}, {REPEAT_UNANSWERED, -1}, {NUMBER_LEFT, 256}, {SEQUENCE_HOLE, 256}, {LONGEST_FRAME, 773},
    {LENGTH_BITS, 16}, {RESTART_COUNTER, 1}, {RESTART_FLAGS, 1}, {RESTART_WAITING, 1}, {RESTART_NUMBER, 1},
    {RESTART_LOAD, 1}, {RESTART_FILTERS, 1}, {RESTART_IGNORED, 1}, {RESTART_STATES, 1}, {RESTART_RAW, 1},
    {RESTART_SAMPLES, 1}, {RESTART_WATCHDOG, 1}, {RESTART_OUTPUTS, 1}, {RESTART_LOST, 1}, {REFUSED_MOST, 100000},
    {LOADS_MOST, 100000}, {SCAN_MASK_BITS, 64}, {SYNCS_MOST, 100000}, {BLOCK_SHORTENED, 256}, {ITEMS_REFUSED, 256},
    {TURNED_IN_FULL, 256}};
int module_quirks[MODULE_QUIRKS];
struct module_state module;

/* ---- Start and restart ---- */

static void start_filters(int is_restart) {
    unsigned input;
    for (input = 0; input < 64 && (!is_restart || Q(RESTART_FILTERS)); input++) {
        module.leading[input] = module.trailing[input] = (unsigned)Q(FILTER_AT_START);
    }
    if (!is_restart || Q(RESTART_SAMPLES)) memset(module.run, 0, sizeof module.run);
    if (!is_restart || Q(RESTART_IGNORED)) module.ignored = Q(IGNORED_AT_START) ? ~UINT64_C(0) : 0;
    if (!is_restart || Q(RESTART_STATES)) module.filtered = Q(STATES_AT_START) ? ~UINT64_C(0) : 0;
    if (!is_restart || Q(RESTART_RAW)) module.raw = Q(RAW_AT_START) ? ~UINT64_C(0) : 0;
}

static void start_link(int is_restart) {
    if (!is_restart || Q(RESTART_COUNTER)) module.counter = (uint32_t)Q(COUNTER_AT_START);
    if (!is_restart || Q(RESTART_LOAD)) module.is_asked = 0;
    if (!is_restart || Q(RESTART_WAITING)) module.count = 0;
    if (!is_restart || Q(RESTART_NUMBER)) {
        module.has_polled = 0;
        module.kept_length = 0;
    }
    if (!is_restart || Q(RESTART_LOST)) module.is_lost = 0;
}

static int has_started;

static void reset(void *context) {
    int is_restart = has_started;
    (void)context;
    if (!is_restart) memset(&module, 0, sizeof module);
    has_started = 1;
    start_filters(is_restart);
    start_link(is_restart);
    if (!is_restart || Q(RESTART_FLAGS)) module.flags = (uint8_t)Q(FLAGS_AT_START);
    if (!is_restart || Q(RESTART_WATCHDOG)) {
        module.timeout = 0;
        module.was_before = Q(BEFORE_AT_START);
    }
    if (!is_restart || Q(RESTART_OUTPUTS)) memset(module.outputs, Q(OUTPUTS_AT_START), 16);
    module.errors = 0;
    module.was_lost = 0;
    module.before = module.raw;
    module.scans = module.polls = module.blocks = module.entries = module.repeats = module.silent = 0;
    module.identified = module.syncs = module.loads = module.refused = module.configurations = 0;
    module.has_outputs = 0;
    memset(module.was_number, 0, sizeof module.was_number);
}

/* ---- Scans ---- */

static void push_out(size_t place) {
    memmove(&module.waiting[place], &module.waiting[place + 1], (module.count - place - 1) * sizeof module.waiting[0]);
    module.count--;
}

void module_add_entry(unsigned input, unsigned state) {
    uint32_t stamp = module.counter + (uint32_t)Q(STAMP_PLUS);
    struct entry entry;
    entry.input = (uint8_t)((input + (unsigned)Q(ENTRY_INPUT_PLUS)) & 127);
    entry.state = (uint8_t)(state ^ (unsigned)Q(STATE_TURNED));
    entry.stamp = (uint16_t)(stamp >> Q(STAMP_SHIFT));
    if (++module.entries == (unsigned long)Q(DROPPED_ENTRY) || entry.stamp == Q(STAMP_LEFT)) return;
    if (module.count >= (size_t)Q(CRASH_ON_ENTRIES)) crash();
    if (module.count + (Q(KEPT_WAITS) ? module.in_block : 0) >= (size_t)Q(MOST_WAITING)) {
        module.is_lost = 1;
        if (Q(OVERFLOW_SETS_FLAG)) module.flags |= 32;
        if (Q(NEWEST_PUSHED_OUT)) return;
        if (Q(ALL_PUSHED_OUT)) module.count = 1;
        if (module.count > 0) push_out(0);
    }
    if (module.count < ROOM) module.waiting[module.count++] = entry;
    if (Q(LOST_AT_FULL) && module.count == 1024) module.is_lost = 1;
}

/* How many samples change a state, with the filter as it is configured. */
static unsigned samples_of(unsigned filter, int plus) {
    if (filter == 0) return (unsigned)Q(ZERO_ACTS_AS);
    if (filter >= (unsigned)Q(FILTER_NEVER)) return 100000;
    if (filter >= (unsigned)Q(FILTER_AT_ONCE)) return 1;
    if (filter > (unsigned)Q(MOST_FILTER)) filter = (unsigned)Q(MOST_FILTER);
    filter = low_bits(filter, Q(FILTER_BITS));
    if (filter == (unsigned)Q(FILTER_LEFT)) filter--;
    return filter + (unsigned)plus > 0 ? filter + (unsigned)plus : 1;
}

/* Takes a sample of an input. Returns whether its state changes. */
static int sample(unsigned input, uint64_t levels) {
    unsigned level = (unsigned)(levels >> input & 1), state = (unsigned)(module.filtered >> input & 1), needed;
    int is_leading = (level == 0) != (Q(FILTERS_EXCHANGED) != 0);
    if (level == state) {
        if (!Q(SAMPLES_COUNT_DOWN)) module.run[input] = 0;
        if (Q(SAMPLES_COUNT_DOWN) && module.run[input] > 0) module.run[input]--;
        return 0;
    }
    if (Q(FILTERS_ARE_LEAST) && module.trailing[input] < module.leading[input]) is_leading = 0;
    if (Q(FILTERS_ARE_LEAST) && module.leading[input] < module.trailing[input]) is_leading = 1;
    needed = is_leading ? samples_of(module.leading[input], Q(LEADING_PLUS))
                        : samples_of(module.trailing[input], Q(TRAILING_PLUS));
    if (++module.run[input] < needed) return 0;
    module.run[input] = 0;
    return (module.ignored >> input & 1) == 0 || Q(IGNORED_MOVES);
}

static void scan_inputs(uint64_t levels) {
    unsigned place, made = 0;
    for (place = (unsigned)Q(FIRST_INPUT); place < (unsigned)Q(INPUTS); place++) {
        unsigned input = Q(DESCENDING) ? 63 - place : place;
        if (!sample(input, levels)) continue;
        module.filtered ^= UINT64_C(1) << input;
        if ((module.ignored >> input & 1) && !Q(IGNORED_REPORTED)) continue;
        if (++made <= (unsigned)Q(ENTRIES_OF_A_SCAN)) module_add_entry(input, (unsigned)(module.filtered >> input & 1));
    }
}

static void count_up(void) {
    uint32_t last = low_bits(0xffffffff, Q(COUNTER_BITS));
    if (++module.scans == (unsigned long)Q(SCAN_WITHOUT_STEP)) return;
    if (Q(POWER_FLAG_SCANS) && module.scans >= (unsigned long)Q(POWER_FLAG_SCANS)) module.flags &= 127;
    if (Q(STEP_LOST_EACH) && module.scans % (unsigned long)Q(STEP_LOST_EACH) == 0) return;
    if (module.counter == last) {
        module.counter = (uint32_t)Q(COUNTER_AFTER_LAST);
    } else {
        module.counter = low_bits(module.counter + (uint32_t)Q(COUNTER_STEP), Q(COUNTER_BITS));
    }
}

/* The levels that are sampled, if many change. */
static uint64_t with_mask(uint64_t levels) {
    uint64_t left;
    int changed = 0;
    for (left = levels ^ module.before; left != 0; left &= left - 1) changed++;
    if (Q(SCAN_MASK_BITS) == 64 || changed <= 33) return levels;
    return (levels & 0xffffffff) | (module.before & ~UINT64_C(0xffffffff));
}

static void stay_silent(void) {
    if (++module.silent == (unsigned long)Q(SILENCE_DROPS)) module.count = 0;
    if (module.silent != (unsigned long)Q(SILENCE_FORGETS)) return;
    module.has_polled = 0;
    module.kept_length = 0;
}

static void step(void *context, uint64_t inputs) {
    (void)context;
    stay_silent();
    if (!Q(STEPS_AFTER_SAMPLING)) count_up();
    module.before = module.raw;
    module.raw = inputs;
    inputs = with_mask(inputs);
    if (module.scans == 0 || module.scans != (unsigned long)Q(SCAN_WITHOUT_SAMPLES)) scan_inputs(inputs);
    if (Q(STEPS_AFTER_SAMPLING)) count_up();
}

void module_come_to(int place) {
    if (Q(SAMPLES_ANEW_AT) == place) memset(module.run, 0, sizeof module.run);
    if (Q(WAITING_DROPPED_AT) == place) module.count = 0;
}

void module_line_sync(void) {
    if (++module.syncs > (unsigned long)Q(SYNCS_MOST)) return;
    if (module.is_asked && ++module.loads > (unsigned long)Q(LOADS_MOST)) module.is_asked = 0;
    if (module.is_asked && Q(LOAD_IS_DONE)) module.counter = low_bits(module.load, Q(LOAD_BITS)) + (uint32_t)Q(LOAD_PLUS);
    if (!module.is_asked && Q(SYNC_CLEARS_COUNTER)) module.counter = 0;
    if (Q(SYNC_STEPS)) module.counter++;
    if (!Q(LOAD_STAYS)) module.is_asked = 0;
    module_come_to(AT_SYNC);
}

static void line_sync(void *context) {
    (void)context;
    module_line_sync();
}

/* ---- Frames ---- */

/* How many octets a command of this type has; 0 for any number, and -1 for no type. */
static int length_of(const uint8_t *octets, size_t length) {
    static const int lengths[] = {2, 5, 2, 1, 1, 2, 17, 0, 0, 2, 0, 1};
    if (octets[0] < 49 || octets[0] > 60) return -1;
    if (octets[0] == FIO2070_TYPE_CONFIGURE_INPUTS && length > 1) return 2 + 3 * octets[1];
    return lengths[octets[0] - 49];
}

/* Octets that spell no command. */
static size_t refuse(const uint8_t *octets, size_t length, uint8_t *out) {
    if (module.errors < 255) module.errors++;
    module.refused++;
    if (Q(REFUSED_CLEARS_LOAD)) module.is_asked = 0;
    if (length == 0 && Q(EMPTY_IS_STATUS)) {
        out[0] = 177;
        return 1;
    }
    if (length == 0 || length_of(octets, length) != -1) return 0;
    if (Q(UNKNOWN_EMPTIES)) module.count = 0;
    out[0] = (uint8_t)(octets[0] + 128);
    return Q(UNKNOWN_ANSWERED) ? 1 : 0;
}

/* Frames on which a module ends, or goes on for ever. */
static void fail_at(const uint8_t *octets, size_t length) {
    int type = length > 0 ? octets[0] : -1, count = length > 1 && type == FIO2070_TYPE_CONFIGURE_INPUTS ? octets[1] : -1;
    if (length >= (size_t)Q(CRASH_FROM_LENGTH) || (length == 0 && Q(CRASH_WHEN_EMPTY))) crash();
    if (type == Q(CRASH_AT_TYPE) || (count == Q(CRASH_AT_ITEMS) && count >= 0)) crash();
    if ((type == Q(HANG_AT_TYPE) && type >= 0) || (count == Q(HANG_AT_ITEMS) && count >= 0)) hang();
}

static size_t exchange(void *context, const uint8_t *octets, size_t length, uint8_t answer[FIO2070_LONGEST_FRAME]) {
    uint8_t frame[CONFORMANCE_LONGEST_FRAME + 8];
    int needed, given;
    (void)context;
    memset(frame, 0, sizeof frame);
    fail_at(octets, length);
    module.silent = 0;
    length = low_bits((uint32_t)length, Q(LENGTH_BITS));
    if (length > 0) memcpy(frame, octets, length);
    given = (int)length;
    needed = length == 0 ? -1 : length_of(frame, length);
    if (length == 0 || needed < 0 || given > Q(LONGEST_FRAME)) return refuse(frame, length, answer);
    if (needed > 0 && (given > needed + Q(OCTETS_TOO_MANY) || given + Q(OCTETS_TOO_FEW) < needed)) {
        return refuse(frame, length, answer);
    }
    if (module.refused >= (unsigned long)Q(REFUSED_MOST)) return 0;
    return module_command(frame, answer);
}

static void outputs(void *context, uint8_t levels[8], uint8_t controls[8]) {
    (void)context;
    memcpy(levels, module.outputs, 8);
    memcpy(controls, module.outputs + 8, 8);
}

static uint8_t watchdog_ms(void *context) {
    (void)context;
    return module.timeout;
}

const struct maker *module_with(const struct fault *const *faults, size_t count) {
    static const struct maker maker = {NULL, 2, 255, reset, step, line_sync, exchange, outputs, watchdog_ms};
    set_quirks(module_quirks, MODULE_QUIRKS, RIGHT, sizeof RIGHT / sizeof RIGHT[0], faults, count);
    has_started = 0;
    return &maker;
}
