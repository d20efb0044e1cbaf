/* What the module answers to commands but polls. */
#include "module.h"

#include <string.h>

size_t module_put_stamp(uint8_t *out, uint32_t stamp) {
    int octet;
    for (octet = 3; octet >= 0; octet--, stamp >>= 8) out[octet] = (uint8_t)stamp;
    return 4;
}

static size_t answer_status(const uint8_t *octets, uint8_t *out) {
    uint8_t mask = Q(CLEAR_TURNED) ? (uint8_t)~octets[1] : octets[1], before = module.flags;
    module.flags &= (uint8_t)~mask;
    if (Q(FLAGS_SET_BY_MASK)) module.flags |= octets[1];
    if (Q(CLEARS_ALL)) module.flags = 0;
    if (Q(CLEAR_NEEDS_ALL) && mask != 255) module.flags = before;
    module_come_to(AT_STATUS);
    out[1] = Q(CLEAR_AFTER) ? before : module.flags;
    out[2] = (uint8_t)(Q(ERRORS) + (Q(ERRORS_COUNTED) ? module.errors : 0));
    out[3] = 0;
    return 4 + module_put_stamp(out + 4, Q(STATUS_STAMP_LATE) ? module.polled : module.counter);
}

static size_t answer_load(const uint8_t *octets, uint8_t *out) {
    uint32_t load = (uint32_t)octets[1] << 24 | (uint32_t)octets[2] << 16 | (uint32_t)octets[3] << 8 | octets[4];
    if (!module.is_asked || !Q(FIRST_LOAD_HOLDS)) module.load = (Q(LOADS_ADD) && module.is_asked ? module.load : 0) + load;
    module.is_asked = (int)load != Q(LOAD_LEFT);
    module_come_to(AT_LOAD);
    if (Q(LOAD_AT_ONCE)) module_line_sync();
    out[1] = (uint8_t)Q(LOAD_STATUS);
    return Q(LOAD_ANSWERED) ? 2 : 0;
}

/* Takes the waiting entries of an input away. */
static void drop_entries(unsigned input) {
    size_t place, left = 0;
    for (place = 0; place < module.count; place++) {
        if (module.waiting[place].input != input) module.waiting[left++] = module.waiting[place];
    }
    module.count = left;
}

static void apply_item(const uint8_t *item) {
    unsigned input = item[0] & 63, is_ignored = item[0] >> 7 ^ (unsigned)Q(IGNORE_TURNED);
    uint64_t bit = UINT64_C(1) << input;
    if (Q(CONFIGURED_DROPPED) || (Q(IGNORED_DROPPED) && is_ignored)) drop_entries(input);
    if (Q(CATCHES_UP) && (module.ignored & bit) && !is_ignored && !(module.filtered & bit)) module_add_entry(input, 0);
    module.leading[input] = item[1];
    module.trailing[input] = item[2];
    if (!Q(IGNORE_STICKS) || is_ignored) module.ignored = is_ignored ? module.ignored | bit : module.ignored & ~bit;
    if (!Q(SAMPLES_KEPT)) module.run[input] = 0;
    if (Q(CONFIGURED_STATE) == 1) module.filtered |= bit;
    if (Q(CONFIGURED_STATE) == 0) module.filtered = (module.filtered & ~bit) | (module.raw & bit);
}

/* The first item that names an absent input, or how many there are. */
static unsigned first_absent(const uint8_t *octets) {
    unsigned place = 0;
    while (place < octets[1] && (place >= (unsigned)Q(ABSENT_LOOKED_AT) || (octets[2 + 3 * place] & 127) <= Q(MOST_INPUT) ||
                                 (Q(ABSENT_IGNORED_PASSES) && octets[2 + 3 * place] >> 7))) {
        place++;
    }
    return place;
}

static void apply_items(const uint8_t *octets, unsigned count) {
    uint64_t done = 0;
    unsigned place;
    for (place = 0; place < count && place < (unsigned)Q(ITEMS_READ); place++) {
        uint64_t bit = UINT64_C(1) << (octets[2 + 3 * place] & 63);
        int is_absent = (octets[2 + 3 * place] & 127) > Q(MOST_INPUT);
        if (!(Q(FIRST_ITEM_HOLDS) && (done & bit)) && !(is_absent && Q(ABSENT_APPLIES) == 3)) apply_item(octets + 2 + 3 * place);
        done |= bit;
    }
}

static size_t answer_configuration(const uint8_t *octets, uint8_t *out) {
    unsigned count = low_bits(octets[1], Q(ITEM_COUNT_BITS)), absent = first_absent(octets);
    int is_count_refused = (int)count > Q(MOST_ITEMS) || (int)count == Q(ITEMS_REFUSED);
    int is_refused = absent < count || is_count_refused;
    out[1] = (uint8_t)(absent < count ? Q(ABSENT_STATUS) : count == 0 ? Q(NO_ITEMS_STATUS) : Q(ITEMS_STATUS));
    if (is_count_refused) out[1] = 1;
    if (++module.configurations == (unsigned long)Q(CONFIGURATION_LEFT)) return 2;
    if (!is_refused) apply_items(octets, count);
    if (is_refused && Q(ABSENT_APPLIES) == 1) apply_items(octets, absent);
    if (is_refused && Q(ABSENT_APPLIES) >= 2) apply_items(octets, count);
    if (Q(CONFIGURATION_EMPTIES)) module.count = 0;
    module_come_to(AT_CONFIGURATION);
    if (is_refused) module_come_to(AT_REFUSED);
    return 2;
}

static size_t answer_inputs(uint64_t inputs, uint8_t *out) {
    int octet;
    for (octet = 0; octet < 8; octet++) out[Q(INPUTS_TURNED) ? 8 - octet : 1 + octet] = (uint8_t)(inputs >> 8 * octet);
    return 9 + module_put_stamp(out + 9, module.counter);
}

/* ---- Other commands ---- */

/* Whether all levels are those that are not kept. */
static int is_left(const uint8_t *levels) {
    size_t octet = 0;
    while (octet < 8 && levels[octet] == Q(OUTPUTS_LEFT)) octet++;
    return octet == 8;
}

static size_t answer_outputs(const uint8_t *octets, uint8_t *out) {
    if ((!Q(OUTPUTS_SET_ONCE) || !module.has_outputs) && !is_left(octets + 1)) memcpy(module.outputs, octets + 1, (size_t)Q(OUTPUTS_KEPT));
    module.has_outputs = 1;
    if (Q(CONTROLS_FIRST)) {
        memcpy(module.outputs, octets + 9, 8);
        memcpy(module.outputs + 8, octets + 1, 8);
    }
    out[1] = (uint8_t)Q(OUTPUTS_FIRST);
    module_put_stamp(out + 2, Q(OUTPUTS_STAMPED) ? module.counter : 0);
    return 1 + (size_t)Q(OUTPUTS_LENGTH);
}

static size_t answer_watchdog(uint8_t asked, uint8_t *out) {
    uint8_t timeout = asked;
    out[1] = (uint8_t)module.was_before;
    module_come_to(AT_WATCHDOG);
    module.was_before = Q(BEFORE_SET);
    if (timeout < Q(TIMEOUT_LEAST) || timeout >= Q(TIMEOUT_NEGATIVE)) timeout = (uint8_t)Q(TIMEOUT_LEAST);
    if (asked == 0 && Q(TIMEOUT_OFF)) timeout = 0;
    module.timeout = timeout > Q(TIMEOUT_MOST) ? (uint8_t)Q(TIMEOUT_MOST) : timeout;
    return 2;
}

static size_t answer_body(uint8_t code, uint8_t *out) {
    if (Q(BODY_EMPTIES)) module.count = 0;
    if (Q(BODY_CLEARS)) module.flags = 0;
    (void)out;
    return code == Q(ANSWERED_BODY) ? 1 : 0;
}

size_t module_command(const uint8_t *octets, uint8_t *out) {
    out[0] = (uint8_t)(octets[0] + Q(TYPE_PLUS));
    switch (octets[0]) {
    case FIO2070_TYPE_STATUS: return answer_status(octets, out);
    case FIO2070_TYPE_LOAD_COUNTER: return answer_load(octets, out);
    case FIO2070_TYPE_CONFIGURE_INPUTS: return answer_configuration(octets, out);
    case FIO2070_TYPE_RAW_INPUTS: return answer_inputs(Q(RAW_IS_FILTERED) ? module.filtered : Q(RAW_IS_LATE) ? module.before : module.raw, out);
    case FIO2070_TYPE_FILTERED_INPUTS: return answer_inputs(Q(FILTERED_IS_RAW) ? module.raw : module.filtered | (Q(IGNORED_SHOWN) ? module.ignored : 0), out);
    case FIO2070_TYPE_POLL: return module_poll(octets[1], out);
    case FIO2070_TYPE_SET_OUTPUTS: return answer_outputs(octets, out);
    case FIO2070_TYPE_WATCHDOG: return answer_watchdog(octets[1], out);
    case FIO2070_TYPE_IDENTIFY:
        if (Q(IDENTIFIED_ONCE) && module.identified++ > 0) return 0;
        out[1] = out[2] = (uint8_t)Q(IDENTIFICATION);
        return 1 + (size_t)Q(IDENTIFICATION_LENGTH);
    default: return answer_body(octets[0], out);
    }
}

