/* A module that samples by a clock of its own. Its stamps have to be within bounds by the tester's clock, its entries in
 * the order of their stamps, with states that alternate, and none missing after levels have lasted long enough. */
#define _POSIX_C_SOURCE 200809L
#include "conformance_clock.h"

#include <stdarg.h>
#include <string.h>
#include <time.h>

enum {
    UNKNOWN = 2,
    SLACK_MS = 20, /* between a level and the sample of it, apart from one part in 100 of each time */
    LONGEST_MS = 30000 /* times between entries of less than half of what 16 bits can say */
};

int64_t conformance_now_ms(void) {
    struct timespec now;
    clock_gettime(CLOCK_MONOTONIC, &now);
    return (int64_t)now.tv_sec * 1000 + now.tv_nsec / 1000000;
}

/* ---- What happens to the module ---- */

void conformance_clock_reset(struct observer *observer, struct span span) {
    int input;
    memset(observer, 0, sizeof *observer);
    observer->counted_from = span;
    observer->levels = observer->ignored = observer->hazy = ~(uint64_t)0;
    memset(observer->leading, 5, 64);
    memset(observer->trailing, 5, 64);
    memset(observer->states, UNKNOWN, 64);
    for (input = 0; input < 64; input++) observer->steady_since[input] = span.last;
}

void conformance_clock_levels(struct observer *observer, uint64_t levels) {
    uint64_t changed = observer->levels ^ levels;
    int64_t now = conformance_now_ms();
    int input;
    for (input = 0; input < 64; input++) {
        if (changed >> input & 1) observer->steady_since[input] = now;
    }
    observer->levels = levels;
}

void conformance_clock_load(struct observer *observer, uint32_t number, struct span span) {
    observer->counted_from = span;
    observer->base = number;
    observer->is_loaded = 1;
    observer->has_last = 0;
}

static void configure(struct observer *observer, const uint8_t *octets) {
    int64_t now = conformance_now_ms();
    unsigned place;
    for (place = 0; place < octets[1]; place++) {
        const uint8_t *item = octets + 2 + 3 * place;
        uint64_t bit = (uint64_t)1 << (item[0] & 63);
        int is_ignored = item[0] >> 7, was_ignored = (observer->ignored & bit) != 0;
        observer->leading[item[0] & 63] = item[1];
        observer->trailing[item[0] & 63] = item[2];
        observer->steady_since[item[0] & 63] = now;
        observer->ignored = is_ignored ? observer->ignored | bit : observer->ignored & ~bit;
        if (is_ignored != was_ignored) observer->hazy |= bit;
    }
    observer->reported |= ~observer->ignored;
}

/* ---- What may be ---- */

static uint32_t because(struct difference *difference, uint32_t field, const char *form, ...) {
    va_list words;
    va_start(words, form);
    if (difference->observed[0] == '\0') {
        vsnprintf(difference->observed, sizeof difference->observed, form, words);
    }
    va_end(words);
    return field;
}

/* Whether the level of an input has lasted long enough at this time to be its filtered state. */
static int is_settled(const struct observer *observer, int input, int64_t time) {
    int is_high = (int)(observer->levels >> input & 1);
    int64_t filter = is_high ? observer->trailing[input] : observer->leading[input];
    return time - observer->steady_since[input] > filter + filter / 100 + SLACK_MS;
}

static uint32_t read_stamp(const uint8_t *octets) {
    return (uint32_t)octets[0] << 24 | (uint32_t)octets[1] << 16 | (uint32_t)octets[2] << 8 | octets[3];
}

/* The most milliseconds that the module can have counted since the reset or the load. */
static int64_t most_counted(const struct observer *observer, struct span span) {
    int64_t most = span.last - observer->counted_from.first;
    return most + most / 100 + SLACK_MS;
}

static uint32_t stamp_field(const struct observer *observer, struct span span, const uint8_t *octets, uint32_t field,
                            struct difference *difference) {
    int64_t least = span.first - observer->counted_from.last, most = most_counted(observer, span);
    uint32_t counted = read_stamp(octets) - observer->base;
    least -= least / 100 + SLACK_MS;
    if (counted <= (uint32_t)most && (least <= 0 || counted >= (uint32_t)least)) return 0;
    return because(difference, field, "the stamp: got %lu, %ld to %ld ms after %lu", (unsigned long)read_stamp(octets),
                   least > 0 ? (long)least : 0L, (long)most, (unsigned long)observer->base);
}

/* 180 and 181: the levels of inputs that have lasted long enough. */
static uint32_t inputs_field(const struct observer *observer, struct span span, int is_filtered,
                             struct difference *difference) {
    int input;
    for (input = 0; input < 64; input++) {
        unsigned got = difference->got[1 + input / 8] >> input % 8 & 1, level = observer->levels >> input & 1;
        int is_due = is_filtered ? is_settled(observer, input, span.first)
                                 : span.first - observer->steady_since[input] > SLACK_MS;
        if (!is_due || got == level) continue;
        return because(difference, FIELD_BIT(INPUTS), "input %d: got %u, its level is %u for %ld ms", input, got, level,
                       (long)(span.first - observer->steady_since[input]));
    }
    return 0;
}

/* ---- Blocks ---- */

static uint32_t repeat_field(const struct observer *observer, struct difference *difference) {
    uint8_t due[FIO2070_LONGEST_FRAME];
    size_t length = observer->kept_length, other = 0;
    uint32_t field = FIELD_BIT(REPEAT);
    if (length == 0) return 0;
    memcpy(due, observer->kept, length);
    due[length - 5] = (uint8_t)((due[length - 5] | FIO2070_BIT_AGAIN) & ~FIO2070_BIT_OUT_OF_SEQUENCE);
    if (length != difference->got_length) return because(difference, field, "the block is another one than before");
    while (other < length && due[other] == difference->got[other]) other++;
    if (other == length) return 0;
    if (other == length - 5 && (due[other] ^ difference->got[other]) == FIO2070_BIT_AGAIN) field = FIELD_BIT(AGAIN);
    return because(difference, field, "octet %lu: the repeat of the block before has %02x, got %02x",
                   (unsigned long)other, due[other], difference->got[other]);
}

/* An entry after those before it. */
static uint32_t entry_field(struct observer *observer, const uint8_t *octets, uint16_t block_stamp, int64_t most,
                            struct difference *difference) {
    unsigned input = octets[0] & 127u, state = octets[0] >> 7;
    uint16_t stamp = (uint16_t)(octets[1] * 256u + octets[2]), since = (uint16_t)(stamp - observer->last_stamp);
    int is_timed = !observer->is_loaded && most < LONGEST_MS, has_last = observer->has_last;
    int is_hazy;
    if (input > 63 || (observer->reported >> input & 1) == 0) {
        return because(difference, FIELD_BIT(ENTRY), "an entry of input %u, which is not reported", input);
    }
    is_hazy = (int)(observer->hazy >> input & 1);
    if (!is_hazy && observer->states[input] == state) {
        return because(difference, FIELD_BIT(ENTRY), "two entries of input %u in a row have the state %u", input, state);
    }
    if (is_timed && has_last && (since > most || (since == 0 && input <= observer->last_input))) {
        return because(difference, FIELD_BIT(ENTRY), "an entry of input %u, stamp %u, after one of input %u, stamp %u",
                       input, stamp, observer->last_input, observer->last_stamp);
    }
    if (is_timed && (uint16_t)(block_stamp - stamp) > most) {
        return because(difference, FIELD_BIT(ENTRY), "an entry of input %u has the stamp %u, and the block %u", input,
                       stamp, block_stamp);
    }
    observer->states[input] = (uint8_t)state;
    observer->has_last = 1;
    observer->last_stamp = stamp;
    observer->last_input = (uint8_t)input;
    return 0;
}

/* After a block that empties the buffer, the last states are the filtered ones. */
static uint32_t drained_field(struct observer *observer, struct span span, struct difference *difference) {
    int input;
    for (input = 0; input < 64; input++) {
        uint64_t bit = (uint64_t)1 << input;
        unsigned level = (unsigned)(observer->levels >> input & 1);
        if (observer->ignored & bit) continue;
        if (observer->hazy & bit) observer->states[input] = UNKNOWN;
        observer->hazy &= ~bit;
        if (!is_settled(observer, input, span.first)) continue;
        if (observer->states[input] != UNKNOWN && observer->states[input] != level) {
            return because(difference, FIELD_BIT(COUNT), "no entry of input %d, whose level is %u for %ld ms", input,
                           level, (long)(span.first - observer->steady_since[input]));
        }
        observer->states[input] = (uint8_t)level;
    }
    /* The last entry may be of before the load. */
    if (observer->is_loaded) observer->has_last = 0;
    observer->is_loaded = 0;
    return 0;
}

static uint32_t block_field(struct observer *observer, struct span span, uint8_t per_block,
                            struct difference *difference) {
    const uint8_t *got = difference->got, *status = got + difference->got_length - 5;
    uint16_t low = (uint16_t)read_stamp(status + 1);
    unsigned place;
    uint32_t fields = stamp_field(observer, span, status + 1, FIELD_BIT(BLOCK_STAMP), difference);
    if (got[2] > per_block) return because(difference, FIELD_BIT(COUNT), "the block has %u entries", got[2]);
    if ((*status & FIO2070_BIT_MORE) && got[2] < per_block) {
        return because(difference, FIELD_BIT(MORE), "C is set, and the block has %u entries", got[2]);
    }
    if ((*status & FIO2070_BIT_LOST) && !(*status & FIO2070_BIT_MORE)) {
        return because(difference, FIELD_BIT(LOST), "F is set without C");
    }
    if (*status & FIO2070_BIT_LOST) memset(observer->states, UNKNOWN, 64);
    for (place = 0; place < got[2] && fields == 0; place++) {
        fields = entry_field(observer, got + 3 + 3 * place, low, most_counted(observer, span), difference);
    }
    if (fields == 0 && !(*status & FIO2070_BIT_MORE)) fields = drained_field(observer, span, difference);
    return fields;
}

static uint32_t poll_fields(struct observer *observer, struct span span, uint8_t per_block,
                            struct difference *difference) {
    uint32_t fields;
    if (difference->expected[difference->expected_length - 5] & FIO2070_BIT_AGAIN) return repeat_field(observer, difference);
    fields = block_field(observer, span, per_block, difference);
    memcpy(observer->kept, difference->got, difference->got_length);
    observer->kept_length = difference->got_length;
    return fields;
}

/* 183 has the octet 0 and a stamp. */
static uint32_t outputs_field(const struct observer *observer, struct span span, struct difference *difference) {
    if (difference->got_length != 6 || difference->got[1] != 0) return FIELD_BIT(BODY);
    return stamp_field(observer, span, difference->got + 2, FIELD_BIT(BODY), difference);
}

uint32_t conformance_clock_fields(struct observer *observer, struct span span, uint8_t per_block, uint32_t fields,
                                  struct difference *difference) {
    const uint8_t *stamp = difference->got + difference->got_length - 4;
    uint8_t code = difference->expected_length > 0 ? (uint8_t)(difference->expected[0] - FIO2070_TYPE_ANSWER) : 0;
    difference->observed[0] = '\0';
    if (code == 0 || (fields & (FIELD_BIT(PRESENCE) | FIELD_BIT(TYPE) | FIELD_BIT(LENGTH)))) return fields;
    if (code == FIO2070_TYPE_CONFIGURE_INPUTS && (difference->expected[1] & FIO2070_BIT_ERROR) == 0) {
        configure(observer, difference->frame);
    }
    fields &= ~(uint32_t)CONFORMANCE_CLOCK_FIELDS;
    if (code == FIO2070_TYPE_SET_OUTPUTS) fields &= ~FIELD_BIT(BODY);
    switch (code) {
    case FIO2070_TYPE_STATUS: return fields | stamp_field(observer, span, stamp, FIELD_BIT(STAMP), difference);
    case FIO2070_TYPE_RAW_INPUTS:
    case FIO2070_TYPE_FILTERED_INPUTS:
        fields |= stamp_field(observer, span, stamp, FIELD_BIT(STAMP), difference);
        return fields | inputs_field(observer, span, code == FIO2070_TYPE_FILTERED_INPUTS, difference);
    case FIO2070_TYPE_POLL: return fields | poll_fields(observer, span, per_block, difference);
    case FIO2070_TYPE_SET_OUTPUTS: return fields | outputs_field(observer, span, difference);
    default: return fields;
    }
}
