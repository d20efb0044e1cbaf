/* Which rules an event at a CPU's end exercises. */
#include "conformance_history.h"

#include <string.h>

static void put_if(struct rule_set *rules, enum rule rule, int condition) {
    if (condition) conformance_put(rules, rule);
}

void conformance_saw_poll(struct cpu_history *history, struct rule_set *rules) {
    conformance_put(rules, RULE_POLL_NUMBER);
    put_if(rules, RULE_SAME_UNTIL_TAKEN, history->has_polled);
    history->has_polled = 1;
}

static void saw_items(const struct cpu_history *history, const struct fio2070_record_item *items, size_t count,
                      uint32_t stamp, struct rule_set *rules) {
    size_t place;
    put_if(rules, RULE_CASE_30000_ITEMS, count > 0 && history->items >= 30000);
    for (place = 0; place < count; place++) {
        if (items[place].gap) {
            conformance_put(rules, RULE_GAP_MARK);
            continue;
        }
        put_if(rules, RULE_HIGH_INPUT, items[place].input > 63);
        conformance_put(rules, RULE_ITEMS_IN_ORDER);
        conformance_put(rules, RULE_WIDE_TIME);
        put_if(rules, RULE_WIDE_AROUND, items[place].wide > stamp);
    }
}

static void saw_taken(struct cpu_history *history, const uint8_t *octets, size_t length,
                      const struct fio2070_heard *heard, const struct fio2070_record_item *items,
                      struct rule_set *rules) {
    struct fio2070_block_header header;
    memset(&header, 0, sizeof header);
    if (fio2070_read_block(octets, length, &header).kind != FIO2070_FAULT_NONE) return;
    conformance_put(rules, RULE_NUMBER_RISES);
    put_if(rules, RULE_NUMBER_AROUND, header.number == 255);
    conformance_put(rules, RULE_TAKEN_WHOLE);
    put_if(rules, RULE_EMPTY_BLOCK, heard->entries == 0);
    put_if(rules, RULE_UNNAMED_BITS, heard->status > 15);
    put_if(rules, RULE_BLOCK_LENGTH, length > CONFORMANCE_SHORT_FRAME);
    put_if(rules, RULE_CASE_LONG_BLOCK, length > 256);
    put_if(rules, RULE_CASE_WHOLE_BLOCK, heard->items == FIO2070_MOST_RECORD_ITEMS);
    put_if(rules, RULE_CASE_256_TAKEN, history->blocks >= 256);
    saw_items(history, items, heard->items, header.stamp, rules);
    history->has_polled = 0;
    history->has_taken = 1;
    history->taken = header.number;
    history->blocks++;
    history->items += heard->items;
}

void conformance_saw_heard(struct cpu_history *history, const uint8_t *octets, size_t length,
                           const struct fio2070_heard *heard, const struct fio2070_record_item *items,
                           struct rule_set *rules) {
    switch (heard->kind) {
    case FIO2070_HEARD_UNREADABLE:
        conformance_put(rules, RULE_UNREADABLE);
        put_if(rules, RULE_CASE_LONG_UNREADABLE, length > 256);
        break;
    case FIO2070_HEARD_OTHER: conformance_put(rules, RULE_OTHER_ANSWER); break;
    case FIO2070_HEARD_STALE:
        conformance_put(rules, RULE_STALE);
        put_if(rules, RULE_TAKEN_ONCE, history->has_taken && heard->number == history->taken);
        break;
    default: saw_taken(history, octets, length, heard, items, rules); break;
    }
}
