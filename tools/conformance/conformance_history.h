/* What of the past of a module, or of a CPU's end, the rules speak of, and which rules an event exercises. */
#ifndef CONFORMANCE_HISTORY_H
#define CONFORMANCE_HISTORY_H

#include "conformance.h"

/* A module since its start or its last restart. */
struct history {
    uint8_t leading[64], trailing[64]; /* as last configured */
    uint64_t ignored, configured;      /* inputs */
    uint64_t levels;                   /* of the last scan */
    int has_scanned, is_loaded, is_asked, has_polled, is_reset_flag_up;
    uint8_t number;                   /* of the poll before */
    int was_out_of_sequence;          /* that poll */
    int is_changed;                   /* something that a repeat must not show came since the block was made */
    size_t kept;                      /* entries of the block that was sent last */
    unsigned long scans, polls, blocks, entries;
};

/* A CPU's end since its start. */
struct cpu_history {
    int has_polled; /* since the last block was taken */
    int has_taken;
    uint8_t taken; /* the number of the block taken last */
    unsigned long blocks, items;
};

/* What is seen of a module before an event. */
struct view {
    uint64_t filtered;
    size_t waiting;
    uint32_t counter;
};

void conformance_begin(struct history *history);
void conformance_look(const struct fio2070_module *module, struct view *view);

/* The rules that an event exercised, added to a set; the history then has the event. */
void conformance_saw_scan(struct history *history, const struct view *before, const struct fio2070_module *after,
                          uint64_t inputs, struct rule_set *rules);
void conformance_saw_sync(struct history *history, struct rule_set *rules);
void conformance_saw_restart(struct history *history, const struct view *before, struct rule_set *rules);
void conformance_saw_frame(struct history *history, const struct view *before, const uint8_t *octets, size_t length,
                           const uint8_t *answer, size_t answer_length, struct rule_set *rules);
void conformance_saw_poll(struct cpu_history *history, struct rule_set *rules);
void conformance_saw_heard(struct cpu_history *history, const uint8_t *octets, size_t length,
                           const struct fio2070_heard *heard, const struct fio2070_record_item *items,
                           struct rule_set *rules);

#endif
