/* The decisions of a CPU's end: which command is sent next, when it is sent again, and what an answer means. There is no
 * socket, file or clock in here: the caller sends what it is given, says what came and what time it is, and writes down what
 * it is told.
 *
 * One command is under way at a time. If no answer to it comes by the deadline it is sent again, the same octets: a poll keeps
 * its number until its block is taken, so no block is given up. Answers that no command waits for change nothing.
 *
 *     LOOK (at the flags) --> CLEAR (P) if P is up, the module was reset --> CONFIGURE --> LOOK ..
 *     LOOK at the start --> CONFIGURE if not: the configuration may be another than that of the run before
 *     CONFIGURE --> LOOK: the module may have been reset before its inputs were configured --> POLL, POLL, ..
 *     POLL, now and then LOOK: P is up --> CLEAR --> CONFIGURE --> LOOK ..; else POLL .. */
#ifndef CONTROLLER_LINK_H
#define CONTROLLER_LINK_H

#include <fio2070.h>

enum controller_step { CONTROLLER_LOOK, CONTROLLER_CLEAR, CONTROLLER_CONFIGURE, CONTROLLER_POLL };

/* Times are milliseconds of any clock that goes on evenly, and may pass from 2^32 - 1 to 0. */
struct controller_settings {
    uint32_t deadline_ms; /* how long an answer may take */
    uint32_t look_ms;     /* how often the flags are looked at */
    const struct fio2070_configuration_item *items;
    size_t item_count; /* at most 255 */
};

struct controller_link {
    struct controller_settings settings;
    struct fio2070_poller poller;
    enum controller_step step;
    uint8_t is_configured; /* since the start of this run */
    uint32_t sent_at;      /* when the command under way was sent last */
    uint32_t looked_at;
    size_t length; /* of the command under way, 0 if there is none */
    uint8_t command[FIO2070_LONGEST_FRAME];
};

/* What a frame was. */
enum controller_heard_kind {
    CONTROLLER_USELESS,   /* no answer, or one that no command waits for: it is late, or came twice */
    CONTROLLER_ANSWERED,  /* an answer that says no more than that the next command can go */
    CONTROLLER_TAKEN,     /* a block: `items` and `status`; keep the number of `poller` now */
    CONTROLLER_RESTARTED, /* the module was started anew: entries may be missing, and its counter began at 0 */
    CONTROLLER_REFUSED    /* the module refuses the configuration */
};

struct controller_heard {
    enum controller_heard_kind kind;
    uint8_t status;        /* of a block */
    uint16_t items;        /* how many a block adds to the record */
    uint8_t is_asked_next; /* 1 if the next command is to go at once: more wait than a block takes */
    uint8_t has_stamp;     /* 1 if `stamp` is what the module's counter is about now: a block that is sent again has an old one */
    uint32_t stamp;
};

/* Starts a link. `number` is the one that an earlier run kept, else any. Returns 0; 1 if `items` are no configuration. */
int controller_link_start(struct controller_link *link, struct controller_settings settings, uint8_t number);
/* Returns how many octets of `link->command` are to be sent now, 0 for none. Called once in each slot, and at once where a
 * frame was heard that says so. */
size_t controller_link_next(struct controller_link *link, uint32_t now);
/* As controller_link_next, but begins no further command: what is under way is brought to its end. */
size_t controller_link_finish(struct controller_link *link, uint32_t now);
/* Takes a frame. What a block adds to the record is written to `items`. */
struct controller_heard controller_link_hear(struct controller_link *link, const uint8_t *octets, size_t length,
                                             struct fio2070_record_item items[FIO2070_MOST_RECORD_ITEMS]);

#endif
