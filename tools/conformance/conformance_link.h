/* The proved ends of the link, and the end under test next to one of them. */
#ifndef CONFORMANCE_LINK_H
#define CONFORMANCE_LINK_H

#include "conformance_clock.h"
#include "conformance_history.h"

enum { KEPT_ANSWERS = 4 };

struct frame {
    size_t length;
    uint8_t octets[CONFORMANCE_LONGEST_FRAME];
};

struct link {
    struct ends ends;
    struct fio2070_module module;
    struct history history;
    struct observer observer; /* of a module with a clock of its own */
    struct fio2070_poller cpu;
    struct cpu_history cpu_history;
    unsigned long sent, answered; /* how many frames in each direction */
    unsigned long delivered;      /* the number of the last answer that came to the CPU's end, 0 for none */
    struct frame command;         /* that was sent last */
    struct frame answers[KEPT_ANSWERS];
    struct rule_set exercised; /* by the last event */
    struct view before;        /* it */
    struct memory {
        struct fio2070_module module;
        struct history history;
        struct fio2070_poller cpu;
        struct cpu_history cpu_history;
    } memory; /* of before it, if events are left out */
    const char *head;          /* of the lines of the transcript, NULL if there is none */
    FILE *transcript;
};

/* Starts both ends as a script has them. If `ends` is NULL, the proved ones are alone. */
void conformance_link_start(struct link *link, const struct ends *ends, const struct script *script);

/* Does an event. Returns 1 if the end under test differs from the proved one. */
int conformance_link_step(struct link *link, const struct event *event, struct difference *difference);

/* How often a module under test answered 56, 57 or 59, by places 0 to 2. */
unsigned long conformance_makers_answers(unsigned place);

/* Does an event, whatever the end under test does. */
void conformance_link_go(struct link *link, const struct event *event);

/* The number of the answer that an event delivers, 0 if there is none: it is no longer kept, or a
 * later one was delivered. */
unsigned long conformance_link_answer(const struct link *link, const struct event *event);

/* Runs a script as conformance_compare does, and counts the events that exercise each rule. */
size_t conformance_count(const struct ends *ends, const struct script *script, struct difference *difference,
                         unsigned long exercised[RULES]);

/* The rules that a script exercises. */
void conformance_exercised(const struct ends *ends, const struct script *script, struct rule_set *rules);

/* Whether an event is a poll that comes to the module, and the number of the first one from an event on; `other` if there is
 * none. */
int conformance_is_poll(const struct event *event);
uint8_t conformance_next_poll(const struct script *script, size_t place, uint8_t other);

/* The fields in which both ends differ, a FIELD_BIT for each: of an answer, of what is heard, and the first item of
 * the record that is not the same. */
uint32_t conformance_answer_fields(const struct difference *difference);
uint32_t conformance_heard_fields(const struct difference *difference);
size_t conformance_first_item(const struct difference *difference);

/* Writes a line for each field in which they differ, with what was expected and what came. */
void conformance_write_fields(const struct difference *difference, FILE *out);

#endif
