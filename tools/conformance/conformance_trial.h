/* Trials of scripts that are shorter than one that shows a difference. */
#ifndef CONFORMANCE_TRIAL_H
#define CONFORMANCE_TRIAL_H

#include "conformance_fresh.h"
#include "conformance_link.h"

/* A script that is shrunk. */
struct shrinking {
    struct ends ends;
    struct fresh *fresh; /* trials run in new processes; NULL if they do not */
    struct script *script;
    struct difference *difference; /* of the script, as it was last seen */
    int fails;                     /* at its last event the end under test crashes or hangs */
    unsigned long tried, most;     /* events of trials */
    unsigned missed;               /* successive trials that showed nothing */
    struct spent *spent;           /* in this run */
    int64_t began_ms, said_ms, until_ms; /* of the clock: also when it was last said that trials go on */
};

/* The script that is tried in its place. */
extern struct script conformance_trial;

void conformance_begin_trials(struct shrinking *shrinking, const struct ends *ends, struct fresh *fresh,
                              struct script *script, struct difference *difference, struct spent *spent);
void conformance_end_trials(struct shrinking *shrinking);

/* Whether the script is short enough, since trials took too long: there are no more of them. */
int conformance_is_over(const struct shrinking *shrinking);

/* Makes the trial a copy of the script. */
void conformance_begin_trial(const struct shrinking *shrinking);

/* Takes the trial in place of the script if it shows a difference, or fails as the script does. Returns 1 if it
 * does. */
int conformance_take_trial(struct shrinking *shrinking);

#endif
