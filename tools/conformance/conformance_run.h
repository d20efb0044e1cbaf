/* A run of random scripts, and what becomes of a difference in it. */
#ifndef CONFORMANCE_RUN_H
#define CONFORMANCE_RUN_H

#include "conformance_fresh.h"
#include "conformance_link.h"

/* What a script is made of, so that it can be made again. */
struct origin {
    uint64_t state;
    unsigned turn;
    size_t most; /* events */
};

/* A run under way. */
struct run {
    struct ends ends;
    const struct options *options;
    struct result *result;
    struct fresh fresh;
    uint64_t state;                         /* of the random numbers */
    unsigned turn;                          /* how many scripts there were */
    struct origin this_origin, last_origin; /* of this script, and of the one before; a state of 0 is none */
    int is_anew;                            /* each script runs in a new process */
    int is_cut;                             /* shrinking the script stopped at a bound */
    struct spent spent;
    struct rule_set again;                  /* rules that were reported once more after they were passed over */
    uint32_t untold_fields;                 /* of differences that could not be told from those before */
    FILE *out;
    struct script script; /* that runs, or that shows the difference */
    struct difference difference;
};

/* Makes a script again. The state is that of the random numbers after it. */
void conformance_make_script(const struct run *run, struct script *made, const struct origin *origin, uint64_t *state);

/* Runs the script of the run, in a new process if scripts run in one. Returns the event that shows a difference, 0 if
 * none does. */
size_t conformance_run_again(struct run *run);

/* The script before this one, a restart, and this one. */
void conformance_join_scripts(struct run *run, const struct origin *first);

/* Shrinks the script that shows a difference, reports it, and passes over its rule from then on. */
void conformance_settle(struct run *run);

/* A rule that is found, or excepted, is passed over from then on: first a difference in its fields, then its events.
 * Returns 0 if it was already. */
int conformance_pass_over(struct ends *ends, enum rule rule);

#endif
