/* Runs scripts in new processes, in which the end under test has never run before. */
#ifndef CONFORMANCE_FRESH_H
#define CONFORMANCE_FRESH_H

#include "conformance.h"

struct fresh {
    int is_there;
    FILE *to, *from; /* pipes of the process that forks the others */
    long process;
    FILE *text; /* the script that runs next */
};

/* Begins before the end under test was called. If no process can be forked, `is_there` is 0. */
void conformance_fresh_begin(struct fresh *fresh, const struct ends *ends);
void conformance_fresh_end(struct fresh *fresh);

/* Like conformance_compare; if `fresh` is not NULL, in a new process. If that is not possible, there is no difference. */
size_t conformance_fresh_compare(struct fresh *fresh, const struct ends *ends, const struct script *script,
                                 struct difference *difference);

#endif
