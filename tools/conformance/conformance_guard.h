/* Calls that may crash or hang: a signal that ends a process, or a call that goes on for ever, is caught. */
#ifndef CONFORMANCE_GUARD_H
#define CONFORMANCE_GUARD_H

#include <stddef.h>

/* Does `act`. Returns 1 if it returned; 0 if it crashed, or went on for more than `deadline_ms` without a call of
 * conformance_guard_goes_on; `failure` then says which. What it left half done stays so. */
int conformance_guard(void (*act)(void *given), void *given, int deadline_ms, char *failure, size_t room);

/* Called by `act`, now and then, to say that it has not hung. */
void conformance_guard_goes_on(void);

#endif
