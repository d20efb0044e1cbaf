/* Variants of a script that was shrunk, which show what its difference does not come from. */
#ifndef CONFORMANCE_SUSPECT_H
#define CONFORMANCE_SUSPECT_H

#include "conformance_link.h"

/* Whether the difference disappears if the inputs were configured as they are at the start. */
int conformance_comes_from_start(const struct ends *ends, const struct script *script);

/* Whether it disappears if all inputs are open. */
int conformance_comes_from_ignored(const struct ends *ends, const struct script *script);

/* Whether something comes between samples of a change that does not configure those inputs. */
int conformance_interrupts_samples(const struct ends *ends, const struct script *script);

/* A new block lacks entries. Whether they were dropped, in LACKS_WAITING, or never made, in LACKS_TRANSITION, although the
 * states are right; LACKS_STATE if these are wrong too. */
enum lack { LACKS_STATE, LACKS_TRANSITION, LACKS_WAITING };
enum lack conformance_lack(const struct ends *ends, const struct script *script);

#endif
