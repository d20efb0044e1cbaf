/* How the lines of a run's results begin. The tester writes them, and passes over them if it reads its own report. */
#ifndef CONFORMANCE_RESULTS_H
#define CONFORMANCE_RESULTS_H

#include "conformance.h"

#define RESULT_SAME "no difference"
#define RESULT_DIFFERS "rules that differ: "
#define RESULT_MISSING "not exercised: "
#define RESULT_ONCE "seen, and not again: "
#define RESULT_LEFT_OUT "left out too, to go on after a difference: "
#define RESULT_UNTOLD "could not be told from those above: "
#define RESULT_UNTOLD_COUNT "differences that could not be told from others: "
#define RESULT_MAKERS "answered by its maker: "
#define RESULT_FAILED "the end under test failed"

/* Whether a line is one of these, or of the table of conformance_coverage. */
int conformance_is_result(const char *line);

#endif
