/* The tester in the shared library, for languages that load one: its calls by names that begin as those of the library do,
 * which are the only ones that it exports. Makers that link C link the tester's files. */
#include "conformance.h"

void fio2070_tester_test(const struct ends *ends, const struct options *options, struct result *result, FILE *out);
enum rule fio2070_tester_rule_named(const char *name);
int fio2070_tester_is_own(enum rule rule);

void fio2070_tester_test(const struct ends *ends, const struct options *options, struct result *result, FILE *out) {
    conformance_test(ends, options, result, out);
}

enum rule fio2070_tester_rule_named(const char *name) { return conformance_rule_named(name); }

int fio2070_tester_is_own(enum rule rule) { return conformance_is_own(rule); }
