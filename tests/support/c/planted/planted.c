/* Looks for the planted faults of both ends, each alone, with the same seed.
 *
 *     planted                      each fault: its events, the events of its script, its rule and its name; status 1
 *                                  if one was not found in time
 *     planted found EVENTS SEED    the same within EVENTS events, by another seed, with scripts that are hardly shrunk
 *     planted module NAMES WORD..  the words of a tester, of the module with the faults of these names, with `; ` between
 *                                  them; `none` is the right one
 *     planted cpu NAMES WORD..     of the CPU's end
 *     planted wire NAMES [clock]   the module answers the lines of fio2070-test
 *     planted wire-cpu NAMES       the CPU's end does
 */
#include "quirks.h"

#include <stdlib.h>
#include <string.h>

/* A twentieth of the trials that a tester shrinks a script by is enough for most. */
enum { MOST_NAMES = 8, MOST_TRIED = 1000000 };

/* The number of events of a run over a wire, and of the shortest one that has the long scripts. */
enum { EVENTS = 20000, LATE_EVENTS = 200000 };

static enum rule found_rule(const struct result *result) {
    int rule;
    for (rule = 0; rule < RULES && result->shortest[rule] == 0; rule++) continue;
    return (enum rule)rule;
}

/* Looks for a fault. Returns whether it was found in time. */
static int look(const struct ends *ends, const struct fault *fault, int is_late, const struct options *given) {
    static struct result result;
    struct options options = *given;
    enum rule rule;
    if (is_late && options.events < LATE_EVENTS) options.events = LATE_EVENTS;
    conformance_test(ends, &options, &result, NULL);
    rule = found_rule(&result);
    printf("%-6s %7lu %5lu  %-18s %s\n", ends->module != NULL ? "module" : "cpu", result.events, rule == RULES ? 0 : (unsigned long)result.shortest[rule],
           rule == RULES ? "none" : CONFORMANCE_RULE_ROWS[rule].name, fault->name);
    fflush(stdout);
    return rule != RULES;
}

/* The lists of faults of each end. */
static const struct fault_list *const LISTS[] = {&MODULE_FAULTS, &MODULE_LINK_FAULTS, &MODULE_LATE_FAULTS, &CPU_FAULTS,
                                                 &CPU_LATE_FAULTS};
enum { MODULE_LISTS = 3, ALL_LISTS = 5 };

static int look_for_all(const struct options *options, unsigned long most_tried) {
    struct ends ends;
    size_t list, place;
    int missed = 0;
    memset(&ends, 0, sizeof ends);
    ends.most_tried = most_tried;
    ends.guard_ms = 500;
    for (list = 0; list < ALL_LISTS; list++) {
        for (place = 0; place < LISTS[list]->count; place++) {
            const struct fault *fault = &LISTS[list]->faults[place];
            ends.module = list < MODULE_LISTS ? module_with(&fault, 1) : NULL;
            ends.cpu = list < MODULE_LISTS ? NULL : cpu_with(&fault, 1);
            missed += !look(&ends, fault, LISTS[list]->is_late, options);
        }
    }
    return missed > 0;
}

static const struct fault *fault_named(const char *name, int is_module) {
    size_t list = is_module ? 0 : MODULE_LISTS, end = is_module ? MODULE_LISTS : ALL_LISTS, place;
    for (; list < end; list++) {
        for (place = 0; place < LISTS[list]->count; place++) {
            if (strcmp(LISTS[list]->faults[place].name, name) == 0) return &LISTS[list]->faults[place];
        }
    }
    fprintf(stderr, "no fault has the name %s\n", name);
    exit(2);
}

/* The faults of these names, of a module or of a CPU's end. Returns how many there are. */
static size_t faults_named(char *names, int is_module, const struct fault **found) {
    size_t named = 0;
    while (names != NULL && strcmp(names, "none") != 0 && named < MOST_NAMES) {
        char *end = strstr(names, "; ");
        if (end != NULL) *end = '\0';
        found[named++] = fault_named(names, is_module);
        names = end == NULL ? NULL : end + 2;
    }
    return named;
}

int main(int count, char **words) {
    const struct fault *found[MOST_NAMES];
    struct options options;
    size_t named;
    int is_module, is_wire;
    memset(&options, 0, sizeof options);
    options.stops = 1;
    options.events = EVENTS;
    if (count < 3) return look_for_all(&options, MOST_TRIED);
    if (strcmp(words[1], "found") == 0) {
        options.events = strtoul(words[2], NULL, 10);
        options.seed = count > 3 ? strtoul(words[3], NULL, 10) : 1;
        return look_for_all(&options, 1);
    }
    is_wire = strncmp(words[1], "wire", 4) == 0;
    is_module = strstr(words[1], "cpu") == NULL;
    named = faults_named(words[2], is_module, found);
    if (is_wire && is_module) serve(module_with(found, named), count > 3);
    if (is_wire && !is_module) serve_cpu(cpu_with(found, named));
    if (is_wire) return 0;
    return is_module ? conformance_main(module_with(found, named), count - 2, words + 2)
                     : conformance_cpu_main(cpu_with(found, named), count - 2, words + 2);
}
