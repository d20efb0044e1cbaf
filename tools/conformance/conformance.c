/* Runs random scripts on both ends, and goes on after a difference without what exercises its rule. */
#include "conformance_edges.h"
#include "conformance_run.h"

#include <string.h>

/* The first EARLY scripts of a run have at most SHORT random events, so that all edges come early. */
enum { EARLY = 32, SHORT = 1200 };

enum { NO_EDGE = 10000 };

/* After so many scans a module with a clock of its own has sampled a level. */
enum { ORDER_SCANS = 30 };

/* In turn two scripts of edges and a random one, until there was each edge and, if there is room for them, each long
 * script; later every 16th is an edge. A mix of the maker's own has random scripts alone. Returns the number of the edge or
 * of the long script, which has one above those; NO_EDGE for none. */
static unsigned edge_of(unsigned turn, unsigned count, unsigned longs, int is_usual, uint64_t *state) {
    unsigned edge = turn - turn / 3;
    if (!is_usual) return NO_EDGE;
    if (edge < count + longs) return turn % 3 == 2 ? (unsigned)NO_EDGE : edge;
    return turn % 16 == 0 ? conformance_below(state, count) : (unsigned)NO_EDGE;
}

void conformance_make_script(const struct run *run, struct script *filled, const struct origin *origin, uint64_t *state) {
    const struct options *options = run->options;
    const struct maker *module = run->ends.module;
    size_t most = origin->turn < EARLY && origin->most > SHORT ? (size_t)SHORT : origin->most;
    int has_long = options->events >= CONFORMANCE_LONG_EVENTS;
    unsigned edge, longs = !has_long ? 0 : module != NULL ? CONFORMANCE_LONG : CONFORMANCE_CPU_LONG;
    *state = origin->state;
    filled->length = 0;
    edge = module != NULL ? edge_of(origin->turn, CONFORMANCE_EDGES, longs, options->mix == &CONFORMANCE_MIX, state)
                          : edge_of(origin->turn, CONFORMANCE_CPU_EDGES, longs, options->cpu_mix == &CONFORMANCE_CPU_MIX, state);
    if (module != NULL && edge != NO_EDGE) {
        conformance_edge(filled, module, edge, origin->most, state);
    } else if (module != NULL) {
        conformance_random(filled, module, options->mix, most, state);
    } else if (edge != NO_EDGE) {
        conformance_cpu_edge(filled, edge, origin->most, state);
    } else {
        conformance_cpu_random(filled, options->cpu_mix, most, state);
    }
}

static void next_script(struct run *run) {
    unsigned long left = run->options->events - run->result->events;
    run->last_origin = run->this_origin;
    run->this_origin.state = run->state;
    run->this_origin.turn = run->turn++;
    run->this_origin.most = left < CONFORMANCE_LONGEST ? left : (size_t)CONFORMANCE_LONGEST;
    conformance_clear(&run->script);
    conformance_make_script(run, &run->script, &run->this_origin, &run->state);
}

/* Runs the script, and counts what it exercises. Returns the event that shows a difference, 0 if none does. */
static size_t run_script(struct run *run) {
    static struct difference ignored;
    struct ends none;
    size_t length;
    if (!run->is_anew) return conformance_count(&run->ends, &run->script, &run->difference, run->result->exercised);
    memset(&none, 0, sizeof none);
    length = conformance_run_again(run);
    if (length > 0) run->script.length = length;
    if (run->ends.module != NULL) conformance_count(&none, &run->script, &ignored, run->result->exercised);
    return length;
}

/* The end under test failed when it was reset after the script before, and can be asked again: looks for that failure
 * with a restart between both scripts. */
static size_t find_reset(struct run *run) {
    if (run->last_origin.state == 0 || run->ends.module == NULL) {
        run->difference.has_failed = 1;
        return 0;
    }
    if (run->fresh.is_there) run->is_anew = 1;
    conformance_join_scripts(run, &run->last_origin);
    return conformance_run_again(run);
}

/* Runs the script, and reports a difference. Returns whether the run goes on. */
static int try_script(struct run *run) {
    struct result *result = run->result;
    size_t length = run_script(run);
    result->events += length > 0 ? length : run->script.length;
    if (run->difference.is_reset_failed && length == 0) length = find_reset(run);
    if (length == 0) {
        result->has_failed = run->difference.has_failed;
        return !result->has_failed;
    }
    if (run->difference.has_failed) {
        result->has_failed = 1;
        return 0;
    }
    run->script.length = length;
    conformance_settle(run);
    return !run->options->stops && !result->has_failed;
}

/* ---- Runs ---- */

static void begin(struct run *run, const struct ends *ends, const struct options *given, struct options *options) {
    int rule;
    *options = *given;
    if (options->events == 0) options->events = 1000000;
    if (options->mix == NULL) options->mix = &CONFORMANCE_MIX;
    if (options->cpu_mix == NULL) options->cpu_mix = &CONFORMANCE_CPU_MIX;
    run->ends = *ends;
    run->options = options;
    run->state = (options->seed == 0 ? 1 : options->seed) * 2 + 1;
    for (rule = 0; rule < RULES; rule++) {
        if (conformance_has(&options->excepted, (enum rule)rule)) conformance_pass_over(&run->ends, (enum rule)rule);
    }
}

/* Sets input 0 alone, and asks for the raw inputs: says if the octets of a wire's inputs seem to come in reverse order. */
static void try_order(struct run *run) {
    static const uint8_t command[] = {FIO2070_TYPE_RAW_INPUTS}, reversed[] = {0, 0, 0, 0, 0, 0, 0, 1};
    struct event scan = conformance_event(EVENT_SCAN, NULL, 0), frame = conformance_event(EVENT_FRAME, command, sizeof command);
    const struct difference *difference = &run->difference;
    unsigned scans;
    run->script.id = run->ends.module->id;
    run->script.per_block = run->ends.module->per_block;
    scan.inputs = 1;
    for (scans = 0; scans < ORDER_SCANS; scans++) conformance_add(&run->script, &scan);
    conformance_add(&run->script, &frame);
    if (conformance_compare(&run->ends, &run->script, &run->difference) == run->script.length && difference->got_length > 8 &&
        memcmp(difference->got + 1, reversed, sizeof reversed) == 0) {
        fputs("# the inputs seem to be in reverse order of octets: the first one has inputs 0 to 7\n", run->out);
    }
}

void conformance_test(const struct ends *ends, const struct options *given, struct result *result, FILE *out) {
    static struct run run;
    struct options options;
    struct script room = run.script;
    memset(&run, 0, sizeof run);
    memset(result, 0, sizeof *result);
    run.script.events = room.events;
    run.script.room = room.room;
    begin(&run, ends, given, &options);
    run.result = result;
    run.out = out;
    if (!options.is_outside) conformance_fresh_begin(&run.fresh, ends);
    if (ends->outside != NULL && ends->module != NULL) try_order(&run);
    do {
        next_script(&run);
    } while (try_script(&run) && result->events < options.events);
    conformance_fresh_end(&run.fresh);
}

/* Up to the first difference. */
static size_t run_once(const struct maker *module, const struct mix *mix, const struct cpu_maker *cpu,
                       const struct cpu_mix *cpu_mix, uint64_t seed, unsigned long events, FILE *out) {
    static struct result result;
    struct ends ends;
    struct options options;
    int rule;
    memset(&ends, 0, sizeof ends);
    memset(&options, 0, sizeof options);
    ends.module = module;
    ends.cpu = cpu;
    options.mix = mix;
    options.cpu_mix = cpu_mix;
    options.seed = seed;
    options.events = events;
    options.stops = 1;
    conformance_test(&ends, &options, &result, out);
    if (result.has_failed) return CONFORMANCE_FAILED;
    for (rule = 0; rule < RULES; rule++) {
        if (result.shortest[rule] > 0) return result.shortest[rule];
    }
    return 0;
}

size_t conformance_run(const struct maker *maker, const struct mix *mix, uint64_t seed, unsigned long events,
                       FILE *out) {
    return run_once(maker, mix, NULL, NULL, seed, events, out);
}

size_t conformance_cpu_run(const struct cpu_maker *maker, const struct cpu_mix *mix, uint64_t seed,
                           unsigned long events, FILE *out) {
    return run_once(NULL, NULL, maker, mix, seed, events, out);
}
