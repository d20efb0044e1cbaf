/* What becomes of a difference: it is looked for again, shrunk and reported, and its rule is passed over. */
#include "conformance_octets.h"
#include "conformance_run.h"

#include <string.h>

enum {
    TRIES = 3,      /* how often a difference is looked for again */
    MOST_ONCE = 3,  /* after this many differences in a rule that did not recur, one is tried again once */
    MOST_UNTOLD = 5 /* after this many differences that could not be told apart from others they are only counted */
};

/* ---- Once more ---- */

/* Where scripts run: NULL for this process. */
static struct fresh *fresh_of(struct run *run) { return run->is_anew ? &run->fresh : NULL; }

size_t conformance_run_again(struct run *run) {
    return conformance_fresh_compare(fresh_of(run), &run->ends, &run->script, &run->difference);
}

void conformance_join_scripts(struct run *run, const struct origin *first) {
    static const struct event restart = {EVENT_RESTART, 0, 0, NULL, 0};
    static struct script second;
    uint64_t state;
    size_t place;
    conformance_make_script(run, &run->script, first, &state);
    conformance_make_script(run, &second, &run->this_origin, &state);
    conformance_add(&run->script, &restart);
    for (place = 0; place < second.length; place++) conformance_add(&run->script, &second.events[place]);
}

/* Makes a script that shows the difference to an end that never ran before: this one, or a module's after itself, or
 * after the one of before. Returns whether there is one. */
static int begin_anew(struct run *run) {
    uint64_t state;
    conformance_make_script(run, &run->script, &run->this_origin, &state);
    run->script.length = conformance_run_again(run);
    if (run->script.length > 0 || run->ends.module == NULL) return run->script.length > 0;
    conformance_join_scripts(run, &run->this_origin);
    run->script.length = conformance_run_again(run);
    if (run->script.length > 0 || run->last_origin.state == 0) return run->script.length > 0;
    conformance_join_scripts(run, &run->last_origin);
    run->script.length = conformance_run_again(run);
    return run->script.length > 0;
}

static void make_short(struct run *run) {
    run->is_cut = !conformance_shrink(&run->ends, fresh_of(run), &run->script, &run->difference, &run->spent);
    conformance_simulate(&run->ends, fresh_of(run), &run->script);
}

/* A difference as it was seen, with its script. */
struct sight {
    struct script script;
    struct difference difference;
};

static void keep_sight(const struct run *run, struct sight *sight) {
    conformance_copy(&sight->script, &run->script);
    sight->difference = run->difference;
}

static void take_sight(struct run *run, const struct sight *sight) {
    int can_not_be_asked = run->difference.has_failed;
    conformance_copy(&run->script, &sight->script);
    run->difference = sight->difference;
    run->result->has_failed |= can_not_be_asked;
}

/* Whether a difference at this event is the one that was seen; with a clock of its own a module may differ elsewhere. */
static int is_same(const struct run *run, size_t length, const struct sight *sight) {
    if (run->ends.has_own_clock) return length > 0;
    return length == sight->script.length && run->difference.fields == sight->difference.fields;
}

/* Whether the difference recurs in this many tries. If it does not, everything is as it was. */
static int comes_again(struct run *run, int tries) {
    static struct sight sight;
    int comes = 0;
    size_t length = 0;
    keep_sight(run, &sight);
    while (tries-- > 0 && !comes && !run->difference.has_failed) {
        length = conformance_run_again(run);
        comes = is_same(run, length, &sight);
    }
    if (comes) run->script.length = length;
    if (!comes) take_sight(run, &sight);
    return comes;
}

/* How often a difference is tried again: once, if it is in a rule that differs now and then. */
static int tries_of(struct run *run) {
    enum rule rule;
    run->difference.is_whole = 1;
    rule = conformance_judge(&run->ends, &run->script, &run->difference);
    run->difference.is_whole = 0;
    return run->result->once[rule] < MOST_ONCE ? TRIES : 1;
}

/* ---- Shorter ---- */

/* What is to be said about a script, NULL if there is nothing to say. */
typedef const char *remark;

/* The end under test is code of this process: a script has to show its difference in a new one. If it does not, the run
 * goes on in new processes. */
static remark shrink_here(struct run *run) {
    static struct sight sight;
    int fails = run->difference.failure[0] != '\0';
    /* After a crash nothing more is asked of it here. */
    if (!fails) make_short(run);
    keep_sight(run, &sight);
    if (!fails &&
        conformance_fresh_compare(&run->fresh, &run->ends, &run->script, &run->difference) == run->script.length) {
        return NULL;
    }
    run->is_anew = 1;
    if (begin_anew(run)) {
        make_short(run);
        comes_again(run, TRIES);
        if (!conformance_has_event(&run->script, EVENT_RESTART)) return NULL;
        return "# Something outlasts a reset: what comes before the last restart is needed.\n";
    }
    take_sight(run, &sight);
    return "# It comes only after what ran before: a new process does not show it.\n";
}

/* Shrinks the script. A difference that does not come each time is `is_whole` then. */
static remark shrink(struct run *run) {
    if (run->fresh.is_there && !run->is_anew) return shrink_here(run);
    if (!comes_again(run, tries_of(run))) {
        run->difference.is_whole = 1;
        if (run->result->has_failed) return "# It can't be asked again: the script is as it was.\n";
        return "# Seen once: it did not come again, so that the script is as it was.\n";
    }
    make_short(run);
    if (comes_again(run, TRIES)) return NULL;
    run->difference.is_whole = 1;
    return "# It does not come each time: the script is as short as it was when it last came.\n";
}

static void hurry(const struct run *run, enum hurry hurry) {
    const struct outside *outside = run->ends.outside;
    if (outside != NULL) outside->hurry(outside->context, hurry);
}

/* ---- Reports ---- */

/* Writes a report, and keeps it if that is wanted. */
static void write_report(struct run *run, enum rule rule, remark said) {
    struct result *result = run->result;
    FILE *kept = run->options->kept;
    if (said == NULL && run->is_cut) said = "# A shorter script may show it too: shrinking stopped at its bound.\n";
    if (run->out != NULL) {
        if (result->reports > 0) fputs("\n", run->out);
        conformance_report(&run->ends, &run->script, &run->difference, said, run->out);
        fflush(run->out);
    }
    result->reports++;
    if (kept == NULL) return;
    result->begins[rule] = ftell(kept);
    conformance_report(&run->ends, &run->script, &run->difference, said, kept);
    result->ends[rule] = ftell(kept);
}

static void count(struct result *result, enum rule rule, size_t length) {
    if (result->shortest[rule] == 0) {
        result->differences++;
        result->found[rule] = result->events;
    }
    result->shortest[rule] = length;
}

/* ---- The rule ---- */

int conformance_pass_over(struct ends *ends, enum rule rule) {
    if (conformance_has(&ends->left_out, rule)) return 0;
    if (CONFORMANCE_RULE_ROWS[rule].fields != 0 && !conformance_has(&ends->masked, rule)) {
        conformance_put(&ends->masked, rule);
    } else {
        conformance_put(&ends->left_out, rule);
    }
    return 1;
}

/* Whether the script shows nothing if the events of a rule are left out too. */
static int is_told_by(struct run *run, enum rule rule) {
    static struct difference ignored;
    struct ends ends = run->ends;
    conformance_put(&ends.left_out, rule);
    return conformance_fresh_compare(fresh_of(run), &ends, &run->script, &ignored) == 0 && !ignored.has_failed;
}

/* Rules without whose events there is hardly anything left to compare. */
static void put_needed(struct rule_set *rules) {
    static const enum rule needed[] = {RULE_FIRST_POLL,  RULE_NEW_BLOCK,   RULE_BLOCK_STAMP, RULE_BLOCK_NUMBER,
                                       RULE_ANSWER_TYPE, RULE_COUNTER_STEP, RULE_COUNTER_AT_START, RULE_ITEMS_APPLY,
                                       RULE_ITEM_SETS,   RULE_POLL_NUMBER, RULE_NUMBER_RISES, RULE_TAKEN_WHOLE};
    size_t row;
    for (row = 0; row < sizeof needed / sizeof needed[0]; row++) conformance_put(rules, needed[row]);
}

/* Of the rules without whose events the script shows nothing, the one that the fewest events of the run exercised;
 * RULES if there is none. */
static enum rule other_rule(struct run *run) {
    struct rule_set exercised, tried = run->ends.left_out;
    enum rule rarest;
    int rule;
    put_needed(&tried);
    conformance_exercised(&run->ends, &run->script, &exercised);
    do {
        rarest = RULES;
        for (rule = 0; rule < RULES; rule++) {
            if (!conformance_has(&exercised, (enum rule)rule) || conformance_has(&tried, (enum rule)rule)) continue;
            if (rarest == RULES || run->result->exercised[rule] < run->result->exercised[rarest]) rarest = (enum rule)rule;
        }
        if (rarest != RULES) conformance_put(&tried, rarest);
    } while (rarest != RULES && !is_told_by(run, rarest));
    return rarest;
}

/* A rule is passed over already, and a difference is in it again: it is reported once more. The run goes on without another
 * rule that the script needs; if there is none, as it is. */
static void tell_apart(struct run *run, enum rule rule) {
    enum rule other = other_rule(run);
    if (!conformance_has(&run->again, rule)) {
        write_report(run, rule, "# This rule is passed over already: it may be the same fault as above, or another one.\n");
    }
    conformance_put(&run->again, rule);
    if (other != RULES) {
        conformance_put(&run->ends.left_out, other);
        conformance_put(&run->result->also_left_out, other);
    } else {
        run->untold_fields |= run->difference.fields;
        conformance_put(&run->result->untold, rule);
        run->result->untold_count++;
    }
}

/* A difference that did not come again is reported once; its rule is not passed over. */
static void report_once(struct run *run, enum rule rule, remark said) {
    struct result *result = run->result;
    if (result->shortest[rule] == 0) {
        count(result, rule, run->script.length);
        write_report(run, rule, said);
    }
    result->once[rule]++;
}

void conformance_settle(struct run *run) {
    struct result *result = run->result;
    int fails = run->difference.failure[0] != '\0';
    remark said;
    enum rule rule;
    if (result->untold_count >= MOST_UNTOLD && (run->difference.fields & ~run->untold_fields) == 0) {
        result->untold_count++;
        return;
    }
    run->is_cut = 0;
    hurry(run, TRIAL);
    said = shrink(run);
    hurry(run, NO_TRIAL);
    rule = conformance_judge(&run->ends, &run->script, &run->difference);
    if (run->difference.is_whole) {
        report_once(run, rule, said);
        return;
    }
    if (!conformance_has(&result->reported, rule)) {
        conformance_put(&result->reported, rule);
        count(result, rule, run->script.length);
        write_report(run, rule, said);
    }
    if (fails && !conformance_has(&run->ends.left_out, rule)) {
        conformance_put(&run->ends.left_out, rule);
    } else if (!conformance_pass_over(&run->ends, rule)) {
        tell_apart(run, rule);
    }
}
