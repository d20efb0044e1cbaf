/* Trials of scripts that are shorter than one that shows a difference. */
#include "conformance_trial.h"

#include "conformance_clock.h"

#include <string.h>

enum {
    MOST_TRIED = 20000000, /* after this many events of trials a script is short enough */
    MOST_MS = 120000,      /* and after this time */
    FAILING_MS = 15000,    /* or this one, if each trial that fails takes time */
    ALL_MS = 300000,       /* after this time for all scripts of a run */
    LATE_MS = 5000,        /* each of the others has this time */
    ALL_FAILING_MS = 20000,
    LATE_FAILING_MS = 500,
    SAYING_MS = 5000,      /* how often it is said that trials go on */
    HURRIED_MS = 100,      /* a trial that goes on for so long without a return is one that hangs */
    MOST_MISSED = 20       /* after this many trials that show nothing the script is tried again */
};

struct script conformance_trial;

/* How long a script may be shrunk, after as much time for those before. */
static int64_t most_ms(int fails, int64_t spent_ms) {
    int64_t each = fails ? FAILING_MS : MOST_MS, left = (fails ? ALL_FAILING_MS : ALL_MS) - spent_ms;
    int64_t late = fails ? LATE_FAILING_MS : LATE_MS;
    if (left > each) return each;
    return left > late ? left : late;
}

void conformance_begin_trials(struct shrinking *shrinking, const struct ends *ends, struct fresh *fresh,
                              struct script *script, struct difference *difference, struct spent *spent) {
    memset(shrinking, 0, sizeof *shrinking);
    shrinking->spent = spent;
    shrinking->ends = *ends;
    shrinking->fresh = fresh;
    shrinking->script = script;
    shrinking->difference = difference;
    shrinking->most = ends->most_tried > 0 ? ends->most_tried : (unsigned long)MOST_TRIED;
    shrinking->fails = difference->failure[0] != '\0';
    shrinking->began_ms = shrinking->said_ms = conformance_now_ms();
    shrinking->until_ms = shrinking->began_ms + most_ms(shrinking->fails, spent->ms[shrinking->fails]);
    if (!shrinking->fails) return;
    if (ends->guard_ms > HURRIED_MS) shrinking->ends.guard_ms = HURRIED_MS;
    if (ends->outside != NULL) ends->outside->hurry(ends->outside->context, HURRIED_TRIAL);
}

/* Adds the time of this script to that of those before, and says once if the others have less. */
static void count_time(struct shrinking *shrinking) {
    int fails = shrinking->fails;
    int64_t *spent = &shrinking->spent->ms[fails], all = fails ? ALL_FAILING_MS : ALL_MS, before = *spent;
    *spent += conformance_now_ms() - shrinking->began_ms;
    if (before >= all || *spent < all) return;
    fprintf(stderr, "# Shrinking has taken %ld s in this run: from here on at most %ld ms for each script%s.\n",
            (long)(*spent / 1000), (long)(fails ? LATE_FAILING_MS : LATE_MS), fails ? " at which the end fails" : "");
}

void conformance_end_trials(struct shrinking *shrinking) {
    const struct outside *outside = shrinking->ends.outside;
    count_time(shrinking);
    if (shrinking->fails && outside != NULL) outside->hurry(outside->context, TRIAL);
}

void conformance_begin_trial(const struct shrinking *shrinking) { conformance_copy(&conformance_trial, shrinking->script); }

int conformance_is_over(const struct shrinking *shrinking) {
    return shrinking->tried > shrinking->most || conformance_now_ms() > shrinking->until_ms;
}

/* Says now and then how far it is. */
static void say_progress(struct shrinking *shrinking) {
    int64_t now = conformance_now_ms();
    if (now < shrinking->said_ms + SAYING_MS) return;
    shrinking->said_ms = now;
    fprintf(stderr, "# Shrinking goes on: %lu events so far, after %ld s of at most %ld.\n",
            (unsigned long)shrinking->script->length, (long)((now - shrinking->began_ms) / 1000),
            (long)((shrinking->until_ms - shrinking->began_ms) / 1000));
}

/* Runs a script. Returns its event with a difference of the same kind, 0 if there is none. */
static size_t try_script(struct shrinking *shrinking, const struct script *script, struct difference *difference) {
    size_t length = conformance_fresh_compare(shrinking->fresh, &shrinking->ends, script, difference);
    shrinking->tried += length > 0 ? length : script->length;
    if (difference->has_failed) shrinking->tried += shrinking->most;
    if (difference->has_failed || (difference->failure[0] != '\0') != shrinking->fails) return 0;
    return length;
}

/* A trial showed nothing. After many of these the script itself is tried again; if it shows nothing any more, that is the
 * end of it: its difference does not occur each time. */
static int miss(struct shrinking *shrinking, struct difference *ignored) {
    if (shrinking->ends.outside == NULL || ++shrinking->missed % MOST_MISSED != 0) return 0;
    if (try_script(shrinking, shrinking->script, ignored) == 0) shrinking->tried += shrinking->most;
    return 0;
}

int conformance_take_trial(struct shrinking *shrinking) {
    static struct difference difference;
    size_t length;
    if (conformance_is_over(shrinking)) return 0;
    say_progress(shrinking);
    length = try_script(shrinking, &conformance_trial, &difference);
    if (length == 0) return miss(shrinking, &difference);
    shrinking->missed = 0;
    conformance_trial.length = length;
    conformance_copy(shrinking->script, &conformance_trial);
    *shrinking->difference = difference;
    return 1;
}
