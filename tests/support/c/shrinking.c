/* How long the tester shrinks a script, after the time that it took for those before; and what it says of that once, on standard
 * error. */
#include "checks.h"
#include "conformance_clock.h"
#include "conformance_trial.h"

#include <string.h>

static struct spent spent;
static struct shrinking shrinking;

/* How long a script may be shrunk after so much time for others. */
static int64_t bound(int fails, int64_t before) {
    static struct ends ends;
    static struct script script;
    static struct difference difference;
    memset(&spent, 0, sizeof spent);
    spent.ms[fails] = before;
    strcpy(difference.failure, fails ? "it ended" : "");
    conformance_begin_trials(&shrinking, &ends, NULL, &script, &difference, &spent);
    return shrinking.until_ms - shrinking.began_ms;
}

/* Lets the script of the last bound take so long. */
static void take(int64_t ms) {
    shrinking.began_ms -= ms;
    conformance_end_trials(&shrinking);
}

int main(void) {
    CHECK(bound(0, 0) == 120000);
    take(120000);
    CHECK(spent.ms[0] >= 120000 && spent.ms[1] == 0);
    CHECK(bound(0, 180000) == 120000);
    CHECK(bound(0, 200000) == 100000);
    take(100000);                   /* said */
    CHECK(bound(0, 296000) == 5000);
    CHECK(bound(0, 400000) == 5000);
    take(5000);                     /* not again */
    CHECK(bound(1, 0) == 15000);
    CHECK(bound(1, 5000) == 15000);
    CHECK(bound(1, 12000) == 8000);
    take(8000);                     /* said */
    CHECK(bound(1, 19800) == 500);
    CHECK(bound(1, 60000) == 500);
    return end_of_checks();
}
