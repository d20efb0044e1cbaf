/* What a test in C counts: its checks, and how many of them passed. */
#include <stdio.h>

static int passed, failed;

/* Counts a check. What failed is printed, with its position: a line, a row or a call. */
static void check(int holds, const char *what, unsigned place) {
    if (holds) {
        passed++;
    } else {
        failed++;
        printf("%s, at %u\n", what, place);
    }
}

#define CHECK(condition) check((condition) != 0, #condition, __LINE__)

/* Prints the last line, and returns the status of the test. */
static int end_of_checks(void) {
    printf("%d passed, %d failed\n", passed, failed);
    return failed != 0;
}
