/* Calls that may crash or hang. A handler of the signals that end a process, and of a timer, leaves the call by a jump. */
#define _POSIX_C_SOURCE 200809L
#ifndef _DEFAULT_SOURCE
#define _DEFAULT_SOURCE /* for setitimer */
#endif
#include "conformance_guard.h"

#include <setjmp.h>
#include <signal.h>
#include <stdio.h>
#include <string.h>
#include <sys/time.h>

/* Of these a timer's is the last. */
static const int SIGNALS[] = {SIGSEGV, SIGBUS, SIGFPE, SIGILL, SIGABRT, SIGALRM};
enum { COUNT = sizeof SIGNALS / sizeof SIGNALS[0], STACK = 1 << 16 };

static sigjmp_buf place;
static volatile sig_atomic_t beats, last_beats;

void conformance_guard_goes_on(void) { beats = (beats + 1) & 0xffffff; }

static void leave(int number) {
    if (number == SIGALRM && beats != last_beats) {
        last_beats = beats;
        return;
    }
    siglongjmp(place, number);
}

static void set_timer(int ms) {
    struct itimerval timer;
    timer.it_interval.tv_sec = timer.it_value.tv_sec = ms / 1000;
    timer.it_interval.tv_usec = timer.it_value.tv_usec = ms % 1000 * 1000;
    setitimer(ITIMER_REAL, &timer, NULL);
}

/* The handlers have a stack of their own, since the call may have used up the other. */
static void catch_signals(struct sigaction before[COUNT]) {
    static char octets[STACK];
    struct sigaction caught;
    stack_t stack;
    int row;
    memset(&stack, 0, sizeof stack);
    stack.ss_sp = octets;
    stack.ss_size = sizeof octets;
    sigaltstack(&stack, NULL);
    memset(&caught, 0, sizeof caught);
    caught.sa_handler = leave;
    caught.sa_flags = SA_ONSTACK | SA_RESTART;
    sigemptyset(&caught.sa_mask);
    for (row = 0; row < COUNT; row++) sigaction(SIGNALS[row], &caught, &before[row]);
}

int conformance_guard(void (*act)(void *given), void *given, int deadline_ms, char *failure, size_t room) {
    static struct sigaction before[COUNT];
    int number, row;
    catch_signals(before);
    last_beats = beats - 1;
    number = sigsetjmp(place, 1);
    if (number == 0) {
        set_timer(deadline_ms);
        act(given);
    }
    set_timer(0);
    for (row = 0; row < COUNT; row++) sigaction(SIGNALS[row], &before[row], NULL);
    if (number == SIGALRM) {
        snprintf(failure, room, "it did not return in time");
    } else if (number != 0) {
        snprintf(failure, room, "it ended by signal %d (%s)", number, strsignal(number));
    }
    return number == 0;
}
