/* Runs a program a number of times, with standard input from a file and standard output to nowhere, and writes a line for
 * each run: its time from start to end in nanoseconds, and the most memory that it held, in KiB.
 *
 *     run INPUT TIMES PROGRAM [WORD]..
 */
#define _GNU_SOURCE
#include <fcntl.h>
#include <stdio.h>
#include <stdlib.h>
#include <sys/resource.h>
#include <sys/wait.h>
#include <time.h>
#include <unistd.h>

static long long nanoseconds(void)
{
    struct timespec now;
    clock_gettime(CLOCK_MONOTONIC, &now);
    return now.tv_sec * 1000000000LL + now.tv_nsec;
}

static void become(const char *input, char **words)
{
    int from = open(input, O_RDONLY);
    int to = open("/dev/null", O_WRONLY);
    if (from < 0 || to < 0 || dup2(from, 0) < 0 || dup2(to, 1) < 0)
        _exit(126);
    execv(words[0], words);
    _exit(127);
}

int main(int count, char **words)
{
    if (count < 4) {
        fprintf(stderr, "usage: run INPUT TIMES PROGRAM [WORD]..\n");
        return 2;
    }
    for (int left = atoi(words[2]); left > 0; left--) {
        int status;
        struct rusage usage;
        long long start = nanoseconds();
        pid_t child = vfork();
        if (child == 0)
            become(words[1], words + 3);
        if (child < 0 || wait4(child, &status, 0, &usage) != child)
            return 1;
        if (!WIFEXITED(status) || WEXITSTATUS(status) > 1)
            return 1;
        printf("%lld %ld\n", nanoseconds() - start, usage.ru_maxrss);
    }
    return 0;
}
