/* Sits between a program and libc, and refuses one growth of memory: the one with the number
   REFUSED_GROWTH, from 1. It then writes `refused N` to standard error, N being the octets that were requested. */

#include <errno.h>
#include <stdlib.h>
#include <unistd.h>

extern void *__libc_malloc(size_t size);
extern void *__libc_calloc(size_t count, size_t size);
extern void *__libc_realloc(void *old, size_t size);

/* Writes the line with a number, without a growth of memory. */
static int say_refused(size_t octets)
{
    char line[] = "refused 00000000000000000000\n";
    size_t place = sizeof line - 2;

    while (octets > 0) {
        line[--place] = '0' + octets % 10;
        octets /= 10;
    }
    return write(2, line, sizeof line - 1) == sizeof line - 1;
}

static int is_refused(size_t octets)
{
    static unsigned long growths;
    const char *number = getenv("REFUSED_GROWTH");

    growths++;
    if (number == NULL || growths != strtoul(number, NULL, 10)) {
        return 0;
    }
    errno = ENOMEM;
    return say_refused(octets);
}

void *malloc(size_t size)
{
    return is_refused(size) ? NULL : __libc_malloc(size);
}

void *calloc(size_t count, size_t size)
{
    return is_refused(count * size) ? NULL : __libc_calloc(count, size);
}

void *realloc(void *old, size_t size)
{
    return is_refused(size) ? NULL : __libc_realloc(old, size);
}
