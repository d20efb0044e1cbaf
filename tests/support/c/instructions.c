/* Runs the translated functions of tests/portable-instructions.py one after another in one machine, with one memory, as an
 * interpreter does, and writes the result of each, or `trap`. */
#include <setjmp.h>
#include <stdint.h>
#include <stdio.h>
#include <stdlib.h>
#include <string.h>

static jmp_buf trapped;
#ifndef OWN_TRAP
#define FIO2070_TRAP() longjmp(trapped, 1)
#endif

/* Where the memory that is written ends, and the numbers begin. */
enum { DATA = 1024, ALL = 4096, WINDOWS = 2 };

struct window {
    uint8_t *octets;
    uint32_t first, length, writable;
};

#define MACHINE_FIELDS \
    uint32_t count;    \
    struct window windows[WINDOWS];

/* As a compiler that has no operations of its own. */
#ifdef PLAIN
#undef __GNUC__
#endif
#include "translated.c"

/* The memory of all functions, in which each finds the numbers that it may read. There is a second object beyond the last. */
static uint8_t memory[ALL];

static void begin(struct machine *m, const uint8_t *table) {
    m->windows[0].length = DATA;
    if (table != NO_TABLE) {
        uint32_t first = load32(table), length = load32(table + 4);
        memcpy(memory + first, table + 8, length);
        m->windows[0].length = first + length;
    }
    m->g0 = DATA;
}

#define CASE(name)                                                                                           \
    begin(&machine, TABLE_##name);                                                                           \
    if (setjmp(trapped)) printf(#name " trap\n");                                                            \
    else printf(#name " %llu\n", (unsigned long long)call_##name(&machine));

int main(void) {
    static struct machine machine;
    machine_globals(&machine);
    machine.windows[0].octets = machine.windows[1].octets = memory;
    machine.windows[0].writable = DATA;
    machine.windows[1].length = machine.windows[1].writable = ALL;
#include "cases.c"
    return 0;
}
