/* A module and a CPU's end, written from docs/PROTOCOL.md and not from the library. Each number that a rule has is a quirk:
 * with another value the end has a fault. */
#ifndef QUIRKS_H
#define QUIRKS_H

#include "conformance.h"

/* A quirk of an end with a value. */
struct quirk {
    int place, value;
};

/* A fault: one quirk has another value than the right one. */
struct fault {
    const char *name;
    int quirk, value;
};

/* Faults of an end. */
struct fault_list {
    const struct fault *faults;
    size_t count;
    int is_late; /* they come late, or at one size alone: only a run with room for the long scripts finds them */
};
extern const struct fault_list MODULE_FAULTS, MODULE_LINK_FAULTS, MODULE_LATE_FAULTS, CPU_FAULTS, CPU_LATE_FAULTS;

/* The ends with these faults. */
const struct maker *module_with(const struct fault *const *faults, size_t count);
const struct cpu_maker *cpu_with(const struct fault *const *faults, size_t count);

/* Sets the quirks of an end to what is right, 0 for those that are not listed, and then those of faults. */
void set_quirks(int *quirks, size_t size, const struct quirk *right, size_t rights, const struct fault *const *faults,
                size_t count);

uint32_t low_bits(uint32_t number, int bits);

/* The process ends as after a fault of memory, or goes on for ever. */
void crash(void);
void hang(void);

/* Answers the lines of fio2070-test. */
void serve(const struct maker *maker, int has_clock);
void serve_cpu(const struct cpu_maker *maker);

#endif
