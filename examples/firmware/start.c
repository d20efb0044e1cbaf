/* What the core does first: the vectors, and the memory as C expects it. */
#include "firmware.h"

#include <string.h>

extern uint32_t stack_top[], bss_start[], bss_end[], data_from[], data_start[], data_end[];
int main(void);
void reset(void);

enum { PAINT = 0x5a5a5a5a, MARGIN = 16 };

uint32_t stack_used(void) {
    const uint32_t *word = bss_end;
    while (*word == PAINT) word++;
    return (uint32_t)(stack_top - word) * 4;
}

void reset(void) {
    uint32_t *word, *here = __builtin_frame_address(0);
    memcpy(data_start, data_from, (uintptr_t)data_end - (uintptr_t)data_start);
    memset(bss_start, 0, (uintptr_t)bss_end - (uintptr_t)bss_start);
    for (word = bss_end; word < here - MARGIN; word++) *word = PAINT;
    main();
}

/* A fault of the core. A product's watchdog ends this; here a debugger finds it. */
static void stop(void) {
    for (;;) {}
}

/* Below the first stack pointer, which the linker puts there: exceptions 1 to 15, and interrupts from 0 on. */
__attribute__((section(".vectors"), used)) static void (*const vectors[15 + 4])(void) = {
    reset, stop, stop, stop, stop, stop, 0, 0, 0, 0, stop, stop, 0, stop, each_tick,
    link_interrupt, stop, tester_interrupt, stop,
};
