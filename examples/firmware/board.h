/* All that another board changes: the registers of ARM's MPS2 with the image AN386 (a Cortex-M4), as qemu-system-arm has it.
 * The memories are in link.ld, the vectors in start.c. */
#ifndef BOARD_H
#define BOARD_H

#include <stdint.h>

#define REGISTER(address) (*(volatile uint32_t *)(address))

enum { CLOCK_HZ = 25000000 };

/* The core: SysTick, the interrupt controller's enables, and priorities, of which a higher number is less urgent. */
#define SYSTICK_CONTROL REGISTER(0xe000e010) /* 7: it counts, interrupts, and goes by the core's clock */
#define SYSTICK_RELOAD REGISTER(0xe000e014)
#define SYSTICK_VALUE REGISTER(0xe000e018)
#define INTERRUPT_ENABLE REGISTER(0xe000e100)
#define INTERRUPT_PRIORITIES REGISTER(0xe000e400) /* an octet for each of the interrupts 0 to 3 */
#define SYSTICK_PRIORITY REGISTER(0xe000ed20)     /* the highest octet */
enum { OCTETS_PRIORITY = 0x40, SCANS_PRIORITY = 0x80 };

/* Two lamps, and a counter that goes up by one in each PRESCALE + 1 clocks. */
#define LAMPS REGISTER(0x40028000)
/* Four relays: the lowest bits of a register that holds what is written, since this board has none. */
#define RELAYS REGISTER(0x4002804c)
#define MICROSECONDS REGISTER(0x40028018)
#define PRESCALE REGISTER(0x4002801c)

/* Two UARTs of ARM's CMSDK. The interrupt of the first is 0, that of the second 2. */
#define UART_LINK 0x40004000u
#define UART_TESTER 0x40005000u
enum { INTERRUPT_LINK = 1 << 0, INTERRUPT_TESTER = 1 << 2 };

/* From hold_scans() to let_scans() no scan begins. The UARTs' interrupts are more urgent and go on: a UART without a FIFO
 * loses an octet if the next one comes first. So it is BASEPRI, and not PRIMASK, which holds all interrupts. */
static inline void hold_scans(void) { __asm volatile("msr basepri, %0\n isb" : : "r"(SCANS_PRIORITY) : "memory"); }
static inline void let_scans(void) { __asm volatile("msr basepri, %0" : : "r"(0) : "memory"); }

/* The microsecond counter, the priorities, and an interrupt each millisecond. */
static inline void start_clock(void) {
    PRESCALE = CLOCK_HZ / 1000000 - 1;
    INTERRUPT_PRIORITIES = OCTETS_PRIORITY * 0x01010101u;
    SYSTICK_PRIORITY = (uint32_t)SCANS_PRIORITY << 24;
    INTERRUPT_ENABLE = INTERRUPT_LINK | INTERRUPT_TESTER;
    SYSTICK_RELOAD = CLOCK_HZ / 1000 - 1;
    SYSTICK_VALUE = 0;
    SYSTICK_CONTROL = 7;
}

#endif
