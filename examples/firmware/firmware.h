/* What the files of the firmware share. */
#ifndef FIRMWARE_H
#define FIRMWARE_H

#include <fio2070.h>

#include "uart.h"

/* ---- firmware.c ---- */

extern struct uart link_uart, tester_uart;
extern uint8_t answer[FIO2070_LONGEST_FRAME];

/* What is measured. */
extern struct firmware_counts {
    uint32_t scans;
    uint32_t late; /* scans that came a tick or more after their time, and were made up for */
    uint32_t longest_scan, longest_hold; /* in microseconds */
} counts;

/* Handlers of interrupts. */
void each_tick(void);
void link_interrupt(void);
void tester_interrupt(void);

/* Gives a frame to the module, and what it says of outputs and relays to the board. Returns as fio2070_module_receive does; the
 * answer is in `answer`. */
size_t receive(const uint8_t *octets, size_t length);
/* Sets what the inputs are read as. */
void set_levels(uint64_t read);
void line_sync_rises(void);
void restart(void);
/* What the module counts: errors in receiving, and entries that wait for a poll. */
uint8_t receive_errors(void);
size_t waiting(void);
/* The relays that are on, by bits. */
uint8_t relays(void);

/* ---- start.c ---- */

/* Returns the most octets of stack that were in use since the start. */
uint32_t stack_used(void);

/* ---- tester_lines.c ---- */

/* Takes an item of the second UART's ring. */
void tester_item(uint16_t item);

#endif
