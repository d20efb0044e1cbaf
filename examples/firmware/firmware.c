/* A field I/O module on a Cortex-M4 without an operating system: the module's end of the link on a UART.
 *
 * SysTick's handler scans each millisecond. The main loop receives frames. The library asks that no one else writes a module
 * during a call, so the main loop holds the scans off around each call on the module. A scan that is held off is done at once
 * afterwards, and a handler that comes late does as many scans as are due: the module's milliseconds stay those of the clock.
 *
 * A second UART has the lines of fio2070-test, which set the inputs too: tester_lines.c. A product leaves that file out, and
 * reads the inputs from its ports.
 *
 * With STEPPED there is no clock, and each line `inputs` is a scan: then fio2070-test compares each octet. */
#include "firmware.h"

#include "board.h"

enum { ID = 2, LINK_RATE = 153600, TESTER_RATE = 115200, SCAN_US = 1000 };

#ifdef STEPPED
enum { IS_STEPPED = 1 };
#else
enum { IS_STEPPED = 0 };
#endif

struct uart link_uart, tester_uart;
struct firmware_counts counts;
uint8_t answer[FIO2070_LONGEST_FRAME];

static struct fio2070_module module;
static struct fio2070_wire line;       /* what the link's UART receives */
static uint64_t levels = ~(uint64_t)0; /* of the inputs */
static uint32_t scanned_to;            /* the microsecond up to which scans are done: the handler's alone */

static void keep_longest(uint32_t *longest, uint32_t since) {
    uint32_t gone = MICROSECONDS - since;
    if (gone > *longest) *longest = gone;
}

/* ---- Each millisecond ---- */

static void scan(void) {
    uint32_t begun = MICROSECONDS;
    fio2070_module_scan(&module, levels);
    counts.scans++;
    keep_longest(&counts.longest_scan, begun);
}

/* SysTick's handler. Of two ticks that come while it is held off the core keeps one, so the handler does not count ticks: a
 * counter that goes on says how many scans are due. */
void each_tick(void) {
    uint32_t due = (MICROSECONDS - scanned_to) / SCAN_US;
    if (due > 1) counts.late += due - 1;
    for (; due > 0; due--, scanned_to += SCAN_US) {
        if (!IS_STEPPED) scan();
    }
}

/* ---- What the library leaves to the maker ---- */

/* The answer to a frame to which the library has none: how many octets it has, 0 for none. Here command 57 sets the four relays,
 * by the lowest bits of its one octet, and the answer says how they are. The layout is this firmware's own; any other body gets
 * no answer. */
static size_t makers_answer(const uint8_t *octets, size_t length) {
    uint8_t set;
    if (fio2070_module_makers_command(&module, octets, length) != FIO2070_TYPE_COMPLEX_OUTPUTS || length != 2 || octets[1] > 15) return 0;
    RELAYS = octets[1];
    set = relays();
    return fio2070_module_answer_other(&module, FIO2070_TYPE_COMPLEX_OUTPUTS, &set, 1, answer, sizeof answer);
}

/* ---- Calls on the module, each with the scans held off ---- */

size_t receive(const uint8_t *octets, size_t length) {
    uint32_t begun = MICROSECONDS;
    size_t count;
    hold_scans();
    count = fio2070_module_receive(&module, octets, length, answer, sizeof answer);
    if (count == 0) count = makers_answer(octets, length);
    LAMPS = fio2070_module_state(&module).outputs.levels[0];
    let_scans();
    keep_longest(&counts.longest_hold, begun);
    return count;
}

void set_levels(uint64_t read) {
    hold_scans(); /* 64 bits are two stores */
    levels = read;
    let_scans();
    if (IS_STEPPED) scan();
}

/* On a board with LINESYNC the handler of its interrupt, of the priority of the scans, calls the library alone. */
void line_sync_rises(void) {
    hold_scans();
    fio2070_module_line_sync(&module);
    let_scans();
}

void restart(void) {
    hold_scans();
    fio2070_module_restart(&module);
    let_scans();
}

static void count_receive_error(void) {
    hold_scans();
    fio2070_module_count_receive_error(&module);
    let_scans();
}

uint8_t receive_errors(void) {
    uint8_t count;
    hold_scans();
    count = fio2070_module_state(&module).errors.receive;
    let_scans();
    return count;
}

size_t waiting(void) {
    size_t count;
    hold_scans();
    count = fio2070_module_state(&module).waiting;
    let_scans();
    return count;
}

uint8_t relays(void) { return (uint8_t)RELAYS; }

/* ---- Octets ---- */

void link_interrupt(void) { uart_interrupt(&link_uart); }

void tester_interrupt(void) { uart_interrupt(&tester_uart); }

static void send_answer(size_t count) {
    static uint8_t frame[FIO2070_WIRE_LONGEST];
    size_t length = fio2070_wire_write(FIO2070_WIRE_ADDRESS, FIO2070_WIRE_CONTROL, answer, count, frame, sizeof frame);
    uart_send(&link_uart, frame, length);
}

/* An item of the link's ring. Damage is an error in receiving, and so is a message that is no command. A frame for another
 * station is neither. */
static void link_item(uint16_t item) {
    size_t count = FIO2070_NO_MESSAGE;
    uint8_t octet = (uint8_t)item, heard;
    if (item & UART_LOSS) fio2070_wire_lose(&line);
    if (fio2070_wire_read(&line, &octet, 1, &heard) != 1 || heard == FIO2070_WIRE_NOTHING || heard == FIO2070_WIRE_OTHER) return;
    if (heard == FIO2070_WIRE_MESSAGE) count = receive(line.octets + 2, fio2070_wire_message_length(&line));
    if (count == FIO2070_NO_MESSAGE) {
        count_receive_error();
    } else if (count > 0) {
        send_answer(count);
    }
}

/* Sleeps until an interrupt, unless an octet is there. One that comes between the look and the sleep ends the sleep at once. */
static void sleep_until_octet(void) {
    __asm volatile("cpsid i" : : : "memory");
    if (!uart_has_octet(&link_uart) && !uart_has_octet(&tester_uart)) __asm volatile("wfi");
    __asm volatile("cpsie i" : : : "memory");
}

int main(void) {
    const struct fio2070_limits limits = FIO2070_STANDARD_LIMITS;
    if (fio2070_module_start(&module, ID, limits) != FIO2070_STARTED) return 1;
    fio2070_wire_start(&line, FIO2070_WIRE_ADDRESS, FIO2070_WIRE_CONTROL);
    uart_start(&link_uart, UART_LINK, LINK_RATE);
    uart_start(&tester_uart, UART_TESTER, TESTER_RATE);
    start_clock();
    scanned_to = MICROSECONDS - SCAN_US / 2; /* in the middle of two ticks: a tick is never counted as none or as two */
    for (;;) {
        if (uart_has_octet(&link_uart)) link_item(uart_take(&link_uart));
        if (uart_has_octet(&tester_uart)) tester_item(uart_take(&tester_uart));
        sleep_until_octet();
    }
}
