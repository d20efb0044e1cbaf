#include "uart.h"

#include "board.h"

enum { DATA = 0, STATE = 4, CONTROL = 8, CLEAR = 12, DIVIDER = 16 };
enum { TX_FULL = 1, RX_FULL = 2, RX_OVERRUN = 8 };            /* of STATE */
/* What STATE reports of octets that were received, cleared by a 1. This UART has overruns alone; those of another for parity and
 * stop bits belong here too. */
enum { RX_ERRORS = RX_OVERRUN };
enum { TX_ON = 1, RX_ON = 2, RX_INTERRUPT = 8, RX_CAME = 2 }; /* of CONTROL; of CLEAR */

static volatile uint32_t *part(const struct uart *uart, uint32_t offset) { return &REGISTER(uart->base + offset); }

void uart_start(struct uart *uart, uint32_t base, uint32_t rate) {
    uart->base = base;
    *part(uart, DIVIDER) = CLOCK_HZ / rate; /* at least 16 */
    *part(uart, CONTROL) = TX_ON | RX_ON | RX_INTERRUPT;
}

/* A loss behind what the ring has, and before what it gets next. */
static void lose(struct uart *uart) {
    uart->has_loss = 1;
    uart->lost++;
}

/* Puts an octet into the ring; it is lost if the ring is full. */
static void put(struct uart *uart, uint8_t octet) {
    if (uart->head - uart->tail == UART_RING) {
        lose(uart);
        return;
    }
    uart->ring[uart->head % UART_RING] = (uint16_t)(uart->has_loss ? octet | UART_LOSS : octet);
    uart->has_loss = 0;
    uart->head++; /* last: from here on the main loop may take it */
}

/* Which octet was overrun, the one that is read or one beside it, is the UART's: so there is a loss on both sides of it. */
void uart_interrupt(struct uart *uart) {
    *part(uart, CLEAR) = RX_CAME; /* first: an octet that comes from here on interrupts again */
    while (*part(uart, STATE) & RX_FULL) {
        uint8_t octet = (uint8_t)*part(uart, DATA);
        uint32_t errors = *part(uart, STATE) & RX_ERRORS; /* after the octet, which can be overrun until it is read */
        if (errors != 0) {
            *part(uart, STATE) = errors;
            lose(uart);
        }
        put(uart, octet);
        if (errors != 0) uart->has_loss = 1;
    }
}

int uart_has_octet(const struct uart *uart) { return uart->head != uart->tail; }

uint16_t uart_take(struct uart *uart) {
    uint16_t item = uart->ring[uart->tail % UART_RING];
    uart->tail++; /* last: from here on the interrupt may write there */
    return item;
}

void uart_send(const struct uart *uart, const void *octets, size_t length) {
    const uint8_t *next = octets;
    while (length-- > 0) {
        while (*part(uart, STATE) & TX_FULL) {}
        *part(uart, DATA) = *next++;
    }
}
