/* A UART. Its octets are received by interrupt into a ring, and sent by waiting. A loss keeps its place between the octets. */
#ifndef UART_H
#define UART_H

#include <stddef.h>
#include <stdint.h>

enum {
    UART_RING = 1024,  /* a power of two, and more than a frame */
    UART_LOSS = 0x100 /* of an item of the ring, beside its octet: directly before it something was lost or damaged */
};

/* The interrupt alone writes `head`, `lost`, `has_loss` and the ring, the main loop alone `tail`: neither holds the other off. */
struct uart {
    uint32_t base;
    volatile uint32_t head, tail;
    volatile uint32_t lost; /* octets for which there was no room, and errors that the UART reported */
    uint8_t has_loss;       /* behind the newest item of the ring: the next one is marked */
    volatile uint16_t ring[UART_RING];
};

void uart_start(struct uart *uart, uint32_t base, uint32_t rate);
/* The handler of its interrupt. */
void uart_interrupt(struct uart *uart);
int uart_has_octet(const struct uart *uart);
/* Returns the next item, if uart_has_octet says that there is one: an octet, with UART_LOSS if there is a loss before it. */
uint16_t uart_take(struct uart *uart);
void uart_send(const struct uart *uart, const void *octets, size_t length);

#endif
