/* examples/firmware/uart.c over a UART whose events are on the standard input: `r HEX`, an octet comes; `e HEX`, it overran the one
 * before it; `o HEX`, it overruns one that the interrupt has seen and not read yet; `t`, the main loop takes an item, which is
 * written if there is one. At the end: how many were lost. */
#include "uart.h"

#include <stdio.h>

#include "board.h"

enum { DATA = 0, STATE = 4, FULL = 2, OVERRUN = 8 };
#define READ_ONLY 0x80000000u /* in `state` until it is written */

static uint32_t data, state = READ_ONLY, other;
static int is_full, has_overrun, overruns_late;

/* Called for each access, before it. */
volatile uint32_t *register_at(uint32_t offset) {
    if (!(state & READ_ONLY) && (state & OVERRUN)) has_overrun = 0; /* a 1 was written */
    if (offset == DATA) {
        is_full = 0;
        has_overrun |= overruns_late;
        overruns_late = 0;
    }
    state = READ_ONLY | (is_full ? FULL : 0u) | (has_overrun ? OVERRUN : 0u);
    return offset == DATA ? &data : offset == STATE ? &state : &other;
}

int main(void) {
    static struct uart uart;
    char event;
    unsigned octet;
    while (scanf(" %c", &event) == 1) {
        if (event == 't') {
            if (uart_has_octet(&uart)) printf("%d ", uart_take(&uart));
        } else if (scanf("%x", &octet) == 1) {
            data = octet;
            is_full = 1;
            has_overrun |= event == 'e';
            overruns_late = event == 'o';
            uart_interrupt(&uart);
        }
    }
    printf("%u\n", (unsigned)uart.lost);
    return 0;
}
