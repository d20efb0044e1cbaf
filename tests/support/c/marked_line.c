/* What examples/controller/line.c reads of a serial device whose errors are marked: here it is the standard input. Each message is
 * written, and how much was damaged. */
#include "line.h"

#include <stdio.h>

static void print(const uint8_t *message, size_t length) {
    while (length-- > 0) printf("%02x", *message++);
    putchar(' ');
}

int main(void) {
    struct line line = {0};
    line.is_marked = 1;
    fio2070_wire_start(&line.heard, FIO2070_WIRE_ADDRESS, FIO2070_WIRE_CONTROL);
    while (line_receive(&line, print) == 0) {}
    printf("damaged %lu\n", line.damaged);
    return 0;
}
