/* A board that is a UART alone, in place of examples/firmware/board.h: ring.c has its registers. */
#ifndef BOARD_H
#define BOARD_H

#include <stdint.h>

enum { CLOCK_HZ = 25000000 };

volatile uint32_t *register_at(uint32_t offset);
#define REGISTER(address) (*register_at(address))

#endif
