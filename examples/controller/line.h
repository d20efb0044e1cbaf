/* The line to the module: a socket or a serial device. No call waits for it: what it does not take now is lost, as if the line
 * had lost it. */
#ifndef LINE_H
#define LINE_H

#include <fio2070.h>

struct line {
    int file;
    unsigned long damaged; /* what stood between two flags and was no frame */
    unsigned long unsent;  /* messages that the line did not take whole */
    int is_full;           /* the last message was one of these */
    struct fio2070_wire heard;
    int is_marked;  /* a device of which the kernel marks what came with an error: FF 00 and an octet; FF FF is an FF */
    uint8_t marked; /* how many octets of such a mark were read: 0 to 2 */
};

typedef void (*hearer)(const uint8_t *message, size_t length);

/* Opens HOST:PORT, or a serial device at the speed that `stty` has set. Returns 0, or -1 with errno. */
int line_open(struct line *line, const char *name);
/* Sends a message, or as much of it as the line takes now. Returns 0, or -1 with errno. */
int line_send(struct line *line, const uint8_t *message, size_t length);
/* Reads what has come, and gives each message to `hear`. Returns 0, or -1 with errno, which is 0 if the other end is gone. */
int line_receive(struct line *line, hearer hear);
/* Closes the line. If it is full, what waits there is discarded, since closing a device may wait for that. */
void line_close(struct line *line);

#endif
