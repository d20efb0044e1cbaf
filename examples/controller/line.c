#define _DEFAULT_SOURCE
#include "line.h"

#include <errno.h>
#include <fcntl.h>
#include <netdb.h>
#include <netinet/in.h>
#include <netinet/tcp.h>
#include <stdio.h>
#include <string.h>
#include <sys/file.h>
#include <sys/socket.h>
#include <termios.h>
#include <unistd.h>

/* Without TCP_NODELAY a short frame would wait until the one before it is acknowledged. */
static int connected(const struct addrinfo *to) {
    int file = socket(to->ai_family, to->ai_socktype, to->ai_protocol), yes = 1;
    if (file < 0) return -1;
    if (connect(file, to->ai_addr, to->ai_addrlen) != 0 || setsockopt(file, IPPROTO_TCP, TCP_NODELAY, &yes, sizeof yes) != 0) {
        close(file);
        return -1;
    }
    return file;
}

static int opened_socket(const char *name, const char *colon) {
    struct addrinfo hints, *found = NULL, *one;
    char host[256];
    int file = -1;
    if (snprintf(host, sizeof host, "%.*s", (int)(colon - name), name) >= (int)sizeof host) return -1;
    memset(&hints, 0, sizeof hints);
    hints.ai_socktype = SOCK_STREAM;
    if (getaddrinfo(host, colon + 1, &hints, &found) != 0) {
        errno = EINVAL;
        return -1;
    }
    for (one = found; one != NULL && file < 0; one = one->ai_next) file = connected(one);
    freeaddrinfo(found);
    if (file >= 0) fcntl(file, F_SETFL, O_NONBLOCK);
    return file;
}

/* Octets with a wrong parity or stop bit are marked. A second controller would take answers of the first. */
static int opened_device(const char *name, int *is_marked) {
    struct termios settings;
    int file = open(name, O_RDWR | O_NOCTTY | O_NONBLOCK | O_CLOEXEC);
    if (file >= 0 && flock(file, LOCK_EX | LOCK_NB) != 0) {
        close(file);
        errno = EBUSY;
        return -1;
    }
    if (file >= 0 && tcgetattr(file, &settings) == 0) {
        cfmakeraw(&settings);
        settings.c_iflag = (settings.c_iflag & ~(tcflag_t)IGNPAR) | INPCK | PARMRK;
        tcflush(file, TCIOFLUSH);
        *is_marked = tcsetattr(file, TCSANOW, &settings) == 0;
    }
    return file;
}

int line_open(struct line *line, const char *name) {
    const char *colon = strrchr(name, ':');
    line->damaged = line->unsent = 0;
    line->is_full = line->is_marked = line->marked = 0;
    fio2070_wire_start(&line->heard, FIO2070_WIRE_ADDRESS, FIO2070_WIRE_CONTROL);
    line->file = colon != NULL && name[0] != '/' ? opened_socket(name, colon) : opened_device(name, &line->is_marked);
    return line->file < 0 ? -1 : 0;
}

/* Whether a call failed only because the line was not ready for it. */
static int is_not_ready(void) {
    return errno == EAGAIN || errno == EWOULDBLOCK || errno == EINTR;
}

int line_send(struct line *line, const uint8_t *message, size_t length) {
    uint8_t frame[FIO2070_WIRE_LONGEST];
    size_t count = fio2070_wire_write(FIO2070_WIRE_ADDRESS, FIO2070_WIRE_CONTROL, message, length, frame, sizeof frame);
    ssize_t written = write(line->file, frame, count);
    if (written < 0 && !is_not_ready()) return -1;
    line->is_full = written < (ssize_t)count;
    line->unsent += (unsigned long)line->is_full;
    return 0;
}

static void take(struct line *line, const uint8_t *octets, size_t count, hearer hear) {
    size_t place = 0;
    uint8_t heard;
    while (place < count) {
        place += fio2070_wire_read(&line->heard, octets + place, count - place, &heard);
        if (heard == FIO2070_WIRE_DAMAGED) line->damaged++;
        if (heard == FIO2070_WIRE_MESSAGE) hear(line->heard.octets + 2, fio2070_wire_message_length(&line->heard));
    }
}

/* An octet that came with an error is lost. */
static void take_marked(struct line *line, uint8_t octet, hearer hear) {
    if ((line->marked == 0 && octet == 0xff) || (line->marked == 1 && octet == 0)) {
        line->marked++;
        return;
    }
    if (line->marked == 2) {
        fio2070_wire_lose(&line->heard);
    } else {
        take(line, &octet, 1, hear);
    }
    line->marked = 0;
}

int line_receive(struct line *line, hearer hear) {
    uint8_t octets[4096];
    ssize_t count = read(line->file, octets, sizeof octets), place;
    if (count < 0 && is_not_ready()) return 0;
    if (count == 0) errno = 0;
    if (count <= 0) return -1;
    if (!line->is_marked) take(line, octets, (size_t)count, hear);
    for (place = 0; line->is_marked && place < count; place++) take_marked(line, octets[place], hear);
    return 0;
}

void line_close(struct line *line) {
    if (line->is_full) tcflush(line->file, TCOFLUSH);
    close(line->file);
}
