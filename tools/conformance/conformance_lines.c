/* The lines of a wire: how it is opened, asked, and found to have failed. */
#ifndef _DEFAULT_SOURCE
#define _DEFAULT_SOURCE /* for cfmakeraw */
#endif
#include "conformance_clock.h"
#include "conformance_wire.h"

#include <errno.h>
#include <fcntl.h>
#include <netdb.h>
#include <poll.h>
#include <signal.h>
#include <string.h>
#include <sys/socket.h>
#include <sys/wait.h>
#include <termios.h>
#include <time.h>
#include <unistd.h>

/* In a hurry a line is late after HURRIED_TIMES the slowest one so far, but not before HURRIED_MS milliseconds. */
enum { HURRIED_TIMES = 20, HURRIED_MS = 100 };

/* A process that closed its streams ends within this time, as if it crashed. */
enum { ENDING_MS = 300 };
static const char ENDED[] = "it ended", TAKES_NONE[] = "it takes no line any more";

/* ---- Opening ---- */

/* Notes why the wire is not open. Returns 0. */
static int is_not_open(struct wire *wire, const char *why) {
    snprintf(wire->why, sizeof wire->why, "%s", why);
    return 0;
}

/* What the process that is the module's side has for standard input, output and error. */
static void become(const char *command, int both, int errors) {
    setpgid(0, 0);
    dup2(both, 0);
    dup2(both, 1);
    dup2(errors, 2);
    close(both);
    close(errors);
    execl("/bin/sh", "sh", "-c", command, (char *)NULL);
    _exit(127);
}

/* Files that a process begun later does not have. */
static void keep_here(int file) { fcntl(file, F_SETFD, FD_CLOEXEC); }

static int open_command(struct wire *wire) {
    int both[2], errors[2];
    if (socketpair(AF_UNIX, SOCK_STREAM, 0, both) != 0) return is_not_open(wire, strerror(errno));
    if (pipe(errors) != 0) return is_not_open(wire, strerror(errno));
    keep_here(both[0]);
    keep_here(errors[0]);
    wire->process = fork();
    if (wire->process < 0) is_not_open(wire, strerror(errno));
    if (wire->process == 0) become(wire->target, both[1], errors[1]);
    /* The process does this too: it may be ended as a group before it runs. */
    if (wire->process > 0) setpgid((pid_t)wire->process, (pid_t)wire->process);
    close(both[1]);
    close(errors[1]);
    wire->file = both[0];
    wire->errors = errors[0];
    return wire->process > 0;
}

static int open_serial(struct wire *wire) {
    struct termios settings;
    if (wire->file < 0) wire->file = open(wire->target, O_RDWR | O_NOCTTY);
    if (wire->file < 0) return is_not_open(wire, strerror(errno));
    if (tcgetattr(wire->file, &settings) == 0) {
        cfmakeraw(&settings);
        tcsetattr(wire->file, TCSANOW, &settings);
        tcflush(wire->file, TCIOFLUSH);
    }
    return 1;
}

static int open_socket(struct wire *wire) {
    char host[256];
    const char *address = wire->target, *colon = strrchr(address, ':');
    struct addrinfo hints, *found = NULL, *one;
    int fault;
    if (colon == NULL || (size_t)(colon - address) >= sizeof host) return is_not_open(wire, "it is no HOST:PORT");
    memcpy(host, address, (size_t)(colon - address));
    host[colon - address] = '\0';
    memset(&hints, 0, sizeof hints);
    hints.ai_socktype = SOCK_STREAM;
    fault = getaddrinfo(host, colon + 1, &hints, &found);
    if (fault != 0) return is_not_open(wire, fault == EAI_SYSTEM ? strerror(errno) : gai_strerror(fault));
    for (one = found; one != NULL && wire->file < 0; one = one->ai_next) {
        wire->file = socket(one->ai_family, one->ai_socktype, one->ai_protocol);
        if (wire->file >= 0 && connect(wire->file, one->ai_addr, one->ai_addrlen) == 0) break;
        is_not_open(wire, strerror(errno));
        if (wire->file >= 0) close(wire->file);
        wire->file = -1;
    }
    freeaddrinfo(found);
    return wire->file >= 0;
}

int conformance_wire_open(struct wire *wire, const char *target, enum wire_kind kind) {
    static int (*const opens[])(struct wire *wire) = {open_command, open_serial, open_socket};
    wire->target = target;
    wire->open = opens[kind];
    wire->file = wire->errors = -1;
    wire->is_new = 1;
    signal(SIGPIPE, SIG_IGN);
    return wire->open(wire);
}

/* ---- Standard error ---- */

/* Keeps the last octets of standard error, and passes them on, except those of trials. Returns 0 at its end. */
static int read_errors(struct wire *wire) {
    char octets[1024];
    ssize_t count = read(wire->errors, octets, sizeof octets);
    size_t length = 0, left = wire->tail_length;
    if (count <= 0) return 0;
    if (wire->hurry == NO_TRIAL) fwrite(octets, 1, (size_t)count, stderr);
    length = count < WIRE_TAIL ? (size_t)count : (size_t)WIRE_TAIL;
    if (left > WIRE_TAIL - length) left = WIRE_TAIL - length;
    memmove(wire->tail, wire->tail + wire->tail_length - left, left);
    memcpy(wire->tail + left, octets + (size_t)count - length, length);
    wire->tail_length = left + length;
    return 1;
}

/* Reads what has come, and what comes in this many milliseconds. */
static void drain_errors(struct wire *wire, int ms) {
    int64_t end = conformance_now_ms() + ms, left;
    while (wire->errors >= 0 && (left = end - conformance_now_ms()) >= 0) {
        struct pollfd ready = {wire->errors, POLLIN, 0};
        if (poll(&ready, 1, (int)left) <= 0 || !read_errors(wire)) return;
    }
}

/* ---- Closing ---- */

/* Waits for the process by the deadline, and then kills it and those that it began. Returns how it ended, -1 if it
 * was killed. */
static int end_process(struct wire *wire, int ms) {
    static const struct timespec pause = {0, 2000000};
    int64_t end = conformance_now_ms() + ms;
    pid_t process = (pid_t)wire->process;
    int status = 0;
    wire->process = 0;
    do {
        if (waitpid(process, &status, WNOHANG) != 0) {
            kill(-process, SIGKILL);
            return status;
        }
        nanosleep(&pause, NULL);
    } while (conformance_now_ms() < end);
    kill(-process, SIGKILL);
    waitpid(process, &status, 0);
    return -1;
}

static void close_files(struct wire *wire) {
    if (wire->file >= 0) close(wire->file);
    if (wire->errors >= 0) close(wire->errors);
    wire->file = wire->errors = -1;
}

void conformance_wire_close(struct wire *wire) {
    if (wire->file >= 0) shutdown(wire->file, SHUT_RDWR);
    drain_errors(wire, 0);
    if (wire->process > 0) end_process(wire, wire->has_failed ? 0 : wire->deadline_ms);
    close_files(wire);
}

/* ---- Lines ---- */

/* What a device wrote is shown on a terminal: a `?` is each octet that is no character of ASCII. */
int conformance_wire_fail(struct wire *wire, const char *fault, const char *line) {
    char *octet;
    if (!wire->has_failed) snprintf(wire->fault, sizeof wire->fault, "%s%.40s", fault, line);
    for (octet = wire->fault; *octet != '\0'; octet++) {
        if (*octet < ' ' || *octet > '~') *octet = '?';
    }
    wire->has_failed = 1;
    return 0;
}

static int write_line(struct wire *wire, const char *line) {
    size_t length = strlen(line);
    while (length > 0) {
        ssize_t count = write(wire->file, line, length);
        if (count <= 0) return conformance_wire_fail(wire, TAKES_NONE, "");
        line += count;
        length -= (size_t)count;
    }
    return 1;
}

/* Takes the first line of what came, without its end. Returns 0 if none is whole. */
static int take_line(struct wire *wire, char line[WIRE_LONGEST_LINE]) {
    char *end = (char *)memchr(wire->octets, '\n', wire->kept);
    size_t length;
    if (end == NULL) return 0;
    length = (size_t)(end - wire->octets);
    memcpy(line, wire->octets, length < WIRE_LONGEST_LINE ? length : WIRE_LONGEST_LINE - 1);
    line[length < WIRE_LONGEST_LINE ? length : WIRE_LONGEST_LINE - 1] = '\0';
    line[strcspn(line, "\r")] = '\0';
    wire->kept -= length + 1;
    memmove(wire->octets, end + 1, wire->kept);
    return 1;
}

static int64_t deadline_of(const struct wire *wire) {
    int64_t hurried = HURRIED_TIMES * wire->slowest_ms;
    if (hurried < HURRIED_MS) hurried = HURRIED_MS;
    return wire->hurry == HURRIED_TRIAL && !wire->is_new && hurried < wire->deadline_ms ? hurried : wire->deadline_ms;
}

/* Waits until octets of a line come. Returns 0 if none do by then. */
static int wait_for_octets(struct wire *wire, int64_t end) {
    for (;;) {
        struct pollfd ready[2] = {{wire->file, POLLIN, 0}, {wire->errors, POLLIN, 0}};
        int64_t left = end - conformance_now_ms();
        if (left <= 0 || poll(ready, wire->errors < 0 ? 1 : 2, (int)left) <= 0) return 0;
        if (ready[0].revents != 0) return 1;
        if (read_errors(wire)) continue;
        close(wire->errors);
        wire->errors = -1;
    }
}

/* The deadline is that of the whole line, so that a device that goes on writing does not hold the run. */
static int read_line(struct wire *wire, char line[WIRE_LONGEST_LINE]) {
    int64_t begun = conformance_now_ms(), taken;
    while (!take_line(wire, line)) {
        ssize_t count;
        if (wire->kept == sizeof wire->octets) return conformance_wire_fail(wire, "its line is too long", "");
        if (!wait_for_octets(wire, begun + deadline_of(wire))) {
            return conformance_wire_fail(wire, "it wrote no line in time", "");
        }
        count = read(wire->file, wire->octets + wire->kept, sizeof wire->octets - wire->kept);
        if (count <= 0) return conformance_wire_fail(wire, ENDED, "");
        wire->kept += (size_t)count;
    }
    taken = conformance_now_ms() - begun;
    if (!wire->is_new && taken > wire->slowest_ms) wire->slowest_ms = taken;
    wire->is_new = 0;
    wire->has_answered = 1;
    return 1;
}

int conformance_wire_ask(struct wire *wire, const char *line, char said[WIRE_LONGEST_LINE]) {
    if (wire->has_failed) return 0;
    if (take_line(wire, said)) return conformance_wire_fail(wire, "it wrote more than one line: ", said);
    snprintf(wire->asked, sizeof wire->asked, "%s", line);
    wire->asked[strcspn(wire->asked, "\n")] = '\0';
    return write_line(wire, line) && read_line(wire, said);
}

/* ---- Failures ---- */

/* The last lines of standard error, each after a head; the first of them may have been cut. */
static void write_tail(const struct wire *wire, char *text, size_t room) {
    size_t first = wire->tail_length == WIRE_TAIL ? WIRE_TAIL / 8 : 0, length = 0;
    const char *line = wire->tail + first, *end = wire->tail + wire->tail_length;
    *text = '\0';
    while (line < end && length + 24 < room) {
        const char *next = (const char *)memchr(line, '\n', (size_t)(end - line));
        int count = (int)((next == NULL ? end : next) - line);
        snprintf(text + length, room - length, "\nstandard error: %.*s", count, line);
        length += strlen(text + length);
        line += count + 1;
    }
}

/* How a process ended that takes or writes no more lines, if it ended by itself; any other is killed. */
static void see_end(struct wire *wire, char *text, size_t room) {
    int status, is_ending = strcmp(wire->fault, ENDED) == 0 || strcmp(wire->fault, TAKES_NONE) == 0;
    *text = '\0';
    if (wire->process <= 0) return;
    status = end_process(wire, is_ending ? ENDING_MS : 0);
    if (status == -1) {
        snprintf(text, room, ", and was killed");
    } else if (WIFSIGNALED(status)) {
        snprintf(text, room, ", by signal %d (%s)", WTERMSIG(status), strsignal(WTERMSIG(status)));
    } else {
        snprintf(text, room, ", with the status %d", WEXITSTATUS(status));
        /* As a shell says it of a program. */
        if (WEXITSTATUS(status) > 128) snprintf(text, room, ", by signal %d", WEXITSTATUS(status) - 128);
    }
}

static const char *failure(void *context) {
    struct wire *wire = (struct wire *)context;
    char end[100];
    size_t length;
    if (!wire->has_failed) return NULL;
    if (wire->failure[0] != '\0') return wire->failure;
    see_end(wire, end, sizeof end);
    drain_errors(wire, 20);
    snprintf(wire->failure, sizeof wire->failure, "%s%s\nasked: %.240s%s", wire->fault, end, wire->asked,
             strlen(wire->asked) > 240 ? ".." : "");
    length = strlen(wire->failure);
    write_tail(wire, wire->failure + length, sizeof wire->failure - length);
    return wire->failure;
}

static int begin_anew(void *context) {
    struct wire *wire = (struct wire *)context;
    if (!wire->has_answered) return 0;
    if (wire->process > 0) end_process(wire, 0);
    if (wire->open != open_serial) close_files(wire);
    wire->kept = wire->tail_length = 0;
    wire->failure[0] = wire->fault[0] = '\0';
    wire->has_failed = wire->has_levels = 0;
    wire->is_new = 1;
    return wire->open(wire) || conformance_wire_fail(wire, "it can't be opened any more: ", wire->why);
}

static void hurry(void *context, enum hurry hurry) { ((struct wire *)context)->hurry = hurry; }

void conformance_wire_outside(struct wire *wire, struct outside *outside) {
    const struct outside made = {wire, failure, begin_anew, hurry};
    *outside = made;
}
