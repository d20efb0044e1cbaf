/* A CPU that polls a module until nothing waits. Its loop needs three functions: one that sends a frame,
 * one that receives a frame or runs out of time, and a clock. It asks again where no answer comes, and takes
 * an answer that comes twice only once. Each exchange has a deadline, which frames of no use do not move: a
 * line that is never silent does not hold the CPU.
 *
 * What a CPU keeps over a restart is `poller.number`, written with the record in one step. With it the next
 * `fio2070_poller_start` loses nothing and takes nothing twice. Without it the CPU waits first until no frame sent
 * before can arrive any more (docs/EMBEDDING.md).
 *
 * Here the module is the library's own, at the other end of a pair of sockets; every third command
 * is lost, every fifth answer is lost, and every seventh comes twice. Time is counted in the module's
 * milliseconds, so each run prints the same: the record as a report of `fio2070 simulate` has it. With the
 * word `babble` the line brings a frame of noise each millisecond, and no answer.
 *
 *     cc -I include examples/c/poller.c libfio2070.a -o poller
 */
#include "fio2070.h"

#include <stdio.h>
#include <string.h>
#include <sys/socket.h>
#include <sys/types.h>
#include <unistd.h>

enum { ANSWER_MS = 10, EXCHANGE_MS = 100, MOST_ITEMS = 4096, WAVE_MS = 600 };

/* The CPU's link to a module. */
struct link {
    void *context;
    void (*send)(void *context, const uint8_t *octets, size_t length);
    /* Returns how many octets came, at most `room`, and 0 where none came in this time. */
    size_t (*receive)(void *context, uint8_t *octets, size_t room, unsigned long milliseconds);
    /* Milliseconds since some start. */
    unsigned long (*now)(void *context);
};

/* ---- The CPU ---- */

static struct fio2070_record_item record[MOST_ITEMS];
static size_t recorded;

/* Receives a frame before this much time has gone by since `start`. Returns 0 where none came, and where the
 * time is over, whatever else may come. */
static size_t receive_within(const struct link *link, uint8_t *octets, size_t room, unsigned long start,
                             unsigned long milliseconds) {
    unsigned long gone = link->now(link->context) - start;
    return gone < milliseconds ? link->receive(link->context, octets, room, milliseconds - gone) : 0;
}

/* Whether the time of an exchange that began at `start` is not over. */
static int has_time(const struct link *link, unsigned long start) {
    return link->now(link->context) - start < EXCHANGE_MS;
}

/* Sends a command, again and again, until an answer of its type comes. Returns 1 where one came in time. */
static int ask(const struct link *link, const uint8_t *command, size_t length) {
    uint8_t octets[FIO2070_LONGEST_FRAME];
    struct fio2070_answer answer;
    unsigned long start = link->now(link->context);
    while (has_time(link, start)) {
        unsigned long sent = link->now(link->context);
        size_t count;
        link->send(link->context, command, length);
        while ((count = receive_within(link, octets, sizeof octets, sent, ANSWER_MS)) != 0) {
            struct fio2070_fault fault = fio2070_decode_answer(octets, count, &answer);
            if (fault.kind == FIO2070_FAULT_NONE && answer.code == command[0] + FIO2070_TYPE_ANSWER) return 1;
        }
    }
    return 0;
}

/* Polls until the next block is taken. Returns how many entries it has, -1 where none came in time, and where
 * there is no room for it. */
static int take_block(const struct link *link, struct fio2070_poller *poller) {
    uint8_t octets[FIO2070_LONGEST_FRAME];
    unsigned long start = link->now(link->context);
    while (has_time(link, start)) {
        unsigned long sent = link->now(link->context);
        size_t count = fio2070_poller_poll(poller, octets, sizeof octets);
        link->send(link->context, octets, count);
        while ((count = receive_within(link, octets, sizeof octets, sent, ANSWER_MS)) != 0) {
            struct fio2070_heard heard =
                fio2070_poller_hear(poller, octets, count, record + recorded, MOST_ITEMS - recorded);
            if (heard.kind == FIO2070_HEARD_NO_ROOM) return -1;
            if (heard.kind != FIO2070_HEARD_TAKEN) continue;
            recorded += heard.items;
            return heard.entries;
        }
    }
    return -1;
}

/* ---- The module at the other end ---- */

struct bench {
    struct fio2070_module module;
    int cpu_end, module_end, babbles;
    unsigned long ms, commands, answers;
};

/* Input n % 64 changes at millisecond n, up to WAVE_MS. */
static uint64_t levels_at(unsigned long ms) {
    uint64_t levels = ~(uint64_t)0;
    unsigned long n;
    for (n = 1; n <= ms && n <= WAVE_MS; n++) levels ^= (uint64_t)1 << n % 64;
    return levels;
}

/* One millisecond: a scan, and the commands that came. */
static void step(struct bench *bench) {
    uint8_t octets[FIO2070_LONGEST_FRAME], answer[FIO2070_LONGEST_FRAME];
    ssize_t length;
    fio2070_module_scan(&bench->module, levels_at(++bench->ms));
    while ((length = recv(bench->module_end, octets, sizeof octets, MSG_DONTWAIT)) > 0) {
        size_t count;
        if (++bench->commands % 3 == 0) continue;
        count = fio2070_module_receive(&bench->module, octets, (size_t)length, answer, sizeof answer);
        if (count == 0 || count > sizeof answer || ++bench->answers % 5 == 0) continue;
        (void)!send(bench->module_end, answer, count, 0);
        if (bench->answers % 7 == 0) (void)!send(bench->module_end, answer, count, 0);
    }
}

static void send_frame(void *context, const uint8_t *octets, size_t length) {
    (void)!send(((struct bench *)context)->cpu_end, octets, length, 0);
}

static unsigned long milliseconds_now(void *context) { return ((struct bench *)context)->ms; }

static size_t receive_frame(void *context, uint8_t *octets, size_t room, unsigned long milliseconds) {
    struct bench *bench = (struct bench *)context;
    if (bench->babbles) {
        step(bench);
        octets[0] = 0;
        return 1;
    }
    for (;;) {
        ssize_t length = recv(bench->cpu_end, octets, room, MSG_DONTWAIT);
        if (length > 0) return (size_t)length;
        if (milliseconds-- == 0) return 0;
        step(bench);
    }
}

/* ---- Both ---- */

/* Configures all 64 inputs to be reported, with filters of 1. */
static size_t configuration(uint8_t *octets, size_t room) {
    struct fio2070_command command;
    struct fio2070_configuration_item items[64];
    uint8_t input;
    memset(&command, 0, sizeof command);
    command.code = FIO2070_TYPE_CONFIGURE_INPUTS, command.count = 64;
    for (input = 0; input < 64; input++) {
        items[input].input = input;
        items[input].ignore = 0;
        items[input].leading = items[input].trailing = 1;
    }
    return fio2070_encode_command(&command, items, 64, NULL, 0, octets, room);
}

static void print_report(const struct bench *bench, const struct fio2070_poller *poller) {
    size_t place;
    printf("counter %lu\n", (unsigned long)fio2070_module_state(&bench->module).counter);
    printf("number %u\n", poller->number);
    printf("waiting %lu\n", (unsigned long)fio2070_module_state(&bench->module).waiting);
    printf("record %lu\n", (unsigned long)recorded);
    for (place = 0; place < recorded; place++) {
        const struct fio2070_record_item *item = &record[place];
        if (item->gap) {
            puts("gap");
        } else {
            printf("input %u state %u stamp %u wide %lu\n", item->input, item->state, item->stamp,
                   (unsigned long)item->wide);
        }
    }
}

int main(int count, char **words) {
    static struct bench bench;
    struct link link;
    struct fio2070_limits limits = FIO2070_STANDARD_LIMITS;
    struct fio2070_poller poller;
    uint8_t octets[FIO2070_LONGEST_FRAME];
    int ends[2], entries;
    if (socketpair(AF_UNIX, SOCK_DGRAM, 0, ends) != 0) return 1;
    bench.cpu_end = ends[0];
    bench.module_end = ends[1];
    if (fio2070_module_start(&bench.module, 2, limits) != FIO2070_STARTED) return 1;
    link.context = &bench;
    link.send = send_frame;
    link.receive = receive_frame;
    link.now = milliseconds_now;
    bench.babbles = count == 2 && strcmp(words[1], "babble") == 0;
    if (!ask(&link, octets, configuration(octets, sizeof octets))) {
        printf("no answer in %lu ms\n", bench.ms);
        return 1;
    }
    fio2070_poller_start(&poller, 0);
    do {
        entries = take_block(&link, &poller);
    } while (entries > 0 || (entries == 0 && bench.ms <= WAVE_MS));
    print_report(&bench, &poller);
    close(ends[0]);
    close(ends[1]);
    return entries != 0;
}
