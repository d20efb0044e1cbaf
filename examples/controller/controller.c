/* The CPU's end of the link on Linux: configures the inputs of a field I/O module, polls it each 10 ms, and writes down what
 * happened to the inputs. The decisions are in controller_link.c, the line in line.c, the files in tables.c.
 *
 * It ends at SIGINT, SIGTERM or after a time, once no command is under way: an answer that nobody hears may be the only one that
 * has its entries. It ends at once at a second signal, and if the line takes no more, since then no answer comes. */
#define _DEFAULT_SOURCE
#include "controller_link.h"
#include "line.h"
#include "tables.h"

#include <errno.h>
#include <getopt.h>
#include <poll.h>
#include <signal.h>
#include <stdio.h>
#include <stdlib.h>
#include <string.h>
#include <sys/signalfd.h>
#include <sys/timerfd.h>
#include <time.h>
#include <unistd.h>

enum { SLOT_MS = 10, DEADLINE_MS = 50, LOOK_MS = 1000, FILTER_MS = 5, INPUTS = 64, WAIT_S = 2, SHOW_SLOTS = 100 };

static const char help[] =
    "usage: controller [OPTION..] HOST:PORT|DEVICE FILE.csv\n"
    "  -d, --deadline MS       how long an answer may take, 50 by default\n"
    "  -k, --keep FILE         keep the block number in FILE, and go on where the run before has ended\n"
    "  -f, --fast              with --keep, do not wait for the disk: if power fails, rows may be lost without a mark\n"
    "  -t, --transcript FILE   write the frames, for `fio2070 check` and `record`\n"
    "  -e, --events FILE       write high-resolution events, with --on\n"
    "  -o, --on 0|1            the state of an input that is a detector's on\n"
    "  -c, --channel IN=CH     the detector's channel of an input, else none; without any, input 0 is channel 1, and so on\n"
    "  -s, --seconds N         end after this time\n"
    "  -w, --wait N            at the end, wait N seconds for the last answer, 2 by default\n"
    "A serial device has the speed that `stty` has set.\n"
    "FILE.csv has a row for each transition: the time, the input, its state and the module's millisecond; and a row where some\n"
    "are missing (`gap`) or where the module was started anew (`restart`).\n";

static struct line line;
static struct controller_link cpu;
static struct tables tables = {.keep = -1};
static struct {
    unsigned long commands, again, answers, useless, transitions, gaps, restarts, slots_missed;
} counts;

static void fail(const char *what, const char *why) {
    fprintf(stderr, "controller: %s: %s\n", what, why);
    exit(1);
}

static int64_t milliseconds(void) {
    struct timespec now;
    clock_gettime(CLOCK_MONOTONIC, &now);
    return (int64_t)now.tv_sec * 1000 + now.tv_nsec / 1000000;
}

static void show_counts(const char *end) {
    fprintf(stderr,
            "commands %lu again %lu unsent %lu answers %lu useless %lu damaged %lu slots-missed %lu restarts %lu gaps %lu "
            "transitions %lu number %u%s",
            counts.commands, counts.again, line.unsent, counts.answers, counts.useless, line.damaged, counts.slots_missed,
            counts.restarts, counts.gaps + tables.gaps, counts.transitions, cpu.poller.number, end);
}

/* ---- The link ---- */

static void send_command(size_t length) {
    if (length == 0) return;
    tables_add_frame(&tables, '>', cpu.command, length);
    if (line_send(&line, cpu.command, length) != 0) fail("the line", strerror(errno));
    counts.commands++;
}

/* Each 10 ms. */
static void begin_slot(int is_ending) {
    int is_under_way = cpu.length > 0;
    size_t length = is_ending ? controller_link_finish(&cpu, (uint32_t)milliseconds())
                              : controller_link_next(&cpu, (uint32_t)milliseconds());
    counts.again += is_under_way && length > 0;
    send_command(length);
}

static void add_block(const struct controller_heard *heard, const struct fio2070_record_item *items) {
    size_t place;
    for (place = 0; place < heard->items; place++) items[place].gap ? counts.gaps++ : counts.transitions++;
    tables_add_block(&tables, items, heard->items, (heard->status & FIO2070_BIT_AGAIN) != 0, cpu.poller.number);
}

/* A module that is new to this table was reset at some time, as each was. */
static void add_restart(void) {
    if (!tables.was_kept && !tables.is_number_lost && !cpu.is_configured) return;
    counts.restarts++;
    tables_add_restart(&tables, cpu.poller.number);
}

static void hear(const uint8_t *octets, size_t length) {
    struct fio2070_record_item items[FIO2070_MOST_RECORD_ITEMS];
    struct controller_heard heard = controller_link_hear(&cpu, octets, length, items);
    tables_add_frame(&tables, '<', octets, length);
    if (heard.has_stamp) tables_set_clock(&tables, heard.stamp);
    counts.answers += heard.kind != CONTROLLER_USELESS;
    switch (heard.kind) {
    case CONTROLLER_USELESS: counts.useless++; break;
    case CONTROLLER_ANSWERED: break;
    case CONTROLLER_TAKEN: add_block(&heard, items); break;
    case CONTROLLER_RESTARTED: add_restart(); break;
    case CONTROLLER_REFUSED: fail("the module", "it refuses the configuration");
    }
    if (heard.is_asked_next) send_command(controller_link_next(&cpu, (uint32_t)milliseconds()));
}

/* ---- The loop ---- */

static int opened_timer(void) {
    const struct itimerspec slot = {{0, SLOT_MS * 1000000}, {0, SLOT_MS * 1000000}};
    int file = timerfd_create(CLOCK_MONOTONIC, TFD_CLOEXEC);
    if (file < 0 || timerfd_settime(file, 0, &slot, NULL) != 0) fail("the timer", strerror(errno));
    return file;
}

static int opened_signals(void) {
    sigset_t ending;
    sigemptyset(&ending);
    sigaddset(&ending, SIGINT);
    sigaddset(&ending, SIGTERM);
    sigprocmask(SIG_BLOCK, &ending, NULL);
    signal(SIGPIPE, SIG_IGN);
    return signalfd(-1, &ending, SFD_CLOEXEC | SFD_NONBLOCK);
}

/* Returns how many signals have come that end the controller. */
static int signals_taken(int signals) {
    struct signalfd_siginfo taken;
    int count = 0;
    while (read(signals, &taken, sizeof taken) == sizeof taken) count++;
    return count;
}

/* A slot begins; where the machine was too busy for some, they are counted. */
static void take_slots(int timer, int is_ending) {
    static unsigned long slots;
    uint64_t expired = 0;
    if (read(timer, &expired, sizeof expired) != sizeof expired) return;
    counts.slots_missed += (unsigned long)expired - 1;
    begin_slot(is_ending);
    if (++slots % SHOW_SLOTS == 0 && isatty(STDERR_FILENO)) show_counts("\r");
}

static void run(int64_t seconds, int64_t wait) {
    struct pollfd ready[] = {{line.file, POLLIN, 0}, {opened_timer(), POLLIN, 0}, {opened_signals(), POLLIN, 0}};
    int64_t until = milliseconds() + seconds * 1000;
    int ends = 0, was_ending = 0;
    while (ends == 0 || (ends == 1 && cpu.length > 0 && !line.is_full && milliseconds() < until)) {
        if (poll(ready, 3, -1) < 0 && errno != EINTR) fail("poll", strerror(errno));
        if (ready[0].revents != 0 && line_receive(&line, hear) != 0) fail("the line", errno ? strerror(errno) : "it has ended");
        if (ready[1].revents != 0) take_slots(ready[1].fd, ends > 0);
        ends += signals_taken(ready[2].fd);
        if (ends == 0 && seconds > 0 && milliseconds() >= until) ends = 1;
        if (ends > 0 && !was_ending) until = milliseconds() + wait * 1000;
        was_ending = ends > 0;
    }
}

/* ---- The start ---- */

/* All inputs are reported, with these filters. */
static struct controller_settings settings_with(uint32_t deadline_ms) {
    static struct fio2070_configuration_item items[INPUTS];
    struct controller_settings settings = {0, LOOK_MS, items, INPUTS};
    uint8_t input;
    for (input = 0; input < INPUTS; input++) {
        items[input].input = input;
        items[input].leading = items[input].trailing = FILTER_MS;
    }
    settings.deadline_ms = deadline_ms;
    return settings;
}

static void usage(void) {
    fputs(help, stderr);
    exit(2);
}

static long number_of(const char *word, long least, long most) {
    char *end = NULL;
    long number = strtol(word, &end, 10);
    if (end == word || *end != '\0' || number < least || number > most) usage();
    return number;
}

static void set_channel(char *word) {
    static int is_first = 1;
    char *sign = strchr(word, '=');
    size_t input;
    if (sign == NULL) usage();
    *sign = '\0';
    for (input = 0; is_first && input < INPUTS; input++) tables.channels[input] = TABLES_NO_CHANNEL;
    is_first = 0;
    tables.channels[number_of(word, 0, INPUTS - 1)] = (int)number_of(sign + 1, 1, 255);
}

int main(int count, char **words) {
    static const struct option options[] = {
        {"deadline", 1, NULL, 'd'}, {"keep", 1, NULL, 'k'}, {"fast", 0, NULL, 'f'}, {"transcript", 1, NULL, 't'},
        {"events", 1, NULL, 'e'}, {"on", 1, NULL, 'o'}, {"channel", 1, NULL, 'c'}, {"seconds", 1, NULL, 's'}, {"wait", 1, NULL, 'w'},
        {NULL, 0, NULL, 0}};
    const char *keep = NULL, *transcript = NULL, *events = NULL;
    long seconds = 0, wait = WAIT_S, deadline = DEADLINE_MS;
    int option;
    tables.on = -1;
    for (option = 0; option < INPUTS; option++) tables.channels[option] = option + 1;
    while ((option = getopt_long(count, words, "d:k:ft:e:o:c:s:w:", options, NULL)) != -1) {
        switch (option) {
        case 'd': deadline = number_of(optarg, 1, 10000); break;
        case 'k': keep = optarg; break;
        case 'f': tables.is_fast = 1; break;
        case 't': transcript = optarg; break;
        case 'e': events = optarg; break;
        case 'o': tables.on = (int)number_of(optarg, 0, 1); break;
        case 'c': set_channel(optarg); break;
        case 's': seconds = number_of(optarg, 1, 1000000); break;
        case 'w': wait = number_of(optarg, 0, 1000000); break;
        default: usage();
        }
    }
    if (count - optind != 2 || (events != NULL && tables.on < 0)) usage();
    if (line_open(&line, words[optind]) != 0) fail(words[optind], strerror(errno));
    if (tables_open(&tables, words[optind + 1], events, transcript, keep) != 0) fail("its files", strerror(errno));
    if (controller_link_start(&cpu, settings_with((uint32_t)deadline), tables.number) != 0) fail("configuration", "it is none");
    run(seconds, wait);
    line_close(&line);
    show_counts("\n");
    if (tables_close(&tables) != 0) fail("its files", strerror(errno));
    return cpu.length > 0;
}
