/* Both ends of the library over a bus that loses and repeats frames, with outages, overflows, restarts and limits at random.
 * Each answer is that of a module written from docs/PROTOCOL.md (../planted), octet by octet; each item that the poller records
 * is that of a CPU's end written from it, and the module's next transition, but where a gap mark is. Each run ends on a good
 * bus, on which all that waits has to come. In a third of the runs the bus repeats nothing, and an answer comes before
 * the next poll or never: then neither checker may say anything.
 *
 *     soak SCANS SEED
 *
 * The last line says what was done; the status is 1 if something is wrong.
 */
#include "../encode.h"
#include "../planted/module.h"
#include "../random_numbers.h"

#include <stdio.h>
#include <stdlib.h>
#include <string.h>

enum { ALL_INPUTS = 64, ON_THE_WAY = 64, LONGEST_RUN = 22000, LONGEST_OUTAGE = 4000 };

struct frame {
    uint8_t octets[FIO2070_LONGEST_FRAME];
    size_t length;
};

struct transition {
    uint8_t input, state;
    uint32_t at; /* the counter at its scan */
};

/* All transitions since the start or the last restart, in order, and how many of them are recorded, or passed over at a mark. */
struct history {
    struct transition *list;
    size_t count, room, next;
};

/* The frames on their way to an end, in order. */
struct way {
    struct frame frames[ON_THE_WAY];
    unsigned first, count;
};

struct counts {
    unsigned long runs, scans, polls, lost, repeated, restarts, outages, items, marks;
};

/* A run. */
struct run {
    struct fio2070_sized_module module;
    struct fio2070_slot slots[ROOM];
    struct fio2070_poller poller;
    struct fio2070_checker checker;
    struct fio2070_content_checker content;
    struct fio2070_configuration_item items[ALL_INPUTS];
    const struct maker *model;
    const struct cpu_maker *recorder;
    struct history history;
    struct way to_module, to_cpu;
    struct counts counts;
    uint64_t levels;
    unsigned density;            /* of changes: 0 single inputs, 1 a quarter, 2 all */
    unsigned lost, repeated;     /* frames in a hundred */
    unsigned outage;             /* events that are left of one */
    int is_orderly;
};

static struct run run;

static void require(int holds, const char *what) {
    if (holds) return;
    printf("WRONG: %s, in run %lu, at counter %lu\n", what, run.counts.runs, (unsigned long)module.counter);
    exit(1);
}

/* No right end comes here. */
void crash(void) { require(0, "an end that crashes"); }
void hang(void) { require(0, "an end that hangs"); }

static int happens(unsigned of_hundred) { return below(100) < of_hundred; }

/* ---- The bus ---- */

static void send(struct way *way, const uint8_t *octets, size_t length) {
    struct frame *frame = &way->frames[(way->first + way->count) % ON_THE_WAY];
    if (way->count == ON_THE_WAY) {
        run.counts.lost++;
        return;
    }
    memcpy(frame->octets, octets, length);
    frame->length = length;
    way->count++;
}

static int is_lost(void) {
    int lost = run.outage > 0 || happens(run.lost);
    run.counts.lost += (unsigned)lost;
    return lost;
}

/* Takes the next frame of a way to its end, once or twice, or loses it. */
static void deliver(struct way *way, void (*take)(const uint8_t *octets, size_t length)) {
    const struct frame *frame = &way->frames[way->first];
    int again;
    if (way->count == 0) return;
    way->first = (way->first + 1) % ON_THE_WAY;
    way->count--;
    if (is_lost()) return;
    again = happens(run.repeated);
    run.counts.repeated += (unsigned)again;
    take(frame->octets, frame->length);
    if (again) take(frame->octets, frame->length);
}

/* ---- The ends ---- */

/* What the module of the library answers, compared with the model's answer. Returns how many octets it has. */
static size_t answer_to(const uint8_t *command, size_t length, uint8_t answer[FIO2070_LONGEST_FRAME]) {
    uint8_t expected[FIO2070_LONGEST_FRAME];
    size_t count = fio2070_sized_module_receive(&run.module, FIO2070_RING(run.slots), command, length, answer, FIO2070_LONGEST_FRAME);
    require(count == run.model->exchange(NULL, command, length, expected) && memcmp(answer, expected, count) == 0, "the module's answer");
    return count;
}

static void take_poll(const uint8_t *octets, size_t length) {
    uint8_t answer[FIO2070_LONGEST_FRAME];
    send(&run.to_cpu, answer, answer_to(octets, length, answer));
}

/* What a scan of the model changed is a transition, of the lower input first. */
static void keep_transitions(uint64_t before) {
    struct history *history = &run.history;
    uint64_t changed = (module.filtered ^ before) & ~module.ignored;
    uint8_t input;
    if (history->room < history->count + ALL_INPUTS) {
        history->room = 2 * history->room + ALL_INPUTS;
        history->list = (struct transition *)realloc(history->list, history->room * sizeof *history->list);
        if (history->list == NULL) abort();
    }
    for (input = 0; input < ALL_INPUTS; input++) {
        struct transition one = {input, (uint8_t)(module.filtered >> input & 1), module.counter};
        if (changed >> input & 1) history->list[history->count++] = one;
    }
}

static int is_same(const struct transition *one, const struct fio2070_record_item *item) {
    return one->input == item->input && one->state == item->state && (one->at & 0xffff) == item->stamp;
}

/* Each item is the next transition, which a gap mark leaves open. */
static void follow(const struct fio2070_record_item *items, size_t count, uint32_t stamp) {
    struct history *history = &run.history;
    for (; count > 0; count--, items++) {
        if (items->gap) {
            run.counts.marks++;
            while (count > 1 && history->next < history->count && !is_same(&history->list[history->next], items + 1)) history->next++;
            continue;
        }
        require(history->next < history->count && is_same(&history->list[history->next], items), "an item is not the next transition");
        /* The time is known if the block was made within 65,535 ms. */
        if (stamp - history->list[history->next].at < 65536) require(items->wide == history->list[history->next].at, "the wide time");
        history->next++;
        run.counts.items++;
    }
}

/* The poller hears a block, now and then with too little room first. */
static void take_block(const uint8_t *octets, size_t length) {
    struct fio2070_record_item items[FIO2070_MOST_RECORD_ITEMS], wanted[FIO2070_MOST_RECORD_ITEMS];
    struct fio2070_heard heard;
    int is_due = octets[1] == run.recorder->number(NULL);
    const uint8_t *tail = octets + length - 4;
    size_t expected = run.recorder->hear(NULL, octets, length, wanted), room = below(20) == 0 ? below(257) : sizeof items / sizeof *items, place;
    memset(items, 0, sizeof items);
    heard = fio2070_poller_hear(&run.poller, octets, length, items, room);
    if (expected > room) {
        require(heard.kind == FIO2070_HEARD_NO_ROOM && run.poller.number == octets[1], "a block without room");
        heard = fio2070_poller_hear(&run.poller, octets, length, items, sizeof items / sizeof *items);
    }
    require((heard.kind == FIO2070_HEARD_TAKEN) == is_due, "which block is taken");
    if (!is_due) return;
    require(heard.items == expected, "the number of items");
    for (place = 0; place < expected; place++) {
        require(items[place].gap == wanted[place].gap && (items[place].gap || (items[place].input == wanted[place].input &&
                items[place].state == wanted[place].state && items[place].stamp == wanted[place].stamp &&
                items[place].wide == wanted[place].wide)), "an item is not its entry");
    }
    follow(items, expected, (uint32_t)tail[0] << 24 | (uint32_t)tail[1] << 16 | (uint32_t)tail[2] << 8 | tail[3]);
    require(run.poller.number == run.recorder->number(NULL), "the next number");
}

static size_t poll_to(uint8_t octets[2]) {
    run.counts.polls++;
    return fio2070_poller_poll(&run.poller, octets, 2);
}

/* A poll and its answer before anything else; the checkers see what is on the CPU's side. */
static void exchange(void) {
    uint8_t poll[2], answer[FIO2070_LONGEST_FRAME];
    struct fio2070_breach breach;
    struct fio2070_content_breach content;
    size_t length = poll_to(poll), count;
    require(fio2070_checker_sent(&run.checker, poll, length, &breach) == FIO2070_RULE_NONE, "a poll is accused");
    fio2070_content_sent(&run.content, poll, length);
    if (is_lost()) return;
    count = answer_to(poll, length, answer);
    if (is_lost()) return;
    require(fio2070_checker_heard(&run.checker, answer, count, &breach) == FIO2070_RULE_NONE, "an answer is accused");
    require(fio2070_content_heard(&run.content, answer, count, &content) == FIO2070_CONTENT_NONE, "its content is accused");
    take_block(answer, count);
}

/* ---- Events ---- */

static void scan(void) {
    uint64_t changes = run.density == 0 ? (uint64_t)1 << below(64) : run.density == 1 ? next_random() & next_random() : ~(uint64_t)0, before;
    if (below(3) != 0) run.levels ^= changes;
    before = module.filtered;
    run.model->step(NULL, run.levels);
    keep_transitions(before);
    fio2070_sized_module_scan(&run.module, FIO2070_RING(run.slots), run.levels);
    run.counts.scans++;
    require(fio2070_sized_module_state(&run.module).waiting == module.count, "how many entries wait");
}

static void configure(void) {
    uint8_t command[FIO2070_LONGEST_FRAME], answer[FIO2070_LONGEST_FRAME];
    size_t length = encode_items(run.items, ALL_INPUTS, command, sizeof command);
    require(answer_to(command, length, answer) == 2 && answer[0] == 179 && answer[1] == 0, "the configuration");
}

/* The module restarts, and nothing of before is on its way. */
static void restart(void) {
    run.counts.restarts++;
    fio2070_sized_module_restart(&run.module);
    run.model->reset(NULL);
    configure();
    run.history.count = run.history.next = 0;
    run.to_module.count = run.to_cpu.count = 0;
}

static void happen(void) {
    unsigned kind = below(10);
    if (run.outage > 0) {
        run.outage--;
    } else if (below(3000) == 0) {
        run.outage = below(LONGEST_OUTAGE);
        run.counts.outages++;
    }
    if (kind < 5) {
        scan();
    } else if (run.is_orderly) {
        exchange();
    } else if (kind < 7) {
        uint8_t poll[2];
        send(&run.to_module, poll, poll_to(poll));
    } else if (kind < 8) {
        deliver(&run.to_module, take_poll);
    } else {
        deliver(&run.to_cpu, take_block);
    }
    if (!run.is_orderly && below(5000) == 0) restart();
}

/* ---- Runs ---- */

/* Limits of all sizes, small ones often. */
static struct fio2070_limits some_limits(void) {
    struct fio2070_limits limits = FIO2070_STANDARD_LIMITS;
    unsigned kind = below(6);
    limits.waiting = (uint16_t)(1 + below(kind < 4 ? 1024 : kind == 4 ? 20 : ROOM));
    limits.per_block = (uint8_t)(1 + below(below(2) ? 255 : 5));
    return limits;
}

static void set_counter(uint32_t counter) {
    uint8_t command[5], answer[FIO2070_LONGEST_FRAME];
    struct fio2070_command load = command_of(FIO2070_TYPE_LOAD_COUNTER);
    size_t length;
    load.load = counter;
    length = fio2070_encode_command(&load, NULL, 0, NULL, 0, command, sizeof command);
    require(answer_to(command, length, answer) == 2 && answer[0] == 178, "the load of the counter");
    fio2070_sized_module_line_sync(&run.module);
    run.model->line_sync(NULL);
}

static void start(void) {
    struct fio2070_limits limits = some_limits();
    unsigned filter = 1 + below(6);
    uint8_t number = (uint8_t)below(256);
    size_t input;
    run.counts.runs++;
    require(fio2070_sized_module_start(&run.module, 2, limits) == FIO2070_STARTED, "the start");
    run.model = module_with(NULL, 0);
    Q(MOST_WAITING) = limits.waiting;
    Q(BLOCK_SIZE) = limits.per_block;
    Q(MORE_FROM) = limits.per_block + 1;
    run.model->reset(NULL);
    for (input = 0; input < ALL_INPUTS; input++) {
        struct fio2070_configuration_item *item = &run.items[input];
        item->input = (uint8_t)input;
        item->ignore = below(10) == 0;
        item->leading = (uint8_t)(below(2) ? filter : below(7));
        item->trailing = (uint8_t)(below(2) ? filter : below(7));
    }
    configure();
    if (below(2)) set_counter((uint32_t)next_random());
    run.history.count = run.history.next = 0;
    run.recorder = cpu_with(NULL, 0);
    run.recorder->reset(NULL, number);
    fio2070_poller_start(&run.poller, number);
    require(fio2070_checker_start_within(&run.checker, limits) == FIO2070_STARTED, "the checker's start");
    fio2070_content_start(&run.content);
    run.to_module.count = run.to_cpu.count = 0;
    run.levels = ~(uint64_t)0;
    run.density = below(3);
    run.is_orderly = below(3) == 0;
    run.lost = below(60);
    run.repeated = run.is_orderly ? 0 : below(40);
    run.outage = 0;
}

/* On a good bus all transitions come; those that the module pushed out were passed over. */
static void drain(void) {
    int rounds = Q(MOST_WAITING) / Q(BLOCK_SIZE) + 3;
    for (; rounds > 0; rounds--) {
        uint8_t poll[2], answer[FIO2070_LONGEST_FRAME];
        size_t length = poll_to(poll);
        take_block(answer, answer_to(poll, length, answer));
    }
    require(run.history.next == run.history.count, "not all came");
}

int main(int count, char **words) {
    unsigned long scans = count > 1 ? strtoul(words[1], NULL, 10) : 300000;
    const struct counts *counts = &run.counts;
    random_state = count > 2 ? strtoul(words[2], NULL, 10) : 1;
    while (counts->scans < scans) {
        unsigned events = 2000 + below(LONGEST_RUN - 2000);
        start();
        while (events-- > 0) happen();
        drain();
    }
    printf("right: runs %lu scans %lu polls %lu lost %lu repeated %lu restarts %lu outages %lu items %lu marks %lu\n",
           counts->runs, counts->scans, counts->polls, counts->lost, counts->repeated, counts->restarts, counts->outages,
           counts->items, counts->marks);
    return 0;
}
