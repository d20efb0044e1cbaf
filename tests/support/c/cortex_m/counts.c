/* What calls cost on a Cortex-M4 under `qemu-system-arm -icount shift=0`, which makes an instruction take a nanosecond: lines
 * `instructions CASE NUMBER`, with the call, and `stack CALL NUMBER`, in octets, by a stack that is painted before the
 * call. */
#include "../encode.h"
#include "fio2070.h"

#include <stdio.h>
#include <string.h>

enum { TIMES = 100, PAINTED = 12288, PAINT = 0xA5 };

/* Timer 0 of the board counts down, one step each 40 ns. */
static volatile uint32_t *const timer = (volatile uint32_t *)0x40000000;
static uint32_t spent, started;
static void start_timer(void) { timer[2] = timer[1] = 0xFFFFFFFFu; timer[0] = 1; }
static void from_here(void) { started = timer[1]; }
static void to_here(void) { spent += started - timer[1]; }

static struct fio2070_module device;
static struct fio2070_filters filters;
static struct fio2070_poller poller;
static struct fio2070_checker checker;
static struct fio2070_breach breach;
static struct fio2070_content_checker content;
static struct fio2070_content_breach content_breach;
static struct fio2070_command command;
static struct fio2070_answer answer;
static struct fio2070_block_header header;
static struct fio2070_fault fault;
static struct fio2070_heard heard;
static struct fio2070_configuration_item items[FIO2070_MOST_ENTRIES];
static struct fio2070_entry entries[FIO2070_MOST_ENTRIES];
static struct fio2070_record_item record[FIO2070_MOST_RECORD_ITEMS];
static uint8_t frame[FIO2070_LONGEST_FRAME], block[FIO2070_LONGEST_FRAME], out[FIO2070_LONGEST_FRAME];
static struct fio2070_wire wire;
static uint8_t line[FIO2070_WIRE_LONGEST];
static size_t line_length;
static char text[12288];
static size_t length, block_length, count;
static uint64_t levels;
static uint8_t number;

/* ---- The cases ---- */

static void scan(void) { fio2070_module_scan(&device, levels); }
static void poll(void) { block_length = fio2070_module_receive(&device, frame, length, block, sizeof block); }
static void hear(void) { heard = fio2070_poller_hear(&poller, block, block_length, record, FIO2070_MOST_RECORD_ITEMS); }
static void receive(void) { count = fio2070_module_receive(&device, frame, length, out, sizeof out); }

static void start(void) {
    static const struct fio2070_limits limits = FIO2070_STANDARD_LIMITS;
    count = fio2070_module_start(&device, 2, limits);
}

/* A module with open inputs and filters of 1, with all levels 1. */
static void begin(void) {
    unsigned place;
    for (place = 0; place < FIO2070_MOST_ENTRIES; place++) {
        items[place].input = (uint8_t)(place % 64);
        items[place].leading = items[place].trailing = 1;
        items[place].ignore = 0;
    }
    start();
    length = encode_items(items, 64, frame, sizeof frame);
    receive();
    levels = ~(uint64_t)0;
}

static void say(const char *what) {
    printf("instructions %s %lu\n", what, (unsigned long)((uint64_t)spent * 40 / TIMES));
    spent = 0;
}

static void count_scans(const char *what, uint64_t flips) {
    int time;
    begin();
    for (time = 0; time < TIMES; time++) {
        levels ^= flips;
        from_here();
        scan();
        to_here();
    }
    say(what);
}

/* This many changes, of one input after another. */
static void change(unsigned changes) {
    while (changes-- > 0) {
        levels ^= (uint64_t)1 << changes % 64;
        scan();
    }
}

static void count_polls(const char *poll_case, const char *again, const char *hear_case, unsigned changes) {
    uint32_t polls = 0, agains = 0, hears = 0;
    int time;
    begin();
    fio2070_poller_start(&poller, number = 0);
    for (time = 0; time < TIMES; time++) {
        change(changes);
        fio2070_poller_start(&poller, ++number);
        length = fio2070_poller_poll(&poller, frame, sizeof frame);
        spent = 0; from_here(); poll(); to_here(); polls += spent;
        spent = 0; from_here(); hear(); to_here(); hears += spent;
        spent = 0; from_here(); poll(); to_here(); agains += spent;
    }
    spent = polls; say(poll_case);
    spent = hears; say(hear_case);
    spent = agains; say(again);
}

static void count_configurations(const char *what, size_t most) {
    int time;
    begin();
    length = encode_items(items, most, frame, sizeof frame);
    for (time = 0; time < TIMES; time++) {
        from_here();
        receive();
        to_here();
    }
    say(what);
}

static void write_frame(void) {
    line_length = fio2070_wire_write(FIO2070_WIRE_ADDRESS, FIO2070_WIRE_CONTROL, block, FIO2070_LONGEST_FRAME, line, sizeof line);
}

static void read_frame(void) {
    size_t place;
    uint8_t heard;
    for (place = 0; place < line_length; place++) count += fio2070_wire_read(&wire, line + place, 1, &heard);
}

/* The longest frame, of which few octets are stuffed. */
static void count_frames(const char *write_case, const char *read_case) {
    int time;
    fio2070_wire_start(&wire, FIO2070_WIRE_ADDRESS, FIO2070_WIRE_CONTROL);
    for (time = 0; time < TIMES; time++) {
        from_here();
        write_frame();
        to_here();
    }
    say(write_case);
    for (time = 0; time < TIMES; time++) {
        from_here();
        read_frame();
        to_here();
    }
    spent /= (uint32_t)line_length;
    say(read_case);
}

/* ---- The stack ---- */

static void nothing(void) {}
static void decode_command(void) { fault = fio2070_decode_command(frame, length, &command); }
static void command_items(void) { count = fio2070_command_items(frame, length, items, FIO2070_MOST_ENTRIES); }
static void configure(void) { count = fio2070_filters_configure(&filters, items, FIO2070_MOST_ENTRIES).kind; }
static void filters_scan(void) { levels = fio2070_filters_scan(&filters, ~levels); }
static void write_items(void) { length = encode_items(items, FIO2070_MOST_ENTRIES, frame, sizeof frame); }
static void decode_answer(void) { fault = fio2070_decode_answer(block, block_length, &answer); }
static void read_block(void) { fault = fio2070_read_block(block, block_length, &header); }
static void block_entries(void) { count = fio2070_block_entries(block, block_length, entries, FIO2070_MOST_ENTRIES); }
static void write_block(void) { count = encode_block(1, entries, FIO2070_MOST_ENTRIES, 0, 9, out, sizeof out); }
static void poller_poll(void) { count = fio2070_poller_poll(&poller, out, sizeof out); }
static void show(void) { count = fio2070_show(block, block_length, text, sizeof text); }
static void fault_text(void) { count = fio2070_fault_text(&fault, text, sizeof text); }
static void sent(void) { fio2070_checker_sent(&checker, frame, length, &breach); }
static void checked(void) { fio2070_checker_heard(&checker, block, block_length, &breach); }
static void content_sent(void) { fio2070_content_sent(&content, frame, length); }
static void content_heard(void) { fio2070_content_heard(&content, block, block_length, &content_breach); }

/* The octets of stack that a call writes below this function. */
static uint32_t __attribute__((noinline)) stack_under(void (*call)(void)) {
    uint32_t place = 0;
    volatile uint8_t *lowest = (volatile uint8_t *)__builtin_frame_address(0) - PAINTED;
    for (place = 0; place < PAINTED; place++) lowest[place] = PAINT;
    call();
    for (place = 0; place < PAINTED && lowest[place] == PAINT; place++) {}
    return PAINTED - place;
}

static void say_stack(const char *what, void (*call)(void)) {
    printf("stack %s %lu\n", what, (unsigned long)(stack_under(call) - stack_under(nothing)));
}

static void count_stacks(void) {
    begin();
    write_items();
    say_stack("module_start", start);
    say_stack("module_receive, 255 items", receive);
    say_stack("decode_command, 255 items", decode_command);
    say_stack("command_items, 255 items", command_items);
    say_stack("checker_sent, 255 items", sent);
    fio2070_content_start(&content);
    say_stack("content_sent, 255 items", content_sent);
    fio2070_filters_start(&filters);
    say_stack("filters_configure, 255 items", configure);
    say_stack("filters_scan", filters_scan);
    say_stack("encode_command, 255 items", write_items);
    change(255);
    levels = ~levels;
    say_stack("module_scan, 64 changes", scan);
    begin();
    change(255);
    fio2070_poller_start(&poller, 1);
    length = fio2070_poller_poll(&poller, frame, sizeof frame);
    say_stack("poller_poll", poller_poll);
    say_stack("module_receive, poll", poll);
    say_stack("poller_hear, 255 entries", hear);
    say_stack("checker_heard, 255 entries", checked);
    fio2070_content_start(&content);
    fio2070_content_sent(&content, (const uint8_t[]){54, block[1]}, 2);
    say_stack("content_heard, 255 entries", content_heard);
    say_stack("decode_answer, 255 entries", decode_answer);
    say_stack("read_block, 255 entries", read_block);
    say_stack("block_entries, 255 entries", block_entries);
    say_stack("encode_answer, 255 entries", write_block);
    say_stack("show, 255 entries", show);
    say_stack("fault_text", fault_text);
    say_stack("wire_write, 773 octets", write_frame);
    say_stack("wire_read", read_frame);
}

int main(void) {
    start_timer();
    count_scans("module_scan, nothing changes", 0);
    count_scans("module_scan, inputs 0 and 1 change", 3);
    count_scans("module_scan, inputs 0 and 63 change", UINT64_C(0x8000000000000001));
    count_scans("module_scan, 64 inputs change", ~(uint64_t)0);
    count_polls("module_receive, poll, 20 entries", "module_receive, poll again, 20 entries", "poller_hear, 20 entries", 20);
    count_polls("module_receive, poll, 255 entries", "module_receive, poll again, 255 entries", "poller_hear, 255 entries", 255);
    count_configurations("module_receive, 64 items", 64);
    count_configurations("module_receive, 255 items", FIO2070_MOST_ENTRIES);
    count_frames("wire_write, 773 octets", "wire_read, an octet");
    count_stacks();
    return 0;
}
