/* Gives random frames and a lossy link to the library without its reader of logs, in 8 KB of memory, and writes a number that
 * depends on all that its calls answer, after each frame: the same text on each processor. On an AVR the text goes to the first
 * serial port, and the program ends as simavr expects it. */
#include "encode.h"
#include "fio2070.h"
#include "random_frames.h"

#include <stdio.h>
#include <string.h>

enum { FRAMES = 60, SCANS = 400, MOST = 16, ROOM = 37 };

static uint32_t hash = 2166136261u;
static uint8_t frame[LONGEST + 1], written[FIO2070_LONGEST_FRAME];
static char text[FIO2070_LONGEST_TEXT];
static struct fio2070_configuration_item items[MOST];
static struct fio2070_entry entries[MOST];
static struct fio2070_record_item record[MOST + 1];
static struct fio2070_slot slots[ROOM];
static struct fio2070_sized_module device;
static struct fio2070_poller poller;
static struct fio2070_checker checker;
static struct fio2070_content_checker content;

#ifdef __AVR__
#include <avr/io.h>
#include <avr/interrupt.h>
#include <avr/sleep.h>
static void put(char c) {
    loop_until_bit_is_set(UCSR0A, UDRE0);
    UDR0 = (uint8_t)c;
}
static void end(void) {
    cli();
    sleep_mode();
}
#else
static void put(char c) { putchar(c); }
static void end(void) {}
#endif

static void mix(const void *octets, size_t count) {
    const uint8_t *it = (const uint8_t *)octets;
    while (count-- > 0) hash = (hash ^ *it++) * 16777619u;
}
/* Numbers are mixed by their octets from the least on, whatever the processor's order. */
static void number(uint64_t n) {
    for (; n > 0; n >>= 8) mix((const uint8_t[]){(uint8_t)n}, 1);
    mix("", 1);
}
/* A count, with the same octets for none whatever the size of size_t; the octets that were written into `written`. */
static size_t amount(size_t count, size_t room) {
    number(count == FIO2070_NO_MESSAGE ? 99999 : count);
    return count <= room ? count : 0;
}
static size_t wrote(size_t count) {
    count = amount(count, sizeof written);
    mix(written, count);
    return count;
}
static void write_fault(struct fio2070_fault fault) {
    number(fault.kind); number(fault.code); number(fault.needed); number(fault.got);
    mix(text, amount(fio2070_fault_text(&fault, text, sizeof text), sizeof text));
}
static void say(const char *what) {
    int place;
    while (*what) put(*what++);
    for (place = 28; place >= 0; place -= 4) put("0123456789abcdef"[hash >> place & 15]);
    put('\n');
}

static void read_frame(size_t length) {
    struct fio2070_command command;
    struct fio2070_answer answer;
    struct fio2070_block_header header;
    size_t count, place;
    memset(&command, 9, sizeof command);
    write_fault(fio2070_decode_command(frame, length, &command));
    number(command.code); number(command.count); number(command.load); mix(command.levels, 8);
    memset(items, 3, sizeof items);
    count = amount(fio2070_command_items(frame, length, items, MOST), MOST);
    mix(items, sizeof items);
    wrote(encode_items(items, count, written, sizeof written));
    memset(&answer, 9, sizeof answer);
    write_fault(fio2070_decode_answer(frame, length, &answer));
    number(answer.code); number(answer.status); number(answer.stamp); number(answer.inputs);
    memset(&header, 9, sizeof header);
    write_fault(fio2070_read_block(frame, length, &header));
    count = amount(fio2070_block_entries(frame, length, entries, MOST), MOST);
    for (place = 0; place < count; place++) number(fio2070_widen(header.stamp, entries[place].stamp));
    wrote(encode_block(header.number, entries, count, header.status, header.stamp, written, sizeof written));
    wrote(encode_body((uint8_t)(55 + below(5)), frame, length, written, sizeof written));
}

static void judge(int is_sent, const uint8_t *octets, size_t length) {
    struct fio2070_breach breach;
    struct fio2070_content_breach content_breach;
    number(is_sent ? fio2070_checker_sent(&checker, octets, length, &breach)
                   : fio2070_checker_heard(&checker, octets, length, &breach));
    mix(text, amount(fio2070_rule_text(breach.rule, text, sizeof text), sizeof text));
    if (is_sent) fio2070_content_sent(&content, octets, length);
    else number(fio2070_content_heard(&content, octets, length, &content_breach));
}

static size_t answered(const uint8_t *octets, size_t length) {
    return wrote(fio2070_sized_module_receive(&device, FIO2070_RING(slots), octets, length, written, sizeof written));
}

/* A poll, which is lost, or whose answer is. */
static void poll(void) {
    size_t length = fio2070_poller_poll(&poller, frame, sizeof frame), count, place;
    struct fio2070_heard heard;
    judge(1, frame, length);
    if (below(5) == 0) return;
    count = answered(frame, length);
    if (below(5) == 0) return;
    judge(0, written, count);
    heard = fio2070_poller_hear(&poller, written, count, record, MOST + 1);
    number(heard.kind); number(heard.number); number(heard.items); number(heard.stamp);
    mix(text, amount(fio2070_heard_text(&heard, text, sizeof text), sizeof text));
    for (place = 0; heard.kind == FIO2070_HEARD_TAKEN && place < heard.items; place++) {
        number(record[place].gap); number(record[place].input); number(record[place].state); number(record[place].wide);
    }
}

static void begin(void) {
    struct fio2070_limits limits = {ROOM, 20, 0};
    size_t place, length;
    number(fio2070_sized_module_start(&device, 2, limits));
    fio2070_poller_start(&poller, 7);
    fio2070_checker_start(&checker);
    fio2070_content_start(&content);
    memset(items, 0, sizeof items);
    for (place = 0; place < MOST; place++) {
        items[place].input = (uint8_t)place;
        items[place].leading = items[place].trailing = (uint8_t)(1 + below(3));
    }
    length = encode_items(items, MOST, frame, sizeof frame);
    answered(frame, length);
}

int main(void) {
    uint64_t levels = ~(uint64_t)0;
    size_t length;
    int turn;
    random_state = 20261127;
    begin();
    for (turn = 0; turn < FRAMES; turn++) {
        length = fill(frame);
        read_frame(length);
        say("frame ");
    }
    for (turn = 0; turn < SCANS; turn++) {
        if (below(4) == 0) levels ^= next_random() & next_random() & next_random();
        fio2070_sized_module_scan(&device, FIO2070_RING(slots), levels);
        number(fio2070_sized_module_state(&device).waiting);
        if (below(7) == 0) poll();
    }
    number(fio2070_sized_module_state(&device).counter); number(fio2070_sized_module_state(&device).filtered);
    say("link ");
    end();
    return 0;
}
