/* Reads frames in hexadecimal, one a line, and writes what each says, as `fio2070 show` does.
 * A frame whose first octet is 128 or more is read as an answer, any other as a command. An empty
 * line, and a line whose first octet is #, are skipped. The status is 1 if some line is faulty.
 *
 *     cc -I include examples/c/decode.c libfio2070.a -o decode
 *     ./decode < examples/every-type.frames
 */
#include "fio2070.h"

#include <stdio.h>
#include <string.h>

enum { LONGEST_INPUT = 1048576, LONGEST_LINE = LONGEST_INPUT / 2 };

static char input[LONGEST_INPUT + 1];
static uint8_t frame[LONGEST_LINE];

static void print_octets(const uint8_t *octets, size_t length) {
    size_t place;
    for (place = 0; place < length; place++) printf("%02x", octets[place]);
}

/* The octets after the type, and a dash where there are none. */
static void print_body(uint8_t code, const uint8_t *octets, size_t length) {
    printf("other %u body ", code);
    print_octets(octets + 1, length - 1);
    puts(length == 1 ? "-" : "");
}

/* The levels of the inputs, input 0 in the lowest bit of the first octet. */
static void print_inputs(const char *name, const struct fio2070_answer *answer) {
    uint64_t rest = answer->inputs;
    int octet;
    printf("%s ", name);
    for (octet = 0; octet < 8; octet++, rest >>= 8) printf("%02x", (unsigned)(rest & 255));
    printf(" stamp %lu\n", (unsigned long)answer->stamp);
}

static void print_items(const uint8_t *octets, size_t length) {
    struct fio2070_configuration_item items[FIO2070_MOST_ENTRIES];
    size_t count, place;
    count = fio2070_command_items(octets, length, items, FIO2070_MOST_ENTRIES);
    printf("configure inputs %lu\n", (unsigned long)count);
    for (place = 0; place < count; place++) {
        printf("  input %u ignore %u leading %u trailing %u\n", items[place].input, items[place].ignore,
               items[place].leading, items[place].trailing);
    }
}

static void print_block(const struct fio2070_answer *answer, const uint8_t *octets, size_t length) {
    struct fio2070_entry entries[FIO2070_MOST_ENTRIES];
    size_t count, place;
    count = fio2070_block_entries(octets, length, entries, FIO2070_MOST_ENTRIES);
    printf("block %u entries %lu status %02x stamp %lu\n", answer->block, (unsigned long)count, answer->status,
           (unsigned long)answer->stamp);
    for (place = 0; place < count; place++) {
        printf("  input %u state %u stamp %u wide %lu\n", entries[place].input, entries[place].state,
               entries[place].stamp, (unsigned long)fio2070_widen(answer->stamp, entries[place].stamp));
    }
}

static void print_command(const struct fio2070_command *command, const uint8_t *octets, size_t length) {
    switch (command->code) {
    case FIO2070_TYPE_STATUS: printf("status clear %02x\n", command->clear); break;
    case FIO2070_TYPE_LOAD_COUNTER: printf("load counter %lu\n", (unsigned long)command->load); break;
    case FIO2070_TYPE_CONFIGURE_INPUTS: print_items(octets, length); break;
    case FIO2070_TYPE_RAW_INPUTS: puts("raw inputs"); break;
    case FIO2070_TYPE_FILTERED_INPUTS: puts("filtered inputs"); break;
    case FIO2070_TYPE_POLL: printf("poll block %u\n", command->block); break;
    case FIO2070_TYPE_SET_OUTPUTS:
        printf("set outputs data ");
        print_octets(command->levels, 8);
        printf(" control ");
        print_octets(command->controls, 8);
        puts("");
        break;
    case FIO2070_TYPE_WATCHDOG: printf("watchdog ms %u\n", command->timeout); break;
    case FIO2070_TYPE_IDENTIFY: puts("identify"); break;
    default: print_body(command->code, octets, length);
    }
}

static void print_answer(const struct fio2070_answer *answer, const uint8_t *octets, size_t length) {
    switch (answer->code - FIO2070_TYPE_ANSWER) {
    case FIO2070_TYPE_STATUS:
        printf("status flags %02x receive %u transmit %u stamp %lu\n", answer->flags, answer->receive_errors,
               answer->transmit_errors, (unsigned long)answer->stamp);
        break;
    case FIO2070_TYPE_LOAD_COUNTER: printf("counter load status %02x\n", answer->status); break;
    case FIO2070_TYPE_CONFIGURE_INPUTS: printf("configure status %02x\n", answer->status); break;
    case FIO2070_TYPE_RAW_INPUTS: print_inputs("raw inputs", answer); break;
    case FIO2070_TYPE_FILTERED_INPUTS: print_inputs("filtered inputs", answer); break;
    case FIO2070_TYPE_POLL: print_block(answer, octets, length); break;
    case FIO2070_TYPE_WATCHDOG: printf("watchdog status %02x\n", answer->status); break;
    default: print_body(answer->code, octets, length);
    }
}

/* Prints what a frame says. Returns 1 where it spells no message. */
static int print_frame(unsigned long line, const uint8_t *octets, size_t length) {
    struct fio2070_command command;
    struct fio2070_answer answer;
    struct fio2070_fault fault;
    char text[FIO2070_LONGEST_TEXT];
    if (octets[0] < 128) {
        fault = fio2070_decode_command(octets, length, &command);
        if (fault.kind == FIO2070_FAULT_NONE) print_command(&command, octets, length);
    } else {
        fault = fio2070_decode_answer(octets, length, &answer);
        if (fault.kind == FIO2070_FAULT_NONE) print_answer(&answer, octets, length);
    }
    if (fault.kind == FIO2070_FAULT_NONE) return 0;
    if (fio2070_fault_text(&fault, text, sizeof text) < sizeof text) printf("line %lu: %s\n", line, text);
    return 1;
}

static int digit_of(char digit) {
    if ('0' <= digit && digit <= '9') return digit - '0';
    if ('a' <= digit && digit <= 'f') return digit - 'a' + 10;
    if ('A' <= digit && digit <= 'F') return digit - 'A' + 10;
    return -1;
}

/* Reads pairs of hexadecimal digits into `frame`. Returns how many, 0 where the line is anything else. */
static size_t read_octets(const char *line, size_t length) {
    size_t place;
    if (length % 2 != 0) return 0;
    for (place = 0; place < length; place += 2) {
        int high = digit_of(line[place]), low = digit_of(line[place + 1]);
        if (high < 0 || low < 0) return 0;
        frame[place / 2] = (uint8_t)(16 * high + low);
    }
    return length / 2;
}

static int print_line(unsigned long number, const char *line, size_t length) {
    size_t count;
    if (length == 0 || line[0] == '#') return 0;
    count = read_octets(line, length);
    if (count == 0) {
        printf("line %lu: bad line\n", number);
        return 1;
    }
    return print_frame(number, frame, count);
}

int main(void) {
    size_t start = 0, length = fread(input, 1, sizeof input, stdin);
    unsigned long number = 1;
    int status = 0;
    if (length > LONGEST_INPUT) {
        puts("input too long");
        return 1;
    }
    while (start < length) {
        const char *end = (const char *)memchr(input + start, '\n', length - start);
        size_t count = end == NULL ? length - start : (size_t)(end - (input + start));
        status |= print_line(number++, input + start, count);
        start += count + 1;
    }
    return status;
}
