/* The lines of fio2070-test on the second UART (tools/conformance/README.md), each answered by one line, and one line more,
 * `counts`, for what the firmware measures. */
#include "firmware.h"

#include <string.h>

enum { LONGEST_LINE = 2054 };

static void say(const char *words) { uart_send(&tester_uart, words, strlen(words)); }

static int digit_of(char character) {
    static const char digits[] = "0123456789abcdef";
    const char *found = strchr(digits, character | 0x20);
    return character != '\0' && found != NULL ? (int)(found - digits) : -1;
}

/* Reads pairs of hexadecimal digits up to the end of the line, over the digits themselves: the pair at 2 * count is read before
 * the octet at `count` is written. Returns how many octets there are, or -1 if there is anything else. */
static int read_octets(char *words) {
    int count = 0;
    for (; words[2 * count] != '\0'; count++) {
        int high = digit_of(words[2 * count]), low = high < 0 ? -1 : digit_of(words[2 * count + 1]);
        if (low < 0) return -1;
        ((uint8_t *)words)[count] = (uint8_t)(high << 4 | low);
    }
    return count;
}

/* The levels of eight octets: input 0 is the lowest bit of the first. */
static uint64_t levels_of(const uint8_t *octets) {
    uint64_t read = 0;
    int place;
    for (place = 7; place >= 0; place--) read = read << 8 | octets[place];
    return read;
}

static void say_answer(size_t count) {
    static const char digits[] = "0123456789abcdef";
    size_t place;
    if (count == 0 || count > sizeof answer) {
        say("none\n");
        return;
    }
    say("answer ");
    for (place = 0; place < count; place++) {
        const char pair[2] = {digits[answer[place] >> 4], digits[answer[place] & 15]};
        uart_send(&tester_uart, pair, sizeof pair);
    }
    say("\n");
}

static void say_number(const char *name, uint32_t number) {
    char digits[12] = "";
    size_t place = sizeof digits - 1;
    do digits[--place] = (char)('0' + number % 10);
    while ((number /= 10) > 0);
    say(name);
    say(digits + place);
}

static void say_counts(void) {
    say_number("scans ", counts.scans);
    say_number(" late ", counts.late);
    say_number(" longest-scan-us ", counts.longest_scan);
    say_number(" longest-hold-us ", counts.longest_hold);
    say_number(" octets-lost ", link_uart.lost + tester_uart.lost);
    say_number(" receive-errors ", receive_errors());
    say_number(" waiting ", (uint32_t)waiting());
    say_number(" relays ", relays());
    say_number(" stack ", stack_used());
    say("\n");
}

/* Answers a line. */
static void answer_line(char *line) {
    int count;
    if (strcmp(line, "reset") == 0) {
        restart();
        say("done\n");
    } else if (strncmp(line, "inputs ", 7) == 0 && read_octets(line + 7) == 8) {
        set_levels(levels_of((const uint8_t *)line + 7));
        say("done\n");
    } else if (strcmp(line, "sync") == 0) {
        line_sync_rises();
        say("done\n");
    } else if (strncmp(line, "frame ", 6) == 0 && (count = read_octets(line + 6)) >= 0) {
        say_answer(receive((const uint8_t *)line + 6, (size_t)count));
    } else if (strcmp(line, "counts") == 0) {
        say_counts();
    } else {
        say("no such line\n");
    }
}

void tester_item(uint16_t item) {
    static char line[LONGEST_LINE + 1];
    static size_t length;
    char octet = (char)item;
    if (item & UART_LOSS) length = LONGEST_LINE + 1;
    if (octet == '\r') return;
    if (octet != '\n') {
        if (length <= LONGEST_LINE) line[length++] = octet;
        return;
    }
    line[length <= LONGEST_LINE ? length : 0] = '\0'; /* a line that is too long, or lost an octet, is none */
    length = 0;
    answer_line(line);
}
