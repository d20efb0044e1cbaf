/* Runs each group of calls with pseudo-random input, and writes the sum of what it returned: equal sums, equal builds.
 *
 *     sums CASES SEED
 */
#include "../random_frames.h"
#include "calls.h"

#include <stdio.h>
#include <stdlib.h>
#include <string.h>

enum { MOST_INPUT = 8000 };

static const char *const WORDS[] = {"36 05", "b6 00 00 00 00 00 00 01", "3605", "31 80", "0x36, 0x05", "\\x36\\x05", "> ", "< ",
                                    " TX: ", " RX ", "12:00:01.123 ", "2026-11-27 08:00:00 ", "\t", "[", "]", "|", "\n", "\n", "\n", "\r\n",
                                    "7e", "\xef\xbb\xbf", "\033[0m", "#", "FF", "..", "0000: ", "abcdef"};

static uint8_t octets[MOST_INPUT + 2 * LONGEST + 24];

static size_t put_number(size_t length, size_t number) {
    octets[length++] = LONG;
    octets[length++] = (uint8_t)number;
    octets[length++] = (uint8_t)(number >> 8);
    return length;
}

/* Frames that are nearly right, between random octets. */
static size_t make_frames(void) {
    size_t length = 0, most = below(MOST_INPUT);
    while (length < most) {
        uint8_t frame[LONGEST + 1];
        size_t count = fill(frame), between = below(24);
        while (between-- > 0) octets[length++] = (uint8_t)below(LONG);
        length = put_number(length, count);
        memcpy(octets + length, frame, count);
        length += count;
    }
    return length;
}

/* Lines of a log, in pieces. */
static size_t make_log(void) {
    size_t length = 1, most = below(MOST_INPUT);
    octets[0] = (uint8_t)below(4);
    while (length < most) {
        size_t begins = length, end = length + 3 + below(400);
        length += 3;
        while (length < end) {
            const char *word = WORDS[below(sizeof WORDS / sizeof WORDS[0])];
            if (below(16) == 0) octets[length++] = (uint8_t)next_random();
            memcpy(octets + length, word, strlen(word));
            length += strlen(word);
        }
        put_number(begins, length - begins - 3);
    }
    return length;
}

int main(int count, char **words) {
    unsigned long cases = count > 1 ? strtoul(words[1], NULL, 10) : 100, number;
    int group;
    random_state = count > 2 ? strtoul(words[2], NULL, 10) : 1;
    for (group = 0; group < GROUPS; group++) {
        sum = UINT64_C(14695981039346656037);
        for (number = 0; number < cases; number++) {
            struct input input;
            seeks_frames = GROUP_CALLS[group] != call_log_reader;
            input.left = seeks_frames ? make_frames() : make_log();
            input.octets = octets;
            GROUP_CALLS[group](&input);
        }
        printf("%d %08lx%08lx\n", group, (unsigned long)(sum >> 32), (unsigned long)(sum & 0xffffffff));
    }
    return 0;
}
