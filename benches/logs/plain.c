/* Counts the frames of a log by type, as a C program with stdio does it: the octets of a line are the hexadecimal digits after its
 * direction. It knows the form of the log, judges nothing and writes the counts. The measure for `fiolog` (../logs.py). */
#include <stdio.h>
#include <string.h>

enum { BLOCK = 182, CONFIGURATION = 51, MOST_OCTETS = 784 };

struct counts {
    unsigned long lines, frames, entries, types[256];
};

static int digit(char c) {
    if (c >= '0' && c <= '9') return c - '0';
    if (c >= 'a' && c <= 'f') return c - 'a' + 10;
    if (c >= 'A' && c <= 'F') return c - 'A' + 10;
    return -1;
}

/* The octets of the digits, with or without blanks between octets; 0 if something else is there. */
static size_t octets_of(const char *text, unsigned char *octets) {
    size_t count = 0;
    for (;;) {
        while (*text == ' ') text++;
        if (*text == '\n' || *text == '\0') return count;
        int high = digit(text[0]), low = high < 0 ? -1 : digit(text[1]);
        if (low < 0 || count == MOST_OCTETS) return 0;
        octets[count++] = (unsigned char)(16 * high + low);
        text += 2;
    }
}

/* The digits of a line are after the first ">", "<", "TX" or "RX". */
static const char *after_direction(const char *line) {
    const char *found = strpbrk(line, "><X");
    return found ? found + 1 : NULL;
}

static void count_line(struct counts *counts, const char *line) {
    unsigned char octets[MOST_OCTETS];
    const char *text = after_direction(line);
    size_t count = text ? octets_of(text, octets) : 0;
    counts->lines++;
    if (count == 0) return;
    counts->frames++;
    counts->types[octets[0]]++;
    if (octets[0] == BLOCK && count > 2 && count == 8 + 3 * (size_t)octets[2]) counts->entries += octets[2];
    if (octets[0] == CONFIGURATION && count > 1 && count == 2 + 3 * (size_t)octets[1]) counts->entries += octets[1];
}

int main(void) {
    static char line[4096];
    struct counts counts = {0};
    while (fgets(line, sizeof line, stdin)) count_line(&counts, line);
    printf("lines %lu, frames %lu, entries %lu\n", counts.lines, counts.frames, counts.entries);
    for (int type = 0; type < 256; type++) {
        if (counts.types[type]) printf("type %d: %lu\n", type, counts.types[type]);
    }
    return 0;
}
