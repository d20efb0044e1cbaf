/* The module, or the CPU's end, with its faults answers the lines of fio2070-test, as an adapter does. */
#define _POSIX_C_SOURCE 200809L
#include "conformance_clock.h"
#include "conformance_octets.h"
#include "quirks.h"

#include <signal.h>
#include <string.h>

/* Whether it says on standard error why it ends. */
static int speaks;

void crash(void) {
    if (speaks) fputs("module: bad access\n", stderr);
    raise(SIGSEGV);
}

void hang(void) {
    volatile int is_held = 1;
    while (is_held) continue;
}

/* Reads the next line, without its end. Returns NULL if there is none. */
static char *next_line(void) {
    static char line[2 * CONFORMANCE_LONGEST_FRAME + 32];
    fflush(stdout);
    if (fgets(line, sizeof line, stdin) == NULL) return NULL;
    line[strcspn(line, "\n")] = '\0';
    return line;
}

static size_t read_octets(const char *words, uint8_t *octets) {
    return conformance_read_octets(words, octets, CONFORMANCE_LONGEST_FRAME);
}

static void write_octets(const char *word, const uint8_t *octets, size_t length) {
    fputs(length > 0 ? word : "none", stdout);
    conformance_write_octets(octets, length, stdout);
    puts("");
}

static void exchange(const struct maker *maker, const char *words) {
    uint8_t frame[CONFORMANCE_LONGEST_FRAME], answer[FIO2070_LONGEST_FRAME];
    size_t count = maker->exchange(NULL, frame, read_octets(words, frame), answer);
    write_octets("answer ", answer, count);
}

static uint64_t read_levels(const char *words) {
    uint8_t octets[CONFORMANCE_LONGEST_FRAME];
    uint64_t levels = 0;
    int octet;
    read_octets(words, octets);
    for (octet = 7; octet >= 0; octet--) levels = levels << 8 | octets[octet];
    return levels;
}

/* Answers the lines of standard input; with a clock it samples each millisecond. */
void serve(const struct maker *maker, int has_clock) {
    const char *line;
    uint64_t levels = ~UINT64_C(0);
    long scanned = conformance_now_ms(), now;
    speaks = 1;
    maker->reset(NULL);
    while ((line = next_line()) != NULL) {
        for (now = conformance_now_ms(); has_clock && scanned < now; scanned++) maker->step(NULL, levels);
        if (strncmp(line, "frame ", 6) == 0) {
            exchange(maker, line + 6);
        } else {
            if (strncmp(line, "inputs ", 7) == 0) levels = read_levels(line + 7);
            if (strncmp(line, "inputs ", 7) == 0 && !has_clock) maker->step(NULL, levels);
            if (strncmp(line, "reset", 5) == 0) maker->reset(NULL);
            if (strncmp(line, "sync", 4) == 0) maker->line_sync(NULL);
            puts("done");
        }
    }
}

/* Passes a frame to the CPU's end, and writes the number after it, and what its record gains. */
static void hear(const struct cpu_maker *maker, const char *words) {
    static struct fio2070_record_item items[FIO2070_MOST_RECORD_ITEMS];
    uint8_t frame[CONFORMANCE_LONGEST_FRAME];
    size_t count = maker->hear(NULL, frame, read_octets(words, frame), items), place;
    printf("record %02x", maker->number(NULL));
    for (place = 0; place < count; place++) {
        const struct fio2070_record_item *item = &items[place];
        if (item->gap) printf(" gap");
        if (!item->gap) printf(" %02x%02x%04x%08lx", item->input, item->state, item->stamp, (unsigned long)item->wide);
    }
    puts("");
}

void serve_cpu(const struct cpu_maker *maker) {
    const char *line;
    uint8_t frame[FIO2070_LONGEST_FRAME], number = 0;
    speaks = 1;
    maker->reset(NULL, number);
    while ((line = next_line()) != NULL) {
        if (strncmp(line, "hear ", 5) == 0) {
            hear(maker, line + 5);
        } else if (strncmp(line, "poll", 4) == 0) {
            write_octets("frame ", frame, maker->poll(NULL, frame));
        } else {
            read_octets(line + 6, &number);
            maker->reset(NULL, number);
            puts("done");
        }
    }
}
