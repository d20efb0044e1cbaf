/* The module's side of the wire, in C: reads the lines of fio2070-test, and answers each. Here the module is the proved
 * one; a maker puts their own in its place. With the word `clock` it samples each millisecond by the machine's clock.
 *
 *     cc -I include tools/conformance/adapters/adapter.c libfio2070.a -o adapter
 *     fio2070-test --command ./adapter
 *     fio2070-test --own-clock --command './adapter clock' 20000
 */
#define _POSIX_C_SOURCE 200809L
#include <fio2070.h>

#include <stdio.h>
#include <string.h>
#include <time.h>

static struct fio2070_module module;
static uint64_t levels = ~(uint64_t)0;

/* Takes the samples of the milliseconds since the last call. */
static void catch_up(void) {
    static int64_t scanned;
    struct timespec now;
    int64_t ms;
    clock_gettime(CLOCK_MONOTONIC, &now);
    ms = (int64_t)now.tv_sec * 1000 + now.tv_nsec / 1000000;
    for (scanned = scanned == 0 ? ms : scanned; scanned < ms; scanned++) fio2070_module_scan(&module, levels);
}

/* Reads pairs of hexadecimal digits up to the end of the line. Returns how many. */
static size_t read_octets(const char *words, uint8_t *octets, size_t most) {
    size_t length = 0;
    unsigned octet;
    while (length < most && sscanf(words, "%2x", &octet) == 1) {
        octets[length++] = (uint8_t)octet;
        words += 2;
    }
    return length;
}

static void set_inputs(const char *words, int has_clock) {
    uint8_t octets[8] = {0};
    uint64_t inputs = 0;
    int octet;
    read_octets(words, octets, 8);
    for (octet = 7; octet >= 0; octet--) inputs = inputs << 8 | octets[octet];
    levels = inputs;
    if (!has_clock) fio2070_module_scan(&module, inputs);
}

static void exchange(const char *words) {
    uint8_t frame[1024], answer[FIO2070_LONGEST_FRAME];
    size_t length = read_octets(words, frame, sizeof frame), place;
    size_t count = fio2070_module_receive(&module, frame, length, answer, sizeof answer);
    if (count > sizeof answer) count = 0; /* no command */
    printf(count > 0 ? "answer " : "none");
    for (place = 0; place < count; place++) printf("%02x", answer[place]);
    puts("");
}

int main(int count, char **words) {
    static char line[2100];
    struct fio2070_limits limits = FIO2070_STANDARD_LIMITS;
    int has_clock = count == 2 && strcmp(words[1], "clock") == 0;
    if (fio2070_module_start(&module, 2, limits) != FIO2070_STARTED) return 1;
    while (fgets(line, sizeof line, stdin) != NULL) {
        if (has_clock) catch_up();
        if (strncmp(line, "frame ", 6) == 0) {
            exchange(line + 6);
        } else {
            if (strncmp(line, "reset", 5) == 0) fio2070_module_restart(&module);
            if (strncmp(line, "sync", 4) == 0) fio2070_module_line_sync(&module);
            if (strncmp(line, "inputs ", 7) == 0) set_inputs(line + 7, has_clock);
            puts("done");
        }
        fflush(stdout);
    }
    return 0;
}
