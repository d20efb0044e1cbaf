/* A controller of examples/ whose power fails: its tables and its number, with a module in the same process and no clock.
 *
 *     power FOLDER SEED
 *
 * Inputs of the module move, and each move is written to standard output. Meanwhile the controller ends once, and its files become
 * what a disk may have of them. At the end: marks of lost rows where
 * none is lost, and how often a number was kept whose table was not on the disk. */
#define _DEFAULT_SOURCE
#define _FILE_OFFSET_BITS 64
#include "controller_link.h"
#include "tables.h"

#include <fcntl.h>
#include <stdio.h>
#include <stdlib.h>
#include <string.h>
#include <sys/file.h>
#include <sys/stat.h>
#include <unistd.h>

enum { INPUTS = 64, SLOT_MS = 10, KEPT_LINE = 46, STEADY_MS = 15 };

static struct fio2070_module module;
static struct controller_link cpu;
static struct tables tables;
static char csv[4096], number[4096], before[KEPT_LINE + 1];
static uint64_t levels = ~UINT64_C(0);
static uint32_t now, moved_at[INPUTS];
static long long synced;
static unsigned long unsynced;
static int is_whole; /* the disk has all */
static int is_block_last; /* a block was heard, and no command was sent since */

/* ---- What reaches the disk ---- */

int __wrap_fdatasync(int file);
ssize_t __wrap_pwrite64(int file, const void *line, size_t count, off_t place);
ssize_t __real_pwrite64(int file, const void *line, size_t count, off_t place);

int __wrap_fdatasync(int file) {
    struct stat found;
    if (fstat(file, &found) != 0) return -1;
    if (file == fileno(tables.csv)) synced = found.st_size;
    return 0;
}

ssize_t __wrap_pwrite64(int file, const void *line, size_t count, off_t place) {
    long long length = 0;
    sscanf(line, "%*u %lld", &length);
    unsynced += length > synced || (fcntl(file, F_GETFL) & O_DSYNC) == 0;
    return __real_pwrite64(file, line, count, place);
}

/* ---- The two ends ---- */

static void start(void) {
    static struct fio2070_configuration_item items[INPUTS];
    struct controller_settings settings = {50, 1000, items, INPUTS};
    uint8_t input;
    memset(&tables, 0, sizeof tables);
    for (input = 0; input < INPUTS; input++) {
        items[input].input = input;
        items[input].leading = items[input].trailing = 5;
        tables.channels[input] = TABLES_NO_CHANNEL;
    }
    tables.keep = -1;
    if (tables_open(&tables, csv, NULL, NULL, number) != 0) exit(3);
    if (controller_link_start(&cpu, settings, tables.number) != 0) exit(3);
}

static void keep_before(void) {
    ssize_t count = pread(tables.keep, before, KEPT_LINE, 0);
    before[count > 0 ? count : 0] = '\0';
}

static void hear(const uint8_t *octets, size_t length) {
    struct fio2070_record_item items[FIO2070_MOST_RECORD_ITEMS];
    struct controller_heard heard;
    keep_before();
    heard = controller_link_hear(&cpu, octets, length, items);
    if (heard.has_stamp) tables_set_clock(&tables, heard.stamp);
    is_block_last = heard.kind == CONTROLLER_TAKEN;
    if (is_block_last) tables_add_block(&tables, items, heard.items, (heard.status & FIO2070_BIT_AGAIN) != 0, cpu.poller.number);
    if (heard.kind == CONTROLLER_RESTARTED) tables_add_restart(&tables, cpu.poller.number);
}

static void move_some(int is_moving) {
    int count = is_moving ? rand() % 6 : 0;
    uint8_t input;
    for (input = (uint8_t)(rand() % 8); count > 0 && input < INPUTS; input = (uint8_t)(input + 1 + rand() % 16)) {
        if (now - moved_at[input] <= STEADY_MS) continue;
        levels ^= UINT64_C(1) << input;
        moved_at[input] = now;
        printf("%u %u\n", input, (unsigned)(levels >> input & 1));
        count--;
    }
}

/* A slot: inputs move, the module scans, a command may go to it, and one frame in ten is lost. */
static void slot(int is_moving, int has_controller) {
    uint8_t answer[FIO2070_LONGEST_FRAME];
    size_t length;
    int ms;
    for (ms = 0; ms < SLOT_MS; ms++, now++) {
        if (ms == 0) move_some(is_moving);
        fio2070_module_scan(&module, levels);
    }
    if (!has_controller || (length = controller_link_next(&cpu, now)) == 0) return;
    is_block_last = 0;
    if (rand() % 10 == 0) return;
    length = fio2070_module_receive(&module, cpu.command, length, answer, sizeof answer);
    if (length > 0 && rand() % 10 != 0) hear(answer, length);
}

static void slots(int count, int is_moving, int has_controller) {
    while (count-- > 0) slot(is_moving, has_controller);
}

/* ---- The power ---- */

static long long length_of(const char *name) {
    struct stat found;
    return stat(name, &found) == 0 ? (long long)found.st_size : 0;
}

static void cut(const char *name, long long least) {
    long long length = length_of(name);
    if (length > least && truncate(name, least + rand() % (length - least)) != 0) exit(3);
}

/* What the disk has after the power has failed. */
static void fail_power(void) {
    long long length = 0;
    switch (rand() % 7) {
    case 0:
    case 1: cut(csv, 0); break;
    case 2: cut(number, 0); break;
    case 3: cut(csv, 0); cut(number, 0); break;
    case 4: /* the block was written, the number was not */
        if (!is_block_last || strlen(before) != KEPT_LINE) break;
        if (truncate(number, 0) != 0 || pwrite(tables.keep, before, KEPT_LINE, 0) != KEPT_LINE) exit(3);
        sscanf(before, "%*u %lld", &length);
        cut(csv, length);
        break;
    case 5: remove(csv); break; /* it was moved away */
    case 6: is_whole = 1; break; /* the controller was killed */
    }
    synced = length_of(csv);
}

int main(int count, char **words) {
    const struct fio2070_limits limits = FIO2070_STANDARD_LIMITS;
    unsigned long unfounded;
    if (count != 3) return 2;
    snprintf(csv, sizeof csv, "%s/record.csv", words[1]);
    snprintf(number, sizeof number, "%s/number", words[1]);
    srand((unsigned)atoi(words[2]));
    if (fio2070_module_start(&module, 2, limits) != FIO2070_STARTED) return 3;
    start();
    slots(50, 0, 1);
    unfounded = tables.gaps;
    slots(20 + rand() % 200, 1, 1);
    fail_power();
    flock(fileno(tables.csv), LOCK_UN); /* what it has not written yet is lost */
    close(tables.keep);
    slots(rand() % 5, 1, 0);
    start();
    slots(150, 1, 1);
    slots(100, 0, 1);
    fprintf(stderr, "marks without a reason %lu\n", unfounded + (is_whole ? tables.gaps : 0));
    fprintf(stderr, "unsynced %lu\n", unsynced);
    return tables_close(&tables) != 0;
}
