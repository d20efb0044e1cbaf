#define _DEFAULT_SOURCE
/* Files above 2 GB, and times after 2038, on processors of 32 bits too. */
#define _FILE_OFFSET_BITS 64
#define _TIME_BITS 64
#include "tables.h"

#include <errno.h>
#include <fcntl.h>
#include <stdlib.h>
#include <string.h>
#include <sys/file.h>
#include <sys/stat.h>
#include <time.h>
#include <unistd.h>

/* Codes of high-resolution events: detector off and on. Their parameter is the detector's channel. */
enum { DETECTOR_OFF = 81, DETECTOR_ON = 82 };
/* The line that is kept: the number, and the lengths of the tables. */
enum { KEPT_LINE = 3 + 1 + 20 + 1 + 20 + 1 };

static const char first_row[] = "time,input,state,wide\n";

static long long now_ms(void) {
    struct timespec now;
    clock_gettime(CLOCK_REALTIME, &now);
    return (long long)now.tv_sec * 1000 + now.tv_nsec / 1000000;
}

static void fail(const char *what) {
    fprintf(stderr, "controller: %s: %s\n", what, strerror(errno));
    exit(1);
}

/* Writes what is held back. Returns the length of the file, 0 if there is none. */
static long long flushed(FILE *file) {
    if (file == NULL) return 0;
    if (fflush(file) != 0) fail("its tables");
    return ftello(file);
}

static void cut(FILE *file, long long length) {
    if (flushed(file) <= length) return;
    if (ftruncate(fileno(file), length) != 0 || fseeko(file, 0, SEEK_END) != 0) fail("its tables");
}

/* Ends the program if another controller writes this file. */
static void lock(int file, const char *name) {
    if (flock(file, LOCK_EX | LOCK_NB) == 0 || errno != EWOULDBLOCK) return;
    fprintf(stderr, "controller: %s: another controller has it\n", name);
    exit(1);
}

/* ---- The number that is kept ---- */

/* Opens the file of the number, and reads it. A line that is not whole is none. */
static int open_kept(struct tables *tables, const char *name) {
    char line[KEPT_LINE + 1] = "";
    unsigned number = 0;
    int is_new = access(name, F_OK) != 0;
    tables->keep = open(name, O_RDWR | O_CREAT | O_CLOEXEC | (tables->is_fast ? 0 : O_DSYNC), 0666);
    if (tables->keep < 0) return -1;
    lock(tables->keep, name);
    tables->was_kept = read(tables->keep, line, KEPT_LINE) == KEPT_LINE && line[KEPT_LINE - 1] == '\n' &&
                       sscanf(line, "%u %lld %lld", &number, &tables->csv_kept, &tables->events_kept) == 3 && number <= 255;
    if (tables->was_kept) tables->number = (uint8_t)number;
    else tables->csv_kept = tables->events_kept = 0;
    tables->is_number_lost = !is_new && !tables->was_kept;
    return 0;
}

/* Waits until what was added to a table is on the disk. Returns its length; that of the run before, if there is no table. */
static long long settled(const struct tables *tables, FILE *file, long long kept) {
    long long length = file == NULL ? kept : flushed(file);
    if (length != kept && !tables->is_fast && fdatasync(fileno(file)) != 0 && errno != EINVAL) fail("its tables");
    return length;
}

/* Keeps a number, by one write, once the tables that it tells of are on the disk. */
static void keep(struct tables *tables, uint8_t number) {
    char line[KEPT_LINE + 1];
    tables->may_be_written_before = 0;
    if (tables->keep < 0) {
        flushed(tables->csv);
        flushed(tables->events);
        return;
    }
    tables->csv_kept = settled(tables, tables->csv, tables->csv_kept);
    tables->events_kept = settled(tables, tables->events, tables->events_kept);
    snprintf(line, sizeof line, "%03u %020lld %020lld\n", number, tables->csv_kept, tables->events_kept);
    if (pwrite(tables->keep, line, KEPT_LINE, 0) != KEPT_LINE) fail("the number that it keeps");
}

/* ---- Files ---- */

/* Returns the length of the whole rows in the first octets of a file. */
static long long whole_rows(FILE *file, long long length) {
    char part[4096];
    while (length > 0) {
        long long count = length < (long long)sizeof part ? length : (long long)sizeof part;
        if (pread(fileno(file), part, (size_t)count, (off_t)(length - count)) != count) fail("its tables");
        for (; count > 0 && part[count - 1] != '\n'; count--) length--;
        if (count > 0) return length;
    }
    return 0;
}

/* Ends a table at its last whole row. Returns whether rows are missing that it had when the number was kept. */
static int has_lost_rows(FILE *file, long long kept) {
    long long whole;
    if (file == NULL) return 0;
    whole = whole_rows(file, flushed(file));
    cut(file, whole);
    return whole < kept || whole_rows(file, kept) != kept;
}

/* Opens a file to go on with it, or to begin it: a pipe or a device as it is, any other for one controller at a time. */
static FILE *opened(const char *name, int goes_on) {
    struct stat state;
    FILE *stream = NULL;
    int file = open(name, (goes_on ? O_RDWR : O_WRONLY) | O_CREAT | O_CLOEXEC, 0666);
    int is_regular = file >= 0 && fstat(file, &state) == 0 && S_ISREG(state.st_mode);
    if (is_regular) lock(file, name);
    if (file >= 0 && (goes_on || !is_regular || ftruncate(file, 0) == 0)) stream = fdopen(file, goes_on ? "r+" : "w");
    if (stream != NULL) fseeko(stream, 0, SEEK_END);
    return stream;
}

static void add_mark(struct tables *tables, const char *word) {
    long long at = now_ms();
    fprintf(tables->csv, "%lld.%03lld,%s,,\n", at / 1000, at % 1000, word);
}

static void add_gap(struct tables *tables) {
    add_mark(tables, "gap");
    tables->gaps++;
}

/* Ends the files at their last whole rows, and marks where some are missing. */
static void go_on(struct tables *tables, const char *csv, const char *events) {
    int has_lost = has_lost_rows(tables->csv, tables->csv_kept);
    int has_lost_events = has_lost_rows(tables->events, tables->events_kept);
    has_lost_rows(tables->transcript, 0);
    if (flushed(tables->csv) <= 0) fputs(first_row, tables->csv);
    if (!tables->was_kept && flushed(tables->csv) > (long long)strlen(first_row)) tables->is_number_lost = 1;
    if (has_lost) fprintf(stderr, "controller: %s: it has lost rows since the run before; see its row gap\n", csv);
    if (has_lost_events) fprintf(stderr, "controller: %s: it has lost rows since the run before; %s has a row gap\n", events, csv);
    if (tables->is_number_lost) fprintf(stderr, "controller: the number of the run before is lost; %s has a row gap\n", csv);
    if (!has_lost && !has_lost_events && !tables->is_number_lost) return;
    add_gap(tables);
    if (!tables->is_number_lost) keep(tables, tables->number);
}

int tables_open(struct tables *tables, const char *csv, const char *events, const char *transcript, const char *keep_name) {
    int goes_on = keep_name != NULL;
    if (goes_on && open_kept(tables, keep_name) != 0) return -1;
    tables->csv = opened(csv, goes_on);
    if (tables->csv == NULL) return -1;
    if (events != NULL && (tables->events = opened(events, goes_on)) == NULL) return -1;
    if (transcript != NULL && (tables->transcript = opened(transcript, goes_on)) == NULL) return -1;
    go_on(tables, csv, events);
    tables->may_be_written_before = tables->was_kept || tables->is_number_lost;
    return 0;
}

int tables_close(struct tables *tables) {
    int failed = fclose(tables->csv) != 0;
    if (tables->events != NULL) failed |= fclose(tables->events) != 0;
    if (tables->transcript != NULL) failed |= fclose(tables->transcript) != 0;
    return failed ? -1 : 0;
}

/* ---- What is written ---- */

void tables_add_frame(struct tables *tables, char direction, const uint8_t *octets, size_t length) {
    if (tables->transcript == NULL || length == 0) return;
    fprintf(tables->transcript, "%c ", direction);
    while (length-- > 0) fprintf(tables->transcript, "%02x", *octets++);
    fputc('\n', tables->transcript);
    flushed(tables->transcript); /* so it has each command that was sent, wherever a run ends */
}

void tables_set_clock(struct tables *tables, uint32_t stamp) {
    tables->clock_ms = now_ms();
    tables->stamp = stamp;
}

/* The time of day in UTC, the code, the channel. */
static void add_event(struct tables *tables, const struct fio2070_record_item *item, long long at) {
    const time_t seconds = (time_t)(at / 1000);
    int channel = item->input < TABLES_INPUTS ? tables->channels[item->input] : TABLES_NO_CHANNEL;
    char day[32] = "";
    struct tm parts;
    if (tables->events == NULL || channel == TABLES_NO_CHANNEL) return;
    if (gmtime_r(&seconds, &parts) != NULL) strftime(day, sizeof day, "%Y-%m-%d %H:%M:%S", &parts);
    fprintf(tables->events, "%s.%03lld,%d,%d\n", day, at % 1000, item->state == tables->on ? DETECTOR_ON : DETECTOR_OFF, channel);
}

/* Prepares the tables for a block, which may be the first of this run. Returns whether it is to be written. */
static int is_written(struct tables *tables, int is_again) {
    if (!tables->may_be_written_before) return 1;
    if (tables->is_number_lost) return !is_again; /* else it may be in the tables: the row `gap` stands for it */
    if (is_again) {
        cut(tables->csv, tables->csv_kept);
        cut(tables->events, tables->events_kept);
    } else if (flushed(tables->csv) > tables->csv_kept || flushed(tables->events) > tables->events_kept) {
        add_gap(tables); /* the number is older than the tables, so another block was given up */
    }
    return 1;
}

void tables_add_block(struct tables *tables, const struct fio2070_record_item *items, size_t count, int is_again,
                      uint8_t next_number) {
    if (!is_written(tables, is_again)) count = 0;
    for (; count > 0; items++, count--) {
        long long at = tables->clock_ms + (int32_t)(items->wide - tables->stamp);
        if (items->gap) {
            add_mark(tables, "gap");
        } else {
            fprintf(tables->csv, "%lld.%03lld,%u,%u,%lu\n", at / 1000, at % 1000, items->input, items->state,
                    (unsigned long)items->wide);
            add_event(tables, items, at);
        }
    }
    keep(tables, next_number);
}

void tables_add_restart(struct tables *tables, uint8_t number) {
    add_mark(tables, "restart");
    keep(tables, number);
}
