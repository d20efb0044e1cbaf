/* What a controller writes down: a table of transitions, the same as high-resolution events, the frames, and the number that it
 * keeps for its next run.
 *
 * A block is written down before its number is kept. If the controller ends in between, its next run asks for the block again
 * and gets it again, with E. So the number is kept with the lengths that the tables had then, and what is beyond them is cut off
 * before such a block is written: each block is written once, wherever a run ends.
 *
 * If the power fails, the disk may have less than was written. So the tables are on the disk before the number is, and the number
 * before the next poll is sent (`is_fast` leaves this out). And where the tables are shorter than the number says, or the number
 * is lost, they are ended at their last whole rows, and a row `gap` says that some are missing. */
#ifndef TABLES_H
#define TABLES_H

#include <fio2070.h>

#include <stdio.h>

enum { TABLES_INPUTS = 64, TABLES_NO_CHANNEL = -1 };

struct tables {
    FILE *csv, *events, *transcript; /* the latter two may be NULL */
    int keep;                        /* a file, or -1 */
    int is_fast;                     /* nothing waits for the disk */
    int was_kept;                    /* a run before has kept its number, which is `number` */
    int is_number_lost;              /* it has not, but there was one */
    unsigned long gaps;              /* rows `gap` that are not the module's: what a run before wrote is missing */
    uint8_t number;
    long long csv_kept, events_kept; /* their lengths in octets when the number was kept */
    int may_be_written_before;       /* the next block may be in the tables already */
    int on;                     /* the state of an input that is a detector's on, 0 or 1 */
    int channels[TABLES_INPUTS];
    long long clock_ms; /* the time of day when the module's counter was `stamp` */
    uint32_t stamp;
};

/* Opens the table of transitions, and the other files if they have a name. With `keep` it goes on with them, without it begins
 * them. If another controller has one of them, it says so and ends the program. Returns 0, or -1 with errno. */
int tables_open(struct tables *tables, const char *csv, const char *events, const char *transcript, const char *keep);
/* Writes a frame that was sent (`>`) or heard (`<`). */
void tables_add_frame(struct tables *tables, char direction, const uint8_t *octets, size_t length);
/* Says what the module's counter is now, so that its times are times of day from here on. */
void tables_set_clock(struct tables *tables, uint32_t stamp);
/* Writes a block, and keeps the number of the next one. `is_again` says that the block has E. */
void tables_add_block(struct tables *tables, const struct fio2070_record_item *items, size_t count, int is_again,
                      uint8_t next_number);
/* Writes that the module was started anew. */
void tables_add_restart(struct tables *tables, uint8_t number);
/* Returns 0, or -1 with errno if something could not be written. */
int tables_close(struct tables *tables);

#endif
