/* Compares another maker's module, or another maker's CPU's end, with the proved one: both get the
 * same random scripts, and every octet of every answer is compared, or every poll, every item of the
 * record and the block number. A difference is shrunk to a short script, and the run goes on to others.
 *
 * A maker writes four functions over their module, or over their CPU's end, and calls conformance_main
 * or conformance_cpu_main. Link all files conformance*.c and libfio2070.a. README.md beside this file
 * says more.
 */
#ifndef CONFORMANCE_H
#define CONFORMANCE_H

#include "conformance_rules.h"
#include "fio2070.h"

#include <stdio.h>

#ifdef __cplusplus
extern "C" {
#endif

/* ---- What is under test ---- */

/* What `exchange`, `poll` and `hear` return if the end under test can't be asked any more: the run ends. */
#define CONFORMANCE_FAILED ((size_t)-1)

/* A module. */
struct maker {
    void *context;
    uint8_t id;        /* what it answers to command 60, one octet */
    uint8_t per_block; /* the most entries of its blocks, 1 to 255 (TEES 2009: 255) */
    void (*reset)(void *context);                 /* as after power on */
    void (*step)(void *context, uint64_t inputs); /* sets the 64 inputs, and steps one millisecond */
    void (*line_sync)(void *context);             /* LINESYNC goes from 0 to 1 */
    /* Passes it a frame. Returns how many octets the answer has, 0 if there is none. */
    size_t (*exchange)(void *context, const uint8_t *octets, size_t length, uint8_t answer[FIO2070_LONGEST_FRAME]);
    /* What no answer shows; NULL if it is not compared. */
    void (*outputs)(void *context, uint8_t levels[8], uint8_t controls[8]);
    uint8_t (*watchdog_ms)(void *context); /* 0 before the first command 58 */
};

/* A CPU's end. Here it sends polls alone: the tester sends the other commands. */
struct cpu_maker {
    void *context;
    void (*reset)(void *context, uint8_t number); /* as at its start; its first poll asks for this block */
    /* Its next poll, also if the poll before had no answer. Returns how many octets it has. */
    size_t (*poll)(void *context, uint8_t frame[FIO2070_LONGEST_FRAME]);
    /* Passes it a frame. Returns how many items this adds to its record, and writes them to `items`. */
    size_t (*hear)(void *context, const uint8_t *octets, size_t length,
                   struct fio2070_record_item items[FIO2070_MOST_RECORD_ITEMS]);
    uint8_t (*number)(void *context); /* of the block that its next poll asks for */
};

/* ---- Running ---- */

/* How often each comes at a module, in 1,000 events; the rest are scans. */
struct mix {
    unsigned polls;           /* with the next number */
    unsigned repeats;         /* with the number of the poll before, as after a loss */
    unsigned out_of_sequence; /* polls with any number */
    unsigned configurations;
    unsigned others; /* commands */
    unsigned syncs;
    unsigned hostile; /* octets that mostly spell no command */
    unsigned restarts;
    unsigned overflows; /* scripts in 1,000 in which all inputs change and few polls come */
    unsigned calm;      /* scripts in 1,000 with long filters, whose inputs seldom change */
    unsigned steady;    /* scripts in 1,000 of scans and polls alone, long enough for numbers to come round */
};

/* How often each comes at a CPU's end, in 1,000 polls. */
struct cpu_mix {
    unsigned lost_polls, lost_answers;
    unsigned late_answers; /* they come after the next poll, before its answer */
    unsigned repeats;      /* of a frame, in either direction */
    unsigned others;       /* commands, whose answers the CPU's end hears too */
    unsigned hostile;      /* octets that mostly spell no answer, and blocks with other numbers */
    unsigned overflows;    /* enough scans before a poll to push entries out */
    unsigned orderly;      /* scripts in 1,000 with losses alone, as `fio2070 check` supposes */
};

/* What serves for most. With these a run has scripts of edges too; with another mix it has random ones alone. */
extern const struct mix CONFORMANCE_MIX;
extern const struct cpu_mix CONFORMANCE_CPU_MIX;

/* Runs scripts of this many events in all, up to the first difference. Returns how many events the shortest
 * script has that shows it, and writes it to `out`; 0 if there is none; CONFORMANCE_FAILED if a call
 * returned that. */
size_t conformance_run(const struct maker *maker, const struct mix *mix, uint64_t seed, unsigned long events,
                       FILE *out);
size_t conformance_cpu_run(const struct cpu_maker *maker, const struct cpu_mix *mix, uint64_t seed,
                           unsigned long events, FILE *out);

/* The options of a run. With all numbers 0 and all pointers NULL it is a run of 1,000,000 events with the seed 1. */
struct options {
    unsigned long events;
    uint64_t seed;
    const struct mix *mix;
    const struct cpu_mix *cpu_mix;
    struct rule_set excepted; /* rules that the end under test need not keep */
    int stops;                /* at the first difference */
    int is_outside;           /* the end under test is no code of this process, so that no new process has a new one */
    FILE *kept;               /* the reports are written here too, for conformance_junit; NULL if none are wanted */
};

/* What follows: no trial, one of a difference that was seen, or many, in which a hang may be seen sooner. */
enum hurry { NO_TRIAL, TRIAL, HURRIED_TRIAL };

/* An end that is no code of this process: whether it failed, and how to go on. */
struct outside {
    void *context;
    const char *(*failure)(void *context); /* how it failed, in lines; NULL if it did not */
    int (*begin_anew)(void *context);      /* after a failure. Returns 0 if it can't be asked any more */
    void (*hurry)(void *context, enum hurry hurry);
};

/* What is under test: one of the two is NULL. */
struct ends {
    const struct maker *module;
    const struct cpu_maker *cpu;
    struct rule_set masked; /* rules in whose fields a difference is passed over */
    struct rule_set left_out; /* rules whose events are not done */
    int has_own_clock;        /* the module samples by a clock of its own: what depends on it is judged by bounds */
    unsigned long most_tried; /* events of trials that shrink a script; 0 for 20,000,000 */
    const struct outside *outside; /* NULL for an end that is code of this process */
    int guard_ms; /* calls of this process that crash, or go on for so long, are caught; 0: they are not */
};

/* What a run found. */
struct result {
    unsigned long events, exercised[RULES]; /* events that exercised each rule */
    unsigned long found[RULES];             /* the event of the run at which a difference in it came, from 1 */
    size_t shortest[RULES];                 /* how many events its script has; 0 if none was found */
    long begins[RULES], ends[RULES];        /* where its report is in `kept` */
    unsigned long once[RULES];              /* scripts with a difference in it that did not come again */
    struct rule_set reported;               /* rules with a difference that came again */
    struct rule_set also_left_out;          /* since a difference could not be told from those before */
    unsigned differences, reports;
    int has_failed; /* the end under test can't be asked any more, and the run ended */
    struct rule_set untold;     /* rules with differences that could not be told from those before */
    unsigned long untold_count; /* of these differences */
};

/* Runs random scripts, writes each rule in which a difference is found with its script, and goes on without what
 * exercises that rule. */
void conformance_test(const struct ends *ends, const struct options *options, struct result *result, FILE *out);

/* The proved ends as those under test. */
extern const struct maker CONFORMANCE_PROVED_MODULE;
extern const struct cpu_maker CONFORMANCE_PROVED_CPU;

/* What `main` of a tester does with its words, and its status: 0 if there is no difference, 1 if there is
 * one, 2 if the words or the script are faulty, 3 if a call failed. `--help` writes the words. */
int conformance_main(const struct maker *maker, int count, char **words);
int conformance_cpu_main(const struct cpu_maker *maker, int count, char **words);

/* The same for ends that are not code of this process, if `is_outside` is 1: no new process has a new one. */
int conformance_words(const struct ends *ends, int is_outside, int count, char **words);

/* ---- Scripts ---- */

enum event_kind {
    EVENT_SCAN,
    EVENT_SYNC,
    EVENT_RESTART,
    EVENT_FRAME,   /* `octets` come to the module */
    EVENT_POLL,    /* the CPU's end polls */
    EVENT_COMMAND, /* the tester sends `octets`, as a CPU does between its polls */
    EVENT_DELIVER, /* the frame that was sent last comes to the module */
    EVENT_ANSWER,  /* an answer comes to the CPU's end: the last one, or one `back` before it */
    EVENT_HEAR     /* `octets` come to the CPU's end */
};

/* What happens at the two ends, or on the bus. */
struct event {
    enum event_kind kind;
    unsigned back;
    size_t length; /* of a frame, at most CONFORMANCE_LONGEST_FRAME */
    const uint8_t *octets;
    uint64_t inputs; /* of a scan */
};

enum {
    CONFORMANCE_LONGEST = 100000,    /* events of a script */
    CONFORMANCE_LONGEST_FRAME = 1024 /* octets of a frame, also of one that is too long */
};

struct script {
    uint8_t id, per_block; /* of the module */
    uint8_t number;        /* of the first block that the CPU's end asks for */
    size_t length, room;
    struct event *events;
};

/* What the proved end and the one under test did at the last event. */
struct difference {
    uint32_t fields;           /* in which they differ: a FIELD_BIT for each */
    struct rule_set exercised; /* by the event */
    int has_failed;            /* the end under test can't be asked any more, and nothing was compared */
    int is_whole;              /* the script has events that the difference does not need: it was not shrunk */
    int is_reset_failed;       /* it failed when it was reset, and not when it was begun anew */
    char failure[1200];        /* how it crashed or hung at the last event, in lines; empty if it did not */
    size_t frame_length;       /* of the frame that came to the end under test */
    uint8_t frame[CONFORMANCE_LONGEST_FRAME];
    size_t expected_length, got_length; /* of the answers, or of the polls; 0 if the CPU's end heard a frame */
    uint8_t expected[FIO2070_LONGEST_FRAME], got[FIO2070_LONGEST_FRAME];
    uint8_t expected_outputs[16], got_outputs[16];
    uint8_t expected_timeout, got_timeout;
    uint8_t heard;                    /* what the frame was that the CPU's end heard: an enum fio2070_heard_kind */
    size_t expected_items, got_items; /* that the record gained */
    struct fio2070_record_item expected_record[FIO2070_MOST_RECORD_ITEMS], got_record[FIO2070_MOST_RECORD_ITEMS];
    uint8_t expected_number, got_number; /* of the CPU's end */
    char observed[120];                  /* what no clock of the module explains; empty if it has none of its own */
};

/* Empties a script, and forgets the octets of all frames; a script starts with all numbers 0 and NULL. */
void conformance_clear(struct script *script);

/* Adds an event, with a copy of its octets. Returns it; NULL if the script has CONFORMANCE_LONGEST. */
const struct event *conformance_add(struct script *script, const struct event *event);

/* Copies the events of a script, not their octets. */
void conformance_copy(struct script *to, const struct script *from);

/* Fills an empty script with events, mostly some hundred, now and then thousands, but at most this number. */
void conformance_random(struct script *script, const struct maker *maker, const struct mix *mix, size_t most,
                        uint64_t *state);
void conformance_cpu_random(struct script *script, const struct cpu_mix *mix, size_t most, uint64_t *state);

/* Runs a script on both ends. Returns 0 if everything is the same, otherwise the number of the event, from 1,
 * at which it is not. */
size_t conformance_compare(const struct ends *ends, const struct script *script, struct difference *difference);

/* Milliseconds that shrinking took in a run: of scripts that show a difference, and of those at which the end fails. */
struct spent {
    int64_t ms[2];
};

/* Leaves out of a script what its difference does not need; if `fresh` is not NULL, what it does not need in a new
 * process. The difference is then that of the last trial that showed one. Says on standard error that it goes on, if it takes
 * long. Returns 0 if it stopped at a bound of events or of time, which is lower once `spent` is much. */
struct fresh;
int conformance_shrink(const struct ends *ends, struct fresh *fresh, struct script *script, struct difference *difference,
                       struct spent *spent);

/* The rule that the difference at the end of a script is about. */
enum rule conformance_judge(const struct ends *ends, const struct script *script, const struct difference *difference);

/* Lets simulate's own ends send the frames of a script, if they can and the difference stays. */
void conformance_simulate(const struct ends *ends, struct fresh *fresh, struct script *script);

/* Writes a script in the format of `fio2070 simulate`, a line for each event. A frame that simulate's own ends
 * do not send has a line that simulate refuses. */
void conformance_write(const struct script *script, FILE *out);

/* A text with scripts, such as what a run wrote. All but `in` is 0 before the first is read. */
struct script_text {
    FILE *in;
    unsigned long lines; /* that were read */
    int is_report, has_failed; /* a script or a result was read; the run ended there, since it failed */
    int is_faulty;             /* the last line that was read has no form, or there is neither script nor result */
    char line[2 * CONFORMANCE_LONGEST_FRAME + 64];
};

/* Reads the next script of a text. It passes over blank lines, remarks, and the lines of a run's results (the table of
 * --coverage and those after the last report); each other line has to be of a script. Returns 0 at the end of the text,
 * or at a faulty line. */
int conformance_read(struct script *script, struct script_text *text);

/* Writes the frames of a script as the CPU's end under test logs them, in the format of `fio2070 check`,
 * each line after `head`. The last line is its next poll. */
void conformance_transcript(const struct ends *ends, const struct script *script, const char *head, FILE *out);

/* Writes the difference at the last event of a script, field by field, the first rule that this breaks, what is `said`
 * of the script, if it is not NULL, and the script; of a CPU's end the transcript too. */
void conformance_report(const struct ends *ends, const struct script *script, const struct difference *difference,
                        const char *said, FILE *out);

/* ---- Results ---- */

/* Writes the table of rules: how many events exercised each, and what became of it. */
void conformance_coverage(const struct result *result, enum rule_end end, const struct rule_set *excepted, FILE *out);

/* Writes the result as JUnit XML, a test case for each rule; one that differs has its report, which `kept` has. */
void conformance_junit(const struct result *result, enum rule_end end, const struct rule_set *excepted, FILE *kept,
                       FILE *out);

#ifdef __cplusplus
}
#endif
#endif
