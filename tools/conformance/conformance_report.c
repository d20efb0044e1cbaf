/* Field by field what both ends did, the first rule that this breaks, and the script that shows it. */
#include "conformance_link.h"
#include "conformance_octets.h"

#include <string.h>

enum { SHOWN = 48 /* octets of an answer */, SIMULATED = 1048576 /* octets of a script that simulate reads */ };

/* Octets, all of them if they are few, otherwise from shortly before the first that differs; then what is said about them. */
static void write_octets(const char *who, const uint8_t *octets, size_t length, size_t other, const char *said,
                         FILE *out) {
    size_t first = length > SHOWN && other > 8 ? other - 8 : 0;
    if (length > SHOWN && first > length - SHOWN) first = length - SHOWN;
    fprintf(out, "# %s: ", who);
    if (length == 0) fputs("none", out);
    if (length > SHOWN) fprintf(out, "%lu octets, from octet %lu on ", (unsigned long)length, (unsigned long)first);
    conformance_write_octets(octets + first, length < SHOWN ? length : (size_t)SHOWN, out);
    fprintf(out, "%s\n", said);
}

static void write_frames(const struct difference *both, FILE *out) {
    size_t other = 0;
    int is_equal;
    while (other < both->expected_length && other < both->got_length && both->expected[other] == both->got[other])
        other++;
    is_equal = both->expected_length == both->got_length && other == both->got_length;
    if (both->observed[0] == '\0') write_octets("expected", both->expected, both->expected_length, other, "", out);
    write_octets("got", both->got, both->got_length, other, is_equal ? ", the same octets: see the field" : "", out);
}

/* The end under test crashed or hung. */
static void write_failure(const struct difference *both, FILE *out) {
    const char *text;
    if (both->frame_length > 0 && both->expected_length > 0) {
        write_octets("expected", both->expected, both->expected_length, 0, "", out);
    } else {
        fputs("# expected: it goes on\n", out);
    }
    fputs("# got: ", out);
    for (text = both->failure; *text != '\0'; text++) {
        fputc(*text, out);
        if (*text == '\n') fputs("# ", out);
    }
    fputs("\n", out);
}

static void write_numbers(const char *who, uint8_t number, size_t items, FILE *out) {
    fprintf(out, "# %s: number %u items %lu\n", who, number, (unsigned long)items);
}

static void write_rule(enum rule rule, FILE *out) {
    const struct rule_row *row = &CONFORMANCE_RULE_ROWS[rule];
    fprintf(out, "# the first rule that this breaks: %s, %s, docs/PROTOCOL.md, %s: %s\n", row->name, conformance_source(rule), row->section,
            row->sentence);
}

static void write_difference(const struct ends *ends, const struct difference *difference, FILE *out) {
    if (difference->failure[0] != '\0') {
        write_failure(difference, out);
        return;
    }
    if (ends->cpu == NULL || difference->expected_length > 0) {
        write_frames(difference, out);
    } else {
        write_numbers("expected", difference->expected_number, difference->expected_items, out);
        write_numbers("got", difference->got_number, difference->got_items, out);
    }
    conformance_write_fields(difference, out);
}

/* Whether simulate refuses a script for its length. */
static int is_too_long(const struct script *script) {
    FILE *file = tmpfile();
    long length;
    if (file == NULL) return 0;
    conformance_write(script, file);
    length = ftell(file);
    fclose(file);
    return length > SIMULATED;
}

/* Says of a script that simulate refuses what runs it. */
static void write_runner(const struct script *script, FILE *out) {
    if (conformance_has_event(script, EVENT_FRAME) || conformance_has_event(script, EVENT_HEAR)) {
        fputs("# Only --replay runs this script: simulate has no line `frame` or `answer`.\n", out);
    } else if (is_too_long(script)) {
        fputs("# Only --replay runs this script: simulate reads at most 1,048,576 octets.\n", out);
    }
}

void conformance_report(const struct ends *ends, const struct script *script, const struct difference *difference,
                        const char *said, FILE *out) {
    write_difference(ends, difference, out);
    write_rule(conformance_judge(ends, script, difference), out);
    write_runner(script, out);
    if (said != NULL) fputs(said, out);
    conformance_write(script, out);
    if (ends->cpu != NULL) {
        fputs("# transcript:\n", out);
        conformance_transcript(ends, script, "# ", out);
    }
}
