/* What a run came to, rule by rule: as a table, and as JUnit XML. */
#include "conformance_results.h"

#include <ctype.h>
#include <string.h>

static const char TABLE_HEAD[] = "    events  result        source      rule";

/* A row of the table: a number that ends where `events` does in its head, and the name of a rule below `rule`. */
static int is_row(const char *line) {
    static const size_t number_end = sizeof "    events" - 1, name = sizeof TABLE_HEAD - sizeof "rule";
    return strlen(line) > name && isdigit((unsigned char)line[number_end - 1]) &&
           strspn(line, " 0123456789") >= number_end && conformance_rule_named(line + name) != RULES;
}

int conformance_is_result(const char *line) {
    static const char *const beginnings[] = {RESULT_SAME,     RESULT_DIFFERS, RESULT_MISSING,      RESULT_ONCE,
                                             RESULT_LEFT_OUT, RESULT_UNTOLD,  RESULT_UNTOLD_COUNT, RESULT_MAKERS, RESULT_FAILED};
    size_t row;
    for (row = 0; row < sizeof beginnings / sizeof beginnings[0]; row++) {
        if (strncmp(line, beginnings[row], strlen(beginnings[row])) == 0) return 1;
    }
    return strcmp(line, TABLE_HEAD) == 0 || is_row(line);
}

/* What became of a rule. */
static const char *state_of(const struct result *result, enum rule rule, const struct rule_set *excepted) {
    if (result->shortest[rule] > 0) return "differs";
    if (conformance_has(excepted, rule)) return "excepted";
    return result->exercised[rule] > 0 ? "same" : "not exercised";
}

void conformance_coverage(const struct result *result, enum rule_end end, const struct rule_set *excepted, FILE *out) {
    int rule;
    fprintf(out, "%s\n", TABLE_HEAD);
    for (rule = 0; rule < RULES; rule++) {
        const struct rule_row *row = &CONFORMANCE_RULE_ROWS[rule];
        if (row->end != end) continue;
        fprintf(out, "%10lu  %-13s %-11s %s\n", result->exercised[rule], state_of(result, (enum rule)rule, excepted),
                row->source == CASE ? "case" : conformance_source((enum rule)rule), row->name);
    }
}

/* ---- JUnit ---- */

static void write_character(int character, FILE *out) {
    switch (character) {
    case '&': fputs("&amp;", out); break;
    case '<': fputs("&lt;", out); break;
    case '>': fputs("&gt;", out); break;
    case '"': fputs("&quot;", out); break;
    default: fputc(character, out); break;
    }
}

static void write_escaped(const char *text, FILE *out) {
    for (; *text != '\0'; text++) write_character(*text, out);
}

/* The report of a rule that differs: its script, place, field and source. */
static void write_kept(const struct result *result, enum rule rule, FILE *kept, FILE *out) {
    long place = result->begins[rule];
    if (kept == NULL || fseek(kept, place, SEEK_SET) != 0) return;
    for (; place < result->ends[rule]; place++) write_character(fgetc(kept), out);
}

static void write_case(const struct result *result, enum rule rule, const struct rule_set *excepted, FILE *kept,
                       FILE *out) {
    const struct rule_row *row = &CONFORMANCE_RULE_ROWS[rule];
    fprintf(out, "  <testcase classname=\"%s.", row->source == CASE ? "case" : conformance_source(rule));
    write_escaped(row->section, out);
    fputs("\" name=\"", out);
    write_escaped(row->name, out);
    if (result->shortest[rule] > 0) {
        fprintf(out, "\"><failure message=\"a difference at event %lu, shown by %lu events\">", result->found[rule],
                (unsigned long)result->shortest[rule]);
        write_kept(result, rule, kept, out);
        fputs("</failure></testcase>\n", out);
    } else if (conformance_has(excepted, rule) || result->exercised[rule] == 0) {
        fprintf(out, "\"><skipped message=\"%s\"/></testcase>\n", state_of(result, rule, excepted));
    } else {
        fputs("\"/>\n", out);
    }
}

/* How many rules the end has, and how many of them a run says nothing of. */
static unsigned count_cases(const struct result *result, enum rule_end end, const struct rule_set *excepted,
                            unsigned *skipped) {
    unsigned cases = 0;
    int rule;
    *skipped = 0;
    for (rule = 0; rule < RULES; rule++) {
        if (CONFORMANCE_RULE_ROWS[rule].end != end) continue;
        cases++;
        if (result->shortest[rule] > 0) continue;
        *skipped += conformance_has(excepted, (enum rule)rule) || result->exercised[rule] == 0;
    }
    return cases;
}

void conformance_junit(const struct result *result, enum rule_end end, const struct rule_set *excepted, FILE *kept,
                       FILE *out) {
    const char *name = end == AT_MODULE ? "module" : "CPU";
    int has_error = result->has_failed, rule;
    unsigned skipped, cases = count_cases(result, end, excepted, &skipped);
    fputs("<?xml version=\"1.0\" encoding=\"UTF-8\"?>\n", out);
    fprintf(out, "<testsuite name=\"fio2070 %s\" tests=\"%u\" failures=\"%u\" skipped=\"%u\" errors=\"%d\">\n", name,
            cases + (unsigned)has_error, result->differences, skipped, has_error);
    for (rule = 0; rule < RULES; rule++) {
        if (CONFORMANCE_RULE_ROWS[rule].end == end) write_case(result, (enum rule)rule, excepted, kept, out);
    }
    if (has_error) {
        fprintf(out, "  <testcase classname=\"run\" name=\"%s\"><error message=\"the run ended after %lu events\"/>", name,
                result->events);
        fputs("</testcase>\n", out);
    }
    fputs("</testsuite>\n", out);
}
