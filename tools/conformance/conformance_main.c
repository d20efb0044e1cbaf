/* The words of a tester. */
#include "conformance_link.h"
#include "conformance_results.h"

#include <stdlib.h>
#include <string.h>

static const char HELP[] =
    "Runs random scripts, writes each rule in which this end differs from the proved one, with a short script that\n"
    "shows it, and goes on without what exercises that rule.\n"
    "\n"
    "  EVENTS         how many events, 1000000 if not given; from 200000 on with scripts that find faults that come late\n"
    "  SEED           another number gives other scripts, 1 if not given\n"
    "  --replay       runs the scripts on standard input instead, such as the reports of an earlier run\n"
    "  --first        stops at the first difference\n"
    "  --except RULE  leaves out this rule of the project's own profile; may be given again\n"
    "  --coverage     writes how many events exercised each rule, and fails where one was not\n"
    "  --junit FILE   writes a test case for each rule as JUnit XML\n"
    "  --rules        writes the rules, with their sources\n"
    "\n"
    "The status is 0 if there is no difference, 1 if there is one, 2 if the command line or the script is faulty or a\n"
    "file can't be written, 3 if the end under test no longer answers.\n";

/* A call of this process that does not return in one to two seconds hangs. */
enum { GUARD_MS = 1000 };

/* The words as they were read. */
struct words {
    struct options options;
    int is_replay, shows_coverage, shows_rules, shows_help;
    const char *junit;
};

static enum rule_end end_of(const struct ends *ends) { return ends->module != NULL ? AT_MODULE : AT_CPU; }

/* ---- Reading ---- */

/* Reads a number in decimal digits. Returns 0 if the word is not one. */
static int read_number(const char *word, unsigned long *number) {
    char *end;
    *number = strtoul(word, &end, 10);
    return end != word && *end == '\0';
}

/* Adds a rule that need not be kept. Returns 0 if it is none, or none of this project's own. */
static int except(struct words *words, const struct ends *ends, const char *name) {
    enum rule rule = conformance_rule_named(name);
    if (rule == RULES || CONFORMANCE_RULE_ROWS[rule].end != end_of(ends)) {
        printf("no rule has the name %s: --rules writes them\n", name);
        return 0;
    }
    if (!conformance_is_own(rule)) {
        printf("the rule %s is not this project's own: it is asked of each end\n", name);
        return 0;
    }
    conformance_put(&words->options.excepted, rule);
    return 1;
}

/* Reads an option, and the word after it if it takes one. Returns how many words it took, 0 if it is faulty. */
static int read_option(struct words *words, const struct ends *ends, int left, char **word) {
    const struct {
        const char *name;
        int *is_given;
    } flags[] = {{"--replay", &words->is_replay},
                 {"--first", &words->options.stops},
                 {"--coverage", &words->shows_coverage},
                 {"--rules", &words->shows_rules},
                 {"--help", &words->shows_help}};
    size_t row;
    for (row = 0; row < sizeof flags / sizeof flags[0]; row++) {
        if (strcmp(word[0], flags[row].name) == 0) return *flags[row].is_given = 1;
    }
    if (left > 1 && strcmp(word[0], "--except") == 0) return except(words, ends, word[1]) ? 2 : 0;
    if (left > 1 && strcmp(word[0], "--junit") == 0) {
        words->junit = word[1];
        return 2;
    }
    return 0;
}

static int read_words(struct words *words, const struct ends *ends, int count, char **given) {
    unsigned long numbers[2] = {0, 0};
    int place = 1, taken, read = 0;
    for (; place < count; place += taken) {
        taken = read < 2 && read_number(given[place], &numbers[read]);
        read += taken;
        if (taken == 0) taken = read_option(words, ends, count - place, given + place);
        if (taken == 0) return 0;
    }
    words->options.events = numbers[0];
    words->options.seed = numbers[1];
    return 1;
}

/* ---- Doing ---- */

static int fail(void) {
    puts(RESULT_FAILED);
    return 3;
}

/* Runs a script, and reports what differs. Returns the status. */
static int replay_script(const struct ends *ends, struct script *script) {
    static struct difference difference;
    if (ends->module != NULL && (script->id != ends->module->id || script->per_block != ends->module->per_block)) {
        printf("the script is for a module with the id %u and at most %u entries a block, this one has %u and %u\n",
               script->id, script->per_block, ends->module->id, ends->module->per_block);
        return 2;
    }
    script->length = conformance_compare(ends, script, &difference);
    if (script->length == 0) return 0;
    if (difference.has_failed) return fail();
    conformance_report(ends, script, &difference, NULL, stdout);
    return 1;
}

/* Runs the scripts of standard input, up to one that can't be run. */
static int replay(const struct ends *ends) {
    static struct script_text text;
    static struct script script;
    int differs = 0;
    text.in = stdin;
    while (conformance_read(&script, &text)) {
        int status = replay_script(ends, &script);
        if (status > 1) return status;
        differs |= status;
    }
    if (text.is_faulty) {
        printf("line %lu: bad line\n", text.lines);
        return 2;
    }
    if (!differs) puts(RESULT_SAME);
    return differs;
}

static void write_rules(enum rule_end end) {
    int rule;
    for (rule = 0; rule < RULES; rule++) {
        const struct rule_row *row = &CONFORMANCE_RULE_ROWS[rule];
        if (row->end != end || row->source == CASE) continue;
        printf("%-18s %-11s %s: %s\n", row->name, conformance_source((enum rule)rule), row->section, row->sentence);
    }
}

/* Writes what was not exercised: rules, and cases if they are wanted. Returns how many there are. */
static unsigned write_missing(const struct result *result, enum rule_end end, const struct rule_set *excepted,
                              int has_cases) {
    unsigned missing = 0;
    int rule;
    for (rule = 0; rule < RULES; rule++) {
        if (CONFORMANCE_RULE_ROWS[rule].end != end || result->exercised[rule] > 0) continue;
        if (conformance_has(excepted, (enum rule)rule) || result->shortest[rule] > 0) continue;
        if (CONFORMANCE_RULE_ROWS[rule].source == CASE && !has_cases) continue;
        printf(RESULT_MISSING "%s\n", CONFORMANCE_RULE_ROWS[rule].name);
        missing++;
    }
    return missing;
}

/* Writes the file of --junit. Returns 0 if it can't. */
static int write_junit(const char *name, const struct result *result, enum rule_end end,
                       const struct options *options) {
    FILE *file = fopen(name, "w");
    if (file == NULL) {
        printf("can't write %s\n", name);
        return 0;
    }
    conformance_junit(result, end, &options->excepted, options->kept, file);
    if (fclose(file) == 0) return 1;
    printf("can't write %s\n", name);
    return 0;
}

/* A line for each rule of a set. */
static void write_each(const char *head, const struct rule_set *rules) {
    int rule;
    for (rule = 0; rule < RULES; rule++) {
        if (conformance_has(rules, (enum rule)rule)) printf("%s%s\n", head, CONFORMANCE_RULE_ROWS[rule].name);
    }
}

/* Writes which commands the maker of the module answers himself. */
static void write_makers_answers(void) {
    static const unsigned types[] = {FIO2070_TYPE_TRACK_INPUTS, FIO2070_TYPE_COMPLEX_OUTPUTS, FIO2070_TYPE_CONTROLLER_ID};
    unsigned place;
    for (place = 0; place < 3; place++) {
        unsigned long count = conformance_makers_answers(place);
        if (count > 0) printf(RESULT_MAKERS "%u, %lu times\n", types[place], count);
    }
}

/* Writes what was seen now and then, and what was not asked to the end. */
static void write_left_out(const struct result *result) {
    int rule;
    for (rule = 0; rule < RULES; rule++) {
        if (result->once[rule] == 0) continue;
        printf(RESULT_ONCE "%s, in %lu scripts\n", CONFORMANCE_RULE_ROWS[rule].name, result->once[rule]);
    }
    write_each(RESULT_LEFT_OUT, &result->also_left_out);
    write_each(RESULT_UNTOLD, &result->untold);
    if (result->untold_count > 0) printf(RESULT_UNTOLD_COUNT "%lu\n", result->untold_count);
}

static int run(const struct ends *ends, struct words *words) {
    static struct result result;
    const struct rule_set *excepted = &words->options.excepted;
    unsigned missing;
    if (words->junit != NULL) words->options.kept = tmpfile();
    conformance_test(ends, &words->options, &result, stdout);
    if (words->shows_coverage) conformance_coverage(&result, end_of(ends), excepted, stdout);
    if (words->junit != NULL && !write_junit(words->junit, &result, end_of(ends), &words->options)) return 2;
    if (result.has_failed) return fail();
    missing = words->options.stops && result.differences > 0
                  ? 0
                  : write_missing(&result, end_of(ends), excepted, words->shows_coverage);
    write_left_out(&result);
    write_makers_answers();
    if (result.differences == 0) printf(RESULT_SAME " in %lu events\n", result.events);
    if (result.differences > 0) printf(RESULT_DIFFERS "%u in %lu events\n", result.differences, result.events);
    return result.differences > 0 || (words->shows_coverage && missing > 0);
}

int conformance_words(const struct ends *ends, int is_outside, int count, char **given) {
    struct words words;
    memset(&words, 0, sizeof words);
    words.options.is_outside = is_outside;
    if (!read_words(&words, ends, count, given)) {
        printf("usage: %s [OPTION].. [EVENTS [SEED]], see --help\n", given[0]);
        return 2;
    }
    if (words.shows_help) printf("%s [OPTION].. [EVENTS [SEED]]\n\n%s", given[0], HELP);
    if (words.shows_rules) write_rules(end_of(ends));
    if (words.shows_help || words.shows_rules) return 0;
    return words.is_replay ? replay(ends) : run(ends, &words);
}

static int guarded(const struct maker *module, const struct cpu_maker *cpu, int count, char **words) {
    struct ends ends;
    memset(&ends, 0, sizeof ends);
    ends.module = module;
    ends.cpu = cpu;
    ends.guard_ms = GUARD_MS;
    return conformance_words(&ends, 0, count, words);
}

int conformance_main(const struct maker *maker, int count, char **words) { return guarded(maker, NULL, count, words); }

int conformance_cpu_main(const struct cpu_maker *maker, int count, char **words) { return guarded(NULL, maker, count, words); }
