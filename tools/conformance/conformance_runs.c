/* Runs of a script on both ends, up to the first difference. An end that crashes or hangs differs too. */
#include "conformance_guard.h"
#include "conformance_link.h"

#include <string.h>

/* A run under way: a crash does not change it. */
struct passage {
    const struct ends *ends;
    const struct script *script;
    struct difference *difference;
    unsigned long *exercised; /* how many events exercised each rule; NULL if they are not counted */
    size_t events;            /* that were done, or begun */
    int is_other;             /* the last of them shows a difference */
    struct link link;
};

static void count_rules(const struct rule_set *rules, unsigned long exercised[RULES]) {
    int word, rule;
    for (word = 0; word < 2; word++) {
        uint64_t left = rules->words[word];
        for (rule = 64 * word; left != 0; left >>= 1, rule++) exercised[rule] += left & 1;
    }
}

static int brings_frame(enum event_kind kind) {
    return kind == EVENT_FRAME || kind == EVENT_DELIVER || kind == EVENT_HEAR || kind == EVENT_ANSWER;
}

/* The last event is one at which the end under test failed. */
static void note_failure(struct passage *passage) {
    struct difference *difference = passage->difference;
    const struct event *event = passage->events > 0 ? &passage->script->events[passage->events - 1] : NULL;
    difference->has_failed = 0;
    difference->fields = FIELD_BIT(FAILURE);
    difference->exercised = passage->link.exercised;
    difference->got_length = 0;
    if (event == NULL || !brings_frame(event->kind)) difference->frame_length = difference->expected_length = 0;
    passage->is_other = 1;
}

/* Asks an end that is no code of this process whether it failed. */
static int has_failed(struct passage *passage) {
    const struct outside *outside = passage->ends->outside;
    const char *failure = outside == NULL ? NULL : outside->failure(outside->context);
    if (failure == NULL) return 0;
    snprintf(passage->difference->failure, sizeof passage->difference->failure, "%s", failure);
    return 1;
}

/* Resets both ends. Returns 0 if the one under test can't be asked any more. */
static int begin(struct passage *passage) {
    const struct outside *outside = passage->ends->outside;
    int is_first;
    for (is_first = 1;; is_first = 0) {
        if (has_failed(passage) && !outside->begin_anew(outside->context)) return 0;
        conformance_link_start(&passage->link, passage->ends, passage->script);
        if (!has_failed(passage)) break;
        if (!is_first) return 0;
        passage->difference->is_reset_failed = 1;
    }
    passage->difference->failure[0] = '\0';
    return 1;
}

static void pass(void *given) {
    struct passage *passage = (struct passage *)given;
    const struct script *script = passage->script;
    if (!begin(passage)) {
        passage->difference->has_failed = 1;
        return;
    }
    while (passage->events < script->length && !passage->is_other) {
        conformance_guard_goes_on();
        passage->events++;
        passage->is_other = conformance_link_step(&passage->link, &script->events[passage->events - 1], passage->difference);
        if (passage->exercised != NULL) count_rules(&passage->link.exercised, passage->exercised);
        if (has_failed(passage)) note_failure(passage);
    }
}

size_t conformance_count(const struct ends *ends, const struct script *script, struct difference *difference,
                         unsigned long exercised[RULES]) {
    static struct passage passage;
    memset(difference, 0, sizeof *difference);
    passage.ends = ends;
    passage.script = script;
    passage.difference = difference;
    passage.exercised = exercised;
    passage.events = 0;
    passage.is_other = 0;
    if (ends->guard_ms == 0) {
        pass(&passage);
    } else if (!conformance_guard(pass, &passage, ends->guard_ms, difference->failure, sizeof difference->failure)) {
        note_failure(&passage);
        difference->is_reset_failed = passage.events == 0;
    }
    return passage.is_other ? passage.events : 0;
}

size_t conformance_compare(const struct ends *ends, const struct script *script, struct difference *difference) {
    return conformance_count(ends, script, difference, NULL);
}

/* ---- With a proved end in place of the one under test ---- */

void conformance_exercised(const struct ends *ends, const struct script *script, struct rule_set *rules) {
    static struct link link;
    struct ends alone;
    size_t place;
    memset(rules, 0, sizeof *rules);
    memset(&alone, 0, sizeof alone);
    alone.left_out = ends->left_out;
    if (ends->module != NULL) alone.module = &CONFORMANCE_PROVED_MODULE;
    if (ends->cpu != NULL) alone.cpu = &CONFORMANCE_PROVED_CPU;
    conformance_link_start(&link, &alone, script);
    for (place = 0; place < script->length; place++) {
        conformance_link_go(&link, &script->events[place]);
        conformance_join(rules, &link.exercised);
    }
}

/* ---- Transcripts ---- */

struct transcript {
    struct link link;
    const struct ends *ends;
    const struct script *script;
    const char *head;
    FILE *out;
};

static void write_lines(void *given) {
    static const struct event poll = {EVENT_POLL, 0, 0, NULL, 0};
    struct transcript *transcript = (struct transcript *)given;
    size_t place;
    conformance_link_start(&transcript->link, transcript->ends, transcript->script);
    transcript->link.head = transcript->head;
    transcript->link.transcript = transcript->out;
    for (place = 0; place < transcript->script->length; place++) {
        conformance_guard_goes_on();
        conformance_link_go(&transcript->link, &transcript->script->events[place]);
    }
    conformance_link_go(&transcript->link, &poll);
}

void conformance_transcript(const struct ends *ends, const struct script *script, const char *head, FILE *out) {
    static struct transcript transcript;
    struct ends plain;
    char failure[80];
    memset(&plain, 0, sizeof plain);
    plain.cpu = ends->cpu;
    transcript.ends = &plain;
    transcript.script = script;
    transcript.head = head;
    transcript.out = out;
    if (ends->guard_ms > 0) {
        conformance_guard(write_lines, &transcript, ends->guard_ms, failure, sizeof failure);
    } else {
        write_lines(&transcript);
    }
}
