/* Scripts as texts, in the format of `fio2070 simulate` (docs/FORMATS.md). A frame that simulate's own ends do not send
 * has a line that simulate refuses, with the word of the wire: `frame HEX` for a poll with another number than the
 * CPU's, or octets that spell no command, `answer HEX` for octets that no module sent. */
#include "conformance_link.h"
#include "conformance_octets.h"
#include "conformance_results.h"

#include <string.h>

static const char HEADER[] = "fio2070 script ";
static const char TO_MODULE[] = "frame ", TO_CPU[] = "answer ";

/* How reports of before have these frames. */
static const char REMARK_TO_MODULE[] = "# frame to the module: ", REMARK_TO_CPU[] = "# frame to the CPU: ";

/* ---- Writing ---- */

/* A text that is written, and the proved ends after its lines. */
struct text {
    FILE *out;
    struct link link;
};

static void write_octets(const struct text *text, const char *word, const uint8_t *octets, size_t length) {
    fputs(word, text->out);
    conformance_write_octets(octets, length, text->out);
    fputs("\n", text->out);
}

static void write_number(const struct text *text, const char *word, unsigned long number) {
    if (number > 0) fprintf(text->out, "%s %lu\n", word, number);
}

static void write_levels(const struct text *text, uint64_t inputs) {
    uint8_t octets[8];
    int octet;
    for (octet = 0; octet < 8; octet++, inputs >>= 8) octets[octet] = (uint8_t)inputs;
    write_octets(text, "scan ", octets, 8);
}

/* The line of an event that has one, and the ends after it. */
static void write_event(struct text *text, const struct event *event) {
    switch (event->kind) {
    case EVENT_SCAN: write_levels(text, event->inputs); break;
    case EVENT_SYNC: fputs("sync\n", text->out); break;
    case EVENT_RESTART: fputs("restart\n", text->out); break;
    case EVENT_POLL: fputs("poll\n", text->out); break;
    case EVENT_COMMAND: write_octets(text, "send ", event->octets, event->length); break;
    case EVENT_DELIVER: write_number(text, "to-module", text->link.sent); break;
    case EVENT_ANSWER: write_number(text, "to-cpu", conformance_link_answer(&text->link, event)); break;
    case EVENT_FRAME: write_octets(text, TO_MODULE, event->octets, event->length); break;
    case EVENT_HEAR: write_octets(text, TO_CPU, event->octets, event->length); break;
    }
    conformance_link_go(&text->link, event);
}

static void write_header(const struct script *script, FILE *out) {
    int version = conformance_has_event(script, EVENT_RESTART) ? 2 : 1;
    if (script->per_block != FIO2070_MOST_ENTRIES) version = 3;
    fprintf(out, "%s%d %u %u", HEADER, version, script->id, script->number);
    if (version == 3) fprintf(out, " %u %u", script->per_block, FIO2070_STANDARD_WAITING);
    fputs("\n", out);
}

void conformance_write(const struct script *script, FILE *out) {
    static struct text text;
    size_t place;
    text.out = out;
    write_header(script, out);
    conformance_link_start(&text.link, NULL, script);
    for (place = 0; place < script->length; place++) write_event(&text, &script->events[place]);
}

/* ---- Reading ---- */

/* Reads pairs of hexadecimal digits as the event's octets. Returns 0 if the words are anything else. */
static int read_octets(const char *words, struct event *event) {
    static uint8_t octets[CONFORMANCE_LONGEST_FRAME];
    event->octets = octets;
    event->length = conformance_read_octets(words, octets, sizeof octets);
    return event->length != CONFORMANCE_FAILED;
}

/* Reads 16 digits, input 0 in the lowest bit of the first octet. */
static int read_levels(const char *words, struct event *event) {
    int octet;
    if (!read_octets(words, event) || event->length != 8) return 0;
    for (octet = 7; octet >= 0; octet--) event->inputs = event->inputs << 8 | event->octets[octet];
    event->length = 0;
    return 1;
}

/* The rest of a line after these words, NULL if it does not begin with them. */
static const char *after(const char *line, const char *words) {
    size_t length = strlen(words);
    return strncmp(line, words, length) == 0 ? line + length : NULL;
}

/* A delivery is that of the frame that was sent last, or of one of the last answers. */
static int read_delivery(const char *line, const struct link *link, struct event *event) {
    unsigned long number;
    char end;
    if (sscanf(line, "to-module %lu%c", &number, &end) == 1) {
        event->kind = EVENT_DELIVER;
        return number > 0 && number == link->sent;
    }
    if (sscanf(line, "to-cpu %lu%c", &number, &end) != 1 || number > link->answered) return 0;
    event->kind = EVENT_ANSWER;
    event->back = (unsigned)(link->answered - number);
    return number > 0 && conformance_link_answer(link, event) == number;
}

/* Reads the line of an event. Returns 0 if it is of no form. */
static int read_event(const char *line, const struct link *link, struct event *event) {
    static const struct {
        const char *words;
        enum event_kind kind;
    } forms[] = {{"sync", EVENT_SYNC},      {"restart", EVENT_RESTART}, {"poll", EVENT_POLL},
                 {"send ", EVENT_COMMAND},  {"scan ", EVENT_SCAN},      {TO_MODULE, EVENT_FRAME},
                 {TO_CPU, EVENT_HEAR},      {REMARK_TO_MODULE, EVENT_FRAME}, {REMARK_TO_CPU, EVENT_HEAR}};
    size_t place;
    for (place = 0; place < sizeof forms / sizeof forms[0]; place++) {
        const char *rest = after(line, forms[place].words);
        if (rest == NULL) continue;
        event->kind = forms[place].kind;
        if (event->kind == EVENT_SCAN) return read_levels(rest, event);
        return place < 3 ? *rest == '\0' : read_octets(rest, event);
    }
    return read_delivery(line, link, event);
}

/* Reads the header. Returns 0 if the line is not one. */
static int read_header(const char *line, struct script *script) {
    unsigned version, id, number, per_block = FIO2070_MOST_ENTRIES, waiting = FIO2070_STANDARD_WAITING;
    const char *words = after(line, HEADER);
    int count = words == NULL ? 0 : sscanf(words, "%u %u %u %u %u", &version, &id, &number, &per_block, &waiting);
    if (count < 3 || (version == 3 ? count != 5 : count != 3)) return 0;
    if (id > 255 || number > 255 || per_block == 0 || per_block > 255 || waiting != FIO2070_STANDARD_WAITING) return 0;
    script->id = (uint8_t)id;
    script->number = (uint8_t)number;
    script->per_block = (uint8_t)per_block;
    return 1;
}

/* Whether a line is passed over: a blank one, a remark, or one of a run's results. */
static int is_passed_over(struct script_text *text) {
    const char *line = text->line;
    if (after(line, REMARK_TO_MODULE) != NULL || after(line, REMARK_TO_CPU) != NULL) return 0;
    if (*line == '\0' || *line == '#') return 1;
    if (!conformance_is_result(line)) return 0;
    return text->is_report = 1;
}

/* Adds the event of a line. Returns 0 if it is of no form, or one too many. */
static int add_line(struct script *script, const char *line, const struct link *link) {
    struct event event;
    memset(&event, 0, sizeof event);
    return read_event(line, link, &event) && conformance_add(script, &event) != NULL;
}

/* Goes to the next line that is not passed over. Returns 0 at the end of the text, and after the line of a run that
 * failed, below which there is only why. */
static int next_line(struct script_text *text) {
    while (!text->has_failed && fgets(text->line, sizeof text->line, text->in) != NULL) {
        text->lines++;
        text->line[strcspn(text->line, "\r\n")] = '\0';
        text->has_failed = after(text->line, RESULT_FAILED) != NULL;
        if (!is_passed_over(text)) return 1;
    }
    text->line[0] = '\0';
    return 0;
}

int conformance_read(struct script *script, struct script_text *text) {
    static struct link link;
    conformance_clear(script);
    if (text->line[0] == '\0' && !next_line(text)) {
        text->lines++;
        text->is_faulty = !text->is_report;
        return 0;
    }
    text->is_faulty = !read_header(text->line, script);
    text->is_report = 1;
    conformance_link_start(&link, NULL, script);
    while (!text->is_faulty && next_line(text) && after(text->line, HEADER) == NULL) {
        text->is_faulty = !add_line(script, text->line, &link);
        if (!text->is_faulty) conformance_link_go(&link, &script->events[script->length - 1]);
    }
    return !text->is_faulty;
}
