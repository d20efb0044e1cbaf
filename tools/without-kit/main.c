/* `fio2070 show`, `check` and `record` on machines for which dist/ has no program: the calls of dist/fio2070.c do all decoding,
 * texts and judging. This file reads lines by docs/FORMATS.md and is not proved; tests/clone.py compares it with the program.
 * packaging/program compiles it there. */
#include <fio2070.h>
#include <signal.h>
#include <stdio.h>
#include <string.h>
#ifdef _WIN32
#include <fcntl.h>
#include <io.h>
#endif

enum { MOST_OCTETS = 1048576, MOST_ITEMS = MOST_OCTETS / 6 + FIO2070_MOST_RECORD_ITEMS };
enum { GOOD = 0, FAULTY = 1, MISUSED = 2, FAILED = 3, LACKING = 125 };

/* A line of the input that is not skipped: a frame, with its direction in a transcript. */
struct line {
    unsigned long number;
    char direction; /* '>' or '<'; of no form 0 */
    size_t length;  /* 0 for no HEX */
    uint8_t octets[MOST_OCTETS / 2];
};

/* Where the next line begins, and the number of the one before. */
struct place {
    size_t at;
    unsigned long number;
};

static char input[MOST_OCTETS + 1];
static size_t input_length;
static struct line line;
static struct fio2070_record_item record[MOST_ITEMS];
static size_t recorded;

static int digit_of(char letter) {
    if (letter >= '0' && letter <= '9') return letter - '0';
    if (letter >= 'a' && letter <= 'f') return letter - 'a' + 10;
    if (letter >= 'A' && letter <= 'F') return letter - 'A' + 10;
    return -1;
}

/* Reads a HEX. Returns how many octets it has, 0 if the text is none. */
static size_t read_hex(const char *text, size_t length, uint8_t *octets) {
    size_t place;
    if (length % 2 != 0) return 0;
    for (place = 0; place < length; place += 2) {
        int high = digit_of(text[place]), low = digit_of(text[place + 1]);
        if (high < 0 || low < 0) return 0;
        octets[place / 2] = (uint8_t)(high * 16 + low);
    }
    return length / 2;
}

/* Reads the next line that is not skipped into `line`. Returns 0 after the last. */
static int next_line(struct place *place, int is_transcript) {
    while (place->at < input_length) {
        const char *text = input + place->at, *end = memchr(text, '\n', input_length - place->at);
        size_t length = end != NULL ? (size_t)(end - text) : input_length - place->at;
        place->at += length + 1;
        place->number++;
        if (length == 0 || text[0] == '#') continue;
        line.number = place->number;
        line.direction = 0;
        line.length = 0;
        if (!is_transcript) {
            line.length = read_hex(text, length, line.octets);
        } else if (length > 2 && (text[0] == '>' || text[0] == '<') && text[1] == ' ') {
            line.direction = text[0];
            line.length = read_hex(text + 2, length - 2, line.octets);
        }
        return 1;
    }
    return 0;
}

static int show(void) {
    static char text[1 << 16];
    struct place place = {0, 0};
    int status = GOOD;
    while (next_line(&place, 0)) {
        struct fio2070_answer answer;
        struct fio2070_command command;
        struct fio2070_fault fault;
        if (line.length == 0) {
            printf("line %lu: bad line\n", line.number);
            status = FAULTY;
            continue;
        }
        fault = line.octets[0] >= FIO2070_TYPE_ANSWER ? fio2070_decode_answer(line.octets, line.length, &answer)
                                                      : fio2070_decode_command(line.octets, line.length, &command);
        if (fault.kind != FIO2070_FAULT_NONE) {
            printf("line %lu: ", line.number);
            status = FAULTY;
        }
        if (fio2070_show(line.octets, line.length, text, sizeof text) < sizeof text) fputs(text, stdout);
    }
    return status;
}

/* Writes the line of `check` that reports a fault which this checker finds, and returns 1. Without a fault it writes nothing,
 * counts the frames, and returns 0. */
static int has_fault(struct fio2070_checker checker, unsigned long *frames) {
    static const struct place top = {0, 0};
    struct place place = top;
    while (next_line(&place, 1)) {
        if (line.length > 0) continue;
        printf("line %lu: bad line\n", line.number);
        return 1;
    }
    for (place = top, *frames = 0; next_line(&place, 1); ++*frames) {
        struct fio2070_breach breach;
        char text[FIO2070_LONGEST_TEXT];
        uint8_t rule = line.direction == '>' ? fio2070_checker_sent(&checker, line.octets, line.length, &breach)
                                             : fio2070_checker_heard(&checker, line.octets, line.length, &breach);
        if (rule == FIO2070_RULE_NONE) continue;
        if (fio2070_rule_text(rule, text, sizeof text) < sizeof text) printf("line %lu breaks %s\n", line.number, text);
        return 1;
    }
    return 0;
}

static int check(void) {
    struct fio2070_checker checker;
    unsigned long frames;
    fio2070_checker_start(&checker);
    if (has_fault(checker, &frames)) return FAULTY;
    printf("good %lu frames\n", frames);
    return GOOD;
}

static void write_record(void) {
    size_t place;
    printf("record %lu\n", (unsigned long)recorded);
    for (place = 0; place < recorded; place++) {
        const struct fio2070_record_item *it = &record[place];
        if (it->gap) {
            puts("gap");
        } else {
            printf("input %d state %d stamp %d wide %lu\n", it->input, it->state, it->stamp, (unsigned long)it->wide);
        }
    }
}

/* Starts the CPU at the first poll that it sent, with its number. */
static void begin_at_poll(struct fio2070_poller *poller, int *has_begun) {
    struct fio2070_command command;
    struct fio2070_fault fault = fio2070_decode_command(line.octets, line.length, &command);
    if (*has_begun || fault.kind != FIO2070_FAULT_NONE || command.code != FIO2070_TYPE_POLL) return;
    fio2070_poller_start(poller, command.block);
    *has_begun = 1;
}

static int report_record(void) {
    static const struct fio2070_limits limits = FIO2070_STANDARD_LIMITS;
    struct place place = {0, 0};
    struct fio2070_checker checker;
    struct fio2070_poller poller;
    struct fio2070_content_checker content;
    int has_begun = 0;
    unsigned long frames;
    if (fio2070_checker_start_anywhere(&checker, limits) != FIO2070_STARTED || has_fault(checker, &frames)) return FAULTY;
    fio2070_content_start(&content);
    while (next_line(&place, 1)) {
        struct fio2070_content_breach breach;
        struct fio2070_heard heard = {FIO2070_HEARD_OTHER, 0, 0, 0, 0, 0, 0, {0}, {0, 0, 0, {0}, 0}};
        if (line.direction == '>') {
            fio2070_content_sent(&content, line.octets, line.length);
            begin_at_poll(&poller, &has_begun);
            continue;
        }
        if (has_begun) heard = fio2070_poller_hear(&poller, line.octets, line.length, record + recorded, MOST_ITEMS - recorded);
        if (fio2070_content_heard(&content, line.octets, line.length, &breach) != FIO2070_CONTENT_NONE) {
            char text[FIO2070_LONGEST_TEXT];
            recorded += breach.items;
            write_record();
            printf("line %lu", line.number);
            if (breach.input != FIO2070_NO_INPUT) printf(" input %d", breach.input);
            if (fio2070_content_rule_text(breach.rule, text, sizeof text) < sizeof text) printf(" breaks %s\n", text);
            return FAULTY;
        }
        if (heard.kind == FIO2070_HEARD_TAKEN) recorded += heard.items;
    }
    write_record();
    return GOOD;
}

/* Reads the whole input, and runs a tool on it. */
static int run(int (*tool)(void)) {
    int status = FAULTY;
    input_length = fread(input, 1, sizeof input, stdin);
    if (ferror(stdin)) {
        puts("fio2070: read fault");
        return FAILED;
    }
    if (input_length > MOST_OCTETS) {
        puts("input too long");
    } else {
        status = tool();
    }
    return fflush(stdout) != 0 || ferror(stdout) ? FAILED : status;
}

static const char ABOUT[] =
    "fio2070: compiled from dist/fio2070.c, which was made of the proved code, and a reader of lines in C that is not\n"
    "fio2070: proved. It answers show, check and record. The proved program of dist/ is for Linux on x86-64.\n";
static const char NO_SIMULATE[] =
    "fio2070: this program has no simulate. The view Play of dist/fio2070.html runs the same scripts in a browser.\n";

/* Writes what this is to standard error, and returns a status. */
static int say_what(int status) {
    fputs(ABOUT, stderr);
    return status;
}

static int is_word(const char *word, const char *first, const char *second) {
    return strcmp(word, first) == 0 || strcmp(word, second) == 0;
}

/* Runs what the one word of the command line names. */
static int run_word(const char *word) {
    unsigned long version = fio2070_version();
    if (strcmp(word, "show") == 0) return run(show);
    if (strcmp(word, "check") == 0) return run(check);
    if (strcmp(word, "record") == 0) return run(report_record);
    if (strcmp(word, "simulate") == 0) {
        fputs(NO_SIMULATE, stderr);
        return say_what(LACKING);
    }
    if (strcmp(word, "--about") == 0) return say_what(GOOD);
    if (is_word(word, "-V", "--version")) {
        printf("fio2070 %lu.%lu.%lu\n", version / 10000, version / 100 % 100, version % 100);
        return GOOD;
    }
    if (is_word(word, "-h", "--help")) {
        puts("Usage: fio2070 show|check|record < FILE");
        return say_what(GOOD);
    }
    fprintf(stderr, "fio2070: there is no subcommand %s\n", word);
    return say_what(MISUSED);
}

int main(int count, char **words) {
#ifdef _WIN32
    _setmode(_fileno(stdin), _O_BINARY);
    _setmode(_fileno(stdout), _O_BINARY);
#endif
#ifdef SIGPIPE
    signal(SIGPIPE, SIG_IGN);
#endif
    if (count == 2) return run_word(words[1]);
    puts(count < 2 ? "fio2070: no subcommand" : "Usage: fio2070 show|check|record < FILE");
    return MISUSED;
}
