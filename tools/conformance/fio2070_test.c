/* The command fio2070-test: holds a module, or a CPU's end, that is asked by lines against the proved one. */
#define _POSIX_C_SOURCE 200809L
#include "conformance_wire.h"

#include <errno.h>
#include <limits.h>
#include <stdlib.h>
#include <string.h>
#include <unistd.h>

static const char HELP[] =
    "Usage: fio2070-test [--id N] [--per-block N] [--deadline MS] [--own-clock] WIRE [WORD..]\n"
    "       fio2070-test --cpu [--deadline MS] WIRE [WORD..]\n"
    "       fio2070-test --self module|cpu [WORD..]\n"
    "       fio2070-test --help | --version\n"
    "\n"
    "Compares a module with the proved one, by random scripts. The tester writes lines, and the module answers each with one:\n"
    "  reset          done          as after power on\n"
    "  inputs H16     done          the levels of the 64 inputs, and one step of a millisecond; the first octet has\n"
    "                               inputs 0 to 7, input 0 in its lowest bit\n"
    "  sync           done          LINESYNC goes from 0 to 1\n"
    "  frame HEX      answer HEX    or none; HEX may have no digits\n"
    "With --cpu it is a CPU's end, with these lines:\n"
    "  reset H2       done          as at its start; its first poll asks for this block\n"
    "  poll           frame HEX     its next poll, also if the one before had no answer; or none\n"
    "  hear HEX       record H2 ITEM..   the next number, and what the frame adds to the record: ITEM is gap, or H16:\n"
    "                               the input, the state, the stamp (4 digits) and the 32-bit time (8)\n"
    "\n"
    "WIRE is one of these:\n"
    "  --command LINE      a command of sh that reads and writes these lines\n"
    "  --serial DEVICE     a serial adapter; its speed stays as it is set (stty)\n"
    "  --socket HOST:PORT  a stream\n"
    "\n"
    "  --id N          the octet that it answers to command 60, 2 if not given\n"
    "  --per-block N   the most entries of its blocks, 255 if not given\n"
    "  --deadline MS   for each line of the module, 2000 if not given\n"
    "  --own-clock     it samples by a clock of its own: inputs sets the levels alone, and what depends on that clock\n"
    "                  is judged by bounds\n"
    "  --cpu           it is a CPU's end\n"
    "  --self END      the proved module, or the proved CPU's end, against itself\n"
    "\n"
    "Options of the tester come after WIRE: fio2070-test WIRE --help lists them.\n";

/* What comes before the words of the tester. */
struct setup {
    struct wire wire;
    int id, per_block, is_cpu, is_open;
    const char *opened, *self; /* the end of --self, NULL if there is none */
};

/* The number that a word is; -1 if it is none, or none of these options. */
static int number_of(const char *word) {
    char *end = NULL;
    long number = strtol(word, &end, 10);
    return end == word || *end != '\0' || number < 0 || number > INT_MAX ? -1 : (int)number;
}

/* Reads an option and its word. Returns how many words it took, 0 if it is none of these. */
static int read_option(struct setup *setup, const char *name, const char *word) {
    if (strcmp(name, "--own-clock") == 0) return setup->wire.has_own_clock = 1;
    if (strcmp(name, "--cpu") == 0) return setup->is_cpu = 1;
    if (strcmp(name, "--self") == 0) {
        setup->self = setup->opened = word;
        setup->is_open = strcmp(word, "module") == 0 || strcmp(word, "cpu") == 0;
        strcpy(setup->wire.why, "--self has module or cpu after it");
    } else if (strcmp(name, "--id") == 0) {
        setup->id = number_of(word);
    } else if (strcmp(name, "--per-block") == 0) {
        setup->per_block = number_of(word);
    } else if (strcmp(name, "--deadline") == 0) {
        setup->wire.deadline_ms = number_of(word);
    } else if (strcmp(name, "--command") == 0) {
        setup->is_open = conformance_wire_open(&setup->wire, setup->opened = word, WIRE_COMMAND);
    } else if (strcmp(name, "--serial") == 0) {
        setup->is_open = conformance_wire_open(&setup->wire, setup->opened = word, WIRE_SERIAL);
    } else if (strcmp(name, "--socket") == 0) {
        setup->is_open = conformance_wire_open(&setup->wire, setup->opened = word, WIRE_SOCKET);
    } else {
        return 0;
    }
    return 2;
}

static int run(struct setup *setup, int count, char **words) {
    struct maker maker;
    struct cpu_maker cpu;
    struct outside outside;
    struct ends ends;
    int status;
    memset(&ends, 0, sizeof ends);
    if (setup->self != NULL) {
        if (*setup->self == 'm') ends.module = &CONFORMANCE_PROVED_MODULE;
        if (*setup->self == 'c') ends.cpu = &CONFORMANCE_PROVED_CPU;
        return conformance_words(&ends, 0, count, words);
    }
    conformance_wire_maker(&setup->wire, (uint8_t)setup->id, (uint8_t)setup->per_block, &maker);
    conformance_wire_cpu_maker(&setup->wire, &cpu);
    conformance_wire_outside(&setup->wire, &outside);
    if (setup->is_cpu) ends.cpu = &cpu;
    if (!setup->is_cpu) ends.module = &maker;
    ends.outside = &outside;
    ends.has_own_clock = !setup->is_cpu && setup->wire.has_own_clock;
    ends.most_tried = ends.has_own_clock ? 10000 : 500000;
    status = conformance_words(&ends, 1, count, words);
    if (status == 3) printf("%s: %s\n", setup->opened, setup->wire.fault);
    conformance_wire_close(&setup->wire);
    return status;
}

/* Writes the versions of the tester and of the library, which is a part of the program, and the path of the program. */
static void write_versions(const char *name) {
    uint32_t of_library = fio2070_version();
    char path[4096];
    ssize_t length = readlink("/proc/self/exe", path, sizeof path);
    if (length > 0) name = path;
    printf("fio2070-test %d.%d.%d\n", FIO2070_VERSION / 10000, FIO2070_VERSION / 100 % 100, FIO2070_VERSION % 100);
    printf("libfio2070 %u.%u.%u in %.*s\n", (unsigned)(of_library / 10000), (unsigned)(of_library / 100 % 100),
        (unsigned)(of_library % 100), length > 0 ? (int)length : (int)strlen(name), name);
}

/* No WIRE was opened: says at which word. */
static int refuse(int count, char **words, int place, int taken) {
    int is_help = count == 2 && strcmp(words[1], "--help") == 0;
    if (count == 2 && strcmp(words[1], "--version") == 0) {
        write_versions(words[0]);
        return 0;
    }
    if (!is_help && place < count && taken == 0) {
        printf("%s before WIRE is no option: those of the tester come after it, see --help\n", words[place]);
    } else if (!is_help && place < count) {
        printf("%s has no word after it, see --help\n", words[place]);
    } else {
        fputs(HELP, stdout);
    }
    return is_help ? 0 : 2;
}

/* The status of a run whose text is written; 2, with a word, if it can't be written. */
static int written(int status) {
    int is_full = fflush(stdout) != 0 || ferror(stdout);
    if (!is_full) return status;
    fprintf(stderr, "fio2070-test: standard output: %s\n", errno != 0 ? strerror(errno) : "it can't be written");
    return 2;
}

int main(int count, char **words) {
    static struct setup setup;
    int place = 1, taken = 1;
    setup.id = 2;
    setup.per_block = FIO2070_MOST_ENTRIES;
    setup.wire.deadline_ms = 2000;
    setvbuf(stdout, NULL, _IOLBF, 0);
    while (setup.opened == NULL && place + 1 < count && taken > 0) {
        taken = read_option(&setup, words[place], words[place + 1]);
        place += taken;
    }
    if (setup.opened == NULL) return written(refuse(count, words, place, taken));
    if (!setup.is_open || setup.id < 0 || setup.id > 255 || setup.per_block < 1 || setup.per_block > 255 || setup.wire.deadline_ms < 1) {
        if (setup.is_open) puts("a number is out of its range");
        if (!setup.is_open) printf("can't open %s: %s\n", setup.opened, setup.wire.why);
        return 2;
    }
    words[place - 1] = words[0];
    return written(run(&setup, count - place + 1, words + place - 1));
}
