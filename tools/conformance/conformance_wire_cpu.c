/* A CPU's end that is not in this process, as a maker: its lines, and its answers. The tester plays the module and the bus. */
#include "conformance_octets.h"
#include "conformance_wire.h"

#include <string.h>

static void reset(void *context, uint8_t number) {
    char line[16];
    sprintf(line, "reset %02x\n", number);
    conformance_wire_ask_done(context, line);
}

static size_t poll(void *context, uint8_t frame[FIO2070_LONGEST_FRAME]) {
    return conformance_wire_ask_octets((struct wire *)context, "poll\n", "frame ", frame);
}

/* Reads an item of the record: `gap`, or the octets of input, state, stamp and wide time. Returns 0 if it is neither. */
static int read_item(const char *word, struct fio2070_record_item *item) {
    unsigned input, state, stamp, wide;
    int length = 0;
    memset(item, 0, sizeof *item);
    if (strcmp(word, "gap") == 0) return item->gap = 1;
    if (sscanf(word, "%2x%2x%4x%8x%n", &input, &state, &stamp, &wide, &length) != 4 || length != 16) return 0;
    item->input = (uint8_t)input;
    item->state = (uint8_t)state;
    item->stamp = (uint16_t)stamp;
    item->wide = wide;
    return word[length] == '\0';
}

/* Reads the words after `record `: the next number, and the items. Returns how many there are; FAILED if a word is neither. */
static size_t read_record(struct wire *wire, const char *said, struct fio2070_record_item items[FIO2070_MOST_RECORD_ITEMS]) {
    char words[WIRE_LONGEST_LINE], *word;
    size_t count = 0;
    strcpy(words, said);
    word = strtok(words, " ");
    if (word == NULL || conformance_read_octets(word, &wire->number, 1) != 1) return CONFORMANCE_FAILED;
    while ((word = strtok(NULL, " ")) != NULL) {
        if (count == FIO2070_MOST_RECORD_ITEMS || !read_item(word, &items[count])) return CONFORMANCE_FAILED;
        count++;
    }
    return count;
}

static size_t hear(void *context, const uint8_t *octets, size_t length,
                   struct fio2070_record_item items[FIO2070_MOST_RECORD_ITEMS]) {
    struct wire *wire = (struct wire *)context;
    char line[WIRE_LONGEST_LINE] = "hear ", said[WIRE_LONGEST_LINE];
    size_t count = CONFORMANCE_FAILED;
    conformance_wire_put_octets(line + strlen(line), octets, length);
    if (!conformance_wire_ask(wire, line, said)) return CONFORMANCE_FAILED;
    if (strncmp(said, "record ", 7) == 0) count = read_record(wire, said + 7, items);
    if (count == CONFORMANCE_FAILED) conformance_wire_fail(wire, "no `record`: ", said);
    return count;
}

static uint8_t number(void *context) { return ((struct wire *)context)->number; }

void conformance_wire_cpu_maker(struct wire *wire, struct cpu_maker *maker) {
    const struct cpu_maker made = {wire, reset, poll, hear, number};
    *maker = made;
}
