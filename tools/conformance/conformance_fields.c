/* The fields in which two answers differ, or the responses of two CPU's ends to a frame, and their names. */
#include "conformance_link.h"
#include "conformance_octets.h"

#include <string.h>

static uint32_t if_other(uint32_t field, uint64_t expected, uint64_t got) { return expected == got ? 0 : field; }

/* ---- Answers ---- */

static int reads(const uint8_t *octets, size_t length, struct fio2070_answer *answer) {
    memset(answer, 0, sizeof *answer);
    return fio2070_decode_answer(octets, length, answer).kind == FIO2070_FAULT_NONE;
}

/* Both are readable blocks. */
static uint32_t block_fields(const struct difference *both, const struct fio2070_answer *expected,
                             const struct fio2070_answer *got) {
    size_t shared = expected->count < got->count ? expected->count : got->count;
    unsigned other = expected->status ^ got->status;
    uint32_t fields = if_other(FIELD_BIT(NUMBER), expected->block, got->block) |
                      if_other(FIELD_BIT(COUNT), expected->count, got->count) |
                      if_other(FIELD_BIT(BLOCK_STAMP), expected->stamp, got->stamp) |
                      if_other(FIELD_BIT(ENTRY), 0, memcmp(both->expected + 3, both->got + 3, 3 * shared) != 0) |
                      if_other(FIELD_BIT(MORE), 0, other & FIO2070_BIT_MORE) |
                      if_other(FIELD_BIT(LOST), 0, other & FIO2070_BIT_LOST) |
                      if_other(FIELD_BIT(SEQUENCE), 0, other & FIO2070_BIT_OUT_OF_SEQUENCE) |
                      if_other(FIELD_BIT(UNNAMED), 0, other & 0xf0);
    if ((expected->status & FIO2070_BIT_AGAIN) && fields != 0) fields = FIELD_BIT(REPEAT);
    return fields | if_other(FIELD_BIT(AGAIN), 0, other & FIO2070_BIT_AGAIN);
}

uint32_t conformance_answer_fields(const struct difference *both) {
    struct fio2070_answer expected, got;
    if (both->expected_length == both->got_length && memcmp(both->expected, both->got, both->expected_length) == 0) {
        return 0;
    }
    if (both->expected_length == 0 || both->got_length == 0) return FIELD_BIT(PRESENCE);
    if (both->expected[0] != both->got[0]) return FIELD_BIT(TYPE);
    if (!reads(both->expected, both->expected_length, &expected) || !reads(both->got, both->got_length, &got)) {
        return FIELD_BIT(LENGTH);
    }
    switch (expected.code - FIO2070_TYPE_ANSWER) {
    case FIO2070_TYPE_POLL: return block_fields(both, &expected, &got);
    case FIO2070_TYPE_LOAD_COUNTER:
    case FIO2070_TYPE_CONFIGURE_INPUTS:
    case FIO2070_TYPE_WATCHDOG: return FIELD_BIT(STATUS);
    case FIO2070_TYPE_STATUS:
    case FIO2070_TYPE_RAW_INPUTS:
    case FIO2070_TYPE_FILTERED_INPUTS:
        return if_other(FIELD_BIT(FLAGS), expected.flags, got.flags) |
               if_other(FIELD_BIT(ERRORS), expected.receive_errors * 256u + expected.transmit_errors,
                        got.receive_errors * 256u + got.transmit_errors) |
               if_other(FIELD_BIT(INPUTS), expected.inputs, got.inputs) |
               if_other(FIELD_BIT(STAMP), expected.stamp, got.stamp);
    default: return FIELD_BIT(BODY);
    }
}

/* ---- How a CPU's end responds to a frame ---- */

static int is_same_item(const struct fio2070_record_item *one, const struct fio2070_record_item *other) {
    return one->gap == other->gap && one->input == other->input && one->state == other->state &&
           one->stamp == other->stamp && one->wide == other->wide;
}

size_t conformance_first_item(const struct difference *both) {
    size_t place = 0;
    while (place < both->expected_items && place < both->got_items &&
           is_same_item(&both->expected_record[place], &both->got_record[place])) {
        place++;
    }
    return place;
}

uint32_t conformance_heard_fields(const struct difference *both) {
    size_t place = conformance_first_item(both);
    uint32_t fields = if_other(FIELD_BIT(NEXT_NUMBER), both->expected_number, both->got_number) |
                      if_other(FIELD_BIT(ITEMS), both->expected_items, both->got_items);
    if (place < both->expected_items && place < both->got_items) {
        const struct fio2070_record_item *expected = &both->expected_record[place], *got = &both->got_record[place];
        uint32_t in_entry =
            if_other(FIELD_BIT(ITEM), 0,
                     expected->input != got->input || expected->state != got->state || expected->stamp != got->stamp);
        fields |= expected->gap != got->gap ? FIELD_BIT(GAP) : in_entry;
        if (expected->gap == got->gap) fields |= if_other(FIELD_BIT(WIDE), expected->wide, got->wide);
    }
    return fields;
}

/* ---- Words ---- */

/* Where a field is in the octets of an answer; positions from the end are below 0. */
struct place {
    enum field field;
    const char *words;
    int first, count;
    unsigned bit; /* of the octet, 0 for all of it */
};

static const struct place PLACES[] = {{FIELD_TYPE, "the type", 0, 1, 0},
                                      {FIELD_FLAGS, "the flags", 1, 1, 0},
                                      {FIELD_ERRORS, "the error counts", 2, 2, 0},
                                      {FIELD_STAMP, "the stamp", -4, 4, 0},
                                      {FIELD_STATUS, "the status", 1, 1, 0},
                                      {FIELD_INPUTS, "the inputs", 1, 8, 0},
                                      {FIELD_NUMBER, "the block number", 1, 1, 0},
                                      {FIELD_COUNT, "the count of entries", 2, 1, 0},
                                      {FIELD_MORE, "C of the status", -5, 1, FIO2070_BIT_MORE},
                                      {FIELD_LOST, "F of the status", -5, 1, FIO2070_BIT_LOST},
                                      {FIELD_AGAIN, "E of the status", -5, 1, FIO2070_BIT_AGAIN},
                                      {FIELD_SEQUENCE, "G of the status", -5, 1, FIO2070_BIT_OUT_OF_SEQUENCE},
                                      {FIELD_UNNAMED, "the bits of the status that have no name", -5, 1, 0},
                                      {FIELD_BLOCK_STAMP, "the stamp of the block", -4, 4, 0}};

static void write_value(const uint8_t *octets, size_t length, const struct place *place, FILE *out) {
    const uint8_t *first = octets + (place->first < 0 ? (int)length + place->first : place->first);
    if (place->bit != 0) {
        fputs(*first & place->bit ? "1" : "0", out);
    } else {
        conformance_write_octets(first, (size_t)place->count, out);
    }
}

static void write_place(const struct difference *both, const struct place *place, FILE *out) {
    size_t length = both->expected_length;
    unsigned long octet = (unsigned long)(place->first < 0 ? (int)length + place->first : place->first);
    fprintf(out, "# field: %s, octet %lu: expected ", place->words, octet);
    write_value(both->expected, length, place, out);
    fputs(", got ", out);
    write_value(both->got, both->got_length, place, out);
    fputs("\n", out);
}

static void write_entry(const uint8_t *octets, FILE *out) {
    fprintf(out, "input %u state %u stamp %u", octets[0] & 127u, octets[0] >> 7, octets[1] * 256u + octets[2]);
}

/* The first entry that is not the same. */
static void write_first_entry(const struct difference *both, FILE *out) {
    size_t octet = 3;
    while (both->expected[octet] == both->got[octet]) octet++;
    octet -= octet % 3;
    fprintf(out, "# field: entry %lu, octet %lu: expected ", (unsigned long)(octet / 3), (unsigned long)octet);
    write_entry(both->expected + octet, out);
    fputs(", got ", out);
    write_entry(both->got + octet, out);
    fputs("\n", out);
}

static void write_lengths(const char *words, const struct difference *both, FILE *out) {
    fprintf(out, "# field: %s: expected %lu octets, got %lu\n", words, (unsigned long)both->expected_length,
            (unsigned long)both->got_length);
}

/* The first octet that is not the same. */
static void write_first_octet(const char *words, const uint8_t *expected, const uint8_t *got, size_t length,
                              FILE *out) {
    size_t octet = 0;
    while (octet < length && expected[octet] == got[octet]) octet++;
    if (octet == length) return;
    fprintf(out, "# field: %s, octet %lu: expected %02x, got %02x\n", words, (unsigned long)octet, expected[octet],
            got[octet]);
}

static void write_item(const struct fio2070_record_item *item, FILE *out) {
    if (item->gap) {
        fputs("gap", out);
    } else {
        fprintf(out, "input %u state %u stamp %u wide %lu", item->input, item->state, item->stamp,
                (unsigned long)item->wide);
    }
}

static void write_heard(const struct difference *both, FILE *out) {
    size_t place = conformance_first_item(both);
    if (both->fields & FIELD_BIT(NEXT_NUMBER)) {
        fprintf(out, "# field: the next number: expected %u, got %u\n", both->expected_number, both->got_number);
    }
    if (both->fields & FIELD_BIT(ITEMS)) {
        fprintf(out, "# field: the items that the record gained: expected %lu, got %lu\n",
                (unsigned long)both->expected_items, (unsigned long)both->got_items);
    }
    if (place >= both->expected_items || place >= both->got_items) return;
    fprintf(out, "# field: item %lu: expected ", (unsigned long)place + 1);
    write_item(&both->expected_record[place], out);
    fputs(", got ", out);
    write_item(&both->got_record[place], out);
    fputs("\n", out);
}

void conformance_write_fields(const struct difference *both, FILE *out) {
    size_t row, shared = both->expected_length < both->got_length ? both->expected_length : both->got_length;
    uint32_t fields = both->fields;
    if (both->observed[0] != '\0') {
        fprintf(out, "# field: %s\n", both->observed);
        fields &= ~(CONFORMANCE_CLOCK_FIELDS | FIELD_BIT(AGAIN) | FIELD_BIT(BODY));
    }
    if (fields & FIELD_BIT(PRESENCE)) write_lengths("the answer", both, out);
    if (fields & (FIELD_BIT(LENGTH) | FIELD_BIT(BODY) | FIELD_BIT(POLL) | FIELD_BIT(REPEAT))) {
        if (both->expected_length != both->got_length) write_lengths("the length", both, out);
        write_first_octet("the frame", both->expected, both->got, shared, out);
    }
    for (row = 0; row < sizeof PLACES / sizeof PLACES[0]; row++) {
        if (fields & UINT32_C(1) << PLACES[row].field) write_place(both, &PLACES[row], out);
    }
    if (fields & FIELD_BIT(ENTRY)) write_first_entry(both, out);
    if (fields & FIELD_BIT(OUTPUTS)) {
        write_first_octet("the outputs", both->expected_outputs, both->got_outputs, 16, out);
    }
    if (fields & FIELD_BIT(TIMEOUT)) {
        fprintf(out, "# field: the timeout of the watchdog: expected %u, got %u\n", both->expected_timeout,
                both->got_timeout);
    }
    if (fields & (FIELD_BIT(NEXT_NUMBER) | FIELD_BIT(ITEMS) | FIELD_BIT(GAP) | FIELD_BIT(ITEM) | FIELD_BIT(WIDE))) {
        write_heard(both, out);
    }
}
