/* A CPU's end written from docs/PROTOCOL.md, with its quirks. */
#include "cpu_quirks.h"

#include <string.h>

static const struct quirk RIGHT[] = {
    {POLL_TYPE, 54}, {POLL_LENGTH, 2}, {NUMBER_AT_START, 256}, {NUMBER_PLUS, 1}, {NUMBER_MODULO, 256},
    {EMPTY_RAISES, 1}, {EMPTY_TAKEN, 1}, {LOST_RAISES, 1}, {CRASH_FROM_LENGTH, 100000}, {REFUSED_COUNT, -1},
    {STAMP_REFUSED, 0x7fedcba9}, {NUMBER_PASSED, 256}, {REFUSED_ALL_BITS, 256}, {LONGEST_FRAME, 773},
    {LENGTH_BITS, 16}, {MOST_ENTRIES, 255}, {INPUT_MASK, 127}, {HIGHEST_INPUT, 127}, {STATE_MASK, 128},
    {STAMP_BITS, 16}, {BLOCK_STAMP_BITS, 32}, {WIDE_BORROWS, 1}, {WIDE_BELOW_ZERO, 1}, {GAP_BIT, 4}, {GAP_MARKS, 1},
    {WIDE_MOST_BITS, 32}};
static int quirks[CPU_QUIRKS];
#define Q(name) quirks[name]

static struct {
    uint8_t first, number;
    int has_taken, has_polled, has_gap, was_gap;
    uint32_t last_stamp;
    unsigned long tries, polls, blocks, items;
    unsigned long unreadables, stales;
    int leaves_next;
    struct fio2070_record_item last_item;
    size_t last_length;
    uint8_t last_block[FIO2070_LONGEST_FRAME];
    uint8_t levels[128], was_number[256];
} cpu;

/* A block answer. */
struct block {
    uint8_t number, status;
    size_t count;
    uint32_t stamp;
    const uint8_t *entries;
};

static void reset(void *context, uint8_t number) {
    (void)context;
    memset(&cpu, 0, sizeof cpu);
    cpu.first = cpu.number = Q(NUMBER_AT_START) < 256 ? (uint8_t)Q(NUMBER_AT_START) : number;
}

static void raise_number(int plus) {
    if (cpu.number + plus > Q(NUMBER_MODULO) - 1) {
        cpu.number = (uint8_t)Q(NUMBER_AFTER_LAST);
    } else {
        cpu.number = (uint8_t)(cpu.number + plus);
    }
}

static size_t poll(void *context, uint8_t frame[FIO2070_LONGEST_FRAME]) {
    (void)context;
    if (++cpu.tries == (unsigned long)Q(POLL_RAISES_AFTER)) raise_number(1);
    if (++cpu.polls == (unsigned long)Q(POLLS_AFTER)) raise_number(1);
    if (cpu.tries == (unsigned long)Q(TRIES_RESET)) cpu.number = 0;
    if (cpu.number == Q(NUMBER_PASSED)) raise_number(1);
    if (cpu.tries == (unsigned long)Q(CRASH_AT_TRY)) crash();
    if (Q(TRIES_SILENT) && cpu.tries > (unsigned long)Q(TRIES_SILENT)) return 0;
    frame[0] = (uint8_t)Q(POLL_TYPE);
    frame[1] = (uint8_t)(cpu.number + Q(POLL_NUMBER_PLUS));
    frame[2] = 0;
    return (size_t)Q(POLL_LENGTH);
}

/* ---- Reading ---- */

static int reads_block(const uint8_t *octets, size_t length, struct block *block) {
    size_t needed, place;
    int has_type = octets[0] == 182 || (octets[0] == 183 && Q(OTHER_TYPE_TAKEN)) ||
                   (octets[0] == 54 && Q(COMMAND_TYPE_TAKEN));
    if (length < 8 || !has_type) return 0;
    needed = 8 + 3 * (size_t)octets[2];
    if (Q(COUNT_IGNORED)) needed = length;
    if (length > needed + (size_t)Q(OCTETS_TOO_MANY) || length + (size_t)Q(OCTETS_TOO_FEW) < needed) return 0;
    block->number = octets[1];
    block->count = Q(COUNT_IGNORED) ? (length - 8) / 3 : octets[2];
    if (octets[2] == Q(REFUSED_COUNT)) return 0;
    block->entries = octets + 3;
    block->status = octets[3 + 3 * block->count];
    block->stamp = 0;
    for (place = 0; place < 4; place++) block->stamp = block->stamp << 8 | octets[4 + 3 * block->count + place];
    block->stamp = low_bits(block->stamp, Q(BLOCK_STAMP_BITS));
    return 1;
}

/* Whether octets that are no block spell another answer. */
static int is_other(const uint8_t *octets, size_t length) {
    static const size_t lengths[] = {8, 2, 2, 13, 13, 0, 0, 0, 0, 2, 0, 0};
    if (octets[0] < 177 || octets[0] > 188 || octets[0] == 182) return 0;
    return lengths[octets[0] - 177] == 0 || lengths[octets[0] - 177] == length;
}

/* ---- The record ---- */

static uint32_t widen(uint32_t stamp, uint16_t low) {
    uint32_t base = Q(STAMP_FROM_LAST_BLOCK) ? cpu.last_stamp : stamp;
    uint32_t wide = (base & 0xffff0000) | low;
    int is_later = Q(WIDE_BORROWS_EQUAL) ? low >= (base & 0xffff) : low > (base & 0xffff);
    if (Q(WIDE_IS_STAMP)) return stamp;
    if (Q(EQUAL_STAMP_WIDE) && low == 0) return 0;
    if (Q(WIDE_HALF)) return low;
    if (Q(WIDE_SIGNED)) return base + (((low - base) & 0xffffu) ^ 0x8000u) - 0x8000u;
    if (is_later && Q(WIDE_BORROWS) && (wide >= 65536 || Q(WIDE_BELOW_ZERO))) wide -= 65536;
    return low_bits(wide + (uint32_t)Q(WIDE_PLUS), Q(WIDE_MOST_BITS));
}

static void read_entry(const uint8_t *octets, uint32_t stamp, struct fio2070_record_item *item) {
    unsigned low = Q(STAMP_SWAPPED) ? octets[2] * 256u + octets[1] : octets[1] * 256u + octets[2];
    memset(item, 0, sizeof *item);
    item->input = (uint8_t)((octets[0] & Q(INPUT_MASK)) + Q(INPUT_PLUS));
    if (item->input > Q(HIGHEST_INPUT)) item->input = (uint8_t)Q(HIGHEST_INPUT);
    item->state = (uint8_t)(((octets[0] & Q(STATE_MASK)) != 0) != Q(STATE_TURNED));
    if (Q(STATES_ALTERNATE)) item->state = cpu.levels[item->input] ^= 1;
    item->stamp = (uint16_t)low_bits(low, Q(STAMP_BITS));
    item->wide = widen(stamp, item->stamp);
}

static size_t add_item(struct fio2070_record_item *items, size_t count, const struct fio2070_record_item *item) {
    if (Q(HIGH_LEFT_OUT) && item->input > 63) return count;
    if (Q(EQUAL_LEFT) && cpu.items + count > 0 && memcmp(&cpu.last_item, item, sizeof *item) == 0) return count;
    cpu.last_item = *item;
    if (Q(DOUBLES_LEFT_OUT) && count > 0 && items[count - 1].input == item->input) return count;
    items[count] = *item;
    return count + 1;
}

static size_t add_gaps(const struct block *block, struct fio2070_record_item *items, size_t count) {
    int gaps = Q(GAP_MARKS);
    int was_gap = cpu.was_gap;
    cpu.was_gap = (block->status & Q(GAP_BIT)) != 0 && (!Q(GAP_NEEDS_MORE) || (block->status & 8));
    if (Q(TRIES_GAP) && cpu.tries > (unsigned long)Q(TRIES_GAP)) cpu.was_gap = 1;
    if (was_gap && Q(GAP_NOT_TWICE)) return count;
    if (!cpu.was_gap || (Q(GAP_WITH_ENTRIES) && block->count == 0) || (Q(GAP_ONCE) && cpu.has_gap)) return count;
    if (Q(FIRST_GAP_LEFT_OUT) && !cpu.has_taken) return count;
    cpu.has_gap = 1;
    while (gaps-- > 0 && count < FIO2070_MOST_RECORD_ITEMS) {
        memset(&items[count], 0, sizeof items[count]);
        items[count++].gap = 1;
    }
    return count;
}

static void turn_round(struct fio2070_record_item *items, size_t count) {
    size_t place;
    for (place = 0; place < count / 2; place++) {
        struct fio2070_record_item item = items[place];
        items[place] = items[count - 1 - place];
        items[count - 1 - place] = item;
    }
}

static int is_before(const struct fio2070_record_item *one, const struct fio2070_record_item *other) {
    return Q(SORTED_BY_STAMP) ? one->wide < other->wide : one->input < other->input;
}

static void sort(struct fio2070_record_item *items, size_t count) {
    size_t done, place;
    for (done = 1; done < count; done++) {
        struct fio2070_record_item item = items[done];
        for (place = done; place > 0 && is_before(&item, &items[place - 1]); place--) items[place] = items[place - 1];
        items[place] = item;
    }
}

/* Writes what a block adds to the record. Returns how many items that are. */
static size_t record(const struct block *block, struct fio2070_record_item *items) {
    size_t count = Q(GAP_AT_END) ? 0 : add_gaps(block, items, 0), first = count, place;
    size_t most = block->count + (size_t)Q(COUNT_PLUS);
    if (most > (size_t)Q(MOST_ENTRIES) || (Q(COUNT_SIGNED) && most > 127)) most = Q(COUNT_SIGNED) ? 0 : (size_t)Q(MOST_ENTRIES);
    if (Q(AGAIN_IS_EMPTY) && (block->status & 2)) most = 0;
    if (Q(GAP_COUNTS_AS_ENTRY) && count > 0 && most > 0) most--;
    most = most > (size_t)Q(LAST_ENTRIES_LEFT) ? most - (size_t)Q(LAST_ENTRIES_LEFT) : 0;
    place = (size_t)Q(FIRST_ENTRY);
    if (Q(OUTAGE_FIRST_ENTRY) && cpu.tries > (unsigned long)Q(OUTAGE_FIRST_ENTRY)) place = 1;
    if (Q(AGAIN_FIRST_ENTRY) && (block->status & 2)) place = 1;
    for (; place < most && count < FIO2070_MOST_RECORD_ITEMS; place++) {
        struct fio2070_record_item item;
        read_entry(block->entries + 3 * place, block->stamp, &item);
        count = add_item(items, count, &item);
    }
    if (Q(REVERSED)) turn_round(items + first, count - first);
    if (Q(SORTED) || Q(SORTED_BY_STAMP)) sort(items + first, count - first);
    if (Q(GAP_AT_END)) count = add_gaps(block, items, count);
    cpu.items += count;
    if (Q(RECORD_ROOM) && cpu.items > (unsigned long)Q(RECORD_ROOM)) return 0;
    return count;
}

/* ---- Hearing ---- */

static size_t take(const struct block *block, struct fio2070_record_item *items) {
    size_t count = record(block, items);
    int is_hung = Q(HANG_AT_ITEMS) > 0 && count == (size_t)Q(HANG_AT_ITEMS);
    int raises = (block->count > 0 || Q(EMPTY_RAISES)) && (!(block->status & 4) || Q(LOST_RAISES));
    if (is_hung) hang();
    if (Q(TRIES_DOUBLE) && cpu.tries == (unsigned long)Q(TRIES_DOUBLE) && 2 * count <= FIO2070_MOST_RECORD_ITEMS) {
        memcpy(items + count, items, count * sizeof items[0]);
        count *= 2;
    }
    if (++cpu.blocks == (unsigned long)Q(TAKEN_AFTER)) raises = 0;
    if (raises) raise_number(Q(NUMBER_PLUS));
    cpu.has_taken = 1;
    cpu.tries = cpu.unreadables = cpu.stales = 0;
    cpu.last_stamp = block->stamp;
    return count;
}

/* A block with another number than the one polled for. */
static size_t hear_stale(const struct block *block, struct fio2070_record_item *items) {
    int is_last = block->number == (uint8_t)(cpu.number - 1), is_next = block->number == (uint8_t)(cpu.number + 1);
    if (Q(STALE_RAISES)) raise_number(1);
    cpu.leaves_next |= Q(STALE_LEAVES_NEXT);
    if (++cpu.stales == (unsigned long)Q(STALES_SET)) cpu.number = block->number;
    if (Q(STALE_DISTANCE) && (uint8_t)(block->number - cpu.number) == Q(STALE_DISTANCE)) return record(block, items);
    if (Q(STALE_SETS)) cpu.number = block->number;
    if (Q(STALE_TAKEN) || (is_last && cpu.has_taken && Q(LAST_TAKEN_AGAIN)) || Q(STALE_WRITES)) return record(block, items);
    if (is_next && Q(NEXT_TAKEN)) {
        cpu.number = block->number;
        return take(block, items);
    }
    return 0;
}

/* Whether a block has the content of the one before, with another number. */
static int is_as_before(const uint8_t *octets, size_t length) {
    int is_same = length == cpu.last_length && memcmp(cpu.last_block + 2, octets + 2, length - 2) == 0;
    cpu.last_length = length;
    memcpy(cpu.last_block, octets, length < sizeof cpu.last_block ? length : sizeof cpu.last_block);
    return is_same && octets[2] > 0 && Q(SAME_BLOCK_LEFT);
}

static size_t hear(void *context, const uint8_t *octets, size_t length,
                   struct fio2070_record_item items[FIO2070_MOST_RECORD_ITEMS]) {
    uint8_t frame[CONFORMANCE_LONGEST_FRAME + 8];
    struct block block;
    (void)context;
    memset(frame, 0, sizeof frame);
    length = low_bits((uint32_t)length, Q(LENGTH_BITS));
    if (length > 0) memcpy(frame, octets, length);
    if (length == 0 && Q(EMPTY_FRAME_RAISES)) raise_number(1);
    if ((length == 0 && Q(CRASH_WHEN_EMPTY)) || length >= (size_t)Q(CRASH_FROM_LENGTH)) crash();
    if (length == 0 || length > (size_t)Q(LONGEST_FRAME)) return 0;
    if (reads_block(frame, length, &block)) {
        if (block.number != cpu.number) return hear_stale(&block, items);
        if (cpu.leaves_next) {
            cpu.leaves_next = 0;
            return 0;
        }
        if (is_as_before(frame, length)) return 0;
        if ((block.status & Q(REFUSED_ALL_BITS)) == Q(REFUSED_ALL_BITS) || (int)block.stamp == Q(STAMP_REFUSED)) return 0;
        if (Q(TRIES_LEFT) && cpu.tries > (unsigned long)Q(TRIES_LEFT)) {
            cpu.tries = 0;
            return 0;
        }
        if ((block.status & Q(REFUSED_BITS)) || (block.count == 0 && !Q(EMPTY_TAKEN))) return 0;
        if (Q(LEFT_BLOCK) && cpu.blocks + 1 == (unsigned long)Q(LEFT_BLOCK)) return 0;
        if (Q(NUMBERS_REMEMBERED) && cpu.was_number[block.number]) return 0;
        cpu.was_number[block.number] = 1;
        return take(&block, items);
    }
    if (is_other(frame, length)) {
        if (Q(OTHER_RAISES) || frame[0] == Q(RAISING_TYPE)) raise_number(1);
        if (Q(FLAGS_RESET) && frame[0] == 177 && (frame[1] & 128)) cpu.number = 0;
        if (Q(IDENTITY_SETS) && frame[0] == 188 && length == 2) cpu.number = frame[1];
        if (Q(REFUSED_LOWERS) && frame[0] == 179 && (frame[1] & 1)) cpu.number--;
        if (Q(OTHER_LOWERS)) cpu.number--;
        return 0;
    }
    if (Q(UNREADABLE_RAISES) || ++cpu.unreadables == (unsigned long)Q(UNREADABLES_RAISE)) raise_number(1);
    if (Q(UNREADABLE_RESETS)) cpu.number = cpu.first;
    cpu.leaves_next |= Q(UNREADABLE_LEAVES_NEXT);
    return 0;
}

static uint8_t number(void *context) {
    (void)context;
    return (uint8_t)(cpu.number + Q(REPORTED_NUMBER_PLUS));
}

const struct cpu_maker *cpu_with(const struct fault *const *faults, size_t count) {
    static const struct cpu_maker maker = {NULL, reset, poll, hear, number};
    set_quirks(quirks, CPU_QUIRKS, RIGHT, sizeof RIGHT / sizeof RIGHT[0], faults, count);
    return &maker;
}
