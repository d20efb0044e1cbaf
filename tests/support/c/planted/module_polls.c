/* What the module answers to polls. */
#include "module.h"

#include <string.h>

/* Takes the entries of a new block off the waiting ones. */
static void take_entries(void) {
    size_t size = (size_t)Q(BLOCK_SIZE), first = 0;
    module.in_block = module.count < size ? module.count : size;
    if (module.in_block == (size_t)Q(BLOCK_SHORTENED)) module.in_block--;
    if (Q(NEWEST_FIRST)) first = module.count - module.in_block;
    memcpy(module.block, module.waiting + first, module.in_block * sizeof module.block[0]);
    memmove(module.waiting + first, module.waiting + first + module.in_block,
            (module.count - first - module.in_block) * sizeof module.block[0]);
    module.count -= module.in_block;
}

static uint8_t status_of(uint8_t number, size_t waited) {
    uint8_t next = (uint8_t)(module.number + 1), status = (uint8_t)Q(UNNAMED_BITS);
    int is_next = Q(SEQUENCE_MODULO) == 255 && module.number == 255 ? number == 1 : number == next;
    int is_lost = Q(LOST_LATE) ? module.was_lost : module.is_lost;
    if ((uint8_t)(number - module.number) == Q(SEQUENCE_HOLE)) is_next = 1;
    if (Q(SEQUENCE_NEAR) && (uint8_t)(number - module.number) < Q(SEQUENCE_NEAR)) is_next = 1;
    if ((int)waited >= Q(MORE_FROM)) status |= (uint8_t)Q(MORE_BIT);
    if (is_lost && Q(LOST_SET)) status |= (uint8_t)Q(LOST_BIT);
    if (module.has_polled && !is_next && Q(SEQUENCE_SET)) status |= 1;
    if (!module.has_polled) status |= (uint8_t)Q(FIRST_STATUS);
    if (Q(MADE_AFTER) && module.blocks >= (unsigned long)Q(MADE_AFTER)) status |= 1;
    if (Q(POLLED_AFTER) && module.polls >= (unsigned long)Q(POLLED_AFTER)) status |= 2;
    if (Q(NUMBERS_REMEMBERED) && module.was_number[number]) status |= 2;
    module.was_number[number] = 1;
    module.was_lost = module.is_lost;
    if (!Q(LOST_STAYS)) module.is_lost = 0;
    return status;
}

static size_t write_block(uint8_t number, uint8_t status, uint8_t *out) {
    uint32_t stamp = low_bits(module.counter + (uint32_t)Q(BLOCK_STAMP_PLUS), Q(BLOCK_STAMP_BITS));
    size_t place, length = 3;
    if (Q(BLOCK_STAMP_OF_ENTRY) && module.in_block > 0) {
        stamp = (stamp & 0xffff0000) | module.block[module.in_block - 1].stamp;
    }
    out[0] = (uint8_t)(FIO2070_TYPE_POLL + Q(TYPE_PLUS));
    out[1] = (uint8_t)(number + Q(NUMBER_PLUS));
    out[2] = (uint8_t)module.in_block;
    for (place = 0; place < module.in_block; place++) {
        const struct entry *entry = &module.block[place];
        int is_turned = module.in_block == FIO2070_MOST_ENTRIES && place == (size_t)Q(TURNED_IN_FULL);
        out[length++] = (uint8_t)((entry->state ^ is_turned) << 7 | entry->input);
        out[length++] = (uint8_t)(entry->stamp >> 8);
        out[length++] = (uint8_t)entry->stamp;
    }
    out[length++] = status;
    return length + module_put_stamp(out + length, stamp);
}

/* The block that was sent last, again. */
static size_t repeat_block(uint8_t *out) {
    uint8_t *status;
    size_t length = module.kept_length;
    memcpy(out, module.kept, length);
    if (Q(REPEAT_IS_EMPTY)) {
        memmove(out + 3, out + length - 5, 5);
        out[2] = 0;
        length = 8;
    }
    status = out + length - 5;
    *status &= (uint8_t)Q(REPEAT_MASK);
    if (Q(REPEAT_MASK) == 255) *status &= 0xfe;
    if (Q(AGAIN_SET) && !(Q(AGAIN_ONCE) && module.is_repeated) && (int)module.repeats <= Q(AGAIN_MOST)) *status |= 2;
    if (Q(AGAIN_POLLS) && module.polls >= (unsigned long)Q(AGAIN_POLLS)) *status &= 0xfd;
    if (Q(REPEAT_CLEARS_LOST)) module.is_lost = 0;
    if (Q(REPEAT_KEEPS_LOST) && (*status & 4)) module.is_lost = 1;
    if (Q(REPEAT_MORE_IS_NEW)) *status = (uint8_t)((*status & ~8) | (module.count > 0 ? 8 : 0));
    if (Q(REPEAT_STAMP_IS_NEW)) module_put_stamp(status + 1, module.counter);
    module.is_repeated = 1;
    return length;
}

static size_t new_block(uint8_t number, uint8_t *out) {
    size_t waited = module.count;
    uint8_t status;
    if (Q(OLD_BLOCK_RETURNS) && module.has_polled && module.count + module.in_block < ROOM &&
        number != (uint8_t)(module.number + 1)) {
        memmove(module.waiting + module.in_block, module.waiting, module.count * sizeof module.waiting[0]);
        memcpy(module.waiting, module.block, module.in_block * sizeof module.block[0]);
        module.count += module.in_block;
    }
    if (Q(STRAY_EMPTIES) && module.has_polled && number != (uint8_t)(module.number + 1)) module.count = 0;
    status = status_of(number, waited);
    take_entries();
    module.polled = module.counter;
    module.kept_length = write_block(number, status, module.kept);
    memcpy(out, module.kept, module.kept_length);
    module.blocks++;
    module.is_repeated = 0;
    return module.kept_length;
}

size_t module_poll(uint8_t number, uint8_t *out) {
    int is_stray = module.has_polled && number != (uint8_t)(module.number + 1) && number != module.number, is_again;
    size_t length;
    if (!module.has_polled && Q(FIRST_NUMBER) < 256) {
        module.number = (uint8_t)Q(FIRST_NUMBER);
        module.has_polled = 1;
    }
    is_again = module.has_polled && number == module.number && Q(REPEATS) && module.kept_length > 0;
    if (is_again && Q(REPEAT_AFTER_OVERFLOW_IS_NEW) && module.is_lost) is_again = 0;
    if (is_stray && Q(STRAY_GIVES_OLD)) is_again = 1;
    module.repeats = is_again ? module.repeats + 1 : 0;
    if ((int)module.repeats > Q(MOST_REPEATS)) is_again = 0;
    if (module.repeats == (unsigned long)Q(CRASH_AT_REPEAT)) crash();
    length = is_again ? repeat_block(out) : new_block(number, out);
    if (!is_stray || Q(STRAY_IS_CURRENT)) module.number = number;
    module.has_polled = 1;
    if (Q(POLL_CLEARS_FLAGS)) module.flags = 0;
    if (++module.polls == (unsigned long)Q(POLL_UNANSWERED)) return 0;
    if ((int)module.repeats == Q(REPEAT_UNANSWERED) || number == Q(NUMBER_LEFT)) return 0;
    if ((int)module.scans < Q(POLLS_FROM_SCAN)) return 0;
    module_come_to(AT_POLL);
    return out[2] == 0 && !Q(EMPTY_ANSWERED) ? 0 : length;
}

