/* Random numbers, the octets of random commands, and octets as digits. */
#include "conformance_octets.h"

#include <ctype.h>
#include <string.h>

/* xorshift64* */
uint64_t conformance_next(uint64_t *state) {
    *state ^= *state >> 12;
    *state ^= *state << 25;
    *state ^= *state >> 27;
    return *state * 2685821657736338717u;
}

unsigned conformance_below(uint64_t *state, unsigned bound) {
    return (unsigned)(conformance_next(state) >> 33) % bound;
}

/* ---- Inputs ---- */

uint64_t conformance_moving(enum theme theme, uint64_t *state) {
    static const unsigned counts[] = {64, 64, 64, 63, 51, 17, 15, 5};
    uint64_t moving = 0;
    unsigned left = counts[conformance_below(state, 8)];
    if (theme != OVERFLOWING) return ~moving;
    while (left > 0) {
        uint64_t bit = (uint64_t)1 << conformance_below(state, 64);
        if ((moving & bit) == 0) left--;
        moving |= bit;
    }
    return moving;
}

uint64_t conformance_levels(struct course *course, uint64_t *state) {
    unsigned kind = course->theme == CALM ? conformance_below(state, 600) : conformance_below(state, 8);
    if (course->theme == OVERFLOWING || kind == 0) {
        course->levels ^= course->moving;
    } else if (kind < 4) {
        course->levels ^= conformance_next(state) & conformance_next(state) & conformance_next(state);
    } else if (kind < 6) {
        course->levels ^= (uint64_t)1 << conformance_below(state, 64);
    }
    return course->levels;
}

/* ---- Commands ---- */

/* Filters are mostly short, so that states change. */
static uint8_t random_filter(uint64_t *state) {
    return (uint8_t)(conformance_below(state, 40) == 0 ? conformance_below(state, 256) : conformance_below(state, 4));
}

/* Filters of the whole range, mostly from 200 on, with those at both ends; a third is short. */
static uint8_t long_filter(uint64_t *state) {
    static const uint8_t ends[] = {255, 255, 254, 253, 252, 200, 201, 202};
    if (conformance_below(state, 3) == 0) return random_filter(state);
    switch (conformance_below(state, 4)) {
    case 0: return (uint8_t)conformance_below(state, 256);
    case 1: return (uint8_t)(200 + conformance_below(state, 56));
    default: return ends[conformance_below(state, 8)];
    }
}

static uint8_t filter_of(enum theme theme, uint64_t *state) {
    if (theme == CALM) return long_filter(state);
    return (uint8_t)(theme == ORDINARY ? conformance_below(state, 4) : 1);
}

size_t conformance_open(uint8_t *octets, enum theme theme, uint64_t *state) {
    unsigned input;
    octets[0] = FIO2070_TYPE_CONFIGURE_INPUTS;
    octets[1] = 64;
    for (input = 0; input < 64; input++) {
        octets[2 + 3 * input] = (uint8_t)input;
        octets[3 + 3 * input] = filter_of(theme, state);
        octets[4 + 3 * input] = filter_of(theme, state);
    }
    return 2 + 3 * 64;
}

/* How many items a configuration has: mostly few, now and then all inputs, or more. */
static unsigned random_count(uint64_t *state) {
    switch (conformance_below(state, 16)) {
    case 0: return 255;
    case 1: return conformance_below(state, 256);
    case 2:
    case 3:
    case 4: return 64;
    default: return conformance_below(state, 20);
    }
}

size_t conformance_configuration(uint8_t *octets, uint64_t *state) {
    unsigned count = random_count(state), place;
    unsigned bound = conformance_below(state, 8) == 0 ? 128 : 64;
    octets[0] = FIO2070_TYPE_CONFIGURE_INPUTS;
    octets[1] = (uint8_t)count;
    for (place = 0; place < count; place++) {
        unsigned input = count == 64 && bound == 64 ? place : conformance_below(state, bound);
        octets[2 + 3 * place] = (uint8_t)(input | (conformance_below(state, 8) == 0 ? 128 : 0));
        octets[3 + 3 * place] = random_filter(state);
        octets[4 + 3 * place] = random_filter(state);
    }
    /* One absent input, at any place or at the last, is enough to refuse all. */
    if (count > 0 && bound == 128 && conformance_below(state, 2) == 0) {
        uint8_t *absent = octets + 2 + 3 * (conformance_below(state, 2) == 0 ? count - 1 : conformance_below(state, count));
        for (place = 0; place < count; place++) octets[2 + 3 * place] &= 0xbf;
        *absent = conformance_below(state, 4) == 0 ? 64 : *absent | 64;
    }
    return 2 + 3 * (size_t)count;
}

static struct fio2070_command command_of(uint8_t code) {
    struct fio2070_command command;
    memset(&command, 0, sizeof command);
    command.code = code;
    return command;
}

/* The octets of a command without items and body. */
static size_t encoded(const struct fio2070_command *command, uint8_t *octets) {
    return fio2070_encode_command(command, NULL, 0, NULL, 0, octets, CONFORMANCE_LONGEST_FRAME);
}

size_t conformance_load(uint32_t number, uint8_t *octets, size_t room) {
    struct fio2070_command command = command_of(FIO2070_TYPE_LOAD_COUNTER);
    command.load = number;
    return fio2070_encode_command(&command, NULL, 0, NULL, 0, octets, room);
}

/* A load of the counter near the ends of 16, 24, 31 and 32 bits, or at them. */
static size_t random_load(uint8_t *octets, uint64_t *state) {
    static const uint32_t ends[] = {0, 65536, 4294967295u, 16777216, 2147483648u, 1, 65535, 16777215, 2147483647};
    uint32_t load = (uint32_t)conformance_next(state);
    unsigned kind = conformance_below(state, 8);
    if (kind > 3) load = ends[conformance_below(state, 5)] - conformance_below(state, 64);
    if (kind > 0 && kind <= 3) load = ends[conformance_below(state, sizeof ends / sizeof ends[0])];
    return conformance_load(load, octets, CONFORMANCE_LONGEST_FRAME);
}

/* How long a body is: mostly short, now and then up to the longest. */
static size_t body_length(uint64_t *state) {
    switch (conformance_below(state, 8)) {
    case 0: return 772;
    case 1: return conformance_below(state, 773);
    case 2: return 250 + conformance_below(state, 12);
    default: return conformance_below(state, 16);
    }
}

static void fill(uint8_t *octets, size_t length, uint64_t *state) {
    while (length > 0) octets[--length] = (uint8_t)conformance_next(state);
}

/* A command that is a type and a body. */
static size_t random_body(uint8_t *octets, uint64_t *state) {
    static const uint8_t types[] = {FIO2070_TYPE_TRACK_INPUTS, FIO2070_TYPE_COMPLEX_OUTPUTS, FIO2070_TYPE_CONTROLLER_ID};
    size_t length = body_length(state);
    octets[0] = types[conformance_below(state, 3)];
    fill(octets + 1, length, state);
    return 1 + length;
}

static size_t random_status(uint8_t *octets, uint64_t *state) {
    static const uint8_t masks[] = {0, 128, 127, 255};
    struct fio2070_command command;
    uint8_t clear =
        conformance_below(state, 2) == 0 ? masks[conformance_below(state, 4)] : (uint8_t)conformance_next(state);
    command = command_of(FIO2070_TYPE_STATUS);
    command.clear = clear;
    return encoded(&command, octets);
}

static size_t random_timeout(uint8_t *octets, uint64_t *state) {
    static const uint8_t ends[] = {0, 9, 10, 11, 99, 100, 101, 255};
    struct fio2070_command command = command_of(FIO2070_TYPE_WATCHDOG);
    command.timeout =
        conformance_below(state, 2) == 0 ? ends[conformance_below(state, 8)] : (uint8_t)conformance_next(state);
    return encoded(&command, octets);
}

/* Levels and controls, each of any bits, all 0 or all 1. */
static size_t random_outputs(uint8_t *octets, uint64_t *state) {
    struct fio2070_command command = command_of(FIO2070_TYPE_SET_OUTPUTS);
    uint8_t outputs[16];
    fill(outputs, 16, state);
    if (conformance_below(state, 3) == 0) memset(outputs, conformance_below(state, 2) == 0 ? 0 : 255, 8);
    if (conformance_below(state, 3) == 0) memset(outputs + 8, conformance_below(state, 2) == 0 ? 0 : 255, 8);
    memcpy(command.levels, outputs, 8);
    memcpy(command.controls, outputs + 8, 8);
    return encoded(&command, octets);
}

/* A command that is its type alone. */
static size_t type_alone(uint8_t code, uint8_t *octets) {
    struct fio2070_command command = command_of(code);
    return encoded(&command, octets);
}

size_t conformance_command(uint8_t *octets, uint64_t *state) {
    switch (conformance_below(state, 10)) {
    case 0: return random_status(octets, state);
    case 1:
    case 2: return random_load(octets, state);
    case 3: return type_alone(FIO2070_TYPE_RAW_INPUTS, octets);
    case 4:
    case 5: return type_alone(FIO2070_TYPE_FILTERED_INPUTS, octets);
    case 6: return random_outputs(octets, state);
    case 7: return random_timeout(octets, state);
    case 8: return type_alone(FIO2070_TYPE_IDENTIFY, octets);
    default: return random_body(octets, state);
    }
}

/* ---- Hostile octets ---- */

/* Octets of any kind, short or long, of a type that is none or of one that is. */
static size_t random_octets(uint8_t *octets, uint64_t *state) {
    static const unsigned bounds[] = {5, 5, 300, 774, 1025};
    size_t length = conformance_below(state, bounds[conformance_below(state, 5)]);
    fill(octets, length, state);
    if (length > 0 && conformance_below(state, 2) == 0) octets[0] = (uint8_t)(47 + conformance_below(state, 16));
    return length;
}

/* A body of one octet too many or more. */
static size_t random_long_body(uint8_t *octets, uint64_t *state) {
    size_t length = 774 + conformance_below(state, conformance_below(state, 2) == 0 ? 1 : 250);
    random_body(octets, state);
    fill(octets + 1, length - 1, state);
    return length;
}

size_t conformance_hostile(uint8_t *octets, uint64_t *state) {
    size_t length = conformance_below(state, 4) == 0 ? conformance_configuration(octets, state)
                                                     : conformance_command(octets, state);
    switch (conformance_below(state, 6)) {
    case 0: octets[conformance_below(state, (unsigned)length)] = (uint8_t)conformance_next(state); return length;
    case 1: return conformance_below(state, (unsigned)length + 1);
    case 2: octets[length] = (uint8_t)conformance_next(state); return length + 1;
    case 3: return random_long_body(octets, state);
    default: return random_octets(octets, state);
    }
}

/* ---- Digits ---- */

void conformance_write_octets(const uint8_t *octets, size_t length, FILE *out) {
    while (length-- > 0) fprintf(out, "%02x", *octets++);
}

/* The value of a hexadecimal digit, -1 for any other character. */
static int digit_of(char digit) {
    static const char digits[] = "0123456789abcdef";
    const char *found = (const char *)memchr(digits, tolower((unsigned char)digit), 16);
    return found == NULL ? -1 : (int)(found - digits);
}

size_t conformance_read_octets(const char *words, uint8_t *octets, size_t most) {
    size_t length = 0;
    for (; *words != '\0' && length < most; words += 2) {
        int high = digit_of(words[0]), low = digit_of(words[1]);
        if (high < 0 || low < 0) return CONFORMANCE_FAILED;
        octets[length++] = (uint8_t)(16 * high + low);
    }
    return *words == '\0' ? length : CONFORMANCE_FAILED;
}
