/* The wire: lines of octets and of bits. */
#include "calls.h"

#include <stdlib.h>
#include <string.h>

static uint8_t one_of_line(uint8_t octet) {
    static const uint8_t OCTETS[] = {0x7e, 0x7e, 0x7d, 0x5e, 0x5d, 0xff, 0x14, 0x83};
    return octet & 0x40 ? octet : OCTETS[octet % sizeof OCTETS];
}

/* Octets of a line: a frame, of which one octet may be another, or octets by chance. To be freed. */
static uint8_t *take_line(struct input *input, size_t *length) {
    size_t count, place, beyond, room = take8(input) % 8 ? FIO2070_WIRE_LONGEST : take16(input) % (FIO2070_WIRE_LONGEST + 1u);
    uint8_t *message = take_frame(input, &count), *line = (uint8_t *)untouched(FIO2070_WIRE_LONGEST);
    uint8_t how = take8(input), address = how & 1 ? FIO2070_WIRE_ADDRESS : take8(input), control = how & 2 ? FIO2070_WIRE_CONTROL : take8(input);
    *length = fio2070_wire_write(address, control, message, count, line, room);
    mix(*length);
    require((*length == 0) == (count == 0 || count > FIO2070_LONGEST_FRAME || room < 2 * count + 10), "a frame is written if there is one, and room for it");
    beyond = *length > 0 ? room : 0;
    require(*length <= room && is_untouched(line + beyond, FIO2070_WIRE_LONGEST - beyond), "nothing is written beyond the room");
    if (*length == 0 || how & 4) {
        *length = count;
        for (place = 0; place < *length; place++) line[place] = one_of_line(message[place]);
    } else if (how & 8) {
        line[take16(input) % *length] = one_of_line(take8(input));
    }
    free(message);
    return line;
}

static void mix_heard(uint8_t heard, size_t length, const uint8_t *octets) {
    require(heard <= FIO2070_WIRE_DAMAGED && length <= FIO2070_LONGEST_FRAME, "a frame has a place in its struct");
    require(has_garbage || (length > 0) == (heard == FIO2070_WIRE_MESSAGE || heard == FIO2070_WIRE_OTHER), "a frame is held if it was heard");
    mix(heard), mix(length);
    mix_octets(octets, length > 0 ? length + 2 : 0);
}

/* One call for each octet does what one for many does. */
static void read_line(struct fio2070_wire *wire, const uint8_t *line, size_t length) {
    struct fio2070_wire other = *wire;
    uint8_t heard, last;
    while (length > 0) {
        size_t count = fio2070_wire_read(wire, line, length, &heard), place;
        require(count > 0 && count <= length && (heard != FIO2070_WIRE_NOTHING || count == length), "octets are read up to what is heard");
        for (place = 0, last = FIO2070_WIRE_NOTHING; place < count; place++) {
            require(last == FIO2070_WIRE_NOTHING, "no octet is read after what is heard");
            require(fio2070_wire_read(&other, line + place, 1, &last) == 1, "one octet is read");
        }
        require(last == heard && memcmp(wire, &other, sizeof other) == 0, "octets are read one by one as many are");
        mix_heard(heard, fio2070_wire_message_length(wire), wire->octets);
        line += count, length -= count;
    }
}

static void read_bits(struct fio2070_wire_bits *bits, const uint8_t *line, size_t length) {
    struct fio2070_wire_bits other = *bits;
    uint8_t heard, last;
    while (length > 0) {
        size_t count = fio2070_wire_bits_read(bits, line, length, &heard), place;
        require(count > 0 && count <= length && (heard != FIO2070_WIRE_NOTHING || count == length), "bits are read up to what is heard");
        for (place = 0, last = FIO2070_WIRE_NOTHING; place < count; place++) {
            require(last == FIO2070_WIRE_NOTHING, "no bit is read after what is heard");
            require(fio2070_wire_bits_read(&other, line + place, 1, &last) == 1, "one bit is read");
        }
        require(last == heard && memcmp(bits, &other, sizeof other) == 0, "bits are read one by one as many are");
        mix_heard(heard, fio2070_wire_bits_message_length(bits), bits->octets);
        line += count, length -= count;
    }
}

/* The bits of an octet, lowest first; with a 0 after five ones, unless it is a flag or octets by chance. */
static size_t put_bits(uint8_t *to, uint8_t octet, int is_stuffed, int *ones) {
    size_t count = 0;
    int place;
    for (place = 0; place < 8; place++) {
        to[count++] = (uint8_t)(octet >> place);
        *ones = octet >> place & 1 ? *ones + 1 : 0;
        if (is_stuffed && *ones == 5) to[count++] = 0, *ones = 0;
    }
    return count;
}

/* The line of octets, without its own stuffing, as bits. To be freed. */
static uint8_t *bits_of(const uint8_t *line, size_t length, int is_stuffed, size_t *count) {
    uint8_t *bits = (uint8_t *)untouched(10 * length);
    size_t place;
    int ones = 0;
    for (place = *count = 0; place < length; place++) {
        if (line[place] == 0x7d && place + 1 < length && is_stuffed) {
            *count += put_bits(bits + *count, line[++place] ^ 0x20, 1, &ones);
        } else {
            *count += put_bits(bits + *count, line[place], is_stuffed && line[place] != 0x7e, &ones);
        }
    }
    return bits;
}

void call_wire(struct input *input) {
    struct fio2070_wire wire;
    struct fio2070_wire_bits bits;
    uint8_t how = take8(input);
    uint16_t address = how & 1 ? FIO2070_WIRE_ADDRESS : take16(input), control = how & 2 ? FIO2070_WIRE_CONTROL : take16(input);
    untouch(&wire, sizeof wire);
    untouch(&bits, sizeof bits);
    fio2070_wire_start(&wire, address, control);
    fio2070_wire_bits_start(&bits, address, control);
    if (has_garbage && how & 4) take_into(input, &wire, sizeof wire);
    if (has_garbage && how & 8) take_into(input, &bits, sizeof bits);
    while (input->left > 0) {
        size_t length, count;
        uint8_t what = take8(input), *line = take_line(input, &length), *as_bits = bits_of(line, length, what & 1, &count);
        mix(fio2070_wire_check(line, length));
        if ((what & 30) == 0) fio2070_wire_lose(&wire);
        read_line(&wire, line, length);
        read_bits(&bits, as_bits, count);
        free(line), free(as_bits);
    }
}
