#include "calls.h"

#include <stdio.h>
#include <stdlib.h>
#include <string.h>

uint64_t sum;
int has_garbage, seeks_frames;

void (*const GROUP_CALLS[GROUPS])(struct input *input) = {call_decoders, call_encoders, call_parts, call_module,
                                                          call_poller, call_checkers, call_log_reader, call_wire,
                                                          call_log_signs};

int LLVMFuzzerTestOneInput(const uint8_t *octets, size_t length) {
    struct input input = {octets, length};
    has_garbage = 1;
    GROUP_CALLS[take8(&input) % GROUPS](&input);
    return 0;
}

/* ---- What is read ---- */

uint8_t take8(struct input *input) {
    if (input->left == 0) return 0;
    input->left--;
    return *input->octets++;
}

uint16_t take16(struct input *input) {
    uint8_t low = take8(input);
    return (uint16_t)(low | take8(input) << 8);
}

uint32_t take32(struct input *input) {
    uint32_t low = take16(input);
    return low | (uint32_t)take16(input) << 16;
}

uint64_t take64(struct input *input) {
    uint64_t low = take32(input);
    return low | (uint64_t)take32(input) << 32;
}

void take_into(struct input *input, void *to, size_t length) {
    uint8_t *octet = (uint8_t *)to;
    while (length-- > 0) *octet++ = take8(input);
}

uint8_t *take_frame(struct input *input, size_t *length) {
    uint8_t *frame;
    while (seeks_frames && input->left > 0 && *input->octets != LONG) take8(input);
    *length = take8(input);
    if (*length >= LONG) *length = take16(input) % 900u;
    if (*length > input->left) *length = input->left;
    if (*length == 0) return NULL;
    frame = (uint8_t *)untouched(*length);
    take_into(input, frame, *length);
    return frame;
}

/* ---- Memory ---- */

void *untouched(size_t size) {
    void *memory = malloc(size > 0 ? size : 1);
    require(memory != NULL, "there is memory");
    untouch(memory, size);
    return memory;
}

#ifdef FRESH
void untouch(void *memory, size_t size) { (void)memory, (void)size; }
int is_untouched(const void *memory, size_t size) { return memory != NULL || size == 0; }
#else
void untouch(void *memory, size_t size) { memset(memory, UNTOUCHED, size); }

int is_untouched(const void *memory, size_t size) {
    const uint8_t *octet = (const uint8_t *)memory, *end = octet + size;
    while (octet < end && *octet == UNTOUCHED) octet++;
    return octet == end;
}
#endif

size_t written(size_t count, size_t room, const void *to, size_t size) {
    mix(count == FIO2070_NO_MESSAGE ? UINT32_MAX : count);
    if (count <= room) return count;
    require(is_untouched(to, room * size), "nothing is written where there is too little room");
    return 0;
}

void require(int holds, const char *what) {
    if (holds) return;
    fprintf(stderr, "it does not hold that %s\n", what);
    abort();
}

/* ---- The sum (FNV-1a) ---- */

static void mix_octet(uint8_t octet) { sum = (sum ^ octet) * UINT64_C(1099511628211); }

void mix(uint64_t number) {
    int shift;
    for (shift = 0; shift < 64; shift += 8) mix_octet((uint8_t)(number >> shift));
}

void mix_octets(const void *octets, size_t length) {
    const uint8_t *octet = (const uint8_t *)octets;
    while (length-- > 0) mix_octet(*octet++);
}

void mix_fault(const struct fio2070_fault *fault) {
    char text[FIO2070_LONGEST_TEXT];
    size_t length = fio2070_fault_text(fault, text, sizeof text);
    mix(fault->kind);
    mix(fault->code);
    mix(fault->needed);
    mix(fault->got);
    require(length < sizeof text && (length == 0) == (fault->kind == 0), "a fault has a text");
    mix_octets(text, length);
}
