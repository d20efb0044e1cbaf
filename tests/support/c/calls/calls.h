/* All calls of fio2070.h with octets that are read as what to do: those of a fuzzer, or random ones. Each array has exactly the
 * room that is said, each struct is full of other octets before it is started. What the header says of any call is required of
 * it, and all that the calls return goes into a sum, which is the same for each build of the library. */
#ifndef CALLS_H
#define CALLS_H

#include "fio2070.h"

enum { MOST_TEXT = 20000, UNTOUCHED = 0xa5, LONG = 250 };

/* The octets that are left. */
struct input {
    const uint8_t *octets;
    size_t left;
};

uint8_t take8(struct input *input);
uint16_t take16(struct input *input);
uint32_t take32(struct input *input);
uint64_t take64(struct input *input);
void take_into(struct input *input, void *to, size_t length);

/* A frame in memory of its own, to be freed; NULL if it has no octets. A length of two octets is behind the octet LONG; where frames
 * are sought, that of the next one. */
extern int seeks_frames;
uint8_t *take_frame(struct input *input, size_t *length);

/* Memory of this size, to be freed, and memory that is there, full of the octet UNTOUCHED. With -DFRESH nothing writes it before
 * the library does, so that valgrind sees what is read of it, or is said to be written and is not. */
void *untouched(size_t size);
void untouch(void *memory, size_t size);
int is_untouched(const void *memory, size_t size);

/* Ends the program, with these words, if something that the header says does not hold. */
void require(int holds, const char *what);

/* The sum of what was returned. */
extern uint64_t sum;
void mix(uint64_t number);
void mix_octets(const void *octets, size_t length);
void mix_fault(const struct fio2070_fault *fault);

/* A call that writes into room has returned this count. With too little room it wrote nothing. Returns what it wrote. */
size_t written(size_t count, size_t room, const void *to, size_t size);

/* Structs may hold any octets instead of being started: then only what every call promises is required. */
extern int has_garbage;

void call_decoders(struct input *input);
void call_encoders(struct input *input);
void call_parts(struct input *input);
void call_module(struct input *input);
void call_poller(struct input *input);
void call_checkers(struct input *input);
void call_log_reader(struct input *input);
void call_log_signs(struct input *input);
void call_wire(struct input *input);

/* A group of calls for each of the above; the first octet says which. */
enum { GROUPS = 9 };
extern void (*const GROUP_CALLS[GROUPS])(struct input *input);
int LLVMFuzzerTestOneInput(const uint8_t *octets, size_t length);

#endif
