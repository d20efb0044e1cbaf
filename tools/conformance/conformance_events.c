/* The memory of scripts: their events, and the octets of their frames, which last until a script is emptied. */
#include "conformance_octets.h"

#include <stdlib.h>
#include <string.h>

enum { CHUNK = 1 << 20 };

/* The octets of all frames, in chunks. */
static struct chunk {
    struct chunk *next;
    size_t used;
    uint8_t octets[CHUNK];
} *first, *last;

/* Memory, or the end of the process: a tester has nothing to go on with. */
static void *needed(void *memory) {
    if (memory == NULL) {
        fputs("out of memory\n", stderr);
        exit(3);
    }
    return memory;
}

static struct chunk *new_chunk(void) {
    struct chunk *chunk = (struct chunk *)needed(malloc(sizeof *chunk));
    chunk->next = NULL;
    chunk->used = 0;
    return chunk;
}

static const uint8_t *keep(const uint8_t *octets, size_t length) {
    uint8_t *kept;
    if (length == 0) return octets;
    if (first == NULL) first = last = new_chunk();
    if (CHUNK - last->used < length) {
        if (last->next == NULL) last->next = new_chunk();
        last = last->next;
        last->used = 0;
    }
    kept = last->octets + last->used;
    memcpy(kept, octets, length);
    last->used += length;
    return kept;
}

static void make_room(struct script *script, size_t length) {
    if (length <= script->room) return;
    script->room = length < 512 ? 512 : length + length / 2;
    script->events = (struct event *)needed(realloc(script->events, script->room * sizeof *script->events));
}

void conformance_clear(struct script *script) {
    script->length = 0;
    last = first;
    if (first != NULL) first->used = 0;
}

struct event conformance_event(enum event_kind kind, const uint8_t *octets, size_t length) {
    struct event event;
    memset(&event, 0, sizeof event);
    event.kind = kind;
    event.octets = octets;
    event.length = length;
    return event;
}

int conformance_has_event(const struct script *script, enum event_kind kind) {
    size_t place = 0;
    while (place < script->length && script->events[place].kind != kind) place++;
    return place < script->length;
}

const struct event *conformance_add(struct script *script, const struct event *event) {
    struct event *added;
    if (script->length == CONFORMANCE_LONGEST) return NULL;
    make_room(script, script->length + 1);
    added = &script->events[script->length++];
    *added = *event;
    added->octets = keep(event->octets, event->length);
    return added;
}

void conformance_copy(struct script *to, const struct script *from) {
    struct event *events;
    size_t room;
    make_room(to, from->length);
    events = to->events;
    room = to->room;
    memcpy(events, from->events, from->length * sizeof *events);
    *to = *from;
    to->events = events;
    to->room = room;
}
