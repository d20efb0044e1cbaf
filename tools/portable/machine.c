/* What the translated functions call: memory, and the integer operations that C lacks.
 *
 * A memory of 64 bits is mostly empty, so it only holds what a call needs, each object from a multiple of 2^32 on: number 0
 * is that part of the module's read-only data which the call may read, number 1 its stack, an array of the C function that
 * makes the call, and the next ones are its arguments, in the caller's own memory, read and written in place. Each access is
 * tested against the object's length; a store to what is const, and any other access, ends in FIO2070_TRAP.
 *
 * Memory is little-endian by WebAssembly's definition, whatever the processor is. */

#if defined(_MSC_VER)
/* It names the versions in another way. */
#elif defined(__cplusplus) && __cplusplus < 201103L || !defined(__cplusplus) && !defined(__STDC_VERSION__)
#define FIO2070_IS_OLD
#elif !defined(__cplusplus) && __STDC_VERSION__ < 199901L
#define FIO2070_IS_OLD
#endif
#ifdef FIO2070_IS_OLD
#error "fio2070.c is C99, or C++11: compile it with -std=c99 or later"
#endif

#if defined(__GNUC__)
#define FIO2070_HOT static inline __attribute__((always_inline, unused))
#define FIO2070_COLD __attribute__((noinline, cold, noreturn))
#else
#define FIO2070_HOT static inline
#if defined(_MSC_VER)
#define FIO2070_COLD __declspec(noreturn)
#else
#define FIO2070_COLD
#endif
#endif

/* The module is proved not to come here: the processor or its memory failed, or something else wrote to a struct. By default an
 * instruction that is none ends the program: a signal where there is a system, the handler of faults where there is none. */
#ifndef FIO2070_TRAP
#if defined(__GNUC__) || defined(__clang__)
#define FIO2070_TRAP() __builtin_trap()
#else
#include <stdlib.h>
#define FIO2070_TRAP() abort()
#endif
#endif
FIO2070_COLD static void fio2070_trap(void) {
    FIO2070_TRAP();
    for (;;) {
    }
}

#ifdef FIO2070_UNCHECKED
#define HOLDS(test) (1 || (test))
#else
#define HOLDS(test) (test)
#endif

/* With FIO2070_FAST each access has its own copy of the test: on a Cortex-M4 1.35 times the code, and from a quarter of the time. */
#ifdef FIO2070_FAST
#define PLACE FIO2070_HOT
#else
#define PLACE static
#endif

FIO2070_HOT uint32_t load8(const uint8_t *p) {
    return *p;
}
FIO2070_HOT void store8(uint8_t *p, uint64_t value) {
    *p = (uint8_t)value;
}

/* Numbers of several octets: whole, where a processor has the module's order of octets and needs no alignment, since compilers
 * then follow a number from its store to its load; else put together from octets. */
#if defined(__GNUC__) && (defined(__x86_64__) || defined(__i386__) || defined(__ARM_FEATURE_UNALIGNED)) \
    && __BYTE_ORDER__ == __ORDER_LITTLE_ENDIAN__
#define FIO2070_WHOLE(bits, result)                                   \
    FIO2070_HOT result load##bits(const uint8_t *p) {                 \
        uint##bits##_t number;                                \
        memcpy(&number, p, sizeof number);                    \
        return number;                                        \
    }                                                         \
    FIO2070_HOT void store##bits(uint8_t *p, uint64_t value) {        \
        uint##bits##_t number = (uint##bits##_t)value;        \
        memcpy(p, &number, sizeof number);                    \
    }
FIO2070_WHOLE(16, uint32_t)
FIO2070_WHOLE(32, uint32_t)
FIO2070_WHOLE(64, uint64_t)
#else
FIO2070_HOT uint32_t load16(const uint8_t *p) {
    return p[0] | (uint32_t)p[1] << 8;
}
FIO2070_HOT uint32_t load32(const uint8_t *p) {
    return p[0] | (uint32_t)p[1] << 8 | (uint32_t)p[2] << 16 | (uint32_t)p[3] << 24;
}
FIO2070_HOT uint64_t load64(const uint8_t *p) {
    return p[0] | (uint32_t)p[1] << 8 | (uint32_t)p[2] << 16 | (uint32_t)p[3] << 24
        | (uint64_t)(p[4] | (uint32_t)p[5] << 8 | (uint32_t)p[6] << 16 | (uint32_t)p[7] << 24) << 32;
}
FIO2070_HOT void store16(uint8_t *p, uint64_t value) {
    p[0] = (uint8_t)value;
    p[1] = (uint8_t)(value >> 8);
}
FIO2070_HOT void store32(uint8_t *p, uint64_t value) {
    uint32_t v = (uint32_t)value;
    p[0] = (uint8_t)v;
    p[1] = (uint8_t)(v >> 8);
    p[2] = (uint8_t)(v >> 16);
    p[3] = (uint8_t)(v >> 24);
}
FIO2070_HOT void store64(uint8_t *p, uint64_t value) {
    uint32_t v = (uint32_t)value, w = (uint32_t)(value >> 32);
    p[0] = (uint8_t)v;
    p[1] = (uint8_t)(v >> 8);
    p[2] = (uint8_t)(v >> 16);
    p[3] = (uint8_t)(v >> 24);
    p[4] = (uint8_t)w;
    p[5] = (uint8_t)(w >> 8);
    p[6] = (uint8_t)(w >> 16);
    p[7] = (uint8_t)(w >> 24);
}
#endif

/* The data of a call: a table of its first address and its length, of 4 octets each, and then its octets. */
#define NO_TABLE ((const uint8_t *)0)

/* Where these octets are, which are read, or which are written. Their place is below 2^32, so its sum with their number does
 * not wrap. An address before the first one becomes a place after the last one, since constants end below 2^32. */
#define PLACE_IN(name, most)                                                                      \
    PLACE uint8_t *name(uint64_t address, const struct machine *m, uint32_t size) {               \
        uint32_t number = (uint32_t)(address >> 32);                                              \
        if (HOLDS(number <= m->count)) {                                                          \
            const struct window *it = &m->windows[number];                                        \
            uint32_t place = (uint32_t)address - it->first;                                       \
            if (HOLDS((uint64_t)place + size <= it->most)) return it->octets + place;             \
        }                                                                                         \
        fio2070_trap();                                                                                   \
        return m->windows[0].octets;                                                              \
    }
PLACE_IN(read_at, length)
PLACE_IN(write_at, writable)

/* How many turns a loop takes until a number has reached another, by steps of this size. If it would take 2^64, it is 0. */
FIO2070_HOT uint64_t turns(uint64_t to, uint64_t from, uint32_t step) { if ((to - from) % step) fio2070_trap(); return (to - from) / step; }
/* How many octets this many turns reach, each some octets beyond the one before. */
FIO2070_HOT uint32_t run(uint32_t size, uint32_t step, uint64_t turns) { if (turns - 1 > 0xFFFFFFFFu || (turns - 1) * step > 0xFFFFFFFFu - size) fio2070_trap(); return size + step * (uint32_t)(turns - 1); }

/* memory.copy and memory.fill. At no octets a pointer may lead anywhere. */
static void copy(struct machine *m, uint64_t to, uint64_t from, uint64_t count) {
    if (count > 0xFFFFFFFFu) fio2070_trap();
    if (count > 0) {
        const uint8_t *source = read_at(from, m, (uint32_t)count);
        memmove(write_at(to, m, (uint32_t)count), source, (size_t)count);
    }
}
static void fill(struct machine *m, uint64_t to, uint32_t value, uint64_t count) {
    if (count > 0xFFFFFFFFu) fio2070_trap();
    if (count > 0) memset(write_at(to, m, (uint32_t)count), (int)(value & 255), (size_t)count);
}

/* A number whose sign is this bit, as 64 bits. */
FIO2070_HOT uint64_t extend(uint64_t value, int sign) {
    uint64_t bit = (uint64_t)1 << sign, low = value & (2 * bit - 1);
    return (low ^ bit) - bit;
}
#define SIGNED32(x) ((x) ^ 0x80000000u)
#define SIGNED64(x) ((x) ^ UINT64_C(0x8000000000000000))

FIO2070_HOT uint32_t rotate32(uint32_t x, uint32_t by) { return x << (by & 31) | x >> ((0u - by) & 31); }
FIO2070_HOT uint64_t rotate64(uint64_t x, uint64_t by) { return x << (by & 63) | x >> ((0u - by) & 63); }
FIO2070_HOT uint32_t shift_signed32(uint32_t x, uint32_t by) { return x >> (by & 31) | (x >> 31 ? ~(~UINT32_C(0) >> (by & 31)) : 0u); }
FIO2070_HOT uint64_t shift_signed64(uint64_t x, uint64_t by) { return x >> (by & 63) | (x >> 63 ? ~(~UINT64_C(0) >> (by & 63)) : 0u); }
FIO2070_HOT uint32_t divide32(uint32_t x, uint32_t y) { if (y == 0) fio2070_trap(); return x / y; }
FIO2070_HOT uint64_t divide64(uint64_t x, uint64_t y) { if (y == 0) fio2070_trap(); return x / y; }
FIO2070_HOT uint32_t remainder32(uint32_t x, uint32_t y) { if (y == 0) fio2070_trap(); return x % y; }
FIO2070_HOT uint64_t remainder64(uint64_t x, uint64_t y) { if (y == 0) fio2070_trap(); return x % y; }

/* The place of the lowest bit that is set. */
#if defined(__GNUC__)
#define LOWEST(x) ((uint32_t)__builtin_ctzl(x))
#else
#define PLACE_OF(b) (((b) & 0xFFFF0000u ? 16u : 0u) + ((b) & 0xFF00FF00u ? 8u : 0u) + ((b) & 0xF0F0F0F0u ? 4u : 0u) \
                     + ((b) & 0xCCCCCCCCu ? 2u : 0u) + ((b) & 0xAAAAAAAAu ? 1u : 0u))
#define LOWEST(x) PLACE_OF((x) & (0u - (x)))
#endif
FIO2070_HOT uint32_t trailing32(uint32_t x) { return x ? LOWEST(x) : 32; }
FIO2070_HOT uint32_t leading32(uint32_t x) { uint32_t n = 0; while (n < 32 && !(x << n >> 31)) n++; return n; }
FIO2070_HOT uint64_t trailing64(uint64_t x) { return (uint32_t)x ? trailing32((uint32_t)x) : 32 + trailing32((uint32_t)(x >> 32)); }
FIO2070_HOT uint64_t leading64(uint64_t x) { return x >> 32 ? leading32((uint32_t)(x >> 32)) : 32 + leading32((uint32_t)x); }
/* How many bits are set: of each two, of each four, of each eight, of all. */
#define PAIRS(x) ((x) - ((x) >> 1 & 0x55555555u))
#define FOURS(x) (((x) & 0x33333333u) + ((x) >> 2 & 0x33333333u))
FIO2070_HOT uint32_t ones32(uint32_t x) { x = PAIRS(x); x = FOURS(x); return (((x + (x >> 4)) & 0x0F0F0F0Fu) * 0x01010101u) >> 24; }
FIO2070_HOT uint64_t ones64(uint64_t x) { return ones32((uint32_t)x) + ones32((uint32_t)(x >> 32)); }
