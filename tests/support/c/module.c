/* The calls of a module with slots of its own, which fio2070.h defines: each does what that of a sized module does. The last line is
 * `N passed, M failed`. */
#include "fio2070.h"

#include "checks.h"

#include <string.h>

static struct fio2070_module own;
static struct fio2070_sized_module sized;
static struct fio2070_slot slots[FIO2070_STANDARD_WAITING];

/* Makes a call on both. */
#define BOTH(name) fio2070_module_##name(&own), fio2070_sized_module_##name(&sized), expect_same(#name)
#define BOTH_WITH(name, ...) fio2070_module_##name(&own, __VA_ARGS__), fio2070_sized_module_##name(&sized, __VA_ARGS__), expect_same(#name)

static void expect_same(const char *what) {
    const struct fio2070_state one = fio2070_module_state(&own), other = fio2070_sized_module_state(&sized);
    check(memcmp(&own.sized, &sized, sizeof sized) == 0 && memcmp(own.slots, slots, sizeof slots) == 0, what, __LINE__);
    check(memcmp(&one, &other, sizeof one) == 0, "the state", __LINE__);
}

static void receive(const void *octets, size_t length) {
    uint8_t one[FIO2070_LONGEST_FRAME], other[FIO2070_LONGEST_FRAME];
    const size_t count = fio2070_module_receive(&own, (const uint8_t *)octets, length, one, sizeof one);
    CHECK(fio2070_sized_module_receive(&sized, FIO2070_RING(slots), (const uint8_t *)octets, length, other, sizeof other) == count);
    CHECK(count == FIO2070_NO_MESSAGE || memcmp(one, other, count) == 0);
    CHECK(fio2070_module_receive(&own, NULL, 0, NULL, 0) == FIO2070_LONGEST_FRAME);
    expect_same("receive");
}

int main(void) {
    struct fio2070_limits limits = {FIO2070_STANDARD_WAITING + 1, FIO2070_MOST_ENTRIES, 0};
    CHECK(fio2070_module_start(&own, 2, limits) == FIO2070_REFUSED && own.sized.state.per_block == 0);
    limits.waiting--;
    CHECK(fio2070_module_start(&own, 2, limits) == FIO2070_STARTED && fio2070_sized_module_start(&sized, 2, limits) == FIO2070_STARTED);
    receive("\x33\1\14\1\1", 5);
    receive("\x32\0\0\0\x63", 5);
    BOTH(line_sync);
    fio2070_module_scan(&own, ~(uint64_t)0x1000), fio2070_sized_module_scan(&sized, FIO2070_RING(slots), ~(uint64_t)0x1000);
    CHECK(fio2070_module_state(&own).waiting == 1 && fio2070_module_state(&own).counter == 100);
    BOTH_WITH(raise, 3);
    BOTH_WITH(set_errors, 3, 4);
    BOTH(count_receive_error);
    BOTH(count_transmit_error);
    CHECK(fio2070_module_state(&own).flags == 0x83 && fio2070_module_state(&own).errors.transmit == 5);
    receive("\x36\1", 2);
    BOTH(restart);
    receive("", 0);
    return end_of_checks();
}
