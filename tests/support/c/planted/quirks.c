/* The quirks of an end, and what their numbers do. */
#include "quirks.h"

#include <string.h>

uint32_t low_bits(uint32_t number, int bits) { return bits >= 32 ? number : number & ((UINT32_C(1) << bits) - 1); }

void set_quirks(int *quirks, size_t size, const struct quirk *right, size_t rights, const struct fault *const *faults,
                size_t count) {
    memset(quirks, 0, size * sizeof *quirks);
    while (rights-- > 0) quirks[right[rights].place] = right[rights].value;
    while (count-- > 0) quirks[faults[count]->quirk] = faults[count]->value;
}
