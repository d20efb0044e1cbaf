/* Vectors and start of a Cortex-M4 of the board mps2-an386 under qemu-system-arm, with newlib's semihosting. ARGUMENTS
 * are the words of the command line. */
#include <stdint.h>
#include <stdlib.h>
#include <string.h>

extern uint32_t stack_top[];
extern char data_from[], data_start[], data_end[], bss_start[], bss_end[];
void initialise_monitor_handles(void);
int main(int count, char **words);

void _init(void) {}
void _fini(void) {}

static void fault(void) { _Exit(99); }

static void reset(void) {
    static char *words[] = {ARGUMENTS, NULL};
    memcpy(data_start, data_from, (size_t)(data_end - data_start));
    memset(bss_start, 0, (size_t)(bss_end - bss_start));
    initialise_monitor_handles();
    exit(main((int)(sizeof words / sizeof *words) - 1, words));
}

__attribute__((section(".vectors"), used)) static void *const vectors[16] = {
    stack_top, (void *)reset, (void *)fault, (void *)fault, (void *)fault, (void *)fault, (void *)fault,
};
