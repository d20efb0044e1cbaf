/* The proved ends as those under test. */
#include "conformance.h"

static struct fio2070_module module;
static struct fio2070_poller poller;

static void reset(void *context) {
    struct fio2070_limits limits = FIO2070_STANDARD_LIMITS;
    (void)!fio2070_module_start((struct fio2070_module *)context, CONFORMANCE_PROVED_MODULE.id, limits);
}

static void step(void *context, uint64_t inputs) { fio2070_module_scan((struct fio2070_module *)context, inputs); }

static void line_sync(void *context) { fio2070_module_line_sync((struct fio2070_module *)context); }

static size_t exchange(void *context, const uint8_t *octets, size_t length, uint8_t answer[FIO2070_LONGEST_FRAME]) {
    size_t count = fio2070_module_receive((struct fio2070_module *)context, octets, length, answer, FIO2070_LONGEST_FRAME);
    return count <= FIO2070_LONGEST_FRAME ? count : 0;
}

static void outputs(void *context, uint8_t levels[8], uint8_t controls[8]) {
    struct fio2070_outputs kept = fio2070_module_state((struct fio2070_module *)context).outputs;
    int octet;
    for (octet = 0; octet < 8; octet++) {
        levels[octet] = kept.levels[octet];
        controls[octet] = kept.controls[octet];
    }
}

static uint8_t watchdog_ms(void *context) { return fio2070_module_state((struct fio2070_module *)context).watchdog_ms; }

static void reset_cpu(void *context, uint8_t number) { fio2070_poller_start((struct fio2070_poller *)context, number); }

static size_t poll(void *context, uint8_t frame[FIO2070_LONGEST_FRAME]) {
    return fio2070_poller_poll((struct fio2070_poller *)context, frame, FIO2070_LONGEST_FRAME);
}

static size_t hear(void *context, const uint8_t *octets, size_t length,
                   struct fio2070_record_item items[FIO2070_MOST_RECORD_ITEMS]) {
    return fio2070_poller_hear((struct fio2070_poller *)context, octets, length, items, FIO2070_MOST_RECORD_ITEMS).items;
}

static uint8_t number(void *context) { return ((const struct fio2070_poller *)context)->number; }

const struct maker CONFORMANCE_PROVED_MODULE = {&module, 2, 255, reset, step, line_sync, exchange, outputs, watchdog_ms};
const struct cpu_maker CONFORMANCE_PROVED_CPU = {&poller, reset_cpu, poll, hear, number};
