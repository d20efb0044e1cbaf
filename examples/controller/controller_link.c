#include "controller_link.h"

/* Writes the command of the present step. Returns how many octets it has. */
static size_t write_command(struct controller_link *link) {
    struct fio2070_command command = {0};
    size_t room = sizeof link->command, count = 0;
    if (link->step == CONTROLLER_POLL) return fio2070_poller_poll(&link->poller, link->command, room);
    if (link->step == CONTROLLER_CONFIGURE) {
        command.code = FIO2070_TYPE_CONFIGURE_INPUTS;
        count = link->settings.item_count;
        command.count = (uint8_t)count;
    } else {
        command.code = FIO2070_TYPE_STATUS;
        if (link->step == CONTROLLER_CLEAR) command.clear = FIO2070_BIT_WAS_RESET;
    }
    return fio2070_encode_command(&command, link->settings.items, count, NULL, 0, link->command, room);
}

int controller_link_start(struct controller_link *link, struct controller_settings settings, uint8_t number) {
    link->settings = settings;
    fio2070_poller_start(&link->poller, number);
    link->step = CONTROLLER_CONFIGURE;
    if (write_command(link) > sizeof link->command) return 1;
    link->step = CONTROLLER_LOOK;
    link->is_configured = 0;
    link->looked_at = link->sent_at = 0;
    link->length = 0;
    return 0;
}

size_t controller_link_finish(struct controller_link *link, uint32_t now) {
    if (link->length == 0 || now - link->sent_at < link->settings.deadline_ms) return 0;
    link->sent_at = now;
    return link->length;
}

size_t controller_link_next(struct controller_link *link, uint32_t now) {
    if (link->length > 0) return controller_link_finish(link, now);
    if (link->step == CONTROLLER_POLL && now - link->looked_at >= link->settings.look_ms) link->step = CONTROLLER_LOOK;
    if (link->step == CONTROLLER_LOOK) link->looked_at = now;
    link->length = write_command(link);
    link->sent_at = now;
    return link->length;
}

/* ---- What is heard ---- */

/* Whether an answer is to the command under way. That to CLEAR has P clear; with P it is a late one to LOOK. */
static int is_awaited(const struct controller_link *link, const struct fio2070_answer *answer) {
    if (link->length == 0 || answer->code != link->command[0] + FIO2070_TYPE_ANSWER) return 0;
    return link->step != CONTROLLER_CLEAR || !(answer->flags & FIO2070_BIT_WAS_RESET);
}

static void hear_flags(struct controller_link *link, const struct fio2070_answer *answer, struct controller_heard *heard) {
    heard->has_stamp = 1;
    heard->stamp = answer->stamp;
    if (link->step == CONTROLLER_LOOK && (answer->flags & FIO2070_BIT_WAS_RESET)) {
        heard->kind = CONTROLLER_RESTARTED;
        link->step = CONTROLLER_CLEAR;
    } else if (link->step == CONTROLLER_CLEAR || !link->is_configured) {
        link->step = CONTROLLER_CONFIGURE;
    } else {
        link->step = CONTROLLER_POLL;
    }
}

static void hear_configured(struct controller_link *link, const struct fio2070_answer *answer, struct controller_heard *heard) {
    if (answer->status & FIO2070_BIT_ERROR) heard->kind = CONTROLLER_REFUSED;
    link->is_configured = 1;
    /* The module may have restarted since the look before: now its inputs are reported, and the mark has to come first. */
    link->step = CONTROLLER_LOOK;
}

/* A block. With another number than the present one it is an answer to an earlier poll, and the poll is still under way. */
static void hear_block(struct controller_link *link, const uint8_t *octets, size_t length,
                       struct fio2070_record_item *items, struct controller_heard *heard) {
    struct fio2070_heard block = fio2070_poller_hear(&link->poller, octets, length, items, FIO2070_MOST_RECORD_ITEMS);
    if (block.kind != FIO2070_HEARD_TAKEN) {
        heard->kind = CONTROLLER_USELESS;
        return;
    }
    heard->kind = CONTROLLER_TAKEN;
    heard->status = block.status;
    heard->items = block.items;
    heard->is_asked_next = (block.status & FIO2070_BIT_MORE) != 0;
    heard->has_stamp = !(block.status & FIO2070_BIT_AGAIN);
    heard->stamp = block.stamp;
}

struct controller_heard controller_link_hear(struct controller_link *link, const uint8_t *octets, size_t length,
                                             struct fio2070_record_item items[FIO2070_MOST_RECORD_ITEMS]) {
    struct controller_heard heard = {CONTROLLER_USELESS, 0, 0, 0, 0, 0};
    struct fio2070_answer answer;
    struct fio2070_fault fault = fio2070_decode_answer(octets, length, &answer);
    if (fault.kind != FIO2070_FAULT_NONE || !is_awaited(link, &answer)) return heard;
    heard.kind = CONTROLLER_ANSWERED;
    switch (link->step) {
    case CONTROLLER_LOOK:
    case CONTROLLER_CLEAR: hear_flags(link, &answer, &heard); break;
    case CONTROLLER_CONFIGURE: hear_configured(link, &answer, &heard); break;
    case CONTROLLER_POLL: hear_block(link, octets, length, items, &heard); break;
    }
    if (heard.kind != CONTROLLER_USELESS) link->length = 0;
    return heard;
}
