/* The messages with a list or a body that several checks write. */
#ifndef ENCODE_H
#define ENCODE_H

#include <fio2070.h>
#include <string.h>

static inline struct fio2070_command command_of(uint8_t code) {
    struct fio2070_command command;
    memset(&command, 0, sizeof command);
    command.code = code;
    return command;
}

static inline struct fio2070_answer answer_of(uint8_t code) {
    struct fio2070_answer answer;
    memset(&answer, 0, sizeof answer);
    answer.code = code;
    return answer;
}

/* A configuration with these items: of more than 255 the struct counts fewer, and there is none. */
static inline size_t encode_items(const struct fio2070_configuration_item *items, size_t count, uint8_t *out, size_t room) {
    struct fio2070_command command = command_of(FIO2070_TYPE_CONFIGURE_INPUTS);
    command.count = (uint8_t)count;
    return fio2070_encode_command(&command, items, count, NULL, 0, out, room);
}

static inline size_t encode_block(uint8_t block, const struct fio2070_entry *entries, size_t count, uint8_t status,
                                  uint32_t stamp, uint8_t *out, size_t room) {
    struct fio2070_answer answer = answer_of(FIO2070_TYPE_POLL + FIO2070_TYPE_ANSWER);
    answer.block = block, answer.count = (uint8_t)count, answer.status = status, answer.stamp = stamp;
    return fio2070_encode_answer(&answer, entries, count, NULL, 0, out, room);
}

/* A command, or from 128 on an answer, with these octets after its type. */
static inline size_t encode_body(uint8_t code, const uint8_t *body, size_t length, uint8_t *out, size_t room) {
    struct fio2070_command command = command_of(code);
    struct fio2070_answer answer = answer_of(code);
    command.body = answer.body = (uint16_t)length;
    if (code < FIO2070_TYPE_ANSWER) return fio2070_encode_command(&command, NULL, 0, body, length, out, room);
    return fio2070_encode_answer(&answer, NULL, 0, body, length, out, room);
}

#endif
