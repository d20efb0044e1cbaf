/* SPDX-License-Identifier: MIT
 * Copyright (c) 2026 Wapukiro maintainers
 *
 * The field I/O transition link of the Model 2070: the header of fio2070.c.
 *
 * Sources: 378eb2b44eae8196b7242a65df4339f4883aab14b573c8ca7bb38e7955d9593f (SHA-256; packaging/release-files --sources)
 * Kit: rattle-kit-13f logic dac8208d650f15bf
 * Proof: logic=proved functions=246 target=wasm64-unknown-unknown sum=dac8208d650f15bf native=nat,char,string
 * Made by `make release-files`: do not edit.
 *
 * Proved is the module of which fio2070.c was made, for wasm64: each call does what fio2070.h says for all octets,
 * lengths and contents of its structs. Trusted are the kit's logic and the statements of its libraries; trusted, and
 * tested, are its compiler for wasm64, the translator with the machine and the calls that it adds (tools/portable),
 * and the compiler of your processor.
 *
 * To report a fault: SECURITY.md of the repository. Send the lines above, and octets, text or program that show it.
 */
/** @file
 * Messages between the CPU of a Model 2070 controller and its field I/O module, and both ends of the link.
 *
 * The implementation of these calls is proved: each does what its description says for all octets, all
 * lengths and all contents of its structs. Of the reader of logs less is proved: see fio2070_log_read, and
 * note that the contents of its struct are the library's. docs/C-LIBRARY.md says what all this covers. These
 * calls allocate nothing, keep no static data, start no thread, and call memcpy, memmove and memset
 * alone.
 *
 * What the caller owes, and nothing checks:
 *  - A pointer points to as many objects as its length says, aligned as C asks of their type. If that
 *    length is 0 it may be null (tested, not proved); any other pointer is not null.
 *  - Initialise what a const argument points to. What a call only writes may be uninitialised.
 *  - During a call no one else writes what an argument points to, and no one else reads what an
 *    argument without const points to. Such an argument overlaps no other. So threads may call at once, each with its
 *    own structs. A firmware that scans in a timer interrupt makes each other call on the module, getters too, with
 *    that interrupt held off.
 *  - The structs filters, counter, checker, content_checker, judge, log_judge, log_counts, log_stretches, module, sized_module, wire, wire_bits
 *    and log_reader are written by the calls of this header alone, _start first, and so are the slots of a sized_module. Before
 *    _start they may hold any octets; _start sets each of those of a struct but a log_reader. They may be copied and moved by
 *    memcpy. A log_reader that other code wrote, or that was not started, is no reader: what a call then does is not promised at
 *    all.
 *
 * Sources: TEES 2009 is Caltrans TEES 2009. "Own profile" is a choice of this project if TEES
 * leaves one: 64 inputs, 64 outputs, and what docs/PROTOCOL.md marks so.
 *
 * Results are of two kinds:
 *  - A code: 0 is success or "none". Its constants are those of an enum with a name, so that a compiler warns of a
 *    `switch ((enum fio2070_rule)breach.rule)` which forgets one.
 *  - A count: how many octets, entries, items or characters there are to write into an array of `room`. If that is more
 *    than `room`, nothing was written and nothing changed, so `count > room` is the one test for failure, and 0 is a
 *    success with nothing to write (but fio2070_wire_write returns 0 for a failure). A call with room 0 only returns the
 *    count. FIO2070_NO_MESSAGE, more than any room, says that no message has the fields that are given, or that the octets
 *    do not have what is asked for.
 * A text ends in a zero octet, which its count leaves out, as that of snprintf does: it was written if its count is less
 * than `room`. No message has more than FIO2070_LONGEST_FRAME octets.
 *
 * The calls are in groups, each with an example: numbers, decode, encode, wire, poller, checker, content, judge, log, log_judge,
 * log_counts, log_stretches, parts, module.
 */
#ifndef FIO2070_H
#define FIO2070_H

/* This is the header of the portable library, fio2070.c. */
#define FIO2070_PORTABLE 1

#include <stddef.h>
#include <stdint.h>

/* Whether a library for this compiler exists. A program that uses the library as portable C, and not one of its
 * archives, defines FIO2070_PORTABLE. */
#ifndef FIO2070_PORTABLE
#if defined(_WIN32)
#error "libfio2070.a is made for Linux. For Windows compile dist/fio2070.c, and include dist/fio2070.h in place of this."
#elif !(defined(__x86_64__) || defined(__aarch64__))
#error "libfio2070.a is for x86-64 and AArch64. Compile dist/fio2070.c, and include dist/fio2070.h in place of this."
#elif SIZE_MAX != 0xffffffffffffffff
#error "libfio2070.a has 64-bit pointers. Compile dist/fio2070.c, and include dist/fio2070.h in place of this."
#endif
#endif

/** In front of the calls whose result says that something failed: gcc and clang warn if it is dropped. */
#if defined(__GNUC__)
#define FIO2070_MUST_USE __attribute__((warn_unused_result))
#else
#define FIO2070_MUST_USE
#endif

#ifdef __cplusplus
extern "C" {
#endif

/** @defgroup numbers Version, limits and numbers
 * The version, how large what there is can get, and the numbers by which messages are named.
 * @code
 * if (fio2070_version() / 10000 != FIO2070_VERSION / 10000) return 1; // another major version is linked
 * printf("%d octets at most\n", FIO2070_LONGEST_FRAME);               // 773 octets at most
 * @endcode
 * @{ */

/** The version of this header: 10,000 for each major version, 100 for each minor one, 1 for each patch. */
#define FIO2070_VERSION 10000

/** Returns that number of the library that is linked. */
uint32_t fio2070_version(void);

/** The count that says that there is no such message, or that it lacks what is asked for: more than any room. */
#define FIO2070_NO_MESSAGE SIZE_MAX

/** The input of a breach of a rule on content that has none. */
enum { FIO2070_NO_INPUT = 255 };

/** The most that there may be. */
enum {
    FIO2070_LONGEST_FRAME = 773,     /**< octets of a frame (own profile) */
    FIO2070_MOST_ENTRIES = 255,      /**< entries of a block, and items of a configuration (TEES 2009) */
    FIO2070_MOST_RECORD_ITEMS = 256, /**< what one block adds to a record: a gap mark and its entries */
    FIO2070_STANDARD_WAITING = 1024, /**< entries that wait in a module (TEES 2009) */
    FIO2070_MOST_WAITING = 8192,     /**< the largest limit of these (own profile) */
    FIO2070_LONGEST_TEXT = 62        /**< octets of a text, with its zero octet: not of fio2070_show */
};

/** The types of commands (TEES 2009). */
enum fio2070_type {
    FIO2070_TYPE_STATUS = 49,
    FIO2070_TYPE_LOAD_COUNTER = 50,
    FIO2070_TYPE_CONFIGURE_INPUTS = 51,
    FIO2070_TYPE_RAW_INPUTS = 52,
    FIO2070_TYPE_FILTERED_INPUTS = 53,
    FIO2070_TYPE_POLL = 54,
    FIO2070_TYPE_SET_OUTPUTS = 55,
    FIO2070_TYPE_TRACK_INPUTS = 56,
    FIO2070_TYPE_COMPLEX_OUTPUTS = 57,
    FIO2070_TYPE_WATCHDOG = 58,
    FIO2070_TYPE_CONTROLLER_ID = 59,
    FIO2070_TYPE_IDENTIFY = 60
};

/** The type of an answer less that of its command: `(enum fio2070_type)(answer.code - FIO2070_TYPE_ANSWER)`. */
enum { FIO2070_TYPE_ANSWER = 128 };

/** Bits of statuses: their meaning is that of TEES 2009, their places are own profile. Other bits are
 * kept as they come. */
enum {
    FIO2070_BIT_ERROR = 1,           /**< S of answers 178 and 179: error; clear: done */
    FIO2070_BIT_SET_BEFORE = 1,      /**< Y of answer 186: the watchdog had been set before */
    FIO2070_BIT_MORE = 8,            /**< C of answer 182: more entries waited than the block takes */
    FIO2070_BIT_LOST = 4,            /**< F of answer 182: entries directly before the block were pushed out */
    FIO2070_BIT_AGAIN = 2,           /**< E of answer 182: the same block number was asked for again */
    FIO2070_BIT_OUT_OF_SEQUENCE = 1, /**< G of answer 182: the number is not the one before plus one */
    FIO2070_BIT_WAS_RESET = 128      /**< P of the flags: the module was reset (own profile) */
};

/** @} */

/** @defgroup decode Reading messages
 * fio2070_decode_command and fio2070_decode_answer read any message of their direction into a struct; the calls that are named
 * `read` read one type in place. The octets are those of one message, without address, control octet and frame check (see
 * the group wire). Each call returns a fault, whose `kind` is FIO2070_FAULT_NONE if the octets are such a message. The entries
 * of a block and the items of a configuration are copied by a call of their own.
 * @code
 * const uint8_t octets[] = {182, 5, 1, 0x8c, 3, 0xe7, 0, 0, 0, 3, 0xe8};
 * struct fio2070_answer answer;
 * struct fio2070_entry entries[FIO2070_MOST_ENTRIES];
 * if (fio2070_decode_answer(octets, sizeof octets, &answer).kind != FIO2070_FAULT_NONE) return 1;
 * if (fio2070_block_entries(octets, sizeof octets, entries, FIO2070_MOST_ENTRIES) != 1) return 1;
 * printf("block %d: input %d is %d\n", answer.block, entries[0].input, entries[0].state); // block 5: input 12 is 1
 * @endcode
 * @{ */

/** Why octets are no message: the first of these that applies (own profile). */
enum fio2070_fault_kind {
    FIO2070_FAULT_NONE = 0,         /**< the octets are a message */
    FIO2070_FAULT_EMPTY = 1,        /**< there is no octet */
    FIO2070_FAULT_TOO_LONG = 2,     /**< more than 773 octets: `got` */
    FIO2070_FAULT_UNKNOWN_TYPE = 3, /**< no message that the call reads has the type `code` */
    FIO2070_FAULT_WRONG_LENGTH = 4  /**< a message of this type and count has `needed` octets, not `got` */
};

/** Why octets are no message. Numbers that a kind does not have are 0. */
struct fio2070_fault {
    /** 0 none; 1 there is no octet; 2 more than 773 octets, `got` says how many; 3 no message of this call
     *  has the type `code`; 4 a message of this type and count has another length, `needed` and `got` say
     *  which. */
    uint8_t kind;
    /** The first octet, for kind 3. */
    uint8_t code;
    /** How many octets are needed, for kind 4: at most 773. */
    uint16_t needed;
    /** 0 in each octet that the library writes. */
    uint8_t reserved[4];
    /** How many octets there are, for kinds 2 and 4. */
    uint64_t got;
};

/** Writes the text of a fault as `fio2070 show` does, such as "wrong length needed 14 got 11", with no line end.
 * It is that of its kind, with the numbers that the kind has; FIO2070_FAULT_NONE and what is no kind have the empty
 * text. FIO2070_LONGEST_TEXT octets of room are enough. */
FIO2070_MUST_USE
size_t fio2070_fault_text(const struct fio2070_fault *fault, char *text, size_t room);

/* Block answers in place (TEES 2009, answer 182): */

/** A block answer without its entries. */
struct fio2070_block_header {
    /** The block number. */
    uint8_t number;
    /** The status, with C, F, E and G in bits 3 to 0 (places own profile), and other bits as they come. */
    uint8_t status;
    /** How many entries the block has, from 0 to 255. */
    uint8_t count;
    /** 0 where the library writes it. */
    uint8_t reserved;
    /** The module's millisecond counter when the block was made. */
    uint32_t stamp;
};

/** A transition: a change of the filtered state of an input. */
struct fio2070_entry {
    /** The input that changed, from 0 to 127. */
    uint8_t input;
    /** The filtered state after the transition, 0 or 1. Calls that are given an entry take any number but
     *  0 as 1. */
    uint8_t state;
    /** The low 16 bits of the module's millisecond counter at the transition. */
    uint16_t stamp;
};

/** Reads a block answer without its entries. After a fault `header` is unchanged. Any other answer is
 * an unknown type here. */
FIO2070_MUST_USE
struct fio2070_fault fio2070_read_block(const uint8_t *octets, size_t length, struct fio2070_block_header *header);

/** Copies the entries of a block answer to the front of `entries`, and returns how many they are, 0 to 255:
 * FIO2070_NO_MESSAGE if the octets are no block answer. The rest of `entries` is unchanged. */
FIO2070_MUST_USE
size_t fio2070_block_entries(const uint8_t *octets, size_t length, struct fio2070_entry *entries, size_t room);

/** The time in milliseconds, modulo 2^32, of an entry with this stamp in an answer with the stamp
 * `answer_stamp`: the number with these low 16 bits at or before answer_stamp and fewer than 65,536
 * steps back (own profile). */
uint32_t fio2070_widen(uint32_t answer_stamp, uint16_t stamp);

/* Any message: */

/** A command: the fields of its type; the others are 0. */
struct fio2070_command {
    /** The type: 49 to 60 (TEES 2009). */
    uint8_t code;
    /** Type 49: the flags to clear. */
    uint8_t clear;
    /** Type 54: the block number. */
    uint8_t block;
    /** Type 58: the timeout in milliseconds, as it is sent. */
    uint8_t timeout;
    /** Type 51: how many items there are. `fio2070_command_items` copies them. */
    uint8_t count;
    /** 0 where the library writes it. */
    uint8_t reserved;
    /** Types 56, 57 and 59: how many octets follow the type. They are not read further. */
    uint16_t body;
    /** Type 50: the number to load, in milliseconds. */
    uint32_t load;
    /** Type 55: the data octets. */
    uint8_t levels[8];
    /** Type 55: the control octets. */
    uint8_t controls[8];
};

/** How one input is read (TEES 2009, an item of command 51). */
struct fio2070_configuration_item {
    /** The input, from 0 to 127. The module has the inputs 0 to 63. */
    uint8_t input;
    /** 1 if the input's transitions are left out of the blocks, else 0. In an item from the caller any
     *  number other than 0 counts as 1. */
    uint8_t ignore;
    /** The leading filter: how many successive samples of 0 change the state from 1 to 0; 0 acts as 1. */
    uint8_t leading;
    /** The trailing filter: how many successive samples of 1 change the state from 0 to 1; 0 acts as 1. */
    uint8_t trailing;
};

/** An answer: the fields of its type; the others are 0. */
struct fio2070_answer {
    /** The type: 177 to 188 (TEES 2009). */
    uint8_t code;
    /** Type 177: the flags that are left. */
    uint8_t flags;
    /** Type 177: how many errors in receiving were counted. */
    uint8_t receive_errors;
    /** Type 177: how many errors in transmitting were counted. */
    uint8_t transmit_errors;
    /** Types 178, 179, 182 and 186: the status. */
    uint8_t status;
    /** Type 182: the block number. */
    uint8_t block;
    /** Type 182: how many entries there are. `fio2070_block_entries` copies them. */
    uint8_t count;
    /** 0 in each octet that the library writes. */
    uint8_t reserved[3];
    /** Types 183, 184, 185, 187 and 188: how many octets follow the type. They are not read further. */
    uint16_t body;
    /** Types 177, 180, 181 and 182: the millisecond counter. */
    uint32_t stamp;
    /** Types 180 and 181: bit i is input i. */
    uint64_t inputs;
};

/** Reads any command. After a fault `command` is unchanged. */
FIO2070_MUST_USE
struct fio2070_fault fio2070_decode_command(const uint8_t *octets, size_t length, struct fio2070_command *command);

/** Copies the items of a configuration (command 51) to the front of `items`, and returns how many they are, 0 to
 * 255: FIO2070_NO_MESSAGE if the octets are no configuration. The rest of `items` is unchanged. */
FIO2070_MUST_USE
size_t fio2070_command_items(const uint8_t *octets, size_t length, struct fio2070_configuration_item *items,
                             size_t room);

/** Reads any answer. After a fault `answer` is unchanged. If `body` of type 183 is 5, the octets from octets[2] on are the
 * module's millisecond counter, the highest first; if `body` of type 188 is 1, octets[1] is the module's number. */
FIO2070_MUST_USE
struct fio2070_fault fio2070_decode_answer(const uint8_t *octets, size_t length, struct fio2070_answer *answer);

/** Writes the text that `fio2070 show` writes of a frame, with a line feed after each line. If the first octet is 128 or more,
 * the frame is read as an answer, else as a command; if it is neither, the text is that of the fault. */
FIO2070_MUST_USE
size_t fio2070_show(const uint8_t *octets, size_t length, char *text, size_t room);

/** @} */

/** @defgroup encode Writing messages
 * Each call writes the message that a struct, a list and a body say to the front of `out`, and returns how many octets it
 * has. If that is more than `room`, nothing was written. They are what fio2070_decode_command and fio2070_decode_answer give,
 * with fio2070_command_items, fio2070_block_entries and the octets after the type: so encoding gives the octets that were
 * decoded, and decoding the struct that was encoded. Set the fields of the type, leave all others 0, and pass no list and no
 * body if the type has none. The result is FIO2070_NO_MESSAGE if no message has all of this: the type is of another direction
 * or none, another field is not 0, `count` or `body` of the struct is not the number that is passed, there are more than 255
 * items or entries, one names an input above 127, or the body has more than 772 octets.
 * @code
 * struct fio2070_command poll = {0};
 * uint8_t frame[FIO2070_LONGEST_FRAME];
 * size_t count;
 * poll.code = FIO2070_TYPE_POLL, poll.block = 5;
 * count = fio2070_encode_command(&poll, NULL, 0, NULL, 0, frame, sizeof frame);
 * if (count > sizeof frame) return 1;
 * printf("%d octets: %d %d\n", (int)count, frame[0], frame[1]); // 2 octets: 54 5
 * @endcode
 * @{ */

/** Writes a command: with the `count` items of a configuration, type 51, and the `length` octets after the type of types 56,
 * 57 and 59. */
FIO2070_MUST_USE
size_t fio2070_encode_command(const struct fio2070_command *command, const struct fio2070_configuration_item *items,
                              size_t count, const uint8_t *body, size_t length, uint8_t *out, size_t room);
/** Writes an answer: with the `count` entries of a block, type 182, and the `length` octets after the type of types 183, 184,
 * 185, 187 and 188. */
FIO2070_MUST_USE
size_t fio2070_encode_answer(const struct fio2070_answer *answer, const struct fio2070_entry *entries, size_t count,
                             const uint8_t *body, size_t length, uint8_t *out, size_t room);

/** @} */

/** @defgroup wire Frames on a line (own profile)
 * On a line a frame is a flag, the address, the control octet, a message of 1 to FIO2070_LONGEST_FRAME octets, their frame
 * check (CRC-16/X-25, low octet first), and a flag. A part is what is between two flags next to each other. An empty part
 * says nothing; a part that is no frame is damage. On a line of octets the flag is 7E, and 7D stuffs 7E and 7D (RFC 1662);
 * on a line of bits the flag is 01111110, and a 0 follows each five ones (SDLC). The calls that are named `wire_bits` read a
 * line of bits, the others one of octets.
 * @code
 * const uint8_t poll[] = {54, 5};
 * uint8_t line[FIO2070_WIRE_LONGEST], heard;
 * size_t count = fio2070_wire_write(FIO2070_WIRE_ADDRESS, FIO2070_WIRE_CONTROL, poll, sizeof poll, line, sizeof line);
 * size_t at = 0;
 * struct fio2070_wire wire;
 * fio2070_wire_start(&wire, FIO2070_WIRE_ADDRESS, FIO2070_WIRE_CONTROL);
 * while (at < count) {
 *     at += fio2070_wire_read(&wire, line + at, count - at, &heard);
 *     if (heard == FIO2070_WIRE_MESSAGE) printf("a message of type %d\n", wire.octets[2]); // a message of type 54
 * }
 * @endcode
 * @{ */

/** Numbers of such frames. */
enum fio2070_wire_limit {
    FIO2070_WIRE_ADDRESS = 0x14, /**< the address of a field I/O module */
    FIO2070_WIRE_CONTROL = 0x83, /**< the control octet of its frames */
    FIO2070_WIRE_ANY = 256,      /**< as an address or a control octet: each is one's own */
    FIO2070_WIRE_LONGEST = 1556  /**< the most octets that `fio2070_wire_write` writes */
};

/** What the next octet or bit of a line ends. */
enum fio2070_wire_heard {
    FIO2070_WIRE_NOTHING = 0, /**< neither a frame nor damage */
    FIO2070_WIRE_MESSAGE = 1, /**< a frame with one's own address and control octet; it is held until the next one is read */
    FIO2070_WIRE_OTHER = 2,   /**< a frame with another address or control octet; its octets are held as well */
    FIO2070_WIRE_DAMAGED = 3  /**< a part that is no frame */
};

/** A decoder of a line of octets. `octets` are for reading while a frame is held; the other fields are the library's own. */
struct fio2070_wire {
    /** The octets of the present part, or of the frame that is held: address, control octet, message,
     *  frame check. */
    uint8_t octets[777];
    uint8_t phase;
    uint16_t held;
    uint16_t check;
    uint16_t address;
    uint16_t control;
};

/** A decoder of a line of bits. `octets` are for reading while a frame is held; the other fields are the library's own. */
struct fio2070_wire_bits {
    /** The octets of the present part, or of the frame that is held: address, control octet, message,
     *  frame check. */
    uint8_t octets[777];
    uint8_t phase;
    uint8_t ones;
    uint8_t pending;
    uint8_t value;
    uint8_t count;
    uint8_t full;
    uint8_t reserved;
    uint16_t held;
    uint16_t check;
    uint16_t address;
    uint16_t control;
};

/** Starts before the first flag of a line: what comes before it says nothing. One's own frames are those with this address and
 * this control octet; FIO2070_WIRE_ANY, and each number above 255, is any. */
void fio2070_wire_start(struct fio2070_wire *wire, uint16_t address, uint16_t control);
/** Reads octets of the line up to the end of the next frame or damage, and returns how many it read. `heard` is what the last
 * of them ends, one of `FIO2070_WIRE_NOTHING` and those after it: FIO2070_WIRE_NOTHING only if all were read. */
FIO2070_MUST_USE
size_t fio2070_wire_read(struct fio2070_wire *wire, const uint8_t *octets, size_t length, uint8_t *heard);
/** Marks the present part as damaged, whatever its frame check says: an octet of it was lost, or came with a wrong parity or
 * stop bit. Directly after a frame this is the next part; before the first flag nothing changes. */
void fio2070_wire_lose(struct fio2070_wire *wire);
/** Returns how many octets the message of the frame has that is held, 0 if none is. The address is `octets[0]`, the control
 * octet `octets[1]`, and the message is at `octets + 2`. */
FIO2070_MUST_USE
size_t fio2070_wire_message_length(const struct fio2070_wire *wire);
/** Writes the frame of a message for a line of octets, with a flag at each end, and returns how many octets it has. If the
 * message is empty or longer than FIO2070_LONGEST_FRAME, or `room` is less than 2 * length + 10, nothing is written, and the
 * result is 0. FIO2070_WIRE_LONGEST octets of room are enough for each. */
FIO2070_MUST_USE
size_t fio2070_wire_write(uint8_t address, uint8_t control, const uint8_t *message, size_t length, uint8_t *out,
                          size_t room);
/** Returns the frame check of octets, CRC-16/X-25: that of the nine octets "123456789" is 906E. */
uint16_t fio2070_wire_check(const uint8_t *octets, size_t length);
/** As `fio2070_wire_start`, of a line of bits. */
void fio2070_wire_bits_start(struct fio2070_wire_bits *bits, uint16_t address, uint16_t control);
/** As `fio2070_wire_read`, of a line that has a bit an octet, its lowest: the characters 0 and 1 serve too. */
FIO2070_MUST_USE
size_t fio2070_wire_bits_read(struct fio2070_wire_bits *bits, const uint8_t *line, size_t length, uint8_t *heard);
/** As `fio2070_wire_message_length`. */
FIO2070_MUST_USE
size_t fio2070_wire_bits_message_length(const struct fio2070_wire_bits *bits);

/** @} */

/** @defgroup plan How often to poll over a line (own profile)
 * Between its poll and its answer a line carries the bits of both, with flags, stuffing and frame check, and takes its time. A
 * CPU that polls at a pace sends a poll so many scans after the one before, by its own clock, or as soon as it has heard the
 * answer, if that is later. Over a line as in a struct fio2070_line, at a pace that fio2070_plan finds, each round ends before the
 * next one, no transition is lost, and none is later than `late` scans. With a `drift` and a `jitter` of 0 the CPU's clock is the
 * module's: crystals drift by some 100 parts in a million.
 * @code
 * struct fio2070_line line = {0};
 * struct fio2070_pace pace;
 * line.rate = 614400; // bit/s, with a scan each millisecond
 * line.waiting = FIO2070_STANDARD_WAITING, line.per_block = FIO2070_MOST_ENTRIES;
 * line.inputs = 64, line.filter = 5;
 * if (fio2070_plan(&line, &pace) == FIO2070_PACE_FOUND) printf("poll every %d ms\n", (int)pace.scans); // poll every 4 ms
 * @endcode
 * @{ */

/** What fio2070_plan finds. */
enum fio2070_planned {
    FIO2070_PACE_FOUND = 0, /**< the least pace */
    FIO2070_NO_PACE = 1,    /**< the line has none: it is too slow for what its inputs may report, or its polls are too irregular */
    FIO2070_NO_LINE = 2     /**< the rate is 0, no inputs or more than 64 may be open, or the drift is above 10,000 */
};

/** A line between the two ends, and what may have to be reported over it. */
struct fio2070_line {
    /** How many bits the line carries in 1,000 scans: in a second, if a scan is a millisecond. 1 or more. */
    uint32_t rate;
    /** Within how many scans of its receipt of a poll the module begins its answer. */
    uint32_t answer;
    /** At most how many bits of other traffic the line carries between a poll and its answer. */
    uint32_t other;
    /** At most how many rounds in a row the line loses. */
    uint16_t lost;
    /** How many entries may wait. */
    uint16_t waiting;
    /** How many entries a block takes. */
    uint8_t per_block;
    /** How many inputs may be open, 1 to 64. */
    uint8_t inputs;
    /** How many samples their filters have at least; 0 acts as 1. */
    uint8_t filter;
    /** How many stop bits an octet has on an asynchronous line; 0 for a synchronous line. */
    uint8_t stop_bits;
    /** By at most how many parts in a million the CPU's clock is faster or slower than the module's
     *  counter, 0 to 10,000. */
    uint16_t drift;
    /** At most how many scans a poll is late by the CPU's clock. */
    uint16_t jitter;
};

/** A pace of a line, in scans. */
struct fio2070_pace {
    /** How many scans apart polls are sent, by the CPU's clock. */
    uint64_t scans;
    /** How many scans a round takes at most. */
    uint64_t round;
    /** How many scans a transition is late at most, until it is in the record. */
    uint64_t late;
    /** How much of the line's time a round's bits take at most, in thousandths. */
    uint64_t load;
};

/** Finds the least pace at which a line can be polled, so that each round ends before the next one and nothing is lost.
 * Returns FIO2070_PACE_FOUND; otherwise FIO2070_NO_PACE or FIO2070_NO_LINE, and `pace` is unchanged. */
FIO2070_MUST_USE
uint8_t fio2070_plan(const struct fio2070_line *line, struct fio2070_pace *pace);

/** @} */

/** @defgroup poller The CPU's end (own profile)
 * A struct fio2070_poller says for which block to poll, and takes each block once. The caller sends the poll, waits for the
 * answer, and keeps the record: the list of the items that were taken.
 * @code
 * const uint8_t answer[] = {182, 0, 1, 0x8c, 3, 0xe7, 0, 0, 0, 3, 0xe8};
 * struct fio2070_poller poller;
 * struct fio2070_record_item items[FIO2070_MOST_RECORD_ITEMS];
 * uint8_t poll[2];
 * fio2070_poller_start(&poller, 0);
 * if (fio2070_poller_poll(&poller, poll, sizeof poll) != 2) return 1;
 * // Send `poll` and wait for the answer, then:
 * if (fio2070_poller_hear(&poller, answer, sizeof answer, items, FIO2070_MOST_RECORD_ITEMS).kind == FIO2070_HEARD_TAKEN)
 *     printf("%lu ms: input %d is %d\n", (unsigned long)items[0].wide, items[0].input, items[0].state); // 999 ms: input 12 is 1
 * @endcode
 * @{ */

/** The CPU's end. The caller keeps the record. */
struct fio2070_poller {
    /** The block number of the next poll. */
    uint8_t number;
};

/** An item of the record: an entry with its time, or a gap mark. */
struct fio2070_record_item {
    /** 1 for a gap mark, where entries are missing, and the other fields are 0; 0 for an entry. */
    uint8_t gap;
    /** The input that changed, from 0 to 127. */
    uint8_t input;
    /** The filtered state after the transition, 0 or 1. */
    uint8_t state;
    /** 0 in each octet that the library writes. */
    uint8_t reserved[3];
    /** The low 16 bits of the module's millisecond counter at the transition. */
    uint16_t stamp;
    /** The time in milliseconds, in 32 bits, as `fio2070_widen` has it (own profile). */
    uint32_t wide;
};

/** What octets were: the first of these that applies, but _TAKEN is 0. */
enum fio2070_heard_kind {
    FIO2070_HEARD_TAKEN = 0,      /**< a block with the present number, taken whole: `entries`, `status`, `items` */
    FIO2070_HEARD_UNREADABLE = 1, /**< no answer: `fault` */
    FIO2070_HEARD_OTHER = 2,      /**< an answer of another type: `code` */
    FIO2070_HEARD_STALE = 3,      /**< a block with another number: `number` */
    FIO2070_HEARD_NO_ROOM = 4     /**< a block with the present number that needs room for `items` */
};

/** What a poller heard. Numbers that a kind does not have are 0. */
struct fio2070_heard {
    /** 0 a block that was taken, with `entries` and `status`; 1 no answer, with `fault`; 2 another answer,
     *  with its type `code`; 3 a stale block; 4 a block with no room for its `items`. */
    uint8_t kind;
    /** The type of another answer. */
    uint8_t code;
    /** The number of a block, for kinds 0, 3 and 4. */
    uint8_t number;
    /** The status of a block that was taken, with C, F, E and G in bits 3 to 0. */
    uint8_t status;
    /** The module's millisecond counter when a block was made, for kinds 0, 3 and 4. */
    uint32_t stamp;
    /** How many items were written, or would have been with room for them: at most 256. */
    uint16_t items;
    /** How many entries a block has that was taken. */
    uint8_t entries;
    /** 0 in each octet that the library writes. */
    uint8_t reserved[5];
    /** Why the octets are no answer. */
    struct fio2070_fault fault;
};

/** Starts a poller whose first poll asks for the block with this number (own profile). A CPU that goes on with the number
 * that it kept loses nothing and records nothing twice. One that starts anew with the number of the module's last poll
 * gets that poll's block again, with E, and records it a second time. */
void fio2070_poller_start(struct fio2070_poller *poller, uint8_t number);
/** Writes a poll with the present number. 2 octets.
 *
 * How often: if k inputs are not ignored, each with filters of at least f scans, and blocks take b entries, nothing is lost
 * if a poll reaches the module, and its answer the CPU, at least every b f / k scans, rounded down: every 19 for 64 inputs with
 * filters of 5 under the standard limits, and so every 18 milliseconds of a CPU's clock that may be slow. docs/PLANNING.md has the
 * table, and what is late or lost otherwise.
 *
 * How long to wait: until the answer comes, or no longer than the longest answer takes on the line and the module's longest
 * call; then poll again, with the same number (docs/CONTROLLER.md, The deadline). A shorter wait loses nothing. */
FIO2070_MUST_USE
size_t fio2070_poller_poll(const struct fio2070_poller *poller, uint8_t *out, size_t room);

/** Hears the octets of a frame. A block answer with the present number is taken whole: what it adds to
 * the record is written to the front of `items`, a gap mark if F is set and then its entries in order,
 * and the number rises by one modulo 256. In all other cases nothing changes; a block with no room
 * can be heard again with more. 256 items are always enough. Of any block the number and the stamp are said. */
FIO2070_MUST_USE
struct fio2070_heard fio2070_poller_hear(struct fio2070_poller *poller, const uint8_t *octets, size_t length,
                                         struct fio2070_record_item *items, size_t room);

/** Writes what was heard as `fio2070 simulate` does, with no line end: "block entries 3 status 00", "stale 4",
 * "other 177", or "unreadable " and the text of the fault; "no room needed 3" for FIO2070_HEARD_NO_ROOM. What is no kind
 * has the empty text. FIO2070_LONGEST_TEXT octets of room are enough. */
FIO2070_MUST_USE
size_t fio2070_heard_text(const struct fio2070_heard *heard, char *text, size_t room);

/** @} */

/** @defgroup checker The rules of a transcript
 * A transcript is what a CPU's end sent and heard, in order. A struct fio2070_checker judges the messages and their order; what
 * the entries say is judged by the group content.
 * @code
 * const uint8_t polls[2][2] = {{54, 1}, {54, 2}}; // with no answer between them
 * struct fio2070_checker checker;
 * struct fio2070_breach breach;
 * char name[FIO2070_LONGEST_TEXT];
 * fio2070_checker_start(&checker);
 * for (int n = 0; n < 2; n++)
 *     if (fio2070_checker_sent(&checker, polls[n], 2, &breach) != FIO2070_RULE_NONE &&
 *         fio2070_rule_text(breach.rule, name, sizeof name) < sizeof name)
 *         printf("%s: %d was due, %d came\n", name, breach.due, breach.got); // advance: 1 was due, 2 came
 * @endcode
 * @{ */

/** The rules, in the order in which they are tried (own profile; docs/FORMATS.md). */
enum fio2070_rule {
    FIO2070_RULE_NONE = 0, /**< no rule is broken */
    /** A line that is no message of its direction. */
    FIO2070_RULE_READABLE = 1,
    /** A line that is an answer, but not directly below a command whose type is 128 less. */
    FIO2070_RULE_PAIR = 2,
    /** A line that is a block answer with another number than the poll directly above. */
    FIO2070_RULE_NUMBER = 3,
    /** A line that is a poll, not the first, with another number than the one due: that of the poll
     *  before, plus one modulo 256 if a block answer is directly below that poll. */
    FIO2070_RULE_ADVANCE = 4,
    /** A line that is a block answer with E, though the poll directly above has another number than the
     *  poll before that. */
    FIO2070_RULE_SAME = 5,
    /** A line that is a block answer with G and E, or with G and a block answer before it. */
    FIO2070_RULE_SEQUENCE = 6,
    /** A line that is a block answer with F and without C, or with C and a count other than 255, or with
     *  an input above 63. */
    FIO2070_RULE_LIMITS = 7,
    /** A line that is a block answer without entries, and the block answer before it has C. */
    FIO2070_RULE_REST = 8,
    /** A line that is an answer 179 that says done (bit 0 is 0) to a configuration 51 that names an input
     *  above 63. */
    FIO2070_RULE_REFUSAL = 9
};

/** The limits of a module (own profile; TEES 2009 has 1,024 and 255). */
struct fio2070_limits {
    /** The most entries that wait for a poll, 1 to 8,192. */
    uint16_t waiting;
    /** The most entries of a block, 1 to 255. */
    uint8_t per_block;
    /** Not read. */
    uint8_t reserved;
};

/** What a call that starts a module, or a checker of one with these limits, returns. */
enum fio2070_start_kind {
    FIO2070_STARTED = 0,
    FIO2070_REFUSED = 1 /**< the limits are out of their ranges, and nothing changed */
};

/** Those of TEES 2009: struct fio2070_limits limits = FIO2070_STANDARD_LIMITS; */
#define FIO2070_STANDARD_LIMITS {FIO2070_STANDARD_WAITING, FIO2070_MOST_ENTRIES, 0}

/** A checker of what the CPU's end sends and hears. Its fields are the library's own. */
struct fio2070_checker {
    /** 1 if a command is directly above. */
    uint8_t has_awaited;
    /** The type of the answer to it. */
    uint8_t awaited;
    /** 1 if it names an input above 63. */
    uint8_t absent_named;
    /** 1 if a poll is above. */
    uint8_t has_polled;
    /** The number of the latest poll. */
    uint8_t polled;
    /** 1 if the latest poll or block answer is a block answer. */
    uint8_t answered;
    /** 1 if the latest poll has another number than the poll before it. */
    uint8_t advanced;
    /** 0 if no block answer is above, 1 if the latest has no C, 2 if it has. */
    uint8_t more;
    /** What is skipped: 0 nothing; 1 all frames to the next poll, as below a breach; 2 what is heard above
     *  the first command. */
    uint8_t skips;
    /** The most entries of a block of the module. */
    uint8_t per_block;
    /** The most entries that wait there. */
    uint16_t waiting;
    /** 0 in each octet that the library writes. */
    uint8_t reserved[4];
};

/** The first rule that a frame breaks, and what was due. Without a breach each field is 0. */
struct fio2070_breach {
    /** 0 for none, else the number of the rule: one of `FIO2070_RULE_READABLE` and those after it. */
    uint8_t rule;
    /** 1 if `due` and `got` are set: for advance and number, and for pair below a command. */
    uint8_t has_due;
    /** The number of the poll or the block answer, or the type of the answer, that was due. */
    uint8_t due;
    /** The number or type that the frame has. */
    uint8_t got;
};

/** Writes the name of a rule, such as "advance"; FIO2070_RULE_NONE and what is no rule have the empty text.
 * FIO2070_LONGEST_TEXT octets of room are enough. */
FIO2070_MUST_USE
size_t fio2070_rule_text(uint8_t rule, char *text, size_t room);

/** Starts above the first frame. The rules assume a bus that repeats no frame, and delivers an answer before the CPU's next
 * command or never; a module that was not restarted, with the standard limits; and a CPU's end that heard each block with
 * room for it. Then no frame breaks one. */
void fio2070_checker_start(struct fio2070_checker *checker);
/** As `fio2070_checker_start`, for a module with these limits: those that `fio2070_sized_module_start` was given. Returns
 * FIO2070_STARTED; if a limit is out of its range, as there, it returns FIO2070_REFUSED, and nothing changes. */
FIO2070_MUST_USE
uint8_t fio2070_checker_start_within(struct fio2070_checker *checker, struct fio2070_limits limits);
/** As `fio2070_checker_start_within`, above the first frame of a log that begins anywhere: what the CPU's end heard above the
 * first frame that it sent is skipped. Start so again after a gap in the log, a damaged frame or a restart. */
FIO2070_MUST_USE
uint8_t fio2070_checker_start_anywhere(struct fio2070_checker *checker, struct fio2070_limits limits);
/** Takes a frame that the CPU's end sent: writes its breach, and returns the breach's rule. Below a breach the checker goes
 * on as one that starts at the next poll, which is not the frame with the breach: until then no frame has a breach, even if
 * it is unreadable. */
FIO2070_MUST_USE
uint8_t fio2070_checker_sent(struct fio2070_checker *checker, const uint8_t *octets, size_t length,
                             struct fio2070_breach *breach);
/** Takes a frame that the CPU's end heard; breaches are as for `fio2070_checker_sent`. */
FIO2070_MUST_USE
uint8_t fio2070_checker_heard(struct fio2070_checker *checker, const uint8_t *octets, size_t length,
                              struct fio2070_breach *breach);

/** @} */

/** @defgroup content The rules on content
 * A struct fio2070_content_checker judges what the entries and other answers of a transcript say, if the transcript keeps the
 * rules of the group checker. The rules have words of their own:
 *
 * A clear block is a block answer with neither C nor E. It settles each input; below one, a block with E and without C settles
 * each input of which no item was sent since the first poll for that block. An input is watched from an entry on if a clear
 * block is above that entry, and of what was sent since the latest block that settles it nothing opens the input below what
 * ignores it; it is steady if nothing ignores it; a gap mark ends both. Below a clear block a block is late if its stamp is
 * 65,536 or more after that of the latest block without C: its entries may be older than their 16 bits say.
 * @code
 * const uint8_t poll[] = {54, 0}, empty[] = {182, 0, 0, 0, 0, 0, 0, 11};             // no entry until 11 ms
 * const uint8_t next[] = {54, 1}, late[] = {182, 1, 1, 12, 0, 10, 0, 0, 0, 0, 21}; // one of 10 ms all the same
 * struct fio2070_content_checker content;
 * struct fio2070_content_breach breach;
 * char name[FIO2070_LONGEST_TEXT];
 * fio2070_content_start(&content);
 * fio2070_content_sent(&content, poll, sizeof poll);
 * if (fio2070_content_heard(&content, empty, sizeof empty, &breach) != FIO2070_CONTENT_NONE) return 1;
 * fio2070_content_sent(&content, next, sizeof next);
 * if (fio2070_content_heard(&content, late, sizeof late, &breach) != FIO2070_CONTENT_NONE &&
 *     fio2070_content_rule_text(breach.rule, name, sizeof name) < sizeof name)
 *     printf("%s: input %d\n", name, breach.input); // fresh: input 12
 * @endcode
 * @{ */

/** What the record of a CPU's end, or an answer that it heard, may break (own profile; docs/FORMATS.md). */
enum fio2070_content_rule {
    FIO2070_CONTENT_NONE = 0, /**< no rule is broken */
    /** An entry is later than the entry above it, or has its time and a higher input, if no block without
     *  C ends between them. Judged if a clear block is above the upper entry, the blocks of both are not
     *  late, and no load of the counter excuses it. */
    FIO2070_CONTENT_ORDER = 1,
    /** An entry is later than the stamp of the latest block without C, which had all entries up to that
     *  stamp. Judged if that block or one above it is clear, the block of the entry is not late, and no
     *  load of the counter excuses it. */
    FIO2070_CONTENT_FRESH = 2,
    /** The entries of an input have the states 0 and 1 in turn. Judged if the input is watched from the
     *  earlier entry on. */
    FIO2070_CONTENT_ALTERNATE = 3,
    /** An entry of an input follows the one before no sooner than the filter for its change lets it.
     *  Judged if a clear block is above the earlier entry, the blocks of both are not late, and no load of
     *  the counter excuses it. The filter is the least that can be in force: at first 1; an item that is
     *  sent can lower it; a block that settles the input sets it to its last item, if the answer to that
     *  says done. */
    FIO2070_CONTENT_APART = 4,
    /** An input that is ignored has no entry. Judged if above some block that settles the input its last
     *  item ignores it, and the answer to that says done, and no item that is sent below opens the input. */
    FIO2070_CONTENT_IGNORED = 5,
    /** An answer 181 has the states of the record at its stamp. Judged if a clear block is above the
     *  latest 181, neither a late block nor a gap mark is below it, and no load of the counter excuses it:
     *  at the first entry later than its stamp, or the end of the first block without C whose stamp is not
     *  before it, of each steady input. From there on the next entry of an input has another state, and an
     *  input with another state in the next 181 and no entry between is not logged, and has none: till an
     *  item of it is sent, if none was since the latest block that settles it. */
    FIO2070_CONTENT_STATE = 6,
    /** The stamp of a 177, 180 or 181, or of a block without E, is not before the latest one above. Judged
     *  if no load of the counter excuses it. */
    FIO2070_CONTENT_CLOCK = 7,
    /** An answer 178 has no S: a load of the counter is never refused. */
    FIO2070_CONTENT_DONE = 8,
    /** An answer 179 has no S, if its configuration names no input above 63. */
    FIO2070_CONTENT_ACCEPTED = 9,
    /** An answer 177 has none of the flags that its command clears. */
    FIO2070_CONTENT_CLEARED = 10,
    /** An answer 186 has Y, if another 186 is above. */
    FIO2070_CONTENT_WATCHDOG = 11
};

/** What the rules on content keep of the frames above. The fields are the library's own. */
struct fio2070_content_checker {
    struct {
        struct {
            uint64_t named;
            uint64_t sent;
            uint64_t ignoring;
            uint64_t taken;
            uint64_t settled;
            uint64_t hidden;
            uint64_t reopened;
            uint64_t touched;
            uint64_t shown;
            uint64_t shown_levels;
            uint64_t unlogged;
            uint64_t shut;
            uint64_t levels;
            uint64_t watched;
            uint64_t shaded;
            uint64_t timed;
            uint32_t times[64];
            uint8_t leading[64];
            uint8_t trailing[64];
            uint8_t least_leading[64];
            uint8_t least_trailing[64];
        } inputs;
        uint64_t seen_levels;
        uint64_t since_poll;
        uint32_t clock;
        uint32_t full;
        uint32_t floor;
        uint32_t seen;
        uint8_t excuses;
        uint8_t watchdog_set;
        uint8_t clearing;
        uint8_t absent_named;
        uint8_t has_clock;
        uint8_t clear;
        uint8_t aged;
        uint8_t floor_kind;
        uint8_t floor_input;
        uint8_t has_seen;
        uint8_t polled;
        uint8_t block_heard;
        uint8_t timely;
        uint8_t reserved[3];
    } above;
    uint8_t has_number;
    uint8_t number;
    uint8_t begun;
    uint8_t reserved[5];
};

/** The first rule on content that a frame breaks. Without a breach each field is 0. */
struct fio2070_content_breach {
    /** 0 for none, else the number of the rule: one of `FIO2070_CONTENT_ORDER` and those after it. */
    uint8_t rule;
    /** The input of the entry that breaks the rule, or the input with another state; 255 for an answer. */
    uint8_t input;
    /** How many items of the frame's block are recorded above the breach, a gap mark with them: for an
     *  answer none, at the end of a block all. */
    uint16_t items;
};

/** Writes the name of a rule on content, such as "order"; FIO2070_CONTENT_NONE and what is no rule have the empty text.
 * FIO2070_LONGEST_TEXT octets of room are enough. */
FIO2070_MUST_USE
size_t fio2070_content_rule_text(uint8_t rule, char *text, size_t room);

/** Starts above the first frame of a log, which may begin anywhere, whatever both ends did above: what the CPU's end heard
 * above the first frame that it sent is skipped. Start again after a gap in the log, a damaged frame or a restart. The
 * rules assume what `fio2070_checker_start` does, and of the link, from that frame on:
 *  - no more loads of the counter take effect than are sent: each excuses one breach (order, fresh, apart, state, clock);
 *  - there are fewer than 2^31 scans between a block without C and each block up to the next one without C (order, fresh,
 *    apart, state), between a 181 and the entry or block to which it is compared (state), and between successive stamps
 *    (clock);
 *  - there are fewer than 2^32 scans between successive entries of an input (apart).
 * docs/PROMISES.md says which rules are proved to accuse no such link. */
void fio2070_content_start(struct fio2070_content_checker *content);
/** As `fio2070_content_start`, for a log that begins with the start of both ends: it knows how the module begins, and finds
 * more. In any other log it can accuse a right link. */
void fio2070_content_start_begun(struct fio2070_content_checker *content);
/** Takes a frame that the CPU's end sent, which breaks no rule on content. */
void fio2070_content_sent(struct fio2070_content_checker *content, const uint8_t *octets, size_t length);
/** Takes a frame that the CPU's end heard: writes the first rule on content that it breaks, and returns the number of the
 * rule, 0 if it breaks none. All of the frame is taken, below a breach too. Of the block answers those are judged that a
 * poller takes whose first number is that of the first poll sent, each once. After a frame that breaks a rule of
 * `fio2070_checker` the result is not promised. */
FIO2070_MUST_USE
uint8_t fio2070_content_heard(struct fio2070_content_checker *content, const uint8_t *octets, size_t length,
                              struct fio2070_content_breach *breach);

/** @} */

/** @defgroup judge The judge of a link
 * A struct fio2070_judge judges a log in which lines may be lost, of a module that may be restarted and whose counter may be
 * loaded. It is both checkers, of the rules of the groups checker and content, and says of each frame what it is. Where lines
 * are lost, below a restart, below a load that took effect, and below a breach of a rule of transcripts sync is lost: to
 * the next poll nothing is judged, and from there on all rules are applied anew.
 * @code
 * const uint8_t poll[] = {54, 0}, block[] = {182, 0, 0, 0, 0, 0, 0, 11}, again[] = {182, 1, 0, 0, 0, 0, 0, 10}; // 11 ms, 10 ms
 * const uint8_t next[] = {54, 1};
 * struct fio2070_judge judge;
 * struct fio2070_judge_outcome outcome;
 * const struct fio2070_limits limits = FIO2070_STANDARD_LIMITS;
 * if (fio2070_judge_start_anywhere(&judge, limits) != 0) return 1;
 * if (fio2070_judge_sent(&judge, FIO2070_AT_CPU, poll, sizeof poll, &outcome) != FIO2070_OUTCOME_KEPT) return 1;
 * if (fio2070_judge_heard(&judge, block, sizeof block, &outcome) != FIO2070_OUTCOME_KEPT) return 1;
 * if (fio2070_judge_sent(&judge, FIO2070_AT_CPU, next, sizeof next, &outcome) != FIO2070_OUTCOME_KEPT) return 1;
 * if (fio2070_judge_heard(&judge, again, sizeof again, &outcome) == FIO2070_OUTCOME_RESTARTED)
 *     printf("the module restarted\n"); // the module restarted
 * @endcode
 * @{ */

/** What a frame is. */
enum fio2070_outcome {
    FIO2070_OUTCOME_KEPT = 0,           /**< it keeps all rules */
    FIO2070_OUTCOME_BROKEN = 1,         /**< it breaks a rule of transcripts */
    FIO2070_OUTCOME_BROKEN_CONTENT = 2, /**< it breaks a rule on content */
    FIO2070_OUTCOME_EXCUSED = 3,        /**< it would break a rule, but may be right */
    FIO2070_OUTCOME_RESTARTED = 4,      /**< the module was restarted above it, or its stamp is wrong */
    FIO2070_OUTCOME_NOT_JUDGED = 5      /**< no rule is applied to it */
};

/** Where a frame was logged: at the CPU's end, at the module, or on the bus between them. */
enum fio2070_place {
    FIO2070_AT_CPU = 0,
    FIO2070_AT_MODULE = 1,
    FIO2070_AT_BUS = 2
};

/** Why a frame is excused, or not judged. */
enum fio2070_why {
    FIO2070_WHY_NONE = 0,
    FIO2070_WHY_LOAD = 1,          /**< excused: a load of the counter may have set its stamp back */
    FIO2070_WHY_UNHEARD = 2,       /**< excused: the CPU's end may not have heard the answer to the poll above */
    FIO2070_WHY_ABOVE_COMMAND = 3, /**< not judged: it is an answer above the first command */
    FIO2070_WHY_PLACE_LOST = 4,    /**< not judged: it is above the next poll below a place that is lost */
    FIO2070_WHY_LATE = 5,          /**< excused, in a log alone: it is a late answer */
    FIO2070_WHY_LATE_ABOVE = 6     /**< excused, in a log alone: a late answer above may be why it breaks a rule */
};

/** A judge of a link. Its fields are the library's own. */
struct fio2070_judge {
    struct fio2070_content_checker content;
    struct fio2070_checker checker;
    uint32_t latest;
    uint32_t asked;
    uint8_t has_latest;
    uint8_t has_asked;
    uint8_t polls;
    uint8_t reserved[5];
};

/** What a frame is, and why. */
struct fio2070_judge_outcome {
    /** One of `FIO2070_OUTCOME_KEPT` and those after it. */
    uint8_t kind;
    /** Why the frame is excused or not judged, one of `FIO2070_WHY_LOAD` and those after it; else 0. */
    uint8_t why;
    /** The number of the rule that the frame breaks: by its kind one of `FIO2070_RULE_READABLE` and those
     *  after it, or of `FIO2070_CONTENT_ORDER` and those after it; else 0. */
    uint8_t rule;
    /** 1 if `due` and `got` are set: of rules of transcripts for advance and number, and for pair below a
     *  command. */
    uint8_t has_due;
    /** The number of the poll or the block answer, or the type of the answer, that was due. */
    uint8_t due;
    /** The number or type that the frame has. */
    uint8_t got;
    /** The input of the entry that breaks a rule on content, or the input with another state; else 255. */
    uint8_t input;
    /** 0. */
    uint8_t reserved;
    /** How many items of the frame's block are recorded above a breach of a rule on content, a gap mark
     *  with them: for an answer none, at the end of a block all. */
    uint16_t items;
};

/** Starts above the first frame of a log that begins anywhere, of a module with these limits: what the CPU's end heard above the
 * first frame that it sent is not judged. Returns 0; where a limit is out of its range 1, and nothing changes. */
FIO2070_MUST_USE
uint8_t fio2070_judge_start_anywhere(struct fio2070_judge *judge, struct fio2070_limits limits);
/** The same above the first frame of a log that begins with the start of both ends: it knows how the module begins, and finds
 * more. In any other log it can accuse a right link. */
FIO2070_MUST_USE
uint8_t fio2070_judge_start_begun(struct fio2070_judge *judge, struct fio2070_limits limits);
/** Takes a place where lines of the log are lost, such as a damaged frame, or where a part of it ends and another begins. */
void fio2070_judge_lose(struct fio2070_judge *judge);
/** Takes a frame that the CPU's end sent, by where it was logged, one of enum fio2070_place. Writes what it is, and returns its
 * kind, one of enum fio2070_outcome. */
FIO2070_MUST_USE
uint8_t fio2070_judge_sent(struct fio2070_judge *judge, uint8_t at, const uint8_t *octets, size_t length,
                           struct fio2070_judge_outcome *outcome);
/** As `fio2070_judge_sent`, for a frame that the module sent, and the CPU's end heard if the log is its own: where it was logged
 * does not matter. */
FIO2070_MUST_USE
uint8_t fio2070_judge_heard(struct fio2070_judge *judge, const uint8_t *octets, size_t length,
                            struct fio2070_judge_outcome *outcome);

/** @} */

/** @defgroup log Logs
 * A struct fio2070_log_reader finds the messages in a log of a serial monitor, an analyser or a driver (docs/CAPTURES.md). It
 * learns from a window of lines in which forms the log writes octets, and then reads each line by these forms. It says of each
 * line what it is, and returns the frames that end in it and where they are written. Give it all octets, in pieces of any
 * length; then end the log, and call it with none until a batch has no verdict. If FIO2070_NO_LOG is defined, there are no
 * such calls.
 * @code
 * static struct fio2070_log_reader reader; // both take about half a megabyte
 * static struct fio2070_log_batch batch;
 * const char text[] = "10:00:00.123 RX b6 05 01 8c 03 e7 00 00 00 03 e8\n";
 * size_t count = sizeof text - 1, taken = 0;
 * int is_ended = 0;
 * fio2070_log_start(&reader, FIO2070_LOG_AUTO);
 * do {
 *     if (taken == count && !is_ended) {
 *         fio2070_log_end(&reader);
 *         is_ended = 1;
 *     }
 *     taken += fio2070_log_read(&reader, (const uint8_t *)text + taken, count - taken, &batch);
 *     for (uint32_t n = 0; n < batch.verdict_count; n++)
 *         printf("line %d: frames: %d\n", (int)batch.verdicts[n].line, (int)batch.verdicts[n].frames); // line 1: frames: 1
 * } while (!is_ended || batch.verdict_count > 0);
 * @endcode
 * @{ */

#ifndef FIO2070_NO_LOG
/** How the lines of a log are read. By order a line is read without what is no character of it, and also ends at CR. */
enum fio2070_log_form {
    FIO2070_LOG_AUTO = 0,      /**< by the forms that the log shows (docs/CAPTURES.md) */
    FIO2070_LOG_FRAMES = 1,    /**< as `fio2070 show` reads its lines */
    FIO2070_LOG_TRANSCRIPT = 2 /**< as `fio2070 check` reads its lines */
};

/** What a line of a log is. */
enum fio2070_log_kind {
    FIO2070_LOG_BLANK = 0,      /**< it has nothing but blanks; by order: it is empty or begins with `#` */
    FIO2070_LOG_SAYS = 1,       /**< frames end in it, or it shows that one has ended above */
    FIO2070_LOG_PART = 2,       /**< it has octets of a frame that ends in a line below */
    FIO2070_LOG_POSSIBLE = 3,   /**< no form has it, and it has octets that may be a message; it gives no frame */
    FIO2070_LOG_DAMAGED = 4,    /**< a form has it, and it gives no frame; by order: each other that gives none */
    FIO2070_LOG_PASSED_OVER = 5 /**< it is none of these */
};

/** Why a line gives no frame, or what else is in a line that does. */
enum fio2070_log_reason {
    FIO2070_LOG_NO_REASON = 0,   /**< it gives frames and nothing else, or is blank, or a part */
    FIO2070_LOG_NO_OCTETS = 1,   /**< it has no octets in the notation of a form */
    FIO2070_LOG_NO_MESSAGE = 2,  /**< its octets are no message */
    FIO2070_LOG_NO_FORM = 3,     /**< no form has it, and it has octets that may be a message */
    FIO2070_LOG_MORE = 4,        /**< beside its frames it has octets that may be a message */
    FIO2070_LOG_UNREAD_FRAME = 5,/**< no form has it, and it has a message between two flags, with a right check */
    FIO2070_LOG_TOO_LONG = 6,    /**< it is longer than a line, or than the octets of several lines, that are kept */
    FIO2070_LOG_BAD_LINE = 7,    /**< it is no line of the text that it is read as by order */
    FIO2070_LOG_LOSS = 10,       /**< it has no octets, and its words speak of loss: an answer may be missing here */
    FIO2070_LOG_HEADING = 11,    /**< it says no message, and is the heading of a log or of a part of one */
    FIO2070_LOG_COPY = 13,       /**< it repeats the frame above it */
    FIO2070_LOG_BROKEN = 14      /**< the message of the lines above is not whole, and does not go on in it */
};

/** Who sent the octets of a line, as the line says: by its last word or arrow before them that says it. */
enum fio2070_log_side {
    FIO2070_LOG_NO_SIDE = 0,    /**< it does not say it */
    FIO2070_LOG_FROM_CPU = 1,   /**< the CPU */
    FIO2070_LOG_FROM_MODULE = 2 /**< the module */
};

/** What the time of a line counts from. */
enum fio2070_log_time {
    FIO2070_LOG_NO_TIME = 0,     /**< it has none */
    FIO2070_LOG_DATE = 1,        /**< 1970: it has a date; without a year it is of 1970 */
    FIO2070_LOG_TIME_OF_DAY = 2, /**< midnight: it is a time of day, with colons, without a date */
    FIO2070_LOG_SINCE_START = 3  /**< a start that the log does not name: it is seconds with a fraction */
};

/** What the reader says of a line of a log. */
struct fio2070_log_verdict {
    /** The number of the line, from 1. */
    uint64_t line;
    /** The time in microseconds, from what `time_kind` says; 0 if there is none. */
    uint64_t time;
    /** How many frames the line gives, with those of the lines below that continue it. */
    uint32_t frames;
    /** At how many places the octets of these frames are written. */
    uint32_t places;
    /** What the line is: one of `FIO2070_LOG_BLANK` and those after it. */
    uint8_t kind;
    /** Why it gives no frame: one of `FIO2070_LOG_NO_OCTETS` and those after it, else 0. */
    uint8_t reason;
    /** What the time counts from: one of `FIO2070_LOG_NO_TIME` and those after it. */
    uint8_t time_kind;
    /** Who sent the octets of the frames, as the line says: one of `FIO2070_LOG_NO_SIDE` and those after
     *  it. */
    uint8_t said;
    /** The address of its frames, which stands before their messages, if all have one and the same; else
     *  0. */
    uint8_t address;
    /** The control octet, which follows the address; of a line with `foreign` 55, 180 or 181 how many
     *  octets of inputs or of outputs it has; else 0. */
    uint8_t control;
    /** How many of these there are: 0, 1 for the address alone, or 2. */
    uint8_t header;
    /** The type of the message that the line has in place of frames, if this protocol has none of that
     *  type; or 55, 180 or 181, if it is of a module of another size, with 1 to 32 octets of inputs or of
     *  outputs other than 8; or 183, if its only frame answers such a 55 in the line above; else 0. Such a
     *  line is passed over if that is no damage, and then what frames it gives are none of the link. */
    uint8_t foreign;
};

/** Where octets are written in a log. A line is counted in octets, those of UTF-8; colour sequences, NULs by themselves and
 * byte order marks are none of them. */
struct fio2070_log_place {
    /** The number of the line, from 1. */
    uint64_t line;
    /** The index of the first octet in the line, with its mark, bracket or quote. */
    uint32_t start;
    /** The index after the last octet. */
    uint32_t end;
};

/** Verdicts on lines of a log, with their frames and places, each at the front of its array and in order: the frames of the
 * first verdict, then those of the second, and so the places. */
struct fio2070_log_batch {
    /** The number of verdicts. */
    uint32_t verdict_count;
    /** The number of frames of these verdicts. */
    uint32_t frame_count;
    /** The number of octets of these frames. */
    uint32_t octet_count;
    /** The number of places. */
    uint32_t place_count;
    /** The verdicts. */
    struct fio2070_log_verdict verdicts[4096];
    /** The places of all verdicts, verdict after verdict. */
    struct fio2070_log_place places[20480];
    /** How many octets each frame has. */
    uint16_t lengths[20480];
    /** The octets of all frames, frame after frame. */
    uint8_t octets[65536];
};

/** A reader of a log. Its octets are the library's own. */
struct fio2070_log_reader {
    uint64_t words[65536];
};

/** Begins a log, in a form of `enum fio2070_log_form`; any other number is FIO2070_LOG_AUTO. */
void fio2070_log_start(struct fio2070_log_reader *reader, uint8_t form);
/** Takes octets of the log until all are taken or `batch` has no room for another verdict, and returns how many it took. The
 * log is cut into pieces anywhere. The batch then has the verdicts that were due, each line's once and in order. The first
 * verdicts wait until the log shows its forms, at most for 1,024 lines or 64 KiB; later ones for the line below, if that shows
 * whether a message has ended. A frame over several lines is in the verdict of its last line, or of the line that shows its
 * end, with places in the lines above. Each frame is a message. Call it again with the octets that were not taken. What the
 * batch held before is overwritten. Lines with a `foreign` message are passed over once more than three exchanges show that it
 * is no damage: those above the batch, and those in it.
 *
 * After fio2070_log_end it takes no octets until it has given each verdict. Octets then begin a new log of the same form,
 * whose lines are counted from 1.
 *
 * Proved are: which lines the octets make that it takes; that the verdicts in a batch are those of the next lines, each once
 * and in order, with all their frames and places; that the octets of each frame are a message; that a line with the reason
 * FIO2070_LOG_LOSS or FIO2070_LOG_HEADING has such words; which lines are passed over, by what `foreign` says of those above
 * and in the batch; and that a new log begins as said. How many octets it takes, when a verdict is due and what else it says
 * are tested. */
FIO2070_MUST_USE
size_t fio2070_log_read(struct fio2070_log_reader *reader, const uint8_t *octets, size_t length,
                        struct fio2070_log_batch *batch);
/** Ends the log: octets after the last line end are its last line. `fio2070_log_read` with no octets then gives the verdicts
 * that are left; call it until it gives none. A verdict that was due before stays as it was. */
void fio2070_log_end(struct fio2070_log_reader *reader);

/** Writes a part of a batch that fio2070_log_read wrote over what `part` held, and returns how many frames it has. A part has a
 * verdict for each line of the batch. `mask` has an octet for each: 1 takes the line as it is, with its frames; 2 as damaged,
 * with the reason FIO2070_LOG_NO_MESSAGE; 0 not at all: it is blank. Lines that `mask` does not reach are not taken. A part has
 * no places. What the judge, the counts and the signs say of a part depends on the lines alone that are taken (proved). */
FIO2070_MUST_USE
uint32_t fio2070_log_batch_part(const struct fio2070_log_batch *batch, const uint8_t *mask, size_t length,
                                struct fio2070_log_batch *part);

/** Lines of one form: what is before their octets, and how many there are. */
struct fio2070_log_read_as {
    /** The number of the first line that was read by it, from 1; 0 if there was none. */
    uint64_t from;
    /** How many lines it had. */
    uint64_t lines;
    /** How many of these were damaged. */
    uint64_t damaged;
    /** Whether its frames repeat those above them, and are not judged. */
    uint8_t is_echo;
    /** How many characters `front` has. */
    uint8_t front_length;
    /** 0 in each octet. */
    uint8_t reserved[6];
    /** The text before the octets of the first line that was read by it, or its end. */
    uint8_t front[120];
};

/** The forms by which a log is read, in their order: a line is read by the first one that has it. */
struct fio2070_log_form_list {
    /** How many forms there are. */
    uint32_t count;
    /** 0 in each octet. */
    uint8_t reserved[4];
    /** The forms, at the front. */
    struct fio2070_log_read_as forms[16];
};

/** Writes by which forms the lines are read that have a verdict, and how many each has. */
void fio2070_log_forms(const struct fio2070_log_reader *reader, struct fio2070_log_form_list *forms);
/** Learns forms from sample lines, such as `TX 36 05`, each with a message or as the log writes one over several lines. The log
 * is then read by them from its first line on; forms that it shows itself are added. Returns how many forms the samples show,
 * which are in a log of these lines alone: 0 if they show none, the log has begun, or it is read by order. Call it after
 * fio2070_log_start. */
FIO2070_MUST_USE
uint32_t fio2070_log_like(struct fio2070_log_reader *reader, const uint8_t *octets, size_t length);
#endif

/** @} */

/** @defgroup log_judge The judge of a log
 * A struct fio2070_log_judge judges the frames that a reader of a log finds, by what it says of the lines between them too. It
 * is a judge of a link (group judge), which finds by the directions of the log where it was taken. A line that may have held a
 * frame loses sync; a remark of loss, which has no octets, excuses what a lost frame explains. If the CPU waits for each
 * answer only until a deadline, late answers can be left out (docs/CAPTURES.md, Late answers). A
 * struct fio2070_log_signs says what kind of log it looks like, if it is not the log of one link in order. If FIO2070_NO_LOG is
 * defined, there are no such calls.
 * @code
 * const uint8_t poll[] = {54, 0}, block[] = {182, 0, 0, 0, 0, 0, 0, 11}, next[] = {54, 1}, third[] = {54, 2};
 * struct fio2070_log_judge judge;
 * struct fio2070_judge_outcome outcome;
 * const struct fio2070_limits limits = FIO2070_STANDARD_LIMITS;
 * if (fio2070_log_judge_start(&judge, limits, FIO2070_LOG_TAKEN_AUTO, FIO2070_LOG_BEGINS_ANYWHERE) != 0) return 1;
 * if (fio2070_log_judge_frame(&judge, 1, FIO2070_LOG_FROM_CPU, poll, sizeof poll, &outcome) != 0) return 1; // kept
 * if (fio2070_log_judge_frame(&judge, 0, FIO2070_LOG_FROM_MODULE, block, sizeof block, &outcome) != 0) return 1; // kept
 * if (fio2070_log_judge_frame(&judge, 1, FIO2070_LOG_FROM_CPU, next, sizeof next, &outcome) != 0) return 1; // kept
 * fio2070_log_judge_miss(&judge); // a line such as "1 message lost"
 * if (fio2070_log_judge_frame(&judge, 1, FIO2070_LOG_FROM_CPU, third, sizeof third, &outcome) == FIO2070_OUTCOME_KEPT)
 *     printf("the block of poll 1 may be lost\n"); // the block of poll 1 may be lost
 * @endcode
 * @{ */

#ifndef FIO2070_NO_LOG
/** Where a log was taken. */
enum fio2070_log_taken {
    FIO2070_LOG_TAKEN_AUTO = 0,      /**< it is found by the directions of the frames */
    FIO2070_LOG_TAKEN_AT_CPU = 1,    /**< at the CPU's end */
    FIO2070_LOG_TAKEN_AT_MODULE = 2, /**< at the module */
    FIO2070_LOG_TAKEN_ON_BUS = 3     /**< on the bus between them */
};

/** How a log begins, or that late answers are left out of it; added to one of these, that its CPU never loads the counter. */
enum fio2070_log_begins {
    FIO2070_LOG_BEGINS_ANYWHERE = 0,  /**< anywhere: what was heard above the first frame that was sent is not judged */
    FIO2070_LOG_BEGINS_WITH_ENDS = 1, /**< with the start of both ends: more is found then */
    FIO2070_LOG_LEAVES_OUT_LATE = 2,  /**< anywhere, and late answers are left out */
    FIO2070_LOG_NEVER_LOADS = 4       /**< no line that is lost is taken for a load of the counter, down to a load in the log */
};

/** A judge of a log. Its fields are the library's own. */
struct fio2070_log_judge {
    struct fio2070_judge link;
    uint32_t agreeing;
    uint32_t contrary;
    uint8_t place;
    uint8_t has_frames;
    uint8_t missing;
    uint8_t has_late;
    uint8_t settled;
    uint8_t has_awaited;
    uint8_t awaited;
    uint8_t has_polled;
    uint8_t polled;
    uint8_t first;
    uint8_t answered;
    uint8_t never_loads;
    uint8_t reserved[4];
};

/** Starts above the first line of a log of a module with these limits. `place` is one of enum fio2070_log_taken, where a greater
 * number is FIO2070_LOG_TAKEN_ON_BUS; `start` is one of enum fio2070_log_begins, or one of the first three plus
 * FIO2070_LOG_NEVER_LOADS; any other number is FIO2070_LOG_BEGINS_ANYWHERE. Returns 0; where a limit is out of its range 1,
 * and nothing changes.
 *
 * FIO2070_LOG_TAKEN_AUTO finds the place of each frame: a frame whose line says no direction was logged on the bus; another one
 * at the CPU's end, if down to it at least four of five directions agree with the types of their messages; at the module, if at
 * least four of five contradict them, as they do where the module's driver writes `TX` for an answer; else on the bus.
 * FIO2070_LOG_BEGINS_WITH_ENDS can accuse a right link in a log that begins elsewhere.
 * With FIO2070_LOG_LEAVES_OUT_LATE the rule `advance` is judged only in a log that was taken at the CPU's end. */
FIO2070_MUST_USE
uint8_t fio2070_log_judge_start(struct fio2070_log_judge *judge, struct fio2070_limits limits, uint8_t place, uint8_t start);
/** Takes a line that may have held a frame, such as a damaged one: up to the next poll nothing is judged. Call it also for the heading
 * of a part of the log (FIO2070_LOG_HEADING) below a frame; above the first frame a heading says nothing. */
void fio2070_log_judge_lose(struct fio2070_log_judge *judge);
/** Takes a line that no form has and that may be a message (FIO2070_LOG_POSSIBLE): below a frame, and in a log that begins with both
 * ends, it does what `fio2070_log_judge_lose` does; above the first frame of another log nothing. */
void fio2070_log_judge_possible(struct fio2070_log_judge *judge);
/** Takes a line without octets that speaks of loss. If a frame down to and with the next poll or block answer breaks `pair`,
 * `number`, `advance` or `refusal`, or the next block answer breaks `same`, sync is lost above it instead. No other breach is excused, on
 * content none. */
void fio2070_log_judge_miss(struct fio2070_log_judge *judge);
/** Takes a frame that the CPU's end sent if `from_cpu` is not 0, else the module. `said` is who sent it as its line says, one of
 * enum fio2070_log_side. Writes what it is, as `fio2070_judge_sent` does, and returns its kind, one of enum fio2070_outcome. A
 * late answer is excused, with FIO2070_WHY_LATE; with FIO2070_WHY_LATE_ABOVE a frame whose breach late answers may explain. */
FIO2070_MUST_USE
uint8_t fio2070_log_judge_frame(struct fio2070_log_judge *judge, uint8_t from_cpu, uint8_t said, const uint8_t *octets,
                                size_t length, struct fio2070_judge_outcome *outcome);
/** Takes the verdicts of a batch that fio2070_log_read wrote, in order, as the calls above take them: frames; lines that are
 * possible or damaged, that have more than their frames, or at which a message breaks off; headings; and lines that speak of loss. Who
 * sent a frame is said by its type; if `as_said` is not 0 by its line, if that says it, as in a transcript that is read by order.
 * Writes what each frame of the batch is, in their order, and returns how many they are. The frame of a possible line is not judged,
 * for no reason. */
FIO2070_MUST_USE
uint32_t fio2070_log_judge_batch(struct fio2070_log_judge *judge, uint8_t as_said, const struct fio2070_log_batch *batch,
                                 struct fio2070_judge_outcome outcomes[20480]);

/** What kind of log a log looks like (docs/CAPTURES.md, A log that is not what it seems). */
enum fio2070_log_sign {
    FIO2070_LOG_SIGN_NONE = 0,          /**< the log of one link in order, or too few frames to say */
    FIO2070_LOG_SIGN_TWICE = 1,         /**< each frame is there twice */
    FIO2070_LOG_SIGN_BOTH_ENDS = 2,     /**< the logs of both ends are merged */
    FIO2070_LOG_SIGN_REVERSED = 3,      /**< the last line is first */
    FIO2070_LOG_SIGN_TWO_LINKS = 4,     /**< it has two links */
    FIO2070_LOG_SIGN_EMPTY_LEFT_OUT = 5 /**< the log of one link in order, without the block answers that have no entries */
};

/** Counts of the frames of a log. Its fields are the library's own. */
struct fio2070_log_signs {
    uint32_t answers;
    uint32_t repeated;
    uint32_t contrary;
    uint32_t blocks;
    uint32_t backward;
    uint32_t changes;
    uint32_t jumps;
    uint32_t stamp;
    uint32_t polls;
    uint32_t passed;
    uint32_t others;
    uint32_t empty;
    uint16_t length;
    uint8_t said;
    uint8_t again;
    uint8_t has_block;
    uint8_t number;
    uint8_t has_first;
    uint8_t first;
    uint8_t has_second;
    uint8_t second;
    uint8_t above[773];
    uint8_t waits;
    uint8_t polled;
    uint8_t reserved[3];
};

/** Starts above the first frame of a log. */
void fio2070_log_signs_start(struct fio2070_log_signs *signs);
/** Takes a frame that the CPU's end sent if `from_cpu` is not 0, else the module. `said` is who sent it as its line says, one of
 * enum fio2070_log_side. Give it each frame of the log, in order. It changes nothing of what a judge says of the frame. */
void fio2070_log_signs_frame(struct fio2070_log_signs *signs, uint8_t from_cpu, uint8_t said, const uint8_t *octets,
                             size_t length);
/** Takes the frames of a batch that fio2070_log_read wrote, in order. `as_said` is as for fio2070_log_judge_batch, and the frame of a
 * possible line is not taken. */
void fio2070_log_signs_batch(struct fio2070_log_signs *signs, uint8_t as_said, const struct fio2070_log_batch *batch);
/** Returns what kind of log it looks like by the frames down to here, one of enum fio2070_log_sign: the first of these that holds.
 *
 * FIO2070_LOG_SIGN_TWICE holds if of 8 or more answers at least two of five have the octets of the frame directly above,
 * which differs from the frame above it. If for at least half of those the two lines say different senders, it is
 * FIO2070_LOG_SIGN_BOTH_ENDS. FIO2070_LOG_SIGN_REVERSED holds if of 8 or more block answers more than half have the number of
 * the block answer above less one, and a stamp that is not later. FIO2070_LOG_SIGN_TWO_LINKS holds if of 8 or more block
 * answers at least a quarter go on with the other of two rows of numbers than the block answer above, and at most one in ten
 * starts a row in place of another one. A block answer goes on with a row by its latest number, by the next one, or late by the
 * one above it. FIO2070_LOG_SIGN_EMPTY_LEFT_OUT holds if there are block answers, each with entries, and of 8 or more polls a
 * quarter or more ask for the next number below a poll that has no block answer, and none asks there for another number than
 * this and that poll's own. In such a log the rule `advance` accuses nobody of a step by one below a poll without an answer. */
uint8_t fio2070_log_signs_sign(const struct fio2070_log_signs *signs);
#endif

/** @} */

/** @defgroup log_counts Counts of a log
 * A struct fio2070_log_counts has what is counted of the frames of a log: of each type, polls and how often they are sent again
 * or not answered, restarts, gap marks and entries. Its numbers may be read at any time. If FIO2070_NO_LOG is defined,
 * there are no such calls.
 * @code
 * const uint8_t poll[] = {54, 5}, block[] = {182, 5, 1, 140, 3, 231, 0, 0, 0, 3, 232};
 * struct fio2070_log_counts counts;
 * uint64_t taken;
 * fio2070_log_counts_start(&counts);
 * if (fio2070_log_counts_frame(&counts, 1, 1000000, poll, sizeof poll, &taken) != 0) return 1; // it is no answer
 * if (fio2070_log_counts_frame(&counts, 1, 1003200, block, sizeof block, &taken) == 1)
 *     printf("after %d us, input 12: %d\n", (int)taken, (int)counts.inputs[12]); // after 3200 us, input 12: 1
 * @endcode
 * @{ */

#ifndef FIO2070_NO_LOG
/** What is counted of the frames of a log, modulo 2^64, and what of the frames above tells what the next one counts. A poll below
 * which there is neither a command nor a block answer is not counted as unanswered yet: `waits` is 1 then. */
struct fio2070_log_counts {
    /** The frames. */
    uint64_t frames;
    /** The polls. */
    uint64_t polls;
    /** The polls with the number of the poll above. */
    uint64_t repeats;
    /** The polls after which a command comes before a block answer. */
    uint64_t unanswered;
    /** The gap marks. */
    uint64_t marks;
    /** The entries of blocks. */
    uint64_t entries;
    /** How often the module says that it was reset, though it did not say so before. */
    uint64_t restarts;
    /** The messages of each type. */
    uint64_t types[256];
    /** The entries of each input. */
    uint64_t inputs[128];
    /** The blocks with each number of entries. */
    uint64_t fills[256];
    /** When the command above was sent, in microseconds. */
    uint64_t sent_at;
    /** 1 if that is known. */
    uint8_t has_sent_at;
    /** The type of the latest command, until it is answered. */
    uint8_t command;
    /** 1 if there is one. */
    uint8_t has_command;
    /** The number of the latest poll. */
    uint8_t polled;
    /** 1 if there is one. */
    uint8_t has_polled;
    /** 1 if that poll is not answered yet. */
    uint8_t waits;
    /** The number of the latest block answer. */
    uint8_t block;
    /** 1 if there is one. */
    uint8_t has_block;
    /** 1 if the latest status answer says that the module was reset. */
    uint8_t reset;
    /** 1 if the first one says so. */
    uint8_t first_reset;
    /** 1 if there is one. */
    uint8_t has_reset;
    /** 0 in each octet that the library writes. */
    uint8_t reserved[5];
};

/** Begins with no frame: each octet is 0. */
void fio2070_log_counts_start(struct fio2070_log_counts *counts);
/** Takes a place where a frame may be lost: whether the latest poll and command were answered is not known. */
void fio2070_log_counts_lose(struct fio2070_log_counts *counts);
/** Counts a frame, sent at `time`, in microseconds, if `has_time` is not 0. If it is the answer that the latest command waits for,
 * both have a time, and its time is not before the command's, it returns 1, and `taken` is how long the module took for the
 * answer, in microseconds; else it returns 0, and `taken` is 0. A frame that is no message is counted in `frames` alone. Of
 * a block that is sent again below the same block neither entries nor a gap mark are counted. */
uint8_t fio2070_log_counts_frame(struct fio2070_log_counts *counts, uint8_t has_time, uint64_t time, const uint8_t *octets,
                                 size_t length, uint64_t *taken);
/** Counts the frames of a batch that fio2070_log_read wrote, in order, as the calls above do, each by the time of its verdict. A
 * frame may be lost at each line that fio2070_log_judge_batch takes but those that have frames alone. The frame of a possible line is
 * not counted. Writes how long the module took, in microseconds, for each answer of which fio2070_log_counts_frame returns 1, in
 * order, and returns how many these are; what is after them in `taken` stays. */
uint32_t fio2070_log_counts_batch(struct fio2070_log_counts *counts, const struct fio2070_log_batch *batch,
                                  uint64_t taken[20480]);
#endif

/** @} */

/** @defgroup log_stretches Stretches of a log
 * A stretch is a piece of what a log records in which each transition of the module's list is there once and in order. A struct
 * fio2070_log_stretches has what a log says of that, of one module: how many transitions it records, and how many places there
 * are at which a stretch ends or transitions are lost. If FIO2070_NO_LOG is defined, there are no such calls.
 * @code
 * static struct fio2070_log_reader reader;
 * static struct fio2070_log_batch batch;
 * static struct fio2070_judge_outcome outcomes[20480];
 * static struct fio2070_log_seam seams[20480];
 * const char text[] = "< b605000000000005\n< b606000400000006\n"; // F: transitions were pushed out of the buffer
 * const struct fio2070_limits limits = {FIO2070_STANDARD_WAITING, FIO2070_MOST_ENTRIES, 0};
 * struct fio2070_log_judge judge;
 * struct fio2070_log_stretches stretches;
 * fio2070_log_start(&reader, FIO2070_LOG_TRANSCRIPT);
 * if (fio2070_log_judge_start(&judge, limits, FIO2070_LOG_TAKEN_AUTO, FIO2070_LOG_BEGINS_ANYWHERE) != FIO2070_STARTED) return 1;
 * fio2070_log_stretches_start(&stretches);
 * if (fio2070_log_read(&reader, (const uint8_t *)text, sizeof text - 1, &batch) != sizeof text - 1) return 1;
 * if (fio2070_log_judge_batch(&judge, 1, &batch, outcomes) != 2) return 1;
 * if (fio2070_log_stretches_batch(&stretches, &batch, outcomes, seams) == 1 && seams[0].is_lost)
 *     printf("transitions are lost above frame %d\n", (int)seams[0].frame); // transitions are lost above frame 1
 * @endcode
 * @{ */

#ifndef FIO2070_NO_LOG
/** Why a stretch ends above a block. */
enum fio2070_seam {
    FIO2070_SEAM_NONE = 0,        /**< it does not end: transitions are lost alone */
    FIO2070_SEAM_MISSING = 1,     /**< blocks were made that are not in the log: at least one */
    FIO2070_SEAM_PASSED_OVER = 2, /**< the module never got the polls of the numbers between, so these are no blocks; what it said to
                                     other polls is not known */
    FIO2070_SEAM_UNKNOWN = 3,     /**< the log does not show whether the transitions follow */
    FIO2070_SEAM_RESTART = 4,     /**< the module was restarted: what waited in it then is not recorded */
    FIO2070_SEAM_DISBELIEVED = 5  /**< the block breaks a rule on what entries say */
};

/** A place of a log where a stretch ends, or transitions are lost: above a block answer. */
struct fio2070_log_seam {
    /** How long the poll above came after the poll above that, in microseconds; 0 if that is not known. */
    uint64_t pause;
    /** The index of the block among the frames of its batch. */
    uint32_t frame;
    /** Why the stretch ends: one of `FIO2070_SEAM_NONE` and those after it. */
    uint8_t cause;
    /** 1 if the block says that transitions are lost above it. */
    uint8_t is_lost;
    /** 1 if `pause` is known. */
    uint8_t has_pause;
    /** Of `FIO2070_SEAM_MISSING` how many blocks are not in the log, with a CPU that passes over no
     *  number; else 0. */
    uint8_t missing;
};

/** What a log records of the transitions of one module, modulo 2^64, and what must be known of the frames above: the fields from
 * `pause` on are the library's own. */
struct fio2070_log_stretches {
    /** The block answers; one that is sent again as it was is not counted. */
    uint64_t blocks;
    /** Their entries. */
    uint64_t transitions;
    /** The places above which transitions are lost. */
    uint64_t lost;
    /** The places where blocks are not in the log. */
    uint64_t missing;
    /** How many blocks these are, at least one at each place; so many with a CPU that passes over no
     *  number. */
    uint64_t missing_blocks;
    /** The places where the module did not get the polls of the numbers between. */
    uint64_t passed_over;
    /** The places of which the log does not show whether transitions follow. */
    uint64_t unknown;
    /** The restarts. */
    uint64_t restarts;
    /** The blocks that are not to be believed. */
    uint64_t disbelieved;
    /** The microseconds between neighbouring blocks with times that rise. */
    uint64_t timed;
    /** Those of them within stretches. */
    uint64_t timed_whole;
    /** The milliseconds between neighbouring blocks by their stamps, unless these go back. */
    uint64_t stamped;
    /** Those of them within stretches. */
    uint64_t stamped_whole;
    /** The loads of the counter. */
    uint64_t loads;
    /** The longest time between two neighbouring polls, in microseconds. */
    uint64_t longest_pause;
    /** The time between the latest two polls, in microseconds. */
    uint64_t pause;
    /** The time of the latest poll, in microseconds. */
    uint64_t polled_at;
    /** The time of the latest block, in microseconds. */
    uint64_t block_at;
    /** The stamp of the latest block, in milliseconds. */
    uint32_t stamp;
    /** How many octets it has above its status. */
    uint16_t length;
    /** How many entries it has. */
    uint8_t entries;
    /** Its number. */
    uint8_t number;
    /** Its status octet. */
    uint8_t status;
    /** 1 if there is a latest block. */
    uint8_t has_block;
    /** 1 if its time is known. */
    uint8_t has_block_at;
    /** 1 if the time of the latest poll is known. */
    uint8_t has_polled_at;
    /** 1 if the time between the latest two polls is known. */
    uint8_t has_pause;
    /** 1 if the counter was loaded below the latest block. */
    uint8_t is_loaded;
    /** The octets of the latest block above its status. */
    uint8_t items[773];
    /** 0 in each octet that the library writes. */
    uint8_t reserved[5];
};

/** Begins above the first frame: each octet is 0. */
void fio2070_log_stretches_start(struct fio2070_log_stretches *stretches);
/** Takes the frames of a batch that fio2070_log_read wrote, in order, each by the time of its verdict. `outcomes` are those that
 * fio2070_log_judge_batch wrote for this batch: a block that breaks one of the rules order, fresh, alternate, apart, state and same is
 * not believed. Writes the places where a stretch ends or transitions are lost, in order, and returns how many these are; what is after
 * them in `seams` stays. The frame of a possible line is not taken. */
uint32_t fio2070_log_stretches_batch(struct fio2070_log_stretches *stretches, const struct fio2070_log_batch *batch,
                                     const struct fio2070_judge_outcome outcomes[20480], struct fio2070_log_seam seams[20480]);
#endif

/** @} */

/** @defgroup parts Parts of a module
 * The counter and the filters of a module by themselves, for a firmware that has the rest.
 * @code
 * const struct fio2070_configuration_item item = {12, 0, 1, 1}; // input 12 is reported, after one sample
 * struct fio2070_filters filters;
 * fio2070_filters_start(&filters);
 * if (fio2070_filters_configure(&filters, &item, 1).kind != FIO2070_CONFIGURED_APPLIED) return 1;
 * printf("changed: %lx\n", (unsigned long)fio2070_filters_scan(&filters, ~(UINT64_C(1) << 12))); // changed: 1000
 * @endcode
 * @{ */

/** The millisecond counter. Its fields are the library's own. */
struct fio2070_counter {
    uint32_t value;
    uint32_t load;
    uint8_t is_asked;
    uint8_t reserved[3];
};

/** At 0 (own profile), with no load asked for. */
void fio2070_counter_start(struct fio2070_counter *counter);
/** One step, from 4,294,967,295 to 0. Each scan of a module does it before it samples (own profile). */
void fio2070_counter_tick(struct fio2070_counter *counter);
/** The next line sync loads this number (TEES 2009), and none that was asked for before (own profile). */
void fio2070_counter_ask_load(struct fio2070_counter *counter, uint32_t number);
/** LINESYNC goes from 0 to 1: a load that was asked for happens now (TEES 2009). */
void fio2070_counter_line_sync(struct fio2070_counter *counter);
/** The milliseconds counted, modulo 2^32. */
uint32_t fio2070_counter_now(const struct fio2070_counter *counter);

/** The filters of the 64 inputs. Bit i of a word is input i. The fields are the library's own. */
struct fio2070_filters {
    uint8_t run_lengths[64];
    uint8_t leading[64];
    uint8_t trailing[64];
    uint64_t ignored;
    uint64_t filtered;
    uint64_t raw;
};

/** What became of a configuration. */
enum fio2070_configured_kind {
    FIO2070_CONFIGURED_APPLIED = 0,
    FIO2070_CONFIGURED_ABSENT_INPUT = 1,   /**< the item at `place` is the first that names an input above 63 */
    FIO2070_CONFIGURED_TOO_MANY_ITEMS = 2  /**< more than 255 */
};

/** What became of a configuration, and where. Of more than 255 items, one of which names an input above 63, it is kind 2. */
struct fio2070_configured {
    /** 0 applied; 1 an item names an input above 63; 2 more than 255 items. */
    uint8_t kind;
    /** 0 in each octet that the library writes. */
    uint8_t reserved[7];
    /** For kind 1 the index of the first item that names an input above 63, from 0. */
    uint64_t place;
};

/** Each input is ignored, both its filters are 5, and its raw level and filtered state are 1 (own
 * profile). */
void fio2070_filters_start(struct fio2070_filters *filters);
/** Applies the items in their order; if one names an input above 63, or there are more than 255,
 * none, and nothing changes (own profile). An applied item starts the samples of its input anew from
 * the present filtered state. */
FIO2070_MUST_USE
struct fio2070_configured fio2070_filters_configure(struct fio2070_filters *filters,
                                                    const struct fio2070_configuration_item *items, size_t count);
/** Takes a sample of each input. The result has a one for each input that is not ignored and whose
 * filtered state changed (TEES 2009). */
uint64_t fio2070_filters_scan(struct fio2070_filters *filters, uint64_t raw);
/** The filtered states, also of ignored inputs. */
uint64_t fio2070_filters_filtered(const struct fio2070_filters *filters);
/** The levels of the last scan, all 1 before any (own profile). */
uint64_t fio2070_filters_raw(const struct fio2070_filters *filters);

/** @} */

/** @defgroup module The module
 * A struct fio2070_module is a whole module, in the own profile of 64 inputs and 64 outputs: the filters, the counter, the
 * entries that wait for a poll, and the answer to each command. A struct fio2070_sized_module is one with more or fewer waiting
 * entries, in slots of the caller.
 * @code
 * static struct fio2070_module module;
 * const struct fio2070_limits limits = FIO2070_STANDARD_LIMITS;
 * const uint8_t identify[] = {60};
 * uint8_t answer[FIO2070_LONGEST_FRAME];
 * if (fio2070_module_start(&module, 2, limits) != FIO2070_STARTED) return 1;
 * fio2070_module_scan(&module, ~UINT64_C(0)); // each millisecond, with the levels of the inputs
 * size_t count = fio2070_module_receive(&module, identify, sizeof identify, answer, sizeof answer);
 * if (count > 0 && count <= sizeof answer) printf("%d octets: %d %d\n", (int)count, answer[0], answer[1]); // 2 octets: 188 2
 * @endcode
 * @{ */

/** The data and control octets of command 55. */
struct fio2070_outputs {
    /** The eight data octets. */
    uint8_t levels[8];
    /** The eight control octets. */
    uint8_t controls[8];
};

/** How many errors the firmware counted, as the answer 177 has them. */
struct fio2070_error_counts {
    /** In receiving. */
    uint8_t receive;
    /** In transmitting. */
    uint8_t transmit;
};

/** What a module is at present. */
struct fio2070_state {
    /** The filtered states, also of ignored inputs; bit i is input i. */
    uint64_t filtered;
    /** The levels of the last scan, all 1 before any (own profile); bit i is input i. */
    uint64_t raw;
    /** The outputs, all 0 before the first command 55 (own profile). */
    struct fio2070_outputs outputs;
    /** The milliseconds counted, modulo 2^32 (TEES 2009). */
    uint32_t counter;
    /** How many entries wait for a poll, 0 to the limit. */
    uint16_t waiting;
    /** The flags that are up: from bit 7 down P, E, K, R, T, M, L, W (own profile). */
    uint8_t flags;
    /** The timeout of the watchdog in milliseconds, 10 to 100; 0 before the first command 58. */
    uint8_t watchdog_ms;
    /** The error counts that the answer 177 has. */
    struct fio2070_error_counts errors;
    /** 0 in each octet that the library writes. */
    uint8_t reserved[6];
};

/** Room for an entry that waits. */
struct fio2070_slot {
    uint8_t octets[3];
};

/** An array of such room. FIO2070_RING makes it of an array, and of nothing else. */
struct fio2070_ring {
    struct fio2070_slot *slots; /**< may be null if there are none */
    size_t capacity;            /**< how many there are */
};

/** The ring that an array of slots is: struct fio2070_slot slots[64]; .. FIO2070_RING(slots). A pointer is an error when
 * the program is compiled: by C++, by gcc and clang, and by each compiler of C11. */
#if defined(__cplusplus)
extern "C++" {
template <size_t count>
static inline struct fio2070_ring fio2070_ring_of(struct fio2070_slot (&slots)[count]) {
    struct fio2070_ring ring = {slots, count};
    return ring;
}
}
#define FIO2070_RING(array) fio2070_ring_of(array)
#else
#define FIO2070_SLOTS(array) (sizeof(array) / sizeof(struct fio2070_slot))
#if defined(__GNUC__)
#define FIO2070_IS_ARRAY(array) sizeof(char[__builtin_types_compatible_p(__typeof__(array), struct fio2070_slot[]) ? 1 : -1])
#elif defined(__STDC_VERSION__) && __STDC_VERSION__ >= 201112L
#define FIO2070_IS_ARRAY(array) _Generic(&(array), struct fio2070_slot (*)[FIO2070_SLOTS(array)]: 1)
#else
#define FIO2070_IS_ARRAY(array) 1
#endif
#define FIO2070_RING(array) ((struct fio2070_ring){(array), FIO2070_SLOTS(array) * FIO2070_IS_ARRAY(array)})
#endif

/** A module whose waiting entries are in slots of the caller. _scan and _receive are given these as `ring`, always the same
 * ones, or others with their octets; they use the number of slots that the limit says, and leave further ones unchanged. With
 * fewer each call is safe, but which and how many entries wait is not promised. The fields are the library's own. */
struct fio2070_sized_module {
    struct {
        uint8_t id;
        uint8_t per_block;
        uint8_t flags;
        uint8_t watchdog;
        uint8_t pushed_out;
        uint8_t awaited;
        uint8_t reserved[6];
        struct fio2070_counter counter;
        struct fio2070_outputs outputs;
        struct fio2070_filters filters;
        struct {
            uint8_t octets[773];
            uint8_t reserved;
            uint16_t length;
        } sent;
    } state;
    struct {
        uint16_t first;
        uint16_t count;
    } place;
    struct fio2070_error_counts errors;
    uint16_t waiting;
    uint8_t reserved[16];
};

/** Starts a module that answers `id` to command 60, with these limits. Returns FIO2070_STARTED; if `waiting` is not 1 to
 * 8,192, or `per_block` is 0, FIO2070_REFUSED, and then nothing changes: the struct is not started. */
FIO2070_MUST_USE
uint8_t fio2070_sized_module_start(struct fio2070_sized_module *module, uint8_t id, struct fio2070_limits limits);
/** Starts it anew with the same id and limits: the flags are P alone, the counter and both error counts are 0, and the
 * waiting entries and the block that was sent last are lost (own profile). */
void fio2070_sized_module_restart(struct fio2070_sized_module *module);
/** Steps the counter by one millisecond, then samples each input; bit i of `raw` is the level of input i (own profile: one
 * scan a step). Each reported transition becomes a waiting entry; if as many wait as the limit says it pushes out the
 * oldest. */
void fio2070_sized_module_scan(struct fio2070_sized_module *module, struct fio2070_ring ring, uint64_t raw);
/** LINESYNC goes from 0 to 1: a load of the counter that was asked for happens now (TEES 2009). */
void fio2070_sized_module_line_sync(struct fio2070_sized_module *module);
/** Sets the flags whose bits are one: from bit 7 down P, E, K, R, T, M, L, W (own profile). */
void fio2070_sized_module_raise(struct fio2070_sized_module *module, uint8_t mask);
/** Sets the error counts that the answer 177 has from now on; both are 0 at the start. TEES 2009 leaves out what counts as
 * an error: the firmware does. */
void fio2070_sized_module_set_errors(struct fio2070_sized_module *module, uint8_t receive, uint8_t transmit);
/** Counts one more error in receiving; 255 stays 255 (own profile). */
void fio2070_sized_module_count_receive_error(struct fio2070_sized_module *module);
/** Counts one more error in transmitting; 255 stays 255 (own profile). */
void fio2070_sized_module_count_transmit_error(struct fio2070_sized_module *module);
/** Carries out the command in the octets, writes the answer to the front of `out`, and returns how many octets it
 * has, 2 to 773. 0 for a command without an answer: 56, 57 and 59, which change nothing (own profile). FIO2070_NO_MESSAGE
 * if the octets are no command, and then nothing changes.
 *
 * `room` is to be enough for the longest answer of this module, the larger of 13 and 8 + 3 * per_block octets: if it is
 * less nothing changes, and that number is returned. */
FIO2070_MUST_USE
size_t fio2070_sized_module_receive(struct fio2070_sized_module *module, struct fio2070_ring ring, const uint8_t *octets,
                                    size_t length, uint8_t *out, size_t room);
/** The counts that say why an answer of the maker is refused: more than any room. */
#define FIO2070_NOT_AWAITED (SIZE_MAX - 1)   /**< none is awaited: it was given, the octets asked about last are no such command, or the module restarted */
#define FIO2070_OTHER_AWAITED (SIZE_MAX - 2) /**< the answer to a command of another type is awaited */
#define FIO2070_BODY_TOO_LONG (SIZE_MAX - 3) /**< the body has more than 772 octets */

/** Returns the type of the command in the octets of a frame that was received, if the maker of the module answers it: 56, 57 or
 * 59, or 60 if its identification is to have another length than the one octet of _receive; its body is the octets after the
 * first. Its answer is awaited from then on, until a restart. For any other octets it returns 0, and no answer is awaited. */
uint8_t fio2070_sized_module_makers_command(struct fio2070_sized_module *module, const uint8_t *octets, size_t length);
/** Writes the octets of the maker's answer to a command of this type to the front of `out`, and returns how many they are, 1 to
 * 773: the type plus 128 (TEES 2009), and the body. Once for each _makers_command. Nothing else of the module changes.
 *
 * If the answer is refused nothing changes, and the result is the first of these that applies: FIO2070_NOT_AWAITED,
 * FIO2070_OTHER_AWAITED or FIO2070_BODY_TOO_LONG. If it is longer than `room` nothing changes, and it may be given again. */
FIO2070_MUST_USE
size_t fio2070_sized_module_answer_other(struct fio2070_sized_module *module, uint8_t command, const uint8_t *body,
                                         size_t length, uint8_t *out, size_t room);
/** Returns what the module is at present. */
struct fio2070_state fio2070_sized_module_state(const struct fio2070_sized_module *module);

/** A module with slots of its own, for the 1,024 entries of TEES 2009 or fewer. Its calls are those above, compiled with the
 * program. */
struct fio2070_module {
    struct fio2070_sized_module sized;
    struct fio2070_slot slots[FIO2070_STANDARD_WAITING];
};

/** Starts a module that answers `id` to command 60, with these limits: FIO2070_STANDARD_LIMITS are those of TEES 2009, 1,024
 * entries that wait and 255 of a block. Returns FIO2070_STARTED; if `waiting` is not 1 to 1,024, or `per_block` is 0,
 * FIO2070_REFUSED, and then nothing changes: the struct is not started. */
FIO2070_MUST_USE
static inline uint8_t fio2070_module_start(struct fio2070_module *module, uint8_t id, struct fio2070_limits limits) {
    if (limits.waiting > FIO2070_STANDARD_WAITING) return FIO2070_REFUSED;
    return fio2070_sized_module_start(&module->sized, id, limits);
}
/** As fio2070_sized_module_restart. Each further call of a fio2070_module is as that of the same name of a sized one. */
static inline void fio2070_module_restart(struct fio2070_module *module) {
    fio2070_sized_module_restart(&module->sized);
}
static inline void fio2070_module_scan(struct fio2070_module *module, uint64_t raw) {
    fio2070_sized_module_scan(&module->sized, FIO2070_RING(module->slots), raw);
}
static inline void fio2070_module_line_sync(struct fio2070_module *module) {
    fio2070_sized_module_line_sync(&module->sized);
}
static inline void fio2070_module_raise(struct fio2070_module *module, uint8_t mask) {
    fio2070_sized_module_raise(&module->sized, mask);
}
static inline void fio2070_module_set_errors(struct fio2070_module *module, uint8_t receive, uint8_t transmit) {
    fio2070_sized_module_set_errors(&module->sized, receive, transmit);
}
static inline void fio2070_module_count_receive_error(struct fio2070_module *module) {
    fio2070_sized_module_count_receive_error(&module->sized);
}
static inline void fio2070_module_count_transmit_error(struct fio2070_module *module) {
    fio2070_sized_module_count_transmit_error(&module->sized);
}
FIO2070_MUST_USE
static inline size_t fio2070_module_receive(struct fio2070_module *module, const uint8_t *octets, size_t length, uint8_t *out,
                                            size_t room) {
    return fio2070_sized_module_receive(&module->sized, FIO2070_RING(module->slots), octets, length, out, room);
}
static inline uint8_t fio2070_module_makers_command(struct fio2070_module *module, const uint8_t *octets, size_t length) {
    return fio2070_sized_module_makers_command(&module->sized, octets, length);
}
FIO2070_MUST_USE
static inline size_t fio2070_module_answer_other(struct fio2070_module *module, uint8_t command, const uint8_t *body,
                                                 size_t length, uint8_t *out, size_t room) {
    return fio2070_sized_module_answer_other(&module->sized, command, body, length, out, room);
}
static inline struct fio2070_state fio2070_module_state(const struct fio2070_module *module) {
    return fio2070_sized_module_state(&module->sized);
}

/** @} */

/* ---- Layout: written by tools/generate-layouts ---- */
/* Each struct has this size and these offsets with every compiler. */
#if defined(__cplusplus)
#define FIO2070_SAME(name, is) static_assert(is, "the layout of struct fio2070_" #name)
#elif defined(__STDC_VERSION__) && __STDC_VERSION__ >= 201112L
#define FIO2070_SAME(name, is) _Static_assert(is, "the layout of struct fio2070_" #name)
#else
#define FIO2070_SAME(name, is) typedef char fio2070_layout_of_##name[(is) ? 1 : -1]
#endif
FIO2070_SAME(answer, sizeof(struct fio2070_answer) == 24 &&
             offsetof(struct fio2070_answer, flags) == 1 &&
             offsetof(struct fio2070_answer, receive_errors) == 2 &&
             offsetof(struct fio2070_answer, transmit_errors) == 3 &&
             offsetof(struct fio2070_answer, status) == 4 &&
             offsetof(struct fio2070_answer, block) == 5 &&
             offsetof(struct fio2070_answer, count) == 6 &&
             offsetof(struct fio2070_answer, reserved) == 7 &&
             offsetof(struct fio2070_answer, body) == 10 &&
             offsetof(struct fio2070_answer, stamp) == 12 &&
             offsetof(struct fio2070_answer, inputs) == 16);

FIO2070_SAME(block_header, sizeof(struct fio2070_block_header) == 8 &&
             offsetof(struct fio2070_block_header, status) == 1 &&
             offsetof(struct fio2070_block_header, count) == 2 &&
             offsetof(struct fio2070_block_header, reserved) == 3 &&
             offsetof(struct fio2070_block_header, stamp) == 4);

FIO2070_SAME(entry, sizeof(struct fio2070_entry) == 4 &&
             offsetof(struct fio2070_entry, state) == 1 &&
             offsetof(struct fio2070_entry, stamp) == 2);

FIO2070_SAME(checker, sizeof(struct fio2070_checker) == 16 &&
             offsetof(struct fio2070_checker, awaited) == 1 &&
             offsetof(struct fio2070_checker, absent_named) == 2 &&
             offsetof(struct fio2070_checker, has_polled) == 3 &&
             offsetof(struct fio2070_checker, polled) == 4 &&
             offsetof(struct fio2070_checker, answered) == 5 &&
             offsetof(struct fio2070_checker, advanced) == 6 &&
             offsetof(struct fio2070_checker, more) == 7 &&
             offsetof(struct fio2070_checker, skips) == 8 &&
             offsetof(struct fio2070_checker, per_block) == 9 &&
             offsetof(struct fio2070_checker, waiting) == 10 &&
             offsetof(struct fio2070_checker, reserved) == 12);

FIO2070_SAME(breach, sizeof(struct fio2070_breach) == 4 &&
             offsetof(struct fio2070_breach, has_due) == 1 &&
             offsetof(struct fio2070_breach, due) == 2 &&
             offsetof(struct fio2070_breach, got) == 3);

FIO2070_SAME(command, sizeof(struct fio2070_command) == 28 &&
             offsetof(struct fio2070_command, clear) == 1 &&
             offsetof(struct fio2070_command, block) == 2 &&
             offsetof(struct fio2070_command, timeout) == 3 &&
             offsetof(struct fio2070_command, count) == 4 &&
             offsetof(struct fio2070_command, reserved) == 5 &&
             offsetof(struct fio2070_command, body) == 6 &&
             offsetof(struct fio2070_command, load) == 8 &&
             offsetof(struct fio2070_command, levels) == 12 &&
             offsetof(struct fio2070_command, controls) == 20);

FIO2070_SAME(configuration_item, sizeof(struct fio2070_configuration_item) == 4 &&
             offsetof(struct fio2070_configuration_item, ignore) == 1 &&
             offsetof(struct fio2070_configuration_item, leading) == 2 &&
             offsetof(struct fio2070_configuration_item, trailing) == 3);

FIO2070_SAME(content_breach, sizeof(struct fio2070_content_breach) == 4 &&
             offsetof(struct fio2070_content_breach, input) == 1 &&
             offsetof(struct fio2070_content_breach, items) == 2);

FIO2070_SAME(fault, sizeof(struct fio2070_fault) == 16 &&
             offsetof(struct fio2070_fault, code) == 1 &&
             offsetof(struct fio2070_fault, needed) == 2 &&
             offsetof(struct fio2070_fault, reserved) == 4 &&
             offsetof(struct fio2070_fault, got) == 8);

FIO2070_SAME(configured, sizeof(struct fio2070_configured) == 16 &&
             offsetof(struct fio2070_configured, reserved) == 1 &&
             offsetof(struct fio2070_configured, place) == 8);

FIO2070_SAME(judge, sizeof(struct fio2070_judge) == 728);

FIO2070_SAME(judge_outcome, sizeof(struct fio2070_judge_outcome) == 10 &&
             offsetof(struct fio2070_judge_outcome, why) == 1 &&
             offsetof(struct fio2070_judge_outcome, rule) == 2 &&
             offsetof(struct fio2070_judge_outcome, has_due) == 3 &&
             offsetof(struct fio2070_judge_outcome, due) == 4 &&
             offsetof(struct fio2070_judge_outcome, got) == 5 &&
             offsetof(struct fio2070_judge_outcome, input) == 6 &&
             offsetof(struct fio2070_judge_outcome, reserved) == 7 &&
             offsetof(struct fio2070_judge_outcome, items) == 8);

#ifndef FIO2070_NO_LOG
FIO2070_SAME(log_reader, sizeof(struct fio2070_log_reader) == 524288);

FIO2070_SAME(log_verdict, sizeof(struct fio2070_log_verdict) == 32 &&
             offsetof(struct fio2070_log_verdict, time) == 8 &&
             offsetof(struct fio2070_log_verdict, frames) == 16 &&
             offsetof(struct fio2070_log_verdict, places) == 20 &&
             offsetof(struct fio2070_log_verdict, kind) == 24 &&
             offsetof(struct fio2070_log_verdict, reason) == 25 &&
             offsetof(struct fio2070_log_verdict, time_kind) == 26 &&
             offsetof(struct fio2070_log_verdict, said) == 27 &&
             offsetof(struct fio2070_log_verdict, address) == 28 &&
             offsetof(struct fio2070_log_verdict, control) == 29 &&
             offsetof(struct fio2070_log_verdict, header) == 30 &&
             offsetof(struct fio2070_log_verdict, foreign) == 31);

FIO2070_SAME(log_place, sizeof(struct fio2070_log_place) == 16 &&
             offsetof(struct fio2070_log_place, start) == 8 &&
             offsetof(struct fio2070_log_place, end) == 12);

FIO2070_SAME(log_batch, sizeof(struct fio2070_log_batch) == 565264 &&
             offsetof(struct fio2070_log_batch, frame_count) == 4 &&
             offsetof(struct fio2070_log_batch, octet_count) == 8 &&
             offsetof(struct fio2070_log_batch, place_count) == 12 &&
             offsetof(struct fio2070_log_batch, verdicts) == 16 &&
             offsetof(struct fio2070_log_batch, places) == 131088 &&
             offsetof(struct fio2070_log_batch, lengths) == 458768 &&
             offsetof(struct fio2070_log_batch, octets) == 499728);

FIO2070_SAME(log_read_as, sizeof(struct fio2070_log_read_as) == 152 &&
             offsetof(struct fio2070_log_read_as, lines) == 8 &&
             offsetof(struct fio2070_log_read_as, damaged) == 16 &&
             offsetof(struct fio2070_log_read_as, is_echo) == 24 &&
             offsetof(struct fio2070_log_read_as, front_length) == 25 &&
             offsetof(struct fio2070_log_read_as, reserved) == 26 &&
             offsetof(struct fio2070_log_read_as, front) == 32);

FIO2070_SAME(log_form_list, sizeof(struct fio2070_log_form_list) == 2440 &&
             offsetof(struct fio2070_log_form_list, reserved) == 4 &&
             offsetof(struct fio2070_log_form_list, forms) == 8);

FIO2070_SAME(log_judge, sizeof(struct fio2070_log_judge) == 752);

FIO2070_SAME(log_signs, sizeof(struct fio2070_log_signs) == 836);

FIO2070_SAME(log_seam, sizeof(struct fio2070_log_seam) == 16 &&
             offsetof(struct fio2070_log_seam, frame) == 8 &&
             offsetof(struct fio2070_log_seam, cause) == 12 &&
             offsetof(struct fio2070_log_seam, is_lost) == 13 &&
             offsetof(struct fio2070_log_seam, has_pause) == 14 &&
             offsetof(struct fio2070_log_seam, missing) == 15);
#endif

FIO2070_SAME(limits, sizeof(struct fio2070_limits) == 4 &&
             offsetof(struct fio2070_limits, per_block) == 2 &&
             offsetof(struct fio2070_limits, reserved) == 3);

FIO2070_SAME(sized_module, sizeof(struct fio2070_sized_module) == 1056);

FIO2070_SAME(error_counts, sizeof(struct fio2070_error_counts) == 2 &&
             offsetof(struct fio2070_error_counts, transmit) == 1);

FIO2070_SAME(line, sizeof(struct fio2070_line) == 24 &&
             offsetof(struct fio2070_line, answer) == 4 &&
             offsetof(struct fio2070_line, other) == 8 &&
             offsetof(struct fio2070_line, lost) == 12 &&
             offsetof(struct fio2070_line, waiting) == 14 &&
             offsetof(struct fio2070_line, per_block) == 16 &&
             offsetof(struct fio2070_line, inputs) == 17 &&
             offsetof(struct fio2070_line, filter) == 18 &&
             offsetof(struct fio2070_line, stop_bits) == 19 &&
             offsetof(struct fio2070_line, drift) == 20 &&
             offsetof(struct fio2070_line, jitter) == 22);

FIO2070_SAME(pace, sizeof(struct fio2070_pace) == 32 &&
             offsetof(struct fio2070_pace, round) == 8 &&
             offsetof(struct fio2070_pace, late) == 16 &&
             offsetof(struct fio2070_pace, load) == 24);

FIO2070_SAME(poller, sizeof(struct fio2070_poller) == 1);

FIO2070_SAME(record_item, sizeof(struct fio2070_record_item) == 12 &&
             offsetof(struct fio2070_record_item, input) == 1 &&
             offsetof(struct fio2070_record_item, state) == 2 &&
             offsetof(struct fio2070_record_item, reserved) == 3 &&
             offsetof(struct fio2070_record_item, stamp) == 6 &&
             offsetof(struct fio2070_record_item, wide) == 8);

FIO2070_SAME(heard, sizeof(struct fio2070_heard) == 32 &&
             offsetof(struct fio2070_heard, code) == 1 &&
             offsetof(struct fio2070_heard, number) == 2 &&
             offsetof(struct fio2070_heard, status) == 3 &&
             offsetof(struct fio2070_heard, stamp) == 4 &&
             offsetof(struct fio2070_heard, items) == 8 &&
             offsetof(struct fio2070_heard, entries) == 10 &&
             offsetof(struct fio2070_heard, reserved) == 11 &&
             offsetof(struct fio2070_heard, fault) == 16);

FIO2070_SAME(state, sizeof(struct fio2070_state) == 48 &&
             offsetof(struct fio2070_state, raw) == 8 &&
             offsetof(struct fio2070_state, outputs) == 16 &&
             offsetof(struct fio2070_state, counter) == 32 &&
             offsetof(struct fio2070_state, waiting) == 36 &&
             offsetof(struct fio2070_state, flags) == 38 &&
             offsetof(struct fio2070_state, watchdog_ms) == 39 &&
             offsetof(struct fio2070_state, errors) == 40 &&
             offsetof(struct fio2070_state, reserved) == 42);

#ifndef FIO2070_NO_LOG
FIO2070_SAME(log_counts, sizeof(struct fio2070_log_counts) == 5200 &&
             offsetof(struct fio2070_log_counts, polls) == 8 &&
             offsetof(struct fio2070_log_counts, repeats) == 16 &&
             offsetof(struct fio2070_log_counts, unanswered) == 24 &&
             offsetof(struct fio2070_log_counts, marks) == 32 &&
             offsetof(struct fio2070_log_counts, entries) == 40 &&
             offsetof(struct fio2070_log_counts, restarts) == 48 &&
             offsetof(struct fio2070_log_counts, types) == 56 &&
             offsetof(struct fio2070_log_counts, inputs) == 2104 &&
             offsetof(struct fio2070_log_counts, fills) == 3128 &&
             offsetof(struct fio2070_log_counts, sent_at) == 5176 &&
             offsetof(struct fio2070_log_counts, has_sent_at) == 5184 &&
             offsetof(struct fio2070_log_counts, command) == 5185 &&
             offsetof(struct fio2070_log_counts, has_command) == 5186 &&
             offsetof(struct fio2070_log_counts, polled) == 5187 &&
             offsetof(struct fio2070_log_counts, has_polled) == 5188 &&
             offsetof(struct fio2070_log_counts, waits) == 5189 &&
             offsetof(struct fio2070_log_counts, block) == 5190 &&
             offsetof(struct fio2070_log_counts, has_block) == 5191 &&
             offsetof(struct fio2070_log_counts, reset) == 5192 &&
             offsetof(struct fio2070_log_counts, first_reset) == 5193 &&
             offsetof(struct fio2070_log_counts, has_reset) == 5194 &&
             offsetof(struct fio2070_log_counts, reserved) == 5195);

FIO2070_SAME(log_stretches, sizeof(struct fio2070_log_stretches) == 936 &&
             offsetof(struct fio2070_log_stretches, transitions) == 8 &&
             offsetof(struct fio2070_log_stretches, lost) == 16 &&
             offsetof(struct fio2070_log_stretches, missing) == 24 &&
             offsetof(struct fio2070_log_stretches, missing_blocks) == 32 &&
             offsetof(struct fio2070_log_stretches, passed_over) == 40 &&
             offsetof(struct fio2070_log_stretches, unknown) == 48 &&
             offsetof(struct fio2070_log_stretches, restarts) == 56 &&
             offsetof(struct fio2070_log_stretches, disbelieved) == 64 &&
             offsetof(struct fio2070_log_stretches, timed) == 72 &&
             offsetof(struct fio2070_log_stretches, timed_whole) == 80 &&
             offsetof(struct fio2070_log_stretches, stamped) == 88 &&
             offsetof(struct fio2070_log_stretches, stamped_whole) == 96 &&
             offsetof(struct fio2070_log_stretches, loads) == 104 &&
             offsetof(struct fio2070_log_stretches, longest_pause) == 112 &&
             offsetof(struct fio2070_log_stretches, pause) == 120 &&
             offsetof(struct fio2070_log_stretches, polled_at) == 128 &&
             offsetof(struct fio2070_log_stretches, block_at) == 136 &&
             offsetof(struct fio2070_log_stretches, stamp) == 144 &&
             offsetof(struct fio2070_log_stretches, length) == 148 &&
             offsetof(struct fio2070_log_stretches, entries) == 150 &&
             offsetof(struct fio2070_log_stretches, number) == 151 &&
             offsetof(struct fio2070_log_stretches, status) == 152 &&
             offsetof(struct fio2070_log_stretches, has_block) == 153 &&
             offsetof(struct fio2070_log_stretches, has_block_at) == 154 &&
             offsetof(struct fio2070_log_stretches, has_polled_at) == 155 &&
             offsetof(struct fio2070_log_stretches, has_pause) == 156 &&
             offsetof(struct fio2070_log_stretches, is_loaded) == 157 &&
             offsetof(struct fio2070_log_stretches, items) == 158 &&
             offsetof(struct fio2070_log_stretches, reserved) == 931);
#endif

FIO2070_SAME(content_checker, sizeof(struct fio2070_content_checker) == 696);

FIO2070_SAME(counter, sizeof(struct fio2070_counter) == 12);

FIO2070_SAME(filters, sizeof(struct fio2070_filters) == 216);

FIO2070_SAME(outputs, sizeof(struct fio2070_outputs) == 16 &&
             offsetof(struct fio2070_outputs, controls) == 8);

FIO2070_SAME(wire, sizeof(struct fio2070_wire) == 786);

FIO2070_SAME(wire_bits, sizeof(struct fio2070_wire_bits) == 792);
#undef FIO2070_SAME
/* ---- End of the layout ---- */

#ifdef __cplusplus
}
#endif
#endif
