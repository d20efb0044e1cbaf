/* The rules of docs/PROTOCOL.md by which the testers judge an end, and the cases that a run looks for.
 *
 * RULE(name in code, name, source, fields, section, sentence). The sentence is PROTOCOL's. A difference in
 * `fields` alone can be passed over if the rule is excepted; if `fields` is 0, the events that exercise the rule are
 * left out instead. A CASE is not a rule of its own: a run that never meets it has not looked far enough.
 */
#ifndef CONFORMANCE_RULES_H
#define CONFORMANCE_RULES_H

#include <stdint.h>

#ifdef __cplusplus
extern "C" {
#endif

enum rule_end { AT_MODULE, AT_CPU };
enum rule_source { TEES, OWN, CASE };

/* What two answers, or two records, can differ in. */
enum field {
    FIELD_PRESENCE, /* whether there is an answer */
    FIELD_TYPE,
    FIELD_LENGTH,
    FIELD_FLAGS,
    FIELD_ERRORS,
    FIELD_STAMP,  /* of 177, 180 and 181 */
    FIELD_STATUS, /* of 178, 179 and 186 */
    FIELD_INPUTS, /* of 180 and 181 */
    FIELD_NUMBER,
    FIELD_COUNT,
    FIELD_ENTRY,
    FIELD_MORE,
    FIELD_LOST,
    FIELD_AGAIN,
    FIELD_SEQUENCE,
    FIELD_UNNAMED,
    FIELD_BLOCK_STAMP,
    FIELD_REPEAT, /* of a block that is sent again, all but E */
    FIELD_BODY,   /* of 183 and 188 */
    FIELD_OUTPUTS,
    FIELD_TIMEOUT,
    FIELD_POLL,
    FIELD_NEXT_NUMBER, /* of the CPU's next poll */
    FIELD_ITEMS,       /* how many the record gained */
    FIELD_GAP,
    FIELD_ITEM,
    FIELD_WIDE,
    FIELD_FAILURE, /* the end under test crashed or hung */
    FIELDS
};
#define FIELD_BIT(field) (UINT32_C(1) << FIELD_##field)

#define CONFORMANCE_MODULE_RULES(RULE) \
    RULE(ANSWER_TYPE, "answer-type", TEES, 0, "Frames", "The type of an answer is the type of its command plus 128.") \
    RULE(FRAME_LENGTH, "frame-length", OWN, 0, "Frames", "A frame holds 1 to 773 octets.") \
    RULE(EMPTY_FRAME, "empty-frame", OWN, 0, "Refusals", "there is no octet") \
    RULE(FRAME_TOO_LONG, "frame-too-long", OWN, 0, "Refusals", "there are more than 773 octets") \
    RULE(UNKNOWN_TYPE, "unknown-type", OWN, 0, "Refusals", "the first octet is no type of that direction") \
    RULE(WRONG_LENGTH, "wrong-length", OWN, 0, "Refusals", "the number of octets is not what type and count need") \
    RULE(COUNTER_AT_START, "counter-at-start", OWN, 0, "Counter", "It is 0 at the start.") \
    RULE(COUNTER_BITS, "counter-bits", TEES, 0, "Counter", "The module has a counter of 32 bits, in milliseconds.") \
    RULE(COUNTER_STEP, "counter-step", OWN, 0, "Counter", "A scan first steps the counter by one") \
    RULE(COUNTER_AROUND, "counter-around", OWN, 0, "Counter", \
         "A scan first steps the counter by one, from 4,294,967,295 to 0") \
    RULE(LOAD_AT_SYNC, "load-at-sync", TEES, 0, "Counter", \
         "Command 50 asks for a load: when LINESYNC next goes from 0 to 1, the counter is set to that number.") \
    RULE(LOAD_ANSWER, "load-answer", OWN, FIELD_BIT(STATUS) | FIELD_BIT(PRESENCE), "Counter", \
         "The answer 178 goes out when the command is received, with S = 0.") \
    RULE(LATER_LOAD, "later-load", OWN, 0, "Counter", \
         "A further 50 before LINESYNC goes from 0 to 1 takes the place of the earlier one.") \
    RULE(SYNC_ALONE, "sync-alone", TEES, 0, "Counter", "If no load is asked for, LINESYNC changes nothing.") \
    RULE(LEADING_FILTER, "leading-filter", TEES, 0, "Filters", \
         "A filtered state goes from 1 to 0 when the input's latest L samples are all 0, L being its leading filter") \
    RULE(TRAILING_FILTER, "trailing-filter", TEES, 0, "Filters", \
         "from 0 to 1 when its latest T samples are all 1, T being its trailing filter.") \
    RULE(FILTER_OF_ZERO, "filter-of-zero", OWN, 0, "Filters", "A filter of 0 disables filtering: it acts as a filter of 1.") \
    RULE(FILTERS_AT_START, "filters-at-start", OWN, 0, "Filters", \
         "At the start both filters of each input are 5, each input is ignored, and each filtered state is 1.") \
    RULE(SAMPLES_ANEW, "samples-anew", OWN, 0, "Filters", \
         "Samples before the start, or before the input was last configured, do not count.") \
    RULE(IGNORED_INPUT, "ignored-input", TEES, 0, "Filters", \
         "The filtered state of an ignored input moves like any other; its transitions are not reported.") \
    RULE(RAW_AT_START, "raw-at-start", OWN, 0, "Filters", "The raw levels are those of the last scan, and all 1 before any.") \
    RULE(ABSENT_INPUT, "absent-input", OWN, 0, "Configuration", \
         "If any item of a 51 names an input above 63, nothing changes and the answer has S = 1.") \
    RULE(ITEMS_APPLY, "items-apply", OWN, 0, "Configuration", \
         "Otherwise all items apply, in their order, and the answer has S = 0.") \
    RULE(ITEM_SETS, "item-sets", OWN, 0, "Configuration", \
         "An item that applies sets the input's ignore flag and both filters") \
    RULE(LAST_ITEM_HOLDS, "last-item-holds", OWN, 0, "Configuration", "So the last of several items for one input holds.") \
    RULE(ENTRY, "entry", TEES, 0, "Waiting entries", \
         "Each transition of an input that is not ignored becomes an entry, with the state after it and the low 16 " \
         "bits of the counter at that scan") \
    RULE(ENTRY_ORDER, "entry-order", TEES, 0, "Waiting entries", \
         "those of one scan in ascending order of inputs. It waits after the earlier ones.") \
    RULE(MOST_WAITING, "most-waiting", TEES, 0, "Waiting entries", "At most 1,024 entries wait.") \
    RULE(PUSHED_OUT, "pushed-out", OWN, 0, "Waiting entries", "One more pushes out the oldest.") \
    RULE(KEPT_APART, "kept-apart", OWN, 0, "Waiting entries", \
         "The block that was sent last is kept apart from the waiting entries.") \
    RULE(SENT_AGAIN, "sent-again", TEES, FIELD_BIT(AGAIN), "Polls", "The block that was sent last is sent again with E set.") \
    RULE(REPEAT, "repeat", OWN, FIELD_BIT(REPEAT), "Polls", \
         "It repeats the number, the entries, C, F and the stamp of the first sending, and G is clear.") \
    RULE(NEW_BLOCK, "new-block", TEES, FIELD_BIT(UNNAMED), "Polls", "The old block is given up and a new one is made.") \
    RULE(SEQUENCE, "out-of-sequence", TEES, FIELD_BIT(SEQUENCE), "Polls", \
         "G is set exactly if the number is not the one before plus one") \
    RULE(AFTER_255, "zero-after-255", TEES, FIELD_BIT(SEQUENCE), "Polls", \
         "G is set exactly if the number is not the one before plus one, with 0 after 255.") \
    RULE(CURRENT_NUMBER, "current-number", TEES, FIELD_BIT(SEQUENCE), "Polls", \
         "The number is the current one from then on, also out of sequence.") \
    RULE(FIRST_POLL, "first-poll", OWN, FIELD_BIT(SEQUENCE) | FIELD_BIT(AGAIN), "Polls", "makes a new block, and G is clear.") \
    RULE(BLOCK_SIZE, "block-size", TEES, 0, "Polls", \
         "A new block takes the oldest 255 waiting entries, or all if fewer wait.") \
    RULE(MORE, "more", TEES, FIELD_BIT(MORE), "Polls", "C is set exactly if more than 255 waited.") \
    RULE(LOST, "lost", OWN, FIELD_BIT(LOST), "Polls", \
         "F is set exactly if an entry was pushed out since the block before was made, or, for the first block, " \
         "since the start.") \
    RULE(BLOCK_STAMP, "block-stamp", TEES, FIELD_BIT(BLOCK_STAMP), "Polls", \
         "The stamp of a new block is the counter when it is made.") \
    RULE(BLOCK_NUMBER, "block-number", TEES, FIELD_BIT(NUMBER), "Polls", "The answer carries the number that was asked for.") \
    RULE(FLAGS_CLEARED, "flags-cleared", OWN, FIELD_BIT(FLAGS), "Other commands", \
         "the flags whose bits are one are cleared, then 177 carries those that are left.") \
    RULE(ERROR_COUNTS, "error-counts", OWN, FIELD_BIT(ERRORS), "Other commands", \
         "Both error counts are 0 unless the firmware sets them.") \
    RULE(FLAGS_AT_START, "flags-at-start", OWN, FIELD_BIT(FLAGS), "Other commands", \
         "At the start P is the only flag that is set.") \
    RULE(INPUTS_ANSWER, "inputs-answer", TEES, FIELD_BIT(INPUTS), "Other commands", \
         "180 carries the raw levels, 181 the filtered states, each with the counter.") \
    RULE(OUTPUTS_KEPT, "outputs-kept", OWN, FIELD_BIT(OUTPUTS), "Other commands", \
         "the data and control octets are kept, all 0 at the start.") \
    RULE(OUTPUTS_ANSWER, "outputs-answer", OWN, FIELD_BIT(BODY) | FIELD_BIT(PRESENCE), "Other commands", \
         "The body of 183 is the octet 0 and then the stamp: a frame of six octets.") \
    RULE(WATCHDOG_TIMEOUT, "watchdog-timeout", TEES, FIELD_BIT(TIMEOUT), "Other commands", \
         "the timeout is set; less than 10 ms counts as 10, and more than 100 ms as 100.") \
    RULE(WATCHDOG_BEFORE, "watchdog-before", TEES, FIELD_BIT(STATUS), "Other commands", "Y says whether an earlier 58 came.") \
    RULE(IDENTIFICATION, "identification", OWN, FIELD_BIT(BODY), "Other commands", \
         "188 has one octet, which the maker of the module chooses.") \
    RULE(NO_ANSWER, "no-answer", OWN, FIELD_BIT(PRESENCE), "Other commands", \
         "56, 57 and 59 get no answer and change nothing.") \
    RULE(REFUSED, "refused", OWN, 0, "Other commands", "Octets that spell no command get no answer and change nothing.") \
    RULE(RESTART, "restart", OWN, 0, "Restarts", "A restart leaves the module as it was when it was made") \
    RULE(RESTART_LOSES, "restart-loses", OWN, 0, "Restarts", "the waiting entries and the kept block are lost") \
    RULE(RESTART_LOAD, "restart-load", OWN, 0, "Restarts", "so is a load that was asked for and has not happened") \
    RULE(RESTART_POLL, "restart-poll", OWN, 0, "Restarts", "the next poll is a first one.") \
    RULE(CASE_LONG_FILTER, "filters of 200 to 254 that run out", CASE, 0, "Filters", "") \
    RULE(CASE_FILTER_255, "filters of 255 that run out", CASE, 0, "Filters", "") \
    RULE(CASE_65_ITEMS, "configurations of over 64 items", CASE, 0, "Configuration", "") \
    RULE(CASE_255_ITEMS, "configurations of 255 items", CASE, 0, "Configuration", "") \
    RULE(CASE_LONG_COMMAND, "commands of over 256 octets", CASE, 0, "Commands", "") \
    RULE(CASE_LONG_REFUSED, "frames of over 256 octets that are refused", CASE, 0, "Refusals", "") \
    RULE(CASE_FULL_BLOCK, "answers of 773 octets", CASE, 0, "Frames", "") \
    RULE(CASE_256_BLOCKS, "blocks after 256 others since the start", CASE, 0, "Polls", "") \
    RULE(CASE_130_POLLS, "polls after 130 others since the start", CASE, 0, "Polls", "") \
    RULE(CASE_500_SCANS, "scans after 500 others since the start", CASE, 0, "Counter", "") \
    RULE(CASE_30000_ENTRIES, "entries after 30,000 others since the start", CASE, 0, "Waiting entries", "")

#define CONFORMANCE_CPU_RULES(RULE) \
    RULE(POLL_NUMBER, "poll-number", OWN, 0, "The CPU", "The CPU keeps one block number, and each poll carries it.") \
    RULE(SAME_UNTIL_TAKEN, "same-until-taken", OWN, 0, "The CPU", "until then each poll asks for the same block again.") \
    RULE(NUMBER_RISES, "number-rises", OWN, FIELD_BIT(NEXT_NUMBER), "The CPU", \
         "It rises by one, with 0 after 255, only when an answer with that number is taken") \
    RULE(NUMBER_AROUND, "number-around", OWN, FIELD_BIT(NEXT_NUMBER), "The CPU", "It rises by one, with 0 after 255") \
    RULE(UNREADABLE, "unreadable", OWN, 0, "The CPU", "spells no answer") \
    RULE(OTHER_ANSWER, "other-answer", OWN, 0, "The CPU", "is an answer of another type than 182") \
    RULE(STALE, "stale", OWN, 0, "The CPU", "is a 182 with another number than the CPU's") \
    RULE(TAKEN_ONCE, "taken-once", OWN, 0, "The CPU", "So an answer that comes twice is taken once") \
    RULE(BLOCK_LENGTH, "block-length", OWN, 0, "Frames", "773 is the length of a block answer with 255 entries.") \
    RULE(TAKEN_WHOLE, "taken-whole", OWN, FIELD_BIT(ITEMS), "The CPU", "the block is taken whole, and the number rises") \
    RULE(EMPTY_BLOCK, "empty-block", OWN, 0, "The CPU", "only when an answer with that number is taken") \
    RULE(GAP_MARK, "gap-mark", OWN, FIELD_BIT(GAP) | FIELD_BIT(ITEMS), "The CPU", \
         "Taking a block appends one gap mark if F is set") \
    RULE(ITEMS_IN_ORDER, "items-in-order", OWN, FIELD_BIT(ITEM), "The CPU", "and then all of its entries in order.") \
    RULE(HIGH_INPUT, "high-input", OWN, 0, "Answers", "It may name an input above 63 too: the message is still valid.") \
    RULE(UNNAMED_BITS, "unnamed-bits", OWN, 0, "Bits of flags and statuses", \
         "are kept as received, in both directions, and are never a reason to refuse a message") \
    RULE(WIDE_TIME, "wide-time", OWN, FIELD_BIT(WIDE), "The CPU", \
         "the one number that has the entry's 16 bits as its low 16 bits and lies fewer than 65,536 steps before the " \
         "stamp or at it") \
    RULE(WIDE_AROUND, "wide-around", OWN, FIELD_BIT(WIDE), "The CPU", \
         "lies fewer than 65,536 steps before the stamp or at it, counting back from 0 to 4,294,967,295.") \
    RULE(CASE_LONG_BLOCK, "blocks of over 85 entries, over 256 octets", CASE, 0, "The CPU", "") \
    RULE(CASE_WHOLE_BLOCK, "blocks of 255 entries with a gap mark", CASE, 0, "The CPU", "") \
    RULE(CASE_LONG_UNREADABLE, "frames of over 256 octets that spell no answer", CASE, 0, "The CPU", "") \
    RULE(CASE_256_TAKEN, "blocks taken after 256 others since the start", CASE, 0, "The CPU", "") \
    RULE(CASE_30000_ITEMS, "items after 30,000 others since the start", CASE, 0, "The CPU", "")

#define CONFORMANCE_RULE_NAME(code, name, source, fields, section, sentence) RULE_##code,
enum rule { CONFORMANCE_MODULE_RULES(CONFORMANCE_RULE_NAME) CONFORMANCE_CPU_RULES(CONFORMANCE_RULE_NAME) RULES };

struct rule_row {
    enum rule_end end;
    const char *name;
    enum rule_source source;
    uint32_t fields;
    const char *section, *sentence;
};

extern const struct rule_row CONFORMANCE_RULE_ROWS[RULES];

/* A good frame with more octets than a configuration of each input once exercises the rules of the lengths of frames. */
enum { CONFORMANCE_SHORT_FRAME = 2 + 3 * 64 };

struct rule_set {
    uint64_t words[2];
};

void conformance_put(struct rule_set *set, enum rule rule);
int conformance_has(const struct rule_set *set, enum rule rule);
int conformance_meets(const struct rule_set *one, const struct rule_set *other);
void conformance_join(struct rule_set *set, const struct rule_set *other);

/* The rule of this name, or RULES. */
enum rule conformance_rule_named(const char *name);

/* "TEES 2009" or "own profile". */
const char *conformance_source(enum rule rule);

/* Whether the rule is this project's own, so that it may be excepted. */
int conformance_is_own(enum rule rule);

#ifdef __cplusplus
}
#endif
#endif
