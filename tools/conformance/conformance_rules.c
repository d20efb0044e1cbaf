/* The table of rules, and sets of them. */
#include "conformance_rules.h"

#include <string.h>

#define MODULE_ROW(code, name, source, fields, section, sentence) {AT_MODULE, name, source, fields, section, sentence},
#define CPU_ROW(code, name, source, fields, section, sentence) {AT_CPU, name, source, fields, section, sentence},
const struct rule_row CONFORMANCE_RULE_ROWS[RULES] = {CONFORMANCE_MODULE_RULES(MODULE_ROW) CONFORMANCE_CPU_RULES(CPU_ROW)};

void conformance_put(struct rule_set *set, enum rule rule) { set->words[rule / 64] |= UINT64_C(1) << rule % 64; }

int conformance_has(const struct rule_set *set, enum rule rule) {
    return (int)(set->words[rule / 64] >> rule % 64 & 1);
}

int conformance_meets(const struct rule_set *one, const struct rule_set *other) {
    return (one->words[0] & other->words[0]) != 0 || (one->words[1] & other->words[1]) != 0;
}

void conformance_join(struct rule_set *set, const struct rule_set *other) {
    set->words[0] |= other->words[0];
    set->words[1] |= other->words[1];
}

enum rule conformance_rule_named(const char *name) {
    int rule;
    for (rule = 0; rule < RULES; rule++) {
        if (strcmp(CONFORMANCE_RULE_ROWS[rule].name, name) == 0) break;
    }
    return (enum rule)rule;
}

int conformance_is_own(enum rule rule) { return rule < RULES && CONFORMANCE_RULE_ROWS[rule].source == OWN; }

const char *conformance_source(enum rule rule) {
    return CONFORMANCE_RULE_ROWS[rule].source == TEES ? "TEES 2009" : "own profile";
}
