"""Wrong translators for tests/portable.py: one rule of tools/portable is changed at a time, and a comparison has to notice
it. The usual ones are one of each family of instructions."""

import os
import shutil
from typing import NamedTuple


class Wrong(NamedTuple):
    """A text of a file, and a wrong one to replace it."""
    file: str
    right: str
    wrong: str
    usual: bool = False
    # It is in what compilers other than gcc and clang take.
    is_plain: bool = False


RULES, FUNCTIONS, ACCESSES, LOOPS, PARTS = 'instructions.py', 'functions.py', 'accesses.py', 'loops.py', 'parts.py'
AHEAD, MACHINE, CALLS = 'ahead.py', 'machine.c', 'calls.c'
WRONG = [
    ('is zero', Wrong(RULES, "'({0} == 0)'", "'({0} != 0)'", True)),
    ('less', Wrong(RULES, "'({0} < {1})'", "'({0} <= {1})'")),
    ('greater', Wrong(RULES, "'({0} > {1})'", "'({0} >= {1})'")),
    ('at most', Wrong(RULES, "'({0} <= {1})'", "'({0} < {1})'")),
    ('at least', Wrong(RULES, "'({0} >= {1})'", "'({0} > {1})'")),
    ('greater, signed', Wrong(RULES, "'(SIGNED{n}({0}) > SIGNED{n}({1}))'", "'({0} > {1})'")),
    ('sum', Wrong(RULES, "'{0} + {1}'", "'{0} + {1} + 1'")),
    ('difference', Wrong(RULES, "'{0} - {1}'", "'{1} - {0}'", True)),
    ('product', Wrong(RULES, "'{0} * {1}'", "'{0} + {1}'")),
    ('and', Wrong(RULES, "'{0} & {1}'", "'{0} | {1}'")),
    ('exclusive or', Wrong(RULES, "'{0} ^ {1}'", "'{0} | {1}'", True)),
    ('shift to the left', Wrong(RULES, "'{0} << ({1} & {m})'", "'{0} << ({1} & 15)'", True)),
    ('shift to the right', Wrong(RULES, "'{0} >> ({1} & {m})'", "'{0} >> ({1} & 15)'")),
    ('rotation', Wrong(RULES, "'rotate{n}({0}, 0u - {1})'", "'rotate{n}({0}, {1})'", True)),
    ('quotient', Wrong(RULES, "'divide{n}({0}, {1})'", "'divide{n}({0} + 1, {1})'", True)),
    ('widening', Wrong(RULES, "'(uint64_t){0}'", "'extend({0}, 31)'")),
    ('choice', Wrong(FUNCTIONS, "(condition, self.pop(kind), second)", "(condition, second, self.pop(kind))", True)),
    ('branch', Wrong(FUNCTIONS, "'if (%s) { %s }'", "'if (!%s) { %s }'", True)),
    ('copy', Wrong(MACHINE, "source, (size_t)count)", "source, (size_t)count - 1)", True)),
    ('fill', Wrong(MACHINE, "(int)(value & 255)", "1")),
    ('number as a whole', Wrong(MACHINE, "memcpy(&number, p, sizeof number)", "number = 0; memcpy(&number, p, sizeof number / 2)", True)),
    ('store as a whole', Wrong(MACHINE, "memcpy(p, &number, sizeof number)", "memcpy(p, &number, sizeof number / 2)", True)),
    ('test of an access', Wrong(MACHINE, "place + size <= it->most", "place + size < it->most", True)),
    ('first address of the data', Wrong(MACHINE, "(uint32_t)address - it->first", "(uint32_t)address", True)),
    ('stack of a call', Wrong(CALLS, "machine.g0 = ((uint64_t)1 << 32) + sizeof stack", "machine.g0 = ((uint64_t)1 << 32) + sizeof stack - 16", True)),
    ('offset', Wrong(ACCESSES, "self.place.distance + self.offset", "self.place.distance + (self.offset & 63)", True)),
    ('distance', Wrong(ACCESSES, "(one.distance + other.distance + 2 ** 63)", "(one.distance + 2 ** 63)", True)),
    ('pointers after a block', Wrong(ACCESSES, "if it.depth < depth]", "if it.depth <= depth]", True)),
    ('numbers in a loop', Wrong(FUNCTIONS, "        self.forget(assigned)\n", "", True)),
    ('numbers after a block', Wrong(FUNCTIONS, "            self.forget(block['assigned'])\n", "            pass\n", True)),
    ('step of a loop', Wrong(ACCESSES, "'%s += %d;' % (pointer, step)", "'%s += %d;' % (pointer, step + 1)", True)),
    ('first turn of a loop', Wrong(ACCESSES, "(start - name[1]) % 2", "(start - name[1] + 1) % 2", True)),
    ('data that instructions name', Wrong(PARTS, "if self.address <= number < self.end}", "if self.address < number < self.end - 512}", True)),
    ('data that data names', Wrong(PARTS, "further = names | self.pointers(first, end, foreign)", "further = names", True)),
    ('functions of functions', Wrong(PARTS, "for it in found)) for name", "for it in [dict(module.exports)[name]])) for name", True)),
    ('field of a result', Wrong(CALLS, "header->stamp = get32(into + 4);", "header->stamp = get32(into + 3);", True)),
]

# Those that tests/portable-instructions.py finds: the library never runs into the difference, or x86-64 does not.
UNSEEN = [
    ('load of 16', Wrong(MACHINE, "return p[0] | (uint32_t)p[1] << 8;", "return p[1] | (uint32_t)p[0] << 8;", is_plain=True)),
    ('load of 32', Wrong(MACHINE, "(uint32_t)p[2] << 16 | (uint32_t)p[3] << 24;",
                         "(uint32_t)p[3] << 16 | (uint32_t)p[2] << 24;", is_plain=True)),
    ('load of 64', Wrong(MACHINE, "(uint32_t)p[5] << 8", "(uint32_t)p[6] << 8", is_plain=True)),
    ('store of 16', Wrong(MACHINE, "p[1] = (uint8_t)(value >> 8);", "", is_plain=True)),
    ('store of 32', Wrong(MACHINE, "p[3] = (uint8_t)(v >> 24);\n}", "}", is_plain=True)),
    ('store of 64', Wrong(MACHINE, "p[7] = (uint8_t)(w >> 24);", "", is_plain=True)),
    ('less, signed', Wrong(RULES, "'(SIGNED{n}({0}) < SIGNED{n}({1}))'", "'({0} < {1})'")),
    ('narrowing', Wrong(RULES, "'(uint32_t){0}'", "'(uint16_t){0}'")),
    ('zeros of the high half', Wrong(MACHINE, "32 + trailing32(", "31 + trailing32(")),
    ('shift to the right, signed', Wrong(MACHINE, "(x >> 63 ? ~(~UINT64_C(0)", "(x >> 62 ? ~(~UINT64_C(0)")),
    ('test before a branch', Wrong(FUNCTIONS, "    def branch(self, depth):\n        self.settle()\n", "    def branch(self, depth):\n")),
    ('what a branch passes over', Wrong(FUNCTIONS, "'if (!%s) {'", "'if (%s) {'")),
    ('tests in what a branch passes over', Wrong(FUNCTIONS, " or block['braces'] > 0)", ")")),
    ('end of a straight loop', Wrong(FUNCTIONS, "'if (!%s) break;'", "'if (%s) break;'")),
    ('length of a test', Wrong(ACCESSES, "address, size)\n        lines[first", "address, 1)\n        lines[first")),
    ('size of a test', Wrong(MACHINE, "(uint64_t)place + size <= it->most", "place < it->most")),
    ('end of a test that wraps', Wrong(MACHINE, "(uint64_t)place + size <= it->most", "place + size <= it->most")),
    ('object beyond the last', Wrong(MACHINE, "number <= m->count", "number < WINDOWS")),
    ('store to what is read', Wrong(MACHINE, "PLACE_IN(write_at, writable)", "PLACE_IN(write_at, length)")),
    ('locals of a small function', Wrong(FUNCTIONS, "            self.say('v%d = 0;' % index)", "            pass")),
    ('parameters of a small function', Wrong(FUNCTIONS, "enumerate(given):", "enumerate(given[::-1]):")),
    ('return of a small function', Wrong(FUNCTIONS, "len(self.blocks) - 1 - self.outermost", "len(self.blocks) - 1")),
    ('what is small', Wrong(AHEAD, "0x10, 0x23, ", "0x10, ")),
    ('number of an argument', Wrong(MACHINE, "(uint32_t)(address >> 32)", "(uint32_t)(address >> 40)")),
    ('turns of a loop', Wrong(MACHINE, "size + step * (uint32_t)(turns - 1);", "size;")),
    ('turns without end', Wrong(MACHINE, "turns - 1 > 0xFFFFFFFFu || ", "")),
    ('steps past the end', Wrong(MACHINE, "if ((to - from) % step) fio2070_trap();", "")),
    ('when a loop compares', Wrong(LOOPS, "== self.places_of(moved.base).distance + step", "!= 2 ** 70")),
    ('local that a loop moves', Wrong(LOOPS, "if it == place and index not in self.assigned", "if it.base == place.base")),
]


def changed(source, folder, wrong):
    """Copies the translator into a folder, with one rule changed."""
    shutil.copytree(source, folder)
    path = os.path.join(folder, wrong.file)
    with open(path, encoding='utf-8') as file:
        text = file.read()
    if wrong.right not in text:
        raise ValueError('%s has no %r' % (wrong.file, wrong.right))
    with open(path, 'w', encoding='utf-8') as file:
        file.write(text.replace(wrong.right, wrong.wrong, 1))
