"""A function of the module as a function of C. The entries of WebAssembly's stack are variables, named after their height
and width: `i3` has 32 bits, `j3` has 64. Locals are v0, v1, ..; blocks end in labels; p1, p2, .. lead to octets that were
tested."""

import re

from accesses import NOTHING, Accesses, Place
from ahead import assigned_in, is_small, skip
from instructions import I32, I64, LETTER, LOADS, NUMERIC, STORES, TYPES
from loops import Comparison, Loop, is_straight
from module import Refused

ADD_64, SUBTRACT_64 = 0x7C, 0x7D
IS_ZERO_32, IS_ZERO_64, IS_OTHER_64 = 0x45, 0x50, 0x52
# The most braces in each other: every C99 compiler takes 127, and some no more.
MOST_BRACES = 100


class Function:
    """A function, translated as it is read."""

    def __init__(self, module, index):
        self.module, self.index = module, index
        self.takes, self.gives = module.types[module.functions[index]]
        self.locals = list(self.takes)
        self.lines, self.stack, self.variables = [], [], {}
        self.blocks, self.labels, self.used = [], 0, set()
        # The first local of the function whose body is read, and the number of its outermost block: of this function, or of a
        # small one that it calls.
        self.first, self.outermost = 0, 0
        # Its greatest frame, the functions that it calls, and the numbers in its instructions: addresses may be among them.
        self.frame, self.calls, self.numbers = 0, set(), set()
        self.accesses = Accesses()
        # What is known of the numbers in the locals, and of the stack pointer as long as nothing changes it.
        self.places = [self.accesses.fresh() for _ in self.takes]
        self.stack_pointer, self.is_moved = self.accesses.fresh(), False
        self.frame_test = None
        self.begin('function', self.gives)
        self.read(module.codes[index].copy())

    def say(self, text):
        self.lines.append(text)

    # ---- The stack ----

    def push(self, kind, text, place=None):
        name = '%s%d' % (LETTER[kind], len(self.stack))
        self.variables[name] = kind
        self.stack.append((kind, name, place or self.accesses.fresh()))
        self.say('%s = %s;' % (name, text))

    def pop_entry(self, kind=None):
        if len(self.stack) <= self.blocks[-1]['height']:
            raise Refused('an empty stack in function %d' % self.index)
        have, name, place = self.stack.pop()
        if kind not in (None, have):
            raise Refused('a wrong type in function %d' % self.index)
        return name, place

    def pop(self, kind=None):
        return self.pop_entry(kind)[0]

    def pops(self, kinds):
        return [self.pop(kind) for kind in reversed(kinds)][::-1]

    # ---- Blocks ----

    def begin(self, kind, results):
        self.labels += 1
        self.blocks.append({'kind': kind, 'results': results, 'height': len(self.stack), 'label': self.labels,
                            'braces': 0, 'assigned': set(), 'places': list(self.places)})

    def settle(self):
        """Settles the accesses: what follows is not always done after what comes before."""
        self.accesses.settle(self.lines)

    def forget(self, assigned):
        """Forgets what is known of these locals."""
        for index in assigned:
            self.places[index] = self.accesses.fresh()

    def branch(self, depth):
        self.settle()
        block = self.blocks[-1 - depth]
        if block['kind'] != 'loop':
            self.move(block)
        if block['kind'] == 'function':
            return 'return%s;' % (' r' if self.gives else '')
        self.used.add(block['label'])
        return 'goto l%d;' % block['label']

    def move(self, block):
        """Moves the results of a block to the variables that they have after it."""
        if block['kind'] == 'function':
            if self.gives:
                self.say('r = %s;' % self.stack[-1][1])
            return
        for place, kind in enumerate(block['results']):
            source = self.stack[len(self.stack) - len(block['results']) + place][1]
            target = '%s%d' % (LETTER[kind], block['height'] + place)
            self.variables[target] = kind
            if source != target:
                self.say('%s = %s;' % (target, source))

    def can_nest(self):
        """Returns whether what a branch to the end of this block passes over may be in braces."""
        block = self.blocks[-1]
        return block['kind'] == 'block' and not block['results'] and sum(it['braces'] for it in self.blocks) < MOST_BRACES

    def is_in_loop(self):
        return any(it['kind'] == 'loop' for it in self.blocks)

    def block_type(self, it):
        value = it.number(signed=True)
        if value == -64:
            return []
        if value in (-1, -2):
            return [value & 127]
        raise Refused('a block with parameters in function %d' % self.index)

    def end_block(self, reachable):
        """Ends a block. Returns whether what follows it can be reached."""
        block = self.blocks[-1]
        is_joined = block['kind'] in ('if', 'else') or block['kind'] != 'loop' and (block['label'] in self.used or block['braces'] > 0)
        if is_joined or block['kind'] == 'function':
            self.settle()
        if reachable:
            self.move(block)
        if block['kind'] == 'function' and self.gives and (reachable or not self.lines or not self.lines[-1].startswith('return')):
            self.say('return r;')
        del self.stack[block['height']:]
        self.accesses.leave(len(self.blocks), is_joined)
        self.blocks.pop()
        if self.blocks:
            self.blocks[-1]['assigned'] |= block['assigned']
        if is_joined:
            self.forget(block['assigned'])
        self.lines += ['}'] * block['braces']
        if block['kind'] == 'if':
            self.say('e%d:;' % block['label'])
        if block['kind'] in ('block', 'if', 'else') and block['label'] in self.used:
            self.say('l%d:;' % block['label'])
        for place, kind in enumerate(block['results']):
            self.stack.append((kind, '%s%d' % (LETTER[kind], block['height'] + place), self.accesses.fresh()))
        return reachable or is_joined

    def begin_else(self, reachable):
        block = self.blocks[-1]
        self.settle()
        self.accesses.leave(len(self.blocks), True)
        self.places[:len(block['places'])] = block['places']
        if reachable:
            self.move(block)
        self.used.add(block['label'])
        self.say('goto l%d;' % block['label'])
        self.say('e%d:;' % block['label'])
        del self.stack[block['height']:]
        block['kind'] = 'else'

    # ---- Reading ----

    def read_locals(self, it):
        """Reads the locals of a function after its parameters. Returns them."""
        known = len(self.locals)
        for _ in range(it.number()):
            count, kind = it.number(), it.octet()
            if kind not in TYPES:
                raise Refused('a local that is no integer in function %d' % self.index)
            self.locals += [kind] * count
            self.places += [Place(NOTHING, 0)] * count
        return range(known, len(self.locals))

    def read(self, it):
        """Reads a function's locals, which are 0 at first, and its body, whose block has begun. Returns whether its end can be
        reached."""
        added, reachable = self.read_locals(it), True
        for index in added if self.outermost else ():
            self.say('v%d = 0;' % index)
        while len(self.blocks) > self.outermost:
            op = it.octet()
            if op == 0x0B:
                reachable = self.end_block(reachable)
            elif op == 0x05:
                self.begin_else(reachable)
                reachable = True
            else:
                reachable = self.step(op, it)
            if not reachable and len(self.blocks) > self.outermost:
                skip(it)
        if it.place != it.end:
            raise Refused('octets after function %d' % self.index)
        return reachable

    # ---- Instructions ----

    def step(self, op, it):
        """Translates an instruction. Returns whether the next one can be reached."""
        if op in (ADD_64, SUBTRACT_64):
            return self.sum(op)
        if op in NUMERIC:
            text, kinds, result = NUMERIC[op]
            given = [self.pop_entry(kind) for kind in reversed(kinds)][::-1]
            self.push(result, text.format(*[name for name, _ in given]), self.comparison(op, [place for _, place in given]))
            return True
        if op in LOADS:
            return self.load(*LOADS[op], it)
        if op in STORES:
            return self.store(*STORES[op], it)
        if op not in STEPS:
            raise Refused('instruction 0x%02x in function %d' % (op, self.index))
        return STEPS[op](self, op, it) is not False

    def comparison(self, op, places):
        """Returns what is known of a number that this instruction makes of others."""
        if op == IS_ZERO_32 and isinstance(places[0], Comparison):
            return places[0].opposite()
        if op == IS_ZERO_64:
            return Comparison(places[0], Place(NOTHING, 0), True)
        return Comparison(*places, False) if op == IS_OTHER_64 else None

    def sum(self, op):
        """Returns a sum or a difference of 64 bits, of which more is known than that it is a number. What is
        subtracted from the stack pointer is the size of the function's frame."""
        (second, other), (first, one) = self.pop_entry(I64), self.pop_entry(I64)
        place = None
        if op == ADD_64:
            place = self.accesses.sum_of(one, other)
        elif other.base == NOTHING:
            place = self.accesses.sum_of(one, Place(NOTHING, -other.distance))
        self.push(I64, NUMERIC[op][0].format(first, second), place)
        if op == SUBTRACT_64 and one == self.stack_pointer and other.base == NOTHING:
            self.frame = max(self.frame, other.distance)
            pointer = self.accesses.frame(place, other.distance, len(self.blocks))
            self.frame_test = len(self.lines)
            self.say('%s = write_at(%s, m, %du);' % (pointer, self.stack[-1][1], other.distance))
        return True

    def access(self, address, place, size, offset, writes):
        """Returns the mark of a pointer to these octets, which the next line has."""
        return self.accesses.add(len(self.lines), address, place, size, writes, len(self.blocks), offset)

    def load(self, size, sign, kind, it):
        it.number()
        offset, (address, place) = it.number(), self.pop_entry(I64)
        self.numbers.add(offset)
        text = 'load%d(%s)' % (8 * size, self.access(address, place, size, offset, False))
        if sign:
            text = '(%s)extend(%s, %d)' % (TYPES[kind], text, sign)
        self.push(kind, text)
        return True

    def store(self, size, kind, it):
        it.number()
        offset, value, (address, place) = it.number(), self.pop(kind), self.pop_entry(I64)
        self.numbers.add(offset)
        self.say('store%d(%s, %s);' % (8 * size, self.access(address, place, size, offset, True), value))
        return True

    def trap(self, op, it):
        self.settle()
        self.say('fio2070_trap();')
        return False

    def block(self, op, it):
        self.begin('block', self.block_type(it))

    def loop(self, op, it):
        results, assigned = self.block_type(it), assigned_in(it)
        if is_straight(it):
            self.settle()
        self.begin('loop', results)
        self.forget(assigned)
        if is_straight(it):
            self.blocks[-1]['loop'] = Loop(len(self.lines), list(self.places), assigned)
        self.say('for (;;) {' if 'loop' in self.blocks[-1] else 'l%d:;' % self.labels)

    def end_turn(self, condition, place):
        """Ends a straight loop, which goes on as long as this holds, and moves pointers on."""
        loop = self.blocks[-1]['loop']
        loop.measure(self.places)
        moves = self.accesses.settle_turns(loop, loop.turns(place), self.lines)
        self.settle()
        self.lines += ['if (!%s) break;' % condition, *moves, '}']

    def condition(self, op, it):
        results = self.block_type(it)
        condition = self.pop(I32)
        self.settle()
        self.begin('if', results)
        self.say('if (!%s) goto e%d;' % (condition, self.labels))

    def go(self, op, it):
        self.say(self.branch(it.number()))
        return False

    def go_if(self, op, it):
        (condition, place), depth = self.pop_entry(I32), it.number()
        if 'loop' in self.blocks[-1]:
            self.end_turn(condition, place)
        elif depth == 0 and self.can_nest():
            self.settle()
            self.blocks[-1]['braces'] += 1
            self.say('if (!%s) {' % condition)
        else:
            mark = len(self.lines)
            go = self.branch(depth)
            moves = self.lines[mark:]
            del self.lines[mark:]
            self.say('if (%s) { %s }' % (condition, ' '.join(moves + [go])))

    def go_by_table(self, op, it):
        which = self.pop(I32)
        depths = [it.number() for _ in range(it.number() + 1)]
        self.say('switch (%s) {' % which)
        for place, depth in enumerate(depths):
            self.say('default:' if place == len(depths) - 1 else 'case %d:' % place)
            self.say(self.branch(depth))
        self.say('}')
        return False

    def leave(self, op, it):
        self.say(self.branch(len(self.blocks) - 1 - self.outermost))
        return False

    def call(self, op, it):
        index = it.number()
        takes, gives = self.module.types[self.module.functions[index]]
        if is_small(self.module.codes[index]):
            return self.read_here(self.module.codes[index], takes, gives)
        text = '%s(%s)' % (self.module.name_of(index), ', '.join(['m'] + self.pops(takes)))
        self.calls.add(index)
        if gives:
            self.push(gives[0], text)
        else:
            self.say(text + ';')

    def read_here(self, code, takes, gives):
        """Translates a small function as a block where it is called, so that its accesses are tested with those here."""
        outer, first = (self.first, self.outermost), len(self.locals)
        given = [self.pop_entry(kind) for kind in reversed(takes)][::-1]
        self.locals += takes
        self.places += [Place(NOTHING, 0)] * len(takes)
        for place, entry in enumerate(given):
            self.put(first + place, *entry)
        self.first, self.outermost = first, len(self.blocks)
        self.begin('block', gives)
        reachable = self.read(code.copy())
        self.first, self.outermost = outer
        return reachable

    def drop(self, op, it):
        self.say('(void)%s;' % self.pop())

    def select(self, op, it):
        condition, second = self.pop(I32), self.pop()
        kind = self.stack[-1][0]
        self.push(kind, '%s ? %s : %s' % (condition, self.pop(kind), second))

    def get_local(self, op, it):
        index = self.first + it.number()
        self.push(self.locals[index], 'v%d' % index, self.places[index])

    def put(self, index, name, place):
        """Puts a number into a local."""
        self.places[index] = place if isinstance(place, Place) else self.accesses.fresh()
        self.blocks[-1]['assigned'].add(index)
        self.say('v%d = %s;' % (index, name))

    def set_local(self, op, it):
        index = self.first + it.number()
        self.put(index, *self.pop_entry(self.locals[index]))

    def tee_local(self, op, it):
        self.put(self.first + it.number(), *self.stack[-1][1:])

    def get_global(self, op, it):
        index = it.number()
        is_same = index == 0 and not (self.is_moved or self.calls or self.is_in_loop())
        self.push(self.module.globals[index][0], 'm->g%d' % index, self.stack_pointer if is_same else None)

    def set_global(self, op, it):
        index = it.number()
        self.is_moved = self.is_moved or index == 0
        self.say('m->g%d = %s;' % (index, self.pop(self.module.globals[index][0])))

    def constant(self, op, it):
        value = it.number(signed=True)
        if op == 0x41:
            self.push(I32, 'UINT32_C(%d)' % (value & 0xFFFFFFFF))
        else:
            # An address has 64 bits.
            self.numbers.add(value)
            self.push(I64, 'UINT64_C(%d)' % (value & 0xFFFFFFFFFFFFFFFF), Place(NOTHING, value))

    def many_octets(self, op, it):
        what = it.number()
        if what not in (10, 11):
            raise Refused('instruction 0xfc %d' % what)
        for _ in range(12 - what):
            it.number()
        count = self.pop(I64)
        source = self.pop(I64 if what == 10 else I32)
        self.say('%s(m, %s, %s, %s);' % ('copy' if what == 10 else 'fill', self.pop(I64), source, count))

    # ---- The text ----

    def head(self):
        result = TYPES[self.gives[0]] if self.gives else 'void'
        takes = ['struct machine *m'] + ['%s v%d' % (TYPES[kind], place) for place, kind in enumerate(self.takes)]
        return 'static %s %s(%s)' % (result, self.module.name_of(self.index), ', '.join(takes))

    def text(self):
        lines = [self.head(), '{']
        for place, kind in list(enumerate(self.locals))[len(self.takes):]:
            lines.append('%s v%d = 0;' % (TYPES[kind], place))
        for name, kind in sorted(self.variables.items(), key=lambda it: (it[0][0], int(it[0][1:]))):
            lines.append('%s %s;' % (TYPES[kind], name))
        if self.gives:
            lines.append('%s r = 0;' % TYPES[self.gives[0]])
        words = ' '.join(self.lines)
        for pointer in self.accesses.names():
            if '(%s + ' % pointer in words:
                lines.append('uint8_t *%s;' % pointer)
            else:
                del self.lines[self.frame_test]
        unused = [name for name in ['m'] + ['v%d' % n for n in range(len(self.locals))] if not uses(words, name)]
        # An address for which a pointer stands is read nowhere.
        unused += [name for name in self.variables if not re.search(r'\b%s\b(?! = )' % name, words)]
        return '\n'.join(lines + ['(void)%s;' % name for name in unused] + self.lines + ['}'])


def uses(words, name):
    return any(mark + name + end in words for mark in ' (!' for end in ' ;,)-')


STEPS = {0x00: Function.trap, 0x01: lambda *_: None, 0x02: Function.block, 0x03: Function.loop,
         0x04: Function.condition, 0x0C: Function.go, 0x0D: Function.go_if, 0x0E: Function.go_by_table,
         0x0F: Function.leave, 0x10: Function.call, 0x1A: Function.drop, 0x1B: Function.select,
         0x20: Function.get_local, 0x21: Function.set_local, 0x22: Function.tee_local, 0x23: Function.get_global,
         0x24: Function.set_global, 0x41: Function.constant, 0x42: Function.constant, 0xFC: Function.many_octets}
