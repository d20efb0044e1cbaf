"""The instructions of WebAssembly 2.0 on integers and memory, and functions that run each: in WebAssembly's text, named, with
a result of 64 bits. The opcodes are those of the standard's index of instructions."""

NUMBERS = sorted({value & 0xFFFFFFFFFFFFFFFF for power in (0, 1, 5, 6, 7, 8, 15, 16, 31, 32, 33, 47, 63)
                  for value in (2 ** power, 2 ** power - 1, 2 ** power + 1, -2 ** power, ~2 ** power)}
                 | {3, 10, 0x0123456789ABCDEF, 0xFEDCBA9876543210, 0x8000000080000000, 0x7FFFFFFF80000001})
# Where the memory that is written ends, and the numbers begin.
DATA = 1024

COMPARISONS = ['eqz', 'eq', 'ne', 'lt_s', 'lt_u', 'gt_s', 'gt_u', 'le_s', 'le_u', 'ge_s', 'ge_u']
OPERATIONS = ['clz', 'ctz', 'popcnt', 'add', 'sub', 'mul', 'div_s', 'div_u', 'rem_s', 'rem_u', 'and', 'or', 'xor', 'shl',
              'shr_s', 'shr_u', 'rotl', 'rotr']
ONE_OPERAND = ('eqz', 'clz', 'ctz', 'popcnt', 'extend8_s', 'extend16_s', 'extend32_s')
LOADS = ['i32.load', 'i64.load', 'f32.load', 'f64.load', 'i32.load8_s', 'i32.load8_u', 'i32.load16_s', 'i32.load16_u',
         'i64.load8_s', 'i64.load8_u', 'i64.load16_s', 'i64.load16_u', 'i64.load32_s', 'i64.load32_u']
STORES = ['i32.store', 'i64.store', 'f32.store', 'f64.store', 'i32.store8', 'i32.store16', 'i64.store8', 'i64.store16',
          'i64.store32']
CONTROL = {'unreachable': 0x00, 'nop': 0x01, 'block': 0x02, 'loop': 0x03, 'if': 0x04, 'br': 0x0C, 'br_if': 0x0D,
           'br_table': 0x0E, 'return': 0x0F, 'call': 0x10, 'drop': 0x1A, 'select': 0x1B, 'local.get': 0x20,
           'local.set': 0x21, 'local.tee': 0x22, 'global.get': 0x23, 'global.set': 0x24, 'i32.const': 0x41,
           'i64.const': 0x42, 'memory.copy and memory.fill': 0xFC}


def opcodes():
    found = dict(CONTROL)
    for first, kind in ((0x45, 'i32.'), (0x50, 'i64.')):
        found.update((kind + name, first + place) for place, name in enumerate(COMPARISONS))
    for first, kind in ((0x67, 'i32.'), (0x79, 'i64.')):
        found.update((kind + name, first + place) for place, name in enumerate(OPERATIONS))
    found.update((name, 0x28 + place) for place, name in enumerate(LOADS + STORES))
    found.update({'i32.wrap_i64': 0xA7, 'i64.extend_i32_s': 0xAC, 'i64.extend_i32_u': 0xAD, 'i32.extend8_s': 0xC0,
                  'i32.extend16_s': 0xC1, 'i64.extend8_s': 0xC2, 'i64.extend16_s': 0xC3, 'i64.extend32_s': 0xC4})
    return found


# Those that the translator does not take.
NOT_TAKEN = ['i32.div_s', 'i32.rem_s', 'i64.div_s', 'i64.rem_s', 'f32.load', 'f64.load', 'f32.store', 'f64.store']
OPCODES = {name: code for name, code in opcodes().items() if name not in NOT_TAKEN}

# The beginning of a function that mixes numbers into the local $all.
START = '(result i64) (local $a i64) (local $b i64) (local $all i64) (local $n i64) (local $w i32)\n'
MIX = 'local.get $all i64.const 7 i64.rotl i64.xor i64.const 0x9E3779B97F4A7C15 i64.mul local.set $all\n'


def loop(local, step, end, inside):
    """The text inside, for each multiple of the step below the end."""
    return ('i64.const 0 local.set %s loop\n%s local.get %s i64.const %d i64.add local.tee %s i64.const %d i64.lt_u br_if 0 end\n'
            % (local, inside, local, step, local, end))


def wide(kind):
    return '' if kind == 'i64' else 'i64.extend_i32_u '


def operand(kind, local):
    return 'local.get %s %s.load offset=%d ' % (local, kind, DATA)


def numeric(name):
    """The instruction on each number, or on each pair of them; a divisor of 0 is left out."""
    kind, word = name.split('.')
    source = {'wrap_i64': 'i64', 'extend_i32_s': 'i32', 'extend_i32_u': 'i32'}.get(word, kind)
    result = 'i32' if word in COMPARISONS else kind
    if word in ONE_OPERAND or source != kind or word.startswith('extend'):
        return START + loop('$a', 8, 8 * len(NUMBERS), operand(source, '$a') + name + ' ' + wide(result) + MIX) + 'local.get $all'
    inside = operand(kind, '$a') + operand(kind, '$b') + name + ' ' + wide(result) + MIX
    if word in ('div_u', 'rem_u'):
        inside = '%s%s.eqz i32.eqz if %s end ' % (operand(kind, '$b'), kind, inside)
    every = 8 * len(NUMBERS)
    return START + loop('$a', 8, every, loop('$b', 8, every, inside)) + 'local.get $all'


def load(name):
    inside = 'local.get $a %s offset=%d %s' % (name, DATA, wide(name[:3])) + MIX
    return START + loop('$a', 1, 8 * len(NUMBERS) - 8, inside) + 'local.get $all'


def all_memory():
    return loop('$b', 8, DATA, 'local.get $b i64.load ' + MIX) + 'local.get $all'


def store(name):
    number = 'local.get $a i64.const 72340172838076673 i64.mul ' + ('' if name[:3] == 'i64' else 'i32.wrap_i64 ')
    return START + loop('$a', 11, 900, 'local.get $a %s %s offset=5 ' % (number, name)) + all_memory()


# Blocks, branches, locals, globals, calls; accesses that are tested together; traps.
STRUCTURES = {
    'constants': 'i64.const -1 i64.const 0x7fffffffffffffff i64.xor i32.const -1 i64.extend_i32_u i64.add',
    'choice': START + loop('$a', 1, 6, 'local.get $a i64.const 3 i64.add i64.const 99 local.get $a i64.const 3 i64.lt_u select '
                           + MIX) + 'local.get $all',
    'two_ways': START + loop('$a', 1, 6, 'local.get $a i64.const 2 i64.rem_u i32.wrap_i64 if (result i64) i64.const 5 else '
                             'i64.const 8 local.set $n local.get $n end ' + MIX + 'local.get $n ' + MIX) + 'local.get $all',
    'one_way': START + loop('$a', 1, 6, 'local.get $a i64.const 4 i64.eq if i64.const 77 local.set $n end local.get $n ' + MIX)
    + 'local.get $all',
    'table': START + loop('$a', 1, 9, 'block block block local.get $a i32.wrap_i64 br_table 0 1 2 1 0 end i64.const 10 ' + MIX
                          + 'end i64.const 20 ' + MIX + 'end i64.const 30 ' + MIX) + 'local.get $all',
    'value_of_block': START + 'block (result i64) i64.const 4 i32.const 1 br_if 0 drop i64.const 9 end block (result i64) i64.const '
    '6 i32.const 0 br_if 0 drop i64.const 3 end i64.const 8 i64.shl i64.add',
    'branch_out': START + 'block (result i64) block (result i64) i64.const 12 br 1 end i64.const 1 i64.add end',
    'early_return': START + 'i32.const 1 if i64.const 31 return end i64.const 5',
    'nothing': 'nop i64.const 3 nop',
    'calls': START + loop('$a', 1, 9, 'i32.const 7 local.get $a call $far ' + MIX) + 'local.get $all',
    'small_functions': START + loop('$a', 1, 9, 'i32.const 7 local.get $a call $combined ' + MIX) + 'local.get $all',
    'locals_of_a_small_function': START + loop('$a', 1, 9, 'local.get $a call $sum ' + MIX) + 'local.get $all',
    'return_of_a_small_function': START + loop('$a', 1, 9, 'local.get $a call $least ' + MIX) + 'local.get $all',
    'small_functions_of_two_ways': START + loop('$a', 1, 9, 'local.get $a i64.const 3 i64.and i64.eqz if (result i64) local.get $a call '
                                                '$sum else local.get $a call $least end ' + MIX) + 'local.get $all',
    'store_of_a_small_function': START + loop('$a', 8, 800, 'local.get $a i64.const 8 i64.add local.get $a call $put local.get $a i64.load '
                                              + MIX) + all_memory(),
    'globals': 'i64.const 900 global.set $other global.get $other i64.const 1 i64.add global.set $other global.get $other',
    'tees': START + 'i64.const 5 local.tee $a local.get $a i64.mul local.tee $b local.get $b i64.add',
    'copies': START + loop('$a', 1, 64, 'local.get $a local.get $a i64.const 3 i64.mul i64.store8 ')
    + 'i64.const 10 i64.const 4 i64.const 40 memory.copy i64.const 4 i64.const 10 i64.const 40 memory.copy '
    'i64.const 200 i64.const %d i64.const 100 memory.copy i64.const 3 i64.const 9 i64.const 0 memory.copy ' % DATA + all_memory(),
    'fills': START + 'i64.const 300 i32.const 511 i64.const 33 memory.fill i64.const 2 i32.const 4 i64.const 0 memory.fill '
    + all_memory(),
    'run_of_accesses': START + loop('$a', 16, 800, 'local.get $a local.get $a i64.store offset=3 local.get $a i64.const 24 i64.add '
                                    'local.get $a i64.load offset=3 i64.store32 local.get $a i64.const 8 i64.sub local.set $b '
                                    'local.get $b i64.const 9 i64.add i64.load16_u ' + MIX) + all_memory(),
    'moved_base': START + 'i64.const 16 local.set $a local.get $a i64.const 11 i64.store local.get $a i64.const 64 i64.add local.set '
    '$a local.get $a i64.const 12 i64.store local.get $a i64.load ' + MIX + all_memory(),
    'moved_in_a_branch': START + loop('$n', 1, 4, 'i64.const 16 local.set $a local.get $a i64.load ' + MIX + 'local.get $n i64.const '
                                      '2 i64.eq if i64.const 80 local.set $a local.get $a i64.const 5 i64.store end local.get $a '
                                      'i64.load ' + MIX) + 'local.get $all',
    'moved_in_a_way': START + loop('$n', 1, 4, 'local.get $n i64.const 2 i64.eq if i64.const 90 local.set $a local.get $a i64.load ' + MIX
                                   + 'else local.get $a i64.load ' + MIX + 'i64.const 33 local.set $a end local.get $a i64.load '
                                   + MIX) + 'local.get $all',
    'access_that_is_not_made': START + 'i64.const 1000 local.set $a local.get $a i64.load ' + MIX + 'block i32.const 1 br_if 0 local.get '
    '$a i64.load offset=200000 ' + MIX + 'end local.get $all',
    'access_below_a_branch': START + loop('$n', 1, 4, 'block local.get $n i64.const 2 i64.ge_u br_if 0 local.get $n i64.const 8 i64.mul '
                                          'i64.load offset=40 ' + MIX + 'end local.get $n i64.const 8 i64.mul i64.load offset=40 '
                                          + MIX) + 'local.get $all',
    'frame': 'call $with_frame',
    'unreachable': 'unreachable',
    'divisor_of_zero': 'i64.const 4 i64.const 0 i64.div_u',
    'short_divisor_of_zero': 'i32.const 4 i32.const 0 i32.div_u i64.extend_i32_u',
    'remainder_by_zero': 'i64.const 4 i64.const 0 i64.rem_u',
    'short_remainder_by_zero': 'i32.const 4 i32.const 0 i32.rem_u i64.extend_i32_u',
    'far_load': 'i64.const 200000 i64.load8_u',
    'farther_load': 'i64.const 0x500000000 i64.load8_u',
    'load_from_an_object_beyond_the_last': 'i64.const 0x100000000 i64.load8_u',
    'load_whose_end_wraps': 'i64.const 0xFFFFFFFC i64.load',
    'farthest_load': 'i64.const -8 i64.load8_u',
    'far_store': 'i64.const 200000 i64.const 1 i64.store8 i64.const 1',
    'far_copy': 'i64.const 0 i64.const 200000 i64.const 1 memory.copy i64.const 1',
    'far_copy_to': 'i64.const 200000 i64.const 0 i64.const 1 memory.copy i64.const 1',
    'far_fill': 'i64.const 200000 i32.const 1 i64.const 1 memory.fill i64.const 1',
    'long_fill': 'i64.const 0 i32.const 1 i64.const 0x100000001 memory.fill i64.const 1',
    'run_to_far': START + 'i64.const 131064 local.set $a local.get $a i64.load offset=8',
}

# Straight loops: the text inside, and the condition under which the loop goes on.
def straight(first, inside, condition):
    return START + first + 'loop ' + inside + condition + ' br_if 0 end '


def stepped(local, step):
    return 'local.get %s i64.const %d i64.add local.set %s ' % (local, step, local)


COUNTED_DOWN = 'local.get $n i64.const 1 i64.sub local.tee $n i64.eqz i32.eqz'
STRUCTURES.update({
    'loop_up_to_a_local': straight(
        'i64.const 16 local.set $a i64.const 800 local.set $b ', 'local.get $a local.get $a i64.store offset=3 local.get $a '
        'i64.load16_u offset=9 ' + MIX + stepped('$a', 8), 'local.get $b local.get $a i64.ne') + all_memory(),
    'loop_down_to_zero': straight(
        'i64.const 30 local.set $n i64.const 40 local.set $a i64.const 500 local.set $b ', 'local.get $b i64.const 1 i64.sub '
        'local.get $a i64.load8_u ' + MIX + 'local.get $n i64.store32 ' + stepped('$a', 3) + stepped('$b', 5), COUNTED_DOWN)
    + all_memory(),
    'loop_by_four': straight(
        'i64.const 40 local.set $b i64.const 64 local.set $a ', 'local.get $a local.get $n i64.store ' + stepped('$a', 16)
        + stepped('$n', 4), 'local.get $n local.get $b i64.ne') + all_memory(),
    'loop_once': straight('i64.const 1 local.set $n i64.const 1016 local.set $a ', 'local.get $a i64.const 7 i64.store '
                          + stepped('$a', 64), COUNTED_DOWN) + all_memory(),
    'loop_of_two_steps': straight(
        'i64.const 20 local.set $n i64.const 8 local.set $a ', stepped('$a', 8) + 'local.get $a local.get $n i64.store '
        + stepped('$a', 13) + 'local.get $a local.get $n i64.store16 offset=2 ', COUNTED_DOWN) + all_memory(),
    'loop_to_lower_addresses': straight(
        'i64.const 20 local.set $n i64.const 800 local.set $a ', 'local.get $a local.get $n i64.store ' + stepped('$a', -24),
        COUNTED_DOWN) + all_memory(),
    'loop_over_one_address': straight(
        'i64.const 20 local.set $n i64.const 800 local.set $a ', 'local.get $a local.get $a i64.load local.get $n i64.add i64.store ',
        COUNTED_DOWN) + all_memory(),
    'loop_that_doubles': straight(
        'i64.const 6 local.set $n i64.const 8 local.set $a ', 'local.get $a local.get $n i64.store local.get $a local.get $a i64.add '
        'local.set $a ', COUNTED_DOWN) + all_memory(),
    'loop_that_compares_before_the_step': straight(
        'i64.const 976 local.set $a ', 'local.get $a local.get $a i64.store local.get $a i64.const 1016 i64.ne local.set $w '
        + stepped('$a', 8), 'local.get $w') + straight('i64.const 976 local.set $a ', 'local.get $a i64.const 5 i64.store '
        'local.get $a i64.const 1008 i64.ne ' + stepped('$a', 8), '')[len(START):] + all_memory(),
    'loop_with_a_way_out': START + 'i64.const 9000 local.set $n i64.const 8 local.set $a block loop local.get $a i64.const 96 i64.eq br_if 1 '
    'local.get $a local.get $n i64.store ' + stepped('$a', 8) + COUNTED_DOWN + ' br_if 0 end end ' + all_memory(),
    'loops_in_a_loop': START + loop('$b', 8, 64, 'i64.const 5 local.set $n local.get $b local.set $a loop local.get $a local.get $n i64.store '
                                    'offset=100 ' + stepped('$a', 8) + COUNTED_DOWN + ' br_if 0 end ') + all_memory(),
    'turns_over_two_objects': START + loop('$a', 1, 64, 'local.get $a i64.const 2 i64.rem_u i64.const %d i64.mul local.get $a i64.add '
                                           'local.set $n local.get $n i64.load ' % DATA + MIX) + 'local.get $all',
    'loop_of_2_to_64_turns': straight('i64.const 8 local.set $a ', 'local.get $a i64.load ' + MIX + stepped('$a', 8), COUNTED_DOWN)
    + 'local.get $all',
    'loop_of_2_to_61_turns': straight('i64.const %d local.set $n ' % (2 ** 61 + 1), 'local.get $a i64.load ' + MIX + stepped('$a', 8),
                                      COUNTED_DOWN) + 'local.get $all',
    'loop_past_the_end_that_it_compares_with': straight(
        'i64.const 10 local.set $b ', 'local.get $a i64.load ' + MIX + stepped('$a', 4), 'local.get $a local.get $b i64.ne')
    + 'local.get $all',
    'loop_to_far': straight('i64.const 20000 local.set $n ', 'local.get $a i64.load ' + MIX + stepped('$a', 8), COUNTED_DOWN)
    + 'local.get $all',
})

# Small functions, one that is not, one with a frame; the position of the last eight octets of the stack.
FUNCTIONS = '''(func $combined (param $w i32) (param $n i64) (result i64)
  local.get $n local.get $w i64.extend_i32_u i64.mul local.get $n i64.const 3 i64.add i64.xor)
(func $far (param $w i32) (param $n i64) (result i64)
  global.get $other drop local.get $n local.get $w i64.extend_i32_u i64.mul local.get $n i64.const 3 i64.add i64.xor)
(func $sum (param $n i64) (result i64) (local $all i64) local.get $all local.get $n i64.add local.tee $all)
(func $least (param $n i64) (result i64) local.get $n i64.const 4 i64.lt_u if i64.const 4 return end local.get $n)
(func $put (param $at i64) (param $n i64) local.get $at local.get $n i64.store)
(func $end (result i64) i64.const 1016)
(func $with_frame (result i64) (local $at i64)
  global.get 0 i64.const 48 i64.sub local.tee $at global.set 0
  local.get $at i64.const 21 i64.store offset=8 local.get $at i64.const 40 i64.add i64.const 4 i64.store
  local.get $at i64.load offset=8 local.get $at i64.load offset=40 i64.mul
  local.get $at i64.const 48 i64.add global.set 0)
'''


def name_of(instruction):
    return instruction.replace('.', '_')


def taken():
    found = []
    for name in OPCODES:
        if name in LOADS or name in STORES:
            found.append((name_of(name), load(name) if name in LOADS else store(name)))
        elif name not in CONTROL:
            found.append((name_of(name), numeric(name)))
    return found + [(name, text if text.startswith('(') else '(result i64) ' + text) for name, text in STRUCTURES.items()]


TAKEN = taken()
# Accesses to memory that the module has but the call does not: the interpreter makes them, the translated C traps.
END = DATA + 8 * len(NUMBERS)
OUTSIDE = [(name, START + text) for name, text in {
    'past_the_data': 'i64.const %d i64.load' % (END - 7),
    'run_past_the_data': 'i32.const %d i64.extend_i32_u local.set $a local.get $a i64.load8_u local.get $a i64.load offset=1 '
    'i64.add' % (END - 8),
    'run_past_the_stack': 'call $end local.tee $a i64.const 1 i64.store8 local.get $a i64.const 1 i64.store16 offset=7 i64.const 1',
    'store_across_stack_and_data': 'i64.const %d i64.const 1 i64.store i64.const 1' % (DATA - 4),
    'store_of_a_small_function_past_the_stack': 'i64.const %d i64.const 1 call $put i64.const 1' % (DATA - 7),
    'store_to_the_data': 'i64.const %d i64.const 1 i64.store8 i64.const 1' % DATA,
    'loop_past_the_stack': straight('i64.const 4 local.set $n i64.const %d local.set $a ' % (DATA - 24), 'local.get $a local.get $n '
                                    'i64.store ' + stepped('$a', 8), COUNTED_DOWN)[len(START):] + 'i64.const 1',
    'loop_past_the_data': straight('i64.const 4 local.set $n i64.const %d local.set $a ' % (END - 24), 'local.get $a i64.load '
                                   + MIX + stepped('$a', 8), COUNTED_DOWN)[len(START):] + 'i64.const 1',
    'loop_past_the_stack_that_compares_before_the_step': straight(
        'i64.const %d local.set $a ' % (DATA - 24), 'local.get $a i64.const 5 i64.store local.get $a i64.const %d i64.ne ' % DATA
        + stepped('$a', 8), '')[len(START):] + 'i64.const 1',
    'loop_past_the_stack_to_an_end_that_moves': straight(
        'i64.const %d local.set $a i64.const %d local.set $b ' % (DATA - 424, DATA - 184), 'local.get $a i64.const 5 i64.store '
        + stepped('$a', 16) + stepped('$b', 8), 'local.get $a local.get $b i64.ne')[len(START):] + 'i64.const 1',
    'turns_past_the_stack': loop('$a', 8, DATA + 8, 'local.get $a i64.const 1 i64.store ') + 'i64.const 1',
    'turns_past_the_stack_by_an_octet': loop('$a', 9, DATA, 'local.get $a i64.const 1 i64.store ') + 'i64.const 1',
    'turns_past_the_data': loop('$a', 8, END + 8, 'local.get $a i64.load drop ') + 'i64.const 1',
    'fill_of_the_data': 'i64.const %d i32.const 1 i64.const 1 memory.fill i64.const 1' % DATA,
    'copy_past_the_data': 'i64.const 0 i64.const %d i64.const 9 memory.copy i64.const 1' % (END - 8),
    'copy_past_the_stack': 'i64.const %d i64.const 0 i64.const 9 memory.copy i64.const 1' % (DATA - 8)}.items()]
REFUSED = [(name, '(result i64) %s i64.const 0' % text) for name, text in {
    'i32.div_s': 'i32.const 1 i32.const 1 i32.div_s drop', 'i64.div_s': 'i64.const 1 i64.const 1 i64.div_s drop',
    'i32.rem_s': 'i32.const 1 i32.const 1 i32.rem_s drop', 'i64.rem_s': 'i64.const 1 i64.const 1 i64.rem_s drop',
    'f32.load': 'i64.const 0 f32.load drop', 'f64.load': 'i64.const 0 f64.load drop',
    'f32.store': 'i64.const 0 f32.const 1 f32.store', 'f64.store': 'i64.const 0 f64.const 1 f64.store',
    'f32.add': 'f32.const 1 f32.const 1 f32.add drop', 'i32.trunc_f32_s': 'f32.const 1 i32.trunc_f32_s drop',
    'i64.trunc_sat_f64_u': 'f64.const 1 i64.trunc_sat_f64_u drop', 'memory.size': 'memory.size drop',
    'memory.grow': 'i64.const 1 memory.grow drop', 'v128.const': 'v128.const i32x4 1 1 1 1 drop',
    'call_indirect': 'i32.const 0 call_indirect (result i64) drop',
    'i32.reinterpret_f32': 'f32.const 1 i32.reinterpret_f32 drop', 'select with a type': 'i64.const 1 i64.const 1 i32.const 1 '
    'select (result i64) drop', 'a loop with a parameter': 'i64.const 1 loop (param i64) drop end'}.items()]


def module_text(functions):
    """A module with these functions, each exported, with the numbers after its memory that is written, and with a table."""
    data = ''.join('\\%02x' % octet for number in NUMBERS for octet in number.to_bytes(8, 'little'))
    return ('(module (memory i64 2)\n(table 1 funcref)\n(elem (i32.const 0) $end)\n(global (mut i64) (i64.const %d))\n(global $other (mut i64) (i64.const 5))\n'
            '(data (i64.const %d) "%s")\n%s%s)' % (DATA, DATA, data, FUNCTIONS, ''.join(
                '(func (export "%s") %s)\n' % function for function in functions)))
