"""The instructions without a structure of their own: numbers, loads and stores. Any other is refused."""

I32, I64 = 0x7F, 0x7E
TYPES = {I32: 'uint32_t', I64: 'uint64_t'}
LETTER = {I32: 'i', I64: 'j'}

# opcode: (name, operands, result)
COMPARE = {'eqz': '({0} == 0)', 'eq': '({0} == {1})', 'ne': '({0} != {1})', 'lt_u': '({0} < {1})',
           'gt_u': '({0} > {1})', 'le_u': '({0} <= {1})', 'ge_u': '({0} >= {1})',
           'lt_s': '(SIGNED{n}({0}) < SIGNED{n}({1}))', 'gt_s': '(SIGNED{n}({0}) > SIGNED{n}({1}))',
           'le_s': '(SIGNED{n}({0}) <= SIGNED{n}({1}))', 'ge_s': '(SIGNED{n}({0}) >= SIGNED{n}({1}))'}
BINARY = {'add': '{0} + {1}', 'sub': '{0} - {1}', 'mul': '{0} * {1}', 'and': '{0} & {1}', 'or': '{0} | {1}',
          'xor': '{0} ^ {1}', 'shl': '{0} << ({1} & {m})', 'shr_u': '{0} >> ({1} & {m})',
          'shr_s': 'shift_signed{n}({0}, {1})', 'rotl': 'rotate{n}({0}, {1})', 'rotr': 'rotate{n}({0}, 0u - {1})',
          'div_u': 'divide{n}({0}, {1})', 'rem_u': 'remainder{n}({0}, {1})'}
UNARY = {'clz': 'leading{n}({0})', 'ctz': 'trailing{n}({0})', 'popcnt': 'ones{n}({0})'}


def table():
    """Returns the numeric instructions: opcode -> (C, operand types, result type)."""
    found = {}
    compares = ['eqz', 'eq', 'ne', 'lt_s', 'lt_u', 'gt_s', 'gt_u', 'le_s', 'le_u', 'ge_s', 'ge_u']
    others = ['clz', 'ctz', 'popcnt', 'add', 'sub', 'mul', 'div_s', 'div_u', 'rem_s', 'rem_u', 'and', 'or', 'xor',
              'shl', 'shr_s', 'shr_u', 'rotl', 'rotr']
    for first, kind, bits in ((0x45, I32, 32), (0x50, I64, 64)):
        for place, name in enumerate(compares):
            count = 1 if name == 'eqz' else 2
            found[first + place] = (COMPARE[name].replace('{n}', str(bits)), [kind] * count, I32)
    for first, kind, bits in ((0x67, I32, 32), (0x79, I64, 64)):
        for place, name in enumerate(others):
            text = UNARY.get(name) or BINARY.get(name)
            if text:
                text = text.replace('{n}', str(bits)).replace('{m}', str(bits - 1))
                found[first + place] = (text, [kind] * (1 if name in UNARY else 2), kind)
    found[0xA7] = ('(uint32_t){0}', [I64], I32)
    found[0xAC] = ('extend({0}, 31)', [I32], I64)
    found[0xAD] = ('(uint64_t){0}', [I32], I64)
    found[0xC0] = ('(uint32_t)extend({0} & 255, 7)', [I32], I32)
    found[0xC1] = ('(uint32_t)extend({0} & 65535, 15)', [I32], I32)
    found[0xC2] = ('extend({0} & 255, 7)', [I64], I64)
    found[0xC3] = ('extend({0} & 65535, 15)', [I64], I64)
    found[0xC4] = ('extend({0} & 4294967295u, 31)', [I64], I64)
    return found


NUMERIC = table()
# opcode: (octets, sign bit or None, type)
LOADS = {0x28: (4, None, I32), 0x29: (8, None, I64), 0x2C: (1, 7, I32), 0x2D: (1, None, I32), 0x2E: (2, 15, I32),
         0x2F: (2, None, I32), 0x30: (1, 7, I64), 0x31: (1, None, I64), 0x32: (2, 15, I64), 0x33: (2, None, I64),
         0x34: (4, 31, I64), 0x35: (4, None, I64)}
STORES = {0x36: (4, I32), 0x37: (8, I64), 0x3A: (1, I32), 0x3B: (2, I32), 0x3C: (1, I64), 0x3D: (2, I64),
          0x3E: (4, I64)}
