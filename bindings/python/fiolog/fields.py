"""The fields of each message by its type, as the structs of libfio2070 name them. Written by tools/generate-messages."""

FIELDS = {
    49: ['clear'],
    50: ['load'],
    51: [],
    52: [],
    53: [],
    54: ['block'],
    55: ['levels', 'controls'],
    56: ['body'],
    57: ['body'],
    58: ['timeout'],
    59: ['body'],
    60: [],
    177: ['flags', 'receive_errors', 'transmit_errors', 'stamp'],
    178: ['status'],
    179: ['status'],
    180: ['inputs', 'stamp'],
    181: ['inputs', 'stamp'],
    182: ['block', 'status', 'stamp'],
    183: ['body'],
    184: ['body'],
    185: ['body'],
    186: ['status'],
    187: ['body'],
    188: ['body'],
}

# Fields of bits, each by the type of its message, and what their bits say when they are 1: letter, value, meaning.
_ALIKE = [
    ([(49, 'clear'), (177, 'flags')], [
        ('P', 128, 'the module was reset'),
        ('E', 64, 'status flag'),
        ('K', 32, 'status flag'),
        ('R', 16, 'status flag'),
        ('T', 8, 'status flag'),
        ('M', 4, 'status flag'),
        ('L', 2, 'status flag'),
        ('W', 1, 'status flag'),
    ]),
    ([(178, 'status'), (179, 'status')], [
        ('S', 1, 'error'),
    ]),
    ([(182, 'status')], [
        ('C', 8, 'more entries waited than a block takes'),
        ('F', 4, 'entries between the block before and this one were pushed out'),
        ('E', 2, 'the same block number was asked for again'),
        ('G', 1, 'the number is not the one before plus one'),
    ]),
    ([(186, 'status')], [
        ('Y', 1, 'the watchdog had been set before'),
    ]),
]
# The same by the field.
BITS = {field: bits for fields, bits in _ALIKE for field in fields}
