// What the bits of flags and statuses say when they are 1, by the type of the message and the word that `show` writes
// before them: letter, value, meaning. Written by tools/generate-messages.

export const BITS = {
  49: { word: 'clear', bits: [['P', 128, 'the module was reset'], ['E', 64, 'status flag'], ['K', 32, 'status flag'], ['R', 16, 'status flag'], ['T', 8, 'status flag'], ['M', 4, 'status flag'], ['L', 2, 'status flag'], ['W', 1, 'status flag']] },
  177: { word: 'flags', bits: [['P', 128, 'the module was reset'], ['E', 64, 'status flag'], ['K', 32, 'status flag'], ['R', 16, 'status flag'], ['T', 8, 'status flag'], ['M', 4, 'status flag'], ['L', 2, 'status flag'], ['W', 1, 'status flag']] },
  178: { word: 'status', bits: [['S', 1, 'error']] },
  179: { word: 'status', bits: [['S', 1, 'error']] },
  182: { word: 'status', bits: [['C', 8, 'more entries waited than a block takes'], ['F', 4, 'entries between the block before and this one were pushed out'], ['E', 2, 'the same block number was asked for again'], ['G', 1, 'the number is not the one before plus one']] },
  186: { word: 'status', bits: [['Y', 1, 'the watchdog had been set before']] },
};
