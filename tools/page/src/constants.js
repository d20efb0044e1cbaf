// The limits, and the rules. Written by tools/generate-constants.

export const INPUTS = 64;
export const BLOCK_ENTRIES = 255;
export const STANDARD_WAITING = 1024;
export const MOST_WAITING = 8192;
export const LONGEST_FRAME = 773;
export const MOST_RECORD_ITEMS = 256;
export const LONGEST_TEXT = 62;
export const LOG_FORMS = { auto: 0, frames: 1, transcript: 2 };
export const LOG_KINDS = { blank: 0, says: 1, part: 2, possible: 3, damaged: 4, passedOver: 5 };
export const LOG_REASONS = { noReason: 0, noOctets: 1, noMessage: 2, noForm: 3, more: 4, unreadFrame: 5, tooLong: 6, badLine: 7, loss: 10, heading: 11, copy: 13, broken: 14 };
export const LOG_SIDES = { noSide: 0, fromCpu: 1, fromModule: 2 };
export const LOG_TIMES = { noTime: 0, date: 1, timeOfDay: 2, sinceStart: 3 };
export const LOG_TAKEN = { auto: 0, atCpu: 1, atModule: 2, onBus: 3 };
export const LOG_BEGINS = { anywhere: 0, withEnds: 1 };
export const OUTCOMES = { kept: 0, broken: 1, brokenContent: 2, excused: 3, restarted: 4, notJudged: 5 };
export const WHY = { none: 0, load: 1, unheard: 2, aboveCommand: 3, placeLost: 4, late: 5, lateAbove: 6 };
export const ADVANCE_BREACHES = {
  ahead: 'the CPU went on without an answer, and what block {due} had may be lost, which TEES allows; or the log lost a line',
  behind: 'the CPU asks again for a block that was answered; or it did not hear that answer, and the log is not its own',
};
// By their numbers the rules of transcripts: the name, what a line does that breaks it, and the sources of behaviour and of layout.
export const RULES = [null,
  { name: 'readable', breach: 'is no message of its direction', sources: ['TEES 2009', 'own profile'] },
  { name: 'pair', breach: 'is an answer, but not directly below a command whose type is 128 less', sources: ['TEES 2009', 'TEES 2009'] },
  { name: 'number', breach: 'is a block answer with another number than the poll directly above', sources: ['TEES 2009', 'TEES 2009'] },
  { name: 'advance', breach: 'is a poll, not the first, with another number than the one due: that of the poll before, plus one modulo 256 if a block answer is directly below that poll', sources: ['own profile', 'TEES 2009'] },
  { name: 'same', breach: 'is a block answer with E, though the poll directly above has another number than the poll before that', sources: ['TEES 2009', 'own profile'] },
  { name: 'sequence', breach: 'is a block answer with G and E, or with G and a block answer before it', sources: ['TEES 2009 and own profile', 'own profile'] },
  { name: 'limits', breach: 'is a block answer with F and without C, or with C and a count other than 255, or with an input above 63', sources: ['TEES 2009 and own profile', 'own profile'] },
  { name: 'rest', breach: 'is a block answer without entries, and the block answer before it has C', sources: ['TEES 2009', 'own profile'] },
  { name: 'refusal', breach: 'is an answer 179 that says done (bit 0 is 0) to a configuration 51 that names an input above 63', sources: ['own profile', 'own profile'] },
];
// Those on content: the name, what a right link does, and when that is judged; what a breach means; the sources.
export const CONTENT_RULES = [null,
  { name: 'order', right: 'An entry is later than the entry above it, or has its time and a higher input, if no block without C ends between them. Judged if a clear block is above the upper entry, the blocks of both are not late, and no load of the counter excuses it.', breach: 'input {input} has an entry that is not later than the one above it, but a module logs changes in order of time, then of input: two entries are swapped, one is doubled, a time is wrong, or the module restarted', sources: ['TEES 2009', 'own profile'] },
  { name: 'fresh', right: 'An entry is later than the stamp of the latest block without C, which had all entries up to that stamp. Judged if that block or one above it is clear, the block of the entry is not late, and no load of the counter excuses it.', breach: 'input {input} changed before the block above was made, and that block had all changes until then: this entry is doubled or late, or its time is wrong', sources: ['TEES 2009', 'own profile'] },
  { name: 'alternate', right: 'The entries of an input have the states 0 and 1 in turn. Judged if the input is watched from the earlier entry on.', breach: 'input {input} went to {state} twice in a row, and neither an overflow (F) nor a configuration that was sent can have hidden a change between: an entry was lost, or this entry is doubled or has the wrong state', sources: ['TEES 2009', 'own profile'] },
  { name: 'apart', right: 'An entry of an input follows the one before no sooner than the filter for its change lets it. Judged if a clear block is above the earlier entry, the blocks of both are not late, and no load of the counter excuses it. The filter is the least that can be in force: at first 1; an item that is sent can lower it; a block that settles the input sets it to its last item, if the answer to that says done.', breach: 'input {input} went to {state} sooner than the shortest filter that it can have allows: a time or a filter is wrong', sources: ['TEES 2009 and own profile', 'own profile'] },
  { name: 'ignored', right: 'An input that is ignored has no entry. Judged if above some block that settles the input its last item ignores it, and the answer to that says done, and no item that is sent below opens the input.', breach: 'input {input} has an entry, but it was ignored, and no configuration that was sent since says to report it: the module does not ignore the input, or the entry is of another input', sources: ['TEES 2009', 'own profile'] },
  { name: 'state', right: 'An answer 181 has the states of the record at its stamp. Judged if a clear block is above the latest 181, neither a late block nor a gap mark is below it, and no load of the counter excuses it: at the first entry later than its stamp, or the end of the first block without C whose stamp is not before it, of each steady input. From there on the next entry of an input has another state, and an input with another state in the next 181 and no entry between is not logged, and has none: till an item of it is sent, if none was since the latest block that settles it.', breach: 'input {input} has another state in an answer 181 than by its entries, and neither an overflow (F) nor a configuration that was sent can have hidden a change between: an entry was lost or has the wrong state, or the answer is wrong', sources: ['TEES 2009', 'own profile'] },
  { name: 'clock', right: 'The stamp of a 177, 180 or 181, or of a block without E, is not before the latest one above. Judged if no load of the counter excuses it.', breach: 'the counter of the module went back, and no load that was sent explains it: the module restarted, or a stamp is wrong', sources: ['TEES 2009', 'own profile'] },
  { name: 'done', right: 'An answer 178 has no S: a load of the counter is never refused.', breach: 'the module refused to load its counter, but it can load any number', sources: ['own profile', 'own profile'] },
  { name: 'accepted', right: 'An answer 179 has no S, if its configuration names no input above 63.', breach: 'the module refused a configuration, but each input that it names exists', sources: ['own profile', 'own profile'] },
  { name: 'cleared', right: 'An answer 177 has none of the flags that its command clears.', breach: 'the answer gives the flags that are left, and one that the command clears is still set: the module did not clear it', sources: ['own profile', 'TEES 2009'] },
  { name: 'watchdog', right: 'An answer 186 has Y, if another 186 is above.', breach: 'the module says that no watchdog was set before, but it has answered a command that sets one: it restarted, or forgot it', sources: ['TEES 2009', 'own profile'] },
];
