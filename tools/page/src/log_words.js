// What is said of the lines of a log: why one gives no frame, or what else is in one that does, by the number of the reason; which
// directions are missing; of what a line carried; and of the transitions themselves. Written by tools/generate-messages.

export const REASONS = {
  1: 'no octets',
  2: 'octets that are no message',
  3: 'what may have been a message, and no form of this log',
  4: 'beside its frames it has octets that may be a message',
  5: 'a frame with a right check, and no form of this log',
  6: 'longer than a line with a frame can be',
  7: 'bad line',
  10: 'octets may be lost',
  11: 'heading',
  13: 'a copy of the frame above',
  14: 'the message above is not whole, and does not go on here',
};
export const SIDES = {
  'commands': 'this log has the commands alone: the answers were not logged, so no rule is judged',
  'answers': 'this log has the answers alone: the commands were not logged, so no rule is judged',
  'not whole': 'no answer in this log is whole, so no rule is judged',
  'unread': 'this log has one direction alone, but for frames in lines of no form, so no rule is judged',
  'silent': 'no answer came: the module is silent, or its direction was not logged',
};
// What kind of log it looks like, by the number of the sign, if it is not the log of one link in order, and what to do.
export const SIGNS = [
  '',
  'this log looks as if each frame is in it twice: keep one of both channels or sources, and judge that',
  'this log looks like the logs of both ends merged: keep the lines of one end, and judge these',
  'this log looks as if its last line is first: reverse it with `tac FILE`',
  'this log looks like the lines of two links: split it by port or address, and judge each link by itself',
  'blocks without entries are not in this log, so nobody is accused where a poll has no answer and the next one has the next number',
  'answers came late in this log, below commands that were sent again: try --late-answers',
];
// What is said of a seam: that transitions are lost, and by the number of the seam why a stretch ends.
export const SEAMS = [
  "the module's buffer overflowed: transitions are lost above",
  'at least {blocks} not in the log above',
  'the module did not get the polls between: what is above is not known',
  'the log does not say whether transitions are missing above',
  'the module was restarted: what waited in it then is not recorded',
  'its entries are not to be believed',
];
export const LINE = {
  damaged: 'no frame with a right check',
  other: 'of address {address}, control octet {control}: not judged',
  of: 'of address {address}: not judged',
  none: 'of no address, or of a line with several: not judged',
  type: 'message of type {type}, not of this protocol',
  size: 'message of type {type}, of another size',
  inputs: '{type} has {octets} of inputs in {lines}: a module with {count} inputs? its 180, 181 and 55 are not read, all else is judged',
  outputs: '{type} has {octets} of outputs in {lines}: a module with {count} outputs? its 55 are not read, all else is judged',
  octets: 'no frame with a right check in the octets of this line',
  bits: 'no frame with a right check in these bits, one a clock: if they are written eight to an octet, try the other order',
  faster: 'no frame at one bit a clock, and nearly all bits last {count} samples or more: the sample clock is faster than the line, so sample on the clock of the line, or keep one sample of each bit',
};
// What a message does that breaks a rule of transcripts, by the rule or by what is wrong.
export const BREACHES = {
  pair: 'answer {code} came, but no command {command} is directly above it',
  same: 'E says that the same block number was asked for again, but the poll above has another number than the poll before it',
  sequence: 'G says that the number is not the one before plus one, but the CPU polled in order',
  again: 'E says that the same block number was asked for again, and G that the number is not the one before plus one: both cannot be',
  rest: 'the block has no entries, but the block before it says that more wait (C)',
  refusal: 'the module says that it is done (S is 0), but the configuration names an input above 63',
  absent: 'an entry is of input {input}, above 63',
  more: 'C says that more entries wait than a block takes, but the block has {count}',
  lost: 'F says that entries were pushed out, but C is not set: that happens only while more entries wait than a block takes',
};
// What the words of the rules on content mean.
export const TERMS = {
  'clear': 'a block is clear if it has neither C nor E: it has all that had changed when it was made',
  'settles': 'a block settles an input if no configuration that was sent above it can still take effect on that input: a clear block settles every input; a block with E and without C settles those that no configuration named since the first poll for it',
  'watched': 'an input is watched while no configuration that was sent can have hidden a change of it',
  'steady': 'an input is steady while no configuration that was sent since a block settled it ignores it',
  'late': 'a block is late if its stamp is 65,536 ms or more after that of the latest block without C: the 16 bits that an entry has for its time are then not enough',
  'excuses': 'a load of the counter can take effect at any time after it was sent, so each excuses one breach of a rule on time',
  'gap mark': 'an item of the record which says that entries are missing there: the buffer of the module had overflowed (F)',
  'item': 'an item of a configuration (51) says of one input whether it is reported, and its filters',
};
// The answer: whether transitions are lost, where and why. Its numbers have commas, and their words are in COUNTED.
export const ANSWER = {
  few: 'Too few blocks to say.',
  unfit: 'This log is not of one link in order, so nothing is said.',
  whole: 'Nothing is lost: {transitions}{span}, each once.',
  whole_one: 'Nothing is lost: 1 transition{span}, once.',
  whole_none: 'Nothing is lost: no transition{span}.',
  span: ' from {first} to {last}',
  again: '{answers} lost, and asked for again.',
  silent: '{polls} no answer.',
  lost: "Transitions are lost at {places} at least; first in {place}: the module's buffer overflowed{pause}.",
  lost_one: "Transitions are lost at 1 place at least; in {place}: the module's buffer overflowed{pause}.",
  pause: ', {pause} after the poll before',
  plan: 'For {inputs} with filter {filter} a poll each {every} is often enough, and an outage of {outage} loses nothing (plan).',
  rest: 'Nothing is lost in what this log has{share}{gaps}.',
  rest_lost: 'Nothing else is lost in what this log has{share}{gaps}.',
  share: ', {share} % of the time',
  missing: '; at {places} at least {blocks} not in it',
  missing_empty: '; at {places} at least {blocks} not in it, which may have had no entries',
  unknown: '; at {places} the log does not say it',
  restarts: 'The module was restarted {times}; what waited in it then is not recorded.',
  disbelieved: 'At {places} entries are not to be believed{below}.',
  below: ' (below)',
};
// How many, of one and of several.
export const COUNTED = {
  transitions: ['1 transition', '{count} transitions'],
  answers: ['1 answer was', '{count} answers were'],
  polls: ['1 poll had', '{count} polls had'],
  places: ['1 place', '{count} places'],
  blocks: ['1 block is', '{count} blocks are'],
  times: ['once', '{count} times'],
  inputs: ['1 input', '{count} inputs'],
};
// What to do, by the rule that is broken.
export const CURES = {
  advance: 'If this is not the log of the CPU, log there.',
  restarted: 'Look at its supply, and configure its inputs again.',
};
