// The view Messages: the verdict, what was counted, a search, the table, and the message that is selected.

import { LOG_FORMS, LOG_SIDES } from './constants.js';
import { byId, counted, element, saveText, say, sentence, withCommas } from './dom.js';
import { detailOf } from './detail.js';
import { FILES } from './files.js';
import { asLatin, hexText } from './hex.js';
import { ENDS } from './judging.js';
import { FACTS } from './log.js';
import { TERMS } from './log_words.js';
import { hasNotes, noteOf } from './rules.js';
import { Sheet } from './sheet.js';
import { VirtualTable } from './table.js';

const DIRECTIONS = { [LOG_SIDES.noSide]: '', [LOG_SIDES.fromCpu]: 'CPU → module', [LOG_SIDES.fromModule]: 'module → CPU' };
const SHOWN_OCTETS = 40;
// The columns of the table: a head, a width and a kind.
const COLUMNS = [['Line', '3.6rem', 'number'], ['Time', 'var(--time)', 'time'], ['Direction', '7rem', 'way'],
  ['Message', 'var(--words)', 'words'], ['Note', 'var(--rule)', 'rule'], ['Octets', 'var(--octets)', 'octets']];
// What is said of a log by its form, after its name.
const FORMS = ['', ', read as frames', ', read as a transcript'];
const SYMBOLS = { good: '✓', partly: '✓', few: '?', unjudged: '?', missing: '!', restarted: '!', lost: '!', broken: '✗', none: '?' };
// What words of a verdict mean.
const WORDS = {
  entry: 'a change of an input, with its time, in a block of the module (182)',
  'gap mark': TERMS['gap mark'],
  seam: 'a place where this log does not show that the transitions of a block follow those of the block above it: some are lost, blocks are not in the log, or the module was restarted',
  'clear block': TERMS.clear,
  sync: 'what the rules know of the block that is due: it is lost at a breach, a restart and a line that may have held a message, and nothing is judged from there to the next poll',
  'own profile': 'what this project chose where TEES 2009 leaves a choice: a device that chose otherwise breaks such a rule, and may be right',
};

// How many lines are skipped, and why, the most frequent reasons first; and how the others are read, a sentence each.
function passedWords({ passed, remarks }) {
  const reasons = [...passed].sort(([, one], [, other]) => other - one);
  const words = reasons.map(([reason, count]) => reason + (reasons.length > 1 ? ` ${withCommas(count)}` : ''));
  const skipped = words.length === 0 ? [] : [`${counted([...passed.values()].reduce((sum, count) => sum + count), 'line')} skipped: ${words.join(', ')}.`];
  return [...skipped, ...remarks.map(sentence)].map((one) => ' ' + one).join('');
}

// The noun of a fact. What may be no message is a row too.
function nounOf({ summary }, name, noun) {
  const words = name === 'messages' && summary.badLines > 0 ? 'row' : noun;
  return summary[name] === 1 ? words : words.replace(/y$/, 'ie').replace(/h$/, 'he') + 's';
}

// The octets that show what a file is.
const SHOWING = 4096;
// Four octets in a line.
const HAS_OCTETS = /(?<![0-9a-z])(?:[0-9a-f]{2}[ ,:;|-]){3}[0-9a-f]{2}(?![0-9a-z])/i;

// One sentence on a file.
function kindOf(file) {
  const first = asLatin(file.subarray(0, SHOWING)), found = Object.values(FILES).find(({ begins }) => begins.test(first));
  if (found) return `It is ${found.is}${found.act === '' ? '' : `: ${found.act}`}.`;
  return HAS_OCTETS.test(first) ? 'It is text with octets that are no message. Perhaps it is a log of another link, or the bits of its octets are in reverse order.'
    : 'It is text without octets of a message.';
}

// What can be read, with an example of each.
const CAN_READ = [
  ['Octets as hexadecimal digits, a frame a line', '36ff\nb6ff010000010200000001'],
  ['A transcript: > before what the CPU sent, < before what it heard', '> 36ff\n< b6ff010000010200000001'],
  ['A log with times and directions, as terminals and analysers write it', '07:15:02.100 TX 36 05\n07:15:02.108 RX B6 05 00 00 00 00 03 E8'],
  ['A hex dump, with or without a column of characters', '0000  b6 05 00 00 00 00 00 01'],
  ['SDLC frames with their flags; also files of a line’s octets, or of its bits as 0 and 1', '7E 14 83 36 01 E0 5D 7E 14 83 36 02 7B 6F 7E'],
  ['A table with a header, or JSON, with a key or a column of octets', 'time,direction,data\n0.100,TX,36 05\n0.108,RX,B6 05 00 00 00 00 03 E8'],
];

export class MessagesView {
  // `textOf(octets)` gives the lines of a message.
  constructor(textOf) {
    Object.assign(this, { textOf, none: byId('no-log'), search: byId('search'), way: byId('way') });
    this.search.addEventListener('input', () => this.searchSoon());
    this.way.addEventListener('change', () => this.narrow({ way: this.way.value }));
    byId('save').addEventListener('click', () => saveText(this.log.name + '.shown', this.log.showText()));
    byId('words').append(listOf(Object.entries(WORDS)));
    this.sheet = new Sheet((by) => this.table.select(this.table.selected + by, true));
    this.table = new VirtualTable('Messages', COLUMNS, (place) => this.draw(place), (place, isOpened) => this.choose(place, isOpened));
    byId('messages').append(this.table.root, this.sheet.root);
    this.close('No log is open', element('p', {}, 'Here each message of a log has a row: its words, its octets, and the rule that it breaks.'));
  }

  // Shows no log, and this in its place.
  close(head, ...says) {
    this.log = null;
    this.showNone(head, ...says, back());
  }

  showNone(head, ...says) {
    byId('log').hidden = true;
    this.none.hidden = false;
    this.none.replaceChildren(element('h2', {}, head), ...says);
  }

  // Says which share of a log is read; `stop()` ends that.
  showReading(name, share, stop) {
    if (this.stop !== stop) {
      Object.assign(this, { log: null, stop, share: element('p', { id: 'reading-share' }) });
      this.showNone(name, this.share, element('p', {}, element('button', { id: 'stop', onclick: stop }, 'Stop')));
      say(`Reading ${name}`);
    }
    this.share.textContent = `Reading .. ${Math.floor(100 * share)} %`;
  }

  // Shows a log; `file` are its octets, and `readAsAny()` reads them as those of any log.
  open(log, file, readAsAny) {
    this.log = log;
    const has = { times: log.hasTimes, notes: hasNotes(log), rules: log.breaches.size + log.restarts.size > 0,
      doubts: log.damaged.size + log.others.size > 0 };
    for (const [what, isSo] of Object.entries(has)) this.table.root.classList.toggle('has-' + what, isSo);
    byId('log').hidden = false;
    this.drawVerdict();
    this.drawFacts();
    const isOther = log.form !== LOG_FORMS.auto && log.summary.badLines > 0;
    byId('note').replaceChildren(this.noteOf(log), ...isOther ? [' ', element('button', { id: 'as-any', onclick: readAsAny }, 'Read it as any log')] : []);
    this.showAll();
    if (log.verdict.kind === 'none') this.showNoMessage(file);
  }

  // Says what a text is that is no log, and what can be read.
  showNoMessage(file) {
    const { log } = this;
    this.showNone(`No message was found in ${log.name}`, element('p', { id: 'no-log-kind' }, kindOf(file)),
      ...log.count === 0 ? [] : [element('p', {}, `${counted(log.count, 'line')} may have octets and could not be read, the first in line ${log.lines[0]}.`)],
      element('p', { id: 'no-log-passed' }, passedWords(log)),
      back(),
      element('p', {}, 'What can be read:'), listOf(CAN_READ.map(([what, text]) => [what, element('pre', {}, text)])));
  }

  noteOf(log) {
    const turned = log.end === ENDS.module ? ' It was taken at the module: the directions here are those of the CPU, not as the log writes them.' : '';
    const reversed = log.end === ENDS.cpu && log.isReversed ? ' Most lines say the other direction than their messages: was it taken at the module?' : '';
    return `${log.name}${FORMS[log.form]}.${turned}${reversed}${passedWords(log)}`;
  }

  // The answer, what rules say, a way to the first breach or seam, and what was not judged.
  drawVerdict() {
    const { kind, answer: [says, ...rest], text, more, first, notJudged, stations = [] } = this.log.verdict;
    const show = first < 0 ? [] : [' ', element('button', { id: 'first-breach', onclick: () => this.goTo(first) }, `Show ${this.log.where(first)}`)];
    byId('verdict').dataset.kind = kind;
    const mark = [element('strong', { 'aria-hidden': 'true' }, SYMBOLS[kind]), ' '];
    byId('verdict').replaceChildren(...says ? [element('p', { id: 'answer' }, ...mark.splice(0), element('strong', {}, says), ...rest.map((one) => ` ${one}`))] : [],
      element('p', {}, ...mark, element('span', { id: 'verdict-text' }, element(says && kind !== 'broken' ? 'span' : 'strong', {}, text), more), ...show),
    ...stations.length === 0 ? [] : [element('ul', { id: 'stations' }, ...stations.map(([address, words]) => element('li', {}, element('b', {}, address), `: ${words}`)))],
    ...notJudged.length === 0 ? [] : [element('p', { class: 'soft', id: 'not-judged' }, notJudged.join(' '))]);
  }

  drawFacts() {
    const { log } = this, facts = FACTS.filter(([name]) => log.summary[name] > 0 || name === 'messages');
    byId('facts').replaceChildren(...facts.map(([name, noun, , kind = false]) => element('li', {}, element('button',
      { class: kind, 'data-fact': name, onclick: () => this.narrow({ fact: name }) }, element('b', {}, withCommas(log.summary[name])), ' ' + nounOf(log, name, noun)))));
  }

  searchSoon() {
    clearTimeout(this.soon);
    this.soon = setTimeout(() => this.narrow({ text: this.search.value }), 150);
  }

  // Shows all messages.
  showAll() {
    this.search.value = this.way.value = '';
    this.filter = {};
    this.narrow({ fact: 'messages', way: '', text: '' });
  }

  // Shows the messages that pass the filter, changed as given.
  narrow(change) {
    const { log, filter } = this;
    if (!log) return;
    const places = this.placesOf(Object.assign(filter, change));
    byId('count').textContent = places.length === log.count ? '' : `${withCommas(places.length)} of ${withCommas(log.count)}`;
    document.querySelectorAll('[data-fact]').forEach((it) => it.setAttribute('aria-pressed', String(it.dataset.fact === filter.fact)));
    this.table.show(places);
    this.sheet.show(element('p', { class: 'none' }, 'Select a message to see its octets and fields.'), false);
    this.none.hidden = places.length > 0;
    byId('messages').hidden = places.length === 0;
    if (places.length === 0 && log.count > 0) this.none.replaceChildren(element('p', {}, 'No message of this log is like that.'));
  }

  placesOf({ fact, way, text }) {
    const { log } = this, [, , test] = FACTS.find(([name]) => name === fact), matches = this.matcher(text.trim().toLowerCase());
    const found = [];
    for (let place = 0; place < log.count; place++) {
      if (test(log, place) && (way === '' || log.directions[place] === Number(way)) && matches(place)) found.push(place);
    }
    return found;
  }

  // Whether the words, the octets or the rule of a message have what is searched.
  matcher(wanted) {
    const { log } = this, octets = wanted.replace(/\s/g, ''), isOctets = /^(?:[0-9a-f]{2})+$/.test(octets);
    const words = new RegExp('(?:^|\\s)' + wanted.replace(/[.*+?^${}()|[\]\\]/g, '\\$&') + '(?=\\s|$)', 'm');
    return (place) => wanted === '' || words.test([...log.written(place), log.station(place)].join('\n')) || noteOf(log, place).toLowerCase().includes(wanted)
      || isOctets && hexText(log.octets(place)).includes(octets);
  }

  // A row of the table.
  draw(place) {
    const { log } = this, octets = log.octets(place), note = noteOf(log, place);
    const digits = hexText(octets.subarray(0, SHOWN_OCTETS)) + (octets.length > SHOWN_OCTETS ? '…' : '');
    return { kinds: this.kindsOf(place, note), cells: [String(log.lines[place]), log.clockOf(place), DIRECTIONS[log.directions[place]], log.written(place)[0], note, digits] };
  }

  kindsOf(place, note) {
    const { log } = this, kinds = [...log.directions[place] === LOG_SIDES.fromCpu ? ['sent'] : [], ...note === '' ? ['bare'] : []];
    if (log.damaged.get(place)?.isPossible || log.others.has(place)) kinds.push('possible');
    else if (log.breaches.has(place)) kinds.push('broken');
    else if (log.restarts.has(place)) kinds.push('restarted');
    else if (log.isFaulty[place]) kinds.push('faulty');
    else if (log.seams.has(place)) kinds.push('marked');
    return kinds;
  }

  choose(place, isOpened) {
    this.sheet.show(detailOf(this.log, place, this.textOf), isOpened);
    const note = noteOf(this.log, place);
    say(this.log.written(place)[0] + (note ? ', ' + note : ''));
  }

  // Shows a message of the log, whatever was filtered.
  goTo(place) {
    this.showAll();
    this.table.selectPlace(place);
  }
}

// The way to the view Open.
const back = () => element('p', {}, element('button', { class: 'main', 'data-back': true }, 'Open a log or an example'));

// Words, each with what they mean.
function listOf(pairs) {
  return element('dl', { class: 'readable' }, ...pairs.flatMap(([word, meaning]) => [element('dt', {}, word), element('dd', {}, meaning)]));
}
