// The view Plan: how often to poll, how late a transition can be, how long an outage may last.

import { BLOCK_ENTRIES, INPUTS, MOST_WAITING, STANDARD_WAITING } from './constants.js';
import { byId, counted, element, withCommas } from './dom.js';
import { planOf, rowOf } from './planning.js';

const SLIDERS = [
  ['inputs', 'How many inputs are open?', 1, INPUTS, INPUTS],
  ['filter', 'How long is the shortest filter, in samples?', 1, 255, 5],
  ['pace', 'How often does the CPU poll, in milliseconds?', 1, 255, 18],
  ['lost', 'How many rounds in a row may be lost?', 0, 8, 0],
  ['outage', 'How long does an outage last, in milliseconds?', 0, 3000, 80],
  ['waiting', 'How many entries may wait in the module?', 1, MOST_WAITING, STANDARD_WAITING],
  ['rate', 'How many bits does the line carry in a second?', 1200, 2000000, 614400],
  ['drift', 'By how many parts in a million is its clock faster or slower than the module’s?', 0, 10000, 100],
  ['jitter', 'How late may a poll be by that clock, in milliseconds?', 0, 255, 0],
  ['stop_bits', 'How many stop bits has an octet? 0: a synchronous line', 0, 2, 0],
];

export class PlanView {
  // A block takes as many entries as it can.
  chosen = { per_block: BLOCK_ENTRIES };

  // `paceOf` gives the least pace over a line.
  constructor(paceOf) {
    this.paceOf = paceOf;
    byId('sliders').addEventListener('submit', (event) => event.preventDefault());
    byId('sliders').append(...SLIDERS.map((slider) => this.slider(...slider)));
    this.draw();
  }

  // A slider with the number beside it, which can be typed too.
  slider(name, words, least, most, first) {
    this.chosen[name] = first;
    const limits = { min: String(least), max: String(most), value: String(first) };
    const take = (event) => {
      const value = this.chosen[name] = Math.min(most, Math.max(least, Math.round(Number(event.target.value) || 0)));
      (event.target === range ? number : range).value = String(value);
      this.draw();
    };
    const range = element('input', { type: 'range', id: 'plan-' + name, ...limits, 'aria-label': words, oninput: take });
    const number = element('input', { type: 'number', ...limits, 'aria-label': words + ', as a number', oninput: take });
    return element('div', { class: 'slider' }, element('span', {}, words), range, number);
  }

  draw() {
    const plan = planOf(this.chosen), least = this.paceOf(this.chosen), { inputs, filter, pace, lost, outage, rate } = this.chosen, verdict = byId('plan-verdict');
    const isInPace = least !== null && least.scans <= pace;
    verdict.className = plan.isInTime && plan.isRiddenOut && isInPace ? 'good' : 'bad';
    verdict.textContent = (plan.isInTime
      ? `A round every ${pace} ms is often enough${lost ? ` with ${counted(lost, 'lost round')} in a row` : ''}: nothing is lost.`
      : plan.startEvery > 0 ? `A round every ${pace} ms is too seldom: start one at least every ${plan.startEvery} ms.`
        : lost ? 'No pace is often enough for so many lost rounds.' : 'No pace is often enough if so few entries may wait.')
      + (plan.isRiddenOut ? '' : ` In an outage of ${outage} ms transitions may be lost.`)
      + (isInPace ? '' : ` For that a line of ${withCommas(rate)} bit/s is too slow.`);
    const rows = [
      ['The CPU has to poll at least every', plan.startEvery + ' ms',
        `Each open input changes at most once in ${filter} ms. So what can change between two rounds that get through `
          + (plan.isFewWaiting ? 'has room among the entries that may wait' : `fits into a block, which takes ${BLOCK_ENTRIES} entries`)
          + (lost ? `; with ${counted(lost, 'lost round')} in a row, poll ${lost + 1} times as often` : '')],
      ...plan.isInTime ? [
        ['The most entries that wait', withCommas(plan.waits), 'What can change, less what the blocks took'],
        ['A transition is in a block after at most', plan.late + ' ms', `It waits for the next round${lost ? ', or for one after lost ones' : ', and for the entries above it'}`],
      ] : [],
      ['The longest outage that loses nothing, if nothing waits before it', withCommas(plan.longestOutage) + ' ms',
        'What can change in it has room among the entries that may wait'],
      [`The most entries that wait after ${withCommas(outage)} ms without a poll`, withCommas(plan.after), 'What can change in it, or all that there is room for; computed, not proved'],
      ['Clean rounds until these are in the record', String(plan.caughtUpIn), `Each takes a block, up to ${BLOCK_ENTRIES} entries`],
      [`Over a line of ${withCommas(rate)} bit/s the CPU can poll every`, least ? least.scans + ' ms' : 'no pace',
        least ? `A round takes at most ${least.round} ms, and ends before the next one; a transition is in the record after at most ${withCommas(least.late)} ms`
          : 'No round that is often enough ends before the next one'],
    ];
    byId('plan-answers').replaceChildren(...rows.map(([what, number, why]) => element('tr', {},
      element('th', { scope: 'row' }, what), element('td', { class: 'mono' }, number), element('td', { class: 'soft' }, why))));
    byId('plan-row').replaceChildren(...rowOf(inputs, filter).map((number) => element('td', { class: 'mono' }, withCommas(number))));
  }
}
