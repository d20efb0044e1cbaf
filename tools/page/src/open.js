// The view Open: a log is dropped, chosen, pasted, or taken from the examples.

import { byId, element } from './dom.js';
import { fromHex, fromLetters } from './hex.js';
import { ENDS } from './judging.js';
import { LINE_WAYS } from './line.js';
import { REWRITINGS } from './rewriting.js';
import { ANY, OWN } from './wire.js';

const MOST_OCTETS = 256 * 2 ** 20;
// Three examples that tell a story: a title, and what is to be seen.
const STORIES = [
  ['lost-answer.transcript', 'An answer gets lost', 'The CPU does not hear a block, and asks for it again. The module sends the same block once more and marks it: nothing is lost, nothing comes twice.'],
  ['doubled-entry.transcript', 'A module counts a vehicle twice', 'Every message is in order, and still one entry comes in two blocks. Only the rules on what entries say find it.'],
  ['given-up-block.transcript', 'A CPU gives up too early', 'The CPU asks for the next block although the last one was never answered: what was in it is gone for good.'],
];
// Logs of other tools, which do not begin with what they are about.
const IN_WORDS = {
  'module-log.txt': 'A log taken at the module: its directions are those of the other end.',
  'octets.txt': 'Octets alone, with a comment, and a line that is cut.',
  'powershell.txt': 'Times and directions as PowerShell writes them.',
  'sdlc.txt': 'Frames of SDLC, with flags and frame check.',
  'two-stations.txt': 'Two modules on one line, each by its address.',
};

export class OpenView {
  // `open(name, octets, chosen)` opens a log, which was taken at an end, and is read in a form.
  constructor(examples, open) {
    Object.assign(this, { open, examples, address: byId('address'), zone: document.querySelector('.drop') });
    const names = Object.keys(examples).filter((name) => !name.endsWith('.script') && !STORIES.some(([story]) => story === name));
    byId('stories').append(...STORIES.map(([name, title, says]) => this.item(name, title, says, element('small', { class: 'mono' }, name))));
    byId('examples').append(...names.map((name) => this.item(name, name, IN_WORDS[name] || /^# (.*)/m.exec(examples[name])[1])));
    byId('more-examples').firstChild.textContent = `${names.length} more examples: each form of log, each rule broken once`;
    this.listen(byId('file'), byId('form'));
    window.addEventListener('dragover', (event) => event.preventDefault());
    window.addEventListener('drop', (event) => this.dropped(event));
    for (const name of ['dragenter', 'dragleave']) this.zone.addEventListener(name, () => this.zone.classList.toggle('over', name === 'dragenter'));
  }

  listen(file, form) {
    form.append(...Object.entries({ ...REWRITINGS, ...LINE_WAYS }).map(([value, words]) => element('option', { value }, words)));
    form.addEventListener('change', () => {
      byId('pattern').parentElement.hidden = form.value !== 'pattern';
      this.address.parentElement.hidden = !(form.value in LINE_WAYS);
    });
    byId('choose').addEventListener('click', () => file.click());
    file.addEventListener('change', () => {
      const [chosen] = file.files;
      // It can be chosen again once it has grown.
      file.value = '';
      this.read(chosen);
    });
    byId('open-paste').addEventListener('click', () => this.give('pasted text', new TextEncoder().encode(byId('paste').value)));
  }

  item(name, title, says, ...more) {
    const open = () => this.open(name, fromLetters(this.examples[name]), { form: 'auto', end: ENDS.auto });
    return element('li', {}, element('button', { 'data-example': name, onclick: open }, element('b', {}, title), element('span', {}, says), ...more));
  }

  dropped(event) {
    const { files } = event.dataTransfer, text = event.dataTransfer.getData('text/plain');
    // A text that is dropped where one is written stays there.
    if (files.length === 0 && event.target.matches('textarea, input')) return;
    event.preventDefault();
    this.zone.classList.remove('over');
    if (files.length > 0) this.read(files[0]);
    else if (text) this.give('dropped text', new TextEncoder().encode(text));
  }

  async read(file) {
    if (!file) return;
    if (file.size > MOST_OCTETS) throw new Error(`${file.name} has more than ${MOST_OCTETS} octets.`);
    this.give(file.name, new Uint8Array(await file.arrayBuffer()));
  }

  give(name, octets) {
    this.open(name, octets, { form: byId('form').value, end: byId('end').value, own: this.own, pattern: byId('pattern').value });
  }

  // The address and control octet that are judged.
  get own() {
    const { value, validity } = this.address, [address, control = OWN.control] = fromHex(value);
    if (value === 'any') return ANY;
    return validity.valid && value !== '' ? { address, control } : OWN;
  }
}
