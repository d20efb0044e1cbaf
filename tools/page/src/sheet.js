// The message that is selected: beside the table if there is room, else a sheet over it, which a tap on a row opens and the
// key Escape, a button or a tap beside it closes.

import { element } from './dom.js';

// Up to this width there is no room beside the table. style/messages.css has the same width.
const NARROW = 'screen and (max-width: 60rem)';

export class Sheet {
  // `step(by)` goes to the message that many rows on.
  constructor(step) {
    this.narrow = matchMedia(NARROW);
    this.body = element('div', { class: 'sheet-body' });
    // A tap on what is around it closes it.
    this.root = element('dialog', { class: 'detail', 'aria-label': 'The selected message', onclick: ({ target }) => target === this.root && this.narrow.matches && this.root.close() },
      element('div', { class: 'sheet-bar' },
        element('button', { id: 'sheet-before', 'aria-label': 'The message above', onclick: () => step(-1) }, '▲'),
        element('button', { id: 'sheet-next', 'aria-label': 'The message below', onclick: () => step(1) }, '▼'),
        element('button', { id: 'sheet-close', autofocus: true, onclick: () => this.root.close() }, 'Close')),
      this.body);
    this.narrow.addEventListener('change', () => this.fit());
    this.fit();
  }

  // Beside the table it is always there.
  fit() {
    this.root.close();
    if (this.narrow.matches) return;
    this.root.setAttribute('open', '');
    this.root.setAttribute('role', 'complementary');
  }

  show(content, isOpened) {
    this.body.replaceChildren(content);
    if (!this.narrow.matches || !isOpened || this.root.open) return;
    this.root.removeAttribute('role');
    this.root.showModal();
  }
}
