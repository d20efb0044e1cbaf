// The views as tabs: the keys left, right, Home and End go from one to another.

import { byId } from './dom.js';

export class Tabs {
  // `whenShown(name)` is called for each view that is shown.
  constructor(whenShown) {
    Object.assign(this, { whenShown, tabs: [...document.querySelectorAll('[role="tab"]')] });
    for (const tab of this.tabs) {
      tab.addEventListener('click', () => this.choose(tab));
      tab.addEventListener('keydown', (event) => this.key(event, this.tabs.indexOf(tab)));
    }
  }

  // Shows a view. The focus goes to its tab if it was in the view before.
  show(name) {
    const tab = byId('tab-' + name), isInView = document.activeElement.closest('[role="tabpanel"]') !== null;
    this.choose(tab);
    if (isInView) tab.focus({ preventScroll: true });
  }

  choose(chosen) {
    this.tabs.forEach((tab) => {
      tab.setAttribute('aria-selected', String(tab === chosen));
      tab.tabIndex = tab === chosen ? 0 : -1;
      byId(tab.getAttribute('aria-controls')).hidden = tab !== chosen;
    });
    this.whenShown(chosen.id.replace('tab-', ''));
  }

  key(event, place) {
    const { length } = this.tabs, next = this.tabs[{ ArrowRight: (place + 1) % length, ArrowLeft: (place + length - 1) % length, Home: 0, End: length - 1 }[event.key]];
    if (!next) return;
    event.preventDefault();
    this.choose(next);
    next.focus();
  }
}
