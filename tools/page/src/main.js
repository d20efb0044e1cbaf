// Starts the library and the views, and says so where this browser can't.

import { byId, element } from './dom.js';
import { InputsView } from './inputs.js';
import { Arena, Library } from './library.js';
import { readAny } from './line.js';
import { Log } from './log.js';
import { LogReader } from './log_reader.js';
import { inflated, startMachine } from './machine.js';
import { MessagesView } from './messages.js';
import { OpenView } from './open.js';
import { PlanView } from './plan.js';
import { PlayView } from './play.js';
import { inSlices, part } from './slices.js';
import { Tabs } from './tabs.js';

function trouble(text) {
  byId('trouble').textContent = text;
  byId('trouble').hidden = text === '';
}

function useTheme() {
  const dark = matchMedia('(prefers-color-scheme: dark)'), { dataset } = document.documentElement;
  const set = (isDark) => { dataset.theme = isDark ? 'dark' : 'light'; };
  set(dark.matches);
  dark.addEventListener('change', () => set(dark.matches));
  // Paper is light.
  let before = '';
  window.addEventListener('beforeprint', () => {
    before = dataset.theme;
    set(false);
  });
  window.addEventListener('afterprint', () => set(before === 'dark'));
  byId('theme').addEventListener('click', () => set(dataset.theme !== 'dark'));
}

// Reads and judges a log.
function* logOf(library, arena, logReader, name, octets, chosen) {
  const found = yield* part(0, 0.6, readAny(library, logReader, name, octets, chosen));
  return yield* part(0.6, 1, new Log(library, arena, name, found, chosen.end).work());
}

function startViews(library, examples) {
  const arena = new Arena(library), logReader = new LogReader(library);
  const tabs = new Tabs((name) => name === 'inputs' && inputs.draw());
  window.addEventListener('click', ({ target }) => target.matches('[data-back]') && tabs.show('open'));
  const messages = new MessagesView((octets) => library.showOctets(octets));
  const inputs = new InputsView((place) => {
    tabs.show('messages');
    messages.goTo(place);
  });
  // What is read last is shown.
  let latest = null;
  const open = async (name, octets, chosen) => {
    const own = latest = {}, stop = () => {
      latest = null;
      messages.close(`${name} was not read to its end`, element('p', {}, 'Nothing of it is shown.'));
    };
    trouble('');
    tabs.show('messages');
    const log = await inSlices(logOf(library, arena, logReader, name, octets, chosen), (share) => {
      if (latest !== own) return false;
      inputs.close();
      messages.showReading(name, share, stop);
      return true;
    }).catch((reason) => {
      inputs.close();
      messages.close(`${name} could not be read`, element('p', {}, reason.message));
    });
    if (!log) return;
    messages.open(log, octets, () => open(name, octets, { ...chosen, form: 'any' }));
    inputs.open(log);
    document.documentElement.dataset.opened = name;
  };
  new OpenView(examples, open);
  new PlanView((line) => library.plan(line));
  const play = new PlayView(library, examples);
  if (play.openFragment(location.hash)) tabs.show('play');
}

async function start() {
  useTheme();
  window.addEventListener('error', (event) => trouble(event.message));
  window.addEventListener('unhandledrejection', (event) => trouble(event.reason.message));
  const bits = new URLSearchParams(location.search).get('bits'), builds = BUILDS.filter((build) => bits === null || build.bits === Number(bits));
  const library = new Library(await startMachine(builds)), { build } = library.machine;
  // Some browsers run the library, and pass it no numbers of 64 bits.
  library.show(library.frame, 0);
  if (build.bits === 32) byId('lowered').textContent = ', wasm-opt, which lowered it to 32-bit addresses,';
  trouble('');
  startViews(library, JSON.parse(new TextDecoder().decode(await inflated(EXAMPLES))));
  document.documentElement.dataset.bits = String(build.bits);
}

start().catch((reason) => trouble(`${byId('trouble').textContent} (${reason.message})`));
