// Elements by a call each. Text is always text: nothing of a log becomes markup.

// An element with attributes, listeners (`onclick`) and children, which are elements or texts.
export function element(name, attributes = {}, ...children) {
  const made = document.createElement(name);
  for (const [key, value] of Object.entries(attributes)) {
    if (key.startsWith('on')) made.addEventListener(key.slice(2), value);
    else if (value !== false) made.setAttribute(key, value === true ? '' : value);
  }
  made.append(...children);
  return made;
}

export const byId = (id) => document.getElementById(id);

// Says a sentence to those who hear the page, once.
export function say(text) {
  byId('said').textContent = text;
}

export const saveText = (name, text) => save(name, new Blob([text], { type: 'text/plain' }));

// Saves what a blob has as a file.
export function save(name, blob) {
  const link = element('a', { href: URL.createObjectURL(blob), download: name });
  link.click();
  setTimeout(() => URL.revokeObjectURL(link.href), 1000);
}

export const withCommas = (number) => String(number).replace(/\B(?=(\d{3})+$)/g, ',');

export const capital = (words) => `${words[0].toUpperCase()}${words.slice(1)}`;

// Words as a sentence.
export const sentence = (words) => words && `${capital(words)}.`;

// A number with its noun, as `1 gap mark`.
export const counted = (number, noun, several = `${noun}s`) => `${withCommas(number)} ${number === 1 ? noun : several}`;
