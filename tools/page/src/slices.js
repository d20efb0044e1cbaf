// Long work in slices, so that the page answers meanwhile. Work is a generator that yields which share of it is done, from 0 to 1, and
// returns what it makes.

// How many elements are worked on until a share is yielded, and for how many milliseconds the page does not answer.
const AT_ONCE = 512, LONGEST_SLICE = 30;

// Does something with each number below a count, and returns for how many it was true.
export function* each(count, act) {
  let found = 0;
  for (let index = 0; index < count; index++) {
    if (index % AT_ONCE === 0) yield index / count;
    if (act(index) === true) found += 1;
  }
  return found;
}

// Work that is a part of other work, from one share of that to another.
export function* part(from, to, work) {
  let next = work.next();
  for (; !next.done; next = work.next()) yield from + (to - from) * next.value;
  return next.value;
}

// What work makes, in slices. Between two of them `goesOn(share)` is called: undefined is returned if it is false.
export async function inSlices(work, goesOn) {
  const { port1, port2 } = new MessageChannel();
  let next = work.next();
  for (let begun = performance.now(); !next.done; next = work.next()) {
    if (performance.now() - begun < LONGEST_SLICE) continue;
    if (!goesOn(next.value)) return undefined;
    // A timer would wait for a second in a tab that is not seen.
    await new Promise((done) => { port1.onmessage = done; port2.postMessage(0); });
    begun = performance.now();
  }
  port1.close();
  return next.value;
}
