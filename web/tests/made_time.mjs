/* Time that is made: what is to be done when, the next one first. It stands still while something is done. */

export const made = { time: 0, next: 1, acts: [] };
performance.now = () => made.time;
globalThis.setTimeout = (act, wait = 0) => {
  const id = made.next++;
  made.acts.push({ id, act, at: made.time + wait });
  return id;
};
globalThis.clearTimeout = (id) => {
  made.acts = made.acts.filter((it) => it.id !== id);
};

/** Lets time pass until there is nothing left to do. */
export function pass() {
  while (made.acts.length) {
    const next = made.acts.reduce((first, it) => (it.at < first.at || (it.at === first.at && it.id < first.id) ? it : first));
    made.acts.splice(made.acts.indexOf(next), 1);
    made.time = Math.max(made.time, next.at);
    next.act();
  }
}

/** Numbers of chance, the same each time. */
export function chanceOf(seed) {
  let state = seed;
  return () => {
    state = (Math.imul(state, 1664525) + 1013904223) >>> 0;
    return state / 2 ** 32;
  };
}
