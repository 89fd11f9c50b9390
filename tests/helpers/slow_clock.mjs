// A clock by hand, for work in slices: each look at it takes longer than a slice, and timers run out when the test says so.

/** Calls a function with such a clock; it receives what lets the timers run out that wait now. */
export function withSlowClock(act) {
  const names = ['performance', 'setTimeout', 'clearTimeout'];
  const own = names.map(name => Object.getOwnPropertyDescriptor(globalThis, name));
  let time = 0;
  let last = 0;
  const waiting = new Map();
  const values = {
    performance: { now: () => (time += 1000) },
    setTimeout: act => {
      waiting.set(last += 1, act);
      return last;
    },
    clearTimeout: timer => waiting.delete(timer),
  };
  for (const name of names) Object.defineProperty(globalThis, name, { value: values[name], configurable: true, writable: true });
  try {
    act(() => {
      const acts = [...waiting.values()];
      waiting.clear();
      for (const it of acts) it();
    });
  } finally {
    names.forEach((name, at) => Object.defineProperty(globalThis, name, own[at]));
  }
}
