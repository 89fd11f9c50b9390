// @ts-check
// The browser's own storage, which some browsers refuse: for all visits, and for each tab.

/**
 * Returns what reads and writes a storage. `read` returns a stored value; null if there is none. `write` stores a value, or removes it if it
 * is null; it returns false if the browser has no room, and the older value stays.
 * @param {() => Storage} storage
 */
const uses = storage => ({
  /** @param {string} key */
  read(key) {
    try {
      return storage().getItem(key);
    } catch {
      return null;
    }
  },
  /** @param {string} key @param {string | null} value */
  write(key, value) {
    try {
      if (value === null) storage().removeItem(key);
      else storage().setItem(key, value);
      return true;
    } catch {
      return false;
    }
  },
});

const ofVisits = uses(() => localStorage);
const ofTab = uses(() => sessionStorage);
export const kept = ofVisits.read;
export const keep = ofVisits.write;
export const keptInTab = ofTab.read;
export const keepInTab = ofTab.write;
