// What was typed, kept in the browser across a reload. Where the browser keeps nothing, the page works without.

const KEY = 'hutplan desk';

export const store = {
  load() {
    try {
      const { text, demands } = JSON.parse(localStorage.getItem(KEY)) ?? {};
      return typeof text === 'string' ? { text, demands: new Map(Object.entries(demands ?? {})) } : null;
    } catch {
      return null;
    }
  },
  save(text, demands) {
    try {
      localStorage.setItem(KEY, JSON.stringify({ text, demands: Object.fromEntries(demands) }));
      return true;
    } catch {
      return false;
    }
  },
  forget() {
    try {
      localStorage.removeItem(KEY);
    } catch {
      // Nothing was kept.
    }
  },
};
