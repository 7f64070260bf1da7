// What was typed and isn't in the tracker yet. It stays in the browser, under the user's name, until it is sent or given up.

const STEM = 'vuglastej draft';
const KEEP = 30 * 86_400_000;

function nameOf(user, subject) {
  return `${STEM} ${user} ${subject}`;
}

/** Keeps a value under a subject. */
export function keepDraft(user, subject, value) {
  try {
    localStorage.setItem(nameOf(user, subject), JSON.stringify({ at: Date.now(), value }));
  } catch {
    // The browser keeps nothing; what was typed still stands in the page.
  }
}

/** The value that was kept, or undefined. */
export function draftOf(user, subject) {
  try {
    return JSON.parse(localStorage.getItem(nameOf(user, subject)))?.value;
  } catch {
    return undefined;
  }
}

/** It was sent, or given up. */
export function dropDraft(user, subject) {
  try {
    localStorage.removeItem(nameOf(user, subject));
  } catch {
    // Nothing was kept.
  }
}

/** Forgets drafts that are older than a month. */
export function sweepDrafts() {
  try {
    for (const name of Object.keys(localStorage)) {
      if (!name.startsWith(STEM)) continue;
      if (!(Date.now() - JSON.parse(localStorage.getItem(name)).at < KEEP)) localStorage.removeItem(name);
    }
  } catch {
    // Nothing was kept.
  }
}
