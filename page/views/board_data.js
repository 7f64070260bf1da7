// What a board shows, as the tracker told it last: columns of keys, and the issues behind the keys.

import { ask } from '../calls.js';
import { valued } from '../jql.js';

const AT_MOST = 1000;
const PART = 100;
// What a card shows, and the reporter, by whom conditions may go.
const FIELDS = ['summary', 'status', 'type', 'assignee', 'reporter', 'priority', 'points', 'labels', 'due'];

/** The board of this number. */
export function boardData(number, signal) {
  const issues = new Map();
  let columns = [];
  let all = 0;
  let last = '';
  let askedAt = 0;

  async function load() {
    const came = await ask('board', { board: number, count: AT_MOST }, { signal });
    const text = JSON.stringify(came);
    if (text === last) return false;
    last = text;
    ({ columns } = came);
    all = came.total;
    for (const { status, issues: keys } of columns) {
      for (const key of keys) {
        const known = issues.get(key);
        if (known) known.fields.status = status;
      }
    }
    return true;
  }

  /** The board again, and the issues that changed since; whether anything differs. */
  async function again() {
    const since = Math.ceil((Date.now() - askedAt) / 60_000) + 1;
    const now = Date.now();
    const differs = await load();
    let changed = 0;
    if (since > 999) {
      issues.clear();
    } else {
      for (const issue of await changedSince(since)) {
        const known = issues.get(issue.issue);
        if (!known || JSON.stringify(known) === JSON.stringify(issue)) continue;
        issues.set(issue.issue, issue);
        changed += 1;
      }
    }
    askedAt = now;
    return differs || changed > 0;
  }

  /** The issues that changed in so many minutes, part by part. */
  async function changedSince(minutes) {
    const found = [];
    let total = 1;
    while (found.length < total) {
      const came = await ask('list',
        { jql: `updated >= "-${minutes}m"`, fields: FIELDS, from: found.length, count: PART },
        { signal },
      );
      if (came.issues.length === 0) break;
      found.push(...came.issues);
      ({ total } = came);
    }
    return found;
  }

  /** Reads the issues that aren't known yet, those at the heads of columns first. `told` gets the keys of each part. */
  async function fill(told) {
    const wanted = byHeads(columns).filter((key) => !issues.has(key));
    if (askedAt === 0) askedAt = Date.now();
    const parts = [];
    for (let at = 0; at < wanted.length; at += PART) parts.push(wanted.slice(at, at + PART));
    await Promise.all(parts.map(async (keys) => {
      const came = await ask('list',
        { jql: `key IN (${keys.map(plainly).join(', ')})`, fields: FIELDS, count: PART },
        { signal },
      );
      for (const issue of came.issues) issues.set(issue.issue, issue);
      told(keys);
    }));
  }

  /** Who changed an issue last, or "Somebody". */
  async function lastBy(key) {
    try {
      const { entries, total } = await ask('history', { issue: key }, { signal });
      const end = total > entries.length
        ? (await ask('history', { issue: key, from: total - 1 }, { signal })).entries
        : entries;
      return end.at(-1)?.by ?? 'Somebody';
    } catch {
      return 'Somebody';
    }
  }

  /** The board's name, and its filter's query where the caller is told it. */
  async function about() {
    const [{ boards }, { filters }] = await Promise.all([
      ask('boards', {}, { signal }),
      ask('filters', {}, { signal }),
    ]);
    const board = boards.find((one) => one.board === number);
    return board && { ...board, jql: filters.find((one) => one.filter === board.filter)?.jql };
  }

  return {
    about,
    load,
    again,
    fill,
    lastBy,
    forget: () => { last = ''; },
    columns: () => columns,
    issue: (key) => issues.get(key),
    totals: () => ({ all, shown: columns.reduce((sum, one) => sum + one.issues.length, 0) }),
  };
}

function plainly(key) {
  return /^[A-Z]+-[0-9]+$/.test(key) ? key : valued(key);
}

/** All keys, the first of each column before the second of any. */
function byHeads(columns) {
  const longest = Math.max(0, ...columns.map((one) => one.issues.length));
  const keys = [];
  for (let at = 0; at < longest; at += 1) {
    for (const { issues } of columns) if (at < issues.length) keys.push(issues[at]);
  }
  return keys;
}
