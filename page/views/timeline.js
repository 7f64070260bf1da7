// An issue's history, the newest change first, read by parts.

import { ask } from '../calls.js';
import { h, put, refill } from '../dom.js';
import { shownMoment, textOf } from '../fields/values.js';
import { button, person, statusBadge, waitingLines } from '../parts/small.js';
import { labelOf } from '../team.js';
import { plural } from '../texts.js';

const PART = 50;

/** The timeline of an issue: `begin` reads its end, `more` what came since. */
export function timeline({ key, signal }) {
  const list = h('ol', { class: 'timeline', reversed: true });
  const foot = h('div', {});
  const element = h('div', {}, list, foot);
  let entries = [];
  let from = 0;
  let total = 0;
  let issue = null;
  let hasBegun = false;

  const part = (begin, count) => ask('history', { issue: key, from: begin, count }, { signal });

  async function begin(shown) {
    issue = shown;
    refill(list, h('li', {}, waitingLines(2)));
    let came = await part(0, PART);
    ({ total } = came);
    if (total > PART) came = await part(total - PART, PART);
    entries = came.entries;
    from = Math.max(0, total - PART);
    hasBegun = true;
    draw();
  }

  async function more() {
    if (!hasBegun) return;
    for (;;) {
      const came = await part(total, PART);
      entries = [...entries, ...came.entries];
      total = Math.max(total, came.total);
      if (came.entries.length < PART) break;
    }
    draw();
  }

  async function older() {
    const count = Math.min(PART, from);
    const came = await part(from - count, count);
    entries = [...came.entries, ...entries];
    from -= count;
    draw();
  }

  function draw() {
    refill(list, byChanges(entries).reverse().map(change), from === 0 && birth());
    refill(foot, from > 0 && button(`Show older (${plural(from, 'entry', 'entries')})`, older));
  }

  function birth() {
    return h('li', { class: 'birth' },
      h('div', { class: 'who' }, h('span', {}, 'The issue was made'), shownMoment(issue.created)),
    );
  }

  return { element, begin, more };
}

function byChanges(entries) {
  const changes = [];
  for (const entry of entries) {
    if (changes.at(-1)?.[0].change === entry.change) changes.at(-1).push(entry);
    else changes.push([entry]);
  }
  return changes;
}

function change(entries) {
  const [{ at, by }] = entries;
  return h('li', {},
    h('div', { class: 'who' }, person(by), shownMoment(at)),
    h('ul', {}, entries.map(line)),
  );
}

function isLong(value) {
  return typeof value === 'string' && (value.length > 90 || value.includes('\n'));
}

function line({ field, from, to }) {
  if (field === 'status') return h('li', {},
    h('b', {}, 'Status '),
    statusBadge(from),
    h('span', { class: 'arrow' }, ' → '),
    statusBadge(to),
  );
  if (isLong(from) || isLong(to)) {
    return h('li', {},
      h('details', {},
        h('summary', {}, h('b', {}, labelOf(field)), ' was changed'),
        h('del', {}, textOf(field, from)),
        h('ins', {}, textOf(field, to)),
      ),
    );
  }
  return put(h('li', {}, h('b', {}, `${labelOf(field)} `)),
    h('del', { class: from === null ? 'none' : '' }, textOf(field, from)),
    h('span', { class: 'arrow' }, ' → '),
    h('ins', { class: to === null ? 'none' : '' }, textOf(field, to)),
  );
}
