// What a search found, as a table whose heads sort. In a narrow window each issue is a block of its own.
// A row is drawn anew only where it shows something else: an answer that is the one before it touches nothing, and a step two rows.

import { arrange, fresh, h, icon, refill } from '../dom.js';
import { shown, shownMoment } from '../fields/values.js';
import { emptyState, keyLink } from '../parts/small.js';
import { sprintName } from '../sprints.js';
import { categoryOf, fieldOf, labelOf, onTeam, same } from '../team.js';
import { agoText, today } from '../texts.js';

const NO_ORDER = ['labels', 'fixVersion'];
const SHORT_KEY = 'OPS-10000'.length;
const MANY = 9;

/** The table: `fill` draws it, `step` goes up and down its issues. `sort(field)` writes the order into the query. */
export function resultsTable({ sort, signal }) {
  const head = h('tr', { role: 'row' });
  const body = h('tbody', { role: 'rowgroup' });
  const table = h('table', { class: 'list', role: 'table', 'aria-label': 'Issues found' },
    h('thead', { role: 'rowgroup' }, head),
    body,
  );
  const nothing = h('div', { hidden: true },
    emptyState('search', 'No issue fits.', 'Try another query, or one without its last condition.'),
  );
  const element = h('div', {}, table, nothing);
  const id = fresh('order');
  const order = h('select', { id, on: { change: () => order.value !== '' && sort(order.value) } });
  const orderChoice = h('span', { class: 'order narrow-only' }, h('label', { for: id }, 'Order'), order);
  let drawnHead = '';
  let rows = new Map();

  function fill({ issues, columns, keys }) {
    const now = document.activeElement?.closest('tr[data-key]')?.dataset.key;
    drawHead(columns, keys);
    const before = rows;
    rows = new Map(issues.map((issue) => [issue.issue, rowOf(issue, columns, before.get(issue.issue))]));
    arrange(body, [...rows.values()].map((one) => one.element));
    table.classList.toggle('long-keys', issues.some(({ issue }) => issue.length > SHORT_KEY));
    table.classList.toggle('many', columns.length > MANY);
    table.hidden = issues.length === 0;
    nothing.hidden = issues.length > 0;
    if (now && rows.has(now) && !rows.get(now).element.contains(document.activeElement)) {
      rows.get(now).element.querySelector('a').focus({ preventScroll: true });
    }
  }

  function drawHead(columns, keys) {
    const told = JSON.stringify([columns, columns.map(labelOf), keys[0] ?? null]);
    if (told === drawnHead) return;
    drawnHead = told;
    const now = document.activeElement?.closest('th')?.dataset.column;
    refill(head, columns.map((name) => headCell(name, keys[0])));
    if (now) head.querySelector(`th[data-column="${CSS.escape(now)}"] button`)?.focus();
    refill(order, h('option', { value: '' }, 'as asked'), columns.filter((name) => !NO_ORDER.includes(name))
      .map((name) => h('option', { value: name, selected: keys[0] ? same(keys[0].field, name) : false },
        labelOf(name),
      )));
  }

  function headCell(name, key) {
    const isKey = key !== undefined && same(key.field, name);
    const told = { role: 'columnheader', scope: 'col', class: `c-${kindOf(name)}`, 'data-column': name };
    if (NO_ORDER.includes(name)) return h('th', told, labelOf(name));
    return h('th', {
      ...told,
      'aria-sort': isKey ? (key.direction === 'ASC' ? 'ascending' : 'descending') : 'none',
    },
      h('button', { type: 'button', class: 'plain', on: { click: () => sort(name) } },
        labelOf(name),
        isKey && icon(key.direction === 'ASC' ? 'rise' : 'fall'),
      ));
  }

  function step(by) {
    const now = document.activeElement?.closest('tr[data-key]');
    const next = now ? (by > 0 ? now.nextElementSibling : now.previousElementSibling) : body.firstElementChild;
    next?.querySelector('a.key').focus({ preventScroll: true });
    next?.scrollIntoView({ block: 'nearest' });
  }

  onTeam(() => {
    drawnHead = '';
    for (const one of rows.values()) one.told = '';
  }, signal);
  return { element, orderChoice, fill, step };
}

function kindOf(name) {
  if (name === 'key' || name === 'summary' || name === 'status') return name;
  if (isMoment(name)) return 'date';
  return fieldOf(name)?.kind ?? 'text';
}

/** The row of an issue: the one before it, where that shows the same. */
function rowOf(issue, columns, before) {
  const told = toldBy(issue, columns);
  if (before?.told === told) return before;
  return { told, element: h('tr', { role: 'row', 'data-key': issue.issue }, columns.map((name) => cell(issue, name))) };
}

/** All that a row goes by, but for what `describe` tells: the issue, the columns, the day, and names and moments in words. */
function toldBy(issue, columns) {
  const moments = columns.filter(isMoment).map((name) => agoText(issue[name]));
  return JSON.stringify([issue, columns, today(), moments, issue.fields.sprint && sprintName(issue.fields.sprint)]);
}

function isMoment(name) {
  return name === 'created' || name === 'updated';
}

function cell(issue, name) {
  const told = {
    role: name === 'key' ? 'rowheader' : 'cell',
    class: `c-${kindOf(name)}`,
    'data-label': labelOf(name),
  };
  if (name === 'key') return h('td',
    told,
    keyLink(issue.issue, { 'aria-label': `${issue.issue}: ${issue.fields.summary}` }),
  );
  if (isMoment(name)) return h('td', told, shownMoment(issue[name]));
  const value = issue.fields[name];
  if (value === undefined) return h('td', { ...told, 'data-empty': true });
  return h('td',
    told,
    shown(fieldOf(name), value, { compact: true, isDone: categoryOf(issue.fields.status) === 'done' }),
  );
}
