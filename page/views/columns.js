// The columns of what a search finds: the key, fields, and two moments.

import { fresh, h, icon } from '../dom.js';
import { warn } from '../parts/toasts.js';
import { labelOf, team } from '../team.js';

const AT_MOST = 12;

/** All names that a column may have. */
function allColumns() {
  return ['key', ...team.fields.map((field) => field.name), 'created', 'updated'];
}

/** The columns of who has chosen none. */
export function standardColumns() {
  return ['key', 'type', 'summary', 'status', 'assignee', 'priority', 'points', 'updated'];
}

/** The text of these names in a link; a name may have commas of its own. */
export function columnsText(names) {
  return names.map(encodeURIComponent).join(',');
}

/** The names in such a text. */
export function columnsIn(text) {
  return text.split(',').map((name) => {
    try {
      return decodeURIComponent(name);
    } catch {
      return name;
    }
  });
}

/** Those of these names that are columns. */
export function knownColumns(names) {
  const known = allColumns().filter((name) => names.includes(name));
  return known.length > 0 ? known : standardColumns();
}

/** A button with a list of the columns to choose from. */
export function columnsButton({ columns, take }) {
  const id = fresh('columns');
  const list = h(
    'div',
    {
      id,
      class: 'menu',
      popover: 'auto',
      role: 'group',
      'aria-label': 'Columns',
      on: { toggle: fill, change },
    },
  );

  function fill(event) {
    if (event.newState !== 'open') return;
    const now = columns();
    list.replaceChildren(...allColumns().map((name) => h('label', { class: 'check' },
      h(
        'input',
        { type: 'checkbox', value: name, checked: now.includes(name), disabled: name === 'key' },
      ), labelOf(name))));
    list.querySelector('input:not(:disabled)').focus();
  }

  function change({ target }) {
    const wanted = [...list.querySelectorAll('input')].filter((box) => box.checked).map((box) => box.value);
    if (wanted.length <= AT_MOST) {
      take(wanted);
      return;
    }
    target.checked = false;
    warn(`A table has at most ${AT_MOST} columns. Take another one away first.`);
  }

  return h('span', { class: 'anchored' },
    h('button', { type: 'button', popovertarget: id }, icon('columns'), h('span', {}, 'Columns')),
    list,
  );
}
