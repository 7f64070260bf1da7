// Saved filters: a list with how many issues each finds, and saving one.

import { ask } from '../calls.js';
import { h, icon, refill } from '../dom.js';
import { confirmed, openDialog } from '../parts/dialog.js';
import { nameField } from '../parts/names.js';
import { button } from '../parts/small.js';
import { tell, warnOf } from '../parts/toasts.js';
import { again } from '../poll.js';
import { href } from '../router.js';
import { team } from '../team.js';
import { numberText, plural } from '../texts.js';

const changes = new EventTarget();

/** The saved filters, folded in a narrow window. `use(jql)` looks for one's issues; `now()` is the query that is shown. */
export function filtersSide({ use, now, signal }) {
  const list = h('ul', { class: 'filters' });
  const element = h('details', { class: 'side', open: window.innerWidth > 1100 },
    h('summary', {}, icon('down'), 'Saved filters'),
    list,
  );
  let filters = [];
  let drawn = '';
  const counts = new Map();

  async function load() {
    ({ filters } = await ask('filters', {}, { signal }));
    const told = JSON.stringify(filters);
    if (told !== drawn) draw();
    drawn = told;
    await count();
  }

  async function count() {
    if (!element.open) return;
    for (const filter of filters) {
      const { total } = await ask('filter', { filter: filter.filter, count: 1 }, { signal });
      if (counts.get(filter.filter) === total) continue;
      counts.set(filter.filter, total);
      const place = list.querySelector(`[data-filter="${filter.filter}"] .count`);
      if (place) refill(place, numberText(total), h('span', { class: 'unseen' }, ' issues'));
    }
  }

  function draw() {
    if (filters.length === 0) {
      refill(list,
        h('li', { class: 'quiet' },
          'None yet. A query is kept by “Save as filter”, and a board is made of a filter.',
        ),
      );
      return;
    }
    refill(list, filters.map(line));
    mark();
  }

  function line(filter) {
    const look = (event) => {
      if (!isPlain(event)) return;
      event.preventDefault();
      use(filter.jql);
    };
    const told = { class: 'plain small', 'aria-label': `Drop the filter ${filter.name}` };
    return h('li', { 'data-filter': filter.filter },
      h('a', { href: href(['search'], { jql: filter.jql }), title: filter.jql, on: { click: look } },
        h('span', { class: 'name' }, filter.name),
        filter.owner !== team.user && h('span', { class: 'quiet' }, filter.owner),
      ),
      h('span', { class: 'count' }, counts.has(filter.filter) ? numberText(counts.get(filter.filter)) : '…'),
      button(icon('bin'), () => drop(filter), told),
    );
  }

  /** Marks the filters whose query is shown. */
  function mark() {
    for (const filter of filters) {
      const place = list.querySelector(`[data-filter="${filter.filter}"]`);
      place?.toggleAttribute('data-now', filter.jql === now());
    }
  }

  async function drop(filter) {
    const words = `The filter “${filter.name}” goes, and all boards that are made of it. Its issues stay.`;
    const act = () => ask('drop_filter', { filter: filter.filter });
    if (await confirmed('Drop this filter?', words, 'Drop it', act)) load().catch(warnOf);
  }

  element.addEventListener('toggle', () => count().catch(() => {}));
  changes.addEventListener('change', () => load().catch(warnOf), { signal });
  again(30, load, signal);
  load().catch(() => {});
  return { element, mark };
}

function isPlain(event) {
  return event.button === 0 && !event.ctrlKey && !event.metaKey && !event.shiftKey;
}

/** Asks for a name and saves the query under it; maybe a board is made of it too. */
export function saveFilter(jql) {
  const name = nameField('filter');
  const board = h('input', { type: 'checkbox' });
  return openDialog({
    title: 'Save as filter',
    narrow: true,
    body: [
      h('pre', { class: 'jql' }, jql === '' ? 'All issues' : jql),
      name.element,
      h('p', { class: 'quiet' },
        'A filter of yours with this name gets this query in the place of its own.',
      ),
      team.plan && h('label', { class: 'check' }, board, 'and make a board of it'),
    ],
    verb: 'Save',
    act: async () => {
      const called = name.read();
      const { filter, members } = await ask('save_filter', { name: called, jql });
      changes.dispatchEvent(new Event('change'));
      if (board.checked) {
        const made = await ask('make_board', { name: called, filter });
        tell('The board is made.', h('a', { href: href(['board', String(made.board)]) }, 'Open it'));
      } else {
        tell(`The filter ${called} is saved. It finds ${plural(members, 'issue', 'issues')} now.`);
      }
      name.used();
      return filter;
    },
  });
}
