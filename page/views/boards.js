// All boards: opening one, making one of a filter, dropping one.

import { ask } from '../calls.js';
import { fresh, h, icon, put, refill } from '../dom.js';
import { confirmed, openDialog } from '../parts/dialog.js';
import { nameField } from '../parts/names.js';
import { button, emptyState } from '../parts/small.js';
import { warnOf } from '../parts/toasts.js';
import { again } from '../poll.js';
import { go, href } from '../router.js';
import { team } from '../team.js';
import { bind } from '../keys.js';

/** Shows the view. */
export async function boardsView(place, route, signal) {
  document.title = 'Boards · Vuglastej';
  const list = h('ul', { class: 'tiles' });
  let last = '';
  const load = async () => {
    const [{ boards }, { filters }] = await Promise.all([
      ask('boards', {}, { signal }),
      ask('filters', {}, { signal }),
    ]);
    const now = JSON.stringify([boards, filters]);
    if (now === last) return;
    last = now;
    refill(list,
      boards.map((board) => tile(board, filters.find((one) => one.filter === board.filter), load)),
    );
    if (boards.length === 0) refill(list,
      h('li', { class: 'nothing' },
        emptyState(
          'board',
          'There is no board yet.',
          team.plan
            ? 'Save a query as a filter, and make a board of it.'
            : 'Who may plan can make one of a saved filter.',
        ),
      ),
    );
  };
  put(place,
    h('header', { class: 'page-head' },
      h('h1', {}, 'Boards'),
      h('span', { class: 'room' }),
      team.plan && button([icon('plus'), 'New board'], () => makeBoard(), { class: 'make' }),
    ),
    list,
  );
  if (team.plan) bind('n', 'New board', makeBoard, { signal, group: 'Boards' });
  await load();
  again(20, load, signal);
}

function tile(board, filter, load) {
  return h('li', { class: 'tile' },
    h('a', { class: 'cover', href: href(['board', String(board.board)]) }, board.name),
    h('p', { class: 'quiet jql' },
      filter ? (filter.jql === '' ? 'All issues' : filter.jql) : `Filter ${board.filter}`,
    ),
    team.plan && button(icon('bin'),
      () => drop(board, load),
      { class: 'plain small', 'aria-label': `Drop the board ${board.name}` },
    ));
}

async function drop(board, load) {
  const words = `The board “${board.name}” goes. Its filter and its issues stay.`;
  if (await confirmed('Drop this board?',
    words,
    'Drop it',
    () => ask('drop_board', { board: board.board }),
  )) load().catch(warnOf);
}

async function makeBoard() {
  try {
    const { filters } = await ask('filters');
    const made = await openDialog(filters.length === 0 ? noFilter() : form(filters));
    if (made !== undefined) go(['board', String(made)]);
  } catch (error) {
    warnOf(error);
  }
}

function noFilter() {
  return {
    title: 'New board',
    narrow: true,
    body: h('p', {},
      'A board shows the issues of a saved filter, and you have none yet. ',
      h('a', { href: '#/search', on: { click: (event) => event.target.closest('dialog').close() } },
        'Search',
      ),
      ', and save the query as a filter.',
    ),
  };
}

function form(filters) {
  const id = fresh('filter');
  const name = nameField('board');
  const filter = h('select', { id },
    filters.map((one) => h('option', { value: one.filter },
      one.owner === team.user ? one.name : `${one.name} (${one.owner})`,
    )),
  );
  return {
    title: 'New board',
    narrow: true,
    body: [
      name.element,
      h('div', { class: 'field' }, h('label', { for: id }, 'Issues of the filter'), filter),
    ],
    verb: 'Make the board',
    act: async () => {
      const { board } = await ask('make_board', { name: name.read(), filter: Number(filter.value) });
      name.used();
      return board;
    },
  };
}
