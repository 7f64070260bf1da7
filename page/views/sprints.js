// All sprints: those under way, those to come, and those that are over.

import { ask } from '../calls.js';
import { h, icon, put, refill } from '../dom.js';
import { bind } from '../keys.js';
import { openDialog } from '../parts/dialog.js';
import { nameField } from '../parts/names.js';
import { button, emptyState } from '../parts/small.js';
import { warnOf } from '../parts/toasts.js';
import { again } from '../poll.js';
import { go, href } from '../router.js';
import { allSprints } from '../sprints.js';
import { team } from '../team.js';
import { plural } from '../texts.js';

const GROUPS = [['active', 'Under way'], ['future', 'To come'], ['closed', 'Over']];

/** Shows the view. */
export async function sprintsView(place, route, signal) {
  document.title = 'Sprints · Vuglastej';
  const list = h('div', {});
  let last = '';
  const load = async () => {
    const sprints = await allSprints({ signal, anew: true });
    const now = JSON.stringify(sprints);
    if (now === last) return;
    last = now;
    refill(list, sprints.length === 0
      ? emptyState(
        'sprint',
        'There is no sprint yet.',
        team.plan ? 'Make one, and bring issues into it.' : 'Who may plan can make one.',
      )
      : GROUPS.map(([state, words]) => {
        const found = sprints.filter((one) => one.state === state);
        return group(words, state === 'closed' ? found.reverse() : found);
      }));
    count(list, signal);
  };
  put(place,
    h('header', { class: 'page-head' },
      h('h1', {}, 'Sprints'),
      h('span', { class: 'room' }),
      team.plan && button([icon('plus'), 'New sprint'], makeSprint, { class: 'make' }),
    ),
    list,
  );
  if (team.plan) bind('n', 'New sprint', makeSprint, { signal, group: 'Sprints' });
  await load();
  again(20, load, signal);
}

function group(words, sprints) {
  if (sprints.length === 0) return null;
  return h('section', {}, h('h2', {}, words), h('ul', { class: 'tiles' }, sprints.map(tile)));
}

function tile({ name, sprint }) {
  return h('li', { class: 'tile', 'data-sprint': sprint },
    h('a', { class: 'cover', href: href(['sprint', String(sprint)]) }, name),
    h('p', { class: 'quiet' }, '…'),
  );
}

async function count(list, signal) {
  for (const tile of list.querySelectorAll('[data-sprint]')) {
    if (!tile.isConnected) return;
    try {
      const { total } = await ask('search',
        { jql: `sprint = ${tile.dataset.sprint}`, count: 1 },
        { signal },
      );
      const { total: left } = await ask('search',
        { jql: `sprint = ${tile.dataset.sprint} AND statusCategory != Done`, count: 1 },
        { signal },
      );
      refill(tile.querySelector('p'),
        total === 0 ? 'No issues' : `${plural(total, 'issue', 'issues')}, ${left} open`,
      );
    } catch {
      return;
    }
  }
}

async function makeSprint() {
  const name = nameField('sprint', { placeholder: 'March, first half' });
  try {
    const made = await openDialog({
      title: 'New sprint',
      narrow: true,
      body: name.element,
      verb: 'Make the sprint',
      act: async () => {
        const { sprint } = await ask('make_sprint', { name: name.read() });
        name.used();
        return sprint;
      },
    });
    if (made !== undefined) go(['sprint', String(made)]);
  } catch (error) {
    warnOf(error);
  }
}
