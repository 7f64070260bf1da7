// An issue: its fields, edited where they stand, one call a change; its transitions as buttons; its history.

import { ask, isLeft } from '../calls.js';
import { h, icon, refill } from '../dom.js';
import { bind } from '../keys.js';
import { button, keyLink, statusBadge, waitingLines } from '../parts/small.js';
import { announce, tell, warnOf } from '../parts/toasts.js';
import { again } from '../poll.js';
import { go } from '../router.js';
import { barrierOf, isGiven, transitionsFrom } from '../rules.js';
import { allSprints } from '../sprints.js';
import { fieldOf, may, team } from '../team.js';
import { momentText } from '../texts.js';
import { callTransition } from '../transitions.js';
import { inPlace } from './in_place.js';
import { found } from './search.js';
import { timeline } from './timeline.js';

const SECONDS = 5;

/** Shows the view. */
export async function issueView(place, route, signal) {
  const key = route.path[1] ?? '';
  document.title = `${key} · Vuglastej`;
  refill(place, waitingLines(10));
  const [first] = await Promise.all([ask('show', { issue: key }, { signal }), allSprints({ signal })]);
  const state = { issue: first };
  const canEdit = may('edit', key);

  const take = async (name, value) => {
    await ask('edit', { issue: key, set: { [name]: value } });
    await refresh(true);
  };
  const fields = team.fields.filter(isGiven).map((field) => [
    field.name,
    inPlace({ field, issue: first, canEdit, take }),
  ]);
  const of = (name) => fields.find(([one]) => one === name)[1];
  const history = timeline({ key, signal });
  const doors = h('div', { class: 'doors', role: 'group', 'aria-label': 'Transitions' });
  const moments = h('p', { class: 'quiet moments' });
  const steps = h('span', { class: 'steps' });

  refill(place,
    h('article', { class: 'issue', 'aria-labelledby': 'issue-summary' },
      h('header', {},
        h('div', { class: 'crumbs' },
          keyLink(key),
          of('type').element,
          h('span', { class: 'room' }),
          steps,
        ),
        h('div', { id: 'issue-summary', class: 'summary' }, of('summary').element),
        doors),
      h('div', { class: 'columns' },
        h('div', { class: 'main-part' },
          h('section', { 'aria-label': 'Description' },
            h('h2', {}, 'Description'),
            of('description').element,
          ),
          h('section', { 'aria-label': 'History' }, h('h2', {}, 'History'), history.element)),
        h('aside', { 'aria-label': 'Fields' },
          fields.filter(([name]) => ![
            'summary',
            'description',
            'type',
          ].includes(name)).map(([, one]) => one.row),
          moments,
        ))));

  function draw() {
    const { issue } = state;
    document.title = `${key} ${issue.fields.summary} · Vuglastej`;
    for (const [, one] of fields) one.show(issue);
    refill(moments, `Made ${momentText(issue.created)}`, h('br'), `Changed ${momentText(issue.updated)}`);
    drawDoors();
    drawSteps();
  }

  function drawDoors() {
    const { issue } = state;
    const at = doors.contains(document.activeElement);
    const leading = transitionsFrom(issue.fields.status);
    refill(doors, statusBadge(issue.fields.status), leading.map((transition, place) => {
      const barrier = barrierOf(transition, issue);
      return button([barrier && icon('lock'), transition.transition], () => pass(transition), {
        class: barrier ? 'door barred' : 'door', title: barrier ? `Only for ${barrier}` : `To ${transition.to} (${place + 1})`,
        'aria-description': barrier ? `Only for ${barrier}` : `To ${transition.to}`,
      });
    }), leading.length === 0 && h('span', { class: 'quiet' }, 'No transition leads on from here.'));
    if (at) doors.querySelector('button')?.focus();
  }

  function drawSteps() {
    const keys = found();
    const at = keys.indexOf(key);
    if (at < 0) return;
    const step = (by, words, drawing) => button(icon(drawing),
      () => go(['issue', keys[at + by]]),
      { class: 'plain small', 'aria-label': words, title: words, disabled: keys[at + by] === undefined },
    );
    refill(steps,
      h('span', { class: 'quiet' }, `${at + 1} of ${keys.length}`),
      step(-1, 'Issue before (k)', 'left'),
      step(1, 'Next issue (j)', 'right'),
    );
  }

  async function pass(transition) {
    try {
      const came = await callTransition(transition, state.issue);
      if (came === undefined) return;
      await refresh(true);
      announce(`${key} is ${state.issue.fields.status} now.`);
    } catch (error) {
      warnOf(error);
      refresh(true).catch(() => {});
    }
  }

  /** Asks for the issue again; `own` says that what changed is the caller's doing. */
  async function refresh(own = false) {
    const came = await ask('show', { issue: key }, { signal });
    if (JSON.stringify(came) === JSON.stringify(state.issue)) return;
    const names = changedNames(state.issue, came);
    state.issue = came;
    draw();
    history.more().catch((error) => { if (!isLeft(error)) warnOf(error); });
    if (!own && names.length > 0) {
      for (const name of names) fields.find(([one]) => one === name)?.[1].flash();
      tell(`Somebody changed ${key}: ${names.join(', ')}.`);
    }
  }

  draw();
  history.begin(first).catch(warnOf);
  for (const [, one] of fields) one.resume();
  again(SECONDS, () => refresh(), signal);
  bind('e', 'Edit the summary', () => of('summary').open(), { signal, group: 'Issue' });
  bind('d', 'Edit the description', () => of('description').open(), { signal, group: 'Issue' });
  bind('a', 'Change the assignee', () => of('assignee').open(), { signal, group: 'Issue' });
  bind(
    'i',
    'Assign it to me',
    () => canEdit && take('assignee', team.user).catch(warnOf),
    { signal, group: 'Issue' },
  );
  bind(
    'j',
    'Next issue found',
    () => steps.querySelector('button:last-child:not(:disabled)')?.click(),
    { signal, group: 'Issue' },
  );
  bind(
    'k',
    'Issue found before',
    () => steps.querySelector('button:not(:last-child):not(:disabled)')?.click(),
    { signal, group: 'Issue' },
  );
  for (let place = 0; place < 9; place += 1) {
    const press = () => doors.querySelectorAll('button')[place]?.click();
    if (place < 3) bind(String(place + 1), `Transition ${place + 1}`, press, { signal, group: 'Issue' });
  }
  return {};
}

function changedNames(before, after) {
  return team.fields.map((field) => field.name)
    .filter((name) => JSON.stringify(before.fields[name]) !== JSON.stringify(after.fields[name]))
    .map((name) => fieldOf(name).name);
}
