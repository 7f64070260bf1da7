// A sprint: starting and closing it, the issues in it, those that may come into it, and what is left of it.

import { ask, isLeft, Refused } from '../calls.js';
import { h, icon, refill } from '../dom.js';
import { confirmed } from '../parts/dialog.js';
import { button, emptyState, keyLink, person, statusBadge, waitingLines } from '../parts/small.js';
import { tell, warnOf } from '../parts/toasts.js';
import { again } from '../poll.js';
import { href, numberOf, restate } from '../router.js';
import { allSprints } from '../sprints.js';
import { may, team } from '../team.js';
import { changeText, momentText, numberText, pointsText } from '../texts.js';
import { burndownChart } from './chart.js';
import { onMade } from './create.js';

const SECONDS = 6;
const PART = 100;
const ROWS = 1000;
const SHOWN = 200;
const FIELDS = ['summary', 'status', 'assignee', 'points', 'sprint'];
const DAYS = [7, 14, 21, 28];

/** Shows the view. */
export async function sprintView(place, route, signal) {
  const number = numberOf(route.path[1]);
  const state = {
    days: DAYS.includes(Number(route.query.get('days'))) ? Number(route.query.get('days')) : 14,
    from: 0,
    last: {},
  };
  refill(place, waitingLines(10));
  const head = h('header', { class: 'page-head' });
  const issues = h('section', { class: 'panel', 'aria-label': 'Issues in the sprint' });
  const backlog = h('section', { class: 'panel', 'aria-label': 'Issues in no sprint' });
  const burning = h('section', { class: 'panel burndown', 'aria-label': 'Burndown' });
  await load();
  refill(place, head, burning, h('div', { class: 'two' }, issues, backlog));
  again(SECONDS, load, signal);
  onMade(() => load().catch(() => {}), signal);

  async function load() {
    const sprint = (await allSprints({ signal, anew: true })).find((one) => one.sprint === number);
    if (!sprint) throw new Refused({ no: 2, kind: 'sprint', name: String(number) }, 'sprints', {});
    document.title = `${sprint.name} · Vuglastej`;
    if (differs('head', sprint)) drawHead(sprint);
    const inside = await ask('list',
      { jql: `sprint = ${number} ORDER BY rank`, fields: FIELDS, from: state.from, count: PART },
      { signal },
    );
    if (differs('inside', [inside, sprint.state])) drawIssues(inside);
    await Promise.all([loadBacklog(sprint), loadBurndown(sprint)]);
  }

  function differs(name, value) {
    const now = JSON.stringify(value);
    const is = now !== state.last[name];
    state.last[name] = now;
    return is;
  }

  function drawHead(sprint) {
    refill(head,
      h('div', {}, h('h1', {}, sprint.name), h('span', { class: `state ${sprint.state}` }, sprint.state)),
      h('span', { class: 'room' }),
      h('a', { class: 'button', href: href(['search'], { jql: `sprint = ${number} ORDER BY rank` }) },
        icon('search'),
        h('span', {}, 'As a search'),
      ),
      team.plan && sprint.state === 'future' && button('Start the sprint',
        () => step('start_sprint', sprint),
        { class: 'main' },
      ),
      team.plan && sprint.state === 'active' && button('Close the sprint',
        () => step('close_sprint', sprint),
        { class: 'main' },
      ));
  }

  async function step(call, sprint) {
    try {
      if (call === 'close_sprint') {
        const words = [
          `“${sprint.name}” is over then, and its burndown stays as it is.`,
          'Issues that aren’t done stay in it until somebody puts them into another sprint.',
        ].join(' ');
        const close = () => ask(call, { sprint: number });
        if (!await confirmed('Close the sprint?', words, 'Close it', close)) return;
      } else {
        await ask(call, { sprint: number });
      }
      tell(call === 'start_sprint' ? `${sprint.name} is under way.` : `${sprint.name} is closed.`);
    } catch (error) {
      warnOf(error);
    }
    load().catch(() => {});
  }

  function drawIssues({ issues: found, total }) {
    const now = document.activeElement?.closest('[data-key]')?.dataset.key;
    refill(issues, h('h2', {}, 'In the sprint ', h('span', { class: 'count' }, numberText(total))),
      found.length === 0
        ? emptyState('sprint', 'No issue is in it yet.')
        : h('ul', { class: 'rows' }, found.map((one) => row(one, {
        words: 'Take out', drawing: 'close', act: () => put(one, null),
      }))),
      total > PART && h('div', { class: 'row' },
        button('Before', () => part(-PART), { disabled: state.from === 0 }),
        button('Further', () => part(PART), { disabled: state.from + PART >= total }),
      ));
    if (now) issues.querySelector(`[data-key="${now}"] a`)?.focus();
  }

  function part(by) {
    state.from += by;
    load().catch(warnOf);
  }

  async function loadBacklog(sprint) {
    backlog.hidden = sprint.state === 'closed';
    if (backlog.hidden) return;
    const came = await ask('list',
      { jql: 'sprint IS EMPTY AND statusCategory != Done ORDER BY rank', fields: FIELDS, count: 50 },
      { signal },
    );
    if (!differs('backlog', came)) return;
    refill(backlog, h('h2', {}, 'In no sprint ', h('span', { class: 'count' }, numberText(came.total))),
      came.issues.length === 0
        ? emptyState('check', 'Every open issue is in a sprint.')
        : h('ul', { class: 'rows' }, came.issues.map((one) => row(one, {
        words: 'Bring in', drawing: 'plus', act: () => put(one, number),
      }))),
      came.total > came.issues.length && h('p', { class: 'quiet' },
        `The first ${came.issues.length} by rank.`,
      ));
  }

  function row(issue, { words, drawing, act }) {
    const { fields } = issue;
    const told = { class: 'plain small', 'aria-label': `${words}: ${issue.issue}`, title: words };
    return h('li', { 'data-key': issue.issue },
      keyLink(issue.issue),
      h('span', { class: 'words' }, fields.summary),
      statusBadge(fields.status),
      fields.assignee ? person(fields.assignee, { alone: true }) : h('span', { class: 'no-person' }),
      h('span', { class: 'pill' }, fields.points ?? '–'),
      may('edit', issue.issue) && button(icon(drawing), act, told),
    );
  }

  async function put(issue, to) {
    try {
      await ask('edit', { issue: issue.issue, set: { sprint: to } });
      await load();
    } catch (error) {
      warnOf(error);
    }
  }

  async function loadBurndown(sprint) {
    let came;
    try {
      came = await wholeBurndown();
    } catch (error) {
      if (isLeft(error) || !(error instanceof Refused)) throw error;
      if (differs('burndown', error.refusal)) refill(burning,
        h('h2', {}, 'Burndown'),
        h('p', { class: 'quiet' }, 'Who may plan sees what is left of a sprint.'),
      );
      return;
    }
    if (differs('burndown', [came, sprint.state, state.days])) drawBurndown(came);
  }

  /** The burndown with all of its rows, part by part. */
  async function wholeBurndown() {
    const told = await ask('burndown', { sprint: number, count: ROWS }, { signal });
    while (told.rows.length < told.total) {
      const { rows, total } = await ask('burndown',
        { sprint: number, from: told.rows.length, count: ROWS },
        { signal },
      );
      if (rows.length === 0) break;
      told.rows.push(...rows);
      told.total = total;
    }
    return told;
  }

  function drawBurndown(told) {
    const days = h('select', {
      'aria-label': 'Length of the ideal line',
      on: { change: () => {
        state.days = Number(days.value);
        restate(['sprint', String(number)], { days: state.days });
        drawBurndown(told);
      } },
    },
      DAYS.map((one) => h('option', { value: one, selected: one === state.days },
        `${one / 7} ${one === 7 ? 'week' : 'weeks'}`,
      )));
    const done = told.start - told.left;
    refill(burning,
      h('header', {},
        h('h2', {}, 'Burndown'),
        h('span', { class: 'room' }),
        told.state !== 'future' && h('label', { class: 'check' }, 'Ideal line over', days),
      ),
      h('dl', { class: 'figures' },
        figure('At the start', told.start),
        figure('Left', told.left),
        told.state !== 'future' && figure(
          done >= 0 ? 'Less than at the start' : 'More than at the start',
          Math.abs(done),
        ),
      ),
      told.rows.length === 0
        ? h('p', { class: 'quiet' },
          told.state === 'future'
            ? 'The burndown begins as the sprint starts.'
            : 'Nothing has changed what is left since the start.',
        )
        : h('div', { class: 'chart-and-table' }, burndownChart(told, { days: state.days }), table(told)));
  }
}

function figure(words, thousandths) {
  return h('div', {},
    h('dt', {}, words),
    h('dd', {}, pointsText(thousandths), h('small', {}, thousandths === 1000 ? ' point' : ' points')),
  );
}

function table({ rows }) {
  const heads = ['When', 'Issue', 'By', 'Left'].map((words) => h('th', { scope: 'col' }, words));
  return h('div', { class: 'scroll', tabindex: '0', role: 'region', 'aria-label': 'Rows of the burndown' },
    h('table', { class: 'small-table', 'aria-label': 'Rows of the burndown' },
      h('thead', {}, h('tr', {}, heads)),
      h('tbody', {}, rows.slice(-SHOWN).reverse().map(tableRow)),
    ),
    rows.length > SHOWN && h('p', { class: 'quiet' }, `The last ${SHOWN} of ${numberText(rows.length)} rows.`),
  );
}

function tableRow({ at, by, issue, left }) {
  return h('tr', {},
    h('td', {}, momentText(at)),
    h('td', {}, keyLink(issue)),
    h('td', { class: by > 0 ? 'number more' : 'number less' }, changeText(by)),
    h('td', { class: 'number' }, pointsText(left)),
  );
}
