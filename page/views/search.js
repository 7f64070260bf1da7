// Search: a line for a query, its fault at its place, and what it finds.

import { ask, isLeft, Refused } from '../calls.js';
import { choose, chosen } from '../choices.js';
import { h, icon, put, refill } from '../dom.js';
import { dropDraft, draftOf, keepDraft } from '../drafts.js';
import { faultOf } from '../faults.js';
import { bind } from '../keys.js';
import { sortKeys, withOrder } from '../jql.js';
import { button, pager, waitingLines } from '../parts/small.js';
import { again } from '../poll.js';
import { wordsOf } from '../refusals.js';
import { restate } from '../router.js';
import { allSprints } from '../sprints.js';
import { same, team } from '../team.js';
import { plural } from '../texts.js';
import { columnsButton, columnsIn, columnsText, knownColumns, standardColumns } from './columns.js';
import { onMade } from './create.js';
import { filtersSide, saveFilter } from './filters.js';
import { queryLine } from './query_line.js';
import { resultsTable } from './results.js';

const SIZE = 100;
const FARTHEST = 2_000_000;
const DRAFT = 'query';
const SECONDS = 15;
let lastFound = [];

/** The keys that the last search found, in its order: an issue's view leads on to the next of them. */
export function found() {
  return lastFound;
}

/** Shows the view. */
export function searchView(place, route, signal) {
  document.title = 'Search · Vuglastej';
  const state = { jql: '', from: 0, columns: [], round: 0, isShown: false, counted: '', trouble: null };
  const line = queryLine({ search: (jql) => look(jql, 0), typed });
  const hint = h('p', { class: 'hint', role: 'status', hidden: true });
  const fault = h('p', { class: 'fault', id: 'query-fault', role: 'alert', hidden: true });
  const count = h('span', { class: 'count', role: 'status' });
  const list = h('section', { class: 'results', 'aria-label': 'Issues found' });
  const side = filtersSide({ use: (jql) => look(jql, 0), now: () => state.jql, signal });
  const table = resultsTable({ signal, sort });
  const tools = h('div', { class: 'tools' }, count, h('span', { class: 'room' }), table.orderChoice,
    columnsButton({ columns: () => state.columns, take: takeColumns }),
    button('Save as filter', () => saveFilter(line.text()), { class: 'save', 'aria-keyshortcuts': 's' }));

  put(place, h('h1', { class: 'unseen' }, 'Search'),
    side.element, h('div', { class: 'searching' },
      line.element,
      hint,
      fault,
    ), h('div', { class: 'finding' }, tools, list));
  refill(list, waitingLines(12));

  bind('s', 'Save the query as a filter', () => saveFilter(line.text()), { signal, group: 'Search' });
  bind('j', 'Next issue', () => table.step(1), { signal, group: 'Search' });
  bind('k', 'Issue before', () => table.step(-1), { signal, group: 'Search' });
  bind(
    'n',
    'Next hundred',
    () => list.querySelector('.pager button:last-of-type:not(:disabled)')?.click(),
    { signal, group: 'Search' },
  );
  bind(
    'p',
    'Hundred before',
    () => list.querySelector('.pager button:first-of-type:not(:disabled)')?.click(),
    { signal, group: 'Search' },
  );
  again(SECONDS, reload, signal);
  onMade(reload, signal);

  function takeRoute({ query }) {
    state.jql = query.get('jql') ?? '';
    state.from = Math.min(FARTHEST, Math.max(0, Number.parseInt(query.get('from') ?? '0', 10) || 0));
    const told = query.get('columns');
    state.columns = knownColumns(told === null ? chosen('columns', standardColumns()) : columnsIn(told));
    resume();
    side.mark();
    return load({});
  }

  /** The line has the query that is shown, or what was typed over it before and not looked for. */
  function resume() {
    const kept = draftOf(team.user, DRAFT);
    const isOn = kept !== undefined && kept.over === state.jql && kept.text !== state.jql;
    line.set(isOn ? kept.text : state.jql);
    refill(hint, isOn && 'This was typed before and isn’t looked for yet.');
    hint.hidden = !isOn;
  }

  function typed() {
    line.mark(null);
    hint.hidden = true;
    keepDraft(team.user, DRAFT, { over: state.jql, text: line.text() });
  }

  function say() {
    const differs = state.columns.join() !== chosen('columns', standardColumns()).join();
    restate(
      ['search'],
      { jql: state.jql, from: state.from || '', columns: differs ? columnsText(state.columns) : '' },
    );
  }

  function look(jql, from) {
    state.jql = jql;
    state.from = from;
    dropDraft(team.user, DRAFT);
    hint.hidden = true;
    history.pushState(null, '', location.hash);
    say();
    line.set(jql);
    side.mark();
    load({});
  }

  function sort(field) {
    const [first] = sortKeys(state.jql);
    const turned = first && same(first.field, field) && first.direction === 'ASC' ? 'DESC' : 'ASC';
    look(withOrder(line.text(), field, turned), 0);
  }

  function takeColumns(columns) {
    state.columns = columns;
    choose('columns', columns);
    say();
    reload();
  }

  /** Looks again for what is shown, unless it was refused; what is being typed meanwhile stays as it is. */
  async function reload() {
    if (state.trouble !== 'refused') await load({ quiet: state.trouble === null });
  }

  async function load({ quiet = false }) {
    state.round += 1;
    const { round } = state;
    if (!quiet) list.classList.add('old');
    performance.mark('search asked');
    try {
      const fields = state.columns.filter((name) => team.fields.some((field) => field.name === name));
      if (!fields.includes('summary')) fields.push('summary');
      if (!fields.includes('status')) fields.push('status');
      const [came] = await Promise.all([
        ask('list', { jql: state.jql, fields, from: state.from, count: SIZE }, { signal }),
        fields.includes('sprint') && allSprints({ signal }),
      ]);
      if (round !== state.round || signal.aborted) return;
      draw(came);
      if (!quiet) calm();
    } catch (error) {
      if (round !== state.round || isLeft(error)) return;
      if (!quiet) refuse(error);
    }
  }

  function draw({ issues, total }) {
    if (issues.length === 0 && state.from > 0 && total > 0) {
      state.from = 0;
      say();
      load({});
      return;
    }
    lastFound = issues.map((one) => one.issue);
    table.fill({ issues, columns: state.columns, keys: sortKeys(state.jql) });
    if (list.firstElementChild !== table.element) refill(list, table.element);
    drawCount(issues.length, total);
    list.classList.remove('old');
    state.isShown = true;
    performance.mark('search drawn');
  }

  /** The count and the buttons for other parts, drawn anew only where they differ: one of them may have the focus. */
  function drawCount(shown, total) {
    const told = [state.from, shown, total].join();
    if (told === state.counted && list.querySelector('.pager')) return;
    state.counted = told;
    refill(count, plural(total, 'issue', 'issues'));
    list.querySelector('.pager')?.remove();
    put(list, pager({
      from: state.from,
      shown,
      total,
      size: SIZE,
      what: 'issues found',
      step: (from) => { look(state.jql, from); window.scrollTo(0, 0); },
    }));
  }

  function calm() {
    state.trouble = null;
    line.mark(null);
    fault.hidden = true;
  }

  function refuse(error) {
    state.trouble = error instanceof Refused ? 'refused' : 'lost';
    list.classList.toggle('old', state.isShown);
    if (!state.isShown) refill(list);
    if (error instanceof Refused && error.refusal.no === 7) {
      const told = faultOf(error.members.jql, error.refusal);
      if (line.text() === error.members.jql) line.mark(told);
      refill(fault, icon('warn'), h('span', {}, told.words));
    } else {
      refill(fault, icon('warn'), h('span', {}, wordsOf(error)));
    }
    fault.hidden = false;
  }

  takeRoute(route);
  return { goOn: (next) => { takeRoute(next); return true; } };
}
