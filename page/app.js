// The page's beginning: its head, its keys, and which view a URL shows.

import { isLeft } from './calls.js';
import { h, icon, put, refill } from './dom.js';
import { sweepDrafts } from './drafts.js';
import { drawHead, markHead } from './head.js';
import { bind, listenForKeys } from './keys.js';
import { isUp, lastStatus, onLink } from './link.js';
import { toastPlaces } from './parts/toasts.js';
import { button, emptyState, waitingLines } from './parts/small.js';
import { again } from './poll.js';
import { wordsOf } from './refusals.js';
import { go, readRoute } from './router.js';
import { learnTeam, onTeam, team } from './team.js';
import { boardView } from './views/board.js';
import { boardsView } from './views/boards.js';
import { newIssue } from './views/create.js';
import { issueView } from './views/issue.js';
import { helpDialog } from './views/help.js';
import { searchView } from './views/search.js';
import { sprintView } from './views/sprint.js';
import { sprintsView } from './views/sprints.js';
import { trackerView } from './views/tracker.js';

const VIEWS = {
  search: searchView,
  issue: issueView,
  boards: boardsView,
  board: boardView,
  sprints: sprintsView,
  sprint: sprintView,
  tracker: trackerView,
};

const stage = document.getElementById('stage');
let life = null;
let standing = null;

/** Shows what the URL says. A view that stands and knows how to go on is told; else it is left, and a new one is made. */
async function show() {
  const route = readRoute(location.hash);
  const name = route.path[0] ?? 'search';
  const view = VIEWS[name];
  markHead(name);
  if (standing?.name === name && standing.view?.goOn?.(route)) return;
  life?.abort();
  life = new AbortController();
  const { signal } = life;
  standing = { name, view: null };
  const place = h('div', { class: `view ${name}` });
  refill(stage, place);
  window.scrollTo(0, 0);
  if (!view) {
    put(place, emptyState('search', 'There is no such view.', 'It may have been a link of another page.'));
    return;
  }
  try {
    const made = await view(place, route, signal);
    if (signal.aborted) return;
    standing.view = made ?? null;
    if (document.activeElement === document.body) stage.focus({ preventScroll: true });
  } catch (error) {
    if (isLeft(error) || signal.aborted) return;
    if (error.name !== 'Refused' && error.name !== 'Unreachable') console.error(error);
    refill(place, emptyState('warn', wordsOf(error)), button('Try again', show, { class: 'centre' }));
    if (error.name === 'Unreachable') onLink('back', show, signal);
  }
}

function drawLink() {
  const bar = document.getElementById('link');
  bar.hidden = isUp();
  if (isUp()) return;
  const words = lastStatus() === 401
    ? 'You are signed out. Load the page again.'
    : 'The tracker doesn’t answer. What you typed is kept; the page tries again by itself.';
  refill(bar, icon('warn'), words);
}

function bindKeys() {
  bind('c', 'New issue', () => newIssue());
  bind('/', 'To the search line', () => {
    const line = document.querySelector('.view.search textarea');
    if (line) line.focus();
    else go(['search']);
  });
  bind('g s', 'Go to Search', () => go(['search']));
  bind('g b', 'Go to Boards', () => go(['boards']));
  bind('g p', 'Go to Sprints', () => go(['sprints']));
  bind('g t', 'Go to Tracker', () => go(['tracker']));
  bind('?', 'These keys', helpDialog);
}

async function begin() {
  put(document.body, toastPlaces());
  put(stage, h('div', { class: 'view' }, waitingLines(8)));
  onLink('lost', drawLink);
  onLink('back', drawLink);
  try {
    await learnTeam();
  } catch (error) {
    refill(stage,
      h('div', { class: 'view' },
        emptyState('warn', wordsOf(error)),
        button('Try again', begin, { class: 'centre' }),
      ),
    );
    if (error.name === 'Unreachable') setTimeout(begin, 3000);
    return;
  }
  sweepDrafts();
  listenForKeys();
  bindKeys();
  drawHead(document.getElementById('top'), { newIssue, help: helpDialog });
  window.addEventListener('hashchange', show);
  const whole = new AbortController().signal;
  again(60, () => learnTeam(), whole);
  again(3, async () => { if (!isUp()) await learnTeam(); }, whole);
  onTeam(() => drawHead(document.getElementById('top'), { newIssue, help: helpDialog }));
  if (location.hash === '' || location.hash === '#') history.replaceState(null, '', '#/search');
  document.documentElement.dataset.user = team.user;
  show();
}

begin();
