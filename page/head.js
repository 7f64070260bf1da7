// The page's head: where one can go, who one is, and a new issue from anywhere.

import { choose, chosen } from './choices.js';
import { h, icon, refill } from './dom.js';
import { button, person } from './parts/small.js';
import { href } from './router.js';
import { team } from './team.js';

const PLACES = [
  ['search', 'Search', 'search', ['search', 'issue']],
  ['boards', 'Boards', 'board', ['boards', 'board']],
  ['sprints', 'Sprints', 'sprint', ['sprints', 'sprint']],
  ['tracker', 'Tracker', 'tracker', ['tracker']],
];
const LIGHTS = {
  system: ['system', 'As the system has it'],
  light: ['light', 'Light'],
  dark: ['dark', 'Dark'],
};
let at = '';

/** Draws it. What a trial puts into the place `#who` stays. */
export function drawHead(top, { newIssue, help }) {
  setLight(chosen('light', 'system'));
  refill(top,
    h('a', { class: 'brand', href: '#/search', 'aria-label': 'Vuglastej' },
      h('img', { src: 'icon.svg', alt: '', width: 24, height: 24 }),
      h('span', {}, 'Vuglastej'),
    ),
    h('nav', { 'aria-label': 'Views' },
      PLACES.map(([path, words, drawing]) => h('a', { href: href([path]), 'data-place': path },
        icon(drawing),
        h('span', {}, words),
      )),
    ),
    h('span', { class: 'room' }),
    button([icon('plus'), h('span', {}, 'New issue')],
      () => newIssue(),
      { class: 'main new', 'aria-keyshortcuts': 'c', title: 'New issue (c)' },
    ),
    button(icon('keys'),
      help,
      { class: 'plain keys', 'aria-label': 'Keys', title: 'Keys (?)', 'aria-keyshortcuts': '?' },
    ),
    lightButton(),
    h('span', { id: 'who', class: 'who' }, person(team.user)));
  markHead(at);
  document.dispatchEvent(new Event('head'));
}

/** Marks the place that is shown. */
export function markHead(view) {
  at = view;
  for (const [path, , , views] of PLACES) {
    const link = document.querySelector(`[data-place="${path}"]`);
    if (views.includes(view)) link?.setAttribute('aria-current', 'page');
    else link?.removeAttribute('aria-current');
  }
}

function setLight(which) {
  document.documentElement.dataset.light = which;
}

function lightButton() {
  const made = button([], () => {
    const all = Object.keys(LIGHTS);
    const next = all[(all.indexOf(chosen('light', 'system')) + 1) % all.length];
    choose('light', next);
    setLight(next);
    draw();
  }, { class: 'plain light' });
  const draw = () => {
    const [drawing, words] = LIGHTS[chosen('light', 'system')];
    refill(made, icon(drawing));
    made.setAttribute('aria-label', `Light or dark: ${words}`);
    made.title = `Light or dark: ${words}`;
  };
  draw();
  return made;
}
