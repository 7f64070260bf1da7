// What is drawn of a board: its head, its columns, and the cards where the tracker has them.

import { arrange, h, icon, refill } from '../dom.js';
import { emptyState, statusBadge } from '../parts/small.js';
import { href } from '../router.js';
import { numberText, plural } from '../texts.js';
import { fillCard, makeCard } from './cards.js';

const FLASH = 3000;
const SOME = 20;
const whenIdle = window.requestIdleCallback ?? ((act) => setTimeout(act, 30));

/** The frame of a board of this name; `jql` is its filter's query, where the caller is told it. */
export function boardFrame({ name, jql, data }) {
  const cards = new Map();
  const total = h('span', { class: 'count', role: 'status' });
  const words = h('input', {
    type: 'search',
    placeholder: 'Narrow down',
    'aria-label': 'Show only cards with these words',
    on: { input: hide },
  });
  const columns = data.columns().map(({ status }) => column(status));
  const lists = new Map(columns.map(({ status, list }) => [status, list]));
  const rings = new Map(columns.map(({ list, ring }) => [list, ring]));
  const element = h('div', { class: 'board', role: 'group', 'aria-label': 'Columns' },
    columns.map((one) => one.element),
  );
  const nothing = h('div', { hidden: true },
    emptyState('board', 'The board is empty.', 'Issues stand here as soon as its filter finds them.'),
  );

  function cardOf(key) {
    if (!cards.has(key)) cards.set(key, makeCard(key));
    return cards.get(key);
  }

  /** Puts the cards where the tracker has them, and keeps the focus. */
  function draw() {
    const focused = focusedKey();
    data.columns().forEach(({ issues }, at) => columns[at].take(issues.map(cardOf)));
    for (const [key, card] of cards) {
      if (card.isConnected) fillCard(card, data.issue(key));
      else cards.delete(key);
    }
    const { shown, all } = data.totals();
    const whole = plural(all, 'card', 'cards');
    refill(total, shown < all ? `${numberText(shown)} of ${whole}, the first by rank` : whole);
    nothing.hidden = all > 0;
    if (focused && focusedKey() !== focused) cards.get(focused)?.focus({ preventScroll: true });
    hide();
  }

  /** Hides the cards without the words. */
  function hide() {
    const wanted = words.value.toLowerCase().split(/\s+/).filter((word) => word !== '');
    for (const card of cards.values()) {
      card.hidden = wanted.length > 0 && !wanted.every((word) => card.textContent.toLowerCase().includes(word));
    }
  }

  /** Has the browser lay out the cards that are out of sight too, some at a time while nothing else is to do: then no key waits for that. */
  function settle(signal) {
    const left = [...cards.values()].filter((card) => !card.classList.contains('whole'));
    const some = () => {
      if (signal.aborted) return;
      for (const card of left.splice(0, SOME)) card.classList.add('whole');
      if (left.length > 0) whenIdle(some);
    };
    whenIdle(some);
  }

  return {
    element,
    lists,
    rings,
    draw,
    settle,
    parts: [
      h('header', { class: 'board-head' },
        h('h1', {}, name),
        total,
        h('span', { class: 'room' }),
        words,
        jql !== undefined && h('a', { class: 'button', href: href(['search'], { jql }) },
          icon('search'),
          h('span', {}, 'As a search'),
        ),
      ),
      element,
      nothing,
      h('p', { id: 'board-help', class: 'quiet foot' }, 'Space lifts a card, arrow keys carry it, Space drops it.'),
    ],
    card: (key) => cards.get(key),
    narrow: () => words.focus(),
    /** Shows what is known of these issues by now. */
    fill: (keys) => {
      for (const key of keys) if (cards.has(key)) fillCard(cards.get(key), data.issue(key));
      hide();
    },
    /** Marks cards for a moment. */
    flash: (keys) => {
      for (const key of keys) cards.get(key)?.classList.add('flash');
      setTimeout(() => keys.forEach((key) => cards.get(key)?.classList.remove('flash')), FLASH);
    },
  };
}

/** A column: `take` puts cards into it. */
function column(status) {
  const count = h('span', { class: 'count' });
  const list = h('ol', { class: 'cards', 'data-status': status, 'aria-label': status });
  const ring = h('div', { class: 'ring', 'aria-hidden': 'true', hidden: true });
  return {
    status,
    list,
    ring,
    element: h('section', { class: 'column', 'data-status': status, 'aria-label': status },
      h('h2', {}, statusBadge(status), count, h('span', { class: 'way', 'aria-hidden': 'true' })),
      list,
      ring,
    ),
    take: (cards) => {
      arrange(list, cards);
      refill(count, numberText(cards.length), h('span', { class: 'unseen' }, ' cards'));
    },
  };
}

function focusedKey() {
  return document.activeElement?.closest('.card')?.dataset.key;
}
