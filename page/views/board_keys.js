// A board by keys: arrows go from card to card; Space lifts one, arrows carry it, Space drops it, Escape puts it back.

import { mention } from '../keys.js';
import { announce } from '../parts/toasts.js';
import { go } from '../router.js';

/** Listens on a board. `isLifted` tells whether a card is being carried; `tidy` leaves one card in the order of tabs. */
export function cardKeys({ element, lists, wayTo, drop, draw, signal }) {
  let lifted = null;
  // The one card in the order of tabs.
  let stop = null;

  function statuses() {
    return [...lists.keys()];
  }

  function seen(list) {
    return [...list.children].filter((card) => !card.hidden);
  }

  function focus(card) {
    if (!card) return;
    stopAt(card);
    card.focus({ preventScroll: true });
    card.scrollIntoView({ block: 'nearest', inline: 'nearest' });
  }

  function stopAt(card) {
    if (stop === card) return;
    if (stop) stop.tabIndex = -1;
    stop = card;
    stop.tabIndex = 0;
  }

  function tidy() {
    if (stop && element.contains(stop)) return;
    const first = element.querySelector('.card');
    if (first) stopAt(first);
  }

  function go_(card, key) {
    const list = card.parentElement;
    const all = seen(list);
    const at = all.indexOf(card);
    if (key === 'ArrowUp' || key === 'k') focus(all[at - 1]);
    else if (key === 'ArrowDown' || key === 'j') focus(all[at + 1]);
    else if (key === 'Home') focus(all[0]);
    else if (key === 'End') focus(all.at(-1));
    else beside(list, at, key === 'ArrowLeft' || key === 'h' ? -1 : 1);
  }

  function beside(list, at, by) {
    const all = statuses();
    for (let place = all.indexOf(list.dataset.status) + by; place >= 0 && place < all.length; place += by) {
      const there = seen(lists.get(all[place]));
      if (there.length > 0) {
        focus(there[Math.min(at, there.length - 1)]);
        return;
      }
    }
  }

  function lift(card) {
    if (!card.shown) return;
    lifted = { card, status: card.parentElement.dataset.status };
    card.classList.add('lifted');
    element.classList.add('carrying');
    announce(`${card.dataset.key} is lifted. Arrow keys carry it, Space drops it, Escape puts it back.`);
  }

  function carry(key) {
    const { card, status } = lifted;
    const list = card.parentElement;
    if (key === 'ArrowLeft' || key === 'ArrowRight') {
      carryTo(statuses()[statuses().indexOf(list.dataset.status) + (key === 'ArrowLeft' ? -1 : 1)]);
      return;
    }
    if (list.dataset.status !== status) {
      announce('In another column a card stands by its rank.');
      return;
    }
    const other = key === 'ArrowUp' ? card.previousElementSibling : card.nextElementSibling;
    if (!other) return;
    if (key === 'ArrowUp') other.before(card);
    else other.after(card);
    focus(card);
    announce(`Place ${[...list.children].indexOf(card) + 1} of ${list.children.length}.`);
  }

  function carryTo(status) {
    if (!status) return;
    const { card } = lifted;
    const way = wayTo(card.dataset.key, status);
    lists.get(status).append(card);
    markWay(way, status);
    focus(card);
    announce(status === lifted.status ? status : `${status}: ${way.words}`);
  }

  function markWay(way, status) {
    for (const column of element.children) {
      const isOver = column.dataset.status === status && status !== lifted?.status;
      column.classList.toggle('over', isOver && way.open);
      column.classList.toggle('shut', isOver && !way.open);
      column.querySelector('.way').textContent = isOver ? way.words : '';
    }
  }

  function put() {
    const { card, status } = lifted;
    const list = card.parentElement;
    const target = {
      status: list.dataset.status,
      from: status,
      before: list.dataset.status === status ? card.previousElementSibling?.dataset.key : undefined,
      after: list.dataset.status === status ? card.nextElementSibling?.dataset.key : undefined,
    };
    end();
    drop(card.dataset.key, target);
  }

  function end() {
    markWay({}, null);
    lifted.card.classList.remove('lifted');
    element.classList.remove('carrying');
    lifted = null;
  }

  function back() {
    const { card } = lifted;
    end();
    draw();
    focus(card);
    announce(`${card.dataset.key} is back in its place.`);
  }

  function keydown(event) {
    const card = event.target.closest('.card');
    if (!card || event.target !== card || event.ctrlKey || event.metaKey || event.altKey || event.isComposing) return;
    const { key } = event;
    const isArrow = ['ArrowUp', 'ArrowDown', 'ArrowLeft', 'ArrowRight'].includes(key);
    if (lifted) {
      if (isArrow) carry(key);
      else if (key === ' ' || key === 'Enter') put();
      else if (key === 'Escape') back();
      else if (key !== 'Tab') return;
    } else if (isArrow || ['Home', 'End', 'h', 'j', 'k', 'l'].includes(key)) {
      go_(card, key);
    } else if (key === ' ') {
      lift(card);
    } else if (key === 'Enter') {
      go(['issue', card.dataset.key]);
    } else {
      return;
    }
    event.preventDefault();
    event.stopPropagation();
  }

  element.addEventListener('keydown', keydown, { signal });
  element.addEventListener('focusin', (event) => {
    const card = event.target.closest('.card');
    if (card) stopAt(card);
  }, { signal });
  element.addEventListener('focusout', (event) => {
    if (lifted && event.relatedTarget && !element.contains(event.relatedTarget)) back();
  }, { signal });

  mention('↑ ↓ ← →', 'From card to card', { signal, group: 'Board' });
  mention('Enter', 'Open the card', { signal, group: 'Board' });
  mention(
    'Space',
    'Lift the card; arrows carry it, Space drops it, Escape puts it back',
    { signal, group: 'Board' },
  );
  return { tidy, isLifted: () => lifted !== null };
}
