// Small parts that several views show.

import { h, icon } from '../dom.js';
import { href } from '../router.js';
import { categoryOf } from '../team.js';
import { numberText } from '../texts.js';

/** A status, coloured by its category. */
export function statusBadge(status) {
  return h('span', { class: `status ${categoryOf(status)}` }, status);
}

/** A person: a round sign with the first letters, and the name. */
export function person(name, { alone = false } = {}) {
  const sign = h('span', { class: `sign hue${hueOf(name)}`, 'aria-hidden': 'true' }, lettersOf(name));
  return h('span', { class: 'person', title: alone ? name : null },
    sign,
    alone ? h('span', { class: 'unseen' }, name) : name,
  );
}

function hueOf(name) {
  let sum = 0;
  for (const letter of name) sum = (sum * 31 + letter.codePointAt(0)) % 8;
  return sum;
}

function lettersOf(name) {
  const parts = name.split(/[._-]/).filter((part) => part !== '');
  return (parts.length > 1 ? parts[0][0] + parts[1][0] : name.slice(0, 2)).toUpperCase();
}

/** A label. */
export function chip(text) {
  return h('span', { class: 'chip' }, text);
}

/** The key of an issue, which leads to it. */
export function keyLink(key, attributes = {}) {
  return h('a', { class: 'key', href: href(['issue', key]), ...attributes }, key);
}

/** What stands where nothing is. */
export function emptyState(drawing, title, ...words) {
  return h('div', { class: 'empty' },
    icon(drawing),
    h('p', { class: 'lead' }, title),
    words.length > 0 && h('p', {}, words),
  );
}

/** What stands while something is waited for: grey lines. */
export function waitingLines(count) {
  return h('div', { class: 'waiting', role: 'status', 'aria-label': 'Loading' },
    Array.from({ length: count }, () => h('div', { class: 'line' })),
  );
}

/** A button. */
export function button(words, act, attributes = {}) {
  return h('button', { type: 'button', ...attributes, on: { click: act } }, words);
}

/** Buttons for the parts of a long list. `step(from)` shows another part. */
export function pager({ from, shown, total, size, step, what }) {
  if (total <= size && from === 0) return null;
  return h('nav', { class: 'pager', 'aria-label': `Parts of the ${what}` },
    button([icon('left'), 'Previous'], () => step(Math.max(0, from - size)), { disabled: from === 0 }),
    h('span', {},
      `${numberText(shown === 0 ? 0 : from + 1)}–${numberText(from + shown)} of ${numberText(total)}`,
    ),
    button(['Next', icon('right')], () => step(from + size), { disabled: from + shown >= total }));
}
