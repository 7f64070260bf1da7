// Short messages at the edge of the page, which screen readers are told of.

import { h, icon, refill } from '../dom.js';
import { isLeft, Unreachable } from '../calls.js';
import { wordsOf } from '../refusals.js';

const AT_MOST = 4;
const place = h('div', { class: 'toasts', role: 'region', 'aria-label': 'Messages' });
const polite = h('div', { class: 'unseen', role: 'status', 'aria-live': 'polite' });
const urgent = h('div', { class: 'unseen', role: 'alert' });

/** The elements that the page has to hold. */
export function toastPlaces() {
  return [place, polite, urgent];
}

/** Tells screen readers alone. */
export function announce(text) {
  refill(polite, text);
}

/** Tells something that was done or seen. `action` is a link or button behind the words. */
export function tell(text, action = null) {
  announce(text);
  show('told', text, action, 6000);
}

/** Tells that something was refused or failed, until it is closed. */
export function warn(text) {
  refill(urgent, text);
  show('warned', text, null, 20_000);
}

/** Tells of an error, unless it is that the view was left. */
export function warnOf(error) {
  if (isLeft(error)) return;
  if (!(error instanceof Unreachable) && error.name !== 'Refused') console.error(error);
  warn(wordsOf(error));
}

function show(kind, text, action, stays) {
  const toast = h('div', { class: `toast ${kind}` }, icon(kind === 'warned' ? 'warn' : 'check'), h('p', {},
    text,
    action && ' ',
    action,
  ),
    h('button',
      {
        type: 'button',
        class: 'plain small',
        'aria-label': 'Close message',
        on: { click: () => toast.remove() },
      },
      icon('close'),
    ));
  place.append(toast);
  while (place.children.length > AT_MOST) place.firstElementChild.remove();
  setTimeout(() => toast.remove(), stays);
}
