// Dialogs over the page: one form each, which Escape leaves and whose refusals stand in it.

import { fresh, h, icon, refill } from '../dom.js';
import { isLeft } from '../calls.js';
import { wordsOf } from '../refusals.js';

/**
 * Opens a dialog and gives a promise of what `act` gave, or undefined where it was left. `body` is its content, `act` makes the call
 * and may throw: then its words stand in the dialog, and what was typed stays. `place(error)` may put the words beside a field.
 */
export function openDialog({ title, body, verb, act, place, narrow = false, extra = null, closed }) {
  return new Promise((settle) => {
    let came;
    let isUnderWay = false;
    const name = fresh('dialog');
    const fault = h('p', { class: 'fault', role: 'alert', hidden: true });
    const send = verb && h('button', { type: 'submit', class: 'main' }, verb);
    const dialog = h('dialog', { class: narrow ? 'narrow' : '', 'aria-labelledby': name },
      h('form', { method: 'dialog', novalidate: true, on: { submit } },
        h('header', {},
          h('h2', { id: name }, title),
          h('button',
            { type: 'button', class: 'plain', 'aria-label': 'Close', on: { click: () => dialog.close() } },
            icon('close'),
          ),
        ),
        h('div', { class: 'body' }, body, fault),
        h('footer', {}, extra, h('span', { class: 'room' }),
          h('button', { type: 'button', on: { click: () => dialog.close() } },
            verb ? 'Cancel' : 'Close',
          ), send)));

    async function submit(event) {
      event.preventDefault();
      if (!act || isUnderWay) return;
      underWay(true);
      fault.hidden = true;
      try {
        came = await act(event);
        dialog.close();
      } catch (error) {
        if (!isLeft(error) && !place?.(error)) {
          refill(fault, icon('warn'), wordsOf(error));
          fault.hidden = false;
          fault.scrollIntoView({ block: 'nearest' });
        }
      } finally {
        underWay(false);
      }
    }

    /** What is under way isn't sent a second time. A dialog whose buttons are its answers has none to send. */
    function underWay(is) {
      isUnderWay = is;
      if (send) send.disabled = is;
    }

    dialog.addEventListener('click', (event) => { if (event.target === dialog) dialog.close(); });
    dialog.addEventListener('keydown', (event) => {
      if (event.key === 'Enter' && (event.ctrlKey || event.metaKey)) {
        event.preventDefault();
        dialog.querySelector('form').requestSubmit();
      }
    });
    dialog.addEventListener('close', () => {
      dialog.remove();
      closed?.();
      settle(came);
    });
    document.body.append(dialog);
    dialog.showModal();
    (dialog.querySelector('[autofocus]') ?? dialog.querySelector('.body :is(input, textarea, select, button)') ?? send)?.focus();
  });
}

/** Asks whether something is meant that can't be taken back. */
export async function confirmed(title, words, verb, act) {
  return (await openDialog({
    title,
    body: h('p', {}, words),
    verb,
    narrow: true,
    act: async () => { await act(); return true; },
  })) === true;
}
