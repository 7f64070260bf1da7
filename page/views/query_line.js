// The line for a query. A second text lies beneath it, letter under letter, in which the fault is marked.

import { h, icon, put, refill } from '../dom.js';
import { suggestions } from './suggestions.js';

/** The line. `search(text)` looks, `typed()` is told of each change. */
export function queryLine({ search, typed }) {
  const beneath = h('div', { class: 'beneath', 'aria-hidden': 'true' });
  const input = h('textarea', {
    id: 'query', rows: 1, spellcheck: 'false', autocomplete: 'off', autocapitalize: 'off', 'aria-label': 'Query',
    'aria-describedby': 'query-fault', placeholder: window.innerWidth < 760
      ? 'All issues, or a query'
      : 'All issues – or type a query, as assignee = currentUser() ORDER BY due',
    on: { input: change, keydown },
  });
  const hints = suggestions(input, change);
  const element = h('form', {
    class: 'line',
    role: 'search',
    on: { submit: (event) => { event.preventDefault(); send(); } },
  },
    h('div', { class: 'over' }, beneath, input, hints.element),
    h('button', { type: 'submit', class: 'main' }, icon('search'), h('span', {}, 'Search')));
  let fault = null;

  function send() {
    hints.close();
    search(input.value.trim());
  }

  function keydown(event) {
    if (event.isComposing || hints.takes(event)) return;
    if (event.key === 'Enter' && !event.shiftKey) {
      event.preventDefault();
      send();
    } else if (event.key === 'Escape') {
      input.blur();
    }
  }

  function change() {
    fault = null;
    draw();
    typed();
  }

  function draw() {
    const text = input.value;
    input.toggleAttribute('aria-invalid', false);
    if (!fault) {
      refill(beneath, `${text}\n`);
      return;
    }
    input.setAttribute('aria-invalid', 'true');
    refill(beneath,
      text.slice(0, fault.start),
      h('mark', {}, text.slice(fault.start, fault.end) || ' '),
      text.slice(fault.end),
    );
    put(beneath, '\n');
  }

  return {
    element,
    text: () => input.value.trim(),
    set: (text) => {
      if (input.value.trim() !== text) input.value = text;
      fault = null;
      hints.close();
      draw();
    },
    /** Marks a part of the text, or none. */
    mark: (range) => {
      if (range === null && fault === null) return;
      fault = range;
      if (range && input.value !== input.value.trim()) input.value = input.value.trim();
      draw();
    },
  };
}
