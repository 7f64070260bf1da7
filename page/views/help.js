// The keys that work where one is.

import { h } from '../dom.js';
import { boundKeys } from '../keys.js';
import { openDialog } from '../parts/dialog.js';

/** Shows them. */
export function helpDialog() {
  if (document.querySelector('dialog[open]')) return;
  const groups = [...boundKeys()].map(([group, keys]) => h('section', {}, h('h3', {}, group),
    h('dl', { class: 'keylist' }, keys.map((one) => [
      h('dt', {}, one.keys.map((key, at) => [at > 0 && (one.act ? ' then ' : ' '), h('kbd', {}, key)])),
      h('dd', {}, one.does)]))));
  openDialog({
    title: 'Keys',
    body: [
      h('div', { class: 'keygroups' }, groups),
      h('p', { class: 'quiet' },
        'In a field, Escape leaves it. Ctrl and Enter send a form from any of its fields.',
      ),
    ],
  });
}
