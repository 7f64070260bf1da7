// The trial's choice of who one is, in the page's head. A real front server finds that out by signing people in.

import { h, refill } from '../dom.js';
import { team } from '../team.js';

function draw() {
  const who = document.getElementById('who');
  const choice = h('select', {
    'aria-label': 'Who you are in this trial',
    title: 'Who you are in this trial',
    on: { change: () => { document.cookie = `trial_user=${choice.value}; path=/; SameSite=Strict`; location.reload(); } },
  }, team.users.map((user) => h('option', { value: user, selected: user === team.user }, user)));
  refill(who, choice);
}

document.addEventListener('head', draw);
if (document.getElementById('who')) draw();
