// The tracker itself: groups and their members, ranks and their balance, the workflow, and who may do what.

import { ask, isLeft } from '../calls.js';
import { h, put, refill } from '../dom.js';
import { openDialog } from '../parts/dialog.js';
import { button, chip, person, statusBadge } from '../parts/small.js';
import { tell, warnOf } from '../parts/toasts.js';
import { again } from '../poll.js';
import { conditionText, validatorText } from '../rules.js';
import { labelOf, learnTeam, onTeam, team } from '../team.js';
import { listText, momentText, numberText, plural } from '../texts.js';

const STEP = 500;

/** Shows the view. */
export async function trackerView(place, route, signal) {
  document.title = 'Tracker · Vuglastej';
  const groups = h('section', { class: 'panel', 'aria-label': 'Groups' });
  const ranks = h('section', { class: 'panel', 'aria-label': 'Ranks' });
  const rest = h('div', { class: 'panels' });
  put(place,
    h('header', { class: 'page-head' }, h('h1', {}, 'Tracker')),
    h('div', { class: 'two' }, groups, ranks),
    rest,
  );
  const draw = () => {
    refill(groups, h('h2', {}, 'Groups'), h('ul', { class: 'groups' }, team.groups.map(group)));
    refill(rest, projects(), workflow(), fields());
  };
  draw();
  onTeam(draw, signal);
  const balance = balancing(ranks, signal);
  await balance();
  again(5, balance, signal);
  again(10, () => learnTeam({ signal }), signal);
}

function group(one) {
  return h('li', {}, h('div', { class: 'row' }, h('h3', {}, one.group), h('span', { class: 'count' },
    one.members.length,
  ), h('span', { class: 'room' }),
    team.administer && button('Change',
      () => change(one),
      { class: 'small', 'aria-label': `Change the members of ${one.group}` },
    )),
  one.members.length === 0
    ? h('p', { class: 'quiet' }, 'Nobody is in it.')
    : h('div', { class: 'people' }, one.members.map((member) => person(member))));
}

async function change(one) {
  const boxes = team.users.map((user) => h(
    'input',
    { type: 'checkbox', value: user, checked: one.members.includes(user) },
  ));
  const risk = h('p', { class: 'hint' }, 'Permissions and rules go by these members from then on.');
  const done = await openDialog({
    title: `Members of ${one.group}`,
    narrow: true,
    body: [
      h('fieldset', { class: 'boxes tall', 'aria-label': 'Members' },
        boxes.map((box, at) => h('label', {}, box, person(team.users[at]))),
      ),
      risk,
    ],
    verb: 'Save',
    act: async () => {
      const came = await ask('set_group',
        { group: one.group, members: boxes.filter((box) => box.checked).map((box) => box.value) },
      );
      await learnTeam();
      return came;
    },
  });
  if (done) tell(`${done.group} has ${plural(done.members, 'member', 'members')} now.`);
}

function balancing(place, signal) {
  let last = '';
  let isOn = false;

  async function run() {
    if (isOn) return;
    isOn = true;
    try {
      let { state, left } = await ask('balance', {}, { signal });
      if (state === 'idle') {
        await ask('rebalance_start', {}, { signal });
        left = 1;
      }
      while (left > 0) {
        ({ left } = await ask('rebalance_step', { count: STEP }, { signal }));
        await show();
      }
      tell('All ranks are short again.');
    } catch (error) {
      if (!isLeft(error)) warnOf(error);
    } finally {
      isOn = false;
      show().catch(() => {});
    }
  }

  async function show() {
    const told = await ask('balance', {}, { signal });
    const now = JSON.stringify([told, isOn, team.administer]);
    if (now === last) return;
    last = now;
    const moves = told.state === 'moving';
    refill(place, h('h2', {}, 'Ranks'),
      h('p', {},
        'The order in which issues stand on boards, made by moving them. A rank grows where many moves go to one place.',
      ),
      h('dl', { class: 'figures' }, h('div', {},
        h('dt', {}, 'Longest rank'),
        h('dd', {}, told.longest, h('small', {}, ' of 254 bytes')),
      ),
        moves && h('div', {}, h('dt', {}, 'Still to go'), h('dd', {}, numberText(told.left)))),
      h(
        'meter',
        {
          min: 0,
          max: 254,
          low: 128,
          high: 200,
          optimum: 0,
          value: told.longest,
          'aria-label': 'Length of the longest rank',
        },
      ),
      h('p', { class: told.offer ? 'hint' : 'quiet' }, advice(told)),
      team.administer && button(
        isOn ? 'Rebalancing …' : moves ? 'Go on rebalancing' : 'Rebalance',
        run,
        { class: told.offer || moves ? 'main' : '', disabled: isOn },
      ));
  }

  return show;
}

function advice(told) {
  if (told.state === 'moving') return `A rebalancing is under way, from bucket ${told.from} to ${told.to}.`;
  return told.offer
    ? 'It is time for a rebalancing: it gives all issues short ranks again and leaves their order.'
    : 'There is no need for a rebalancing.';
}

const WORDS = {
  browse: 'look',
  create: 'make',
  edit: 'edit',
  transition: 'transition',
  rank: 'move',
};

function projects() {
  const heads = ['Project', 'Lead', `What ${team.user} may`].map((words) => h('th', { scope: 'col' }, words));
  return h('section', { class: 'panel', 'aria-label': 'Projects' }, h('h2', {}, 'Projects'),
    h('table', { class: 'small-table wraps', 'aria-label': 'Projects and permissions' },
      h('thead', {}, h('tr', {}, heads)),
      h('tbody', {}, team.projects.map(project)),
    ),
    h('p', { class: 'quiet' }, `${may()} The tracker’s time is ${momentText(team.moment)}.`),
  );
}

function project(one) {
  return h('tr', {},
    h('th', { scope: 'row' }, one.key),
    h('td', {}, person(one.lead)),
    h('td', {}, h('span', { class: 'chips' }, one.may.map((name) => chip(WORDS[name])))),
  );
}

function may() {
  const whole = [
    team.administer && 'administer the tracker',
    team.plan && 'plan boards and sprints',
  ].filter(Boolean);
  return whole.length > 0
    ? `${team.user} may ${listText(whole)}.`
    : `${team.user} may neither administer the tracker nor plan boards and sprints.`;
}

function workflow() {
  return h('section', { class: 'panel', 'aria-label': 'Workflow' }, h('h2', {}, 'Workflow'),
    h('ul', { class: 'flow' }, team.transitions.map((one) => h('li', {},
      h('div', { class: 'way-line' },
        one.from.map(statusBadge),
        h('span', { class: 'arrow' }, '→'),
        h('b', {}, one.transition),
        h('span', { class: 'arrow' }, '→'),
        statusBadge(one.to),
      ),
      rules(one)))));
}

function rules({ conditions, validators, post }) {
  const told = [
    conditions.length > 0 && `Only for ${listText(conditions.map(conditionText))}.`,
    validators.length > 0 && `Asks for ${listText(validators.map(validatorWords))}.`,
    post.length > 0 && `Then ${listText(post.map(postText))}.`,
  ].filter(Boolean);
  return told.length > 0 && h('p', { class: 'quiet' }, told.join(' '));
}

function validatorWords(rule) {
  return rule.startsWith('required:') ? labelOf(rule.slice(9)) : validatorText(rule);
}

function postText(rule) {
  const behind = rule.slice(rule.indexOf(':') + 1);
  if (rule.startsWith('assign:')) return `it is assigned to the ${behind}`;
  if (rule.startsWith('resolution:')) return `its resolution is ${behind}`;
  if (rule.startsWith('clear:')) return `${labelOf(behind)} is emptied`;
  const cut = behind.indexOf('=');
  return `${labelOf(behind.slice(0, cut))} is ${behind.slice(cut + 1)}`;
}

function fields() {
  return h('section', { class: 'panel', 'aria-label': 'Fields' }, h('h2', {}, 'Fields'),
    h('dl', { class: 'fieldlist' },
      team.fields.map((one) => h('div', {},
        h('dt', {}, one.name, h('span', { class: 'quiet' }, ` ${one.kind}`)),
        one.options && h('dd', {}, one.options.join(', ') || 'none'),
      )),
    ));
}
