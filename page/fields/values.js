// A field's value as it is shown, by its kind.

import { h, icon } from '../dom.js';
import { href } from '../router.js';
import { sprintName } from '../sprints.js';
import { fieldOf } from '../team.js';
import { agoText, dateText, momentText, shortDateText, today } from '../texts.js';
import { chip, person, statusBadge } from '../parts/small.js';

/** The value of a field, or a sign that there is none. */
export function shown(field, value, { compact = false, isDone = false } = {}) {
  if (value === undefined || value === null) return h('span', { class: 'none' }, compact ? '' : 'None');
  if (field.name === 'status') return statusBadge(value);
  if (field.name === 'priority') return priority(value);
  return (BY_KIND[field.kind] ?? plain)(value, { compact, isDone, field });
}

/** A moment, with how long ago it was. */
export function shownMoment(moment) {
  return h('time', { datetime: new Date(moment * 1000).toISOString(), title: momentText(moment) },
    agoText(moment),
  );
}

/** A field's value in one line of text, as a history tells it. */
export function textOf(name, value) {
  if (value === null || value === undefined) return 'none';
  const kind = fieldOf(name)?.kind;
  if (Array.isArray(value)) return value.join(', ');
  if (kind === 'date') return dateText(value);
  if (kind === 'sprint') return sprintName(value);
  return String(value);
}

function plain(value) {
  return h('span', {}, String(value));
}

function date(value, { field, isDone, compact }) {
  const late = field.name === 'due' && value < today() && !isDone;
  return h('time', { datetime: value, class: late ? 'late' : '' },
    late && icon('warn'),
    late && h('span', { class: 'unseen' }, 'Late: '),
    compact ? shortDateText(value) : dateText(value),
  );
}

function priority(value) {
  const level = levelOf(fieldOf('priority').options, value);
  const sign = { high: icon('rise'), middle: h('span', { class: 'dash', 'aria-hidden': 'true' }, '='), low: icon('fall') };
  return h('span', { class: `priority ${level}` }, sign[level], value);
}

/** In which third of the options a value stands; the highest stands first. */
function levelOf(options, value) {
  const place = options.indexOf(value);
  if (options.length < 2) return 'middle';
  if (place * 3 < options.length) return 'high';
  return place * 3 >= options.length * 2 ? 'low' : 'middle';
}

function sprint(value, { compact }) {
  const name = sprintName(value);
  return compact ? h('span', {}, name) : h('a', { href: href(['sprint', String(value)]) }, name);
}

const BY_KIND = {
  date,
  sprint,
  user: (value, { compact }) => person(value, { alone: compact === 'alone' }),
  labels: (value) => h('span', { class: 'chips' }, value.map(chip)),
  set: (value) => h('span', { class: 'chips' }, value.map(chip)),
  number: (value) => h('span', { class: 'number' }, value),
};
