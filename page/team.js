// What the tracker says of itself and of who asks: fields, statuses, transitions, groups, permissions.

import { ask } from './calls.js';
import { setClock } from './texts.js';

const changes = new EventTarget();

/** The answer of `describe`, which each view reads. */
export let team = null;

/** Asks for it anew. */
export async function learnTeam(options) {
  const came = await ask('describe', {}, options);
  const differs = team !== null && JSON.stringify({ ...came, moment: 0 }) !== JSON.stringify({ ...team, moment: 0 });
  team = came;
  setClock(came.moment, came.offset_minutes);
  if (differs) changes.dispatchEvent(new Event('change'));
  return team;
}

/** Listens for another answer than before. */
export function onTeam(listener, signal) {
  changes.addEventListener('change', listener, { signal });
}

/** The field of this name, ASCII case ignored, or undefined. */
export function fieldOf(name) {
  return team.fields.find((field) => same(field.name, name));
}

/** Whether two names are the same to the tracker. */
export function same(one, other) {
  return lower(one) === lower(other);
}

function lower(name) {
  return name.replace(/[A-Z]/g, (letter) => letter.toLowerCase());
}

/** The project of an issue's key, or undefined. */
function projectOf(key) {
  return team.projects.find((project) => project.key === key.slice(0, key.lastIndexOf('-')));
}

/** Whether the caller has this permission in the project of an issue. */
export function may(permission, key) {
  return projectOf(key)?.may.includes(permission) ?? false;
}

/** The category of a status: `todo`, `progress` or `done`. */
export function categoryOf(status) {
  return team.statuses.find((one) => one.status === status)?.category ?? 'todo';
}

/** Whether a user is in a group. */
export function isIn(user, group) {
  return team.groups.find((one) => same(one.group, group))?.members.includes(user) ?? false;
}

/** What people call a field. */
export function labelOf(name) {
  return LABELS[name] ?? name;
}

const LABELS = {
  __proto__: null,
  key: 'Key',
  type: 'Type',
  summary: 'Summary',
  description: 'Description',
  status: 'Status',
  assignee: 'Assignee',
  reporter: 'Reporter',
  priority: 'Priority',
  resolution: 'Resolution',
  fixVersion: 'Fix versions',
  labels: 'Labels',
  due: 'Due',
  points: 'Points',
  sprint: 'Sprint',
  created: 'Created',
  updated: 'Updated',
  rank: 'Rank',
  project: 'Project',
};
