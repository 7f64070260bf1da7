// Each refusal in words, with its names: the table of docs/REFUSALS.md, for people.

import { Refused, Unreachable } from './calls.js';
import { faultOf } from './faults.js';
import { conditionText, transitionOf, validatorText } from './rules.js';
import { fieldOf, labelOf, team } from './team.js';
import { listText, momentText, numberText, quoted } from './texts.js';

/** What an error says to a person. */
export function wordsOf(error) {
  if (error instanceof Refused) return (WORDS[error.refusal.no] ?? other)(
    error.refusal,
    error.members,
    error.call,
  );
  if (error instanceof Unreachable) return lostWords(error);
  return `The page made a mistake: ${error.message}`;
}

/** The field that a refusal is about, by name, or null. */
export function fieldAtFault(error) {
  if (!(error instanceof Refused)) return null;
  const { no, field, index } = error.refusal;
  if (no === 6) return field;
  if (no === 9) return 'sprint';
  if (no === 13) return 'summary';
  if (no === 5) {
    const rule = transitionOf(error.members.transition)?.validators[index - 1] ?? '';
    if (rule === 'due') return 'due';
    return /^(required|changed):/.test(rule) ? fieldOf(rule.slice(rule.indexOf(':') + 1))?.name ?? null : null;
  }
  return null;
}

const READS = [
  'balance',
  'board',
  'boards',
  'burndown',
  'describe',
  'filter',
  'filters',
  'history',
  'list',
  'search',
  'show',
  'sprints',
];

function lostWords({ status, call }) {
  if (status === 401) return 'You are signed out. Load the page again to sign in; what you typed is kept.';
  if (status === 403) return 'The front server refused this, since it didn’t come from the tracker’s own page.';
  if (status === 413) return 'That is too long for one call: at most 65,536 bytes.';
  if (status === 429) return 'That was too much in a short time. Try again in a moment; what you typed is kept.';
  if ((status === 0 || status === 504) && !READS.includes(call)) {
    return 'No answer came. It may have been done all the same: look before you try again. What you typed is kept.';
  }
  return 'The tracker doesn’t answer just now. What you typed is kept; try again when it is back.';
}

function other(refusal) {
  return `The tracker refused this (${refusal.no}).`;
}

function badMember({ member }, members) {
  if (member === 'name') return 'A name has 1 to 100 bytes and no control characters.';
  if (member === 'other') return 'An issue can’t be moved beside itself.';
  if (member === 'jql') return 'The query can’t be sent as it is.';
  if (member === 'members') return 'A group has at most 200 members.';
  if (member === 'user') return 'The front server didn’t say who you are. Load the page again.';
  if ([
    'issue',
    'board',
    'filter',
    'sprint',
  ].includes(member)) return `${quoted(members?.[member] ?? '')} is no ${member}’s name.`;
  return `The tracker can’t read this call: its member ${quoted(member)} is missing, unknown or of the wrong kind.`;
}

function noSuch({ kind, name }) {
  if (kind === 'user') return `There is no user ${quoted(name)}.`;
  if (['filter', 'board', 'sprint'].includes(kind)) return `There is no ${kind} ${name}, or it is gone.`;
  return `There is no ${kind} ${quoted(name)}.`;
}

const DOES = {
  browse: 'look at issues',
  create: 'make issues',
  edit: 'edit issues',
  transition: 'bring issues to another status',
  rank: 'move issues',
};

function noPermission({ permission, project }) {
  if (permission === 'plan') return `${team.user} may not plan: neither boards nor sprints and what is left of them.`;
  if (permission === 'administer') return `${team.user} may not administer this tracker.`;
  return `${team.user} may not ${DOES[permission] ?? permission} in ${project}.`;
}

function condition({ index }, members) {
  const transition = transitionOf(members.transition);
  if (index === 0) {
    const from = transition ? `, which leads from ${listText(transition.from, 'and')}` : '';
    return `${members.issue} isn’t in a status for ${quoted(members.transition)}${from}. Somebody may have moved it.`;
  }
  const rule = transition?.conditions[index - 1];
  const whom = rule ? conditionText(rule) : `whom condition ${index} lets through`;
  return `${quoted(members.transition)} is only for ${whom}.`;
}

function validator({ index }, members) {
  const rule = transitionOf(members.transition)?.validators[index - 1];
  return `${quoted(members.transition)} asks for ${rule ? validatorText(rule) : `what validator ${index} says`}.`;
}

const FITS = {
  __proto__: null,
  summary: '1 to 255 bytes in one line',
  description: 'at most 4,096 bytes',
  labels: 'at most 16 labels of 1 to 64 bytes, without spaces',
  points: 'up to 9 digits, and up to 3 behind a point',
  due: 'a day from 1970 to 2099',
  status: 'a status is reached by a transition',
};
const FEW = 12;
const KIND_FITS = {
  number: 'up to 9 digits, and up to 3 behind a point',
  date: 'a day from 1970 to 2099',
  text: 'at most 1,024 bytes',
  user: 'the name of a user',
};

function noFit({ field }) {
  const known = fieldOf(field);
  const hint = FITS[field] ?? KIND_FITS[known?.kind] ?? (known?.options ? choicesText(known.options) : null);
  return `This doesn’t fit ${labelOf(field)}${hint ? `: ${hint}` : ''}.`;
}

function choicesText(options) {
  return options.length <= FEW ? listText(options, 'or') : `one of the ${options.length} that the setup has`;
}

const LIMITS = {
  issues: 'issues',
  entries: 'entries of histories',
  text_bytes: 'bytes of text',
  filters: 'saved filters',
  boards: 'boards',
  sprints: 'sprints',
};

function limit({ limit: name, number }) {
  return `The tracker is full: it keeps at most ${numberText(number)} ${LIMITS[name] ?? name}.`;
}

function sprintState({ state }, members, call) {
  if (call === 'start_sprint' || call === 'close_sprint') return `The sprint is ${state} already. Somebody may have been faster.`;
  return `The sprint is ${state}: no issue comes into it any more.`;
}

function balanceState({ kept }) {
  return kept.startsWith('moving')
    ? 'A rebalancing is under way already.'
    : 'No rebalancing is under way; it may have ended.';
}

const WORDS = {
  1: badMember,
  2: noSuch,
  3: noPermission,
  4: condition,
  5: validator,
  6: noFit,
  7: (refusal, members) => faultOf(members.jql ?? '', refusal).words,
  8: () => 'No rank is left between these two issues. Who may administer can rebalance the ranks on the page Tracker.',
  9: sprintState,
  10: limit,
  11: ({ kept }) => `The tracker’s clock is ahead: it stands at ${momentText(kept)}.`,
  12: balanceState,
  13: ({ kept }) => `This was made already, as ${kept}, before you changed it. Open ${kept} and edit it there.`,
  14: () => 'The tracker couldn’t write to its disk. Nothing changed, and what you typed is kept; try again.',
  15: () => 'The tracker ran out of memory. Nothing changed, and what you typed is kept; try again.',
};
