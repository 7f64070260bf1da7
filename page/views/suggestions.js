// What may stand next in a query: fields, operators, values of a field, as one types. The tracker alone decides what is right.

import { fresh, h, refill } from '../dom.js';
import { named, tokens, valued } from '../jql.js';
import { fieldOf, team } from '../team.js';

const AT_MOST = 8;
const OTHERS = ['key', 'project', 'created', 'updated', 'statusCategory'];
const BY_KIND = {
  text: ['~', '!~', 'IS EMPTY', 'IS NOT EMPTY'],
  number: ['=', '>', '>=', '<', '<=', 'IS EMPTY'],
  date: ['<', '<=', '>', '>=', '=', 'IS EMPTY'],
  other: ['=', '!=', 'IN (', 'NOT IN (', 'IS EMPTY', 'IS NOT EMPTY', 'WAS', 'CHANGED'],
};
const DATES = ['now()', 'startOfDay()', 'endOfWeek()', 'startOfMonth()', '-1w'];
const SPRINTS = ['openSprints()', 'closedSprints()', 'futureSprints()'];

/** Suggestions for a text field. `changed` is told where one was taken. */
export function suggestions(input, changed) {
  const id = fresh('hints');
  const element = h(
    'ul',
    { id, class: 'hints', role: 'listbox', 'aria-label': 'What may stand here', hidden: true },
  );
  let shown = [];
  let at = -1;
  input.setAttribute('role', 'combobox');
  input.setAttribute('aria-autocomplete', 'list');
  input.setAttribute('aria-controls', id);
  input.setAttribute('aria-expanded', 'false');
  input.addEventListener('input', open);
  input.addEventListener('blur', close);

  function open() {
    const caret = input.selectionStart;
    shown = caret === input.selectionEnd ? fitting(input.value, caret) : [];
    at = -1;
    draw();
  }

  function close() {
    shown = [];
    draw();
  }

  function draw() {
    element.hidden = shown.length === 0;
    input.setAttribute('aria-expanded', String(shown.length > 0));
    if (at < 0) input.removeAttribute('aria-activedescendant');
    else input.setAttribute('aria-activedescendant', `${id}-${at}`);
    refill(element, shown.map((one, place) => h('li', {
      id: `${id}-${place}`, role: 'option', 'aria-selected': String(place === at),
      on: { mousedown: (event) => { event.preventDefault(); take(one); } },
    }, one.text)));
  }

  function take({ text, start, end }) {
    const behind = input.value.slice(end);
    const put = `${text}${/[(]$/.test(text) || behind.startsWith(' ') ? '' : ' '}`;
    input.setRangeText(put, start, end, 'end');
    changed();
    open();
  }

  /** Whether a key was for the suggestions. */
  function takes(event) {
    if (shown.length === 0) return false;
    if (event.key === 'ArrowDown' || event.key === 'ArrowUp') {
      at = (at + (event.key === 'ArrowDown' ? 1 : shown.length + (at < 0 ? 1 : 0) - 1)) % shown.length;
      draw();
    } else if ((event.key === 'Enter' && at >= 0) || (event.key === 'Tab' && at >= 0)) {
      take(shown[at]);
    } else if (event.key === 'Escape') {
      close();
    } else {
      return false;
    }
    event.preventDefault();
    return true;
  }

  return { element, takes, close };
}

function fitting(text, caret) {
  const before = tokens(text.slice(0, caret));
  const last = before.at(-1);
  const isOpen = last && last.end === caret && !/[ \t\n]/.test(text[caret - 1]) && ![
    '(',
    ')',
    ',',
    '=',
    '<',
    '>',
    '~',
  ].includes(text[caret - 1]);
  const typed = isOpen ? last.value.toLowerCase() : '';
  const start = isOpen ? last.start : caret;
  const all = next(isOpen ? before.slice(0, -1) : before);
  if (isOpen && all.some((one) => one.toLowerCase() === typed)) return [];
  return all.filter((one) => bare(one).startsWith(typed) && typed !== '').slice(0, AT_MOST).map((one) => ({
    text: one,
    start,
    end: caret,
  }));
}

function bare(text) {
  return text.replace(/^"/, '').toLowerCase();
}

/** What may stand behind these tokens, as far as it is easily told. */
function next(before) {
  const last = before.at(-1);
  const fields = [...team.fields.map((field) => field.name), ...OTHERS].map(named);
  if (!last || [
    'AND',
    'OR',
    'NOT',
    '!',
    '&',
    '&&',
    '|',
    '||',
  ].includes(last.word)) return [...fields, 'NOT', 'ORDER BY'];
  if (last.word === 'BY' && before.at(-2)?.word === 'ORDER') return [...fields, 'rank'];
  const field = subject(before);
  if (!field) return ['AND', 'OR', 'ORDER BY', 'ASC', 'DESC'];
  const isField = last.value === field.name && last.word === null && isSubject(before);
  if (isField) return BY_KIND[field.kind] ?? BY_KIND.other;
  if ([
    '=',
    '!=',
    '<',
    '<=',
    '>',
    '>=',
    '(',
    ',',
    'IN',
    'WAS',
    'FROM',
    'TO',
  ].includes(last.word)) return values(field);
  return ['AND', 'OR', 'ORDER BY', 'BY', 'AFTER', 'BEFORE', 'FROM', 'TO'];
}

/** Whether the last token is the field of its comparison. */
function isSubject(before) {
  const previous = before.at(-2);
  return !previous || ['AND', 'OR', 'NOT', '!', '&', '&&', '|', '||', '('].includes(previous.word);
}

/** The field of the comparison in which the text stands. */
function subject(before) {
  for (let at = before.length - 1; at >= 0; at -= 1) {
    if (['AND', 'OR', 'ORDER'].includes(before[at].word)) return null;
    const field = before[at].word === null && fieldOf(before[at].value);
    if (field && isSubject(before.slice(0, at + 1))) return { ...field, name: before[at].value };
  }
  return null;
}

function values(field) {
  if (field.options) return [...field.options.map(plainly), 'EMPTY'];
  if (field.kind === 'user') return ['currentUser()', ...team.users.map(plainly), 'membersOf(', 'EMPTY'];
  if (field.kind === 'date') return DATES;
  if (field.kind === 'sprint') return SPRINTS;
  return ['EMPTY'];
}

function plainly(value) {
  return /^[A-Za-z0-9._-]+$/.test(value) ? value : valued(value);
}
