// The faults of a query in words, by their kind, with the part of the text at which they stand.

import { faultRange, tokens } from './jql.js';
import { labelOf, team } from './team.js';
import { listText, quoted } from './texts.js';

/** What is wrong with a query: `start` and `end` in its text, and `words`. */
export function faultOf(text, refusal) {
  const range = faultRange(text, refusal.kind, refusal.place);
  const part = text.slice(range.start, range.end);
  return { ...range, words: (WORDS[refusal.kind] ?? unknown)(part, text, refusal) };
}

function first(part) {
  return tokens(part)[0]?.value ?? part;
}

function operator(part) {
  const words = tokens(part).slice(1);
  const behind = words.findIndex((token) => token.word === null || token.word === '(');
  return words.slice(0, behind < 0 ? words.length : behind).map((token) => token.value).join(' ');
}

function unknown(part, text, refusal) {
  return `The query has a fault of kind ${refusal.kind}.`;
}

function near(part) {
  return part === '' ? 'The query ends too early here.' : `${quoted(part)} can’t stand here.`;
}

function names() {
  return listText([
    ...team.fields.map((field) => field.name),
    'key',
    'project',
    'created',
    'updated',
    'statusCategory',
    'rank',
  ]);
}

function value(part) {
  const field = team.fields.find((one) => one.name.toLowerCase() === first(part).toLowerCase());
  const options = field?.options ?? [];
  const hint = options.length > 0 && options.length <= 12
    ? ` ${labelOf(field.name)} can be ${listText(options, 'or')}.`
    : '';
  return `${quoted(first(part))} can’t have the value in ${quoted(part)}.${hint}`;
}

function noOperator(part) {
  const told = operator(part);
  return told === '' || /^(ASC|DESC)$/i.test(told)
    ? `${quoted(first(part))} gives no order.`
    : `${quoted(first(part))} can’t be compared by ${quoted(told)}.`;
}

function noToken(part) {
  if (/^["']/.test(part)) return 'In quotes a backslash stands before a quote or another backslash alone.';
  return `${quoted(part.slice(0, 1))} has no meaning here. Put values with such characters in quotes.`;
}

const WORDS = {
  1: noToken,
  2: () => 'The second quote is missing.',
  3: near,
  4: () => 'More than 64 parentheses and NOTs are open here.',
  5: () => 'The query is longer than 4,096 bytes.',
  6: (part) => `${quoted(part)} is no date. Dates look like 2024-03-15, -2w or now().`,
  7: () => 'Fields by number go from cf[10000] to cf[19999].',
  11: (part) => `There is no field ${quoted(first(part))}. The fields are ${names()}.`,
  12: value,
  13: noOperator,
  14: (part) => `There is no such function, or it can’t stand in ${quoted(part)}.`,
  15: (part) => `There is no such user or group in ${quoted(part)}.`,
};
