// As much of a query's form as the page needs: where its comparisons and sort keys stand, and its order. The tracker reads it.

const SIGNS = ['!=', '<=', '>=', '!~', '&&', '||', '=', '<', '>', '~', '!', '&', '|', '(', ')', ','];
const KEYWORDS = [
  'AND',
  'OR',
  'NOT',
  'EMPTY',
  'NULL',
  'IN',
  'IS',
  'WAS',
  'CHANGED',
  'ORDER',
  'BY',
  'ASC',
  'DESC',
  'AFTER',
  'BEFORE',
  'ON',
  'DURING',
  'FROM',
  'TO',
];
const JOINS = ['AND', 'OR', '&', '&&', '|', '||'];

/** The tokens of a text: `word` (in capitals where it is a keyword, else null), `value`, `start`, `end`. */
export function tokens(text) {
  const found = [];
  let at = 0;
  while (at < text.length) {
    if (/[ \t\n\r]/.test(text[at])) {
      at += 1;
      continue;
    }
    const token = text[at] === '"' || text[at] === "'"
      ? inQuotes(text, at)
      : sign(text, at) ?? word(text, at);
    found.push(token);
    at = token.end;
  }
  return found;
}

function inQuotes(text, start) {
  let at = start + 1;
  let value = '';
  while (at < text.length && text[at] !== text[start]) {
    if (text[at] === '\\') at += 1;
    value += text[at] ?? '';
    at += 1;
  }
  return { word: null, value, start, end: Math.min(at + 1, text.length), isText: true };
}

function sign(text, start) {
  const found = SIGNS.find((one) => text.startsWith(one, start));
  return found && { word: found, value: found, start, end: start + found.length };
}

function word(text, start) {
  const field = /^cf\[\d+\]/.exec(text.slice(start));
  const value = field ? field[0] : /^[^ \t\n\r"'=!<>~&|(),]+/.exec(text.slice(start))?.[0] ?? text[start];
  const capitals = value.toUpperCase();
  return { word: KEYWORDS.includes(capitals) ? capitals : null, value, start, end: start + value.length };
}

/** Where each comparison stands, from the left. */
function comparisons(text) {
  const all = tokens(text);
  const found = [];
  let at = 0;
  while (at < all.length && all[at].word !== 'ORDER') {
    if (['NOT', '!', '(', ')', ...JOINS].includes(all[at].word)) {
      at += 1;
      continue;
    }
    const first = at;
    let depth = 0;
    for (; at < all.length; at += 1) {
      const token = all[at];
      if (depth === 0 && (token.word === 'ORDER' || token.word === ')' || JOINS.includes(token.word))) break;
      if (token.word === '(') depth += 1;
      if (token.word === ')') depth -= 1;
    }
    found.push({ start: all[first].start, end: all[at - 1].end });
  }
  return found;
}

/** Where ORDER BY begins, or -1. */
function orderStart(all) {
  return all.findIndex((token, at) => token.word === 'ORDER' && all[at + 1]?.word === 'BY');
}

/** The sort keys: `field`, `direction` (`ASC` or `DESC`), `start`, `end`. */
export function sortKeys(text) {
  const all = tokens(text);
  const begin = orderStart(all);
  if (begin < 0) return [];
  const keys = [];
  for (let at = begin + 2; at < all.length; at += 1) {
    if (all[at].word === ',') continue;
    const direction = ['ASC', 'DESC'].includes(all[at + 1]?.word) ? all[at + 1] : null;
    keys.push({
      field: all[at].value,
      direction: direction?.word ?? 'ASC',
      start: all[at].start,
      end: (direction ?? all[at]).end,
    });
    if (direction) at += 1;
  }
  return keys;
}

/** The text with this order in the place of its own, or with none. */
export function withOrder(text, field, direction) {
  const all = tokens(text);
  const begin = orderStart(all);
  const condition = (begin < 0 ? text : text.slice(0, all[begin].start)).trim();
  const order = field === null ? '' : `ORDER BY ${named(field)}${direction === 'DESC' ? ' DESC' : ''}`;
  return [condition, order].filter((part) => part !== '').join(' ');
}

/** A field's name as a query has it. */
export function named(field) {
  return /^[A-Za-z][A-Za-z0-9]*$/.test(field) && !KEYWORDS.includes(field.toUpperCase())
    ? field
    : valued(field);
}

/** A value as a query has it. */
export function valued(value) {
  return `"${value.replace(/["\\]/g, '\\$&')}"`;
}

/** The part of a text at which a fault of this kind and place stands. */
export function faultRange(text, kind, place) {
  if (kind >= 11) {
    const parts = [...comparisons(text), ...sortKeys(text)];
    return parts[place] ?? { start: 0, end: text.length };
  }
  const start = ofByte(text, place);
  const token = tokens(text).find((one) => one.start <= start && start < one.end);
  return { start, end: kind === 5 ? text.length : Math.max(token?.end ?? start, start) };
}

/** The place in a text of a byte of its UTF-8. */
function ofByte(text, byte) {
  let bytes = 0;
  let at = 0;
  for (const letter of text) {
    if (bytes >= byte) break;
    const code = letter.codePointAt(0);
    bytes += code < 0x80 ? 1 : code < 0x800 ? 2 : code < 0x10000 ? 3 : 4;
    at += letter.length;
  }
  return at;
}
