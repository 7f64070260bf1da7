// Cards of a board: how one looks, and which of them others have moved.

import { h, refill } from '../dom.js';
import { shown } from '../fields/values.js';
import { chip, keyLink, person } from '../parts/small.js';
import { categoryOf, fieldOf, same } from '../team.js';

const LABELS = 3;

/** A card of which only the key is known yet. */
export function makeCard(key) {
  return h('li', { class: 'card', 'data-key': key, tabindex: '-1' },
    h('div', { class: 'card-head' }, keyLink(key, { tabindex: '-1', draggable: 'false' })),
    h('div', { class: 'line' }),
  );
}

/** Shows what is known of the issue by now; nothing is drawn anew where nothing differs. */
export function fillCard(card, issue) {
  if (!issue || card.shown === issue) return;
  const { fields } = issue;
  card.shown = issue;
  card.setAttribute('aria-label', `${issue.issue}: ${fields.summary}`);
  card.setAttribute('aria-roledescription', 'card');
  card.setAttribute('aria-describedby', 'board-help');
  refill(card, head(issue), h('p', {}, fields.summary), foot(fields));
}

function head({ issue, fields }) {
  return h('div', { class: 'card-head' },
    keyLink(issue, { tabindex: '-1', draggable: 'false' }),
    h('span', { class: same(fields.type, 'Bug') ? 'type bug' : 'type' }, fields.type),
    h('span', { class: 'room' }),
    fields.points && h('span', { class: 'pill', title: 'Points' }, fields.points),
    fields.assignee && person(fields.assignee, { alone: true }),
  );
}

function foot(fields) {
  const isDone = categoryOf(fields.status) === 'done';
  const labels = fields.labels ?? [];
  const parts = [
    fields.priority && shown(fieldOf('priority'), fields.priority),
    fields.due && shown(fieldOf('due'), fields.due, { compact: true, isDone }),
    ...labels.slice(0, LABELS).map(chip),
    labels.length > LABELS && h('span', { class: 'quiet' }, `+${labels.length - LABELS}`),
  ];
  return parts.some(Boolean) && h('div', { class: 'card-foot' }, parts);
}

/** The cards that stand elsewhere than before: `key`, `from` and `to`, the columns. New ones and gone ones aren't among them. */
export function movedCards(before, after) {
  const was = new Map(before.flatMap(({ status, issues }) => issues.map((key, at) => [key, { status, at }])));
  const moved = [];
  for (const { status, issues } of after) {
    const stayed = issues.filter((key) => was.get(key)?.status === status);
    const rising = longestRising(stayed.map((key) => was.get(key).at));
    stayed.forEach((key, place) => {
      if (!rising.has(place)) moved.push({ key, from: status, to: status });
    });
    for (const key of issues) {
      if (was.has(key) && was.get(key).status !== status) moved.push({
        key,
        from: was.get(key).status,
        to: status,
      });
    }
  }
  return moved;
}

/** The places of a longest rising part of a list: what is in it kept its order, all else was moved. */
function longestRising(numbers) {
  const ends = [];
  const before = [];
  numbers.forEach((number, place) => {
    let low = 0;
    let high = ends.length;
    while (low < high) {
      const middle = (low + high) >> 1;
      if (numbers[ends[middle]] < number) low = middle + 1;
      else high = middle;
    }
    before[place] = low > 0 ? ends[low - 1] : -1;
    ends[low] = place;
  });
  const places = new Set();
  for (let place = ends.at(-1) ?? -1; place >= 0; place = before[place]) places.add(place);
  return places;
}
