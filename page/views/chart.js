// The burndown as a drawing: what is left as steps, and a straight line beside it. The table next to it says the same in numbers.

import { h, refill, s } from '../dom.js';
import { changeText, dayOfMoment, pointsText, presentMoment } from '../texts.js';

const LEFT = 40;
const RIGHT = 16;
const TOP = 14;
const BOTTOM = 28;
const DAY = 86_400;
const MOST_DOTS = 60;

/** The chart of a burndown with rows, as wide as its place; the ideal line goes over so many days from the first row. */
export function burndownChart(told, { days }) {
  const place = h('div', {});
  const figure = h('figure', { class: 'chart' }, place,
    h('figcaption', { class: 'legend' },
      h('span', { class: 'steps' }, 'Points left'),
      h('span', { class: 'ideal' }, 'Ideal line'),
      h('span', { class: 'quiet' }, 'from the first change on'),
    ));
  new ResizeObserver(([{ contentRect }]) => {
    const wide = Math.max(280, Math.round(contentRect.width));
    if (place.dataset.wide === String(wide)) return;
    place.dataset.wide = wide;
    refill(place, drawing(told, days, wide, wide < 480 ? 200 : 270));
  }).observe(place);
  return figure;
}

/** The drawing at this size: grid, days, ideal line, steps. */
function drawing({ start, left, rows, state }, days, wide, high) {
  const begin = rows[0].at;
  const now = state === 'closed' ? rows.at(-1).at : presentMoment();
  const end = Math.max(begin + days * DAY, now, rows.at(-1).at);
  const most = niceTop(Math.max(start, ...rows.map((row) => row.left)) / 1000);
  const x = (moment) => LEFT + ((moment - begin) / (end - begin)) * (wide - LEFT - RIGHT);
  const y = (thousandths) => TOP + (1 - thousandths / 1000 / most) * (high - TOP - BOTTOM);
  const words = `From ${pointsText(start)} points at the start to ${pointsText(left)} now, in ${rows.length} steps.`;
  const path = steps(start, rows, now, x, y);
  return s('svg', { viewBox: `0 0 ${wide} ${high}`, role: 'img', 'aria-label': words },
    levels(most).map((level) => [
      s('line', { class: 'grid', x1: LEFT, x2: wide - RIGHT, y1: y(level * 1000), y2: y(level * 1000) }),
      s('text', { class: 'mark', x: LEFT - 8, y: y(level * 1000) + 4, 'text-anchor': 'end' }, level)]),
    dayMarks(
      begin,
      end,
      wide < 480 ? 2 : 4,
    ).map((moment, at, all) => s('text',
      { class: 'mark', x: x(moment), y: high - 8, 'text-anchor': anchor(at, all) },
      dayOfMoment(moment),
    )),
    s('line', { class: 'ideal', x1: x(begin), y1: y(start), x2: x(begin + days * DAY), y2: y(0) }),
    s('path', { class: 'area', d: `${path}V${y(0)}H${x(begin)}Z` }),
    s('path', { class: 'steps', d: path }),
    rows.length <= MOST_DOTS && rows.map((row) => s('circle',
      { class: row.by > 0 ? 'dot more' : 'dot', cx: x(row.at), cy: y(row.left), r: 3.5 },
      s('title', {}, stepWords(row)),
    )));
}

function anchor(at, all) {
  return at === 0 ? 'start' : at === all.length - 1 ? 'end' : 'middle';
}

function stepWords({ issue, by, left }) {
  return `${issue}: ${changeText(by)}, ${pointsText(left)} left`;
}

function steps(start, rows, now, x, y) {
  let path = `M${x(rows[0].at)} ${y(start)}`;
  for (const row of rows) path += `H${x(row.at)}V${y(row.left)}`;
  return `${path}H${x(Math.max(now, rows.at(-1).at))}`;
}

/** A round number at or above this one. */
function niceTop(number) {
  const step = niceStep(number);
  return Math.max(step, Math.ceil(number / step) * step);
}

function niceStep(number) {
  const power = 10 ** Math.floor(Math.log10(Math.max(number, 1) / 4));
  return [1, 2, 5, 10].map((one) => one * power).find((one) => one * 5 >= number) ?? power * 10;
}

function levels(high) {
  const step = niceStep(high);
  return Array.from({ length: Math.round(high / step) + 1 }, (_, at) => Number((at * step).toFixed(3)));
}

function dayMarks(begin, end, count) {
  return Array.from({ length: count + 1 }, (_, at) => begin + ((end - begin) * at) / count);
}
