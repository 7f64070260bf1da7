// Numbers, moments and lists in words.

let offset = 0;
let ahead = 0;

/** The clock and local time are the tracker's, which it tells, and not the browser's. */
export function setClock(moment, minutes) {
  ahead = moment - Math.floor(Date.now() / 1000);
  offset = minutes;
}

/** The present moment. */
export function presentMoment() {
  return Math.floor(Date.now() / 1000) + ahead;
}

function local(moment) {
  return new Date((moment + offset * 60) * 1000);
}

const day = new Intl.DateTimeFormat(
  'en-GB',
  { day: 'numeric', month: 'short', year: 'numeric', timeZone: 'UTC' },
);
const shortDay = new Intl.DateTimeFormat('en-GB', { day: 'numeric', month: 'short', timeZone: 'UTC' });
const time = new Intl.DateTimeFormat('en-GB', { hour: '2-digit', minute: '2-digit', timeZone: 'UTC' });
const grouped = new Intl.NumberFormat('en-GB');

/** A moment as day and time. */
export function momentText(moment) {
  return `${day.format(local(moment))}, ${time.format(local(moment))}`;
}

/** A moment as a day. */
export function dayOfMoment(moment) {
  return shortDay.format(local(moment));
}

/** A date of a field, `2024-04-01`, in words. */
export function dateText(text) {
  return day.format(ofDate(text));
}

/** The same, without the year where it is this one. */
export function shortDateText(text) {
  return (text.slice(0, 4) === today().slice(0, 4) ? shortDay : day).format(ofDate(text));
}

function ofDate(text) {
  const [year, month, date] = text.split('-').map(Number);
  return new Date(Date.UTC(year, month - 1, date));
}

/** Today's local date as a field has it. */
export function today() {
  return local(presentMoment()).toISOString().slice(0, 10);
}

/** How long ago a moment was, roughly. */
export function agoText(moment) {
  const seconds = Math.max(0, presentMoment() - moment);
  if (seconds < 60) return 'just now';
  if (seconds < 3600) return plural(Math.floor(seconds / 60), 'minute ago', 'minutes ago');
  if (seconds < 86_400) return plural(Math.floor(seconds / 3600), 'hour ago', 'hours ago');
  if (seconds < 14 * 86_400) return plural(Math.floor(seconds / 86_400), 'day ago', 'days ago');
  return day.format(local(moment));
}

/** A count with its word. */
export function plural(count, one, many) {
  return `${grouped.format(count)} ${count === 1 ? one : many}`;
}

/** A number with its thousands apart. */
export function numberText(count) {
  return grouped.format(count);
}

/** By how many points something changed, with its sign. */
export function changeText(thousandths) {
  return `${thousandths > 0 ? '+' : '−'}${pointsText(Math.abs(thousandths))}`;
}

/** Thousandths of points as points. */
export function pointsText(thousandths) {
  return String(thousandths / 1000);
}

/** "a, b and c". */
export function listText(items, word = 'and') {
  if (items.length < 2) return items.join('');
  return `${items.slice(0, -1).join(', ')} ${word} ${items.at(-1)}`;
}

/** A text in quotes as prose has them. */
export function quoted(text) {
  return `“${text}”`;
}
