// Keys, for a person without a mouse and for one in a hurry. Each is told in the page's help.

const bound = [];
let waiting = null;
let clear = 0;

/** Binds `keys` (one key, or two after one another with a space between) until `signal` ends it. */
export function bind(keys, does, act, { signal, group = 'Everywhere' } = {}) {
  const one = { keys: keys.split(' '), does, act, group };
  bound.push(one);
  signal?.addEventListener('abort', () => bound.splice(bound.indexOf(one), 1));
}

/** Tells of keys that a part of a view listens for itself, for the help. */
export function mention(keys, does, { signal, group }) {
  bind(keys, does, null, { signal, group });
}

/** What each key does now, by groups. */
export function boundKeys() {
  const groups = new Map();
  for (const one of bound) {
    if (!groups.has(one.group)) groups.set(one.group, []);
    groups.get(one.group).push(one);
  }
  return groups;
}

function isTyping(target) {
  return target instanceof HTMLElement && (target.isContentEditable || target.matches('input, textarea, select'));
}

function take(event) {
  if (event.defaultPrevented || event.ctrlKey || event.metaKey || event.altKey || event.isComposing) return;
  if (isTyping(event.target) || document.querySelector('dialog[open]')) return;
  const first = waiting;
  waiting = null;
  clearTimeout(clear);
  const wanted = first ? [first, event.key] : [event.key];
  const whole = bound.findLast((one) => one.act && one.keys.join(' ') === wanted.join(' '));
  if (whole) {
    event.preventDefault();
    whole.act(event);
  } else if (!first && bound.some((one) => one.keys.length === 2 && one.keys[0] === event.key)) {
    waiting = event.key;
    clear = setTimeout(() => { waiting = null; }, 1500);
  }
}

/** Begins to listen. */
export function listenForKeys() {
  document.addEventListener('keydown', take);
}
