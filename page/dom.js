// Elements are made here and nowhere else, and what stands in them is always text: nothing is read as HTML.

const SVG = 'http://www.w3.org/2000/svg';

/** An element. `attributes` are attributes by name, but for `on` (listeners by event) and `is` (properties by name). */
export function h(name, attributes = {}, ...children) {
  return fill(document.createElement(name), attributes, children);
}

/** The same of a drawing. */
export function s(name, attributes = {}, ...children) {
  return fill(document.createElementNS(SVG, name), attributes, children);
}

function fill(element, attributes, children) {
  for (const [name, value] of Object.entries(attributes)) {
    if (name === 'on') {
      for (const [event, listener] of Object.entries(value)) element.addEventListener(event, listener);
    } else if (name === 'is') {
      Object.assign(element, value);
    } else if (value === true) {
      element.setAttribute(name, '');
    } else if (value !== false && value !== null && value !== undefined) {
      element.setAttribute(name, String(value));
    }
  }
  put(element, ...children);
  return element;
}

/** Puts children behind those that are there: elements, texts, lists of both; null and false are left out. */
export function put(element, ...children) {
  for (const child of children.flat(Infinity)) {
    if (child === null || child === undefined || child === false) continue;
    element.append(child instanceof Node ? child : String(child));
  }
  return element;
}

/** Puts children in the place of those that are there. */
export function refill(element, ...children) {
  element.replaceChildren();
  return put(element, ...children);
}

/** Has just these elements stand in an element, in this order. What stands in its place already isn't touched. */
export function arrange(element, wanted) {
  const kept = new Set(wanted);
  for (const child of [...element.children]) if (!kept.has(child)) child.remove();
  let at = element.firstElementChild;
  for (const child of wanted) {
    // (one that goes further back is taken out, so that those behind it stay)
    if (at !== child && at?.nextElementSibling === child) {
      at.remove();
      at = child;
    }
    if (at === child) at = at.nextElementSibling;
    else element.insertBefore(child, at);
  }
}

let last = 0;

/** A name for an element that no other one has. */
export function fresh(stem) {
  last += 1;
  return `${stem}-${last}`;
}

const PATHS = {
  search: 'M10.5 10.5 14 14M12 7A5 5 0 1 1 2 7a5 5 0 0 1 10 0Z',
  board: 'M2.5 3h3v10h-3zM6.5 3h3v7h-3zM10.5 3h3v5h-3z',
  sprint: 'M2 13.5h12M3 4l4 4 2.5-2 3.5 4.5M13 7.5v3h-3',
  tracker: 'M2.5 4.5h6M12.5 4.5h1M2.5 11.5h1M7.5 11.5h6M10.5 6.5a2 2 0 1 0 0-4 2 2 0 0 0 0 4ZM5.5 13.5a2 2 0 1 0 0-4 2 2 0 0 0 0 4Z',
  plus: 'M8 3v10M3 8h10',
  close: 'm4 4 8 8M12 4l-8 8',
  check: 'm3 8.5 3.5 3.5L13 4.5',
  lock: 'M4 7.5h8v6H4zM5.5 7.5V5a2.5 2.5 0 0 1 5 0v2.5',
  down: 'm4 6 4 4 4-4',
  rise: 'M8 13V3M4 7l4-4 4 4',
  fall: 'M8 3v10M4 9l4 4 4-4',
  left: 'M10 4 6 8l4 4',
  right: 'm6 4 4 4-4 4',
  bin: 'M3 4.5h10M6 4.5V3h4v1.5M4.5 4.5l.5 9h6l.5-9',
  light: 'M8 11a3 3 0 1 0 0-6 3 3 0 0 0 0 6ZM8 1v2M8 13v2M1 8h2M13 8h2M3 3l1.4 1.4M11.6 11.6 13 13M13 3l-1.4 1.4M4.4 11.6 3 13',
  dark: 'M13.5 9.5A6 6 0 0 1 6.5 2.5a6 6 0 1 0 7 7Z',
  system: 'M2 3.5h12v8H2zM6 14h4M8 11.5V14',
  warn: 'M8 2 1.5 13.5h13zM8 6.5v3.5M8 11.6v.4',
  columns: 'M2.5 3h11v10h-11zM6.2 3v10M9.8 3v10',
  grip: 'M6 4v.01M10 4v.01M6 8v.01M10 8v.01M6 12v.01M10 12v.01',
  keys: 'M1.5 4h13v8h-13zM4 6.7v.01M6.7 6.7v.01M9.3 6.7v.01M12 6.7v.01M5 9.5h6',
};

/** A small drawing in the colour of the text, which screen readers pass over. */
export function icon(name) {
  return s('svg', { class: 'icon', viewBox: '0 0 16 16', 'aria-hidden': 'true', focusable: 'false' },
    s('path', { d: PATHS[name] }),
  );
}
