// A view is a URL: `#/board/1`, `#/search?jql=..`. Nothing else says what is shown.

/** The route of a hash: the parts of its path, and its query. */
export function readRoute(hash) {
  const text = hash.replace(/^#\/?/, '');
  const cut = text.indexOf('?');
  const path = cut < 0 ? text : text.slice(0, cut);
  return {
    path: path.split('/').filter((part) => part !== '').map(plain),
    query: new URLSearchParams(cut < 0 ? '' : text.slice(cut + 1)),
  };
}

function plain(part) {
  try {
    return decodeURIComponent(part);
  } catch {
    return part;
  }
}

/** The number in a part of a path, or the part itself where it is none: the tracker refuses it by its words then. */
export function numberOf(part = '') {
  return /^\d{1,10}$/.test(part) ? Number(part) : part;
}

/** The link to a view; members of the query that are empty or absent are left out. */
export function href(path, query = {}) {
  const given = new URLSearchParams();
  for (const [name, value] of Object.entries(query)) {
    if (value !== undefined && value !== null && value !== '') given.set(name, value);
  }
  const told = given.toString();
  return `#/${path.map(encodeURIComponent).join('/')}${told === '' ? '' : `?${told}`}`;
}

/** Goes to a view, leaving a step back. */
export function go(path, query) {
  location.hash = href(path, query);
}

/** Says where the view stands now, without a step back and without showing it anew. */
export function restate(path, query) {
  history.replaceState(null, '', href(path, query));
}
