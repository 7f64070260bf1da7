// Whether the tracker answers, as the last call found it. Views ask again when it comes back.

const link = new EventTarget();
let up = true;
let status = 0;

/** A call came back, or didn't, with this status of a server between. */
export function told(answered, came = 0) {
  status = came;
  if (answered === up) return;
  up = answered;
  link.dispatchEvent(new Event(up ? 'back' : 'lost'));
}

/** Whether the last call had an answer. */
export function isUp() {
  return up;
}

/** The status of the server between that failed last, or 0. */
export function lastStatus() {
  return status;
}

/** Listens for `back` and `lost`. */
export function onLink(event, listener, signal) {
  link.addEventListener(event, listener, { signal });
}
