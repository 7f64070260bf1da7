// Calls of the tracker, all by POST to api/calls. Who asks is found out by the front server, never said here.

import { told } from './link.js';

const AT_MOST = 30_000;
// Without the name and password that may stand in the page's own address: a browser makes no call to one with them.
const ADDRESS = new URL('api/calls', `${location.origin}${location.pathname}`);
// Statuses of a front server by which no call goes through: one is signed out, or the tracker is away.
const AWAY = [401, 502, 504];

/** The tracker read the call and refused it. `refusal` is what it told, `call` and `members` what was asked. */
export class Refused extends Error {
  constructor(refusal, call, members) {
    super(`refused with ${refusal.no}`);
    this.name = 'Refused';
    this.refusal = refusal;
    this.call = call;
    this.members = members;
  }
}

/** No answer of the tracker came to a call: `status` is that of a server in front of it, or 0. */
export class Unreachable extends Error {
  constructor(status, call) {
    super(`no answer (${status})`);
    this.name = 'Unreachable';
    this.status = status;
    this.call = call;
  }
}

/** Whether an error is that a view was left while it waited. */
export function isLeft(error) {
  return error?.name === 'AbortError';
}

/** Makes a call and gives what stands under `ok`. */
export async function ask(call, members = {}, { signal } = {}) {
  const response = await send(call, members, signal);
  const reply = await read(response);
  if (reply?.ok !== undefined) {
    told(true);
    return reply.ok;
  }
  if (reply?.refused !== undefined) {
    told(true);
    throw new Refused(reply.refused, call, members);
  }
  told(!AWAY.includes(response.status), response.status);
  throw new Unreachable(response.status, call);
}

async function send(call, members, signal) {
  const limit = AbortSignal.timeout(AT_MOST);
  try {
    return await fetch(ADDRESS, {
      method: 'POST',
      headers: { 'Content-Type': 'application/json' },
      body: JSON.stringify({ call, ...members }),
      credentials: 'same-origin',
      cache: 'no-store',
      redirect: 'error',
      signal: signal ? AbortSignal.any([signal, limit]) : limit,
    });
  } catch (error) {
    if (signal?.aborted) throw new DOMException('left', 'AbortError');
    told(false, 0);
    throw new Unreachable(0, call);
  }
}

async function read(response) {
  try {
    return JSON.parse(await response.text(), bare);
  } catch (error) {
    if (isLeft(error)) throw error;
    return null;
  }
}

/** Objects of a reply have the members that were sent and no others: a field may be called `constructor`. */
function bare(name, value) {
  return value !== null && typeof value === 'object' && !Array.isArray(value) ? Object.setPrototypeOf(value, null) : value;
}
