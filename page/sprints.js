// The sprints of the tracker by number, which fields and views name. Asked for once a minute at most, and after a change.

import { ask } from './calls.js';

const FRESH = 60_000;
let kept = [];
let at = -FRESH;

/** All sprints, by number. */
export async function allSprints({ signal, anew = false } = {}) {
  if (!anew && performance.now() - at < FRESH) return kept;
  const { sprints } = await ask('sprints', {}, { signal });
  kept = sprints;
  at = performance.now();
  return kept;
}

/** The name of a sprint, as far as it is known yet. */
export function sprintName(number) {
  return kept.find((one) => one.sprint === number)?.name ?? `Sprint ${number}`;
}
