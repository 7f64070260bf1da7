// Asking again, for what is shown and only while it is seen.

import { isLeft } from './calls.js';
import { onLink } from './link.js';

/** Runs `act` each few seconds while the page is seen, and at once where it is seen again or the tracker is back. */
export function again(seconds, act, signal) {
  let timer = 0;
  let busy = false;
  const plan = () => {
    clearTimeout(timer);
    if (!signal.aborted && document.visibilityState === 'visible') timer = setTimeout(run, seconds * 1000);
  };
  const run = async () => {
    clearTimeout(timer);
    if (busy || signal.aborted || document.visibilityState !== 'visible') return;
    busy = true;
    try {
      await act();
    } catch (error) {
      if (!isLeft(error)) console.debug('asked again in vain', error.message);
    } finally {
      busy = false;
      plan();
    }
  };
  document.addEventListener('visibilitychange', run, { signal });
  onLink('back', () => setTimeout(run, 50), signal);
  signal.addEventListener('abort', () => clearTimeout(timer));
  plan();
  return run;
}
