// What a person likes to see, kept in the browser: columns, light or dark. None of it is in the tracker.

const STEM = 'vuglastej choice';

/** Keeps a choice. */
export function choose(subject, value) {
  try {
    localStorage.setItem(`${STEM} ${subject}`, JSON.stringify(value));
  } catch {
    // It holds for this page then.
  }
}

/** The choice that was kept, or what stands in for it. */
export function chosen(subject, otherwise) {
  try {
    return JSON.parse(localStorage.getItem(`${STEM} ${subject}`)) ?? otherwise;
  } catch {
    return otherwise;
  }
}
