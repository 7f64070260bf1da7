// The mark of the card that has the focus: a frame of its own over the cards. A card's own outline would have all cards of the board
// drawn again at each key.

const GAP = 3;

/** Has the mark follow the focus, by keys alone as an outline does. `rings` are the columns' frames, by their lists. */
export function cardMark({ element, rings, signal }) {
  let shown = null;
  let waits = false;

  function place() {
    const card = document.activeElement?.closest('.card');
    const ring = card && element.contains(card) && card.matches(':focus-visible') ? rings.get(card.parentElement) : null;
    if (shown && shown !== ring) shown.hidden = true;
    shown = ring;
    if (!ring) return;
    ring.hidden = false;
    ring.style.transform = `translate(${card.offsetLeft - GAP}px, ${card.offsetTop - GAP}px)`;
    ring.style.width = `${card.offsetWidth + 2 * GAP}px`;
    ring.style.height = `${card.offsetHeight + 2 * GAP}px`;
  }

  /** Places it again in the next picture, once what moved the cards is done. */
  function follow() {
    if (waits) return;
    waits = true;
    requestAnimationFrame(() => {
      waits = false;
      if (!signal.aborted) place();
    });
  }

  element.addEventListener('focusin', follow, { signal });
  element.addEventListener('focusout', follow, { signal });
  const sizes = new ResizeObserver(follow);
  for (const list of rings.keys()) sizes.observe(list);
  signal.addEventListener('abort', () => sizes.disconnect());
  return follow;
}
