// A board by pointer: mouse, pen, and a finger that stays a moment. The card follows as a copy; its own shows where it would stand.

const FAR = 5;
const STAYS = 350;
const EDGE = 48;

/** Listens on a board. `isOn` tells whether a card is being dragged. */
export function dragCards({ element, lists, wayTo, drop, draw, signal }) {
  let held = null;

  function down(event) {
    const card = event.target.closest('.card');
    if (!card || event.button !== 0 || held || !card.shown) return;
    held = { card, x: event.clientX, y: event.clientY, pointer: event.pointerId, isOn: false, wait: 0 };
    if (event.pointerType === 'touch') held.wait = setTimeout(() => begin(), STAYS);
  }

  function move(event) {
    if (!held || event.pointerId !== held.pointer) return;
    const far = Math.hypot(event.clientX - held.x, event.clientY - held.y);
    if (!held.isOn) {
      if (far < FAR) return;
      if (event.pointerType === 'touch') {
        letGo();
        return;
      }
      begin();
    }
    held.atX = event.clientX;
    held.atY = event.clientY;
    follow();
  }

  function begin() {
    const { card } = held;
    const box = card.getBoundingClientRect();
    held.isOn = true;
    held.status = card.parentElement.dataset.status;
    held.atX ??= held.x;
    held.atY ??= held.y;
    held.dx = held.x - box.left;
    held.dy = held.y - box.top;
    held.ghost = card.cloneNode(true);
    held.ghost.classList.add('ghost');
    held.ghost.removeAttribute('tabindex');
    held.ghost.style.width = `${box.width}px`;
    held.ghost.setAttribute('aria-hidden', 'true');
    document.body.append(held.ghost);
    card.classList.add('dragged');
    element.classList.add('carrying');
    document.getSelection()?.removeAllRanges();
    for (const column of element.children) {
      const way = wayTo(card.dataset.key, column.dataset.status);
      column.classList.toggle('shut', !way.open);
      column.classList.toggle('barred', way.barred ?? false);
      column.querySelector('.way').textContent = column.dataset.status === held.status ? '' : way.words;
    }
    held.frame = requestAnimationFrame(slide);
    follow();
  }

  function follow() {
    const { ghost, atX, atY, dx, dy, card } = held;
    ghost.style.transform = `translate(${atX - dx}px, ${atY - dy}px) rotate(1.5deg)`;
    const column = [...element.children].find((one) => {
      const box = one.getBoundingClientRect();
      return box.left <= atX && atX < box.right;
    });
    held.over = column ?? null;
    for (const one of element.children) one.classList.toggle(
      'over',
      one === column && one.dataset.status !== held.status && !one.classList.contains('shut'),
    );
    const list = lists.get(held.status);
    if (column?.dataset.status === held.status && !column.classList.contains('shut')) place(list, card, atY);
  }

  /** Puts the card's own element where it would stand. */
  function place(list, card, y) {
    const next = [...list.children].find((other) => {
      if (other === card || other.hidden) return false;
      const box = other.getBoundingClientRect();
      return y < box.top + box.height / 2;
    });
    if (next === undefined) {
      if (list.lastElementChild !== card) list.append(card);
    } else if (next.previousElementSibling !== card) {
      next.before(card);
    }
  }

  /** Scrolls where the pointer is near an edge. */
  function slide() {
    if (!held?.isOn) return;
    const box = element.getBoundingClientRect();
    if (held.atX < box.left + EDGE) element.scrollLeft -= 12;
    else if (held.atX > box.right - EDGE) element.scrollLeft += 12;
    if (held.atY < EDGE + 40) window.scrollBy(0, -10);
    else if (held.atY > window.innerHeight - EDGE) window.scrollBy(0, 10);
    follow();
    held.frame = requestAnimationFrame(slide);
  }

  function up(event) {
    if (!held || event.pointerId !== held.pointer) return;
    if (!held.isOn) {
      letGo();
      return;
    }
    const { card, over, status } = held;
    const target = over && {
      status: over.dataset.status,
      from: status,
      before: over.dataset.status === status ? card.previousElementSibling?.dataset.key : undefined,
      after: over.dataset.status === status ? card.nextElementSibling?.dataset.key : undefined,
    };
    const isShut = over?.classList.contains('shut') && over.dataset.status === status;
    letGo();
    window.addEventListener('click', swallow, { capture: true });
    setTimeout(() => window.removeEventListener('click', swallow, { capture: true }), 0);
    if (target && !isShut) drop(card.dataset.key, target);
    else draw();
  }

  /** The click that ends a drag opens nothing. */
  function swallow(click) {
    click.preventDefault();
    click.stopPropagation();
  }

  function letGo() {
    clearTimeout(held.wait);
    cancelAnimationFrame(held.frame);
    held.ghost?.remove();
    held.card.classList.remove('dragged');
    element.classList.remove('carrying');
    for (const column of element.children) {
      column.classList.remove('over', 'shut', 'barred');
      column.querySelector('.way').textContent = '';
    }
    held = null;
  }

  function leave() {
    if (!held) return;
    const { isOn } = held;
    letGo();
    if (isOn) draw();
  }

  element.addEventListener('pointerdown', down, { signal });
  window.addEventListener('pointermove', move, { signal });
  window.addEventListener('pointerup', up, { signal });
  window.addEventListener('pointercancel', leave, { signal });
  window.addEventListener('keydown', (event) => { if (event.key === 'Escape') leave(); }, { signal });
  element.addEventListener('dragstart', (event) => event.preventDefault(), { signal });
  element.addEventListener(
    'contextmenu',
    (event) => { if (held?.isOn) event.preventDefault(); },
    { signal },
  );
  element.addEventListener(
    'touchmove',
    (event) => { if (held?.isOn) event.preventDefault(); },
    { passive: false, signal },
  );
  signal.addEventListener('abort', leave);

  return { isOn: () => held?.isOn ?? false };
}
