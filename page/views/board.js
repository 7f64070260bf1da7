// A board: a column for each status, cards by rank. A card goes to another column by a transition, and within
// one by a move.

import { isLeft } from '../calls.js';
import { refill } from '../dom.js';
import { bind } from '../keys.js';
import { waitingLines } from '../parts/small.js';
import { tell, warnOf } from '../parts/toasts.js';
import { again } from '../poll.js';
import { numberOf } from '../router.js';
import { allSprints } from '../sprints.js';
import { boardData } from './board_data.js';
import { boardFrame } from './board_frame.js';
import { cardKeys } from './board_keys.js';
import { cardMark } from './board_mark.js';
import { boardMoves } from './board_moves.js';
import { movedCards } from './cards.js';
import { newIssue, onMade } from './create.js';
import { dragCards } from './drag.js';

const SECONDS = 4;
const TOLD = 3;

/** Shows the view. */
export async function boardView(place, route, signal) {
  const number = numberOf(route.path[1]);
  document.title = 'Board · Vuglastej';
  refill(place, waitingLines(10));
  performance.mark('board asked');
  const data = boardData(number, signal);
  const [board] = await Promise.all([data.about(), data.load(), allSprints({ signal })]);
  const name = board?.name ?? `Board ${number}`;
  document.title = `${name} · Vuglastej`;

  const frame = boardFrame({ name, jql: board?.jql, data });
  const { began, ended, isBusy } = turns();
  const moves = boardMoves({ data, began, ended });
  const given = { element: frame.element, lists: frame.lists, drop: moves.drop, wayTo: moves.wayTo, draw, signal };
  const keys = cardKeys(given);
  const drag = dragCards(given);
  const follow = cardMark({ element: frame.element, rings: frame.rings, signal });

  function draw() {
    frame.draw();
    keys.tidy();
    follow();
  }

  /** A card is under way until the tracker has answered and the board was asked for again. */
  function turns() {
    let count = 0;
    return {
      isBusy: (own) => count > (own ? 1 : 0),
      began: (key) => {
        count += 1;
        frame.card(key)?.classList.add('busy');
      },
      ended: async (key) => {
        frame.card(key)?.classList.remove('busy');
        await refresh(true).catch(() => {});
        count -= 1;
        draw();
      },
    };
  }

  /** Asks again. What others moved is told; what the caller moved isn't. */
  async function refresh(own = false) {
    const before = data.columns();
    if (!await data.again()) return;
    if (signal.aborted || isBusy(own) || keys.isLifted() || drag.isOn()) {
      data.forget();
      return;
    }
    const moved = own ? [] : movedCards(before, data.columns());
    draw();
    await fill();
    await tellMoved(moved);
  }

  async function fill() {
    await data.fill(frame.fill);
    frame.settle(signal);
  }

  async function tellMoved(moved) {
    frame.flash(moved.map(({ key }) => key));
    for (const { key, from, to } of moved.slice(0, TOLD)) {
      if (from === to) tell(`Somebody moved ${key} within ${to}.`);
      else tell(`${await data.lastBy(key)} moved ${key} from ${from} to ${to}.`);
    }
    if (moved.length > TOLD) tell(`${moved.length} cards were moved by others.`);
  }

  refill(place, frame.parts);
  draw();
  performance.mark('board drawn');
  again(SECONDS, () => refresh(), signal);
  onMade(() => refresh(true).catch(() => {}), signal);
  bind('f', 'Narrow the cards down', frame.narrow, { signal, group: 'Board' });
  bind('n', 'New issue', () => newIssue(), { signal, group: 'Board' });
  fill().then(() => performance.mark('board filled')).catch((error) => {
    if (!isLeft(error)) warnOf(error);
  });
  return {};
}
