// What a dropped card comes to: a transition in another column, a move in its own.

import { ask } from '../calls.js';
import { h } from '../dom.js';
import { openDialog } from '../parts/dialog.js';
import { announce, warn, warnOf } from '../parts/toasts.js';
import { barrierOf, transitionsTo } from '../rules.js';
import { may } from '../team.js';
import { callTransition } from '../transitions.js';

/** The moves of a board. `began` and `ended` are told of each card that is under way. */
export function boardMoves({ data, began, ended }) {
  /** A card of the column `from` was dropped in the column `status`, between `before` and `after`. */
  async function drop(key, { status, from, before, after }) {
    const issue = data.issue(key);
    began(key);
    try {
      if (issue.fields.status !== from) warn(`Somebody moved ${key} to ${issue.fields.status} meanwhile.`);
      else if (status === from) await move(key, before, after);
      else await transit(issue, status);
    } catch (error) {
      warnOf(error);
    } finally {
      await ended(key);
    }
  }

  async function move(key, before, after) {
    const places = data.columns().find((one) => one.issues.includes(key))?.issues ?? [];
    const at = places.indexOf(key);
    if (places[at + 1] === after && places[at - 1] === before) return;
    if (after !== undefined) await ask('move_before', { issue: key, other: after });
    else if (before !== undefined) await ask('move_after', { issue: key, other: before });
    announce(`${key} is moved.`);
  }

  async function transit(issue, status) {
    const ways = transitionsTo(issue.fields.status, status);
    if (ways.length === 0) {
      warn(`No transition leads from ${issue.fields.status} to ${status}. ${issue.issue} stays where it is.`);
      return;
    }
    const way = ways.length === 1 ? ways[0] : await chooseWay(issue, ways);
    if (way === undefined) return;
    // A card has few of an issue's fields, and a rule may ask for any.
    const whole = way.validators.length > 0 ? await ask('show', { issue: issue.issue }) : issue;
    if (await callTransition(way, whole) !== undefined) announce(`${issue.issue} is ${status} now.`);
  }

  /** Whether and how a card may go to a column, in a word or two for its head. */
  function wayTo(key, status) {
    const issue = data.issue(key);
    if (!issue) return { open: false, words: '' };
    if (status === issue.fields.status) return { open: may('rank', key), words: '' };
    const ways = transitionsTo(issue.fields.status, status);
    if (ways.length === 0) return { open: false, words: 'No way from here' };
    const barrier = ways.length === 1 ? barrierOf(ways[0], issue) : null;
    return { open: true, barred: barrier !== null, words: ways.map((one) => one.transition).join(' / ') };
  }

  return { drop, wayTo };
}

function chooseWay(issue, ways) {
  return openDialog({
    title: `How does ${issue.issue} go there?`,
    narrow: true,
    body: h('div', { class: 'ways' },
      ways.map((way) => h('button', { type: 'submit', value: way.transition }, way.transition)),
    ),
    verb: null,
    act: async (event) => ways.find((way) => way.transition === event.submitter?.value),
  });
}
