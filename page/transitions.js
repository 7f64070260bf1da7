// Calling a transition: what its rules ask for is asked for first, in a dialog, and a refusal's words stand there.

import { ask } from './calls.js';
import { h } from './dom.js';
import { fieldForm } from './fields/form.js';
import { openDialog } from './parts/dialog.js';
import { fieldAtFault } from './refusals.js';
import { wantedBy } from './rules.js';
import { dropDraft, draftOf, keepDraft } from './drafts.js';
import { fieldOf, labelOf, team } from './team.js';
import { listText } from './texts.js';

/** Calls a transition of an issue. Gives the answer, or undefined where the dialog was left; throws what no dialog can mend. */
export async function callTransition(transition, issue) {
  const wanted = wantedBy(transition, issue);
  if (wanted.length > 0) return inDialog(transition, issue, wanted);
  try {
    return await make(transition, issue, {});
  } catch (error) {
    const field = fieldAtFault(error) && fieldOf(fieldAtFault(error));
    if (!field) throw error;
    return inDialog(transition, issue, [field], error);
  }
}

function make(transition, issue, set) {
  return ask('transition',
    { issue: issue.issue, transition: transition.transition, ...(Object.keys(set).length > 0 && { set }) },
  );
}

function inDialog(transition, issue, wanted, first) {
  const subject = `transition ${issue.issue} ${transition.transition}`;
  const values = { ...issue.fields, ...draftOf(team.user, subject) };
  const form = fieldForm(
    wanted,
    values,
    { must: wanted.map((field) => field.name), changed: () => keepDraft(team.user, subject, form.read()) },
  );
  const asks = listText(wanted.map((field) => labelOf(field.name)));
  const opened = openDialog({
    title: `${transition.transition} ${issue.issue}`,
    narrow: true,
    body: [
      h('p', { class: 'quiet' }, issue.fields.summary),
      h('p', {}, `From ${issue.fields.status} to ${transition.to}. It asks for ${asks}.`),
      form.element,
    ],
    verb: transition.transition,
    act: async () => {
      const came = await make(transition, issue, form.read());
      dropDraft(team.user, subject);
      return came;
    },
    place: form.blame,
  });
  if (first) form.blame(first);
  else form.focus(wanted[0].name);
  return opened;
}
