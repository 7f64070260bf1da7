// A new issue, from anywhere. What is typed stays until the issue is made; sent twice, it is made once.

import { ask } from '../calls.js';
import { dropDraft, draftOf, keepDraft } from '../drafts.js';
import { fresh, h } from '../dom.js';
import { fieldForm } from '../fields/form.js';
import { openDialog } from '../parts/dialog.js';
import { keyLink } from '../parts/small.js';
import { announce, tell, warn } from '../parts/toasts.js';
import { chosen, choose } from '../choices.js';
import { isGiven } from '../rules.js';
import { fieldOf, team } from '../team.js';

const DRAFT = 'new issue';
const FIRST = ['type', 'priority', 'summary', 'description', 'assignee', 'points', 'due', 'labels'];
const made = new EventTarget();

/** Listens for issues that were made here. */
export function onMade(listener, signal) {
  made.addEventListener('made', (event) => listener(event.detail), { signal });
}

/** Opens the dialog. `values` are what is given beforehand. */
export function newIssue(values = {}) {
  if (document.querySelector('dialog[open]')) return;
  const projects = team.projects.filter((one) => one.may.includes('create'));
  if (projects.length === 0) {
    warn(`${team.user} may not make issues in any project.`);
    return;
  }
  const kept = draftOf(team.user, DRAFT);
  const draft = { id: ownId(), project: chosen('project', projects[0].key), set: {}, ...kept };
  const project = projectChoice(projects, draft.project);
  const all = team.fields.filter((field) => isGiven(field) && !['resolution', 'reporter'].includes(field.name));
  const fields = [
    ...FIRST.map(fieldOf).filter(Boolean),
    ...all.filter((field) => !FIRST.includes(field.name))
  ];
  const form = fieldForm(
    fields,
    { type: chosen('type', team.fields[0].options[0]), ...values, ...draft.set },
    { must: ['type', 'summary'], changed: keep },
  );
  const more = h('input', { type: 'checkbox' });

  function keep() {
    keepDraft(team.user, DRAFT, { id: draft.id, project: project.input.value, set: form.read() });
  }

  async function act() {
    const { type, summary, ...set } = form.read();
    const came = await ask('create', {
      project: project.input.value,
      type: type ?? '',
      summary: summary ?? '',
      external: `page ${draft.id}`,
      ...(Object.keys(set).length > 0 && { set }),
    });
    dropDraft(team.user, DRAFT);
    choose('project', project.input.value);
    choose('type', type);
    tell(h('span', {}, keyLink(came.issue), ' is made.'));
    announce(`${came.issue} is made.`);
    made.dispatchEvent(new CustomEvent('made', { detail: came.issue }));
    if (more.checked) setTimeout(() => newIssue(values));
    return came.issue;
  }

  project.input.addEventListener('change', keep);
  openDialog({
    title: 'New issue',
    body: [
      kept && h('p', { class: 'hint' }, 'Here is what you typed before.'),
      project.element,
      form.element,
    ],
    verb: 'Make the issue',
    act,
    place: (error) => form.blame(error),
    extra: [h('label', { class: 'check' }, more, 'and another one'),
      kept && h('button',
        {
          type: 'button',
          class: 'plain',
          on: { click: (event) => {
            dropDraft(team.user, DRAFT);
            event.target.closest('dialog').close();
            newIssue(values);
          } },
        },
        'Begin anew',
      )],
  });
  form.focus('summary');
}

/** An id that no other new issue has. */
function ownId() {
  return Array.from(crypto.getRandomValues(new Uint8Array(16)), (byte) => byte.toString(16).padStart(2, '0')).join('');
}

function projectChoice(projects, key) {
  const id = fresh('project');
  const input = h('select', { id },
    projects.map((one) => h('option', { value: one.key, selected: one.key === key }, one.key)),
  );
  return {
    input,
    element: h('div', { class: 'field', hidden: projects.length === 1 },
      h('label', { for: id }, 'Project'),
      input,
    ),
  };
}
