// A place for a name, in dialogs that make something. What was typed stays until it is used.

import { fresh, h } from '../dom.js';
import { dropDraft, draftOf, keepDraft } from '../drafts.js';
import { team } from '../team.js';

/** The place for the name of a new `subject`: its `element`, what it `read`s, and `used()` where the name was taken. */
export function nameField(subject, { placeholder = null } = {}) {
  const id = fresh('name');
  const draft = `name of a ${subject}`;
  const input = h('input', {
    id,
    type: 'text',
    maxlength: 100,
    autocomplete: 'off',
    placeholder,
    value: draftOf(team.user, draft) ?? '',
    on: {
      input: () => keepDraft(team.user, draft, input.value),
      focus: () => input.select(),
    },
  });
  return {
    element: h('div', { class: 'field' }, h('label', { for: id }, 'Name'), input),
    read: () => input.value.trim(),
    used: () => dropDraft(team.user, draft),
  };
}
