// A field that is edited where it stands. What was typed is kept until it is saved or given up, over refusals and reloads too.

import { isLeft } from '../calls.js';
import { fresh, h, icon, refill } from '../dom.js';
import { dropDraft, draftOf, keepDraft } from '../drafts.js';
import { editor } from '../fields/editors.js';
import { shown, textOf } from '../fields/values.js';
import { announce } from '../parts/toasts.js';
import { wordsOf } from '../refusals.js';
import { href } from '../router.js';
import { categoryOf, labelOf, team } from '../team.js';

const SHAPES = { __proto__: null, summary: 'summary', description: 'description' };

/**
 * A field in place: `element` alone, or `row` with its label. `show(issue)` shows its value now; `open()` edits it; `resume()` opens
 * it where something was typed before. `take(name, value)` saves.
 */
export function inPlace({ field, issue: first, canEdit, take }) {
  let issue = first;
  let edit = null;
  const label = labelOf(field.name);
  const id = fresh('value');
  const subject = `edit ${first.issue} ${field.name}`;
  const isBig = field.name === 'summary';
  const element = h('div', { class: `in-place f-${SHAPES[field.name] ?? field.kind}` });
  const row = h('div', { class: 'field-row' }, h('span', { class: 'label', id }, label), element);

  function drawValue() {
    const value = shownValue();
    const now = issue.fields[field.name];
    if (!canEdit) {
      refill(element, isBig ? h('h1', {}, value) : value);
      return;
    }
    const words = textOf(field.name, issue.fields[field.name]);
    const opener = h('button',
      {
        type: 'button',
        class: 'value',
        'aria-label': `${label}: ${words}. Edit`,
        title: `Edit ${label}`,
        on: { click: open },
      },
      value,
    );
    refill(element,
      isBig ? h('h1', {}, opener) : opener,
      field.kind === 'sprint' && now !== undefined && h('a',
        { class: 'on', href: href(['sprint', String(now)]) },
        'Open the sprint',
      ),
    );
  }

  function shownValue() {
    const value = issue.fields[field.name];
    if (value === undefined && field.name === 'description') return h('span', { class: 'none' },
      canEdit ? 'Add a description' : 'None',
    );
    return shown(
      field,
      value,
      {
        compact: canEdit && field.kind === 'sprint' && value !== undefined,
        isDone: categoryOf(issue.fields.status) === 'done',
      },
    );
  }

  function open() {
    if (edit || !canEdit) return;
    begin(draftOf(team.user, subject)?.value ?? issue.fields[field.name]);
  }

  function begin(value) {
    const fault = h('p', { class: 'fault', id: `${id}-fault`, role: 'alert', hidden: true });
    const told = h('p', { class: 'hint', role: 'status', hidden: true });
    const made = editor(field, value, { id: `${id}-input`, describedby: `${id}-fault`, changed: keep });
    made.input.setAttribute('aria-label', label);
    const save = h('button', { type: 'submit', class: 'main small' }, 'Save');
    const form = h('form', { class: 'editing', novalidate: true, on: { submit, keydown } }, made.element,
      h('div', { class: 'row' },
        save,
        h('button', { type: 'button', class: 'small', on: { click: giveUp } }, 'Cancel'),
        made.input.tagName === 'TEXTAREA' && h('span', { class: 'quiet' }, 'Ctrl and Enter save'),
      ), told, fault);
    edit = { made, fault, told, save, before: issue.fields[field.name] };
    refill(element, form);
    made.input.focus();
    made.input.select?.();
  }

  function keep() {
    edit.fault.hidden = true;
    edit.made.input.removeAttribute('aria-invalid');
    if (!edit.made.input.validity?.badInput) keepDraft(team.user, subject, { value: edit.made.read() });
  }

  async function submit(event) {
    event.preventDefault();
    if (edit.save.disabled) return;
    const now = edit;
    now.save.disabled = true;
    try {
      const value = now.made.read();
      keepDraft(team.user, subject, { value });
      edit = null;
      await takeOrStay(now, value);
    } finally {
      now.save.disabled = false;
    }
  }

  async function takeOrStay(now, value) {
    try {
      await take(field.name, value);
      dropDraft(team.user, subject);
      drawValue();
      element.querySelector('button.value')?.focus();
      announce(`${label} is saved.`);
    } catch (error) {
      if (isLeft(error)) return;
      edit = now;
      refill(now.fault, icon('warn'), wordsOf(error));
      now.fault.hidden = false;
      now.made.input.setAttribute('aria-invalid', 'true');
      now.made.input.focus();
    }
  }

  function keydown(event) {
    if (event.isComposing) return;
    if (event.key === 'Escape') {
      event.preventDefault();
      giveUp();
    } else if (event.key === 'Enter' && (event.ctrlKey || event.metaKey)) {
      event.preventDefault();
      event.currentTarget.requestSubmit();
    }
  }

  function giveUp() {
    edit = null;
    dropDraft(team.user, subject);
    drawValue();
    element.querySelector('button.value')?.focus();
  }

  return {
    row,
    element,
    open,
    show: (next) => {
      issue = next;
      if (!edit) {
        const waits = element.querySelector('form.editing');
        if (!waits) drawValue();
      } else if (JSON.stringify(issue.fields[field.name]) !== JSON.stringify(edit.before)) {
        edit.before = issue.fields[field.name];
        refill(edit.told,
          `Somebody has changed this to ${textOf(field.name, edit.before)} while you typed.`,
        );
        edit.told.hidden = false;
      }
    },
    resume: () => {
      const kept = draftOf(team.user, subject);
      if (kept === undefined || !canEdit) return;
      if (JSON.stringify(kept.value ?? undefined) === JSON.stringify(issue.fields[field.name])) {
        dropDraft(team.user, subject);
        return;
      }
      begin(kept.value ?? undefined);
      refill(edit.told, 'This was typed before and isn’t saved yet.');
      edit.told.hidden = false;
    },
    flash: () => {
      row.classList.remove('flash');
      void row.offsetWidth;
      row.classList.add('flash');
    },
  };
}
