// What a field's value is given by, by its kind. Each editor has its `element`, its `input` (which takes the focus and the label),
// and `read()`, which gives the value as a call has it, null where it is emptied.

import { h, icon, refill } from '../dom.js';
import { allSprints } from '../sprints.js';
import { labelOf, team } from '../team.js';
import { button } from '../parts/small.js';

const NEVER_EMPTY = ['type', 'summary'];
// What a date is sent as that is typed in part: the tracker refuses it, where an empty value would empty the field.
const HALF = 'a part of a date';

/** An editor of a field that holds a value. `id` is that of its input; `changed` is told after each change. */
export function editor(field, value, { id, changed = () => {}, describedby = null }) {
  const given = { id, 'aria-describedby': describedby };
  const made = field.options && field.kind === 'choice'
    ? choices(field, value, given, changed)
    : (BY_KIND[field.kind] ?? BY_KIND.text)(field, value, given, changed);
  return { field, ...made };
}

function choices(field, value, given, changed) {
  return select(
    field.options.map((one) => [one, one]),
    value,
    NEVER_EMPTY.includes(field.name),
    given,
    changed,
  );
}

function select(options, value, never, given, changed, form = (text) => text) {
  const input = h('select', { ...given, on: { change: changed } },
    !(never && value !== undefined && value !== null) && h('option', { value: '' },
      never ? 'Choose …' : 'None',
    ),
    options.map(([one, words]) => h('option', { value: one, selected: String(one) === String(value ?? '') },
      words,
    )));
  return { element: input, input, read: () => (input.value === '' ? null : form(input.value)) };
}

function user(field, value, given, changed) {
  const known = value && !team.users.includes(value) ? [value, ...team.users] : team.users;
  const made = select(
    known.map((one) => [one, one === team.user ? `${one} (you)` : one]),
    value,
    false,
    given,
    changed,
  );
  const toMe = button('Me',
    () => { made.input.value = team.user; changed(); made.input.focus(); },
    { class: 'small', 'aria-label': `${labelOf(field.name)}: me` },
  );
  return { ...made, element: h('span', { class: 'row' }, made.input, toMe) };
}

function sprint(field, value, given, changed) {
  const made = select(
    value === undefined || value === null ? [] : [[value, `Sprint ${value}`]],
    value,
    false,
    given,
    changed,
    Number,
  );
  allSprints().then((sprints) => {
    const now = made.input.value;
    refill(made.input, h('option', { value: '' },
      'None',
    ), sprints.filter((one) => one.state !== 'closed' || String(one.sprint) === now)
      .map((one) => h('option', { value: one.sprint, selected: String(one.sprint) === now },
        `${one.name} (${one.state})`,
      )));
  }).catch(() => {});
  return made;
}

function text(field, value, given, changed) {
  if (field.name === 'summary') {
    const input = h(
      'input',
      {
        ...given,
        type: 'text',
        value: value ?? '',
        maxlength: 255,
        autocomplete: 'off',
        on: { input: changed },
      },
    );
    return { element: input, input, read: () => input.value };
  }
  const input = h('textarea',
    { ...given, rows: field.name === 'description' ? 5 : 2, on: { input: changed } },
    value ?? '',
  );
  return {
    element: input,
    input,
    read: () => (input.value === '' ? null : input.value.replace(/\r\n?/g, '\n')),
  };
}

function number(field, value, given, changed) {
  const input = h(
    'input',
    {
      ...given,
      type: 'text',
      inputmode: 'decimal',
      class: 'short',
      value: value ?? '',
      autocomplete: 'off',
      on: { input: changed },
    },
  );
  return {
    element: input,
    input,
    read: () => (input.value.trim() === '' ? null : input.value.trim().replace(/^(-?\d+),(\d+)$/, '$1.$2')),
  };
}

function date(field, value, given, changed) {
  const input = h(
    'input',
    {
      ...given,
      type: 'date',
      min: '1970-01-01',
      max: '2099-12-31',
      value: value ?? '',
      on: { input: changed },
    },
  );
  return { element: input, input, read: () => (input.value !== '' ? input.value : input.validity.badInput ? HALF : null) };
}

function set(field, value, given, changed) {
  const boxes = field.options.map((one) => h(
    'input',
    { type: 'checkbox', value: one, checked: (value ?? []).includes(one), on: { change: changed } },
  ));
  const element = h('fieldset', {
    ...given,
    class: 'boxes',
    tabindex: '-1',
    'aria-label': labelOf(field.name),
  },
    boxes.map((box, at) => h('label', {}, box, field.options[at])),
    boxes.length === 0 && h('span', { class: 'none' }, 'The setup has none.'));
  return {
    element,
    input: boxes[0] ?? element,
    read: () => boxes.filter((box) => box.checked).map((box) => box.value),
  };
}

function labels(field, value, given, changed) {
  let kept = [...(value ?? [])];
  const chips = h('span', { class: 'chips' });
  const input = h(
    'input',
    {
      ...given,
      type: 'text',
      placeholder: 'Add a label',
      autocomplete: 'off',
      on: { keydown, input: changed, blur: take },
    },
  );
  const draw = () => refill(chips, kept.map((one) => h('span', { class: 'chip' }, one,
    button(icon('close'),
      () => { kept = kept.filter((other) => other !== one); draw(); changed(); input.focus(); },
      { class: 'plain tiny', 'aria-label': `Take ${one} away` },
    ))));

  function take() {
    const typed = input.value.trim().split(/[\s,]+/).filter((one) => one !== '');
    if (typed.length === 0) return false;
    kept = [...new Set([...kept, ...typed])];
    input.value = '';
    draw();
    changed();
    return true;
  }

  function keydown(event) {
    if (event.isComposing) return;
    if ((event.key === ' ' || event.key === ',') || (event.key === 'Enter' && !event.ctrlKey && input.value.trim() !== '')) {
      event.preventDefault();
      take();
    } else if (event.key === 'Backspace' && input.value === '' && kept.length > 0) {
      kept = kept.slice(0, -1);
      draw();
      changed();
    }
  }

  draw();
  return {
    element: h('span', { class: 'labels' }, chips, input),
    input,
    read: () => [...new Set([...kept, ...input.value.trim().split(/[\s,]+/).filter((one) => one !== '')])],
  };
}

const BY_KIND = { user, sprint, text, number, date, set, labels };
