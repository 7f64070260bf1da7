// A form of several fields: each with its label, its editor and a place for what is wrong with it.

import { fresh, h, icon, refill } from '../dom.js';
import { labelOf } from '../team.js';
import { fieldAtFault, wordsOf } from '../refusals.js';
import { editor } from './editors.js';

/** A form of fields. `values` are the present ones by name, `must` the names that have to be given; `changed` is told of each change. */
export function fieldForm(
  fields,
  values,
  { must = [], changed = () => {}, wide = ['summary', 'description'] } = {},
) {
  const rows = fields.map((field) => {
    const { name } = field;
    const value = Object.hasOwn(values, name) ? values[name] : undefined;
    return row(field, value, must.includes(name), wide.includes(name), () => {
      clear(name);
      changed();
    });
  });
  const of = (name) => rows.find((one) => one.field.name === name);
  const clear = (name) => { of(name).fault.hidden = true; of(name).input.removeAttribute('aria-invalid'); };

  return {
    element: h('div', { class: 'fields' }, rows.map((one) => one.row)),
    focus: (name) => (of(name) ?? rows[0])?.input.focus(),
    /** The values that are given and aren't empty. */
    read: () => Object.fromEntries(rows.map((one) => [one.field.name, one.read()]).filter(([, value]) => isGiven(value))),
    /** Says what is wrong beside the field that it is about; false where it is about none of these. */
    blame: (error) => {
      const one = of(fieldAtFault(error));
      if (!one) return false;
      refill(one.fault, icon('warn'), wordsOf(error));
      one.fault.hidden = false;
      one.input.setAttribute('aria-invalid', 'true');
      one.input.focus();
      return true;
    },
  };
}

function isGiven(value) {
  return value !== null && value !== '' && !(Array.isArray(value) && value.length === 0);
}

function row(field, value, isMust, isWide, changed) {
  const id = fresh('field');
  const fault = h('p', { class: 'fault', id: `${id}-fault`, hidden: true });
  const made = editor(field, value, { id, changed, describedby: `${id}-fault` });
  if (isMust) made.input.setAttribute('aria-required', 'true');
  return {
    ...made,
    fault,
    row: h('div', { class: isWide ? 'field wide' : 'field' },
      h('label', { for: made.input.id === id ? id : null },
        labelOf(field.name),
        isMust && h('span', { class: 'must' }, ' needed'),
      ), made.element, fault),
  };
}
