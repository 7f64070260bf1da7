// The workflow's rules: which transitions leave a status, whom they let through, and what they ask for.

import { fieldOf, isIn, labelOf, may, same, team } from './team.js';
import { listText, today } from './texts.js';

/** The transitions that leave a status, in the setup's order. */
export function transitionsFrom(status) {
  return team.transitions.filter((one) => one.from.includes(status));
}

/** Those of them that lead to another status. */
export function transitionsTo(from, to) {
  return transitionsFrom(from).filter((one) => one.to === to);
}

function behind(text) {
  return text.slice(text.indexOf(':') + 1);
}

/** Whom a condition lets through, in words that stand behind "only for". */
export function conditionText(condition) {
  if (condition === 'assignee') return 'its assignee';
  if (condition === 'reporter') return 'its reporter';
  if (condition.startsWith('group:')) return `the group ${behind(condition)}`;
  if (condition.startsWith('permission:')) return `who may ${behind(condition)} in its project`;
  if (condition.startsWith('any:')) return listText(behind(condition).split('|').map(conditionText), 'or');
  return condition;
}

/** What a validator asks for, in words that stand behind "asks for". */
export function validatorText(validator) {
  if (validator.startsWith('required:')) {
    return `${labelOf(behind(validator))}, which ${isMany(behind(validator)) ? 'are' : 'is'} empty`;
  }
  if (validator.startsWith('changed:')) return `another value of ${labelOf(behind(validator))}`;
  if (validator === 'due') return 'a due date that isn’t over';
  if (validator.startsWith('permission:')) return `somebody who may ${behind(validator)} in its project`;
  return validator;
}

function isMany(name) {
  return ['points', 'labels', 'fixVersion'].includes(name);
}

/** Whether a condition holds of an issue for the caller, as far as the page knows. */
function passes(condition, issue) {
  if (condition === 'assignee') return issue.fields.assignee === team.user;
  if (condition === 'reporter') return issue.fields.reporter === team.user;
  if (condition.startsWith('group:')) return isIn(team.user, behind(condition));
  if (condition.startsWith('permission:')) return may(behind(condition), issue.issue);
  if (condition.startsWith('any:')) return behind(condition).split('|').some((one) => passes(one, issue));
  return true;
}

/** The first condition that doesn't hold, in words, or null. The tracker decides; this is told beforehand. */
export function barrierOf(transition, issue) {
  if (!may('transition', issue.issue)) return 'who may transition issues in its project';
  const first = transition.conditions.find((condition) => !passes(condition, issue));
  return first === undefined ? null : conditionText(first);
}

/** The fields that a transition wants to be told of an issue before it is called, each once. */
export function wantedBy(transition, issue) {
  const wanted = [];
  for (const validator of transition.validators) {
    const field = wantedField(validator, issue);
    if (field && !wanted.includes(field)) wanted.push(field);
  }
  return wanted;
}

function wantedField(validator, issue) {
  if (validator.startsWith('required:')) {
    const field = fieldOf(behind(validator));
    return field && issue.fields[field.name] === undefined && isGiven(field) ? field : null;
  }
  if (validator.startsWith('changed:')) {
    const field = fieldOf(behind(validator));
    return field && isGiven(field) ? field : null;
  }
  if (validator === 'due' && issue.fields.due !== undefined && issue.fields.due < today()) return fieldOf('due');
  return null;
}

/** Whether a field takes values from people: status goes by transitions. */
export function isGiven(field) {
  return field.name !== 'status';
}

/** The transition of this name, or undefined. */
export function transitionOf(name) {
  return team.transitions.find((one) => same(one.transition, name));
}
