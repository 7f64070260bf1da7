"""Refusals in words. docs/REFUSALS.md tells what each number means."""
from . import moments

MEMBERS = {
    'line': 'the tracker could not read the request',
    'user': 'the request names no user',
    'other': 'an issue has no place beside itself',
    'external': 'an external id has 1 to 64 printable characters of ASCII',
    'name': 'a name has 1 to 100 bytes and no control characters',
    'set': 'a field is named twice',
    'members': 'a group has at most 200 members',
}
VALUES = {
    'type': 'it is no type of this tracker',
    'summary': 'it has 1 to 255 bytes, on one line',
    'description': 'it has 1 to 4,096 bytes',
    'status': 'a status changes by `vug do KEY TRANSITION` alone',
    'assignee': 'it is no user of this tracker',
    'reporter': 'it is no user of this tracker',
    'priority': 'it is no priority of this tracker',
    'resolution': 'it is no resolution of this tracker',
    'fixversion': 'these are versions of this tracker, with commas between them',
    'labels': 'these are at most 16 of 1 to 64 bytes without spaces, with commas between them',
    'due': 'it is a day from 1970 to 2099, as 2025-12-31',
    'points': 'it is a number as 3 or 0.5, with at most nine digits and three behind the point',
    'sprint': 'it is the number of a sprint',
}
FAULTS = {
    1: 'this character stands in no word or sign',
    2: 'the second quote is missing',
    3: 'this cannot stand here, or the query ends too early',
    4: 'too many parentheses or NOTs are open',
    5: 'the query has more than 4,096 bytes',
    6: 'this is no date',
    7: 'cf[..] has a number from 10000 to 19999',
    11: 'there is no such field',
    12: 'the field cannot have this value',
    13: 'the field does not have this operator, or gives no order',
    14: 'there is no such function, or it cannot stand here',
    15: 'there is no such user or group',
}
LIMITS = {'entries': 'entries of histories', 'text_bytes': 'bytes of text', 'filters': 'saved filters'}


def words(refusal, asked, user, rules=None):
    """Why this request was refused. `rules` finds the text of a transition's condition or validator, where that can be known."""
    number = refusal.get('no')
    teller = TELLERS.get(number)
    if not teller:
        return f'the tracker refused: {refusal}'
    return teller(refusal, asked, user, rules or (lambda *_: None))


def of_member(refusal, asked, user, rules):
    member = refusal.get('member')
    return MEMBERS.get(member, f'{member} is missing, or is nothing that the call {asked.get("call")} takes')


def of_name(refusal, asked, user, rules):
    kind, name = refusal.get('kind'), refusal.get('name')
    if kind == 'user' and name == user:
        return f'there is no user {name} in this tracker, as whom it is asked'
    return f'there is no {kind} {name}'


def of_permission(refusal, asked, user, rules):
    permission, project = refusal.get('permission'), refusal.get('project')
    return f'{user} does not have the permission {permission}' + (f' in {project}' if project else '')


def of_condition(refusal, asked, user, rules):
    index, transition = refusal.get('index'), asked.get('transition')
    if index == 0:
        return f'{transition} does not lead from the status that {asked.get("issue")} has'
    rule = rules(transition, 'conditions', index)
    return f'condition {index} of {transition} is not met' + (f': {rule}' if rule else '')


def of_validator(refusal, asked, user, rules):
    index, transition = refusal.get('index'), asked.get('transition')
    rule = rules(transition, 'validators', index)
    if rule and rule.startswith('required:'):
        return f'{transition} wants {rule[9:]}: vug do {asked.get("issue")} {transition!r} {rule[9:]}=..'
    return f'validator {index} of {transition} is not met' + (f': {rule}' if rule else ' (does a field have to be set?)')


def of_value(refusal, asked, user, rules):
    field = str(refusal.get('field'))
    value = {name.lower(): value for name, value in {**asked, **(asked.get('set') or {})}.items()}.get(field.lower())
    shown = '' if value is None else f' {value!r}'
    return f'{field} cannot be{shown}: ' + VALUES.get(field.lower(), 'it does not fit the field')


def of_query(refusal, asked, user, rules):
    kind, place, jql = refusal.get('kind', 0), refusal.get('place', 0), asked.get('jql', '')
    fault = FAULTS.get(kind, f'fault {kind}')
    if kind > 7:
        return f'comparison {place + 1} of the query: {fault}'
    if '\n' in jql:
        return f'byte {place} of the query: {fault}'
    before = jql.encode()[:place].decode(errors='replace')
    return f'the query: {fault}\n    {jql}\n    {" " * len(before)}^'


def of_room(refusal, asked, user, rules):
    return 'no rank is left between the two; who administers makes room by rebalance_start and rebalance_step'


def of_state(refusal, asked, user, rules):
    state, call = refusal.get('state'), asked.get('call')
    if call in ('create', 'edit', 'transition'):
        return f'the sprint is {state}, and no issue comes into it'
    return f'the sprint is {state}'


def of_limit(refusal, asked, user, rules):
    limit = refusal.get('limit')
    return f'the tracker is full: it has {refusal.get("number"):,} {LIMITS.get(limit, limit)}'


def of_clock(refusal, asked, user, rules):
    return f'the tracker\'s clock is at {moments.text(refusal.get("kept", 0))}, and never goes back'


def of_balance(refusal, asked, user, rules):
    moving = str(refusal.get('kept', '')).startswith('moving')
    return 'a rebalancing is under way' if moving else 'no rebalancing is under way'


def of_external(refusal, asked, user, rules):
    return f'{refusal.get("external")} is {refusal.get("kept")} already, which was made in another project or with another type or summary'


def of_keeper(refusal, asked, user, rules):
    return 'what keeps the tracker\'s rows failed (is the disk full?); nothing changed'


def of_memory(refusal, asked, user, rules):
    return 'the tracker had not enough memory; nothing changed'


TELLERS = {1: of_member, 2: of_name, 3: of_permission, 4: of_condition, 5: of_validator, 6: of_value, 7: of_query, 8: of_room,
           9: of_state, 10: of_limit, 11: of_clock, 12: of_balance, 13: of_external, 14: of_keeper, 15: of_memory}
