"""A new tracker that keeps nothing but histories, ranks, sprints and texts, and stories of what is asked of it.

This knows nothing of the program. It goes by the pages of docs/, and keeps no answer: whenever somebody asks for a filter, its text is
read anew and asked of each issue's whole history at the present moment, and whenever somebody asks for a burndown, what remained after
each change is summed anew.
"""
import json
import re
import sys
from whole_histories import (
    EMPTY, GROUPS, PRIORITIES, RESOLUTIONS, STATUSES, TRANSITIONS, TYPES, VERSIONS,
    Change, Issue, Query, Sprint, burndown, kept, moment, place_of, remaining)

USERS = ['anna', 'bo', 'cy', 'root']

# In the order of their numbers.
FIELDS = [
    'type', 'summary', 'description', 'status', 'assignee', 'reporter', 'priority', 'resolution', 'fixVersion', 'labels', 'due', 'points',
    'sprint',
]
OPTIONS = {'type': TYPES, 'assignee': USERS, 'reporter': USERS, 'priority': PRIORITIES, 'resolution': RESOLUTIONS}

# The members of each call; those with ? may be absent.
MEMBERS = {
    'tick': 'to',
    'create': 'project type summary set?',
    'edit': 'issue set',
    'transition': 'issue transition set?',
    'show': 'issue',
    'history': 'issue from? count?',
    'search': 'jql from? count?',
    'save_filter': 'name jql',
    'filter': 'filter from? count?',
    'drop_filter': 'filter',
    'make_board': 'name filter',
    'board': 'board from? count?',
    'drop_board': 'board',
    'move_before': 'issue other',
    'move_after': 'issue other',
    'make_sprint': 'name',
    'start_sprint': 'sprint',
    'close_sprint': 'sprint',
    'burndown': 'sprint from? count?',
}


class Refused(Exception):
    """A call is refused, with these members."""

    def __init__(self, no, **members):
        super().__init__(no)
        self.members = {'no': no, **members}


# ---- forms


def check_form(call, members):
    """The call is known, each member that it needs is there and has its form, and no other member is."""
    if call not in MEMBERS:
        raise Refused(1, member='call')
    needed = {name.rstrip('?'): name[-1] != '?' for name in MEMBERS[call].split()}
    wrong = [name for name in needed if (not has_form(call, name, members) if name in members else needed[name])]
    unknown = sorted(name for name in members if name not in needed)
    if wrong or unknown:
        raise Refused(1, member=(wrong or unknown)[0])


def has_form(call, member, members):
    value = members[member]
    if member == 'set':
        return type(value) is dict and len({name.lower() for name in value}) == len(value)
    if member == 'name':
        return type(value) is str and 1 <= len(value.encode()) <= 100 and not re.search('[\0-\x1f\x7f-\x9f]', value)
    if member == 'count':
        return is_whole(value, 1, 50 if call == 'history' else 1_000)
    most = {'to': 4_102_444_799, 'from': 2_000_000, 'filter': 2**32 - 1, 'board': 2**32 - 1, 'sprint': 2**32 - 1}
    if member in most:
        return is_whole(value, 0, most[member])
    return type(value) is str and (member != 'other' or value != members.get('issue'))


def is_whole(value, least, most):
    return type(value) is int and least <= value <= most


def spelled(names, given):
    """That of the names which is the given one but for the case of letters, if there is one."""
    return next((name for name in names if name.lower() == given.lower()), None)


def fits(field, value):
    """Whether the field may get the value, of what a call gives."""
    if field == 'status' or value is None:
        return field not in ('type', 'summary', 'status')
    if field == 'sprint':
        return is_whole(value, 0, 2**32 - 1)
    if field in ('labels', 'fixVersion'):
        form = r'[^ \0-\x1f\x7f-\x9f]{1,64}' if field == 'labels' else '|'.join(map(re.escape, VERSIONS))
        return type(value) is list and all(type(it) is str and re.fullmatch(form, it) for it in value)
    if type(value) is not str:
        return False
    forms = {'points': r'\d{1,9}(\.\d{1,3})?|-0{1,9}(\.0{1,3})?', 'due': r'\d{4}-\d\d-\d\d', 'summary': '[^\0-\x1f]{1,255}'}
    if field in OPTIONS:
        return spelled(OPTIONS[field], value) is not None
    return re.fullmatch(forms.get(field, '(?s:.+)'), value) is not None


def values_of(given):
    """The values as they are kept, if all of them fit."""
    for field in FIELDS:
        if field in given and not fits(field, given[field]):
            raise Refused(6, field=field)
    return {field: kept(field, spelled(OPTIONS[field], value) if field in OPTIONS and value else value) for field, value in given.items()}


def shown(field, value):
    """A value as it is shown."""
    if field != 'points' or value is EMPTY:
        return value
    whole, part = divmod(value, 1_000)
    return f'{whole}.{part:03}'.rstrip('0').rstrip('.')


# ---- the tracker


class Tracker:
    """A new tracker, in which everybody may browse all issues; of the rest it knows what stories ask of it."""

    def __init__(self, faults):
        self.faults, self.now, self.change = faults, 0, 0
        self.issues, self.ranks, self.sprints, self.filters, self.boards = [], {}, {}, {}, {}

    def answer(self, user, call, **members):
        """The reply to a request."""
        try:
            check_form(call, members)
            user = self.named('user', USERS, user)
            return {'ok': getattr(self, call)(user, **{name + '_' * (name in ('from', 'set', 'type')): it for name, it in members.items()})}
        except Refused as refusal:
            return {'refused': refusal.members}

    # -- what calls ask for

    def check(self, user, permission, group, project=None):
        if user not in GROUPS[group]:
            raise Refused(3, permission=permission, project=project)

    def there(self, kind, things, name):
        if name not in things:
            raise Refused(2, kind=kind, name=str(name))
        return things[name]

    def issue_of(self, key):
        return self.there('issue', {issue.key: issue for issue in self.issues}, key)

    def named(self, kind, names, given):
        if spelled(names, given) is None:
            raise Refused(2, kind=kind, name=given)
        return spelled(names, given)

    def by_field(self, given):
        """What is given, by field. Each name is a field's, and the sprint is there."""
        for name in sorted(given, key=str.encode):
            if self.named('field', FIELDS, name) == 'sprint' and is_whole(given[name], 0, 2**32 - 1):
                self.there('sprint', self.sprints, given[name])
        return {spelled(FIELDS, name): value for name, value in given.items()}

    def check_sprint(self, given, issue=None):
        """The sprint that is given isn't closed, unless the issue is in it already."""
        number = given.get('sprint')
        if is_whole(number, 0, 2**32 - 1) and self.sprints[number].state() == 'closed':
            if issue is None or issue.present('sprint') != number:
                raise Refused(9, state='closed')

    def ranked(self):
        return sorted(self.issues, key=lambda issue: self.ranks[issue.number])

    def found(self, jql, user):
        query = Query(jql, user, self.sprints)
        found = [issue for issue in self.issues if query.condition(issue, self.now, False)]
        for field, descends in reversed(query.keys):
            found.sort(key=lambda issue: place_of(field, issue, self.ranked()), reverse=descends)
        return found

    # -- issues

    def tick(self, user, to):
        if to < self.now:
            raise Refused(11, kept=self.now)
        self.now = to
        return {'moment': to}

    def create(self, user, project, type_, summary, set_={}):
        project = self.named('project', ['OPS'], project)
        given = self.by_field(set_)
        self.check(user, 'create', 'team', project)
        self.check_sprint(given)
        own = {'type': type_, 'summary': summary}
        values = values_of({'reporter': user, **given, **{field: None if field in given else value for field, value in own.items()}})
        issue = Issue(len(self.issues) + 1, self.next_change(user, {**values, 'status': 'Open'}))
        self.ranks[issue.number] = max(self.ranks.values()) + 8_192 if self.ranks else int('i00000', 36)
        self.issues.append(issue)
        return {'already': False, 'change': self.change, 'issue': issue.key}

    def edit(self, user, issue, set_):
        it, given = self.issue_of(issue), self.by_field(set_)
        self.check(user, 'edit', 'team', 'OPS')
        self.check_sprint(given, it)
        return self.changed(it, user, values_of(given))

    def transition(self, user, issue, transition, set_={}):
        it = self.issue_of(issue)
        transition = self.named('transition', TRANSITIONS, transition)
        given = self.by_field(set_)
        self.check(user, 'transition', 'team', 'OPS')
        self.check_sprint(given, it)
        sources, to = TRANSITIONS[transition]
        if it.present('status') not in sources:
            raise Refused(4, index=0)
        if transition == 'Finish' and user not in (it.present('assignee'), *GROUPS['admins']):
            raise Refused(4, index=1)
        values = values_of(given)
        if transition == 'Finish' and values.get('points', it.present('points')) is EMPTY:
            raise Refused(5, index=1)
        post = {'Start': {'assignee': user}, 'Finish': {'resolution': 'Fixed'}, 'Reopen': {'resolution': EMPTY}}
        return self.changed(it, user, {**values, 'status': to, **post.get(transition, {})})

    def changed(self, issue, user, values):
        """The values that differ are one change, if there are any."""
        values = {field: value for field, value in values.items() if issue.present(field) != value}
        if values:
            issue.history.append(self.next_change(user, values))
        return {'change': self.change if values else None, 'issue': issue.key}

    def next_change(self, user, values):
        self.change += 1
        return Change(self.change, self.now, user, values)

    def show(self, user, issue):
        it = self.issue_of(issue)
        values = {field: it.present(field) for field in FIELDS}
        fields = {field: shown(field, value) for field, value in values.items() if value is not EMPTY}
        return {'created': it.history[0].at, 'fields': fields, 'issue': issue, 'updated': it.history[-1].at}

    def history(self, user, issue, from_=0, count=50):
        it, entries = self.issue_of(issue), []
        for number, at, by, values in it.history[1:]:
            for field in [field for field in FIELDS if field in values]:
                ends = {'from': shown(field, it.after(number - 1, field)), 'to': shown(field, values[field])}
                entries.append({'at': at, 'by': by, 'change': number, 'field': field, **ends})
        return {'entries': entries[from_:from_ + count], 'total': len(entries)}

    def move_before(self, user, issue, other):
        return self.moved(user, issue, other, 0)

    def move_after(self, user, issue, other):
        return self.moved(user, issue, other, 1)

    def moved(self, user, issue, other, behind):
        """An issue goes to a place: the rank that it has there, or the middle one of those between its neighbours, or 8,192 beside one."""
        it, other = self.issue_of(issue), self.issue_of(other)
        self.check(user, 'rank', 'team', 'OPS')
        order = [one for one in self.ranked() if one is not it]
        place = order.index(other) + behind
        low, high = [self.ranks[one.number] if one else None
                     for one in (order[place - 1] if place else None, order[place] if place < len(order) else None)]
        if self.ranked().index(it) != place:
            rank = low + 8_192 if high is None else high - 8_192 if low is None else (low + high) // 2
            assert rank not in self.ranks.values()
            self.ranks[it.number] = rank
        return {'issue': issue, 'rank': f'0|{digits_of(self.ranks[it.number])}:'}

    # -- sprints

    def make_sprint(self, user, name):
        self.check(user, 'plan', 'team')
        if len(self.sprints) == 1_000:
            raise Refused(10, limit='sprints', number=1_000)
        number = len(self.sprints) + 1
        self.sprints[number] = Sprint(name)
        return {'sprint': number}

    def start_sprint(self, user, sprint):
        it = self.planned(user, sprint, 'future')
        it.start = self.change
        return {'sprint': sprint, 'state': it.state()}

    def close_sprint(self, user, sprint):
        it = self.planned(user, sprint, 'active')
        it.close = self.change
        return {'sprint': sprint, 'state': it.state()}

    def planned(self, user, sprint, *states):
        """A sprint that is there, in one of these states, for a user who may plan."""
        it = self.there('sprint', self.sprints, sprint)
        self.check(user, 'plan', 'team')
        if it.state() not in states:
            raise Refused(9, state=it.state())
        return it

    def burndown(self, user, sprint, from_=0, count=1_000):
        it = self.planned(user, sprint, 'future', 'active', 'closed')
        first, last = [self.change if number is None else number for number in (it.start, it.close)]
        rows = list(burndown(self.issues, sprint, first, last))
        start, left = [remaining(self.issues, sprint, number) for number in (first, last)]
        return {'left': left, 'rows': rows[from_:from_ + count], 'start': start, 'state': it.state(), 'total': len(rows)}

    # -- filters

    def search(self, user, jql, from_=0, count=1_000):
        self.check_query(jql)
        found = self.found(jql, user)
        return {'issues': [issue.key for issue in found[from_:from_ + count]], 'total': len(found)}

    def check_query(self, jql):
        if jql in self.faults:
            kind, place = self.faults[jql]
            raise Refused(7, kind=kind, place=place)

    def save_filter(self, user, name, jql):
        self.check_query(jql)
        number = next((no for no, (owner, other, _) in self.filters.items() if (owner, other) == (user, name)), free_among(self.filters))
        self.filters[number] = user, name, jql
        return {'filter': number, 'members': len(self.found(jql, user))}

    def drop_filter(self, user, filter):
        owner, _, _ = self.there('filter', self.filters, filter)
        if user != owner:
            self.check(user, 'administer', 'admins')
        del self.filters[filter]
        self.boards = {no: board for no, board in self.boards.items() if board[1] != filter}
        return {'filter': filter}

    def filter(self, user, filter, from_=0, count=1_000):
        owner, _, jql = self.there('filter', self.filters, filter)
        return self.search(owner, jql, from_, count)

    # -- boards

    def make_board(self, user, name, filter):
        self.there('filter', self.filters, filter)
        self.check(user, 'plan', 'team')
        number = free_among(self.boards)
        self.boards[number] = name, filter
        return {'board': number}

    def drop_board(self, user, board):
        self.there('board', self.boards, board)
        self.check(user, 'plan', 'team')
        del self.boards[board]
        return {'board': board}

    def board(self, user, board, from_=0, count=1_000):
        owner, _, jql = self.filters[self.there('board', self.boards, board)[1]]
        found = self.found(jql, owner)
        part = [issue for issue in self.ranked() if issue in found][from_:from_ + count]
        columns = [{'issues': [issue.key for issue in part if issue.present('status') == status], 'status': status} for status in STATUSES]
        return {'columns': columns, 'total': len(found)}


def free_among(things):
    """The least number from 1 on that none of them has."""
    return next(number for number in range(1, len(things) + 2) if number not in things)


def digits_of(rank):
    """A rank's six digits to the base 36."""
    return ''.join('0123456789abcdefghijklmnopqrstuvwxyz'[rank // 36**place % 36] for place in reversed(range(6)))


# ---- stories


class Story:
    """Sections of a stored run: requests with their replies, made one after the other.

    Some texts are no queries; each of these has its kind and its place by docs/JQL-FAULTS.md.
    """

    def __init__(self, faults):
        self.faults, self.tracker, self.front, self.rows = faults, None, '', []

    def section(self, word, title):
        """A section begins, with a tracker of its own. In one of `times` each line says first how often it is asked."""
        self.tracker, self.front = Tracker(self.faults), '1\t' if word == 'times' else ''
        self.rows.append((f'== {word}',) * 2)
        self.say(title)

    def say(self, text):
        self.rows.append((f'# {text}',) * 2)

    def ask(self, user, call, **members):
        line = {'user': user, 'call': call, **members}
        reply = self.tracker.answer(user, call, **members)
        self.rows.append((self.front + json.dumps(line, separators=(',', ':')), json.dumps(reply, separators=(',', ':'), sort_keys=True)))
        return reply

    def times(self, count, user, call, **members):
        """The same so many times; the last reply is told."""
        for _ in range(count - 1):
            self.tracker.answer(user, call, **members)
        self.front = f'{count}\t'
        self.ask(user, call, **members)
        self.front = '1\t'

    def tick(self, text):
        self.ask('root', 'tick', to=moment(text) if isinstance(text, str) else text)

    def create(self, user, type, summary, **set):
        self.ask(user, 'create', project='OPS', type=type, summary=summary, set=set)

    def edit(self, user, number, **set):
        self.ask(user, 'edit', issue=f'OPS-{number}', set=set)

    def go(self, user, number, transition, **members):
        self.ask(user, 'transition', issue=f'OPS-{number}', transition=transition, **members)

    def save(self, user, name, jql):
        self.ask(user, 'save_filter', name=name, jql=jql)

    def look(self, user, *filters):
        return [self.ask(user, 'filter', filter=number) for number in filters]

    def boards(self, user, *boards):
        for number in boards:
            self.ask(user, 'board', board=number)

    def turn(self, text, *filters):
        """At that second each of the filters has another answer than a second before."""
        self.tick(moment(text) - 1)
        before = self.look('bo', *filters)
        self.tick(text)
        assert all(one != other for one, other in zip(before, self.look('cy', *filters))), text

    def tell(self):
        """Prints the lines or the replies, as the program's word says."""
        for row in self.rows:
            print(row[['lines', 'replies'].index(sys.argv[1])])
