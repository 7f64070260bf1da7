"""Issues as their whole histories, what remained of a sprint after any change of them, and queries, in the words of docs/JQL.md.

This knows nothing of the program, and keeps nothing between two questions: a query is asked of the histories at a moment, and what
remained is summed over them anew. Dates go by Python's datetime, local time is UTC, and the setup is that of a new tracker. Queries
have no faults here.
"""
import calendar
import datetime
import operator
import re
from typing import NamedTuple

DAY, LAST = 86_400, 4_102_444_799
EPOCH = datetime.date(1970, 1, 1)
EMPTY = None

# ---- the setup of a new tracker

GROUPS = {'team': ['anna', 'bo', 'root'], 'admins': ['anna', 'root'], 'guests': ['cy']}
TYPES, PRIORITIES, RESOLUTIONS, VERSIONS = ['Task', 'Bug'], ['High', 'Medium', 'Low'], ['Fixed', 'Declined'], ['1.0', '1.1']
STATUSES = {'Open': 'To Do', 'In Progress': 'In Progress', 'In Review': 'In Progress', 'Done': 'Done'}
TRANSITIONS = {
    'Start': (['Open'], 'In Progress'),
    'Review': (['In Progress'], 'In Review'),
    'Finish': (['In Progress', 'In Review'], 'Done'),
    'Reopen': (['Done'], 'Open'),
}

# ---- dates


def moment(text):
    return int(datetime.datetime.fromisoformat(text + '+00:00').timestamp())


def midnight(date):
    return (date - EPOCH).days * DAY


def months_later(date, months):
    year, month = divmod(12 * date.year + date.month - 1 + months, 12)
    return datetime.date(year, month + 1, min(date.day, calendar.monthrange(year, month + 1)[1]))


def begin_of(period, date):
    """The first day of the period in which the date lies."""
    days = {'Day': 0, 'Week': date.weekday(), 'Month': date.day - 1, 'Year': date.timetuple().tm_yday - 1}
    return date - datetime.timedelta(days[period])


def moved(date, unit, number):
    if unit in 'yM':
        return months_later(date, number * (12 if unit == 'y' else 1))
    return date + datetime.timedelta(number * (7 if unit == 'w' else 1))


def terms_of(text):
    """The numbers of a period or of a function's shift, by unit."""
    sign, terms = re.fullmatch(r'([+-]?)(.*)', text).groups()
    units = dict.fromkeys('yMwdhm', 0)
    for term in terms.split(' '):
        units[term[-1]] += int(sign + term[:-1])
    return units


def edge_of(name, shift, now):
    """The second of `startOf..` or `endOf..`."""
    edge, period = re.fullmatch('(start|end)Of(Day|Week|Month|Year)', name).groups()
    own = {'Day': 'd', 'Week': 'w', 'Month': 'M', 'Year': 'y'}[period]
    date = begin_of(period, EPOCH + datetime.timedelta(now // DAY))
    if edge == 'end':
        date = moved(date, own, 1)
    units = terms_of(shift + own if re.fullmatch(r'[+-]?\d+', shift) else shift or '0d')
    date = moved(moved(date, 'M', 12 * units['y'] + units['M']), 'd', 7 * units['w'] + units['d'])
    return midnight(date) + 3_600 * units['h'] + 60 * units['m'] - (edge == 'end')


def second_of(date, now):
    """The second that a date means at the present moment: a call with its argument, a written date or a period."""
    if isinstance(date, tuple):
        return now if date[0] == 'now' else edge_of(*date, now)
    if re.match(r'\d{4}[-/]', date):
        return moment(date.replace('/', '-'))
    units = terms_of(date)
    return now + sum(units[unit] * seconds for unit, seconds in zip('wdhm', (7 * DAY, DAY, 3_600, 60)))


# ---- issues


class Change(NamedTuple):
    """Which fields got which values, when and by whom. The changes of all issues are numbered together, creations among them."""

    number: int
    at: int
    by: str
    values: dict


class Issue:
    """An issue is its history: its changes, the creation first."""

    def __init__(self, number, creation):
        self.number, self.key, self.history = number, f'OPS-{number}', [creation]

    def steps(self, field):
        """The values of a field, each with its moment and its author."""
        creation, *changes = self.history
        first = creation.at, creation.by, creation.values.get(field)
        return [first] + [(change.at, change.by, change.values[field]) for change in changes if field in change.values]

    def present(self, field):
        return self.steps(field)[-1][2]

    def after(self, number, field):
        """The value of a field after the change of that number; EMPTY where the issue wasn't there yet."""
        values = [change.values[field] for change in self.history if change.number <= number and field in change.values]
        return values[-1] if values else EMPTY


def kept(field, given):
    """A value as it is kept, of what a call gives."""
    if given is None or given == []:
        return EMPTY
    if field == 'points':
        return thousandths(given)
    if field == 'labels':
        return sorted(set(given))
    return [version for version in VERSIONS if version in given] if field == 'fixVersion' else given


def thousandths(number):
    whole, _, part = number.partition('.')
    return int(whole + part.ljust(3, '0'))


def parts_of(field, value):
    """What a value has, as it is compared: an empty one has EMPTY alone."""
    if value is EMPTY:
        return [EMPTY]
    if field == 'due':
        return [moment(value)]
    if field in ('labels', 'fixVersion'):
        return value
    return [value if field in ('points', 'sprint', 'summary', 'description') else value.lower()]


def present_parts(issue, field):
    if field in ('created', 'updated'):
        return [issue.history[0 if field == 'created' else -1].at]
    if field in ('key', 'project'):
        return [issue.key] if field == 'key' else ['ops']
    if field == 'statusCategory':
        return [STATUSES[issue.present('status')].lower()]
    return parts_of(field, issue.present(field))


def place_of(field, issue, ranked):
    """Where an issue stands by a sort key, those without a value last."""
    value = issue.present(field)
    if field in ('created', 'updated', 'due'):
        [value] = present_parts(issue, field)
    elif field in ('key', 'rank'):
        value = issue.number if field == 'key' else ranked.index(issue)
    elif field == 'statusCategory':
        value = list(dict.fromkeys(STATUSES.values())).index(STATUSES[issue.present('status')])
    elif field in ('type', 'status', 'priority', 'resolution') and value:
        place = {'type': TYPES, 'status': list(STATUSES), 'priority': PRIORITIES, 'resolution': RESOLUTIONS}[field].index(value)
        value = -place if field == 'priority' else place
    return (True,) if value is EMPTY else (False, value)


# ---- sprints

PHASES = {'openSprints': 'active', 'closedSprints': 'closed', 'futureSprints': 'future'}


class Sprint:
    """A sprint has the numbers of the last changes before its start and before its close, as far as these have come."""

    def __init__(self, name):
        self.name, self.start, self.close = name, None, None

    def state(self):
        return 'future' if self.start is None else 'active' if self.close is None else 'closed'


def remaining(issues, sprint, number):
    """The points, in thousandths, of the issues that were in the sprint after the change of that number, and were not done."""
    return sum(
        issue.after(number, 'points') or 0
        for issue in issues
        if issue.after(number, 'sprint') == sprint and STATUSES[issue.after(number, 'status')] != 'Done')


def burndown(issues, sprint, first, last):
    """Each change behind the first, up to the last, after which something else remained than after the one before."""
    for number in range(first + 1, last + 1):
        before, left = [remaining(issues, sprint, it) for it in (number - 1, number)]
        if left != before:
            [(issue, at)] = [(issue, change.at) for issue in issues for change in issue.history if change.number == number]
            yield {'at': at, 'by': left - before, 'change': number, 'issue': issue.key, 'left': left}


# ---- queries

TOKEN = re.compile(r'\s*("[^"]*"|[<>!]=|!~|[<>=~(),]|[^\s"<>=!~(),]+)')
OTHER_NAMES = {
    'fixversion': 'fixVersion', 'statuscategory': 'statusCategory', 'issuetype': 'type', 'duedate': 'due', 'issue': 'key', 'issuekey': 'key',
}
SIGNS = {'<': operator.lt, '<=': operator.le, '>': operator.gt, '>=': operator.ge}
OPPOSITES = {'<': '>=', '<=': '>', 'IN': 'NOT IN', '~': '!~'}
OPPOSITES.update({other: sign for sign, other in OPPOSITES.items()})

WINDOWS = {
    'AFTER': lambda date: (date + 1, LAST),
    'BEFORE': lambda date: (0, date - 1),
    'ON': lambda date: (date // DAY * DAY, date // DAY * DAY + DAY - 1),
    'DURING': lambda begin, end: (begin, end),
}


class Query:
    """A query of a user, with the sprints that there are. A condition is asked of an issue and a moment, and whether NOT stands before it."""

    def __init__(self, text, user, sprints):
        self.tokens, self.user, self.sprints, self.keys = TOKEN.findall(text), user, sprints, []
        self.condition = self.either() if self.tokens and not self.is_next('ORDER') else lambda issue, now, no: True
        if self.take('ORDER') and self.take('BY'):
            self.keys = [self.key()] + [self.key() for _ in iter(lambda: self.take(','), False)]
        assert not self.tokens, text

    def is_next(self, word):
        return bool(self.tokens) and self.tokens[0].upper() == word

    def take(self, word):
        return self.is_next(word) and bool(self.tokens.pop(0))

    def field(self):
        name = self.tokens.pop(0).lower()
        return OTHER_NAMES.get(name, name)

    def key(self):
        field = self.field()
        descends = self.take('DESC')
        self.take('ASC')
        return field, descends

    def either(self):
        parts = [self.both()] + [self.both() for _ in iter(lambda: self.take('OR'), False)]
        return lambda issue, now, no: (all if no else any)([part(issue, now, no) for part in parts])

    def both(self):
        parts = [self.unit()] + [self.unit() for _ in iter(lambda: self.take('AND'), False)]
        return lambda issue, now, no: (any if no else all)([part(issue, now, no) for part in parts])

    def unit(self):
        if self.take('NOT'):
            part = self.unit()
            return lambda issue, now, no: part(issue, now, not no)
        if self.take('('):
            part = self.either()
            assert self.take(')')
            return part
        field = self.field()
        for test in ('WAS', 'CHANGED'):
            if self.take(test):
                return self.past(field, test)
        return self.comparison(field)

    def comparison(self, field):
        if self.take('IS'):
            sign = 'NOT IN' if self.take('NOT') else 'IN'
            items = [self.value()]
        elif self.take('IN') or self.is_next('NOT'):
            sign = 'NOT IN' if self.take('NOT') and self.take('IN') else 'IN'
            items = self.values()
        else:
            sign = {'=': 'IN', '!=': 'NOT IN'}.get(self.tokens[0], self.tokens[0])
            self.tokens.pop(0)
            items = [self.value()]
        return lambda issue, now, no: self.compares(field, OPPOSITES[sign] if no else sign, items, issue, now)

    def compares(self, field, sign, items, issue, now):
        parts = present_parts(issue, field)
        wanted = [one for item in items for one in self.meant(field, item, now)]
        if sign == 'IN':
            return any(one in parts for one in wanted)
        if parts == [EMPTY]:
            return False
        if sign == 'NOT IN':
            return not any(one in parts for one in wanted)
        if '~' in sign:
            return has_words(wanted[0], parts[0]) == (sign == '~')
        if field == 'priority':
            parts, wanted = [[-[it.lower() for it in PRIORITIES].index(name) for name in names] for names in (parts, wanted)]
        return SIGNS[sign](parts[0], wanted[0])

    def past(self, field, test):
        never = test == 'WAS' and self.take('NOT')
        items = (self.values() if self.take('IN') else [self.value()]) if test == 'WAS' else []
        sides, authors, windows = [], [], []
        while self.tokens and self.tokens[0].upper() in (*WINDOWS, 'BY', 'FROM', 'TO'):
            word = self.tokens.pop(0).upper()
            listed = self.values()
            if word in WINDOWS:
                windows.append((WINDOWS[word], listed))
            elif word == 'BY':
                authors.append([user for item in listed for user in self.meant('assignee', item, 0)])
            else:
                sides.append((word, listed))

        def is_met(issue, now):
            limits = [(0, LAST)] + [window(*(second_of(date, now) for date in dates)) for window, dates in windows]
            low, high = max(first for first, _ in limits), min(last for _, last in limits)
            times = self.spans(issue, field, items, now) if test == 'WAS' else self.changes(issue, field, sides)
            return any(
                fits and max(first, low) <= min(last, high) and all(by in users for users in authors)
                for first, last, by, fits in times)

        return lambda issue, now, no: is_met(issue, now) != (never != no)

    def spans(self, issue, field, items, now):
        """Each value of a field: its first moment, its last one, its author, and whether an item names it."""
        steps = issue.steps(field)
        ends = [at for at, _, _ in steps[1:]] + [now + 1]
        return [(at, max(at, end - 1), by, self.names(field, items, parts_of(field, value)))
                for (at, by, value), end in zip(steps, ends)]

    def changes(self, issue, field, sides):
        """Each change of a field: its moment, twice, its author, and whether it goes from and to values that are asked for."""
        steps = issue.steps(field)
        for (_, _, before), (at, by, after) in zip(steps, steps[1:]):
            gone = {'FROM': (before, after), 'TO': (after, before)}
            lost = {side: [one for one in parts_of(field, here) if one not in parts_of(field, there)]
                    for side, (here, there) in gone.items()}
            yield at, at, by, all(self.names(field, items, lost[side]) for side, items in sides)

    def names(self, field, items, parts):
        return any(one in parts for item in items for one in self.meant(field, item, 0))

    def values(self):
        """A list in parentheses, or a call that stands for one."""
        if not self.take('('):
            return [self.value()]
        items = [self.value()] + [self.value() for _ in iter(lambda: self.take(','), False)]
        assert self.take(')')
        return items

    def value(self):
        """A text, a call with its argument, or EMPTY."""
        token = self.tokens.pop(0)
        if token.upper() in ('EMPTY', 'NULL'):
            return EMPTY
        if token[0] == '"' or not self.take('('):
            return token.strip('"')
        argument = '' if self.is_next(')') else self.tokens.pop(0).strip('"')
        assert self.take(')')
        return token, argument

    def meant(self, field, item, now):
        """What an item of a list stands for, as it is compared."""
        if item is EMPTY or (field, item) == ('resolution', 'Unresolved'):
            return [EMPTY]
        if field in ('due', 'created', 'updated'):
            return [second_of(item, now)]
        if isinstance(item, tuple):
            return self.called(*item)
        if field in ('points', 'sprint'):
            return [thousandths(item) if field == 'points' else int(item)]
        return [item if field in ('labels', 'key', 'summary', 'description') else item.lower()]

    def called(self, name, argument):
        """What a call stands for, but one of a date."""
        if name in PHASES:
            return [number for number, sprint in self.sprints.items() if sprint.state() == PHASES[name]]
        return [self.user] if name == 'currentUser' else GROUPS[argument]


def has_words(wanted, text):
    """Each word that is looked for is one of the text, or the beginning of one where `*` stands behind it."""
    words = re.findall(r'[a-z0-9]+', text.lower())
    return all(any(word.startswith(start[:-1]) if start.endswith('*') else word == start for word in words)
               for start in re.findall(r'[a-z0-9]+\*?', wanted.lower()))
