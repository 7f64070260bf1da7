"""Request lines that make issues again with their past: each create and each change at its moment by its user."""
import json

from .past import Bad

ISSUES = 50_000
BY_NAME = ('type', 'priority', 'resolution', 'status')


class Spelling:
    """Names as the setup spells them. Those that differ in the case of ASCII letters alone are one."""

    def __init__(self):
        self.names = {}

    def name(self, text):
        return self.names.setdefault(lower(text), text)

    def all(self):
        return list(self.names.values())


def lower(text):
    """The text with small ASCII letters; others stay, as they do where names are compared."""
    return ''.join(char.lower() if char.isascii() else char for char in text)


class Replay:
    """Issues in the order in which they are made, with the names that their setup has to have."""

    def __init__(self, issues, left):
        self.issues = sorted(issues, key=lambda it: (it.moment, number_of(it.external)))
        self.left = left
        self.types, self.priorities, self.resolutions = Spelling(), Spelling(), Spelling()
        self.statuses, self.versions, self.users, self.projects = Spelling(), Spelling(), Spelling(), Spelling()
        self.moves = {}  # for each status that was reached the statuses from which it was
        if len(self.issues) > ISSUES:
            raise Bad(f'there are {len(self.issues):,} issues, and a tracker holds {ISSUES:,}')
        self.spell()
        self.number()
        self.first_status = self.most_begin()

    def spell(self):
        """All names in one spelling."""
        for issue in self.issues:
            self.projects.name(issue.project)
            issue.author = self.users.name(issue.author)
            issue.first = self.spelled(issue.first)
            issue.first['type'] = issue.first.get('type') or self.types.name('Issue')
            now = issue.first['status']
            for change in issue.changes:
                change.author = self.users.name(change.author)
                change.values = self.spelled(change.values)
                if change.values.get('status') and change.values['status'] != now:
                    self.moves.setdefault(change.values['status'], []).append(now)
                    now = change.values['status']

    def spelled(self, values):
        spellings = {'type': self.types, 'priority': self.priorities, 'resolution': self.resolutions, 'status': self.statuses,
                     'assignee': self.users, 'reporter': self.users}
        found = {}
        for field, value in values.items():
            if value is not None and field in spellings:
                value = spellings[field].name(value)
            elif value is not None and field == 'fixVersion':
                value = [self.versions.name(it) for it in value]
            found[field] = value
        return found

    def number(self):
        """The keys that the issues get here: a project's numbers are given one after another."""
        last = {}
        for issue in self.issues:
            last[issue.project] = last.get(issue.project, 0) + 1
            issue.key = f'{issue.project}-{last[issue.project]}'
            if issue.key != issue.external:
                self.left.note('issues with another key here (the old one is their external id)', f'{issue.external} is {issue.key}')

    def most_begin(self):
        """The status in which most issues began, in which all issues begin here."""
        counts = {}
        for issue in self.issues:
            counts[issue.first['status']] = counts.get(issue.first['status'], 0) + 1
        if not counts:
            raise Bad('there are no issues')
        return max(counts, key=lambda name: counts[name])

    def busiest(self):
        """Who made most issues and changes, of those who still have a name."""
        authors = [it.author for issue in self.issues for it in (issue, *issue.changes)]
        named = [it for it in authors if it not in ('ghost', 'nobody')] or authors
        return max(sorted(set(named)), key=named.count)

    def lines(self, administrator):
        """The request lines, each with what its reply has to be: members under `ok`."""
        moment, number = None, 0
        for at, author, call, wanted in self.calls():
            if at != moment:
                moment = at
                yield line(author, 'tick', to=at), {'moment': at}
            number += 1
            yield line(author, **call), {**wanted, 'change': number}
        yield line(administrator, 'set_group', group='importers', members=[]), {'group': 'importers', 'members': 0}

    def calls(self):
        """All creates and changes in the order of time."""
        events = []
        for order, issue in enumerate(self.issues):
            events.append((issue.moment, order, 0, issue, None))
            last = issue.moment
            for place, change in enumerate(issue.changes):
                last = max(last, change.moment)
                events.append((last, order, place + 1, issue, change))
        for moment, _, _, issue, change in sorted(events, key=lambda it: it[:3]):
            if change is None:
                yield from self.made(issue)
            elif found := self.changed(issue, change):
                yield int(moment), change.author, *found

    def made(self, issue):
        """The create of an issue, and where it began in another status, the transition to it."""
        issue.now = dict(issue.first, status=self.first_status)
        given = {field: value for field, value in issue.first.items()
                 if field not in ('type', 'summary', 'status') and (value is not None or field == 'reporter')}
        if given.get('reporter') == issue.author:
            del given['reporter']
        members = {'project': issue.project, 'type': issue.first['type'], 'summary': issue.first['summary'], 'external': issue.external}
        if given:
            members['set'] = given
        yield int(issue.moment), issue.author, {'call': 'create', **members}, {'already': False, 'issue': issue.key}
        if issue.first['status'] != self.first_status:
            self.left.note(f'issues that began in another status than {self.first_status} (they have it for less than a second)', issue.external)
            issue.now['status'] = issue.first['status']
            yield int(issue.moment), issue.author, self.transition(issue, issue.first['status']), {'issue': issue.key}

    def changed(self, issue, change):
        """The call that makes a change, and its reply; or nothing where all is so already."""
        given = {field: value for field, value in change.values.items() if issue.now.get(field) != value}
        if not given.get('type', True):
            del given['type']
        if not given:
            return None
        issue.now.update(given)
        status = given.pop('status', None)
        if status:
            call = self.transition(issue, status)
            if given:
                call['set'] = given
            return call, {'issue': issue.key}
        return {'call': 'edit', 'issue': issue.key, 'set': given}, {'issue': issue.key}

    def transition(self, issue, status):
        return {'call': 'transition', 'issue': issue.key, 'transition': self.import_name(status)}

    def import_name(self, status):
        """The name of the transition by which importers come to a status."""
        name = f'Import: {status}'
        return name if len(name.encode()) <= 60 else f'Import: status {self.statuses.all().index(status) + 1}'


def line(user, call, **members):
    return json.dumps({'user': user, 'call': call, **members}, ensure_ascii=False, separators=(',', ':'))


def number_of(external):
    """The number at the end of what an issue is called, by which those of one instant stand."""
    digits = external[len(external.rstrip('0123456789')):]
    return int(digits or 0)
