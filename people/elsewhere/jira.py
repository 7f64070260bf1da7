"""Jira's issues, as its REST interface gives them (version 2, `/search?expand=changelog`)."""
import datetime

from . import fitting
from .past import Bad, Change, Issue, in_time, rewound, unexplained

# Fields that have a place here, by what a changelog calls them.
FIELDS = {'summary': 'summary', 'description': 'description', 'issuetype': 'type', 'status': 'status', 'assignee': 'assignee',
          'reporter': 'reporter', 'priority': 'priority', 'resolution': 'resolution', 'fix version': 'fixVersion', 'fixversions': 'fixVersion',
          'labels': 'labels', 'duedate': 'due', 'due date': 'due'}
POINTS = ('story points', 'story point estimate')
# Fields that say what other members say too, or how Jira shows an issue.
DERIVED = {'summary', 'description', 'issuetype', 'status', 'assignee', 'reporter', 'creator', 'priority', 'resolution', 'fixVersions', 'labels',
           'duedate', 'project', 'created', 'updated', 'resolutiondate', 'statuscategorychangedate', 'statusCategory', 'lastViewed', 'workratio',
           'watches', 'progress', 'aggregateprogress', 'timetracking', 'aggregatetimespent', 'aggregatetimeestimate',
           'aggregatetimeoriginalestimate', 'issuerestriction'}
# What has a word of its own in the report.
CALLED = {'issuelinks': 'links to other issues', 'attachment': 'attachments', 'comment': 'comments', 'worklog': 'entries of work',
          'subtasks': 'sub-tasks (they come as issues, and not below one)', 'votes': 'votes'}


class Reader:
    """Reads issues, and collects the names that their setup needs: priorities with Jira's numbers, and statuses with their categories."""

    def __init__(self, users, left, projects=None, points=None):
        self.users, self.left, self.projects, self.points = users, left, projects or {}, points
        self.names = {}
        self.priorities, self.categories = {}, {}

    def read(self, documents):
        """The issues of all documents, each once."""
        issues, seen = [], set()
        for name, document in documents:
            self.meet(document)
        for name, document in documents:
            if not isinstance(document, dict) or not isinstance(document.get('issues'), list):
                raise Bad(f'{name} is no result of a search: it has no "issues"')
            self.names.update({field: text for field, text in (document.get('names') or {}).items() if isinstance(text, str)})
            for raw in document['issues']:
                if not isinstance(raw, dict) or 'key' not in raw or not isinstance(raw.get('fields'), dict):
                    raise Bad(f'{name}: an issue without a key or fields')
                if raw['key'] not in seen:
                    seen.add(raw['key'])
                    issues.append(self.issue(raw))
        return issues

    def meet(self, value):
        """Gets to know all users before any is named: a changelog tells some by their display name alone."""
        if isinstance(value, dict):
            if 'displayName' in value and ('accountId' in value or 'name' in value or 'key' in value):
                self.user(value)
            for inner in value.values():
                self.meet(inner)
        elif isinstance(value, list):
            for inner in value:
                self.meet(inner)

    def points_field(self):
        """The field that holds story points: the one that is told, or the one of that name."""
        return self.points or next((field for field, text in self.names.items() if text.lower() in POINTS), None)

    def issue(self, raw):
        key, fields = raw['key'], raw['fields']
        now = self.present(key, fields)
        histories = self.histories(key, raw.get('changelog'))
        items = [[item for raw_item in history.get('items', []) for item in self.item(key, raw_item)] for history in histories]
        items = self.sets_of_versions(now, items)
        first = rewound(now, items)
        issue = Issue(key, self.project(key), instant(fields.get('created'), key),
                      self.author(fields.get('creator') or fields.get('reporter')), first)
        for history, changed in zip(histories, items):
            if changed:
                moment = max(instant(history.get('created'), key), issue.moment)
                issue.changes.append(Change(moment, self.author(history.get('author')), {field: after for field, _, after in changed}))
        if late := unexplained(now, first, items):
            self.left.note('values that no change explains, set at the end', f'{key}: {", ".join(sorted(late))}', len(late))
            moment = max([instant(fields.get('updated') or fields.get('created'), key)] + [change.moment for change in issue.changes])
            issue.changes.append(Change(moment, issue.author, late))
        self.count(key, fields)
        return issue

    def present(self, key, fields):
        """The present values, of all fields that have a place here."""
        status, priority = fields.get('status') or {}, fields.get('priority') or {}
        category = (status.get('statusCategory') or {}).get('key')
        name = self.status(status.get('name'))
        if category:
            self.categories[name] = {'new': 'todo', 'indeterminate': 'progress', 'done': 'done'}.get(category, 'todo')
        if priority.get('name'):
            self.priorities.setdefault(fitting.name(priority['name']), priority.get('id'))
        points = self.points_field()
        return {
            'summary': fitting.summary(fields.get('summary'), self.left, key),
            'description': fitting.description(self.plain(key, fields.get('description')), self.left, key),
            'type': fitting.name((fields.get('issuetype') or {}).get('name')) or 'Issue',
            'status': name,
            'assignee': self.user(fields.get('assignee')),
            'reporter': self.user(fields.get('reporter')),
            'priority': fitting.name(priority.get('name')),
            'resolution': resolution((fields.get('resolution') or {}).get('name')),
            'fixVersion': versions(it.get('name') for it in fields.get('fixVersions') or []),
            'labels': fitting.labels(fields.get('labels') or [], self.left, key),
            'due': fitting.day(fields.get('duedate')),
            'points': fitting.number(fields.get(points), self.left, key) if points else None,
        }

    def status(self, text):
        name = fitting.name(text)
        if not name:
            raise Bad('an issue without a status')
        self.categories.setdefault(name, None)
        return name

    def histories(self, key, log):
        """The changelog in the order of time."""
        if not isinstance(log, dict):
            self.left.note('issues without a changelog: they come without a past', key)
            return []
        histories = log.get('histories') or []
        if log.get('total', 0) > len(histories):
            self.left.note('changes that are not in the file (a changelog that is cut)', key, log['total'] - len(histories))
        numbers = range(len(histories))
        # Of changes in one instant the order of their ids counts, which are given one after another.
        return [histories[at] for at in sorted(numbers, key=lambda at: (instant(histories[at].get('created'), key), id_of(histories[at]), at))]

    def item(self, key, item):
        """An item of a changelog as (field, before, after), or nothing where its field has no place here."""
        called = str(item.get('field', ''))
        field = FIELDS.get(called.lower())
        if called.lower() in POINTS or (self.points and self.names.get(self.points, '').lower() == called.lower()):
            field = 'points'
        if field is None:
            self.left.note(f'changes of {called}', key)
            return []
        return [(field, *(self.value(key, field, item, side) for side in ('from', 'to')))]

    def value(self, key, field, item, side):
        """What an item says that a field was, or became."""
        ident, text = item.get(side), item.get(side + 'String')
        if field in ('assignee', 'reporter'):
            return self.users.name(str(ident), text) if ident else None
        if field == 'due':
            return fitting.day(ident or text)
        if field == 'labels':
            return fitting.labels((text or '').split(), self.left, key)
        if field == 'points':
            return fitting.number(text, self.left, key)
        if field == 'description':
            return fitting.description(text, self.left, key)
        if field == 'summary':
            return fitting.summary(text, self.left, key)
        if field == 'status':
            return self.status(text)
        if field == 'priority' and text:
            self.priorities.setdefault(fitting.name(text), ident)
        return resolution(text) if field == 'resolution' else fitting.name(text)

    def sets_of_versions(self, now, items):
        """A changelog tells one version that came or went in each item; here a change has the whole set before and after."""
        held = set(now['fixVersion'] or ())
        found = []
        for changed in reversed(items):
            after, others = set(held), [it for it in changed if it[0] != 'fixVersion']
            for _, gone, came in reversed([it for it in changed if it[0] == 'fixVersion']):
                held.discard(came)
                if gone:
                    held.add(gone)
            if len(others) < len(changed):
                others.append(('fixVersion', versions(held), versions(after)))
            found.append(merged(others))
        return found[::-1]

    def project(self, key):
        name = key.rpartition('-')[0]
        here = self.projects.get(name, name)
        if not (here.isascii() and here.isalpha() and here.isupper() and 2 <= len(here) <= 10):
            raise Bad(f'the project {name} needs another key, of 2 to 10 letters A to Z: --project {name}=KEY')
        return here

    def author(self, raw):
        return self.user(raw) or self.users.name('', 'nobody')

    def user(self, raw):
        """The name here of a user of Jira, whom a server knows by name and key, and the cloud by an account."""
        if not isinstance(raw, dict):
            return None
        ident = raw.get('accountId') or raw.get('key') or raw.get('name')
        return self.users.name(str(ident), raw.get('name'), raw.get('emailAddress'), raw.get('displayName')) if ident else None

    def plain(self, key, value):
        """A description as text. Version 3 gives a document, whose texts are taken without their form."""
        if not isinstance(value, dict):
            return value
        self.left.note('descriptions whose form is lost', key)
        return '\n'.join(''.join(texts(block)) for block in value.get('content', []))

    def count(self, key, fields):
        """What has no place here: each field that holds anything and is none of those that have one."""
        for field, held in fields.items():
            number = how_many(held)
            if number and field not in DERIVED and field != self.points_field():
                self.left.note(CALLED.get(field) or f'values of {self.names.get(field, field)}', key, number)


def how_many(held):
    """How many things a field holds: those of a list, or of one that Jira gives in pages, or one."""
    if isinstance(held, list):
        return len(held)
    if isinstance(held, dict):
        inner = next((held[name] for name in ('comments', 'worklogs') if isinstance(held.get(name), list)), None)
        if inner is not None:
            return max(len(inner), held.get('total') or 0)
        return held['votes'] if isinstance(held.get('votes'), int) else bool(held)
    return 0 if held in (None, '', False) else 1


def merged(items):
    """The items of one change, of which each field has one, from its first value to its last."""
    found = {}
    for field, before, after in items:
        found[field] = (found[field][0] if field in found else before, after)
    return [(field, before, after) for field, (before, after) in found.items()]


def versions(names):
    return sorted({name for name in map(fitting.name, names) if name}) or None


def resolution(text):
    """A resolution; Jira shows none as Unresolved, which is no value here."""
    name = fitting.name(text)
    return None if name and name.lower() == 'unresolved' else name


def texts(block):
    """The texts in a part of a document."""
    if isinstance(block, dict):
        if block.get('type') == 'hardBreak':
            yield '\n'
        if isinstance(block.get('text'), str):
            yield block['text']
        for part in block.get('content') or []:
            yield from texts(part)


def id_of(history):
    """The number of a change, which are given one after another."""
    text = str(history.get('id', ''))
    return int(text) if text.isdigit() else 0


def instant(text, key):
    """A moment of Jira's, as 2024-03-01T09:00:00.000+0100, in seconds."""
    for form in ('%Y-%m-%dT%H:%M:%S.%f%z', '%Y-%m-%dT%H:%M:%S%z'):
        try:
            return in_time(datetime.datetime.strptime(str(text), form).timestamp(), text, key)
        except ValueError:
            continue
    raise Bad(f'{key}: {text!r} is no moment')
