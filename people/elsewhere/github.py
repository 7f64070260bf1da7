"""GitHub's issues, as its REST interface gives them (`/repos/OWNER/NAME/issues?state=all`), with the events of their timelines."""
import datetime

from . import fitting
from .past import Bad, Change, Issue, in_time, rewound, unexplained

OPEN, CLOSED = 'Open', 'Closed'
REASONS = {'completed': 'Completed', 'not_planned': 'Not planned', 'duplicate': 'Duplicate'}
# Events that change a field that has a place here.
TAKEN = {'closed', 'reopened', 'assigned', 'unassigned', 'labeled', 'unlabeled', 'milestoned', 'demilestoned', 'renamed'}
CALLED = {'commented': 'comments', 'cross-referenced': 'mentions by other issues', 'referenced': 'mentions by commits'}


class Reader:
    """Reads issues. Their events stand in a member `timeline` or `events` of each, or in a list of their own, as a repository gives it."""

    def __init__(self, users, left, project=None, kinds=None):
        self.users, self.left, self.project_key, self.kinds = users, left, project, kinds or {}
        self.priorities, self.categories = {}, {OPEN: 'todo', CLOSED: 'done'}
        if not project or not (project.isascii() and project.isalpha() and project.isupper() and 2 <= len(project) <= 10):
            raise Bad('GitHub has no keys of projects: --project KEY names one, of 2 to 10 letters A to Z')

    def read(self, documents):
        """The issues of all documents, each once."""
        raws, events = {}, {}
        for name, document in documents:
            if not isinstance(document, list):
                raise Bad(f'{name} is no list of issues or events')
            for raw in document:
                if not isinstance(raw, dict):
                    raise Bad(f'{name} is no list of issues or events')
                if 'event' in raw and isinstance(raw.get('issue'), dict):
                    events.setdefault(raw['issue'].get('number'), []).append(raw)
                elif 'number' in raw and 'title' in raw:
                    raws.setdefault(raw['number'], raw)
                else:
                    raise Bad(f'{name}: neither an issue nor an event of one')
        found = []
        for number in sorted(raws):
            if raws[number].get('pull_request'):
                self.left.note('pull requests', self.external(raws[number]))
            else:
                found.append(self.issue(raws[number], events.get(number, [])))
        return found

    def external(self, raw):
        """What the issue is called elsewhere: OWNER/NAME#NUMBER, or as much of it as an external id holds."""
        place = str(raw.get('repository_url') or raw.get('html_url') or '')
        parts = place.partition('/repos/')[2] or place.partition('github.com/')[2]
        name = '/'.join(parts.split('/')[:2])
        return (f'{name}#{raw["number"]}' if name else f'#{raw["number"]}')[-64:]

    def issue(self, raw, events):
        where = self.external(raw)
        past = raw.get('timeline', raw.get('events'))
        past = [it for it in (past if isinstance(past, list) else []) + events if isinstance(it, dict)]
        past = sorted({(it.get('event'), it.get('id', f'at {at}')): it for at, it in enumerate(past)}.values(), key=lambda it: str(it.get('created_at') or ''))
        if not past and raw.get('state') != 'open':
            self.left.note('issues without events: they come without a past', where)
        created = moment_of(raw.get('created_at'), where)
        taken = [event for event in past if self.takes(event, where)]
        now = self.present(raw, where)
        items = self.items(raw, taken, where)
        first = rewound(now, items)
        issue = Issue(where, self.project_key, created, self.author(raw.get('user')), first)
        for event, changed in zip(taken, items):
            if changed:
                issue.changes.append(Change(max(moment_of(event['created_at'], where), created), self.author(event.get('actor')),
                                            {field: after for field, _, after in changed}))
        if late := unexplained(now, first, items):
            self.left.note('values that no event explains, set at the end', f'{where}: {", ".join(sorted(late))}', len(late))
            last = max([moment_of(raw.get('closed_at') or raw.get('updated_at') or raw['created_at'], where)] +
                       [change.moment for change in issue.changes])
            issue.changes.append(Change(last, self.author(raw.get('closed_by') or raw.get('user')), late))
        self.count(raw, past, where)
        return issue

    def present(self, raw, where):
        """The present values, of all fields that have a place here."""
        closed = raw.get('state') == 'closed'
        kind = raw.get('type') or {}
        names = [label_name(it) for it in raw.get('labels') or []]
        return {
            'summary': fitting.summary(raw.get('title'), self.left, where),
            'description': fitting.description(raw.get('body'), self.left, where),
            'type': self.kind(names, kind.get('name') if isinstance(kind, dict) else None),
            'status': CLOSED if closed else OPEN,
            'assignee': next(iter(self.assignees(raw)), None),
            'reporter': self.author(raw.get('user')),
            'resolution': REASONS.get(raw.get('state_reason') or 'completed', 'Completed') if closed else None,
            'fixVersion': version(raw.get('milestone')),
            'labels': fitting.labels(names, self.left, where),
        }

    def kind(self, labels, name):
        """The type: what GitHub calls it, or what --type says of one of its labels, or Issue."""
        return fitting.name(name) or next((self.kinds[label] for label in labels if label in self.kinds), 'Issue')

    def assignees(self, raw):
        people = raw.get('assignees') or ([raw['assignee']] if raw.get('assignee') else [])
        return [self.author(it) for it in people]

    def takes(self, event, where):
        """Whether an event changes a field here; others are counted."""
        name = str(event.get('event', 'an event without a name'))
        if name in TAKEN and event.get('created_at'):
            return True
        if name != 'commented':
            self.left.note(CALLED.get(name, f'events "{name}"'), where)
        return False

    def items(self, raw, events, where):
        """For each event what it changed, as (field, before, after). Of several who have an issue the first one is told here."""
        names, people = {label_name(it) for it in raw.get('labels') or []}, self.assignees(raw)
        found = []
        for event in reversed(events):
            found.append(self.undone(event, names, people, where))
        return self.closings(found[::-1])

    def undone(self, event, names, people, where):
        """What an event changed, where labels and people are those after it, and become those before it."""
        what = event['event']
        if what in ('labeled', 'unlabeled'):
            after = fitting.labels(names, self.left, where)
            (names.discard if what == 'labeled' else names.add)(label_name(event.get('label')))
            return [('labels', fitting.labels(names, self.left, where), after)]
        if what in ('assigned', 'unassigned'):
            after, who = next(iter(people), None), self.author(event.get('assignee'))
            if len(people) > 1:
                self.left.once('people beside the one who has an issue', f'{where}: {", ".join(people[1:])}')
            if what == 'assigned':
                people[:] = [it for it in people if it != who]
            elif who not in people:
                # Who went had it first, as far as is known.
                people.insert(0, who)
            before = next(iter(people), None)
            return [('assignee', before, after)] if before != after else []
        if what in ('milestoned', 'demilestoned'):
            held = version(event.get('milestone'))
            return [('fixVersion', None, held) if what == 'milestoned' else ('fixVersion', held, None)]
        if what == 'renamed':
            both = event.get('rename') or {}
            return [('summary', *(fitting.summary(both.get(side), self.left, where) for side in ('from', 'to')))]
        reason = REASONS.get(event.get('state_reason') or 'completed', 'Completed')
        return [('status', OPEN, CLOSED), ('resolution', None, reason)] if what == 'closed' else [('status', CLOSED, OPEN), ('resolution', reason, None)]

    @staticmethod
    def closings(found):
        """An issue that is reopened had the resolution with which it was closed, which the event doesn't tell."""
        held = None
        for changed in found:
            for at, (field, before, after) in enumerate(changed):
                if field == 'resolution':
                    changed[at] = (field, held, after)
                    held = after
        return found

    def author(self, raw):
        """The name here of a user; GitHub calls one that is gone ghost."""
        login = raw.get('login') if isinstance(raw, dict) else None
        return self.users.name(login or 'ghost')

    def count(self, raw, past, where):
        """What has no place here."""
        comments = max(raw.get('comments') or 0, sum(it.get('event') == 'commented' for it in past))
        if comments:
            self.left.note(CALLED['commented'], where, comments)
        reactions = (raw.get('reactions') or {}).get('total_count') or 0
        if reactions:
            self.left.note('reactions', where, reactions)
        if raw.get('locked'):
            self.left.note('locks of conversations', where)
        below = (raw.get('sub_issues_summary') or {}).get('total') or 0
        if below:
            self.left.note('sub-issues (they come as issues, and not below one)', where, below)
        if raw.get('body'):
            self.left.note('descriptions that are told as they are now from the beginning on (GitHub gives no past of them)', where)


def label_name(raw):
    return str(raw.get('name', '')) if isinstance(raw, dict) else str(raw)


def version(raw):
    """A milestone as a version."""
    name = fitting.name(raw.get('title')) if isinstance(raw, dict) else None
    return [name] if name else None


def moment_of(text, where):
    """A moment of GitHub's, as 2024-03-01T09:00:00Z, in seconds."""
    try:
        found = datetime.datetime.fromisoformat(str(text).replace('Z', '+00:00'))
    except ValueError:
        raise Bad(f'{where}: {text!r} is no moment') from None
    if found.tzinfo is None:
        raise Bad(f'{where}: {text!r} has no offset')
    return in_time(found.timestamp(), text, where)
