"""A tracker as the commands ask it: answers in pages put together, and what the server doesn't know made of what it does."""
from . import refusals
from .trouble import Refused, UnknownCall

PAGE = 1_000  # what search, filter, board and burndown give at most
HISTORY_PAGE = 50
LIST_PAGE = 100


class Tracker:
    """Calls over a connection, by a user."""

    def __init__(self, connection):
        self.connection = connection
        self.user = connection.user
        self.unknown = set()
        self.described = None

    def ask(self, call, **members):
        """What stands under `ok` in the reply to a call, whose members that are None are left out."""
        members = {name: value for name, value in members.items() if value is not None}
        if call in self.unknown:
            raise UnknownCall(call)
        reply = self.connection.call(call, members)
        if 'ok' in reply:
            return reply['ok']
        refusal = reply.get('refused', {})
        if refusal.get('no') == 1 and refusal.get('member') == 'call':
            self.unknown.add(call)
            raise UnknownCall(call)
        raise Refused(refusal, refusals.words(refusal, {'call': call, **members}, self.user, self.rule))

    def setup(self):
        """What the call `describe` tells, or None where the tracker doesn't know it."""
        if self.described is None and 'describe' not in self.unknown:
            try:
                self.described = self.ask('describe')
            except UnknownCall:
                return None
        return self.described

    def rule(self, transition, kind, index):
        """The text of a transition's condition or validator, where the tracker tells it."""
        for found in (self.setup() or {}).get('transitions', []):
            if found['transition'].lower() == str(transition).lower():
                rules = found.get(kind, [])
                return rules[index - 1] if 0 < index <= len(rules) else None
        return None

    def pages(self, call, name, page, limit=None, start=0, **members):
        """The items under a name, from all pages of a call, up to a limit, and their total."""
        found, total = [], None
        while limit is None or len(found) < limit:
            count = page if limit is None else min(page, limit - len(found))
            came = self.ask(call, **{'from': start + len(found)}, count=count, **members)
            found += came[name]
            total = came['total']
            if not came[name] or start + len(found) >= total:
                break
        return found, 0 if total is None else total

    def keys(self, jql, limit=None):
        """The keys that a search finds, and how many there are."""
        return self.pages('search', 'issues', PAGE, limit, jql=jql)

    def issues(self, jql, limit=None, fields=None):
        """The issues that a search finds with their fields, and how many there are: by `list`, or else by a show of each."""
        try:
            return self.pages('list', 'issues', LIST_PAGE, limit, jql=jql, fields=fields)
        except UnknownCall:
            keys, total = self.keys(jql, limit)
            return self.shown(keys), total

    def shown(self, keys):
        """These issues in this order; one that has meanwhile gone out of sight is left out."""
        found = []
        for key in keys:
            try:
                found.append(self.ask('show', issue=key))
            except Refused as refused:
                if refused.number not in (2, 3):
                    raise
        return found

    def history(self, key):
        return self.pages('history', 'entries', HISTORY_PAGE, issue=key)[0]

    def burndown(self, sprint):
        """A whole burndown: its rows are taken page by page, and the rest is that of the last page."""
        rows = []
        while True:
            came = self.ask('burndown', sprint=sprint, **{'from': len(rows)}, count=PAGE)
            rows += came['rows']
            if not came['rows'] or len(rows) >= came['total']:
                return {**came, 'rows': rows}

    def board(self, board, limit):
        """The columns of a board, with the first issues by rank."""
        came = self.ask('board', board=board, count=min(limit, PAGE))
        return came['columns'], came['total']

    def close(self):
        self.connection.close()
