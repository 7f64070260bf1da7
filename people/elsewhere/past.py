"""What was elsewhere, in one form for all trackers it comes from: issues with first values, and their changes."""


class Issue:
    """An issue: what it was when it was made, by whom, and its changes in their order. Moments are seconds with their parts."""

    def __init__(self, external, project, moment, author, first):
        self.external, self.project, self.moment, self.author, self.first = external, project, moment, author, first
        self.changes = []
        self.key = None  # what it is called here, once all issues stand in their order


class Change:
    """A change by one author at one moment: the new values of fields, of which one that was emptied is None."""

    def __init__(self, moment, author, values):
        self.moment, self.author, self.values = moment, author, values


class Left:
    """What has no place here, or came otherwise than it was: counted by its kind, and listed with where it was."""

    LISTED = 1_000  # lines of a kind in the report; all are counted

    def __init__(self):
        self.kinds, self.told = {}, set()

    def once(self, kind, where):
        """Notes what may be met several times, as a text that stands in an issue and in its changes."""
        if (kind, where) not in self.told:
            self.told.add((kind, where))
            self.note(kind, where)

    def note(self, kind, where, count=1):
        number, places = self.kinds.setdefault(kind, (0, []))
        if len(places) < self.LISTED:
            places.append(where)
        self.kinds[kind] = (number + count, places)

    def lines(self):
        """A line for each kind with its count, and below it where these were."""
        for kind in sorted(self.kinds):
            number, places = self.kinds[kind]
            yield f'{number:6}  {kind}'
            for place in places:
                yield f'            {place}'

    def counts(self):
        return [f'{number:6}  {kind}' for kind, (number, _) in sorted(self.kinds.items())]


class Bad(Exception):
    """A file that can't be read as what it should be, or something that a tracker can't hold at all."""


def rewound(now, changes):
    """The first values of an issue, from its present ones: of each field what it was before its first change.

    `changes` are in their order, each a list of (field, before, after)."""
    first = dict(now)
    for change in reversed(changes):
        for field, before, _ in change:
            first[field] = before
    return first


def unexplained(now, first, changes):
    """The fields that after all changes would be others than they are now, with their present values."""
    at_end = dict(first)
    for change in changes:
        for field, _, after in change:
            at_end[field] = after
    return {field: value for field, value in now.items() if at_end.get(field) != value}


def in_time(moment, text, where):
    """A moment, if a tracker can hold it."""
    if not 0 <= moment < 4_102_444_800:
        raise Bad(f'{where}: {text} does not lie between 1970 and 2099')
    return moment
