"""The team of the page's day: what it did in the nine days before, as request lines."""
import time

DAY = 86_400
SPRINT = 'December, first half'
ISSUES = [
    ('anna', 'Task', 'Sign people in by the company’s directory', {'points': '5', 'priority': 'High', 'labels': ['login']}),
    ('anna', 'Bug', 'A crash on start where the settings file is empty', {'points': '3', 'priority': 'High', 'labels': ['settings']}),
    ('bo', 'Task', 'Write the guide for new people', {'points': '2', 'labels': ['docs']}),
    ('bo', 'Bug', 'Search is slow with many labels', {'points': '3', 'priority': 'Medium', 'labels': ['search', 'speed']}),
    ('anna', 'Task', 'Dark colours for the settings', {'points': '2', 'priority': 'Low', 'labels': ['settings', 'ui']}),
    ('root', 'Bug', 'The import of old issues loses their dates', {'points': '3', 'priority': 'High', 'labels': ['import']}),
    ('bo', 'Task', 'A mail when an issue is assigned', {'points': '5', 'labels': ['mail']}),
    ('anna', 'Task', 'Keys for everything on the board', {'points': '3', 'priority': 'Medium', 'labels': ['board', 'ui']}),
    ('root', 'Task', 'Export with chosen columns', {'labels': ['export']}),
    ('bo', 'Bug', 'The login page forgets where one wanted to go', {'points': '1', 'priority': 'Medium', 'labels': ['login']}),
    ('anna', 'Bug', 'A total is wrong after the clock goes back', {'priority': 'Medium'}),
    ('root', 'Task', 'Move the old branches to the archive', {'priority': 'Low'}),
]
DUE = {1: 2, 4: -1, 6: 5, 8: 9, 11: -2}


def day_text(moment):
    return time.strftime('%Y-%m-%d', time.gmtime(moment))


def past(now):
    """The lines, from nine days before `now` up to it."""
    begin = now - 9 * DAY
    yield {'user': 'root', 'call': 'tick', 'to': begin}
    for number, (user, kind, summary, values) in enumerate(ISSUES, 1):
        given = values | ({'due': day_text(now + DUE[number] * DAY)} if number in DUE else {})
        yield {'user': user, 'call': 'create', 'project': 'OPS', 'type': kind, 'summary': summary, 'set': given}
    yield {'user': 'anna', 'call': 'edit', 'issue': 'OPS-1', 'set': {'description': DESCRIPTION}}
    yield {'user': 'anna', 'call': 'make_sprint', 'name': SPRINT}
    for number in (1, 2, 3, 4, 5, 6, 7):
        yield {'user': 'anna', 'call': 'edit', 'issue': f'OPS-{number}', 'set': {'sprint': 1}}
    yield {'user': 'anna', 'call': 'start_sprint', 'sprint': 1}
    for days, lines in WORK:
        yield {'user': 'root', 'call': 'tick', 'to': begin + int(days * DAY)}
        for user, call, issue, rest in lines:
            yield {'user': user, 'call': call, 'issue': issue, **rest}
    yield {'user': 'anna', 'call': 'save_filter', 'name': 'Everything', 'jql': 'ORDER BY updated DESC'}
    yield {'user': 'anna', 'call': 'save_filter', 'name': 'Mine', 'jql': 'assignee = currentUser() AND resolution = Unresolved ORDER BY priority DESC'}
    yield {'user': 'anna', 'call': 'save_filter', 'name': 'Late', 'jql': 'due < startOfDay() AND resolution = Unresolved'}
    yield {'user': 'bo', 'call': 'save_filter', 'name': 'In no sprint', 'jql': 'sprint IS EMPTY ORDER BY rank'}
    for name, number in (('The team', 1), ('What is late', 3), ('To be planned', 4)):
        yield {'user': 'anna', 'call': 'make_board', 'name': name, 'filter': number}
    for name in ('A day of mending', 'December, the rest', 'January'):
        yield {'user': 'anna', 'call': 'make_sprint', 'name': name}
    for call in ('start_sprint', 'close_sprint'):
        yield {'user': 'anna', 'call': call, 'sprint': 2}


DESCRIPTION = """People should not need a password of their own here.

- Ask the directory once a day, and keep the answer.
- Whoever left is signed out within the hour."""

WORK = [
    (0.4, [('bo', 'transition', 'OPS-3', {'transition': 'Start'}), ('anna', 'transition', 'OPS-2', {'transition': 'Start'})]),
    (1.2, [('bo', 'transition', 'OPS-3', {'transition': 'Finish'})]),
    (2.3, [('anna', 'transition', 'OPS-2', {'transition': 'Review'}), ('bo', 'transition', 'OPS-4', {'transition': 'Start'})]),
    (3.1, [('anna', 'transition', 'OPS-2', {'transition': 'Finish'})]),
    (3.8, [('anna', 'edit', 'OPS-8', {'set': {'sprint': 1, 'assignee': 'anna'}})]),
    (4.6, [('bo', 'transition', 'OPS-4', {'transition': 'Review'}), ('root', 'transition', 'OPS-6', {'transition': 'Start'})]),
    (5.5, [('anna', 'transition', 'OPS-4', {'transition': 'Finish'}), ('anna', 'transition', 'OPS-1', {'transition': 'Start'})]),
    (7.2, [('root', 'transition', 'OPS-6', {'transition': 'Review'}), ('bo', 'edit', 'OPS-1', {'set': {'assignee': 'bo'}})]),
    (8.1, [('anna', 'transition', 'OPS-6', {'transition': 'Finish'}), ('bo', 'transition', 'OPS-7', {'transition': 'Start'})]),
]

# Another team, whose fields have names that a page might stumble over.
OTHER_TEAM = r"""
utc_offset_minutes = 120
week_starts = "monday"
rebalancer = "ines"
users = ["ines", "jan", "kim"]
types = ["Story", "Bug"]
priorities = ["Blocker", "Major", "Minor"]
resolutions = ["Done", "Won't do"]
versions = ["1.0"]
first_status = "New"
plan = ["devs"]
administer = ["devs"]
group = [{ name = "devs", members = ["ines", "jan"] }, { name = "support", members = ["kim"] }]
status = [{ name = "New", category = "todo" }, { name = "Being done", category = "progress" }, { name = "Ready", category = "done" }]
project = [
    { key = "APP", lead = "ines", browse = ["devs"], create = ["devs"], edit = ["devs"], transition = ["devs"], rank = ["devs"] },
    { key = "HELP", lead = "jan", browse = ["devs", "support"], create = ["devs", "support"], edit = ["devs"], transition = ["devs", "support"], rank = ["devs"] },
]
field = [
    { number = 10000, name = "constructor", kind = "choice", options = ["left", "right"] },
    { number = 10001, name = "Size \"big\", or <b>wide</b>", kind = "number" },
    { number = 10002, name = "__proto__", kind = "text" },
    { number = 10003, name = "Tester", kind = "user" },
    { number = 10004, name = "Seen on", kind = "date" },
]
transition = [
    { name = "Begin", from = ["New"], to = "Being done", validators = ["required:Tester", "due"], post = ["assign:caller"] },
    { name = "Begin by the lead", from = ["New"], to = "Being done", conditions = ["permission:edit"], post = ["assign:lead"] },
    { name = "Done", from = ["Being done"], to = "Ready", conditions = ["any:assignee|reporter|group:devs"], validators = ["changed:constructor"], post = ["resolution:Done", "set:points=1"] },
    { name = "Again", from = ["Ready"], to = "New", post = ["clear:resolution"] },
]
"""
ODD_VALUES = {'constructor': 'left', 'Size "big", or <b>wide</b>': '-2.5', '__proto__': 'two words', 'Tester': 'kim', 'Seen on': '2024-03-15'}
