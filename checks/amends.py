#!/usr/bin/env python3
"""Gives a tracker's file other setups, one case at a time, and looks at what comes of its rows.

usage: python3 checks/amends.py PROGRAM

PROGRAM is the built tracker, as crates/tracker/out/tracker. One file is made by `init` and `exec` with the setup, the lines and the rows of
checks/bad_rows.py. Each case is a copy of it, to which `amend` gives a setup whose text is that one with some pieces changed. Where it ends
with status 0, the rows of the setup and of groups have to be those that stand beside the case, all others as before, and every issue has to
tell the same to `show` and `history` and to be found by new names; in all other cases the text that was written has to be that beside the
case, and all rows as before. Then come a store without rows, rows of the first format, inputs that are too long, words behind the word, and
texts that are no setups, of each of which a line or a table is told on standard error, or nothing.
Each difference is told, and the status is 1. The last line counts the cases.
"""
import contextlib
import datetime
import itertools
import json
import os
import pathlib
import shutil
import sqlite3
import subprocess
import sys
import tempfile
import zoneinfo

import bad_rows
from bad_rows import GOOD, SETUP

GROUPS = {1: ['anna', 'bo', 'root'], 2: ['anna', 'root'], 3: ['bo', 'cy']}
ISSUES = ('OPS-1', 'OPS-2', 'OPS-3', 'WEB-1', 'WEB-2')


def run(program, store, word, given=b'', *more):
    """The status, and what was written to standard output."""
    ran = subprocess.run([program, store, word, *more], input=given, stdout=subprocess.PIPE, stderr=subprocess.DEVNULL)
    return ran.returncode, ran.stdout.decode()


def rows_of(store):
    with contextlib.closing(sqlite3.connect(store)) as base:
        return {(kind, no): body for kind, no, body in base.execute('SELECT kind, no, body FROM kept')}


def lines(*calls):
    return ''.join(json.dumps({'user': user, 'call': call, **members}) + '\n' for user, call, members in calls).encode()


def told(program, store):
    """What anna is told of each issue: its present values, and its history."""
    calls = [('anna', call, {'issue': issue}) for issue in ISSUES for call in ('show', 'history')]
    status, text = run(program, store, 'exec', lines(*calls))
    assert status == 0 and '"refused"' not in text, (status, text)
    return text


def steps(zone, first, last):
    """The steps of a zone's clocks between two years, as tables of a setup."""
    hours = (datetime.datetime(first, 1, 1, tzinfo=datetime.UTC) + datetime.timedelta(hours=n) for n in range((last - first) * 8766))
    offsets = [(int(hour.timestamp()), hour.astimezone(zoneinfo.ZoneInfo(zone)).utcoffset().seconds // 60) for hour in hours]
    return [f'[[offset]]\nfrom = {at}\nminutes = {minutes}\n' for (_, before), (at, minutes) in zip(offsets, offsets[1:]) if before != minutes]


def swapped(*pieces):
    """The setup with pieces of its text changed; each is there once."""
    text = SETUP
    for old, new in pieces:
        assert text.count(old) == 1, old
        text = text.replace(old, new)
    return text


def good():
    """What is shown, the setup's text, the groups' members then, and a call that only the new setup answers, or None."""
    yield 'the same setup', SETUP, GROUPS, None
    yield ('a new user', swapped(('"cy", "root"]', '"cy", "dora", "root"]')), GROUPS,
           ('anna', 'edit', {'issue': 'OPS-1', 'set': {'assignee': 'dora'}}))
    yield ('a new user before all others', swapped(('["anna", "bo", "cy", "root"]', '["aaron", "anna", "bo", "cy", "root"]')), GROUPS,
           ('anna', 'search', {'jql': 'reporter = anna AND assignee != aaron'}))
    yield ('users in another order', swapped(('["anna", "bo", "cy", "root"]', '["root", "cy", "bo", "anna"]')),
           {1: ['root', 'bo', 'anna'], 2: ['root', 'anna'], 3: ['cy', 'bo']}, ('anna', 'search', {'jql': 'reporter = bo'}))
    yield ('a new version', swapped(('["1.0", "1.1"]', '["1.0", "1.1", "2.0"]')), GROUPS,
           ('anna', 'edit', {'issue': 'OPS-1', 'set': {'fixVersion': ['2.0']}}))
    yield ('a new status and a transition to it', swapped(
        ('  { name = "Done", category = "done" },', '  { name = "In review", category = "progress" },\n  { name = "Done", category = "done" },'),
        ('to = "Done" },', 'to = "Done" },\n  { name = "Review", from = ["In Progress"], to = "In review" },')), GROUPS,
        ('anna', 'transition', {'issue': 'OPS-1', 'transition': 'Review'}))
    yield ('a new field', swapped(('kind = "number" },', 'kind = "number" },\n  { number = 10003, name = "Tester", kind = "user" },')), GROUPS,
           ('anna', 'edit', {'issue': 'OPS-1', 'set': {'Tester': 'cy'}}))
    yield ('fields in another order, with other numbers', swapped(
        ('number = 10001, name = "Area"', 'number = 10007, name = "Area"'), ('number = 10002, name = "Effort"', 'number = 10009, name = "Effort"')),
        GROUPS, ('anna', 'search', {'jql': 'cf[10007] = North'}))
    yield ('a priority between two', swapped(('"High", "Medium"', '"High", "Raised", "Medium"')), GROUPS,
           ('anna', 'edit', {'issue': 'OPS-1', 'set': {'priority': 'Raised'}}))
    yield ('a renamed group has the text\'s members', swapped(('name = "guests", members = ["cy"]', 'name = "visitors", members = ["cy"]')),
           {**GROUPS, 3: ['cy']}, ('anna', 'search', {'jql': 'reporter IN membersOf(visitors)'}))
    yield ('a group in other letters keeps its members', swapped(('name = "guests", members = ["cy"]', 'name = "Guests", members = []')), GROUPS,
           ('anna', 'search', {'jql': 'reporter IN membersOf(guests)'}))
    yield ('a new group among the others', swapped(('  { name = "guests"', '  { name = "leads", members = ["bo"] },\n  { name = "guests"')),
           {1: GROUPS[1], 2: GROUPS[2], 3: ['bo'], 4: GROUPS[3]}, None)
    yield ('a group that is gone', swapped(('  { name = "guests", members = ["cy"] },\n', '')), {1: GROUPS[1], 2: GROUPS[2]}, None)
    yield ('a user who is gone, whom no row names', swapped(('"cy", "root"]', '"root"]'), ('members = ["cy"]', 'members = []')), {**GROUPS, 3: ['bo']}, None)
    yield ('what no row names is gone', swapped(('"High", "Medium", "Low"', '"Low"'), ('"Fixed", "Declined"', '"Declined"')), GROUPS, None)
    yield ('a field of another kind', swapped(('name = "Area", kind = "choice", options = ["North", "South"]', 'name = "Area", kind = "text"')), GROUPS,
           ('anna', 'search', {'jql': 'Area ~ north'}))
    yield ('a closed project', swapped(('key = "WEB", lead = "bo", browse = ["team"], create = ["team"], edit = ["team"], transition = ["team"], rank = ["team"]',
                                        'key = "WEB", lead = "bo", browse = ["team"], create = [], edit = [], transition = [], rank = []')), GROUPS, None)
    yield ('other rules', swapped(('to = "Done" },', 'to = "Done", validators = ["required:resolution"] },')), GROUPS, None)
    yield ('the next ten years\' steps of the clocks', SETUP.replace('utc_offset_minutes = 0', 'utc_offset_minutes = 60')
           + ''.join(steps('Europe/Berlin', 2026, 2036)), GROUPS, None)


def refused():
    """What is shown, the setup's text, and the status and text that are due."""
    yield 'a user who made an issue', swapped(('["anna", "bo", "cy", "root"]', '["anna", "cy", "root"]'), ('["root", "bo", "anna"]', '["root", "anna"]'),
                                              ('lead = "bo"', 'lead = "anna"')), 5, 'kept 3 3\n'
    yield 'a status that an issue is in', swapped(('{ name = "In Progress"', '{ name = "Busy"'), ('to = "In Progress"', 'to = "Busy"'),
                                                  ('from = ["In Progress"]', 'from = ["Busy"]')), 5, 'kept 4 4\n'
    yield 'a status that an issue was in', swapped(('{ name = "Open"', '{ name = "New"'), ('first_status = "Open"', 'first_status = "New"'),
                                                   ('from = ["Open"]', 'from = ["New"]')), 5, 'kept 3 1\n'
    yield 'an option that an issue has', swapped(('["North", "South"]', '["South"]')), 5, 'kept 3 1\n'
    yield 'a version that an issue has', swapped(('["1.0", "1.1"]', '["1.0"]')), 5, 'kept 3 1\n'
    yield 'a name in other letters', swapped(('"Task", "Bug"', '"task", "Bug"')), 5, 'kept 3 1\n'
    yield 'a project with issues', swapped(('key = "WEB"', 'key = "NET"')), 5, 'kept 3 2\n'
    yield 'a field that an issue has', swapped(('name = "Effort"', 'name = "Cost"')), 5, 'kept 3 1\n'
    yield 'versions in another order than a row has them', swapped(('["1.0", "1.1"]', '["1.1", "1.0"]')), 5, 'kept 3 1\n'
    yield 'no TOML', 'nonsense', 8, 'setup 1\n'
    yield 'a user who comes twice', swapped(('"cy", "root"]', '"cy", "cy", "root"]')), 8, 'setup 3 cy\n'
    yield 'a key that is missing', swapped(('week_starts = "monday"\n', '')), 8, 'setup 2 week_starts\n'
    yield 'too long', '#' * 1_048_577, 7, 'limit input\n'


def placed():
    """What is shown, a text that is no setup, its fault, and what is written on standard error."""
    lines = SETUP.split('\n')
    yield 'no TOML in line 7', '\n'.join([*lines[:6], '=', *lines[6:]]), 'setup 1\n', 'line 7\n'
    yield 'no UTF-8 in line 3', '\n'.join([*lines[:2], '# \udcff', *lines[2:]]), 'setup 1\n', 'line 3\n'
    yield 'a text cut off', SETUP[:SETUP.index('"cy"')], 'setup 1\n', 'line 4\n'
    yield 'the second project', swapped(('key = "WEB", lead = "bo", ', 'key = "WEB", ')), 'setup 2 lead\n', 'project 2\n'
    yield 'the third group', swapped(('name = "guests", members = ["cy"]', 'name = "guests"')), 'setup 2 members\n', 'group 3\n'
    yield 'a transition from nowhere', swapped(('from = ["In Progress"]', 'from = []')), 'setup 2 from\n', 'transition 2\n'
    yield 'a choice without options', swapped((', options = ["North", "South"]', '')), 'setup 2 options\n', 'field 1\n'
    yield 'a wrong type', swapped(('key = "WEB"', 'key = 5')), 'setup 6 key\n', ''
    yield 'a key of the top table', swapped(('week_starts = "monday"\n', '')), 'setup 2 week_starts\n', ''
    yield 'an empty text', '', 'setup 2 utc_offset_minutes\n', ''
    yield 'a setup', SETUP, '', ''
    yield 'a text past the limit', '#' * 1_048_577, 'limit input\n', ''
    yield 'no TOML behind a line as long as may be', '#' * 1_048_574 + '\n=', 'setup 1\n', 'line 2\n'


class Cases:
    def __init__(self, program, room):
        self.program, self.room, self.count, self.wrong = program, room, 0, 0
        self.first = f'{room}/first.db'
        assert run(program, self.first, 'init', SETUP.encode())[0] == 0
        assert run(program, self.first, 'exec', lines(*bad_rows.LINES))[0] == 0
        self.told = told(program, self.first)
        self.rows = rows_of(self.first)
        assert self.rows == GOOD

    def compare(self, about, got, wanted):
        if got != wanted:
            self.wrong += 1
            print(f'{about}: {got!r}, and not {wanted!r}')

    def copy(self):
        self.count += 1
        store = f'{self.room}/{self.count}.db'
        for ending in ('', '-wal'):
            if os.path.exists(self.first + ending):
                shutil.copyfile(self.first + ending, store + ending)
        return store

    def good(self, about, text, groups, call):
        store = self.copy()
        self.compare(about, run(self.program, store, 'amend', text.encode()), (0, ''))
        members = {(10, no): json.dumps({'members': them}, separators=(',', ':')) for no, them in groups.items()}
        stay = {key: body for key, body in self.rows.items() if key[0] not in (1, 10)}
        self.compare(f'{about}: rows', rows_of(store), {(1, 0): text, **stay, **members})
        self.compare(f'{about}: issues', told(self.program, store), self.told)
        if call is not None:
            status, answer = run(self.program, store, 'exec', lines(call))
            self.compare(f'{about}: {call}', (status, answer[:6]), (0, '{"ok":'))

    def refused(self, about, text, status, written):
        store = self.copy()
        self.compare(about, run(self.program, store, 'amend', text.encode()), (status, written))
        self.compare(f'{about}: rows', rows_of(store), self.rows)
        self.compare(f'{about}: issues', told(self.program, store), self.told)

    def placed(self, about, text, written, place):
        """By both words, over a file and in memory: each has its status as it is told by what is written."""
        self.count += 1
        given = text.encode(errors='surrogateescape')
        status = {'': 0, 'limit input\n': 7}.get(written, 8)
        for word, store in itertools.product(('init', 'amend'), (':memory:', None)):
            ran = subprocess.run([self.program, store or f'{self.room}/{self.count}-{word}.db', word], input=given, capture_output=True)
            self.compare(f'{about}: {word}', (ran.returncode, ran.stdout.decode(), ran.stderr.decode()), (status, written, place))

    def filters(self):
        """A filter that asks for what is gone, though no issue has it."""
        store = self.copy()
        status, answer = run(self.program, store, 'exec', lines(('anna', 'save_filter', {'name': 'low', 'jql': 'priority = Low'})))
        self.compare('a filter', (status, answer[:6]), (0, '{"ok":'))
        before = rows_of(store)
        gone = swapped(('"High", "Medium", "Low"', '"High", "Medium"'))
        self.compare('a filter that asks for what is gone', run(self.program, store, 'amend', gone.encode()), (5, 'kept 8 4\n'))
        self.compare('a filter that asks for what is gone: rows', rows_of(store), before)

    def first_format(self):
        """Rows of the first format, whose groups have the members of the text, come to be of the second."""
        store = self.copy()
        with contextlib.closing(sqlite3.connect(store)) as base, base:
            base.execute('DELETE FROM kept WHERE kind = 10')
            base.execute('UPDATE kept SET body = replace(body, \'"format":2\', \'"format":1\') WHERE kind = 2')
        before = rows_of(store)
        self.compare('the first format, refused', run(self.program, store, 'amend', swapped(('["North", "South"]', '["South"]')).encode()), (5, 'kept 3 1\n'))
        self.compare('the first format, refused: rows', rows_of(store), before)
        text = swapped(('"cy", "root"]', '"cy", "dora", "root"]'), ('name = "guests", members = ["cy"]', 'name = "guests", members = ["dora"]'))
        self.compare('the first format', run(self.program, store, 'amend', text.encode()), (0, ''))
        self.compare('the first format: rows', rows_of(store), {**self.rows, (1, 0): text, (10, 3): '{"members":["cy"]}'})
        self.compare('the first format: issues', told(self.program, store), self.told)

    def others(self):
        """Stores without rows, bad rows, and words behind the word."""
        self.count += 5
        new = f'{self.room}/new.db'
        self.compare('no rows', run(self.program, new, 'amend', SETUP.encode()), (0, ''))
        self.compare('no rows: rows', rows_of(new), {
            (1, 0): SETUP, (2, 0): '{"balance":[0],"change":0,"format":2,"moment":0}', (10, 1): '{"members":["anna","bo","root"]}',
            (10, 2): '{"members":["anna","root"]}', (10, 3): '{"members":["cy"]}'})
        self.compare('in memory', run(self.program, ':memory:', 'amend', SETUP.encode()), (0, ''))
        self.compare('a word more', run(self.program, ':memory:', 'amend', b'', 'all')[0], 1)
        self.compare('no store', run(self.program, f'{self.room}/none/at.db', 'amend', SETUP.encode()), (4, ''))
        bad = self.copy()
        with contextlib.closing(sqlite3.connect(bad)) as base, base:
            base.execute('DELETE FROM kept WHERE kind = 5 AND no = 2')
        self.compare('a row that is bad already', run(self.program, bad, 'amend', SETUP.encode()), (5, 'kept 5 2\n'))


def main():
    if len(sys.argv) != 2:
        sys.exit(__doc__)
    program = str(pathlib.Path(sys.argv[1]).resolve())
    with tempfile.TemporaryDirectory() as room:
        cases = Cases(program, room)
        for it in good():
            cases.good(*it)
        for it in refused():
            cases.refused(*it)
        for it in placed():
            cases.placed(*it)
        cases.filters()
        cases.first_format()
        cases.others()
        print(f'{cases.count} cases, {cases.wrong} differences')
    sys.exit(1 if cases.wrong else 0)


if __name__ == '__main__':
    main()
