#!/usr/bin/env python3
"""Puts bad rows into a tracker's file, one case at a time, and looks at which row the program names.

usage: python3 checks/bad_rows.py PROGRAM [large]

PROGRAM is the built tracker, as crates/tracker/out/tracker after `rt run` there. One file is made by `init` and `exec`; its rows have to be
GOOD below. Each case is a copy of it with some rows changed, and is opened by a run without lines, which has to end with status 5, name the
first row that is bad or missing, and leave all rows as they are. What it has to name is written beside each case, as docs/ROWS.md has it:
bodies that are nearly of a kind's form, numbers that are none of a kind's, each rule broken once, missing rows, and the first of two. Then
come rows that are a tracker's, which a run has to open. Each difference is told, and the status is 1. The last two lines count the cases.

With the word `large` there are also histories of just as many entries and bytes of text as there may be, and of one more. These files have
up to 510 MB, and opening one takes up to 1.5 GB of memory.
"""
import contextlib
import json
import pathlib
import shutil
import sqlite3
import subprocess
import sys
import tempfile
from itertools import permutations

TOP = pathlib.Path(__file__).resolve().parent.parent
MADE = 'CREATE TABLE kept (kind INTEGER, no INTEGER, body TEXT, PRIMARY KEY (kind, no))'
START = 1_709_251_200

# Names of groups stand in another order than in the list of users, so that rows of members are in an order of their own.
SETUP = '''utc_offset_minutes = 0
week_starts = "monday"
rebalancer = "root"
users = ["anna", "bo", "cy", "root"]
types = ["Task", "Bug"]
priorities = ["High", "Medium", "Low"]
resolutions = ["Fixed", "Declined"]
versions = ["1.0", "1.1"]
first_status = "Open"
plan = ["team"]
administer = ["admins"]
group = [
  { name = "team", members = ["root", "bo", "anna"] },
  { name = "admins", members = ["root", "anna"] },
  { name = "guests", members = ["cy"] },
]
project = [
  { key = "OPS", lead = "anna", browse = ["team"], create = ["team"], edit = ["team"], transition = ["team"], rank = ["team"] },
  { key = "WEB", lead = "bo", browse = ["team"], create = ["team"], edit = ["team"], transition = ["team"], rank = ["team"] },
]
status = [
  { name = "Open", category = "todo" },
  { name = "In Progress", category = "progress" },
  { name = "Done", category = "done" },
]
transition = [
  { name = "Start", from = ["Open"], to = "In Progress", post = ["assign:caller"] },
  { name = "Finish", from = ["In Progress"], to = "Done" },
]
field = [
  { number = 10001, name = "Area", kind = "choice", options = ["North", "South"] },
  { number = 10002, name = "Effort", kind = "number" },
]
'''

LINES = [
    ('anna', 'tick', {'to': START}),
    ('anna', 'create', {'project': 'OPS', 'type': 'Task', 'summary': 'Fix login', 'external': 'X-1', 'set': {
        'Area': 'North', 'Effort': '-1.5', 'due': '2024-04-01', 'fixVersion': ['1.0', '1.1'], 'labels': ['a', 'b'], 'points': '3'}}),
    ('anna', 'create', {'project': 'WEB', 'type': 'Bug', 'summary': 'Crash', 'external': 'X-2'}),
    ('anna', 'tick', {'to': START + 60}),
    ('bo', 'create', {'project': 'OPS', 'type': 'Task', 'summary': 'Write guide'}),
    ('anna', 'transition', {'issue': 'OPS-1', 'transition': 'Start'}),
    ('anna', 'create', {'project': 'WEB', 'type': 'Task', 'summary': 'Tidy up'}),
    ('anna', 'make_sprint', {'name': 'March'}),
    ('anna', 'make_sprint', {'name': 'April'}),
    ('anna', 'make_sprint', {'name': 'May'}),
    ('anna', 'edit', {'issue': 'OPS-1', 'set': {'sprint': 1}}),
    ('anna', 'edit', {'issue': 'OPS-2', 'set': {'sprint': 1}}),
    ('anna', 'start_sprint', {'sprint': 1}),
    ('anna', 'tick', {'to': START + 120}),
    ('anna', 'edit', {'issue': 'OPS-1', 'set': {'points': '2', 'labels': ['a']}}),
    ('bo', 'edit', {'issue': 'WEB-1', 'set': {'sprint': 2}}),
    ('anna', 'close_sprint', {'sprint': 1}),
    ('anna', 'start_sprint', {'sprint': 2}),
    ('anna', 'create', {'project': 'OPS', 'type': 'Task', 'summary': 'Late', 'external': 'X-5', 'set': {'sprint': 2}}),
    ('anna', 'save_filter', {'name': 'mine', 'jql': 'assignee = currentUser() ORDER BY rank'}),
    ('anna', 'save_filter', {'name': 'open', 'jql': 'status = "Open"'}),
    ('bo', 'save_filter', {'name': 'mine', 'jql': 'reporter = bo'}),
    ('anna', 'make_board', {'name': 'team', 'filter': 1}),
    ('anna', 'make_board', {'name': 'guide', 'filter': 3}),
    ('anna', 'make_board', {'name': 'open', 'filter': 2}),
    ('anna', 'move_before', {'issue': 'OPS-2', 'other': 'OPS-1'}),
    ('anna', 'rebalance_start', {}),
    ('anna', 'rebalance_step', {'count': 2}),
    ('anna', 'set_group', {'group': 'guests', 'members': ['cy', 'bo']}),
    ('anna', 'tick', {'to': START + 180}),
]

# The rows that these lines leave, behind the setup's.
ROWS = r'''2 0 {"balance":[0,1],"change":10,"format":2,"moment":1709251380}
3 1 {"at":1709251200,"author":"anna","change":1,"fields":{"Area":"North","Effort":"-1.5","due":"2024-04-01","fixVersion":["1.0","1.1"],"labels":["a","b"],"points":"3","reporter":"anna","status":"Open","summary":"Fix login","type":"Task"},"key":"OPS-1"}
3 2 {"at":1709251200,"author":"anna","change":2,"fields":{"reporter":"anna","status":"Open","summary":"Crash","type":"Bug"},"key":"WEB-1"}
3 3 {"at":1709251260,"author":"bo","change":3,"fields":{"reporter":"bo","status":"Open","summary":"Write guide","type":"Task"},"key":"OPS-2"}
3 4 {"at":1709251260,"author":"anna","change":5,"fields":{"reporter":"anna","status":"Open","summary":"Tidy up","type":"Task"},"key":"WEB-2"}
3 5 {"at":1709251320,"author":"anna","change":10,"fields":{"reporter":"anna","sprint":2,"status":"Open","summary":"Late","type":"Task"},"key":"OPS-3"}
4 4 {"at":1709251260,"author":"anna","entries":[["status","Open","In Progress"],["assignee",null,"anna"]],"issue":1}
4 6 {"at":1709251260,"author":"anna","entries":[["sprint",null,1]],"issue":1}
4 7 {"at":1709251260,"author":"anna","entries":[["sprint",null,1]],"issue":3}
4 8 {"at":1709251320,"author":"anna","entries":[["labels",["a","b"],["a"]],["points","3","2"]],"issue":1}
4 9 {"at":1709251320,"author":"bo","entries":[["sprint",null,2]],"issue":2}
5 1 0|i00000:
5 2 0|i006bk:
5 3 0|hzztog:
5 4 1|qzztog:
5 5 1|r00000:
6 1 X-1
6 2 X-2
6 5 X-5
7 1 {"close":[1709251320,9],"name":"March","start":[1709251260,7]}
7 2 {"close":null,"name":"April","start":[1709251320,9]}
7 3 {"close":null,"name":"May","start":null}
8 1 {"jql":"assignee = currentUser() ORDER BY rank","name":"mine","owner":"anna"}
8 2 {"jql":"status = \"Open\"","name":"open","owner":"anna"}
8 3 {"jql":"reporter = bo","name":"mine","owner":"bo"}
9 1 {"filter":1,"name":"team"}
9 2 {"filter":3,"name":"guide"}
9 3 {"filter":2,"name":"open"}
10 1 {"members":["anna","bo","root"]}
10 2 {"members":["anna","root"]}
10 3 {"members":["bo","cy"]}'''


def of_lines(text):
    """Rows by kind and number, from lines of kind, number and body."""
    parts = (line.split(' ', 2) for line in text.split('\n'))
    return {(int(kind), int(no)): body for kind, no, body in parts}


GOOD = {(1, 0): SETUP, **of_lines(ROWS)}


# ---- changes of rows

def put(kind, no, body):
    """The row has that body, and is put behind those that were put before."""
    def change(rows):
        rows.pop((kind, no), None)
        rows[kind, no] = body
    return change


def drop(kind, no=None):
    """The row goes, or all of that kind."""
    def change(rows):
        for key in [it for it in rows if it[0] == kind and no in (None, it[1])]:
            del rows[key]
    return change


def swap(kind, no, old, new):
    """In the row's body one piece is another. The piece is there once."""
    def change(rows):
        body = rows[kind, no]
        assert body.count(old) == 1, (kind, no, old)
        rows[kind, no] = body.replace(old, new)
    return change


def move(kind, no, other):
    """The row has another number."""
    def change(rows):
        rows[kind, other] = rows.pop((kind, no))
    return change


def first_format(rows):
    """Rows of the first format: they have no members."""
    swap(2, 0, '"format":2', '"format":1')(rows)
    drop(10)(rows)


# ---- cases: what has to be named, what is shown, and the changes

def case(wanted, about, *changes):
    return wanted, about, changes


def bodies(kind, no, *texts):
    """The row is bad with each of these bodies."""
    return [case(f'{kind} {no}', f'the body {text[:60]!r}', put(kind, no, text)) for text in texts]


def pieces(kind, no, others):
    """The row is bad where a piece of its body is one of these others."""
    return [case(f'{kind} {no}', f'{kind} {no}: {old} => {new}', swap(kind, no, old, new)) for old in others for new in others[old]]


def numbers(kind, body, *nos):
    """The row is bad beside all others."""
    return [case(f'{kind} {no}', f'the number {no}', put(kind, no, body)) for no in nos]


def compact(it):
    return json.dumps(it, separators=(',', ':'), ensure_ascii=False)


def json_forms(kind, no):
    """A body in JSON is bad in each of these forms, whatever it says."""
    body = GOOD[kind, no]
    members = json.loads(body)
    assert compact(members) == body
    first, *others = members
    texts = {
        'one member more': body[:-1] + ',"zone":1}',
        'a member twice': body[:-1] + f',{compact({first: members[first]})[1:]}',
        'the first member is gone': compact({name: members[name] for name in others}),
    }
    if others:
        texts['members the other way round'] = compact(dict(reversed(members.items())))
        texts['the last member is gone'] = compact({name: members[name] for name in [first, *others[:-1]]})
    return [
        *pieces(kind, no, {f'{{"{first}":': [f'{{"{first}": ', f'{{ "{first}":', f'{{"{first}" :', f'{{"{first.capitalize()}":']}),
        *bodies(kind, no, ' ' + body, body + ' ', body + '\n', '\ufeff' + body, body + '}', body[:-1], f'[{body}]', compact(body)),
        *(case(f'{kind} {no}', about, put(kind, no, text)) for about, text in texts.items()),
        *bodies(kind, no, '', 'null', '[]', 'nonsense'),
    ]


ALL_BALANCED = '"balance":[0,1]'

SETUPS = [
    *bodies(1, 0, '', ' ', '[', '{}', '{"users":["anna"]}', SETUP + 'x', SETUP[:-2], '\x00' + SETUP),
    *pieces(1, 0, {
        'utc_offset_minutes = 0': ['utc_offset_minutes = 841', 'utc_offset_minutes = "0"', ''],
        '"monday"': ['"Monday"'],
        'rebalancer = "root"': ['rebalancer = "zed"'],
        '["anna", "bo", "cy", "root"]': ['["anna", "bo", "cy", "root", "bo"]', '[]'],
        '["Task", "Bug"]': ['["Task", "task"]'],
        '["Fixed", "Declined"]': ['["Fixed", "Unresolved"]'],
        'first_status = "Open"': ['first_status = "Closed"'],
        'week_starts': ['week_begins'],
        'plan = ["team"]': ['plan = ["staff"]'],
        'to = "Done"': ['to = "Nowhere"'],
        'number = 10002': ['number = 9999', 'number = 10001'],
        'name = "Effort"': ['name = "points"'],
    }),
    *numbers(1, SETUP, 1, 2, 2**32, 2**63 - 1),
    case('1 0', 'no setup', drop(1, 0)),
    case('1 0', 'the setup under another number', move(1, 0, 1)),
    case('1 0', 'nothing but where the tracker stands', *(drop(kind) for kind in (1, 3, 4, 5, 6, 7, 8, 9, 10))),
    case('1 0', 'nothing but a rank', *(drop(kind) for kind in (1, 2, 3, 4, 6, 7, 8, 9, 10)), *(drop(5, no) for no in (2, 3, 4, 5))),
    # a setup that is one, but not that of the rows behind it
    case('3 1', 'a status of the setup in other letters', swap(1, 0, '{ name = "Open"', '{ name = "open"')),
    case('3 1', 'versions in another order', swap(1, 0, '["1.0", "1.1"]', '["1.1", "1.0"]')),
    case('3 1', 'a field that is gone', swap(1, 0, '  { number = 10001, name = "Area", kind = "choice", options = ["North", "South"] },\n', '')),
    case('3 1', 'a field of another kind', swap(1, 0, 'name = "Effort", kind = "number"', 'name = "Effort", kind = "date"')),
    case('3 1', 'a user in the place of another', swap(1, 0, '["anna", "bo", "cy", "root"]', '["ann", "bo", "cy", "root"]'),
         swap(1, 0, '"bo", "anna"]', '"bo", "ann"]'), swap(1, 0, '"root", "anna"]', '"root", "ann"]'), swap(1, 0, 'lead = "anna"', 'lead = "ann"')),
    case('3 2', 'a project that is gone', swap(1, 0, 'key = "WEB"', 'key = "NET"')),
    case('3 2', 'a type that is gone', swap(1, 0, '["Task", "Bug"]', '["Task", "Fault"]')),
    case('4 4', 'a status that is gone', swap(1, 0, '{ name = "In Progress"', '{ name = "At Work"'), swap(1, 0, 'to = "In Progress"', 'to = "At Work"'),
         swap(1, 0, 'from = ["In Progress"]', 'from = ["At Work"]')),
    case('10 1', 'users in another order', swap(1, 0, '["anna", "bo", "cy", "root"]', '["root", "anna", "bo", "cy"]')),
    case('10 3', 'a user who is gone', swap(1, 0, '["anna", "bo", "cy", "root"]', '["anna", "bo", "root"]'), swap(1, 0, '["cy"]', '[]')),
    case('10 3', 'a group that is gone', swap(1, 0, '  { name = "guests", members = ["cy"] },\n', '')),
    case('10 4', 'a group more', swap(1, 0, '  { name = "guests"', '  { name = "others", members = [] },\n  { name = "guests"')),
]

PRESENTS = [
    *json_forms(2, 0),
    *pieces(2, 0, {
        '"change":10': ['"change":"10"', '"change":010', '"change":10.0', '"change":1e1', '"change":+10', '"change":-10', '"change":null', '"change":[10]',
            '"change":18446744073709551616', '"change":10,"change":10'],
        '"moment":1709251380': ['"moment":4102444800', '"moment":-1', '"moment":"2024"'],
        ALL_BALANCED: ['"balance":0', '"balance":[]', '"balance":[0,1,2]', '"balance":[3]', '"balance":[0,2]', '"balance":[1,0]', '"balance":[2,1]',
            '"balance":[0,0]', '"balance":[2,3]', '"balance":[0, 1]', '"balance":["0","1"]', '"balance":{"from":0,"to":1}'],
        '"format":2': ['"format":0', '"format":3', '"format":"2"', '"format":[2]'],
        '"format":2,': [''],
    }),
    *numbers(2, GOOD[2, 0], 1, 10, 2**63 - 1),
    case('2 0', 'nothing says where the tracker stands', drop(2, 0)),
    case('2 0', 'what says it has another number', move(2, 0, 1)),
    case('2 0', 'a setup alone', *(drop(kind) for kind in range(2, 11))),
    # the rules
    case('2 0', 'a change more than there are issues and changes', swap(2, 0, '"change":10', '"change":11')),
    case('2 0', 'far more changes than there are', swap(2, 0, '"change":10', '"change":18446744073709551615')),
    case('2 0', 'a change that is gone', drop(4, 9)),
    case('2 0', 'the last issue is gone', drop(3, 5)),
    case('2 0', 'no issue and no change, but one is told', *(drop(kind) for kind in range(3, 10)), swap(2, 0, '"change":10', '"change":1')),
    case('4 12', 'bad rows of issues and changes count, too', swap(2, 0, '"change":10', '"change":11'), put(4, 12, 'nonsense')),
    case('3 0', 'so does a number that is none', swap(2, 0, '"change":10', '"change":11'), put(3, 0, 'nonsense')),
    case('10 1', 'the first format has no members', swap(2, 0, '"format":2', '"format":1')),
    case('3 5', 'a change fewer than the last issue', swap(2, 0, '"change":10', '"change":9')),
    case('3 1', 'no change told', swap(2, 0, '"change":10', '"change":0')),
    case('3 5', 'a moment before the last issue', swap(2, 0, '1709251380', '1709251319')),
    case('3 1', 'a moment before the first issue', swap(2, 0, '1709251380', '1709251199')),
    case('5 4', 'a balance of the first bucket alone', swap(2, 0, '[0,1]', '[0]')),
    case('5 1', 'a balance of the second bucket alone', swap(2, 0, '[0,1]', '[1]')),
    case('5 1', 'a balance of the third bucket alone', swap(2, 0, '[0,1]', '[2]')),
    case('5 1', 'a balance from the second bucket to the third', swap(2, 0, '[0,1]', '[1,2]')),
    case('5 4', 'a balance from the third bucket to the first', swap(2, 0, '[0,1]', '[2,0]')),
]


def many_issues(count, ranked=False):
    """So many issues and nothing else; the later ones are tasks of nothing but type, summary and status."""
    def change(rows):
        for kind in range(3, 10):
            drop(kind)(rows)
        rows[2, 0] = f'{{"balance":[0],"change":{count},"format":2,"moment":0}}'
        for no in range(1, count + 1):
            rows[3, no] = f'{{"at":0,"author":"anna","change":{no},"fields":{{"status":"Open","summary":"s","type":"Task"}},"key":"OPS-{no}"}}'
            if ranked:
                rows[5, no] = f'0|i{no:05}:'
    return change


NEXT_ISSUE = r'{"at":1709251380,"author":"bo","change":11,"fields":{"status":"Done","summary":"s","type":"Bug"},"key":"OPS-4"}'

ISSUES = [
    *json_forms(3, 1),
    *pieces(3, 1, {
        '"at":1709251200': ['"at":"1709251200"', '"at":01709251200', '"at":1709251200.0', '"at":4102444800', '"at":-1'],
        '"author":"anna"': ['"author":"Anna"', '"author":"zed"', '"author":0', '"author":null'],
        '"change":1': ['"change":0', '"change":"1"', '"change":18446744073709551616'],
        'OPS-1"': ['ops-1"', 'OPS-01"', 'OPS-0"', 'OPS1"', 'OPS-1 "', 'NET-1"', 'OPS-4294967296"', '"'],
        '"OPS-1"': ['1'],
        '"Area":"North"': ['"Area":"north"', '"Area":"East"', '"area":"North"', '"Area":null'],
        '"Effort":"-1.5"': ['"Effort":"-1.50"', '"Effort":-1.5', '"cf[10002]":"-1.5"'],
        '"Area":"North","Effort":"-1.5"': ['"Effort":"-1.5","Area":"North"'],
        '"due":"2024-04-01"': ['"due":"2024-4-1"', '"due":"2024-04-31"', '"due":"2100-01-01"', '"duedate":"2024-04-01"', '"due":1711929600'],
        '["1.0","1.1"]': ['["1.1","1.0"]', '["1.0","1.0"]', '["1.0","2.0"]', '[]', '"1.0"', '["1.0", "1.1"]', 'null'],
        '["a","b"]': ['["b","a"]', '["a","a"]', '["a b"]', '[]', '[1]', '[""]', compact([f'{n:02}' for n in range(17)]), f'["{"a" * 65}"]'],
        '"points":"3"': ['"points":3', '"points":"03"', '"points":"3.0"', '"points":"-1"', '"points":"-0"', '"points":"1000000000"', '"points":"0.0001"',
            '"Points":"3"', '"points":"3","points":"3"', '"colour":"red","points":"3"', '"key":"OPS-1","points":"3"'],
        '"reporter":"anna"': ['"reporter":"ANNA"', '"reporter":""'],
        '"status":"Open"': ['"status":"OPEN"', '"status":"Closed"', '"sprint":"1","status":"Open"', '"sprint":4294967296,"status":"Open"',
            '"sprint":01,"status":"Open"'],
        '"Fix login"': ['"Fix\\nlogin"', '"Fix\\u0020login"', '"Fix\\/login"', '"Fix\tlogin"', '""', f'"{"s" * 256}"', '["Fix login"]'],
        '"type":"Task"': ['"type":"task"'],
    }),
    *numbers(3, NEXT_ISSUE, 0, 2**32, 2**63 - 1),
    # the rules
    case('3 5', 'a text in place of what is in the issue', swap(3, 5, '{"reporter":"anna","sprint":2,"status":"Open","summary":"Late","type":"Task"}', '"Late"')),
    case('3 6', 'the last number jumps', move(3, 5, 6)),
    case('3 4294967295', 'the last number jumps to the greatest one', move(3, 5, 2**32 - 1)),
    case('3 2', 'the first number jumps', move(3, 1, 6)),
    case('3 3', 'a number in the middle jumps', move(3, 2, 6)),
    case('3 3', 'a key of the project too early', swap(3, 3, 'OPS-2', 'OPS-3')),
    case('3 3', 'a key of the project again', swap(3, 3, 'OPS-2', 'OPS-1')),
    case('3 2', 'a key counted over all projects', swap(3, 2, 'WEB-1', 'WEB-2')),
    case('3 4', 'a key that another project leaves one too many', swap(3, 3, 'OPS-2', 'WEB-2')),
    case('3 5', 'a key that an issue has already', swap(3, 4, 'WEB-2', 'OPS-3')),
    case('3 3', 'change numbers that fall', swap(3, 2, '"change":2', '"change":3'), swap(3, 3, '"change":3', '"change":2')),
    case('3 3', 'a change number of another issue', swap(3, 3, '"change":3', '"change":2')),
    case('3 5', 'a change number greater than the present one', swap(3, 5, '"change":10', '"change":11')),
    case('3 1', 'no type', swap(3, 1, ',"type":"Task"', '')),
    case('3 1', 'no summary', swap(3, 1, '"summary":"Fix login",', '')),
    case('3 1', 'no status', swap(3, 1, '"status":"Open",', '')),
    case('3 1', 'no values', put(3, 1, '{"at":1709251200,"author":"anna","change":1,"fields":{},"key":"OPS-1"}')),
    case('3 3', 'a moment before that of the change before', swap(3, 3, '"at":1709251260', '"at":1709251199')),
    case('3 3', 'a moment behind that of the change behind', swap(3, 2, '"at":1709251200', '"at":1709251261')),
    case('3 5', 'a moment later than the present one', swap(3, 5, '"at":1709251320', '"at":1709251381')),
    case('3 5', 'a sprint that has no row', swap(3, 5, '"sprint":2', '"sprint":4')),
    case('3 5', 'a sprint of number 0', swap(3, 5, '"sprint":2', '"sprint":0')),
    case('3 5', 'a sprint whose row is gone', drop(7, 2)),
    case('7 5', 'a sprint that has a bad row is there', swap(3, 5, '"sprint":2', '"sprint":5'), put(7, 5, 'nonsense')),
    case('7 0', 'so is one whose number is none', swap(3, 5, '"sprint":2', '"sprint":0'), put(7, 0, 'nonsense')),
    case('3 50001', '50,001 issues', many_issues(50_001)),
]

STARTED = '[["status","Open","In Progress"],["assignee",null,"anna"]]'


def more_changes(count, moment=1709251380):
    """So many changes may be told."""
    return put(2, 0, f'{{"balance":[0,1],"change":{count},"format":2,"moment":{moment}}}')


CHANGES = [
    *json_forms(4, 4),
    *pieces(4, 4, {
        '"at":1709251260': ['"at":"1709251260"', '"at":4102444800', '"at":1.70925126e9'],
        '"author":"anna"': ['"author":"ANNA"', '"author":"zed"', '"author":1'],
        '"issue":1': ['"issue":"1"', '"issue":0', '"issue":01', '"issue":4294967296', '"issue":"OPS-1"'],
        STARTED: ['{}', 'null', '[[]]', '["status","Open","In Progress"]'],
        '["status","Open","In Progress"]': ['["status","Open"]', '["status","Open","In Progress",null]', '[4,"Open","In Progress"]',
            '["Status","Open","In Progress"]', '["state","Open","In Progress"]', '["status","open","In Progress"]', '["status","Open","In progress"]',
            '["status","Open","Closed"]'],
        '["assignee",null,"anna"]': ['["assignee","","anna"]', '["assignee","null","anna"]', '["assignee",null,"Anna"]', '["assignee",null,5]'],
        '],["': ['], ["'],
    }),
    *pieces(4, 8, {
        '["a","b"],["a"]': ['["b","a"],["a"]', '["a","b"],["a","a"]', '["a","b"],[]', '["a","b"],"a"'],
        '"3","2"': ['"3","2.0"', '"3",2', '"3","-2"', '3,"2"'],
    }),
    *pieces(4, 9, {
        'null,2': ['null,"2"', 'null,4294967296', 'null,-2', 'null,2.0', 'null,[2]'],
    }),
    *numbers(4, '{"at":1709251380,"author":"bo","entries":[["points",null,"1"]],"issue":2}', 0),
    # the rules
    *numbers(4, '{"at":1709251380,"author":"bo","entries":[["points",null,"1"]],"issue":2}', 2**32, 2**63 - 1),
    case('4 4', 'an issue that is not there', swap(4, 4, '"issue":1', '"issue":6')),
    case('4 4', 'the greatest number of an issue', swap(4, 4, '"issue":1', '"issue":4294967295')),
    case('4 4', 'a change before its issue', put(4, 4, '{"at":1709251260,"author":"anna","entries":[["points",null,"1"]],"issue":4}')),
    case('4 10', 'a change by the number of its issue', put(4, 10, '{"at":1709251320,"author":"anna","entries":[["points",null,"1"]],"issue":5}')),
    case('4 5', 'a change by the number of another issue', put(4, 5, '{"at":1709251260,"author":"anna","entries":[["points",null,"1"]],"issue":2}')),
    case('4 4', 'no entry', swap(4, 4, STARTED, '[]')),
    case('4 4', 'entries by falling field number', swap(4, 4, STARTED, '[["assignee",null,"anna"],["status","Open","In Progress"]]')),
    case('4 4', 'two entries of one field', swap(4, 4, STARTED, '[["status","Open","In Progress"],["status","In Progress","Done"]]')),
    case('4 4', 'an entry from another value', swap(4, 4, '"Open","In Progress"', '"Done","In Progress"')),
    case('4 4', 'an entry from a value where there is none', swap(4, 4, 'null,"anna"', '"bo","anna"')),
    case('4 8', 'an entry from no value where there is one', swap(4, 8, '"3","2"', 'null,"2"')),
    case('4 8', 'an entry to the value before', swap(4, 8, '"3","2"', '"3","3"')),
    case('4 8', 'an entry from a value that was there earlier', put(4, 6, '{"at":1709251260,"author":"anna","entries":[["points","3","4"]],"issue":1}')),
    case('4 4', 'an entry from nothing to nothing', swap(4, 4, 'null,"anna"', 'null,null')),
    case('4 4', 'a status that becomes empty', swap(4, 4, '"Open","In Progress"', '"Open",null')),
    case('4 6', 'a type that becomes empty', swap(4, 6, '["sprint",null,1]', '["type","Task",null]')),
    case('4 6', 'a summary that becomes empty', swap(4, 6, '["sprint",null,1]', '["summary","Fix login",null]')),
    case('4 4', 'a moment before that of an issue before', swap(4, 4, '"at":1709251260', '"at":1709251259')),
    case('4 4', 'a moment behind that of an issue behind', swap(4, 4, '"at":1709251260', '"at":1709251261')),
    case('4 7', 'a moment before that of the change before', swap(4, 6, '"at":1709251260', '"at":1709251300')),
    case('4 8', 'a moment before that of a change of another issue', swap(4, 7, '"at":1709251260', '"at":1709251320'),
         swap(4, 8, '"at":1709251320', '"at":1709251319')),
    case('4 11', 'a moment later than the present one', more_changes(11), put(4, 11, '{"at":1709251381,"author":"bo","entries":[["points",null,"1"]],"issue":2}')),
    case('4 11', 'a change number greater than the present one', put(4, 11, '{"at":1709251380,"author":"bo","entries":[["points",null,"1"]],"issue":2}')),
    case('4 9', 'a sprint that has no row', swap(4, 9, 'null,2', 'null,4')),
    case('4 9', 'a sprint of number 0', swap(4, 9, 'null,2', 'null,0')),
    case('4 6', 'a sprint whose row is gone', drop(7, 1)),
    case('4 11', 'a sprint left that has no row', more_changes(11), put(4, 11, '{"at":1709251380,"author":"bo","entries":[["sprint",4,null]],"issue":2}')),
    case('7 5', 'a sprint that has a bad row is there', swap(4, 9, 'null,2', 'null,5'), put(7, 5, 'nonsense')),
]

RANKS = [
    *bodies(
        5, 2, '', 'null', '"0|i006bk:"', '3|i006bk:', '-|i006bk:', '0|I006BK:', '0|i006bk', '0|i06bk:', '0|i0006bk:', '0i006bk:', '|i006bk:', '00|i006bk:',
        '0|000000:', ' 0|i006bk:', '0|i006bk: ', '0|i006bk:\n', '0|i006bk:0', '0|i006bk:i0', '0|i006bk:I', '0|i006bk::', '0|i006bk:é',
        '0|i006bk:' + 'i' * 246, '0/i006bk:', '0|i00_bk:'),
    *numbers(5, '0|j00000:', 0, 2**32, 2**63 - 1),
    # the rules
    *numbers(5, '0|j00000:', 6, 7, 2**32 - 1),
    case('5 3', 'the rank of an issue before', put(5, 3, GOOD[5, 1])),
    case('5 5', 'the rank of the issue before', put(5, 5, GOOD[5, 4])),
    case('5 1', 'a bucket that a moving balance does not allow', put(5, 1, '2|i00000:')),
    case('5 5', 'the same at the last issue', put(5, 5, '2|i00000:')),
    case('5 3', 'a bucket that a balance at rest does not allow', swap(2, 0, '[0,1]', '[0]'), put(5, 3, '1|hzztog:')),
    case('5 1', 'the first rank is missing', drop(5, 1)),
    case('5 3', 'a rank in the middle is missing', drop(5, 3)),
    case('5 5', 'the last rank is missing, with rows behind it', drop(5, 5)),
    case('5 5', 'the last rank is missing, with no row behind it', first_format, *(drop(kind) for kind in (6, 7, 8, 9)), drop(5, 5),
         swap(3, 5, '"sprint":2,', ''), swap(4, 6, '["sprint",null,1]', '["points","3","4"]'), swap(4, 7, '["sprint",null,1]', '["points",null,"4"]'),
         swap(4, 8, '"3","2"', '"4","2"'), swap(4, 9, '["sprint",null,2]', '["points",null,"4"]')),
    case('5 1', 'all ranks are missing', drop(5)),
    case('5 2', 'two ranks are missing', drop(5, 2), drop(5, 4)),
    case('5 5', 'a rank under a number too great', move(5, 5, 6)),
]

EXTERNALS = [
    *bodies(6, 2, '', 'X' * 65, 'é', 'X\t2', 'X\n', 'X\x7f', '\x00', 'X\u00a02', 'X\x1f2', '€'),
    *numbers(6, 'X-6', 0, 2**32, 2**63 - 1),
    # the rules
    *numbers(6, 'X-6', 6, 7, 2**32 - 1),
    case('6 2', 'the id of the issue before', put(6, 2, 'X-1')),
    case('6 5', 'the id of an issue before', put(6, 5, 'X-1')),
    case('6 4', 'the id of an issue behind', put(6, 3, 'X-4'), put(6, 4, 'X-4')),
    case('6 9', 'an id under a number too great', move(6, 5, 9)),
]


def up_to(kind, first, last, body):
    """Rows of these numbers, with `NO` in the body for the number."""
    def change(rows):
        for no in range(first, last + 1):
            rows[kind, no] = body.replace('NO', str(no))
    return change


FUTURE = '{"close":null,"name":"S","start":null}'

SPRINTS = [
    *json_forms(7, 1),
    *pieces(7, 1, {
        '"March"': ['""', 'null', '3', f'"{"M" * 101}"', '"Ma\\tch"', '"Ma\x7fch"', '"Ma\u0085ch"', '"\\u004darch"', '"M\\u00e4rz"'],
        '[1709251260,7]': ['null', '[]', '[1709251260]', '[1709251260,7,1]', '["1709251260",7]', '[1709251260, 7]', '[1709251260,07]',
            '{"at":1709251260,"change":7}', '[-1,7]', '""'],
        '[1709251320,9]': ['[4102444800,9]', '[1709251320,18446744073709551616]', '1709251320', 'false', '"null"'],
    }),
    *numbers(7, FUTURE, 0, 2**32, 2**63 - 1),
    # the rules
    *numbers(7, FUTURE, 5, 2**32 - 1),
    case('7 4', 'the last number jumps', move(7, 3, 4)),
    case('7 2', 'the first number jumps', move(7, 1, 4), put(4, 6, GOOD[4, 6].replace('null,1', 'null,2')), put(4, 7, GOOD[4, 7].replace('null,1', 'null,2'))),
    case('7 1', 'a close at a moment before its start', swap(7, 1, '[1709251320,9]', '[1709251259,9]')),
    case('7 1', 'a close at a change before its start', swap(7, 1, '[1709251320,9]', '[1709251320,6]')),
    case('7 1', 'a close later than the present moment', swap(7, 1, '[1709251320,9]', '[1709251381,9]')),
    case('7 1', 'a close behind the present change', swap(7, 1, '[1709251320,9]', '[1709251320,11]')),
    case('7 2', 'a start later than the present moment', swap(7, 2, '[1709251320,9]', '[1709251381,9]')),
    case('7 2', 'a start behind the present change', swap(7, 2, '[1709251320,9]', '[1709251320,11]')),
    case('7 1001', '1,001 sprints', up_to(7, 4, 1001, FUTURE)),
]


def query(text):
    return put(8, 2, compact({'jql': text, 'name': 'open', 'owner': 'anna'}))


FILTERS = [
    *json_forms(8, 2),
    *pieces(8, 2, {
        '"owner":"anna"': ['"owner":"Anna"', '"owner":"zed"', '"owner":0', '"owner":null', '"owner":""'],
        '"name":"open"': ['"name":""', '"name":null', f'"name":"{"o" * 101}"', '"name":"o\\nen"', '"name":"op\\u0065n"', '"name":"op\\/en"', '"name":["open"]'],
        '"status = \\"Open\\""': ['null', '["status = Open"]', '"status = \\u0022Open\\""', '0'],
    }),
    *numbers(8, '{"jql":"","name":"all","owner":"cy"}', 0, 2**32, 2**63 - 1),
    # the rules
    *(case('8 2', f'the query {text[:40]!r}', query(text)) for text in (
        'status =', 'status = "Open', '(', 'status = Open)', 'status & Open', 'status = Open AND', 'ORDER rank', 'status = [Open]', 'nonsense', 'summary ~ "\\x"',
        'created > 2024-13-01', 'NOT ' * 65 + 'status = Open', 'labels = a OR ' * 292 + 'labels = abcdefgh', 'cf[1] = 2')),
    *(case('8 2', f'what can not be asked: {text}', query(text)) for text in (
        'colour = red', 'status = Closed', 'status > Open', 'status ~ Open', 'points = many', 'points = -1', 'labels = "a b"', 'assignee = zed',
        'assignee IN membersOf(staff)', 'assignee IN membersOf()', 'assignee = now()', 'sprint IN nextSprints()', 'sprint = March', 'project = NET',
        'summary WAS x', 'summary = "Fix login"', 'ORDER BY labels', 'ORDER BY colour', 'Area = East', 'cf[10009] = 1', 'rank = 1',
        'created > startOfDay(soon)')),
    case('8 2', 'another filter of its owner has its name', swap(8, 2, '"name":"open"', '"name":"mine"')),
    case('8 3', 'its name is another one of a new owner', swap(8, 3, '"owner":"bo"', '"owner":"anna"')),
    case('8 201', '201 filters', up_to(8, 4, 201, '{"jql":"","name":"NO","owner":"cy"}')),
    case('8 1000', '201 filters with gaps between their numbers', up_to(8, 4, 200, '{"jql":"","name":"NO","owner":"cy"}'),
         put(8, 1000, '{"jql":"","name":"b","owner":"cy"}')),
]

BOARDS = [
    *json_forms(9, 2),
    *pieces(9, 2, {
        '"filter":3': ['"filter":"3"', '"filter":03', '"filter":3.0', '"filter":-3', '"filter":null', '"filter":4294967296', '"filter":[3]'],
        '"name":"guide"': ['"name":""', '"name":null', f'"name":"{"g" * 101}"', '"name":"g\\r"', '"name":"\\u0067uide"', '"name":7'],
    }),
    *numbers(9, '{"filter":1,"name":"b"}', 0, 2**32, 2**63 - 1),
    # the rules
    case('9 2', 'a filter that is not there', swap(9, 2, '"filter":3', '"filter":4')),
    case('9 3', 'the same in the first format, whose rows stay', first_format, swap(9, 3, '"filter":2', '"filter":4')),
    case('9 2', 'a filter of number 0', swap(9, 2, '"filter":3', '"filter":0')),
    case('9 2', 'the greatest number of a filter', swap(9, 2, '"filter":3', '"filter":4294967295')),
    case('9 2', 'a filter that is gone', drop(8, 3)),
    case('9 1', 'all filters are gone', drop(8)),
    case('9 201', '201 boards', up_to(9, 4, 201, '{"filter":1,"name":"b"}')),
    case('9 4294967295', '201 boards with gaps between their numbers', up_to(9, 4, 200, '{"filter":1,"name":"b"}'),
         put(9, 2**32 - 1, '{"filter":1,"name":"b"}')),
]

MEMBERS = [
    *json_forms(10, 1),
    *pieces(10, 1, {
        '["anna","bo","root"]': ['["bo","anna","root"]', '["anna","anna"]', '["anna","root","anna"]', '["Anna","bo","root"]', '["anna","zed"]',
            '["anna","zed","root"]', '[0,1,3]', '[null]', '[""]', '"anna"', 'null', '{}', '["anna", "bo","root"]', '[["anna"]]', '["\\u0061nna"]'],
    }),
    *numbers(10, '{"members":["anna"]}', 0, 4, 5, 2**16, 2**16 + 1, 2**32 + 1, 2**63 - 1),
    # the rules
    case('10 1', 'the members of the first group are missing', drop(10, 1)),
    case('10 2', 'the members of a group in the middle are missing', drop(10, 2)),
    case('10 3', 'the members of the last group are missing', drop(10, 3)),
    case('10 1', 'the members of all groups are missing', drop(10)),
    case('10 3', 'members under a number too great', move(10, 3, 4)),
    case('10 1', 'members of the first group in the first format', first_format, put(10, 1, GOOD[10, 1])),
    case('10 3', 'members of the last group in the first format', first_format, put(10, 3, GOOD[10, 3])),
    case('10 4', 'members of no group in the first format', first_format, put(10, 4, GOOD[10, 3])),
]

OTHER_KINDS = [
    *numbers(0, '', 0, 1), *numbers(0, SETUP, 0, 2**63 - 1), *numbers(11, '{"members":["anna"]}', 0, 1, 2**63 - 1), *numbers(12, 'X-1', 1), *numbers(100, '', 0),
    *numbers(255, '', 0, 1, 2**63 - 1),
    case('0 0', 'before a setup that is missing', put(0, 0, ''), drop(1, 0)),
    case('10 3', 'behind members that are missing', put(11, 1, ''), drop(10, 3)),
    case('11 1', 'the first of two', put(255, 1, ''), put(11, 1, '')),
    case('0 1', 'nothing but a row of no kind', *(drop(kind) for kind in range(1, 11)), put(0, 1, '')),
    case('1 0', 'nothing but a row of no kind behind all others', *(drop(kind) for kind in range(1, 11)), put(11, 1, '')),
    case('11 1', 'behind rows of the first format', first_format, put(11, 1, '')),
]

# A row of each kind that is made bad, and rows that are taken away.
BROKEN = [(1, 0), (2, 0), (3, 2), (4, 6), (5, 2), (6, 2), (7, 2), (8, 2), (9, 2), (10, 2), (11, 2)]
MISSING = [(1, 0), (2, 0), (5, 3), (5, 5), (10, 1), (10, 3)]


def spoil(key):
    return put(*key, '')


def named(key):
    return f'{key[0]} {key[1]}'


FIRST_OF_TWO = [
    *(case(named(min(one, other)), f'{named(one)} is made bad and then {named(other)}', spoil(one), spoil(other)) for one, other in permutations(BROKEN, 2)),
    *(case(f'{kind} {no}', f'two bad rows of kind {kind}', spoil((kind, other)), spoil((kind, no))) for kind, no, other in (
        (3, 1, 2), (3, 4, 5), (4, 4, 9), (5, 1, 5), (6, 1, 5), (7, 1, 3), (8, 1, 3), (9, 1, 3), (10, 1, 3), (11, 0, 1))),
    *(case(named(min(one, other)), f'{named(one)} is missing, and {named(other)} is bad', drop(*one), spoil(other))
      for one in MISSING for other in BROKEN if one != other),
    *(case(named(one), f'{named(one)} and {named(other)} are missing', drop(*other), drop(*one)) for one in MISSING for other in MISSING if one < other),
    case('3 2', 'a rule broken before a bad body', swap(3, 2, 'WEB-1', 'WEB-2'), spoil((3, 3))),
    case('3 2', 'a bad body before a rule broken', spoil((3, 2)), swap(3, 3, 'OPS-2', 'OPS-3')),
    case('5 3', 'a rank doubled before one in a wrong bucket', put(5, 3, GOOD[5, 1]), put(5, 5, '2|i00000:')),
    case('5 1', 'a rank in a wrong bucket before one doubled', put(5, 1, '2|i00000:'), put(5, 3, GOOD[5, 2])),
    case('2 0', 'too many changes told before a bad issue', swap(2, 0, '"change":10', '"change":11'), spoil((3, 1))),
]

GROUPS = [
    ('setup', SETUPS), ('present', PRESENTS), ('issues', ISSUES), ('changes', CHANGES), ('ranks', RANKS), ('external ids', EXTERNALS), ('sprints', SPRINTS),
    ('filters', FILTERS), ('boards', BOARDS), ('members', MEMBERS), ('no kind', OTHER_KINDS), ('the first of two', FIRST_OF_TWO),
]


# ---- large cases

DIFFERENT = [
    ('assignee', 'anna', 'bo'), ('reporter', 'bo', 'cy'), ('priority', 'High', 'Low'), ('resolution', 'Fixed', 'Declined'),
    ('due', '2024-04-01', '2024-04-02'), ('points', '1', '2'), ('Area', 'North', 'South'), ('Effort', '1', '2'),
]


def many_changes(groups):
    """One issue, and its changes from number 2 on; these entries are those of each."""
    def change(rows):
        for kind in range(3, 10):
            drop(kind)(rows)
        rows[3, 1] = '{"at":0,"author":"anna","change":1,"fields":{"status":"Open","summary":"s","type":"Task"},"key":"OPS-1"}'
        count = 1
        for count, entries in enumerate(groups(), 2):
            rows[4, count] = f'{{"at":0,"author":"bo","entries":{compact(entries)},"issue":1}}'
        rows[2, 0] = f'{{"balance":[0],"change":{count},"format":2,"moment":0}}'
        rows[5, 1] = '0|i00000:'
    return change


def entries(count):
    """So many entries, eight a change and then the rest; each leads from one value of its field to the other one."""
    def groups():
        for place in range(0, count, len(DIFFERENT)):
            turn = place // len(DIFFERENT)
            yield [[field, pair[turn % 2 - 1] if turn else None, pair[turn % 2]] for field, *pair in DIFFERENT[:count - place]]
    return groups


def texts(count):
    """So many bytes of text in all, one of which the issue has: descriptions of 4,096 bytes, each of which stands in two entries, and then a shorter one."""
    def groups():
        before, left = None, count - 1
        while left:
            size = min(4096, left - (len(before) if before else 0))
            now = ('b' if before and before[0] == 'a' else 'a') * size
            yield [['description', before, now]]
            left -= size + (len(before) if before else 0)
            before = now
    return groups


LARGE = [
    case('4 250002', '2,000,001 entries', many_changes(entries(2_000_001))),
    case('4 61037', '500,000,001 bytes of text', many_changes(texts(500_000_001))),
]


# ---- rows that are a tracker's: what is shown, the changes, and what is different once they are opened

def migrated(rows):
    """What a run makes of rows of the first format: each group has the members of the setup's text."""
    swap(2, 0, '"format":1', '"format":2')(rows)
    rows.update({(10, 1): '{"members":["anna","bo","root"]}', (10, 2): '{"members":["anna","root"]}', (10, 3): '{"members":["cy"]}'})


def at_rest(rows):
    """The balance is at rest in the first bucket."""
    swap(2, 0, '[0,1]', '[0]')(rows)
    rows.update({(5, 4): '0|i00iyo:', (5, 5): '0|i00pa8:'})


def same(rows):
    """They stay."""


def no_rows(rows):
    rows.clear()


def opening(rows):
    """The rows of a new tracker, whose setup is on a page of its own."""
    page = (TOP / 'docs' / 'NEW-TRACKER.md').read_text()
    rows[1, 0] = page.split('```toml\n')[1].split('```')[0]
    rows[2, 0] = '{"balance":[0],"change":0,"format":2,"moment":0}'
    rows.update({(10, 1): '{"members":["anna","bo","root"]}', (10, 2): '{"members":["anna","root"]}', (10, 3): '{"members":["cy"]}'})


SOUND = [
    ('the file as it is', [], same),
    ('rows of the first format', [first_format], migrated),
    ('the first rows of a tracker of the first format',
     [*(drop(kind) for kind in range(3, 11)), put(2, 0, '{"balance":[0],"change":0,"format":1,"moment":0}')], migrated),
    ('rows of the first format at rest', [first_format, at_rest], migrated),
    ('no row', [no_rows], opening),
    ('a balance at rest', [at_rest], same),
    ('a setup with a remark, spaces and names in other letters', [swap(1, 0, 'rebalancer = "root"', '# who spreads ranks\nrebalancer   =   "ROOT"')], same),
    ('a last sprint fewer', [drop(7, 3)], same),
    ('no filters and no boards', [drop(8), drop(9)], same),
    ('no external ids', [drop(6)], same),
    ('external ids in other letters, of 64 characters, and of a space', [put(6, 1, 'x-2'), put(6, 3, 'x' * 64), put(6, 4, ' ')], same),
    ('filters and boards by the greatest number', [move(8, 1, 2**32 - 1), put(9, 1, '{"filter":4294967295,"name":"team"}'), move(9, 2, 2**32 - 1)], same),
    ('names of filters in other letters, boards of one name', [swap(8, 2, '"name":"open"', '"name":"Mine"'), swap(9, 2, '"guide"', '"team"')], same),
    ('names and queries with letters past ASCII and with escapes',
     [put(8, 2, r'{"jql":"summary ~ \"\\\"é\\\" a/b\"\nOR\tlabels = 😀","name":"é \"a\" \\ 😀","owner":"anna"}'), swap(7, 3, 'May', 'Mai / é')], same),
    ('a rank of 254 characters', [put(5, 1, '0|i00000:' + '0' * 244 + '1')], same),
    ('groups without members', [put(10, no, '{"members":[]}') for no in (1, 2, 3)], same),
    ('groups of all users', [put(10, no, '{"members":["anna","bo","cy","root"]}') for no in (1, 2, 3)], same),
    ('an issue that opens at its end', [swap(3, 5, '"status":"Open"', '"status":"Done"')], same),
    ('a moment that is the last one', [swap(2, 0, '1709251380', '4102444799')], same),
    ('a sprint that is closed as it starts', [swap(7, 1, '[1709251320,9]', '[1709251260,7]')], same),
    ('sprints from before any change', [put(7, 3, '{"close":[0,0],"name":"M","start":[0,0]}')], same),
    ('a sprint that is left again',
     [more_changes(11), put(4, 11, '{"at":1709251380,"author":"cy","entries":[["sprint",2,null],["Area",null,"South"]],"issue":2}')], same),
    ('1,000 sprints', [up_to(7, 4, 1000, FUTURE)], same),
    ('200 filters', [up_to(8, 4, 200, '{"jql":"","name":"NO","owner":"cy"}')], same),
    ('200 boards', [up_to(9, 4, 200, '{"filter":1,"name":"b"}')], same),
    ('50,000 issues', [many_issues(50_000, ranked=True)], same),
]

LARGE_AND_SOUND = [
    ('2,000,000 entries', [many_changes(entries(2_000_000))], same),
    ('500,000,000 bytes of text', [many_changes(texts(500_000_000))], same),
]


# ---- files and runs

def rows_of(store):
    with contextlib.closing(sqlite3.connect(store)) as base:
        return {(kind, no): body for kind, no, body in base.execute('SELECT kind, no, body FROM kept')}


def change_rows(store, before, after):
    """Puts those rows that are other ones."""
    gone = [key for key in before if key not in after]
    new = [(*key, body) for key, body in after.items() if before.get(key) != body]
    with contextlib.closing(sqlite3.connect(store)) as base:
        base.executemany('DELETE FROM kept WHERE kind = ? AND no = ?', gone)
        base.executemany('INSERT OR REPLACE INTO kept VALUES (?, ?, ?)', new)
        base.commit()


def run(program, store, word, text=''):
    """The status and the output of a run."""
    done = subprocess.run([program, store, word], input=text, capture_output=True, text=True)
    return done.returncode, done.stdout + done.stderr


def made(program, store):
    """Makes the tracker's file, and looks at its answers and rows. Afterwards the file has all rows, without another one beside it."""
    lines = ''.join(json.dumps({'user': user, 'call': call, **members}) + '\n' for user, call, members in LINES)
    began, _ = run(program, store, 'init', SETUP)
    status, answers = run(program, store, 'exec', lines)
    if began or status or answers.count('{"ok":') != len(LINES):
        sys.exit(f'the file could not be made:\n{answers}')
    found = rows_of(store)
    other = [key for key in sorted({*found, *GOOD}) if found.get(key) != GOOD.get(key)]
    if other:
        sys.exit('\n'.join(['the file has other rows:', *(f'{key}: {found.get(key)!r}, not {GOOD.get(key)!r}' for key in other)]))


class Trial:
    """One file after the other, each a copy of the first one."""

    def __init__(self, program, room):
        self.program, self.room, self.wrong = program, room, 0
        made(program, f'{room}/made')

    def answer(self, changes):
        """The rows that are put, the status and the output, and the rows afterwards."""
        rows = dict(GOOD)
        for change in changes:
            change(rows)
        store = f'{self.room}/tried'
        for ending in ('', '-wal', '-shm'):
            pathlib.Path(store + ending).unlink(missing_ok=True)
        shutil.copy(f'{self.room}/made', store)
        change_rows(store, GOOD, rows)
        return rows, run(self.program, store, 'exec'), rows_of(store)

    def compare(self, about, wanted, got, stayed):
        if got != wanted or not stayed:
            self.wrong += 1
            print(f'{about}: {got}, not {wanted}{"" if stayed else "; the rows are other ones afterwards"}')

    def bad(self, wanted, about, changes):
        rows, got, after = self.answer(changes)
        self.compare(about, (5, f'kept {wanted}\n'), got, after == rows)

    def sound(self, about, changes, opened):
        rows, got, after = self.answer(changes)
        opened(rows)
        self.compare(about, (0, ''), got, after == rows)


def main():
    large = sys.argv[2:] == ['large']
    groups = [*GROUPS, ('large', LARGE)] if large else GROUPS
    sound = [*SOUND, *LARGE_AND_SOUND] if large else SOUND
    with tempfile.TemporaryDirectory() as room:
        trial = Trial(sys.argv[1], room)
        for group, cases in groups:
            for wanted, about, changes in cases:
                trial.bad(wanted, f'{group}, {about}', changes)
        for about, changes, opened in sound:
            trial.sound(f'sound, {about}', changes, opened)
    print(', '.join(f'{group} {len(cases)}' for group, cases in groups))
    print(f'{sum(len(cases) for _, cases in groups)} bad files, {len(sound)} sound ones, {trial.wrong} wrong')
    return 1 if trial.wrong else 0


if __name__ == '__main__':
    sys.exit(main())
