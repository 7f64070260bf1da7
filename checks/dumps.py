#!/usr/bin/env python3
"""Dumps the rows of trackers and restores them, and tries inputs that are no dump.

usage: python3 checks/dumps.py [PROGRAM] [ISSUES]

A tracker with the calls of docs/tour.jsonl, one of `generate`, and where ISSUES is given one of so many, up to 20,000 (bench/dumps.py has more): what restores its dump has the
same rows, and the same dump. Then lines that are none, a cut line, a doubled row, rows out of order, an empty input, rows that are no
tracker's and a store that has rows: each has its status and text, and no row is kept. The status is 1 where one is not ok.
"""
import json
import os
import pathlib
import sqlite3
import subprocess
import sys
import tempfile

TOP = pathlib.Path(__file__).resolve().parent.parent
PROGRAM = sys.argv[1] if len(sys.argv) > 1 else str(TOP / 'crates/tracker/out/tracker')
if not pathlib.Path(PROGRAM).is_file():
    sys.exit(f'{PROGRAM} is not there: nothing was tried')
ISSUES = sys.argv[2] if len(sys.argv) > 2 else None


def run(store, words, given=b''):
    done = subprocess.run([PROGRAM, str(store), *words], input=given, capture_output=True)
    return done.returncode, done.stdout


def rows_of(path):
    """The rows that SQLite finds in a file."""
    db = sqlite3.connect(path)
    made = db.execute("SELECT count(*) FROM sqlite_schema WHERE name = 'kept'").fetchone()[0]
    rows = db.execute('SELECT kind, no, body FROM kept ORDER BY kind, no').fetchall() if made else []
    db.close()
    return rows


def line(kind, no, body):
    return json.dumps({'body': body, 'kind': kind, 'no': no}, separators=(',', ':'), ensure_ascii=False).encode()


FAILED = []


def check(name, got, wanted):
    ok = got == wanted
    print(f'{"ok" if ok else "NOT OK"}  {name}' + ('' if ok else f': {got!r}, wanted {wanted!r}'))
    if not ok:
        FAILED.append(name)


def there_and_back(room, name, words, given=b''):
    """A tracker by these words; its dump is restored, and dumped again."""
    one, other = room / f'{name}.db', room / f'{name}-again.db'
    run(one, words, given)
    status, dump = run(one, ['dump'])
    check(f'{name}: the dump ends with 0', status, 0)
    check(f'{name}: it has a line for each row', dump.splitlines(), [line(*row) for row in rows_of(one)])
    check(f'{name}: it is restored', run(other, ['restore'], dump), (0, b''))
    check(f'{name}: with the same rows', rows_of(other), rows_of(one))
    check(f'{name}: and the same dump', run(other, ['dump']), (0, dump))
    check(f'{name}: which opens', run(other, ['exec'])[0], 0)
    return dump


def main():
    room = pathlib.Path(tempfile.mkdtemp())
    dump = there_and_back(room, 'tour', ['exec'], (TOP / 'docs/tour.jsonl').read_bytes())
    there_and_back(room, 'load', ['generate', '200'])
    there_and_back(room, 'texts', ['exec'], b''.join(json.dumps(call).encode() + b'\n' for call in (
        {'user': 'anna', 'call': 'create', 'project': 'OPS', 'type': 'Task', 'summary': 'A "quoted" \\ text, na\u00efve \u65e5\u672c \U0001f642',
         'set': {'description': 'two\nlines\tand a tab'}},)))
    if ISSUES:
        there_and_back(room, 'large', ['generate', ISSUES])

    lines = dump.splitlines()
    first, second, third = lines[0], lines[1], lines[2]
    whole = b'\n'.join(lines) + b'\n'
    spaced = b' \t' + first.replace(b'"kind":', b' "kind" : ') + b' \r\n' + b'\n'.join(lines[1:])
    turned = json.dumps(dict(reversed(list(json.loads(second).items()))))
    tries = [
        ('blanks, CR LF, and no line feed at the end', spaced, (0, b'')),
        ('members in another order', whole.replace(second, turned.encode(), 1), (0, b'')),
        ('an empty input', b'', (5, b'kept 1 0\n')),
        ('the first line alone', first + b'\n', (5, b'kept 2 0\n')),
        ('without the first line', b'\n'.join(lines[1:]) + b'\n', (5, b'kept 1 0\n')),
        ('without the last line', b'\n'.join(lines[:-1]) + b'\n', (5, b'kept 10 %d\n' % json.loads(lines[-1])['no'])),
        ('a cut line', whole[:-10], (8, b'row %d\n' % len(lines))),
        ('an empty line', first + b'\n\n' + b'\n'.join(lines[1:]), (8, b'row 2\n')),
        ('an empty line at the end', whole + b'\n', (8, b'row %d\n' % (len(lines) + 1))),
        ('a doubled row', first + b'\n' + first + b'\n' + b'\n'.join(lines[1:]), (8, b'row 2\n')),
        ('a doubled row farther on', whole + first + b'\n', (8, b'row %d\n' % (len(lines) + 1))),
        ('rows out of order', b'\n'.join([first, third, second, *lines[3:]]), (8, b'row 3\n')),
        ('no JSON', b'nonsense\n', (8, b'row 1\n')),
        ('no object', b'[]\n', (8, b'row 1\n')),
        ('a member that lacks', b'{"body":"","kind":1}\n', (8, b'row 1\n')),
        ('a member too many', b'{"body":"","kind":1,"no":0,"x":0}\n', (8, b'row 1\n')),
        ('a member twice', b'{"body":"","kind":1,"kind":1,"no":0}\n', (8, b'row 1\n')),
        ('a member twice in the place of another', b'{"body":"","kind":1,"kind":1}\n', (8, b'row 1\n')),
        ('another name', b'{"Body":"","kind":1,"no":0}\n', (8, b'row 1\n')),
        ('a body that is no text', b'{"body":0,"kind":1,"no":0}\n', (8, b'row 1\n')),
        ('a kind of 256', b'{"body":"","kind":256,"no":0}\n', (8, b'row 1\n')),
        ('a kind below 0', b'{"body":"","kind":-1,"no":0}\n', (8, b'row 1\n')),
        ('a kind with a point', b'{"body":"","kind":1.0,"no":0}\n', (8, b'row 1\n')),
        ('a kind with an exponent', b'{"body":"","kind":1e0,"no":0}\n', (8, b'row 1\n')),
        ('a kind in quotes', b'{"body":"","kind":"1","no":0}\n', (8, b'row 1\n')),
        ('the greatest number', b'{"body":"","kind":1,"no":9223372036854775807}\n', (5, b'kept 1 0\n')),
        ('one more', b'{"body":"","kind":1,"no":9223372036854775808}\n', (8, b'row 1\n')),
        ('bytes that are no UTF-8', b'{"body":"\xff","kind":1,"no":0}\n', (8, b'row 1\n')),
        ('two values', b'{"body":"","kind":1,"no":0}{}\n', (8, b'row 1\n')),
        ('a kind that no tracker has', whole + line(11, 1, 'x') + b'\n', (5, b'kept 11 1\n')),
        ('another setup', whole.replace(first, line(1, 0, 'users = 3'), 1), (5, b'kept 1 0\n')),
    ]
    for at, (name, given, wanted) in enumerate(tries):
        store = room / f'try-{at}.db'
        check(name, run(store, ['restore'], given), wanted)
        kept = rows_of(store)
        check(f'{name}: what is kept', len(kept), len(lines) if wanted[0] == 0 else 0)

    # A store that has rows keeps them, and reads nothing.
    has = room / 'tour.db'
    before = rows_of(has)
    check('a store that has rows', run(has, ['restore'], dump), (9, b'held\n'))
    check('a store that has rows: it keeps them', rows_of(has), before)
    check('a store without rows is dumped as nothing', run(room / 'none.db', ['dump']), (0, b''))

    usage = b'usage: exec, check, init, import USER, export, generate N\n'
    check('a word behind dump', run(room / 'none.db', ['dump', 'all']), (1, usage))
    check('a word behind restore', run(room / 'none.db', ['restore', 'all']), (1, usage))
    with open('/dev/full', 'wb') as full:
        done = subprocess.run([PROGRAM, str(has), 'dump'], stdout=full)
        check('a full disk behind a dump', done.returncode, 3)
    folder = os.open('/', os.O_RDONLY)
    done = subprocess.run([PROGRAM, str(room / 'folder.db'), 'restore'], stdin=folder, capture_output=True)
    os.close(folder)
    check('an input that is a folder', (done.returncode, done.stdout), (2, b''))

    # One whole file is left at a clean end.
    for name in ('tour.db', 'tour-again.db'):
        wal = room / f'{name}-wal'
        alone = room / f'alone-{name}'
        alone.write_bytes((room / name).read_bytes())
        check(f'{name} alone has its rows', rows_of(alone), rows_of(room / name))
        check(f'{name}: its log has no commit', not wal.exists() or run(alone, ['dump'])[1] == run(room / name, ['dump'])[1], True)
    return 1 if FAILED else 0


if __name__ == '__main__':
    sys.exit(main())
