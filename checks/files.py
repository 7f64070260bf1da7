#!/usr/bin/env python3
"""Tries the keeper of rows on files that are not its own, that are damaged, that another process holds or that may not be written.

usage: python3 checks/files.py [PROGRAM]

Each file has a line: what the keeper answered, and what is wanted. It may change none of them. The status is 1 where one is not ok.

The program is written into a copy of the repository's crates, where `rt run` proves and builds it, which takes some minutes. Nothing
in the repository changes. With a path PROGRAM it is left there, and taken from there where it is there already.
"""
import hashlib
import os
import pathlib
import sqlite3
import subprocess
import sys
import tempfile

from keeper_program import MADE, filled, program_in


def digest(path):
    return hashlib.sha256(path.read_bytes()).hexdigest()


def by_sql(text):
    def make(path):
        with sqlite3.connect(path) as db:
            db.executescript(text)
        db.close()
    return make


def truncated(path):
    filled(path)
    with open(path, 'r+b') as it:
        it.truncate(path.stat().st_size // 2)


FILES = [
    ('an empty file', lambda path: path.write_bytes(b''), (0, 0)),
    ('just the table', by_sql(f"{MADE}; INSERT INTO kept VALUES (1, 0, 'a')"), (0, 0)),
    ('another table', by_sql('CREATE TABLE other (a)'), (2, 2)),
    ('the table and another', by_sql(f'{MADE}; CREATE TABLE other (a)'), (2, 2)),
    ('other columns', by_sql('CREATE TABLE kept (kind INTEGER, no INTEGER, text TEXT, PRIMARY KEY (kind, no))'), (2, 2)),
    ('no key', by_sql('CREATE TABLE kept (kind INTEGER, no INTEGER, body TEXT)'), (2, 2)),
    ('a trigger', by_sql(f'{MADE}; CREATE TRIGGER t AFTER INSERT ON kept BEGIN DELETE FROM kept; END'), (2, 2)),
    ('a view', by_sql(f'{MADE}; CREATE VIEW v AS SELECT 1'), (2, 2)),
    ('a body that is NULL', by_sql(f'{MADE}; INSERT INTO kept VALUES (1, 0, NULL)'), (2, None)),
    ('a kind of 256', by_sql(f"{MADE}; INSERT INTO kept VALUES (256, 0, 'a')"), (2, None)),
    ('a number below 0', by_sql(f"{MADE}; INSERT INTO kept VALUES (1, -1, 'a')"), (2, None)),
    ('a body that is no text', by_sql(f"{MADE}; INSERT INTO kept VALUES (1, 0, x'ff')"), (2, None)),
    ('other bytes', lambda path: path.write_bytes(b'no database, but some bytes all the same'), (4, 4)),
    ('the first half of a file', truncated, (4, 4)),
]


def answer(program, path, word):
    return subprocess.run([program, path, word], capture_output=True, text=True).returncode


def files(program, work):
    wrong = 0

    def tell(name, got, wanted, same):
        nonlocal wrong
        right = got == wanted and same
        wrong += not right
        print(f'{"ok  " if right else "BAD "} {name}: {got}, wanted {wanted}{"" if same else ", and the file changed"}')

    for number, (name, make, wanted) in enumerate(FILES):
        path = work / f'file{number}.db'
        make(path)
        before = digest(path)
        got = (answer(program, path, 'rows'), None if wanted[1] is None else answer(program, path, 'put'))
        tell(name, got, wanted, wanted == (0, 0) or digest(path) == before)
    path = work / 'held.db'
    filled(path)
    with sqlite3.connect(path) as db:
        db.execute('BEGIN EXCLUSIVE')
        tell('a file that another process holds', answer(program, path, 'rows'), 4, True)
    db.close()
    path = work / 'read_only.db'
    filled(path)
    path.chmod(0o444)
    before = digest(path)
    words = ['setpriv', '--reuid=65534', '--clear-groups'] if os.getuid() == 0 else []
    os.chmod(work, 0o755)
    got = subprocess.run([*words, program, path, 'put'], capture_output=True).returncode
    tell('a file that may not be written', got, 4, digest(path) == before)
    return wrong


def main():
    if len(sys.argv) > 2 or sys.argv[1:2] in (['-h'], ['--help']):
        sys.exit(__doc__)
    kept = pathlib.Path(sys.argv[1]).resolve() if len(sys.argv) > 1 else None
    with tempfile.TemporaryDirectory() as it:
        work = pathlib.Path(it)
        sys.exit(1 if files(program_in(work, kept), work) else 0)


main()
