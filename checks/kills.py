#!/usr/bin/env python3
"""Kills the tracker at random moments while it answers lines over a file, and looks at the rows that are there afterwards.

usage: python3 checks/kills.py PROGRAM [KILLS [SEED]]

PROGRAM is the built tracker, as crates/tracker/out/tracker after `rt run` there. Each of 200 runs opens the file that the one before left, is
given lines faster than it answers them, and is killed after up to 60 milliseconds. The rows are then those that a run which nobody
killed leaves after as many lines as were answered, or after one more. A run that ends by itself, other rows, and a file that can't be opened
again are told, and the status is 1. The last line counts kills, lines and how often one more was kept.
"""
import contextlib
import json
import os
import random
import shutil
import signal
import sqlite3
import subprocess
import sys
import tempfile
import threading
import time

AT_ONCE = 400


def rows_of(store):
    """The rows of a file that nobody has open, read from a copy so that the file stays as it is."""
    with tempfile.TemporaryDirectory() as room:
        for ending in ('', '-wal'):
            if os.path.exists(store + ending):
                shutil.copy(store + ending, f'{room}/rows{ending}')
        if not os.path.exists(f'{room}/rows'):
            return []
        with contextlib.closing(sqlite3.connect(f'{room}/rows')) as base:
            try:
                tables = base.execute("SELECT name FROM sqlite_master WHERE name = 'kept'").fetchall()
            except sqlite3.DatabaseError:
                # (its first making was cut off: a file that SQLite doesn't read, and the tracker does)
                return []
            if not tables:
                return []
            return base.execute('SELECT kind, no, body FROM kept ORDER BY kind, no').fetchall()


def line(by, number):
    """The line of that number: one of many kinds, about issues that may be there."""
    issue, other = (f'OPS-{by.randint(1, 40)}' for _ in range(2))
    kinds = [
        {'call': 'create', 'project': 'OPS', 'type': 'Task', 'summary': f'Step {number}', 'set': {'points': str(number % 9)}},
        {'call': 'edit', 'issue': issue, 'set': {'points': str(number % 7), 'description': f'Seen at {number}, and noted'}},
        {'call': 'transition', 'issue': issue, 'transition': by.choice(['Start', 'Review', 'Finish', 'Reopen'])},
        {'call': 'move_before', 'issue': issue, 'other': other},
        {'call': 'tick', 'to': 1_709_251_200 + number},
        {'call': 'save_filter', 'name': f'mine {number % 20}', 'jql': f'points > {number % 5} ORDER BY rank'},
        {'call': 'make_sprint', 'name': f'Week {number}'} if number % 40 == 0 else {'call': 'rebalance_start'},
        {'call': 'rebalance_step', 'count': 8},
    ]
    return json.dumps({'user': 'anna', **by.choice(kinds)}) + '\n'


def feed(stream, lines):
    with contextlib.suppress(OSError, ValueError):
        for each in lines:
            stream.write(each)
        stream.flush()


def killed_run(program, store, lines, by):
    """The number of lines that were answered, and whether the run was killed."""
    run = subprocess.Popen([program, store, 'exec'], stdin=subprocess.PIPE, stdout=subprocess.PIPE, text=True)
    feeder = threading.Thread(target=feed, args=(run.stdin, lines))
    feeder.start()
    time.sleep(by.uniform(0, 0.06))
    run.send_signal(signal.SIGKILL)
    answers = run.stdout.read()
    feeder.join()
    with contextlib.suppress(OSError):
        run.stdin.close()
    return answers.count('\n'), run.wait() == -signal.SIGKILL


def quiet_run(program, store, lines):
    subprocess.run([program, store, 'exec'], input=''.join(lines), stdout=subprocess.DEVNULL, text=True, check=True)


def main():
    program, by = sys.argv[1], random.Random(sys.argv[3] if len(sys.argv) > 3 else 'kills')
    kills = int(sys.argv[2]) if len(sys.argv) > 2 else 200
    wrong, more, done, numbers = 0, 0, 0, iter(range(1, 10_000_000))
    with tempfile.TemporaryDirectory() as room:
        store, other = f'{room}/killed', f'{room}/quiet'
        for kill in range(kills):
            lines = [line(by, next(numbers)) for _ in range(AT_ONCE)]
            answered, was_killed = killed_run(program, store, lines, by)
            found = rows_of(store)
            if not found and not done:
                # (it was killed before the opening rows were kept)
                continue
            quiet_run(program, other, lines[:answered])
            if found != rows_of(other):
                quiet_run(program, other, lines[answered:answered + 1])
                answered, more = answered + 1, more + 1
                if found != rows_of(other):
                    wrong += 1
                    print(f'kill {kill}: after {answered - 1} lines the rows are neither those nor those of one more')
                    break
            if not was_killed:
                wrong += 1
                print(f'kill {kill}: the run ended by itself')
            done += answered
        quiet_run(program, store, [])
    print(f'{kills} kills, {done} lines answered, {more} times one more was kept, {wrong} wrong')
    return 1 if wrong else 0


if __name__ == '__main__':
    sys.exit(main())
