#!/usr/bin/env python3
"""Times the opening of a file: 2,500 issues and then 10,000, each with three changes, so 12,500 rows and 50,000.

usage: python3 bench/opening.py PROGRAM [ISSUES]

PROGRAM is the built tracker, as crates/tracker/out/tracker after `rt run` there. The file is made by request lines first. Opening is a run
without lines; of five the fastest counts, by its processor time (user and system), with its peak memory. For comparison the same rows are
read by Python's sqlite3.
"""
import contextlib
import json
import os
import sqlite3
import subprocess
import sys
import tempfile
import time

ISSUES = int(sys.argv[2]) if len(sys.argv) > 2 else 10_000


def line(**members):
    return json.dumps({'user': 'anna', **members}) + '\n'


def load(issues):
    yield line(call='tick', to=1_709_251_200)
    for number in range(1, issues + 1):
        yield line(call='create', project='OPS', type='Task', summary=f'Fix login of step {number}', set={'points': str(number % 9), 'assignee': 'bo'})
    for number in range(1, issues + 1):
        yield line(call='transition', issue=f'OPS-{number}', transition='Start')
        yield line(call='edit', issue=f'OPS-{number}', set={'description': f'Seen at step {number} again, and noted.'})
        yield line(call='transition', issue=f'OPS-{number}', transition='Review')


def opened(program, store):
    """The processor seconds of a run without lines, and its peak memory in megabytes."""
    child = os.fork()
    if child == 0:
        os.dup2(os.open(os.devnull, os.O_RDONLY), 0)
        os.execv(program, [program, store, 'exec'])
    _, status, used = os.wait4(child, 0)
    if status:
        sys.exit(f'a run ended with status {os.waitstatus_to_exitcode(status)}')
    return used.ru_utime + used.ru_stime, used.ru_maxrss / 1024


def read(store):
    begin = time.process_time()
    with contextlib.closing(sqlite3.connect(store)) as base:
        count = len(base.execute('SELECT kind, no, body FROM kept ORDER BY kind, no').fetchall())
    return count, time.process_time() - begin


def main():
    program = sys.argv[1]
    before = None
    for issues in (ISSUES // 4, ISSUES):
        with tempfile.TemporaryDirectory() as room:
            store = f'{room}/rows'
            subprocess.run([program, store, 'exec'], input=''.join(load(issues)), stdout=subprocess.DEVNULL, text=True, check=True)
            seconds, memory = min(opened(program, store) for _ in range(5))
            rows, other = read(store)
            grown = f', {seconds / before:.2f} times that of a quarter' if before else ''
            print(f'{rows} rows, {os.path.getsize(store) / 1e6:.1f} MB: opened in {seconds:.3f} s{grown}, {memory:.0f} MB at the most; read by sqlite3 in {other:.3f} s')
            before = seconds


if __name__ == '__main__':
    main()
