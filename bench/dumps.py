#!/usr/bin/env python3
"""Times `tracker a.db dump | tracker b.db restore`: 50,000 issues, each with four changes.

usage: python3 bench/dumps.py PROGRAM [ISSUES]

PROGRAM is the built tracker, as crates/tracker/out/tracker after `rt run` there. The file is made by request lines first. Of each of the two
processes it prints the processor time (user and system) and the peak memory, and of the pipe the time on the clock; then the same of a
dump into a file and of what restores it. The status is 1 where the restored rows aren't the same, by SQLite and by a second dump.
"""
import contextlib
import json
import os
import sqlite3
import subprocess
import sys
import tempfile
import time

ISSUES = int(sys.argv[2]) if len(sys.argv) > 2 else 50_000


def line(**members):
    return json.dumps({'user': 'anna', **members}) + '\n'


def load():
    yield line(call='tick', to=1_709_251_200)
    for number in range(1, ISSUES + 1):
        yield line(call='create', project='OPS', type='Task', summary=f'Fix login of step {number}', set={'points': str(number % 9), 'assignee': 'bo'})
    for number in range(1, ISSUES + 1):
        yield line(call='transition', issue=f'OPS-{number}', transition='Start')
        yield line(call='edit', issue=f'OPS-{number}', set={'description': f'Seen at step {number} again, and noted.'})
        yield line(call='edit', issue=f'OPS-{number}', set={'points': str(number % 7), 'assignee': 'anna'})
        yield line(call='transition', issue=f'OPS-{number}', transition='Review')


def begun(words, **streams):
    return subprocess.Popen([sys.argv[1], *words], **streams)


def ended(process):
    """The processor seconds of a process, and its peak memory in megabytes."""
    _, status, used = os.wait4(process.pid, 0)
    process.returncode = os.waitstatus_to_exitcode(status)
    if process.returncode:
        sys.exit(f'{process.args[1:]} ended with status {process.returncode}')
    return used.ru_utime + used.ru_stime, used.ru_maxrss / 1024


def told(name, used):
    print(f'{name}: {used[0]:.2f} s of processor, {used[1]:.0f} MB', flush=True)


def rows_of(path):
    with contextlib.closing(sqlite3.connect(path)) as base:
        return base.execute('SELECT kind, no, body FROM kept ORDER BY kind, no').fetchall()


def main():
    with tempfile.TemporaryDirectory() as room:
        one, piped, other, text = (f'{room}/{name}' for name in ('one.db', 'piped.db', 'other.db', 'dump.jsonl'))
        made = begun([one, 'exec'], stdin=subprocess.PIPE, stdout=subprocess.DEVNULL, text=True)
        for each in load():
            made.stdin.write(each)
        made.stdin.close()
        told('made by request lines', ended(made))

        begin = time.monotonic()
        dump = begun([one, 'dump'], stdout=subprocess.PIPE)
        restore = begun([piped, 'restore'], stdin=dump.stdout)
        dump.stdout.close()
        both = ended(dump), ended(restore)
        clock = time.monotonic() - begin
        told('dump into a pipe', both[0])
        told('restore from it', both[1])
        print(f'the pipe: {clock:.2f} s on the clock')

        with open(text, 'wb') as out:
            told('dump into a file', ended(begun([one, 'dump'], stdout=out)))
        print(f'the dump: {os.path.getsize(text)} bytes, the file {os.path.getsize(one)}, its log {os.path.getsize(one + "-wal")}')
        with open(text, 'rb') as source:
            told('restore from a file', ended(begun([other, 'restore'], stdin=source)))

        rows = rows_of(one)
        same = rows == rows_of(piped) == rows_of(other)
        again = subprocess.run([sys.argv[1], other, 'dump'], capture_output=True, check=True).stdout
        with open(text, 'rb') as source:
            same = same and again == source.read()
        print(f'{len(rows)} rows, the same' if same else 'NOT the same rows')
        return 0 if same else 1


if __name__ == '__main__':
    sys.exit(main())
