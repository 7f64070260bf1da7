#!/usr/bin/env python3
"""Copies a tracker's file and its log beside a busy server, opens each copy, and looks whether it is the state of a moment between.

usage: python3 checks/copies.py PROGRAM [COPIES [PAUSE [SEED]]]

PROGRAM is the built tracker, as crates/tracker/out/tracker after `rt run` there. It serves a tracker of 40 issues on port 8798, and
is sent one change after another. Meanwhile COPIES copies (60) are made in each of these ways, with a pause of up to PAUSE seconds (0.05)
between the two files, as a large file or a slow disk has it:

- `log, file`: the log first.
- `file, log`: the file first.
- `same log`: the file first, and the copy is thrown away where the first 32 bytes of the log weren't the same before and behind, as
  deploy/backup does it.

Each copy is opened by an empty run. Where that ends well, its rows have to be those that all requests leave that were answered before the
copy began, or those and one or more of the next ones, up to the one that was under way when the copy ended. They are compared with those of
a run that nobody copied. A line for each way tells how many copies were thrown away, how many were opened, and how many of these have the
rows of such a moment. The status is 1 where the last way has one that was not opened or has other rows.
"""
import contextlib
import http.client
import json
import os
import pathlib
import random
import shutil
import signal
import socket
import subprocess
import sys
import tempfile
import threading
import time

from kills import quiet_run, rows_of

PORT = 8798
ISSUES = 40
WAYS = ('log, file', 'file, log', 'same log')
ENDINGS = {'log, file': ('-wal', ''), 'file, log': ('', '-wal'), 'same log': ('', '-wal')}


def asked(by, number):
    """The call of that number: one that changes something, nearly always."""
    issue, other = (f'OPS-{by.randint(1, ISSUES)}' for _ in range(2))
    return by.choice([
        {'call': 'create', 'project': 'OPS', 'type': 'Task', 'summary': f'Step {number}', 'set': {'points': str(number % 9)}},
        {'call': 'edit', 'issue': issue, 'set': {'description': f'Seen at {number}, and noted'}},
        {'call': 'edit', 'issue': issue, 'set': {'description': 'x' * by.randint(1, 6_000), 'points': str(number % 7)}},
        {'call': 'transition', 'issue': issue, 'transition': by.choice(['Start', 'Review', 'Finish', 'Reopen'])},
        {'call': 'move_before', 'issue': issue, 'other': other},
    ])


class Worker(threading.Thread):
    """Sends one call after another until it is told to stop, and keeps each with the number of its change, or None."""

    def __init__(self, by, log):
        super().__init__()
        self.by, self.log, self.calls, self.changes, self.ends, self.heads = by, log, [], [], threading.Event(), set()

    @property
    def logs(self):
        """How many logs there were."""
        return len(self.heads)

    def run(self):
        link = http.client.HTTPConnection('127.0.0.1', PORT)
        while not self.ends.is_set():
            call = asked(self.by, len(self.calls))
            self.calls.append(call)
            link.request('POST', '/calls', json.dumps(call), {'X-User': 'anna'})
            answer = json.loads(link.getresponse().read())
            self.changes.append(answer.get('ok', {}).get('change'))
            self.heads.add(head_of(self.log))
        link.close()


def head_of(log):
    return log.read_bytes()[:32] if log.exists() else None


def copied(way, store, to, pause):
    """Copies both files, and tells whether the copy counts."""
    log = pathlib.Path(f'{store}-wal')
    head = head_of(log)
    first, second = ENDINGS[way]
    for ending in (first, second):
        if os.path.exists(f'{store}{ending}'):
            shutil.copyfile(f'{store}{ending}', f'{to}{ending}')
        if ending == first:
            time.sleep(pause)
    return way != 'same log' or head_of(log) == head


class Reference:
    """What the tracker's rows are after each number of calls, in a run that nobody copies."""

    def __init__(self, program, room, calls, changes, moments):
        self.program, self.store, self.calls, self.changes, self.moments = program, f'{room}/reference', calls, changes, moments
        self.beside, self.done = f'{room}/beside', 0

    def lines(self, begin, end):
        for call, change in zip(self.calls[begin:end], self.changes[begin:end]):
            if change is not None:
                yield json.dumps({'user': 'anna', 'call': 'tick', 'to': self.moments[change]}) + '\n'
            yield json.dumps({'user': 'anna', **call}) + '\n'

    def go_to(self, count):
        quiet_run(self.program, self.store, list(self.lines(self.done, count)))
        self.done = count

    def has(self, rows, begin, end):
        """Whether these are the rows after `begin` calls, or some more, up to `end`. Both only ever grow."""
        last = change_of(rows)
        while begin < end and (self.changes[begin] or 0) <= last:
            begin += 1
        while begin > self.done and self.changes[begin - 1] is None:
            begin -= 1
        if begin < self.done:
            begin = self.done
        self.go_to(begin)
        for ending in ('', '-wal'):
            shutil.copyfile(self.store + ending, self.beside + ending)
        while True:
            if without_moment(rows_of(self.beside)) == without_moment(rows):
                return True
            if begin == end:
                return False
            quiet_run(self.program, self.beside, list(self.lines(begin, begin + 1)))
            begin += 1


def change_of(rows):
    return json.loads(next(body for kind, _, body in rows if kind == 2))['change']


def without_moment(rows):
    """The rows but for the present moment, which each request sets before its call."""
    return [(kind, no, json.dumps({**json.loads(body), 'moment': 0}) if kind == 2 else body) for kind, no, body in rows]


def moments_of(rows):
    """The moment of each change."""
    found = {}
    for kind, no, body in rows:
        if kind == 3:
            part = json.loads(body)
            found[part['change']] = part['at']
        elif kind == 4:
            found[no] = json.loads(body)['at']
    return found


def opened(program, copy):
    """The rows of a copy, or what the program said of it."""
    ran = subprocess.run([program, copy, 'exec'], input='', capture_output=True, text=True)
    return rows_of(copy) if ran.returncode == 0 else f'status {ran.returncode} {(ran.stdout + ran.stderr).strip()}'


def serving(program, store):
    run = subprocess.Popen([program, store, 'serve', str(PORT), '2'])
    while run.poll() is None:
        with socket.socket() as link:
            if link.connect_ex(('127.0.0.1', PORT)) == 0:
                time.sleep(0.2)
                if run.poll() is None:
                    return run
        time.sleep(0.1)
    raise SystemExit(f'the server ended with status {run.returncode}: is port {PORT} taken?')


def make_copies(program, store, room, copies, pause, by):
    """Copies beside a busy server: of each its way, its path, whether it counts, and how many calls were answered before and sent behind."""
    server, worker, made, before = serving(program, store), Worker(by, pathlib.Path(f'{store}-wal')), [], 0
    worker.start()
    try:
        for number in range(copies * len(WAYS)):
            way, to = WAYS[number % len(WAYS)], f'{room}/copy{number}'
            time.sleep(by.uniform(0.05, 0.2))
            while len(worker.changes) == before and worker.is_alive():
                time.sleep(0.01)
            before = len(worker.changes)
            counts = copied(way, store, to, by.uniform(0, pause))
            made.append((way, to, counts, before, len(worker.calls)))
    finally:
        worker.ends.set()
        worker.join()
        server.terminate()
        server.wait()
    return made, worker


def main():
    signal.signal(signal.SIGTERM, lambda *_: sys.exit(1))
    program = os.path.abspath(sys.argv[1])
    copies = int(sys.argv[2]) if len(sys.argv) > 2 else 60
    pause = float(sys.argv[3]) if len(sys.argv) > 3 else 0.05
    by = random.Random(sys.argv[4] if len(sys.argv) > 4 else 'copies')
    count = {way: dict.fromkeys(('thrown away', 'not opened', 'opened', 'of a moment'), 0) for way in WAYS}
    with tempfile.TemporaryDirectory() as room:
        store = f'{room}/rows'
        subprocess.run([program, store, 'generate', str(ISSUES)], check=True, stdout=subprocess.DEVNULL)
        for ending in ('', '-wal'):
            with contextlib.suppress(FileNotFoundError):
                shutil.copyfile(store + ending, f'{room}/reference{ending}')
        begun = time.monotonic()
        made, worker = make_copies(program, store, room, copies, pause, by)
        took = time.monotonic() - begun
        print(f'{len(worker.calls)} calls in {took:.0f} s, {worker.logs} logs, {len(made)} copies', flush=True)
        reference = Reference(program, room, worker.calls, worker.changes, moments_of(rows_of(store)))
        for way, to, counts, before, behind in made:
            if not counts:
                count[way]['thrown away'] += 1
                continue
            rows = opened(program, to)
            if isinstance(rows, str):
                count[way]['not opened'] += 1
                print(f'{way}: {rows}')
                continue
            count[way]['opened'] += 1
            if reference.has(rows, before, behind):
                count[way]['of a moment'] += 1
            else:
                print(f'{way}: opened, and its rows are those of no moment between {before} and {behind} calls')
            for ending in ('', '-wal'):
                pathlib.Path(to + ending).unlink(missing_ok=True)
    for way in WAYS:
        print(f'{way}: ' + ', '.join(f'{number} {told}' for told, number in count[way].items()))
    last = count[WAYS[-1]]
    return 1 if last['not opened'] or last['opened'] != last['of a moment'] else 0


if __name__ == '__main__':
    sys.exit(main())
