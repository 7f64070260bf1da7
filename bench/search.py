#!/usr/bin/env python3
"""Times searches: 10,000 issues, or so many, with three changes each, and then 200 searches of each of ten kinds.

usage: python3 bench/search.py PROGRAM [ISSUES [STORE]]

PROGRAM is the built tracker, as crates/tracker/out/tracker after `rt run` there. STORE is a file: where it isn't there yet the issues are put
into it, which takes minutes, and a run that opens it again searches them; one that an earlier run made is searched as it is. Without it, one
run in memory does both. The kinds take turns of 20 searches; each turn is timed by the processor time that the run took meanwhile (Linux's
schedstat). Told are the mean of a kind's searches, and the median of its turns, which a machine that is slow for a while moves less. Peak
memory is that of the run that searches.
"""
import json
import os
import statistics
import subprocess
import sys
import threading

EACH = 200
IN_TURN = 20
START = 1_709_251_200

KINDS = [
    '',
    'ORDER BY key DESC',
    'assignee = bo AND points >= 3',
    'summary ~ "login fail*"',
    'status = "In Progress" ORDER BY points DESC, created',
    'labels IN (web, mobile) AND due < endOfMonth("+1M")',
    'status WAS Open BEFORE "2024-03-02"',
    'status CHANGED FROM Open TO "In Progress" BY membersOf(team)',
    'assignee WAS anna AND NOT assignee = anna',
    'priority >= Medium OR updated > -1d ORDER BY priority DESC, updated DESC',
]


def line(user, call, **members):
    return json.dumps({'user': user, 'call': call, **members})


def load(issues):
    """The lines that make so many issues and change each of them three times."""
    users, words = ['anna', 'bo', 'root'], ['login', 'logout', 'search', 'board', 'report']
    for number in range(1, issues + 1):
        key, user = f'OPS-{number}', users[number % 3]
        yield line('anna', 'tick', to=START + 10 * number)
        yield line(user, 'create', project='OPS', type='Task', summary=f'{words[number % 5]} fails at step {number}', set={
            'points': str(number % 8), 'priority': ['High', 'Medium', 'Low'][number % 3], 'labels': [['web', 'mobile', 'desk'][number % 3]],
            'due': f'2024-{number % 12 + 1:02}-{number % 28 + 1:02}'})
        yield line('anna', 'transition', issue=key, transition='Start')
        yield line(user, 'edit', issue=key, set={'assignee': users[number % 2], 'points': str(number % 7 + 1)})
        yield line('root', 'edit', issue=key, set={'labels': ['web', 'desk'] if number % 2 else None})


class Run:
    """A run of the program that answers lines as they come."""

    def __init__(self, program, store):
        self.child = subprocess.Popen([program, store, 'exec'], stdin=subprocess.PIPE, stdout=subprocess.PIPE)

    def spent(self):
        """The processor seconds so far."""
        with open(f'/proc/{self.child.pid}/schedstat', encoding='ascii') as it:
            return int(it.read().split()[0]) / 1e9

    def answer(self, lines):
        """Has the lines answered, each of which must be, and returns the processor seconds that it took."""
        begin = self.spent()
        text = ''.join(f'{it}\n' for it in lines).encode()
        writer = threading.Thread(target=lambda: (self.child.stdin.write(text), self.child.stdin.flush()))
        writer.start()
        for line in lines:
            reply = self.child.stdout.readline()
            if not reply or b'refused' in reply:
                sys.exit(f'{line} is answered by {reply}')
        writer.join()
        return self.spent() - begin

    def end(self):
        """The peak memory in megabytes."""
        self.child.stdin.close()
        _, status, used = os.wait4(self.child.pid, 0)
        if status:
            sys.exit(f'the run ended with {status}')
        return used.ru_maxrss / 1024


def main():
    number = int(sys.argv[2]) if len(sys.argv) > 2 else 10_000
    store = sys.argv[3] if len(sys.argv) > 3 else None
    is_filled = store is not None and os.path.exists(store)
    run = Run(sys.argv[1], store or ':memory:')
    if not is_filled:
        issues = list(load(number))
        took = run.answer(issues)
        print(f'{len(issues)} lines for {number} issues: {took:.2f} s of processor time, {len(issues) / took:,.0f} lines a second')
    if store and not is_filled:
        run.end()
        run = Run(sys.argv[1], store)
    if store:
        run.answer([line('cy', 'search', jql='')])
    turns = {jql: [] for jql in KINDS}
    for _ in range(EACH // IN_TURN):
        for jql in KINDS:
            lines = [line('cy', 'search', jql=jql)] * IN_TURN
            turns[jql].append(1e3 * run.answer(lines) / IN_TURN)
    for jql, each in turns.items():
        print(f'{statistics.mean(each):.2f} ms a search, {statistics.median(each):.2f} by the median: {jql or "(all)"}')
    mean, median = (statistics.mean(of(it) for it in turns.values()) for of in (statistics.mean, statistics.median))
    print(f'{mean:.2f} ms a search in the mean, {median:.2f} by the medians; {run.end():.0f} MB at most')


if __name__ == '__main__':
    main()
