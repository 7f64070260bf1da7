#!/usr/bin/env python3
"""Counts instructions at N and at four times N: of `generate N`, of searches of the ten kinds of bench/search.py, all of a kind together, and of
creates and moves by lines.

usage: python3 bench/growth.py PROGRAM

PROGRAM is the built tracker, as crates/tracker/out/tracker after `rt run` there. The counts are valgrind's, which are the same in each run, whatever
else the machine does and wherever the issues lie in its caches; bench/generate.py and bench/search.py take the time. The status is 1 where four
times as many issues take 4.6 times as many instructions or more. It takes some twenty minutes.
"""
import random
import re
import subprocess
import sys
import tempfile

import search

MOST_TIMES = 4.6
EACH = 5
LINES = 1_000


def instructions(program, words, lines=()):
    """The instructions of a run with these words over these lines."""
    with tempfile.TemporaryDirectory() as room, open(f'{room}/lines', 'w+') as source:
        source.write('\n'.join(lines))
        source.seek(0)
        command = ['valgrind', '--tool=cachegrind', '--cache-sim=no', f'--cachegrind-out-file={room}/out', program, ':memory:', *words]
        ended = subprocess.run(command, stdin=source, stdout=subprocess.DEVNULL, stderr=subprocess.PIPE, text=True, check=True)
        return int(re.search(r'I\s+refs:\s+([\d,]+)', ended.stderr)[1].replace(',', ''))


def searching(program, issues):
    """The instructions of a search, in the mean of all kinds."""
    made = list(search.load(issues))
    asked = [search.line('cy', 'search', jql=jql) for jql in search.KINDS for _ in range(EACH)]
    return (instructions(program, ['exec'], made + asked) - instructions(program, ['exec'], made)) / len(asked)


def created(numbers):
    """The lines that make the issues of these numbers."""
    return [search.line('anna', 'create', project='OPS', type='Task', summary=f'Fix login of step {number}') for number in numbers]


def creating(program, issues):
    """The instructions of a create behind so many issues."""
    made = created(range(issues))
    return (instructions(program, ['exec'], made + created(range(LINES))) - instructions(program, ['exec'], made)) / LINES


def moving(program, issues):
    """The instructions of a move among so many issues."""
    by, made = random.Random(1), created(range(issues))
    pairs = [by.sample(range(1, issues + 1), 2) for _ in range(LINES)]
    asked = [search.line('anna', by.choice(['move_before', 'move_after']), issue=f'OPS-{one}', other=f'OPS-{other}') for one, other in pairs]
    return (instructions(program, ['exec'], made + asked) - instructions(program, ['exec'], made)) / LINES


def main():
    program = sys.argv[1]
    grown = []
    for what, numbers, count in (
        ('generate N', (1_250, 5_000, 20_000), lambda n: instructions(program, ['generate', str(n)])),
        ('a search', (2_500, 10_000, 40_000), lambda n: searching(program, n)),
        ('a create', (3_125, 12_500, 50_000), lambda n: creating(program, n)),
        ('a move', (3_125, 12_500, 50_000), lambda n: moving(program, n)),
    ):
        before = None
        for number in numbers:
            found = count(number)
            if before:
                grown.append(found / before)
            print(f'{what}, {number} issues: {found / 1e6:,.3f} million instructions' + (f', {found / before:.2f} times as many' if before else ''), flush=True)
            before = found
    sys.exit(max(grown) >= MOST_TIMES)


main()
