#!/usr/bin/env python3
"""Times sprints: 100 of them over 10,000 issues, each with 100 issues, and 50 saved filters that ask which sprints are open.

usage: python3 bench/sprints.py PROGRAM

PROGRAM is the built tracker, as crates/tracker/out/tracker after `rt run` there. What is timed: making a sprint; an edit that brings
an issue into a future sprint, and one of the points of an issue in an active one; a start and a close of a sprint of 100 issues, with
and without the filters; a `burndown` of 1,000 rows. The ways of measuring are those of `bench/filters.py`.
"""
import json
import sys

from filters import run

ISSUES, SPRINTS, FILTERS, EDITS, ASKED = 10_000, 100, 50, 20_000, 2_000
MEMBERS = ISSUES // SPRINTS
START = 1_709_251_200


def line(user, call, **members):
    return json.dumps({'user': user, 'call': call, **members}, separators=(',', ':'))


def create(number):
    return line('anna', 'create', project='OPS', type='Task', summary=f'Fix login of step {number}', set={'points': '3'})


def edit(number, **set):
    return line('bo', 'edit', issue=f'OPS-{number % ISSUES + 1}', set=set)


def save(number):
    return line('bo', 'save_filter', name=f'filter {number}', jql=f'sprint IN openSprints() AND points >= {number}')


LOAD = [line('anna', 'tick', to=START)] + [create(number) for number in range(ISSUES)]
MAKES = [line('anna', 'make_sprint', name=f'Sprint {number}') for number in range(SPRINTS)]
ENTRIES = [edit(number, sprint=number // MEMBERS + 1) for number in range(ISSUES)]
PLANNED = LOAD + MAKES + ENTRIES
TURNS = [line('anna', call, sprint=number + 1) for number in range(SPRINTS) for call in ('start_sprint', 'close_sprint')]
STARTED = PLANNED + [line('anna', 'start_sprint', sprint=number + 1) for number in range(SPRINTS)]
POINTS = [edit(number, points=str(number // ISSUES % 7 + 1)) for number in range(EDITS)]
BURNT = STARTED + [edit(number % MEMBERS, points=str(number // MEMBERS % 7 + 1)) for number in range(1_100)]
MEASURED = [
    ('make_sprint', LOAD, [line('anna', 'make_sprint', name=f'Sprint {number}') for number in range(900)]),
    ('edit into a future sprint', LOAD + MAKES, ENTRIES),
    (f'start or close of {MEMBERS} issues', PLANNED, TURNS),
    (f'the same with {FILTERS} filters', PLANNED + [save(number) for number in range(FILTERS)], TURNS),
    ('edit of points in an active sprint', STARTED, POINTS),
    ('burndown of 1,000 rows', BURNT, [line('anna', 'burndown', sprint=1) for _ in range(ASKED)]),
]


def main():
    bases = {}
    for name, load, lines in MEASURED:
        base = bases.get(len(load)) or min(run(sys.argv[1], load)[0] for _ in range(3))
        bases[len(load)] = base
        runs = [run(sys.argv[1], load + lines) for _ in range(3)]
        took = min(seconds for seconds, _ in runs) - base
        print(f'{name}: {1e6 * took / len(lines):,.1f} us each, {len(lines)} lines; {runs[0][1]:.0f} MB at most')


if __name__ == '__main__':
    main()
