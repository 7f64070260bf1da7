#!/usr/bin/env python3
"""Times saved filters: 200 of them over 10,000 issues, each of which looks at one field.

usage: python3 bench/filters.py PROGRAM

PROGRAM is the built tracker, as crates/tracker/out/tracker after `rt run` there. 199 filters have 100 members each, and one has all
issues, each with an end that is still to come. What is timed: saving the filters; an edit, after which each filter is asked about
the issue, and the same edit without filters; a tick at which nothing is due; a `filter` and a `board` of 100 members. Each is timed
by the processor time of runs of its own (user and system), less that of runs without its lines; of three runs the fastest counts.
Peak memory is that of the run.
"""
import json
import os
import sys
import tempfile

ISSUES, FILTERS, EDITS, TICKS, ASKED = 10_000, 200, 20_000, 50_000, 20_000
MEMBERS = 100
KINDS = ISSUES // MEMBERS
START = 1_709_251_200


def line(user, call, **members):
    return json.dumps({'user': user, 'call': call, **members}, separators=(',', ':'))


def create(number):
    set = {'points': str(number % KINDS), 'labels': [f'part{number // MEMBERS}'], 'due': '2030-01-01', 'assignee': 'bo'}
    return line('anna', 'create', project='OPS', type='Task', summary=f'Fix login of step {number}', set=set)


def save(number):
    """The filters of points, then those of labels, and behind them one of dates."""
    if number == FILTERS - 1:
        return line('bo', 'save_filter', name='in time', jql='due > now()')
    jql = f'points = {number}' if number < KINDS else f'labels = part{number - KINDS} ORDER BY priority DESC, key DESC'
    return line('bo', 'save_filter', name=f'filter {number}', jql=jql)


def edit(number):
    """All issues in turn, with each round another text; what the filters look at stays."""
    return line('bo', 'edit', issue=f'OPS-{number % ISSUES + 1}', set={'description': f'Seen at step {number}, and noted.'})


def ask(number):
    return line('cy', 'filter', filter=number % (FILTERS - 1) + 1)


LOAD = [line('anna', 'tick', to=START)] + [create(number) for number in range(ISSUES)]
SAVES = [save(number) for number in range(FILTERS)]
SAVED = LOAD + SAVES
BOARDED = SAVED + [line('anna', 'make_board', name='board', filter=number + 1) for number in range(KINDS)]
MEASURED = [
    (f'save_filter over {ISSUES:,} issues', LOAD, SAVES),
    ('edit without filters', LOAD, [edit(number) for number in range(EDITS)]),
    (f'edit with {FILTERS} filters', SAVED, [edit(number) for number in range(EDITS)]),
    ('tick, nothing due', SAVED, [line('anna', 'tick', to=START + number) for number in range(TICKS)]),
    (f'filter of {MEMBERS} members', SAVED, [ask(number) for number in range(ASKED)]),
    (f'board of {MEMBERS} members', BOARDED, [line('cy', 'board', board=number % KINDS + 1) for number in range(ASKED)]),
]


def run(program, lines):
    """The processor seconds and the peak memory, in megabytes, of a run over these lines."""
    with tempfile.TemporaryFile() as source, tempfile.TemporaryFile() as out:
        source.write('\n'.join(lines).encode())
        source.seek(0)
        child = os.fork()
        if child == 0:
            os.dup2(source.fileno(), 0)
            os.dup2(out.fileno(), 1)
            os.execv(program, [program, ':memory:', 'exec'])
        _, status, used = os.wait4(child, 0)
        out.seek(0)
        text = out.read()
        if status or text.count(b'\n') != len(lines) or b'refused' in text:
            sys.exit(f'status {status}, {text.count(bytes([10]))} replies to {len(lines)} lines, or one was refused')
        return used.ru_utime + used.ru_stime, used.ru_maxrss / 1024


def main():
    bases = {}
    for name, load, lines in MEASURED:
        base = bases.get(len(load)) or min(run(sys.argv[1], load)[0] for _ in range(3))
        bases[len(load)] = base
        runs = [run(sys.argv[1], load + lines) for _ in range(3)]
        took = min(seconds for seconds, _ in runs) - base
        print(f'{name}: {1e6 * took / len(lines):,.1f} us each, {len(lines)} lines; {runs[0][1]:.0f} MB at most')


if __name__ == '__main__':
    main()
