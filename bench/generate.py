#!/usr/bin/env python3
"""Times `generate N`: 1,250 issues, 5,000 and 20,000, in memory, and 5,000 over a file.

usage: python3 bench/generate.py PROGRAM

PROGRAM is the built tracker, as crates/tracker/out/tracker after `rt run` there. Of seven runs the fastest counts, by its processor time (user
and system), with its peak memory. The three numbers take turns, since a machine may be slower for a while, and of how many times as long
as the run before one takes the median counts. The status is 1 where four times the issues in memory take 4.6 times as long or longer, or
20,000 take more than 3 seconds.
"""
import os
import statistics
import sys
import tempfile

RUNS = 7
MOST_SECONDS = 3
MOST_TIMES = 4.6


def ran(program, store, number):
    """The processor seconds of a run, its peak memory in megabytes, and what it wrote."""
    with tempfile.TemporaryFile() as told:
        child = os.fork()
        if child == 0:
            os.dup2(os.open(os.devnull, os.O_RDONLY), 0)
            os.dup2(told.fileno(), 1)
            os.execv(program, [program, store, 'generate', str(number)])
        _, status, used = os.wait4(child, 0)
        if status:
            sys.exit(f'a run ended with status {os.waitstatus_to_exitcode(status)}')
        told.seek(0)
        return used.ru_utime + used.ru_stime, used.ru_maxrss / 1024, told.read().decode().strip()


def once(program, number, file):
    """A run over a store of its own."""
    with tempfile.TemporaryDirectory() as room:
        return ran(program, f'{room}/rows' if file else ':memory:', number)


def main():
    program, slow = sys.argv[1], False
    numbers = (1_250, 5_000, 20_000)
    rounds = [[once(program, number, False) for number in numbers] for _ in range(RUNS)]
    for place, number in enumerate(numbers):
        seconds, peak, told = min(runs[place] for runs in rounds)
        times = statistics.median(runs[place][0] / runs[place - 1][0] for runs in rounds) if place else 0
        print(f'{number} issues: {seconds:.2f} s{f", {times:.1f} times as long" if place else ""}, {peak:.0f} MB, {told}')
        slow = slow or times >= MOST_TIMES or seconds > MOST_SECONDS
    seconds, peak, told = min(once(program, 5_000, True) for _ in range(RUNS))
    print(f'5000 issues over a file: {seconds:.2f} s, {peak:.0f} MB, {told}')
    sys.exit(slow)


main()
