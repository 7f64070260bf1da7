#!/usr/bin/env python3
"""Times request lines: 50,000 creates, and 50,000 edits, shows and histories of 5,000 issues; 10,000 moves of 10,000 issues
and of 50,000; and 10,000 creates behind 1,000 issues and behind 40,000.

usage: python3 bench/lines.py PROGRAM.. [LINES]

PROGRAM is the built tracker, as crates/tracker/out/tracker after `rt run` there; several take turns, and the later ones are also told as
shares of the first one's time. Each kind is timed by the processor time of runs of its own (user and system), less that of runs without its
lines right before; of seven such times the median counts. The lines have about 120 bytes. Peak memory is the most of all runs. How often a
line has memory allocated is counted in runs of their own, by a library in front of the C library's, which takes a C compiler (`cc`).
"""
import json
import os
import pathlib
import random
import statistics
import subprocess
import sys
import tempfile

PROGRAMS = [it for it in sys.argv[1:] if not it.isdigit()]
LINES = int(sys.argv[-1]) if sys.argv[-1].isdigit() else 50_000
TURNS = 7
ISSUES = 5_000


def line(user, call, **members):
    return json.dumps({'user': user, 'call': call, **members}, separators=(',', ':'))


def create(number):
    return line('anna', 'create', project='OPS', type='Task', summary=f'Fix login of step {number}', set={'points': str(number % 9), 'assignee': 'bo'})


def edit(number):
    return line('bo', 'edit', issue=f'OPS-{number % ISSUES + 1}', set={'points': str(number // ISSUES % 9 + 1), 'description': f'Seen at step {number} again, and noted.'})


def move(by, issues):
    one, other = by.sample(range(1, issues + 1), 2)
    return line('anna', by.choice(['move_before', 'move_after']), issue=f'OPS-{one}', other=f'OPS-{other}')


# Counts in a file of eight bytes, since a program may end without a word to its libraries.
COUNTER = r"""
#include <fcntl.h>
#include <stddef.h>
#include <stdlib.h>
#include <sys/mman.h>
#include <unistd.h>

extern void *__libc_malloc(size_t);
extern void *__libc_calloc(size_t, size_t);
extern void *__libc_realloc(void *, size_t);
extern void *__libc_memalign(size_t, size_t);

static unsigned long before, *count = &before;

__attribute__((constructor)) static void begin(void) {
    const char *path = getenv("ALLOCATIONS");
    int file = path ? open(path, O_RDWR) : -1;
    void *page = file < 0 ? MAP_FAILED : mmap(NULL, 8, PROT_READ | PROT_WRITE, MAP_SHARED, file, 0);
    if (page != MAP_FAILED) count = page;
}

void *malloc(size_t size) { ++*count; return __libc_malloc(size); }
void *calloc(size_t n, size_t size) { ++*count; return __libc_calloc(n, size); }
void *realloc(void *old, size_t size) { ++*count; return __libc_realloc(old, size); }
void *aligned_alloc(size_t align, size_t size) { ++*count; return __libc_memalign(align, size); }
int posix_memalign(void **room, size_t align, size_t size) { ++*count; *room = __libc_memalign(align, size); return *room ? 0 : 12; }
"""

RANKED = 10_000
LOTS = random.Random(7)
LOAD = [create(number) for number in range(ISSUES)]
KINDS = [
    ('create', [], [create(number) for number in range(LINES)]),
    ('edit', LOAD, [edit(number) for number in range(LINES)]),
    ('show', LOAD, [line('cy', 'show', issue=f'OPS-{number % ISSUES + 1}') for number in range(LINES)]),
    ('history', LOAD, [line('cy', 'history', issue=f'OPS-{number % ISSUES + 1}') for number in range(LINES)]),
    ('move', [create(number) for number in range(RANKED)], [move(LOTS, RANKED) for _ in range(10_000)]),
    ('move of 50,000', [create(number) for number in range(50_000)], [move(LOTS, 50_000) for _ in range(10_000)]),
    ('create behind 1,000', [create(number) for number in range(1_000)], [create(number) for number in range(10_000)]),
    ('create behind 40,000', [create(number) for number in range(40_000)], [create(number) for number in range(10_000)]),
]


def run(program, lines, **beside):
    """The processor seconds and the peak memory, in megabytes, of a run over these lines, with this beside its environment."""
    with tempfile.TemporaryFile() as source, tempfile.TemporaryFile() as out:
        source.write('\n'.join(lines).encode())
        source.seek(0)
        child = os.fork()
        if child == 0:
            os.dup2(source.fileno(), 0)
            os.dup2(out.fileno(), 1)
            os.execve(program, [program, ':memory:', 'exec'], os.environ | beside)
        _, status, used = os.wait4(child, 0)
        out.seek(0)
        text = out.read()
        if status or text.count(b'\n') != len(lines) or b'refused' in text:
            sys.exit(f'status {status}, {text.count(bytes([10]))} replies to {len(lines)} lines, or one was refused')
        return used.ru_utime + used.ru_stime, used.ru_maxrss / 1024


def allocations(program, lines, folder):
    """How often a run over these lines has memory allocated."""
    count = folder / 'count'
    count.write_bytes(bytes(8))
    run(program, lines, LD_PRELOAD=str(folder / 'counter.so'), ALLOCATIONS=str(count))
    return int.from_bytes(count.read_bytes(), sys.byteorder)


with tempfile.TemporaryDirectory() as place:
    folder = pathlib.Path(place)
    (folder / 'counter.c').write_text(COUNTER)
    subprocess.run(['cc', '-O1', '-fno-builtin', '-shared', '-fPIC', '-o', folder / 'counter.so', folder / 'counter.c'], check=True)
    for name, load, lines in KINDS:
        times, most = {it: [] for it in PROGRAMS}, 0
        for _ in range(TURNS):
            for program in PROGRAMS:
                base = run(program, load)[0] if load else 0
                spent, memory = run(program, load + lines)
                times[program].append((spent - base) / len(lines))
                most = max(most, memory)
        for program in PROGRAMS:
            took, first = statistics.median(times[program]), statistics.median(times[PROGRAMS[0]])
            calls = (allocations(program, load + lines, folder) - allocations(program, load, folder)) / len(lines)
            share = '' if program == PROGRAMS[0] else f', {took / first:.2f} of the first'
            print(f'{name}: {1 / took:,.0f} lines a second of processor time, {1e6 * took:.1f} us and {calls:.1f} allocations each{share}; {most:.0f} MB at most')
