#!/bin/sh
# Runs the gate at the top of the repository, and prints what it cost in processor minutes, by crate and kind.
#
# usage: bench/gate.sh [WORDS OF rt ci..]
#
# With `--anew` everything is proved from nothing, whatever the machine has kept. A kind is the proof of a crate, its must-fail edits (with
# the proof that they begin with), the proof of its tests, or the builds of a program. The times are read twice a second from /proc,
# so what each process did after its last reading is told in one sum as not seen. The gate's own output goes to standard error.
set -eu
cd "$(dirname "$0")/.."
exec python3 - "$@" <<'PY'
import collections
import os
import re
import resource
import subprocess
import sys
import time

TICK = os.sysconf('SC_CLK_TCK')
KINDS = ['proof', 'edits', 'tests', 'program']


def read(path):
    with open(path, 'rb') as it:
        return it.read()


def place_of(pid):
    """The crate and kind that a process of the prover works for, or None."""
    words = read(f'/proc/{pid}/cmdline').decode(errors='replace').split('\0')
    if os.path.basename(words[0]) != 'rattle' or '--crate-name' not in words:
        return None
    crate = words[words.index('--crate-name') + 1]
    if re.search(r'/rt-edit-\d+-', os.readlink(f'/proc/{pid}/cwd')):
        return crate, 'edits'
    if '--crate-checked' in words:
        return crate, 'program'
    return crate, 'tests' if '--test' in words else 'proof'


def look(seen):
    """Notes how long each process of the prover has run so far."""
    for pid in filter(str.isdigit, os.listdir('/proc')):
        try:
            fields = read(f'/proc/{pid}/stat').rsplit(b')', 1)[1].split()
            key = pid, fields[19]
            found = seen.setdefault(key, [None, 0])
            # (a process may have been seen before it became the prover)
            found[0] = found[0] or place_of(pid)
            found[1] = int(fields[11]) + int(fields[12])
        except OSError:
            continue


begin, seen = time.time(), {}
gate = subprocess.Popen(['rt', 'ci', *sys.argv[1:]], stdin=subprocess.DEVNULL, stdout=sys.stderr)
while gate.poll() is None:
    look(seen)
    time.sleep(0.5)
wall, used = time.time() - begin, resource.getrusage(resource.RUSAGE_CHILDREN)

table = collections.defaultdict(collections.Counter)
for place, ticks in seen.values():
    if place:
        table[place[0]][place[1]] += ticks / TICK / 60
rows = sorted(table.items(), key=lambda it: -sum(it[1].values()))
print('%-20s' % 'crate', *('%8s' % it for it in [*KINDS, 'sum']))
for crate, row in rows:
    print('%-20s' % crate, *('%8.2f' % row[it] for it in KINDS), '%8.2f' % sum(row.values()))
sums = [sum(row[it] for _, row in rows) for it in KINDS]
print('%-20s' % 'all', *('%8.2f' % it for it in [*sums, sum(sums)]))
whole = (used.ru_utime + used.ru_stime) / 60
print('not seen %.2f, user %.2f, system %.2f, in all %.2f processor minutes; %.2f minutes of wall time on %d processors'
      % (whole - sum(sums), used.ru_utime / 60, used.ru_stime / 60, whole, wall / 60, len(os.sched_getaffinity(0))))
sys.exit(gate.returncode)
PY
