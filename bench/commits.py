#!/usr/bin/env python3
"""Times commits on a file: how many a second, and the processor time of each, beside C SQLite.

usage: python3 bench/commits.py [PROGRAM]

A commit has one to three rows of 200 bytes, in a file of 10,000 rows. C SQLite is in the same mode (WAL, FULL), with kept statements. How
often each syncs is counted. Of three runs by turns the median counts. It wants gcc, sqlite3.h and strace. On a machine with other work the
processor time alone tells something.

The program is written into a copy of the repository's crates, where `rt run` proves and builds it, which takes some minutes. Nothing
in the repository changes. With a path PROGRAM it is left there, and taken from there where it is there already.
"""
import os
import pathlib
import shutil
import statistics
import subprocess
import sys
import tempfile

sys.path.insert(0, str(pathlib.Path(__file__).resolve().parent.parent / 'checks'))
from keeper_program import COMMITS, filled, program_in  # noqa: E402

C_MAIN = r'''#include <sqlite3.h>
#include <stdint.h>
#include <stdio.h>
#include <stdlib.h>
#include <string.h>
#include <time.h>
static void must(int got, int want) { if (got != want) { fprintf(stderr, "sqlite: %d\n", got); exit(2); } }
static void put(sqlite3_stmt *s, uint32_t number, const char *body) {
    sqlite3_bind_int64(s, 1, 3); sqlite3_bind_int64(s, 2, number); sqlite3_bind_text(s, 3, body, strlen(body), SQLITE_STATIC);
    must(sqlite3_step(s), SQLITE_DONE); sqlite3_reset(s);
}
static void step(sqlite3_stmt *s) { must(sqlite3_step(s), SQLITE_DONE); sqlite3_reset(s); }
int main(int argc, char **argv) {
    sqlite3 *db; sqlite3_stmt *begin, *commit, *upsert; char body[220], digits[201]; int size = atoi(argv[2]); struct timespec a, b; uint32_t seed = 1;
    memset(digits, '0', 200); digits[200] = 0;
    must(sqlite3_open(argv[1], &db), SQLITE_OK);
    must(sqlite3_exec(db, "PRAGMA journal_mode = WAL; PRAGMA synchronous = FULL", 0, 0, 0), SQLITE_OK);
    must(sqlite3_prepare_v2(db, "BEGIN", -1, &begin, 0), SQLITE_OK);
    must(sqlite3_prepare_v2(db, "COMMIT", -1, &commit, 0), SQLITE_OK);
    must(sqlite3_prepare_v2(db, "INSERT INTO kept (kind, no, body) VALUES (?1, ?2, ?3) ON CONFLICT (kind, no) DO UPDATE SET body = excluded.body", -1, &upsert, 0), SQLITE_OK);
    clock_gettime(CLOCK_MONOTONIC, &a);
    for (int i = 0; size && i < COMMITS; i++) {
        seed = seed * 1664525u + 1013904223u;
        uint32_t number = seed % 10000;
        sprintf(body, "%u %s", seed, digits);
        step(begin);
        put(upsert, number, body);
        if (size > 1) put(upsert, number / 2, body);
        if (size > 2) put(upsert, number / 3, body);
        step(commit);
    }
    clock_gettime(CLOCK_MONOTONIC, &b);
    printf("%lld\n", (b.tv_sec - a.tv_sec) * 1000000LL + (b.tv_nsec - a.tv_nsec) / 1000);
    return 0;
}
'''


def timed(words):
    """What a run prints, and its processor time in microseconds."""
    with subprocess.Popen(words, stdout=subprocess.PIPE, text=True) as it:
        text = it.stdout.read()
        _, status, used = os.wait4(it.pid, 0)
        it.returncode = os.waitstatus_to_exitcode(status)
    if it.returncode:
        sys.exit(f'{words}: status {it.returncode}')
    return int(text or 0), (used.ru_utime + used.ru_stime) * 1_000_000


def syncs(words):
    """How many fdatasync and fsync calls a run makes."""
    done = subprocess.run(['strace', '-f', '-c', '-e', 'trace=fdatasync,fsync', *words], capture_output=True, text=True)
    rows = [line.split() for line in done.stderr.splitlines()]
    return sum(int(row[3]) for row in rows if row and row[-1] in ('fdatasync', 'fsync'))


def speed(program, work):
    c_program, path = work / 'c_rows', work / 'rows.db'
    (work / 'c_rows.c').write_text(C_MAIN)
    subprocess.run(['gcc', '-O2', f'-DCOMMITS={COMMITS}', '-o', c_program, work / 'c_rows.c', '-lsqlite3'], check=True)
    print('rows    commits a second: keeper  C SQLite  ratio    microseconds of processor a commit: keeper  C SQLite')
    opened = {}
    for size in (0, 1, 2, 3):
        walls, cpus = {program: [], c_program: []}, {program: [], c_program: []}
        for _ in range(3):
            for name in (program, c_program):
                filled(path)
                wall, cpu = timed([name, path, str(size)])
                walls[name].append(wall)
                cpus[name].append(cpu)
        cpu = {name: statistics.median(it) for name, it in cpus.items()}
        if size == 0:
            opened = cpu
            continue
        one, other = (COMMITS * 1_000_000 / statistics.median(walls[name]) for name in (program, c_program))
        ours, theirs = ((cpu[name] - opened[name]) / COMMITS for name in (program, c_program))
        print(f'{size:4} {one:31.0f} {other:9.0f} {one / other:6.2f} {ours:46.1f} {theirs:9.1f}')
    if shutil.which('strace'):
        for name, it in (('keeper', program), ('C SQLite', c_program)):
            filled(path)
            print(f'{name}: {syncs([str(it), str(path), "1"])} syncs for {COMMITS} commits')


def main():
    if len(sys.argv) > 2 or sys.argv[1:2] in (['-h'], ['--help']):
        sys.exit(__doc__)
    kept = pathlib.Path(sys.argv[1]).resolve() if len(sys.argv) > 1 else None
    with tempfile.TemporaryDirectory() as it:
        work = pathlib.Path(it)
        speed(program_in(work, kept), work)


main()
