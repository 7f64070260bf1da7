#!/usr/bin/env python3
"""Refuses the tracker memory, at each place where it asks for some in turn, and looks at what it answers and keeps then.

usage: python3 bench/refused_memory.py PROGRAM [--case NAME] [--number N] [--lasting] [--seconds N] [--seed N] [--workers N]

PROGRAM is the built tracker, crates/tracker/out/tracker. A library in front of the C library's, which takes a C compiler (`cc`), counts how
often memory is asked for behind the program's start, and refuses the Nth time alone; with `--lasting` each time from the Nth on. Each of
these cases is run once for each number up to that of a run in which nothing is refused, in an order by the seed; N seconds (3,600) go to all
cases alike, and what they don't let through is told.

- init, fresh init, check, export, dump, restore, generate: the status is 0 and all is as with ample memory; or it is 6, a front of the same
  output was written, and the rows are as before, or for `generate` a tracker's. On a file that isn't there yet too.
- exec, exec behind, fresh exec, import: the status is 0 or 6. Each line that wasn't refused with 15 has the reply that it has in a run over these lines alone, with
  ample memory, and the file has the rows of that run. At 6 the last reply may be cut, or missing though its call was made.
- serve: requests over two connections. Each is answered 15 with status 507, or as in such a run, but for the times; where a connection ends
  before its last response, or the server ends with status 6, the rest wasn't made, or one call of it.

After each run the file is opened again with ample memory, and has the same rows then. A run that ends by a signal, or not within 60 seconds,
is wrong. A wrong run prints its case and number, with which `--case` and `--number` run it again; the status is then 1.
"""
import argparse
import json
import os
import pathlib
import random
import re
import shutil
import signal
import socket
import subprocess
import sys
import tempfile
import time

TOP = pathlib.Path(__file__).resolve().parent.parent
sys.path.insert(0, str(TOP / 'checks'))
from kills import rows_of  # noqa: E402

# Counts in a file of eight bytes, and refuses the number that the environment has, or each from it on.
REFUSER = r"""
#include <fcntl.h>
#include <stddef.h>
#include <stdlib.h>
#include <sys/mman.h>
#include <unistd.h>

extern void *__libc_malloc(size_t);
extern void *__libc_calloc(size_t, size_t);
extern void *__libc_realloc(void *, size_t);
extern void *__libc_memalign(size_t, size_t);

static unsigned long before, *count = &before, refused;
static int begun, lasting;

__attribute__((constructor)) static void begin(void) {
    const char *path = getenv("ASKED"), *number = getenv("REFUSED"), *on = getenv("LASTING");
    int file = path ? open(path, O_RDWR) : -1;
    void *page = file < 0 ? MAP_FAILED : mmap(NULL, 8, PROT_READ | PROT_WRITE, MAP_SHARED, file, 0);
    if (file >= 0) close(file);
    if (page != MAP_FAILED) count = page;
    refused = number ? strtoul(number, NULL, 10) : 0;
    lasting = on && *on == '1';
    begun = 1;
}

static int is_refused(void) {
    if (!begun) return 0;
    unsigned long now = __sync_add_and_fetch(count, 1);
    return refused && (now == refused || (lasting && now > refused));
}

void *malloc(size_t size) { return is_refused() ? NULL : __libc_malloc(size); }
void *calloc(size_t n, size_t size) { return is_refused() ? NULL : __libc_calloc(n, size); }
void *realloc(void *old, size_t size) { return is_refused() ? NULL : __libc_realloc(old, size); }
void *aligned_alloc(size_t align, size_t size) { return is_refused() ? NULL : __libc_memalign(align, size); }
int posix_memalign(void **room, size_t align, size_t size) {
    if (is_refused()) return 12;
    *room = __libc_memalign(align, size);
    return *room ? 0 : 12;
}
"""

SECONDS = 60
MEMORY = '{"refused":{"no":15}}'
SETUP = re.search(r'(?ms)^```toml\n(.*?)^```', (TOP / 'docs/NEW-TRACKER.md').read_text(encoding='utf-8'))[1]


def line(call, user='anna', **members):
    return json.dumps({'user': user, 'call': call, **members}, separators=(',', ':'))


def create(summary, **members):
    return line('create', project='OPS', type='Task', summary=summary, **members)


# Each call that changes something, and some that read.
LINES = [
    line('tick', to=1_709_251_200),
    create('Fix login', set={'points': '3', 'labels': ['web', 'urgent'], 'due': '2024-04-01', 'description': 'Long enough. ' * 20}),
    create('Write guide', external='X-1', set={'points': '2', 'assignee': 'bo'}),
    create('Crash on start', set={'points': '1.5'}),
    line('make_sprint', name='March'),
    line('edit', issue='OPS-1', set={'sprint': 1, 'priority': 'High', 'labels': ['web', 'late']}),
    line('edit', issue='OPS-3', set={'sprint': 1, 'description': 'Seen again, with a trace of forty lines. ' * 30}),
    line('start_sprint', sprint=1),
    line('save_filter', name='open work', jql='resolution = Unresolved AND sprint IN openSprints() ORDER BY key DESC'),
    line('save_filter', name='mine', jql='status WAS Open BY currentUser() BEFORE endOfDay("+1d") OR assignee IN membersOf(team)'),
    line('make_board', name='team', filter=1),
    line('make_board', name='spare', filter=2),
    line('tick', to=1_709_254_800),
    line('transition', issue='OPS-1', transition='Start'),
    line('transition', issue='OPS-1', transition='Finish'),
    line('set_group', group='team', members=['root', 'anna']),
    line('move_before', issue='OPS-3', other='OPS-1'),
    line('move_after', issue='OPS-1', other='OPS-2'),
    line('rebalance_start'),
    line('rebalance_step', count=2),
    line('rebalance_step', count=16),
    line('close_sprint', sprint=1),
    line('drop_board', board=2),
    line('drop_filter', filter=2),
    line('filter', filter=1),
    line('board', board=1),
    line('burndown', sprint=1),
    line('history', issue='OPS-1'),
    line('show', issue='OPS-2'),
    line('search', user='cy', jql='status CHANGED FROM Open TO "In Progress" BY anna ORDER BY rank, created DESC'),
    line('search', jql='colour = red'),
    'nonsense',
    create('Tidy up'),
]
QUERIES = ['status was not "In Progress" before -2w and not (a=1 or b~\'x\')', 'order by due desc', '', 'status =',
           'a in (b, f( c )) and cf[10002] changed from (a, b) to EMPTY by membersOf(team) during (2024-03-04, now())']
RECORDS = ['X-2,OPS,Task,"Move desks, and chairs",bo,,High,1,2024-04-01', 'X-1,OPS,Task,Write guide,bo,,,2,', ',OPS,Bug,"two ""words"" and\nlines",,,,,',
           'X-2,OPS,Task,"Move desks, and chairs",bo,,High,1,2024-04-01', 'X-3,OPS,Task,,,,,,']
HEADER = 'external,project,type,summary,assignee,reporter,priority,points,due'
# Requests by what they ask for, those of each connection together.
CONNECTIONS = [[json.loads(it) for it in LINES[1:5]] + [json.loads(LINES[28])], [json.loads(LINES[5]), json.loads(LINES[29]), json.loads(LINES[32])]]


def text_of(lines):
    return ''.join(it + '\n' for it in lines).encode()


def timeless(rows):
    """Rows without the moments, which a server takes from the clock."""
    return [(kind, no, re.sub(r'"(at|moment)":\d+', r'"\1":0', body)) for kind, no, body in rows]


class Wrong(Exception):
    """What a run did that it may not."""


class Runs:
    """The program, the library that refuses, and a folder for files."""

    def __init__(self, program, room):
        self.program, self.room, self.told = program, room, {}
        self.store, self.twin, self.count = f'{room}/tracker.db', f'{room}/twin.db', f'{room}/count'
        pathlib.Path(f'{room}/refuser.c').write_text(REFUSER, encoding='utf-8')
        self.refuser = f'{room}/refuser.so'
        subprocess.run(['cc', '-O1', '-fno-builtin', '-shared', '-fPIC', '-o', self.refuser, f'{room}/refuser.c'], check=True)

    def refusing(self, number, lasting):
        pathlib.Path(self.count).write_bytes(bytes(8))
        return {**os.environ, 'LD_PRELOAD': self.refuser, 'ASKED': self.count, 'REFUSED': str(number), 'LASTING': '01'[lasting]}

    def asked(self):
        """How often the last run asked for memory."""
        return int.from_bytes(pathlib.Path(self.count).read_bytes(), sys.byteorder)

    def run(self, store, words, sent, env=None):
        """The status and the output of a run."""
        try:
            ran = subprocess.run([self.program, store, *words], input=sent, capture_output=True, env=env, timeout=SECONDS, check=False)
        except subprocess.TimeoutExpired as late:
            raise Wrong(f'it did not end within {SECONDS} seconds') from late
        if ran.returncode < 0:
            raise Wrong(f'it ended by the signal {-ran.returncode}: {ran.stderr.decode(errors="replace")[-1_000:]}')
        return ran.returncode, ran.stdout

    @staticmethod
    def put(base, store):
        """A copy of a file with its log in the place of another one, or no file."""
        for ending in ('', '-wal'):
            pathlib.Path(store + ending).unlink(missing_ok=True)
            if base and os.path.exists(base + ending):
                shutil.copyfile(base + ending, store + ending)

    def ample(self, base, words, sent):
        """The status, output and rows of a run with ample memory over a copy of a file."""
        key = (base, tuple(words), sent)
        if key not in self.told:
            self.put(base, self.twin)
            self.told[key] = (*self.run(self.twin, words, sent), rows_of(self.twin))
        return self.told[key]

    def opened(self):
        """The rows of the file once it was opened again with ample memory."""
        status, _ = self.run(self.store, ['exec'], b'')
        if status:
            raise Wrong(f'it is opened again with status {status}')
        return rows_of(self.store)


class Whole:
    """A command that does all or nothing."""

    def __init__(self, runs, name, words, sent, base=None, is_load=False):
        self.runs, self.name, self.words, self.sent, self.base, self.is_load = runs, name, words, sent, base, is_load

    def tried(self, number, lasting):
        runs = self.runs
        due, out, rows = runs.ample(self.base, self.words, self.sent)
        runs.put(self.base, runs.store)
        before = rows_of(runs.store)
        status, written = runs.run(runs.store, self.words, self.sent, runs.refusing(number, lasting))
        kept = rows_of(runs.store)
        if status == due:
            if written != out or kept != rows:
                raise Wrong(f'status {status}, but other output or rows than with ample memory')
        elif status != 6:
            raise Wrong(f'status {status}')
        elif not out.startswith(written):
            raise Wrong(f'{written[-200:]!r} is no front of the output')
        elif not self.is_load and kept not in (before, []):
            raise Wrong(f'at status 6 the rows are others: {sorted(set(kept) ^ set(before))[:3]}')
        if runs.opened() != kept and kept:
            raise Wrong('opened again the rows are others')
        return status


class Lines:
    """Lines or records of which each is answered for itself."""

    def __init__(self, runs, name, words, units, base, head=''):
        self.runs, self.name, self.words, self.units, self.base, self.head = runs, name, words, units, base, head

    def alone(self, places):
        """The replies to the lines of these places alone, and the rows behind them."""
        status, out, rows = self.runs.ample(self.base, self.words, self.head.encode() + text_of(self.units[it] for it in places))
        if status:
            raise Wrong(f'the answered lines alone end with status {status}')
        return out.decode().split('\n')[:-1], rows

    def tried(self, number, lasting):
        runs = self.runs
        runs.put(self.base, runs.store)
        status, written = runs.run(runs.store, self.words, self.head.encode() + text_of(self.units), runs.refusing(number, lasting))
        kept = rows_of(runs.store)
        *replies, tail = written.decode().split('\n')
        if status not in (0, 6):
            raise Wrong(f'status {status}: {written[-200:]!r}')
        if status == 0 and (tail or len(replies) != len(self.units)) or len(replies) > len(self.units):
            raise Wrong(f'status {status}, and {len(replies)} replies to {len(self.units)} lines')
        self.compare(status, replies, tail, kept)
        if runs.opened() != kept and (kept or status == 0):
            raise Wrong('opened again the rows are others')
        return status if MEMORY not in replies else 15

    def compare(self, status, replies, tail, kept):
        answered = [it for it, reply in enumerate(replies) if reply != MEMORY]
        due, rows = self.alone(answered)
        for place, reply in zip(answered, due):
            if replies[place] != reply:
                raise Wrong(f'{self.units[place]} is answered {replies[place]}, and {reply} where memory is ample')
        may = [rows]
        if status == 6 and len(replies) < len(self.units):
            more, later = self.alone([*answered, len(replies)])
            if not (more[-1].startswith(tail) or MEMORY.startswith(tail)):
                raise Wrong(f'the output ends in {tail!r}')
            may += [later] if replies else [later, rows_of(self.base) if self.base else []]
        if kept not in may:
            raise Wrong(f'status {status}: the rows are others: {sorted(set(kept) ^ set(rows))[:3]}')


class Served:
    """Requests over connections to a server."""

    def __init__(self, runs, name, base, workers):
        self.runs, self.name, self.base, self.workers = runs, name, base, workers

    def lines(self, calls):
        return text_of(json.dumps(it, separators=(',', ':')) for it in calls)

    @staticmethod
    def request(call, last):
        body = json.dumps({name: it for name, it in call.items() if name != 'user'}, separators=(',', ':')).encode()
        close = 'Connection: close\r\n' * last
        return f'POST /calls HTTP/1.1\r\nHost: t\r\nX-User: {call["user"]}\r\n{close}Content-Length: {len(body)}\r\n\r\n'.encode() + body

    def asked(self, port, server, calls):
        """The bodies of the whole responses to these calls, with their statuses."""
        end = time.monotonic() + SECONDS
        while True:
            try:
                link = socket.create_connection(('127.0.0.1', port), SECONDS)
                break
            except ConnectionRefusedError:
                if server.poll() is not None or time.monotonic() > end:
                    return []
                time.sleep(0.002)
        got = b''
        try:
            with link:
                link.sendall(b''.join(self.request(it, it is calls[-1]) for it in calls))
                while piece := link.recv(65_536):
                    got += piece
        except TimeoutError as late:
            raise Wrong(f'a connection did not end within {SECONDS} seconds') from late
        except OSError:
            pass
        found = []
        while match := re.match(rb'HTTP/1.1 (\d+) [^\r]*\r\n(?:[^\r]+\r\n)*?Content-Length: (\d+)\r\n(?:[^\r]+\r\n)*\r\n', got):
            body, got = got[match.end():match.end() + int(match[2])], got[match.end() + int(match[2]):]
            if len(body) == int(match[2]):
                found.append((int(match[1]), body.decode()))
        return found

    def tried(self, number, lasting):
        runs = self.runs
        runs.put(self.base, runs.store)
        with socket.socket() as it:
            it.bind(('127.0.0.1', 0))
            port = it.getsockname()[1]
        words = ['serve', str(port), str(self.workers)]
        server = subprocess.Popen([runs.program, runs.store, *words], env=runs.refusing(number, lasting), stdout=subprocess.DEVNULL,
                                  stderr=subprocess.DEVNULL)
        try:
            responses = [self.asked(port, server, calls) for calls in CONNECTIONS]
            ended = server.poll()
        finally:
            server.kill()
            server.wait()
        if ended not in (None, 6):
            raise Wrong(f'the server ended with status {ended}')
        self.compare(responses)
        before = timeless(rows_of(runs.store))
        if timeless(runs.opened()) != before and before:
            raise Wrong('opened again the rows are others')
        if ended is None and not lasting and number == 0 and [len(it) for it in responses] != [len(it) for it in CONNECTIONS]:
            raise Wrong('with ample memory there are fewer responses than requests')
        return 6 if ended else 15 if any(MEMORY == body for it in responses for _, body in it) else 0

    def compare(self, responses):
        made, given, maybe = [], [], []
        for calls, found in zip(CONNECTIONS, responses):
            for call, (status, body) in zip(calls, found):
                if (status == 507) != (body == MEMORY):
                    raise Wrong(f'{call} is answered {status} with {body}')
                if body != MEMORY:
                    made.append(call)
                    given.append(body)
            if len(found) < len(calls):
                maybe.append((len(made), calls[len(found)]))
        kept = timeless(rows_of(self.runs.store))
        for more in [[], *([it] for it in maybe), maybe]:
            calls = list(made)
            for place, call in reversed(more):
                calls.insert(place, call)
            _, out, rows = self.runs.ample(self.base, ['exec'], self.lines(calls))
            replies = out.decode().split('\n')
            for place, _ in reversed(more):
                replies.pop(place)
            same = all(re.sub(r'"(created|updated|at)":\d+', '', one) == re.sub(r'"(created|updated|at)":\d+', '', other)
                       for one, other in zip(given, replies))
            if same and timeless(rows) == kept:
                return
        raise Wrong(f'the responses or rows are no run\'s over the calls that were answered: {given}')


def cases(runs, workers):
    """All cases, over files that were made before with ample memory."""
    new, old = f'{runs.room}/new.db', f'{runs.room}/old.db'
    runs.run(new, ['init'], SETUP.encode())
    runs.run(old, ['init'], SETUP.encode())
    runs.run(old, ['exec'], text_of(LINES))
    empty = f'{runs.room}/empty.db'
    dump = runs.run(old, ['dump'], b'')[1]
    runs.run(empty, ['dump'], b'')
    return [
        Whole(runs, 'init', ['init'], SETUP.encode(), empty), Whole(runs, 'fresh init', ['init'], SETUP.encode()),
        Whole(runs, 'check', ['check'], text_of(QUERIES), empty),
        Lines(runs, 'exec', ['exec'], LINES, new), Lines(runs, 'fresh exec', ['exec'], LINES[:4], None), Lines(runs, 'exec behind', ['exec'], LINES[12:], old),
        Lines(runs, 'import', ['import', 'anna'], RECORDS, old, HEADER + '\n'),
        Whole(runs, 'export', ['export'], b'', old), Whole(runs, 'dump', ['dump'], b'', old), Whole(runs, 'restore', ['restore'], dump, empty),
        Whole(runs, 'generate', ['generate', '3'], b'', empty, True), Served(runs, 'serve', new, workers),
    ]


def tried(case, number, lasting):
    """What a run came to, and what is wrong with it or None."""
    try:
        return case.tried(number, lasting), None
    except Wrong as wrong:
        return None, str(wrong)


def campaign(case, options, seconds, by):
    """Refuses each time in turn that a case asks for memory; how many were wrong."""
    _, wrong = tried(case, 0, False)
    if wrong:
        print(f'{case.name}: with ample memory {wrong}')
        return 1
    count, ways = case.runs.asked(), [True] if options.lasting else [False, True]
    numbers = [(number, lasting) for number in range(1, count + 1) for lasting in ways]
    by.shuffle(numbers)
    end, seen, faults, done = time.monotonic() + seconds, {}, 0, 0
    for number, lasting in numbers:
        if time.monotonic() > end or faults > 9:
            break
        done += 1
        ended, wrong = tried(case, number, lasting)
        seen[ended] = seen.get(ended, 0) + 1
        if wrong:
            faults += 1
            print(f'{case.name}: number {number}{" and all behind it" * lasting}: {wrong}', flush=True)
    ends = ', '.join(f'{many} {what}' for what, many in (('as with ample memory', seen.get(0, 0) + seen.get(5, 0)), ('with a line refused 15', seen.get(15, 0)),
                                                         ('with status 6', seen.get(6, 0))))
    rest = '' if done == len(numbers) else f' (of {len(numbers)}: the time was up)'
    print(f'{case.name}: memory is asked for {count} times; {done} runs{rest}: {ends}; {faults} wrong', flush=True)
    return faults


def main():
    asked = argparse.ArgumentParser(description=__doc__, formatter_class=argparse.RawDescriptionHelpFormatter)
    asked.add_argument('program')
    asked.add_argument('--case')
    asked.add_argument('--number', type=int)
    asked.add_argument('--lasting', action='store_true')
    asked.add_argument('--seconds', type=float, default=3_600)
    asked.add_argument('--seed', type=int, default=random.SystemRandom().randrange(10 ** 9))
    asked.add_argument('--workers', type=int, default=1)
    options = asked.parse_args()
    print(f'seed {options.seed}', flush=True)
    signal.signal(signal.SIGTERM, lambda *_: sys.exit('ended'))
    with tempfile.TemporaryDirectory() as room:
        all_cases = [it for it in cases(Runs(os.path.abspath(options.program), room), options.workers) if options.case in (None, it.name)]
        if options.number is not None:
            ended = [tried(it, options.number, options.lasting) for it in all_cases]
            print(*(wrong or f'ended with {how}' for how, wrong in ended), sep='\n')
            return 1 if any(wrong for _, wrong in ended) else 0
        by = random.Random(options.seed)
        wrong = sum(campaign(it, options, options.seconds / len(all_cases), by) for it in all_cases)
    print(f'{wrong} wrong')
    return 1 if wrong else 0


if __name__ == '__main__':
    sys.exit(main())
