#!/usr/bin/env python3
"""Has many clients at one server, kills them at random, and compares the rows afterwards with those of the calls that were answered.

usage: python3 bench/many_clients.py PROGRAM [--clients N] [--seconds N] [--workers N] [--kills N] [--seed N] [--kept FOLDER]

PROGRAM is the built tracker, crates/tracker/out/tracker. It serves a file by `serve PORT N`, with 4 workers where none are named. 64 clients
ask it for 600 seconds, each a process that sends one call after another, in connections of one to sixteen requests: creates with an external
id, edits, transitions, moves and reads. Some requests are sent in two pieces. Two thirds of a second apart on average, one of them is killed,
and another one takes its place; where the killed one waited for the answer to a create, that create is sent again.

Each client tells a file what it sends before it does, and what was answered. In the end:

- Each change in the rows is one that was answered, or one that was under way at a kill. Each answered one is there.
- A change's moment lies between its request and its answer. What a client reads of an issue that it alone edits is what was answered to it.
- The calls that were answered are replayed by `exec` on a new file, in the order of their change numbers, each at its moment, with those
  that were under way and whose mark is in the rows. The replies are those that were answered, and the rows are those of the server's file.

Moves have no change number. So each client moves three issues of its own, between two others that nobody moves: what its moves do depends on
none of another client. New issues stand behind them all. A move that was under way was made, or wasn't: one of the two has to give the rows.

The last line counts. The status is 1 where anything is told before it, and the files of the clients, the server's file and the replayed lines
are left in FOLDER (tracker-clients-SEED in the folder for temporary files).
"""
import argparse
import contextlib
import json
import os
import pathlib
import random
import shutil
import signal
import socket
import subprocess
import sys
import tempfile
import time

TOP = pathlib.Path(__file__).resolve().parent.parent
sys.path.insert(0, str(TOP / 'checks'))
from kills import rows_of  # noqa: E402

HOST = '127.0.0.1'
USERS = ['anna', 'bo', 'root']
SHARED = 20
OWN = ['left', 'one', 'two', 'three', 'right']
PATIENCE = 120
MOST_LINES = 500_000
# (what is only replayed need not wait for a disk)
QUICK = '/dev/shm' if os.path.isdir('/dev/shm') else None
READS = ('show', 'history', 'search')
STEPS = ['Start', 'Review', 'Finish', 'Reopen']


def line_of(user, call):
    return json.dumps({'user': user, **call}) + '\n'


def first_lines(lives):
    """The lines that make the issues which are there before any client: some for all, and five for each life of a client."""
    names = [f'shared-{number}' for number in range(SHARED)] + [f'own-{life}-{part}' for life in range(lives) for part in OWN]
    yield line_of('root', {'call': 'tick', 'to': int(time.time())})
    for name in names:
        yield line_of('root', {'call': 'create', 'project': 'OPS', 'type': 'Task', 'summary': name, 'external': name,
                               'set': {'points': '1'}})


def own_key(life, part):
    return f'OPS-{SHARED + len(OWN) * life + OWN.index(part) + 1}'


class Client:
    """A life of a client: sends calls until its time is over, and tells its file what it sends and what comes."""

    def __init__(self, told, port, life, until, resend):
        self.told, self.port, self.life, self.until = told, port, life, until
        self.by = random.Random(f'client {life} {until}')
        self.link, self.left, self.number, self.known, self.side, self.resend = None, 0, 0, {}, False, resend

    @property
    def user(self):
        return USERS[self.life % len(USERS)]

    def tell(self, **what):
        os.write(self.told, (json.dumps(what) + '\n').encode())

    def mark(self):
        """A text that no other call has."""
        self.number += 1
        return f'c{self.life}-{self.number}'

    def moved(self):
        """A move of an own issue, now to the left end and now to the right one, or beside another own one."""
        self.side = not self.side
        part, other = self.by.sample(OWN[1:-1], 2)
        call = 'move_after' if self.side else 'move_before'
        beside = other if self.by.random() < 0.3 else OWN[0] if self.side else OWN[-1]
        return {'call': call, 'issue': own_key(self.life, part), 'other': own_key(self.life, beside)}

    def next_call(self):
        kind = self.by.random()
        own = own_key(self.life, self.by.choice(OWN))
        if kind < 0.06:
            mark = self.mark()
            return {'call': 'create', 'project': 'OPS', 'type': 'Bug', 'summary': f'of {mark}', 'external': mark,
                    'set': {'points': '2', 'labels': [mark]}}
        if kind < 0.35:
            return {'call': 'edit', 'issue': own, 'set': {'description': self.mark(), 'points': str(self.by.randrange(100))}}
        if kind < 0.5:
            return {'call': 'edit', 'issue': f'OPS-{self.by.randint(1, SHARED)}', 'set': {'description': self.mark()}}
        if kind < 0.6:
            return {'call': 'transition', 'issue': own, 'transition': self.by.choice(STEPS), 'set': {'description': self.mark()}}
        if kind < 0.82:
            return self.moved()
        return self.by.choice([{'call': 'show', 'issue': own}, {'call': 'history', 'issue': own, 'count': 5},
                               {'call': 'search', 'jql': 'points > 90 ORDER BY rank', 'count': 10}])

    def request(self, call):
        body = json.dumps(call).encode()
        fields = [f'Host: {HOST}', f'X-User: {self.user}', f'Content-Length: {len(body)}'] + ['Connection: close'] * (self.left == 1)
        return '\r\n'.join(['POST /calls HTTP/1.1', *fields]).encode() + b'\r\n\r\n' + body

    def response(self):
        """The status and the reply that come, and whether the connection is closed behind them."""
        came = b''
        while b'\r\n\r\n' not in came:
            more = self.link.recv(65_536)
            if not more:
                raise ConnectionError(f'closed behind {came!r}')
            came += more
        head, _, body = came.partition(b'\r\n\r\n')
        first, *fields = head.decode().split('\r\n')
        fields = {name.lower(): value for name, value in (it.split(': ', 1) for it in fields)}
        while len(body) < int(fields['content-length']):
            more = self.link.recv(65_536)
            if not more:
                raise ConnectionError(f'closed in the middle of {body!r}')
            body += more
        return int(first.split(' ')[1]), json.loads(body), fields.get('connection') == 'close'

    def asked(self, call):
        """Sends a call and waits for its answer."""
        if not self.left:
            self.link = socket.create_connection((HOST, self.port), PATIENCE)
            self.link.setsockopt(socket.IPPROTO_TCP, socket.TCP_NODELAY, 1)
            self.left = self.by.choice([1, 1, 2, 5, 16])
        sent = self.request(call)
        self.tell(sent=time.time(), user=self.user, call=call)
        if self.by.random() < 0.1:
            cut = self.by.randrange(len(sent))
            self.link.sendall(sent[:cut])
            time.sleep(self.by.uniform(0, 0.004))
            sent = sent[cut:]
        self.link.sendall(sent)
        status, reply, closes = self.response()
        self.tell(got=time.time(), status=status, reply=reply)
        self.left -= 1
        if closes != (self.left == 0):
            raise ConnectionError(f'closes {closes} with {self.left} left')
        if closes:
            self.link.close()
        self.looked(call, reply.get('ok'))

    def looked(self, call, answer):
        """Keeps the description of an own issue, and sees that it is what a show has."""
        if not answer:
            return
        if call['call'] in ('edit', 'transition'):
            self.known[call['issue']] = call['set']['description']
        if call['call'] == 'show' and answer['fields'].get('description') != self.known.get(call['issue']):
            raise ConnectionError(f'{call["issue"]} has {answer["fields"]}, and not {self.known.get(call["issue"])!r}')

    def live(self):
        try:
            if self.resend:
                self.asked(self.resend)
            while time.time() < self.until or self.left:
                self.asked(self.next_call())
        except (OSError, ValueError, KeyError) as fault:
            self.tell(fault=repr(fault))
            return 1
        return 0


def free_port():
    with socket.socket() as it:
        it.bind((HOST, 0))
        return it.getsockname()[1]


class Trial:
    """The server, its clients, and what they told."""

    def __init__(self, options, room):
        self.options, self.room, self.store = options, room, f'{room}/served'
        self.by = random.Random(options.seed)
        self.times = sorted(self.by.uniform(0, options.seconds) for _ in range(options.kills))
        self.lives = options.clients + len(self.times)
        self.first = list(first_lines(self.lives))
        self.wrong, self.faults, self.started, self.running, self.port = [], {}, 0, [], free_port()

    def exec(self, store, lines):
        """The replies to these lines, in as many runs as their number wants."""
        replies = []
        for start in range(0, len(lines), MOST_LINES):
            text = ''.join(lines[start:start + MOST_LINES])
            ran = subprocess.run([self.options.program, store, 'exec'], input=text, stdout=subprocess.PIPE, text=True, check=True)
            replies += [json.loads(it) for it in ran.stdout.split('\n')[:-1]]
        return replies

    def serve(self):
        words = ['serve', str(self.port), str(self.options.workers)]
        server = subprocess.Popen([self.options.program, self.store, *words], stdout=subprocess.DEVNULL)
        end = time.monotonic() + PATIENCE
        while time.monotonic() < end:
            with contextlib.suppress(ConnectionRefusedError):
                socket.create_connection((HOST, self.port), 1).close()
                return server
            if server.poll() is not None:
                break
            time.sleep(0.05)
        server.kill()
        sys.exit(f'{" ".join(words)} does not listen: {server.wait()}')

    def told(self, life):
        """What a client told: its calls, each with what came; a fault is told."""
        calls = []
        for text in pathlib.Path(f'{self.room}/client-{life}').read_text(encoding='utf-8').split('\n')[:-1]:
            what = json.loads(text)
            if 'sent' in what:
                calls.append({**what, 'life': life})
            elif 'got' in what:
                reads = calls[-1]['call']['call'] in READS and 'ok' in what['reply']
                calls[-1].update({**what, 'reply': {'ok': {}}} if reads else what)
            else:
                self.faults[life] = what['fault']
        return calls

    def start(self, until, resend=None):
        life, self.started = self.started, self.started + 1
        words = [sys.executable, __file__, '--client', json.dumps([f'{self.room}/client-{life}', self.port, life, until, resend])]
        self.running.append((life, subprocess.Popen(words)))

    def kill_one(self, until):
        life, client = self.running.pop(self.by.randrange(len(self.running)))
        client.kill()
        client.wait()
        calls = self.told(life) if os.path.exists(f'{self.room}/client-{life}') else []
        waits = calls and 'got' not in calls[-1] and calls[-1]['call']['call'] == 'create'
        # (the one that sends it again is to be the same user)
        self.start(until, calls[-1]['call'] if waits and calls[-1]['user'] == USERS[self.started % len(USERS)] else None)

    def run(self):
        """All clients, with kills, until the time is over; the calls of all."""
        self.exec(self.store, self.first)
        server = self.serve()
        try:
            self.until_the_end()
            if server.poll() is not None:
                self.wrong.append(f'the server ended with status {server.returncode}')
        finally:
            for running in (server, *(client for _, client in self.running)):
                running.kill()
                running.wait()
        return [call for life in range(self.started) if os.path.exists(f'{self.room}/client-{life}') for call in self.told(life)]

    def until_the_end(self):
        """Starts all clients, kills some, and waits until all have ended."""
        begin = time.time()
        until = begin + self.options.seconds
        for _ in range(self.options.clients):
            self.start(until)
        for at in self.times:
            time.sleep(max(0, begin + at - time.time()))
            self.kill_one(until)
        for life, client in self.running:
            try:
                client.wait(max(1, until + PATIENCE - time.time()))
            except subprocess.TimeoutExpired:
                self.wrong.append(f'client {life} has no answer {PATIENCE} seconds behind the end')


def bodies(rows, kind):
    return {no: json.loads(body) for number, no, body in rows if number == kind}


def number_of(told):
    return int(told['call']['issue'].removeprefix('OPS-'))


def rank_order(rows):
    """The issues in their order, where ranks were spread anew; else the ranks themselves."""
    ranks = [(no, body) for kind, no, body in rows if kind == 5]
    balance = bodies(rows, 2)[0]['balance']
    return ranks if balance == [0] else [no for no, _ in sorted(ranks, key=lambda it: it[1])]


class Told:
    """The calls that clients told, beside the rows that the server left."""

    def __init__(self, trial, calls, rows):
        self.trial, self.calls, self.rows = trial, calls, rows
        self.answered = [it for it in calls if 'ok' in it.get('reply', {})]
        self.waiting = [it for it in calls if 'got' not in it]
        self.moments, self.marks = self.changes_of_rows()
        self.first = len(trial.first) - 1
        self.made = {}

    def wrong(self, text):
        self.trial.wrong.append(text)

    def changes_of_rows(self):
        """The moment of each change, and the change of each mark."""
        issues, changes = bodies(self.rows, 3), bodies(self.rows, 4)
        externals = {no: body for kind, no, body in self.rows if kind == 6}
        moments = {it['change']: it['at'] for it in issues.values()} | {no: it['at'] for no, it in changes.items()}
        marks = {externals[no]: it['change'] for no, it in issues.items()}
        for no, it in changes.items():
            marks |= {entry[2]: no for entry in it['entries'] if entry[0] == 'description'}
        return moments, marks

    @staticmethod
    def mark(call):
        return call['external'] if call['call'] == 'create' else call['set']['description']

    def changes(self):
        """Each change behind the first ones, by its number, with the call that made it."""
        for it in self.answered:
            number, again = it['reply']['ok'].get('change'), it['reply']['ok'].get('already')
            if not number:
                continue
            if number in self.made and not again and not self.made[number]['reply']['ok'].get('already'):
                self.wrong(f'two calls were answered with the change {number}')
            if not again and not int(it['sent']) <= self.moments.get(number, -1) <= it['got']:
                self.wrong(f'change {number} is of the moment {self.moments.get(number)}, and was asked for from {it["sent"]} to {it["got"]}')
            if number not in self.made or not again:
                self.made[number] = it
        for it in self.waiting:
            number = self.marks.get(self.mark(it['call'])) if it['call']['call'] in ('create', 'edit', 'transition') else None
            if number:
                self.made.setdefault(number, it)
        there = set(range(self.first + 1, bodies(self.rows, 2)[0]['change'] + 1))
        if set(self.made) != there:
            more, fewer = sorted(there - set(self.made))[:9], sorted(set(self.made) - there)[:9]
            self.wrong(f'changes that nobody asked for: {more}; that aren\'t there: {fewer}')

    def lines(self, moves):
        """The lines that replay the changes and these moves, each with the call that it replays, or None."""
        lines, moment = [(it, None) for it in self.trial.first], 0
        for number in sorted(self.made):
            it = self.made[number]
            if self.moments.get(number, 0) > moment:
                moment = self.moments[number]
                lines.append((line_of('root', {'call': 'tick', 'to': moment}), None))
            lines.append((line_of(it['user'], it['call']), it))
        lines += [(line_of(it['user'], it['call']), it) for it in moves]
        return lines + [(line_of('root', {'call': 'tick', 'to': bodies(self.rows, 2)[0]['moment']}), None)]

    def replayed(self, name, moves):
        """The rows behind a replay; other replies than those that were answered are told."""
        lines = self.lines(moves)
        pathlib.Path(f'{self.trial.room}/{name}').write_text(''.join(line for line, _ in lines), encoding='utf-8')
        with tempfile.TemporaryDirectory(dir=QUICK) as quick:
            store = f'{quick}/rows'
            replies = self.trial.exec(store, [line for line, _ in lines])
            rows = rows_of(store)
        different = []
        for (line, it), reply in zip(lines, replies):
            if 'ok' not in reply:
                different.append(f'replayed: {line.strip()} is answered {reply}')
            elif it and 'reply' in it and {**reply['ok'], 'already': 0} != {**it['reply']['ok'], 'already': 0}:
                different.append(f'replayed: {line.strip()} is answered {reply}, and was {it["reply"]}')
        return rows, different

    def compared(self):
        """Replays all, with the moves under way that the rows show to have been made; how many calls under way were made."""
        self.changes()
        moves = [it for it in self.answered if it['call']['call'].startswith('move')]
        rows, different = self.replayed('replayed', moves)
        ranks = [dict((no, body) for kind, no, body in each if kind == 5) for each in (rows, self.rows)]
        late = [it for it in self.waiting if it['call']['call'].startswith('move') and len({each.get(number_of(it)) for each in ranks}) > 1]
        if late:
            rows, different = self.replayed('replayed-late', moves + late)
        for text in different[:5]:
            self.wrong(text)
        if [it for it in rows if it[0] != 5] != [it for it in self.rows if it[0] != 5] or rank_order(rows) != rank_order(self.rows):
            missing, more = sorted(set(self.rows) - set(rows)), sorted(set(rows) - set(self.rows))
            self.wrong(f'the rows aren\'t those of the replay: {len(missing)} others, as {missing[:3]}, in the place of {more[:3]}')
        return len(late) + sum('got' not in it for it in self.made.values())


def main():
    if sys.argv[1:2] == ['--client']:
        path, port, life, until, resend = json.loads(sys.argv[2])
        return Client(os.open(path, os.O_WRONLY | os.O_CREAT | os.O_APPEND, 0o644), port, life, until, resend).live()
    asked = argparse.ArgumentParser(description=__doc__, formatter_class=argparse.RawDescriptionHelpFormatter)
    asked.add_argument('program')
    asked.add_argument('--clients', type=int, default=64)
    asked.add_argument('--seconds', type=float, default=600)
    asked.add_argument('--workers', type=int, default=4)
    asked.add_argument('--kills', type=int)
    asked.add_argument('--seed', type=int, default=random.SystemRandom().randrange(10 ** 9))
    asked.add_argument('--kept', type=pathlib.Path)
    options = asked.parse_args()
    options.program = os.path.abspath(options.program)
    options.kills = int(options.seconds * 1.5) if options.kills is None else options.kills
    print(f'seed {options.seed}', flush=True)
    with tempfile.TemporaryDirectory() as room:
        trial = Trial(options, room)
        # (the server and the clients end with the trial, also where it is ended from outside)
        signal.signal(signal.SIGTERM, lambda *_: sys.exit('ended'))
        calls = trial.run()
        trial.wrong += [f'client {life}: {fault}' for life, fault in trial.faults.items()]
        told = Told(trial, calls, rows_of(trial.store))
        late = told.compared()
        for text in trial.wrong[:20]:
            print(text)
        if trial.wrong:
            kept = options.kept or pathlib.Path(tempfile.gettempdir()) / f'tracker-clients-{options.seed}'
            shutil.copytree(room, kept, dirs_exist_ok=True)
            print(f'all files are in {kept}')
        refused = sum('refused' in it.get('reply', {}) for it in calls)
        print(f'{options.clients} clients, {options.kills} kills, {len(calls)} calls: {len(told.answered)} answered, {refused} refused, '
              f'{len(told.waiting)} under way at a kill, of which {late} were made; {len(told.made)} changes, {len(trial.wrong)} wrong')
    return 1 if trial.wrong else 0


if __name__ == '__main__':
    sys.exit(main())
