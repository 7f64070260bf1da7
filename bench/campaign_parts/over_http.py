"""Connections to `serve PORT 1`, one after another, over a file."""
import contextlib
import json
import os
import re
import socket
import struct
import subprocess
import time
import urllib.parse

from . import inventing, seeds
from .documented import FORMS, RESPONSES, read_reply
from .mutating import mutated, pieces
from .running import LOG, SECONDS, Wrong, copied, remove, rows_of, run

HOST = '127.0.0.1'
MOST = 16
PROBE = b'GET /issues/OPS-1 HTTP/1.1\r\nHost: t\r\nConnection: close\r\n\r\n'
HEAD = re.compile(rb'HTTP/1\.1 ([0-9]{3}) [A-Za-z -]+\r\n((?:[A-Za-z-]+: [^\r\n]*\r\n)*)\r\n')
SORTS = ['', 'X-Filler: ' + 'a' * 200, 'Accept: */*', 'Expect: 100-continue', 'Connection: keep-alive', 'Cookie: a=b; c=d',
         'X-\u00dcber: 1', 'X-Empty:', 'X-User-Name: root']


def free_port():
    with socket.socket() as it:
        it.bind((HOST, 0))
        return it.getsockname()[1]


def query_text(by, asked):
    """Members as a form sends them."""
    members = [(name, str(value)) for name, value in asked.items()]
    if by.random() < 0.05:
        members += [by.choice([('limit', '5'), ('count', '1'), ('', ''), ('jql', '\u00fc')])]
    return urllib.parse.urlencode(members, quote_via=by.choice([urllib.parse.quote, urllib.parse.quote_plus]))


def target(by):
    part = by.choice(['issue', 'issue', 'history', 'search', 'search', 'filter', 'board', 'burndown'])
    number = by.choice(['1', '2', '3', '007', '0', '4294967296', 'one', ''])
    path = {'issue': f'/issues/{inventing.key(by)}', 'history': f'/issues/{inventing.key(by)}/history', 'search': '/search',
            'filter': f'/filters/{number}',
            'board': f'/boards/{number}', 'burndown': f'/sprints/{number}/burndown'}[part]
    asked = {**({'jql': inventing.query(by)} if part == 'search' else {}), **(inventing.page_of(by) if part != 'issue' else {})}
    return urllib.parse.quote(path, safe='/') + (f'?{query_text(by, asked)}' if asked else '')


def request(by):
    """A request that is mostly right."""
    user = by.choice(inventing.USERS)
    fields = ['Host: t', f'X-User: {user}'] + [it for it in by.choices(SORTS, k=by.choice([0, 0, 1, 2])) if it]
    if by.random() < 0.6:
        body = inventing.spelled(by, inventing.call(by)).encode('utf-8', 'surrogatepass')
        head = ['POST /calls HTTP/1.1', *fields, f'Content-Length: {len(body)}']
    else:
        body, head = b'', [f'GET {target(by)} HTTP/1.1', *fields]
    return '\r\n'.join(head).encode() + b'\r\n\r\n' + body


def responses(came):
    """The responses that these bytes are, each with its status, its fields and its body, and what is left behind them."""
    found = []
    while head := HEAD.match(came):
        fields = {name.lower(): value for name, value in (line.split(': ', 1) for line in head[2].decode().split('\r\n')[:-1])}
        # (a response to HEAD has no body, and no length where it is refused for its form)
        length = int(fields.get('content-length', 0))
        rest = came[head.end():]
        if rest and len(rest) < length:
            break
        found.append((int(head[1]), fields, rest[:length]))
        came = rest[length:]
    return found, came


def wrong_response(status, fields, body):
    """What is wrong with a response by docs/HTTP.md, or None, and its reply where it has one."""
    if body == f'{{"http":{status}}}'.encode() or not body:
        closes = fields.get('connection') == 'close'
        return (None if status in FORMS and closes and (status == 405) == ('allow' in fields) else f'{status}, {fields}'), None
    reply, wrong = read_reply(body)
    if not wrong and fields.get('content-type') != 'application/json':
        wrong = f'{fields}'
    if not wrong and not (status == 200 if 'ok' in reply else reply['refused']['no'] in RESPONSES.get(status, ())):
        wrong = f'status {status} for {body!r}'
    if not wrong and 'refused' in reply and reply['refused']['no'] in (14, 15):
        wrong = f'{body!r}, though there is room and memory'
    return wrong, reply


def changes_in(rows):
    return {no if kind == 4 else json.loads(body)['change'] for kind, no, body in rows if kind in (3, 4)}


def without_moment(rows):
    return [(kind, no, re.sub(r'"moment":\d+', '', body) if kind == 2 else body) for kind, no, body in rows]


class OverHttp:
    """Connections to one server; each hundredth begins with a new file."""

    name, share = 'http', 0.25

    def __init__(self, program, room):
        self.program, self.store, self.before = program, f'{room}/http', f'{room}/http-before'
        self.count, self.server, self.port, self.seen, self.mark = 0, None, 0, {}, None

    def stop(self):
        if self.server:
            self.server.kill()
            self.server.communicate()
            self.server = None

    def serve(self):
        self.stop()
        self.port = free_port()
        self.server = subprocess.Popen([self.program, self.store, 'serve', str(self.port), '1'], stdout=subprocess.DEVNULL,
                                       stderr=subprocess.PIPE)
        end = time.monotonic() + SECONDS
        while time.monotonic() < end and self.server.poll() is None:
            with contextlib.suppress(ConnectionRefusedError):
                socket.create_connection((HOST, self.port), 1).close()
                return self.look()
            time.sleep(0.02)
        raise Wrong(f'serve does not listen: {self.server.poll()}')

    def look(self):
        """Copies the file, where it isn't as it was at the last look."""
        mark = [(it.st_mtime_ns, it.st_size) for it in map(os.stat, filter(os.path.exists, (self.store, self.store + LOG)))]
        if mark != self.mark:
            copied(self.store, self.before)
            self.mark = mark

    def begin(self, by):
        self.stop()
        remove(self.store)
        if by.random() < 0.6:
            run(self.program, self.store, ['init'], seeds.SETUPS[-1])
        run(self.program, self.store, ['exec'], b'\n'.join(inventing.line(by) for _ in range(by.choice([0, 60]))))
        self.serve()

    def step(self, by):
        if self.count % 100 == 0:
            self.begin(by)
        self.count += 1
        sent, whole = [], by.random() < 0.35
        for _ in range(by.choice([1, 1, 2, 5, 17])):
            good = request(by)
            sent.append(good if whole or by.random() < 0.3 else mutated(by, by.choice([good, by.choice(seeds.REQUESTS)]), seeds.REQUESTS))
        if by.random() < 0.04:
            sent = [by.randbytes(by.randrange(400))]
        joined = b''.join(sent)
        plan = {'cuts': pieces(by, joined, 6), 'reset': by.random() < 0.05}
        if by.random() < 0.4:
            joined = joined[:by.randrange(len(joined) + 1)]
        return self.before, joined, plan

    def exchange(self, sent, plan):
        """What comes back to these bytes, and whether the connection was reset."""
        came, reset = b'', False
        with socket.create_connection((HOST, self.port), SECONDS) as link:
            link.setsockopt(socket.IPPROTO_TCP, socket.TCP_NODELAY, 1)
            ends = [0, *(it for it in plan['cuts'] if it < len(sent)), len(sent)]
            try:
                for start, end in zip(ends, ends[1:]):
                    link.sendall(sent[start:end])
                if plan['reset']:
                    link.setsockopt(socket.SOL_SOCKET, socket.SO_LINGER, struct.pack('ii', 1, 0))
                    return came, True
                link.shutdown(socket.SHUT_WR)
            except OSError:
                reset = True
            try:
                while more := link.recv(65_536):
                    came += more
            except socket.timeout:
                raise Wrong(f'a connection that has sent all is not closed within {SECONDS} seconds') from None
            except OSError:
                reset = True
        return came, reset

    def tried(self, store, sent, plan):
        if store != self.before or not self.server:
            self.stop()
            copied(store, self.store)
            self.serve()
        rows = rows_of(self.before)
        came, reset = self.exchange(sent, plan)
        # (connections are answered one after another: with this answer the one before has ended)
        probed, _ = self.exchange(PROBE, {'cuts': [], 'reset': False})
        if self.server.poll() is not None:
            raise Wrong(f'serve ended with status {self.server.returncode}: {self.server.stderr.read().decode(errors="replace")[-2_000:]}')
        if not probed.endswith(b'{"refused":{"member":"user","no":1}}'):
            raise Wrong(f'the next connection is answered {probed[:300]!r}')
        self.look()
        self.compared(rows, self.replies(came, reset), reset)

    def replies(self, came, reset):
        """The replies of the responses, each of which has to be as the page says."""
        found, left = responses(came)
        if left and not reset:
            raise Wrong(f'a response that is none: {left[:300]!r}')
        replies = []
        for at, (status, fields, body) in enumerate(found):
            wrong, reply = wrong_response(status, fields, body)
            if not wrong and (fields.get('connection') == 'close') != (at == len(found) - 1) and (at < len(found) - 1 or at == MOST - 1):
                wrong = f'{fields} in response {at + 1} of {len(found)}'
            if wrong:
                raise Wrong(f'a response: {wrong}')
            replies.append(reply or {})
            self.seen[status] = self.seen.get(status, 0) + 1
        if len(found) > MOST:
            raise Wrong(f'{len(found)} responses in one connection')
        return replies

    def compared(self, before, replies, reset):
        """Nothing changed but the moment where nothing was answered ok; else there are just the changes that were answered."""
        after = rows_of(self.before)
        if not reset and not any('ok' in it for it in replies):
            if without_moment(before) != without_moment(after):
                raise Wrong('rows changed, and no request was answered ok')
        answered = {it['ok']['change'] for it in replies if it.get('ok', {}).get('change') and not it['ok'].get('already')}
        more = changes_in(after) - changes_in(before)
        if not answered <= more or (not reset and answered != more):
            raise Wrong(f'the changes {sorted(more)[:20]} were made, and {sorted(answered)[:20]} answered')

    def end(self):
        self.stop()
