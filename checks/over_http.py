#!/usr/bin/env python3
"""Asks the tracker over HTTP by sockets, by Python's client and by curl, and compares what comes with what docs/HTTP.md says.

usage: python3 checks/over_http.py [PROGRAM [PORT]] [--workers N]

PROGRAM is the built tracker, crates/tracker/out/tracker by default, and is started on PORT of 127.0.0.1, 8766 by default, with 4 workers or
with N. Each case has a line. The last one counts them, and the status is 1 where one is not ok. It takes two to five minutes, most of them
behind clients that are slow. bench/http_requests.py times requests.
"""
import argparse
import contextlib
import http.client
import json
import os
import pathlib
import shutil
import socket
import struct
import subprocess
import sys
import tempfile
import threading
import time

TOP = pathlib.Path(__file__).resolve().parent.parent
HOST = '127.0.0.1'

SHOW = '/issues/OPS-1'
CREATE = b'{"call":"create","project":"OPS","type":"Task","summary":"Fix login","set":{"points":"3"}}'
CLOSE = 'Connection: close'
UNKNOWN = '{"refused":{"kind":"issue","name":"%s","no":2}}'


class Answer:
    """A response: its status, its fields by name in small letters, and its body."""

    def __init__(self, status, fields, body):
        self.status, self.fields, self.body = status, fields, body

    def closes(self):
        return self.fields.get('connection') == 'close'


def request(target, *fields, method='GET', version='HTTP/1.1', host=True, user='cy', body=b''):
    """The bytes of a request."""
    lines = [f'{method} {target} {version}']
    lines += ['Host: tracker'] * host + [f'X-User: {user}'] * bool(user) + list(fields)
    return '\r\n'.join(lines).encode() + b'\r\n\r\n' + body


def posted(body, *fields, user='anna', target='/calls'):
    return request(target, f'Content-Length: {len(body)}', *fields, method='POST', user=user, body=body)


def head_of(length):
    """A request for OPS-1 whose head has so many bytes."""
    plain = request(SHOW, 'X-Filler: ', CLOSE)
    return request(SHOW, 'X-Filler: ' + 'a' * (length - len(plain)), CLOSE)


def with_fields(count, *fields):
    """A request for OPS-1 with so many fields, the last of which are these."""
    return request(SHOW, *(f'X-{number}: a' for number in range(count - 3 - len(fields))), *fields, CLOSE)


def answers(came, without_body=False):
    """The responses that these bytes are, one behind another."""
    found = []
    while came:
        head, _, rest = came.partition(b'\r\n\r\n')
        first, *lines = head.decode().split('\r\n')
        fields = {name.lower(): value for name, value in (line.split(': ', 1) for line in lines)}
        length = 0 if without_body else int(fields['content-length'])
        found.append(Answer(int(first.split(' ')[1]), fields, rest[:length].decode()))
        came = rest[length:]
    return found


class Asking:
    """Asks the program on a port, which serves with so many workers, and tells each case."""

    def __init__(self, port, workers=1):
        self.port, self.workers, self.good, self.bad = port, workers, 0, 0

    def tell(self, name, wanted, came):
        if wanted == came:
            self.good += 1
            print(f'ok      {name}')
        else:
            self.bad += 1
            print(f'not ok  {name}: wanted {wanted!r}, came {came!r}')

    def exchange(self, sent, piece=None, finish=True, patience=20):
        """What comes back, until the program closes, to bytes that are sent at once or in pieces."""
        with socket.create_connection((HOST, self.port), patience) as link:
            try:
                for at in range(0, len(sent), piece or len(sent)):
                    link.sendall(sent[at:at + (piece or len(sent))])
                if finish:
                    link.shutdown(socket.SHUT_WR)
            except (BrokenPipeError, ConnectionResetError):
                pass
            came = b''
            try:
                while more := link.recv(65_536):
                    came += more
            except ConnectionResetError:
                came += b''
            return came

    def reset(self, sent):
        """Sends these bytes, and resets the connection."""
        with socket.create_connection((HOST, self.port), 20) as link:
            link.setsockopt(socket.SOL_SOCKET, socket.SO_LINGER, struct.pack('ii', 1, 0))
            link.sendall(sent)

    def one(self, name, sent, status, body, **fields):
        """A request that is answered by a response of this status and body, with these fields, which closes the connection."""
        found = answers(self.exchange(sent, finish=False))
        wanted = [(status, body, True, fields)]
        self.tell(name, wanted, [(it.status, it.body, it.closes(), {key: it.fields.get(key) for key in fields}) for it in found])

    def refused(self, name, sent, status, **fields):
        self.one(name, sent, status, f'{{"http":{status}}}', **fields)

    def form(self, name, sent, member):
        """A request that is refused by the call's form."""
        self.one(name, sent, 400, f'{{"refused":{{"member":"{member}","no":1}}}}')


def show_body(ask):
    """The reply for the one issue."""
    return answers(ask.exchange(request(SHOW, CLOSE)))[0].body


def calls(ask):
    """The first call, the paths, and statuses of replies."""
    before = int(time.time())
    ask.one('an issue is made', posted(CREATE, CLOSE), 200, '{"ok":{"already":false,"change":1,"issue":"OPS-1"}}')
    shown = json.loads(show_body(ask))['ok']
    ask.tell('its clock is the machine\'s', True, before <= shown['created'] <= time.time())
    ask.tell('its fields are told', ('anna', '3'), (shown['fields']['reporter'], shown['fields']['points']))
    ask.one('a search', request('/search?jql=points+%3E+2&count=10', CLOSE), 200, '{"ok":{"issues":["OPS-1"],"total":1}}')
    ask.one('a list', posted(b'{"call":"list","jql":"points > 2","fields":["POINTS","due"]}', CLOSE), 200,
            '{"ok":{"issues":[{"created":%d,"fields":{"points":"3"},"issue":"OPS-1","updated":%d}],"total":1}}' % (shown['created'], shown['updated']))
    ask.one('a list of what is no field', posted(b'{"call":"list","jql":"","fields":["colour"]}', CLOSE), 404,
            '{"refused":{"kind":"field","name":"colour","no":2}}')
    ask.one('a list by a query with a fault', posted(b'{"call":"list","jql":"colour = red"}', CLOSE), 422, '{"refused":{"kind":11,"no":7,"place":0}}')
    ask.form('a list of too many', posted(b'{"call":"list","jql":"","count":101}', CLOSE), 'count')
    ask.one('no filters', posted(b'{"call":"filters"}', CLOSE, user='cy'), 200, '{"ok":{"filters":[],"total":0}}')
    ask.one('no boards', posted(b'{"call":"boards"}', CLOSE, user='cy'), 200, '{"ok":{"boards":[],"total":0}}')
    ask.one('no sprints', posted(b'{"call":"sprints","count":1}', CLOSE, user='cy'), 200, '{"ok":{"sprints":[],"total":0}}')
    described = answers(ask.exchange(posted(b'{"call":"describe"}', CLOSE, user='cy'), finish=False))[0]
    told = json.loads(described.body)['ok']
    ask.tell('a description', (200, 'cy', [{'key': 'OPS', 'lead': 'anna', 'may': ['browse']}], list(range(1, 14)), ['Start', 'Review', 'Finish', 'Reopen']),
             (described.status, told['user'], told['projects'], [it['number'] for it in told['fields']], [it['transition'] for it in told['transitions']]))
    ask.form('a description with a member', posted(b'{"call":"describe","count":1}', CLOSE), 'count')
    ask.one('no entry of its history', request(SHOW + '/history', CLOSE), 200, '{"ok":{"entries":[],"total":0}}')
    ask.one('an unknown issue', request('/issues/OPS-9', CLOSE), 404, UNKNOWN % 'OPS-9')
    ask.one('an unknown filter', request('/filters/007', CLOSE), 404, '{"refused":{"kind":"filter","name":"7","no":2}}')
    ask.one('an unknown board', request('/boards/1', CLOSE), 404, '{"refused":{"kind":"board","name":"1","no":2}}')
    ask.one('an unknown sprint', request('/sprints/1/burndown', CLOSE), 404, '{"refused":{"kind":"sprint","name":"1","no":2}}')
    ask.one('an unknown user', request(SHOW, CLOSE, user='zed'), 404, '{"refused":{"kind":"user","name":"zed","no":2}}')
    ask.one('what cy may not', posted(CREATE, CLOSE, user='cy'), 403,
            '{"refused":{"no":3,"permission":"create","project":"OPS"}}')
    ask.one('a query with a fault', request('/search?jql=colour+%3D+red', CLOSE), 422, '{"refused":{"kind":11,"no":7,"place":0}}')
    ask.one('a balance that is idle', posted(b'{"call":"rebalance_step","count":1}', CLOSE, user='root'), 409,
            '{"refused":{"kept":"idle 0","no":12}}')
    ask.form('nobody asks', request(SHOW, CLOSE, user=None), 'user')
    ask.form('a tick isn\'t served', posted(b'{"call":"tick","to":5}', CLOSE), 'call')
    ask.form('a body that names a user', posted(b'{"user":"root","call":"show","issue":"OPS-1"}', CLOSE), 'user')
    ask.form('a body that is none', posted(b'nonsense', CLOSE), 'line')
    ask.form('a filter that is no number', request('/filters/one', CLOSE), 'filter')


def targets(ask):
    """Query texts and paths."""
    ask.form('a repeated member of a query text', request('/search?jql=&count=1&count=1', CLOSE), 'count')
    ask.form('an unknown member of a query text', request('/search?jql=&limit=5', CLOSE), 'limit')
    ask.form('a member of another call', request(SHOW + '?from=0', CLOSE), 'from')
    ask.form('a search without a query', request('/search', CLOSE), 'jql')
    ask.form('a count of nothing', request('/search?jql=&count=0', CLOSE), 'count')
    ask.one('an encoded name of a member', request('/search?%6Aql=points%3D3', CLOSE), 200, '{"ok":{"issues":["OPS-1"],"total":1}}')
    ask.one('percent signs in a path', request('/issues/OPS%2D1', CLOSE), 404, UNKNOWN % 'OPS%2D1')
    for target in ('/issues/', '/issues//history', '/filters/', '/sprints//burndown', '/', '/Search', '/calls/', '//calls',
                   '/issues/OPS-1/', 'http://tracker/issues/OPS-1'):
        ask.refused(f'the path {target}', request(target), 404)
    ask.one('a query text behind posted calls', posted(b'{"call":"show","issue":"OPS-9"}', CLOSE, target='/calls?x=1'), 404,
            UNKNOWN % 'OPS-9')
    ask.one('a body of what is got', request(SHOW[:-1] + '9', 'Content-Length: 5', CLOSE, body=b'aside'), 404, UNKNOWN % 'OPS-9')


def heads(ask):
    """Requests that are refused by their heads, and those at the limits."""
    shown = show_body(ask)
    ask.one('a head of 8,192 bytes', head_of(8_192), 200, shown)
    ask.refused('a head of 8,193 bytes', head_of(8_193), 431)
    ask.one('64 fields', with_fields(64), 200, shown)
    ask.refused('65 fields', with_fields(65), 431)
    ask.refused('65 fields, one of no grammar', with_fields(65, 'no colon'), 400)
    ask.refused('65 fields, and a body too long', with_fields(65, 'Content-Length: 65537'), 431)
    ask.refused('no version', b'GET /issues/OPS-1\r\n\r\n', 400)
    ask.refused('HTTP/2.0', request(SHOW, version='HTTP/2.0'), 400)
    ask.refused('no Host', request(SHOW, host=False), 400)
    ask.refused('two Hosts', request(SHOW, 'Host: other'), 400)
    ask.refused('two X-Users', request(SHOW, 'x-user: root'), 400)
    ask.refused('two Content-Lengths', request('/calls', 'Content-Length: 2', 'Content-Length: 2', method='POST', body=b'{}'), 400)
    for length in ('', '+2', '2, 2', '0x2', '-1'):
        ask.refused(f'the length "{length}"', request('/calls', f'Content-Length: {length}', method='POST', body=b'{}'), 400)
    ask.refused('a body in chunks', request('/calls', 'Transfer-Encoding: chunked', method='POST', body=b'2\r\n{}\r\n0\r\n\r\n'), 501)
    ask.refused('chunks, and a body too long', request('/calls', 'Transfer-Encoding: chunked', 'Content-Length: 65537'), 501)
    ask.refused('a body of 65,537 bytes', posted(b'{"call":"show","issue":"OPS-9"}'.ljust(65_537)), 413)
    ask.refused('too long a body for no path', request('/nowhere', 'Content-Length: 65537'), 413)
    ask.one('a body of 65,536 bytes', posted(b'{"call":"show","issue":"OPS-9"}'.ljust(65_536), CLOSE), 404, UNKNOWN % 'OPS-9')


def methods(ask):
    """Other methods than a path's."""
    ask.refused('DELETE of posted calls', request('/calls', method='DELETE'), 405, allow='POST')
    ask.refused('POST of an issue', request(SHOW, method='POST'), 405, allow='GET')
    ask.refused('a method in small letters', request(SHOW, method='get'), 405, allow='GET')
    ask.refused('DELETE of no path', request('/nowhere', method='DELETE'), 404, allow=None)
    came = ask.exchange(request(SHOW, method='HEAD'), finish=False)
    found = answers(came, without_body=True)[0]
    ask.tell('HEAD has no body', (405, 'GET', None, True, True),
             (found.status, found.fields.get('allow'), found.fields.get('content-length'), found.closes(), came.endswith(b'\r\n\r\n')))


def connections(ask):
    """What keeps a connection open, and what closes it."""
    both = answers(ask.exchange(posted(b'{"call":"show","issue":"OPS-9"}') + request(SHOW, CLOSE) + request(SHOW)))
    ask.tell('two requests at once, and none behind one that closes', [(404, False), (200, True)], [(it.status, it.closes()) for it in both])
    ask.one('a list of fields that closes', request(SHOW, 'Connection: keep-alive, Close'), 200, show_body(ask))
    ask.one('HTTP/1.0', request(SHOW, version='HTTP/1.0', host=False), 200, show_body(ask))
    ask.one('HTTP/1.0 that would stay', request(SHOW, 'Connection: keep-alive', version='HTTP/1.0'), 200, show_body(ask))
    many = answers(ask.exchange(request(SHOW) * 17))
    ask.tell('the sixteenth response closes', [False] * 15 + [True], [it.closes() for it in many])
    open_end = answers(ask.exchange(request(SHOW)))
    ask.tell('the input ends between requests', [(200, False)], [(it.status, it.closes()) for it in open_end])
    ask.tell('the input ends inside a head', b'', ask.exchange(request(SHOW)[:-1]))
    ask.tell('the input ends inside a body', b'', ask.exchange(posted(CREATE)[:-1]))
    slow = answers(ask.exchange(request(SHOW, CLOSE), piece=1))
    ask.tell('a byte at a time', [(200, show_body(ask))], [(it.status, it.body) for it in slow])
    for sent in (request(SHOW) * 16, request(SHOW)[:-1]):
        ask.reset(sent)
        ask.one(f'behind a client that reset its connection after {len(sent)} bytes', request(SHOW, CLOSE), 200, show_body(ask))
    behind = answers(ask.exchange(request(SHOW) + request('/nowhere') + request(SHOW)))
    ask.tell('nothing behind a request that is refused', [200, 404], [it.status for it in behind])


def python_client(ask):
    """Python's own client."""
    link = http.client.HTTPConnection(HOST, ask.port, timeout=20)
    seen = []
    for number in range(2):
        link.request('GET', f'/issues/OPS-{1 + 8 * number}', headers={'X-User': 'cy'})
        seen.append((link.getresponse().read()[:6], id(link.sock)))
    ask.tell('http.client: two requests on one connection', ([b'{"ok":', b'{"refu'], 1),
             ([text for text, _ in seen], len({sock for _, sock in seen})))
    link.close()
    link = http.client.HTTPConnection(HOST, ask.port, timeout=20)
    link.request('PATCH', '/calls', b'{}', {'X-User': 'cy'})
    came = link.getresponse()
    ask.tell('http.client: PATCH', (405, 'POST', b'{"http":405}'), (came.status, came.headers['Allow'], came.read()))
    link.close()


def curl(ask):
    """curl, where it is there."""
    if not shutil.which('curl'):
        print('curl is not there: its cases are left out')
        return

    def run(*words):
        ran = subprocess.run(['curl', '-s', '--max-time', '20', *words], stdout=subprocess.PIPE, stderr=subprocess.PIPE, check=True)
        return ran.stdout.decode(), ran.stderr.decode()

    base = f'http://{HOST}:{ask.port}'
    twice = run('-v', '-H', 'X-User: cy', base + '/issues/OPS-8', base + '/issues/OPS-9')
    ask.tell('curl: two requests on one connection', (UNKNOWN % 'OPS-8' + UNKNOWN % 'OPS-9', 1),
             (twice[0], twice[1].count('Re-using existing connection')))
    with tempfile.NamedTemporaryFile() as body:
        body.write(b'{"call":"search","jql":"points = 3"}')
        body.flush()
        ask.tell('curl: --data-binary', '{"ok":{"issues":["OPS-1"],"total":1}}',
                 run('-H', 'X-User: cy', '--data-binary', f'@{body.name}', base + '/calls')[0])
    ask.tell('curl: -I', ['HTTP/1.1 405 Method Not Allowed', 'Content-Type: application/json', 'Allow: GET', 'Connection: close', '', ''],
             run('-I', '-H', 'X-User: cy', base + SHOW)[0].split('\r\n'))
    ask.tell('curl: a member that is encoded', '{"ok":{"issues":["OPS-1"],"total":1}}',
             run('-G', '-H', 'X-User: cy', '--data-urlencode', 'jql=points = 3', base + '/search')[0])


def silent(link, _stop):
    """Sends nothing."""


def half_a_head(link, _stop):
    link.sendall(request(SHOW)[:20])


def trickle(link, stop):
    """Sends a byte of a long head each two seconds."""
    for byte in head_of(8_000):
        try:
            link.sendall(bytes([byte]))
        except OSError:
            return
        if stop.wait(2):
            return


def never_reads(link, _stop):
    """Asks for more than the sockets hold, and takes none of it."""
    asked = b'{"call":"show","issue":"%s"}' % (b'A' * 60_000)
    link.settimeout(3)
    try:
        link.sendall(posted(asked) * 16)
    except OSError:
        pass


def idle(link, _stop):
    """Asks for an issue, and keeps its connection open."""
    link.sendall(request(SHOW))


@contextlib.contextmanager
def held(ask, hold, count):
    """So many clients that hold a connection up, each in this way."""
    stop = threading.Event()
    with contextlib.ExitStack() as stack:
        holders = []
        for _ in range(count):
            link = stack.enter_context(socket.socket())
            link.setsockopt(socket.SOL_SOCKET, socket.SO_RCVBUF, 4_096)
            link.connect((HOST, ask.port))
            holders.append(threading.Thread(target=hold, args=(link, stop)))
            holders[-1].start()
        time.sleep(0.3)
        yield
        stop.set()
        for holder in holders:
            holder.join()


def wait_behind(ask, hold, count):
    """What the next client is answered behind so many of these, and how long it waits."""
    with held(ask, hold, count):
        begun = time.time()
        came = answers(ask.exchange(request(SHOW, CLOSE), finish=False, patience=200))
        return came, time.time() - begun


def served_behind(ask, name, hold, count, limit, tries=1, least=0):
    """How long the next client waits behind so many of these, at best."""
    came, took = wait_behind(ask, hold, count)
    while took > limit and tries > 1:
        # (whom the end of a round fell upon has waited for all workers; the next one doesn't)
        tries -= 1
        came, took = wait_behind(ask, hold, count)
    ask.tell(f'behind {name} the next client is served within {limit} seconds', ([200], True), ([it.status for it in came], least <= took <= limit))
    print(f'        after {took:.1f} seconds')


def slow_clients(ask):
    """Clients that hold a connection up, one in each worker, and how long the next one waits behind them."""
    for name, hold, limit in (('clients that send nothing', silent, 12), ('half a head', half_a_head, 12), ('some that never read', never_reads, 15),
                              ('a byte each two seconds', trickle, 62)):
        if ask.workers > 1:
            served_behind(ask, f'{name}, in each worker but one,', hold, ask.workers - 1, 2, tries=2)
            # (until they have gone, none is free for those that hold up all of them)
            time.sleep(0.5)
        served_behind(ask, f'{name}, in each worker,', hold, ask.workers, limit)


def idle_clients(ask):
    """Sixteen connections that stay open: ten seconds and a fifth, for the reading away, for each that a worker has to wait for."""
    served_behind(ask, 'sixteen connections that stay open', idle, 16, round(10.3 * -(-16 // ask.workers)) + 3)


def beside_each_other(ask):
    """Creates by as many clients at once as there are workers, and the keys and changes that they are told."""
    count = 10 * ask.workers
    said, lock = [], threading.Lock()

    def create():
        for found in answers(ask.exchange(posted(CREATE, CLOSE), finish=False)):
            with lock:
                said.append((found.status, found.body))

    before = json.loads(answers(ask.exchange(request('/search?jql=', CLOSE)))[0].body)['ok']['total']
    clients = [threading.Thread(target=create) for _ in range(count)]
    for client in clients:
        client.start()
    for client in clients:
        client.join()
    wanted = [f'OPS-{number}' for number in range(before + 1, before + count + 1)]
    ask.tell(f'{count} creates at once', ([200] * count, sorted(wanted)),
             ([status for status, _ in said], sorted(json.loads(body)['ok']['issue'] for _, body in said)))


def rebalanced(ask):
    """Moves between the same two, until a rank has 128 bytes. Worker 0 begins a rebalancing then and ends it, while clients go on."""
    moves = b''.join(posted(b'{"call":"move_before","issue":"OPS-%d","other":"OPS-%d"}' % pair) for pair in ((3, 2), (2, 3)) * 8)
    statuses, longest, now = set(), 0, {}
    for _ in range(60):
        statuses |= {it.status for it in answers(ask.exchange(moves))}
        now = json.loads(answers(ask.exchange(posted(b'{"call":"balance"}', CLOSE)))[0].body)['ok']
        if now.get('bucket') == 1:
            break
        longest = max(longest, now['longest'])
    ask.tell('ranks that have grown long are rebalanced', ({200}, True, True, 1, 'idle'),
             (statuses, 100 < longest < 144, now['longest'] < 64, now.get('bucket'), now['state']))


def long_bodies(ask):
    """The answer comes through, although the client still sends."""
    for _ in range(20):
        found = answers(ask.exchange(posted(b' ' * 9_000_000), finish=False))
        if [it.status for it in found] != [413]:
            break
    ask.tell('9,000,000 bytes of body, twenty times', ([413], True), ([it.status for it in found], found[0].closes() if found else None))


def without_descriptors(ask, running):
    """No descriptor is free for some seconds. Who comes then is served as soon as there is one."""
    if not shutil.which('prlimit'):
        print('prlimit is not there: its case is left out')
        return

    def limit(number):
        subprocess.run(['prlimit', f'--pid={running.pid}', f'--nofile={number}:'], check=True)

    limit(4)
    # (the system keeps a descriptor ready for who waits in accept, so one client is still taken, and finds its connection closed)
    ask.exchange(request(SHOW, CLOSE), finish=False)
    back = threading.Timer(3, limit, (1_024,))
    back.start()
    begun = time.time()
    found = answers(ask.exchange(request(SHOW, CLOSE), finish=False))
    took = time.time() - begun
    back.join()
    ask.tell('a client that comes while no descriptor is free', ([200], True, None), ([it.status for it in found], 2 < took < 10, running.poll()))


def threads_of(running):
    """How many threads the program has."""
    return len(os.listdir(f'/proc/{running.pid}/task'))


def with_threads(ask, running):
    """Each worker has a thread, and so has worker 0, as soon as a round has begun."""
    for _ in range(40):
        if threads_of(running) == ask.workers + 1:
            break
        time.sleep(0.05)
    ask.tell(f'the threads of {ask.workers} workers and of worker 0', ask.workers + 1, threads_of(running))


def without_threads(ask, program):
    """No thread can be made. One worker serves on the thread of the program then, more connections than a round takes."""
    if os.geteuid() or not shutil.which('setpriv') or not shutil.which('prlimit'):
        print('setpriv or prlimit is not there, or the user is not root: the case without threads is left out')
        return
    with tempfile.TemporaryDirectory() as room:
        os.chmod(room, 0o755)
        limited = ['setpriv', '--reuid=65534', '--regid=65534', '--clear-groups', 'prlimit', '--nproc=1:1', shutil.copy(program, room)]
        running = started(limited, ask.port, ask.workers)
        try:
            ask.one('an issue is made without threads', posted(CREATE, CLOSE), 200, '{"ok":{"already":false,"change":1,"issue":"OPS-1"}}')
            many = [answers(ask.exchange(request(SHOW, CLOSE)))[0].status for _ in range(70)]
            ask.tell('seventy connections without threads', ([200] * 70, 1, None), (many, threads_of(running), running.poll()))
            served_behind(ask, 'one that sends nothing, and without threads,', silent, 1, 12, least=9)
        finally:
            running.kill()
            running.wait()


def started(program, port, workers=1, store=':memory:'):
    """The program, or these words before its own, which listens."""
    before = [program] if isinstance(program, str) else program
    running = subprocess.Popen([*before, store, 'serve', str(port), str(workers)], stdout=subprocess.DEVNULL)
    for _ in range(200):
        if running.poll() is not None:
            sys.exit(f'{program} ended with status {running.returncode}')
        try:
            socket.create_connection((HOST, port), 1).close()
            return running
        except ConnectionRefusedError:
            time.sleep(0.05)
    running.kill()
    sys.exit(f'{program} does not listen')


def words():
    known = argparse.ArgumentParser(description=__doc__, formatter_class=argparse.RawDescriptionHelpFormatter)
    known.add_argument('program', nargs='?', default=str(TOP / 'crates/tracker/out/tracker'))
    known.add_argument('port', nargs='?', type=int, default=8766)
    known.add_argument('--workers', type=int, default=4)
    return known.parse_args()


def main():
    given = words()
    ask = Asking(given.port, given.workers)
    running = started(os.path.abspath(given.program), ask.port, ask.workers)
    try:
        for cases in (calls, targets, heads, methods, connections, python_client, curl, beside_each_other, rebalanced, long_bodies, slow_clients,
                      idle_clients):
            cases(ask)
        with_threads(ask, running)
        without_descriptors(ask, running)
    finally:
        running.kill()
        running.wait()
    without_threads(ask, os.path.abspath(given.program))
    print(f'{ask.good} ok, {ask.bad} not ok')
    sys.exit(1 if ask.bad else 0)


if __name__ == '__main__':
    main()
