#!/usr/bin/env python3
"""Kills the tracker at random moments while it serves a file to clients that write, and looks at the rows that are there afterwards.

usage: python3 checks/server_kills.py PROGRAM [--kills N] [--clients N] [--workers N] [--seed N]

PROGRAM is the built tracker, as crates/tracker/out/tracker after `rt run` there. Each of 200 runs serves the file that the one before left,
with 4 workers, to 4 clients that create issues, each with an external id of its own, in connections of one to sixteen requests. It is killed
after up to 400 milliseconds. Each create that was answered has to be in the file then, with the key that was told; and the file has no issue
that nobody asked for. A run that ends by itself, and a file that can't be opened again, are told, and the status is 1. The last line counts
kills, answered creates and those that are in the file without an answer.
"""
import argparse
import contextlib
import json
import os
import random
import signal
import socket
import subprocess
import sys
import tempfile
import threading
import time

sys.path.insert(0, os.path.dirname(os.path.realpath(__file__)))
from kills import rows_of  # noqa: E402
from over_http import HOST, answers, posted  # noqa: E402


def free_port():
    with socket.socket() as it:
        it.bind((HOST, 0))
        return it.getsockname()[1]


class Client(threading.Thread):
    """Creates issues, as long as the server is there."""

    def __init__(self, name, port, seed):
        super().__init__()
        self.called, self.port, self.by = name, port, random.Random(f'{seed} {name}')
        self.asked, self.answered = [], {}

    def run(self):
        while True:
            names = [f'{self.called}-{len(self.asked) + number}' for number in range(self.by.randint(1, 16))]
            self.asked += names
            try:
                if not self.exchange(names):
                    return
            except OSError:
                return

    def exchange(self, names):
        """One connection; whether all of it was answered."""
        with socket.create_connection((HOST, self.port), 30) as link:
            for name in names:
                link.sendall(posted(json.dumps({'call': 'create', 'project': 'OPS', 'type': 'Task', 'summary': name, 'external': name}).encode()))
            link.shutdown(socket.SHUT_WR)
            came = b''
            with contextlib.suppress(ConnectionResetError):
                while more := link.recv(65_536):
                    came += more
        return self.read(names, came)

    def read(self, names, came):
        """Notes the keys of whole responses."""
        whole = 0
        for name in names:
            head, end, rest = came.partition(b'\r\n\r\n')
            if not end:
                break
            length = int(head.lower().split(b'content-length: ')[1].split(b'\r\n')[0])
            if len(rest) < length:
                break
            found = answers(head + end + rest[:length])[0]
            if found.status == 200:
                self.answered[name] = json.loads(found.body)['ok']['issue']
            came, whole = rest[length:], whole + 1
        return whole == len(names)


def begun(given, store, port):
    """The program, which listens."""
    running = subprocess.Popen([given.program, store, 'serve', str(port), str(given.workers)], stdout=subprocess.DEVNULL)
    for _ in range(400):
        if running.poll() is not None:
            sys.exit(f'the server ended with status {running.returncode}')
        with contextlib.suppress(OSError):
            socket.create_connection((HOST, port), 1).close()
            return running
        time.sleep(0.01)
    running.kill()
    sys.exit('the server does not listen')


def kept_in(store):
    """The number of each issue by its external id."""
    return {body: number for kind, number, body in rows_of(store) if kind == 6}


def main():
    known = argparse.ArgumentParser(description=__doc__, formatter_class=argparse.RawDescriptionHelpFormatter)
    known.add_argument('program')
    known.add_argument('--kills', type=int, default=200)
    known.add_argument('--clients', type=int, default=4)
    known.add_argument('--workers', type=int, default=4)
    known.add_argument('--seed', type=int, default=random.randrange(1 << 30))
    given = known.parse_args()
    by, wrong = random.Random(given.seed), 0
    asked, answered, kept = set(), {}, {}
    with tempfile.TemporaryDirectory() as room:
        store = f'{room}/rows'
        for run in range(given.kills):
            port = free_port()
            server = begun(given, store, port)
            clients = [Client(f'{run}-{number}', port, given.seed) for number in range(given.clients)]
            for client in clients:
                client.start()
            time.sleep(by.uniform(0, 0.4))
            if server.poll() is not None:
                print(f'run {run}: the server ended with status {server.returncode}')
                wrong += 1
            server.send_signal(signal.SIGKILL)
            server.wait()
            for client in clients:
                client.join()
                asked.update(client.asked)
                answered.update(client.answered)
            if subprocess.run([given.program, store, 'exec'], input=b'', stdout=subprocess.DEVNULL).returncode:
                print(f'run {run}: the file can\'t be opened again')
                wrong += 1
                break
            kept = kept_in(store)
            lost = [name for name, key in answered.items() if f'OPS-{kept.get(name)}' != key]
            others = [name for name in kept if name not in asked]
            if lost or others:
                print(f'run {run}: lost {lost[:5]}, not asked for {others[:5]}')
                wrong += 1
    print(f'seed {given.seed}: {given.kills} kills, {len(answered)} answered creates, {len(kept) - len(answered)} in the file without an answer')
    return 1 if wrong else 0


if __name__ == '__main__':
    sys.exit(main())
