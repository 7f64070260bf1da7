#!/usr/bin/env python3
"""Times requests over HTTP: connections of sixteen requests that are sent at once, by one client or by several beside each other.

usage: python3 bench/http_requests.py [PROGRAM [PORT]] [--workers N] [--clients N] [--silent N] [--creates]

PROGRAM is the built tracker, crates/tracker/out/tracker by default, and is started on PORT of 127.0.0.1, 8766 by default, with one worker or
with N of them. It tells how many requests are answered in a second, each a show; with `--creates` each makes an issue, over a file in the
folder for temporary files. With `--silent` so many clients beside them hold a connection and send nothing; each that is closed comes back.
"""
import argparse
import multiprocessing
import os
import pathlib
import resource
import socket
import sys
import tempfile
import threading
import time

TOP = pathlib.Path(__file__).resolve().parent.parent
sys.path.insert(0, str(TOP / 'checks'))
from over_http import CLOSE, CREATE, HOST, SHOW, Asking, posted, request, started  # noqa: E402

CONNECTIONS, EACH = 3_000, 16

# Beside a silent client each round of 64 connections ends ten seconds behind its last one.
BESIDE_SILENT = 192


def ask_on(port, sent, connections, told):
    """Connections one after another, each of the same requests; tells how long they took, and the processor's time of the client."""
    ask = Asking(port)
    begin, used = time.monotonic(), resource.getrusage(resource.RUSAGE_SELF).ru_utime
    for _ in range(connections):
        came = ask.exchange(sent, finish=False, patience=200)
        if came.count(b'HTTP/1.1 200 OK\r\n') != EACH:
            told.put((None, came[:300]))
            return
    told.put((time.monotonic() - begin, resource.getrusage(resource.RUSAGE_SELF).ru_utime - used))


def hold_on(port, over):
    """Opens a connection and sends nothing, again whenever it is closed."""
    while not over.is_set():
        try:
            with socket.create_connection((HOST, port), 30) as link:
                link.settimeout(0.5)
                while not over.is_set():
                    try:
                        if not link.recv(1):
                            break
                    except TimeoutError:
                        continue
        except OSError:
            time.sleep(0.1)


def load(ask, given):
    """Has all clients ask, and tells what came of it."""
    ask.exchange(posted(CREATE, CLOSE))
    sent = (posted(CREATE) if given.creates else request(SHOW)) * EACH
    each = (100 if given.creates else BESIDE_SILENT if given.silent else CONNECTIONS) // given.clients
    told, over = multiprocessing.Queue(), threading.Event()
    holders = [threading.Thread(target=hold_on, args=(ask.port, over)) for _ in range(given.silent)]
    for holder in holders:
        holder.start()
    time.sleep(0.5)
    begin = time.monotonic()
    clients = [multiprocessing.Process(target=ask_on, args=(ask.port, sent, each, told)) for _ in range(given.clients)]
    for client in clients:
        client.start()
    ended = [told.get() for _ in clients]
    took = time.monotonic() - begin
    over.set()
    for other in clients + holders:
        other.join()
    for time_taken, what in ended:
        if time_taken is None:
            sys.exit(f'a connection had other responses: {what!r}')
    count = given.clients * each * EACH
    print(f'{count} {"creates" if given.creates else "shows"} by {given.clients} clients of {given.workers} workers: {took:.2f} s, {count / took:,.0f} a second '
          f'(the clients used {sum(used for _, used in ended):.2f} s)')


def main():
    known = argparse.ArgumentParser(description=__doc__, formatter_class=argparse.RawDescriptionHelpFormatter)
    known.add_argument('program', nargs='?', default=str(TOP / 'crates/tracker/out/tracker'))
    known.add_argument('port', nargs='?', type=int, default=8766)
    known.add_argument('--workers', type=int, default=1)
    known.add_argument('--clients', type=int, default=1)
    known.add_argument('--silent', type=int, default=0)
    known.add_argument('--creates', action='store_true')
    given = known.parse_args()
    with tempfile.TemporaryDirectory() as room:
        ask = Asking(given.port, given.workers)
        running = started(os.path.abspath(given.program), ask.port, given.workers, f'{room}/rows' if given.creates else ':memory:')
        try:
            load(ask, given)
        finally:
            running.kill()
            running.wait()


if __name__ == '__main__':
    main()
