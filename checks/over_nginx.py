#!/usr/bin/env python3
"""Runs the tracker behind nginx, by the configuration of docs/HTTP.md, and asks it by curl with names and passwords.

usage: python3 checks/over_nginx.py [PROGRAM] [--workers N] [--kept N]

PROGRAM is the built tracker, crates/tracker/out/tracker by default. It is served on port 8765 of 127.0.0.1 with 4 workers or with N, and nginx
listens on 8443. With `--kept` nginx keeps so many connections to it open. nginx, openssl and curl have to be there, and wrk may be: it
tells how many shows come through in a second. Each case has a line; the status is 1 where one is not ok.
"""
import argparse
import pathlib
import re
import shutil
import socket
import subprocess
import sys
import tempfile
import time

TOP = pathlib.Path(__file__).resolve().parent.parent
FRONT = 'https://127.0.0.1:8443'


def set_up(room, kept):
    """nginx's configuration, a certificate and a user in that folder."""
    page = (TOP / 'docs/HTTP.md').read_text(encoding='utf-8')
    server, keeping, *_ = (it.replace('/etc/nginx/', f'{room}/') for it in re.findall(r'```nginx\n(.*?)```', page, re.S))
    if kept:
        server = re.sub(r'keepalive +[0-9]+;', f'keepalive {kept};', keeping) + re.sub(r'( +)proxy_pass.*?Connection close;\n',
                                                                                  lambda it: kept_open(it[1]), server, flags=re.S)
    (room / 'nginx.conf').write_text(f'pid {room}/pid;\nerror_log {room}/errors;\nevents {{}}\nhttp {{\naccess_log off;\n{server}}}\n', encoding='utf-8')
    subprocess.run(['openssl', 'req', '-x509', '-newkey', 'rsa:2048', '-nodes', '-days', '1', '-subj', '/CN=localhost', '-keyout', f'{room}/tracker.key',
                    '-out', f'{room}/tracker.crt'], check=True, capture_output=True)
    word = subprocess.run(['openssl', 'passwd', '-apr1', 'secret'], check=True, capture_output=True, text=True).stdout
    (room / 'tracker.users').write_text(f'anna:{word}', encoding='utf-8')
    room.chmod(0o755)


def kept_open(margin):
    """How a location passes requests on by connections that stay open."""
    return ''.join(f'{margin}{line}\n' for line in ('proxy_pass http://tracker;', 'proxy_http_version 1.1;', 'proxy_set_header Connection "";'))


def curl(*words, user='anna:secret'):
    signed = ['-u', user] if user else []
    return subprocess.run(['curl', '-sk', '--max-time', '10', *signed, *words], capture_output=True, text=True).stdout


def status(*words, **named):
    return curl('-o', '/dev/null', '-w', '%{http_code}', *words, **named)


def cases(room):
    for length in (65_536, 65_537):
        (room / str(length)).write_bytes(b' ' * length)
    create = '{"call":"create","project":"OPS","type":"Task","summary":"By nginx"}'
    unknown = '{"refused":{"kind":"issue","name":"OPS-9","no":2}}'
    yield 'an issue is made', curl(f'{FRONT}/calls', '-d', create), '{"ok":{"already":false,"change":1,"issue":"OPS-1"}}'
    yield 'a forged user is put aside', curl(f'{FRONT}/calls', '-H', 'X-User: root', '-d', create), '{"ok":{"already":false,"change":2,"issue":"OPS-2"}}'
    yield 'it is by who signed in', curl(f'{FRONT}/search?jql=reporter+%3D+anna'), '{"ok":{"issues":["OPS-1","OPS-2"],"total":2}}'
    yield 'no password', status(f'{FRONT}/issues/OPS-1', user=None), '401'
    yield 'a wrong one', status(f'{FRONT}/issues/OPS-1', user='anna:other'), '401'
    yield 'HEAD', status('-I', f'{FRONT}/issues/OPS-1'), '405'
    yield 'DELETE', status('-X', 'DELETE', f'{FRONT}/issues/OPS-1'), '405'
    yield 'a body in chunks', curl('-H', 'Transfer-Encoding: chunked', f'{FRONT}/calls', '-d', '{"call":"show","issue":"OPS-9"}'), unknown
    yield 'the longest body', status(f'{FRONT}/calls', '--data-binary', f'@{room}/65536'), '400'
    yield 'too long a body', status(f'{FRONT}/calls', '--data-binary', f'@{room}/65537'), '413'
    yield 'a path is passed on as it was sent', curl(f'{FRONT}/issues/OPS%2D9'), unknown.replace('-', '%2D')


def wait_for(port):
    """Returns once somebody listens on that port, or after a minute."""
    for _ in range(600):
        try:
            socket.create_connection(('127.0.0.1', port), 1).close()
            return
        except OSError:
            time.sleep(0.1)


def main():
    known = argparse.ArgumentParser(description=__doc__, formatter_class=argparse.RawDescriptionHelpFormatter)
    known.add_argument('program', nargs='?', default=str(TOP / 'crates/tracker/out/tracker'))
    known.add_argument('--workers', type=int, default=4)
    known.add_argument('--kept', type=int, default=0)
    given = known.parse_args()
    if not pathlib.Path(given.program).is_file():
        sys.exit(f'{given.program} is not there: nothing was tried')
    wrong = 0
    with tempfile.TemporaryDirectory() as name:
        room = pathlib.Path(name)
        set_up(room, given.kept)
        tracker = subprocess.Popen([given.program, f'{room}/rows', 'serve', '8765', str(given.workers)])
        nginx = subprocess.Popen(['nginx', '-c', f'{room}/nginx.conf', '-g', 'daemon off;'], stderr=subprocess.DEVNULL)
        try:
            for port in (8765, 8443):
                wait_for(port)
            for told, came, wanted in cases(room):
                wrong += came != wanted
                print(f'ok      {told}' if came == wanted else f'not ok  {told}: wanted {wanted!r}, came {came!r}')
            if shutil.which('wrk'):
                came = subprocess.run(['wrk', '-t1', '-c8', '-d3', '-H', 'Authorization: Basic YW5uYTpzZWNyZXQ=', f'{FRONT}/issues/OPS-1'],
                                      capture_output=True, text=True).stdout
                print(*re.findall(r'Requests/sec: +(\S+)', came), 'shows a second by wrk, 8 connections')
        finally:
            nginx.terminate()
            tracker.terminate()
            nginx.wait()
            tracker.wait()
    return 1 if wrong else 0


if __name__ == '__main__':
    sys.exit(main())
