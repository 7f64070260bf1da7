"""Servers: one that isn't there, one that answers otherwise than a tracker, a front server with TLS and passwords, and who is asked."""
import base64
import http.server
import json
import re
import shutil
import socket
import ssl
import subprocess
import threading
import time
import unittest

from harness import FIRST_PORT, Case, Served

PORT = FIRST_PORT + 1
SHOW = ('show', 'OPS-1')


class Front(http.server.BaseHTTPRequestHandler):
    """A front server: it asks for a name and a password, and passes calls under /api/ on as that user."""
    protocol_version = 'HTTP/1.1'
    wanted = 'Basic ' + base64.b64encode(b'anna:gehe\xc3\xafm').decode()

    def do_POST(self):
        body = self.rfile.read(int(self.headers['Content-Length']))
        if self.headers['Authorization'] != self.wanted:
            return self.reply(401, b'<html>401</html>')
        if not self.path.startswith('/api/'):
            return self.reply(405, b'<html>405</html>')
        link = http.client.HTTPConnection('127.0.0.1', FIRST_PORT, timeout=60)
        link.request('POST', self.path[4:], body, {'X-User': 'anna'})
        came = link.getresponse()
        return self.reply(came.status, came.read())

    def reply(self, status, body):
        self.send_response(status)
        self.send_header('Content-Length', str(len(body)))
        self.end_headers()
        self.wfile.write(body)

    def log_message(self, *words):
        pass


class Behind(Served):
    """Calls through a front server with TLS."""

    def setUp(self):
        super().setUp()
        if not shutil.which('openssl'):
            self.skipTest('openssl is not there')
        self.certificate = self.room / 'front.pem'
        subprocess.run(['openssl', 'req', '-x509', '-newkey', 'rsa:2048', '-nodes', '-days', '2', '-subj', '/CN=localhost', '-addext',
                        'subjectAltName=DNS:localhost,IP:127.0.0.1', '-keyout', self.room / 'front.key', '-out', self.certificate],
                       check=True, capture_output=True)
        server = http.server.ThreadingHTTPServer(('127.0.0.1', PORT), Front)
        context = ssl.SSLContext(ssl.PROTOCOL_TLS_SERVER)
        context.load_cert_chain(self.certificate, self.room / 'front.key')
        server.socket = context.wrap_socket(server.socket, server_side=True)
        threading.Thread(target=server.serve_forever, daemon=True).start()
        self.addCleanup(server.server_close)
        self.addCleanup(server.shutdown)
        self.base = f'https://localhost:{PORT}'
        self.environment.update(VUG_URL=self.base, VUG_CERTIFICATE=str(self.certificate))

    def netrc(self, text, mode=0o600):
        path = self.room / '.netrc'
        path.write_text(text, encoding='utf-8')
        path.chmod(mode)

    def test_by_netrc(self):
        self.netrc('machine localhost login anna password geheïm\n')
        self.assertEqual(self.good('new', 'OPS', 'Task', 'By the front server'), 'OPS-1\n')
        for url in (self.base, self.base + '/', self.base + '/api', self.base + '/api/'):
            self.assertIn('reporter  anna', self.good(*SHOW, '--url', url))
        self.one_line(3, 'gives no reply of a tracker (HTTP 405)', *SHOW, '--url', self.base + '/other')

    def test_passwords(self):
        self.one_line(4, 'no password of anna for localhost', *SHOW)
        self.netrc('machine localhost login anna password falsch\n')
        self.one_line(4, 'does not take the name anna with this password (HTTP 401)', *SHOW)
        self.netrc('machine localhost login bo password geheïm\n')
        self.one_line(4, 'no password of anna for localhost', *SHOW)
        self.netrc('machine localhost login anna password geheïm\n', 0o644)
        self.one_line(3, 'can be read by others; chmod 600', *SHOW)
        self.netrc('machine localhost word anna\n')
        self.one_line(3, '.netrc: ', *SHOW)

    def test_at_the_terminal(self):
        ran = self.on_terminal('where', asked=b'localhost: ', given='geheïm\n'.encode())
        self.assertEqual(ran.status, 0, ran.out)
        self.assertIn('Password of anna for localhost: ', ran.out)
        self.assertNotIn('geheïm', ran.out)

    def test_certificates(self):
        self.one_line(3, 'its certificate is not trusted', *SHOW, env={'VUG_CERTIFICATE': ''})
        self.one_line(3, 'cannot be read: No such file', *SHOW, env={'VUG_CERTIFICATE': '/nowhere'})
        self.one_line(3, 'cannot be reached: ', *SHOW, '--url', f'https://localhost:{FIRST_PORT}/', '--timeout', '1')


class Troubles(Case):
    """Servers that are none, and answers that are none."""

    def setUp(self):
        super().setUp()
        self.environment.update(VUG_FILE='', VUG_URL=f'http://127.0.0.1:{PORT}')

    def answering(self, *answers, wait=0):
        """A server that reads the request of each connection, and gives it the next of these answers."""
        listener = socket.create_server(('127.0.0.1', PORT))
        # The shutdown ends an accept that still waits, which would keep the port.
        self.addCleanup(lambda: (listener.shutdown(socket.SHUT_RDWR), listener.close()))
        self.requests = []

        def serve():
            for answer in answers:
                try:
                    link, _ = listener.accept()
                except OSError:
                    return
                with link:
                    self.requests.append(request_of(link))
                    time.sleep(wait)
                    link.sendall(answer)

        threading.Thread(target=serve, daemon=True).start()

    @staticmethod
    def http(status, body, *fields):
        lines = [f'HTTP/1.1 {status} x', f'Content-Length: {len(body)}', *fields]
        return '\r\n'.join(lines).encode() + b'\r\n\r\n' + body

    def test_nobody_there(self):
        self.one_line(3, f'http://127.0.0.1:{PORT} cannot be reached: Connection refused', 'list')
        self.one_line(3, 'cannot be reached: no such host', 'list', '--url', 'https://nowhere.invalid')

    def test_bad_urls(self):
        for url, words in (('ftp://x', 'begins with http:// or https://'), ('127.0.0.1', 'begins with http'), ('http://127.0.0.1:x', 'the port is no number'),
                           ('http://example.org', 'neither on this machine nor https'), ('https://a:b@localhost', 'a URL with a password')):
            self.one_line(2, words, 'list', '--url', url)

    def test_answers_that_are_none(self):
        for status, body, told, words in ((200, b'hello', 3, 'gives no reply of a tracker (HTTP 200)'), (302, b'', 3, 'sends requests elsewhere'),
                                          (502, b'<html>', 3, 'the tracker behind it does not (HTTP 502)'), (413, b'', 3, 'longer than the front server takes'),
                                          (403, b'', 4, 'does not take the name anna'), (429, b'', 3, 'takes no more requests')):
            with self.subTest(status=status):
                self.answering(self.http(status, body, 'Connection: close'))
                self.one_line(told, words, *SHOW)
                self.doCleanups_of_listener()

    def doCleanups_of_listener(self):
        """Frees the port for the next server."""
        self._cleanups.pop()[0]()

    def test_paths_that_are_unknown(self):
        """The program tells an unknown path before it does anything, and the other one is tried."""
        reply = b'{"ok":{"already":false,"change":1,"issue":"OPS-1"}}'
        self.answering(self.http(404, b'{"http":404}', 'Connection: close'), self.http(200, reply, 'Connection: close'))
        self.assertEqual(self.good('new', 'OPS', 'Task', 'x'), 'OPS-1\n')
        self.assertEqual([it.split()[1] for it in self.requests], [b'/calls', b'/api/calls'])

    def test_a_lost_answer(self):
        """What changes nothing is asked again, and so is a create with an external id; of others it is told that nobody knows."""
        shown = b'{"ok":{"created":0,"fields":{"status":"Open","summary":"x","type":"Task"},"issue":"OPS-1","updated":0}}'
        self.answering(b'', self.http(200, shown, 'Connection: close'))
        self.assertIn('OPS-1  x', self.good(*SHOW))
        self.doCleanups_of_listener()
        self.answering(b'', self.http(200, b'{"ok":{"already":true,"change":1,"issue":"OPS-1"}}', 'Connection: close'))
        self.assertEqual(self.good('new', 'OPS', 'Task', 'x'), 'OPS-1\n')
        sent = [json.loads(it.partition(b'\r\n\r\n')[2])['external'] for it in self.requests]
        self.assertEqual(len(set(sent)), 1)
        self.doCleanups_of_listener()
        self.answering(b'')
        self.one_line(7, 'whether the call was made is not known', 'set', 'OPS-1', 'points=1')

    def test_answers_that_come_too_late(self):
        self.answering(self.http(504, b'<html>', 'Connection: close'))
        self.one_line(7, '(HTTP 504); whether the call was made is not known', 'do', 'OPS-1', 'Start')
        self.doCleanups_of_listener()
        self.answering(self.http(504, b'<html>', 'Connection: close'))
        told = self.vug('new', 'OPS', 'Task', 'x').err
        self.assertRegex(told, r'\(HTTP 504\); with --external vug-[0-9a-f]{32} the same command makes no second issue\n$')
        self.assertIn(re.search('vug-[0-9a-f]+', told)[0].encode(), self.requests[0])
        self.doCleanups_of_listener()
        self.answering(b'', wait=3)
        self.one_line(7, 'did not answer within 1 seconds; whether', 'do', 'OPS-1', 'Start', '--timeout', '1')

    def test_an_answer_that_ends_early(self):
        self.answering(b'HTTP/1.1 200 OK\r\nContent-Length: 100\r\n\r\n{"ok"', b'')
        self.one_line(7, 'ended the connection without an answer', *SHOW)

    def test_too_long_a_request(self):
        self.one_line(2, 'and a tracker takes 65,536', 'set', 'OPS-1', 'description=' + 'x' * 66_000)


def request_of(link):
    """The bytes of a request, as long as it says that it is."""
    came = b''
    while True:
        head, end, body = came.partition(b'\r\n\r\n')
        length = re.search(rb'Content-Length: (\d+)', head)
        if end and len(body) >= int(length[1] if length else 0):
            return came
        more = link.recv(65_536)
        if not more:
            return came
        came += more


class Files(Case):
    """Programs and files that are none."""

    def test_programs(self):
        self.file.write_bytes(b'')
        self.one_line(3, 'the program /nowhere is not there', 'list', '--program', '/nowhere')
        for text, words in (('exit 4', 'cannot be opened: it is no tracker'), ('echo kept 3 1; exit 5', 'a row of it is bad (kept 3 1)'),
                            ('exit 6', 'had not enough memory'), ('echo x; cat', 'x is no reply of a tracker'), ('read a; exit 0', 'ended with status 0')):
            program = self.room / 'pretender'
            program.write_text(f'#!/bin/sh\n{text}\n')
            program.chmod(0o755)
            self.one_line(3, words, 'list', '--program', program)

    def test_a_file_that_is_no_trackers(self):
        self.file.write_bytes(b'x' * 5_000)
        self.one_line(3, 'cannot be opened', 'list')

    def test_a_directory_that_is_not_there(self):
        self.one_line(3, 'there is no file /nowhere/tracker.db', 'list', '--file', '/nowhere/tracker.db')

    def test_clocks(self):
        self.one_line(2, 'a tracker\'s clock never goes back; --yes', '--file', ':memory:', 'tick', '2099-01-01')
        self.assertEqual(self.good('--file', ':memory:', 'tick', '2099-01-01', '--yes'), 'the tracker\'s clock is at 2099-01-01 00:00\n')
        self.assertEqual(self.good('--file', ':memory:', 'tick', '2024-03-01 09:30'), 'the tracker\'s clock is at 2024-03-01 09:30\n')
        self.one_line(2, 'is no moment', '--file', ':memory:', 'tick', 'soon')
        self.one_line(2, 'a server sets its clock by itself', 'tick', 'now', '--url', 'http://127.0.0.1:1', env={'VUG_FILE': ''})

    def test_a_clock_that_is_ahead(self):
        self.init()
        self.good('tick', '2090-01-01', '--yes')
        ran = self.vug('new', 'OPS', 'Task', 'x')
        self.assertEqual((ran.status, ran.out), (0, 'OPS-1\n'))
        self.assertIn('the tracker\'s clock is ahead of this machine\'s, at 2090-01-01', ran.err)
        self.one_line(31, 'the tracker\'s clock is at 2090-01-01', 'tick', '2000-01-01')


if __name__ == '__main__':
    unittest.main()
