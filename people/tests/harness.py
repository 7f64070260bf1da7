"""What the tests of vug and bring stand on: a tracker in a file or served on a port, and runs of the commands."""
import fcntl
import http.client
import io
import json
import os
import pathlib
import pty
import re
import select
import socket
import struct
import subprocess
import sys
import tempfile
import termios
import time
import unittest
from unittest import mock

PEOPLE = pathlib.Path(__file__).resolve().parent.parent
sys.path.insert(0, str(PEOPLE))

from vug_parts.main import main  # noqa: E402
from vug_parts.terminal import width  # noqa: E402

DATA = PEOPLE / 'tests/data'
PROGRAM = os.environ.get('VUG_TEST_PROGRAM', '')
FIRST_PORT = int(os.environ.get('VUG_TEST_PORT', '8780'))

# A setup with own fields, a project that not all may browse, and names that are no ASCII.
SETUP = '''
utc_offset_minutes = 0
week_starts = "monday"
rebalancer = "root"
users = ["anna", "bo", "cy", "root"]
types = ["Task", "Bug"]
priorities = ["High", "Medium", "Low"]
resolutions = ["Fixed", "Declined"]
versions = ["1.0", "1.1"]
first_status = "Open"
plan = ["team"]
administer = ["admins"]
group = [{ name = "team", members = ["anna", "bo", "root"] }, { name = "admins", members = ["anna", "root"] }, { name = "guests", members = ["cy"] }]
project = [
    { key = "OPS", lead = "anna", browse = ["team", "guests"], create = ["team"], edit = ["team"], transition = ["team"], rank = ["team"] },
    { key = "SEC", lead = "root", browse = ["admins"], create = ["admins"], edit = ["admins"], transition = ["admins"], rank = ["admins"] },
]
status = [
    { name = "Open", category = "todo" }, { name = "In Progress", category = "progress" }, { name = "Prüfung", category = "progress" },
    { name = "Done", category = "done" },
]
transition = [
    { name = "Start", from = ["Open"], to = "In Progress", post = ["assign:caller"] },
    { name = "Prüfen", from = ["In Progress"], to = "Prüfung" },
    { name = "Finish", from = ["In Progress", "Prüfung"], to = "Done", conditions = ["any:assignee|group:admins"], validators = ["required:points"], post = ["resolution:Fixed"] },
    { name = "Reopen", from = ["Done"], to = "Open", post = ["clear:resolution"] },
]
field = [
    { number = 10001, name = "Severity", kind = "choice", options = ["low", "high"] },
    { number = 10002, name = "Effort", kind = "number" },
    { number = 10003, name = "Go-live", kind = "date" },
]
'''


# The setup that a new tracker has, as its page tells.
NEW = re.search(r'```toml\n(.*?)```', (PEOPLE.parent / 'docs/NEW-TRACKER.md').read_text(encoding='utf-8'), re.S)[1]


class Ran:
    """How a command ended, and what it wrote."""

    def __init__(self, status, out, err):
        self.status, self.out, self.err = status, out, err

    def json(self):
        return json.loads(self.out)


class Case(unittest.TestCase):
    """A test in a folder of its own, with a tracker in a file."""

    def setUp(self):
        room = tempfile.TemporaryDirectory()
        self.addCleanup(room.cleanup)
        self.room = pathlib.Path(room.name)
        self.file = self.room / 'tracker.db'
        self.environment = {'PATH': os.environ['PATH'], 'HOME': str(self.room), 'TZ': 'UTC', 'LANG': 'C.UTF-8', 'VUG_PROGRAM': PROGRAM,
                            'VUG_FILE': str(self.file), 'VUG_USER': 'anna', 'PYTHONDONTWRITEBYTECODE': '1'}
        self.ran = []

    def init(self, setup=SETUP):
        subprocess.run([PROGRAM, str(self.file), 'init'], input=setup.encode(), check=True)

    def vug(self, *words, given=b'', env=None):
        """A run in this process, which saves the start of one; `started` makes one for what needs it."""
        out, err = (io.TextIOWrapper(io.BytesIO(), encoding='utf-8', write_through=True) for _ in range(2))
        source = io.TextIOWrapper(io.BytesIO(given), encoding='utf-8')
        with mock.patch.dict(os.environ, {**self.environment, **(env or {})}, clear=True), mock.patch('sys.stdin', source), \
                mock.patch('sys.stdout', out), mock.patch('sys.stderr', err):
            time.tzset()
            try:
                status = main([str(word) for word in words])
            except SystemExit as ended:
                status = ended.code
        return Ran(status, out.buffer.getvalue().decode(), err.buffer.getvalue().decode())

    def started(self, *words, given=None, env=None, command='vug', out=subprocess.PIPE):
        """A run in a process of its own."""
        ran = subprocess.run([sys.executable, str(PEOPLE / command), *map(str, words)], input=given, stdout=out, stderr=subprocess.PIPE,
                             cwd=self.room, env={**self.environment, **(env or {})}, timeout=120)
        return Ran(ran.returncode, (ran.stdout or b'').decode(), ran.stderr.decode())

    def good(self, *words, **more):
        """A run that does all, and says nothing on standard error."""
        ran = self.vug(*words, **more)
        self.assertEqual((ran.status, ran.err), (0, ''), ran.out)
        return ran.out

    def bad(self, status, words, *command, **more):
        """A run that ends with this status and these words, and writes no answer."""
        ran = self.vug(*command, **more)
        self.assertEqual((ran.status, ran.out), (status, ''), ran.err)
        self.assertIn(words, ran.err)
        self.assertTrue(ran.err.startswith('vug: '), ran.err)
        return ran.err

    def one_line(self, status, words, *command, **more):
        """The same, told in one line."""
        told = self.bad(status, words, *command, **more)
        self.assertEqual(told.count('\n'), 1, told)

    def on_terminal(self, *words, columns=80, env=None, asked=None, given=b''):
        """A run whose standard output, input and errors are a terminal so wide; what it shows, without the returns of its lines.

        What is `given` is typed when the run has `asked` for it."""
        outer, inner = pty.openpty()
        fcntl.ioctl(inner, termios.TIOCSWINSZ, struct.pack('HHHH', 24, columns, 0, 0))
        running = subprocess.Popen([sys.executable, str(PEOPLE / 'vug'), *map(str, words)], stdin=inner, stdout=inner, stderr=inner, cwd=self.room,
                                   env={**self.environment, 'TERM': 'xterm', **(env or {})}, start_new_session=True)
        os.close(inner)
        came = b''
        limit = time.monotonic() + 60
        while time.monotonic() < limit:
            ready, _, _ = select.select([outer], [], [], 0.5)
            if ready:
                try:
                    more = os.read(outer, 65_536)
                except OSError:
                    break
                if not more:
                    break
                came += more
                if asked and asked in came:
                    time.sleep(0.2)
                    os.write(outer, given)
                    asked = None
            elif running.poll() is not None:
                break
        status = running.wait(60)
        os.close(outer)
        return Ran(status, came.decode().replace('\r\n', '\n'), '')


class Served(Case):
    """A test with a new tracker in memory, of which the program is a server."""

    def setUp(self):
        super().setUp()
        self.start(':memory:')

    def start(self, store, port=FIRST_PORT):
        running = subprocess.Popen([PROGRAM, str(store), 'serve', str(port), '2'], stdout=subprocess.DEVNULL, stderr=subprocess.DEVNULL)
        self.addCleanup(lambda: (running.kill(), running.wait()))
        wait_for(port, running)
        self.url = f'http://127.0.0.1:{port}'
        self.environment.update(VUG_FILE='', VUG_URL=self.url)

    def post(self, *calls, user='anna'):
        """Makes calls, and gives their replies."""
        link, replies = http.client.HTTPConnection(self.url[7:], timeout=60), []
        for call in calls:
            link.request('POST', '/calls', json.dumps(call), {'X-User': user})
            replies.append(json.loads(link.getresponse().read()))
        link.close()
        return replies


def wait_for(port, running=None):
    for _ in range(200):
        if running and running.poll() is not None:
            raise RuntimeError(f'what should listen on {port} ended with {running.returncode}')
        try:
            socket.create_connection(('127.0.0.1', port), 1).close()
            return
        except ConnectionRefusedError:
            time.sleep(0.05)
    raise RuntimeError(f'nothing listens on {port}')


def width_of(text):
    """What a line takes of a terminal's width, by the same rules as vug's, without colours."""
    return width(re.sub('\033\\[[0-9;]*m', '', text))
