#!/usr/bin/env python3
"""Fills the disk under a tracker's file, and looks at what is answered, and at what is kept, until there is room again.

usage: python3 bench/full_disk.py PROGRAM

PROGRAM is the built tracker, crates/tracker/out/tracker. The disk is full in two ways: on a file system of three megabytes in memory, where
root may mount one, with another file that fills it and is taken away again; and by a limit of how large a file may get, as `ulimit -f` sets it,
which is raised again (the signal that comes with it is ignored, as a service may do). Each way goes through these trials:

- exec: issues are made and get long descriptions until a line is refused with 14. Lines that change something go on to be refused so, or are
  kept where they fit; reads have the replies of a tracker on another disk that got the acknowledged lines alone. Then there is room, and
  lines are acknowledged again, in the same run. The rows are those of the other tracker.
- kill: the run is killed while the disk is full. A copy of the file and its log on another disk has the rows of the acknowledged lines; so has
  the file itself, opened while the disk is full, where it is opened at all, and opened when there is room.
- serve: requests that change something are answered 200 while they fit, and then one 503; one that reads is answered 200; when there is
  room, both 200.
- begin: `init` and `exec` on a full disk with a file that isn't there yet; when there is room they make it.

What was seen is told a line at a time; what may not be so begins with `wrong`, and the status is then 1.
"""
import contextlib
import http.client
import json
import os
import pathlib
import resource
import shutil
import signal
import socket
import subprocess
import sys
import tempfile
import time

TOP = pathlib.Path(__file__).resolve().parent.parent
sys.path.insert(0, str(TOP / 'checks'))
from kills import rows_of  # noqa: E402

MEGABYTE = 1_048_576
SIZE, FILLER = 3 * MEGABYTE, 1 * MEGABYTE
MOST_EDITS = 1_000
SETUP = TOP / 'docs/NEW-TRACKER.md'
READS = [{'call': 'show', 'issue': 'OPS-1'}, {'call': 'history', 'issue': 'OPS-2', 'count': 3},
         {'call': 'search', 'jql': 'points >= 0 ORDER BY rank DESC', 'count': 20},
         {'call': 'filter', 'filter': 1}, {'call': 'balance'}]


class Mounted:
    """A small file system in memory, and a file on it that fills it and can be taken away."""

    name = 'a small file system'

    def __init__(self, room):
        self.room = room
        subprocess.run(['mount', '-t', 'tmpfs', '-o', f'size={SIZE}', 'tmpfs', room], check=True, stderr=subprocess.DEVNULL)
        self.tight()

    def start(self, words, **pipes):
        return subprocess.Popen(words, **pipes)

    def tight(self):
        pathlib.Path(f'{self.room}/filler').write_bytes(bytes(FILLER))

    def filled(self):
        """Takes all room that is left."""
        with contextlib.suppress(OSError), open(f'{self.room}/filler', 'ab', buffering=0) as it:
            while it.write(bytes(4_096)):
                pass

    def roomy(self, _=None):
        pathlib.Path(f'{self.room}/filler').unlink()

    def end(self):
        subprocess.run(['umount', self.room], check=True)


class Limited:
    """A limit of how large a file may get."""

    name = 'a limit of the size of files'

    def __init__(self, room):
        self.room, self.most = room, SIZE - FILLER

    def start(self, words, **pipes):
        def limit():
            signal.signal(signal.SIGXFSZ, signal.SIG_IGN)
            resource.setrlimit(resource.RLIMIT_FSIZE, (self.most, resource.RLIM_INFINITY))
        return subprocess.Popen(words, preexec_fn=limit, restore_signals=False, **pipes)

    def tight(self):
        self.most = SIZE - FILLER

    def filled(self):
        self.most = 0

    def roomy(self, running=None):
        self.most = resource.RLIM_INFINITY
        if running:
            resource.prlimit(running.pid, resource.RLIMIT_FSIZE, (self.most, self.most))

    def end(self):
        pass


class Talk:
    """A run of exec that gets a line and is waited for."""

    def __init__(self, program, store, start=subprocess.Popen):
        self.running = start([program, store, 'exec'], stdin=subprocess.PIPE, stdout=subprocess.PIPE, stderr=subprocess.PIPE, text=True,
                             bufsize=1)

    def ask(self, call, user='anna'):
        try:
            self.running.stdin.write(json.dumps({'user': user, **call}) + '\n')
            self.running.stdin.flush()
            text = self.running.stdout.readline()
        except OSError:
            text = ''
        if not text:
            raise SystemExit(f'wrong: the run ended with status {self.running.wait()} at {call["call"]}: {self.running.stderr.read()[-2_000:]}')
        return json.loads(text)

    def end(self):
        """The status of a run whose input has ended, and what it wrote on standard error."""
        self.running.stdin.close()
        told = self.running.stderr.read()
        return self.running.wait(), told

    def kill(self):
        self.running.kill()
        self.running.wait()
        for stream in (self.running.stdin, self.running.stdout, self.running.stderr):
            stream.close()


class Trial:
    """A way in which a disk is full, with a file there and one of another tracker, on another disk, that gets the acknowledged lines."""

    def __init__(self, program, disk, other):
        self.program, self.disk, self.other = program, disk, other
        self.store, self.twin_store = f'{disk.room}/tracker.db', f'{other}/twin.db'
        self.wrong = 0

    def tell(self, text):
        print(f'  {text}', flush=True)

    def must(self, text, right):
        if not right:
            self.wrong += 1
        self.tell(text if right else f'wrong: {text}')

    def clear(self):
        for store in (self.store, self.twin_store):
            for ending in ('', '-wal'):
                pathlib.Path(store + ending).unlink(missing_ok=True)

    def both(self, talk, twin, call):
        """Asks both the tracker and, where it acknowledged, the other one; its refusal or None."""
        reply = talk.ask(call)
        if 'refused' in reply:
            return reply['refused']['no']
        if twin.ask(call) != reply:
            self.must(f'{call} is answered {reply}, and otherwise on the other disk', False)
        return None

    def fill(self, talk, twin):
        """Lines until the first that is refused; how many were acknowledged."""
        done = 0
        for number in range(1, 3_000):
            for call in ({'call': 'create', 'project': 'OPS', 'type': 'Task', 'summary': f'Step {number}', 'external': f'S-{number}',
                          'set': {'points': '1'}},
                         {'call': 'edit', 'issue': f'OPS-{number}', 'set': {'description': f'{number} ' + 'x' * 4_000}}):
                refused = self.both(talk, twin, call)
                if refused:
                    self.must(f'{done} lines were acknowledged, and then one was refused with {refused}', refused == 14)
                    return done
                done += 1
        self.must('the disk did not get full', False)
        return done

    def begin(self):
        """Both trackers, with a filter and as many lines as there was room for."""
        talk, twin = Talk(self.program, self.store, self.disk.start), Talk(self.program, self.twin_store)
        for call in ({'call': 'tick', 'to': 1_709_251_200}, {'call': 'save_filter', 'name': 'all', 'jql': 'points >= 0'}):
            self.both(talk, twin, call)
        return talk, twin, self.fill(talk, twin)

    def when_full(self, talk, twin, done):
        """Lines that change something are refused with 14 or kept, and reads have the replies of the other tracker."""
        kept = refused = 0
        for number in range(40):
            call = [{'call': 'edit', 'issue': 'OPS-1', 'set': {'description': f'{number}' + 'y' * 4_000}},
                    {'call': 'move_before', 'issue': f'OPS-{3 + number}', 'other': 'OPS-1'},
                    {'call': 'tick', 'to': 1_709_251_300 + number},
                    {'call': 'edit', 'issue': 'OPS-2', 'set': {'points': str(number + 2)}}][number % 4]
            no = self.both(talk, twin, call)
            if no not in (None, 14):
                self.must(f'{call} is refused with {no}', False)
            kept, refused = kept + (no is None), refused + (no == 14)
        self.tell(f'of 40 further lines {refused} were refused with 14, and {kept} acknowledged')
        reads = sum(talk.ask(call) == twin.ask(call) for call in READS)
        self.must(f'{reads} of {len(READS)} reads have the replies of the acknowledged lines', reads == len(READS))
        return done + kept

    def with_room(self, talk, twin):
        done = sum(self.both(talk, twin, {'call': 'edit', 'issue': 'OPS-1',
                                          'set': {'description': f'room {number} ' + 'z' * 4_000}}) is None for number in range(20))
        self.must(f'with room again {done} of 20 lines are acknowledged in the same run', done == 20)

    def rows(self, about, store):
        self.must(f'{about} the rows are those of the acknowledged lines', rows_of(store) == rows_of(self.twin_store))

    def by_exec(self):
        self.tell('exec:')
        talk, twin, done = self.begin()
        self.when_full(talk, twin, done)
        self.disk.roomy(talk.running)
        self.with_room(talk, twin)
        ends = talk.end(), twin.end()
        self.must(f'the runs end with {ends[0]}', ends == ((0, ''), (0, '')))
        self.rows('at the end', self.store)

    def by_kill(self):
        self.tell('kill:')
        talk, twin, done = self.begin()
        self.when_full(talk, twin, done)
        talk.kill()
        twin.end()
        copy = f'{self.other}/copy.db'
        for ending in ('', '-wal'):
            shutil.copyfile(self.store + ending, copy + ending)
        ran = subprocess.run([self.program, copy, 'exec'], stdin=subprocess.DEVNULL, capture_output=True, check=False)
        self.must(f'a copy on another disk is opened with status {ran.returncode}', ran.returncode == 0)
        self.rows('in the copy', copy)
        self.opened_full()
        self.disk.roomy()
        talk, twin = Talk(self.program, self.store, self.disk.start), Talk(self.program, self.twin_store)
        self.with_room(talk, twin)
        talk.end(), twin.end()
        self.rows('with room', self.store)

    def opened_full(self):
        """Opens the file of a run that was killed, while the disk is full."""
        self.disk.filled()
        with self.disk.start([self.program, self.store, 'exec'], stdin=subprocess.PIPE, stdout=subprocess.PIPE, stderr=subprocess.PIPE,
                             text=True) as it:
            out, told = it.communicate(''.join(json.dumps({'user': 'anna', **call}) + '\n' for call in (READS[0], READS[2])))
        self.must(f'opened while the disk is full: status {it.returncode}, {told.strip() or "nothing"} on standard error, '
                  f'{sum(line.startswith(chr(123) + chr(34) + "ok") for line in out.splitlines())} of 2 reads', it.returncode in (0, 4))
        self.rows('then', self.store)

    def by_serve(self):
        self.tell('serve:')
        talk, twin, _ = self.begin()
        talk.end(), twin.end()
        with socket.socket() as it:
            it.bind(('127.0.0.1', 0))
            port = it.getsockname()[1]
        self.disk.filled()
        server = self.disk.start([self.program, self.store, 'serve', str(port), '2'], stdout=subprocess.DEVNULL)
        try:
            self.served(server, port)
        finally:
            server.kill()
            server.wait()

    def served(self, server, port):
        for _ in range(1_200):
            time.sleep(0.1)
            with contextlib.suppress(ConnectionRefusedError):
                socket.create_connection(('127.0.0.1', port), 1).close()
                break
            if server.poll() is not None:
                self.tell(f'serve on a full disk ends with status {server.returncode}')
                return
        edits = ({'call': 'edit', 'issue': 'OPS-1', 'set': {'description': f'{number} ' + 'w' * 4_000}} for number in range(MOST_EDITS))
        answers = [self.request(port, READS[0])]
        while answers[-1] == 200 and len(answers) < MOST_EDITS:
            answers.append(self.request(port, next(edits)))
        full = answers[0], answers[-1], self.request(port, READS[0])
        self.must(f'a show is answered {full[0]}, {len(answers) - 2} edits 200 and then one {full[1]}, and a show {full[2]}', full == (200, 503, 200))
        self.disk.roomy(server)
        after = self.request(port, READS[0]), self.request(port, next(edits))
        self.must(f'with room a show is answered {after[0]}, an edit {after[1]}', after == (200, 200))

    @staticmethod
    def request(port, call):
        link = http.client.HTTPConnection('127.0.0.1', port, timeout=60)
        link.request('POST', '/calls', json.dumps(call), {'X-User': 'anna', 'Connection': 'close'})
        return link.getresponse().status

    def by_beginning(self):
        self.tell('begin:')
        text = SETUP.read_text(encoding='utf-8').split('```toml\n')[1].split('```')[0]
        for words, sent, wanted in ((['init'], text, {0}), (['exec'], '{"user":"anna","call":"balance"}\n', {0})):
            self.clear()
            self.disk.tight()
            self.disk.filled()
            for about, right in (('on a full disk', {4}), ('with room', wanted)):
                with self.disk.start([self.program, self.store, *words], stdin=subprocess.PIPE, stdout=subprocess.PIPE,
                                     stderr=subprocess.PIPE, text=True) as it:
                    out, told = it.communicate(sent)
                self.must(f'{words[0]} {about}: status {it.returncode}, {(out + told).strip() or "nothing"}', it.returncode in right)
                if about == 'on a full disk':
                    self.disk.roomy()

    def run(self):
        for trial in (self.by_exec, self.by_kill, self.by_serve, self.by_beginning):
            self.clear()
            self.disk.tight()
            trial()
        return self.wrong


def main():
    if len(sys.argv) != 2 or sys.argv[1] in ('-h', '--help'):
        sys.exit(__doc__)
    program, wrong = os.path.abspath(sys.argv[1]), 0
    # (what was mounted goes again when the trial is ended from outside)
    signal.signal(signal.SIGTERM, lambda *_: sys.exit('ended'))
    for kind in (Mounted, Limited):
        with tempfile.TemporaryDirectory() as room, tempfile.TemporaryDirectory() as other:
            try:
                disk = kind(room)
            except (subprocess.CalledProcessError, FileNotFoundError):
                print(f'{kind.name}: can\'t be mounted here')
                continue
            print(f'{kind.name}:', flush=True)
            try:
                wrong += Trial(program, disk, other).run()
            finally:
                disk.end()
    print(f'{wrong} wrong')
    return 1 if wrong else 0


if __name__ == '__main__':
    sys.exit(main())
