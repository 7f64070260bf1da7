"""Calls over a file: lines to the program's `exec`, which is started for the command and ends with it."""
import json
import os
import shutil
import subprocess

from . import moments
from .requests import encoded
from .trouble import Unreachable, Usage

STATUSES = {
    2: 'the program could not read its input',
    3: 'the program could not write its replies',
    5: 'the file is no tracker\'s: a row of it is bad',
    6: 'the program had not enough memory',
    7: 'too long a line for the program',
}


class FileTracker:
    """A tracker in a file. Where `ticks`, its clock is first set to that of this machine, as a server does for each request."""

    def __init__(self, program, store, user, ticks=True, warn=lambda words: None):
        self.program, self.store, self.user, self.ticks, self.warn = program, store, user, ticks, warn
        self.shown = store
        self.running = None
        self.guard = None  # tells why the clock isn't set from one moment to another
        if not user:
            raise Usage('who asks? name yourself: vug --user NAME .., or user = NAME in the configuration')

    def call(self, name, members):
        """The reply of the tracker to a call."""
        if self.running is None:
            self.start()
        return self.line(name, members)

    def line(self, name, members):
        sent = encoded({'user': self.user, 'call': name, **members})
        try:
            self.running.stdin.write(sent + b'\n')
            self.running.stdin.flush()
            came = self.running.stdout.readline()
        except BrokenPipeError:
            came = b''
        if not came.endswith(b'\n'):
            raise self.ended(came)
        try:
            reply = json.loads(came)
        except ValueError:
            reply = None
        if not isinstance(reply, dict):
            if self.has_ended():
                raise self.ended(came)
            raise Unreachable(f'{self.store}: {came.decode(errors="replace").strip()} is no reply of a tracker')
        return reply

    def has_ended(self):
        """Whether the program ends by itself behind what it wrote: it may be there for a moment more."""
        try:
            self.running.wait(timeout=1)
        except subprocess.TimeoutExpired:
            return False
        return True

    def start(self):
        if self.store != ':memory:' and not os.path.exists(self.store):
            raise Unreachable(f'there is no file {self.store}; vug --file {self.store} init SETUP makes a new tracker')
        self.running = self.started('exec', subprocess.PIPE)
        if self.ticks:
            self.set_clock()

    def started(self, word, given):
        program = found_program(self.program)
        try:
            return subprocess.Popen([program, self.store, word], stdin=given, stdout=subprocess.PIPE, stderr=subprocess.PIPE)
        except OSError as fault:
            raise Unreachable(f'the program {program} cannot be started: {fault.strerror}') from None

    def moment(self):
        """The present moment, by a tick that changes nothing: one to 0 is refused with it but in a new tracker, which is there."""
        reply = self.line('tick', {'to': 0})
        return reply.get('refused', {}).get('kept', 0)

    def set_clock(self):
        """Sets the clock to that of this machine. A tracker that is ahead keeps its moment."""
        before, present = self.moment(), moments.now()
        if self.guard and (doubt := self.guard(before, present)):
            raise Usage(doubt)
        if before and present - before > 366 * moments.DAY:
            self.warn(f'the tracker\'s clock goes from {moments.text(before)} to {moments.text(present)}')
        if before > present + moments.DAY:
            self.warn(f'the tracker\'s clock is ahead of this machine\'s, at {moments.text(before)}, and stays there')
        # A user that isn't known is refused by the call itself, in words of its own.
        if before < present:
            self.line('tick', {'to': present})

    def ended(self, came):
        """Why the program ended without a reply."""
        rest, faults = self.running.communicate()
        status, self.running = self.running.returncode, None
        return Unreachable(why_ended(self.store, status, came + rest, faults))

    def close(self):
        if self.running is not None:
            self.running.stdin.close()
            self.running.stdout.close()
            self.running.stderr.close()
            self.running.wait()
            self.running = None


def why_ended(store, status, written, faults):
    """The words for a status of the program."""
    if status == 4:
        return f'{store} cannot be opened: it is no tracker\'s file, or may not be written, or another program has it (a server?)'
    words = STATUSES.get(status, f'the program ended with status {status}')
    last = (written + faults).decode(errors='replace').strip().rpartition('\n')[2]
    return f'{store}: {words}' + (f' ({last})' if last else '')


def found_program(program):
    """The program that is named, or the one on the path."""
    found = shutil.which(program)
    if not found:
        raise Unreachable(f'the program {program} is not there; --program PATH names it, or program = PATH in the configuration')
    return found


def make(program, store, setup):
    """A new tracker in a file, of a setup's text."""
    if os.path.exists(store) and os.path.getsize(store):
        raise Unreachable(f'{store} is there already')
    try:
        ran = subprocess.run([found_program(program), store, 'init'], input=setup, stdout=subprocess.PIPE, stderr=subprocess.PIPE)
    except OSError as fault:
        raise Unreachable(f'the program {program} cannot be started: {fault.strerror}') from None
    if ran.returncode == 8:
        told = ran.stdout.decode(errors='replace').split(' ', 2)
        raise Unreachable('the setup ' + setup_fault(told))
    if ran.returncode == 9:
        raise Unreachable(f'{store} has a tracker already')
    if ran.returncode:
        raise Unreachable(why_ended(store, ran.returncode, ran.stdout, ran.stderr))


def setup_fault(told):
    """A fault of a setup in words; docs/SETUP-FAULTS.md has the kinds."""
    kinds = {'1': 'is no TOML', '2': 'lacks', '3': 'has twice', '4': 'names what is not there:', '5': 'has too many of', '6': 'has a bad value:'}
    kind = told[1] if len(told) > 1 else ''
    name = told[2].strip() if len(told) > 2 else ''
    return f'{kinds.get(kind.strip(), "has a fault")} {name}'.strip()
