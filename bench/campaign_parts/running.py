"""Runs of the program with a time limit, files that it is run over, and the rows that they hold."""
import contextlib
import fcntl
import os
import pathlib
import shutil
import sqlite3
import struct
import subprocess
import sys
import termios
import threading
import time

sys.path.insert(0, str(pathlib.Path(__file__).resolve().parent.parent.parent / 'checks'))
from kills import rows_of  # noqa: E402,F401

SECONDS = 60
LOG = '-wal'


class Wrong(Exception):
    """What a run did that it may not."""


class Ran:
    """A run that has ended: its status and what it wrote."""

    def __init__(self, status, out, told):
        self.status, self.out, self.told = status, out, told


def feed(stream, sent, cuts):
    """Writes the bytes, cut at these places; each piece waits until the one before was read, or a moment."""
    ends = [0, *cuts, len(sent)]
    with contextlib.suppress(OSError, ValueError):
        for start, end in zip(ends, ends[1:]):
            stream.write(sent[start:end])
            for _ in range(20 if end < len(sent) else 0):
                if struct.unpack('i', fcntl.ioctl(stream, termios.FIONREAD, bytes(4)))[0] == 0:
                    break
                time.sleep(0.0005)
        stream.close()


def run(program, store, words, sent=b'', cuts=()):
    """What a run did that gets these bytes; one that doesn't end in time, or ends by a signal, is wrong."""
    with subprocess.Popen([program, store, *words], stdin=subprocess.PIPE, stdout=subprocess.PIPE, stderr=subprocess.PIPE, bufsize=0) as it:
        feeder = threading.Thread(target=feed, args=(it.stdin, sent, cuts))
        told = []
        other = threading.Thread(target=lambda: told.append(it.stderr.read()))
        late = threading.Timer(SECONDS, it.kill)
        for each in (feeder, other, late):
            each.start()
        with it.stdout as stream:
            out = b''.join(iter(lambda: stream.read(65_536), b''))
        it.wait()
        ended = late.is_alive()
        late.cancel()
        other.join()
        with contextlib.suppress(OSError):
            it.stdin.close()
        feeder.join()
    if not ended:
        raise Wrong(f'{" ".join(words)} did not end within {SECONDS} seconds')
    if it.returncode < 0:
        raise Wrong(f'{" ".join(words)} ended by the signal {-it.returncode}: {told[0].decode(errors="replace")[-2_000:]}')
    return Ran(it.returncode, out, told[0])


def remove(store):
    for ending in ('', LOG):
        pathlib.Path(store + ending).unlink(missing_ok=True)


def copied(store, to):
    """A copy of a file with its log."""
    remove(to)
    for ending in ('', LOG):
        if os.path.exists(store + ending):
            shutil.copyfile(store + ending, to + ending)
    return to


def contents(store):
    """The bytes of a file and of its log; a log that isn't there counts as an empty one."""
    return tuple(pathlib.Path(store + ending).read_bytes() if os.path.exists(store + ending) else b'' for ending in ('', LOG))


def whole(store):
    """A file without a log that has all that the file and its log have."""
    with contextlib.closing(sqlite3.connect(store)) as base:
        base.execute('PRAGMA journal_mode = DELETE')
    pathlib.Path(store + LOG).unlink(missing_ok=True)
