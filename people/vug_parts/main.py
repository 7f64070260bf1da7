"""The command: its words, what each calls, and how it ends."""
import os
import sys

from . import arguments, completion, configuration
from .terminal import Screen
from .tracker import Tracker
from .trouble import INTERRUPTED, READER_GONE, Trouble


class Run:
    """One run of the command: its options, where output goes, and the tracker."""

    def __init__(self, options):
        self.options = options
        self.screen = Screen(options.colour)
        self.json = options.json
        self.opened = None

    def warn(self, words):
        sys.stdout.flush()
        print(f'vug: {words}', file=sys.stderr)

    def place(self):
        return configuration.place(self.options)

    def tracker(self, asks=True):
        """The tracker, which is asked for when a command needs it."""
        if self.opened is None:
            ticks = not self.options.still
            self.opened = Tracker(self.place().connection(self.options.timeout, ticks, asks, self.warn))
        return self.opened

    def close(self):
        if self.opened is not None:
            self.opened.close()


def main(words):
    for stream in (sys.stdout, sys.stderr):
        stream.reconfigure(errors='replace')
    run = None
    try:
        if words[:1] == ['complete']:
            return completion.complete(words[1:], arguments.build())
        options = arguments.read(words)
        run = Run(options)
        status = options.command(run) or 0
        sys.stdout.flush()
        return status
    except Trouble as trouble:
        return told(trouble)
    except BrokenPipeError:
        return reader_gone()
    except KeyboardInterrupt:
        return INTERRUPTED
    finally:
        if run:
            run.close()


def told(trouble):
    """What was written before comes before the reason, also where both go to one place."""
    try:
        sys.stdout.flush()
        print(f'vug: {trouble}', file=sys.stderr)
    except BrokenPipeError:
        return reader_gone()
    return trouble.status


def reader_gone():
    """Whoever read the output went. Nothing more is written, also not when Python ends and flushes."""
    nothing = os.open(os.devnull, os.O_WRONLY)
    os.dup2(nothing, sys.stdout.fileno())
    return READER_GONE
