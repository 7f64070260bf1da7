#!/usr/bin/env python3
"""Tries the tracker with random and mutated bytes, cut at random places: request lines, HTTP, CSV, setups, and rows of a file.

usage: python3 bench/campaign.py PROGRAM [--bytes N] [--seconds N] [--seed N] [--part NAME] [--kept FOLDER]
       python3 bench/campaign.py PROGRAM --again FOLDER

PROGRAM is the built tracker, crates/tracker/out/tracker. 10,000,000 bytes are tried in all, or as many as N seconds let through (3,600).
Inputs are invented, or are examples of the pages, lines of the stored run and others of campaign_parts/seeds.py that were changed in their
bytes, words, numbers, characters and brackets. Of each:

- A run ends within 60 seconds, by no signal, and with a status that docs/STATUSES.md has for it.
- Each reply is one line of compact JSON: an ok with members that the pages show, or a refusal of docs/REFUSALS.md that its call may have.
  Neither 14 nor 15 comes. `line` is refused exactly where Python's reader finds no JSON object.
- lines: the answered lines alone have the same replies and leave the same rows, so no refused one changed any. Where the input is cut,
  the whole lines before have the same replies. Each query that `check` spells has that spelling itself.
- http: each response has a status of docs/HTTP.md that fits its reply, and the next connection is answered. The rows have just the
  changes that were answered; where nothing was answered ok, all rows but the present's moment are as before.
- csv: an import has the replies and the rows of the lines for which its records ask, by a reader of records of its own.
- setups: behind a fault there are no rows; standard error says at most the place that docs/SETUP-FAULTS.md has for it. A good setup is kept as
  it is, can be used, is opened again, and isn't made again. What Python's reader takes for TOML isn't refused as none.
- rows: a file whose rows, form, pages or log were changed is opened as C SQLite reads it, or refused, and then it and the commits
  of its log are as they were, or after status 5 all in the file, with the same rows. What is opened can be used, and is sound for C SQLite
  afterwards.

The seed is printed first; with `--seed` all is the same again but what the clock and the port say. A wrong input is made smaller, and kept in
a folder of its own in FOLDER (tracker-campaign-SEED in the folder for temporary files) with the file as it was before and the command that
runs it again. The run ends behind ten of them. The status is 1 where there is one.
"""
import argparse
import json
import os
import pathlib
import random
import signal
import sys
import tempfile
import time

from campaign_parts.over_csv import OverCsv
from campaign_parts.over_http import OverHttp
from campaign_parts.over_lines import OverLines
from campaign_parts.over_rows import OverRows
from campaign_parts.over_setups import OverSetups
from campaign_parts.running import Wrong, copied

PARTS = {it.name: it for it in (OverLines, OverHttp, OverCsv, OverSetups, OverRows)}
MOST_WRONG = 10
TRIES, SHRINKING = 300, 60


def wrong_in(part, store, sent, plan):
    """What is wrong with an input, or None."""
    try:
        part.tried(store, sent, plan)
    except Wrong as wrong:
        return str(wrong)
    return None


def parts_of(sent, size):
    """The input in parts of so many lines each, or where it has one line alone in parts of so many bytes."""
    lines = sent.splitlines(keepends=True)
    units = lines if len(lines) > 1 else [sent[at:at + 1] for at in range(len(sent))]
    return [b''.join(units[at:at + size]) for at in range(0, len(units), size)], len(units)


def shrunk(part, store, sent, plan):
    """A smaller input that is wrong too, by leaving parts out, the large ones first."""
    tries, end = 0, time.monotonic() + SHRINKING
    size = max(1, parts_of(sent, 1)[1] // 2)
    while True:
        parts, count = parts_of(sent, size)
        at = 0
        while at < len(parts):
            if tries > TRIES or time.monotonic() > end:
                return sent
            tries += 1
            rest = b''.join(parts[:at] + parts[at + 1:])
            if len(parts) > 1 and wrong_in(part, store, rest, plan):
                sent, parts = rest, parts[:at] + parts[at + 1:]
            else:
                at += 1
        if size == 1 and (count == parts_of(sent, 1)[1]):
            return sent
        size = max(1, size // 2)


class Campaign:
    """The parts, what each has tried, and what was wrong."""

    def __init__(self, options, room):
        self.options, self.room = options, room
        self.program = os.path.abspath(options.program)
        names = [options.part] if options.part else list(PARTS)
        self.parts = [PARTS[name](self.program, room) for name in names]
        self.tried = {name: 0 for name in names}
        self.inputs = {name: 0 for name in names}
        self.wrong = 0

    def next_part(self):
        """The part that is furthest behind its share."""
        return min(self.parts, key=lambda it: self.tried[it.name] / it.share)

    def step(self, part):
        by = random.Random(f'{self.options.seed} {part.name} {self.inputs[part.name]}')
        self.inputs[part.name] += 1
        try:
            store, sent, plan = part.step(by)
        except Wrong as wrong:
            self.keep(part, None, b'', {}, str(wrong))
            return
        before = copied(store, f'{self.room}/given')
        self.tried[part.name] += len(sent) + plan.get('bytes', 0)
        wrong = wrong_in(part, store, sent, plan)
        if wrong:
            self.keep(part, before, sent, plan, wrong)
            part.count = 0

    def keep(self, part, before, sent, plan, wrong):
        """Keeps a wrong input, as it was and smaller, with the file before and the command that runs it again."""
        self.wrong += 1
        number = self.inputs[part.name] - 1
        folder = self.options.kept / f'{part.name}-{number}'
        folder.mkdir(parents=True, exist_ok=True)
        if before:
            copied(before, str(folder / 'store'))
        (folder / 'input').write_bytes(sent)
        (folder / 'plan.json').write_text(json.dumps({'part': part.name, 'seed': self.options.seed, 'number': number, **plan}),
                                          encoding='utf-8')
        (folder / 'again').write_text(f'python3 bench/campaign.py {self.program} --again {folder}\n', encoding='utf-8')
        (folder / 'wrong').write_text(wrong + '\n', encoding='utf-8')
        print(f'{part.name} {number}: {wrong}\n  python3 bench/campaign.py {self.program} --again {folder}', flush=True)
        if before and 'changed' not in plan and wrong_in(part, str(folder / 'store'), sent, plan):
            small = shrunk(part, str(folder / 'store'), sent, plan)
            (folder / 'input').write_bytes(small)
            print(f'  {len(sent)} bytes, smaller {len(small)}: {small[:300]!r}', flush=True)

    def run(self):
        end = time.monotonic() + self.options.seconds
        try:
            while self.wrong < MOST_WRONG and sum(self.tried.values()) < self.options.bytes and time.monotonic() < end:
                self.step(self.next_part())
        finally:
            for part in self.parts:
                getattr(part, 'end', lambda: None)()
        for part in self.parts:
            seen = ', '.join(f'{kind} {count}' for kind, count in sorted(part.seen.items(), key=lambda it: -it[1]))
            print(f'{part.name}: {self.inputs[part.name]:,} inputs, {self.tried[part.name]:,} bytes; seen: {seen}')
        late = ', the time was up' if time.monotonic() >= end else ''
        print(f'seed {self.options.seed}: {sum(self.tried.values()):,} bytes, {self.wrong} wrong{late}')
        return 1 if self.wrong else 0

    def again(self, folder):
        """Runs a kept input again."""
        plan = json.loads((folder / 'plan.json').read_text(encoding='utf-8'))
        part = PARTS[plan['part']](self.program, self.room)
        wrong = wrong_in(part, copied(str(folder / 'store'), f'{self.room}/given'), (folder / 'input').read_bytes(), plan)
        getattr(part, 'end', lambda: None)()
        print(wrong or 'nothing is wrong')
        return 1 if wrong else 0


def main():
    asked = argparse.ArgumentParser(description=__doc__, formatter_class=argparse.RawDescriptionHelpFormatter)
    asked.add_argument('program')
    asked.add_argument('--bytes', type=int, default=10_000_000)
    asked.add_argument('--seconds', type=float, default=3_600)
    asked.add_argument('--seed', type=int, default=random.SystemRandom().randrange(10 ** 9))
    asked.add_argument('--part', choices=list(PARTS))
    asked.add_argument('--kept', type=pathlib.Path)
    asked.add_argument('--again', type=pathlib.Path)
    options = asked.parse_args()
    options.kept = (options.kept or pathlib.Path(tempfile.gettempdir()) / f'tracker-campaign-{options.seed}').resolve()
    with tempfile.TemporaryDirectory() as room:
        if options.again:
            return Campaign(options, room).again(options.again)
        print(f'seed {options.seed}', flush=True)
        signal.signal(signal.SIGTERM, lambda *_: sys.exit('ended'))
        return Campaign(options, room).run()


if __name__ == '__main__':
    sys.exit(main())
