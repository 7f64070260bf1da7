#!/usr/bin/env python3
"""Runs the examples of README.md and docs/*.md with the tracker, and compares what comes with what the pages print.

usage: python3 checks/pages.py [TRACKER [PAGE..]]

TRACKER is the built tracker, crates/tracker/out/tracker by default. With pages named, as docs/JQL.md, only theirs are run. Examples
have these forms:

- A block, indented or fenced, with lines that begin with `$ `: each is a command for the shell, at the top of the repository,
  and so are the lines behind it as long as a line ends with a backslash. The lines from there to the next `$ ` or the block's
  end are what it writes, standard error too. crates/tracker/out/tracker stands for TRACKER, and the same path of another crate
  for the program built there, in the checkout that TRACKER is of.
- A block fenced with the word `exec`: behind `> ` stands a line for `TRACKER :memory: exec`, and on the next line its reply.
  Lines that begin with `#` are for the reader. The blocks and tables of a page are one run, in their order: each goes on from
  the one before.
- A block fenced with `toml` is a setup. The blocks fenced with `lines`, and the tables, that stand between it and the next one
  are one run over a new file of this setup. They have the form of `exec` blocks.
- A table with the columns `Query` (or `Query by NAME`; else anna asks) and `Finds`: the search finds these issues in this
  order, or `none`.
- A table with the columns `Query`, `Kind` and `Place`: the search is refused with number 7, this kind and this place. Of either table of
  queries the queries in backticks in a column `Instead` are answered, whatever they find.
- A table with the columns `Text` and `Spelling`, or `Text`, `Kind` and `Place`: the reply of `TRACKER :memory: check` to the
  text.
- A table with the columns `Instead of`, `Stands` and `Fault`: a part of the text of docs/NEW-TRACKER.md, what stands there
  instead (`;` ends a line, ` & ` stands before a second change), and the fault that `TRACKER :memory: init` tells of the changed
  text, or `none`; in a column `Place` what it writes on standard error, if anything. The text itself is compared with the one that a
  new file keeps.

In tables other columns are for the reader, one pair of backticks round a cell is dropped, and `\\|` is `|`. Each example that
differs is told with its place, what the page prints (-) and what came (+). The last line counts them. The status is 1 where one
differs, or where TRACKER isn't there.
"""
import contextlib
import json
import os
import pathlib
import re
import shlex
import sqlite3
import subprocess
import sys
import tempfile

TOP = pathlib.Path(__file__).resolve().parent.parent
TRACKER = 'crates/tracker/out/tracker'
PROGRAM = re.compile(r'\bcrates/(\w+)/out/\1\b')
ANY_ANSWER = '(an answer)'
NEW_TRACKER = TOP / 'docs/NEW-TRACKER.md'


def output(words, given=''):
    try:
        ran = subprocess.run(words, input=given.encode(), stdout=subprocess.PIPE, stderr=subprocess.STDOUT, cwd=TOP, timeout=120)
    except (OSError, subprocess.TimeoutExpired) as fault:
        return f'({fault})'
    return ran.stdout.decode(errors='replace')


class Run:
    """Lines for one run of the tracker, each with the reply that the page prints."""

    def __init__(self, words):
        self.words, self.lines = words, []

    def play(self, told):
        if not self.lines:
            return
        replies = output(self.words, '\n'.join(line for _, line, _ in self.lines) + '\n').split('\n')
        for number, (place, line, wanted) in enumerate(self.lines):
            came = replies[number] if number < len(replies) else '(nothing)'
            is_any = wanted == ANY_ANSWER and came.startswith('{"ok":')
            told(place, line, [wanted], [ANY_ANSWER if is_any else came])


class SetUpRun(Run):
    """A run over a new file of a setup."""

    def __init__(self, tracker, store, setup, place):
        super().__init__([tracker, store, 'exec'])
        self.setup, self.place = setup, place

    def play(self, told):
        tracker, store, _ = self.words
        told(self.place, 'the setup', [''], [output([tracker, store, 'init'], self.setup)])
        super().play(told)


class Faults:
    """Changes of a new tracker's setup, each with the fault that the page prints, and its place where it has one."""

    def __init__(self, tracker):
        self.tracker, self.lines = tracker, []

    def play(self, told):
        for place, changes, *wanted in self.lines:
            text = new_setup()
            for change in changes.split(' & '):
                part, _, new = change.partition(' | ')
                if part.replace(';', '\n') not in text:
                    told(place, changes, wanted, [f'no {part}'])
                    break
                text = text.replace(part.replace(';', '\n'), new.replace(';', '\n'))
            else:
                came = output([self.tracker, ':memory:', 'init'], text).strip()
                told(place, changes, wanted, (came.removeprefix('setup ') or 'none').split('\n'))


def new_setup():
    """The setup of a new tracker, as its page has it."""
    return re.search(r'```toml\n(.*?)```', NEW_TRACKER.read_text(), re.S)[1]


def kept_setup(tracker, folder):
    """The setup that a new file keeps."""
    store = os.path.join(folder, 'new.db')
    if said := output([tracker, store, 'exec']):
        return said
    with contextlib.closing(sqlite3.connect(store)) as base:
        return base.execute('SELECT body FROM kept WHERE kind = 1').fetchone()[0]


def parts(text):
    """The parts of a page: a fence's word, `block` or `table`, the number of its first line, and its lines."""
    lines, at = text.split('\n'), 0
    while at < len(lines):
        begin = at
        fence = re.match(r'(```+)\s*(\w*)', lines[at])
        if fence:
            at += 1
            while at < len(lines) and not lines[at].startswith(fence[1]):
                at += 1
            yield fence[2] or 'block', begin + 2, lines[begin + 1:at]
            at += 1
        elif lines[at].startswith('    ') and (at == 0 or not lines[at - 1].strip()):
            while at < len(lines) and lines[at].startswith('    '):
                at += 1
            yield 'block', begin + 1, [line[4:] for line in lines[begin:at]]
        elif lines[at].startswith('|'):
            while at < len(lines) and lines[at].startswith('|'):
                at += 1
            yield 'table', begin + 1, lines[begin:at]
        else:
            at += 1


def cells(row):
    found = [cell.strip() for cell in re.split(r'(?<!\\)\|', row.strip())[1:-1]]
    found = [cell[1:-1].strip() if re.fullmatch(r'`[^`]*`', cell) else cell for cell in found]
    return [cell.replace('\\|', '|') for cell in found]


class Page:
    """The examples of a page."""

    def __init__(self, path, tracker, folder):
        self.path, self.tracker, self.folder, self.commands = path, tracker, folder, []
        self.checks = Run([tracker, ':memory:', 'check'])
        self.faults = Faults(tracker)
        self.now = Run([tracker, ':memory:', 'exec'])
        self.runs = [self.checks, self.faults, self.now]
        for kind, begin, lines in parts(path.read_text()):
            if kind == 'table':
                self.take_table(begin, lines)
            elif kind == 'toml':
                self.take_setup(begin, lines)
            elif kind in ('exec', 'lines'):
                self.take_lines(begin, lines)
            else:
                self.take_commands(begin, lines)

    def place(self, line):
        return f'{self.path.relative_to(TOP)}:{line}'

    def take_setup(self, begin, lines):
        store = os.path.join(self.folder, f'{self.path.stem}_{begin}.db')
        self.now = SetUpRun(self.tracker, store, '\n'.join(lines) + '\n', self.place(begin))
        self.runs.append(self.now)

    def take_lines(self, begin, lines):
        asked = None
        for number, line in enumerate(lines, begin):
            if line.startswith('> '):
                asked = number, line[2:]
            elif asked:
                self.now.lines.append((self.place(asked[0]), asked[1], line))
                asked = None
            elif line and not line.startswith('#'):
                sys.exit(f'{self.place(number)}: a reply without a line')
        if asked:
            sys.exit(f'{self.place(asked[0])}: a line without a reply')

    def take_commands(self, begin, lines):
        at = 0
        while at < len(lines):
            if not lines[at].startswith('$ '):
                at += 1
                continue
            first = at
            while lines[at].endswith('\\') and at + 1 < len(lines):
                at += 1
            at += 1
            command = '\n'.join(lines[first:at])[2:]
            last = at
            while last < len(lines) and not lines[last].startswith('$ '):
                last += 1
            self.commands.append((self.place(begin + first), command, lines[at:last]))
            at = last

    def take_table(self, begin, lines):
        heads = cells(lines[0])
        for number, line in enumerate(lines[2:], begin + 2):
            row = dict(zip(heads, cells(line)))
            self.take_row(self.place(number), heads[0], row)

    def take_row(self, place, head, row):
        fault = 'Kind' in row and 'Place' in row
        asks = re.fullmatch(r'Query(?: by (\w+))?', head)
        if asks and ('Finds' in row or fault):
            line = json.dumps({'user': asks[1] or 'anna', 'call': 'search', 'jql': row[head]}, ensure_ascii=False)
            if fault:
                wanted = {'refused': {'kind': int(row['Kind']), 'no': 7, 'place': int(row['Place'])}}
            else:
                found = [] if row['Finds'] == 'none' else row['Finds'].split(', ')
                wanted = {'ok': {'issues': found, 'total': len(found)}}
            self.now.lines.append((place, line, json.dumps(wanted, separators=(',', ':'))))
            for query in re.findall(r'`([^`]*)`', row['Instead']) or [row['Instead']] if row.get('Instead') else []:
                line = json.dumps({'user': asks[1] or 'anna', 'call': 'search', 'jql': query}, ensure_ascii=False)
                self.now.lines.append((place, line, ANY_ANSWER))
        elif head == 'Text' and 'Spelling' in row:
            self.checks.lines.append((place, row['Text'], f'ok {row["Spelling"]}'.strip()))
        elif head == 'Text' and fault:
            self.checks.lines.append((place, row['Text'], f'fault {row["Place"]} {row["Kind"]}'))
        elif head == 'Instead of' and 'Stands' in row and 'Fault' in row:
            places = [row['Place']] if row.get('Place') else []
            self.faults.lines.append((place, f'{row["Instead of"]} | {row["Stands"]}', row['Fault'], *places))

    def play(self, told):
        for place, command, wanted in self.commands:
            shown = command
            called = {it[0]: program_named(it[1], self.tracker) for it in PROGRAM.finditer(command)}
            if not all(os.path.isfile(it) for it in called.values()):
                told(place, shown, wanted, None)
                continue
            for name, program in called.items():
                command = command.replace(name, shlex.quote(program))
            came = output(['sh', '-c', command]).split('\n')
            told(place, shown, wanted, came[:-1] if came[-1] == '' else came)
        for run in self.runs:
            run.play(told)


def program_named(name, tracker):
    """The built program of that name, of the same checkout as TRACKER."""
    if name == 'tracker':
        return tracker
    above = pathlib.Path(tracker).parents
    at = above[3] if tracker.endswith(TRACKER) else TOP
    return str(at / f'crates/{name}/out/{name}')


def main():
    if sys.argv[1:2] in (['-h'], ['--help']):
        sys.exit(__doc__)
    pages = [pathlib.Path(it).resolve() for it in sys.argv[2:]] or [TOP / 'README.md', *sorted((TOP / 'docs').glob('*.md'))]
    tracker = os.path.abspath(sys.argv[1]) if len(sys.argv) > 1 else str(TOP / TRACKER)
    if not os.path.isfile(tracker):
        sys.exit(f'{tracker} is not there: no example is run. `rt ci` builds it')
    counts = dict.fromkeys(('passed', 'differ', 'not run'), 0)

    def told(place, shown, wanted, came):
        counts['not run' if came is None else 'passed' if wanted == came else 'differ'] += 1
        if wanted != came:
            came = ['(the program is not built)'] if came is None else came
            print('\n'.join([f'{place}: {shown}'] + [f'- {line}' for line in wanted] + [f'+ {line}' for line in came]))

    with tempfile.TemporaryDirectory() as folder:
        told(NEW_TRACKER.relative_to(TOP), 'the setup', [new_setup()], [kept_setup(tracker, folder)])
        for path in pages:
            before = dict(counts)
            Page(path, tracker, folder).play(told)
            if counts != before:
                print(f'{path.relative_to(TOP)}: ' + ', '.join(f'{counts[it] - before[it]} {it}' for it in counts))
    print(', '.join(f'{number} {it}' for it, number in counts.items()))
    sys.exit(1 if counts['differ'] or counts['not run'] else 0)


if __name__ == '__main__':
    main()
