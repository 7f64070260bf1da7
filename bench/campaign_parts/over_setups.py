"""Setups under `init`, each in a new file."""
import json
import re
import tomllib

from . import seeds
from .documented import SETUP_FAULTS
from .mutating import mutated, pieces
from .over_lines import asked_in, depth, number_of, replies_in
from .running import Wrong, remove, rows_of, run

LONGEST = 1_048_576
FAULT = re.compile(rb'setup ([0-9]+)(?: .*)?\n', re.S)
PLACE = re.compile(rb'([a-z]+) ([1-9][0-9]*)\n')
LINES = [b'zz = 1', b'[zz]', b'[[group]]', b'[[project]]', b'[[offset]]', b'from = 5', b'minutes = 840', b'number = 10001', b'# \xc3\xbc',
         b'kind = "date"', b'members = []',
         b'versions = [ "2.0", # one\n "3.0",\n]', b'users."a" = 1', b'when = 2024-02-30T10:00:00Z', b'text = """\n\\\n  a"""', b'n = 0x_1',
         b'f = -inf', b'e = "\\e\\x41\\u00e9"',
         b'post = ["set:summary=\xc3\xbc", "clear:due"]', b'conditions = ["any:assignee|any:reporter"]',
         b'deep = ' + b'[' * 200 + b']' * 200, b'deep = ' + b'[' * 20_000]


def other_lines(by, text):
    """The text with lines left out, doubled, put elsewhere, or put in."""
    lines = text.split(b'\n')
    for _ in range(by.choice([1, 1, 2, 3])):
        at, to = by.randrange(len(lines)), by.randrange(len(lines))
        kind = by.randrange(4)
        if kind == 0:
            del lines[at]
        elif kind == 1:
            lines.insert(to, lines[at])
        elif kind == 2:
            lines.insert(to, by.choice(LINES))
        else:
            lines[at], lines[to] = lines[to], lines[at]
        lines = lines or [b'']
    return by.choice([b'\n', b'\n', b'\n', b'\r\n', b'\r']).join(lines)


def many(by, text):
    """The text with a list at or over its limit, or as long as a setup may be."""
    kind, count = by.randrange(5), by.choice([29, 30, 31, 50, 51, 100, 101, 200, 201, 400, 401])
    if kind == 0:
        return text.replace(b'versions = [', b'versions = [' + b''.join(b'"v%d", ' % it for it in range(count)), 1)
    if kind == 1:
        return text + b''.join(b'\n[[offset]]\nfrom = %d\nminutes = %d\n' % (1_800_000_000 + it * 90_000, it % 60) for it in range(count))
    if kind == 2:
        return text + b''.join(b'\n[[field]]\nnumber = %d\nname = "f%d"\nkind = "%s"\n' % (10_100 + it, it,
                                                                                           by.choice([b'text', b'number', b'user',
                                                                                                      b'date'])) for it in range(count))
    if kind == 3:
        return text.replace(b'users = [', b'users = [' + b''.join(b'"u%d", ' % it for it in range(count)), 1)
    return text + b'\n#' + b'x' * (LONGEST - len(text) - 2 + by.choice([-1, 0, 1])) if by.random() < 0.05 else text


def too_large(value):
    """Whether there is a whole number that 64 bits can't hold."""
    if isinstance(value, (dict, list)):
        return any(map(too_large, value.values() if isinstance(value, dict) else value))
    return isinstance(value, int) and not -2 ** 63 <= value < 2 ** 63


def is_toml(sent):
    """Whether Python's reader takes these bytes as TOML; None where it can't tell."""
    try:
        text = sent.decode()
        found = tomllib.loads(text, parse_float=number_of)
        # (the tracker's reader of TOML takes lists and tables in one another to a depth of 80, and numbers of 64 bits)
        return None if depth(text) > 80 or too_large(found) else True
    except (RecursionError, OverflowError):
        return None
    except ValueError:
        return False


def is_place(told, kind, sent):
    """Whether standard error says where to look: the line of a text that is no TOML, or the table that lacks a key, where it says one."""
    place = PLACE.fullmatch(told)
    if kind == 1:
        return place is not None and place[1] == b'line' and int(place[2]) <= sent.count(b'\n') + 1
    return not told or kind == 2 and place is not None and place[1] != b'line'


class OverSetups:
    """Setups, of which most have a fault."""

    name, share = 'setups', 0.1

    def __init__(self, program, room):
        self.program, self.store, self.seen = program, f'{room}/setup', {}

    def step(self, by):
        text = by.choice(seeds.SETUPS)
        if by.random() < 0.3:
            text = many(by, text)
        kind = by.random()
        if kind < 0.4:
            text = mutated(by, text, seeds.SETUPS, 2 * LONGEST)
        elif kind < 0.85:
            text = other_lines(by, text)
        elif kind < 0.87:
            text = by.randbytes(300)
        return self.store, text, {'cuts': pieces(by, text), 'end': by.randrange(len(text) + 1) if by.random() < 0.3 else None,
                                  'seed': by.random()}

    def tried(self, store, sent, plan):
        self.made(self.store, sent, plan)
        if plan['end'] is not None:
            self.made(self.store, sent[:plan['end']], {**plan, 'cuts': []})

    def made(self, store, sent, plan):
        remove(store)
        ran = run(self.program, store, ['init'], sent, plan['cuts'])
        fault = FAULT.fullmatch(ran.out)
        kind = fault and int(fault[1])
        self.seen[kind or ran.status] = self.seen.get(kind or ran.status, 0) + 1
        told = {0: ran.out == b'', 7: ran.out == b'limit input\n', 8: kind in SETUP_FAULTS}
        if not is_place(ran.told, kind, sent) or not told.get(ran.status) or (len(sent) > LONGEST) != (ran.status == 7):
            raise Wrong(f'init: status {ran.status}, {ran.out[:100]!r} and {ran.told[:200]!r} for {len(sent)} bytes')
        if kind == 1 and is_toml(sent):
            raise Wrong('init: TOML is taken for none')
        if ran.status and rows_of(store):
            raise Wrong('init: rows are left behind a fault')
        if not ran.status:
            self.used(store, sent)

    def used(self, store, sent):
        """A tracker of a setup holds its text, can be used, and isn't made again."""
        rows = rows_of(store)
        if rows[0] != (1, 0, sent.decode()):
            raise Wrong('init: the row of the setup is another text')
        again = run(self.program, store, ['init'], sent)
        if (again.status, again.out) != (9, b'held\n') or rows_of(store) != rows:
            raise Wrong(f'init again: status {again.status} and {again.out!r}')
        lines = self.lines(sent)
        asked, status = asked_in(lines)
        replies_in(run(self.program, store, ['exec'], lines), asked, status)
        if run(self.program, store, ['exec'], b'').status:
            raise Wrong('a tracker of this setup is not opened again')

    def lines(self, sent):
        """Some lines by a user of the setup."""
        try:
            found = tomllib.loads(sent.decode())
            user, project, kind = found['users'][0], found['project'][0]['key'], found['types'][0]
            move = [it['name'] for it in found.get('transition', [])][:1] or ['Start']
        except (ValueError, RecursionError, KeyError, TypeError, IndexError):
            user, project, kind, move = 'anna', 'OPS', 'Task', ['Start']
        return b'\n'.join(json.dumps({'user': user, **it}).encode() for it in [
            {'call': 'create', 'project': project, 'type': kind, 'summary': 'x'},
            {'call': 'transition', 'issue': f'{project}-1', 'transition': move[0]},
            {'call': 'search', 'jql': 'due > startOfWeek() OR status WAS NOT EMPTY ON 2024-03-31 ORDER BY priority'},
            {'call': 'show', 'issue': f'{project}-1'}])
