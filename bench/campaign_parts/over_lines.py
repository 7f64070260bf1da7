"""Request lines under `exec`, and texts under `check`."""
import json
import math
import re

from . import inventing, seeds
from .documented import QUERY_FAULTS, compact, read_reply, wrong_for
from .mutating import mutated, other_value, pieces
from .running import Wrong, copied, remove, rows_of, run

LONGEST = 65_536
BLANK = b' \t\r'
ENDS = {0: [b''], 7: [b'limit line', b'']}
FAULT = re.compile(rb'fault [0-9]+ ([0-9]+)')
NO_LINE = {'refused': {'member': 'line', 'no': 1}}


def lines_of(sent):
    """The lines of an input: the one behind the last line feed counts where it has bytes."""
    lines = sent.split(b'\n')
    return lines if lines[-1] else lines[:-1]


def asked_in(sent):
    """The lines that have a reply, and the status with which the run ends."""
    asked = []
    for line in lines_of(sent):
        if len(line) > LONGEST:
            return asked, 7
        if line.strip(BLANK):
            asked.append(line)
    return asked, 0


def depth(text):
    """How many brackets are open at the most, those in texts counted too."""
    most = now = 0
    for letter in text:
        now += (letter in '[{') - (letter in ']}')
        most = max(most, now)
    return most


def number_of(text):
    """A number as its text. One past the greatest of 64 bits (1e400) may be taken for no JSON: RFC 8259 leaves that to the reader."""
    if math.isinf(float(text)):
        raise OverflowError(text)
    return text


def object_of(line):
    """The JSON object that a line is, None where it is none, and False where Python's reader can't tell."""
    def refuse(word):
        raise ValueError(word)
    try:
        text = line.decode()
        if depth(text) > 100:
            return False
        found = json.loads(text, parse_constant=refuse, parse_int=number_of, parse_float=number_of)
        compact(found).encode()
    except (UnicodeEncodeError, OverflowError):
        return False
    except ValueError:
        return None
    return found if isinstance(found, dict) else None


def replies_in(ran, asked, wanted):
    """The replies of a run to these lines, each of which has to be one that the pages know."""
    if ran.status != wanted:
        raise Wrong(f'status {ran.status}, and not {wanted}: {ran.told[-500:]!r}')
    came = ran.out.split(b'\n')
    if ran.told or came[len(asked):] != ENDS[wanted]:
        raise Wrong(f'{len(asked)} lines, {len(came) - 1} lines of output, behind the replies {came[len(asked):][:3]}, and {ran.told[-500:]!r}')
    return [reply_to(line, text) for line, text in zip(asked, came)]


def reply_to(line, text):
    reply, wrong = read_reply(text)
    if not wrong:
        found = object_of(line)
        name = found.get('call') if found else None
        if found is not False and (reply == NO_LINE) != (found is None):
            wrong = f'{"a JSON object is taken for none" if found is not None else "no JSON object is taken for one"}: {text!r}'
        elif isinstance(name, str):
            wrong = wrong_for(name, reply)
    if wrong:
        raise Wrong(f'{wrong}, to the line {line[:300]!r}')
    return reply


class OverLines:
    """Batches of lines over a file. A batch goes on from where the one before ended; each tenth begins anew."""

    name, share = 'lines', 0.4

    def __init__(self, program, room):
        self.program, self.store, self.room = program, f'{room}/lines', room
        self.count, self.seen = 0, {}

    def begin(self, by):
        """A file of a new tracker, or of a setup with own fields, and some calls."""
        remove(self.store)
        if by.random() < 0.6:
            run(self.program, self.store, ['init'], seeds.SETUPS[-1])
        first = [b'{"user":"root","call":"tick","to":1709251200}'] + [inventing.line(by) for _ in range(by.choice([0, 40, 200]))]
        run(self.program, self.store, ['exec'], b'\n'.join(first))

    def line(self, by):
        kind = by.random()
        if kind < 0.4:
            return inventing.line(by)
        if kind < 0.65:
            asked = {'user': by.choice(inventing.USERS), **inventing.call(by)}
            return inventing.spelled(by, other_value(by, asked)).encode('utf-8', 'surrogatepass')
        if kind < 0.97:
            return mutated(by, by.choice([inventing.line(by), by.choice(seeds.LINES)]), seeds.LINES)
        if kind < 0.997:
            return by.randbytes(by.randrange(200))
        # (a line at the limit of its length, which is cut into JSON or beyond it)
        line = inventing.line(by)
        return line[:-1] + b' ' * (by.choice([LONGEST - 1, LONGEST, LONGEST, LONGEST + 1]) - len(line)) + line[-1:]

    def step(self, by):
        """A batch with its plan: the file before, the bytes, and where they are cut."""
        if self.count % 10 == 0:
            self.begin(by)
        self.count += 1
        if by.random() < 0.06:
            texts = [mutated(by, by.choice([by.choice(seeds.QUERIES), inventing.query(by).encode()]), seeds.QUERIES) for _ in range(100)]
            return self.store, b'\n'.join(texts), {'words': 'check', 'cuts': []}
        sent = b'\n'.join(self.line(by) for _ in range(by.choice([1, 20, 100, 150]))) + by.choice([b'\n', b'', b'\r\n'])
        return self.store, sent, {'words': 'exec', 'cuts': pieces(by, sent), 'end': by.randrange(len(sent) + 1)}

    def tried(self, store, sent, plan):
        if plan['words'] == 'check':
            return self.checked(sent)
        replies, held = self.answered(store, 'whole', sent, plan['cuts'])
        end = min(plan['end'], len(sent))
        first, _ = self.answered(store, 'part', sent[:end])
        whole = len(asked_in(sent[:sent.rfind(b'\n', 0, end) + 1])[0])
        if first[:whole] != replies[:whole]:
            raise Wrong(f'cut at byte {end} the whole lines before have other replies')
        for reply in replies:
            kind = reply['refused']['no'] if 'refused' in reply else 'ok'
            self.seen[kind] = self.seen.get(kind, 0) + 1
        copied(held, self.store)
        return None

    def answered(self, store, name, sent, cuts=()):
        """The replies to these lines, and the file that they leave: that which the answered lines leave alone."""
        held, other = copied(store, f'{self.room}/{name}'), copied(store, f'{self.room}/{name}-alone')
        asked, status = asked_in(sent)
        replies = replies_in(run(self.program, held, ['exec'], sent, cuts), asked, status)
        done = [line for line, reply in zip(asked, replies) if 'ok' in reply]
        alone = replies_in(run(self.program, other, ['exec'], b'\n'.join(done)), done, 0)
        if alone != [reply for reply in replies if 'ok' in reply]:
            raise Wrong('the lines that were answered have other replies without those that were refused')
        if rows_of(held) != rows_of(other):
            raise Wrong('the rows aren\'t those of the lines that were answered alone')
        return replies, held

    def checked(self, sent):
        """Each text has a reply, and its one spelling is its own."""
        ran = run(self.program, ':memory:', ['check'], sent)
        texts, came = lines_of(sent), ran.out.split(b'\n')[:-1]
        faults = [fault for fault in map(FAULT.fullmatch, came) if fault]
        spelled = [it[3:] for it in came if it == b'ok' or it.startswith(b'ok ')]
        if ran.status or ran.told or not len(texts) == len(came) == len(faults) + len(spelled) or any(int(it[1]) not in QUERY_FAULTS for it in faults):
            raise Wrong(f'check: status {ran.status}, {len(texts)} texts, {len(came)} replies, {len(spelled)} ok, {len(faults)} faults')
        again = run(self.program, ':memory:', ['check'], b''.join(it + b'\n' for it in spelled))
        if [it[3:] for it in again.out.split(b'\n')[:-1]] != spelled:
            raise Wrong('check: a spelling has another spelling')
