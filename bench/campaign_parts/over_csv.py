"""Issues as CSV under `import`: each input has the replies and the rows of the lines that its records ask for."""
import json

from . import inventing, seeds
from .mutating import mutated, pieces
from .over_lines import LONGEST, reply_to
from .running import Wrong, copied, remove, rows_of, run

COLUMNS = seeds.CSV_HEADER.decode().split(',')
MARK = b'\xef\xbb\xbf'


def records_of(data):
    """The records of an input, as docs/CSV.md says how they end; each is a list of fields."""
    records, fields, field, state = [], [], bytearray(), 'record'
    for byte in data.removeprefix(MARK):
        letter = bytes([byte])
        if state == 'record' and letter in b'\r\n':
            continue
        if state == 'quoted':
            if letter == b'"':
                state = 'quote'
            else:
                field += letter
        elif letter == b'"' and state in ('record', 'field', 'quote'):
            field += b'"' if state == 'quote' else b''
            state = 'quoted'
        elif letter in b'\r\n,':
            fields.append(bytes(field))
            field, state = bytearray(), 'field'
            if letter != b',':
                records.append(fields)
                fields, state = [], 'record'
        else:
            field += letter
            state = 'plain'
    if state != 'record':
        records.append([*fields, bytes(field)])
    return records


def call_of(record):
    """The call of a record, or None where it is bad."""
    try:
        given = dict(zip(COLUMNS, (it.decode() for it in record)))
    except UnicodeDecodeError:
        return None
    if len(record) != len(COLUMNS):
        return None
    values = {name: given[name] for name in COLUMNS[4:] if given[name]}
    named = {'external': given['external']} if given['external'] else {}
    return {'user': 'anna', 'call': 'create', **{name: given[name] for name in COLUMNS[1:4]}, **named,
            **({'set': values} if values else {})}


def calls_of(data):
    """The calls that an input asks for, and the number of the bad record behind them, if there is one."""
    records, calls = records_of(data), []
    if not records or records[0] != [it.encode() for it in COLUMNS]:
        return calls, 0
    for at, record in enumerate(records[1:], 1):
        call = call_of(record)
        if not call:
            return calls, at
        calls.append(call)
    return calls, None


def record(by):
    """A record as a spreadsheet writes it, mostly right."""
    fields = [inventing.external(by) if by.random() < 0.5 else '', by.choice(inventing.PROJECTS), by.choice(inventing.TYPES[:3]),
              inventing.text(by),
              *(by.choice([*choices, '', '']) for choices in (inventing.USERS, inventing.USERS, ['High', 'low', 'Urgent'],
                                                              [inventing.number_text(by)], inventing.DAYS))]
    quoted = [f'"{it.replace(chr(34), chr(34) * 2)}"' if by.random() < 0.1 or set(it) & set('",\r\n') else it for it in fields]
    return ','.join(quoted).encode()


class OverCsv:
    """Imports into one file; each tenth begins with a new one."""

    name, share = 'csv', 0.15

    def __init__(self, program, room):
        self.program, self.store, self.room = program, f'{room}/csv', room
        self.count, self.seen = 0, {}

    def step(self, by):
        if self.count % 10 == 0:
            remove(self.store)
            if by.random() < 0.5:
                run(self.program, self.store, ['init'], seeds.SETUPS[-1])
            run(self.program, self.store, ['exec'], b'\n'.join(inventing.line(by) for _ in range(30)))
        self.count += 1
        kind = by.random()
        records = [by.choice([record(by), record(by), by.choice(seeds.RECORDS)]) for _ in range(by.choice([0, 1, 5, 30, 80]))]
        if 0.2 < kind < 0.8:
            at = by.randrange(len(records) + 1)
            records[at:] = [mutated(by, it, seeds.RECORDS) if by.random() < 0.3 else it for it in records[at:]]
        sent = by.choice([b'\n', b'\r\n', b'\r', b'\n\n']).join([seeds.CSV_HEADER, *records]) + by.choice([b'', b'\n'])
        if kind > 0.9:
            sent = mutated(by, sent, seeds.RECORDS)
        if kind > 0.98:
            sent = by.randbytes(300)
        return self.store, by.choice([b'', b'', MARK]) + sent, {'cuts': pieces(by, sent), 'end': by.randrange(len(sent) + 1)}

    def tried(self, store, sent, plan):
        self.imported(store, 'csv-part', sent[:plan['end']])
        copied(self.imported(store, 'csv-whole', sent, plan['cuts']), self.store)

    def imported(self, store, name, sent, cuts=()):
        """The file that an import leaves: that of the lines that its records ask for."""
        held, other = copied(store, f'{self.room}/{name}'), copied(store, f'{self.room}/{name}-lines')
        calls, bad = calls_of(sent)
        lines = [json.dumps(call).encode() for call in calls]
        ran = run(self.program, held, ['import', 'anna'], sent, cuts)
        *replies, end = ran.out.split(b'\n')
        if bad is not None:
            replies, end = replies[:-1], (replies or [b''])[-1]
        if (ran.status, end, ran.told) != ((0, b'', b'') if bad is None else (8, b'csv %d' % bad, b'')) or len(replies) != len(calls):
            raise Wrong(f'import: status {ran.status}, {end!r} and {ran.told!r} behind {len(replies)} replies, '
                        f'and not {bad} as the bad record behind {len(calls)}')
        for line, reply in zip(lines, replies):
            kind = reply_to(line, reply)
            kind = kind['refused']['no'] if 'refused' in kind else 'ok'
            self.seen[kind] = self.seen.get(kind, 0) + 1
        if all(len(line) <= LONGEST for line in lines):
            alone = run(self.program, other, ['exec'], b'\n'.join(lines))
            if alone.out.split(b'\n')[:-1] != replies:
                raise Wrong('import: the lines that the records ask for have other replies')
            if rows_of(held) != rows_of(other):
                raise Wrong('import: the rows aren\'t those of the lines that the records ask for')
        return held
