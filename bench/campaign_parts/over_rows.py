"""Files whose rows, pages or log were changed, opened by `exec`."""
import contextlib
import json
import os
import pathlib
import re
import sqlite3

from . import inventing, seeds
from .mutating import NUMBERS, mutated, other_value
from .over_lines import asked_in, replies_in
from .pages_of_file import committed, damaged, damaged_log
from .running import LOG, Wrong, contents, copied, remove, rows_of, run, whole

MADE = 'CREATE TABLE kept (kind INTEGER, no INTEGER, body TEXT, PRIMARY KEY (kind, no))'
KEPT = re.compile(rb'kept [0-9]+ [0-9]+\n')
KINDS = [-1, 0, 1, 2, 3, 4, 5, 6, 7, 8, 9, 10, 11, 12, 255, 256, 2 ** 31, 2 ** 63 - 1]
PLACES = [-1, 0, 1, 2, 3, 4, 7, 50_000, 50_001, 2 ** 32 - 1, 2 ** 32, 2 ** 53, 2 ** 63 - 1]
SCHEMAS = ['CREATE TABLE other (a)', 'CREATE INDEX other ON kept (body)', 'CREATE VIEW other AS SELECT 1',
           'CREATE TRIGGER other AFTER INSERT ON kept BEGIN SELECT 1; END',
           'ALTER TABLE kept ADD COLUMN more', 'ALTER TABLE kept RENAME TO other', 'ALTER TABLE kept RENAME COLUMN body TO text',
           'DROP TABLE kept', 'PRAGMA user_version = 7',
           'PRAGMA application_id = 7', 'ANALYZE', 'DELETE FROM kept']
FORMS = ['PRAGMA page_size = 512; VACUUM', 'PRAGMA page_size = 1024; VACUUM', 'PRAGMA page_size = 65536; VACUUM',
         'PRAGMA auto_vacuum = FULL; VACUUM',
         'PRAGMA auto_vacuum = INCREMENTAL; VACUUM', 'PRAGMA journal_mode = WAL', 'VACUUM', '']
TABLES = ['CREATE TABLE kept (kind INTEGER, no INTEGER, body TEXT, PRIMARY KEY (no, kind))',
          'CREATE TABLE kept (kind INTEGER, no INTEGER, body TEXT)',
          'CREATE TABLE kept (kind INTEGER, no INTEGER, body TEXT, PRIMARY KEY (kind, no)) WITHOUT ROWID',
          'CREATE TABLE kept (kind, no, body, PRIMARY KEY (kind, no))',
          'create table "kept"(kind INTEGER,no INTEGER,body TEXT,primary key(kind,no))',
          'CREATE TABLE kept (kind INTEGER, no INTEGER, body TEXT NOT NULL, PRIMARY KEY (kind, no))',
          'CREATE TABLE kept (kind INTEGER, no INTEGER, body TEXT COLLATE NOCASE, PRIMARY KEY (kind, no))',
          'CREATE TABLE KEPT (Kind INTEGER, No INTEGER, Body TEXT, PRIMARY KEY (kind, no))']


def other_body(by, body, bodies):
    """A body that is nearly one: changed as JSON, or as bytes."""
    if by.random() < 0.6:
        with contextlib.suppress(ValueError):
            return json.dumps(other_value(by, json.loads(body)), ensure_ascii=False, separators=(',', ':'),
                              sort_keys=by.random() < 0.9).encode()
    return mutated(by, body.encode(), bodies, 200_000)


class OverRows:
    """Files of one base, which is made anew each sixtieth time."""

    name, share = 'rows', 0.1

    def __init__(self, program, room):
        self.program, self.base, self.store, self.room = program, f'{room}/base', f'{room}/rows', room
        self.count, self.seen = 0, {}

    def begin(self, by):
        remove(self.base)
        if by.random() < 0.6:
            run(self.program, self.base, ['init'], seeds.SETUPS[-1])
        lines = [inventing.line(by) for _ in range(by.choice([3, 40, 150]))]
        lines += [json.dumps({'user': 'anna', 'call': 'edit', 'issue': f'OPS-{it}',
                              'set': {'description': 'x' * by.choice([100, 3_000, 4_096])}}).encode() for it in range(1, 4)]
        run(self.program, self.base, ['exec'], b'\n'.join(lines))

    def step(self, by):
        if self.count % 60 == 0:
            self.begin(by)
        self.count += 1
        copied(self.base, self.store)
        kind = by.random()
        if kind < 0.15 and os.path.exists(self.store + LOG):
            data, log = contents(self.store)
            log, done = damaged_log(by, data, log)
            pathlib.Path(self.store + LOG).write_bytes(log)
            size = len(log)
        else:
            whole(self.store)
            size, done = self.changed(by, kind)
        lines = b'\n'.join(inventing.line(by) for _ in range(by.choice([1, 5, 20])))
        return self.store, lines, {'changed': done, 'bytes': min(size, 20_000)}

    def changed(self, by, kind):
        """Changes the file, and tells how many bytes were put, and how."""
        if kind < 0.6:
            return self.rows_changed(by)
        path = pathlib.Path(self.store)
        if kind < 0.7:
            return 100, self.formed(by)
        done = [self.formed(by)] if by.random() < 0.3 else []
        data, more = damaged(by, path.read_bytes())
        if by.random() < 0.25:
            log, more = damaged_log(by, data, b'')
            pathlib.Path(self.store + LOG).write_bytes(log)
        else:
            path.write_bytes(data)
        return 4_096 * len(more), [*done, *more]

    def formed(self, by):
        """The same rows in a file of another form, or with another schema."""
        with contextlib.closing(sqlite3.connect(self.store, isolation_level=None)) as base:
            kind, done = by.random(), ''
            with contextlib.suppress(sqlite3.Error):
                if kind < 0.35:
                    done = by.choice(SCHEMAS)
                    base.execute(done)
                elif kind < 0.65:
                    done = by.choice(FORMS)
                    base.executescript(done)
                elif kind < 0.9:
                    done = by.choice(TABLES)
                    base.executescript(f'ALTER TABLE kept RENAME TO old; {done}; INSERT INTO kept SELECT * FROM old; DROP TABLE old')
                else:
                    done = 'UTF-16'
                    self.in_other_encoding(base)
        return done

    def in_other_encoding(self, base):
        rows = base.execute('SELECT kind, no, body FROM kept').fetchall()
        base.close()
        remove(self.store)
        with contextlib.closing(sqlite3.connect(self.store)) as other:
            other.execute('PRAGMA encoding = "UTF-16le"')
            other.execute(MADE)
            other.executemany('INSERT INTO kept VALUES (?, ?, ?)', rows)
            other.commit()

    def rows_changed(self, by):
        size, done = 0, []
        with contextlib.closing(sqlite3.connect(self.store)) as base:
            rows = base.execute('SELECT rowid, kind, no, body FROM kept').fetchall()
            bodies = [body.encode() for *_, body in rows]
            for _ in range(by.choice([1, 1, 1, 2, 4])):
                with contextlib.suppress(sqlite3.Error, OverflowError):
                    size += self.row_changed(by, base, rows, bodies, done)
            base.commit()
        return size + 20, done

    @staticmethod
    def row_changed(by, base, rows, bodies, done):
        row, kind, no, body = by.choice(rows)
        what = by.random()
        if what < 0.55:
            new = other_body(by, body, bodies)
            base.execute('UPDATE kept SET body = CAST(? AS TEXT) WHERE rowid = ?', (new, row))
            done.append(f'body of {kind} {no}: {new[:300]!r}')
            return len(new)
        if what < 0.65:
            new = by.choice([None, 5, 1.5, body.encode(), b'', '', by.choice(NUMBERS).decode()])
            base.execute(f'UPDATE kept SET {by.choice(["body", "body", "kind", "no"])} = ? WHERE rowid = ?', (new, row))
            done.append(f'{kind} {no} with {new!r:.100}')
        elif what < 0.75:
            base.execute('DELETE FROM kept WHERE rowid = ?', (row,))
            done.append(f'without {kind} {no}')
        elif what < 0.85:
            other = by.choice([(kind, by.choice(PLACES)), (by.choice(KINDS), no), (kind, no + 1)])
            base.execute('UPDATE kept SET kind = ?, no = ? WHERE rowid = ?', (*other, row))
            done.append(f'{kind} {no} as {other}')
        elif what < 0.95:
            other = by.choice([(kind, by.choice(PLACES)), (by.choice(KINDS), no), (kind, no + 1)])
            base.execute('INSERT INTO kept VALUES (?, ?, ?)', (*other, by.choice([body, by.choice(rows)[3]])))
            done.append(f'{kind} {no} also as {other}')
        else:
            base.execute('DELETE FROM kept WHERE kind = 10')
            base.execute('UPDATE kept SET body = replace(body, \'"format":2\', \'"format":1\') WHERE kind = 2')
            done.append('first format')
        return len(body)

    def tried(self, store, sent, plan):
        held = copied(store, f'{self.room}/rows-held')
        before, rows, sound = contents(held), self.rows(held), self.is_sound(held)
        ran = run(self.program, held, ['exec'])
        self.seen[ran.status] = self.seen.get(ran.status, 0) + 1
        told = {0: not ran.out, 4: not ran.out, 5: KEPT.fullmatch(ran.out)}
        if ran.told not in (b'', b'store\n' if ran.status == 4 else b'') or not told.get(ran.status):
            raise Wrong(f'opening: status {ran.status}, {ran.out[:100]!r} and {ran.told[-2_000:]!r}')
        # (a log without a commit says nothing, and may be made anew; one with commits is copied into a file that was opened)
        (file, log), (file_before, log_before) = contents(held), before
        if ran.status and (file != file_before or committed(log) != committed(log_before)) and not (
                ran.status == 5 and committed(log_before) and rows is not None and self.rows(held) == rows):
            raise Wrong(f'opening ended with {ran.status}, and the file is not as it was')
        if not ran.status:
            self.used(held, rows, sound, sent)

    @staticmethod
    def rows(held):
        """The rows as C SQLite reads them, or None where it can't."""
        try:
            return rows_of(held)
        except (sqlite3.Error, UnicodeDecodeError):
            return None

    def is_sound(self, held):
        """Whether C SQLite finds nothing wrong with the file."""
        copy = copied(held, f'{self.room}/rows-sound')
        try:
            with contextlib.closing(sqlite3.connect(copy)) as base:
                return base.execute('PRAGMA integrity_check').fetchall() == [('ok',)]
        except (sqlite3.Error, UnicodeDecodeError):
            return False

    def used(self, held, rows, sound, sent):
        """A file that was opened has the rows that it had, or those in the second format, and can be used."""
        after = self.rows(held)
        if rows and (1, 0) in [row[:2] for row in rows]:
            moved = [row for row in after or [] if row[0] not in (2, 10)] == [row for row in rows if row[0] not in (2, 10)]
            first = any('"format":1' in body for kind, _, body in rows if kind == 2)
            if after != rows and not (moved and first):
                raise Wrong('opening changed rows')
        elif rows is None:
            raise Wrong('a file is opened that SQLite can\'t read')
        asked, status = asked_in(sent)
        replies_in(run(self.program, held, ['exec'], sent), asked, status)
        out = run(self.program, held, ['export'])
        if out.status or not out.out.startswith(b'key,external,project'):
            raise Wrong(f'export: status {out.status} and {out.told!r}')
        if self.rows(held) is None or (sound and not self.is_sound(held)):
            raise Wrong('SQLite finds the file damaged after the tracker has written it')
