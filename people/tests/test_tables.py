"""import and export: what spreadsheets save, and what each row came to."""
import csv
import io
import json
import stat
import unittest

from harness import Case, Served
from vug_parts import sheet_columns, spreadsheets

GERMAN = '''ID;Projekt;Typ;Titel;Bearbeiter;Priorität;Punkte;Fällig am;Stichwörter;Beschreibung;Notiz\r
A-1;OPS;Task;Tür ölen;bo;High;1,5;31.12.2026;tür,öl;"Zeile 1\r
Zeile 2";x\r
A-2;OPS;Task;Schlüssel;;;1.000,50;1.2.27;;;\r
;;;;;;;;;;\r
A-3;OPS;Story;Ohne Typ;;;;;;;\r
A-4;OPS;Task;Kein Tag;;;;31.02.2027;;;\r
A-5;OPS;Task;Kein Punkt;;;1.5;;;;\r
A-6;OPS;Task;;;;;;;;\r
'''


class Importing(Served):

    def table(self, text, encoding='cp1252'):
        path = self.room / 'tabelle.csv'
        path.write_bytes(text.encode(encoding) if isinstance(text, str) else text)
        return path

    def test_what_a_german_excel_saves(self):
        ran = self.vug('import', self.table(GERMAN))
        self.assertEqual(ran.status, 5, ran.err)
        self.assertEqual(ran.out.splitlines(), [
            'line 2: new OPS-1: Tür ölen', 'line 4: new OPS-2: Schlüssel',
            "line 6: not taken: type cannot be 'Story': it is no type of this tracker",
            "line 7: not taken: due cannot be '2027-02-31': it is a day from 1970 to 2099, as 2025-12-31",
            "line 8: not taken: points: '1.5' is no number with a decimal comma", 'line 9: not taken: it has no summary'])
        self.assertEqual(ran.err.splitlines(), [
            'vug: 6 rows, Windows-1252, semicolons between cells', 'vug: columns that are not taken: Notiz (--map COLUMN=FIELD takes one)',
            'vug: 2 new, 0 there already, 4 not taken'])
        first, second = (json.loads(self.good('show', key, '--json'))['fields'] for key in ('OPS-1', 'OPS-2'))
        self.assertEqual((first['points'], first['due'], first['labels'], first['description']), ('1.5', '2026-12-31', ['tür', 'öl'], 'Zeile 1\nZeile 2'))
        self.assertEqual((second['points'], second['due']), ('1000.5', '2027-02-01'))

    def test_a_second_run_goes_on(self):
        self.vug('import', self.table(GERMAN))
        mended = GERMAN.replace('Story', 'Bug').replace('31.02.', '28.02.').replace(';1.5;', ';1,5;').replace('A-6;OPS;Task;;', 'A-6;OPS;Task;Da;')
        ran = self.vug('import', self.table(mended))
        self.assertEqual((ran.status, ran.err.splitlines()[-1]), (0, 'vug: 4 new, 2 there already, 0 not taken'))
        self.assertEqual(ran.out.splitlines()[0], 'line 2: there already OPS-1: Tür ölen')

    def test_without_ids(self):
        """Rows without an id get one by what they are, and how many such rows came before."""
        table = self.table('summary,points\nx,1\nx,2\ny,\n', 'utf-8')
        words = ('import', table, '--project', 'OPS', '--type', 'Task')
        self.assertEqual(self.vug(*words).err.splitlines()[-1], 'vug: 3 new, 0 there already, 0 not taken')
        table.write_text('summary,points\nw,\nx,1\nx,2\ny,\n', encoding='utf-8')
        self.assertEqual(self.vug(*words).out.splitlines(),
                         ['line 2: new OPS-4: w', 'line 3: there already OPS-1: x', 'line 4: there already OPS-2: x', 'line 5: there already OPS-3: y'])

    def test_another_row_with_the_same_id(self):
        ran = self.vug('import', self.table('ID,Summary\n1,a\n1,b\n'), '--project', 'OPS', '--type', 'Task')
        self.assertEqual(ran.out.splitlines()[1], 'line 3: not taken: 1 is OPS-1 already, which was made in another project or with another type or summary')

    def test_encodings(self):
        for encoding, told in (('utf-8', 'UTF-8'), ('utf-8-sig', 'UTF-8'), ('utf-16', 'UTF-16'), ('cp1252', 'Windows-1252')):
            ran = self.vug('import', self.table('Titel\nÄ\n', encoding), '--project', 'OPS', '--type', 'Task')
            self.assertIn(f'vug: 1 rows, {told}, ', ran.err)
            self.assertRegex(ran.out, r'^line 2: (new|there already) OPS-1: Ä\n$')

    def test_mapping_and_dry_run(self):
        table = self.table('Nr;Was;Wann;Menge\n7;x;1.1.2027;2,5\n')
        ran = self.vug('import', table, '--project', 'OPS', '--type', 'Task', '--map', 'Was=summary', '--map', 'Wann=due', '--map', 'Menge=', '--dry-run')
        self.assertEqual(ran.out, 'line 2: new: {"external": "7", "summary": "x", "project": "OPS", "type": "Task", "set": {"due": "2027-01-01"}}\n')
        self.assertIn('columns that are not taken: Menge', ran.err)
        self.assertEqual(self.good('list'), '')

    def test_json(self):
        ran = self.vug('import', self.table('Titel\nx\n'), '--project', 'OPS', '--type', 'Task', '--json')
        self.assertEqual(json.loads(ran.out), {'line': 2, 'what': 'new', 'issue': 'OPS-1', 'words': 'x'})

    def test_from_standard_input(self):
        ran = self.vug('import', '-', '--project', 'OPS', '--type', 'Task', given=b'summary\nx\n')
        self.assertEqual((ran.status, ran.out), (0, 'line 2: new OPS-1: x\n'))

    def test_what_is_no_table(self):
        for text, status, words in (('', 3, 'there is no line with the names of columns'), (b'PK\x03\x04', 3, 'is a workbook; save it as CSV'),
                                    ('a,b\n1,2\n', 2, 'there is no column project and no --project'), (b'a\n\x81\n', 3, 'line 2 is neither UTF-8 nor'),
                                    ('summary\n"x\n', 3, 'line 2: unexpected end of data')):
            self.one_line(status, words, 'import', self.table(text)) if status == 3 else self.assertIn(words, self.vug('import', self.table(text)).err)
        self.one_line(3, 'cannot be read: No such file', 'import', 'nowhere.csv')
        self.one_line(2, 'there is no encoding klingon', 'import', self.table('a\n'), '--encoding', 'klingon')
        self.one_line(2, 'the table has no column \'b\'', 'import', self.table('a\n1\n'), '--map', 'b=summary')

    def test_rows_that_are_too_long(self):
        ran = self.vug('import', self.table('summary\nx,y\n'), '--project', 'OPS', '--type', 'Task')
        self.assertEqual((ran.status, ran.out), (5, 'line 2: not taken: it has 2 cells, and there are 1 columns\n'))

    def test_a_user_who_is_none(self):
        """A refusal that each row would have ends the run."""
        ran = self.vug('import', self.table('summary\nx\ny\n'), '--project', 'OPS', '--type', 'Task', '--user', 'zed')
        self.assertEqual((ran.status, ran.out), (22, ''))
        # (told before the first row by a tracker that tells its setup)
        self.assertIn('there is no user zed', ran.err)

    def test_a_program_that_fails(self):
        program = self.room / 'pretender'
        program.write_text('#!/bin/sh\nread a; echo \'{"ok":{"moment":0}}\'; read a; echo \'{"ok":{"moment":9}}\'; read a; echo \'{"refused":{"member":"call","no":1}}\'\n'
                           'read a; echo \'{"ok":{"already":false,"change":1,"issue":"OPS-1"}}\'; read a; exit 6\n')
        program.chmod(program.stat().st_mode | stat.S_IXUSR)
        ran = self.vug('import', self.table('summary\nx\ny\n'), '--project', 'OPS', '--type', 'Task', '--file', ':memory:', '--program', program)
        self.assertEqual((ran.status, ran.out), (3, 'line 2: new OPS-1: x\n'))
        self.assertIn('line 3: :memory:: the program had not enough memory; 1 rows were taken before, and the same command goes on from there', ran.err)


class Dated(Case):
    """Over a file the clock is set first."""

    def test_issues_of_a_new_file_are_of_today(self):
        self.init()
        table = self.room / 'x.csv'
        table.write_text('Titel;Effort;Go-live;Severity\nx;-1,5;1.2.2027;high\n', encoding='utf-8')
        ran = self.vug('import', table, '--project', 'OPS', '--type', 'Task', '--map', 'Effort=Effort:number', '--map', 'Go-live=Go-live:date',
                       '--map', 'Severity=Severity')
        self.assertEqual((ran.status, ran.out), (0, 'line 2: new OPS-1: x\n'), ran.err)
        shown = json.loads(self.good('show', 'OPS-1', '--json'))
        self.assertGreater(shown['created'], 1_700_000_000)
        self.assertEqual({name: shown['fields'][name] for name in ('Effort', 'Go-live', 'Severity')}, {'Effort': '-1.5', 'Go-live': '2027-02-01', 'Severity': 'high'})

    def test_a_clock_years_ahead_needs_a_yes(self):
        """A machine whose clock is wrong would date all issues so, and nothing sets a tracker's clock back."""
        program = self.room / 'pretender'
        program.write_text('#!/bin/sh\nread a; echo \'{"refused":{"kept":946684800,"no":11}}\'\nwhile read a; do echo \'{"refused":{"no":14}}\'; done\n')
        program.chmod(0o755)
        table = self.room / 'x.csv'
        table.write_text('Titel\nx\n', encoding='utf-8')
        words = ('import', table, '--project', 'OPS', '--type', 'Task', '--file', ':memory:', '--program', program)
        ran = self.vug(*words)
        self.assertEqual((ran.status, ran.out), (2, ''))
        self.assertIn('years ahead of the tracker\'s, at 2000-01-01', ran.err)
        self.assertEqual(self.vug(*words, '--yes').status, 34)


class Exporting(Served):

    def test_csv(self):
        self.post({'call': 'create', 'project': 'OPS', 'type': 'Task', 'summary': 'a "b", c', 'set': {'points': '1.5', 'due': '2026-12-31', 'labels': ['x', 'y']}},
                  {'call': 'create', 'project': 'OPS', 'type': 'Bug', 'summary': '=1+1'})
        rows = list(csv.DictReader(io.StringIO(self.good('export'))))
        self.assertEqual((rows[0]['summary'], rows[0]['points'], rows[0]['labels'], rows[1]['summary']), ('a "b", c', '1.5', 'x, y', '=1+1'))
        self.assertEqual(self.good('export', '--fields', 'summary,due', 'type = Bug'), 'key,summary,due\r\nOPS-2,=1+1,\r\n')

    def test_excel_and_back(self):
        self.post({'call': 'create', 'project': 'OPS', 'type': 'Task', 'summary': 'Tür', 'set': {'points': '1.5', 'due': '2026-12-31'}},
                  {'call': 'create', 'project': 'OPS', 'type': 'Bug', 'summary': '=1+1'})
        path = self.room / 'out.csv'
        self.assertEqual(self.good('export', '--excel', '--fields', 'type,summary,points,due', '-o', path), '')
        self.assertEqual(path.read_bytes().decode(), "\ufeffkey;type;summary;points;due\r\nOPS-1;Task;Tür;1,5;31.12.2026\r\nOPS-2;Bug;'=1+1;;\r\n")
        ran = self.vug('import', path, '--project', 'OPS')
        self.assertEqual((ran.status, ran.err.splitlines()[-1]), (0, 'vug: 2 new, 0 there already, 0 not taken'))
        self.assertEqual(json.loads(self.good('show', 'OPS-3', '--json'))['fields']['points'], '1.5')

    def test_json_and_files_that_can_not_be_written(self):
        self.post({'call': 'create', 'project': 'OPS', 'type': 'Task', 'summary': 'x'})
        self.assertEqual(json.loads(self.good('export', '--json'))[0]['issue'], 'OPS-1')
        self.one_line(3, 'cannot be written', 'export', '-o', '/nowhere/x.csv')


class Parts(unittest.TestCase):
    """Cells."""

    def test_numbers(self):
        for cell, comma, wanted in (('1,5', True, '1.5'), ('1.234,50', True, '1234.5'), ('1.234', True, '1234'), ('-2', True, '-2'), ('1.5', False, '1.5'),
                                    ('1,234.5', False, '1234.5'), ('1\u00a0000,5', True, '1000.5'), ('10', True, '10')):
            self.assertEqual(spreadsheets.number(cell, comma), wanted)
        for cell, comma in (('1.5', True), ('1,5', False), ('x', True), ('1,2,3', True), ('1.23,4.5', True), ('', False)):
            with self.assertRaises(spreadsheets.Unfit):
                spreadsheets.number(cell, comma)

    def test_dates(self):
        for cell, order, wanted in (('31.12.2025', None, '2025-12-31'), ('1. 2. 25', None, '2025-02-01'), ('2025-12-31 00:00:00', None, '2025-12-31'),
                                    ('31/12/2025', None, '2025-12-31'), ('12/31/2025', None, '2025-12-31'), ('05/06/2025', 'dmy', '2025-06-05'),
                                    ('05/06/2025', 'mdy', '2025-05-06')):
            self.assertEqual(spreadsheets.date(cell, order), wanted)
        for cell in ('05/06/2025', 'morgen', '31.12.', '2025-12-31 14:00'):
            with self.assertRaises(spreadsheets.Unfit):
                spreadsheets.date(cell, None)

    def test_separators(self):
        for text, wanted in (('a;b\n', ';'), ('"a;b;c",d\n', ','), ('a\tb\n', '\t'), ('a\nb;c\n', ','), ('a b\n', ',')):
            self.assertEqual(spreadsheets.sniffed(text), wanted)
        sheet = spreadsheets.read(b'sep=;\r\nsummary;x\r\na;1\r\n')
        self.assertEqual((sheet.heads, sheet.rows), (['summary', 'x'], [(3, ['a', '1'])]))

    def test_own_fields_by_the_setup(self):
        setup = {'fields': [{'number': 10_001, 'name': 'Aufwand', 'kind': 'number'}, {'number': 12, 'name': 'points', 'kind': 'number'}]}
        self.assertEqual(sheet_columns.mapped(['Titel', 'aufwand', 'points'], [], setup),
                         ({0: ('summary', 'text'), 1: ('Aufwand', 'number'), 2: ('points', 'number')}, []))


if __name__ == '__main__':
    unittest.main()
