"""What shows on a terminal and what in a pipe: widths, colours, signs that a terminal would obey, and a reader that goes."""
import os
import subprocess
import sys
import unittest

from harness import PEOPLE, Served, width_of
from vug_parts import charts, tables, terminal


class OnTerminal(Served):

    def setUp(self):
        super().setUp()
        self.post(*({'call': 'create', 'project': 'OPS', 'type': 'Task', 'summary': f'Die Größe des Schlüssels 鍵 {at} muss noch einmal geprüft werden',
                     'set': {'assignee': 'anna', 'points': '2.5', 'due': '2026-12-31', 'labels': ['ü']}} for at in range(3)))

    def test_widths(self):
        """No line is wider than the terminal, however narrow it is."""
        self.post({'call': 'save_filter', 'name': 'all', 'jql': ''}, {'call': 'make_board', 'name': 'all', 'filter': 1})
        for columns, words in ((120, ['list']), (60, ['list']), (24, ['list']), (12, ['list']), (100, ['board', '1']), (30, ['board', '1']), (24, ['show', 'OPS-1'])):
            ran = self.on_terminal(*words, columns=columns)
            self.assertEqual(ran.status, 0, ran.out)
            widest = max(map(width_of, ran.out.splitlines()))
            self.assertLessEqual(widest, columns, ran.out)
            self.assertIn('OPS-1', ran.out)

    def test_colours(self):
        self.assertIn('\033[33mOPS-1', self.on_terminal('list').out)
        self.assertNotIn('\033', self.on_terminal('list', env={'NO_COLOR': '1'}).out)
        self.assertNotIn('\033', self.on_terminal('list', env={'TERM': 'dumb'}).out)
        self.assertNotIn('\033', self.on_terminal('list', '--colour', 'never').out)
        self.assertNotIn('\033', self.good('list'))
        self.assertIn('\033[33mOPS-1', self.good('list', '--color', 'always'))

    def test_a_pipe_is_not_cut(self):
        self.assertIn('muss noch einmal geprüft werden', self.good('list'))
        self.assertLessEqual(max(map(width_of, self.good('list', env={'COLUMNS': '40'}).splitlines())), 40)

    def test_a_reader_that_goes(self):
        running = subprocess.Popen([sys.executable, str(PEOPLE / 'vug'), 'list'], stdout=subprocess.PIPE, stderr=subprocess.PIPE,
                                   env=self.environment)
        running.stdout.close()
        self.assertEqual((running.stderr.read(), running.wait()), (b'', 141))
        running.stderr.close()

    def test_an_output_that_is_no_utf_8(self):
        ran = subprocess.run([sys.executable, str(PEOPLE / 'vug'), 'list'], stdout=subprocess.PIPE, stderr=subprocess.PIPE,
                             env={**self.environment, 'PYTHONIOENCODING': 'ascii'}, check=True)
        self.assertIn(b'Gr??e', ran.stdout)

    def test_words_that_are_no_utf_8(self):
        ran = subprocess.run([sys.executable, str(PEOPLE / 'vug'), 'new', 'OPS', 'Task', b'Gr\xf6sse'], stdout=subprocess.PIPE, stderr=subprocess.PIPE,
                             env=self.environment)
        self.assertEqual((ran.returncode, ran.stdout, ran.stderr), (2, b'', b'vug: what was given is no UTF-8\n'))

    def test_signs_that_a_terminal_obeys(self):
        self.post({'call': 'create', 'project': 'OPS', 'type': 'Task', 'summary': 'a\x9b31mred\u202etxt\x7f'})
        for words in (['list'], ['show', 'OPS-4']):
            came = self.good(*words)
            self.assertIn('a\ufffd31mred\ufffdtxt\ufffd', came)
        self.assertIn('red\u202etxt', self.good('show', 'OPS-4', '--json'))


class Parts(unittest.TestCase):
    """Parts that need no tracker."""

    def test_widths_of_characters(self):
        self.assertEqual([terminal.width(text) for text in ('abc', 'ü', 'u\u0308', '鍵', '\u200b', '')], [3, 1, 1, 2, 0, 0])

    def test_cut(self):
        self.assertEqual([terminal.cut('abcdef', room) for room in (6, 5, 1, 0)], ['abcdef', 'abcd…', '…', ''])
        self.assertEqual(terminal.cut('鍵鍵鍵', 5), '鍵鍵…')
        self.assertEqual(terminal.cut('鍵鍵鍵', 4), '鍵…')

    def test_wrapped(self):
        self.assertEqual(terminal.wrapped('one two three', 7), ['one two', 'three'])
        self.assertEqual(terminal.wrapped('abcdefgh ij', 3), ['abc', 'def', 'gh', 'ij'])

    def test_fitted_tables_are_never_wider(self):
        columns = [tables.Column('KEY'), tables.Column('STATUS', cuts=True), tables.Column('POINTS', right=True), tables.Column('SUMMARY', cuts=True)]
        rows = [['OPS-12345', 'In Progress', '12.5', 'x' * 200], ['OPS-1', 'Open', '', 'y']]
        for room in range(1, 260):
            rooms = tables.fitted(columns, rows, range(4), room, True)
            if room > 12:
                self.assertLessEqual(sum(rooms.values()) + 2 * (len(rooms) - 1), room)
            self.assertTrue(all(wide > 0 for wide in rooms.values()))

    def test_points(self):
        self.assertEqual([charts.points(it) for it in (0, 3000, 3500, -1250, 1)], ['0', '3', '3.5', '-1.25', '0.001'])
        self.assertEqual(charts.points(500, True), '+0.5')

    def test_chart(self):
        rows = [{'at': 1_709_600_000 + 86_400 * at, 'left': 8_000 - 1_000 * at} for at in range(9)]
        lines = charts.burndown(8_000, rows, 40, True)
        self.assertEqual(len(lines), 10)
        self.assertTrue(all(terminal.width(line) <= 40 for line in lines))
        self.assertEqual(lines[0], '8 │█████')
        self.assertTrue(lines[7].rstrip().endswith('████'))
        plain = charts.burndown(8_000, rows, 40, False)
        self.assertTrue(all(line.isascii() for line in plain))

    def test_chart_without_time(self):
        rows = [{'at': 5, 'left': left} for left in (3_000, 2_000, 0)]
        self.assertEqual(len(charts.burndown(1_000, rows, 20, True)), 10)
        self.assertEqual(len(charts.burndown(0, [{'at': 5, 'left': 0}], 20, True)), 10)


if __name__ == '__main__':
    unittest.main()
