"""Each refusal in words, with a status of its own."""
import json
import stat
import unittest

from harness import Served


class Refusals(Served):

    def setUp(self):
        super().setUp()
        self.good('new', 'OPS', 'Task', 'Fix login')
        self.good('new', 'OPS', 'Task', 'Second')

    def test_1_a_request_that_is_none(self):
        self.one_line(21, 'an issue has no place beside itself', 'move', 'OPS-1', 'before', 'ops-1')
        self.one_line(21, 'external id has 1 to 64', 'new', 'OPS', 'Task', 'x', '--external', 'ü')
        self.one_line(21, 'a name has 1 to 100 bytes', 'save-filter', 'x' * 101, '')
        self.one_line(21, 'limit is missing, or is nothing that the call search takes', 'call', 'search', 'jql=', 'limit=5')

    def test_2_unknown_names(self):
        self.one_line(22, 'there is no issue OPS-9', 'show', 'OPS-9')
        self.one_line(22, 'there is no project WEB', 'new', 'WEB', 'Task', 'x')
        self.one_line(22, 'there is no transition Close', 'do', 'OPS-1', 'Close')
        self.one_line(22, 'there is no field colour', 'set', 'OPS-1', 'colour=red')
        self.one_line(22, 'there is no filter 7', 'filter', '7')
        self.one_line(22, 'there is no board 7', 'board', '7')
        self.one_line(22, 'there is no sprint 7', 'burndown', '7')
        self.one_line(22, 'there is no group staff', 'group', 'staff', 'anna')
        self.one_line(22, 'there is no user zed in this tracker, as whom it is asked', 'list', '--user', 'zed')

    def test_3_permissions(self):
        self.one_line(23, 'cy does not have the permission edit in OPS', '--user', 'cy', 'set', 'OPS-1', 'points=1')
        self.one_line(23, 'bo does not have the permission administer\n', '--user', 'bo', 'group', 'guests', 'bo')
        self.one_line(23, 'cy does not have the permission plan\n', '--user', 'cy', 'make-sprint', 'x')

    def test_4_conditions(self):
        self.one_line(24, 'Finish does not lead from the status that OPS-1 has', 'do', 'OPS-1', 'Finish')
        self.good('do', 'OPS-1', 'Start')
        self.one_line(24, 'condition 1 of Finish is not met', 'do', 'OPS-1', 'Finish', '--user', 'bo')

    def test_5_validators(self):
        self.good('do', 'OPS-1', 'Start')
        ran = self.vug('do', 'OPS-1', 'Finish')
        self.assertEqual((ran.status, ran.err.count('\n')), (25, 1))
        self.assertRegex(ran.err, 'validator 1 of Finish is not met|Finish wants points')

    def test_6_values(self):
        self.one_line(26, "points cannot be 'many': it is a number", 'set', 'OPS-1', 'points=many')
        self.one_line(26, "type cannot be 'Story': it is no type", 'new', 'OPS', 'Story', 'x')
        self.one_line(26, "summary cannot be '': it has 1 to 255 bytes", 'new', 'OPS', 'Task', '')
        self.one_line(26, "a status changes by `vug do KEY TRANSITION` alone", 'set', 'OPS-1', 'status=Done')

    def test_7_queries(self):
        self.assertEqual(self.bad(27, '', 'list', 'status ~~ ü'), 'vug: the query: this cannot stand here, or the query ends too early\n'
                         '    status ~~ ü\n            ^\n')
        self.assertEqual(self.bad(27, '', 'list', 'summary ~ "ü" AND ('), 'vug: the query: this cannot stand here, or the query ends too early\n'
                         '    summary ~ "ü" AND (\n                       ^\n')
        self.one_line(27, 'comparison 2 of the query: there is no such field', 'list', 'status = Open AND colour = red')

    def test_8_no_room(self):
        """Each move halves the room behind the first issue."""
        self.post({'call': 'create', 'project': 'OPS', 'type': 'Task', 'summary': 'Third'})
        moves = [{'call': 'move_after', 'issue': f'OPS-{2 + at % 2}', 'other': 'OPS-1'} for at in range(1_600)]
        replies = self.post(*moves)
        full = next(at for at, reply in enumerate(replies) if 'refused' in reply)
        self.one_line(28, 'no rank is left between the two', 'move', f'OPS-{2 + full % 2}', 'after', 'OPS-1')

    def test_9_states_of_sprints(self):
        self.good('make-sprint', 'x')
        self.one_line(29, 'the sprint is future', 'close-sprint', '1')
        self.good('start-sprint', '1')
        self.good('close-sprint', '1')
        self.one_line(29, 'the sprint is closed, and no issue comes into it', 'set', 'OPS-1', 'sprint=1')

    def test_10_limits(self):
        self.post(*({'call': 'save_filter', 'name': str(at), 'jql': ''} for at in range(200)))
        self.one_line(30, 'the tracker is full: it has 200 saved filters', 'save-filter', 'one more', '')

    def test_11_the_clock(self):
        program = self.pretender({'refused': {'kept': 4_000_000_000, 'no': 11}})
        self.one_line(31, 'the tracker\'s clock is at 2096-10-02 07:06, and never goes back', 'tick', '2024-01-01', '--file', ':memory:', '--program', program)

    def test_12_rebalancing(self):
        self.one_line(32, 'no rebalancing is under way', 'call', 'rebalance_step', 'count=1')
        self.good('call', 'rebalance_start')
        self.one_line(32, 'a rebalancing is under way', 'call', 'rebalance_start')

    def test_13_external_ids(self):
        self.good('new', 'OPS', 'Task', 'x', '--external', 'X-1')
        self.one_line(33, 'X-1 is OPS-3 already', 'new', 'OPS', 'Bug', 'x', '--external', 'X-1')

    def test_14_and_15_by_a_program_that_tells_them(self):
        for number, words in ((14, 'what keeps the tracker\'s rows failed'), (15, 'had not enough memory')):
            self.one_line(20 + number, words, 'set', 'OPS-1', 'points=1', '--file', ':memory:', '--program', self.pretender({'refused': {'no': number}}))

    def test_numbers_that_are_not_known_yet(self):
        self.one_line(36, "the tracker refused: {'no': 16}", 'set', 'OPS-1', 'points=1', '--file', ':memory:', '--program', self.pretender({'refused': {'no': 16}}))

    def pretender(self, reply):
        """A program that answers each line so."""
        program = self.room / 'pretender'
        program.write_text(f'#!/bin/sh\nwhile read -r line; do echo {json.dumps(json.dumps(reply))}; done\n')
        program.chmod(program.stat().st_mode | stat.S_IXUSR)
        return program


if __name__ == '__main__':
    unittest.main()
