"""Each command, over HTTP, and all of them once over a file."""
import json
import unittest

from harness import NEW, Case, Served


class OverHttp(Served):
    """The commands, to the program itself."""

    def issues(self):
        """Three issues, of which one is done."""
        self.good('new', 'OPS', 'Task', 'Fix login', 'points=3', 'labels=web,ui', 'due=2026-12-31', 'assignee=@me', 'priority=high')
        self.good('new', 'ops', 'bug', 'Crash on start', 'description=two\nlines')
        self.good('new', 'OPS', 'Task', 'Größe der Schlüssel', 'description=ß')
        self.good('do', 'OPS-1', 'Start')
        self.good('do', 'OPS-1', 'finish')

    def test_new_tells_the_key(self):
        self.assertEqual(self.good('new', 'OPS', 'Task', 'Fix login'), 'OPS-1\n')

    def test_new_with_an_external_id_makes_one_issue(self):
        self.assertEqual(self.good('new', 'OPS', 'Task', 'Fix login', '--external', 'X-1'), 'OPS-1\n')
        again = self.vug('new', 'OPS', 'Task', 'Fix login', '--external', 'X-1')
        self.assertEqual((again.status, again.out, again.err), (0, 'OPS-1\n', 'vug: X-1 was there already\n'))

    def test_list_without_a_query(self):
        self.issues()
        self.assertEqual(self.good('list'), '''KEY    STATUS  TYPE  ASSIGNEE  PRIORITY  POINTS  DUE         SUMMARY
OPS-1  Done    Task  anna      High           3  2026-12-31  Fix login
OPS-2  Open    Bug                                           Crash on start
OPS-3  Open    Task                                          Größe der Schlüssel
''')

    def test_list_of_a_query_in_one_word_or_several(self):
        self.issues()
        for words in (['status = Done'], ['status', '=', 'Done'], ['status WAS "In Progress" BY anna']):
            self.assertEqual(self.good('list', *words).split()[8:9], ['OPS-1'])

    def test_list_of_fields(self):
        self.issues()
        self.assertEqual(self.good('list', '--fields', 'summary,Labels,fixversion', 'key = OPS-1'), 'KEY    SUMMARY    LABELS\nOPS-1  Fix login  ui, web\n')

    def test_list_tells_what_is_left_out(self):
        self.issues()
        ran = self.vug('list', '-n', '1', 'ORDER BY key')
        self.assertEqual((ran.status, ran.err), (0, 'vug: 1 of 3 issues; -n 0 shows all\n'))
        self.assertEqual(len(self.good('list', '-n', '0').splitlines()), 4)

    def test_list_of_many_issues(self):
        self.post(*({'call': 'create', 'project': 'OPS', 'type': 'Task', 'summary': f'number {at}'} for at in range(1, 251)))
        self.assertEqual(len(json.loads(self.good('list', '-n', '0', '--json'))), 250)
        self.assertEqual(len(json.loads(self.good('list', '-n', '120', '--json'))), 120)

    def test_list_of_nothing(self):
        self.assertEqual(self.good('list'), '')

    def test_list_as_json(self):
        self.issues()
        found = json.loads(self.good('list', '--json'))
        self.assertEqual([it['issue'] for it in found], ['OPS-1', 'OPS-2', 'OPS-3'])
        self.assertEqual(found[2]['fields']['summary'], 'Größe der Schlüssel')

    def test_show(self):
        self.issues()
        lines = self.good('show', 'ops-2').splitlines()
        self.assertEqual(lines[:4], ['OPS-2  Crash on start', 'type      Bug', 'status    Open', 'reporter  anna'])
        self.assertEqual(lines[-3:], ['', '    two', '    lines'])
        shown = json.loads(self.good('show', 'OPS-1', '--json'))
        self.assertEqual(shown['fields']['labels'], ['ui', 'web'])

    def test_set(self):
        self.issues()
        self.assertEqual(self.good('set', 'OPS-2', 'points=0.5', 'fixVersion=1.1,1.0', 'labels=["a,b"]'), 'OPS-2  change 6\n')
        self.assertEqual(self.good('set', 'OPS-2', 'points=0.50'), 'OPS-2  nothing differs\n')
        self.assertEqual(self.good('set', 'OPS-2', 'points='), 'OPS-2  change 7\n')
        fields = json.loads(self.good('show', 'OPS-2', '--json'))['fields']
        self.assertEqual((fields.get('points'), fields['fixVersion'], fields['labels']), (None, ['1.0', '1.1'], ['a,b']))

    def test_do(self):
        self.issues()
        self.assertEqual(self.good('do', 'OPS-2', 'Start'), 'OPS-2  change 6\n')
        self.assertEqual(self.good('do', 'OPS-2', 'Review'), 'OPS-2  change 7\n')
        self.assertEqual(self.good('do', 'OPS-2', 'Finish', 'points=1', '--json'), '{"change": 8, "issue": "OPS-2"}\n')

    def test_log(self):
        self.issues()
        told = self.good('log', 'OPS-1')
        self.assertRegex(told, r'^change 5  ....-..-.. ..:..  anna\n    status      In Progress -> Done\n    resolution  \(empty\) -> Fixed\n')
        self.assertRegex(told, r'\ncreated  ....-..-.. ..:..\n$')
        self.assertRegex(self.good('log', 'OPS-1', '--oldest'), r'^created  ')
        self.assertEqual([it['change'] for it in json.loads(self.good('log', 'OPS-1', '--json'))], [5, 5, 4])

    def test_log_of_many_changes(self):
        self.good('new', 'OPS', 'Task', 'Fix login')
        self.post(*({'call': 'edit', 'issue': 'OPS-1', 'set': {'points': str(at)}} for at in range(1, 121)))
        self.assertEqual(len(json.loads(self.good('log', 'OPS-1', '--json'))), 120)

    def test_move(self):
        self.issues()
        self.assertEqual(self.good('move', 'OPS-3', 'before', 'OPS-1'), 'OPS-3  before OPS-1\n')
        self.assertEqual(self.good('move', 'OPS-1', 'after', 'OPS-2'), 'OPS-1  after OPS-2\n')
        self.assertEqual([it['issue'] for it in json.loads(self.good('list', '--json', 'ORDER BY rank'))], ['OPS-3', 'OPS-2', 'OPS-1'])

    def test_filters_and_boards(self):
        self.issues()
        self.assertEqual(self.good('save-filter', 'open work', 'resolution = Unresolved', 'ORDER BY key DESC'), 'filter 1  2 issues\n')
        self.assertEqual([it['issue'] for it in json.loads(self.good('filter', '1', '--json'))], ['OPS-3', 'OPS-2'])
        self.assertEqual(self.good('save-filter', 'all', ''), 'filter 2  3 issues\n')
        self.assertEqual(self.good('make-board', 'team', '2'), 'board 1\n')
        self.assertEqual(self.good('board', '1'), '''Open (2)
OPS-2  Crash on start
OPS-3  Größe der Schlüssel

In Progress (0)

In Review (0)

Done (1)
OPS-1  anna  3  Fix login
''')
        self.assertEqual([it['status'] for it in json.loads(self.good('board', '1', '--json'))], ['Open', 'In Progress', 'In Review', 'Done'])
        self.assertEqual(self.good('drop-board', '1'), 'board 1 is gone\n')
        self.assertEqual(self.good('drop-filter', '2'), 'filter 2 is gone\n')

    def test_sprints_and_burndown(self):
        self.issues()
        self.assertEqual(self.good('make-sprint', 'March, first half'), 'sprint 1\n')
        self.good('set', 'OPS-2', 'sprint=1', 'points=2.5')
        self.assertEqual(self.good('start-sprint', '1'), 'sprint 1 is active\n')
        self.good('set', 'OPS-2', 'points=4')
        self.assertEqual(self.good('burndown', '1').splitlines()[0], 'sprint 1, active: 4 left of 2.5')
        self.assertRegex(self.good('burndown', '1', '--rows'), r'\n\d{4}-\d\d-\d\d \d\d:\d\d  OPS-2  \+1\.5     4\n')
        self.assertEqual(json.loads(self.good('burndown', '1', '--json'))['left'], 4000)
        ran = self.vug('sprints')
        self.assertEqual((ran.status, ran.out.splitlines()[1].split()[0]), (0, '1'))
        self.assertEqual(self.good('close-sprint', '1'), 'sprint 1 is closed\n')

    def test_group(self):
        self.assertEqual(self.good('group', 'guests', 'cy', 'bo'), 'guests has 2 members\n')
        self.one_line(2, 'nobody would be left', 'group', 'guests')
        self.assertEqual(self.good('group', 'guests', '--yes'), 'guests has 0 members\n')

    def test_call(self):
        self.issues()
        self.assertEqual(self.good('call', 'search', 'jql=ORDER BY key DESC', 'count=1'), '{"issues":["OPS-3"],"total":3}\n')
        self.one_line(2, 'no MEMBER=JSON', 'call', 'search', 'jql')
        self.one_line(2, 'user is no member', 'call', 'search', 'user=root')

    def test_where(self):
        self.assertIn('it answers', self.good('where'))
        self.assertEqual(json.loads(self.good('where', '--json'))['user'], 'anna')

    def test_calls_that_the_tracker_may_not_know(self):
        """The lists of filters and boards are told where the tracker knows their calls, and what is missing in one line where it doesn't."""
        self.issues()
        self.good('save-filter', 'all', '')
        for command in ('filters', 'boards'):
            ran = self.vug(command)
            if ran.status:
                self.assertEqual((ran.status, ran.out, ran.err.count('\n')), (6, '', 1))
                self.assertIn(f'does not know the call {command}', ran.err)

    def test_options_before_and_behind_the_command(self):
        self.issues()
        self.assertEqual(self.good('--json', 'list'), self.good('list', '--json'))
        self.assertIn('bo', self.good('--user', 'bo', 'where'))


class OverFile(Case):
    """The same commands in one run of a day, over a file."""

    def test_a_day(self):
        setup = self.room / 'team.toml'
        setup.write_text(NEW, encoding='utf-8')
        self.one_line(3, 'there is no file', 'list')
        self.assertEqual(self.good('init', setup), f'{self.file} is a new tracker\n')
        self.one_line(3, 'is there already', 'init', setup)
        self.assertEqual(self.good('new', 'OPS', 'Task', 'Größe', 'points=1'), 'OPS-1\n')
        self.assertRegex(self.good('show', 'OPS-1'), r'created   20[2-9]\d-')
        self.assertEqual(self.good('do', 'OPS-1', 'Start'), 'OPS-1  change 2\n')
        self.assertIn('OPS-1  In Progress  Task  anna', self.good('list', 'status = "In Progress"'))
        self.one_line(22, 'there is no issue OPS-7', 'show', 'OPS-7')


class Setups(Case):
    """init, of bad setups."""

    def test_faults_in_words(self):
        for setup, words in (('users = 3', 'the setup lacks utc_offset_minutes'), ('x', 'the setup is no TOML'),
                             (NEW.replace('"High"', '"Low"'), 'the setup has twice Low')):
            self.one_line(3, words, 'init', '-', '--file', ':memory:', given=setup.encode())
        self.one_line(3, 'cannot be read: No such file', 'init', self.room / 'nowhere')
        self.one_line(2, 'init makes a file', 'init', 'x', env={'VUG_FILE': '', 'VUG_URL': 'http://127.0.0.1:1'})


if __name__ == '__main__':
    unittest.main()
