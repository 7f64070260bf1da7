"""Issues of Jira and GitHub with their past: what is written, what is left, and queries about the past of what was played."""
import json
import re
import subprocess
import unittest

from harness import DATA, PROGRAM, Case  # it puts the modules below on the path

from elsewhere import fitting, github, jira
from elsewhere.past import Bad, Left, rewound, unexplained
from elsewhere.replay import Replay


class Bringing(Case):

    def bring(self, *words, status=0):
        ran = self.started(*words, command='bring')
        self.assertEqual((ran.status, 'Traceback' in ran.err), (status, False), ran.err)
        return ran

    def finds(self, user, jql, keys):
        line = json.dumps({'user': user, 'call': 'search', 'jql': jql})
        self.asked.append((line, jql, keys))

    def asks(self, file):
        """Asks all at once, for a file takes its time to open."""
        ran = subprocess.run([PROGRAM, str(file), 'exec'], input='\n'.join(line for line, _, _ in self.asked).encode(), stdout=subprocess.PIPE, check=True)
        for (_, jql, keys), reply in zip(self.asked, ran.stdout.splitlines(), strict=True):
            self.assertEqual(json.loads(reply).get('ok', {}).get('issues'), keys, jql)

    def test_jira(self):
        self.asked = []
        told = self.bring('jira', 'out', DATA / 'jira.json').out
        self.assertIn('3 issues and 8 changes: out/lines.jsonl, for a tracker of out/setup.toml\nanna administers the tracker', told)
        counts = {words: int(number) for number, words in re.findall(r'^ *(\d+)  (.*)$', told, re.M)}
        self.assertEqual(counts, {
            'attachments': 1, 'changes of Sprint': 1, 'comments': 2, 'issues with another key here (the old one is their external id)': 1,
            'links to other issues': 1, 'values of Sprint': 1, 'values of components': 1, 'values of environment': 1})
        self.assertIn('            OPS-4 is OPS-3\n', (self.room / 'out/left.txt').read_text(encoding='utf-8'))
        self.assertIn('were played, and answered as they had to be', self.bring('play', 'out', self.file).out)
        for jql, keys in (('status WAS Done', ['OPS-2', 'OPS-3']), ('status WAS Done BY cwolf', ['OPS-2']), ('status = Done', ['OPS-3']),
                          ('status WAS "In Progress" ON 2024-03-05', ['OPS-3']), ('assignee WAS cwolf BEFORE 2024-03-05', ['OPS-2', 'OPS-3']),
                          ('status CHANGED FROM Done TO Open BY anna DURING (2024-03-02, 2024-03-03)', ['OPS-2']), ('fixVersion WAS "1.0"', ['OPS-3']),
                          ('fixVersion = "1.1"', ['OPS-3']), ('priority WAS Medium AND priority = High', ['OPS-3']), ('status WAS Open ON 2024-03-07', ['OPS-1', 'OPS-2']),
                          ('reporter = cwolf', ['OPS-2']), ('resolution WAS Done AND resolution IS EMPTY', ['OPS-2']), ('created < "2024-03-01 11:00"', ['OPS-1']),
                          ('summary ~ "Passwörtern" AND points = 3 AND labels = umlaut AND due = 2024-03-15', ['OPS-3'])):
            self.finds('anna', jql, keys)
        self.asks(self.file)
        refused = json.dumps({'user': 'anna', 'call': 'transition', 'issue': 'OPS-1', 'transition': 'Import: Done'})
        ran = subprocess.run([PROGRAM, str(self.file), 'exec'], input=refused.encode(), stdout=subprocess.PIPE, check=True)
        self.assertEqual(json.loads(ran.stdout), {'refused': {'index': 1, 'no': 4}})

    def test_github(self):
        self.asked = []
        told = self.bring('github', 'out', DATA / 'github.json', DATA / 'github_events.json', '--project', 'DESK', '--type', 'bug=Bug',
                          '--administrator', 'emil').out
        counts = {words: int(number) for number, words in re.findall(r'^ *(\d+)  (.*)$', told, re.M)}
        self.assertEqual(counts, {
            'comments': 3, 'descriptions that are told as they are now from the beginning on (GitHub gives no past of them)': 1, 'events "locked"': 1,
            'issues with another key here (the old one is their external id)': 3, 'labels with hyphens in the place of spaces': 1,
            'locks of conversations': 1, 'mentions by other issues': 1, 'people beside the one who has an issue': 1, 'pull requests': 1, 'reactions': 4})
        self.assertIn('were played', self.bring('play', 'out', self.file).out)
        for jql, keys in (('status WAS Closed', ['DESK-1', 'DESK-2', 'DESK-3']), ('status = Open', ['DESK-2']), ('status WAS Closed ON 2024-05-03', ['DESK-1', 'DESK-2']),
                          ('status CHANGED TO Open BY dora-k', ['DESK-2']), ('fixVersion WAS "1.0"', ['DESK-2']), ('resolution = "Not planned"', ['DESK-3']),
                          ('reporter = ghost', ['DESK-1']), ('type = Bug AND labels = good-first-issue', ['DESK-2']), ('assignee WAS emil BEFORE 2024-05-02', ['DESK-2'])):
            self.finds('emil', jql, keys)
        self.asks(self.file)

    def test_what_can_not_be_read(self):
        (self.room / 'x.json').write_text('{"issues": 3}', encoding='utf-8')
        (self.room / 'y.json').write_text('nonsense', encoding='utf-8')
        for words, told in ((['jira', 'out', 'nowhere.json'], 'cannot be read: No such file'), (['jira', 'out', 'x.json'], 'is no result of a search'),
                            (['jira', 'out', 'y.json'], 'is no JSON'), (['github', 'out', 'x.json', '--project', 'A'], '--project KEY names one'),
                            (['github', 'out', 'x.json', '--project', 'AB'], 'is no list of issues or events'), (['play', 'nowhere', 'x.db'], 'bring jira or bring github writes it')):
            ran = self.bring(*words, status=3)
            self.assertTrue(ran.err.startswith('bring: ') and ran.err.count('\n') == 1, ran.err)
            self.assertIn(told, ran.err)

    def test_a_file_that_is_there_is_left_alone(self):
        self.bring('jira', 'out', DATA / 'jira.json')
        self.file.write_bytes(b'x')
        self.assertIn('is there already', self.bring('play', 'out', self.file, status=3).err)
        self.assertEqual(self.file.read_bytes(), b'x')


class Parts(unittest.TestCase):
    """Parts that need no tracker."""

    def test_rewound(self):
        changes = [[('a', 1, 2)], [('a', 2, 3), ('b', None, 5)]]
        self.assertEqual(rewound({'a': 3, 'b': 5}, changes), {'a': 1, 'b': None})
        self.assertEqual(unexplained({'a': 3, 'b': 6}, {'a': 1, 'b': None}, changes), {'b': 6})

    def test_fitting(self):
        left = Left()
        self.assertEqual(fitting.summary('x' * 300, left, 'A-1'), 'x' * 252 + '…')
        self.assertEqual(fitting.summary('a\nb', left, 'A-1'), 'a b')
        self.assertLessEqual(len(fitting.summary('ü' * 200, left, 'A-2').encode()), 255)
        self.assertLessEqual(len(fitting.description('ü' * 3_000, left, 'A-2').encode()), 4_096)
        self.assertEqual(fitting.labels(['b', 'a b', 'b'], left, 'A-1'), ['a-b', 'b'])
        self.assertEqual(len(fitting.labels([f'l{at:02}' for at in range(20)], left, 'A-3')), 16)
        self.assertEqual([fitting.number(it, left, 'A-1') for it in (3.0, '2.50', 1e9, -1, 'x', 0.1234, None)], ['3', '2.5', None, None, None, '0.123', None])
        self.assertEqual(left.counts()[0], '     1  descriptions cut to 4,096 bytes')

    def test_names_of_users(self):
        users = fitting.Users({'boss@example.org': 'root'})
        self.assertEqual([users.name(*words) for words in (('1', 'Anna Adler'), ('2', 'Bärbel Müller-Ößt'), ('3', None, 'boss@example.org'), ('4', 'Anna Adler'),
                                                           ('1', 'Anders'), ('5:557058', '田中'), ('', 'nobody'))],
                         ['anna.adler', 'baerbel.mueller-oesst', 'root', 'anna.adler-2', 'anna.adler', '5.557058', 'nobody'])

    def issue(self, **more):
        fields = {'summary': 'x', 'status': {'name': 'Open'}, 'created': '2024-03-01T12:00:00.000+0000', **more}
        return {'key': 'OPS-1', 'fields': fields, 'changelog': {'total': 0, 'histories': []}}

    def read(self, raw):
        left = Left()
        reader = jira.Reader(fitting.Users({}), left)
        return Replay(reader.read([('x', {'issues': [raw]})]), left), left

    def test_an_issue_that_began_in_another_status_and_a_change_that_is_not_told(self):
        raw = self.issue(assignee={'accountId': 'a1', 'displayName': 'Anna'})
        raw['changelog']['histories'] = [{'id': '1', 'created': '2024-03-02T12:00:00.000+0000', 'items': [
            {'field': 'assignee', 'from': None, 'fromString': None, 'to': 'b2', 'toString': 'Bo'}]}]
        replay, left = self.read(raw)
        self.assertEqual([json.loads(sent).get('set') for sent, _ in replay.lines('anna')][1:5], [{'reporter': None}, None, {'assignee': 'bo'}, {'assignee': 'anna'}])
        self.assertIn('     1  values that no change explains, set at the end', left.counts())

    def test_a_cut_changelog_is_told(self):
        raw = self.issue()
        raw['changelog']['total'] = 7
        self.assertEqual(self.read(raw)[1].counts(), ['     7  changes that are not in the file (a changelog that is cut)'])

    def test_projects_that_need_another_key(self):
        raw = {**self.issue(), 'key': 'AB2-1'}
        with self.assertRaisesRegex(Bad, '--project AB2=KEY'):
            self.read(raw)

    def test_many_people_of_github(self):
        """Of several who have an issue the first is told; when he goes the next one has it."""
        raw = {'number': 1, 'title': 'x', 'state': 'open', 'user': {'login': 'a'}, 'created_at': '2024-03-01T12:00:00Z', 'assignees': [{'login': 'c'}], 'timeline': [
            {'id': at, 'event': event, 'actor': {'login': 'a'}, 'assignee': {'login': who}, 'created_at': f'2024-03-0{at + 1}T12:00:00Z'}
            for at, (event, who) in enumerate((('assigned', 'b'), ('assigned', 'c'), ('unassigned', 'b')), 1)]}
        issue = github.Reader(fitting.Users({}), Left(), 'OPS').read([('x', [raw])])[0]
        self.assertEqual((issue.first['assignee'], [it.values for it in issue.changes]), (None, [{'assignee': 'b'}, {'assignee': 'c'}]))


if __name__ == '__main__':
    unittest.main()
