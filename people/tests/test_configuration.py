"""Which tracker is asked: options, environment and configuration file; and names completed by the shells."""
import shutil
import subprocess
import unittest

from harness import PEOPLE, Case, Served


class Configured(Served):

    def setUp(self):
        super().setUp()
        self.environment.update(VUG_URL='', VUG_USER='', VUG_PROGRAM='')

    def write(self, text, where='.config/vug/config'):
        path = self.room / where
        path.parent.mkdir(parents=True, exist_ok=True)
        path.write_text(text, encoding='utf-8')
        return path

    def test_the_first_section_or_the_one_that_is_named(self):
        self.write(f'[ops]\nurl = {self.url}\nuser = cy\n\n[other]\nurl = http://127.0.0.1:1\nuser = bo\n')
        self.assertIn('user           cy', self.good('where'))
        self.one_line(3, 'http://127.0.0.1:1 cannot be reached', 'where', '--tracker', 'other')
        self.one_line(3, 'http://127.0.0.1:1 cannot be reached', 'where', env={'VUG_TRACKER': 'other'})
        self.one_line(2, 'has no [third]; it has ops, other', 'where', '--tracker', 'third')

    def test_options_before_the_environment_before_the_file(self):
        self.write(f'[ops]\nurl = {self.url}\nuser = cy\n')
        self.assertIn('user           bo', self.good('where', env={'VUG_USER': 'bo'}))
        self.assertIn('user           anna', self.good('where', '--user', 'anna', env={'VUG_USER': 'bo'}))
        self.one_line(3, 'there is no file x.db', 'where', '--file', 'x.db', '--user', 'anna', '--program', 'tracker', env={'VUG_URL': self.url})
        self.one_line(2, '--url and --file name two trackers', 'where', '--file', 'x.db', '--url', self.url)
        self.one_line(2, 'VUG_URL and VUG_FILE name two trackers', 'where', env={'VUG_URL': self.url, 'VUG_FILE': 'x.db'})

    def test_another_tracker_has_not_this_ones_user(self):
        self.write('[ops]\nurl = http://127.0.0.1:1\nuser = cy\n')
        self.one_line(2, 'who asks? name yourself', 'where', '--url', self.url)

    def test_nothing_is_configured(self):
        self.one_line(2, 'which tracker? --url URL or --file FILE names one, or ', 'where')

    def test_configurations_that_are_none(self):
        for text, words in (('[ops]\npassword = x\n', 'has a password; it belongs into ~/.netrc'), ('[ops]\ncolour = red\n', 'colour is none of url, file'),
                            ('url = x\n', 'contains no section headers'), ('[ops]\nurl = http://localhost\nfile = x\nuser = anna\n', 'url and file name two trackers')):
            self.write(text)
            self.one_line(3, words, 'where')
        self.one_line(3, 'the configuration /nowhere is not there', 'where', env={'VUG_CONFIG': '/nowhere'})
        (self.room / 'x').write_bytes(b'\xff')
        self.one_line(3, 'it is no UTF-8', 'where', env={'VUG_CONFIG': str(self.room / 'x')})

    def test_another_place_for_the_configuration(self):
        path = self.write(f'[ops]\nurl = {self.url}\nuser = cy\n', 'elsewhere')
        self.assertIn('user           cy', self.good('where', env={'VUG_CONFIG': str(path)}))


class Words(Case):
    """Words of the command that are wrong end with 2, and help with 0."""

    def test_wrong_words(self):
        for words, told in (([], 'what is to be done?'), (['lsit'], "invalid choice: 'lsit'"), (['show'], 'the following arguments are required: KEY'),
                            (['list', '-n', 'x'], "invalid limit value: 'x'"), (['set', 'OPS-1', 'points'], 'is no FIELD=VALUE'),
                            (['set', 'OPS-1', 'points=1', 'Points=2'], 'Points is given twice'), (['set', 'OPS-1', 'sprint=March'], 'a sprint is named by its number'),
                            (['set', 'OPS-1', 'labels=[1]'], 'is no JSON array of texts'), (['move', 'OPS-1', 'behind', 'OPS-2'], "invalid choice: 'behind'"),
                            (['list', '--timeout', '0'], 'invalid positive value')):
            self.one_line(2, told, *words, '--file', ':memory:')

    def test_help(self):
        self.assertIn('move', self.good('--help'))
        self.assertIn('FIELD=VALUE', self.good('set', '--help'))


class Completed(Served):
    """Names in the place of the last word, as the shells' scripts ask for them."""

    def names(self, *words):
        return self.good('complete', '--', *words).split('\n')[:-1]

    def setUp(self):
        super().setUp()
        self.post(*({'call': 'create', 'project': 'OPS', 'type': 'Task', 'summary': 'x'} for _ in range(3)))

    def test_names(self):
        self.assertEqual(self.names('sh'), ['show'])
        self.assertEqual(self.names('show', 'ops-'), ['OPS-1', 'OPS-2', 'OPS-3'])
        self.assertEqual(self.names('move', 'OPS-1', ''), ['before', 'after'])
        self.assertEqual(self.names('move', 'OPS-1', 'before', 'OPS-3'), ['OPS-3'])
        self.assertIn('points=', self.names('set', 'OPS-1', 'p'))
        self.assertIn('assignee=@me', self.names('set', 'OPS-1', 'assignee='))
        self.assertEqual(self.names('completion', ''), ['bash', 'zsh'])
        self.assertIn('--limit', self.names('list', '--'))
        self.assertIn('--json', self.names('--js'))
        self.assertEqual(self.names('list', '--colour', 'n'), ['never'])

    def test_faults_are_silent(self):
        for words in (['show', ''], ['do', 'OPS-9', ''], ['nonsense', ''], ['--tracker', '']):
            self.assertEqual(self.good('complete', '--', '--url', 'http://127.0.0.1:1', *words), '')

    def in_bash(self, line):
        """What bash would put into the place of the last word."""
        script = f'''source <("{PEOPLE}/vug" completion bash)
        COMP_LINE={line!r}; COMP_POINT=${{#COMP_LINE}}; COMP_WORDS=("{PEOPLE}/vug"); compopt() {{ :; }}
        _vug; printf '%s\\n' "${{COMPREPLY[@]}}"'''
        return subprocess.run(['bash', '-c', script], env=self.environment, stdout=subprocess.PIPE, check=True).stdout.decode().split('\n')[:-1]

    def test_bash(self):
        self.assertEqual(self.in_bash('vug show OPS-2'), ['OPS-2'])
        self.assertEqual(self.in_bash('vug set OPS-1 assignee=@'), ['@me'])
        self.assertEqual(self.in_bash('vug set OPS-1 poi'), ['points='])

    def test_zsh(self):
        if not shutil.which('zsh'):
            self.skipTest('zsh is not there')
        script = f'''compdef() {{ :; }}; source <("{PEOPLE}/vug" completion zsh)
        compadd() {{ while [[ $1 != -- ]]; do shift; done; shift; print -l -- "$@"; }}; _files() {{ print files; }}
        words=("{PEOPLE}/vug" set OPS-1 poi); CURRENT=4; _vug'''
        ran = subprocess.run(['zsh', '-f', '-c', script], env=self.environment, stdout=subprocess.PIPE, check=True)
        self.assertEqual(ran.stdout.decode(), 'points=\n')


if __name__ == '__main__':
    unittest.main()
