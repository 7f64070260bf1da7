"""Names completed in bash and zsh. The shells' scripts ask `vug complete` what may stand in the place of the last word."""
import argparse
import re
import shlex

from . import configuration
from .tracker import Tracker
from .trouble import Trouble

BASH = r'''# bash completes the names of vug's commands, issues, transitions, fields and users by this
_vug() {
    local name
    COMPREPLY=()
    while IFS= read -r name; do
        COMPREPLY+=("$name")
    done < <("${COMP_WORDS[0]}" complete --bash "${COMP_LINE:0:COMP_POINT}" 2>/dev/null)
    if [[ ${#COMPREPLY[@]} -eq 1 && ${COMPREPLY[0]} == *= ]]; then
        compopt -o nospace
    fi
}
complete -o default -F _vug vug
'''

ZSH = r'''#compdef vug
# zsh completes the names of vug's commands, issues, transitions, fields and users by this
_vug() {
    local -a names values
    local name
    for name in "${(@f)$("${words[1]}" complete -- "${(@Q)words[2,CURRENT]}" 2>/dev/null)}"; do
        if [[ $name == *= ]]; then
            values+=("$name")
        elif [[ -n $name ]]; then
            names+=("$name")
        fi
    done
    (( ${#values} )) && compadd -S '' -- "${values[@]}"
    (( ${#names} )) && compadd -- "${names[@]}"
    (( ${#values} + ${#names} )) || _files
}
if [[ ${funcstack[1]} == _vug ]]; then
    _vug "$@"
else
    compdef _vug vug
fi
'''

WITH_VALUE = ('--tracker', '--url', '--file', '--program', '--user', '--certificate', '--colour', '--color', '--timeout')
# The fields of each tracker that a call can set, for one that doesn't tell its fields.
FIELDS = ('assignee', 'description', 'due', 'fixVersion', 'labels', 'points', 'priority', 'reporter', 'resolution', 'sprint', 'summary', 'type')
SECONDS = 3
NEWEST = 1_000


def arguments(add):
    made = add('completion', scripting, 'the script by which a shell completes names')
    made.add_argument('shell', choices=('bash', 'zsh'))


def scripting(run):
    run.screen.out.write(BASH if run.options.shell == 'bash' else ZSH)


def complete(words, parser):
    """Writes what may stand in the place of the last word, a line each. A completion tells no faults: there is nowhere to tell them."""
    bash = words[:1] == ['--bash']
    line = words[1] if bash and len(words) > 1 else ''
    typed, quoted = split(line) if bash else (words[1:], False)
    typed = typed[1:] if bash else typed
    last = typed[-1] if typed else ''
    try:
        found = [name for name in candidates(typed[:-1], last, parser) if name.lower().startswith(last.lower())]
    except Trouble:
        found = []
    for name in found:
        # bash has cut a word outside quotes at its last = or :, and wants what stands behind it.
        if bash and not quoted and re.search('[=:]', last):
            name = name[max(last.rfind('='), last.rfind(':')) + 1:]
        print(name if quoted or not bash else re.sub(r'''([^A-Za-z0-9_.,/@%+=:-])''', r'\\\1', name))
    return 0


def split(line):
    """The words of a line that may end inside quotes, and whether it does."""
    for ending, quoted in (('', False), ('"', True), ("'", True)):
        try:
            words = shlex.split(line + ending)
        except ValueError:
            continue
        return (words + [''] if not quoted and (not line or line[-1].isspace() and not line.endswith('\\ ')) else words), quoted
    return [''], False


def candidates(before, last, parser):
    """What may stand behind these words."""
    options, plain, waiting = given(before)
    if waiting == '--tracker':
        return list(configuration.read_file())
    if waiting in ('--colour', '--color'):
        return ['auto', 'always', 'never']
    if waiting:
        return []
    commands = parser.commands
    if not plain:
        return list(commands) if not last.startswith('-') else options_of(parser)
    command, places = plain[0], plain[1:]
    if last.startswith('-'):
        return options_of(commands[command]) if command in commands else []
    finder = FINDERS.get(command)
    return finder(Asking(options), places, last) if finder else []


def options_of(parser):
    return sorted(set(re.findall(r'(?<![\w-])--[a-z][a-z-]+', parser.format_help())))


def given(words):
    """The options that stand there, the other words, and the option that waits for its value."""
    options, plain, waiting = argparse.Namespace(), [], None
    for word in words:
        if waiting:
            setattr(options, waiting[2:], word)
            waiting = None
        elif word in WITH_VALUE:
            waiting = word
        elif word.startswith('--') and word.partition('=')[0] in WITH_VALUE:
            name, _, value = word.partition('=')
            setattr(options, name[2:], value)
        elif not word.startswith('-'):
            plain.append(word)
    return options, plain, waiting


class Asking:
    """The tracker, asked for names in a short time and without a question for a password. What it doesn't tell is nothing."""

    def __init__(self, options):
        place = configuration.place(options)
        # A look at a file leaves its clock where it stands.
        self.tracker = Tracker(place.connection(SECONDS, ticks=False, asks=False))

    def setup(self, part, name):
        return [it[name] for it in (self.tracker.setup() or {}).get(part, [])]

    def keys(self):
        return self.tracker.keys('ORDER BY updated DESC, key', NEWEST)[0]

    def fields(self):
        own = [it for it in (self.tracker.setup() or {}).get('fields', []) if it['name'].lower() != 'status']
        return [it['name'] for it in own] or list(FIELDS)

    def values(self, field):
        """The values that a field may have."""
        for it in (self.tracker.setup() or {}).get('fields', []):
            if it['name'].lower() == field.lower():
                return ['@me', *self.users()] if it['kind'] == 'user' else it.get('options') or []
        return ['@me'] if field.lower() in ('assignee', 'reporter') else []

    def users(self):
        return (self.tracker.setup() or {}).get('users', [])

    def transitions(self, key):
        """The transitions that lead on from the issue's status."""
        status = self.tracker.ask('show', issue=key.upper())['fields']['status']
        return [it['transition'] for it in (self.tracker.setup() or {}).get('transitions', []) if status in it['from']]

    def numbers(self, call, what):
        return [str(it[what]) for it in self.tracker.pages(call, call, NEWEST)[0]]


def assigned(asking, last):
    """FIELD= for a word without =, and its values behind it."""
    field, sign, _ = last.partition('=')
    return [f'{field}={value}' for value in asking.values(field)] if sign else [name + '=' for name in asking.fields()]


def for_key(asking, places, last):
    return asking.keys() if not places else []


def for_set(asking, places, last):
    return asking.keys() if not places else assigned(asking, last)


def for_do(asking, places, last):
    if not places:
        return asking.keys()
    return asking.transitions(places[0]) if len(places) == 1 else assigned(asking, last)


def for_move(asking, places, last):
    return ['before', 'after'] if len(places) == 1 else asking.keys() if len(places) < 3 else []


def for_new(asking, places, last):
    if len(places) == 0:
        return asking.setup('projects', 'key')
    if len(places) == 1:
        return asking.values('type')
    return assigned(asking, last) if len(places) > 2 else []


def for_group(asking, places, last):
    return asking.users() if places else asking.setup('groups', 'group')


def numbered(what):
    return lambda asking, places, last: asking.numbers(what + 's', what) if not places else []


def for_board_of(asking, places, last):
    return asking.numbers('filters', 'filter') if len(places) == 1 else []


FINDERS = {'show': for_key, 'log': for_key, 'set': for_set, 'do': for_do, 'move': for_move, 'new': for_new, 'group': for_group,
           'filter': numbered('filter'), 'drop-filter': numbered('filter'), 'make-board': for_board_of, 'board': numbered('board'),
           'drop-board': numbered('board'), 'burndown': numbered('sprint'), 'start-sprint': numbered('sprint'),
           'close-sprint': numbered('sprint'), 'completion': lambda *_: ['bash', 'zsh']}
