"""The command bring: its words, and the files that it writes."""
import argparse
import json
import os
import shutil
import sys
import time

from . import fitting, github, jira, playing, setup_text
from .past import Bad, Left
from .replay import Replay

SETUP, LINES, REPLIES, REPORT = 'setup.toml', 'lines.jsonl', 'replies.jsonl', 'left.txt'


def main(words):
    for stream in (sys.stdout, sys.stderr):
        stream.reconfigure(errors='replace')
    try:
        options = arguments().parse_args(words)
        options.command(options)
        sys.stdout.flush()
        return 0
    except Bad as fault:
        print(f'bring: {fault}', file=sys.stderr)
        return 3
    except BrokenPipeError:
        # Whoever read the output went; the files are written before anything is told.
        os.dup2(os.open(os.devnull, os.O_WRONLY), sys.stdout.fileno())
        return 141
    except KeyboardInterrupt:
        return 130


def arguments():
    parser = argparse.ArgumentParser(prog='bring', description='Issues of Jira or GitHub with their histories, into a new tracker.')
    commands = parser.add_subparsers(metavar='COMMAND', required=True)
    for name, about in (('jira', 'files of /rest/api/2/search?expand=changelog,names'), ('github', 'files of /repos/OWNER/NAME/issues?state=all '
                        'whose issues have their timeline, and of /repos/OWNER/NAME/issues/events')):
        made = commands.add_parser(name, help=about, description=about)
        made.set_defaults(command=write, source=name)
        made.add_argument('folder', metavar='FOLDER', help=f'where {SETUP}, {LINES}, {REPLIES} and {REPORT} are written')
        made.add_argument('files', nargs='+', metavar='FILE')
        made.add_argument('--project', action='append', default=[], metavar='KEY', help='OLD=NEW for another key; of GitHub the key itself')
        made.add_argument('--users', metavar='FILE', help='lines THEIRS=NAME: what users are called here')
        made.add_argument('--administrator', metavar='NAME', help='who administers; else who did most')
        made.add_argument('--offset', type=int, default=0, metavar='MINUTES', help='how far local time is ahead of UTC (0)')
        if name == 'jira':
            made.add_argument('--points', metavar='FIELD', help='the field with story points, as customfield_10016')
        else:
            made.add_argument('--type', action='append', default=[], metavar='LABEL=TYPE', help='the type of issues with a label')
    made = commands.add_parser('play', help='makes a tracker of such a folder')
    made.set_defaults(command=play)
    made.add_argument('folder', metavar='FOLDER')
    made.add_argument('store', metavar='STORE', help='a file that is not there yet')
    made.add_argument('--program', default=os.environ.get('VUG_PROGRAM', 'tracker'), metavar='PATH', help='the program (tracker)')
    return parser


def write(options):
    """Reads the files, and writes the setup, the lines, what their replies have to have, and what was left."""
    left = Left()
    users = fitting.Users(pairs(read_lines(options.users)) if options.users else {})
    if options.source == 'jira':
        reader = jira.Reader(users, left, pairs(options.project), options.points)
    else:
        reader = github.Reader(users, left, options.project[0] if options.project else None, pairs(options.type))
    replay = Replay(reader.read([(name, read_json(name)) for name in options.files]), left)
    administrator = replay.users.name(options.administrator or replay.busiest())
    if fitting.user_name(administrator) != administrator:
        raise Bad(f'{administrator} is no name of a user: small letters, digits, . _ and -')
    setup = setup_text.write(replay, administrator, reader.priorities, reader.categories, options.offset)
    late = [issue.external for issue in replay.issues if max([issue.moment] + [it.moment for it in issue.changes]) > time.time() + 86_400]
    both = list(replay.lines(administrator))
    try:
        os.makedirs(options.folder, exist_ok=True)
        save(options.folder, SETUP, setup)
        save(options.folder, LINES, ''.join(sent + '\n' for sent, _ in both))
        save(options.folder, REPLIES, ''.join(json.dumps(wanted, separators=(',', ':')) + '\n' for _, wanted in both))
        save(options.folder, REPORT, ''.join(line + '\n' for line in [*told_users(users), '', *left.lines()]))
    except OSError as fault:
        raise Bad(f'{options.folder} cannot be written: {fault.strerror}') from None
    changes = sum('"call":"tick"' not in sent for sent, _ in both) - len(replay.issues) - 1
    print(f'{len(replay.issues)} issues and {changes} changes: {options.folder}/{LINES}, for a tracker of {options.folder}/{SETUP}')
    print(f'{administrator} administers the tracker' + ('' if options.administrator else '; --administrator NAME names another'))
    if left.kinds:
        print(f'what has no place or comes otherwise, listed in {options.folder}/{REPORT}:')
        for line in left.counts():
            print(line)
    if late:
        print(f'bring: {len(late)} issues have moments ahead of this machine\'s clock, as {late[0]}: a tracker\'s clock never goes back',
              file=sys.stderr)


def told_users(users):
    """Who is called how."""
    yield 'users, as they are called here'
    for ident, name in sorted(users.found.items(), key=lambda it: it[1]):
        yield f'        {name}  {ident}'


def save(folder, name, text):
    with open(os.path.join(folder, name), 'w', encoding='utf-8', newline='') as file:
        file.write(text)


def read_json(name):
    try:
        with open(name, 'rb') as file:
            return json.load(file)
    except OSError as fault:
        raise Bad(f'{name} cannot be read: {fault.strerror}') from None
    except ValueError as fault:
        raise Bad(f'{name} is no JSON: {fault}') from None


def read_lines(name):
    try:
        with open(name, encoding='utf-8') as file:
            return [line.strip() for line in file if line.strip() and not line.startswith('#')]
    except OSError as fault:
        raise Bad(f'{name} cannot be read: {fault.strerror}') from None
    except UnicodeDecodeError:
        raise Bad(f'{name} is no UTF-8') from None


def pairs(words):
    """OLD=NEW, each."""
    found = {}
    for word in words:
        old, sign, new = word.rpartition('=')
        if not sign or not old or not new:
            raise Bad(f'{word!r} is no OLD=NEW')
        found[old.strip()] = new.strip()
    return found


def play(options):
    program = shutil.which(options.program)
    if not program:
        raise Bad(f'the program {options.program} is not there; --program PATH names it')
    try:
        texts = []
        for name in (SETUP, LINES, REPLIES):
            with open(os.path.join(options.folder, name), encoding='utf-8', newline='') as file:
                texts.append(file.read())
    except OSError as fault:
        raise Bad(f'{options.folder}/{name} cannot be read: {fault.strerror}; bring jira or bring github writes it') from None
    setup, lines, wanted = texts[0], texts[1].split('\n')[:-1], [json.loads(line) for line in texts[2].split('\n')[:-1]]
    playing.play(program, options.store, setup, lines, wanted, progress if sys.stderr.isatty() else lambda *_: None)
    print(f'{options.store}: {len(lines)} lines were played, and answered as they had to be')


def progress(done, of):
    if done % 100 == 0 or done == of:
        print(f'\r{done} of {of}', end='\n' if done == of else '', file=sys.stderr)
