"""The words of the command."""
import argparse

from . import boards, bringing_in, completion, issues, planning, setting_up, taking_out
from .trouble import Usage

ABOUT = 'vug: a Vuglastej tracker from the command line'
END = 'vug COMMAND --help tells a command\'s words. docs/VUG.md has examples, and what each status means.'


class Parser(argparse.ArgumentParser):
    """A parser whose faults end as all others do, in one line."""

    def error(self, message):
        raise Usage(f'{message} ({self.prog} --help tells its words)')


def everywhere(default):
    """The options that may stand before the command or behind it."""
    parser = Parser(add_help=False, argument_default=default)
    group = parser.add_argument_group('which tracker')
    group.add_argument('--tracker', metavar='NAME', help='a section of the configuration; else its first one')
    group.add_argument('--url', help='a server: https://HOST of a front server, http://127.0.0.1:PORT of the program')
    group.add_argument('--file', help='a file, over which the program is run')
    group.add_argument('--program', metavar='PATH', help='the program, with --file; else tracker')
    group.add_argument('--user', metavar='NAME', help='who asks')
    group.add_argument('--certificate', metavar='FILE', help='certificates that are trusted, of a team\'s own authority')
    group = parser.add_argument_group('how')
    group.add_argument('--json', action='store_true', help='JSON instead of text')
    group.add_argument('--colour', '--color', choices=('auto', 'always', 'never'), help='colours; auto is on a terminal alone')
    group.add_argument('--timeout', type=positive, metavar='SECONDS', help='how long a server may take for an answer (30)')
    group.add_argument('--still', action='store_true', help='over a file: leave the tracker\'s clock where it stands')
    return parser


def positive(word):
    number = int(word)
    if number < 1:
        raise ValueError
    return number


def build():
    """The parser of all commands. Behind a command an option is left as it was, unless it stands there."""
    parser = Parser(prog='vug', description=ABOUT, epilog=END, parents=[everywhere(None)], allow_abbrev=False)
    parser.set_defaults(json=False, still=False, colour='auto', timeout=30)
    commands = parser.add_subparsers(metavar='COMMAND', title='commands')
    behind = everywhere(argparse.SUPPRESS)
    parser.commands = {}

    def add(name, command, about, **more):
        made = commands.add_parser(name, help=about, description=about[0].upper() + about[1:] + '.', parents=[behind],
                                   allow_abbrev=False, **more)
        made.set_defaults(command=command)
        parser.commands[name] = made
        return made

    issues.arguments(add)
    boards.arguments(add)
    planning.arguments(add)
    bringing_in.arguments(add)
    taking_out.arguments(add)
    setting_up.arguments(add)
    completion.arguments(add)
    return parser


def read(words):
    parser = build()
    options = parser.parse_args(words)
    if not hasattr(options, 'command'):
        raise Usage('what is to be done? vug --help lists the commands')
    return options
