"""Which tracker is asked, and by whom: options, then the environment, then the configuration file; passwords by netrc."""
import os
import sys

from .trouble import NotLetIn, Unreachable, Usage

KEYS = ('url', 'file', 'user', 'program', 'certificate')


class Place:
    """Where the tracker is: a URL or a file, and what goes with it."""

    def __init__(self, url=None, file=None, user=None, program=None, certificate=None):
        self.url, self.file, self.user, self.program, self.certificate = url, file, user, program, certificate

    def connection(self, timeout=30, ticks=True, asks=True, warn=lambda words: None):
        """A connection, which is opened by the first call. `asks` allows to ask for a password at the terminal.

        What a run doesn't need isn't imported: most of a short run's time is that."""
        if self.url:
            from .http_calls import HttpTracker
            return HttpTracker(self.url, self.user, passwords(asks), self.certificate, timeout)
        from .file_calls import FileTracker
        return FileTracker(self.program or 'tracker', self.file, self.user, ticks, warn)


def path():
    """The configuration file."""
    if os.environ.get('VUG_CONFIG'):
        return os.environ['VUG_CONFIG']
    base = os.environ.get('XDG_CONFIG_HOME') or os.path.expanduser('~/.config')
    return os.path.join(base, 'vug', 'config')


def read_file():
    """The sections of the configuration file, each a tracker; none where there is no file."""
    name = path()
    if not os.path.exists(name) and not os.environ.get('VUG_CONFIG'):
        return {}
    import configparser
    parser = configparser.ConfigParser(interpolation=None, default_section='')
    try:
        with open(name, encoding='utf-8') as source:
            parser.read_file(source)
    except FileNotFoundError:
        raise Unreachable(f'the configuration {name} is not there') from None
    except (OSError, UnicodeDecodeError) as fault:
        raise Unreachable(f'the configuration {name} cannot be read: {getattr(fault, "strerror", None) or "it is no UTF-8"}') from None
    except configparser.Error as fault:
        raise Unreachable(f'the configuration {name}: ' + ' '.join(str(fault).split())) from None
    sections = {}
    for section in parser.sections():
        keys = dict(parser.items(section))
        for key in keys:
            if key == 'password':
                raise Unreachable(f'the configuration {name} has a password; it belongs into ~/.netrc')
            if key not in KEYS:
                raise Unreachable(f'the configuration {name}, [{section}]: {key} is none of {", ".join(KEYS)}')
        sections[section] = keys
    return sections


def place(options):
    """The tracker that is meant. A URL or a file that is named by an option or the environment puts the configured one aside."""
    given = {key: getattr(options, key, None) or os.environ.get('VUG_' + key.upper()) for key in KEYS}
    # An option is nearer than the environment: --file puts VUG_URL aside, and the other way round.
    for one, other in (('url', 'file'), ('file', 'url')):
        if getattr(options, one, None):
            if getattr(options, other, None):
                raise Usage('--url and --file name two trackers')
            given[other] = None
    if given['url'] and given['file']:
        raise Usage('VUG_URL and VUG_FILE name two trackers')
    sections = read_file()
    name = getattr(options, 'tracker', None) or os.environ.get('VUG_TRACKER')
    if name and name not in sections:
        raise Usage(f'{path()} has no [{name}]' + (f'; it has {", ".join(sections)}' if sections else ''))
    found = dict(sections.get(name or next(iter(sections), None)) or {})
    if given['url'] or given['file']:
        named = given['url'] or given['file']
        if named not in (found.get('url'), found.get('file')):
            found = {'program': found.get('program')} if not name else found
        found.pop('url', None)
        found.pop('file', None)
    found = {**found, **{key: value for key, value in given.items() if value}}
    if found.get('url') and found.get('file'):
        raise Unreachable(f'{path()}, [{name or next(iter(sections))}]: url and file name two trackers')
    if not found.get('url') and not found.get('file'):
        raise Usage(f'which tracker? --url URL or --file FILE names one, or {path()}')
    if found.get('file') and found['file'] != ':memory:':
        found['file'] = os.path.expanduser(found['file'])
    if found.get('program'):
        found['program'] = os.path.expanduser(found['program'])
    return Place(**found)


def passwords(asks):
    """What finds the password for a host and a user: netrc, or the terminal."""
    known = {}

    def password(host, user, needed):
        if (host, user) not in known:
            known[host, user] = from_netrc(host, user)
            if known[host, user] is None and needed:
                known[host, user] = from_terminal(host, user, asks)
        return known[host, user]

    return password


def from_netrc(host, user):
    name = os.environ.get('NETRC') or os.path.expanduser('~/.netrc')
    if not os.path.exists(name):
        return None
    import netrc
    try:
        if os.name == 'posix' and os.stat(name).st_mode & 0o077:
            raise Unreachable(f'{name} can be read by others; chmod 600 {name} mends that')
        found = netrc.netrc(name).authenticators(host)
    except netrc.NetrcParseError as fault:
        raise Unreachable(f'{name}: {fault.msg}' + (f' (line {fault.lineno})' if fault.lineno else '')) from None
    except (OSError, UnicodeDecodeError) as fault:
        raise Unreachable(f'{name} cannot be read: {getattr(fault, "strerror", None) or "it is no UTF-8"}') from None
    if not found or (found[0] and found[0] != user):
        return None
    return found[2]


def from_terminal(host, user, asks):
    if not asks or not sys.stdin.isatty():
        raise NotLetIn(f'there is no password of {user} for {host}: ~/.netrc has none, and there is no terminal to ask at')
    import getpass
    try:
        return getpass.getpass(f'Password of {user} for {host}: ')
    except EOFError:
        raise NotLetIn('no password was given') from None
