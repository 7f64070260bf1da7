"""The setup of a tracker that takes what was elsewhere, as TOML (docs/SETUP.md)."""
import json

from .past import Bad

LIMITS = {'users': 200, 'types': 30, 'priorities': 20, 'resolutions': 50, 'versions': 500, 'statuses': 50, 'projects': 50}
# The priorities that Jira brings along, the highest first.
USUAL = ('blocker', 'highest', 'critical', 'high', 'major', 'medium', 'normal', 'minor', 'low', 'lowest', 'trivial')


def write(replay, administrator, priorities, categories, offset=0):
    """The text. `priorities` has what other trackers number them by, `categories` the kind of each status where that is known."""
    statuses = replay.statuses.all()
    users = replay.users.all()
    check(replay)
    ordered = sorted(replay.priorities.all(), key=lambda name: importance(name, priorities))
    lines = [
        '# Made of issues of another tracker. What a tracker is to have beyond them has to be written here before it is made:',
        '# a setup stays as long as its tracker, but for the members of groups.',
        f'utc_offset_minutes = {offset}',
        'week_starts = "monday"',
        f'rebalancer = {text(administrator)}',
        f'users = {texts(users)}',
        f'types = {texts(replay.types.all())}',
        f'priorities = {texts(ordered or ["Medium"])}',
        f'resolutions = {texts(replay.resolutions.all() or ["Done"])}',
        f'versions = {texts(sorted(replay.versions.all()))}',
        f'first_status = {text(replay.first_status)}',
        'plan = ["team"]',
        'administer = ["administrators"]',
    ]
    lines += table('group', name='team', members=users)
    lines += table('group', name='administrators', members=[administrator])
    lines += ['', '# Whoever takes part in the replay. Its last line empties this group, and with it goes what the transitions below allow.']
    lines += table('group', name='importers', members=users)[1:]
    for key in replay.projects.all():
        groups = ['team', 'importers']
        lines += table('project', key=key, lead=administrator, browse=groups, create=groups, edit=groups, transition=groups, rank=['team'])
    # A board has its columns in this order.
    for name in sorted(statuses, key=lambda name: ('todo', 'progress', 'done').index(category(name, categories))):
        lines += table('status', name=name, category=category(name, categories))
    lines += ['', '# The moves that were made elsewhere. Conditions, validators and post functions are for the team to add.']
    for number, name in enumerate(statuses):
        if name in replay.moves:
            before = [it for it in statuses if it in replay.moves[name]]
            lines += table('transition', name=team_name(name, number), **{'from': before}, to=name)
    lines += ['', '# The moves of the replay alone.']
    for name in statuses:
        others = [it for it in statuses if it != name]
        if others:
            lines += table('transition', name=replay.import_name(name), **{'from': others}, to=name, conditions=['group:importers'])
    return '\n'.join(lines) + '\n'


def category(status, categories):
    """The category of a status; of one that no issue has now it isn't known."""
    return categories.get(status) or 'progress'


def team_name(status, number):
    name = f'To {status}'
    return name if len(name.encode()) <= 60 else f'To status {number + 1}'


def check(replay):
    """Whether a setup can hold as many names."""
    for kind, most in LIMITS.items():
        found = len(getattr(replay, kind).all())
        if found > most:
            raise Bad(f'there are {found} {kind}, and a tracker has at most {most}')


def importance(name, numbers):
    """The place of a priority: by its usual name, else by the number that it had."""
    low = name.lower()
    number = str(numbers.get(name) or '')
    return (USUAL.index(low), 0) if low in USUAL else (len(USUAL), int(number) if number.isdigit() else 1_000)


def table(kind, **members):
    return ['', f'[[{kind}]]'] + [f'{name} = {texts(value) if isinstance(value, list) else text(value)}' for name, value in members.items()]


def text(value):
    """A text in quotes. JSON's escapes are TOML's too."""
    return json.dumps(value, ensure_ascii=False).replace('\x7f', '\\u007F')


def texts(values):
    return '[' + ', '.join(text(value) for value in values) + ']'
