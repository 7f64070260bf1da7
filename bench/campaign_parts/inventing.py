"""Invented calls, queries and values of fields: right by their form most of the time, and about what is often there."""
import json

USERS = ['anna', 'anna', 'anna', 'bo', 'root', 'cy', 'BO', 'zed']
PROJECTS = ['OPS', 'OPS', 'OPS', 'WEB', 'ops', 'ABC']
TYPES = ['Task', 'Bug', 'task', 'Story', '']
TRANSITIONS = ['Start', 'Review', 'Finish', 'Reopen', 'start', 'Close']
GROUPS = ['team', 'admins', 'guests', 'TEAM', 'nobody']
STATES = ['Open', 'In Progress', 'In Review', 'Done', 'open']
WORDS = ['login', 'Crash on start', 'guide', 'Gr\u00f6\u00dfe pr\u00fcfen', '\u65e5\u672c\u8a9e', '\U0001f600', 'a', '', 'two\nlines',
         'tab\there', 'quote " and \\', 'nul \0', '\x7f']
LENGTHS = [1, 40, 60, 64, 65, 100, 101, 254, 255, 256, 1_024, 1_025, 4_096, 4_097]
COUNTS = [0, 1, 2, 3, 7, 50, 51, 999, 1_000, 1_001, 2_000_000, 2_000_001, 4_294_967_295, 4_294_967_296, 2 ** 53, 2 ** 64]
MOMENTS = [0, 1, 86_399, 951_782_400, 1_709_251_200, 1_711_846_799, 1_711_846_800, 1_729_990_800, 4_102_444_799, 4_102_444_800]
DAYS = ['2024-02-29', '2023-02-29', '1970-01-01', '2099-12-31', '2100-01-01', '2024-13-01', '2024-3-1', '2024/03/01', '0001-01-01']
DATES = ['2024-03-04', '2024/03/04', '"2024-03-04 09:00"', '1000-01-01', '9998-12-31', '9999-01-01', '2024-02-30', '-5d', '+2w', '"1w 2d"',
         '-1000w', '1001d',
         '"-1d 12h 3m 1w"', 'now()', 'startOfDay()', 'endOfWeek(-1)', 'startOfMonth("+1y 2M")', 'endOfYear(1000y)',
         'startOfYear("-1000y 1000M 1000w 1000d")',
         'endOfMonth(1x)', 'startOfDay(', '""', 'EMPTY']
FIELDS = ['type', 'status', 'statusCategory', 'resolution', 'priority', 'assignee', 'reporter', 'fixVersion', 'labels', 'due', 'created',
          'updated', 'points',
          'sprint', 'summary', 'description', 'project', 'key', 'rank', 'cf[10001]', 'cf[10002]', 'cf[0010003]', 'cf[9999]', 'Area',
          'Effort', 'Notes', 'Tester',
          '"Ship date"', 'issuetype', 'duedate', 'issuekey', 'colour', '"order"']
PAST = ['status', 'assignee', 'reporter', 'priority', 'resolution', 'fixVersion']
VALUES = ['Open', '"In Progress"', 'Done', '"To Do"', 'Unresolved', 'Fixed', 'High', 'low', 'bo', 'anna', 'zed', 'currentUser()',
          'membersOf(team)', 'membersOf("nobody")',
          '"1.0"', '"1.1"', 'web', 'OPS', 'OPS-1', 'ops-1', 'OPS-4294967296', '1', '2.5', '0.125', '1000000000', '-1', '4294967295',
          '4294967296', 'openSprints()',
          'closedSprints()', 'futureSprints()', '"log* gui*"', '"?!"', '"*"', '\'it\\\'s\'', 'North', 'EMPTY', 'NULL', '"EMPTY"', '\u00fc',
          '"\u65e5\u672c"']
COMPARED = ['=', '!=', '<', '<=', '>', '>=', '~', '!~', 'IN', 'NOT IN', 'IS EMPTY', 'IS NOT EMPTY', '= EMPTY', 'WAS', 'WAS NOT', 'WAS IN',
            'WAS NOT IN', 'CHANGED']
TEXTS = ['summary', 'description', 'Notes']


def key(by):
    if by.random() < 0.04:
        return by.choice(['OPS-0', 'OPS-01', 'ops-1', 'OPS-', 'OPS', '', 'ABC-1', 'OPS-4294967296', 'OPS-18446744073709551617', 'OPS-99999',
                          '\u00dcB-1'])
    return f'{by.choice(["OPS", "OPS", "OPS", "WEB"])}-{by.randint(1, 24)}'


def text(by):
    if by.random() < 0.1:
        letter = by.choice(['x', '\u00fc', '\U0001f600'])
        return (letter * by.choice(LENGTHS))[:by.choice(LENGTHS)]
    return by.choice(WORDS) if by.random() < 0.3 else f'{by.choice(WORDS[:6])} {by.randrange(100)}'


def number_text(by):
    return by.choice(['1', '3', '0.5', '007.50', '999999999.999', '1000000000', '1.2345', '-1', '-0.25', '1e3', '', '.5', '5.', '\u0661'])


def field_value(by, name):
    """A value that mostly fits the field of that name."""
    if by.random() < 0.08:
        return by.choice([None, 5, True, [], {}, '', 'x', [None], ['a', 'a'], [1], 1.5, -1, text(by)])
    if name in ('summary', 'description', 'Notes'):
        return text(by)
    return by.choice({
        'type': TYPES, 'assignee': USERS, 'reporter': USERS, 'Tester': USERS, 'priority': ['High', 'Medium', 'low', 'Urgent'],
        'resolution': ['Fixed', 'declined', 'Unresolved'],
        'fixVersion': [['1.0'], ['1.1', '1.0'], [], ['2.0'], ['1.0', '1.0']],
        'labels': [['web'], ['b', 'a', 'b'], [], ['two words'], ['l' * 64], ['l' * 65], [str(it) for it in range(16)],
                                                                                       [str(it) for it in range(17)]],
        'due': DAYS, 'Ship date': DAYS, 'points': [number_text(by)], 'Effort': [number_text(by)], 'sprint': [1, 2, 3, 0, 99, 4_294_967_296],
        'status': ['Open'], 'Area': ['North', 'south', 'East'],
    }.get(name, [text(by)]))


def values(by):
    """Members of a `set`."""
    names = ['type', 'summary', 'description', 'status', 'assignee', 'reporter', 'priority', 'resolution', 'fixVersion', 'labels', 'due',
             'points', 'sprint', 'Area', 'Effort',
             'Notes', 'Tester', 'Ship date', 'colour', 'Points', 'cf[10001]', '']
    weights = [2, 3, 3, 1, 4, 3, 4, 3, 4, 4, 4, 8, 4, 2, 2, 2, 2, 2, 1, 1, 1, 1]
    return {name: field_value(by, name) for name in by.choices(names, weights, k=by.choice([1, 1, 1, 2, 2, 3, 5]))}


def value(by, field):
    return by.choice(DATES) if field in ('due', 'created', 'updated', '"Ship date"') and by.random() < 0.8 else by.choice(VALUES)


def several(by, field):
    return '(' + ', '.join(value(by, field) for _ in range(by.choice([1, 2, 3, 3, 20]))) + ')'


def predicates(by):
    return ' '.join(by.choice([f'AFTER {by.choice(DATES)}', f'BEFORE {by.choice(DATES)}', f'ON {by.choice(DATES)}',
                               f'DURING ({by.choice(DATES)}, {by.choice(DATES)})',
                               f'BY {by.choice(USERS)}', 'BY (anna, bo)', 'BY membersOf(team)',
                               'BY currentUser()']) for _ in range(by.choice([0, 0, 1, 1, 2, 3])))


def comparison(by):
    """One comparison, whose operator mostly fits its field."""
    operator = by.choice(COMPARED)
    field = by.choice(PAST if operator[:3] in ('WAS',
                                               'CHA') and by.random() < 0.8 else TEXTS if '~' in operator and by.random() < 0.7 else FIELDS)
    if operator.endswith('EMPTY'):
        return f'{field} {operator}'
    if operator == 'CHANGED':
        ends = ''.join(f' {word} {by.choice([value, several])(by, field)}' for word in by.choice([[], ['FROM'], ['TO'], ['FROM', 'TO']]))
        return f'{field} CHANGED{ends} {predicates(by)}'
    if operator.endswith('IN'):
        return f'{field} {operator} {several(by, field)} {predicates(by) if "WAS" in operator else ""}'
    return f'{field} {operator} {value(by, field)} {predicates(by) if "WAS" in operator else ""}'


def condition(by, depth=0):
    kind = by.random()
    if depth > 4 or kind < 0.45:
        return comparison(by)
    if kind < 0.55:
        return f'{by.choice(["NOT", "!", "not"])} {condition(by, depth + 1)}'
    if kind < 0.7:
        return f'({condition(by, depth + 1)})'
    return f'{condition(by, depth + 1)} {by.choice(["AND", "OR", "&&", "|", "and", "||"])} {condition(by, depth + 1)}'


def query(by):
    """A text that is a query most of the time."""
    if by.random() < 0.05:
        depth = by.choice([63, 64, 65, 66, 500, 1_500])
        return by.choice(['(', '!', 'NOT ', '!(']) * depth + 'type = Bug' + ')' * by.choice([0, depth, depth])
    if by.random() < 0.02:
        return 'key IN (' + ', '.join(f'OPS-{it}' for it in range(by.choice([500, 513, 600]))) + ')'
    keys = ', '.join(by.choice(FIELDS) + by.choice(['', ' ASC', ' DESC', ' desc']) for _ in range(by.choice([1, 1, 2, 3])))
    order = '' if by.random() < 0.6 else f' ORDER BY {keys}'
    return (condition(by) if by.random() < 0.9 else '') + order


def page_of(by):
    return {name: by.choice(COUNTS) for name in ('from', 'count') if by.random() < 0.25}


def moment(by):
    return by.choice(MOMENTS) if by.random() < 0.03 else by.randint(1_709_251_200, 1_711_900_000)


def external(by):
    return by.choice(['', ' ', 'x' * 64, 'x' * 65, '\u00fc', 'a\tb']) if by.random() < 0.1 else f'X-{by.randrange(40)}'


def members_of(by, call):
    """The members of a call of that name."""
    if call == 'create':
        made = {'project': by.choice(PROJECTS), 'type': by.choice(TYPES[:3] if by.random() < 0.9 else TYPES), 'summary': text(by)}
        return {**made, **({'set': values(by)} if by.random() < 0.5 else {}), **({'external': external(by)} if by.random() < 0.3 else {})}
    if call == 'edit':
        return {'issue': key(by), 'set': values(by)}
    if call == 'transition':
        return {'issue': key(by), 'transition': by.choice(TRANSITIONS), **({'set': values(by)} if by.random() < 0.4 else {})}
    if call in ('move_before', 'move_after'):
        return {'issue': key(by), 'other': key(by)}
    if call == 'save_filter':
        return {'name': by.choice(['mine', 'late', 'x' * 100, 'x' * 101, '\u00fc']) if by.random() < 0.5 else f'f {by.randrange(30)}',
                'jql': query(by)}
    few = by.choice([1, 1, 2, 2, 3, 4, 5, 0, 9, 200, 4_294_967_295, 4_294_967_296])
    return {
        'tick': {'to': moment(by)}, 'show': {'issue': key(by)}, 'history': {'issue': key(by), **page_of(by)},
        'search': {'jql': query(by), **page_of(by)},
        'filter': {'filter': few, **page_of(by)}, 'drop_filter': {'filter': few}, 'make_board': {'name': f'b {few}', 'filter': few},
        'board': {'board': few, **page_of(by)},
        'drop_board': {'board': few}, 'make_sprint': {'name': f's {few}'}, 'start_sprint': {'sprint': few}, 'close_sprint': {'sprint': few},
        'burndown': {'sprint': few, **page_of(by)}, 'set_group': {'group': by.choice(GROUPS), 'members': by.sample(['anna', 'bo', 'root',
                                                                                                                    'cy', 'anna', 'zed'],
                                                                                                                   by.randint(1, 5))},
        'ranks': page_of(by), 'rebalance_step': {'count': by.choice([1, 1, 2, 3, 8, 0, 1_000, 1_001])},
    }.get(call, {})


CALLS = {'create': 10, 'edit': 10, 'transition': 8, 'move_before': 4, 'move_after': 4, 'tick': 3, 'show': 3, 'history': 3, 'search': 14,
         'save_filter': 4, 'filter': 3,
         'drop_filter': 1, 'make_board': 2, 'board': 2, 'drop_board': 1, 'make_sprint': 2, 'start_sprint': 2, 'close_sprint': 1,
         'burndown': 3, 'set_group': 1, 'ranks': 2,
         'rebalance_start': 1, 'rebalance_step': 3, 'balance': 1, 'delete': 0.3}


def call(by):
    """A call: its name and its members, of which one may lack, be more, or have another kind of value."""
    name = by.choices(list(CALLS), list(CALLS.values()))[0]
    asked = {'call': name, **members_of(by, name)}
    if by.random() < 0.06:
        member = by.choice([*asked, 'user', 'set', 'from', 'x', '\u00fc', ''])
        if by.random() < 0.4:
            asked.pop(member, None)
        else:
            asked[member] = by.choice([None, True, '', 'x', [], {}, [[]], {'a': {'b': []}}, 1, -1, 1.5, 1e300, *COUNTS])
    return asked


def escaped(by, letter):
    """A character of a JSON text, maybe by its number."""
    if ord(letter) < 0x10000 and by.random() < 0.5:
        return f'\\u{ord(letter):04{by.choice("xX")}}'
    return json.dumps(letter, ensure_ascii=False)[1:-1]


def spelled(by, value):
    """A value as JSON, sometimes with white space, escapes, and members in another order or twice."""
    kind = by.random()
    if isinstance(value, dict) and kind < 0.2:
        members = list(value.items())
        by.shuffle(members)
        if members and kind < 0.03:
            members.append((by.choice(members)[0], by.choice(members)[1]))
        space = by.choice(['', ' ', '\t', '\r', '  '])
        return '{' + space + f',{space}'.join(f'{spelled(by, name)}{space}:{spelled(by, it)}' for name, it in members) + space + '}'
    if isinstance(value, str) and kind < 0.1:
        return f'"{"".join(escaped(by, it) for it in value)}"'
    return json.dumps(value, ensure_ascii=by.random() < 0.2, separators=by.choice([(',', ':'), (', ', ': ')]))


def line(by):
    """A request line without its end."""
    asked = call(by)
    if by.random() < 0.98:
        asked = {'user': by.choice(USERS), **asked}
    return spelled(by, asked).encode('utf-8', 'surrogatepass')
