"""Commands for issues: list, show, new, set, do, log, move."""
import json
import os

from . import moments, tables, values
from .terminal import clean, clean_lines, cut, filled, width, wrapped
from .trouble import AnswerLost, Usage

LISTED = ('status', 'type', 'assignee', 'priority', 'points', 'due', 'summary')
# The order in which a show tells fields; own fields stand behind them.
SHOWN = ('type', 'status', 'resolution', 'priority', 'assignee', 'reporter', 'points', 'due', 'sprint', 'fixVersion', 'labels')


def arguments(add):
    made = add('list', listing, 'issues that a query finds, all without one')
    made.add_argument('jql', nargs='*', metavar='JQL', help='a query, as docs/JQL.md tells; several words are one query')
    made.add_argument('-n', '--limit', type=limit, default=50, metavar='N', help='at most so many (50); 0 for all')
    made.add_argument('--fields', metavar='A,B', help='the columns: ' + ', '.join(LISTED) + ', or any others')
    made = add('show', showing, 'an issue')
    made.add_argument('key', metavar='KEY')
    made = add('new', making, 'a new issue')
    made.add_argument('project', metavar='PROJECT')
    made.add_argument('type', metavar='TYPE')
    made.add_argument('summary', metavar='SUMMARY')
    made.add_argument('values', nargs='*', metavar='FIELD=VALUE')
    made.add_argument('--external', metavar='ID', help='what the issue is called elsewhere; a second create with it makes none')
    made = add('set', setting, 'new values for the fields of an issue')
    made.add_argument('key', metavar='KEY')
    made.add_argument('values', nargs='+', metavar='FIELD=VALUE', help='an empty VALUE empties the field')
    made = add('do', doing, 'a transition of an issue; without one, those that lead on')
    made.add_argument('key', metavar='KEY')
    made.add_argument('transition', nargs='?', metavar='TRANSITION')
    made.add_argument('values', nargs='*', metavar='FIELD=VALUE')
    made = add('log', logging, 'the history of an issue, the newest change first')
    made.add_argument('key', metavar='KEY')
    made.add_argument('--oldest', action='store_true', help='the oldest change first')
    made = add('move', moving, 'an issue to the place before or after another one')
    made.add_argument('key', metavar='KEY')
    made.add_argument('where', choices=('before', 'after'))
    made.add_argument('other', metavar='KEY')


def limit(word):
    number = int(word)
    if number < 0:
        raise ValueError
    return number


def listing(run):
    options, tracker = run.options, run.tracker()
    names = [name.strip() for name in options.fields.split(',') if name.strip()] if options.fields else list(LISTED)
    names = [name for name in names if name.lower() != 'key']  # which stands first anyway
    asked = own_names(names)
    found, total = tracker.issues(' '.join(options.jql), options.limit or None, asked)
    if run.json:
        run.screen.line(json.dumps(found, ensure_ascii=False))
    else:
        show_issues(run, found, names)
        told_total(run, len(found), total)


def own_names(names):
    """The names that are fields, and not members of the answer itself."""
    return [name for name in names if name.lower() not in ('created', 'updated')]


def show_issues(run, found, names=LISTED):
    """A table of issues."""
    categories = status_categories(run)
    at_status = [name.lower() for name in names].index('status') + 1 if 'status' in [name.lower() for name in names] else None
    columns = [tables.Column('KEY', 'key')]
    for name in names:
        if name.lower() == 'status':
            columns.append(tables.Column('STATUS', lambda row: categories.get(row[at_status]), True))
        else:
            columns.append(tables.Column(name.upper(), None, name.lower() not in ('due', 'points'), name.lower() == 'points'))
    tables.show(run.screen, columns, [[issue['issue']] + [cell(issue, name) for name in names] for issue in found])


def status_categories(run):
    """Which colour a status has; none are asked for where nothing is painted."""
    setup = run.tracker().setup() if run.screen.colours else None
    return {it['status']: it['category'] for it in (setup or {}).get('statuses', [])}


def cell(issue, name):
    """The text of an issue's field, whose name ignores case."""
    if name.lower() in ('created', 'updated'):
        return moments.text(issue[name.lower()])
    for field, value in issue['fields'].items():
        if field.lower() == name.lower():
            return values.text(value)
    return ''


def told_total(run, shown, total):
    if shown < total:
        run.warn(f'{shown} of {total} issues; -n 0 shows all')
    elif total == 0 and run.screen.terminal:
        run.warn('no issue is found')


def showing(run):
    issue = run.tracker().ask('show', issue=values.key(run.options.key))
    if run.json:
        run.screen.line(json.dumps(issue, ensure_ascii=False))
        return
    screen, fields = run.screen, dict(issue['fields'])
    categories = status_categories(run)
    summary, description = fields.pop('summary', ''), fields.pop('description', None)
    room = screen.width or 10_000
    first, *rest = wrapped(clean(summary), max(10, room - width(issue['issue']) - 2))
    screen.line(screen.paint('key', issue['issue']) + '  ' + screen.paint('title', first))
    for line in rest:
        screen.line(' ' * (width(issue['issue']) + 2) + screen.paint('title', line))
    names = [name for name in SHOWN if name in fields] + [name for name in fields if name not in SHOWN]
    lines = [(name, values.text(fields[name])) for name in names]
    lines += [('created', moments.text(issue['created'])), ('updated', moments.text(issue['updated']))]
    wide = max(width(clean(name)) for name, _ in lines)
    for name, text in lines:
        painted = categories.get(text) if name == 'status' else None
        parts = [part for line in clean_lines(text) for part in wrapped(line, max(10, room - wide - 2))]
        for number, part in enumerate(parts):
            head = filled(clean(name) if number == 0 else '', wide)
            screen.line((screen.paint('head', head) + '  ' + screen.paint(painted, part)).rstrip())
    if description:
        screen.line()
        for line in clean_lines(description):
            for part in wrapped(line, max(10, room - 4)):
                screen.line(('    ' + part).rstrip())


def making(run):
    options, tracker = run.options, run.tracker()
    # With an id of its own a create whose answer is lost may be made again, and makes one issue.
    external = options.external or 'vug-' + os.urandom(16).hex()
    given = values.fields(options.values, tracker.user) or None
    try:
        made = tracker.ask('create', project=options.project, type=options.type, summary=options.summary, set=given, external=external)
    except AnswerLost as lost:
        raise AnswerLost(f'{lost}; with --external {external} the same command makes no second issue') from None
    if run.json:
        run.screen.line(json.dumps(made, ensure_ascii=False))
        return
    run.screen.line(made['issue'])
    if made['already'] and options.external:
        run.warn(f'{options.external} was there already')


def setting(run):
    options, tracker = run.options, run.tracker()
    made = tracker.ask('edit', issue=values.key(options.key), set=values.fields(options.values, tracker.user))
    tell_change(run, made)


def tell_change(run, made):
    if run.json:
        run.screen.line(json.dumps(made, ensure_ascii=False))
    elif made['change'] is None:
        run.screen.line(f'{made["issue"]}  nothing differs')
    else:
        run.screen.line(f'{made["issue"]}  change {made["change"]}')


def doing(run):
    options, tracker = run.options, run.tracker()
    key = values.key(options.key)
    if options.transition is None:
        return leading_on(run, key)
    given = values.fields(options.values, tracker.user) or None
    tell_change(run, tracker.ask('transition', issue=key, transition=options.transition, set=given))


def leading_on(run, key):
    """The transitions that lead from an issue's status, where the tracker tells its setup."""
    tracker = run.tracker()
    setup = tracker.setup()
    issue = tracker.ask('show', issue=key)
    status = issue['fields']['status']
    if setup is None:
        raise Usage(f'{key} is {status}; which transition? This tracker does not tell which there are (it does not know the call describe)')
    found = [it for it in setup['transitions'] if status in it['from']]
    if run.json:
        run.screen.line(json.dumps(found, ensure_ascii=False))
        return None
    rows = [[it['transition'], it['to'], ', '.join(it['conditions'] + it['validators'])] for it in found]
    tables.show(run.screen, [tables.Column('TRANSITION', 'key'), tables.Column('TO'), tables.Column('WANTS', None, True)], rows)
    if not found:
        run.warn(f'no transition leads from {status}')
    return None


def logging(run):
    tracker, key = run.tracker(), values.key(run.options.key)
    entries = tracker.history(key)
    if run.json:
        run.screen.line(json.dumps(entries if run.options.oldest else entries[::-1], ensure_ascii=False))
        return
    created = tracker.ask('show', issue=key)['created']
    changes = {}
    for entry in entries:
        changes.setdefault(entry['change'], []).append(entry)
    told = [tell_creation] + [lambda run, key, _, it=it: tell_entries(run, it) for it in changes.values()]
    for number, tell in enumerate(told if run.options.oldest else told[::-1]):
        if number:
            run.screen.line()
        tell(run, key, created)


def tell_creation(run, key, created):
    run.screen.line(run.screen.paint('key', 'created') + f'  {moments.text(created)}')


def tell_entries(run, entries):
    """A change: who made it and when, and each field before and after."""
    screen, first = run.screen, entries[0]
    screen.line(screen.paint('key', f'change {first["change"]}') + f'  {moments.text(first["at"])}  {clean(first["by"])}')
    wide = max(width(clean(entry['field'])) for entry in entries)
    for entry in entries:
        before, after = (short(run, entry[side]) for side in ('from', 'to'))
        screen.line('    ' + filled(clean(entry['field']), wide) + '  ' + screen.paint('was', before) + ' -> ' + screen.paint('is', after))


def short(run, value):
    """A value on one line; a long text is cut."""
    text = clean(values.text(value))
    room = max(12, (run.screen.width - 20) // 2) if run.screen.width else 60
    return cut(text, room, run.screen.dots()) or '(empty)'


def moving(run):
    options, tracker = run.options, run.tracker()
    call = 'move_' + options.where
    made = tracker.ask(call, issue=values.key(options.key), other=values.key(options.other))
    run.screen.line(json.dumps(made) if run.json else f'{made["issue"]}  {options.where} {values.key(options.other)}')
