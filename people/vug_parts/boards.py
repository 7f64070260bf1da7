"""Commands for saved filters and boards."""
import json

from . import issues, names, tables, values
from .terminal import clean, cut, filled

COLUMN = 18  # a board's columns stand side by side where each has so much room
GAP = '  '


def arguments(add):
    made = add('filter', filtering, 'the issues of a saved filter')
    made.add_argument('filter', metavar='FILTER', help='its number; its name, where the tracker tells names')
    made.add_argument('-n', '--limit', type=issues.limit, default=50, metavar='N', help='at most so many (50); 0 for all')
    made = add('filters', listing_filters, 'saved filters')
    made = add('save-filter', saving_filter, 'a query kept under a name')
    made.add_argument('name', metavar='NAME')
    made.add_argument('jql', nargs='+', metavar='JQL')
    made = add('drop-filter', dropping_filter, 'a saved filter goes, and its boards with it')
    made.add_argument('filter', metavar='FILTER')
    made = add('board', showing_board, 'a board: the issues of its filter by rank, status by status')
    made.add_argument('board', metavar='BOARD', help='its number; its name, where the tracker tells names')
    made.add_argument('-n', '--limit', type=issues.limit, default=200, metavar='N', help='at most so many issues (200)')
    made = add('boards', listing_boards, 'boards')
    made = add('make-board', making_board, 'a new board of a saved filter')
    made.add_argument('name', metavar='NAME')
    made.add_argument('filter', metavar='FILTER')
    made = add('drop-board', dropping_board, 'a board goes; its filter stays')
    made.add_argument('board', metavar='BOARD')


def filtering(run):
    tracker = run.tracker()
    number = names.number(tracker, 'filter', run.options.filter)
    keys, total = tracker.pages('filter', 'issues', 1_000, run.options.limit or None, filter=number)
    found = tracker.shown(keys)
    if run.json:
        run.screen.line(json.dumps(found, ensure_ascii=False))
    else:
        issues.show_issues(run, found)
        issues.told_total(run, len(found), total)


def listing_filters(run):
    found = names.listed(run.tracker(), 'filters', 'vug filter NUMBER shows the issues of one')
    if run.json:
        run.screen.line(json.dumps(found, ensure_ascii=False))
        return
    columns = [tables.Column('FILTER', 'key', right=True), tables.Column('NAME', None, True), tables.Column('OWNER'), tables.Column('JQL', None, True)]
    tables.show(run.screen, columns, [[str(it['filter']), it['name'], it['owner'], it['jql']] for it in found])


def saving_filter(run):
    made = run.tracker().ask('save_filter', name=run.options.name, jql=' '.join(run.options.jql))
    told = f'filter {made["filter"]}  {made["members"]} issues'
    run.screen.line(json.dumps(made) if run.json else told)


def dropping_filter(run):
    tracker = run.tracker()
    made = tracker.ask('drop_filter', filter=names.number(tracker, 'filter', run.options.filter))
    run.screen.line(json.dumps(made) if run.json else f'filter {made["filter"]} is gone')


def listing_boards(run):
    found = names.listed(run.tracker(), 'boards', 'vug board NUMBER shows one')
    if run.json:
        run.screen.line(json.dumps(found, ensure_ascii=False))
        return
    columns = [tables.Column('BOARD', 'key', right=True), tables.Column('NAME', None, True), tables.Column('FILTER', right=True)]
    tables.show(run.screen, columns, [[str(it['board']), it['name'], str(it['filter'])] for it in found])


def making_board(run):
    tracker = run.tracker()
    made = tracker.ask('make_board', name=run.options.name, filter=names.number(tracker, 'filter', run.options.filter))
    run.screen.line(json.dumps(made) if run.json else f'board {made["board"]}')


def dropping_board(run):
    tracker = run.tracker()
    made = tracker.ask('drop_board', board=names.number(tracker, 'board', run.options.board))
    run.screen.line(json.dumps(made) if run.json else f'board {made["board"]} is gone')


def showing_board(run):
    tracker = run.tracker()
    number = names.number(tracker, 'board', run.options.board)
    columns, total = tracker.board(number, run.options.limit or 1_000)
    shown = sum(len(column['issues']) for column in columns)
    if run.json:
        run.screen.line(json.dumps(columns, ensure_ascii=False))
        return
    found = {issue['issue']: issue for issue in board_issues(tracker, [key for column in columns for key in column['issues']])}
    each = (run.screen.width - len(GAP) * (len(columns) - 1)) // len(columns) if run.screen.width and columns else 0
    if each >= COLUMN:
        side_by_side(run, columns, found, each)
    else:
        one_below_another(run, columns, found)
    issues.told_total(run, shown, total)


def board_issues(tracker, keys):
    """These issues, a hundred by each query."""
    found = []
    for at in range(0, len(keys), 100):
        part = keys[at:at + 100]
        found += tracker.issues(f'key IN ({", ".join(part)})', None, ['summary', 'assignee', 'points'])[0]
    return found


def side_by_side(run, columns, found, each):
    """Columns beside one another; an issue has two lines, its key with who has it, and its summary."""
    screen, categories = run.screen, issues.status_categories(run)
    heads = [filled(cut(clean(f'{column["status"]} ({len(column["issues"])})'), each, screen.dots()), each) for column in columns]
    screen.line(GAP.join(screen.paint(categories.get(column['status'], 'head'), head) for column, head in zip(columns, heads)).rstrip())
    screen.line(GAP.join(('─' if screen.blocks else '-') * each for _ in columns))
    for at in range(max(len(column['issues']) for column in columns)):
        tops, lows = [], []
        for column in columns:
            issue = found.get(column['issues'][at]) if at < len(column['issues']) else None
            key = issue['issue'] if issue else ''
            rest = f' {issues.cell(issue, "assignee")}' if issue else ''
            tops.append(screen.paint('key', key) + filled(cut(clean(rest), each - len(key), screen.dots()), each - len(key)))
            lows.append(filled(cut(clean(issues.cell(issue, 'summary')) if issue else '', each, screen.dots()), each))
        screen.line(GAP.join(tops).rstrip())
        screen.line(GAP.join(lows).rstrip())


def one_below_another(run, columns, found):
    """A status and the issues below it, where there is no room for columns."""
    screen, categories = run.screen, issues.status_categories(run)
    for number, column in enumerate(columns):
        if number:
            screen.line()
        head = clean(f'{column["status"]} ({len(column["issues"])})')
        screen.line(screen.paint(categories.get(column['status'], 'head'), cut(head, screen.width or 10_000, screen.dots())))
        rows = [[key] + [issues.cell(found[key], name) if key in found else '' for name in ('assignee', 'points', 'summary')]
                for key in column['issues']]
        shapes = [tables.Column('KEY', 'key'), tables.Column('ASSIGNEE'), tables.Column('POINTS', right=True), tables.Column('SUMMARY', cuts=True)]
        tables.show(screen, shapes, rows, heads=False)
