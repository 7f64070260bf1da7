"""The command import: issues of a table, a create for each row, which tells for each what became of it."""
import json
import sys

from . import moments, spreadsheets
from .sheet_columns import mapped, needed
from .terminal import clean
from .trouble import ROWS_LEFT, AnswerLost, Refused, Unreachable, Usage

MEMBERS = ('external', 'project', 'type', 'summary')

def arguments(add):
    made = add('import', importing, 'issues of a table that a spreadsheet saved as CSV',
               epilog='Each row is one create. What a row has in a column external (or ID) makes a second run go on where the first one ended.')
    made.add_argument('table', metavar='FILE', help='the table; - for standard input')
    made.add_argument('--project', metavar='KEY', help='the project of rows that name none')
    made.add_argument('--type', metavar='TYPE', help='the type of rows that name none')
    made.add_argument('--map', action='append', default=[], metavar='COLUMN=FIELD', help='what a column is; FIELD:number, :date and :list for fields '
                      'of the team\'s own; an empty FIELD leaves it out')
    made.add_argument('--encoding', help='else UTF-8, UTF-16 with a mark, or Windows-1252')
    made.add_argument('--separator', metavar='SIGN', help='between cells; else what stands most often in the first line')
    made.add_argument('--decimal', choices=('comma', 'point'), help='else the comma where semicolons stand between cells')
    made.add_argument('--dates', choices=('dmy', 'mdy'), help='how days with slashes are meant')
    made.add_argument('--dry-run', action='store_true', help='tell what would be done, and ask the tracker for nothing')
    made.add_argument('--yes', action='store_true', help='over a file: also where this sets its clock far ahead')


def importing(run):
    options = run.options
    sheet = read_table(options)
    tracker = None if options.dry_run else run.tracker()
    if tracker and not options.yes:
        # Before the first call sets the clock.
        tracker.connection.guard = far_from_rows
    comma = options.decimal == 'comma' if options.decimal else sheet.comma
    columns, left_out = mapped(sheet.heads, options.map, tracker.setup() if tracker else None)
    report(run, sheet, left_out)
    needed(columns, options)
    counts = dict.fromkeys(('new', 'there already', 'not taken'), 0)
    seen = {}
    for line, row in sheet.rows:
        try:
            call = call_of(row, columns, len(sheet.heads), options, comma, seen)
        except spreadsheets.Unfit as fault:
            tell(run, counts, line, 'not taken', str(fault))
            continue
        if tracker is None:
            tell(run, counts, line, 'new', json.dumps(call, ensure_ascii=False))
            continue
        try:
            made = tracker.ask('create', **call)
        except Refused as refused:
            if hopeless(refused, tracker.user):
                raise stopped(refused, line, counts) from None
            tell(run, counts, line, 'not taken', str(refused))
        except (Unreachable, AnswerLost) as trouble:
            raise stopped(trouble, line, counts) from None
        else:
            tell(run, counts, line, 'there already' if made['already'] else 'new', call['summary'], made['issue'])
    told = ', '.join(f'{number} {what}' for what, number in counts.items())
    run.warn(f'{told}' + (' (a dry run: nothing was sent)' if tracker is None else ''))
    return ROWS_LEFT if counts['not taken'] else 0


def read_table(options):
    try:
        if options.table == '-':
            source = sys.stdin.buffer.read()
        else:
            with open(options.table, 'rb') as file:
                source = file.read()
    except OSError as fault:
        raise Unreachable(f'{options.table} cannot be read: {fault.strerror}') from None
    if source[:4] == b'PK\x03\x04' or source[:4] == b'\xd0\xcf\x11\xe0':
        raise Unreachable(f'{options.table} is a workbook; save it as CSV (in Excel: save as, CSV UTF-8)')
    if options.separator is not None and len(options.separator) != 1:
        raise Usage('--separator is one sign')
    try:
        return spreadsheets.read(source, options.encoding, options.separator)
    except Unreachable as fault:
        raise Unreachable(f'{options.table}: {fault}') from None


def report(run, sheet, left_out):
    """How the table was read, and what of it isn't."""
    run.warn(f'{len(sheet.rows)} rows, {sheet.how()}')
    if left_out:
        run.warn('columns that are not taken: ' + ', '.join(left_out) + ' (--map COLUMN=FIELD takes one)')


def far_from_rows(before, present):
    """Why the clock isn't set: the tracker's last moment is years away from this machine's clock, which may be the wrong one."""
    if before and present - before > 5 * 366 * moments.DAY:
        return (f'this machine\'s clock is at {moments.text(present)}, years ahead of the tracker\'s, at {moments.text(before)}; '
                'a tracker\'s clock never goes back; --yes sets it all the same')
    return None


def call_of(row, columns, width, options, comma, seen):
    """The members of a row's create."""
    if any(row[width:]):
        raise spreadsheets.Unfit(f'it has {len(row)} cells, and there are {width} columns')
    members, given = {}, {}
    for at, (field, kind) in columns.items():
        cell = row[at] if at < len(row) else ''
        if cell:
            (members if field in MEMBERS else given)[field] = value_of(cell, field, kind, comma, options.dates)
    members.setdefault('project', options.project)
    members.setdefault('type', options.type)
    for field in ('project', 'type', 'summary'):
        if not members.get(field):
            raise spreadsheets.Unfit(f'it has no {field}')
    members.setdefault('external', derived(members, seen))
    if given:
        members['set'] = given
    return members


def value_of(cell, field, kind, comma, dates):
    """The value of a cell."""
    try:
        if kind == 'number':
            return spreadsheets.number(cell, comma)
        if kind == 'date':
            return spreadsheets.date(cell, dates)
    except spreadsheets.Unfit as fault:
        raise spreadsheets.Unfit(f'{field}: {fault}') from None
    if kind == 'whole':
        if not cell.isdecimal():
            raise spreadsheets.Unfit(f'{field}: {cell!r} is no number')
        return int(cell)
    if kind == 'list':
        parts = cell.replace(';', ',').split(',') if ',' in cell or ';' in cell or field != 'labels' else cell.split()
        return [part.strip() for part in parts if part.strip()]
    if kind == 'lines':
        return cell.replace('\r\n', '\n').replace('\r', '\n')
    return cell


def derived(members, seen):
    """An id for a row without one: by its project, type and summary, which a second create with the same id has to have too, and
    by how many such rows came before it."""
    same = '\0'.join(members[field] for field in ('project', 'type', 'summary'))
    seen[same] = seen.get(same, 0) + 1
    import hashlib
    word = hashlib.sha256(same.encode()).hexdigest()[:24]
    return f'sheet-{word}' + (f'-{seen[same]}' if seen[same] > 1 else '')


def hopeless(refused, user):
    """Whether each further row would be refused for the same reason."""
    refusal = refused.refusal
    return refused.number in (14, 15) or (refused.number == 2 and refusal.get('kind') == 'user' and refusal.get('name') == user) \
        or (refused.number == 10 and refusal.get('limit') in ('issues', 'text_bytes'))


def stopped(trouble, line, counts):
    """The trouble that ends an import, with how far it came."""
    done = counts['new'] + counts['there already']
    trouble.args = (f'line {line}: {trouble}; {done} rows were taken before, and the same command goes on from there',)
    return trouble


def tell(run, counts, line, what, words, key=''):
    """What became of a row."""
    counts[what] += 1
    if run.json:
        run.screen.line(json.dumps({'line': line, 'what': what, 'issue': key or None, 'words': words}, ensure_ascii=False))
    else:
        colour = {'new': 'done', 'not taken': 'was'}.get(what)
        run.screen.line(f'line {line}: ' + run.screen.paint(colour, what) + (f' {key}' if key else '') + f': {clean(words)}')
