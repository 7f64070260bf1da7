"""The command export: issues as CSV, as programs or as a German Excel reads it."""
import csv
import io
import json

from . import moments, values
from .trouble import Unreachable

FIRST = ('type', 'summary', 'status', 'assignee', 'reporter', 'priority', 'resolution', 'points', 'due', 'sprint', 'fixVersion', 'labels', 'description')
PAGE = 100


def arguments(add):
    made = add('export', exporting, 'issues that a query finds as CSV, all without one')
    made.add_argument('jql', nargs='*', metavar='JQL')
    made.add_argument('--fields', metavar='A,B', help='the columns behind the key; else all fields that any of the issues has, created and updated')
    made.add_argument('--excel', action='store_true', help='as Excel with German settings opens it: semicolons, decimal commas, days as 31.12.2025')
    made.add_argument('-o', '--output', metavar='FILE', help='a file instead of standard output')


def exporting(run):
    options = run.options
    names = [name.strip() for name in options.fields.split(',') if name.strip()] if options.fields else None
    asked = [name for name in names if name.lower() not in ('key', 'created', 'updated')] if names else None
    found, _ = run.tracker().issues(' '.join(options.jql), None, asked)
    if run.json:
        write(run, json.dumps(found, ensure_ascii=False) + '\n')
        return
    names = names or [*columns_of(found), 'created', 'updated']
    own = kinds(run.tracker().setup())
    text = io.StringIO()
    writer = csv.writer(text, delimiter=';' if options.excel else ',', lineterminator='\r\n')
    writer.writerow(['key', *names])
    for issue in found:
        writer.writerow([guarded(cell(issue, name, options.excel, own), options.excel) for name in ('key', *names)])
    write(run, ('\ufeff' if options.excel else '') + text.getvalue())


def columns_of(found):
    """The fields that any issue has, those of each tracker in their order and then the team's own."""
    there = {name for issue in found for name in issue['fields']}
    return [name for name in FIRST if name in there] + sorted(there - set(FIRST))


def kinds(setup):
    """The kinds of fields by name in small letters; points and due are known without a setup."""
    return {'points': 'number', 'due': 'date', **{it['name'].lower(): it['kind'] for it in (setup or {}).get('fields', [])}}


def cell(issue, name, excel, own):
    """The text of a cell."""
    low = name.lower()
    if low == 'key':
        return issue['issue']
    if low in ('created', 'updated'):
        return moments.text(issue[low])
    value = next((value for field, value in issue['fields'].items() if field.lower() == low), None)
    text = values.text(value)
    if excel and text and own.get(low) == 'number':
        return text.replace('.', ',')
    if excel and text and own.get(low) == 'date':
        return '.'.join(reversed(text.split('-')))
    return text


def guarded(text, excel):
    """A text that Excel would take for a formula gets a mark before it, by which it is a text."""
    return "'" + text if excel and text[:1] in ('=', '+', '@', '\t') or excel and text[:1] == '-' and not text[1:2].isdigit() else text


def write(run, text):
    name = run.options.output
    if not name:
        # Lines end as CSV has them, and not as the system does.
        run.screen.out.flush()
        run.screen.out.buffer.write(text.encode())
        run.screen.out.buffer.flush()
        return
    try:
        with open(name, 'w', encoding='utf-8', newline='') as file:
            file.write(text)
    except OSError as fault:
        raise Unreachable(f'{name} cannot be written: {fault.strerror}') from None
