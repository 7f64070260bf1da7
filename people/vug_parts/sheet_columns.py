"""Which field each column of a table is: by what columns are called in English and German, or as it is told."""
from .trouble import Usage

# What a column may be called, in small letters.
HEADS = {
    'external': ('external', 'id', 'external id', 'issue key', 'schlüssel', 'nr', 'nr.', 'nummer'),
    'project': ('project', 'projekt'),
    'type': ('type', 'issue type', 'issuetype', 'typ', 'art', 'vorgangstyp'),
    'summary': ('summary', 'title', 'zusammenfassung', 'titel', 'betreff'),
    'description': ('description', 'beschreibung'),
    'assignee': ('assignee', 'bearbeiter', 'zuständig', 'zugewiesen an'),
    'reporter': ('reporter', 'melder', 'autor', 'ersteller'),
    'priority': ('priority', 'priorität'),
    'resolution': ('resolution', 'lösung'),
    'fixVersion': ('fixversion', 'fix version', 'fix versions', 'version', 'lösungsversion'),
    'labels': ('labels', 'label', 'stichwörter', 'stichworte', 'schlagwörter'),
    'due': ('due', 'due date', 'duedate', 'fällig', 'fällig am', 'fälligkeit', 'fälligkeitsdatum', 'termin'),
    'points': ('points', 'story points', 'punkte', 'aufwand'),
    'sprint': ('sprint',),
}
KINDS = {'points': 'number', 'due': 'date', 'labels': 'list', 'fixVersion': 'list', 'sprint': 'whole', 'description': 'lines'}


def mapped(heads, words, setup):
    """The field and kind of each column that is taken, by its place, and the heads of those that are left out."""
    named = {}
    for word in words:
        column, sign, field = word.rpartition('=')
        if not sign or column.strip().lower() not in (head.lower() for head in heads):
            raise Usage(f'--map {word}: the table has no column {column.strip()!r}; it has {", ".join(heads)}')
        named[column.strip().lower()] = field.strip()
    own = {it['name'].lower(): (it['name'], {'number': 'number', 'date': 'date', 'text': 'lines'}.get(it['kind'], 'text'))
           for it in (setup or {}).get('fields', []) if it['number'] >= 10_000}
    columns, left_out = {}, []
    for at, head in enumerate(heads):
        low = head.lower()
        if low in named:
            field, _, kind = named[low].partition(':')
            found = (spelled(field), kind or own.get(field.lower(), (None, KINDS.get(spelled(field), 'text')))[1]) if field else None
            if kind not in ('', 'number', 'date', 'list', 'text', 'lines'):
                raise Usage(f'--map: a kind is number, date, list, text or lines, and not {kind}')
        else:
            field = next((field for field, names in HEADS.items() if low in names), None)
            found = own.get(low) or ((field, KINDS.get(field, 'text')) if field else None)
        if found and found[0] in (field for field, _ in columns.values()):
            raise Usage(f'two columns are {found[0]}; --map COLUMN= leaves one out')
        if found:
            columns[at] = found
        elif head:
            left_out.append(head)
    return columns, left_out


def spelled(field):
    """A field's name in its own spelling, where it is one that each tracker has."""
    return next((name for name in HEADS if name.lower() == field.lower()), field)


def needed(columns, options):
    """A create needs a project, a type and a summary."""
    taken = [field for field, _ in columns.values()]
    for field, given in (('project', options.project), ('type', options.type), ('summary', None)):
        if field not in taken and not given:
            other = f' and no --{field}' if field != 'summary' else ''
            raise Usage(f'there is no column {field}{other}; --map COLUMN={field} tells which column it is')
