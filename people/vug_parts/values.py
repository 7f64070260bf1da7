"""What people write for a field, as the JSON value that a call takes."""
import json
import re

from .trouble import Usage

LISTS = ('labels', 'fixversion')


def fields(words, user):
    """`set` of a call, from words as points=3, assignee=@me, labels=web,ui or due= (which empties the field)."""
    found = {}
    for word in words:
        name, sign, value = word.partition('=')
        name = name.strip()
        if not sign or not name:
            raise Usage(f'{word!r} is no FIELD=VALUE')
        if name.lower() in (other.lower() for other in found):
            raise Usage(f'{name} is given twice')
        found[name] = of_field(name, value, user)
    return found


def of_field(name, value, user):
    """The value of a field; an empty text empties it."""
    if value == '':
        return None
    if name.lower() in LISTS:
        return listed(name, value)
    if name.lower() == 'sprint':
        if not re.fullmatch(r'[0-9]{1,10}', value):
            raise Usage(f'sprint={value}: a sprint is named by its number; vug sprints lists them')
        return int(value)
    if name.lower() in ('assignee', 'reporter') and value == '@me':
        return user
    return value


def listed(name, value):
    """Texts with commas between them, or a JSON array of texts where one has a comma in it."""
    if not value.startswith('['):
        return [part.strip() for part in value.split(',') if part.strip()]
    try:
        parts = json.loads(value)
    except ValueError:
        parts = None
    if not isinstance(parts, list) or not all(isinstance(part, str) for part in parts):
        raise Usage(f'{name}={value} is no JSON array of texts')
    return parts


def text(value):
    """A field's value as people read it."""
    if value is None:
        return ''
    if isinstance(value, list):
        return ', '.join(str(part) for part in value)
    return str(value)


def key(word):
    """An issue's key. Projects have capitals, so small letters can mean nothing else."""
    return word.upper()


def number(word, what):
    if not re.fullmatch(r'[0-9]{1,10}', word):
        raise Usage(f'{word!r} is no number of a {what}')
    return int(word)
