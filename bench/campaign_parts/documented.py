"""What the pages of docs/ say of replies and statuses, read from their tables and examples, and what is wrong with a reply by them."""
import json
import pathlib
import re

DOCS = pathlib.Path(__file__).resolve().parent.parent.parent / 'docs'


def page(name):
    return (DOCS / f'{name}.md').read_text(encoding='utf-8')


def section(text, head):
    """What stands below a heading, up to the next one."""
    return re.search(rf'(?ms)^#+ {re.escape(head)}\n(.*?)(?=^#+ |\Z)', text)[1]


def table(text):
    """The cells of each row of the tables in a text."""
    lines = [line for line in text.split('\n') if line.startswith('| ')]
    return [[cell.strip() for cell in re.split(r'(?<!\\)\|', line)[1:-1]] for line in lines]


def numbered(text):
    """The rows of the tables in a text whose first cell is a number, by that number."""
    return {int(row[0]): row[1:] for row in table(text) if row[0].isdigit()}


def examples():
    """The request lines of all pages with their replies."""
    for file in sorted(DOCS.glob('*.md')):
        lines = file.read_text(encoding='utf-8').split('\n')
        yield from ((line[2:], reply) for line, reply in zip(lines, lines[1:]) if line.startswith('> ') and reply.startswith('{'))


def blocks(name, kind):
    """The blocks of a page between lines of three backticks, of one kind."""
    return re.findall(rf'(?ms)^```{kind}\n(.*?)^```', page(name))


def causes():
    """The numbers of the refusals that every call may have, and those that each may."""
    found, rows = {}, table(section(page('REFUSALS'), 'Which cause comes first'))
    for calls, numbers, *_ in rows:
        for call in re.findall(r'[a-z_]+', calls):
            found.setdefault(call, set()).update(int(it) for it in re.findall(r'\d+', numbers))
    every = found.pop('all') | {15}
    return every, {call: numbers | every for call, numbers in found.items()}


def answers():
    """The members under ok that each call has in an example."""
    found = {}
    for line, reply in examples():
        try:
            call, answer = json.loads(line).get('call'), json.loads(reply)
        except (ValueError, AttributeError):
            continue
        if 'ok' in answer:
            found.setdefault(call, set()).add(frozenset(answer['ok']))
    return found


MEMBERS = {number: frozenset(re.findall(r'`(\w+)`', row[-1])) for number, row in numbered(section(page('REFUSALS'), 'Causes')).items()}
EVERY, CAUSES = causes()
ANSWERS = answers()
QUERY_FAULTS = set(numbered(section(page('JQL-FAULTS'), 'Faults')))
SETUP_FAULTS = set(numbered(page('SETUP-FAULTS')))
STATUSES = set(numbered(page('STATUSES')))
RESPONSES = {number: {int(it) for it in re.findall(r'\d+', row[0])} for number, row in
             numbered(section(page('HTTP'), 'Statuses of responses')).items()}
FORMS = set(numbered(section(page('HTTP'), 'Requests that are refused')))


def compact(value):
    return json.dumps(value, ensure_ascii=False, separators=(',', ':'), sort_keys=True)


def read_reply(text):
    """The reply that these bytes are, and what is wrong with them: one of the two."""
    try:
        reply = json.loads(text.decode())
        if compact(reply).encode() != text:
            return None, 'a reply that isn\'t compact, or whose members are out of order'
    except ValueError:
        return None, 'a reply that is no JSON'
    if not isinstance(reply, dict) or len(reply) != 1 or not isinstance(next(iter(reply.values())), dict):
        return None, 'a reply that has neither ok nor refused'
    if 'refused' in reply:
        refused = dict(reply['refused'])
        number = refused.pop('no', None)
        if number not in MEMBERS or set(refused) != MEMBERS[number]:
            return None, f'a refusal that REFUSALS.md hasn\'t: {compact(reply)}'
        if number == 7 and refused['kind'] not in QUERY_FAULTS:
            return None, f'a fault that JQL-FAULTS.md hasn\'t: {compact(reply)}'
    elif 'ok' not in reply:
        return None, 'a reply that has neither ok nor refused'
    return reply, None


def wrong_for(call, reply):
    """What is wrong with the reply to a call of that name, or None."""
    if 'refused' in reply:
        number = reply['refused']['no']
        if number in (14, 15):
            return f'a refusal of {number}, though there is room and memory'
        if number not in CAUSES.get(call, EVERY):
            return f'a refusal that {call!r} can\'t have: {compact(reply)}'
    elif call in ANSWERS and frozenset(reply['ok']) not in ANSWERS[call]:
        return f'an answer that {call!r} hasn\'t: {compact(reply)[:200]}'
    return None
