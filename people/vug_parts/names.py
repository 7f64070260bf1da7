"""Filters, boards and sprints by their names, where the tracker tells them."""
from .trouble import UnknownCall, Usage

LISTS = {'filter': 'filters', 'board': 'boards', 'sprint': 'sprints'}
PAGE = 1_000


def listed(tracker, call, instead):
    """All filters, boards or sprints. What can be done instead is told where the tracker doesn't know the call."""
    try:
        return tracker.pages(call, call, PAGE)[0]
    except UnknownCall as unknown:
        unknown.args = (f'{unknown}, so it cannot list its {call}; {instead}',)
        raise


def number(tracker, what, word):
    """The number of what is meant by a number or a name."""
    if word.isdecimal() and word.isascii() and len(word) <= 10:
        return int(word)
    try:
        found = tracker.pages(LISTS[what], LISTS[what], PAGE)[0]
    except UnknownCall:
        raise Usage(f'{word!r} is no number; this tracker does not tell the names of its {LISTS[what]}') from None
    numbers = [it[what] for it in found if it['name'] == word]
    if len(numbers) != 1:
        raise Usage(f'there is no {what} {word!r}' if not numbers else f'several {LISTS[what]} have the name {word!r}: {numbers}')
    return numbers[0]
