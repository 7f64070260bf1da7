#!/usr/bin/env python3
"""Makes rows for the stored run of whole queries, about midnights and a clock that is set, with the answers of slow functions.

usage: python3 tools/rows_by_second.py ROWS ANSWERS

Writes the lines of standard input and of standard output into these two files.

The rows go by the setup in which local time is an hour ahead of UTC, and two in summer. The answers know nothing of the program.
A truth is looked for among the seconds of an issue's history, in the words of docs/JQL.md, and it is looked for again at one later
second after the other, wherever something can happen:

- The turn is the first later second with the other truth.
- The end of a comparison with the past is the first later second that is critical for it, as
  crates/jql_meaning/specs/Critical.antt says, by the creation and the changes of its field. That of a comparison with the present is
  the first at which the date stands otherwise to what is compared: before it, at it or behind it.
- The end where AND or OR joins comparisons is that of the first which decides, or else the least of all.
"""
import datetime
import sys
from functools import cache
from itertools import cycle

LAST = 4_102_444_799

# From when on the local clock is how many seconds ahead of UTC.
AHEAD = [(0, 3_600), (1_711_846_800, 7_200), (1_729_990_800, 3_600)]

# The midnights of 30 March to 2 April 2024, and the moments at which the clock is set forward and back.
MOMENTS = [1_711_753_200, 1_711_839_600, 1_711_846_800, 1_711_922_400, 1_712_008_800, 1_729_990_800]
MARCH_30 = 19_812

# Things happen at most so many seconds from a moment of the issue, one of those above, a written date or a midnight; and what hasn't
# happened up to the second midnight won't, since each later day is like the one before.
REACH, MIDNIGHTS = 130, 2

DATES = ['now()', '-1m', '-2m', '1m', 'startOfDay()', 'endOfDay()', '"2024-03-31"', '"2024-03-31 02:30"', '"2024-04-01"']

USERS = {'bo': {'bo'}, '(cy, anna)': {'cy', 'anna'}, 'membersOf("team")': {'bo', 'root'}, '(cy, membersOf("admins"))': {'cy', 'anna', 'root'}}
AUTHORS = ['bo', 'cy', 'root']

# The values of each field, as the sets of what each has.
FIELDS = {
    'status': [{'Open'}, {'In Progress'}, {'Done'}],
    'priority': [{'EMPTY'}, {'High'}, {'Medium'}, {'Low'}],
    'assignee': [{'EMPTY'}, {'anna'}, {'bo'}, {'cy'}],
    'fixVersion': [{'EMPTY'}, {'1.0'}, {'1.0', '1.1'}, {'1.1'}, {'1.0', '2.0'}],
}

TESTS = ['WAS', 'WAS NOT', 'WAS IN', 'WAS NOT IN', 'CHANGED', 'NOT CHANGED']

# How what is compared may stand to the date.
SIGNS = {'<': [-1], '<=': [-1, 0], '>': [1], '>=': [1, 0], 'IN': [0], 'NOT IN': [-1, 1]}


def day_of(moment):
    return (moment + ahead(moment)) // 86_400


def ahead(moment):
    return [seconds for since, seconds in AHEAD if since <= moment][-1]


@cache
def moment_of(day, second=0):
    """The first moment at which the local clock has come to that second of the day."""
    moment = day * 86_400 + second - 7_200
    while moment + ahead(moment) < day * 86_400 + second:
        moment += 1
    return moment


WRITTEN = {
    '"2024-03-31"': moment_of(MARCH_30 + 1),
    '"2024-03-31 02:30"': moment_of(MARCH_30 + 1, 9_000),
    '"2024-04-01"': moment_of(MARCH_30 + 2),
}


def second_of(date, now):
    """The second that a date means."""
    if date in WRITTEN:
        return WRITTEN[date]
    if date == 'startOfDay()':
        return moment_of(day_of(now))
    if date == 'endOfDay()':
        return moment_of(day_of(now) + 1) - 1
    return now if date == 'now()' else now + 60 * int(date.removesuffix('m'))


def sign_of(number):
    return (number > 0) - (number < 0)


class Present:
    """A comparison of a second, the midnight of a day or a moment of the issue, with a date."""

    def __init__(self, name, second, sign, date):
        self.text = f'{name} {sign} ({date})' if 'IN' in sign else f'{name} {sign} {date}'
        self.second, self.orders, self.date = second, SIGNS[sign], date

    def holds(self, now):
        return self.order(now) in self.orders

    def is_critical(self, now):
        return self.order(now - 1) != self.order(now)

    def order(self, now):
        return sign_of(self.second - second_of(self.date, now))


class Past:
    """WAS or CHANGED of a field that goes by steps: the moment of each, its author, and the value from then on."""

    def __init__(self, field, test, wanted, predicates, steps):
        self.text = past_text(field, test, wanted, predicates)
        self.test, self.wanted, self.predicates, self.steps = test, wanted, predicates, steps
        self.moments = [at for at, _, _ in steps]

    def holds(self, now):
        return self.is_met(now) != ('NOT' in self.test)

    def is_met(self, now):
        return self.has_changed(now) if 'CHANGED' in self.test else self.has_been(now)

    def has_been(self, now):
        ends = self.moments[1:] + [now + 1]
        return any(
            value & self.wanted and self.is_by(author) and self.within(range(begin, max(begin + 1, end)), now)
            for (begin, author, value), end in zip(self.steps, ends))

    def has_changed(self, now):
        return any(
            self.goes(before, after) and self.is_by(author) and self.within(range(at, at + 1), now)
            for (_, _, before), (at, author, after) in zip(self.steps, self.steps[1:]))

    def within(self, seconds, now):
        """Those of the seconds that lie in every window."""
        for predicate in self.predicates:
            window = window_of(predicate, now)
            seconds = range(max(seconds.start, window.start), min(seconds.stop, window.stop))
        return seconds

    def is_by(self, author):
        return all(author in USERS[rest[0]] for word, *rest in self.predicates if word == 'BY')

    def goes(self, before, after):
        sides = {'FROM': before - after, 'TO': after - before}
        return all(sides[word] & rest[0] for word, *rest in self.predicates if word in sides)

    def is_critical(self, now):
        """An edge that stands leaps, or one comes to a moment or another edge, or near it, or leaves it."""
        (was_going, was_standing), (going, standing) = self.edges(now - 1), self.edges(now)
        edges = list(zip(was_going + was_standing, going + standing))
        return was_standing != standing or any(
            sign_of(was - moment - apart) != sign_of(edge - moment - apart)
            for was, edge in edges for moment in self.moments for apart in range(-1, 2)
        ) or any(
            sign_of(was - was_other - apart) != sign_of(edge - other - apart)
            for was, edge in edges for was_other, other in edges for apart in range(-2, 3)
        )

    def edges(self, now):
        """The edges that go on with each second, and those that stand: dates, and both ends of a day."""
        going, standing = [now], []
        for word, *dates in self.predicates:
            if word == 'ON':
                day = day_of(second_of(dates[0], now))
                standing += [moment_of(day), moment_of(day + 1)]
            elif word in ('AFTER', 'BEFORE', 'DURING'):
                for date in dates:
                    (going if date == 'now()' or date.endswith('m') else standing).append(second_of(date, now))
        return going, standing


def window_of(predicate, now):
    """The seconds that a predicate leaves."""
    word, *rest = predicate
    if word == 'AFTER':
        return range(second_of(rest[0], now) + 1, LAST + 1)
    if word == 'BEFORE':
        return range(0, second_of(rest[0], now))
    if word == 'ON':
        day = day_of(second_of(rest[0], now))
        return range(moment_of(day), moment_of(day + 1))
    if word == 'DURING':
        return range(second_of(rest[0], now), second_of(rest[1], now) + 1)
    return range(0, LAST + 1)


class Joined:
    """Comparisons that AND or OR joins."""

    def __init__(self, word, parts):
        self.word, self.parts = word, parts
        self.text = f' {word} '.join(part.text for part in parts)

    def holds(self, now):
        return (any if self.word == 'OR' else all)(part.holds(now) for part in self.parts)


class Group(Joined):
    """The same between parentheses."""

    def __init__(self, word, parts):
        super().__init__(word, parts)
        self.text = f'({self.text})'


def end_of(cond, now, later):
    """The end that the verdict gives, among the later seconds."""
    if not isinstance(cond, Joined):
        return next(filter(cond.is_critical, later), None)
    for part in cond.parts:
        if part.holds(now) == (cond.word == 'OR'):
            return end_of(part, now, later)
    return min(filter(None, [end_of(part, now, later) for part in cond.parts]), default=None)


def answer_to(cond, now, moments):
    """The answer to a row, found second by second near those at which things happen."""
    midnights = [moment_of(day_of(now) + 1 + day) for day in range(MIDNIGHTS)]
    points = [*moments, *MOMENTS, *WRITTEN.values(), *midnights]
    near = {second for point in points for second in range(point - REACH, point + REACH)}
    later = sorted(second for second in near if now < second)
    holds, end = cond.holds(now), end_of(cond, now, later)
    turn = next((second for second in later if cond.holds(second) != holds), None)
    assert turn is None or end is not None and end <= turn, cond.text
    return ' '.join(['yes' if holds else 'no', *('-' if moment is None else str(moment) for moment in (end, turn))])


def quoted(names):
    return ', '.join(name if name == 'EMPTY' else f'"{name}"' for name in sorted(names))


def past_text(field, test, wanted, predicates):
    if 'CHANGED' in test:
        text = f'NOT {field} CHANGED' if 'NOT' in test else f'{field} CHANGED'
    else:
        text = f'{field} {test} ({quoted(wanted)})' if test.endswith('IN') else f'{field} {test} {quoted(wanted)}'
    for word, *rest in predicates:
        if word in ('FROM', 'TO'):
            text += f' {word} ({quoted(rest[0])})'
        else:
            text += f' DURING ({rest[0]}, {rest[1]})' if word == 'DURING' else f' {word} {rest[0]}'
    return text


class Dice:
    """A fixed generator."""

    def __init__(self, state):
        self.state = state

    def below(self, sides):
        self.state = (self.state * 6_364_136_223_846_793_005 + 1) % 2**64
        return (self.state >> 33) % sides

    def one_of(self, things):
        return list(things)[self.below(len(things))]

    def about_a_moment(self):
        return self.one_of(MOMENTS) - 100 + self.below(200)


def row_of(story, now, cond, moments):
    return f'OPS-7: {" | ".join(story)} | {now} cy asks {cond.text}', answer_to(cond, now, moments)


def drawn(dice, draw, *rest):
    """The first of six rows of which the truth turns, or else the last; and each third time the first as it is."""
    for _ in range(1 if dice.below(3) == 0 else 6):
        row = draw(dice, *rest)
        if not row[1].endswith('-'):
            break
    return row


def past_row(dice, field, test, predicates):
    return row_of_past(*past(dice, field, test, predicates))


def row_of_past(now, cond, story):
    return row_of(story, now, cond, cond.moments)


def past(dice, field, test, predicates):
    """A present moment, a comparison, and a story of which it is asked then."""
    steps = steps_of(dice, field)
    names = sorted(set().union(*FIELDS[field]))
    wanted = {dice.one_of(names) for _ in range(2 if test.endswith('IN') else 1)}
    now = steps[-1][0] + dice.below(3) * dice.below(60)
    return now, Past(field, test, wanted, predicates, steps), past_story(dice, field, steps)


def steps_of(dice, field):
    """Up to seven steps, each to another value, and two in three at the second of the one before."""
    at, steps, value = dice.about_a_moment(), [], None
    for _ in range(1 + dice.below(7)):
        value = dice.one_of([other for other in FIELDS[field] if other != value])
        steps.append((at, dice.one_of(AUTHORS), value))
        at += dice.below(3) // 2 * dice.below(40)
    return steps


def past_story(dice, field, steps):
    """The steps, and here and there a change of another field before one."""
    story = []
    for number, (at, author, value) in enumerate(steps):
        if number and dice.below(3) == 0:
            story.append(f'{at} anna effort={number}')
        names = value - {'EMPTY'}
        text = f'[{quoted(names).replace(" ", "")}]' if names and field == 'fixVersion' else ''.join(names)
        story.append(f'{at} {author} {field}={text}')
    return story


def present_row(dice, name, sign, date):
    at = dice.about_a_moment()
    changed = at + dice.below(2) * dice.below(60)
    now = changed + dice.below(2) * dice.below(60)
    day = day_of(now) + dice.below(2)
    second = {'due': moment_of(day), 'created': at, 'updated': changed}[name]
    story = [f'{at} bo due={date_of(day)}', f'{changed} cy effort=1']
    return row_of(story, now, Present(name, second, sign, date), [second])


def date_of(day):
    return datetime.date(1970, 1, 1) + datetime.timedelta(day)


def joined_row(dice, word, other):
    """Three comparisons of the moment of creation with some minutes ago."""
    at = dice.about_a_moment()
    one, *two = [Present('created', at, dice.one_of(['<', '<=', '>', '>=']), f'-{1 + dice.below(4)}m') for _ in range(3)]
    cond = Joined(word, [one, Group(other, two)])
    return row_of([f'{at} bo'], at + dice.below(300), cond, [at + 60 * minutes for minutes in range(5)])


def rows_alone(dice, test):
    """No predicate, and each predicate alone with each of its dates."""
    fields = cycle(FIELDS)
    alone = [[]] + [[(word, date)] for word in ('AFTER', 'BEFORE', 'ON') for date in DATES]
    for date, other in zip(DATES, DATES[1:] + DATES[:1]):
        alone += [[('DURING', date, other)], [('DURING', other, date)]]
    alone += [[('BY', users)] for users in USERS]
    for predicates in alone:
        yield drawn(dice, past_row, next(fields), test, predicates)
    if 'CHANGED' in test:
        for word in ('FROM', 'TO'):
            for field, place in zip(fields, (0, 1, 2, 2) * 2):
                yield drawn(dice, past_row, field, test, [(word, FIELDS[field][place])])


def rows_together(dice):
    """Two to four predicates together."""
    for number in range(120):
        field, test = dice.one_of(FIELDS), TESTS[number % 6]
        yield drawn(dice, past_row, field, test, [drawn_predicate(dice, field, test) for _ in range(2 + dice.below(3))])


def rows_of_one(dice):
    for number in range(48):
        asked = past_that_is(number >= 24, dice, list(FIELDS)[number // 6 % 4], TESTS[number % 6])
        yield row_of_past(*asked)


def past_that_is(met, dice, field, test):
    """One that is met or isn't, while each of its predicates is met alone."""
    while True:
        predicates = [drawn_predicate(dice, field, test, word) for word in ('BY', None, 'FROM')[:2 + ('CHANGED' in test)]]
        now, cond, story = past(dice, field, test, predicates)
        if cond.is_met(now) == met and all(Past(field, test, cond.wanted, [one], cond.steps).is_met(now) for one in predicates):
            return now, cond, story


def drawn_predicate(dice, field, test, word=None):
    word = word or dice.one_of(['AFTER', 'BEFORE', 'ON', 'DURING', 'BY', 'FROM', 'TO'][:7 if 'CHANGED' in test else 5])
    if word in ('FROM', 'TO'):
        return word, dice.one_of(FIELDS[field])
    if word == 'DURING':
        return word, dice.one_of(DATES), dice.one_of(DATES)
    return word, dice.one_of(USERS if word == 'BY' else DATES)


def rows_present(dice):
    """Each sign with each date that doesn't stay what it is."""
    for name in ('due', 'created', 'updated'):
        for date in DATES[:6]:
            for sign in SIGNS:
                yield drawn(dice, present_row, name, sign, date)


def rows_joined(dice):
    for number in range(80):
        yield joined_row(dice, *[('AND', 'OR'), ('OR', 'AND')][number % 2])


def sections():
    dice = Dice(20_240_331)
    yield 'a day and the moments of an issue, compared with each date', rows_present(dice)
    for test in TESTS:
        yield f'{test}, alone and with each predicate', rows_alone(dice, test)
    yield 'WAS and CHANGED with several predicates', rows_together(dice)
    yield 'comparisons that AND and OR join', rows_joined(dice)
    yield 'predicates that are each met, but not all by one time or change, and then by one', rows_of_one(dice)


def main():
    lines = []
    for title, rows in sections():
        comment = f'# By each second (tools/rows_by_second.py): {title}.'
        lines += [('', ''), (comment, comment), *rows]
    for path, column in zip(sys.argv[1:], zip(*lines)):
        with open(path, 'w') as file:
            file.writelines(f'{line}\n' for line in column)


main()
