#!/usr/bin/env python3
"""A year by Berlin's clock: request lines to a tracker whose local time goes by steps, and the replies to them.

usage: python3 tools/berlin_year.py lines|replies

They are a section `lines workflow.toml` of crates/stored_runs. That setup is a new tracker's, but that local time is an hour ahead of
UTC, and two from 2024-03-31 01:00 to 2024-10-27 01:00 UTC, and that it has transitions with the validator `due`.

The replies are those of tools/whole_tracker.py, which knows nothing of the program and keeps no answer. Of it and of the queries of
tools/whole_histories.py all that concerns local time is told anew here: a local second is looked for moment by moment, and whether
something was so in a window is asked of single seconds. Before anything is told, the local time of the year is compared with Python's
zone Europe/Berlin.

Moments below are in UTC; what is said of them is in local time.
"""
import datetime
import re
from functools import cache
from zoneinfo import ZoneInfo
from whole_histories import (
    DAY, EMPTY, EPOCH, SIGNS, Query, begin_of, moment, moved, place_of, second_of as second_by_terms, terms_of)
from whole_tracker import Refused, Story, Tracker, values_of

FAULTS = {
    'due < startOfDay("1x")': (12, 0),
    'status CHANGED ON "2024-03-31 2:30"': (6, 18),
}

# ---- local time

# From which moment on local time is how many seconds ahead of UTC.
AHEAD = [(0, 3_600), (1_711_846_800, 7_200), (1_729_990_800, 3_600)]
MOST_AHEAD = 7_200


def local(at):
    return at + [ahead for since, ahead in AHEAD if since <= at][-1]


def day_of(at):
    return local(at) // DAY


@cache
def first(second):
    """The least moment at which local time has come to that second."""
    at = second - MOST_AHEAD
    while local(at) < second:
        at += 1
    return at


def days_of(date):
    return (date - EPOCH).days


def midnight(date):
    return first(days_of(date) * DAY)


def check_by_zone():
    """The seconds about each quarter of an hour of 2024 have the local time that they have in Berlin, and each midnight and each
    quarter of the two days of steps begins when it begins there, but those that are skipped."""
    zone = ZoneInfo('Europe/Berlin')
    for quarter in range(moment('2023-12-31 00:00:00'), moment('2025-01-02 00:00:00'), 900):
        for at in (quarter - 1, quarter):
            assert wall(at, zone) == local(at) and day_of(at) == days_of(datetime.datetime.fromtimestamp(at, zone).date()), at
    midnights = [(days_of(datetime.date(2024, 1, 1)) + day) * DAY for day in range(367)]
    for second in midnights + [moment(f'2024-{day} 00:00:00') + 900 * number for day in ('03-31', '10-27') for number in range(96)]:
        at = int(datetime.datetime.fromtimestamp(second, datetime.timezone.utc).replace(tzinfo=zone).timestamp())
        assert first(second) == (at if wall(at, zone) == second else AHEAD[1][0]), second


def wall(at, zone):
    """What a clock of the zone shows then, as the second at which it would be shown in UTC."""
    return moment(str(datetime.datetime.fromtimestamp(at, zone).replace(tzinfo=None)))


def edge_of(name, shift, now):
    """The second of `startOf..` or `endOf..`."""
    edge, period = re.fullmatch('(start|end)Of(Day|Week|Month|Year)', name).groups()
    own = {'Day': 'd', 'Week': 'w', 'Month': 'M', 'Year': 'y'}[period]
    date = begin_of(period, EPOCH + datetime.timedelta(day_of(now)))
    if edge == 'end':
        date = moved(date, own, 1)
    units = terms_of(shift + own if re.fullmatch(r'[+-]?\d+', shift) else shift or '0d')
    date = moved(moved(date, 'M', 12 * units['y'] + units['M']), 'd', 7 * units['w'] + units['d'])
    return midnight(date) + 3_600 * units['h'] + 60 * units['m'] - (edge == 'end')


def second_of(date, now):
    """The second that a date means at the present moment: a call with its argument, a written date or a period."""
    if isinstance(date, tuple):
        return now if date[0] == 'now' else edge_of(*date, now)
    if re.match(r'\d{4}[-/]', date):
        return first(moment(date.replace('/', '-')))
    return second_by_terms(date, now)


# ---- queries

# Whether a second is in a window.
WINDOWS = {
    'AFTER': lambda second, date: second > date,
    'BEFORE': lambda second, date: second < date,
    'ON': lambda second, date: day_of(second) == day_of(date),
    'DURING': lambda second, begin, end: begin <= second <= end,
}


class LocalQuery(Query):
    """A query whose dates go by local time."""

    def compares(self, field, sign, items, issue, now):
        if field not in ('due', 'created', 'updated'):
            return super().compares(field, sign, items, issue, now)
        seconds = [EMPTY if item is EMPTY else second_of(item, now) for item in items]
        second = second_in(issue, field)
        if sign == 'IN' or second is EMPTY:
            return sign == 'IN' and second in seconds
        return second not in seconds if sign == 'NOT IN' else SIGNS[sign](second, seconds[0])

    def past(self, field, test):
        never = test == 'WAS' and self.take('NOT')
        items = (self.values() if self.take('IN') else [self.value()]) if test == 'WAS' else []
        predicates = []
        while self.tokens and self.tokens[0].upper() in (*WINDOWS, 'BY', 'FROM', 'TO'):
            word = self.tokens.pop(0).upper()
            predicates.append((word, self.values()))
        sides = [one for one in predicates if one[0] in ('FROM', 'TO')]
        authors = [[user for item in users for user in self.meant('assignee', item, 0)] for word, users in predicates if word == 'BY']

        def is_met(issue, now):
            windows = [(word, [second_of(date, now) for date in dates]) for word, dates in predicates if word in WINDOWS]
            times = self.spans(issue, field, items, now) if test == 'WAS' else self.changes(issue, field, sides)
            return any(
                fits and all(by in users for users in authors) and has_second(begin, end, windows)
                for begin, end, by, fits in times)

        return lambda issue, now, no: is_met(issue, now) != (never != no)


def second_in(issue, field):
    if field == 'due':
        due = issue.present('due')
        return due and midnight(datetime.date.fromisoformat(due))
    return issue.history[0 if field == 'created' else -1].at


def has_second(begin, end, windows):
    """Whether one of the seconds is in all windows; if one is, the first of them is where one begins."""
    begins = {begin}
    for _, dates in windows:
        begins.update(second for date in dates for second in (date, date + 1, first(day_of(date) * DAY)))
    return any(begin <= second <= end and all(WINDOWS[word](second, *dates) for word, dates in windows) for second in begins)


# ---- the tracker


class LocalTracker(Tracker):
    def found(self, jql, user):
        query = LocalQuery(jql, user, self.sprints)
        found = [issue for issue in self.issues if query.condition(issue, self.now, False)]
        for field, descends in reversed(query.keys):
            found.sort(key=lambda issue: place_of(field, issue, self.ranked()), reverse=descends)
        return found

    def transition(self, user, issue, transition, set_={}):
        """Those with the validator `due` lead from Open to Done, and everybody may make them."""
        if transition not in ('On time', 'Checked'):
            return super().transition(user, issue, transition, set_)
        it, given = self.issue_of(issue), self.by_field(set_)
        if it.present('status') != 'Open':
            raise Refused(4, index=0)
        values = values_of(given)
        after = {field: values.get(field, it.present(field)) for field in ('description', 'points', 'due')}
        tests = [after['due'] is EMPTY or days_of(datetime.date.fromisoformat(after['due'])) >= day_of(self.now)]
        if transition == 'Checked':
            tests = [after['description'] is not EMPTY, after['points'] != it.present('points')] + tests
        if not all(tests):
            raise Refused(5, index=tests.index(False) + 1)
        return self.changed(it, user, {**values, 'status': 'Done'})


class Year(Story):
    def section(self, word, title):
        super().section(word, title)
        self.tracker = LocalTracker(self.faults)

    def search(self, user, *queries):
        for jql in queries:
            self.ask(user, 'search', jql=jql)


# ---- the year


def winter(year):
    year.say('Sunday, 2023-12-31, 23:59:59. The year, its first week and its first day begin an hour before midnight of UTC.')
    year.tick('2023-12-31 22:59:59')
    year.create('anna', 'Task', 'Plan the year', due='2024-01-01')
    year.create('bo', 'Bug', 'Clock is wrong', due='2024-12-31', assignee='bo')
    year.save('anna', 'by Sunday', 'due <= endOfWeek() AND status != Done ORDER BY due DESC')
    year.save('anna', 'late', 'due < startOfDay() AND NOT status = Done')
    year.save('bo', 'due today', 'due = startOfDay()')
    year.save('bo', 'moved today', 'status CHANGED ON startOfDay()')
    year.save('cy', 'moved on the day of a day ago', 'status CHANGED ON -1d')
    year.save('anna', 'made this week', 'created >= startOfWeek() AND created <= endOfWeek() ORDER BY key DESC')
    year.save('cy', 'due this year', 'due >= startOfYear() AND due <= endOfYear() ORDER BY due')
    year.save('root', 'open on the short day', 'status WAS Open ON "2024-03-31"')
    year.save('root', 'open on the long day', 'status WAS Open ON "2024-10-27"')
    year.turn('2023-12-31 23:00:00', 1, 3, 6, 7)
    year.go('cy', 1, 'On time')
    year.turn('2024-01-01 23:00:00', 3, 4, 5)
    for fault in FAULTS:
        year.search('cy', fault)


def day_before_the_short_one(year):
    year.say('Friday, 2024-03-29, 10:00. A Saturday, the Sunday on which clocks go forward, and a Monday are due.')
    year.tick('2024-03-29 09:00:00')
    year.create('bo', 'Task', 'Pack the boxes', due='2024-03-30')
    year.create('anna', 'Task', 'Set the clocks', due='2024-03-31', points='1')
    year.create('bo', 'Task', 'Check the clocks', due='2024-04-01')
    year.create('anna', 'Bug', 'Guide tells no hours', due='2024-04-07', assignee='cy')
    year.create('root', 'Task', 'Ring the bell', due='2024-03-31', description='Once')
    year.save('bo', 'due in a day', 'due > now() AND due <= 1d')
    year.save('anna', '23 hours', 'due = startOfDay("23h")')
    year.save('anna', '25 hours', 'due = startOfDay("25h")')
    year.save('cy', 'moved while it was skipped', 'status CHANGED DURING ("2024-03-31 02:00", "2024/03/31 02:59") BY membersOf(team)')
    year.save('cy', 'open while it was skipped', 'status WAS Open DURING ("2024-03-31 02:00", "2024-03-31 02:59")')
    year.save('bo', 'begun before', 'status WAS "In Progress" BEFORE "2024-03-31 02:30"')
    year.save('bo', 'open behind', 'status WAS Open AFTER "2024-03-31 02:30"')
    year.save('anna', 'this month', 'due <= endOfMonth() AND due >= startOfMonth() AND resolution = Unresolved')
    year.ask('anna', 'make_board', name='by Sunday', filter=1)
    year.turn('2024-03-29 23:00:00', 3, 10)
    year.say('A day after 2024-03-30 23:00 is 2024-04-01.')
    year.turn('2024-03-30 22:00:00', 10)
    year.say('What is due on the 30th is in time up to 23:59:59.')
    year.tick('2024-03-30 22:59:59')
    year.go('bo', 3, 'On time')
    year.go('bo', 3, 'Reopen')
    year.turn('2024-03-30 23:00:00', 2, 3, 4, 8, 11)
    year.go('bo', 3, 'On time')
    year.go('bo', 3, 'On time', set={'due': '2024-03-30'})
    year.go('root', 7, 'Checked', set={'points': '2', 'due': '2024-03-30'})
    year.go('bo', 3, 'On time', set={'due': '2024-03-31'})


def short_day(year):
    year.say('Sunday, 2024-03-31, 01:59:59, and 03:00:00 a second later.')
    year.tick('2024-03-31 00:59:59')
    year.go('anna', 4, 'Start')
    year.create('bo', 'Bug', 'Bell is silent', assignee='bo')
    year.look('cy', 4, 13, 14, 15, 16)
    year.search('cy', 'created >= "2024-03-31 02:00"', 'created < "2024-03-31 02:00" AND created > "2024-03-31 01:59"')
    year.turn('2024-03-31 01:00:00', 14)
    year.go('bo', 5, 'Start')
    year.create('anna', 'Task', 'Wind the clock up', due='2024-04-01')
    year.look('bo', 4, 13, 15, 16)
    year.search(
        'cy', 'created = "2024-03-31 02:30"', 'created = "2024-03-31 02:00" AND created = "2024-03-31 03:00"',
        'created >= startOfDay() AND created < startOfDay("2h")', 'created = startOfDay("2h")', 'created >= startOfDay("3h")',
        'status WAS Open ON "2024-03-31 02:30" AND assignee WAS EMPTY ON endOfDay()')
    year.turn('2024-03-31 01:00:01', 16)
    year.say('The week and the month end with the day, at 23:59:59 of summer.')
    year.tick('2024-03-31 21:59:59')
    year.go('root', 7, 'On time')
    year.go('root', 7, 'Reopen')
    year.boards('bo', 1)
    year.turn('2024-03-31 22:00:00', 1, 2, 3, 4, 6, 11, 17)
    year.boards('bo', 1)
    year.go('root', 7, 'On time')
    year.go('root', 7, 'Checked', set={'description': None})
    year.go('root', 7, 'Checked', set={'points': None})
    year.go('root', 7, 'Checked', set={'points': '3'})
    year.go('root', 7, 'On time', set={'due': '2024-04-01'})
    year.say('A day ago it was still 2024-03-30, up to 00:59:59.')
    year.turn('2024-03-31 23:00:00', 5)
    year.turn('2024-04-01 22:00:00', 3, 5)


def summer(year):
    year.say('Midnights of summer are two hours before those of UTC.')
    year.turn('2024-04-07 22:00:00', 2)
    year.save('bo', 'moved three months ago', 'status CHANGED DURING (startOfMonth(-3), endOfMonth(-3)) BY (bo, root)')
    year.save('anna', 'first of the month', 'due = startOfMonth() OR due = startOfWeek("17w")')
    year.save('cy', 'made last month', 'created >= startOfMonth(-1) AND created <= endOfMonth(-1)')
    year.create('anna', 'Task', 'Paint the hands', due='2024-07-01', points='0.5')
    year.create('bo', 'Task', 'Oil the clock', due='2024-10-28')
    year.turn('2024-04-30 22:00:00', 20)
    year.turn('2024-06-30 22:00:00', 3, 18, 19)
    year.search(
        'bo', 'created < startOfYear("90d 2h")', 'created <= startOfYear("+90d 2h") AND created > startOfYear("2M 29d 119m")',
        'due = endOfMonth("-3M 1m") OR due = startOfMonth(-3) ORDER BY key DESC',
        'status CHANGED ON startOfYear("90d 24h")', 'status CHANGED AFTER endOfDay("-13w 1d") BEFORE startOfWeek("-12w")')


def day_before_the_long_one(year):
    year.say('Saturday, 2024-10-26, 12:00. The days about the Sunday on which clocks go back are due.')
    year.tick('2024-10-26 10:00:00')
    year.create('bo', 'Task', 'Unpack the boxes', due='2024-10-26')
    year.create('anna', 'Task', 'Set the clocks back', due='2024-10-27', points='1')
    year.create('bo', 'Bug', 'Bell rings twice', due='2024-10-27')
    year.create('root', 'Task', 'Sleep longer', due='2024-11-03')
    year.save('anna', 'moved behind the first 02:30', 'status CHANGED FROM Open AFTER "2024-10-27 02:30"')
    year.save('bo', 'moved in the first hour', 'status CHANGED DURING ("2024-10-27 02:00", "2024-10-27 02:59") ORDER BY updated DESC')
    year.save('bo', 'open at 03:00', 'status WAS Open DURING ("2024-10-27 03:00", now())')
    year.save('cy', 'made from two to three', 'created >= "2024-10-27 02:00" AND created < "2024-10-27 03:00"')
    year.save('cy', 'moved in half an hour', 'status CHANGED AFTER -30m')
    year.save('cy', 'four hours in', 'updated < startOfDay("4h") AND updated >= startOfDay()')
    year.tick('2024-10-26 21:59:59')
    year.go('bo', 12, 'On time')
    year.go('bo', 12, 'Reopen')
    year.turn('2024-10-26 22:00:00', 2, 3, 4, 9, 12)
    year.go('bo', 12, 'On time')
    year.go('cy', 12, 'On time', set={'due': '2024-10-27'})
    year.say('A day after 2024-10-27 01:00 is 2024-10-28.')
    year.turn('2024-10-26 23:00:00', 10)


def long_day(year):
    year.say('Sunday, 2024-10-27, 02:30 and 02:59:59, and then 02:00 and 02:30 once more.')
    year.tick('2024-10-27 00:30:00')
    year.go('bo', 13, 'Start')
    year.create('anna', 'Task', 'Stop the clock')
    year.look('bo', 21, 22)
    year.tick('2024-10-27 00:59:59')
    year.go('bo', 14, 'Start')
    year.search('anna', 'created < now() AND created >= "2024-10-27 02:00"')
    year.turn('2024-10-27 01:00:00', 25)
    year.create('anna', 'Task', 'Go for a walk')
    year.search('bo', 'created = now()', 'created = "2024-10-27 02:00"')
    year.tick('2024-10-27 01:30:00')
    year.go('bo', 15, 'Start')
    year.create('anna', 'Task', 'Start the clock')
    year.look('cy', 21, 22, 24, 26)
    year.search(
        'cy', 'created = "2024-10-27 02:30"', 'created > "2024-10-27 02:30" AND created <= "2024-10-27 02:59"',
        'created = startOfDay("2h 30m")', 'created IN (startOfDay("3h"), startOfDay("3h 30m"))',
        'status CHANGED ON "2024-10-27 02:30" AFTER "2024-10-27 02:59"', 'NOT status CHANGED AFTER -1h AND created > -30m')
    year.turn('2024-10-27 02:00:00', 23)
    year.edit('anna', 17, points='5')
    year.look('bo', 24, 26)
    year.say('A day ago it is 2024-10-27 already, from 23:00 on.')
    year.turn('2024-10-27 22:00:00', 5)
    year.tick('2024-10-27 22:59:59')
    year.edit('anna', 16, due='2024-10-27')
    year.go('cy', 16, 'On time')
    year.go('anna', 16, 'Reopen')
    year.boards('cy', 1)
    year.turn('2024-10-27 23:00:00', 1, 2, 3, 4, 6, 12)
    year.boards('cy', 1)
    year.go('cy', 16, 'On time')
    year.go('cy', 16, 'Checked', set={'points': '1', 'description': 'Rain'})
    year.go('cy', 16, 'On time', set={'due': None})
    year.turn('2024-10-28 23:00:00', 4, 5)


def new_year(year):
    year.say('A year ends, an hour before midnight of UTC.')
    year.turn('2024-12-31 23:00:00', 2, 7)
    year.look('anna', 1, 8, 9, 14, 16, 18, 21, 24)
    year.search('bo', 'status WAS "In Progress" ON startOfYear("-9M 1d") BY anna', 'status CHANGED TO Done ON endOfDay("-65d")')
    for number in (3, 12):
        year.ask('cy', 'history', issue=f'OPS-{number}')


def main():
    check_by_zone()
    year = Year(FAULTS)
    year.section('lines workflow.toml', 'A year by Berlin\'s clock (tools/berlin_year.py).')
    for part in (winter, day_before_the_short_one, short_day, summer, day_before_the_long_one, long_day, new_year):
        part(year)
    year.tell()


if __name__ == '__main__':
    main()
