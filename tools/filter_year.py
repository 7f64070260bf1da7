#!/usr/bin/env python3
"""A year of saved filters and boards: request lines to a new tracker, and the replies to them.

usage: python3 tools/filter_year.py lines|replies

They are a section `lines` of crates/stored_runs. The replies are those of tools/whole_tracker.py, which knows nothing of the program.
"""
from whole_tracker import Story

# The texts that are no queries, each with its kind and its place by docs/JQL-FAULTS.md.
FAULTS = {
    'colour = red': (11, 0),
    'status = Open AND priority = Urgent': (12, 1),
    'status = Open ORDER BY labels': (13, 1),
    'due < someday()': (14, 0),
    'assignee = zed': (15, 0),
    'status CHANGED AFTER soon': (6, 21),
    'status =': (3, 8),
}


def march(year):
    year.say('Friday, 2024-03-01. The first issues, and filters of two owners.')
    year.tick('2024-02-29 23:59:59')
    year.create('anna', 'Task', 'Fix login', points='3', priority='High', labels=['web'], due='2024-03-31', fixVersion=['1.0'])
    year.save('anna', 'due soon', 'due < startOfMonth("+1M")')
    year.look('anna', 1)
    year.tick('2024-03-01 00:00:00')
    year.look('anna', 1)
    year.create('bo', 'Bug', 'Crash on start', priority='Low', labels=['web', 'mobile'], assignee='bo')
    year.save('anna', 'lately open', 'status WAS Open AFTER -5d')
    year.save('anna', 'open on Saturday', 'status WAS Open AFTER "2024-03-02"')
    year.save('anna', 'mine', 'assignee = currentUser() ORDER BY due, key DESC')
    year.save('bo', 'mine', 'assignee = currentUser() ORDER BY due, key DESC')
    year.save('bo', 'web', 'labels IN (web, mobile) AND NOT labels = desk ORDER BY summary')
    year.save('cy', 'in hand', 'statusCategory = "In Progress" AND NOT summary ~ "log* page"')
    year.tick('2024-03-01 01:00:00')
    year.go('anna', 1, 'Start')
    year.look('cy', 2, 4, 5, 6, 7)
    year.turn('2024-03-02 00:00:01', 3)
    year.say('Monday, 2024-03-04. What was begun this week, and what was handed on a day ago.')
    year.tick('2024-03-04 09:30:00')
    year.save('anna', 'begun this week', 'status CHANGED FROM Open TO "In Progress" AFTER startOfWeek() BY membersOf(team)')
    year.save('bo', 'handed on yesterday', 'assignee CHANGED FROM (EMPTY, anna) ON startOfDay(-1)')
    year.create('anna', 'Task', 'Write the guide', assignee='anna', points='1.5', due='2024-12-31', priority='Low')
    year.create('bo', 'Bug', 'Login page is blank', reporter=None, due='2025-02-28', labels=['desk', 'web'])
    year.go('bo', 2, 'Start')
    year.edit('anna', 1, assignee='bo', fixVersion=['1.0', '1.1'])
    year.look('bo', 3, 4, 5, 6, 7, 8)
    year.turn('2024-03-05 00:00:00', 9)
    year.turn('2024-03-06 00:00:00', 9)
    year.turn('2024-03-06 00:59:59', 2)
    year.say('Two boards, a rank that is given, and who may not make boards.')
    year.ask('anna', 'make_board', name='web', filter=6)
    year.ask('bo', 'make_board', name='mine', filter=5)
    year.ask('cy', 'make_board', name='mine', filter=7)
    year.ask('cy', 'make_board', name='mine', filter=8_000)
    year.ask('cy', 'make_board', name='x' * 101, filter=8_000)
    year.boards('cy', 1, 2)
    year.ask('bo', 'move_before', issue='OPS-2', other='OPS-1')
    year.ask('bo', 'board', board=1)
    year.ask('cy', 'board', board=1, **{'from': 1})
    year.turn('2024-03-09 09:29:59', 2)
    year.turn('2024-03-11 00:00:00', 8)


def spring(year):
    year.say('A month ends, a quarter of the year, and a week: Sunday, 2024-03-31.')
    year.tick('2024-03-28 08:00:00')
    year.save('anna', 'done this month', 'status CHANGED TO Done DURING (startOfMonth(), endOfMonth())')
    year.save('bo', 'quiet', 'NOT status CHANGED AFTER -2w AND updated < "-1w 2d 12h" ORDER BY updated DESC, priority')
    year.save('anna', 'late', 'due < startOfDay() AND resolution = Unresolved ORDER BY priority DESC, due')
    year.go('bo', 1, 'Finish')
    year.go('anna', 2, 'Finish')
    year.go('bo', 2, 'Finish', set={'points': '0.25', 'due': '2024-03-28'})
    year.look('anna', 6, 10, 11, 12)
    year.boards('cy', 1)
    year.tick('2024-03-31 23:59:59')
    year.create('bo', 'Task', 'Log page is slow', labels=['mobile'], assignee='cy', due='2024-04-07', fixVersion=['1.0'])
    year.save('bo', 'begun before this month', 'status WAS "In Progress" BEFORE startOfMonth()')
    year.turn('2024-04-01 00:00:00', 10, 13)
    year.create('anna', 'Task', 'Tidy up', points='1', priority='Medium')
    year.look('bo', 1, 8, 9, 11)
    year.go('cy', 6, 'Start')
    year.go('root', 6, 'Start', set={'fixVersion': ['1.0']})
    year.look('anna', 7, 8, 9, 13)
    year.say('A filter with another text, with the same text, and with a text that is none; numbers that are given again.')
    year.save('anna', 'late', 'due < now() AND resolution = Unresolved ORDER BY priority DESC, due')
    year.save('anna', 'late', 'due < now() AND resolution = Unresolved ORDER BY priority DESC, due')
    year.save('bo', 'late', 'due < now() AND due > endOfWeek("-1w 12h")')
    for fault in FAULTS:
        year.save('anna', 'late', fault)
    year.save('anna', '', 'status =')
    year.turn('2024-04-07 00:00:01', 12, 14)
    year.turn('2024-04-08 00:00:00', 14)
    year.ask('cy', 'drop_filter', filter=3)
    year.ask('anna', 'drop_filter', filter=3)
    year.ask('anna', 'drop_filter', filter=3)
    year.ask('cy', 'drop_filter', filter=2**32)
    year.ask('cy', 'filter', filter=3)
    year.ask('bo', 'drop_filter', filter=1)
    year.save('bo', 'left 1.0', 'fixVersion WAS "1.0" AND fixVersion != "1.0"')
    year.ask('root', 'drop_filter', filter=14)
    year.save('bo', 'raised', 'priority CHANGED FROM (Low, EMPTY) TO (High, Medium) DURING (-4w, now()) BY (anna, membersOf(admins))')
    year.look('cy', 3, 14, 15)


def summer(year):
    year.say('Periods that end between two midnights, and a change that leaves a window of four weeks.')
    year.turn('2024-04-10 12:00:00', 11)
    year.turn('2024-04-11 08:00:00', 11)
    year.tick('2024-04-29 10:00:00')
    year.edit('anna', 3, priority='High')
    year.edit('root', 5, priority='Medium', fixVersion=['1.1'])
    year.edit('bo', 6, priority='High', fixVersion=None)
    year.edit('anna', 4, priority='Low', labels=['web'])
    year.edit('anna', 1, fixVersion=['1.1'])
    year.look('cy', 3, 6, 14)
    year.turn('2024-05-01 00:00:00', 13)
    year.turn('2024-05-27 10:00:01', 14)
    year.say('A filter goes, and its board with it.')
    year.ask('anna', 'make_board', name='mine', filter=14)
    year.ask('bo', 'make_board', name='left', filter=3)
    year.boards('cy', 3, 4)
    year.ask('bo', 'drop_filter', filter=14)
    year.boards('cy', 3)
    year.ask('cy', 'drop_board', board=1)
    year.ask('cy', 'drop_board', board=3)
    year.ask('root', 'drop_board', board=1)
    year.boards('anna', 1)
    year.ask('bo', 'make_board', name='late', filter=12)
    year.ask('bo', 'make_board', name='late', filter=12)
    year.boards('cy', 1)
    year.say('Monday, 2024-07-01, a second after midnight, and the end of yesterday.')
    year.save('bo', 'new', '(created >= startOfDay() OR updated >= startOfDay()) AND project = OPS ORDER BY rank DESC')
    year.save('anna', 'fixed once', 'resolution WAS Fixed BEFORE endOfDay(-1) AND NOT (resolution != EMPTY OR key = OPS-3)')
    year.tick('2024-06-30 23:59:59')
    year.create('bo', 'Task', 'Print the labels', points='0.5', assignee='bo', due='2024-07-07')
    year.create('bo', 'Bug', 'Guide has no index', points='8', reporter='cy')
    year.ask('bo', 'move_after', issue='OPS-3', other='OPS-7')
    year.edit('bo', 3, assignee='cy')
    year.look('anna', 4, 9, 14)
    year.turn('2024-07-01 00:00:00', 9, 14)
    year.tick('2024-07-01 10:00:00')
    for transition in ('Start', 'Review', 'Finish', 'Reopen'):
        year.go('bo', 7, transition)
    year.look('bo', 8, 10, 14, 15)
    year.turn('2024-07-02 00:00:00', 15)


def autumn(year):
    year.say('What was, by whom and when; and issues that nobody ever had.')
    year.save('bo', 'reviewed', 'status WAS "In Review" DURING ("2024-07-01", "-12w") BY bo ORDER BY type, created DESC')
    year.turn('2024-09-23 10:00:00', 16)
    year.tick('2024-09-30 23:59:59')
    year.create('root', 'Bug', 'Nobody answers', labels=['web'], due='2025-01-01')
    year.create('bo', 'Task', 'Ask cy', assignee='bo', points='2', priority='Medium')
    year.save('anna', 'unclaimed', 'assignee WAS NOT IN (anna, bo, cy, root) AND created < -30d')
    year.save('bo', 'passed on', 'assignee CHANGED FROM bo BY (bo, cy) AFTER -1w OR assignee CHANGED TO cy BEFORE startOfWeek(-14)')
    year.edit('bo', 10, assignee='cy')
    year.edit('anna', 9, description='Nobody did', labels=['web', 'desk', 'web'])
    year.go('bo', 5, 'Start', set={'priority': None})
    year.look('cy', 5, 6, 7, 12, 18)
    year.turn('2024-10-07 00:00:00', 18)
    year.turn('2024-10-07 23:59:59', 18)
    year.turn('2024-10-31 00:00:00', 17)


def winter(year):
    year.say('A year ends, and the days of January of which a month later is the last of February.')
    year.turn('2024-12-01 00:00:00', 1)
    year.turn('2024-12-31 00:00:01', 12)
    year.save('bo', 'done last year', 'status CHANGED TO Done AFTER startOfYear(-1) BEFORE startOfYear()')
    year.save('anna', 'due this year', 'due > endOfYear(-1) AND due <= endOfYear() ORDER BY due DESC')
    year.save('bo', 'in a month', 'due = startOfDay("+1M") OR due = startOfMonth("-1M 30d 24h")')
    year.tick('2024-12-31 23:59:59')
    year.create('anna', 'Task', 'Count the hours', points='2', due='2025-01-31')
    year.create('bo', 'Task', 'Fix login again', labels=['web', 'mobile'], priority='High', assignee='anna')
    year.go('root', 3, 'Start')
    year.go('anna', 3, 'Finish')
    year.look('cy', 2, 4, 5, 6, 10)
    year.boards('cy', 1)
    year.turn('2025-01-01 00:00:00', 10, 19, 20)
    year.turn('2025-01-05 23:59:58', 2)
    year.turn('2025-01-28 00:00:00', 21)
    year.turn('2025-02-01 00:00:00', 1, 21)
    year.turn('2025-02-28 00:00:01', 12)
    year.say('Saturday, 2025-03-01, by cy, who may only browse.')
    year.turn('2025-03-01 00:00:00', 21)
    year.look('cy', *range(1, 21))
    year.ask('cy', 'filter', filter=11, **{'from': 2}, count=3)
    year.ask('cy', 'filter', filter=11, **{'from': 12})
    year.ask('cy', 'board', board=4, count=1)
    year.boards('cy', 1, 2)


def main():
    year = Story(FAULTS)
    year.section('lines', 'A year of saved filters and boards (tools/filter_year.py).')
    for season in (march, spring, summer, autumn, winter):
        season(year)
    year.tell()


if __name__ == '__main__':
    main()
