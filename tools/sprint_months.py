#!/usr/bin/env python3
"""Months of sprints, and the limit of sprints: request lines to new trackers, and the replies to them.

usage: python3 tools/sprint_months.py lines|replies

They are two sections of crates/stored_runs. The replies are those of tools/whole_tracker.py, which knows nothing of the program: what
remains of a sprint is summed over whole histories, after each change anew.
"""
from whole_tracker import Story

# The texts that are no queries, each with its kind and its place by docs/JQL-FAULTS.md.
FAULTS = {
    'sprint = one': (12, 0),
    'key = OPS-1 AND sprint IN openSprints(2)': (12, 1),
    'sprint < 2': (13, 0),
    'sprint = openSprints()': (14, 0),
}

LAST_NUMBER = 2**32 - 1


class Months(Story):
    def make(self, user, name):
        self.ask(user, 'make_sprint', name=name)

    def start(self, user, *sprints):
        for sprint in sprints:
            self.ask(user, 'start_sprint', sprint=sprint)

    def close(self, user, *sprints):
        for sprint in sprints:
            self.ask(user, 'close_sprint', sprint=sprint)

    def burn(self, user, *sprints, **part):
        for sprint in sprints:
            self.ask(user, 'burndown', sprint=sprint, **part)

    def search(self, user, *queries):
        for jql in queries:
            self.ask(user, 'search', jql=jql)


def first_sprints(months):
    months.say('Monday, 2025-01-06. No sprint is there; who may make one, and what its name may be.')
    months.tick('2025-01-06 09:00:00')
    months.burn('anna', 1)
    months.start('anna', 1)
    months.close('cy', 0)
    months.create('anna', 'Task', 'Fix login', sprint=1)
    months.create('cy', 'Task', 'Fix login', sprint=0)
    months.make('zed', 'January')
    months.make('cy', 'January')
    months.make('cy', '')
    months.make('cy', 'x' * 101)
    months.make('anna', 'ä' * 50 + 'x')
    months.make('anna', 'January\x85')
    months.make('anna', 1)
    months.ask('anna', 'make_sprint')
    months.ask('anna', 'make_sprint', name='January', sprint=1)
    months.ask('anna', 'drop_sprint', sprint=1)
    months.say('A sprint that is started and closed before there is an issue, one that goes on, and sprints that are to come.')
    months.make('anna', 'Trial')
    months.burn('root', 1)
    months.start('anna', 1)
    months.close('bo', 1)
    months.make('bo', 'Support')
    months.start('bo', 2)
    months.make('root', 'January')
    months.make('anna', 'ä' * 50)
    months.make('anna', 'January')
    months.burn('bo', 1, 2)


def first_filters(months):
    months.say('Filters that ask for sprints, and texts that are none.')
    months.save('anna', 'open', 'sprint IN openSprints()')
    months.save('bo', 'not closed', 'sprint NOT IN closedSprints()')
    months.save('cy', 'to come', 'sprint IN futureSprints() ORDER BY points DESC')
    months.save('anna', 'second', 'sprint = 2')
    months.save('anna', 'backlog', 'sprint IS EMPTY ORDER BY key DESC')
    months.save('bo', 'mine', 'assignee = currentUser() AND sprint IN (closedSprints(), openSprints()) ORDER BY sprint DESC, points')
    months.save('anna', 'lately', 'sprint IN openSprints() AND status CHANGED AFTER -2d')
    months.save('bo', 'late', 'NOT (sprint IN (closedSprints(), 4) OR due >= startOfDay("+1w")) ORDER BY due, key')
    for fault in FAULTS:
        months.save('anna', 'open', fault)
    months.ask('bo', 'make_board', name='open', filter=1)
    months.ask('anna', 'make_board', name='to come', filter=3)


def first_issues(months):
    months.say('Issues that are made in a sprint, and sprints that can\'t be given.')
    months.create('bo', 'Bug', 'Crash on start', points='1.5', sprint=2, due='2025-01-31')
    months.create('anna', 'Task', 'Fix login', points='3', sprint=3)
    months.create('anna', 'Task', 'Write the guide', points='2', due='2025-01-20')
    months.create('anna', 'Task', 'Tidy up', sprint=3)
    months.create('bo', 'Bug', 'Login page is blank', points='0.125')
    months.create('root', 'Task', 'Count the hours', points='8', sprint=3, due='2025-01-13')
    months.create('bo', 'Bug', 'Guide has no index', points='-0', SPRINT=2)
    for sprint in ('2', -1, LAST_NUMBER + 1, True):
        months.create('anna', 'Task', 'Print the labels', sprint=sprint)
    months.create('anna', 'Task', 'Print the labels', points='-1', sprint=2)
    months.create('anna', 'Task', 'Print the labels', sprint=6)
    months.create('cy', 'Task', 'Print the labels', sprint=LAST_NUMBER)
    months.create('anna', 'Task', 'Print the labels', sprint=6, colour='red')
    months.create('anna', 'Task', 'Print the labels', sprint=6, status='Done', tint='red')
    months.create('anna', 'Task', 'Print the labels', sprint=2, Sprint=3)
    months.create('anna', 'Task', 'Print the labels', sprint=1)
    months.create('anna', 'Story', '', sprint=1, points='many')
    months.create('cy', 'Task', 'Print the labels', sprint=1)
    months.look('cy', 1, 2, 3, 4, 5)
    months.boards('bo', 1, 2)
    months.burn('anna', 2, 3)


def before_the_start(months):
    months.say('Changes before the start: what remains goes with them, and there are no rows.')
    months.tick('2025-01-08 16:20:00')
    months.edit('bo', 3, sprint=3)
    months.edit('anna', 6, points='5')
    months.edit('anna', 6, sprint=None)
    months.burn('bo', 3)
    months.edit('root', 6, Sprint=3, points='6')
    months.edit('root', 6, sprint=3)
    months.edit('root', 5, sprint=None)
    months.go('bo', 2, 'Start')
    months.go('root', 6, 'Start')
    months.go('root', 6, 'Finish')
    months.burn('bo', 3, **{'from': 0}, count=1)
    months.look('anna', 3, 5)


def january(months):
    months.say('Monday, 2025-01-13. The start, and a change in the same second before it and behind it.')
    months.tick('2025-01-13 10:00:00')
    months.edit('anna', 2, points='5')
    months.start('cy', 3, 6)
    months.start('anna', '3', -1, LAST_NUMBER + 1, LAST_NUMBER, 0)
    months.ask('anna', 'start_sprint')
    months.ask('anna', 'close_sprint', sprint=3, count=1)
    months.close('cy', 3)
    months.close('anna', 3)
    months.start('bo', 3)
    months.start('root', 5)
    months.close('root', 5)
    months.start('anna', 3, 5)
    months.close('anna', 5)
    months.close('cy', 5)
    months.edit('anna', 2, points='4')
    months.burn('bo', 3, 5)
    months.look('cy', 1, 2, 3, 8)
    months.boards('cy', 1, 2)
    months.say('A closed sprint, beside all else that may be wrong.')
    months.edit('anna', 2, sprint=5)
    months.edit('anna', 2, sprint=5, points='many')
    months.edit('anna', 2, sprint=5, colour='red')
    months.edit('cy', 2, sprint=5)
    months.edit('cy', 2, sprint=6)
    months.edit('bo', 12, sprint=5)
    months.go('bo', 2, 'Start', set={'sprint': 5})
    months.go('bo', 2, 'Start', set={'sprint': '5'})
    months.go('bo', 2, 'Finish', set={'sprint': '5'})
    months.go('bo', 2, 'Finish', set={'sprint': 6})
    months.go('bo', 2, 'Stop', set={'sprint': 6})
    months.go('cy', 2, 'Finish', set={'sprint': 1})
    months.go('root', 4, 'Start', set={'sprint': 5})
    months.go('bo', 4, 'Start')
    months.go('bo', 4, 'Finish', set={'sprint': 5})
    months.go('bo', 4, 'Finish', set={'sprint': 3})


def while_it_runs(months):
    months.say('Points, statuses and sprints while two sprints run.')
    months.tick('2025-01-14 11:00:00')
    months.go('bo', 5, 'Start', set={'sprint': 3, 'points': '1.125'})
    months.edit('bo', 4, points='13')
    months.edit('bo', 4, points=None)
    months.edit('bo', 4, description='Nobody knows how long')
    months.edit('bo', 4, points='0.000')
    months.edit('bo', 4, points='00.001', priority='Low')
    months.go('bo', 5, 'Review')
    months.go('bo', 5, 'Finish', set={'points': '2.25'})
    months.edit('bo', 5, points='2.5')
    months.go('anna', 5, 'Reopen', set={'sprint': 2, 'points': '2'})
    months.burn('anna', 2, 3)
    months.tick('2025-01-15 11:00:00')
    months.edit('anna', 1, sprint=3, points='2.5')
    months.edit('anna', 3, sprint=4)
    months.edit('anna', 3, sprint=None)
    months.edit('anna', 3, sprint=3, points='1')
    months.edit('anna', 7, sprint=3)
    months.go('bo', 2, 'Finish', set={'points': '9', 'sprint': 3})
    months.edit('bo', 2, points='7')
    months.go('anna', 2, 'Reopen')
    months.create('anna', 'Bug', 'Log page is slow', sprint=3, points='0.75', assignee='bo')
    months.create('anna', 'Task', 'Ask cy', sprint=3)
    months.burn('bo', 2)
    months.burn('bo', 3, **{'from': 2}, count=3)
    months.burn('bo', 3, **{'from': 11}, count=1_000)
    months.burn('bo', 3, **{'from': 2_000_000})
    months.say('Whose burndown may be seen, and what a part of it may be.')
    months.burn('cy', 3, 6)
    months.burn('zed', 6)
    months.burn('anna', 0, '3', LAST_NUMBER + 1)
    months.ask('anna', 'burndown')
    months.burn('anna', 3, count=0)
    months.burn('anna', 6, count=1_001)
    months.burn('anna', 3, **{'from': 2_000_001})
    months.burn('anna', 3, **{'from': None}, count=-1)
    months.burn('cy', 3, jql='')
    months.turn('2025-01-17 11:00:00', 7)
    months.turn('2025-01-25 00:00:00', 8)


def close_of_january(months):
    months.say('Monday, 2025-01-27. The close, and a change in the same second before it and behind it.')
    months.tick('2025-01-27 10:00:00')
    months.edit('bo', 4, points='3')
    months.look('bo', 2, 6)
    months.close('cy', 3)
    months.close('anna', 3)
    months.edit('bo', 4, points='5')
    months.burn('anna', 3)
    months.close('anna', 3)
    months.start('anna', 3)
    months.look('cy', 1, 2, 4, 6, 8)
    months.boards('cy', 1)
    months.say('What is done with its issues later is not in its burndown.')
    months.tick('2025-01-28 09:00:00')
    months.edit('bo', 4, sprint=3)
    months.edit('bo', 4, sprint=3, points='4', priority='High')
    months.edit('bo', 4, sprint=3, points='many')
    months.go('bo', 4, 'Finish', set={'sprint': 3, 'points': '6'})
    months.go('root', 6, 'Reopen')
    months.edit('anna', 2, sprint=2)
    months.edit('anna', 2, sprint=3)
    months.edit('anna', 1, sprint=None)
    months.go('anna', 1, 'Start', set={'sprint': 3})
    months.create('anna', 'Task', 'Fix login again', sprint=3)
    months.burn('bo', 3, 2)
    months.search(
        'cy', 'sprint IN closedSprints() ORDER BY points', 'sprint NOT IN (openSprints(), 3)', 'NOT sprint IN closedSprints()',
        'sprint != 2 AND sprint != 77', 'sprint IN (EMPTY, openSprints(), 03) ORDER BY sprint DESC, points DESC', 'sprint < 2')


def february(months):
    months.say('Monday, 2025-02-03. Issues go between two sprints that run, and are done or opened on the way.')
    months.tick('2025-02-03 10:00:00')
    months.edit('anna', 3, sprint=4)
    months.go('bo', 9, 'Start', set={'sprint': 4})
    months.look('cy', 2, 3, 7)
    months.start('anna', 4)
    months.look('cy', 1, 3, 7)
    months.edit('bo', 2, sprint=4)
    months.edit('bo', 2, sprint=2, points='6.999')
    months.go('bo', 5, 'Start')
    months.go('bo', 5, 'Finish', set={'sprint': 4, 'points': '3'})
    months.go('bo', 5, 'Reopen', set={'sprint': 2, 'points': '0'})
    months.edit('bo', 5, sprint=4)
    months.edit('bo', 5, points='2', sprint=4)
    months.go('root', 6, 'Start', set={'sprint': 4, 'points': None, 'due': '2025-02-14'})
    months.go('root', 6, 'Finish', set={'sprint': None})
    months.go('root', 6, 'Finish', set={'sprint': None, 'points': '1'})
    months.go('anna', 6, 'Reopen', set={'sprint': 4})
    months.go('anna', 3, 'Start', set={'sprint': None, 'points': '4'})
    months.go('anna', 3, 'Finish', set={'sprint': 4})
    months.edit('anna', 3, sprint=2)
    months.go('anna', 3, 'Reopen', set={'sprint': 4, 'points': '4'})
    months.burn('root', 2, 4)
    months.ask('cy', 'show', issue='OPS-5')
    months.ask('cy', 'history', issue='OPS-3')
    months.ask('anna', 'move_before', issue='OPS-6', other='OPS-2')
    months.boards('cy', 1)
    months.turn('2025-02-05 10:00:00', 7)


def march(months):
    months.say('Monday, 2025-03-03. Two sprints begin after the same change, and two end after the same.')
    months.make('root', 'March')
    months.make('root', 'More of March')
    months.create('bo', 'Task', 'Print the labels', sprint=6, points='999999999.999')
    months.create('bo', 'Task', 'Fold the labels', sprint=7, points='999999999')
    months.look('bo', 1, 2, 3)
    months.boards('cy', 2)
    months.tick('2025-03-03 10:00:00')
    months.start('bo', 6, 7)
    months.look('bo', 1, 3)
    months.edit('bo', 10, sprint=7)
    months.edit('bo', 11, sprint=6)
    months.go('bo', 10, 'Start', set={'points': '0.001'})
    months.edit('bo', 8, sprint=6)
    months.burn('bo', 6, 7)
    months.ask('bo', 'drop_filter', filter=8)
    months.save('bo', 'elsewhere', 'sprint NOT IN (2, openSprints()) OR sprint IN (6, futureSprints())')
    months.save('anna', 'second', 'sprint IN (2, 7) ORDER BY sprint, rank DESC')
    months.look('cy', 4, 7, 8)
    months.close('bo', 7, 4)
    months.look('cy', 1, 2, 6, 7, 8)
    months.boards('cy', 1)
    months.edit('bo', 11, sprint=7)
    months.edit('bo', 10, sprint=6)
    months.go('bo', 11, 'Start', set={'points': None})
    months.burn('anna', 4, 6, 7)


def april(months):
    months.say('Tuesday, 2025-04-01. The last sprints are closed, and all burndowns stay.')
    months.tick('2025-04-01 12:00:00')
    months.go('bo', 10, 'Finish')
    months.go('bo', 5, 'Start', set={'sprint': None})
    months.close('root', 6)
    months.close('anna', 2)
    months.go('bo', 10, 'Reopen', set={'points': '8'})
    months.edit('anna', 2, sprint=None)
    months.look('cy', 1, 2, 5, 6, 8)
    months.boards('cy', 1)
    months.search('anna', 'sprint IN openSprints()', 'sprint IN closedSprints() ORDER BY sprint, key DESC')
    months.burn('bo', *range(2, 8))


def limit(months):
    months.section('times', 'The limit of sprints: closed ones count as well.')
    months.times(999, 'anna', 'make_sprint', name='x')
    months.start('anna', 999, 1_000)
    months.close('anna', 999)
    months.make('cy', 'x')
    months.make('anna', 'y')
    months.make('anna', 'y')
    months.make('cy', 'y')
    months.start('anna', 1_000, 1_001)
    months.create('anna', 'Task', 'x', points='1', sprint=1_000)
    months.create('anna', 'Task', 'x', points='1', sprint=1_001)
    months.create('anna', 'Task', 'x', points='1', sprint=999)
    months.burn('bo', 1_000)
    months.search('cy', 'sprint IN openSprints()')


PARTS = [
    first_sprints, first_filters, first_issues, before_the_start, january, while_it_runs, close_of_january, february, march, april, limit,
]


def main():
    months = Months(FAULTS)
    months.section('lines', 'Months of sprints (tools/sprint_months.py).')
    for part in PARTS:
        part(months)
    months.tell()


if __name__ == '__main__':
    main()
