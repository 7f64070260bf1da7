"""Commands for sprints: their list, making, starting and closing them, and what is left as a chart."""
import json

from . import charts, moments, names, tables
from .trouble import Refused, UnknownCall


def arguments(add):
    add('sprints', listing, 'sprints')
    made = add('make-sprint', making, 'a new sprint')
    made.add_argument('name', metavar='NAME')
    for word, command, about in (('start-sprint', starting, 'a future sprint starts'), ('close-sprint', closing, 'an active sprint is closed')):
        made = add(word, command, about)
        made.add_argument('sprint', metavar='SPRINT', help='its number; its name, where the tracker tells names')
    made = add('burndown', burning, 'what is left of a sprint, as a chart')
    made.add_argument('sprint', metavar='SPRINT', help='its number; its name, where the tracker tells names')
    made.add_argument('--rows', action='store_true', help='a table of the changes instead of the chart')


def listing(run):
    tracker = run.tracker()
    try:
        found = tracker.pages('sprints', 'sprints', 1_000)[0]
    except UnknownCall:
        found = counted(tracker)
        run.warn('this tracker does not know the call sprints; these are found by their numbers, without names')
    if run.json:
        run.screen.line(json.dumps(found, ensure_ascii=False))
        return
    columns = [tables.Column('SPRINT', 'key', right=True), tables.Column('NAME', cuts=True), tables.Column('STATE'), tables.Column('LEFT', right=True)]
    tables.show(run.screen, columns, [[str(it['sprint']), it.get('name', ''), it['state'],
                                       charts.points(it['left']) if 'left' in it else ''] for it in found])


def counted(tracker):
    """The sprints by their numbers, which are given from 1 on and never taken away, as far as there are any."""
    found = []
    while True:
        try:
            came = tracker.ask('burndown', sprint=len(found) + 1, count=1)
        except Refused as refused:
            if refused.number == 2:
                return found
            raise
        found.append({'sprint': len(found) + 1, 'state': came['state'], 'left': came['left']})


def making(run):
    made = run.tracker().ask('make_sprint', name=run.options.name)
    run.screen.line(json.dumps(made) if run.json else f'sprint {made["sprint"]}')


def starting(run):
    change(run, 'start_sprint')


def closing(run):
    change(run, 'close_sprint')


def change(run, call):
    tracker = run.tracker()
    made = tracker.ask(call, sprint=names.number(tracker, 'sprint', run.options.sprint))
    run.screen.line(json.dumps(made) if run.json else f'sprint {made["sprint"]} is {made["state"]}')


def burning(run):
    tracker, screen = run.tracker(), run.screen
    number = names.number(tracker, 'sprint', run.options.sprint)
    came = tracker.burndown(number)
    if run.json:
        screen.line(json.dumps(came, ensure_ascii=False))
        return
    screen.line(f'sprint {number}, {came["state"]}: {charts.points(came["left"])} left of {charts.points(came["start"])}')
    if run.options.rows:
        columns = [tables.Column('AT'), tables.Column('ISSUE', 'key'), tables.Column('BY', right=True), tables.Column('LEFT', right=True)]
        tables.show(screen, columns, [[moments.text(it['at']), it['issue'], charts.points(it['by'], True), charts.points(it['left'])]
                                      for it in came['rows']])
    elif came['rows']:
        for line in charts.burndown(came['start'], came['rows'], screen.width or 80, screen.blocks):
            screen.line(line)
