"""Commands about the tracker itself: init, where, tick, group, call."""
import json
import sys

from . import configuration, moments
from .trouble import Unreachable, Usage


def arguments(add):
    made = add('init', initiating, 'a new tracker in a file, of a setup')
    made.add_argument('setup', metavar='SETUP', help='a setup, as docs/SETUP.md tells; - for standard input')
    add('where', telling_where, 'which tracker is asked, by whom, and whether it answers')
    made = add('tick', ticking, 'the clock of a tracker in a file is set')
    made.add_argument('moment', metavar='MOMENT', help='2025-12-31, "2025-12-31 14:30", @SECONDS or now')
    made.add_argument('--yes', action='store_true', help='also where that lies ahead of this machine\'s clock')
    made = add('group', grouping, 'the members of a group are these, and no others')
    made.add_argument('group', metavar='GROUP')
    made.add_argument('members', nargs='*', metavar='USER')
    made.add_argument('--yes', action='store_true', help='also where nobody is left')
    made = add('call', calling, 'any call, and its reply as JSON')
    made.add_argument('call', metavar='CALL')
    made.add_argument('members', nargs='*', metavar='MEMBER=JSON', help='from=0, jql=\'"status = Open"\'; what is no JSON is a text')


def initiating(run):
    place = run.place()
    if not place.file:
        raise Usage('init makes a file: vug --file FILE init SETUP')
    try:
        if run.options.setup == '-':
            setup = sys.stdin.buffer.read()
        else:
            with open(run.options.setup, 'rb') as source:
                setup = source.read()
    except OSError as fault:
        raise Unreachable(f'{run.options.setup} cannot be read: {fault.strerror}') from None
    from . import file_calls
    file_calls.make(place.program or 'tracker', place.file, setup)
    run.screen.line(f'{place.file} is a new tracker')


def telling_where(run):
    place = run.place()
    told = {'configuration': configuration.path(), 'tracker': place.url or place.file, 'user': place.user}
    run.tracker().ask('balance')
    setup = run.tracker().setup()
    if setup:
        told['projects'] = ', '.join(it['key'] for it in setup['projects'])
    else:
        told['projects'] = 'this tracker does not tell them (it does not know the call describe)'
    if run.json:
        run.screen.line(json.dumps(told, ensure_ascii=False))
        return
    for name, text in told.items():
        run.screen.line(f'{name:13}  {text}')
    run.screen.line('it answers')


def ticking(run):
    tracker, moment = run.tracker(), moments.read(run.options.moment)
    if not hasattr(tracker.connection, 'ticks'):
        raise Usage('a server sets its clock by itself; tick is for a file')
    doubt = moments.far_ahead(moment)
    if doubt and not run.options.yes:
        raise Usage(doubt + '; --yes sets it all the same')
    # The clock goes where it is told to, and not first to this machine's.
    tracker.connection.ticks = False
    made = tracker.ask('tick', to=moment)
    run.screen.line(json.dumps(made) if run.json else f'the tracker\'s clock is at {moments.text(made["moment"])}')


def grouping(run):
    options = run.options
    if not options.members and not options.yes:
        raise Usage(f'nobody would be left in {options.group}; --yes does it')
    made = run.tracker().ask('set_group', group=options.group, members=options.members)
    run.screen.line(json.dumps(made, ensure_ascii=False) if run.json else f'{made["group"]} has {made["members"]} members')


def calling(run):
    members = {}
    for word in run.options.members:
        name, sign, value = word.partition('=')
        if not sign:
            raise Usage(f'{word!r} is no MEMBER=JSON')
        try:
            members[name] = json.loads(value)
        except ValueError:
            members[name] = value
    for name in ('user', 'call'):
        if name in members:
            raise Usage(f'{name} is no member that can be given here')
    run.screen.line(json.dumps(run.tracker().ask(run.options.call, **members), ensure_ascii=False, separators=(',', ':')))
