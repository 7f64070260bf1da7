"""Moments, which are seconds since 1970 in UTC, as people write and read them: in the local time of this machine."""
import datetime
import re
import time

from .trouble import Usage

LAST = 4_102_444_799  # the last second of 2099, a tracker's last moment
DAY = 86_400


def now():
    """The present moment of this machine's clock, as far as a tracker's clock goes."""
    return max(0, min(int(time.time()), LAST))


def text(moment):
    """A moment to the minute."""
    return datetime.datetime.fromtimestamp(moment).strftime('%Y-%m-%d %H:%M')


def day(moment):
    return datetime.datetime.fromtimestamp(moment).strftime('%Y-%m-%d')


def read(words):
    """The moment that is meant: `now`, `@` and seconds, a day, or a day and a time."""
    if words == 'now':
        return now()
    if re.fullmatch(r'@[0-9]{1,10}', words):
        moment = int(words[1:])
    else:
        for form in ('%Y-%m-%d', '%Y-%m-%d %H:%M', '%Y-%m-%d %H:%M:%S', '%Y-%m-%dT%H:%M:%S'):
            try:
                moment = int(datetime.datetime.strptime(words, form).timestamp())
                break
            except ValueError:
                continue
        else:
            raise Usage(f'{words!r} is no moment; write 2025-12-31, "2025-12-31 14:30", @SECONDS or now')
    if not 0 <= moment <= LAST:
        raise Usage(f'{words} does not lie between 1970 and 2099')
    return moment


def far_ahead(moment):
    """Why setting a tracker's clock to this moment needs a second thought, or nothing."""
    ahead = moment - int(time.time())
    if ahead <= DAY:
        return None
    how = f'{ahead // DAY} days' if ahead < 730 * DAY else f'{ahead // (365 * DAY)} years'
    return f'{text(moment)} lies {how} ahead of this machine\'s clock, and a tracker\'s clock never goes back'
