#!/usr/bin/env python3
"""Rows for the test `agrees_with_berlin`: date terms in Berlin from 2023 to 2026, by Python's zoneinfo.

Each row: the function's place in the list of names, its argument, a moment,
how far the second lies after the moment, how far a mark lies
after the second, and how long it takes until the second compares otherwise with the mark (0: for ever). After 2026 the clock stays at +01:00, since the
calendar of the test has no further step.
"""
import datetime as dt
import random
import zoneinfo

BERLIN = zoneinfo.ZoneInfo("Europe/Berlin")
UTC = dt.timezone.utc
EPOCH = dt.date(1970, 1, 1)
LAST = 4_102_444_799
END = int(dt.datetime(2026, 12, 31, tzinfo=UTC).timestamp())


def local_date(at):
    if at < END:
        return dt.datetime.fromtimestamp(at, BERLIN).date()
    return EPOCH + dt.timedelta(seconds=at + 3600)


def midnight(date):
    """The first second of a local date: Berlin turns its clocks at 2 and 3 o'clock, so it is never in doubt."""
    if dt.date(2023, 1, 1) <= date < dt.date(2026, 12, 31):
        return int(dt.datetime(date.year, date.month, date.day, tzinfo=BERLIN).timestamp())
    return (date - EPOCH).days * 86400 - 3600


def months_later(date, months):
    number = date.year * 12 + date.month - 1 + months
    year, month = divmod(number, 12)
    first = dt.date(year, month + 1, 1)
    after = dt.date(year + (month + 1) // 12, (month + 1) % 12 + 1, 1)
    return min(first + dt.timedelta(days=date.day - 1), after - dt.timedelta(days=1))


def second(name, argument, at):
    edge, period = ("end", name[5:]) if name.startswith("endOf") else ("start", name[7:])
    date = local_date(at)
    if period == "Week":
        date -= dt.timedelta(days=date.weekday())
    elif period == "Month":
        date = date.replace(day=1)
    elif period == "Year":
        date = date.replace(month=1, day=1)
    own = {"Day": "d", "Week": "w", "Month": "M", "Year": "y"}[period]
    if edge == "end":
        date = {"Day": date + dt.timedelta(days=1), "Week": date + dt.timedelta(days=7)}.get(period) or months_later(date, 1 if period == "Month" else 12)
    sign = -1 if argument.startswith("-") else 1
    months = days = minutes = 0
    for term in argument.lstrip("+-").split():
        number, unit = (int(term[:-1]), term[-1]) if term[-1].isalpha() else (int(term), own)
        months += {"y": 12, "M": 1}.get(unit, 0) * number
        days += {"w": 7, "d": 1}.get(unit, 0) * number
        minutes += {"h": 60, "m": 1}.get(unit, 0) * number
    date = months_later(date, sign * months) + dt.timedelta(days=sign * days)
    return midnight(date) + sign * minutes * 60 - (edge == "end")


def order(a, b):
    return (a > b) - (a < b)


def change(name, argument, at, mark):
    """The second of a boundary changes at midnights alone."""
    now = order(second(name, argument, at), mark)
    date = local_date(at)
    while True:
        date += dt.timedelta(days=1)
        moment = midnight(date)
        if moment > LAST or (now > 0):
            return 0
        if order(second(name, argument, moment), mark) != now:
            return moment


def main():
    pick = random.Random(7)
    names = [e + p for e in ("startOf", "endOf") for p in ("Day", "Week", "Month", "Year")]
    arguments = ["", "1", "-1", "+1M", "-1M 2d", "1y 1M 1w 1d", "-30d", "2h", "-90m", "-1y", "3M", "1w 3h 5m"]
    turns = [1679792400, 1698541200, 1711846800, 1729990800, 1743296400, 1761440400]
    for k in range(240):
        name, argument = names[k % 8], arguments[(k // 8) % 12]
        if k % 3 == 0:
            at = pick.choice(turns) + pick.randint(-172800, 172800)
        else:
            at = pick.randint(1677628800, 1790000000)
        here = second(name, argument, at)
        mark = here + pick.choice([0, 1, -1, 86400, 3 * 86400 + 7, 40 * 86400])
        later = change(name, argument, at, mark)
        print(f'    ({k % 8}, "{argument}", {at}, {here - at}, {mark - here}, {later - at if later else 0}),')


main()
