"""The chart of a burndown in text."""
from . import moments

HEIGHT = 8
EIGHTHS = ' ▁▂▃▄▅▆▇█'
PLAIN = ' ....:::#'


def points(thousandths, sign=False):
    """Thousandths of points as people write them."""
    whole, rest = divmod(abs(thousandths), 1_000)
    text = f'{whole}.{rest:03}'.rstrip('0').rstrip('.')
    return ('-' if thousandths < 0 else '+' if sign else '') + text


def burndown(start, rows, room, blocks):
    """The lines of a chart: what was left over the time of the rows, each column what was left at the end of its part of the time."""
    most = max([start] + [row['left'] for row in rows]) or 1_000
    labels = {0: points(most), HEIGHT // 2: points(most // 2), HEIGHT: '0'}
    side = max(len(label) for label in labels.values())
    wide = max(8, room - side - 3)
    levels = [level * HEIGHT * 8 // most for level in lefts(start, rows, wide)]
    signs = EIGHTHS if blocks else PLAIN
    edge, corner, floor = ('│', '└', '─') if blocks else ('|', '+', '-')
    lines = []
    for at in range(HEIGHT):
        floor_of_line = (HEIGHT - 1 - at) * 8
        bar = ''.join(signs[max(0, min(8, level - floor_of_line))] for level in levels)
        lines.append(f'{labels.get(at, ""):>{side}} {edge}{bar}'.rstrip())
    lines.append(f'{labels[HEIGHT]:>{side}} {corner}{floor * wide}')
    begin, end = moments.text(rows[0]['at']), moments.text(rows[-1]['at'])
    gap = wide - len(begin) - len(end)
    lines.append(' ' * (side + 2) + (begin + ' ' * gap + end if gap > 1 else begin[:wide]))
    return lines


def lefts(start, rows, wide):
    """What was left at the end of each part of the time from the first row to the last one, behind a column of what was left at the start.
    Where no time passed, each row has its own part."""
    begin, end = rows[0]['at'], rows[-1]['at']
    found, at, left = [start], 0, start
    for part in range(1, wide):
        if end == begin:
            upto = rows[:max(1, len(rows) * part // (wide - 1))][-1]
            left = upto['left']
        else:
            moment = begin + (end - begin) * part // (wide - 1)
            while at < len(rows) and rows[at]['at'] <= moment:
                left = rows[at]['left']
                at += 1
        found.append(left)
    return found
