"""Tables as wide as the terminal. What has no room is cut at its end, and where that doesn't do, the last columns are left out."""
from .terminal import clean, cut, filled, width

GAP = '  '
LEAST = 8  # a column that can be cut has at least so much room


class Column:
    """A column: its head, how it is painted (a name, or a function of the cell's row), and whether it may be cut."""

    def __init__(self, head, paint=None, cuts=False, right=False):
        self.head, self.paint, self.cuts, self.right = head, paint, cuts, right


def show(screen, columns, rows, heads=True):
    """Writes a table. Columns without any text are left out."""
    rows = [[clean(cell) for cell in row] for row in rows]
    shown = [at for at in range(len(columns)) if at == 0 or any(row[at] for row in rows)]
    rooms = fitted(columns, rows, shown, screen.width, heads)
    if heads and rows:
        cells = [filled(cut(columns[at].head, rooms[at], screen.dots()), rooms[at], columns[at].right) for at in shown if at in rooms]
        screen.line(screen.paint('head', GAP.join(cells).rstrip()))
    for row in rows:
        cells = []
        for at in shown:
            if at in rooms:
                column, text = columns[at], cut(row[at], rooms[at], screen.dots())
                text = filled(text, rooms[at], column.right)
                name = column.paint(row) if callable(column.paint) else column.paint
                cells.append(screen.paint(name, text) if name else text)
        screen.line(GAP.join(cells).rstrip() if not screen.colours else GAP.join(cells))


def fitted(columns, rows, shown, room, heads):
    """The width of each column that is shown, by its place."""
    widths = {at: max([width(row[at]) for row in rows] + [width(columns[at].head) if heads else 0]) for at in shown}
    if room is None:
        return widths
    # The key and the last column, a summary, stay; the one before the last goes first.
    while len(widths) > 2 and over(widths, room, lambda at: min(widths[at], LEAST) if columns[at].cuts else widths[at]) > 0:
        widths.pop(sorted(widths)[-2])
    while (more := over(widths, room, widths.get)) > 0:
        cutting = [at for at in widths if columns[at].cuts and widths[at] > LEAST]
        if not cutting:
            last = sorted(widths)[-1]
            widths[last] = max(1, widths[last] - more)
            break
        # The widest column gives way, as far as the next wide one.
        widest = max(cutting, key=widths.get)
        others = [widths[at] for at in cutting if widths[at] < widths[widest]]
        widths[widest] -= max(1, min(more, widths[widest] - max([LEAST] + others)))
    return widths


def over(widths, room, wide):
    """How much wider than the room all columns are, each with so much."""
    return sum(map(wide, widths)) + len(GAP) * (len(widths) - 1) - room
