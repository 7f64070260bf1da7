"""Reading what a spreadsheet saves: encodings, separators, numbers with a decimal comma, and dates as people write them."""
import csv
import io
import re

from .trouble import Unreachable, Usage

SEPARATORS = (';', ',', '\t')


class Sheet:
    """A table: its heads, its rows with the lines on which they begin, and how it was written."""

    def __init__(self, heads, rows, encoding, separator):
        self.heads, self.rows, self.encoding, self.separator = heads, rows, encoding, separator
        # Where the comma separates digits, cells are separated by semicolons.
        self.comma = separator == ';'

    def how(self):
        names = {';': 'semicolons', ',': 'commas', '\t': 'tabs'}
        return f'{self.encoding}, {names.get(self.separator, repr(self.separator))} between cells'


def read(source, encoding=None, separator=None):
    """The table that these bytes are."""
    text, found = decoded(source, encoding)
    first, before = text.partition('\n')[0].strip().lower(), 1
    if re.fullmatch(r'"?sep=.?"?', first):
        # A line by which Excel is told the separator.
        separator = separator or first.strip('"')[4:] or '\t'
        text, before = text.partition('\n')[2], 2
    separator = separator or sniffed(text)
    csv.field_size_limit(1 << 24)
    reader = csv.reader(io.StringIO(text, newline=''), delimiter=separator, strict=True)
    rows = []
    while True:
        line = reader.line_num + before
        try:
            row = next(reader)
        except StopIteration:
            break
        except csv.Error as fault:
            raise Unreachable(f'line {line}: {fault}') from None
        if any(cell.strip() for cell in row):
            rows.append((line, [cell.strip() for cell in row]))
    if not rows:
        raise Unreachable('there is no line with the names of columns')
    heads = rows[0][1]
    while heads and not heads[-1]:
        heads.pop()
    return Sheet(heads, rows[1:], found, separator)


def decoded(source, encoding):
    """The text, and the encoding by which it is one."""
    if encoding:
        try:
            return source.decode(encoding), encoding
        except LookupError:
            raise Usage(f'there is no encoding {encoding}') from None
        except UnicodeDecodeError as fault:
            raise Unreachable(f'it is no {encoding}, at byte {fault.start}') from None
    for mark, name in ((b'\xef\xbb\xbf', 'utf-8-sig'), (b'\xff\xfe', 'utf-16'), (b'\xfe\xff', 'utf-16')):
        if source.startswith(mark):
            try:
                return source.decode(name), 'UTF-8' if name == 'utf-8-sig' else 'UTF-16'
            except UnicodeDecodeError as fault:
                raise Unreachable(f'it begins as {name} and is none, at byte {fault.start}') from None
    try:
        return source.decode('utf-8'), 'UTF-8'
    except UnicodeDecodeError:
        pass
    try:
        return source.decode('cp1252'), 'Windows-1252'
    except UnicodeDecodeError as fault:
        line = source[:fault.start].count(b'\n') + 1
        raise Unreachable(f'line {line} is neither UTF-8 nor Windows-1252; --encoding names what it is') from None


def sniffed(text):
    """The separator: the one that stands most often in the first line, outside quotes."""
    counts, quoted, seen = dict.fromkeys(SEPARATORS, 0), False, False
    for char in text:
        seen = seen or not char.isspace()
        if char == '"':
            quoted = not quoted
        elif char in '\r\n' and not quoted and seen:
            break
        elif char in counts and not quoted:
            counts[char] += 1
    return max(SEPARATORS, key=lambda sign: counts[sign]) if any(counts.values()) else ','


class Unfit(Exception):
    """A cell that can't be read, with the reason."""


def number(cell, comma):
    """The text of a number as a tracker takes it. With a decimal comma points may stand between groups of three digits."""
    text = cell.replace('\u00a0', '').replace('\u202f', '').replace("'", '') if cell else cell
    if comma and re.fullmatch(r'-?[0-9]{1,3}(\.[0-9]{3})+(,[0-9]+)?|-?[0-9]+(,[0-9]+)?', text):
        text = text.replace('.', '').replace(',', '.')
    elif comma or not re.fullmatch(r'-?[0-9]{1,3}(,[0-9]{3})+(\.[0-9]+)?|-?[0-9]+(\.[0-9]+)?', text):
        raise Unfit(f'{cell!r} is no number with a decimal {"comma" if comma else "point"}')
    else:
        text = text.replace(',', '')
    # Zeros that a spreadsheet shows behind the point say nothing.
    return text.rstrip('0').rstrip('.') if '.' in text else text


def date(cell, order):
    """A day as yyyy-mm-dd. Of one with slashes `order` tells what stands first: dmy, mdy, or None where it isn't known."""
    text = re.sub(r'[ T]00:00(:00(\.0+)?)?$', '', cell)
    if found := re.fullmatch(r'(\d{4})-(\d{1,2})-(\d{1,2})', text):
        year, month, day = found.groups()
    elif found := re.fullmatch(r'(\d{1,2})\. ?(\d{1,2})\. ?(\d{4}|\d{2})', text):
        day, month, year = found.groups()
    elif found := re.fullmatch(r'(\d{1,2})/(\d{1,2})/(\d{4})', text):
        first, second, year = found.groups()
        if order is None and int(first) <= 12 and int(second) <= 12 and first != second:
            raise Unfit(f'{cell!r} may be two days; --dates dmy or --dates mdy tells which')
        month_first = order == 'mdy' if order else int(second) > 12
        month, day = (first, second) if month_first else (second, first)
    else:
        raise Unfit(f'{cell!r} is no day; 31.12.2025 and 2025-12-31 are')
    year = year if len(year) == 4 else '20' + year
    return f'{year}-{int(month):02}-{int(day):02}'
