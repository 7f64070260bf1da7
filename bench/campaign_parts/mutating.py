"""Changes of good inputs that get behind their readers: bytes, tokens, numbers at limits, cut characters, long texts, deep nesting."""
import re

NUMBERS = [b'0', b'1', b'-1', b'-0', b'2', b'16', b'17', b'49', b'50', b'51', b'64', b'65', b'200', b'201', b'255', b'256', b'1000',
           b'1001', b'10000',
           b'19999', b'20000', b'50000', b'50001', b'2000000', b'2000001', b'2147483647', b'2147483648', b'4102444799', b'4102444800',
           b'4294967295', b'4294967296', b'9007199254740991', b'9007199254740993', b'9223372036854775807', b'9223372036854775808',
           b'-9223372036854775808', b'18446744073709551615', b'18446744073709551616', b'1' + b'0' * 40, b'0.5', b'1.0', b'1e0', b'1E+2',
           b'1e-7',
           b'1e308', b'1e400', b'01', b'+1', b'0x10', b'1.', b'.5', b'-', b'NaN', b'Infinity', b'007', b'999999999', b'999999999.999',
           b'1_000']
LAST_WHOLE = 38
BROKEN = [b'\xff', b'\xc3', b'\xe2\x82', b'\xf0\x9f\x98', b'\xc0\xaf', b'\xed\xa0\x80', b'\xf4\x90\x80\x80', b'\xef\xbb\xbf', b'\x80',
          b'\0',
          b'\x01', b'\x1f', b'\x7f', b'\xc2\x85', b'\xe2\x80\xa8', b'\xc2\xa0', b'\xe3\x80\x80', b'\xf0\x9f\x98\x80', b'e\xcc\x81',
          b'\\u0000',
          b'\\ud800', b'\\udc00\\ud800', b'\\ud83d\\ude00', b'\\u00', b'\\x', b'\\', b'\r', b'\n', b'\r\n', b'\t', b'\x0b', b'\x0c',
          b'\x1a']
TOKENS = [b'{', b'}', b'[', b']', b':', b',', b'"', b'\'', b'null', b'true', b'false', b'{}', b'[]', b'""', b'=', b'!=', b'<', b'>=', b'~',
          b'!~', b'!', b'&&',
          b'|', b'(', b')', b'AND', b'OR', b'NOT', b'EMPTY', b'WAS', b'CHANGED', b'IN', b'IS', b'FROM', b'TO', b'DURING', b'ORDER BY',
          b'DESC',
          b'user', b'call', b'set', b'jql', b'issue', b'cf[10001]', b'cf[', b'membersOf(', b'currentUser()', b'startOfDay(', b'-1w',
          b'2024-02-30',
          b'#', b'[[', b']]', b'"""', b'\'\'\'', b'%', b'%0', b'%zz', b'+', b'&', b'?', b'/', b'//', b'..', b';', b'|', b'0|i00000:',
          b'9999-12-31']
PAIRS = [(b'[', b']'), (b'{"a":', b'}'), (b'(', b')'), (b'NOT ', b''), (b'!', b''), (b'[[', b']]'), (b'{a=', b'}'), (b'"', b'"')]
LENGTHS = [1, 2, 39, 40, 41, 60, 61, 64, 65, 100, 101, 127, 128, 129, 255, 256, 257, 1_024, 1_025, 4_095, 4_096, 4_097]
DEPTHS = [1, 2, 62, 63, 64, 65, 66, 126, 127, 128, 129, 500, 3_000]
OFTEN = ['anna', 'zed', 'Open', 'Done', 'Task', 'OPS-1', 'ops-1', '2024-02-30', '0|i00000:', '1.50', 'points', 'EMPTY']
WORD = re.compile(rb'[A-Za-z_][A-Za-z0-9_.-]*')
NUMBER = re.compile(rb'-?[0-9]+(?:\.[0-9]+)?')


def place(by, data):
    return by.randrange(len(data) + 1)


def part(by, data, most=24):
    """The ends of a part of the bytes, mostly a short one."""
    start = place(by, data)
    return start, min(len(data), start + (by.randrange(most) if by.random() < 0.8 else by.randrange(len(data) + 1)))


def found(by, pattern, data):
    """A place that the pattern fits, or None."""
    fits = list(pattern.finditer(data))
    return by.choice(fits).span() if fits else None


def flipped(by, data, _):
    at = by.randrange(len(data)) if data else 0
    return data[:at] + bytes([data[at] ^ 1 << by.randrange(8)]) + data[at + 1:] if data else data


def random_bytes(by, data, _):
    start, end = part(by, data, 8)
    return data[:start] + by.randbytes(by.randrange(12)) + data[end:]


def dropped(by, data, _):
    start, end = part(by, data)
    return data[:start] + data[end:]


def doubled(by, data, _):
    start, end = part(by, data)
    return data[:end] + data[start:]


def moved(by, data, _):
    start, end = part(by, data)
    rest, at = data[:start] + data[end:], by.randrange(len(data) - (end - start) + 1)
    return rest[:at] + data[start:end] + rest[at:]


def spliced(by, data, others):
    """The first part of these bytes, and the last one of others."""
    other = by.choice(others)
    return data[:place(by, data)] + other[place(by, other):]


def broken(by, data, _):
    at = place(by, data)
    return data[:at] + by.choice(BROKEN) + data[at:]


def cut_character(by, data, _):
    """A character past ASCII without its first or its last byte."""
    span = found(by, re.compile(rb'[\xc2-\xf4][\x80-\xbf]+'), data)
    if not span:
        return broken(by, data, _)
    return data[:span[0]] + data[span[0] + 1:] if by.random() < 0.5 else data[:span[1] - 1] + data[span[1]:]


def with_token(by, data, _):
    start, end = found(by, WORD, data) or (0, 0)
    if by.random() < 0.5:
        start = end = place(by, data)
    return data[:start] + by.choice(TOKENS) + data[end:]


def with_number(by, data, _):
    start, end = found(by, NUMBER, data) or (0, 0)
    return data[:start] + by.choice(NUMBERS) + data[end:]


def other_word(by, data, others):
    """A word in another one's place."""
    span, other = found(by, WORD, data), by.choice(others)
    word = found(by, WORD, other)
    return data[:span[0]] + other[word[0]:word[1]] + data[span[1]:] if span and word else data


def other_case(by, data, _):
    span = found(by, WORD, data)
    return data[:span[0]] + data[span[0]:span[1]].swapcase() + data[span[1]:] if span else data


def stretched(by, data, _):
    """A text of a length that lies at some limit."""
    at, letter = place(by, data), by.choice([b'a', b'0', b' ', b'\t', '\u00fc'.encode(), '\U0001f600'.encode(), b'\\"', b'\\u0041', b'=',
                                             b','])
    return data[:at] + letter * (by.choice(LENGTHS) // len(letter) + by.randrange(2)) + data[at:]


def nested(by, data, _):
    """A part in many brackets, or only the open ones."""
    start, end = part(by, data)
    opens, closes = by.choice(PAIRS)
    depth = by.choice(DEPTHS)
    return data[:start] + opens * depth + data[start:end] + closes * (depth if by.random() < 0.7 else by.randrange(depth + 1)) + data[end:]


CHANGES = [flipped, flipped, random_bytes, dropped, dropped, doubled, moved, spliced, broken, broken, cut_character, with_token, with_token,
           with_token,
           with_number, with_number, with_number, other_word, other_word, other_case, stretched, nested]


def mutated(by, data, others, most=60_000):
    """These bytes with one to four changes, cut where they get longer than `most`."""
    for _ in range(by.choice([1, 1, 1, 2, 2, 3, 4])):
        data = by.choice(CHANGES)(by, data, others)
    return data[:most]


def pieces(by, data, most=12):
    """Places at which these bytes are cut into pieces, in order."""
    return sorted(by.randrange(len(data) + 1) for _ in range(by.randrange(most)))


def other_object(by, value):
    """An object with a member less, a member more, or another value in one."""
    name, kind = by.choice(list(value)), by.random()
    if kind < 0.15:
        return {it: value[it] for it in value if it != name}
    if kind < 0.25:
        return {**value, by.choice(['x', 'at', 'zz', '\u00fc']): by.choice([1, 'x', None, value[name]])}
    return {**value, name: other_value(by, value[name])}


def other_list(by, value):
    """A list with an entry less, one twice, or another value in one."""
    at, kind = by.randrange(len(value)), by.random()
    if kind < 0.3:
        return value[:at] + value[at + 1:]
    if kind < 0.5:
        return value[:at + 1] + value[at:]
    return value[:at] + [other_value(by, value[at])] + value[at + 1:]


def other_value(by, value):
    """A value of JSON in the place of another one: mostly one that differs in one place."""
    kinds = {dict: other_object, list: other_list}
    if value and type(value) in kinds and by.random() < 0.85:
        return kinds[type(value)](by, value)
    if type(value) not in (int, str) or by.random() < 0.2:
        return by.choice([None, True, 0, 1, '', 'x', [], {}, [[]], 'anna', 'Open'])
    if isinstance(value, int):
        return by.choice([value + 1, value - 1, 0, value * 2, 2 ** 32, 2 ** 64, -1, int(by.choice(NUMBERS[:LAST_WHOLE]))])
    return by.choice([value + 'x', value[:-1], value.swapcase(), '', by.choice(OFTEN)])
