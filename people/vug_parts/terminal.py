"""Where output goes: how wide it is, whether it takes colours and which signs, and what a character takes of its width."""
import os
import shutil
import sys
import unicodedata

COLOURS = {'key': '33', 'head': '2', 'todo': '34', 'progress': '36', 'done': '32', 'was': '31', 'is': '32', 'title': '1'}


class Screen:
    """Standard output as a terminal, or as a pipe or a file, which has no width and no colours unless they are asked for."""

    def __init__(self, colour='auto', out=None):
        self.out = out or sys.stdout
        self.terminal = self.out.isatty()
        # COLUMNS counts for a pipe too, as the pages' examples and `watch` want it.
        asked = os.environ.get('COLUMNS', '')
        if asked.isdigit() and int(asked) > 0:
            self.width = int(asked)
        else:
            self.width = shutil.get_terminal_size().columns if self.terminal else None
        plain = os.environ.get('NO_COLOR') or os.environ.get('TERM') == 'dumb'
        self.colours = colour == 'always' or (colour == 'auto' and self.terminal and not plain)
        self.blocks = 'utf' in (getattr(self.out, 'encoding', None) or '').lower()

    def paint(self, name, text):
        code = COLOURS.get(name)
        return f'\033[{code}m{text}\033[0m' if self.colours and code and text else text

    def line(self, text=''):
        print(text, file=self.out)

    def dots(self):
        return '…' if self.blocks else '~'


def clean(text):
    """A text on one line without characters that a terminal would obey: controls, and those that turn the direction of writing."""
    return ''.join(' ' if char in '\t\n\r' else char if harmless(char) else '\ufffd' for char in text)


def harmless(char):
    return unicodedata.category(char) not in ('Cc', 'Cs') and not ('\u202a' <= char <= '\u202e' or '\u2066' <= char <= '\u2069')


def clean_lines(text):
    """The lines of a text, each clean."""
    return [clean(line) for line in text.replace('\t', '    ').split('\n')]


def char_width(char):
    if unicodedata.combining(char) or unicodedata.category(char) in ('Mn', 'Me', 'Cf'):
        return 0
    return 2 if unicodedata.east_asian_width(char) in 'WF' else 1


def width(text):
    return len(text) if text.isascii() else sum(char_width(char) for char in text)


def cut(text, room, dots='…'):
    """The text, or as much of its beginning as there is room for, and dots."""
    if width(text) <= room:
        return text
    if room <= 0:
        return ''
    kept, used = [], 0
    for char in text:
        wide = char_width(char)
        if used + wide > room - width(dots):
            break
        kept.append(char)
        used += wide
    return ''.join(kept) + dots


def filled(text, room, right=False):
    """The text with spaces up to a width."""
    spaces = ' ' * max(0, room - width(text))
    return spaces + text if right else text + spaces


def wrapped(text, room):
    """A line as lines of at most so much width, cut between words where that can be."""
    lines, now = [], ''
    for word in text.split(' '):
        joined = f'{now} {word}' if now else word
        if width(joined) <= room:
            now = joined
            continue
        if now:
            lines.append(now)
        while width(word) > room:
            part = cut(word, room, '')
            part = part or word[0]
            lines.append(part)
            word = word[len(part):]
        now = word
    return lines + [now]
