"""Texts, names and numbers made to fit what a tracker takes; what is lost by that is noted."""
import re
import unicodedata

GERMAN = str.maketrans({'ä': 'ae', 'ö': 'oe', 'ü': 'ue', 'ß': 'ss', 'ø': 'o', 'ł': 'l', 'æ': 'ae', 'đ': 'd'})


def cut_bytes(text, room):
    """As much of the text's beginning as so many bytes hold, whole characters."""
    return text.encode()[:room].decode(errors='ignore')


def summary(text, left, where):
    """A summary: 1 to 255 bytes on one line."""
    one = ''.join(' ' if ord(char) < 32 else char for char in without_surrogates(text or '')).strip()
    if len(one.encode()) > 255:
        left.once('summaries cut to 255 bytes', where)
        one = cut_bytes(one, 252).rstrip() + '…'
    if not one:
        left.once('issues without a summary, which got one', where)
        one = '(no summary)'
    return one


def description(text, left, where):
    """A description: at most 4,096 bytes, lines and tabs, or None."""
    if not text:
        return None
    text = without_surrogates(text).replace('\r\n', '\n').replace('\r', '\n')
    text = ''.join(char for char in text if char in '\n\t' or ord(char) >= 32)
    if len(text.encode()) > 4_096:
        left.once('descriptions cut to 4,096 bytes', where)
        text = cut_bytes(text, 4_093) + '…'
    return text or None


def without_surrogates(text):
    return text.encode(errors='replace').decode()


def name(text, room=60):
    """A name of a setup: 1 to 60 bytes without control characters, or None."""
    text = ' '.join(''.join(char for char in without_surrogates(text or '') if unicodedata.category(char) != 'Cc').split())
    return cut_bytes(text, room).strip() or None


def labels(texts, left, where):
    """Labels in byte order, each once: at most 16 of 1 to 64 bytes without spaces; or None."""
    found = set()
    for text in texts:
        label = re.sub(r'\s+', '-', ''.join(char for char in without_surrogates(text).strip() if unicodedata.category(char) != 'Cc' or char.isspace()))
        if label != text:
            left.once('labels with hyphens in the place of spaces', f'{where}: {text!r}')
        if len(label.encode()) > 64:
            left.once('labels cut to 64 bytes', f'{where}: {text!r}')
            label = cut_bytes(label, 64)
        if label:
            found.add(label)
    kept = sorted(found, key=str.encode)
    if len(kept) > 16:
        left.once('labels beyond the 16 that an issue may have', f'{where}: {", ".join(kept[16:])}')
    return kept[:16] or None


def number(value, left, where):
    """A number as points have it: up to nine digits, three behind the point, no minus; or None."""
    if value in (None, ''):
        return None
    try:
        found = float(str(value))
    except ValueError:
        left.once('points that are no numbers', f'{where}: {value}')
        return None
    text = f'{found:.3f}'.rstrip('0').rstrip('.')
    if not re.fullmatch(r'[0-9]{1,9}(\.[0-9]{1,3})?', text):
        left.once('points that do not fit', f'{where}: {value}')
        return None
    if abs(float(text) - found) > 1e-9:
        left.once('points rounded to three digits', f'{where}: {value}')
    return text


def day(value):
    """The day at the beginning of a text, from 1970 to 2099, or None."""
    found = re.match(r'(19[7-9]\d|20\d\d)-\d\d-\d\d', str(value or ''))
    return found[0] if found else None


class Users:
    """Names of users here, for those of elsewhere: small letters, digits, `.`, `_` and `-`, each user's own."""

    def __init__(self, told):
        self.told, self.found = {key.lower(): name for key, name in told.items()}, {}

    def name(self, ident, *others):
        """The name of whom elsewhere knows by `ident`; `others` are what he is called, the best first."""
        if ident not in self.found:
            wanted = next((self.told[it.lower()] for it in (ident, *others) if it and it.lower() in self.told), None)
            self.found[ident] = wanted or self.fresh(next((it for it in map(user_name, others) if it), None) or user_name(ident) or 'nobody')
        return self.found[ident]

    def fresh(self, wanted):
        taken = set(self.found.values()) | set(self.told.values())
        found, number = wanted, 2
        while found in taken:
            found, number = f'{wanted[:36]}-{number}', number + 1
        return found


def user_name(text):
    """A name of a user like this text, or None."""
    text = unicodedata.normalize('NFKD', (text or '').partition('@')[0].lower().translate(GERMAN))
    plain = re.sub(r'[^a-z0-9._-]+', '.', ''.join(char for char in text if not unicodedata.combining(char)))
    return plain.strip('.-')[:40] or None
