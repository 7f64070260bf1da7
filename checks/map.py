#!/usr/bin/env python3
"""Sees that docs/TOUCHES.md has each file that names a call, an answer, a refusal, an effect, a plan, a kind of row, a field or a subject of queries.

usage: python3 checks/map.py [write]

A file of crates/*/src, specs or proofs names one where its code has the variant: `Call::Edit` in a .rt file, and in contracts and .antt
files the constructor as it is imported, by its own name or behind the word that its type goes by. What the page lacks, and what it has that
isn't so any more, is told, and the status is 1. With the word `write` the page's tables are written anew.

A table stands between two comments, `<!-- every call -->` and `<!-- end -->`, with the word of KINDS below. `every` has the files that
name at least half of the variants, `each` has the others, variant by variant.
"""
import collections
import pathlib
import re
import sys

TOP = pathlib.Path(__file__).resolve().parent.parent
PAGE = TOP / 'docs/TOUCHES.md'

# The word of each kind, and the types that have a variant for each of it. Of several types in brackets the first one that is declared counts.
KINDS = {
    'call': ['Call', 'CallKind'],
    'answer': ['Answer'],
    'refusal': [('Cause', 'Refusal')],
    'effect': ['Effect'],
    'plan': ['Plan'],
    'row': ['Part'],
    'field': ['FieldNo'],
    'subject': ['Subject', 'SortField'],
}
FOLDERS = ('specs', 'src', 'proofs')
USES = re.compile(r'(?m)^\s*(?:ghost |pub )*use .*$')
NAME = r'[A-Z]\w*'


def code_of(file):
    mark = '//' if file.suffix == '.rt' else '--'
    return re.sub(rf'(?m)(^|\s){mark}.*$', '', file.read_text())


CODE = {it: code_of(it) for folder in FOLDERS for it in sorted(TOP.glob(f'crates/*/{folder}/**/*')) if it.suffix in ('.rt', '.antt')}


def declared(name):
    """The file that declares the type of that name, and its variants or constants; none where there is no such type."""
    for file, text in CODE.items():
        if found := re.search(rf'(?m)^pub enum {name}(?:<[^>{{]*>)? \{{(.*?)^\}}', text, re.S):
            return file, re.findall(rf'(?m)^    ({NAME})\b(?= \{{|,|\()', found[1])
        if found := re.search(rf'(?m)^pub data {name} : .*? where\n((?:\s+.*\n|\n)*)', text):
            return file, re.findall(rf'(?m)^\s+({NAME}) : ', found[1])
        if found := re.findall(rf'pub const ({NAME}): {name} =', text):
            return file, found
    return None, []


def type_of(name):
    """The type, where several may stand for it."""
    return next((it for it in name if declared(it)[0]), name[-1]) if isinstance(name, tuple) else name


def imported(text, name, crate):
    """By which words the variants of that type go in this text: the words before them, and each that has a word of its own."""
    module = rf'Rattle\.{crate}\.specs\.[\w.]*\b{name}(?:\.TheVariants)?'
    words = set(re.findall(rf'{module} as (\w+)', text))
    own = {}
    for names in re.findall(rf'{module}\.\{{([^}}]*)\}}', text):
        for it in names.split(','):
            variant, _, word = it.strip().partition(' as ')
            own[variant] = word or variant
    return words, own


def named_in(file, name, home, wanted):
    """Those of the variants that the file names, of the type of that name which is declared in the file `home`."""
    text = CODE[file]
    if file == home:
        return set(wanted)
    if name not in text:
        return set()
    words, own = imported(text, name, home.relative_to(TOP / 'crates').parts[0])
    rest = USES.sub('', text)
    found = set(re.findall(rf'\b{name}::({NAME})', rest)) if file.suffix == '.rt' else set()
    if words:
        found |= set(re.findall(rf'(?<![\w.])(?:{"|".join(words)})\.({NAME})', rest))
    if own:
        seen = set(re.findall(rf'(?<![\w.:])({"|".join(map(re.escape, own.values()))})(?!\w)', rest))
        found |= {it for it, word in own.items() if word in seen}
    return found & set(wanted)


def places(names):
    """The variants, and of each file those that it names. Several types have one table, whose rows are the variants of the first."""
    rows, files = [], collections.defaultdict(set)
    for name in map(type_of, names):
        home, wanted = declared(name)
        if not home:
            sys.exit(f'no type {name} is declared')
        rows += [it for it in wanted if it not in rows]
        for file in CODE:
            files[file] |= named_in(file, name, home, wanted)
    return rows, files


def cells(files):
    """The files, those of each folder in a cell of their own."""
    shown = [file.relative_to(TOP / 'crates') for file in files]
    return ' | '.join(', '.join(f'`{it}`' for it in shown if it.parts[1] == folder) for folder in FOLDERS)


def tables(names):
    """The tables `every` and `each` of these types."""
    rows, files = places(names)
    most = {file for file, found in files.items() if 2 * len(found) >= len(rows)}
    crates = sorted({file.relative_to(TOP / 'crates').parts[0] for file in most}, key=crate_order)
    every = [f'| `{crate}` | {cells(file for file in sorted(most) if file.is_relative_to(TOP / "crates" / crate))} |' for crate in crates]
    each = [f'| `{row}` | {cells(file for file in sorted(files) if row in files[file] and file not in most)} |' for row in rows]
    heads = ' | specs | src | proofs |\n|---|---|---|---|\n'
    return {'every': '| Crate' + heads + '\n'.join(every), 'each': '| Name' + heads + '\n'.join(each)}


def crate_order(crate):
    lines = (TOP / 'crates.txt').read_text().split('\n')
    return next((at for at, line in enumerate(lines) if line.split(':')[0].split(' ')[0] == crate), len(lines))


def differences(kind, had, wanted):
    """What the page's table lacks, and what it has beside."""
    def found(table):
        rows = [line.split(' | ') for line in table.split('\n')[2:]]
        return {(row[0].strip('| `'), name) for row in rows for cell in row[1:] for name in re.findall(r'`([^`]+)`', cell)}
    yield from (f'{kind}: lacks {name} for {row}' for row, name in sorted(found(wanted) - found(had)))
    yield from (f'{kind}: has {name} for {row}, which it doesn\'t name' for row, name in sorted(found(had) - found(wanted)))


def main():
    if sys.argv[1:] not in ([], ['write']):
        sys.exit(__doc__)
    page, told, seen = PAGE.read_text(), [], set()

    def looked(found):
        kind, word, had = found[1], found[2], found[3].strip('\n')
        seen.add((kind, word))
        wanted = made[word][kind]
        told.extend(differences(f'{kind} {word}', had, wanted))
        return f'<!-- {kind} {word} -->\n{wanted}\n<!-- end -->'

    made = {word: tables(names) for word, names in KINDS.items()}
    new = re.sub(r'<!-- (every|each) (\w+) -->\n(.*?)<!-- end -->', looked, page, flags=re.S)
    told += [f'there is no table `{kind} {word}`' for word in KINDS for kind in ('every', 'each') if (kind, word) not in seen]
    if sys.argv[1:] == ['write']:
        PAGE.write_text(new)
        return 0
    for it in told:
        print(f'{PAGE.relative_to(TOP)}: {it}')
    return 1 if told else 0


sys.exit(main())
