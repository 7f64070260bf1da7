#!/usr/bin/env python3
"""Sees that what the pages name is there: README.md, CONTRIBUTING.md, docs/*.md and the README.md of each folder below.

usage: python3 checks/page_names.py

- A link leads to a file of the repository, and its `#` to a heading there.
- README.md has a link to each page of docs/, docs/ARCHITECTURE.md one to the page of each crate, and the README.md of bench/, checks/ and tools/ names each file of its folder.
- The names in backticks of a link to a .rt or .antt file are defined in that file.
- A path in backticks that begins with src/, specs/ or proofs/ is one of the page's crate, or with a crate's name in front one of that
  crate; .rt and .antt may be left out. One that begins with bench/, checks/, tools/ or docs/ is one of the repository.
- `Type::call` and `laws::law` in backticks are calls of the page's crate, or on other pages of any crate.
- In the last column of a crate's table, the names behind `call`: are clauses of that call's contract, or of one of the calls that
  stand there.

What isn't there is told with its place. The status is 1 where anything is told.
"""
import pathlib
import re
import sys
from functools import cache

TOP = pathlib.Path(__file__).resolve().parent.parent
CRATES = {it.name: it for it in sorted((TOP / 'crates').iterdir()) if it.is_dir()}
FOLDERS = [TOP / it for it in ('bench', 'checks', 'tools')]
WORDS = r'(?:abbrev |unfoldable |private )*(?:pub )?(?:data |record )?'


def calls_of(crate):
    """The crate's functions, by name and by Type::name, each with the names of its clauses."""
    found = {}
    for file in sorted(CRATES[crate].glob('src/**/*.rt')):
        owner, names = None, []
        for line in file.read_text().split('\n'):
            if re.match(r'(impl|pub trait|trait)\b', line):
                bare = re.sub(r'<[^<>]*(<[^<>]*>)?[^<>]*>', '', line).split(' for ')[-1]
                owner = (re.findall(r'[A-Z]\w*', bare) or [None])[0]
            elif line.startswith('}'):
                owner = None
            call = re.match(r'\s*(?:pub(?:\(crate\))? )?(?:const )?fn (\w+)', line)
            if call:
                names = [call[1]] + ([f'{owner}::{call[1]}'] if owner else [])
                for name in names:
                    found.setdefault(name, set())
            clause = re.match(r'\s*(?:ensures|requires)\s+(\w+)\s*\{', line)
            for name in names if clause else []:
                found[name].add(clause[1])
    return found


CALLS = {it: calls_of(it) for it in CRATES}


@cache
def text_of(file):
    return file.read_text()


def defines(file, name):
    """Whether the file has a definition of that name."""
    if file.suffix == '.antt':
        return re.search(rf'(?m)^\s*{WORDS}{re.escape(name)}\s*(?:[({{].*)?:', text_of(file))
    return re.search(rf'\b(?:fn|struct|enum|trait|type|const|mod) {re.escape(name)}\b', text_of(file))


@cache
def anchors(page):
    heads = re.findall(r'(?m)^#+ (.*)$', text_of(page))
    return {re.sub(r'[^\w\- ]', '', it.lower().replace('`', '')).strip().replace(' ', '-') for it in heads}


def links(page, text):
    for shown, to in re.findall(r'\[([^\]]*)\]\(([^)\s]+)\)', text):
        if to.startswith(('http:', 'https:')):
            continue
        name, _, head = to.partition('#')
        file = (page.parent / name).resolve() if name else page
        if not file.exists():
            yield f'no file {to}'
        elif head and head not in anchors(file):
            yield f'no heading {to}'
        elif file.suffix in ('.rt', '.antt'):
            yield from (f'{to} has no {it}' for it in re.findall(r'`([^`]+)`', shown) if not defines(file, it.split('::')[-1]))


def names(crate, line):
    own = re.match(r'\| `(\w+)` \|', line)
    crate = own[1] if own and own[1] in CRATES else crate
    for word in re.findall(r'`([^`\n]+)`', re.sub(r'\[[^\]]*\]\([^)]*\)', '', line)):
        path = re.fullmatch(r'(?:(\w+)/)?((?:src|specs|proofs)/[\w/.+-]+)', word)
        if path and (path[1] or crate):
            base = CRATES.get(path[1] or crate, TOP) / path[2]
            if not any(pathlib.Path(f'{base}{it}').exists() for it in ('', '.rt', '.antt')):
                yield f'no {word}'
        yield from (f'no {it}' for it in re.findall(r'(?<![\w/])(?:bench|checks|tools|docs)/[\w./-]+', word) if not (TOP / it).exists())
        call = re.fullmatch(r'(laws|[A-Z]\w*)::(\w+)', word)
        if call:
            name = call[2] if call[1] == 'laws' else word
            if not any(name in CALLS[it] for it in ([crate] if crate else CRATES)):
                yield f'no call {word}'


def clauses(crate, line):
    if not crate or not line.startswith('| '):
        return
    last = re.sub(r'\([^)]*\)', '', re.split(r'(?<!\\)\|', line.rstrip().rstrip('|'))[-1])
    for part in last.split(';'):
        before, mark, behind = part.partition('`: ')
        owner, known = None, set()
        for word in re.findall(r'`([\w:]+)`', before + '`') if mark else []:
            owner = word.split('::')[0] if '::' in word else owner
            for name in (word, f'{owner}::{word}', word.split('::')[-1] if owner == 'laws' else word):
                known |= CALLS[crate].get(name, set())
        yield from (f'no clause {it} of {before.strip()}`' for it in re.findall(r'`(\w+)`', behind) if mark and it not in known)


def missing(page):
    """The files that the page has to name, and doesn't."""
    text = page.read_text()
    if page == TOP / 'README.md':
        yield from (f'no link to docs/{it.name}' for it in sorted(TOP.glob('docs/*.md')) if f'](docs/{it.name})' not in text)
    if page == TOP / 'docs/ARCHITECTURE.md':
        yield from (f'no link to the page of {it.name}' for it in sorted(TOP.glob('crates/*/')) if f'](../crates/{it.name}/README.md)' not in text)
    if page.parent in FOLDERS:
        yield from (f'{it.name} is not named' for it in sorted(page.parent.iterdir()) if it.is_file() and it != page and f'`{it.name}`' not in text)


def main():
    told = 0
    for page in [*sorted(TOP.glob('*.md')), *sorted(TOP.glob('docs/*.md')), *sorted(TOP.glob('*/README.md')), *sorted(TOP.glob('crates/*/README.md'))]:
        crate = page.parent.name if page.parent.parent.name == 'crates' else None
        fenced = False
        for what in missing(page):
            told += 1
            print(f'{page.relative_to(TOP)}: {what}')
        for place, line in enumerate(page.read_text().split('\n'), 1):
            fenced ^= line.startswith('```')
            if fenced or line.startswith('    '):
                continue
            for what in (*links(page, line), *names(crate, line), *clauses(crate, line)):
                told += 1
                print(f'{page.relative_to(TOP)}:{place}: {what}')
    return 1 if told else 0


sys.exit(main())
