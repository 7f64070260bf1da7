#!/usr/bin/env python3
"""Breaks the clauses and definitions that are wider than 100 columns: before the operator that binds least, as far right as fits.

usage: python3 tools/columns.py FILE..

A FILE is of src/ (.rt) or of specs/ (.antt). Only white space changes, and no line of code, comment or import. Run `rt fmt` afterwards, which
keeps the breaks but of records, whose fields it lays out a line each, with a semicolon behind the last. A few lines want a hand's break.
"""
import pathlib
import re
import sys

LIMIT = 100
# Those that bind least come first.
OPERATORS = ['else'], ['then'], ['→'], ['⊎'], ['×'], ['≡', '≢', '↔', '≤', '<'], ['&&', '||'], ['++', '∷', '∙'], ['+', '-']

# Where there is no operator: behind a field's value, before an argument in brackets, before any argument.
ENDS = (
    lambda line, place, depth, word: line[place - 1] == ';',
    lambda line, place, depth, word: word[:1] in ('(', '{'),
    lambda line, place, depth, word: line[place - 1] not in ':=.' and word not in (':', '=', '}', 'where'),
)


def spaces(line):
    """The place of each space behind the line's first word, how many brackets are open there, and the word behind it."""
    found, depth = [], 0
    for place, char in enumerate(line):
        depth += (char in '([{') - (char in ')]}')
        if char == ' ' and line[:place].strip():
            found.append((place, depth, line[place + 1:].split(' ', 1)[0]))
    return found


def indent_of(line):
    return len(line) - len(line.lstrip())


def are_parameters(line):
    """Whether the line has parameters in brackets and nothing else, but for what ends a record's head."""
    depth = 0
    if line.strip().startswith('{ '):
        return False
    for char in re.sub(r' : Type 0( where)?$', '', line.strip()):
        depth += (char in '({') - (char in ')}')
        if not depth and char not in ')} ':
            return False
    return ' (' in line.strip()


def parameter_break(line):
    """The last place before the limit behind which a parameter in brackets begins."""
    places = [place for place, depth, _ in spaces(line) if not depth and place <= LIMIT and line[place + 1] in '({']
    return places[-1] if places else None


def best_break(line):
    """Where the line is best broken, and how many brackets are open there."""
    within = [it for it in spaces(line) if it[0] <= LIMIT]
    for depth in sorted({it[1] for it in within}):
        here = [it for it in within if it[1] == depth and indent_of(line) + 12 < it[0]]
        for words in OPERATORS:
            good = [it for it in here if it[2] in words and line[it[0] + 1:] != it[2]]
            if good:
                return good[-1][:2]
        late = [it for it in here if indent_of(line) + 30 < it[0]]
        for is_good in ENDS:
            good = [it for it in late if is_good(line, *it)]
            if good:
                return good[-1][:2]
    return None


def broken_definition(line):
    indent, done, is_below = indent_of(line), [], False
    is_head = re.match(r' *((pub|abbrev|unfoldable|private) )*[^ ({]+ : ', line) or re.match(r' *[^ ({]+ [^=]*= ', line)
    if re.match(r' *((pub|abbrev|unfoldable|private) )*record ', line):
        while LIMIT < len(line) and (place := parameter_break(line)):
            done.append(line[:place])
            line = ' ' * (indent + 4) + line[place + 1:]
        return [*done, line]
    head = re.match(r'(\S[^=]*?) = (.*)$', line)
    if head and ':' not in head[1].split('(')[0] and len(head[1]) <= LIMIT - 2:
        done.append(f'{head[1]} =')
        line, indent, is_below = f'    {head[2]}', 4, True
    while LIMIT < len(line):
        if are_parameters(line) and (place := parameter_break(line)):
            done.append(line[:place])
            line = ' ' * indent_of(line) + line[place + 1:]
            continue
        found = best_break(line)
        if not found:
            break
        place, depth = found
        base = indent if is_below or 4 <= indent and not is_head else indent + 4
        done.append(line[:place])
        line = ' ' * (base + 2 * max(depth, 0)) + line[place + 1:]
    return [*done, line]


def broken_clause(line):
    done = []
    below = indent_of(line) + 4 * bool(re.match(r' *(ensures|requires|ghost)', line))
    while LIMIT < len(line) and (found := best_break(line)):
        done.append(line[:found[0]])
        line = ' ' * below + line[found[0] + 1:]
    return [*done, line]


def broken(file, line):
    text = line.strip()
    if len(line) <= LIMIT or text.startswith(('//', '--', '{-', 'use ', 'ghost use ', 'pub use ', '#[')):
        return [line]
    if file.endswith('.antt'):
        return broken_definition(line)
    is_clause = re.match(r' *(ensures|requires|ghost) | +\(?[A-Z]\w* ', line) or re.search('[≡×⊎→¬λ]', line)
    return broken_clause(line) if is_clause else [line]


def main(files):
    if not files or files[0] in ('-h', '--help'):
        sys.exit(__doc__)
    for file in files:
        path = pathlib.Path(file)
        lines = path.read_text(encoding='utf-8').split('\n')
        path.write_text('\n'.join(part for line in lines for part in broken(file, line)), encoding='utf-8')


main(sys.argv[1:])
