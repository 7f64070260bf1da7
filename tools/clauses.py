#!/usr/bin/env python3
"""Lists the functions whose contract has six clauses or more, with how many comments group these.

usage: python3 tools/clauses.py [CLAUSES]

With a number CLAUSES, those with so many or more. The last line counts them.
"""
import pathlib
import re
import sys

TOP = pathlib.Path(__file__).resolve().parent.parent
LEAST = int(sys.argv[1]) if len(sys.argv) > 1 else 6
CLAUSE = re.compile(r'\s*(ensures|requires)\b')


def contracts(lines):
    """Each function: the number of its line, its name, and how many clauses and comments stand before its body."""
    for at, line in enumerate(lines):
        found = re.match(r'\s*(?:pub(?:\(crate\))? )?(?:const )?fn (\w+)', line)
        if not found:
            continue
        clauses = comments = 0
        for other in lines[at + 1:]:
            clauses += bool(CLAUSE.match(other))
            comments += bool(re.match(r'\s*//(?!/)', other))
            if re.match(r'\s*\{\s*$', other) or other.rstrip().endswith(';') or re.match(r'\s*(pub |const )*fn ', other):
                break
        yield at + 1, found[1], clauses, comments


def main():
    count = 0
    for file in sorted(TOP.glob('crates/*/src/**/*.rt')):
        for place, name, clauses, comments in contracts(file.read_text().split('\n')):
            if clauses >= LEAST:
                count += 1
                print(f'{file.relative_to(TOP)}:{place}: {name}, {clauses} clauses, {comments} comments')
    print(count)


main()
