#!/usr/bin/env python3
"""Looks for functions of more than 40 lines that are more than one flat match or one table.

    tests/long_functions.py        exit status 0: there is none

What stands between a function's braces is counted, its contract is not. A match is flat where no other match and no loop stands in it;
a table is one list. Without that match or that table at most 40 lines may be left. Tests count too.
"""
import re
import sys
from pathlib import Path

TOP = Path(__file__).resolve().parent.parent
LONGEST = 40
HEAD = re.compile(r'^( *)(?:pub(?:\([a-z]+\))? )?(?:const )?fn (\w+)')
MATCH = re.compile(r'\bmatch\b.*\{$')
AGAIN = re.compile(r'\b(?:match|for|while|loop)\b')


def functions(lines):
    """The name, the number of its line, and the body of each function, by the formatter's margins."""
    for at, line in enumerate(lines):
        head = HEAD.match(line)
        if not head:
            continue
        first = at
        while first < len(lines) and not lines[first].endswith('{'):
            first += 1
        last = first
        while last < len(lines) and lines[last] != head[1] + '}':
            last += 1
        yield head[2], at + 1, lines[first + 1 : last]


def span(body, at):
    """The lines of what begins in that line, to the line at its margin that ends it."""
    margin = re.match(' *', body[at])[0]
    end = at + 1
    while end < len(body) and not re.match(margin + r'[\]})]', body[end]):
        end += 1
    return body[at + 1 : end]


def left(body):
    """How many lines are left without the longest flat match or table."""
    longest = 0
    for at, line in enumerate(body):
        if MATCH.search(line):
            inside = span(body, at)
            if not any(AGAIN.search(re.sub(r'"[^"]*"|//.*', '', it)) for it in inside):
                longest = max(longest, len(inside))
        elif line.endswith('['):
            longest = max(longest, len(span(body, at)))
    return len(body) - longest


def main():
    read, found = 0, 0
    for file in sorted((TOP / 'crates').glob('*/src/**/*.rt')):
        for name, line, body in functions(file.read_text(encoding='utf-8').splitlines()):
            read += 1
            if len(body) > LONGEST and left(body) > LONGEST:
                found += 1
                print(f'{file.relative_to(TOP)}:{line}: {name} has {len(body)} lines, {left(body)} without a flat match or a table')
    print(f'{read} functions read, {found} of them too long')
    return 1 if found or not read else 0


sys.exit(main())
