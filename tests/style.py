#!/usr/bin/env python3
"""Judges the pages that people read: long paragraphs, long table cells, phrases of a dialect, broken links, misspelt words.

    tests/style.py [PAGE..]     each fault as `PAGE:LINE: what`; without pages, of all
    tests/style.py --count      the words on each page
    tests/style.py --words      the words that tests/words.txt does not have; read them, then add those that are right
    tests/style.py --comments   the phrases of the dialect in comments of the crates' sources, definitions and lemmas, tests left out

Code, in blocks and in `marks`, is not read. tests/words.txt is sorted and in lower case; a word with an apostrophe or a hyphen is checked part by part.
"""
import os
import re
import sys
from pathlib import Path

sys.dont_write_bytecode = True

from checks.documents import pages
from checks.links import broken, links, plain
from checks.runs import TOP, read

PARAGRAPH, CELL = 90, 200  # the most words of a paragraph, the most characters of a table's cell


# What a native reader stumbles over, and what to write instead.
DIALECT = {
    r"just (where|when|as|these|this|those)\b": "exactly when, these",
    r"alone\b": "only, by itself",
    r"so many\b": "that many, or the number",
    r"wants? of \w+": "memory runs out",
    r"(is|are|was|were) told\b": "reports, shows",
    r"what stands at\b": "what is installed at",
    r"(no|any)body's\b": "no, of anyone",
    r"a word more\b": "one more word",
    r"by hand\b": "manually, not by the gate",
    r"anew\b": "again",
    r"but for\b": "except",
    r"but that\b": "except that",
    r"none but\b": "only",
    r"in the midst\b": "during",
    r"once more\b": "again",
    r"at hand\b": "available",
    r"whoever\b": "the one that",
    r"that there is not\b": "that does not exist",
    r"by itself alone\b": "by itself",
    r"is none\b": "there is no",
}
PATTERNS = [(re.compile(rf"\b{pattern}", re.I), better) for pattern, better in DIALECT.items()]


def blocks(lines):
    """The paragraphs, items of lists and rows of tables: the number of the first line, and the text."""
    text, first = [], 0
    for number, line in enumerate([*lines, ""], 1):
        begins = re.match(r"\s*([-*]|\d+\.) |\s*\||#|\s*$|    \S", line)
        if begins and text:
            yield first, " ".join(text)
            text = []
        if line.strip() and not re.match(r"    \S", line):
            if not text:
                first = number
            text.append(line.strip())


def without_links(text):
    return re.sub(r"!?\[([^\]]*)\]\([^)]*\)", r"\1", text)


def shape(page):
    """Paragraphs and cells that are too long."""
    code = re.sub(r"(?ms)^\s*```.*?^\s*```\s*$", lambda found: "\n" * found[0].count("\n"), read(page))
    for number, block in blocks(without_links(code).splitlines()):
        if block.startswith("|"):
            for cell in re.split(r"(?<!\\)\|", block):
                if len(cell.strip()) > CELL:
                    yield number, f"a cell of {len(cell.strip())} characters: {cell.strip()[:60]}.."
        elif len(block.split()) > PARAGRAPH:
            yield number, f"a paragraph of {len(block.split())} words: {block[:60]}.."


def dialect(page):
    for number, block in blocks(without_links(plain(read(page))).splitlines()):
        for pattern, better in PATTERNS:
            for found in pattern.finditer(block):
                yield number, f"{found[0]!r}: {better}"


def words_of(page):
    """The words of a page with their lines, in lower case."""
    for number, line in enumerate(without_links(plain(read(page))).splitlines(), 1):
        line = re.sub(r"<[^>]*>|https?://\S+|&\w+;|\S*[\w.-]+/\S*|\b[\w-]+\.(md|py|s|c|rt|rs|sh|toml|trace|antt|rst)\b|\w*[_\d]\w*", " ", line)
        for word in re.findall(r"[^\W\d_]{2,}", line):
            yield number, word.lower()


def spelling(page):
    known = set(Path(TOP, "tests/words.txt").read_text(encoding="utf-8").split())
    for number, word in words_of(page):
        if word not in known:
            yield number, f"{word!r} is not in tests/words.txt"


def dead_links(page):
    for number, target in links(page):
        if why := broken(page, target):
            yield number, f"({target}): {why}"


def faults(page):
    return sorted(fault for look in (shape, dialect, spelling, dead_links) for fault in look(page))


def comments():
    """The lines of comments in the crates, with their file and number."""
    for folder, ending, mark in [("src", "rt", r"\s*//[/!]?"), ("specs", "antt", r"\s*--"), ("proofs", "antt", r"\s*--")]:
        for path in sorted(Path(TOP).glob(f"crates/*/{folder}/**/*.{ending}")):
            if "_trials/" not in str(path):
                for number, line in enumerate(path.read_text(encoding="utf-8").splitlines(), 1):
                    if found := re.match(mark, line):
                        yield f"{path.relative_to(TOP)}:{number}", line[found.end() :]


def dialect_of_comments():
    return [f"{place}: {found[0]!r}: {better}" for place, text in comments() for pattern, better in PATTERNS for found in pattern.finditer(text)]


def all_pages():
    """The pages at the top and in docs/."""
    top = [it.name for it in sorted(Path(TOP).glob("*.md"))]
    return top + [page for page in pages() if page.startswith("docs/")]


def main():
    asked = sys.argv[1:]
    if asked == ["--count"]:
        counts = {page: len(re.findall(r"\S+", read(page))) for page in all_pages()}
        for page, count in [*counts.items(), ("all", sum(counts.values()))]:
            print(f"{count:7} {page}")
    elif asked == ["--words"]:
        known = set(Path(TOP, "tests/words.txt").read_text(encoding="utf-8").split())
        print(*sorted({word for page in all_pages() for _, word in words_of(page)} - known), sep="\n")
    elif asked == ["--comments"]:
        found = dialect_of_comments()
        print(*found, f"{len(found)} phrases", sep="\n")
    elif [it for it in asked if it.startswith("-")]:
        print(__doc__.strip(), file=sys.stderr)
        return 2
    else:
        judged = [os.path.relpath(it, TOP) if os.path.isabs(it) else it for it in asked] or all_pages()
        found = [f"{page}:{number}: {fault}" for page in judged for number, fault in faults(page)]
        print(*found, f"{len(judged)} pages, {len(found)} faults", sep="\n")
        return 1 if found else 0
    return 0


if __name__ == "__main__":
    sys.exit(main())
