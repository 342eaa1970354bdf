#!/usr/bin/env python3
"""Each public lemma has a line in words right before it and is cited, and each file of lemmas has a name that ends in Lemmas.

    tests/lemmas.py        says what lacks, and how many lemmas it read; exit status 0: none lacks anything

A lemma is cited if its name stands in another place than its own proof: in its own file, or in a file of any crate that names its
file. What a `use` takes in and comments do not count. A lemma that is the point of its file may stand in ALLOWED, uncited.
"""
import collections
import re
import sys
from pathlib import Path

TOP = Path(__file__).resolve().parent.parent

# What the check reads beside lemmas: answers to its goals, and lists of modules.
OTHERS = {"Answers.antt", "Invariants.antt", "Proof.antt", "Lib.antt"}
LEMMA = re.compile(r"\s*(?:abbrev )?pub (\S+) :")
BLOCK = re.compile(r"(?:pub )?(record|data|module)\b")

# Lemmas that nothing need cite, each by its file and its name, with the reason: "bq_x/proofs/XLemmas.antt: name": "is the law that ..".
ALLOWED = {}

COMMENT = re.compile(r"(?m)(?:^|\s)(?:--|//).*$")
USE = re.compile(r"(?m)^ *(?:pub |ghost )*use [^\n{;]*(?:\{[^}]*\})?[^\n]*")
RENAMED = re.compile(r"(\S+) as ")
WORD = re.compile(r"[^\s(){};.,\"`\[\]]+")
FILE = re.compile(r"(?:Rattle[.](\w+)[.]|crate::)proofs(?:[.]|::)(?:\w+(?:[.]|::))*?(\w+Lemmas)\b")
BEGUN = re.compile(r"( *)(?:abbrev )?(?:pub )?(\S+)")


def files():
    return [path for path in sorted(TOP.glob("crates/*/proofs/**/*.antt")) if path.name not in OTHERS]


def crate_of(path):
    return path.relative_to(TOP).parts[1]


def text_of(path):
    """A file without comments and without what its `use` lines take in, but for names that they change."""
    text = COMMENT.sub("", path.read_text(encoding="utf-8"))
    return USE.sub(lambda found: " ".join(RENAMED.findall(found[0])), text).replace("::", " ")


class Citations:
    """The words of all sources, and which of them name a file of lemmas."""

    def __init__(self):
        sources = [path for kind in ("antt", "rt") for path in TOP.glob(f"crates/*/**/*.{kind}") if "out" not in path.parts]
        self.words = {path: collections.Counter(WORD.findall(text_of(path))) for path in sources}
        self.naming = collections.defaultdict(set)
        for path in sources:
            for crate, file in FILE.findall(path.read_text(encoding="utf-8")):
                self.naming[crate or crate_of(path), file].add(path)

    def of_file(self, path):
        """Says of a name whether it is cited as one of this file."""
        own = in_own_proofs(text_of(path))
        others = [self.words[it] for it in self.naming[crate_of(path), path.stem] if it != path]
        return lambda name: self.words[path][name] > own[name] or any(name in words for words in others)


def in_own_proofs(text):
    """How often each name stands in its own statement and proof."""
    counts, owner, indent = collections.Counter(), "", -1
    for line in filter(str.strip, text.split("\n")):
        begun = BEGUN.match(line)
        if BLOCK.match(line.strip()):
            owner, indent = "", -1
        elif indent < 0 or len(begun[1]) <= indent:
            owner, indent = begun[2], len(begun[1])
        counts[owner] += WORD.findall(line).count(owner)
    return counts


def main():
    read, lacking, citations = 0, [], Citations()
    for path in files():
        file = path.relative_to(TOP)
        is_cited = citations.of_file(path)
        if not path.name.endswith("Lemmas.antt"):
            lacking.append(f"{file}: a file of lemmas has a name that ends in Lemmas")
        lines = path.read_text(encoding="utf-8").split("\n")
        if not lines[0].startswith("-- "):
            lacking.append(f"{file}: the first line says what its lemmas are of")
        block = ""
        for number, line in enumerate(lines):
            begun = BLOCK.match(line)
            if begun or line[:1].strip():
                block = begun[1] if begun else ""
            found = LEMMA.match(line)
            if found and block not in ("record", "data"):
                read += 1
                if not lines[number - 1].lstrip().startswith("--"):
                    lacking.append(f"{file}:{number + 1}: {found[1]} has no line in words before it")
                if not is_cited(found[1]) and f"{file.relative_to('crates')}: {found[1]}" not in ALLOWED:
                    lacking.append(f"{file}:{number + 1}: nothing cites {found[1]}")
    print("\n".join([*lacking, f"{read} public lemmas read, {len(lacking)} lack something"]))
    return 1 if lacking or not read else 0


sys.exit(main())
