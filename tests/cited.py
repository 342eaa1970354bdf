#!/usr/bin/env python3
"""The names that pages cite stand in the sources.

    tests/cited.py        says what is not found, and how many names it read; exit status 0: all are found

In docs/promises/ each item of a list is a promise, and ends with a line of names: definitions, and behind a colon the calls whose
contracts cite them. Where no call is named each definition is a law, or the page's head names the call that carries it. Items below
"Only tested" and "Not claimed" have no such line. A definition is found in a specs/ folder; a call or a type in a src/ folder. A name
that stands in several crates is written with its crate, as `bq_load::load`; one with a slash is a path below crates/. The names after
"clauses" are those of clauses.

In all pages of docs/ each path that begins with a crate's name is there. So is, in the pages of NAMES, each crate, each `Type::call`, and each
path below `src/` or `specs/` in a crate of the same line. docs/ARCHITECTURE.md lists every crate.
"""
import re
import sys
from collections import defaultdict
from pathlib import Path

TOP = Path(__file__).resolve().parent.parent
NAMES = ["docs/ARCHITECTURE.md", "docs/DECISIONS.md", "docs/PROVING.md"]
UNPROVED = ("Only tested", "Not claimed")

DEFINED = re.compile(r"(?m)^ *(?:unfoldable |abbrev )?pub (?:abbrev |record |data )*([^\s:(]+)")
ITEM = re.compile(r"\b(?:fn|struct|enum|trait|type|const|mod)\s+(\w+)")
CLAUSE = re.compile(r"\bensures ([\w']+) \{")
LAW = re.compile(r"\bensures \{ (\w+)(?: \w+)? \}")
CARRIED = "Where no call is named, `"


def names_in(pattern, folder, ending):
    """Which crates have each name, trials left out."""
    found = defaultdict(set)
    for path in sorted(TOP.glob(f"crates/*/{folder}/**/*{ending}")):
        crate = path.relative_to(TOP / "crates").parts[0]
        if not crate.endswith("_trials"):
            for name in pattern.findall(path.read_text(encoding="utf-8")):
                found[name].add(crate)
    return found


DEFINITIONS = names_in(DEFINED, "specs", ".antt")
ITEMS = names_in(ITEM, "src", ".rt")
CLAUSES = names_in(CLAUSE, "src", ".rt")
LAWS = names_in(LAW, "src", "laws.rt")
CRATES = {path.name for path in (TOP / "crates").iterdir()}


def calls_of_types():
    """Which calls stand in a file that says what a type or a trait does."""
    calls = defaultdict(set)
    for path in TOP.glob("crates/*/src/**/*.rt"):
        text = path.read_text(encoding="utf-8")
        for owner in re.findall(r"(?m)^(?:impl\b[^{;]*|pub (?:\(\w+\) )?trait \w+)", text):
            for name in re.findall(r"\b[A-Z]\w+", owner):
                calls[name].update(re.findall(r"\bfn (\w+)", text))
    return calls


CALLS = calls_of_types()


def path_wrong(name):
    return "" if (TOP / "crates" / name.removeprefix("crates/")).exists() else "no such path"


def name_wrong(name, known):
    """What is wrong with a cited name; nothing where exactly one crate has it, or the crate that is written before it."""
    if "/" in name:
        return path_wrong(name)
    parts = name.split("::")
    crate = parts.pop(0) if parts[0] in CRATES else None
    crates = set.intersection(*(known.get(part, set()) for part in parts)) if parts else CRATES
    if not crates:
        return "not found"
    if crate:
        return "" if crate in crates else f"stands in {', '.join(sorted(crates))}"
    return "" if len(crates) == 1 else f"stands in {', '.join(sorted(crates))}: write the crate before it"


def items(lines):
    """The items of lists: the heading above, the number of the first line, and the lines."""
    heading, first, item = "", 0, []
    for number, line in enumerate([*lines, ""], 1):
        if item and not line.startswith("  "):
            yield heading, first, item
            item = []
        if line.startswith("#"):
            heading = line.lstrip("# ")
        elif line.startswith("- "):
            first, item = number, [line]
        elif item:
            item.append(line)


def cited_line(item):
    """The definitions, the calls and the clauses of a promise's last lines; None where it has no such line."""
    start = next((at for at, line in enumerate(item) if re.match(r"  (?:`|clauses )", line)), None)
    if start is None:
        return None
    text = " ".join(line.strip() for line in item[start:])
    if re.sub(r"`[^`]+`:?|\bclauses\b|[,\s]", "", text):
        return None
    definitions, _, calls = text.partition("`: ")
    definitions, _, clauses = (definitions + "`" if calls else definitions).partition("clauses")
    return [re.findall(r"`([^`]+)`", part) for part in (definitions, calls, clauses)]


def item_wrong(cited, carried):
    """What is wrong with the names of a promise."""
    if cited is None:
        return ["this promise does not end with the names behind it"]
    definitions, calls, clauses = cited
    wrong = [f"{name}: {why}" for name in definitions if (why := name_wrong(name, DEFINITIONS))]
    wrong += [f"{name}: {why}" for name in calls if (why := name_wrong(name, ITEMS))]
    wrong += [f"{name}: no such clause" for name in clauses if name not in CLAUSES]
    if not calls and not carried:
        wrong += [f"{name}: no law has this name, and no call is named" for name in definitions if name.split("::")[-1] not in LAWS]
    return wrong


def promises():
    """What is wrong in docs/promises/, and how many names stand there."""
    count, wrong = 0, []
    for page in sorted(TOP.glob("docs/promises/*.md")):
        text = page.read_text(encoding="utf-8")
        for heading, number, item in items(text.split("\n")):
            if not heading.startswith(UNPROVED):
                cited = cited_line(item)
                count += sum(map(len, cited or []))
                wrong += [f"{page.relative_to(TOP)}:{number}: {why}" for why in item_wrong(cited, CARRIED in text)]
    return count, wrong


def pages():
    """The same of what all pages name: paths of crates, and in some pages calls of types."""
    count, wrong = 0, []
    for page in sorted(TOP.glob("docs/**/*.md")):
        name = str(page.relative_to(TOP))
        for number, line in enumerate(page.read_text(encoding="utf-8").split("\n"), 1):
            spans = re.findall(r"`([^`]+)`", line)
            crates = [crate for span in spans if (crate := span.split("/")[0]) in CRATES]
            for span in spans:
                why = ""
                if re.fullmatch(r"(?:crates/)?bq\w+/[\w/.]+", span) and span.removeprefix("crates/").split("/")[0] in CRATES:
                    count, why = count + 1, path_wrong(span)
                elif name in NAMES and re.fullmatch(r"(?:\w+::)+\w+", span):
                    parts = [part for part in span.split("::") if part not in CRATES]
                    count, why = count + 1, "" if all(part in ITEMS or part in VARIANTS for part in parts) else "not found"
                    if not why and len(parts) == 2 and parts[0] in CALLS and parts[1].islower() and parts[1] not in CALLS[parts[0]]:
                        why = f"{parts[0]} has no such call"
                elif name in NAMES and crates and re.fullmatch(r"(?:src|specs)/[\w/.]+", span):
                    count, why = count + 1, "" if any(not path_wrong(f"{crate}/{span}") for crate in crates) else "no such path"
                elif name in NAMES and re.fullmatch(r"bq_\w+", span):
                    count, why = count + 1, "" if span in CRATES else "no such crate"
                if why:
                    wrong.append(f"{name}:{number}: {span}: {why}")
    return count, wrong


VARIANTS = names_in(re.compile(r"(?m)^ +(?:pub )?([A-Z]\w*)(?:\(|,| \{)"), "src", ".rt")


def unlisted():
    """The crates that ARCHITECTURE does not list."""
    page = "docs/ARCHITECTURE.md"
    listed = set(re.findall(r"`(\w+)`", "\n".join(re.findall(r"(?ms)^- .*?:", (TOP / page).read_text(encoding="utf-8")))))
    return [f"{page}: it does not list {crate}" for crate in sorted(CRATES - listed)]


def main():
    (first, wrong), (second, also) = promises(), pages()
    also += unlisted()
    print("\n".join([*wrong, *also, f"{first} names of promises and {second} of pages read, {len(wrong) + len(also)} are wrong"]))
    return 1 if wrong or also or not first else 0


if __name__ == "__main__":
    sys.exit(main())
