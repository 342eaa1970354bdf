"""What the lemmas of a file of proofs state, as texts that are equal if two lemmas state the same.

A statement is a conclusion and what the lemma supposes for it. In its text a variable is a number, so names of variables do not count.
Neither does how one is bound (`{x : A}` or `(x : A)`, by itself or in `(x y : A)`, by the lemma or by a module around it), nor the order
of what is supposed. A name of a crate stands with its module, as `IsEdge@Rattle/bq_verify/specs/Edges`. A name of the library stands by
itself, since several of its modules hand on one thing. Lemmas within a proof, below `where`, are not read.
"""
import re
from collections import namedtuple
from itertools import takewhile

WORD = re.compile(r'"(?:[^"\\]|\\.)*"|--.*|[(){}\[\];,|]|→|λ|[^\s(){}\[\];,|→λ]+')
CLOSE = {"(": ")", "{": "}", "[": "]"}
FIRST = re.compile(r" *(?:unfoldable |abbrev |pub )*([^\s(){}\[\];,:]+)(?: \{[^}]*\})? :(?= |$)")
MODULE = re.compile(r" *module \S+")
USE = re.compile(r"(?m)^(?:pub )?use (\S+?)(?:\.\{([^}]*)\}| as (\S+))?$")
OWN = re.compile(r"(?m)^ *(?:unfoldable |abbrev |pub )*(?:record |data )?([^\W\d][^\s(){}\[\];,:]*)(?: [({].*)? :(?= |$)")

Lemma = namedtuple("Lemma", "name line length statement")  # its first line, and how many lines say something
Group = namedtuple("Group", "bracket items")
Bound = namedtuple("Bound", "variables items")  # `(x y : T)`
Function = namedtuple("Function", "variables")  # `λ x y.`
Use = namedtuple("Use", "variable field")


class Variable:
    """A place that binds a variable: whether the variable is used, and whether it is a type."""

    used = is_type = False


def tree(text):
    """The words of a text, with a Group for what stands in brackets. A word has the `=` behind it, which makes it no use of a variable."""
    begun = [[]]
    for word in WORD.findall(text):
        if word in CLOSE:
            begun[-1].append(Group(word, []))
            begun.append(begun[-1][-1].items)
        elif word in CLOSE.values():
            begun.pop()
        elif word == "=" and begun[-1] and isinstance(begun[-1][-1], str):
            begun[-1][-1] += word
        elif not word.startswith("--"):
            begun[-1].append(word)
    return begun[0]


def binder(item):
    """The names and the type of `(x y : T)`; None for anything else."""
    if isinstance(item, Group) and item.bracket in "({" and ":" in item.items[1:]:
        colon = item.items.index(":")
        if all(isinstance(it, str) for it in item.items[:colon]):
            return item.items[:colon], item.items[colon + 1:]
    return None


def parameters(left):
    """The names between `λ` and its point, which are taken from what is left."""
    names = []
    for item in left:
        names += binder(item)[0] if binder(item) else item.items if isinstance(item, Group) else [item.rstrip(".")]
        if isinstance(item, str) and item.endswith("."):
            break
    return [it for it in names if isinstance(it, str) and it not in ("", ",")]


def resolved(items, bound, known):
    """The items with what each name is: a variable up to the end of the brackets that bind it, else what is known by the name."""
    bound, left, out = dict(bound), iter(items), []
    for item in left:
        if binder(item):
            names, of = binder(item)
            out.append(Bound([Variable() for _ in names], resolved(of, bound, known)))
            bound.update(zip(names, out[-1].variables))
            for it in out[-1].variables:
                it.is_type = of[0] == "Type"
        elif isinstance(item, Group):
            out.append(Group(item.bracket, resolved(item.items, bound, known)))
        elif item == "λ":
            names = parameters(left)
            out.append(Function([Variable() for _ in names]))
            bound.update(zip(names, out[-1].variables))
        else:
            name, *fields = item.split(".")
            is_module = known.get(name, "").startswith("@") and fields
            if name in bound:
                bound[name].used = True
                out.append(Use(bound[name], "".join("." + it for it in fields)))
            else:
                name = fields.pop(0) + known[name] if is_module else known.get(name, name)
                out.append("".join([name, *("." + it for it in fields)]))
    return out


def variables(items):
    """The variables that the items use, in order."""
    for item in items:
        if isinstance(item, Use):
            yield item.variable
        elif isinstance(item, (Group, Bound)):
            yield from variables(item.items)


def between_arrows(items):
    parts = [[]]
    for item in items:
        if item == "→":
            parts.append([])
        else:
            parts[-1].append(item)
    return parts


def supposed(part):
    """What stands before an arrow: types, each with the variable that it is the type of, or with None."""
    if all(isinstance(it, Bound) for it in part):
        return [(variable, it.items) for it in part for variable in it.variables]
    return [(None, part)]


def bare(items):
    """The items without brackets around all of them."""
    while len(items) == 1 and isinstance(items[0], Group) and items[0].bracket == "(":
        items = items[0].items
    return items


def written(items, names, depth=0):
    """The text of the items. The names are those of variables from outside; one that the items bind is named by how deep it stands."""
    *front, last = between_arrows(bare(items))
    out, words = [], []
    for variable, of in (it for part in front for it in supposed(part)):
        text = written(of, names, depth)
        if variable and variable.used:
            depth += 1
            names[variable] = f"_{depth}"
            text = f"{names[variable]} : {text}"
        out.append(f"({text})")
    for item in last:
        if isinstance(item, (Bound, Function)):
            text = written(item.items, names, depth) if isinstance(item, Bound) else "λ"
            for it in item.variables:
                depth += 1
                names[it] = f"_{depth}"
                words.append(f"({names[it]} : {text})")
        elif isinstance(item, Group):
            text = written(item.items, names, depth)
            words.append(text if item.bracket == "(" and len(bare(item.items)) == 1 else item.bracket + text + CLOSE[item.bracket])
        else:
            words.append(item if isinstance(item, str) else names.get(item.variable, "?") + item.field)
    return " → ".join([*out, " ".join(words)])


def statement(left, right):
    """The text for a conclusion and what is supposed for it; "" for a definition: its conclusion, as `List ℕ`, has no variables but types."""
    if right != ["⊥"] and all(it.is_type for it in variables(right)):
        return ""
    used = set(variables(right)).union(*(variables(of) for _, of in left))
    left = [(variable if variable in used else None, of) for variable, of in left]
    outer, names = {variable for variable, _ in left}, {}

    def text(one):
        return f"{names.get(one[0], '?')} : {written(one[1], names)}" if one[0] else written(one[1], names)

    def number(found):
        for it in found:
            if it in outer:
                names.setdefault(it, str(len(names) + 1))

    number(variables(right))
    for variable, of in sorted(left, key=lambda it: (it[0] is not None, text(it))):
        number(variables(of))
        number([variable] if variable else [])
    return " → ".join([*(f"({it})" for it in sorted(map(text, left))), written(right, names)])


def length(text):
    """How long the text of a statement is without the modules of its names."""
    return len(re.sub(r"@[\w/]+", "", text))


def known_names(file, text):
    """What each name is that a file's `use` lines give, or that is the file's own."""
    known = {name: f"{name}@{file.replace('.', '/')}" for name in OWN.findall(text)}
    for path, names, other in USE.findall(text):
        place = "@" + path.replace(".", "/")
        if not names:
            known[other or path.rpartition(".")[2]] = place
        for it in filter(None, map(str.strip, names.split(","))):
            name, _, other = it.partition(" as ")
            known[other or name] = name if path.startswith("Rattle.std.") else name + place
    return known


def depth(line):
    return len(line) - len(line.lstrip())


def blocks(lines):
    """The lines that stand as deep as the first one does, each with the deeper ones below it."""
    out = []
    for number, line in lines:
        if not out or depth(line) <= depth(lines[0][1]):
            out.append([])
        out[-1].append((number, line))
    return out


def text_of(lines):
    return "\n".join(line for _, line in lines)


def read(lines, heads, known, needs):
    """The lemmas of these lines, which stand in modules with these heads. Of each lemma so far `needs` has the parameters that it needs."""
    cut = blocks(lines)
    for at, block in enumerate(cut):
        number, line = block[0]
        if MODULE.match(line):
            long = next(n for n, (_, it) in enumerate(block) if re.search(r"\bwhere$", it)) + 1
            head = MODULE.sub("", text_of(block[:long])).rpartition("where")[0]
            yield from read(block[long:], [*heads, head], known, needs)
        elif FIRST.match(line):
            name = FIRST.match(line)[1]
            clauses = list(takewhile(lambda it: it[0][1].split()[0] in (name, "unfolding"), cut[at + 1:]))
            if clauses:
                signature, proof = FIRST.sub("", text_of(block), count=1), "\n".join(map(text_of, clauses))
                long = len(block) + sum(map(len, clauses))
                yield Lemma(name, number, long, stated(name, " ".join(heads), signature, proof, known, needs))


def stated(name, head, signature, proof, known, needs):
    """The statement of a lemma. Of the parameters of its modules it has those that the lemma needs."""
    first, *parts = between_arrows(resolved(tree(f"{head} → {signature}"), {}, known))
    by_name = dict(zip((it for item in tree(head) for it in binder(item)[0]), (it for it, _ in supposed(first))))
    left = [it for part in parts[:-1] for it in supposed(part)]
    cited = set(re.findall(r"[^\s(){}\[\];,.]+", proof))
    cited |= {it for word in cited for it in needs.get(word, ())}
    needed = {by_name[it] for it in cited if it in by_name}.union(variables(parts[-1]), *(variables(of) for _, of in left))
    for variable, of in reversed(supposed(first)):
        needed.update(variables(of) if variable in needed else ())
    needs[name] = [it for it in by_name if by_name[it] in needed]
    return statement([it for it in supposed(first) if it[0] in needed] + left, parts[-1])


def lemmas(file, text):
    """The lemmas of a file of proofs, by their lines; definitions too, whose statements are empty."""
    lines = [(number, line) for number, line in enumerate(text.split("\n"), 1) if line.strip() and not line.lstrip().startswith("--")]
    return read(lines, [], known_names(file, text), {})
