"""The links of the pages: each names a file or a folder that is there, and where it has one a heading of that page."""
import os
import re

from .documents import pages
from .runs import TOP, Answer, cut, read

LINK = re.compile(r"""\[[^\]]*\]\(([^()\s]+)(?:\s+"[^"]*")?\)|\b(?:src|srcset|href)="([^"\s]+)""")


def plain(text):
    """A page without its code, in which nothing is a link; its lines keep their numbers."""
    text = re.sub(r"(?ms)^\s*```.*?^\s*```\s*$", lambda code: "\n" * code[0].count("\n"), text)
    return re.sub(r"`[^`\n]*`", "", text)


def anchors(text):
    """What a page's headings are called in links."""
    names, seen = set(), {}
    bare = re.sub(r"(?ms)^\s*```.*?^\s*```\s*$", "", text)
    for heading in re.findall(r"(?m)^#+ +(.*?)\s*$", bare):
        name = re.sub(r"[^\w\- ]", "", heading.lower()).replace(" ", "-")
        names.add(f"{name}-{seen[name]}" if name in seen else name)
        seen[name] = seen.get(name, 0) + 1
    return names


def broken(page, target):
    """What is wrong with a link of a page."""
    path, _, anchor = target.partition("#")
    file = os.path.normpath(os.path.join(os.path.dirname(page), path)) if path else page
    if not os.path.exists(os.path.join(TOP, file)):
        return f"{file} is not there"
    if anchor and (not file.endswith(".md") or anchor not in anchors(read(file))):
        return f"{file} has no heading #{anchor}"
    return ""


def links(page):
    """The relative links of a page, with their lines."""
    for number, line in enumerate(plain(read(page)).splitlines(), 1):
        for target in map("".join, LINK.findall(line)):
            if not re.match(r"[a-z]+:", target):
                yield number, target


def linked():
    """The names of the checks: one for each page that has links."""
    return [f"links of {page}" for page in [*pages(), "CHANGELOG.md"] if any(links(page))]


def check_links(name):
    page = name.removeprefix("links of ")
    yield Answer(name, cut([f"{page}:{number}: ({target}): {why}" for number, target in links(page) if (why := broken(page, target))]))
