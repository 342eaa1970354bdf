#!/usr/bin/env python3
"""Checks the colours of pictures, and pictures themselves.

    tests/pictures.py [SVG..]      without a file: those of docs/pictures

The colours stand in crates/bq_drawing/src/colours.rt. In each palette, by the formula of WCAG 2 (contrast ratio, relative luminance):
- each task's colour stands out from the page and from the band by 3 to 1;
- each text stands out by 4.5 to 1 from what is behind it: the page, or its task's colour;
- no two of the tasks' colours look alike (CIEDE2000 of at least 9), also to readers without one of the three kinds of cones (by the
  matrices of Machado, Oliveira and Fernandes, 2009).

In each picture:
- each rule of its styles, each id and each reference begins with the name of the picture, the class of its root;
- a text is at least 16 of the picture's 1,176 high;
- it has the rules of a palette, or of both where the reader's system chooses;
- no two wakes are drawn upon each other;
- each time has the same unit.
Status 1 at the first that is otherwise.
"""
import math
import pathlib
import re
import sys
import xml.etree.ElementTree as tree

TOP = pathlib.Path(__file__).resolve().parent.parent
AREA, TEXT, APART, WIDTH, HEIGHT = 3.0, 4.5, 9.0, 1176, 16
CONES = {
    "all": ((1, 0, 0), (0, 1, 0), (0, 0, 1)),
    "no long": ((0.152286, 1.052583, -0.204868), (0.114503, 0.786281, 0.099216), (-0.003882, -0.048116, 1.051998)),
    "no middle": ((0.367322, 0.860646, -0.227968), (0.280085, 0.672501, 0.047413), (-0.011820, 0.042940, 0.968881)),
    "no short": ((1.255528, -0.076749, -0.178779), (-0.078411, 0.930809, 0.147602), (0.004733, 0.691367, 0.303900)),
}


def linear(colour):
    parts = [int(colour[at : at + 2], 16) / 255 for at in (1, 3, 5)]
    return [part / 12.92 if part <= 0.04045 else ((part + 0.055) / 1.055) ** 2.4 for part in parts]


def luminance(colour):
    red, green, blue = linear(colour)
    return 0.2126 * red + 0.7152 * green + 0.0722 * blue


def contrast(one, other):
    dark, light = sorted((luminance(one), luminance(other)))
    return (light + 0.05) / (dark + 0.05)


def lab(colour, cones):
    seen = [min(1, max(0, sum(a * b for a, b in zip(row, linear(colour))))) for row in CONES[cones]]
    rows = ((0.4124, 0.3576, 0.1805, 0.95047), (0.2126, 0.7152, 0.0722, 1), (0.0193, 0.1192, 0.9505, 1.08883))
    x, y, z = (sum(a * b for a, b in zip(row, seen)) / row[3] for row in rows)
    x, y, z = (part ** (1 / 3) if part > 0.008856 else 7.787 * part + 16 / 116 for part in (x, y, z))
    return 116 * y - 16, 500 * (x - y), 200 * (y - z)


def distance(one, other):
    """CIEDE2000."""
    (l1, a1, b1), (l2, a2, b2) = one, other
    mean = (math.hypot(a1, b1) + math.hypot(a2, b2)) / 2
    stretch = 1.5 - 0.5 * math.sqrt(mean**7 / (mean**7 + 25**7))
    a1, a2 = a1 * stretch, a2 * stretch
    c1, c2 = math.hypot(a1, b1), math.hypot(a2, b2)
    h1, h2 = (math.degrees(math.atan2(b, a)) % 360 for a, b in ((a1, b1), (a2, b2)))
    turn = 0 if c1 * c2 == 0 else (h2 - h1 + 180) % 360 - 180
    hue = 2 * math.sqrt(c1 * c2) * math.sin(math.radians(turn / 2))
    middle = (h1 + h2) / 2 if abs(h1 - h2) <= 180 else ((h1 + h2 + 360) / 2) % 360
    light, chroma = (l1 + l2) / 2, (c1 + c2) / 2
    cos = lambda times, shift: math.cos(math.radians(times * middle + shift))
    t = 1 - 0.17 * cos(1, -30) + 0.24 * cos(2, 0) + 0.32 * cos(3, 6) - 0.2 * cos(4, -63)
    sl = 1 + 0.015 * (light - 50) ** 2 / math.sqrt(20 + (light - 50) ** 2)
    sc, sh = 1 + 0.045 * chroma, 1 + 0.015 * chroma * t
    bend = 2 * math.sqrt(chroma**7 / (chroma**7 + 25**7)) * math.sin(math.radians(60 * math.exp(-(((middle - 275) / 25) ** 2))))
    parts = (l2 - l1) / sl, (c2 - c1) / sc, hue / sh
    return math.sqrt(sum(part**2 for part in parts) - bend * parts[1] * parts[2])


def palettes():
    text = (TOP / "crates/bq_drawing/src/colours.rt").read_text()
    found = {}
    for name, body in re.findall(r"pub const (LIGHT|DARK): Palette = Palette \{(.*?)\n\};", text, re.S):
        found[name] = {
            field: re.findall(r"#[0-9a-f]{6}", value) for field, value in re.findall(r"(\w+): (\"[^\"]*\"|\[.*?\])", body, re.S)
        }
    return found


def need(holds, *what):
    if not holds:
        sys.exit(" ".join(map(str, what)))


def check_palette(name, palette):
    page, band = palette["page"][0], palette["band"][0]
    for task, letters in zip(palette["tasks"], palette["letters"], strict=True):
        for ground in (page, band):
            need(contrast(task, ground) >= AREA, name, task, "on", ground, contrast(task, ground))
        need(contrast(letters, task) >= TEXT, name, letters, "on", task, contrast(letters, task))
    for ink in (palette["ink"][0], palette["faint"][0]):
        need(contrast(ink, page) >= TEXT, name, ink, "on", page, contrast(ink, page))
    for cones in CONES:
        for at, one in enumerate(palette["tasks"]):
            for other in palette["tasks"][:at]:
                apart = distance(lab(one, cones), lab(other, cones))
                need(apart >= APART, name, one, other, "look alike with", cones, "cones:", apart)
    least = min(contrast(task, ground) for task in palette["tasks"] for ground in (page, band))
    text = min(contrast(*pair) for pair in zip(palette["letters"], palette["tasks"]))
    print(f"{name}: areas {least:.2f} to 1 or more, names in them {text:.2f} to 1 or more")


def rules_of(palette):
    """The rules that tell the colours of a palette, without the name of the picture."""
    rules = {f".c{at}": f"fill:{task};stroke:{task}" for at, task in enumerate(palette["tasks"])}
    rules |= {f".l{at}": f"fill:{pair[0]};stroke:{pair[1]}" for at, pair in enumerate(zip(palette["letters"], palette["tasks"]))}
    rules |= {"text": f"fill:{palette['ink'][0]}", ".small": f"fill:{palette['faint'][0]}"}
    return rules | {".page": f"fill:{palette['page'][0]}", ".band": f"fill:{palette['band'][0]}"}


def check_styles(path, name, style, found):
    media = re.search(r"@media \(prefers-color-scheme:dark\)\{\n(.*?)\n\}\n", style, re.S)
    parts = [style.replace(media.group(0), "") if media else style] + ([media.group(1)] if media else [])
    read = []
    for part in parts:
        rules = re.findall(r"([^{}]+)\{([^{}]*)\}", part)
        for selectors, _ in rules:
            for selector in selectors.split(","):
                need(selector.strip().startswith(f".{name} "), path, "a rule that reaches beyond the picture:", selector.strip())
        read.append([(selectors.strip().removeprefix(f".{name} "), body) for selectors, body in rules])
    wanted = [found["LIGHT"], found["DARK"]] if media else [found["LIGHT"]]
    if not media and dict(read[0]).get(".page") == f"fill:{found['DARK']['page'][0]}":
        wanted = [found["DARK"]]
    for rules, palette in zip(read, wanted, strict=True):
        for rule in rules_of(palette).items():
            need(rule in rules, path, "has no rule", rule)
    for size in re.findall(r"font(?:-size)?:(\d+)px", style):
        need(int(size) >= HEIGHT, path, "a text is", size, "high")
    need("font:16px" in style or "font-size" in style, path, "a text has no size")


def check_picture(path, found):
    root = tree.parse(path).getroot()
    plain = lambda element: element.tag.split("}")[1]
    name = root.get("class")
    need(re.fullmatch(r"bqsim-[0-9a-f]{8}", name or ""), path, "has no name")
    need(root.get("viewBox", "").split()[2:3] == [str(WIDTH)], path, "is not", WIDTH, "wide")
    styles = [element for element in root.iter() if plain(element) == "style"]
    need(len(styles) == 1, path, "has several styles or none")
    check_styles(path, name, styles[0].text, found)
    text = pathlib.Path(path).read_text()
    ids = re.findall(r' id="([^"]*)"', text)
    for id in ids + re.findall(r"url\(#([^)]*)\)", text):
        need(id.startswith(f"{name}-"), path, "an id that is not the picture's:", id)
        need(id in ids, path, "nothing has the id", id)
    arrows = [re.match(r"M([0-9.]+) (\d+)", e.get("d")) for e in root.iter() if e.get("class", "").startswith("arrow ")]
    spots = sorted((float(at[1]), int(at[2])) for at in arrows)
    for (x, y), (right, below) in zip(spots, spots[1:]):
        need((x, y) != (right, below), path, "two wakes at", x, y)
    units = set(re.findall(r"[0-9] (ns|us|ms|s)\b", " ".join(e.text or "" for e in root.iter() if plain(e) in ("title", "text"))))
    axis = {e.text.removeprefix("time in ") for e in root.iter() if (e.text or "").startswith("time in ")}
    need(units | axis == axis and len(axis) == 1, path, "has times in", units | axis)
    return name


def main():
    found = palettes()
    need(set(found) == {"LIGHT", "DARK"}, "no two palettes")
    for name, palette in found.items():
        check_palette(name, palette)
    paths = sys.argv[1:] or sorted(map(str, (TOP / "docs/pictures").glob("*.svg")))
    names = [check_picture(path, found) for path in paths]
    need(len(set(names)) == len(names), "two pictures of one name")
    print(f"{len(paths)} pictures")


main()
