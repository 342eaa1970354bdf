"""Results as a text for people, as rows of a gradebook and as JSON. No form has a text of the file, unless it is asked for."""
import csv
import io
import json

from .judging import FAILED, NOT_JUDGED, PASSED

STATUS = {PASSED: 0, FAILED: 1, NOT_JUDGED: 3}


def plain(name):
    """A file's name in printable characters, so that it can neither end a line nor move the cursor."""
    return "".join(it if it.isprintable() else it.encode("unicode_escape", "surrogatepass").decode() for it in name)


def amount(value, unit):
    if value is None:
        return "never"
    return f"{float(value / 10**9):.3f} ms" if unit == "ns" else f"{float(value / 1000):.1f}".replace(".0", "")


def as_text(results, exam, explains):
    """A table for each file. The last line does not have the word `passed` unless each file has passed."""
    for result in results:
        yield f"{plain(result.file)}: {exam.title}, seed {exam.seed}"
        yield from table(result.aims)
        if result.reason:
            yield f"  {result.reason}"
        if result.explanation:
            yield from (f"  {plain(line)}" for line in result.explanation) if explains else ["  (--explain shows why, with text of the file)"]
        yield verdict(result)
    if len(results) > 1:
        worst = max((it.outcome for it in results), key=STATUS.get)
        yield f"{worst}: {sum(it.outcome == worst for it in results)} of {len(results)} files"


def table(aims):
    rows = [("points", "workload", "aim", "came", "wanted", "")] if aims else []
    for it in aims:
        points = f"{it.aim.points if it.is_met else 0} of {it.aim.points}" if it.aim.points else "must"
        wanted = f"{it.aim.want.sign} {amount(it.limit, it.unit)}"
        rows.append((points, it.aim.case, it.aim.want.of_task(it.aim.task), amount(it.came, it.unit), wanted, "" if it.is_met else "missed"))
    widths = [max(map(len, column)) for column in zip(*rows)]
    for *left, came, wanted, missed in rows:
        cells = [f"{cell:{width}}" for cell, width in zip(left, widths)] + [f"{came:>{widths[3]}}", f"{wanted:>{widths[4]}}", missed]
        yield "  " + "  ".join(cells).rstrip()


def verdict(result):
    if result.outcome == NOT_JUDGED:
        return NOT_JUDGED
    condition = "" if all(it.is_met for it in result.aims if not it.aim.points) else ", since a condition is missed"
    return f"{result.outcome}: {result.points} of {result.of} points{condition}"


def as_csv(results, exam, _):
    """A row for each file, below a row of names."""
    yield row(["file", "outcome", "points", "of", "reason", "seed", "sha256", "program", *map(str, exam.aims)])
    for it in results:
        marks = ["met" if aim.is_met else "missed" for aim in it.aims] or [""] * len(exam.aims)
        points = "" if it.points is None else it.points
        yield row([cell(it.file), it.outcome, points, it.of, it.reason, exam.seed, it.sha256, it.program, *marks])


def cell(name):
    """A file's name that no spreadsheet takes for a formula: the file =1+1 is ./=1+1 too."""
    return f"./{plain(name)}" if name[:1] in tuple("=+-@") else plain(name)


def row(cells):
    out = io.StringIO()
    csv.writer(out, lineterminator="").writerow(cells)
    return out.getvalue()


def as_json(results, exam, explains):
    """An object a line for each file."""
    for it in results:
        answer = {"schema": 1, "file": plain(it.file), "exam": exam.title, "seed": exam.seed, "outcome": it.outcome, "points": it.points}
        answer.update(of=it.of, reason=it.reason or None, sha256=it.sha256 or None, program=it.program or None, aims=[aim(each, exam) for each in it.aims])
        yield json.dumps({**answer, "explanation": it.explanation} if explains else answer)


def aim(it, exam):
    """An aim. `came` and `limit` are in thousandths of a nanosecond or of a count, rounded down."""
    case = exam.cases[it.aim.case]
    return {
        "workload": it.aim.case,
        "seed": case.seed,
        "seeds": case.seeds,
        "task": it.aim.task or None,
        "figure": it.aim.want.figure,
        "aim": it.aim.want.of_task(it.aim.task),
        "points": it.aim.points,
        "met": it.is_met,
        "unit": it.unit,
        "came_thousandths": None if it.came is None else int(it.came),
        "limit_thousandths": int(it.limit),
    }


FORMS = {"text": as_text, "csv": as_csv, "json": as_json}


def status(results):
    return max(STATUS[result.outcome] for result in results)
