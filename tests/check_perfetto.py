#!/usr/bin/env python3
"""Checks a file in the Chrome trace format against the format's own rules.

    tests/check_perfetto.py FILE [--slices CSV]

It is one JSON object whose `traceEvents` is a list of events. For each event:
- `ph` is one of M, X, s, f, i, C, and the event has the members that this phase needs, each of its type;
- `ts` and `dur` are numbers that are not negative.
For each track (a process and a thread): the times of its events do not go back in the file, save the beginnings of migrations, and
its slices (X) lie apart, or begin and end at once.
For each counter: its times do not go back.
For each flow: one beginning (s) with its id, before its one end (f); a beginning lies within a slice of its track; an end lies at
the beginning of a run.

With --slices: the runs, joined where one goes on from another, are those that the rows of the CSV make (`bqsim timeline --as csv`).
Prints how many events it saw. Status 1 at the first that breaks a rule.
"""
import csv
import decimal
import json
import sys

NEEDS = {
    "M": {"pid": int, "name": str, "args": dict},
    "X": {"pid": int, "tid": int, "name": str, "cat": str, "ts": decimal.Decimal, "dur": decimal.Decimal, "args": dict},
    "s": {"pid": int, "tid": int, "name": str, "cat": str, "id": int, "ts": decimal.Decimal},
    "f": {"pid": int, "tid": int, "name": str, "cat": str, "id": int, "ts": decimal.Decimal, "bp": str},
    "i": {"pid": int, "tid": int, "name": str, "ts": decimal.Decimal, "s": str},
    "C": {"pid": int, "name": str, "ts": decimal.Decimal, "args": dict},
}
METADATA = {"process_name": str, "thread_name": str, "thread_sort_index": int}


def fail(place, event, reason):
    sys.exit(f"event {place}: {reason}: {json.dumps(event, default=str)}")


def check_members(place, event):
    phase = event.get("ph")
    if phase not in NEEDS:
        fail(place, event, f"no phase {phase!r}")
    for member, kind in NEEDS[phase].items():
        if not isinstance(event.get(member), kind):
            fail(place, event, f"{member} is no {kind.__name__}")
        if kind is decimal.Decimal and event[member] < 0:
            fail(place, event, f"{member} is negative")
    if phase == "M":
        kind = METADATA.get(event["name"])
        values = list(event["args"].values())
        if kind is None or len(values) != 1 or not isinstance(values[0], kind):
            fail(place, event, "unknown metadata")
    if phase == "i" and event["s"] not in ("g", "p", "t"):
        fail(place, event, "scope is none of g, p, t")
    if phase == "C" and not all(isinstance(value, int) for value in event["args"].values()):
        fail(place, event, "a counter counts numbers")


def check_order(events):
    last, over, begun, ended, starts, slices = {}, {}, {}, set(), {}, {}
    for place, event in enumerate(events):
        check_members(place, event)
        phase = event["ph"]
        if phase == "M":
            continue
        track = (event["pid"], event["name"]) if phase == "C" else (event["pid"], event["tid"])
        if event.get("cat") != "migration" or phase != "s":
            if event["ts"] < last.get(track, 0):
                fail(place, event, "its track's time goes back")
            last[track] = event["ts"]
        if phase == "X":
            lasts = (event["ts"], event["ts"] + event["dur"])
            if lasts[0] < over.get(track, (0, 0))[1] and lasts != over[track]:
                fail(place, event, "slices overlap")
            over[track] = lasts
            slices.setdefault(track, []).append(lasts)
            if event["cat"] == "run":
                starts.setdefault(track, set()).add(event["ts"])
        if phase == "s":
            if event["id"] in begun:
                fail(place, event, "the flow has begun already")
            begun[event["id"]] = place
            if not any(begin <= event["ts"] < end for begin, end in reversed(slices.get(track, []))):
                fail(place, event, "no slice is there")
        if phase == "f":
            if event["id"] in ended:
                fail(place, event, "the flow has ended already")
            ended.add(event["id"])
            if event["ts"] not in starts.get(track, set()):
                fail(place, event, "no run begins there")
    for id in ended:
        if id not in begun:
            sys.exit(f"flow {id} ends and never begins")


def joined(slices):
    """The slices of each processor, joined where one goes on from the other."""
    rows = {}
    for processor, task, begin, end in slices:
        row = rows.setdefault(processor, [])
        if row and row[-1][0] == task and row[-1][2] == begin:
            row[-1] = (task, row[-1][1], end)
        elif begin < end:
            row.append((task, begin, end))
    return rows


def check_slices(events, path):
    runs = joined(
        (e["tid"], e["args"]["task"], int(e["ts"] * 1000), int((e["ts"] + e["dur"]) * 1000)) for e in events if e["ph"] == "X" and e["cat"] == "run"
    )
    with open(path, newline="") as file:
        rows = list(csv.DictReader(file))
    slices = joined((int(r["processor"]), int(r["task"]), int(r["from"]), int(r["to"])) for r in rows)
    if runs != slices:
        sys.exit(f"the runs are not those of {path}")


def main():
    arguments = sys.argv[1:]
    if not arguments:
        sys.exit(__doc__)
    with open(arguments[0]) as file:
        trace = json.load(file, parse_float=decimal.Decimal)
    if not isinstance(trace, dict) or not isinstance(trace.get("traceEvents"), list):
        sys.exit("no list traceEvents")
    events = trace["traceEvents"]
    check_order(events)
    if arguments[1:2] == ["--slices"]:
        check_slices(events, arguments[2])
    print(f"{len(events)} events: " + ", ".join(f"{sum(e['ph'] == p for e in events)} {p}" for p in NEEDS))


main()
