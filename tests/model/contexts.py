"""What policies are shown, from docs/CONTEXTS.md alone."""
import struct

NONE = 2**32 - 1
PLACES = {1: 16, 2: 64}  # by the image's version: for how many processors a place context has room
LENGTHS = {(hook, version): length for version in PLACES for hook, length in [("preempt", 56), ("pull", 160)]}
LENGTHS |= {("place", version): 40 + 4 * places for version, places in PLACES.items()}


def place(version, task, waker, loads, own):
    """`loads` are those of the moment at which the wake began, one for each processor of the machine."""
    room = PLACES[version]
    shown = loads[:room]

    def seen(processor):
        return NONE if processor is None or processor >= len(shown) else processor

    head = struct.pack(
        "<IIQQIIII",
        task.number, task.weight, task.mask & 2**room - 1, task.slice, seen(waker), seen(task.previous), len(shown), seen(own),
    )
    return head + struct.pack(f"<{room}I", *shown, *[0] * (room - len(shown)))


def preempt(processor, queue, current, first, own):
    """`first` is the task that the rule would choose of the queue alone, or None."""
    following = (first.number, first.weight, first.v) if first else (NONE, 0, 0)
    return struct.pack(
        "<IIIIQQIIQII",
        processor, len(queue), current.number, current.weight, current.v, current.deadline, *following, own, 0,
    )


def pull(puller, other, size, other_size, movable, own):
    """`movable` has the greatest (v, number) first."""
    shown = movable[:8]
    head = struct.pack("<8I", puller, other, size, other_size, len(movable), len(shown), own, 0)
    return (head + b"".join(struct.pack("<IIQ", task.number, task.weight, task.v) for task in shown)).ljust(160, b"\0")
