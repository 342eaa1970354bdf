"""Images, from docs/IMAGE.md alone. The model has no verifier: it knows the programs of `verdicts` that are refused."""
import functools
import struct
from dataclasses import dataclass

from model import machine, verdicts

MAGIC = b"BQPI"
HOOKS = ["place", "preempt", "pull"]
MOST_MAPS, MOST_SLOTS = 8, 4096


class Fault(Exception):
    """Bytes are no image, or one that is not loaded; the text is what a trace answers after `refused`."""


@dataclass(frozen=True)
class Image:
    version: int
    hook: str
    shapes: tuple  # of (value size, entries)
    program: bytes

    def spelled(self):
        head = MAGIC + bytes([self.version, HOOKS.index(self.hook)]) + struct.pack("<H", len(self.shapes))
        shapes = b"".join(struct.pack("<HH", *shape) for shape in self.shapes)
        return head + shapes + struct.pack("<I", len(self.program) // 8) + self.program

    @functools.cached_property
    def budget(self):
        return machine.budget(self.program)

    def maps(self):
        return [machine.Map(*shape) for shape in self.shapes]


def read(spelled):
    """The image that the bytes are. Fields are judged from left to right, each when all its bytes are there."""
    rest = spelled

    def field(length, fault, good):
        nonlocal rest
        if len(rest) < length:
            raise Fault("L5")
        found, rest = rest[:length], rest[length:]
        if not good(found):
            raise Fault(fault)
        return found

    def good_shape(found):
        value_size, entries = struct.unpack("<HH", found)
        return value_size in range(8, 257, 8) and entries in range(1, 257)

    field(4, "L1", lambda found: found == MAGIC)
    version = field(1, "L2", lambda found: found[0] in (1, 2))[0]
    hook = HOOKS[field(1, "L3", lambda found: found[0] < len(HOOKS))[0]]
    count = field(2, "L4", lambda found: int.from_bytes(found, "little") <= MOST_MAPS)
    shapes = [struct.unpack("<HH", field(4, "L4", good_shape)) for _ in range(int.from_bytes(count, "little"))]
    slots = int.from_bytes(field(4, None, lambda _: True), "little")
    program = field(8 * slots, None, lambda _: True)
    if rest:
        raise Fault("L6")
    if not 1 <= slots <= MOST_SLOTS:
        raise Fault("L7 I1 0")
    return Image(version, hook, tuple(shapes), program)


@functools.cache
def load(spelled):
    """The image, or the fault of bytes that are none and of programs that are known to be refused."""
    image = read(spelled)
    if fault := REFUSED.get(image):
        raise Fault(fault)
    return image


REFUSED = {
    Image(version, "preempt", shapes, program): fault
    for shapes, program, fault in verdicts.WORKED + verdicts.SWEPT
    for version in (1, 2)
    if fault
}
