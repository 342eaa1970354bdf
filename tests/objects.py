#!/usr/bin/env python3
"""Gives `bqsim import` object files of clang, whole, cut off, and with bytes changed.

    tests/objects.py BQSIM [EDITS [SEED]]   so many objects with changed bytes (10,000 if left out)

- Each policy of policies/c, as an object, is imported as the same text as its text section is, which llvm-objcopy takes out.
- A function that stands before `policy` changes nothing, and is named; a call, a global, another machine, another order of
  bytes and an object without `policy` are refused with their reasons.
- With -g the text is the same below comments that name lines of the C: those that llvm-objdump tells of the same instructions. Where
  `check` would refuse the policy, `import` says why by the line of the C.
- An object that is cut off at any length, or has up to four bytes changed, ends with status 0 or 1. What is imported of it is
  what `policy_of` below finds, which reads the file by the ELF specification alone: the text is that of these bytes.

Needs clang, llvm-objcopy and llvm-objdump for BPF: CLANG, OBJCOPY and OBJDUMP name them (clang-19, llvm-objcopy-19 and
llvm-objdump-19 if they do not).
Last seen: 2026-12-01, with clang 19.1.7 and 100 objects with changed bytes, 0 failed.
"""
import os, pathlib, random, re, struct, subprocess, sys, tempfile

HERE = pathlib.Path(__file__).resolve().parent
POLICIES = HERE.parent / 'policies/c'
CLANG = os.environ.get('CLANG', 'clang-19')
OBJCOPY = os.environ.get('OBJCOPY', 'llvm-objcopy-19')
OBJDUMP = os.environ.get('OBJDUMP', 'llvm-objdump-19')

HEAD = '#include "bqsim.h"\n'
POLICY = 'u64 policy(const struct bq_preempt *ask)\n{\n    if (ask->next == BQ_NONE)\n        return 0;\n    return ask->v > ask->next_v + 500000;\n}\n'
BEFORE = HEAD + 'u64 before(const struct bq_preempt *ask)\n{\n    return ask->own;\n}\n'
CALLS = HEAD + '__attribute__((noinline)) u64 other(u64 x)\n{\n    return x * 3;\n}\nu64 policy(const struct bq_preempt *ask)\n{\n    return other(ask->v) > 9;\n}\n'
BEYOND = HEAD + 'u64 policy(const struct bq_preempt *ask)\n{\n    return ((const u8 *)ask)[200];\n}\n'
GLOBAL = HEAD + 'u64 kept = 5;\nu64 policy(const struct bq_preempt *ask)\n{\n    return ask->v > kept;\n}\n'


def policy_of(file):
    """The bytes of the function `policy` of an object file, or None."""
    part = lambda data, at, size: data[at:at + size] if at + size <= len(data) else None
    if len(file) < 64 or file[:6] != b'\x7fELF\x02\x01':
        return None
    machine, = struct.unpack_from('<H', file, 18)
    place, = struct.unpack_from('<Q', file, 40)
    size, count = struct.unpack_from('<HH', file, 58)
    if count > 256:
        return None
    table = part(file, place, 64 * count)
    if machine != 247 or size != 64 or table is None:
        return None
    sections = [struct.unpack_from('<IIQQQQIIQQ', table, 64 * k) for k in range(count)]
    bytes_of = lambda number: part(file, sections[number][4], sections[number][5]) if number < count else None
    symbols = next((k for k in range(count) if sections[k][1] == 2), None)
    if symbols is None:
        return None
    entries, names = bytes_of(symbols), bytes_of(sections[symbols][6])
    if entries is None or names is None:
        return None
    for k in range(len(entries) // 24):
        name, info, _, section, at, long = struct.unpack_from('<IBBHQQ', entries, 24 * k)
        if info & 15 == 2 and section and part(names, name, 7) == b'policy\0':
            break
    else:
        return None
    for k in range(count):
        long_entry = {4: 24, 9: 16}.get(sections[k][1])
        if long_entry and sections[k][7] == section:
            relocations = bytes_of(k)
            if relocations is None:
                return None
            for place in range(0, len(relocations) - long_entry + 1, long_entry):
                if at <= struct.unpack_from('<Q', relocations, place)[0] < at + long:
                    return None
    code = bytes_of(section)
    return None if code is None else part(code, at, long)


class Room:
    """A folder, and the program that is tried in it."""

    def __init__(self, bqsim, folder):
        self.bqsim, self.folder, self.failed = bqsim, pathlib.Path(folder), 0

    def compile(self, source, *words):
        """The object of a C file, or of a C text."""
        if isinstance(source, str):
            text, source = source, self.folder / 'drawn.c'
            source.write_text(text)
        target = self.folder / 'made.o'
        subprocess.run([CLANG, *(words or ('-target', 'bpf', '-mcpu=v4')), '-O2', '-w', f'-I{POLICIES}', '-c', source, '-o', target], check=True)
        return target.read_bytes()

    def imported(self, data, *options):
        """Status, output and errors of `import` of these bytes."""
        file = self.folder / 'input'
        file.write_bytes(data)
        ran = subprocess.run([self.bqsim, 'import', *options, file], capture_output=True)
        return ran.returncode, ran.stdout, ran.stderr.decode(errors='replace')

    def section(self, code):
        """The text section, as llvm-objcopy takes it out."""
        made, taken = self.folder / 'made.o', self.folder / 'made.text'
        made.write_bytes(code)
        subprocess.run([OBJCOPY, '-O', 'binary', '--only-section=.text', made, taken], check=True)
        return taken.read_bytes()

    def holds(self, what, is_so, *shown):
        if not is_so:
            self.failed += 1
            print(f'failed: {what}', *shown, sep='\n    ')


def said(source, key):
    found = re.search(rf'^[ /*]*{key}: *([^\s*]+)', source.read_text(), re.M)
    return [f'--{key}', found.group(1)] if found else []


def whole(room):
    for source in sorted(POLICIES.glob('*.c')):
        options = [word for key in ('hook', 'maps', 'format') for word in said(source, key)]
        code = room.compile(source)
        ran, raw = room.imported(code, *options), room.imported(room.section(code), *options)
        room.holds(f'{source.name}: the object and its text section are imported as one text', ran == raw and ran[0] == 0, ran, raw)


def functions(room):
    hook = ('--hook', 'preempt')
    alone = room.imported(room.compile(HEAD + POLICY), *hook)
    behind = room.imported(room.compile(BEFORE + POLICY), *hook)
    room.holds('a function before `policy` changes nothing', alone[0] == 0 and behind[:2] == alone[:2], alone, behind)
    room.holds('a function before `policy` is named', 'before' in behind[2], behind[2])
    room.holds('nothing is named where there is one function', alone[2] == '', alone[2])
    code = room.compile(HEAD + POLICY)
    for what, data, words in (
        ('no policy', room.compile(BEFORE), 'no function `policy`'),
        ('a call', room.compile(CALLS), 'BQ_INLINE'),
        ('a global', room.compile(GLOBAL), 'a global'),
        ('an object for this machine', room.compile('int policy(void)\n{\n    return 0;\n}\n', '-target', 'x86_64-linux-gnu'), 'not for BPF'),
        ('a big-endian object', room.compile(HEAD + POLICY, '-target', 'bpfeb', '-mcpu=v4'), 'little-endian'),
        ('an object that is cut off', code[:-1], 'cut off'),
        ('an object of 257 sections', code[:60] + struct.pack('<H', 257) + code[62:], 'more than 256 sections'),
    ):
        ran = room.imported(data, *hook)
        room.holds(f'{what} is refused', ran[0] == 1 and ran[1] == b'' and words in ran[2], ran)


def lines_of_dump(file):
    """The line of C of each instruction of an object, as llvm-objdump tells it."""
    said = subprocess.run([OBJDUMP, '-d', '-l', '--no-show-raw-insn', file], check=True, capture_output=True, text=True).stdout
    lines, line = [], None
    for row in said.splitlines():
        if place := re.match(r'; .*:(\d+)$', row):
            line = int(place.group(1))
        elif re.match(r' +[0-9a-f]+:\s', row):
            lines.append(line)
    return lines


def lines_of_text(text):
    """The line of C of each instruction of an imported text, by the comments above them."""
    lines, line = [], None
    for row in text.splitlines():
        if place := re.fullmatch(r'; [^ ]+:(\d+)', row):
            line = int(place.group(1))
        elif not row.startswith(';'):
            lines.append(line)
    return lines


def sources(room):
    hook = ('--hook', 'preempt')
    plain = room.imported(room.compile(HEAD + POLICY), *hook)
    code = room.compile(HEAD + POLICY, '-target', 'bpf', '-mcpu=v4', '-g')
    noted = room.imported(code, *hook)
    text = noted[1].decode()
    bare = ''.join(row + '\n' for row in text.splitlines() if not re.fullmatch(r'; drawn\.c:\d+', row))
    room.holds('-g adds comments and nothing else', (noted[0], bare.encode()) == plain[:2] and bare != text, noted, plain)
    told, wanted = lines_of_text(text), lines_of_dump(room.folder / 'made.o')
    # of the first instruction BTF has the line of the function's name, and llvm-objdump that of its brace
    room.holds('the lines of C are those of the instructions', told[1:] == wanted[1:], told, wanted)
    for words, place in (('-g',), 'drawn.c line 4, slot'), ((), '\nslot 0:  '):
        refused = room.imported(room.compile(BEYOND, '-target', 'bpf', '-mcpu=v4', *words), *hook)
        is_told = refused[0] == 0 and 'note: check refuses this policy' in refused[2] and place in refused[2] and 'context + 200' in refused[2]
        room.holds('a policy that check refuses is imported, and the reason told', is_told, refused)
    called = room.imported(room.compile(CALLS, '-target', 'bpf', '-mcpu=v4', '-g'), *hook)
    room.holds('a refusal names the line of C', called[0] == 1 and 'drawn.c:8: slot ' in called[2], called)
    many = bytearray(code)
    struct.pack_into('<H', many, 60, 257)
    ran = room.imported(bytes(many), *hook)
    room.holds('an object of 257 sections is refused', ran[0] == 1 and 'more than 256 sections' in ran[2], ran)


def is_right(room, what, data):
    """The answer is that of the bytes which the model finds."""
    hook = ('--hook', 'preempt', '--maps', '16:64')
    ran = room.imported(data, *hook)
    room.holds(f'{what}: status', ran[0] in (0, 1), ran)
    if data[:4] != b'\x7fELF':
        return
    policy = policy_of(data)
    wanted = (1, b'') if policy is None else room.imported(policy, *hook)[:2]
    if policy is not None and re.fullmatch(rb'[0-9A-Fa-f\s]*', policy):
        return
    room.holds(f'{what}: answer', ran[:2] == wanted, ran, wanted)


def broken(room, edits, seed):
    draw = random.Random(seed)
    codes = [room.compile(BEFORE + POLICY), room.compile(CALLS), *(room.compile(source) for source in sorted(POLICIES.glob('*.c')))]
    for number, code in enumerate(codes):
        for long in range(len(code)):
            is_right(room, f'object {number}, cut off at {long}', code[:long])
    for k in range(edits):
        number = draw.randrange(len(codes))
        data = bytearray(codes[number])
        for _ in range(draw.randrange(1, 5)):
            data[draw.randrange(len(data))] = draw.choice((0, 1, 255, draw.randrange(256)))
        is_right(room, f'edit {k} of object {number} (seed {seed})', bytes(data))


def main():
    if len(sys.argv) not in (2, 3, 4):
        sys.exit(__doc__)
    edits, seed = (int(word) for word in (*sys.argv[2:], *(10_000, 1)[len(sys.argv) - 2:]))
    with tempfile.TemporaryDirectory() as folder:
        room = Room(os.path.abspath(sys.argv[1]), folder)
        whole(room)
        functions(room)
        sources(room)
        broken(room, edits, seed)
    print(f'{room.failed} failed')
    sys.exit(room.failed > 0)


main()
