#!/usr/bin/env python3
"""Compiles C policies of everyday shapes, brings them into order by `bqsim import`, and asks `bqsim check` of each.

    tests/policies_in_c.py BQSIM [COUNT [SEED]]   so many drawn policies (200 if left out), at -O2 and -O1, for v3 and v4

Needs clang for BPF: CLANG names it (clang-19 if it does not). It prints for each way to compile how many were imported and
accepted, and the causes of the rest. Nothing here decides whether a program is safe: the shares say how much of what people
write is taken.
Last seen: 2026-12-01, with clang 19.1.7, 200 of 200 accepted in each of the four ways.
"""
import collections, os, pathlib, random, subprocess, sys, tempfile

HERE = pathlib.Path(__file__).resolve().parent
CLANG = os.environ.get('CLANG', 'clang-19')
WAYS = [(level, cpu) for level in ('-O2', '-O1') for cpu in ('v4', 'v3')]

HEADS = {
    'place': ('struct bq_place', ['task', 'weight', 'waker', 'previous', 'processors', 'own'], ['mask', 'slice'], ('load', 16)),
    'preempt': ('struct bq_preempt', ['processor', 'queued', 'task', 'weight', 'next', 'next_weight', 'own'], ['v', 'deadline', 'next_v'], None),
    'pull': ('struct bq_pull', ['puller', 'other', 'size', 'other_size', 'movable', 'shown', 'own'], [], ('tasks', 8)),
}


class Drawn:
    """One policy: a hook, maps and a body of pieces."""

    def __init__(self, draw):
        self.draw, self.names = draw, 0
        self.hook = draw.choice(sorted(HEADS))
        self.struct, self.words, self.wide, self.rows = HEADS[self.hook]
        self.maps = [f'{draw.choice((8, 16, 24))}:{draw.choice((1, 4, 16, 64))}' for _ in range(draw.choice((0, 1, 1, 2)))]
        if len(self.maps) == 2 and draw.randrange(2):
            self.maps[1] = self.maps[0]

    def name(self, stem):
        self.names += 1
        return f'{stem}{self.names}'

    def word(self):
        return 'ask->' + self.draw.choice(self.words)

    def row(self, index):
        name, _ = self.rows
        return f'ask->{name}[{index}]' + ('' if name == 'load' else '.' + self.draw.choice(('weight', 'task', 'v')))

    def clamped(self):
        """An index that is tested, by one of several shapes, and then used."""
        if not self.rows:
            return self.gap()
        _, room = self.rows
        index, draw = self.name('index'), self.draw
        test = draw.choice((
            f'if ({index} > {room - 1}) return ask->own;',
            f'if ({index} >= {room}) {index} = {draw.randrange(room)};',
            f'{index} = {index} & {room - 1};',
            f'{index} = {index} % {room};',
            f'{index} = {index} < {room - 1} ? {index} : {room - 1};',
        ))
        return f'u32 {index} = {self.word()};\n{test}\nif ({self.row(index)} > {draw.randrange(1, 2000)}) best += {draw.randrange(9)};\n'

    def scan(self):
        """An unrolled search for the least or the greatest."""
        if not self.rows:
            return self.gap()
        draw = self.draw
        turns, found, k = draw.choice((2, 4, 8)), self.name('found'), self.name('k')
        order = draw.choice('<>')
        first = '~0ull' if order == '<' else '0'
        skip = draw.choice(('', f'if ({k} == {self.word()}) continue;\n', f'if ({k} >= {self.word()}) break;\n'))
        return (f'u64 {found} = {first};\n#pragma clang loop unroll(full)\nfor (u32 {k} = 0; {k} < {turns}; {k}++) {{\n{skip}'
                f'if ({self.row(k)} {order} {found}) {{ {found} = {self.row(k)}; best = {k}; }}\n}}\n')

    def entry(self):
        """State in a map: looked up, tested, read and written."""
        if not self.maps:
            return self.clamped()
        draw = self.draw
        m = draw.randrange(len(self.maps))
        size, entries = (int(n) for n in self.maps[m].split(':'))
        number, value = self.name('number'), self.name('value')
        field = draw.randrange(size // 8)
        key = draw.choice(('0', self.word(), f'{self.word()} % {entries}', f'{self.word()} & {entries - 1}'))
        use = draw.choice((
            f'{value}[{field}] += 1;\nbest += {value}[{field}] & 1;\n',
            f'if ({value}[{field}] > {draw.randrange(1, 100000)}) {value}[{field}] = 0; else {value}[{field}] += {self.word()};\n',
            f'u64 {value}_now = bq_clock();\nif ({value}_now - {value}[{field}] < {draw.randrange(1, 9000000)}) return ask->own;\n{value}[{field}] = {value}_now;\n',
        ))
        return f'u32 {number} = {key};\nu64 *{value} = bq_lookup(BQ_MAP({m}), &{number});\nif (!{value}) return ask->own;\n{use}'

    def histogram(self):
        """A bucket of a value, by its size, in a map."""
        if not self.maps:
            return self.gap()
        m = self.draw.randrange(len(self.maps))
        _, entries = (int(n) for n in self.maps[m].split(':'))
        value, bucket, slot = self.name('value'), self.name('bucket'), self.name('slot')
        steps = ''.join(f'if ({value} >> {s}) {{ {bucket} += {s}; {value} >>= {s}; }}\n' for s in (8, 4, 2, 1))
        return (f'u64 {value} = {self.word()} & 0xffff;\nu32 {bucket} = 0;\n{steps}'
                f'if ({bucket} >= {entries}) {bucket} = {entries - 1};\nu64 *{slot} = bq_lookup(BQ_MAP({m}), &{bucket});\nif ({slot}) {slot}[0]++;\n')

    def second(self):
        """Two look-ups, the second by what the first answers."""
        if not self.maps:
            return self.gap()
        m = self.draw.randrange(len(self.maps))
        _, entries = (int(n) for n in self.maps[m].split(':'))
        one, two, a, b = (self.name(s) for s in ('one', 'two', 'first', 'then'))
        return (f'u32 {one} = 0;\nu64 *{a} = bq_lookup(BQ_MAP({m}), &{one});\nif (!{a}) return ask->own;\n'
                f'u32 {two} = {a}[0] % {entries};\nu64 *{b} = bq_lookup(BQ_MAP({m}), &{two});\nif (!{b}) return {self.draw.randrange(3)};\n'
                f'{b}[0] = {a}[0] + {self.word()};\nbest += {b}[0] & 3;\n')

    def either(self):
        """One of two maps of one shape, by a test: one look-up, or the entry of one of two."""
        if len(self.maps) < 2 or self.maps[0] != self.maps[1]:
            return self.entry()
        draw = self.draw
        number, value, other, chosen = (self.name(s) for s in ('number', 'value', 'other', 'chosen'))
        test = f'{self.word()} > {draw.randrange(4)}'
        return f'u32 {number} = {draw.randrange(3)};\n' + draw.choice((
            f'u64 *{value} = bq_lookup({test} ? BQ_MAP(0) : BQ_MAP(1), &{number});\nif (!{value}) return ask->own;\n{value}[0] += 1;\n',
            f'u64 *{value} = {test} ? bq_lookup(BQ_MAP(0), &{number}) : bq_lookup(BQ_MAP(1), &{number});\nif ({value}) {value}[0] += 1;\n',
            f'u64 *{value} = bq_lookup(BQ_MAP(0), &{number});\nu64 *{other} = bq_lookup(BQ_MAP(1), &{number});\n'
            f'if (!{value} || !{other}) return ask->own;\nu64 *{chosen} = {test} ? {value} : {other};\nbest += {chosen}[0]++ & 1;\n',
        ))

    def gap(self):
        """A difference of two numbers, compared or limited."""
        draw = self.draw
        a, b, gap = self.word(), self.word(), self.name('gap')
        if len(self.wide) > 1:
            a, b = ('ask->' + w for w in draw.sample(self.wide, 2))
        return draw.choice((
            f'u64 {gap} = {a} - {b};\nif ({gap} < {draw.randrange(1, 1 << 22)}) best += 1;\n',
            f's64 {gap} = (s64)({a} - {b});\nif ({gap} > {draw.randrange(1 << 20)}) return {draw.randrange(2)};\nif ({gap} < 0) best += 2;\n',
            f'u64 {gap} = {a} > {b} ? {a} - {b} : {b} - {a};\nbest += {gap} / {draw.choice((3, 1000, 1024))} & 7;\n',
        ))

    def text(self):
        pieces = [self.clamped, self.scan, self.entry, self.entry, self.histogram, self.second, self.either, self.gap]
        body = ''.join(self.draw.choice(pieces)() for _ in range(self.draw.randrange(1, 5)))
        last = self.draw.choice(('return best;', 'return best & 1;', 'return best ? ask->own : 0;', 'if (best > 9) return ask->own;\nreturn best;'))
        return f'#include "bqsim.h"\nu64 policy(const {self.struct} *ask)\n{{\nu64 best = 0;\n{body}{last}\n}}\n'


def run(words, **more):
    return subprocess.run(words, capture_output=True, **more)


def judged(bqsim, room, drawn, level, cpu):
    """What comes of one policy, compiled one way."""
    source, code = room / 'p.c', room / 'p.o'
    source.write_text(drawn.text())
    built = run([CLANG, '-target', 'bpf', f'-mcpu={cpu}', level, '-w', f'-I{HERE.parent}/policies/c', '-c', source, '-o', code])
    if built.returncode:
        return 'not compiled: ' + built.stderr.decode().splitlines()[0]
    options = ['--hook', drawn.hook] + (['--maps', ','.join(drawn.maps)] if drawn.maps else [])
    text = run([bqsim, 'import', *options, code])
    if text.returncode:
        return 'not imported: ' + text.stderr.decode().split(': ', 1)[-1].split(';')[0].strip()
    image = run([bqsim, 'asm', *options], input=text.stdout)
    if image.returncode:
        return 'not assembled: ' + image.stdout.decode().strip()
    answer = run([bqsim, 'check'], input=image.stdout).stdout.decode().split()
    return 'accepted' if answer[0] == 'accepted' else ' '.join(answer[1:3])


def main():
    bqsim = os.path.abspath(sys.argv[1])
    count = int(sys.argv[2]) if len(sys.argv) > 2 else 200
    seed = int(sys.argv[3]) if len(sys.argv) > 3 else 1
    with tempfile.TemporaryDirectory() as folder:
        for level, cpu in WAYS:
            fates, shown = collections.Counter(), {}
            for k in range(count):
                fate = judged(bqsim, pathlib.Path(folder), Drawn(random.Random(f'{seed} {k}')), level, cpu)
                fates[fate] += 1
                shown.setdefault(fate, k)
            print(f'{level} {cpu}: {fates["accepted"]} of {count} accepted')
            for fate, times in fates.most_common():
                if fate != 'accepted':
                    print(f'    {times:4} {fate} (the first is number {shown[fate]})')


if __name__ == '__main__':
    main()
