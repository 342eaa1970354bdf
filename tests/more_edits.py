#!/usr/bin/env python3
"""Tries the edits of tests/edits, which the gate does not try for its time: the prover must refuse each, as it does those in must-fail/.

    tests/more_edits.py [CRATE..]        all, or those of these crates: minutes a crate, and some 20 seconds an edit
    tests/more_edits.py --texts          only whether each edit says in a sentence what it does, and each text that it replaces stands just
                                         once where it says: a second
    tests/more_edits.py --stale          only which crates' edits were not tried on the sources as they are: a second

An edit begins with its sentence: a line in words, before its `file:`.

It works on a copy of the repository, in which these edits stand in must-fail/ in place of those that the gate tries, and calls
`rt must-fail` there for one crate after the other; what `rt check` has kept on this machine, that takes over. Exit status 0: each is
refused. Of each crate whose edits are all refused it writes a line CRATE CHECKSUM DATE into tests/edits/tried.txt, in place of the crate's
earlier line. The checksum is that of the crate's edits and of its src/, specs/ and proofs/; those of the crates below it do not count.
With --stale it lists the crates whose checksum is not there, and the exit status is 0 if there is none.
"""
import datetime
import hashlib
import shutil
import subprocess
import sys
import tempfile
from pathlib import Path

TOP = Path(__file__).resolve().parent.parent
EDITS = TOP / 'tests' / 'edits'
TRIED = EDITS / 'tried.txt'


def changes(edit):
    """The sentence of an edit, its file, and the pairs of texts that it replaces."""
    sentence, file, pairs = '', None, []
    for line in edit.read_text(encoding='utf-8').splitlines():
        word, _, text = line.partition(': ')
        if word == 'file':
            file = text.strip()
        elif word == 'old':
            pairs.append([text, None])
        elif word == 'new' and pairs:
            pairs[-1][1] = text
        elif not file:
            sentence = line.strip()
    return sentence, file, pairs


def fault(crate, edit):
    """What is wrong with an edit's sentence and texts, if anything is."""
    sentence, file, pairs = changes(edit)
    path = TOP / 'crates' / crate / (file or '')
    if not sentence.endswith('.'):
        return 'no sentence before its file says what it does'
    if not file or not path.is_file():
        return f'there is no file {file}'
    text = path.read_text(encoding='utf-8')
    for old, new in pairs:
        if new is None or text.count(old) != 1:
            return f'{old!r} stands {text.count(old)} times in {file}'
        text = text.replace(old, new)
    return None if pairs else 'it replaces nothing'


def checksum(crate):
    """That of a crate's edits, and of its sources which they are tried on."""
    folders = [TOP / 'crates' / crate / part for part in ('src', 'specs', 'proofs')]
    files = [*EDITS.glob(f'{crate}/*.edit'), *(it for folder in folders for it in folder.rglob('*') if it.is_file())]
    summed = hashlib.sha256()
    for file in sorted(files):
        summed.update(f'{file.relative_to(TOP)} {hashlib.sha256(file.read_bytes()).hexdigest()}\n'.encode())
    return summed.hexdigest()[:16]


def tried():
    """The checksum and the date of each crate's line in tried.txt."""
    return {crate: (seen, date) for crate, seen, date in map(str.split, TRIED.read_text(encoding='utf-8').splitlines())}


def note(crate, seen):
    """Writes a crate's line into tried.txt."""
    lines = {**tried(), crate: (seen, datetime.date.today().isoformat())}
    TRIED.write_text(''.join(f'{name} {" ".join(lines[name])}\n' for name in sorted(lines)), encoding='utf-8')


def stale(names):
    """Lists the crates whose edits were not tried on the sources as they are."""
    lines = tried()
    late = [name for name in names if lines.get(name, ('', ''))[0] != checksum(name)]
    for name in late:
        print(f'{name}: {f"tried on other sources, {lines[name][1]}" if name in lines else "never noted as tried"}')
    print(f'{len(names)} crates with edits, of which those of {len(late)} were not tried on these sources')
    return 1 if late else 0


def try_all(names):
    """Tries the edits of these crates; says whether all are refused."""
    failed = 0
    with tempfile.TemporaryDirectory(prefix='bqsim-edits-') as room:
        shutil.copytree(TOP / 'crates', f'{room}/crates', ignore=shutil.ignore_patterns('out', 'must-fail'))
        for file in ('crates.txt', 'HANDLES'):
            shutil.copy(TOP / file, room)
        for crate in names:
            shutil.copytree(EDITS / crate, f'{room}/crates/{crate}/must-fail')
        seen = {crate: checksum(crate) for crate in names}
        for crate in names:
            if subprocess.run(['rt', 'must-fail', crate], cwd=room).returncode:
                failed += 1
            else:
                note(crate, seen[crate])
    return 1 if failed else 0


def main():
    words = sys.argv[1:]
    names = [it for it in words if not it.startswith('--')] or sorted(it.name for it in EDITS.iterdir() if it.is_dir())
    if '--stale' in words:
        return stale(names)
    edits = [(crate, edit) for crate in names for edit in sorted((EDITS / crate).glob('*.edit'))]
    faults = [(crate, edit.name, why) for crate, edit in edits if (why := fault(crate, edit))]
    for crate, name, why in faults:
        print(f'{crate}/{name}: {why}')
    print(f'{len(edits)} edits, {len(faults)} without a sentence, or whose texts do not stand just once')
    if '--texts' in words or faults:
        return 1 if faults else 0
    return try_all(names)


if __name__ == '__main__':
    sys.exit(main())
