#!/usr/bin/env python3
"""Looks for facts that stand in two places of the crates' product code.

    tests/one_place.py        exit status 0: none but those that ALLOWED names with a reason

Six things are looked for: a known fact outside its home (FACTS: a pattern, and the file that may have it); the same function
twice, by its text without its name; the same definition twice in specs, by its right side; the same lemma twice in proofs, in one
crate or two, by its statement, whatever its variables are called (checks/statements.py); the same long text twice; and, in trials
and tests too, a lemma outside the files that may name it (SHUT).
"""
import re
import sys
from collections import defaultdict
from pathlib import Path

sys.dont_write_bytecode = True

from checks import statements

TOP = Path(__file__).resolve().parent.parent / 'crates'

# From how many characters on a statement may have one lemma only. A shorter one may have two if neither has LINES lines.
STATEMENT, LINES = 60, 4

# What each fact looks like, and the only files that may say it.
FACTS = [
    ('the word of a hook', r'"(?:place|preempt|pull)"', {'bq_hooks/src/hook.rt'}),
    ('the keyword of a line of a trace', r'b?"(?:admit|retire|draw|install|begin|end|drain|block|show)"|"(?:machine|admit|retire|install|begin|end|wake|drain|tick|block|pull) \{', {'bq_lines/src/keyword.rt'}),
    ('the words of hooks as a list', r'place, preempt', {'bq_hooks/src/hook.rt'}),
    ('an address of the machine', r'0x2_0000_0\d\d\d|0x10_0000_0000|0x4000_0000_0000', {'bq_bpf/src/addresses.rt'}),
    ('the number of a helper', r'helper\s*(?:==|=>)\s*\d', {'bq_bpf/src/helper.rt'}),
    ('the list of the helpers', r'\bUPDATE\W+(?:helper\W+)?NOW\b', {'bq_bpf/src/helper.rt'}),
    ('which helpers are of counters', r'ADD_COUNTER \|\| \*?helper == READ_COUNTER', {'bq_bpf/src/instruction.rt'}),
    ('the size of the stack', r'(?m)^(?! *(?:requires|ensures|ghost)\b)[^"\n]*?(?<!; )\b512\b', {'bq_bpf/src/addresses.rt'}),
    ('the number of a fault or a cause', r'(?:Cause|Obligation)::\w+ => \d', {'bq_insn/src/fault.rt', 'bq_asm/src/fault.rt', 'bq_verify/src/graph_cause.rt', 'bq_transfer/src/obligation.rt'}),
    ('the number of processors of a machine', r'ProcessorCount::\w+ => \d', {'bq_words/src/processor_count.rt'}),
    ('the word of a discipline', r'b?"(?:cfs|eevdf)"', {'bq_words/src/discipline_name.rt'}),
    ('the word of a version', r'Version::\w+ => \d', {'bq_hooks/src/hook.rt'}),
    ('how far ahead a task may be under CFS', r'GRANULARITY: u64', {'bq_cfs/src/discipline.rt'}),
    ('the latest reading of a clock', r'1 << 48', {'bq_disc/src/clock.rt'}),
    ('the text of a refused event', r'"(?:refused )?C\d+ ', {'bq_parts/src/refusal.rt'}),
    ('what is no number of processors', r'is no number of processors', {'bq_words/src/quantities.rt'}),
    ('the first words of instructions', r'\bjsle64\b|\bsmod32\b', {'bq_asm/src/table.rt'}),
    ('an exit status', r'(?<!_REGISTER: )u8 = [1-4];', {'bq_console/src/status.rt'}),
    ('the longest duration', r'281_?474_?976_?710_?655', set()),
    ('how many tasks there may be', r'(?<!NAME: usize) = 1_?024;|\.\.1_?024\b|>= 1_?024\b', {'bq_disc/src/limits.rt', 'bq_weights/src/lib.rt'}),
    ('from which to which nice values are', r'(?:[<>=]=? |\()-20\b|\b19 ?>=|<=? ?19\b', {'bq_weights/src/lib.rt'}),
    ('from which to which length slices are', r'(?i)slice(?:: u64 =| <=?| >=?) *100_?000', {'bq_disc/src/limits.rt'}),
    ('how many slots a program has at most', r'(?m)^(?! *(?:requires|ensures|ghost)\b)[^"\n]*?(?<!PIECE: usize = )\b(?:4_?096|32_?768)\b', {'bq_insn/src/lib.rt'}),
    ('how many counters there are', r'(?m)^(?! *(?:requires|ensures|ghost)\b)[^"\n]*?(?:counter\)? (?:<|>=|>) 6[34]\b|number >= 64|view, 1, 63)', {'bq_bpf/src/board.rt'}),
    ('how many processors there may be', r'0\.\.64\b|min\(64\)|place < 64\b', {'bq_disc/src/limits.rt', 'bq_bpf/src/board.rt'}),
    ('how many maps a program has at most', r'(?:count|index) (?:<=|>=) 8\b|MAPS: usize', {'bq_bpf/src/shape.rt'}),
    ('where virtual time begins', r'(?:mark: |u64 = )1 << 32\b', {'bq_disc/src/limits.rt', 'bq_streams/src/whole.rt'}),
    ('the slice of a task that asks for none', r'SLICE: u64 = 3_?000_?000\b', {'bq_disc/src/limits.rt'}),
    ('what the helpers do', r'1 looks an entry up, 2 writes', {'bq_bpf/src/helper.rt'}),
    ('the numbers of the helpers as a list', r'1, 2, 5, 8, 100', {'bq_bpf/src/helper.rt'}),
    ('how many calls of counters a run makes at most', r'seventeenth|16 are allowed|<Call, 16>|count >= 16\b', {'bq_bpf/src/board.rt'}),
    ('the words of disciplines as a list', r'cfs\W+(?:or\W+)?eevdf', {'bq_words/src/discipline_name.rt'}),
    ('the numbers of processors as a list', r'32(?: or|,) 64"', {'bq_words/src/processor_count.rt'}),
    ('the names of forms as a list', r'map, timehist', {'bq_timeline/src/form_names.rt'}),
    ('the weight of nice value 0', r'\* 1_?024 /|/ 1_?024;|1_?024 \* u128', {'bq_weights/src/lib.rt'}),
    ('how long a context is', r'; (?:104|296|56|160)\]|=> (?:104|296|56|160),|: usize = (?:104|296|160)\b|LENGTH: usize = 56\b|< 160\b', {'bq_hooks/src/place.rt', 'bq_hooks/src/preempt.rt', 'bq_hooks/src/pull.rt'}),
    ('what stands where there is no task', r'NOBODY: u(?:32|64) = 0x', {'bq_hooks/src/fields.rt'}),
    ('what a task is called that may run under EEVDF', r'"(?:not )?eligible"', {'bq_why/src/texts.rt'}),
    ('the word of a key of marks', r'(?:=>|==) b?"(?:hook|maps|format)"', {'bq_policy_file/src/mark.rt'}),
    ('how near a misspelling is', r'levenshtein', {'bq_words/src/near.rt'}),
    ('which words are numbers', r'\bparse::<[iu]|from_str_radix', set()),
    ('the mark of hex digits', r'strip_prefix\(b?"0x"\)', {'bq_words/src/numbers.rt'}),
    ('which processors a mask has', r'>> \w+\) % 2 == 1', {'bq_disc/src/mask.rt'}),
    ('from which to which nice values are, in words', r'-20 to 19', {'bq_weights/src/lib.rt'}),
    ('the words of hooks and versions by their numbers', r'[012] \((?:place|preempt|pull)\)|neither 1 nor 2', set()),
    ('the text of a fault of an image', r'"L\d', {'bq_load/src/fault.rt'}),
    ('the text of a fault of an assembler text', r'"A\{', {'bq_asm/src/fault.rt'}),
    ('the text of a fault of a program', r'"(?:L7 )?I\{', {'bq_insn/src/fault.rt'}),
    ('the text of a fault of a policy\'s file', r'"(?:refused )?head \{', {'bq_policy_file/src/fault.rt'}),
    ('the failure of a stream', r'"a (?:read|write) failed"', {'bq_streams/src/fault.rt'}),
    ('from which to which length slices are, in words', r'100000 to 100000000', {'bq_disc/src/limits.rt'}),
    ('how long a line of a trace may be, in words', r'at most 131072', set()),
    ('how long a name may be and how many tasks there are, in words', r'more than 1024', set()),
    ('which numbers processors and counters have, in words', r'\b0 to 63\b', {'bq_disc/src/limits.rt', 'bq_bpf/src/board.rt'}),
    ('how many slots or bytes a program has at most, in words', r'"[^"\n]*\b(?:4096|32768)\b', {'bq_bpf/src/slots.rt'}),
    ('what the words of a line are to be', r'0 to 255\b|-128 to 127\b|0 to 2\^64 - 1', {'bq_lines/src/line_operand.rt'}),
    ('which numbers a word may write for a task, in words', r'0 to 65535\b', {'bq_words/src/quantities.rt'}),
    ('how a trace begins, by an example', r'machine (?:cfs|eevdf) \d', {'bq_lines/src/keyword.rt'}),
    ('what numbers of 32 bits are below, in words', r'4294967296', {'bq_words/src/numbers.rt'}),
    ('the units of time, in words', r'\bns, us\b', {'bq_words/src/units.rt'}),
    ('where the fields of a context stand', r'context\[\d+\.\.|number_at\(context, \d|\b(?:MASK|PROCESSORS|MOVABLE|SHOWN|TASKS)_AT: usize', {'bq_hooks/src/place.rt', 'bq_hooks/src/pull.rt'}),
    ('the size of the stack, in words', r'\b512 bytes\b', {'bq_bpf/src/addresses.rt'}),
    ('the three decimals of thousandths', r'/ 100 % 10\b', {'bq_report/src/amounts.rt'}),
    ('which shapes maps have', r'8 to 256|\b1 to 256|\b(?:at most|more than|has) 8\b', {'bq_bpf/src/shape.rt'}),
    ('what a wrong hook or version is said to be', r'no such (?:hook|format)|is no hook|is no format|hooks are|formats are', {'bq_hooks/src/hook.rt'}),
    ('how often a processor ticks in `par`', r'0 to 1000000\b', {'bq_cli/src/par.rt'}),
    ('how many seeds there may be', r'1 to 1000\b', set()),
    ('how many waits of a processor are drawn', r'LANES: usize', {'bq_drawing/src/lanes.rt'}),
    ('how many tasks there may be, in clauses', r'[<≤≡)] 1024\b|\b1024 ≤', set()),
    ('from which to which length slices are, in clauses', r'\b100000 ≤|≤ 100000000\b', set()),
]

# The same of definitions.
DEFINED = [
    ('the order by time and id', r'nat_lt (\S+) (\S+) \|\| \(\1 == \2 && nat_lt', {'bq_disc/specs/Tasks.antt'}),
    ('which discipline a rule names', r'\bCfs = cfs\b', {'bq_trace/specs/Machines.antt'}),
    ('which processors a mask has', r'/ 2 \^ \w+ % 2 == 1', {'bq_disc/specs/Masks.antt'}),
    ('which words are numbers', r'codes "0x"|IsNumeral 10', {'bq_words/specs/Numbers.antt'}),
    ('the line that refuses', r'codes "refused ', {'bq_words/specs/Refused.antt'}),
    ('which numbers are nice values', r'negsuc 19\b', {'bq_weights/specs/VirtualTime.antt'}),
    ('from which to which length slices are', r'slice 100000\b|(?:nat_le|span_in) 100000\b', set()),
    ('how long a name may be', r'nat_le \(length [^)]*\)+ 1024\b', set()),
    ('how many tasks there may be', r'(?<![*/] )\b1024\b(?! [*∷])', set()),
    ('how many processors there may be', r'\bprocessor (?:<|≤) 64\b|count_in [^\n]*≤ 64\b|\b64 ≤ processor|\) 64 (?:lines|third|second|runs)\b', set()),
    ('how far ahead a task may be under CFS', r'\+ 1000000\b', set()),
    ('the longest line', r'\b131072\b', set()),
    ('how many counters there are', r'replicate 64 0|nat_lt i 64\b|counter < 64\b|length words ≡ 64\b', set()),
    ('how many calls of counters a run makes at most', r'calls ≤ 16\b|16 ≤ count', {'bq_bpf/specs/Safe.antt'}),
    ('the size of the stack', r'(?<!the )\b51[23]\b', {'bq_bpf/specs/Memory.antt'}),
]

# Lemmas that show what only their crate may show, and the files that may name them.
SHUT = [
    ('what only the verifier says', r'\bstopped_at\b', {'bq_verify/specs/Refusals.antt', 'bq_verify/proofs/refused/refuse/Answers.antt'}),
    ('that the verifier accepts', r'\bstopped_nowhere\b', {'bq_verify/specs/Refusals.antt', 'bq_verify/proofs/pass/judge/Answers.antt'}),
]


# What may stand in two places, and why.
ALLOWED = {
    'the same lemma: bq_comparison/proofs/RangeLemmas.antt: flat_map-range_more, bq_policy_run/proofs/ChangeLemmas.antt: flat_map-range_more': 'a fact of the library\'s ranges, which it has no lemma for; neither crate stands on the other',
    'the same lemma: bq_core/proofs/OnTheWayLemmas.antt: same_everywhere, bq_schedule/proofs/TotalLemmas.antt: same_everywhere': 'a fact of lists of one value, which the library has for places within them only; neither crate stands on the other',
    'the same lemma: bq_drawing/proofs/PictureLemmas.antt: shapes_next, bq_explain/proofs/LineLemmas.antt: one_line_more': 'a fact of the library\'s `flat_map`, which it has no lemma for; neither crate stands on the other',
    'the same lemma: bq_insn/proofs/EncodeLemmas.antt: on_err, bq_report/proofs/NameLemmas.antt: where_err, bq_streams/proofs/ResultLemmas.antt: OnErr-anyhow': 'a fact of the library\'s results, which it has no lemma for; no crate below all three could have it',
    'how many slots or bytes a program has at most, in words: bq_asm_faults/src/number_reason.rt': 'the least offset and distance of 16 bits, -32768',
    'an exit status: bq_object/src/header.rt': 'the numbers by which ELF tells 64 bits and the order of bytes',
    'an exit status: bq_object/src/symbol.rt': 'the number by which ELF tells that a symbol is a function',
    'how many slots a program has at most: bq_object/src/line_table.rt': 'the crate reads objects and stands on no crate of instructions, so its own bound on lines says the number once more',
    'the weight of nice value 0: bq_object/src/line_table.rt': 'the line of a line record is its number divided by 1024, which only happens to be that weight',
    'which helpers are of counters: bq_interp/src/counters.rt': 'asked at each call of a run, of the number alone, by a function that stands in its loop',
    'the word of a key of marks: bq_explain/src/measure.rt': 'what the limit of maps is called, as its option --max-maps is',
    'the word of a hook: bq_drawing/src/perfetto.rt': 'the category of a mark in a Perfetto file: the event, not the hook',
    'the word of a hook: bq_report/src/json_report.rt': 'keys of a form in JSON, which stay what they are whatever traces call a hook',
    'the word of a hook: bq_report/src/tables.rt': 'the column of a report, which stays what it is whatever traces call a hook',
    'the word of a hook: bq_cli/src/tables.rt': 'names of options in a table, which only literals can be; the words of `simulate` are read by `Hook::word`, and the contract holds the two together',
    'the word of a hook: bq_lines/src/keyword.rt': 'the keyword `pull` of a trace, an event, whose word only happens to be that of a hook too',
}


def product(folder, ending):
    """The files of product code, or of specs, with what is no test of them."""
    for path in sorted(TOP.glob(f'*/{folder}/**/*{ending}')):
        crate = path.relative_to(TOP).parts[0]
        if crate.endswith('_trials'):
            continue
        yield str(path.relative_to(TOP)), path.read_text(encoding='utf-8').split('#[cfg(test)]')[0]


def facts(files, known, comment):
    for name, text in files:
        bare = re.sub(rf'(?m){comment}.*$', '', text)
        for what, pattern, homes in known:
            if name not in homes and re.search(pattern, bare):
                yield f'{what}: {name}'


def shut():
    """The lemmas of SHUT in any source, definition or proof that may not name them, comments, trials and tests too; what a build wrote is left out."""
    for path in sorted(path for folder in ('src', 'specs', 'proofs') for path in TOP.glob(f'*/{folder}/**/*') if path.suffix in ('.antt', '.rt')):
        name, text = str(path.relative_to(TOP)), path.read_text(encoding='utf-8')
        yield from (f'{what}: {name}' for what, pattern, homes in SHUT if name not in homes and re.search(pattern, text))


def functions(files):
    seen = defaultdict(list)
    for name, text in files:
        for found in re.finditer(r'(?m)^( *)(?:pub(?:\(\w+\))? )?fn (\w+)(.*?)^\1\}$', text, re.S):
            body = re.sub(r'\s+', ' ', re.sub(r'//.*', '', found[3]).replace(found[2], '_'))
            if len(found[3].splitlines()) >= 6 and re.search(r'[;?]|=>|\bif\b', body):
                seen[body].append(f'{name}: {found[2]}')
    for places in seen.values():
        if len({it.split(':')[0] for it in places}) > 1:
            yield 'the same function: ' + ', '.join(places)


def lemmas(files):
    """The lemmas of one statement, if it is long enough to mean something, or one of them is."""
    seen = defaultdict(list)
    for name, text in files:
        for lemma in statements.lemmas(name, text):
            if lemma.statement:
                seen[lemma.statement].append((name, lemma))
    for statement, found in seen.items():
        if len(found) > 1 and (statements.length(statement) >= STATEMENT or max(it.length for _, it in found) >= LINES):
            yield 'the same lemma: ' + ', '.join(f'{name}: {it.name}' for name, it in found)


def definitions(files):
    seen = defaultdict(list)
    for name, text in files:
        for found in re.finditer(r'(?m)^(?:abbrev )?pub (?:abbrev )?(\S+) :(.*?)(?=^\S*\s*(?:abbrev|pub|--|record)|\Z)', text, re.S):
            body = re.sub(r'\s+', ' ', found[2].replace(found[1], '_')).strip()
            if len(body) > 80:
                seen[body].append(f'{name}: {found[1]}')
    for places in seen.values():
        if len({it.split(':')[0] for it in places}) > 1:
            yield 'the same definition: ' + ', '.join(places)


def texts(files):
    seen = defaultdict(set)
    for name, text in files:
        for found in re.finditer(r'"((?:[^"\\\n]|\\.){28,})"', re.sub(r'(?m)^\s*//.*$', '', text)):
            seen[found[1]].add(name)
    for shared, names in seen.items():
        if len(names) > 1:
            yield f'the same text: {", ".join(sorted(names))}: {shared[:60]}'


def main():
    code, specs, proofs = list(product('src', '.rt')), list(product('specs', '.antt')), list(product('proofs', '.antt'))
    found = [*facts(code, FACTS, '//'), *facts(specs, DEFINED, '--'), *shut(), *functions(code), *definitions(specs), *lemmas(proofs), *texts(code)]
    bad = [it for it in found if it not in ALLOWED]
    for it in bad:
        print(it)
    for it in sorted(set(ALLOWED) - set(found)):
        print(f'no more found, so it need not be allowed: {it}')
    print(f'{len(found)} found, {len(found) - len(bad)} of them allowed')
    return 1 if bad or set(ALLOWED) - set(found) else 0


if __name__ == '__main__':
    sys.exit(main())
