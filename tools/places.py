#!/usr/bin/env python3
"""Lists the places of src/ in which one of seven older forms stands, or of proofs/ in which an answer does.

    python3 tools/places.py            of the files as they stand
    python3 tools/places.py COMMIT     of a commit

Each line is 'POINT FILE:LINE: TEXT'; the last lines count the places of each point. A place is found by its text, so what a
line means is for the reader; docs/DESIGN-PASS.md says it of each.
"""
import re
import subprocess
import sys

POINTS = {
    1: ('kinds, causes and refusals as numbers or flags, records with a kind beside its values, errors passed on by hand', [
        r'\b(kind|cause): u8,', r'match note\.kind', r'pub (operation: Operation|code: Code),$',
        r'fn try_\w+.*-> bool', r'-> io::Result<(bool|Option<\w+>)>', r'Result<\w+, (u8|u32|usize)>$',
        r'Doing::refused\((self,|$)', r'fn (join|without|merge)<.*-> Option<', r'fn \w+\(.*-> \(.*Option<',
        r'let Some\(.*\) = .* else \{$', r'\b(Err\((\w+)\) => (return )?Err\(|None => (return )?(None|Err\())',
    ]),
    2: ('types, constants and functions that differ only in a type, a size or a constant', [
        r'^pub struct (First|Late|ReadingsRecord|StackRecord) ', r'^impl (First|Late) ', r'^impl Agreement for ',
        r'^(pub\(crate\) )?const (BLANK|MOST)\b', r'^struct Tally', r'^fn (say|say_all)\b',
        r'^fn (channel_at|value_at|positive|negative)\b', r'Operation::(Put|Drop) => match',
        r'fn is_(same|before)\(&self, other: &(u8|Row)\)', r'^fn withholds\b',
    ]),
    3: ('loops outside tests', [r'^\s*(for|while|loop)\b.*\{$']),
    4: ('equality, order, copies and conversions by hand', [
        r'^impl.* (Clone|Copy|PartialEq|Eq|PartialOrd|Ord) for ', r'fn (is_same|is_before)\(&self, other: &(u8|Row)\)',
        r'fn (is_word|number|report|named|operation_named|put_in|taken_out|from_record|to_record|to_array)\(',
        r'(channel|number) as u8',
    ]),
    5: ('a fact in three contracts or more, and parameters that travel together', [
        r'ensures blank \{', r'(size|_size) (\w*_)?proposed (\w*_)?decided', r'(requires|ensures).*\b(1 ≤ n|n ≤ 7)\b',
        r'\(field: usize, (text|size):', r'blank: T\) ->',
    ]),
    6: ('arrays with a length beside them, and parallel arrays', [
        r'^\s+(pub(\(crate\))? )?\w+: \[(bool|[iu]\d+|(?!None)[A-Z]\w*(<\w+>)?); \w+\],$',
    ]),
    7: ('switches on which step to run, and tables of functions', [
        r'match (request\.|self\.)?operation \{', r'match note\.kind', r': fn\(|dyn |else if is_word',
    ]),
}


def counted(point, name, line):
    if point == 3 and name.endswith('_tests.rt'):
        return False
    return any(re.search(pattern, line) for pattern in POINTS[point][1])


def files(commit, where):
    if commit:
        names = subprocess.check_output(['git', 'ls-tree', '-r', '--name-only', commit, 'crates'], text=True).split()
    else:
        names = subprocess.check_output(['git', 'ls-files', 'crates'], text=True).split()
    return [name for name in names if where in name]


def text(commit, name):
    if commit:
        return subprocess.check_output(['git', 'show', f'{commit}:{name}'], text=True)
    return open(name).read()


def main():
    commit = sys.argv[1] if len(sys.argv) > 1 else None
    counts = dict.fromkeys(POINTS, 0)
    for name in files(commit, '/src/'):
        for at, line in enumerate(text(commit, name).splitlines(), 1):
            for point in POINTS:
                if counted(point, name, line):
                    counts[point] += 1
                    print(f'{point} {name}:{at}: {line.strip()}')
    answers = [name for name in files(commit, '/proofs/') if name.endswith('Answers.antt')]
    goals = sum(len(re.findall(r'^pub \S+ : ', text(commit, name), re.M)) for name in answers)
    lemmas = [name for name in files(commit, '/proofs/') if name.count('/') == 3 and not name.endswith('Lib.antt')]
    lines = sum(text(commit, name).count('\n') for name in files(commit, '/proofs/'))
    for point, (what, _) in POINTS.items():
        print(f'point {point}: {counts[point]} places: {what}')
    print(f'point 8: {goals} answers in {len(answers)} files, {len(lemmas)} files of lemmas, {lines} lines in proofs/')


main()
