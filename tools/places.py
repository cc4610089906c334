#!/usr/bin/env python3
"""tools/places.py COMMIT: the places of docs/DESIGN-PASS.md in the sources of a commit, a line for each pattern with how many lines it finds.

With --list the lines themselves follow. A pattern finds candidates: which of them are places, and why one stays, the page says."""
import re
import subprocess
import sys

PATTERNS = [
    ('1 enums', r'^(?:pub(?:\(crate\))? )?enum '),
    ('1 flags beside values', r'^    (?:pub )?[a-z_]+: bool,$'),
    ('1 constants for none', r'const (?:NO_NUMBER|SPENT|NOTHING|BROKEN|SPLIT|SPOILT): '),
    ('1 constants for kinds', r'const (?:FIRST|INNER|LAST|BLANK|LONE): '),
    ('1 numbers for kinds, ways, parts', r'\b(?:kind|wanted|act|lot|way|which|fault|part|number|want|said)\b(?:: (?:u8|u32|usize)\b)'),
    ('1 matches on such numbers', r'match (?:kind|act|lot|way\(|which|num\(|answer / |number|said\.number)'),
    ('3 loops with while', r'^\s*while '),
    ('3 loops over indices', r'^\s*for [a-z_]+ in [^{]*\.\.'),
    ('4 types with Clone and Copy alone', r'^#\[derive\(Clone, Copy\)\]'),
    ('4 conversions, equality, order, copying, printing by hand',
     r'fn (?:wide|power|smaller|larger|less|plus|equal|carry|clear|copy|low|one_if|within|upto|is_same|both|digit|decimal|number_of|cells_of|joined|code|[a-z]+_said|print_[a-z]+|write_[a-z]+|line)\('),
    ('5 ku and kl', r'\b(?:ku|kl): (?:u8|usize)\b'),
    ('5 pair for two streets', r'\bpair: usize'),
    ('5 tables', r'\btables: &\[u32\]'),
    ('5 kinds, ages, counts', r'\b(?:kinds|ages|counts): &(?:mut )?\[u8'),
    ('5 store and words', r'\b(?:store: &(?:mut )?\[u8|words: &(?:mut )?\[usize)'),
    ('5 film and pen', r'film: &mut \[u8\], (?:pen|walk)'),
    ('5 rt and tally', r'\btally: Tally'),
    ('6 counts beside arrays', r'^    (?:pub )?count: usize,$'),
    ('6 parts of one store', r'^pub const [A-Z]+: usize = \d+;$'),
    ('6 buffers of bytes', r'= \[0u8; \d'),
]


def lines(commit):
    names = subprocess.run(['git', 'ls-tree', '-r', '--name-only', commit], capture_output=True, text=True, check=True).stdout.split()
    for name in names:
        if re.fullmatch(r'crates/\w+/src/.*\.rt', name):
            text = subprocess.run(['git', 'show', f'{commit}:{name}'], capture_output=True, text=True, check=True).stdout
            for number, line in enumerate(text.split('\n'), 1):
                if not line.lstrip().startswith('//'):
                    yield name, number, line


def twins(found):
    """Names of functions that stand in two files or more."""
    files = {}
    for name, _, line in found:
        for function in re.findall(r'\bfn ([a-z_0-9]+)', line):
            files.setdefault(function, set()).add(name)
    return sorted(f'{function}: {", ".join(sorted(where))}' for function, where in files.items() if len(where) > 1)


commit = next((word for word in sys.argv[1:] if not word.startswith('--')), 'HEAD')
found = list(lines(commit))
for title, pattern in PATTERNS:
    hits = [hit for hit in found if re.search(pattern, hit[2])]
    print(f'{len(hits):4} {title}')
    if '--list' in sys.argv:
        for name, number, line in hits:
            print(f'       {name}:{number}: {line.strip()}')
print(f'{len(twins(found)):4} 2 names of functions in two files or more')
if '--list' in sys.argv:
    for line in twins(found):
        print(f'       {line}')
