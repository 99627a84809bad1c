#!/usr/bin/env python3
"""Counts, in crates/*/src/*.rt of the tree that it is run in, the places that docs/DESIGN-PASS.md speaks of, and lists each with -v.
Points 1, 3, 4, 6 and 7 are lines that a pattern fits; points 2 and 5 are counted by what functions have in common."""
import glob, re, sys, itertools, collections

verbose = '-v' in sys.argv
files = sorted(glob.glob('crates/*/src/*.rt'))
lines = [(f, n + 1, l) for f in files for n, l in enumerate(open(f, encoding='utf-8').read().split('\n'))]
code = [(f, n, l) for f, n, l in lines if not l.lstrip().startswith('//')]

def show(name, places):
    print(f'{name}: {len(places)}')
    if verbose:
        for f, n, l in places:
            print(f'    {f}:{n}: {l.strip()[:140]}')

def fits(pattern, where=code):
    return [p for p in where if re.search(pattern, p[2])]

# 1: an enum that is an Option or a Result, a flag beside a value, a number that stands for a kind, a mark or a pass, a number that says "none"
show('1a own enums', fits(r'^(pub )?enum \w+'))
show('1b a flag in a struct', fits(r'^    (pub )?(taken|ends): bool,'))
show('1c a number for a kind, mark, sort or pass', fits(r'\b(mark|kind|sort|pass|inside)\b: (u8|u64|&\[u64)|kinds: &?\[u8; 7\]|(sort|mark|inside|cells\[at\]|kinds\[.*\]) [!=]= 1\b'))
show('1d a number that says that there is none', fits(r'where (there (is|are) (none|no )|it is none|one is no number)|which no issue is|none while|not\s+ranked yet|largest number', [p for p in lines if p[2].lstrip().startswith('//')]))

# 3: loops that count
show('3a while', fits(r'^\s*(\'\w+: )?while\b'))
show('3b for over a range of indices', fits(r'^\s*(\'\w+: )?for \w+ in [^{]*\.\.'))

# 4: comparison, order, copying, conversion, printing by hand
show('4a functions that std has', fits(r'^\s*(pub )?fn (smaller|wide|one_if|clear|copy|same|find|before|after|byte_of|stands_before|number|reason|widen|signed|letter|is_digit|is_capital|owed_of|due_of|returned\w*)\('))
show('4b yen or lots compared through their number', fits(r'\.0 (<|<=|>|>=|==|!=) '))
show('4c output by descriptors', fits(r'io::(write_all|print_decimal)\('))

# 6: a buffer and its length, arrays of a fixed size beside the number of issues
show('6a an array of 32, 44 or 12 with its length beside it, as a parameter', fits(r'^\s*\w+: &(mut )?\[u64; (32|44|12)\],?'))
show('6b a number of cells in use, as a parameter', fits(r'^\s*(count|issues|n|made|done|listed): usize,|, (count|issues|n): usize[,)]'))
show('6c a place in a slice handed on beside it', fits(r'(cells|terms|book|source|code): &(mut )?\[u64\](; \d+)?, (at|from|j|o|p|place): usize'))

# 7: a number or a text that says which step to run
show('7 steps', fits(r'match (pass|words::index|mark|k|runs)\b'))

# 2 and 5: functions with their parameters and clauses
text = '\n'.join(open(f, encoding='utf-8').read() for f in files)
functions = re.findall(r'\bfn (\w+)(?:<[^>]*>)?\(([^)]*)\)', text)
groups = collections.Counter()
for name, params in functions:
    names = sorted(set(re.findall(r'(\w+):', params)))
    for r in (3,):
        for g in itertools.combinations(names, r):
            groups[g] += 1
common = [(g, k) for g, k in groups.items() if k >= 4]
print(f'5a three parameters that travel together through four functions or more: {len(common)} groups')
if verbose:
    for g, k in sorted(common, key=lambda x: -x[1])[:60]:
        print(f'    {k} {", ".join(g)}')
facts = collections.Counter(m for m in re.findall(r'requires(?: \w+)? \{ \(?(\w+)', text))
shared = [(f, k) for f, k in facts.items() if k >= 3]
print(f'5b facts in the contracts of three functions or more: {len(shared)}')
if verbose:
    for f, k in sorted(shared, key=lambda x: -x[1]):
        print(f'    {k} {f}')
answers = glob.glob('crates/*/proofs/**/Answers.antt', recursive=True)
goals = sum(len(re.findall(r'^pub .* : goal\.', open(f, encoding='utf-8').read(), re.M)) for f in answers)
print(f'8 answers: {goals} in {len(answers)} files, {sum(open(f, encoding="utf-8").read().count(chr(10)) for f in glob.glob("crates/*/proofs/**/*.antt", recursive=True))} lines of proofs')
