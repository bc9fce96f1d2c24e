#!/usr/bin/env python3
"""Prints the places in src/ where a form could be an older one, and counts them by point.

    python3 tools/places.py          the counts
    python3 tools/places.py all      each place too

Each point has patterns over the lines of crates/*/src. A line that is printed is a place to look at,
not a fault: docs/DESIGN-PASS.md says what those of an older form became, and which stayed and why.
"""
import collections
import glob
import itertools
import re
import sys

COUNTED = r'^\s*(\'?\w+: )?(while\b|loop \{|for [^;{]* in [^{;]*\.\.)'
LINES = [
    ('1 enums', r'^\s*(pub(\(\w+\))? )?enum \w+'),
    ('1 numbers in place of a kind or refusal', r'=> \d+,?$|return \d\d;|Result<.*, usize>, |\blayers: u32|fn number\(answer'),
    ('1 flags beside values', r'^\s*(pub(\(\w+\))? )?\w+: bool,|let mut \w+ = (true|false);'),
    ('1 results that are written through a reference', r'&mut (JudgedPlan|Witness)\b.*->'),
    ('3 loops that count or ask by number', COUNTED),
    ('4 plain types without comparing and printing', r'^#\[derive\((Clone, Copy|Drop)\)\]'),
    ('4 impls of From, Display and comparison', r'^impl.* (From<.*>|TryFrom<.*>|fmt::Display|PartialEq|Ord|Clone) for'),
    ('6 tables of a fixed size', r'^\s*(pub(\(\w+\))? |ghost )?\w+: (\[\w+; \d+\]|&\'a mut \[\w+\]|&\'a \[\w+\]|&mut \[\w+\]),'),
    ('7 switches and tables of functions', r'\bdyn |: fn\(|if layers|times: u32'),
]


def sources():
    for name in sorted(glob.glob('crates/*/src/**/*.rt', recursive=True)):
        with open(name, encoding='utf-8') as f:
            yield name, f.read()


def by_lines():
    for name, text in sources():
        for number, line in enumerate(text.split('\n'), 1):
            if line.lstrip().startswith('//') or 'ghost use' in line:
                continue
            for point, pattern in LINES:
                if re.search(pattern, line):
                    yield point, f'{name}:{number}: {line.strip()}'


def bodies(text):
    """The name and the body of each function."""
    lines = text.split('\n')
    for at, line in enumerate(lines):
        m = re.match(r'( *)(?:pub(?:\(\w+\))? )?fn (\w+)', line)
        if not m or line.endswith(('}', ';')):
            continue
        indent = m.group(1)
        start = at if line.endswith('{') else next(
            (k for k in range(at + 1, len(lines)) if lines[k] == indent + '{' or
             re.match(indent + r'\).*\{$', lines[k])), None)
        end = next((k for k in range((start or at) + 1, len(lines)) if lines[k] == indent + '}'), None)
        if start is not None and end is not None:
            yield m.group(2), '\n'.join(lines[start + 1:end])


def twins():
    """Functions whose bodies are alike but for names, texts and numbers."""
    shapes = collections.defaultdict(list)
    for name, text in sources():
        for function, body in bodies(text):
            shape = re.sub(r'//[^\n]*|\s+', '', re.sub(r'"[^"]*"', '"', body))
            shape = re.sub(r'\d+', '0', re.sub(r'[A-Za-z_]\w*', 'x', shape))
            arms = re.sub(r'(x::x=>0,)+', 'x::x=>0,', shape)
            if len(arms) > 10:
                shapes[arms].append(f'{name}: {function}')
    for places in shapes.values():
        if len(places) > 1:
            yield '2 functions of one shape', ' / '.join(places)


def types():
    fields = collections.defaultdict(list)
    for name, text in sources():
        for m in re.finditer(r'struct (\w+)[^{;]*\{(.*?)\n\}', text, re.S):
            body = re.sub(r'//[^\n]*', '', m.group(2))
            fields[re.sub(r'pub(\(\w+\))? ?|\s+|u\d+|usize', '', body)].append(f'{name}: {m.group(1)}')
    for places in fields.values():
        if len(places) > 1:
            yield '2 structs of one shape', ' / '.join(places)


def repeated(found, point, told):
    """Those of the found that three functions or more of a crate have."""
    for key, names in sorted(found.items()):
        if len(names) >= 3:
            yield point, told(key, names)


def facts():
    """Clauses that stand in the contracts of three functions or more of a crate."""
    found = collections.defaultdict(list)
    for name, text in sources():
        for m in re.finditer(r'^\s*(requires|ensures) (?:\w+ )?(\{.*\})$', text, re.M):
            found[(name.split('/')[1], m.group(1), m.group(2))].append(name)
    return repeated(found, '5 clauses in three contracts',
                    lambda key, names: f'{key[0]}: {key[1]} {key[2]} ({len(names)})')


def companions():
    """Pairs of parameters that three functions or more of a crate take."""
    found = collections.defaultdict(list)
    for name, text in sources():
        for m in re.finditer(r'fn (\w+)(?:<[^>(]*>)?\(([^)]*)\)', text):
            taken = [re.sub(r"\s+|&('\w+ )?(mut )?", '', p) for p in m.group(2).split(',') if ':' in p]
            for one, other in itertools.combinations(taken, 2):
                found[(name.split('/')[1], one, other)].append(m.group(1))
    return repeated(found, '5 parameters that travel together',
                    lambda key, names: f'{key[0]}: {key[1]}, {key[2]}: {" ".join(names)}')


def proofs():
    for name in sorted(glob.glob('crates/*/proofs/**/*.antt', recursive=True)):
        with open(name, encoding='utf-8') as f:
            text = f.read()
        if name.endswith('Answers.antt'):
            for m in re.finditer(r'^pub (\S+) : goal\.', text, re.M):
                yield '8 answers', f'{name}: {m.group(1)}'
        elif not name.endswith(('Invariants.antt', 'Lib.antt')):
            for m in re.finditer(r'^(?:abbrev |unfoldable )?(?:pub )?(\S+) : ', text, re.M):
                yield '8 lemmas', f'{name}: {m.group(1)}'


def main():
    every = [*by_lines(), *twins(), *types(), *facts(), *companions(), *proofs()]
    counts = collections.Counter(point for point, _ in every)
    for point in sorted(counts):
        print(f'{counts[point]:4} {point}')
        if 'all' in sys.argv[1:]:
            for at, place in every:
                if at == point:
                    print('       ' + place)


main()
