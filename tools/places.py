#!/usr/bin/env python3
"""Lists places in crates/*/src and crates/*/proofs that may be written in a newer form, by kind, with their number.

usage: tools/places.py [-v] [TOP]     (-v prints each place)
"""
import difflib
import glob
import itertools
import os
import re
import sys

VERBOSE = '-v' in sys.argv
TOP = next((a for a in sys.argv[1:] if a != '-v'), '.')

FIELDS = [
    ('1 flags in structs', r'^\s+(pub )?\w+: bool,'),
    ('6 arrays with a count', r'^\s+(pub )?\w+: \[.*; \d+\],'),
]

NAMED = [
    ('1 refusals in an Option', r'Option<\w*Refusal>'),
    ('1 numbers of refusals or causes', r'\bfn number\('),
    ('1 results wrapped again by hand', r'^\s*(Ok|Err|Some)\((\w+)\) => (return )?(Ok|Err|None|Some)\b|^\s*None => Err\(|^\s*if let Err\('),
    ('3 loops over an index', r'\bfor \w+ in [^{]*\.\.[^{]*\{|\.enumerate\(\)'),
    ('3 while loops', r'\bwhile\b.*\{'),
    ('4 conversions', r'\bfn (number|from_slice|cells|order)\(|\bfn decimal_u'),
    ('4 texts', r'\) -> Result<String, '),
    ('4 derives written by hand', r'\bimpl.* (PartialEq|Eq|PartialOrd|Ord|Clone|Debug|Hash)\b.* for '),
    ('6 halving by hand', r'\(high - low\) / 2'),
    ('7 choices by a word', r'\bif same_word\('),
    ('7 pointers to functions, and dyn', r'\bdyn \w|: fn\('),
]


def sources(kind):
    return sorted(glob.glob(os.path.join(TOP, 'crates/*/%s/**/*.%s' % kind), recursive=True))


def functions(text):
    """Name, clauses, parameters and body of each function."""
    for m in re.finditer(r'^( *)(?:pub(?:\(\w+\))? )?fn (\w+)', text, re.M):
        indent = m.group(1)
        end = text.find('\n' + indent + '}', m.end())
        one_line = text.find('\n' + indent + '{}', m.end())
        if end < 0 or 0 <= one_line < end:
            continue
        whole = text[m.start():end]
        start = re.search(r'(^|[ \n])\{\n', whole)
        if start and '\n' + indent + '{\n' in whole:
            head, body = whole.split('\n' + indent + '{\n', 1)
        elif start:
            head, body = whole.split('{\n', 1)
        else:
            continue
        yield m.group(2), head, body


def tokens(body):
    """The body with names of types, numbers and texts left out."""
    body = re.sub(r'//.*', '', body)
    body = re.sub(r'b?"[^"]*"|b?\'[^\']\'', '"', body)
    out = re.findall(r'\w+|[^\s\w]', body)
    return ['0' if t[0].isdigit() else 'T' if t[0].isupper() else t for t in out]


def fields(path):
    """The lines of the fields of each struct."""
    inside = False
    for number, line in enumerate(open(path).read().split('\n'), 1):
        if re.match(r'(pub(\(\w+\))? )?struct .*\{$', line):
            inside = True
        elif line == '}':
            inside = False
        elif inside:
            yield '%s:%d: %s' % (path, number, line.strip()), line


def twins():
    """Pairs of functions of one crate that are alike but for types, numbers and texts."""
    for crate in sorted(glob.glob(os.path.join(TOP, 'crates/*'))):
        if crate.endswith('samples'):
            continue
        known = []
        for path in sorted(glob.glob(crate + '/src/**/*.rt', recursive=True)):
            for name, _, body in functions(open(path).read()):
                known.append((path, name, tokens(body)))
        for a, b in itertools.combinations(known, 2):
            if min(len(a[2]), len(b[2])) < 12:
                continue
            if difflib.SequenceMatcher(None, a[2], b[2]).ratio() >= 0.8:
                yield '%s: %s and %s: %s' % (a[0], a[1], b[0], b[1])


def repeated():
    """Clauses and pairs of parameters that stand in three functions or more of a crate."""
    for crate in sorted(glob.glob(os.path.join(TOP, 'crates/*'))):
        if crate.endswith('samples'):
            continue
        clauses, pairs = {}, {}
        for path in sorted(glob.glob(crate + '/src/**/*.rt', recursive=True)):
            text = open(path).read()
            for m in re.finditer(r'^ +(requires|ensures)( \w+)? \{ (.*) \}$', text, re.M):
                if 'result' not in m.group(3):
                    clauses.setdefault(re.sub(r'\bself\b', 'x', m.group(3)), []).append(path)
            for m in re.finditer(r'\bfn (\w+)[^(]*\(([^)]*)\)', text):
                names = re.findall(r'(?:^|,)\s*(?:mut )?(\w+: [^,]+)', m.group(2))
                for pair in itertools.combinations(sorted(n.strip() for n in names), 2):
                    # The methods that an interface and its impls share count once.
                    pairs.setdefault(pair, set()).add(m.group(1))
        for fact, where in sorted(clauses.items()):
            if len(where) >= 3:
                yield '%s: %s in %d functions' % (crate, fact, len(where))
        for pair, where in sorted(pairs.items()):
            if len(where) >= 3:
                yield '%s: %s with %s in %d functions' % (crate, pair[0], pair[1], len(where))


def show(kind, places):
    places = list(places)
    print('%4d  %s' % (len(places), kind))
    if VERBOSE:
        for place in places:
            print('        ' + os.path.relpath(place, TOP) if place.startswith(TOP) else '        ' + place)


def main():
    lines = [(p, i, l) for p in sources(('src', 'rt')) for i, l in enumerate(open(p).read().split('\n'), 1)]
    named = [('%s:%d: %s' % (p, i, l.strip()), l) for p, i, l in lines]
    held = [place for path in sources(('src', 'rt')) for place in fields(path)]
    for kind, pattern in FIELDS:
        show(kind, (place for place, line in held if re.search(pattern, line)))
    for kind, pattern in NAMED:
        show(kind, (place for place, line in named if re.search(pattern, line) and not line.lstrip().startswith('//')))
    show('2 functions that are alike', twins())
    show('5 facts and parameters in three functions', repeated())
    show('8 files of answers', (p for p in sources(('proofs', 'antt')) if p.endswith('Answers.antt')))
    show('8 files of invariants', (p for p in sources(('proofs', 'antt')) if p.endswith('Invariants.antt')))


main()
