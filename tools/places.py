#!/usr/bin/env python3
"""Counts the places that docs/DESIGN-PASS.md tells of, in crates/*/src below a folder (the first argument, or this one).

    python3 tools/places.py [FOLDER] [-l POINT]

Without -l it prints one line a command; with -l it lists the places of one point. What is a place and what only looks like one is
read by a person: the page says which of them are.
"""
import collections
import pathlib
import re
import sys

NUMBER = r'u8|u16|u32|u64|usize'
FN = re.compile(r'^\s*(?:pub(?:\([a-z]+\))? )?fn (\w+)')


def sources(root):
    for path in sorted(root.glob('crates/*/src/**/*.rt')):
        yield path.relative_to(root), path.read_text().split('\n')


def lines(root, pattern):
    p = re.compile(pattern)
    return [f'{path}:{i + 1}: {line.strip()}' for path, text in sources(root)
            for i, line in enumerate(text) if p.search(line) and not line.lstrip().startswith('//')]


def bodies(text):
    """(line, name, head, body) of each function of a file."""
    i = 0
    while i < len(text):
        m = FN.match(text[i])
        if not m:
            i += 1
            continue
        indent = len(text[i]) - len(text[i].lstrip())
        start = i
        if text[i].rstrip().endswith(';'):
            i += 1
            continue
        while not (text[i].rstrip().endswith('{') and (i == start or text[i].strip() in ('{', ') {') or text[i].strip().startswith(')'))):
            i += 1
            if i == len(text) or text[i].rstrip().endswith(';') and text[i].strip().startswith('ensures'):
                break
        head = ' '.join(text[start:i + 1])
        j = i + 1
        while j < len(text) and not (text[j].strip() == '}' and len(text[j]) - len(text[j].lstrip()) == indent):
            j += 1
        yield start + 1, m.group(1), head, [t.strip() for t in text[i + 1:j] if t.strip() and not t.strip().startswith('//')]
        i = j + 1


def forwards(root):
    found = []
    for path, text in sources(root):
        for line, name, head, body in bodies(text):
            if len(body) == 1 and re.fullmatch(r'[\w:.]+\(.*\)', body[0]) and 'ensures' in head:
                found.append(f'{path}:{line}: {name} is {body[0]}')
    return found


def shapes(root, least=4):
    """Functions of `least` lines or more whose bodies are the same but for names and numbers."""
    seen = collections.defaultdict(list)
    for path, text in sources(root):
        for line, name, head, body in bodies(text):
            if len(body) >= least:
                shape = re.sub(r'\b\w+\b', 'a', ' '.join(body))
                seen[shape].append(f'{path}:{line}: {name}')
    return [' ~ '.join(v) for v in seen.values() if len(v) > 1]


def clauses(root, kind):
    count = collections.Counter()
    for path, text in sources(root):
        for line in text:
            m = re.match(rf'\s*{kind}( \w+)? (\{{.*\}})', line)
            if m:
                count[m.group(2)] += 1
    return [f'{n} times {clause}' for clause, n in count.most_common() if n >= 3]


def together(root):
    """Functions that take both a field by reference and a setting."""
    found = []
    for path, text in sources(root):
        for line, name, head, body in bodies(text):
            if re.search(r'\bf(ield)?: &(F|Prime|Tower|Extension)\b', head) and re.search(r'setting: &?Setting', head):
                found.append(f'{path}:{line}: {name}')
    return found


POINTS = [
    ('1', 'enums', lambda r: lines(r, r'^\s*(pub(\([a-z]+\))? )?enum ')),
    ('1', 'functions that answer a number', lambda r: lines(r, rf'-> ({NUMBER})\b|-> \(({NUMBER}), ({NUMBER})\)')),
    ('1', 'pairs with a flag', lambda r: lines(r, r'(->|: ).*\([^()]*\bbool\)')),
    ('2', 'functions that only call another one', forwards),
    ('2', 'bodies of four lines or more that differ in names', shapes),
    ('3', 'loops', lambda r: lines(r, r'^\s*(for|while|loop)\b')),
    ('3', 'loops over numbers', lambda r: lines(r, r'^\s*(for \w+ in \(?[^{]*\.\.|while )')),
    ('4', 'traits of comparison, copying, conversion, printing by hand', lambda r: lines(
        r, r'^impl.* (PartialEq|Eq|PartialOrd|Ord|Clone|Copy|Default|Hash|(fmt::)?Debug|(fmt::)?Display|From<.*>|TryFrom<.*>|FromStr|AsRef<.*>) for')),
    ('4', 'functions named for one', lambda r: lines(r, r'\bfn (from|of|same|same_\w+|is_same|equal|words|kinds|parse|\w+_number|copy|show)\b')),
    ('5', 'premises of three functions or more', lambda r: clauses(r, 'requires')),
    ('5', 'promises of three functions or more', lambda r: clauses(r, 'ensures')),
    ('5', 'functions that take a field and a setting', together),
    ('6', 'arrays of a fixed length', lambda r: lines(r, r'\[\w+; *\w+\]')),
    ('7', 'matches', lambda r: lines(r, r'\bmatch\b.*\{$')),
    ('7', 'closures and dyn', lambda r: lines(r, r'(\(|= )(move )?\|[^|]*\| |\bdyn |impl Fn|: Fn')),
]


def proofs(root):
    answers = list(root.glob('crates/*/proofs/**/Answers.antt'))
    invariants = list(root.glob('crates/*/proofs/**/Invariants.antt'))
    lemmas = [p for p in root.glob('crates/*/proofs/*.antt')]
    goals = sum(len(re.findall(r'^pub [\w+-]+ : goal\.', p.read_text(), re.M)) for p in answers)
    length = lambda ps: sum(len(p.read_text().split('\n')) - 1 for p in ps)
    return (f'{len(answers)} files of answers with {goals} goals in {length(answers)} lines, {len(invariants)} of invariants in '
            f'{length(invariants)} lines, {len(lemmas)} of lemmas in {length(lemmas)} lines')


def main():
    words = sys.argv[1:]
    point = None
    if '-l' in words:
        i = words.index('-l')
        point = words[i + 1]
        del words[i:i + 2]
    root = pathlib.Path(words[0] if words else '.')
    for number, what, find in POINTS:
        found = find(root)
        if point is None:
            print(f'{number}. {what}: {len(found)}')
        elif point == number:
            print(f'{what}: {len(found)}')
            print('\n'.join('    ' + f for f in found))
    if point in (None, '8'):
        print(f'8. {proofs(root)}')


main()
