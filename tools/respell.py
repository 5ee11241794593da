#!/usr/bin/env python3
"""Brings the repository's own definitions and lemmas to the spelling of today's Rattle: words in snake case, types and modules
in camel case. A dash stays only between the names of two definitions, as in `decode-set_row`. Run once, after port.py.

usage: tools/respell.py            in the repository: rewrites specs/, proofs/, the clauses of src/, the must-fail edits and the
                                   documents, and writes the table of names to docs/port-names.tsv
       tools/respell.py --dry      prints the table and what falls together, and writes nothing
"""
import re
import sys
from collections import defaultdict
from pathlib import Path

IDENT = re.compile(r"[^\W\d][\w'₀-₉]*(?:-[\w'₀-₉]+)*")
CAMEL = re.compile(r'(?<=[a-z0-9])(?=[A-Z])')
DECLARED = re.compile(r"^\s*(?:(?:pub|abbrev|unfoldable|private) )*((?:[^\s(){}:.,]+ )+): ", re.M)
# words of std's lists and numbers that a lemma's name may join to one of ours
STD = set('length take drop append map reverse get_or set replicate concat filter'.split())


def snake(word):
    return CAMEL.sub('_', word).lower() if word[:1].islower() else word


def declared_names(text):
    return {n for m in DECLARED.findall(text) for n in m.split()}


def stripped(text):
    return re.sub(r'--[^\n]*', '', text)


def imported(text):
    """The names that a file brings in from the kit."""
    for path, names in re.findall(r'^\s*(?:pub )?use ([\w.·+-]+)\.\{([^}]*)\}', text, re.M):
        if not path.startswith('Rattle.') or path.startswith(('Rattle.std.', 'Rattle.core.')):
            yield from (n.split(' as ')[0].strip() for n in names.split(','))


def own_files(root):
    for crate in sorted(root.glob('crates/*')):
        for part in ('specs', 'proofs'):
            yield from sorted(p for p in crate.glob(f'{part}/**/*.antt'))


def table(root):
    """Each name to change, and what it becomes."""
    texts = {p: stripped(p.read_text()) for p in own_files(root)}
    kit = {n for t in texts.values() for n in imported(t)}
    declared = set()
    defined = set(STD)
    for p, t in texts.items():
        hand = p.parent.name != 'proofs' and 'proofs' in p.parts
        names = declared_names(t)
        if hand:
            names = {n for n in names if '-' not in n}
        declared |= names
        if 'specs' in p.parts:
            defined |= {snake(n) for n in names if '-' not in n}
    tokens = {n for t in texts.values() for n in IDENT.findall(t)}
    tokens |= {n for p in root.glob('crates/*/src/*.rt') for n in IDENT.findall(ghost(p.read_text()))}
    changes = {}
    plain = {snake(n) for t in texts.values() for n in declared_names(t) if '-' not in n}

    def joins(part):
        return part in defined

    for n in sorted(tokens - kit):
        if '-' in n:
            if n not in declared:
                continue
            parts = [snake(x) for x in n.split('-')]
            new = parts[0]
            for a, b in zip(parts, parts[1:]):
                new += ('-' if joins(a) and joins(b) and (a + b).find('_') >= 0 or a[:1].isupper() or b[:1].isupper() else '_') + b
        else:
            new = snake(n)
        if '-' in n and '-' not in new and new in plain:
            new += '_lem'
        if new != n:
            changes[n] = new
    return texts, changes, kit


def ghost(text):
    """The ghost parts of a source, each line that is not code replaced by nothing."""
    return '\n'.join(t for g, t in pieces(text) if g)


def pieces(text):
    """The source in pieces, each with whether it is a ghost part: ghost items, clauses, and comments' names in backticks."""
    at = 0
    start = re.compile(r'ghost use [^;]*;|ghost \w+[^;{]*[;{]|\b(?:requires|ensures|invariant)\b(?: \w+)? \{')
    while True:
        m = start.search(text, at)
        if not m:
            break
        yield False, text[at:m.start()]
        end = m.end()
        if text[end - 1] == '{':
            depth = 1
            while depth:
                depth += {'{': 1, '}': -1}.get(text[end], 0)
                end += 1
        yield True, text[m.start():end]
        at = end
    yield False, text[at:]


def apply(text, changes):
    return IDENT.sub(lambda m: changes.get(m[0], m[0]), text)


def apply_source(text, changes):
    return ''.join(apply(t, changes) if g else re.sub(r'`([^`\n]*)`', lambda m: '`' + apply(m[1], changes) + '`', t) for g, t in pieces(text))


def clashes(texts, changes, kit):
    """Files in which two names become one, or a name becomes one that stands there already."""
    for p, t in texts.items():
        here = set(IDENT.findall(t))
        seen = defaultdict(set)
        turned = changes | IN_FILES.get(str(p), {})
        for n in here:
            seen[turned.get(n, n)].add(n)
        for new, olds in seen.items():
            if len(olds) > 1:
                yield p, new, olds


def main(argv):
    root = Path('.')
    texts, changes, kit = table(root)
    changes.update(BY_HAND)
    if '--dry' in argv:
        for n, new in changes.items():
            print(f'{n}\t{new}')
        for p, new, olds in clashes(texts, changes, kit):
            print(f'together: {p}: {new}: {" ".join(sorted(olds))}')
        return 0
    for p in own_files(root):
        here = changes | IN_FILES.get(str(p), {})
        p.write_text(apply(p.read_text(), here))
    p = root / 'crates/circuit/proofs/Equations.antt'
    p.write_text(p.read_text().replace('all_null_lem = ', 'all_null = '))
    for p in root.glob('crates/*/src/*.rt'):
        p.write_text(apply_source(p.read_text(), changes))
    with open('docs/port-names.tsv', 'w') as f:
        f.writelines(f'{n}\t{new}\n' for n, new in changes.items())
    return 0


# Names that would fall together with another: a lemma that would have its definition's name gets `_lem`.
BY_HAND = {f'{n}-room': f'{n}_room_is' for n in ('index', 'table', 'output')} | {'all-null': 'all_null'}
IN_FILES = {
    'crates/rules/proofs/Pairs.antt': {'any_out': 'any_out_lem'},
    'crates/circuit/proofs/RuleLaws.antt': {'any_out': 'any_out_lem', 'all-null': 'all_null_lem'},
    'crates/circuit/proofs/Invariant.antt': {'all-null': 'all_null_lem'},
    'crates/circuit/proofs/Equations.antt': {'all-null': 'all_null_lem'},
    'crates/circuit/proofs/KeepEvery.antt': {'keeps_below': 'keeps_below_lem'},
    'crates/layout/proofs/Spreads.antt': {'after_last': 'after_last_lem'},
    'crates/sheet/proofs/Fields.antt': {'count_at': 'count_at_lem'},
}

if __name__ == '__main__':
    sys.exit(main(sys.argv[1:]))
