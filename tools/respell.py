#!/usr/bin/env python3
"""Spells the names that this repository's own specs/ and proofs/ declare as the kit's library does: words in snake case, types and modules in camel case.

usage: tools/respell.py [--list]      at the top of the repository, once, after the kit's own port.py; --list prints what falls together and changes nothing

It collects the definitions, lemmas and fields that crates/*/specs and crates/*/proofs declare (what stands in a function's own Proof.antt apart, since such a
file names what the kit makes), and turns each of them, where its name has a dash or a capital behind a small letter, in every .antt, .rt and .edit file, and in
code spans of the pages of docs/ and of the crates' comments. Two names that would become one are told apart: the lemma gets `_lem`.
"""
import re
import sys
from collections import defaultdict
from pathlib import Path

ROOT = Path.cwd()
NAME = r'[A-Za-z][A-Za-z0-9_₀-₉\'-]*'
DECLARED = re.compile(
    rf'^( *)((?:abbrev |pub |unfoldable |axiom )*)((?:data |record |ruleset )?)(?:pub )?({NAME})(?: [({{].*)? ?:(?: |$)', re.M)
PLAIN_TOKEN = re.compile(r'[^\s(){}.;,@"«»`\[\]]+')
ALIAS = re.compile(r'([A-Z][A-Za-z0-9]*)·([A-Za-z][\w-]*)')


def snake(name):
    words = re.sub(r'(?<=[a-z0-9])([A-Z])', lambda m: '_' + m[1].lower(), name) if name[0].islower() else name
    return words.replace('-', '_')


def of_function(path):
    """A file of one function's proof."""
    return path.name in ('Proof.antt', 'Answers.antt', 'Invariants.antt')


def files(*kinds):
    return [p for p in sorted((ROOT / 'crates').rglob('*')) if p.suffix in kinds and 'out' not in p.relative_to(ROOT).parts and p.is_file()]


def declared():
    """Each name with where it is declared, and whether a definition of specs/ has it."""
    found = defaultdict(set)
    for path in files('.antt'):
        if of_function(path):
            continue
        text = re.sub(r'(?m)^ *--.*$', '', path.read_text())
        for m in DECLARED.finditer(text):
            if m[4] not in ('where', 'use', 'in', 'let', 'open', 'module'):
                found[m[4]].add(path)
    return found


# Names of the kit's library too, which files of the repository import.
KEPT = ('not-true', 'or-false', 'drop-drop', 'drop-set-lt', 'take-take', 'get_or-map')
# Definitions whose plain name a lemma or a function has already in a file that names both.
CHOSEN = {'firstPart': 'first_part_of', 'goesOn': 'goes_on', 'isOpen': 'is_open', 'noneYet': 'none_yet', 'sameBytes': 'bytes_same'}
# Lemmas that give way to such a definition, in the one file that has them.
GIVES_WAY = {'crates/units/proofs/Extracting.antt': {'is_open': 'is_open_lem'}}


def words_of(path):
    return set(PLAIN_TOKEN.findall(re.sub(r'(?m)(^|\s)(--|//).*$', '', path.read_text())))


def table():
    found = declared()
    turns = {name: snake(name) for name in found if snake(name) != name and name not in KEPT}
    taken = defaultdict(set)
    for name in found:
        taken[turns.get(name, name)].add(name)
    words = [words_of(path) for path in files('.antt', '.rt')]
    clashes = {}
    for new, olds in taken.items():
        if any(len(olds & file) > 1 for file in words):
            clashes[new] = sorted(olds)
            # what keeps the plain name: a name that does not turn, else the definition, else the first
            keep = next((o for o in sorted(olds) if o not in turns), None) or next((o for o in sorted(olds) if re.search('[A-Z]', o)), sorted(olds)[0])
            for o in sorted(olds):
                if o != keep and o in turns:
                    turns[o] = new + '_lem'
    turns.update({o: n for o, n in CHOSEN.items() if o in turns})
    return turns, clashes


def fields():
    """What is declared inside a record, or as one of a module's lemmas."""
    found = set()
    for path in files('.antt'):
        if not of_function(path):
            found |= {m[4] for m in DECLARED.finditer(path.read_text()) if m[1]}
    return found


def code(text, turns, kept=None):
    """With `kept`, in a function's own proof, what stands behind a dot turns only if a record of this repository has it."""
    def one(m):
        if kept is not None and m.start() and text[m.start() - 1] == '.' and m[0] not in kept:
            return m[0]
        return turns.get(m[0], m[0])

    text = ALIAS.sub(lambda m: snake(m[1][0].lower() + m[1][1:]) + '_' + snake(m[2]), text)
    return PLAIN_TOKEN.sub(one, text)


def spans(text, turns):
    return re.sub(r'`[^`\n]+`', lambda m: code(m[0], turns), text)


def camel_only(turns):
    return {o: n for o, n in turns.items() if '-' not in o}


def turned(path, text, turns, inside):
    kept = inside if of_function(path) else None
    turns = turns | GIVES_WAY.get(str(path.relative_to(ROOT)), {})
    if path.suffix == '.md':
        return spans(text, turns)
    mark = {'.antt': '--', '.rt': '//', '.edit': '#'}[path.suffix]
    out = []
    for line in text.split('\n'):
        at = re.search(r'(?:^|(?<=\s))' + re.escape(mark), line)
        head, tail = (line[:at.start()], line[at.start():]) if at else (line, '')
        out.append(code(head, turns, kept) + (code(spans(tail, turns), camel_only(turns)) if tail else ''))
    return '\n'.join(out)


def main():
    turns, clashes = table()
    if '--list' in sys.argv:
        for new, olds in sorted(clashes.items()):
            print('together:', new, ':', ' '.join(f'{o} -> {turns.get(o, o)}' for o in olds))
        words = defaultdict(set)
        for path in files('.antt', '.rt'):
            for token in PLAIN_TOKEN.findall(re.sub(r'(?m)^ *(--|//).*$', '', path.read_text())):
                words[token].add(path)
        for old, new in sorted(turns.items()):
            if new in words:
                print('there already:', old, new, ' '.join(str(p.relative_to(ROOT)) for p in sorted(words[new])[:6]))
        print(len(turns), 'names')
        return
    inside = fields()
    for path in files('.antt', '.rt', '.edit') + sorted((ROOT / 'docs').rglob('*.md')) + [ROOT / 'README.md']:
        text = path.read_text()
        new = turned(path, text, turns, inside)
        if new != text:
            path.write_text(new)
    print(len(turns), 'names')


main()
