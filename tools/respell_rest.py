#!/usr/bin/env python3
"""Spells in snake case what tools/respell.py leaves: constructors, variables of specs/ and proofs/, and what a module called Answers declares.

usage: tools/respell_rest.py      at the top of the repository, once, after tools/respell.py
"""
import re
from pathlib import Path

ROOT = Path.cwd()
# Words of the papers, and names that the kit makes.
KEPT = re.compile(r'tsOBUs?|kHz|\w+_PID|\w+_(?:Makes|Meets|Tells|Lawful)')
WORD = re.compile(r"(?<![\w·'-])[a-z][a-z0-9_]*[A-Z][A-Za-z0-9_]*(?![\w-])")


def turned(m):
    return m[0] if KEPT.fullmatch(m[0]) else re.sub(r'(?<=[a-z0-9])([A-Z])', lambda c: '_' + c[1].lower(), m[0])


DECLARED = re.compile(r"(?m)^ *(?:(?:abbrev|pub|unfoldable) )*([A-Za-z][\w'-]*-[\w'-]*)(?: \{.*\})? :")
TOKEN = re.compile(r"(?<![\w'-])[A-Za-z][\w'-]*")


def dashed():
    """The lemmas of modules called Answers, which are no function's answers."""
    found = set()
    for path in ROOT.glob('crates/*/*/Answers.antt'):
        found |= set(DECLARED.findall(path.read_text()))
    return {name: name.replace('-', '_') for name in found}


def main():
    lemmas = dashed()
    for path in sorted((ROOT / 'crates').rglob('*')):
        if path.suffix not in ('.antt', '.rt', '.edit') or 'out' in path.relative_to(ROOT).parts:
            continue
        text = path.read_text()
        new = TOKEN.sub(lambda m: lemmas.get(m[0], m[0]), WORD.sub(turned, text))
        if new != text:
            path.write_text(new)


main()
