"""Imports that their file never writes: each `use` and `ghost use` line. In a clause of a contract a parameter hides an import of its name; a record's
label and a field are no uses; what a must-fail edit writes counts as written in the file that it edits, and a trait of std where one of its methods is
called."""
import re

from source import ROOT, brought, uses, written

TRAITS = {'Read': 'read|read_exact|read_to_end', 'BufRead': 'read_line|read_until|fill_buf|consume', 'Write': 'write|write_all|flush'}


def unused(source):
    """(use line, its names that are not used), the last line first."""
    antt = written((source.clauses if source.code else source.body) + source.edits)
    words = set(re.findall(r'\w+', source.body + source.edits)) if source.code else set()
    words |= {name for name, methods in TRAITS.items() if source.code and re.search(rf'\.(?:{methods})\s*\(', source.body)}
    heads = {re.split(r'\.|::', use['path'].strip())[0] for use in source.imports}
    for use in reversed(source.imports):
        plain = source.code and not use['ghost']
        bad = [n for n, _, _ in brought(use) if n not in heads and not (n in words if plain else uses(n, antt))]
        if bad and not use['pub']:
            yield use, bad


def find(sources):
    for source in sources:
        for use, bad in unused(source):
            yield from ((source.path, source.line(use.start()), f'unused import {name}') for name in bad)


def fix(sources):
    """Takes them out of the files."""
    for source in sources:
        left = source.raw
        for use, bad in unused(source):
            kept = ', '.join(word for n, _, word in brought(use) if n not in bad)
            line = left[use.start():use.start('names')] + kept + left[use.end('names'):use.end()] if kept else ''
            left = left[:use.start()] + line + left[use.end():]
        if left != source.raw:
            (ROOT / source.path).write_text(left)
