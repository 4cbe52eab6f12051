"""The files of the crates, as the checks read them."""
import re
import sys
from collections import defaultdict
from pathlib import Path

ROOT = Path(__file__).resolve().parents[2]
sys.path[:0] = [str(ROOT / 'tests/edits'), str(ROOT / 'tools')]
from functions import bare, blank, closing  # noqa: E402
from wrong import read as read_wrong  # noqa: E402

CHARS = r'\s(){}.;,@"«»⟦⟧⌜⌝'
NAME = rf'(?:«[^»\n]*»|[^{CHARS}]+)'
USED = re.compile(rf'(?<![^{CHARS.replace(".", "")}]){NAME}(?:\.{NAME})*')
IMPORT = re.compile(r'^[ \t]*(?P<pub>(?:unfoldable )?pub(?:\(crate\))? )?(?P<ghost>ghost )?use (?P<path>[^{};\n]+?)'
                    r'(?:(?:\.|::)\{(?P<names>[^}]*)\}|\s+as\s+(?P<alias>[^\s;]+))?[ \t]*;?[ \t]*$\n?', re.M)
CLAUSE = re.compile(r'\b(?:(?:requires|ensures)(?:\s+\w+)?|ghost\s+\w+:|ghost\s+\w+\s*=)\s*\{')
TACTIC = re.compile(r'#!?\[tactic\((.*?)\)\]', re.S)
DO = re.compile(r'(?<!\S)do *\n(?P<steps>(?P<indent> +)\S.*\n(?:(?P=indent).*\n|\s*\n)*)')


def written(text):
    """The names that a text of antt writes, with the binds that its do blocks stand for."""
    text = re.sub(rf'(?<=[{{;])\s*{NAME}(?=\s+=\s)', ' ', text)
    names = {m.group() for m in USED.finditer(text)}
    names |= {n.split('.')[0] for n in names} | (set('⟦⟧⌜⌝{}') & set(text)) | ({'>>='} if '←' in text else set())
    for do in DO.finditer(text):
        steps = re.findall(rf'^{do["indent"]}(\S.*)', do['steps'], re.M)[:-1]
        names |= {'>>'} if any(not re.match(r'let |(\(.*?\)|\S+) ←', s) for s in steps) else set()
    return names


def uses(name, names):
    """Whether a name is written: whole or, for an operator, by its parts."""
    if name in names or '◌' not in name or name[0] == '«':
        return name in names
    return all({p, '◌' + p, p + '◌', '◌' + p + '◌'} & names for p in re.split(r'[◌\s]+', name) if p)


def brought(use):
    """What a line brings: its name in this file, its name there (none for a path without braces), and the text that brings it."""
    last = re.split(r'\.|::', use['path'].strip())[-1]
    if use['names'] is None:
        return [(use['alias'] or last, None, '')] if last != '*' else []
    words = [last if w == 'self' else w for w in re.split(r'\s*,\s*', use['names'].strip()) if w not in ('', '*')]
    return [(w.split(' as ')[-1].strip().split('.')[-1], w.split(' as ')[0].strip(), w) for w in words]


class Source:
    """A file: `text` is it without comments and quoted text, `body` without imports too; `edits` is what must-fail edits write into it."""

    def __init__(self, path, edits):
        self.path, self.code, self.edits = path.relative_to(ROOT), path.suffix == '.rt', '\n' + edits
        self.raw = path.read_text()
        self.text = bare(self.raw) if self.code else re.sub(r'"(?:\\.|[^"\\])*"|(?<!\S)--[^\n]*|\{-.*?-\}', blank, self.raw, flags=re.S)
        self.body = IMPORT.sub(blank, self.text)
        self.imports = list(IMPORT.finditer(self.text))
        self.clauses = '\n'.join(self.contracts()) if self.code else ''
        self.crate, self.kind = self.path.parts[1:3]
        self.hints = self.of_tactics() if self.code else set()

    def line(self, at):
        return self.text.count('\n', 0, at) + 1

    def of_tactics(self):
        """The whole paths that `#[tactic(.., using(crate::proofs::M::lemma))]` and `unfolding(..)` name."""
        paths = {path for tactic in TACTIC.findall(self.text) for path in re.findall(r"(?:[\w'-]+::)+[\w'◌-]+", tactic)}
        return {'Rattle.' + re.sub(r'^crate\b', self.crate, path).replace('::', '.') for path in paths}

    def contracts(self):
        """The clauses of contracts, each without the parameters of its function, which hide imports."""
        params = []
        for m in re.finditer(r'\bfn \w+[^(]*\(([^)]*)\)|' + CLAUSE.pattern, self.body):
            if m[1] is not None:
                params = [re.escape(p) for p in re.findall(r'(\w+)\s*:', m[1])]
            else:
                clause = self.body[m.end():closing(self.body, m.end() - 1) - 1]
                yield re.sub(rf'(?<![\w.-])(?:{"|".join(params)})(?![\w-])', ' ', clause) if params else clause


def read():
    """All files of src/, specs/ and proofs/."""
    edits = defaultdict(str)
    for wrong in read_wrong():
        for file, old, new in wrong.changes:
            edits[ROOT / 'crates' / wrong.crate / file] += f'{old}\n{new}\n'
    kinds = ('src/**/*.rt', 'specs/**/*.antt', 'proofs/**/*.antt')
    return [Source(p, edits[p]) for p in sorted(p for kind in kinds for p in ROOT.glob('crates/*/' + kind))]
