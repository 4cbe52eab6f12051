"""The wrong programs that the prover must refuse: crates/CRATE/must-fail/*.edit. A file has one or more, with an empty line between them:

    # NAME: what is wrong
    at: where the prover refuses it: `fn module::function` or `fn module::Type::method` of the crate, or a file of laws, `proofs/File.antt`
    file: the file that it changes
    old: text that stands there once
    new: what stands there instead

One that takes two changes has several `old` and `new`. rt makes all the changes of a file in a copy of the crate and proves that, so a file with several
programs costs one check; tests/edits/run has each tried alone too, in a file of its own. A file with several is `together.edit`, one with a single program
has its name. Two that change the same text stand in different files."""
import re
from dataclasses import dataclass
from pathlib import Path

ROOT = Path(__file__).resolve().parents[2]


@dataclass
class Wrong:
    crate: str
    group: str
    name: str
    words: str
    at: list
    changes: list

    def __str__(self):
        return f'crates/{self.crate}/must-fail/{self.group}.edit, {self.name}'


def changes_of(text):
    """The changes of a text: file, old text, new text."""
    file = old = None
    for key, said in re.findall(r'^(file|old|new):(?: (.*))?$', text, re.M):
        if key == 'file':
            file = said
        elif key == 'old':
            old = said
        else:
            yield file, old, said


def of_text(crate, group, text):
    head = re.match(r'# (\w+): (.+)$', text, re.M)
    return Wrong(crate, group, head and head[1], head and head[2], re.findall(r'^at: (fn \S+|\S+)$', text, re.M), list(changes_of(text)))


def edits(crate):
    return sorted(ROOT.glob(f'crates/{crate}/must-fail/*.edit'))


def read(crate='*'):
    """All wrong programs, or those of a crate."""
    return [
        of_text(path.parents[1].name, path.stem, text)
        for path in edits(crate)
        for text in re.split(r'\n\s*\n', path.read_text().strip('\n'))
    ]


def files(crate='*'):
    """Of each file its crate, its name and all its changes."""
    return [(path.parents[1].name, path.stem, list(changes_of(path.read_text()))) for path in edits(crate)]


def made(crate, changes):
    """The texts that changes make of a crate's files, one after the other, and why they cannot be made, or none."""
    texts = {}
    for file, old, new in changes:
        path = ROOT / 'crates' / crate / str(file)
        if file not in texts and not path.is_file():
            return texts, f'there is no {file}'
        text = texts.get(file) or path.read_text()
        if not old or text.count(old) != 1:
            return texts, f'its old text stands {text.count(old) if old else 0} times in {file}: {old}'
        texts[file] = text.replace(old, new)
    return texts, None if changes else 'it changes nothing'
