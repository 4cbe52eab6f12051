"""Definitions and laws that nothing uses, and pub items of src/ that only their own file uses. A definition or law is used where a contract, a `tactic`
attribute, an answer or an invariant (a declaration at a type `goal.X` or `given.X` in Answers.antt or Invariants.antt) or docs/PROMISES.md reaches it: by its
name in backquotes or, where it is pub, by the path of its file in proofs/. A pub item of src/ is used where another file writes its name; a `pub use`, where
another crate does, where a pub item of its own crate shows it, or where docs/PROMISES.md promises it as `crate::name`. The laws of tests/tidy/kept.txt are
none of these, and each line there has to be true."""
import re
from pathlib import Path

from source import NAME, ROOT, blank, brought, closing, uses, written

KEPT = 'tests/tidy/kept.txt'
ITEM = re.compile(rf'(?:(?:abbrev|unfoldable|axiom) )*(?P<pub>pub )?(?:(?:data|record|ruleset) (?P<type>{NAME})|(?P<name>{NAME}) :(?=\s|$))')
NO_ITEM = re.compile(r'(pub )?(mod|let|infix[lr]?)\b')
# a constructor, a field, or what is derived
INNER = re.compile(rf'(?:^ +(?:pub )?(?=\S+ :\s)|\bderiving .* as )({NAME})')
PUB = re.compile(r'^[ \t]*pub(?:\(crate\))? (?:const |unsafe |extern +)*(fn|struct|enum|const|static|type) (\w+)', re.M)
EXPORTED = re.compile(r'#\[unsafe\(no_mangle\)\][^{;]*?\bfn (\w+)')
PACKAGE = re.compile(r'Rattle\.(\w+)\.(specs|proofs)\.(.+)$')
ANSWERS = ('Answers.antt', 'Invariants.antt')
ANSWER = re.compile(rf'(?:(?:abbrev|unfoldable|pub) )*{NAME} :\s+(?:goal|given)\.')


class Item:
    """A declaration of an .antt file: its text stands behind the heads of the modules around it."""

    def __init__(self, line, pub, heads, is_answer):
        self.line, self.pub, self.text, self.inner, self.is_answer = line, pub, heads, set(), is_answer


def items(source):
    """The declarations of an .antt file by their names, those in modules too."""
    found, current, head = {}, None, ''
    # of each module that is open, its indent, once it is known, and the heads up to its own
    blocks = [(0, '')]
    for number, line in enumerate(source.body.split('\n'), 1):
        indent, bare = len(line) - len(line.lstrip()), line.strip()
        if bare and not head:
            if blocks[-1][0] is None:
                blocks[-1] = indent, blocks[-1][1]
            while indent < blocks[-1][0]:
                blocks.pop()
        if head or bare.startswith('module '):
            head += line + '\n'
            if bare.endswith('where'):
                blocks.append((None, blocks[-1][1] + head))
                head, current = '', None
            continue
        begins = ITEM.match(bare) if indent == blocks[-1][0] and not NO_ITEM.match(bare) else None
        if begins:
            current = Item(number, bool(begins['pub']), blocks[-1][1], bool(ANSWER.match(bare)))
            found[begins['name'] or begins['type']] = current
        if current:
            current.text += line + '\n'
            current.inner |= set(INNER.findall(line))
    return found


class Declared:
    """All declarations of the crates, by file and name."""

    def __init__(self, sources):
        self.items = {s.path: items(s) for s in sources if not s.code}
        self.inner = {path: {name: own for own, item in found.items() for name in item.inner} for path, found in self.items.items()}
        # what the `pub use` lines of a file hand on, with the path that it comes from
        self.handed = {s.path: {here: f'{use["path"].strip()}.{there}' for use in s.imports if use['pub'] for here, there, _ in brought(use) if there}
                       for s in sources if not s.code}

    def home(self, whole):
        """The declaration that a whole path names, or none where the crates do not declare it."""
        package = PACKAGE.match(whole)
        parts = package[3].split('.') if package else []
        for count in range(len(parts) - 1, 0, -1):
            path, name = Path('crates', package[1], package[2], *parts[:count]).with_suffix('.antt'), parts[count]
            if path in self.items:
                own = name if name in self.items[path] else self.inner[path].get(name)
                handed = self.handed[path].get(name)
                return (path, own) if own else self.home(handed) if handed else None
        return None

    def named(self, source, text):
        """The declarations that a text of a file names."""
        names = written(text)
        found = {self.home(name) for name in names if name.startswith('Rattle.')}
        for use in source.imports:
            for here, there, _ in brought(use):
                path = use['path'].strip()
                if there is None:
                    found |= {self.home(path + name[len(here):]) for name in names if name.startswith(here + '.')}
                elif uses(here, names):
                    found.add(self.home(f'{path}.{there}'))
        found |= {(source.path, name) for name in self.items.get(source.path, ()) if uses(name, names)}
        found |= {(source.path, own) for name, own in self.inner.get(source.path, {}).items() if name in names}
        return found - {None}


def unreached(sources):
    """Definitions and laws that no contract, no answer and no document reaches."""
    promises = (ROOT / 'docs/PROMISES.md').read_text()
    spans = ' '.join(re.findall(r'`([^`\n]+)`', promises))
    told = set(re.findall(NAME, spans))
    declared, by_path = Declared(sources), {s.path: s for s in sources}
    edges = {(path, name): declared.named(by_path[path], item.text) - {(path, name)}
             for path, found in declared.items.items() for name, item in found.items()}
    todo = [node for s in sources if s.code for node in declared.named(s, s.clauses)]
    todo += [home for s in sources for home in map(declared.home, s.hints) if home]
    for path, found in declared.items.items():
        linked = path.parts[2] == 'proofs' and str(path) in promises
        todo += [(path, name) for name, item in found.items() if name in told or item.pub and linked or item.is_answer and path.name in ANSWERS]
    reached = set()
    while todo:
        node = todo.pop()
        if node not in reached:
            reached.add(node)
            todo += edges[node]
    listed = kept()
    for path, name in edges.keys() - reached:
        kind = 'definition' if path.parts[2] == 'specs' else 'law'
        if kind == 'definition' or (str(path), name) not in listed:
            yield path, declared.items[path][name].line, f'unused {kind} {name}'
    unused = {(str(path), name) for path, name in edges.keys() - reached}
    yield from ((Path(KEPT), line, f'{name} of {path} is used, or gone') for (path, name), line in listed.items() if (path, name) not in unused)


def kept():
    """The laws of the list, each with its line."""
    lines = enumerate((ROOT / KEPT).read_text().splitlines(), 1)
    return {tuple(words): number for number, line in lines if len(words := line.split()) == 2 and not line.startswith('#')}


def shown(source):
    """Of each pub item of a file its place, and the words that it shows: a type's declaration, a function's signature."""
    found = {}
    for item in PUB.finditer(source.text):
        head = re.split(r'\n\s*(?:requires|ensures)|[={]', source.text[item.end():], maxsplit=1)[0]
        whole = source.text[item.end():closing(source.text, item.end())]
        found[item[2]] = item.start(), set(re.findall(r'\w+', whole if item[1] in ('struct', 'enum') else head))
    return found


def unused_pub(sources):
    """Pub items of src/ that no other file uses, and those of `pub use` that no other crate uses and no promise names."""
    code = [s for s in sources if s.code]
    words = {s.path: set(re.findall(r'\w+', s.text + s.edits)) for s in code}
    promised = set(re.findall(r'`(\w+::\w+)`', (ROOT / 'docs/PROMISES.md').read_text()))
    exported = {name for s in code for name in EXPORTED.findall(re.sub(r'//[^\n]*', blank, s.raw))} | {'main'}
    pub = {s.path: shown(s) for s in code}
    for source in code:
        near = [s.path for s in code if s.crate == source.crate and s != source]
        far = [s.path for s in code if s.crate != source.crate and source.crate in words[s.path]]
        for name, (at, _) in pub[source.path].items():
            of_others = any(name in other for own, (_, other) in pub[source.path].items() if own != name)
            if not (name in exported or of_others or any(name in words[path] for path in near + far)):
                yield source.path, source.line(at), f'unused pub {name}'
        showing = exported.union(*(other for path in near for _, other in pub[path].values()))
        for use in source.imports:
            for name, _, _ in brought(use) if use['pub'] else ():
                if not (name in showing or f'{source.crate}::{name}' in promised or any(name in words[path] for path in far)):
                    yield source.path, source.line(use.start()), f'unused pub use {name}'


def find(sources):
    yield from unreached(sources)
    yield from unused_pub(sources)
