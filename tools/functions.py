"""The functions of the crates' src/, as their text has them: where each stands, and which of the others it calls. A name is that of Rattle, without
the crate's own name in front where a crate is asked for: `module::function`, `module::Type::method`."""
import re
from dataclasses import dataclass
from pathlib import Path

ROOT = Path(__file__).resolve().parents[1]

FUNCTION = re.compile(r'^[ \t]*(?:pub(?:\([^)]*\))? )?(?:const |unsafe |extern +)*fn (\w+)', re.M)
# what can come behind the parameters: a bracket of the result's type, a clause, the body, or the end of a declaration without one
NEXT = re.compile(r'[(\[]|\b(?:(?:requires|ensures)(?: \w+)?|decreases|measure)\s*\{|[{;]')
UNREAD = re.compile(r'"(?:\\.|[^"\\])*"|\'(?:\\.|[^\'\\\n])\'|//[^\n]*|/\*.*?\*/', re.S)
TYPE = re.compile(r'^[ \t]*(?:pub(?:\([^)]*\))? )?(?:struct|enum) (\w+)', re.M)
IMPL = re.compile(r'^impl\b(?:<[^{]*?>)?\s+(?:([^{]*?) for )?(\w+)[^{]*\{', re.M)
# what brings a name in a body: `let`, `if let`, `while let`, `for`, `match`, and the parameters of a closure
BINDS = re.compile(r'\b(?:(?:if|while)\s+)?let\b|\bfor\b(?=[^{;]*?\bin\b)|\bmatch\b|(?<=[(,=])\s*\|(?P<closure>[^|]*)\|')
# the types that are none of the crates and have none of their methods
OTHERS = {'[]', '()', 'Option', 'Result', 'bool', 'char', 'str', 'u8', 'u16', 'u32', 'u64', 'u128', 'usize', 'i8', 'i16', 'i32', 'i64', 'isize', 'f32', 'f64'}
USE = re.compile(r'^[ \t]*(?:pub(?:\([^)]*\))? )?use ([\w:]+?)(?:::\{([^}]*)\}|\s+as\s+(\w+))?\s*;', re.M)
# a call by a path, a call of a method, and a name that is handed on, which can be a function's
CALLED = re.compile(r'(?<![\w:.])((?:\w+::)*\w+)\s*(?:::<[^;(]*?>)?\(|\.\s*(\w+)\s*\(|(?<=[(,])\s*((?:\w+::)*\w+)\s*(?=[,)])')


def blank(match):
    return re.sub(r'[^\n]', ' ', match.group())


def bare(text):
    """A text of Rattle without comments and quoted text, of the same lines and columns."""
    return UNREAD.sub(blank, text)


def closing(text, at):
    """The place behind the bracket that closes the first one at or behind `at`."""
    depth = 0
    for bracket in re.compile(r'[](){}[]').finditer(text, at):
        depth += 1 if bracket[0] in '({[' else -1
        if depth == 0:
            return bracket.end()
    return len(text)


def until(text, at, ends):
    """The place, at or behind `at`, of the first of these signs that stands in no bracket, or of the bracket that closes what is open there."""
    while at < len(text) and text[at] not in ends + ')]}':
        at = closing(text, at) if text[at] in '([{' else at + 1
    return at


def apart(text, brackets='()[]{}'):
    """A text cut at its outer commas."""
    parts, depth = [''], 0
    for sign in text:
        depth += (sign in brackets[::2]) - (sign in brackets[1::2])
        parts[-1] += sign
        if sign == ',' and depth == 0:
            parts[-1:] = [parts[-1][:-1], '']
    return [part.strip() for part in parts if part.strip()]


def begin(text, at):
    """Where the expression begins that a method at a place is called on: names, fields, calls and places in brackets, one behind the other."""
    while True:
        at = len(text[:at].rstrip())
        while at and text[at - 1] in ')]?':
            at -= 1
            depth = text[at] != '?'
            while depth and at:
                at -= 1
                depth += (text[at] in ')]}') - (text[at] in '([{')
        word = re.search(r'(?:\b(?!(?:return|in|if|match|else)\b)\w+(?:::\w+)*)?\Z', text[:at])
        before = text[:word.start()].rstrip()
        if not before.endswith('.') or before.endswith('..'):
            return word.start()
        at = len(before) - 1


def matched(text, found):
    """What a `let`, `for` or `match` matches with what: where the pattern ends, and where the expression begins and ends."""
    if found[0] == 'match' or found['closure'] is not None:
        return found.end(), found.end(), until(text, found.end(), '{')
    if found[0] == 'for':
        word = re.compile(r'\bin\b').search(text, found.end())
        return word.start(), word.end(), until(text, word.end(), '{')
    at = until(text, found.end(), '=')
    end = until(text, at + 1, ';' if found[0] == 'let' else '{')
    other = re.search(r'\belse\s*\{', text[at:end]) if found[0] == 'let' and not re.match(r'=\s*if\b', text[at:end]) else None
    return at, at + 1, at + other.start() if other else end


def arm(text, at, place):
    """The pattern of the arm of a `match` in which a place stands; the first arm begins at `at`."""
    while at < place:
        start = until(text, at, '=')
        while text[start:start + 1] == '=' and text[start + 1:start + 2] != '>':
            start = until(text, start + 1, '=')
        behind = re.compile(r'=>\s*').match(text, start)
        if not behind:
            return ''
        end = closing(text, behind.end()) if text[behind.end():behind.end() + 1] == '{' else until(text, behind.end(), ',')
        if place <= end:
            return text[at:start].partition(' if ')[0].strip(', \n')
        at = end + 1
    return ''


def body(text, at):
    """From where to where the text between the braces of a function stands whose parameters end at a place: nothing where it has none."""
    while True:
        found = NEXT.search(text, at)
        if found is None or found[0] == ';':
            return at, at
        at = closing(text, found.end() - 1)
        if found[0] == '{':
            return found.end(), at - 1


def fields(text, at):
    """The fields of a struct or of a case of an enum whose name ends at a place: their names or numbers, each with the text of its type."""
    at = until(text, at, '({;,=')
    if text[at:at + 1] not in ('(', '{'):
        return {}
    field = re.compile(r'(?:#\[[^\n]*\s)*(?:pub(?:\([^)]*\))? )?(?:(\w+)\s*:(?!:))?(.*)', re.S)
    found = [field.match(it) for it in apart(text[at + 1:closing(text, at) - 1], '()[]{}<>')]
    return {it[1] or str(k): it[2] for k, it in enumerate(found)}


def owner_of(trait, name):
    """What Rattle calls an `impl`: its type, and behind it the trait with the types that the trait is given."""
    words = re.findall(r'\w+', re.sub(r"\w+::|'\w+", '', trait or ''))
    return name + ''.join(word[0].upper() + word[1:] for word in words)


@dataclass
class Function:
    crate: str
    module: tuple
    home: tuple
    owner: str
    name: str
    file: str
    first: int
    last: int
    has_self: bool
    exported: bool
    head: str
    body: str
    type: str
    trait: str
    takes: str
    gives: str

    def path(self):
        """The name below its crate: that of a method stands at its type."""
        return '::'.join(part for part in (*self.home, self.owner, self.name) if part)

    def place(self):
        """Where its text stands: its module from the crate on, and the type that `Self` is there."""
        return (self.crate, *self.module), self.type


def module_of(file):
    """The module that a file of src/ is."""
    parts = Path(file).with_suffix('').parts
    return tuple(part for part in parts if part not in ('mod',) and not (len(parts) == 1 and part in ('lib', 'main')))


def of_file(crate, file, raw, types):
    """The functions of a file. `types` has the modules of the crate's types."""
    text, module = bare(raw), module_of(file)
    owners = [(m.start(), closing(text, m.end() - 1), (owner_of(m[1], m[2]), m[2], m[1] or '')) for m in IMPL.finditer(text)]
    for found in FUNCTION.finditer(text):
        left = text.index('(', found.end())
        right = closing(text, left)
        inside = body(text, right)
        # the attributes above are its own
        above = re.search(r'(?:^[ \t]*#\[[^\n]*\n\s*)*\Z', text[:found.start()], re.M)[0]
        owner, name, trait = next((names for start, end, names in owners if start < found.start() < end), ('', '', ''))
        first = text.count('\n', 0, found.start() - len(above)) + 1
        homes = types.get(owner, [module])
        yield Function(crate, module, module if module in homes else homes[0], owner, found[1], f'src/{file}', first, text.count('\n', 0, inside[1]) + 1,
                       bool(re.match(r"\s*(?:&\s*(?:'\w+ )?)?(?:mut )?self\b", text[left + 1:right])), 'no_mangle' in above,
                       raw[found.start():inside[0]].rstrip('{ \n'), text[inside[0]:inside[1]], name, trait, text[left + 1:right - 1],
                       re.match(r'(?:\s*->((?:[^;{[]|\[[^\]]*\])*?)(?=\b(?:requires|ensures|decreases|measure|where)\b|[{;]|\Z))?', text[right:])[1] or '')


def of_crate(crate, root=ROOT):
    """The functions of a crate by their names below it."""
    src = root / 'crates' / crate / 'src'
    texts = {path.relative_to(src).as_posix(): path.read_text() for path in sorted(src.rglob('*.rt'))}
    types = {}
    for file, raw in texts.items():
        for name in TYPE.findall(bare(raw)):
            types.setdefault(name, []).append(module_of(file))
    return {it.path(): it for file, raw in texts.items() for it in of_file(crate, file, raw, types)}


def brings(function, name):
    """Whether a function has a parameter or a variable of this name."""
    arms = re.findall(r'((?:[^;{}]|\{[^{}]*\})*)=>', function.body)
    others = [it['closure'] or function.body[it.end():matched(function.body, it)[0]] for it in BINDS.finditer(function.body)]
    return re.search(rf'\b{name}\b', ' '.join([function.takes, *arms, *others])) is not None


def is_at(place, functions, file, line):
    """Whether a line of a crate's file is at a place: `fn module::function` is a function's proof files and its own lines, anything else a file."""
    if not place.startswith('fn '):
        return file == place
    function = functions[place[3:]]
    return Path(file).parent == Path('proofs', *place[3:].split('::')) or file == function.file and function.first <= line <= function.last


def same(one, other):
    """Whether two types can be the same: what is not known of one can be what the other says."""
    return one is None or other is None or one[0] == other[0] and all(same(*both) for both in zip(one[1:], other[1:]))


class Calls:
    """Which functions of the crates each of them calls. A call by a path goes through the `use` lines. A method is that of its receiver's type where the
    text names the type: at a parameter, a `let`, a field, a pattern, or as what a function gives. Where it does not, every method of that name counts
    that the crate can call. `.into()` is the `from` of the two types, `for` calls the `next` of what it goes through, and a function that is handed on
    counts as called."""

    def __init__(self, root=ROOT):
        self.crates = sorted(path.parent.name for path in root.glob('crates/*/src'))
        self.functions = {(it.crate, *it.path().split('::')): it for crate in self.crates for it in of_crate(crate, root).values()}
        self.modules = {}
        for crate in self.crates:
            src = root / 'crates' / crate / 'src'
            self.modules |= {(crate, *module_of(path.relative_to(src).as_posix())): bare(path.read_text()) for path in src.rglob('*.rt')}
        self.uses = {module: dict(self.brought(module, text)) for module, text in self.modules.items()}
        lines = [line.split(':') for line in (root / 'crates.txt').read_text().splitlines() if ':' in line]
        self.below = {name.split()[0]: set(on.split()) for name, on in lines}
        # the fields of each struct, and of each case of an enum
        self.types = {}
        for module, text in self.modules.items():
            for found in TYPE.finditer(text):
                self.types[(*module, found[1])] = fields(text, found.end()) if 'struct' in found[0] else {}
                at = text.index('{', found.end()) if 'enum' in found[0] else 0
                for case in apart(text[at + 1:closing(text, at) - 1]) if at else []:
                    name = re.match(r'(?:#\[[^\n]*\s)*(\w*)', case)
                    self.types[(*module, found[1], name[1])] = fields(case, name.end())

    def brought(self, module, text):
        """What the `use` lines of a module bring: each name with its path."""
        for path, names, alias in USE.findall(text):
            # (`use lists;` would bring a crate)
            parts = self.absolute(module, [*path.split('::'), ''])[:-1]
            if not names:
                yield alias or parts[-1], parts
            for word in filter(None, re.split(r'\s*,\s*', names.strip())):
                there, _, here = word.partition(' as ')
                inner = [] if there == 'self' else there.split('::')
                yield here or [*parts, *inner][-1], [*parts, *inner]

    def absolute(self, module, parts):
        """A path as it is written in a module, from its crate on; what is no crate and no module stands in the module itself."""
        if parts[0] == 'crate':
            return [module[0], *parts[1:]]
        up = next((k for k, part in enumerate(parts) if part not in ('self', 'super')), len(parts))
        if up:
            return [*module[:len(module) - parts[:up].count('super')], *parts[up:]]
        is_crate = len(parts) > 1 and parts[0] in self.crates and (*module, parts[0]) not in self.modules
        return list(parts) if is_crate else [*module, *parts]

    def item(self, parts, among):
        """The function or type that an absolute path names, through what the modules on its way bring, or none."""
        for _ in range(20):
            at = next((k for k in range(len(parts), 0, -1) if tuple(parts[:k]) in self.uses), 0)
            if at in (0, len(parts)) or tuple(parts) in among:
                return tuple(parts) if tuple(parts) in among else None
            brings = self.uses[tuple(parts[:at])]
            if parts[at] not in brings:
                return None
            parts = [*brings[parts[at]], *parts[at + 1:]]
        return None

    def called(self, name):
        """The functions that one calls, in the order of their calls."""
        function = self.functions[name]
        found = []
        for call in CALLED.finditer(function.body):
            one = (self.by_method if call[2] else self.by_path)(function, call)
            found += [(call.start(), it) for it in one if not call[3] or not brings(function, call[3])]
        for loop in BINDS.finditer(function.body):
            if loop[0] == 'for':
                _, at, end = matched(function.body, loop)
                found += [(end, it) for it in self.next_of(self.typed(function, function.body[at:end], at))]
        return list(dict.fromkeys(it for _, it in sorted(found, key=lambda it: it[0])))

    def by_path(self, function, call):
        """The functions that a path can mean, called or handed on: the one that it names, or those of traits at the type in front."""
        parts = (call[1] or call[3]).split('::')
        one = self.item(self.path(parts, *function.place()), self.functions)
        if one or len(parts) == 1:
            return [one] if one else []
        given = function.body[call.end():closing(function.body, call.end() - 1) - 1] if call[1] else ''
        of = self.named('::'.join(parts[:-1]), *function.place())
        found = self.methods(function, parts[-1], of, False) if of else []
        return [key for key in found if self.is_from(key, self.typed(function, given, call.start()))]

    def by_method(self, function, call):
        """The functions that a call of a method can mean."""
        at = begin(function.body, call.start())
        of = self.typed(function, function.body[at:call.start()], call.start())
        if call[2] not in ('into', 'try_into'):
            return self.methods(function, call[2], of, True) or self.next_of(of)
        wanted = self.wanted(function, at, closing(function.body, call.end() - 1))
        return [key for key in self.methods(function, call[2].replace('into', 'from'), wanted, False) if self.is_from(key, of)]

    def methods(self, function, name, of, has_self):
        """The functions of a name at a type; where the type is not known, those at any type that the function's crate can call."""
        found = [key for key, it in self.functions.items() if it.name == name and it.type and it.has_self == has_self and same(of, self.own(it))]
        below = self.below.get(function.crate, ())
        public = [key for key in found if self.functions[key].trait or self.functions[key].head.lstrip().startswith('pub ')]
        return [key for key in found if key[0] == function.crate or key[0] in below and key in public]

    def next_of(self, of):
        """The `next` that goes through the values of a type."""
        return [key for key, it in self.functions.items() if it.name == 'next' and it.trait == 'Iterator' and of and same(of, self.own(it))]

    def is_from(self, key, of):
        """Whether a function of a type can take a value of this one, where it is that of `From` or `TryFrom`."""
        it = self.functions[key]
        taken = re.fullmatch(r'(?:Try)?From<(.*)>', it.trait, re.S)
        return not taken or same(of, self.named(taken[1], *it.place()))

    def wanted(self, function, at, end):
        """The type that an expression has to have by where it stands: that of its `let`, or what the function gives."""
        before, behind = function.body[:at].rstrip(), function.body[end:].lstrip()
        said = re.search(r'\blet\s+(?:mut\s+)?\w+\s*:([^=;]*)=\Z', before)
        if said:
            return self.named(said[1], *function.place())
        last = 0
        while until(function.body, last, ';') < len(function.body):
            last = until(function.body, last, ';') + 1
        is_last = last <= at and re.search(r'(?:\A|[{};]|=>)\Z', before) and behind[:1] in ('', ',', '}')
        return self.named(function.gives, *function.place()) if is_last or re.search(r'\breturn\Z', before) and behind[:1] == ';' else None

    # A type is a tuple: its name, or its path if the crates have it, and behind it the types that it is given. None: it is not known.

    def path(self, parts, module, own=''):
        """A path as it is written in a module, from its crate on. `own`: what `Self` is."""
        return self.absolute(module, [own, *parts[1:]] if parts[0] == 'Self' else parts)

    def named(self, text, module, own=''):
        """The type that a text names."""
        text = re.sub(r"\A(?:\s|&|'\w+|mut\b)+|\s+\Z", '', text)
        if text[:1] == '[':
            return '[]', self.named(re.sub(r';[^\];]*\Z', '', text[1:-1]), module, own)
        name, _, given = ('()', '', text[1:]) if text[:1] == '(' else text.partition('<')
        given = [self.named(it, module, own) for it in apart(given[:-1], '()[]{}<>') if it[0] != "'"]
        one = self.item(self.path(name.strip().split('::'), module, own), self.types) or name.strip() or '()'
        return (one, *given) if one in self.types or one in OTHERS else None

    def own(self, function):
        """The type at which a function stands, whatever it is given."""
        return (self.named(function.type, *function.place()) or (function.type,))[:1]

    def field(self, of, name):
        """The type of a field of a value."""
        if of and of[0] == '()':
            return of[int(name) + 1] if name.isdigit() and int(name) + 1 < len(of) else None
        text = self.types.get(of[0], {}).get(name) if of else None
        return self.named(text, next(of[0][:k] for k in range(len(of[0]), 0, -1) if of[0][:k] in self.modules)) if text else None

    def typed(self, function, text, at):
        """The type of an expression that stands at a place of a function."""
        text = re.sub(r'\A(?:[&*\s]|mut\s)+|\s+\Z', '', text)
        atom = re.match(r'((?:\w+::)*\w+)(?:::<[^(]*?>)?\s*|(?=\()', text)
        if not atom:
            return None
        end = closing(text, atom.end()) if text[atom.end():][:1] in ('(', '{') else atom.end()
        inside, parts = text[atom.end() + 1:end - 1], (atom[1] or '').split('::')
        if not atom[1]:
            of = self.typed(function, inside, at)
        elif end > atom.end():
            of = self.made(function, parts, inside, text[atom.end()] == '(', at)
        else:
            of = self.local(function, parts[0], at) if len(parts) == 1 else self.known('::'.join(parts[:-1]), function)
        for step in iter(lambda: re.match(r'\s*(?:(\?)|(\[)|\.\s*(\w+)\s*(\()?)', text[end:]), None):
            start, end = end + step.end(), end + step.end()
            if step[2] or step[4]:
                end = closing(text, start - 1)
            if step[1]:
                of = of[1] if of and len(of) > 1 else None
            elif step[2]:
                of = of if '..' in text[start:end] else of[1] if of and of[0] == '[]' else None
            else:
                of = self.answered(function, of, step[3]) if step[4] else self.field(of, step[3])
        return of if end == len(text) else None

    def known(self, text, function):
        """The type of the crates that a text names, or none."""
        of = self.named(text, *function.place())
        return of if of and of[0] in self.types else None

    def made(self, function, parts, inside, is_call, at):
        """The type of what is made by a call by a path, or of a struct or a case with its fields."""
        if parts in (['Some'], ['Ok']):
            return 'Option' if parts == ['Some'] else 'Result', self.typed(function, inside, at), None
        one = self.item(self.path(parts, *function.place()), self.functions) if is_call else None
        if one:
            return self.named(self.functions[one].gives, *self.functions[one].place())
        case = self.known('::'.join(parts[:-1]), function)
        return case or self.known('::'.join(parts), function)

    def answered(self, function, of, name):
        """The type of what a method gives, called on a value of a type."""
        found = {self.named(it.gives, *it.place()) for it in map(self.functions.get, self.methods(function, name, of, True))}
        if found or of is None or len(of) == 1:
            return found.pop() if len(found) == 1 else None
        return {'iter': of, 'copied': of, 'enumerate': ('[]', ('()', ('usize',), of[1])), 'map_err': ('Result', of[1], None),
                'ok_or': ('Result', of[1], None), 'unwrap_or': of[1]}.get(name)

    def local(self, function, name, at):
        """The type of a name at a place of a function: as what is open there brings it, the last first, or as a parameter."""
        if name == 'self':
            return self.own(function)
        text, is_named = function.body, re.compile(rf'\b{name}\b')
        for found in reversed([*BINDS.finditer(text, 0, at)]):
            if found['closure'] is not None:
                if is_named.search(found['closure']) and at <= until(text, found.end(), ','):
                    return None
                continue
            stop, start, end = matched(text, found)
            said, pattern = '', arm(text, end + 1, at) if found[0] == 'match' else text[found.end():stop]
            if found[0] == 'let':
                colon = until(pattern.replace('::', '  '), 0, ':')
                pattern, said = pattern[:colon], pattern[colon + 1:]
            is_open = end < at <= until(text, found.start(), '') if found[0] == 'let' else end < at < closing(text, end)
            if is_open and is_named.search(pattern):
                of = self.named(said, *function.place()) if said else self.typed(function, text[start:end], found.start())
                if found[0] == 'for':
                    of = of[1] if of and of[0] == '[]' else None
                return self.bound(function, pattern, of).get(name)
        said = [it.partition(':') for it in apart(function.takes, '()[]{}<>')]
        return next((self.named(of, *function.place()) for word, _, of in said if word.split()[-1:] == [name]), None)

    def bound(self, function, pattern, of):
        """The names of a pattern, each with its type, where a value of a type is matched with it."""
        pattern = re.sub(r'\A(?:[&\s]|(?:mut|ref)\s)+|\s+\Z', '', pattern)
        shape = re.match(r'((?:\w+::)*\w+)?\s*([({])', pattern)
        if not shape:
            return {pattern: of}
        parts = apart(pattern[shape.end():closing(pattern, shape.end() - 1) - 1])
        if shape[1] in ('Some', 'Ok', 'Err'):
            at = 2 if shape[1] == 'Err' else 1
            held = [(it, of[at] if of and at < len(of) else None) for it in parts]
        else:
            of = self.named(shape[1], *function.place()) if shape[1] else of
            cut = [it.partition(':') for it in parts] if shape[2] == '{' else [(str(k), '', it) for k, it in enumerate(parts)]
            held = [(inner or name, self.field(of, name.strip())) for name, _, inner in cut]
        return {name: kind for it in held for name, kind in self.bound(function, *it).items()}
