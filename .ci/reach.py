"""What clauses reach: the definitions that they name, those that these name, and so on; with types, and with words of the toolchain.

A clause names by the imports of its file, and a definition by the imports of its own. A type of Rust is followed by its fields, or by what contracts
see in their place (Value and view of its Model) and the types without data among its fields, as the rule of a queue; and by what its impls say.
A trait is followed by what it asks and promises. Behind `self` stands the type of a method.
"""
import re
from dataclasses import dataclass, field

import documents
from documents import SPAN

SIGN = r"[^\w\s(){}\[\],;.'`\"◌]+"
TOKEN = re.compile(rf"(?<![\w.])[^\W\d][\w'?-]*(?:\.\w[\w'?-]*)*|\[\]|{SIGN}")
START = re.compile(r"^(?: *(?:abbrev|unfoldable) (?:pub )?|pub )(?:record |data |ruleset )?([^\s({:]+)|^([^\s({:=]+)(?= : )", re.M)
IMPORT = re.compile(r'^ *(?:pub )?(ghost )?use ([\w.]+?)(?:\.\{(.*?)\}| as (\w+));?$', re.M)
RUST_USE = re.compile(r'^ *(pub )?use ([\w:]+?)(?:::\{([^}]*)\}|::(\w+));', re.M)
HEAD = re.compile(r'^(?:pub |pub\(crate\) )?(struct|enum|trait|type|const(?! fn\b)) (\w+)(.*)$', re.M)
IMPL = re.compile(r'^impl(?:<[^{]*?>)? (\w+)(?:<.*?>)? for (\w+)', re.M)
GHOST = re.compile(r'^ +ghost (\w+) = \{(.*?)\};$', re.M | re.S)
DATALESS = re.compile(r'(?:<[^>]*>)?[\s,]*(?:(?:pub )?PhantomData<.*?>[\s,]*)*')
# Of a Model what contracts see; and traits of which nothing is believed: a Model's invariant is proved, and From is told where it is called.
SEEN = 'Value', 'view'
UNSEEN = 'Model', 'From'


@dataclass
class Text:
    """A file of specs/ or src/: its crate and place, and what its words stand for."""
    crate: str
    place: str
    words: dict
    aliases: dict
    rust: dict = field(default_factory=dict)
    definitions: dict = field(default_factory=dict)
    owners: dict = field(default_factory=dict)


@dataclass
class Type:
    """A type of Rust, a trait, an alias or a constant: which of these, its file, its own text, and what impls say of it, by trait and name."""
    kind: str
    here: Text
    own: str
    said: list = field(default_factory=list)

    def is_dataless(self):
        """It has no data, and is there for what its impls say."""
        return self.kind == 'struct' and bool(DATALESS.fullmatch(self.own))


@dataclass
class Sources:
    """All texts of the repository: definitions by crate and place, types of Rust by crate, files of src/, what crates hand on, what each item names,
    and what each row of a table reaches."""
    specs: dict = field(default_factory=dict)
    types: dict = field(default_factory=dict)
    files: dict = field(default_factory=dict)
    exports: dict = field(default_factory=dict)
    named: dict = field(default_factory=dict)
    reached: dict = field(default_factory=dict)


# ---- reading


def imports_of(text):
    """The imported words and aliases of definitions, each with the module that it is of."""
    words, aliases = {}, {}
    for _, module, names, alias in IMPORT.findall(text):
        if alias:
            aliases[alias] = module
        for name, _, own in (name.strip().partition(' as ') for name in (names or '').split(',')):
            words.update({part: (module, name) for part in (own or name).split('◌') if part})
    return words, aliases


def rust_imports_of(text, crate):
    """The imported names of Rust, each with the crate that it is of, and those that are handed on."""
    names, exports = {}, {}
    for shown, path, group, single in RUST_USE.findall(text):
        root = path.split('::')[0]
        for name in re.findall(r'\w+', group or single):
            names[name] = crate if root in ('crate', 'self', 'super') else root
            exports.update({name: root} if shown else {})
    return names, exports


def bare(text):
    """The text without comments, imports and blank lines."""
    lines = (re.sub(r'--.*', '', line).rstrip() for line in text.splitlines())
    return '\n'.join(line for line in lines if line and not re.match(r'(pub )?(use|mod) |unfolding ', line))


def read_spec(file, crate):
    """A file of specs/, cut into definitions: a head, and all lines up to the next head."""
    text = file.read_text()
    words, aliases = imports_of(text)
    result = Text(crate.name, '.'.join(file.relative_to(crate.folder / 'specs').with_suffix('').parts), words, aliases)
    body = bare(text)
    heads = list(START.finditer(body))
    for head, after in zip(heads, heads[1:] + [None]):
        own = body[head.start():after.start() if after else len(body)].rstrip('\n')
        name, *parts = re.findall(r'^  pub (\S+)(?= :)', own, re.M) if head[1] == 'mutual' else [(head[1] or head[2]).strip('◌')]
        result.definitions[name] = own
        for part in parts + re.findall(r'^ +([A-Z]\w*)(?= :)', own, re.M):
            result.owners[part] = name
    return result


def block_behind(text, at):
    """The text between the next braces."""
    start = text.find('{', at)
    return documents.braced(text, start) if start >= 0 else ''


def unnamed(text):
    """Fields, parameters and clauses without their names."""
    return re.sub(r'\b(?:fn|ensures|requires) \w+|\b\w+:(?!:)', '', text)


def own_text(text, match):
    """The fields of a type, what a trait asks and promises, or what an alias stands for."""
    ends = match[3].rstrip().endswith(';')
    return unnamed(match[3].strip(' ;') if ends else block_behind(text, match.end(2)))


def read_types(sources, file, crate):
    """The types of a file of src/, each with its own text; and what the file's impls say of types."""
    text = re.sub(r'//.*', '', file.read_text())
    words, aliases = imports_of(text)
    names, exports = rust_imports_of(text, crate.name)
    here = sources.files[file] = Text(crate.name, file.stem, words, aliases, names)
    if file.stem in ('lib', 'main'):
        sources.exports.setdefault(crate.name, {}).update(exports)
    for match in HEAD.finditer(text):
        sources.types[crate.name, match[2]] = Type(match[1], here, own_text(text, match))
    return [(match[2], match[1], here, name, said) for match in IMPL.finditer(text) for name, said in GHOST.findall(block_behind(text, match.end()))]


def read_sources(repository):
    """All texts of the repository."""
    sources, said = Sources(), []
    for crate in repository.values():
        for file in sorted(crate.folder.glob('specs/**/*.antt')):
            spec = read_spec(file, crate)
            sources.specs[crate.name, spec.place] = spec
        for file in sorted(crate.folder.glob('src/**/*.rt')):
            said += read_types(sources, file, crate)
    for name, trait, here, member, piece in said:
        if (here.crate, name) in sources.types:
            sources.types[here.crate, name].said.append((trait, member, here, piece))
    return sources


# ---- what a word is


def meaning(sources, text, token):
    """What a word of a text is: a definition, a type or a word of the toolchain; None for all else."""
    first, *rest = token.split('.')
    if first in text.aliases and rest:
        return at_module(sources, text.aliases[first], rest[0])
    if first in text.definitions:
        return 'definition', text.crate, text.place, first
    if first in text.words:
        return at_module(sources, *text.words[first])
    if first in text.owners:
        return 'definition', text.crate, text.place, text.owners[first]
    return of_rust(sources, text.rust.get(first, text.crate), first)


def of_rust(sources, crate, name):
    """The type of Rust that a crate has or hands on."""
    while (crate, name) not in sources.types and name in sources.exports.get(crate, {}) and sources.exports[crate][name] in sources.exports:
        crate = sources.exports[crate][name]
    return ('type', crate, name) if (crate, name) in sources.types else None


def at_module(sources, module, name):
    """What a name is that is imported from a module, as Rattle.alw_msg.specs.Events."""
    parts = module.split('.')
    crate, path = parts[1:2], parts[3:]
    if parts[0] != 'Rattle' or crate[0] not in sources.exports:
        return 'word', module.removeprefix('Rattle.'), name
    if path[:1] == ['declared']:
        owner = next((part for part in reversed(path) if (crate[0], part) in sources.types), name)
        return of_rust(sources, crate[0], owner)
    name = name.strip('◌')
    while path:
        spec = sources.specs.get((crate[0], '.'.join(path)))
        if spec:
            owner = name if name in spec.definitions else spec.owners.get(name)
            return ('definition', crate[0], spec.place, owner) if owner else None
        path = path[:-1]
    return None


BINDERS = [
    re.compile(r'λ ([^.]*?)\.'),
    re.compile(r'[({]((?:[\w\'-]+ )+):'),
    re.compile(r'\blet ([^=]*?) ='),
    re.compile(r'[{;] *([\w\'-]+) ='),
    re.compile(r'^ +(?:pub )?([\w\'-]+) :', re.M),
]


def words_of(piece):
    """The words of a piece that don't stand for its own variables and fields, equation by equation."""
    found = set()
    for equation in re.split(r'\n(?=\S)', piece):
        head = re.match(r"(?:(?! : )[^=])*? =\s", equation)
        bound = set(re.findall(r"\b[a-z_][\w'-]*", head[0])[1:]) if head else set()
        for binder in BINDERS:
            for match in binder.finditer(equation):
                bound |= set(re.findall(r"[a-z_][\w'-]*", match[1].split(' : ')[0]))
        found |= {token for token in TOKEN.findall(equation) if token.partition('.')[0] not in bound}
    return found


# ---- what is reached


def reached_from(sources, starts):
    """All that these texts reach: definitions, types and words of the toolchain, from pairs of a text with its imports and a piece of it."""
    found, left = set(), named_in(sources, starts)
    while left:
        found |= left
        left = set().union(*(named_by(sources, item) for item in left)) - found
    return found


def named_by(sources, item):
    """What a definition or a type names itself."""
    if item not in sources.named:
        sources.named[item] = named_in(sources, parts_of(sources, item))
    return sources.named[item]


def named_in(sources, parts):
    """What pieces name, each by the imports of its file."""
    return {meaning(sources, text, token) for text, piece in parts for token in words_of(piece)} - {None}


def parts_of(sources, item):
    """The pieces that are behind a definition or a type, each with its file."""
    if item[0] == 'definition':
        spec = sources.specs[item[1:3]]
        return [(spec, spec.definitions[item[3]])]
    return parts_of_type(sources, sources.types[item[1:]]) if item[0] == 'type' else []


def parts_of_type(sources, declared):
    """What is behind a type: its fields, or what contracts see of it with the rules among its fields; and what impls say of it."""
    seen = [(here, piece) for trait, name, here, piece in declared.said if trait == 'Model' and name in SEEN]
    others = [(here, piece) for trait, name, here, piece in declared.said if trait not in UNSEEN]
    return (seen + rules_of(sources, declared) if seen else [(declared.here, declared.own)]) + others


def rules_of(sources, declared):
    """The types without data that a type's fields name, also by an alias: what impls say of these is what is known of the fields."""
    items = [meaning(sources, declared.here, token) for token in re.findall(r'\w+', declared.own)]
    types = [(item[2], sources.types[item[1:]]) for item in items if item and item[0] == 'type']
    return [(each.here, name) for name, each in types if each.is_dataless()] + [part for _, each in types if each.kind == 'type' for part in rules_of(sources, each)]


def clauses_of(row, crates):
    """The functions of a row's second cell, each with the clauses that it names, or with all where it names none."""
    for part in re.sub(r'\(.*?\)', '', row.cells[1]).split(';'):
        names, called = SPAN.findall(part), []
        for name in names:
            called += documents.named(crates, name, called)
        for function in called:
            named = [c for c in function.clauses if c.name in names and c.kind == 'ensures' and c.name != function.name]
            yield function, [c for c in function.clauses if not named or c in named or c.kind == 'requires']


def starts_of(sources, function, clauses):
    """Clauses without the function's parameters, and its signature without their names."""
    here, owner = sources.files[function.file], function.path.rpartition('::')[0]
    parameters = '|'.join({'self', 'result', *re.findall(r'\b(\w+):(?!:)', function.signature)})
    own = re.compile(rf"(?<![\w.'-])(?:{parameters})(?![\w'-])(?:\.\w+)*")
    signature = unnamed(re.sub(r'\b[Ss]elf\b', owner, function.signature) if owner else function.signature)
    return [(here, own.sub('', clause.text)) for clause in clauses] + [(here, signature)]


def reach_of(sources, crate, row):
    """What a row of a crate's table reaches."""
    key = crate.name, row.cells[1]
    if key not in sources.reached:
        starts = [start for function, clauses in clauses_of(row, [crate]) for start in starts_of(sources, function, clauses)]
        sources.reached[key] = reached_from(sources, starts)
    return sources.reached[key]


def lines_of(sources, items):
    """The lines of definitions."""
    return sum(sources.specs[item[1:3]].definitions[item[3]].count('\n') + 1 for item in items if item[0] == 'definition')


def of_kind(items, kind):
    """The items that are definitions, types or words."""
    return sorted(item[1:] for item in items if item[0] == kind)


def lost_imports(sources):
    """What a file imports from the repository that was read as no definition and no type: a file of specs/ or src/, the module and the name."""
    for text in [*sources.specs.values(), *sources.files.values()]:
        for module, name in sorted(set(text.words.values())):
            if at_module(sources, module, name) is None:
                yield text, module, name
