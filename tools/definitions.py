"""The definitions in specs/ of all crates: which stand where, and which words each of them needs.

A definition is a block of a file: a function with its equations, a record or a data type, and the comment above it. A
type that the code declares (`specs.declared` in an import) is a definition too: its enum or struct in src/.

Words are followed by the imports of their file. Left out are words of the library `std`, fields after a dot, and names
that are bound in the definition itself: parameters, patterns, fields.

A type of values is followed only as far as it is looked at. If no definition that is needed reads or gives a field of a
record, the type of this field is not needed: whatever it is, the statement says the same. So it is with what a constructor
carries that no equation uses.
"""
import functools
import re
import typing

import repository
from repository import CRATES, TOP

WORD = re.compile(r"(?<![\w.'◌])(?:(?P<of>[^\W\d]\w*)\.)?(?P<name>[^\W\d][\w'-]*[\w']|[^\W\d])")
HEAD = re.compile(r"(?:(?:abbrev|unfoldable)\s+)?pub\s+(?:(?:record|data)\s+)?(\S+)")
IMPORT = re.compile(r"(?ms)^(pub )?use\s+(Rattle\.[\w.]+?)(?:\.\{(.*?)\}|\s+as\s+(\w+))?\s*$")
CONSTRUCTOR = re.compile(r"^  (?:pub )?([\w']+)(?: [\w' ]+)? :", re.M)
SYNTAX = set("abbrev unfoldable pub record data where if then else let in Type infixr infixl with λ".split())
DECLARED = ".specs.declared."

# What is promised of calls and of what terminals typed, as the contract of a network names it, and in how many lines it
# has to be said.
PROMISE = {"PromisesCalls": 420}


class Definition(typing.NamedTuple):
    """A block of a file, and the names that it makes known."""

    file: object
    place: int
    name: str
    text: str
    makes: frozenset = frozenset()  # the constructors of a data type, or the variants of an enum

    def lines(self):
        """The lines that are no comment."""
        mark = "//" if self.file.suffix == ".rt" else "--"
        return [it for it in self.text.split("\n") if it.strip() and not it.lstrip().startswith(mark)]

    def key(self):
        return self.file, self.name


# The name of a field that a record is given, as in `record { node = 3 }`.
LABEL = re.compile(r"((?:record [^{};]*\{|;)\s*)[\w']+(?= =)")


def without_comments(text):
    return re.sub(r'--.*|"[^"\n]*"', "", text)


@functools.lru_cache(maxsize=None)
def blocks(file):
    """The definitions of a file of specs/, by the names that they make known."""
    found = {}
    text = IMPORT.sub("", file.read_text())
    for place, part in enumerate(re.split(r"\n\s*\n", text)):
        lines = [it for it in part.strip("\n").split("\n") if not it.startswith("-- ----") and not re.match("infix[lr] ", it)]
        heads = [it for it in lines if HEAD.match(it) and not it.startswith(("pub use", "pub mod"))]
        if not heads:
            continue
        text = "\n".join(lines)
        name = HEAD.match(heads[0])[1]
        is_data = re.match(r"pub data ", heads[0])
        makes = frozenset(CONSTRUCTOR.findall(text)) if is_data else frozenset()
        definition = Definition(file, place, name, text, makes)
        for it in (name, *makes):
            found.setdefault(it, definition)
    return found


@functools.lru_cache(maxsize=None)
def imports(file):
    """What a file imports: names with the module and the name there, and other names of modules."""
    names, modules, handed_on = {}, {}, []
    for is_public, module, listed, other in IMPORT.findall(without_comments(file.read_text())):
        if other:
            modules[other] = module
        for item in re.findall(r"[^\s,]+(?:\s+as\s+[^\s,]+)?", listed):
            own, _, renamed = item.partition(" as ")
            names[renamed.strip() or own] = (module, own)
            if is_public:
                handed_on.append(renamed.strip() or own)
        if is_public and not listed and not other:
            modules[module.split(".")[-1]] = module
    return names, modules, frozenset(handed_on)


def file_of(module):
    """The file of specs/ that a module is, if it is one of the repository's."""
    _, crate, *path = module.split(".")
    file = CRATES.joinpath(crate, *path).with_suffix(".antt")
    return file if path[:1] == ["specs"] and file.exists() else None


@functools.lru_cache(maxsize=None)
def in_code(crate, name):
    """The enum or struct of this name in the code of a crate."""
    for file in sorted((CRATES / crate / "src").rglob("*.rt")):
        text = file.read_text()
        found = re.search(rf"(?ms)((?:^ *///?[^\n]*\n)*)(?:^#\[[^\n]*\n)*^((?:pub(?:\(\w+\))? )?"
                          rf"(?:(?:enum|struct) {name}\b[^;{{]*\{{.*?^\}}|struct {name}\b[^\n{{]*;))", text)
        if found:
            makes = re.findall(r"(?m)^    (\w+)\b", found[2]) if "enum" in found[2].partition("{")[0] else []
            return Definition(file, found.start(), name, found[1] + found[2], frozenset(makes))
    return None


@functools.lru_cache(maxsize=None)
def find(module, name):
    """The definition that a module of the repository has under a name."""
    if DECLARED in module:
        crate = module.split(".")[1]
        path = [it for it in module.split(".") if it != "TheVariants"]
        return in_code(crate, path[-1])
    file = file_of(module)
    if file is None:
        return constructor(module, name)
    if name in blocks(file):
        return blocks(file)[name]
    names, _, handed_on = imports(file)
    return find(*names[name]) if name in handed_on else None


def constructor(module, name):
    """The data type that a module is named by, if it has this constructor."""
    above, _, own = module.rpartition(".")
    file = file_of(above) if above.count(".") > 1 else None
    definition = blocks(file).get(own) if file else None
    return definition if is_constructor(definition, name) else None


def bound(text):
    """The names that a definition binds: fields, parameters, and what stands behind λ and let."""
    found = set(re.findall(r"(?m)^  (?:pub )?([\w']+)(?= [\w' ]*:| :)", text))
    for names in re.findall(r"[({]([\w' ]+) :", text):
        found.update(names.split())
    for names in re.findall(r"λ ((?:[\w'_]+ ?)+)\.", text):
        found.update(names.split())
    found.update(re.findall(r"\blet ([\w']+)", text))
    return found


def patterns(definition, known, names):
    """The names that the left sides of equations bind: what is no constructor, nor one that is imported by another name."""
    found = set()
    for line in re.findall(rf"(?m)^{re.escape(definition.name)}(?=[ =])(.*?) =(?: |$)", definition.text):
        for word in WORD.finditer(line):
            name = word["name"]
            if not word["of"] and not is_constructor(known(name), names.get(name, ("", name))[1]):
                found.add(name)
    return found


def is_constructor(definition, name):
    return definition is not None and name in definition.makes


def needs(definition, looked):
    """The definitions that a definition needs, where these names of fields and constructors are looked at."""
    parts = parts_of(definition)
    if parts is None:
        return named_in(definition)
    found = []
    for name, part in parts:
        types = named_in(definition, part)
        if name in looked or not all(is_type(it) for it in types):
            found += [it for it in types if it not in found]
    return tuple(found)


# A record or a data type without parameters, and one of its fields or constructors with what it has.
OF_VALUES = re.compile(r"(?m)^pub (record|data) \S+ : Type 0 where$")
PART = re.compile(r"(?ms)^  (?:pub )?([\w']+)((?: [\w']+)*) :(.*?)(?=^  (?:pub )?[\w']+(?: [\w']+)* :|\Z)")


@functools.lru_cache(maxsize=None)
def parts_of(definition):
    """The fields of a type of values, or its constructors, each with its type; of anything else nothing."""
    if definition.file.suffix == ".rt":
        fields = re.findall(r"(?m)^    (?:pub(?:\(\w+\))? )?(\w+): ([^\n]*),$", definition.text)
        return tuple(fields) if re.search(r"(?m)^(?:pub(?:\(\w+\))? )?struct ", definition.text) else None
    text = without_comments(definition.text)
    if not OF_VALUES.search(text):
        return None
    return tuple((name, part) for first, others, part in PART.findall(text) for name in (first, *others.split()))


def is_type(definition):
    """Whether it is a type of values, and no statement."""
    text = without_comments(definition.text)
    return definition.file.suffix == ".rt" or bool(OF_VALUES.search(text) or re.search(r"(?m)^abbrev pub \S+ : Type 0$", text))


@functools.lru_cache(maxsize=None)
def looked_at(definition):
    """The fields that a definition reads or gives, and the constructors of which it uses what they carry."""
    if definition.file.suffix == ".rt" or parts_of(definition) is not None:
        return frozenset()
    text = without_comments(definition.text)
    found = set(re.findall(r"\.([\w']+)", text)) | set(re.findall(r"[{;]\s*([\w']+) =", text))
    first, *equations = re.split(rf"(?m)^{re.escape(definition.name)}(?=[ =])", text)
    found.update(it["name"] for it in WORD.finditer(first))
    for equation in equations:
        left, _, right = equation.partition(" =")
        used = {name for it in WORD.finditer(right) for name in (it["of"], it["name"])}
        found |= used
        for name, rest in re.findall(r"\((?:\w+\.)?«?([\w']+)»?([^()]*\(?)", left):
            if "(" in rest or used & set(rest.split()):
                found.add(name)
    return frozenset(found)


@functools.lru_cache(maxsize=None)
def named_in(definition, part=None):
    """The definitions that a definition names, or one part of it, without itself."""
    if definition.file.suffix == ".rt":
        return in_types(definition, part)
    names, modules, _ = imports(definition.file)
    own = blocks(definition.file)

    def known(name):
        return own[name] if name in own else find(*names[name]) if name in names else None

    text = LABEL.sub(r"\1", without_comments(definition.text))
    locals_ = bound(text) | patterns(definition, known, names)
    if part is not None:
        text = part
    operators = [known(it) for it in (*own, *names) if "◌" in it and f" {it.strip('◌')} " in text]
    found = [it for it in operators if it is not None and it.key() != definition.key()]
    for word in WORD.finditer(text):
        of, name = word["of"], word["name"]
        if of in modules:
            it = find(modules[of], name)
        elif of:
            it = None if of in locals_ else known(of)
        else:
            it = None if name in SYNTAX or name in locals_ else known(name)
        if it is not None and it.key() != definition.key() and it not in found:
            found.append(it)
    return tuple(found)


def in_types(definition, part):
    """The types of its own crate that an enum or a struct of the code names, or a part of it."""
    crate = definition.file.relative_to(CRATES).parts[0]
    body = part or re.sub(r"(?m)^\s*///?.*$", "", definition.text).partition("{")[2]
    names = [it for it in re.findall(r"\b[A-Z]\w*", body) if it not in definition.makes]
    found = [in_code(crate, it) for it in dict.fromkeys(names)]
    return tuple(it for it in found if it is not None and it.key() != definition.key())


def named(name):
    """The definition of a name: a name that stands in two files is given with its file, as `Match.antt:Match`."""
    file, _, alone = name.rpartition(":")
    found = {it.key(): it for path in sorted(CRATES.glob("*/specs/**/*.antt")) if str(path).endswith(file)
             for it in blocks(path).values() if it.name == alone}
    return list(found.values())


def closure(roots, looked):
    """These definitions and all that they need, where these names of fields and constructors are looked at."""
    whole = {}

    def visit(definition):
        if definition.key() not in whole:
            whole[definition.key()] = definition
            for it in needs(definition, looked):
                visit(it)

    for root in roots:
        visit(root)
    return whole


def below(roots):
    """These definitions and all that they need, lowest first: crates in their order, and in a crate what is needed before
    what needs it, file by file as far as that goes."""
    looked, whole = None, closure(roots, frozenset())
    while looked != (now := frozenset().union(*map(looked_at, whole.values()))):
        looked, whole = now, closure(roots, now)
    order = {crate: place for place, crate in enumerate(repository.crates())}
    left = sorted(whole.values(), key=lambda it: (order[it.file.relative_to(CRATES).parts[0]], str(it.file), it.place))
    done, sequence = set(), []
    while left:
        free = [it for it in left if all(other.key() in done for other in needs(it, looked))] or left[:1]
        last = sequence[-1].file if sequence else None
        it = next((it for it in free if it.file == last), free[0])
        left.remove(it)
        done.add(it.key())
        sequence.append(it)
    return sequence


def counted(sequence):
    """How many definitions, lines and files these are."""
    return len(sequence), sum(len(it.lines()) for it in sequence), len({it.file for it in sequence})


def shown(sequence):
    """The text of definitions, with the file above those that stand in it, and below each the types that it names and
    that nothing looks into."""
    last, keys = None, {it.key() for it in sequence}
    for it in sequence:
        if it.file != last:
            yield f"== {it.file.relative_to(TOP)}"
            yield ""
        last = it.file
        yield it.text
        others = [other.name for other in named_in(it) if other.key() not in keys]
        if others:
            yield f"-- nothing here looks into {', '.join(others)}"
        yield ""
