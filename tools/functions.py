"""Where the functions and constants of a crate stand in its sources, and how a check names the functions."""
import collections
import json
import os
import pathlib
import re
import subprocess
import sys

from toolchain import rt

# What stands from one octet to another: of a function the body, of a constant or a `use` the item. Owners are the
# modules, impls and traits around it, as the words of their heads.
Item = collections.namedtuple("Item", "kind owners name start end is_in_cycle", defaults=(False,))


def tokens_of(files):
    """Of each file the tokens of its code, without clauses, as (text, start, end)."""
    ran = subprocess.run([rt.rtlib.RATTLE, "fmt", "--tokens", *files], capture_output=True, text=True)
    if ran.returncode:
        sys.exit(f"the prover cannot read this: {ran.stderr.strip()}")
    for rows in re.split(r"(?m)^file \d+\n", ran.stdout)[1:]:
        found, in_clause = [], False
        for row in rows.splitlines():
            _, start, end, kind, text = row.split(" ", 4)
            if kind in ("Head", "End"):
                in_clause = kind == "Head" and json.loads(text) == "{"
            elif kind == "Code" and not in_clause:
                found.append((json.loads(text), int(start), int(end)))
        yield found


def end_of_group(tokens, at):
    """Behind the bracket that closes the one here."""
    depth = 0
    for at in range(at, len(tokens)):
        depth += (tokens[at][0] in "([{") - (tokens[at][0] in ")]}")
        if depth == 0:
            return at + 1
    return len(tokens)


def next_of(tokens, at, words):
    """Where the next of these words stands outside of brackets."""
    while at < len(tokens) and tokens[at][0] not in words:
        at = end_of_group(tokens, at) if tokens[at][0] in "([{" else at + 1
    return at


def items_of(tokens, at=0, end=None, owners=()):
    """The functions, constants and `use` items, and where types and traits are declared."""
    end, is_in_cycle = len(tokens) if end is None else end, False
    while at < end:
        word, start, _ = tokens[at]
        to = at + 1
        if word == "#" and tokens[to][0] == "[":
            to = end_of_group(tokens, to)
            is_in_cycle = is_in_cycle or any(it[0] == "cycle" for it in tokens[at:to])
        elif word in ("fn", "mod", "impl", "trait"):
            brace = next_of(tokens, at, "{;")
            to = end_of_group(tokens, brace) if tokens[brace][0] == "{" else brace + 1
            head = tuple(it[0] for it in tokens[at:brace])
            if word == "trait":
                yield Item("type", owners, head[1], start, start)
            if word == "fn" and to > brace + 1:
                yield Item("fn", owners, head[1], tokens[brace][1], tokens[to - 1][2], is_in_cycle)
            elif word != "fn":
                yield from items_of(tokens, brace + 1, to - 1, (*owners, head))
            is_in_cycle = False
        elif word == "use" or word in ("const", "static") and tokens[to][0] not in ("fn", "unsafe"):
            to = next_of(tokens, at, ";") + 1
            yield Item("use" if word == "use" else "const", owners, tokens[at + 1][0], start, tokens[to - 1][2])
        elif word in ("struct", "enum", "union"):
            yield Item("type", owners, tokens[to][0], start, start)
            to = next_of(tokens, to, "({;")
        elif word in ("(", "[", "{"):
            to = end_of_group(tokens, at)
        at = to


def by_brackets(words):
    """The words outside of angle brackets, and those inside."""
    depth, outside, inside = 0, [], []
    for before, word in zip(["", *words], words):
        is_arrow = before == "-" and word == ">"
        depth -= word == ">" and not is_arrow
        if word not in "<>":
            (inside if depth else outside).append(word)
        depth += word == "<"
    return outside, inside


def in_capitals(words):
    names = [it for it in words if re.fullmatch(r"[A-Za-z_]\w*", it) and it not in ("for", "dyn", "mut", "where")]
    return [it[:1].upper() + it[1:] for it in names]


def owner_name(head):
    """How a check names an impl or a trait: how the name begins, how it ends, and whether it is an impl of a trait."""
    word, *words = head
    if word == "trait":
        return words[0], "", False
    if words[0] == "<":
        depth = 0
        for at, word in enumerate(words):
            depth += (word == "<") - (word == ">" and words[at - 1] != "-")
            if depth == 0:
                break
        words = words[at + 1 :]
    words = words[: words.index("where")] if "where" in words else words
    is_of_trait = "for" in by_brackets(words)[0]
    of_trait, of_type = (words[: words.index("for")], words[words.index("for") + 1 :]) if is_of_trait else ([], words)
    (trait, given), (own, _) = by_brackets(of_trait), by_brackets(of_type)
    return "".join(it for words in (own, trait) for it in in_capitals(words)[-1:]), "".join(in_capitals(given)), is_of_trait


def module_of(path):
    """The module of a file below a crate's folder."""
    parts = pathlib.Path(path).with_suffix("").parts[1:]
    return list(parts[:-1] if parts[-1] in ("lib", "main", "mod") else parts)


class Source:
    """What stands in the sources of a crate. The names of its functions are those of its library; a program has none."""

    def __init__(self, crate):
        self.crate = crate
        files = sorted(str(it) for it in pathlib.Path(crate.folder, "src").rglob("*.rt"))
        self.tokens = {os.path.relpath(file, crate.folder): it for file, it in zip(files, tokens_of(files))}
        self.items = {path: list(items_of(it)) for path, it in self.tokens.items()}
        library = pathlib.Path(crate.rlib, "toolchain", "mir.json")
        names = [it[0] for it in json.loads(library.read_text())] if library.is_file() else []
        self.names = {it for it in names if it.startswith(f"{crate.name}::")}

    def at(self, path, start, end):
        """The function or constant in which all of a stretch stands, or None."""
        items = [it for it in self.items.get(path, []) if it.kind in ("fn", "const") and it.start <= start and end <= it.end]
        return items[0] if items else None

    def name_of(self, path, item):
        """The name of a function as the lines of a check have it, or None if that is not certain."""
        modules = module_of(path) + [head[1] for head in item.owners if head[0] == "mod"]
        heads = [it for it in item.owners if it[0] != "mod"]
        if not heads:
            name = "::".join([self.crate.name, *modules, item.name])
            return name if name in self.names or not self.names else None
        first, last, is_of_trait = owner_name(heads[-1])
        if not self.names:
            places = [module_of(at) for at, items in self.items.items() for it in items if (it.kind, it.name) == ("type", first)]
            return "::".join([self.crate.name, *places[0], first, item.name]) if len(places) == 1 and not is_of_trait else None
        # The module is the one that declares the type, which is near that of the impl.
        ranks = collections.defaultdict(list)
        for name in self.names:
            *module, owner, function = name.split("::")
            fits = owner.startswith(first) if is_of_trait else owner == first or owner.startswith(f"{first}+")
            if function == item.name and fits:
                ranks[owner == first + last, len(os.path.commonprefix([module[1:], modules]))].append(name)
        best = ranks[max(ranks)] if ranks else []
        return best[0] if len(best) == 1 else None

    def users_of(self, constant):
        """The functions that name a constant, or None if something else does, as a type, or one has no certain name."""
        found = set()
        for path, items in self.items.items():
            for start in (start for word, start, _ in self.tokens[path] if word == constant):
                around = [it for it in items if it.start <= start < it.end]
                if not around or any(it.kind == "const" and it.name != constant for it in around):
                    return None
                found |= {self.name_of(path, it) for it in around if it.kind == "fn"}
        return sorted(found) if found and all(found) else None
