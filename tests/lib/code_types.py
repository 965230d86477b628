"""The types of crates/*/src whose generated forms definitions name, and what functions state: for `tests/statement`.

A target in `Rattle.CRATE.specs.declared` is a type as it is written; in `.contracts` it is the value of a type, and in
`Rattle.CRATE.src` a type with all that is said of its value."""
from __future__ import annotations

import functools
import pathlib
import re
from collections.abc import Iterator

from definitions import BUILT_IN, CRATES, Item, Target, Unknown, resolved, scope_of
from paths import ROOT
from sources import past_ghost, past_group, words_of

# Types and traits that Rust has in scope everywhere.
GIVEN = set("Option Vec Result String Box Self Copy Clone Drop Sized Send Sync Fn FnMut FnOnce Into From".split())
GIVEN |= set("PartialEq Eq PartialOrd Ord Default Iterator IntoIterator Some None Ok Err AllocGlobal Eprint".split())
TYPE = re.compile(r"^(?:pub(?:\([^)]*\))? )?(struct|enum|trait|type) (\w+)(?:<([^;{(]*?)>)?", re.M)
TAKEN = re.compile(r"^(?:pub(?:\([^)]*\))? )?use ([^;]*);", re.M)
ATTRIBUTE = re.compile(r"^[ \t]*#\[[^\n]*\]\n", re.M)
VARIANT = re.compile(r"^    \w+(?=[,({ ]|$)", re.M)
IMPL = re.compile(r"^impl\b[^\n]*?\b(\w+)(?:<[^\n]*?>)? for (\w+)\b[^\n]*$", re.M)
GHOST = re.compile(r"^    ghost (?!use\b)", re.M)
# Names in capitals alone are constants.
NAMED_TYPE = re.compile(r"(?<![\w.])((?:\w+::)*)([A-Z](?:\w*[a-z]\w*)?)\b")
FUNCTION = re.compile(r"^(?:pub(?:\(crate\))? )?fn (\w+)\b.*?^\{", re.M | re.S)
CLAUSE = re.compile(r"\b(?:requires|ensures)(?: \w+)? (?=\{)|\bghost \w+(?: =|:) (?=\{)")
MEANT = re.compile(r"⟦([^⟧]*)⟧")


@functools.cache
def files_of(crate: str) -> list[pathlib.Path]:
    """Returns the code of a crate, without tests."""
    src = CRATES / crate / "src"
    return [it for it in sorted(src.rglob("*.rt")) if not {"tests", "tests.rt"} & set(it.relative_to(src).parts)]


@functools.cache
def text_of(path: pathlib.Path) -> str:
    """Returns the text of a file."""
    return path.read_text()


@functools.cache
def types_of(crate: str) -> dict[str, list[pathlib.Path]]:
    """Returns the types of a crate, each with the files that have one of this name."""
    found: dict[str, list[pathlib.Path]] = {}
    for path in files_of(crate):
        for it in TYPE.finditer(text_of(path)):
            found.setdefault(it[2], []).append(path)
    return found


@functools.cache
def crates() -> set[str]:
    """Returns the names of the crates."""
    return {it.name for it in CRATES.iterdir() if (it / "src").is_dir()}


def expanded(tree: str, before: str = "") -> Iterator[tuple[str, str]]:
    """Yields each name that a `use` of Rust takes, with its path."""
    depth, begin = 0, 0
    for at, it in enumerate(f"{tree},"):
        depth += (it == "{") - (it == "}")
        if it == "," and not depth:
            part, begin = tree[begin:at].strip(), at + 1
            head, brace, inner = part.partition("{")
            if brace:
                yield from expanded(inner.rstrip("} \n"), before + head.strip())
            elif part:
                path, _, alias = part.partition(" as ")
                yield alias or path.rpartition("::")[2], before + path


@functools.cache
def taken_by(path: pathlib.Path) -> dict[str, str]:
    """Returns the names that a file of code takes, with their paths."""
    return {name: way for it in TAKEN.findall(text_of(path)) for name, way in expanded(it)}


def type_named(name: str, way: str, path: pathlib.Path) -> pathlib.Path | None:
    """Returns the file of the type that a file names, after a path that may be empty; None if the type is no type of a
    crate."""
    own = path.relative_to(CRATES).parts[0]
    if not way and path in types_of(own).get(name, ()):
        return path
    way = way + name if way else taken_by(path).get(name, "")
    first, name = way.split("::")[0], way.rpartition("::")[2] or name
    if first not in {"crate", "self", "super", *crates()}:
        if first or name in GIVEN:
            return None
        raise Unknown(f"{path.relative_to(ROOT)}: {name} is no type that it takes")
    # A crate may pass on the type of another one. No two crates have types of the same name.
    at = own if first not in crates() else first
    found = types_of(at).get(name) or [it for crate in sorted(crates()) for it in types_of(crate).get(name, ())]
    if len(found) != 1:
        raise Unknown(f"{path.relative_to(ROOT)}: {name} is the name of {len(found)} types")
    return found[0]


def module_of(path: pathlib.Path, name: str, form: str) -> str:
    """Returns the name of the module with a form of a type."""
    crate, _, *rest = path.relative_to(CRATES).with_suffix("").parts
    return ".".join(("Rattle", crate, form, *rest, name))


def types_in(code: str, path: pathlib.Path, bound: set[str], is_whole: bool) -> Iterator[Target]:
    """Yields the types that a text of code names, but for the given names: whole, or by what their values are."""
    said = re.sub(r" ?:: ?", "::", " ".join(word for word, _ in words_of(code)))
    for way, name in NAMED_TYPE.findall(said):
        parts = [it for it in way.split("::") if it]
        if not way and name in bound or parts and (parts[0] in bound or parts[0] == "Self"):
            continue
        at = type_named(name, way, path)
        if at:
            form = "src" if is_whole else "specs.contracts" if models(at, name) else "specs.declared"
            yield Target(module_of(at, name, form), name)


def block_at(text: str, begin: int) -> str:
    """Returns the item of a text that begins at an index: to a line that is a brace, or that ends it by itself."""
    lines = text[begin:].split("\n")
    for number, line in enumerate(lines):
        if line == "}" or line.endswith(";") and line[:1] != " " or number == 0 and line.endswith("}"):
            return "\n".join(lines[: number + 1])
    return "\n".join(lines)


def comment_before(text: str, at: int) -> str:
    """Returns the lines of comments before an index, without attributes."""
    lines = []
    for line in reversed(text[:at].split("\n")[:-1]):
        if not line.startswith(("//", "#[", "#![")) or line.startswith("//!"):
            break
        lines += [line] if line.startswith("//") else []
    return "".join(f"{line}\n" for line in reversed(lines))


@functools.cache
def heads_of_impls(crate: str) -> dict[str, list[tuple[pathlib.Path, re.Match]]]:
    """Returns the heads of what a crate implements, by the name of the type."""
    found: dict[str, list[tuple[pathlib.Path, re.Match]]] = {}
    for path in files_of(crate):
        for it in IMPL.finditer(text_of(path)):
            found.setdefault(it[2], []).append((path, it))
    return found


def impls(path: pathlib.Path, name: str) -> Iterator[tuple[pathlib.Path, str, str]]:
    """Yields what the crate of a type implements for it and says of it: the file, the trait, and the text without its
    functions."""
    for at, it in heads_of_impls(path.relative_to(CRATES).parts[0]).get(name, ()):
        block = block_at(text_of(at), it.start())
        ghosts = [block[found.start() : past_ghost(block, found.end())] for found in GHOST.finditer(block)]
        if ghosts:
            yield at, it[1], it[0] + "\n" + "\n".join(ghosts) + "\n}"


@functools.cache
def models(path: pathlib.Path, name: str) -> list[tuple[pathlib.Path, str]]:
    """Returns what says of which kind the value of a type is, if its value is not made of its fields."""
    return [(at, text) for at, trait, text in impls(path, name) if trait == "Model"]


def clauses(text: str) -> str:
    """Returns what the clauses and ghost items of a text say."""
    said = (text[it.end() : past_group(text, it.end())] for it in CLAUSE.finditer(text))
    return "\n".join(MEANT.sub("", it) for it in said)


def named_in_clauses(said: str, path: pathlib.Path, bound: set[str]) -> dict[str, Target]:
    """Returns the types of code that clauses name by themselves, as in `Err Fault.Write`, but for the given names."""
    own = {}
    for it in set(re.findall(r"(?<![\w.])[A-Z]\w*[a-z]\w*", said)) - bound - BUILT_IN:
        at = type_named(it, "", path)
        own[it] = Target(module_of(at, it, "specs.declared") if at else "Rattle.std", it)
    return own


def declared(path: pathlib.Path, name: str, is_whole: bool) -> Item:
    """Returns a type as it is written, or with all that is said of its value."""
    text = text_of(path)
    head = next((it for it in TYPE.finditer(text) if it[2] == name), None)
    if not head:
        raise Unknown(f"{path.relative_to(ROOT)}: it has no type {name}")
    body = ATTRIBUTE.sub("", block_at(text, head.start()))
    bound = {name, *re.findall(r"\b[A-Z]\w*(?=\s*(?:[:,>]|$))", (head[3] or "").split(":")[0]), *generics(head[3])}
    inner = re.sub(r"^    type (\w+)", r"    type", body, flags=re.M) if head[1] == "trait" else body
    bound |= set(re.findall(r"^    type (\w+)", body, re.M))
    if head[1] == "enum":
        inner = VARIANT.sub("    ", inner)
    types = list(types_in(inner, path, bound, False))
    scope, said = scope_of(path.relative_to(ROOT), text).also(body), clauses(body)
    for at, trait, more in impls(path, name) if is_whole else ():
        scope = scope.also(text_of(at))
        body, said = f"{body}\n\n{more}", f"{said}\n{clauses(more)}"
        if any(trait in types_of(crate) for crate in crates()):
            types += types_in(trait, at, set(), True)
    own = named_in_clauses(said, path, bound | {*scope.names, *scope.modules})
    return Item(path.relative_to(ROOT), name, comment_before(text, head.start()) + body, said, scope, own, tuple(types))


def generics(text: str | None) -> set[str]:
    """Returns the type parameters of a type."""
    return {it.split(":")[0].strip().removeprefix("const ") for it in (text or "").split(",")}


def value(path: pathlib.Path, name: str) -> Item:
    """Returns what is said of the kind of a type's value."""
    [(at, text)] = models(path, name)
    found = re.search(r"    ghost Value = ", text)
    kind = text[found.start() : past_ghost(text, found.end())]
    impl = text.partition("\n")[0]
    body = f"// the value of `{name}`\n{impl}\n{kind}\n}}"
    scope = scope_of(at.relative_to(ROOT), text_of(at))
    return Item(at.relative_to(ROOT), f"{name} (value)", body, clauses(kind), scope, {})


@functools.cache
def code_item(target: Target, used_in: pathlib.Path) -> Item | None:
    """Returns the type of code, or its value, that a target is; None if it is none of these."""
    found = re.fullmatch(r"Rattle\.(\w+)\.(specs\.declared|specs\.contracts|src)\.([\w.]+)", resolved(target.module))
    if not found:
        return None
    crate, form, way = found.groups()
    *folders, file, name = way.partition(".TheVariants")[0].split(".")
    path = (CRATES / crate / "src").joinpath(*folders, f"{file}.rt")
    if not path.is_file():
        raise Unknown(f"{used_in}: there is no {path.relative_to(ROOT)}, of which it takes {target.name}")
    if form == "specs.contracts" and models(path, name):
        return value(path, name)
    item = declared(path, name, form == "src")
    if target.name not in (name, "the_row") and not re.search(rf"\b{target.name}\b", item.text):
        raise Unknown(f"{used_in}: {name} in {item.path} has no {target.name}")
    return item


def function(path: pathlib.Path, name: str) -> Item:
    """Returns what a function states: its comment, and its signature with its clauses."""
    text = text_of(path)
    found = next(it for it in FUNCTION.finditer(text) if it[1] == name)
    stated = found[0].rstrip("{").rstrip()
    bound = set(re.findall(r"\b[A-Z]\w*\b(?=[:,>])", stated.partition("fn ")[2].partition("(")[0]))
    code = f"{stated} " + " ".join(MEANT.findall(stated))
    types = tuple(types_in(code, path, bound, True))
    scope, said = scope_of(path.relative_to(ROOT), text), clauses(stated)
    own = named_in_clauses(said, path, bound | {*scope.names, *scope.modules})
    whole = comment_before(text, found.start()) + stated
    return Item(path.relative_to(ROOT), name, whole, said, scope, own, types)
