"""The definitions of crates/*/specs, and what each of them names: for `tests/statement`."""
from __future__ import annotations

import dataclasses
import functools
import pathlib
import re
from collections.abc import Iterator

from paths import ROOT

CRATES = ROOT / "crates"
# How the paths of the kit's libraries begin.
KIT = re.compile(r"(?:mathlib|base|Rattle\.(?:std|core|clap|hex|byteorder))\.")
USES = re.compile(r"^[ \t]*(?:pub |ghost )*use (?=Rattle\b|mathlib\b|base\b)", re.M)
USE = re.compile(r"[ \t]*(?:pub |ghost )*use ([\w.]+?)(?:\.\{([^}]*)\}| as (\w+))?;?[ \t]*$", re.M)
PASSED_ON = re.compile(r"^pub use ([\w.]+)(?: as (\w+))?$", re.M)
HEAD = re.compile(r"(?:abbrev|unfoldable) (?:pub )?(\S+) :(?: |$)|(?:pub )?(?:record|data) (\S+)")
LEMMA = re.compile(r"(?:pub )?(\S+) :(?: |$)")
CONSTRUCTORS = re.compile(r"^  ((?:[^\s(){}]+ )+):(?: |$)", re.M)
COMMENT = re.compile(r"(?<!\S)--.*$", re.M)
TEXT = re.compile(r'"[^"\n]*"')
# What has a name and names nothing: a field of a record that is given, or bound variables.
FIELD = re.compile(r"(?<=[{;])(\s*)[^\s(){};=]+\s+=(?=\s)")
OWN_FIELD = re.compile(r"^  (?:pub )?[^\s(){}]+ :(?= |$)", re.M)
BOUND = re.compile(r"(?<=[({])(?:[^\s(){}:,;]+ )+:(?=\s)")
# Where a clause begins.
CLAUSES = re.compile(r"\n(?=\S)")
WORD = re.compile(r"[^\s(){}\[\];,]+|\[\]")
# What has to be in scope, but for what is built in: a single capital is a type parameter.
CAPITAL, BUILT_IN = re.compile(r"[A-Z]\w*[a-z]"), {"Type", "Unit", "Self"}


class Unknown(Exception):
    """A name that is used and not found, with the file that uses it."""


@dataclasses.dataclass(frozen=True)
class Target:
    """What a name in a text stands for: a module, and a name there."""

    module: str
    name: str


@dataclasses.dataclass(frozen=True)
class Scope:
    """The names that a file takes of other modules, and the names that it gives to modules."""

    path: pathlib.Path
    names: dict[str, Target]
    modules: dict[str, str]

    def also(self, text: str) -> Scope:
        """Returns this scope with what another text in the file takes."""
        more = scope_of(self.path, text)
        return Scope(self.path, {**self.names, **more.names}, {**self.modules, **more.modules})

    def targets(self, said: str, own: dict[str, Target]) -> Iterator[Target]:
        """Yields what the words of a text stand for; words that are variables stand for nothing. `own` has the names
        that the file itself defines."""
        known = {**self.names, **own}
        # `◌≡◌` is written `≡`, and `if◌then◌else◌` begins with `if`.
        known.update({it.strip("◌").partition("◌")[0]: to for it, to in known.items() if "◌" in it})
        for word in WORD.findall(said):
            first, _, rest = word.partition(".")
            if first in self.modules and rest:
                yield Target(self.modules[first], rest.partition(".")[0])
            elif first in known or word in known:
                yield known.get(first) or known[word]


def scope_of(path: pathlib.Path, text: str) -> Scope:
    """Returns what a text in a file takes by `use`."""
    scope = Scope(path, {}, {})
    for begin in USES.finditer(text):
        found = USE.match(text, begin.start())
        if not found:
            raise Unknown(f"{path}: no use of a module: {text[begin.start():].partition(chr(10))[0].strip()}")
        module, names, alias = found.groups()
        for it in filter(None, re.split(r",\s*", (names or "").strip())):
            name, _, other = it.partition(" as ")
            scope.names[other or name] = Target(module, name)
        if names is None:
            scope.modules[alias or module.rpartition(".")[2]] = module
    return scope


@dataclasses.dataclass(frozen=True)
class Item:
    """A definition, type or function: its file below the root, its name, its text, what the text says apart from what
    it binds, the scope of that, the names that the file itself defines, and the types of code that it names."""

    path: pathlib.Path
    name: str
    text: str
    said: str
    scope: Scope
    own: dict[str, Target]
    types: tuple[Target, ...] = ()

    def __hash__(self) -> int:
        return hash(self.key)

    @property
    def key(self) -> tuple[pathlib.Path, str]:
        """Returns what this item alone has."""
        return self.path, self.name

    def targets(self) -> Iterator[Target]:
        """Yields what this item names."""
        bound = {it for found in BOUND.findall(self.text) for it in found.rstrip(":").split()}
        for word in WORD.findall(self.said):
            first = word.partition(".")[0]
            known = (self.scope.names, self.scope.modules, self.own, bound, BUILT_IN)
            if CAPITAL.match(first) and not any(first in it for it in known):
                raise Unknown(f"{self.path}: {self.name} names {first}, which is not in scope")
        for clause in CLAUSES.split(self.said):
            hidden = self.variables(clause.partition(" =")[0]) if " =" in clause else set()
            own = {it: to for it, to in self.own.items() if it not in hidden}
            taken = {it: to for it, to in self.scope.names.items() if it not in hidden}
            yield from Scope(self.path, taken, self.scope.modules).targets(clause, own)
        yield from self.types

    def variables(self, pattern: str) -> set[str]:
        """Returns the words of a clause's left side that are variables, though definitions have their names. Only
        constructors are no variables there."""
        found = set()
        for it in WORD.findall(pattern):
            to = self.own.get(it) or self.scope.names.get(it)
            if to and it[0].islower() and it != self.name and file_of(resolved(to.module)):
                if definition(to, self.path).name == to.name:
                    found.add(it)
        return found


def dedented(lines: list[str]) -> Iterator[tuple[str, str]]:
    """Yields each line with the head of the block of parameters (`module _ .. where`) around it, or with no text. A
    line of such a block is given as it is outside."""
    head, is_open = "", False
    for line in lines:
        if line.startswith("module _ "):
            head, is_open = line, True
        elif is_open:
            head += f"\n{line}"
        elif head and (line.startswith("  ") or not line):
            yield line[2:], head
            continue
        else:
            head = ""
            yield line, ""
            continue
        is_open = not line.endswith(" where")


class Module:
    """A file of definitions: each by its name, and by those of its constructors."""

    def __init__(self, path: pathlib.Path, name: str) -> None:
        self.path, self.name, text = path.relative_to(ROOT), name, path.read_text()
        self.scope, self.own, self.items = scope_of(self.path, text), {}, {}
        waiting, block, named = [], [], ("", "")
        for line, around in dedented(text.splitlines()):
            head = HEAD.match(line) or LEMMA.match(line)
            if line.startswith(("--", "infix")):
                waiting.append(line)
            elif not line:
                # A comment before an empty line belongs to no definition.
                waiting = []
                block.append(line)
            elif line.startswith(("use ", "pub use ", "pub mod ")):
                self.add(*named, block)
                waiting, block, named = [], [], ("", "")
            elif head:
                self.add(*named, block)
                waiting, block, named = [], [*waiting, line], (head[1] or head[2], around)
            elif named[0] and around == named[1]:
                waiting, block = [], [*block, *waiting, line]
            else:
                raise Unknown(f"{self.path}: a line outside of all definitions: {line}")
        self.add(*named, block)

    def add(self, name: str, around: str, block: list[str]) -> None:
        """Adds a definition with the given lines, and the head of the block of parameters around it. Of a lemma only
        what it states counts, not its proof."""
        if not name:
            return
        at = next(number for number, line in enumerate(block) if not line.startswith(("--", "infix")))
        kind = HEAD.match(block[at])
        if not kind:
            end = at + 1
            while end < len(block) and block[end].startswith(" "):
                end += 1
            block = block[:end]
        text = "\n".join(block).strip("\n")
        said = TEXT.sub("", COMMENT.sub("", text))
        names = [name]
        if kind and kind[2]:
            if "data " in kind[0]:
                names += [it for found in CONSTRUCTORS.findall(said) for it in found.split()]
            said = OWN_FIELD.sub("", said)
        if around:
            text = f"{around}\n" + "\n".join(f"  {line}" if line else "" for line in text.splitlines())
            said = f"{around}\n{said}"
        said = BOUND.sub("", FIELD.sub(r"\1", said))
        item = Item(self.path, name, text, said, self.scope, self.own)
        for it in names:
            self.items[it], self.own[it] = item, Target(self.name, it)


@functools.cache
def module_at(path: pathlib.Path, name: str) -> Module:
    """Returns the module with a name in a file."""
    return Module(path, name)


def is_of_kit(module: str) -> bool:
    """Returns whether a module is one of the kit's libraries."""
    return KIT.match(f"{module}.") is not None


def file_of(module: str) -> pathlib.Path | None:
    """Returns the file of a module of a crate, if there is one."""
    crate, _, rest = module.removeprefix("Rattle.").partition(".")
    folder, _, name = rest.partition(".")
    path = CRATES / crate / folder / f"{name.replace('.', '/')}.antt"
    return path if path.is_file() else None


def passed_on(module: str) -> str | None:
    """Returns the module that a crate passes on by this name, if it does."""
    crate, _, rest = module.removeprefix("Rattle.").partition(".")
    folder, _, name = rest.partition(".")
    lib = CRATES / crate / folder / "Lib.antt"
    for other, alias in PASSED_ON.findall(lib.read_text()) if lib.is_file() else ():
        mine = alias or other.rpartition(".")[2]
        if name == mine or name.startswith(f"{mine}."):
            return other + name[len(mine) :]
    return None


def resolved(module: str) -> str:
    """Returns the module itself that a name of a module stands for."""
    while file_of(module) is None and (below := passed_on(module)):
        module = below
    return module


def definition(target: Target, used_in: pathlib.Path) -> Item:
    """Returns the definition that a file names."""
    module = resolved(target.module)
    path = file_of(module)
    if path is None:
        raise Unknown(f"{used_in}: there is no module {target.module}, of which it takes {target.name}")
    items = module_at(path, module).items
    if target.name not in items:
        raise Unknown(f"{used_in}: {path.relative_to(ROOT)} has no {target.name}")
    return items[target.name]
