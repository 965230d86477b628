"""What laws and functions state, with all definitions that this rests on."""
from __future__ import annotations

import functools
import pathlib
import re
import sys

from code_types import FUNCTION, code_item, crates, files_of, function
from code_types import text_of as source_of
from definitions import Item, Target, definition, is_of_kit

COMMENTS = "--", "//"


def is_of_laws(path: pathlib.Path) -> bool:
    """Returns whether a file of code has laws: src/laws.rt, or one of src/laws/."""
    return path.name == "laws.rt" or path.parent.name == "laws"


@functools.cache
def functions() -> dict[str, pathlib.Path]:
    """Returns each function of the crates that has a contract, as CRATE::NAME, with its file. Of several functions of
    one name in a crate, a law counts."""
    found: dict[str, pathlib.Path] = {}
    for crate in sorted(crates()):
        for path in files_of(crate):
            for it in FUNCTION.finditer(source_of(path)):
                if re.search(r"\b(?:requires|ensures)\b", it[0]) and (is_of_laws(path) or it[1] not in found):
                    found[f"{crate}::{it[1]}"] = path
    return found


def named(law: str) -> list[str]:
    """Returns the functions that a name may stand for: the one of a crate, or else all laws of that name, or all
    functions if there is no such law."""
    every = functions()
    if "::" in law:
        crate, *_, name = law.split("::")
        return [it for it in (f"{crate}::{name}",) if it in every]
    found = [it for it in every if it.partition("::")[2] == law]
    return [it for it in found if is_of_laws(every[it])] or found


@functools.cache
def below(item: Item) -> tuple[tuple[Item, ...], frozenset[Target]]:
    """Returns the items that an item names, in the order in which it names them, and what it names of the kit."""
    targets = list(dict.fromkeys(item.targets()))
    kit = frozenset(it for it in targets if is_of_kit(it.module))
    return tuple(code_item(it, item.path) or definition(it, item.path) for it in targets if it not in kit), kit


def statement(law: str) -> tuple[list[Item], set[Target]]:
    """Returns what a function rests on, each definition before those that use it and the function last; and the names
    that are taken from the kit's libraries. Raises Unknown for a name that has no definition."""
    items: dict[tuple[pathlib.Path, str], Item] = {}
    kit: set[Target] = set()
    begun = set()

    def add(item: Item) -> None:
        begun.add(item.key)
        named_here, of_kit = below(item)
        kit.update(of_kit)
        for it in named_here:
            if it.key not in begun:
                add(it)
        items[item.key] = item

    sys.setrecursionlimit(10_000)
    crate_path = functions()[law]
    add(function(crate_path, law.partition("::")[2]))
    return list(items.values()), kit


def text_of(items: list[Item], kit: set[Target]) -> str:
    """Returns the text of a statement."""
    parts, path = [], None
    for item in items:
        if item.path != path:
            path = item.path
            parts.append(f"-- {path} {'-' * max(3, 116 - len(str(path)))}")
        parts.append(item.text)
    modules: dict[str, set[str]] = {}
    for it in kit:
        modules.setdefault(it.module, set()).add(it.name)
    parts.append("-- From the kit's libraries:")
    parts.append("\n".join(f"-- {module}: {', '.join(sorted(names))}" for module, names in sorted(modules.items())))
    return "\n\n".join(parts) + "\n"


def counts(items: list[Item]) -> tuple[int, int, int]:
    """Returns the numbers of a statement: its lines that are neither empty nor comments, the definitions that it rests
    on, and the crates that these and the law are in."""
    lines = [line.strip() for item in items for line in item.text.splitlines()]
    return (
        sum(bool(line) and not line.startswith(COMMENTS) for line in lines),
        len(items) - 1,
        len({item.path.parts[1] for item in items}),
    )
