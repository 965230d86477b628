"""Wrong bodies: the edits of crates/*/must-fail and crates/*/wrong-bodies, the functions that they change, and whether
they still apply."""
from __future__ import annotations

import dataclasses
import functools
import pathlib
import re

from paths import ROOT

# The wrong bodies that the gate tries. Where one changes not just one function, what is checked comes after it.
GATE = ROOT / "tests/gate-bodies.table"
FOLDERS = "must-fail", "wrong-bodies"
FUNCTION = re.compile(r"( *)(?:pub(?:\([a-z]+\))? )?(?:const )?fn (\w+)")
# Texts by file, and pairs of an old text and a new one with the file that they belong to.
Texts, Pairs = dict[str, str], list[tuple[str, str, str]]


@dataclasses.dataclass
class Function:
    """A function of a file: its name, the first line that belongs to it, and the first and the last of its body, from
    1."""

    name: str
    begins: int
    first: int
    last: int


def functions(text: str) -> list[Function]:
    """Returns the functions of a file in rt fmt's layout."""
    found, lines = [], text.splitlines()
    for at, line in enumerate(lines):
        begins = FUNCTION.match(line)
        if not begins:
            continue
        pad, top = begins[1], at
        while top and lines[top - 1].lstrip().startswith(("#[", "//")):
            top -= 1
        opens = next((it for it in range(at, len(lines)) if lines[it] == pad + "{" or lines[it].endswith(" {")), None)
        closes = next((it for it in range(opens or at, len(lines)) if lines[it] == pad + "}"), None)
        if opens is not None and closes is not None:
            found.append(Function(begins[2], top + 1, opens + 1, closes + 1))
    return found


@dataclasses.dataclass
class Edit:
    """An edit: its name, its pairs of texts by file, and the one function whose body it changes, or None."""

    label: str
    pairs: Pairs
    file: str = ""
    function: str = ""


@functools.cache
def _text_of(path: pathlib.Path) -> str | None:
    return path.read_text() if path.is_file() else None


@functools.cache
def _functions_of(path: pathlib.Path) -> list[Function]:
    return functions(_text_of(path) or "")


def pairs_of(path: pathlib.Path) -> tuple[Pairs, str | None]:
    """Returns the pairs of texts in the file of an edit, and why they are none, or None."""
    file, old, pairs = None, None, []
    for number, line in enumerate(path.read_text().splitlines(), 1):
        word, _, text = line.partition(":")
        if word == "file":
            file = text.strip()
        elif word == "old" and text.startswith(" ") and text.strip() and file and old is None:
            old = text[1:]
        elif word == "new" and old is not None:
            pairs.append((file, old, text.removeprefix(" ")))
            old = None
        elif line:
            return [], f"line {number} is none of its form: {line}"
    if old is not None:
        return [], f"no new text follows the old one: {old}"
    return pairs, None if pairs else "it has no old and new text"


def read_edit(label: str, path: pathlib.Path) -> tuple[Edit | None, str | None]:
    """Returns the edit in a file, or why it does not apply."""
    crate, inside_of = path.parent.parent, set()
    pairs, why = pairs_of(path)
    if not why:
        _, why = applied(pairs, crate)
    if why:
        return None, why
    for file, old, _ in pairs:
        source = _text_of(crate / file)
        number = source[: source.find(old)].count("\n") + 1
        inside = [it for it in _functions_of(crate / file) if it.first < number < it.last]
        is_sole = source.count(old) == 1 and len(inside) == 1 and file.startswith("src/")
        inside_of.add((file, inside[0].name) if is_sole else None)
    only = inside_of.pop() if len(inside_of) == 1 else None
    return Edit(label, pairs, *(only or ("", ""))), None


def applied(pairs: Pairs, crate: pathlib.Path) -> tuple[Texts, str | None]:
    """Returns the texts that pairs leave in the files of a crate, and why they do not apply, or None."""
    texts = {}
    for file, old, new in pairs:
        text = texts.get(file) or _text_of(crate / file)
        if text is None:
            return {}, f"there is no file {file}"
        if text.count(old) != 1:
            return {}, f"{file} has this text {text.count(old)} times, and not once: {old}"
        texts[file] = text.replace(old, new)
        if texts[file] == text:
            return {}, f"its new text is the old one: {old}"
    return texts, None


def gate_bodies(table: pathlib.Path = GATE) -> dict[str, str]:
    """Returns the edits that the gate tries, each with the function or module that is checked, or "" if it is the
    function that the edit changes."""
    return dict(it.partition(" ")[::2] for it in table.read_text().splitlines() if it and it[0] != "#")


def edits_of(crates: pathlib.Path) -> dict[str, pathlib.Path]:
    """Returns the files of all edits in a folder of crates, by their names below it."""
    files = (it for folder in FOLDERS for it in crates.glob(f"*/{folder}/*.edit"))
    return {str(it.relative_to(crates)): it for it in sorted(files)}


def _names_code(crate: pathlib.Path, path: str) -> bool:
    """Returns whether a crate has the module or function of a path."""
    *module, name = path.split("::")
    of_module, its = crate.joinpath("src", *module, f"{name}.rt"), crate.joinpath("src", *module).with_suffix(".rt")
    return of_module.is_file() or bool(module) and name in {it.name for it in _functions_of(its)}


def no_longer_apply(root: pathlib.Path) -> list[tuple[str, str]]:
    """Returns the edits below a root that do not apply to its crates, each with the reason, and the rows of the gate's
    table that name no edit, or do not name what is checked."""
    crates, table, edits = root / "crates", root / GATE.relative_to(ROOT), {}
    faults = []
    for name, path in edits_of(crates).items():
        edits[name], why = read_edit(name, path)
        if why:
            faults.append((f"crates/{name}", why))
    for label, named in gate_bodies(table).items() if table.is_file() else ():
        crate, _, name = label.partition("/")
        full = f"{crate}/wrong-bodies/{name}"
        if full not in edits:
            faults.append((str(GATE.relative_to(ROOT)), f"there is no edit {label}"))
        elif named and not _names_code(crates / crate, named):
            faults.append((str(GATE.relative_to(ROOT)), f"{crate} has no function or module {named}"))
        elif edits[full] and not (named or edits[full].function):
            faults.append((str(GATE.relative_to(ROOT)), f"{label} changes not just one function, and none is named"))
    return faults
