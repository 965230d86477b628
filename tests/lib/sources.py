"""The code of crates/*/src without what is only proved or tested (comments, contracts, ghost items, attributes, tests),
and the groups, statements and functions around each word: for `tests/limits`."""
from __future__ import annotations

import bisect
import pathlib
import re
from collections.abc import Iterator

from paths import ROOT

CRATES = ROOT / "crates"
CLAUSE = re.compile(r"\b(?:ensures|requires)\b[^{]*(?=\{)")
GHOST = re.compile(r"\bghost\b")
WORDS = re.compile(
    r'\s+|//[^\n]*|b?r(#*)".*?"\1|b?"(?:[^"\\]|\\.)*"|b?\'(?:[^\'\\]|\\[^\']*)\'|\w+|::|=>|->|[=!<>]=|&&|\|\||\.\.=?|.',
    re.S,
)
OPENS, CLOSES = "([{", ")]}"


def past_group(text: str, at: int) -> int:
    """Returns the index after the group that opens at `at`."""
    depth = 0
    while True:
        depth += (text[at] in OPENS) - (text[at] in CLOSES)
        at += 1
        if not depth:
            return at


def past_ghost(text: str, at: int) -> int:
    """Returns the index after a ghost item or ghost field, which ends with the first semicolon or comma outside of all
    groups."""
    while text[at] not in ";,":
        at = past_group(text, at) if text[at] in OPENS else at + 1
    return at + 1


def words_of(text: str) -> list[tuple[str, int]]:
    """Returns the words of code in a text, each with the index where it begins."""
    found, at = [], 0
    while at < len(text):
        clause = CLAUSE.match(text, at)
        if clause:
            at = past_group(text, clause.end())
        elif GHOST.match(text, at):
            at = past_ghost(text, at)
        elif text.startswith(("#[", "#!["), at):
            at = past_group(text, text.index("[", at))
        else:
            said = WORDS.match(text, at)[0]
            if not said.isspace() and not said.startswith("//"):
                found.append((said, at))
            at += len(said)
    return found


class Function:
    """A function of the code: its name with that of its type, its head, what it returns, and the first and last word of
    its body."""

    def __init__(self, name: str, head: str, first: int, last: int) -> None:
        self.name, self.head, self.first, self.last = name, head, first, last
        self.gives = head.rpartition("->")[2].partition(" where ")[0] if "->" in head else ""


class Code:
    """A source file, word by word, and the group around each word."""

    def __init__(self, path: pathlib.Path, text: str) -> None:
        self.path = path
        placed = words_of(text)
        self.words, self.begins = [it for it, _ in placed], [at for _, at in placed]
        self.lines = [number for number, it in enumerate(text) if it == "\n"]
        self.parent, self.partner = self.groups()
        self.functions = list(self.found_functions())

    def groups(self) -> tuple[list[int | None], dict[int, int]]:
        parent, partner, open_ones = [], {}, []
        for at, word in enumerate(self.words):
            if word in CLOSES:
                opened = open_ones.pop()
                partner[opened], partner[at] = at, opened
            parent.append(open_ones[-1] if open_ones else None)
            if word in OPENS:
                open_ones.append(at)
        return parent, partner

    def line(self, at: int) -> int:
        return bisect.bisect(self.lines, self.begins[at]) + 1

    def said(self, first: int, last: int) -> str:
        """Returns the words from `first` to `last` as written, with any gap as one space."""
        out = []
        for at in range(first, last + 1):
            word = self.words[at]
            if out and self.begins[at] > self.begins[at - 1] + len(self.words[at - 1]):
                out.append(" ")
            out.append(word)
        return (
            re.sub(r",? ([)\]])", r"\1", re.sub(r"([(\[]) ", r"\1", "".join(out))).replace(" .", ".").replace(" ?", "?")
        )

    def begin(self, at: int) -> int:
        """Returns the first word of the statement or arm around the word, within the braces around it."""
        while True:
            before = at - 1
            if before < 0:
                return at
            word = self.words[before]
            if word in OPENS:
                if word == "{":
                    return at
            elif word in CLOSES:
                # The brace ends a block before: another statement, unless this word continues it.
                if word == "}" and self.words[at] not in ("else", ".", "?", ",", ")", "=>", "|"):
                    return at
                before = self.partner[before]
            elif word == ";" or word == "," and self.is_block(self.parent[before]):
                return at
            at = before

    def end(self, at: int) -> int:
        """Returns the last word of the statement or arm around the word."""
        while at + 1 < len(self.words):
            word = self.words[at]
            if word in OPENS:
                at = self.partner[at]
            after = self.words[at + 1] if at + 1 < len(self.words) else ";"
            if after in ";}" or after == "," and self.is_block(self.parent[at + 1]):
                return at
            at += 1
        return at

    def is_block(self, at: int | None) -> bool:
        return at is None or self.words[at] == "{"

    def heads(self, at: int, first: int) -> list[str]:
        """Returns what stands before each brace around a word, from the outermost in, within a function's body."""
        found = []
        while True:
            around = self.parent[at]
            while around is not None and self.words[around] != "{":
                around = self.parent[around]
            if around is None or around <= first:
                return found[::-1]
            begin = self.begin(around)
            if begin < around:
                found.append(self.said(begin, around - 1))
            at = begin if begin < around else around

    def found_functions(self) -> Iterator[Function]:
        for at, word in enumerate(self.words):
            if word != "fn" or not self.words[at + 1].isidentifier():
                continue
            brace = at
            while self.words[brace] not in "{;":
                brace = self.partner[brace] + 1 if self.words[brace] in "([" else brace + 1
            if self.words[brace] == "{":
                yield Function(
                    self.owner(at) + self.words[at + 1], self.said(at, brace - 1), brace, self.partner[brace]
                )

    def owner(self, at: int) -> str:
        """Returns the type whose method stands here, with `::`, or an empty text."""
        around = self.parent[at]
        if around is None or self.words[around] != "{":
            return ""
        head = self.said(self.begin(around), around - 1)
        found = re.match(r"(?:unsafe )?impl\b", head)
        if not found:
            return re.sub(r"^(?:pub(?:\(crate\))? )?trait (\w+).*", r"\1::", head) if " trait " in f" {head}" else ""
        named = re.sub(r"^.*? for ", "", head[found.end() :].partition(" where ")[0])
        while re.search(r"<[^<>]*>", named):
            named = re.sub(r"<[^<>]*>", "", named)
        return f"{named.strip().rpartition('::')[2]}::"


def codes() -> Iterator[Code]:
    """Yields each source file below crates/, without tests."""
    for path in sorted(CRATES.glob("*/src/**/*.rt")):
        if not {"tests", "tests.rt"} & set(path.relative_to(CRATES).parts):
            yield Code(path.relative_to(CRATES), path.read_text())
