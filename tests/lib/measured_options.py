"""Whether `tests/at-scale` measures what each command and each option of the command line costs, and each line of a
schedule, of `serve` and of `manage`."""
from __future__ import annotations

import os
import pathlib
import re
import subprocess
from collections.abc import Iterable, Iterator, Sequence

from paths import ROOT
from scale import check

# Options without a run of their own, each with the reason.
UNMEASURED = {
    "facts --floor": "It leaves out facts as `join --floor` does.",
    "plan --floor": "It leaves out facts as `join --floor` does.",
    "order --roots": "The order is found as by `plan --roots`, which then also plans.",
    "order --order": "The order is found as by `plan --order`, which then also plans.",
    "line of run: wait": "Its turns are those of `drain`, and lines of `manage`.",
    "line of run: pause": "It changes one field.",
    "line of run: resume": "It changes one field.",
}
COMMAND = re.compile(r"^  ([a-z-]+)  ", re.M)
# An option with its help, up to the next one.
OPTION = re.compile(r"^ +(?:-\w, )?(--[a-z-]+)(.*(?:\n {10}.*)*)", re.M)
# The section of docs/FORMATS.md that has the lines which a command reads, and a row of its tables.
LINES_OF = {"run": "Schedule", "serve": "Lines of serve", "manage": "Lines of manage"}
LINE = re.compile(r"^\| (`.*?) \|", re.M)
# What stands in front of the word that says what a line is: for `manage`, the time. Its tables without it are of notes.
FRONT, NOTHING = {"manage": r"MS\b ?"}, r"(?=\w)"


def help_of(program: str | os.PathLike[str], *words: str) -> str:
    """Returns the part of a help that lists commands or options, in which no command is named without them."""
    text = subprocess.run([program, *words, "--help"], capture_output=True, text=True, check=True).stdout
    return text.partition("Commands:\n" if not words else "Options:\n")[2].partition("\n\n")[0]


def asked_for(program: str | os.PathLike[str]) -> Iterator[str]:
    """Yields each command of a program's help, each of its options as `command --option`, and each word that an option
    may have, if these are few, as `--option word`."""
    for command in COMMAND.findall(help_of(program)):
        if command == "help":
            continue
        yield command
        for option, said in OPTION.findall(help_of(program, command)):
            if option != "--help":
                yield f"{command} {option}"
            for words in re.findall(r"\[possible values: (.*?)\]", said, re.S):
                yield from (f"{option} {word}" for word in words.split(", "))


def lines() -> Iterator[str]:
    """Yields the word that says what a line is, of each line that a command reads, as `line of command: word`. A line
    that has the time alone has no such word."""
    text = (ROOT / "docs/FORMATS.md").read_text()
    for command, title in LINES_OF.items():
        section = text.partition(f"\n## {title}\n")[2].partition("\n## ")[0]
        form = re.compile("`" + FRONT.get(command, NOTHING) + r"(\w*).*?`")
        for names in LINE.findall(section):
            yield from (f"line of {command}: {word}" for word in form.findall(names))


def words_in(command: str, text: str) -> Iterator[str]:
    """Yields the word that says what a line is, of each line of a text that a command reads."""
    at = 1 if command in FRONT else 0
    for line in text.splitlines():
        if line.strip():
            yield (line.split() + [""])[at]


def check_all(program: str | os.PathLike[str], runs: Iterable[Sequence[str]], folder: pathlib.Path) -> None:
    """Checks that the words of some run have each command, option and word of the help, apart from those in
    UNMEASURED, and that its last file, which is in `folder`, has each line."""
    asked, measured = list(dict.fromkeys([*asked_for(program), *lines()])), set()
    for command, *words in runs:
        measured.add(command)
        for option, word in zip(words, [*words[1:], ""]):
            if option.startswith("--"):
                measured |= {f"{command} {option}", f"{option} {word}"}
        if command in LINES_OF:
            read = words_in(command, (folder / words[-1]).read_text())
            measured |= {f"line of {command}: {word}" for word in read}
    check(len(asked) > 60, f"few commands, options and lines are found: {asked}")
    for name in asked:
        check(
            (name in measured) != (name in UNMEASURED),
            f"{name}: is measured, and measured_options.py says why not"
            if name in measured
            else f"{name}: no run measures it, so growth.py needs a row, or measured_options.py the reason why not",
        )
    for name in UNMEASURED.keys() - set(asked):
        check(False, f"{name}: measured_options.py says why it is not measured, and there is no such option or line")
