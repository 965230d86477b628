"""The command line of `tools/round`: its options, also those of a file, and the command by which a round goes on."""
from __future__ import annotations

import argparse
import os
import shlex
import shutil
import sys
from collections.abc import Iterator

from program import made_in_c, the_program

# What a round goes on in spite of, with the option of other tools that it stands for; a round itself asks `busier`.
ACCEPTED = {"silent": "silent", "lids": "move_lids", "busier": "busier", "holes": "holes"}
# Options that are gone, and what to do instead.
_FOLDER = "--programs FOLDER names the folder that has the programs"
_ORDER = "write what `ibsm order --routing {}` prints of DIR/now.reports to DIR/kept.order"
GONE = {
    "--keep-order": "the order is kept without it",
    "--new-order": f"{_ORDER.format('balance')}, or another order",
    "--roots": _ORDER.format("spread --roots FILE"),
    "--told-order": "steps go by the best order that there is without it",
    "--loops": "--at-once writes the plan all the same, without steps",
    "--silent": "--accept silent goes on so",
    "--move-lids": "--accept lids goes on so",
    "--busier": "--accept busier goes on so",
    "--holes": "--accept holes goes on so",
    "--wait": "a round waits a minute, and a second more for each five switches",
    **{f"--{name}": _FOLDER for name in ("ibsm", "record", "send")},
}
# An option whose value is told to nobody.
SECRET = "--m-key"


class Words(argparse.ArgumentParser):
    """A parser that tells in which line of a file a word stands, unless it is on the command line."""

    where: str | None = None

    def error(self, message: str) -> None:
        """Ends with 2 and the message."""
        super().error(f"{self.where}: {message}" if self.where else message)


def accepted(text: str) -> list[str]:
    """Returns the words of a list, each of which is one of ACCEPTED."""
    words = text.split(",")
    for word in words:
        if word not in ACCEPTED:
            raise argparse.ArgumentTypeError(f"{word!r} is none of {', '.join(ACCEPTED)}")
    return words


def parser_of_words(usage: str) -> Words:
    """Returns the parser of a command line."""
    parser = Words(prog="round", usage=usage, add_help=False, allow_abbrev=False)
    parser.add_argument("dir", nargs="?", default=argparse.SUPPRESS)
    for word in ("--order", "--ca", "--port", "--m-key", "--m-keys", "--programs", "--log", "--config"):
        parser.add_argument(word)
    parser.add_argument("--opensm", type=int)
    parser.add_argument("--settle", type=float, default=2.2)
    parser.add_argument("--watch", type=float)
    parser.add_argument("--lmc", type=int, choices=range(8))
    parser.add_argument("--routing", choices=("updown", "spread", "balance"), default="balance")
    parser.add_argument("--accept", type=accepted, action="extend", default=[])
    for word in "--direct", "--look", "--at-once":
        parser.add_argument(word, action="store_true")
    return parser


def parse(parser: Words, words: list[str], options: argparse.Namespace | None = None) -> argparse.Namespace:
    """Parses words into options. Ends if one of them is gone."""
    for word in words:
        name = word.partition("=")[0]
        if name in GONE:
            parser.error(f"{name} is gone: {GONE[name]}")
    return parser.parse_args(words, options)


def lines_of_words(path: str) -> Iterator[tuple[int, list[str]]]:
    """Yields the words of each line of a file of options, with its number: each line has an option as on the command
    line, without its --, and its value."""
    with open(path, encoding="utf-8") as file:
        for number, line in enumerate(file, 1):
            word, *value = line.partition("#")[0].replace("=", " ", 1).split(None, 1) or [""]
            if word:
                yield number, ([] if word == "dir" else [f"--{word}"]) + [part.strip() for part in value]


def read_words(words: list[str], usage: str) -> argparse.Namespace:
    """Returns the options of a command line, and those of the file that it names. `options.origins` tells where each
    stands."""
    parser = parser_of_words(usage)
    options, origins = parse(parser, words), {}
    if options.config:
        of_file = argparse.Namespace()
        for number, its in lines_of_words(options.config):
            parser.where, folder = f"{options.config}:{number}", getattr(of_file, "dir", None)
            parse(parser, its, of_file)
            if its[0].startswith("--") and getattr(of_file, "dir", None) != folder:
                parser.error(f"{its[0]} takes no value: {its[1]}")
            origins[its[0].removeprefix("--") if its[0].startswith("--") else "dir"] = parser.where
        parser.where = None
        if hasattr(options, "dir"):
            origins.pop("dir", None)
        options = parse(parser, words, of_file)
    for word in words:
        name = word.removeprefix("--").partition("=")[0]
        if word.startswith("--"):
            origins[name] = f"--{name}"
    options.words, options.origins = words, origins
    if not hasattr(options, "dir"):
        parser.error("it needs a folder DIR")
    if options.opensm is not None and options.direct:
        parser.error("--opensm and --direct exclude each other")
    for word, name in ACCEPTED.items():
        setattr(options, name, word in options.accept)
    options.keeps_order = options.order is None and options.routing != "updown"
    return options


def find_files(options: argparse.Namespace) -> None:
    """Finds the programs and files that options name, and makes DIR; or tells in which line one stands that there is
    not."""
    origins, folder = options.origins, options.programs
    if options.order is not None and not os.path.isfile(options.order):
        raise OSError(f"{origins['order']}: there is no file {options.order}")
    if folder is not None and not os.path.isdir(folder):
        raise OSError(f"{origins['programs']}: there is no folder {folder}")
    named = {name: _in_folder(folder, name) for name in ("ibsm", "record", "send")}
    if folder is not None and not any(named.values()):
        raise OSError(f"{origins['programs']}: {folder} has none of ibsm, record and send")
    options.ibsm = the_program(named["ibsm"], by="--programs")
    for name in ("record", *(["send"] if options.direct else [])):
        setattr(options, name, made_in_c(name, named[name], by="--programs"))
    if options.log is not None and not os.path.exists(options.log):
        print(f"round: {origins['log']}: there is no log {options.log} yet", file=sys.stderr, flush=True)
    try:
        os.makedirs(options.dir, exist_ok=True)
    except OSError as fault:
        where = f"{origins['dir']}: " if "dir" in origins else ""
        raise OSError(f"{where}{options.dir}: {fault.strerror}") from None


def _in_folder(folder: str | None, name: str) -> str | None:
    """Returns the program of a name in a folder, also as it is called when it is installed, or None."""
    names = [name] if name == "ibsm" else [name, f"ibsm-{name}"]
    paths = [os.path.abspath(os.path.join(folder, it)) for it in names] if folder is not None else []
    return next(filter(shutil.which, paths), None)


def command(options: argparse.Namespace, add: list[str], leave_out: tuple[str, ...] = ()) -> str:
    """Returns the command line of one round like this one, with words more, without some options and their values, and
    without a management key."""
    found, is_value = [], False
    for word in options.words:
        name, has_value, _ = word.partition("=")
        if name in ("--watch", SECRET, *leave_out):
            found += [SECRET, "KEY"] if name == SECRET else []
            is_value = not has_value
        elif is_value:
            is_value = False
        else:
            found.append(word)
    return " ".join([shlex.join([sys.argv[0], *found]), *add])
