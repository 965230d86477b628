"""The folder in which `tests/test-files` tries the tools: each runs in a child of the test."""
from __future__ import annotations

import os
import pathlib
import re
import sys
import tempfile
import traceback
from collections.abc import Iterable
from typing import IO

import paths


class Room:
    """A folder to try the tools in, and their last answers."""

    def __init__(self, path: pathlib.Path, auditor: pathlib.Path) -> None:
        """`auditor` is a program that audits: `ibsm`, or what stands in for it."""
        self.path, self.auditor, self.held, self.tools = path, auditor, 0, {}
        self.status, self.out, self.said = 0, "", ""

    def put(self, **texts: str) -> None:
        for name, text in texts.items():
            (self.path / name.replace("_", ".")).write_text(text, encoding="utf-8")

    def scripts(self, **texts: str) -> None:
        """Writes scripts, in which AUDITOR is the program that audits."""
        for name, text in texts.items():
            (self.path / name).write_text(text.replace("AUDITOR", str(self.auditor)))
            (self.path / name).chmod(0o755)

    def text(self, name: str) -> str:
        return (self.path / name).read_text()

    def run(self, words: str, want: int, stdin: str | None = None) -> str:
        """Runs a tool, and checks its exit status. A refusal must give its reasons in one line each, with the tool's
        name. Tools that audit get the program for it, unless they are given one."""
        tool, *rest = words.split()
        if " --ibsm " not in words and re.match("opensm-files write .* .|draw .*--way . *", words):
            rest += ["--ibsm", str(self.auditor)]
        with open(
            self.path / stdin if stdin else os.devnull
        ) as given, tempfile.TemporaryFile() as out, tempfile.TemporaryFile() as said:
            self.status = self.forked(tool, rest, [given, out, said])
            for file in (out, said):
                file.seek(0)
            self.out, self.said = out.read().decode(errors="surrogateescape"), said.read().decode()
        self.check(self.status == want, f"{words}: status {want}")
        if want > 2:
            self.check(all(line.startswith(f"{tool}: ") for line in self.said.splitlines()), f"{words}: says why")
        return self.out

    def forked(self, tool: str, words: list[str], streams: Iterable[IO]) -> int:
        """Runs a tool in a child of this process, which is faster than a new interpreter, and returns its exit
        status."""
        if tool not in self.tools:
            self.tools[tool] = compile((paths.TOOLS / tool).read_text(), paths.TOOLS / tool, "exec")
        child = os.fork()
        if child:
            return os.waitstatus_to_exitcode(os.waitpid(child, 0)[1])
        status = 1
        try:
            os.chdir(self.path)
            for number, stream in enumerate(streams):
                os.dup2(stream.fileno(), number)
            sys.stdin, sys.stdout, sys.stderr = open(0), open(1, "w"), open(2, "w")
            sys.argv = [str(paths.TOOLS / tool), *words]
            exec(self.tools[tool], {"__name__": "__main__", "__file__": sys.argv[0]})
        except SystemExit as end:
            status = end.code or 0
        except BaseException:
            traceback.print_exc()
        finally:
            sys.stdout.flush()
            sys.stderr.flush()
            os._exit(status)

    def prints(self, words: str, want: int, part: str) -> None:
        self.check(part in self.run(words, want), f"{words}: prints `{part}`")

    def refused(self, words: str, why: str, want: int = 3) -> None:
        self.run(words, want)
        self.check(why in self.said, f"{words}: says `{why}`")

    def check(self, holds: object, what: str) -> None:
        if not holds:
            print(f"test-files: FAILED: {what}; it ended with {self.status}, printed")
            print(f"{self.out[:500]}and said\n{self.said[-500:]}")
            sys.exit(1)
        self.held += 1
