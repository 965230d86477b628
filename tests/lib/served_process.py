"""A process of `ibsm serve` or `ibsm manage`, driven line by line by its tests."""
from __future__ import annotations

import os
import signal
import subprocess
from collections.abc import Sequence

from built_program import check
from served_lines import END, WHO

# The most bytes in a line.
MOST = 600
# The longest time for an answer, in seconds.
PATIENCE = 60


class Served:
    """A process of a manager, driven line by line. The manager decides by itself if the command is `manage`."""

    def __init__(
        self, program: str | os.PathLike[str], words: Sequence[str] = WHO, command: str = "serve"
    ) -> None:
        self.process = subprocess.Popen(
            ["ibsm", command, *words],
            executable=program,
            stdin=subprocess.PIPE,
            stdout=subprocess.PIPE,
            stderr=subprocess.PIPE,
            bufsize=0,
        )
        self.lines = os.fdopen(os.dup(self.process.stdout.fileno()), "rb")

    def ask(self, line: bytes) -> bytes:
        """Writes a line, and reads its answer up to the line with a dot. The next line must wait for that one."""
        signal.alarm(PATIENCE)
        self.process.stdin.write(line + b"\n")
        told = []
        while True:
            answer = self.lines.readline()
            check(answer.endswith(b"\n"), f"{line[:80]!r} has no whole answer: {told} {answer!r}")
            if answer == END:
                signal.alarm(0)
                return b"".join(told)
            told.append(answer)

    def end(self) -> None:
        """Ends the process's lines, and checks that it ends well and prints nothing more."""
        self.process.stdin.close()
        status = self.process.wait(timeout=PATIENCE)
        rest, said = self.lines.read(), self.process.stderr.read()
        check(
            (status, rest, said) == (0, b"", b""),
            f"a served manager ends with {status}, prints {rest[:80]!r} and says {said[:80]!r}",
        )
