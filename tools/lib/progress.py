"""Shows on a terminal how far a tool has got, in one line that is overwritten. The line appears after two seconds."""
from __future__ import annotations

import contextlib
import os
import sys
import threading
from collections.abc import Callable, Iterable, Iterator
from typing import IO, TypeVar

# Seconds until progress is shown first, and between updates.
FIRST, THEN = 2, 0.5
WIDEST = 100
Thing = TypeVar("Thing")

_lock = threading.Lock()
_now = [None]  # what is being done: a text, or a function that returns one
_is_shown = [False]


def at(what: str | Callable[[], str] | None) -> str | Callable[[], str] | None:
    """Notes what is being done (None shows nothing), and returns what was noted before."""
    with _lock:
        before, _now[0] = _now[0], what
        if what is None:
            _clear()
    return before


@contextlib.contextmanager
def doing(what: str | Callable[[], str]) -> Iterator[None]:
    """Notes what is done in a `with` block."""
    before = at(what)
    try:
        yield
    finally:
        at(before)


def reading(path: str | os.PathLike, file: IO) -> contextlib.AbstractContextManager[None]:
    """Notes in a `with` block that a file is being read and, if its size is known, how much of it."""
    try:
        number = file.fileno()
    except OSError:
        # The file is in memory already.
        return doing(f"reads {path}")
    size = os.fstat(number).st_size
    return doing(lambda: f"reads {path}" + (f", {100 * os.lseek(number, 0, os.SEEK_CUR) // size} %" if size else ""))


def counted(what: str, things: Iterable[Thing], count: int) -> Iterator[Thing]:
    """Yields `count` things, and notes how many of them are done."""
    behind = 0
    with doing(lambda: f"{what}, {behind} of {count}"):
        for thing in things:
            yield thing
            behind += 1


def _clear() -> None:
    if _is_shown[0]:
        print("\r\033[K", end="", file=sys.stderr, flush=True)
        _is_shown[0] = False


def _tell(tool: str, ended: threading.Event) -> None:
    seconds = FIRST
    while not ended.wait(seconds):
        seconds = THEN
        with _lock:
            try:
                what = _now[0]() if callable(_now[0]) else _now[0]
                if what and not ended.is_set():
                    print(f"\r\033[K{tool}: {what}"[:WIDEST], end="", file=sys.stderr, flush=True)
                    _is_shown[0] = True
            except OSError:
                # The file is closed, or the terminal is gone.
                pass


@contextlib.contextmanager
def hidden() -> Iterator[None]:
    """Hides the progress in a `with` block, so that other output does not share its line."""
    with _lock:
        _clear()
        yield


@contextlib.contextmanager
def told(tool: str) -> Iterator[None]:
    """Shows in a `with` block how far the tool has got, if standard error is a terminal."""
    if not sys.stderr.isatty():
        yield
        return
    ended = threading.Event()
    threading.Thread(target=_tell, args=(tool, ended), daemon=True).start()
    try:
        yield
    finally:
        ended.set()
        with _lock:
            _clear()
