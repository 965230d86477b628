"""The version of the tools, and what an installed copy was built from."""
from __future__ import annotations

import pathlib

VERSION = "0.1.0"
# In an installed copy, a file beside the tools names the commit, and says whether the program is proved.
BUILT = pathlib.Path(__file__).resolve().parent.parent / "built"


def told(tool: str) -> str:
    """Returns what `--version` prints."""
    built = BUILT.read_text() if BUILT.exists() else ""
    return f"ibsm-{tool} {VERSION}\n{built}"
