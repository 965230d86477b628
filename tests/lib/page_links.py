"""The links of the documents: each leads to a file of the repository and, in a document, to a heading."""
from __future__ import annotations

import pathlib
import re
from collections.abc import Iterator

from paths import ROOT

LINK = re.compile(r"\]\(([^)\s]+)\)|\bsrc=\"([^\"]+)\"")
HEADING = re.compile(r"^#+ (.*)$", re.M)
BLOCK = re.compile(r"^```\n.*?^```$", re.S | re.M)
CODE = re.compile(r"`[^`\n]*`")


def anchors(text: str) -> set[str]:
    """Returns the names of a document's headings, as links spell them."""
    titles = HEADING.findall(BLOCK.sub("", text))
    return {re.sub(r"[^\w\- ]", "", it.lower()).strip().replace(" ", "-") for it in titles}


def dead_links() -> Iterator[str]:
    """Yields each link of a document, at the root or in docs/, that leads nowhere."""
    for page in sorted([*ROOT.glob("*.md"), *ROOT.glob("docs/*.md")]):
        for link, source in LINK.findall(CODE.sub("", BLOCK.sub("", page.read_text()))):
            name, _, heading = (link or source).partition("#")
            target = (page.parent / name).resolve() if name else page
            if "://" in name:
                continue
            if not pathlib.Path(target).exists() or heading and heading not in anchors(target.read_text()):
                yield f"{page.relative_to(ROOT)}: {link or source}"
