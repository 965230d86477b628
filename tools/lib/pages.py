"""Manual pages made from the help of tools."""
from __future__ import annotations

import re
from collections.abc import Iterable

from version import VERSION


def escaped(line: str) -> str:
    """Returns a line as it stands in a page."""
    line = line.replace("\\", "\\e").replace("-", "\\-")
    return f"\\&{line}" if line[:1] in (".", "'") else line


def sections(help_text: str) -> tuple[str, str, list[str], list[str]]:
    """Returns the parts of a help text: its first sentence, the usage, other paragraphs, and those on exit statuses."""
    first, _, rest = help_text.strip().partition("\n\n")
    usage, _, rest = rest.partition("\n\n")
    paragraphs = rest.split("\n\n")
    ends = [part for part in paragraphs if part.startswith("The exit status is ")]
    return first, usage.removeprefix("usage: "), [part for part in paragraphs if part not in ends], ends


def page_of(name: str, help_text: str, others: Iterable[str]) -> str:
    """Returns the page of an installed tool, called `name`. `others` are the tools that the help names as tools/X."""
    text = help_text
    for other in others:
        text = re.sub(rf"tools/{re.escape(other)}\b(?!\.)", f"ibsm-{other}", text)
    first, usage, paragraphs, ends = sections(text)
    sentence = first.replace("\n", " ").rstrip(".")
    lines = [
        f'.TH {name.upper().replace("-", chr(92) + "-")} 1 "" "ibsm {VERSION}" "ibsm"',
        ".SH NAME",
        f"{escaped(name)} \\- {escaped(sentence[0].lower() + sentence[1:])}",
        ".SH SYNOPSIS",
        ".nf",
        *(escaped(re.sub(" {2,}", "    ", line)) for line in usage.splitlines()),
        ".fi",
        ".SH DESCRIPTION",
    ]
    for index, part in enumerate(paragraphs):
        is_list = any(line.startswith(" ") or re.match(r"\w+ {2,}", line) for line in part.splitlines())
        lines += [".PP"] if index else []
        lines += [".nf"] if is_list else []
        lines += map(escaped, part.splitlines())
        lines += [".fi"] if is_list else []
    for part in ends:
        lines += [".SH EXIT STATUS", *map(escaped, part.splitlines())]
    lines += [".SH SEE ALSO", ".BR ibsm (1)"]
    return "\n".join(lines) + "\n"
