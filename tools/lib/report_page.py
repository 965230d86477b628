"""The page of `tools/report` as HTML: one file, with its style and its script in it."""
from __future__ import annotations

import json
import pathlib
import re
from collections.abc import Container, Iterable, Sequence
from typing import Any

import drawing
from drawing import GREATEST, STEPS, escaped
from report_findings import SHOWN, Finding, Findings
from report_picture import Picture, hundredths

HERE = pathlib.Path(__file__).resolve().parent


def table(head: Sequence[str], rows: Iterable[Sequence[object]], numbers: Container[int] = ()) -> str:
    """Returns a table. `numbers` are the indices of columns that hold numbers."""

    def cell(tag: str, i: int, value: object) -> str:
        text = value if isinstance(value, Raw) else f"{value:,}" if isinstance(value, int) else escaped(value)
        return f"<{tag}{' class=number' if i in numbers else ''}>{text}</{tag}>"

    heads = (cell("th", i, it) for i, it in enumerate(head))
    lines = ["<div class=wide><table><thead><tr>", *heads, "</tr></thead><tbody>"]
    for row in rows:
        lines.append("<tr>" + "".join(cell("td", i, it) for i, it in enumerate(row)) + "</tr>")
    return "".join(lines) + "</tbody></table></div>"


class Raw(str):
    """Text that is HTML already."""


def section(title: str, *parts: str) -> str:
    """Returns a section of the page, with its title."""
    return f"<section><h2>{escaped(title)}</h2>{''.join(parts)}</section>"


def paragraph(text: object) -> str:
    """Returns a paragraph. A text that is HTML already stays as it is."""
    return f"<p>{text if isinstance(text, Raw) else escaped(text)}</p>"


def verdict(parts: dict[str, Any]) -> str:
    """Returns whether the tables pass the audit, and why they do not."""
    findings: Findings = parts["findings"]
    word = "The tables pass the audit." if parts["passes"] else "The tables do not pass the audit."
    reasons = "".join(f"<li>{escaped(it[0].upper() + it[1:])}</li>" for it in findings.reasons())
    return f'<p class="verdict {"good" if parts["passes"] else "bad"}">{word}</p>' + (
        f"<ul class=reasons>{reasons}</ul>" if reasons else ""
    )


def shown(lines: Sequence[str], left_out: int) -> str:
    """Returns a list of lines of HTML, of which all but the first ones are folded away."""
    items = [f"<li>{line}</li>" for line in lines]
    text = f"<ul class=findings>{''.join(items[:SHOWN])}</ul>"
    if items[SHOWN:]:
        rest = "".join(items[SHOWN:])
        text += f"<details><summary>{len(items) - SHOWN:,} more</summary><ul class=findings>{rest}</ul></details>"
    if left_out:
        text += paragraph(f"The audit has {left_out:,} more lines of this kind.")
    return text


def found(parts: dict[str, Any]) -> str:
    """Returns the section with what the audit found, by cause."""
    findings: Findings = parts["findings"]
    blocks = []
    if findings.audit.cycle:
        steps = "".join(f"<li>{escaped(it)}</li>" for it in findings.loop())
        told = "Packets can wait for each other in a circle on these channels, if all take one virtual lane."
        blocks.append(f"<h3>A credit loop</h3>{paragraph(told)}<ol class=findings>{steps}</ol>")
    for it in findings.listed:
        blocks.append(f"<h3>{escaped(title_of(it, findings))}</h3>{shown(it.lines, it.left_out)}")
    return section("What is found", *(blocks or [paragraph("Nothing is found.")]))


def title_of(finding: Finding, findings: Findings) -> str:
    """Returns the title of a finding; that on packets that are lost has how many of each cause."""
    if finding.title != "Packets are lost":
        return finding.title
    return f"{finding.title}: {findings.missed(('misdelivered', 'round'))}"


def audit(parts: dict[str, Any]) -> str:
    """Returns the text of the audit, folded away."""
    text = escaped("\n".join(parts["audit"]))
    return section("Audit", f"<details><summary>The text of the audit</summary><pre>{text}</pre></details>")


def changes(parts: dict[str, Any]) -> str:
    """Returns the section on what changed since earlier facts, or an empty text if none were given."""
    if parts["changes"] is None:
        return ""
    told = "".join(f"<li><code>{escaped(line)}</code></li>" for line in parts["changes"])
    body = f"<ul class=findings>{told}</ul>" if told else paragraph("Nothing changed.")
    return section(f"Changes since {parts['was']}", body)


def what_if(parts: dict[str, Any]) -> str:
    """Returns the section on what is lost without each cable."""
    if parts["cuts"] is None:
        return section(
            "What if a cable goes", paragraph("Facts are disputed, or nothing has a LID: no cable is cut in thought.")
        )
    cuts = parts["cuts"]
    uncut = cuts.uncut
    head = ("cable", "pairs of adapters lost", "all pairs lost", "cut off", "entries", "on switches")
    told = f"{cuts.count:,} cables between switches; without {cuts.harmless:,} of them no packet between adapters is "
    told += "lost."
    entries = f"Entries are those that a new plan by {uncut.rule} changes."
    if uncut.entries:
        which = "The held tables are of another rule" if uncut.is_asked else "The held tables follow no rule of plans"
        base = f"changes {uncut.entries:,} entries on {uncut.switches:,} switches even if nothing is cut"
        entries += f" {which}: a plan by {uncut.rule} {base}, and these count in each line."
    rows = [(Raw(cable), *figures) for cable, *figures in cuts.rows]
    return section("What if a cable goes", paragraph(f"{told} {entries}"), table(head, rows, range(1, 6)))


def legend(picture: Picture) -> str:
    """Returns what the colours of channels tell."""
    if not picture.total:
        return "<p class=legend>No channel carries a packet between adapters.</p>"
    swatches = "".join(f'<i style="background:var(--h{i})"></i>' for i in range(STEPS + 1))
    mean, most = hundredths(picture.total, picture.count), max(picture.loads.values())
    ends = f"<span>0</span>{swatches}<span>{GREATEST:g} times the mean and more</span>"
    return f"<p class=legend>{ends}<span>\u00b7 mean {mean}, most {most:,} pairs of adapters</span></p>"


def chosen_first(picture: Picture) -> str:
    """Returns what the panel below the picture tells at first."""
    if not picture.loop:
        return "Choose a channel, in the picture or in the table."
    way = " \u2192 ".join(picture.name(end[0]) for end in [*picture.loop, picture.loop[0]])
    return f"Credit loop of {len(picture.loop)} channels: {way}"


def picture_section(parts: dict[str, Any]) -> str:
    """Returns the section with the picture, its legend and the busiest channels."""
    picture: Picture = parts["picture"]
    told = "Each line is a channel: a cable between switches, taken one way. "
    if picture.is_folded:
        told = "Each box is a group of switches, and each line all channels between two groups, in the colour of the "
        told += "busiest one; a box has the colour of the busiest channel inside. A click on a box unfolds it. "
    told += "Colours tell how many pairs of adapters send over a channel. The wheel zooms; drag to move."
    loop = ""
    if picture.loop and picture.is_folded:
        loop = f"<h3>The credit loop</h3><div class=net-loop>{picture.ring().svg(name='loop')}</div>"
    rows = [
        (
            Raw(
                f'<button data-c="{picture.short(it)}" data-told="{escaped(picture.told(it))}">'
                f"{escaped(picture.channel_name(it))}</button>"
            ),
            picture.loads[it],
            picture.times_mean(it),
        )
        for it in picture.busiest
    ]
    unused = sum(not load for load in picture.loads.values())
    buttons = "<button id=whole hidden>All groups</button> <button id=fit>Whole picture</button>"
    return section(
        "Where packets go",
        paragraph(told),
        legend(picture),
        paragraph(f"{parts['busy'][0].upper()}{parts['busy'][1:]}.") if parts["busy"] else "",
        loop,
        f"<p class=tools>{buttons}</p><div class=picture>{picture.drawing.svg()}</div>",
        f"<p id=told aria-live=polite>{escaped(chosen_first(picture))}</p>",
        "<h3>The busiest channels</h3>",
        table(("channel", "pairs", "times the mean"), rows, (1, 2)),
        paragraph(f"{unused:,} of {picture.count:,} channels carry nothing."),
        paragraph(WHO_SENDS),
    )


WHO_SENDS = Raw(
    "Who sends over a channel is not on this page. <code>ibsm audit --way G/p,L TABLES FILE..</code> prints the way of "
    "the packet from port p of node G to the LID L, channel by channel, and <code>draw --way</code> draws it."
)
PROVED = {
    True: "The program that printed the audit says that it is proved: then what the audit says of these facts and "
    "tables, also of what each channel carries, is so (docs/PROVED.md has the theorems), of unicast, on one virtual "
    "lane, with agents that do what docs/FORMATS.md says.",
    False: "The program that printed the audit was compiled without its proofs: nothing on this page is proved.",
    None: "The program that printed the audit does not tell whether it is proved. If it is, what the audit says of "
    "these facts and tables is so, of unicast, on one virtual lane, with agents that do what docs/FORMATS.md says.",
}


def proved(parts: dict[str, Any]) -> str:
    """Returns the section on what of the page is proved and what is not."""
    rows = (
        "That the subnet answered truly, and is still as it was recorded. An audit speaks of the recording.",
        "That the facts without a cable are what would be left of the subnet: a tool makes them for the same program, "
        "and is tested, not proved.",
        "The picture, names, changes, how lines of the audit are put together, and how this page reads what the "
        "program prints.",
        "What else loses packets: multicast, adaptive routing, several virtual lanes, full buffers, faults of "
        "hardware.",
    )
    body = "<h3>Not proved</h3><ul>" + "".join(f"<li>{escaped(row)}</li>" for row in rows) + "</ul>"
    return section("What is proved of this", paragraph(PROVED[parts["proved"]]), body)


def page(parts: dict[str, Any]) -> str:
    """Returns the page of what `tools/report` has found, with its style and its script."""
    style, script = ((HERE / f"report.{kind}").read_text() for kind in ("css", "js"))
    script = re.sub(r"(?m)^\s*//.*\n", "", script)
    picture: Picture = parts["picture"]
    data = json.dumps(picture.data(), separators=(",", ":")).replace("<", "\\u003c") if picture.is_folded else ""
    title, rows = escaped(parts["title"]), list(parts["subnet"].items())
    disputed = table(("disputed",), [(it,) for it in parts["disputed"][:20]]) if parts["disputed"] else ""
    return (
        "<!doctype html><html lang=en><head><meta charset=utf-8>"
        "<meta name=viewport content='width=device-width, initial-scale=1'>"
        f"<title>{title}</title><style>{drawing.style()}{style}</style></head><body><main><h1>{title}</h1>"
        f"{verdict(parts)}{picture_section(parts)}{found(parts)}"
        f"{what_if(parts)}{changes(parts)}{section('The subnet', table(('', ''), rows, (1,)), disputed)}{audit(parts)}"
        f"{proved(parts)}</main>{f'<script type=application/json id=data>{data}</script>' if data else ''}"
        f"<script>{script}</script></body></html>\n"
    )
