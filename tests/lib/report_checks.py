"""What `tests/test-files` checks of pages of `tools/report`, also in a browser if there is one."""
from __future__ import annotations

import html
import html.parser
import json
import pathlib
import re
import shutil
import subprocess

import sample_fabrics
from ibsm_texts import Facts, Plan
from packet_routes import Routes
from tool_room import Room

TWO = f"{0x20:016x}"
# Stands in for `ibsm`: takes audits, whatever of, and plans from files beside it.
FAKE = """#!/bin/sh
case $1 in
audit)
    case $2 in
    */balance.plan) [ ! -f balance.text ] || { cat balance.text; echo passes yes; exit 0; } ;;
    esac
    cat audit.text
    if grep -q passes audit.ends; then echo passes yes; else echo passes no: pairs; exit 1; fi
    ;;
plan) echo "$*" >>fake.planned; cat fake.plan ;;
--version) echo 'ibsm 0.1.0'; cat version.text ;;
esac
"""
SOUND = """pairs 25 arrive 25
between adapters pairs 4 arrive 4
with a switch pairs 21 arrive 21
missed above-top 0 no-entry 0 no-port 0 no-link 0 foreign 0 misdelivered 0 round 0
hops max 3 mean 3.00
load max 1 mean 0.33
credit loop none
"""
# The loads of the channels of the triangle, as they follow these lines.
LOADS = "".join(
    f"channel {guid:016x}/{port} load {int((guid, port) in ((0x20, 2), (0x30, 2)))}\n"
    for guid in (0x10, 0x20, 0x30)
    for port in (1, 2)
)
VOID = {"meta", "br"}
# A credit loop over the triangle's switches.
LOOP = "credit loop on one lane 0000000000000010/1 0000000000000020/2 0000000000000030/1"


class Balanced(html.parser.HTMLParser):
    """A parser that checks that a page's elements close in order."""

    def __init__(self, text: str) -> None:
        super().__init__()
        self.open, self.fault, self.seen = [], None, []
        self.feed(text)
        self.close()

    def handle_starttag(self, tag: str, attributes: list[tuple[str, str | None]]) -> None:
        self.seen.append((tag, dict(attributes)))
        if tag not in VOID:
            self.open.append(tag)

    def handle_startendtag(self, tag: str, attributes: list[tuple[str, str | None]]) -> None:
        self.seen.append((tag, dict(attributes)))

    def handle_endtag(self, tag: str) -> None:
        if not self.open or self.open.pop() != tag:
            self.fault = self.fault or f"</{tag}> at {self.getpos()}"


def shown(room: Room, path: pathlib.Path, script: str) -> str | None:
    """Returns a page as a browser has it after a script that runs behind its own, or None if there is no browser."""
    browser = next((name for name in ("chromium", "chromium-browser", "google-chrome") if shutil.which(name)), None)
    if not browser:
        return None
    clicked = path.with_suffix(".clicked.html")
    clicked.write_text(path.read_text().replace("</body>", f"<script>{script}</script></body>"))
    words = [browser, "--headless", "--no-sandbox", "--disable-gpu", "--dump-dom"]
    words += [f"--user-data-dir={room.path}/browser", f"file://{clicked}"]
    return subprocess.run(words, capture_output=True, text=True, timeout=120).stdout


def in_a_browser(room: Room, path: pathlib.Path) -> None:
    """Checks the page's script in a browser: a click on a channel, in the table or in the picture, tells its load; one
    on a group unfolds it; and the wheel zooms."""
    text, told = path.read_text(), re.search(r'<button data-c="(.*?)" data-told="(.*?)"', path.read_text())
    is_folded = "id=data" in text
    for what in f'button[data-c="{told[1]}"]', *(() if is_folded else (f'g[data-c="{told[1]}"]',)):
        found = shown(
            room, path, f"document.querySelector('{what}').dispatchEvent(new MouseEvent('click', {{ bubbles: true }}))"
        )
        if found is None:
            print("test-files: there is no chromium here, so no page is tried in a browser")
            return
        room.check(
            f">{html.unescape(told[2])}</p>" in html.unescape(found) and re.search(r'<g class="[^"]* chosen"', found),
            f"a click on {what} tells {told[2]}: {found[-300:]}",
        )
    box = re.search(r'id="net"[^>]*viewBox="(.*?)"', text)[1].split()
    found = shown(room, path, "net.dispatchEvent(new WheelEvent('wheel', { deltaY: -400, clientX: 50, clientY: 50 }))")
    zoomed = re.search(r'id="net"[^>]*viewBox="(.*?)"', found)[1].split()
    room.check(float(zoomed[2]) < 0.7 * float(box[2]), f"the wheel zooms: {box} {zoomed}")
    if is_folded:
        click = "document.querySelector('[data-box=\"0\"]').dispatchEvent(new MouseEvent('click', { bubbles: true }))"
        found = shown(room, path, click).split("<script")[0]
        name, *members = json.loads(re.search("id=data>(.*?)</script>", text)[1])["groups"][0]
        room.check(f">{name}: {len(members)} switches</p>" in found, f"a click on {name} unfolds it")
        room.check(found.count('<g class="switch') == len(members), f"its {len(members)} switches are drawn")
        room.check('<button id="whole">' in found, "with a way back to all groups")


def checked(room: Room, name: str) -> str:
    """Checks that a page needs no other file, and returns its text."""
    text = room.text(name)
    page = Balanced(text)
    room.check(page.fault is None and page.open == [], f"{name}: elements close: {page.fault} {page.open}")
    outside = [it for it in page.seen if {"src", "href", "srcset"} & it[1].keys()]
    room.check(not outside and "://" not in text and "@import" not in text, f"{name} needs nothing else: {outside}")
    return text


def pages(room: Room) -> None:
    """Checks pages of the triangle, with a script in place of the program, pages of many switches, and what is
    refused."""
    room.scripts(fake=FAKE)
    room.put(fake_plan=room.text("t.plan"))
    words = "report t.facts t.plan -o t.html --names all.names --ibsm ./fake"
    sound(room, words)
    beside_balance(room, words)
    not_sound(room, words)
    with_a_credit_loop(room, words)
    names_as_text(room, words)
    large(room)
    refused(room)


def sound(room: Room, words: str) -> None:
    """Checks the page of tables that pass the audit of a proved program."""
    room.put(audit_text=SOUND + LOADS, audit_ends="passes\n", version_text="commit 1\nproved\n")
    room.run(words, 0)
    text = checked(room, "t.html")
    room.check(
        "The tables pass the audit." in text and "Nothing is found." in text and "says that it is proved" in text,
        "a verdict",
    )
    for word in (
        "<td>switches</td><td class=number>3</td>",
        "<td>cables</td><td class=number>5</td>",
        "generation 1",
        "S1",
        "1 adapter<",
    ):
        room.check(word in text, f"the page has {word}")
    room.check(
        len(re.findall("<g [^>]*data-c=", text.split("<script")[0])) == 6
        and "S2 port 2 \u2192 S3 port 2: 1 pair, 3.00 times the mean of 0.33" in text,
        "six channels, and what one carries",
    )
    room.check("4 of 6 channels carry nothing." in text, "unused channels")
    room.check("ibsm audit --way" in text, "how to ask who sends over one")
    room.check("channel 0000" not in text, "the audit's lines of channels are not listed")
    room.check("Changes since" not in text, "no changes are asked")
    in_a_browser(room, room.path / "t.html")
    busy = "t.html: the busiest channel carries 1 pair of adapters, 3.0 times the mean; by a plan by balance 1 pair of "
    busy += "adapters, 3.0 times the mean\n"
    room.check(room.out == f"t.html: the tables pass the audit\n{busy}", "the verdict and the load are printed")
    room.check(room.run(words.replace("-o t.html", "-o -"), 0) == text, "on standard output")
    said = f"report: the tables pass the audit\n{busy.replace('t.html', 'report')}"
    room.check(room.said == said, "and the verdict and the load are said")


def beside_balance(room: Room, words: str) -> None:
    """Checks what is told of the busiest channel by the held tables and by a plan by `balance`."""
    busier = SOUND.replace("load max 1 mean 0.33", "load max 1234 mean 500.00")
    room.put(audit_text=busier + LOADS, balance_text=busier.replace("1234", "750"))
    told = "the busiest channel carries 1,234 pairs of adapters, 2.5 times the mean"
    by_balance = "; by a plan by balance 750 pairs of adapters, 1.5 times the mean"
    other = changed_entry(room.text("t.plan"))
    room.put(other_plan=other)
    for plan, options, by in (
        # The first rule that is tried is updown. A plan by balance is not made again if it is what is held.
        ("t.plan", "", by_balance),
        ("t.plan", "--routing balance", ""),
        ("other.plan", "--routing balance", by_balance),
        ("t.plan", "--routing balance --order x.order", by_balance),
    ):
        room.put(fake_planned="", x_order="0x10\n")
        room.run(f"{words.replace('t.plan', plan)} {options}", 0)
        room.check(room.out == f"t.html: the tables pass the audit\nt.html: {told}{by}\n", f"{options}: {room.out}")
        text = checked(room, "t.html")
        room.check(f"<p>T{told[1:]}{by}.</p>" in text, f"{plan} {options}: the load is on the page")
        planned = [line.split(" /")[0] for line in room.text("fake.planned").splitlines()]
        room.check("plan --routing balance --lmc 0" in planned, f"a plan by balance goes by no order: {planned}")
    none = SOUND.replace("load max 1 mean 0.33", "load none")
    room.put(audit_text=none)
    room.run(words, 0)
    room.check(room.out == "t.html: the tables pass the audit\n", f"nothing is told where no channel is: {room.out}")
    (room.path / "balance.text").unlink()


def changed_entry(plan: str) -> str:
    """Returns the plan of the triangle with another entry for LID 5 in its first switch."""
    at = plan.index("block 0 ") + len("block 0 ") + 2 * 5
    return plan[:at] + "01" + plan[at + 2 :]


def not_sound(room: Room, words: str) -> None:
    """Checks the page of tables by which packets are lost, with what changed since other facts."""
    lost = SOUND.replace("arrive 25", "arrive 24").replace("no-entry 0", "no-entry 1").replace(
        "load max 1", "load max 2"
    )
    lines = "".join(f"lost {sender}/1 5 at {TWO} by 255: no entry\n" for sender in (f"{0x100:016x}", f"{0x200:016x}"))
    lines += f"lost {0x100:016x}/1 3 at {TWO} by 4: no link\nmore lost 7\nround {0x100:016x}/1 2\n"
    lines += f"misdelivered {0x100:016x}/1 1 at {0x200:016x}/1\ntableless {0x30:016x}\nlidless {0x200:016x}/1\n"
    lost = lost.replace("round 0", "round 1200").replace("hops", f"{lines}hops")
    room.put(audit_text=lost, audit_ends="no\n", version_text="commit 1\ncompiled without its proofs: nothing\n")
    room.run(f"{words} --was cut.facts", 1)
    text = checked(room, "t.html")
    room.check(
        room.out.splitlines()[0] == "t.html: the tables do not pass the audit; 1 of 25 packets do not arrive: "
        "1 no entry, 1,200 go round for ever; 1 switch without tables; 1 port without a LID",
        f"why they do not pass is printed: {room.out}",
    )
    for word in (
        "The tables do not pass the audit.",
        "<li>1 of 25 packets do not arrive: 1 no entry, 1,200 go round for ever</li>",
        "<h3>Packets are lost: 1 no entry</h3>",
        f"<li><b>LID 5</b> (H2 <small>{0x200:016x}</small>): no entry at S2 <small>{TWO}</small>; "
        "at least 2 senders</li>",
        f"): sent to port 4, which has no link, at S2 <small>{TWO}</small>; at least 1 sender</li>",
        "The audit has 7 more lines of this kind.",
        f"<b>LID 2</b> (S2 <small>{TWO}</small>): goes round and does not arrive; 1 sender</li>",
        f"<b>LID 1</b> (S1 <small>{0x10:016x}</small>): delivered at H2 <small>{0x200:016x}</small> port 1; "
        "1 sender</li>",
        f"<h3>Switches without tables</h3><ul class=findings><li>S3 <small>{0x30:016x}</small></li>",
        "loses LIDs 3,5",
        "nothing on this page is proved",
    ):
        room.check(word in text, f"a page of tables that do not pass has {word}")
    room.check(len(re.findall('<g class="switch lost"', text)) == 1, "the switch that loses packets has a mark")
    room.check(
        "come cable 0000000000000020/2 &quot;S2&quot; 0000000000000030/2 &quot;S3&quot;" in text,
        "what changed, by name",
    )


def with_a_credit_loop(room: Room, words: str) -> None:
    """Checks that a credit loop is reported, and what is said of a program that does not say whether it is proved."""
    loop = SOUND.replace("credit loop none", LOOP)
    room.put(audit_text=loop + LOADS, audit_ends="no\n", version_text="")
    room.run(words, 1)
    told = "a credit loop of 3 channels: S1 \u2192 S2 \u2192 S3 \u2192 S1"
    said = room.out.splitlines()[0]
    room.check(said == f"t.html: the tables do not pass the audit; {told}", f"a loop is printed: {room.out}")
    text = checked(room, "t.html")
    room.check(
        "wait for each other in a circle" in text and "does not tell whether it is proved" in text,
        "a credit loop is a finding",
    )
    lines = re.findall('<g class="cable [^"]*loop" data-c="(.*?)">.*?</g>', text)
    room.check(sorted(lines) == ["10/1", "20/2", "30/1"], f"the loop's channels alone are drawn as such: {lines}")
    room.check(
        all('class="head"' in it for it in re.findall('<g class="cable [^"]*loop".*?</g>', text)), "each with an arrow"
    )
    drawn = re.findall('<g class="cable ([^"]*)"', text.split("<script")[0])
    room.check(all("loop" in it for it in drawn[3:]) and len(drawn) == 6, f"above all others: {drawn}")
    room.check("<p id=told aria-live=polite>Credit loop of 3 channels: S1" in text, "and it is told of at first")
    room.check("<li>S1 port 1 \u2192 S2</li><li>S2 port 2 \u2192 S3</li>" in text, "channel by channel")
    room.put(built="commit 1\ncompiled without its proofs: nothing\n")
    room.run(words, 1)
    room.check("nothing on this page is proved" in checked(room, "t.html"), "a file beside the program tells it too")
    (room.path / "built").unlink()


def names_as_text(room: Room, words: str) -> None:
    """Checks that a name with marks of HTML is written as text."""
    evil = room.text("all.names").replace('"S1"', '"<b>&S1</script>"')
    room.put(evil_names=evil, audit_text=SOUND, audit_ends="passes\n")
    room.run(words.replace("all.names", "evil.names"), 0)
    room.check("<b>" not in checked(room, "t.html"), "a name is text")


def refused(room: Room) -> None:
    """Checks files and command lines for which there is no page."""
    room.put(bare_facts="floor 5\n", audit_text=SOUND + LOADS)
    for words, why, status in (
        ("none t.plan -o x.html", "none: no nodes", 3),
        ("t.facts nothing -o x.html", "nothing", 4),
        ("t.facts t.plan -o nowhere/x.html", "nowhere/x.html", 4),
        ("t.facts t.plan -o x.html --was nothing", "nothing", 4),
        ("t.facts t.plan -o x.html --was none", "none: no facts", 3),
        ("t.facts t.plan -o x.html --was bare.facts", "bare.facts: no facts", 3),
    ):
        room.refused(f"report {words} --ibsm ./fake", why, status)
    room.put(audit_text=SOUND + LOADS.replace("10/1 load", "10/3 load"))
    room.refused("report t.facts t.plan -o x.html --ibsm ./fake", "a channel that the facts do not have")
    room.put(audit_text="nonsense\n")
    room.refused("report t.facts t.plan -o x.html --ibsm ./fake", "line 1 of the audit is no line of one")
    for words in ("t.facts t.plan", "t.facts -o x.html", "t.facts t.plan -o x.html --groups names"):
        room.run(f"report {words}", 2)
    room.check(not (room.path / "x.html").exists(), "what is refused leaves no page")


def large(room: Room) -> None:
    """Checks that up to 100 switches are drawn, and that more are drawn in groups, with all channels in the page's
    data."""
    for count, is_part in ((100, False), (101, True)):
        fabric = sample_fabrics.random_fabric(count, 4, 300)
        plan = fabric.plan(fabric.shortest())
        room.put(many_facts=fabric.facts(), many_plan=plan, fake_plan=plan)
        loads = Routes(Facts(room.path / "many.facts"), Plan(room.path / "many.plan")).load_lines()
        room.put(audit_text=SOUND + loads)
        room.run("report many.facts many.plan -o many.html --rows 3 --ibsm ./fake", 0)
        text = checked(room, "many.html")
        boxes = text.split("<script")[0].count('<rect class="node"')
        room.check(
            len(text) < 400_000 and (boxes == 100 if not is_part else 10 < boxes < 40),
            f"{count} switches: {len(text)} bytes, {boxes} boxes",
        )
        room.check(("A click on a box unfolds it." in text) == is_part, "groups are told of")
        if is_part:
            data = json.loads(re.search("id=data>(.*?)</script>", text)[1])
            own = sorted(it for _, *members in data["groups"] for it in members)
            room.check(own == list(range(101)) and len(data["switches"]) == 101, "each switch is in a group")
            loaded = sum(it[4] for it in data["channels"])
            wanted = sum(int(line.split()[-1]) for line in loads.splitlines())
            room.check(loaded == wanted == data["total"] and len(data["channels"]) == data["count"], "all loads")
        room.check(len(re.findall("<button data-c", text)) == 3, "so many of the busiest channels")
        room.check('id="loop"' not in text, "there is no loop to draw")
        if is_part:
            in_a_browser(room, room.path / "many.html")
    with_a_loop_in_groups(room, loads)


def with_a_loop_in_groups(room: Room, loads: str) -> None:
    """Checks that a loop in a folded picture is drawn alone, with an arrow for each channel, and in its bundles."""
    told = [line.split()[1] for line in loads.splitlines()]
    facts = Facts(room.path / "many.facts")
    ends = {f"{end[0]:016x}/{end[1]}": facts.wire(end) for end in facts.links if facts.wire(end)}
    there = next(it for it in told if ends[it][0] != int(it[:16], 16))
    back = f"{ends[there][0]:016x}/{ends[there][1]}"
    loop = SOUND.replace("credit loop none", f"credit loop on one lane {there} {back}")
    room.put(audit_text=loop + loads, audit_ends="no\n")
    room.run("report many.facts many.plan -o many.html --rows 3 --ibsm ./fake", 1)
    alone = re.search('<svg id="loop".*?</svg>', checked(room, "many.html"), re.S)[0]
    room.check(alone.count('class="head"') == 2 and alone.count('<rect class="node"') == 2, "a loop of two channels")
    rest = room.text("many.html").replace(alone, "").split("<script")[0]
    room.check(len(re.findall('<g class="(?:cable bundle|group) [^"]*loop', rest)) >= 1, "and its bundle or group")
    data = json.loads(re.search("id=data>(.*?)</script>", room.text("many.html"))[1])
    room.check(sum(len(it) == 6 for it in data["channels"]) == 2, "and its channels, for the script")
