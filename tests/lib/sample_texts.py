"""Texts of topologies and of schedules, what is wrong with some of them, and others that are accepted. Worked out by
hand from docs/FORMATS.md."""
from __future__ import annotations

from collections.abc import Iterator

import sample_fabrics

# Topologies, each with a fault in its first line.
NO_GRAMMAR = (
    'switch 1 "A" guid 0x1', 'Switch 1 "A" guid 0x1 cap', 'Switch 1 "A" guid 0x1 cap 5 6',
    'Switch 1 "A" guid 0x1 room 5', 'Hca 1 "A" guid 0x1 cap 5', 'Hca 1 "A" GUID 0x1', 'Hca 1 "A" guid 0X1',
    'Hca 1 "A" guid 1', 'Hca 1 "A" guid 0x', 'Hca 1 "A" guid 0xg', 'Hca 1 "A" guid 0x00000000000000001',
    'Hca +1 "A" guid 0x1', 'Hca 1x "A" guid 0x1', 'Hca 1 "A"guid 0x1', 'Hca 1"A" guid 0x1', 'Hca 1 "A guid 0x1',
    "Hca 1 A guid 0x1", 'Hca 1 "A" guid 0x1\r', 'Hca 1 "A" guid\r0x1\n', 'Hca 1 "A" guid 0x1\r\r\n',
    'Hca 1 "A"\u00a0guid 0x1', '\ufeffHca 1 "A" guid 0x1', 'Hca 1 "A" guid 0x1\x0c', '[1] "A"[1]', "Hca",
    'Hca 1 "" guid 0x1', 'Hca 1 "A\tB" guid 0x1', 'Hca 1 "\u00e9" guid 0x1', f'Hca 1 "{"A" * 65}" guid 0x1',
)

# A topology, and its fault.
TOPOLOGY_FAULTS = (
    *((text, "line 1: syntax") for text in NO_GRAMMAR),
    ('Hca 0 "A" guid 0x1', "line 1: ports"),
    ('Hca 255 "A" guid 0x1', "line 1: ports"),
    (f'Hca {"9" * 23} "A" guid 0x1', "line 1: ports"),
    ('\nSwitch 1 "A" guid 0x1 cap 0', "line 2: ports"),
    ('\nSwitch 1 "A" guid 0x1 cap 49153', "line 2: ports"),
    ('Ca 2 "A" guid 0xFFFFfffffffffffe', "line 1: guid"),
    ('Ca 1 "A" guid 0x1\r\nCa 1 "A" guid 0x2\r\nCa 0 "B" guid 0x1', "line 2: name"),
    ('Ca 1 "A" guid 0x1\nx\nCa 1 "A" guid 0x1', "line 2: syntax"),
    ('Ca 1 "A" guid 0x1\n[1] "B"[1]\nCa 0 "B" guid 0x1', "line 3: ports"),
    ('Ca 1 "A" guid 0x1\n[9] "B"[1]\n[9] "A"[1]', "line 2: peer"),
    *((f'Ca 1 "A" guid 0x1\n{link}', "line 2: syntax") for link in (
        '[1]"A"[3]', '[1] "A" [3]', '[1] "A"[3] 5', '[] "A"[-1]', '[1] "A"[]', '[1] "A"[+1]', '[1] "A"[1a]',
        '[1] "A"[1', '[1] "A"[1]]', '[1] "A""[1]', '[1] "A"', "[1] A[1]", '[1] "A[1]', '[1] ""[1]',
    )),
    *((f'Ca 1 "A" guid 0x1\n{link}', "line 2: port") for link in (
        '[1] "A"[2]', '[1] "A"[0]', '[1] "A"[255]', '[1] "A"[300]', '[1] "A"[18446744073709551617]',
        '[99999999999999999999] "A"[1]',
    )),
    ('Ca 3 "A" guid 0x1\n[1] "A"[2]\n[3] "A"[2]', "line 3: linked"),
    ('Ca 3 "A" guid 0x1\n[1] "A"[1]\n[1] "A"[2]', "line 3: linked"),
)

# Topologies that are accepted.
TOPOLOGIES = (
    "", '\r\n \t # Hca\r\n#\r\u00e9"', '\tHca 1 "A # b" guid 0x5#c\n', f'Hca 1 "{"A" * 64}" guid 0x1',
    f'Ca 000254 "A" guid 0x0000000000000005\n[000001]\t"A"[{"0" * 26}254] #',
    'Ca 1 "A" guid 0xFFFFFFFFfffffffe\nSwitch 254 "a" guid 0xffffffffffffffff cap 49152',
    'Ca 2 "A" guid 0x1\n[1] "A"[1]\n[1] "A"[1]\n[2] "B"[1]\nCa 1 "B" guid 0x1\n[1] "A"[2]',
)

# A switch, two adapters and two managers.
FABRIC = 'Switch 4 "S 1" guid 0x10\n[1] "H1"[1]\nHca 2 "H1" guid 0x100\nHca 1 "H2" guid 0x200\n'
MANAGERS = 'manager A "H1"[1] 15\nmanager b2 "H2"[01] 0\n'

DECIDER = 'manager c "H1"[2] 1 decides 5'

# Lines after those of the managers, and their fault.
SCHEDULE_FAULTS = (
    *((line, "line 3: syntax") for line in (
        "Sweep A", "sweep", "sweep A A", 'sweep "A"', "sweep A_", "sweep ABCDEFGHIJKLMNOPQ", "merge A", "merge A A A",
        "deliver", "deliver Last", "deliver 18446744073709551616", "lose 184467440737095516150", "repeat -1",
        "drain 1000001", "drain last", "tables A", "flight 0", "traps A", "resend 1", "Resend",
        'cut "S 1"[256]', 'cut "S 1" [1]', "cut S[1]",
        'cut ""[1]', 'plug "S 1"[1]', 'ping "S 1"[1]', 'ping "S 1"[1] 65536', 'ping "S 1"[1] 0x1',
        'manager c "H1"[2] 16', 'manager c "H1"[2]', 'manager c "H1"[2] 1 1', "write", "handover", "handover A b2",
        "yield", "yield A b2", "rediscover", "rediscover A b2", "Yield A",
        "poll", "poll 1 A 1", "poll A 65536", "floor A", "floor A 0", "floor A 4294967296", "state", "silent",
        "Silent A", "silent A b2", "written", "write A b2", "writte A", "written A b2", "State A",
        'manager A "S 1"[0] 16', 'manager c "H1"[2] 1 decides', 'manager c "H1"[2] 1 decides -1',
        'manager c "H1"[2] 1 decides 4294967295', 'manager c "H1"[2] 1 decide 1', 'manager c "H1"[2] 1 decides 1 1',
        "wait", "wait 1", "wait 1 10001", "wait 4294967296 1", "wait A 1", "wait 1 1 1", "pause", "pause A b2",
        "resume", "resume 1 1",
    )),
    *((f"{DECIDER}\n{line}", "line 4: decides") for line in (
        "sweep c", "write c", "handover c", "yield c", "rediscover c", "poll c", "poll c 1", "timeout c", "floor c 1",
        "merge c A", "merge A c", "merge c d", "pause A", "resume b2",
    )),
    *((line, "line 3: name") for line in (
        "sweep a", "merge A c\nx", "merge c A", "handover c", "yield c", "rediscover c", "poll c", "poll c 1",
        "floor c 1", "state c", "silent c", "pause c", "resume c", "timeout c",
        "written c", 'cut "S"[1]', 'plug "H1"[1] "S"[1]', 'plug "S"[1] "H1"[1]', 'ping "S"[1] 1', 'manager A "H1"[2] 0',
        'manager A "S 1"[0] 0', 'manager c "S"[0] 0',
    )),
    *((line, "line 3: seat") for line in ('manager c "H1"[0] 0', 'manager c "H1"[3] 0', 'manager c "H1"[1] 0')),
    ('\nsweep c\nmanager c "H1"[2] 0', "line 4: name"),
    ('#\r\nmanager c "S 1"[1] 0', "line 4: seat"),
    ('manager c "H1"[2] 0\nmanager d "H1"[2] 0', "line 4: seat"),
    (f'{DECIDER}\nmanager d "H1"[2] 0', "line 4: seat"), ('manager c "H1"[1] 0 decides 0', "line 3: seat"),
    (f'{DECIDER}\nmanager c "H1"[2] 0', "line 4: name"), ('manager A "H1"[2] 0 decides 0', "line 3: name"),
    (f"{DECIDER}\npause d", "line 4: name"), (f"{DECIDER}\nmerge A d", "line 4: name"),
)

# Lines that are accepted, and what they print.
LINES = (
    ("sweep A", ""), ("merge b2 A", ""), ("merge A A", ""), ("handover b2", "refused NotMaster\n"),
    ("yield b2", "refused NotMaster\n"), ("rediscover A", "refused NotStandby\n"),
    ("poll A", "refused NotStandby\n"), ("poll b2 065535", "refused NotStandby\n"), ("floor b2 4294967295", ""),
    ("timeout b2", ""), ("facts A", ""), ("plan b2", ""),
    ("progress b2", "progress b2 never\n"), ("silent b2", "silent b2 never\n"), ("silent\tA #", "silent A never\n"),
    ("written b2", "written b2 no\n"), ('manager c "H1"[2] 007', ""), ('cut "S 1"[255]', "refused NoSuchPort\n"),
    ('plug "S 1"[0] "H2"[001]', "refused NoSuchPort\n"), ("tables", "switch 0000000000000010 top 0\nblock 0 %\n"),
    ("traps", ""), ("resend", ""), ("traps # on\ntraps\nresend", ""),
    ("flight\r\n", ""), ("deliver last", "refused NoSuchPacket\n"), ("lose 0", "refused NoSuchPacket\n"),
    ("repeat 0018446744073709551615", "refused NoSuchPacket\n"), ("drain 0", ""), ("drain 001000000#", ""),
    ("wait 4294967295 0", ""), ("wait 04294967295 010000", ""), ("wait 0 1", ""), (DECIDER, ""),
    ('manager c "H1"[2] 1 decides 004294967294#', ""), (f"{DECIDER}\npause c\nresume c\npause\tc", ""),
    (f"{DECIDER}\nstate c\nwritten c\nprogress c\nsilent c\nfacts c",
        "state c discovering\nwritten c no\nprogress c never\nsilent c never\n"),
    (f"{DECIDER}\npause c\nwait 9000 1000\nprogress c", "progress c never\n"),
    ("sweep A\r\n\t# next\n" * 1000, "refused SweepRunning\n" * 999),
)


def runs() -> Iterator[tuple[str, str, str | None, str | None]]:
    """Yields a topology and a schedule, the fault with its line, and what the run prints."""
    for text, fault in TOPOLOGY_FAULTS:
        yield text, "tables", f"TOPO: {fault}", None
    for text in TOPOLOGIES:
        yield text, "flight", None, ""
    for line, fault in SCHEDULE_FAULTS:
        yield FABRIC, MANAGERS + line, f"LINES: {fault}", None
    for text, fault in ("sweep A", "line 1: name"), ("# no\nmanager A", "line 2: syntax"):
        yield FABRIC, text, f"LINES: {fault}", None
    for line, printed in LINES:
        yield FABRIC, MANAGERS + line, None, printed.replace("%", "f" * 128)
    # A path has at most 63 ports; the last of 64 switches in a row is one too far.
    for count, far in (63, 0), (64, 1):
        swept = 'manager M "H1"[1] 1\nsweep M\ndrain 100000\nprogress M\n'
        yield sample_fabrics.line(count).topology(), swept, None, f"progress M done unanswered 0 toofar {far}\n"
