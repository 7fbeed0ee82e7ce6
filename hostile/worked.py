"""The plain Rust program itself: of the worked schedules it prints the reports, and leaves the areas, that the gate has.

Those were derived from the rules before rr ran them. What the other parts expect comes from this program alone.
"""
import re

import reading
from harness import TREE, Tally, schedules, tell

STORED = TREE / "crates/worked_rows/stdout"
RUN = re.compile(r"(\S+)\.schedule run")
FAULT = re.compile(r"(\S+)\.schedule (Bad.*)")
AREA = re.compile(r"(\S+)\.schedule area of \d+ bytes")


def stored():
    """The reports, the faults and the areas that are stored, by the names of their schedules."""
    reports, faults, areas, lines = {}, {}, {}, []
    for line in STORED.read_text().splitlines():
        if run := RUN.fullmatch(line):
            lines = reports.setdefault(run[1], [])
        elif area := AREA.fullmatch(line):
            lines = []
            areas.setdefault(area[1], []).append(lines)
        elif ".schedule " in line:
            if fault := FAULT.fullmatch(line):
                faults[fault[1]] = fault[2]
            lines = []
        else:
            lines.append(line)
    return reports, faults, areas


def tasks(options):
    return [None]


def work(rig, options, task):
    tally = Tally()
    reports, faults, areas = stored()
    texts = schedules()
    for name, lines in reports.items():
        wanted = "".join(f"{line}\n" for line in lines).encode()
        tally.check(rig.plain.sim(texts[name])[:2] == (0, wanted), f"{name}: the plain Rust program prints another report")
    for name, fault in faults.items():
        ending = rig.plain.sim(texts[name])
        tally.check((ending.status, ending.err.split(b" ", 2)[-1]) == (3, f"{fault}\n".encode()), f"{name}: {ending}")
    for name, both in areas.items():
        bytes_of = tuple(bytes.fromhex("".join(area)) for area in both)
        tally.check(rig.plain.areas(texts[name]) == bytes_of, f"{name}: the plain Rust program leaves other areas")
        shown, text = rig.plain.show(bytes_of), reading.Disk(bytes_of).text()
        tally.check(shown.out == text, f"{name}: reading.py finds {text}, and the plain Rust program {tell(shown)}")
    tally.counts.update({"reports": len(reports), "faults": len(faults), "folders": len(areas)})
    return tally
