"""Each byte of the areas that worked schedules leave takes each of its 256 values, and each area is cut at each place.

What rr's libraries show is what the plain Rust program does, in the form that docs/FORMATS.md gives. One folder of some is
given to `rr` itself. Some folders are taken once more, as version 1 wrote them. Of an area above 512 bytes the bytes in the
middle, which are those of facts like the ones before, have one bit turned each, unless --all is given.
"""
import re

from harness import Plain, Tally, compare, schedules, tell

FOLDERS = (
    "append_behind_a_lost_gate",
    "crash_fill_is_taken_in_turn",
    "failed_write_of_a_body",
    "group_of_sixty_four",
    "group_of_two-flushed",
    "one_command",
    "second_snapshot",
    "snapshot",
    "snapshot_holds_marked_facts_alone",
    "snapshot_of_an_open_instance",
    "switch_closes_the_old_area_first",
    "torn_body_behind_a_closed_gate",
    "torn_formatting",
    "torn_formatting_opened",
)
SHORT = ("group_of_two-flushed", "torn_formatting")
# Of these the areas are taken as version 1 wrote them too.
OLD = ("group_of_two-flushed", "one_command", "snapshot_of_an_open_instance")
LINE = rb"(?:unformatted|epoch [1-9]\d* node [0-6] of [1-7] facts (?:0|[1-9]\d*) decided (?:0|[1-9]\d*)( version 1)?)\n"
SHOWN = re.compile(rb"area 0 " + LINE + rb"area 1 " + LINE)
DAMAGED = re.compile(rb"rr: 3 Damaged [01] (?:0|[1-9]\d*)\n")
OPEN = b"\xa5"
STRETCH = 16
# One folder of so many is given to rr itself.
SHARE = 64
LONG, FRONT, BACK = 512, 192, 64


def tasks(options):
    """Stretches of 16 bytes; of schedules that leave the same areas the first."""
    plain = Plain(options.plain)
    texts = schedules(SHORT if options.short else FOLDERS)
    first = {}
    for name, text in texts.items():
        areas = plain.areas(text)
        first.setdefault(areas, name)
        if name in OLD:
            first.setdefault(tuple(map(of_version_1, areas)), f"{name} of version 1")
    plain.child.stdin.close()
    plain.child.wait()
    return [task for areas, name in first.items() for task in stretches(name, areas)]


def of_version_1(area):
    """Behind an open gate and the length of its frame a snapshot begins with its version. All other bytes are the same."""
    return area[:5] + b"\x01" + area[6:] if area[:1] == OPEN else area


def stretches(name, areas):
    places = ((name, areas, area, at) for area in (0, 1) for at in range(0, len(areas[area]), STRETCH))
    return [(name, areas, None, 0), *places]


def work(rig, options, task):
    name, areas, area, start = task
    tally = Tally()
    if area is None:
        tally.counts["folders"] += 1
        ways = (("as it is", areas), ("exchanged", areas[::-1]), ("the first twice", areas[:1] * 2), ("both empty", (b"", b"")))
        cases = [(f"{name}, {what}", both) for what, both in ways]
    else:
        cases = list(altered(options, tally, name, areas, area, start))
    endings = rig.ask_many([(f"show {len(both[0])} {len(both[1])}", *both) for _, both in cases])
    for number, ((what, both), ending) in enumerate(zip(cases, endings)):
        first, why = first_line(ending)
        judge(rig, tally, what, both, first, why)
        if number % SHARE == 0 or area is None:
            by_program(rig, tally, what, both, first)
    return tally


def altered(options, tally, name, areas, area, start):
    """What was done to an area, and both areas: its bytes get their other values, and it is cut."""
    data = areas[area]
    for at in range(start, min(start + STRETCH, len(data))):
        for value in values_at(options, data, at):
            tally.counts["bytes set"] += 1
            yield f"{name}, byte {at} of area {area} set to {value:02X}", changed(areas, area, data[:at] + bytes([value]) + data[at + 1 :])
        tally.counts["cuts"] += 1
        yield f"{name}, area {area} cut to {at} bytes", changed(areas, area, data[:at])


def changed(areas, area, data):
    return (data, areas[1]) if area == 0 else (areas[0], data)


def values_at(options, data, at):
    if options.all or len(data) <= LONG or at < FRONT or at >= len(data) - BACK:
        return [value for value in range(256) if value != data[at]]
    return [data[at] ^ 1 << bit for bit in range(8)]


def first_line(ending):
    """An ending with the first line of standard error alone, and the line on the folder behind it."""
    if not ending:
        return ending, b""
    line, feed, why = ending.err.partition(b"\n")
    return ending._replace(err=line + feed), why


def what_stands_there(areas, refusal):
    """The end of the line on the damaged place that the refusal names."""
    area, offset = map(int, refusal.split()[-2:])
    there = areas[area][offset : offset + 16]
    has = "has " + there.hex(" ") if there else "ends"
    return f": the file a{area} is damaged at byte {offset}, where it {has}\n".encode()


def tells_versions(areas, lines):
    """Whether there are lines, of which that of an area of version 1 says so, and no other."""
    return lines and all(bool(told) == (area[:1] == OPEN and area[5:6] == b"\x01") for told, area in zip(lines.groups(), areas))


def judge(rig, tally, what, areas, ending, why):
    wanted = rig.plain.show(areas)
    tally.counts[{0: "shown", 4: "damaged"}.get(wanted.status, "other")] += 1
    if tally.check(ending, f"{what}: no answer") and compare(tally, what, ending, wanted):
        shown = tells_versions(areas, SHOWN.fullmatch(ending.out)) and ending.status == 0 and not ending.err
        damaged = DAMAGED.fullmatch(ending.err) and ending.status == 4 and not ending.out
        tally.check(shown or damaged, lambda: f"{what}: {tell(ending)}")
        if damaged:
            tally.check(why.endswith(what_stands_there(areas, ending.err)), lambda: f"{what}: {tell(ending)}, and then {why!r}")


def by_program(rig, tally, what, areas, ending):
    """`rr show` of a folder with these files ends as its libraries say."""
    for number in (0, 1):
        rig.write(f"node/a{number}", areas[number])
    got = rig.run("show", rig.path("node"))
    tally.counts["folders given to rr itself"] += 1
    tally.check(got == ending, lambda: f"{what}: by rr itself {tell(got)}; wanted {ending}")
