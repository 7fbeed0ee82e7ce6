"""Each byte of some schedules, tapes, scripts and messages takes each of its 256 values, with --short each fourth, and is
cut at each place.

What rr's libraries answer is what the plain Rust program does: a report, a verdict, what was read, or the first fault.
Behind the fault of a schedule or tape a second line tells people what is wrong in that line. One text of some is given to
`rr` itself, which has to end as the libraries do.
"""
import re

from harness import DATA, TREE, Tally, compare, tell

SCHEDULES = ("suspected_coordinators", "crash_after_each_call-01_zeros")
TAPES = ("tapes-one_command",)
NODES = 2
FAULT = re.compile(rb"rr: (?:6 BadNodes|14 BadEvent ([1-9]\d*))\n")
NO = re.compile(rb"rr: 17 AuditNo ([1-9]\d*)\n")
WHY = re.compile(rb"[^:\n]*:([1-9]\d*):[1-9]\d*: [ -~]+\n")
WHY_NO = re.compile(rb"event ([1-9]\d*) \(line [1-9]\d*\): [ -~]+\n")
# A folder that can't be made, and the line that names it or that of a node in it.
NOWHERE = "/proc/nowhere"
NO_FOLDER = re.compile(rb"/proc/nowhere(?:/[01])?: [ -~]+\n")
STRETCH = 4
# One text of so many is given to rr itself.
SHARE = 16
QUESTIONS = {"schedule": "sim", "tape": "audit", "script": f"script {NODES}", "message": "message"}
MALFORMED = re.compile(rb"rr: 11 Malformed (?:0|[1-9]\d*)\n")
# A message of each kind: the kind and the body. Version, sender and addressee stand before them.
VERSIONS = (1, 2)
COMMANDS = {"claim": "00000007 0000000000000001 01 01 61 01 78", "transfer": "FFFFFFFF FFFFFFFFFFFFFFFF 04 02 612D 00000008"}
BODIES = {
    "estimate": "01 00000000 00000003 00000002 " + COMMANDS["claim"],
    "proposal": "02 000FFFFF 7FFFFFFF " + COMMANDS["transfer"],
    "ack": "03 00000001 00000002",
    "decision": "04 00000000 " + COMMANDS["claim"],
    "request": "05 " + COMMANDS["transfer"],
    "nack": "06 00000000 00000001",
    "beat": "07",
    "suspects": "08 41",
    "ask": "09 00000100",
}


def tasks(options):
    texts = [("schedule", name, DATA / f"{name}.schedule") for name in SCHEDULES] + [("tape", name, DATA / f"{name}.tape") for name in TAPES]
    each = [(kind, "each_kind", TREE / f"hostile/each_kind.{kind}") for kind in QUESTIONS if kind != "message"]
    texts = [(kind, name, path.read_bytes()) for kind, name, path in (each if options.short else texts + each)]
    both = [(name, version) for name in BODIES for version in VERSIONS]
    texts += [("message", f"{name} of version {version}", bytes.fromhex(f"0{version} 00 01 {BODIES[name]}")) for name, version in both]
    return [(kind, name, text, at) for kind, name, text in texts for at in range(0, len(text), STRETCH)]


def work(rig, options, task):
    kind, name, text, start = task
    tally = Tally()
    cases = list(altered(options, tally, kind, name, text, start))
    endings = rig.ask_many([(f"{QUESTIONS[kind]} {len(text)}", text) for _, text in cases])
    for number, ((what, text), ending) in enumerate(zip(cases, endings)):
        judge(rig, tally, kind, what, text, ending)
        if number % SHARE == 0 and kind != "message":
            by_program(rig, tally, kind, what, text, ending)
    return tally


def altered(options, tally, kind, name, text, start):
    """What was done to the text, and the text."""
    stride = 4 if options.short else 1
    for at in range(start, min(start + STRETCH, len(text))):
        tally.counts[f"{kind}s: cuts"] += 1
        yield f"{name}.{kind} cut to {at} bytes", text[:at]
        for value in range(256):
            if value != text[at] and (value + at) % stride == 0:
                tally.counts[f"{kind}s: bytes set"] += 1
                yield f"{name}.{kind}, byte {at} set to {value:02X}", text[:at] + bytes([value]) + text[at + 1 :]


def judge(rig, tally, kind, what, text, ending):
    """A text has the answer or the fault that the plain Rust program gives it."""
    plain = rig.plain
    asked = {"schedule": plain.sim, "tape": plain.audit, "script": lambda text: plain.script(NODES, text), "message": plain.message}
    wanted = asked[kind](text)
    tally.counts["answers" if wanted.status == 0 else "refusals of a tape's event" if wanted.status == 7 else "faults"] += 1
    if not tally.check(ending, f"{what}: no answer"):
        return
    line, feed, why = ending.err.partition(b"\n")
    if not compare(tally, what, ending._replace(err=line + feed), wanted):
        return
    fault, no = FAULT.fullmatch(line + feed), NO.fullmatch(line + feed)
    malformed = kind == "message" and MALFORMED.fullmatch(ending.err)
    is_lawful = {
        0: not ending.err and (kind != "message" or text[:1] == b"\x02"),
        1: not ending.err and kind == "message" and text[:1] == b"\x01",
        3: fault and not ending.out,
        5: malformed and not ending.out,
        7: kind == "tape" and no and not ending.out,
    }
    tally.check(is_lawful.get(ending.status), lambda: f"{what}: {tell(ending)}")
    if kind != "script" and (fault or no):
        told = WHY.fullmatch(why) if fault else WHY_NO.fullmatch(why)
        tally.check(told and told[1] == (fault[1] or b"1" if fault else no[1]), lambda: f"{what}: {tell(ending)}")


def by_program(rig, tally, kind, what, text, ending):
    """`rr` itself ends as its libraries say. Of a script that is one it then wants to make a folder where none can be, and a
    second line names that."""
    path = rig.write("text", text)
    words = {"schedule": ["sim", path], "tape": ["audit", path], "script": ["run", "--nodes", str(NODES), "--dir", NOWHERE, "--script", path]}[kind]
    got = rig.run_all([rig.rr, *words])
    line, feed, _ = ending.err.partition(b"\n") if ending else (b"", b"", b"")
    wanted = (ending.status, ending.out, line + feed) if ending else None
    if kind == "script" and ending and ending.status == 0:
        wanted = (5, b"", b"rr: 2 Device\n")
    tally.counts["texts given to rr itself"] += 1
    tally.check(got == wanted, lambda: f"{what}: by rr itself {tell(got)}; wanted {wanted}")
    is_told = NO_FOLDER.fullmatch(rig.why) if got.status == 5 else bool(rig.why) == (got.status in (3, 7))
    tally.check(is_told, lambda: f"{what}: by rr itself {tell(got)}, {rig.why!r}")
