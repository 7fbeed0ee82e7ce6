"""Each call that `rr show` and `rr sim` make of the kernel for a file fails in turn, by strace, as on a device that fails.

The program ends with status 5 and a line that says so, or it makes the call again. Where that and all later ones fail it
ends with 5. A call that a signal interrupted may also be made again. Standard output has got a front of the whole.
"""
import os
import re
import shutil

from harness import Tally, schedules, tell

# The calls by which rr asks for a file: opening, its length, a place in it, its bytes; and printing.
CALLS = ("openat", "statx", "pread64", "read", "write")
FAULTS = ("EIO", "ENOSPC", "EACCES", "EINTR")
FOLDERS = ("one_command", "second_snapshot", "snapshot_of_an_open_instance")
TEXTS = ("one_command", "suspected_coordinators", "no_events")
SHORT = 1


def tasks(options):
    many = SHORT if options.short else None
    shows = [("show", name) for name in FOLDERS[:many]]
    return [("absent", "")] + shows + [("sim", name) for name in TEXTS[:many]] + [("print", name) for name in TEXTS[:many]]


def work(rig, options, task):
    kind, name = task
    tally = Tally()
    if kind == "absent":
        absent(rig, tally)
        return tally
    if not tally.check(shutil.which("strace"), "no program strace is here; Debian's package strace has it"):
        return tally
    text = schedules([name])[name]
    if kind == "show":
        areas = rig.plain.areas(text)
        files = [rig.write("node/a0", areas[0]), rig.write("node/a1", areas[1])]
        told = re.compile(rb"rr: 2 Device\n")
        opened_to_read(rig, tally, f"show {name}", ["show", rig.path("node")], files)
        each_call(rig, tally, f"show {name}", ["show", rig.path("node")], files, rig.plain.show(areas), told)
    else:
        file = rig.write("schedule", text)
        name_of = file if kind == "sim" else "standard output"
        told = re.compile(rb"rr: " + re.escape(name_of.encode()) + rb": [^\n]+\n")
        files = [file if kind == "sim" else rig.path("out")]
        each_call(rig, tally, f"{kind} {name}", ["sim", file], files, rig.plain.sim(text), told)
    return tally


def absent(rig, tally):
    """Folders and files that aren't there, or are of another kind."""
    area = rig.plain.areas(schedules(["one_command"])["one_command"])[0]
    for missing in ("a0", "a1"):
        for name in ("a0", "a1"):
            if name != missing:
                rig.write(f"no-{missing}/{name}", area)
        refused(rig, tally, f"no {missing}", ["show", rig.path(f"no-{missing}")], rb"rr: 2 Device\n")
        os.mkdir(rig.path(f"no-{missing}/{missing}"))
        refused(rig, tally, f"a folder {missing}", ["show", rig.path(f"no-{missing}")], rb"rr: 2 Device\n")
    file = rig.write("file", area)
    refused(rig, tally, "a file for a folder", ["show", file], rb"rr: 2 Device\n")
    for path in (rig.path("nothing"), rig.folder):
        line = rb"rr: " + re.escape(path.encode()) + rb": [^\n]+\n"
        refused(rig, tally, f"the schedule {path}", ["sim", path], line)
    refused(rig, tally, "no folder", ["show", rig.path("nothing")], rb"rr: 2 Device\n")


def refused(rig, tally, what, words, line):
    ending = rig.run(*words)
    tally.counts["files that aren't there, or no files"] += 1
    holds = ending.status == 5 and re.fullmatch(line, ending.err) and not ending.out
    tally.check(holds, lambda: f"{what}: {tell(ending)}")


def opened_to_read(rig, tally, what, words, files):
    """Each file is opened once, for reading alone."""
    trace = rig.path("trace")
    paths = [word for file in files for word in ("-P", file)]
    rig.run_all([shutil.which("strace"), "-q", "-f", "-o", trace, *paths, "-e", "trace=openat", rig.rr, *words])
    with open(trace) as file:
        ways = re.findall(r'openat\(AT_FDCWD, "[^"]*/(a[01])", (O_RDONLY)(?:\|O_NOCTTY)?\|O_CLOEXEC\)', file.read())
    os.remove(trace)
    tally.check(ways == [("a0", "O_RDONLY"), ("a1", "O_RDONLY")], lambda: f"{what}: opened {ways}")


def each_call(rig, tally, what, words, files, whole, told):
    """Fails each call that concerns the files."""
    ending, made = traced(rig, words, files)
    tally.check(ending == whole, lambda: f"{what}: {tell(ending)}")
    tally.counts["runs whose calls failed"] += 1
    for call in CALLS:
        for number in range(1, made.count(call) + 1):
            for fault in FAULTS:
                fail_call(rig, tally, f"{what}, {call} {number} fails by {fault}", words, files, whole, told, (call, number, fault))


def fail_call(rig, tally, what, words, files, whole, told, place):
    call, number, fault = place
    ending, made = traced(rig, words, files, f"inject={call}:error={fault}:when={number}")
    tally.counts[f"{call} failed"] += 1
    if ending == whole:
        tally.counts[f"{call} made again"] += 1
        tally.check(made.count(call) > number, f"{what}: it ended as if nothing had failed")
        last = f"{number}..{number + 2}" if fault == "EINTR" else f"{number}+"
        ending, _ = traced(rig, words, files, f"inject={call}:error={fault}:when={last}")
        if fault == "EINTR" and ending == whole:
            return
    holds = ending.status == 5 and told.fullmatch(ending.err) and whole.out.startswith(ending.out)
    tally.check(holds, lambda: f"{what}: {tell(ending)}")


def traced(rig, words, files, inject=None):
    """Runs rr under strace, and answers how it ended and which calls it made for the files."""
    trace = rig.path("trace")
    paths = [word for file in files for word in ("-P", file)]
    wanted = ["-e", inject] if inject else ["-e", "trace=" + ",".join(CALLS)]
    strace = shutil.which("strace")
    ending = rig.run_all([strace, "-q", "-f", "-o", trace, *paths, *wanted, rig.rr, *words])
    with open(trace) as file:
        calls = re.findall(r"^\d+ +(\w+)\(", file.read(), re.MULTILINE)
    os.remove(trace)
    return ending, calls
