"""Each request for memory that a run of rr makes is refused in turn.

A run ends with `rr: 1 OutOfMemory` and status 6, and standard output has got a front of the whole or nothing. Or it
prints the report of the run in which memory was wanting for just one event. The plain Rust program says what that is.
Where all later requests are refused too, the run ends without memory, or with the report where just the events that it refuses found none.
Of a request that the run can do without, nothing shows: the run is then the whole one.
"""
import html
import os
import re
import subprocess

import areas
from harness import DATA, NO_MEMORY, TREE, Ending, Tally, compare, events_of, schedules, tell

ALL = "1000000000"
EXAMPLE = TREE / "examples/one_command.schedule"
SEED = "1"
DRAWS = ((1, 0, 2), (1, 40, 1), (2, 120, 2), (3, 200, 3), (1, 300, 7))
SHORT = ("one_command", "snapshot", "second_snapshot_crashes", "failed_write_of_a_body", "heartbeats", "no_events")
# The line on a damaged place without the bytes there, or no line on a folder.
BARE = re.compile(rb"(?:[^\n]+: the file a[01] is damaged at byte \d+\n)?")


def tasks(options):
    named = SHORT if options.short else None
    runs = [("sim", name) for name in schedules(named)]
    folders = areas.SHORT if options.short else areas.FOLDERS
    draws = DRAWS[:2] if options.short else DRAWS
    tapes = [path.stem for path in sorted(DATA.glob("*.tape"))]
    others = [(verb, "") for verb in ("sweep", "draw") if has_command(options, verb)]
    runs += [("show", name) for name in folders] + [("broken", ""), ("missing", "")]
    return runs + [("random", it) for it in draws] + [("audit", name) for name in (tapes[:1] if options.short else tapes)] + others


def has_command(options, verb):
    """Whether the program has the command."""
    told = subprocess.run([options.rr, "--help"], capture_output=True, text=True, check=False).stdout
    return re.search(rf"^ +{verb} ", told, re.MULTILINE) is not None


def work(rig, options, task):
    kind, what = task
    tally = Tally()
    if kind == "sim":
        of_schedule(rig, options, tally, what)
    elif kind == "random":
        of_draw(rig, options, tally, what)
    elif kind == "audit":
        text = (DATA / f"{what}.tape").read_bytes()
        refuse_each(rig, options, tally, f"audit {what}", ["audit", rig.write("tape", text)], rig.plain.audit(text), {})
    elif kind == "sweep":
        text = EXAMPLE.read_bytes()
        words = ["sweep", rig.write("text", text), "--seed", SEED]
        refuse_each(rig, options, tally, f"sweep {EXAMPLE.name}", words, swept(options, text), {})
    elif kind == "draw":
        of_picture(rig, options, tally, EXAMPLE.read_bytes())
    else:
        of_folder(rig, options, tally, kind, what)
    return tally


def swept(options, text):
    """The sweep of a schedule by plain Rust."""
    ran = subprocess.run([options.plain, "sweep", SEED], input=text, stdout=subprocess.PIPE, check=True)
    return Ending(0, ran.stdout, b"")


def of_picture(rig, options, tally, text):
    """A picture has the lines of a report in its titles, but for the list."""
    starved = {before_list(report): line for report, line in starved_reports(rig, text).items()}
    words = ["draw", rig.write("text", text)]
    whole = rig.run(*words)
    tally.check(told_in(whole.out) == before_list(rig.plain.sim(text).out), lambda: "draw: its titles have another report")
    refuse_each(rig, options, tally, f"draw {EXAMPLE.name}", words, whole, starved, text, told_in, before_list)


def told_in(picture):
    """The lines of a report in the titles of a picture."""
    titles = html.unescape("".join(re.findall(r"<title>([^<]*)</title>", picture.decode())))
    return "".join(re.findall(r"^(?:send|ack|restart|refuse) .*\n", titles, re.MULTILINE)).encode()


def before_list(report):
    return report[: report.index(b"decided ")]


def of_schedule(rig, options, tally, name):
    text = schedules([name])[name]
    whole = rig.plain.sim(text)
    starved = starved_reports(rig, text) if whole.status == 0 else {}
    words = ["sim", rig.write("schedule", text)]
    reached = refuse_each(rig, options, tally, f"sim {name}", words, whole, starved, text)
    count_events(tally, name, text, {line for line in starved.values()}, reached)


def starved_reports(rig, text):
    """The report of each event that takes memory where that is wanting, with its line."""
    reports = ((rig.plain.starved(text, line), line) for line, _ in events_of(text))
    return {report: line for report, line in reports if report is not None}


def count_events(tally, name, text, wanting, reached):
    """Counts the events that take memory, and names those that no request reached."""
    missed = sorted(wanting - reached)
    tally.counts["events that may want memory"] += len(wanting)
    tally.counts["events reached"] += len(wanting & reached)
    if missed:
        words = dict(events_of(text))
        tally.counts.update(f"events not reached, {words[line][0]}" for line in missed)
        tally.notes.append(f"{name}: " + ", ".join(f"{line} {words[line][0]}" for line in missed))


def of_folder(rig, options, tally, kind, name):
    both = [b"", b""]
    if kind == "show":
        both = rig.plain.areas(schedules([name])[name])
    elif kind == "broken":
        both = [b"\xa5\x00\x00", b""]
    folder = os.path.dirname(rig.write("node/a0", both[0]))
    whole = rig.plain.show(both)
    if kind == "missing":
        whole = whole._replace(status=5, out=b"", err=b"rr: 2 Device\n")
        if os.path.exists(rig.path("node/a1")):
            os.remove(rig.path("node/a1"))
    else:
        rig.write("node/a1", both[1])
    refuse_each(rig, options, tally, f"show {name or kind}", ["show", folder], whole, {})


def of_draw(rig, options, tally, draw):
    seed, steps, nodes = draw
    text = rig.plain.draw(*draw)
    front = text + b"report\n"
    whole = rig.plain.sim(text)
    whole = whole._replace(out=front + whole.out)
    starved = {front + report: line for report, line in starved_reports(rig, text).items()}
    for line, words in events_of(text):
        if words[0] == "fail":
            other = rig.plain.draw(*draw, line)
            starved.setdefault(other + b"report\n" + rig.plain.sim(other).out, line)
    words = ["random", "--seed", str(seed), "--steps", str(steps), "--nodes", str(nodes)]
    refuse_each(rig, options, tally, f"random {seed} {steps} {nodes}", words, whole, starved)


def refuse_each(rig, options, tally, what, words, whole, starved, text=None, told=bytes, of_report=bytes):
    """Refuses each request of a run, alone and with all behind it, and answers the lines of the events that one starved. A report may have
    room to spare for all that is left to tell; a run of the schedule `text` then ends well without any memory from an event on. What is
    `told` in standard output is what `of_report` leaves of the report."""
    count = requests_of(rig, options, tally, what, words, whole)
    tally.counts["requests refused, " + words[0]] += count
    tally.counts["runs, " + words[0]] += 1
    reached = set()
    for number in range(1, count + 1):
        ending = refuse(rig, options, words, number)
        if ending == whole:
            # What grows asks for room to spare, and where that is refused once more for what it needs.
            tally.counts["requests made again, refused with the next"] += 1
            ending = refuse(rig, options, words, number, "2")
        # What a table asks for only to keep less room may be refused without a trace.
        is_spared = whole.status == 0 and ending == whole
        tally.counts["requests refused without a trace"] += is_spared
        line = starved.get(told(ending.out)) if ending.status == 0 else None
        if line is not None:
            reached.add(line)
            tally.counts["reports of a starved event"] += 1
        holds = ending.err == b"" if line is not None else is_no_memory(ending, whole) or is_bare_verdict(rig, tally, ending, whole)
        tally.check(holds or is_spared, lambda: f"{what}, request {number}: {tell(ending)}")
        last = refuse(rig, options, words, number, ALL)
        holds = is_report_of_starved(rig, text, last._replace(out=told(last.out)), of_report) if last.status == 0 else is_no_memory(last, whole) or is_bare_verdict(rig, tally, last, whole)
        is_spared = is_spared and last == whole
        tally.counts["reports without memory from an event on"] += last.status == 0 and not is_spared
        tally.check(holds or is_spared, lambda: f"{what}, request {number} and all behind it: {tell(last)}")
    return reached


def is_report_of_starved(rig, text, ending, of_report):
    """Whether it is the report where the events that it refuses for memory, or by the device, found no memory."""
    refused = [int(line.split()[1]) for line in ending.out.splitlines() if re.match(rb"refuse \d+ [12] ", line)]
    return text is not None and ending.err == b"" and refused != [] and ending.out == of_report(rig.plain.starved(text, *refused))


def is_bare_verdict(rig, tally, ending, whole):
    """Whether it refuses an event of a tape or a folder, and memory was wanting just for what tells people why."""
    is_bare = ending == whole and (not rig.why if whole.status == 7 else whole.status in (4, 5) and BARE.fullmatch(rig.why) is not None)
    tally.counts["refusals without all of the line for people"] += is_bare
    return is_bare


def refuse(rig, options, words, first, many="1"):
    return rig.run(*words, env={"LD_PRELOAD": options.preload, "FAIL_ALLOC": str(first), "FAIL_MANY": many})


def is_no_memory(ending, whole):
    return ending.status == 6 and ending.err == NO_MEMORY and whole.out.startswith(ending.out)


def requests_of(rig, options, tally, what, words, whole):
    """How many requests a run makes where none is refused; its end is the whole one."""
    told = rig.path("count")
    ending = rig.run(*words, env={"LD_PRELOAD": options.preload, "COUNT_ALLOC": told})
    compare(tally, f"{what}, all memory there", ending, whole)
    with open(told) as file:
        count = int(file.read())
    beyond = refuse(rig, options, words, count + 1)
    compare(tally, f"{what}, request {count + 1}, which it doesn't make", beyond, whole)
    return count
