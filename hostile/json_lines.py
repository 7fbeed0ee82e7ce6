#!/usr/bin/env python3
"""Reads what rr prints as JSON with Python's reader, and compares it with what rr prints as text.

    hostile/json_lines.py --rr RR

For each schedule of examples and of worked_rows, for one with each kind of event and for some lively ones: each line of `rr sim --json` has
to be the object that the line of the report makes here; each line of `rr sim --explain --json` that object with the event of a line of
the schedule, or the event alone; `rr stats --json` one object, whose counts are those of the schedule and the report. Of each tape that
the audit accepts, and of one of a drawn run in threads, the same of `rr audit --explain`, with --json too, and of `rr stats`.
`rr random --json` has to print the objects of the report that `rr random` prints. `rr show --json`, `rr run --json` and
`rr audit --json` have to print the objects that their lines of words make here: an audit also of tapes that lack a line, or have
two in the wrong order."""
import argparse
import collections
import json
import pathlib
import re
import subprocess
import sys
import tempfile

TREE = pathlib.Path(__file__).resolve().parent.parent
LIVELY = [f"random --schedule-only --lively --faults {faults} --seed {seed} --steps 400 --nodes 3" for seed, faults in enumerate((0, 20, 200))]
# Three device calls: two of openings and one that fails. The node that has failed refuses two more.
FAILED = "nodes 1\nrestart 0\ndev 0\nfail 0 A5\ndev 0\nack 0\nfail 0 A5\nrestart 0\ndev 0\n"
KINDS = "submit hear suspect tick advance take dev fail mark send ack snap crash restart".split()
SAYINGS = "estimate proposal ack decision request nack beat suspects ask".split()


def command_of(request, operation, name, *value):
    """A command by its words in a report."""
    client, number = request.split(".")
    command = {"client": int(client), "request": int(number), "operation": operation, "name": name}
    if operation == "transfer":
        return command | {"owner": int(value[0])}
    return command if operation == "release" else command | {"value": value[0] if value else ""}


def message_of(kind, *words):
    """What a message says, by its words in a report."""
    names = {"estimate": ("instance", "round", "stamp"), "proposal": ("instance", "round"), "decision": ("instance",), "ack": ("instance", "round"), "nack": ("instance", "round"), "ask": ("instance",)}.get(kind, ())
    told = {"kind": kind} | {name: int(word) for name, word in zip(names, words)}
    if kind in ("estimate", "proposal", "decision", "request"):
        told["command"] = command_of(*words[len(names) :])
    if kind == "suspects":
        told["nodes"] = [int(digit) for digit in words[0].strip("-")]
    return told


def binding_of(word):
    """A bound name by its word in a report."""
    name, rest = word.split("=", 1)
    owner, value = rest.split(":", 1)
    return {"name": name, "owner": int(owner), "value": value}


def object_of(line):
    """A line of a report as the object that it is in JSON."""
    kind, *words = line.split(" ")
    if kind == "send":
        return {"kind": kind, "number": int(words[0]), "from": int(words[1]), "to": int(words[2]), "message": message_of(*words[3:])}
    if kind == "ack":
        client, number = words[1].split(".")
        reply = {"kind": words[2]} | ({"owner": int(words[3])} if words[3:] else {})
        return {"kind": kind, "node": int(words[0]), "client": int(client), "request": int(number), "reply": reply}
    if kind == "restart":
        return {"kind": kind, "node": int(words[0]), "facts": int(words[1]), "decided": int(words[2]), "names": [binding_of(word) for word in words[3:]]}
    if kind == "refuse":
        return {"kind": kind, "line": int(words[0]), "number": int(words[1]), "name": words[2]}
    if kind == "decided":
        return {"kind": kind, "commands": int(words[0])}
    return {"kind": "command", "place": int(kind), "command": command_of(*words)}


def read(text):
    """The objects of a text, a line each. Members keep their order, and no member stands twice."""

    def members(pairs):
        assert len(dict(pairs)) == len(pairs), "a member stands twice"
        return dict(pairs)

    assert text.endswith("\n"), "the last line has no end"
    return [json.loads(line, object_pairs_hook=members) for line in text[:-1].split("\n")]


def explained(schedule, told, objects):
    """Whether objects tell of each event of a schedule in turn, with these lines of its report, and then the decided list."""
    told = list(told)
    for place, event in enumerate(schedule, 2):
        it = objects.pop(0)
        seen = it.pop("event")
        assert seen["line"] == place and seen["text"] == event and set(seen) <= {"line", "text", "note"}, seen
        if it["kind"] not in ("done", "idle"):
            assert it == told.pop(0), it
        else:
            assert list(it) == ["kind"], it
    assert objects == told, "what is left isn't the decided list"


def counted(schedule, lines, statistics):
    """Whether statistics have the counts of a schedule and its report."""
    events = collections.Counter(event.split(" ")[0] for event in schedule)
    sent = collections.Counter(line.split(" ")[4] for line in lines if line.startswith("send "))
    refused = collections.Counter(line.split(" ")[3] for line in lines if line.startswith("refuse "))
    assert [(row["kind"], row["events"]) for row in statistics["events"]] == [(kind, events[kind]) for kind in KINDS]
    assert [(row["kind"], row["sent"]) for row in statistics["messages"]] == [(kind, sent[kind]) for kind in SAYINGS]
    assert {row["name"]: row["refusals"] for row in statistics["refusals"]} == refused
    assert [f"decided {statistics['decided']}"] == [line for line in lines if line.startswith("decided ")]


def played(schedule, objects):
    """From a schedule and the objects that explain its events: how many device calls were made, and how often each message that
    was sent was heard, with what it says. A refused call of a node that is down or has failed isn't made."""
    calls, wire = 0, []
    for event, it in zip(schedule, objects):
        kind, node, *words = event.split(" ")
        if kind == "dev" and it["kind"] != "idle" and it.get("name") not in ("Down", "Failed"):
            calls += 1
        if kind == "fail" and it.get("name") == "Device":
            calls += 1
        if kind == "hear" and it["kind"] != "refuse" and int(words[0]) < len(wire) and wire[int(words[0])][0] == int(node):
            wire[int(words[0])][2] += 1
        if it["kind"] == "send":
            wire.append([it["to"], it["message"]["kind"], 0])
    return calls, wire


def counted_in_play(schedule, objects, statistics):
    """Whether statistics have the counts of what happened to messages and disks."""
    calls, wire = played(schedule, objects)
    assert statistics["device_calls"] == calls, (statistics["device_calls"], calls)
    for row in statistics["messages"]:
        times = [heard for _, kind, heard in wire if kind == row["kind"]]
        counts = (len(times), sum(heard > 0 for heard in times), sum(max(heard - 1, 0) for heard in times), times.count(0))
        assert (row["sent"], row["heard"], row["again"], row["never"]) == counts, (row, counts)
    for row in statistics["events"]:
        kinds = [it["kind"] for event, it in zip(schedule, objects) if event.split(" ")[0] == row["kind"]]
        refused, quiet, idle = (kinds.count(kind) for kind in ("refuse", "done", "idle"))
        assert (row["told"], row["refused"], row["idle"]) == (len(kinds) - refused - quiet - idle, refused, idle), (row, kinds)


def area_of(line):
    """A line of `rr show` as the object that it is in JSON."""
    words = line.split(" ")
    if words[2:] == ["unformatted"]:
        return {"kind": "unformatted", "area": int(words[1])}
    numbers = (1, 3, 5, 7, 9, 11)
    told = {name: int(words[place]) for name, place in zip(("area", "epoch", "node", "nodes", "facts", "decided"), numbers)}
    return {"kind": "area"} | told | {"version": int(words[13]) if words[12:] else 2}


def answer_of(line):
    """A line of `rr run` as the object that it is in JSON."""
    kind, node, *words = line.split(" ")
    if kind == "ack":
        return object_of(line)
    if kind == "none":
        client, number = words[0].split(".")
        return {"kind": kind, "node": int(node), "client": int(client), "request": int(number)}
    name, seen = words
    if seen in ("free", "none"):
        return {"kind": {"free": "free", "none": "unseen"}[seen], "node": int(node), "name": name}
    owner, value = seen.split(":", 1)
    return {"kind": "bound", "node": int(node), "name": name, "owner": int(owner), "value": value}


# What a no says that the world has instead, and its object.
INSTEAD = [
    (r"there is no node \d", lambda: {"kind": "no node"}),
    (r"node \d refuses it: (\w+).*", lambda name: {"kind": "refusal", "name": name}),
    (r"no message of this number is sent before it", lambda: {"kind": "no message"}),
    (r"that message is for node (\d)", lambda node: {"kind": "other node", "node": int(node)}),
    (r"node \d has nothing to flush", lambda: {"kind": "nothing to flush"}),
    (r"node \d hasn't marked its last group", lambda: {"kind": "still flushing"}),
    (r"node \d has no group to mark", lambda: {"kind": "nothing to mark"}),
    (r"the next message has number (\d+)", lambda number: {"kind": "other number", "number": int(number)}),
    (r"node \d has nothing to send", lambda: {"kind": "nothing to send"}),
    (r"node \d has nothing to acknowledge", lambda: {"kind": "nothing to acknowledge"}),
    (r'node \d gives "(.*)"', object_of),
]


def given_of(words):
    """What the world has instead of an event of a tape, by the words of the second line."""
    matches = [(re.fullmatch(form, words), make) for form, make in INSTEAD]
    (given,) = [make(*match.groups()) for match, make in matches if match]
    return given


def verdict_of(text, told):
    """The object of an audit by what it prints as words, on standard output and on standard error."""
    if text:
        return {"kind": "yes", "events": int(re.fullmatch(r"audit yes (\d+)\n", text).group(1))}
    form = r'rr: 17 (AuditNo) (\d+)\nevent \d+ \(line (\d+)\): recorded "(.*)", but (.*)\n'
    name, event, line, recorded, words = re.fullmatch(form, told).groups()
    kind, number, *rest = recorded.split(" ")
    node = int(rest[0] if kind == "send" else number)
    no = {"kind": "no", "event": int(event), "line": int(line), "number": 17, "name": name, "node": node}
    return no | {"given": given_of(words)}


def spoilt(tape):
    """A tape, and what it is where a line is left out, where two change places, and where a message has another number or node."""
    first, *events = tape[:-1].split("\n")
    yield tape
    for place, event in list(enumerate(events))[:60]:
        before, behind = events[:place], events[place + 1 :]
        kind, number, *rest = event.split(" ")
        instead = [[], [*behind[:1], event, *behind[1:]]]
        if kind == "send":
            instead.append([" ".join([kind, str(int(number) + 1), *rest]), *behind])
        if kind == "hear":
            instead += [[f"hear {number} 999", *behind], [" ".join(["hear", "0", *rest]), *behind]]
        for other in instead:
            yield "\n".join([first, *before, *(other or behind)]) + "\n"


def audited(rr, tapes):
    """Audits tapes in words and as JSON, and counts the kinds of what was found."""
    kinds = collections.Counter()
    for tape in tapes:
        plain, as_json = (subprocess.run([rr, "audit", *words], input=tape, capture_output=True, text=True) for words in ((), ("--json",)))
        assert (as_json.returncode, as_json.stderr) == (plain.returncode, plain.stderr), "the errors differ"
        if plain.returncode not in (0, 7):
            assert as_json.stdout == "", "a fault is printed"
            continue
        (it,) = read(as_json.stdout)
        told = verdict_of(plain.stdout, plain.stderr)
        given = it.get("given", {})
        if given.get("kind") == "refusal":
            assert isinstance(given.pop("number"), int), "a refusal without its number"
        assert it == told and list(it) == list(told), (it, told)
        kinds[given.get("kind", it["kind"])] += 1
    assert kinds["yes"] and len(kinds) > 6, kinds
    return kinds


# One node answers this script in the same way each time.
SCRIPT = r"""submit 0 7 1 claim a x"\y
submit 0 8 1 claim a
look 0 a
look 0 b
submit 0 7 2 update b
submit 0 8 2 release a
submit 0 7 3 update a z
submit 0 7 4 transfer a 4294967295
look 0 a
submit 0 7 5 claim b
submit 0 7 6 release b
"""


def same(objects, told):
    """Whether objects are those that lines of words make, with their members in the same order."""
    assert objects == told and [list(it) for it in objects] == [list(it) for it in told], (objects, told)
    return len(told)


def in_folders(run):
    """Compares what `rr show` and `rr run` print of folders as words and as JSON, and counts the lines."""
    with tempfile.TemporaryDirectory() as room:
        shown = pathlib.Path(room) / "shown"
        shown.mkdir()
        subprocess.run([TREE / "bench/areas.py", shown, "64"], check=True, capture_output=True)
        words = ["run", "--nodes", "1", "--script", "-", "--dir"]
        told = [answer_of(line) for line in run(*words, f"{room}/words", text=SCRIPT)[:-1].split("\n")]
        lines = same(read(run(*words, f"{room}/json", "--json", text=SCRIPT)), told)
        assert lines == SCRIPT.count("\n") and {"ack", "bound", "free"} == {it["kind"] for it in told}
        for folder in (shown, TREE / "examples/version_1", f"{room}/words/0"):
            areas = [area_of(line) for line in run("show", folder)[:-1].split("\n")]
            lines += same(read(run("show", "--json", folder)), areas)
        return lines


def of_random_schedules(run):
    """Compares what `rr random` prints as words and as JSON, and counts the lines."""
    lines = 0
    for words in ("--seed 3 --steps 2000 --nodes 3", "--lively --seed 3 --steps 300 --nodes 3", "--lively --faults 200 --seed 4 --steps 300 --nodes 5"):
        schedule, report = run("random", *words.split()).split("report\n")
        objects = read(run("random", "--json", *words.split()))
        lines += same(objects, [object_of(line) for line in report[:-1].split("\n")])
        assert objects == read(run("sim", "--json", text=schedule)), "the report of a random schedule isn't that of rr sim"
    return lines


def taped(run, tape):
    """Whether a tape is explained and counted as its own lines say: the lines `send` and `ack` are its report, and each event has its note.
    It tells how many lines were read."""
    lines = tape[:-1].split("\n")[1:]
    told = [line for line in lines if line.split(" ")[0] in ("send", "ack")]
    events = [" ".join(("send", line.split(" ")[2]) if line.startswith("send ") else line.split(" ")[: 2 if line.startswith("ack ") else None]) for line in lines]
    explanation = run("audit", "--explain", text=tape)[:-1].split("\n")
    report, wanted = [line for line in explanation if not line.startswith("    ")], list(told)
    assert report[: len(told)] == told and report[len(told)].startswith("decided "), "the report of a tape differs"
    notes = [(place, line) for place, line in enumerate(explanation) if line.startswith("    ")]
    assert len(notes) == len(events)
    for place, (event, (at, note)) in enumerate(zip(events, notes), 2):
        assert f"{note}:".startswith(f"    line {place}: {event}:"), (event, note)
        if event.split(" ")[0] in ("send", "ack"):
            assert explanation[at - 1] == wanted.pop(0), note
    objects = read(run("audit", "--explain", "--json", text=tape))
    for words in (["--json", "--tape"], ["--json"]) if told else (["--json", "--tape"],):
        (statistics,) = read(run("stats", *words, text=tape))
        counted(events, report, statistics)
        counted_in_play(events, objects, statistics)
        assert statistics["device_calls"] == 0
    explained(events, [object_of(line) for line in report], objects)
    return len(explanation) + len(events) + len(report) - len(told)


def recorded(rr, folder):
    """The tape of a run in threads, in this folder."""
    asked = [f"submit {at % 3} {at % 5} {at + 1} {('claim', 'update', 'release')[at % 4 % 3]} {'abcd'[at % 3]}{'' if at % 4 == 2 else ' v'}" for at in range(40)]
    script = pathlib.Path(folder, "script")
    script.write_text("".join(line + "\n" for line in asked))
    words = f"run --nodes 3 --dir {folder}/nodes --script {script} --tape {folder}/tape --tick 10"
    subprocess.run([rr, *words.split()], capture_output=True, check=True)
    return pathlib.Path(folder, "tape").read_text()


def main():
    parser = argparse.ArgumentParser()
    parser.add_argument("--rr", required=True)
    rr = parser.parse_args().rr

    def run(*words, text=None):
        return subprocess.run([rr, *words], input=text, capture_output=True, text=True, check=True).stdout

    def is_schedule(text):
        return subprocess.run([rr, "sim"], input=text, capture_output=True, text=True).returncode == 0

    def is_tape(text):
        return subprocess.run([rr, "audit"], input=text, capture_output=True, text=True).returncode == 0

    paths = [*sorted(TREE.glob("examples/*.schedule")), *sorted(TREE.glob("crates/worked_rows/data/*.schedule")), TREE / "hostile/each_kind.schedule"]
    schedules = [text for text in (path.read_text() for path in paths) if is_schedule(text)] + [run(*words.split()) for words in LIVELY]
    (statistics,) = read(run("stats", "--json", text=FAILED))
    assert statistics["device_calls"] == 3, "a refused device call is counted as made"
    lines_read = 0
    for schedule in schedules:
        events = schedule[:-1].split("\n")[1:]
        report = run("sim", text=schedule)[:-1].split("\n")
        told = [object_of(line) for line in report]
        objects = read(run("sim", "--json", text=schedule))
        assert objects == told and [list(it) for it in objects] == [list(it) for it in told], "the report differs"
        explanation = read(run("sim", "--explain", "--json", text=schedule))
        (statistics,) = read(run("stats", "--json", text=schedule))
        counted(events, report, statistics)
        counted_in_play(events, explanation, statistics)
        explained(events, told, explanation)
        lines_read += 2 * len(told) + len(events) + 1
    lines_read += of_random_schedules(run) + in_folders(run)
    tapes = [path.read_text() for path in (TREE / "examples/one_command.tape", *sorted(TREE.glob("crates/worked_rows/data/tapes-*.tape")))]
    found = audited(rr, [other for tape in tapes for other in spoilt(tape)])
    lines_read += sum(found.values())
    paths = [*sorted(TREE.glob("examples/*.tape")), *sorted(TREE.glob("crates/worked_rows/data/*.tape")), TREE / "hostile/each_kind.tape"]
    tapes = [text for text in (path.read_text() for path in paths) if is_tape(text)]
    with tempfile.TemporaryDirectory() as folder:
        tapes.append(recorded(rr, folder))
    lines_read += sum(taped(run, tape) for tape in tapes)
    print(f"hostile/json_lines.py: {len(schedules)} schedules, {len(tapes)} tapes and {sum(found.values())} verdicts, {lines_read} lines of JSON, all as the texts are")


if __name__ == "__main__":
    sys.exit(main())
