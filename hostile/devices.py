"""Each device call of the worked schedules fails in turn, once leaving its bytes and once other ones, and so does each call
of a switch behind a schedule; at the end the node crashes and opens its disk again.

The report is that of the plain Rust program, byte for byte. A check of its own knows only the texts of reports: a node
whose call failed refuses all until its next crash or restart, the last event opens the disk, and all that README.md
promises of a report holds of it.
"""
import promise
from harness import Tally, compare, events_of, schedules

FILLS = ("-", "A5")
SHORT = ("one_command", "snapshot", "second_snapshot", "suspected_coordinators", "group_of_two-flushed", "two_instances_decided")
CALLS_OF_AN_OPENING = 9
CALLS_OF_A_SWITCH = 6


def tasks(options):
    return list(schedules(SHORT if options.short else None))


def work(rig, options, name):
    tally = Tally()
    text = schedules([name])[name]
    if rig.plain.sim(text).status == 0:
        for what, lines, line, node in cases(name, text.decode().splitlines()):
            for fill in FILLS:
                fail_call(rig, tally, f"{what} fails with {fill}", lines, line, node, fill)
        tally.counts["schedules"] += 1
    return tally


def cases(name, lines):
    """The calls that may fail: what they are called, the schedule's lines, the line of the call and its node."""
    for line, event in enumerate(lines, 1):
        if event.startswith("dev "):
            yield f"{name}, line {line}", lines, line, event.split()[1]
    for node in range(int(lines[0].split()[1])):
        for call in range(CALLS_OF_A_SWITCH):
            switch = [f"snap {node}"] + [f"dev {node}"] * (call + 1)
            yield f"{name}, a switch at node {node}, call {call}", lines + switch, len(lines + switch), str(node)


def fail_call(rig, tally, what, lines, line, node, fill):
    end = [f"crash {node} 0 0 -", f"restart {node}"] + [f"dev {node}"] * CALLS_OF_AN_OPENING
    failing = text_of(lines[: line - 1] + [f"fail {node} {fill}"] + lines[line:] + end)
    ending = rig.run("sim", rig.write("schedule", failing))
    compare(tally, what, ending, rig.plain.sim(failing))
    tally.counts["calls failed"] += 1
    if report := promise.read(tally, what, ending):
        if of_failing(tally, what, failing, report, line, node):
            tally.counts["a call was due"] += 1
        else:
            tally.counts["no call was due"] += 1
            other = rig.run("sim", rig.write("schedule", text_of(lines + end)))
            tally.check(other == ending, f"{what}: no call was due, and yet it made a difference")
        last = report.words[-1][1][:2] if report.words else []
        tally.check(last == ["restart", node], f"{what}: the last event opens no disk")
        promise.check(tally, what, failing, report)


def text_of(lines):
    return "".join(f"{line}\n" for line in lines).encode()


def of_failing(tally, what, failing, report, line, node):
    """Behind a call that failed the node refuses all, until it crashes or restarts. Answers whether a call was due."""
    if report.refused.get(line, (0, "nothing"))[1] != "Device":
        return False
    sent = {words[1]: (words[3], at) for at, words in report.of("send")}
    for number, words in events_of(failing):
        if number > line and words[1] == node:
            if words[0] in ("crash", "restart"):
                break
            said = report.refused.get(number, (0, "nothing"))[1]
            idle = words[0] == "hear" and is_idle(sent, report.refused[line][0], words)
            tally.counts["events behind a failed call"] += 1
            tally.check(said == "Failed" or idle and said == "nothing", f"{what}: then line {number} is answered by {said}")
    return True


def is_idle(sent, failed_at, words):
    """Whether a hear may be idle: its message is for another, or wasn't sent before the call failed."""
    to, at = sent.get(words[2], ("nobody", 0))
    return to != words[1] or at > failed_at
