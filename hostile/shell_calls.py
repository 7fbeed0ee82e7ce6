"""Each call that `rr shell` makes of the system goes wrong in turn: on its folders, its locks, its file of request numbers, and its
pipes. It fails, is interrupted, moves half of its bytes, or the process is killed at it.

A shell answers line after line meanwhile: names are claimed and updated, a node writes a snapshot, one is stopped and started, and one
catches up. Each answer is the one that has to come, until a node fails: that node alone is down then, `status` names the call that failed,
and the others go on. In half of the tries it is started again. A shell that ends before the last line, or while a node has failed, ends
with status 5 and lines that name what failed, or by the signal. Then one over the same folders has, without faults, all that was
acknowledged, at each node, and gives no request number that was given before.
"""
import re
import shutil

import scripts
import shell_kills
from cluster import ERRORS, HARMLESS, HOWS, KILLS
from harness import Tally

NODES = 3
# Where calls go wrong: in the folder of the cluster, or at the pipes by which a person or a program talks.
FOLDER, PIPES = "/shell", "pipe:"
MOST_CALLS = 400
ENOUGH = 2
# What is asked of a fresh cluster, and of one that has been used, each line with its answer.
LINES = (
    ("claim one a", "claimed"),
    ("at 1", "at 1"),
    ("claim two b", "claimed"),
    ("snapshot 1", "snapshot 1"),
    ("stop 2", "stopped 2"),
    ("update one c", "updated"),
    ("start 2", "started 2"),
    ("at 2", "at 2"),
    ("sync", "synced"),
    ("look one", "one bound 7 c"),
    ("claim three d", "claimed"),
)
# What a failed node says of itself, and how a line is answered that is asked of it.
WHY = r"node {node} failed: (?:{node}/a[01]: (?:reading|writing|syncing): \S.*|a file of its disk couldn't be read or written, or the clock couldn't be read)"
DENIED = r"unacknowledged|error: node {node} (?:is down: start it, or ask another|wrote no snapshot: down or busy|has failed again: status says why)|one unseen"


def tasks(options):
    every = [(FOLDER, kind, how) for kind, hows in HOWS.items() for how in hows]
    every += [(PIPES, kind, how) for kind in ("read", "write") for how in ("EIO", "EINTR", "kill")]
    if options.short:
        return [(at % 2 == 1, *it, 1 + 5 * at % 9, 31) for at, it in enumerate(every) if it[2] in ("EIO", "killed")]
    return [(is_used, *it, start, 4) for is_used in (False, True) for it in every for start in (1, 2, 3, 4)]


def work(rig, options, task):
    is_used, where, kind, how, number, stride = task
    tally = Tally()
    made = Broken(rig, tally, is_used)
    beyond = 0
    while beyond < ENOUGH and number < MOST_CALLS and not tally.failures[20:]:
        env = {"LD_PRELOAD": options.preload_calls, "FAIL_CALL": kind, "FAIL_PATH": where, "FAIL_NTH": str(number)}
        env.update(FAIL_HOW=str(ERRORS.get(how, how)), COUNT_CALLS=made.count)
        what = f"shell over {'used' if is_used else 'fresh'} folders, {kind} {number} in {where!r} by {how}"
        try:
            is_reached = made.break_call(what, how, env, number)
        except shell_kills.Wrong as why:
            is_reached = True
            tally.check(False, f"{what}: {why}")
        beyond = 0 if is_reached else beyond + 1
        number += stride
    return tally


class Broken:
    """Shells with calls that go wrong, and those that follow them, over folders that are made anew for each."""

    def __init__(self, rig, tally, is_used):
        self.rig, self.tally = rig, tally
        self.folder, self.kept, self.count = rig.path("shell"), rig.path("shell-kept"), rig.path("count")
        self.is_used = is_used
        for folder in (self.folder, self.kept):
            shutil.rmtree(folder, ignore_errors=True)
        if is_used:
            shell = shell_kills.Shell(rig.rr, NODES, self.kept)
            shell_kills.need(shell.ask("claim old z") == "claimed" and shell.end() == (0, b""), "a shell without faults")

    def break_call(self, what, how, env, number):
        """A shell of which this call goes wrong, and one behind it. Answers whether it came to the call."""
        shutil.rmtree(self.folder, ignore_errors=True)
        self.rig.write("count", b"")
        names = shell_kills.Names()
        if self.is_used:
            shutil.copytree(self.kept, self.folder)
            names.acknowledge(0, "old", "z")
        before, least = commands_in(self.folder), shell_kills.stored(self.folder)
        shell = shell_kills.Shell(self.rig.rr, NODES, self.folder, env)
        try:
            answered, other = talk(shell, names)
            if other is not None:
                self.tally.counts["nodes that failed alone"] += 1
                is_whole = self.go_on(what, shell, names, other, number % 2 == 0)
            else:
                is_whole = answered == len(LINES)
            status, said = shell.end()
        finally:
            shell.child.kill()
            shell.child.wait()
        is_reached = status == -9 if how in KILLS else int(scripts.bytes_of(self.count) or 0) >= number
        if status == 0:
            self.tally.check(is_whole and not said, f"{what}: {answered} answers, then {other!r}, {said!r}")
            self.tally.counts["shells with all answers, though a call failed"] += is_reached and how not in HARMLESS
        else:
            holds = is_reached and how not in HARMLESS and is_told(how, status, said, self.folder)
            self.tally.check(holds, f"{what}: status {status}, {said!r}")
            self.tally.counts["shells that ended by a call"] += 1
        check_numbers(self.tally, what, before, commands_in(self.folder), least)
        self.tally.counts["kills at a call" if how in KILLS else f"calls that fail, {env['FAIL_CALL']}"] += is_reached
        open_again(self.rig, self.tally, what, self.folder, names)
        return is_reached


    def go_on(self, what, shell, names, other, is_started):
        """Behind a line that was answered so, one node has failed, and tells why. The others decide what is asked of them. Then the failed
        node is started, if it is to be. Answers whether none is down."""
        said = status_of(shell)
        failed = [node for node, text in enumerate(said) if text.startswith(f"node {node} failed: ")]
        holds = len(failed) == 1 and re.fullmatch(WHY.format(node=failed[0]), said[failed[0]]) is not None
        if not self.tally.check(holds and re.fullmatch(DENIED.format(node=failed[0]), other), f"{what}: {other!r}, {said}"):
            return False
        for node, text in enumerate(said):
            if text == f"node {node} down":
                shell_kills.need(shell.ask(f"start {node}") == f"started {node}", f"{node} doesn't start")
        node = (failed[0] + 1) % NODES
        shell_kills.need(shell.ask(f"at {node}") == f"at {node}", "another node can't be asked")
        self.tally.check(shell.ask("claim four e") == "claimed", f"{what}: behind the failure of {failed[0]}, {node} decides nothing")
        names.acknowledge(node, "four", "e")
        if not is_started:
            return False
        answer = shell.ask(f"start {failed[0]}")
        self.tally.check(answer == f"started {failed[0]}", f"{what}: the failed node isn't started: {answer!r}, {status_of(shell)}")
        self.tally.counts["nodes that failed and were started again"] += 1
        return answer == f"started {failed[0]}"


def status_of(shell):
    """What each node tells of itself."""
    return [shell.ask("status"), *(shell.hear("status") for _ in range(NODES - 1))]


def open_again(rig, tally, what, folder, names):
    """A shell without faults has all that was acknowledged, and gives numbers that nobody has used."""
    before, first = commands_in(folder), names.made
    least = max([shell_kills.stored(folder), *(number_of(request) + 1 for request in before)])
    shell = shell_kills.Shell(rig.rr, NODES, folder)
    try:
        shell_kills.check(shell, names, tally.counts, NODES)
        ended = shell.end()
    finally:
        shell.child.kill()
        shell.child.wait()
    tally.check(ended == (0, b""), f"{what}, opened again: {ended}")
    after = commands_in(folder)
    check_numbers(tally, f"{what}, opened again", before, after, least)
    fresh = {f"name-{number}" for number in range(first + 1, names.made + 1)}
    claimed = {words[1] for told in after.values() for words in told}
    tally.check(fresh and fresh <= claimed, f"{what}: of {fresh} the folders have none")
    tally.counts["shells opened again"] += 1


def check_numbers(tally, what, before, after, least):
    """What a shell has given are numbers from `least` on, each to one command."""
    twice = {request: told for request, told in after.items() if len(told | before.get(request, set())) > 1}
    tally.check(not twice, f"{what}: request numbers with two commands: {twice}")
    given = sorted(map(number_of, after.keys() - before.keys()))
    tally.check(not given or given[0] >= least, f"{what}: the numbers {given} were given, where {least} is the first free one")


def talk(shell, names):
    """Asks line by line until the shell has gone or an answer is another one, and notes what was acknowledged. Answers how many lines were
    answered as they have to be, and the other answer, if there is one."""
    node = 0
    for place, (line, wanted) in enumerate(LINES):
        verb, *words = line.split()
        answer = shell.ask(line)
        if answer is None or answer == "unacknowledged":
            if verb in shell_kills.REPLIES:
                names.doubt(*words)
            return place, answer
        elif answer != wanted:
            return place, answer
        else:
            node = int(words[0]) if verb == "at" else node
            if verb in shell_kills.REPLIES:
                names.acknowledge(node, *words)
    return len(LINES), None


def is_told(how, status, said, folder):
    """Whether it ended by the signal, or with status 5 and lines that tell what failed."""
    if how in KILLS:
        return status == -9 and not said
    told = rf"rr: (?:2 Device\n{re.escape(folder)}\S*: [^\n]+|standard (?:input|output): [^\n]+)\n"
    return status == 5 and re.fullmatch(told, said.decode()) is not None


def number_of(request):
    return int(request.split(".")[1])


def commands_of(disk):
    """The commands that a disk names, each with its request."""
    standing = [it for one in disk.open.values() for it in (one.estimate, one.proposal) if it]
    return [*((fact.request, fact.words) for fact in disk.facts), *disk.decided.values(), *standing]


def commands_in(folder):
    """By request the commands that the nodes' folders name under it."""
    found = {}
    for disk in scripts.disks_of(folder, NODES):
        for request, words in commands_of(disk):
            found.setdefault(request, set()).add(words)
    return found
