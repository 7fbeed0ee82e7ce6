"""Each call that `rr run` makes of the system for its files goes wrong in turn: it fails, is interrupted, moves half of its
bytes, or the process is killed at it.

A library loaded before the program counts the calls over all threads; strace does it for calls that the library doesn't
know. A run ends with status 5 and a line that names what failed, and standard output has got nothing or a front of the
answers. Or it ends with all of them: where the call was made again, moved some bytes, or came once the last answer was
there. What was acknowledged stands in the folders, and a run over them without faults has the replies of the list.
"""
import errno
import random
import re
import shutil

import run_memory
import scripts
from harness import LONG, Tally, tell

ERRORS = {"EIO": errno.EIO, "ENOSPC": errno.ENOSPC, "EINTR": errno.EINTR}
KINDS = ("open", "read", "write", "sync")
HOWS = {"open": ("EIO", "ENOSPC", "EINTR"), "read": ("EIO", "EINTR", "short"), "write": ("EIO", "ENOSPC", "EINTR", "short", "torn"), "sync": ("EIO", "ENOSPC", "EINTR")}
KILLS = ("kill", "killed")
# Calls that no signal interrupts; where one is told so all the same, it has failed.
NEVER_INTERRUPTED = ("statx", "mkdir", "ftruncate")
TRACED = ("openat", "mkdir", "flock", "statx", "pread64", "read", "pwrite64", "write", "fdatasync", "fsync", "ftruncate")
MOST_TRACED = 60
ENOUGH = 3
# How many nodes, how many lines, whether the folders hold something before, and whether a tape is recorded.
CASES = ((1, 6, False, False), (1, 5, True, False), (3, 6, False, True), (3, 6, True, False))
SHORT = (2, 5, True, False)


def tasks(options):
    every = [(kind, how) for kind in KINDS for how in HOWS[kind] + (KILLS if kind in ("write", "sync") else ())]
    if options.short:
        return [(SHORT, kind, how, 3 + at % 5, 9) for at, (kind, how) in enumerate(every)] + [((1, 4, False, False), "strace", "fdatasync", 1, 3)]
    traced = [((1, 5, True, False), "strace", call, 1, 1) for call in TRACED]
    return traced + [(case, kind, how, start, 2) for case in CASES for kind, how in every for start in (1, 2)]


def work(rig, options, task):
    case, kind, how, first, stride = task
    nodes, count, is_reopened, is_taped = case
    tally = Tally()
    made = Broken(rig, nodes, scripts.draw(random.Random(count), nodes, count), is_taped)
    if is_reopened:
        made.prepare(scripts.draw(random.Random(99), nodes, 4, 100))
    what = f"run of {nodes} nodes, {count} lines{', reopened' if is_reopened else ''}{', taped' if is_taped else ''}"
    if kind == "strace":
        if tally.check(shutil.which("strace"), "no program strace is here; Debian's package strace has it"):
            each_traced(made, tally, what, how, first, stride)
        return tally
    beyond, number = 0, first
    while beyond < ENOUGH and not tally.failures[20:]:
        env = {"LD_PRELOAD": options.preload_calls, "FAIL_CALL": kind, "FAIL_PATH": rig.folder, "FAIL_NTH": str(number)}
        env.update(FAIL_HOW=str(ERRORS.get(how, how)), COUNT_CALLS=made.count)
        is_reached = made.break_call(tally, f"{what}, {kind} {number} by {how}", how, env, number)
        tally.counts[f"{kind} by {how}" if how not in KILLS else "kills at a call"] += is_reached
        beyond = 0 if is_reached else beyond + 1
        number += stride
    return tally


def each_traced(made, tally, what, call, first, stride):
    """Fails calls of a kind by strace, which counts those of each thread for itself."""
    for number in range(first, MOST_TRACED, stride):
        reached = False
        for how in ERRORS:
            words = [shutil.which("strace"), "-q", "-f", "-o", made.count, "-P", made.rig.folder]
            for path in made.paths():
                words += ["-P", path]
            words += ["-e", f"trace={call}", "-e", f"inject={call}:error={how}:when={number}", made.rig.rr, *made.words]
            made.clear()
            ending = made.rig.run_all(words, limit=LONG)
            is_injected = b"(INJECTED)" in scripts.bytes_of(made.count)
            tally.counts[f"{call} by strace"] += is_injected
            harm = "EIO" if call in NEVER_INTERRUPTED else how
            made.judge(tally, f"{what}, {call} {number} by {how}, strace", harm, ending, is_injected)
            reached |= is_injected
        if not reached:
            break


class Broken(run_memory.Made):
    """Runs of a script with calls that go wrong."""

    def paths(self):
        """What a run opens, makes and locks."""
        of_node = [f"{self.folder}/{node}" for node in range(self.nodes)]
        return [self.folder, *of_node, *[f"{path}/{name}" for path in of_node for name in ("a0", "a1")], self.words[6], self.rig.path("out")]

    def break_call(self, tally, what, how, env, number):
        """A run of which this call goes wrong, and one over its folders without faults. Answers whether it came to the call."""
        self.clear()
        ending = self.rig.run(*self.words, env=env, limit=LONG)
        if how in KILLS:
            is_reached = ending.status == -9
        else:
            is_reached = int(scripts.bytes_of(self.count) or 0) >= number
        self.judge(tally, what, how, ending, is_reached)
        return is_reached

    def judge(self, tally, what, how, ending, is_reached):
        disks = scripts.disks_of(self.folder, self.nodes)
        lines = self.earlier + self.lines
        commands = scripts.check_disks(tally, what, lines, disks)
        scripts.check_acknowledged(tally, what, scripts.acknowledged(self.lines, scripts.requests_in(disks)), disks)
        if ending.status == 0:
            tally.check(not ending.err, lambda: f"{what}: {tell(ending)}")
            scripts.check_answers(tally, what, self.lines, ending.out, disks, commands)
            tally.counts["runs with all answers, though a call failed"] += is_reached and how not in ("EINTR", "short")
        else:
            holds = is_reached and how not in ("EINTR", "short") and self.is_ended_by(how, ending)
            tally.check(holds, lambda: f"{what}: {tell(ending)}")
            tally.counts["runs that ended by a call"] += 1
        self.check_tape(tally, what, is_cut=self.tape.encode() in ending.err)
        self.again(tally, what, lines, disks)

    def is_ended_by(self, how, ending):
        """Whether it ended with status 5 and a line that tells it, or by the signal, and with no answer that it shouldn't give."""
        if how in KILLS:
            return ending.status == -9 and not ending.err
        names = "|".join(re.escape(name) for name in (self.words[6], self.tape, "standard output"))
        told = re.fullmatch(rf"rr: (?:2 Device|(?:{names}): [^\n]+)\n".encode(), ending.err)
        return ending.status == 5 and told and (not ending.out or b"standard output" in ending.err)
