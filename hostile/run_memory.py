"""Each request for memory that `rr run` makes is refused in turn, over all its threads, and the making of each thread.

How many requests a run makes differs with the schedule of its threads. So the requests are counted up until some runs in
a row have ended before theirs. A run ends with `rr: 1 OutOfMemory` and status 6, and standard output has got nothing or a
front of the answers. Or it has answers to all lines; of these a submit may be refused, and a look find no guard. It
neither hangs nor crashes. Its folders hold what it acknowledged, and a run of the same script over them then has the
replies of the list.
"""
import os
import random
import shutil

import scripts
from harness import LONG, NO_MEMORY, Tally, tell

ALL = "1000000000"
STRIPES = 8
ENOUGH = 3
# How many nodes, how many lines, whether the folders hold something before, and whether a tape is recorded.
CASES = ((1, 5, False, False), (3, 6, False, False), (2, 6, True, False), (3, 5, False, True))
# With --short: the case, and how many requests are left out between two.
SHORT = ((2, 4, False, True), 41)


def tasks(options):
    if options.short:
        return [(SHORT[0], many, start, SHORT[1]) for many in ("1", ALL) for start in (5, 25)]
    return [(case, many, start, STRIPES) for case in CASES for many in ("1", ALL) for start in range(1, STRIPES + 1)]


def work(rig, options, task):
    case, many, first, stride = task
    nodes, count, is_reopened, is_taped = case
    tally = Tally()
    lines = scripts.draw(random.Random(count), nodes, count)
    made = Made(rig, nodes, lines, is_taped)
    if is_reopened:
        made.prepare(scripts.draw(random.Random(99), nodes, 4, 100))
    beyond, number = 0, first
    while beyond < ENOUGH and not tally.failures[20:]:
        what = f"run of {nodes} nodes, {count} lines{', reopened' if is_reopened else ''}{', taped' if is_taped else ''}, request {number}"
        what += " and all behind it" if many == ALL else ""
        is_reached = made.refuse(options, tally, what, number, many)
        beyond = 0 if is_reached else beyond + 1
        number += stride
    return tally


class Made:
    """A script over folders, which are made anew for each run."""

    def __init__(self, rig, nodes, lines, is_taped):
        self.rig, self.nodes, self.lines, self.earlier = rig, nodes, lines, []
        self.folder, self.kept, self.tape, self.count = (rig.path(it) for it in ("nodes", "kept", "tape", "count"))
        self.words = self.words_of(lines, "script") + (["--tape", self.tape] if is_taped else [])

    def words_of(self, lines, name):
        script = self.rig.write(name, scripts.text_of(lines))
        return ["run", "--nodes", str(self.nodes), "--dir", self.folder, "--script", script]

    def prepare(self, lines):
        """Has the folders hold what a run of these lines leaves."""
        shutil.rmtree(self.folder, ignore_errors=True)
        self.earlier = lines
        self.rig.run(*self.words_of(lines, "first"), limit=LONG)
        shutil.rmtree(self.kept, ignore_errors=True)
        os.rename(self.folder, self.kept)

    def clear(self):
        shutil.rmtree(self.folder, ignore_errors=True)
        if self.earlier:
            shutil.copytree(self.kept, self.folder)
        for path in (self.tape, self.count):
            if os.path.exists(path):
                os.remove(path)

    def refuse(self, options, tally, what, number, many):
        """A run of which this request is refused, and one over its folders without fault. Answers whether it was made."""
        self.clear()
        env = {"LD_PRELOAD": options.preload, "FAIL_ALLOC": str(number), "FAIL_MANY": many, "COUNT_ALLOC": self.count}
        ending = self.rig.run(*self.words, env=env, limit=LONG)
        asked = int(scripts.bytes_of(self.count) or 0)
        disks = scripts.disks_of(self.folder, self.nodes)
        lines = self.earlier + self.lines
        commands = scripts.check_disks(tally, what, lines, disks)
        is_reached = asked >= number
        if ending.status == 0:
            holds = not ending.err
            missed = scripts.check_answers(tally, what, self.lines, ending.out, disks, commands, is_reached)
            tally.counts["runs with all answers"] += 1
            tally.counts["lines that were refused"] += missed
        else:
            holds = is_reached and ending.status == 6 and ending.err == NO_MEMORY
            tally.counts["runs that ended without memory"] += 1
        tally.check(holds and asked, lambda: f"{what}: {tell(ending)}, {asked} requests")
        tally.counts["requests refused"] += is_reached
        self.check_tape(tally, what)
        self.again(tally, what, lines, disks)
        return is_reached

    def check_tape(self, tally, what, is_cut=False):
        """A tape is accepted; of one whose writing failed, the whole lines that it has."""
        tape = scripts.bytes_of(self.tape)
        if is_cut:
            tape = tape[: tape.rfind(b"\n") + 1]
        if tape:
            ending = self.rig.plain.ask(f"audit {len(tape)}", tape)
            tally.check(ending.status == 0, lambda: f"{what}: the tape isn't accepted, {tell(ending)}")
            tally.counts["tapes accepted"] += 1

    def again(self, tally, what, lines, before):
        """The folders are opened again, and all is asked once more."""
        ending = self.rig.run(*self.words_of(lines, "again"), limit=LONG)
        what = f"{what}, opened again"
        disks = scripts.disks_of(self.folder, self.nodes)
        for disk in before:
            commands = scripts.check_disks(tally, what, lines, disks, disk)
        if tally.check(ending.status == 0 and not ending.err, lambda: f"{what}: {tell(ending)}"):
            scripts.check_answers(tally, what, lines, ending.out, disks, commands)
