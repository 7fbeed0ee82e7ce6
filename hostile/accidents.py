"""Accidents that the other parts don't try: how a call that fails is told, a disk without room, bits of an only node, a wrong DIR.

docs/HOSTILE.md has a table of accidents and where each is tried. Here each call of a shell on its folders fails in turn. The second line
on standard error has to name a path in DIR, the call and what the system said. A registry on a disk without any room is looked at. Each part
of the area of an only node has a bit flipped: it's refused by name, or each answer is right.

That four of seven nodes decide within a second right behind stops under load is tried without --short alone, as it takes minutes.
"""
import errno
import os
import random
import re
import shutil
import subprocess
import time

import forgetting
import scripts
import shell_kills
from harness import LONG, Tally

# How a call fails, and what the system says of it.
ERRORS = {"EIO": "Input/output error", "ENOSPC": "No space left on device"}
KINDS = ("open", "read", "write", "sync", "rename", "mkdir", "lock")
CALLS = "opening|reading|writing|syncing|renaming|locking|looking|making the file|(?:opening|making|syncing) the folder"
MOST_CALLS, MOST_TRIES = 200, 100
# The seconds within which a node has heard what another decided.
SOON = 20
# How often three of seven nodes are stopped, a tick then in milliseconds, and how many ticks the next claim may take: a second of usual ticks.
STOPS, TICK, MOST_TICKS = 300, 20, 20
# Of how many calls and of how many bits one is tried with --short, and else.
FEW_CALLS, FEW_BITS = {True: 7, False: 1}, {True: 211, False: 13}
# What is told of a node that hears a decision against its own: the instance and both commands.
DIFFERENCE = r"instance (\d+) is decided as (\S+ claim b [xy]) here and as (\S+ claim b [xy]) by another node"
LINES = ("claim a x", "snapshot 0", "claim b y", "look a")


def tasks(options):
    calls = [("calls", start, kind, how) for start in ("fresh", "used") for kind in KINDS for how in ERRORS]
    lone = [("bits", snapshots) for snapshots in (0, 1)]
    rest = ["room", "each write wants room", "exported though refused", "nodes that differ", "made by a pipe"]
    rest += [] if options.short else ["four of seven under load"]
    return calls + lone + [(name,) for name in rest]


def work(rig, options, task):
    tally = Tally()
    made = Accident(rig, tally, options)
    try:
        made.begin()
        getattr(made, task[0].replace(" ", "_"))(*task[1:])
    except shell_kills.Wrong as why:
        tally.check(False, f"{task}: {why}")
    finally:
        made.close()
    return tally


class Accident:
    """A cluster that something happens to."""

    def __init__(self, rig, tally, options):
        self.rig, self.tally, self.options = rig, tally, options
        self.folder, self.kept = rig.path("accident"), rig.path("accident.kept")
        self.children, self.is_mounted = [], False

    def begin(self):
        for folder in (self.folder, self.kept):
            shutil.rmtree(folder, ignore_errors=True)

    def close(self):
        for child in self.children:
            child.kill()
            child.wait()
        if self.is_mounted:
            subprocess.run(["umount", self.folder], check=True)

    def shell(self, *lines, client=7, env=None):
        words = ["shell", "--nodes", "3", "--dir", self.folder, "--client", str(client)]
        return self.rig.run(*words, *[word for line in lines for word in ("-c", line)], env=env, limit=LONG)[:3]

    def asked(self, client=7):
        """A shell that is asked line by line."""
        shell = shell_kills.Shell(self.rig.rr, 3, self.folder, {}, client)
        self.children.append(shell.child)
        return shell

    def check(self, holds, failure):
        return self.tally.check(holds, failure)

    def wants(self, shell, *pairs):
        for line, answer in pairs:
            got = shell.ask(line)
            self.check(got == answer, f"{line!r} was answered {got!r}, not {answer!r}")

    # ---- calls that fail

    def calls(self, start, kind, how):
        """Each call of a shell fails in turn: what is told names a path in DIR, the call and the reason."""
        count, few = self.rig.path("accident.count"), FEW_CALLS[self.options.short]
        if start == "used":
            self.check(self.shell("claim z z")[:2] == (0, b"claimed\n"), "no cluster begins")
            shutil.copytree(self.folder, self.kept)
        env = {"LD_PRELOAD": self.options.preload_calls, "FAIL_CALL": kind, "FAIL_PATH": self.folder, "COUNT_CALLS": count}
        for number in range(1 + (len(kind) + len(how)) % few, MOST_CALLS, few):
            shutil.rmtree(self.folder, ignore_errors=True)
            if start == "used":
                shutil.copytree(self.kept, self.folder)
            self.rig.write("accident.count", b"")
            ended = self.shell(*LINES, env={**env, "FAIL_NTH": str(number), "FAIL_HOW": str(getattr(errno, how))})
            if int(scripts.bytes_of(count) or 0) < number:
                break
            self.is_told(f"{start}, {kind} {number} by {how}", how, *ended)

    def is_told(self, what, how, status, out, err):
        if status == 0:
            self.tally.counts["calls that a shell can do without"] += 1
            return
        said = self.rig.why.decode().replace(self.folder, "DIR")
        self.check((status, err) == (5, b"rr: 2 Device\n"), f"{what}: status {status}, {err!r}")
        reason = rf"{ERRORS[how]} \(os error {getattr(errno, how)}\)"
        if re.fullmatch(rf"DIR(?:/[a-z0-9.]+){{0,2}}: (?:{CALLS}): {reason}\n", said):
            self.tally.passed += 1
            self.tally.counts["calls that are told by path, call and reason"] += 1
            return
        self.check(False, f"{what}: told as {said!r}")

    # ---- no room

    def room(self):
        """Behind an end and behind a kill a registry on a disk without any room is looked at. With room again it goes on."""
        os.mkdir(self.folder)
        ran = subprocess.run(["mount", "-t", "tmpfs", "-o", "size=256k", "tmpfs", self.folder], capture_output=True, check=False)
        self.is_mounted = ran.returncode == 0
        if not self.is_mounted:
            self.tally.counts["no file system could be mounted"] += 1
            return
        names = []
        for is_killed in (False, True):
            shell = self.asked()
            for _ in range(9):
                names.append(f"n{len(names)}")
                self.wants(shell, (f"at {len(names) % 3}", f"at {len(names) % 3}"), (f"claim {names[-1]} x", "claimed"))
            for node in range(3):
                self.wants(shell, (f"at {node}", f"at {node}"), ("sync", "synced"))
            if is_killed:
                shell.child.kill()
            else:
                self.check(shell.end() == (0, b""), "a shell with room")
            shell.child.wait()
            self.fill()
            lines = [word for node in range(3) for word in (f"at {node}", *(f"look {name}" for name in names))]
            wanted = [f"at {line[3:]}" if line.startswith("at") else f"{line[5:]} bound 7 x" for line in lines]
            got = self.shell(*lines)
            self.check(got == (0, scripts.text_of(wanted), b""), f"looked at without room: {got}")
            status, out, err = self.shell("claim full x")
            said = self.rig.why.replace(self.folder.encode(), b"DIR")
            # (a command wants a request number, and a file for it; it's claimed where there was room in a last page)
            is_right = (status, out) == (0, b"claimed\n") or (status == 5 and said.startswith(b"DIR"))
            self.check(is_right, f"claimed without room: {status} {out} {err} {said}")
            os.remove(f"{self.folder}/filler")
            self.tally.counts["looks without room"] += len(names) * 3
        got = self.shell(*(f"look {name}" for name in names))
        self.check(got == (0, scripts.text_of(f"{name} bound 7 x" for name in names), b""), f"with room again: {got}")

    def fill(self):
        with open(f"{self.folder}/filler", "wb", 0) as file:
            for size in (4096, 1):
                try:
                    while True:
                        file.write(bytes(size))
                except OSError:
                    pass

    def each_write_wants_room(self):
        """Where no write goes at all, not even in place: an opening writes back what it reads, so a start is refused, and the line has the file
        and the reason. `rr verify` and `rr export` write nothing, and have all. With room again it serves."""
        self.check(self.shell("claim a x") == (0, b"claimed\n", b""), "no cluster begins")
        env = {"LD_PRELOAD": self.options.preload_calls, "FAIL_CALL": "change", "FAIL_PATH": self.folder}
        env.update(FAIL_NTH="1", FAIL_MANY="1000000", FAIL_HOW=str(errno.ENOSPC))
        got = self.shell("look a", env=env)
        said = self.rig.why.decode().replace(self.folder, "DIR")
        reason = rf"{ERRORS['ENOSPC']} \(os error {errno.ENOSPC}\)"
        holds = got == (5, b"", b"rr: 2 Device\n") and re.fullmatch(rf"DIR/\d/a[01]: writing: {reason}\n", said)
        self.check(holds, f"a look where nothing can be written: {got} {said!r}")
        verified = self.rig.run("verify", self.folder, env=env)
        self.check(verified.status == 0 and verified.out.endswith(b"\nagree\n"), f"verified where nothing can be written: {verified}")
        exported = self.rig.run("export", self.folder, env=env)
        self.check(exported[:2] == (0, b"submit 0 7 1 claim a x\n"), f"exported where nothing can be written: {exported}")
        self.check(self.shell("look a") == (0, b"a bound 7 x\n", b""), "with room again")

    # ---- a folder that a start refuses

    def exported_though_refused(self):
        """A start refuses a folder whose list is the longest, as its bytes are others. An export doesn't take its altered name without a word."""
        for _ in range(MOST_TRIES):
            shutil.rmtree(self.folder, ignore_errors=True)
            self.check(self.shell("claim a x", "at 1", "claim last x")[1] == b"claimed\nat 1\nclaimed\n", "no cluster begins")
            counts = [len(disk.decided) for disk in scripts.disks_of(self.folder, 3)]
            if counts[1] > max(counts[0], counts[2]):
                break
        else:
            self.tally.counts["no node was ahead of the others"] += 1
            return
        path = f"{self.folder}/1/a0"
        area = scripts.bytes_of(path)
        place = area.rindex(b"last")
        with open(path, "wb") as file:
            file.write(area[:place] + b"lost" + area[place + 4 :])
        refused = self.shell("look a")
        self.check(refused[:2] == (5, b"") and self.rig.why.startswith(path[:-3].encode() + b": "), f"altered bytes: {refused} {self.rig.why}")
        exported = self.rig.run("export", self.folder)
        told = f"rr: export: it is of the other folders in {self.folder}, as a start would refuse these:\n".encode()
        holds = exported == (4, b"submit 0 7 1 claim a x\n", told) and self.rig.why.startswith(path[:-3].encode() + b": ")
        self.check(holds, f"a folder that is refused is exported: {exported} {self.rig.why}")
        for node in (0, 2):
            with open(f"{self.folder}/{node}/a0", "r+b") as file:
                file.truncate(40)
        exported = self.rig.run("export", self.folder)
        self.check(exported.status == 5 and exported.out == b"", f"no majority of folders is whole, and that is exported: {exported}")

    # ---- an only node

    def bits(self, snapshots):
        """Bits all over the active area of an only node are flipped."""
        lone = forgetting.Forgetting(self.rig, self.tally, self.options, 1, snapshots)
        whole = scripts.bytes_of(os.path.join(lone.kept, "0", f"a{snapshots % 2}"))
        for bit in range(self.options.seed, 8 * len(whole), FEW_BITS[self.options.short]):
            found = bytearray(whole)
            found[bit // 8] ^= 1 << bit % 8
            lone.harmed(f"bit {bit} of the active area", (0,), snapshots % 2, {0: bytes(found)})

    # ---- nodes that differ

    def nodes_that_differ(self):
        """A node that forgot lets two nodes decide differently. One hears the other's decision: it goes down, and tells both commands in its
        status and at the end, with status 4."""
        self.check(self.shell("claim a x") == (0, b"claimed\n", b""), "no cluster begins")
        shutil.copytree(f"{self.folder}/1", self.kept)
        shell = self.asked()
        self.wants(shell, ("stop 2", "stopped 2"), ("claim b x", "claimed"))
        shell.child.kill()
        shell.child.wait()
        # (behind a kill an older copy can't be told by its mark)
        shutil.rmtree(f"{self.folder}/1")
        shutil.copytree(self.kept, f"{self.folder}/1")
        shell = self.asked(9)
        self.wants(shell, ("stop 0", "stopped 0"), ("at 1", "at 1"))
        shell.ask("claim b y")
        self.wants(shell, ("start 0", "started 0"))
        shell.ask("sync")
        told = self.wait_for_failure(shell)
        self.check(told is not None, "no node that differs fails")
        if told is None:
            return
        place, own, heard = re.fullmatch(r"node \d failed: " + DIFFERENCE, told).groups()
        # (each node decided one of the two claims behind the first, which all have)
        claims = {own.partition(" ")[2], heard.partition(" ")[2]}
        self.check(place == "1" and claims == {"claim b x", "claim b y"}, f"nodes that differ are told so: {told}")
        self.check(own.startswith("7.") != heard.startswith("7."), f"both commands have one client: {told}")
        status, said = shell.end()
        self.check((status, said) == (4, f"rr: 3 Damaged 0 0\n{told}\n".encode()), f"nodes that differ end the shell with {status}, {said}")
        # (the shell has no terminal: what it tells is what `rr verify` finds)
        verified = self.rig.run("verify", self.folder)
        self.check(verified.status == 4 and b"disagree" in verified.out, f"folders that differ: {verified}")

    def wait_for_failure(self, shell):
        """The line of a status by which a node tells that another decided differently; None where none does in time."""
        until = time.monotonic() + SOON
        while time.monotonic() < until:
            lines = [shell.ask("status"), shell.hear("status"), shell.hear("status")]
            told = [line for line in lines if line and re.fullmatch(r"node \d failed: " + DIFFERENCE, line)]
            if told:
                return told[0]
            time.sleep(0.1)
        return None

    def made_by_a_pipe(self):
        """A DIR that was given wrongly makes no registry without a word, also where nobody types."""
        told = f"rr: {self.folder}: a new registry, with --nodes 3\n".encode()
        for first in (told, b""):
            got = self.shell("look a")
            self.check((*got, self.rig.new) == (0, b"a free\n", b"", first), f"a new registry, and then the same: {got} {self.rig.new}")
        shutil.rmtree(self.folder)
        shell = subprocess.run([self.rig.rr, "shell", "--dir", self.folder], input=b"look a\n", capture_output=True, env={}, timeout=LONG, check=False)
        self.check((shell.returncode, shell.stdout, shell.stderr) == (0, b"a free\n", told), f"a new registry by a pipe: {shell}")
        # (a start that is refused makes none, and tells of none)
        shutil.rmtree(self.folder)
        got = self.rig.run("shell", "--nodes", "3", "--dir", self.folder, "--without", "1", "-c", "look a")
        self.check(got.status == 5 and not self.rig.new, f"a start that is refused: {got} {self.rig.new} {self.rig.why}")


    def four_of_seven_under_load(self):
        """Claims come, and three of seven nodes stop at once that don't coordinate first rounds. The next claim takes no long time."""
        drawn, took = random.Random(self.options.seed), []
        for _ in range(STOPS):
            shutil.rmtree(self.folder, ignore_errors=True)
            shell = shell_kills.Shell(self.rig.rr, 7, self.folder, {}, more=("--tick", str(TICK)))
            self.children.append(shell.child)
            down = drawn.sample((0, 2, 3, 4, 5, 6), 3)
            asked = drawn.choice([node for node in range(7) if node not in down])
            self.wants(shell, (f"at {asked}", f"at {asked}"), *((f"claim n{it} x", "claimed") for it in range(4)))
            time.sleep(drawn.random() * TICK / 500)
            self.wants(shell, *((f"stop {node}", f"stopped {node}") for node in down))
            begun = time.monotonic()
            self.wants(shell, ("claim last x", "claimed"))
            took.append(1000 * (time.monotonic() - begun) / TICK)
            self.check(shell.end() == (0, b""), "a shell with four of seven nodes")
        slow = sorted((round(it) for it in took if it > MOST_TICKS), reverse=True)
        self.check(not slow, f"of {len(took)} claims with four of seven nodes up some took so many ticks: {slow}")
