"""One node's folder has a fault while three or five nodes are asked: it's filled, made read-only, broken, removed or damaged.

Claims, updates and releases come through a pipe, many lines ahead of their answers, and the fault comes between two of them. Each command
that is asked at another node is acknowledged all the same. Of a node that fails `status` names the file, the call and what the system
said. At the end the disks of the whole nodes, read by reading.py, hold what registry.py makes of all that was acknowledged. So does a
`list` behind a `sync` at each. Then the cluster is opened again: with the folder as it was left, or put back from a copy. Either it serves,
and each node has all that was acknowledged. Or it is refused: it names the folder and says why, changes nothing, `rr verify` doesn't call it
agreeing, and `rr export` has all. A start is refused whose folder of one node is missing, damaged, full or read-only. Without that node it serves, and
writes nothing there. A node that was stopped isn't started over another folder than its own, or over one that isn't as it was left.
"""
import errno
import os
import random
import re
import shutil
import subprocess
import time

import reading
import registry
import scripts
import shell_kills
from forgetting import held
from harness import LIMIT, Tally

CLIENT = 7
VERBS = {"claim": "claimed", "update": "updated", "release": "released"}
# How many commands are asked before a fault, while it comes, and at each whole node behind it; and how many answers it waits for.
BEFORE, DURING, BEHIND, FIRST = 20, 30, 8, 5
# How a call is refused, and what the system says of it.
DEVICES = {"ENOSPC": "No space left on device", "EROFS": "Read-only file system", "EIO": "Input/output error"}
# A small file system of its own, in bytes.
ROOM = 65536
# Faults at a start, and what the system says of them where it says something.
AT_A_START = {"missing": None, "damaged": None, "full": "ENOSPC", "read-only": "EROFS"}
STARTED = ("removed, and started", "replaced, and started", "damaged, and started", "removed, and told")
ENDED = ("removed, and told at the end", "replaced, and told at the end", "removed, and put back older", "removed, and put back whole")


def tasks(options):
    sizes = {3: (1,), 5: (4,)} if options.short else {3: (0, 1, 2), 5: (0, 1, 4)}
    places = [(nodes, node) for nodes, those in sizes.items() for node in those]
    few = [("ENOSPC", "healed"), ("EROFS", "left"), ("EIO", "killed")]
    every = [(how, ending) for how in DEVICES for ending in ("healed", "left", "killed")]
    found = [("device", *it, *how) for it in places for how in (few if options.short else every)]
    found += [(kind, *it, is_back) for it in places for kind in ("removed while stopped", "damaged while stopped") for is_back in (True, False)]
    found += [(kind, *it) for it in places for kind in ("removed", "damaged", "mounted")]
    found += [("damaged anywhere", *it, options.seed + seed) for it in places for seed in range(2 if options.short else 12)]
    found += [("at a start", *it, how) for it in places for how in AT_A_START]
    return found + [(kind, *it) for it in places for kind in (*STARTED, *ENDED)]


def work(rig, options, task):
    tally = Tally()
    made = Faulty(rig, tally, options, *task[:3])
    try:
        made.begin()
        getattr(made, re.sub(r",? ", "_", task[0].replace("-", "_")))(*task[3:])
    except shell_kills.Wrong as why:
        tally.check(False, f"{made.what}: {why}")
    finally:
        made.close()
    tally.counts[f"clusters, {task[0]}"] += 1
    return tally


class Model:
    """What was acknowledged, and the names whose last command may count or not."""

    def __init__(self):
        self.held, self.doubted, self.settled, self.count = registry.Registry(), {}, [], 0

    def draw(self):
        """The words of a next command, on a name of which nothing is asked."""
        self.count += 1
        verb = "release" if self.count % 11 == 0 else "update" if self.count % 4 == 0 else "claim"
        name = self.settled.pop(0) if verb != "claim" and self.settled else f"n{self.count}"
        words = (verb if name != f"n{self.count}" else "claim", name)
        return words if words[0] == "release" else (*words, f"v{self.count}")

    def note(self, number, words, answer):
        """Whether a command was acknowledged, with the reply that the registry gives; if it wasn't, it's in doubt."""
        if answer == VERBS[words[0]]:
            self.held.apply(f"{CLIENT}.{number}", words)
            if words[0] != "release":
                self.settled.append(words[1])
            return self.held.replies[f"{CLIENT}.{number}"] == answer
        new = None if words[0] == "release" else words[2]
        self.doubted[words[1]] = {self.held.bound.get(words[1], (None, None))[1], new}
        return False

    def misses(self, found):
        """What is wrong with names and their values: those that were acknowledged, and no others."""
        wanted = {name: value for name, (_, value) in self.held.bound.items()}
        names = {*wanted, *found} - {*self.doubted}
        wrong = {name: (found.get(name), wanted.get(name)) for name in names if found.get(name) != wanted.get(name)}
        return wrong | {name: (found.get(name), it) for name, it in self.doubted.items() if found.get(name) not in it}


class Faulty:
    """A cluster of which one node's folder has a fault."""

    def __init__(self, rig, tally, options, kind, nodes, node):
        self.rig, self.tally, self.options, self.nodes, self.node = rig, tally, options, nodes, node
        self.folder, self.kept, self.flag = (rig.path(name) for name in ("faulty", "faulty.kept", "faulty.flag"))
        self.whole = [it for it in range(nodes) if it != node]
        self.path = f"{self.folder}/{node}"
        self.model, self.shell, self.is_mounted = Model(), None, False
        self.what = f"{kind}, node {node} of {nodes}"

    def check(self, holds, failure):
        return self.tally.check(holds, lambda: f"{self.what}: {failure() if callable(failure) else failure}")

    def close(self):
        if self.shell:
            self.shell.child.kill()
            self.shell.child.wait()
        self.unmount()
        if os.path.exists(self.flag):
            os.remove(self.flag)

    # ---- a shell, and what it is asked

    def begin(self):
        """Fresh folders, with names that their marks speak of."""
        for folder in (self.folder, self.kept):
            shutil.rmtree(folder, ignore_errors=True)
        self.open()
        self.ask_each(range(self.nodes), BEFORE // self.nodes + 1)
        self.end()

    def open(self, how=None, without=False):
        """Starts a shell, without the node where that is asked for. While there is the file `flag`, each call that would change something in the folder is refused so."""
        env = {"LD_PRELOAD": self.options.preload_calls, "FAIL_CALL": "change", "FAIL_PATH": f"{self.path}/", "FAIL_NTH": "1"}
        env.update(FAIL_MANY="1000000", FAIL_WHILE=self.flag, FAIL_HOW=str(getattr(errno, how or "EIO")))
        more = ("--without", str(self.node)) if without else ()
        self.shell = shell_kills.Shell(self.rig.rr, self.nodes, self.folder, env if how else {}, more=more)

    def burst(self, node, count, harm=None, may_fail=False):
        """Asks so many commands at a node ahead of their answers; the harm is done behind the first answers."""
        self.want(f"at {node}", f"at {node}")
        asked = [(self.model.count, self.model.draw()) for _ in range(count)]
        try:
            self.shell.child.stdin.write("".join(f"{' '.join(words)}\n" for _, words in asked).encode())
        except BrokenPipeError:
            raise shell_kills.Wrong(f"the shell has ended with {self.shell.end()}") from None
        for place, (number, words) in enumerate(asked):
            if place == FIRST and harm:
                harm()
            answer = self.shell.hear(" ".join(words))
            is_noted = self.model.note(number, words, answer)
            if not may_fail:
                self.check(is_noted, f"{words} at node {node} was answered {answer!r}")
            self.tally.counts["commands acknowledged" if is_noted else "commands in doubt"] += 1

    def ask_each(self, nodes, count=BEHIND):
        for node in nodes:
            self.burst(node, count)

    def want(self, line, answer):
        got = self.shell.ask(line)
        return self.check(got == answer, f"{line!r} was answered {got!r}, not {answer!r}")

    def states(self):
        return [self.shell.ask("status"), *(self.shell.hear("status") for _ in range(self.nodes - 1))]

    def stop(self):
        self.want(f"stop {self.node}", f"stopped {self.node}")

    def start(self):
        self.want(f"start {self.node}", f"started {self.node}")

    def end(self, said=None):
        """The shell ends with 0, or with 5 and a line on the folder that has these words."""
        status, told = self.shell.end()
        self.shell = None
        if said is None:
            self.check((status, told) == (0, b""), f"the shell ended with {status}, {told!r}")
        else:
            holds = re.fullmatch(rf"rr: 2 Device\n{re.escape(self.path)}[:/][^\n]*{said}[^\n]*\n", told.decode())
            self.check(status == 5 and holds, f"the shell ended with {status}, {told!r}, not with {said!r}")

    def listed(self, node):
        """What a node lists behind a sync has all that was acknowledged, and nothing else."""
        self.want(f"at {node}", f"at {node}")
        self.want("sync", "synced")
        count = int(self.shell.ask("list").removeprefix("list "))
        lines = [self.shell.hear("list").split(" ") for _ in range(count)]
        found = {line[0]: line[3] for line in lines}
        wrong = self.model.misses(found)
        self.check(not wrong and all(line[1:3] == ["bound", str(CLIENT)] for line in lines), f"node {node} lists, in place of the model: {wrong}")
        self.tally.counts["lists that held"] += 1

    def go_on(self):
        """The whole nodes acknowledge what they're asked, and have all."""
        self.ask_each(self.whole)
        for node in self.whole:
            self.listed(node)

    def fails(self, reason):
        """The node is down by a failure, and is said to be, with the file, the call and the reason; the others are up."""
        # (a node that was started writes nothing until it has heard something)
        until, states = time.monotonic() + LIMIT, self.states()
        while states[self.node].startswith(f"node {self.node} up ") and time.monotonic() < until:
            time.sleep(0.02)
            states = self.states()
        failed = re.fullmatch(rf"node {self.node} failed: (?:\S*/)?{self.node}/a[01]: [a-z]+ing: {reason} \(os error \d+\)", states[self.node])
        self.check(failed, f"a node that fails is told as {states[self.node]!r}")
        self.check(all(states[it].startswith(f"node {it} up ") for it in self.whole), f"of the whole nodes: {states}")

    # ---- what is left

    def disk(self, node):
        return reading.Disk([scripts.bytes_of(f"{self.folder}/{node}/a{area}") for area in (0, 1)])

    def check_disks(self):
        """The disks of the whole nodes decide nothing differently, and hold all that was acknowledged."""
        commands, apart = reading.list_of([self.disk(it) for it in self.whole])
        self.check(not apart, f"two whole nodes differ at {apart}")
        bound = registry.after(commands).bound
        wrong = self.model.misses({name: value for name, (_, value) in bound.items()})
        self.check(not wrong, f"the disks of the whole nodes hold, in place of the model: {wrong}")

    def open_again(self, wanted):
        """Opened again the cluster serves or is refused, as it's wanted; None where it may do either."""
        self.check_disks()
        before = held(self.folder)
        self.open()
        if self.shell.ask(f"at {self.whole[0]}") is None:
            self.is_refused(before)
            self.check(wanted != "served", "opened again it's refused")
        else:
            self.check(wanted != "refused", "opened again it serves")
            self.ask_each(range(self.nodes), 2)
            for node in range(self.nodes):
                self.listed(node)
            self.end()
            self.tally.counts["opened again: served"] += 1

    def is_refused(self, before):
        """It names the folder and says why, and changed nothing; verify doesn't call it agreeing, and an export has all."""
        status, told = self.shell.end()
        self.shell = None
        first = rb"rr: 2 Device" if status == 5 else rb"rr: 3 Damaged \d \d+"
        line = rb"%s\n%s(?:/a[01])?: [^\n]{10,}\n" % (first, re.escape(self.path.encode()))
        self.check(status in (4, 5) and re.fullmatch(line, told), f"refused with {status}, {told!r}")
        # (an opening that finds damage comes behind the request numbers)
        requests = f"{self.folder}/requests" if status == 4 else None
        left, before = ({path: it for path, it in all.items() if path != requests} for all in (held(self.folder), before))
        self.check(left == before, "a start that is refused changed something")
        verified = self.rig.run("verify", self.folder)
        self.check(verified.status == 4 and verified.out.endswith(b"\ndisagree\n"), f"it's refused, and verified with {verified}")
        self.check_export()
        self.tally.counts["opened again: refused"] += 1

    def check_export(self):
        """An export of the other folders has all that was acknowledged. (It refuses folders that differ, so the one that is named is left out.)"""
        aside = f"{self.kept}.aside"
        if is_there := os.path.isdir(self.path):
            os.rename(self.path, aside)
        exported = self.rig.run("export", self.folder)
        if is_there:
            os.rename(aside, self.path)
        found = {words[5]: words[6] for words in (line.split(" ") for line in exported.out.decode().splitlines())}
        wrong = self.model.misses(found)
        self.check(exported.status == 0 and not wrong, f"it's refused, and an export has, in place of the model: {wrong}; {exported.err!r}")

    # ---- faults

    def keep(self):
        shutil.copytree(self.path, self.kept)

    def put_back(self):
        shutil.rmtree(self.path, ignore_errors=True)
        shutil.copytree(self.kept, self.path)

    def remove(self):
        shutil.rmtree(self.path)

    def damage(self):
        """Flips a bit among the bytes that the node's mark speaks of: in the middle of a name that is decided there."""
        path, length = self.marked()
        area = scripts.bytes_of(path)
        place = area.rindex(b"\x02n", 0, length) + 1
        with open(path, "r+b") as file:
            file.seek(place)
            file.write(bytes([area[place] ^ 1 << 3]))

    def marked(self):
        """The area that the node's mark speaks of, and how many bytes of it."""
        words = scripts.bytes_of(f"{self.path}/node").split()
        if words[:1] != [b"node-2"]:
            raise shell_kills.Wrong(f"a mark says {words}")
        epoch, length = int(words[3]), int(words[4])
        for area in (0, 1):
            path = f"{self.path}/a{area}"
            if (payloads := reading.frames(scripts.bytes_of(path))) and int.from_bytes(payloads[0][3:11], "big") == epoch:
                return path, length
        raise shell_kills.Wrong(f"no area of epoch {epoch}")

    def refuse_calls(self):
        with open(self.flag, "wb"):
            pass

    def heal(self):
        os.remove(self.flag)

    def device(self, how, ending):
        """Each call that would change something in the folder is refused from some moment on. It's healed before the shell ends, behind its
        end, or behind a kill."""
        reason = DEVICES[how]
        self.open(how)
        self.burst(self.node, BEFORE)
        self.burst(self.whole[0], DURING, self.refuse_calls)
        self.go_on()
        self.fails(reason)
        self.want(f"at {self.node}", f"at {self.node}")
        down = f"error: node {self.node} is down: start it, or ask another"
        for line in ("look n1", "claim x", "list", "sync"):
            self.want(line, down)
        again = self.shell.ask(f"start {self.node}")
        self.check(again in (f"started {self.node}", f"error: node {self.node} has failed again: status says why"), f"a start was answered {again!r}")
        self.go_on()
        self.fails(reason)
        if ending == "healed":
            self.heal()
            self.start()
            self.listed(self.node)
            self.ask_each(range(self.nodes))
            self.end()
        elif ending == "left":
            self.end(reason)
            self.heal()
        else:
            self.shell.child.kill()
            self.check(self.shell.end() == (-9, b""), "a shell that is killed")
            self.shell = None
            self.heal()
        self.open_again("served")

    def mounted(self):
        """The folder is a small file system of its own, which is filled and then has room again."""
        if not self.mount():
            self.tally.counts["no file system could be mounted"] += 1
            return
        self.open()
        self.burst(self.node, BEFORE)
        self.burst(self.whole[0], DURING, self.fill)
        # (what is written in place, or fits behind it, still goes)
        for _ in range(ROOM // 4096):
            self.ask_each(self.whole)
            if " failed: " in self.states()[self.node]:
                break
        self.go_on()
        self.fails(DEVICES["ENOSPC"])
        os.remove(f"{self.path}/filler")
        self.start()
        self.listed(self.node)
        self.ask_each(range(self.nodes))
        self.end()
        self.open_again("served")

    def mount(self):
        """Moves the node's folder to a file system of its own; answers whether there can be one."""
        self.keep()
        ran = subprocess.run(["mount", "-t", "tmpfs", "-o", f"size={ROOM}", "tmpfs", self.path], capture_output=True, check=False)
        self.is_mounted = ran.returncode == 0
        if self.is_mounted:
            for name in os.listdir(self.kept):
                shutil.copy(f"{self.kept}/{name}", self.path)
        return self.is_mounted

    def unmount(self):
        if self.is_mounted:
            subprocess.run(["umount", self.path], check=True)
        self.is_mounted = False

    def fill(self):
        with open(f"{self.path}/filler", "wb", 0) as file:
            try:
                while True:
                    file.write(bytes(4096))
            except OSError:
                pass

    def removed(self):
        """The folder is removed while the node runs: the others go on, and so may the node."""
        self.goes_on_without(self.remove)

    def damaged(self):
        """A bit of its area is flipped while the node runs: the others go on, and so may the node."""
        self.goes_on_without(self.damage)

    def goes_on_without(self, harm):
        self.keep()
        self.open()
        self.burst(self.node, BEFORE)
        self.burst(self.whole[0], DURING, harm)
        self.burst(self.node, BEHIND, may_fail=True)
        self.go_on()
        self.ends_somehow()
        self.open_again("refused")
        # This copy is older than what the node said since.
        self.put_back()
        self.open_again(None)

    def damaged_anywhere(self, seed):
        """Any bit of any area is flipped, while the node runs or is stopped. It's told, or nobody answers anything else for it."""
        drawn = random.Random(f"{self.what} {seed}")
        self.open()
        self.burst(self.node, BEFORE)
        if drawn.random() < 0.5:
            self.want(f"snapshot {self.node}", f"snapshot {self.node}")
            self.burst(self.node, drawn.randrange(BEHIND))
        if drawn.random() < 0.5:
            self.stop()
        self.burst(self.whole[0], DURING, lambda: self.flip(drawn))
        self.go_on()
        self.ends_somehow()
        self.open_again(None)

    def flip(self, drawn):
        path = f"{self.path}/a{drawn.randrange(2)}"
        place = drawn.randrange(max(os.path.getsize(path), 1))
        with open(path, "r+b") as file:
            file.seek(place)
            found = file.read(1) or b"\0"
            file.seek(place)
            file.write(bytes([found[0] ^ 1 << drawn.randrange(8)]))

    def ends_somehow(self):
        """The shell ends with 0, or with 5 and the folder's name."""
        status, told = self.shell.end()
        self.shell = None
        self.check((status, told) == (0, b"") or (status == 5 and self.path.encode() in told), f"the shell ended with {status}, {told!r}")

    def removed_while_stopped(self, is_back):
        """The folder is removed while the node is stopped, and put back behind the end, or not."""
        self.stays_down(self.remove, is_back)

    def damaged_while_stopped(self, is_back):
        """A bit of its area is flipped while the node is stopped, and the folder is put back behind the end, or not."""
        self.stays_down(self.damage, is_back)

    def stays_down(self, harm, is_back):
        self.stop_and_keep()
        self.burst(self.whole[0], DURING, harm)
        self.go_on()
        self.check(self.states()[self.node] == f"node {self.node} down", f"a node that was stopped: {self.states()}")
        self.ends_somehow()
        if is_back and os.path.isdir(self.path):
            # (the mark was put at the end, and is newer than the copy's)
            for name in ("a0", "a1"):
                shutil.copy(f"{self.kept}/{name}", self.path)
        elif is_back:
            self.put_back()
        self.open_again("served" if is_back else "refused")

    def stop_and_keep(self):
        """The node has written and is stopped, and there is a copy of its folder as it is then."""
        self.open()
        self.burst(self.node, BEFORE)
        self.stop()
        self.keep()

    # ---- folders that a start refuses

    def at_a_start(self, fault):
        """A shell over a folder with a fault is refused. Without its node it serves, and nothing is made or written there."""
        how = AT_A_START[fault]
        reason = DEVICES.get(how, "")
        self.keep()
        {"missing": self.remove, "damaged": self.damage}.get(fault, self.refuse_calls)()
        before = self.held_there()
        self.open(how)
        if self.check(self.shell.ask(f"at {self.whole[0]}") is None, "a start over such a folder isn't refused"):
            self.end(reason)
        self.open(how, without=True)
        if not self.check(self.shell.ask(f"at {self.whole[0]}"), lambda: f"without the node the shell ended with {self.shell.end()}"):
            return
        self.check(self.states()[self.node] == f"node {self.node} down", f"a node that is left out: {self.states()}")
        self.go_on()
        self.isnt_started()
        self.is_told(reason)
        self.go_on()
        self.end(reason)
        self.check(self.held_there() == before, "a start without the folder changed it")
        if how:
            self.heal()
        else:
            self.put_back()
        self.open_again("served")

    def held_there(self):
        return {path: it for path, it in held(self.folder).items() if path.startswith(self.path)}

    def isnt_started(self):
        answer = self.shell.ask(f"start {self.node}")
        self.check(answer in (f"started {self.node}", f"error: node {self.node} has failed again: status says why"), f"a start was answered {answer!r}")
        until = time.monotonic() + LIMIT
        while self.states()[self.node].startswith(f"node {self.node} up ") and time.monotonic() < until:
            time.sleep(0.02)

    def is_told(self, reason):
        """The node is down by a failure, and is said to be, with its folder or a file in it, and the reason."""
        states = self.states()
        told = re.fullmatch(rf"node {self.node} failed: (?:\S*/)?{self.node}(?:/\S+)?: .*{reason}.*", states[self.node])
        self.check(told, f"a folder with a fault is told as {states[self.node]!r}")
        self.check(all(states[it].startswith(f"node {it} up ") for it in self.whole), f"of the whole nodes: {states}")

    def removed_and_started(self):
        """A node whose folder was removed while it was stopped isn't started; with the folder back it is."""
        self.isnt_started_after(self.remove)

    def damaged_and_started(self):
        """A node whose area was altered while it was stopped isn't started; with the folder back it is."""
        self.isnt_started_after(self.damage)

    def isnt_started_after(self, harm):
        self.stop_and_keep()
        self.burst(self.whole[0], DURING, harm)
        answer = self.shell.ask(f"start {self.node}")
        self.check(answer.startswith("error: "), f"a start was answered {answer!r}")
        self.go_on()
        self.is_told("")
        self.put_back()
        self.comes_back()

    def replaced_and_started(self):
        """A node whose folder was put back while it was stopped writes into the folder that is there."""
        self.stop_and_keep()
        self.burst(self.whole[0], DURING, self.put_back)
        self.comes_back()

    def comes_back(self):
        """The node is started, acknowledges what it's asked, and its folder has that at the end."""
        self.start()
        self.listed(self.node)
        self.burst(self.node, BEHIND)
        self.listed(self.node)
        self.end()
        bound = registry.after(self.disk(self.node).prefix()).bound
        wrong = self.model.misses({name: value for name, (_, value) in bound.items()})
        self.check(not wrong, f"the folder of the node that came back has, in place of the model: {wrong}")
        self.open_again("served")

    def removed_and_told(self):
        """Where a call on a folder that is gone fails, the status says which call on what, and why."""
        self.open()
        self.burst(self.node, BEFORE, self.remove)
        answer = self.shell.ask(f"snapshot {self.node}")
        self.check(answer.startswith("error: "), f"a snapshot was answered {answer!r}")
        self.is_told("No such file or directory")

    # ---- a folder that isn't in its place at the end

    def removed_and_told_at_the_end(self):
        """A shell whose node wrote to a folder that is gone says so at its end."""
        self.open()
        self.burst(self.node, BEFORE, self.remove)
        self.end("removed")

    def replaced_and_told_at_the_end(self):
        """So does one whose node wrote to a folder in whose place there is another one, and that other one is refused."""
        self.keep()
        self.open()
        self.burst(self.node, BEFORE, self.put_back)
        self.go_on()
        self.end("")
        self.open_again("refused")

    def removed_and_put_back_older(self):
        """What a node said before its folder was removed isn't forgotten behind the end: an older copy of the folder is refused."""
        self.keep()
        self.open()
        self.burst(self.node, BEFORE, self.remove)
        self.go_on()
        self.shell.end()
        self.shell = None
        self.put_back()
        self.open_again("refused")

    def removed_and_put_back_whole(self):
        """A copy that has all that the node said is served, though its mark is older than what was noted of it."""
        self.stop_and_keep()
        self.remove()
        self.go_on()
        self.end("removed")
        self.put_back()
        self.open_again("served")
