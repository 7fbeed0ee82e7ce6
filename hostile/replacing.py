"""A lost disk is replaced by `rr replace`: each minority of 3, 5 and 7 nodes, lost under load; and it's interrupted at each moment.

Claims, updates and releases come through a pipe, many lines ahead of their answers, and nodes write snapshots, are stopped and started. The
shell is killed in the middle of that, or ends. Then the disks of a minority are lost: removed, emptied, cut, altered or put back older, or
they stand there whole. Each is replaced. Of the bytes alone, read by reading.py: a new folder has just the decisions of the others, all up to
H + 8, where H is the highest instance of which one of their folders had a fact. What stood there is aside, as it was. Behind that all nodes
have what was acknowledged, and no two decided differently, while shells are killed and nodes stopped. An old folder that is put back is
refused.

Each call of a replacement fails, the process is killed at it, or the power is cut. Then the cluster opens without the node, and has all that
was acknowledged. With the node a start names its folder, or serves all. The replacement is made again, and all is as above.

These have to fail, so that the checks say something: an empty folder with forged marks in the place of a lost one loses an acknowledged
name. And with nodes in Python (lost_disks.py) an empty disk, or one that was made anew up to H alone, lets nodes decide differently.
"""
import copy
import errno
import itertools
import os
import random
import re
import shutil

import faults
import lost_disks
import reading
import replacing_cuts
import scripts
import shell_kills
from faults import BEHIND, CLIENT
from forgetting import held
from harness import LONG, Tally

SIZES = (3, 5, 7)
THIEF = 9
# How a disk is lost.
LOSSES = ("removed", "emptied", "cut", "altered", "older", "whole", "a file")
UNTOLD = ("cut", "altered", "older")
# How many seeds of each minority; of how many drawn runs one has to fail behind a wrong rule, and how many hold behind the right one.
SEEDS, MOST_DRAWN, RIGHT = 4, 6000, 500
# Calls of a replacement that go wrong, by their kinds; of how many one is tried with --short, and else.
HOWS = {"open": ("EIO",), "read": ("EIO",), "write": ("EIO", "ENOSPC", "kill", "killed"), "sync": ("EIO", "kill", "killed")}
HOWS.update({"rename": ("EIO", "kill", "killed"), "mkdir": ("EIO", "ENOSPC", "killed"), "lock": ("EIO",)})
STRIDE = 4
MOST_CALLS = 600
# With --short: from which call on, and one of how many, goes wrong.
FEW_CALLS = {("open", "EIO"): (5, 61), ("write", "killed"): (40, 97), ("sync", "kill"): (61, 97), ("rename", "killed"): (2, 5), ("mkdir", "ENOSPC"): (1, 7)}
KILLS = 5


def minorities(nodes):
    """Each set of nodes that a majority can do without, from one node on."""
    return [lost for count in range(1, (nodes + 1) // 2) for lost in itertools.combinations(range(nodes), count)]


def tasks(options):
    seeds = range(options.seed, options.seed + SEEDS)
    moments = [("moments", kind, how) for kind, hows in HOWS.items() for how in hows]
    if options.short:
        lost = [("lost", 3, (1,), options.seed), ("lost", 5, (4, 0), options.seed), ("lost", 7, (2, 6, 3), options.seed)]
        few = [("moments", *it, *calls) for it, calls in FEW_CALLS.items()]
        drawn = [("drawn", "right", 3, 0, 40), ("drawn", "short", 3, 0, MOST_DRAWN), ("drawn", "blank", 3, 0, MOST_DRAWN)]
        return drawn + lost + few + [("power", options.seed), ("forged", 3)]
    lost = [("lost", nodes, it, seed) for nodes in SIZES for it in minorities(nodes) for seed in seeds]
    right = [("drawn", "right", nodes, RIGHT * part, RIGHT) for nodes in SIZES for part in range(8)]
    liars = [("drawn", "short", 3, 0, MOST_DRAWN), *(("drawn", "blank", nodes, 0, MOST_DRAWN) for nodes in (3, 5))]
    every = [(*it, start, STRIDE) for it in moments for start in range(1, STRIDE + 1)]
    return lost + right + liars + every + [("power", seed) for seed in range(options.seed, options.seed + 40)] + [("forged", it) for it in SIZES]


def work(rig, options, task):
    tally = Tally()
    if task[0] == "drawn":
        drawn(tally, *task[1:])
        return tally
    made = Replaced(rig, tally, options, task)
    try:
        getattr(made, task[0])(*task[1:])
    except (shell_kills.Wrong, reading.Unreadable) as why:
        tally.check(False, f"{made.what}: {why}")
    finally:
        made.close()
    return tally


def drawn(tally, rule, nodes, first, count):
    """Drawn runs of nodes in Python: with the right rule none fails, and with a wrong one some does."""
    apart = None
    for seed in range(first, first + count):
        world, made, above = lost_disks.play(seed, nodes, rule)
        tally.counts[f"drawn runs, {rule}"] += 1
        tally.counts[f"disks made anew in drawn runs, {rule}"] += made
        tally.check(above <= lost_disks.OPEN, lambda: f"seed {seed} of {nodes} nodes: a lost node had a fact {above} above H")
        if world.apart is not None:
            apart = seed
            break
    if rule == "right":
        tally.check(apart is None, f"seed {apart} of {nodes} nodes: two nodes decide differently behind the right rule")
    else:
        tally.check(apart is not None, f"{count} drawn runs of {nodes} nodes hold with the wrong rule {rule!r}, so they show nothing")


class Replaced(faults.Faulty):
    """A cluster that has lost disks, and gets them replaced."""

    def __init__(self, rig, tally, options, task):
        # (of four nodes that are left one may fail, and a majority goes on)
        fails_alone = task[0] == "moments" and task[1] in ("write", "sync") and task[2] in faults.DEVICES
        nodes = task[1] if task[0] in ("lost", "forged") else 5 if fails_alone else 3
        super().__init__(rig, tally, options, "replaced", nodes, 0)
        self.what = " ".join(map(str, task))
        self.drawn = random.Random(self.what)
        self.early = rig.path("replaced.early")
        self.count = rig.path("replaced.count")

    def named(self, node):
        return f"{self.folder}/{node}"

    # ---- before a loss

    def load(self, lost):
        """Fresh folders of which an early copy is kept; then nodes are busy, until the shell is killed or ends."""
        self.begin()
        shutil.rmtree(self.early, ignore_errors=True)
        shutil.copytree(self.folder, self.early)
        self.whole = [it for it in range(self.nodes) if it not in lost]
        self.open()
        down = None
        for _ in range(self.drawn.randint(2, 4)):
            up = [it for it in range(self.nodes) if it != down]
            if self.drawn.random() < 0.4:
                node = self.drawn.choice(up)
                self.want(f"snapshot {node}", f"snapshot {node}")
            if self.drawn.random() < 0.4 and down is None:
                down = self.drawn.choice(up)
                self.want(f"stop {down}", f"stopped {down}")
                up.remove(down)
            elif down is not None and self.drawn.random() < 0.5:
                self.want(f"start {down}", f"started {down}")
                down = None
            self.burst(self.drawn.choice(up), self.drawn.randint(1, 25))
        if self.drawn.random() < 0.3:
            self.end()
        else:
            self.kill_in_between(self.drawn.choice([it for it in range(self.nodes) if it != down]))

    def kill_in_between(self, node, count=20):
        """Asks commands ahead of their answers, and kills the shell behind some of these: what wasn't answered is in doubt."""
        self.want(f"at {node}", f"at {node}")
        asked = [(self.model.count, self.model.draw()) for _ in range(count)]
        self.shell.child.stdin.write("".join(f"{' '.join(words)}\n" for _, words in asked).encode())
        heard = self.drawn.randrange(count)
        for number, words in asked[:heard]:
            self.check(self.model.note(number, words, self.shell.hear(" ".join(words))), f"{words} isn't acknowledged")
        self.shell.child.kill()
        for number, words in asked[heard:]:
            self.model.note(number, words, None)
        self.check(self.shell.end() == (-9, b""), "a shell that is killed")
        self.shell = None
        self.tally.counts["commands acknowledged"] += heard
        self.tally.counts["commands in doubt"] += count - heard

    def lose(self, node):
        """A node's disk is lost in one of the ways. Answers what stands there then."""
        how = self.how = self.drawn.choice(LOSSES)
        path = self.named(node)
        if how in ("removed", "older", "a file"):
            shutil.rmtree(path)
        if how == "older":
            shutil.copytree(f"{self.early}/{node}", path)
        elif how == "a file":
            with open(path, "wb") as file:
                file.write(b"no folder\n")
        elif how in ("emptied", "cut", "altered"):
            for name in ("a0", "a1"):
                area = scripts.bytes_of(f"{path}/{name}")
                place = self.drawn.randrange(len(area) or 1)
                left = {"emptied": b"", "cut": area[:place], "altered": area[:place] + self.drawn.randbytes(1) + area[place + 1 :]}[how]
                with open(f"{path}/{name}", "wb") as file:
                    file.write(left)
        self.tally.counts[f"disks lost, {how}"] += 1
        return self.standing(node)

    def standing(self, node):
        """What stands in a node's place: the paths in it, with their bytes."""
        return self.under(self.named(node))

    def under(self, path):
        if os.path.isfile(path):
            return {"": scripts.bytes_of(path)}
        return {it.removeprefix(path): data for it, data in held(path).items()}

    # ---- a replacement

    def replace(self, node, *more, env=None):
        words = ("replace", self.folder, "--node", str(node), "--tick", "10", *more)
        return self.rig.run(*words, env=env, limit=LONG)[:3]

    def without(self, nodes):
        return ("--without", ",".join(map(str, sorted(nodes)))) if nodes else ()

    def end_of(self, nodes):
        """One above the highest instance of which one of these folders has a fact."""
        found = [self.disk(it) for it in nodes]
        return max([it + 1 for disk in found for it in (*disk.decided, *disk.open)], default=0)

    def is_replaced(self, node, missing, stood):
        """The node is replaced, and what is written is right; the nodes that are missing too stay down."""
        others = [it for it in range(self.nodes) if it != node and it not in missing]
        least, before = self.end_of(others) + lost_disks.OPEN, held(self.folder)
        left = {it: self.under(self.named(it)) for it in missing}
        longest = max(len(self.disk(it).prefix()) for it in others)
        would = self.replace(node, *self.without(missing), "--dry-run")
        more = max(least - longest, 0)
        line = f"node {node} would be replaced: {longest} decided commands, {more} more to decide\n"
        self.check(would[0] == 0 and would[1].decode().startswith(line) and not would[2], f"a dry run says {would}, not {line!r}")
        self.check(held(self.folder) == before, "a dry run changed something")
        self.finish(node, missing, least, stood, self.replace(node, *self.without(missing)))
        self.check(all(self.under(self.named(it)) == left[it] for it in missing), "a node that is left out was written")

    def finish(self, node, missing, least, stood, ended):
        """A replacement has ended so: what it says, what the new folder has, and where the old one is."""
        told = re.fullmatch(rf"node {node} replaced: (\d+) decided commands\n(?:moved aside: (\S+)\n)?", ended[1].decode())
        if not self.check(ended[0] == 0 and told and not ended[2], f"node {node} isn't replaced: {ended} {self.rig.why!r}"):
            raise shell_kills.Wrong("no replacement")
        commands, disk = int(told[1]), self.disk(node)
        self.check(commands >= least, f"{commands} commands are decided, and {least} have to be")
        is_right = disk.prefix() and len(disk.decided) == commands and not disk.open and disk.owner == (node, self.nodes)
        self.check(is_right, f"the new folder has {len(disk.decided)} decisions of {commands}, and is open at {sorted(disk.open)}")
        others = [self.disk(it) for it in range(self.nodes) if it != node and it not in missing]
        commands, apart = reading.list_of([disk, *others])
        self.check(not apart, f"the new folder and the others differ at {apart}")
        self.check([it.kind for it in disk.facts if it.kind != "decide"] == [], "the new folder has facts that aren't decisions")
        if stood:
            pattern = rf"{re.escape(self.named(node))}\.replaced-\d+"
            if self.check(told[2] and re.fullmatch(pattern, told[2]), f"what stood there is aside at {told[2]}"):
                self.check(self.under(told[2]) == stood, "what stood there isn't aside as it was")
        self.tally.counts["nodes replaced"] += 1

    def holds(self, killed=0):
        """All nodes are up, and have what was acknowledged, also while others are stopped and behind kills."""
        self.whole = list(range(self.nodes))
        for _ in range(killed):
            self.open()
            self.ask_each(self.drawn.sample(self.whole, 1), 3)
            self.stop_some()
            self.kill_in_between(self.drawn.choice([it for it in self.whole if it not in self.down]))
            self.tally.counts["kills behind a replacement"] += 1
        self.check_disks()
        self.open()
        if self.shell.ask("at 0") is None:
            raise shell_kills.Wrong(f"the cluster isn't opened: {self.shell.end()}")
        self.ask_each(self.whole, 2)
        for node in self.whole:
            self.listed(node)
        self.end()
        self.check_disks()

    def stop_some(self):
        """So many nodes are stopped that a majority is left, and it goes on."""
        self.down = self.drawn.sample(self.whole, self.drawn.randint(0, (self.nodes - 1) // 2))
        for node in self.down:
            self.want(f"stop {node}", f"stopped {node}")
        left = [it for it in self.whole if it not in self.down]
        self.burst(self.drawn.choice(left), BEHIND)
        self.listed(self.drawn.choice(left))

    def lost(self, nodes, lost, seed):
        """A minority is lost and replaced, one after another."""
        self.load(lost)
        stood = {it: self.lose(it) for it in lost if self.drawn.random() < 0.9}
        missing = self.drawn.sample(lost, len(lost))
        olds = {}
        while missing:
            node = missing.pop()
            if node not in stood:
                stood[node] = self.lose(node)
            self.is_replaced(node, missing, stood[node])
            olds[node] = stood[node]
        self.holds(1 if self.options.short else KILLS)
        for node in lost[:1]:
            self.old_is_refused(node)
        self.tally.counts[f"minorities replaced, of {nodes}"] += 1

    def old_is_refused(self, node):
        """What was put aside comes back: it's refused, and not a byte changes. With the new folder back it serves."""
        aside = f"{self.folder}/{node}.replaced-1"
        if not os.path.isdir(aside):
            return
        os.rename(self.named(node), self.kept)
        os.rename(aside, self.named(node))
        before = held(self.folder)
        status, out, err = self.asked(CLIENT, "look n1")
        named = self.rig.why.startswith(self.named(node).encode())
        self.check(status in (4, 5) and not out and named, f"an old folder is back, and {status}, {out}, {err}, {self.rig.why}")
        verified = self.rig.run("verify", self.folder)
        self.check(verified.status == 4, f"an old folder is back, and verified with {verified}")
        requests = f"{self.folder}/requests"
        same = {it: data for it, data in held(self.folder).items() if it != requests} == {it: data for it, data in before.items() if it != requests}
        self.check(same, "a start that is refused changed something")
        shutil.rmtree(self.named(node))
        os.rename(self.kept, self.named(node))
        self.holds()
        self.tally.counts["old folders that came back"] += 1

    def asked(self, client, *lines, more=()):
        words = ["shell", "--nodes", str(self.nodes), "--dir", self.folder, "--client", str(client), *more]
        return self.rig.run(*words, *[word for line in lines for word in ("-c", line)], limit=LONG)[:3]

    # ---- moments of a replacement

    def moments(self, kind, how, start, stride):
        """One of so many calls of a replacement goes wrong, and each is tried over the same folders."""
        self.lose_one()
        beyond = 0
        for number in range(start, MOST_CALLS, stride):
            self.begin_anew()
            env = {"LD_PRELOAD": self.options.preload_calls, "FAIL_CALL": kind, "FAIL_PATH": self.folder, "FAIL_NTH": str(number)}
            env.update(FAIL_HOW=str(getattr(errno, how, how)), COUNT_CALLS=self.count)
            ended = self.replace(self.node, env=env)
            is_reached = ended[0] == -9 or int(scripts.bytes_of(self.count) or 0) >= number
            self.judge(f"{kind} {number} by {how}", how, ended)
            self.tally.counts[f"moments, {kind}"] += is_reached
            beyond += not is_reached
            if beyond > 1:
                break

    def lose_one(self):
        """A cluster whose node is lost, and a copy of it."""
        self.node = self.drawn.randrange(self.nodes)
        self.load((self.node,))
        self.stood = self.lose(self.node)
        shutil.copytree(self.folder, self.kept)
        self.least = self.end_of(self.whole) + lost_disks.OPEN
        self.at_loss = self.model

    def begin_anew(self):
        """The folders are as they were at the loss, and so is what has to hold."""
        shutil.rmtree(self.folder, ignore_errors=True)
        shutil.copytree(self.kept, self.folder)
        self.model = copy.deepcopy(self.at_loss)
        self.rig.write("replaced.count", b"")

    def judge(self, what, how, ended):
        """How a replacement ended of which a call went wrong. Behind it the cluster goes on, and the replacement is made again."""
        status, out, err = ended
        if status == 0:
            self.check(out.startswith(b"node %d replaced: " % self.node), f"{what}: {ended}")
            self.tally.counts["replacements that can do without a call"] += 1
        elif how in ("kill", "killed"):
            self.check(ended == (-9, b"", b""), f"{what}: {ended}")
        else:
            named = self.rig.why.startswith(self.folder.encode()) and self.rig.why.count(b"\n") == 1
            self.check(status == 5 and err == b"rr: 2 Device\n" and named, f"{what}: {ended} {self.rig.why!r}")
        self.go_on_from(what)

    def go_on_from(self, what):
        """Of an interrupted replacement: a start with the node, one without it, and the replacement again."""
        before, name = self.what, self.named(self.node)
        self.what = f"{before}, {what}"
        self.whole = [it for it in range(self.nodes) if it != self.node]
        sure = {it: value for it, (_, value) in sorted(self.model.held.bound.items()) if it not in self.model.doubted}
        looks = [f"look {it}" for it in sure]
        wanted = [f"{it} bound {CLIENT} {value}" for it, value in sure.items()]
        serves = scripts.text_of([f"at {self.whole[0]}", "synced", *wanted])
        # (what was lost behind the last mark can't be told, so nobody may start over that)
        if self.asides() or self.how not in UNTOLD:
            self.starts_with_it(name, serves, *self.asked(CLIENT, f"at {self.whole[0]}", "sync", *looks))
        status, out, err = self.asked(CLIENT, f"at {self.whole[0]}", "sync", *looks, more=("--without", str(self.node)))
        self.check((status, out, err) == (0, serves, b""), f"a start without the node: {status} {out} {err} {self.rig.why}")
        # (where it isn't aside yet, a start may have written there: one that serves, or one that finds damage as it opens)
        stood = self.stood if self.asides() else self.standing(self.node)
        self.least = self.end_of(self.whole) + lost_disks.OPEN
        self.finish(self.node, (), self.least, None, self.replace(self.node))
        if stood:
            aside = self.asides()
            self.check(any(self.under(f"{self.folder}/{it}") == stood for it in aside), f"what stood there isn't aside as it was: {aside}")
        self.holds()
        self.what = before

    def starts_with_it(self, name, serves, status, out, err):
        """A start with the node that is being replaced names its folder, or serves all."""
        if status == 0:
            self.check(out == serves and not err, f"a start with the node answers {out}")
            self.tally.counts["interrupted, and served with the node"] += 1
            return
        named = self.rig.why.startswith(name.encode())
        self.check(status in (4, 5) and not out and named, f"a start with the node: {status} {out} {err} {self.rig.why}")
        self.tally.counts["interrupted, and refused with the node"] += 1

    def asides(self):
        return [it for it in os.listdir(self.folder) if it.startswith(f"{self.node}.replaced-")]

    def power(self, seed):
        """The power is cut at some calls of a replacement."""
        self.lose_one()
        replacing_cuts.cut_power(self, seed)

    # ---- what has to fail

    def forged(self, nodes):
        """A majority decides a name. In the place of one of its nodes somebody puts an empty folder with forged marks, and that node and those
        that haven't heard of it give the name away once more. With a node that was replaced they don't."""
        last, others = nodes // 2, range(nodes // 2 + 1, nodes)
        for is_forged in (True, False):
            self.model = faults.Model()
            self.begin()
            status, out, err = self.asked(CLIENT, "claim taken x", more=self.without(others))
            self.check((status, out, err) == (0, b"claimed\n", b""), f"a majority decides nothing: {status} {out} {err}")
            shutil.rmtree(self.named(last))
            if is_forged:
                self.forge(last)
            else:
                ended = self.replace(last)
                self.check(ended[0] == 0, f"no replacement: {ended}")
            status, out, err = self.asked(THIEF, f"at {last}", "claim taken y", more=self.without(range(last)))
            wanted = b"claimed" if is_forged else b"taken 7"
            self.check((status, out) == (0, b"at %d\n%s\n" % (last, wanted)), f"forged: {is_forged}, and a claim is answered {status} {out} {err}")
            lists, apart = reading.list_of([self.disk(it) for it in range(nodes)])
            self.check(bool(apart) == is_forged, f"forged: {is_forged}, and two nodes decided differently at {apart}")
            self.tally.counts["forged folders that lose agreement"] += is_forged
            self.tally.counts["replaced folders that keep it"] += not is_forged

    def forge(self, node):
        """An empty folder of this node, with the marks that it needs to be opened."""
        other = self.rig.path("forged")
        shutil.rmtree(other, ignore_errors=True)
        self.rig.run("shell", "--nodes", str(self.nodes), "--dir", other, "--client", "7", "-c", "look a")
        shutil.copytree(f"{other}/{node}", self.named(node))
        words = scripts.bytes_of(f"{self.folder}/cluster").split()
        cluster = words[words.index(b"cluster-1") + 1 :][:2]
        mark = scripts.bytes_of(f"{self.named(node)}/node").split()
        place = mark.index(b"node-2") + 1
        mark[place : place + 2] = cluster
        marks = scripts.bytes_of(f"{self.folder}/marks").splitlines()
        marks[node] = b" ".join(mark)
        self.rig.write(f"{self.named(node)}/node", marks[node] + b"\n")
        self.rig.write(f"{self.folder}/marks", b"\n".join(marks) + b"\n")
