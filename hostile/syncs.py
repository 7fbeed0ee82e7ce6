"""Looks behind a `sync` at another node, in `rr shell` over three to seven nodes of which some go down and come up.

A name is claimed or updated at a node. Then another node is asked to `sync`, and looks at the name: it has to have the last value
that any node acknowledged. A node that has just been started is asked too, and so is one that was the only one down. A sync that
isn't acknowledged tells nothing; while a majority is up, each has to be. Behind the end `rr export --list` has each sync as a
command that changes nothing, and the registry is that of the claims and updates.
"""
import random
import shutil

from harness import LONG, Tally
from shell_kills import Shell

RUNS = 20
STEPS = {False: 60, True: 15}


def tasks(options):
    return list(range(options.seed, options.seed + (1 if options.short else RUNS)))


def work(rig, options, seed):
    tally, rng = Tally(), random.Random(seed)
    nodes = (3, 5, 7)[(seed - options.seed) % 3]
    folder = rig.path("synced")
    shutil.rmtree(folder, ignore_errors=True)
    asked = Asked(tally, rng, rig.rr, nodes, folder)
    try:
        for _ in range(STEPS[options.short]):
            asked.step()
        tally.check(asked.shell.end() == (0, b""), f"seed {seed}: the shell didn't end as it should")
    finally:
        asked.shell.child.kill()
        asked.shell.child.wait()
    asked.judge_list(rig)
    return tally


class Asked:
    """A shell, which of its nodes are down, and what each name was last acknowledged with."""

    def __init__(self, tally, rng, rr, nodes, folder):
        self.tally, self.rng, self.nodes, self.folder = tally, rng, nodes, folder
        self.shell = Shell(rr, nodes, folder)
        self.down, self.values, self.syncs = set(), {}, 0

    def want(self, line, answer):
        got = self.shell.ask(line)
        return self.tally.check(got == answer, f"{self.nodes} nodes, {self.down or 'none'} down: {line!r} was answered {got!r}, not {answer!r}")

    def step(self):
        fresh = self.switch()
        up = [node for node in range(self.nodes) if node not in self.down]
        writer = self.rng.choice(up)
        self.want(f"at {writer}", f"at {writer}")
        name, value = f"n{self.rng.randrange(8)}", f"v{self.rng.randrange(10**6)}"
        if name in self.values:
            self.want(f"update {name} {value}", "updated")
        else:
            self.want(f"claim {name} {value}", "claimed")
        self.values[name] = value
        reader = fresh if fresh in up else self.rng.choice(up)
        self.want(f"at {reader}", f"at {reader}")
        if self.want("sync", "synced"):
            self.syncs += 1
            self.tally.counts["syncs at the node that was asked" if reader == writer else "syncs at another node"] += 1
        for seen in {name, self.rng.choice(sorted(self.values))}:
            self.want(f"look {seen}", f"{seen} bound 7 {self.values[seen]}")

    def switch(self):
        """Sometimes stops a node, so that a majority stays up, or starts one; answers the one that was started."""
        if self.down and self.rng.random() < 0.4:
            node = self.rng.choice(sorted(self.down))
            self.want(f"start {node}", f"started {node}")
            self.down.discard(node)
            return node
        if len(self.down) < (self.nodes - 1) // 2 and self.rng.random() < 0.4:
            node = self.rng.choice([node for node in range(self.nodes) if node not in self.down])
            self.want(f"stop {node}", f"stopped {node}")
            self.down.add(node)
        return None

    def judge_list(self, rig):
        """Each sync is decided once, and the export has the names as they were last acknowledged."""
        listed = rig.run("export", "--list", self.folder, limit=LONG)
        lines = [line.split(b" ", 2)[2] for line in listed.out.splitlines()[1:]]
        own = {line for line in listed.out.splitlines()[1:] if line.endswith(b" transfer sync 7")}
        self.tally.check(len({line.split(b" ")[1] for line in own}) == self.syncs, f"{self.syncs} syncs, and decided are {len(own)}: {lines[-3:]}")
        exported = rig.run("export", self.folder, limit=LONG)
        names = {line.split(b" ")[5].decode(): line.split(b" ")[6].decode() for line in exported.out.splitlines()}
        self.tally.check(names == self.values, f"exported are {names}, wanted {self.values}")
