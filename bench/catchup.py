#!/usr/bin/env python3
"""Failing over, catching up, wasted places and idle nodes, by `rr shell` and `rr run`.

    bench/catchup.py [--rr PROGRAM] [--folder FOLDER] [--times N] [--commands K] [WHAT ..]

WHAT is any of failover, again, behind, majority, exact, waste, idle; all if left out. Each is tried N times, 10 if left out, and told by
its median and its worst. The program is crates/rr/out/rr if left out, and the folders are made in FOLDER, /dev/shm if left out.

failover: node 1, which coordinates first rounds, is stopped: how long the first command takes then, and the slowest of the next three.
again: the same at the sixth stop of one life of the others.
behind: a node is stopped while K commands are decided, 10,000 if left out, and started: how long until it has them, with nothing asked
meanwhile and under load, and how fast the others are under load.
majority: two nodes of three are stopped and started: how long a command takes from then on that waited for them.
exact: of 3, 5 and 7 nodes one is stopped too many, and a command is asked for in vain; one is started, so that exactly a majority is up:
how long the first command takes from then on, and the slowest of the next three. Which nodes are down is drawn; N tries for each number.
waste: a client for each node: how many of the decided places hold a command that is decided already.
idle: what seven nodes take of a processor that nobody asks."""
import argparse
import os
import pathlib
import random
import re
import statistics
import subprocess
import tempfile
import time

HERE = pathlib.Path(__file__).resolve().parent
PATIENCE = 60


def read_words():
    words = argparse.ArgumentParser(description=__doc__, formatter_class=argparse.RawDescriptionHelpFormatter)
    words.add_argument("--rr", default=str(HERE.parent / "crates/rr/out/rr"))
    words.add_argument("--folder", default="/dev/shm")
    words.add_argument("--times", type=int, default=10)
    words.add_argument("--commands", type=int, default=10_000)
    words.add_argument("what", nargs="*", default=list(TASKS), choices=[[], *TASKS])
    return words.parse_args()


class Shell:
    """A shell of so many nodes over fresh folders."""

    def __init__(self, words, nodes, *more):
        self.nodes = nodes
        self.room = tempfile.TemporaryDirectory(dir=words.folder)
        line = [words.rr, "shell", "--nodes", str(nodes), "--dir", f"{self.room.name}/nodes", "--client", "7", *more]
        # (standard error says that a registry is new, each time)
        quiet = {"stderr": subprocess.DEVNULL, "text": True, "bufsize": 1}
        self.run = subprocess.Popen(line, stdin=subprocess.PIPE, stdout=subprocess.PIPE, **quiet)
        self.count = 0
        self.ask("at 0")
        self.ask("claim a x")

    def __enter__(self):
        return self

    def __exit__(self, *_):
        self.run.stdin.write("quit\n")
        self.run.stdin.flush()
        self.run.wait(PATIENCE)
        self.room.cleanup()

    def ask(self, line):
        """What is answered, and after how many seconds."""
        begun = time.monotonic()
        self.run.stdin.write(f"{line}\n")
        self.run.stdin.flush()
        return self.run.stdout.readline().strip(), time.monotonic() - begun

    def update(self):
        self.count += 1
        answer, took = self.ask(f"update a v{self.count}")
        if answer != "updated":
            raise SystemExit(f"bench/catchup.py: an update was answered with {answer!r}")
        return took

    def updates(self, count):
        """So many commands a second."""
        return count / sum(self.update() for _ in range(count))

    def status(self):
        """What each node has decided, and whom each suspects; None of a node that is down."""
        self.run.stdin.write("status\n")
        self.run.stdin.flush()
        lines = [self.run.stdout.readline() for _ in range(self.nodes)]
        decided = [re.search(r"decided (\d+)", line) for line in lines]
        suspects = [re.search(r"suspects (\S+)", line) for line in lines]
        return [it and int(it[1]) for it in decided], [it and it[1] for it in suspects]

    def settle(self):
        """Waits until all nodes have decided the same and nobody suspects anybody."""
        ends = time.monotonic() + PATIENCE
        while time.monotonic() < ends:
            decided, suspects = self.status()
            if len(set(decided)) == 1 and set(suspects) == {"-"}:
                return
            time.sleep(0.02)
        raise SystemExit(f"bench/catchup.py: not settled: {decided} {suspects}")

    def seconds(self):
        """The processor's seconds that the program has taken."""
        fields = pathlib.Path(f"/proc/{self.run.pid}/stat").read_text().rsplit(")", 1)[1].split()
        return (int(fields[11]) + int(fields[12])) / os.sysconf("SC_CLK_TCK")


def tell(what, values, unit, digits=0):
    middle, worst = statistics.median(values), max(values)
    print(f"{what}: median {middle:.{digits}f} {unit}, worst {worst:.{digits}f} {unit}", flush=True)


def stop_once(shell, index):
    """The milliseconds of the first command behind a stop of node 1, and of the slowest of the next three."""
    time.sleep(0.5 + 0.037 * index)
    shell.update()
    shell.ask("stop 1")
    first = shell.update()
    later = max(shell.update() for _ in range(3))
    shell.ask("start 1")
    shell.settle()
    return 1000 * first, 1000 * later


def failover(words):
    for nodes in (3, 7):
        stops = []
        for index in range(words.times):
            with Shell(words, nodes) as shell:
                stops.append(stop_once(shell, index))
        tell(f"failover, {nodes} nodes, first command", [it[0] for it in stops], "ms")
        tell(f"failover, {nodes} nodes, later ones", [it[1] for it in stops], "ms", 1)


def again(words):
    sixth = []
    for index in range(words.times):
        with Shell(words, 3) as shell:
            sixth.append([stop_once(shell, index + stop) for stop in range(6)][-1])
    tell("sixth failover of one life, 3 nodes, first command", [it[0] for it in sixth], "ms")
    tell("sixth failover of one life, 3 nodes, later ones", [it[1] for it in sixth], "ms", 1)


def catch_up(words, node, loaded):
    """Seconds until the node is there, the share of speed that the others keep meanwhile, and who is suspected that is up."""
    with Shell(words, 3) as shell:
        shell.updates(300)
        shell.ask(f"stop {node}")
        shell.update()
        speed = shell.updates(words.commands)
        wanted = shell.status()[0][0]
        shell.ask(f"start {node}")
        begun, took, suspected = time.monotonic(), 0.0, set()
        count = 0
        while time.monotonic() - begun < PATIENCE:
            if loaded:
                took += sum(shell.update() for _ in range(20))
                count += 20
            decided, suspects = shell.status()
            suspected |= {it for place, it in enumerate(suspects) if it not in ("-", None, str(node)) and place != node}
            if decided[node] is not None and decided[node] >= wanted:
                break
            time.sleep(0 if loaded else 0.01)
        seconds = time.monotonic() - begun
        return seconds, count / took / speed if loaded else None, suspected


def behind(words):
    for node in (1, 2):
        for loaded in (False, True):
            runs = [catch_up(words, node, loaded) for _ in range(words.times)]
            how = f"node {node} of 3 behind by {words.commands}, {'under load' if loaded else 'quiet'}"
            tell(how, [it[0] for it in runs], "s", 2)
            if loaded:
                shares = [it[1] for it in runs]
                print(f"  the others keep, median {statistics.median(shares):.2f} of their speed, worst {min(shares):.2f}")
            print(f"  suspected though up: {' '.join(sorted(set().union(*(it[2] for it in runs)))) or 'nobody'}", flush=True)


def majority(words):
    took = []
    for _ in range(words.times):
        with Shell(words, 3) as shell:
            shell.update()
            shell.ask("stop 1")
            shell.ask("stop 2")
            time.sleep(2)
            shell.ask("start 1")
            took.append(shell.update())
    tell("majority back, 3 nodes, first command", [1000 * it for it in took], "ms")


def come_back(words, nodes, seed):
    """The milliseconds of the first command once exactly a majority is up, and of the slowest of the next three."""
    drawn = random.Random(seed)
    stopped = drawn.sample(range(nodes), nodes // 2 + 1)
    with Shell(words, nodes) as shell:
        shell.ask(f"at {min(set(range(nodes)) - set(stopped))}")
        time.sleep(drawn.random() / 2)
        for node in stopped:
            shell.ask(f"stop {node}")
        shell.ask("update a waiting")
        time.sleep(drawn.random() / 2)
        begun = time.monotonic()
        shell.ask(f"start {stopped[0]}")
        while shell.ask("update a back")[0] != "updated":
            if time.monotonic() - begun > PATIENCE:
                raise SystemExit("bench/catchup.py: a majority is up and nothing is decided")
        first = time.monotonic() - begun
        return 1000 * first, 1000 * max(shell.update() for _ in range(3))


def exact(words):
    for nodes in (3, 5, 7):
        tries = [come_back(words, nodes, seed) for seed in range(words.times)]
        tell(f"exactly a majority of {nodes} nodes, first command", [it[0] for it in tries], "ms")
        tell(f"exactly a majority of {nodes} nodes, later ones", [it[1] for it in tries], "ms", 1)


def wasted(words, nodes, commands):
    """The share of places that is wasted, in percent, and the commands a second."""
    with tempfile.TemporaryDirectory(dir=words.folder) as room:
        lines = [f"submit {node} {node + 1} 1 claim n{node} x" for node in range(nodes)]
        lines += [f"submit {node} {node + 1} {seq} update n{node} v{seq}" for seq in range(2, commands + 1) for node in range(nodes)]
        pathlib.Path(room, "script").write_text("".join(f"{line}\n" for line in lines))
        line = [words.rr, "run", "--nodes", str(nodes), "--dir", f"{room}/nodes", "--script", f"{room}/script"]
        begun = time.monotonic()
        ran = subprocess.run(line, capture_output=True, text=True, check=True)
        took = time.monotonic() - begun
        acks = sum(answer.startswith("ack ") for answer in ran.stdout.splitlines())
        if acks != nodes * commands:
            raise SystemExit(f"bench/catchup.py: {acks} of {nodes * commands} commands were acknowledged")
        shown = [subprocess.run([words.rr, "show", f"{room}/nodes/{node}"], capture_output=True, text=True) for node in range(nodes)]
        places = max(int(it) for one in shown for it in re.findall(r"decided (\d+)", one.stdout))
        return 100 * (places - nodes * commands) / places, nodes * commands / took


def waste(words):
    for nodes, commands in ((3, 5000), (7, 1500)):
        runs = [wasted(words, nodes, commands) for _ in range(words.times)]
        tell(f"wasted places, {nodes} clients of {nodes} nodes", [it[0] for it in runs], "%", 2)
        print(f"  commands a second, median {statistics.median(it[1] for it in runs):.0f}", flush=True)


def idle(words):
    with Shell(words, 7) as shell:
        time.sleep(1)
        shares = []
        for _ in range(words.times):
            before, begun = shell.seconds(), time.monotonic()
            time.sleep(3)
            shares.append(100 * (shell.seconds() - before) / (time.monotonic() - begun))
    tell("seven idle nodes", shares, "% of a processor", 2)


TASKS = {"failover": failover, "again": again, "behind": behind, "majority": majority, "exact": exact, "waste": waste, "idle": idle}


def main():
    words = read_words()
    for what in words.what:
        TASKS[what](words)


if __name__ == "__main__":
    main()
