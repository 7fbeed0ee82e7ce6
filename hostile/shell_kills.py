#!/usr/bin/env python3
"""`rr shell` is killed at random moments, over one folder again and again, while names are claimed and updated line by line, and
nodes are stopped and started, so that a majority is up, and write snapshots. A fresh folder follows before names run out, of which a cluster binds
4,096.

    hostile/shell_kills.py RR [--count 50] [--seed 1] [--nodes 3] [--seconds 600]

RR is the program. A node that is started again has at once what it answered before. Behind each kill `rr run` asks some of the
answered requests once more, and each has its reply. Then the shell is started again over the same folder, and each answer that
was read before has to hold: at once at the node that gave it, and at every node once that has acknowledged a command that came
later; there a list has all names, and no other. The command whose answer wasn't read counts or doesn't; its name is used no
more. The file of request numbers never holds a part of a number, and grows by one block a start. The script ends with status 1
where something is otherwise; it ends by itself, and removes its folder."""
import argparse
import collections
import os
import random
import shutil
import subprocess
import sys
import tempfile
import threading
import time

sys.dont_write_bytecode = True
from harness import Lines, split_new  # noqa: E402

MOST_NAMES = 2000
BLOCK = 1048576
LIMIT = 60
REPEATED = 10
REPLIES = {"claim": "claimed", "update": "updated"}


class Wrong(Exception):
    """Something isn't as it has to be."""


class Shell:
    """A shell that runs, asked line by line."""

    def __init__(self, rr, nodes, folder, env=None, client=7, more=()):
        words = [rr, "shell", "--nodes", str(nodes), "--dir", folder, "--client", str(client), *more]
        pipe = subprocess.PIPE
        self.child = subprocess.Popen(words, stdin=pipe, stdout=pipe, stderr=pipe, bufsize=0, env=env)
        self.lines = Lines(self.child.stdout)
        self.asked = 0

    def ask(self, line):
        """The answer to a line; None where the shell has gone before it gave one."""
        if line.split()[0] in REPLIES:
            self.asked += 1
        try:
            self.child.stdin.write(line.encode() + b"\n")
        except BrokenPipeError:
            return None
        return self.hear(line)

    def hear(self, line):
        """The next line of the answer to a line; None where the shell has gone before it gave one."""
        answer = self.lines.next(LIMIT)
        if answer is None and not self.lines.has_ended:
            raise Wrong(f"no answer to {line!r} in {LIMIT} seconds")
        return answer

    def end(self):
        """Its status and standard error, once it has ended. That it has begun a new registry is left out."""
        try:
            self.child.stdin.close()
        except BrokenPipeError:
            pass
        try:
            status = self.child.wait(LIMIT)
        except subprocess.TimeoutExpired:
            self.child.kill()
            self.child.wait()
            raise Wrong("it doesn't end") from None
        said = split_new(self.child.stderr.read())[0]
        self.child.stdout.close()
        self.child.stderr.close()
        return status, said


class Names:
    """What has to hold of each name: its values, and the node that acknowledged it last."""

    def __init__(self):
        self.values, self.nodes, self.doubted = {}, {}, {}
        self.made = 0

    def draw(self, rng, node):
        """A line that claims a new name, or updates one that has no command in doubt."""
        if self.values and rng.random() < 0.5:
            return "update", rng.choice(sorted(self.values)), f"v{rng.randrange(10**6)}"
        self.made += 1
        return "claim", f"name-{self.made}", f"v{rng.randrange(10**6)}"

    def acknowledge(self, node, name, value):
        self.values[name], self.nodes[name] = value, node

    def doubt(self, name, value):
        self.doubted[name] = {self.values.pop(name, None), value}


def told(name, value):
    """The answer to a look that sees this value; no client has the name where there is none."""
    return f"{name} free" if value is None else f"{name} bound 7 {value}"


def need(holds, what):
    if not holds:
        raise Wrong(what)


def listed(shell, names, counts):
    """Whether the node that is asked lists what has to hold, and of names in doubt what may."""
    lines = {}
    for _ in range(int(shell.ask("list").removeprefix("list "))):
        line = shell.hear("list")
        lines[line.split()[0]] = line
    need(list(lines) == sorted(lines), "a list isn't in order")
    for name, line in lines.items():
        values = {names.values[name]} if name in names.values else names.doubted.get(name, set())
        need(line in {told(name, value) for value in values}, f"a list has {line!r}, wanted one of {values}")
    for name in names.values:
        need(name in lines, f"a list lacks {name}")
    counts["lists that held"] += 1


def repeat(asked, folder, answered, rng, counts):
    """Asks some of these requests once more, in a run over the folder: each has the reply that it had."""
    again = rng.sample(answered, min(REPEATED, len(answered)))
    with tempfile.NamedTemporaryFile("w", suffix=".script") as script:
        script.writelines(f"submit {node} 7 {number} {line}\n" for node, number, line in again)
        script.flush()
        words = [asked.rr, "run", "--nodes", str(asked.nodes), "--dir", folder, "--script", script.name]
        ran = subprocess.run(words, capture_output=True, text=True, timeout=LIMIT)
    wanted = "".join(f"ack {node} 7.{number} {REPLIES[line.split()[0]]}\n" for node, number, line in again)
    need((ran.returncode, ran.stdout, ran.stderr) == (0, wanted, ""), f"{again} answered {ran}")
    counts["requests repeated"] += len(again)


def claim(shell, names, node, counts):
    """Claims new names at the node that is asked until one is acknowledged: behind a kill that may wait for nodes to tick."""
    begun, answer = time.monotonic(), None
    while answer != "claimed":
        need(time.monotonic() - begun < LIMIT, f"no claim is acknowledged at node {node} in {LIMIT} seconds")
        names.made += 1
        fresh = f"name-{names.made}"
        answer = shell.ask(f"claim {fresh} x")
        need(answer in ("claimed", "unacknowledged"), f"claim {fresh} at node {node}: {answer!r}")
        if answer == "claimed":
            names.acknowledge(node, fresh, "x")
        else:
            names.doubt(fresh, "x")
            counts["commands that took more than five seconds"] += 1


def check(shell, names, counts, nodes):
    """Whether all that was answered holds in a shell that was started again."""
    for name, node in list(names.nodes.items()):
        if name in names.values:
            need(shell.ask(f"at {node}") == f"at {node}", "at")
            answer = shell.ask(f"look {name}")
            need(answer == told(name, names.values[name]), f"node {node}: {answer!r}, wanted {told(name, names.values[name])!r}")
            counts["answers that held at their node"] += 1
    for node in range(nodes):
        shell.ask(f"at {node}")
        claim(shell, names, node, counts)
        for name, value in names.values.items():
            answer = shell.ask(f"look {name}")
            need(answer == told(name, value), f"node {node}: {answer!r}, wanted {told(name, value)!r}")
            counts["answers that held at every node"] += 1
        for name, values in names.doubted.items():
            answer = shell.ask(f"look {name}")
            need(answer in {told(name, value) for value in values}, f"node {node}: {answer!r}, wanted one of {values}")
        listed(shell, names, counts)


def stored(folder):
    """The number in the file of request numbers; 0 where there is none."""
    try:
        with open(f"{folder}/requests", "rb") as file:
            data = file.read()
    except FileNotFoundError:
        return 0
    need(data[-1:] == b"\n" and data[:-1].isdigit() and int(data) % BLOCK == 0, f"the file of numbers holds {data!r}")
    return int(data)


def switch(shell, names, rng, counts, ups, nodes):
    """Stops a node, while a majority stays up, or starts the one that is down. Answers whether the shell is there still."""
    node = rng.choice([node for node in range(nodes) if node not in ups] or range(nodes))
    if node not in ups:
        answer = shell.ask(f"start {node}")
        if answer is None:
            return False
        need(answer == f"started {node}", f"start {node}: {answer!r}")
        ups.add(node)
        own = sorted(name for name, last in names.nodes.items() if last == node and name in names.values)
        for name in rng.sample(own, min(REPEATED, len(own))):
            if shell.ask(f"at {node}") is None:
                return False
            answer = shell.ask(f"look {name}")
            if answer is None:
                return False
            need(answer == told(name, names.values[name]), f"node {node}, started again: {answer!r}, wanted {names.values[name]!r}")
            counts["answers that held at a node started again"] += 1
    elif 2 * (len(ups) - 1) > nodes:
        answer = shell.ask(f"stop {node}")
        if answer is None:
            return False
        need(answer == f"stopped {node}", f"stop {node}: {answer!r}")
        ups.remove(node)
        counts["stops"] += 1
    return True


def snapshot(shell, rng, counts, ups):
    """Has a node that is up write a snapshot. Answers whether the shell is there still."""
    node = rng.choice(sorted(ups))
    answer = shell.ask(f"snapshot {node}")
    if answer is None:
        return False
    need(answer == f"snapshot {node}", f"snapshot {node}: {answer!r}")
    counts["snapshots"] += 1
    return True


def play(shell, names, rng, counts, nodes, first):
    """Asks until the shell is gone, whose first request number is given. The requests that were answered."""
    node, ups, answered = 0, set(range(nodes)), []
    while True:
        # (a node that was down long takes long to catch up)
        if rng.random() < (0.03 if len(ups) == nodes else 0.5) and not switch(shell, names, rng, counts, ups, nodes):
            return answered
        if rng.random() < 0.05 and not snapshot(shell, rng, counts, ups):
            return answered
        if rng.random() < 0.2 or node not in ups:
            node = rng.choice(sorted(ups))
        if shell.ask(f"at {node}") is None:
            return answered
        verb, name, value = names.draw(rng, node)
        number = first + shell.asked
        answer = shell.ask(f"{verb} {name} {value}")
        if answer is None or answer == "unacknowledged":
            names.doubt(name, value)
            counts["commands in doubt"] += 1
            if answer is None:
                return answered
        else:
            need(answer == REPLIES[verb], f"{verb} {name}: {answer!r}")
            answered.append((node, number, f"{verb} {name} {value}"))
            names.acknowledge(node, name, value)
            counts["answers"] += 1


def kills(asked, folder, counts):
    rng, names, before = random.Random(asked.seed), Names(), 0
    begun = time.monotonic()
    while counts["kills"] < asked.count and time.monotonic() - begun < asked.seconds:
        if names.made > MOST_NAMES:
            shutil.rmtree(folder)
            names, before = Names(), 0
        shell = Shell(asked.rr, asked.nodes, folder)
        timer = threading.Timer(rng.uniform(0, 0.12), shell.child.kill)
        timer.start()
        answered = play(shell, names, rng, counts, asked.nodes, before)
        timer.join()
        status, said = shell.end()
        need(status == -9 and not said, f"status {status}: {said!r}")
        counts["kills"] += 1
        number = stored(folder)
        need(before <= number <= before + BLOCK, f"the file of numbers went from {before} to {number}")
        if answered:
            repeat(asked, folder, answered, rng, counts)
        shell = Shell(asked.rr, asked.nodes, folder)
        check(shell, names, counts, asked.nodes)
        status, said = shell.end()
        need(status == 0 and not said, f"status {status}: {said!r}")
        before = stored(folder)
        need(before == number + BLOCK, f"the file of numbers went from {number} to {before}")
    need(counts["kills"] >= asked.count, f"only {counts['kills']} kills in {asked.seconds} seconds")


def main():
    words = argparse.ArgumentParser(description=__doc__, formatter_class=argparse.RawDescriptionHelpFormatter)
    words.add_argument("rr")
    words.add_argument("--count", type=int, default=50)
    words.add_argument("--seed", type=int, default=1)
    words.add_argument("--nodes", type=int, default=3)
    words.add_argument("--seconds", type=float, default=600)
    asked = words.parse_args()
    room = tempfile.mkdtemp(prefix="shell_kills", dir="/dev/shm" if os.path.isdir("/dev/shm") else None)
    counts = collections.Counter()
    try:
        kills(asked, f"{room}/nodes", counts)
    except Wrong as why:
        print(f"hostile/shell_kills.py: seed {asked.seed}, behind {counts['kills']} kills: {why}")
        sys.exit(1)
    finally:
        shutil.rmtree(room)
        print(", ".join(f"{count} {what}" for what, count in sorted(counts.items())))


if __name__ == "__main__":
    main()
