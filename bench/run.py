#!/usr/bin/env python3
"""`rr run` beside the plain Rust of bench/baseline_run, in one run.

    bench/run.py [--rr PROGRAM] [--rounds N] [--disk FOLDER] [--tmpfs FOLDER] [--only disk|tmpfs] [--nodes N ..]

First both answer scripts that have one answer, and each opens the folders that the other wrote; a run of one node has to
leave the same bytes. Then both run in turns, with one client a node: acknowledged commands a second, from the program's
start to its end, and its processor time, the least of the rounds. A run under strace counts the syncs for each command. --rr names the
program, crates/rr/out/rr if left out."""
import argparse
import itertools
import os
import pathlib
import shutil
import subprocess
import sys
import tempfile
import time

HERE = pathlib.Path(__file__).resolve().parent
PLAIN = HERE / "baseline_run/target/release/baseline_run"
# Commands of each client, by place and number of nodes: a run takes some seconds.
COMMANDS = {"disk": {1: 300, 3: 150, 7: 60}, "tmpfs": {1: 4000, 3: 2000, 7: 500}}


def read_words():
    words = argparse.ArgumentParser(description=__doc__, formatter_class=argparse.RawDescriptionHelpFormatter)
    words.add_argument("--rr", default=str(HERE.parent / "crates/rr/out/rr"))
    words.add_argument("--rounds", type=int, default=5)
    words.add_argument("--disk", default="/var/tmp")
    words.add_argument("--tmpfs", default="/dev/shm")
    words.add_argument("--only", choices=("disk", "tmpfs"))
    words.add_argument("--nodes", type=int, nargs="*", default=(1, 3, 7))
    return words.parse_args()


class Programs:
    """Both programs, and a room for their folders."""

    def __init__(self, rr, room):
        self.words = {"rr": [rr, "run"], "plain Rust": [str(PLAIN)]}
        self.rr, self.room = rr, pathlib.Path(room)
        self.numbers = itertools.count()

    def fresh(self):
        return self.room / f"nodes-{next(self.numbers)}"

    def run(self, program, nodes, folder, script, before=()):
        """Answers a script over a folder; gives the answers, the seconds by the clock and those of processors."""
        path, out = self.room / "script", self.room / "answers"
        path.write_text(script)
        words = [*before, *self.words[program], "--nodes", str(nodes), "--dir", str(folder), "--script", str(path)]
        told = self.room / "told"
        with open(out, "w") as answers, open(told, "w") as warnings:
            begun = time.monotonic()
            child = subprocess.Popen(words, stdout=answers, stderr=warnings)
            _, status, used = os.wait4(child.pid, 0)
            seconds = time.monotonic() - begun
        if status != 0:
            sys.exit(f"{program}: status {status}: {told.read_text()}")
        return out.read_text(), seconds, used.ru_utime + used.ru_stime

    def show(self, folder):
        return subprocess.run([self.rr, "show", str(folder)], capture_output=True, text=True, check=True).stdout


def settled(nodes, count):
    """A script in which each client has names of its own, so that its answers don't depend on the threads."""
    lines = []
    for number in range(count):
        for node in range(nodes):
            name, request = f"name-{node}-{number % 5}", f"{node} {node} {number}"
            kind = number % 7
            if kind < 5:
                lines.append(f"submit {request} claim {name} v{number}")
            elif kind == 5:
                lines.append(f"submit {request} update {name} w{number}")
            else:
                lines.append(f"submit {request} release {name}")
            lines.append(f"look {node} {name}")
            lines.append(f"look {node} other-{node}")
    return "".join(f"{line}\n" for line in lines)


def again(nodes, count):
    """Behind such a script: its last requests once more, whose replies are kept, and looks at all names."""
    lines = []
    for node in range(nodes):
        number = count - 1
        lines.append(f"submit {node} {node} {number} release name-{node}-0")
        lines += [f"look {node} name-{node}-{place}" for place in range(5)]
        lines.append(f"submit {node} {node} {count} claim other-{node}")
        lines.append(f"look {node} other-{node}")
    return "".join(f"{line}\n" for line in lines)


def compare(programs):
    """Both have to give the same answers over fresh folders and over each other's."""
    tried = 0
    for nodes in range(1, 8):
        for count in (1, 6, 20):
            folders, answers = {}, {}
            for program in programs.words:
                folders[program] = programs.fresh()
                answers[program], *_ = programs.run(program, nodes, folders[program], settled(nodes, count))
            assert len(set(answers.values())) == 1, f"{nodes} nodes, {count} commands: {answers}"
            if nodes == 1:
                areas = {tuple((it / "0" / area).read_bytes() for area in ("a0", "a1")) for it in folders.values()}
                assert len(areas) == 1, f"one node, {count} commands: other bytes"
            later = set()
            for wrote, read in itertools.product(programs.words, repeat=2):
                copied = programs.fresh()
                shutil.copytree(folders[wrote], copied)
                later.add(programs.run(read, nodes, copied, again(nodes, count))[0])
                for node in range(nodes):
                    assert f"node {node} of {nodes}" in programs.show(copied / str(node))
                shutil.rmtree(copied)
            assert len(later) == 1, f"{nodes} nodes, {count} commands: {later}"
            for folder in folders.values():
                shutil.rmtree(folder)
            tried += 1
    print(f"{tried} scripts: the same answers, also over each other's folders", flush=True)


def load(nodes, count):
    """Each client claims a name and then gives it one value after another."""
    lines = []
    for number in range(count):
        for node in range(nodes):
            verb = "update" if number else "claim"
            lines.append(f"submit {node} {node} {number} {verb} name-{node} v{number}\n")
    return "".join(lines)


def syncs(programs, program, nodes, script):
    """How many syncs a run makes, by strace; None without it."""
    if not shutil.which("strace"):
        return None
    told, folder = programs.room / "strace", programs.fresh()
    before = ["strace", "-f", "-qq", "-e", "trace=fdatasync,fsync", "-o", str(told)]
    programs.run(program, nodes, folder, script, before)
    shutil.rmtree(folder)
    return sum("sync(" in line for line in told.read_text().splitlines())


def measure(programs, place, nodes, rounds):
    count = COMMANDS[place].get(nodes, 200)
    script, commands = load(nodes, count), nodes * count
    took = {program: [] for program in programs.words}
    for _ in range(rounds):
        for program in programs.words:
            folder = programs.fresh()
            answers, *seconds = programs.run(program, nodes, folder, script)
            shutil.rmtree(folder)
            assert sum(line.endswith(("claimed", "updated")) for line in answers.splitlines()) == commands
            took[program].append(seconds)
    few = max(count // 4, 10)
    told = []
    for program, times in took.items():
        seconds, used = map(min, zip(*times))
        line = f"{program} {commands / seconds:.0f} commands a second, {1e6 * used / commands:.0f} processor microseconds each"
        many = syncs(programs, program, nodes, load(nodes, few))
        if many is not None:
            line += f", {many / (nodes * few):.1f} syncs"
        told.append(line)
    ratio = min(took["plain Rust"])[0] / min(took["rr"])[0]
    print(f"{place}, {nodes} nodes: {'; '.join(told)}; rr has {ratio:.2f} times plain Rust's", flush=True)


def main():
    options = read_words()
    subprocess.run(["cargo", "build", "--release", "--quiet"], cwd=HERE / "baseline_run", check=True)
    places = {"tmpfs": options.tmpfs, "disk": options.disk}
    with tempfile.TemporaryDirectory(dir=options.tmpfs) as room:
        compare(Programs(options.rr, room))
    for place, parent in places.items():
        if options.only in (None, place):
            with tempfile.TemporaryDirectory(dir=parent) as room:
                for nodes in options.nodes:
                    measure(Programs(options.rr, room), place, nodes, options.rounds)


if __name__ == "__main__":
    main()
