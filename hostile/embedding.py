#!/usr/bin/env python3
"""Uses the library for C as hosts do: hostile/embedding.py LIBRR [--short] [--kills N] [--messages N] [--cuts N] [PART ..]

LIBRR is the folder that hostile/unproved_lib makes. The parts are these, each a task of hostile/run; all if none is named. The script ends with
1 where one fails. --short takes a share of each. It needs gcc, valgrind and cargo.

- example: the C example, under the address sanitizer and under valgrind: nothing is reported, and nothing leaks;
- calls: hostile/handles.c under the sanitizers: random calls, messages, torn writes, and memory that is refused; a liar has to fail;
- valgrind: a share of the same under valgrind;
- rust: the Rust crate's tests, among them three nodes in one process, and a device that fails at each call with a torn write;
- python: the Python module's: two handles, failing calls, random messages;
- full: a node whose list is full, and one behind each refusal that a list of calls can reach;
- cuts: hostile/power_cuts.py: power cuts under hosts of three nodes; a liar has to fail;
- processes: three processes with kills under load: each command that was acknowledged is there at all of them, and all lists are equal."""
import argparse
import concurrent.futures
import os
import pathlib
import random
import re
import shutil
import signal
import socket
import subprocess
import sys
import tempfile
import threading
import time

sys.dont_write_bytecode = True
import ends  # noqa: E402
from harness import Tally  # noqa: E402

TREE = pathlib.Path(__file__).resolve().parent.parent
SAYS = "request {seq} of client 7: reply {reply}\nlamp: bound 1, owner 7, value blue\n"
NEEDED = {"example": ("gcc", "valgrind"), "calls": ("gcc",), "valgrind": ("gcc", "valgrind"), "rust": ("cargo",), "processes": ("cargo",)}
PARTS = ("processes", "calls", "valgrind", "rust", "python", "full", "cuts", "example")
# How many kills, wrong messages, wrong messages under valgrind, and power cuts.
LONG = {"kills": 100, "messages": 1_000_000, "under": 20_000, "cuts": 5000}
SHORT = {"kills": 3, "messages": 4000, "under": 200, "cuts": 300}
# The refusals that handles.c has to reach. `full` has 9; RR_FAILED and RR_ROUNDS_OUT are answered by no call.
REACHED = {0, 1, 2, 3, 5, 6, 7, 8, 11, 12, 13, 16}
SEEDS = 8
WRAPS = ["-DWRAPPED", "-Wl,--wrap=malloc,--wrap=realloc"]
CHECKED = ["-fsanitize=address,undefined", "-fno-sanitize-recover=all"]


def run(*words, **named):
    """A command that has to end well: what it wrote."""
    ran = subprocess.run([str(word) for word in words], capture_output=True, text=True, **named)
    assert ran.returncode == 0, f"{words}: {ran.returncode}\n{ran.stdout[-3000:]}\n{ran.stderr[-3000:]}"
    return ran.stdout


def compiled(library, source, out, *more):
    run("gcc", "-O1", "-g", "-Wall", "-Wextra", "-Werror", *more, f"-I{library}", "-o", out, source, library / "librr.a")
    return out


def under_valgrind(*words):
    return ["valgrind", "-q", "--leak-check=full", "--error-exitcode=9", *words]


def example(library, room, sizes, counts):
    """The first run claims the name, and the next finds that it is taken."""
    source = TREE / "bindings/c/one_node.c"
    plain, checked = compiled(library, source, room / "one_node"), compiled(library, source, room / "one_node_checked", *CHECKED)
    for name, words in (("checked", [checked]), ("valgrind", under_valgrind(plain))):
        folder = room / name
        folder.mkdir()
        for seq, reply in ((1, 1), (2, 5)):
            assert run(*words, folder) == SAYS.format(seq=seq, reply=reply)
    counts["runs of the example"] += 4


def calls(library, room, sizes, counts):
    """Random calls under the sanitizers. Together the seeds reach every refusal that they can."""
    program = compiled(library, TREE / "hostile/handles.c", room / "handles", *CHECKED, *WRAPS)
    seeds = SEEDS if sizes["messages"] >= 100_000 else 2
    with concurrent.futures.ThreadPoolExecutor(2) as pool:
        said = list(pool.map(lambda seed: run(program, seed, sizes["messages"] // seeds), range(sizes["seed"], sizes["seed"] + seeds)))
    reached = {int(number) for it in said for number in re.findall(r" (\d+):\d+", it)}
    assert reached == REACHED, f"answers {sorted(reached)}, wanted {sorted(REACHED)}"
    count(said, counts)
    ran = subprocess.run([program, "1", "4000", "liar"], capture_output=True, text=True)
    assert ran.returncode == 1 and "decided" in ran.stderr or "behind the end" in ran.stderr, f"a liar isn't found: {ran}"


def count(said, counts):
    for line in said:
        for what, word in (("calls", "calls"), ("wrong ones", "wrong messages"), ("decided", "commands decided among them")):
            counts[f"{word} in C"] += int(re.search(rf"{what} (\d+)", line)[1])


def valgrind(library, room, sizes, counts):
    program = compiled(library, TREE / "hostile/handles.c", room / "handles_plain", *WRAPS)
    said = run(*under_valgrind(program), sizes["seed"] + SEEDS, sizes["under"])
    counts["calls under valgrind"] += int(re.search(r"calls (\d+)", said)[1])


def rust(library, room, sizes, counts):
    said = run("cargo", "test", "--offline", "-j1", cwd=TREE / "bindings/rust", env=rust_env(library, room))
    assert said.count("test result: ok") == 3, said
    counts["tests in Rust"] += sum(int(it) for it in re.findall(r"test result: ok. (\d+) passed", said))


def rust_env(library, room):
    return {**os.environ, "RR_LIB": str(library), "CARGO_TARGET_DIR": os.environ.get("RR_TARGET", str(room / "target"))}


def python(library, room, sizes, counts):
    run(sys.executable, "-B", TREE / "bindings/python/try_rr.py", sizes["messages"], env={**os.environ, "RR_LIB": str(library)})
    counts["random messages in Python"] += sizes["messages"]


def full(library, room, sizes, counts):
    """A node that has decided all commands but one takes that; then a new one is refused, and all else goes on."""
    ends.fill(str(room / "full"), ends.LIFE - 1)
    run(sys.executable, "-B", TREE / "bindings/python/try_rr.py", "full", room / "full/0", env={**os.environ, "RR_LIB": str(library)})
    counts["full lists"] += 1


def cuts(library, room, sizes, counts):
    words = [sys.executable, "-B", TREE / "hostile/power_cuts.py", library, "--seed", str(1000 * sizes["seed"])]
    said = run(*words, "--cuts", sizes["cuts"])
    for number, what in re.findall(r"(\d+) ([^,\n]+)", said):
        counts[f"{what} in Python"] += int(number)
    ran = subprocess.run([*map(str, words), "--cuts", "1000", "--liar"], capture_output=True, text=True)
    assert ran.returncode == 1 and "had acknowledged" in ran.stdout, f"a liar isn't found: {ran}"


class Cluster:
    """Three processes of the example, over folders of their own."""

    def __init__(self, program, room, port):
        self.program, self.room, self.port, self.running = program, room, port, {}

    def start(self, node, *more):
        log = open(self.room / f"log{node}", "a")
        words = [self.program, "3", node, self.room / f"node{node}", self.port, *more]
        self.running[node] = subprocess.Popen([str(word) for word in words], stdout=log, stderr=log)
        deadline = time.monotonic() + 20
        while True:
            try:
                return self.ask(node, "count")
            except OSError:
                assert self.running[node].poll() is None and time.monotonic() < deadline, (self.room / f"log{node}").read_text()
                time.sleep(0.02)

    def kill(self, node):
        process = self.running.pop(node)
        process.send_signal(signal.SIGKILL)
        process.wait()

    def ask(self, node, line, wait=30):
        with socket.create_connection(("127.0.0.1", self.port + 100 + node), wait) as stream:
            stream.sendall(f"{line}\n".encode())
            return stream.makefile().readline().strip()


def load(cluster, client, ends):
    """A client claims names of its own at nodes in turn; a request whose process is killed is asked for again elsewhere, under its number. Behind
    a thousand names it claims one and releases it again and again. It gives what the list has of the names that were acknowledged."""
    acked, seq = set(), 0
    while not ends.is_set():
        seq += 1
        name = f"c{client}-{seq}" if seq <= 1000 else f"c{client}-again"
        verb, answer = ("release", "Released") if seq > 1000 and seq % 2 == 0 else ("claim", "Claimed")
        for node in (client, client + 1, client + 2, client) * 100:
            try:
                said = cluster.ask(node % 3, f"{verb} {client} {seq} {name}{' v' * (verb == 'claim')}", 5)
            except OSError:
                said = ""
            if said:
                assert said == answer, said
                if seq <= 1000:
                    acked.add(f"{name}={client}:v")
                break
            if ends.is_set():
                break
            time.sleep(0.01)
    return acked, seq


def processes(library, room, sizes, counts):
    """Three processes are killed under load."""
    acked = three_processes(library, room, sizes["kills"])
    counts["kills of three processes"] += sizes["kills"]
    counts["commands of three processes"] += acked


def three_processes(library, room, kills):
    run("cargo", "build", "--release", "--offline", "-j1", cwd=TREE / "examples/three_processes", env=rust_env(library, room))
    program = pathlib.Path(rust_env(library, room)["CARGO_TARGET_DIR"]) / "release/three_processes"
    cluster = Cluster(program, room, random.randrange(21000, 29000))
    try:
        for node in range(3):
            cluster.start(node, "new")
        assert cluster.ask(0, "claim 9 1 printer room-4") == "Claimed"
        assert until(lambda: [cluster.ask(node, "look printer") for node in (1, 2)], lambda said: said == ["9 room-4"] * 2)
        ends = threading.Event()
        with concurrent.futures.ThreadPoolExecutor(3) as pool:
            clients = [pool.submit(load, cluster, client, ends) for client in range(3)]
            try:
                for _ in range(kills):
                    node = random.randrange(3)
                    time.sleep(random.random() / 4)
                    cluster.kill(node)
                    time.sleep(random.random() / 8)
                    cluster.start(node)
            finally:
                ends.set()
        done = [client.result() for client in clients]
        vanished(cluster)
        lists = until(lambda: [cluster.ask(node, "list") for node in range(3)], lambda said: len(set(said)) == 1)
        there = set(lists[0].split())
        lost = set().union(*(acked for acked, _ in done)) - there
        assert not lost, f"lost: {sorted(lost)}"
        return sum(count for _, count in done)
    finally:
        for node in list(cluster.running):
            cluster.kill(node)


def vanished(cluster):
    """A node whose files vanished isn't started; with them it is."""
    cluster.kill(2)
    folder, aside = cluster.room / "node2", cluster.room / "aside"
    folder.rename(aside)
    ran = subprocess.run([cluster.program, "3", "2", folder, str(cluster.port)], capture_output=True, text=True, timeout=20)
    assert ran.returncode != 0 and "Damaged" in ran.stderr, ran
    for file in folder.iterdir():
        file.unlink()
    folder.rmdir()
    aside.rename(folder)
    cluster.start(2)


def until(look, fits, seconds=30):
    """What a look gives once it fits."""
    deadline = time.monotonic() + seconds
    while not fits(said := look()):
        assert time.monotonic() < deadline, said
        time.sleep(0.05)
    return said


# --- as a part of hostile/run ---


def tasks(options):
    return list(PARTS)


def work(rig, options, task):
    """A task's tally. It ends with its first failure."""
    tally = Tally()
    missing = [program for program in NEEDED.get(task, ()) if not shutil.which(program)]
    if not tally.check(not missing, f"{task}: no program {' and '.join(missing)} is here"):
        return tally
    room = pathlib.Path(rig.path(f"embedding-{task}"))
    room.mkdir()
    sizes = {**(SHORT if options.short else LONG), "seed": options.seed}
    try:
        globals()[task](pathlib.Path(options.librr), room, sizes, tally.counts)
        tally.passed += 1
    except (AssertionError, OSError, subprocess.SubprocessError) as why:
        tally.failures.append(f"{task}: {type(why).__name__}: {why}")
    finally:
        shutil.rmtree(room, ignore_errors=True)
    return tally


def main():
    words = argparse.ArgumentParser(description=__doc__, formatter_class=argparse.RawDescriptionHelpFormatter)
    words.add_argument("library", type=pathlib.Path)
    words.add_argument("parts", nargs="*", metavar="PART", default=[])
    words.add_argument("--short", action="store_true")
    words.add_argument("--seed", type=int, default=1)
    for name in LONG:
        words.add_argument(f"--{name}", type=int)
    given = words.parse_args()
    sizes = {name: getattr(given, name) or (SHORT if given.short else LONG)[name] for name in LONG}
    failed, begun = 0, time.monotonic()
    with tempfile.TemporaryDirectory() as folder:
        for part in given.parts or PARTS:
            missing = [program for program in NEEDED.get(part, ()) if not shutil.which(program)]
            assert not missing, f"no program {' and '.join(missing)} is here"
            room, tally, since = pathlib.Path(folder) / part, Tally(), time.monotonic()
            room.mkdir()
            try:
                globals()[part](given.library.resolve(), room, {**sizes, "seed": given.seed}, tally.counts)
                said = "well"
            except (AssertionError, OSError, subprocess.SubprocessError) as why:
                said, failed = f"FAILED {type(why).__name__}: {why}", failed + 1
            told = ", ".join(f"{count} {what}" for what, count in sorted(tally.counts.items()))
            print(f"{part}: {told}: {said}, {time.monotonic() - since:.0f} s", flush=True)
    print(f"embedding: {failed} failed, {time.monotonic() - begun:.0f} s")
    sys.exit(1 if failed else 0)


if __name__ == "__main__":
    main()
