#!/usr/bin/env python3
"""Three processes of examples/three_processes beside three members of etcd: commands a second, and how long one takes, with 1, 8 and 64
clients; and how long a process that was killed takes to catch up.

    bench/hosts.py [--library LIBRR] [--disk FOLDER] [--tmpfs FOLDER] [--only disk|tmpfs] [--seconds N] [--rounds N] [--commands K]
                   [--without etcd] [speed|behind ..]

LIBRR is what ./build --lib makes, librr if left out. cargo builds the example, and go the clients: bench/lines_client for ours, and
bench/etcd_client, which asks etcd's JSON gateway. Each client has a connection and a name of its own, and asks once the command before is
acknowledged. In speed a round takes ours and etcd in turn, each over fresh folders, for some N seconds; 3 rounds and 3 seconds if left out. A row
has the median of the rounds, and all of them behind it; `sync` is the median of a write and its sync beside it, before the first round.

behind: the third process is killed, K commands are decided at the other two, 10,000 if left out, and it is started: how long until its list has
them all. Nobody asks for anything meanwhile."""
import argparse
import os
import pathlib
import statistics
import subprocess
import sys
import tempfile
import time

sys.dont_write_bytecode = True
HERE = pathlib.Path(__file__).resolve().parent
sys.path.insert(0, str(HERE.parent / "hostile"))
import embedding  # noqa: E402

CLIENTS = (1, 8, 64)
PORT, FIRST = 27000, 1000


def read_words():
    words = argparse.ArgumentParser(description=__doc__, formatter_class=argparse.RawDescriptionHelpFormatter)
    words.add_argument("--library", default=str(HERE.parent / "librr"))
    words.add_argument("--disk", default="/var/tmp")
    words.add_argument("--tmpfs", default="/dev/shm")
    words.add_argument("--only", choices=("disk", "tmpfs"))
    words.add_argument("--seconds", type=float, default=3)
    words.add_argument("--rounds", type=int, default=3)
    words.add_argument("--commands", type=int, default=10_000)
    words.add_argument("--without", choices=("etcd",), nargs="*", default=())
    words.add_argument("what", nargs="*", default=["speed", "behind"], choices=[[], "speed", "behind"])
    return words.parse_args()


def clients_of_etcd():
    """bench/clients.py as a module, without its run."""
    module = {"__file__": str(HERE / "clients.py"), "__name__": "clients"}
    exec(compile((HERE / "clients.py").read_text().replace("\nmain()\n", "\n"), "clients.py", "exec"), module)
    return module


def sync_of(folder):
    """The milliseconds of a write of 200 bytes and its sync: the median of 100."""
    took = []
    with tempfile.TemporaryFile(dir=folder) as file:
        for place in range(100):
            begun = time.perf_counter()
            os.pwrite(file.fileno(), b"x" * 200, 200 * place)
            os.fdatasync(file.fileno())
            took.append(1000 * (time.perf_counter() - begun))
    return statistics.median(took)


class Bench:
    def __init__(self, asked, room):
        self.asked, self.etcd = asked, clients_of_etcd()
        library = pathlib.Path(asked.library).resolve()
        env = {**os.environ, "RR_LIB": str(library), "CARGO_TARGET_DIR": f"{room}/target"}
        subprocess.run(["cargo", "build", "--release", "--offline", "--quiet"], cwd=HERE.parent / "examples/three_processes", env=env, check=True)
        self.program = f"{room}/target/release/three_processes"
        for name in ("lines_client", "etcd_client"):
            env = {**os.environ, "GO111MODULE": "on", "GOPROXY": "off"}
            subprocess.run(["go", "build", "-o", f"{room}/{name}", f"./{name}"], cwd=HERE, check=True, env=env)
        self.lines, self.json = f"{room}/lines_client", f"{room}/etcd_client"

    def ask(self, nodes, clients, commands, first=1):
        ends = ",".join(f"127.0.0.1:{PORT + 100 + node}" for node in nodes)
        words = [self.lines, ends, str(clients), str(commands), str(first)]
        ran = subprocess.run(words, capture_output=True, text=True)
        if ran.returncode != 0:
            sys.exit(f"bench/hosts.py: clients failed: {ran.stderr}")
        return self.etcd["Took"].told(ran.stdout)

    def ours(self, place, run):
        """What a run over three fresh processes gives."""
        with tempfile.TemporaryDirectory(dir=place) as room:
            cluster = embedding.Cluster(self.program, pathlib.Path(room), PORT)
            try:
                for node in range(3):
                    cluster.start(node, "new")
                return run(cluster)
            finally:
                for node in list(cluster.running):
                    cluster.kill(node)

    def timed(self, ask, clients):
        """A short run tells how many commands fill the time."""
        first = ask(clients, 20)
        return ask(clients, max(30, int(20 * self.asked.seconds * 1_000_000 / first.micros)))

    def our_speed(self, place, clients):
        firsts = iter((FIRST, 2 * FIRST))
        return self.ours(place, lambda _: self.timed(lambda count, commands: self.ask(range(3), count, commands, next(firsts)), clients))

    def etcd_speed(self, place, clients):
        with tempfile.TemporaryDirectory(dir=place) as folder:
            etcd = self.etcd["Etcd"](3, folder)
            try:
                return self.timed(lambda count, commands: etcd.run(self.json, count, commands), clients)
            finally:
                etcd.end()

    def speed(self, name, place):
        print(f"\n| {name}, a sync {sync_of(place):.2f} ms | clients | commands a second | half in | 99 of 100 in | all rounds |\n|---|---|---|---|---|---|", flush=True)
        for clients in CLIENTS:
            took = {"three processes": [], "etcd, 3 members": []}
            for _ in range(self.asked.rounds):
                took["three processes"].append(self.our_speed(place, clients))
                if "etcd" not in self.asked.without:
                    took["etcd, 3 members"].append(self.etcd_speed(place, clients))
            for who, runs in took.items():
                if runs:
                    speeds = [it.count * 1_000_000 / it.micros for it in runs]
                    half, most = (statistics.median(getattr(it, field) for it in runs) / 1000 for field in ("half", "most"))
                    told = ", ".join(f"{it:,.0f}" for it in speeds)
                    print(f"| {who} | {clients} | {statistics.median(speeds):,.0f} | {half:.2f} ms | {most:.2f} ms | {told} |", flush=True)

    def catch_up(self, cluster):
        """Seconds from the start of the process on, and from when it answers on, until it has all."""
        self.ask(range(3), 3, 5, FIRST)
        cluster.kill(2)
        self.ask((0, 1), 64, self.asked.commands // 64 + 1)
        wanted, begun = int(cluster.ask(0, "count")), time.monotonic()
        had = int(cluster.start(2))
        while int(cluster.ask(2, "count")) < wanted:
            assert time.monotonic() - begun < 120, "it doesn't catch up"
            time.sleep(0.005)
        return time.monotonic() - begun, wanted - had

    def behind(self, name, place):
        runs = [self.ours(place, self.catch_up) for _ in range(self.asked.rounds)]
        seconds = [it[0] for it in runs]
        print(f"{name}: behind by {runs[0][1]:,}: median {statistics.median(seconds):.2f} s, worst {max(seconds):.2f} s", flush=True)


def main():
    asked = read_words()
    with tempfile.TemporaryDirectory() as room:
        bench = Bench(asked, room)
        for what in asked.what:
            for name in ("tmpfs", "disk"):
                if asked.only in (None, name):
                    getattr(bench, what)(name, getattr(asked, name))


if __name__ == "__main__":
    main()
