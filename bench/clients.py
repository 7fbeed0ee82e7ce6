#!/usr/bin/env python3
"""Commands a second, and how long one takes: 1, 8 and 64 clients of 1, 3 and 7 nodes, beside etcd and SQLite.

    bench/clients.py [--program PROGRAM] [--disk FOLDER] [--tmpfs FOLDER] [--seconds N] [--only disk|tmpfs] [--without etcd|sqlite ..]

Each client has a name of its own. It claims that, and gives it a value again and again, each command once the one before is
acknowledged. The clients ask the nodes in turn. A run takes about so many seconds; 3 if left out. A row has the commands acknowledged a
second, the time in which half of them were acknowledged and 99 of 100, and the syncs for each command, which strace counts in a
short run of its own. The program bench_clients is built if it is left out.

etcd is Debian's etcd-server, one node or three on loopback, asked through its JSON gateway by bench/etcd_client, which go builds.
SQLite is Python's, in WAL mode with synchronous=FULL: clients are threads with a connection each, and a command is a transaction.
What isn't installed is left out."""
import argparse
import os
import pathlib
import re
import shutil
import signal
import socket
import sqlite3
import subprocess
import sys
import tempfile
import threading
import time

HERE = pathlib.Path(__file__).resolve().parent
CLIENTS = (1, 8, 64)
NODES = (1, 3, 7)
VALUE = "203.0.113.7:8443"
PEER, CLIENT = 23800, 23790
COUNTED = 60


def read_words():
    words = argparse.ArgumentParser(description=__doc__, formatter_class=argparse.RawDescriptionHelpFormatter)
    words.add_argument("--program")
    words.add_argument("--disk", default="/var/tmp")
    words.add_argument("--tmpfs", default="/dev/shm")
    words.add_argument("--seconds", type=float, default=3)
    words.add_argument("--only", choices=("disk", "tmpfs"))
    words.add_argument("--without", choices=("etcd", "sqlite"), nargs="*", default=())
    words.add_argument("--sqlite", nargs=3, metavar=("FILE", "CLIENTS", "COMMANDS"), help=argparse.SUPPRESS)
    return words.parse_args()


class Took:
    """What a run took: acknowledged commands, seconds, and the microseconds of the half and of 99 of 100."""

    def __init__(self, count, micros, half, most):
        self.count, self.micros, self.half, self.most = count, micros, half, most

    @classmethod
    def told(cls, text):
        found = re.search(r"acknowledged (\d+) micros (\d+) half (\d+) most (\d+)", text)
        return cls(*map(int, found.groups()))


def counted(words, told, pid=None):
    """The command, or what watches a process, so that syncs are counted into a file."""
    trace = ["strace", "-f", "-qq", "-e", "trace=fdatasync,fsync", "-o", str(told)]
    return trace + (["-p", str(pid)] if pid else words)


def syncs_in(told):
    return sum("sync(" in line and "resumed" not in line for line in told.read_text().splitlines())


def ours(program, nodes, room, clients, commands, before=()):
    with tempfile.TemporaryDirectory(dir=room) as folder:
        words = [*before, program, *map(str, (nodes, clients, commands, 0, 0)), folder]
        ran = subprocess.run(words, capture_output=True, text=True, check=True)
    return Took.told(ran.stderr)


def sqlite(file, clients, commands):
    """Runs the clients of SQLite in this process."""
    with sqlite3.connect(file) as first:
        first.execute("PRAGMA journal_mode=WAL")
        first.execute("CREATE TABLE names (name TEXT PRIMARY KEY, value TEXT) WITHOUT ROWID")
    took, lock = [], threading.Lock()

    def write(number):
        one = sqlite3.connect(file, timeout=60, isolation_level=None)
        one.execute("PRAGMA synchronous=FULL")
        own = []
        for count in range(commands):
            begun = time.perf_counter_ns()
            one.execute("INSERT OR REPLACE INTO names VALUES (?, ?)", (f"name-{number}", f"{VALUE}{count}"))
            own.append((time.perf_counter_ns() - begun) // 1000)
        with lock:
            took.extend(own)

    threads = [threading.Thread(target=write, args=(number,)) for number in range(clients)]
    begun = time.perf_counter_ns()
    for thread in threads:
        thread.start()
    for thread in threads:
        thread.join()
    micros = (time.perf_counter_ns() - begun) // 1000
    took.sort()
    print(f"acknowledged {len(took)} micros {micros} half {took[(len(took) - 1) // 2]} most {took[len(took) - len(took) // 100 - 1]}")


def sqlite_beside(room, clients, commands, before=()):
    with tempfile.TemporaryDirectory(dir=room) as folder:
        words = [*before, sys.executable, __file__, "--sqlite", f"{folder}/names", str(clients), str(commands)]
        return Took.told(subprocess.run(words, capture_output=True, text=True, check=True).stdout)


class Etcd:
    """Nodes of etcd on loopback, and the client program."""

    def __init__(self, nodes, folder):
        peers = ",".join(f"n{node}=http://127.0.0.1:{PEER + node}" for node in range(nodes))
        self.nodes, self.children = nodes, []
        for node in range(nodes):
            client, peer = f"http://127.0.0.1:{CLIENT + node}", f"http://127.0.0.1:{PEER + node}"
            words = ["etcd", "--name", f"n{node}", "--data-dir", f"{folder}/n{node}", "--listen-client-urls", client,
                     "--advertise-client-urls", client, "--listen-peer-urls", peer, "--initial-advertise-peer-urls", peer,
                     "--initial-cluster", peers, "--log-level", "error", "--logger", "zap"]
            self.children.append(subprocess.Popen(words, stdout=subprocess.DEVNULL, stderr=subprocess.DEVNULL))
        for node in range(nodes):
            wait_for(CLIENT + node)
        time.sleep(2)

    def run(self, program, clients, commands):
        ends = ",".join(f"http://127.0.0.1:{CLIENT + node}" for node in range(self.nodes))
        return Took.told(subprocess.run([program, ends, str(clients), str(commands)], capture_output=True, text=True, check=True).stdout)

    def end(self):
        for child in self.children:
            child.send_signal(signal.SIGTERM)
        for child in self.children:
            child.wait(30)


def wait_for(port):
    for _ in range(300):
        try:
            socket.create_connection(("127.0.0.1", port), 1).close()
            return
        except OSError:
            time.sleep(0.1)
    sys.exit(f"nobody listens at port {port}")


def etcd_beside(program, nodes, room, clients, commands, told=None):
    with tempfile.TemporaryDirectory(dir=room) as folder:
        etcd = Etcd(nodes, folder)
        try:
            if told is None:
                return etcd.run(program, clients, commands)
            traces = [subprocess.Popen(counted([], f"{told}.{child.pid}", child.pid)) for child in etcd.children]
            time.sleep(1)
            took = etcd.run(program, clients, commands)
            for trace in traces:
                trace.send_signal(signal.SIGINT)
                trace.wait(30)
            told.write_text("".join(pathlib.Path(f"{told}.{child.pid}").read_text() for child in etcd.children))
            return took
        finally:
            etcd.end()


def measure(name, seconds, clients, run, count):
    """Prints a row: a short run tells how many commands fill the time. `count` runs under strace."""
    first = run(clients, 30)
    commands = max(30, int(30 * seconds * 1_000_000 / first.micros))
    took = run(clients, commands)
    syncs = "" if count is None else f"{count(clients, COUNTED) / (clients * COUNTED):.2f}"
    print(f"| {name} | {clients} | {took.count * 1_000_000 / took.micros:,.0f} | {took.half / 1000:.2f} ms | {took.most / 1000:.2f} ms | {syncs} |", flush=True)


def rows(asked, room, told, client):
    for nodes in NODES:
        for clients in CLIENTS:
            def count(clients, commands, nodes=nodes):
                ours(asked.program, nodes, room, clients, commands, counted([], told))
                return syncs_in(told)
            measure(f"{nodes} nodes", asked.seconds, clients,
                    lambda clients, commands, nodes=nodes: ours(asked.program, nodes, room, clients, commands), has_strace(count))
    if "sqlite" not in asked.without:
        for clients in CLIENTS:
            def count(clients, commands):
                sqlite_beside(room, clients, commands, counted([], told))
                return syncs_in(told)
            measure("SQLite", asked.seconds, clients, lambda clients, commands: sqlite_beside(room, clients, commands), has_strace(count))
    if client is not None:
        for nodes in (1, 3):
            for clients in CLIENTS:
                def count(clients, commands, nodes=nodes):
                    etcd_beside(client, nodes, room, clients, commands, told)
                    return syncs_in(told)
                measure(f"etcd, {nodes} nodes", asked.seconds, clients,
                        lambda clients, commands, nodes=nodes: etcd_beside(client, nodes, room, clients, commands), has_strace(count))


def has_strace(count):
    return count if shutil.which("strace") else None


def etcd_client(asked, room):
    """The program of etcd's clients; None where there is no etcd, or no go to build it with."""
    if "etcd" in asked.without or not shutil.which("etcd") or not shutil.which("go"):
        return None
    program = f"{room}/etcd_client"
    subprocess.run(["go", "build", "-o", program, "./etcd_client"], cwd=HERE, check=True, env={**os.environ, "GO111MODULE": "on", "GOPROXY": "off"})
    return program


def main():
    asked = read_words()
    if asked.sqlite:
        sqlite(asked.sqlite[0], int(asked.sqlite[1]), int(asked.sqlite[2]))
        return
    with tempfile.TemporaryDirectory() as room:
        client = etcd_client(asked, room)
        if asked.program is None:
            asked.program = f"{room}/bench_clients"
            subprocess.run([HERE / "program", "bench_clients", asked.program], check=True)
        for place in ("disk", "tmpfs"):
            if asked.only in (None, place):
                print(f"\n| {place} | clients | commands a second | half in | 99 of 100 in | syncs each |\n|---|---|---|---|---|---|", flush=True)
                rows(asked, getattr(asked, place), pathlib.Path(room) / "strace", client)


main()
