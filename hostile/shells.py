#!/usr/bin/env python3
"""Uses rr shell and rr run as people and programs do: by pipes, with limits of time, over folders of its own.

    hostile/shells.py --rr RR [--only WORD]

What has to come is by docs/FORMATS.md and README.md, and what lies in folders is read by hostile/reading.py. Each case is a shell or a few,
which have to end in time. Answers have to come soon where a node is stopped, while commands come one behind another, and on a cluster that is
idle: there the best of some groups of claims at each node has its median under 25 ms, since a thread that isn't woken wakes by itself only
after 50. Those that wait for clocks run side by side. --only takes the cases whose names have that word. The last line says how many held."""
import argparse
import concurrent.futures
import fcntl
import json
import os
import pathlib
import pty
import random
import re
import select
import shutil
import statistics
import subprocess
import sys
import tempfile
import termios
import time

sys.dont_write_bytecode = True
import reading  # noqa: E402
from harness import TREE, Lines, split_new  # noqa: E402

# Seconds after which an answer or an end hangs.
LIMIT = 30
# How long what is at once may take on a machine that is busy.
SOON = 3
BLOCK = 1048576
LIFE = 1048576
# How many lines a script has whose run takes some ticks.
LINES = 600
# The most seconds of a claim at rest, how many claims are a group, and the most groups.
MOST, GROUP, GROUPS = 0.025, 10, 6


class Wrong(Exception):
    """Something isn't as it has to be."""


def need(holds, what):
    if not holds:
        raise Wrong(what)


class Shell:
    """A shell that runs, asked line by line."""

    def __init__(self, case, *words, env=None, out=subprocess.PIPE, input=subprocess.PIPE):
        begun = [case.rr, "shell", "--dir", case.folder, *words]
        self.child = subprocess.Popen(begun, stdin=input, stdout=out, stderr=subprocess.PIPE, bufsize=0, env=env or {}, cwd=case.room)
        case.children.append(self.child)
        self.lines = Lines(self.child.stdout)

    def say(self, line):
        try:
            self.child.stdin.write(line.encode() + b"\n")
        except BrokenPipeError:
            pass

    def hear(self, limit=LIMIT):
        """The next line of an answer; None where there is none in time, or the shell has gone."""
        return self.lines.next(limit)

    def ask(self, line, limit=LIMIT):
        self.say(line)
        return self.hear(limit)

    def want(self, line, answer, limit=LIMIT):
        begun = time.monotonic()
        got = self.ask(line, limit)
        need(got == answer, f"{line!r} was answered {got!r} in {time.monotonic() - begun:.1f} s, not {answer!r}")

    def wants(self, *pairs, limit=LIMIT):
        for line, answer in pairs:
            self.want(line, answer, limit)

    def end(self, limit=SOON, status=0, said=b""):
        """Its input ends, and so does it, in time."""
        try:
            if self.child.stdin:
                self.child.stdin.close()
        except BrokenPipeError:
            pass
        try:
            ended = self.child.wait(limit)
        except subprocess.TimeoutExpired:
            raise Wrong(f"it doesn't end in {limit} seconds") from None
        told = split_new(self.child.stderr.read())[0]
        need((ended, said if callable(said) else told) == (status, said), f"it ended with {ended}, and said {told!r}")
        if callable(said):
            said(told)

    def states(self, nodes):
        """What `status` tells of each node."""
        self.say("status")
        told = [json.loads(self.hear() or "null") for _ in range(nodes)]
        need([state and state["node"] for state in told] == list(range(nodes)), f"a status has {told}")
        return told

    def wait_for(self, nodes, holds, what, limit=LIMIT):
        """Asks for the status until this holds of it."""
        until = time.monotonic() + limit
        while not holds(told := self.states(nodes)):
            need(time.monotonic() < until, f"{what}: not in {limit} seconds: {told}")
            time.sleep(0.05)
        return told


class Case:
    """A case: the program, and a room of its own."""

    def __init__(self, rr, preload):
        self.rr, self.preload = rr, preload
        self.room = tempfile.mkdtemp(prefix="shells", dir="/dev/shm" if os.path.isdir("/dev/shm") else None)
        self.folder = f"{self.room}/nodes"
        self.children = []

    def close(self):
        for child in self.children:
            child.kill()
            child.wait()
        shutil.rmtree(self.room, ignore_errors=True)

    def run(self, *words, text=b"", limit=LIMIT):
        ran = subprocess.run([self.rr, *words], input=text, capture_output=True, timeout=limit, env={}, cwd=self.room, check=False)
        return ran.returncode, ran.stdout.decode(), split_new(ran.stderr)[0].decode()

    def disk(self, node):
        """What the folder of a node has."""
        areas = []
        for name in ("a0", "a1"):
            with open(f"{self.folder}/{node}/{name}", "rb") as file:
                areas.append(file.read())
        return reading.Disk(areas)

    def stored(self):
        with open(f"{self.folder}/requests", "rb") as file:
            return file.read()


def quit_ends_at_once(case):
    """A shell ends at once, also while nodes are stopped or a name is watched, by a line or by the end of its input."""
    for stopped in ((), (1,), (0, 2), (0, 1, 2)):
        shell = Shell(case, "--nodes", "3")
        shell.wants(*((f"stop {node}", f"stopped {node}") for node in stopped))
        shell.say("quit")
        shell.end()
    shell = Shell(case)
    shell.want("watch", "watching")
    shell.end()


def no_majority_is_told(case):
    """Without a majority a claim and a sync are unacknowledged after some five seconds, and the shell goes on."""
    shell = Shell(case, "--nodes", "3", "--client", "7")
    shell.wants(("claim a x", "claimed"), ("stop 1", "stopped 1"), ("stop 2", "stopped 2"))
    for line in ("claim b y", "sync"):
        begun = time.monotonic()
        shell.want(line, "unacknowledged")
        took = time.monotonic() - begun
        need(2 < took < 15, f"{line!r} was given up after {took:.1f} s")
        shell.want("look a", "a bound 7 x", SOON)
    shell.wants(("start 1", "started 1"), ("again", "claimed"), ("look b", "b bound 7 y"), ("sync", "synced"))
    shell.wants(("at 1", "at 1"), ("sync", "synced"), ("look b", "b bound 7 y"))
    shell.end()


def majority_that_comes_back_decides_soon(case):
    """Of seven nodes four are stopped, and a claim waits. Once one of them is started exactly a majority is up, and decides soon."""
    shell = Shell(case, "--nodes", "7", "--client", "7")
    shell.want("claim a x", "claimed")
    for stopped in ((3, 4, 2, 1), (2, 0, 1, 3), (1, 0, 3, 5)):
        asked = min(set(range(7)) - set(stopped))
        shell.wants((f"at {asked}", f"at {asked}"), *((f"stop {node}", f"stopped {node}") for node in stopped))
        shell.want("update a waiting", "unacknowledged")
        shell.want(f"start {stopped[0]}", f"started {stopped[0]}")
        shell.want("update a back", "updated", SOON)
        shell.wants(*((f"start {node}", f"started {node}") for node in stopped[1:]), ("sync", "synced"), ("look a", "a bound 7 back"))
    shell.end()


def nodes_are_switched_alone(case):
    """A node that is stopped is down, and suspected by the others alone; what it acknowledged is there when it is started again."""
    shell = Shell(case, "--nodes", "3", "--client", "7", "--json", "--tick", "20")
    for node in range(3):
        need(shell.ask(f"at {node}") == json.dumps({"kind": "at", "node": node}, separators=(",", ":")), f"at {node}")
        need(json.loads(shell.ask(f"claim name-{node} x"))["reply"] == "claimed", f"a claim at node {node}")
        need(json.loads(shell.ask(f"stop {node}")) == {"kind": "stopped", "node": node}, f"stop {node}")
        told = shell.states(3)
        need([state["up"] for state in told] == [other != node for other in range(3)], f"node {node} is stopped: {told}")
        others = [other for other in range(3) if other != node]
        shell.wait_for(3, lambda told: all(told[other]["suspects"] == 1 << node for other in others), f"node {node} is suspected")
        need(json.loads(shell.ask("look name-0"))["kind"] == "error", f"a look at node {node}, which is down")
        need(json.loads(shell.ask(f"start {node}")) == {"kind": "started", "node": node}, f"start {node}")
        bound = {"kind": "bound", "name": f"name-{node}", "owner": 7, "value": "x"}
        need(json.loads(shell.ask(f"look name-{node}")) == bound, f"a look at node {node}, started again")
        need(all(state["up"] for state in shell.states(3)), f"node {node} is up again")
        shell.wait_for(3, lambda told: not any(state["suspects"] for state in told), f"node {node} isn't suspected any more")
    shell.end()


def status_tells_what_folders_have(case):
    """What a status says of facts and decisions is what the folders have behind the end."""
    shell = Shell(case, "--nodes", "3", "--json")
    for number in range(11):
        shell.ask(f"at {number % 3}")
        need(json.loads(shell.ask(f"claim name-{number}"))["reply"] == "claimed", "a claim")
    before = shell.wait_for(3, lambda told: all(state["decided"] == 11 for state in told), "each node has decided all")
    told = shell.wait_for(3, lambda told: told == shell.states(3), "facts stay as they are")
    need(all(now["facts"] >= then["facts"] for now, then in zip(told, before)), "facts went")
    shell.end()
    for node, state in enumerate(told):
        disk = case.disk(node)
        need((state["facts"], state["decided"]) == (disk.next, len(disk.prefix())), f"node {node} has {disk.text()}, and told {state}")
        need(state["left"] == LIFE - 11 and state["facts"] > 11, f"node {node} told {state}")


def claims_are_prompt(case):
    """On an idle cluster a claim is answered promptly at each node."""
    rng = random.Random(1)
    shell = Shell(case, "--nodes", "3")
    number = 0
    for node in range(3):
        shell.want(f"at {node}", f"at {node}")
        medians = []
        while len(medians) < GROUPS and not any(median < MOST for median in medians):
            times = []
            for _ in range(GROUP):
                # (a while in which all threads come to rest)
                time.sleep(rng.uniform(0.005, 0.025))
                number += 1
                begun = time.monotonic()
                shell.want(f"claim name-{number} x", "claimed")
                times.append(time.monotonic() - begun)
            medians.append(statistics.median(times))
        need(medians[-1] < MOST, f"the medians of claims at node {node} are {[round(1000 * median, 1) for median in medians]} ms")
    shell.end()


def watch_shows_what_comes(case):
    """A watch shows each change that its node publishes from then on, once and in order, of names that begin so, and none before."""
    shell = Shell(case, "--nodes", "3", "--client", "7")
    shell.wants(("claim pa old", "claimed"), ("claim q old", "claimed"), ("stop 1", "stopped 1"))
    names = [f"p{letter}" for letter in "bcde"]
    shell.wants(*((f"claim {name} x", "claimed") for name in names), ("claim qq x", "claimed"), ("update pa new", "updated"), ("release pb", "released"))
    shell.wants(("start 1", "started 1"), ("at 1", "at 1"), ("watch p", "watching"))
    wanted = [f"changed {name} bound 7 x" for name in names] + ["changed pa bound 7 new", "freed pb"]
    seen = []
    while len(seen) < len(wanted) and (line := shell.hear(SOON)):
        seen.append(line)
    # (node 1 may have published some of them before the watch has begun)
    need(seen == wanted[len(wanted) - len(seen) :], f"a watch showed {seen}, not the last of {wanted}")
    shell.wants(("look pa", "pa bound 7 new"), ("list pb", "list 0"), ("claim pz", "claimed"))
    # What was published before isn't shown, whether somebody has looked at it or not.
    shell.wants(("at 2", "at 2"), ("sync", "synced"), ("at 0", "at 0"), ("claim py", "claimed"))
    time.sleep(0.5)
    shell.wants(("at 2", "at 2"), ("watch", "watching"))
    need(shell.hear(0.3) is None, "a watch shows what was published before it")
    shell.wants(("look py", "py bound 7"), ("at 2", "at 2"))
    shell.end()


def snapshot_is_written_when_told(case):
    """A snapshot is told behind its last call, and not where that is never made. A kill behind the answer leaves the next epoch, with all."""
    # The third write to an area that is empty opens its gate.
    env = {"LD_PRELOAD": case.preload, "FAIL_CALL": "write", "FAIL_PATH": "/1/a1", "FAIL_NTH": "3", "FAIL_HOW": "kill"}
    for attempt in range(5):
        case.folder = f"{case.room}/killed-{attempt}"
        shell = Shell(case, "--nodes", "2", env=env)
        shell.want("claim a", "claimed")
        answer = shell.ask("snapshot 1")
        need(answer is None and shell.child.wait(SOON) == -9, f"a snapshot that is cut short before its gate is told as {answer!r}")
        need(case.disk(1).epoch == 1, f"a snapshot that is cut short before its gate: {case.disk(1).text()}")
    case.folder = f"{case.room}/nodes"
    for epoch in (2, 3):
        shell = Shell(case, "--nodes", "2", "--client", "7")
        shell.wants((f"claim name-{epoch} x", "claimed"), ("at 1", "at 1"), ("sync", "synced"), ("snapshot 1", "snapshot 1"))
        shell.child.kill()
        shell.child.wait()
        disk = case.disk(1)
        need(disk.epoch == epoch, f"behind snapshot {epoch - 1} of node 1 its folder has {disk.text()}")
        # (a sync is a command too)
        need(len(disk.decided) == 2 * (epoch - 1), f"behind snapshot {epoch - 1} of node 1 it has decided {disk.decided}")
        need(case.disk(0).epoch == 1, "a snapshot of node 1 is one of node 0")
    shell = Shell(case, "--client", "7")
    shell.wants(("at 1", "at 1"), ("look name-2", "name-2 bound 7 x"), ("look name-3", "name-3 bound 7 x"))
    shell.end()


def folder_in_use_is_refused(case):
    """While a shell talks, others are refused its folder, and a folder of a node that another program has locked; then not."""
    script = b"look 0 a\n"
    shell = Shell(case, "--nodes", "2", "--client", "7")
    shell.want("claim a x", "claimed")
    refused = (5, "", f"rr: 2 Device\n{case.folder}: another program has locked it\n")
    for words in (("shell", "--dir", case.folder), ("run", "--nodes", "2", "--dir", case.folder, "--script", "-")):
        ran = case.run(*words, text=script)
        need(ran == refused, f"rr {' '.join(words)} beside a shell: {ran}")
    shell.want("look a", "a bound 7 x")
    shell.end()
    lent = os.open(f"{case.folder}/1", os.O_RDONLY)
    fcntl.flock(lent, fcntl.LOCK_EX)
    ran = case.run("shell", "--dir", case.folder, text=script)
    need(ran == (5, "", f"rr: 2 Device\n{case.folder}/1: another program has locked it\n"), f"a node's folder that is locked: {ran}")
    os.close(lent)
    ran = case.run("run", "--nodes", "2", "--dir", case.folder, "--script", "-", text=script)
    need(ran == (0, "look 0 a 7:x\n", ""), f"behind the shell: {ran}")


def failing_device_takes_its_node_alone(case):
    """A node whose disk fails is down alone, also at a start. The status names the file, the call and what the system said, and the others
    decide each claim that comes. At the end the shell ends with 5 and names the folder. What was acknowledged stands."""
    for kind, node, calls in (("write", 1, "writing"), ("sync", 2, "syncing")):
        env = {"LD_PRELOAD": case.preload, "FAIL_CALL": kind, "FAIL_PATH": f"/{node}/", "FAIL_NTH": "30", "FAIL_MANY": "1000000", "FAIL_HOW": "5"}
        shell = Shell(case, "--nodes", "3", "--client", "7", "--json", env=env)
        claimed = json.dumps({"kind": "reply", "reply": "claimed"}, separators=(",", ":"))
        names = []

        def claim():
            names.append(f"{kind}-{len(names)}")
            shell.want(f"claim {names[-1]} x", claimed)

        def fails():
            while all(state["up"] for state in shell.states(3)):
                need(len(names) < 1000, "a device fails, and its node goes on")
                claim()
            states = shell.states(3)
            need([state["up"] for state in states] == [it != node for it in range(3)], f"of three nodes one has failed: {states}")
            why = states[node].get("failed", "")
            need(re.fullmatch(f"{node}/a[01]: {calls}: Input/output error .*", why), f"a failing device was told as {states[node]}")

        fails()
        for _ in range(20):
            claim()
        down = f"node {node} is down: start it, or ask another"
        shell.wants((f"at {node}", f'{{"kind":"at","node":{node}}}'), ("look x", f'{{"kind":"error","text":"{down}"}}'), ("at 0", '{"kind":"at","node":0}'))
        again = shell.ask(f"start {node}")
        need(json.loads(again)["kind"] in ("error", "started"), f"a start over a failing device was answered {again!r}")
        claim()
        fails()

        def told(text, node=node, calls=calls):
            lines = text.decode().splitlines()
            named = len(lines) == 2 and lines[0] == "rr: 2 Device" and re.fullmatch(f"{case.folder}/{node}/a[01]: {calls}: Input/output error .*", lines[1])
            need(named, f"a failing device was told as {lines}")

        shell.end(status=5, said=told)
        shell = Shell(case, "--client", "7")
        for it in range(3):
            shell.wants((f"at {it}", f"at {it}"), ("sync", "synced"), *((f"look {name}", f"{name} bound 7 x") for name in names))
        shell.end()


def load_goes_on_without_coordinators(case):
    """Under steady load each command is answered soon, while each node in turn is stopped and started. An export has what came of all."""
    shell = Shell(case, "--nodes", "3", "--client", "7", "--tick", "100")
    values, number = {}, 0

    def load(seconds):
        nonlocal number
        first, until = number, time.monotonic() + seconds
        while time.monotonic() < until or number < first + 3:
            name = f"name-{number % 50}"
            verb, answer = ("update", "updated") if name in values else ("claim", "claimed")
            shell.want(f"{verb} {name} {number}", answer, 10)
            values[name] = number
            number += 1

    for node in range(3):
        shell.want(f"at {(node + 1) % 3}", f"at {(node + 1) % 3}")
        load(0.3)
        shell.want(f"stop {node}", f"stopped {node}")
        load(0.4)
        shell.want(f"start {node}", f"started {node}")
        load(0.3)
    need(number >= 60, f"only {number} commands in three seconds")
    shell.end()
    wanted = "".join(f"submit 0 7 {place} claim {name} {values[name]}\n" for place, name in enumerate(sorted(values), 1))
    ran = case.run("export", case.folder)
    need(ran == (0, wanted, ""), f"an export behind {number} commands: {ran}")


def ticks_are_as_asked(case):
    """With long ticks a node that is stopped isn't suspected yet; with short ones it is soon."""
    for tick, is_soon in ((10000, False), (10, True)):
        shell = Shell(case, "--nodes", "3", "--json", "--tick", str(tick))
        shell.ask("stop 2")
        if is_soon:
            shell.wait_for(3, lambda told: told[0]["suspects"] == told[1]["suspects"] == 4, "with a tick of 10 ms", 10)
        else:
            time.sleep(1.5)
            told = shell.states(3)
            need(not told[0]["suspects"] and not told[1]["suspects"], f"with a tick of ten seconds: {told}")
        shell.end()


def runs_tick_as_asked(case):
    """A tape of a run with short ticks has many, and one with long ticks next to none. Both are right."""
    script = "".join(f"submit {number % 3} 7 {number} claim name-{number} x\n" for number in range(LINES))
    told = {}
    for tick in (10, 10000):
        words = ("run", "--nodes", "3", "--dir", f"{case.folder}-{tick}", "--script", "-", "--tape", f"{case.folder}.tape", "--tick", str(tick))
        ran = case.run(*words, text=script.encode())
        wanted = "".join(f"ack {number % 3} 7.{number} claimed\n" for number in range(LINES))
        need(ran == (0, wanted, ""), f"a run with ticks of {tick} ms: {ran}")
        with open(f"{case.folder}.tape", encoding="ascii") as tape:
            told[tick] = sum(line.startswith("tick ") for line in tape)
        audited = case.run("audit", f"{case.folder}.tape")
        need(audited[0] == 0 and audited[1].startswith("audit yes "), f"the tape of a run with ticks of {tick} ms: {audited}")
    need(told[10000] <= 3 < told[10], f"ticks on tapes, by their length in ms: {told}")


def numbers_are_never_given_again(case):
    """Request numbers go on behind those that were reserved; and where the file is lost, behind those that the folders name."""
    # The first number of each start, and what the file holds then: behind its loss the folders name the first of the second start.
    for first, stored in ((0, BLOCK), (BLOCK, 2 * BLOCK), (BLOCK + 1, 2 * BLOCK + 1)):
        if first % BLOCK:
            os.remove(f"{case.folder}/requests")
        shell = Shell(case, *(() if first else ("--nodes", "3")), "--client", "7")
        shell.wants((f"claim name-{first} x", "claimed"), ("look name-0", "name-0 bound 7 x"))
        need(case.stored() == b"%d\n" % stored, f"behind number {first} the file holds {case.stored()}, not {stored}")
        shell.end()
    listed = case.run("export", "--list", case.folder)[1].splitlines()
    wanted = [f"{place} 7.{first} claim name-{first} x" for place, first in enumerate((0, BLOCK, BLOCK + 1))]
    need(listed == ["decided 3", *wanted], f"decided are {listed}, not {wanted}")


def numbers_go_on_behind_whoever_knows_most(case):
    """Where the file is lost, numbers go on behind the greatest that any folder names, though another folder names a smaller one."""
    shell = Shell(case, "--nodes", "3", "--client", "7")
    shell.wants(("claim a x", "claimed"), ("at 2", "at 2"), ("sync", "synced"), ("at 0", "at 0"), ("stop 2", "stopped 2"))
    shell.wants(("claim b x", "claimed"), ("claim c x", "claimed"))
    shell.end()
    os.remove(f"{case.folder}/requests")
    shell = Shell(case, "--client", "7")
    shell.wants(("claim d x", "claimed"), ("look d", "d bound 7 x"))
    shell.end()


def failing_output_ends_it(case):
    """Where standard output fails, or nobody reads it, the shell ends with 5, and submits no further line."""
    with open("/dev/full", "wb") as full:
        shell = Shell(case, "--nodes", "1", "--client", "7", out=full)
        shell.say("claim a x\nclaim b x")

        def told(text):
            need(text.startswith(b"rr: standard output: ") and text.count(b"\n") == 1, f"a full output was told as {text!r}")

        shell.end(status=5, said=told)
    reader, writer = os.pipe()
    os.close(reader)
    shell = Shell(case, "--client", "7", out=writer)
    os.close(writer)
    shell.say("claim c x\nclaim d x")
    shell.end(status=5)
    ran = case.run("export", "--list", case.folder)
    need([line.split(" ")[3] for line in ran[1].splitlines()[1:]] == ["a", "c"], f"decided are {ran}")


def failing_input_ends_a_watch(case):
    """Where standard input fails during a watch, the watch ends too, and so does the shell, with 5."""
    reader, writer = os.pipe()
    shell = Shell(case, "--nodes", "2", "--client", "7", input=reader)
    os.write(writer, b"claim a x\nwatch\n")
    need((shell.hear(), shell.hear()) == ("claimed", "watching"), "a watch begins")
    # From the next read on the shell doesn't wait at this pipe, which fails there: a line has begun and isn't ended.
    fcntl.fcntl(reader, fcntl.F_SETFL, fcntl.fcntl(reader, fcntl.F_GETFL) | os.O_NONBLOCK)
    os.write(writer, b"l")

    def told(text):
        need(text.startswith(b"rr: standard input: ") and text.count(b"\n") == 1, f"a failing input was told as {text!r}")

    shell.end(status=5, said=told)
    os.close(reader)
    os.close(writer)


def people_see_a_prompt(case):
    """On a terminal it is told what the shell runs over, and whether the registry is new. Then there is a prompt before each line: that, the
    answers, and nothing else."""
    new = f"rr: {case.folder}: a new registry, with --nodes 3"
    for is_new, line, answer in (([new], b"claim a x\n", "claimed"), ([], b"look a\n", "a bound 0 x")):
        told = on_terminal(case, [line, b"quit\n"])
        begin = f'rr: the registry in {case.folder}, of 3 nodes; you are client 0, and ask node 0; "help" lists the commands, "quit" or Ctrl-D ends'
        need(told.decode().splitlines() == [begin, *is_new, f"> {answer}", "> "], f"on a terminal: {told!r}")


def on_terminal(case, lines):
    """What a terminal shows that doesn't echo, where these lines are typed."""
    master, slave = pty.openpty()
    manner = termios.tcgetattr(slave)
    manner[3] &= ~termios.ECHO
    termios.tcsetattr(slave, termios.TCSANOW, manner)
    child = subprocess.Popen([case.rr, "shell", "--dir", case.folder], stdin=slave, stdout=slave, stderr=slave, cwd=case.room)
    case.children.append(child)
    os.close(slave)
    os.write(master, b"".join(lines))
    told = b""
    try:
        while select.select([master], [], [], LIMIT)[0] and (more := os.read(master, 65536)):
            told += more
    except OSError:
        pass
    need(child.wait(SOON) == 0, f"on a terminal: {told!r}")
    os.close(master)
    return told


# What is measured comes first, alone.
ALONE = (claims_are_prompt,)
BESIDE = (
    no_majority_is_told,
    majority_that_comes_back_decides_soon,
    nodes_are_switched_alone,
    load_goes_on_without_coordinators,
    watch_shows_what_comes,
    ticks_are_as_asked,
    runs_tick_as_asked,
    status_tells_what_folders_have,
    quit_ends_at_once,
    snapshot_is_written_when_told,
    folder_in_use_is_refused,
    failing_device_takes_its_node_alone,
    numbers_are_never_given_again,
    numbers_go_on_behind_whoever_knows_most,
    failing_output_ends_it,
    failing_input_ends_a_watch,
    people_see_a_prompt,
)


def judge(rr, preload, hold):
    """Why a case doesn't hold; None where it does."""
    case = Case(rr, preload)
    try:
        hold(case)
    except (Wrong, OSError, ValueError, TypeError, KeyError, reading.Unreadable, subprocess.TimeoutExpired) as why:
        return f"{hold.__name__}: {type(why).__name__}: {why}"
    finally:
        case.close()
    return None


def main():
    words = argparse.ArgumentParser(description=__doc__, formatter_class=argparse.RawDescriptionHelpFormatter)
    words.add_argument("--rr", required=True)
    words.add_argument("--only", default="")
    asked = words.parse_args()
    rr = os.path.realpath(asked.rr)
    alone, beside = ([hold for hold in holds if asked.only in hold.__name__] for holds in (ALONE, BESIDE))
    with tempfile.TemporaryDirectory() as folder, concurrent.futures.ThreadPoolExecutor(4) as pool:
        preload = os.path.join(folder, "fail_call.so")
        subprocess.run(["cc", "-O2", "-shared", "-fPIC", "-o", preload, pathlib.Path(TREE) / "hostile/fail_call.c", "-ldl"], check=True)
        told = [judge(rr, preload, hold) for hold in alone]
        told += pool.map(lambda hold: judge(rr, preload, hold), beside)
    for why in filter(None, told):
        print(f"hostile/shells.py: {why}")
    held = sum(why is None for why in told)
    print(f"hostile/shells.py: {held} of {len(told)} cases held")
    sys.exit(held != len(told) or not told)


if __name__ == "__main__":
    main()
