#!/usr/bin/env python3
"""Uses share/rr.py, the module for Python, as programs do, and kills its shell.

    hostile/python_client.py --rr RR [--kills N]

Each method gives the answer, or raises the error, that docs/FORMATS.md has for its line, and lines that are none aren't sent. A folder is
opened by one shell at a time. The shell is killed while names are claimed, 12 times if --kills is left out: opened again, it has each
name that was answered, with its value, and else only such as were asked last in some life, which may count later too. share/elect.py has each worker lead once, and the
decided list has no claim that succeeds while another leads. The last line says how many checks held; the status is 1 where one didn't."""
import argparse
import pathlib
import random
import shutil
import signal
import subprocess
import sys
import tempfile
import threading
import time

sys.dont_write_bytecode = True
SHARE = pathlib.Path(__file__).resolve().parent.parent / "share"
sys.path.insert(0, str(SHARE))
import rr  # noqa: E402

HELD = FAILED = 0


def check(holds, what):
    global HELD, FAILED
    if holds:
        HELD += 1
    else:
        FAILED += 1
        print(f"FAILED {what}")


def wants(error, call, *words):
    """Whether a call raises just this error; what it raised is given back."""
    try:
        answer = call(*words)
    except rr.RegistryError as raised:
        check(type(raised) is error, f"{call.__name__}{words} raised {raised!r}, not {error.__name__}")
        return raised
    check(False, f"{call.__name__}{words} answered {answer!r}, and didn't raise {error.__name__}")


def try_methods(program, folder):
    with rr.Names(folder, client=7, program=program) as names:
        check([node.up for node in names.status()] == [True] * 3, "three nodes are up")
        names.claim("printer", "room-4")
        names.claim("plain")
        check(names.look("printer") == rr.Binding("printer", 7, "room-4"), "a look at a name with a value")
        check(names.look("plain") == rr.Binding("plain", 7, ""), "a look at a name without one")
        check(names.look("attic") is None, "a look at a free name")
        check(getattr(wants(rr.Taken, names.claim, "printer"), "owner", None) == 7, "the owner of a name that is taken")
        names.update("printer", "room-5")
        names.transfer("plain", 9)
        wants(rr.NotOwner, names.update, "plain", "x")
        wants(rr.Unknown, names.release, "attic")
        check(names.list() == [rr.Binding("plain", 9, ""), rr.Binding("printer", 7, "room-5")], "the list of all names")
        check(names.list("pr") == [rr.Binding("printer", 7, "room-5")] and names.list("z") == [], "lists of a beginning")
        for name in ("", "A", "a.b", "a" * 65, "a\nquit", "a b"):
            wants(rr.Refused, names.claim, name)
            wants(rr.Refused, names.look, name)
        for value in ("x y", "x\n", "é", "x" * 65):
            wants(rr.Refused, names.claim, "fresh", value)
        for line in ("watch", "quit", "status\nquit", "", "frob"):
            wants(rr.Refused, names.ask, line)
        check(names.look("fresh") is None and len(names.list()) == 2, "what was refused has changed nothing")
        check("locked" in str(wants(rr.Ended, rr.Names, folder)), "a second shell over the folder is told why")
    wants(rr.Ended, names.look, "printer")


def try_majority(program, folder):
    """Behind an end, and without a majority: a change that isn't acknowledged is asked for again, and counts once."""
    with rr.Names(folder, client=7, program=program) as names:
        check(names.look("printer") == rr.Binding("printer", 7, "room-5"), "what was answered is there behind the end of a shell")
        for node in (1, 2):
            names.ask(f"stop {node}")
        check([node.up for node in names.status()] == [True, False, False], "two nodes are down")
        wants(rr.Unacknowledged, names.claim, "late", "x")
        check(names.status()[0].suspects == {1, 2}, "the node that is up suspects the others")
        names.ask("start 1")
        names.again()
        check(names.look("late") == rr.Binding("late", 7, "x"), "a change that was asked for again")
        wants(rr.Refused, names.again)


def try_without(program, folder):
    """A folder is lost: the registry is refused, and goes on without that node."""
    shutil.rmtree(f"{folder}/1")
    check("--without 1" in str(wants(rr.Ended, rr.Names, folder)), "a registry with a lost folder is refused, and told how it goes on")
    with rr.Names(folder, client=7, program=program, without=[1]) as names:
        check([node.up for node in names.status()] == [True, False, True], "the node of the lost folder stays down")
        check(names.look("late") == rr.Binding("late", 7, "x"), "what was answered is there without a node")
        names.claim("later", "y")
    check(not pathlib.Path(folder, "1").exists(), "the lost folder isn't made")


def try_kill(program, folder, seed, before, unanswered):
    """Claims names until the shell is killed, and gives back those that are there then."""
    names = rr.Names(folder, client=7, program=program)
    kill = threading.Timer(random.Random(seed).uniform(0.0, 0.3), names._child.send_signal, [signal.SIGKILL])
    kill.start()
    try:
        for number in range(100_000):
            unanswered.add(asked := (f"n-{seed}-{number}", f"v-{number}"))
            names.claim(*asked)
            unanswered.remove(asked)
            before[asked[0]] = asked[1]
    except rr.Ended as ended:
        check(f"status {-signal.SIGKILL}" in str(ended), f"kill {seed}: {ended}")
    kill.join()
    names.close()
    with rr.Names(folder, client=7, program=program) as names:
        found = {binding.name: binding.value for binding in names.list("n-")}
    check(before.items() <= found.items(), f"kill {seed}: an answered name is lost: {sorted(before.items() - found.items())[:3]}")
    check(found.items() - before.items() <= unanswered, f"kill {seed}: a name came from nowhere: {sorted(found.items() - before.items())[:3]}")
    return found


def try_election(program, folder):
    """Each worker leads once, in each of two lives; before the second one the leader of an earlier one is left behind."""
    told = []
    for life in range(2):
        ran = subprocess.run([SHARE / "elect.py", folder, program], capture_output=True, text=True, timeout=60)
        leaders = [line.split(" ")[0] for line in ran.stdout.splitlines()]
        check(ran.returncode == 0 and sorted(leaders) == ["worker-0", "worker-1", "worker-2"], f"an election: {ran.stdout}{ran.stderr}")
        told += leaders
        if life == 0:
            with rr.Names(folder, client=1, program=program) as names:
                names.claim("leader", "left-behind")
            told.append("left-behind")
    decided = subprocess.run([program, "export", "--list", folder], capture_output=True, text=True, check=True).stdout
    leader, led = None, []
    for _, _, operation, _, *value in map(str.split, decided.splitlines()[1:]):
        if operation == "claim" and leader is None:
            leader = value[0]
            led.append(leader)
        elif operation == "release":
            leader = None
    check(led == told, f"the decided list has the leaders {led}, and the workers said {told}")


def main():
    words = argparse.ArgumentParser(description=__doc__, formatter_class=argparse.RawDescriptionHelpFormatter)
    words.add_argument("--rr", type=pathlib.Path, required=True)
    words.add_argument("--kills", type=int, default=12)
    options = words.parse_args()
    program = str(options.rr.resolve())
    rr.Names.__init__.__kwdefaults__["program"] = program
    begun = time.monotonic()
    with tempfile.TemporaryDirectory() as room:
        try_methods(program, f"{room}/methods")
        try_majority(program, f"{room}/methods")
        try_without(program, f"{room}/methods")
        found, unanswered = {}, set()
        for seed in range(options.kills):
            found = try_kill(program, f"{room}/kills", seed, found, unanswered)
        try_election(program, f"{room}/election")
    print(f"hostile/python_client.py: {HELD} checks held, {FAILED} didn't; {len(found)} names over {options.kills} kills, {time.monotonic() - begun:.0f} s")
    sys.exit(1 if FAILED or not HELD else 0)


main()
