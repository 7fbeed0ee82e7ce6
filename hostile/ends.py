"""The end of a life: `rr shell` and `rr run` over a node that has decided all commands but a few.

Its area is written here: a snapshot with a claim of one name under each request number of client 7. The shell says how many commands
are left. Who types is warned. The last place is taken by a claim or by a sync; a change is then answered `full list: ..`, in words
and with JSON, and a strict shell ends with 16. A sync is still answered, and a look behind it has the whole list: with three nodes also at one
that comes back behind the others' last commands. `rr run` has no answer but `none`. What was acknowledged is still there, and `rr verify`
and `rr export` tell the same.
"""
import os
import pty
import shutil
import struct
import subprocess

from harness import LONG, Tally

LIFE = 1048576
FULL = b"full list: no further command can be decided, and this one isn't\n"
FULL_JSON = b'{"kind":"full list","text":"no further command can be decided, and this one isn\'t"}\n'
NAME = b"n"


def tasks(options):
    return ["lines"] if options.short else ["lines", "people", "three"]


def work(rig, options, task):
    tally = Tally()
    folder = rig.path("ending")
    if task == "lines":
        fill(folder, LIFE - 2)
        ask_lines(rig, tally, folder)
    elif task == "three":
        fill(folder, LIFE - 2, 3)
        sync_late(rig, tally, folder)
    else:
        fill(folder, LIFE - LIFE // 10 - 1)
        warn_people(rig, tally, folder)
    shutil.rmtree(folder, ignore_errors=True)
    return tally


def fill(folder, decided, nodes=1):
    """The disks of nodes that have decided so many commands: area 0 is a node's first one, and area 1 the snapshot behind it."""
    shutil.rmtree(folder, ignore_errors=True)
    op = struct.pack(">BB", 1, len(NAME)) + NAME + b"\0"
    entries = b"".join(struct.pack(">IBIQ", place, 1, 7, place) + op for place in range(decided))
    for node in range(nodes):
        os.makedirs(os.path.join(folder, str(node)))
        for name, epoch, count, told in (("a0", 1, 0, b""), ("a1", 2, decided, entries)):
            payload = struct.pack(">BBBQQI", 2, node, nodes, epoch, 4 * count, count) + told
            with open(os.path.join(folder, str(node), name), "wb") as area:
                area.write(struct.pack(">BI", 0xA5, len(payload)) + payload + b"\0")


def shell(rig, folder, *words):
    return rig.run("shell", "--nodes", "1", "--dir", folder, "--client", "9", *words, limit=LONG)


def ask_lines(rig, tally, folder):
    def answers(words, status, wanted):
        ending = shell(rig, folder, *words)
        tally.check((ending.status, ending.out) == (status, wanted), f"{words}: {ending}")
        tally.counts["shells"] += 1

    lines = [word for line in ("claim a x", "sync", "claim b", "sync", "again", "look a", "look b") for word in ("-c", line)]
    nothing = b"error: nothing to ask again: no command is unacknowledged\n"
    answers(lines, 0, b"claimed\nsynced\n" + FULL + b"synced\n" + nothing + b"a bound 9 x\nb free\n")
    seen = b'{"kind":"synced"}\n{"kind":"bound","name":"a","owner":9,"value":"x"}\n'
    answers(["--json", "-c", "claim b", "-c", "sync", "-c", "look a"], 0, FULL_JSON + seen)
    answers(["--strict", "-c", "sync", "-c", "look a"], 0, b"synced\na bound 9 x\n")
    answers(["--strict", "-c", "look a", "-c", "update a", "-c", "look a"], 16, b"a bound 9 x\n" + FULL)
    told = shell(rig, folder, "-c", "status").out
    tally.check(told.endswith(b" decided %d left 0 suspects -\n" % LIFE), f"a status at the end: {told}")
    script = rig.write("late.script", b"submit 0 9 9000000000 claim c\nlook 0 a\nsubmit 0 7 5 claim n\n")
    ran = rig.run("run", "--nodes", "1", "--dir", folder, "--script", script, limit=LONG)
    tally.check(ran[:2] == (0, b"none 0 9.9000000000\nlook 0 a 9:x\nack 0 7.5 taken 7\n"), f"a run at the end: {ran}")
    verified = rig.run("verify", folder, limit=LONG)
    tally.check(verified.status == 0 and b" decided %d left 0 " % LIFE in verified.out, f"verify at the end: {verified}")
    exported = rig.run("export", folder, limit=LONG)
    tally.check(exported[:2] == (0, b"submit 0 9 1 claim a x\nsubmit 0 7 1 claim n\n"), f"an export at the end: {exported}")


def sync_late(rig, tally, folder):
    """Node 2 is down while the others take the last places. It comes back: a sync there waits for these, and a look behind it has them."""
    asked = ("stop 2", "claim a x", "sync", "claim b", "start 2", "at 2", "sync", "look a", "list a")
    ran = rig.run("shell", "--nodes", "3", "--dir", folder, "--client", "9", *(word for line in asked for word in ("-c", line)), limit=4 * LONG)
    wanted = b"stopped 2\nclaimed\nsynced\n" + FULL + b"started 2\nat 2\nsynced\na bound 9 x\nlist 1\na bound 9 x\n"
    tally.check(ran[:] == (0, wanted, b""), f"a sync at a node that comes back behind a full list: {ran} {rig.why}")
    tally.counts["syncs at a node that lacks the list's end"] += 1


def warn_people(rig, tally, folder):
    """Who types is told once how many commands are left, when a tenth is."""
    master, slave = pty.openpty()
    words = [rig.rr, "shell", "--nodes", "1", "--dir", folder, "--client", "9"]
    child = subprocess.Popen(words, stdin=slave, stdout=slave, stderr=slave)
    os.close(slave)
    os.write(master, b"claim a x\nclaim b x\nclaim c x\nquit\n")
    told = b""
    try:
        while True:
            more = os.read(master, 65536)
            if not more:
                break
            told += more
    except OSError:
        pass
    tally.check(child.wait(LONG) == 0, f"a shell with somebody who types: {told!r}")
    os.close(master)
    # The first claim leaves a tenth and what is above a whole one; the warning comes once.
    warning = b"the list is nearly full: %d commands are left" % (LIFE // 10)
    tally.check(told.count(b"nearly full") == 1 and warning in told, f"a warning: {told!r}")
    tally.counts["warnings"] += 1
