"""Snapshots of nodes of `rr shell` that are busy. Behind each the shell is killed, and the node loses its other area.

Between two snapshots names are claimed and updated at all nodes. A snapshot has all facts of the area that the node leaves. So
behind the kill it has, by docs/FORMATS.md, the same next fact number, decisions and open instances. Then the area that isn't
active is filled with zeros, or its file is removed. The shell is started again, and each answer that was read holds: at once at
the node that gave it, and at every node behind a later command.
"""
import random
import shutil

import reading
import shell_kills
from harness import Tally
from scripts import bytes_of

NODES = 3
RUNS, ROUNDS = 40, 5
COMMANDS = (0, 11)


def tasks(options):
    return [] if options.short else list(range(options.seed, options.seed + RUNS))


def work(rig, options, seed):
    tally, rng, names = Tally(), random.Random(seed), shell_kills.Names()
    folder = rig.path("snapped")
    shutil.rmtree(folder, ignore_errors=True)
    for part in range(ROUNDS):
        what = f"seed {seed}, kill {part + 1}"
        try:
            for node in killed(rig, folder, names, rng, tally.counts):
                lose(tally, f"{what}, node {node}", f"{folder}/{node}", rng)
            tally.check(holds(rig, folder, names, tally.counts), f"{what}: the shell didn't end as it should")
        except shell_kills.Wrong as why:
            tally.check(False, f"{what}: {why}")
            break
    return tally


def killed(rig, folder, names, rng, counts):
    """Has some nodes write snapshots while all are busy, kills the shell behind the last answer, and tells which nodes did."""
    shell = shell_kills.Shell(rig.rr, NODES, folder)
    try:
        nodes = rng.sample(range(NODES), rng.randint(1, NODES))
        for node in nodes:
            for _ in range(rng.randint(*COMMANDS)):
                command(shell, names, rng, counts, rng.randrange(NODES))
            # (of a command that another node answered, this one may still have to hear)
            command(shell, names, rng, counts, rng.choice([other for other in range(NODES) if other != node]))
            answer = shell.ask(f"snapshot {node}")
            shell_kills.need(answer == f"snapshot {node}", f"snapshot {node}: {answer!r}")
            counts["snapshots"] += 1
    finally:
        shell.child.kill()
        shell.end()
    return nodes


def command(shell, names, rng, counts, node):
    """A claim or an update at a node."""
    shell_kills.need(shell.ask(f"at {node}") == f"at {node}", f"at {node}")
    verb, name, value = names.draw(rng, node)
    answer = shell.ask(f"{verb} {name} {value}")
    if answer == "unacknowledged":
        names.doubt(name, value)
        counts["commands in doubt"] += 1
        return
    shell_kills.need(answer == shell_kills.REPLIES[verb], f"{verb} {name}: {answer!r}")
    names.acknowledge(node, name, value)
    counts["answers"] += 1


def lose(tally, what, folder, rng):
    """The snapshot has what the other area has, which the node then loses."""
    areas = [bytes_of(f"{folder}/a{area}") for area in (0, 1)]
    heads = [head_of(area) for area in areas]
    active = max((0, 1), key=lambda area: heads[area].epoch)
    left = reading.Disk([areas[1 - active], b""])
    head = heads[active]
    tally.check(head.next == left.next, f"{what}: a snapshot before fact {head.next} follows an area with {left.next} facts")
    tally.check(head.decided == left.decided, f"{what}: a snapshot has {len(head.decided)} decisions of {len(left.decided)}")
    tally.check(head.open == left.open, f"{what}: a snapshot has {head.open}, and the facts before it say {left.open}")
    tally.counts["open instances in snapshots"] += len(left.open)
    # (a folder without one of its files isn't opened: the part `cluster` removes them)
    with open(f"{folder}/a{1 - active}", "r+b") as file:
        file.write(bytes(len(areas[1 - active])))
    tally.counts["areas filled with zeros"] += 1


def head_of(area):
    """What the snapshot of an area says; nothing where the area isn't formatted."""
    head = reading.Disk([b"", b""])
    for payload in reading.frames(area)[:1]:
        head.read_snapshot(payload)
    return head


def holds(rig, folder, names, counts):
    """Whether a shell that is started again has all that was answered, and ends."""
    shell = shell_kills.Shell(rig.rr, NODES, folder)
    try:
        shell_kills.check(shell, names, counts, NODES)
        return shell.end() == (0, b"")
    finally:
        shell.child.kill()
        shell.child.wait()
