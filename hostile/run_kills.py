"""`rr run` is killed at random moments, over one folder several times, and at last left to end.

Behind each kill the folders are read. `rr show` reads them too. What was acknowledged stands in the folder of the node
that did so, no two folders differ, and what any of them had decided before it has still. The last run asks all over
again: each request has the one reply of the list.
"""
import os
import random
import shutil
import signal
import time

import reading
import scripts
from harness import LONG, Tally, tell

KILLS = 1400
SHORT = 30
ROUNDS = 5


def tasks(options):
    count = (SHORT if options.short else KILLS) // ROUNDS
    return list(range(options.seed, options.seed + count))


def work(rig, options, seed):
    tally = Tally()
    rng = random.Random(seed)
    nodes = rng.choice((1, 2, 3, 3, 3, 5))
    folder, lines, decided = rig.path("nodes"), [], reading.Disk([b"", b""])
    shutil.rmtree(folder, ignore_errors=True)
    whole = seconds_of_a_run(rig, nodes)
    for part in range(ROUNDS):
        more = scripts.draw(rng, nodes, rng.randint(8, 16), 1 + 100 * part)
        lines += more
        what = f"seed {seed}, {nodes} nodes, kill {part + 1}"
        words = ["run", "--nodes", str(nodes), "--dir", folder, "--script", rig.write("script", scripts.text_of(more))]
        status = killed(rig, words, rng.uniform(0, whole))
        tally.counts["kills" if status == -signal.SIGKILL else "runs that had ended"] += 1
        tally.check(status in (0, -signal.SIGKILL), f"{what}: status {status}")
        disks = scripts.disks_of(folder, nodes)
        judge(rig, tally, what, lines, more, disks, decided)
        for disk in disks:
            decided.decided.update(disk.decided)
    what = f"seed {seed}, {nodes} nodes, the last run"
    ending = rig.run("run", "--nodes", str(nodes), "--dir", folder, "--script", rig.write("script", scripts.text_of(lines)), limit=LONG)
    disks = scripts.disks_of(folder, nodes)
    commands = scripts.check_disks(tally, what, lines, disks, decided)
    if tally.check(ending.status == 0 and not ending.err, lambda: f"{what}: {tell(ending)}"):
        scripts.check_answers(tally, what, lines, ending.out, disks, commands)
    tally.counts["last runs"] += 1
    return tally


def judge(rig, tally, what, lines, more, disks, decided):
    """The folders behind a kill."""
    scripts.check_disks(tally, what, lines, disks, decided)
    found = scripts.acknowledged(more, scripts.requests_in(disks))
    scripts.check_acknowledged(tally, what, found, disks)
    tally.counts["kills behind an acknowledgement"] += any(found.values())
    for node, disk in enumerate(disks):
        path = rig.path(f"nodes/{node}")
        if not all(os.path.exists(f"{path}/{name}") for name in ("a0", "a1")):
            tally.counts["folders not made yet"] += 1
            continue
        ending = rig.run("show", path)
        tally.check(ending[:2] == (0, disk.text()), lambda: f"{what}: {tell(ending)}; wanted {disk.text()}")


def seconds_of_a_run(rig, nodes):
    """How long a run takes now."""
    folder = rig.path("timed")
    shutil.rmtree(folder, ignore_errors=True)
    script = rig.write("timed-script", scripts.text_of(scripts.draw(random.Random(1), nodes, 12)))
    begun = time.monotonic()
    rig.run("run", "--nodes", str(nodes), "--dir", folder, "--script", script, limit=LONG)
    return time.monotonic() - begun


def killed(rig, words, seconds):
    """Kills a run after so many seconds. Its status, which is the signal's where it hadn't ended."""
    none = os.open("/dev/null", os.O_RDWR)
    actions = [(os.POSIX_SPAWN_DUP2, none, to) for to in (0, 1, 2)]
    child = os.posix_spawn(rig.rr, [rig.rr, *words], {}, file_actions=actions)
    os.close(none)
    time.sleep(min(seconds, LONG))
    os.kill(child, signal.SIGKILL)
    return os.waitstatus_to_exitcode(os.waitpid(child, 0)[1])
