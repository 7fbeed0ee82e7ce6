"""`rr verify` and `rr export` over the folders that `rr run` left, and the export run over empty folders of another number of nodes.

What both print is held against the folders as reading.py reads them by docs/FORMATS.md, and against registry.py. The names of the
new cluster, as `rr shell` lists them, are those of the old one. Then a value of a decided command is altered in one folder, two
folders are swapped, one is emptied or one is removed: each time `rr verify` ends with 4, and no byte of any folder has changed.
Over an altered folder `rr run` and `rr shell` serve nobody: they end with 5, and name the folder. Where its mark doesn't say how far it
came, they end with 4 too, and name `rr verify`.
"""
import os
import random
import re
import shutil
import subprocess

import registry
import scripts
from harness import LONG, Tally, tell

RUNS = 30
# How many nodes the old cluster has, and how many the new one.
SIZES = ((3, 7), (7, 3), (3, 5), (7, 1), (5, 7))
LIFE = 1048576


def tasks(options):
    return list(range(options.seed, options.seed + (2 if options.short else RUNS)))


def work(rig, options, seed):
    tally, rng = Tally(), random.Random(seed)
    old, new = SIZES[(seed - options.seed) % len(SIZES)]
    folder, other = rig.path("nodes"), rig.path("others")
    for path in (folder, other):
        shutil.rmtree(path, ignore_errors=True)
    what = f"seed {seed}, {old} nodes, then {new}"
    script = rig.write("script", scripts.text_of(scripts.draw(rng, old, rng.randint(20, 60))))
    ran = rig.run("run", "--nodes", str(old), "--dir", folder, "--script", script, limit=LONG)
    if not tally.check(ran.status == 0, lambda: f"{what}: {tell(ran)}"):
        return tally
    longest = check_folders(rig, tally, what, folder, old)
    check_export(rig, tally, what, (folder, old), (other, new), longest)
    check_faults(rig, tally, what, rng, folder, old)
    tally.counts["clusters"] += 1
    tally.counts["commands"] += len(longest)
    return tally


def line_of(place, disk):
    """What is to be said of a folder that is as it should be."""
    node, nodes = disk.owner
    decided = len(disk.prefix())
    return f"folder place {place} node {node} nodes {nodes} facts {disk.next} decided {decided} left {LIFE - decided} version 2"


def check_folders(rig, tally, what, folder, nodes):
    """The folders agree, and are told so; answers the longest of their lists."""
    disks = scripts.disks_of(folder, nodes)
    wanted = "".join(f"{line}\n" for line in [*map(line_of, range(nodes), disks), "agree"]).encode()
    verified = rig.run("verify", folder)
    tally.check(verified == (0, wanted, b""), lambda: f"{what}: {tell(verified)}; wanted {wanted}")
    return max((disk.prefix() for disk in disks), key=len)


def check_export(rig, tally, what, old, new, longest):
    """The list and the claims are those of the longest list, and the claims make the same names of a new cluster."""
    (folder, nodes), (other, more) = old, new
    listed = rig.run("export", "--list", folder)
    words = [f"decided {len(longest)}", *(f"{at} {request} {' '.join(op)}" for at, (request, op) in enumerate(longest))]
    tally.check(listed == (0, scripts.text_of(words), b""), lambda: f"{what}: {tell(listed)}; wanted {words}")
    exported = rig.run("export", folder)
    wanted = scripts.text_of(claims_of(registry.after(longest)))
    tally.check(exported == (0, wanted, b""), lambda: f"{what}: {tell(exported)}; wanted {wanted}")
    ran = rig.run("run", "--nodes", str(more), "--dir", other, "--script", rig.write("claims", exported.out), limit=LONG)
    replies = [line.split(" ")[-1] for line in ran.out.decode().splitlines()]
    tally.check(ran.status == 0 and replies == ["claimed"] * exported.out.count(b"\n"), lambda: f"{what}: {tell(ran)}")
    again = rig.run("export", other)
    tally.check(again == exported, lambda: f"{what}: {tell(again)}; wanted {tell(exported)}")
    names, others = names_in(rig, folder, nodes), names_in(rig, other, more)
    held = sorted(registry.after(longest).bound.items())
    told = [f"{name} bound {owner} {value}".rstrip() for name, (owner, value) in held]
    tally.check(names == [f"list {len(told)}", *told], lambda: f"{what}: the old cluster lists {names}; wanted {told}")
    tally.check(others == names, lambda: f"{what}: the new cluster lists {others}, the old one {names}")
    tally.counts["names"] += len(told)


def claims_of(held):
    """A claim of each bound name, in byte order, whose owners count their requests from 1."""
    lines, counts = [], {}
    for name, (owner, value) in sorted(held.bound.items()):
        counts[owner] = counts.get(owner, 0) + 1
        lines.append(f"submit 0 {owner} {counts[owner]} claim {name} {value}".rstrip())
    return lines


def names_in(rig, folder, nodes):
    """What `rr shell` lists over a copy of these folders, at the node with the longest list."""
    copy = f"{folder}-listed"
    shutil.rmtree(copy, ignore_errors=True)
    shutil.copytree(folder, copy)
    lengths = [len(disk.prefix()) for disk in scripts.disks_of(folder, nodes)]
    asked = f"at {lengths.index(max(lengths))}\nlist\nquit\n".encode()
    words = [rig.rr, "shell", "--nodes", str(nodes), "--dir", copy]
    ran = subprocess.run(words, input=asked, stdout=subprocess.PIPE, stderr=subprocess.DEVNULL, env={}, timeout=LONG, check=False)
    return ran.stdout.decode().splitlines()[1:]


def check_faults(rig, tally, what, rng, folder, nodes):
    """Each fault is found, and nothing is changed."""
    for fault in (alter, swap, empty, lose):
        copy = rig.path("faulty")
        shutil.rmtree(copy, ignore_errors=True)
        shutil.copytree(folder, copy)
        said = fault(rng, copy, nodes)
        if not said:
            continue
        before = bytes_in(copy)
        ran = rig.run("verify", copy)
        lines = ran.out.decode("ascii", "replace").splitlines()
        holds = ran.status == 4 and lines[-1:] == ["disagree"] and any(line.startswith(said) for line in lines)
        tally.check(holds, lambda: f"{what}: {fault.__name__}: {tell(ran)}; wanted a line {said}")
        tally.check(bytes_in(copy) == before, f"{what}: {fault.__name__}: verify changed the folders")
        tally.counts[f"folders with a fault: {fault.__name__}"] += 1
        if fault is alter:
            check_unserved(rig, tally, what, copy, nodes)


def check_unserved(rig, tally, what, folder, nodes):
    """Nobody is served over a folder that isn't as its mark says, or over folders that decide an instance differently."""
    look = rig.write("look", b"look 0 a\n")
    asked = [("run", "--script", look), ("shell", "-c", "look a")]
    differs = f"{folder}: its folders decide an instance differently: see rr verify {folder}\n"
    altered = re.escape(folder) + r"/\d: the newest area of its disk has other bytes than its file node says, .*\n"
    for status, first, said in ((5, b"rr: 2 Device\n", altered), (4, b"rr: 3 Damaged 0 0\n", re.escape(differs))):
        for words in asked:
            ran = rig.run(words[0], "--nodes", str(nodes), "--dir", folder, *words[1:], limit=LONG)
            holds = ran == (status, b"", first) and re.fullmatch(said, rig.why.decode())
            tally.check(holds, lambda: f"{what}: {words[0]} over an altered folder: {tell(ran)}, {rig.why!r}")
        if os.path.exists(f"{folder}/marks"):
            os.remove(f"{folder}/marks")
        for node in range(nodes):
            # (a mark of before, which says whose folder it is and nothing else)
            *_, place = whole = scripts.bytes_of(f"{folder}/{node}/node").split()
            with open(f"{folder}/{node}/node", "wb") as file:
                file.write(b" ".join([b"node-1", *whole[1:3], place]) + b"\n")


def bytes_in(folder):
    return {path: scripts.bytes_of(path) for path in (f"{at}/{name}" for at, _, names in os.walk(folder) for name in names)}


def alter(rng, folder, nodes):
    """Alters a name or value of a command that two folders have decided, in one of them, everywhere."""
    disks = scripts.disks_of(folder, nodes)
    place = rng.randrange(nodes)
    shared = set.intersection(*(set(disk.decided) for disk in disks))
    if not shared:
        return None
    instance = min(shared)
    name = disks[place].decided[instance][1][1].encode()
    for area in (0, 1):
        path = f"{folder}/{place}/a{area}"
        data = scripts.bytes_of(path)
        with open(path, "wb") as file:
            file.write(data.replace(bytes([len(name)]) + name, bytes([len(name)]) + b"z" * len(name)))
    changed = scripts.disks_of(folder, nodes)[place].decided[instance]
    return f"differ instance {instance} " if changed != disks[place].decided[instance] else None


def swap(rng, folder, nodes):
    one, other = rng.sample(range(nodes), 2)
    os.rename(f"{folder}/{one}", f"{folder}/away")
    os.rename(f"{folder}/{other}", f"{folder}/{one}")
    os.rename(f"{folder}/away", f"{folder}/{other}")
    return f"folder place {one} node {other} "


def empty(rng, folder, nodes):
    place = rng.randrange(nodes)
    for area in (0, 1):
        os.truncate(f"{folder}/{place}/a{area}", 0)
    return f"blank place {place}"


def lose(rng, folder, nodes):
    place = rng.randrange(nodes)
    shutil.rmtree(f"{folder}/{place}")
    return f"refused place {place} refusal Device"
