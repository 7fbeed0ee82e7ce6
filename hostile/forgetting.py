"""A node's disk forgets: an area is emptied, cut or has a flipped bit, behind snapshots, at one node or at a majority of them.

What was acknowledged is the model: names, each with its owner and its value. Behind the harm a cluster is refused, with a line that
names a folder, and nothing is written; or it's served, and each answer is the model's. What is refused `rr verify` doesn't call agreeing.
The same holds of folders that version 1 wrote and that were migrated, and of an older copy of one folder.

Each call on the marks of a shell goes wrong too, or the process is killed at it. The next shell is never locked out, and has what was
acknowledged.
"""
import errno
import os
import shutil
import subprocess

import reading
import scripts
from harness import LONG

OWNER, THIEF = 7, 9
HEAD = 64
# Of how many flipped bits, and of how many places to cut at, one is tried with --short.
FEW_BITS, FEW_CUTS = 37, 3
# Of a shell that claims and writes snapshots: the calls on marks that go wrong.
CALLS = [(kind, how) for kind in ("open", "write", "sync", "rename") for how in ("EIO", "kill", "killed")]
MOST_CALLS = 200
# In place of a number of snapshots: the folders were written by version 1, and migrated.
MIGRATED = "migrated"


def tasks(options):
    sizes = (1, 3) if options.short else (1, 3, 5)
    marks = [("marks", nodes, *it) for nodes in sizes[:2] for it in CALLS]
    kinds = [("forgetting", nodes, snapshots) for nodes in sizes for snapshots in (0, 1, 2, MIGRATED)]
    return kinds + [("older", nodes) for nodes in sizes] + (marks[::5] if options.short else marks)


def work(rig, tally, options, task):
    if task[0] == "forgetting":
        Forgetting(rig, tally, options, *task[1:]).forget()
    elif task[0] == "older":
        Forgetting(rig, tally, options, task[1], 1).put_back_older()
    else:
        Forgetting(rig, tally, options, task[1], 1).break_marks(*task[2:])


class Forgetting:
    """A cluster whose nodes wrote so many snapshots, and a copy of it."""

    def __init__(self, rig, tally, options, nodes, snapshots):
        self.rig, self.tally, self.options, self.nodes, self.snapshots = rig, tally, options, nodes, snapshots
        self.folder, self.kept = rig.path("forgetting"), rig.path("forgetting.kept")
        self.names, lines = [], []
        for part in range(1 if snapshots == MIGRATED else snapshots + 1):
            if part:
                lines += [(f"snapshot {node}", f"snapshot {node}") for node in range(nodes)]
            for node in range(nodes):
                self.names.append(f"n{part}-{node}")
                lines += [(f"at {node}", f"at {node}"), (f"claim n{part}-{node} v{part}", "claimed")]
            # (a sync is a transfer, which version 1 doesn't have)
            lines += [("at 0", "at 0")] if snapshots == MIGRATED else self.syncs()
        for folder in (self.folder, self.kept):
            shutil.rmtree(folder, ignore_errors=True)
        asked = self.shell(self.kept, OWNER, [line for line, _ in lines])
        self.check(asked == (0, "".join(f"{answer}\n" for _, answer in lines).encode(), b""), f"the cluster isn't made: {asked}")
        if snapshots == MIGRATED:
            self.migrate()

    def syncs(self):
        """Lines by which each node has what was decided, so that a majority that forgets would answer by itself."""
        asked = [(f"at {node}", "sync") for node in range(self.nodes)]
        return [pair for at, sync in asked for pair in ((at, at), (sync, "synced"))] + [("at 0", "at 0")]

    def claim(self, name):
        """Claims one more name, which each node knows then."""
        self.names.append(name)
        lines = [(f"claim {name} v{name[1 : name.index('-')]}", "claimed"), *self.syncs()]
        asked = self.shell(self.kept, OWNER, [line for line, _ in lines])
        self.check(asked == (0, "".join(f"{answer}\n" for _, answer in lines).encode(), b""), f"{name} isn't claimed: {asked}")

    def migrate(self):
        """Makes the folders such as version 1 wrote, with marks of before, and has a shell migrate them and claim one more name."""
        os.remove(os.path.join(self.kept, "marks"))
        for node in range(self.nodes):
            for name in ("a0", "a1"):
                path = os.path.join(self.kept, str(node), name)
                area = scripts.bytes_of(path)
                with open(path, "wb") as file:
                    # (the sixth byte of a formatted area is its version)
                    file.write(area[:5] + b"\x01" + area[6:] if area[:1] == b"\xa5" else area)
            path = os.path.join(self.kept, str(node), "node")
            words = scripts.bytes_of(path).split()
            with open(path, "wb") as file:
                file.write(b" ".join([b"node-1", *words[1:3], words[-1]]) + b"\n")
        self.claim("n0-migrated")
        shown = self.rig.run("show", os.path.join(self.kept, "0"))[:2]
        self.check(shown[0] == 0 and shown[1].count(b"version 1") == 1, f"version 1 isn't there behind a migration: {shown}")

    def shell(self, folder, client, lines, env=None):
        words = ["shell", "--nodes", str(self.nodes), "--dir", folder, "--client", str(client)]
        return self.rig.run(*words, *[word for line in lines for word in ("-c", line)], env=env, limit=LONG)[:3]

    def check(self, holds, failure):
        return self.tally.check(holds, lambda: f"{self.nodes} nodes, {self.snapshots} snapshots, {failure}")

    def path(self, node, name):
        return os.path.join(self.folder, str(node), name)

    def put_back(self):
        shutil.rmtree(self.folder, ignore_errors=True)
        shutil.copytree(self.kept, self.folder)

    def forget(self):
        majority = tuple(range(self.nodes // 2 + 1))
        for nodes in sorted({majority, (0,), (self.nodes - 1,)}, key=lambda it: (-len(it), it)):
            for area in (0, 1):
                self.harm_area(nodes, area)
        self.forget_the_cluster()

    def harm_area(self, nodes, area):
        """Cuts an area of these nodes at 0, at 1 and around its gates, and flips each bit of its first bytes."""
        bytes_of = {node: scripts.bytes_of(os.path.join(self.kept, str(node), f"a{area}")) for node in nodes}
        whole = bytes_of[nodes[0]]
        cuts = [it for it in places(whole) if it < len(whole)]
        bits = range(8 * min(HEAD, len(whole)))
        if self.options.short:
            cuts, bits = cuts[:2] + cuts[2::FEW_CUTS], bits[area :: FEW_BITS]
        if len(nodes) == 1 < self.nodes:
            cuts, bits = cuts[:2] + cuts[2 :: 4 * FEW_CUTS], bits[::FEW_BITS]
        for cut in cuts:
            self.harmed(f"a{area} of {nodes} cut at {cut}", nodes, area, {node: bytes_of[node][:cut] for node in nodes})
        for bit in bits:
            flipped = {}
            for node in nodes:
                found = bytearray(bytes_of[node])
                if bit // 8 < len(found):
                    found[bit // 8] ^= 1 << bit % 8
                flipped[node] = bytes(found)
            self.harmed(f"a{area} of {nodes} with bit {bit} flipped", nodes, area, flipped)

    def harmed(self, what, nodes, area, left):
        """Behind this harm the cluster is refused, or its answers are right."""
        self.put_back()
        for node in nodes:
            with open(self.path(node, f"a{area}"), "wb") as file:
                file.write(left[node])
        self.told_or_right(what, nodes)

    def told_or_right(self, what, nodes):
        before = held(self.folder)
        verified = self.rig.run("verify", self.folder)[:2]
        lines = [f"at {nodes[0]}"] + [f"{word} {name}" for name in self.names for word in ("claim", "look")]
        status, out, err = self.shell(self.folder, THIEF, lines)
        self.tally.counts["disks that forget"] += 1
        if status in (4, 5):
            named = any(self.rig.why.startswith(os.path.join(self.folder, str(node)).encode() + b":") for node in nodes)
            self.check(named and out == b"", f"{what}: status {status}, {out!r}, {err!r}, {self.rig.why!r}")
            # (an opening that finds damage comes behind the request numbers)
            requests = os.path.join(self.folder, "requests") if status == 4 else None
            left, before = ({path: it for path, it in all.items() if path != requests} for all in (held(self.folder), before))
            self.check(left == before, f"{what}: something was written or made")
            self.check(verified[0] == 4 and verified[1].endswith(b"\ndisagree\n"), f"{what}: it's refused, and verified with {verified}")
            self.tally.counts["disks that forget, told"] += 1
        else:
            wanted = [f"at {nodes[0]}"]
            for name in self.names:
                wanted += [f"taken {OWNER}", f"{name} bound {OWNER} v{name[1 : name.index('-')]}"]
            self.check((status, out) == (0, "".join(f"{it}\n" for it in wanted).encode()), f"{what}: status {status}, {out!r}, {err!r}")

    def put_back_older(self):
        """An older copy of one folder is told: one with older marks than the last start found, or the last end left. One of all isn't."""
        early = self.rig.path("forgetting.early")
        shutil.rmtree(early, ignore_errors=True)
        shutil.copytree(self.kept, early)
        self.claim("n1-later")
        for node in range(self.nodes):
            self.put_back()
            self.outdate(node, early, "behind an end")
            self.put_back()
            # the second start finds what each node wrote in the first one and puts the marks, and the third one notes these
            for lines in ([("claim k-1 z", "claimed"), *self.syncs()], *([("look k-1", "k-1 bound 7 z")],) * 2):
                self.kill_behind(lines)
            self.outdate(node, self.kept, "behind a kill")
        shutil.rmtree(self.folder)
        shutil.copytree(early, self.folder)
        asked = self.shell(self.folder, OWNER, [f"look {self.names[0]}", f"look {self.names[-1]}"])
        self.check(asked == (0, f"{self.names[0]} bound {OWNER} v0\n{self.names[-1]} free\n".encode(), b""), f"an older copy of all: {asked}")

    def outdate(self, node, older, when):
        """Puts an older copy of a node's folder back: it's refused as that, and verified so."""
        what = f"an older copy of node {node} {when}"
        shutil.rmtree(self.path(node, ""))
        shutil.copytree(os.path.join(older, str(node)), self.path(node, ""))
        before = held(self.folder)
        verified = self.rig.run("verify", self.folder)[:2]
        self.check(verified[0] == 4 and verified[1].endswith(b"\ndisagree\n"), f"{what}: verified with {verified}")
        status, out, err = self.shell(self.folder, THIEF, [f"look {self.names[0]}"])
        named = self.rig.why.startswith(self.path(node, "").rstrip("/").encode() + b": it is an older copy")
        self.check((status, out) == (5, b"") and named, f"{what}: status {status}, {out!r}, {err!r}, {self.rig.why!r}")
        self.check(held(self.folder) == before, f"{what}: something was written or made")
        self.tally.counts["older copies of a folder"] += 1

    def kill_behind(self, lines):
        """Kills a shell behind the answers to lines."""
        words = [self.rig.rr, "shell", "--nodes", str(self.nodes), "--dir", self.folder, "--client", str(OWNER)]
        with subprocess.Popen(words, stdin=subprocess.PIPE, stdout=subprocess.PIPE, stderr=subprocess.DEVNULL, env={}) as child:
            child.stdin.write("".join(f"{line}\n" for line, _ in lines).encode())
            child.stdin.flush()
            got = [child.stdout.readline() for _ in lines]
            child.kill()
        self.check(got == [f"{answer}\n".encode() for _, answer in lines], f"{lines} are answered {got}")

    def break_marks(self, kind, how):
        """Each call on the marks goes wrong in a shell that claims and writes snapshots. The next one has what was acknowledged."""
        lines = [line for part in range(3) for line in (f"claim m{part} w", "snapshot 0", f"claim k{part} w")]
        count = self.rig.path("marks.count")
        for number in range(1, MOST_CALLS):
            self.put_back()
            what = f"{kind} {number} of the marks by {how}"
            if os.path.exists(count):
                os.remove(count)
            env = {"LD_PRELOAD": self.options.preload_calls, "FAIL_CALL": kind, "FAIL_PATH": "/node", "FAIL_NTH": str(number)}
            env.update(FAIL_HOW=str(getattr(errno, how, how)), COUNT_CALLS=count)
            status, out, err = self.shell(self.folder, OWNER, lines, env)
            if status != -9 and int(scripts.bytes_of(count) or 0) < number:
                self.check(status == 0, f"{what}: status {status}, {err!r}")
                break
            self.check(status in ((-9,) if how != "EIO" else (0, 5)), f"{what}: status {status}, {out!r}, {err!r}, {self.rig.why!r}")
            self.tally.counts[f"{kind} of the marks by {how}"] += 1
            told = list(zip(lines, out.decode().splitlines()))
            claimed = [line.split()[1] for line, answer in told if answer == "claimed"]
            looks = [f"look {name}" for name in claimed + self.names]
            again = self.shell(self.folder, THIEF, looks)
            wanted = [f"{name} bound {OWNER} w" for name in claimed] + [f"{it} bound {OWNER} v{it[1 : it.index('-')]}" for it in self.names]
            self.check(again == (0, "".join(f"{it}\n" for it in wanted).encode(), b""), f"{what}, again: {again}, {self.rig.why!r}")

    def forget_the_cluster(self):
        """No cluster begins over the marks of another: its file is gone, and all areas are emptied or gone."""
        for how in ("emptied", "gone"):
            for marked in ({*range(self.nodes)}, {self.nodes - 1}):
                self.put_back()
                os.remove(os.path.join(self.folder, "cluster"))
                for node in range(self.nodes):
                    for name in ("a0", "a1"):
                        os.truncate(self.path(node, name), 0) if how == "emptied" else os.remove(self.path(node, name))
                    if node not in marked:
                        os.remove(self.path(node, "node"))
                self.told_or_right(f"no cluster's file, areas {how}, marks at {sorted(marked)}", range(self.nodes))


def places(area):
    """Where an area is cut: at 0, at 1, and around each of its gates, as docs/FORMATS.md has frames."""
    found, at = {0, 1}, 0
    for payload in reading.frames(area):
        found |= {at, at + 1, at + 2}
        at += 5 + len(payload)
        found |= {at - 1, at}
    return sorted(found)


def held(folder):
    """The files and folders in a folder, with their bytes."""
    found = {}
    for root, _, names in os.walk(folder):
        found[root] = None
        found.update({os.path.join(root, it): scripts.bytes_of(os.path.join(root, it)) for it in names})
    return found
