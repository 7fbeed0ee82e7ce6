"""The folders of a cluster are lost, blank, cut, forgetful, swapped or another cluster's, and other numbers of nodes are asked for; each
call on the cluster's files goes wrong, the process is killed at it, and the power is cut.

A cluster is refused with a line that names the folder, and nothing is written or made; with the folder back it goes on. A
cluster whose folders are sound is never locked out: not by a torn or missing file of the cluster, and not by a start that
was cut short. A node that may have answered is never taken for a fresh one: what was claimed once is never claimed again.
"""
import errno
import os
import re
import shutil

import forgetting
import scripts
from forgetting import held
from harness import LONG, Tally

MOST_NODES = 7
CUTS = (0, 1, 2, 5, 20, 28)
# Of a start: what it begins with, and the calls of it that go wrong.
STARTS = ("fresh", "before", "forming")
SHORT = 3
ERRORS = {"EIO": errno.EIO, "ENOSPC": errno.ENOSPC, "EINTR": errno.EINTR}
HOWS = {"open": ("EIO", "EINTR"), "read": ("EIO", "EINTR", "short"), "write": ("EIO", "ENOSPC", "EINTR", "short", "torn", "kill", "killed"), "sync": ("EIO", "kill", "killed")}
# A process that is killed before a rename leaves what a power cut leaves that undoes it, and one killed behind it what it leaves else.
HOWS.update({"rename": ("EIO", "kill", "killed"), "mkdir": ("EIO", "ENOSPC", "kill", "killed"), "lock": ("EIO", "kill", "killed")})
HARMLESS = ("EINTR", "short")
KILLS = ("kill", "killed")
MOST_CALLS = 400
ADVICE = rb"put the folder back"


def tasks(options):
    every = [("calls", start, kind, how) for start in STARTS for kind, hows in HOWS.items() for how in hows]
    if options.short:
        return [("folders", SHORT), ("files", SHORT)] + forgetting.tasks(options) + [it for it in every if it[1] == "fresh" and it[3] in ("ENOSPC", "torn", "killed")]
    return [(part, nodes) for part in ("folders", "files") for nodes in range(1, MOST_NODES + 1)] + forgetting.tasks(options) + every


def work(rig, options, task):
    tally = Tally()
    if task[0] in ("forgetting", "older", "marks"):
        forgetting.work(rig, tally, options, task)
        return tally
    made = Cluster(rig, tally, 2 if task[0] == "calls" else task[1])
    if task[0] == "folders":
        made.lose_folders()
        made.ask_other_numbers()
    elif task[0] == "files":
        made.tear_files()
        made.forget_files()
    else:
        made.break_calls(options, *task[1:])
    return tally


class Cluster:
    """A cluster in a folder, a copy of it, and another one of the same size."""

    def __init__(self, rig, tally, nodes):
        self.rig, self.tally, self.nodes = rig, tally, nodes
        self.folder, self.kept, self.other = (rig.path(name) for name in ("cluster", "kept", "other"))
        claims = [f"submit {node} 7 {node + 1} claim n{node} x" for node in range(nodes)]
        self.script = rig.write("claims", scripts.text_of(claims))
        self.thief = rig.write("thief", scripts.text_of([f"submit {nodes - 1} 9 1 claim n0 thief"]))
        self.look = rig.write("look", b"look 0 n0\n")
        self.answers = "".join(f"ack {node} 7.{node + 1} claimed\n" for node in range(nodes)).encode()
        self.begin_anew()

    def begin_anew(self):
        for folder in (self.kept, self.other, self.folder):
            shutil.rmtree(folder, ignore_errors=True)
            if folder != self.folder:
                self.check(self.run(folder) == (0, self.answers, b""), f"{folder}: it doesn't begin")
        self.put_back()

    def put_back(self):
        shutil.rmtree(self.folder, ignore_errors=True)
        shutil.copytree(self.kept, self.folder)

    def run(self, folder=None, nodes=None, script=None, env=None):
        words = ["run", "--nodes", str(nodes or self.nodes), "--dir", folder or self.folder, "--script", script or self.script]
        return self.rig.run(*words, env=env, limit=LONG)[:3]

    def check(self, holds, failure):
        return self.tally.check(holds, lambda: f"{self.nodes} nodes, {failure}")

    def path(self, node, name=""):
        return os.path.join(self.folder, str(node), name)

    def lose_folders(self):
        for node in range(self.nodes):
            self.refused(f"node {node} lost", node, lambda: shutil.rmtree(self.path(node)))
            self.refused(f"node {node} without areas", node, lambda: [os.remove(self.path(node, it)) for it in ("a0", "a1")])
            self.refused(f"node {node} emptied", node, lambda: [os.remove(self.path(node, it)) for it in os.listdir(self.path(node))])
            self.refused(f"node {node} without a1", node, lambda: os.remove(self.path(node, "a1")))
            self.refused(f"node {node} of another cluster", node, lambda: self.exchange(node), rb"another cluster")
            self.refused(f"node {node} unmarked", node, lambda: os.remove(self.path(node, "node")), rb"marked")
            for cut in CUTS:
                damaged = cut > 1
                words = rb"is damaged at byte 0" if damaged else ADVICE
                self.refused(f"node {node} cut at {cut}", node, lambda: os.truncate(self.path(node, "a0"), cut), words, damaged)
            if self.nodes > 1:
                other = (node + 1) % self.nodes
                self.refused(f"nodes {node} and {other} swapped", min(node, other), lambda: self.swap(node, other), rb"the folder of node %d" % max(node, other), None)

    def exchange(self, node):
        shutil.rmtree(self.path(node))
        shutil.copytree(os.path.join(self.other, str(node)), self.path(node))

    def swap(self, node, other):
        os.rename(self.path(node), self.path("aside"))
        os.rename(self.path(other), self.path(node))
        os.rename(self.path("aside"), self.path(other))

    def refused(self, what, node, harm, words=ADVICE, damaged=False):
        """Behind this harm the cluster is refused for this node's folder, and nothing changes; with all back it goes on."""
        self.put_back()
        harm()
        self.is_refused(what, self.path(node).rstrip("/").encode(), words, damaged)
        self.put_back()
        self.check(self.run() == (0, self.answers, b""), f"{what}, put back: {self.rig.printed(self.rig.err)}")

    def is_refused(self, what, name, words, damaged, nodes=None):
        before = held(self.folder)
        for script in (self.look,) if nodes else (self.script, self.thief):
            status, out, err = self.run(nodes=nodes, script=script)
            first = (b"rr: 3 Damaged 0 0\n", 4) if damaged else (b"rr: 2 Device\n", 5)
            if damaged is None:
                first = (err, 4 if err.startswith(b"rr: 3 ") else 5)
            self.tally.counts["folders refused"] += 1
            holds = (err, status, out) == (*first, b"") and self.rig.why.startswith(name + b":") and words in self.rig.why
            self.check(holds, f"{what}: status {status}, {out!r}, {err!r}, {self.rig.why!r}")
        self.check(held(self.folder) == before, f"{what}: something was written or made")

    def ask_other_numbers(self):
        for nodes in range(1, MOST_NODES + 1):
            if nodes != self.nodes:
                self.put_back()
                self.is_refused(f"{nodes} nodes asked for", self.folder.encode(), b"ask for --nodes %d" % self.nodes, True, nodes)

    def tear_files(self):
        """A cluster's file with any end, any byte or none at all never locks a sound cluster out."""
        text = scripts.bytes_of(os.path.join(self.kept, "cluster"))
        torn = [text[:at] for at in range(len(text))] + [text[:at] + bytes([0]) + text[at + 1 :] for at in range(len(text))] + [text + b"\n"]
        for bytes_left in torn[:: 1 if self.nodes == SHORT else 7]:
            self.put_back()
            self.rig.write("cluster/cluster", bytes_left)
            self.rig.write("cluster/cluster.new", bytes_left[:3])
            self.check(self.run() == (0, self.answers, b""), f"the cluster's file {bytes_left!r}: {self.rig.printed(self.rig.err)}")
            # It is written anew, and names the folders' cluster.
            self.check(scripts.bytes_of(os.path.join(self.folder, "cluster")) == text, f"the cluster's file {bytes_left!r} isn't mended")
            self.tally.counts["torn files"] += 1

    def forget_files(self):
        """A cluster of before, which has no file and no marks, is taken on; not where a folder is blank beside one that isn't."""
        self.old()
        self.check(self.run() == (0, self.answers, b""), f"taken on: {self.rig.printed(self.rig.err)}")
        self.check(self.run(script=self.thief)[1] == b"ack %d 9.1 taken 7\n" % (self.nodes - 1), "taken on: it forgot a claim")
        for node in range(self.nodes if self.nodes > 1 else 0):
            self.old()
            shutil.rmtree(self.path(node))
            self.is_refused(f"without a file, node {node} lost", self.path(node).rstrip("/").encode(), ADVICE, False)
        self.tally.counts["taken on"] += 1

    def old(self):
        self.put_back()
        for name in ("cluster", "marks"):
            os.remove(os.path.join(self.folder, name))
        for node in range(self.nodes):
            os.remove(self.path(node, "node"))

    def forming(self):
        """A first start that was cut short behind some folders."""
        shutil.rmtree(self.folder, ignore_errors=True)
        words = scripts.bytes_of(os.path.join(self.kept, "cluster")).split()
        self.rig.write("cluster/cluster", b" ".join(words[:-1]) + b" -\n")
        self.rig.write("cluster/0/a0", b"\0\0\0")

    def start(self, kind):
        if kind == "fresh":
            shutil.rmtree(self.folder, ignore_errors=True)
        elif kind == "before":
            self.old()
        else:
            self.forming()

    def break_calls(self, options, start, kind, how):
        """Each call of a start on the cluster's folder goes wrong, and the next start goes on."""
        for number in range(1, MOST_CALLS):
            self.start(start)
            before = held(self.folder)
            what = f"{start}, {kind} {number} by {how}"
            env = {"LD_PRELOAD": options.preload_calls, "FAIL_CALL": kind, "FAIL_PATH": self.folder, "FAIL_NTH": str(number)}
            env.update(FAIL_HOW=str(ERRORS.get(how, how)), COUNT_CALLS=self.rig.path("count"))
            if os.path.exists(self.rig.path("count")):
                os.remove(self.rig.path("count"))
            status, out, err = self.run(env=env)
            reached = status == -9 or int(scripts.bytes_of(self.rig.path("count")) or 0) >= number
            if not reached:
                self.check((status, out) == (0, self.answers), f"{what}: status {status}, {err!r}")
                break
            self.tally.counts[f"{kind} by {how}"] += 1
            self.judge(what, start, how, before, status, out, err)

    def judge(self, what, start, how, before, status, out, err):
        """How a start with a call that went wrong ends, and what it leaves."""
        if how in KILLS:
            self.check(status == -9, f"{what}: status {status}, {err!r}")
        elif status:
            named = re.match(rb"[^\n]+: [^\n]+\n", self.rig.why)
            self.check(how not in HARMLESS and (status, err, out) == (5, b"rr: 2 Device\n", b"") and named, f"{what}: status {status}, {err!r}, {self.rig.why!r}")
            # Either all that was made is gone again, or the cluster's file says that its nodes were formatted, or a start that had
            # begun before it goes on, as a rename that failed may have been made. No file stays that was to be renamed.
            left = held(self.folder)
            is_sound = set(left) == set(before) or is_formed(left) or start == "forming"
            self.check(is_sound and not any(path.endswith(".new") for path in left), f"{what}: it leaves {sorted(left)}")
        else:
            self.check(out == self.answers, f"{what}: {out!r}")
        # What was not synced is torn by a power cut: the files that aren't in place yet.
        for root, _, names in os.walk(self.folder):
            for name in names:
                if name.endswith(".new"):
                    os.truncate(os.path.join(root, name), os.path.getsize(os.path.join(root, name)) // 2)
        again = self.run()
        self.check(again == (0, self.answers, b""), f"{what}, again: {again}, {self.rig.why!r}")
        thief = self.run(script=self.thief)
        self.check(thief[1] == b"ack %d 9.1 taken 7\n" % (self.nodes - 1), f"{what}: a claim is forgotten, {thief}")


def is_formed(found):
    """Whether the cluster's file says that nodes have been formatted."""
    return any(path.endswith("/cluster") and text and not text.endswith(b" -\n") for path, text in found.items())
