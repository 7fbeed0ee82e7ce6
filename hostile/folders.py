"""The locks of folders, files that aren't plain, and names with control bytes.

While a shell runs a cluster, `rr migrate`, `rr verify`, `rr export` and `rr show` are refused in the shell's own words, nothing that it
acknowledged is lost, and two readers don't keep each other off. What isn't a plain file is refused by name and never opened: not a pipe, which
waits for ever, nor a link to a device without an end, nor one to a stranger's file. Files for a moment follow no link, and replace no file of
anybody's. No control byte of a name or of a report comes to the terminal.
"""
import fcntl
import os
import resource
import shutil
import signal
import socket
import subprocess
import threading

from harness import LIMIT, Lines, Tally, split_new

CLAIMS, SHORT_CLAIMS = 2000, 200
IN_USE = b"another program has locked it"
PLAIN = b"not a plain file"
# What a process may take: a file without an end is read until then.
MEMORY = 2 << 30
AREAS = ("0/a0", "0/a1")
FILES = (*AREAS, "0/node", "cluster", "marks", "requests")
KINDS = ("pipe", "device", "link", "dangling", "folder", "socket")
READERS = (("verify", "."), ("export", "."), ("show", "0"))
MIGRATE = ("migrate", "0", "--node", "0", "--nodes", "1")
STRANGER = b"a stranger's file\n"
ESCAPE = "\x1b[31m\x07\x7f"


def tasks(options):
    kinds = KINDS[:3] if options.short else KINDS
    parts = [("plain", kind, name) for kind in kinds for name in FILES] + [("places", kind) for kind in KINDS[:2]]
    claims = SHORT_CLAIMS if options.short else CLAIMS
    return [("migrate", claims), ("readers", claims), ("locks",), ("moment",), ("names",), *parts]


def work(rig, options, task):
    tally = Tally()
    folder = Folder(rig, tally, rig.path("folders"))
    try:
        getattr(folder, task[0])(*task[1:])
    finally:
        folder.close()
    return tally


def is_clean(text):
    """Whether a text has no control byte but line feeds."""
    return all(byte == 10 or 32 <= byte != 127 for byte in text)


class Folder:
    """A cluster of one node in a folder, where rr runs."""

    def __init__(self, rig, tally, path):
        self.rig, self.tally, self.path, self.children = rig, tally, path, []
        self.begin_anew()

    def begin_anew(self):
        shutil.rmtree(self.path, ignore_errors=True)
        os.mkdir(self.path)
        got = self.shell("claim kept x")
        self.check(got[:2] == (0, b"claimed\n"), f"no cluster begins: {got}")

    def close(self):
        for child in self.children:
            child.kill()
            child.wait()

    def check(self, holds, failure):
        return self.tally.check(holds, failure)

    def at(self, name):
        return os.path.join(self.path, name)

    def run(self, *words, limit=LIMIT, program=None, **options):
        """What rr ends with by these words, in the folder: its status, none where it hangs, and what it prints."""
        words = ["sh", "-c", f'ulimit -v {MEMORY >> 10}; exec "$@"', "sh", program or self.rig.rr, *words]
        try:
            ran = subprocess.run(words, cwd=self.path, stdin=subprocess.DEVNULL, capture_output=True, timeout=limit, env={}, check=False, **options)
        except subprocess.TimeoutExpired:
            return None, b"", b""
        return ran.returncode, ran.stdout, split_new(ran.stderr)[0]

    def shell(self, *lines, **options):
        return self.run("shell", "--dir", ".", "--nodes", "1", *(word for line in lines for word in ("-c", line)), **options)

    def asking(self):
        """A shell that runs, and the lines that it answers."""
        words = [self.rig.rr, "shell", "--dir", ".", "--nodes", "1"]
        child = subprocess.Popen(words, cwd=self.path, stdin=subprocess.PIPE, stdout=subprocess.PIPE, stderr=subprocess.DEVNULL, env={}, bufsize=0)
        self.children.append(child)
        lines = Lines(child.stdout)
        child.stdin.write(b"look kept\n")
        self.check(lines.next(LIMIT) == "kept bound 0 x", "a shell doesn't run")
        return child, lines

    # ---- locks

    def beside(self, claims, commands):
        """Claims names one behind the other, and runs commands beside that. Gives what was acknowledged, and how the commands ended."""
        child, lines = self.asking()
        claimed, ends, is_over = 0, [], threading.Event()

        def again(words):
            while not is_over.is_set():
                ends.append((words[0], *self.run(*words)))

        beside = [threading.Thread(target=again, args=(words,)) for words in commands]
        for it in beside:
            it.start()
        child.stdin.write(b"".join(b"claim n%d x\n" % it for it in range(claims)))
        while claimed < claims and (line := lines.next(LIMIT)) == "claimed":
            claimed += 1
        is_over.set()
        for it in beside:
            it.join()
        self.check(claimed == claims, f"{claimed} of {claims} names were claimed")
        child.stdin.close()
        self.check(child.wait(LIMIT) == 0, "the shell doesn't end well")
        return claimed, ends

    def migrate(self, claims):
        claimed, ends = self.beside(claims, [MIGRATE] * 3)
        self.refused(ends)
        self.none_lost(claimed)
        self.check(self.run(*MIGRATE)[0] == 0, "no migration behind the shell's end")
        self.none_lost(claimed)

    def readers(self, claims):
        claimed, ends = self.beside(claims, READERS)
        self.refused(ends)
        self.none_lost(claimed)
        for words in READERS:
            got = self.run(*words)
            self.check(got[0] == 0 and got[2] == b"", f"{words} behind the shell's end: {got}")

    def refused(self, ends):
        """Each of these is refused as a folder in use is by a shell, and prints nothing."""
        for name, status, out, err in ends:
            lines = err.split(b"\n")
            holds = (status, out, lines[0]) == (5, b"", b"rr: 2 Device") and lines[1].endswith(b": " + IN_USE)
            self.check(holds, f"{name} beside a shell: {status} {out[:80]} {err[:200]}")
        self.tally.counts["commands beside a shell"] += len(ends)

    def none_lost(self, claimed):
        got = self.shell("list")
        there = {line.split(b" ")[0] for line in got[1].splitlines()[1:]}
        lost = sum(b"n%d" % it not in there for it in range(claimed))
        self.check(lost == 0, f"{lost} of {claimed} acknowledged claims are lost")

    def locks(self):
        """Readers go on beside a reader, and nobody beside one who has a lock alone; a folder needn't be writable."""
        for name in (".", "0"):
            self.hold(name, fcntl.LOCK_SH, (0, b""))
            self.hold(name, fcntl.LOCK_EX, None)
        os.mkdir(self.at("alone"))
        for name in ("a0", "a1"):
            shutil.copy(self.at(f"0/{name}"), self.at("alone"))
        os.remove(self.at("cluster"))
        for words in (("show", "alone"), ("migrate", "alone", "--node", "0", "--nodes", "1")):
            self.check(self.run(*words)[0] == 0, f"{words} of a folder alone is refused")
        self.begin_anew()
        for name in ("0", "."):
            os.chmod(self.at(name), 0o555)
        for name in FILES:
            os.chmod(self.at(name), 0o444)
        os.chmod(self.rig.folder, 0o755)
        # Nobody may not look into the folder that the program lies in, so it comes as an open file.
        with open(self.rig.rr, "rb") as program:
            as_nobody = {"user": 65534, "group": 65534, "extra_groups": []} if os.geteuid() == 0 else {}
            as_nobody |= {"program": f"/proc/self/fd/{program.fileno()}", "pass_fds": (program.fileno(),)}
            for words in READERS:
                got = self.run(*words, **as_nobody)
                self.check(got[0] == 0, f"{words} where nothing may be written: {got}")

    def hold(self, name, how, ending):
        """Runs each command while somebody has a lock on a folder."""
        folder = os.open(self.at(name), os.O_RDONLY)
        try:
            fcntl.flock(folder, how)
            for words in READERS:
                got = self.run(*words)
                if ending is None:
                    self.refused([(words[0], *got)])
                else:
                    self.check((got[0], got[2]) == ending, f"{words} beside a reader: {got}")
            self.refused([(words[0], *self.run(*words)) for words in (MIGRATE, ("shell", "--dir", ".", "-c", "look kept"))])
        finally:
            os.close(folder)

    # ---- files that aren't plain

    def put(self, kind, name):
        """Puts something in a file's place."""
        path = self.at(name)
        if os.path.isdir(path):
            shutil.rmtree(path)
        elif os.path.lexists(path):
            os.remove(path)
        if kind == "pipe":
            os.mkfifo(path)
        elif kind == "folder":
            os.mkdir(path)
        elif kind == "socket":
            at = os.getcwd()
            os.chdir(os.path.dirname(path))
            with socket.socket(socket.AF_UNIX) as made:
                made.bind(os.path.basename(path))
            os.chdir(at)
        else:
            os.symlink({"device": "/dev/zero", "link": self.at("stranger"), "dangling": self.at("nowhere")}[kind], path)

    def plain(self, kind, name):
        """Something that is no plain file in place of a file: who would read it refuses it by name."""
        with open(self.at("stranger"), "wb") as file:
            file.write(STRANGER)
        self.put(kind, name)
        self.by_name(self.shell("look kept"), "shell", kind, name)
        if name in AREAS:
            for words in (*READERS, MIGRATE):
                self.by_name(self.run(*words), words[0], kind, name)
        with open(self.at("stranger"), "rb") as file:
            self.check(file.read() == STRANGER, f"{kind} for {name}: a stranger's file was written")
        self.check(not os.path.lexists(self.at("nowhere")), f"{kind} for {name}: a file was made through a link")

    def by_name(self, got, who, kind, name):
        self.tally.counts["files that aren't plain"] += 1
        holds = got[0] in (4, 5) and b"/%s: " % name.rpartition("/")[2].encode() in got[2] and PLAIN in got[2]
        self.check(holds, f"{who} with a {kind} for {name}: {got[0]} {got[2][:200]}")

    def places(self, kind):
        """The same for folders: that of a node, and the cluster's."""
        self.put(kind, "0")
        for words in (("shell", "--dir", ".", "-c", "look kept"), *READERS, MIGRATE):
            got = self.run(*words)
            self.check(got[0] in (4, 5) and b"Not a directory" in got[2], f"{words} with a {kind} for a folder: {got}")
        self.put(kind, "aside")
        for words in (("shell", "--dir", "aside", "-c", "look kept"), ("verify", "aside"), ("export", "aside"), ("show", "aside")):
            got = self.run(*words)
            self.check(got[0] in (4, 5) and b"Not a directory" in got[2], f"{words} with a {kind} for DIR: {got}")

    # ---- files for a moment

    def moment(self):
        """A link in the place of a file for a moment leads nobody to a stranger's file, and one that was left is replaced."""
        for name in ("requests.new", "cluster.new", "0/node.new"):
            for kind in ("link", "dangling", "left", "pipe"):
                self.begin_anew()
                with open(self.at("stranger"), "wb") as file:
                    file.write(STRANGER)
                # all of the cluster's files are written again
                os.remove(self.at("cluster"))
                os.remove(self.at("0/node"))
                if kind == "left":
                    os.link(self.at("stranger"), self.at(name))
                else:
                    self.put(kind, name)
                # (numbers are reserved at the first sync or submit, and a look reserves none)
                got = self.shell("look kept", *(["sync"] if name == "requests.new" else []))
                if kind == "left":
                    wanted = b"kept bound 0 x\n" + (b"synced\n" if name == "requests.new" else b"")
                    self.check(got == (0, wanted, b""), f"{name} was left: {got}")
                else:
                    self.check(got[0] == 5, f"{name} is a {kind}: {got}")
                with open(self.at("stranger"), "rb") as file:
                    self.check(file.read() == STRANGER, f"{name} is a {kind}: a stranger's file was written")
                self.check(not os.path.lexists(self.at("nowhere")), f"{name} is a {kind}: a file was made through a link")
        self.keep_probe()

    def keep_probe(self):
        """A device that fails leaves a file alone that somebody called `probe`."""
        self.begin_anew()
        with open(self.at("0/probe"), "wb") as file:
            file.write(STRANGER)
        most = max(os.path.getsize(self.at(name)) for name in FILES) + 8

        def bound():
            signal.signal(signal.SIGXFSZ, signal.SIG_IGN)
            resource.setrlimit(resource.RLIMIT_FSIZE, (most, most))

        self.shell(*(f"claim m{it} x" for it in range(4)), preexec_fn=bound)
        there = os.path.exists(self.at("0/probe"))
        self.check(there, "a file called `probe` is gone")
        if there:
            with open(self.at("0/probe"), "rb") as file:
                self.check(file.read() == STRANGER, "a file called `probe` was written")
        left = [name for name in os.listdir(self.at("0")) if name not in ("a0", "a1", "node", "probe")]
        self.check(not left, f"files for a moment are left: {left}")

    # ---- names

    def names(self):
        """Control bytes of names and of a report's lines aren't printed as they are."""
        name = f"no{ESCAPE}such"
        for words in (("sim", name), ("draw", name), ("stats", name), ("audit", name), ("sweep", "--seed", "1", name), ("show", name), ("verify", name), ("export", name), (name,),
                      ("migrate", name, "--node", "0", "--nodes", "1"), ("shell", "--dir", f"cluster/{name}", "-c", "look a"), ("shell", "--nodes", name), ("run", "--nodes", "1", "--dir", name, "--script", name)):
            self.shown(words)
        with open(self.at(name), "wb") as file:
            file.write(b"no schedule\n")
        for command in ("sim", "draw", "stats", "audit"):
            self.shown((command, name))
        schedule, report = self.at("schedule"), self.at("report")
        with open(schedule, "wb") as file:
            file.write(b"nodes 1\nrestart 0\n")
        with open(report, "wb") as file:
            file.write(f"a line {ESCAPE}\n".encode())
        got = self.shown(("check", schedule, report))
        self.check(got[0] == 1 and b"a line \\x1b[31m\\x07\\x7f" in got[1], f"a report's line is told so: {got}")

    def shown(self, words):
        got = self.run(*words)
        self.tally.counts["names with control bytes"] += 1
        self.check(got[0] not in (None, 0) and is_clean(got[1]) and is_clean(got[2]), f"{words}: {got}")
        return got
