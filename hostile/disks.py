"""A disk of two files makes its calls of the system, and each of them fails in turn, by strace.

The program `disk_calls` makes the device calls that its words name. `Expected` says what these rules ask of the files: a
write stands where it is told; a sync reaches each file in which something was written since its last one, and no other;
the first sync behind an opening, and each behind one that failed, reads both files and writes back what the reads gave;
nothing is truncated, and nothing made that isn't asked for. strace tells what was asked of them.
"""
import os
import re
import shutil

from harness import Tally, tell

FILES = ("a0", "a1")
SCRIPTS = (("a0", "s", "s", "a1", "s", "s"), ("a0", "a1", "s", "a0", "a0", "s", "r0", "r1"), ("s", "r0", "s"), ("a1", "s", "a0", "a1", "s", "s"))
BEHIND = ("s", "a0", "s", "s")
SHORT = 2
TRACED = "openat,creat,truncate,ftruncate,unlink,mkdir,rename,read,pread64,write,pwrite64,fsync,fdatasync"
# How a read and a write of a file at an offset are called.
CALLED = {"read": "pread64", "write": "pwrite64"}
UNTOLD = {"O_CLOEXEC", "O_NOCTTY"}
LINE = re.compile(r"^\d+ +(\w+)\((.*)\) += (-?\d+)(.*)$")


class Expected:
    """What is asked of two files that have these bytes, where one call of a kind fails."""

    def __init__(self, held, kind=None, number=0):
        self.bytes, self.clean = [bytearray(it) for it in held], [True, True]
        self.doubted, self.asked, self.answers = True, [], []
        self.kind, self.left = kind, number

    def ask(self, kind, area, *what):
        """Asks it of a file, and answers whether that succeeds."""
        self.left -= kind == self.kind
        done = kind != self.kind or self.left != 0
        told = (*what[:-1], None) if kind == "read" and not done else what
        self.asked.append((kind, FILES[area], *told))
        return done

    def append(self, area):
        self.clean[area] = False
        end = len(self.bytes[area])
        done = self.ask("write", area, end, b"abc")
        if done:
            self.bytes[area] += b"abc"
        return done

    def read(self, area):
        there = bytes(self.bytes[area])
        return not there or self.ask("read", area, 0, there)

    def write_back(self, area):
        there = bytes(self.bytes[area])
        return not there or (self.ask("read", area, 0, there) and self.ask("write", area, 0, there))

    def sync_area(self, area):
        if self.doubted and not self.write_back(area):
            return False
        if not self.doubted and self.clean[area]:
            return True
        done = self.ask("fdatasync", area)
        self.clean[area] |= done
        return done

    def sync(self):
        done = self.sync_area(0) and self.sync_area(1)
        self.doubted = not done
        return done

    def make(self, words):
        calls = {"a0": lambda: self.append(0), "a1": lambda: self.append(1), "r0": lambda: self.read(0), "r1": lambda: self.read(1), "s": self.sync}
        for word in words:
            self.answers.append("ok" if calls[word]() else "Device")
        return self


def tasks(options):
    scripts = SCRIPTS[:SHORT] if options.short else SCRIPTS
    return [("ways", ())] + [("script", it) for it in scripts]


def work(rig, options, task):
    kind, words = task
    tally = Tally()
    rig.calls = options.disk_calls
    if not tally.check(shutil.which("strace"), "no program strace is here; Debian's package strace has it"):
        return tally
    if not tally.check(os.access(rig.calls, os.X_OK), f"no program {rig.calls}"):
        return tally
    if kind == "ways":
        each_way(rig, tally)
    else:
        for held in ((b"", b""), (b"0123456789", b"xyz")):
            each_call(rig, tally, words + BEHIND, held)
    return tally


def fresh(rig, held):
    """A folder with these two files, or those of them that are given."""
    folder = rig.path("disk")
    shutil.rmtree(folder, ignore_errors=True)
    for name, data in zip(FILES, held):
        if data is not None:
            rig.write(f"disk/{name}", data)
    return folder


def stands(folder):
    """What stands in a folder."""
    return {name: open(os.path.join(folder, name), "rb").read() for name in sorted(os.listdir(folder))} if os.path.isdir(folder) else None


def each_way(rig, tally):
    """What is opened, made and changed by an opening alone, in each way."""
    held = (b"0123456789", b"xyz")
    flags = {"read": {"O_RDONLY"}, "open": {"O_RDWR"}, "make": {"O_RDWR", "O_CREAT"}}
    for way, wanted in flags.items():
        folder = fresh(rig, held)
        ending, lines = traced(rig, folder, way, ())
        opened = [set(re.search(r"O_[A-Z_|]+", what).group().split("|")) for call, what, _ in lines if call == "openat"]
        tally.counts["openings"] += 1
        tally.check([it - UNTOLD for it in opened] == [wanted] * 2, lambda: f"opened to {way}: {opened}")
        tally.check(ending.status == 0 and stands(folder) == dict(zip(FILES, held)), lambda: f"opened to {way}: {tell(ending)}")
    for missing in ((None, b"xyz"), (b"0123456789", None)):
        for way in ("read", "open"):
            folder = fresh(rig, missing)
            there = stands(folder)
            ending = rig.run_all([rig.calls, folder, way])
            tally.check(ending.out == b"Device\n" and stands(folder) == there, lambda: f"to {way} with a file missing: {tell(ending)}")
        ending = rig.run_all([rig.calls, folder, "make"])
        tally.check(set(stands(folder)) == set(FILES) and not ending.out, lambda: f"to make with a file missing: {tell(ending)}")
    made_folders(rig, tally)
    ending = rig.run_all([rig.calls, rig.path("nothing"), "open"])
    tally.check(ending.out == b"Device\n" and stands(rig.path("nothing")) is None, lambda: f"to open no folder: {tell(ending)}")
    ending = rig.run_all([rig.calls, fresh(rig, held), "read", "s", "a0", "r0"])
    tally.check(ending.out == b"Device\nDevice\nok\n", lambda: f"writes of what was opened to read: {tell(ending)}")


def made_folders(rig, tally):
    """Folders that are missing are made, and their names last."""
    for below in ("", "/b", "/b/c/"):
        folder = rig.path("made") + below
        made_folder(rig, tally, folder, [rig.calls, folder, "make"])
        tally.check(set(stands(folder)) == set(FILES), lambda: f"making {folder}: {stands(folder)}")


def made_folder(rig, tally, folder, words, holding=("",)):
    """A program makes a folder in a new one. Behind each folder that it makes it syncs the one above, so that the name
    lasts; and it syncs those in which it makes files."""
    trace = rig.path("trace")
    shutil.rmtree(rig.path("made"), ignore_errors=True)
    ending = rig.run_all([shutil.which("strace"), "-q", "-f", "-y", "-o", trace, "-e", "trace=mkdir,fsync", *words])
    with open(trace) as file:
        calls = file.read()
    os.remove(trace)
    made = {match[1].rstrip("/"): match.start() for match in re.finditer(r'mkdir\("([^"]+)", \w+\) += 0', calls)}
    synced = [(match.start(), match[1]) for match in re.finditer(r"fsync\(\d+<([^>]+)>\) += 0", calls)]
    lost = [path for path, at in made.items() if not any(it == os.path.dirname(path) for when, it in synced if when > at)]
    tally.counts["folders made"] += len(made)
    tally.check(ending.status == 0 and made and not lost, lambda: f"making {folder}: {tell(ending)}, the names of {lost} aren't synced")
    lost = [it for it in holding if os.path.normpath(folder + it) not in {path for _, path in synced}]
    tally.check(not lost, f"making {folder}: the names of the files in {lost} aren't synced")


def each_call(rig, tally, words, held):
    """Runs the words, and then with each call of the files failing."""
    whole = one_run(rig, tally, words, held)
    for kind in ("write", "read", "fdatasync"):
        for number in range(1, sum(asked[0] == kind for asked in whole.asked) + 1):
            for fault in ("EIO", "ENOSPC"):
                one_run(rig, tally, words, held, kind, number, fault)
            one_run(rig, tally, words, held, kind, number, "EINTR")


def one_run(rig, tally, words, held, kind=None, number=0, fault=None):
    """A run of which one call of the files fails. One that a signal interrupts is made again."""
    again = fault == "EINTR"
    wanted = Expected(held, None if again else kind, number).make(words)
    folder = fresh(rig, held)
    ending, lines = traced(rig, folder, "open", words, kind and f"inject={CALLED.get(kind, kind)}:error={fault}:when={number}")
    got = [it for it in asked_of(lines) if not (again and it[-1] == "failed")]
    got = [it[:-1] for it in got]
    what = f"{' '.join(words)} on {held}, {kind} {number} fails by {fault}"
    tally.counts[f"{kind} failed" if kind else "runs whose calls failed"] += 1
    tally.check(ending.status == 0 and ending.out.decode().split() == wanted.answers, lambda: f"{what}: {tell(ending)}; wanted {wanted.answers}")
    tally.check(got == wanted.asked, lambda: f"{what}: asked {got}; wanted {wanted.asked}")
    tally.check(stands(folder) == dict(zip(FILES, map(bytes, wanted.bytes))), lambda: f"{what}: {stands(folder)}")
    return wanted


def traced(rig, folder, way, words, inject=None):
    """Runs the program under strace: how it ended, and each call on the two files with its words and its answer."""
    trace = rig.path("trace")
    paths = [word for name in FILES for word in ("-P", os.path.join(folder, name))]
    wanted = ["-e", f"trace={TRACED}"] + (["-e", inject] if inject else [])
    strace = shutil.which("strace")
    ending = rig.run_all([strace, "-q", "-f", "-xx", "-y", "-s", "100000", "-o", trace, *paths, *wanted, rig.calls, folder, way, *words])
    with open(trace) as file:
        lines = [match.groups() for match in map(LINE.match, file) if match]
    os.remove(trace)
    return ending, [(call, what, int(answer)) for call, what, answer, _ in lines]


def asked_of(lines):
    """The calls that read, write, sync or change the files: kind, file, offset and bytes, and whether it failed."""
    kinds = {call: kind for kind, call in CALLED.items()}
    for call, what, answer in lines:
        if call == "openat":
            continue
        name = re.search(r"<([^>]*)>", what)
        path = bytes.fromhex(name.group(1).replace("\\x", "")).decode() if name and "\\x" in name.group(1) else name and name.group(1)
        file = os.path.basename(path) if path else "?"
        failed = "failed" if answer < 0 else "done"
        if call in kinds:
            text = re.search(r'"([^"]*)"', what)
            data = bytes.fromhex(text.group(1).replace("\\x", "")) if text else None
            yield kinds[call], file, int(what.rsplit(", ", 1)[1]), data, failed
        elif call == "fdatasync":
            yield call, file, failed
        else:
            yield call, file, what, failed
