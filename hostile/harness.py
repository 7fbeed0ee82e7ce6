"""What the parts share: running rr, asking the plain Rust program, and counting what was tried."""
import collections
import os
import pathlib
import re
import select
import shutil
import signal
import subprocess
import tempfile
import time

TREE = pathlib.Path(__file__).resolve().parent.parent
DATA = TREE / "crates/worked_rows/data"
# Seconds after which a run hangs: of one that goes its way, and of one that may wait for clocks.
LIMIT = 20
LONG = 150

Ending = collections.namedtuple("Ending", "status out err")
NO_MEMORY = b"rr: 1 OutOfMemory\n"


class Tally:
    """Counts by name, checks that passed, and what failed."""

    def __init__(self):
        self.counts = collections.Counter()
        self.passed = 0
        self.failures = []
        self.notes = []

    def check(self, holds, failure):
        """Counts a check; the failure is told where it doesn't hold."""
        if holds:
            self.passed += 1
        else:
            self.failures.append(failure() if callable(failure) else failure)
        return holds

    def add(self, other):
        self.counts += other.counts
        self.passed += other.passed
        self.failures += other.failures
        self.notes += other.notes


# What a shell tells first on standard error that has begun a new registry.
BEGINNING = re.compile(rb"rr: [^\n]*: a new registry, with --nodes [1-7]\n")


def split_new(said):
    """What standard error has got but the line that a new registry begins, and that line, if it's there."""
    found = BEGINNING.match(said)
    return (said[found.end() :], found.group()) if found else (said, b"")


class Plain:
    """The plain Rust program, which answers one question after another."""

    def __init__(self, program):
        self.child = subprocess.Popen([program, "answer"], stdin=subprocess.PIPE, stdout=subprocess.PIPE)

    def ask(self, question, *parts):
        self.child.stdin.write(f"{question}\n".encode() + b"".join(parts))
        self.child.stdin.flush()
        status, out, fault = map(int, self.child.stdout.readline().split())
        return Ending(status, self.child.stdout.read(out), self.child.stdout.read(fault))

    def as_rr(self, question, *parts):
        """The answer with its fault as rr tells it."""
        ending = self.ask(question, *parts)
        return ending._replace(err=b"rr: %s\n" % ending.err if ending.err else b"")

    def sim(self, text):
        return self.as_rr(f"sim {len(text)}", text)

    def audit(self, text):
        return self.as_rr(f"audit {len(text)}", text)

    def script(self, nodes, text):
        return self.as_rr(f"script {nodes} {len(text)}", text)

    def starved(self, text, *lines):
        """The report where the events of these lines find no memory; None where none of them takes any."""
        ending = self.ask(f"sim {len(text)} {' '.join(map(str, lines))}", text)
        return None if ending.err else ending.out

    def message(self, data):
        return self.as_rr(f"message {len(data)}", data)

    def show(self, areas):
        return self.as_rr(f"show {len(areas[0])} {len(areas[1])}", *areas)

    def areas(self, text):
        """The areas of node 0 behind a schedule."""
        ending = self.ask(f"areas {len(text)}", text)
        first = int(ending.err)
        return ending.out[:first], ending.out[first:]

    def draw(self, seed, steps, nodes, line=0):
        return self.ask(f"draw {seed} {steps} {nodes} {line}").out


class Hung(Exception):
    pass


def hang(number, frame):
    raise Hung


class Rig:
    """A process's own folder, the program rr in it, and a plain Rust program to ask."""

    def __init__(self, rr, plain, many):
        memory = "/dev/shm" if os.path.isdir("/dev/shm") else None
        self.rr, self.many = rr, many
        self.plain = Plain(plain)
        self.folder = tempfile.mkdtemp(prefix="hostile", dir=memory)
        flags = os.O_RDWR | os.O_CREAT | os.O_TRUNC
        self.out, self.err = (os.open(self.path(name), flags, 0o600) for name in ("out", "err"))
        signal.signal(signal.SIGALRM, hang)

    def path(self, name):
        return os.path.join(self.folder, name)

    def write(self, name, data):
        path = self.path(name)
        os.makedirs(os.path.dirname(path), exist_ok=True)
        with open(path, "wb") as file:
            file.write(data)
        return path

    def run(self, *words, env=None, limit=LIMIT):
        """Runs rr by these words, in no other environment; a run that hangs is ended, and has no status. The second line
        on the fault of a text, an event of a tape or a folder, which the plain Rust program doesn't tell, goes to `why`. That a new registry
        begins goes to `new`."""
        return self.run_all([self.rr, *words], env, limit)

    def run_all(self, words, env=None, limit=LIMIT):
        for to in (self.out, self.err):
            os.ftruncate(to, 0)
            os.lseek(to, 0, os.SEEK_SET)
        actions = [(os.POSIX_SPAWN_DUP2, self.out, 1), (os.POSIX_SPAWN_DUP2, self.err, 2)]
        actions.append((os.POSIX_SPAWN_OPEN, 0, "/dev/null", os.O_RDONLY, 0))
        child = os.posix_spawn(words[0], words, env or {}, file_actions=actions)
        ending = Ending(self.end_of(child, limit), self.printed(self.out), self.printed(self.err))
        said, self.new = split_new(ending.err)
        ending, self.why = ending._replace(err=said), b""
        if ending.status in (3, 4, 5, 7):
            line, feed, self.why = ending.err.partition(b"\n")
            ending = ending._replace(err=line + feed)
        return ending

    def ask_many(self, questions):
        """What rr's libraries answer to questions, each its line and the bytes behind it, in one process for all of them.
        Answers the endings; of one that ended before its time those that it gave, and None behind them."""
        path = self.write("questions", b"".join(line.encode() + b"\n" + b"".join(parts) for line, *parts in questions))
        with open(path, "rb") as file:
            ran = subprocess.run([self.many], cwd=self.folder, stdin=file, stdout=subprocess.PIPE, env={}, check=False)
        endings = list(answers_of(ran.stdout))
        return endings + [None] * (len(questions) - len(endings))

    @staticmethod
    def end_of(child, limit):
        """The status of a child; less than 0 where a signal ended it, None where it hung."""
        signal.alarm(limit)
        try:
            return os.waitstatus_to_exitcode(os.waitpid(child, 0)[1])
        except Hung:
            os.kill(child, signal.SIGKILL)
            os.waitpid(child, 0)
            return None
        finally:
            signal.alarm(0)

    @staticmethod
    def printed(file):
        return os.pread(file, os.fstat(file).st_size, 0)

    def close(self):
        self.plain.child.stdin.close()
        self.plain.child.wait()
        shutil.rmtree(self.folder, ignore_errors=True)


class Lines:
    """The lines of a stream, one after another."""

    def __init__(self, file):
        self.file, self.read, self.has_ended = file, b"", False

    def next(self, limit):
        """The next line; None where the stream ends before, or none comes in so many seconds."""
        until = time.monotonic() + limit
        while b"\n" not in self.read:
            left = until - time.monotonic()
            if self.has_ended or left <= 0 or not select.select([self.file], [], [], left)[0]:
                return None
            more = os.read(self.file.fileno(), 65536)
            self.has_ended = not more
            self.read += more
        line, _, self.read = self.read.partition(b"\n")
        return line.decode()


def answers_of(text):
    """The answers of many: a line of three numbers, standard output and standard error."""
    at = 0
    while at < len(text):
        line, _, _ = text[at : at + 80].partition(b"\n")
        status, out, err = map(int, line.split())
        at += len(line) + 1
        yield Ending(status, text[at : at + out], text[at + out : at + out + err])
        at += out + err


def schedules(names=None):
    """The worked schedules by name: their texts."""
    paths = sorted(DATA.glob("*.schedule"))
    return {path.stem: path.read_bytes() for path in paths if names is None or path.stem in names}


def events_of(text):
    """The lines behind the first, each with its number and its words."""
    lines = text.decode("ascii", "replace").splitlines()
    return [(number, line.split(" ")) for number, line in enumerate(lines[1:], 2)]


def tell(ending):
    """An ending in a line."""
    if ending.status is None:
        return "no end"
    return f"status {ending.status}, {ending.out[-200:]!r}, {ending.err[:200]!r}"


def first_difference(one, other):
    """Where two texts differ first, a line of each."""
    a, b = one.split(b"\n"), other.split(b"\n")
    for number, (x, y) in enumerate(zip(a, b), 1):
        if x != y:
            return f"line {number}: {x[:100]!r} and {y[:100]!r}"
    return f"{len(a)} lines and {len(b)}"


def compare(tally, what, got, wanted):
    """Two endings have to be the same."""
    if got[:] == wanted[:]:
        tally.passed += 1
        return True
    apart = first_difference(got.out, wanted.out) if got.out != wanted.out else "the same output"
    tally.failures.append(f"{what}: rr {tell(got)}; wanted {tell(wanted)}; {apart}")
    return False
