"""Power cuts in a replacement: what `rr replace` asks of the system for its files, as strace saw it, and what a cut may leave of it.

A file keeps what was synced. Of a write that wasn't, all is there, or nothing, or other bytes, and what was appended is cut off anywhere. Names
that were made, renamed or removed since their folder was synced are there up to any of them, in their order.
"""
import os
import re
import shutil

from harness import LONG
from run_order import ANSWER, LINE

CALLS = "pwrite64,write,fdatasync,fsync,ftruncate,rename,renameat,renameat2,openat,mkdir,mkdirat,unlink,unlinkat,rmdir"
TEXT = re.compile(r'"((?:\\x[0-9a-f]{2})*)"')
FILE = re.compile(r"^\d+<((?:\\x[0-9a-f]{2})*)>")
# Behind one call of so many the power is cut.
SHARE, SHORT_SHARE = 25, 120


def plain(text):
    return bytes.fromhex(text.replace("\\x", ""))


def calls_of(path):
    """The calls in their order, each once it has begun and once it has ended: (whether it ended, call, its words, what it answered)."""
    begun = {}
    with open(path) as file:
        for line in file:
            match = LINE.match(line)
            if not match:
                continue
            thread, call, what, _, rest = match.groups()
            if call:
                begun[thread] = call, what
                yield False, call, what, None
                rest = what
            answer = ANSWER.search(rest)
            if answer and thread in begun:
                yield (True, *begun.pop(thread), int(answer[1]))


class File:
    """A file: what was written, what was synced, and which places were written since."""

    def __init__(self, data=b""):
        self.written, self.synced, self.loose = bytearray(data), bytes(data), []

    def write(self, at, data):
        # (a byte that is written over with its own value stays)
        if self.written[at : at + len(data)] != data:
            self.loose.append((at, len(data)))
        self.written[at : at + len(data)] = data

    def sync(self):
        self.synced, self.loose = bytes(self.written), []

    def left(self, drawn):
        """What a power cut may leave."""
        if not self.loose or drawn.random() < 0.3:
            return self.synced if drawn.random() < 0.5 else bytes(self.written)
        found = bytearray(self.written)
        for at, count in self.loose:
            found[at : at + count] = bytes(drawn.choice((0, 0xA5, drawn.randrange(256))) for _ in range(count))
        return bytes(found[: drawn.randint(min(len(self.synced), len(found)), len(found))])


class Folder:
    """A folder: its names as they are, and what was done to them since they were synced."""

    def __init__(self):
        self.names, self.synced, self.since = {}, {}, []

    def put(self, name, what):
        self.names[name] = what
        self.since.append((name, what))

    def drop(self, name):
        self.since.append((name, None))
        return self.names.pop(name)

    def move(self, name, to):
        what = self.names.pop(name)
        self.names[to] = what
        self.since.append((name, None, to, what))

    def sync(self):
        self.synced, self.since = dict(self.names), []

    def left(self, drawn):
        names = dict(self.synced)
        for name, what, *more in self.since[: drawn.randint(0, len(self.since))]:
            names.pop(name, None)
            if what is not None:
                names[name] = what
            if more:
                names[more[0]] = more[1]
        return names


class Room:
    """A folder with all in it, as its calls make it."""

    def __init__(self, path):
        self.path, self.root = path, read(path)

    def find(self, path):
        """The folder and the name of a path in the room; None where it's elsewhere."""
        if not path.startswith(f"{self.path}/"):
            return None
        folder, *parts = self.root, *path[len(self.path) + 1 :].split("/")
        for part in parts[:-1]:
            folder = folder.names[part]
        return folder, parts[-1]

    def take(self, has_ended, call, words, answer):
        """Takes a call on; whether it's one that changes what a power cut leaves."""
        if has_ended and answer < 0:
            return False
        if call in ("write", "pwrite64", "fsync", "fdatasync", "ftruncate"):
            return self.of_file(has_ended, call, words)
        return has_ended and self.of_names(call, words)

    def of_file(self, has_ended, call, words):
        path = plain(FILE.match(words)[1]).decode() if FILE.match(words) else ""
        if path == self.path:
            if has_ended:
                self.root.sync()
            return has_ended
        if (found := self.find(path)) is None:
            return False
        what = found[0].names.get(found[1])
        if call in ("fsync", "fdatasync"):
            if has_ended and what is not None:
                what.sync()
            return has_ended
        if has_ended or what is None:
            return False
        if call == "ftruncate":
            size = int(re.search(r", (\d+)", words)[1])
            what.write(size, b"") if size >= len(what.written) else what.loose.append((size, 0))
            what.written[size:] = bytes(max(size - len(what.written), 0))
        else:
            at = int(re.search(r'"(?:\.\.\.)?, \d+, (\d+)', words)[1]) if call == "pwrite64" else len(what.written)
            what.write(at, plain(TEXT.search(words)[1]))
        return True

    def of_names(self, call, words):
        paths = [plain(it).decode() for it in TEXT.findall(words)]
        found = [self.find(it) for it in paths]
        if not found or found[0] is None:
            return False
        folder, name = found[0]
        if call == "openat":
            if "O_CREAT" not in words or name in folder.names:
                if "O_TRUNC" in words and name in folder.names:
                    folder.names[name].written[:] = b""
                    folder.names[name].loose.append((0, 0))
                return "O_TRUNC" in words
            folder.put(name, File())
        elif call.startswith("mkdir"):
            folder.put(name, Folder())
        elif call.startswith("rename"):
            if found[1][0] is folder:
                folder.move(name, found[1][1])
            else:
                found[1][0].put(found[1][1], folder.drop(name))
        else:
            folder.drop(name)
        return True

    def write_left(self, path, drawn, folder=None):
        """Makes at a path what a power cut may leave."""
        folder = folder or self.root
        os.makedirs(path)
        for name, what in folder.left(drawn).items():
            if isinstance(what, Folder):
                self.write_left(f"{path}/{name}", drawn, what)
            else:
                with open(f"{path}/{name}", "wb") as file:
                    file.write(what.left(drawn))


def read(path):
    """A folder as it lies there, synced."""
    folder = Folder()
    for name in os.listdir(path):
        inner = f"{path}/{name}"
        if os.path.isdir(inner):
            folder.names[name] = read(inner)
        else:
            with open(inner, "rb") as file:
                folder.names[name] = File(file.read())
    folder.sync()
    return folder


def cut_power(made, seed):
    """The power is cut at calls of a replacement over a cluster that has lost a node; each time it goes on from what is left."""
    rig, tally = made.rig, made.tally
    if not tally.check(shutil.which("strace"), "no program strace is here; Debian's package strace has it"):
        return
    room, trace = Room(made.folder), rig.path("trace")
    words = [rig.rr, "replace", made.folder, "--node", str(made.node), "--tick", "10"]
    begun = [shutil.which("strace"), "-q", "-f", "-xx", "-y", "-s", "1000000", "-o", trace, "-e", f"trace={CALLS}"]
    ended = rig.run_all([*begun, *words], limit=LONG)
    made.finish(made.node, (), made.least, made.stood, ended[:3])
    count, share = 0, SHORT_SHARE if made.options.short else SHARE
    for call in calls_of(trace):
        if not room.take(*call):
            continue
        count += 1
        is_name = call[1].startswith(("rename", "mkdir", "openat", "unlink"))
        if made.drawn.randrange(max(share // (5 if is_name else 1), 1)) == 0:
            made.begin_anew()
            shutil.rmtree(made.folder)
            room.write_left(made.folder, made.drawn)
            made.go_on_from(f"power cut behind call {count}, {call[1]}")
            tally.counts["power cuts in a replacement"] += 1
    os.remove(trace)
    tally.check(count > 20, f"strace saw {count} calls of a replacement")
