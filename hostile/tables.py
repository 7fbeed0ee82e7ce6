#!/usr/bin/env python3
"""Runs rr over the tables of cases that the gate proves and runs as crates: program_rows and worked_rows.

    hostile/tables.py --rr RR

The rows of program_rows are words, input and files, with what has to come (its RULES.md). Here the program itself gets them, where the crate
calls libraries. Of worked_rows these are taken: reports of `rr sim`, audits, a sweep, and folders of version 1 with the bytes that are left.
What is left out needs the libraries: texts that are printed again, areas in memory, a full list, and crashes at every pair of cuts. None
of the expected values comes from rr. The last line says how many held, and the status is 1 where one didn't."""
import argparse
import itertools
import pathlib
import re
import shutil
import subprocess
import sys
import tempfile

CRATES = pathlib.Path(__file__).resolve().parent.parent / "crates"
# Seconds after which a run hangs.
LIMIT = 60
PARTS = {
    "has": lambda out, part: part in out,
    "lacks": lambda out, part: part not in out,
    "begins": lambda out, part: out.startswith(part),
    "ends": lambda out, part: out.endswith(part),
}
# Words of a row's lines that say nothing about what is left.
OTHER = {"#", "row", "folder", "copy", "remove", "remove-folder", "in", "in+", "repeat", "rr", "out", "err", "err-begins", "status", *PARTS}
# What the proved program says of its logic, where one without proofs says that it has none.
PROVED = re.compile(r"(?<=, )proved with rattle logic [0-9a-f]{16}$", re.M)
# What a work of worked_rows calls: the words of rr, and how the stored lines begin.
WORKS = {"run": (["sim"], " run\n"), "audit": (["audit"], " audited\n"), "restarts": (["sweep", "--seed", "0"], " swept\n")}


def plain(text):
    """What a text of a row spells."""
    return text.replace("\\s", " ").replace("\\r", "\r").replace("\\n", "\n")


class Row:
    """A row: its lines, each a word and a text."""

    def __init__(self, text):
        self.lines = [tuple(line.partition(" ")[::2]) for line in text.splitlines()]

    def words(self):
        return [plain(word) for text in self.texts("rr") if text for word in text.split(" ")]

    def texts(self, word):
        return [text for said, text in self.lines if said == word]

    def text(self, word):
        return next(iter(self.texts(word)), "")

    def prepare(self, room):
        for word, text in self.lines:
            if word == "folder":
                (room / text).mkdir()
            elif word == "copy":
                shutil.copyfile(*(room / path for path in text.split(" ")))
            elif word == "remove":
                (room / text).unlink()
            elif word == "remove-folder":
                (room / text).rmdir()

    def input(self):
        made = ""
        for word, text in self.lines:
            count, _, again = text.partition(" ")
            made += plain(text) + "\n" if word == "in" else plain(text) if word == "in+" else plain(again) * int(count) if word == "repeat" else ""
        return made

    def faults(self, room, ran):
        """What came otherwise than this row wants."""
        out, err = ran.stdout, ran.stderr
        if not any(self.texts(word) for word in PARTS) and out != "".join(f"{line}\n" for line in self.texts("out")):
            yield f"the output: {out[:400]!r}"
        if not self.texts("err-begins") and err != "".join(f"{line}\n" for line in self.texts("err")):
            yield f"the error: {err[:400]!r}"
        if str(ran.returncode) != self.text("status"):
            yield f"the status: {ran.returncode}"
        for word, text in self.lines:
            if not self.holds(room, word, text, out, err):
                yield f"the line: {word} {text}"

    def holds(self, room, word, text, out, err):
        if word in PARTS:
            return PARTS[word](out, plain(text))
        if word == "err-begins":
            return err.startswith(plain(text))
        if word == "same":
            return len({(room / path).read_bytes() for path in text.split(" ")}) == 1
        if word in ("there", "missing"):
            return (room / text).exists() == (word == "there")
        return word in OTHER


def call(rr, words, room, **input):
    return subprocess.run([rr, *words], cwd=room, capture_output=True, text=True, timeout=LIMIT, **(input or {"stdin": subprocess.DEVNULL}))


def try_rows(rr, room):
    """Runs the rows of program_rows, in the order of its words: what a row leaves is there for the next one."""
    shutil.copytree(CRATES / "program_rows/data", room)
    is_proved = PROVED.search(call(rr, ["--version"], room).stdout)
    for file in (CRATES / "program_rows/args").read_text().split():
        if file.endswith(".rows"):
            rows = (room / file).read_text()
            for row in map(Row, (rows if is_proved else PROVED.sub("not proved", rows)).split("\n\n")):
                yield f"{file}: {row.text('row')}", try_row(rr, room, row)


def try_row(rr, room, row):
    """What came otherwise of a row; a file that an earlier row should have left is a fault too."""
    try:
        row.prepare(room)
        ran = call(rr, row.words(), room, input=row.input())
        return list(row.faults(room, ran))
    except (OSError, UnicodeError, subprocess.TimeoutExpired) as error:
        return [str(error)]


def stored_works():
    """Of worked_rows, its works with their words: texts by their names, and folders with the words of their nodes."""
    words, work = {}, None
    for word in (CRATES / "worked_rows/args").read_text().splitlines():
        if re.search(r"\.(schedule|tape)$| --node ", word):
            words.setdefault(work, []).append(word)
        else:
            work = word
    return words


def try_texts(rr, room, words, stored):
    """Reports, audits and sweeps of texts, as worked_rows has them."""
    for work, (called, mark) in WORKS.items():
        for name in words[work]:
            ran = call(rr, [*called, name], room)
            at = stored.find(f"\n{name}{mark}") + 1
            if at:
                begin = at + len(name) + len(mark)
                # Nothing that rr prints there begins as the next text or the next work does.
                end = re.compile(r"^\S+\.(schedule|tape) |^full list|^event |^nodes can |^rr show ", re.M).search(stored, begin)
                wanted = stored[begin : end.start() if end else None]
                # In the table a verdict stands alone, and the line for people isn't there.
                got = ran.stdout + "".join(ran.stderr.splitlines(True)[:1])
            else:
                wanted = re.search(rf"^{re.escape(name)} (Bad.*\n)", stored, re.M)[1]
                got = re.sub(r"^rr: \d+ ", "", ran.stdout + "".join(ran.stderr.splitlines(True)[:1]))
            yield f"{work} {name}", [] if got == wanted else [f"{got[:400]!r}, not {wanted[:400]!r}"]


def try_folders(rr, room, words, stored):
    """What `rr show` and `rr migrate` print of folders that version 1 wrote, and the bytes that are left."""
    for row in words["folders"]:
        name = row.split(" ")[0]
        (room / name).mkdir()
        for area in ("a0", "a1"):
            shutil.copyfile(room / f"{name}.{area}", room / name / area)
        told = ""
        for line in (f"show {name}", f"migrate {row}"):
            ran = call(rr, line.split(" "), room)
            out, err = len(ran.stdout.encode()), len(ran.stderr.encode())
            told += f"rr {line}: status {ran.returncode}, {out} bytes of output, {err} bytes of errors\n{ran.stdout}{ran.stderr}"
        yield f"folder {row}", [] if told in stored else [repr(told)]
        for area in ("a0", "a1"):
            is_left = (room / name / area).read_bytes() == (room / f"{name}.{area}.after").read_bytes()
            yield f"area {area} of {name}", [] if is_left else ["it is left otherwise"]


def try_works(rr, room):
    shutil.copytree(CRATES / "worked_rows/data", room)
    words, stored = stored_works(), (CRATES / "worked_rows/stdout").read_text()
    yield from try_texts(rr, room, words, stored)
    yield from try_folders(rr, room, words, stored)


def main():
    words = argparse.ArgumentParser(description=__doc__, formatter_class=argparse.RawDescriptionHelpFormatter)
    words.add_argument("--rr", type=pathlib.Path, required=True)
    rr = words.parse_args().rr.resolve()
    held = failed = 0
    with tempfile.TemporaryDirectory() as made:
        room = pathlib.Path(made)
        # Helps show the name by which the program is called.
        (room / "rr").symlink_to(rr)
        rr = room / "rr"
        for name, faults in itertools.chain(try_rows(rr, room / "rows"), try_works(rr, room / "works")):
            held, failed = held + (not faults), failed + bool(faults)
            for fault in faults:
                print(f"{name}: {fault}")
    print(f"hostile/tables.py: {held} cases held, {failed} didn't")
    sys.exit(1 if failed or not held else 0)


main()
