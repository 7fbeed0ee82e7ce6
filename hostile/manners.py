#!/usr/bin/env python3
"""What a newcomer meets: helps that fit a terminal, reasons that come first there, and completions of what the help has.

    hostile/manners.py --rr RR

What has to come is by docs/FORMATS.md and docs/decisions/program.md. Lines of help have at most 100 letters. On a terminal the line of a
refusal stands behind its reason, and in a pipe or with --json before it. A value that is empty as none was given is told on a terminal alone.
There a shell also says which nodes are left out. share/shrink.py leaves no event of a schedule that isn't wanted.
The completions for bash find files with blanks, and those behind `draw --tape`. The last line says how many held; the status is 1 where one didn't."""
import argparse
import os
import pathlib
import pty
import select
import subprocess
import sys
import tempfile

TREE = pathlib.Path(__file__).resolve().parent.parent
COMMANDS = ("sim", "stats", "check", "random", "sweep", "draw", "run", "shell", "audit", "show", "verify", "export", "migrate", "replace")
WIDEST, LIMIT = 100, 60
FAULT = b"standard input:1:1: the first line isn't nodes N, with N from 1 to 7\n"
NUMBER = b"rr: 14 BadEvent 1\n"


def in_pipes(words, text=b"", folder=None):
    """The status and both texts of a run."""
    ran = subprocess.run(words, input=text, capture_output=True, cwd=folder, timeout=LIMIT)
    return ran.returncode, ran.stdout, ran.stderr


def on_terminal(words, folder, typed=b""):
    """The status of a run, and what a terminal shows of it that has all its streams, or its standard error alone where nothing is typed.

    Where nothing is typed the text comes from a file: a program that refuses its words ends before it reads, which would break a pipe."""
    master, slave = pty.openpty()
    with tempfile.TemporaryFile() as text:
        text.write(b"nothing\n")
        text.seek(0)
        piped = {} if typed else {"stdin": text, "stdout": subprocess.DEVNULL}
        child = subprocess.Popen(words, **{"stdin": slave, "stdout": slave, "stderr": slave, **piped}, cwd=folder)
    os.close(slave)
    if typed:
        os.write(master, typed)
    shown = b""
    try:
        while select.select([master], [], [], LIMIT)[0] and (more := os.read(master, 65536)):
            shown += more
    except OSError:
        pass
    os.close(master)
    return child.wait(LIMIT), shown.replace(b"\r\n", b"\n")


def wide_lines(rr):
    """The lines of help that are too wide."""
    asked = [["help"], ["-h"], ["--help"], *([name, word] for name in COMMANDS for word in ("-h", "--help"))]
    return [line for words in asked for line in in_pipes([rr, *words])[1].decode().splitlines() if len(line) > WIDEST]


def wide_lines_of_shell(rr, folder):
    lines = in_pipes([rr, "shell", "--nodes", "1", "--dir", "helps", "-c", "help"], folder=folder)[1].decode().splitlines()
    return [line for line in lines if len(line) > WIDEST] or ([] if len(lines) == 17 else ["not 17 lines"])


def completed(words, folder):
    """What bash completes of the last of these words."""
    listed = " ".join(f"'{word}'" for word in words)
    script = f"source {TREE}/share/rr.bash; compopt() {{ :; }}; COMP_WORDS=({listed}); COMP_CWORD={len(words) - 1}; _rr rr '{words[-1]}' '{words[-2]}'"
    ran = subprocess.run(["bash", "-c", script + '; printf "%s\\n" "${COMPREPLY[@]}"'], capture_output=True, text=True, cwd=folder, timeout=LIMIT)
    return set(ran.stdout.splitlines())


def shrunk(rr, folder):
    """What is left of a schedule of which a request is acknowledged, and whether each of its events is wanted for that."""
    command = ["sh", "-c", f"'{rr}' sim \"$1\" | grep -q '^ack '", "sh"]
    small = pathlib.Path(folder, "small.schedule")
    words = [str(TREE / "share/shrink.py"), "--rr", rr, "--out", str(small), str(TREE / "examples/failed_write.schedule"), "--"]
    status = in_pipes([*words, *command])[0]
    head, *events = small.read_text().splitlines()
    less = pathlib.Path(folder, "less.schedule")

    def is_acknowledged(left):
        less.write_text("".join(f"{line}\n" for line in (head, *left)))
        return in_pipes([*command, str(less)])[0] == 0

    spare = [place for place in range(len(events)) if is_acknowledged(events[:place] + events[place + 1 :])]
    return status, len(events) < 48, is_acknowledged(events), spare


def checks(rr, folder):
    """What has to hold, with whether it does and what was found."""
    for name in ("a b.tape", "plain.tape"):
        pathlib.Path(folder, name).write_text("nodes 1\n")
    pathlib.Path(folder, "c d").mkdir()
    yield "helps fit", *empty(wide_lines(rr))
    yield "the help of a shell fits", *empty(wide_lines_of_shell(rr, folder))
    yield "a pipe has the number first", *same(in_pipes([rr, "sim"], b"nothing\n"), (3, b"", NUMBER + FAULT))
    yield "a terminal has the reason first", *same(on_terminal([rr, "sim"], folder), (3, FAULT + NUMBER))
    yield "a terminal with JSON has the number first", *same(on_terminal([rr, "sim", "--json"], folder), (3, NUMBER + FAULT))
    yield "a terminal has what is no refusal", *same(on_terminal([rr, "draw", "--from", "9", "--to", "8"], folder), (2, b"rr: draw: the line of --from is behind that of --to\n"))
    told = b"the value is empty, as none was given\n"
    _, shown = on_terminal([rr, "shell", "--nodes", "1", "--dir", "typed"], folder, b"claim a x\nupdate a\nclaim b\nclaim a\nquit\n")
    yield "an empty value is told on a terminal, where it is set", shown.count(told) == 2, shown
    ran = in_pipes([rr, "shell", "--nodes", "1", "--dir", "piped"], b"claim a\n", folder)
    yield "an empty value isn't told in a pipe", *same(ran, (0, b"claimed\n", b"rr: piped: a new registry, with --nodes 1\n"))
    in_pipes([rr, "shell", "--nodes", "3", "--dir", "left"], b"claim a\n", folder)
    _, shown = on_terminal([rr, "shell", "--dir", "left", "--without", "2"], folder, b"quit\n")
    yield "a terminal says who is left out", b"of 3 nodes, without 2; you are client 0, and ask node 0;" in shown, shown
    _, shown = on_terminal([rr, "shell", "--dir", "left", "--without", "0"], folder, b"quit\n")
    yield "a schedule is made smaller, and each event that is left is wanted", *same(shrunk(rr, folder), (0, True, True, []))
    yield "a terminal says whom to ask", b"without 0; you are client 0, and ask node 1;" in shown, shown
    ran = in_pipes([rr, "shell", "--dir", "left", "--without", "0"], b"look a\n", folder)
    yield "where node 0 is left out, the next is asked first", *same(ran, (0, b"a bound 0\n", b""))
    yield "files with blanks are completed", *within({"a b.tape", "plain.tape", "c d"}, completed(["rr", "sim", ""], folder))
    yield "folders with blanks are completed", *within({"c d", "--json"}, completed(["rr", "verify", ""], folder))
    yield "files are completed behind draw --tape", *within({"a b.tape", "--html"}, completed(["rr", "draw", "--tape", ""], folder))
    yield "files alone are completed behind run --tape", *same(completed(["rr", "run", "--tape", "a"], folder), {"a b.tape"})


def same(found, wanted):
    return found == wanted, found


def empty(found):
    return not found, found


def within(wanted, found):
    return wanted <= found, found


def main():
    words = argparse.ArgumentParser(description=__doc__, formatter_class=argparse.RawDescriptionHelpFormatter)
    words.add_argument("--rr", type=pathlib.Path, required=True)
    rr = str(words.parse_args().rr.resolve())
    held = failed = 0
    with tempfile.TemporaryDirectory() as folder:
        for what, holds, found in checks(rr, folder):
            held, failed = held + bool(holds), failed + (not holds)
            if not holds:
                print(f"hostile/manners.py: not so: {what}: {found!r}"[:2000], file=sys.stderr)
    print(f"hostile/manners.py: {held} held, {failed} didn't")
    sys.exit(1 if failed else 0)


main()
