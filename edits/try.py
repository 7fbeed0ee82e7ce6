#!/usr/bin/env python3
"""Tries the edits in the files beside it, one file a crate, on a copy of the tree: the prover must refuse each.

    edits/try.py [--gate | --all] [--anew] [--kept FOLDER] [--work] [--since COMMIT] [--left] [--jobs N] [CRATE ..]
    edits/try.py --compiler      the edits that the compiler must refuse, each with its error
    edits/try.py --names CRATE   the names of a crate's edits

An edit is the line `edit: NAME` and the lines behind it: `file: PATH` in the crate, and pairs of `old: TEXT` and `new: TEXT`. Each TEXT is one
line, and that of `old` stands once in the file. With a line `error: WORDS` the compiler must refuse it (compiled.py).

With --since it takes the crates of which a source, a definition, a proof or an edit has changed since that commit; else those that
are named, or all. With --gate it tries the gate's own edits, crates/*/must-fail, and with --all both. It runs the kit's `rt ci` over
a copy of these crates and those below. Where the kit keeps what earlier runs on this machine proved or tried, it takes that, but with
--anew. With --kept it takes what bench/prove.py has kept in that folder, and proves there what is lacking. With --work it begins with
what `rt check` has kept of a crate in any checkout here, and doesn't prove the crates. N checks run side by side, as many as there are
processors if left out.

Each edit that is refused is noted in refused.txt, with a sum over the edit and the sources and definitions of its crate, without their
lines of comments. With --left edits are left out that are noted so of today's text. So a run that is cut off loses nothing, and the file
tells what was tried.

The gate leaves these edits out for its time: they turn the meaning of what stands inside a crate, or of a public function that another
edit turns in the gate. Edits of the bodies of different functions are tried in one check, since a function's proof rests on the
contracts of others alone. An edit whose function is still proved there is tried alone. At the end it says how many were
refused, and names those that weren't. It also names the edits of this run of which proof files alone complain, and no goal of a
source: there a proof by hand no longer fits, and whether the contract is broken has to be read."""
import argparse
import concurrent.futures
import fcntl
import hashlib
import importlib.machinery
import importlib.util
import os
import pathlib
import re
import resource
import shutil
import subprocess
import sys
import tempfile
import threading
import time

sys.dont_write_bytecode = True
import compiled

FOLDER = pathlib.Path(__file__).resolve().parent
TREE = FOLDER.parent
NOTES = FOLDER / "refused.txt"


def lines_of(*words):
    return subprocess.run(words, cwd=TREE, check=True, capture_output=True, text=True).stdout.splitlines()


def changed_since(commit):
    """Names the crates in which something changed, in the work tree too."""
    paths = lines_of("git", "diff", "--name-only", commit) + lines_of("git", "ls-files", "--others", "--exclude-standard")
    paths = [pathlib.PurePath(path) for path in paths]
    crates = {path.parts[1] for path in paths if len(path.parts) > 2 and path.parts[0] == "crates"}
    return crates | {path.stem for path in paths if path.parts[0] == "edits" and path.suffix == ".edits"}


def edits_of(gate, more, room):
    """The edits by crate, each a file as the kit wants it: those of the gate, or those beside this script, or both. The latter are
    written into the folder."""
    found = {}
    for edit in TREE.glob("crates/*/must-fail/*.edit") if gate else ():
        found.setdefault(edit.parent.parent.name, []).append(edit)
    for crate, name, text in compiled.edits_beside(FOLDER) if more else ():
        if not compiled.is_for_compiler(text):
            edit = room / crate / f"{name}.edit"
            edit.parent.mkdir(exist_ok=True)
            edit.write_text(text)
            found.setdefault(crate, []).append(edit)
    return found


def without_comments(file):
    """What a file says but for its lines of comments, on which no verdict rests."""
    mark = {".rt": b"//", ".antt": b"--"}[file.suffix]
    return b"".join(line for line in file.read_bytes().splitlines(True) if not line.lstrip().startswith(mark))


def rests_on(name, edit):
    """A sum over what a verdict on an edit of this crate rests on: the edit, and the crate's sources and definitions."""
    crate, told = TREE / "crates" / name, hashlib.sha256(edit.read_bytes())
    for file in sorted([*crate.glob("src/**/*.rt"), *crate.glob("specs/**/*.antt")]):
        told.update(f"{file.relative_to(crate)}\n".encode() + without_comments(file))
    return told.hexdigest()[:16]


def noted():
    """The edits that are noted as refused, each with the sum of then. Edits that are gone are left out."""
    lines = [line.split() for line in NOTES.read_text().splitlines()] if NOTES.is_file() else []
    there = {f"{crate}/{name}.edit" for crate, name, _ in compiled.edits_beside(FOLDER)}
    there |= {f"{edit.parent.parent.name}/{edit.name}" for edit in TREE.glob("crates/*/must-fail/*.edit")}
    return {label: told for label, told in lines if label in there}


class Notes:
    """Notes refused edits with the sums that they have at the start. Runs side by side may do so."""

    def __init__(self, edits):
        self.sums = {f"{name}/{edit.name}": rests_on(name, edit) for name, files in edits.items() for edit in files}

    def add(self, label):
        with open(FOLDER / "try.py") as lock:
            fcntl.flock(lock, fcntl.LOCK_EX)
            lines = noted() | {label: self.sums[label]}
            NOTES.write_text("".join(f"{it} {lines[it]}\n" for it in sorted(lines)))

    def left(self, edits):
        """Those of these edits that aren't noted as refused with the same sum."""
        was = noted()
        lacks = lambda name, edit: was.get(f"{name}/{edit.name}") != self.sums[f"{name}/{edit.name}"]
        found = {name: [edit for edit in files if lacks(name, edit)] for name, files in edits.items()}
        return {name: files for name, files in found.items() if files}


def with_those_below(names):
    """Gives the lines of crates.txt on these crates and all below them, by crate."""
    lines = {line.split()[0].rstrip(":"): line for line in (TREE / "crates.txt").read_text().splitlines() if line and line[0] != "#"}
    kept, left = {}, list(names)
    while left:
        name = left.pop()
        if name in lines and name not in kept:
            kept[name] = lines[name]
            left += lines[name].partition(":")[2].split()
    return kept


def copy_tree(copy, edits):
    """Copies what git knows of these crates and those below, with these edits alone."""
    lines = with_those_below(edits)
    for path in lines_of("git", "ls-files", "--cached", "--others", "--exclude-standard", "HANDLES", *(f"crates/{name}" for name in lines)):
        if (TREE / path).is_file() and "/must-fail/" not in path:
            (copy / path).parent.mkdir(parents=True, exist_ok=True)
            shutil.copy2(TREE / path, copy / path)
    (copy / "crates.txt").write_text("".join(line + "\n" for line in lines.values()))
    for name, files in edits.items():
        (copy / "crates" / name / "must-fail").mkdir()
        for file in files:
            shutil.copy2(file, copy / "crates" / name / "must-fail")


def pairs_of(edit):
    """The pairs of an edit, each with the path of its file, and its old and new line."""
    path = old = ""
    for line in pathlib.Path(edit).read_text().split("\n"):
        word, _, rest = line.partition(":")
        if word == "file":
            path = rest.strip()
        elif word == "old":
            old = rest.removeprefix(" ")
        elif word == "new":
            yield path, old, rest.removeprefix(" ")


def functions_in(text):
    """The functions of a source, each with its name, the line that opens its body, and its last line."""
    lines = text.split("\n")
    for first, line in enumerate(lines, 1):
        found = re.match(r"( *)(?:pub(?:\([a-z]+\))? )?fn (\w+)", line)
        if found:
            opens = (at for at in range(first, len(lines) + 1) if re.match(found[1] + r"(\S.*)?\{\}?$", lines[at - 1]))
            opening = next(opens, first)
            ends = (at for at in range(opening, len(lines) + 1) if lines[at - 1].rstrip() in (found[1] + "}", found[1] + "{}"))
            yield found[2], opening, next(ends, opening)


def with_first_lines(text):
    """The same, each with its first line, which may be an attribute's."""
    lines, firsts = text.split("\n"), []
    for at, line in enumerate(lines, 1):
        if re.match(r" *(?:pub(?:\([a-z]+\))? )?fn \w+", line):
            while at > 1 and re.match(r" *#\[", lines[at - 2]):
                at -= 1
            firsts.append(at)
    return zip(firsts, functions_in(text))


def body_of(folder, edit):
    """The path and the name of the one function whose body an edit changes, if it changes nothing else."""
    found = set()
    for path, old, _ in pairs_of(edit):
        file = pathlib.Path(folder) / path
        text = file.read_text() if path.startswith("src/") and file.is_file() else ""
        if text.count(old) != 1:
            return None
        line = text[: text.index(old)].count("\n") + 1
        if re.match(r" *(ensures|requires|#)", text.split("\n")[line - 1]):
            return None
        inside = [(path, name, opening) for name, opening, last in functions_in(text) if opening < line <= last]
        found.add(inside[-1] if inside else None)
    return found.pop()[:2] if len(found) == 1 and None not in found else None


class Together:
    """Tries edits of the bodies of different functions of a crate in one check over its seed."""

    MOST = 48
    # What the prover says of a function of which a goal of its own is open. (A caller of one that isn't proved waits for that.)
    IS_OWN = re.compile(r"not proved|no proof: expected answers in \S+; `search` did not prove .*")

    def __init__(self, rt):
        self.rt, self.alone, self.lock, self.told, self.by_hand = rt, rt.must_fail, threading.Lock(), {}, set()
        # (what a kit says of a refused edit: some have a word for it)
        self.refused = getattr(rt, "REFUSED", True)

    def claim(self, crate, edit):
        """This edit, and others of the crate that nobody has tried, each with its function: so many that each job has some."""
        claimed, edits = {}, self.rt.edits_of(crate)[0]
        jobs = int(os.environ.get("RT_JOBS") or os.cpu_count())
        most = min(self.MOST, -(-len(edits) // jobs))
        for it in [edit, *edits]:
            body = None if it in self.told else body_of(crate.folder, it)
            if body and body not in claimed.values() and len(claimed) < most:
                claimed[it] = body
                self.told[it] = concurrent.futures.Future()
        return claimed

    def __call__(self, crate, edit, flags, kept=None):
        with self.lock:
            is_told = edit in self.told and self.told[edit].done()
            # (while another check tries this edit, this one tries what is left)
            claimed = {} if kept is None or is_told else self.claim(crate, edit)
        try:
            if claimed:
                self.check(crate, claimed, flags, kept)
        finally:
            for it in claimed:
                if not self.told[it].done():
                    self.told[it].set_result(None)
        told = self.told[edit].result() if kept is not None and edit in self.told else None
        return told or self.alone(crate, edit, flags, *([kept] if kept else []))

    def check(self, crate, claimed, flags, kept):
        """Checks the crate with all of these edits, and notes those whose function isn't proved. Without a verdict each half is checked."""
        texts = {}
        for edit in claimed:
            for path, old, new in pairs_of(edit):
                text = texts.get(path) or (pathlib.Path(crate.folder) / path).read_text()
                # (an edit that no longer applies beside the others leaves its function proved)
                texts[path] = text.replace(old, new) if text.count(old) == 1 else text
        ran = self.rt.checked(crate, texts, flags, kept)
        if ran.returncode != 1 or not ran.stdout.rstrip("\n").split("\n")[-1].startswith("logic=not-proved"):
            edits = list(claimed.items())
            half = len(edits) // 2
            for part in (edits[:half], edits[half:]) if half else ():
                self.check(crate, dict(part), flags, kept)
            return
        verdicts = re.findall(r"^fn (\S+): (.*)$", ran.stdout, re.MULTILINE)
        for edit, (path, name) in claimed.items():
            module = "::".join([crate.name, *pathlib.PurePath(path).with_suffix("").parts[1:]]).removesuffix("::lib")
            # (others of this name in the file aren't edited; of those that call it the prover says so)
            named = (verdict for full, verdict in verdicts if full.startswith(module + "::") and full.rpartition("::")[2] == name)
            if sum(bool(self.IS_OWN.fullmatch(verdict)) for verdict in named) == 1:
                self.told[edit].set_result((self.refused, self.note(crate, edit, path, name, texts[path], ran.stdout)))

    def note(self, crate, edit, path, name, text, said):
        """What is said of a refused edit; it is noted if proof files alone complain of its function."""
        spans = [(line, last) for line, (it, _, last) in with_first_lines(text) if it == name]
        lines = re.findall(rf"^(?:note: )?(?:\./)?{re.escape(path)}:(\d+):", said, re.MULTILINE)
        label = f"{crate.name}/{os.path.basename(edit)}"
        if not any(first <= int(line) <= last for line in lines for first, last in spans):
            self.by_hand.add(label)
        return f"must-fail {label}: refused, as it must be: {name} is not proved"


def module(name, file):
    """Loads a Python file as a module."""
    sys.dont_write_bytecode = True
    loader = importlib.machinery.SourceFileLoader(name, str(file))
    made = importlib.util.module_from_spec(importlib.util.spec_from_loader(name, loader))
    loader.exec_module(made)
    return made


def kit(rt, notes):
    """Has the kit's command note what it says of each edit, and the edits of which proof files alone complain."""
    checked, say, last, verdicts, together = rt.checked, rt.say, threading.local(), {}, Together(rt)
    by_hand, alone = together.by_hand, together.alone

    def kept_last(*given):
        last.ran = checked(*given)
        return last.ran

    def judged(crate, edit, *given):
        kind, text = alone(crate, edit, *given)
        told = re.findall(r"^(?:note: )?(?:\./)?(\w+)/\S+:\d+:\d+:", last.ran.stdout, re.MULTILINE)
        if kind == together.refused and told and set(told) == {"proofs"}:
            by_hand.add(f"{crate.name}/{os.path.basename(edit)}")
        return kind, text

    def tried(crate, edit, *given):
        kind, text = together(crate, edit, *given)
        label = f"{crate.name}/{os.path.basename(edit)}"
        print(f"tried {label}: {kind}", file=sys.stderr, flush=True)
        if kind == together.refused and label in notes.sums:
            notes.add(label)
        return kind, text

    def said(text, *given):
        told = re.match(r"must-fail (\S+): (.*)", text)
        if told:
            verdicts[told[1]] = told[2]
            # (what an earlier run here came to wasn't tried again, and is noted too)
            if told[2].startswith("refused, as it must be") and told[1] in notes.sums:
                notes.add(told[1])
        say(text, *given)

    together.alone = judged
    rt.checked, rt.must_fail, rt.say = kept_last, tried, said
    return by_hand, verdicts


def try_over_kept(kept, names, jobs, notes):
    """Tries the edits of these crates of the tree here over what is kept in a folder, once what is lacking there is proved."""
    prover = TREE / "bench" / "prove.py"
    if subprocess.run([prover, "--tree", ".", "--kept", kept, "--no-tests", "--by-interface", *names]).returncode:
        return 1, set(), {}
    rt = module("prove", prover).kit()
    by_hand, verdicts = kit(rt, notes)
    crates = [crate for crate in rt.rtlib.crates_below(os.getcwd()) if crate.name in names]

    def try_all(crate):
        edits = rt.edits_of(crate)[0]
        # (the name that a kit has for a crate's edits in turn; one without it tries each alone)
        in_turn = getattr(rt, "must_fail_all", lambda crate, edits, flags: [rt.must_fail(crate, it, flags) for it in edits])
        for _, text in in_turn(crate, edits, ["--jobs", "1"]):
            rt.say(text)

    with concurrent.futures.ThreadPoolExecutor(jobs) as pool:
        list(pool.map(try_all, crates))
    return 0, by_hand, verdicts


def tell(verdicts, by_hand, asked, minutes):
    """Tells what the edits came to, and gives whether all that were asked for are refused."""
    refused = {it for it, text in verdicts.items() if text.startswith("refused, as it must be")}
    for edit in sorted(by_hand):
        print(f"of this one proof files alone complain: {edit}")
    for edit in sorted(it for it in refused if "only by a limit" in verdicts[it]):
        print(f"this one only a limit of the prover refuses: {edit}")
    for edit in sorted(asked - refused):
        print(f"this one is not refused: {edit}")
    used = [resource.getrusage(it) for it in (resource.RUSAGE_SELF, resource.RUSAGE_CHILDREN)]
    seconds = sum(it.ru_utime + it.ru_stime for it in used)
    print(f"{len(refused)} of {len(asked)} edits refused, {minutes:.1f} minutes by the clock, {seconds:.0f} processor seconds")
    return asked <= refused


def main():
    words = argparse.ArgumentParser()
    which = words.add_mutually_exclusive_group()
    which.add_argument("--gate", action="store_true")
    which.add_argument("--all", action="store_true")
    words.add_argument("--anew", action="store_true")
    words.add_argument("--kept", type=pathlib.Path)
    words.add_argument("--work", action="store_true")
    words.add_argument("--since", metavar="COMMIT")
    words.add_argument("--left", action="store_true")
    words.add_argument("--jobs", type=int)
    words.add_argument("--compiler", action="store_true")
    words.add_argument("--names", action="store_true")
    words.add_argument("crates", nargs="*", metavar="CRATE")
    asked = words.parse_args()
    if asked.compiler:
        return compiled.try_all_edits(FOLDER)
    if asked.names:
        print("\n".join(f"{crate}/{name}" for crate, name, _ in compiled.edits_beside(FOLDER) if crate in asked.crates or not asked.crates))
        return 0
    with tempfile.TemporaryDirectory() as room:
        return try_those(asked, edits_of(asked.gate or asked.all, not asked.gate, pathlib.Path(room)))


def try_those(asked, edits):
    """Tries those of these edits that are asked for, and gives the status."""
    names = set(edits)
    if asked.crates:
        names &= set(asked.crates)
    if asked.since:
        names &= changed_since(asked.since)
    if not names:
        return "no crate of these has edits"
    edits = {name: edits[name] for name in names}
    notes = Notes(edits)
    if asked.left:
        edits = notes.left(edits)
    if not edits:
        print("no edit is left to try")
        return 0
    names = set(edits)
    begun = time.monotonic()
    with tempfile.TemporaryDirectory() as room:
        copy_tree(pathlib.Path(room), edits)
        os.chdir(room)
        os.environ.pop("CI", None)
        if asked.jobs:
            os.environ["RT_JOBS"] = str(asked.jobs)
        if asked.kept:
            status, by_hand, verdicts = try_over_kept(asked.kept.resolve(), names, asked.jobs or os.cpu_count(), notes)
        else:
            rt = module("rt_command", os.path.realpath(shutil.which("rt")))
            by_hand, verdicts = kit(rt, notes)
            verb = ["must-fail", *sorted(names)] if asked.work else ["ci"]
            status = rt.main([*verb, *(["--anew"] if asked.anew else [])])
        os.chdir(TREE)
    wanted = {f"{name}/{edit.name}" for name in names for edit in edits[name]}
    is_well = tell(verdicts, by_hand, wanted, (time.monotonic() - begun) / 60)
    return status or not is_well


if __name__ == "__main__":
    sys.exit(main())
