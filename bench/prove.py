#!/usr/bin/env python3
"""Proves the crates of a tree as `rt ci` does, without edits, and keeps what is proved by its content.

    bench/prove.py [--tree FOLDER] [--kept FOLDER] [--no-tests] [--by-interface] [CRATE ..]

It takes the crates that are named and those below them, or all. A later run, of this tree or another, proves only what changed
and what stands on it. So a change is checked in minutes while it is made; the verdict is the gate's, which takes nothing from
here. What is kept fits one kit alone, and may be removed at any time. Programs and tests are built and run too. What a crate's
check said lies in FOLDER/said. Run it with `nice`, and leave the tree as it is while it runs. Several runs may share a FOLDER: each
waits for a crate that another is just proving.

With --by-interface a crate also counts as proved where it was before, over libraries that are the same in what a proof rests on. That
is the interface of each library that the crate names: public items with their contracts, definitions and lemmas. And it is each
definition that these lead to. Lines that are comments don't count. So behind a change in a body the crates above stay as they are, and
what isn't proved anew isn't run."""
import argparse
import contextlib
import copy
import fcntl
import hashlib
import importlib.machinery
import importlib.util
import os
import pathlib
import re
import shutil
import subprocess
import sys
import tempfile
import time

TREE = pathlib.Path(__file__).resolve().parent.parent


def kit():
    """Loads the kit's command as a module, as it is when it runs `rt ci`."""
    sys.dont_write_bytecode = True
    loader = importlib.machinery.SourceFileLoader("rt_command", os.path.realpath(shutil.which("rt")))
    rt = importlib.util.module_from_spec(importlib.util.spec_from_loader("rt_command", loader))
    loader.exec_module(rt)
    rt.Crate.cuts_libraries = True
    rt.rtlib.Crate = rt.Crate
    rt.rtlib.guarded()
    made = rt.Crate.__init__

    def make(self, *given, **named):
        made(self, *given, **named)
        rt.read_files(self)

    rt.Crate.__init__ = make
    for name in ("stamp", "below"):
        setattr(rt.Crate, name, once_a_folder(getattr(rt.Crate, name)))
    return rt


def once_a_folder(method):
    """The method, asked once for each crate: the kit walks every path between two crates."""
    answers = {}

    def asked(self):
        if self.folder not in answers:
            answers[self.folder] = method(self)
        return answers[self.folder]

    return asked


COMMENT = re.compile(rb"^[ \t]*(?:-- |//).*\n", re.MULTILINE)


NAMED = re.compile(r"\bRattle\.(\w+)\.specs\.([\w.]*\w)")


def text_of(file):
    """The bytes of a file; of a source, a definition or a proof without the lines that are comments, on which no proof rests."""
    return COMMENT.sub(b"", file.read_bytes()) if file.suffix in (".rt", ".antt") else file.read_bytes()


def is_of_interface(path):
    """Whether a file of a library is part of what the crates above it can name: not a proof of a function, nor what it compiles to."""
    return path.startswith(("interface/", "lang/")) and path != "lang/antt/made.json" and not path.endswith(
        ("/mir.json", "/Answers.antt", "/Invariants.antt", "/Proof.antt")
    )


def interface_of(rlib):
    """A sum over a library's interface."""
    told = hashlib.sha256()
    for file in sorted(it for it in rlib.rglob("*") if it.is_file()):
        path = str(file.relative_to(rlib))
        if is_of_interface(path):
            told.update(repr((path, text_of(file))).encode())
    return told.hexdigest()


def definitions_from(files, folders):
    """The files of definitions that these files name, and those that they name in turn, by the folders of the libraries' definitions."""
    found, left = set(), list(files)
    while left:
        for name, path in NAMED.findall(left.pop().read_text(errors="replace")):
            words = path.split(".")
            ends = (folders[name].joinpath(*words[:end]).with_suffix(".antt") for end in range(len(words), 0, -1)) if name in folders else ()
            file = next((it for it in ends if it.is_file()), None)
            if file and file not in found:
                found.add(file)
                left.append(file)
    return sorted(found)


class Proofs:
    """Proves crates, and keeps what is proved."""

    def __init__(self, rt, kept, by_interface=False):
        self.rt, self.kept, self.by_interface, self.failed, self.sums = rt, kept, by_interface, [], {}
        for folder in ("said", "locks", "by_interface"):
            (kept / folder).mkdir(parents=True, exist_ok=True)

    def over_interfaces(self, crate, tests):
        """A sum over the crate's own files, the interfaces of the libraries that it names, and the definitions that these lead to."""
        told = hashlib.sha256(pathlib.Path(self.rt.KIT, "WHAT").read_bytes() + repr((crate.name, crate.said, tests)).encode())
        own = [pathlib.Path(file) for file in self.rt.rtlib.files_of(crate.folder)]
        for file in own:
            told.update(repr((str(file.relative_to(crate.folder)), text_of(file))).encode())
        for dep in crate.deps:
            rlib = pathlib.Path(dep.rlib)
            sign = rlib.stat().st_ino, rlib.stat().st_mtime_ns
            if self.sums.get(dep.name, (None,))[0] != sign:
                self.sums[dep.name] = sign, interface_of(rlib)
            told.update(f"{dep.name} {self.sums[dep.name][1]}\n".encode())
        named = own + [pathlib.Path(file) for dep in crate.deps for file in self.rt.rtlib.files_of(dep.folder) if "/proofs/" not in file]
        for file in definitions_from(named, {dep.name: pathlib.Path(dep.folder, "specs") for dep in crate.below()}):
            told.update(text_of(file))
        return self.kept / "by_interface" / told.hexdigest()

    def prove(self, crate, tests, given, jobs):
        if not all(given[dep.name, "proof"] for dep in crate.below()):
            return self.tell(crate, tests, "a library below it is not proved")
        if tests and not crate.has_tests():
            return True
        room = self.kept / f"{crate.stamp()}-{'tests' if tests else 'proof'}"
        with open(self.kept / "locks" / room.name, "w") as lock:
            fcntl.flock(lock, fcntl.LOCK_EX)
            return self.prove_alone(crate, tests, room, jobs)

    def prove_alone(self, crate, tests, room, jobs):
        """The same of a crate that no other run is just proving; the folder is its place among what is kept."""
        out = pathlib.Path(crate.folder) / "out"
        is_library = not (tests or crate.is_program or crate.is_static)
        if is_library:
            shutil.rmtree(out / "rlib", ignore_errors=True)
        same = self.over_interfaces(crate, tests)
        kept = room if room.is_dir() else same.resolve() if self.by_interface and same.is_dir() else None
        if not kept:
            out.mkdir(exist_ok=True)
            begun = time.monotonic()
            why = self.check(crate, tests, jobs)
            if why:
                return self.tell(crate, tests, why)
            part = room.with_suffix(f".{os.getpid()}")
            shutil.rmtree(part, ignore_errors=True)
            part.mkdir()
            if is_library:
                link(out / "rlib", part / "rlib")
            part.rename(room)
            print(f"{crate.name}{' (tests)' if tests else ''} proved in {time.monotonic() - begun:.0f} s", flush=True)
        elif is_library:
            link(kept / "rlib", out / "rlib")
        with contextlib.suppress(FileExistsError):
            same.symlink_to(room)
        return True

    def check(self, crate, tests, jobs):
        """Why the crate or its tests aren't proved, or fail when they run; nothing if all is well."""
        rt, crate = self.rt, copy.copy(crate)
        with tempfile.TemporaryFile("w+", errors="replace") as crate.out:
            try:
                laid_out = tests or not rt.rtlib.fmt(crate.folder, "--check", crate.out)
                status = crate.ci(["--jobs", str(jobs)], tests) if laid_out else 1
            except SystemExit:
                status = 1
            crate.out.seek(0)
            said = self.kept / "said" / f"{crate.name}{'_tests' if tests else ''}"
            said.write_text(crate.out.read())
        if status:
            return f"not proved: {said}"
        made = f"{crate.folder}/out/{crate.name}{'_tests' if tests else ''}"
        ends = [end for end in rt.BACKENDS.values() if (tests or crate.is_program) and os.path.isfile(made + end)]
        return None if all(rt.run(crate, tests, end) for end in ends) else "proved, and it doesn't run as it should"

    def tell(self, crate, tests, why):
        self.failed.append(crate.name)
        print(f"{crate.name}{' (tests)' if tests else ''}: {why}", flush=True)
        return False


def link(folder, to):
    to.parent.mkdir(parents=True, exist_ok=True)
    subprocess.run(["cp", "-al", folder, to], check=True)


def main():
    words = argparse.ArgumentParser()
    words.add_argument("--tree", type=pathlib.Path, default=TREE)
    words.add_argument("--kept", type=pathlib.Path, default=pathlib.Path("/var/tmp/proved"))
    words.add_argument("--no-tests", action="store_true")
    words.add_argument("--by-interface", action="store_true")
    words.add_argument("crates", nargs="*", metavar="CRATE")
    asked = words.parse_args()
    kept = asked.kept.resolve()
    os.chdir(asked.tree)
    rt = kit()
    rt.Crate.allowed = rt.handles_of(os.getcwd())
    crates = rt.rtlib.crates_below(os.getcwd())
    if asked.crates:
        named = [crate for crate in crates if crate.name in asked.crates]
        wanted = {crate.name for crate in named} | {dep.name for crate in named for dep in crate.below()}
        crates = [crate for crate in crates if crate.name in wanted]
    crates.sort(key=lambda crate: len(crate.below()))
    proofs, tasks = Proofs(rt, kept, asked.by_interface), {}
    for crate in crates:
        waits, lines, memory = [(dep.name, "proof") for dep in crate.below()], crate.count(rb"\n"), rt.need(crate)
        for kind in ("proof",) if asked.no_tests else ("proof", "tests"):
            tests = kind == "tests"
            size = lines * crate.has_tests() if tests else lines
            call = lambda given, jobs, crate=crate, tests=tests: proofs.prove(crate, tests, given, jobs)
            tasks[crate.name, kind] = (waits, size, memory, call)
    rt.in_lanes(tasks)
    print(f"not well: {' '.join(sorted(set(proofs.failed)))}" if proofs.failed else "all well")
    return 1 if proofs.failed else 0


if __name__ == "__main__":
    sys.exit(main())
