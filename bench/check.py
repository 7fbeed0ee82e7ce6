#!/usr/bin/env python3
"""Checks what was changed, in seconds or minutes: one function, a crate, or what stands on it.

    bench/check.py CRATE FUNCTION ..     these functions, over what earlier checks kept
    bench/check.py CRATE                 the whole crate, over what earlier checks kept
    bench/check.py CRATE --above         the crate from nothing, then each crate that stands on it
    bench/check.py CRATE FUNCTION .. -- --allow-holes        with more words for `rattle check`

A function is named by its path, as numbered::Numbered::get, or by the end of its name. A module or a type stands for all in it.
Libraries below come from what bench/prove.py keeps; one that is not kept is proved from nothing first, which is told. With --above
a crate stays as it is where it was proved before over libraries of the same interface: a changed body leaves all above alone. What
the check of a crate keeps lies in its folder out/check. The verdict is the gate's, which takes nothing from here."""
import argparse
import os
import pathlib
import subprocess
import sys
import time

sys.dont_write_bytecode = True
import prove


def checked(rt, crate, functions, jobs, more):
    """Runs a check of a crate or of some of its functions over what earlier ones kept, and gives its status."""
    only = [word for function in functions for word in ("--only", function)]
    words = crate.words([*only, "--jobs", str(jobs), *more], keeps=False)
    whole = [*rt.rtlib.guarded(), rt.rtlib.RATTLE, "check", *words, "--incremental", "out/check"]
    ran = subprocess.Popen(whole, cwd=crate.folder, stdin=subprocess.DEVNULL, stdout=subprocess.PIPE, stderr=subprocess.STDOUT, text=True)
    for line in ran.stdout:
        # (what holds as before is no news)
        if not line.startswith(("statements ", "logic /")) and not line.endswith(": proved\n"):
            print(line, end="", flush=True)
    return ran.wait()


def main():
    words = argparse.ArgumentParser(usage="bench/check.py CRATE [FUNCTION ..] [--above] [-- WORD ..]")
    words.add_argument("--tree", type=pathlib.Path, default=prove.TREE)
    words.add_argument("--kept", type=pathlib.Path, default=pathlib.Path("/var/tmp/proved"))
    words.add_argument("--jobs", type=int, default=1)
    words.add_argument("--above", action="store_true")
    words.add_argument("crate", metavar="CRATE")
    words.add_argument("functions", nargs="*", metavar="FUNCTION")
    given = sys.argv[1:]
    at = given.index("--") if "--" in given else len(given)
    asked, more = words.parse_args(given[:at]), given[at + 1 :]
    begun, kept = time.monotonic(), asked.kept.resolve()
    os.chdir(asked.tree)
    rt = prove.kit()
    rt.Crate.allowed = rt.handles_of(os.getcwd())
    crates = sorted(rt.rtlib.crates_below(os.getcwd()), key=lambda it: len(it.below()))
    crate = next((it for it in crates if it.name == asked.crate), None)
    if crate is None:
        return f"check: crates.txt names no crate {asked.crate}"
    proofs, are_proved = prove.Proofs(rt, kept, by_interface=True), {}
    above = [it for it in crates if crate.name in {dep.name for dep in it.below()}] if asked.above else []
    for it in crates:
        is_below = any(it.name in {dep.name for dep in user.below()} for user in [crate, *above])
        if is_below and it.name != crate.name and it not in above:
            are_proved[it.name, "proof"] = proofs.prove(it, False, are_proved, asked.jobs)
    status = checked(rt, crate, asked.functions, asked.jobs, more) if not proofs.failed and not asked.above else len(proofs.failed)
    for it in [crate, *above] if asked.above and not status else ():
        are_proved[it.name, "proof"] = proofs.prove(it, False, are_proved, asked.jobs)
    status = status or len(proofs.failed)
    what = f"{crate.name} and {len(above)} crates above it" if asked.above else " ".join([crate.name, *asked.functions])
    print(f"check: {what}: {'not proved' if status else 'proved'}, {time.monotonic() - begun:.0f} s; the verdict is the gate's")
    return 1 if status else 0


if __name__ == "__main__":
    sys.exit(main())
