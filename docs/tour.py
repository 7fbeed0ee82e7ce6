#!/usr/bin/env python3
"""The commands of docs/TOUR.md, and what they print.

    docs/tour.py [--rr RR]            runs them, and compares with docs/TOUR.md; the status is 1 where something differs
    docs/tour.py --write [--rr RR]    writes docs/TOUR.md

RR is a program without proofs, as `./build` makes it: its --version says so, and the page shows that. If it's left out, it is
built here. The commands run in a fresh folder, in which examples and bench are the repository's. Standard output and
standard error are shown in the order in which they come."""
import argparse
import difflib
import os
import pathlib
import subprocess
import sys
import tempfile

TOP = pathlib.Path(__file__).resolve().parent.parent
PAGE = TOP / "docs" / "TOUR.md"
HEAD = """# A tour

What a new user does, with what `rr` prints. A line `status N` is the exit status, if it isn't 0. [FORMATS.md](FORMATS.md) has the texts and
the bytes. `docs/tour.py` runs these commands and makes this page, and the gate compares it with what they print then.

To follow it by hand, run `./build` at the top of the repository. Then begin in an empty folder, with the repository's folder for REPO:

    ln -s REPO/examples REPO/bench .
    mkdir bin; ln -s REPO/rr-unproved bin/rr; PATH=$PWD/bin:$PATH
"""

TOUR = [
    (
        "A registry to talk to",
        "`rr shell` answers line by line, to a person or through a pipe. What it answered holds after a restart, and request numbers continue. "
        "A look answers from what its node has seen, which may be less than another node has acknowledged. After a `sync` it has all of that. "
        "A node that is stopped goes down as by a crash, and opens its folder when it is started. Without a majority nothing is decided: the "
        "command `claim bell` may count later, or not. A `watch` tells each change of the names that begin so, as its node publishes it: "
        "here the command counts once a majority is back.",
        [
            "printf 'claim printer room-4\\nlook printer\\nupdate printer room-5\\nat 1\\nclaim printer\\nclaim A\\n' | rr shell --nodes 3 --dir talk --client 7",
            "printf 'look printer\\ntransfer printer 9\\nrelease printer\\n' | rr shell --nodes 3 --dir talk --client 7; cat talk/requests",
            "printf 'claim room-5 desk\\nclaim room-12\\nlist room-\\nlist\\n' | rr shell --nodes 3 --dir talk --client 7",
            "printf 'stop 2\\nclaim lamp hall\\nat 2\\nlook lamp\\nstart 2\\nclaim desk\\nlook lamp\\n' | rr shell --nodes 3 --dir talk --client 7",
            "printf 'claim key hook\\nat 2\\nsync\\nlook key\\n' | rr shell --nodes 3 --dir talk --client 8",
            "(printf 'stop 1\\nstop 2\\nclaim cord rope\\nstart 1\\nwatch co\\n'; sleep 15) | rr shell --nodes 3 --dir watched --client 7 --tick 400",
            "printf 'stop 1\\nstop 2\\nstatus\\nclaim bell\\nlook lamp\\nstart 1\\nclaim clock\\n' | rr shell --nodes 3 --dir talk --client 7 --tick 20 | sed 's/ facts.*//'",
            "printf 'look lamp\\nclaim lamp\\nclaim LAMP\\n' | rr shell --nodes 3 --dir talk --client 8 --json",
            "echo 'snapshot 0' | rr shell --nodes 3 --dir talk; rr show talk/0 | sed 's/ facts.*//'",
            "printf 104857 > talk/requests; echo 'look printer' | rr shell --nodes 3 --dir talk",
            "rr shell -c 'claim printer room-4' -c 'look printer'; ls rr-data",
            "rr shell --strict -c 'claim printer' -c 'look printer'",
            "printf '  claim   fork\\tdrawer \\nClaim spoon\\nlok fork\\nlook fork spoon\\nupdate fork a b\\nhelp claim\\n' | rr shell",
            "echo help | rr shell",
            "rr shell --strict -c 'look fork' -c 'look nobody' -c 'look fork'",
            "printf 'look printer\\r\\nclaim a.b\\nclaim a_b\\nexit\\nlook printer\\n' | rr shell",
            "printf 'stop 0\\nat 1\\nstop 2\\nclaim bell\\nstart 2\\nagain\\n' | rr shell",
        ],
    ),
    (
        "Folders that know each other",
        "A node whose folder is lost may have promised what it no longer knows. It isn't taken for a fresh one, nothing is written, and no folder "
        "is made. With the folder back the cluster goes on. With `--without 2` it goes on without the folder of node 2, which stays down until "
        "the folder is back and `start 2` opens it. If its disk is lost for good, `rr replace` gives node 2 a new folder, by what the others have "
        "decided, and the old one is refused from then on.",
        [
            "printf 'claim a x\\nclaim b\\n' | rr shell --nodes 3 --dir kin --client 7; ls kin",
            "mv kin/0 lost; echo 'claim a thief' | rr shell --nodes 3 --dir kin --client 9; ls kin",
            "mv lost kin/0; mv kin/1/a0 lost; : > kin/1/a0; echo 'claim a thief' | rr shell --nodes 3 --dir kin --client 9",
            "mv lost kin/1/a0; echo 'look a' | rr shell --nodes 5 --dir kin; ls kin",
            "mv kin/1 aside; mv kin/2 kin/1; mv aside kin/2; echo 'look a' | rr shell --nodes 3 --dir kin",
            "mv kin/1 aside; mv kin/2 kin/1; mv aside kin/2; printf 'look a\\nclaim a thief\\n' | rr shell --nodes 3 --dir kin --client 9",
            "mv kin/2 lost; printf 'claim c\\nstart 2\\nstatus\\n' | rr shell --dir kin --client 7 --without 2 | sed 's/ facts.*//'; mv lost kin/2",
            "mv kin/2 lost; rr replace kin --node 2 | sed 's/: [0-9]* /: N /'; rr verify kin | tail -n 1",
            "mv kin/2 new; mv lost kin/2; echo 'look a' | rr shell --nodes 3 --dir kin",
        ],
    ),
    (
        "Help",
        "`-h` is short, and `--help` also has the format and two examples.",
        [
            "rr --version",
            "rr sim -h",
            "rr check --help",
            "rr simulate examples/one_command.schedule",
        ],
    ),
    (
        "Nodes in threads, disks and tapes",
        "`rr run` runs nodes in threads. `rr show` reads the two files of a node's disk, `rr migrate` opens one of version 1, and `rr audit` reads a record of what nodes did.",
        [
            "rr run --nodes 3 --dir nodes --script examples/three_clients.script",
            "printf 'submit 0 8 2 claim printer\\nlook 0 printer\\nlook 0 attic\\n' | rr run --nodes 3 --dir nodes --script - --json",
            "mkdir node; bench/areas.py node 64; rr show node; rr show --json node",
            "printf '\\377' | dd of=node/a0 bs=1 seek=7 conv=notrunc status=none; rr show node",
            "cp -r examples/version_1 v1; rr show v1",
            "rr migrate v1 --node 0 --nodes 1",
            "rr audit examples/one_command.tape",
            "sed 3d examples/one_command.tape | rr audit",
            "rr audit --json examples/one_command.tape; sed 3d examples/one_command.tape | rr audit --json 2> told",
            "echo 'submit 1 7 1 claim desk' | rr run --nodes 3 --dir nodes --script -",
        ],
    ),
    (
        "Tapes, explained, counted and drawn",
        "`examples/three_clients.tape` is a tape of the script above. It is explained and counted as the run of a schedule is, and drawn: here "
        "are the first titles of the picture.",
        [
            "rr audit --explain examples/three_clients.tape | head -9",
            "rr audit --explain --json examples/three_clients.tape | head -2",
            "rr stats examples/three_clients.tape",
            "rr draw examples/three_clients.tape | grep -o '<title>[^<]*' | sed -n 1,3p",
            "sed 3d examples/one_command.tape | rr stats",
            "sed '8s/hear/here/' examples/three_clients.tape | rr draw",
            "printf 'nodes 1\\ntick 0\\n' | rr stats --tape | head -2",
        ],
    ),
    (
        "The folders of a cluster",
        "`rr verify` reads the folders of all nodes and says whether they agree. `rr export` prints the registry as a script of claims, and "
        "a new cluster goes on from it, also if a folder is lost.",
        [
            "rr verify nodes | sed 's/ facts.*//'",
            "rr verify --json nodes | sed 's/,\"facts.*/}/'",
            "rr export nodes > claims.script; cat claims.script",
            "rr export --json nodes",
            "rr run --nodes 5 --dir new --script claims.script; rr export new | cmp - claims.script",
            "cp -r nodes odd; sed -i 's/room-4/room-9/g' odd/2/a0 odd/2/a1; echo 'look printer' | rr shell --nodes 3 --dir odd",
            "mv nodes/1 lost; rr verify nodes > told; echo status $?; sed 's/ facts.*//' told",
            "rr export --list new",
        ],
    ),
    (
        "A run, and its explanation",
        "`rr sim` runs a schedule and reports what happened. `--explain` adds a note on each event, also on one that was refused or did nothing. "
        "`--finish` goes on from the end of a schedule: here from the first lines of an example, up to the example's own end.",
        [
            "rr sim examples/failed_write.schedule",
            "rr sim --explain examples/failed_write.schedule | sed -n '/line 27/,/line 31/p'",
            "printf 'nodes 2\\nsend 0\\nrestart 0\\nhear 1 5\\nfail 0 A5\\nack 0\\n' > lost.schedule; rr sim --explain lost.schedule",
            "rr sim --json lost.schedule",
            "rr sim --json --explain lost.schedule | head -3",
            "head -30 examples/one_command.schedule > cut.schedule; rr sim --finish --schedule-only cut.schedule",
            "rr sim --finish cut.schedule | rr check examples/one_command.schedule -",
            "head -120 examples/two_of_seven_down.schedule > cut.schedule; rr sim cut.schedule | tail -1; rr sim --finish cut.schedule | tail -2",
        ],
    ),
    (
        "Counts, and a comparison",
        "`rr stats` counts what happens in a run. `rr check` compares its report with a text, and prints nothing if they are the same.",
        [
            "rr stats examples/tie_of_two_commands.schedule",
            "rr stats --json lost.schedule",
            "rr sim examples/one_command.schedule > expected.report; rr check examples/one_command.schedule expected.report",
            "sed -i 's/ack 0 1$/ack 0 2/' expected.report; rr check examples/one_command.schedule expected.report",
        ],
    ),
    (
        "Faults that explain",
        "A fault has a first line for programs, and a second for people: where it is, what stands there, and what is expected.",
        [
            "printf 'nodes 3\\nsubmit 0 7 1 klaim a x\\n' | rr sim",
            "printf 'nodes 3\\nsubmit 3 7 1 claim a x\\n' > far.schedule; rr sim --explain far.schedule",
            "printf 'nodes 3\\r\\ntick 0\\r\\n' | rr stats -",
            "rr sim nowhere.schedule",
            "rr verify nowhere",
            "rr sim examples/one_command.tape",
            "rr audit examples/one_command.schedule",
        ],
    ),
    (
        "Schedules that are drawn",
        "Most events of a random schedule do nothing. Most of a lively one do something, and much is decided.",
        [
            "rr random --seed 1 --steps 3 --nodes 1",
            "rr random --json --seed 1 --steps 3 --nodes 1",
            "rr random --json --schedule-only --seed 1 --steps 3 --nodes 1",
            "rr random --schedule-only --seed 1 --steps 2000 --nodes 3 | rr sim | grep '^decided'",
            "rr random --schedule-only --lively --seed 1 --steps 2000 --nodes 3 | rr stats",
            "rr random --lively --faults 1001 --seed 1 --steps 3 --nodes 3",
        ],
    ),
    (
        "Sweeps and pictures",
        "`rr sweep` crashes a node after each device call, in five ways. `rr draw` prints a picture; here are the first two of its titles.",
        [
            "rr sweep --seed 0 examples/one_command.schedule | grep '^40 '",
            "rr draw examples/suspected_coordinator.schedule | grep -o '<title>[^<]*' | sed -n 1,2p",
            "rr draw --from 9 --to 8 examples/suspected_coordinator.schedule",
            "rr draw --instance 5 examples/suspected_coordinator.schedule",
            "rr draw --html examples/suspected_coordinator.schedule > run.html; sed 2q run.html; grep -c '<title>line' run.html",
        ],
    ),
]


def build(room):
    """The program, built without proofs."""
    subprocess.run([TOP / "hostile" / "unproved", "rr", f"{room}/rr"], check=True)
    return pathlib.Path(room) / "rr"


def lay_out(room, program):
    """The folder in which the commands run."""
    place = pathlib.Path(room) / "place"
    (place / "bin").mkdir(parents=True)
    (place / "bin" / "rr").symlink_to(program.resolve())
    for name in ("examples", "bench"):
        (place / name).symlink_to(TOP / name)
    return place


def told(place, command):
    """A command with what it prints and its status."""
    ran = subprocess.run(
        ["bash", "-c", "set -o pipefail; " + command],
        cwd=place,
        stdin=subprocess.DEVNULL,
        stdout=subprocess.PIPE,
        stderr=subprocess.STDOUT,
        env={"PATH": f"{place}/bin:/usr/bin:/bin", "LC_ALL": "C.UTF-8"},
        timeout=60,
    )
    text = f"$ {command}\n" + ran.stdout.decode()
    if not text.endswith("\n"):
        text += "\n"
    return text + (f"status {ran.returncode}\n" if ran.returncode else "")


def page(program, room):
    place = lay_out(room, program)
    parts = [HEAD]
    for title, words, commands in TOUR:
        parts.append(f"\n## {title}\n\n{words}\n")
        for command in commands:
            lines = told(place, command).rstrip("\n").split("\n")
            parts.append("\n" + "".join(f"    {line}".rstrip() + "\n" for line in lines))
    return "".join(parts)


def main():
    words = argparse.ArgumentParser(description=__doc__, formatter_class=argparse.RawDescriptionHelpFormatter)
    words.add_argument("--write", action="store_true")
    words.add_argument("--rr", type=pathlib.Path)
    asked = words.parse_args()
    with tempfile.TemporaryDirectory() as room:
        program = asked.rr or build(room)
        made = page(program, room)
    if asked.write:
        PAGE.write_text(made)
        return
    kept = PAGE.read_text()
    if made != kept:
        sys.stdout.writelines(difflib.unified_diff(kept.splitlines(True), made.splitlines(True), "docs/TOUR.md", "now"))
        sys.exit("docs/tour.py: docs/TOUR.md isn't what the commands print now; docs/tour.py --write makes it anew")
    count = sum(len(commands) for _, _, commands in TOUR)
    print(f"docs/tour.py: {count} commands print what docs/TOUR.md has")


main()
