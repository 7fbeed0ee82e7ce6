"""Very many schedules, areas, messages, tapes and scripts that seeds alter, given to rr's libraries and to plain Rust.

The plain Rust program draws them and compares the answers; so a mutant takes some ten microseconds, and no program is
started for it. A failure names the seed: `hostile/run --seed SEED --count 1 many` runs that one alone.
"""
import re
import shutil
import subprocess

from harness import DATA, TREE, Tally

SHARE = 10000
MUCH = 50
LINE = re.compile(r"(\w+) status (\d+): (\d+)")
ENDINGS = {"0": "read", "1": "read, and written otherwise", "3": "faults", "4": "damaged", "5": "malformed", "7": "refused"}


def tasks(options):
    first, last = options.seed, options.seed + options.count * MUCH
    print(f"many: seeds {first} to {last - 1}", flush=True)
    return [(start, min(SHARE, last - start)) for start in range(first, last, SHARE)]


def work(rig, options, task):
    seed, count = task
    tally = Tally()
    stock = stocked(rig)
    with open(rig.path("mutants"), "wb") as file:
        subprocess.run([options.plain, "mutate", stock, str(seed), str(count)], stdout=file, check=True)
    with open(rig.path("mutants"), "rb") as asked, open(rig.path("answers"), "wb") as answers:
        status = subprocess.run([rig.many], cwd=rig.folder, stdin=asked, stdout=answers, env={}, check=False).returncode
    tally.check(status == 0, f"seeds {seed} to {seed + count - 1}: status {status}")
    with open(rig.path("answers"), "rb") as answers:
        judged = subprocess.run([options.plain, "judge", stock, str(seed), str(count)], stdin=answers, capture_output=True, text=True, check=False)
    total = re.fullmatch(r"(?s).*?(\d+) passed, (\d+) failed\n", judged.stdout)
    if tally.check(total, f"seeds {seed} to {seed + count - 1}: no judgement, {judged.stderr[:200]}"):
        tally.passed += int(total[1])
        for kind, ending, number in LINE.findall(judged.stdout):
            tally.counts[f"{kind}, {ENDINGS.get(ending, ending)}"] += int(number)
        failed = [line for line in judged.stdout.splitlines() if line.startswith("FAILED")]
        tally.failures += [line.removeprefix("FAILED ") for line in failed] + ["and more"] * (int(total[2]) - len(failed))
    return tally


def stocked(rig):
    """The folder of what mutants are made of, made once for each process."""
    stock = rig.path("stock")
    if not getattr(rig, "is_stocked", False):
        rig.is_stocked = True
        rig.write("stock/none", b"")
        for folder, ending in ((DATA, "schedule"), (DATA, "tape"), (TREE / "hostile", "tape"), (TREE / "hostile", "script"), (TREE / "examples", "script")):
            for path in folder.glob(f"*.{ending}"):
                shutil.copy(path, stock)
    return stock
