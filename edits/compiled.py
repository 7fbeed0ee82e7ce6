"""The edits that the compiler must refuse: tried on copies of the repository, side by side, each must be refused with its error.

The kit's gate can't try them: its must-fail edits have to compile, and it is the prover that refuses those. `edits/try.py --compiler` does.

One copy takes several edits. One is refused there if an error that names its own line has its words. The others are tried again
without those that were refused, as the compiler tells some errors only where there are no others; one is tried alone where nothing
was refused."""
import concurrent.futures
import os
import pathlib
import re
import subprocess
import tempfile

TREE = pathlib.Path(__file__).resolve().parent.parent
BEGINS = re.compile(r"^edit: (\S+)\n", re.MULTILINE)


def edits_beside(folder):
    """The edits in the files of a folder: the crate of each, its name, and its lines."""
    for file in sorted(folder.glob("*.edits")):
        parts = BEGINS.split(file.read_text())
        for name, text in zip(parts[1::2], parts[2::2]):
            yield file.stem, name, text.rstrip("\n") + "\n"


def is_for_compiler(text):
    """Whether the compiler must refuse the edit with these lines, and not the prover."""
    return re.search("^error: ", text, re.MULTILINE) is not None


class Edit:
    """An edit: a line of a file that is replaced, the crate that shows it, and the error."""

    def __init__(self, crate, name, text):
        field = lambda name: re.search(rf"^{name}: (.*)$", text, re.MULTILINE).group(1)
        self.name, self.old, self.new, self.error = name, field("old"), field("new"), field("error")
        self.file = f"crates/{crate}/{field('file')}"
        # the program, or the crate of tests behind the word `shown`, which is smaller
        self.crate = field("shown") if re.search("^shown: ", text, re.MULTILINE) else None

    def front(self):
        """What the edit puts before the old text; all of the new text if it doesn't keep the old one behind it."""
        return self.new.removesuffix(self.old.strip())

    def change(self, text, shared):
        """The text with the edit. If others share its old text, what it puts before that gets a line of its own."""
        return text.replace(self.old, f"{self.front()}\n{self.old}" if shared else self.new)

    def is_refused_by(self, said, text):
        """Whether what the compiler said has the error, at the edit's own line of the changed file."""
        line = text[: text.index(self.front())].count("\n") + 1
        found = re.findall(rf"^\S*/{re.escape(self.file)}:{line}:\d+: error(.*)$", said, re.MULTILINE)
        return any(self.error in told for told in found)


def share(edit, other):
    """Whether both edits change the same line."""
    return edit is not other and (edit.file, edit.old) == (other.file, other.old)


def together(edits):
    """The first of the edits, with those behind it that can be made in one copy with all before them."""
    chosen = []
    for edit in edits:
        others = [other for other in chosen if share(edit, other)]
        if not others or all(one.front() != one.new for one in [edit, *others]):
            chosen.append(edit)
    return chosen


def tried(edits):
    """Tries some edits in one copy: those that were refused, and what the compiler said."""
    with tempfile.TemporaryDirectory() as copy:
        subprocess.run(["git", "clone", "--quiet", str(TREE), copy], check=True)
        path_of = lambda edit: pathlib.Path(copy, edit.file)
        for edit in edits:
            text = path_of(edit).read_text()
            if text.count(edit.old) != 1:
                return [], f"the old text of {edit.name} doesn't stand there once"
            path_of(edit).write_text(edit.change(text, any(share(edit, other) for other in edits)))
        command = ["rt", "try", "--test"] if edits[0].crate else ["rt", "try", "--", "--version"]
        ran = subprocess.run(command, cwd=pathlib.Path(copy, "crates", edits[0].crate or "rr"), capture_output=True, text=True)
        said = ran.stdout + ran.stderr
        return [edit for edit in edits if ran.returncode != 0 and edit.is_refused_by(said, path_of(edit).read_text())], said


def try_all(edits):
    """Tries the edits that one crate shows: each that isn't refused, with what was said of it alone."""
    while edits:
        chosen = together(edits)
        refused, said = tried(chosen)
        if not refused and len(chosen) > 1:
            chosen = chosen[:1]
            refused, said = tried(chosen)
        if not refused:
            yield chosen[0], "it was not refused with its error:\n" + said
            refused = chosen
        else:
            yield from ((edit, None) for edit in refused)
        edits = [edit for edit in edits if edit not in refused]


def try_all_edits(folder):
    """Tries the compiler's edits in the files of a folder, and gives the status."""
    edits = [Edit(*it) for it in edits_beside(folder) if is_for_compiler(it[2])]
    crates = sorted({edit.crate for edit in edits}, key=lambda crate: -sum(edit.crate == crate for edit in edits))
    failed = 0
    with concurrent.futures.ThreadPoolExecutor(len(os.sched_getaffinity(0))) as pool:
        for told in pool.map(lambda crate: list(try_all([edit for edit in edits if edit.crate == crate])), crates):
            for edit, fault in told:
                failed += fault is not None
                print(edit.name, "refused" if fault is None else fault, flush=True)
    return failed != 0
