#!/usr/bin/env python3
"""The example on the first page of each library, which is a program's text that the gate builds.

    docs/first_pages.py --check    the status is 1 where the page of a library has no example, or another than its source
    docs/first_pages.py --write    writes the examples into the pages; the libraries are to be proved anew then

The first page of `rr_x` is the comment at the head of `crates/rr_x/src/lib.rt`. Its example is the file `crates/first_pages/src/x.rt`
without the comment at its head, or what ITEMS names of another crate. It stands at the page's end, under the heading `Example`. The
pages of PLACED are written by hand: their program has to stand in the file that is named there."""
import difflib
import pathlib
import sys

CRATES = pathlib.Path(__file__).resolve().parent.parent / "crates"
PLACED = {
    "rr_audit": "worked_rows/src/audits.rt",
    "rr_client": "one_cluster/src/main.rt",
    "rr_core": "one_node/src/main.rt",
    "rr_sim": "worked_rows/src/areas.rt",
    "rr_threads": "turnstile_tests/src/tests/asking.rt",
}
# An item of a file: the line with which it begins, of its doc comment or its own. It ends with the first line that is a brace alone.
ITEMS = {
    "rr_cli": ("worked_rows/src/old_folders/folder.rt", "/// Runs `rr` by the words of a line."),
    "rr_run": ("rr/src/main.rt", "fn main("),
    "rr_turn": ("rr_threads/src/node_loop.rt", "/// Runs the turns of a node"),
}
HEADING = "//! # Example"


def libraries():
    """The libraries for Rattle, as crates.txt lists them. One for C has its examples in C."""
    names = [line.partition(":")[0].split() for line in (CRATES.parent / "crates.txt").read_text().splitlines()]
    return [name[0] for name in names if name and name[0].startswith("rr_") and "staticlib" not in name]


def item_of(source, begin):
    """The lines of an item of a file."""
    lines = (CRATES / source).read_text().splitlines()
    at = next((number for number, line in enumerate(lines) if line.startswith(begin)), None)
    if at is None:
        sys.exit(f"docs/first_pages.py: crates/{source} has no line that begins with {begin!r}")
    return lines[at : lines.index("}", at) + 1]


def example_of(library):
    """Where the example of a library stands, and its lines."""
    if library in ITEMS:
        source, begin = ITEMS[library]
        return source, item_of(source, begin)
    source = f"first_pages/src/{library.removeprefix('rr_')}.rt"
    if not (CRATES / source).exists():
        sys.exit(f"docs/first_pages.py: {library} has no example: crates/{source} is missing")
    lines = [line for line in (CRATES / source).read_text().splitlines() if not line.startswith("//!")]
    return source, lines[next(number for number, line in enumerate(lines) if line) :]


def split_page(text):
    """The lines of a first page, and those behind it."""
    lines = text.splitlines()
    end = next(number for number, line in enumerate(lines) if not line.startswith("//!"))
    return lines[:end], lines[end:]


def with_example(library, text):
    """The text of a library's root with the example at the end of its page."""
    page, rest = split_page(text)
    if HEADING in page:
        page = page[: page.index(HEADING)]
    while page[-1] == "//!":
        page.pop()
    source, example = example_of(library)
    told = ["//!", HEADING, "//!", f"//! This is in `crates/{source}`:", "//!", "//! ```rust"]
    shown = [f"//! {line}".rstrip() for line in example]
    return "\n".join([*page, *told, *shown, "//! ```", *rest]) + "\n"


def placed_fault(library, text):
    """What is wrong with a page that is written by hand, or nothing."""
    page = [line.removeprefix("//!").removeprefix(" ") for line in split_page(text)[0]]
    if page.count("```rust") != 1:
        return "its page has no program, or several"
    program = page[page.index("```rust") + 1 :]
    program = "\n".join(program[: program.index("```")]) + "\n"
    return None if program in (CRATES / PLACED[library]).read_text() else f"its program isn't in crates/{PLACED[library]}"


def main():
    if sys.argv[1:] not in (["--check"], ["--write"]):
        sys.exit(__doc__)
    names, faults, written = libraries(), [], 0
    for library in names:
        root = CRATES / library / "src" / "lib.rt"
        text = root.read_text()
        if library in PLACED:
            fault = placed_fault(library, text)
            faults += [f"{library}: {fault}"] if fault else []
            continue
        wanted = with_example(library, text)
        if wanted == text:
            continue
        if sys.argv[1] == "--write":
            root.write_text(wanted)
            written += 1
        else:
            change = list(difflib.unified_diff(text.splitlines(), wanted.splitlines(), "its page", "its example", lineterm="", n=0))
            faults.append(f"{library}: its page has no example, or another one\n" + "\n".join(change[:12]))
    if faults:
        sys.exit("\n".join(["docs/first_pages.py:", *faults, "docs/first_pages.py --write writes the examples"]))
    print(f"docs/first_pages.py: {len(names)} libraries have an example" + (f"; {written} pages are new" if written else ""))


main()
