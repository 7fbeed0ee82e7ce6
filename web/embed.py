#!/usr/bin/env python3
"""Makes sources of rr_cli of the files beside it: parts.rt with the page around the run's data, its picture and its script, and
run_script.rt and page_script.rt with the script.

    web/embed.py [--check]

With --check it compares, and ends with 1 where a file differs. The gate runs it so."""
import pathlib
import sys

FOLDER = pathlib.Path(__file__).resolve().parent
SOURCES = FOLDER.parent / "crates/rr_cli/src"


def constant(name, about, text):
    text.encode("ascii")
    spelled = text.replace("\\", "\\\\").replace('"', '\\"')
    return f'/// {about}\npub(crate) const {name}: &[u8] = b"{spelled}";\n'


def source(about, *constants):
    return f"//! {about} `web/embed.py` makes this file of those beside it.\n\n" + "\n".join(constants)


def sources():
    """What each source is, by its name."""
    page = (FOLDER / "page.html").read_text().replace("{{page.css}}", (FOLDER / "page.css").read_text())
    run, drawing = ((FOLDER / name).read_text() for name in ("run.js", "page.js"))
    front, rest = page.split("{{data}}")
    middle, rest = rest.split("{{picture}}")
    back, rest = rest.split("{{run.js}}")
    between, end = rest.split("{{page.js}}")
    return {
        "parts.rt": source(
            "The parts of a page that are the same in all, but for its script.",
            constant("FRONT", "The page up to the data of the run.", front),
            constant("MIDDLE", "The page between the data of the run and its picture.", middle),
            constant("BACK", "The page between its picture and its script.", back),
            constant("END", "The page behind its script.", end)),
        "run_script.rt": source(
            "The first half of a page's script: it reads the data of the run.",
            constant("RUN_SCRIPT", "What the script makes of the data of the run.", run + between)),
        "page_script.rt": source(
            "The other half of a page's script: it lays the picture out, and answers clicks and keys.",
            constant("PAGE_SCRIPT", "How the script shows the run.", drawing)),
    }


def main():
    for name, made in sources().items():
        if "--check" not in sys.argv[1:]:
            (SOURCES / name).write_text(made)
        elif not (SOURCES / name).is_file() or (SOURCES / name).read_text() != made:
            sys.exit(f"crates/rr_cli/src/{name} isn't what web/embed.py makes")
    if "--check" in sys.argv[1:]:
        print("web/embed.py: rr_cli has the page of web/")


main()
