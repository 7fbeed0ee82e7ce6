#!/usr/bin/env python3
"""Checks that each link of the pages has an end: that the file is there, and a heading or an anchor of the name behind '#'.

    docs/links.py

Links to other machines aren't followed. It also checks that each file of the table "Where to change what" is there, and that
PROVED.md has a line for each file of a library's definitions, and for no other."""
import pathlib
import re
import sys

TREE = pathlib.Path(__file__).resolve().parent.parent
PAGES = ("*.md", "*/*.md", "docs/*/*.md", "crates/*/*.md")


def without_code(text):
    """The page without its programs and its quoted words."""
    return re.sub(r"`[^`\n]*`", "", re.sub(r"^ *```.*?^ *```", "", text, flags=re.M | re.S))


def anchors(text):
    """The names that the page's headings have, as readers of Markdown make them, and its own anchors."""
    headings = re.findall(r"^#+ (.*)$", re.sub(r"^ *```.*?^ *```", "", text, flags=re.M | re.S), re.M)
    names = [re.sub(r"[^\w\- ]", "", heading.lower()).replace(" ", "-") for heading in headings]
    return {*names, *re.findall(r'<a (?:id|name)="([^"]+)"', text)}


def dead_links(page):
    for link in re.findall(r"\]\(([^)\s]+)\)", without_code(page.read_text())):
        path, _, name = link.partition("#")
        if re.match(r"\w+:", link):
            continue
        end = page.parent / path if path else page
        if not end.exists():
            yield f"{page.relative_to(TREE)}: no file {link}"
        elif name and name not in anchors(end.read_text()):
            yield f"{page.relative_to(TREE)}: no heading {link}"


def part_of(page, heading):
    """What stands below a heading of a page, up to the next of its level."""
    return page.read_text().split(f"\n## {heading}\n")[1].split("\n## ")[0]


def files_to_change():
    """The files that the table names: definitions in its second column, code in its third. Words in parentheses are none."""
    for row in re.findall(r"^\| (.*) \|$", part_of(TREE / "docs/ARCHITECTURE.md", "Where to change what"), re.M)[1:]:
        crate = ""
        for cell, folder, ending in zip(row.split(" | ")[1:], ("specs", "src"), (".antt", ".rt")):
            for named, file in re.findall(r"\b(rr_\w+)\b|`(\w+)`", re.sub(r"\(.*?\)", "", cell)):
                crate = named or crate
                yield f"crates/{crate}/{folder}" + (f"/{file}{ending}" if file else "")


def misnamed_definitions():
    """What PROVED.md says wrongly of the files of definitions."""
    for part in re.split(r"^### ", (TREE / "docs/PROVED.md").read_text(), flags=re.M)[1:]:
        crate, _, lines = part.partition("\n")
        said = {name for line in re.findall(r"^- (`[^:]*):", lines.split("\n## ")[0], re.M) for name in re.findall(r"`(\w+)`", line)}
        there = {page.stem for page in TREE.glob(f"crates/{crate}/specs/*.antt")} - {"Lib"}
        yield from (f"docs/PROVED.md: no line for {name} of {crate}" for name in sorted(there - said))
        yield from (f"docs/PROVED.md: no file {name} of {crate}" for name in sorted(said - there))


def main():
    pages = sorted(page for places in PAGES for page in TREE.glob(places))
    dead = [line for page in pages for line in dead_links(page)]
    dead += [f"docs/ARCHITECTURE.md: no {path}" for path in files_to_change() if not (TREE / path).exists()]
    dead += misnamed_definitions()
    print("\n".join([*dead, f"{len(pages)} pages, {len(dead)} links or names without an end"]))
    sys.exit(bool(dead))


main()
