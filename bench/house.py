#!/usr/bin/env python3
"""Counts what the house of this tree is made of, and prints it as a table.

    bench/house.py [--markdown] [TREE ..]

Other trees may be named, a column each: such as a clone of an older commit, and `.`. With --markdown the table is one for
docs/ARCHITECTURE.md, without the names of types. The counts:

- lines of `src/*.rt` in `crates/rr` and `crates/rr_*`, blank ones and comments too
- lines of bodies there: those between the braces of a function
- functions there, declared ones of traits too; the most in a crate, of those with a body; those with more than six parameters, `self`
  among these, and the most that one has
- which part of the comments there says why: the lines with a word of WHY, of all that don't begin with `//!`. Words tell it roughly
- traits there; and names that two structs, enums or `type`s have
- enums there with a variant Take, an event at a node that is told nothing
- enums of events in that code: those with Submit and Hear among their variants; and `data` types of events in the definitions:
  those with Submit and Hear among their constructors, and those with a constructor for a value of such a type
- pairs of places in that code with eight or more alike lines, as the command `duplicates` finds them, if the machine has it
- files of code, definitions and proofs that name an operation or its reply (`Transfer`, `Transferred`), a kind of message (`Nack`), or an
  input (`Advance`): about as many as one more of its kind has to touch
- libraries `rr_*`, and how many crates the longest chain of crates.txt has, each above the next
- lines of over 160 characters in definitions (`specs/*.antt`); imports don't count
- files of definitions and of lemmas without a first line that says what they define or show; lists of modules don't count (`Lib.antt`),
  nor what is written of a single function's proof"""
import argparse
import collections
import functools
import pathlib
import re
import shutil
import subprocess
import tempfile

EVENT = {"Submit", "Hear"}
OF_A_FUNCTION = {"Answers.antt", "Invariants.antt", "Proof.antt"}
WHY = re.compile(r"\b(?:because|since|so|otherwise|hence|therefore|lest)\b(?! (?:many|much|far|long|often|few|does|do|is|are)\b)", re.I)
VISIBLE = r"(?:pub(?:\([a-z]+\))? )?"

Function = collections.namedtuple("Function", "crate name parameters body")


def sources(tree):
    """The files of the product's code."""
    return [path for crate in ("rr", "rr_*") for path in sorted(tree.glob(f"crates/{crate}/src/**/*.rt"))]


def definitions(tree):
    return sorted(tree.glob("crates/*/specs/**/*.antt"))


def lines_of_code(tree):
    return [line for path in sources(tree) for line in path.read_text().splitlines()]


def behind(text, at):
    """Where the bracket ends that begins there, and the places of the commas between its parts."""
    depth, commas = 0, []
    for place in range(at, len(text)):
        # (the `>` of an arrow closes nothing)
        if text[place] in ")]}" or text[place] == ">" and text[place - 1] not in "-=":
            depth -= 1
        depth += text[place] in "([{<"
        if depth == 0:
            return place, commas
        if depth == 1 and text[place] == ",":
            commas.append(place)
    raise ValueError("a bracket without an end")


def functions_of(crate, text):
    """The functions of a source, each with its parameters, and with the lines of its body if it has one."""
    lines = text.split("\n")
    for found in re.finditer(rf"^( *){VISIBLE}(?:const )?fn (\w+)", text, re.M):
        opens = found.end() if text[found.end()] == "(" else behind(text, found.end())[0] + 1
        closes, commas = behind(text, opens)
        parts = [text[a + 1 : b] for a, b in zip([opens, *commas], [*commas, closes])]
        first = text.count("\n", 0, closes)
        # a declaration ends with `;`, a head with the brace that opens the body, in a line as far left as the function
        ends = re.compile(rf".*;$|{found[1]}(?:\S.*)?\{{\}}?$")
        last = next(at for at in range(first, len(lines)) if ends.match(lines[at]))
        body = None
        if lines[last].endswith("{"):
            body = lines[last + 1 : lines.index(found[1] + "}", last)]
        elif lines[last].endswith("{}"):
            body = []
        yield Function(crate, found[2], [part for part in parts if part.strip()], body)


def functions(tree):
    return [function for path in sources(tree) for function in functions_of(path.relative_to(tree).parts[1], path.read_text())]


def saying_why(tree):
    """Which part of the lines of comments says why, in percent."""
    comments = [line for line in lines_of_code(tree) if re.match(r" *//(?!!)", line)]
    return f"{100 * sum(bool(WHY.search(line)) for line in comments) / len(comments):.1f} %"


def named(tree, *kinds):
    """The names of what is defined there as one of these, each with how often."""
    found = re.compile(rf" *{VISIBLE}(?:{'|'.join(kinds)}) (\w+)")
    return collections.Counter(said[1] for line in lines_of_code(tree) if (said := found.match(line)))


def enums(text):
    """The enums of a source, each with its body and the names of its variants."""
    for indent, name, body in re.findall(rf"^( *){VISIBLE}enum (\w+)[^{{]*\{{\n(.*?)^\1\}}", text, re.M | re.S):
        yield name, body, set(re.findall(rf"^{indent}    ([A-Z]\w*)", body, re.M))


def data_types(text):
    """The data types of a file of definitions, each with its body and the names of its constructors."""
    for name, body in re.findall(r"^ *(?:pub )?data (\w+)[^\n]* where\n((?: [^\n]*\n)+)", text, re.M):
        yield name, body, {word for names in re.findall(r"^ +([A-Z][\w ]*) :", body, re.M) for word in names.split()}


def of_events(paths, types):
    """The types of events, each as CRATE::TYPE, and those made of one."""
    found = [(path.parent.parent.name, *told) for path in paths for told in types(path.read_text())]
    events = {(crate, name) for crate, name, _, names in found if EVENT <= names}
    made = {(crate, name) for crate, name, body, _ in found for of, event in events if of == crate and f": {event} →" in body}
    return [f"{crate}::{name}" for crate, name in sorted(events | made)]


def libraries_below(tree):
    """What crates.txt says: of each crate the crates of this tree that it uses."""
    lines = [line.partition(":") for line in (tree / "crates.txt").read_text().splitlines() if line.partition("#")[0].strip()]
    uses = {left.split()[0]: right.split() for left, _, right in lines}
    return {crate: [name for name in names if name in uses] for crate, names in uses.items()}


def longest_chain(uses):
    @functools.cache
    def chain(crate):
        return 1 + max(map(chain, uses[crate]), default=0)

    return max(map(chain, uses))


def alike(tree):
    """How many pairs of places have eight or more alike lines."""
    if not shutil.which("duplicates"):
        return "not counted: this machine has no `duplicates`"
    with tempfile.TemporaryDirectory() as room:
        for path in sources(tree):  # the command doesn't know the ending `.rt`
            copy = (pathlib.Path(room) / path.relative_to(tree)).with_suffix(".rs")
            copy.parent.mkdir(parents=True, exist_ok=True)
            shutil.copy(path, copy)
        words = ["duplicates", "--repo", room, "--min-lines", "8", "--most", "200", "--seconds", "600"]
        said = subprocess.run(words, capture_output=True, text=True).stdout
    found = re.search(r"\d+", said)
    whole = "" if "incomplete" not in said else ", not all read"
    return f"{found[0] if found else 0}{whole}"


def naming(tree, *words):
    """How many files of the product's code, definitions and proofs name one of these."""
    found = re.compile(rf"\b(?:{'|'.join(words)})\b")
    written = [path for folder in ("specs", "proofs") for path in tree.glob(f"crates/rr*/{folder}/**/*.antt")]
    return sum(bool(found.search(path.read_text())) for path in [*sources(tree), *written])


def too_long(tree):
    """How many lines of definitions are longer than 160 characters."""
    lines = (line for path in definitions(tree) for line in path.read_text().splitlines())
    return sum(len(line) > 160 and not re.match(r"(pub )?use ", line) for line in lines)


def lemmas(tree):
    """The files of lemmas: those that aren't written of a single function's proof."""
    return [path for path in tree.glob("crates/*/proofs/**/*.antt") if path.parent.name == "proofs" or path.name not in OF_A_FUNCTION]


def without_a_header(files):
    """How many of these files that aren't lists of modules don't begin with a comment."""
    return sum(not path.read_text().startswith("--") for path in files if path.name != "Lib.antt")


def counts(tree):
    uses, written = libraries_below(tree), functions(tree)
    events, types = of_events(sources(tree), enums), of_events(definitions(tree), data_types)
    of_crates = collections.Counter(function.crate for function in written if function.body is not None)
    parameters = [len(function.parameters) for function in written]
    found = [(path.relative_to(tree).parts[1], *told) for path in sources(tree) for told in enums(path.read_text())]
    taking = [f"{crate}::{name}" for crate, name, _, names in found if "Take" in names]
    return [
        ("product source lines (`rr` and `rr_*`)", f"{len(lines_of_code(tree)):,}"),
        ("lines of bodies", f"{sum(len(function.body or ()) for function in written):,}"),
        ("functions; most in a crate", f"{len(written):,}; {max(of_crates.values())}"),
        ("functions with more than 6 parameters; the most", f"{sum(count > 6 for count in parameters)}; {max(parameters)}"),
        ("lines of comments that say why", saying_why(tree)),
        ("own traits", sum(named(tree, "trait").values())),
        ("type names that are defined twice", sum(count > 1 for count in named(tree, "struct", "enum", "type").values())),
        ("enums with a variant `Take`", taking),
        ("enums of events in the code", events),
        ("types of them in definitions", types),
        ("pairs of places with eight or more alike lines", alike(tree)),
        ("files that name the operation `Transfer` or its reply", naming(tree, "Transfer", "Transferred")),
        ("files that name the message `Nack`", naming(tree, "Nack")),
        ("files that name the input `Advance`", naming(tree, "Advance")),
        ("libraries `rr_*`", sum((tree / f"crates/{crate}/src/lib.rt").is_file() for crate in uses if crate.startswith("rr_"))),
        ("longest chain of crates", longest_chain(uses)),
        ("lines of definitions over 160 characters", too_long(tree)),
        ("files of definitions without a header", without_a_header(definitions(tree))),
        ("files of lemmas without a header", without_a_header(lemmas(tree))),
    ]


def shown(number, markdown):
    if isinstance(number, list):
        return len(number) if markdown else f"{len(number)}: {', '.join(number)}"
    return number


def main():
    words = argparse.ArgumentParser()
    words.add_argument("--markdown", action="store_true")
    words.add_argument("trees", type=pathlib.Path, nargs="*", metavar="TREE")
    asked = words.parse_args()
    trees = asked.trees or [pathlib.Path(__file__).resolve().parent.parent]
    found = [counts(tree) for tree in trees]
    columns = [[shown(number, asked.markdown) for _, number in rows] for rows in found]
    if asked.markdown:
        print("| what |" + "".join(f" {tree} |" for tree in trees) + "\n|---|" + "---|" * len(trees))
    for (what, _), *numbers in zip(found[0], *columns):
        if asked.markdown:
            print(f"| {what} |" + "".join(f" {number} |" for number in numbers))
        else:
            print(f"{what.replace('`', ''):56}", *(f"{number:<12}" for number in numbers))


main()
