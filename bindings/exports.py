"""The exports of the library for C, as their own text has them: crates/rr_c/src/lib.rt, and the structs of crates/rr_c/src/shown.rt."""
import pathlib
import re

TREE = pathlib.Path(__file__).resolve().parent.parent
LIBRARY = TREE / "crates" / "rr_c" / "src" / "lib.rt"
STRUCTS = TREE / "crates" / "rr_c" / "src" / "shown.rt"
DOCS = r"((?:///[^\n]*\n)*)"


def prose(lines):
    """The words of a doc comment."""
    return " ".join(line.removeprefix("///").strip() for line in lines.splitlines())


def structs():
    """The structs that cross, but for the handle: name, comment, and fields with their types."""
    for docs, name, body in re.findall(DOCS + r"#\[repr\(C\)\]\n#\[derive[^\n]*\npub struct (\w+) \{\n(.*?)\n\}", STRUCTS.read_text(), re.DOTALL):
        yield name, prose(docs), re.findall(r"pub (\w+): (\w+)", body)


def exports():
    """The functions: name, comment, parameters with their types, and the type of the answer, if it has one."""
    found = re.findall(DOCS + r'#\[unsafe\(no_mangle\)\]\npub extern "C" fn (\w+)\((.*?)\)(?: -> (\w+))?\s*(?:requires|ensures|\{)', LIBRARY.read_text(), re.DOTALL)
    for docs, name, given, answer in found:
        parameters = re.findall(r"(\w+): ([^,\n]+)", given)
        yield name, prose(docs), [(word, kind.strip()) for word, kind in parameters], answer
