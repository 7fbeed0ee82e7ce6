#!/usr/bin/env python3
"""Pages of the libraries: their public items with doc comments, signatures and contracts, and the definitions that these name.

    docs/api.py FOLDER     makes FOLDER/index.html, and two pages for each crate rr_*, in seconds
    docs/api.py --check    makes no file; the status is 1 where a public item has no doc comment, or a link has no end

Public is what `pub use` and `pub mod` of a crate's lib.rt lead to, and what is public in lib.rt itself. The sources are read by the layout that `rt fmt` gives
them. A name in a contract leads to its definition by the file's own `ghost use` lines. Names of std and of the kit's crates
have no page here, and lead nowhere."""
import html
import pathlib
import re
import sys

CRATES = pathlib.Path(__file__).resolve().parent.parent / "crates"
HEAD = re.compile(r"(pub )?(?:pub\([a-z]+\) )?(?:const |unsafe )*(fn|struct|enum|trait|const|type|impl|ghost)\b")
CLAUSE = re.compile(r"(requires|ensures)(?: (\w+))? \{(.*)\}", re.DOTALL)
WORD = re.compile(r"[A-Za-z_][\w'-]*|[^\w\s(){}\[\].,;:◌]+|[ℕλ]")
DEFINED = re.compile(r"(?:abbrev |unfoldable )*(?:pub )?(?:record |data )?(\S+)")
STYLE = """
:root { color-scheme: light dark; --back: #fff; --text: #1c1f23; --dim: #5c6570; --line: #dfe3e8; --box: #f6f7f9; --link: #0b5cad;
  --word: #8b1a5c; --mark: #fff3c4; }
@media (prefers-color-scheme: dark) { :root { --back: #15181c; --text: #e4e6ea; --dim: #99a2ad; --line: #31363d; --box: #1d2126;
  --link: #7cb7ff; --word: #f08fc4; --mark: #4a4115; } }
* { box-sizing: border-box; }
body { margin: 0 auto; max-width: 70rem; padding: 1rem 1.25rem 6rem; background: var(--back); color: var(--text);
  font: 16px/1.5 system-ui, sans-serif; overflow-wrap: break-word; }
a { color: var(--link); text-decoration: none; }
a:hover { text-decoration: underline; }
h1 { font-size: 1.7rem; margin: .6rem 0; }
h2 { font-size: 1.2rem; margin: 2.4rem 0 .6rem; padding-bottom: .2rem; border-bottom: 1px solid var(--line); }
code, pre { font: .86em/1.5 ui-monospace, Menlo, Consolas, "DejaVu Sans Mono", monospace; }
pre, .contract { background: var(--box); border-radius: 6px; padding: .6rem .8rem; margin: .4rem 0; white-space: pre-wrap;
  overflow-wrap: anywhere; }
pre.code { white-space: pre; overflow-wrap: normal; overflow-x: auto; }
.contract { padding: .2rem .8rem; white-space: normal; }
.item { margin: 1.6rem 0; }
.item .item { margin: 1.1rem 0 1.1rem .9rem; padding-left: .9rem; border-left: 2px solid var(--line); }
.item:target > pre, section:target > pre { outline: 2px solid var(--link); background: var(--mark); }
.clause { display: grid; grid-template-columns: 9.5rem 1fr; gap: .6rem; padding: .3rem 0; border-top: 1px solid var(--line); }
.clause:first-child { border-top: 0; }
.clause > span { color: var(--dim); font-size: .86em; }
.clause b { color: var(--word); font-weight: 500; }
.clause code { white-space: pre-wrap; overflow-wrap: anywhere; }
.doc p, .doc ul, .doc ol { margin: .3rem 0; }
.doc h4 { margin: .5rem 0 0; font-size: .95rem; color: var(--dim); }
.dim, nav { color: var(--dim); }
nav { font-size: .92rem; }
ul.names { padding: 0; margin: .2rem 0; list-style: none; display: flex; flex-wrap: wrap; gap: .1rem .9rem; }
table { border-collapse: collapse; width: 100%; }
td { padding: .35rem .8rem .35rem 0; border-top: 1px solid var(--line); vertical-align: top; }
@media (max-width: 640px) { body { padding: .6rem .8rem 4rem; } .clause { grid-template-columns: 1fr; gap: 0; }
  .item .item { margin-left: 0; padding-left: .6rem; } table, tbody, tr, td { display: block; }
  td { padding: .1rem 0; } td + td { border-top: 0; padding-bottom: .4rem; } }
"""


class Item:
    """An item of a source file, with what stands in it."""

    def __init__(self, kind, name, is_public, docs, head, clauses, body, members):
        self.kind, self.name, self.is_public = kind, name, is_public
        self.docs, self.head, self.clauses, self.body, self.members = docs, head, clauses, body, members
        self.scope, self.used = {}, {}


def starts(line, indent):
    """How an item that begins in this line, at this indentation, is named by kind; or nothing."""
    return HEAD.match(line[indent:]) if len(line) > indent and line[:indent].isspace() == bool(indent) else None


def end_of_head(lines, at, indent, has_body):
    """The line with which the head of an item ends: before its body, or with a semicolon."""
    room, in_contract = " " * indent, False
    for number in range(at, len(lines)):
        line = lines[number]
        in_contract = in_contract or re.match(rf"{room}    (requires|ensures)\b", line) is not None
        if line in (room + "{", room + "{}") or line.endswith(";"):
            return number
        if has_body and not in_contract and line.endswith(("{", "}")):
            return number
    sys.exit(f"docs/api.py: an item without an end: {lines[at]}")


def split_head(lines, indent):
    """A head as its signature and its clauses."""
    signature, clauses = [], []
    for line in lines:
        line = line[indent:]
        if re.match(r"    (requires|ensures)\b", line):
            clauses.append(line.strip())
        elif clauses and line.strip() not in ("{", "{}"):
            clauses[-1] += "\n" + line[4:]
        else:
            signature.append(line)
    text = "\n".join(signature).rstrip()
    return re.sub(r"\s*\{\}?$|;$", "", text), [clause.rstrip(";") for clause in clauses]


def name_in(kind, head):
    """The name of an item; of an impl block, what it is for."""
    if kind == "impl":
        return re.sub(r"^impl(<.*?>(?= ))? ", "", " ".join(head.split())).partition(" where ")[0]
    return re.search(r"\b(?:fn|struct|enum|trait|const|type|ghost) (\w+)", head).group(1)


def items_of(lines, indent=0):
    """The items at an indentation, in order."""
    found, docs, at = [], [], 0
    while at < len(lines):
        line, begins = lines[at], starts(lines[at], indent)
        if line.startswith(" " * indent + "///"):
            docs.append(line[indent + 3 :].removeprefix(" "))
        elif begins and not line[indent:].startswith("ghost use"):
            item, at = read_item(lines, at, indent, begins, docs)
            found.append(item)
            docs = []
        elif not line[indent:].startswith(("#[", " ", ")", "]")):
            docs = []
        at += 1
    return found


def read_item(lines, at, indent, begins, docs):
    """The item that begins here, and the line where it ends."""
    kind = begins.group(2)
    end = last = end_of_head(lines, at, indent, kind not in ("ghost", "const", "type"))
    if kind == "const" and len(re.findall(r'(?<!\\)"', lines[at])) % 2:
        # (a text of several lines, which may look like items)
        end = next(number for number in range(at + 1, len(lines)) if re.search(r'(?<!\\)";$', lines[number]))
        last = at
    if lines[last].endswith("{"):
        end = next(number for number in range(last + 1, len(lines)) if lines[number] == " " * indent + "}")
    signature, clauses = split_head(lines[at : last + 1], indent)
    inner = lines[last + 1 : end]
    members = items_of(inner, indent + 4) if kind in ("trait", "impl") else []
    body = "\n".join(line[indent:] for line in inner) if kind in ("struct", "enum", "impl") else ""
    return Item(kind, name_in(kind, signature), begins.group(1) is not None, docs, signature, clauses, body, members), end


class Crate:
    """A library: its first page, its items by module, and its definitions."""

    def __init__(self, name):
        self.name = name
        root = (CRATES / name / "src" / "lib.rt").read_text().splitlines()
        self.docs = [line[3:].removeprefix(" ") for line in root if line.startswith("//!")]
        self.root = root
        self.modules = {}
        for page in sorted((CRATES / name / "src").glob("*.rt")):
            lines = page.read_text().splitlines()
            text = "\n".join(line.removeprefix("    ") for line in lines)
            scope, used = scope_of(text), used_of(text)
            self.modules[page.stem] = items_of(lines)
            for item in self.modules[page.stem]:
                for one in (item, *item.members):
                    one.scope, one.used = scope, used
        self.specs = {page.stem: blocks_of(page) for page in sorted((CRATES / name / "specs").glob("*.antt")) if page.stem != "Lib"}
        self.public, self.elsewhere = {}, []
        self.find_public()

    def find_public(self):
        """What lib.rt makes public, by the path under which a user finds it."""
        text = "\n".join(self.root)
        for path in re.findall(r"^pub use ([^;]+);", text, re.M):
            module, _, names = " ".join(path.split()).rpartition("::")
            if "{" in path:
                module, _, names = " ".join(path.split()).partition("::{")
            for name in filter(None, (it.strip() for it in names.rstrip("}").split(","))):
                self.make_public(module, name)
        for module in re.findall(r"^pub mod (\w+);", text, re.M):
            for item in self.modules[module]:
                if item.is_public:
                    self.public[f"{module}::{item.name}"] = item
        for item in self.modules["lib"]:
            if item.is_public and item.kind != "impl":
                self.public[item.name] = item

    def make_public(self, module, name):
        items = [item for item in self.modules.get(module.rpartition("::")[2], []) if item.name == name and item.kind != "impl"]
        if items:
            self.public[name] = items[0]
        elif module.partition("::")[0] in self.modules:
            sys.exit(f"docs/api.py: {self.name}: no item {name} is read in {module}")
        else:
            self.elsewhere.append((module.partition("::")[0], name))

    def impls(self, name):
        """The impl blocks of a type: those of its own, and those of traits."""
        own, of_traits = [], []
        for item in (it for items in self.modules.values() for it in items if it.kind == "impl"):
            of, _, to = item.name.rpartition(" for ")
            if re.match(rf"{name}\b", to):
                (of_traits if of else own).append(item)
        return own, of_traits


def scope_of(text):
    """What the names of a file mean: each with the path that a `use` of a repository's crate gives it."""
    scope = {}
    for path, names, alias in re.findall(r"^(?:ghost )?use Rattle\.([\w.]+?)(?:\.\{([^}]*)\}| as (\w+));?$", text, re.M):
        if alias:
            scope[alias] = tuple(path.split("."))
        for name in filter(None, (it.strip() for it in names.split(","))):
            name, _, other = name.partition(" as ")
            scope[other or name] = (*path.split("."), name)
    return {name: path for name, path in scope.items() if path[0].startswith("rr_")}


def used_of(text):
    """The items of the repository's crates that a file uses: each with its crate."""
    used = {}
    for crate, names in re.findall(r"^use (rr_\w+)::(?:\{([^}]*)\}|\w+);", text, re.M):
        used.update({name.strip(): crate for name in names.split(",")})
    used.update({name: crate for crate, name in re.findall(r"^use (rr_\w+)::(\w+);", text, re.M)})
    return used


def blocks_of(page):
    """The definitions of a file of specs/, and its scope. A block is a comment, a text, the names that it defines, and their parts'."""
    text = page.read_text()
    blocks = []
    for block in re.split(r"\n\s*\n", text):
        lines = [line for line in block.splitlines() if not re.match(r"(pub )?use |unfolding |pub mod ", line)]
        words = [line[2:].strip() for line in lines if line.startswith("--")]
        code = [line for line in lines if not line.startswith("--")]
        if code:
            blocks.append((words, "\n".join(code), *names_in(code)))
        elif words:
            blocks.append((words, "", [], []))
    return blocks, scope_of(text)


def names_in(code):
    """The names that lines define, and those of the fields and constructors below them."""
    names, inner = [], []
    for line in code:
        if re.match(r"\s*(abbrev|unfoldable|(pub )?(record|data)) [^{]|pub \S+ :", line):
            names.append(DEFINED.match(line.strip()).group(1))
        elif part := re.match(r"\s+(?:pub )?([\w◌'-]+) :", line):
            inner.append(part.group(1))
    return names, inner


class Site:
    """All pages: what each name leads to, and what is missing."""

    def __init__(self, crates):
        self.crates = {crate.name: crate for crate in crates}
        self.faults, self.links, self.ends = [], [], set()
        self.page = ""
        self.declared = {}
        for crate in crates:
            for path, item in crate.public.items():
                self.declared.setdefault((crate.name, item.name), f"{crate.name}.html#{path}")

    def fault(self, text):
        if text not in self.faults:
            self.faults.append(text)

    def target(self, path):
        """The page and place of a path such as rr_types.specs.Names.IsName; nothing where it has no page."""
        crate, rest = self.crates.get(path[0]), path[1:]
        if crate is None or rest[:1] != ("specs",):
            return None
        if rest[1:2] == ("contracts",):
            return None  # (what the checker makes of a crate's contracts)
        if rest[1:2] == ("declared",):
            types = [part for part in rest[3:] if (crate.name, part) in self.declared]
            return self.declared[crate.name, types[0]] if types else self.private(crate, rest[2], rest[3:])
        module, name = rest[1], rest[-1]
        if len(rest) == 2:
            return f"{crate.name}.specs.html#{module}"
        for _, _, names, inner in crate.specs.get(module, ((), {}))[0]:
            if name in names or name in inner:
                return f"{crate.name}.specs.html#{module}.{name}"
        self.fault(f"{crate.name}: specs/{module}.antt defines no {name}")
        return None

    def private(self, crate, module, rest):
        """The place of a type that isn't public, but is named by a contract or a definition."""
        for item in crate.modules.get(module, []):
            if item.kind in ("struct", "enum", "trait") and item.name in rest:
                return f"{crate.name}.specs.html#types.{module}.{item.name}"
        return None

    def linked(self, text, scope, types=()):
        """A piece of a contract, a definition or a signature, with its names as links."""
        out, last = [], 0
        for word in WORD.finditer(text):
            name, before = word.group(), text[: word.start()][-1:]
            path = scope.get(name) or scope.get(f"◌{name}◌") or scope.get(f"◌{name}")
            inner = re.match(r"\.([A-Za-z_][\w'-]*)", text[word.end() :])
            if path and inner and len(path) == 3:
                path = (*path, inner.group(1))
            end = self.target(path) if path and before != "." else None
            if end is None and name in types and before != ".":
                end = types[name]
            if end:
                out.append(html.escape(text[last : word.start()]) + self.link(end, name))
                last = word.end()
        return "".join(out) + html.escape(text[last:])

    def link(self, end, text):
        page, _, place = end.partition("#")
        self.links.append((self.page, end))
        return f'<a href="{html.escape(f"#{place}" if page == self.page else end)}">{html.escape(text)}</a>'

    def anchor(self, place):
        self.ends.add(f"{self.page}#{place}")
        return f'id="{html.escape(place)}"'


def inline(site, crate, text):
    """A line of a comment: code, links, emphasis."""
    out = []
    for part in re.split(r"(`[^`]*`|\[[^\]]*\]\([^)]*\)|\*\*[^*]*\*\*)", text):
        if part.startswith("`"):
            name = part.strip("`")
            end = place_of(site, crate, name)
            out.append(f"<code>{site.link(end, name) if end else html.escape(name)}</code>")
        elif part.startswith("["):
            words, _, end = part[1:-1].partition("](")
            out.append(f'<a href="{html.escape(end)}">{html.escape(words)}</a>')
        elif part.startswith("**"):
            out.append(f"<b>{html.escape(part[2:-2])}</b>")
        else:
            out.append(html.escape(part))
    return "".join(out)


def place_of(site, crate, name):
    """The place that a name in a comment has: an item of this crate, a method, or a library."""
    if name in site.crates:
        return f"{name}.html#top"
    of, _, method = name.rpartition("::")
    if name in crate.public:
        return f"{crate.name}.html#{name}"
    owner = crate.public.get(of)
    if owner and any(member.name == method for member in members_of(crate, owner)):
        return f"{crate.name}.html#{of}.{method}"
    return None


def members_of(crate, item):
    """The methods of a type or a trait that a user may call."""
    if item.kind == "trait":
        return item.members
    return [member for impl in crate.impls(item.name)[0] for member in impl.members if member.is_public]


def doc_html(site, crate, lines):
    """A comment as HTML: paragraphs, lists, headings, code."""
    out, part, fence = [], [], None

    def flush():
        text = " ".join(part).strip()
        if text:
            out.append(f"<p>{inline(site, crate, text)}</p>")
        part.clear()

    for line in lines:
        if fence is not None:
            if line.startswith("```"):
                out.append(f"<pre class=code>{html.escape(chr(10).join(fence))}</pre>")
                fence = None
            else:
                fence.append(line)
        elif line.startswith("```"):
            flush()
            fence = []
        elif line.startswith("# "):
            flush()
            out.append(f"<h4>{inline(site, crate, line[2:])}</h4>")
        elif re.match(r"\s*([-*]|\d+\.) ", line):
            flush()
            part.append(re.sub(r"^\s*[-*] ", "• ", line.strip()))
        elif line.strip():
            part.append(line.strip())
        else:
            flush()
    flush()
    return f'<div class="doc">{"".join(out)}</div>' if out else ""


def formula(text):
    """A clause's formula: a long one is broken before each arrow that stands in no bracket."""
    text = re.sub(r"\s+", " ", text).strip()
    if len(text) <= 90:
        return text
    out, depth, at = [], 0, 0
    for at, letter in enumerate(text):
        depth += (letter in "({[") - (letter in ")}]")
        out.append("\n  " if letter == "→" and depth == 0 and "λ" not in text[:at] else "")
        out.append(letter)
    return re.sub(r" \n", "\n", "".join(out))


def contract_html(site, clauses, scope):
    rows = []
    for clause in clauses:
        kind, label, text = CLAUSE.match(clause).groups()
        named = f" {html.escape(label)}" if label else ""
        rows.append(f'<div class="clause"><span><b>{kind}</b>{named}</span><code>{site.linked(formula(text), scope)}</code></div>')
    return f'<div class="contract">{"".join(rows)}</div>' if rows else ""


def item_html(site, crate, item, place, path):
    """An item with its comment, its contract and its methods."""
    if not any(line.strip() for line in item.docs):
        site.fault(f"{crate.name}: {path} has no doc comment")
    own = {name: end for (of, name), end in site.declared.items() if of == crate.name and name != item.name}
    others = {name: site.declared[of, name] for name, of in item.used.items() if (of, name) in site.declared}
    head = notes_dimmed(site.linked(head_of(item), {}, {**others, **own}))
    parts = [f'<div class="item" {site.anchor(place)}><pre>{head}</pre>', doc_html(site, crate, item.docs)]
    parts.append(contract_html(site, item.clauses, item.scope))
    if item.kind in ("struct", "enum"):
        parts.append(model_html(site, crate, item))
    if item.kind in ("struct", "enum", "trait"):
        parts.append(members_html(site, crate, item, place, path))
    if item.kind in ("struct", "enum"):
        parts.append(traits_html(site, crate, item, {**others, **own}))
    return "".join(parts) + "</div>"


def members_html(site, crate, item, place, path):
    """The methods of a type or a trait. Where a type has several impl blocks for several arguments, each says for which."""
    parts, seen = [], {}
    blocks = [item] if item.kind == "trait" else crate.impls(item.name)[0]
    several = len({block.name for block in blocks}) > 1
    for block in blocks:
        members = [member for member in block.members if member.is_public or item.kind == "trait"]
        if several and members:
            parts.append(f"<p class=dim>Of <code>{html.escape(block.name)}</code></p>")
        for member in members:
            seen[member.name] = count = seen.get(member.name, 0) + 1
            inner = f"{place}.{member.name}" + (f"-{count}" if count > 1 else "")
            parts.append(item_html(site, crate, member, inner, f"{path}::{member.name}"))
    return "".join(parts)


def notes_dimmed(text):
    """Comments inside an item, dimmed."""
    return re.sub(r"^( *)///(.*)$", r'\1<span class=dim>//\2</span>', text, flags=re.M)


def head_of(item):
    """The text of an item: of a struct its public fields, of an enum its variants, of others the signature."""
    if item.kind == "enum":
        return f"{item.head} {{\n{item.body}\n}}"
    if item.kind != "struct" or not item.body:
        return item.head
    shown, notes = [], []
    for line in item.body.splitlines():
        if line.lstrip().startswith("///"):
            notes.append(line)
        else:
            shown += [*notes, line] if line.lstrip().startswith("pub ") else []
            notes = []
    return f"{item.head} {{\n" + "\n".join([*shown, "}"]) if shown else f"{item.head} {{ .. }}"


def model_html(site, crate, item):
    """How contracts see a type."""
    parts = []
    for impl in crate.impls(item.name)[1]:
        if impl.name.startswith("Model for"):
            shown = "\n".join(member.head for member in impl.members if member.kind == "ghost")
            scope = {**impl.scope, **scope_of("\n".join(line.strip() for line in impl.body.splitlines()))}
            parts.append(f"<p class=dim>Contracts see it so:</p><pre>{site.linked(shown, scope)}</pre>")
    return "".join(parts)


def traits_html(site, crate, item, types):
    """The traits that a type implements, with the clauses of their methods."""
    parts = []
    for impl in crate.impls(item.name)[1]:
        if impl.name.startswith("Model for"):
            continue
        parts.append(f"<p class=dim>Implements <code>{site.linked(impl.name.partition(' for ')[0], {}, types)}</code></p>")
        parts += [contract_html(site, member.clauses, impl.scope) for member in impl.members if member.clauses]
    return "".join(parts)


def page_html(site, title, parts):
    parts = "".join(parts)
    return (
        '<!DOCTYPE html>\n<html lang="en"><head><meta charset="utf-8">'
        '<meta name="viewport" content="width=device-width, initial-scale=1">'
        f"<title>{html.escape(title)}</title><link rel=stylesheet href=style.css></head>"
        f'<body {site.anchor("top")}>{parts}</body></html>\n'
    )


GROUPS = (("Types", ("struct", "enum", "type")), ("Traits", ("trait",)), ("Functions", ("fn",)), ("Constants", ("const",)))


def crate_page(site, crate):
    """The page of a crate."""
    site.page = f"{crate.name}.html"
    if not crate.docs:
        site.fault(f"{crate.name} has no doc comment")
    nav = [site.link("index.html#top", "Libraries")]
    if crate.specs or private_types(site, crate):
        nav.append(site.link(f"{crate.name}.specs.html#top", "Definitions"))
    parts = [f"<nav>{' · '.join(nav)}</nav><h1>{crate.name}</h1>", doc_html(site, crate, crate.docs)]
    for title, kinds in GROUPS:
        items = [(path, item) for path, item in crate.public.items() if item.kind in kinds]
        if items:
            names = "".join(f"<li>{site.link(f'{site.page}#{path}', path)}</li>" for path, _ in items)
            parts.append(f"<h2>{title}</h2><ul class=names>{names}</ul>")
            parts += [item_html(site, crate, item, path, path) for path, item in items]
    if crate.elsewhere:
        parts.append("<h2>Of other crates</h2>")
        parts += [f"<p>{elsewhere_html(site, of, name)}</p>" for of, name in crate.elsewhere]
    return page_html(site, crate.name, parts)


def elsewhere_html(site, of, name):
    end = site.declared.get((of, name))
    if of not in site.crates:
        return f"<code>{html.escape(f'{of}::{name}')}</code>, of the kit"
    if end is None:
        site.fault(f"{of}::{name}, of another crate, isn't found")
        return ""
    return f"<code>{site.link(end, f'{of}::{name}')}</code>"


def private_types(site, crate):
    """The types of a crate that aren't public, each with its module. Definitions may name them."""
    items = [(module, item) for module, items in crate.modules.items() for item in items if item.kind in ("struct", "enum", "trait")]
    return [(module, item) for module, item in items if (crate.name, item.name) not in site.declared]


def specs_page(site, crate):
    """The page of a crate's definitions."""
    site.page = f"{crate.name}.specs.html"
    nav = f"<nav>{site.link('index.html#top', 'Libraries')} · {site.link(f'{crate.name}.html#top', crate.name)}</nav>"
    names = "".join(f"<li>{site.link(f'{site.page}#{module}', module)}</li>" for module in crate.specs)
    parts = [f"{nav}<h1>Definitions of {crate.name}</h1><ul class=names>{names}</ul>"]
    for module, (blocks, scope) in crate.specs.items():
        parts.append(f"<h2 {site.anchor(module)}>{module}</h2>")
        parts += blocks_html(site, crate, module, blocks, scope)
    private = private_types(site, crate)
    if private:
        parts.append("<h2>Types that aren't public</h2>")
        for module, item in private:
            place, docs = site.anchor(f"types.{module}.{item.name}"), doc_html(site, crate, item.docs)
            parts.append(f"<section {place}>{docs}<pre>{html.escape(whole_of(item))}</pre></section>")
    return page_html(site, f"Definitions of {crate.name}", parts)


def blocks_html(site, crate, module, blocks, scope):
    """The definitions of a file. A field or a constructor has the place of its block, where no definition has its name."""
    defined = {name for _, _, names, _ in blocks for name in names}
    own = {name: (crate.name, "specs", module, name) for _, _, names, inner in blocks for name in names + inner}
    parts, placed = [], set()
    for words, code, names, inner in blocks:
        new = [name for name in dict.fromkeys(names + [name for name in inner if name not in defined]) if name not in placed]
        placed.update(new)
        start, *others = [site.anchor(f"{module}.{name}") for name in new] or [""]
        marks = "".join(f"<a {other}></a>" for other in others)
        said = f"<p>{html.escape(' '.join(words))}</p>" if words else ""
        text = f"<pre>{site.linked(code, {**own, **scope})}</pre>" if code else ""
        parts.append(f"<section {start}>{marks}{said}{text}</section>")
    return parts


def whole_of(item):
    return f"{item.head} {{\n{item.body}\n}}" if item.body else item.head


def index_page(site):
    site.page = "index.html"
    rows = []
    for name, crate in site.crates.items():
        first = " ".join(crate.docs).split(". ")[0].rstrip(".") + "." if crate.docs else ""
        rows.append(f"<tr><td>{site.link(f'{name}.html#top', name)}</td><td>{inline(site, crate, first)}</td></tr>")
    words = "<p>The libraries, from the lowest to the highest. Each has a page of its public items with their contracts. "
    words += "Another page has its definitions, to which the names in contracts lead.</p>"
    return page_html(site, "Libraries of Maroonburin", [f"<h1>Libraries of Maroonburin</h1>{words}<table>{''.join(rows)}</table>"])


def make(site):
    """All pages by their names, and the links that have no end."""
    pages = {"index.html": index_page(site), "style.css": STYLE.lstrip()}
    for crate in site.crates.values():
        pages[f"{crate.name}.html"] = crate_page(site, crate)
        pages[f"{crate.name}.specs.html"] = specs_page(site, crate)
    for page, end in site.links:
        if end not in site.ends:
            site.fault(f"{page}: a link to {end}, which isn't there")
    return pages


def main():
    if len(sys.argv) != 2 or sys.argv[1] in ("-h", "--help"):
        sys.exit(__doc__)
    lines = [line.partition(":")[0].split()[0] for line in (CRATES.parent / "crates.txt").read_text().splitlines() if line.strip()]
    names = [name for name in lines if name.startswith("rr_")]
    site = Site([Crate(name) for name in names])
    pages = make(site)
    if site.faults:
        sys.exit("\n".join(["docs/api.py:", *site.faults]))
    if sys.argv[1] != "--check":
        folder = pathlib.Path(sys.argv[1])
        folder.mkdir(parents=True, exist_ok=True)
        for name, text in pages.items():
            (folder / name).write_text(text)
    items = sum(len(crate.public) for crate in site.crates.values())
    print(f"docs/api.py: {len(names)} libraries, {items} public items, {len(site.links)} links; each has a comment or an end")


main()
