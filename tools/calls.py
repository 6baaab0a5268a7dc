"""Writes docs/CALLS.md: what rhai_lang passes on to users, by the sources.

    python3 tools/calls.py          writes the page
    python3 tools/calls.py check    says whether the page is what would be written; the last line is 'N passed, M failed'

Sources are read by their indentation: an item begins in the first column, what it holds four columns further in. Names
are followed through `pub use` to the file that defines them; contracts are left out."""

import functools
import pathlib
import re
import sys
import textwrap
from typing import NamedTuple

ROOT = pathlib.Path(__file__).resolve().parent.parent
PAGE = ROOT / "docs" / "CALLS.md"
TOP = "rhai_lang"
INTRO = """# Calls

What `rhai_lang` passes on, by the crates that it names: types with variants, public fields and calls; traits; and
functions. Each has its signature, without its contract ([PROMISES.md](PROMISES.md)), and the first sentence of its
comment. What a type is "also" are traits that it derives or implements. `python3 tools/calls.py` writes this page.
"""


class Item(NamedTuple):
    """What stands in a source: its comment, its attributes, and its lines from its own column on."""

    doc: list
    marks: list
    lines: list

    def head(self):
        """Its lines up to its contract or its body, as one; of a variant all."""
        kept = []
        for line in map(str.strip, self.lines):
            if line == "{" or re.match(r"(requires|ensures|ghost)\b", line):
                break
            if not line.startswith(("///", "#[error")):
                kept.append(line)
            if line.endswith("{") and self.lines[0][0].islower():
                break
        return tidy(" ".join(kept))

    def shown(self):
        """That without how it is seen; of a constant without its value, of a tuple without what is hidden."""
        text = re.sub(r"^(pub |final )+", "", self.head())
        return re.sub(r"^(const .*?) = .*|^(struct \w+)\((?!pub).*", r"\1\2", text)

    def held(self):
        """What stands between its braces."""
        start = next((at for at, line in enumerate(self.lines) if line.endswith("{")), len(self.lines))
        return items([line[4:] for line in self.lines[start + 1 : -1]])

    def said(self):
        """The first sentence of its comment."""
        text = " ".join(self.doc[: self.doc.index("")] if "" in self.doc else self.doc)
        found = re.match(r"(?:(`+)(?:(?!\1).)+\1|[^`])*?[.?!](?= |$)", text)
        return found.group() if found else text


def tidy(text):
    """A signature or a variant on one line, without attributes, ends and `mut` of names."""
    text = re.sub(r"#\[\w+\] ", "", re.sub(r"([(,] ?)mut (\w+[,:)])", r"\1\2", text))
    text = re.sub(r",? ([)\]])", r"\1", re.sub(r"([(\[]) ", r"\1", text))
    return text.replace(", }", " }").rstrip("{;, ")


def wrapped(text, indent=""):
    return textwrap.fill(text, 120, initial_indent=indent, subsequent_indent=indent, break_on_hyphens=False) + "\n"


def ends(line, is_in_body):
    """Whether an item ends with this line."""
    if is_in_body:
        return line.startswith("}")
    return line.endswith("};" if line[:1] in (" ", "") else ("}", ";", ","))


def items(lines):
    """The items of a file, or of what stands in braces."""
    found, doc, marks, own, is_in_body = [], [], [], [], False
    for line in lines:
        if not own and line.startswith("///"):
            doc.append(line[3:].strip())
        elif not own and line.startswith("#"):
            marks.append(line)
        elif not own and (not line or line.startswith(("//", " "))):
            doc, marks = [], []
        else:
            own.append(line)
            if ends(line, is_in_body):
                found.append(Item(doc, marks, own))
                doc, marks, own, is_in_body = [], [], [], False
            elif line[:1] != " " and line.endswith("{"):
                is_in_body = True
    return found


@functools.cache
def items_of(crate, files="*.rt"):
    """The items of a crate, or of such files of it; none of one that is not here."""
    found = sorted((ROOT / "crates" / crate / "src").rglob(files))
    return [item for file in found for item in items(file.read_text(encoding="utf-8").split("\n"))]


def uses(crate, file="lib.rt"):
    """What a crate has for others: to each name the first word of its path and its name there; none of a crate."""
    found = {}
    for item in items_of(crate, file):
        text = " ".join(map(str.strip, item.lines))
        path = re.match(r"pub (?:const|use) (\w+)(?: as (\w+);|.*?::(?:{ ?(.*?),? ?}|(\w+));|)", text)
        for name in re.split(", ?", path[2] or path[3] or path[4] or path[1]) if path else []:
            found[name] = (path[1], None if path[2] else name)
    return found


def definition(crate, name):
    """The crate that defines a name of this one, and its item there."""
    if items_of(uses(crate).get(name, [""])[0]):
        return definition(*uses(crate)[name])
    return crate, next(item for item in items_of(crate) if re.match(rf"pub \w+ {name}\b", item.lines[0]))


@functools.cache
def impls(crate):
    """The impls in a crate: the trait or nothing, the type, both by their names alone, and the item."""
    heads = ((re.match(r"impl(?:<.*?>(?= ))? (?:(.+?) for )?(.+?)(?: {})?$", it.head()), it) for it in items_of(crate))
    bare = functools.partial(re.sub, r"<.*|&('\w+ )?|\w+::", "")
    return [(*head.groups(), bare(head[1] or ""), bare(head[2]), item) for head, item in heads if head]


def calls(inner, begins):
    """A line with each item that begins so, and what is said of it."""
    lines = ""
    for it in (it for it in inner if re.match(begins, it.lines[0])):
        sign, said = f"- `{it.shown()}`" + ":" * bool(it.doc), it.said()
        lines += f"{sign} {said}\n" if len(f"{sign} {said}") <= 120 else f"{sign}\n" + wrapped(said, "  ")
    return lines


def also(name, item, crates):
    """The traits that a type derives or implements."""
    text = "\n".join(item.marks + item.lines)
    found = {it for words in re.findall(r"derive\((.*?)\)", text) for it in words.split(", ")}
    found |= {f"From<{it}>" for it in re.findall(r"#\[from\] (\w+)", text)}
    found |= {"Display"} if "#[error(" in text else set()
    for trait, target, short, bare, impl in (it for crate in crates for it in impls(crate)):
        if bare == name and short not in ("", "Model"):  # contracts alone see a model
            of = re.search(r"^    type Item = (.*);$", "\n".join(impl.lines), re.M)
            shown = re.sub(r"^\w+::", "", trait) + (f"<Item = {of[1]}>" if of else "")
            found.add(shown + f" for {target}" * target.startswith("&"))
    return wrapped(f"also: `{', '.join(sorted(found))}`") if found else ""


def entry(name, crate, item, crates):
    """What the page says of a type or a trait; crates: those with the traits that are passed on."""
    parts = [f"### `{item.shown()}`\n", wrapped(item.said())]
    if item.lines[0].startswith("pub trait"):
        having = sorted(it[1] for where in crates for it in impls(where) if it[2] == name)
        parts += [f"for: `{', '.join(having)}`\n", calls(item.held(), "(final )?fn ")]
    else:
        own = (it[4].held() for it in impls(crate) if it[3] == name and not it[0])
        own = "".join(calls(inner, "pub (fn|const) ") for inner in own)
        parts += [calls(item.held(), "[A-Z]|pub "), own, also(name, item, crates | {crate})]
    return "\n".join(filter(None, parts))


def section(crate, here, crates):
    """What the page says of a crate; here: names that are passed on of it, and what they are there."""
    whole = [name for name, there in here.items() if there is None]
    found = {name: definition(crate, name) for name in (uses(crate) if whole else here)}
    parts = [f"## {crate}" + "".join(f", as `{name}`" for name in whole) + "\n"]
    if whole and len(here) > 1:
        parts += [wrapped(f"Also without `{whole[0]}::`: `{', '.join(sorted({*here} - {*whole}))}`.")]
    functions = [item for _, item in found.values() if item.lines[0].startswith("pub fn")]
    types = ((name, *it) for name, it in found.items() if it[1] not in functions)
    parts += [entry(*it, crates) for it in sorted(types, key=lambda it: it[0].lower())]
    return "\n".join(parts + (["### Functions\n", calls(functions, "")] if functions else []))


def page():
    """The page: the crates in the order in which crates.txt has them."""
    passed, prelude = uses(TOP), uses(TOP, "prelude.rt")
    order = re.search(rf"^{TOP}: (.*)", (ROOT / "crates.txt").read_text(encoding="utf-8"), re.M)[1].split()
    kit = [f"{where}::{name}" for name, (where, name) in passed.items() if not items_of(where)]
    crates = {definition(*it)[0] for it in passed.values() if it[1] and items_of(it[0])}
    text = f"`{', '.join(kit)}` come from the kit. `{TOP}::prelude` has the traits `{', '.join(sorted(prelude))}`."
    parts = [INTRO, wrapped(text)]
    for crate in filter(items_of, order):
        parts += [section(crate, {name: it[1] for name, it in passed.items() if it[0] == crate}, crates)]
    return "\n".join(parts)


def check():
    """Whether the page is what would be written."""
    is_well = PAGE.exists() and PAGE.read_text(encoding="utf-8") == page()
    print("docs/CALLS.md is as the sources are" if is_well else "docs/CALLS.md is stale: python3 tools/calls.py writes it")
    print(f"{int(is_well)} passed, {int(not is_well)} failed")
    return is_well


if __name__ == "__main__":
    if sys.argv[1:] == ["check"]:
        sys.exit(not check())
    PAGE.write_text(page(), encoding="utf-8")
