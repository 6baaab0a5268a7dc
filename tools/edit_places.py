"""Which function's body holds a place of a crate's source, as the prover names it."""

import re

FUNCTION = re.compile(r"^( *)(?:pub(?:\([^)]*\))? )?(?:const )?(?:unsafe )?(?:extern \"C\" )?fn (\w+)", re.M)
TYPE = re.compile(r"^(?:pub(?:\([^)]*\))? )?(?:struct|enum|trait) (\w+)", re.M)
CLAUSE = re.compile(r"\s*(requires|ensures|ghost|invariant|decreases)\b")
CYCLE = re.compile(r"#\[cycle\((\w+)\)\]")
# File names that are no module of their own.
ROOTS = ("lib", "main", "mod")


def function_at(crate, file, text, place, homes):
    """The path of the function whose body holds the place, and the name of its cycle if it is in one; else None. A type's
    own methods stand where the type does, of which `homes` has the modules."""
    holding = [it for it in FUNCTION.finditer(text) if holds(body_of(text, it), place)]
    if not holding:
        return None
    found = holding[-1]
    words = impl_of(text, found)
    modules = homes[words[0]] if words and words[0] in homes else modules_of(file)
    return "::".join([crate, *modules, *words, found[2]]), cycle_of(text, found)


def functions_of(crate, file, text, homes):
    """The paths and cycles of a file's functions that have a body."""
    bodies = (body_of(text, it) for it in FUNCTION.finditer(text))
    return {function_at(crate, file, text, body[0], homes) for body in bodies if body} - {None}


def modules_of(file):
    """The modules that a file of src/ is."""
    return [it for it in file.removeprefix("src/").removesuffix(".rt").split("/") if it not in ROOTS]


def homes_of(folder):
    """By type of a crate the modules in which it stands."""
    files = sorted((folder / "src").rglob("*.rt"))
    return {name: modules_of(str(it.relative_to(folder))) for it in files for name in TYPE.findall(it.read_text())}


def holds(body, place):
    return body is not None and body[0] <= place <= body[1]


def body_of(text, found):
    """From where to where the body of a function goes; None where it has none."""
    margin, begins, opened = found[1], found.start(), None
    for line in text[begins:].split("\n"):
        ends = begins + len(line)
        if opened is not None:
            if line == margin + "}":
                return opened, ends
        elif line.endswith(";"):
            return None
        elif begins == found.start() and line.endswith("}"):
            return begins + line.find("{"), ends
        elif opens(line, margin):
            opened = ends - 1
        begins = ends + 1
    return None


def opens(line, margin):
    """Whether a body begins behind this line of a function's head."""
    if line == margin + "{":
        return True
    return line.endswith("{") and not CLAUSE.match(line) and not line.endswith(("requires {", "ensures {"))


def cycle_of(text, found):
    """The cycle that the attributes above a function name."""
    cycle = None
    for line in reversed(text[: found.start()].rstrip("\n").split("\n")):
        if line.strip() and not line.strip().startswith(("#[", "//")):
            break
        named = CYCLE.search(line)
        cycle = named[1] if named else cycle
    return cycle


def impl_of(text, found):
    """The word of a path for the impl or the trait that a function stands in; none where it stands in none."""
    if not found[1]:
        return []
    heads = re.finditer(r"^( *)((?:pub )?trait|impl)\b([^{]*)", text[: found.start()], re.M)
    around = [it for it in heads if len(it[1]) < len(found[1])]
    return [word_of(" ".join(around[-1][0].split()))] if around else []


def word_of(head):
    """As a path has the head of an impl or a trait."""
    if re.match(r"(pub )?trait ", head):
        return re.search(r"trait (\w+)", head)[1]
    head = without_parameters(head.removeprefix("impl").strip())
    found = re.match(r"(.*?) for (.*)", head)
    if not found:
        return type_word(head)
    arguments = re.search(r"<(.*)>", found[1])
    words = re.findall(r"(?<!')\b[A-Z]\w+", arguments[1]) if arguments else []
    return type_word(found[2]) + type_word(found[1]) + "".join(words)


def without_parameters(head):
    """The head of an impl behind its parameters."""
    if not head.startswith("<"):
        return head
    depth = 0
    for at, letter in enumerate(head):
        depth += (letter == "<") - (letter == ">" and head[at - 1] != "-")
        if not depth:
            return head[at + 1 :].strip()
    return head


def type_word(text):
    """As a path has a type."""
    text = re.sub(r"\bwhere\b.*", "", text.strip().rstrip("{")).strip()
    text, is_lent = text.lstrip("&").strip(), text.startswith("&")
    text = re.sub(r"^'\w+ ", "", text)
    text, is_mutable = text.removeprefix("mut "), text.startswith("mut ")
    lent = "RefMut" if is_lent and is_mutable else "Ref" if is_lent else ""
    return lent + re.split(r"[<\s]", text)[0].split("::")[-1]
