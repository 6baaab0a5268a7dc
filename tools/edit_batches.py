"""Tries edits of a crate many at once: one edit for each function, and one check of these functions.

A contract stands whatever a body does, so edits of different functions do not disturb each other, and the proofs of all other
functions are left open. Each edit of a batch must be told by a goal of its own function; one that is not is tried alone, over
the whole crate."""

import os
import pathlib
import re
import shutil
import subprocess
import sys
import tempfile

from edit_places import function_at, functions_of, homes_of

PARTS = ("src", "specs", "proofs", "c")
# How many edits go into one check.
MOST = 40
# `names`: only since a proof file names what the edit took away, which says nothing of the contract.
REFUSED, NAMES, ACCEPTED, LIMIT, BAD = "refused", "names", "accepted", "limit", "bad"
# How the last line begins where the prover met a limit; what it says of functions stands all the same.
NO_VERDICT = "rattle: no verdict"
# What the prover says where it could not read a text, so that no contract was tried.
UNREAD = re.compile(r"is not in scope|has no field|is no name|expected the end|cannot continue")
GONE = re.compile(r"proofs/.*(has no field|is not in scope|has no `|was not admitted)")

# A goal that may hold all the same.
LIMITED = re.compile(r"stopped at its own limit")


def kit():
    """The folder of the kit, in which `rt` stands."""
    found = shutil.which("rt")
    if not found:
        sys.exit("there is no rt")
    return pathlib.Path(found).resolve().parent.parent


# ---- proofs that are left open

# What is called has this for a proof: what calls it is proved by its contract, which `rt ci` has proved.
OPEN = """use Rattle.{module}.{{statement}}

pub {name}_spec : {{M : Type 1}} → statement M
{name}_spec = ?
"""
WRITTEN = ("Answers.antt", "Invariants.antt", "Proof.antt")


def leave_open(copy, crate, turned):
    """Leaves the proofs of a crate open but those of the functions that are turned, by their folders below proofs/."""
    proofs = copy / "proofs"
    written = {str(file.parent.relative_to(proofs)) for file in proofs.rglob("*.antt") if file.name in WRITTEN}
    homes = homes_of(copy)
    plain = {folder for file in sorted((copy / "src").rglob("*.rt")) for folder in folders_of(crate, copy, file, homes)}
    for folder in (written | plain) - turned:
        cycle = folder.rpartition("/")[2].startswith("+")
        if cycle and any(folder.endswith(it) for it in turned):
            continue
        name, module = folder.rpartition("/")[2], f"{crate}.proofs.{folder.replace('/', '.')}"
        for file in WRITTEN:
            (proofs / folder / file).unlink(missing_ok=True)
        put(proofs / folder / "Proof.antt", OPEN.format(module=module if cycle else module + ".Statement", name=name))


def folders_of(crate, copy, file, homes):
    """The folders below proofs/ of the functions of a file; of one in a cycle there is none."""
    for path, cycle in functions_of(crate, str(file.relative_to(copy)), file.read_text(), homes):
        if not cycle:
            yield below_crate(path).replace("::", "/")


def put(file, text):
    file.parent.mkdir(parents=True, exist_ok=True)
    file.write_text(text)


def folder_of(path, cycle):
    return "+" + cycle if cycle else below_crate(path).replace("::", "/")


def below_crate(path):
    """A function as `--only` takes it."""
    return path.split("::", 1)[1]


# ---- edits


class Edit:
    """An edit of a crate, and the functions that it changes; None stands for what is in no function."""

    def __init__(self, top, crate, file):
        self.crate, self.name = crate, f"{crate}/{file.name.removesuffix('.md').removesuffix('.edit')}"
        self.text = file.read_text()
        self.pairs, self.functions, self.fault = list(pairs_of(self.text)), set(), None
        texts, homes = {}, homes_of(top / "crates" / crate)
        for path, old, new in self.pairs:
            text = texts[path] if path in texts else read(top, crate, path)
            if text.count(old) != 1:
                self.fault = f"its old text stands {text.count(old)} times in {path}"
                return
            place = text.index(old) + min(first_difference(old, new), len(old) - 1)
            self.functions.add(function_at(crate, path, text, place, homes) if path.startswith("src/") else None)
            texts[path] = text.replace(old, new)
        self.fault = None if self.pairs else "it has no pair of lines"

    def keys(self):
        """What no other edit of the batch may change: its functions, each of a cycle by the cycle's name."""
        return {"+" + it[1] if it[1] else it[0] for it in self.functions if it}

    def is_told_by_program(self):
        return "\ntold by: " in self.text

    def goes_alone(self):
        return self.fault is None and None in self.functions

    def put_into(self, top, texts):
        """These texts with this edit too; None where its old text does not stand there once."""
        texts = dict(texts)
        for path, old, new in self.pairs:
            text = texts[path] if path in texts else read(top, self.crate, path)
            if text.count(old) != 1:
                return None
            texts[path] = text.replace(old, new)
        return texts


def read(top, crate, path):
    file = top / "crates" / crate / path
    return file.read_text() if file.exists() else ""


def pairs_of(text):
    """The file, the old text and the new one of each pair of lines."""
    file = old = None
    for line in text.splitlines():
        if line.startswith("file: "):
            file = line.removeprefix("file: ").strip()
        elif line.startswith("old: "):
            old = line.removeprefix("old: ")
        elif line.startswith("new:") and file and old is not None:
            yield file, old, line.removeprefix("new:").removeprefix(" ")
            old = None


def first_difference(old, new):
    return next((at for at, (one, other) in enumerate(zip(old, new)) if one != other), min(len(old), len(new)))


# ---- batches


class Batch:
    """Edits that are tried by one check, what they change, and the texts with all of them."""

    def __init__(self):
        self.edits, self.keys, self.texts = [], set(), {}

    def takes(self, top, edit):
        """Takes an edit in, unless it disturbs another one. Whether it did."""
        if len(self.edits) >= MOST or edit.keys() & self.keys:
            return False
        texts = edit.put_into(top, self.texts)
        if texts is None:
            return False
        self.edits.append(edit)
        self.keys |= edit.keys()
        self.texts = texts
        return True


def batches_of(top, edits):
    batches = []
    for edit in edits:
        if edit.fault or edit.goes_alone():
            continue
        if not any(batch.takes(top, edit) for batch in batches):
            batches.append(Batch())
            batches[-1].takes(top, edit)
    return batches


# ---- checks


class Libraries:
    """The checkout whose crates were proved, and what stands on what."""

    def __init__(self, top, proved, crates):
        self.top, self.proved, self.crates = top, proved, crates

    def below(self, crate):
        """All crates below one, in their order."""
        found, left = set(), [crate]
        while left:
            new = {it for it in self.crates[left.pop()][1] if it in self.crates} - found
            found |= new
            left += new
        return [it for it in self.crates if it in found]

    def library(self, crate):
        return self.proved / "crates" / crate / "out" / "rlib" / f"{crate}.rlib"

    def lacking(self, crate):
        """Why nothing can be tried of a crate: a library below it that is not there, or is made of other texts."""
        for name in self.below(crate):
            if not (self.library(name) / "format").exists():
                return f"there is no library of {name} in {self.proved}: rt ci makes it"
            if self.top != self.proved and self.differs(name):
                return f"{name} in {self.proved} is another one"
        return None

    def differs(self, crate):
        return texts_of(self.top / "crates" / crate) != texts_of(self.proved / "crates" / crate)

    def command(self, crate):
        """The words of a check of a crate over the libraries that were proved."""
        kinds, deps = self.crates[crate]
        home = kit()
        is_program = (self.top / "crates" / crate / "src" / "main.rt").exists()
        words = [home / "bin" / "rattle", "check", "--crate-name", crate, "src/main.rt" if is_program else "src/lib.rt"]
        for name in ("std", *(it for it in deps if it not in self.crates)):
            words += ["--extern", f"{name}={home}/rlibs/{name}.rlib"]
        words += ["-L", f"dependency={home}/rlibs"]
        words += [it for name in deps if name in self.crates for it in ("--extern", f"{name}={self.library(name)}")]
        words += [it for name in self.below(crate) for it in ("-L", f"dependency={self.library(name).parent}")]
        words += ["--antt-project", home / "rattle/logic/antt-project.json", "--logic-built", home / "logic_built"]
        words += ["--links", f"{crate}=", "--jobs", "1"]
        return [*words, *(["--crate-type", "staticlib"] if "staticlib" in kinds else [])]


def texts_of(folder):
    files = [it for part in PARTS for it in sorted((folder / part).rglob("*")) if it.is_file()]
    return [(str(it.relative_to(folder)), it.read_bytes()) for it in files]


def measured(words, folder, out, err):
    """Runs a command in a folder; its status, and how many seconds of a processor it took."""
    ran = subprocess.Popen(words, cwd=folder, stdin=subprocess.DEVNULL, stdout=out, stderr=err)
    _, status, used = os.wait4(ran.pid, 0)
    ran.returncode = os.waitstatus_to_exitcode(status)
    return ran.returncode, used.ru_utime + used.ru_stime


class Room:
    """A copy of a crate, and the checks over it."""

    def __init__(self, top, crate, words):
        self.crate, self.words, self.seconds, self.checks = top / "crates" / crate, words, 0.0, 0
        self.folder = pathlib.Path(tempfile.mkdtemp(prefix="edits-"))

    def __enter__(self):
        return self

    def __exit__(self, *_):
        shutil.rmtree(self.folder, ignore_errors=True)

    def check(self, texts, turned):
        """What a check of the crate with these texts says, and its status: of the functions that are turned alone, where
        there are any."""
        copy = self.folder / "crate"
        shutil.rmtree(copy, ignore_errors=True)
        for part in PARTS:
            if (self.crate / part).is_dir():
                shutil.copytree(self.crate / part, copy / part)
        for path, text in texts.items():
            (copy / path).write_text(text)
        words = [*self.words, "--incremental", self.folder / "kept"]
        if turned:
            leave_open(copy, self.crate.name, {folder_of(*it) for it in turned})
            words += ["--allow-holes", *(word for path, _ in sorted(turned) for word in ("--only", below_crate(path)))]
        with open(self.folder / "said", "w+", errors="replace") as said:
            status, seconds = measured(words, copy, said, subprocess.STDOUT)
            said.seek(0)
            text = said.read()
        self.seconds += seconds
        self.checks += 1
        return text, status


# ---- what a check tells


def own_goals(text, path, cycle):
    """The errors at goals of a function, each with the line behind it, in which a name that is gone may stand."""
    at = folder_of(path, cycle)
    module = re.compile(rf"[.]{re.escape(at.replace('/', '.'))}[.`]")
    lines = [*text.splitlines(), ""]
    errors = ((line, after) for line, after in zip(lines, lines[1:]) if ": error" in line)
    return [line + after for line, after in errors if f"/{at}/" in line or module.search(line)]


def by_goals(goals):
    """What errors at goals tell."""
    telling = [line for line in goals if not GONE.search(line) and not LIMITED.search(line)]
    if telling:
        return REFUSED, telling[0]
    limited = [line for line in goals if LIMITED.search(line)]
    return (LIMIT, limited[0]) if limited else (NAMES, goals[0])


def last_line(text):
    return text.rstrip().split("\n")[-1]


def why_unread(text):
    """Why a check did not reach the prover."""
    return next((line for line in text.splitlines() if "error" in line), last_line(text))[:160]


def told_in_batch(edit, text):
    """What the check of a batch tells of an edit; None where it must be tried alone."""
    verdicts = dict(re.findall(r"^fn (\S+): (.*)$", text, re.M))
    told = None
    for path, cycle in edit.functions:
        # (the last two words, should its module be spelled otherwise)
        ends = [it for name, it in verdicts.items() if name.split("::")[-2:] == path.split("::")[-2:]]
        verdict = verdicts.get(path) or (ends[0] if len(ends) == 1 else "")
        goals = own_goals(text, path, cycle)
        gone = [line for line in goals if GONE.search(line)]
        if verdict.startswith("no proof: expected answers") and not gone:
            return REFUSED, f"{path}: {verdict}"
        if verdict.startswith("no proof: expected answers") and told is None:
            told = NAMES, gone[0]
        goals = [line for line in goals if not re.match(r"(\./)?src/", line)]
        if verdict.startswith("not proved") and goals and (told is None or told[0] == NAMES):
            told = by_goals(goals)
    return told


def told_alone(edit, text, status):
    """What the check of the whole crate tells of an edit."""
    last = last_line(text)
    errors = [line for line in text.splitlines() if ": error" in line]
    if status == 0:
        return ACCEPTED, last
    if status == 1 and last.startswith("logic=not-proved"):
        goals = [line for it in edit.functions if it for line in own_goals(text, *it)] or errors or [last]
        is_unread = re.match(r"(\./)?(src|specs)/", goals[0]) and UNREAD.search(goals[0])
        return (BAD, goals[0]) if is_unread else by_goals(goals)
    if status == 1:
        return BAD, next((line for line in text.splitlines() if "error" in line), last)
    return LIMIT, next(iter(errors), last)


class Tries:
    """The tries of a crate's edits: what came of each, and of which check."""

    def __init__(self, top, room, tell):
        self.top, self.room, self.tell, self.told = top, room, tell, {}

    def note(self, edit, outcome, why):
        self.told[edit.name] = outcome
        self.tell(f"{edit.name}: {outcome}: {why[:160]}")

    def all_of(self, edits):
        for edit in edits:
            if edit.fault:
                self.note(edit, BAD, edit.fault)
        for batch in batches_of(self.top, edits):
            self.batch(batch.edits)
        for edit in edits:
            if edit.name not in self.told:
                text, status = self.room.check(edit.put_into(self.top, {}), [])
                self.note(edit, *told_alone(edit, text, status))

    def batch(self, edits):
        """Tries a batch; by halves where one of its edits does not reach the prover."""
        texts = {}
        for edit in edits:
            texts = edit.put_into(self.top, texts)
        text, _ = self.room.check(texts, {function for it in edits for function in it.functions})
        if not last_line(text).startswith(("only=", NO_VERDICT)):
            self.tell(f"{len(edits)} edits together: {why_unread(text)}")
            if len(edits) > 1:
                self.batch(edits[: len(edits) // 2])
                self.batch(edits[len(edits) // 2 :])
            return
        for edit in edits:
            told = told_in_batch(edit, text)
            if told:
                self.note(edit, *told)


def try_crate(libraries, crate, edits, tell):
    """By edit of a crate what came of it, the seconds of a processor that this took, and the number of checks."""
    lacking = libraries.lacking(crate)
    if lacking:
        tell(f"{crate}: not tried: {lacking}")
        return {}, 0.0, 0
    with Room(libraries.top, crate, libraries.command(crate)) as room:
        tries = Tries(libraries.top, room, tell)
        tries.all_of(edits)
        return tries.told, room.seconds, room.checks
