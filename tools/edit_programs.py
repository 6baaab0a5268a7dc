"""Tries wrong bodies that meet every contract, by a program of tests whose answer they change.

Such an edit has a line `told by: PROGRAM LINE`: the line of the program's file stdout that begins so, with the one behind it
where it is whole, must be said no more. A line `words: WORD..` has what the program is asked, where that is not its file args."""

import pathlib
import re
import shutil
import tempfile

from edit_batches import ACCEPTED, BAD, REFUSED, measured

PARTS = ("src", "specs", "proofs", "data")


def line_of(text, word):
    found = re.search(rf"^{word}: (.*)$", text, re.M)
    return found[1] if found else ""


def asked(top, edit):
    """The program that tells an edit, and what it is asked."""
    program = line_of(edit.text, "told by").split()[0]
    file = top / "crates" / program / "args"
    words = line_of(edit.text, "words") or (file.read_text() if file.exists() else "")
    return program, tuple(words.split())


def answer_of(top, edit):
    """What the program says that the edit changes, and the beginning that stays."""
    program, _, begin = line_of(edit.text, "told by").partition(" ")
    lines = (top / "crates" / program / "stdout").read_text().splitlines()
    place = next((at for at, line in enumerate(lines) if line.startswith(begin)), None)
    if place is None:
        return None, begin
    count = 2 if lines[place] == begin else 1
    return "\n".join(lines[place : place + count]) + "\n", begin


def copied(top, folder):
    """A copy of all sources."""
    for name in ("crates.txt", "HANDLES"):
        shutil.copy2(top / name, folder / name)
    for crate in (top / "crates").iterdir():
        for part in PARTS:
            if (crate / part).is_dir():
                shutil.copytree(crate / part, folder / "crates" / crate.name / part)
    (folder / ".git").mkdir()


def run_program(folder, program, words):
    """What a program says that is built of the sources of a folder, which nothing proves; why not; and what that took."""
    crate = folder / "crates" / program
    data = [it for word in words if (crate / "data" / word).is_file() for it in ("--data", f"{word}=data/{word}")]
    command = ["rt", "try", *data, "--", *words]
    with open(folder / "out", "w+", errors="replace") as out, open(folder / "err", "w+", errors="replace") as err:
        _, seconds = measured(command, crate, out, err)
        out.seek(0)
        err.seek(0)
        return out.read(), err.read(), seconds


def try_by_program(top, edits, tell):
    """By edit, all told by one program that is asked the same, what came of it; and the seconds that it took."""
    program, words = asked(top, edits[0])
    told = {}
    with tempfile.TemporaryDirectory(prefix="edits-") as name:
        folder = pathlib.Path(name)
        copied(top, folder)
        for edit in edits:
            for path, text in (edit.put_into(folder, {}) or {}).items():
                (folder / "crates" / edit.crate / path).write_text(text)
        said, why, seconds = run_program(folder, program, words)
    for edit in edits:
        answer, begin = answer_of(top, edit)
        told[edit.name] = BAD if answer is None or begin not in said else ACCEPTED if answer in said else REFUSED
        reason = f"{program} says otherwise: {begin}" if told[edit.name] == REFUSED else why.strip()[-300:]
        tell(f"{edit.name}: {told[edit.name]}: {reason}")
    return told, seconds
