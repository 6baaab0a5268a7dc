#!/usr/bin/env python3
"""Tries the command on files of a folder of its own, named by relative paths.

    python3 tools/command.py          proves and builds it first, by `rt run`
    python3 tools/command.py built    takes the program that `rt ci` has left

The last line is 'N passed, M failed'. It takes a second, once the program stands."""

import pathlib
import subprocess
import sys
import tempfile

TOP = pathlib.Path(__file__).resolve().parent.parent
CRATE = TOP / "crates" / "balvuzsom"
WRITTEN = b"let b = 1 + 1;\n"
OPTIMIZED = b"let b = 2;\n"


class Folder:
    """A folder in which the command is asked."""

    def __init__(self, path):
        self.path = pathlib.Path(path)

    def put(self, name, content):
        file = self.path / name
        file.parent.mkdir(parents=True, exist_ok=True)
        file.write_bytes(content)
        return file

    def ask(self, *words, given=b""):
        """The status and what is printed."""
        ran = subprocess.run([CRATE / "out" / "balvuzsom", *words], cwd=self.path, input=given, capture_output=True, timeout=60)
        return ran.returncode, ran.stdout

    def names(self):
        return sorted(str(it.relative_to(self.path)) for it in self.path.rglob("*") if not it.is_dir())


def relative_path(folder):
    folder.put("scripts/a.rhai", WRITTEN)
    return folder.ask("optimize", "scripts/a.rhai") == (0, OPTIMIZED)


def path_above(folder):
    folder.put("a.rhai", WRITTEN)
    inner = Folder(folder.put("inner/b.rhai", b"").parent)
    return inner.ask("optimize", "../a.rhai") == (0, OPTIMIZED)


def standard_input(folder):
    return folder.ask("optimize", "-", given=WRITTEN) == (0, OPTIMIZED)


def no_such_file(folder):
    return folder.ask("optimize", "a.rhai") == (2, b"")


def in_place(folder):
    """A folder's scripts, with modes and ends of lines kept, and nothing else touched or left."""
    script = folder.put("scripts/a.rhai", WRITTEN)
    script.chmod(0o640)
    windows = folder.put("scripts/more/b.rhai", b"let b = 1 + 1;\r\nprint(b);\r\n")
    notes = folder.put("scripts/notes.md", WRITTEN)
    before = folder.names()
    is_done = folder.ask("optimize", "--in-place", "scripts") == (0, b"")
    is_kept = script.stat().st_mode & 0o777 == 0o640 and folder.names() == before and notes.read_bytes() == WRITTEN
    return is_done and is_kept and script.read_bytes() == OPTIMIZED and windows.read_bytes() == b"let b = 2;\r\nprint(b);\r\n"


def through_a_link(folder):
    script = folder.put("a.rhai", WRITTEN)
    link = folder.path / "link.rhai"
    link.symlink_to("a.rhai")
    return folder.ask("optimize", "--in-place", "link.rhai") == (0, b"") and link.is_symlink() and script.read_bytes() == OPTIMIZED


def output(folder):
    folder.put("a.rhai", WRITTEN)
    return folder.ask("optimize", "--output", "to.rhai", "a.rhai") == (0, b"") and (folder.path / "to.rhai").read_bytes() == OPTIMIZED


def a_file_in_the_way(folder):
    """What is to be written beside a script has the name of a file: both stay."""
    script = folder.put("a.rhai", WRITTEN)
    other = folder.put("a.rhai.balvuzsom", b"mine")
    return folder.ask("optimize", "--in-place", "a.rhai") == (2, b"") and script.read_bytes() == WRITTEN and other.read_bytes() == b"mine"


def a_link_in_a_circle(folder):
    folder.put("scripts/a.rhai", WRITTEN)
    (folder.path / "scripts" / "again").symlink_to(".")
    return folder.ask("optimize", "scripts") == (0, OPTIMIZED)


# Bodies that call their function again, some inside of what nests as deep as a text may.
BODIES = [
    "f(n)",
    "f(n + 1)",
    "1 + f(n)",
    "-(-(-f(n)))",
    "() ?? f(n)",
    "false || f(n)",
    "n.f(n)",
    "n.m()",
    "n.m().f(f(n))",
    "this.x = n.f(n)",
    "n[f(n)].x = 1",
    "n.x[n.f(n)].y",
    "let g = |x| f(x); g.call(n)",
    "call(Fn(\"f\"), n)",
    "if n == 0 {} else { f(n) }",
    "if f(n) { 1 }",
    "switch n { 0 => 1, _ => f(n) }",
    "for i in [n] { f(i); }",
    "while f(n) {}",
    "try { f(n) } catch (e) { e }",
    "try { throw 1 } catch (e) { f(n) }",
    "throw f(n)",
    "let x = f(n)",
    "[f(n)]",
    "#{ a: f(n) }",
    "`${f(n)}`",
    "{ { { 1 + { f(n) } } } }",
    "[" * 12 + "f(n)" + "]" * 12,
    "if true { " * 12 + "f(n)" + " }" * 12,
    "do { " * 12 + "f(n); " + "} while false;" * 12,
    "1 + (" * 9 + "f(n)" + ")" * 9,
    "g(" * 12 + "f(n)" + ")" * 12,
    "n.g(" * 12 + "n.f(n)" + ")" * 12,
]


def calls_without_end(folder):
    """Each is out of turns, or is told so, and none takes the stack."""
    asked = []
    for number, body in enumerate(BODIES):
        folder.put(f"{number}.rhai", f"fn f(n) {{ {body} }}\nfn g(n) {{ n }}\nfn m() {{ f(this) }}\nf(1)\n".encode())
        for turns in ["1000", "1000000"]:
            status, _ = folder.ask("run", "--turns", turns, f"{number}.rhai")
            asked.append(status == 1)
            if status != 1:
                print(f"status {status}: run --turns {turns}: {body}", flush=True)
    return all(asked)


TRIES = [
    relative_path,
    path_above,
    standard_input,
    no_such_file,
    in_place,
    through_a_link,
    output,
    a_file_in_the_way,
    a_link_in_a_circle,
    calls_without_end,
]


def main(words):
    if words != ["built"]:
        subprocess.run(["rt", "run", "--", "--version"], cwd=CRATE, check=True, stdout=subprocess.DEVNULL)
    failed = []
    for one in TRIES:
        with tempfile.TemporaryDirectory() as folder:
            if not one(Folder(folder)):
                failed.append(one.__name__)
    if failed:
        print("FAILED:", *failed)
    print(f"{len(TRIES) - len(failed)} passed, {len(failed)} failed", flush=True)
    return 1 if failed else 0


if __name__ == "__main__":
    sys.exit(main(sys.argv[1:]))
