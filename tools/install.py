"""Proves what the command `balvuzsom` stands on, builds it, and puts it into a folder.

    python3 tools/install.py [FOLDER]    FOLDER: ~/.local/bin where none is named
    python3 tools/install.py library     proves and builds crates/rhai_c/out/librhai_c.a in its place

Each crate is shown as it is done. The first time takes an hour or more; what is proved is kept in the crates' folders out/,
so a run that was cut off goes on where it ended, and after a change only what stands on it is proved again."""

import os
import shutil
import subprocess
import sys

from bindings import ROOT, stands_on

COMMAND = "balvuzsom"
LIBRARY = "rhai_c"


def below(name):
    """How many crates of the repository a crate stands on."""
    known, found, left = stands_on(), set(), [name]
    while left:
        more = [it for it in known[left.pop()] if it in known and it not in found]
        found.update(more)
        left += more
    return len(found)


def prove(name):
    """Proves a crate and those below it, two at a time where there is room, and shows each; whether all are proved."""
    done, said, total = 0, [], below(name) + 1
    words = {"cwd": f"{ROOT}/crates/{name}", "stdout": subprocess.PIPE, "stderr": subprocess.STDOUT, "text": True}
    with subprocess.Popen(["rt", "all", "check"], **words) as ran:
        for line in ran.stdout:
            said.append(line)
            if line.startswith("== ") and done < total:
                done += 1
                print(f"{done} of {total}: {line[3:].strip()}", flush=True)
    if ran.returncode:
        print(*said, sep="", end="")
    return ran.returncode == 0


def build(name, *words):
    """Builds it over what is proved; whether it stands."""
    return subprocess.run(["rt", *words], cwd=f"{ROOT}/crates/{name}", check=False).returncode == 0


def install(folder):
    """Puts the command into the folder."""
    os.makedirs(folder, exist_ok=True)
    made = f"{folder}/{COMMAND}"
    # (one that runs is not written over, but replaced)
    shutil.copy(f"{ROOT}/crates/{COMMAND}/out/{COMMAND}", f"{made}.new")
    os.replace(f"{made}.new", made)
    is_found = os.path.abspath(folder) in os.environ.get("PATH", "").split(os.pathsep)
    print(f"{made} stands" + ("" if is_found else f"; {folder} is not on the PATH"))


def main(words):
    if words == ["library"]:
        return not (prove(LIBRARY) and build(LIBRARY, "lib"))
    if len(words) > 1 or words[:1] in (["-h"], ["--help"]):
        print(__doc__)
        return 2
    if not (prove(COMMAND) and build(COMMAND, "run", "--", "--version")):
        return 1
    install(words[0] if words else os.path.expanduser("~/.local/bin"))
    return 0


if __name__ == "__main__":
    sys.exit(main(sys.argv[1:]))
