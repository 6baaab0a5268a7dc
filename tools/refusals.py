#!/usr/bin/env python3
"""Lets each request for memory of the program tests_of_refusals fail, once each, and looks whether what it says stays the same.

Runs the program once to count its requests, and then once for each of them. With the word `built` it is the program that
`rt ci` left; else it is proved and built first. docs/GATE.md says more. The last line counts calls, and the status is 1
where one failed.
"""

import os
import pathlib
import shutil
import subprocess
import sys
import tempfile
from collections import Counter
from concurrent.futures import ThreadPoolExecutor

TOP = pathlib.Path(__file__).resolve().parent.parent
CRATE = TOP / "crates" / "tests_of_refusals"
JOBS = 2
# Calls named so are there for the one growth that is refused in them.
GROWTH = "_growth"


class Tried:
    """The program, and the library that refuses."""

    def __init__(self, folder):
        self.program = folder / "program"
        self.library = folder / "refuse.so"
        shutil.copyfile(CRATE / "out" / "tests_of_refusals", self.program)
        self.program.chmod(0o755)
        words = ["cc", "-O2", "-shared", "-fPIC", "-o", self.library, TOP / "tools" / "refuse.c", "-ldl"]
        subprocess.run(words, check=True)

    def run(self, **how):
        return subprocess.run([self.program], capture_output=True, timeout=60, **how)

    def counted(self):
        """What the program says where nothing is refused, and how many requests it makes."""
        end, start = os.pipe()
        ran = self.run(env={"LD_PRELOAD": str(self.library), "COUNT": str(start)}, pass_fds=[start])
        os.close(start)
        with os.fdopen(end) as counts:
            count = int(counts.read() or 0)
        if not count:
            sys.exit(f"the library that refuses cannot be loaded before the C library: {ran.stderr.decode(errors='replace')}")
        if ran.returncode or ran.stderr:
            sys.exit(f"the program fails where nothing is refused: {ran}")
        return ran.stdout, count

    def ask(self, number, wanted):
        """The call in which this request was refused, or none; and whether all else was as wanted."""
        ran = self.run(env={"LD_PRELOAD": str(self.library), "REFUSE": str(number)})
        lines = ran.stderr.decode(errors="replace").splitlines()
        names = [line[len("refused ") :] for line in lines if line.startswith("refused ")]
        is_met = ran.stdout == wanted and ran.returncode == 0 and len(names) == len(lines) and len(names) <= 1
        if not is_met:
            said = ran.stdout.decode(errors="replace")
            print(f"request {number}: status {ran.returncode}, {lines}, says {said!r}", flush=True)
        return (names[0] if len(names) == 1 else None), is_met


def main(words):
    if words != ["built"]:
        subprocess.run(["rt", "run"], cwd=CRATE, check=True, stdout=subprocess.DEVNULL)
    with tempfile.TemporaryDirectory() as folder:
        tried = Tried(pathlib.Path(folder))
        wanted, count = tried.counted()
        with ThreadPoolExecutor(JOBS) as pool:
            answers = list(pool.map(lambda number: tried.ask(number, wanted), range(1, count + 1)))
    calls = [line[len("== ") :] for line in wanted.decode().splitlines() if line.startswith("== ")]
    hits = Counter(name for name, _ in answers if name)
    failed = {name or "what stands around the calls" for name, is_met in answers if not is_met}
    failed |= {name for name in calls if name.endswith(GROWTH) and not hits[name]}
    for name in calls:
        print(f"{name}: {hits[name]} requests refused")
    print(f"{len(calls)} calls, {sum(hits.values())} requests refused in them, of {count} in all")
    if failed:
        print("FAILED:", *sorted(failed))
    print(f"{len({*calls} - failed)} passed, {len(failed)} failed", flush=True)
    return 1 if failed else 0


if __name__ == "__main__":
    sys.exit(main(sys.argv[1:]))
