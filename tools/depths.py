#!/usr/bin/env python3
"""Measures how deep a nest of each kind may be on this machine's stack, to a hundred: to be tested, walked over and let go of; to be
copied; to be optimised, run and printed.

Builds tests_of_odd_trees as `rt run` does, with the words that it is given, as --backend rattle. 100000 says: at least.
"""

import pathlib
import subprocess
import sys

CRATE = pathlib.Path(__file__).resolve().parent.parent / "crates" / "tests_of_odd_trees"
PROGRAM = CRATE / "out" / "tests_of_odd_trees"
NESTS = ["choices", "blocks", "loops", "attempts", "arrays", "braces", "calls", "operands", "bases", "steps"]
MOST = {"tests": 100_000, "copy": 100_000, "run": 10_000}


def bears(what, nest, depth):
    """Whether the program ends that asks this of a nest."""
    ran = subprocess.run([str(PROGRAM), what, nest, str(depth)], capture_output=True)
    return ran.returncode == 0


def depth_of(what, nest):
    """The depth that is borne, to a hundred."""
    most = MOST[what] // 100
    if bears(what, nest, most * 100):
        return most * 100
    least = 0
    while most - least > 1:
        middle = (least + most) // 2
        if bears(what, nest, middle * 100):
            least = middle
        else:
            most = middle
    return least * 100


def main():
    subprocess.run(["rt", "run", *sys.argv[1:]], cwd=CRATE, check=True, stdout=subprocess.DEVNULL)
    for nest in NESTS:
        print(nest, *(f"{what} {depth_of(what, nest)}" for what in MOST), flush=True)


if __name__ == "__main__":
    main()
