#!/usr/bin/env python3
"""Tries wrong bodies: the edits crates/*/must-fail/NAME.edit.md, each of which the prover must refuse.

    python3 tools/edits.py gate           those of tools/wrong_bodies.txt, and those in turn by the number of the commit: of both
                                          what was refused when it was last tried
    python3 tools/edits.py try NAME..     these, or all of these crates
    python3 tools/edits.py stale [N]      those that were not tried at these sources; of N crates, the lowest first
    python3 tools/edits.py                none

All are tried over libraries that were proved: `--libraries TOP` names the checkout whose `rt ci` made them, where it is not
this one. `--jobs N` checks are made at once. All but `gate` keep what came of each edit in tools/edits.txt: a sum over its
crate, all crates below and itself, the outcome, and its share of the seconds of a processor that its crate's tries took; and
write the section "Edits today" of docs/GATE.md anew. The status is 1 where one was not refused."""

import argparse
import functools
import hashlib
import os
import pathlib
import re
import subprocess
import sys
import threading
from concurrent.futures import ThreadPoolExecutor

from edit_batches import NAMES, REFUSED, Edit, Libraries, texts_of, try_crate
from edit_programs import asked, try_by_program

TOP = pathlib.Path(__file__).resolve().parent.parent
KEPT = TOP / "tools" / "edits.txt"
NAMED = TOP / "tools" / "wrong_bodies.txt"
GATE = TOP / "docs" / "GATE.md"
RULES = TOP / "crates" / "theory_rewriting" / "specs" / "Rules.antt"
HEADING = "## Edits today\n"
# So many runs of the gate try all.
SHARES = 5
# What an edit is taken to cost that was not tried yet, in seconds.
UNKNOWN = 10.0
COLUMNS = 2
WRONG_BODIES, RULES_HEAD = "wrong bodies", "rules"
# The headings of wrong_bodies.txt below which each gate tries all; what stands below the others is in turn.
EACH = (WRONG_BODIES, "calls", RULES_HEAD)


# ---- what there is


@functools.lru_cache
def crates():
    """The crates, the lowest first: the words of each, and those after it."""
    made = {}
    for line in (TOP / "crates.txt").read_text().splitlines():
        if line and not line.startswith("#"):
            head, deps = line.split(":")
            made[head.split()[0]] = (head.split()[1:], deps.split())
    return made


@functools.lru_cache
def edits():
    """The edits by name."""
    files = [(crate, it) for crate in crates() for it in sorted((TOP / "crates" / crate / "must-fail").glob("*.edit.md"))]
    return {edit.name: edit for edit in (Edit(TOP, *it) for it in files)}


@functools.lru_cache
def named():
    """By heading of wrong_bodies.txt, what stands below it: a sentence or a name, and its edits."""
    made, heading = {}, None
    for line in NAMED.read_text().splitlines():
        if line.startswith("== "):
            heading = line.removeprefix("== ")
            made[heading] = []
        elif line and not line.startswith("#"):
            what, _, names = line.rpartition(": ")
            made[heading].append((what, names.split()))
    return made


@functools.lru_cache
def in_each_gate():
    return names_below(EACH)


def names_below(headings):
    return {name for it in headings for _, names in named()[it] for name in names}


def faults_of_list():
    """What is wrong with wrong_bodies.txt: edits that there are not, and rules that have none."""
    # What ends in `_rule` hands a rule of chains on.
    rules = set(re.findall(r"^  (\w+)(?<!_rule) : ", RULES.read_text(), re.M))
    listed = {word for what, _ in named()[RULES_HEAD] for word in what.split(", ")}
    faults = [f"{name} is no edit" for name in sorted(names_below(named()) - set(edits()))]
    faults += [f"the rule {name} has no edit" for name in sorted(rules - listed)]
    return faults + [f"{name} is no rule" for name in sorted(listed - rules)]


# ---- what was tried


@functools.lru_cache
def own_sum(crate):
    return hashlib.sha256(repr(texts_of(TOP / "crates" / crate)).encode()).hexdigest()


@functools.lru_cache
def sum_of(name):
    """The sum over an edit, its crate or the program that tells it, and all crates below."""
    crate = edits()[name].crate
    crate = asked(TOP, edits()[name])[0] if edits()[name].is_told_by_program() else crate
    below = Libraries(TOP, TOP, crates()).below(crate)
    whole = [own_sum(it) for it in [*below, crate]] + [edits()[name].text]
    return hashlib.sha256(" ".join(whole).encode()).hexdigest()[:12]


def read_kept():
    """By edit the sum, the outcome and the seconds of its last try."""
    lines = KEPT.read_text().splitlines() if KEPT.exists() else []
    return {words[0]: (words[1], words[2], float(words[3])) for words in map(str.split, lines)}


def write_kept(kept):
    rows = sorted((name, *said) for name, said in kept.items() if name in edits())
    KEPT.write_text("".join(f"{name} {made} {outcome} {seconds:.1f}\n" for name, made, outcome, seconds in rows))


def was_refused(name, kept):
    """Whether an edit was refused when it was last tried, at whichever sources."""
    return name in kept and kept[name][1] in (REFUSED, NAMES)


def is_fresh(name, kept):
    """Whether an edit was refused at the sources as they stand."""
    return name in kept and kept[name][:2] == (sum_of(name), REFUSED)


# ---- what is in turn


def cost_of(crate, kept):
    """What the edits of a crate cost that are not in each gate."""
    names = [it for it in edits() if it.startswith(crate + "/") and it not in in_each_gate()]
    return sum(kept[it][2] if it in kept else UNKNOWN for it in names)


def shares(kept):
    """By crate with edits the share in whose turn they are: the dearest crate goes to the cheapest share."""
    costs = {crate: cost_of(crate, kept) for crate in crates()}
    sums, made = [0.0] * SHARES, {}
    for crate in sorted((it for it in costs if costs[it]), key=lambda it: (-costs[it], it)):
        made[crate] = sums.index(min(sums))
        sums[made[crate]] += costs[crate]
    return made


def commit_number():
    """How many commits lead here; 0 where git does not say."""
    try:
        ran = subprocess.run(["git", "rev-list", "--count", "HEAD"], cwd=TOP, capture_output=True, text=True, check=False)
    except OSError:
        return 0
    return int(ran.stdout) if ran.returncode == 0 else 0


# ---- tries


class Run:
    """Tries of edits, some crates at once."""

    def __init__(self, proved, jobs):
        self.libraries, self.jobs = Libraries(TOP, proved, crates()), jobs
        self.told, self.seconds, self.checks, self.alone = {}, 0.0, 0, threading.Lock()

    def tell(self, text):
        print(text, flush=True)

    def group(self, group, names, kept):
        """Tries edits of one crate by the prover, or those that one program tells."""
        found = [edits()[it] for it in names]
        if isinstance(group, str):
            told, seconds, checks = try_crate(self.libraries, group, found, self.tell)
        else:
            told, seconds = try_by_program(TOP, found, self.tell)
            group, checks = group[0], 1
        with self.alone:
            self.told.update(told)
            self.seconds += seconds
            self.checks += checks
            self.tell(f"{group}: {len(told)} tried, {seconds:.0f} s of a processor")
            if kept is not None:
                kept.update({name: (sum_of(name), outcome, seconds / len(told)) for name, outcome in told.items()})
                write_kept(kept)

    def all_of(self, names, kept=None):
        """Tries these edits, the groups with most of them first; answers those that were not refused."""
        names, groups = [it for it in edits() if it in names], {}
        for name in names:
            groups.setdefault(group_of(name), []).append(name)
        order = sorted(groups, key=lambda it: -len(groups[it])) if self.jobs > 1 else list(groups)
        with ThreadPoolExecutor(self.jobs) as pool:
            for done in [pool.submit(self.group, it, groups[it], kept) for it in order]:
                done.result()
        return [name for name in names if self.told.get(name) not in (REFUSED, NAMES)]


def group_of(name):
    """What edits are tried with: those of the crate, or those that the same program tells."""
    edit = edits()[name]
    return asked(TOP, edit) if edit.is_told_by_program() else edit.crate


def said_of(names, told):
    """What is said of a wrong body for which these edits stand."""
    if not all(it in told for it in names):
        return "not tried"
    if all(told[it] == REFUSED for it in names):
        return "refused"
    return "refused, by a name alone" if all(told.get(it) in (REFUSED, NAMES) for it in names) else "NOT REFUSED"


def gate(run):
    """Tries what is in each gate and what is in turn, and says of each named wrong body whether it was refused."""
    faults, kept, turn = faults_of_list(), read_kept(), commit_number() % SHARES
    here = shares(kept)
    in_turn = {it for it in edits() if here.get(edits()[it].crate) == turn}
    failed = run.all_of({it for it in in_each_gate() | in_turn if was_refused(it, kept)})
    for what, names in named()[WRONG_BODIES]:
        print(said_of(names, run.told), f"{what} ({', '.join(names)})", sep=": ")
    for what in [*faults, *(f"{name}: {run.told.get(name, 'not tried')}" for name in failed)]:
        print("FAILED:", what)
    print(f"share {turn} of {SHARES}; {run.seconds / 60:.1f} minutes of a processor in {run.checks} checks")
    print(f"{len(run.told) - len(failed)} passed, {len(failed) + len(faults)} failed", flush=True)
    return 1 if failed or faults else 0


# ---- the section of GATE.md


def cells(kept):
    """Of each crate with edits: how many in each gate, how many in turn and when, and how many were refused here."""
    here, each = shares(kept), in_each_gate()
    for crate in crates():
        names = [it for it in edits() if edits()[it].crate == crate]
        if names:
            often = sum(it in each for it in names)
            seldom = len(names) - often
            yield crate, often, seldom, here.get(crate, ""), sum(is_fresh(it, kept) for it in names)


def section(kept):
    rows = list(cells(kept))
    lines = [f"| {name:18} | {often or '':4} | {seldom or '':4} | {share:5} | {fresh or '':7} " for name, often, seldom, share, fresh in rows]
    height = -(-len(lines) // COLUMNS)
    lines += [f"| {'':18} | {'':4} | {'':4} | {'':5} | {'':7} "] * (height * COLUMNS - len(lines))
    head = f"| {'crate':18} | each | turn | share | refused " * COLUMNS
    rule = f"|{'-' * 20}|{'-' * 6}|{'-' * 6}|{'-' * 7}|{'-' * 9}" * COLUMNS
    table = "".join(line + "|\n" for line in [head, rule, *("".join(lines[row::height]) for row in range(height))])
    often, seldom, fresh = (sum(row[at] for row in rows) for at in (1, 2, 4))
    return f"""{HEADING}
Of each crate that has any: how many are tried in each gate, how many in turn, in which share of the commits, and how many
of both were refused at the sources as they stand.

{table}
In all {often} in each gate and {seldom} in turn, in {SHARES} shares; {fresh} were refused at these sources. There are
{len(named()[WRONG_BODIES])} named wrong bodies.
"""


# ---- words


def asked_for(words, kept):
    """The edits that the words ask for."""
    if words.verb == "try":
        return {it for it in edits() if it in words.names or edits()[it].crate in words.names}
    if words.verb == "stale":
        found = [it for it in edits() if not is_fresh(it, kept)]
        wanted = list(dict.fromkeys(edits()[it].crate for it in found))[: int(words.names[0]) if words.names else None]
        return {it for it in found if edits()[it].crate in wanted}
    return set()


def main():
    parser = argparse.ArgumentParser(description=__doc__, formatter_class=argparse.RawDescriptionHelpFormatter)
    parser.add_argument("verb", nargs="?", choices=["gate", "try", "stale"])
    parser.add_argument("names", nargs="*")
    parser.add_argument("--libraries", type=pathlib.Path, default=TOP)
    parser.add_argument("--jobs", type=int, default=min(2, os.cpu_count() or 1))
    words = parser.parse_args()
    run = Run(words.libraries.resolve(), words.jobs)
    if words.verb == "gate":
        return gate(run)
    kept = read_kept()
    failed = run.all_of(asked_for(words, kept), kept)
    text = GATE.read_text()
    GATE.write_text(text[: text.index(HEADING)] + section(kept))
    for name in failed:
        print(f"{run.told.get(name, 'not tried')}: {name}")
    return 1 if failed else 0


if __name__ == "__main__":
    sys.exit(main())
