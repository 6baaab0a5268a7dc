"""Makes the library for C and Rust, and tests what stands over it: bindings/rust, bindings/c, bindings/python.

    python3 tools/bindings.py          makes the library by `rt lib`, which proves what `tools/install.py library` has not
    python3 tools/bindings.py built    makes it over the libraries that `rt ci` has left, which it proved

The last line is 'N passed, M failed'. It needs cargo, a C compiler and Python; and 10 seconds, once the library stands."""

import os
import re
import shutil
import subprocess
import sys
import tempfile

ROOT = os.path.dirname(os.path.dirname(os.path.abspath(__file__)))
CRATE = f"{ROOT}/crates/rhai_c"
ARCHIVE = f"{CRATE}/out/librhai_c.a"
SCRIPT = f"{ROOT}/crates/example_first/data/greet.rhai"


def said(*words, **how):
    """What a program writes, where it ends with status 0."""
    ran = subprocess.run(words, stdout=subprocess.PIPE, stderr=subprocess.STDOUT, text=True, **how)
    if ran.returncode:
        print(ran.stdout, end="")
    return ran.stdout if ran.returncode == 0 else None


def kit():
    """The kit's folder, in which the page that `rt doc` names stands."""
    return os.path.dirname((said("rt", "doc") or "").strip())


def stands_on():
    """What each crate of the repository stands on."""
    found = {}
    with open(f"{ROOT}/crates.txt", encoding="utf-8") as file:
        for line in file:
            name, colon, deps = line.partition("#")[0].partition(":")
            if colon:
                found[name.split()[0]] = deps.split()
    return found


def words_over(kit_folder):
    """The words by which the kit's compiler makes the archive over libraries that stand."""
    known = stands_on()
    rlib = lambda name: f"{ROOT}/crates/{name}/out/rlib/{name}.rlib"
    own = [it for it in known["rhai_c"] if it in known]
    words = [f"{kit_folder}/bin/rattle", "build", "--crate-name", "rhai_c", "src/lib.rt"]
    for name in ["std", *[it for it in known["rhai_c"] if it not in known]]:
        words += ["--extern", f"{name}={kit_folder}/rlibs/{name}.rlib"]
    words += ["-L", f"dependency={kit_folder}/rlibs"]
    for name in own:
        words += ["--extern", f"{name}={rlib(name)}"]
    below, left = [], [*own]
    while left:
        name = left.pop()
        if name not in below:
            below.append(name)
            left += [it for it in known[name] if it in known]
    for name in below:
        words += ["-L", f"dependency={os.path.dirname(rlib(name))}"]
    words += ["--antt-project", f"{kit_folder}/rattle/logic/antt-project.json", "--logic-built", f"{kit_folder}/logic_built"]
    words += ["--links", "rhai_c=", "--crate-type", "staticlib", "--toolchain", f"{kit_folder}/toolchain"]
    return words + ["--backend", "llvm", "-o", "out/librhai_c.a"]


def make(is_built):
    """Makes the archive."""
    if is_built:
        os.makedirs(f"{CRATE}/out", exist_ok=True)
        if said(*words_over(kit()), cwd=CRATE) is not None:
            return True
    return said("rt", "lib", cwd=CRATE) is not None


def counts(text):
    """How many tests passed and failed, by the lines of cargo and of the programs in C."""
    found = re.findall(r"(\d+) passed[;,] (\d+) failed", text or "")
    return sum(int(it[0]) for it in found), sum(int(it[1]) for it in found)


def of_rust(room):
    """The tests of the crate, and its example over a folder."""
    where = {"cwd": f"{ROOT}/bindings/rust", "env": {**os.environ, "CARGO_TARGET_DIR": f"{room}/target"}}
    passed, failed = counts(said("cargo", "test", "--offline", "--quiet", **where))
    os.makedirs(f"{room}/scripts/inner")
    shutil.copy(SCRIPT, f"{room}/scripts/inner/greet.rhai")
    words = ["cargo", "run", "--offline", "--quiet", "--example", "optimize_files", "--"]
    is_well = said(*words, f"{room}/scripts", f"{room}/made", **where) is not None and is_wanted(
        text_of(f"{room}/made/inner/greet.rhai")
    )
    return passed + is_well, failed + (not is_well) + (passed == 0)


def text_of(path):
    try:
        with open(path, encoding="utf-8") as file:
            return file.read()
    except OSError:
        return None


def is_wanted(text):
    """Whether a text is what the script becomes, as bindings/greet.rhai has it."""
    is_well = text == text_of(f"{ROOT}/bindings/greet.rhai")
    if not is_well:
        print(f"not as bindings/greet.rhai has it:\n{text}")
    return is_well


def of_c(room):
    """The three programs in C."""
    heap = f"{kit()}/c/liblibc_c.a"
    compiler = [os.environ.get("CC", "cc"), "-O2", "-Wall", "-Wextra", "-pthread"]
    results = []
    for name in ("example", "rooms", "stacks"):
        source = f"{ROOT}/bindings/c/{name}.c"
        results.append(said(*compiler, source, ARCHIVE, heap, "-o", f"{room}/{name}") is not None)
    results.append(is_wanted(said(f"{room}/example", SCRIPT)))
    # what the C library keeps at hand for a thread would count as held
    counted = {**os.environ, "GLIBC_TUNABLES": "glibc.malloc.tcache_count=0"}
    for words, how in (([f"{room}/rooms"], {"env": counted}), ([f"{room}/stacks"], {})):
        passed, failed = counts(said(*words, **how))
        results += [True] * passed + [False] * (failed + (passed == 0))
    return sum(results), len(results) - sum(results)


def of_python(room):
    """The module in Python over a shared object, and its tests."""
    heap, made = f"{kit()}/c/liblibc_c.a", f"{room}/balvuzsom.so"
    whole = ["-Wl,--whole-archive", ARCHIVE, "-Wl,--no-whole-archive", heap]
    is_linked = said(os.environ.get("CC", "cc"), "-shared", "-o", made, *whole) is not None
    python = [sys.executable, "-B"]
    is_well = is_linked and is_wanted(said(*python, f"{ROOT}/bindings/python/balvuzsom.py", made, SCRIPT))
    passed, failed = counts(said(*python, f"{ROOT}/bindings/python/tests.py", made))
    return passed + is_well, failed + (not is_well) + (passed == 0)


def main():
    passed, failed = 0, 0
    if not make(sys.argv[1:] == ["built"]):
        failed = 1
    with tempfile.TemporaryDirectory() as room:
        for test in (of_rust, of_c, of_python) if not failed else ():
            more = test(room)
            print(f"{test.__name__}: {more[0]} passed, {more[1]} failed")
            passed, failed = passed + more[0], failed + more[1]
    print(f"{passed} passed, {failed} failed")
    return failed > 0


if __name__ == "__main__":
    sys.exit(main())
