"""Balvuzsom from Python: python3 balvuzsom.py LIBRARY.so FILE.. prints each script, optimised.

The shared object is made of the archive and the kit's heap:
cc -shared -o balvuzsom.so -Wl,--whole-archive librhai_c.a -Wl,--no-whole-archive liblibc_c.a"""
import ctypes
import sys
import threading
from typing import NamedTuple, Optional

# What a call takes of the stack (balvuzsom.h): for all levels that are read, for a level of a value, and for the call of a
# function with a body as deep as rhai's bound has it. No stack is larger than the last.
LEVELS, VALUE, CALL, LARGEST = 17 << 20, 4 << 10, 160 << 10, 16 << 30
MAKING = threading.Lock()


class Options(ctypes.Structure):
    _fields_ = [
        ("size", ctypes.c_uint64),
        ("turns", ctypes.c_uint64),
        ("level", ctypes.c_uint32),
        ("flags", ctypes.c_uint32),
        ("max_expr_depth", ctypes.c_uint64),
        ("max_function_expr_depth", ctypes.c_uint64),
        ("max_string_size", ctypes.c_uint64),
    ]


class Refusal(ctypes.Structure):
    _fields_ = [("line", ctypes.c_uint32), ("column", ctypes.c_uint32), ("length", ctypes.c_uint64)]


class Refused(Exception):
    """Why a call does not answer, with the line and column; 0 for nowhere."""

    def __init__(self, line, column, reason):
        super().__init__(f"line {line}, column {column}: {reason}" if line else reason)
        self.line, self.column, self.reason = line, column, reason


class Finding(NamedTuple):
    """Something that is wrong with a script; line and column are 0 where it stands nowhere."""

    line: int
    column: int
    text: str


class Call(NamedTuple):
    """A call of the host; its values are in print."""

    name: str
    receiver: Optional[str]
    arguments: list


class Report(NamedTuple):
    """What a run does. end: `value` or `thrown` and a value, `stuck`, a number and a name, or `out of turns`. Values are in
    print, texts as literals."""

    end: list
    turns_left: int
    variables: list
    constants: list
    exports: list
    calls: list


def report_of(text):
    """The report that stands in lines, with tabs between their parts."""
    lines = [line.split("\t") for line in text.split("\n")]
    named = lambda kind: [(it[1], it[2]) for it in lines if it[0] == kind]
    calls = [
        Call(it[1], it[2] if it[0] == "method" else None, it[3 if it[0] == "method" else 2 :])
        for it in lines
        if it[0] in ("call", "method")
    ]
    return Report(lines[0][1:], int(lines[1][1]), named("variable"), named("constant"), named("export"), calls)


def on_own_stack(work, size):
    """What work answers in a thread with so large a stack."""
    answers = []
    with MAKING:
        before = threading.stack_size(size)
        try:
            thread = threading.Thread(target=lambda: answers.append(work()))
            thread.start()
        finally:
            threading.stack_size(before)
    thread.join()
    return answers[0]


def signs(text):
    """How many signs of a text may make a value deeper."""
    return sum(map(text.count, b"[({.|"))


def needed(first, second):
    """What it takes of the stack to read, optimise and print these texts."""
    constants = 1000 * (first.count(b"const") + second.count(b"const"))
    return LEVELS + VALUE * min(constants, signs(first) + signs(second))


def needed_in_turn(source):
    """What a turn of a run takes: a value may grow by a level for each sign, and a function be called."""
    return VALUE * signs(source) + CALL * (b"fn" in source or b"|" in source)


class Library:
    """The calls of the library. `known` declares constants that hold beforehand: `const DEBUG = false;`."""

    def __init__(self, path):
        self.library = ctypes.CDLL(path)
        for name in ("optimize", "check", "run", "merge", "version"):
            self.of(name).restype = ctypes.c_int64

    def of(self, name):
        return getattr(self.library, f"balvuzsom_{name}")

    def optimize(self, source, known="", level=1):
        """The text of a script, optimised: at level 0 not at all, at 1 and 2 all is."""
        if level not in (0, 1, 2):
            raise ValueError(f"there is no level {level}: 0, 1 and 2 are")
        return self.answered("optimize", source.encode(), known.encode(), level)

    def check(self, source, known=""):
        """What is wrong with a script. Raises Refused where it is none."""
        lines = self.answered("check", source.encode(), known.encode()).split("\n")[:-1]
        parts = [line.split(":", 2) for line in lines]
        return [Finding(int(line), int(column), text[1:]) for line, column, text in parts]

    def run(self, source, turns=1000, known=""):
        """What a run does within so many turns, where each call of the host is answered by unit. It has as many of them as
        there is a stack for, and raises MemoryError where it wants more."""
        source, known = source.encode(), known.encode()
        each = needed_in_turn(source)
        whole = needed(source, known) + each
        given = min(turns, (LARGEST - whole) // each) if each else turns
        while given >= 0:
            try:
                report = report_of(self.answered("run", source, known, 1, given, whole + each * given))
            except RuntimeError:  # no thread has such a stack
                given = given // 2 if given else -1
                continue
            if given < turns and report.end == ["out of turns"]:
                break
            return report._replace(turns_left=report.turns_left + turns - given)
        raise MemoryError("there is no stack for so many turns")

    def merge(self, first, second):
        """The second script behind the first, its functions in the place of those with the same name and parameters."""
        return self.answered("merge", first.encode(), second.encode())

    def version(self):
        """The version of the library."""
        room = ctypes.create_string_buffer(64)
        length = self.of("version")(room, ctypes.c_size_t(len(room)), ctypes.byref(Refusal()))
        return room.raw[:length].decode()

    def answered(self, name, first, second, level=1, turns=0, stack=None):
        """What a call answers on a stack of its own, asked again where the room was too small."""
        options = Options(ctypes.sizeof(Options), turns, level, 0, 64, 32, 0)
        wanted = len(first) + len(second) + 1024
        while True:
            room, refusal = ctypes.create_string_buffer(wanted), Refusal()
            work = lambda: self.asked(name, first, second, options, room, refusal)
            code = on_own_stack(work, stack or needed(first, second))
            length = refusal.length if code < 0 else code
            if length > wanted:
                wanted = length
                continue
            text = room.raw[:length].decode()
            if code < 0:
                raise Refused(refusal.line, refusal.column, text)
            return text

    def asked(self, name, first, second, options, room, refusal):
        """Makes the call once."""
        size = ctypes.c_size_t
        return self.of(name)(
            first, size(len(first)), second, size(len(second)), ctypes.byref(options),
            room, size(len(room)), ctypes.byref(refusal),
        )


if __name__ == "__main__":
    library = Library(sys.argv[1])
    for name in sys.argv[2:]:
        with open(name, encoding="utf-8") as file:
            print(library.optimize(file.read()), end="")
