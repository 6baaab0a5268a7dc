"""Calls of the library from Python: python3 tests.py LIBRARY.so. The last line is 'N passed, M failed'."""
import sys
import threading

from balvuzsom import Call, Finding, Library, Refused


def raised(kind, call, *words, **options):
    """What a call raises, of this kind; None where it does not."""
    try:
        call(*words, **options)
    except kind as error:
        return str(error)
    return None


def in_small_thread(work):
    """What work answers on a stack of 256 KiB."""
    answers, before = [], threading.stack_size(256 << 10)
    thread = threading.Thread(target=lambda: answers.append(work()))
    thread.start()
    threading.stack_size(before)
    thread.join()
    return answers == [True]


def runs(library):
    """What is asked of runs, and whether it is as wanted."""
    text = r'"\n\tcall\tboom"'
    report = library.run(f"const A = {text}; let b = 1; print(A, [b]); A.f(); export A as c; throw A;")
    yield "a thrown text", report.end == ["thrown", text] and report.turns_left == 1000
    yield "its names", report[2:5] == ([("b", "1")], [("A", text)], [("c", text)])
    yield "its calls", report.calls == [Call("print", None, [text, "[1]"]), Call("f", text, [])]
    yield "a stuck run", library.run("x").end == ["stuck", "1", "Unbound"]
    yield "constants of a run", library.run("fn f() { N } f()", 5, "const N = 7;").end == ["value", "7"]
    yield "a loop without end", library.run("loop {}", 10**5).end == ["out of turns"]
    deep = "fn f(n) { if n == 0 { 0 } else { f(n - 1) } } f(5000)"
    yield "deep calls", in_small_thread(lambda: library.run(deep, 10000).turns_left == 4999)
    yield "calls without end", raised(MemoryError, library.run, "fn f() { f() } f()", 10**9) is not None


def tests(library):
    """What is asked, and whether it is as wanted."""
    optimize = library.optimize
    yield from runs(library)
    yield "what is wrong", library.check("let a = 1;\nreturn b;") == [Finding(2, 8, "`b` is nowhere declared")]
    yield "nothing is wrong", library.check("b", "const b = 1;") == []
    yield "merged", library.merge("fn f() { 1 }\nf();", "fn f() { 2 }") == "fn f() {\n    2\n}\n\nf();\n"
    yield "the version", library.version() == "0.1.0"
    constants = "const a0 = 1;\n" + "".join(f"const a{at + 1} = [a{at}];\n" for at in range(50))
    yield "a script", optimize("print(1 + 2);") == "print(3);\n"
    yield "a constant", optimize("if DEBUG { print(1); }\nprint(2);", "const DEBUG = false;") == "print(2);\n"
    yield "level 0", optimize("1 + 2", level=0) == "1 + 2;\n"
    said = raised(Refused, optimize, "let a = 1;\nlet b = ;")
    yield "no script", said == "line 2, column 9: unexpected `;`"
    for level in (-1, 3, 2**32 + 1):
        said = raised(ValueError, optimize, "1", level=level)
        yield f"level {level}", said == f"there is no level {level}: 0, 1 and 2 are"
    yield "a long answer", len(optimize("if a{if b{if c{f()}}}\n" * 2000)) > 2000 * 23 + 1024
    yield "a million brackets", in_small_thread(lambda: raised(Refused, optimize, "[" * 1000000) is not None)
    yield "nested constants", in_small_thread(lambda: "[[[" in optimize(constants + "print(a50);"))


def main():
    passed, failed = 0, 0
    for what, is_well in tests(Library(sys.argv[1])):
        passed, failed = passed + is_well, failed + (not is_well)
        if not is_well:
            print(f"not as wanted: {what}")
    print(f"{passed} passed, {failed} failed")
    return failed > 0


if __name__ == "__main__":
    sys.exit(main())
