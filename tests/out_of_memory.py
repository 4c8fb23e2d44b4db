#!/usr/bin/env python3
"""Refuses each allocation of the program in turn. Each time it has to end with status 5 and write nothing, and
where the number passes that of the last allocation, with its usual answer.

    tests/out_of_memory.py [--program PATH]

It is no part of the gate: it takes a C compiler, and runs the program some thousand times. The program is the
proved one unless another is named. It has to call the C library's malloc from its own code."""

import argparse
import os
import pathlib
import subprocess
import sys
import tempfile

ROOT = pathlib.Path(__file__).resolve().parent.parent
PROGRAM = ROOT / "crates" / "wildplan" / "out" / "wildplan"
TESTS = ROOT / "crates" / "wl_tests" / "out" / "wl_tests_tests"
EXAMPLES = ROOT / "examples"
OBJECTS = ROOT / "tests" / "objects"
REFUSER = ROOT / "tests" / "refuse_calls.c"
WHOLE = ["--no-gc-sections", "--no-entry"]
SHARED = ["--shared-memory", "--export=begin_thread", "--export=advance"]
NO_MEMORY = (5, b"", b"")
# Two objects of tests/rows.txt: one with a segment of a shared memory, and one as compilers write them.
ONE_SEGMENT = bytes.fromhex(
    "0061736d01000000 02100103656e76066d656d6f727902030104 0b0a010041000b0461626364"
    "0011076c696e6b696e67 020506010273300000"
)
COMPILED = bytes.fromhex(
    "0061736d01000000 010401600000 022f0203656e760f5f5f6c696e6561725f6d656d6f727902000003656e760f5f5f737461636b5f706f696e"
    "746572037f01 03020100 0a0b0109002380808080001a0b 0019076c696e6b696e67 02080e02000000065f7374617274021000"
    "00100a72656c6f632e434f4445 0301070401 00220f7461726765745f6665617475726573 012b0f6d757461626c652d676c6f62616c73"
)


def listed(name):
    """The listing of that name in tests/rows.txt."""
    part = (ROOT / "tests" / "rows.txt").read_text().split(f"\nlisting {name}\n", 1)[1]
    lines = []
    for line in part.splitlines():
        if not line.startswith("> "):
            break
        lines.append(line.removeprefix("> ") + "\n")
    return "".join(lines).encode()


def cases(folder):
    """What is tried: a title, the words, and the status and the listing, or the line, that are the usual answer."""
    sound = EXAMPLES / "two_functions.o"
    for made in sorted(EXAMPLES.glob("*.o")):
        yield made.name, [*WHOLE, made], 0, made.with_suffix(".plan").read_bytes()
    counter = [EXAMPLES / "counter" / name for name in ("counter.o", "setup.o")]
    exports = [word for name in ("count", "last", "chosen") for word in ("--export", name)]
    yield "the counter", ["--no-entry", *exports, *counter], 0, (EXAMPLES / "counter" / "counter.plan").read_bytes()
    together = sorted(OBJECTS.glob("planned_*.o"))
    yield "several, whole", [*WHOLE, *together], 0, (OBJECTS / "planned_whole.plan").read_bytes()
    yield "several, what is kept", together, 0, (OBJECTS / "planned_kept.plan").read_bytes()
    yield "a kept entry", ["--entry", "b", sound], 0, listed("entry b")
    compiled, shared = folder / "compiled.o", folder / "shared.o"
    compiled.write_bytes(COMPILED)
    yield "an object as compilers write it", [compiled], 0, listed("as compilers write it")
    shared.write_bytes(ONE_SEGMENT)
    words = [*WHOLE, "--shared-memory", "--no-check-features", shared]
    yield "shared memory", words, 0, listed("shared one segment that all threads have in common")
    threads = sorted(OBJECTS.glob("threads_*.o"))
    yield "threads", [*SHARED, *threads], 0, (OBJECTS / "threads.plan").read_bytes()
    for made in sorted(set(OBJECTS.glob("*.o")) - set(together)):
        yield made.name, [*WHOLE, "--allow-undefined", made], 0, made.with_suffix(".plan").read_bytes()
    yield "generated objects", ["--generate", "3"], 0, b"objects 3 functions 3 dropped 3 fixups 2\n"
    yield "why one is kept", ["--entry", "b", "--why", sound], 0, b"why 0 function 1 root\ndrop 0 function 0\n"
    sizes = b"code 0 9\ncode 1 3\ntotal code 15\ntotal data 0\n"
    yield "the sizes", [*WHOLE, "--map", sound], 0, sizes
    same, other = folder / "same.txt", folder / "other.txt"
    same.write_bytes(listed("a calls b"))
    other.write_bytes(listed("functions"))
    yield "a listing that is the plan's", [*WHOLE, "--check", same, sound], 0, b"same\n"
    yield "a listing that differs", [*WHOLE, f"--check={other}", sound], 0, b"differs 9\n"
    yield "a text that is no listing", [*WHOLE, "--check", compiled, sound], 0, b"bad 0\n"
    empty = EXAMPLES / "bare_module.o"
    twice = ["--replace", f"0:{empty}", f"--replace=0:{sound}"]
    yield "a replaced object", [*WHOLE, *twice, empty], 0, listed("a calls b")
    yield "a name no more twice", [*WHOLE, f"--replace=1:{empty}", sound, sound], 0, listed("a calls b")
    yield "a replaced object's listing", [*WHOLE, *twice, "--check", same, empty], 0, b"same\n"
    yield "a run", ["--entry", "a", "--run", "a", sound], 0, b"done\n"
    yield "a run of no function", ["--entry", "a", "--run", "b", sound], 0, b"none\n"
    yield "a run with shared memory", [*words, "--run", "none"], 0, b"none\n"
    cut, odd = folder / "cut.o", folder / "odd.o"
    content = sound.read_bytes()
    cut.write_bytes(content[:-1])
    yield "a cut object", [*WHOLE, cut], 1, b"error: Malformed 0 Truncated\n"
    # The object ends with its one relocation: type, offset and index.
    odd.write_bytes(content[:-3] + b"\xff" + content[-2:])
    yield "a relocation of no type", [*WHOLE, odd], 1, b"error: Malformed 0 RelocType\n"
    words = [*WHOLE, f"--replace=0:{cut}", sound]
    yield "a cut object in the place of another", words, 1, b"error: Malformed 0 Truncated\n"
    yield "a cut object that is run", [*WHOLE, "--run", "a", cut], 1, b"error: Malformed 0 Truncated\n"
    yield "a name twice", [*WHOLE, sound, sound], 1, b'error: DuplicateSymbol "a" 0 0 1 0\n'
    yield "two modes", ["--why", sound, "--map"], 2, b"error: BadWords TwoModes 2\n"
    yield "an object beside generated ones", ["--generate=2", sound], 2, b"error: BadWords ExtraInput 1\n"
    yield "an object that there is not", [f"--replace=1:{empty}", sound], 2, b"error: BadWords BadNumber 0\n"
    yield "a value is missing", [*WHOLE, sound, "--entry"], 2, b"error: BadWords MissingValue 3\n"


def usual(status, text):
    """How a run ends that writes this text: a listing goes to one stream, a line to the other."""
    return (status, text, b"") if status == 0 else (status, b"", text)


def made_refuser(folder):
    """What is loaded before the C library, built in this folder."""
    refuser = pathlib.Path(folder) / "refuse.so"
    subprocess.run(["cc", "-O2", "-shared", "-fPIC", "-o", refuser, REFUSER, "-ldl"], check=True)
    return refuser


def ended(program, refuser, words, number, calls="memory", piece=None):
    """How the program ends where the call of that kind and number is refused, and how many calls it made. A piece is
    the most bytes that a read or a write moves."""
    reader, writer = os.pipe()
    refusal = {"LD_PRELOAD": str(refuser), "CALLS": calls, "REFUSED": str(number), "COUNTED": str(writer)}
    if piece is not None:
        refusal["PIECE"] = str(piece)
    given = {**os.environ, **refusal}
    streams = {"stdin": subprocess.DEVNULL, "capture_output": True, "pass_fds": [writer]}
    run = subprocess.run([program, *words], env=given, timeout=120, **streams)
    os.close(writer)
    with os.fdopen(reader, "rb") as reported:
        count = int(reported.read() or 0)
    return (run.returncode, run.stdout, run.stderr), count


def refuse_each(program, refuser, words, answer):
    """How many allocations a run has, and what is wrong with it, a line each."""
    whole, count = ended(program, refuser, words, 0)
    if whole != answer:
        return count, [f"wanted {answer}, got {whole}"]
    if count == 0:
        return 0, ["it asks for no memory by malloc"]
    wrong = []
    for number in range(1, count + 1):
        got, _ = ended(program, refuser, words, number)
        if got != NO_MEMORY:
            status, out, err = got
            wrong.append(f"number {number} refused: status {status}, {len(out)} and {len(err)} bytes written")
    if ended(program, refuser, words, count + 1)[0] != whole:
        wrong.append("none refused, and another answer")
    return count, wrong


def tried(description, try_case, others=()):
    """The status of a script that tries each case, by a call that answers what it saw and what is wrong, and then the
    others, each a title and such a call by itself."""
    parser = argparse.ArgumentParser(description=description)
    parser.add_argument("--program", type=pathlib.Path, default=PROGRAM)
    program = parser.parse_args().program
    if not program.exists():
        sys.exit(f"there is no program {program}: 0 passed, 1 failed")
    passed = failed = 0
    with tempfile.TemporaryDirectory() as name:
        folder = pathlib.Path(name)
        refuser = made_refuser(folder)
        for title, words, status, text in cases(folder):
            seen, wrong = try_case(program, refuser, words, usual(status, text))
            print(f"{title}: {seen}, {len(wrong)} wrong", *wrong, sep="\n    ")
            passed, failed = passed + (not wrong), failed + bool(wrong)
        for title, try_other in others:
            seen, wrong = try_other(program, refuser, folder)
            print(f"{title}: {seen}, {len(wrong)} wrong", *wrong, sep="\n    ")
            passed, failed = passed + (not wrong), failed + bool(wrong)
    print(f"{passed} passed, {failed} failed")
    return 1 if failed else 0


def counted(number):
    """An unsigned number as objects write it."""
    low, rest = number & 0x7F, number >> 7
    return bytes([low | 0x80]) + counted(rest) if rest else bytes([low])


def sized(content):
    """Bytes after their number."""
    return counted(len(content)) + content


def with_function(imports, body):
    """An object with these imports and a function `a` of this body, which takes and gives nothing."""
    sections = [(1, b"\1\x60\0\0"), (2, imports), (3, b"\1\0"), (10, b"\1" + sized(body))]
    symbols = sized(b"linking") + b"\2\x08" + sized(b"\1\0\0\0" + sized(b"a"))
    return b"\0asm\1\0\0\0" + b"".join(bytes([n]) + sized(held) for n, held in [*sections, (0, symbols)])


def beyond_a_limit(program, _refuser, folder):
    """Runs that ask for more memory than a limit leaves: a function with 4294967295 locals, and a table of as many
    entries. Both are planned, and neither can be run."""
    most = counted(2**32 - 1)
    objects = {
        "locals.o": with_function(b"\0", b"\1" + most + b"\x7f\x0b"),
        "table.o": with_function(b"\1" + sized(b"env") + sized(b"t") + b"\1\x70\0" + most, b"\0\x0b"),
    }
    wrong = []
    for name, content in objects.items():
        (folder / name).write_bytes(content)
        for words, status in (([], 0), (["--run", "a"], 5)):
            command = ["sh", "-c", 'ulimit -v 4194304; exec "$@"', "sh", program, "--entry", "a", *words, folder / name]
            ended = subprocess.run(command, stdin=subprocess.DEVNULL, capture_output=True, timeout=120)
            if ended.returncode != status or (status and (ended.stdout or ended.stderr)):
                wrong.append(f"{name} {words}: status {ended.returncode}")
    return f"{len(objects)} objects", wrong


def a_session(_program, refuser, _folder):
    """A test, of which each allocation is refused: where a push or a replacement is, the session's plan has to stay."""
    if not TESTS.exists():
        return "no tests are built", ["build them by rt test"]
    words = ["plan::refused_room_changes_nothing"]
    whole, count = ended(TESTS, refuser, words, 0)
    wrong = [] if whole[0] == 0 and count else [f"none refused: status {whole[0]}, {count} allocations"]
    for number in range(1, count + 1):
        (status, _, _), _ = ended(TESTS, refuser, words, number)
        if status != 0:
            wrong.append(f"number {number} refused: status {status}")
    return f"{count} allocations", wrong


def main():
    def each(*case):
        count, wrong = refuse_each(*case)
        return f"{count} allocations", wrong

    others = [("runs beyond a limit", beyond_a_limit), ("a session", a_session)]
    return tried("Refuses each allocation of the program in turn.", each, others)


if __name__ == "__main__":
    sys.exit(main())
