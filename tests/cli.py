#!/usr/bin/env python3
"""Runs the proved program on real files, and compares its status and what it wrote to each stream.

    tests/cli.py              tries the program that .ci/run built, and the launcher
    tests/cli.py PROGRAM      tries another one, as an installed one, and not the launcher

The last line is `N passed, M failed`."""

import os
import pathlib
import re
import shutil
import subprocess
import sys
import tempfile

ROOT = pathlib.Path(__file__).resolve().parent.parent
sys.path.insert(0, str(ROOT / "tools"))
from documents import OPTIONS_TITLE, table_of  # noqa: E402

BUILT = ROOT / "crates" / "wildplan" / "out" / "wildplan"
PROGRAM = pathlib.Path(sys.argv[1]).resolve() if sys.argv[1:] else BUILT
EXAMPLES = ROOT / "examples"
OBJECTS = ROOT / "tests" / "objects"
ROWS = ROOT / "tests" / "rows.txt"
OPERATORS = ROOT / "tests" / "operators.txt"
NUMBERS = ROOT / "tests" / "numbers.txt"
FORMAT = ROOT / "docs" / "FORMAT.md"
OPTIONS = ROOT / "docs" / "OPTIONS.md"
ERRORS = ROOT / "docs" / "ERRORS.md"
README = ROOT / "README.md"
FLAGS = ["--no-gc-sections", "--no-entry"]
SHARED = ["--shared-memory", "--export=begin_thread", "--export=advance"]
LARGEST = 1 << 30

# Constants that code and definitions cite by name, each with the file that is its home, and what stands for it.
CONSTANTS = {
    "WASM_PAGE_SIZE": ("wl_module/src/limits.rt", "65536"),
    "MAX_PAGES": ("wl_module/src/limits.rt", "65536"),
    "MAX_IMAGE_PAGES": ("wl_load/src/memory.rt", None),
    "STACK_ALIGNMENT": ("wl_index/src/memory.rt", None),
    "LINKER_MEMORY_BASE": ("wl_index/src/memory.rt", "1024"),
    "LINKER_TABLE_BASE": ("wl_index/src/index.rt", None),
    "MAX_ENTRIES": ("wl_index/src/index.rt", "4294967294"),
    "WASM_DEAD_INDEX": ("wl_index/src/index.rt", "4294967295"),
    "TARGET_FEATURE_SHARED_MEM": ("wl_features/src/taken.rt", '"shared-mem"'),
    "TARGET_FEATURE_ATOMICS": ("wl_features/src/taken.rt", '"atomics"'),
    "TARGET_FEATURE_BULK_MEMORY": ("wl_features/src/taken.rt", '"bulk-memory"'),
    "TARGET_FEATURE_MUTABLE_GLOBALS": ("wl_features/src/taken.rt", '"mutable-globals"'),
}
# Where 65536 is something else: bytes that are read at once, the default of an option, the help that shows it, the
# third byte of a number; and where 1024 is: the most pages of an image.
OTHER_CONSTANTS = {
    "wl_files/src/read.rt",
    "wl_words/src/args.rt",
    "wildplan/src/help.rt",
    "wl_synth/specs/Machine.antt",
    "wl_load/src/memory.rt",
}
SYMBOLS = "wl_custom/src/symbols.rt"

passed = 0
failed = 0


def leb128(number):
    """An unsigned number in its shortest form."""
    low, rest = number & 0x7F, number >> 7
    return bytes([low | 0x80]) + leb128(rest) if rest else bytes([low])


def sleb128(number):
    """A signed number in its shortest form."""
    low, rest = number & 0x7F, number >> 7
    is_last = rest == (-1 if low & 0x40 else 0)
    return bytes([low]) if is_last else bytes([low | 0x80]) + sleb128(rest)


def run(words, **streams):
    """Runs the program, with both streams caught unless the caller gives one."""
    streams = {"stdout": subprocess.PIPE, "stderr": subprocess.PIPE, **streams}
    command = [os.fsencode(PROGRAM), *map(os.fsencode, words)]
    return subprocess.run(command, stdin=subprocess.DEVNULL, timeout=120, **streams)


def check(title, ended, status, out=b"", err=b""):
    """Compares how a run ended with what is wanted."""
    global passed, failed
    got = (ended.returncode, ended.stdout, ended.stderr)
    if got == (status, out, err):
        passed += 1
    else:
        failed += 1
        print(f"{title}: wanted {(status, out, err)}, got {got}")


def listings():
    """Each example has the listing that stands beside it, whatever the dashes and the order of the words."""
    for wanted in sorted(EXAMPLES.glob("*.plan")):
        listing = wanted.read_bytes()
        made = wanted.with_suffix(".o")
        check(made.name, run([*FLAGS, made]), 0, listing)
        bare = EXAMPLES / "bare_module.o"
        check(f"{made.name} and one more", run([*FLAGS, made, bare]), 0, listing)
        check(f"{made.name}, one dash", run([made, "-no-entry", "-no-gc-sections"]), 0, listing)


def counter():
    """The example of the README has the listing that stands beside it, and the README shows lines of that."""
    folder = EXAMPLES / "counter"
    names = ["--export", "count", "--export", "last", "--export", "chosen"]
    objects = [folder / "counter.o", folder / "setup.o"]
    listing = (folder / "counter.plan").read_bytes()
    check("the counter", run(["--no-entry", *names, *objects]), 0, listing)
    section = README.read_text().split("\n## An example\n")[1].split("\n## ")[0]
    shown = [line.strip() for line in section.splitlines() if line.startswith("    ")]
    command = " ".join(["./wildplan --no-entry", *names, *(str(made.relative_to(ROOT)) for made in objects)])
    note("the command of the example", command in shown)
    lines = listing.decode().splitlines()
    listed = [line for line in shown if not line.startswith(("./wildplan ", "clang "))]
    note("the lines of the example", listed == [line for line in lines if line in listed])


def words():
    """Words that aren't a command line: the first at fault is reported, by its number."""
    faults = [
        ([], "NoInputs"),
        (FLAGS, "NoInputs"),
        (["-entry", "a.o", "-e=main", "--import-memory=a,b"], "NoInputs"),
        (["--initial-memory=0000065536"], "NoInputs"),
        ([*FLAGS, "a.o", "--static"], "UnknownOption 3"),
        (["a.o", "--no-entry=x", "-x"], "UnknownOption 1"),
        (["--"], "UnknownOption 0"),
        (["--e", "main"], "UnknownOption 0"),
        (["-zstack-size=1"], "UnknownOption 0"),
        (["-z", "other=1"], "UnknownOption 1"),
        (["a.o", "--entry"], "MissingValue 1"),
        (["a.o", "-z"], "MissingValue 1"),
        (["-z", "stack-size=+1"], "BadNumber 1"),
        (["--max-memory", ""], "BadNumber 1"),
        (["--initial-memory=1 "], "BadNumber 0"),
        (["--initial-memory=18446744073709551616"], "BadNumber 0"),
        (["-z", "stack-size=4294967296"], "BadNumber 1"),
        (["--why", "--map", "a.o"], "TwoModes 1"),
        (["--why", "a.o", "--why", "--generate=0"], "TwoModes 3"),
        (["--map", "--generate"], "TwoModes 1"),
        (["--map", "--why=1"], "UnknownOption 1"),
        (["--why", "-x", "--map"], "UnknownOption 1"),
        (["--generate", "2", "a.o"], "ExtraInput 2"),
        (["a.o", "--generate=2"], "ExtraInput 0"),
        (["--generate", "2", "a.o", "--bad"], "UnknownOption 3"),
        (["a.o", "--generate", "0"], "BadNumber 2"),
        (["--generate", "10001"], "BadNumber 1"),
        (["--check", "a.txt", "--run", "a", "a.o"], "TwoModes 2"),
        (["--run", "a", "--check"], "TwoModes 2"),
        (["a.o", "--check"], "MissingValue 1"),
        (["a.o", "--run"], "MissingValue 1"),
        (["--generate=2", "--check=a.txt"], "TwoModes 1"),
        (["--why"], "NoInputs"),
        (["--check", "a.txt"], "NoInputs"),
        (["--run=a"], "NoInputs"),
        *replacements(),
        ([b"\xff.o"], "NotUtf8"),
    ]
    for given, fault in faults:
        check(f"words {given}", run(given), 2, err=f"error: BadWords {fault}\n".encode())


def replacements():
    """Words with `--replace`. A value that is wrong by itself is reported from the left, as other faults are; whether
    there is such an object is asked once each word by itself is right."""
    most = 2**64 - 1
    return [
        (["a.o", "--replace"], "MissingValue 1"),
        (["--replace", "0", "a.o"], "BadNumber 1"),
        (["--replace", "", "a.o"], "BadNumber 1"),
        (["--replace=", "a.o"], "BadNumber 0"),
        (["--replace", ":b.o", "a.o"], "BadNumber 1"),
        (["--replace=x:b.o", "a.o"], "BadNumber 0"),
        (["a.o", "--replace", "+0:b.o"], "BadNumber 2"),
        (["a.o", "--replace=0 :b.o"], "BadNumber 1"),
        (["a.o", "--replace", "0x0:b.o"], "BadNumber 2"),
        (["a.o", "--replace=b.o:0"], "BadNumber 1"),
        (["--replace", f"{most + 1}:b.o", "a.o", "--static"], "UnknownOption 3"),
        (["--replace", f"{most + 1}:b.o", "a.o"], "BadNumber 1"),
        (["--replace", f"{most}:b.o", "a.o", "--static"], "UnknownOption 3"),
        (["--replace", f"{most}:b.o", "a.o"], "BadNumber 1"),
        (["--replace", "1:b.o", "a.o"], "BadNumber 1"),
        (["--replace", "1:b.o", "a.o", "--static"], "UnknownOption 3"),
        (["--replace", "1:b.o", "--entry"], "MissingValue 2"),
        (["--replace=x:b.o", "--static"], "BadNumber 0"),
        (["--static", "--replace=x:b.o"], "UnknownOption 0"),
        (["a.o", "--replace=0:b.o", "--replace", "1:b.o", "--replace=2:b.o"], "BadNumber 3"),
        (["--replace=2:b.o", "a.o", "--replace", "1:b.o"], "BadNumber 0"),
        (["--replace", "0:b.o"], "BadNumber 1"),
        (["--replace=0:b.o", "--no-entry"], "BadNumber 0"),
        (["--why", "--replace=1:b.o", "--map", "a.o"], "TwoModes 2"),
        (["--generate", "2", "--replace", "0:b.o"], "ExtraInput 3"),
        (["--replace=0:b.o", "--generate=2"], "ExtraInput 0"),
        (["a.o", "--replace=1:b.o", "--generate=2"], "ExtraInput 0"),
        (["--replace", "1:b.o", "a.o", "--generate=2"], "ExtraInput 1"),
        (["--generate=2", "--replace=1:b.o", "--replace=0:b.o", "a.o"], "ExtraInput 1"),
        (["--generate=2", "a.o", "--replace=1:b.o"], "ExtraInput 1"),
        (["--generate=2", "--replace=0", "a.o"], "BadNumber 1"),
        (["--replace=1:b.o", "--generate=0"], "BadNumber 1"),
    ]


def modes(folder):
    """What is written in place of the listing; where objects have no plan the line is that without a mode."""
    made = EXAMPLES / "two_functions.o"
    summed = [
        (["--generate", "3", "--no-entry"], "objects 3 functions 3 dropped 3 fixups 2"),
        (["--entry", "b", "--generate", "2", "--generate=3"], "objects 3 functions 3 dropped 3 fixups 2"),
        (["--generate=10000"], "objects 10000 functions 10000 dropped 10000 fixups 9999"),
    ]
    for given, line in summed:
        check(f"words {given}", run(given), 0, line.encode() + b"\n")
    whole = b"why 0 function 0 off\nwhy 0 function 1 off\n"
    check("why all is kept", run([*FLAGS, "--why", "--why", made]), 0, whole)
    sizes = b"total code 0\ntotal data 0\n"
    check("the sizes of nothing", run(["--no-entry", "--map", made]), 0, sizes)
    names = ["--export", "count", "--export", "last", "--export", "chosen"]
    objects = [EXAMPLES / "counter" / name for name in ["counter.o", "setup.o"]]
    section = (ROOT / "docs" / "WHY.md").read_text().split("\n## An example\n")[1].split("\n## ")[0]
    shown = [line[4:] for line in section.splitlines() if line.startswith("    ")]
    wanted = "".join(line + "\n" for line in shown if line.startswith(("why ", "drop "))).encode()
    check("why parts of the counter are kept", run(["--why", "--no-entry", *names, *objects]), 0, wanted)
    cut = folder / "cut.o"
    cut.write_bytes(made.read_bytes()[:-1])
    for mode in [["--why"], ["--map"], ["--check", cut], ["--run", "a"]]:
        check(f"{mode} of a cut object", run([*mode, cut]), 1, err=b"error: Malformed 0 Truncated\n")
        check(f"{mode} without an entry", run([*mode, made]), 1, err=b'error: EntryNotDefined "_start"\n')
        check(f"{mode} of no file", run([*mode, folder / "none.o"]), 3, err=b"error: ReadFault 0\n")
    check("a verdict on a folder", run([*FLAGS, "--check", folder, made]), 3, err=b"error: ReadFault 1\n")


def about():
    """A lone `--help` or `--version` is answered; the help names each option, and the version is that of the changes."""
    help_text = run(["--help"])
    names = set(re.findall(r"(?<![\w-])-{1,2}([\w-]+)", help_text.stdout.decode()))
    code = (ROOT / "crates" / "wl_words" / "src" / "options.rt").read_text()
    wanted = set(re.findall(r'name: "([\w-]+)"', code)) | {"help", "version"}
    note(f"the options of --help: {names ^ wanted}", names == wanted)
    check("--help", help_text, 0, help_text.stdout)
    version = re.search(r"^## (\d+\.\d+\.\d+)", (ROOT / "CHANGELOG.md").read_text(), re.M)
    check("--version", run(["--version"]), 0, f"wildplan {version[1]}\n".encode())
    for given in [["--help", "--version"], ["-help"], ["--version", "a.o"]]:
        check(f"words {given}", run(given), 2, err=b"error: BadWords UnknownOption 0\n")


def options():
    """Of options the last counts."""
    made = EXAMPLES / "two_functions.o"
    listing = (EXAMPLES / "two_functions.plan").read_bytes()
    idle = [
        ["--check-features", "--no-stack-first", "-z", "stack-size=65536"],
        ["--keep-section=a", "-o", "a.wasm"],
        ["--stack-first", "--no-stack-first", "-z", "stack-size=1", "-z=stack-size=65536"],
    ]
    for others in idle:
        check(f"words {others}", run([*others, made, *FLAGS]), 0, listing)
        check(f"words {others}", run(["--gc-sections", "-e", "a", *others, *FLAGS, made]), 0, listing)
    check("words that change nothing here", run([*FLAGS, "--allow-undefined", "--export-memory", made]), 0, listing)
    memories = [
        (["--initial-memory=65536", "--stack-first"], "memory 2 - -"),
        (["--initial-memory=196608"], "memory 3 - -"),
        (["--max-memory=1048576"], "memory 2 16 -"),
        (["-z", "stack-size=262144"], "memory 4 - -"),
        (["--stack-first", "-z", "stack-size=262144"], "memory 4 - -"),
    ]
    for others, memory in memories:
        top = b"41808010" if "stack-size=262144" in others else b"41808004"
        wanted = listing.replace(b"memory 2 - -", memory.encode()).replace(b"41808004", top)
        check(f"words {others}", run([*FLAGS, *others, made]), 0, wanted)
    imported = run([*FLAGS, "--import-memory=host,mem", made])
    wanted = listing.replace(b"memory 2 - -\n", b"").replace(b'export "memory" memory 0\n', b"")
    wanted = wanted.replace(b"func 0", b'import memory "host" "mem" 2 - -\nfunc 0', 1)
    check("an imported memory", imported, 0, wanted)
    refused = [
        (["-z", "stack-size=8"], b"BadStackSize 8"),
        (["-z", "stack-size=4294967280"], b"TooLarge HeapEnd"),
        (["--initial-memory=1"], b"BadMemorySize Initial 1 65536"),
        (["--max-memory=65536"], b"BadMemorySize Maximum 65536 131072"),
    ]
    for others, line in refused:
        check(f"words {others}", run([*FLAGS, *others, made]), 1, err=b"error: " + line + b"\n")
    for option in ["--no-check-features", "--strip-all", "-s", "--strip-debug", "-S"]:
        check(f"word {option}", run([*FLAGS, option, made]), 0, listing)
    featured = listing.replace(b"end\n", b'feature "a"\nfeature "b"\nend\n')
    features = "--extra-features=b,,a,b"
    check("features", run([*FLAGS, features, made]), 0, featured)
    check("features left out", run([*FLAGS, features, "-s", made]), 0, listing)
    check("features left in", run([*FLAGS, features, "-s", "--keep-section=target_features", made]), 0, featured)
    check("features without debug sections", run([*FLAGS, features, "-S", made]), 0, featured)
    exported = listing.replace(b"memory 0\n", b'memory 0\nexport "a" func 0\n')
    for option in ["--export=a", "--export-if-defined=a"]:
        check(f"word {option}", run([*FLAGS, option, made]), 0, exported)
    both = exported.replace(b"func 0\nfix", b'func 0\nexport "b" func 1\nfix')
    check("word --export-dynamic", run([*FLAGS, "--export-dynamic", made]), 0, both)
    check("a name that is there once", run([*FLAGS, "--export=a", "--export=a", made]), 0, exported)
    check("no such name", run([*FLAGS, "--export=c", made]), 1, err=b'error: ExportNotFound "c"\n')
    check("no name is asked for", run([*FLAGS, "--export-if-defined=c", made]), 0, listing)


def reads(folder):
    """Files that can't be read to their end."""
    made = EXAMPLES / "two_functions.o"
    check("a missing file", run([*FLAGS, folder / "none.o"]), 3, err=b"error: ReadFault 0\n")
    check("a second missing file", run([*FLAGS, made, folder / "none.o"]), 3, err=b"error: ReadFault 1\n")
    check("a folder", run([*FLAGS, folder]), 3, err=b"error: ReadFault 0\n")
    check("an empty name", run([*FLAGS, ""]), 3, err=b"error: ReadFault 0\n")


def named_stretches():
    """The stretches of bytes that rows call by a name."""
    sound = (EXAMPLES / "two_functions.o").read_bytes()
    stretches = {"a": sound, "header": sound[:8]}
    names = ["linking", "producers", "target_features", "reloc.CODE", "reloc.DATA"]
    names += [".debug_str", ".debug_info", ".debug_x", "reloc..debug_x"]
    for name in names:
        word = re.sub(r"\.+", "_", name.lstrip("."))
        stretches[word] = bytes([len(name)]) + name.encode()
    return stretches


def object_of(text, stretches):
    """The bytes of an object as a row writes it: stretches with their ends and changed bytes, and hexadecimal."""
    content = b""
    for term in text.split():
        stretch = re.fullmatch(r"(\w+?)(?:\[(\d*):(\d*)\]|\{(.*)\})?", term)
        if stretch is None or stretch[1] not in stretches:
            times, _, bytes_of_term = term.rpartition("*")
            content += bytes.fromhex(bytes_of_term) * int(times or 1)
            continue
        part = bytearray(stretches[stretch[1]])
        for change in filter(None, (stretch[4] or "").split(",")):
            place, byte = change.split(":")
            part[int(place)] = int(byte, 16)
        content += part[int(stretch[2] or 0) : int(stretch[3] or len(part))]
    return content


def rows_of(text):
    """A row for each length that is asked for, as in a[:0-7]."""
    lengths = re.search(r"\[:(\d+)-(\d+)\]", text)
    if lengths is None:
        return [text]
    first, last = int(lengths[1]), int(lengths[2])
    return [f"{text[:lengths.start()]}[:{n}]{text[lengths.end():]}" for n in range(first, last + 1)]


def lines_of(text):
    """A line of a listing for each number that is asked for, as in {0-127}."""
    numbers = re.search(r"\{(\d+)-(\d+)\}", text)
    if numbers is None:
        return [text]
    first, last = int(numbers[1]), int(numbers[2])
    return [text.replace(numbers[0], str(number)) for number in range(first, last + 1)]


def files_of(text, stretches, folder):
    """The files that a row names: its objects, none, or one that doesn't exist."""
    if text in ("no objects", "no file"):
        return [] if text == "no objects" else [folder / "none.o"]
    files = []
    for i, written in enumerate(text.split(" & ")):
        files.append(folder / f"{i}.o")
        files[-1].write_bytes(object_of(written, stretches))
    return files


def words_of(text, contents, folder):
    """The words of a line, and the files that they name: {NAME} stands for a file that holds what has that name. The
    name of the file has a colon."""
    words, files = [], {}
    for word in re.findall(r"(?:\{[^{}]*\}|[^\s{])+", text):
        for name in re.findall(r"\{([^{}]*)\}", word):
            path = folder / f"given:{len(files)}"
            path.write_bytes(contents[name])
            files[path] = contents[name]
            word = word.replace(f"{{{name}}}", str(path))
        words.append(word)
    return words, files


def rows(folder):
    """The table of objects and answers."""
    stretches, contents, words, given, rule, listing = named_stretches(), {}, [], {}, "", ""
    for line in ROWS.read_text().splitlines():
        kind, _, rest = line.partition(" ")
        if kind == "##":
            rule = rest
        elif kind == "words":
            words, given = words_of(rest, contents, folder)
        elif kind == "file":
            name, _, written = rest.partition(": ")
            contents[name] = object_of(written, stretches)
        elif kind == "listing":
            listing = rest
            contents[listing] = b""
        elif kind == ">":
            contents[listing] += "".join(line + "\n" for line in lines_of(rest)).encode()
        elif kind and kind != "#":
            objects, answer = line.split(" = ")
            status, reported = answer.split(" ", 1)
            for row in rows_of(objects):
                files = files_of(row, stretches, folder)
                out, err = (contents[reported], b"") if status == "0" else (b"", f"error: {reported}\n".encode())
                check(f"{rule}: {row}", run([*words, *files]), int(status), out, err)
                for path, content in given.items():
                    note(f"{rule}: {row}: a file that words name has changed", path.read_bytes() == content, "rows")


def runs_of(text):
    """A row of its lowest, one of its highest and one between them for a run of numbers, as in {45-c4}."""
    run_of = re.search(r"\{([0-9a-f ]*)([0-9a-f]{2})-[0-9a-f ]*([0-9a-f]{2})\}", text)
    if run_of is None:
        return [text]
    first, last = int(run_of[2], 16), int(run_of[3], 16)
    numbers = sorted({first, (first + last) // 2, last})
    return [f"{text[:run_of.start()]}{run_of[1]}{n:02x}{text[run_of.end():]}" for n in numbers]


def object_with_body(body):
    """An object with one function, which has this body."""
    section = bytes([10, len(body) + 2, 1, len(body)]) + body
    return bytes.fromhex("0061736d01000000 01040160000003020100") + section


def operators(folder):
    """The table of what is an operator: each row is the end of the body of an object's one function."""
    made = folder / "operators.o"
    listing = (
        "wildplan 1\ntype 0 ()->()\nfunc 0 type 0 object 0 unit 0\nbody 0 BODY\n"
        'global 0 i32 var 41808004 made stack_pointer\nmemory 2 - -\nexport "memory" memory 0\nend\n'
    )
    rule = ""
    for line in OPERATORS.read_text().splitlines():
        if line.startswith("#") or not line:
            rule = line.removeprefix("## ")
            continue
        text, answer = line.split("= ")
        for row in runs_of(text):
            body = bytes.fromhex("00fc00" + row)
            made.write_bytes(object_with_body(body))
            out, err = (listing.replace("BODY", body.hex()), "") if answer == "ok" else ("", answer)
            kind = "Malformed" if answer in ("Body", "BadIndex") else "Unsupported"
            err = err and f"error: {kind} 0 {err}\n"
            check(f"{rule}: {row}", run([*FLAGS, made]), 1 if err else 0, out.encode(), err.encode())


# The operators of tests/numbers.txt that take, or leave, numbers of 64 bits; the others take and leave 32.
TAKES_64 = {*range(0x50, 0x5B), *range(0x79, 0x8B), 0xA7, 0xC2, 0xC3, 0xC4, 0x37, 0x3C, 0x3D, 0x3E}
LEAVES_64 = {*range(0x79, 0x8B), 0xAC, 0xAD, 0xC2, 0xC3, 0xC4, 0x29, *range(0x30, 0x36)}


def constant(number, is_wide):
    """The operator that leaves this number."""
    bits = 64 if is_wide else 32
    return bytes([0x42 if is_wide else 0x41]) + sleb128(number - (number >> bits - 1 << bits))


def section(kind, content):
    """A section of an object."""
    return bytes([kind]) + leb128(len(content)) + content


def object_that_returns(code, is_wide, data):
    """An object whose function `f` has these operators and one result; the data lies from address 1024 on."""
    body = bytes([0, *code, 0x0B])
    return b"".join([
        bytes.fromhex("0061736d01000000"),
        section(1, bytes([1, 0x60, 0, 1, 0x7E if is_wide else 0x7F])),
        bytes.fromhex("0302010005030100020a"),
        leb128(len(body) + len(leb128(len(body))) + 1), bytes([1]), leb128(len(body)), body,
        section(11, bytes([1, 0, 0x41, 0, 0x0B, len(data)]) + data),
        section(0, b"\x07linking" + bytes.fromhex("02080601000000") + b"\x01f"),
    ])


def row_of_numbers(row, answer):
    """The operators of a row of numbers, whether they leave 64 bits, and the number that they leave."""
    kind, *words = row.split() if row.startswith(("load", "store")) else ("compute", *row.split())
    operator, *numbers = [int(word, 16) for word in words]
    is_wide = operator in LEAVES_64
    if kind == "compute":
        code = b"".join(constant(number, operator in TAKES_64) for number in numbers) + bytes([operator])
    else:
        offset, address, *values = numbers
        code = constant(address, False) + b"".join(constant(value, operator in TAKES_64) for value in values)
        code += bytes([operator, 0]) + leb128(offset)
    if kind == "store":
        code, is_wide = code + constant(0x800, False) + bytes.fromhex("290000"), True
        answer = answer if answer.startswith("trap") else bytes.fromhex(answer)[::-1].hex()
    return code, is_wide, answer if answer.startswith("trap") else f"done {int(answer, 16)}"


def numbers(folder):
    """The table of what operators on integers give."""
    made, rule, data = folder / "numbers.o", "", b""
    for line in NUMBERS.read_text().splitlines():
        kind, _, rest = line.partition(" ")
        if kind == "##":
            rule = rest
        elif kind == "bytes":
            data = bytes.fromhex(rest)
        elif kind and kind != "#":
            row, answer = line.split(" = ")
            code, is_wide, wanted = row_of_numbers(row, answer)
            made.write_bytes(object_that_returns(code, is_wide, data))
            check(f"{rule}: {line}", run([*FLAGS, "--export=f", "--run=f", made]), 0, f"{wanted}\n".encode())


def note(title, sound, of="the documents"):
    """Counts a comparison of the documents, or of other texts, with the program."""
    global passed, failed
    passed, failed = (passed + 1, failed) if sound else (passed, failed + 1)
    if not sound:
        print(f"{of}: {title}")


def documented_names():
    """The names of faults that docs/FORMAT.md explains are those that rows show."""
    answers = re.findall(r"^.* = 1 (Malformed|Unsupported) \d+ (\w+)$", ROWS.read_text(), re.M)
    for fault, cause in [("Malformed", "likely cause"), ("Unsupported", "what it is")]:
        reported = {name for kind, name in answers if kind == fault}
        rows = table_of(FORMAT, f"| `{fault}` | {cause} |")
        explained = {name for names, _ in rows for name in names.split(", ")}
        note(f"the names of `{fault}`: {explained ^ reported}", explained == reported)


def numbers_in(cell, base):
    """The numbers of a cell, as in `0a 0b, 19 to 1b`, in that base unless 0x comes before them."""
    words = re.sub(r"`[^`]*`", "", cell).replace(",", " ").split()
    numbers = []
    for place, word in enumerate(words):
        if word == "to":
            last = words[place + 1]
            numbers += range(numbers[-1] + 1, int(last, 16 if last.startswith("0x") else base))
        else:
            numbers.append(int(word, 16 if word.startswith("0x") else base))
    return numbers


def documented_operators(folder):
    """What docs/FORMAT.md calls an operator is decoded, with what it says follows it, and nothing else is."""
    rests = {
        "nothing": "", "the type of a block": "40", "a u32": "00", "two u32": "0000", "a list of u32": "010000",
        "a list of value types": "017f", "the type of a block, and a list of catches": "4000",
        "a memory argument": "0000", "a memory argument, and a byte": "000000", "an s32": "00", "an s64": "00",
        "four bytes": "00" * 4, "eight bytes": "00" * 8, "sixteen bytes": "00" * 16, "a byte": "00",
        "a byte that is 70 or 6f": "70",
    }
    known = {}
    for cell, what in table_of(FORMAT, "| first byte | after it |"):
        firsts = numbers_in(cell, 16)
        each = what.split(", ") if what.startswith(("an s32", "four")) else [what] * len(firsts)
        known |= {bytes([first]): text for first, text in zip(firsts, each)}
    prefix = ""
    for first, numbers, what in table_of(FORMAT, "| first byte | number | after it |"):
        prefix = first or prefix
        known |= {bytes.fromhex(prefix) + leb128(number): what for number in numbers_in(numbers, 10)}
    made = folder / "documented.o"
    tried = [bytes([first]) for first in range(252)] + [bytes([255])]
    tried += [bytes([first]) + leb128(number) for first in (252, 253, 254) for number in range(0x120)]
    for spelled in tried:
        what = known.get(spelled, "nothing")
        what = max((name for name in rests if what.startswith(name)), key=len)
        made.write_bytes(object_with_body(bytes.fromhex("00fc00") + spelled + bytes.fromhex(rests[what] + "0b")))
        line = run([*FLAGS, made]).stderr.decode()
        refused = line.endswith((" Body\n", " Operator\n"))
        note(f"the operator {spelled.hex()}: {line}", refused == (spelled not in known))


def documented_options():
    """The options of the README and of docs/OPTIONS.md are those of the program's table."""
    code = (ROOT / "crates" / "wl_words" / "src" / "options.rt").read_text()
    wanted = set(re.findall(r'name: "([\w-]+)"', code))
    tables = [
        (OPTIONS, OPTIONS_TITLE),
        (README, "| option | meaning | without it |"),
    ]
    for document, title in tables:
        names = {name for row in table_of(document, title) for name in re.findall(r"`-{0,2}([\w-]+)", row[0])}
        note(f"the options of {document.name}: {names ^ wanted}", names == wanted)


def documented_refusals():
    """The refusals of docs/ERRORS.md are those that the program has lines for."""
    folder = ROOT / "crates"
    refusals = (folder / "wl_linking" / "src" / "error.rt").read_text().split("pub enum LinkError {")[1].split("\n}")[0]
    faults = (folder / "wl_words" / "src" / "error.rt").read_text().split("pub enum ArgError {")[1].split("\n}")[0]
    wanted = {name for text in [refusals, faults] for name in re.findall(r"^    (\w+)", text, re.M)} - {"OutOfMemory"}
    reported = re.findall(r"^\|.*", ERRORS.read_text(), re.M)
    lines = {words[-1] for row in reported for words in re.findall(r"`error: (BadWords )?(\w+)", row.split("|")[1])}
    explained = lines - {"ReadFault", "NotUtf8"}
    note(f"the refusals of {ERRORS.name}: {explained ^ wanted}", explained == wanted)


def documented_words():
    """Each option of docs/OPTIONS.md is known, with the value that it says, and its wrong uses are reported."""

    def ends(given, fault):
        line = run(given).stderr.decode()
        note(f"the words {given}: {line}", line == f"error: {fault}\n")

    none, unknown = "BadWords NoInputs", "BadWords UnknownOption 0"
    for names, value, *_ in table_of(OPTIONS, OPTIONS_TITLE):
        for name in re.findall(r"`(-[\w-]+)`", names):
            spelled = [name, name[1:]] if name.startswith("--") else [name]
            if name.startswith("--"):
                ends(["-" + name], unknown)
            else:
                ends(["-" + name], unknown)
                ends([name + "1"], unknown)
            for word in spelled:
                if value == "none":
                    ends([word], none)
                    ends([word + "=1"], unknown)
                elif value == "[name]":
                    ends([word], none)
                    ends([word + "=a"], none)
                    ends([word, ""], "ReadFault 0")
                elif value.startswith("`I:FILE`"):
                    ends([word], "BadWords MissingValue 0")
                    ends([word, "0"], "BadWords BadNumber 1")
                    ends([f"{word}=0x:a"], "BadWords BadNumber 0")
                    # Only once the words end is it said that a number is that of no object.
                    for beyond in ["1", f"{2**64}"]:
                        ends([word, f"{beyond}:a", "--static"], "BadWords UnknownOption 2")
                        ends([word, f"{beyond}:a", ""], "BadWords BadNumber 1")
                    ends([f"{word}=1:a", ""], "BadWords BadNumber 0")
                    ends([f"{word}=0:a", ""], "ReadFault 0")
                elif span := re.search(r"a number from (\d+) to (\d+)", value):
                    ends([word], "BadWords MissingValue 0")
                    for beyond in [int(span[1]) - 1, int(span[2]) + 1]:
                        ends([word, f"{beyond}"], "BadWords BadNumber 1")
                    ends([f"{word}={span[1]}x"], "BadWords BadNumber 0")
                else:
                    front = re.findall(r"`([\w-]+=)`", value)
                    sound = front[0] + "1" if front else "1"
                    ends([word], "BadWords MissingValue 0")
                    ends([word, sound], none)
                    ends([f"{word}={sound}"], none)
                    bound = re.search(r"a number below 2\^(\d+)", value)
                    if bound:
                        large = f"{sound[:-1]}{2 ** int(bound[1])}"
                        ends([word, f"{sound[:-1]}{2 ** int(bound[1]) - 1}"], none)
                        ends([word, large], "BadWords BadNumber 1")
                        ends([f"{word}={sound}x"], "BadWords BadNumber 0")
                    if front:
                        ends([word, "1"], "BadWords UnknownOption 1")


def documented_relocations(folder):
    """A type of relocation that docs/FORMAT.md has is read, with an addend where it says so; others are refused."""
    rows = table_of(FORMAT, "| number | type | field | addend | index | is in |")
    addends = {int(number): addend == "yes" for number, _, _, addend, _, _ in rows}
    sound = (EXAMPLES / "two_functions.o").read_bytes()
    made = folder / "relocation.o"
    for number in range(256):
        # The object ends with its one relocation: type, offset and index.
        made.write_bytes(sound[:-3] + bytes([number]) + sound[-2:])
        line = run([*FLAGS, made]).stderr.decode()
        if number not in addends:
            wanted = "Malformed 0 RelocType" if number > max(addends) else "Unsupported 0 RelocType"
            note(f"relocation type {number}: {line}", line == f"error: {wanted}\n")
        else:
            cut = line == "error: Malformed 0 Truncated\n"
            note(f"relocation type {number}: {line}", cut == addends[number] and "RelocType" not in line)
    listing = (EXAMPLES / "two_functions.plan").read_text()
    for name in re.findall(r"R_WASM_\w+", listing):
        note(f"the name {name}", any(row[1] == f"`{name}`" for row in rows))


def compiled(folder):
    """Objects that clang made are read whole, and planned, alone or together."""
    bare = EXAMPLES / "bare_module.o"
    planned = sorted(OBJECTS.glob("planned_*.o"))
    for words, listing in [(FLAGS, "planned_whole.plan"), ([], "planned_kept.plan")]:
        wanted = (OBJECTS / listing).read_bytes()
        check(listing, run([*words, *planned]), 0, wanted)
    threads = sorted(OBJECTS.glob("threads_*.o"))
    wanted = (OBJECTS / "threads.plan").read_bytes()
    check("threads.plan", run([*SHARED, *threads]), 0, wanted)
    check("the function at which it begins alone", run(planned[1:2]), 1, err=b'error: UndefinedSymbols 0 "apply"\n')
    undefined = [("globals.o", b'"fill"'), ("weak_and_external.o", b'"external_data"')]
    for name, symbol in undefined:
        line = b"error: UndefinedSymbols 0 " + symbol + b"\n"
        check(f"{name}, which nothing completes", run([*FLAGS, OBJECTS / name]), 1, err=line)
    for made in sorted(set(OBJECTS.glob("*.o")) - set(planned)):
        listing = made.with_suffix(".plan").read_bytes()
        check(made.name, run([*FLAGS, "--allow-undefined", made]), 0, listing)
        cut = folder / "cut.o"
        cut.write_bytes(made.read_bytes()[:-1])
        check(f"{made.name}, cut off", run([*FLAGS, bare, cut]), 1, err=b"error: Malformed 1 Truncated\n")


def sizes(folder):
    """An object may have 1 GiB, and not a byte more."""
    made = folder / "large.o"
    with made.open("wb") as file:
        file.truncate(LARGEST + 1)
    check("one byte too many", run([*FLAGS, made]), 1, err=b"error: TooLarge Object\n")
    words = [*FLAGS, "--replace", f"0:{made}", "--replace=0:no/such/file", EXAMPLES / "two_functions.o"]
    check("one byte too many, in the place of an object", run(words), 1, err=b"error: TooLarge Object\n")
    with made.open("r+b") as file:
        file.truncate(LARGEST)
    check("just small enough", run([*FLAGS, made]), 1, err=b"error: Malformed 0 Header\n")
    made.unlink()


def writes():
    """Streams that take nothing."""
    made = EXAMPLES / "two_functions.o"
    with open("/dev/full", "wb") as full:
        check("no room for the listing", run([*FLAGS, made], stdout=full), 4, out=None)
        check("no room for the line", run([], stderr=full), 4, err=None)
    reader, writer = os.pipe()
    os.close(reader)
    check("nobody reads", run([*FLAGS, made], stdout=writer), 4, out=None)
    os.close(writer)


def objects_as_written():
    """The objects of the examples are what their bytes in hexadecimal say."""
    global passed, failed
    made = subprocess.run([sys.executable, EXAMPLES / "make.py", "--check"], capture_output=True)
    passed, failed = (passed + 1, failed) if made.returncode == 0 else (passed, failed + 1)
    sys.stdout.write(made.stderr.decode())


def misplaced(edit, crate):
    """What of an edit can't be applied to the crate: each text that it replaces has to stand in its file once,
    when those before it are replaced."""
    texts, path, old, changes = {}, None, None, 0
    for line in edit.read_text().splitlines():
        kind, _, rest = line.partition(" ")
        if kind == "file:":
            path = rest.strip()
            if not (crate / path).is_file():
                return f"there is no file {path}"
            texts.setdefault(path, (crate / path).read_text())
        elif kind == "old:":
            old = rest
        elif kind == "new:":
            if path is None or not old:
                return "a new text stands for no old one"
            times = texts[path].count(old)
            if times != 1:
                return f"{path} has {times} times: {old.strip()}"
            texts[path] = texts[path].replace(old, rest)
            changes, old = changes + (old != rest), None
    return "" if changes else "it changes nothing"


def wrong_bodies():
    """Each wrong body that the proofs have to refuse can be made: those of must-fail/ and of tests/wrong."""
    for folder in sorted([*ROOT.glob("crates/*/must-fail"), *ROOT.glob("tests/wrong/*")]):
        name = folder.parent.name if folder.name == "must-fail" else folder.name
        for edit in sorted(folder.glob("*.edit")):
            fault = misplaced(edit, ROOT / "crates" / name)
            note(f"{name}, {edit.stem}: {fault}", not fault, "wrong bodies")


def code_of(path):
    """A file of code or definitions without its comments, and without what divides the digits of a number."""
    mark = "--" if path.suffix == ".antt" else "//"
    lines = [line.partition(mark)[0] for line in path.read_text().splitlines()]
    return re.sub(r"(?<=\d)_(?=\d)", "", "\n".join(lines))


def sources():
    """Code and definitions of all crates, by their paths; tests spell the numbers that they want."""
    crates = ROOT / "crates"
    paths = [*crates.glob("*/src/**/*.rt"), *crates.glob("*/specs/**/*.antt")]
    named = {str(path.relative_to(crates)): path for path in paths}
    return {name: code_of(path) for name, path in sorted(named.items())
            if not name.startswith("wl_tests/") and not name.endswith("/tests.rt")}


def constants(texts):
    """Each constant is declared once, and what stands for it stands in its home alone."""
    for constant, (home, value) in CONSTANTS.items():
        declared = [name for name, text in texts.items() if re.search(rf"\bconst {constant}\b", text)]
        note(f"{constant}: {declared}", declared == [home], "constants")
        if value is not None:
            pattern = re.compile(rf"(?<![\w.]){re.escape(value)}(?!\w)")
            places = {name for name, text in texts.items() if pattern.search(text)} - OTHER_CONSTANTS
            note(f"{value}: {sorted(places)}", places == {home}, "constants")


def symbol_kinds(texts):
    """Whether a symbol is of one kind is asked by a predicate: no code compares kinds by their names, or answers true
    and false by a match over them, but that of the predicates."""
    kinds = r"(?:\|?\s*WasmSymbolKind::\w+\s*)+"
    compared = rf"[=!]= WasmSymbolKind::|matches!\(\s*[\w.]+,\s*{kinds}"
    judged = rf"match [^{{}}]*{{(?:\s*{kinds}=>\s*(?:true|false),)+\s*}}"
    found = [name for name, text in texts.items() if name != SYMBOLS and re.search(rf"{compared}|{judged}", text)]
    note(f"written out in {found}", not found, "kinds of symbols")


def next_of(code, place, *marks):
    """The place of the first of these marks from there on that stands in no brackets, or of what closes those
    around it."""
    depth = 0
    for found in re.compile("|".join([r"[([{]", r"[)\]}]", *marks])).finditer(code, place):
        is_closing = found[0] in (")", "]", "}")
        if depth == 0 and (is_closing or found[0] in marks):
            return found.start()
        depth += (found[0] in ("(", "[", "{")) - is_closing
    return len(code)


def patterns_in(code):
    """The patterns of each `match`, `matches!` and `let` of a text of code without comments and quotes."""
    for test in re.finditer(r"\bmatches!\s*\(", code):
        comma = next_of(code, test.end(), ",")
        yield code[comma : next_of(code, comma)]
    for arms in re.finditer(r"\bmatch\b[^{};]*\{", code):
        place = arms.end()
        while code[place : place + 1] not in (")", "]", "}", ""):
            arrow = next_of(code, place, "=>")
            yield re.split(r"\sif\s", code[place:arrow])[0]
            body = re.compile(r"(=>)?\s*").match(code, arrow).end()
            is_block = code[body : body + 1] == "{"
            end = next_of(code, body + 1) + 1 if is_block else next_of(code, body, ",")
            place = re.compile(r"[\s,]*").match(code, end).end()
    for binding in re.finditer(r"\blet\s([^=;]*)=", code):
        yield binding[1]


def relocation_types():
    """What a type of relocation means is asked of wl_custom: no other crate goes by cases on it."""
    for source in sorted((ROOT / "crates").glob("*/src")):
        if source.parent.name == "wl_custom":
            continue
        for path in sorted(source.rglob("*.rt")):
            code = re.sub(r"""//[^\n]*|'(\\.|[^'\\])'|"(\\.|[^"\\])*\"""", "", path.read_text())
            reported = re.findall(r"\bRelocationType::(\w+)", " ".join(patterns_in(code)))
            note(f"{path.relative_to(ROOT)} goes by cases on {', '.join(reported)}", not reported, "relocation types")


def launcher_options():
    """The options whose value is the next word are the same in the launcher, which makes the names of objects absolute,
    as in docs/OPTIONS.md."""
    cases = re.findall(r"^ *(-[^)]*)\) is_value=yes", (ROOT / "wildplan").read_text(), re.M)
    known = {name for line in cases for name in line.split(" | ")}
    wanted = set()
    for names, value, *_ in table_of(OPTIONS, OPTIONS_TITLE):
        # The name of a file is made absolute as those of objects are, and so is that in the value of --replace.
        if value not in ("none", "[name]", "file") and not value.startswith("`I:FILE`"):
            wanted |= {name for word in re.findall(r"`(-[\w-]+)`", names) for name in {word, re.sub("^--", "-", word)}}
    note(f"the options with values in the launcher: {known ^ wanted}", known == wanted)


def launched(folder):
    """The launcher runs the proved program, through symbolic links too, and where there is none the sources, and
    says so."""
    links = [ROOT / "wildplan", folder / "link", folder / "link of a link"]
    links[1].symlink_to(os.path.relpath(links[0], folder.resolve()))
    links[2].symlink_to("link")
    for launcher in links:
        ended = subprocess.run([launcher], stdin=subprocess.DEVNULL, capture_output=True, timeout=600)
        check("the proved program is that of the sources", ended, 2, err=b"error: BadWords NoInputs\n")
    copy = folder / "copy"
    shutil.copytree(ROOT / "crates", copy / "crates", ignore=shutil.ignore_patterns("out"))
    for name in ["crates.txt", "wildplan", "examples/two_functions.o"]:
        shutil.copy(ROOT / name, copy)
    command = ["./wildplan", *FLAGS, "--replace", "0:two_functions.o", "two_functions.o"]
    ended = subprocess.run(command, cwd=copy, stdin=subprocess.DEVNULL, capture_output=True, timeout=600)
    notice = b"wildplan: running unproved, which takes a while; .ci/run proves and builds it\n"
    check("no proved program", ended, 0, (EXAMPLES / "two_functions.plan").read_bytes(), notice)


def joined(script, *words):
    """Adds what another script counts, whose last line is `N passed, M failed`, and prints what it says before that."""
    global passed, failed
    command = [sys.executable, ROOT / script, *words]
    ended = subprocess.run(command, stdin=subprocess.DEVNULL, stdout=subprocess.PIPE, text=True, timeout=600)
    *said, last = ended.stdout.splitlines() or [""]
    counts = re.fullmatch(r"(\d+) passed, (\d+) failed", last)
    note(f"{script} ends with {last!r}", counts is not None, "scripts")
    if counts:
        passed, failed = passed + int(counts[1]), failed + int(counts[2])
    for line in said:
        print(f"{script}: {line}")


def main():
    if not PROGRAM.exists():
        sys.exit("the program isn't built yet, .ci/run does: 0 passed, 1 failed")
    objects_as_written()
    wrong_bodies()
    texts = sources()
    constants(texts)
    symbol_kinds(texts)
    relocation_types()
    documented_names()
    documented_options()
    documented_words()
    launcher_options()
    documented_refusals()
    listings()
    counter()
    words()
    about()
    options()
    with tempfile.TemporaryDirectory() as name:
        folder = pathlib.Path(name)
        reads(folder)
        modes(folder)
        rows(folder)
        operators(folder)
        numbers(folder)
        documented_relocations(folder)
        documented_operators(folder)
        compiled(folder)
        sizes(folder)
        if PROGRAM == BUILT:
            launched(folder)
    writes()
    joined("tools/make_pages.py", "--check")
    joined("tests/worked_rows.py")
    joined("tests/listing.py")
    joined("tests/listing_grammar.py", PROGRAM)
    joined("tests/pages.py", PROGRAM)
    joined("tests/claims.py")
    joined("tests/install.py", PROGRAM)
    joined("tests/wasm_ld.py", PROGRAM)
    joined("tests/tools.py", PROGRAM)
    print(f"{passed} passed, {failed} failed")
    sys.exit(1 if failed else 0)


if __name__ == "__main__":
    main()
