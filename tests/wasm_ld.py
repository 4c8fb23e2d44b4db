#!/usr/bin/env python3
"""Tries what docs/WASM_LD.md says of wasm-ld and of wildplan, with each version of wasm-ld that is installed.

    tests/wasm_ld.py PROGRAM

Each row of the page's tables has a case here, or stands in UNTRIED with the reason. Where no wasm-ld is installed
the rows are only compared with the cases. The last line is `N passed, M failed`."""

import pathlib
import re
import shutil
import subprocess
import sys
import tempfile

ROOT = pathlib.Path(__file__).resolve().parent.parent
sys.path.insert(0, str(ROOT / "tools"))

import counting  # noqa: E402
import documents  # noqa: E402
import listing  # noqa: E402
from wasm_module import read_module  # noqa: E402

PAGE = ROOT / "docs" / "WASM_LD.md"
OBJECTS = ROOT / "tests" / "wasm_ld"
VERSIONS = ["", *(f"-{number}" for number in range(14, 30))]
# The newest version that the page speaks of: older ones know fewer options.
NEWEST = 22
# Where Debian's wasi-libc and libc++ stand.
LIBRARIES = pathlib.Path("/usr/lib/wasm32-wasi")
TITLE = ["wasm-ld", "wildplan", "what to do"]
# What objects begin with, and a memory of one page.
HEADER = b"\0asm\1\0\0\0"
PAGE_OBJECT = HEADER + b"\5\3\1\0\1"

# Rows that no case tries, by how they begin, each with the reason.
UNTRIED = {
    "a stack or data that ends past the last address": "tests/rows.txt has it of wildplan; wasm-ld would write 4 GiB",
    "the address of data in a passive segment": "no compiler makes such an object; tests/rows.txt has it of wildplan",
    "an object that is cut off": "tests/rows.txt has it of wildplan for every rule",
}

CASES = {}
counts = counting.Counts()
note = counts.note
unsaid = []
linkers = {}
program = None
folder = None


def case(row):
    """Makes a function the case of the row that begins so."""

    def made(function):
        CASES[row] = function
        return function

    return made


class Ended:
    """How a linker ended: its status, what it said, and the module or the plan."""

    def __init__(self, name, command):
        ended = subprocess.run(command, cwd=folder / "objects", stdin=subprocess.DEVNULL, capture_output=True, timeout=120)
        self.name, self.status = name, ended.returncode
        self.out, self.said = ended.stdout, ended.stderr.decode("utf-8", "replace")
        self.module = self.plan = None

    def has(self, what, sound):
        """Counts a comparison of what it made."""
        note(f"{self.name}: {what}: status {self.status}, {self.said[:300]}", sound)

    def ok(self, what, sound):
        """The link succeeds, and this holds of what it made."""
        self.has(what, self.status == 0 and sound(self.module or self.plan))

    def refuses(self, text):
        """The link fails with this text."""
        self.has(f"fails with {text}", self.status == 1 and text in self.said)


def words_of(text):
    """The words of a command; `DIR` stands for the folder of what a case wrote."""
    return [word.replace("DIR", str(folder)) for word in text.split()]


def plan(text):
    """The plan of a command line."""
    ended = Ended(f"wildplan {text}", [program, *words_of(text)])
    ended.plan = listing.read_listing(ended.out) if ended.status == 0 else None
    return ended


def line(text, wanted):
    """wildplan refuses a command line with this line."""
    ended = plan(text)
    ended.has(f"prints {wanted}", ended.said == f"error: {wanted}\n")


def link(version, text):
    """The link of a command line by one wasm-ld."""
    made = folder / "made.wasm"
    made.unlink(missing_ok=True)
    ended = Ended(f"wasm-ld {version} {text}", [linkers[version], *words_of(text), "-o", made])
    if ended.status == 0 and made.exists():
        ended.module = read_module(made.read_bytes())
    return ended


def each(text, since=0, before=1000):
    """The links of a command line by every version in a range."""
    return [link(version, text) for version in sorted(linkers) if since <= version < before]


def unknown(*options):
    """wildplan knows none of these, and a version of wasm-ld does."""
    for option in options:
        line(f"{option} names.o", "BadWords UnknownOption 0")
        tried = [option, f"{option}=1"] if option.startswith("--") and "=" not in option else [option]
        spoken = [each(f"--no-entry names.o {spelled}") for spelled in tried]
        known = [ended for ends in spoken for ended in ends if "unknown argument" not in ended.said]
        if not known and max(linkers, default=0) < NEWEST:
            unsaid.append(option)
        else:
            note(f"no wasm-ld knows {option}", known)


def options_in(cell):
    """The options that a cell names, as they would be written."""
    return [span for span in re.findall(r"`([^`]*)`", cell) if span.startswith("-")]


def file(name, content):
    """A file of the folder that commands call DIR."""
    (folder / name).write_bytes(content)
    return f"DIR/{name}"


def shows(plan_text, kind, test):
    """wildplan plans a command line, and this holds of the lines of a kind."""
    ended = plan(plan_text)
    ended.ok(f"{kind.__name__}", lambda made: test(made.of(kind)))


def names_of(exports):
    """The names of exports."""
    return [export.name for export in exports]


@case("writes a module")
def writes():
    for ended in each("--no-entry names.o"):
        ended.ok("a module", lambda module: module is not None)
    made = folder / "none.wasm"
    plan("--no-entry names.o -o DIR/none.wasm").ok("a plan", lambda made: made.of(listing.Function))
    note("wildplan wrote a file", not made.exists())


def archive_of(name, *members):
    """An archive of these members, all of one name."""
    header = f"{name}/".encode().ljust(16) + b"0".ljust(12) + b"0".ljust(6) + b"0".ljust(6) + b"644".ljust(8)
    parts = [header + str(len(member)).encode().ljust(10) + b"`\n" + member + b"\n" * (len(member) % 2)
             for member in members]
    return b"!<arch>\n" + b"".join(parts)


def same_members():
    """Of two members of one name `ar x` leaves the second, and `ar xN 1` the first."""
    made = folder / "errno.o"
    (folder / "two.a").write_bytes(archive_of("errno.o", b"first", b"second"))
    for words, wanted in [(["x", "two.a"], b"second"), (["xN", "1", "two.a", "errno.o"], b"first")]:
        subprocess.run(["ar", *words], cwd=folder, check=True)
        note(f"ar {words} leaves {made.read_bytes()}", made.read_bytes() == wanted)


@case("reads archives")
def archives():
    archive = archive_of("callee.o", (OBJECTS / "callee.o").read_bytes())
    line(f"--entry=called {file('a.a', archive)}", "Malformed 0 Header")
    if shutil.which("ar"):
        same_members()
    for ended in each("--no-entry --trace names.o"):
        ended.has("lists what it takes", "names.o" in ended.said + ended.out.decode())
    for ended in each(f"--no-entry --whole-archive {file('a.a', archive)}"):
        ended.ok("the member", lambda module: module is not None)


@case("`-l`, `-L`")
def libraries():
    unknown("-La", "--whole-archive", "--start-lib", "-Bstatic")
    line("-la names.o", "BadWords UnknownOption 0")


@case("`-m wasm32`")
def machine():
    unknown("-mwasm32", "-mwasm64")
    line("-m wasm32 names.o", "BadWords UnknownOption 0")
    line(f"--no-entry {file('wide.o', HEADER + bytes.fromhex('0503010401'))}", "Unsupported 0 Memory64")


@case("`-r`, `-shared`")
def shared():
    unknown("-r", "-shared", "-pie", "--soname=a", "--emit-relocs")


@case("`--lto-O2`, bitcode")
def bitcode():
    unknown("--lto-O2")
    line(f"--no-entry {file('bitcode.o', b'BC' + bytes.fromhex('c0de') + bytes(16))}", "Malformed 0 Header")


@case("`-O2`, `--threads=1`")
def quiet():
    unknown(*options_in(row_of("`-O2`, `--threads=1`")[0]))


@case("`@file`")
def response_files():
    given = file("words", b"--no-entry\nnames.o\n")
    for ended in each(f"@{given}"):
        ended.ok("reads words from a file", lambda module: module is not None)
    line(f"--no-entry @{given}", "ReadFault 0")


@case("`--export-all`")
def export_all():
    unknown(*options_in(row_of("`--export-all`")[0]))


@case("`-u NAME`")
def undefined_option():
    unknown("--undefined=hidden")
    line("-u hidden names.o", "BadWords UnknownOption 0")
    for ended in each("--no-entry -u hidden names.o"):
        ended.ok("a module", lambda module: module is not None)
    shows("--no-entry --export-if-defined hidden names.o", listing.Export, lambda lines: "hidden" in names_of(lines))


@case("`--import-undefined`")
def import_undefined():
    unknown("--import-undefined", "--unresolved-symbols=ignore-all", "--allow-undefined-file=a",
            "--warn-unresolved-symbols")
    shows("--entry=functions --allow-undefined undefined.o", listing.ImportedFunction, lambda lines: len(lines) == 2)


@case("`--allow-multiple-definition`")
def multiple():
    unknown("--allow-multiple-definition")
    line("--no-entry callee.o callee.o", 'DuplicateSymbol "called" 0 0 1 0')


@case("`--global-base=2048`")
def bases():
    unknown(*options_in(row_of("`--global-base=2048`")[0]))
    shows("--entry=run --stack-first -z stack-size=4096 variables.o more_variables.o", listing.ActiveSegment,
          lambda lines: lines[0].address == 4096)
    shows("--no-entry --initial-memory=131072 --max-memory=131072 names.o", listing.Memory,
          lambda lines: (lines[0].minimum, lines[0].maximum) == (2, 2))


@case("`--wrap=a`")
def wrap():
    unknown("--wrap=a")


@case("`--features=a`")
def features():
    unknown("--features=a")
    shows("--no-entry --extra-features=a names.o", listing.Feature, lambda lines: lines == [listing.Feature("a")])


@case("14 doesn't know `--export-memory`")
def later_options():
    for option in ["--export-memory=a", "--import-memory=a,b", "--extra-features=a", "--keep-section=a"]:
        for ended in each(f"--no-entry names.o {option}", before=19):
            ended.refuses("unknown argument")
        for ended in each(f"--no-entry names.o {option}", since=19):
            ended.has(option, "unknown argument" not in ended.said)
        plan(f"--no-entry names.o {option}").ok(option, lambda made: made is not None)
    for ended in each("--no-entry names.o --no-stack-first", before=20):
        ended.refuses("unknown argument")
    for ended in each("--no-entry names.o --no-stack-first", since=22):
        ended.ok("the data first", lambda module: module.globals[0] == 66560)


@case("`--import-memory=b` without a comma")
def memory_names():
    for ended in each("--no-entry names.o --import-memory=b", since=19, before=20):
        ended.ok("the module b", lambda module: module.imports == [("b", "", "memory")])
    for ended in each("--no-entry names.o --import-memory=b", since=22):
        ended.ok("the name b", lambda module: module.imports == [("env", "b", "memory")])
    for value in ["b", "env,b"]:
        shows(f"--no-entry names.o --import-memory={value}", listing.ImportedMemory,
              lambda lines: (lines[0].module, lines[0].name) == ("env", "b"))


@case("several words may be at fault")
def faults():
    for ended in each("--no-entry names.o --neither --nor"):
        ended.has("both are reported", "--neither" in ended.said and "--nor" in ended.said)
    line("--no-entry names.o --neither --nor", "BadWords UnknownOption 2")


@case("exports each symbol that has the flag EXPORTED")
def flags():
    for ended in each("--no-entry emscripten_names.o"):
        ended.ok("exports `used`", lambda module: "used" in module.exported_names())
    shows("--no-entry emscripten_names.o", listing.Export, lambda lines: names_of(lines) == ["pub", "memory"])
    shows("--no-entry emscripten_names.o", listing.DefinedFunction, lambda lines: 0 in [line.unit for line in lines])
    shows("--no-entry --export used emscripten_names.o", listing.Export, lambda lines: "used" in names_of(lines))


@case('a function with `export_name("pub")`')
def own_names():
    for ended in each("--no-entry --export=own names.o"):
        ended.ok("`pub` alone", lambda module: module.exported_names() == ["memory", "pub"])
    shows("--no-entry --export=own names.o", listing.Export, lambda lines: names_of(lines) == ["pub", "memory", "own"])


@case("two functions with one `export_name`")
def same_names():
    for ended in each("--no-entry same_names.o"):
        ended.ok("two exports", lambda module: len(module.export("same")) == 2)
    line("--no-entry same_names.o", 'DuplicateExport "same"')


@case("`--export=memory`, with a function")
def memory_function():
    for ended in each("--no-entry --export=memory names.o"):
        ended.ok("two exports", lambda module: len(module.export("memory")) == 2)
    shows("--no-entry --export=memory names.o", listing.Export, lambda lines: names_of(lines) == ["pub", "memory"])
    shows("--no-entry --export=memory --export-memory=mem names.o", listing.Export,
          lambda lines: names_of(lines) == ["pub", "mem", "memory"])


@case("the memory is the first export")
def export_order():
    for ended in each("--no-entry --export=used --export=own names.o"):
        ended.ok("the memory first", lambda module: module.exported_names() == ["memory", "used", "pub"])
    shows("--no-entry --export=used --export=own names.o", listing.Export,
          lambda lines: names_of(lines) == ["pub", "memory", "used", "own"])


@case("`--export=__heap_base`")
def heap_base():
    for ended in each("--entry=run --export=__heap_base heap.o"):
        ended.ok("the object's", lambda module: module.globals[module.export("__heap_base")[0][1]]
                 == module.segments[0][0])
    shows("--entry=run --export=__heap_base heap.o", listing.MadeGlobal, lambda lines: lines[1].made == "address")


@case("`--export-dynamic` exports what has the flag EXPORTED")
def dynamic_flags():
    for ended in each("--no-entry --export-dynamic emscripten_names.o"):
        ended.ok("exports `used`", lambda module: "used" in module.exported_names())
    shows("--no-entry --export-dynamic emscripten_names.o", listing.Export,
          lambda lines: names_of(lines) == ["pub", "memory", "shown"])


@case("14 and 19: `--export-dynamic`")
def dynamic_stack_pointer():
    given = "--no-entry --export-dynamic names.o --features=mutable-globals"
    for ended in each(given, before=20):
        ended.ok("no stack pointer", lambda module: not module.export("__stack_pointer"))
    for ended in each(given, since=22):
        ended.ok("the stack pointer", lambda module: module.export("__stack_pointer") == [("global", 0)])
    shows("--no-entry --export-dynamic names.o --extra-features=mutable-globals", listing.Export,
          lambda lines: "__stack_pointer" in names_of(lines))


@case("14 and 19: an exported variable of each thread")
def thread_variables():
    given = "--entry=run --export=own --export=first_own threads.o"
    for versions, wanted in [((0, 20), {1024, 1028}), ((22, 1000), {0, 4})]:
        for ended in each(given, *versions):
            ended.ok("the addresses", lambda module: {
                module.globals[module.export(name)[0][1]] for name in ["own", "first_own"]} == wanted)
    shows(given, listing.MadeGlobal, lambda lines: [line.code for line in lines[-2:]] == [b"\x41\x04", b"\x41\x00"])


@case("mutable globals, the stack pointer included")
def mutable_globals():
    for ended in each("--no-entry --export=__stack_pointer names.o"):
        ended.refuses("'mutable-globals' feature not present")
    shows("--no-entry --export=__stack_pointer names.o", listing.Export,
          lambda lines: lines[-1] == listing.Export("__stack_pointer", "global", 0))


@case("`--export=__indirect_function_table`")
def table_export():
    for ended in each("--no-entry --export=__indirect_function_table names.o"):
        ended.ok("the table", lambda module: module.export("__indirect_function_table") == [("table", 0)])
    line("--no-entry --export=__indirect_function_table names.o", 'ExportNotFound "__indirect_function_table"')


@case("wraps exported functions also where there are no constructors")
def destructor_wrappers():
    for ended in each("--no-entry destructors.o"):
        ended.ok("a wrapper", lambda module: "print.command_export" in module.names.values())
    shows("--no-entry destructors.o", listing.WrapperFunction, lambda lines: not lines)


@case("a wrapper calls the constructors, the function")
def wrappers():
    for ended in each("--no-entry constructors.o destructors.o"):
        ended.ok("the destructors", lambda module: "__wasm_call_dtors" in module.names.values())
    shows("--no-entry constructors.o destructors.o", listing.WrapperFunction, lambda lines: len(lines) == 2)
    shows("--no-entry constructors.o destructors.o", listing.DefinedFunction,
          lambda lines: (1, 0) not in [(line.object, line.unit) for line in lines])


@case("with `--export=__wasm_call_dtors`")
def exported_destructors():
    given = "--no-entry --export=__wasm_call_dtors constructors.o destructors.o"
    for ended in each(given):
        ended.ok("a wrapper", lambda module: "__wasm_call_dtors.command_export" in module.names.values())
    shows(given, listing.WrapperFunction, lambda lines: "__wasm_call_dtors" in names_of(lines))
    shows(given + " --export=__wasm_call_ctors", listing.WrapperFunction, lambda lines: not lines)


@case("22: the stack stands first")
def stack_first():
    given = "--entry=run variables.o more_variables.o"
    for ended in each(given, before=20):
        ended.ok("the data first", lambda module: module.segments[0][0] == 1024)
    for ended in each(given, since=22):
        ended.ok("the stack first", lambda module: module.segments[0][0] == 65536)
    shows(given, listing.ActiveSegment, lambda lines: lines[0].address == 1024)


@case("keeps one copy of each COMDAT group")
def comdat():
    for ended in each("--entry=run inline_one.o inline_other.o"):
        ended.ok("one copy", lambda module: list(module.names.values()).count("twice(int)") == 1)
    shows("--entry=run inline_one.o inline_other.o", listing.DefinedFunction, lambda lines: len(lines) == 4)


@case("drops a weak definition")
def weak():
    for ended in each("--entry=run weak.o strong.o"):
        ended.ok("two functions", lambda module: len(module.names) == 2)
    shows("--entry=run weak.o strong.o", listing.DefinedFunction, lambda lines: len(lines) == 3)


@case("joins segments")
def segments():
    given = "--entry=run variables.o more_variables.o"
    for ended in each(given):
        ended.ok("two segments, with one string", lambda module: [length for _, length in module.segments] == [12, 12])
    shows(given, listing.ActiveSegment, lambda lines: [line.length for line in lines] == [4, 12, 6, 4000, 4, 4, 12])


@case("leaves out segments that are zero")
def zeros():
    given = "--entry=run variables.o more_variables.o"
    for ended in each(given):
        ended.ok("no zeros", lambda module: all(length < 4000 for _, length in module.segments))
    shows(given, listing.ActiveSegment, lambda lines: 4000 in [line.length for line in lines])


@case("as many pages as are needed")
def pages():
    given = "--no-entry --stack-first -z stack-size=1024 --initial-memory=65536 --max-memory=65536 names.o"
    for ended in each(given):
        ended.ok("one page", lambda module: module.memory == (1, 1))
    line(given, "BadMemorySize Maximum 65536 131072")
    shows(f"{given} {file('page.o', PAGE_OBJECT)}", listing.Memory,
          lambda lines: lines[0].minimum == lines[0].maximum == 1)
    reported = re.search(r"`printf '([^']*)' > page.o`", PAGE.read_text())[1]
    content = re.sub(r"\\(\d+)", lambda mark: chr(int(mark[1], 8)), reported).encode()
    note(f"the object of a page: {content}", content == PAGE_OBJECT)


@case("data begins at 1024")
def data_start():
    for ended in each("--entry=run variables.o more_variables.o", before=20):
        ended.ok("1024", lambda module: module.segments[0][0] == 1024)
    shows("--entry=run variables.o more_variables.o", listing.ActiveSegment, lambda lines: lines[0].address == 1024)
    for given, top in [("names.o", "41808804"), (file("bare.o", HEADER), "41808004")]:
        shows(f"--no-entry {given}", listing.MadeGlobal, lambda lines: lines[0].code == bytes.fromhex(top))


@case("writes sections `name` and `producers`")
def custom_sections():
    for ended in each("--no-entry names.o"):
        ended.ok("both", lambda module: {"name", "producers"} <= set(module.sections))
    plan("--no-entry names.o").ok("none", lambda made: not made.of(listing.DebugSection))


@case("writes element segments")
def elements():
    for ended in each("--entry=run vtable.o vtable_other.o"):
        ended.ok("a segment of two", lambda module: (module.slots, module.table) == (1, 3))
    line("--entry=run vtable.o vtable_other.o", "SignatureMismatch 0 4")
    shows("--entry=hand --allow-undefined caller.o", listing.Slot, lambda lines: [line.slot for line in lines] == [1])
    line(f"--no-entry {file('table.o', HEADER + bytes.fromhex('040401700001'))}", "Unsupported 0 TableDef")


@case("makes `__start_NAME`")
def section_ends():
    for ended in each("--entry=run section.o"):
        ended.ok("both ends", lambda module: module.segments[0][1] == 8)
    line("--entry=run section.o", 'UndefinedSymbols 0 "__start_entries" 0 "__stop_entries"')


@case("takes exception tags")
def tags():
    for ended in each("--entry=run --allow-undefined exceptions.o"):
        ended.ok("a tag", lambda module: "tag" in module.sections)
    line("--entry=run --allow-undefined exceptions.o", "Unsupported 0 Tag")


@case("takes relocations of the counters of coverage builds")
def coverage():
    for ended in each("--entry=run --allow-undefined coverage.o"):
        ended.ok("counters", lambda module: len(module.segments) == 3)
    line("--entry=run --allow-undefined coverage.o", "Unsupported 0 RelocType")


@case("a function that is called by another type")
def called_types():
    for ended in each("--entry=run caller.o callee.o"):
        ended.ok("a stub", lambda module: "signature_mismatch:called" in module.names.values())
        ended.has("a warning", "warning: function signature mismatch: called" in ended.said)
    line("--entry=run caller.o callee.o", "SignatureMismatch 0 3")


@case("the address of a function that is declared with another type")
def handed_types():
    for given in ["--entry=run hander.o callee.o", "--entry=run vtable.o vtable_other.o"]:
        for ended in each(given):
            ended.ok("silence", lambda module: not ended.said)
    line("--entry=run hander.o callee.o", "SignatureMismatch 0 1")
    line("--entry=run vtable.o vtable_other.o", "SignatureMismatch 0 4")


@case("two imports of one module and name")
def imports():
    for ended in each("--entry=run --export=other imports_one.o imports_other.o"):
        ended.ok("both", lambda module: module.imports == [("host", "f", "func")] * 2)
    line("--entry=run --export=other imports_one.o imports_other.o", 'ConflictingTypes "f" 0 0 1 0')


@case("an object that demands a feature")
def demanded():
    section = b"\x0ftarget_features" + b"\1=\6wanted"
    given = file("demands.o", HEADER + bytes([0, len(section)]) + section)
    line(f"--no-entry {given}", "BadFeature 0 61")


@case("an object that defines `__wasm_call_ctors`")
def own_constructors():
    for ended in each("--entry=run own_constructors.o"):
        ended.refuses("duplicate symbol: __wasm_call_ctors")
    plan("--entry=run own_constructors.o").ok("a plan", lambda made: not made.of(listing.MadeFunction))
    shows("--entry=run own_constructors.o constructors.o", listing.MadeFunction, lambda lines: len(lines) == 1)


@case("`--initial-memory=4294967296`")
def whole_memory():
    for ended in each("--no-entry --initial-memory=4294967296 names.o"):
        ended.ok("65536 pages", lambda module: module.memory[0] == 65536)
    line("--no-entry --initial-memory=4294967296 names.o", "BadMemorySize Initial 4294967296 66560")
    shows("--no-entry --initial-memory=4294901760 names.o", listing.Memory, lambda lines: lines[0].minimum == 65535)


@case("a finished module is refused")
def finished():
    # One function, which calls itself and is exported as `again`.
    module = HEADER + bytes.fromhex("010401600000 03020100 0709 0105616761696e0000 0a06 0104 0010000b".replace(" ", ""))
    given = file("finished.wasm", module)
    for ended in each(f"--no-entry {given}"):
        ended.refuses("not a relocatable wasm file")
    shows(f"--no-entry {given}", listing.Body, lambda lines: [line.code for line in lines] == [b"\0\x10\0\x0b"])
    shows(f"--no-entry --export=called callee.o {given}", listing.Body,
          lambda lines: lines[-1].code == b"\0\x10\0\x0b" and lines[-1].index == 1)


@case("reports all faults of a kind")
def undefined():
    for ended in each("--entry=run undefined.o"):
        ended.has("all three", all(name in ended.said for name in ["missing_data", "first_missing", "second_missing"]))
    line("--entry=run undefined.o", 'UndefinedSymbols 0 "missing_data"')
    line("--entry=functions undefined.o", 'UndefinedSymbols 0 "first_missing" 0 "second_missing"')


@case("names files, and demangles names")
def mangled():
    for ended in each("--entry=run inline_one.o"):
        ended.refuses("inline_one.o: undefined symbol: other()")
    line("--entry=run inline_one.o", 'UndefinedSymbols 0 "_Z5otherv"')


# Command lines, with the line of wildplan and the message of wasm-ld, or of some versions, which docs/ERRORS.md has as
# `line | .. | message` with names for what stands in them.
MESSAGES = [
    ("--no-entry --neither names.o", "BadWords UnknownOption 1", "unknown argument: --neither"),
    ("--no-entry --max-memory=0x10 names.o", "BadWords BadNumber 1",
     "--max-memory=0x10: number expected, but got '0x10'"),
    ("--no-entry -z stack-size=a names.o", "BadWords BadNumber 2", "invalid stack-size: a"),
    ("--no-entry", "BadWords NoInputs", "no input files"),
    ("--no-entry none.o", "ReadFault 0", "cannot open none.o: No such file or directory"),
    ("--no-entry make.sh", "Malformed 0 Header", "unknown file type: make.sh"),
    ("--no-entry names.o names.o", 'DuplicateSymbol "used" 0 0 1 0', "duplicate symbol: used"),
    ("--no-entry --shared-memory --max-memory=131072 names.o", "SharedMemoryFeature Atomics",
     "'atomics' feature must be used in order to use shared memory"),
    ("--entry=none names.o", 'EntryNotDefined "none"',
     "entry symbol not defined (pass --no-entry to suppress): none"),
    ("--entry=run undefined.o", 'UndefinedSymbols 0 "missing_data"', "undefined symbol: missing_data"),
    ("--entry=run caller.o callee.o", "SignatureMismatch 0 3", "function signature mismatch: called"),
    ("--no-entry -z stack-size=8 names.o", "BadStackSize 8", "stack size must be 16-byte aligned"),
    ("--no-entry --initial-memory=1 names.o", "BadMemorySize Initial 1 66560",
     {0: "initial memory must be 65536-byte aligned",
      22: "initial memory must be aligned to the page size (65536 bytes)"}),
    ("--no-entry --initial-memory=4295032832 names.o", "BadMemorySize Initial 4295032832 66560",
     "initial memory too large, cannot be greater than 4294967296"),
    ("--no-entry --max-memory=65537 names.o", "BadMemorySize Maximum 65537 131072",
     {0: "maximum memory must be 65536-byte aligned",
      22: "maximum memory must be aligned to the page size (65536 bytes)"}),
    ("--no-entry --export=none names.o", 'ExportNotFound "none"', "symbol exported via --export not found: none"),
]


def messages():
    """The last column of docs/ERRORS.md has what wasm-ld says in the place of a line."""
    tables = documents.tables_of(ROOT / "docs" / "ERRORS.md")
    reported = [row for title, table in tables if title == ["line", "cause", "way out", "wasm-ld"] for row in table]
    for given, wanted, said in MESSAGES:
        line(given, wanted)
        words = {word for word in wanted.split()[:2] if word.isalpha()}
        cells = [row[3] for row in reported if words <= set(re.findall(r"\w+", row[0]))]
        spans = [span for cell in cells for span in re.findall(r"`([^`]*)`", cell)]
        texts = said if isinstance(said, dict) else {0: said}
        for since, text in texts.items():
            for ended in each(given, since=since, before=22 if since < 22 and len(texts) > 1 else 1000):
                ended.has(f"says {text}", text in ended.said)
            note(f"docs/ERRORS.md lacks {text}", any(pattern_of(span).fullmatch(text) for span in spans))


def pattern_of(span):
    """What a message of the page stands for: its names in capitals are any text."""
    return re.compile(re.sub(r"\b(?:NAME|FILE|WORD|VALUE|M)\b", ".*", re.escape(span)))


def made_names():
    """The names that only some versions make, of the last paragraph of the page."""
    for name, since in [("__heap_end", 19), ("__wasm_first_page_end", 22)]:
        given = f"--no-entry --export={name} names.o"
        for ended in each(given, before=since):
            if ended.name.split()[1] not in ("20", "21"):
                ended.refuses("symbol exported via --export not found")
        for ended in each(given, since=since):
            ended.ok(name, lambda module: module.export(name))
        plan(given).ok(name, lambda made: name in names_of(made.of(listing.Export)))


def members_of(listed):
    """The objects that wasm-ld says it takes, those of archives unpacked; of members of one name it is the first."""
    for number, text in enumerate(listed.splitlines()):
        found = re.fullmatch(r"(.*)\((.*)\)", text.strip())
        if found is None:
            yield text.strip()
            continue
        place = folder / f"member{number}"
        place.mkdir()
        subprocess.run(["ar", "xN", "1", found[1], found[2]], cwd=place, check=True)
        yield str(place / found[2])


def iostream():
    """A program with <iostream> can be planned where libc++ is of version 22 or later, and else can't."""
    files = [LIBRARIES / name for name in ["crt1-command.o", "libc++.a", "libc++abi.a", "libc.a"]]
    needed = all(path.exists() for path in files) and all(map(shutil.which, ["clang++", "ar"]))
    source, made = folder / "stream.cc", folder / "stream.o"
    source.write_text('#include <iostream>\nint main() { std::cout << "hello"; }\n')
    compiler = ["clang++", "--target=wasm32-wasi", "-fno-exceptions", "-O1", source]
    if not (linkers and needed) or subprocess.run([*compiler, "-c", "-o", made], capture_output=True).returncode:
        print("skipped: a program with <iostream>, for which clang++, wasi-libc and libc++ aren't installed")
        return
    macros = subprocess.run([*compiler, "-E", "-dM"], capture_output=True, text=True).stdout
    number = int(re.search(r"_LIBCPP_VERSION (\d+)", macros)[1])
    is_taken = number // (10000 if number > 99999 else 1000) >= 22
    words = ["--allow-undefined", files[0], made, *files[1:]]
    listed = Ended("wasm-ld -t", [linkers[max(linkers)], "-t", *words, "-o", folder / "stream.wasm"])
    listed.has("links a program with <iostream>", listed.status == 0)
    ended = Ended("wildplan", [program, "--allow-undefined", *members_of(listed.out.decode())])
    ended.has("a program with <iostream>", ended.status == 0 if is_taken else "SignatureMismatch" in ended.said)


def row_of(front):
    """The row of the page that begins so."""
    return next(row for row in rows() if row[0].startswith(front))


def rows():
    """The rows of the tables of the page."""
    return [row for title, table in documents.tables_of(PAGE) if title == TITLE for row in table]


def covered():
    """Each row has one case, or a reason, and each case its row."""
    fronts = [*CASES, *UNTRIED]
    for row in rows():
        note(f"a row without a case: {row[0]}", sum(row[0].startswith(front) for front in fronts) == 1)
    for front in fronts:
        note(f"a case without a row: {front}", sum(row[0].startswith(front) for row in rows()) == 1)


def installed():
    """The linkers that are installed, by their versions."""
    found = {}
    for suffix in VERSIONS:
        path = shutil.which(f"wasm-ld{suffix}")
        if path:
            reported = subprocess.run([path, "--version"], capture_output=True, text=True).stdout
            found[int(re.search(r"LLD (\d+)", reported)[1])] = path
    return found


def main():
    global program, linkers, folder
    if len(sys.argv) != 2:
        sys.exit(__doc__)
    program, linkers = pathlib.Path(sys.argv[1]).resolve(), installed()
    if linkers:
        print(f"wasm-ld of versions {', '.join(map(str, sorted(linkers)))}")
    else:
        print("skipped: what wasm-ld does, which isn't installed")
    covered()
    with tempfile.TemporaryDirectory() as name:
        folder = pathlib.Path(name)
        # Some words of wasm-ld write files where it runs.
        shutil.copytree(OBJECTS, folder / "objects")
        for tried in [*CASES.values(), messages, made_names, iostream]:
            tried()
    if linkers and unsaid:
        print(f"skipped: whether a newer wasm-ld knows {', '.join(unsaid)}")
    counts.end()


if __name__ == "__main__":
    main()
