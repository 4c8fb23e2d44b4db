#!/usr/bin/env python3
"""Tries the scripts of tools/ that stand around a link: tools/wildplan-ld and tools/write_module.py.

    tests/tools.py PROGRAM      PROGRAM is the one that plans

What isn't installed on this machine (node, wabt, clang, rustc, their packages for wasm32) is said to be skipped.
The last line is `N passed, M failed`."""

import importlib.machinery
import importlib.util
import json
import os
import pathlib
import random
import re
import shlex
import shutil
import subprocess
import sys
import tempfile

ROOT = pathlib.Path(__file__).resolve().parent.parent
sys.path[:0] = [str(ROOT / "tools"), str(ROOT / "tests")]

import archives  # noqa: E402
import counting  # noqa: E402
import documents  # noqa: E402
import link_line  # noqa: E402
import made_objects  # noqa: E402
import wasm_module  # noqa: E402
import wasm_object  # noqa: E402

PROGRAM = str(pathlib.Path(sys.argv[1]).resolve())
LINKER, WRITER = ROOT / "tools" / "wildplan-ld", ROOT / "tools" / "write_module.py"
EXAMPLES, OBJECTS = ROOT / "examples", ROOT / "tests" / "objects"
COUNTER = [str(EXAMPLES / "counter" / name) for name in ("counter.o", "setup.o")]
COUNTER_WORDS = ["--no-entry", "--export", "count", "--export", "last", "--export", "chosen"]
ENVIRONMENT = {**os.environ, "WILDPLAN": PROGRAM}

counts = counting.Counts()
note = counts.note


def script(path):
    """A script as a module, whatever its name ends with."""
    spec = importlib.util.spec_from_loader(path.name, importlib.machinery.SourceFileLoader(path.name, str(path)))
    module = importlib.util.module_from_spec(spec)
    spec.loader.exec_module(module)
    return module


linker = script(LINKER)


def same(title, got, wanted):
    """Counts a comparison."""
    note(f"{title}: wanted {wanted!r}, got {got!r}", got == wanted)


def run(command, **given):
    """Runs a command, and keeps what it writes."""
    given = {"env": ENVIRONMENT, "stdin": subprocess.DEVNULL, "capture_output": True, "timeout": 300, **given}
    return subprocess.run([str(word) for word in command], text=True, errors="surrogateescape", **given)


def is_there(*programs):
    """Whether programs are installed. Where one isn't, that is said."""
    missing = [name for name in programs if shutil.which(name) is None and not pathlib.Path(name).exists()]
    if missing:
        print(f"skipped: what needs {' and '.join(map(str, missing))}, which isn't installed")
    return not missing


def rows(name):
    """The rows of a table of this folder: the text before the equals sign, and that after it."""
    for line in (ROOT / "tests" / name).read_text().splitlines():
        if line and not line.startswith("#"):
            given, _, wanted = line.rpartition(" = ")
            yield given, wanted


def rendered(line):
    """A link line as a row of tests/link_lines.txt has it."""
    inputs = [
        "-l" * given.is_library + given.name + "*" * given.is_whole + "?" * given.is_lazy for given in line.inputs
    ]
    said = [note.split(" changes nothing: ")[0].split(": ")[0] for note in line.notes]
    inputs = [name or "''" for name in inputs]
    fields = {
        "output": [line.output] if line.output else [],
        "inputs": inputs,
        "folders": line.folders,
        "words": line.words,
        "asked": line.asked,
        "said": [shlex.quote(word) for word in said],
    }
    return " ; ".join(f"{name} {' '.join(words)}" for name, words in fields.items() if words) or "nothing"


def link_lines():
    """Link lines are read as tests/link_lines.txt says."""
    for given, wanted in rows("link_lines.txt"):
        try:
            got = rendered(link_line.read_line(link_line.expanded(shlex.split(given))))
        except link_line.LineFault as fault:
            got = f"! {fault}"
        same(given, got, wanted)


def words_in_files(folder):
    """Words that stand in files are read as a shell reads them, but for what it expands."""
    cases = [
        ("a b\n c\t d", ["a", "b", "c", "d"]),
        ("'a b' \"c d\"e", ["a b", "c de"]),
        ("a\\ b \\\\ '\\' \"\\\"\"", ["a b", "\\", "\\", '"']),
        ("'' \"\"", ["", ""]),
        ("", []),
    ]
    for text, wanted in cases:
        same(f"words of {text!r}", link_line.quoted_words(text), wanted)
    (folder / "inner").write_text("c d")
    (folder / "outer").write_text(f"b '@{folder}/inner' e")
    same("words in words", link_line.expanded(["a", f"@{folder}/outer", "f"]), ["a", "b", "c", "d", "e", "f"])
    (folder / "inner").write_text(f"@{folder}/outer")
    try:
        link_line.expanded([f"@{folder}/outer"])
        note("a file that names itself is taken", False)
    except link_line.LineFault:
        note("", True)


def objects_of(sources, folder):
    """The names of objects, without the folder and the ends of names."""
    return [source.replace(f"{folder}/", "").replace(".o", "").replace(".a", "") for source in sources]


def linkers():
    """The programs of wasm-ld that are installed."""
    return [name for name in ("wasm-ld", "wasm-ld-19", "wasm-ld-22") if shutil.which(name)]


def check_linkers(given, words, folder, objects):
    """Each wasm-ld that is installed takes the same objects, and puts their functions in the same order."""
    names = list(dict.fromkeys(name for taken in objects for name in taken.object.defined()))
    for program in linkers():
        module = folder / f"{program}.wasm"
        ended = run([program, *words, "--allow-undefined", "--no-gc-sections", "--trace", "-o", module])
        refused = ("archive has no index", "unknown argument", "unknown file type", "not recognized as a valid object")
        if any(text in ended.stderr for text in refused):
            continue
        same(f"{program}: {given}: {ended.stderr}", ended.returncode, 0)
        wanted = sorted(objects_of([taken.source for taken in objects], folder))
        same(f"{program}: {given}", sorted(objects_of(ended.stdout.splitlines(), folder)), wanted)
        if ended.returncode == 0:
            functions = wasm_module.read_module(module.read_bytes()).names.values()
            order = [name for name in dict.fromkeys(functions) if name in names]
            same(f"the order of {program}: {given}", order, [name for name in names if name in order])


def members(folder):
    """Members of archives are taken as tests/members.txt says."""
    is_there("wasm-ld")
    for number, (given, wanted) in enumerate(rows("members.txt")):
        place = folder / f"row{number}"
        place.mkdir()
        words = made_objects.words_of(given, place)
        words = words if any(word.startswith("--entry") for word in words) else ["--no-entry", *words]
        objects = linker.chosen(link_line.read_line(words))
        sources = [word.split("+")[0] for word in wanted.split()]
        same(given, objects_of([taken.source for taken in objects], place), sources)
        for taken, word in zip(objects, wanted.split()):
            names = taken.object.defined()
            note(f"{given}: {taken.source} defines {names}", word.partition("+")[2] in ["", *names])
        check_linkers(given, words, place, objects)


def damaged_archives(folder):
    """An archive that is cut off, or whose index leads nowhere, is reported."""
    words = made_objects.words_of("l.gnu[one(+a) a_member_of_a_long_name(+b)]", folder)
    content = pathlib.Path(words[0]).read_bytes()
    for length in range(len(archives.ARCHIVE) + 1, len(content), 7):
        try:
            archives.read_archive("l.a", content[:length])
            note(f"an archive of {length} bytes is read", content[length : length + 2].startswith(b"\n"))
        except wasm_object.Fault:
            note("", True)
    (folder / "cut.a").write_bytes(content[:-40])
    ended = run([LINKER, "--no-entry", "-o", folder / "out", folder / "cut.a"])
    same("a cut archive", (ended.returncode, "cut off" in ended.stderr), (1, True))


def damaged_objects(folder):
    """What isn't an object, or was one before bytes of it were changed, is read or reported: nothing else happens."""
    chance = random.Random(1)
    library = pathlib.Path(made_objects.words_of("l.gnu[one(+a ?c) a_member_of_a_long_name(+b)]", folder)[0])
    for path in [*sorted(OBJECTS.glob("*.o")), library]:
        whole = path.read_bytes()
        read = wasm_object.read_object if path != library else lambda content: archives.read_archive("l.a", content)
        for _ in range(200):
            content = bytearray(whole)
            for _ in range(chance.randint(1, 4)):
                byte = chance.choice([0, 1, 0x2D, 0x7F, 0x80, 0xFF, chance.randrange(256)])
                content[chance.randrange(len(content))] = byte
            end = chance.choice([len(content), chance.randrange(len(content))])
            try:
                read(bytes(content[:end]))
            except wasm_object.Fault:
                pass
        note("", True)


def stands_in(folder):
    """The script plans what the program plans, by hand, through archives and through files of words."""
    wanted = (EXAMPLES / "counter" / "counter.plan").read_text()
    library = folder / "libparts.a"
    member = ("setup.o", pathlib.Path(COUNTER[1]).read_bytes(), ["step", "chosen"])
    library.write_bytes(made_objects.archive("gnu", [member]))
    (folder / "link").symlink_to(LINKER)
    (folder / "words").write_text(shlex.join(["-o", str(folder / "out"), COUNTER[0], f"-L{folder}", "-lparts"]))
    lines = [
        ["-o", folder / "out", *COUNTER],
        [f"-o{folder}/out", "-m", "wasm32", "-O2", COUNTER[0], f"-L{folder}", "-lparts"],
        [f"@{folder}/words"],
        ["-flavor", "wasm", "-o", folder / "out", COUNTER[0], library],
        ["-o", folder / "out", COUNTER[0], "-L", folder, "-l:libparts.a", "--threads=4"],
    ]
    for words in lines:
        (folder / "out").write_text("what was there")
        ended = run([folder / "link", *COUNTER_WORDS, *words])
        same(f"{words}: {ended.stderr}", (ended.returncode, (folder / "out").read_text()), (0, wanted))
    kept = folder / "out.objects"
    names = [path.name for path in sorted(kept.iterdir())]
    same("what is kept", names, ["0000-counter.o", "0001-setup.o", "objects", "said", "words"])
    for name, source in zip(names, COUNTER):
        same(f"the bytes of {name}", (kept / name).read_bytes(), pathlib.Path(source).read_bytes())
    words = (kept / "words").read_text().splitlines()
    same("the words that are kept", run([PROGRAM, *words], cwd=kept).stdout, wanted)
    same("what is said", (kept / "said").read_text(), ended.stderr)
    same("what changes nothing", ended.stderr, "wildplan-ld: --threads=4 changes nothing: there is one thread\n")
    for word, begin in [("--help", "usage: wildplan-ld"), ("--version", "wildplan-ld 1\n")]:
        ended = run([LINKER, word])
        same(word, (ended.returncode, ended.stdout.startswith(begin)), (0, True))


def statuses(folder):
    """The status is the program's, with what its numbers stand for; a run that fails leaves no listing."""
    bare = made_objects.words_of("main(?lost) ?(+lost)", folder)[0]
    twice = made_objects.words_of("one(+a) two(+b +a)", folder)
    (folder / "text.o").write_text("no object")
    (folder / "mine.objects").mkdir()
    (folder / "mine.objects" / "0000-notes").write_text("mine")
    (folder / "mine.objects" / "objects of mine").write_text("mine")
    out, line = folder / "out", "wildplan-ld: "
    duplicate = [f"object 1 is {twice[1]}", "its symbol 1 is a", f"object 0 is {twice[0]}"]
    cases = [
        (["-o", out, "--no-entry", *twice], 1, duplicate),
        (["-o", out, "--no-entry", "--export=lost", bare], 1, []),
        (["-o", out, "--no-entry", "--no-gc-sections", bare], 1, [f"object 0 is {bare}"]),
        (["-o", out, "--no-entry", folder / "text.o"], 1, ["its symbols aren't read here", "object 0 is "]),
        (["-o", out, "--initial-memory=x", bare], 2, ["word 0 is --initial-memory=x"]),
        (["-o", out], 2, ["no file is given"]),
        ([bare], 2, ["no -o names the file"]),
        (["-o"], 2, ["-o: its value is missing"]),
        (["-o", out, "--shared", bare], 2, ["--shared: not taken"]),
        (["-o", out, "--nonsense", bare], 2, ["--nonsense: no such option is known"]),
        (["-o", out, folder / "none.o"], 3, [f"{folder}/none.o: No such file"]),
        (["-o", out, "-lnone", bare], 3, ["-lnone: there is no libnone.a in the folders of -L"]),
        (["-o", out, f"@{folder}/none"], 3, [f"{folder}/none: No such file"]),
        (["-o", folder / "mine", bare], 4, [f"{folder}/mine.objects isn't a folder of kept objects"]),
        (["-o", folder / "none" / "out", bare], 4, [f"{folder}/none/out.objects: No such file"]),
        (["-o", "/dev/full", *COUNTER_WORDS, *COUNTER], 4, []),
        (["-o", "/dev/null", *COUNTER_WORDS, *COUNTER], 0, []),
    ]
    for words, status, texts in cases:
        out.write_text("what was there")
        ended = run([LINKER, *words])
        note(f"{words}: wanted {status}, got {ended.returncode}: {ended.stderr}", ended.returncode == status)
        for text in texts:
            note(f"{words}: {text!r} isn't in {ended.stderr!r}", text in ended.stderr)
        is_read = out in words and status != 2 and not any(str(word).startswith("@") for word in words)
        note(f"{words}: a listing is left", not is_read or not out.exists())
        strange = [said for said in ended.stderr.splitlines() if not said.startswith((line, "error: "))]
        same(f"{words}: lines that aren't the script's", strange, [])
    nowhere = run([LINKER, "-o", out, *COUNTER_WORDS, *COUNTER], env={**ENVIRONMENT, "WILDPLAN": "/nowhere/wildplan"})
    wanted = (125, f"{line}/nowhere/wildplan: No such file or directory\n")
    same("no program", (nowhere.returncode, nowhere.stderr), wanted)
    same("another's folder", len(list((folder / "mine.objects").iterdir())), 2)
    note("a folder is made beside a device", not pathlib.Path("/dev/null.objects").exists())


def warnings(folder):
    """What the program takes silently, and isn't what is meant, is said."""
    dtors, finished, lost = "__wasm_call_dtors", "no linking section", "buffered output is lost"
    cases = [
        ("main(+a)", []),
        (f"main(+a) more(+{dtors})", [lost]),
        (f"main(+a) l.gnu[more(+{dtors})]", [lost]),
        (f"main(?{dtors}) more(+{dtors})", []),
        (f"main(+a .{dtors})", []),
        (f"main(+a) more(+{dtors}) --export={dtors}", []),
        (f"main(+a) more(+{dtors}) --export-if-defined={dtors}", []),
        (f"main(+a) more(!{dtors}) --export={dtors}", ["constructors run at each call"]),
        (f"main(+a) more(!{dtors}) --export={dtors} --export=__wasm_call_ctors", []),
        (f"main(?__wasm_call_ctors) more(!{dtors}) --export={dtors}", []),
    ]
    for number, (given, wanted) in enumerate(cases):
        place = folder / f"warned{number}"
        place.mkdir()
        ended = run([LINKER, "--no-entry", "-o", place / "out", *made_objects.words_of(given, place)])
        said = ended.stderr.splitlines()
        sound = len(said) == len(wanted) and all(text in line for text, line in zip(wanted, said))
        note(f"{given}: wanted {wanted}, got {ended.returncode}: {said}", sound and ended.returncode == 0)
    ended = run([LINKER, "--no-entry", "-o", folder / "out", EXAMPLES / "bare_module.o", *COUNTER])
    same("a finished module", (ended.returncode, ended.stderr.count(finished), ended.stderr.count("\n")), (0, 1, 1))


def written(listing, objects, module):
    """Writes a module, and validates it by what is installed."""
    ended = run([sys.executable, WRITER, listing, *objects, "-o", module])
    same(f"{listing} is written: {ended.stderr}", ended.returncode, 0)
    if shutil.which("wasm-validate"):
        ended = run(["wasm-validate", "--enable-all", module])
        same(f"{listing} by wasm-validate: {ended.stdout}{ended.stderr}", ended.returncode, 0)
    if shutil.which("node"):
        text = f"process.exit(WebAssembly.validate(require('fs').readFileSync({json.dumps(str(module))})) ? 0 : 1)"
        same(f"{listing} by node", run(["node", "-e", text]).returncode, 0)


def kept_listings():
    """The listings of the repository, with the objects of each: of those of examples/ its page has the commands."""
    listings = {}
    for _, block in documents.blocks_of(EXAMPLES / "README.md"):
        words = re.sub(r"\\\n", "", "\n".join(block)).split("\n")[0].split()
        if words[0] == "./wildplan" and words[-1].endswith(".plan"):
            listings[ROOT / words[-1]] = [ROOT / word for word in words if word.endswith(".o")]
    for listing in [*EXAMPLES.glob("*.plan"), *OBJECTS.glob("*.plan")]:
        alone = listing.with_suffix(".o")
        family = sorted(OBJECTS.glob(f"{listing.stem.partition('_')[0]}_*.o"))
        listings[listing] = [alone] if alone.exists() else family
    return listings


def modules(folder):
    """The listings of examples/ and of tests/objects are written as modules, which engines take."""
    for program in ["node", "wasm-validate"]:
        is_there(program)
    listings = kept_listings()
    every = {*EXAMPLES.rglob("*.plan"), *OBJECTS.glob("*.plan")}
    same("listings without known objects", every - listings.keys(), set())
    for listing, objects in sorted(listings.items()):
        written(listing, objects, folder / "module.wasm")


def wrong_listings(folder):
    """What is no listing, or doesn't fit the objects, is reported."""
    listing = (EXAMPLES / "counter" / "counter.plan").read_text()
    cases = [
        (listing, [COUNTER[1], COUNTER[0]], "the objects aren't those of the listing"),
        (listing, [], "the objects aren't those of the listing"),
        (listing[:-5], COUNTER, "the listing has no end"),
        (listing.replace("fix 0 code 0 9 ", "fix 0 code 0 49 "), COUNTER, "no such field"),
        (listing.replace("fix 0 code 0 9 ", "fix 0 code 9 9 "), COUNTER, "doesn't define what it refers to"),
        (listing.replace("R_WASM_MEMORY_ADDR_LEB", "R_WASM_NEW"), COUNTER, "R_WASM_NEW isn't known"),
        (listing, [folder / "none.o"], "No such file"),
    ]
    for text, objects, wanted in cases:
        (folder / "wrong.plan").write_text(text)
        ended = run([sys.executable, WRITER, folder / "wrong.plan", *objects, "-o", folder / "wrong.wasm"])
        sound = ended.returncode == 1 and wanted in ended.stderr and "Traceback" not in ended.stderr
        note(f"wanted {wanted!r}, got {ended.returncode}: {ended.stderr}", sound)


# Objects, the words of their plan, calls of what it exports, and what they print: `= N` is a result, other lines are
# calls of the host. The values are computed by hand from the sources.
RUNS = [
    # The constructor runs before each call, and sets the step to 5; with `chosen` as 2 it is 10, with 3 it is 1.
    (COUNTER, COUNTER_WORDS,
     [["count"], ["count"], ["store", "chosen", 2], ["count"], ["last"], ["store", "chosen", 3], ["count"]],
     "log_value 5,= 5,log_value 10,= 10,log_value 20,= 20,= 20,log_value 21,= 21"),
    # The square of side 4 is made by the constructor, which the host calls; a virtual function has its area.
    ([str(EXAMPLES / "shapes" / name) for name in ("shapes.o", "square.o")],
     ["--no-entry", *(f"--export={name}" for name in ("area_of", "first_shape", "shapes_made", "__wasm_call_ctors"))],
     [["shapes_made"], ["__wasm_call_ctors"], ["shapes_made"], ["area_of", ["first_shape"]]],
     "= 0,= undefined,= 1,= 16"),
    ([str(EXAMPLES / "rust_counter" / "counter.o")], ["--export=count", "--export=last"],
     [["count"], ["count"], ["last"]], "log_value 5,= 5,log_value 10,= 10,= 10"),
    (["functions.o"], ["--export=add", "--export=four_times"], [["add", 2, 3], ["four_times", 5]], "= 5,= 20"),
    # The first constructor doubles, the second adds one, before each call.
    (["constructors.o"], ["--export=is_ready"], [["is_ready"], ["is_ready"], ["is_ready"]], "= 1,= 3,= 7"),
    # `plus` and `minus` are slots of the table; slot 0 has no function.
    (["pointers.o"], ["--export=apply", "--export=choose"],
     [["choose", 1], ["choose", 0], ["apply", 1, 7, 3], ["apply", 2, 7, 3]], "= 1,= 2,= 10,= 4"),
    (["static_data.o"], ["--export=step"], [["step", 0], ["step", 0], ["step", 3]], "= 7,= 14,= 14"),
    # apply(3, 5) is minus(5).
    (["planned_counter.o", "planned_start.o", "planned_table.o"], ["--entry=_start"],
     [["_start"]], "report -5,= undefined"),
    # The block of a thread has 56 bytes; advance adds marks[i] and the count, which the constructor sets to 7.
    (["threads_shared_library.o", "threads_start.o", "threads_worker.o"],
     ["--shared-memory", "--entry=_start", "--export=begin_thread", "--export=advance"],
     [["begin_thread", 4096], ["advance", 1], ["advance", 2], ["_start"]], "= 56,= 10,= 20,= undefined"),
]


def runs(folder):
    """Modules that are written compute what the sources say."""
    if not is_there("node"):
        return
    for objects, words, calls, wanted in RUNS:
        paths = [OBJECTS / name for name in objects]
        entry = [] if any(word.startswith("--entry") for word in words) else ["--no-entry"]
        ended = run([LINKER, *entry, *words, *paths, "-o", folder / "run.plan"])
        same(f"{objects}: {ended.stderr}", ended.returncode, 0)
        written(folder / "run.plan", [], folder / "run.wasm")
        ended = run(["node", ROOT / "tests" / "run_module.mjs", folder / "run.wasm", json.dumps(calls)])
        same(f"{objects}: {ended.stderr}", ended.stdout.strip().replace("\n", ","), wanted)


def option_rows(fate):
    """The options of which one thing becomes, as docs/LINKER.md lists them: those with one text in a row."""
    rows = {}
    for option in link_line.OPTIONS.values():
        if option.fate == fate:
            dashes = "-" if len(option.name) == 1 else "--"
            rows.setdefault(option.text, []).append(f"`{dashes}{option.name}{'..' * (option.takes == 'prefix')}`")
    return sorted([", ".join(names), text] for text, names in rows.items())


def documented():
    """docs/LINKER.md has every option of the table, which has every option of the program; each refusal of
    docs/ERRORS.md that has the number of an object is explained."""
    page = ROOT / "docs" / "LINKER.md"
    for fate, title in [("idle", "| option | why |"), ("refused", "| option | what to do |")]:
        same(f"the table {title}", documents.table_of(page, title), option_rows(fate))
    paragraphs = [" ".join(text.split()) for text in page.read_text().split("\n\n")]
    for fate, begin in [("passed", "wildplan gets these: "), ("used", "The script itself does what these ask for: ")]:
        names = sorted(name for row in option_rows(fate) for name in row[0].split(", "))
        text = next(text for text in paragraphs if text.startswith(begin)).removeprefix(begin).split(". ")[0]
        same(begin, sorted(text.removesuffix(".").split(", ")), names)
    code = (ROOT / "crates" / "wl_words" / "src" / "options.rt").read_text()
    unknown = set(re.findall(r'name: "([\w-]+)"', code)) - link_line.OPTIONS.keys()
    same("options of the program that aren't known", unknown, set())
    reported = re.findall(r"`error: (\w+)([^`]*)`", (ROOT / "docs" / "ERRORS.md").read_text())
    for kind, rest in reported:
        letters = ["O" if word in ("O", "P") else "-" for word in rest.split() if word != ".."]
        if "O" in letters and "O" not in linker.REFUSALS.get(kind, "").replace("S", "-"):
            note(f"{kind}: its objects aren't explained", False)
        elif "O" in letters:
            explained = linker.REFUSALS[kind].replace("S", "-") * len(letters)
            same(f"the objects of {kind}", "".join(letters).rstrip("-"), explained[: len(letters)].rstrip("-"))


def every_option():
    """Each option that a wasm-ld lists in its help is in the table, but for what it prints of itself."""
    for program in linkers():
        options = re.findall(r"(?m)^  -{1,2}([A-Za-z][\w-]*)", run([program, "--help"]).stdout)
        known = {name for name in options if name in link_line.OPTIONS or prefix_of(name)}
        same(f"options of {program} that aren't known", set(options) - known, {"help", "version"})


def prefix_of(name):
    """Whether an option begins with a name of the table that stands for all such."""
    return any(option.takes == "prefix" and name.startswith(option.name) for option in link_line.OPTIONS.values())


def installed():
    """What the programs of docs/LINKER.md need and isn't there, by the heading of each."""
    libraries = ["/usr/lib/wasm32-wasi/libc.a"]
    if shutil.which("clang"):
        libraries.append(run(["clang", "--target=wasm32-wasi", "--print-libgcc-file-name"]).stdout.strip())
    for_c = [name for name in ["clang", "node"] if not shutil.which(name)]
    for_c += [path for path in libraries if not pathlib.Path(path).is_file()]
    for_c += ["a PATH without wasm-opt, which clang would run on the listing"] * bool(shutil.which("wasm-opt"))
    for_stb = [*for_c, *(name for name in ["/usr/include/stb/stb_image.h"] if not pathlib.Path(name).is_file())]
    source = "the source of zlib, whose folder the environment variable ZLIB_SOURCE names"
    for_zlib = for_c if os.environ.get("ZLIB_SOURCE") else [*for_c, source]
    for_rust = [] if rust() else ["rustc with std for wasm32-wasi"]
    for_cargo = for_rust or ([] if cargo() else ["cargo beside rustc"])
    return {"Hello world in C": for_c, "A library of C": for_stb, "zlib": for_zlib, "A program in Rust": for_rust,
            "A program in Rust, by cargo": for_cargo}


def rust():
    """A rustc and its target for WASI, where one is installed with `std`, and Node is."""
    for program in ["rustc", "/usr/bin/rustc"]:
        for target in ["wasm32-wasi", "wasm32-wasip1"]:
            if shutil.which(program) and shutil.which("node"):
                ended = run([program, "--print", "target-libdir", "--target", target])
                if ended.returncode == 0 and pathlib.Path(ended.stdout.strip()).is_dir():
                    return program, target
    return None


def cargo():
    """The cargo beside that rustc, or none."""
    beside = pathlib.Path(shutil.which(rust()[0])).parent / "cargo"
    return str(beside) if beside.exists() else None


def programs(folder):
    """The commands of docs/LINKER.md plan, write and run what it says, where what they need is installed."""
    for name in ["tools", "examples"]:
        (folder / name).symlink_to(ROOT / name)
    if os.environ.get("ZLIB_SOURCE"):
        (folder / "zlib-1.2.13.dfsg").symlink_to(pathlib.Path(os.environ["ZLIB_SOURCE"]).resolve())
    page = (ROOT / "docs" / "LINKER.md").read_text()
    for heading, missing in installed().items():
        if missing:
            print(f"skipped: {heading}: it needs {', '.join(missing)}")
            continue
        text = page.split(f"\n## {heading}\n")[1].split("\n## ")[0]
        commands = re.sub("(?m)^ +", "", re.search(r"(?:    .*\n)+", text)[0])
        environment = ENVIRONMENT
        if heading.startswith("A program in Rust"):
            program, target = rust()
            commands = commands.replace("rustc ", f"{program} ", 1).replace("cargo build", f"{cargo()} build --offline")
            commands = commands.replace("wasm32-wasi", target).replace("WASM32_WASI", target.replace("-", "_").upper())
            environment = {**ENVIRONMENT, "RUSTC": program}
        ended = run(["sh", "-ec", commands], cwd=folder, env=environment)
        wanted = re.search(r"prints\s+`([^`]+)`", text)[1]
        same(f"{heading}: {ended.stderr}", (ended.returncode, ended.stdout.strip()), (0, wanted))


def main():
    documented()
    every_option()
    link_lines()
    with tempfile.TemporaryDirectory() as name:
        folder = pathlib.Path(name).resolve()
        words_in_files(folder)
        members(folder)
        damaged_archives(folder)
        damaged_objects(folder)
        stands_in(folder)
        statuses(folder)
        warnings(folder)
        modules(folder)
        wrong_listings(folder)
        runs(folder)
        programs(folder)
    counts.end()


if __name__ == "__main__":
    main()
