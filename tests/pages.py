#!/usr/bin/env python3
"""Holds every page against the repository: its links, names, paths, commands and listings.

    tests/pages.py              sees what can be seen without the program
    tests/pages.py PROGRAM      also runs the commands of the pages, and compares what they print

The last line is `N passed, M failed`."""

import pathlib
import re
import shlex
import subprocess
import sys

ROOT = pathlib.Path(__file__).resolve().parent.parent
sys.path.insert(0, str(ROOT / "tools"))

import counting  # noqa: E402
import documents  # noqa: E402
import link_line  # noqa: E402
import listing  # noqa: E402
import make_pages  # noqa: E402

DOCS = documents.DOCS
PROGRAM = pathlib.Path(sys.argv[1]).resolve() if sys.argv[1:] else None
# What holds names that pages may use, beside the pages themselves.
SOURCES = ["crates/*/src/**/*", "crates/*/specs/**/*", "crates/*/proofs/**/*", "crates/*/must-fail/*", "tests/**/*",
           "tools/*", "examples/**/*", ".ci/*", "wildplan", "crates.txt", "Makefile", "HANDLES"]
# Names of others: conventions of toolchains, and what stands for any name in a rule.
FOREIGN = {"__indirect_function_table", "__wasm_call_dtors", "basic_streambuf", "x_at", "xN", "WASM32_WASIP1"}
# Programs whose commands stand on pages, but for those of the repository.
TOOLS = {"ar", "apt-get", "c++filt", "cargo", "cat", "clang", "clang++", "curl", "git", "llvm-nm", "llvm-objcopy",
         "llvm-readobj", "man", "node", "printf", "rattle", "rustc", "rustup", "ulimit", "wasm-ld", "wasm-objdump",
         "wasm-validate"}
# The calls of rt.
RT = {"check", "ci", "doc", "expand", "fmt", "lemma", "lib", "must-fail", "plant", "run", "test", "tidy", "try",
      "version"}
# Options of others than wildplan and wasm-ld, and words that a page shows as unknown.
OTHERS = {"--anew", "--check", "--incremental", "--jobs", "--only", "--self", "--symbols", "--target", "--test", "-O1", "-c",
          "-fvisibility",
          "-fno-exceptions", "-fno-rtti", "-fprofile-instr-generate", "-fwasm-exceptions", "-matomics", "-mcpu",
          "-pthread", "-v", "-x"}
SHOWN_UNKNOWN = {"--e", "--static", "-a", "-emain", "-entry", "-zstack-size"}
# Options of compilers and of tools/wildplan-ld itself, which docs/LINKER.md shows.
LINKER_WORDS = {"-C", "-fuse-ld", "--help", "--ld-path", "--no-wasm-opt", "--version"}

counts = counting.Counts()


def note(page, title, sound):
    """Counts a comparison of a page."""
    counts.note(f"{page.relative_to(ROOT)}: {title}", sound)


def sources():
    """The files of the repository that hold names, but for its pages."""
    for pattern in SOURCES:
        for path in ROOT.glob(pattern):
            if path.is_file() and path.suffix not in (".md", ".o", ".pyc") and path != pathlib.Path(__file__).resolve():
                yield path


def known_names():
    """Every word of the sources, and the names of their files."""
    names = set(FOREIGN)
    for path in sources():
        names |= set(re.findall(r"[A-Za-z_]\w*", path.read_text(errors="replace")))
        names |= {path.stem, *path.relative_to(ROOT).parts}
    return names


def looks_like_code(word):
    """Whether a word is a name of code, and no English word."""
    return "_" in word.strip("_") or re.search(r"[a-z][A-Z]", word) is not None


def names(page, known):
    """Names of code on a page stand in the sources."""
    for span in documents.spans_of(page):
        for word in re.findall(r"[A-Za-z_]\w*", span):
            if looks_like_code(word) and not word.endswith("_NAME"):
                note(page, f"the name {word} stands nowhere", word in known)


def is_path(span):
    """Whether a piece of code names a file or a folder of the repository."""
    ends = r"[\w.-]+\.(?:md|py|txt|rt|antt|sh|plan|hex|c|edit|yml)"
    found = re.fullmatch(rf"(?:\./)?(?:[\w.-]+/)+[\w.*-]*|{ends}", span)
    return found is not None and span != "./" and not span.startswith("./-")


def paths_of(repository):
    """The paths of the repository, each as `/a/b/c`."""
    skipped = {".git", "out", "__pycache__"}
    paths = [path.relative_to(repository) for path in repository.rglob("*")]
    return ["/" + "/".join(path.parts) for path in paths if not skipped & set(path.parts)]


def paths(page, every):
    """Paths on a page are the ends of paths of the repository; a part in capitals stands for any name."""
    for span in documents.spans_of(page):
        if is_path(span) and not span.startswith("NAME."):
            parts = [re.escape(part).replace(r"\*", "[^/]*") for part in span.strip("./").split("/")]
            parts = ["[^/]*" if re.fullmatch("[A-Z]+", part) else part.replace("NAME", "[^/]*") for part in parts]
            pattern = re.compile(".*/[.]?" + "/".join(parts) + r"(?:\.(?:antt|rt))?")
            is_page = span.endswith(".md") and span[:-3].isupper()
            found = (DOCS / span).exists() or (ROOT / span).exists() if is_page else any(map(pattern.fullmatch, every))
            note(page, f"the path {span} is none", found)


def links(page):
    """Links lead to files of the repository, and to headings of them; those to other hosts are whole."""
    for target in documents.links_of(page):
        place, _, anchor = target.partition("#")
        if target.startswith(("http://", "https://")):
            note(page, f"the link {target}", re.fullmatch(r"https://[\w.-]+(?:/[\w./~%@+-]*)?(?:#[\w.-]+)?", target))
            continue
        file = (page.parent / place) if place else page
        note(page, f"the link {target} leads nowhere", file.exists())
        if anchor and file.exists():
            headings = [re.sub(r"[^\w -]", "", heading.lower()) for heading in documents.headings_of(file)]
            anchors = [heading.replace(" ", "-") for heading in headings]
            note(page, f"the link {target} leads to no heading", anchor in anchors)


def sections(page):
    """Where a page names a section of another one, or of itself, there is one."""
    text = " ".join(documents.paragraphs_of(page))
    named = re.findall(r'`(?:docs/)?([\w-]+\.md)`(?:,| and|) "([^"`]+)"', text)
    named += [("README.md", heading) for heading in re.findall(r'README, "([^"]+)"', text)]
    named += [("", heading) for heading in re.findall(r'\((?:above|below), "([^"]+)"', text)]
    for name, heading in named:
        other = page if not name else DOCS / name if (DOCS / name).exists() else ROOT / name
        note(page, f'no section "{heading}" in {name}', other.exists() and heading in documents.headings_of(other))


def options():
    """The options that docs/OPTIONS.md lists, and what `main` answers by itself."""
    rows = documents.table_of(DOCS / "OPTIONS.md", documents.OPTIONS_TITLE)
    return {name for row in rows for name in re.findall(r"`(-[\w-]+)`", row[0])} | {"--help", "--version"}


def option_names(page, known):
    """Options on a page are those of the program, or of a tool; docs/WASM_LD.md and docs/ERRORS.md have wasm-ld's, and
    docs/LINKER.md those of tools/wildplan-ld."""
    if page.name in ("WASM_LD.md", "ERRORS.md"):
        return
    if page.name == "LINKER.md":
        known = known | LINKER_WORDS | {"-" * min(len(name), 2) + name for name in link_line.OPTIONS}
    for span in documents.spans_of(page):
        for word in re.findall(r"(?<![\w-])--?[A-Za-z][\w-]*", span):
            note(page, f"the option {word}", word in known | OTHERS | SHOWN_UNKNOWN)


def refusals(page, lines, reasons):
    """Lines of errors on a page have the names of docs/ERRORS.md, and reasons those of docs/FORMAT.md."""
    for span in documents.spans_of(page):
        found = re.match(r"error: (\w+)", span)
        if found and span.count(" ") and not page.name.startswith("WASM"):
            note(page, f"the line {span}", found[1] in lines)
        found = re.match(r"(?:error: )?(Malformed|Unsupported) (?:\.\.|\d+|O) (\w+)", span)
        if found and not found[2].isupper():
            note(page, f"the reason {span}", found[2] in reasons)


def refusal_names():
    """The names of refusals, of docs/ERRORS.md, and those of reasons, of docs/FORMAT.md and docs/ERRORS.md."""
    text = (DOCS / "ERRORS.md").read_text()
    kinds = ("`Malformed`", "`Unsupported`")
    tables = [rows for title, rows in documents.tables_of(DOCS / "FORMAT.md") if title[0] in kinds]
    reasons = {name for rows in tables for row in rows for name in row[0].split(", ")}
    return set(re.findall(r"`error: (\w+)", text)), reasons | set(re.findall(r"`error: Unsupported O (\w+)`", text))


def commands_of(block):
    """The commands of a block: lines whose first word is a program, with those that a backslash continues."""
    lines = re.sub(r"\\\n\s*", "", "\n".join(block)).splitlines()
    return [line for line in lines if is_command(line)]


def is_command(line):
    """Whether a text is a command. A page shows a program alone by its name, which is none."""
    first, _, rest = line.strip().partition(" ")
    if first in ("./wildplan", "wildplan"):
        return bool(rest) and not re.match(r"\d", rest)
    if re.fullmatch(r"(?:tests|tools|examples)/[\w/-]+(?:\.py|\.sh)?", first):
        return bool(rest)
    return first in TOOLS | {"rt", "python3", "make", ".ci/run"} and (bool(rest) or "/" in first)


def targets():
    """The targets of the Makefile."""
    return set(re.findall(r"^([\w-]+):", (ROOT / "Makefile").read_text(), re.M))


def command(page, line):
    """The words of a command exist: the script, the target, the option, the file."""
    first, *rest = re.sub(r"\s[|<>2].*|\$\(.*", "", line.strip()).split()
    if first == "python3":
        note(page, f"no script in {line}", bool(rest) and (ROOT / rest[0]).is_file())
    elif first == "make":
        note(page, f"no target in {line}", all(word in targets() or "=" in word for word in rest))
    elif first == "rt":
        note(page, f"no such call: {line}", rest[0] in RT)
    elif "/" in first:
        note(page, f"no program {first}", (ROOT / first).is_file())
    if first in ("./wildplan", "wildplan"):
        names_given = {word.split("=")[0] for word in rest if word.startswith("-") and len(word) > 1}
        doubled = {word if len(word) == 2 or word.startswith("--") else "-" + word for word in names_given}
        note(page, f"an unknown option: {line}", doubled <= options())
        for name in map(file_of, rest):
            if name.startswith(("examples/", "tests/", "tools/")):
                note(page, f"no file {name}", (ROOT / name).exists())


def file_of(word):
    """The file that a word names, where it names one: in the value of --replace it follows a number and a colon."""
    return re.sub(r"^(?:--replace=)?\d+:", "", word)


def ended_by(line):
    """How a command of wildplan ends, or None where its files aren't in the repository."""
    words = shlex.split(line)[1:]
    objects = [name for name in map(file_of, words) if name.endswith(".o")]
    if PROGRAM is None or not objects and "--generate" not in words or set("|$<>") & set(line):
        return None
    if not all((ROOT / name).is_file() for name in objects):
        return None
    return subprocess.run([PROGRAM, *words], cwd=ROOT, stdin=subprocess.DEVNULL, capture_output=True, timeout=120)


def printed_by(line):
    """What a command prints that writes a listing, or None. One that ends with `| diff - FILE` has to print that file."""
    text, _, kept = line.partition(" | diff - ")
    ended = ended_by(text)
    if ended is None:
        return None
    if kept and (ROOT / kept).read_bytes() != ended.stdout:
        return f"another listing than {kept}"
    return (ended.stdout + ended.stderr).decode() if ended.returncode == 0 else f"status {ended.returncode}"


def transcript(page, number, block):
    """A block of commands after a dollar sign, each with all that it prints. A backslash at its end continues a line."""
    for part in re.split(r"(?m)^\$ ", re.sub(r"\\\n *", "", "\n".join(block)))[1:]:
        line, *shown = part.rstrip("\n").split("\n")
        command(page, line)
        ended = ended_by(line)
        printed = shown if ended is None else (ended.stdout + ended.stderr).decode().splitlines()
        note(page, f"{number}: {line} prints {printed}", printed == shown)


def is_listing(block):
    """Whether a block is lines of a listing, or looks like that by its first one."""
    return block[0] == f"wildplan {listing.VERSION}" or listing.read_line(block[0]) is not None


def blocks(page):
    """Commands in the blocks of a page run, and lines of listings are those that the command before them prints."""
    printed = None
    for number, block in documents.blocks_of(page):
        if block[0].startswith("$ "):
            transcript(page, number, block)
            continue
        for line in commands_of(block):
            command(page, line)
            if line.startswith(("./wildplan ", "wildplan ")):
                printed = printed_by(line)
                note(page, f"{number}: {line}: {printed}", printed is None or printed.startswith("wildplan 1\n"))
        if is_listing(block):
            unread = [line for line in block if listing.read_line(line) is None and line not in ("wildplan 1", "end")]
            note(page, f"{number}: no lines of a listing: {unread}", not unread)
            if printed is not None:
                shown = [line for line in printed.splitlines() if line in block]
                note(page, f"{number}: the command prints other lines than {block}", shown == block)


def spans(page):
    """Commands in the text of a page, and lines of a listing."""
    words = {kind.form.split()[0] for kind in listing.KINDS}
    forms = {re.sub(r"\{\w+\}", "_", kind.form) for kind in listing.KINDS}
    for span in documents.spans_of(page):
        if is_command(span):
            command(page, span)
        first, _, rest = span.partition(" ")
        if first in words and rest:
            reported = re.sub(r"\b[A-Z]+\b(,\.\.)?", "_", span.rstrip())
            is_form = any(form.startswith(reported) for form in forms)
            note(page, f"no line of a listing: {span}", is_form or listing.read_line(span) is not None)


def man_page():
    """The man page names pages that there are, and its examples are commands."""
    page = ROOT / "man" / "wildplan.1"
    for line, _ in make_pages.EXAMPLES:
        note(page, f"no command: {line}", is_command(line))
        command(page, line)
    for name in set(re.findall(r"\b([A-Z_]+\.md)\b", page.read_text())):
        note(page, f"no page {name}", (DOCS / name).exists())


def main():
    known, every = known_names(), paths_of(ROOT)
    lines, reasons = refusal_names()
    for page in documents.pages():
        names(page, known)
        paths(page, every)
        links(page)
        sections(page)
        option_names(page, options())
        refusals(page, lines, reasons)
        blocks(page)
        spans(page)
    man_page()
    counts.end()


if __name__ == "__main__":
    main()
