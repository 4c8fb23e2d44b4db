#!/usr/bin/env python3
"""Makes the man page and the completions from the tables of docs/OPTIONS.md, docs/LISTING.md and docs/ERRORS.md.

    tools/make_pages.py            writes man/wildplan.1 and the files of completions/
    tools/make_pages.py --check    writes nothing, and says of each of them whether it is what the tables say

The last line of a check is `N passed, M failed`."""

import re
import sys
import textwrap

from documents import DOCS, OPTIONS_TITLE, ROOT, table_of, tables_of

MAN = ROOT / "man" / "wildplan.1"
BASH = ROOT / "completions" / "wildplan.bash"
ZSH = ROOT / "completions" / "_wildplan"
FISH = ROOT / "completions" / "wildplan.fish"
MADE = "made by tools/make_pages.py from the tables of docs/"

INTRODUCTION = [
    "wildplan plans the linking of WebAssembly. It reads relocatable wasm32 objects, as clang and rustc make them, and "
    "prints what the linked module holds and where everything stands. It writes no module and no file.",
    "Each argument that doesn't begin with a dash names an object. Objects are numbered from 0, in their order. The "
    "plan goes to standard output, and one line that says why there is none to standard error.",
]
OPTIONS_TEXT = "Options and objects stand in any order. A name of more than one letter takes one dash or two. A " \
    "value follows an equals sign, or is the next argument; one in brackets may be left out, and follows an equals " \
    "sign only. Numbers are decimal."
DIAGNOSTICS_TEXT = "O and P are numbers of objects, S and T of symbols, and N of an argument, all counted from 0."
EXAMPLES = [
    ("wildplan --no-entry --export run a.o b.o", "Plan a module of two objects that exports the function run."),
    ("wildplan --no-entry --export run a.o b.o | diff -u plan.txt -", "Compare the plan with one that was kept."),
    ("wildplan --no-entry a.o 2>&1 | c++filt", "Show the names of C++ as they stand in the source."),
]
SEE_ALSO = "clang(1), rustc(1), wasm-ld(1), c++filt(1), wasm-objdump(1). The pages of docs/ have more: OPTIONS.md, " \
    "LISTING.md, ERRORS.md, FORMAT.md, PLANNING.md, WASM_LD.md and VERSIONS.md."


class Option:
    """A row of the table of options."""

    def __init__(self, names, value, what, again, default):
        self.names = re.findall(r"`(-[\w-]+)`", names)
        self.value, self.what, self.again, self.default = value, what, again, default
        self.is_repeated = again.startswith("all count")
        self.is_optional = value.startswith("[")
        self.is_file = value == "file" or names == "`-o`"
        self.keyword = (re.findall(r"`([\w-]+=)`", value) or [""])[0]
        self.placeholder = self.placeholder_of(value)

    @staticmethod
    def placeholder_of(value):
        """What stands for the value where the option is shown: nothing where it takes none."""
        if value == "none":
            return ""
        if shown := re.match(r"`([A-Z:]+)`", value):
            return shown[1]
        if "number" in value:
            return "N"
        return value.strip("[]").split()[0].upper()

    def shown(self, name):
        """The option with its value, as it is written."""
        if not self.placeholder:
            return name
        value = self.keyword + self.placeholder
        if self.is_optional:
            return f"{name}[={value}]"
        return f"{name}={value}" if name.startswith("--") else f"{name} {value}"

    def summary(self):
        """What the option does, in one short line without marks."""
        text = self.what.replace(" (below)", "").replace("`", "").split(". ")[0]
        front = text.split(": ")[0]
        return (front if len(front) > 20 else text).rstrip(".")


def options():
    """The options, in the order of the page."""
    return [Option(*row) for row in table_of(DOCS / "OPTIONS.md", OPTIONS_TITLE)]


def rows_under(page, *first):
    """The rows of each table of a page whose first row begins with these cells."""
    return [rows for title, rows in tables_of(DOCS / page) if title[: len(first)] == list(first)]


# The man page.


def roff(text):
    """A text in the language of man pages: code in bold, and no mark of that language left."""
    text = text.replace("\\", "\\e").replace("-", "\\-")
    return re.sub(r"`([^`]*)`", r"\\fB\1\\fR", text)


def paragraph(text):
    """The lines of a text in that language: each sentence begins a line, and none is a request."""
    lines = []
    for part in re.split(r"(?<=[.:]) (?=[A-Z])", roff(text)):
        lines += textwrap.wrap(part, 79, break_on_hyphens=False, break_long_words=False)
    return [re.sub(r"^([.'])", r"\\&\1", line) for line in lines]


def sentence(text):
    """A text that ends with a full stop, its first letter a capital one."""
    text = text[:1].upper() + text[1:]
    return text if text.endswith((".", ":")) else text + "."


def tagged(tag, *texts):
    """An entry of a list: a tag, and the texts below it."""
    lines = [".TP", roff(tag)]
    return lines + [line for text in texts if text for line in paragraph(sentence(text))]


def man_options():
    """The section of the options."""
    lines = [".SH OPTIONS", *paragraph(OPTIONS_TEXT)]
    for option in options():
        tag = ", ".join(f"`{option.shown(name)}`" for name in option.names)
        value = "" if option.value in ("none", "name", "names", "[name]") else f"The value is {option.value}"
        default = f"Without it: {option.default}" if option.default else ""
        again = f"Given more than once: {option.again}" if option.again != "once is enough" else ""
        lines += tagged(tag, option.what.replace(" (below)", ""), value, default, again)
    return lines


def man_listing():
    """The section of the lines of a listing."""
    lines = [".SH LISTING", "Standard output is lines of these kinds, in this order:"]
    for line, meaning in rows_under("LISTING.md", "line", "stands for")[0]:
        lines += tagged(line, meaning)
    return lines


def man_statuses():
    """The section of the statuses."""
    lines = [".SH EXIT STATUS"]
    for status, output, error in rows_under("ERRORS.md", "status")[0]:
        lines += tagged(f"`{status}`", f"Standard output: {output}", f"Standard error: {error}")
    return lines


def man_errors():
    """The section of the lines on standard error."""
    lines = [".SH DIAGNOSTICS", *paragraph(DIAGNOSTICS_TEXT)]
    for rows in rows_under("ERRORS.md", "line", "cause", "way out"):
        for line, cause, way_out, *_ in rows:
            lines += tagged(line, cause, f"Way out: {way_out}" if way_out else "")
    return lines


def version():
    """The version and its day, as the head of CHANGELOG.md says."""
    found = re.search(r"^## (\S+), (\d{4}-\d\d-\d\d)$", (ROOT / "CHANGELOG.md").read_text(), re.M)
    return found[1], found[2]


def man_page():
    """The man page."""
    number, day = version()
    lines = [f'.\\" This page is {MADE}', f'.TH WILDPLAN 1 "{day}" "wildplan {number}" "User Commands"']
    lines += [".SH NAME", r"wildplan \- plan the linking of WebAssembly objects"]
    lines += [".SH SYNOPSIS", r".B wildplan", r"[\fIoption\fR | \fIobject\fR]..."]
    lines += [".SH DESCRIPTION", *paragraph(INTRODUCTION[0]), ".PP", *paragraph(INTRODUCTION[1])]
    lines += man_options() + man_listing() + man_statuses() + man_errors()
    lines += [".SH EXAMPLES"]
    for command, what in EXAMPLES:
        lines += tagged(f"`{command}`", what)
    lines += [".SH SEE ALSO", *paragraph(SEE_ALSO)]
    lines += [".SH COPYRIGHT", "Copyright 2026 the wildplan authors. MIT or Apache License 2.0."]
    return "\n".join(lines) + "\n"


# The completions.


def quoted(text):
    """A text in single quotes, as shells read it."""
    return "'" + text.replace("'", "'\\''") + "'"


def bash_completions():
    """The completions for bash."""
    names = [name for option in options() for name in option.names]
    values = {name: option for option in options() for name in option.names if option.placeholder}
    needed = [name for name, option in values.items() if not option.is_optional]
    listed = sorted(name + ("=" if name in needed and name.startswith("--") else "") for name in names)
    keywords = [f"        {name}) mapfile -t COMPREPLY < <(compgen -W '{option.keyword}' -- \"$word\"); return ;;"
                for name, option in values.items() if option.keyword]
    free = [name for name in needed if not values[name].keyword and not values[name].is_file]
    return "\n".join([
        f"# Completions for bash, {MADE}",
        "_wildplan() {",
        "    local word=${COMP_WORDS[COMP_CWORD]} before=${COMP_WORDS[COMP_CWORD - 1]}",
        "    COMPREPLY=()",
        "    case $before in",
        *keywords,
        f"        {' | '.join(free)} | =) return ;;",
        "    esac",
        "    if [[ $word == -* ]]; then",
        f"        mapfile -t COMPREPLY < <(compgen -W '{' '.join(listed)}' -- \"$word\")",
        "        [[ ${COMPREPLY[0]} == *= ]] && compopt -o nospace",
        "    elif [[ $word != = ]]; then",
        "        mapfile -t COMPREPLY < <(compgen -f -- \"$word\")",
        "        compopt -o filenames",
        "    fi",
        "} 2>/dev/null",
        "complete -F _wildplan wildplan",
    ]) + "\n"


def zsh_spec(option, name):
    """What `_arguments` of zsh is given for an option under one of its names."""
    marks = str.maketrans({":": "\\:", "[": "\\[", "]": "\\]"})
    front = "*" if option.is_repeated else ""
    if not option.placeholder:
        return quoted(f"{front}{name}[{option.summary().translate(marks)}]")
    action = "_files" if option.is_file else f"({option.keyword})" if option.keyword else " "
    joint = "=-" if option.is_optional else "=" if name.startswith("--") else ""
    colons = "::" if option.is_optional else ":"
    value = option.placeholder.lower().translate(marks)
    return quoted(f"{front}{name}{joint}[{option.summary().translate(marks)}]{colons}{value}:{action}")


def zsh_completions():
    """The completions for zsh."""
    specs = [zsh_spec(option, name) for option in options() for name in option.names]
    lines = ["#compdef wildplan", f"# Completions for zsh, {MADE}", "_arguments \\"]
    return "\n".join([*lines, *(f"    {spec} \\" for spec in specs), "    '*:object:_files'"]) + "\n"


def fish_line(option, name):
    """The line for fish of an option under one of its names."""
    flag = f"-l {name[2:]}" if name.startswith("--") else f"-s {name[1:]}"
    takes = "" if not option.placeholder or option.is_optional else " -r" if option.is_file else " -x"
    values = f" -a {quoted(option.keyword)}" if option.keyword else ""
    return f"complete -c wildplan {flag}{takes}{values} -d {quoted(option.summary())}"


def fish_completions():
    """The completions for fish."""
    lines = [fish_line(option, name) for option in options() for name in option.names]
    return "\n".join([f"# Completions for fish, {MADE}", *lines]) + "\n"


def main():
    made = {MAN: man_page(), BASH: bash_completions(), ZSH: zsh_completions(), FISH: fish_completions()}
    if sys.argv[1:] == ["--check"]:
        stale = [path for path, text in made.items() if not path.exists() or path.read_text() != text]
        for path in stale:
            print(f"{path.relative_to(ROOT)} isn't what the tables say: run tools/make_pages.py")
        print(f"{len(made) - len(stale)} passed, {len(stale)} failed")
        sys.exit(1 if stale else 0)
    if sys.argv[1:]:
        sys.exit(__doc__)
    for path, text in made.items():
        path.parent.mkdir(exist_ok=True)
        path.write_text(text)


if __name__ == "__main__":
    main()
