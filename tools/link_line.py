"""Reads a link line, as clang and rustc write it for wasm-ld: what wildplan gets, and what is done before that."""

from __future__ import annotations

import dataclasses
import pathlib

# How an option takes its value: not at all; as the next word or after an equals sign; after an equals sign alone; or
# joined to its letter, or as the next word. Options of one letter have one dash, others one or two.
NONE, VALUE, OPTIONAL, JOINED = "none", "value", "optional", "joined"
# What becomes of an option: wildplan gets it; it is used here; it changes nothing; it is refused.
PASSED, USED, IDLE, REFUSED = "passed", "used", "idle", "refused"

# The name of an option, how it takes its value, what becomes of it, and what is said of that.
TABLE = """
allow-undefined | none | passed |
check-features | none | passed |
E | none | passed |
e | joined | passed |
entry | value | passed |
export | value | passed |
export-dynamic | none | passed |
export-if-defined | value | passed |
export-memory | optional | passed |
extra-features | value | passed |
gc-sections | none | passed |
import-memory | optional | passed |
import-undefined | none | passed | taken as --allow-undefined: data that nothing defines has the address 0
initial-memory | value | passed |
keep-section | value | passed |
map | none | passed |
max-memory | value | passed |
no-check-features | none | passed |
no-entry | none | passed |
no-gc-sections | none | passed |
no-stack-first | none | passed |
run | value | passed |
S | none | passed |
s | none | passed |
shared-memory | none | passed |
stack-first | none | passed |
strip-all | none | passed |
strip-debug | none | passed |
why | none | passed |
z | joined | passed |
end-lib | none | used |
L | joined | used |
l | joined | used |
library | value | used |
library-path | value | used |
no-export-dynamic | none | used |
no-whole-archive | none | used |
o | joined | used |
rsp-quoting | value | used |
start-lib | none | used |
t | none | used |
trace | none | used |
u | joined | used |
undefined | value | used |
whole-archive | none | used |
( | none | idle | members of archives are taken whatever their order
) | none | idle | members of archives are taken whatever their order
as-needed | none | idle | there are no shared libraries
Bdynamic | none | idle | there are no shared libraries
Bstatic | none | idle | there are no shared libraries
Bsymbolic | none | idle | there are no shared libraries
build-id | optional | idle | a plan has no build id
call_shared | none | idle | there are no shared libraries
color-diagnostics | optional | idle | no line has a colour
compress-relocations | none | idle | fields keep their size
demangle | none | idle | names are never demangled
dn | none | idle | there are no shared libraries
dy | none | idle | there are no shared libraries
eh-frame-hdr | none | idle | a module has no such thing
end-group | none | idle | members of archives are taken whatever their order
error-limit | value | idle | one fault is reported
error-unresolved-symbols | none | idle | undefined names are refused anyway
fatal-warnings | none | idle | a warning never changes the status
flavor | value | idle | there is one kind of plan
lto- | prefix | idle | no bitcode is read
M | none | idle | no map with names is written; the listing says where things are
m | joined | idle | all is wasm32
Map | value | idle | no map with names is written; the listing says where things are
merge-data-segments | none | idle | each segment stays one
mllvm | value | idle | no code is generated
no-allow-multiple-definition | none | idle | two strong definitions of one name are never taken
no-as-needed | none | idle | there are no shared libraries
no-color-diagnostics | none | idle | no line has a colour
no-demangle | none | idle | names are never demangled
no-fatal-warnings | none | idle | a warning never changes the status
no-lto- | prefix | idle | no bitcode is read
no-merge-data-segments | none | idle | each segment stays one
no-pie | none | idle | addresses are final anyway
no-print-gc-sections | none | idle | what is dropped isn't listed
no-shlib-sigcheck | none | idle | there are no shared libraries
non_shared | none | idle | there are no shared libraries
O | joined | idle | nothing is optimised
print-gc-sections | none | idle | what is dropped isn't listed
print-map | none | idle | no map with names is written; the listing says where things are
reproduce | value | idle | the objects are kept beside the listing
rpath | value | idle | there are no shared libraries
save-temps | none | idle | the objects are kept beside the listing
soname | value | idle | there are no shared libraries
start-group | none | idle | members of archives are taken whatever their order
static | none | idle | there are no shared libraries
thinlto- | prefix | idle | no bitcode is read
threads | value | idle | there is one thread
trace-symbol | value | idle | no symbol is traced
V | none | idle | there is nothing more to say
v | none | idle | there is nothing more to say
verbose | none | idle | there is nothing more to say
why-extract | value | idle | --trace names the members that are taken
y | joined | idle | no symbol is traced
allow-multiple-definition | none | refused | make all definitions of a name but one weak
allow-undefined-file | value | refused | give --allow-undefined, which is for all names at once
check | value | refused | give it to wildplan itself, with the words and in the folder of the kept objects
emit-relocs | none | refused | leave it out: the `fix` lines of the listing are what came of relocations
experimental-pic | none | refused | leave it out: the addresses of a plan are final
export-all | none | refused | give --export-dynamic, or --export for each name
export-table | none | refused | export functions that call what the table holds
features | value | refused | give --extra-features: features are listed, not demanded
generate | value | refused | give it to wildplan itself: it makes objects, and links none
global-base | value | refused | give --stack-first: data begins after the stack, and else at 1024
growable-table | none | refused | leave it out: the table has a fixed size
import-table | none | refused | leave it out: the table isn't imported
initial-heap | value | refused | give --initial-memory
no-growable-memory | none | refused | give --max-memory, with as much as --initial-memory
noinhibit-exec | none | refused | leave it out: what is at fault has no plan
page-size | value | refused | leave it out: a page has 65536 bytes
pie | none | refused | leave it out: the addresses of a plan are final
r | none | refused | leave it out: one whole module is planned
relocatable | none | refused | leave it out: one whole module is planned
replace | value | refused | give it to wildplan itself, with the words and in the folder of the kept objects
shared | none | refused | leave it out: one whole module is planned
table-base | value | refused | leave it out: the table begins at slot 1
unresolved-symbols | value | refused | give --allow-undefined
warn-unresolved-symbols | none | refused | give --allow-undefined
wrap | value | refused | rename the function in its source
"""

# Words that wildplan spells otherwise, and the idle options that are refused with another value than this.
SPELLINGS = {"E": "--export-dynamic", "import-undefined": "--allow-undefined"}
ONLY = {"m": "wasm32", "flavor": "wasm"}
ALIASES = {"library": "l", "library-path": "L", "trace": "t", "undefined": "u", "entry": "e"}
STACK_SIZE = "stack-size="


class LineFault(Exception):
    """The link line isn't one that is understood."""


@dataclasses.dataclass(frozen=True)
class Option:
    """A row of the table."""

    name: str
    takes: str
    fate: str
    text: str


@dataclasses.dataclass(frozen=True)
class Given:
    """A file of the line, or the name of a library; whether all members of an archive are taken, and whether an object
    is taken by need, as a member is."""

    name: str
    is_library: bool
    is_whole: bool
    is_lazy: bool


@dataclasses.dataclass
class LinkLine:
    """What a link line asks for."""

    output: str | None = None
    inputs: list = dataclasses.field(default_factory=list)
    folders: list = dataclasses.field(default_factory=list)
    # What wildplan gets, but for the objects.
    words: list = dataclasses.field(default_factory=list)
    # The names whose definitions are taken from archives, beside those that objects refer to.
    asked: list = dataclasses.field(default_factory=list)
    # The names of --export and --export-if-defined.
    exports: list = dataclasses.field(default_factory=list)
    entry: str | None = "_start"
    is_shared: bool = False
    is_traced: bool = False
    # What is said of options that change nothing.
    notes: list = dataclasses.field(default_factory=list)


def options():
    """The table, by names."""
    rows = [[cell.strip() for cell in row.split("|")] for row in TABLE.strip().splitlines()]
    return {row[0]: Option(*row) for row in rows}


OPTIONS = options()


def option_of(word):
    """The option of a word, and the value that is joined to it or stands after an equals sign, or None."""
    name, equals, value = word.lstrip("-").partition("=") if word[:3] != "---" else ("", "", "")
    value = value if equals else None
    option = OPTIONS.get(name)
    is_letter = len(name) == 1
    if option is not None and not (is_letter and word.startswith("--")):
        if value is None or option.takes in (VALUE, OPTIONAL):
            return option, value
    for option in OPTIONS.values():
        if option.takes == "prefix" and name.startswith(option.name):
            return option, None
    option = OPTIONS.get(word[1:2])
    if option is not None and option.takes == JOINED and not word.startswith("--"):
        return option, word[2:] or None
    raise LineFault(f"{word}: no such option is known")


class Parse:
    """A link line while it is read."""

    def __init__(self):
        self.line = LinkLine()
        self.is_whole, self.is_lazy = False, False

    def take(self, word, option, value):
        """Does what an option asks for; `word` is as it is written, with its value."""
        if option.fate == REFUSED:
            raise LineFault(f"{word}: not taken: {option.text}")
        if option.name in ONLY and value != ONLY[option.name]:
            raise LineFault(f"{word}: not taken: {option.text}")
        if option.text:
            fate = " changes nothing" if option.fate == IDLE else ""
            self.line.notes.append(f"{word}{fate}: {option.text}")
        if option.fate == PASSED:
            self.pass_on(word, option, value)
        elif option.fate == USED:
            self.use(ALIASES.get(option.name, option.name), word, value)

    def pass_on(self, word, option, value):
        """Hands an option on, and keeps what it says of names."""
        name, line = ALIASES.get(option.name, option.name), self.line
        if name == "z" and not value.startswith(STACK_SIZE):
            line.notes.append(f"{word} changes nothing: a module has no such thing")
            return
        if name == "e":
            line.entry = value
        elif name == "no-entry":
            line.entry = None
        elif name in ("export", "export-if-defined"):
            line.exports.append(value)
        elif name == "shared-memory":
            line.is_shared = True
        dashes = "-" if len(option.name) == 1 else "--"
        spelled = SPELLINGS.get(option.name, dashes + option.name)
        if value is None:
            line.words.append(spelled)
        elif option.takes == JOINED:
            line.words += [spelled, value]
        else:
            line.words.append(f"{spelled}={value}")

    def use(self, name, word, value):
        """Does what an option asks for that is done here."""
        line = self.line
        if name == "o":
            line.output = value
        elif name == "L":
            line.folders.append(value)
        elif name == "l":
            self.give(value, True)
        elif name == "u":
            line.asked.append(value)
        elif name == "t":
            line.is_traced = True
        elif name in ("whole-archive", "no-whole-archive"):
            self.is_whole = name == "whole-archive"
        elif name in ("start-lib", "end-lib"):
            self.is_lazy = name == "start-lib"
        elif name == "no-export-dynamic":
            line.words = [word for word in line.words if word != "--export-dynamic"]
        elif name == "rsp-quoting" and value != "posix":
            raise LineFault(f"{word}: not taken: files of words are quoted as for a POSIX shell")

    def give(self, name, is_library):
        """Adds a file or a library."""
        self.line.inputs.append(Given(name, is_library, self.is_whole, self.is_lazy))


def quoted_words(text):
    """The words of a text that are separated by blanks; a backslash takes the next character as it is, and quotes
    what stands between them."""
    words, word, quote, characters = [], None, "", iter(text)
    for character in characters:
        if character == "\\" and quote != "'":
            word = (word or "") + next(characters, "")
        elif quote and character == quote:
            quote = ""
        elif not quote and character in "\"'":
            quote, word = character, word or ""
        elif quote or not character.isspace():
            word = (word or "") + character
        elif word is not None:
            words.append(word)
            word = None
    return words if word is None else [*words, word]


def expanded(words, above=()):
    """The words, with those of the files that words with an @ name in their places."""
    found = []
    for word in words:
        if not word.startswith("@"):
            found.append(word)
            continue
        name = word[1:]
        if name in above:
            raise LineFault(f"{word}: the file names itself")
        text = pathlib.Path(name).read_text(encoding="utf-8", errors="surrogateescape")
        found += expanded(quoted_words(text), (*above, name))
    return found


def read_line(words):
    """What a link line asks for."""
    parse, rest = Parse(), iter(words)
    for word in rest:
        if word == "-" or not word.startswith("-"):
            parse.give(word, False)
            continue
        option, value = option_of(word)
        if value is None and option.takes in (VALUE, JOINED):
            value = next(rest, None)
            if value is None:
                raise LineFault(f"{word}: its value is missing")
            word = f"{word} {value}"
        parse.take(word, option, value)
    return parse.line
