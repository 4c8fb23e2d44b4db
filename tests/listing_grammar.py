#!/usr/bin/env python3
"""Compares the grammar of docs/LISTING.md with what the built program reads as a listing.

    tests/listing_grammar.py            tries the program that .ci/run built
    tests/listing_grammar.py PROGRAM    tries another one

It makes lines of the grammar, and wrong ones from these; the grammar itself says which of them are lines. With
`--check` the program has to answer `bad L` where a line is none, and else `differs L` or `same`, of the same line. So it
has to of texts worked out by hand, of which it also stands here which are listings.

The last line is `N passed, M failed`."""

import pathlib
import random
import re
import subprocess
import sys
import tempfile

ROOT = pathlib.Path(__file__).resolve().parent.parent
sys.path.insert(0, str(ROOT / "tools"))

import counting  # noqa: E402
import documents  # noqa: E402
import listing  # noqa: E402

PAGE = documents.DOCS / "LISTING.md"
BUILT = ROOT / "crates" / "wildplan" / "out" / "wildplan"
PROGRAM = pathlib.Path(sys.argv[1]).resolve() if sys.argv[1:] else BUILT
OBJECT = ROOT / "examples" / "two_functions.o"
WORDS = ["--no-gc-sections", "--no-entry"]
# How often each line of the grammar is made, and how many wrong lines are made of each that was.
MADE, MUTANTS = 24, 6
# The longest list of names, types or bytes that is made.
LONGEST = 5

# Texts that are listings: each kind of line, with each of its choices and the ends of its ranges.
GOOD = [
    b'',
    b'wildplan 1\n',
    b'type 0 ()->()\n',
    b'type 4294967295 (i32,i64,f32,f64,v128,funcref,externref)->(i32)\n',
    b'import func "env" "p" 0\n',
    b'import global "GOT.mem" "a b\\22\\0a" i32 var\n',
    b'import global "env" "" f64 const\n',
    b'import memory "env" "memory" 2 - -\n',
    b'import memory "env" "memory" 1 4 shared\n',
    b'func 0 type 0 object 18446744073709551615 unit 4294967295\n',
    b'func 1 type 0 made __wasm_call_ctors\n',
    b'func 1 type 0 made __wasm_init_tls\n',
    b'func 1 type 0 made __wasm_init_memory\n',
    b'func 2 type 3 stub "f"\n',
    b'func 3 type 3 wrap "g"\n',
    b'body 0 \n',
    b'body 10 000b7fff\n',
    b'global 0 i32 var 41808004 made stack_pointer\n',
    b'global 1 i64 const  object 0 unit 2\n',
    b'global 2 i32 const 4100 made got_func\n',
    b'memory 2 - -\n',
    b'memory 1 18446744073709551615 shared\n',
    b'memory 18446744073709551615 - -\n',
    b'table 18446744073709551615\n',
    b'slot 1 0\n',
    b'segment 0 object 0 unit 0 active 1024 4\n',
    b'segment 0 object 0 unit 0 shared 1024 4\n',
    b'segment 0 object 18446744073709551615 unit 0 shared 4294967295 4294967295\n',
    b'segment 0 object 0 unit 0 tls 0 4\n',
    b'segment 0 object 0 unit 0 passive - 4\n',
    b'export "" func 7\n',
    b'export "t" table 0\n',
    b'export "memory" memory 0\n',
    b'export "g" global 4294967295\n',
    b'start 0\n',
    b'fix 0 code 0 2 R_WASM_FUNCTION_INDEX_LEB 1 0\n',
    b'fix 1 segment 0 4 R_WASM_MEMORY_ADDR_I32 1024 -2147483648\n',
    b'fix 1 segment 0 4 R_WASM_MEMORY_ADDR_I32 1024 2147483647\n',
    b'fix 0 segment 0 0 R_WASM_MEMORY_ADDR_I32 deferred -1\n',
    b'fix 0 segment 0 0 R_WASM_MEMORY_ADDR_I32 deferred 2147483647\n',
    b'fix 18446744073709551615 segment 4294967295 0 R_WASM_FUNCTION_INDEX_I32 4294967295 0\n',
    b'fix 0 code 3 0 R_WASM_TABLE_INDEX_REL_SLEB 5 0\n',
    b'feature "mutable-globals"\n',
    b'feature "\xff\\7f\\1f\\5c\x80"\n',
    b'debug 0 ".debug_str" 5\n',
    b'debug 18446744073709551615 "" 4294967295\n',
    b'end\n',
    b'end\nend\nwildplan 1\n',
    b'type 0 ()->()\ntype 0 ()->(externref)\n',
    b'slot 10 20\nslot 0 4294967295\n',
    b'feature "end"\nend\n',
]

# Texts that are none, and the first of their lines that is at fault.
BAD = [
    (b'wildplan 1\ntype 00 ()->()\n', 1),
    (b'wildplan 1', 0),
    (b'wildplan 2\n', 0),
    (b'\n', 0),
    (b'wildplan 1\n\n', 1),
    (b'wildplan 1\nend', 1),
    (b'end\r\n', 0),
    (b'End\n', 0),
    (b'slot 1  0\n', 0),
    (b'slot 1 0 \n', 0),
    (b' slot 1 0\n', 0),
    (b'slot +1 0\n', 0),
    (b'slot -1 0\n', 0),
    (b'slot  0\n', 0),
    (b'slot 1\n', 0),
    (b'slot 1 4294967296\n', 0),
    (b'slot 1 01\n', 0),
    (b'table 18446744073709551616\n', 0),
    (b'table 99999999999999999999999999\n', 0),
    (b'func 0 type 0 made __wasm_init\n', 0),
    (b'func 0 type 0 object 0 unit 4294967296\n', 0),
    (b'func 0 type 0 stub f\n', 0),
    (b'body 0\n', 0),
    (b'body 0 0\n', 0),
    (b'body 0 0B\n', 0),
    (b'global 0 i32 mut 4100 made data\n', 0),
    (b'global 0 i32 var made data\n', 0),
    (b'memory 2 -\n', 0),
    (b'memory 2 - 1\n', 0),
    (b'memory 18446744073709551616 - -\n', 0),
    (b'segment 0 object 0 unit 0 tls -1 4\n', 0),
    (b'segment 0 object 18446744073709551616 unit 0 passive - 4\n', 0),
    (b'segment 0 object 0 unit 0 passive 4\n', 0),
    (b'type 0 (i32,)->()\n', 0),
    (b'type 0 (,i32)->()\n', 0),
    (b'type 0 (i32 i32)->()\n', 0),
    (b'type 0 (i33)->()\n', 0),
    (b'fix 0 code 0 2 R_WASM_MEMORY_ADDR_LEB64 1 0\n', 0),
    (b'fix 0 code 0 2 R_WASM_FUNCTION_INDEX_LEB 1 -0\n', 0),
    (b'fix 0 code 0 2 R_WASM_FUNCTION_INDEX_LEB 1 2147483648\n', 0),
    (b'fix 0 code 0 2 R_WASM_FUNCTION_INDEX_LEB 1 -2147483649\n', 0),
    (b'fix 0 segment 0 0 R_WASM_MEMORY_ADDR_I32 deferred 2147483648\n', 0),
    (b'start 4294967296\n', 0),
    (b'debug 0 "" 4294967296\n', 0),
    (b'feature "a"b"\n', 0),
    (b'feature "\\41"\n', 0),
    (b'feature "\\0A"\n', 0),
    (b'feature "a\nb"\n', 0),
    (b'feature "a\n', 0),
    (b'end\nend\nfeature "\\"\nend\n', 2),
]

TOKEN = re.compile(r"'([^']*)'|([\w-]+)|([=|{}\[\]])")

counts = counting.Counts("docs/LISTING.md: ")
note = counts.note


# ---- the pieces of a grammar: each makes a text, and says where it may end in another one


class Word:
    """A text that stands for itself."""

    def __init__(self, text):
        self.text = text.encode()

    def made(self, chance):
        return self.text

    def ends(self, text, at):
        return {at + len(self.text)} if text.startswith(self.text, at) else set()


class Decimal:
    """A number from the least to the greatest, in its shortest form."""

    def __init__(self, least, greatest):
        self.least, self.greatest = least, greatest

    def made(self, chance):
        edges = [self.least, self.greatest, 0, 1, 9, 10, self.greatest - 1]
        inner = chance.randint(self.least, self.greatest)
        small = chance.randint(max(self.least, -300), 300)
        return b"%d" % chance.choice([*edges, inner, inner, small, small, small])

    def ends(self, text, at):
        found = re.compile(rb"-?[0-9]*").match(text, at)
        fronts = [text[at:end] for end in range(at + 1, found.end() + 1)]
        return {at + len(front) for front in fronts if self.is_number(front)}

    def is_number(self, text):
        is_short = re.fullmatch(rb"0|-?[1-9][0-9]*", text)
        return bool(is_short) and self.least <= int(text) <= self.greatest


class Byte:
    """A byte of some ranges, as it is or in hexadecimal."""

    def __init__(self, ranges, form):
        self.texts = sorted({form(value) for low, high in ranges for value in range(low, high + 1)})

    def made(self, chance):
        return chance.choice(self.texts)

    def ends(self, text, at):
        end = at + len(self.texts[0])
        return {end} if text[at:end] in self.texts else set()


class Row:
    """Pieces, one after the other."""

    def __init__(self, pieces):
        self.pieces = pieces

    def made(self, chance):
        return b"".join(piece.made(chance) for piece in self.pieces)

    def ends(self, text, at):
        places = {at}
        for piece in self.pieces:
            places = {end for place in places for end in piece.ends(text, place)}
        return places


class Choice:
    """One of some pieces."""

    def __init__(self, pieces):
        self.pieces = pieces

    def made(self, chance):
        return chance.choice(self.pieces).made(chance)

    def ends(self, text, at):
        return {end for piece in self.pieces for end in piece.ends(text, at)}


class Many:
    """A piece at most so many times; without a number any number of times."""

    def __init__(self, piece, most=None):
        self.piece, self.most = piece, most

    def made(self, chance):
        most = LONGEST if self.most is None else self.most
        return b"".join(self.piece.made(chance) for _ in range(chance.randint(0, most)))

    def ends(self, text, at):
        found, places, times = {at}, {at}, 0
        while places and times != self.most:
            places = {end for place in places for end in self.piece.ends(text, place)} - found
            found |= places
            times += 1
        return found


class Named:
    """A piece that another rule defines."""

    def __init__(self, rules, name):
        self.rules, self.name = rules, name

    def made(self, chance):
        return self.rules[self.name].made(chance)

    def ends(self, text, at):
        return self.rules[self.name].ends(text, at)


# ---- the grammar of the page


def ranges_of(words):
    """The ranges that words in hexadecimal name."""
    ends = [word.split("-") for word in words]
    return [(int(low[0], 16), int(low[-1], 16)) for low in ends]


class Reader:
    """Reads the rules of a text."""

    def __init__(self, text):
        spaced = re.sub(TOKEN, "", text).strip()
        note(f"in the grammar stands {spaced!r}", not spaced)
        self.tokens = [found for found in TOKEN.finditer(text)]
        self.rules, self.place = {}, 0

    def next(self):
        """The token there: a text, a word or a mark; of the others None."""
        return self.tokens[self.place].groups() if self.place < len(self.tokens) else (None, None, None)

    def begins_rule(self):
        """Whether a rule begins here."""
        after = self.tokens[self.place + 1 : self.place + 2]
        return self.next()[1] is not None and bool(after) and after[0][3] == "="

    def read(self):
        """All rules, by their names."""
        while self.place < len(self.tokens):
            name = self.next()[1]
            assert self.begins_rule(), f"no rule begins with {self.next()}"
            self.place += 2
            note(f"{name} is defined twice", name not in self.rules)
            self.rules[name] = self.choice()
        return self.rules

    def choice(self):
        rows = [self.row()]
        while self.next()[2] == "|":
            self.place += 1
            rows.append(self.row())
        return rows[0] if len(rows) == 1 else Choice(rows)

    def row(self):
        pieces = []
        while self.next() != (None, None, None) and not self.begins_rule():
            text, word, mark = self.next()
            if mark in ("|", "}", "]"):
                break
            self.place += 1
            if text is not None:
                pieces.append(Word(text))
            elif mark is not None:
                pieces.append(Many(self.choice(), 1 if mark == "[" else None))
                self.place += 1
            elif word in ("decimal", "byte", "hex"):
                return self.base(word)
            else:
                pieces.append(Named(self.rules, word))
        return pieces[0] if len(pieces) == 1 else Row(pieces)

    def base(self, word):
        """A number, or bytes, with the words after them."""
        words = []
        while self.next()[1] is not None and not self.begins_rule():
            words.append(self.next()[1])
            self.place += 1
        if word == "decimal":
            return Decimal(*map(int, words))
        return Byte(ranges_of(words), (lambda value: bytes([value])) if word == "byte" else (lambda value: b"%02x" % value))


def grammar():
    """The rules of the page."""
    blocks = [block for _, block in documents.blocks_of(PAGE) if any(re.match(r"\w+ += ", line) for line in block)]
    rules = Reader("\n".join(line for block in blocks for line in block)).read()
    note("there is no rule for a line", "line" in rules)
    return rules


def is_line(rules, text):
    """Whether a text without its line feed is a line."""
    return len(text) in rules["line"].ends(text, 0)


# ---- wrong lines


def numbers(text, chance):
    """A number replaced by one that is out of range, or written otherwise."""
    found = list(re.finditer(rb"-?[0-9]+", text))
    if not found:
        return text + b"0"
    one = chance.choice(found)
    others = [b"%d" % (2**bits + more) for bits in (31, 32, 63, 64) for more in (-1, 0, 1)]
    others += [b"-" + other for other in others]
    others += [b"", b"-0", b"+" + one[0], b"0" + one[0], b"-" + one[0], b"00", one[0] + b"0" * 20, b"0x1", b" " + one[0]]
    return text[: one.start()] + chance.choice(others) + text[one.end() :]


def bytes_changed(text, chance):
    """A byte added, dropped, doubled, replaced, or put in upper case."""
    at = chance.randrange(len(text))
    one = bytes([chance.choice([*range(256), *b'"\\ \r\t\n0aA-'])])
    more = [text[at : at + 1], text[at : at + 1] * 2, text[at : at + 1].upper(), one, one + text[at : at + 1], b""]
    return text[:at] + chance.choice(more) + text[at + 1 :]


def pieces_swapped(text, chance):
    """Two words swapped, one dropped, or one doubled."""
    words = text.split(b" ")
    one, other = chance.randrange(len(words)), chance.randrange(len(words))
    words[one], words[other] = words[other], words[one]
    return b" ".join(chance.choice([words, words[:one] + words[one + 1 :], words[:one] + words[one:][:1] + words[one:]]))


def names_changed(text, chance):
    """A mark in a name that isn't one, or a byte that needs one."""
    wrong = [b"\\0A", b"\\1F", b"\\5C", b"\\41", b"\\20", b"\\80", b"\\0", b"\\", b"\\\\", b'\\"', b"\\n", b"\x7f", b"\x00", b'"']
    places = [at for at, byte in enumerate(text) if byte == 0x22]
    if not places:
        return text + b' ""'
    at = chance.choice(places) + chance.randint(0, 1)
    return text[:at] + chance.choice(wrong) + text[at:]


CHANGES = [numbers, numbers, bytes_changed, bytes_changed, pieces_swapped, names_changed]


# ---- what the program says


def answer(words, folder=None, text=None):
    """What the program writes, of a text that is checked."""
    if text is not None:
        place = folder / "text"
        place.write_bytes(text)
        words = [*words, "--check", place]
    command = [PROGRAM, *words, OBJECT]
    ended = subprocess.run(command, stdin=subprocess.DEVNULL, capture_output=True, timeout=120)
    return ended.stdout if (ended.returncode, ended.stderr) == (0, b"") else repr(ended).encode()


def stretches_of(text):
    """The stretches of a text up to a line feed, each with it, or to the text's end."""
    return re.findall(rb"[^\n]*\n|[^\n]+", text)


def wanted(rules, text, plan):
    """What is to be said of a text, where this is the listing of the plan."""
    found, want = stretches_of(text), stretches_of(plan)
    for number, stretch in enumerate(found):
        if not stretch.endswith(b"\n") or not is_line(rules, stretch[:-1]):
            return b"bad %d\n" % number
    if found == want:
        return b"same\n"
    return b"differs %d\n" % next(k for k in range(len(want) + 1) if found[k : k + 1] != want[k : k + 1])


def compare(rules, folder, plan, text):
    """Holds what the program says of a text against the grammar."""
    said, want = answer(WORDS, folder, text), wanted(rules, text, plan)
    note(f"{text[-200:]!r} has to be {want!r}, and is {said!r}", said == want)
    return want


def texts_by_hand(rules, folder, plan):
    """Texts worked out by hand are listings, or have their first fault in the line that is reported."""
    for text, line in [*((text, None) for text in GOOD), *BAD]:
        said = compare(rules, folder, plan, text)
        is_told = not said.startswith(b"bad ") if line is None else said == b"bad %d\n" % line
        note(f"{text!r} has to be {'a listing' if line is None else line}, and is {said!r}", is_told)


# ---- texts


def alternatives(rules):
    """The alternatives of a line."""
    return rules["line"].pieces


def made_lines(rules, chance):
    """Lines of each alternative."""
    return [piece.made(chance) for piece in alternatives(rules) for _ in range(MADE)]


def mutants(lines, chance):
    """Texts made of lines, most of which are none."""
    return [chance.choice(CHANGES)(line, chance) for line in lines for _ in range(MUTANTS)]


def is_left_out(text):
    """Whether a line is none of those that tools/listing.py reads: the first, the last, and one of a field in code that is
    known when a thread starts, as no plan has it."""
    return text in ("wildplan 1", "end") or re.match("fix [0-9]+ code .* deferred", text) is not None


def known_kinds(rules, lines):
    """The lines are those that tools/listing.py reads, and of all its kinds."""
    kinds = set()
    for line in lines:
        text = line.decode("utf-8", "surrogateescape")
        read = listing.read_line(text)
        note(f"tools/listing.py reads {text!r} as {read}", is_left_out(text) or str(read) == text)
        kinds.add(type(read))
    note("the grammar lacks a line that tools/listing.py reads", kinds - {type(None)} == set(listing.KINDS))
    note("a line that was made isn't one", all(is_line(rules, line) for line in lines))


def changed_plans(plan, chance):
    """The listing of a plan with a change in one line, with a line less, twice or moved, and cut off."""
    lines = plan.splitlines(keepends=True)
    for at, line in enumerate(lines):
        yield b"".join([*lines[:at], *lines[at + 1 :]])
        yield b"".join([*lines[:at], line, *lines[at:]])
        yield b"".join([*lines[at:], *lines[:at]])
        yield b"".join([*lines[:at], line[:-1]])
        for change in CHANGES:
            yield b"".join([*lines[:at], change(line[:-1], chance), b"\n", *lines[at + 1 :]])


def main():
    rules, chance = grammar(), random.Random(1)
    lines = made_lines(rules, chance)
    known_kinds(rules, lines)
    plan = answer(WORDS)
    note(f"there is no listing, but {plan!r}", plan.startswith(b"wildplan 1\n"))
    with tempfile.TemporaryDirectory() as name:
        folder, said = pathlib.Path(name), set()
        whole = b"".join(line + b"\n" for line in lines)
        texts = [b"", b"\n", b"\n\n", b"end", b"end\r\n", b"\x00", b"\xef\xbb\xbfend\n", plan, plan + plan, whole, whole[:-1]]
        texts += [line + b"\n" for line in lines]
        # A line that is none, after others: its place is reported, and that of the first alone.
        for front, mutant in enumerate(mutants(lines, chance)):
            before = [line + b"\n" for line in lines[front % len(lines) :][: front % 4]]
            texts.append(b"".join([*before, mutant, b"\n", *before]))
        for text in [*texts, *changed_plans(plan, chance)]:
            said.add(compare(rules, folder, plan, text).split()[0])
        texts_by_hand(rules, folder, plan)
        note(f"only {said} were asked for", said == {b"same", b"bad", b"differs"})
    counts.end()


if __name__ == "__main__":
    main()
