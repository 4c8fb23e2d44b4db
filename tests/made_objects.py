"""Makes small objects and archives of them, as a row of tests/members.txt describes them."""

import re

HEADER = b"\0asm\1\0\0\0"
WEAK, LOCAL, UNDEFINED = 1, 2, 16
# The marks of symbols, with their flags; `!` is a function that is also a constructor.
MARKS = {"+": 0, "%": WEAK, ".": LOCAL, "!": 0, "?": UNDEFINED, "~": UNDEFINED | WEAK}
TEXT = b"no object\n"


def leb128(number):
    """An unsigned number in its shortest form."""
    low, rest = number & 0x7F, number >> 7
    return bytes([low | 0x80]) + leb128(rest) if rest else bytes([low])


def sized(content):
    """Bytes after their length."""
    return leb128(len(content)) + content


def listed(items):
    """Items after their count."""
    return leb128(len(items)) + b"".join(items)


def made_object(symbols):
    """An object whose symbols are functions, each a mark and a name."""
    asked = [symbol for symbol in symbols if MARKS[symbol[0]] & UNDEFINED]
    defined = [symbol for symbol in symbols if symbol not in asked]
    places = {symbol: place for place, symbol in enumerate([*asked, *defined])}
    imports = [sized(b"env") + sized(symbol[1:].encode()) + b"\0\0" for symbol in asked]
    table, constructors = [], []
    for number, symbol in enumerate(symbols):
        name = b"" if symbol in asked else sized(symbol[1:].encode())
        table.append(b"\0" + leb128(MARKS[symbol[0]]) + leb128(places[symbol]) + name)
        if symbol[0] == "!":
            constructors.append(leb128(1) + leb128(number))
    linking = sized(b"linking") + b"\2" + b"\x08" + sized(listed(table))
    if constructors:
        linking += b"\x06" + sized(listed(constructors))
    # The type is that of a function without parameters and results; each function is of it, and each body is empty.
    sections = [(1, [b"\x60\0\0"]), (2, imports), (3, [b"\0"] * len(defined)), (10, [sized(b"\0\x0b")] * len(defined))]
    content = b"".join(bytes([number]) + sized(listed(items)) for number, items in sections if items)
    return HEADER + content + b"\0" + sized(linking)


def entry(name, content, size=None):
    """An entry of an archive; `size` is what the header says where no bytes follow it."""
    header = f"{name:<16}{'0':<12}{'0':<6}{'0':<6}{'644':<8}{len(content) if size is None else size:<10}`\n"
    return header.encode() + content + b"\n" * (len(content) % 2)


def archive(form, members):
    """An archive of members, each a name, its bytes and the names that it defines for others."""
    long_names, entries = b"", []
    for name, content, _ in members:
        written = f"{name}/"
        if form == "bsd":
            written, content = f"#1/{len(name) + 4}", name.encode() + b"\0" * 4 + content
        elif len(written) > 16 or form == "thin":
            written, long_names = f"/{len(long_names)}", long_names + f"{name}/\n".encode()
        entries.append(entry(written, b"", len(content)) if form == "thin" else entry(written, content))
    tables = entry("//", long_names) if long_names else b""
    magic = b"!<thin>\n" if form == "thin" else b"!<arch>\n"
    names = [(place, name) for place, (_, _, defined) in enumerate(members) for name in defined]
    if form in ("gnu", "wide", "thin") and members:
        width, title = (8, "/SYM64/") if form == "wide" else (4, "/")
        texts = b"".join(name.encode() + b"\0" for _, name in names)
        begin = len(magic) + len(entry(title, b"\0" * width * (len(names) + 1) + texts)) + len(tables)
        places = [begin + sum(map(len, entries[:place])) for place, _ in names]
        index = b"".join(number.to_bytes(width, "big") for number in [len(names), *places])
        tables = entry(title, index + texts) + tables
    return magic + tables + b"".join(entries)


def member(text):
    """A member as a row describes it: its name, its bytes and what it defines for others; a word alone is a text."""
    name, _, symbols = text.rstrip(")").partition("(")
    if "(" not in text:
        return f"{name}.txt", TEXT, []
    defined = [symbol[1:] for symbol in symbols.split() if symbol[0] in "+%!"]
    return f"{name}.o", made_object(symbols.split()), defined


def words_of(row, folder):
    """The words of a row, with the files that it describes made in the folder."""
    words = []
    for found in re.finditer(r"(\w+)\.(\w+)\[([^\]]*)\]|(\S+\([^)]*\))|(\S+)", row):
        if found[1]:
            members = [member(text) for text in re.findall(r"\w+(?:\([^)]*\))?", found[3])]
            words.append(str(folder / f"{found[1]}.a"))
            (folder / f"{found[1]}.a").write_bytes(archive(found[2], members))
            for name, content, _ in members if found[2] == "thin" else []:
                (folder / name).write_bytes(content)
        elif found[4]:
            name, content, _ = member(found[4])
            words.append(str(folder / name))
            (folder / name).write_bytes(content)
        else:
            words.append(found[5])
    return words
