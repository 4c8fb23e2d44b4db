"""Reads what all texts in the text format of WebAssembly are made of: forms, words, texts in quotes, integers."""

import re

TOKEN = re.compile(r'(\s+|;;[^\n]*)|(\(;)|(\()|(\))|("(?:[^"\\]|\\.)*")|([^\s()";]+)', re.DOTALL)
COMMENT_ENDS = re.compile(r"\(;|;\)")
ESCAPE = re.compile(rb"\\(u\{[0-9a-fA-F_]+\}|[0-9a-fA-F]{2}|.)", re.DOTALL)
ESCAPED = {b"t": b"\t", b"n": b"\n", b"r": b"\r"}
INTEGER = re.compile(r"[+-]?(?:0x[0-9a-fA-F]+(?:_[0-9a-fA-F]+)*|[0-9]+(?:_[0-9]+)*)")


class Fault(Exception):
    """A text isn't what it should be."""


class Form(list):
    """What stands in a pair of parentheses: forms, words (`str`) and texts in quotes (`bytes`); and the line on which
    it begins."""

    def __init__(self, items=(), line=0):
        super().__init__(items)
        self.line = line

    def head(self):
        """The first word."""
        return self[0] if self and isinstance(self[0], str) else ""


def unquoted(token):
    """The bytes of a text in quotes."""

    def meant(found):
        """What an escape stands for."""
        escaped = found[1]
        if escaped.startswith(b"u{"):
            return chr(int(escaped[2:-1], 16)).encode("utf-8", "surrogatepass")
        return bytes.fromhex(escaped.decode()) if len(escaped) == 2 else ESCAPED.get(escaped, escaped)

    return ESCAPE.sub(meant, token[1:-1].encode("utf-8", "surrogateescape"))


def comment_end(text, place):
    """The place after the comment whose first bracket ends here; comments lie in each other."""
    depth = 1
    while depth:
        found = COMMENT_ENDS.search(text, place)
        if found is None:
            raise Fault("a comment has no end")
        depth, place = depth + (1 if found[0] == "(;" else -1), found.end()
    return place


def read_forms(text):
    """The forms of a text, in order, without annotations."""
    top = Form()
    opened, place, line = [top], 0, 1
    while place < len(text):
        found = TOKEN.match(text, place)
        if found is None:
            raise Fault(f"line {line} can't be read")
        end = comment_end(text, found.end()) if found[2] else found.end()
        if found[3]:
            opened.append(Form(line=line))
            opened[-2].append(opened[-1])
        elif found[4]:
            closed = opened.pop()
            if not opened:
                raise Fault(f"line {line} closes what isn't open")
            if closed.head().startswith("@"):
                opened[-1].pop()
        elif found[5]:
            opened[-1].append(unquoted(found[5]))
        elif found[6]:
            opened[-1].append(found[6])
        line, place = line + text.count("\n", place, end), end
    if len(opened) > 1:
        raise Fault(f"what line {opened[-1].line} opens isn't closed")
    return top


def is_integer(word):
    """Whether a word is an integer."""
    return isinstance(word, str) and INTEGER.fullmatch(word) is not None


def integer(word):
    """The number that a word is."""
    if not is_integer(word):
        raise Fault(f"{word} is no integer")
    return int(word.replace("_", ""), 16 if "x" in word else 10)


def is_name(word):
    """Whether a word is a name, as `$f`."""
    return isinstance(word, str) and word.startswith("$")


class Cursor:
    """Takes items from the front of a list."""

    def __init__(self, items, place=0):
        self.items, self.place = items, place

    def is_done(self):
        """Whether all items are taken."""
        return self.place >= len(self.items)

    def peek(self):
        """The next item, or None after the last."""
        return None if self.is_done() else self.items[self.place]

    def take(self):
        """The next item, which is taken."""
        if self.is_done():
            raise Fault("an item is missing")
        self.place += 1
        return self.items[self.place - 1]

    def at(self, head):
        """Whether the next item is a form with this head."""
        return isinstance(self.peek(), Form) and self.peek().head() == head

    def name(self):
        """The name that comes next, which is taken, or None where none does."""
        return self.take() if is_name(self.peek()) else None

    def rest(self):
        """All items that are left."""
        return self.items[self.place :]
