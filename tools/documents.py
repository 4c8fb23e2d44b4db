"""Reads the pages of the repository: their tables, blocks and links. The scripts of tools/ and tests/ stand on it."""

import pathlib
import re

ROOT = pathlib.Path(__file__).resolve().parent.parent
DOCS = ROOT / "docs"
OPTIONS_TITLE = "| option | value | what it does | given again | without it |"


def pages():
    """Every page of the repository, by its path."""
    return sorted([*ROOT.glob("*.md"), *DOCS.glob("*.md"), *ROOT.glob("examples/**/*.md")])


def cells_of(line):
    """The cells of a table's row. A bar after a backslash is one of the text."""
    cells = re.split(r"(?<!\\)\|", line.strip().strip("|"))
    return [cell.strip().replace("\\|", "|") for cell in cells]


def table_of(document, title):
    """The rows below the first one of a table in a document, each a list of its cells."""
    lines = document.read_text().splitlines()
    rows = []
    for line in lines[lines.index(title) + 2 :]:
        if not line.startswith("|"):
            break
        rows.append(cells_of(line))
    return rows


def tables_of(document):
    """All tables of a document: for each the cells of its first row, and those of the rows below."""
    return tables_in(document.read_text())


def tables_in(text):
    """The same of a text."""
    tables, rows = [], []
    for line in [*text.splitlines(), ""]:
        if line.startswith("|"):
            rows.append(cells_of(line))
        elif rows:
            tables.append((rows[0], rows[2:]))
            rows = []
    return tables


def parts_of(document):
    """The parts of a document that begin with a heading of the second rank: for each the heading, and its tables."""
    parts = []
    for part in re.split(r"(?m)^(?=## )", document.read_text())[1:]:
        parts.append((part.splitlines()[0].removeprefix("## "), tables_in(part)))
    return parts


def block_at(lines, place):
    """The block of code that begins at this line, or none: the lines of it without fence and indent, and the number of
    the line after it."""
    if lines[place].startswith("```"):
        end = next((k for k in range(place + 1, len(lines)) if lines[k].startswith("```")), len(lines))
        return lines[place + 1 : end], end + 1
    if not lines[place].startswith("    ") or (place and lines[place - 1].strip()):
        return None, place + 1
    end = place
    while end < len(lines) and (lines[end].startswith("    ") or not lines[end].strip()):
        end += 1
    block = "\n".join(line[4:] for line in lines[place:end]).rstrip("\n")
    return block.split("\n"), end


def blocks_of(document):
    """The blocks of code of a document: for each the number of its first line, and its lines."""
    lines, blocks, place = document.read_text().splitlines(), [], 0
    while place < len(lines):
        block, after = block_at(lines, place)
        if block is not None:
            blocks.append((place + 1 + lines[place].startswith("```"), block))
        place = after
    return blocks


def prose_of(document):
    """The text of a document without its blocks of code, a string."""
    text = re.sub(r"^```.*?^```$", "", document.read_text(), flags=re.M | re.S)
    return re.sub(r"(?m)(?<=\n\n)(?:    .*\n)+", "", text)


def paragraphs_of(document):
    """The paragraphs of a document without its blocks of code, each in one line; a row of a table is one of its own."""
    paragraphs = []
    for text in re.split(r"\n\s*\n", prose_of(document)):
        lines = text.strip("\n").splitlines()
        paragraphs += lines if lines and lines[0].startswith("|") else [" ".join(line.strip() for line in lines)]
    return [text for text in paragraphs if text]


def spans_of(document):
    """The pieces of code in the text of a document, each once, in order."""
    spans = [span for text in paragraphs_of(document) for span in re.findall(r"`([^`]+)`", text)]
    return list(dict.fromkeys(span.replace("\\|", "|") for span in spans))


def headings_of(document):
    """The headings of a document, without their marks and without pieces of code that follow a colon."""
    found = re.findall(r"^#+ (.*)$", document.read_text(), re.M)
    return [*found, *(heading.split(":")[0] for heading in found)]


def links_of(document):
    """The targets of the links of a document."""
    return re.findall(r"\]\(([^)\s]+)\)", prose_of(document)) + re.findall(r"<(https?://[^>\s]+)>", prose_of(document))
