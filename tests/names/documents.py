"""What a document names: words in backquotes with what is said of their place, files, and links."""

import collections
import itertools
import re

EXTENSION = r"(?:antt|rt|rs|py|md|h|c|svg|txt|edit|1)"
PATH = re.compile(rf"(?<![\w./$-])(?:[\w.{{}},*-]+/)+(?:[\w*-][\w.{{}},*-]*)?|(?<![\w./-])\w[\w-]*\.{EXTENSION}(?!\w)")
NAME = re.compile(r"[A-Za-z_][\w']*(?:-[\w']+)*(?:(?:::|\.)[A-Za-z_][\w'-]*)*")
# In a longer piece of code: Type::name, camelCase, snake_case, Type, and a function before a bracket.
COMPOUND = re.compile(r"(?<![\w.-])(?:[A-Za-z]\w*(?:::\w+)+|[a-z]+[A-Z]\w*|[a-z]+(?:_[a-z0-9]+)+|[A-Z][a-z]\w*)"
                      r"(?![\w-])|^[a-z]\w*(?= \()")
# A word in backquotes, with the bracket that follows it; what joins two of them to a list; the place that ends a list
# in brackets; the record that has the fields of a list.
QUOTED = re.compile(r"`([^`]+)`(?:\s\(([^()`]+)\))?")
JOINED = re.compile(r",?\s+(?:and\s+|or\s+)?")
INSIDE = re.compile(r",\s+([\w./-]+)\)")
OWNER = re.compile(r"\s+of\s+`([A-Z]\w*)`(?:\s\(([^()`]+)\))?")
LINK = re.compile(r"\]\(([^()#\s]*)(?:#([^()\s]*))?\)")

# A row or a paragraph: its text, the number of the line that each part begins on, and the headings of its columns.
Unit = collections.namedtuple("Unit", "text starts columns code")
# A name: where it stands in the unit, the crates, folders or files that it is said to be declared in, the record that
# it is said to be a field of, and whether it is said to be a must-fail edit.
Named = collections.namedtuple("Named", "at name places owner edit")


def units(text):
    """The rows and paragraphs of a document in turn, and the lines of its code."""
    rest, starts, columns, fenced = "", [], [], False
    for number, line in enumerate(text.splitlines() + [""], 1):
        if line.startswith("```"):
            fenced = not fenced
            line = ""
        code = fenced or line.startswith("    ")
        if rest and (code or not line.strip() or line.startswith(("|", "#", "- "))):
            yield Unit(rest, starts, [], False)
            rest, starts = "", []
        if code:
            yield Unit(line, [(0, number)], [], True)
        elif line.startswith("|"):
            columns = columns or cells(line)
            yield Unit(line, [(0, number)], columns, False)
            continue
        elif line.strip():
            starts.append((len(rest), number))
            rest += line + " "
        columns = []


def cells(row):
    return [cell.strip() for cell in row.split("|")]


def column(unit, at):
    """The number of the column that a place of a row is in."""
    return unit.text[:at].count("|")


def names(unit):
    """The names of a unit."""
    quoted = list(QUOTED.finditer(unit.text))
    for index, match in enumerate(quoted):
        word = match[1]
        if PATH.fullmatch(word):
            continue
        if not NAME.fullmatch(word):
            for part in COMPOUND.findall(word):
                yield Named(match.start(), part, [], None, False)
            continue
        places, owner = said(unit.text, quoted[index:])
        if "file" in unit.columns and column(unit, match.start()) == 1:
            places = [cells(unit.text)[unit.columns.index("file")]]
        yield Named(match.start(), word, places, owner, is_edit(unit, quoted, index))


def joined(text, before, after):
    return JOINED.fullmatch(text[before.end():after.start()])


def said(text, quoted):
    """What the list that begins here says of its first word: the places it is declared in, and its record."""
    last = quoted[0]
    for before, after in itertools.pairwise(quoted):
        if before[2] or not joined(text, before, after):
            break
        last = after
    if last[2]:
        return places(last[2]), None
    inside = INSIDE.match(text, last.end())
    if inside:
        return places(inside[1]), None
    owner = OWNER.match(text, last.end())
    return (places(owner[2] or ""), owner[1]) if owner else ([], None)


def places(bracket):
    """The places that a bracket names, if it names nothing else."""
    parts = re.split(r",\s+", bracket)
    return parts if all(re.fullmatch(r"[a-z_]+", part) or PATH.fullmatch(part) for part in parts) else []


def is_edit(unit, quoted, index):
    """Whether a word's list stands after 'must-fail', or in a column of that heading; there a law has a hyphen."""
    first = index
    while first and joined(unit.text, quoted[first - 1], quoted[first]):
        first -= 1
    if re.search(r"must-fail( edits?)?\s+$", unit.text[:quoted[first].start()]):
        return True
    place = column(unit, quoted[index].start())
    return "-" not in quoted[index][1] and place < len(unit.columns) and "must-fail" in unit.columns[place]


def paths(unit):
    """The files and folders of a unit: place, path, and of a bare name after a path and a comma the folder."""
    folder = None
    for match in PATH.finditer(unit.text):
        path = match[0].rstrip(".,")
        if "/" in path:
            yield match.start(), path, None
            folder = path.rsplit("/", 1)[0]
        else:
            follows = re.search(r"[\w}]`?, `?$", unit.text[:match.start()])
            yield match.start(), path, folder if follows else None


def headings(text):
    """The headings of a document, as links name them."""
    return {re.sub(r"[^\w\s-]", "", line.lstrip("#").strip().lower()).replace(" ", "-")
            for line in text.splitlines() if line.startswith("#")}
