"""Holds documents to the names in the crates: names.py OTHER-WORDS DOCUMENT..

A word in backquotes that has the form of a name is declared in crates/, is a crate or a must-fail edit, or stands in
the list of other words. A place after a list of names, `a`, `b` (place) or (`a`, `b`, place), is a crate, a folder or
a file where all of them are declared, and so is the file of a column of that heading; names 'of' a record are its
fields. Names after 'must-fail', or in a column of that heading, are edits, with the crate where two crates have one
of that name. In a longer piece of code only words of a form that no plain word has are looked at. A file, folder or
heading that is named exists. Every edit is named in docs/PROMISES.md, every crate in crates.txt and in README's
picture of them.
"""

import bisect
import pathlib
import re
import sys

import declared
import documents

ROOT = pathlib.Path(__file__).parents[2]
PROMISES = "docs/PROMISES.md"
FOLDERS = ("crates", "docs", "tests", "bench", "bindings", "include", "examples", "scripts")
# A crate's own folders, named without the crate.
PARTS = ("specs", "proofs", "src", "must-fail")


class Check:
    def __init__(self, others_file):
        self.declared = declared.Declared(ROOT / "crates")
        self.files = {file.name for top in FOLDERS for file in (ROOT / top).rglob("*")}
        self.files |= {file.name for file in ROOT.iterdir()}
        self.tops = {file.name for file in ROOT.iterdir()} | self.declared.crates
        self.faults, self.used, self.edits = [], set(), set()
        self.names = self.paths = 0
        self.others = self.other_words(others_file)

    def other_words(self, file):
        """The words that no crate declares, each with its line; where a file stands beside one, the word is in it."""
        words = {}
        for number, line in enumerate((ROOT / file).read_text().splitlines(), 1):
            if line and not line.startswith("#"):
                word, where, _ = re.split(r"\s{2,}", line, maxsplit=2)
                words[word] = f"{file}:{number}"
                last = word.split("::")[-1]
                if where != "-" and not re.search(rf"\b{re.escape(last)}\b", (ROOT / where).read_text()):
                    self.faults.append(f"{file}:{number}: no such definition: {word} in {where}")
        return words

    def document(self, name):
        self.name = name
        for self.unit in documents.units((ROOT / name).read_text()):
            for at, path, folder in documents.paths(self.unit):
                self.path(at, path, folder)
            for link in documents.LINK.finditer(self.unit.text):
                self.link(link.start(), link[1], link[2])
            if not self.unit.code:
                for named in documents.names(self.unit):
                    self.named(named)

    def fault(self, at, words):
        starts = [start for start, _ in self.unit.starts]
        line = self.unit.starts[bisect.bisect_right(starts, at) - 1][1]
        self.faults.append(f"{self.name}:{line}: {words}")

    def named(self, named):
        self.names += 1
        only_edit = named.name in self.declared.edits and named.name not in self.declared.names
        if named.name in self.others:
            self.used.add(named.name)
        elif named.edit or only_edit:
            self.edit(named)
        else:
            self.definition(named)

    def edit(self, named):
        """A must-fail edit, in each crate that is named beside it."""
        crates = self.declared.edits.get(named.name, set())
        if not crates:
            self.fault(named.at, f"no such definition: {named.name} (a must-fail edit)")
        elif not named.places and len(crates) > 1:
            which = " and of ".join(sorted(crates))
            self.fault(named.at, f"no such definition: {named.name} (a must-fail edit of {which}: say which)")
        for crate in named.places:
            if crate not in crates:
                self.fault(named.at, f"no such definition: {named.name} (a must-fail edit of {crate})")
        if self.name == PROMISES:
            self.edits |= {(crate, named.name) for crate in named.places or crates}

    def definition(self, named):
        """A definition, law, function or field, in each place that is named beside it; or a crate."""
        files = self.declared.files(named.name)
        if not files and named.name not in self.declared.crates:
            self.fault(named.at, f"no such definition: {named.name}")
            return
        for place in named.places:
            if re.fullmatch(r"[a-z_]+", place) and place not in self.declared.crates:
                self.fault(named.at, f"no such crate: {place}")
            elif not any(stands(file, place) for file in files):
                self.fault(named.at, f"no such definition: {named.name} in {place}")
        if named.owner in self.declared.names:
            fields = self.declared.members.get((named.owner, named.name), set())
            if not any(all(stands(file, place) for place in named.places) for file in fields):
                self.fault(named.at, f"no such definition: {named.name} of {named.owner}")

    def path(self, at, path, folder):
        """A file or folder of the repository, of crates/ or beside the document; nothing that is built."""
        parts = path.rstrip("/").split("/")
        if path in self.others:
            self.used.add(path)
            return
        is_file = re.search(rf"\.{documents.EXTENSION}$", path)
        if parts[0] == "target" or ".." in parts or path.rstrip("/") in PARTS:
            return
        if not is_file and parts[0] in (".", *PARTS):
            return
        self.paths += 1
        if folder:
            found = self.stands(f"{folder}/{path}")
        elif len(parts) == 1:
            found = path.rstrip("/") in self.files
        else:
            found = all(map(self.stands, spread(path.rstrip("/"))))
        if not found:
            self.fault(at, f"no such file: {path}")

    def stands(self, path):
        return any(True for base in (ROOT, ROOT / "crates", (ROOT / self.name).parent) for _ in base.glob(path))

    def link(self, at, path, heading):
        if ":" in path:
            return
        target = (ROOT / self.name).parent / path if path else ROOT / self.name
        if not target.exists():
            self.fault(at, f"no such file: {path}")
        elif heading and heading not in documents.headings(target.read_text()):
            self.fault(at, f"no such heading: {heading}")

    def rooms(self):
        """The folders of crates/, the crates of crates.txt and those that README's picture draws."""
        listed = set(re.findall(r"(?m)^(\w+)(?: staticlib)?:", (ROOT / "crates.txt").read_text()))
        picture = re.search(r"(?ms)those before it:\n\n((?:    .*\n?)*)", (ROOT / "README.md").read_text())
        drawn = set(re.findall(r"\w+", picture[1] if picture else ""))
        self.faults += [f"crates.txt: no such crate: {name}" for name in sorted(listed - self.declared.crates)]
        self.faults += [f"crates/{name}: not in crates.txt" for name in sorted(self.declared.crates - listed)]
        self.faults += [f"README.md: the picture lacks the crate {name}" for name in sorted(listed - drawn)]

    def unnamed(self):
        """The edits that docs/PROMISES.md does not name, and the other words that no document has."""
        edits = {(crate, name) for name, crates in self.declared.edits.items() for crate in crates}
        self.faults += [f"crates/{crate}/must-fail/{name}.edit:1: not named in {PROMISES}"
                        for crate, name in sorted(edits - self.edits)]
        self.faults += [f"{where}: no document has {word}"
                        for word, where in self.others.items() if word not in self.used]
        return len(edits)


def stands(file, place):
    """Whether a file of crates/ is of a crate or a folder, or is the file."""
    place = place.removeprefix("crates/").rstrip("/")
    return file == place or file.startswith(place + "/") or file.rsplit("/", 1)[-1] == place


def spread(path):
    """The paths of one with {a,b} in it."""
    braces = re.search(r"\{([^{}]*)\}", path)
    if not braces:
        return [path]
    return [one for word in braces[1].split(",")
            for one in spread(path[:braces.start()] + word + path[braces.end():])]


def main(others_file, *names):
    check = Check(others_file)
    for name in names:
        check.document(name)
    check.rooms()
    edits = check.unnamed()
    for fault in check.faults:
        print(fault, file=sys.stderr)
    if check.faults:
        sys.exit(f"names: faults found: {len(check.faults)}")
    print(f"names: {check.names} names and {check.paths} files in {len(names)} documents, each found, and {edits}"
          f" must-fail edits, each in {PROMISES}")


main(*sys.argv[1:])
