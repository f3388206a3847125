"""What the crates declare: definitions, laws, fields and constructors of specs/ and proofs/; functions, structs,
enums, fields, variants and constants of src/. A local name, a parameter or a word of a comment is none of these.
"""

import collections
import pathlib
import re

NAME = r"[^\s:(){};,=`]+"
SIGNATURE = re.compile(rf"(?:(?:unfoldable|abbrev|axiom|pub) )*({NAME}(?: {NAME})*) :(?: |$)")
BLOCK = re.compile(rf"(?:pub )?(record|data|module) ({NAME})")
ITEM = re.compile(r"\s*(?:pub )?(?:extern \"C\" )?(fn|struct|enum|const|mod|type) (\w+)")
MEMBER = re.compile(r"    (?:pub )?(\w+)(?::|[,({]|$)")


class Declared:
    """Names, each with the files that declare it; members, each under the name of its owner as well."""

    def __init__(self, crates):
        self.names = collections.defaultdict(set)
        self.members = collections.defaultdict(set)
        self.crates = {folder.name for folder in crates.iterdir() if folder.is_dir()}
        self.edits = collections.defaultdict(set)
        for crate in sorted(self.crates):
            for part in ("specs", "proofs"):
                for file in (crates / crate / part).rglob("*.antt"):
                    self.definitions(str(file.relative_to(crates)), file.read_text())
            for file in (crates / crate / "src").rglob("*.rt"):
                self.code(str(file.relative_to(crates)), file.read_text())
            for file in (crates / crate / "must-fail").glob("*.edit"):
                self.edits[file.stem].add(crate)

    def add(self, file, name, owner=None):
        self.names[name].add(file)
        if owner:
            self.members[owner, name].add(file)

    def definitions(self, file, text):
        """The names with a type, at the outer indentation of a file, a module, a record or a data type."""
        # Of each open block: the indentation of its head and of its body, and its name if it has members.
        blocks = [(-1, 0, None)]
        heading = False
        for line in text.splitlines():
            bare = re.sub(r"(^|\s)--\s.*|(^|\s)--$", "", line).rstrip()
            if not bare:
                continue
            indent = len(bare) - len(bare.lstrip())
            if heading and indent > blocks[-1][0]:
                heading = not bare.endswith("where")
                continue
            heading = False
            while indent <= blocks[-1][0]:
                blocks.pop()
            head, body, owner = blocks[-1]
            if body is None:
                body = indent
                blocks[-1] = (head, body, owner)
            if indent != body:
                continue
            block = BLOCK.match(bare.strip())
            if block:
                kind, name = block.groups()
                if kind != "module":
                    self.add(file, name)
                blocks.append((indent, None, None if kind == "module" else name))
                heading = not bare.endswith("where")
                continue
            signature = SIGNATURE.match(bare.strip())
            if signature:
                for name in signature[1].split():
                    self.add(file, name, owner)

    def code(self, file, text):
        """Items, and the members of structs, enums and impl blocks, in the layout of rt fmt."""
        owner = None
        members = False
        for line in re.sub(r"//.*", "", text).splitlines():
            block = re.match(r"(?:pub )?(struct|enum|impl) (\w+)", line)
            item = ITEM.match(line)
            if block:
                kind, owner = block.groups()
                members = kind != "impl" and line.endswith("{")
                if kind != "impl":
                    self.add(file, owner)
            elif line.startswith("}"):
                owner, members = None, False
            elif members:
                member = MEMBER.match(line)
                if member:
                    self.add(file, member[1], owner)
            elif item:
                self.add(file, item[2], owner)

    def files(self, name):
        """The files that declare a name: plain, `Type::name`, `Type.name`, `module::name` or `crate::name`."""
        parts = re.split(r"::|\.", name)
        found = self.names.get(parts[-1], set())
        if len(parts) == 1:
            return found
        owned = self.members.get((parts[-2], parts[-1]), set())
        placed = {file for file in found
                  if pathlib.Path(file).stem == parts[-2] or file.startswith(f"{parts[-2]}/src/")}
        found = owned | placed
        if len(parts) > 2:
            found = {file for file in found if file.startswith(f"{parts[0]}/")}
        return found
