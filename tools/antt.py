"""Reads antt files for tools/slips and tools/sentences: which declarations a file has, and which others each of them uses, by name.

What a declaration uses is told from its text: every name in it that its file declares or imports. A bound variable that is spelled like such a name
counts too, so this is at times more than it uses, and never less.
"""
import glob
import os
import re

NAME = re.compile(r'[^\s(){}.;,@"«»]+')
MARKS = re.compile(r"((?:(?:unfoldable|abbrev|axiom|pub)\s+)*)(.*)", re.S)
MODULE_FILE = re.compile(r"Rattle\.(\w+)\.(specs|proofs)\.(.+)")


def read(path):
    with open(path, encoding="utf-8") as file:
        return file.read()


def without_comments(text):
    """The text with as many lines, and nothing in them that is a comment."""
    text = re.sub(r"\{-.*?-\}", lambda m: "\n" * m[0].count("\n"), text, flags=re.S)
    return re.sub(r"(?m)(^| )--( .*)?$", "", text)


class Declaration:
    """A name with its signature and clauses; `parts` are a data type's constructors and a record's fields."""

    def __init__(self, file, line, section, head):
        self.file, self.first, self.last, self.section = file, line, line, section
        marks, rest = MARKS.match(head).groups()
        words = rest.split(None, 2)
        self.kind = words[0] if words[0] in ("data", "record") else ""
        self.name = words[1 if self.kind else 0]
        self.is_pub = "pub" in marks.split()
        self.is_theorem = self.is_pub and not self.kind and marks.split() == ["pub"]
        self.lines, self.head_lines, self.parts = [], 0, []

    def end(self, column):
        """All lines are there. The signature are those before the next line at the declaration's own column."""
        at = 1
        while at < len(self.lines) and (self.kind or not re.match(rf" {{{column}}}\S", self.lines[at])):
            at += 1
        self.signature = " ".join(" ".join(self.lines[:at]).split())
        self.names = set(NAME.findall("\n".join(self.lines))) | self.section
        if self.kind:
            for line in self.lines[1:]:
                found = re.match(r"\s+(?:pub )?([^:]*?) : ", line + " ")
                self.parts += found[1].split() if found else []


def starts_declaration(head):
    words = MARKS.match(head)[2].split(None, 1)
    if not words or words[0] in ("use", "mod", "module", "mutual", "unfolding", "infix", "infixl", "infixr"):
        return False
    return words[0] in ("data", "record") or (len(words) == 2 and re.match(r"(\{[^}]*\}\s*)?:(\s|$)", words[1]) is not None)


class File:
    """The declarations of one file, in order, and its imports: `names` maps a local name to (file, name), `modules` a module's name to its file."""

    def __init__(self, root, path):
        self.path, self.declarations, self.names, self.modules = path, [], {}, {}
        self.text = without_comments(read(f"{root}/{path}"))
        self.read_declarations()
        for use in re.findall(r"(?m)^(?:pub )?use (.*(?:\n .*)*)", self.text):
            self.read_use(" ".join(use.split()))
        self.by_name = {}
        for declaration in self.declarations:
            for name in [declaration.name, *declaration.parts]:
                self.by_name.setdefault(name, []).append(declaration)

    def read_declarations(self):
        sections, header, current = [], None, None  # a section: its column, and the names in its first lines
        for number, line in enumerate(self.text.split("\n"), 1):
            if not line.strip():
                continue
            column = len(line) - len(line.lstrip(" "))
            if header is not None and header[0] == "open":
                sections.append((column, header[1]))
                header = None
            while sections and header is None and column < sections[-1][0]:
                sections.pop()
            own_column = sections[-1][0] if sections else 0
            head = line.strip()
            if header is not None or (column == own_column and re.match(r"(module|mutual)\b", head)):
                text = (header[1] if header else set()) | set(NAME.findall(head))
                header = ("open" if re.search(r"(\bwhere|^mutual)$", head) else "unfinished", text)
                current = None
            elif column == own_column and starts_declaration(head):
                current = Declaration(self.path, number, set().union(*(names for _, names in sections)), head)
                current.column = own_column
                self.declarations.append(current)
            elif column == own_column and re.match(r"(pub )?(use|mod) ", head):
                current = None
            if current:
                current.lines.append(line)
                current.last = number
        for declaration in self.declarations:
            declaration.end(declaration.column)

    def read_use(self, use):
        path, _, group = use.partition(".{")
        path, _, alias = path.partition(" as ")
        found = MODULE_FILE.fullmatch(path.strip())
        if not found:
            return
        file = f"crates/{found[1]}/{found[2]}/{found[3].replace('.', '/')}.antt"
        if not group:
            self.modules[alias.strip() or path.split(".")[-1]] = file
        for item in group.rstrip("}").split(","):
            name, _, local = item.strip().partition(" as ")
            self.names[local.strip() or name.strip()] = (file, name.strip())

    def at(self, line):
        """The declaration that this line belongs to, or None."""
        return next((d for d in self.declarations if d.first <= line <= d.last), None)


class Library:
    """All crates under a folder."""

    def __init__(self, root):
        self.root, self.files = root, {}

    def file(self, path):
        """The file, or None where there is none, as for a type that is declared in code."""
        if path not in self.files:
            self.files[path] = File(self.root, path) if os.path.isfile(f"{self.root}/{path}") else None
        return self.files[path]

    def files_of(self, crate, part):
        return [self.file(os.path.relpath(path, self.root)) for path in sorted(glob.glob(f"{self.root}/crates/{crate}/{part}/*.antt"))]

    def crates(self):
        return sorted(name for name in os.listdir(f"{self.root}/crates") if os.path.isdir(f"{self.root}/crates/{name}"))

    def declared(self, crate, part, name):
        """The declarations of this name in a crate's specs or proofs."""
        return [d for file in self.files_of(crate, part) for d in file.by_name.get(name, [])]

    def theorem(self, name):
        """The theorem CRATE/NAME, that of Theorems.antt if several files have one; None if there is none."""
        crate, _, short = name.partition("/")
        found = [d for d in self.declared(crate, "proofs", short) if d.is_theorem and d.name == short]
        return min(found, key=lambda d: (os.path.basename(d.file) != "Theorems.antt", d.file), default=None)

    def named(self, path, name):
        file = self.file(path)
        return file.by_name.get(name, []) if file else []

    def used_by(self, declaration):
        """The declarations whose names stand in this one."""
        file, found = self.file(declaration.file), []

        def is_used(name):  # of an operator, as ◌+◌, the parts between its places
            return name in declaration.names or ("◌" in name and all(part in declaration.names for part in name.split("◌") if part))

        for name in file.by_name:
            found += file.by_name[name] if is_used(name) else []
        for local, (path, name) in file.names.items():
            found += self.named(path, name) if is_used(local) else []
        for local, path in file.modules.items():
            if local in declaration.names and self.file(path):
                found += [d for name in declaration.names for d in self.named(path, name)]
        return found

    def under(self, theorem):
        """The theorem and all that it uses, directly or through others."""
        seen, open_ones = {theorem}, [theorem]
        while open_ones:
            for declaration in self.used_by(open_ones.pop()):
                if declaration not in seen:
                    seen.add(declaration)
                    open_ones.append(declaration)
        return seen

    def files_under(self, theorem):
        """The paths of the theorem's file and of all that it imports, directly or through others."""
        seen, open_ones = {theorem.file}, [theorem.file]
        while open_ones:
            file = self.file(open_ones.pop())
            for path in {path for path, _ in file.names.values()} | set(file.modules.values()):
                if path not in seen and self.file(path):
                    seen.add(path)
                    open_ones.append(path)
        return seen
