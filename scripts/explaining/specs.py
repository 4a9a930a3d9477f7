"""The modules of specs/: their imports, and their definitions as they stand in the file."""
import re
from dataclasses import dataclass, field

from explaining.terms import Reader, parsed

IMPORT = re.compile(r"^[ \t]*(?:ghost )?use ([\w.]+?)(?:\.\{([^}]*)\})?(?: as (\w+))?[ \t]*;?[ \t]*$", re.MULTILINE)
HEAD = re.compile(r"(?:abbrev |unfoldable )?(?:pub )?(record |data )?([^\s:({]+)")
CLOSERS = ("}", ")", "})", "]", "])")
DEFINES = re.compile(r"((?:abbrev|unfoldable) )?pub (?!mod\b|use\b)")
PRIVATE = re.compile(r"(?:abbrev |unfoldable )?[^\s:({=]+ :")


@dataclass(frozen=True)
class Import:
    """What a name that is brought in stands for: `name` of the module at `path`, or the module itself."""

    path: str
    name: str | None


def imports_of(text):
    found = {}
    for path, names, alias in IMPORT.findall(text):
        for name in filter(None, (it.strip() for it in names.split(","))):
            one, _, other = name.partition(" as ")
            found[other or one] = Import(path, one)
        if alias:
            found[alias] = Import(path, None)
    return found


@dataclass(eq=False)
class Definition:
    """A definition of specs/, with the comment above it."""

    module: "Module"
    name: str
    kind: str
    start: int
    end: int
    headers: tuple = ()
    group: int | None = None
    parts: tuple = ()
    uses: list = field(default_factory=list)

    @property
    def line(self):
        """The number of the line that defines it."""
        lines = self.module.lines
        return next(at for at in range(self.start, self.end) if not lines[at].lstrip().startswith("--")) + 1

    @property
    def comment(self):
        lines = (it.strip() for it in self.module.lines[self.start : self.end])
        return " ".join(it[2:].strip() for it in lines if it.startswith("--"))


def indent_of(line):
    return len(line) - len(line.lstrip())


def is_blank(line):
    return not line.strip() or line.lstrip().startswith("--")


def is_closer(line):
    return line.strip() in CLOSERS


class Module:
    """A file of specs/."""

    def __init__(self, file, path):
        self.file, self.path = file, path
        self.lines = file.read_text(encoding="utf-8").splitlines()
        self.imports = imports_of("\n".join(self.lines))
        self.definitions, self.constructors, self.headers = {}, {}, {}
        self._groups = 0
        self._read_block(0, len(self.lines), (), None)

    def title(self):
        """What the first line says of the module."""
        return self.lines[0].removeprefix("--").strip() if self.lines and self.lines[0].startswith("--") else ""

    def _block_end(self, start, end):
        """Where the lines end that are deeper than this one."""
        at, depth = start + 1, indent_of(self.lines[start])
        while at < end and (is_blank(self.lines[at]) or indent_of(self.lines[at]) > depth or is_closer(self.lines[at])):
            at += 1
        while is_blank(self.lines[at - 1]):
            at -= 1
        return at

    def _definition_end(self, start, end, name):
        """The same, with the clauses of the name behind it, and the line of what they unfold."""
        at = self._block_end(start, end)
        while at < end and re.match(rf"(?:unfolding|{re.escape(name)})(?: |$)", self.lines[at].strip()):
            at = self._block_end(at, end)
        return at

    def _comment_start(self, at):
        while at > 0 and self.lines[at - 1].lstrip().startswith("--") and at > 1:
            at -= 1
        return at

    def _read_block(self, start, end, headers, group):
        at = start
        while at < end:
            line = self.lines[at].strip()
            if is_blank(line) or line.startswith(("use ", "pub mod ", "mod ", "pub use ")):
                at += 1
            elif line.startswith("module "):
                at = self._read_module(at, end, headers, group)
            elif line in ("mutual", "abbrev mutual"):
                self._groups += 1
                last = self._block_end(at, end)
                self._read_block(at + 1, last, headers, self._groups)
                self._widen(self._groups, at, last)
                at = last
            elif DEFINES.match(line) or PRIVATE.match(line):
                at = self._read_definition(at, end, headers, group)
            else:
                raise ValueError(f"{self.file}:{at + 1}: neither a definition nor a module: {line}")

    def _read_module(self, at, end, headers, group):
        body = at
        while not self.lines[body].rstrip().endswith(" where"):
            body += 1
        header = (at, body + 1)
        text = " ".join(self.lines[at : body + 1]).strip()
        self.headers[header] = parsed(text.removeprefix("module _").removesuffix("where"))
        last = self._block_end(at, end)
        self._read_block(body + 1, last, (*headers, header), group)
        return last

    def _widen(self, group, start, end):
        """Makes the whole `mutual` block the text of each of its definitions."""
        for definition in self.definitions.values():
            if definition.group == group:
                definition.start, definition.end = self._comment_start(start), end

    def _read_definition(self, at, end, headers, group):
        line = self.lines[at].strip()
        kind, name = HEAD.match(line).groups()
        last = self._definition_end(at, end, name)
        # What is no abbreviation is a lemma: its text is a proof, which nobody has to read.
        kind = kind or ("word" if line.startswith(("abbrev ", "unfoldable ")) or group else "lemma")
        found = Definition(self, name, kind.strip(), self._comment_start(at), last, headers, group, (at, last))
        self.definitions[name] = found
        if found.kind == "data":
            for line in self.lines[at + 1 : last]:
                constructor = re.match(r"\s+([^\s:]+) :", line)
                if constructor:
                    self.constructors[constructor[1]] = found
        return last

    # ---- what a definition uses

    def is_constructor(self, name):
        return name in self.constructors or (name in self.imports and name[0].isupper())

    def uses_of(self, definition):
        """The words of a definition, each once."""
        if not definition.uses:
            reader = Reader(self.is_constructor)
            bound = set()
            for header in definition.headers:
                bound = reader.term(self.headers[header], bound)
            start, end = definition.parts
            getattr(self, f"_read_{definition.kind}")(reader, self.lines[start:end], bound)
            definition.uses = list(dict.fromkeys(reader.uses))
        return definition.uses

    def _members(self, lines):
        """The fields or constructors in these lines: name and type of each."""
        text, depth = [], indent_of(lines[0])
        for line in lines:
            if is_blank(line):
                continue
            if indent_of(line) == depth:
                text.append(line.strip())
            else:
                text[-1] += " " + line.strip()
        for member in text:
            name, _, type_ = member.removeprefix("pub ").partition(" : ")
            yield name, type_

    def _head_and_body(self, lines):
        at = 0
        while not lines[at].rstrip().endswith(" where"):
            at += 1
        head = " ".join(lines[: at + 1]).strip().removesuffix("where")
        return HEAD.sub("", head, count=1), lines[at + 1 :]

    def _read_record(self, reader, lines, bound):
        head, body = self._head_and_body(lines)
        bound = reader.term(parsed(head), bound)
        if any(not is_blank(line) for line in body):
            for name, type_ in self._members(body):
                reader.term(parsed(type_), bound)
                bound = bound | {name}

    def _read_data(self, reader, lines, bound):
        head, body = self._head_and_body(lines)
        bound = reader.term(parsed(head), bound)
        for _, type_ in self._members(body):
            reader.term(parsed(type_), bound)

    def _clauses(self, lines):
        """The type of a word, and its clauses, one string each."""
        depth, clauses = indent_of(lines[0]), []
        for line in lines:
            if is_blank(line):
                continue
            if indent_of(line) == depth and not is_closer(line):
                clauses.append(line.strip())
            else:
                clauses[-1] += " " + line.strip()
        return clauses[0].partition(" : ")[2], clauses[1:]

    def _read_lemma(self, reader, lines, bound):
        reader.term(parsed(self._clauses(lines)[0]), bound)

    def _read_word(self, reader, lines, bound):
        type_, clauses = self._clauses(lines)
        reader.term(parsed(type_), bound)
        for clause in clauses:
            tokens = parsed(clause)
            at = tokens.index("=")
            reader.term(tokens[at + 1 :], reader.pattern(tokens[1:at], bound))
