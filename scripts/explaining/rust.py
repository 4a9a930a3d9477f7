"""The sources of a crate: its functions with their contracts, its types, traits and impls."""
import bisect
import re
from dataclasses import dataclass, field

from explaining.specs import imports_of

HIDDEN = re.compile(r'//[^\n]*|/\*.*?\*/|b?"(?:\\.|[^"\\])*"|b?\'(?:\\.[^\']*|[^\\\'])\'', re.DOTALL)
ITEM = re.compile(
    r"(?P<public>pub(?:\([^)]*\))?\s+)?(?:(?:unsafe|final|extern\s*\"\s*\"|const(?=\s+(?:unsafe\s+)?(?:extern|fn)\b))\s+)*"
    r"(?P<kind>ghost use|ghost|fn|trait|impl|struct|enum|type|const|mod|use|macro_rules!|[\w:]+!)\s*(?P<name>[\w]*)"
)
CLAUSE = re.compile(r"\b(requires|ensures|reads)(\*?)\s*(\w*)\s*(?=\{)")
OPENERS, CLOSERS = "([{", ")]}"


@dataclass
class Clause:
    kind: str
    label: str
    text: str


@dataclass(eq=False)
class Item:
    """An item of a file, with the lines of documentation above it."""

    file: "File"
    kind: str
    name: str
    public: str
    start: int
    end: int
    head: str = ""
    body: tuple | None = None
    owner: "Item | None" = None
    items: list = field(default_factory=list)
    imports: dict = field(default_factory=dict)
    clauses: list = field(default_factory=list)
    generics: dict = field(default_factory=dict)
    associated: dict = field(default_factory=dict)
    arguments: list = field(default_factory=list)
    target: str = ""
    of_trait: str = ""
    supers: list = field(default_factory=list)
    result: str = ""

    @property
    def line(self):
        return self.file.line_at(self.start)

    @property
    def docs(self):
        return self.file.docs_above(self.start)

    @property
    def text(self):
        return self.file.text[self.start : self.end]

    @property
    def is_public(self):
        return self.public == "pub"

    @property
    def signature(self):
        """The item up to its body, as the source has it."""
        end = self.body[0] if self.body else self.end
        return self.file.text[self.start : end].rstrip()

    @property
    def braces(self):
        """What a ghost member has between braces: its type, or what it is; then what it is where no impl says so."""
        return in_braces(self.head)

    def member(self, name, kinds=("ghost", "const", "type", "fn")):
        return next((it for kind in kinds for it in self.items if it.kind == kind and it.name == name), None)


def masked(text):
    """The text with comments, strings and characters blanked out, at the same places."""
    def blank(found):
        it = found[0]
        if it[0] == '"':
            return '"' + " " * (len(it) - 2) + '"'
        return re.sub(r"[^\n]", " ", it)

    return HIDDEN.sub(blank, text)


def end_of_group(text, at):
    """Where the bracket at this place is closed, one behind it. Angle brackets count for `<` alone."""
    opener = text[at]
    if opener == "<":
        return end_of_angles(text, at)
    depth = 0
    while at < len(text):
        depth += (text[at] in OPENERS) - (text[at] in CLOSERS)
        at += 1
        if depth == 0:
            return at
    return at


def in_braces(text):
    """What stands between the outer braces of a text."""
    parts, at = [], 0
    while (at := text.find("{", at)) >= 0:
        end = end_of_group(text, at)
        parts.append(text[at + 1 : end - 1])
        at = end
    return parts


def end_of_angles(text, at):
    depth = 0
    while at < len(text):
        if text[at] == "<":
            depth += 1
        elif text[at] == ">" and text[at - 1] not in "-=":
            depth -= 1
            if depth == 0:
                return at + 1
        elif text[at] in OPENERS:
            at = end_of_group(text, at) - 1
        at += 1
    return at


def split_list(text, mark=","):
    """The parts of a list between marks that are in no brackets."""
    parts, depth, last = [], 0, 0
    for at, char in enumerate(text):
        if char in "([{<":
            depth += 1
        elif char in ")]}" or (char == ">" and text[at - 1] not in "-="):
            depth -= 1
        elif char == mark and depth == 0:
            parts.append(text[last:at])
            last = at + 1
    parts.append(text[last:])
    return [it.strip() for it in parts if it.strip()]


def cut_at_equals(text):
    """What stands before and behind a `=` that is in no brackets."""
    head, *rest = split_list(f"_{text}", "=")
    return head[1:], " = ".join(rest)


def bounds_of(text):
    return [it.removeprefix("?") for it in split_list(text.replace("'_ ", ""), "+") if not it.startswith("'")]


def parameters_of(text):
    """The parameters of a generic item: the bounds of each type, and None for each constant."""
    found = {}
    for part in split_list(text):
        if part.startswith("'"):
            continue
        part = part.partition("=")[0].strip()
        if part.startswith("const "):
            found[part.removeprefix("const ").partition(":")[0].strip()] = None
        else:
            name, _, bounds = part.partition(":")
            found[name.strip()] = bounds_of(bounds)
    return found


def where_of(text):
    """The bounds that a `where` gives, by type."""
    found = {}
    for part in split_list(text):
        name, colon, bounds = part.partition(":")
        if colon and not name.strip().startswith("'"):
            found.setdefault(name.strip(), []).extend(bounds_of(bounds))
    return found


class File:
    """A file of sources."""

    def __init__(self, file, module):
        self.file, self.module = file, module
        self.text = file.read_text(encoding="utf-8")
        self.masked = masked(self.text)
        self.lines = self.text.splitlines()
        self.starts = [0, *(it.end() for it in re.finditer("\n", self.text))]
        self.items, self.imports, self.uses = [], {}, {}
        self.reexports = []
        for item in self._items(0, len(self.text), None):
            self.items.append(item)

    def line_at(self, at):
        return bisect.bisect_right(self.starts, at)

    def docs_above(self, at):
        """The documentation above an item, without its slashes."""
        line, docs = self.line_at(at) - 2, []
        while line >= 0 and self.lines[line].strip().startswith(("//", "#[")):
            text = self.lines[line].strip()
            if text.startswith("///"):
                docs.append(text[3:].removeprefix(" "))
            line -= 1
        return docs[::-1]

    # ---- items

    def _items(self, at, end, owner):
        while True:
            at = self._skip(at, end)
            if at >= end:
                return
            found = ITEM.match(self.masked, at, end)
            if not found:
                at = self._end(at, end)
                continue
            last = self._end(found.end(), end, found["kind"])
            yield from self._item(found, at, last, owner)
            at = last

    def _skip(self, at, end):
        """Past blanks and attributes."""
        while at < end:
            if self.masked[at].isspace():
                at += 1
            elif self.masked.startswith("#", at):
                at = end_of_group(self.masked, self.masked.index("[", at))
            else:
                break
        return at

    def _end(self, at, end, kind=""):
        """Where the item ends: behind `;` or behind its body."""
        if kind == "fn":
            return self._function_end(at, end)
        while at < end:
            char = self.masked[at]
            if char == ";":
                return at + 1
            if char in OPENERS:
                at = end_of_group(self.masked, at)
                if char == "{" and kind not in ("ghost", "ghost use", "use", "const", "type"):
                    return at
                continue
            at += 1
        return end

    def _function_end(self, at, end):
        while at < end:
            clause = CLAUSE.match(self.masked, at)
            if clause:
                at = end_of_group(self.masked, clause.end())
            elif self.masked[at] == ";":
                return at + 1
            elif self.masked[at] == "{":
                return end_of_group(self.masked, at)
            elif self.masked[at] in "([":
                at = end_of_group(self.masked, at)
            else:
                at += 1
        return end

    def _item(self, found, start, end, owner):
        kind, name = found["kind"], found["name"]
        public = (found["public"] or "").strip()
        if kind == "ghost use":
            (owner.imports if owner else self.imports).update(imports_of(" ".join(self.text[start:end].split())))
        elif kind == "use":
            self._use(self.masked[start:end], public)
        elif kind in ("fn", "trait", "impl", "struct", "enum", "type", "const", "ghost", "mod"):
            if kind == "mod" and self.masked[end - 1] == "}" and "cfg(test)" in self._attributes(start):
                return
            item = Item(self, kind, name, public, start, end, owner=owner)
            getattr(self, f"_read_{kind}", self._read_plain)(item, found.end())
            yield item

    def _attributes(self, start):
        return self.text[max(0, start - 80) : start].rpartition("\n\n")[2]

    def _use(self, text, public):
        """Keeps the names that a `use` brings in, each with its path."""
        path = re.sub(r"\s+", "", text.partition("use")[2].rstrip().rstrip(";"))
        for name in self._use_tree(path):
            parts = re.split(r"::", name)
            own, _, other = parts[-1].partition(" as ") if " as " in parts[-1] else (parts[-1], "", "")
            short = own
            if short == "self":
                parts = parts[:-1]
                short = parts[-1]
            self.uses[short] = parts
            if public == "pub":
                self.reexports.append(parts)

    def _use_tree(self, path):
        brace = path.find("{")
        if brace < 0:
            return [path]
        inner = path[brace + 1 : end_of_group(path, brace) - 1]
        return [path[:brace] + it for part in split_list(inner) for it in self._use_tree(part)]

    # ---- the kinds of items

    def _read_plain(self, item, at):
        item.head = self.text[item.start : item.end]
        item.generics = self._generics(at)[0]

    def _generics(self, at):
        if self.masked[at : at + 1] == "<":
            end = end_of_angles(self.masked, at)
            return parameters_of(self.masked[at + 1 : end - 1]), end
        return {}, at

    def _where(self, item, text):
        for name, bounds in where_of(text).items():
            if name in item.generics and item.generics[name] is not None:
                item.generics[name] = item.generics[name] + bounds
            else:
                item.associated.setdefault(name, []).extend(bounds)

    def _read_fn(self, item, at):
        item.generics, at = self._generics(at)
        while self.masked[at] != "(":
            at += 1
        end = end_of_group(self.masked, at)
        item.arguments = [it.partition(":") for it in split_list(self.masked[at + 1 : end - 1])]
        at, head_end = end, None
        while at < item.end:
            clause = CLAUSE.match(self.masked, at)
            if clause or self.masked[at] in "{;":
                head_end = at if head_end is None else head_end
            if clause:
                close = end_of_group(self.masked, clause.end())
                text = self.text[clause.end() + 1 : close - 1]
                item.clauses.append(Clause(clause[1] + clause[2], clause[3], text))
                at = close
            elif self.masked[at] == "{":
                item.body = (at, item.end)
                break
            elif self.masked[at] == ";":
                break
            elif self.masked[at] in "([":
                at = end_of_group(self.masked, at)
            else:
                at += 1
        item.result, _, where = self.masked[end:head_end].partition("where")
        self._where(item, where)

    def _read_block(self, item, at):
        """The items between the braces of a trait or impl."""
        brace = at
        while self.masked[brace] != "{":
            brace = end_of_group(self.masked, brace) if self.masked[brace] in "([" else brace + 1
        item.body = (brace, item.end)
        item.head = " ".join(self.masked[at:brace].split())
        item.items = list(self._items(brace + 1, item.end - 1, item))

    def _read_trait(self, item, at):
        item.generics, at = self._generics(at)
        self._read_block(item, at)
        head, _, where = item.head.partition("where")
        item.supers = bounds_of(head.partition(":")[2])
        self._where(item, where)

    def _read_impl(self, item, at):
        at = item.start + len("impl")
        item.generics, at = self._generics(at)
        self._read_block(item, at)
        head, _, where = item.head.partition(" where ")
        self._where(item, where)
        trait, of, target = head.partition(" for ")
        item.of_trait, item.target = (trait.strip(), target.strip()) if of else ("", head.strip())

    def _read_type(self, item, at):
        item.generics, at = self._generics(at)
        head, target = cut_at_equals(self.masked[at : item.end - 1])
        item.target = " ".join(target.split())
        item.supers = bounds_of(head.partition(":")[2])

    def _read_ghost(self, item, at):
        text = self.text[at : item.end - 1].strip()
        item.head = text.lstrip(":=").strip()

    def _read_mod(self, item, at):
        if self.masked[item.end - 1] == "}":
            brace = self.masked.index("{", at)
            item.items = list(self._items(brace + 1, item.end - 1, None))
