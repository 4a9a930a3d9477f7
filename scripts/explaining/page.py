"""The page of a call: what is printed, in which order, and how many lines of the repository it has."""
import html
import re
import textwrap
from dataclasses import dataclass, field

from explaining.closure import same_group
from explaining.contracts import contract_of, declared_in
from explaining.repository import head_of

WIDTH = 100
MEMBERS = "Members of traits"


@dataclass
class Block:
    """A piece of the sources with its place, and the names that it explains."""

    title: str
    place: str
    lines: list
    names: list = field(default_factory=list)
    notes: list = field(default_factory=list)

    @property
    def count(self):
        return sum(1 for line in self.lines if line.strip())


def dedented(lines):
    depth = min((len(it) - len(it.lstrip()) for it in lines if it.strip()), default=0)
    return [it[depth:].rstrip() for it in lines]


def source_lines(item, end=None):
    """The lines of an item as the file has them, up to a place."""
    text = item.file.text
    start = text.rfind("\n", 0, item.start) + 1
    return dedented(text[start : end or item.end].rstrip().split("\n"))


def as_docs(lines):
    return [f"/// {line}".rstrip() for line in lines]


def first_paragraph(docs):
    """The first paragraph, without a sentence that only introduces an example."""
    lines = docs[: docs.index("")] if "" in docs else docs
    if lines and lines[-1].endswith(":"):
        lines = textwrap.wrap(re.sub(r"(?:^|(?<=[.]) )[^.]*:$", "", " ".join(lines)), WIDTH)
    return as_docs(lines)


def without_examples(docs):
    """Documentation without its examples, the line that introduces each, and definitions of links."""
    kept, inside = [], False
    for line in docs:
        if line.startswith("```"):
            inside = not inside
        elif not inside and not line.startswith("(from ") and not re.match(r"\[[^]]*\]: ", line):
            kept.append(line)
    text = re.sub(r"\n{3,}", "\n\n", "\n".join(kept)).strip()
    paragraphs = text.split("\n\n")
    while paragraphs and paragraphs[-1].endswith(":"):
        paragraphs.pop()
    return "\n\n".join(paragraphs).split("\n") if any(paragraphs) else []


class Page:
    """All that is printed of a call or of a word."""

    def __init__(self, repository, title, closure):
        self.repository, self.title, self.closure = repository, title, closure
        self.contract = []
        self.sections = []
        types = [it for it in closure.nodes if it.kind in ("type", "const")]
        ghosts = [it for it in closure.nodes if it.kind in ("ghost", "given")]
        words = [it for it in closure.nodes if it.kind == "word"]
        self._section("Types", list(self._types([it.item for it in types])))
        self._section(MEMBERS, self._ghosts(ghosts))
        self._section("Words of specs/, each after those that it needs", self._words(words))

    def _section(self, title, blocks):
        if blocks:
            self.sections.append((title, blocks))

    @property
    def blocks(self):
        return [block for _, blocks in self.sections for block in blocks]

    @property
    def definitions(self):
        return sum(len(block.names) for block in self.blocks)

    @property
    def lines(self):
        return sum(block.count for block in self.blocks)

    @property
    def summary(self):
        kit = len(self.closure.kit)
        return f"{self.definitions} definitions, {self.lines} lines of this repository; {kit} words of std"

    def place(self, file, line):
        return f"{self.repository.shown(file)}:{line}"

    # ---- the contract

    def with_call(self, call):
        item = call.item
        clauses, given = contract_of(self.repository, item)
        place = self.place(item.file.file, item.line)
        owner = item.owner
        docs = as_docs(without_examples(item.docs or self._docs_of_trait(item, clauses)))
        head = owner.signature.split("\n") if owner and owner.kind == "impl" else []
        if head:
            head = [*as_docs(without_examples(owner.docs)), *head]
        lines = [*head, *docs, *source_lines(item, item.body[0] if item.body else None)]
        self.contract.append(Block(call.name, place, lines))
        for trait, function in clauses:
            if function is not item:
                docs = as_docs(without_examples(function.docs))
                lines = [*docs, *source_lines(function, function.body[0] if function.body else None)]
                title = f"its contract is that of {trait.name}::{function.name}"
                self.contract.append(Block(title, self.place(trait.file.file, function.line), lines))
        self.contract[0].notes.extend(self._note(item, clauses, given))
        return self

    def _docs_of_trait(self, item, clauses):
        """What a trait says of a call that an impl documents nowhere, where the page does not show the trait's own."""
        trait = self.repository.named(item.owner.file, head_of(item.owner.of_trait)) if item.owner else None
        if trait is None or any(function is not item for _, function in clauses):
            return []
        declared = declared_in(self.repository, trait, item.name)
        return declared[1].docs if declared else []

    def _note(self, item, clauses, given):
        """What stands in place of clauses that the sources here do not have."""
        if any(function.clauses for _, function in clauses):
            return
        owner = item.owner
        trait = head_of(owner.of_trait) if owner else ""
        if trait and not self.repository.named(owner.file, trait):
            more = "with what the impl says below" if given else "to which the impl adds nothing"
            yield f"Its contract is that of std's `{trait}::{item.name}`, {more}."
        else:
            yield "It has no clause: what is proved is that it is safe and returns."

    # ---- types

    def _types(self, items):
        """A block for each type. An alias has the model of the type behind it in its own block."""
        behind = {}
        for item in items:
            if item.kind == "type":
                target = self.repository.named(item.file, head_of(item.target))
                if target in items and self._model(target):
                    behind.setdefault(id(target), item)
        for item in items:
            if id(item) in behind:
                continue
            target = next((it for it in items if behind.get(id(it)) is item), None)
            yield self._type(item, self._model(target or item))

    def _model(self, item):
        return self.repository.model_of(item) if item.kind == "struct" else None

    def _type(self, item, model):
        place = self.place(item.file.file, item.line)
        lines = [*first_paragraph(item.docs)]
        if item.kind == "type" or not model:
            lines.extend(self._without_attributes(item))
        block = Block(item.name, place, lines, [item.name])
        if model:
            members = [it for name in ("Value", "view", "invariant") if (it := model.member(name))]
            lines.extend(source_lines(model, model.body[0]))
            lines.extend(f"    {line}" for it in members for line in source_lines(it))
            block.notes.extend(self._unread(model, members))
        elif item.kind == "struct":
            impl, owned = self.repository.ownership_of(item)
            lines.extend(source_lines(impl, impl.body[0]) if owned else [])
            lines.extend(f"    {line}" for it in owned for line in source_lines(it))
        return block

    def _without_attributes(self, item):
        return [it for it in source_lines(item) if not it.strip().startswith(("#[", "//")) or it.strip().startswith("///")]

    def _unread(self, model, members):
        """Words that say how fields stand for the value: a caller sees the value alone, so the page has none of them."""
        shown = {node.item.name for node in self.closure.nodes if node.kind == "word"}
        imports = {**model.file.imports, **model.imports}
        words = {}
        for member in members:
            if member.name != "Value":
                for word in re.findall(r"[\w']+", " ".join(member.braces)):
                    target = imports.get(word)
                    module = self.repository.module(target.path) if target and target.name else None
                    found = module and module.definitions.get(target.name)
                    if found and word not in shown:
                        words[word] = self.place(module.file, found.line)
        if words:
            text = ", ".join(f"{word} ({place})" for word, place in words.items())
            said = "No caller sees how the fields stand for the value, so what that rests on is not on this page"
            return [f"{said}: {text}."]
        return []

    # ---- members of traits

    def _ghosts(self, nodes):
        blocks, traits = [], set()
        for node in nodes:
            item, owner = node.item, node.item.owner or node.owner
            lines = []
            if node.kind == "ghost" and owner.name not in traits:
                traits.add(owner.name)
                lines.extend([*first_paragraph(owner.docs), *source_lines(owner, owner.body[0])])
                lines.extend(f"    {it}" for it in self._documented(item))
            elif node.kind == "ghost":
                lines.extend(f"    {it}" for it in self._documented(item))
            else:
                lines.extend([*first_paragraph(owner.docs), *source_lines(owner, owner.body[0])])
                lines.extend(f"    {it}" for it in source_lines(item))
            for impl, given in self.closure.values.get(id(item), ()):
                lines.extend(f"    {it}" for it in [f"// of {' '.join(impl.target.split())}:", *source_lines(given)])
            title = f"{owner.name}.{item.name}"
            if node.kind == "given":
                title = f"{item.name}, as {' '.join(owner.target.split())} has it"
            blocks.append(Block(title, self.place(item.file.file, item.line), lines, [item.name]))
        return blocks

    def _documented(self, item):
        return [*as_docs(without_examples(item.docs)), *source_lines(item)]

    # ---- words

    def _words(self, nodes):
        blocks, header = [], ()
        for node in nodes:
            word = node.item
            lines = word.module.lines
            shown = []
            if word.headers and (word.module.path, word.headers) != header:
                for start, end in word.headers:
                    shown.extend(lines[start:end])
            header = (word.module.path, word.headers)
            names = [it.name for it in same_group(word)]
            end = word.end if word.kind != "lemma" else word.parts[0] + 1
            shown.extend(lines[word.start : end])
            blocks.append(Block(" and ".join(names), self.place(word.module.file, word.line), dedented(shown), names))
        return blocks

    # ---- what is left

    def rest(self):
        """Lines that name what the page does not explain: types by their row, and words of std and of the kit."""
        lines = []
        if self.closure.rows:
            lines.append("Types as the logic names them (what a borrow of one is):")
            for (type_, name), item in self.closure.rows.items():
                lines.append(f"    {name} of {type_}  {self.place(item.file.file, item.line)}")
        if self.closure.kit:
            by_module = {}
            for path, name in sorted(self.closure.kit):
                by_module.setdefault(path.removeprefix("Rattle."), []).append(name)
            lines.append("Of std and of the kit (`rt lemma WORD` shows one):")
            lines.extend(f"    {path}: {'  '.join(names)}" for path, names in by_module.items())
        return lines


def heading(title, place):
    return f"{title}{' ' * max(2, WIDTH - len(title) - len(place))}{place}"


def as_text(page):
    out = []
    for block in page.contract:
        out.extend([heading(block.title, block.place), "", *(f"    {it}" for it in block.lines), "", *block.notes])
    for title, blocks in page.sections:
        out.extend(["", f"== {title} ==", ""])
        for block in blocks:
            out.append(heading(block.title, block.place))
            out.extend(f"    {it}".rstrip() for it in [*block.lines, *(f"({note})" for note in block.notes)])
            out.append("")
    out.extend(["", *page.rest(), "", page.summary])
    return re.sub(r"\n{3,}", "\n\n", "\n".join(out))


STYLE = (
    "body{max-width:60rem;margin:2rem auto;font:16px sans-serif}pre{background:#f6f6f6;padding:.6rem;overflow-x:auto}"
    "h3{margin-bottom:.2rem}small{color:#666}a{text-decoration:none}"
)


def as_html(page):
    anchors = {name: f"d{at}" for at, block in enumerate(page.blocks) for name in block.names}
    members = {name for title, blocks in page.sections if title == MEMBERS for block in blocks for name in block.names}
    head = f'<meta charset="utf-8"><title>{html.escape(page.title)}</title><style>{STYLE}</style>'
    out = [f'<!DOCTYPE html><html lang="en">{head}']
    out.extend(block_html(block, 1 if at == 0 else 2, "", anchors, members) for at, block in enumerate(page.contract))
    for title, blocks in page.sections:
        out.append(f"<h2>{html.escape(title)}</h2>")
        out.extend(block_html(block, 3, anchors[block.names[0]], anchors, members) for block in blocks)
    out.append(f"<pre>{html.escape(chr(10).join(page.rest()))}</pre><p>{html.escape(page.summary)}</p></html>")
    return "\n".join(out) + "\n"


def block_html(block, level, anchor, anchors, members):
    notes = "".join(f"<p>{html.escape(it)}</p>" for it in block.notes)
    at = f' id="{anchor}"' if anchor else ""
    code = linked("\n".join(block.lines), anchors, members)
    title = f"<h{level}{at}>{html.escape(block.title)}</h{level}><small>{html.escape(block.place)}</small>"
    return f"{title}<pre>{code}</pre>{notes}"


def linked(text, anchors, members):
    """The text with a link at each name that the page explains; at a trait's member where it stands behind a dot."""

    def link(found):
        name, anchor = found[0], anchors.get(found[0])
        is_other = name in members and text[found.start() - 1] != "."
        return f'<a href="#{anchor}">{html.escape(name)}</a>' if anchor and not is_other else html.escape(name)

    return re.sub(r"[\w'₁]+|[^\w'₁]+", link, text)
