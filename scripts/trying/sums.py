"""What the trial of a mutant rests on, as a sum of texts without comments and layout.

It is the edit; each function that it edits, with that function's folder of proofs/; the contract of each call that these
name; and each definition, type, trait and impl that all of this names, with what these name in turn, in this crate and in
those below. Bodies of other functions and lemmas are no part of it, since a false goal stays false whatever they are; nor
are the private fields of a crate below. An edit of more than bodies rests on all of its crate. Items are found by their
names alone, so that a sum takes in too much rather than too little."""
import hashlib
import re
from functools import cache

from explaining.repository import head_of
from explaining.rust import HIDDEN, File, end_of_group, masked, split_list

TOKENS = re.compile(r"\w+|[^\s(){}\[\],;.⟦⟧λ]+")
MACRO = re.compile(r"^macro_rules! (\w+) \{\n.*?^\}", re.MULTILINE | re.DOTALL)
VARIANT = re.compile(r"^\s+([A-Z]\w*)", re.MULTILINE)
# What a model says of the private fields, which the crates above do not see.
OF_FIELDS = ("view", "invariant")


def plain(text):
    """A text of src/ without comments and layout."""
    return " ".join(HIDDEN.sub(lambda it: " " if it[0].startswith(("//", "/*")) else it[0], text).split())


def plain_terms(text):
    """The same of specs/ and proofs/."""
    return " ".join(re.sub(r"(^|\s)--.*", r"\1", text).split())


@cache
def words(text):
    return frozenset(TOKENS.findall(text)) | frozenset(re.findall(r"[\w']+", text))


class Text:
    """A text in place of a file of sources."""

    def __init__(self, text):
        self.text = text

    def read_text(self, encoding):
        return self.text


class Piece:
    """What some names lead to: a text, with the names that it brings in. To the contract of a call only code leads."""

    def __init__(self, names, text, aliases, is_call=False):
        self.names, self.text, self.is_call = frozenset(names), text, is_call
        found = words(text)
        self.words = found | {aliases[it] for it in found & aliases.keys()}


def aliases_of(source):
    """The names that a file or module brings in under another name."""
    found = {name: it.name for name, it in source.imports.items() if it.name and it.name != name}
    found.update({name: parts[-1] for name, parts in getattr(source, "uses", {}).items() if parts[-1] != name})
    return {name.strip(): it.partition(" as ")[0] for name, it in found.items()}


def attributes(item):
    """The attributes above an item."""
    above = item.file.masked[: item.start].rstrip()
    start = max(above.rfind(it) for it in ("}", ";", "{", "\n\n")) + 1
    return plain(item.file.text[start : item.start])


def functions(items):
    """The functions among these items and inside them, in the order of the file."""
    for item in items:
        if item.kind == "fn":
            yield item
        yield from functions(item.items)


def without_bodies(file):
    """A file's text without the bodies of its functions."""
    text, last = [], 0
    for function in functions(file.items):
        if function.body:
            text.append(file.text[last : function.body[0]])
            last = function.body[1]
    return plain(" ".join([*text, file.text[last:]]))


def contract(function):
    owner = function.owner
    return f"{owner.kind + ' ' + owner.head if owner else ''} {attributes(function)} {plain(function.signature)}"


def public_part(item):
    """A type without its private fields."""
    text = plain(item.text)
    opener = re.search(r"[{(]", masked(text)) if item.kind == "struct" else None
    if not opener:
        return text
    end = end_of_group(masked(text), opener.start())
    fields = [it for it in split_list(text[opener.end() : end - 1]) if re.match(r"(?:#\[.*\] )?pub ", it)]
    return f"{text[: opener.start()]} {fields} {text[end:]}"


def pieces_of_items(items, is_own, aliases):
    """The pieces of a file's items: those of a crate below are its public ones."""
    for item in items:
        if item.kind == "mod":
            yield from pieces_of_items(item.items, is_own, aliases)
        elif item.kind == "impl":
            yield from pieces_of_impl(item, is_own, aliases)
        elif not is_own and not item.is_public:
            continue
        elif item.kind == "fn":
            yield Piece([item.name], contract(item), aliases, is_call=True)
        elif item.kind == "trait":
            members = [it for it in item.items if it.kind != "fn"]
            text = " ".join([item.head, *(plain(it.text) for it in members)])
            yield Piece([item.name, *(it.name for it in members)], text, aliases)
            yield from (Piece([it.name], contract(it), aliases, is_call=True) for it in item.items if it.kind == "fn")
        else:
            text = plain(item.text) if is_own else public_part(item)
            names = [item.name, *VARIANT.findall(item.text)] if item.kind == "enum" else [item.name]
            yield Piece(names, f"{attributes(item)} {text}", aliases)


def pieces_of_impl(impl, is_own, aliases):
    target, trait = head_of(impl.target), head_of(impl.of_trait)
    methods = [it for it in impl.items if it.kind == "fn"]
    members = [it for it in impl.items if it.kind != "fn" and (is_own or trait != "Model" or it.name not in OF_FIELDS)]
    facts = " ".join([f"impl {impl.head}", *(plain(it.text) for it in members)])
    if trait:
        # By an operator, a `?` or a loop a method is called without its name.
        yield Piece([target or trait], " ".join([facts, *map(contract, methods)]), aliases)
        yield from (Piece([it.name], contract(it), aliases, is_call=True) for it in methods)
        return
    if members:
        yield Piece([target, *(it.name for it in members)], facts, aliases)
    for method in methods:
        if is_own or method.is_public:
            yield Piece([method.name], contract(method), aliases, is_call=True)


def pieces_of_module(module):
    aliases = aliases_of(module)
    constructors = {}
    for name, definition in module.constructors.items():
        constructors.setdefault(definition.name, []).append(name)
    for definition in module.definitions.values():
        spans = [*definition.headers, (definition.start, definition.end)]
        text = plain_terms("\n".join("\n".join(module.lines[slice(*it)]) for it in spans))
        names = [definition.name, *filter(None, definition.name.split("◌")), *constructors.get(definition.name, ())]
        yield Piece(names, text, aliases)


class Sums:
    """The sums of a repository's mutants."""

    def __init__(self, repository):
        self.repository = repository
        self._indices = {}

    def below(self, crate):
        """The crates of the repository that this one builds on, in a fixed order."""
        found, left = set(), [crate]
        while left:
            for it in self.repository.crates[left.pop()]:
                if it in self.repository.crates and it not in found:
                    found.add(it)
                    left.append(it)
        return sorted(found)

    def _pieces(self, crate, is_own):
        """The crate's pieces by the names that lead to them."""
        if (crate, is_own) not in self._indices:
            index = {}
            for piece in self._read(crate, is_own):
                for name in piece.names:
                    index.setdefault(name, []).append(piece)
            self._indices[crate, is_own] = index
        return self._indices[crate, is_own]

    def _read(self, crate, is_own):
        for file in self.repository.crate(crate).files.values():
            aliases = aliases_of(file)
            yield from pieces_of_items(file.items, is_own, aliases)
            for macro in MACRO.finditer(file.text):
                yield Piece([macro[1]], plain(macro[0]), aliases)
        for module in self.repository.modules_of(crate):
            yield from pieces_of_module(module)

    def _led_to(self, crate, code, names=frozenset()):
        """The texts of all pieces to which the names of code and these others lead."""
        indices = [self._pieces(crate, True), *(self._pieces(it, False) for it in self.below(crate))]
        found = [it for name in code for index in indices for it in index.get(name, ()) if it.is_call]
        texts, seen = {it.text for it in found}, set()
        left = set(code).union(names, *(it.words for it in found))
        while left:
            name = left.pop()
            seen.add(name)
            for piece in (it for index in indices for it in index.get(name, ()) if not it.is_call):
                if piece.text not in texts:
                    texts.add(piece.text)
                    left |= piece.words - seen
        return sorted(texts)

    def of(self, crate, edit):
        """The sum of what the trial of this edit rests on, and its functions; None where it cannot be applied."""
        folder, pairs = self.repository.crate(crate).folder, pairs_of(edit)
        edited = texts_after(pairs, folder)
        if edited is None:
            return None
        texts, proofs, aliases = ["\n".join(map(" ".join, pairs))], [], {}
        for path, text in sorted(edited.items()):
            module = ".".join(path.removeprefix("src/").removesuffix(".rt").split("/"))
            file = self.repository.crate(crate).files.get("" if module in ("lib", "main") else module)
            found = edited_functions(file, File(Text(text), module)) if file else None
            if found is None:
                return self._of_crate(crate, folder, texts)
            aliases.update(aliases_of(file))
            for one, other in found:
                texts += [contract(one), plain(one.text), plain(other.text)]
                proofs += proofs_of(folder, file.module, one.name)
        code = set().union(*map(words, texts))
        code |= {aliases[it] for it in code & aliases.keys()}
        return total([*texts, *proofs, *self._led_to(crate, code, set().union(*map(words, proofs)))])

    def _of_crate(self, crate, folder, texts):
        """The sum of an edit of more than bodies."""
        for part, ending, read in (("src", "rt", plain), ("specs", "antt", plain_terms), ("proofs", "antt", plain_terms)):
            files = sorted(folder.glob(f"{part}/**/*.{ending}"))
            texts = [*texts, *(read(it.read_text(encoding="utf-8")) for it in files)]
        return total([*texts, *self._led_to(crate, set().union(*map(words, texts)))])


def total(texts):
    return hashlib.sha256("\n".join(texts).encode()).hexdigest()[:16]


def pairs_of(edit):
    """The file, the old text and the new one of each pair of an edit."""
    path, old, pairs = "", "", []
    for line in edit.read_text(encoding="utf-8").split("\n"):
        kind, _, rest = line.partition(":")
        rest = rest.removeprefix(" ")
        if kind == "file":
            path = rest.strip()
        elif kind == "old":
            old = rest
        elif kind == "new":
            pairs.append((path, old, rest))
    return pairs


def texts_after(pairs, folder):
    """The texts of the files that an edit changes, or None where one of its old texts does not stand there once."""
    texts = {}
    for path, old, new in pairs:
        file = folder / path
        text = texts[path] if path in texts else file.read_text(encoding="utf-8") if file.is_file() else ""
        if text.count(old) != 1 or not old:
            return None
        texts[path] = text.replace(old, new)
    return texts


def edited_functions(before, after):
    """The functions whose bodies differ, each with the edited one, or None where more differs."""
    if without_bodies(before) != without_bodies(after):
        return None
    pairs = list(zip(functions(before.items), functions(after.items)))
    return [(one, other) for one, other in pairs if plain(one.text) != plain(other.text)]


def proofs_of(folder, module, name):
    """What is written of the proofs of the module's functions with this name."""
    there = folder.joinpath("proofs", *filter(None, module.split(".")))
    files = sorted(it for it in there.glob("**/*.antt") if name in it.relative_to(there).parts)
    return [plain_terms(it.read_text(encoding="utf-8")) for it in files]
