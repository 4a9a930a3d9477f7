"""What the contract of a call rests on: types, ghost members, and words of specs/, each after those that it needs."""
import re
from dataclasses import dataclass, field

from explaining.contracts import contract_of, is_law, with_supers
from explaining.repository import arguments_of, head_of
from explaining.rust import Item, end_of_group, in_braces, split_list
from explaining.terms import SYNTAX, Reader, parsed

OF_AN_IMPL = re.compile(r"⟦<(.+?) as ([^⟧]+?)>⟧")
# The traits of std by which an iterator is read, and the members that say what it yields.
ITERATORS = ("Iterator", "DoubleEndedIterator")
YIELDS = ("Item", "next_gives", "remaining", "next_back_gives")
# The type of a member of a trait that is no function and no law: `ℕ`, `NodeType`.
OF_CONSTANTS = re.compile(r"\s*[\w.]+\s*")
# What every value behind a reference, and every type, has for contracts.
OF_BORROWS = {"now", "old", "new", "entry", "exit", "ghost_name", "row", "Denot", "coded"}


@dataclass
class Scope:
    """Where a term stands: what names mean there."""

    file: object = None
    owner: Item | None = None
    item: Item | None = None
    module: object = None

    @property
    def imports(self):
        if self.module:
            return self.module.imports
        return {**self.file.imports, **(self.owner.imports if self.owner else {})}

    def all_bounds(self, given):
        """The bounds of all type parameters but of those that are given."""
        found = []
        for it in (self.item, self.owner):
            for generics in (it.generics, it.associated) if it else ():
                for name, bounds in generics.items():
                    found.extend(bounds or [] if name not in given else [])
        return list(dict.fromkeys(found))

    def bounds(self, name):
        """The bounds of a type parameter; None where there is no parameter of this name."""
        found = None
        for it in (self.item, self.owner):
            for generics in (it.generics, it.associated) if it else ():
                if name in generics:
                    found = (found or []) + (generics[name] or [])
        return found


@dataclass(eq=False)
class Node:
    """A thing that the page explains: a word, a type, a ghost member, or a member that an impl gives."""

    kind: str
    item: object
    owner: object = None

    @property
    def key(self):
        if self.kind == "word" and self.item.group is not None:
            return (self.kind, id(self.item.module), self.item.group)
        return (self.kind, id(self.item))


@dataclass
class Closure:
    """All that a contract rests on. `values` has what each type gives for a constant of a trait, by the constant."""

    nodes: list = field(default_factory=list)
    kit: set = field(default_factory=set)
    rows: dict = field(default_factory=dict)
    members: set = field(default_factory=set)
    # The bounds of which a clause names all members at once.
    bounds: set = field(default_factory=set)
    unknown: set = field(default_factory=set)
    values: dict = field(default_factory=dict)


class Explorer:
    """Follows the words of a contract."""

    def __init__(self, repository):
        self.repository = repository
        self.closure = Closure()
        self._seen, self._words = set(), {}
        self._given_types, self._is_of_impl = {}, False

    # ---- where the words are

    def call(self, call):
        """Follows the types and the clauses of a call, and the laws of the traits that bound its types."""
        item = call.item
        scope = Scope(item.file, item.owner, item)
        self._given_types = call.given_types
        self._is_of_impl = bool(item.owner and item.owner.kind == "impl" and item.owner.of_trait)
        if call.alias:
            self._visit(Node("type", call.alias))
        self._signature(item, scope, call.alias is None)
        clauses, given = contract_of(self.repository, item)
        for owner, function in clauses:
            inherited = Scope(owner.file if owner else item.file, owner, function)
            if function is not item:
                self._signature(function, inherited)
            for clause in function.clauses:
                self._clause(clause.text, inherited, arguments_in(function))
        for member in given:
            self._visit(Node("given", member, member.owner))
        self._yields(item.result, scope)
        self._laws(scope)
        self._private_fields()
        return self.closure

    def _laws(self, scope):
        """The laws of the traits that bound the call's types: what the contract takes for granted of these types."""
        for bound in scope.all_bounds(self._given_types):
            trait = self.repository.named(scope.file, head_of(bound))
            for member in trait.items if trait else ():
                if member.kind == "ghost" and is_law(member):
                    self._visit(Node("ghost", member, trait))

    def _yields(self, result, scope):
        """What the iterator yields that a call returns."""
        for name in re.findall(r"(?<![\w'])([A-Z]\w*)", result):
            type_ = self.repository.resolved(self.repository.named(scope.file, name))
            for impl in self.repository.crate_of(type_.file).impls if type_ else ():
                named = self.repository.named(impl.file, head_of(impl.target))
                if head_of(impl.of_trait) in ITERATORS and self.repository.resolved(named) is type_:
                    for member in filter(None, (impl.member(it, ("type", "ghost")) for it in YIELDS)):
                        self._visit(Node("given", member, impl))

    def words(self, definitions):
        for definition in definitions:
            self._visit(Node("word", definition))
        self._private_fields()
        return self.closure

    def _signature(self, item, scope, with_self=True):
        """The types that the signature names, that of `self` first."""
        owner = item.owner
        if with_self and owner and owner.kind == "impl":
            self._types(owner.target, scope)
        for name, _, type_ in item.arguments:
            self._types(type_, scope)
        self._types(item.result, scope)

    def _types(self, text, scope):
        for name in re.findall(r"(?<![\w'])([A-Z]\w*)", text):
            if scope.bounds(name) is None and name != "Self":
                found = self.repository.named(scope.file, name)
                if found and found.kind != "trait":
                    self._visit(Node("type", found))

    def _clause(self, text, scope, bound):
        text, impls = without_impls(text)
        reader = Reader(lambda name: name in scope.imports and name[0].isupper())
        reader.term(parsed(text), bound)
        for use in dict.fromkeys(reader.uses):
            if use.word in impls:
                self._of_impl(*impls[use.word], use.members, scope)
            else:
                self._use(use, scope)

    def _braces(self, item, scope):
        for text in item.braces:
            self._clause(text, scope, set())

    # ---- what a word stands for

    def _use(self, use, scope):
        self.closure.members.update(use.members)
        # A word like `'a` is a lifetime of the source.
        if use.bound or use.word in SYNTAX or use.word.startswith("'"):
            return
        if self._is_parameter(use, scope):
            return
        if scope.module and self._in_module(use, scope.module):
            return
        if self._imported(use, scope):
            return
        if not scope.module and (self._ghost_of_owner(use, scope) or self._type_of_sources(use, scope)):
            return
        self.closure.unknown.add((use.word, scope.module.path if scope.module else scope.file.file.name))

    def _is_parameter(self, use, scope):
        if scope.module:
            return False
        if use.word == "Self":
            self._self_member(use.members, scope)
            return True
        bounds = scope.bounds(use.word)
        if bounds is None:
            return False
        self._member(bounds, use.members, scope, use.word)
        return True

    def _in_module(self, use, module):
        found = module.definitions.get(use.word) or module.constructors.get(use.word)
        if found:
            self._visit(Node("word", found))
        return found is not None

    def _imported(self, use, scope):
        names = [use.word, *self._operators(scope).get(use.word, ())]
        for name in names:
            if name in scope.imports:
                target = scope.imports[name]
                # A module that a file brings in under the name of one of its types: the word alone is the type.
                if target.name is None and not use.members and not scope.module:
                    return self._type_of_sources(use, scope)
                self._target(target, use.members)
                return True
        return False

    def _operators(self, scope):
        """The operators that are brought in, by the signs in them."""
        key = id(scope.module or scope.owner or scope.file)
        if key not in self._words:
            found = {}
            for name in scope.imports:
                if "◌" in name:
                    for sign in filter(None, name.split("◌")):
                        found.setdefault(sign, []).append(name)
            self._words[key] = found
        return self._words[key]

    def _target(self, target, members):
        path, name = target.path, target.name
        if name is None:
            if not members:
                return
            name, members = members[0], members[1:]
        module = self.repository.module(path)
        if module:
            found = module.definitions.get(name) or module.constructors.get(name)
            if found:
                self._visit(Node("word", found))
            else:
                self.closure.unknown.add((name, path))
            return
        declared = self.repository.declared(path)
        if declared is None:
            self.closure.kit.add((path, name))
        elif ".contracts." in path:
            self.closure.rows.setdefault((declared.name, name), declared)
            self._visit(Node("type", declared))
            self._given_in_row(declared)
        elif declared.kind == "trait":
            self._visit(Node("trait", declared))
        else:
            self._visit(Node("type", declared))

    def _given_in_row(self, type_):
        """The members that a row is given for the bounds of its type, as `record { entries = .. }`."""
        for bounds in type_.generics.values():
            for bound in bounds or ():
                trait = self.repository.named(type_.file, head_of(bound))
                for member in trait.items if trait else ():
                    if member.kind == "ghost" and member.name in self.closure.members:
                        self._visit(Node("ghost", member, trait))

    def _ghost_of_owner(self, use, scope):
        """A ghost member that a trait's own clause names without a type."""
        owner = scope.owner
        if owner is None or owner.kind != "trait":
            return False
        return self._of_trait(owner, (use.word, *use.members), "Self")

    def _type_of_sources(self, use, scope):
        found = self.repository.named(scope.file, use.word)
        if found is None:
            if use.word in scope.file.uses:
                self.closure.kit.add(("std", use.word))
                return True
            return self._constant(use, scope)
        if use.members and found.kind != "trait":
            return self._of_type(found, use.members, scope)
        self._visit(Node("type", found))
        return True

    def _constant(self, use, scope):
        crate = self.repository.crate_of(scope.file)
        found = next((it for it in crate.items.get(use.word, ()) if it.kind == "const"), None)
        if found:
            self._visit(Node("const", found))
        return found is not None

    # ---- members of types

    def _self_member(self, members, scope):
        owner = scope.owner
        if owner is None or not members:
            return
        if owner.kind == "trait":
            if not self._of_trait(owner, members, "Self"):
                self.closure.unknown.add(("Self." + ".".join(members), scope.file.file.name))
        elif owner.of_trait and self._given(owner, members[0]):
            return
        else:
            self._member([], members, scope, "Self")

    def _member(self, bounds, members, scope, word):
        """A ghost member of a type parameter, of one of the traits that bound it."""
        if not members or members[0] in OF_BORROWS:
            return
        std = None
        for bound in bounds:
            trait = self.repository.named(scope.file, head_of(bound))
            if trait is None:
                std = std or head_of(bound)
            elif self._all_of_bound(trait, members[0]):
                return
            elif self._of_trait(trait, members, word, scope):
                self._of_given_type(trait, members[0], word)
                return
        if std:
            self.closure.kit.add(("std", f"{std}.{members[0]}"))
        else:
            self.closure.unknown.add((f"{word}." + ".".join(members), scope.file.file.name))

    def _all_of_bound(self, trait, name):
        """All ghost members of a bound, as `K.KeyBytes` names them: of this trait or of one above it."""
        for above in with_supers(self.repository, trait):
            if above.name == name:
                self.closure.bounds.add(name)
                for member in above.items:
                    if member.kind == "ghost" and not is_law(member):
                        self._visit(Node("ghost", member, above))
                return True
        return False

    def _of_given_type(self, trait, member, word):
        """The member as the type has it that an alias gives for a parameter."""
        given = self._given_types.get(word)
        if given:
            for above in with_supers(self.repository, trait):
                crates = dict.fromkeys(self.repository.crate_of(it.file).name for it in (above, given))
                for impl in self.repository.impls_of(above.name, given.name, crates):
                    self._given(impl, member)

    def _of_trait(self, trait, members, word, scope=None, seen=()):
        """A member of a trait or of one above it. Follows an associated type to the member's own trait."""
        inside = Scope(trait.file, trait)
        found = trait.member(members[0], ("ghost", "const"))
        if found:
            self._visit(Node("ghost", found, trait))
            self._values(found, trait, word)
            return True
        type_ = trait.member(members[0], ("type",))
        if type_:
            self._visit(Node("ghost", type_, trait))
            if len(members) > 1:
                more = scope.bounds(f"{word}::{members[0]}") if scope else None
                self._member(type_.supers + (more or []), members[1:], inside if not more else scope, members[0])
            return True
        for bound in [*trait.supers, *trait.associated.get("Self", [])]:
            above = self.repository.named(trait.file, head_of(bound))
            if above and above is not trait and above.name not in seen:
                if self._of_trait(above, members, word, scope, (*seen, trait.name)):
                    return True
            elif above is None and members[0] in MEMBERS_OF_STD.get(head_of(bound), ()):
                self.closure.kit.add(("std", f"{head_of(bound)}.{members[0]}"))
                return True
        return False

    def _values(self, member, trait, word):
        """What each type of the trait's crate gives for a member that is a constant, where no type is known."""
        known = word in self._given_types or (word == "Self" and self._is_of_impl) or id(member) in self.closure.values
        if known or not member.braces or not OF_CONSTANTS.fullmatch(member.braces[0]):
            return
        given = self.closure.values[id(member)] = []
        for impl in self.repository.crate_of(trait.file).impls:
            found = impl.member(member.name, ("ghost",)) if head_of(impl.of_trait) == trait.name else None
            if found:
                given.append((impl, found))
                self._braces(found, Scope(impl.file, impl))

    def _of_type(self, type_, members, scope):
        """A ghost member that an impl gives a type."""
        self._visit(Node("type", type_))
        if type_.kind == "enum" and re.search(rf"\b{members[0]}\b", type_.text):
            return True
        for impl in self.repository.crate_of(type_.file).impls:
            if impl.of_trait and head_of(impl.target) == type_.name and self._given(impl, members[0]):
                return True
        return False

    def _of_impl(self, type_, trait, members, scope):
        """A member of `<TYPE as TRAIT>`."""
        if not members:
            return
        found = self.repository.named(scope.file, head_of(trait))
        if found is None:
            self.closure.kit.add(("std", f"{head_of(trait)}.{members[0]}"))
            return
        self._types(type_, scope)
        self._of_trait(found, members, type_, scope)
        crates = dict.fromkeys([self.repository.crate_of(found.file).name, self.repository.crate_of(scope.file).name])
        for impl in self.repository.impls_of(found.name, type_, crates):
            self._given(impl, members[0])

    def _given(self, impl, name):
        found = impl.member(name, ("ghost", "const"))
        if found:
            self._visit(Node("given", found, impl))
        return found is not None

    # ---- what a thing needs itself

    def _visit(self, node):
        if node.key in self._seen:
            return
        self._seen.add(node.key)
        getattr(self, f"_visit_{node.kind}")(node)
        self.closure.nodes.append(node)

    def _visit_word(self, node):
        module = node.item.module
        for definition in same_group(node.item):
            scope = Scope(module=module)
            for use in module.uses_of(definition):
                self.closure.members.update(use.members)
            for use in module.uses_of(definition):
                if not (use.word in module.definitions and module.definitions[use.word] is definition):
                    self._use(use, scope)
            self._ghosts_passed_on(definition, module)

    def _ghosts_passed_on(self, definition, module):
        """Members of a trait that a word has as a parameter, as `key.text` where `key : keys.Ghosts K`."""
        uses = module.uses_of(definition)
        for use in uses:
            target = module.imports.get(use.word)
            if target and target.name is None and "Ghosts" in use.members:
                trait = self.repository.declared(target.path)
                read = {it.members[0] for it in uses if it.bound and it.members}
                for member in trait.items if trait else ():
                    if member.kind == "ghost" and member.name in read:
                        self._visit(Node("ghost", member, trait))

    def _visit_type(self, node):
        item, scope = node.item, Scope(node.item.file, node.item, node.item)
        if item.kind == "type":
            self._visit_alias(item)
            return
        model = self.repository.model_of(item)
        if model:
            value = model.member("Value")
            self._braces(value, Scope(item.file, model))
        elif item.kind == "enum":
            self._types(item.text, scope)
        else:
            impl, owned = self.repository.ownership_of(item)
            for member in owned:
                self._braces(member, Scope(item.file, impl))
            for name, type_, ghost in fields_of(item):
                if ghost:
                    for text in in_braces(type_):
                        self._clause(text, scope, {it for it, _, _ in fields_of(item)})
                elif type_.startswith("pub "):
                    self._types(type_, scope)

    def _visit_alias(self, item):
        """An alias needs the type behind it, and those parameters that a contract sees."""
        scope = Scope(item.file, item, item)
        target = self.repository.named(item.file, head_of(item.target))
        if target is None:
            self._types(item.target, scope)
            return
        self._visit(Node("type", target))
        model = self.repository.model_of(target) if target.kind == "struct" else None
        seen = set(re.findall(r"\w+", model.member("Value").head)) if model else set(target.generics)
        for name, argument in zip(target.generics, arguments_of(item.target)):
            if name in seen:
                self._types(argument, scope)

    def _private_fields(self):
        """The types of private fields that some word reads."""
        before = -1
        while before != len(self.closure.nodes):
            before = len(self.closure.nodes)
            for node in list(self.closure.nodes):
                if node.kind == "type" and node.item.kind == "struct" and not self.repository.model_of(node.item):
                    for name, type_, ghost in fields_of(node.item):
                        if name in self.closure.members and not ghost:
                            self._types(type_, Scope(node.item.file, node.item, node.item))

    def _visit_ghost(self, node):
        if node.item.kind == "ghost":
            self._braces(node.item, Scope(node.item.file, node.owner))

    def _visit_given(self, node):
        impl = node.item.owner or node.owner
        if node.item.kind == "ghost":
            self._braces(node.item, Scope(node.item.file, impl))
        elif node.item.kind == "type":
            self._types(node.item.target, Scope(node.item.file, impl))
            return
        trait = self.repository.named(impl.file, head_of(impl.of_trait))
        if trait:
            self._of_trait(trait, (node.item.name,), "Self")

    def _visit_trait(self, node):
        """A trait that a word has as a parameter: its members are followed where they are read."""

    def _visit_const(self, node):
        pass


# What std's traits give a trait of the repository that is bound by them.
MEMBERS_OF_STD = {
    "Ord": {"cmp", "partial_cmp", "eq"}, "PartialOrd": {"partial_cmp"}, "PartialEq": {"eq"}, "Eq": {"eq"}, "Hash": {"hash_input"},
    "Clone": {"is_clone", "is_infallible"},
}


def without_impls(text):
    """The text with a word for each `⟦<TYPE as TRAIT>⟧`, and the types and traits of these words."""
    impls = {}

    def name(found):
        word = f"impl#{len(impls)}"
        impls[word] = (found[1], found[2])
        return word

    return OF_AN_IMPL.sub(name, text), impls


def same_group(definition):
    """The definition with those that are mutual with it."""
    if definition.group is None:
        return [definition]
    return [it for it in definition.module.definitions.values() if it.group == definition.group]


def fields_of(struct):
    """Name, type and whether it is a ghost field, of each field of a struct. A public field's type begins with `pub `."""
    text = re.sub(r"//[^\n]*|#\[[^\]]*\]", "", struct.text)
    start = min((it for it in (text.find("{"), text.find("(", text.find(struct.name))) if it >= 0), default=-1)
    if start < 0:
        return []
    found = []
    for at, part in enumerate(split_list(text[start + 1 : end_of_group(text, start) - 1])):
        public = "pub " if part.startswith("pub") else ""
        part = re.sub(r"^pub(\([^)]*\))? ", "", part)
        ghost = part.startswith("ghost ")
        name, colon, type_ = part.removeprefix("ghost ").partition(":")
        found.append((name.strip(), public + type_.strip(), ghost) if colon else (str(at), public + part, False))
    return found


def arguments_in(function):
    names = {"result", "self"}
    for name, _, _ in function.arguments:
        names.update(re.findall(r"[a-z_]\w*", name))
    return names - {"mut"}
