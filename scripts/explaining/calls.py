"""The public calls of a crate, and the names by which `./explain` knows them."""
import re
from dataclasses import dataclass, field

from explaining.repository import arguments_of, head_of


@dataclass
class Call:
    """A function that a caller sees."""

    crate: str
    item: object
    name: str
    others: list = field(default_factory=list)
    alias: object = None
    given_types: dict = field(default_factory=dict)

    @property
    def names(self):
        return [self.name, *self.others]

    def fits(self, wanted):
        """Whether it is meant by this name: the whole of one of its names, or the end of one behind `::`."""
        return any(name == wanted or name.endswith(f"::{wanted}") for name in self.names)

    def by_alias(self, repository, wanted):
        """The same call as the alias before `::` has it, which may give types for parameters."""
        named = repository.crate(self.crate).items.get(wanted.split("::")[0].lstrip("<"), ())
        alias = next((it for it in named if it.kind == "type"), None)
        owner = self.item.owner
        if alias and owner and owner.kind == "impl" and head_of(alias.target) == head_of(owner.target):
            self.alias = alias
            self.name = next((it for it in self.names if it == wanted), self.name)
            for name, type_ in zip(arguments_of(owner.target), arguments_of(alias.target)):
                given = repository.named(alias.file, head_of(type_)) if type_ != name else None
                if given:
                    self.given_types[name] = given
        return self


def is_export_of_c(item):
    return "no_mangle" in item.file.text[max(0, item.start - 40) : item.start]


def calls_of(repository, name):
    """The public calls of the crate; of a program, all that other files of it may call."""
    crate = repository.crate(name)
    found = []
    for file in crate.files.values():
        for item in file.items:
            if item.kind == "fn":
                is_seen = item.is_public or (item.public and crate.is_program)
                if is_export_of_c(item) or (is_seen and crate.is_exported(item)):
                    found.append(Call(name, item, crate.shown_module(item) + item.name))
            elif item.kind == "trait" and item.is_public and crate.is_exported(item):
                found.extend(Call(name, it, f"{item.name}::{it.name}") for it in item.items if it.kind == "fn")
            elif item.kind == "impl":
                found.extend(_calls_of_impl(repository, crate, item))
    return _numbered(found)


def _calls_of_impl(repository, crate, impl):
    if head_of(impl.of_trait) == "Model":
        return
    owner = repository.named(impl.file, head_of(impl.target)) if not impl.target.startswith(("[", "(")) else None
    if owner and repository.crate_of(owner.file) is crate and not _is_reachable(repository, crate, owner):
        return
    trait = repository.named(impl.file, head_of(impl.of_trait)) if impl.of_trait else None
    if trait and not repository.crate_of(trait.file).is_exported(trait):
        return
    for item in impl.items:
        if item.kind == "fn" and (impl.of_trait or item.is_public or (crate.is_program and item.public)):
            yield _call_of_method(repository, crate, impl, item)


def _is_reachable(repository, crate, owner):
    """Whether another crate can name the type, or an alias of it."""
    if crate.is_exported(owner):
        return True
    return any(
        it.kind == "type" and crate.is_exported(it) and repository.resolved(it) is owner
        for items in crate.items.values()
        for it in items
    )


def _call_of_method(repository, crate, impl, item):
    target = " ".join(impl.target.split())
    heads = [head_of(target)] if not target.startswith(("[", "(")) else [target]
    aliases = _aliases(repository, crate, impl)
    # Callers name an alias where the type has one.
    heads = [*aliases, *heads] if len(aliases) == 1 else [*heads, *aliases]
    names = [f"{it}::{item.name}" for it in heads]
    if impl.of_trait:
        names.insert(0, f"<{heads[0]} as {head_of(impl.of_trait)}>::{item.name}")
    return Call(crate.name, item, names[0], names[1:])


def _aliases(repository, crate, impl):
    """The other names of the type that an impl is of: its aliases, and theirs."""
    owner = repository.named(impl.file, head_of(impl.target))
    aliases = [it for items in crate.items.values() for it in items if it.kind == "type" and it.is_public]
    return [it.name for it in aliases if owner and it is not owner and owner in _behind(repository, it)]


def _behind(repository, alias):
    """The types that an alias stands for, one behind the other."""
    found, target = [], repository.named(alias.file, head_of(alias.target))
    while target and target not in found:
        found.append(target)
        target = repository.named(target.file, head_of(target.target)) if target.kind == "type" else None
    return found


def _numbered(calls):
    """Calls of one name, as those of a builder in several states, are told apart by their types in full."""
    by_name = {}
    for call in calls:
        by_name.setdefault(call.name, []).append(call)
    for same in by_name.values():
        for call in same if len(same) > 1 else ():
            call.others.append(call.name)
            call.name = _full_name(call)
    return calls


def _full_name(call):
    owner = call.item.owner
    if owner is None or not owner.target:
        return call.name
    trait = f" as {owner.of_trait}" if owner.of_trait else ""
    text = f"<{owner.target}{trait}>::{call.item.name}"
    return re.sub(r"(?<=[<(\[]) |,? (?=[>)\]])", "", " ".join(text.split()))
