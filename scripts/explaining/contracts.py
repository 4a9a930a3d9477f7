"""Whose clauses are the contract of a function, and what an impl gives them."""
import re

from explaining.repository import head_of

# Members of std's traits that an impl proves: each says nothing that the law in std does not.
LAWS_OF_STD = {"laws", "respects_eq", "total", "matches_partial_cmp", "matches_eq", "inverse_ok"}
# What a law has, and the type of data that an impl gives has not.
SIGNS_OF_LAWS = re.compile(r"[≡≢↔≤<⊎]")


def contract_of(repository, item):
    """Whose clauses hold for a function, as pairs of owner and function, and the members that its impl gives them."""
    impl = item.owner
    if impl is None or impl.kind == "trait" or not impl.of_trait:
        return [(impl, item)], []
    trait = repository.named(impl.file, head_of(impl.of_trait))
    members = [it for it in impl.items if it.kind == "ghost"]
    declared = declared_in(repository, trait, item.name) if trait else None
    if declared is None:
        own = any(it.kind.startswith("ensures") for it in item.clauses)
        return [(impl, item)], [] if own else [it for it in members if it.name not in LAWS_OF_STD]
    owner, function = declared
    own = [(impl, item)] if item.clauses else []
    # Clauses of an impl stand in place of those of the trait of the same kind.
    replaced = {it.kind.rstrip("*") for it in item.clauses}
    clauses = own if all(it.kind.rstrip("*") in replaced for it in function.clauses) else [*own, (owner, function)]
    words = set(re.findall(r"\w+", " ".join(clause.text for _, it in clauses for clause in it.clauses)))
    return clauses, [it for it in _given_members(repository, impl, trait) if it.name in words]


def declared_in(repository, trait, name, seen=()):
    """The trait, this one or one above it, that declares a function."""
    found = trait.member(name, ("fn",))
    if found:
        return trait, found
    for bound in trait.supers:
        above = repository.named(trait.file, head_of(bound))
        if above and above.name not in seen:
            declared = declared_in(repository, above, name, (*seen, trait.name))
            if declared:
                return declared
    return None


def is_law(member):
    """Whether a ghost member of a trait is a law that each impl proves, and not data that each impl gives."""
    return any(SIGNS_OF_LAWS.search(it) for it in member.braces[:1])


def _given_members(repository, impl, trait):
    """What a type gives a trait and those above it, by the impls of its crate."""
    owner = repository.resolved(repository.named(impl.file, head_of(impl.target)))
    traits = with_supers(repository, trait)
    same = [impl]
    for other in repository.crate_of(impl.file).impls:
        if other is not impl and other.of_trait and repository.named(other.file, head_of(other.of_trait)) in traits:
            type_ = repository.resolved(repository.named(other.file, head_of(other.target)))
            if other.target == impl.target or (owner and type_ is owner):
                same.append(other)
    same.sort(key=lambda it: it.target != impl.target)
    found = {}
    for it in same:
        for member in it.items:
            if member.kind in ("ghost", "type"):
                found.setdefault((member.kind, member.name), member)
    return list(found.values())


def with_supers(repository, trait):
    """A trait and those of the repository above it."""
    found, left = [], [trait]
    while left:
        it = left.pop(0)
        if it and it not in found:
            found.append(it)
            left.extend(repository.named(it.file, head_of(bound)) for bound in it.supers)
    return found
