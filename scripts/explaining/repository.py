"""The repository: its crates, the modules of their specs/, and what a name of the sources stands for."""
import re
from functools import cached_property

from explaining.rust import File, split_list
from explaining.specs import Module

HEAD_OF_TYPE = re.compile(r"(?:&(?:'\w+ )?(?:mut )?)?(?:\w+::)*(\w+)")
TYPES = ("struct", "enum", "type", "trait")


def head_of(type_):
    """The name of a type without its parameters: `ArtMap` of `ArtMap<K, V>`."""
    found = HEAD_OF_TYPE.match(type_.strip())
    return found[1] if found else ""


def arguments_of(type_):
    """The parameters of a type but for lifetimes: `K` and `V` of `Iter<'a, K, V>`."""
    start, end = type_.find("<"), type_.rfind(">")
    return [it for it in split_list(type_[start + 1 : end]) if not it.startswith("'")] if start >= 0 else []


class Crate:
    """A crate's sources."""

    def __init__(self, repository, name):
        self.repository, self.name = repository, name
        self.folder = repository.top / "crates" / name
        self.source = self.folder / "src"

    @cached_property
    def files(self):
        found = {}
        for file in sorted(self.source.rglob("*.rt")):
            parts = file.relative_to(self.source).with_suffix("").parts
            module = "" if parts in (("lib",), ("main",)) else ".".join(parts)
            found[module] = File(file, module)
        return found

    @property
    def is_program(self):
        return (self.source / "main.rt").is_file()

    @cached_property
    def items(self):
        """The items of all files by name, those of a module in a file among them."""
        found = {}
        for file in self.files.values():
            for item in file.items:
                found.setdefault(item.name, []).append(item)
        return found

    @cached_property
    def impls(self):
        return [item for file in self.files.values() for item in file.items if item.kind == "impl"]

    @cached_property
    def exported(self):
        """The names of this crate's own items that another crate can name, by the module that it names them in."""
        found = {}
        self._export("", "", found)
        return found

    def _export(self, module, shown, found):
        file = self.files[module]
        for item in file.items:
            if item.kind == "mod" and item.is_public:
                inner = f"{module}.{item.name}".lstrip(".")
                if inner in self.files:
                    self._export(inner, f"{shown}{item.name}::", found)
            elif item.is_public and item.kind in (*TYPES, "fn", "const"):
                found.setdefault((item.name, module), shown)
        for parts in file.reexports:
            if parts[0] in self.repository.crates and parts[0] != self.name:
                continue
            source = ".".join(it for it in parts[:-1] if it not in ("crate", "self"))
            for candidate in (source, f"{module}.{source}".strip(".")):
                if candidate in self.files:
                    self._export_name(candidate, parts[-1], shown, found)
                    break

    def _export_name(self, module, name, shown, found):
        """Exports a name of a module, also where the module itself has it from another."""
        file = self.files[module]
        if any(item.name == name for item in file.items):
            found.setdefault((name, module), shown)
        for parts in file.reexports:
            if parts[-1] == name:
                source = ".".join(it for it in parts[:-1] if it not in ("crate", "self"))
                for candidate in (source, f"{module}.{source}".strip(".")):
                    if candidate in self.files and candidate != module:
                        self._export_name(candidate, name, shown, found)

    def is_exported(self, item):
        return self.is_program or (item.name, item.file.module) in self.exported

    def shown_module(self, item):
        return self.exported.get((item.name, item.file.module), "")


class Repository:
    def __init__(self, top):
        self.top = top
        self.crates = {}
        for line in (top / "crates.txt").read_text(encoding="utf-8").splitlines():
            name, colon, below = line.partition("#")[0].partition(":")
            if colon:
                self.crates[name.split()[0]] = below.split()
        self._crates, self._modules = {}, {}

    def crate(self, name):
        if name not in self._crates:
            self._crates[name] = Crate(self, name)
        return self._crates[name]

    def crate_of(self, file):
        return self.crate(file.file.relative_to(self.top).parts[1])

    def shown(self, file):
        return file.relative_to(self.top).as_posix()

    # ---- specs/

    def module(self, path):
        """The module at a path like `Rattle.art_routes.specs.Changes`, or None where the repository has none."""
        if path not in self._modules:
            parts = path.split(".")
            file = None
            if len(parts) > 3 and parts[0] == "Rattle" and parts[1] in self.crates and parts[2] == "specs":
                file = self.top.joinpath("crates", parts[1], "specs", *parts[3:]).with_suffix(".antt")
            self._modules[path] = Module(file, path) if file and file.is_file() else None
        return self._modules[path]

    def modules_of(self, crate):
        folder = self.top / "crates" / crate / "specs"
        for file in sorted(folder.rglob("*.antt")):
            if file.stem != "Lib":
                yield self.module(".".join(["Rattle", crate, "specs", *file.relative_to(folder).with_suffix("").parts]))

    def declared(self, path):
        """The type of the sources that a path like `Rattle.C.specs.declared.module.Type` names, or None."""
        parts = path.split(".")
        if len(parts) < 5 or parts[1] not in self.crates or parts[3] not in ("declared", "contracts"):
            return None
        inner = [it for it in parts[4:] if it != "TheVariants"]
        file = self.crate(parts[1]).files.get(".".join(inner[:-1]))
        if file is None:
            return None
        return next((item for item in file.items if item.name == inner[-1] and item.kind in TYPES), None)

    # ---- names of the sources

    def named(self, file, name, seen=()):
        """The type or trait that a name stands for in a file, or None where it is of std or of the kit."""
        for item in file.items:
            if item.name == name and item.kind in TYPES:
                return item
        parts = file.uses.get(name)
        crate = self.crate_of(file)
        if parts is None:
            return None
        if parts[0] in ("crate", "super", "self") or any(it.kind == "mod" and it.name == parts[0] for it in file.items):
            return self._in_crate(crate, parts[-1], seen)
        return self._in_crate(self.crate(parts[0]), parts[-1], seen) if parts[0] in self.crates else None

    def _in_crate(self, crate, name, seen=()):
        """An item of the crate, or of a crate below it from which it is re-exported."""
        if crate.name in seen:
            return None
        found = [item for item in crate.items.get(name, ()) if item.kind in TYPES]
        if found:
            return next((item for item in found if crate.is_exported(item)), found[0])
        below = (self.crate(it) for it in self.crates[crate.name] if it in self.crates)
        found = (self._in_crate(it, name, (*seen, crate.name)) for it in below)
        return next((it for it in found if it), None)

    def resolved(self, item):
        """The struct or enum behind an alias."""
        seen = set()
        while item and item.kind == "type" and item.name not in seen:
            seen.add(item.name)
            item = self.named(item.file, head_of(item.target))
        return item

    def model_of(self, item):
        """The `impl Model` of a struct that says what contracts see, or None."""
        for impl in item.file.items:
            if impl.kind == "impl" and head_of(impl.of_trait) == "Model" and head_of(impl.target) == item.name:
                return impl if impl.member("Value") else None
        return None

    def ownership_of(self, item):
        """What a value of a struct owns or shares beside its fields, as its `impl Model` has it."""
        for impl in item.file.items:
            if impl.kind == "impl" and head_of(impl.of_trait) == "Model" and head_of(impl.target) == item.name:
                return impl, [it for name in ("also_owns", "also_shares") if (it := impl.member(name))]
        return None, []

    def impls_of(self, trait, type_, crates):
        """The impls of a trait for a type with this head, in these crates."""
        for crate in crates:
            for impl in self.crate(crate).impls:
                if head_of(impl.of_trait) == trait and impl.target and _same_head(impl.target, type_):
                    yield impl


def _same_head(one, other):
    if one.lstrip().startswith(("[", "(")) or other.lstrip().startswith(("[", "(")):
        return one.lstrip()[:1] == other.lstrip()[:1]
    return head_of(one) == head_of(other)
