"""A sorted mapping and a sorted set, and route tables, over a library whose functions are formally verified.

The entries are held in C, by `_in_c`, which has the library inside."""

from collections.abc import ItemsView, Iterable, KeysView, Mapping, MutableMapping, MutableSet, Sequence, Set, ValuesView
from reprlib import recursive_repr

try:
    from . import _in_c as _core
except ImportError as missing:
    raise ImportError(
        "verified_art is not compiled here: install its wheel, or `pip install` the folder that it comes from where there is a C compiler"
    ) from missing

__all__ = ["RouteTable", "SortedMap", "SortedSet"]
__version__ = _core.__version__


# What a walk gives of each entry.
_KEYS, _VALUES, _ITEMS = range(3)


# ---- views


class _Ordered(Sequence):
    """A view as a sequence, in the order of the keys. An index takes time linear in its distance from the nearer end."""

    __slots__ = ()

    def __getitem__(self, index):
        """What stands at an index, or a list of what a slice has."""
        if not isinstance(index, slice):
            return self._mapping._at(self._given, index)
        wanted = range(len(self))[index]
        if not wanted:
            return []
        low, high = sorted((wanted[0], wanted[-1]))
        return list(self._mapping._slice(self._given, low, high + 1, wanted.step < 0))[:: abs(wanted.step)]

    def __delitem__(self, index):
        """Removes the entry at an index, or those of a slice."""
        keys = self._mapping.keys()[index]
        for key in keys if isinstance(index, slice) else [keys]:
            del self._mapping[key]

    def __iter__(self):
        return self._mapping._walk(self._given, False)

    def __reversed__(self):
        return self._mapping._walk(self._given, True)

    def index(self, value, start=None, stop=None):
        """The first index of a value between two, else ValueError. Takes time linear in the number of entries."""
        low, high, _ = slice(start, stop).indices(len(self))
        for at, other in enumerate(self._mapping._slice(self._given, low, high, False), low):
            if other is value or other == value:
                return at
        raise ValueError(f"{value!r} is not in the view")


class _Keys(_Ordered, KeysView):
    __slots__ = ()
    _given = _KEYS

    def __contains__(self, key):
        return key in self._mapping

    def __iter__(self):
        return iter(self._mapping)

    def __reversed__(self):
        return reversed(self._mapping)

    def index(self, value, start=None, stop=None):
        """The index of a key, as of the map."""
        return self._mapping.index(value, start, stop)

    def count(self, value):
        """1 for a key of the map, else 0."""
        return int(value in self._mapping)


class _Items(_Ordered, ItemsView):
    __slots__ = ()
    _given = _ITEMS

    __contains__ = ItemsView.__contains__

    def count(self, value):
        """1 for a key and value of the map, else 0."""
        return int(value in self)


class _Values(_Ordered, ValuesView):
    __slots__ = ()
    _given = _VALUES

    __contains__ = ValuesView.__contains__


# ---- the mapping


def _pairs_of(other):
    """The pairs of a mapping, or of pairs, these."""
    if type(other) in (dict, SortedMap):
        return other
    if isinstance(other, SortedMap):
        return list(other.items())
    if isinstance(other, Mapping) or hasattr(other, "keys"):
        return ((key, other[key]) for key in other.keys())
    return _iterable(other, "SortedMap")


def _iterable(pairs, made):
    """The pairs that something is made of, where they are any."""
    if isinstance(pairs, Iterable) or hasattr(pairs, "__getitem__"):
        return pairs
    raise TypeError(f"a {made} is made of a mapping or of pairs, and not of {type(pairs).__name__}")


class SortedMap(_core.Core, MutableMapping):
    """SortedMap(), SortedMap(mapping), SortedMap(pairs), SortedMap(name=value, ..): a dict in the order of its keys.

    All keys are of one form: str, bytes, int of 64 bits with a sign, float, IPv4Address or IPv6Address, or tuples whose parts
    are each of one form. The first key decides, until the map is cleared. Another one is a TypeError, also in a look-up; to set
    an int beyond 64 bits is an OverflowError, and NaN a ValueError, and to look for one finds nothing. Where an entry is added
    or removed during an iteration, its next step is a RuntimeError, as of dict. A look-up takes time linear in the bytes of the
    key, whatever the number of entries.

    Calls that take or return an index count entries: right after a change they take time linear in the distance from the nearer
    end, and else its logarithm."""

    __slots__ = ("__weakref__",)

    def __init__(self, other=(), /, **named):
        if not self and type(other) not in _AT_ONCE and not hasattr(other, "keys"):
            other = _read_out(_iterable(other, "SortedMap"), self.update)
        self.update(other, **named)

    def update(self, other=(), /, **named):
        """Sets the entries of a mapping or of pairs, then the named ones.

        Where an exception ends it, the entries before the one that is refused are set, and no others."""
        if type(self).__setitem__ is not SortedMap.__setitem__:
            super().update(other, **named)
            return
        self._set_each(other if type(other) in _AT_ONCE else _pairs_of(other))
        if named:
            self._set_each(named)

    def keys(self):
        """The keys: a set, and a sequence in their order."""
        return _Keys(self)

    def items(self):
        """The pairs of keys and values: a set, and a sequence in the order of the keys."""
        return _Items(self)

    def values(self):
        """The values: a sequence in the order of the keys."""
        return _Values(self)

    def copy(self):
        made = type(self)()
        made.update(self)
        return made

    @classmethod
    def fromkeys(cls, keys, value=None):
        """A map from each of these keys to one value."""
        made = cls()
        if isinstance(made, SortedMap) and type(made).__setitem__ is SortedMap.__setitem__:
            made._set_keys(keys if type(keys) in (list, tuple) else list(keys), value)
        else:
            made.update([(key, value) for key in keys])
        return made

    def __eq__(self, other):
        if not isinstance(other, Mapping):
            return NotImplemented
        if len(self) != len(other):
            return False
        equal = self._equals(other) if type(other) in (dict, SortedMap) else None
        return self._equals(dict(other.items())) if equal is None else equal

    __hash__ = None

    def __or__(self, other):
        if not isinstance(other, Mapping):
            return NotImplemented
        made = self.copy()
        made.update(other)
        return made

    def __ror__(self, other):
        if not isinstance(other, Mapping):
            return NotImplemented
        made = type(self)(other)
        made.update(self)
        return made

    def __ior__(self, other):
        self.update(other)
        return self

    def __reduce__(self):
        return type(self), (), getattr(self, "__dict__", None) or None, None, iter(self.items())

    @recursive_repr("SortedMap({...})")
    def __repr__(self):
        entries = ", ".join(f"{key!r}: {value!r}" for key, value in self.items())
        return f"{type(self).__name__}({{{entries}}})"


# What is set by one call of the library, since no other code runs meanwhile.
_AT_ONCE = (dict, list, tuple, SortedMap)


def _read_out(steps, update):
    """All that an iterable gives, in a list; where it raises, what it gave is set."""
    read = []
    try:
        read.extend(steps)
    except BaseException:
        update(read)
        raise
    return read


# ---- the set

# Which keys of two sets are wanted.
_OF_FIRST, _OF_BOTH, _OF_SECOND = 1, 2, 4


class SortedSet(_core.SetCore, MutableSet, Sequence):
    """SortedSet(), SortedSet(keys): a set in the order of its keys, which are of one form as those of a SortedMap.

    It is a sequence too: `keys[0]`, `keys[-1]`, `keys[2:5]`. Right after a change, calls by an index take time linear in the
    distance from the nearer end, and else its logarithm."""

    __slots__ = ("__weakref__",)

    def __init__(self, keys=(), /):
        if not self and type(keys) not in _SETS_AT_ONCE:
            keys = _read_out(_iterable(keys, "SortedSet"), self.update)
        self.update(keys)

    def update(self, *others):
        """Adds all keys of these."""
        for keys in others:
            if type(self).add is not SortedSet.add:
                for key in list(keys) if keys is self else keys:
                    self.add(key)
            else:
                self._add_each(list(keys) if type(keys) in (set, frozenset, dict) else _iterable(keys, "SortedSet"))

    def __getitem__(self, index):
        """The key at an index, or a list of those of a slice."""
        if not isinstance(index, slice):
            return self._at(_KEYS, index)
        wanted = range(len(self))[index]
        if not wanted:
            return []
        low, high = sorted((wanted[0], wanted[-1]))
        return list(self._slice(_KEYS, low, high + 1, wanted.step < 0))[:: abs(wanted.step)]

    def __delitem__(self, index):
        """Removes the key at an index, or those of a slice."""
        for key in self[index] if isinstance(index, slice) else [self[index]]:
            self.remove(key)

    def count(self, key):
        """1 for a key of the set, else 0."""
        return int(key in self)

    def copy(self):
        return type(self)(self)

    def _made_of(self, keys):
        return type(self)(keys)

    def _chosen(self, other, which):
        """The keys of this set and of another one that are wanted, in a list."""
        if isinstance(other, SortedSet):
            chosen = self._merged(other, which)
            if chosen is not None:
                return chosen
        there = other if isinstance(other, (set, frozenset)) else set(other)
        chosen = self._chosen_by(there, which)
        if which & _OF_SECOND:
            chosen.extend(there.difference(self))
        return chosen

    def union(self, *others):
        """A set of the keys that are in this one or in one of these."""
        keys = list(self)
        for other in others:
            keys.extend(_iterable(other, "SortedSet"))
        return self._made_of(keys)

    def intersection(self, *others):
        """A set of the keys that are in this one and in each of these."""
        made = self
        for other in others:
            made = made._made_of(made._chosen(other, _OF_BOTH))
        return self.copy() if made is self else made

    def difference(self, *others):
        """A set of the keys that are in this one and in none of these."""
        made = self
        for other in others:
            made = made._made_of(made._chosen(other, _OF_FIRST))
        return self.copy() if made is self else made

    def symmetric_difference(self, other):
        """A set of the keys that are in one of the two alone."""
        return self._made_of(self._chosen(other, _OF_FIRST | _OF_SECOND))

    def _keep(self, made):
        """Removes the keys that are not in another set."""
        for key in self._chosen(made, _OF_FIRST):
            self.discard(key)

    def intersection_update(self, *others):
        """Removes the keys that are not in each of these."""
        self._keep(self.intersection(*others))

    def difference_update(self, *others):
        """Removes the keys that are in one of these."""
        for other in others:
            for key in self._chosen(other, _OF_BOTH):
                self.discard(key)

    def symmetric_difference_update(self, other):
        """Leaves the keys that are in one of the two alone."""
        made = self.symmetric_difference(other)
        self._keep(made)
        self.update(made)

    def isdisjoint(self, other):
        """Whether no key is in both."""
        if isinstance(other, (set, frozenset)):
            return self._has_none(other, _OF_BOTH)
        return not self._chosen(other, _OF_BOTH)

    def issubset(self, other):
        """Whether each key is in the other one."""
        if isinstance(other, (set, frozenset)):
            return len(self) <= len(other) and self._has_none(other, _OF_FIRST)
        return not self._chosen(other, _OF_FIRST)

    def issuperset(self, other):
        """Whether each key of the other one is in this one."""
        if isinstance(other, SortedSet):
            return other.issubset(self)
        there = other if isinstance(other, (set, frozenset)) else set(other)
        if len(there) > len(self):
            return False
        known = self._has_each(there)
        return len(self._chosen_by(there, _OF_BOTH)) == len(there) if known is None else known

    def __or__(self, other):
        return self.union(other) if isinstance(other, Set) else NotImplemented

    def __ror__(self, other):
        return self.union(other) if isinstance(other, Set) else NotImplemented

    def __and__(self, other):
        return self.intersection(other) if isinstance(other, Set) else NotImplemented

    __rand__ = __and__

    def __sub__(self, other):
        return self.difference(other) if isinstance(other, Set) else NotImplemented

    def __rsub__(self, other):
        return self._made_of(other).difference(self) if isinstance(other, Set) else NotImplemented

    def __xor__(self, other):
        return self.symmetric_difference(other) if isinstance(other, Set) else NotImplemented

    __rxor__ = __xor__

    def __ior__(self, other):
        if not isinstance(other, Set):
            return NotImplemented
        self.update(other)
        return self

    def __iand__(self, other):
        if not isinstance(other, Set):
            return NotImplemented
        self.intersection_update(other)
        return self

    def __isub__(self, other):
        if not isinstance(other, Set):
            return NotImplemented
        self.difference_update(other)
        return self

    def __ixor__(self, other):
        if not isinstance(other, Set):
            return NotImplemented
        self.symmetric_difference_update(other)
        return self

    def __eq__(self, other):
        if not isinstance(other, Set):
            return NotImplemented
        if len(self) != len(other):
            return False
        equal = self._equals(other)
        return self.issubset(other) if equal is None else equal

    def __le__(self, other):
        return len(self) <= len(other) and self.issubset(other) if isinstance(other, Set) else NotImplemented

    def __lt__(self, other):
        return len(self) < len(other) and self.issubset(other) if isinstance(other, Set) else NotImplemented

    def __ge__(self, other):
        return len(self) >= len(other) and self.issuperset(other) if isinstance(other, Set) else NotImplemented

    def __gt__(self, other):
        return len(self) > len(other) and self.issuperset(other) if isinstance(other, Set) else NotImplemented

    __hash__ = None

    def __reduce__(self):
        return type(self), (list(self),), getattr(self, "__dict__", None) or None

    def __repr__(self):
        return f"{type(self).__name__}([{', '.join(map(repr, self))}])"


# What is added by one call of the library.
_SETS_AT_ONCE = (list, tuple, set, frozenset, dict, SortedSet, SortedMap)


# ---- route tables


# What no caller has.
_NO_VALUE = object()


class RouteTable(_core.Routes):
    """RouteTable(), RouteTable(mapping), RouteTable(pairs): values by IPv4 and IPv6 networks, of which the longest match of an
    address is found, for both families in one table. The calls are those of `pytricia`, but for `freeze` and `thaw`, a table's
    size and its raw output, and `int` keys.

    A network is a str as "10.0.0.0/8", an `ipaddress.IPv4Network` or `IPv6Network`, or a pair of an address and a length. An
    address is a str, what `ipaddress` makes, or 4 or 16 bytes, and a network of all its bits. `table[..]`, `get`, `get_key` and
    `in` find the longest route that contains an address, or covers a network, and `get_many` that of each address; `has_key`,
    `pop`, `setdefault`, `del` and setting are of this very network. Networks come out as str, those of IPv4 first, then by their
    first addresses, then the shorter ones first. IPv4 and IPv6 never match each other. What is no network, or has a bit set
    behind its length, which `pytricia` clears, is a ValueError. `children` and `parent` are also of a network without a route,
    for which `pytricia` has a KeyError.

    Routes may be set and removed during an iteration, which goes on behind the last network that it gave, as that of `free` does."""

    __slots__ = ("__weakref__",)

    def __init__(self, other=(), /):
        self.update(other)

    def update(self, other=(), /):
        """Sets the routes of a mapping or of pairs."""
        for pair in other.items() if hasattr(other, "items") else _iterable(other, "RouteTable"):
            try:
                network, value = pair
            except (TypeError, ValueError):
                raise ValueError(f"a pair of a network and a value is needed, and not {pair!r}") from None
            self[network] = value

    def insert(self, network, value, of_length=_NO_VALUE):
        """insert(network, value), or insert(address, length, value): sets the value of this very network."""
        if of_length is _NO_VALUE:
            self[network] = value
        else:
            self[network, value] = of_length

    def delete(self, network):
        """Removes the route to this very network, else raises KeyError."""
        del self[network]

    def __iter__(self):
        """The networks, in order."""
        return self._walk(_KEYS, None, False)

    def __reversed__(self):
        """The networks, from the last one down."""
        return self._walk(_KEYS, None, True)

    def keys(self):
        """The networks in order, in a list."""
        return list(self)

    def values(self):
        """The values in the order of their networks, in a list."""
        return list(self._walk(_VALUES, None, False))

    def items(self):
        """The pairs of networks and values in order, in a list."""
        return list(self._walk(_ITEMS, None, False))

    def children(self, network):
        """The networks of the routes inside a network, but for the one to it, in order, in a list."""
        inside = self._walk(_KEYS, network, False)
        return list(inside)[1 if self.has_key(network) else 0 :]

    def popitem(self):
        """Removes the last route in order, and returns its network and value, else raises KeyError."""
        for network in reversed(self):
            return network, self.pop(network)
        raise KeyError("popitem(): the table is empty")

    def difference(self, new):
        """The changes that make this table the new one, in the order of their networks, in a list: ("insert", network, value),
        ("remove", network, value) with the value here, or ("replace", network, value) with the new one. Values are the same
        where they are one object or equal."""
        changes = []
        for change, network, before, after in self._differences(new):
            if change != "replace" or not (before is after or before == after):
                changes.append((change, network, before if change == "remove" else after))
        return changes

    def aggregate(self):
        """Leaves fewer routes by which each address has the value that it had, or one that is equal, and none where none
        contained it: none that has the value of the longest one around it, and no two with one value to the halves of a
        network. Values have to be hashable. Where memory is refused, or a signal is handled, some of this may be done, and each
        address has the value that it had."""
        items, first = self.items(), {}
        numbers = tuple(first.setdefault(value, at) for at, (_, value) in enumerate(items))
        fewer = dict(self._aggregated(numbers))
        before = {network: number for (network, _), number in zip(items, numbers)}
        for network, number in fewer.items():
            if before.get(network) != number:
                self[network] = items[number][1]
        # Those around others come first: so the longest of the old ones that contain an address is the last to go.
        for network in before:
            if network not in fewer:
                self.pop(network, None)

    def copy(self):
        return type(self)(self)

    def __eq__(self, other):
        return self.items() == other.items() if isinstance(other, RouteTable) else NotImplemented

    __hash__ = None

    def __reduce__(self):
        return type(self), (), getattr(self, "__dict__", None) or None, None, iter(self.items())

    @recursive_repr("RouteTable({...})")
    def __repr__(self):
        routes = ", ".join(f"{network!r}: {value!r}" for network, value in self.items())
        return f"{type(self).__name__}({{{routes}}})"
