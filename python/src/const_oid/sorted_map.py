"""A mapping that is sorted by arcs."""

import copyreg
from collections.abc import (
    Collection,
    ItemsView,
    Iterable,
    KeysView,
    Mapping,
    MutableMapping,
    Set,
    ValuesView,
)
from reprlib import recursive_repr
from typing import Any, Self, TypeVar, cast, overload

from ._native import Items, Keys, ObjectIdentifier, Table, Values

Key = TypeVar("Key", bound=ObjectIdentifier)
Value = TypeVar("Value")
Other = TypeVar("Other")
Map = TypeVar("Map", bound="SortedMap[Any]")


class SortedMap(Table[Value], MutableMapping[ObjectIdentifier, Value]):
    """A mapping from identifiers to values, with keys in the lexicographic order of arcs, as in SNMP (RFC 3416).

    Like dict, it has copy() and |, is thread-safe, and is not to be changed while it is iterated. Keys are compared by
    their octets, whatever methods they have. A key that is no identifier is a TypeError, also for get(), pop() and
    `in`.

    >>> up_time, system = ObjectIdentifier("1.3.6.1.2.1.1.3"), ObjectIdentifier("1.3.6.1.2.1.1")
    >>> table = SortedMap({up_time: "sysUpTime", system: "system"})
    >>> table[ObjectIdentifier("1.3.6.1.2.1.1.10")] = "the last"
    >>> list(table.values())
    ['system', 'sysUpTime', 'the last']
    """

    __slots__ = ()

    def copy(self) -> Self:
        """A map with the same keys and values, which are not copied.

        >>> table = SortedMap({ObjectIdentifier("2.5"): "directory"})
        >>> table.copy() == table, table.copy() is table
        (True, False)
        """
        return _made(self, self)

    @overload
    @classmethod
    def fromkeys(
        cls, keys: Iterable[ObjectIdentifier], value: None = None
    ) -> "SortedMap[Any | None]":
        pass

    @overload
    @classmethod
    def fromkeys(cls, keys: Iterable[ObjectIdentifier], value: Other) -> "SortedMap[Other]":
        pass

    @classmethod
    def fromkeys(cls, keys: Iterable[ObjectIdentifier], value: Any = None) -> "SortedMap[Any]":
        """A map of keys that all have one value.

        >>> SortedMap.fromkeys([ObjectIdentifier("2.5")], 1)
        SortedMap({ObjectIdentifier('2.5'): 1})
        """
        made = cast(SortedMap[Any], cls())
        for key in [*keys]:
            made[key] = value
        return made

    def keys(self) -> "SortedMap_keys":
        """The keys in order, in a view that can be reversed, as those of values() and items() can.

        >>> list(reversed(SortedMap.fromkeys([ObjectIdentifier("2.5")]).keys()))
        [ObjectIdentifier('2.5')]
        """
        return SortedMap_keys(self, 0)

    def values(self) -> "SortedMap_values[Value]":
        """The values in the order of keys.

        >>> list(SortedMap.fromkeys([ObjectIdentifier("2.5")], 1).values())
        [1]
        """
        return SortedMap_values(self, 1)

    def items(self) -> "SortedMap_items[Value]":
        """The entries in the order of keys.

        >>> list(SortedMap.fromkeys([ObjectIdentifier("2.5")], 1).items())
        [(ObjectIdentifier('2.5'), 1)]
        """
        return SortedMap_items(self, 2)

    def __eq__(self, other: object) -> bool:
        if not isinstance(other, Mapping):
            return NotImplemented
        equals = super()._equals(other)
        if equals is None and super().__len__() == len(other):
            are_keys = False not in [issubclass(type(key), ObjectIdentifier) for key in [*other]]
            equals = are_keys and super()._equals(SortedMap(other))
        return bool(equals)

    def __or__(self, other: Mapping[Key, Value]) -> Self:
        return _made(self, self, other) if isinstance(other, Mapping) else NotImplemented

    def __ror__(self, other: Mapping[Key, Value]) -> Self:
        return _made(self, other, self) if isinstance(other, Mapping) else NotImplemented

    def __ior__(
        self, other: Mapping[Key, Value] | Iterable[tuple[ObjectIdentifier, Value]]
    ) -> Self:
        super().update(other)
        return self

    @recursive_repr("{...}")
    def __repr__(self) -> str:
        entries = [f"{key!r}: {value!r}" for key, value in [*SortedMap.items(self)]]
        return f"{type(self).__name__}({{{', '.join(entries)}}})"

    def __reduce__(self) -> Any:
        """As of a dict: a subclass that calls it has the entries among the arguments."""
        return _filled, (type(self), [*SortedMap.items(self)]), self.__getstate__()

    def __reduce_ex__(self, protocol: Any) -> Any:
        """As of a dict: entries are no part of the state, which a subclass may make and take by methods of its own."""
        if type(self).__reduce__ is not SortedMap.__reduce__:
            return self.__reduce__()
        return *_new(self), self.__getstate__(), None, iter([*SortedMap.items(self)])

    def __setstate__(self, state: Any) -> None:
        attributes, slots = state if isinstance(state, tuple) else (state, None)
        if attributes:
            vars(self).update(attributes)
        for name, value in (slots or {}).items():
            setattr(self, name, value)


@recursive_repr("...")
def _shown(view: Any) -> str:
    """As that of a dict's view is."""
    return f"{type(view).__name__}({[*view]})"


@KeysView.register
class SortedMap_keys(Keys, Set[ObjectIdentifier]):
    __slots__ = ()
    __contains__: Any = KeysView.__contains__
    __repr__ = _shown
    _from_iterable = set


@ValuesView.register
class SortedMap_values(Values[Value], Collection[Value]):
    __slots__ = ()
    __repr__ = _shown

    def __contains__(self, value: object) -> bool:
        return value in [*self]


@ItemsView.register
class SortedMap_items(Items[Value], Set[tuple[ObjectIdentifier, Value]]):
    __slots__ = ()
    __contains__: Any = ItemsView.__contains__
    __repr__ = _shown
    _from_iterable = set


def _new(table: Any) -> tuple[Any, Any]:
    """What makes a map of a class, without entries, for pickles: a function and its arguments."""
    registry: Any = copyreg
    if hasattr(table, "__getnewargs_ex__"):
        return registry.__newobj_ex__, (type(table), *table.__getnewargs_ex__())
    return registry.__newobj__, (type(table), *getattr(table, "__getnewargs__", tuple)())


def _filled(kind: Any, entries: Any) -> Any:
    """A map of a class, with entries, for pickles."""
    made = object.__new__(kind)
    Table.update(made, entries)
    return made


def _made(table: Map, *sources: Any) -> Map:
    """A map of the class and the state of another one, with entries of others in turn."""
    made, state = object.__new__(type(table)), table.__getstate__()
    if state is not None:
        made.__setstate__(state)
    for entries in sources:
        Table.update(made, entries)
    return made
