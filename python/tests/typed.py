"""The types that the package declares, for mypy --strict; `uses` runs, too."""

import copy
from collections.abc import Iterable, Iterator, Sequence
from typing import Any, assert_type

from const_oid import Code, ObjectIdentifier, OidError, SortedMap, __version__, names

Entry = tuple[ObjectIdentifier, str]


class Under(ObjectIdentifier):
    pass


def uses() -> None:
    oid = assert_type(ObjectIdentifier("1.2.840.2"), ObjectIdentifier)
    under = assert_type(Under(oid), Under)
    assert_type(ObjectIdentifier(under), ObjectIdentifier)
    for octets in (b"\6\1\x2a", bytearray(b"\6\1\x2a"), memoryview(b"\6\1\x2a")):
        assert_type((Under.from_bytes(octets), Under.from_der(octets)), tuple[Under, Under])
    assert_type(Under.read_der(b"\6\1\x2a"), tuple[Under, bytes])
    assert_type(Under.read_der(memoryview(b"\6\1\x2a")), tuple[Under, memoryview])
    assert_type(
        (Under.from_arcs([2, 999]), Under.from_arcs(oid), under.child(3)),
        tuple[Under, Under, Under],
    )
    assert_type(
        (under.parent, oid.arcs, oid[1:]), tuple[Under | None, tuple[int, ...], tuple[int, ...]]
    )
    assert_type(
        (oid.starts_with(under), 840 in oid, oid < under, oid == under),
        tuple[bool, bool, bool, bool],
    )
    assert_type(
        (oid[0], len(oid), hash(oid), oid.index(2), oid.count(2)), tuple[int, int, int, int, int]
    )
    assert_type(
        (str(oid), f"{oid:>9}", bytes(oid), oid.der, copy.copy(under)),
        tuple[str, str, bytes, bytes, Under],
    )
    match oid:
        case ObjectIdentifier((first, *_)):
            assert_type(first, int)
    arcs: Sequence[int] = oid
    assert_type(iter(arcs), Iterator[int])
    error: ValueError = (wrong := OidError(Code.DIGIT_EXPECTED, 120))
    assert error.args == (4, 120)
    assert_type((wrong.code, wrong.detail, wrong.piece), tuple[Code, int, int | None])
    assert_type((wrong.given, __version__, repr(wrong)), tuple[object, str, str])

    key: dict[ObjectIdentifier, str] = {oid: "name", under: "another"}
    table, below = assert_type(SortedMap(key), SortedMap[str]), {under.child(True): "name"}
    assert_type(
        (SortedMap[int]([(oid, True)]), SortedMap(below)), tuple[SortedMap[int], SortedMap[str]]
    )
    table.update(below)
    assert_type((table | below, table.copy()), tuple[SortedMap[str], SortedMap[str]])
    table |= [(oid, "name")]
    assert_type(
        (table.nearest(oid), table.next_after(oid), table.popitem()),
        tuple[Entry | None, Entry | None, Entry],
    )
    assert_type((table.subtree(oid), [*reversed(table.items())]), tuple[list[Entry], list[Entry]])
    assert_type(
        (list(table), [*reversed(table.values())]), tuple[list[ObjectIdentifier], list[str]]
    )
    assert_type((SortedMap.fromkeys([oid], 0), table.get(oid)), tuple[SortedMap[int], str | None])
    bare = SortedMap.fromkeys([oid])
    assert_type(
        (bare, dict.fromkeys([oid])),
        tuple[SortedMap[Any | None], dict[ObjectIdentifier, Any | None]],
    )
    assert_type(
        (names.name_of(oid), names.names_of(oid), names.display(oid)),
        tuple[str | None, tuple[str, ...], str],
    )
    assert_type(
        (names.parse("cn"), names.by_name("cn")), tuple[ObjectIdentifier, ObjectIdentifier | None]
    )
    entries: Iterable[Entry] = names.entries() + names.common_entries()
    assert_type(SortedMap(entries), SortedMap[str])


def rejected(oid: ObjectIdentifier, table: SortedMap[str]) -> list[bool]:
    """Values of another type, and comparisons that are never true, for mypy alone, which needs each comment."""
    table = SortedMap.fromkeys([oid], 0)  # type: ignore[arg-type]
    return [
        oid == "2.5.4.3",  # type: ignore[comparison-overlap]
        oid != (2, 5, 4, 3),  # type: ignore[comparison-overlap]
        "2.5.4.3" in table,  # type: ignore[comparison-overlap]
        oid in ["2.5.4.3"],  # type: ignore[comparison-overlap]
    ]
