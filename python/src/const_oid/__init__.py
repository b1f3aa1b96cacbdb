"""Object identifiers (ITU-T X.660) as dotted text, arcs, elements of DER and contents octets (ITU-T X.690, 8.19).

>>> oid = ObjectIdentifier("1.2.840.10045.2.1")
>>> bytes(oid).hex(), oid.arcs
('2a8648ce3d0201', (1, 2, 840, 10045, 2, 1))

Contents octets have no tag and no length. In DER, such as that of a certificate, these come first: the tag of an
identifier is 6. `from_der` and `read_der` take them. A walk over all values gives the place of each element with this
tag, and its identifier or its error. It takes the contents of an OCTET STRING, such as an extension's, for DER if they
can be read so. It finds no identifier in a BIT STRING, nor one whose own tag is implicit, as a registeredID's. A value
that goes on past what it is in, or a tag of several octets, ends it with a ValueError, and values nested past Python's
recursion limit with a RecursionError. An OCTET STRING with such contents is passed over.

>>> import contextlib
>>> def identifiers(der, place=0):
...     der = memoryview(der)  # of which a slice is no copy
...     while der:
...         start, length = 2, int.from_bytes(der[1:2])
...         if length >= 128:  # then it is how many octets the length has
...             start = length - 126
...             length = int.from_bytes(der[2:start])
...         element, value, after = der[: start + length], der[start : start + length], der[start + length :]
...         if len(element) < start + length or der[0] & 31 == 31:
...             raise ValueError(f"at {place}, octets are missing, or a tag has several")
...         if der[0] == 6:
...             try:
...                 yield place, ObjectIdentifier.from_der(element)
...             except OidError as error:
...                 yield place, error
...         elif der[0] & 32:  # a constructed value
...             yield from identifiers(value, place + start)
...         elif der[0] == 4:  # an OCTET STRING
...             with contextlib.suppress(ValueError, RecursionError):
...                 yield from list(identifiers(value, place + start))
...         der, place = after, place + len(element)
>>> for place, found in identifiers(bytes.fromhex("301b 06062a9080808000 0603551d25 040c300a06082b06010505070301")):
...     print(place, found if isinstance(found, ObjectIdentifier) else found.code.name)
2 ARC_TOO_BIG
10 2.5.29.37
19 1.3.6.1.5.5.7.3.1

The library const_oid_c parses, prints, encodes and orders. Identifiers, maps and functions are thread-safe.
"""

import copy
import copyreg
import enum
import importlib
import re
import reprlib
import sys
from collections.abc import Sequence
from typing import Any, cast

from . import _native, names
from ._native import ObjectIdentifier, __version__, error_text, wrong_component
from .sorted_map import SortedMap

__all__ = ["Code", "ObjectIdentifier", "OidError", "SortedMap", "__version__", "names"]


def __dir__() -> list[str]:
    return __all__


class _Listed(enum.EnumType):
    """For help and dir, in which a class of numbers has all methods of int."""

    def __dir__(cls) -> list[str]:
        return [*cls.__members__]


class Code(enum.IntEnum, metaclass=_Listed):
    """Why there is no result: `code` of an `OidError`."""

    ARC_INVALID = 1
    ARC_TOO_BIG = 2
    BASE128 = 3
    DIGIT_EXPECTED = 4
    EMPTY = 5
    LENGTH = 6
    OVERFLOW = 7
    REPEATED_DOT = 8
    TRAILING_DOT = 9
    OUTPUT_TOO_SHORT = 10
    NOT_UTF8 = 11
    NONE = 12
    UNSORTED = 13
    NO_ELEMENT = 14


class _Field:
    """Shows a field of an error in help and dir. The field itself is in vars(error), which comes first."""

    def __init__(self, name: str, words: str) -> None:
        self.name, self.__doc__ = name, words

    def __get__(self, error: object, kind: type) -> Any:
        # Nor has the class, whose `code` pydantic 1 would take for a text.
        raise AttributeError(f"{kind.__name__!r} object has no attribute {self.name!r}")


class OidError(ValueError):
    """A text, arcs or octets that denote no identifier.

    >>> try:
    ...     ObjectIdentifier("1.2.x")
    ... except OidError as error:
    ...     print(error, error.code.name, error.detail, error.given, error.piece, sep="; ")
    expected digit, got 'x', given '1.2.x'; DIGIT_EXPECTED; 120; 1.2.x; 2
    """

    code = cast(Code, _Field("code", "Why: one of `const_oid.Code`, which are numbers."))
    detail = cast(
        int,
        _Field("detail", "The arc with `ARC_INVALID`, the byte with `DIGIT_EXPECTED`, and else 0."),
    )
    given = cast(
        object,
        _Field("given", "The text, octets (of read_der 128 of the element), arcs or arc, or None."),
    )
    _piece: int | None = None

    def __init__(
        self, code: int, detail: int = 0, given: object = None, piece: int | None = None
    ) -> None:
        super().__init__(code, detail)
        error_text(code, detail)  # an error if a number is out of range
        self.code, self.detail, self.given = Code(code), detail, given
        if piece is not None:
            self._piece = piece

    @property
    def piece(self) -> int | None:
        """The index of the first wrong component, between the dots of a text, or None if no component is wrong. A dot
        at the end belongs to the component before it. Of `names.parse`, a name, with its dots, is component 0.

        >>> [OidError(Code.TRAILING_DOT, 0, text).piece for text in ("3.", "1.2.")]
        [0, 1]
        """
        if isinstance(self.given, str) and self._piece is None:
            return wrong_component(self.given.encode(errors="replace"))
        return self._piece

    def __str__(self) -> str:
        text = error_text(self.code, self.detail) or f"{self.code.name} {self.detail}"
        given = self.given if isinstance(self.given, str) else ""
        if self.code is Code.EMPTY and self.given and not isinstance(self.given, bytes):
            text = "an identifier has two arcs or more"
        elif self.code is Code.NO_ELEMENT and isinstance(self.given, bytes):
            text = _error_of_element(self.given)
        elif self.code is Code.DIGIT_EXPECTED and self.detail < 256:
            found = re.search("[^\0-\x7f]", given) if self.detail > 127 else None
            character = found[0] if found else chr(self.detail)
            text = text.replace(chr(self.detail), repr(character)[1:-1])
            if re.match(r"\.[0-9]", given):
                text += " (remove the first dot)"
            if self._piece == 0 and re.match("[A-Za-z]", given):
                text = "no identifier has this name"
            elif self.piece == 0 and re.match("[A-Za-z]", given):
                text += " (names.parse takes names)"
        return text if self.given is None else f"{text}, given {_shown(self.given)}"

    def __repr__(self) -> str:
        given = "" if self.given is None else f", {_shown(self.given)}"
        return f"{type(self).__name__}(Code.{self.code.name}, {self.detail}{given})"


def _error_of_element(octets: bytes) -> str:
    """Why octets are not one whole element of DER."""
    if octets[:1] != b"\6":
        return "the tag is not 6"
    try:
        ObjectIdentifier.read_der(octets)
    except OidError:
        return "the length is not in the form of DER, or octets are missing"
    return "octets come after the element"


Sequence.register(ObjectIdentifier)

_HINTS: dict[type, str] = {str: "ObjectIdentifier takes text", bytes: "from_bytes takes octets"}
_HINTS.update((kind, "from_arcs takes arcs") for kind in (tuple, list))
_HINTS.update((kind, "a set has no order") for kind in (set, frozenset))
_OF_OCTETS = _HINTS | {
    str: "ObjectIdentifier takes dotted text, and bytes.fromhex hexadecimal text"
}
_OF_OCTETS.update((kind, "bytes takes octets as numbers") for kind in (tuple, list))
# By an attribute that identifiers of cryptography, asn1crypto or pyasn1 have.
_OF_OTHERS = {
    "dotted_string": "its .dotted_string",
    "dotted": "its .dotted",
    "isPrefixOf": "its str()",
}

# Shows a value as repr does, but cut if it is long. An int of more digits than Python prints is no error.
_SHOWN = reprlib.Repr()
setattr(_SHOWN, "repr_int", _SHOWN.repr_instance)
_SHOWN.maxstring, _SHOWN.maxother, _SHOWN.maxtuple = 60, 60, 12
_shown = _SHOWN.repr


def _wrong_type(wanted: str, given: object) -> TypeError:
    """The error for a value of another type, which says what makes an identifier of it, if that is known."""
    kind = type(given)
    name = f"{kind.__module__}.{kind.__qualname__}".removeprefix("builtins.")
    hint = (_OF_OCTETS if wanted.startswith("octets") else _HINTS).get(kind)
    for field, text in _OF_OTHERS.items():
        if hasattr(kind, field):
            hint = f"ObjectIdentifier takes {text}"
    return TypeError(f"{wanted}, not {name}" + (f" ({hint})" if hint else ""))


def _not_among(arc: object) -> ValueError:
    """The error of an index."""
    return ValueError(f"{_shown(arc)} is not among the arcs")


class _Reduced:
    """What is copied in place of an identifier, whose __copy__ the module copy would call again."""

    def __init__(self, reduced: Any) -> None:
        self.reduced = reduced

    def __reduce_ex__(self, protocol: object) -> Any:
        return self.reduced


def _copied(oid: ObjectIdentifier, memos: tuple[dict[int, object], ...]) -> object:
    """An identifier; if of a subclass, a copy by the protocol of pickle, and a deep one if there is a memo."""
    if type(oid) is ObjectIdentifier:
        return oid
    reductor = copyreg.dispatch_table.get(type(oid))
    reduced: Any = reductor(oid) if reductor else oid.__reduce_ex__(4)
    if not isinstance(reduced, tuple):
        return oid

    def make(*given: object) -> object:
        made = reduced[0](*given)
        for memo in memos:  # where attributes refer to the identifier
            memo[id(oid)] = made
        return made

    source = _Reduced((make, *reduced[1:]))
    return copy.deepcopy(source, *memos) if memos else copy.copy(source)


def _reduced(oid: ObjectIdentifier) -> tuple[object, ...]:
    """For pickles of a subclass, which is called again, and gets its attributes."""
    return type(oid), (ObjectIdentifier(oid),), oid.__getstate__()


def _as_array(oid: ObjectIdentifier) -> Any:
    """An array of numpy, without dimensions, of this object."""
    array: Any = importlib.import_module("numpy").empty((), "O")
    array[()] = oid
    return array


def _pydantic_schema(kind: type[ObjectIdentifier], _: object) -> Any:
    """For a field of pydantic 2: text and identifiers are taken, and text is given in JSON."""
    schemas: Any = importlib.import_module("pydantic_core").core_schema
    text = schemas.str_schema(strict=True)
    either = schemas.union_schema([schemas.is_instance_schema(ObjectIdentifier), text])
    taken, given = schemas.json_or_python_schema(text, either), schemas.to_string_ser_schema()
    return schemas.no_info_after_validator_function(kind, taken, serialization=given)


def _pydantic_validators(kind: type[ObjectIdentifier], _: object) -> list[type[ObjectIdentifier]]:
    """The same for pydantic 1, which looks in a table of its own for what gives text."""
    for name in ("pydantic.json", "pydantic.v1.json"):
        getattr(sys.modules.get(name), "ENCODERS_BY_TYPE", {})[ObjectIdentifier] = str
    return [kind]


# The extension module calls these, of the first import, whatever happens to sys.modules. No lazy import outlives it.
vars(_native).setdefault("support", sys.modules[__name__])
