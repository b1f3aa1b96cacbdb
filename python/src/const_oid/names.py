"""Names of identifiers: entries from RFCs and other documents, which lead, and others that people type.

The others are of OpenSSL, MIBs, Microsoft and others. The case of ASCII letters does not matter, and blanks in a name
do. Since documents lead, some names, such as `DSA` and `host`, are other identifiers than in OpenSSL or a MIB:
`common_entries` has theirs, and docs/NAMES.md lists them. And of two identifiers that documents call `id-mod`,
`id-alg` or `hashAlgs`, the first is found.

>>> parse("SNMPv2-MIB::sysName.0"), display(parse(".1.3.6.1.2.1.1.5.0"))
(ObjectIdentifier('1.3.6.1.2.1.1.5.0'), 'sysName.0')
"""

import os
from functools import cache

from . import _native
from ._native import ObjectIdentifier

__all__ = ["by_name", "common_entries", "display", "entries", "name_of", "names_of", "parse"]


def _read(table: str) -> tuple[tuple[ObjectIdentifier, str], ...]:
    with open(os.path.join(os.path.dirname(__file__), table), encoding="utf-8") as file:
        fields = file.read().replace("\n", "\t").split("\t")
    return tuple(zip(map(ObjectIdentifier, fields[2::4]), fields[3::4]))


@cache
def entries() -> tuple[tuple[ObjectIdentifier, str], ...]:
    """All entries from documents, each an identifier and a name, in the order of the table.

    >>> entries()[0]
    (ObjectIdentifier('1.2.112.0.2.0.34.101.66'), 'bake')

    A map keeps the last value of a key. Reversed entries make one with the name that `name_of` returns:

    >>> oid = ObjectIdentifier("2.5.4.3")
    >>> dict(entries())[oid], dict(reversed(entries()))[oid], name_of(oid)
    ('commonName', 'cn', 'cn')
    """
    return _read("names.tsv")


@cache
def common_entries() -> tuple[tuple[ObjectIdentifier, str], ...]:
    """All others, of OpenSSL, MIBs and more, in the same form. A few names of `entries` have another identifier here.

    >>> common_entries()[2]
    (ObjectIdentifier('1.2.840.10045.3.1.7'), 'P-256')
    """
    return _read("common_names.tsv")


def name_of(oid: ObjectIdentifier) -> str | None:
    """The first name of an identifier, or None.

    >>> name_of(ObjectIdentifier("1.2.840.10045.2.1"))
    'id-ecPublicKey'
    """
    return _native.name_of(oid)


def names_of(oid: ObjectIdentifier) -> tuple[str, ...]:
    """All names of an identifier, each once, in the order of the tables.

    >>> names_of(ObjectIdentifier("2.5.4.98"))
    ('c3', 'countryCode3c')
    """
    return _native.names_of(oid)


def by_name(name: str) -> ObjectIdentifier | None:
    """The first identifier with a name, whatever the case of its ASCII letters, or None.

    >>> by_name("ID-ECPUBLICKEY"), by_name("sha256")
    (ObjectIdentifier('1.2.840.10045.2.1'), ObjectIdentifier('2.16.840.1.101.3.4.2.1'))
    """
    return _native.by_name(name)


def parse(text: str) -> ObjectIdentifier:
    """Parse what people type and paste: dotted text, a name, or a name and arcs.

    Around it may be ASCII whitespace, but no vertical tab, and before it a prefix: `OID.` or `urn:oid:`, in any case, a
    dot, or a module and `::`, which is a letter, and then letters, digits and hyphens, and is not looked up. What begins
    with a digit is dotted text. Else it begins with a name that `by_name` finds: all of the text is tried, and then what
    is before each dot, from the last one on. An `OidError` is that of the text after the prefix, with the arcs of a name
    in its place.

    >>> parse(" IF-MIB::ifDescr.3"), parse("urn:oid:CN")
    (ObjectIdentifier('1.3.6.1.2.1.2.2.1.2.3'), ObjectIdentifier('2.5.4.3'))
    """
    return _native.parse(text)


def display(oid: ObjectIdentifier) -> str:
    """The first name of an identifier's longest prefix of three arcs or more with one, which may be itself, and the arcs
    after it, or else dotted text.

    A name that leads elsewhere, such as a second `hashAlgs`, is none, so `parse` returns the same identifier.

    >>> display(parse("2.5.4.3")), display(parse("1.3.6.1.2.1.1.5.0")), display(parse("2.999"))
    ('cn', 'sysName.0', '2.999')
    """
    return _native.display(oid)
