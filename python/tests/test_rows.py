"""The rows of the library for C, whose results this package has too: ObjectIdentifier, OidError and SortedMap."""

import functools
import itertools
import os
import pathlib
import re
import unittest

from const_oid import ObjectIdentifier, OidError, SortedMap, names
from const_oid._native import error_text, wrong_component

TOP = pathlib.Path(__file__).resolve().parents[2]
ROWS = pathlib.Path(os.environ.get("ROWS", TOP / "crates/oid_rows/stdin"))


def oid_of(digits):
    return ObjectIdentifier.from_bytes(bytes.fromhex(digits))


def digits_of(oid):
    return "none" if oid is None else bytes(oid).hex().upper()


def of_words(call, kind=oid_of):
    return lambda words: call(*map(kind, words.removesuffix(" ").split(" ")))


def listed(arcs):
    return f"{len(arcs)} arcs {' '.join(map(str, arcs))}".rstrip()


def printed(oid):
    same = ObjectIdentifier(str(oid)), ObjectIdentifier.from_arcs(oid)
    return (
        f"{oid}, {listed(oid)}"
        if [bytes(oid)] * 2 == [*map(bytes, same)]
        else "its text or arcs have other octets"
    )


def element(digits):
    octets = bytes.fromhex(digits)
    oid, rest = ObjectIdentifier.read_der(octets)
    return (
        f"{len(oid.der)} bytes, {digits_of(oid)}" if oid.der + rest == octets else "another element"
    )


def in_order(*oids):
    pairs = itertools.product(enumerate(oids), repeat=2)
    return (
        "in order"
        if all((a < b, a > b) == (i < j, i > j) for (i, a), (j, b) in pairs)
        else "not in order"
    )


def searched(oid, *items):
    """What a map of the items of a list to their first indices finds for an identifier."""
    table = SortedMap({item: index for index, item in reversed(list(enumerate(items)))})
    found = (oid, table[oid]) if oid in table else None, table.next_after(oid), table.nearest(oid)
    find, after, nearest = (
        f"none of {len(items)}" if entry is None else entry[1] for entry in found
    )
    start, below = sum(item < oid for item in items), {entry[0] for entry in table.subtree(oid)}
    return f"find {find}, next {after}, nearest {nearest}, range {start} {start + sum(item in below for item in items)}"


CALLS = {
    "text": lambda text: digits_of(ObjectIdentifier(text)),
    "bytes": lambda digits: digits_of(
        ObjectIdentifier(bytes.fromhex(digits).decode("utf-8", "surrogateescape"))
    ),
    "octets": of_words(printed),
    "element": element,
    "arcs": lambda arcs: digits_of(ObjectIdentifier.from_arcs(map(int, arcs.split()))),
    "arcs_from": of_words(
        lambda digits, first, room: listed(oid_of(digits)[int(first) :][: int(room)]), str
    ),
    "component": lambda text: str(wrong_component(text.encode())).lower(),
    "parent": lambda digits: digits_of(oid_of(digits).parent),
    "child": of_words(lambda digits, arc: digits_of(oid_of(digits).child(int(arc))), str),
    "begins": of_words(lambda oid, prefix: "yes" if oid.starts_with(prefix) else "no"),
    "equal": of_words(lambda left, right: "yes" if left == right else "no"),
    "by_arcs": of_words(
        lambda left, right: "less" if left < right else "greater" if left > right else "equal"
    ),
    "by_arcs_order": of_words(in_order),
    "list": of_words(searched),
    "error": of_words(lambda code, detail: error_text(code, detail) or "none", int),
}


def typed(digits):
    return digits_of(names.parse(bytes.fromhex(digits).decode("utf-8", "surrogateescape")))


@functools.cache
def all_names():
    """A map with the first name of each identifier."""
    return SortedMap(reversed(names.entries() + names.common_entries()))


def nearest(digits):
    entry = all_names().nearest(oid_of(digits))
    return f"{digits_of(entry[0])} {entry[1]}" if entry else "none"


# The calls for names. They have the tables of the package, and are asked for rows whose entries these are.
OF_NAMES = {
    "entry": lambda words: f"{digits_of(names.by_name(words.split(' ', 2)[2]))} {names.name_of(oid_of(words.split()[1]))}",
    "parse": lambda words: digits_of(names.parse(words.split(" ", 1)[1])),
    "parse_bytes": lambda words: typed(words.split(" ")[1]),
    "display": lambda digits: names.display(oid_of(digits)),
    "nearest": nearest,
}

# What this package has no call for: the other orders, whether a list is sorted, names, and outputs of a length.
LEFT_OUT = set(
    "items_order owned owned_order borrowed borrowed_order sorted names text_in arcs_in".split()
)
if "ROWS" in os.environ:
    CALLS |= OF_NAMES
else:
    LEFT_OUT |= OF_NAMES.keys()


def answer(call, words):
    try:
        return CALLS[call](words)
    except OidError as error:
        return {11: "no text", 14: "no element"}.get(
            error.code
        ) or f"error: {error_text(*error.args)}"


class Rows(unittest.TestCase):
    def test_rows_have_their_results(self):
        found = {*LEFT_OUT}
        for line, row in enumerate(ROWS.read_text(encoding="utf-8").split("\n"), 1):
            # {UNIT*COUNT} stands for COUNT units.
            whole = re.sub(
                r"\{([^*]*)\*(\d+)\}", lambda repeated: repeated[1] * int(repeated[2]), row
            )
            if parts := re.match("([^# ]+) ?(.*?) = (.*)", whole, re.S):
                call, words, wanted = parts.groups()
                found.add(call)
                # What a short output leaves, the package has, too.
                if call not in LEFT_OUT and (
                    not call.startswith("parse") or wanted != "error: OID length invalid"
                ):
                    with self.subTest(f"line {line}: {row}"):
                        # How long an element of wrong octets is, the package does not say.
                        self.assertEqual(
                            re.sub(r"^\d+ bytes, error", "error", wanted), answer(call, words)
                        )
        self.assertTrue("ROWS" in os.environ or found == {*CALLS, *LEFT_OUT})
