"""ObjectIdentifier and OidError as values of Python: their inputs, copies, pickles and interpreters."""

import array
import collections
import concurrent.futures
import copy
import copyreg
import csv
import ctypes
import importlib
import itertools
import mmap
import operator
import pickle
import random
import subprocess
import sys
import tempfile
import threading
import time
import timeit
import unittest
import weakref
from unittest import mock

import const_oid
from const_oid import Code, ObjectIdentifier, OidError, SortedMap, _native, names

from_bytes = ObjectIdentifier.from_bytes
from_der = ObjectIdentifier.from_der
from_arcs = ObjectIdentifier.from_arcs
OID = ObjectIdentifier("1.2.840.10045.2.1")
OCTETS = bytes.fromhex("2A8648CE3D0201")
LONG = from_bytes(bytes([42] + [3] * 299))
GREATEST = b"\x8f\xff\xff\xff\x7f"
TABLE = SortedMap()
COMPARISONS = operator.eq, operator.ne, operator.lt, operator.le, operator.gt, operator.ge

# For each call what is given, what the error says, its code, and, unless 0 and None, its detail and its wrong component.
EMPTY = "OID value is empty"
SHORT = "an identifier has two arcs or more"
TRAILING = "OID ends with invalid trailing '.'"
TOO_BIG = "OID contains arc which is larger than 32-bits"
DIGIT = "expected digit, got "
NOT_UTF8 = "the text is not UTF-8"
NO_NAME = "no identifier has this name"
TAG = "the tag is not 6"
AFTER = "octets come after the element"
MISSING = "the length is not in the form of DER, or octets are missing"
WRONG = {
    ObjectIdentifier: [
        ("", EMPTY, 5, 0, 0),
        ("1", SHORT, 5, 0, 0),
        ("1.40.x", "OID contains out-of-range arc: 40", 1, 40, 1),
        ("1.", TRAILING, 9, 0, 0),
        ("3.", TRAILING, 9, 0, 0),
        ("1.2.", TRAILING, 9, 0, 1),
        (".", DIGIT + "'.'", 4, 46, 0),
        ("..", DIGIT + "'.'", 4, 46, 0),
        (".1.3.6", DIGIT + "'.' (remove the first dot)", 4, 46, 0),
        ("x.2", DIGIT + "'x' (names.parse takes names)", 4, 120, 0),
        ("1.2.3x.y", DIGIT + "'x'", 4, 120, 2),
        ("1.2\0.3", DIGIT + r"'\x00'", 4, 0, 1),
        ("1.2.ü٣", DIGIT + "'ü'", 4, 0xC3, 2),
        ("1.2.\u2028", DIGIT + r"'\u2028'", 4, 0xE2, 2),
        ("1.2.😀.x", DIGIT + "'😀'", 4, 0xF0, 2),
        ("1.\ud800", NOT_UTF8, 11, 0, 1),
        ("1.2.\ud800", NOT_UTF8, 11, 0, 2),
    ],
    names.parse: [
        ("no name.1", NO_NAME, 4, 110, 0),
        ("x", NO_NAME, 4, 120, 0),
        ("sysUpTime.x", DIGIT + "'x'", 4, 120, 1),
        ("ANSI X9.62.x", DIGIT + "'x'", 4, 120, 1),
        ("1.x", DIGIT + "'x'", 4, 120, 1),
        ("cn.\ud800", NOT_UTF8, 11, 0, 1),
        ("1.2.\ud800", NOT_UTF8, 11, 0, 2),
        ("c\ud800", NOT_UTF8, 11, 0, 0),
    ],
    from_bytes: [
        (b"", EMPTY, 5),
        (b"\x2a\x80\x01", "OID contains arc with invalid base 128 encoding", 3),
    ],
    from_der: [
        (b"\6\0", EMPTY, 5),
        (b"", TAG, 14),
        (b"\26\1\x2a", TAG, 14),
        (b"\6\1\x2a\0", AFTER, 14),
        (b"\6\1\x2a\0\0", AFTER, 14),
        (b"\6\1\x2a\0\0\0", AFTER, 14),
    ],
    ObjectIdentifier.read_der: [
        (b"\6", MISSING, 14),
        (b"\6\2\x2a", MISSING, 14),
        (b"\6\x81\1\x2a", MISSING, 14),
        (b"\6\x80\x2a\0\0", MISSING, 14),
    ],
    from_arcs: [
        ((), EMPTY, 5),
        ((1,), SHORT, 5),
        ((3, 2**32), "OID contains out-of-range arc: 3", 1, 3, None),
        ((1, 2, 2**32), TOO_BIG, 2),
        ((2**32,), TOO_BIG, 2),
        ((2**32, 40, 2**32), TOO_BIG, 2),
    ],
    OID.child: [(2**32, TOO_BIG, 2)],
}

# What an interpreter runs, where another one has a class with some id.
INTERPRETED = """
from const_oid import ObjectIdentifier, OidError
made = [bytes(ObjectIdentifier("1.2")) for _ in range(100_000)]
try:
    ObjectIdentifier("1.40")
except OidError as error:
    found = made[-1], str(ObjectIdentifier("2.999.3").parent), error.detail, id(ObjectIdentifier) == {}
assert found == (b"*", "2.999", 40, False), found
"""
Under = type("Under", (ObjectIdentifier,), {"__slots__": ()})


class Named(collections.abc.Sized, Under):
    __slots__ = ("__dict__", "slot")

    def __init__(self, text):
        self.text, self.slot, self.calls = str(text), [], getattr(self, "calls", 0) + 1


def index(call=int):
    """The arc 999, which calls a function where it is read."""

    def read(_):
        call()
        return 999

    return type("Index", (), {"__index__": read})()


# What raises an IndexError where it is read, and a ValueError where it is compared.
OWN_ERRORS = [mock.Mock(side_effect=kind("own")) for kind in (IndexError, ValueError)]
RAISING = type("Raising", (), dict(zip(("__index__", "__eq__"), OWN_ERRORS)))()

# Values by what an error calls their type, and calls with an argument that has to be an identifier, by its name.
OTHERS = {
    "bytes (from_bytes takes octets)": [b"1.2", OCTETS],
    "tuple (from_arcs takes arcs)": [(1, 2), ("1", "2")],
    "NoneType": [None],
    "int": [1],
    "float": [1.2],
    "test_values.Arcs": [type("Arcs", (), {"arcs": OID.arcs})()],
}
NOT_OIDS = OTHERS | {"str (ObjectIdentifier takes text)": ["1.2"]}
NOT_TEXTS = dict(OTHERS)
for field, module in {
    "dotted_string": "cryptography.x509",
    "dotted": "asn1crypto.core",
    "isPrefixOf": "pyasn1.type.univ",
}.items():
    hint = "str()" if field == "isPrefixOf" else f".{field}"
    other = type("Other", (), {"__module__": module, field: 0})()
    NOT_TEXTS[f"{module}.Other (ObjectIdentifier takes its {hint})"] = [other]
OF_OIDS = {
    "oid": [names.name_of, names.names_of, names.display],
    "prefix": [OID.starts_with],
    "key": [
        TABLE.nearest,
        TABLE.next_after,
        TABLE.subtree,
        TABLE.get,
        TABLE.__getitem__,
        TABLE.__delitem__,
        TABLE.__contains__,
        *(
            lambda key, kind=kind: TABLE.update(kind({OID: 1, key: 1}))
            for kind in (dict, dict.items, collections.ChainMap)
        ),
        lambda key: SortedMap({key: 1}),
        lambda key: TABLE.pop(key, None),
        lambda key: TABLE.setdefault(key, 1),
    ],
}

# Errors of Python: their type, what they say if it is of this package, the call and its inputs.
REJECTED = [
    (TypeError, "", from_bytes, ["2.999", None, 42, [42, 3], OID, array.array("B", [42])]),
    (TypeError, "", from_der, ["2.999", None, 42, [6, 1, 42], OID, array.array("B", [6, 1, 42])]),
    (
        TypeError,
        "",
        from_arcs,
        [
            "",
            "12",
            b"\1\2",
            bytearray(b"\1"),
            memoryview(b"\1\2"),
            None,
            1,
            [1, "2"],
            {1: 2, 2: 3},
            [1.0, 2],
            (1, 2**32, "3"),
            (1, 2**32, 2.0),
            (1, 2**32, None),
        ],
    ),
    (TypeError, "", OID.child, ["1", 1.0, None, OID]),
    (TypeError, "", OID.__getitem__, ["1", 1.0, None, OID]),
    (TypeError, "", lambda pairs: TABLE | pairs, [[], [1], [(OID, 1)], iter([(OID, 1)])]),
    (TypeError, "", lambda pairs: pairs | TABLE, [[], [1], [(OID, 1)], iter([(OID, 1)])]),
    (ValueError, "an arc is negative: -2", from_arcs, [(1, -2)]),
    (ValueError, "an arc is negative: -2", OID.child, [-2]),
    (ValueError, "an arc is negative", OID.child, [-(10**5000)]),
    (ValueError, "9 is not among the arcs", OID.index, [9]),
    (ValueError, "'1' is not among the arcs", OID.index, ["1"]),
    (ValueError, "2 is not among the arcs", exec, ["OID.index(2, 0, 1)"]),
    (KeyError, repr(OID), exec, ["del TABLE[OID]", "TABLE[OID]", "TABLE.pop(OID)"]),
    (IndexError, "own", exec, ["OID[RAISING]", "OID.child(RAISING)"]),
    (ValueError, "own", exec, ["OID.index(RAISING)", "OID.count(RAISING)"]),
    (ValueError, "own", exec, ["OID.index(3, index(OWN_ERRORS[1]))"]),
    (
        TypeError,
        "",
        exec,
        [
            "OID[0] = 1",
            "del OID[0]",
            "OID.__class__ = Under",
            "ObjectIdentifier.other = 1",
            "del ObjectIdentifier.child",
            "ObjectIdentifier()",
            "ObjectIdentifier('1.2', '1.3')",
            "OID.__copy__(1)",
            "OID.__copy__(1, 2)",
            "OID.__deepcopy__()",
            "OID.__deepcopy__({}, {})",
            "OID.__array__(1, 2, 3)",
            "OID.__array__(x=4)",
            "OID.index(2, None)",
            "OID.index(2, '0')",
            "OID.index(2, 1.0)",
        ],
    ),
    (
        OverflowError,
        "a number has 32 bits",
        exec,
        [
            "OidError(4, 2**32 + 120)",
            "OidError(4, -1)",
            "OidError(2**32 + 4, 120)",
            "OidError(-1, 0)",
        ],
    ),
    (OverflowError, "", exec, ["OidError(4, 2**64 + 120)"]),
    (ValueError, "", exec, ["OidError(99)", "f'{OID:d}'"]),
]
for name in "arcs der parent _octets _known other __dict__".split():
    REJECTED.append((AttributeError, "", exec, [f"OID.{name} = 1", f"del OID.{name}"]))
for text, given in {
    "collections.OrderedDict": collections.OrderedDict({1: 2, 2: 3}),
    "set (a set has no order)": {1, 2},
    "frozenset (a set has no order)": frozenset([1, 2]),
}.items():
    REJECTED.append((TypeError, f"arcs must be an iterable of int, not {text}", from_arcs, [given]))
for name, calls in OF_OIDS.items():
    for call, (text, given) in itertools.product(calls, NOT_OIDS.items()):
        said = f"{name} must be an ObjectIdentifier, not {text}"
        REJECTED.append((TypeError, said, call, given))
for name, call in {"name": names.by_name, "text": names.parse}.items():
    for given in (3, b"cn", None, OID):
        said = f"{name} must be a str, not {type(given).__name__}"
        REJECTED.append((TypeError, said, call, [given]))
for text, given in {
    "list (bytes takes octets as numbers)": [1],
    "str (ObjectIdentifier takes dotted text, and bytes.fromhex hexadecimal text)": "2A03",
}.items():
    said = f"octets must be bytes, bytearray or memoryview, not {text}"
    REJECTED.append((TypeError, said, from_bytes, [given]))
for call in (from_bytes, ObjectIdentifier.read_der):
    said = "octets must be items of 1 byte, not 2: see memoryview.cast"
    REJECTED.append((TypeError, said, call, [memoryview(array.array("H", [0x106, 42]))]))
for name, call in {"text": ObjectIdentifier, "specification": OID.__format__}.items():
    for text, given in NOT_TEXTS.items():
        REJECTED.append((TypeError, f"{name} must be a str, not {text}", call, given))

# Subclasses with a state that is a tuple and without setattr; with a way of their own to be copied; and by copyreg.
OWN = {"__setattr__": None, "__getstate__": lambda oid: ("state", "kept")}
Kept = type(
    "Kept", (Under,), OWN | {"__setstate__": lambda oid, state: vars(oid).update(text=state[1])}
)
Reduced = type("Reduced", (Kept,), {"__reduce__": lambda oid: (Reduced, ("2.5",), ("", "reduced"))})
Listed = type("Listed", (Under,), {})
copyreg.pickle(Listed, lambda oid: (Listed, ("2.5",), {"text": "listed"}))

OfSystem = type("OfSystem", (OidError, OSError), {})
Bare = type("Bare", (OidError,), {"__init__": lambda error, *args: None})


def error_of(call, *given):
    try:
        call(*given)
    except Exception as error:
        return error
    return None


def seconds(call, *given):
    return timeit.timeit(lambda: call(*given), timer=time.process_time, number=1)


def is_linear(call, of):
    short, long = of(10_000), of(80_000)
    return any(
        seconds(call, long) < 24 * min(seconds(call, short) for _ in range(5)) for _ in range(5)
    )


def copies_of(value, protocols=range(pickle.HIGHEST_PROTOCOL + 1)):
    pickles = [pickle.loads(pickle.dumps(value, protocol)) for protocol in protocols]
    return [*pickles, copy.deepcopy(value), copy.deepcopy([value])[0]]


def buffers_of(octets):
    """A bytearray, a view of it, and other buffers of the same octets, some not in a row or of two dimensions."""
    views = (
        memoryview(source := bytearray(octets)),
        memoryview(b"\0" + octets)[1:],
        memoryview(octets[::-1])[::-1],
    )
    wide = [
        memoryview(octets).cast("B", shape)
        for shape in ([1, len(octets)], [len(octets), 1])
        if octets
    ]
    return [source, *views, *wide, octets, type("Octets", (bytes,), {})(octets)]


class Identifiers(unittest.TestCase):
    def test_octets_come_from_any_buffer(self):
        """The rest after an element has any length. That of a memoryview in a row is one, of the same memory."""
        for call, octets in ((from_bytes, OCTETS), (from_der, b"\6\7" + OCTETS)):
            source, *others = buffers_of(octets)
            taken = [bytes(call(given)) for given in (source, *others)]
            source[:] = bytes(len(source))
            self.assertEqual({(bytes, OCTETS)}, {(type(found), found) for found in taken})
        for rest in (b"", bytes(3), bytes(range(256)) * 300):
            source, view, *others = buffers_of(b"\6\7" + OCTETS + rest)
            for given in (source, view, *others):
                oid, found = OID.read_der(given)
                kind = memoryview if getattr(given, "ndim", 2) == 1 else bytes
                self.assertEqual((OID, rest, kind), (oid, bytes(found), type(found)))
            self.assertIs(source, OID.read_der(view)[1].obj)

    def test_others_write_to_a_buffer_meanwhile(self):
        """A process, and a thread without the lock: an identifier has valid octets, and an error has wrong ones."""
        der, ended = b"\6\x64*" + 99 * b"\3", []
        file = self.enterContext(tempfile.TemporaryFile(buffering=0))
        noise = self.enterContext(open("/dev/urandom", "rb", buffering=0))
        file.write(der)
        code = f"import mmap\nmemory = mmap.mmap({file.fileno()}, 0)\nwhile True: memory[50] = 128; memory[50] = 3"
        other = subprocess.Popen([sys.executable, "-c", code], pass_fds=[file.fileno()])
        self.addCleanup(other.wait)
        self.addCleanup(other.kill)
        shared, own = memoryview(mmap.mmap(file.fileno(), 0)), memoryview(bytearray(100_000) + der)

        def write():
            while not ended:
                own[-len(der) :] = der
                noise.readinto(own)

        self.addCleanup(sys.setswitchinterval, sys.getswitchinterval())
        sys.setswitchinterval(1e-5)
        thread = threading.Thread(target=write)
        self.addCleanup(thread.join)
        self.addCleanup(ended.append, True)
        thread.start()
        for view in (shared, own[-len(der) :]):
            found, end = {type(None): set(), OidError: set()}, time.monotonic() + 1
            while time.monotonic() < end or not all(found.values()):
                for call in (from_der, lambda view: OID.read_der(view)[0]):
                    try:
                        found[type(None)].add(call(view).der)
                    except OidError as error:
                        found[OidError].add(error.given)
            for kind, given in found.items():
                self.assertEqual({kind}, {type(error_of(from_der, octets)) for octets in given})

    def test_an_error_keeps_octets_of_the_element(self):
        """It has at most 128, and no buffer of the caller, and says the same of a view and of bytes."""
        found = {
            b"\6\2\x2a": 3,
            b"\6\0" + bytes(59): 2,
            b"\6\1\x80" + bytes(range(200)): 3,
            b"\7" + bytes(117): 2,
            b"\6": 1,
            b"\6\0": 2,
            b"\6\x7d\x80" + bytes(126): 127,
            b"\6\x7e\x80" + bytes(126): 128,
            b"\6\x7f\x80" + bytes(126): 128,
            b"\6\x80\x2a": 3,
            b"\6\x81\xc8\x80" + bytes(250): 128,
        }
        for octets, count in found.items():
            source, view, *others = buffers_of(octets)
            for given in (source, view, *others):
                error = error_of(ObjectIdentifier.read_der, given)
                self.assertEqual((bytes, octets[:count]), (type(error.given), error.given))
                self.assertEqual({str(error)}, {str(other) for other in copies_of(error)})
            view.release()
            del source[:]
            shown = ", given " + const_oid._shown(octets[:count])
            self.assertTrue(str(error).endswith(shown), error)

    def test_arcs_come_from_any_iterable(self):
        """Arcs are those of a list before it changes, and no other call comes between them."""
        child = ObjectIdentifier("2.5").child(index(own := mock.Mock()))
        found = child.arcs, own.call_count, from_arcs(OID), from_arcs([1, 2, 840, 10045, 2, True])
        self.assertEqual(((2, 5, 999), 1, OID, OID), found)
        made = [
            from_arcs(iter([2, index(own), 3])),
            from_arcs([2, index(lambda: from_arcs((1, 2, 5))), 3]),
        ]
        for change in ("clear", "pop", "reverse"):
            arcs = [2]
            arcs += [index(getattr(arcs, change)), 3]
            made.append(from_arcs(arcs))
        self.assertEqual((["2.999.3"] * 5, 2), ([*map(str, made)], own.call_count))

    def test_errors_of_python_say_what_to_do(self):
        for kind, text, call, inputs in REJECTED:
            for given in inputs:
                error = error_of(call, given)
                wanted = kind, text or str(error), {}
                self.assertEqual(wanted, (type(error), str(error), TABLE), (call, given))

    def test_the_callers_modules_do_not_matter(self):
        """Errors, of one class, and copies need nothing of the caller's builtins or of sys.modules."""
        calls = {
            "kind('1.40')": OidError,
            "kind(1)": TypeError,
            "oid.__copy__()": type(None),
            "copy(oid)": type(None),
        }
        scope = {"kind": ObjectIdentifier, "oid": Named("2.999"), "copy": copy.deepcopy}
        scope["__builtins__"] = {}
        with mock.patch.dict(sys.modules), mock.patch.dict(vars(const_oid)):
            all_of_it = [name for name in sys.modules if name.startswith("const_oid")]
            for missing in ([], ["const_oid"], all_of_it):
                for name in missing:
                    del sys.modules[name]
                for call, kind in calls.items():
                    self.assertIs(kind, type(error_of(eval, call, {**scope})))
                importlib.import_module("const_oid")

    def test_errors_say_what_is_wrong(self):
        for call, rows in WRONG.items():
            for given, text, code, *more in rows:
                detail, piece = more or (0, None)
                wanted = (code, detail), type(given), given, piece, f"{text}, given {given!r}"
                for one in buffers_of(given) if type(given) is bytes else [given]:
                    error = error_of(call, one)
                    found = error.args, type(error.given), error.given, error.piece, str(error)
                    self.assertEqual((OidError, *wanted), (type(error), *found), call)
        self.assertEqual((3, 1), error_of(from_arcs, iter((3, 1))).given)

    def test_long_inputs_are_cut(self):
        """An error shows the start of what is long, and has it whole, also if it has more digits than Python prints."""
        longs = {
            "'1.1.1": (ObjectIdentifier, 4000 * "1." + "x"),
            r"b'\x00\x00": (from_bytes, bytes(4000) + b"\x80"),
            "(3, 0, 1, ": (from_arcs, (3, *range(4000))),
            "(1, 2, <int": (from_arcs, (1, 2, 10**5000)),
            "156927543384": (OID.child, 2**190),
            "<int": (LONG.child, 10**5000),
        }
        for start, (call, given) in longs.items():
            error = error_of(call, given)
            self.assertIs(given, error.given)
            for text, before in ((str(error), ", given "), (repr(error), ", ")):
                self.assertTrue(before + start in text and len(text) < 130, text)

    def test_identifiers_have_any_length(self):
        """Up to 350,000 octets, of the greatest arcs in one octet, whose text has four bytes for each, and of all."""
        small = b"\x7f", 47, b"\x7f", 127
        great = b"\x90\x80\x80\x80\x4f", 2**32 - 1, GREATEST, 2**32 - 1
        counts = 126, 127, 128, 253, 254, 255, 256, 257, 1000, 65_534, 65_535, 70_000
        for count, (first, second, later, arc) in itertools.product(counts, (small, great)):
            arcs, octets = (2, second, *[arc] * count), first + later * count
            text = ".".join(map(str, arcs))
            oid, same = ObjectIdentifier(text), from_bytes(octets)
            child, parent = oid.child(2**32 - 1), oid.parent
            # Long values that differ would take minutes to print.
            right = [
                oid == same and hash(oid) == hash(same),
                not oid == from_bytes(octets + bytes(256)),
                octets == bytes(oid) == bytes(from_arcs(arcs)) == bytes(child.parent),
                octets + GREATEST == bytes(child),
                text == str(oid),
                f"ObjectIdentifier('{text}')" == repr(oid),
                arcs == oid.arcs,
                arcs[:-1] == parent.arcs,
                arcs[1:] == oid[1:],
                arcs[::-1] == oid[::-1],
                arcs.count(arc) == oid.count(arc),
                len(arcs) == len(oid),
                oid == parent.child(arc) == from_der(oid.der),
                (oid, b"\0") == oid.read_der(oid.der + b"\0"),
                (4, 120) == error_of(ObjectIdentifier, text + ".x").args,
                (3, 0) == error_of(from_bytes, octets + b"\x80").args,
                (2, 0) == error_of(from_arcs, (*arcs, 2**32)).args,
            ]
            self.assertTrue(all(right), (count, arc, right))

    def test_long_inputs_take_linear_time(self):
        def read(rest):
            while rest:
                error = error_of(ObjectIdentifier.read_der, rest)
                rest = (
                    rest[len(str(error)) and 256 :] if error else ObjectIdentifier.read_der(rest)[1]
                )

        printed = lambda text: str(ObjectIdentifier(text))
        piece = lambda text: error_of(ObjectIdentifier, text).piece
        text = lambda count: "1.2" + ".4294967295.7" * count
        wrong = lambda count: text(count) + ".x"
        self.assertEqual((text(80_000), 160_002), (printed(text(80_000)), piece(wrong(80_000))))
        self.assertTrue(is_linear(printed, text))
        self.assertTrue(is_linear(piece, wrong))
        self.assertTrue(is_linear(read, lambda count: memoryview(b"\6\1\x2a" * count)))
        self.assertTrue(is_linear(read, lambda count: memoryview(bytes(count * 32))))

    def test_copies_are_equal_and_of_one_class(self):
        for oid in (OID, LONG, Under("2.999")):
            for other in [*copies_of(oid), copy.copy(oid)]:
                found = other, other.arcs, hash(other), type(other)
                self.assertEqual((oid, oid.arcs, hash(bytes(oid)), type(oid)), found)

    def test_a_class_is_called_with_an_identifier(self):
        """As with tuple, it is the same object, but not of a subclass: else its __init__ would run again."""
        text, source = type("Text", (str,), {})(OID), Named("2.999")
        made = [
            ObjectIdentifier(Under(OID)),
            ObjectIdentifier(text),
            ObjectIdentifier(text=str(OID)),
        ]
        self.assertEqual([OCTETS] * 4, [*map(bytes, [Under(OID), *made])])
        self.assertEqual({ObjectIdentifier}, {*map(type, made)})
        self.assertIs(Under, type(Under(OID)))
        OID.__init__("2.5")
        setattr(type("Other", (ObjectIdentifier,), {}), "other", 1)
        self.assertEqual((True, "1.2.840.10045.2.1"), (ObjectIdentifier(OID) is OID, str(OID)))
        made = [
            (Named.from_bytes(b"\x88\x37"), "2.999"),
            (Named.from_arcs((2, 999)), "2.999"),
            (Named("2.999.1").parent, "2.999"),
            (Named("2.999"), "2.999"),
            (Named.read_der(source.der)[0], "2.999"),
            (Named(source), "2.999"),
            (Named(OID).parent.parent.parent.parent.child(3).parent, "1.2"),
            (source.child(7), "2.999.7"),
        ]
        for oid, text in made:
            self.assertEqual((Named, text, text, 1), (type(oid), str(oid), oid.text, oid.calls))

    def test_copies_of_a_subclass_have_its_attributes(self):
        oid = Named("2.999")
        oid.text, oid.slot, oid.other = "changed", [1], [oid]
        for other in copies_of(oid, range(2, 6)):
            self.assertEqual((oid, "changed", [1]), (other, other.text, other.slot))
            self.assertTrue(oid is not other is other.other[0] and oid.slot is not other.slot)
        other = copy.copy(oid)
        self.assertEqual((oid, "changed"), (other, other.text))
        self.assertTrue(other is not oid and other.slot is oid.slot and other.other is oid.other)
        other.text = "again"
        self.assertEqual(
            ("changed", id(OID), id(OID)), (oid.text, id(copy.copy(OID)), id(copy.deepcopy(OID)))
        )
        # Copies are made as pickles are.
        for kind, text in {Kept: "kept", Reduced: "reduced", Listed: "listed"}.items():
            made = [copy.copy(kind("2.999")), *copies_of(kind("2.999"))]
            self.assertEqual({(kind, text)}, {(type(oid), oid.text) for oid in made})

    def test_pickles_are_short_and_checked(self):
        oids = [ObjectIdentifier(f"1.3.6.1.2.1.{arc}.4.7") for arc in range(2, 102)]
        self.assertLess(len(pickle.dumps(oids)) - len(pickle.dumps(oids[:1])), 99 * (8 + 10))
        pickled = pickle.dumps(OID, 4)
        wrong = pickled.replace(OCTETS, OCTETS[:-1] + b"\x80")
        self.assertEqual((3, 0), error_of(pickle.loads, wrong).args)
        for other in (int, None, OID):
            with mock.patch.object(_native, "ObjectIdentifier", other):
                self.assertIs(TypeError, type(error_of(pickle.loads, pickled)))

    def test_pairs_compare_as_tuples_do(self):
        for other in (str(OID), OCTETS, OID.arcs, None):
            self.assertEqual((False, True, {OID}), (OID == other, OID != other, {OID} - {other}))
            self.assertEqual(
                [TypeError] * 4, [type(error_of(order, OID, other)) for order in COMPARISONS[2:]]
            )
        draw = random.Random(8825)
        for _ in range(10_000):
            arcs = [draw.getrandbits(draw.choice([1, 7, 32])) for _ in range(draw.randint(0, 39))]
            left = (draw.randint(0, 2), draw.randint(0, 39), *arcs)
            cut = left[: draw.randint(2, len(left))]
            right = draw.choice(
                [left, cut, (*cut, draw.getrandbits(32)), (left[0], 3, *left[2:]), (*left, 0)]
            )
            a, b = (
                draw.choice([ObjectIdentifier, Under]).from_arcs(arcs) for arcs in (left, right)
            )
            wanted = [
                left == right,
                left[: len(right)] == right,
                *(call(left, right) for call in COMPARISONS),
            ]
            found = [hash(a) == hash(b), a.starts_with(b), *(call(a, b) for call in COMPARISONS)]
            self.assertEqual(wanted, found, (left, right))

    def test_an_identifier_is_a_sequence(self):
        self.assertIsInstance(OID, collections.abc.Sequence)
        self.assertIsInstance(TABLE, collections.abc.MutableMapping)
        found = [*OID], [*reversed(OID)], len(OID), OID[3::2]
        self.assertEqual(([1, 2, 840, 10045, 2, 1], [1, 2, 10045, 840, 2, 1], 6, (10045, 1)), found)
        items = [840, 841, True, 10**5000, *OCTETS[1:5], "1", None, OID, 1.0]
        self.assertEqual([0, 2, 11], [place for place, item in enumerate(items) if item in OID])
        self.assertEqual((1, 4, 2), (OID.index(2), OID.index(2, 2), OID.count(1)))
        error = error_of(OID.__getitem__, index(own := mock.Mock()))
        self.assertEqual((IndexError, 1), (type(error), own.call_count))
        item = ctypes.pythonapi.PySequence_GetItem
        item.argtypes, item.restype = (ctypes.py_object, ctypes.c_ssize_t), ctypes.py_object
        bounds = (-(10**50), *range(-8, 9), 10**50)
        calls = [*itertools.product((operator.getitem, item), range(-13, 9))]
        calls.append((operator.getitem, 10**50))
        for given in [*zip(bounds), *itertools.product(bounds, bounds)]:
            calls.append((tuple.index, 1, *given))
        for call, *given in calls:
            own = ObjectIdentifier.index if call is tuple.index else call
            error = error_of(call, OID.arcs, *given)
            self.assertIs(type(error), type(error_of(own, OID, *given)), given)
            self.assertTrue(error or call(OID.arcs, *given) == own(OID, *given), given)
        oid, row = ObjectIdentifier("1.2.3"), csv.writer(mock.Mock(write=str.strip)).writerow
        self.assertEqual((b"*\3", b"\1\2\3"), (bytes(oid), bytearray(oid)))
        self.assertEqual(("1,2,3", "1.2.3"), (row(oid), row([oid])))
        for oid in (OID, Under(OID)):
            match oid, oid:
                case [1, 2, 840, *rest], ObjectIdentifier((1, 2, *others)):
                    self.assertEqual(([10045, 2, 1], [840, 10045, 2, 1]), (rest, others))
                case _:
                    self.fail("an identifier is no sequence, or has no arcs in a pattern")

    def test_format_is_that_of_the_text(self):
        oid = ObjectIdentifier("2.999")
        self.assertEqual("   2.999|2.999*|2.9|2.999", f"{oid:>8}|{oid:*<6}|{oid:.3}|{oid}")
        said = type("Said", (ObjectIdentifier,), {"__str__": lambda oid: "said"})("2.999")
        self.assertEqual("said, said|  said|Said('2.999')", f"{said}, {said!s}|{said:>6}|{said!r}")

    def test_weak_references_end(self):
        oid, plain, seen = Under("2.999"), ObjectIdentifier("2.5"), []
        references = [weakref.ref(oid, seen.append), weakref.ref(plain, seen.append)]
        self.assertEqual([oid, plain], [reference() for reference in references])
        del oid, plain
        self.assertEqual([None, None], [reference() for reference in references])
        self.assertEqual(references, seen)

    def test_fields_of_an_error_are_attributes(self):
        """They may change, and are in vars and copies, also of a subclass with another base, or one that sets none."""
        given = error_of(ObjectIdentifier, "1.40")
        self.assertEqual({"code": Code.ARC_INVALID, "detail": 40, "given": "1.40"}, vars(given))
        self.assertIs(Code, type(given.code))
        self.assertEqual("OidError(Code.ARC_INVALID, 40, '1.40')", repr(given))
        self.assertEqual("OidError(Code.DIGIT_EXPECTED, 255)", repr(OidError(4, 255)))
        self.assertEqual("expected digit, got 'ÿ'", str(OidError(4, 255)))
        self.assertEqual("DIGIT_EXPECTED 256", str(OidError(4, 256)))
        for error in (OidError(4, 120), OidError(4, 120, "1.2")):
            self.assertIsNone(error.piece)
        fields = {"code": Code.BASE128, "detail": 7, "given": "x"}
        for error, wanted in ((given, fields), (OfSystem(1, 40), fields), (Bare(1, 40), {})):
            error.__setstate__(wanted)
            for other in [weakref.ref(error)(), copy.copy(error), *copies_of(error)]:
                found = type(other), other.args, vars(other)
                self.assertEqual((type(error), (1, 40), wanted), found)
            error.given = 1
            del error.given
            self.assertFalse(hasattr(error, "given"))

    def test_interpreters_have_their_own_class(self):
        """Four at once, which have locks of their own since Python 3.12."""
        interpreters = importlib.import_module(
            "_xxsubinterpreters" if sys.version_info < (3, 13) else "_interpreters"
        )
        own = [interpreters.create() for _ in range(4)]
        with concurrent.futures.ThreadPoolExecutor(4) as threads:
            said = [
                *threads.map(
                    interpreters.run_string, own, 4 * [INTERPRETED.format(id(ObjectIdentifier))]
                )
            ]
        self.assertEqual(([None] * 4, [None] * 4), (said, [*map(interpreters.destroy, own)]))
