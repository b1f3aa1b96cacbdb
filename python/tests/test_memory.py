"""What the extension module keeps of memory, and does without it. By sanitizers, also what it reads and writes."""

import copy
import gc
import itertools
import operator
import pickle
import sys
import tracemalloc
import unittest
import weakref
from unittest import mock

import const_oid
import test_tables
from const_oid import Code, ObjectIdentifier, OidError, SortedMap, _native
from test_tables import KEYS, _testcapi, readings, without_memory

# Short and long octets, of arcs that differ and are no small integers: the last have ten digits.
ARCS = {"300 arcs": range(256, 554), "100 arcs of ten digits": range(2**32 - 98, 2**32)}
ARCS |= {"short": (840, 10045, 2, 1), "300 arcs of ten digits": range(2**32 - 298, 2**32)}
OCTETS = {name: bytes(ObjectIdentifier.from_arcs((1, 2, *arcs))) for name, arcs in ARCS.items()}
OTHER = ObjectIdentifier("1.2")
WRONG = b"\x80\x01"
# Python 3.12 counts no references to a literal.
Under = type("".join(("Un", "der")), (ObjectIdentifier,), {})
UnderMap = type("UnderMap", (SortedMap,), {})
UNDER, GIVEN = Under("1.2.3"), (OTHER,)


def raised(call, *given):  # assertRaises ends Python 3.12 where there is no memory
    try:
        call(*given)
    except (OidError, ValueError, TypeError, OverflowError, RuntimeError) as error:
        if getattr(error, "code", None) == Code.NOT_UTF8:
            assert "\ud800" in error.given, "the text is UTF-8"
        return
    raise AssertionError("there is no error")


Asking = type("Asking", (list,), {"__del__": lambda asking: asking[0].arcs})
Collecting = type("Collecting", (), {"__del__": lambda _: gc.collect()})


class Other(dict):
    """What has any attribute, and may be called: both are another one."""

    def __getattr__(self, name):
        return Other()

    def __call__(self, *_, **__):
        return self


def asked(oid):
    """Asks for arcs, and so does garbage in a cycle, which Python 3.11 finds while they are made."""
    asking, before = Asking([oid]), gc.get_threshold()
    asking.append(asking)
    del asking
    gc.set_threshold(1, 10_000, 10_000)
    oid.arcs
    gc.set_threshold(*before)


def hooked(oid):
    with mock.patch.dict(sys.modules, numpy=Other(), pydantic_core=Other()):
        calls = OTHER.__array__, Under.__get_pydantic_core_schema__, Under.__get_validators__
        return [call(*GIVEN) for call in calls], oid.__array__()


# Calls with an identifier that is made anew each time.
OF_FRESH = {
    "text": lambda oid: (
        ObjectIdentifier(str(oid)),
        ObjectIdentifier(text=str(oid)),
        Under(str(oid)),
    ),
    "wrong text": lambda oid: [
        raised(ObjectIdentifier, it) for it in (f"{oid}.x", f"{oid}.ü", f"{oid}.\ud800", 1)
    ],
    "identifier": lambda oid: (ObjectIdentifier(oid), Under(oid), Under(Under(oid))),
    "octets": lambda oid: [
        Under.from_bytes(kind(bytes(oid))) for kind in (bytes, bytearray, memoryview)
    ],
    "wrong octets": lambda oid: raised(ObjectIdentifier.from_bytes, bytes(oid) + WRONG),
    "der": lambda oid: (Under.from_der(oid.der), Under.read_der(bytearray(oid.der + WRONG))),
    "views": lambda oid: (
        Under.read_der(memoryview(oid.der)),
        oid.read_der(memoryview(oid.der[::-1])[::-1]),
    ),
    "wrong view": lambda oid: raised(ObjectIdentifier.read_der, memoryview(oid.der[:-1])),
    "wrong der": lambda oid: [
        raised(ObjectIdentifier.from_der, der) for der in (oid.der + WRONG, bytes(oid), "2")
    ],
    "arcs": lambda oid: (
        ObjectIdentifier.from_arcs(oid.arcs),
        Under.from_arcs(list(oid)),
        Under.from_arcs(oid),
    ),
    "wrong arcs": lambda oid: (
        raised(ObjectIdentifier.from_arcs, [3, *oid]),
        raised(oid.from_arcs, bytes(oid)),
    ),
    "wrong arc": lambda oid: [
        raised(ObjectIdentifier.from_arcs, [*oid, arc]) for arc in (2**70, -2, "2")
    ],
    "parent": lambda oid: (oid.parent, Under(oid).parent, OTHER.parent, ObjectIdentifier("1.2")),
    "child": lambda oid: (oid.child(2**32 - 1), Under(oid).child(4)),
    "wrong child": lambda oid: (
        raised(oid.child, 2**32),
        raised(oid.child, -1),
        raised(oid.child, "1"),
    ),
    "starts_with": lambda oid: (
        oid.starts_with(OTHER),
        oid.starts_with(oid),
        raised(oid.starts_with, "1.2"),
    ),
    "text of": lambda oid: (
        str(oid),
        repr(oid),
        repr(Under(oid)),
        f"{oid:>9}",
        raised(format, oid, "d"),
    ),
    "order": lambda oid: (
        oid < OTHER,
        oid == OTHER,
        oid != "1.2",
        Under(oid) >= OTHER,
        raised(operator.lt, oid, 1),
    ),
    "sequence": lambda oid: (
        len(oid),
        oid[-1],
        oid[1:],
        list(oid),
        oid.count(1),
        raised(operator.getitem, oid, ""),
    ),
    "index": lambda oid: (
        oid.index(oid[2], -len(oid)),
        raised(oid.index, 7 * 10**9),
        raised(oid.index),
    ),
    "in and hash": lambda oid: (
        oid[2] in oid,
        int("70000") in oid,
        "1" in oid,
        {oid: 1},
        hash(Under(oid)),
    ),
    "copies": lambda oid: (copy.copy(oid), copy.deepcopy(oid)),
    "copies of a subclass": lambda oid: (
        copy.copy(UNDER),
        copy.deepcopy(UNDER),
        copy.deepcopy(Under(oid)),
    ),
    "finalizer": asked,
    "hooks": hooked,
    "pickles": lambda oid: pickle.loads(pickle.dumps((oid, UNDER, Under(oid)))),
    "names": lambda oid: [call(oid) for call in OF_OID],
    "wrong name": lambda oid: [raised(_native.parse, f"c.{oid}.{end}") for end in ("x", "\ud800")],
    "map": lambda oid: (
        SortedMap({oid: 1, OTHER: 2}).nearest(oid.child(1)),
        SortedMap({oid: 1}).next_after(OTHER),
    ),
}
CALLS = {
    f"{name}, {kind}": lambda call=call, octets=octets: call(ObjectIdentifier.from_bytes(octets))
    for name, call in OF_FRESH.items()
    for kind, octets in OCTETS.items()
}
CALLS |= {
    "error": lambda: [
        str(OidError(code, detail)) for code in Code for detail in (0, 255, 256, 2**32 - 1)
    ],
    "wrong error": lambda: (
        raised(OidError, 4, 2**32),
        raised(OidError, 2**70, 0),
        raised(OidError, "4", 0),
    ),
}
OF_OID = _native.name_of, _native.names_of, _native.display
OF_TEXT = _native.by_name, _native.parse
CALLS["names"] = lambda: [call(_native.parse("sysUpTime.0")) for call in OF_OID]
CALLS["names of a name"] = lambda: [call(_native.parse("2.5.4.3")) for call in OF_OID]
CALLS["by name"] = lambda: (
    *map(_native.by_name, ("SHA256", "\ud800")),
    *map(_native.parse, ("sysUpTime", "2.5")),
)
CALLS["wrong types"] = lambda: [raised(call, 1) for call in OF_OID + OF_TEXT]


def in_a_cycle(table, *_):
    """Makes garbage of a map, a subclass of it, its iterators and views, and a key that refers to it."""
    key = Under("2.5")
    key.table = table
    held = [GIVEN, table, iter(table), reversed(table.items()), table.items(), table.values()]
    table.update(zip([key, *KEYS], [*held, UnderMap({OTHER: table})]))


# Calls of a map. Without memory, Python 3.12 ends where it makes a function.
NEW, MANY = itertools.repeat(GIVEN).__next__, [(KEYS[7].child(arc), GIVEN) for arc in range(600)]
MAPS = test_tables.CALLS | {
    "readings": lambda table, *_: readings(table),
    "in a cycle": in_a_cycle,
    "finalizer": lambda *_: SortedMap({OTHER: Collecting()}),
    "many": lambda table, *_: (table.update(MANY), [table.popitem() for _ in MANY]),
    "wrong keys": lambda table, *_: [
        raised(call, "2.5") for call in (table.get, table.pop, table.nearest)
    ],
    "wrong entries": lambda table, *_: [
        raised(table.update, [(OTHER, 1), it]) for it in ((1, 2), (1,), 1)
    ],
    "value": lambda table, key, _: table.setdefault(key(0)),
    "missing": lambda table, key, _: (
        table.get(key(1)),
        table.get(key(1), GIVEN),
        table.pop(key(1), GIVEN),
    ),
    "none": lambda table, key, _: (
        table.nearest(OTHER),
        table.next_after(key(7)),
        table.subtree(OTHER),
    ),
    "equal": lambda table, *_: [
        table == kind(zip(KEYS[::2], map(tuple, 4 * [[OTHER]]))) for kind in (SortedMap, dict)
    ],
    "wrong views": lambda table, *_: [
        raised(type(table.keys()), *given) for given in ((), (1, 1), (table, -1))
    ],
    "over": lambda table, *_: raised(next, iter(table.items()), table.clear()),
}
CALLS |= {
    f"{name}, map": lambda call=call: call(
        SortedMap(zip(KEYS[::2], 4 * [GIVEN])), KEYS.__getitem__, NEW
    )
    for name, call in MAPS.items()
}

# What raises an exception in a function of Python, which may be lost where there is no memory.
IN_PYTHON = ("copies of", "finalizer", "hooks", "pickles", "error", "wrong error")
KEPT = [
    *KEYS,
    *OCTETS.values(),
    UNDER,
    GIVEN,
    OTHER,
    bytes(OTHER),
    WRONG,
    const_oid,
    ObjectIdentifier,
]
KEPT += [Under, OidError, SortedMap, type(iter(SortedMap())), type(SortedMap().items()), str, tuple]
KEPT += [ObjectIdentifier.__name__, Under.__name__, _native.restored, NotImplemented, None]
KEPT += [True, False, b"*", b"", 1]
HELD = 6000 * KEPT  # so that a reference given up too often frees none


def measured():
    """Octets in use, references of all objects, which a debug build counts, and those of each that is kept."""
    # Of names that pickles make anew.
    getattr(sys, "_clear_internal_caches", getattr(sys, "_clear_type_cache", None))()
    gc.collect()
    counts = [sys.getrefcount(value) for value in KEPT]
    return tracemalloc.get_traced_memory()[0], getattr(sys, "gettotalrefcount", int)(), counts


def keeps_nothing(call):
    """Whether 100 calls keep less than 16 bytes each, and no reference."""
    before, references, counts = measured()
    for _ in range(100):
        call()
    after, others, counts_after = measured()
    return after - before < 100 * 16 and abs(others - references) < 100 and counts == counts_after


class Memory(unittest.TestCase):
    def test_functions_run_in_turn(self):
        self.assertEqual(5 * len(CALLS), len([call() for _ in range(5) for call in CALLS.values()]))

    def test_functions_keep_no_memory(self):
        tracemalloc.start()
        self.addCleanup(tracemalloc.stop)
        gc.freeze()  # what is there takes no time in a collection
        self.addCleanup(gc.unfreeze)
        for name, call in CALLS.items():
            with self.subTest(name):
                # The first rounds also fill caches of Python.
                rounds = (keeps_nothing(call) for _ in range(50))
                self.assertTrue(any(rounds), "it keeps memory or a reference")

    def test_a_class_ends_though_its_own_map_refers_to_it(self):
        for base in (SortedMap, ObjectIdentifier):
            kind = type("Kind", (base,), {})
            kind.own, ended = kind.__new__(kind, "2.5"), weakref.ref(kind)
            del kind
            gc.collect()
            self.assertIsNone(ended())

    @unittest.skipUnless(_testcapi, "Python's module for tests of its C API is not installed")
    def test_functions_raise_memory_error(self):
        """A call whose n-th allocation fails raises MemoryError, for each n, or has its result without it."""
        calls = {name: call for name, call in CALLS.items() if not name.startswith(IN_PYTHON)}
        for name, call in calls.items():
            with self.subTest(name):
                wanted = call(), MemoryError
                for _, found in without_memory(lambda _: call(), int, tuples=0):
                    self.assertIn(found, wanted)
