"""const_oid.names and SortedMap, beside tables of tuples."""

import collections
import concurrent.futures
import copy
import copyreg
import ctypes
import functools
import gc
import importlib
import inspect
import itertools
import operator
import pathlib
import pickle
import random
import signal
import sys
import tracemalloc
import types
import unittest
import weakref
from unittest import mock

from const_oid import Code, ObjectIdentifier, OidError, SortedMap, names
from const_oid._native import error_text
from test_package import installed
from test_values import copies_of, error_of, seconds

_testcapi = importlib.util.find_spec("_testcapi") and importlib.import_module("_testcapi")
TOP = pathlib.Path(__file__).resolve().parents[2]
sys.path.append(str(TOP / "bench/peers"))
lists = importlib.import_module("lists")
# What leads elsewhere in each. asn1crypto names an HMAC as its hash.
OTHERS = {
    lists.openssl: "DSA Mail deltaCRL documentSeries id-alg uid",
    lists.openssl_list: "DSA",
    lists.net_snmp: "",
    lists.mibs: "host",
    lists.slapd: "documentSeries",
    lists.schemas: "",
    lists.simplesamlphp: "",
    lists.cryptography: "signedCertificateTimestampList",
    lists.jdk: "DSA Data DiffieHellman MD5withRSA PSS RSA SHA SHA1withDSA SHA1withRSA timeStamping",
    lists.asn1crypto: "clearance data dh dsa ecdsa group md2_rsa md5_rsa rsa sha1 sha1_dsa sha1_rsa"
    " sha224 sha256 sha384 sha512 sha512_224 sha512_256 signed_certificate_timestamp_list"
    " time_stamping x509",
    lists.pyasn1_modules: "data dhSinglePass-stdDH-sha256kdf-scheme ellipticCurve id-at-clearance"
    " dhSinglePass-stdDH-sha384kdf-scheme dhSinglePass-stdDH-sha512kdf-scheme id-attributes"
    " id-cmc-identityProofV2 id-cmc-popLinkWitnessV2 id-mod",
}
# What also does in newer releases.
NEWER = """id-aa-multipleSignatures tcg-at-platformModel tcg-at-platformVersion DSA-SHA dsaWithSHA
    sha3_224 sha3_256 sha3_384 sha3_512""".split()
SEED = 3416


class Names(unittest.TestCase):
    def test_each_row_is_an_entry_that_is_found_and_no_other(self):
        names_of, first = {}, {}
        for rows, entries in zip(lists.TABLES, (names.entries(), names.common_entries())):
            self.assertEqual({tuple}, set(map(type, [entries, *entries])))
            for (_, _, text, name), (oid, entry) in zip(rows, entries, strict=True):
                self.assertEqual((text, name), (str(oid), entry))
                names_of.setdefault(oid, {})[name] = None
                first.setdefault(name.lower(), oid)
        for oid, wanted in names_of.items():
            self.assertEqual(
                (tuple(wanted), next(iter(wanted))), (names.names_of(oid), names.name_of(oid))
            )
        for name, oid in first.items():
            self.assertEqual(
                [oid] * 3, [*map(names.by_name, (name, name.upper(), name.title()))], name
            )
        oid = ObjectIdentifier("2.999.1")
        self.assertEqual((None, ()), (names.name_of(oid), names.names_of(oid)))
        # The Kelvin sign is a k in lower case, but no ASCII letter.
        others = "", "no name", "sha256 ", "ba\u212ae", "\ud800", "cn\0", 1000 * "cn"
        self.assertEqual({None}, {*map(names.by_name, others)})

    def test_names_of_other_libraries(self):
        """Names of both lead to the same, but for those of `elsewhere`. `lists.py missing` counts what ours lack."""
        for read, elsewhere in OTHERS.items():
            with self.subTest(read.__name__):
                try:
                    with installed():
                        rows = [row[:2] for row in read()]
                except (ImportError, FileNotFoundError) as error:
                    print(f"python: names not compared: {read.__name__} ({error})", file=sys.stderr)
                    continue
                ours = {name: str(oid) for name, _ in rows if (oid := names.by_name(name))}
                found = {name for name, arcs in rows if ours.get(name, arcs) != arcs}
                self.assertEqual({*elsewhere.split()} & ours.keys(), found.difference(NEWER))
                self.assertGreater(len(ours), 20)

    def test_what_people_type_is_parsed_and_displayed(self):
        for row in (
            (TOP / "crates/oid_rows/typed_names.tsv")
            .read_text(encoding="utf-8")
            .rstrip("\n")
            .split("\n")
        ):
            typed, wanted, shown = row.split("\t")
            for given in (typed, f"\t\r\n\f {typed} \n"):
                if error := error_of(names.parse, given):
                    said = error_text(error.code, error.detail), str(error.piece)
                else:
                    said = str(oid := names.parse(given)), names.display(oid)
                self.assertEqual((wanted, shown), said, given)
        draw = random.Random(SEED)
        for oid, name in names.entries() + names.common_entries():
            self.assertEqual(names.by_name(name), names.parse(name))
            if (names.by_name(name), names.name_of(oid)) == (oid, name):
                self.assertEqual(name if len(oid) > 2 else str(oid), names.display(oid))
            for below in (
                oid,
                oid.child(0),
                ObjectIdentifier.from_arcs([*oid, *draw.choices(range(2**32), k=3)]),
            ):
                self.assertEqual(below, names.parse(names.display(below)))
        self.assertEqual(Code.NOT_UTF8, error_of(names.parse, "cn.\udcff").code)
        for typed, given in {
            " SNMPv2-MIB::sysUpTime.x \n": "sysUpTime.x",
            "\tOID.1.x": "1.x",
            "cn\0": "cn\0",
        }.items():
            error = error_of(names.parse, typed)
            self.assertEqual(
                (given, given.split(".")[-1]), (error.given, error.given.split(".")[error.piece])
            )
        self.assertIsNone(names.by_name("cn\0"))
        long = ObjectIdentifier.from_bytes(b"\x2b\x06" + 999 * b"\x7f")
        self.assertEqual(
            ("dod" + 999 * ".127", long),
            (names.display(long), names.parse(names.display(long))),
        )


def drawn(draw):
    """An identifier: a short one, or one above 255 octets, or one with the end of its code within an arc."""
    start = draw.choice([(), (), 60 * (2**32 - 1,), (*draw.randint(5, 16) * (1,), 2**32 - 1)])
    arcs = draw.choices([1, 2, 200, 201, 16_383, 16_384], k=draw.randint(1, 5))
    return ObjectIdentifier.from_arcs((2, *start, *arcs))


class Attributes(SortedMap):
    __slots__ = ("__dict__", "slot")

    def __init__(self, *entries):
        super().__init__(*entries)
        self.name, self.given = "made", entries


class Model(dict):
    """What a map does, by looks at all keys."""

    def popitem(self):
        last = max(self, default=None)
        return last, self.pop(last)

    def nearest(self, oid):
        return max((item for item in self.items() if oid.starts_with(item[0])), default=None)

    def next_after(self, oid):
        return min((item for item in self.items() if item[0] > oid), default=None)

    def subtree(self, oid):
        return sorted(item for item in self.items() if item[0].starts_with(oid))


KEYS = [ObjectIdentifier(f"2.{arcs}") for arcs in "0 1 1.5 1.5.300 1.300 2 300 300.1".split()]
# Calls with a map, a function that gives its n-th key, and one that gives a value.
CHANGES = {
    "set": lambda table, key, new: operator.setitem(table, key(3), new()),
    "replace": lambda table, key, new: operator.setitem(table, key(4), new()),
    "del": lambda table, key, new: operator.delitem(table, key(4)),
    "pop": lambda table, key, new: table.pop(key(6)),
    "pop or a default": lambda table, key, new: table.pop(key(3), new()),
    "popitem": lambda table, key, new: table.popitem(),
    "clear": lambda table, key, new: table.clear(),
    "update of few": lambda table, key, new: table.update([(key(1), new()), (key(4), new())]),
    "update of many": lambda table, key, new: table.update(
        zip(map(key, range(8)), iter(new, None))
    ),
    "|=": lambda table, key, new: operator.ior(table, SortedMap([(key(5), new())])) is table,
    "setdefault": lambda table, key, new: table.setdefault(key(7), new()),
    "init": lambda table, key, new: table.__init__({key(0): new(), key(3): new()}),
}
LOOKUPS = "get", "__contains__", "__getitem__", "nearest", "next_after", "subtree"
CALLS = CHANGES | {
    name: lambda table, key, _, name=name: getattr(table, name)(key(2)) for name in LOOKUPS
}
CALLS["iter"] = lambda table, *_: len([*table])
MET = [*itertools.product(CALLS, CHANGES), *itertools.product(CHANGES, CHANGES, [*CHANGES][::2])]
CALLS["|"] = lambda table, key, new: [
    table | {key(3): new(), key(4): new()},
    {key(5): new(), key(6): new()} | table,
]
CALLS["update of one twice"] = lambda table, key, new: table.update(
    zip(map(key, (1, 1, 3, 5, 7)), iter(new, None))
)
MOST = [name for name in CALLS if name not in ("clear", "init")]
STEP = [int]  # what is called where a value ends


def shrunk(entries):
    """A map that had 24 keys more, which were after these: of four entries, it is built anew when one goes."""
    table = SortedMap([*entries, *((KEYS[7].child(arc), 0) for arc in range(24))])
    for _ in range(24):
        table.popitem()
    return table


def readings(table):
    """The entries of a map by each way to read them."""
    assert table._is_whole()
    return [
        [*table.items()],
        [*zip(table, table.values(), strict=True)],
        [*filter(None, map(table.next_after, [ObjectIdentifier("0.0"), *table]))],
        [*reversed(table.items())][::-1],
        [*zip(reversed(table.keys()), reversed(table.values()), strict=True)][::-1],
        [*map(table.nearest, table)],
        [(key, table[key]) for key in table.keys()],
    ]


class Ending(float):
    """A number that calls the step at its end."""

    def __del__(self):
        STEP[0]()


EndingKey = type("EndingKey", (ObjectIdentifier,), {"__del__": Ending.__del__})
WATCHED = {"__init__": lambda made, _: weakref.finalize(made, Ending.__del__, None) and None}
WatchedKey = type("WatchedKey", (ObjectIdentifier,), WATCHED)
WatchedValue = type("WatchedValue", (float,), WATCHED)
# What ends within a call: values, keys, and garbage, which Python 3.11 finds where it makes an object.
ENDS = {
    "values": (KEYS.__getitem__, Ending),
    "keys": (lambda index: EndingKey(KEYS[index]), int),
    "weak references": (lambda index: WatchedKey(KEYS[index]), WatchedValue),
}
GARBAGE = {
    f"garbage {count}": (lambda key: ObjectIdentifier(str(KEYS[key])), float, count)
    for count in range(1, 9)
}


def plain(found):
    """A result with plain numbers, none of which ends."""
    if isinstance(found, (SortedMap, dict)):
        return plain(sorted(found.items()) if isinstance(found, dict) else [*found.items()])
    if type(found) in (tuple, list):
        return [*map(plain, found)]
    return int(found) if isinstance(found, float) else found


def result_of(call, *given):
    try:
        return plain(call(*given))
    except KeyError:
        return KeyError


def without_memory(call, make, are_all=False, tuples=2100):
    """What is made, and what a call of it returns or raises if its n-th allocation fails, or all from it on, for each
    n, up to ten without an error. Python has no tuple left that was used before."""
    number = last = 0
    while number < last + 10:
        given, kept = make(), [(number, last) for _ in range(tuples)]
        _testcapi.set_nomemory(number, 0 if are_all else number + 1)
        try:
            kept.append((number, last))  # of set_nomemory
            found = call(given)
        except (MemoryError, SystemError, KeyError) as error:  # Python 3.13 may lose a MemoryError
            found = type(error)
        _testcapi.remove_mem_hooks()
        last = number if found in (MemoryError, SystemError) else last
        yield given, found
        given = found = kept = None
        number += 1


def outcome(calls, key=KEYS.__getitem__, new=int, garbage_at=0, kind=shrunk):
    """What numbered calls return, and the entries then. What ends within one makes the next."""
    table, found, left = kind((key(index), new(0)) for index in range(0, 8, 2)), {}, [*calls]

    def step():
        if left:
            number, call = left.pop(0)
            if kind is not Model and not garbage_at:
                assert [plain(table)] * 7 == [*map(plain, readings(table))], "the map is not whole"
            found[number] = result_of(call, table, key, lambda: new(number))

    STEP[0] = step
    # Python has no tuple that was used before.
    kept = [(number, left) for number in range(2100 if garbage_at else 0)]
    if garbage_at:
        cycle = [Ending()]
        cycle.append(cycle)
        del cycle
        gc.set_threshold(gc.get_count()[0] + garbage_at)
    while left:
        step()
    gc.set_threshold(0)
    STEP[0], kept = int, None
    return found, plain(table)


own = mock.Mock(side_effect=AssertionError)  # a map calls no method that a subclass has of its own
OWN = "__eq__ __ne__ __lt__ __gt__ __le__ __ge__ __hash__ __bytes__ __len__ __iter__".split()
Own = type("Own", (ObjectIdentifier,), dict.fromkeys(OWN, own))
OwnMap = type("OwnMap", (SortedMap,), {"__setitem__": own, "__delitem__": own})

# Calls of a map, or of a dict, of a subclass: those that make copies, and all.
COPYING = {"copy()": lambda one: [one.copy()], "|": lambda one: [one | {}, {} | one]}
COPYING |= {"copy": lambda one: [copy.copy(one)], "copies": lambda one: copies_of(one, range(2, 6))}
OF_DICT = {
    name: lambda one, call=CALLS[name]: call(one, KEYS.__getitem__, int)
    for name in CALLS.keys() - LOOKUPS[3:]
}
OF_DICT |= COPYING | {call.__name__: call for call in (len, list, repr, reversed)}
OF_DICT |= {
    name: lambda one, name=name: [*getattr(one, name)()] for name in ("keys", "values", "items")
}
OF_DICT |= {
    f"back, {name}": lambda one, name=name: [*reversed(getattr(one, name)())]
    for name in ("values", "items")
}
OF_DICT |= {
    "fromkeys": lambda one: type(one).fromkeys(KEYS),
    "all": lambda one: type(one).__base__(one),
}
OF_DICT |= {"==": lambda one: one == {KEYS[2]: 2}, "== itself": lambda one: one == one}
# Methods that only one of both calls where a subclass has them: copies of a map have its class, state and entries.
OWN_OF_ONE = {("__getstate__", "copy()"), ("__getstate__", "|")}
OWN_OF_ONE |= {("items", "copy"), ("items", "copies")}
# What a subclass makes of itself for copies and pickles, with entries in other places, or without them.
REDUCED = {
    "nothing": lambda one: (type(one), ()),
    "arguments": lambda one: (type(one), ({KEYS[1]: 5},)),
    "a state": lambda one: (type(one), (), {"x": 5}),
    "entries": lambda one: (type(one), (), {"x": 5}, None, iter([(KEYS[1], 5)])),
    "items of a list": lambda one: (type(one), (), None, iter([5, 6])),
    "another type": lambda one: (list, ([5],)),
    "a name": lambda one: "Kind",
    "more than copies take": lambda one: (type(one), (), {"x": 5}, None, None, int),
    "all": lambda one: super(type(one), one).__reduce__(),
    "all, with a state": lambda one: (*super(type(one), one).__reduce__()[:2], {"x": 5}),
}


class Sorted(unittest.TestCase):
    def test_drawn_maps_do_what_the_model_does(self):
        """Calls in turn, of drawn keys. A key stays the same object."""
        draw = random.Random(SEED)
        for count in (*draw.choices([0, 1, 2, 20], k=150), 3000):
            model = Model((drawn(draw), 0) for _ in range(count))
            table = SortedMap(draw.sample([*model.items()], len(model)))
            for number in range(50):
                oids = []
                for key in draw.choices([*model] or KEYS, k=8):
                    up = key.parent or key
                    oids.append(draw.choice([drawn(draw), key, up, up.child(201), key.child(1)]))
                call = CALLS[draw.choice([*CALLS] if number % 30 == 29 else MOST)]
                found, wanted = (
                    result_of(call, one, oids.__getitem__, itertools.count(number).__next__)
                    for one in (table, model)
                )
                self.assertEqual((wanted, sorted(model.items())), (found, [*table.items()]))
                self.assertEqual(set(map(id, model)), set(map(id, table)))

    def test_a_map_is_made_and_shown_as_a_dict_is(self):
        table = SortedMap({(oid := ObjectIdentifier("2.5")): 1})
        self.assertEqual(({oid: 1}, table), (table, SortedMap([(oid, 1)])))
        for given in itertools.permutations([(oid, 2), (KEYS[0], 1), (oid, 3)]):
            self.assertEqual([(KEYS[0], 1), (oid, dict(given)[oid])], [*SortedMap(given).items()])
        others = {oid: 2}, {oid.child(0): 1}, {"2.5": 1}, {}, {oid: 1, oid.child(0): 1}, [oid], None
        self.assertEqual(7 * [(True, True)], [(table != other, other != table) for other in others])
        found = SortedMap.fromkeys([oid.child(0), oid]).items()
        self.assertEqual([(oid, None), (oid.child(0), None)], [*found])
        made = Attributes.fromkeys(iter([oid]), [1])
        self.assertEqual((Attributes, {oid: [1]}, ()), (type(made), made, made.given))
        table[oid.child(1)] = table
        self.assertEqual(f"SortedMap({{{oid!r}: 1, {oid.child(1)!r}: {{...}}}})", repr(table))
        for view in (dict.keys, dict.values, dict.items):
            shown, table = {oid: 1}, SortedMap({oid: 1})
            views = getattr(table, view.__name__)
            shown[oid.child(1)] = view(shown)
            table[oid.child(1)] = views()
            self.assertEqual(repr(view(shown)).replace("dict", "SortedMap"), repr(views()))
        self.assertEqual("SortedMap_iterator", type(iter(table)).__name__)
        others = {KEYS[0]: Own("2.5")}, {mock.Mock(spec=oid): 1}
        self.assertNotIn(SortedMap({oid: Own("2.5")}), others)
        bare, table = SortedMap.__new__(SortedMap), SortedMap.fromkeys(KEYS)
        walk = iter(bare)
        self.assertEqual([[]] * 7, readings(bare))
        self.assertIsNone(bare.clear())
        self.assertEqual([], [*walk])
        self.assertIsNone(bare.update(table))
        self.assertEqual((table, KEYS[::-1]), (bare, [*reversed(table)]))
        bare.clear()
        self.assertEqual({}, bare)
        for kind in (dict, SortedMap):
            one, nan = kind({oid: None}), float("nan")
            self.assertIsNone(one.setdefault(oid, 1))
            self.assertEqual([True, False], [kind({oid: nan}) == {oid: it} for it in (nan, -nan)])
        others = type("Others", (dict,), {"__iter__": None, "keys": lambda _: KEYS[:2]})
        given = others(zip(KEYS, range(3)))
        self.assertEqual(dict(given), SortedMap(given))

    def test_views_are_as_those_of_a_dict(self):
        calls = [getattr(operator, name) for name in "and_ or_ sub xor lt le gt ge eq ne".split()]
        for name in ("keys", "values", "items"):
            both = [kind(zip(KEYS[:4], range(4))) for kind in (SortedMap, dict)]
            table, own = both
            views = [getattr(one, name)() for one in both]
            every = getattr(dict(zip(KEYS, range(8))), name)()
            self.assertIsInstance(views[0], getattr(collections.abc, f"{name.title()}View"))
            for start, end in itertools.combinations(range(7), 2) if name != "values" else ():
                other = {*getattr(dict(zip(KEYS[start:end], range(start, end))), name)()}
                found, wanted = (
                    [(call(view, other), call(other, view)) for call in calls] for view in views
                )
                self.assertEqual(wanted, found)
                self.assertEqual(*[view.isdisjoint(other) for view in views])
            for change in ("replace", "pop or a default", "update of many"):
                found, wanted = ([*view] for view in views)
                self.assertEqual((wanted, len(wanted)), (found, len(views[0])))
                self.assertEqual(wanted[::-1], [*reversed(views[0])])
                self.assertEqual(*[[item in view for item in every] for view in views])
                for one in both:
                    CHANGES[change](one, KEYS.__getitem__, itertools.count().__next__)
            for given in ((), (table,), (own, 0), (table, -1), (table, "0"), (table, 256)):
                self.assertIn(type(error_of(type(views[0]), *given)), (TypeError, OverflowError))

    def test_maps_are_equal_where_dicts_are(self):
        """All is read before values are compared: each with that of the same key, in the order of keys, by is or ==."""
        nan, asked = float("nan"), []
        others = dict, SortedMap, OwnMap, lambda given: types.MappingProxyType(dict(given))
        equal = (nan, nan), (999, int("999")), ([1], [1])
        unequal = (nan, float("nan")), (1, 2)

        class Value:
            def __init__(self, number, is_equal=True):
                self.number, self.is_equal = number, is_equal

            def __eq__(self, other):
                asked.append((self.number, other.number))
                for one in pair:
                    getattr(one, "clear", int)()
                return self.is_equal

        for kind in others:
            for value, other in equal + unequal:
                table, wanted = SortedMap(zip(KEYS, [0, value, 2])), (value, other) in equal
                same = kind([*zip(KEYS, [0, other, 2])][::-1])
                self.assertEqual([wanted] * 2, [table == same, not same != table], (kind, value))
            for keys in (KEYS[1:4], KEYS[:4]):
                other = kind(dict.fromkeys(keys).items())
                self.assertIs(False, SortedMap.fromkeys(KEYS[:3]) == other)
            for last, count in ((None, 8), (5, 6)):
                values = [[(KEYS[n], Value(n, n != last)) for n in range(8)] for _ in range(2)]
                pair = SortedMap(values[0]), kind(values[1][::-1])
                asked.clear()
                self.assertEqual(last is None, pair[0] == pair[1])
                self.assertEqual([(index, index) for index in range(count)], asked)
        methods = {"__eq__": operator.is_, "__hash__": object.__hash__}
        apart = type("Apart", (ObjectIdentifier,), methods)
        keys = apart("2.5"), apart("2.5")
        table = SortedMap({keys[0]: 1, KEYS[0]: 1})
        for kind in (dict, SortedMap):
            self.assertFalse(table == kind.fromkeys(keys, 1))

    def test_copies_are_apart(self):
        """A map is no part of what it was made from, nor of its copies, which have the attributes of a subclass."""
        one, other, values = ObjectIdentifier("2.5"), ObjectIdentifier("2.6"), [1]
        source = {one: values}
        table = Attributes(source)
        table.name, table.slot, table._keys, table._values = "name", [2], 3, 4
        with mock.patch.object(Attributes, "__init__", own):
            shared = [table.copy(), copy.copy(table), table | {}, {} | table]
            apart = copies_of(table, range(2, 6))
        for made in shared + apart:
            self.assertEqual((Attributes, "name", [2]), (type(made), made.name, made.slot))
            self.assertEqual((3, 4), (made._keys, made._values))
        for made in [*shared, SortedMap(table), *apart]:
            self.assertEqual({one: [1]}, made)
            self.assertEqual(any(made is other for other in apart), made[one] is not values)
            made[other] = 3
            del made[one]
            self.assertEqual(([one], {one: [1]}, {one: [1]}), (list(table), table, source))
        table.name, table[other] = table, 4
        self.assertIs((again := copy.deepcopy(table)), again.name)
        self.assertEqual(({one: [1]}, [one, other]), (source, [*table]))
        table.clear()
        self.assertEqual((table, {}), (table.name, table))
        new = {"__new__": lambda kind, given: object.__new__(kind)}
        state = {"__setstate__": lambda table, x: vars(table).update(x)}
        ways = [
            {},
            {"__getstate__": lambda _: {"x": 5}, **state},
            {"__getstate__": lambda table: (vars(table), None)},
            {"__getnewargs__": lambda _: (1,), **new},
            {"__getnewargs_ex__": lambda _: ((), {"given": 1}), **new},
        ]
        for way in ways:
            vars(table := type("Kind", (SortedMap,), {"__setattr__": None, **way})(source))["x"] = 5
            made = table.copy(), copy.copy(table), table | {}, copy.deepcopy(table)
            self.assertEqual(4 * [(source, {"x": 5})], [(one, vars(one)) for one in made])
        way = {"__getstate__": lambda table: dict(table), "__setstate__": SortedMap.update}
        self.assertEqual({one: 2}, type("Kind", (SortedMap,), way)(source) | {one: 2})

    def test_copies_are_as_a_subclass_of_dict_makes_them(self):
        """By its own __reduce__ or a reductor of copyreg, which may leave entries out. All are in copy() and |."""
        ways = "__reduce__", "__reduce_ex__", "copyreg"
        for way, (name, reduce) in itertools.product(ways, REDUCED.items()):
            found = {base: [] for base in (dict, SortedMap)}
            for base in found:
                counts = itertools.count()

                def new(kind, *_):
                    next(counts)
                    return base.__new__(kind)

                methods = {
                    "__module__": __name__,
                    "__new__": new,
                    "extend": lambda one, items: setattr(one, "x", items),
                    way: lambda one, *_: reduce(one),
                }
                kind = type("Kind", (base,), methods)
                table = {kind: reduce} if way == "copyreg" else {}
                names = mock.patch.dict(globals(), Kind=kind)
                with mock.patch.dict(copyreg.dispatch_table, table), names:
                    for call in COPYING.values():
                        one, made = kind({KEYS[2]: 2}), []
                        error = error_of(lambda: made.extend(call(one)))
                        made = [(plain(copied), getattr(copied, "x", None)) for copied in made]
                        found[base].append((type(error), next(counts), made))
            self.assertEqual(found[dict], found[SortedMap], (way, name))

    def test_methods_are_called_as_those_of_a_subclass_of_dict(self):
        """Of those that a subclass has of its own. Names that dict does not have are free."""
        kinds, differ = (dict, SortedMap), set()
        names = {name for kind in kinds for name, _ in inspect.getmembers(kind, inspect.isroutine)}
        for name in names - {"__getattribute__", "__subclasshook__"} | {"_flat", "_walk"}:
            errors = []
            for base in kinds:
                kind = type("Kind", (base,), {"__module__": __name__})
                given = [kind({KEYS[2]: 2}) for _ in OF_DICT]
                setattr(kind, name, own)
                with mock.patch.dict(globals(), Kind=kind):
                    errors.append([type(error_of(*call)) for call in zip(OF_DICT.values(), given)])
            differ |= {(name, call) for call, *both in zip(OF_DICT, *errors) if len({*both}) > 1}
        self.assertEqual(OWN_OF_ONE, differ)

    def test_a_change_ends_an_iteration(self):
        """Keys that come or go are an error at each next step, also after the last key. Other values are none."""

        def refill(table, key, new):
            table.clear()
            table.update(zip(map(key, range(0, 8, 2)), "abcd"))

        again = {"again": lambda table, key, _: operator.setitem(table, key(4), table.pop(key(4)))}
        again["all"] = refill
        orders = {
            "keys": iter,
            "keys back": reversed,
            "items": lambda table: iter(table.items()),
            "values back": lambda table: reversed(table.values()),
        }
        calls = itertools.product((CHANGES | again).items(), orders.items(), range(6))
        for (name, change), (view, order), count in calls:
            table = shrunk(zip(KEYS[::2], 4 * [None]))
            entries, before = order(table), list(table)
            self.assertEqual([*order(table)][:count], [*itertools.islice(entries, count)])
            self.assertEqual(max(4 - count, 0), operator.length_hint(entries))
            result_of(change, table, KEYS.__getitem__, int)
            if count < 5 and (list(table) != before or name in again):
                errors = {repr(error_of(next, entries)) for _ in range(2)}
                wanted = {"RuntimeError('SortedMap changed during iteration')"}
            else:
                errors, wanted = [*entries], [*order(table)][count:] if count < 5 else []
            self.assertEqual(wanted, errors, (name, view, count))
        bare = SortedMap.__new__(SortedMap)
        entries = iter(bare)
        bare.update({KEYS[0]: 1})
        self.assertIsInstance(error_of(next, entries), RuntimeError)

    @unittest.skipUnless(_testcapi, "Python's module for tests of its C API is not installed")
    def test_a_change_is_done_or_not(self):
        """Without memory, a map is as before, also where a part is full, and no reference is kept, nor memory. An empty
        map has none."""
        other, value = ObjectIdentifier("2.9"), (KEYS,)
        kept = [*KEYS, value, other]
        given = KEYS.__getitem__, itertools.repeat(value).__next__
        gc.collect()  # which frees what other tests left
        starts = (0, 0, True), *itertools.product([4], (0, 508), (False, True))
        for call, (few, full, are_all) in itertools.product(CALLS.values(), starts):
            start = [*zip(KEYS[::2], range(few))]
            start += [(KEYS[2].child(300 + index), 0) for index in range(1, full)]
            start.sort()
            result_of(call, after := SortedMap(start), *given)
            after = [*after.items()]
            counts = [*map(sys.getrefcount, kept)]
            calls = lambda table: call(table, *given), lambda: shrunk(start)
            for table, found in without_memory(*calls, are_all):
                wanted = start if found in (MemoryError, SystemError) else after
                self.assertEqual((len(wanted), wanted), (len(table), [*table.items()]), call)
                is_empty = sys.getsizeof(table) == sys.getsizeof(SortedMap())
                self.assertEqual((not wanted, False), (is_empty, other in table), call)
            table = found = wanted = None
            self.assertEqual(counts, [*map(sys.getrefcount, kept)], call)
        entries = dict.fromkeys(KEYS), 2 * [*zip(KEYS, KEYS)]
        for number in range(40):
            _ = [*without_memory(lambda given: [*map(SortedMap, given)], lambda: entries)]
            before = sys.getallocatedblocks() if number < 10 else before
        self.assertLess(sys.getallocatedblocks(), before + 15)

    def test_changes_meet_each_other(self):
        """What ends within a change makes another, and that a third. Each is as if one came after another."""
        errors = []
        hook = mock.patch.object(
            sys, "unraisablehook", lambda given: errors.append(given.exc_value)
        )
        self.enterContext(hook)
        self.addCleanup(gc.set_threshold, *gc.get_threshold())
        for called in MET:
            calls = [*enumerate(map(CALLS.get, called))]
            wanted = [outcome(order, kind=Model) for order in itertools.permutations(calls)]
            for kind, ends in (ENDS if len(called) == 3 else GARBAGE).items():
                self.assertIn(outcome(calls, *ends), wanted, (called, kind))
        for ends in GARBAGE.values():  # which takes a wrong key out of its dict
            given = {type("Key", (), {})(): 1}
            update = lambda table, *_: repr(error_of(table.update, given))
            calls = enumerate([update, lambda *_: given.clear()])
            self.assertIn(outcome(calls, *ends)[0][0][:9], ("TypeError", "None"))
        self.assertEqual([], errors)

    def test_a_reading_is_of_one_moment(self):
        """It runs no code of Python once it has begun: functions change the map where they are called and return."""
        reads = [dict, SortedMap.fromkeys, repr, copy.copy, SortedMap.copy]
        reads += [
            lambda table: mock.MagicMock() in table.values(),
            lambda table: [*table.__reduce_ex__(4)[4]],
            lambda table: {**table},
            lambda table: [*table.items()],
            SortedMap(zip(KEYS, KEYS)).__eq__,
        ]
        for kind, read in itertools.product((SortedMap, Attributes), reads):
            table, key = kind(zip(KEYS, KEYS)), ObjectIdentifier("2.9")

            def change(*_):
                SortedMap.update(table, {key: 1})
                SortedMap.pop(table, key)

            sys.setprofile(change)
            found = error_of(read, table)
            sys.setprofile(None)
            self.assertIs(found, None, read)
        taking = type("Taking", (SortedMap,), {"__setitem__": lambda _, key, value: table.pop(key)})
        self.assertEqual((None, {}), (error_of(taking.fromkeys, table), table))

    def test_threads_and_signals_change_a_map(self):
        """Each thread, and a handler of signals, has keys of its own, which are there until it removes them."""
        table, wanted, signals = SortedMap(), {}, itertools.count()

        def work(own, arcs):
            for arc in arcs:
                key = ObjectIdentifier(f"2.{own}.{arc}")
                table.update({key: arc, key.child(1): own, key.child(0): arc})
                self.assertEqual((key, arc), table.nearest(key.child(2)))
                self.assertEqual((key.child(0), arc), table.next_after(key))
                self.assertEqual((arc, arc), (table.pop(key), table.pop(key.child(0))))
                last = 2**32 - 1 - arc
                self.assertEqual((2, own, arc, last), key.child(last).arcs)
                self.assertEqual((f"2.{own}.{arc}", f"2.{own}"), (str(key), str(key.parent)))
                self.assertEqual((hash(bytes(key)), (1, arc)), (hash(key), OidError(1, arc).args))
                wanted[key.child(1)] = own
                keys = list(table) if arc % 50 == 0 else []
                self.assertEqual(sorted(keys), keys)

        handler = signal.signal(signal.SIGALRM, lambda *_: work(4, [next(signals)]))
        self.addCleanup(signal.signal, signal.SIGALRM, handler)
        self.addCleanup(sys.setswitchinterval, sys.getswitchinterval())
        sys.setswitchinterval(1e-6)
        signal.setitimer(signal.ITIMER_REAL, 1e-3, 1e-3)
        with concurrent.futures.ThreadPoolExecutor(3) as threads:
            results = threads.map(work, range(3), 3 * [range(500)])
            while next(signals) < 100:
                work(3, range(50))
            self.assertEqual(1e-3, signal.setitimer(signal.ITIMER_REAL, 0)[1])
            self.assertEqual([None] * 3, [*results])
        self.assertEqual(sorted(wanted.items()), [*table.items()])

    def test_no_method_of_a_key_is_called(self):
        """Keys are compared by their octets, also those of pairs, of another mapping, of copies and pickles."""
        keys = [Own(str(key)) for key in KEYS]
        methods = {"keys": lambda _: iter(keys), "__getitem__": lambda _, key: key.arcs}
        others = type("Others", (), methods)()
        table = SortedMap(zip(keys, range(8)))
        own.side_effect = lambda *_: 0
        given = dict(table.items())
        own.side_effect = AssertionError
        made = [*map(SortedMap, (others, given, table, [*table.items()]))]
        made += [SortedMap.fromkeys(keys), table | {}]
        for one in (table, *made, {} | table, table.copy(), copy.copy(table), *copies_of(table)):
            self.assertEqual([*map(str, KEYS)], [*map(str, one)])
        same = SortedMap(zip(map(Own, map(str, KEYS)), range(8)))
        self.assertTrue(table == same != SortedMap(others))
        self.assertIs(AssertionError, type(error_of(OwnMap.fromkeys, KEYS)))  # as dict does
        for name, call in CALLS.items():
            calls = [(0, call)]
            if name not in ("init", "|"):  # which make a dict
                found = repr(outcome(calls, keys.__getitem__))
                self.assertEqual(repr(outcome(calls)), found.replace("Own", "ObjectIdentifier"))
            if name not in ("set", "replace", "del"):
                self.assertEqual(outcome(calls), outcome(calls, kind=OwnMap))

    def test_errors_of_others_pass_through(self):
        """Nothing is changed then. What is given may change the map, or itself, while it is read."""
        fail = mock.Mock(side_effect=KeyError("of others"))
        of = lambda **calls: type("Others", (), calls)()
        given = [
            of(keys=fail),
            of(keys=lambda _: KEYS, __getitem__=fail),
            of(keys=lambda _: map(fail, KEYS)),
            of(keys=property(fail)),
            of(__iter__=fail),
            of(__iter__=lambda _: itertools.chain([(KEYS[1], 1)], map(fail, KEYS))),
            *(5, None, [1], "ab", [KEYS[3], 1]),
            [(KEYS[1], 1), (KEYS[3],)],
            [(KEYS[1], 2, 3)],
        ]
        for change in (SortedMap.update, operator.ior, SortedMap.__init__):
            table, pairs = SortedMap.fromkeys(KEYS[::2], 0), []
            for one in given:
                errors = error_of(dict, one), error_of(change, table, one)
                self.assertEqual(*map(type, errors))
            change(table, table)
            self.assertEqual([(key, 0) for key in KEYS[::2]], [*table.items()])

            def clear(_):
                pairs.clear()
                table.clear()
                return iter([KEYS[3], 3])

            pairs += [(KEYS[2], 2), of(__iter__=clear), (KEYS[1], 1)]
            change(table, pairs)
            self.assertEqual([(KEYS[2], 2), (KEYS[3], 3)], [*table.items()])

    def test_calls_have_signatures_and_keywords(self):
        named = {"fromkeys": "keys value", "update": "entries", "popitem": "", "clear": ""}
        named |= dict.fromkeys(("nearest", "next_after", "subtree"), "oid")
        named |= dict.fromkeys(("get", "pop", "setdefault"), "key default")
        for name, words in named.items():
            table = SortedMap.fromkeys(KEYS[:2], 0)
            call, key = getattr(table, name), KEYS[:2] if name == "fromkeys" else KEYS[2]
            given = dict(zip(words.split(), (key, 0)))
            self.assertEqual([*given], [*inspect.signature(call).parameters])
            errors = error_of(lambda: call(**given, other=1)), error_of(call, *given.values(), 1)
            self.assertEqual([TypeError] * 2, [*map(type, errors)])
            # In errors.
            self.assertEqual(f"SortedMap.{name}", getattr(SortedMap, name).__qualname__)
            if name == "update":
                continue
            values, items = [*given.values()], [*given.items()]
            for size in range(min(len(items), 1), len(items) + 1):
                wanted = result_of(getattr(Model(table), name), *values[:size])
                for count in range(size + 1):
                    call = functools.partial(getattr(SortedMap(table), name), *values[:count])
                    self.assertEqual(wanted, result_of(lambda: call(**dict(items[count:size]))))
        self.assertEqual(["entries"], [*inspect.signature(SortedMap).parameters])
        self.assertEqual(table, SortedMap(entries=table))

    def test_keys_of_one_hash_are_apart(self):
        """A map keeps 32 bits of a hash, which two of a million keys have in common."""
        seen = {}
        for oid in (ObjectIdentifier.from_arcs((2, arc)) for arc in range(2**20)):
            other = seen.setdefault(hash(oid) % 2**32, oid)
            if other is not oid:
                break
        table = SortedMap({oid: 1, other: 2, KEYS[0]: 3})
        self.assertEqual((1, 2), (table[oid], table.pop(other)))
        self.assertEqual((None, 1), (table.get(other), table.pop(oid)))

    def test_wrong_octets_stay_within_their_memory(self):
        """They are of identifiers that are changed in place, which a map orders somewhere. Sanitizers see the rest."""
        for octets in (b"", 300 * b"\x81", 150 * b"\x81\1", 15 * b"\1" + 300 * b"\xff"):
            wrong, table = ObjectIdentifier.from_bytes(bytes(315)), SortedMap(zip(KEYS, KEYS))
            ctypes.memmove(id(bytes(wrong)) + bytes.__basicsize__ - 1, octets, len(octets))
            place = id(wrong) + object.__basicsize__ * 3 // 2
            ctypes.c_size_t.from_address(place).value = len(octets)
            table[wrong] = 1
            for call in (table.nearest, table.next_after, table.subtree):
                call(wrong)
            self.assertEqual((1, KEYS), (table.pop(wrong), [*table]))


class Costs(unittest.TestCase):
    def test_its_size_is_that_of_its_memory(self):
        keys = [ObjectIdentifier(f"2.{arc}") for arc in range(3000)]
        drawn = random.Random(SEED).sample(keys, 3000)
        orders = (51.5, keys), (52, keys[::-1]), (52, drawn)  # the most octets a key
        # How many keys are left, and for how many there is memory.
        kept = (3000, 3000), (300, 450), (0, 0)
        tracemalloc.start()
        self.addCleanup(tracemalloc.stop)
        for (most, order), (left, held), at_once in itertools.product(orders, kept, (0, 3000)):
            before, table = tracemalloc.get_traced_memory()[0], SortedMap()
            table.update((key, None) for key in order[:at_once])
            for key in order[at_once:]:
                table[key] = None
            for key in order[left:]:
                del table[key]
            size = tracemalloc.get_traced_memory()[0] - before
            self.assertAlmostEqual(size, sys.getsizeof(table), delta=200)
            self.assertEqual((sorted(order[:left]), True), ([*table], size < held * most + 200))
            del table

    def test_an_empty_map_has_no_memory(self):
        ways = SortedMap.pop, operator.delitem, lambda table, _: table.popitem()
        for count, way in itertools.product((1, 2, 7, 100), ways):
            table = SortedMap((KEYS[0].child(arc), arc) for arc in range(count))
            for key in [*table]:
                self.assertLess(sys.getsizeof(SortedMap()), sys.getsizeof(table))
                way(table, key)
            self.assertEqual(sys.getsizeof(SortedMap()), sys.getsizeof(table), way)

    def test_a_long_identifier_is_found_in_linear_time(self):
        """The search for a prefix makes not all prefixes of what it is given, nor of what that shares with a key."""
        oid, long = map(ObjectIdentifier.from_bytes, (bytes(500_000), bytes(499_999)))
        table = SortedMap({ObjectIdentifier("0.0.0"): 1, ObjectIdentifier("0.0.1"): 2})
        for given in (oid, long.child(1)):
            self.assertLess(seconds(lambda: self.assertEqual(1, table.nearest(given)[1])), 1)
            table[long.child(0)] = 3

    def test_many_keys_have_few_parts(self):
        """Each part of the order is a block of memory, and all may move where a key comes or goes."""
        keys = [ObjectIdentifier.from_arcs((2, arc)) for arc in range(500_000)]
        tracemalloc.start()
        self.addCleanup(tracemalloc.stop)
        table = SortedMap({keys[-1]: None})
        table.update(dict.fromkeys(reversed(keys)))
        self.assertLess(len(tracemalloc.take_snapshot().traces), 10_000)

    def test_a_prefix_is_found_in_less_time_than_by_lookups(self):
        """Of a key itself, and of a long identifier whose parents all have a child that is a key."""
        ups = [ObjectIdentifier.from_bytes(4096 * b"\1")]
        while up := ups[-1].parent:
            ups.append(up)
        table = SortedMap((up.child(0), 0) for up in ups[1:])
        calls = [(ups[:1], lambda: [up.parent in table for up in ups[:-1]])]
        calls.append(([*table], lambda: [*map(table.next_after, table)]))
        for keys, lookups in calls:
            rounds = (
                2 * seconds(lambda: [*map(table.nearest, keys)]) < seconds(lookups)
                for _ in range(5)
            )
            self.assertTrue(any(rounds))

    def test_views_and_equality_take_less_time_than_in_python(self):
        keys = [KEYS[0].child(arc * 7919 % 1000) for arc in range(1000)]
        table, others = SortedMap.fromkeys(keys), [SortedMap.fromkeys(keys), dict.fromkeys(keys)]
        view = collections.abc.KeysView
        lookups = lambda: [*map(table.get, keys)]
        calls = [
            (lambda: [iter(table.keys()) for _ in keys], lambda: [iter(view(table)) for _ in keys])
        ]
        calls += [(lambda: table == others[0], lookups), (lambda: table == others[1], lookups)]
        for call, longer in calls:
            self.assertTrue(any(seconds(call) < seconds(longer) for _ in range(20)))

    def test_all_entries_take_about_the_time_of_making_the_map(self):
        draw = random.Random(SEED)
        arcs = [(1, 3, 6, 1, 2, 1, draw.getrandbits(32), arc) for arc in range(50_000)]
        entries = dict.fromkeys(map(ObjectIdentifier.from_arcs, arcs), 1)

        def add_each(table):
            for key in list(entries)[:1000]:
                table.update({key.child(0): 1})

        def add_back(table):
            keys = [*table]
            table.clear()
            for key in reversed(keys):
                table.setdefault(key)

        calls = {
            "update": (3, lambda table: SortedMap().update(entries)),
            "small updates": (1, add_each),
            "clear": (1, SortedMap.clear),
            "|": (3, lambda table: table | {ObjectIdentifier("2.5"): 1}),
            "subtree": (3, lambda table: table.subtree(ObjectIdentifier("1.3"))),
            "back": (6, add_back),
            "popitem": (1, lambda table: [table.popitem() for _ in range(100)]),
            "next_after": (9, lambda table: [*map(table.next_after, entries)]),
        }
        for name, (limit, call) in calls.items():
            rounds = (
                seconds(call, SortedMap(entries)) / seconds(SortedMap, entries) < limit
                for _ in range(5)
            )
            self.assertTrue(any(rounds), name)
