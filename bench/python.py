"""Prints times in nanoseconds, for one identifier of 9 octets and for 1,000 of them, beside those of pyasn1, asn1crypto
and cryptography, as far as they are installed (Debian: python3-pyasn1, python3-asn1crypto, python3-cryptography), and
those of a tuple of arcs. Then those of a SortedMap of 1,000 and of 100,000 keys, beside a SortedDict of
sortedcontainers and a dict, a key where a call takes all; and the octets that a key takes.

It ends with status 1 if a row is slower here than in the fastest of these packages, or than with a SortedDict, aside
from the text of asn1crypto, which it keeps. pyasn1 and asn1crypto encode and decode whole values, with tag and length.
"""

import contextlib
import sys
import time
import timeit

# What each side has. If it has no name that a call needs, the cell is empty.
SIDES = {
    "const_oid": """from const_oid import ObjectIdentifier as parse
octets_of, from_octets, from_arcs, text_of = bytes, parse.from_bytes, parse.from_arcs, str
child, parent, arcs = lambda oid: oid.child(7), lambda oid: oid.parent, lambda oid: oid.arcs""",
    "pyasn1": """from pyasn1.type.univ import ObjectIdentifier as parse
from pyasn1.codec.der.decoder import decode
from pyasn1.codec.der.encoder import encode as octets_of
whole, text_of = parse(), str
from_octets = lambda octets: decode(octets, whole)[0]""",
    "asn1crypto": """from asn1crypto.core import ObjectIdentifier as parse
from_octets, octets_of, text_of = parse.load, lambda oid: oid.dump(True), lambda oid: oid.dotted""",
    "cryptography": """from cryptography.x509 import ObjectIdentifier as parse
text_of = lambda oid: oid.dotted_string""",
    "tuple": """parse, text_of = lambda text: tuple(map(int, text.split("."))), lambda oid: ".".join(map(str, oid))
child, parent, arcs, from_arcs = lambda oid: (*oid, 7), lambda oid: oid[:-1], lambda oid: oid, tuple""",
}
SETUP = """text = "1.2.840.113549.1.1.11"
oid, same, other = parse(text), parse(text), parse(text + ".1")
oids = [parse(f"1.3.6.1.2.1.{index * 7919 % 1000}.{index % 7}") for index in range(1000)]"""
# A row, what it needs first, and its call.
ROWS = """text to identifier |  | parse(text)
identifier to text |  | text_of(oid)
octets to identifier | octets = octets_of(oid) | from_octets(octets)
identifier to octets |  | octets_of(oid)
arcs to identifier | items = list(arcs(oid)) | from_arcs(items)
len(oid) | child | len(oid)
oid[-1] | child | oid[-1]
7 in oid | child | 7 in oid
arcs(oid) | child | arcs(oid)
child(oid) | child | child(oid)
parent(oid) | child | parent(oid)
== |  | oid == same
< |  | oid < other
hash |  | hash(oid)
lookup in a dict | table = {oid: 1, other: 2} | table[same]
sorting 1,000 |  | sorted(oids)
sorting 100,000 | oids = [parse(f"1.3.{n * 7919 % 100_003}.{n % 7}") for n in range(100_000)] | sorted(oids)
pickling 1,000 | import pickle | pickle.dumps(oids)
unpickling 1,000 | import pickle; pickled = pickle.dumps(oids) | pickle.loads(pickled)""".splitlines()

MAPS = {
    "SortedMap": """from const_oid import SortedMap as kind
after, near = lambda oid: table.next_after(oid), lambda oid: table.nearest(oid)""",
    "SortedDict": """from sortedcontainers import SortedDict as kind
after = lambda oid: table.peekitem(table.bisect_right(oid))""",
    "dict": "kind = dict",
}
OF_MAP = """import collections, pickle, tracemalloc
from const_oid import ObjectIdentifier
drain = collections.deque(maxlen=0).extend
oids = [ObjectIdentifier(f"1.3.6.1.2.1.{index * 7919 % count}.{index % 7}") for index in range(count)]
entries, others = dict.fromkeys(oids, 1), {key.child(8): 1 for key in oids}
oid, last = oids[count // 2], ObjectIdentifier("2.999")
new, one, ten, table = oid.child(7), {oid: 1}, dict.fromkeys(oids[:10], 1), kind(entries)
pickled = pickle.dumps(table)
tracemalloc.start()
made = kind(entries)
octets = tracemalloc.get_traced_memory()[0] / len(made)
tracemalloc.stop()"""
CALLS = """table[new] = 1; del table[new]
table[new] = 1; table.pop(new)
table[last] = 1; table.popitem()
table[oid] = 1
table[oid]
table.get(oid)
table.get(new)
oid in table
new in table
table.setdefault(oid)
table.pop(new, 0)
table.update(one)
table.update(ten)
near(oid)
near(new)
after(oid)
table.subtree(oid)
iter(table.keys())
iter(table.values())
iter(table.items())""".splitlines()
OF_ALL = """kind(entries)
table.update(entries)
kind(entries).update(others)
table == made
table == entries
table.copy()
pickle.dumps(table)
pickle.loads(pickled)
drain(iter(table))
drain(reversed(table))
drain(iter(table.values()))
drain(reversed(table.values()))
drain(iter(table.items()))
drain(reversed(table.items()))""".splitlines()


def timer_of(names, setup, call):
    """What times a call with names, after what it needs, and None if the names lack some."""
    with contextlib.suppress(NameError, AttributeError, TypeError):
        exec(setup, names)
        timer = timeit.Timer(call, timer=time.process_time, globals=names)
        timer.timeit(1)
        return timer
    return None


def print_row(row, cells):
    print(f"{row:34}" + "".join(f"{cell:>20}" for cell in cells), flush=True)


def times_of(row, timers, each):
    """Prints the best time of each call, in short turns, since other work on the machine only adds to it."""
    shortest = min(timer.timeit(3) / 3 for timer in timers if timer)
    number, rounds = 1 + int(1e-4 / shortest), 400 if shortest < 0.01 else 5
    turns = [[timer and timer.timeit(number) for timer in timers] for _ in range(rounds)]
    times = [column[0] and min(column) * 1e9 / number / each for column in zip(*turns)]
    print_row(row, ["" if time is None else format(time, ",.0f") for time in times])
    return times


def slower(title, sides, setup, rows, count=1):
    """Prints the rows of the sides that are installed, and yields those in which the first side is slower."""
    spaces = {}
    for name, side in sides.items():
        with contextlib.suppress(ImportError):
            exec(side, names := {"count": count})
            spaces[f"{name} {getattr(sys.modules.get(name.lower()), '__version__', '')}"] = names
            exec(setup, names)
    print_row(title, spaces)
    for row, needed, call in rows:
        timers = [timer_of({**names}, needed, call) for names in spaces.values()]
        times = times_of(row, timers, count if call in OF_ALL else 1)
        aside = ("tuple", "dict", "asn1crypto" if row == "identifier to text" else "dict")
        ours, *others = [
            time for name, time in zip(spaces, times) if time and not name.startswith(aside)
        ]
        if others and ours > min(others):
            yield f"slower: {row}"
    if sides is MAPS:
        print_row("octets a key", [format(names["octets"], ".1f") for names in spaces.values()])


def main():
    rows = list(slower("", SIDES, SETUP, [row.split(" | ") for row in ROWS]))
    calls = [(call, "", call) for call in CALLS + OF_ALL]
    for keys, count in (("1,000 keys", 1000), ("100,000 keys", 100_000)):
        rows += [f"{row}, {keys}" for row in slower(f"\n{keys}", MAPS, OF_MAP, calls, count)]
    return "\n".join(rows) or None


sys.exit(main())
