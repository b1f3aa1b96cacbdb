"""Inputs and their results, from X.660 (arcs) and X.690 (8.19: octets; 8.1 and 10.1: tag and length) alone."""

from random import choice, randrange, seed

EDGES = [
    0,
    39,
    40,
    79,
    80,
    127,
    128,
    16383,
    16384,
    2**21 - 1,
    2**21,
    2**28 - 1,
    2**28,
    2**31 - 1,
    2**31,
    2**32 - 1,
]
WIDE = [
    2**32,
    2**32 + 1,
    2**35 - 1,
    2**63 - 1,
    2**63,
    2**64 - 1,
    2**64,
    2**64 + 5,
    2**70,
]
# Octets in place of the tag: other numbers and classes, constructed ones, and 6 in the form for 31 and more (8.1.2).
TAGS = [b"\x05", b"\x0d", b"\x86", b"\xc6", b"\x26", b"\xa6", b"\x1f\x06"]
# Octets in place of the length: the indefinite form, which a constructed encoding has; reserved; past the end (8.1.3).
LENGTHS = [b"\x80", b"\xff", b"\x84" + b"\xff" * 4, b"\x88" + b"\xff" * 8]


def drawn(wide):
    """Arcs: the root is at most 2, and the next arc below 0 and 1 at most 39; if wide, a later one is past 32 bits."""
    arcs = [
        randrange(3),
        *(
            choice([randrange(130), choice(EDGES), randrange(2**32)])
            for _ in range(randrange(1, 8))
        ),
    ]
    if arcs[0] < 2:
        arcs[1] = randrange(40)
    if not wide:
        return arcs
    if randrange(2) or arcs[0] < 2:
        return [*arcs, choice(WIDE)]
    return [2, choice(WIDE), *arcs[2:]]


def group(number, more=0):
    """The octets of a subidentifier (8.19.2): seven bits each, the most significant first; 128: more follow."""
    return (group(number >> 7, 128) if number >> 7 else b"") + bytes([number & 127 | more])


def groups(arcs, more=0):
    """The first subidentifier has two arcs (8.19.4)."""
    *numbers, last = [arcs[0] * 40 + arcs[1], *arcs[2:]]
    return [*map(group, numbers), group(last, more)]


def edited(parts, edit):
    at = randrange(len(parts))
    return [*parts[:at], edit(parts[at]), *parts[at + 1 :]]


def foreign(arc):
    return choice(
        [f"{choice('+- ')}{arc}", f"{arc}{choice([' ', 'x', 'a', '_1', 'e1', chr(9), chr(10)])}"]
    )


def bad_first(arcs):
    heads = [choice([3, 4, 40, 256, 2**32, 2**64 + 1]), arcs[1]], [
        randrange(2),
        choice([40, 128, 256, 2**32]),
    ]
    return [*choice(heads), *arcs[2:]]


def text(arcs):
    return ".".join(map(str, arcs)).encode()


def der(parts, least=0):
    """Tag, length and contents. The length is that of DER (10.1), or in the long form with `least` octets or more."""
    contents = b"".join(parts)
    length = len(contents).to_bytes(max(least, 1 + (len(contents) > 255)), "big")
    return (
        bytes([6, *([128 + len(length)] if least or len(contents) > 127 else [])])
        + length
        + contents
    )


def long(wide=False):
    """Arcs whose octets are more than 127."""
    arcs = drawn(wide)
    return arcs * (127 // len(b"".join(groups(arcs))) + randrange(1, 3))


# A kind of input: its form, its name or an example, what is right, and the groups, arcs of a text or element for arcs.
KINDS = [
    ("octets", "valid", "read", groups),
    ("octets", "arc ≥ 2^32", "either", groups),
    (
        "octets",
        "`2A8003`",
        "rejected",
        lambda arcs: edited(groups(arcs), (b"\x80" * randrange(1, 4)).__add__),
    ),
    ("octets", "`2A83`", "rejected", lambda arcs: groups(arcs, 128)),
    ("text", "valid", "read", list),
    ("text", "arc ≥ 2^32", "either", list),
    ("text", "`1.02`", "either", lambda arcs: edited(arcs, "0{}".format)),
    ("text", "`1..2`", "rejected", lambda arcs: edited(arcs, "{}.".format)),
    ("text", "`1.+2`", "rejected", lambda arcs: edited(arcs, foreign)),
    ("text", "`1.40`", "rejected", bad_first),
    ("text", "`1`", "rejected", lambda arcs: arcs[-1:]),
]
KINDS += [
    ("elements", *row, lambda arcs, edit=edit: der(edit(arcs))) for _, *row, edit in KINDS[:4]
] + [
    ("elements", "`06 81 80`", "read", lambda arcs: der(groups(arcs))),
    ("elements", "`06 81 01`", "either", lambda arcs: der(groups(arcs), randrange(1, 4))),
    (
        "elements",
        "`06 80`",
        "rejected",
        lambda arcs: b"\6" + choice(LENGTHS) + der(groups(arcs))[2:] + b"\0\0",
    ),
    ("elements", "`26 01`", "rejected", lambda arcs: choice(TAGS) + der(groups(arcs))[1:]),
    (
        "elements",
        "`06 02 2A`",
        "rejected",
        lambda arcs: der(groups(choice([arcs, long()])))[: choice([2, -1, -2])],
    ),
    (
        "elements",
        "`06 01 2A 00`",
        "rejected",
        lambda arcs: der(groups(arcs)) + choice([b"\0", b"\0\0", b"\5\0"]),
    ),
]


def inputs():
    """For each kind its form, its name, what is right, and 10,000 inputs with their results."""
    seed(20261124)
    for form, kind, right, edit in KINDS:
        draw = long if "81 80" in kind else drawn
        made = [(edit(arcs), arcs) for arcs in (draw("2^32" in kind) for _ in range(10_000))]
        if form == "text":
            yield form, kind, right, [(text(parts), der(groups(arcs))[2:]) for parts, arcs in made]
        else:
            whole = bytes if form == "elements" else der
            yield form, kind, right, [(whole(parts), text(arcs)) for parts, arcs in made]
