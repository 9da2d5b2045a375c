#!/usr/bin/env python3
"""Runs the program on charts and scripts at the edges of what it takes, and on what it must refuse.

    python3 tests/run.py crates/settle/out/settle
"""
import itertools
import pathlib
import struct
import subprocess
import sys
import tempfile

TOP = 1_000_000_000
ROOT = pathlib.Path(__file__).resolve().parent.parent


# ---- charts

def file(kind, n, a, b, whole, bands, routes, bands_at=16, routes_at=None, length=None, size=None):
    """The bytes of a chart file with these bands and these bytes of routes."""
    routes_at = 16 + n if routes_at is None else routes_at
    end = max(bands_at + n, routes_at + len(routes), 16)
    size = end if size is None else size
    body = bytearray(max(end, size))
    body[bands_at : bands_at + n] = bytes(bands)
    body[routes_at : routes_at + len(routes)] = routes
    struct.pack_into(">8H", body, 0, kind, n, a, b, whole, bands_at, routes_at, size if length is None else length)
    return bytes(body[:size])


def chart(n, a, b, whole, bands, rows, kind=1, **other):
    """A weighted chart."""
    return file(kind, n, a, b, whole, bands, b"".join(struct.pack(f">{n}H", *row) for row in rows), **other)


def choice(n, a, b, bands, masks, whole=0, kind=2, **other):
    """A choice chart."""
    return file(kind, n, a, b, whole, bands, struct.pack(f">{n}I", *masks), **other)


THREE = choice(3, 1, 2, [0, 1, 0], [3, 2, 4])
ALL_32 = choice(32, 999, 1000, [7] * 32, [0xFFFFFFFF] * 32)
FOUR = (4, 1, 2, 4, [0, 1, 0, 0], [[3, 1, 0, 0], [0, 4, 0, 0], [0, 2, 2, 0], [0, 0, 0, 4]])
WORKED = chart(*FOUR)


def worked(**other):
    """The worked chart with a field or a row changed."""
    names = ["n", "a", "b", "whole", "bands", "rows"]
    fields = dict(zip(names, FOUR))
    fields.update(other)
    return chart(**fields)


def wide():
    """32 sections of one band, every part above 0, 10,000 parts, discount 999/1000."""
    row = [313 if u < 16 else 312 for u in range(32)]
    return chart(32, 999, 1000, 10000, [7] * 32, [row] * 32)


def after(s):
    """The section to which section s of `split` goes on."""
    return {0: 2, 1: 20}.get(s, s)


def split():
    """32 sections, two bands; section 0 goes on to 2, section 1 to 20, which are apart."""
    rows = [[10000 if u == after(s) else 0 for u in range(32)] for s in range(32)]
    return chart(32, 999, 1000, 10000, [0] * 16 + [1] * 16, rows)


def bands_of(file):
    """The bands of a chart, one for each section; of the two charts of a test that is sat twice, those of both."""
    if isinstance(file, tuple):
        return list(zip(*map(bands_of, file)))
    header = struct.unpack_from(">8H", file)
    return file[header[5] : header[5] + header[1]]


# ---- scripts: lists of a command's line and what is said of it

def weigh(side, s, t, words):
    return " ".join(map(str, ["weigh", side, s, t, *words]))


def wide_pairing():
    """A pairing for the rows of `wide` with every pair of sections: 3,072 words."""
    words = []
    for u in range(32):
        for v in range(32):
            words += [u, v, 9 + (u == v) * (25 if u < 16 else 24)]
    return words


def potentials(alpha, beta):
    """64 words: what is given, and 0 at the other sections."""
    return [alpha.get(u, 0) for u in range(32)] + [beta.get(v, 0) for v in range(32)]


def draft(side, claims):
    """A draft that is entered: for each pair of sections the value that is claimed, and the words that show it."""
    n = len(claims)
    script = [(f"open {side}", "= 0")]
    for k, ((s, t), (value, _)) in enumerate(claims.items()):
        script.append((f"claim {s} {t} {value}", f"= {k + 1}"))
    script.append(("close", f"= {n}"))
    for k, ((s, t), (_, words)) in enumerate(reversed(claims.items())):
        script.append((" ".join(map(str, ["show", s, t, *words])), f"= {n - k - 1}"))
    return script + [("enter", f"= {n}")]


def split_distances():
    """The distances of `split`, of each judged pair: 999/1000 between section 1 and the others of its band, else 0."""
    bands = bands_of(split())
    pairs = [(s, t) for s in range(32) for t in range(32) if bands[s] == bands[t]]
    return {(s, t): 999_000_000 if (s == 1) != (t == 1) else 0 for s, t in pairs}


def split_certificate():
    """A full certificate for `split`: pairings for all judged pairs, potentials for those with a distance above 0."""
    distances = split_distances()
    upper = {(s, t): (d, [after(s), after(t), 10000]) for (s, t), d in distances.items()}
    lower = {(s, t): (d, potentials({20: TOP} if s == 1 else {}, {20: TOP} if t == 1 else {})) for (s, t), d in distances.items() if d}
    return draft("upper", upper) + draft("lower", lower)


# ---- what the program is to write

def command(line):
    """A command as it is written in the answer: without the words of a showing."""
    fields = line.split()
    return " ".join(fields[: 3 if fields[0] == "show" else 4])


def report(file, top, accepted, refused, entries):
    """The report over a chart: of each pair the lower and the upper entry, those of `entries` or else the starting ones."""
    bands = bands_of(file)
    lines, verdicts = [], []
    for s, t in itertools.product(range(len(bands)), repeat=2):
        apart = bands[s] != bands[t]
        lower, upper = entries.get((s, t), (top if apart else 0, top))
        verdicts.append("apart" if apart else "settled" if lower == upper else "open")
        lines.append(f"{s} {t} {lower} {upper} {verdicts[-1]}")
    apart, settled, open_ = [verdicts.count(verdict) for verdict in ("apart", "settled", "open")]
    return lines + [f"calls: {accepted} accepted, {refused} refused", f"pairs: {apart} apart, {settled} settled, {open_} open"]


def played(file, top, script, entries):
    """What the program writes of a whole script, after which these entries are no longer the starting ones."""
    calls = [said for line, said in script if not line.startswith("weigh")]
    accepted = sum(said.startswith("= ") for said in calls)
    answers = [f"{command(line)} {said}" for line, said in script]
    return answers + report(file, top, accepted, len(calls) - accepted, entries)


# ---- cases

FAULT_100 = "fault 100 0 (the pair is apart, or has a section that the chart has not)"
OUTSIDE = "(the chart has not both sections)"
LOOSE = "refused 34 (the value is looser than the entry, or above the top)"

WHOLE = wide_pairing()
SHORT = WHOLE[:-3]
MORE = WHOLE + [0, 0, 1]

WIDEST = [
    (weigh("upper", 0, 1, WHOLE), "= 999000000"),
    (weigh("upper", 0, 1, SHORT), "fault 104 31 (the amounts at section 31 do not add up to its part)"),
    (weigh("upper", 0, 1, MORE), "fault 101 3075 (a pairing cannot have 3075 words: it has triples, at most 1,024)"),
    (weigh("upper", 31, 31, WHOLE), "= 999000000"),
    (weigh("lower", 0, 1, potentials({u: TOP for u in range(32)}, {v: -TOP for v in range(32)})), "= 0"),
    (weigh("lower", 0, 1, potentials({u: TOP for u in range(32)}, {v: -TOP + 1 for v in range(32)})),
     "fault 113 0 (the potentials of the successors at place 0 add up to more than their entry)"),
    (weigh("lower", 0, 1, potentials({31: TOP + 1}, {})), "fault 112 31 (word 31 is further from 0 than the top)"),
    (weigh("lower", 0, 1, potentials({}, {31: -2147483648})), "fault 112 63 (word 63 is further from 0 than the top)"),
    (weigh("lower", 0, 1, [0] * 63), "fault 111 63 (potentials cannot have 63 words: they have two for each section)"),
    (weigh("upper", 32, 0, []), FAULT_100),
    (weigh("upper", 0, 31, []), "fault 104 0 (the amounts at section 0 do not add up to its part)"),
]

GREATEST = [
    (weigh("lower", 0, 1, potentials({2: TOP}, {})), "= 999000000"),
    (weigh("lower", 0, 1, potentials({2: TOP}, {20: 1})),
     "fault 113 84 (the potentials of the successors at place 84 add up to more than their entry)"),
    (weigh("lower", 0, 1, potentials({2: -TOP}, {20: -TOP})), "= 0"),
    (weigh("upper", 0, 1, [2, 20, 10000]), "= 999000000"),
    (weigh("upper", 0, 16, []), FAULT_100),
]

LEAST = [
    (weigh("upper", 0, 3, [0, 3, 3, 1, 3, 1]), "= 1"),
    (weigh("lower", 0, 3, [0, 1] + [0] * 6), "= 0"),
    (weigh("lower", 0, 3, [0, 2] + [0] * 6), "fault 112 1 (word 1 is further from 0 than the top)"),
]

# The choice chart of the examples: from section 0 one chooses 0 or 1, from 1 goes on to 1, and from 2 to 2.
CHOICES = [
    (weigh("upper", 0, 1, [0, 1, 1, 1]), FAULT_100),
    (weigh("upper", 3, 0, []), FAULT_100),
    (weigh("upper", 0, 2, [0]), "fault 121 1 (a pairing cannot have 1 words: it has pairs, at most 1,024)"),
    (weigh("upper", 0, 2, [0, 2] * 1025), "fault 121 2050 (a pairing cannot have 2050 words: it has pairs, at most 1,024)"),
    (weigh("upper", 0, 2, [0, 2] * 1023 + [1, 2]), "= 4"),
    (weigh("upper", 0, 2, [0, 2, 2, 2]), "fault 122 2 (word 2 names no successor)"),
    (weigh("upper", 0, 2, [0, 1, 3, 2]), "fault 122 1 (word 1 names no successor)"),
    (weigh("upper", 0, 2, [-1, 2]), "fault 122 0 (word 0 names no successor)"),
    (weigh("upper", 0, 2, []), "fault 123 0 (successor 0 of the first section is in no pair)"),
    (weigh("upper", 0, 2, [0, 2]), "fault 123 1 (successor 1 of the first section is in no pair)"),
    (weigh("upper", 2, 0, [2, 0]), "fault 124 1 (successor 1 of the second section is in no pair)"),
    (weigh("upper", 0, 2, [0, 2, 1, 2]), "= 4"),
    (weigh("lower", 0, 1, [0, 1, 8]), FAULT_100),
    (weigh("lower", 0, 2, [0, 1]), "fault 131 2 (potentials cannot have 2 words: they have three)"),
    (weigh("lower", 0, 2, [0, 1, 8, 8]), "fault 131 4 (potentials cannot have 4 words: they have three)"),
    (weigh("lower", 0, 2, [2, 2, 9]), "fault 132 0 (the side is not 0 or 1)"),
    (weigh("lower", 0, 2, [-1, 0, 0]), "fault 132 0 (the side is not 0 or 1)"),
    (weigh("lower", 0, 2, [0, 2, 9]), "fault 133 1 (the section is no successor on its side)"),
    (weigh("lower", 0, 2, [1, 1, 0]), "fault 133 1 (the section is no successor on its side)"),
    (weigh("lower", 0, 2, [0, -1, 0]), "fault 133 1 (the section is no successor on its side)"),
    (weigh("lower", 0, 2, [0, 1, 9]), "fault 134 2 (the floor is not from 0 to the top)"),
    (weigh("lower", 0, 2, [0, 1, -1]), "fault 134 2 (the floor is not from 0 to the top)"),
    (weigh("lower", 0, 2, [0, 0, 1]), "fault 135 2 (the entry with successor 2 of the other section is below the floor)"),
    (weigh("lower", 0, 2, [1, 2, 1]), "fault 135 0 (the entry with successor 0 of the other section is below the floor)"),
    (weigh("lower", 2, 0, [1, 1, 8]), "= 4"),
    (weigh("lower", 0, 2, [0, 1, 8]), "= 4"),
    (weigh("lower", 0, 2, [0, 1, 7]), "= 3"),
    (weigh("lower", 0, 2, [0, 0, 0]), "= 0"),
    ("open upper", "= 0"),
    ("claim 0 2 3", "= 1"),
    ("close", "= 1"),
    ("show 0 2 0 2 1 2", "refused 55 4 (the pairing shows no claim below 4)"),
    ("show 0 2 0 2", "refused 54 123 1 (successor 1 of the first section is in no pair)"),
    ("abandon", "= 1"),
]

# a full certificate for that chart over 8: 0 and 2 are 4 apart
CHOSEN = (
    draft("upper", {(0, 0): (0, [0, 0, 1, 1]), (0, 2): (4, [0, 2, 1, 2]), (1, 1): (0, [1, 1]), (2, 0): (4, [2, 0, 2, 1]), (2, 2): (0, [2, 2])})
    + draft("lower", {(0, 2): (4, [0, 1, 8]), (2, 0): (4, [1, 1, 8])})
    + [("ask 0 2", "= 4 4 settled")]
)

# 0 and 2 as in that chart, 3 goes on to 0 and 4 to 2; the entries of (0, 2) are entered, and those of (2, 0) are not
FIVE = choice(5, 1, 2, [0, 1, 0, 0, 0], [3, 2, 4, 1, 4])
ONE_WAY = draft("upper", {(0, 2): (4, [0, 2, 1, 2])}) + draft("lower", {(0, 2): (4, [0, 1, 8])}) + [
    (weigh("upper", 3, 4, [0, 2]), "= 2"),
    (weigh("upper", 4, 3, [2, 0]), "= 4"),
    (weigh("lower", 3, 4, [0, 0, 4]), "= 2"),
    (weigh("lower", 3, 4, [0, 0, 5]), "fault 135 2 (the entry with successor 2 of the other section is below the floor)"),
    (weigh("lower", 3, 4, [1, 2, 4]), "= 2"),
    (weigh("lower", 3, 4, [1, 2, 5]), "fault 135 0 (the entry with successor 0 of the other section is below the floor)"),
    (weigh("lower", 4, 3, [0, 2, 1]), "fault 135 0 (the entry with successor 0 of the other section is below the floor)"),
    (weigh("lower", 4, 3, [1, 0, 1]), "fault 135 2 (the entry with successor 2 of the other section is below the floor)"),
]

EACH = [word for pair in itertools.product(range(32), repeat=2) for word in pair]
WIDEST_CHOICES = [
    (weigh("upper", 0, 31, EACH), "= 999000000"),
    (weigh("upper", 31, 0, [word for u in range(32) for word in (u, 31 - u)]), "= 999000000"),
    (weigh("upper", 31, 31, EACH[:64]), "fault 123 1 (successor 1 of the first section is in no pair)"),
    (weigh("upper", 0, 31, EACH + [31, 32]), "fault 121 2050 (a pairing cannot have 2050 words: it has pairs, at most 1,024)"),
    (weigh("upper", 0, 31, EACH[:-1] + [32]), "fault 122 2047 (word 2047 names no successor)"),
    (weigh("lower", 0, 31, [1, 31, 0]), "= 0"),
    (weigh("lower", 0, 31, [1, 31, 1]), "fault 135 0 (the entry with successor 0 of the other section is below the floor)"),
    (weigh("lower", 0, 31, [0, 31, TOP + 1]), "fault 134 2 (the floor is not from 0 to the top)"),
]

# the worked chart in both sittings
SPLIT = "141 0 (a pairing begins with how many of the words left are for sitting 0)"
SITTING = "142 0 (potentials begin with their sitting, 0 or 1)"
UNPAID = "104 0 (the amounts at section 0 do not add up to its part)"
GOOD = [0, 3, 3, 1, 3, 1]
TWICE = [
    (weigh("upper", 0, 3, [6] + GOOD + GOOD), "= 15"),
    (weigh("upper", 0, 1, [6] + GOOD + GOOD), "fault 100 0 (the pair is apart, or has a section that the charts have not)"),
    (weigh("upper", 0, 3, []), f"fault {SPLIT}"),
    (weigh("upper", 0, 3, [-1] + GOOD), f"fault {SPLIT}"),
    (weigh("upper", 0, 3, [7] + GOOD), f"fault {SPLIT}"),
    (weigh("upper", 0, 3, [6] + GOOD), f"fault 1 {UNPAID}"),
    (weigh("upper", 0, 3, [3, 0, 3, 4] + GOOD), f"fault 0 {UNPAID}"),
    (weigh("upper", 0, 3, [6] + GOOD + [0, 3, 4]), f"fault 1 {UNPAID}"),
    (weigh("upper", 0, 3, [3, 0, 3, 4, 0, 3, 4]), f"fault 0 {UNPAID}"),
    (weigh("lower", 0, 3, []), f"fault {SITTING}"),
    (weigh("lower", 0, 3, [2, 6]), f"fault {SITTING}"),
    (weigh("lower", 0, 3, [0] + [0] * 8), "= 0"),
    (weigh("lower", 0, 3, [1] + [0] * 7), "fault 1 111 7 (potentials cannot have 7 words: they have two for each section)"),
    ("open upper", "= 0"),
    ("claim 0 3 5", "= 1"),
    ("close", "= 1"),
    (" ".join(map(str, ["show 0 3 6", *GOOD, *GOOD])), "refused 55 6 (the pairing shows no claim below 6)"),
    ("show 0 3 3 0 3 4 0 3 4", f"refused 54 0 {UNPAID}"),
    (" ".join(map(str, ["show 0 3 6", *GOOD, 0, 3, 4])), f"refused 54 1 {UNPAID}"),
    ("show 0 3", f"refused 54 {SPLIT}"),
    ("abandon", "= 1"),
] + draft("upper", {(0, 3): (6, [6] + GOOD + GOOD)}) + draft("lower", {(0, 3): (6, [1, 6, 30, 0, 0, 0, 0, 0, 0])})

# a weighted chart with the sections and the bands of the choice chart, as the second sitting and as the first
PARTED = chart(3, 1, 2, 2, [0, 1, 0], [[1, 1, 0], [0, 2, 0], [0, 0, 2]])
MIXED = draft("upper", {(0, 2): (4, [4, 0, 2, 1, 2, 0, 2, 1, 1, 2, 1])}) + draft("lower", {(0, 2): (4, [0, 0, 1, 8])})
MIXED_OTHERWISE = draft("upper", {(0, 2): (4, [6, 0, 2, 1, 1, 2, 1, 0, 2, 1, 2])}) + draft("lower", {(0, 2): (4, [1, 0, 1, 8])})

# on `split` over the greatest top, each refusal, and nothing entered
REFUSALS = [
    ("ask 31 32", f"refused 80 {OUTSIDE}"),
    ("ask 4294967295 0", f"refused 80 {OUTSIDE}"),
    ("abandon", "refused 70 (no draft is open)"),
    ("enter", "refused 60 (no draft takes showings)"),
    ("show 32 0", "refused 50 (no draft takes showings)"),
    ("close", "refused 40 (no draft takes claims)"),
    ("claim 32 0 0", "refused 30 (no draft takes claims)"),
    ("open lower", "= 0"),
    ("open upper", "refused 20 (a draft is open)"),
    ("close", "refused 41 (the draft has no claims)"),
    ("claim 15 32 0", f"refused 31 {OUTSIDE}"),
    ("claim 31 15 1000000001", "refused 32 (the pair is apart)"),
    ("claim 31 31 1000000001", LOOSE),
    ("claim 31 31 4294967295", LOOSE),
    ("claim 31 31 1000000000", "= 1"),
    ("claim 31 31 1000000001", "refused 33 (the draft has a claim for the pair)"),
    ("claim 31 30 0", "= 2"),
    ("close", "= 2"),
    ("show 32 31", f"refused 51 {OUTSIDE}"),
    ("show 15 31", "refused 52 (the draft has no claim for the pair)"),
    ("show 31 30" + " 0" * 64, "= 1"),
    ("show 31 30", "refused 53 (the claim is shown already)"),
    ("show 31 31", "refused 54 111 0 (potentials cannot have 0 words: they have two for each section)"),
    ("show 31 31" + " 0" * 31 + " 1000000000" + " 0" * 32, "refused 55 999000000 (the potentials show no claim above 999000000)"),
    ("enter", "refused 61 31 31 (the claim for sections 31 and 31 is not shown)"),
    ("abandon", "= 2"),
    ("open upper", "= 0"),
    ("claim 0 1 1000000001", LOOSE),
    ("claim 0 1 998999999", "= 1"),
    ("close", "= 1"),
    ("show 0 1 2 20 10000", "refused 55 999000000 (the pairing shows no claim below 999000000)"),
    ("abandon", "= 1"),
]

# name, the chart's bytes, the top, a script, and the entries that it changes
PLAYED = [
    ("a script with no calls", WORKED, 30, [], {}),
    ("the widest chart", wide(), TOP, WIDEST, {}),
    ("the greatest claim", split(), TOP, GREATEST, {}),
    ("the least top", WORKED, 1, LEAST, {}),
    ("routes first, and bytes between", worked(routes_at=17, bands_at=60, size=70), 30, [(weigh("upper", 0, 3, [0, 3, 3, 1, 3, 1]), "= 15")], {}),
    ("the longest file", worked(size=65535), 30, [("ask 0 3", "= 0 30 open")], {}),
    ("one section", chart(1, 1, 2, 1, [0], [[1]]), 1, draft("upper", {(0, 0): (0, [0, 0, 1])}), {(0, 0): (0, 0)}),
    ("each refusal", split(), TOP, REFUSALS, {}),
    ("all calls on 32 sections", split(), TOP,
     [("open lower", "= 0"), ("abandon", "= 0")] + split_certificate() + [("ask 1 15", "= 999000000 999000000 settled"), ("ask 0 31", "= 1000000000 1000000000 apart")],
     {pair: (d, d) for pair, d in split_distances().items()}),
    ("every pair of 32 sections", wide(), TOP, draft("upper", {(s, t): (0, WHOLE) for s in range(32) for t in range(32)}),
     {(s, t): (0, 0) for s in range(32) for t in range(32)}),
    ("choices", THREE, 8, CHOICES, {}),
    ("all choices settled", THREE, 8, CHOSEN, {(s, t): (4, 4) if s != t else (0, 0) for s, t in [(0, 0), (0, 2), (1, 1), (2, 0), (2, 2)]}),
    ("choices of which one direction is settled", FIVE, 8, ONE_WAY, {(0, 2): (4, 4)}),
    ("the widest choices", ALL_32, TOP, WIDEST_CHOICES, {}),
    ("every choice of 32 sections", ALL_32, TOP, draft("upper", {(s, t): (0, EACH) for s in range(32) for t in range(32)}),
     {(s, t): (0, 0) for s in range(32) for t in range(32)}),
    ("masks first, and bytes between", choice(3, 1, 2, [0, 1, 0], [3, 2, 4], routes_at=17, bands_at=60, size=70), 8, [(weigh("upper", 0, 2, [0, 2, 1, 2]), "= 4")], {}),
    ("the worked chart twice", (WORKED, WORKED), 30, TWICE, {(0, 3): (6, 6)}),
    ("choices and then parts", (THREE, PARTED), 8, MIXED, {(0, 2): (4, 4)}),
    ("parts and then choices", (PARTED, THREE), 8, MIXED_OTHERWISE, {(0, 2): (4, 4)}),
    ("two sittings with other bands", (THREE, choice(3, 1, 2, [0, 0, 1], [1, 2, 4])), 8, [("ask 0 2", "= 8 8 apart"), ("ask 0 1", "= 8 8 apart")], {}),
    ("a draft that is not entered", WORKED, 30, draft("upper", {(0, 3): (6, [0, 3, 3, 1, 3, 1])})[:-1], {}),
]

NUMBER = "is not a whole number from 0 to 4294967295"
WORD = "is not a whole number from -2147483648 to 2147483647"

# a malformed line, and what is said of it
MALFORMED = [
    ("opens upper", "the first field is no command"),
    ("ASK 0 3", "the first field is no command"),
    ("open", "there are too few fields"),
    ("open under x", "field 1 is neither upper nor lower"),
    ("open upper 0", "there are too many fields"),
    ("claim 0 3", "there are too few fields"),
    ("claim zero 3 6", f"field 1 {NUMBER}"),
    ("claim 0 +3 6", f"field 2 {NUMBER}"),
    ("claim 0 3 4294967296", f"field 3 {NUMBER}"),
    ("claim 0 3 6 6", "there are too many fields"),
    ("close upper", "there are too many fields"),
    ("show 0", "there are too few fields"),
    ("show upper 0 3", f"field 1 {NUMBER}"),
    ("show 0 -3 0", f"field 2 {NUMBER}"),
    ("show 0 3 0 3 3 1 3 one", f"word 5 {WORD}"),
    ("enter 0", "there are too many fields"),
    ("abandon 0", "there are too many fields"),
    ("ask 0", "there are too few fields"),
    ("ask x 3", f"field 1 {NUMBER}"),
    ("ask 0 3.", f"field 2 {NUMBER}"),
    ("ask 0 3 6", "there are too many fields"),
    ("weigh 0 3", "field 1 is neither upper nor lower"),
    ("weigh upper 0 x", f"field 3 {NUMBER}"),
    ("weigh lower 0 3 2147483648", f"word 0 {WORD}"),
]

TOP_REFUSED = "TOP refused 11 (the top is not a whole number from 1 to 1,000,000,000)"
LENGTH = "the length field is not the size of the file"
SECTIONS = "the number of sections is not from 1 to 32"
DISCOUNT = "the discount a / b does not have 1 <= a < b <= 1000"
PARTS = "P is not from 1 to 10,000, or in a choice chart not 0"
BANDS = "the bands do not lie in the file"
ROUTES = "the routes do not lie in the file, or share a byte with the bands"
MISFIT = "the two charts differ in their sections or discount, or their showings are too long together"
MASK = "a mask is 0, or marks a section that the chart has not"

# name, the chart's bytes, the top, and what is said of them
REFUSED = [
    ("top 0", WORKED, 0, TOP_REFUSED),
    ("one above the greatest top", WORKED, TOP + 1, TOP_REFUSED),
    ("a top in words", WORKED, "thirty", TOP_REFUSED),
    ("an empty file", b"", 30, "a.chart refused 1 0 (the file has fewer than 16 bytes)"),
    ("15 bytes", WORKED[:15], 30, "a.chart refused 1 15 (the file has fewer than 16 bytes)"),
    ("another length", worked(length=51), 30, f"a.chart refused 1 14 ({LENGTH})"),
    ("70,000 bytes", WORKED + bytes(70000), 30, f"a.chart refused 1 14 ({LENGTH})"),
    ("65,536 bytes", worked(size=65536, length=65535), 30, f"a.chart refused 1 14 ({LENGTH})"),
    ("another kind", worked(kind=3), 30, "a.chart refused 2 0 (the file holds another kind of chart)"),
    ("no sections", chart(0, 1, 2, 4, [], []), 30, f"a.chart refused 3 2 ({SECTIONS})"),
    ("33 sections", chart(33, 1, 2, 1, [0] * 33, [[int(u == s) for u in range(33)] for s in range(33)]), 30, f"a.chart refused 3 2 ({SECTIONS})"),
    ("discount 0", worked(a=0), 30, f"a.chart refused 4 4 ({DISCOUNT})"),
    ("discount 1", worked(a=2), 30, f"a.chart refused 4 4 ({DISCOUNT})"),
    ("denominator 1001", worked(b=1001), 30, f"a.chart refused 4 4 ({DISCOUNT})"),
    ("no parts", worked(whole=0), 30, f"a.chart refused 5 8 ({PARTS})"),
    ("10,001 parts", worked(whole=10001), 30, f"a.chart refused 5 8 ({PARTS})"),
    ("bands in the header", worked(bands_at=15), 30, f"a.chart refused 6 10 ({BANDS})"),
    ("bands past the end", worked(bands_at=49, routes_at=17, size=52), 30, f"a.chart refused 6 10 ({BANDS})"),
    ("routes past the end", worked(routes_at=21, size=52), 30, f"a.chart refused 6 12 ({ROUTES})"),
    ("a shared byte", worked(routes_at=19), 30, f"a.chart refused 6 12 ({ROUTES})"),
    ("a row that does not add up", worked(rows=[[3, 1, 0, 0], [0, 4, 0, 0], [0, 2, 1, 0], [0, 0, 0, 5]]), 30,
     "a.chart refused 7 2 (a row does not add up to the whole)"),
    ("choices with parts", choice(3, 1, 2, [0, 1, 0], [3, 2, 4], whole=1), 8, f"a.chart refused 5 8 ({PARTS})"),
    ("masks past the end", choice(3, 1, 2, [0, 1, 0], [3, 2, 4], size=30), 8, f"a.chart refused 6 12 ({ROUTES})"),
    ("a mask of 0", choice(3, 1, 2, [0, 1, 0], [3, 0, 8]), 8, f"a.chart refused 7 1 ({MASK})"),
    ("a mask with bit 3 of 3 sections", choice(3, 1, 2, [0, 1, 0], [3, 2, 8]), 8, f"a.chart refused 7 2 ({MASK})"),
    ("a mask low byte first", choice(3, 1, 2, [0, 1, 0], [0x03000000, 2, 4]), 8, f"a.chart refused 7 0 ({MASK})"),
    ("a mask with bit 31 of 31 sections", choice(31, 1, 2, [0] * 31, [1] * 30 + [1 << 31]), 8, f"a.chart refused 7 30 ({MASK})"),
    ("choices of no sections", choice(0, 1, 2, [], []), 8, f"a.chart refused 3 2 ({SECTIONS})"),
    ("choices with discount 1", choice(3, 2, 2, [0, 1, 0], [3, 2, 4]), 8, f"a.chart refused 4 4 ({DISCOUNT})"),
    ("choices with bands in the header", choice(3, 1, 2, [0, 1, 0], [3, 2, 4], bands_at=15), 8, f"a.chart refused 6 10 ({BANDS})"),
    ("masks that share a byte", choice(3, 1, 2, [0, 1, 0], [3, 2, 4], routes_at=18), 8, f"a.chart refused 6 12 ({ROUTES})"),
    ("choices of another length", choice(3, 1, 2, [0, 1, 0], [3, 2, 4], length=32), 8, f"a.chart refused 1 14 ({LENGTH})"),
    ("two charts of other sections", (WORKED, THREE), 8, f"the two charts refused 12 ({MISFIT})"),
    ("two charts of other discounts", (THREE, choice(3, 1, 3, [0, 1, 0], [3, 2, 4])), 8, f"the two charts refused 12 ({MISFIT})"),
    ("a second chart of 15 bytes", (THREE, THREE[:15]), 8, "b.chart refused 1 15 (the file has fewer than 16 bytes)"),
    ("15 bytes of a choice chart", THREE[:15], 8, "a.chart refused 1 15 (the file has fewer than 16 bytes)"),
    ("a chart of 15 bytes, and top 0", WORKED[:15], 0, "a.chart refused 1 15 (the file has fewer than 16 bytes)"),
    ("two charts, of 15 bytes and of 14", (THREE[:15], THREE[:14]), 8, "a.chart refused 1 15 (the file has fewer than 16 bytes)"),
    ("two charts of other sections, and top 0", (WORKED, THREE), 0, TOP_REFUSED),
]

# what the program writes of examples/worked.calls, before the report
EXAMPLE = [
    "open upper = 0", "claim 0 3 6 = 1", "close = 1", "show 0 3 = 0", "enter = 1",
    "open lower = 0", "claim 0 3 6 = 1", "close = 1",
    "show 0 3 refused 54 113 3 (the potentials of the successors at place 3 add up to more than their entry)",
    "show 0 3 = 0", "enter = 1",
    "ask 0 3 = 6 6 settled",
]

# and of examples/choice.calls
CHOICE_EXAMPLE = [
    "open upper = 0", "claim 0 2 3 = 1", "close = 1", "show 0 2 refused 55 4 (the pairing shows no claim below 4)", "abandon = 1",
    "open upper = 0", "claim 0 2 4 = 1", "close = 1", "show 0 2 = 0", "enter = 1",
    "open lower = 0", "claim 0 2 4 = 1", "close = 1", "show 0 2 = 0", "enter = 1",
    "ask 0 2 = 4 4 settled",
]


def charts(file):
    """The arguments that name the chart of a test, or its two charts."""
    return ["a.chart", "b.chart"] if isinstance(file, tuple) else ["a.chart"]


def cases():
    """Each run: its name, the chart's bytes, the arguments, the input, and what the program must write and how it must end."""
    here = ["a.chart", "30"]
    for name, file, top, script, entries in PLAYED:
        # no line feed after the last line: the stored run has one
        yield name, file, charts(file) + [str(top)], "\n".join(line for line, _ in script), played(file, top, script, entries), "", 0
    for line, said in MALFORMED:
        yield line, WORKED, here, f"# first\n\nask 0 3\n{line}\nask 0 3\n", ["ask 0 3 = 0 30 open"], f"settle: line 4: {said}", 1
    for name, file, top, said in REFUSED:
        yield name, file, charts(file) + [str(top)], "ask 0 3\n", [], f"settle: {said}", 1
    for arguments in [[], ["a.chart"], ["a.chart", "a.chart", "30", "30"]]:
        yield f"{len(arguments)} arguments", WORKED, arguments, "ask 0 3\n", [], "usage: settle CHART TOP < CALLS, or settle CHART0 CHART1 TOP < CALLS", 1
    yield "no such file", WORKED, ["none.chart", "30"], "", [], "settle: none.chart cannot be read (No such file or directory (os error 2))", 1
    for name, answers, accepted, refused, entries in [("worked.calls", EXAMPLE, 11, 1, {(0, 3): (6, 6)}), ("worked.lines", weighings(), 0, 0, {})]:
        # by its bytes: `read_text` would drop a carriage return
        text = (ROOT / "examples" / name).read_bytes().decode()
        yield name, (ROOT / "examples/worked.chart").read_bytes(), here, text, answers + report(WORKED, 30, accepted, refused, entries), "", 0
    said = CHOICE_EXAMPLE + report(THREE, 8, 15, 1, {(0, 2): (4, 4)})
    yield "choice.calls", (ROOT / "examples/choice.chart").read_bytes(), ["a.chart", "8"], (ROOT / "examples/choice.calls").read_text(), said, "", 0


def weighings():
    """What the stored run has of its weighings in the starting tables, which are those of examples/worked.lines."""
    stored = (ROOT / "crates/settle/stdout").read_text().splitlines()
    return list(itertools.takewhile(lambda line: line.startswith("weigh"), stored))


def full(program, folder, text):
    """Whether it is told that what is written last, and is all that this run writes, cannot be written."""
    (folder / "a.chart").write_bytes(WORKED)
    with open("/dev/full", "w") as out:
        got = subprocess.run([program, "a.chart", "30"], input=text, stdout=out, stderr=subprocess.PIPE, text=True, timeout=60, cwd=folder)
    return (got.stderr, got.returncode) == ("settle: No space left on device (os error 28)\n", 1)


def main():
    program = str(pathlib.Path(sys.argv[1]).resolve())
    runs = wrong = 0
    with tempfile.TemporaryDirectory() as folder:
        for name, file, arguments, text, out, err, status in cases():
            for path, content in zip(charts(file), file if isinstance(file, tuple) else [file]):
                (pathlib.Path(folder) / path).write_bytes(content)
            got = subprocess.run([program, *arguments], input=text, capture_output=True, text=True, timeout=60, cwd=folder)
            want = ("".join(l + "\n" for l in out), err + "\n" if err else "", status)
            runs += 1
            if (got.stdout, got.stderr, got.returncode) != want:
                wrong += 1
                print(f"tests/run.py: {name}: got {(got.stdout, got.stderr, got.returncode)}, not {want}")
        # the second is malformed in its second line, which is told only where what was answered before can be written
        for text in ["ask 0 3\n", "ask 0 3\nasks 0 3\n"]:
            runs += 1
            if not full(program, pathlib.Path(folder), text):
                wrong += 1
                print(f"tests/run.py: no room to write what comes of {text!r}: this is not told")
    print(f"tests/run.py: {runs} runs, {wrong} wrong")
    return 1 if wrong else 0


if __name__ == "__main__":
    sys.exit(main())
