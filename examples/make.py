#!/usr/bin/env python3
"""Writes the example networks beside this file, as network files of document 01 and item 1 of document 02, and what one of them folds to by item 4.

    python3 examples/make.py

Each run writes the same bytes. examples/README.md says what each network is and what the lister prints for it.
"""

import os

# The limits: the basins and reaches that a network may have, and the bytes of a file that the lister reads.
BASINS = 256
REACHES = 1024
READ = 8000

# Name: basins, reaches. G gated, F flap, T two-way; g, f, t the same, shut for works. "G 0-1" has A = 0 and B = 1.
NETWORKS = {
    # The marked cases of document 01, and its case 13.
    "case-01": (1, ""),
    "case-02": (2, "G 0-1"),
    "case-03": (2, "G 0-1, G 0-1"),
    "case-04": (2, "T 0-1"),
    "case-05": (2, "F 0-1"),
    "case-06": (2, ""),
    "case-07": (3, "G 0-1, G 1-2, G 2-0"),
    "case-08": (2, "F 1-0, G 0-1"),
    "case-09": (1, "G 0-0"),
    "case-10": (3, "G 0-1, T 1-2"),
    "case-11": (3, "F 0-1, G 1-2"),
    "case-13": (4, "G 0-1, G 0-2, G 0-3, G 1-2, G 1-3, G 2-3"),

    # A pasture between the inlet, basin 0, and the sump, basin 6. The ring main is drawn with the fall of the ground, down
    # both sides; the cross ditches run from the left side to the right, straight and aslant.
    "pasture": (11,
        "G 0-1, G 1-2, G 2-3, G 3-4, G 4-5, G 5-6, "
        "G 0-10, G 10-9, G 9-8, G 8-7, G 7-6, "
        "G 1-10, G 2-9, G 3-8, G 4-7, "
        "G 2-10, G 3-9, G 4-8, G 5-7"),

    # A polder of five basins with a tidal outfall: flaps lead out to the harbour basin, 5, and nothing leads back.
    "tidal-outfall": (6, "G 0-1, G 1-2, T 2-3, G 3-4, G 4-0, F 1-5, F 4-5, G 1-3"),

    # An upper and a lower pasture, each sound in itself, joined by one gated culvert, reach 5.
    "single-culvert": (7, "G 0-1, G 1-2, F 2-3, T 3-0, G 1-3, G 3-4, G 4-5, T 5-6, G 6-4, F 4-6"),

    # The same with a second culvert, reach 10: a flap from the lower pasture back to the upper.
    "second-culvert": (7, "G 0-1, G 1-2, F 2-3, T 3-0, G 1-3, G 3-4, G 4-5, T 5-6, G 6-4, F 4-6, F 4-3"),

    # A ditch from basin 0 over 1 and 2 to 3, whose flap leads back, and a side arm over 4 and 5. The flap binds the ditch's three
    # gates, reach 4 turned. Reach 5, a second way past basin 1, is shut; in service it would free reaches 2 and 4.
    "bound-gates": (6, "G 1-4, F 3-0, G 0-1, G 4-5, G 2-1, g 0-2, G 5-1, G 2-3, G 1-5"),

    # Three basins of upper fields, 0, 2 and 5, and two of lower fields, 1 and 4, each joined by two-way reaches; a sump, 3, with a flap back to the upper
    # fields; 6 is dug, and its reach still shut. Reaches 3 and 10 are flaps inside the fields, reach 4 a gate inside them.
    "polder": (7, "T 4-1, G 0-1, T 5-2, F 2-0, G 2-5, G 4-3, T 0-5, F 3-2, t 3-6, G 1-3, F 4-1, T 2-0"),

    # A ring main over basins 0 to 7, its first reach a flap, and two cross ditches from one side to the other, reaches 8 and 9. Which way
    # these are hung decides how far the water goes.
    "ring-main": (8, "F 0-1, G 1-2, G 2-3, G 3-4, G 4-5, G 5-6, G 6-7, G 7-0, G 1-6, G 2-5"),

    # On both edges of the lister's 1,000 plans. Parts that meet in basin 0 alone multiply: 5 * 5 * 5 * 2 * 2 * 2 plans,
    # and 7 * 11 * 13.
    "plans-1000": (10,
        "G 1-0, G 0-2, F 2-1, G 1-2, F 1-0, "
        "G 3-0, G 0-4, F 4-3, G 3-4, F 3-0, "
        "G 5-0, G 0-6, F 6-5, G 5-6, F 5-0, "
        "G 0-7, G 7-0, G 0-8, G 0-8, G 9-0, G 9-0"),
    "plans-1001": (6,
        "F 0-1, G 0-1, G 0-1, G 0-1, "
        "G 2-3, F 0-2, F 3-0, G 3-0, G 3-0, G 0-2, "
        "G 0-4, F 5-4, G 5-4, G 5-0, G 5-0, F 4-0"),
}


# With one reach shut for works: a network above, and the reach.
SHUT = {
    "pasture-ditch-shut": ("pasture", 13),
    "pasture-main-shut": ("pasture", 0),
    "second-culvert-shut": ("second-culvert", 10),
}


# What a network above folds to.
FOLDED = {
    "polder-folded": "polder",
}


def reaches(text):
    """The reaches written in the notation above."""
    result = []
    for word in text.split(", ") if text else []:
        kind, ends = word.split(" ")
        a, b = ends.split("-")
        result.append((kind, int(a), int(b)))
    return result


def shut(table, i):
    """The same reaches with number i shut for works."""
    kind, a, b = table[i]
    return table[:i] + [(kind.lower(), a, b)] + table[i + 1:]


def fold(basins, table):
    """The basins that two-way reaches in service join become one; what stays of the reaches, by item 4 of document 02."""
    members = [{v} for v in range(basins)]
    for kind, a, b in table:
        if kind == "T" and members[a] is not members[b]:
            members[a] |= members[b]
            for v in members[b]:
                members[v] = members[a]
    lowest = sorted({min(cluster) for cluster in members})
    number = [lowest.index(min(cluster)) for cluster in members]
    result, looped = [], set()
    for kind, a, b in table:
        inside = number[a] == number[b] and len(members[a]) > 1
        if kind == "G" or kind in "FT" and not inside or kind == "T" and number[a] not in looped:
            result.append((kind, number[a], number[b]))
        if kind == "T":
            looped.add(number[a])
    return len(lowest), result


def grid(side):
    """A square grid, all gated: for each basin the reach to the right, then the one below."""
    result = []
    for v in range(side * side):
        if v % side < side - 1:
            result.append(("G", v, v + 1))
        if v // side < side - 1:
            result.append(("G", v, v + side))
    return side * side, result


def dug_ahead():
    """The pasture numbered among basins that are dug and not joined: 0 to 2, 9, and 15 to 17. A gate to one of these, 16, is reach 19, still shut."""
    table = [(kind, *(v + 3 if v < 6 else v + 4 for v in ends)) for kind, *ends in reaches(NETWORKS["pasture"][1])]
    return 18, table + [("g", 14, 16)]


def limits():
    """As many basins and gates as a network may have, ends from a fixed sequence; one gate of each basin's share is one of a ring, so that no reach is lone."""
    x = 1

    def drawn(below):
        nonlocal x
        x = (x * 1103515245 + 12345) % 2**31
        return x // 65536 % below

    result = []
    for v in range(BASINS):
        ring = (v, (v + 1) % BASINS)
        result.append(("G", *ring) if drawn(2) == 0 else ("G", *reversed(ring)))
        for _ in range(REACHES // BASINS - 1):
            result.append(("G", drawn(BASINS), drawn(BASINS)))
    return BASINS, result


def network_file(basins, table):
    """The network file: a head, the reaches, an end."""
    out = bytearray([1]) + basins.to_bytes(2, "little")
    for kind, a, b in table:
        number = {"G": 2, "F": 3, "T": 4}[kind.upper()]
        ends = a.to_bytes(2, "little") + b.to_bytes(2, "little")
        out += bytes([number]) + ends if kind.isupper() else b"\x05" + ends + bytes([number])
    out.append(9)
    return bytes(out)


def examples():
    """Name and file of every example."""
    result = {name: network_file(basins, reaches(text)) for name, (basins, text) in NETWORKS.items()}
    for name, (whole, i) in SHUT.items():
        basins, text = NETWORKS[whole]
        result[name] = network_file(basins, shut(reaches(text), i))
    for name, whole in FOLDED.items():
        basins, text = NETWORKS[whole]
        result[name] = network_file(*fold(basins, reaches(text)))
    result["dug-ahead"] = network_file(*dug_ahead())
    result["grid-16"] = network_file(*grid(16))
    result["limits"] = network_file(*limits())
    return result


if __name__ == "__main__":
    here = os.path.dirname(os.path.abspath(__file__))
    for name, data in examples().items():
        with open(os.path.join(here, name + ".net"), "wb") as out:
            out.write(data)
