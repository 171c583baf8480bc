#!/usr/bin/env python3
"""Sheets at a limit, with their answer texts, from the documents alone: boundaries.py text BYTES | units UNITS | proofs BYTES, then FILE.

Writes FILE.sheet and FILE.text: the text of the proof with a budget that suffices. `text`: a text of so many bytes, of few units.
`units`: a search of so many units, of a short text. `proofs`: a text of four proofs (W-202) of so many bytes together, of few units."""
import itertools
import sys


class Sheet:
    """Lines of a sheet; a goal comes with its units and its lines of the text."""

    def __init__(self):
        self.lines, self.nodes = [], 0

    def line(self, *fields):
        self.lines.append("\t".join(map(str, fields)) + "\n")

    def node(self, *fields):
        self.line(*fields)
        self.nodes += 1
        return self.nodes - 1

    def with_true(self, goal):
        """true and the goal: two units more."""
        node, units, text = goal
        return self.node("&", self.true, node), units + 2, ["D\tand\n", "D\ttrue\n"] + text

    def with_left(self, goal):
        """The goal or itself: one unit more."""
        node, units, text = goal
        return self.node("|", node, node), units + 1, ["D\tleft\n"] + text

    def with_some(self, goal, number):
        """The goal for some v7, which is not in it and stays the leftover variable of this number: one unit more."""
        node, units, text = goal
        return self.node("E", 7, node), units + 1, [f"D\tsome\t_{number}@0\n"] + text

    def write(self, node, proofs, file):
        """The sheet with a goal, and the text of its proofs: pairs of units and lines."""
        self.line("Q", node)
        with open(file + ".sheet", "w") as f:
            f.write("".join(self.lines))
        with open(file + ".text", "w") as f:
            for units, text in proofs:
                f.write(f"R\tproved\t{units}\n" + "".join(text))


def units(wanted, file):
    sheet = Sheet()
    sheet.true = sheet.node("Y")
    goal = (sheet.true, 1, ["D\ttrue\n"])
    if wanted % 2 == 0:
        goal = sheet.with_left(goal)
    while goal[1] < wanted:
        goal = sheet.with_true(goal)
    sheet.write(goal[0], [goal[1:]], file)


def doubling(sheet, count):
    """some v1 ... some vn (v1 = f(v2, v2, v2, v2) and ... and vn = c), with the clause every v0 (v0 = v0)."""
    name, constant = "f" * 16, "c" * 16
    sheet.line("P", "eq", 2)
    sheet.line("F", name, 4)
    sheet.line("F", constant, 0)
    variables = [sheet.node("V", v) for v in range(count + 1)]
    sheet.line("C", sheet.node("U", 0, sheet.node("A", 0, variables[0], variables[0])))
    sheet.true = sheet.node("Y")
    terms = [constant]
    for _ in range(count - 1):
        terms.insert(0, f"{name}({','.join(4 * [terms[0]])})")
    # Taking the atom, trying the clause, two pairs, each with a range check: of v0 alone, and of the term as it stands.
    goal = (sheet.node("A", 0, variables[count], sheet.node("A", 2)), 6, [f"D\tclause\t1\t{terms[-1]}\n"])
    for v in range(count - 1, 0, -1):
        term = sheet.node("A", 1, *4 * [variables[v + 1]])
        lines = ["D\tand\n", f"D\tclause\t1\t{terms[v - 1]}\n"]
        goal = (sheet.node("&", sheet.node("A", 0, variables[v], term), goal[0]), goal[1] + 11, lines + goal[2])
    for v in range(count, 0, -1):
        goal = (sheet.node("E", v, goal[0]), goal[1] + 1, [f"D\tsome\t{terms[v - 1]}\n"] + goal[2])
    return goal


def text(wanted, file):
    sheet = Sheet()
    goal = doubling(sheet, 5)
    # A line with true has 13 bytes, one with left 7; the units in the first line have three digits.
    left = wanted - len("R\tproved\t100\n") - sum(map(len, goal[2]))
    lefts = next(n for n in range(13) if (left - 7 * n) % 13 == 0)
    for _ in range(lefts):
        goal = sheet.with_left(goal)
    for _ in range((left - 7 * lefts) // 13):
        goal = sheet.with_true(goal)
    sheet.write(goal[0], [goal[1:]], file)


def size(proofs):
    return sum(len(f"R\tproved\t{units}\n") + sum(map(len, text)) for units, text in proofs)


def proofs(wanted, file):
    """Of the ways to fill up four proofs to so many bytes, the one of fewest units."""
    ways = (four_proofs(*counts) for counts in itertools.product(range(5), range(12), range(5), range(12)))
    fitting = [way for way in ways if size(way[2]) == wanted]
    sheet, node, found = min(fitting, key=lambda way: way[2][-1][0])
    sheet.write(node, found, file)


def four_proofs(somes, trues, somes_of_h, trues_of_h):
    """(g or g) or (g or h), where h is g with so many idle goals before it, and so many before all: the sheet, its goal and the four proofs."""
    sheet = Sheet()
    g = h = doubling(sheet, 4)
    for number in reversed(range(somes_of_h)):
        h = sheet.with_some(h, somes + number)
    for _ in range(trues_of_h):
        h = sheet.with_true(h)
    goal = sheet.node("|", sheet.node("|", g[0], g[0]), sheet.node("|", g[0], h[0])), 1, []
    for _ in range(trues):
        goal = sheet.with_true(goal)
    for number in reversed(range(somes)):
        goal = sheet.with_some(goal, number)
    node, units, before = goal
    found = []
    # Taking up the right side costs nothing; the inner or is taken once on each side of the outer one.
    for sides, taken, part in ("left left", 1, g), ("left right", 0, g), ("right left", 1, g), ("right right", 0, h):
        units += taken + part[1]
        found.append((units, before + [f"D\t{side}\n" for side in sides.split()] + part[2]))
    return sheet, node, found


{"text": text, "units": units, "proofs": proofs}[sys.argv[1]](int(sys.argv[2]), sys.argv[3])
