"""A cube of 54 stickers in space, for bench/rules.py: what a fewest-moves solution comes to.

A sticker is a place and the direction in which it faces, with coordinates -1, 0 and 1; x points to
R, y to U, z to F. Nothing here is shared with the crates. Standard library only.
"""

import functools
import itertools
import re

MOST_IN_SOLUTION = 80

TOKEN = re.compile(r"([FBRLUD]w?|[xyz])(['2]?)")

AXES = [(1, 0, 0), (0, 1, 0), (0, 0, 1)]
DIRECTIONS = AXES + [tuple(-part for part in axis) for axis in AXES]
OUTWARD = dict(zip("RUFLDB", DIRECTIONS))


def dot(one, other):
    return sum(a * b for a, b in zip(one, other))


STICKERS = [(place, normal) for place in itertools.product((-1, 0, 1), repeat=3)
            for normal in DIRECTIONS if dot(place, normal) == 1]


def quarter(axis, clockwise, vector):
    """Where a quarter turn in the direction of R, U or F, or against it, takes a vector."""
    x, y, z = vector
    if axis == 0:
        return (x, z, -y) if clockwise else (x, -z, y)
    if axis == 1:
        return (-z, y, x) if clockwise else (z, y, -x)
    return (y, -x, z) if clockwise else (-y, x, z)


@functools.cache
def turn(token):
    """Where a move takes each sticker."""
    kind, amount = TOKEN.fullmatch(token).groups()
    side = "RUF"["xyz".index(kind)] if kind in "xyz" else kind[0]
    outward = OUTWARD[side]
    axis, direct = "RUFLDB".index(side) % 3, side in "RUF"
    nearest = {True: -1, False: 0 if kind.endswith("w") else 1}[kind in "xyz"]
    times = {"": 1, "2": 2, "'": 3}[amount]

    def taken(sticker):
        if dot(sticker[0], outward) < nearest:
            return sticker
        for _ in range(times):
            sticker = tuple(quarter(axis, direct, vector) for vector in sticker)
        return sticker

    return {sticker: taken(sticker) for sticker in STICKERS}


def is_solved(tokens):
    """Whether these moves take a solved cube to one whose faces show one colour each."""
    colours = {sticker: sticker[1] for sticker in STICKERS}
    for token in tokens:
        moved = turn(token)
        colours = {moved[sticker]: colour for sticker, colour in colours.items()}
    return all(len({colours[sticker] for sticker in STICKERS if sticker[1] == normal}) == 1
               for normal in DIRECTIONS)


def fewest_moves(scramble, solution):
    """The moves of a solution that are no rotations, or 'DNF'."""
    if len(solution) > MOST_IN_SOLUTION or not is_solved(scramble + solution):
        return "DNF"
    return sum(token[0] not in "xyz" for token in solution)
