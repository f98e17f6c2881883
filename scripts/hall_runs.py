#!/usr/bin/env python3
"""Prints lines for the program of tests/simulator: scripts/hall_runs.py FIRST COUNT.

Of each seed the number of desks, the hazards and their weights are drawn, so that a run can be
found again by its seed alone: a quarter of the runs have one kind of hazard, a quarter have all of
them, a quarter have each with a weight of its own, and a quarter have delays, partitions, stops and
pauses alone, by which desks get in each other's way.
"""
import random
import sys

KINDS = 9


def weights(draw):
    """How strong each hazard is, nine digits."""
    kind = draw.randrange(4)
    if kind == 0:
        alone = draw.randrange(KINDS)
        return [draw.randint(3, 9) if place == alone else 0 for place in range(KINDS)]
    if kind == 1:
        return [draw.randint(1, 5) for _ in range(KINDS)]
    if kind == 2:
        return [draw.randint(3, 9), 0, 0, *(draw.randint(3, 9) for _ in range(3)), 0, 0, 0]
    return [draw.choice([0, 0, 1, 2, 3, 5, 9]) for _ in range(KINDS)]


def line(seed):
    """The run of a seed."""
    draw = random.Random(seed)
    desks = draw.choice([3, 3, 5])
    steps = draw.choice([10, 30, 60, 120])
    return f"{seed} {desks} {steps} {''.join(str(digit) for digit in weights(draw))}"


def main():
    first, count = int(sys.argv[1]), int(sys.argv[2])
    for seed in range(first, first + count):
        print(line(seed))


if __name__ == "__main__":
    main()
