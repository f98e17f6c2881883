#!/usr/bin/env python3
"""What `stores` of tests/desk_files has to print of its random streams, by a second program.

    bench/streams.py FIRST COUNT

It draws the streams of the seeds FIRST and on by the same numbers (SplitMix64) and tells from the
rules alone how the connection of each ends: how many frames are begun, up to a Stop or the 64th,
and what is behind them. It knows nothing of desks, so it tells nothing of answers.
"""

import sys
from collections import Counter
from pathlib import Path

sys.dont_write_bytecode = True
sys.path.append(str(Path(__file__).resolve().parent.parent / "scripts"))
import running

WORD = (1 << 64) - 1
KINDS = [1, 1, 2, 2, 3, 3, 4, 5, 6, 7, 16, 16, 17, 18, 19, 36]
STOP = 20
TEXTS = [28, 12, 4]


class Numbers:
    """SplitMix64, as Steele, Lea and Flood have it."""

    def __init__(self, seed):
        self.state = seed

    def word(self):
        self.state = (self.state + 0x9E3779B97F4A7C15) & WORD
        mixed = self.state
        mixed = ((mixed ^ (mixed >> 30)) * 0xBF58476D1CE4E5B9) & WORD
        mixed = ((mixed ^ (mixed >> 27)) * 0x94D049BB133111EB) & WORD
        return mixed ^ (mixed >> 31)

    def below(self, bound):
        return self.word() % bound


def entry(numbers):
    numbers.below(5)
    return 10 + TEXTS[numbers.below(3)]


def ballot(numbers):
    numbers.below(3)
    numbers.below(3)
    return 5


def position(numbers):
    numbers.below(3)
    return 4


def vote(numbers):
    if numbers.below(2) == 0:
        return 1
    return 1 + ballot(numbers) + entry(numbers)


def sheet(numbers):
    numbers.below(16)
    numbers.below(3)
    position(numbers)
    numbers.below(2)
    return 7


def decided(numbers, version):
    """One entry, or in version 2 one to three behind their number."""
    size = position(numbers)
    if version == 1:
        return size + entry(numbers)
    return size + 1 + sum(entry(numbers) for _ in range(1 + numbers.below(3)))


def body(numbers, version, kind):
    """How long the body of a frame of this kind is."""
    if kind == 6:
        return position(numbers)
    if kind == 7:
        return decided(numbers, version)
    if kind in (1, 2, 3, 4, 5):
        size = ballot(numbers) + position(numbers)
        more = {2: vote, 3: entry, 5: ballot}.get(kind)
        return size + (more(numbers) if more else 0)
    if kind == 16:
        return entry(numbers)
    if kind == 17:
        numbers.below(5)
        return 8
    if kind == 18:
        return sheet(numbers)
    return 0


def frame(numbers):
    """A frame's length, its kind, and whether it is for another hall or desk."""
    kind = STOP if numbers.below(100) == 0 else KINDS[numbers.below(16)]
    version = 1 + numbers.below(2)
    size = 12 + body(numbers, version, kind)
    other_hall = numbers.below(8) == 0
    if not 16 <= kind <= STOP:
        numbers.below(3)
    other_desk = numbers.below(8) == 0
    return size, kind, other_hall or (other_desk and kind != 36)


def random_bytes(numbers, count):
    return [numbers.below(255) for _ in range(count)]


def end_of_bytes(numbers):
    some = random_bytes(numbers, numbers.below(60))
    if numbers.below(2) == 0:
        some[:3] = [0] * min(3, len(some))
    if len(some) < 4:
        return "End"
    length = int.from_bytes(bytes(some[:4]), "big")
    if length < 8 or length > 300_000:
        return "BadLength"
    return "End" if len(some) < length + 4 else "BadVersion"


def end_of_damage(numbers):
    """How a connection ends at what stands behind the whole frames."""
    which = numbers.below(9)
    if which == 1:
        numbers.below(frame(numbers)[0])
        return "End"
    if which in (2, 3):
        numbers.below(8 if which == 2 else 1 << 32)
        random_bytes(numbers, numbers.below(40))
        return "BadLength"
    if which == 4:
        numbers.below(200)
        frame(numbers)
        return "BadVersion"
    if which == 5:
        numbers.below(8)
        frame(numbers)
        return "BadKind"
    if which == 6:
        frame(numbers)
        numbers.below(255)
        return "BadBody"
    if which == 7:
        if numbers.below(3) == 0:
            random_bytes(numbers, 601)
        return "BadBody"
    return end_of_bytes(numbers) if which == 8 else "End"


def served(seed):
    """How many frames are begun, and the end."""
    numbers = Numbers(seed)
    most = 71 if numbers.below(8) == 0 else 13
    frames = [frame(numbers) for _ in range(numbers.below(most))]
    end = end_of_damage(numbers)
    for begun, (_, kind, foreign) in enumerate(frames[:64], 1):
        if kind == STOP and not foreign:
            return begun, "Stopped"
    return (64, "Frames") if len(frames) >= 64 else (len(frames), end)


def main():
    words = running.Words(__doc__)
    words.add_argument("first", type=int, metavar="FIRST")
    words.add_argument("count", type=running.count, metavar="COUNT")
    given = words.parse_args()
    first, count = given.first, given.count
    seen = [served(seed) for seed in range(first, first + count)]
    ends = Counter(end for _, end in seen)
    print(f"{count} streams, each as its whole frames alone")
    print(f"{sum(begun for begun, _ in seen)} frames")
    print(f"{ends['End']} End, {ends['Stopped']} Stopped, {ends['Frames']} Frames")
    faults = ("BadLength", "BadVersion", "BadKind", "BadBody")
    print(", ".join(f"{ends[fault]} {fault}" for fault in faults))


if __name__ == "__main__":
    main()
