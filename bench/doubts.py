#!/usr/bin/env python3
"""How many right cards of a made day are asked about, by a competition's file and without one.

    bench/doubts.py [--people 300] [--days 20] [--seed 1] [--steady]

No real results are used: careers are drawn. Somebody begins with times that are a few times those
which he or she comes to in the end, and nears these with months of practice; a competition comes
every few months, and a time there is the level of that month times a random factor, whose size
depends on the event. So the personal bests of the file are the best of all earlier competitions,
some of them a year old, and whoever improved much since the last one is among those who compete.
With --steady everybody is as good as at his or her last competition: times are drawn around those
of which the bests are the best. One in five competes for the first time and has no bests.

The cards are of one round of each timed event, and are all right. What is asked is as its
definition says (docs/FORMATS.md): by the file a time below 0.8 of the own best single, and one
below half of the best single of those in the round; by the list a time far from the others of the
card, or below half of the best of the round so far. A last column has what 0.7 for 0.8 would give.
"""

import argparse
import math
import random

# of the timed events: the best level in hundredths, and how much the logarithm of a time varies
EVENTS = {"333": (700, .12), "222": (180, .22), "444": (3000, .09), "555": (5500, .08),
          "666": (10500, .07), "777": (15500, .06), "333oh": (1200, .14), "clock": (550, .13),
          "minx": (4500, .09), "pyram": (280, .24), "skewb": (300, .25), "sq1": (1100, .2),
          "333bf": (3500, .25), "444bf": (16000, .2), "555bf": (36000, .18)}
BLIND = ("333bf", "444bf", "555bf")
FIRST_TIME = .2  # of those who compete
NAMES = ("own best", "field", "file", "list", "0.7")
BETWEEN = 3.5  # months between two competitions of somebody, in the middle


class Career:
    """Somebody in one event."""

    def __init__(self, chance, event, steady):
        good, self.spread = EVENTS[event]
        self.chance, self.blind = chance, event in BLIND
        self.end = good * (1 + chance.lognormvariate(.1, .8))
        self.more, self.months = chance.uniform(.5, 3), chance.lognormvariate(math.log(12), .5)
        self.now = chance.uniform(1, 12)
        self.best, last = None, self.now
        if chance.random() >= FIRST_TIME:
            for _ in range(1 + min(int(chance.expovariate(1 / 9)), 80)):
                for _ in range(chance.choice((5, 5, 10))):
                    self.best = min(filter(None, (self.best, self.solve())), default=None)
                last = self.now
                self.now += max(.25, chance.expovariate(1 / BETWEEN))
        if steady:
            self.now = last

    def solve(self):
        """A time of this month in hundredths, or none for a DNF."""
        chance = self.chance
        if chance.random() < (.45 if self.blind else .03):
            return None
        level = self.end * (1 + self.more * math.exp(-self.now / self.months))
        # now and then something goes wrong
        slip = chance.uniform(1.2, 1.9) if chance.random() < .05 else 1
        return max(1, round(level * slip * chance.lognormvariate(0, self.spread)))


def is_unlike(times, at):
    """A time is more than twice each of the others, or less than half of each."""
    others = [time for place, time in enumerate(times) if place != at and time is not None]
    own = times[at]
    return bool(others) and own is not None and (all(own > 2 * one for one in others)
                                                 or all(2 * own < one for one in others))


def round_counts(chance, event, people, steady):
    """Of one round: how many cards, and how many are asked about by each of four rules."""
    there = [Career(chance, event, steady) for _ in range(people)]
    field = min((one.best for one in there if one.best), default=None)
    counts, so_far = dict.fromkeys(("cards", *NAMES), 0), None
    for one in there:
        times = [one.solve() for _ in range(3 if event in BLIND + ("666", "777") else 5)]
        known = [time for time in times if time is not None]
        by_best = one.best and any(10 * time < 8 * one.best for time in known)
        by_field = field and any(2 * time < field for time in known)
        by_list = (any(is_unlike(times, at) for at in range(len(times)))
                   or so_far and any(2 * time < so_far for time in known))
        so_far = min(filter(None, (so_far, *known)), default=None)
        counts["cards"] += 1
        by_less = one.best and any(10 * time < 7 * one.best for time in known)
        for name, asked in zip(NAMES, (by_best, by_field, by_best or by_field, by_list, by_less)):
            counts[name] += bool(asked)
    return counts


def main():
    given = argparse.ArgumentParser(description=__doc__,
                                    formatter_class=argparse.RawDescriptionHelpFormatter)
    given.add_argument("--people", type=int, default=300)
    given.add_argument("--days", type=int, default=20)
    given.add_argument("--seed", type=int, default=1)
    given.add_argument("--steady", action="store_true")
    found = given.parse_args()
    chance, total = random.Random(found.seed), {}
    print("event     cards" + "".join(f"{name:>12}" for name in NAMES))
    for event in EVENTS:
        of_event = {}
        for _ in range(found.days):
            for name, count in round_counts(chance, event, found.people // 3,
                                            found.steady).items():
                of_event[name] = of_event.get(name, 0) + count
                total[name] = total.get(name, 0) + count
        print_line(event, of_event)
    print_line("all", total)


def print_line(name, counts):
    shares = "".join(f"{100 * counts[it] / counts['cards']:10.2f} %" for it in NAMES)
    print(f"{name:6} {counts['cards']:8}{shares}")


if __name__ == "__main__":
    main()
