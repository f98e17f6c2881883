#!/usr/bin/env python3
"""Shows on random halls that no desk is stuck, over the rules in hall_rules.py.

    bench/unstuck.py [--worlds N] [--seed S] [--histories H]

Makes N random worlds of 3 and 5 desks. From each, for every desk with a queue and a random majority
that it is of, it has the first entry decided, and then all of the queue, by Ticks of that desk and
messages sent from then on among that majority. It stops with an error where an entry is not
decided, a desk refuses, or more events are taken than the law of `crates/progress` allows. Logs and
rounds end early in some worlds; there the law's premise is looked at first, and what happens
without it is counted.

With `--histories H` it prints the first H cases as histories for `desk hall` in place of the
counts: headings, each a line `# DESKS TITLE`, with a script behind each. Standard library only.
"""

import copy
import random
import sys
from pathlib import Path

sys.dont_write_bytecode = True
sys.path.append(str(Path(__file__).resolve().parent.parent / "scripts"))
import hall_rules
import running
from hall_rules import Desk, Refused, happen


class World:
    """A hall, all that its desks have sent, and the script that has led to it."""

    def __init__(self, count):
        self.desks = [Desk(desk, count) for desk in range(1, count + 1)]
        self.sent, self.script = [], []

    def do(self, kind, at, entry=None):
        """One event; gives its messages. A refusal changes nothing and is raised."""
        if kind == "submit":
            self.script.append("submit %d %d %s" % (at, entry[0], entry[1].decode()))
        else:
            self.script.append("%s %d" % (kind, at))
        messages = happen(self.desks, self.sent, kind, at, entry)
        self.sent += messages
        return messages

    def try_to(self, kind, at, entry=None):
        try:
            self.do(kind, at, entry)
        except Refused:
            pass

    def copy(self):
        return copy.deepcopy(self)


def leave_behind(rng, world, count, ids):
    """More than half of the desks decide entries, and nothing comes to the others."""
    part = rng.sample(range(1, count + 1), count // 2 + 1)
    number = len(world.sent)
    for _ in range(rng.randrange(1, 24)):
        ids += 1
        world.try_to("submit", part[0], (ids, b"t"))
        world.try_to("tick", part[0])
        while number < len(world.sent):
            sender, to = world.sent[number][:2]
            number += 1
            if sender in part and to in part:
                world.do("deliver", number)
    return ids


def random_world(rng, count):
    """Any events: also late, repeated and lost messages, bursts in a part of the hall, restarts."""
    world = World(count)
    ids = 0
    for _ in range(rng.randrange(4, 60)):
        what = rng.random()
        at = rng.randrange(1, count + 1)
        if what < 0.2:
            ids += 1
            entry_id = ids if rng.random() < 0.9 else 1
            world.try_to("submit", at, (entry_id, b"t%d" % rng.randrange(3)))
        elif what < 0.4:
            world.try_to(rng.choice(["start", "tick", "tick"]), at)
        elif what < 0.45:
            world.do("restart", at)
        elif what < 0.47:
            ids = leave_behind(rng, world, count, ids)
        elif what < 0.75 and world.sent:
            world.do("deliver", rng.randrange(1, len(world.sent) + 1))
        elif world.sent:
            part = rng.sample(range(1, count + 1), rng.randrange(1, count + 1))
            lost = rng.choice([0.0, 0.1, 0.4])
            number = rng.randrange(max(0, len(world.sent) - 12), len(world.sent))
            for _ in range(rng.randrange(5, 60)):
                if number >= len(world.sent):
                    break
                sender, to = world.sent[number][:2]
                number += 1
                if sender in part and to in part and rng.random() >= lost:
                    world.do("deliver", number)
    return world


class Stuck(Exception):
    """The schedule does not go on: a Tick is refused, or a message is not there."""


class Help:
    """The schedule: what desk d and the desks of a set do until d's first entry is decided."""

    def __init__(self, world, desk, desks):
        self.world, self.d, self.desks = world, world.desks[desk - 1], desks
        self.start, self.events = len(world.sent), 0

    def desk(self, number):
        return self.world.desks[number - 1]

    def tick(self):
        self.events += 1
        try:
            self.world.do("tick", self.d.number)
        except Refused as fault:
            raise Stuck(str(fault)) from fault

    def comes(self, sender, to, kind, pos=None):
        """The last such message comes; it was sent since the schedule began."""
        assert sender in self.desks and to in self.desks
        for number in range(len(self.world.sent), self.start, -1):
            message = self.world.sent[number - 1]
            if message[:3] == (sender, to, kind) and pos in (None, message[3]):
                self.events += 1
                return self.world.do("deliver", number)
        raise Stuck("no %s" % kind)

    def length(self, number):
        return len(self.desk(number).log)

    def decided(self):
        return self.entry in self.d.log[self.past:]

    def level(self, number, kind):
        """A desk that lacks entries is asked, and told one after the other."""
        if self.length(number) < self.length(self.d.number):
            self.comes(self.d.number, number, kind)
        while self.length(number) < self.length(self.d.number):
            self.comes(number, self.d.number, "Behind", self.length(number))
            self.comes(self.d.number, number, "Decided", self.length(number))

    def pull(self, number, kind):
        """Desk d is asked to catch up, and takes all that the other has more."""
        self.comes(self.d.number, number, kind)
        self.comes(number, self.d.number, "Decided", self.length(self.d.number))

    def has_role(self, name):
        return self.d.role is not None and self.d.role[0] == name

    def hear_votes(self):
        for number in self.desks:
            if not self.has_role("Proposing"):
                return
            if number in self.d.role[2]:
                continue
            if self.length(number) > self.length(self.d.number):
                self.pull(number, "Accept")
                return
            self.level(number, "Accept")
            (answer,) = self.comes(self.d.number, number, "Accept")
            self.comes(number, self.d.number, answer[2])

    def hear_promises(self):
        for number in self.desks:
            if not self.has_role("Gathering"):
                return
            self.level(number, "Prepare")
            self.comes(self.d.number, number, "Prepare")
            self.comes(number, self.d.number, "Promise")

    def known(self):
        return max(self.d.tried, self.d.promised[0], self.d.seen)

    def bid(self):
        """Desk d neither proposes nor leads on."""
        own = self.d.number
        longest = max(self.desks, key=self.length)
        if self.length(own) < self.length(longest):
            self.tick()
            self.pull(longest, "Prepare")
            while self.length(own) < self.length(longest) and not self.decided():
                self.comes(own, longest, "Behind", self.length(own))
                self.comes(longest, own, "Decided", self.length(own))
            if self.decided():
                return
        highest = max(self.desks, key=lambda number: self.desk(number).promised[0])
        if self.known() < self.desk(highest).promised[0]:
            self.tick()
            if self.known() < self.desk(highest).promised[0]:
                self.level(highest, "Prepare")
                self.comes(own, highest, "Prepare")
                self.comes(highest, own, "Nack")
        self.tick()
        self.hear_promises()
        self.hear_votes()
        if not self.decided():
            self.tick()
            self.hear_votes()

    def decide_first(self):
        self.entry, self.past = self.d.queue[0], len(self.d.log)
        if self.has_role("Proposing"):
            self.tick()
            self.hear_votes()
        if not self.decided() and self.has_role("Leading") and not self.d.is_outbid():
            self.tick()
            self.hear_votes()
        if not self.decided():
            self.bid()
        if not self.decided():
            raise Stuck("not decided")
        self.past = len(self.d.log)


def lacking(world, desks):
    lengths = [len(world.desks[number - 1].log) for number in desks]
    return sum(max(lengths) - length for length in lengths)


def has_room(world, desk, desks, count):
    """The law's premise, for so many entries."""
    d = world.desks[desk - 1]
    rounds = [d.tried, d.seen] + [world.desks[number - 1].promised[0] for number in desks]
    logs = [len(world.desks[number - 1].log) for number in desks]
    return (max(rounds) + 2 * count <= hall_rules.MOST_ROUND
            and max(logs) + 2 * count <= hall_rules.MOST_ENTRIES)


def run_case(world, desk, desks, count, seen):
    """Has the first `count` entries decided, and compares with what the law allows."""
    most = 2 * lacking(world, desks) + count * (19 * len(desks) + 10)
    roomy = has_room(world, desk, desks, count)
    queue, past = list(world.desks[desk - 1].queue), len(world.desks[desk - 1].log)
    helps = Help(world, desk, desks)
    try:
        for _ in range(count):
            helps.decide_first()
    except Stuck as fault:
        assert not roomy, fault
        seen["no room: " + str(fault)] = seen.get("no room: " + str(fault), 0) + 1
        return
    assert helps.events <= most, (helps.events, most)
    assert helps.d.queue == queue[count:]
    at = past
    for entry in queue[:count]:
        at = helps.d.log.index(entry, at) + 1
    key = "decided" if roomy else "decided without that room"
    seen[key] = seen.get(key, 0) + 1
    seen["events"] = seen.get("events", 0) + helps.events
    seen["least left"] = min(seen.get("least left", most), most - helps.events)


def cases(rng, worlds):
    """Each random world with a desk that has a queue, and a random majority that it is of."""
    for _ in range(worlds):
        count = rng.choice([3, 5])
        short = rng.random() < 0.2
        hall_rules.MOST_ROUND = rng.randrange(3, 16) if short else 2**32 - 1
        hall_rules.MOST_ENTRIES = rng.randrange(3, 9) if short else 65_536
        world = random_world(rng, count)
        for desk in range(1, count + 1):
            if not world.desks[desk - 1].queue:
                world.try_to("submit", desk, (900 + desk, b"last"))
            if not world.desks[desk - 1].queue:
                continue
            others = [number for number in range(1, count + 1) if number != desk]
            size = rng.randrange(count // 2 + 1, count + 1)
            desks = [desk] + rng.sample(others, size - 1)
            rng.shuffle(desks)
            yield world, desk, desks, short


def main():
    parser = running.Words(__doc__)
    parser.add_argument("--worlds", type=int, default=1000)
    parser.add_argument("--seed", type=int, default=1)
    parser.add_argument("--histories", type=int, default=0)
    words = parser.parse_args()
    rng = random.Random(words.seed)
    seen, told = {}, 0
    for world, desk, desks, short in cases(rng, words.worlds):
        if words.histories:
            if short:
                continue
            world = world.copy()
            run_case(world, desk, desks, len(world.desks[desk - 1].queue), seen)
            print("# %d desk %d with %s" % (len(world.desks), desk, sorted(desks)))
            print("\n".join(world.script))
            told += 1
            if told == words.histories:
                return
            continue
        role = world.desks[desk - 1].role
        name = "Idle" if role is None else role[0]
        seen[name] = seen.get(name, 0) + 1
        for count in {1, len(world.desks[desk - 1].queue)}:
            run_case(world.copy(), desk, desks, count, seen)
    for what in sorted(seen):
        print("%s: %d" % (what, seen[what]))


if __name__ == "__main__":
    main()
