#!/usr/bin/env python3
"""What `desk hall DESKS` has to print, worked out by the rules alone.

    bench/hall_rules.py DESKS < SCRIPT
    bench/hall_rules.py --histories < HISTORIES

A second program, written from the protocol's table of events and 'Paxos Made Simple' and sharing
nothing with the crates. With `--histories` the input is like checks/stored/halls.txt: headings,
each a line `# DESKS TITLE`, with a script behind each. Standard library only.
"""

import re
import sys
from pathlib import Path

sys.dont_write_bytecode = True
sys.path.append(str(Path(__file__).resolve().parent.parent / "scripts"))
import running

MOST_ENTRIES = 65_536
MOST_QUEUED = 64
MOST_TOLD = 16
MOST_ROUND = 2**32 - 1

NUMBER = re.compile(rb"[1-9][0-9]*")


class Refused(Exception):
    """A desk does not take an event."""


class Desk:
    """One desk: what it stores, and what it loses at a restart."""

    def __init__(self, number, count):
        self.number, self.count = number, count
        self.promised, self.vote, self.tried, self.log = (0, 0), None, 0, []
        self.restart()

    def restart(self):
        # the role is None, or a tuple: its name, its ballot, and what it has heard
        self.role, self.queue, self.seen = None, [], 0

    # --- sending: each is a list of (receiver, kind, fields) --------------------------------------

    def to_all(self, kind, *fields):
        return [(to, kind, *fields) for to in range(1, self.count + 1)]

    def to_others(self, kind, *fields):
        return [message for message in self.to_all(kind, *fields) if message[0] != self.number]

    # --- what happens -----------------------------------------------------------------------------

    def submit(self, entry):
        if len(self.queue) == MOST_QUEUED:
            raise Refused("Busy")
        if len(self.log) == MOST_ENTRIES:
            raise Refused("LogFull")
        self.queue.append(entry)
        return []

    def new_ballot(self):
        greatest = max(self.tried, self.promised[0], self.seen)
        if greatest == MOST_ROUND:
            raise Refused("BallotsSpent")
        self.tried = greatest + 1
        self.role = ("Gathering", (self.tried, self.number), {})
        return self.to_all("Prepare", self.role[1], len(self.log))

    def ask_for_votes(self, ballot, entry):
        self.role = ("Proposing", ballot, set(), entry)
        return self.to_all("Accept", ballot, len(self.log), entry)

    def is_outbid(self):
        return self.promised > self.role[1]

    def start(self):
        if self.role is not None and self.role[0] != "Leading":
            return []
        if len(self.log) == MOST_ENTRIES:
            raise Refused("LogFull")
        if self.role is None or self.is_outbid():
            return self.new_ballot()
        if not self.queue:
            return []
        return self.ask_for_votes(self.role[1], self.queue[0])

    def tick(self):
        if self.role is not None and self.role[0] == "Gathering":
            return self.new_ballot()
        if self.role is not None and self.role[0] == "Proposing":
            _, ballot, heard, entry = self.role
            again = self.to_all("Accept", ballot, len(self.log), entry)
            return [message for message in again if message[0] not in heard]
        if not self.queue or len(self.log) == MOST_ENTRIES:
            return self.to_others("Behind", len(self.log))
        if self.role is None or self.is_outbid():
            return self.new_ballot()
        return self.ask_for_votes(self.role[1], self.queue[0])

    def append(self, entry, role):
        self.log.append(entry)
        self.role = role
        if self.queue and self.queue[0] == entry:
            self.queue.pop(0)

    def elsewhere(self, sender, pos):
        """What is answered about another position than the next one."""
        if pos < len(self.log):
            return [(sender, "Decided", pos, self.log[pos])]
        return [(sender, "Behind", len(self.log))]

    def on_prepare(self, sender, ballot, pos):
        if pos != len(self.log):
            return self.elsewhere(sender, pos)
        if ballot <= self.promised:
            return [(sender, "Nack", ballot, pos, self.promised)]
        self.promised = ballot
        vote = self.vote if self.vote is not None and self.vote[0] == pos else None
        return [(sender, "Promise", ballot, pos, vote)]

    def on_accept(self, sender, ballot, pos, entry):
        if pos != len(self.log):
            return self.elsewhere(sender, pos)
        if ballot < self.promised:
            return [(sender, "Nack", ballot, pos, self.promised)]
        self.promised, self.vote = ballot, (pos, ballot, entry)
        return [(sender, "Accepted", ballot, pos)]

    def hears(self, role, ballot, pos, sender):
        return (self.role is not None and self.role[:2] == (role, ballot)
                and pos == len(self.log) and sender not in self.role[2])

    def has_majority(self):
        return 2 * len(self.role[2]) > self.count

    def on_promise(self, sender, ballot, pos, vote):
        if not self.hears("Gathering", ballot, pos, sender):
            return []
        self.role[2][sender] = vote
        if not self.has_majority():
            return []
        votes = [vote for vote in self.role[2].values() if vote is not None]
        if votes:
            return self.ask_for_votes(ballot, max(votes, key=lambda vote: vote[1])[2])
        if self.queue:
            return self.ask_for_votes(ballot, self.queue[0])
        self.role = None
        return []

    def on_accepted(self, sender, ballot, pos):
        if not self.hears("Proposing", ballot, pos, sender):
            return []
        self.role[2].add(sender)
        if not self.has_majority():
            return []
        entry = self.role[3]
        self.append(entry, ("Leading", ballot))
        return self.to_others("Decided", pos, entry)

    def on_nack(self, _sender, ballot, _pos, promised):
        if self.role is not None and self.role[1] == ballot and promised > ballot:
            self.role, self.seen = None, max(self.seen, promised[0])
        return []

    def on_decided(self, sender, pos, entry):
        if pos < len(self.log):
            return []
        if pos == len(self.log):
            self.append(entry, None)
        return [(sender, "Behind", len(self.log))]

    def on_behind(self, sender, length):
        if length > len(self.log):
            return [(sender, "Behind", len(self.log))]
        last = min(length + MOST_TOLD - 1, len(self.log) - 1)
        return [(sender, "Decided", pos, self.log[pos]) for pos in range(length, last + 1)]


# --- texts ---------------------------------------------------------------------------------------


def ballot_text(ballot):
    return "%d.%d" % ballot


def fields_text(kind, fields):
    """The fields of a message: entries by their id, a vote as its ballot and id."""
    if kind == "Behind":
        return "%d" % fields
    if kind == "Decided":
        return "%d %d" % (fields[0], fields[1][0])
    text = "%s %d" % (ballot_text(fields[0]), fields[1])
    if kind == "Promise":
        vote = fields[2]
        return text + (" -" if vote is None else " %s %d" % (ballot_text(vote[1]), vote[2][0]))
    if kind == "Accept":
        return text + " %d" % fields[2][0]
    if kind == "Nack":
        return text + " " + ballot_text(fields[2])
    return text


def number(text, most):
    if NUMBER.fullmatch(text) is None or int(text) > most:
        raise ValueError("no such number")
    return int(text)


def event_of(line, count):
    """The event of a line; ValueError where it spells none."""
    word, fields = line.split(b" ", 1)
    if word == b"submit":
        desk, entry_id, text = fields.split(b" ", 2)
        if len(text) > 600:
            raise ValueError("text too long")
        return "submit", number(desk, count), (number(entry_id, 2**63 - 1), text)
    if word == b"deliver":
        return "deliver", number(fields, 999_999_999), None
    if word in (b"start", b"tick", b"restart"):
        return word.decode(), number(fields, count), None
    raise ValueError("no such word")


def happen(desks, sent, kind, at, entry):
    """Does one event, and gives its messages, each as (sender, receiver, kind, fields)."""
    if kind == "deliver":
        if at > len(sent):
            return []
        sender, to, body, *fields = sent[at - 1]
        messages = getattr(desks[to - 1], "on_" + body.lower())(sender, *fields)
        return [(to, *message) for message in messages]
    desk = desks[at - 1]
    if kind == "restart":
        desk.restart()
        return []
    messages = desk.submit(entry) if kind == "submit" else getattr(desk, kind)()
    return [(at, *message) for message in messages]


def run(count, lines, write):
    """Writes what a hall prints for the lines of its script."""
    if count not in (3, 5):
        write(b"bad number of desks\n")
        return
    desks = [Desk(desk, count) for desk in range(1, count + 1)]
    sent = []
    for at, line in enumerate(lines, 1):
        try:
            event = event_of(line, count)
        except ValueError:
            write(b"bad line %d\n" % at)
            return
        try:
            messages = happen(desks, sent, *event)
        except Refused as fault:
            write(b"refused %d %s\n" % (at, str(fault).encode()))
            continue
        for message in messages:
            sent.append(message)
            sender, to, kind, *fields = message
            text = fields_text(kind, tuple(fields))
            write(("m%d %d %d %s %s\n" % (len(sent), sender, to, kind, text)).encode())
    for desk in desks:
        for pos, (entry_id, text) in enumerate(desk.log):
            write(b"desk %d %d %d %s\n" % (desk.number, pos, entry_id, text))


def main():
    words = running.Words(__doc__)
    either = words.add_mutually_exclusive_group(required=True)
    either.add_argument("desks", nargs="?", type=int, metavar="DESKS")
    either.add_argument("--histories", action="store_true")
    given = words.parse_args()
    lines = sys.stdin.buffer.read().split(b"\n")
    if lines and not lines[-1]:
        lines.pop()
    write = sys.stdout.buffer.write
    if not given.histories:
        run(given.desks, lines, write)
        return
    heads = [at for at, line in enumerate(lines) if re.match(rb"# [0-9] ", line)]
    for head, end in zip(heads, heads[1:] + [len(lines)]):
        write(lines[head] + b"\n")
        run(int(lines[head][2:3]), lines[head + 1:end], write)


if __name__ == "__main__":
    main()
