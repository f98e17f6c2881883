#!/usr/bin/env python3
"""What `frames` of tests/bytes has to print, worked out by the rules of frames alone.

    bench/frames.py < tests/bytes/cases/frames.in          prints what frames.out there has to be

A second program, written from docs/FORMATS.md and sharing nothing with the crates: it looks at a
whole stream at once where it can. tests/bytes/frames.rt.txt says what the lines ask for; a frame
is printed as Rust's `Debug` does. Standard library only.
"""

import sys
from pathlib import Path

sys.dont_write_bytecode = True
sys.path.append(str(Path(__file__).resolve().parent.parent / "scripts"))
import running

MOST = 300_000
VERSIONS = {1: "One", 2: "Two", 3: "Three", 4: "Four", 5: "Five"}
EVENTS = ("Cube3", "Cube2", "Cube4", "Cube5", "Cube6", "Cube7", "Blind3", "FewestMoves",
          "OneHanded", "Clock",
          "Megaminx", "Pyraminx", "Skewb", "Square1", "Blind4", "Blind5", "MultiBlind")
CODES = ("Unread", "Repeat", "UnknownCompetitor", "NameTaken", "RoundUnknown", "RoundOpen",
         "RoundsRule",
         "FormatNotAllowed", "CutoffNotAllowed", "LimitNotAllowed", "NoScramble", "ScrambleThere",
         "WrongOutcome",
         "Closed", "Already", "Full", "NotEntered", "OutOfOrder", "NoMoreAttempts", "NoSuchAttempt",
         "CutoffLost",
         "Unfinished", "HasAttempts", "NotClosed", "Changed")
# how many of the codes each version has: none after Unfinished, none after NotClosed, or all
CODES_IN = {1: 22, 2: 22, 3: 24, 4: 25, 5: 25}
REFUSALS = ("Busy", "LogFull", "BallotsSpent", "NoMemory", "Down", "NotThere", "NoSuchRound",
            "Foreign", "NotAllowed", "HallDiffers")
STYLES = ("Text", "Table")
ROLES = ("Idle", "Gathering", "Proposing", "Leading")


class Bad(Exception):
    """A field that is out of its range, or that is not all there."""


class Fields:
    """The bytes behind a kind, taken from the left."""

    def __init__(self, data, version):
        self.data, self.at, self.version = data, 0, version

    def number(self, size, low=0, high=None):
        part = self.data[self.at:self.at + size]
        value = int.from_bytes(part, "big")
        if len(part) < size or value < low or (high is not None and value > high):
            raise Bad
        self.at += size
        return value

    def one_of(self, names, first):
        return names[self.number(1, first, first + len(names) - 1) - first]

    def ballot(self):
        ballot_number = self.number(4, 1)
        return f"Ballot {{ number: {ballot_number}, desk: {self.number(1, 1, 5)} }}"

    def position(self):
        return self.number(4, 0, 65_535)

    def id(self):
        return self.number(8, 1, 2 ** 63 - 1)

    def bytes(self, size):
        part = self.data[self.at:self.at + size]
        if len(part) < size:
            raise Bad
        self.at += size
        return list(part)

    def entry(self):
        which = self.id()
        return f"Entry {{ id: {which}, text: {self.bytes(self.number(2, 0, 600))} }}"

    def decided(self):
        """A position and the entries from there: one in version 1, else as many as a byte says."""
        first = self.number(4, 0, 65_535)
        count = self.number(1, 1, 16) if self.version > 1 else 1
        entries = [self.entry() for _ in range(count)]
        if first + count - 1 > 65_535:
            raise Bad
        return f"{first}, entries: Entries {{ items: [{', '.join(entries)}] }}"

    def vote(self):
        if self.number(1, 0, 1) == 0:
            return "None"
        ballot = self.ballot()
        return f"Some(Report {{ ballot: {ballot}, entry: {self.entry()} }})"

    def state(self):
        case = self.number(1, 0, 2)
        if case < 2:
            return ("Unknown", "Pending")[case]
        position = self.position()
        codes = CODES[:CODES_IN[self.version]]
        answer = self.one_of(("Done",) + codes, 0)
        said = answer if answer == "Done" else f"Refused({answer})"
        return f"Done {{ pos: {position}, answer: {said} }}"

    def promised(self):
        """A ballot, or none where all five bytes are zero."""
        if self.data[self.at:self.at + 5] == bytes(5):
            self.at += 5
            return "None"
        return f"Some({self.ballot()})"

    def lengths(self):
        """A length for each desk of a hall of three or five."""
        desks = self.number(1)
        if desks not in (3, 5):
            raise Bad
        lengths = [length_of_log(self) for _ in range(desks)]
        return f"Of{'Three' if desks == 3 else 'Five'}({lengths})"

    def standing(self):
        named = [("length", length_of_log), ("waiting", byte), ("role", role),
                 ("promised", Fields.promised), ("told", Fields.lengths)]
        values = [f"{name}: {taken(self)}" for name, taken in named]
        differs = self.difference() if self.version >= 5 else "None"
        return f"DeskStatus {{ {', '.join(values)}, differs: {differs} }}"

    def difference(self):
        """What a desk heard that does not agree with its log: from version 5 on."""
        case = self.number(1, 0, 2)
        if case == 0:
            return "None"
        name, number = ("OtherEntry", "position") if case == 1 else ("Shorter", "length")
        desk = self.number(1, 1, 5)
        return f"Some({name} {{ desk: {desk}, {number}: {self.position()} }})"

    def log_entries(self):
        """The position, the length of the log, and at most 400 entries that end within it."""
        first, length = length_of_log(self), length_of_log(self)
        count = self.number(2, 0, 400)
        entries = [self.entry() for _ in range(count)]
        if entries and first + count > length:
            raise Bad
        return f"{first}, length: {length}, entries: Entries {{ items: [{', '.join(entries)}] }}"

    def rest(self):
        return f"Bytes {{ items: {self.bytes(len(self.data) - self.at)} }}"


def event(fields):
    return fields.one_of(EVENTS[:16 if fields.version == 1 else 17], 1)


def style(fields):
    return fields.one_of(STYLES, 0)


def refusal(fields):
    return fields.one_of(REFUSALS[:9 if fields.version < 5 else 10], 1)


def role(fields):
    return fields.one_of(ROLES, 0)


def byte(fields):
    return fields.number(1)


def any_position(fields):
    return fields.number(4)


def length_of_log(fields):
    return fields.number(4, 0, 65_536)


BALLOT, POSITION = ("ballot", Fields.ballot), ("pos", Fields.position)
ENTRY, ID = ("entry", Fields.entry), ("id", Fields.id)
KINDS = {
    1: ("Prepare", [BALLOT, POSITION]),
    2: ("Promise", [BALLOT, POSITION, ("vote", Fields.vote)]),
    3: ("Accept", [BALLOT, POSITION, ENTRY]),
    4: ("Accepted", [BALLOT, POSITION]),
    5: ("Nack", [BALLOT, POSITION, ("promised", Fields.ballot)]),
    6: ("Behind", [("len", length_of_log)]),
    7: ("Decided", [("pos", Fields.decided)]),
    16: ("Submit", [ENTRY]),
    17: ("Ask", [ID]),
    18: ("Sheet", [("event", event), ("round", byte), ("position", any_position),
                   ("style", style)]),
    19: ("Tick", []),
    20: ("Stop", []),
    32: ("Taken", [ID]),
    33: ("Told", [ID, ("state", Fields.state)]),
    34: ("SheetText", [("text", Fields.rest)]),
    35: ("Refused", [("refusal", refusal)]),
    36: ("Fine", []),
}
KINDS_FROM_3 = {
    21: ("Status", []),
    22: ("Log", [("position", length_of_log)]),
    37: ("Standing", [("standing", Fields.standing)]),
    38: ("Entries", [("position", Fields.log_entries)]),
}
KINDS_FROM_5 = {
    23: ("Await", [("id", Fields.id), ("seconds", byte)]),
}


def goes(kind, sender, receiver):
    desk, client = range(1, 6), (0,)
    from_, to = (desk, desk) if kind <= 7 else (client, desk) if kind <= 23 else (desk, client)
    return sender in from_ and receiver in to


def frame(data):
    """The kind and the text of the frame behind a length, or the name of its fault."""
    if data[0] not in VERSIONS:
        return "BadVersion"
    kinds = KINDS | KINDS_FROM_3 if data[0] >= 3 else KINDS
    kinds = kinds | KINDS_FROM_5 if data[0] >= 5 else kinds
    if data[7] not in kinds:
        return "BadKind"
    name, wanted = kinds[data[7]]
    fields = Fields(data[8:], data[0])
    try:
        values = [f"{field}: {taken(fields)}" for field, taken in wanted]
    except Bad:
        return "BadBody"
    if fields.at < len(fields.data) or not goes(data[7], data[5], data[6]):
        return "BadBody"
    what = f"{name} {{ {', '.join(values)} }}" if values else name
    hall = int.from_bytes(data[1:5], "big")
    said = f"hall: {hall}, from: {data[5]}, to: {data[6]}, what: {what}"
    return data[7], f"Frame {{ version: {VERSIONS[data[0]]}, {said} }}"


def stream(data):
    """The frames, each with the place behind its last byte, what is left behind them, and the
    fault."""
    frames, at = [], 0
    while True:
        rest = data[at:]
        if len(rest) < 4:
            return frames, len(rest), None
        size = int.from_bytes(rest[:4], "big")
        if not 8 <= size <= MOST:
            return frames, 0, "BadLength"
        if len(rest) < 4 + size:
            return frames, len(rest), None
        found = frame(rest[4:4 + size])
        if isinstance(found, str):
            return frames, 0, found
        at += 4 + size
        frames.append(found)


def bytes_of(text):
    data = b""
    for token in text.split():
        digits, _, times = token.partition("*")
        data += bytes.fromhex(digits) * int(times or "1")
    return data


def frames_lines(text):
    data = bytes_of(text)
    frames, _, _ = stream(data)
    held = [stream(data[:cut])[1] for cut in range(len(data))]
    return [text for _, text in frames] + [f"spelled in {len(data)} bytes", f"held {held}"]


def answers(pieces):
    """What each piece gives: the number of frames, what is held, and the fault; None for the number
    at a fault."""
    rest, broken = b"", None
    for piece in pieces:
        if broken is not None:
            yield None, 0, broken
            continue
        rest += piece
        frames, held, broken = stream(rest)
        rest = rest[len(rest) - held:]
        yield (None if broken and not frames else len(frames)), held, broken


def feed_lines(text):
    for given, held, fault in answers([bytes_of(piece) for piece in text.split("/")]):
        if given is None:
            yield f"{fault}, {held} held"
        else:
            yield f"{given} given, {held} held" + (f", then {fault}" if fault else "")


def stream_lines(text):
    size, _, text = text.partition(" ")
    data, size = bytes_of(text), int(size)
    frames, held, fault = stream(data)
    most = max((held for _, held, _ in answers([data[at:at + size]
                                                for at in range(0, len(data), size)])), default=0)
    kept = f"Some({fault})" if fault else "None"
    kinds = [kind for kind, _ in frames]
    return [f"kinds {kinds}, spelled, {most} held at most, {held} at the end, {kept}"]


def main():
    running.Words(__doc__).parse_args()
    words = {"frames": frames_lines, "feed": feed_lines, "stream": stream_lines}
    for line in sys.stdin.read().splitlines():
        word, _, rest = line.partition(" ")
        print(*(words[word](rest) if word in words else [line]), sep="\n")


if __name__ == "__main__":
    main()
