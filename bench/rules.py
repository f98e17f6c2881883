#!/usr/bin/env python3
"""What `desk replay EVENT ROUND [--csv]` has to print, worked out by the rules alone.

    bench/rules.py EVENT ROUND [--csv] [--editions K] < COMMANDS

A second program, written from docs/FORMATS.md and the WCA Regulations and sharing nothing with the
crates: slow, plain, with whole lists in place of tables; bench/stickers.py has the cube.
`bench/compare` and `bench/replay` compare the two byte for byte. With --editions 4 it is what a
program has to print that knows edition 4 as well. Standard library only.
"""

import copy
import re
import sys
import unicodedata
from pathlib import Path

sys.dont_write_bytecode = True
sys.path.append(str(Path(__file__).resolve().parent.parent / "scripts"))
import running
from stickers import TOKEN, fewest_moves

TIMES = ("333", "222", "444", "555", "333oh", "clock", "minx", "pyram", "skewb", "sq1")
MEANS = ("666", "777", "333fm")
BLIND = ("333bf", "444bf", "555bf", "333mbf")
EVENTS = ("333", "222", "444", "555", "666", "777", "333bf", "333fm", "333oh", "clock", "minx",
          "pyram", "skewb", "sq1", "444bf", "555bf", "333mbf")
# what an event takes but for DNF and DNS: a time where nothing is said
TAKES = {"333fm": "S", "333mbf": "M"}
FORMATS = ({event: ("ao5", "bo1", "bo2", "bo3") for event in TIMES}
           | {event: ("mo3", "bo1", "bo2") for event in MEANS}
           | {event: ("bo1", "bo2", "bo3") for event in BLIND})
ATTEMPTS = {"ao5": 5, "mo3": 3, "bo1": 1, "bo2": 2, "bo3": 3}

MOST_LINES = 65_536
MOST_IN_LINE = 10_000
MOST_BYTES = 39_387_136
MOST_IN_COMMAND = 600
MOST_ENTRANTS = 999
# how many editions the programs know
KNOWN_EDITIONS = 4

NUMBER = re.compile(rb"0|[1-9][0-9]*")
# the categories of characters that no name of edition 3 has
UNSEEN = ("Cc", "Cf", "Co", "Cn", "Zl", "Zp")


# --- lines ---------------------------------------------------------------------------------------


def lines_of(data):
    """The lines, and whether a limit is passed: then these are the whole lines in front of it."""
    lines = []
    start = 0
    while start < len(data):
        if len(lines) == MOST_LINES:
            return lines, True
        end = data.find(b"\n", start)
        stop = len(data) if end < 0 else end
        # the byte with which a limit is passed, if it stands in this line
        if stop - start > MOST_IN_LINE or stop + (end >= 0) > MOST_BYTES:
            return lines, True
        lines.append(data[start:stop])
        start = stop + 1
    return lines, False


# --- the spelling of commands --------------------------------------------------------------------


def number(text, low, high):
    """A decimal number in its range, without sign and without leading zeros, or None."""
    if NUMBER.fullmatch(text) and len(text) <= 9 and low <= int(text) <= high:
        return int(text)
    return None


def in_range(low, high):
    return lambda text: number(text, low, high)


def one_of(spellings):
    known = [spelling.encode() for spelling in spellings]
    return lambda text: text.decode() if text in known else None


def parted(text):
    """Whether it is UTF-8, and one space stands between two words."""
    try:
        text.decode("utf-8")
    except UnicodeDecodeError:
        return False
    return not (text.startswith(b" ") or text.endswith(b" ") or b"  " in text)


def early_name(text):
    """A name of editions 1 and 2."""
    plain = all(byte >= 32 and byte != 127 for byte in text)
    return text if 1 <= len(text) <= 80 and plain and parted(text) else None


def clear_name(text):
    """A name of edition 3. (Python's Unicode is older than the program's: what has come since is
    Cn here.)"""
    if not 1 <= len(text) <= 160 or not parted(text):
        return None
    plain = all(letter != '"' and unicodedata.category(letter) not in UNSEEN
                for letter in text.decode("utf-8"))
    return text if plain else None


def cutoff(text):
    """'-', or the attempts within which it has to be met and the value that is not below it."""
    if text == b"-":
        return "-"
    count, _, below = text.partition(b":")
    count, below = number(count, 1, 4), number(below, 1, 360_000)
    return None if count is None or below is None else (count, below)


def limit(text):
    return "-" if text == b"-" else number(text, 1, 360_000)


def advance(text):
    """('final',), ('top', t) or ('pct', p)."""
    if text == b"final":
        return ("final",)
    kind, _, wanted = text.partition(b":")
    wanted = number(wanted, 1, {b"top": 999, b"pct": 75}.get(kind, 0))
    return None if wanted is None else (kind.decode(), wanted)


def moves(text):
    """The tokens, with exactly one space between two."""
    tokens = text.decode("latin-1").split(" ")
    return tokens if all(TOKEN.fullmatch(token) for token in tokens) else None


def outcome(text):
    """('T', hundredths, penalties), ('S', tokens), ('M', solved, attempted, seconds), ('DNF',)
    or ('DNS',), or None."""
    if text in (b"DNF", b"DNS"):
        return (text.decode(),)
    if text.startswith(b"S:"):
        solution = moves(text[2:])
        return None if solution is None else ("S", solution)
    parts = text.split(b":")
    if len(parts) == 4 and parts[0] == b"M":
        attempted, seconds = number(parts[2], 2, 99), number(parts[3], 1, 5_999)
        solved = None if attempted is None else number(parts[1], 0, attempted)
        if solved is not None and seconds is not None:
            return ("M", solved, attempted, seconds)
        return None
    if len(parts) == 3 and parts[0] == b"T":
        hundredths, penalties = number(parts[1], 1, 999_999), number(parts[2], 0, 9)
        if hundredths is not None and penalties is not None:
            return ("T", hundredths, penalties)
    return None


EVENT, FORMAT, WHO = one_of(EVENTS), one_of(ATTEMPTS), in_range(1, 9999)
ROUND, COUNT = in_range(1, 4), in_range(1, 5)

# each word: how its fields are read, and whether the last is the rest of the text
WORDS = {
    b"REG": ([WHO, early_name], True),
    b"OPEN": ([EVENT, ROUND, FORMAT, cutoff, limit, advance], False),
    b"ENT": ([EVENT, WHO], False),
    b"SCR": ([EVENT, ROUND, COUNT, moves], True),
    b"ATT": ([EVENT, ROUND, COUNT, WHO, outcome], True),
    b"COR": ([EVENT, ROUND, COUNT, WHO, outcome], True),
    b"STR": ([EVENT, ROUND, WHO], False),
    b"ADV": ([EVENT, ROUND, advance], False),
    b"CLOSE": ([EVENT, ROUND], False),
    b"EDITION": ([in_range(2, 3)], False),
}

# what edition 3 has otherwise, and besides
WORDS_OF_THREE = WORDS | {
    b"REG": ([WHO, clear_name], True),
    b"REN": ([WHO, clear_name], True),
    b"SET": ([EVENT, ROUND, FORMAT, cutoff, limit], False),
    b"RSC": ([EVENT, ROUND, COUNT, moves], True),
    b"WDR": ([EVENT, ROUND, WHO], False),
    b"REOPEN": ([EVENT, ROUND], False),
}


# --- edition 4: cards and remarks ----------------------------------------------------------------

MOST_IN_REMARK = 80
# the greatest value there is: no point and 49 unsolved cubes in 99:59
MOST_VALUE = 990_599_949
HASH = b" # "
REMARKED = (b"CARD", b"FIX", b"ATT", b"COR", b"STR", b"WDR")


def one_value(text):
    """A number, 'DNF' or 'DNS'."""
    return text.decode() if text in (b"DNF", b"DNS") else number(text, 0, MOST_VALUE)


def listed(mark, reader):
    """'-' for nothing, else one to five parts with a mark between two."""
    def of(text):
        if text == b"-":
            return []
        parts = [reader(part) for part in text.split(mark)]
        return parts if len(parts) <= 5 and None not in parts else None
    return of


WAS = listed(b",", one_value)
NOW = listed(b"/", lambda text: "=" if text == b"=" else outcome(text))


def keeps_missing(was, now):
    """Whether an attempt stays as it stands that does not stand."""
    return "=" in now[len(was):]


def is_remark(text):
    return clear_name(text) is not None and len(text) <= MOST_IN_REMARK


WORDS_OF_FOUR = WORDS_OF_THREE | {
    b"CARD": ([EVENT, ROUND, WHO, WAS, NOW], True),
    b"FIX": ([EVENT, ROUND, WHO, WAS, NOW], True),
    b"CANCEL": ([EVENT, ROUND], False),
}


def without_remark(text):
    """The text in front of its remark, or None where that is none; all of it without a remark."""
    if text.partition(b" ")[0] not in REMARKED or HASH not in text:
        return text
    front, _, remark = text.partition(HASH)
    return front if is_remark(remark) else None


def read_four(text):
    """The same as `read`, of edition 4."""
    front = without_remark(text) if len(text) <= MOST_IN_COMMAND else None
    command = None if front is None else read_words(front, WORDS_OF_FOUR)
    if command and command[0] in ("CARD", "FIX") and keeps_missing(*command[1][3:]):
        return None
    return command


# --- commands ------------------------------------------------------------------------------------


def edition_named(text, known):
    """The edition that a text moves a list to, if the program knows it."""
    word, _, rest = text.partition(b" ")
    return number(rest, 2, known) if word == b"EDITION" else None


def read(text, edition, known=3):
    """A word and its fields, or None where the text is no command of the edition. EDITION names
    those that the program knows."""
    if edition_named(text, known) is not None:
        return "EDITION", [edition_named(text, known)]
    if edition == 4:
        return read_four(text)
    command = read_words(text, WORDS_OF_THREE if edition == 3 else WORDS)
    if command is not None and edition == 1 and has_multi(command[1]):
        return None
    return command


def read_words(text, words):
    word, space, rest = text.partition(b" ")
    if len(text) > MOST_IN_COMMAND or word not in words or not space:
        return None
    readers, last_is_rest = words[word]
    fields = rest.split(b" ", len(readers) - 1) if last_is_rest else rest.split(b" ")
    if len(fields) != len(readers):
        return None
    values = [reader(field) for reader, field in zip(readers, fields)]
    return None if None in values else (word.decode(), values)


def has_multi(values):
    """Whether a field came with edition 2: its event or its outcome."""
    return "333mbf" in values or any(isinstance(value, tuple) and value[0] == "M"
                                     for value in values)


# --- results -------------------------------------------------------------------------------------


def multi(solved, attempted, seconds):
    """Less for more points, then for a shorter time, then for fewer unsolved cubes."""
    unsolved = attempted - solved
    points = solved - unsolved
    if points < 0 or solved < 2:
        return "DNF"
    return (99 - points) * 10_000_000 + 100 * seconds + unsolved


def timed(hundredths, penalties, time_limit):
    if time_limit != "-" and hundredths >= time_limit:
        return "DNF"
    total = hundredths + 200 * penalties
    return total if total <= 60_000 else (total + 50) // 100 * 100


def numbers(values):
    return [value for value in values if isinstance(value, int)]


def best(values):
    if numbers(values):
        return min(numbers(values))
    return "DNF" if "DNF" in values else "DNS"


def average(form, what, values):
    """The average or the mean in hundredths; '-' where there is none."""
    if form.startswith("bo") or len(values) < ATTEMPTS[form]:
        return "-"
    if form == "mo3":
        counted = sorted(numbers(values))
    elif len(numbers(values)) == 5:
        counted = sorted(values)[1:4]
    else:
        counted = sorted(numbers(values))[1:]
    if len(counted) < 3:
        return "DNF"
    total = sum(counted)
    if what == "333fm":
        return (200 * total + 3) // 6
    if total > 180_000:
        return (total + 150) // 300 * 100
    return (2 * total + 3) // 6


def later_rounds(competitors):
    return sum(competitors > most for most in (7, 15, 99))


def quota(wish, competitors):
    if wish[0] == "final":
        return 0
    wanted = wish[1] if wish[0] == "top" else competitors * wish[1] // 100
    return min(wanted, 3 * competitors // 4)


class Round:
    """The settings of a round, its scrambles, and the values of each entrant in order of entry."""

    def __init__(self, what, form, cut, time_limit, wish, entrants):
        self.what, self.form, self.cutoff = what, form, cut
        self.limit, self.advance = time_limit, wish
        self.scrambles = {}
        self.entrants = {who: [] for who in entrants}
        # whose attempts stand as solutions: (competitor, attempt)
        self.solved = set()
        # those of the round before who took the place of one who withdrew
        self.taken_in = set()
        self.closed = False
        # the same round at the opening of the next one, where that is opened
        self.at_next = None

    def as_next_sees_it(self):
        """The round as it was when the next one was opened; as it is where that is not."""
        return self.at_next or self

    def fits(self, values):
        return len(values) <= self.allotted(values)

    def meets(self, values):
        return self.cutoff == "-" or any(value < self.cutoff[1]
                                         for value in numbers(values[:self.cutoff[0]]))

    def allotted(self, values):
        return ATTEMPTS[self.form] if self.meets(values) else self.cutoff[0]

    def rank(self, values):
        """What ranks an entrant: less is better, and whatever is no number is worst and equal."""
        results = [best(values)]
        if not self.form.startswith("bo"):
            results.insert(0, average(self.form, self.what, values))
        return tuple(result if isinstance(result, int) else float("inf") for result in results)

    def places(self):
        """The place of each entrant: 1 plus the number of those who are better."""
        ranks = {who: self.rank(values) for who, values in self.entrants.items()}
        return {who: 1 + sum(other < rank for other in ranks.values())
                for who, rank in ranks.items()}

    def standings(self):
        places = self.places()
        return sorted(self.entrants, key=places.get)

    def started(self):
        """The competitors of the round: entrants with an attempt that is not DNS."""
        return [who for who, values in self.entrants.items()
                if any(value != "DNS" for value in values)]

    def advancing(self):
        """Those who go on, in order of standings: a tied group over the border stays out whole."""
        started = self.started()
        most = quota(self.advance, len(started))
        ranks = {who: self.rank(self.entrants[who]) for who in started}
        return [who for who in self.standings() if numbers(self.entrants[who])
                and sum(rank <= ranks[who] for rank in ranks.values()) <= most]


# --- the competition -----------------------------------------------------------------------------


class Meet:
    def __init__(self, known=None):
        # how many editions are known
        self.known = known or KNOWN_EDITIONS
        self.names = {}
        # who has a name
        self.owners = {}
        # (event, round) to Round
        self.rounds = {}
        self.edition = 1

    def apply(self, text):
        """None where the command is done, otherwise the code of its refusal."""
        command = read(text, self.edition, self.known)
        if command is None:
            return "Unread"
        word, fields = command
        return {"REG": self.register, "OPEN": self.open, "ENT": self.enter, "SCR": self.scramble,
                "ATT": self.attempt, "COR": self.correct, "STR": self.strike, "ADV": self.change,
                "CLOSE": self.close, "EDITION": self.set_edition, "REN": self.rename,
                "SET": self.set_round, "RSC": self.rescramble, "WDR": self.withdraw,
                "REOPEN": self.reopen, "CARD": self.card, "FIX": self.fix,
                "CANCEL": self.cancel}[word](*fields)

    def set_edition(self, edition):
        if edition <= self.edition:
            return "Already"
        self.edition = edition

    def register(self, who, text):
        if who in self.names:
            return "Already"
        if text in self.owners:
            return "NameTaken"
        self.names[who] = text
        self.owners[text] = who

    def rename(self, who, text):
        if who not in self.names:
            return "UnknownCompetitor"
        if self.owners.get(text, who) != who:
            return "NameTaken"
        del self.owners[self.names[who]]
        self.names[who] = text
        self.owners[text] = who

    def open(self, what, which, form, cut, time_limit, wish):
        if (what, which) in self.rounds:
            return "RoundOpen"
        before = self.rounds.get((what, which - 1))
        if which > 1 and (before is None or not before.closed or before.advance == ("final",)):
            return "RoundUnknown"
        refusal = self.settings_refusal(what, form, cut, time_limit)
        if refusal is not None:
            return refusal
        entrants = before.advancing() if which > 1 else []
        self.rounds[what, which] = Round(what, form, cut, time_limit, wish, entrants)
        if which > 1:
            before.at_next = copy.deepcopy(before)

    @staticmethod
    def settings_refusal(what, form, cut, time_limit):
        if form not in FORMATS[what]:
            return "FormatNotAllowed"
        if cut != "-" and (what == "333mbf" or cut[0] >= ATTEMPTS[form]):
            return "CutoffNotAllowed"
        if (time_limit == "-") != (what in TAKES):
            return "LimitNotAllowed"
        return None

    def set_round(self, what, which, form, cut, time_limit):
        if (what, which) not in self.rounds:
            return "RoundUnknown"
        table = self.rounds[what, which]
        if table.closed:
            return "Closed"
        if any(table.entrants.values()):
            return "HasAttempts"
        refusal = self.settings_refusal(what, form, cut, time_limit)
        if refusal is not None:
            return refusal
        table.form, table.cutoff, table.limit = form, cut, time_limit

    def enter(self, what, who):
        if who not in self.names:
            return "UnknownCompetitor"
        if (what, 1) not in self.rounds:
            return "RoundUnknown"
        table = self.rounds[what, 1]
        if table.closed:
            return "Closed"
        if who in table.entrants:
            return "Already"
        if len(table.entrants) == MOST_ENTRANTS:
            return "Full"
        table.entrants[who] = []

    def scramble(self, what, which, count, tokens):
        if (what, which) not in self.rounds:
            return "RoundUnknown"
        table = self.rounds[what, which]
        if table.closed:
            return "Closed"
        if what != "333fm":
            return "WrongOutcome"
        if count > ATTEMPTS[table.form]:
            return "NoSuchAttempt"
        if count in table.scrambles:
            return "ScrambleThere"
        table.scrambles[count] = tokens

    def rescramble(self, what, which, count, tokens):
        if (what, which) not in self.rounds:
            return "RoundUnknown"
        table = self.rounds[what, which]
        if what != "333fm":
            return "WrongOutcome"
        if count not in table.scrambles:
            return "NoScramble"
        if table.closed:
            return "Closed"
        if any(solved == count for _, solved in table.solved):
            return "HasAttempts"
        table.scrambles[count] = tokens

    def withdraw(self, what, which, who):
        if who not in self.names:
            return "UnknownCompetitor"
        if (what, which) not in self.rounds:
            return "RoundUnknown"
        table = self.rounds[what, which]
        if table.closed:
            return "Closed"
        if who not in table.entrants:
            return "NotEntered"
        if table.entrants[who]:
            return "HasAttempts"
        del table.entrants[who]
        if which == 1:
            return None
        before = self.rounds[what, which - 1].as_next_sees_it()
        advanced = before.advancing()
        for other in before.standings():
            if (other not in advanced and other not in table.taken_in
                    and numbers(before.entrants[other])):
                table.taken_in.add(other)
                table.entrants[other] = []
                break
        return None

    def reopen(self, what, which):
        if (what, which) not in self.rounds:
            return "RoundUnknown"
        if not self.rounds[what, which].closed:
            return "NotClosed"
        if (what, which + 1) in self.rounds:
            return "RoundOpen"
        self.rounds[what, which].closed = False

    def refusal(self, what, which, count, who, out):
        """The checks that an attempt and a correction begin with."""
        if who not in self.names:
            return "UnknownCompetitor"
        if (what, which) not in self.rounds:
            return "RoundUnknown"
        table = self.rounds[what, which]
        if out[0] in "TSM" and out[0] != TAKES.get(what, "T"):
            return "WrongOutcome"
        if out[0] == "S" and count not in table.scrambles:
            return "NoScramble"
        if table.closed:
            return "Closed"
        if who not in table.entrants:
            return "NotEntered"
        return None

    def settle(self, what, which, count, out):
        """The value of an attempt: a number of hundredths, of moves or of multi-blind, 'DNF' or
        'DNS'."""
        table = self.rounds[what, which]
        if out[0] == "T":
            return timed(out[1], out[2], table.limit)
        if out[0] == "S":
            return fewest_moves(table.scrambles[count], out[1])
        if out[0] == "M":
            return multi(*out[1:])
        return out[0]

    def attempt(self, what, which, count, who, out):
        refusal = self.refusal(what, which, count, who, out)
        if refusal is not None:
            return refusal
        table = self.rounds[what, which]
        values = table.entrants[who]
        if count != len(values) + 1:
            return "OutOfOrder"
        if len(values) == table.allotted(values):
            return "NoMoreAttempts"
        values.append(self.settle(what, which, count, out))
        if out[0] == "S":
            table.solved.add((who, count))

    def correct(self, what, which, count, who, out):
        refusal = self.refusal(what, which, count, who, out)
        if refusal is not None:
            return refusal
        table = self.rounds[what, which]
        values = table.entrants[who]
        if count > len(values):
            return "NoSuchAttempt"
        changed = values[:count - 1] + [self.settle(what, which, count, out)] + values[count:]
        if table.cutoff != "-" and len(values) > table.cutoff[0] and not table.meets(changed):
            return "CutoffLost"
        table.entrants[who] = changed
        table.solved.discard((who, count))
        if out[0] == "S":
            table.solved.add((who, count))

    def strike(self, what, which, who):
        if who not in self.names:
            return "UnknownCompetitor"
        if (what, which) not in self.rounds:
            return "RoundUnknown"
        table = self.rounds[what, which]
        if table.closed:
            return "Closed"
        if who not in table.entrants:
            return "NotEntered"
        if not table.entrants[who]:
            return "NoSuchAttempt"
        table.solved.discard((who, len(table.entrants[who])))
        table.entrants[who].pop()

    def change(self, what, which, wish):
        if (what, which) not in self.rounds:
            return "RoundUnknown"
        if self.rounds[what, which].closed:
            return "Closed"
        self.rounds[what, which].advance = wish

    def close(self, what, which):
        if (what, which) not in self.rounds:
            return "RoundUnknown"
        table = self.rounds[what, which]
        if table.closed:
            return "Closed"
        if any(len(values) < table.allotted(values) for values in table.entrants.values()):
            return "Unfinished"
        if self.breaks_rounds_rule(what, which):
            return "RoundsRule"
        table.closed = True

    def breaks_rounds_rule(self, what, which):
        """Whether a round that is no final has too few competitors, or one before it has."""
        started = [len(self.rounds[what, j].as_next_sees_it().started())
                   for j in range(1, which + 1)]
        behind = [which - at > later_rounds(count) for at, count in enumerate(started)]
        return self.rounds[what, which].advance != ("final",) and any(behind)

    # edition 4

    def card(self, what, which, who, was, now):
        refusal, table, values = self.looked_at(what, which, who, was, now, False)
        if refusal is not None:
            return refusal
        self.put_values(table, who, values, now)

    def fix(self, what, which, who, was, now):
        refusal, table, values = self.looked_at(what, which, who, was, now, True)
        if refusal is not None:
            return refusal
        if len(values) < table.allotted(values):
            return "Unfinished"
        before = table.entrants[who]
        table.entrants[who] = values
        if (what, which + 1) not in self.rounds and self.breaks_rounds_rule(what, which):
            table.entrants[who] = before
            return "RoundsRule"
        self.put_values(table, who, values, now)

    def cancel(self, what, which):
        if (what, which) not in self.rounds:
            return "RoundUnknown"
        if (what, which + 1) in self.rounds:
            return "RoundOpen"
        if any(self.rounds[what, which].entrants.values()):
            return "HasAttempts"
        del self.rounds[what, which]
        if which > 1:
            self.rounds[what, which - 1].at_next = None

    def looked_at(self, what, which, who, was, now, closed):
        """The first check of CARD or of FIX that fails, of those that they have in common; the
        round; and what the attempts count then."""
        table = self.rounds.get((what, which))
        if who not in self.names:
            return "UnknownCompetitor", table, None
        if table is None:
            return "RoundUnknown", table, None
        entered = [(count, out) for count, out in enumerate(now, 1) if out != "="]
        if any(out[0] in ("T", "S", "M") and out[0] != TAKES.get(what, "T") for _, out in entered):
            return "WrongOutcome", table, None
        if any(out[0] == "S" and count not in table.scrambles for count, out in entered):
            return "NoScramble", table, None
        if table.closed != closed:
            return "NotClosed" if closed else "Closed", table, None
        if who not in table.entrants:
            return "NotEntered", table, None
        if table.entrants[who] != was:
            return "Changed", table, None
        values = [was[count - 1] if out == "=" else self.settle(what, which, count, out)
                  for count, out in enumerate(now, 1)]
        return None if table.fits(values) else "NoMoreAttempts", table, values

    @staticmethod
    def put_values(table, who, values, now):
        table.entrants[who] = values
        for count in range(1, 6):
            if count > len(now) or now[count - 1] != "=":
                table.solved.discard((who, count))
            if count <= len(now) and now[count - 1][0] == "S":
                table.solved.add((who, count))


# --- sheets --------------------------------------------------------------------------------------


def printed(value, what):
    if not isinstance(value, int) or what == "333fm":
        return str(value)
    if what == "333mbf":
        missing, rest = divmod(value, 10_000_000)
        seconds, unsolved = divmod(rest, 100)
        solved = 99 - missing + unsolved
        return f"{solved}/{solved + unsolved} {seconds // 60}:{seconds % 60:02}"
    minutes, rest = divmod(value, 6_000)
    seconds, hundredths = divmod(rest, 100)
    if minutes:
        return f"{minutes}:{seconds:02}.{hundredths:02}"
    return f"{seconds}.{hundredths:02}"


def printed_average(value, what):
    if isinstance(value, int) and what == "333fm":
        return f"{value // 100}.{value % 100:02}"
    return printed(value, what)


def spelled(setting):
    """A cutoff, a limit or an advance, as in the command that opens a round."""
    return ":".join(str(part) for part in setting) if isinstance(setting, tuple) else str(setting)


def rows(table):
    """Place, number, texts of the average, the best and each attempt, and whether advancing."""
    places = table.places()
    going = set(table.as_next_sees_it().advancing()) if table.closed else set()
    for who in table.standings():
        values = table.entrants[who]
        shown = [printed_average(average(table.form, table.what, values), table.what),
                 printed(best(values), table.what) if values else "-"]
        shown += [printed(value, table.what) for value in values]
        shown += ["-"] * (ATTEMPTS[table.form] - len(values))
        yield places[who], who, shown, who in going


def text_sheet(meet, what, which, position):
    table = meet.rounds[what, which]
    state = "closed" if table.closed else "open"
    out = [f"{what} round {which} {table.form} {state} position {position}\n".encode(),
           f"cutoff {spelled(table.cutoff)} limit {spelled(table.limit)} "
           f"advance {spelled(table.advance)}\n".encode()]
    for place, who, shown, advances in rows(table):
        width = 11 if what == "333mbf" else 9
        columns = "".join(f" {text:>{width}}" for text in shown)
        out.append(f"{place:>3}{columns} {who:>4} {'Q' if advances else '-'} ".encode()
                   + meet.names[who] + b"\n")
    return b"".join(out)


def quoted(text):
    if b"," in text or b'"' in text:
        return b'"' + text.replace(b'"', b'""') + b'"'
    return text


def table_sheet(meet, what, which):
    table = meet.rounds[what, which]
    columns = [str(count) for count in range(1, ATTEMPTS[table.form] + 1)]
    out = [",".join(["place", "number", "name", "average", "best"] + columns
                    + ["advances"]).encode()]
    for place, who, shown, advances in rows(table):
        cells = ",".join(shown + ["yes" if advances else "no"])
        out.append(f"{place},{who},".encode() + quoted(meet.names[who]) + f",{cells}".encode())
    return b"\n".join(out) + b"\n"


def replay(data, what, which, table=False, known=None):
    """What is written on standard output, on standard error, and the status."""
    lines, too_long = lines_of(data)
    meet = Meet(known)
    out = []
    for position, line in enumerate(lines, 1):
        code = meet.apply(line)
        if code is not None:
            out.append(f"refused {position} {code}\n".encode())
    said = b"".join(out)
    if too_long:
        return said, b"input too long\n", 3
    if (what, which) not in meet.rounds:
        return said, b"no such round\n", 3
    if table:
        return said + table_sheet(meet, what, which), b"", 0
    return said + text_sheet(meet, what, which, len(lines)), b"", 0


def main():
    words = running.Words(__doc__)
    words.add_argument("event", choices=EVENTS, metavar="EVENT")
    words.add_argument("round", type=int, choices=range(1, 5), metavar="ROUND")
    words.add_argument("--csv", action="store_true")
    words.add_argument("--editions", type=int, choices=(3, 4), default=KNOWN_EDITIONS, metavar="K")
    given = words.parse_args()
    said, fault, status = replay(sys.stdin.buffer.read(), given.event, given.round, given.csv,
                                 given.editions)
    sys.stdout.buffer.write(said)
    sys.stderr.buffer.write(fault)
    return status


if __name__ == "__main__":
    sys.exit(main())
