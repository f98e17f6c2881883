#!/usr/bin/env python3
"""What `results` of tests/meets has to print, worked out by the rules alone.

    bench/results.py [--editions K] < tests/meets/cases/results.in

It prints what tests/meets/cases/results.out has to be, of programs that know K editions.

A second program over bench/rules.py and bench/stickers.py, which share nothing with the crates.
tests/meets/results.rt.txt says what its lines ask for; values are printed as Rust's `Debug`
does. Standard library only.
"""

import sys
from pathlib import Path

sys.dont_write_bytecode = True
sys.path.append(str(Path(__file__).resolve().parent.parent / "scripts"))
import rules
import running
import stickers

EVENTS = ("Cube3", "Cube2", "Cube4", "Cube5", "Cube6", "Cube7", "Blind3", "FewestMoves",
          "OneHanded", "Clock",
          "Megaminx", "Pyraminx", "Skewb", "Square1", "Blind4", "Blind5", "MultiBlind")
CODES = ("Unread", "Repeat", "UnknownCompetitor", "NameTaken", "RoundUnknown", "RoundOpen",
         "RoundsRule",
         "FormatNotAllowed", "CutoffNotAllowed", "LimitNotAllowed", "NoScramble", "ScrambleThere",
         "WrongOutcome",
         "Closed", "Already", "Full", "NotEntered", "OutOfOrder", "NoMoreAttempts", "NoSuchAttempt",
         "CutoffLost",
         "Unfinished", "HasAttempts", "NotClosed", "Changed")
# the order in which an event's formats are listed
FORMATS = ("ao5", "mo3", "bo1", "bo2", "bo3")
MOST_MOVES = 400


# --- moves ---------------------------------------------------------------------------------------


def moves_of(text):
    """The tokens of a text, or why it is not read: one or more spaces stand between two tokens."""
    if not text:
        return "Empty"
    tokens, at = [], 0
    while True:
        if len(tokens) == MOST_MOVES and at < len(text):
            return "TooMany"
        end = text.find(b" ", at)
        token = text[at:] if end < 0 else text[at:end]
        if not stickers.TOKEN.fullmatch(token.decode("latin-1")):
            return f"BadToken {{ at: {at} }}"
        tokens.append(token.decode())
        if end < 0:
            return tokens
        at = end
        while at < len(text) and text[at:at + 1] == b" ":
            at += 1


def move_text(token):
    kind, amount = stickers.TOKEN.fullmatch(token).groups()
    turned = {"": "Clockwise", "'": "Anticlockwise", "2": "Half"}[amount]
    layer = "Block" if kind[1:] else "Face"
    shown = f"Turn({kind.upper()})" if kind in "xyz" else f"{layer}({kind[0]})"
    return f"Move {{ kind: {shown}, quarter: {turned} }}"


def moves_lines(text):
    tokens = moves_of(text)
    if isinstance(tokens, str):
        return [tokens]
    count = sum(token[0] not in "xyz" for token in tokens)
    return [f"{count} count: [{', '.join(move_text(token) for token in tokens)}]", " ".join(tokens)]


def made(colours, tokens):
    for token in tokens:
        moved = stickers.turn(token)
        colours = {moved[sticker]: colour for sticker, colour in colours.items()}
    return colours


def is_solved(colours):
    return all(len({colours[sticker] for sticker in stickers.STICKERS if sticker[1] == normal}) == 1
               for normal in stickers.DIRECTIONS)


def cube_lines(text):
    tokens = moves_of(text)
    if isinstance(tokens, str):
        return [tokens]
    names = {normal: name for name, normal in stickers.OUTWARD.items()}
    colours = made({sticker: names[sticker[1]] for sticker in stickers.STICKERS}, tokens)
    # side after side, in the order of x, y and z on each
    shown = "".join(colours[sticker] for side in "URFDLB" for sticker in sorted(stickers.STICKERS)
                    if sticker[1] == stickers.OUTWARD[side])
    repeats, again = 1, colours
    while not is_solved(again) and repeats < 1000:
        repeats, again = repeats + 1, made(again, tokens)
    return [f"{shown} order {repeats if repeats < 1000 else 0} back true"]


def opposites_lines(_):
    pairs = dict(zip("UDLRFB", "DURLBF"))
    return [f"{side} {opposite}" for side, opposite in pairs.items()]


def solve_lines(text):
    scramble, solution = (moves_of(part) for part in text.split(b"/"))
    if isinstance(scramble, str) or isinstance(solution, str):
        return ["no moves"]
    result = stickers.fewest_moves(scramble, solution)
    return ["Dnf" if result == "DNF" else f"Moves({result})"]


# --- values --------------------------------------------------------------------------------------


def value_text(value):
    return f"Number({value})" if isinstance(value, int) else value.capitalize()


def time_lines(text):
    hundredths, penalties, limit = (int(field) for field in text.split())
    return [value_text(rules.timed(hundredths, penalties, limit or "-"))]


def solved_lines(text):
    moves = int(text.split()[0])
    return [value_text(moves if moves <= 80 else "DNF")]


def multi_lines(text):
    """Points are the solved less the unsolved; less than none, or fewer than two solved, is DNF.
    More points are better, then a shorter time, then fewer unsolved: the value is less."""
    solved, attempted, seconds = (int(field) for field in text.split())
    unsolved = attempted - solved
    points = solved - unsolved
    if solved < 2 or points < 0:
        return ["Dnf", "DNF"]
    value = (99 - points) * 10_000_000 + 100 * seconds + unsolved
    return [f"Number({value})", f"{solved}/{attempted} {seconds // 60}:{seconds % 60:02}"]


def values_of(text):
    return [field if field in ("DNF", "DNS") else int(field) for field in text.decode().split()]


def value_lines(text):
    value = values_of(text)[0]
    if isinstance(value, int) and value > 2_000_000:
        return ["out of range"]
    return [rules.printed(value, "333"), str(value)]


def digits_lines(text):
    whole, last = text.split()
    return [whole + last[-2:]]


def ranks(what, form, values):
    """What ranks: a number, or none, which is worse than any number; two of them where there is an
    average."""
    least = rules.best(values)
    average = rules.average(form, what, values)
    both = (least, None) if form.startswith("bo") else (average, least)
    return [number if isinstance(number, int) else None for number in both]


def results_lines(text):
    what, form, *rest = text.split(b" ", 2)
    what, form, values = what.decode(), form.decode(), values_of(rest[0] if rest else b"")
    average = rules.average(form, what, values)
    averaged = "Missing" if average == "-" else value_text(average)
    main, tie = (f"Some({number})" if number is not None else "None"
                 for number in ranks(what, form, values))
    return [f"{value_text(rules.best(values))}, {averaged}, RankKey {{ main: {main}, tie: {tie} }}",
            rules.printed_average(average, what)]


def better_lines(text):
    what, form, rest = text.split(b" ", 2)
    keys = [[float("inf") if number is None else number
             for number in ranks(what.decode(), form.decode(), values_of(part))]
            for part in rest.split(b"/")]
    return ["true" if keys[0] < keys[1] else "false"]


# --- tables --------------------------------------------------------------------------------------


def event_lines(text):
    number = int(text)
    if not 1 <= number <= len(rules.EVENTS):
        return ["no event"]
    name = rules.EVENTS[number - 1]
    unit = {"333fm": "Moves", "333mbf": "Multi"}.get(name, "Time")
    formats = " ".join(form.capitalize() for form in FORMATS if form in rules.FORMATS[name])
    return [f"{number} {EVENTS[number - 1]} {name} {unit} {formats}"]


def named_lines(text):
    name = text.decode("latin-1")
    return [f"Some({EVENTS[rules.EVENTS.index(name)]})" if name in rules.EVENTS else "None"]


def format_lines(text):
    name = text.decode("latin-1")
    return [f"{name.capitalize()} {name} {rules.ATTEMPTS[name]}" if name in rules.ATTEMPTS
            else "no format"]


def code_lines(text):
    number, last = int(text), 25 if rules.KNOWN_EDITIONS == 4 else 24
    known = 1 <= number <= last
    return [f"{number} {CODES[number - 1]} {CODES[number - 1]}" if known else "no code"]


def later_lines(text):
    return [str(rules.later_rounds(int(text)))]


def top_lines(text):
    top, of = (int(field) for field in text.split())
    return [str(rules.quota(("top", top), of))]


def percent_lines(text):
    percent, of = (int(field) for field in text.split())
    return [str(rules.quota(("pct", percent), of))]


# --- commands ------------------------------------------------------------------------------------


def any_name(text):
    """A name of some edition."""
    return rules.early_name(text) or rules.clear_name(text)


def words():
    """The words of all editions that are known."""
    known = rules.WORDS_OF_FOUR if rules.KNOWN_EDITIONS == 4 else rules.WORDS_OF_THREE
    return known | {b"REG": ([rules.WHO, any_name], True),
                    b"EDITION": ([rules.in_range(2, rules.KNOWN_EDITIONS)], False)}


def read_lines(text):
    """The text again, or its first fault from the left."""
    if len(text) > rules.MOST_IN_COMMAND:
        return ["TooLong"]
    word = text.partition(b" ")[0]
    if word not in words():
        return ["NotACommand"]
    front, mark, remark = text, b"", b""
    if rules.KNOWN_EDITIONS == 4 and word in rules.REMARKED:
        front, mark, remark = text.partition(rules.HASH)
    fault = first_fault(front, *words()[word])
    if fault is None and mark and not rules.is_remark(remark):
        fault = len(words()[word][0]) + 1
    return [text if fault is None else f"BadField {{ index: {fault} }}"]


def first_fault(text, readers, last_is_rest):
    """The first field from the left that is missing, misspelt or too many; None where none is."""
    _, space, rest = text.partition(b" ")
    fields = (rest.split(b" ", len(readers) - 1) if last_is_rest
              else rest.split(b" ")) if space else []
    for index, reader in enumerate(readers, 1):
        if index > len(fields) or reader(fields[index - 1]) is None:
            return index
    if rules.NOW in readers and rules.keeps_missing(rules.WAS(fields[3]), rules.NOW(fields[4])):
        return len(readers)
    return len(readers) + 1 if len(fields) > len(readers) else None


class Competition:
    def __init__(self):
        self.meet, self.seen = rules.Meet(), set()

    def give(self, text):
        number, _, command = text.partition(b" ")
        if number in self.seen:
            return ["Repeat"]
        self.seen.add(number)
        return [self.meet.apply(command) or "Done"]

    def name(self, text):
        return [self.meet.names.get(int(text), b"nobody")]

    def round(self, text):
        what, which = text.split(b" ")[:2]
        return what.decode(), int(which)

    def who(self, text):
        table = self.meet.rounds.get(self.round(text))
        if table is None:
            return ["no round"]
        return [f"{len(table.started())} started: {table.standings()}"]

    def sheet(self, text):
        what, which = self.round(text)
        if (what, which) not in self.meet.rounds:
            return ["NoSuchRound"]
        return [rules.text_sheet(self.meet, what, which, int(text.split(b" ")[2]))[:-1]]

    def table(self, text):
        what, which = self.round(text)
        if (what, which) not in self.meet.rounds:
            return ["NoSuchRound"]
        return [rules.table_sheet(self.meet, what, which)[:-1]]


PLAIN = {"moves": moves_lines, "cube": cube_lines, "opposites": opposites_lines,
         "solve": solve_lines,
         "time": time_lines, "solved": solved_lines, "multi": multi_lines, "value": value_lines,
         "digits": digits_lines,
         "results": results_lines,
         "better": better_lines, "event": event_lines, "named": named_lines, "format": format_lines,
         "code": code_lines, "later": later_lines, "top": top_lines, "percent": percent_lines,
         "read": read_lines}


def main():
    arguments = running.Words(__doc__)
    arguments.add_argument("--editions", type=int, choices=(3, 4), default=rules.KNOWN_EDITIONS,
                           metavar="K")
    rules.KNOWN_EDITIONS = arguments.parse_args().editions
    competition = Competition()
    for line in sys.stdin.buffer.read().split(b"\n")[:-1]:
        word, _, rest = line.partition(b" ")
        word = word.decode("latin-1")
        if word == "meet":
            competition = Competition()
            continue
        if word in ("give", "name", "who", "sheet", "table"):
            lines = getattr(competition, word)(rest)
        else:
            lines = PLAIN[word](rest) if word in PLAIN else [line]
        for said in lines:
            sys.stdout.buffer.write((said if isinstance(said, bytes) else said.encode()) + b"\n")


if __name__ == "__main__":
    main()
