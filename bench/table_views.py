#!/usr/bin/env python3
"""What tests/pages has to print of the score table: a second program of the pages' definitions.

    bench/table_views.py < tests/pages/cases/views.in

is the latter part of tests/pages/cases/views.out; bench/board_views.py says how all is made. Reads
the lines that are for the score table, of which tests/pages/main.rt.txt says how they are written.
The results come from bench/rules.py, which shares nothing with the crates. Standard
library only.
"""

import html
import json
import re
import sys
from pathlib import Path

sys.dont_write_bytecode = True
sys.path.append(str(Path(__file__).resolve().parent.parent / "scripts"))
import beside
import rules
import wcif_results
from board_views import WORDS, section, together

TOKEN = "0123456789abcdef"
IDS = [1000 + 37 * place for place in range(32)]
# what the comments propose that the pages are given (tests/pages/table_pages.rt.txt)
PROPOSALS = {("555", 3): ("ao5", (2, 4500), 54000, ("top", 8))}
FORMS = {"ao5": "average of 5", "mo3": "mean of 3", "bo1": "best of 1", "bo2": "best of 2",
         "bo3": "best of 3"}
ROUND = re.compile("(%s)-([1-4])" % "|".join(WORDS))
NUMBER = re.compile("[1-9][0-9]{0,3}")
NOTES = {
    "n": (0, "whose card is it?", "-"),
    "f": (2, "a time is like 1043, 10.43 or 1:02.33", "-"),
    "g": (3, "attempt 3 is empty", "-"),
    "c": (6, "the round is closed: send it all the same?", "refused-14"),
    "k": (6, "the page showed other attempts: is it still right?", "refused-25"),
    "u": (1, "more than twice or less than half of the others: is it right?", "unlike-1"),
    "m": (1, "nobody has ever been that fast: is it right?", "fast-1"),
    "h": (2, "less than half of the best of this round, or of this competitor's in another: is it "
          "right?", "half-2"),
    "b": (1, "20.00 is less than 0.8 of 25.01, this competitor's best by the competition's file: "
          "is it right?", "best-1"),
    "l": (2, "1:01.00 is less than half of 2:03.00, the best in this round by the competition's "
          "file: is it right?", "field-2"),
    "s": (3, "does not solve scramble 3: DNF?", "unsolved-3"),
    "r": (3, "the times of attempts 1 and 2 again: is it right?", "repeats"),
    "q": (1, "write its moves, as R U' F2 Rw x: a number of moves alone is no solution", "-"),
}
# Seconds that nobody has ever been below.
FLOORS = {"222": 0.30, "333": 2.50, "444": 13.00, "555": 27.00, "666": 50.00, "777": 80.00,
          "333bf": 10.00, "333oh": 5.00, "clock": 1.30, "minx": 20.00, "pyram": 0.60,
          "skewb": 0.60, "sq1": 3.00, "444bf": 45.00, "555bf": 105.00}
# what is to be done about what an export would refuse or remark, by words of its line
SITE = "on the site that the file is from, and fetch the file again."
TO_DO = {
    "left out": "Nothing, if the round was not held. Else enter its results.",
    "the format is": "Correct the one that is wrong: in the file a is ao5, m is mo3, and 1, 2 and "
                     "3 are bo1, bo2 and bo3.",
    "still runs": "Enter what is missing, and close the round.",
    "no such round": f"Add the round {SITE}",
    "nobody in the file": f"Add the person {SITE}",
    "not accepted": f"Accept the registration {SITE}",
    "in the file": 'If they are one person, <a href="/person/{}">give the number the name of the '
                   "file</a>. Else the results are under a wrong number: they need the file's "
                   "number, in a new list."}
# whose card it is, where nobody's name is known
NOBODY = ('<p class="group">Group <span></span></p>\n'
          '<p class="who"><b></b> <bdi></bdi> <span></span></p>\n')
NEXT = '<p class="next">next round: group <span></span> station <span></span></p>\n'
CHANGES = (1, "another result counts: change it?", "changes-1")
CARD = re.compile("CARD ([0-9a-z]+) ([1-4]) ([0-9]+) ([^ ]+) ([^#]*?)( # .*)?")
NUMBERS = ["no", "one", "two", "three", "four", "five"]
KEYS = {
    "none": "it has no key. Name its file in hall.toml, and start again.",
    "other": "the desks have another key. Copy it again, and start again.",
    "needless": "it has a key, and the desks have none. Start them with the key.",
}
MEANINGS = {"1": "not a command of this edition",
            "4": "another number has this name", "15": "it is there already"}


def escaped(text):
    return html.escape(text, quote=True).replace("&#x27;", "'")


def hidden(name, value):
    return f'<input type="hidden" name="{name}" value="{escaped(str(value))}">'


def spelled_was(values):
    """What attempts count, as `CARD` spells it."""
    return ",".join(str(value) for value in values) or "-"


def unit(what):
    return {"333fm": "moves", "333mbf": "multi"}.get(what, "time")


class Pages:
    """A competition, what is known of the desks, and its pages."""

    def __init__(self):
        self.meet, self.length, self.hall, self.now = rules.Meet(), 0, "", 0
        self.followed, self.silent, self.undecided, self.lengths = 1, None, None, []
        self.away, self.key, self.declined = [], None, (None, "")
        self.sent, self.tried, self.file, self.log = [], [], None, []

    def name(self, who):
        return escaped(self.meet.names.get(who, b"").decode())

    # ---- the frame

    def wrong_key(self):
        """What is wrong with the table's key, if anything is."""
        return self.key or ("none" if self.declined[1] == "barred" else None)

    def gone(self):
        """How many machines do not answer, in words."""
        count = len(self.away)
        return NUMBERS[count] + (" machine is away" if count == 1 else " machines are away")

    def everywhere(self, entries):
        """Whether every desk is known to have so many entries."""
        known = [length for length in self.lengths if length is not None and length >= entries]
        return 0 < len(self.lengths) == len(known)

    def slow(self):
        """What has taken too long: an answer, or a decision; and the seconds."""
        for what, lasted in (("silent", self.silent), ("undecided", self.undecided)):
            if lasted is not None and lasted >= 2000:
                return what, lasted // 1000
        return None, 0

    def bar(self):
        kept, (slow, seconds) = "Continue: cards are kept here, and sent", self.slow()
        look = " Look after " + " and ".join(f"machine {desk}" for desk in self.away) + "."
        if self.wrong_key():
            return "lost", f"This table cannot enter: {KEYS[self.wrong_key()]}"
        if 2 * len(self.away) > len(self.lengths):
            return "lost", (f"{self.gone().capitalize()}. {kept} once more than half of the "
                            f"machines answer.{look}")
        if slow == "silent":
            return "lost", ("The machine that this table asks has not answered for "
                            f"{seconds} s. {kept} once one answers. Look after machine "
                            f"{self.followed}.")
        if slow == "undecided":
            return "lost", f"The machines have decided nothing for {seconds} s. {kept} again."
        if self.away:
            return "away", f"{self.gone().capitalize()}.{look}"
        if self.everywhere(0):
            return "well", f"All {NUMBERS[len(self.lengths)]} machines answer."
        return "away", "The machines are asked."

    def page(self, kind, title, inside):
        state, told = self.bar()
        return ('<!DOCTYPE html>\n<html lang="en"><head><meta charset="utf-8">\n'
                '<meta name="viewport" content="width=device-width, initial-scale=1">\n'
                f'<title>{escaped(title)}</title><link rel="stylesheet" href="/table.css">\n'
                f'<script src="/table.js" defer></script></head>\n<body class="{kind}">\n'
                '<nav><a href="/">all rounds</a>\n<a href="/rounds">open and close</a>\n'
                '<a href="/people">competitors</a></nav>\n'
                f'<p id="bar" class="{state}"><span role="status">{told}</span> '
                f"<small>result {self.length}</small></p>\n<main>\n"
                f"{inside}</main></body></html>\n")

    def recent(self):
        out = '<section id="recent"><h2>Last entered</h2>\n<ol>\n'
        newest = next((one for one, state, text in self.sent
                       if state[0] == "s" and CARD.fullmatch(text)), None)
        for one, state, text in self.sent:
            card = CARD.fullmatch(text)
            shown = self.card_sent(card) if card else f"<code>{escaped(text)}</code>"
            kind, told = self.state(one, state, card)
            out += (f'<li class="{kind}">{shown} <em>{told}</em>'
                    f"{self.answers(one, state, card, newest)}</li>\n")
        return out + "</ol></section>\n"

    def standing(self, card):
        """What stands of the competitor of a card: the values."""
        table = self.meet.rounds.get((card[1], int(card[2])))
        return table.entrants.get(int(card[3]), []) if table else []

    def why(self, one):
        if self.declined == (one, "refused"):
            return ": the desk is full, it is sent again"
        if self.declined == (one, "barred"):
            return ": the desk does not take it, since this table has no key, or another one"
        if self.wrong_key():
            return ": this table has no key, or another one than the desks"
        if 2 * len(self.away) > len(self.lengths):
            return ": less than a majority of the machines answers"
        return {"silent": ": the machine that this table asks does not answer",
                "undecided": ": the machines have not decided it yet", None: ""}[self.slow()[0]]

    def state(self, one, text, card):
        count = int(text[1:] or 0)
        if text[0] == "w":
            return "waits", f"waiting, {max(0, self.now - count) // 1000} s" + self.why(one)
        if text[0] == "s":
            if self.everywhere(count + 1):
                return "saved", f"saved on all {NUMBERS[len(self.lengths)]} machines"
            return "saved", "saved" + (f"; {self.gone()}" if self.away else "")
        if text[0] == "c":
            told = "not entered, it was changed meanwhile"
            if card:
                values = "".join(rules.printed(value, card[1]) + " "
                                 for value in self.standing(card))
                told += f": {values or 'nothing '}on record now"
            return "changed", f"{told}, by result {count + 1}"
        if text[0] == "r":
            return "refused", "not entered: the round is closed"
        return "refused", "not entered: its id was used for something else"

    def answers(self, one, state, card, newest):
        carried = hidden("token", TOKEN) + hidden("id", one) + "\n"
        if state[0] in "ws":
            return "" if one != newest else (
                f'<form method="post" action="/undo">{carried}{hidden("of", one)}'
                "<button>Take back</button></form>\n")
        again, stands = "", self.standing(card) if card and state[0] == "c" else []
        if card and state[0] == "c" and "=" not in card[5].split("/")[len(stands):]:
            again = (f'<form method="post" action="/again">{carried}'
                     f'{hidden("was", spelled_was(stands))}'
                     "<button>Enter it over what is on record now</button></form>\n")
        return (again + f'<form method="post" action="/answered">{carried}'
                "<button>Leave it</button></form>\n")

    def card_sent(self, card):
        where, who = f"{card[1]}-{card[2]}", int(card[3])
        was = [] if card[4] == "-" else card[4].split(",")
        spans = ""
        for place, outcome in enumerate([] if card[5] == "-" else card[5].split("/")):
            kind, *parts = outcome.split(":")
            if outcome == "=":
                said = rules.printed(int(was[place]) if was[place].isdigit() else was[place],
                                     card[1])
            elif kind == "T":
                said = rules.printed(int(parts[0]), "333")
                said += f"+{2 * int(parts[1])}" if parts[1] != "0" else ""
            elif kind == "M":
                said = f"{parts[0]}/{parts[1]} {int(parts[2]) // 60}:{int(parts[2]) % 60:02}"
            else:
                said = parts[0] if kind == "S" else kind
            kept = ' class="kept"' if outcome == "=" else ""
            spans += f"<span{kept}>{escaped(said)}</span>"
        return (f'<a href="/card/{where}?number={who}"><b>{who}</b> <bdi>{self.name(who)}</bdi>'
                f'</a> <small>{where}</small> <span class="typed">{spans}</span>')

    # ---- rounds in words

    def words(self, what, which):
        final = self.meet.rounds[what, which].advance == ("final",)
        return f"{WORDS[what]}, " + ("Final" if final else f"Round {which}")

    def settings(self, what, table):
        out = FORMS[table.form]
        if table.cutoff != "-":
            out += f", cutoff {rules.printed(table.cutoff[1], what)} in {table.cutoff[0]}"
        if table.limit != "-":
            out += f", limit {rules.printed(table.limit, '333')}"
        if table.advance[0] != "final":
            sign = "%" if table.advance[0] == "pct" else ""
            out += f", top {table.advance[1]}{sign} advance"
        return out

    @staticmethod
    def progress(table, who):
        values = table.entrants.get(who, [])
        if not values:
            return "absent"
        return "begun" if len(values) < table.allotted(values) else "done"

    @staticmethod
    def may_leave(table, who):
        return not table.closed and who in table.entrants and not table.entrants[who]

    def with_progress(self, table, progress):
        return [who for who in table.standings() if self.progress(table, who) == progress]

    def records(self, what, which):
        table = self.meet.rounds[what, which]
        attempts = [str(count + 1) for count in range(rules.ATTEMPTS[table.form])]
        yield ["place", "number", "name", "average", "best", *attempts, "advances"]
        for place, who, shown, advances in rules.rows(table):
            yield [str(place), str(who), self.meet.names[who].decode(), *shown,
                   "yes" if advances else "no"]

    @staticmethod
    def cells(fields):
        return "".join(f"<td>{escaped(field)}</td>" for field in fields)

    @staticmethod
    def headings(fields):
        return "".join(f'<th scope="col">{escaped(field)}</th>' for field in fields)

    # ---- the card

    def filled(self, what, was, values, typed):
        """What the fields have: what was typed, but what stands where the page showed it."""
        shown = [rules.printed(value, what) for value in was] + [""] * 5
        return [values[place] if text.strip() == shown[place] else text
                for place, text in enumerate(typed)]

    @staticmethod
    def best(table):
        """The best single that stands in a round; 0 for none."""
        return min((value for values in table.entrants.values() for value in values
                    if isinstance(value, int)), default=0)

    def card(self, what, which, number, typed, notes, origin=None, was=()):
        table, where = self.meet.rounds[what, which], f"{what}-{which}"
        who = int(number) if NUMBER.fullmatch(number.strip()) else None
        stands = table.entrants.get(who, [])
        standing = [rules.printed(value, what) for value in stands] + [""] * 5
        filled = self.filled(what, was, standing, typed) if typed else standing
        said = [NOTES.get(letter, CHANGES) for letter in notes]

        def at(place):
            return "".join(f'<strong role="alert">{words}</strong>'
                           for there, words, _ in said if there == place)

        def end(place):
            wrong = any(there == place and word == "-" for there, _, word in said)
            return (f'" aria-describedby="said{place}"'
                    + (' aria-invalid="true"' if wrong else "") + ">")

        def said_at(place):
            return f'<span class="said" id="said{place}">{at(place)}</span>'

        out = (f'<section id="card"><h1>{self.words(what, which)}</h1>\n'
               f'<p class="rules">{self.settings(what, table)}</p>\n')
        if table.closed:
            out += ('<p class="told">This round is closed: a card of it is refused. Until the next '
                    f'round is opened, it <a href="/rounds?round={where}">can be opened again</a>.'
                    "</p>\n")
        if self.meet.edition < 4:
            return out + self.edition_form(f"/card/{where}") + "</section>\n"
        out += ('<form method="post" action="/card" autocomplete="off" '
               f'data-unit="{unit(what)}" data-format="{table.form}" '
               f'data-cutoff="{rules.spelled(table.cutoff)}" data-limit="{table.limit}" '
               f'data-floor="{round(100 * FLOORS.get(what, 0))}" data-best="{self.best(table)}" '
               f'data-spare="{"".join(f" {spare}" for spare in IDS[1:])}">\n'
               f'{hidden("token", TOKEN)}{hidden("id", IDS[0])}\n{hidden("round", where)}\n'
               f'{hidden("was", spelled_was(stands))}\n')
        if origin:
            place = ("entered at this table" if origin[0] == "here"
                     else "from no card of this table")
            out += f'<p class="origin">Result {origin[1]}, {place}</p>\n'
        if who:
            out += (f'<p class="origin"><a href="/history/{where}?number={who}">History of this '
                    "result</a></p>\n")
        if self.may_leave(table, who):
            out += (f'<p class="origin"><a href="/person/{who}">Withdraw competitor {who}</a>'
                    "</p>\n")
        if any(word == "-" for _, _, word in said):
            out += '<p class="told">Not entered yet: what is wrong is said below.</p>\n'
        elif said:
            out += (hidden("sure", "".join(f" {word}" for _, _, word in said))
                    + '<p class="told">Not entered yet: Enter once more, if it is right.</p>\n')
        out += (f'{at(6)}<div class="field"><label for="number">Competitor</label>'
                f'<input id="number" name="number" autofocus value="{escaped(number)}{end(0)}'
                f'<output id="who"><bdi>{self.name(who)}</bdi></output>'
                f'<ul id="found"></ul>{said_at(0)}</div>\n')
        for place in range(rules.ATTEMPTS[table.form]):
            name = f"a{place + 1}"
            out += (f'<p class="field"><label for="{name}">{place + 1}</label>'
                    f'<input id="{name}" name="{name}" value="{escaped(filled[place])}'
                    f'{end(place + 1)}'
                    f'<output></output><span class="stands">{standing[place]}</span>'
                    f"{said_at(place + 1)}</p>\n")
        return out + (
            '<p class="results"><output id="average"></output><output id="best"></output></p>\n'
            '<button>Enter the card</button>\n</form>\n<p class="keys"><kbd>d</kbd> or '
            '<kbd>/</kbd> DNF, <kbd>s</kbd> or <kbd>*</kbd> DNS (in fewest moves <kbd>/</kbd> and '
            '<kbd>*</kbd>), <kbd>+</kbd> after a time 2 seconds more</p>\n'
            '<p class="options" hidden><label>'
            '<input id="sound" type="checkbox"> sound</label> <label>'
            '<input id="blind" type="checkbox"> second reading: what differs is listed</label>'
            '</p>\n'
            '<p id="unsent"></p>\n<ol id="back"></ol></section>\n')

    def beside(self, what, which):
        table, where = self.meet.rounds[what, which], f"{what}-{which}"
        counts = {kind: len(self.with_progress(table, kind))
                  for kind in ("done", "begun", "absent")}
        names, *lines = self.records(what, which)
        out = ('<div id="beside"><p hidden><label>Filter by name <input id="filter" type="search">'
               f'</label></p>\n<section id="round"><h2>{self.words(what, which)}</h2>\n'
               f'<p class="count">{counts["done"]} of {len(table.entrants)} done, '
               f'{counts["begun"]} in the middle, {counts["absent"]} without an attempt</p>\n'
               "<table><caption>Entrants of this round by place, with attempts</caption>"
               f"<thead><tr>{self.headings(names)}</tr></thead><tbody>\n")
        for fields in lines:
            who = fields[1]
            was = spelled_was(table.entrants.get(int(who), []))
            out += (f'<tr class="{self.progress(table, int(who))}" data-was="{was}">'
                    f'{self.cells(fields[:1])}'
                    f'<td><a href="/card/{where}?number={who}">{who}</a></td>'
                    f"{self.cells(fields[2:])}</tr>\n")
        return out + "</tbody></table>\n</section></div>\n"

    def card_page(self, what, which, number="", typed=None, notes="", origin=None, was=()):
        inside = self.card(what, which, number, typed, notes, origin, was) + self.recent()
        return self.page("entry", self.words(what, which), inside + self.beside(what, which))

    # ---- the hall

    def overview(self):
        out = ('<section id="rounds"><h1>Rounds</h1>\n<table><caption>How far each is</caption>'
               "<tbody>\n")
        order = list(WORDS)
        for what, which in sorted(self.meet.rounds, key=lambda it: (order.index(it[0]), it[1])):
            table, where = self.meet.rounds[what, which], f"{what}-{which}"
            done, begun = (len(self.with_progress(table, kind)) for kind in ("done", "begun"))
            links = (("/rounds?round=", "open and close"), ("/wall/", "sheet for the wall"),
                     ("/scorecards/", "scorecards"))
            out += (f'<tr><th scope="row"><a href="/card/{where}">{self.words(what, which)}</a>'
                    "</th>"
                    f"<td>{'closed' if table.closed else 'open'}</td>"
                    f"<td>{done} of {len(table.entrants)} done, {begun} in the middle</td>"
                    + "".join(f'<td><a href="{path}{where}">{words}</a></td>'
                              for path, words in links) + "</tr>\n")
        out += ('</tbody></table>\n<p><a href="/rounds">Open a round</a> '
                '<a href="/labels">Labels</a></p></section>\n')
        if self.file is not None:
            out += ('<section id="sending"><p><a href="/before">Before you send the results</a></p>'
                    "</section>\n")
        return self.page("hall", "Score table", out + self.recent())

    @staticmethod
    def form(form, command, back):
        return ('<form method="post" action="/command" autocomplete="off">\n'
                f'{hidden("token", TOKEN)}{hidden("id", IDS[form])}\n{hidden("command", command)}\n'
                f'{hidden("back", back)}\n')

    @staticmethod
    def field(name, label, value=""):
        return f'<label>{label} <input name="{name}" value="{escaped(str(value))}"></label>\n'

    @staticmethod
    def in_unit(name, label, unit_, value):
        return (f'<label>{label} <input name="{name}" data-unit="{unit_}" '
                f'value="{escaped(str(value))}"></label>\n')

    @staticmethod
    def button(words):
        return f"<button>{words}</button></form>\n"

    @staticmethod
    def choices(pairs):
        return "".join(f'<option value="{value}">{words}</option>\n' for value, words in pairs)

    def people(self):
        free = max((who for who in self.meet.names if who < 9999), default=0) + 1
        first = [(what, self.meet.rounds[what, 1]) for what in WORDS
                 if (what, 1) in self.meet.rounds]
        out = ("<section><h1>Competitors</h1>\n<p><a href=\"/import\">From a competition's file or "
               "from lines</a></p>\n<h2>Register a competitor</h2>\n<p>The button gives the "
               "number, which nobody may have yet, to this name.</p>\n"
               + self.form(0, "REG", "/people") + self.field("number", "Number", free)
               + self.field("name", "Name") + self.button("Register")
               + "<h2>Enter a competitor in an event</h2>\n<p>The button enters the competitor in "
               + "the first round of the event.</p>\n" + self.form(1, "ENT", "/people")
               + '<label>Event <select name="event">\n'
               + self.choices((what, WORDS[what]) for what, table in first if not table.closed)
               + "</select></label>\n" + self.field("number", "Number") + self.button("Enter")
               + "<table><caption>Who is registered</caption>\n<thead><tr>"
               + self.headings(("number", "name", "events")) + "</tr></thead><tbody>\n")
        for who in sorted(self.meet.names):
            events = "".join(f" {what}" for what, table in first if who in table.entrants)
            out += (f'<tr><td>{who}</td><td dir="auto"><a href="/person/{who}">{self.name(who)}'
                    f"</a></td><td>{events}</td></tr>\n")
        out += "</tbody></table></section>\n"
        return self.page("hall", "Competitors", out + self.recent())

    def edition_form(self, back):
        return ("<h2>Edition 4</h2>\n<p>An earlier edition of the commands holds in this hall, and "
                "this table accepts no card under it. With edition 4 a scorecard is one command, "
                "which counts over what its scoretaker saw, or not at all. The commands can also "
                "change a name, the settings of a round and a scramble, withdraw a competitor, and "
                "open a closed round again. First each desk has to run a program that knows "
                "edition 4. It can't be taken back. This is sent: <code>EDITION 4</code></p>\n"
                '<form method="post" action="/command" autocomplete="off">\n'
                f'{hidden("token", TOKEN)}{hidden("id", IDS[0])}\n{hidden("command", "EDITION")}\n'
                f'{hidden("back", back)}\n{hidden("text", "EDITION 4")}\n'
                "<button>Change to edition 4</button></form>\n")

    def person(self, who):
        back, number = f"/person/{who}", hidden("number", who) + "\n"
        within = "".join(f' <a href="/card/{what}-{which}?number={who}">{what}-{which}</a>'
                         for what in WORDS for which in range(1, 5)
                         if (what, which) in self.meet.rounds
                         and who in self.meet.rounds[what, which].entrants)
        out = (f'<section><h1 dir="auto">{self.name(who)}</h1>\n'
               f"<p>Number {who}, rounds:{within}</p>\n")
        if self.meet.edition < 4:
            out += self.edition_form(back)
        else:
            out += ("<h2>Change the name</h2>\n<p>The button gives this number the name in the "
                    "field, everywhere.</p>\n" + self.form(0, "REN", back) + number
                    + self.field("name", "Name", self.meet.names[who].decode())
                    + self.button("Change the name"))
            rounds = [(what, which) for what in WORDS for which in range(1, 5)
                      if (what, which) in self.meet.rounds
                      and self.may_leave(self.meet.rounds[what, which], who)]
            if rounds:
                out += ("<h2>Withdraw</h2>\n<p>From a round that is open, before the first attempt "
                        "in it. From a first round it is taken back by entering the competitor "
                        'once more, under <a href="/people">competitors</a>. From a later round it '
                        "can't be taken back: the best of the round before who has a result, did "
                        "not advance and has not taken a place yet takes the place.</p>\n"
                        + self.form(1, "WDR", back) + number
                        + "".join(f'<button name="round" value="{what}-{which}">Withdraw from '
                                  f"{self.words(what, which)}</button>\n"
                                  for what, which in rounds) + "</form>\n")
        return self.page("hall", "Competitor", out + "</section>\n" + self.recent())

    def refused(self):
        return self.page("hall", "Not sent", (
            '<section><h1>Not sent</h1>\n<p><strong role="alert">nothing is written &lt;here&gt;'
            '</strong></p>\n<p><a href="/people">Back to the form</a></p></section>\n'))

    def faults(self):
        return self.page("hall", "Not entered", (
            '<section><h1>Not entered</h1>\n<pre role="alert">a.json:1:2: &lt;\n333-r1: &amp;\n'
            '</pre>\n<p><a href="/import">Back to the form</a></p></section>\n'))

    # ---- several commands

    @staticmethod
    def lines_form(path, form, back, lines, words):
        text = "".join(f"\n{escaped(line)}" for line in lines)
        return (f'<form method="post" action="{path}" autocomplete="off">\n'
                f'{hidden("token", TOKEN)}{hidden("id", IDS[form])}\n{hidden("back", back)}\n'
                "<details><summary>What is sent</summary>\n"
                f'<textarea name="lines" rows="12" cols="60" readonly>{text}</textarea></details>\n'
                f"<button>{words}</button></form>\n")

    def importing(self):
        carried = [hidden("token", TOKEN) + hidden("id", IDS[form]) + "\n" for form in (0, 1)]
        out = ("<section><h1>From a file or from lines</h1>\n<p>Nothing is entered yet: what would "
               "be entered is shown first.</p>\n<h2>A competition's file</h2>\n"
               '<form method="post" action="/import" enctype="multipart/form-data">\n'
               + carried[0] + "<label>A competition in the WCA Competition Interchange Format "
               '<input type="file" name="file" accept=".json"></label>\n')
        for name, value, words in (
                ("cumulative", "as-single",
                 "A time limit for several attempts together becomes the limit of each"),
                ("same-names", "id",
                 "Each of several persons with one name gets the WCA ID behind it")):
            out += (f'<label><input type="checkbox" name="{name}" value="{value}"> '
                    f"{words}</label>\n")
        out += ("<button>Look at it</button></form>\n<h2>Lines of commands</h2>\n"
                '<form method="post" action="/lines" autocomplete="off">\n' + carried[1]
                + hidden("back", "/import") + "\n<label>One command a line, as in REG 17 Ann Li "
                '<textarea name="lines" rows="12" cols="60"></textarea></label>\n'
                "<button>Look at them</button></form></section>\n")
        return self.page("hall", "From a file or from lines", out + self.recent())

    def preview(self):
        entered = [text for code, text in self.tried if code == "-"]
        refused = [(text, MEANINGS[code]) for code, text in self.tried if code != "-"]
        several = "command" if len(entered) == 1 else "commands"
        out = (f'<section><h1>What would be entered</h1>\n<p class="told">{len(entered)} {several} '
               f"would be entered, and {len(refused)} would not.</p>\n")
        if refused:
            out += "<h2>Not entered</h2>\n<ol>\n" + "".join(
                f"<li><code>{escaped(text)}</code> <em>{why}</em></li>\n"
                for text, why in refused) + "</ol>\n"
        if entered:
            out += "<h2>To enter</h2>\n<ol>\n" + "".join(
                f"<li><code>{escaped(text)}</code>{self.leaver(text)}</li>\n"
                for text in entered) + "</ol>\n"
            out += self.lines_form("/commands", 0, "/import", entered,
                                   f"Enter {len(entered)} {several}")
        return self.page("hall", "What would be entered", (
            out + '<p><a href="/import">Back, and enter nothing</a></p></section>\n'))

    def leaver(self, text):
        """The name of whom a command withdraws."""
        word, *fields = text.split(" # ")[0].split(" ")
        return f" <bdi>{self.name(int(fields[2]))}</bdi>" if word == "WDR" else ""

    def to_come(self, where, table):
        """Who of the round before waits for a place in this one, and is not in it."""
        what, which = where.split("-")
        before = self.meet.rounds.get((what, int(which) - 1))
        advancing = before.advancing() if before else []
        return [who for who in (before.standings() if before else [])
                if who not in advancing and rules.numbers(before.entrants[who])
                and who not in table.entrants]

    def never_came(self, where, table):
        absent = self.with_progress(table, "absent")
        if not absent:
            return ""
        if self.meet.edition < 4:
            return '<p>With <a href="/rounds">edition 4</a> they could be withdrawn.</p>\n'
        if where.endswith("-1"):
            undone = ("While the round is open it is taken back by entering the competitor once "
                      'more, under <a href="/people">competitors</a>.')
        else:
            undone = ("It can't be taken back: the best of the round before who has a result, did "
                      "not advance and has not taken a place yet takes the place, and is shown "
                      "here until the first attempt.")
        forms = [("<p>Who never came is withdrawn, and has no result in this round then. " + undone
                  + " If one of these still comes, withdraw each of the others on the page of that "
                  "competitor. The button enters nothing yet: it shows each command, with the "
                  "name.</p>\n", 16, absent, "Withdraw who never came")]
        if others := self.to_come(where, table):
            forms.append(("<p>Where nobody is to come any more, all who would take a place are "
                          "withdrawn too, one after the other, and the places stay empty. That "
                          "can't be taken back either. This button enters nothing yet too.</p>\n",
                          17, absent + others, "Withdraw these and all who wait"))
        return "".join(
            words + self.lines_form("/lines", form, f"/rounds?round={where}",
                                    [f"WDR {where.replace('-', ' ')} {who}" for who in numbers],
                                    button)
            for words, form, numbers, button in forms)

    # ---- rounds

    def is_next(self, what, which):
        before = self.meet.rounds.get((what, which - 1))
        return which == 1 or bool(before and before.closed and before.advance != ("final",))

    def all_rounds(self):
        out = ("<section><h1>Open and close rounds</h1>\n<table><caption>By event</caption>"
               "<tbody>\n")
        for what in WORDS:
            if what == "333mbf" and self.meet.edition < 2:
                continue
            out += f'<tr><th scope="row">{WORDS[what]}</th>'
            for which in range(1, 5):
                table = self.meet.rounds.get((what, which))
                if table is None and not self.is_next(what, which):
                    continue
                words = "to open" if table is None else "closed" if table.closed else "open"
                out += (f'<td><a href="/rounds?round={what}-{which}">Round {which}</a>: '
                        f"{words}</td>")
            out += "</tr>\n"
        out += "</tbody></table>\n"
        if self.meet.edition >= 4:
            return out + "<p>Edition 4 of the commands holds.</p>\n</section>\n"
        return out + self.edition_form("/rounds") + "</section>\n"

    def advance_fields(self, advance):
        options = "".join(
            f'<option value="{name}"{" selected" if name == advance[0] else ""}>{words}</option>\n'
            for name, words in (("final", "nobody: it is the final"), ("top", "a number"),
                                ("pct", "a percentage")))
        return (f'<label>Who advances <select name="advance">\n{options}</select></label>\n'
                + self.field("amount", "how many", "".join(map(str, advance[1:]))))

    def proposed(self, what, which):
        """What is said of it, and the format, the cutoff, the limit and who advances."""
        if which == 1:
            return "What is chosen here is proposed: ", None, "-", "10:00.00", ("final",)
        before = self.meet.rounds[what, which - 1]
        come = len(before.advancing())
        earlier = [self.meet.rounds[what, j].as_next_sees_it() for j in range(1, which)]
        last = any(rules.later_rounds(len(it.started())) < which + 1 - j
                   for j, it in enumerate(earlier, 1))
        advance = ("final",) if last or come <= 16 else ("top", rules.quota(("top", 16), come))
        told = (f"{come} {'comes' if come == 1 else 'come'} into this round. What is chosen here "
                "is proposed: ")
        form, cutoff, limit = before.form, "-", before.limit
        if (what, which) in PROPOSALS:
            form, cutoff, limit, advance = PROPOSALS[what, which]
            advance = ("final",) if last else advance
        return (told, form, cutoff, "" if limit == "-" else rules.printed(limit, "333"), advance)

    def rule_fields(self, what, chosen, cutoff, limit):
        forms = [form for form in FORMS if form in rules.FORMATS[what]]
        options = "".join(
            f'<option value="{form}"{" selected" if form == chosen else ""}>{FORMS[form]}'
            "</option>\n" for form in forms)
        out = f'<label>Format <select name="format">\n{options}</select></label>\n'
        if what != "333mbf":
            after, below = ("", "") if cutoff == "-" else cutoff
            wanted = ("a number of moves" if unit(what) == "moves"
                      else "minutes and seconds as on a card: 15 is 0.15")
            out += ('<label>Cutoff after <select name="after">\n<option value="">none</option>\n'
                    + "".join(f"<option{' selected' if count == after else ''}>{count}</option>\n"
                              for count in range(1, 5 if "ao5" in forms else 3))
                    + "</select> attempts</label>\n"
                    + self.in_unit("cutoff", f"one of them below ({wanted})", unit(what),
                                   below and rules.printed(below, what)))
        if unit(what) == "time":
            out += self.in_unit("limit", "Time limit (minutes and seconds as on a card: 10 is "
                                "0.10)", "time", limit)
        return out

    def opening(self, what, which):
        where = f"{what}-{which}"
        told, proposed, cutoff, limit, advance = self.proposed(what, which)
        return (f"<h2>Open the round</h2>\n<p>{told}change what you like. The button opens the "
                "round as the fields say.</p>\n"
                + self.form(0, "OPEN", f"/rounds?round={where}") + hidden("round", where) + "\n"
                + self.rule_fields(what, proposed, cutoff, limit)
                + self.advance_fields(advance) + self.button("Open the round"))

    def changing(self, what, where, table):
        attempted = any(table.entrants.values())
        link = '<p>With <a href="/rounds">edition 4</a>'
        if self.meet.edition < 4:
            if what == "333fm":
                return (f"{link} a scramble could be changed, and before the first attempt format "
                        "and cutoff.</p>\n")
            return "" if attempted else (f"{link} format, cutoff and limit could be changed before "
                                         "the first attempt.</p>\n")
        limit = "" if table.limit == "-" else rules.printed(table.limit, "333")
        return "" if attempted else (
            "<h2>Change format, cutoff and limit</h2>\n<p>The button sets these to what the fields "
            "say, until the first attempt.</p>\n"
            + self.form(5, "SET", f"/rounds?round={where}") + hidden("round", where) + "\n"
            + self.rule_fields(what, table.form, table.cutoff, limit)
            + self.button("Change format, cutoff and limit"))

    def entrants(self, where, numbers):
        return "".join(f'<li><a href="/card/{where}?number={who}"><b>{who}</b> '
                       f"<bdi>{self.name(who)}</bdi></a></li>\n" for who in numbers)

    def through(self, where, table):
        if table.advance == ("final",):
            return "<p>It is the final: nobody advances.</p>\n"
        numbers, most = table.advancing(), rules.quota(table.advance, len(table.started()))
        out = (f"<h2>Who advances, as of now: {len(numbers)}</h2>\n<ol>\n"
               + self.entrants(where, numbers) + "</ol>\n")
        if len(numbers) >= most:
            return out
        tied = self.tied(table, numbers)
        if not tied:
            return out + f'<p class="told">{most} could advance: the others have no result.</p>\n'
        return (out + f'<p class="told">{most} could advance, but these are tied at the border, so '
                "none of them does:</p>\n<ul>\n" + self.entrants(where, tied) + "</ul>\n")

    @staticmethod
    def tied(table, through):
        """The best of those with a result who don't go on: all who share their place."""
        places = table.places()
        left = [who for who in table.standings()
                if who not in through and rules.numbers(table.entrants[who])]
        return [who for who in left if places[who] == places[left[0]]]

    def scrambles(self, what, where, table):
        out = ("<h2>Scrambles</h2>\n<p>Each button sets the scramble of its attempt to the moves "
               "in its field.</p>\n")
        for count in range(1, rules.ATTEMPTS[table.form] + 1):
            word, words, moves = "SCR", "Set the scramble", ""
            if count in table.scrambles:
                word, words = "RSC", "Change the scramble"
                moves = " ".join(table.scrambles[count])
                out += f"<p>Scramble {count}: <code>{escaped(moves)}</code></p>\n"
            if word == "SCR" or self.meet.edition >= 4:
                out += (self.form(count + 1, word, f"/rounds?round={where}")
                        + hidden("round", where) + "\n"
                        + self.field("attempt", "Scramble of attempt", count)
                        + self.field("moves", "moves", moves) + self.button(words))
        return out

    def open_round(self, what, where, table):
        out = self.scrambles(what, where, table) if what == "333fm" else ""
        for heading, kind in (("In the middle", "begun"), ("Without an attempt", "absent")):
            numbers = self.with_progress(table, kind)
            if numbers:
                out += f"<h2>{heading}</h2>\n<ul>\n{self.entrants(where, numbers)}</ul>\n"
        out += self.never_came(where, table)
        text, back = f"CLOSE {where.replace('-', ' ')}", f"/rounds?round={where}"
        after = ("It can be opened again until the next round is opened."
                 if self.meet.edition >= 4 else "Nothing in it changes afterwards.")
        return (out + self.through(where, table) + self.changing(what, where, table)
                + "<h2>Change who advances</h2>\n<p>The button sets who advances to what is chosen "
                "here, and changes nothing else.</p>\n"
                + self.form(1, "ADV", back) + hidden("round", where) + "\n"
                + self.advance_fields(table.advance)
                + self.button("Change who advances") + "<h2>Close the round</h2>\n"
                + self.form(0, "CLOSE", back) + hidden("round", where) + "\n" + hidden("text", text)
                + f"\n<p>{after} This is sent: "
                f"<code>{text}</code></p>\n"
                + self.button("Close the round"))

    def forms(self, what, which):
        table, where = self.meet.rounds.get((what, which)), f"{what}-{which}"
        called = self.words(what, which) if table else f"{WORDS[what]}, Round {which}"
        out = (f'<section><h1>{called}</h1>\n'
               f'<p><a href="/card/{where}">its cards</a></p>\n')
        if table is None and self.is_next(what, which):
            out += self.opening(what, which)
        elif table is None:
            out += "<p>The round before it is not closed, or is the final.</p>\n"
        else:
            out += f'<p class="rules">{self.settings(what, table)}</p>\n'
            out += self.closed(what, which, table) if table.closed \
                else self.open_round(what, where, table)
        return out + "</section>\n"

    def closed(self, what, which, table):
        where = f"{what}-{which}"
        out = "<p>The round is closed.</p>\n" + self.through(where, table)
        if table.advance != ("final",) and which < 4:
            link = f"/rounds?round={what}-{which + 1}"
            out += f'<p><a href="{link}">Open the next round</a></p>\n'
        if (what, which + 1) in self.meet.rounds:
            return out
        if self.meet.edition < 4:
            return out + ('<p>With <a href="/rounds">edition 4</a> it could be opened again.'
                          "</p>\n")
        return out + ("<p>It can be opened again until the next round is opened.</p>\n"
                      + self.form(0, "REOPEN", f"/rounds?round={where}") + hidden("round", where)
                      + "\n" + self.button("Open it again"))

    def rounds(self, round_):
        inside = self.all_rounds() if round_ is None else self.forms(*round_)
        return self.page("hall", "Open and close rounds", inside + self.recent())

    # ---- before results are sent in

    def open_line(self, line):
        """The row of what an export would refuse or remark, by its line."""
        where, _, told = line.partition(": ")
        what, which = where.split("-r")
        called = (self.words(what, int(which)) if (what, int(which)) in self.meet.rounds
                  else f"{what}-{which}")
        kind = next(kind for kind in TO_DO if kind in told)
        who = re.match("number ([0-9]+)", told)
        told = re.sub('"(.*?)"', lambda name: f'"<bdi>{name[1]}</bdi>"', html.escape(told, False))
        return (f'<tr><th scope="row"><a href="/rounds?round={what}-{which}">{called}</a></th>'
                f"<td>{told}</td><td>{TO_DO[kind].format(who and who[1])}</td></tr>\n")

    def before(self):
        out = ("<section><h1>Before you send</h1>\n<p>What an export of the list so far over the "
               "competition's file would refuse or remark.</p>\n")
        if self.file is None:
            out += ("<p>This score table was started without the competition's file: start it with "
                    "<code>--wcif FILE</code>.</p>\n")
        elif not self.meet.rounds:
            out += "<p>The list opens no round: there is nothing to send.</p>\n"
        else:
            _, refused, remarked, _ = wcif_results.exported(self.log, json.dumps(self.file))
            rows = "".join(map(self.open_line, beside.open_lines(refused, remarked)))
            out += ("<table><caption>First what is refused, then what is remarked, by rounds"
                    "</caption>\n<thead><tr><th>round</th><th>what is open</th><th>what to do</th>"
                    f"</tr></thead><tbody>\n{rows}</tbody></table>\n" if rows else
                    "<p><strong>nothing is open</strong></p>\n<p>Each round of the list is closed, "
                    "and the file has a place for each of its results: <code>desk export</code> "
                    "prints the file with them.</p>\n")
        return self.page("hall", "Before you send", out + "</section>\n" + self.recent())

    # ---- paper

    def printed(self, kind, inside, title=None):
        return ('<!DOCTYPE html>\n<html lang="en"><head><meta charset="utf-8">\n'
                f'<title>{escaped(title or self.hall)}</title>'
                '<link rel="stylesheet" href="/table.css">'
                f'</head>\n<body class="{kind}"><main>\n{inside}</main></body></html>\n')

    def wall(self, what, which):
        return self.printed("wall", f"<h1>{escaped(self.hall)}</h1>\n"
                            + section(self.meet, what, which, self.length)
                            + '<p class="signature">Delegate: <span></span> Date: <span></span>'
                            "</p>\n")

    def scorecards(self, what, which):
        table, out = self.meet.rounds[what, which], ""
        names = {who: self.meet.names[who].decode() for who in table.entrants}
        whose = [f'<p class="group">{seat}</p>\n<p class="who"><b>{who}</b> <bdi>{escaped(name)}'
                 f"</bdi> <span>{escaped(wca_id)}</span></p>\n"
                 for who, name, wca_id, seat in beside.cards(self.file, what, which, names)]
        below = together(self.file, what, which)
        if table.advance != ("final",):
            below += NEXT
        for person in whose + [NOBODY] * beside.blanks(len(whose)):
            out += (f'<section class="scorecard"><p class="hall">{escaped(self.hall)}</p>\n'
                    f'<p class="round">{self.words(what, which)}</p>\n{person}<table><thead><tr>'
                    "<th></th><th>scrambler</th><th>result</th><th>judge</th><th>competitor</th>"
                    "</tr></thead><tbody>\n")
            for count in range(1, rules.ATTEMPTS[table.form] + 1):
                last = table.cutoff != "-" and table.cutoff[0] == count
                out += self.card_row("cutoff" if last else "attempt", count)
            out += (self.card_row("extra", "extra") * 2 + '</tbody></table>\n<p class="rules">'
                    f"{self.settings(what, table)}</p>\n{below}</section>\n")
        for group, lists in beside.duties(self.file, what, which):
            out += f'<section class="duties"><h2>{self.words(what, which)}, group {group}</h2>\n'
            for heading, names in zip(beside.DUTIES, lists):
                names = "".join(f"<li>{escaped(name)}</li>\n" for name in names)
                out += f"<div><h3>{heading}</h3>\n<ul>{names}</ul></div>\n"
            out += "</section>\n"
        return self.printed("scorecards", out)

    def labels(self):
        out = ""
        for who, name in sorted(self.meet.names.items()):
            one = beside.person(self.file, who)
            wca_id, country = (escaped(beside.text(one, key) or "")
                               for key in ("wcaId", "countryIso2"))
            out += (f'<p class="label"><b>{who}</b> <bdi>{escaped(name.decode())}</bdi> '
                    f"<span>{wca_id} {country}</span></p>\n")
        return self.printed("labels", out, "labels")

    @staticmethod
    def card_row(kind, heading):
        return f'<tr class="{kind}"><th scope="row">{heading}</th>' + 4 * "<td></td>" + "</tr>\n"

    # ---- paths

    def at(self, path):
        fixed = {"/": self.overview, "/people": self.people, "/refused": self.refused,
                 "/faults": self.faults, "/import": self.importing, "/preview": self.preview,
                 "/before": self.before, "/labels": self.labels}
        if path in fixed:
            return fixed[path]()
        kind, _, rest = path.removeprefix("/").partition("/")
        if path.startswith("/rounds"):
            found = ROUND.fullmatch(path.removeprefix("/rounds").removeprefix("?round="))
            return self.rounds(found and (found[1], int(found[2])))
        if kind == "person":
            who = int(rest)
            return self.person(who) if who in self.meet.names else "none\n"
        name, _, query = rest.partition("?number=")
        query, _, origin = query.partition("&")
        found = ROUND.fullmatch(name)
        if not found or (found[1], int(found[2])) not in self.meet.rounds:
            return "none\n"
        what, which = found[1], int(found[2])
        if kind == "card":
            return self.card_page(what, which, query, origin=origin and origin.split("="))
        return {"wall": self.wall, "scorecards": self.scorecards}[kind](what, which)

    def typed(self, text):
        where, _, rest = text.partition(" ")
        notes, was, fields = rest.split(" ", 2)
        found = ROUND.fullmatch(where)
        number, *typed = (fields.split("|") + [""] * 6)[:6]
        values = [int(value) if value.isdigit() else value
                  for value in ([] if was == "-" else was.split(","))]
        return self.card_page(found[1], int(found[2]), number, typed, notes, None, values)

    def line(self, line, out):
        word, _, text = line.partition(" ")
        if word == "new":
            self.__init__()
        elif word == ">":
            self.meet.apply(text.encode())
            self.log.append(text)
            self.length += 1
        elif word == "hall":
            self.hall = text
        elif word == "now":
            self.now = int(text)
        elif word == "file":
            self.file = None if text == "-" else json.loads(text)
        elif word == "desks":
            read = [None if it == "-" else int(it) for it in text.split(" ")]
            self.followed, self.silent, self.undecided, *self.lengths = read
        elif word in ("refused", "barred"):
            self.declined = text, word
        elif word == "key":
            self.key = None if text == "-" else text
        elif word == "away":
            self.away = [int(desk) for desk in text.split(" ") if desk != "-"]
        elif word == "try":
            self.tried.append(text.split(" ", 1))
        elif word == "command":
            self.sent.append(text.split(" ", 2))
        elif word in ("get", "typed"):
            out.append(f"== {text}\n" + (self.at(text) if word == "get" else self.typed(text)))


def main():
    pages, out, is_table = Pages(), [], False
    for line in sys.stdin.buffer.read().decode().split("\n"):
        if line.startswith("pages of "):
            is_table = line == "pages of the score table"
        elif is_table:
            pages.line(line, out)
    sys.stdout.buffer.write("".join(out).encode())


if __name__ == "__main__":
    main()
