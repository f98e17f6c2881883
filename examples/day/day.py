#!/usr/bin/env python3
"""A whole competition for a hall to be tried with, made from a seed.

    examples/day/day.py [--seed NUMBER] FOLDER

Writes into FOLDER:

    competition.json   the competition in the WCA's format (WCIF), as its organiser has it before
    day.txt            every command of the day, one a line, in the order of the hall's clock
    plan.txt           when and where each of them is entered: SECOND STATION CODE COMMAND

SECOND counts from the opening of the doors, STATION is 1 to 6, and CODE is what a desk answers. The
README beside this file says what the day has, and by which model its times are made. Standard
library only; bench/rules.py says who advances and what each command is answered.
"""

import json
import sys
from pathlib import Path

TOP = Path(__file__).resolve().parents[2]
sys.dont_write_bytecode = True
sys.path += [str(TOP / "bench"), str(TOP / "scripts")]
import rules
import running
from people import Attempts, Chance, people_of, scramble

SEED = 2026
PEOPLE, DECLINED = 120, 6
STATIONS = 6
TABLES = (1, 2)  # the stations that are score tables; at the others lines are typed
DESK_OF_THE_DAY = 6  # the station that opens and closes rounds
DOORS, GAP = 900, 240  # seconds from the doors to the first round, and between two on a stage
LENGTH = 36_000  # seconds from the first round to the end of the last one

# each round: format, cutoff, limit, who advances
ROUNDS = {
    "333": ["ao5 2:3000 60000 pct:75", "ao5 - 60000 top:44", "ao5 - 60000 top:16",
            "ao5 - 60000 final"],
    "222": ["ao5 - 60000 pct:60", "ao5 - 60000 top:20", "ao5 - 60000 final"],
    "444": ["ao5 2:9000 60000 top:48", "ao5 - 60000 top:16", "ao5 - 60000 final"],
    "555": ["ao5 2:15000 60000 top:24", "ao5 - 60000 final"],
    "777": ["mo3 1:42000 60000 final"],
    "333bf": ["bo3 - 60000 top:16", "bo3 - 60000 final"],
    "333fm": ["mo3 - - final"],
    "333oh": ["ao5 2:4500 60000 pct:60", "ao5 - 60000 top:16", "ao5 - 60000 final"],
    "clock": ["ao5 - 60000 top:24", "ao5 - 60000 final"],
    "minx": ["ao5 2:12000 60000 top:24", "ao5 - 60000 final"],
    "pyram": ["ao5 - 60000 pct:60", "ao5 - 60000 top:24", "ao5 - 60000 final"],
    "skewb": ["ao5 - 60000 pct:50", "ao5 - 60000 final"],
    "sq1": ["ao5 2:4000 60000 top:24", "ao5 - 60000 final"],
    "333mbf": ["bo2 - - final"],
}

# which rounds are held on which of the two stages, in their order
STAGES = [
    "333fm-1 444-1 pyram-1 333oh-1 333-1 minx-1 pyram-2 444-2 333-2 222-2 clock-2 333oh-3 pyram-3 "
    "444-3 333-4",
    "222-1 333mbf-1 555-1 skewb-1 clock-1 333bf-1 sq1-1 777-1 333oh-2 minx-2 sq1-2 skewb-2 555-2 "
    "333bf-2 333-3 222-3",
]


# --- the day -------------------------------------------------------------------------------------


class Day:
    """Commands as they are entered: second, station, code and text."""

    def __init__(self, seed):
        self.chance = Chance(seed)
        everybody = people_of(self.chance, PEOPLE + DECLINED)
        declined = set(self.chance.shuffled(person.number for person in everybody)[:DECLINED])
        self.people = [person for person in everybody if person.number not in declined]
        self.declined = [person for person in everybody if person.number in declined]
        self.by_number = {person.number: person for person in self.people}
        self.attempts = Attempts(self.chance)
        self.meet = rules.Meet()
        self.setup, self.plan = [], []

    # --- entering ---

    def answered(self, text):
        return self.meet.apply(text.encode()) or "Done"

    def enter(self, second, station, text, wanted="Done"):
        """Enters a command, of which it is known what it is answered."""
        code = self.answered(text)
        if code != wanted:
            raise SystemExit(f"day: {text} is {code}, and not {wanted}")
        self.plan.append((second, station, code, text))

    def set_up(self):
        """What the competition's file makes, which `desk import` prints."""
        lines = ["EDITION 4"]
        lines += [f"REG {person.number} {person.name}" for person in self.people]
        lines += [f"OPEN {event} 1 {rounds[0]}" for event, rounds in ROUNDS.items()]
        lines += [f"ENT {event} {person.number}" for person in self.people
                  for event in person.events]
        for line in lines:
            if self.answered(line) != "Done":
                raise SystemExit(f"day: {line} is refused")
        self.setup = lines

    # --- one round ---

    def card(self, person, event, which, absent):
        """The outcomes of a card: all attempts that are allotted."""
        table = self.meet.rounds[event, which]
        outcomes, values = [], []
        leaves = self.chance.happens(0.004)
        while len(values) < table.allotted(values):
            count = len(values) + 1
            gone = absent or (leaves and count > 2)
            outcome = "DNS" if gone else self.attempts.outcome(person, event, count)
            outcomes.append(outcome)
            values.append(self.meet.settle(event, which, count, rules.outcome(outcome.encode())))
        return outcomes

    def tie(self, event, which, cards):
        """Makes two people tie over the border of those who advance: the one behind it gets the
        outcomes of the one in front of it, in another order."""
        table = self.meet.rounds[event, which]
        ranked = []
        for number, outcomes in cards.items():
            values = [self.meet.settle(event, which, at, rules.outcome(outcome.encode()))
                      for at, outcome in enumerate(outcomes, 1)]
            if any(value != "DNS" for value in values):
                ranked.append((table.rank(values), number))
        ranked.sort()
        most = rules.quota(table.advance, len(ranked))
        if 0 < most < len(ranked):
            inside, outside = ranked[most - 1][1], ranked[most][1]
            ends = 1 if table.cutoff == "-" else table.cutoff[0]
            front, rest = cards[inside][:ends], cards[inside][ends:]
            cards[outside] = front + rest[1:] + rest[:1]

    def write_card(self, second, number, event, which, outcomes):
        """Enters a card at one of the stations, now and then with a slip of the typist's."""
        station = 1 + self.chance.below(STATIONS)
        front = f"{event} {which}"
        lines = [f"ATT {front} {count} {number} {outcome}"
                 for count, outcome in enumerate(outcomes, 1)]
        typed = station not in TABLES
        slip = self.chance.next()
        if typed and slip < 0.012:
            # the last attempt is of another card: it is struck, and entered again
            other = "DNF" if outcomes[-1] != "DNF" else "DNS"
            lines = [*lines[:-1], f"ATT {front} {len(outcomes)} {number} {other}",
                     f"STR {front} {number}", lines[-1]]
        for line in lines:
            self.enter(second, station, line)
        if typed and slip > 0.992:
            for line in lines[-2:]:
                if line.startswith("ATT"):
                    self.enter(second, station, line, "OutOfOrder")
        return station

    def slip(self, second, station, number, event, which, outcomes):
        """A time that was typed wrong first: the card has it, and a correction comes later. Returns
        the outcomes as they were typed, and the correction."""
        times = [at for at, outcome in enumerate(outcomes) if outcome.startswith("T:")]
        if not times:
            return outcomes, None
        at = self.chance.one_of(times)
        _, hundredths, penalties = outcomes[at].split(":")
        typed = f"T:{int(hundredths) + self.chance.one_of((9, 90, 27))}:{penalties}"
        wrong_one = [*outcomes[:at], typed, *outcomes[at + 1:]]
        return wrong_one, f"COR {event} {which} {at + 1} {number} {outcomes[at]}"

    def hold(self, event, which, begins, ends):
        """A round from its first card to its close."""
        table = self.meet.rounds[event, which]
        final = table.advance == ("final",)
        if event == "333fm":
            for count in (1, 2, 3):
                self.attempts.scrambles[count] = scramble(self.chance)
                self.enter(begins, DESK_OF_THE_DAY,
                           f"SCR 333fm {which} {count} {' '.join(self.attempts.scrambles[count])}")
        order = self.chance.shuffled(table.entrants)
        cards = {number: self.card(self.by_number[number], event, which,
                                   self.chance.happens(0.03 if which == 1 else 0.01))
                 for number in order}
        if not final and self.chance.happens(0.6):
            self.tie(event, which, cards)
        step = (ends - begins - 200) / max(len(order), 1)
        later = []
        for place, number in enumerate(order):
            second = round(begins + 100 + step * (place + 0.5 * self.chance.next()))
            outcomes, correction = cards[number], None
            if self.chance.happens(0.03) and self.keeps_cutoff(event, which, outcomes):
                outcomes, correction = self.slip(second, 0, number, event, which, outcomes)
            if place == len(order) - 1 and self.chance.happens(0.4):
                # a card lies under the table
                self.enter(second - 1, DESK_OF_THE_DAY, f"CLOSE {event} {which}", "Unfinished")
            station = self.write_card(second, number, event, which, outcomes)
            if correction:
                later.append((round(min(second + 40 + 400 * self.chance.next(), ends - 60)),
                              station, correction))
        for second, station, correction in sorted(later):
            self.enter(second, station, correction)
        self.mistakes(event, which, ends - 50)
        self.close(event, which, ends)

    def keeps_cutoff(self, event, which, outcomes):
        """Whether a slip in this card cannot change who meets a cutoff."""
        table = self.meet.rounds[event, which]
        return table.cutoff == "-" or len(outcomes) == table.cutoff[0]

    def mistakes(self, event, which, second):
        """What a typist gets refused before the round is closed."""
        station = 3 + self.chance.below(3)
        table = self.meet.rounds[event, which]
        others = [person.number for person in self.people if person.number not in table.entrants]
        if others and self.chance.happens(0.5):
            self.enter(second, station,
                       f"ATT {event} {which} 1 {self.chance.one_of(others)} DNF", "NotEntered")
        if self.chance.happens(0.3):
            self.enter(second, station, f"ATT {event} {which} 1 {900 + station} DNF",
                       "UnknownCompetitor")
        met = [number for number, values in table.entrants.items()
               if table.cutoff != "-" and len(values) > table.cutoff[0]
               and len([value for value in rules.numbers(values[:table.cutoff[0]])
                        if value < table.cutoff[1]]) == 1]
        if met:
            number = self.chance.one_of(met)
            count = 1 + next(at for at, value in enumerate(table.entrants[number])
                             if isinstance(value, int) and value < table.cutoff[1])
            self.enter(second, station, f"COR {event} {which} {count} {number} DNF", "CutoffLost")

    def close(self, event, which, second):
        """Closes a round, and opens the next one."""
        table = self.meet.rounds[event, which]
        if event == "skewb" and which == 1:
            self.enter(second - 20, DESK_OF_THE_DAY, "ADV skewb 1 top:32")
        settings = ROUNDS[event][which] if which < len(ROUNDS[event]) else None
        if settings and self.chance.happens(0.2):
            self.enter(second - 10, DESK_OF_THE_DAY, f"OPEN {event} {which + 1} {settings}",
                       "RoundUnknown")
        self.enter(second, DESK_OF_THE_DAY, f"CLOSE {event} {which}")
        if settings:
            self.enter(second + 30, DESK_OF_THE_DAY, f"OPEN {event} {which + 1} {settings}")
        elif self.chance.happens(0.3):
            number = self.chance.one_of(list(table.entrants))
            self.enter(second + 40, DESK_OF_THE_DAY, f"COR {event} {which} 1 {number} DNF",
                       "Closed")

    # --- all rounds ---

    def expected_entrants(self, event, which):
        """About how many people a round has, before it is known."""
        count = sum(event in person.events for person in self.people)
        for settings in ROUNDS[event][:which - 1]:
            count = rules.quota(rules.advance(settings.split()[3].encode()), count)
        return count

    def times(self):
        """When each round is held: its seconds go by its number of cards."""
        held = {}
        for stage in STAGES:
            rounds = [(name.rpartition("-")[0], int(name[-1])) for name in stage.split()]
            cards = [self.expected_entrants(*each) + 8 for each in rounds]
            second, free = DOORS, LENGTH - GAP * len(rounds)
            for each, count in zip(rounds, cards):
                length = round(free * count / sum(cards))
                held[each] = (second, second + length)
                second += length + GAP
        for (event, which), (begins, _) in held.items():
            if which > 1 and begins < held[event, which - 1][1] + 60:
                raise SystemExit(f"day: {event} {which} begins before the round before it ends")
        return held

    def made(self):
        """Plays the day. Rounds of two stages are entered side by side, so that the plan is sorted
        by its seconds in the end; no command of one event depends on another event."""
        self.set_up()
        for (event, which), (begins, ends) in sorted(self.times().items(), key=lambda it: it[1]):
            self.hold(event, which, begins, ends)
        order = sorted(range(len(self.plan)), key=lambda at: (self.plan[at][0], at))
        self.plan = [self.plan[at] for at in order]
        return self


# --- the files -----------------------------------------------------------------------------------


FORMATS = {"ao5": "a", "mo3": "m", "bo1": "1", "bo2": "2", "bo3": "3"}


def round_in_file(event, which, settings):
    """A round in the WCA's format."""
    form, cutoff, limit, advance = settings.split()
    attempts, _, below = cutoff.partition(":")
    kind, _, level = advance.partition(":")
    return {
        "id": f"{event}-r{which}", "format": FORMATS[form],
        "timeLimit": None if limit == "-" else {"centiseconds": int(limit),
                                                "cumulativeRoundIds": []},
        "cutoff": None if cutoff == "-" else {"numberOfAttempts": int(attempts),
                                              "attemptResult": int(below)},
        "advancementCondition": None if advance == "final" else {
            "type": {"top": "ranking", "pct": "percent"}[kind], "level": int(level)},
        "scrambleSetCount": 4, "results": [], "extensions": []}


def person_in_file(person, status):
    family = "".join(letter for letter in person.name.upper() if "A" <= letter <= "Z")
    return {
        "registrantId": person.number, "name": person.name, "wcaUserId": 40_000 + person.number,
        "wcaId": f"20{10 + person.number % 15}{(family + 'XXXX')[:4]}{1 + person.number % 9:02}",
        "countryIso2": "XX", "gender": "o", "birthdate": "2000-01-01", "avatar": None, "roles": [],
        "registration": {"wcaRegistrationId": 90_000 + person.number, "eventIds": person.events,
                         "status": status, "guests": 0, "comments": ""},
        "assignments": [], "personalBests": [], "extensions": []}


def file_of(day):
    """The competition in the WCA's format, a person and an event a line."""
    def short(value):
        return json.dumps(value, ensure_ascii=False, separators=(",", ":"))

    persons = [person_in_file(person, "accepted") for person in day.people]
    persons += [person_in_file(person, "deleted") for person in day.declined]
    events = [{"id": event, "rounds": [round_in_file(event, which, settings)
                                       for which, settings in enumerate(rounds, 1)],
               "competitorLimit": None, "qualification": None, "extensions": []}
              for event, rounds in ROUNDS.items()]
    front = short({"formatVersion": "1.0", "id": "StormOpen2026", "name": "Storm Open 2026",
                   "shortName": "Storm Open 2026", "schedule": {
                       "startDate": "2026-11-28", "numberOfDays": 1, "venues": []},
                   "competitorLimit": PEOPLE, "extensions": []})
    persons, events = (",\n".join(map(short, items)) for items in (persons, events))
    return f'{front[:-1]},\n"persons":[\n{persons}\n],\n"events":[\n{events}\n]}}\n'


def write(folder, seed=SEED):
    """Makes a day, and writes its files."""
    day = Day(seed).made()
    folder.mkdir(parents=True, exist_ok=True)
    lines = day.setup + [text for _, _, _, text in day.plan]
    (folder / "competition.json").write_text(file_of(day))
    (folder / "day.txt").write_text("".join(f"{line}\n" for line in lines))
    (folder / "plan.txt").write_text("".join(
        f"{second} {station} {code} {text}\n" for second, station, code, text in day.plan))
    return day


def main():
    words = running.Words(__doc__)
    words.add_argument("--seed", type=running.count, default=SEED)
    words.add_argument("folder", type=Path, metavar="FOLDER")
    given = words.parse_args()
    day = write(given.folder, given.seed)
    refused = sum(code != "Done" for _, _, code, _ in day.plan)
    print(f"{len(day.people)} people, {len(day.meet.rounds)} rounds, "
          f"{len(day.setup) + len(day.plan)} commands, of which {refused} are refused")


if __name__ == "__main__":
    main()
