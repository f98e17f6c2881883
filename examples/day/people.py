"""The people of a day, and what they do: the model of their times, which the README beside this
file describes. All figures are set by hand.
"""

import math
import random


class Event:
    """How people do in an event. The middle of the field in seconds (moves, cubes), how far people
    are apart and how far the attempts of one person are, both as parts of the natural logarithm,
    and how often an attempt is DNF or has a penalty. `share` is how many of all people enter."""

    def __init__(self, share, middle, apart, within, lost, penalty=0.02):
        self.share, self.middle, self.apart, self.within = share, middle, apart, within
        self.lost, self.penalty = lost, penalty


EVENTS = {
    "333": Event(0.99, 17.0, 0.42, 0.11, 0.010),
    "222": Event(0.90, 5.6, 0.40, 0.20, 0.008),
    "444": Event(0.78, 62.0, 0.36, 0.09, 0.010),
    "555": Event(0.62, 112.0, 0.34, 0.07, 0.010),
    "777": Event(0.42, 345.0, 0.26, 0.05, 0.010),
    "333bf": Event(0.45, 95.0, 0.55, 0.16, 0.420, 0.01),
    "333fm": Event(0.40, 36.0, 0.16, 0.08, 0.120),
    "333oh": Event(0.74, 30.0, 0.42, 0.12, 0.015),
    "clock": Event(0.58, 11.0, 0.40, 0.13, 0.040),
    "minx": Event(0.60, 88.0, 0.34, 0.08, 0.012),
    "pyram": Event(0.85, 7.6, 0.45, 0.22, 0.012),
    "skewb": Event(0.80, 8.4, 0.45, 0.22, 0.015),
    "sq1": Event(0.58, 24.0, 0.46, 0.17, 0.025),
    "333mbf": Event(0.26, 6.0, 0.55, 0.00, 0.000),
}


GIVEN = """Ada Aiko Alba Amir Ana Anders Andrei Anna Ayla Ben Bo Carla Chen Chiara Clara Dana David
Diego Elif Elsa Emil Emma Eva Felix Finn Gita Hana Hugo Ida Ines Iris Jan Jana Jens Jin Joao Jonas
Julia Kai Karin Kenji Lara Lea Leo Lina Luca Mara Marek Mei Mia Mika Milan Nadia Nils Noa Nora Olga
Omar Otto Paula Petra Ravi Rosa Samir Sara Selin Sofia Sven Tara Teo Tomas Uma Vera Viktor Wei Yara
Yuki Zoe""".split()
FAMILY = """Abe Andersson Bauer Becker Bianchi Brandt Castro Chen Costa Dahl Dubois Eriksen Fischer
Fontaine Garcia Gupta Haas Hansen Horvat Ito Ivanov Jansen Keller Khan Kim Kovacs Kowalski Kruger
Larsen Lee Leroy Li Lopez Martin Meyer Moreau Nagy Nguyen Nielsen Novak Okafor Olsen Park Patel
Pereira Petrov Popescu Ricci Rossi Santos Sato Schmidt Silva Singh Suzuki Tanaka Tran Vogel Weber
Wolf Yilmaz Zhang""".split()
LONGER = ["Ana María de los Ángeles Fernández-Quiñones", "Wei Zhang (张伟)", "Søren Ødegård",
          "Łukasz Żółć", "Zoë O'Brien", "Max Groß, jun.", "Yuki Sato (佐藤 優希)"]


class Chance:
    """What a seed decides. Only `random()` of the generator is used, whose numbers are the same in
    all versions of Python."""

    def __init__(self, seed):
        self.next = random.Random(seed).random

    def happens(self, share):
        return self.next() < share

    def below(self, count):
        return int(self.next() * count)

    def one_of(self, items):
        return items[self.below(len(items))]

    def normal(self):
        """A number of the normal distribution with mean 0 and deviation 1, nearly: a sum."""
        return sum(self.next() for _ in range(12)) - 6

    def shuffled(self, items):
        items = list(items)
        for at in range(len(items) - 1, 0, -1):
            other = self.below(at + 1)
            items[at], items[other] = items[other], items[at]
        return items


# --- people --------------------------------------------------------------------------------------


class Person:
    def __init__(self, number, name, chance):
        self.number, self.name = number, name
        skill = chance.normal()
        # who is quick in one event is mostly quick in the others
        self.skill = {event: 0.85 * skill + 0.53 * chance.normal() for event in EVENTS}
        keen = 0.16 * chance.normal()
        self.events = [event for event, how in EVENTS.items()
                       if event == "333" or chance.happens(min(how.share + keen, 1))]

    def typical(self, event):
        """What this person does in the middle of many attempts."""
        how = EVENTS[event]
        return how.middle * math.exp(-how.apart * self.skill[event])


def people_of(chance, count):
    """So many people, by the numbers that they have in the competition's file."""
    names = LONGER + chance.shuffled(f"{given} {family}" for given in GIVEN for family in FAMILY)
    numbers = chance.shuffled(range(1, count + 1))
    names = [names[0], *chance.shuffled(names[1:count])]
    return sorted((Person(number, name, chance) for number, name in zip(numbers, names)),
                  key=lambda person: person.number)


# --- attempts ------------------------------------------------------------------------------------


FACES, AMOUNTS = "FBRLUD", ("", "'", "2")


def scramble(chance):
    """A scramble of fewest moves: R' U' F stands at both of its ends."""
    moves = ["R'", "U'", "F"]
    while len(moves) < 20:
        face = chance.one_of(FACES)
        if face not in (moves[-1][0], moves[-2][0]):
            moves.append(face + chance.one_of(AMOUNTS))
    return [*moves, "R'", "U'", "F"]


def inverse(moves):
    turned = {"": "'", "'": "", "2": "2"}
    return [move[0] + turned[move[1:]] for move in reversed(moves)]


def solution(chance, scrambled, wanted):
    """A solution of about so many moves: the way back, with detours that do nothing in it. No
    shorter one is looked for."""
    moves = inverse(scrambled)
    while len(moves) < wanted:
        at, face = chance.below(len(moves) + 1), chance.one_of(FACES)
        if wanted - len(moves) == 1:
            halves = [it for it, move in enumerate(moves) if move.endswith("2")]
            if not halves:
                break
            moves[halves[0]:halves[0] + 1] = [moves[halves[0]][0]] * 2
        else:
            moves[at:at] = chance.one_of([[face, face + "'"], [face + "'", face]])
    return moves


def wrong(chance, moves):
    """A solution that does not solve: one of its turns is another one."""
    at = chance.below(len(moves))
    move = moves[at]
    other = [it for it in AMOUNTS if it != move[1:]]
    return [*moves[:at], move[0] + chance.one_of(other), *moves[at + 1:]]


class Attempts:
    """Outcomes, as commands spell them."""

    def __init__(self, chance):
        self.chance = chance
        self.scrambles = {}

    def outcome(self, person, event, count):
        if event == "333fm":
            return self.moves(person, count)
        if event == "333mbf":
            return self.multi(person)
        how = EVENTS[event]
        if self.chance.happens(how.lost):
            return "DNF"
        seconds = person.typical(event) * math.exp(how.within * self.chance.normal())
        # now and then something goes wrong
        if self.chance.happens(0.04):
            seconds *= 1.15 + 0.5 * self.chance.next()
        hundredths = min(max(round(100 * seconds), 71), 59_999)
        return f"T:{hundredths}:{int(self.chance.happens(how.penalty))}"

    def moves(self, person, count):
        how = EVENTS["333fm"]
        wanted = round(person.typical("333fm") * math.exp(how.within * self.chance.normal()))
        found = solution(self.chance, self.scrambles[count], min(wanted, 76))
        if self.chance.happens(how.lost):
            return "DNF" if self.chance.happens(0.6) else "S:" + " ".join(
                wrong(self.chance, found))
        return "S:" + " ".join(found)

    def multi(self, person):
        """Cubes that are tried, of which each is solved with the same chance, within ten minutes
        for each and an hour for all."""
        attempted = min(max(round(person.typical("333mbf")), 2), 40)
        sure = min(max(0.74 + 0.08 * person.skill["333mbf"], 0.4), 0.96)
        solved = sum(self.chance.happens(sure) for _ in range(attempted))
        allowed = min(600 * attempted, 3600)
        used = allowed * min(0.55 + 0.4 * self.chance.next(), 1) * (attempted / (attempted + 1))
        return f"M:{solved}:{attempted}:{max(round(used), 1)}"
