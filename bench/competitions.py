#!/usr/bin/env python3
"""Made competitions, each a file as the WCA's site writes one.

    bench/competitions.py PEOPLE [--seed N] [--no-groups] [--megabytes N]

prints the file of a competition with so many people. It is in the WCA Competition Interchange
Format (1.0): several venues and rooms in two time zones, groups that are below the activities of
their rounds and follow each other, activities that are not in the order of their times, assignments
to compete, to help and to do what only the organizers know, personal bests with their rankings,
names with a local name in parentheses, newcomers without a WCA ID, people whose registration is
pending or deleted and who have no number, staff without a registration, limits for several attempts
together. --megabytes adds texts of extensions until the file is as large.
"""

import argparse
import json
import random
import sys

# of each event: a good single in hundredths (of moves in moves), format, attempts of its cutoff
EVENTS = {
    "333": (600, "a", 2), "222": (150, "a", 2), "444": (2600, "a", 2), "555": (5000, "a", 2),
    "666": (9500, "m", 1), "777": (14000, "m", 1), "333bf": (2500, "3", 0), "333fm": (24, "m", 0),
    "333oh": (1100, "a", 2), "clock": (450, "a", 2), "minx": (4000, "a", 2), "pyram": (250, "a", 2),
    "skewb": (260, "a", 2), "sq1": (900, "a", 2), "444bf": (12000, "3", 0),
    "555bf": (30000, "3", 0), "333mbf": (0, "2", 0),
}
# how many events of the list a competition of so many people has, and its rooms by venues
SIZES = ((50, 5, [1]), (400, 12, [2]), (1000, 17, [2, 1]))
FIRST = ("Ann Bo Carl Dana Eva Finn Gus Hana Ivo Jo Kai Lea Max Nia Olu Pia Quin Rosa Sven Tia Uma "
         "Vera Wim Xenia Yann Zoë Łukasz Þóra Đorđe Íñigo").split()
LAST = ("Li Ek Voss Rook Holm Sánchez O'Neill-Ray Mori Pal King Brontë Żółty Müller Ødegård "
        "d'Arcy Nguyễn Çelik Öztürk Kovač Ștefănescu Ångström Smith Jones Weiß Dubois Rossi "
        "García Novák Ivanova Silva Haddad Okafor Tanaka Kim").split()
LOCAL = ("王毅", "田中 花子", "김민준", "محمد علي", "Иван Петров", "สมชาย", "אבי כהן", "Ελένη")
# names that a page has to escape, and one that is as long as names are
ODD = ("Tom & <b>Jerry</b>", "Ana María de los Ángeles Fernández-Villaverde y Santísima Trinidad",
       "محمد علي", "X", "O'Hal &amp; Ivo")
COUNTRIES = ("DE", "CN", "US", "KR", "JP", "PL", "SA", "GB", "FR", "TH")
HELP = ("staff-judge", "staff-scrambler", "staff-runner", "staff-judge")
# what else a tool may assign
OTHER = ("staff-dataentry", "staff-announcer", "staff-delegate", "staff-<photo & film>",
         "staff-stagelead", "staff-core", "staff-setup", "staff-other", "staff-judges")
ZONES = ("Europe/Berlin", "America/St_Johns")
DAY = "2026-11-%02dT%02d:%02d:00Z"


def names(people, chance):
    """So many names, all different."""
    made = list(ODD)
    for first in FIRST:
        for last in LAST:
            local = f" ({chance.choice(LOCAL)})" if chance.random() < .2 else ""
            made.append(f"{first} {last}{local}")
    rest = made[len(ODD):]
    chance.shuffle(rest)
    return (made[:len(ODD)] + rest)[:people]


def multi(chance, level):
    """A result of multi-blind as a number of ten digits, 0DDTTTTTMM."""
    missed, points = chance.randrange(0, 3), max(1, round(30 / level) + chance.randrange(-3, 4))
    return (99 - points) * 10**7 + chance.randrange(600, 3600) * 100 + missed


def bests_of(chance, level):
    """The personal bests of somebody who needs so many times what the best need."""
    made = []
    for event, (good, form, _) in EVENTS.items():
        if chance.random() < .45 - .3 * (event in ("444bf", "555bf", "333mbf", "777")):
            continue
        own = level * chance.uniform(.8, 1.3)
        single = max(good + 1, round(good * own))
        kinds = [("single", single), ("average", round(single * chance.uniform(1.08, 1.3)))]
        if event == "333fm":
            single = round(good + 5 * own)
            kinds = [("single", single), ("average", 100 * single + chance.choice((33, 67, 300)))]
        if event == "333mbf":
            kinds = [("single", multi(chance, own))]
        if event.endswith("bf") and chance.random() < .5:
            kinds = kinds[:1]
        for kind, best in kinds:
            world = chance.randrange(1, 200000)
            made.append({"eventId": event, "best": best, "type": kind, "worldRanking": world,
                         "continentalRanking": world // 3 + 1, "nationalRanking": world // 20 + 1})
    return made


class Competition:
    """A competition that is being made."""

    def __init__(self, people, seed, groups):
        self.chance, self.people, self.with_groups = random.Random(seed), people, groups
        size = next((it for it in SIZES if people <= it[0]), SIZES[-1])
        self.events, self.rooms = list(EVENTS)[:size[1]], size[2]
        self.last, self.groups, self.others = 0, {}, []

    def new_id(self):
        self.last += 1
        return self.last

    def activity(self, code, name, hour, children=(), minutes=(0, 50)):
        start, end = (DAY % (28 + hour // 9, 8 + hour % 9, minute) for minute in minutes)
        return {"id": self.new_id(), "name": name, "activityCode": code, "startTime": start,
                "endTime": end, "childActivities": list(children), "scrambleSetId": None,
                "extensions": []}

    def activities(self, room, rooms):
        """What happens in one of so many rooms. The groups of a first round are dealt to them."""
        made = [self.activity("other-registration", "Registration", 0)]
        for hour, event in enumerate(self.events, 1):
            count = max(2, self.people // 60)
            own = [number for number in range(1, count + 1) if number % rooms == room % rooms]
            # the attempts of these are activities of their own, and so are their groups
            ends = ("-a1", "-a2") if event in ("333fm", "333mbf") else ("",)
            for end in ends:
                children = []
                name = f"{event}, Round 1"
                for place, number in enumerate(own if self.with_groups else ()):
                    # some tools write the name of the round before that of the group
                    front = f"{name}, " if number % 3 == 0 else ""
                    minutes = [50 * at // len(own) for at in (place, place + 1)]
                    child = self.activity(f"{event}-r1-g{number}{end}", f"{front}Group {number}",
                                          hour, minutes=minutes)
                    children.append(child)
                    self.groups.setdefault(event, {}).setdefault(number, []).append(child["id"])
                # they are not always in the order of their times
                made.append(self.activity(f"{event}-r1{end}", name, hour,
                                          children[::-1] if hour % 4 == 3 else children))
            if len(self.rounds(event)) > 1 and room == 0:
                made.append(self.activity(f"{event}-r2", f"{event}, Final", hour + 8))
        made.append(self.activity("other-awards", "Awards & <i>thanks</i>", 26))
        self.others += [made[0]["id"], made[-1]["id"]]
        return made[::-1] if room % 2 else made

    def schedule(self):
        venues, room, total = [], 0, sum(self.rooms)
        for place, count in enumerate(self.rooms):
            rooms = []
            for _ in range(count):
                rooms.append({"id": room + 1, "name": f"Room {room + 1}", "color": "#304a96",
                              "activities": self.activities(room, total), "extensions": []})
                room += 1
            venues.append({"id": place + 1, "name": f"Hall {place + 1}",
                           "latitudeMicrodegrees": 52516266, "longitudeMicrodegrees": 13377775,
                           "countryIso2": "DE", "timezone": ZONES[place], "rooms": rooms,
                           "extensions": []})
        return {"startDate": "2026-11-28", "numberOfDays": 3, "venues": venues}

    def rounds(self, event):
        good, form, after = EVENTS[event]
        timed = event not in ("333fm", "333mbf")
        count = 2 if form == "a" else 1
        made = []
        for number in range(1, count + 1):
            # a later round has ten seconds less
            most = min(360000, max(60000, good * 6)) - 1000 * (number - 1)
            limit = {"centiseconds": most, "cumulativeRoundIds": []}
            if event == "333bf":
                limit["cumulativeRoundIds"] = ["333bf-r1"]
            if event in ("444bf", "555bf"):
                limit["cumulativeRoundIds"] = ["444bf-r1", "555bf-r1"]
            cutoff = {"numberOfAttempts": after, "attemptResult": good * 5}
            made.append({
                "id": f"{event}-r{number}", "format": form, "timeLimit": limit if timed else None,
                "cutoff": cutoff if after and number == 1 else None,
                "advancementCondition":
                    {"type": "percent", "level": 50} if number < count else None,
                "scrambleSetCount": 4, "results": [], "extensions": []})
        return made

    def assignments(self, place, events, helps):
        """Where somebody competes, by turns in the groups, and helps."""
        made = []
        for nth, event in enumerate(self.events):
            groups = self.groups.get(event, {})
            if not groups:
                continue
            numbers = sorted(groups)
            own = numbers[(place * 7 + nth) % len(numbers)]
            if event in events:
                station = 1 + place // len(numbers) % 40 if nth % 2 == 0 else None
                made += [{"activityId": one, "assignmentCode": "competitor",
                          "stationNumber": station} for one in groups[own]]
            if helps:
                other = numbers[(place * 7 + nth + 1) % len(numbers)]
                made += [{"activityId": groups[other][0], "stationNumber": None,
                          "assignmentCode": self.chance.choice(HELP)}]
        if place % 5 == 0:
            made.append({"activityId": self.others[place // 5 % len(self.others)],
                         "assignmentCode": OTHER[place // 5 % len(OTHER)], "stationNumber": None})
        self.chance.shuffle(made)
        return made

    def person(self, place, name, number):
        chance = self.chance
        newcomer = chance.random() < .2
        level = 1.1 + chance.lognormvariate(.3, .7)
        events = [event for event in self.events if chance.random() < .5] or self.events[:1]
        status = "accepted" if number else chance.choice(("pending", "deleted"))
        registration = {"wcaRegistrationId": 9000 + place, "eventIds": events, "status": status,
                        "guests": place % 3, "comments": "", "administrativeNotes": "",
                        "isCompeting": True}
        # who is late has no group yet
        late = number is None or chance.random() < .03
        bests = [] if newcomer else bests_of(chance, level)
        letters = "".join(it for it in name.upper() if "A" <= it <= "Z") + "XXXX"
        return {
            "name": name, "wcaUserId": 5000 + place,
            "wcaId": None if newcomer else f"{2009 + place % 17}{letters[:4]}{place % 99 + 1:02}",
            "registrantId": number, "countryIso2": chance.choice(COUNTRIES),
            "gender": chance.choice("mfo"), "birthdate": "2008-02-29", "email": "a@example.org",
            "registration": registration,
            "avatar": {"url": "https://example.org/a.jpg", "thumbUrl": "https://example.org/t.jpg"},
            "roles": [], "assignments":
                [] if late else self.assignments(place, events, not newcomer and place % 2),
            "personalBests": bests, "extensions": []}

    def delegate(self, name):
        return {"name": name, "wcaUserId": 4999, "wcaId": "2005DELE01", "registrantId": None,
                "countryIso2": "GB", "gender": "f", "registration": None, "avatar": None,
                "roles": ["delegate"], "assignments": [], "personalBests": [], "extensions": []}

    def value(self):
        schedule, chance = self.schedule(), self.chance
        accepted = [chance.random() < .92 for _ in range(self.people)]
        numbers = list(range(1, sum(accepted) + 1))
        chance.shuffle(numbers)
        persons = [self.person(place, name, numbers.pop() if accepted[place] else None)
                   for place, name in enumerate(names(self.people, chance))]
        persons.insert(self.people // 2, self.delegate("Dana Delegate"))
        events = [{"id": event, "rounds": self.rounds(event), "competitorLimit": None,
                   "qualification": None, "extensions": []} for event in self.events]
        return {"formatVersion": "1.0", "id": "Made2026", "name": "Made & Matched Open 2026",
                "shortName": "Made Open 2026", "series": None, "persons": persons,
                "events": events, "schedule": schedule, "competitorLimit": self.people,
                "extensions": [], "registrationInfo": {"openTime": DAY % (1, 8, 0),
                                                       "closeTime": DAY % (20, 8, 0)}}


def made(people, seed=None, groups=True):
    """The value of a file of a competition with so many people."""
    return Competition(people, people if seed is None else seed, groups).value()


def written(value, least=0):
    """The file, as the site has it: without white space, and with these three signs escaped. Where
    it has fewer bytes than it is to have at least, each person gets an extension of a tool."""
    if least:
        text = len(written(value))
        for person in value["persons"]:
            person["extensions"] = [{
                "id": "tool.Person", "specUrl": "https://example.org",
                "data": {"notes": ["a note"] * (max(0, least - text) // (9 * len(value["persons"])))
                         }}]
    text = json.dumps(value, ensure_ascii=False, separators=(",", ":"))
    for sign in "<>&":
        text = text.replace(sign, f"\\u{ord(sign):04x}")
    return text.encode()


def main():
    given = argparse.ArgumentParser(description=__doc__,
                                    formatter_class=argparse.RawDescriptionHelpFormatter)
    given.add_argument("people", type=int)
    given.add_argument("--seed", type=int)
    given.add_argument("--no-groups", action="store_true")
    given.add_argument("--megabytes", type=int, default=0)
    found = given.parse_args()
    value = made(found.people, found.seed, not found.no_groups)
    sys.stdout.buffer.write(written(value, found.megabytes * 10**6))


if __name__ == "__main__":
    main()
