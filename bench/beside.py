"""What pages show of a competition's file beside a list of results: a second program of the
definitions (docs/FORMATS.md, 'Beside the list'). It uses nothing of the crates.

A member that is missing, null or of another kind is as if it was not there.
"""

import re

import rules
from wcif import accepted, listed, member, text, whole

# ranked by the single, since they have no average or mean: WCA Regulations, article 9b
BY_SINGLE = ("333bf", "444bf", "555bf", "333mbf")
NUMBER = re.compile("[1-9][0-9]{0,3}")
ON_PAGE = 4
DUTIES = {"Scramblers": "staff-scrambler", "Runners": "staff-runner", "Judges": "staff-judge"}
DOES = {"competitor": "competes", "staff-scrambler": "scrambles", "staff-runner": "runs",
        "staff-judge": "judges", "staff-dataentry": "enters results",
        "staff-announcer": "announces", "staff-delegate": "is a delegate",
        "staff-stagelead": "leads the stage", "staff-core": "is on the core staff",
        "staff-setup": "sets up", "staff-other": "helps"}
# the code of an activity that is a round, as 333-r1, or a part of one, as 333-r1-g2
OF_ROUND = re.compile("([^-]*)-r([1-4])(-.*)?", re.S)


def numbered(value, name, most):
    """A number of 1 to so many."""
    number = whole(member(value, name))
    return number if number and number <= most else None


def best(person, event, kind):
    """The first number that the file has for a best of somebody."""
    for one in listed(person, "personalBests") or []:
        number = numbered(one, "best", 2**32 - 1)
        if (text(one, "eventId"), text(one, "type")) == (event, kind) and number:
            return number
    return None


# ---- who is registered for an event


def kinds_of(event):
    """By what an event is ranked, and the other kind."""
    return ("single", "average") if event in BY_SINGLE else ("average", "single")


def words(event, kind, number):
    if number is None:
        return ""
    return (rules.printed if kind == "single" else rules.printed_average)(number, event)


def psych(value, event):
    """A row for each who is registered: rank, country, name, the best by which the event is ranked,
    the other one, and the WCA ID."""
    main, other = kinds_of(event)
    there = [person for person in listed(value, "persons") or [] if accepted(person)
             and event in (listed(member(person, "registration"), "eventIds") or [])]
    bests = [(best(person, event, main), best(person, event, other)) for person in there]
    known = [one for one, _ in bests if one is not None]
    after_all = max([one for pair in bests for one in pair if one is not None], default=0) + 1
    order = sorted(range(len(there)),
                   key=lambda at: tuple(one or after_all for one in bests[at]))
    rows = []
    for at in order:
        person, own = there[at], bests[at][0]
        rank = "" if own is None else str(1 + sum(one < own for one in known))
        rows.append([rank, text(person, "countryIso2") or "", text(person, "name") or "",
                     words(event, main, own), words(event, other, bests[at][1]),
                     text(person, "wcaId") or ""])
    return rows


# ---- where people compete


def group_number(code, event, number):
    """The number of the group in the code of an activity, as 333-r1-g2 or 333fm-r1-g2-a1."""
    parts = (code or "").split("-")
    if len(parts) < 3 or parts[:2] != [event, f"r{number}"] or parts[2][:1] != "g":
        return None
    return int(parts[2][1:]) if NUMBER.fullmatch(parts[2][1:]) else None


def groups(value, event, number):
    """The groups of a round in the order of the file: the ids of their activities, and numbers."""
    found = []
    for venue in listed(member(value, "schedule"), "venues") or []:
        for room in listed(venue, "rooms") or []:
            for activity in listed(room, "activities") or []:
                for child in listed(activity, "childActivities") or []:
                    group = group_number(text(child, "activityCode"), event, number)
                    one = whole(member(child, "id"))
                    if group is not None and one is not None:
                        found.append((one, group))
    return found


def person(value, number):
    """The first accepted person with a number."""
    for one in listed(value, "persons") or []:
        if accepted(one) and whole(member(one, "registrantId")) == number:
            return one
    return None


def seat(of_round, one):
    """The group and the station (0 for none) of somebody's first assignment to compete in a round
    of these groups, if there is one."""
    for assignment in listed(one, "assignments") or []:
        group = of_round.get(whole(member(assignment, "activityId")))
        if text(assignment, "assignmentCode") == "competitor" and group is not None:
            return group, numbered(assignment, "stationNumber", 9999) or 0
    return None


def cards(value, event, number, names):
    """The cards of a round in their order: number, name, WCA ID, and where the competitor sits. It
    is by groups, then by stations, who has none first; after these come those who have no group;
    then it is by names, and last by numbers. `names` has those of the round by their numbers, and
    `value` may be None: then there is no file."""
    # of two groups with one id the first counts
    of_round, made = dict(reversed(groups(value, event, number))), []
    for who, name in names.items():
        one = person(value, who)
        at = seat(of_round, one)
        key = (at is None, at or (0, 0), name.encode(), who)
        words = "" if at is None else f"Group {at[0]}" + (f", station {at[1]}" if at[1] else "")
        made.append((key, (who, name, text(one, "wcaId") or "", words)))
    return [card for _, card in sorted(made)]


def duties(value, event, number):
    """Who helps in each group of a round, in the order of the file: the group's number, and three
    lists of names."""
    made = []
    for activity, group in groups(value, event, number):
        lists = []
        for code in DUTIES.values():
            lists.append([text(one, "name") or "" for one in listed(value, "persons") or []
                          if any(text(it, "assignmentCode") == code
                                 and whole(member(it, "activityId")) == activity
                                 for it in listed(one, "assignments") or [])])
        made.append((group, lists))
    return made


def limit_words(value, event, number):
    """The words for a limit for several attempts together; nothing where there is none."""
    def first(items, name):
        return next((it for it in items or [] if (text(it, "id") or "") == name), None)
    of_event = first(listed(value, "events"), event)
    limit = member(first(listed(of_event, "rounds"), f"{event}-r{number}"), "timeLimit")
    rounds, most = listed(limit, "cumulativeRoundIds"), numbered(limit, "centiseconds", 360000)
    if not rounds or most is None:
        return ""
    ids = " ".join(it if isinstance(it, str) else "" for it in rounds)
    return (f"by the competition's file: {rules.printed(most, '333')} for the attempts of {ids} "
            "together")


def blanks(count):
    """How many cards without a name follow so many: the last page is filled, and there is one."""
    return ON_PAGE - count % ON_PAGE


# ---- what is when


def rooms(value):
    """All rooms in the order of the file, each with its venue."""
    return [(venue, room) for venue in listed(member(value, "schedule"), "venues") or []
            for room in listed(venue, "rooms") or []]


def in_order(ones):
    """Activities in the order in which they begin, by the bytes of the times."""
    return sorted(ones or [], key=lambda one: (text(one, "startTime") or "").encode())


def times(one):
    """From when to when, as the file has it."""
    return [text(one, "startTime") or "", text(one, "endTime") or ""]


def named(activity, one):
    """What a part of an activity is, or the activity itself: its name, and before it that of the
    activity where it does not begin with it."""
    of, name = text(activity, "name") or "", text(one, "name") or ""
    return name if name.startswith(of) else f"{of}, {name}"


def leads_to(one, opened):
    """Where the name of an activity leads: to the page of its round, if that is one of these."""
    found = OF_ROUND.fullmatch(text(one, "activityCode") or "")
    if found is None or (found[1], int(found[2])) not in opened:
        return []
    return [f"/{found[1]}-{found[2]}"]


def schedule(value, opened):
    """A table for each room: the time zone, the room and the venue, and the lines. A line has
    whether it is of a group, from when to when, the whole name, the name, and the path that this
    leads to, if it does. `opened` has the rounds that were opened."""
    tables = []
    for venue, room in rooms(value):
        lines = []
        for activity in in_order(listed(room, "activities")):
            for one in (activity, *in_order(listed(activity, "childActivities"))):
                lines.append([one is not activity, *times(one), named(activity, one),
                              text(one, "name") or "", *leads_to(one, opened)])
        tables.append([text(venue, "timezone") or "", text(room, "name") or "",
                       text(venue, "name") or "", lines])
    return tables


def below(one):
    """An activity, and after it all that are below it."""
    yield one
    for child in listed(one, "childActivities") or []:
        yield from below(child)


def activities(value):
    """Where each id of an activity is first: venue, room, the activity of the room, and the one
    with this id."""
    found = {}
    for venue, room in rooms(value):
        for activity in listed(room, "activities") or []:
            for one in below(activity):
                if whole(member(one, "id")) is not None:
                    found.setdefault(member(one, "id"), (venue, room, activity, one))
    return found


def today(value, number):
    """The name of a competitor, and a line for each assignment: the time zone, from when to when,
    what, what to do, the room, and the station. None where the file has nobody with the number."""
    one = person(value, number)
    if one is None:
        return None
    there, lines = activities(value), []
    for assignment in listed(one, "assignments") or []:
        code = text(assignment, "assignmentCode") or ""
        at = numbered(assignment, "stationNumber", 9999)
        ends = [DOES.get(code, code), "", "" if at is None else str(at)]
        found = there.get(whole(member(assignment, "activityId")))
        line = ["", "", "", "an activity that the file does not have", *ends]
        if found:
            venue, room, activity, part = found
            ends[1] = text(room, "name") or ""
            line = [text(venue, "timezone") or "", *times(part), named(activity, part), *ends]
        lines.append(line)
    # who has no time comes first
    return text(one, "name") or "", sorted(lines, key=lambda line: line[1].encode())


# ---- records and labels


def is_record(of, event, kind, result):
    """Whether a result is not worse than the best that the file has of a person, or the first."""
    if of is None or not isinstance(result, int):
        return False
    known = best(of, event, kind)
    return known is None or result <= known


def records(value, meet, event, number):
    """A line for each entrant of a round in the order of the sheet: number, country, name, the best
    single and the average, and whether each of the two is a personal record."""
    table, lines = meet.rounds[event, number], []
    for _, who, (average, single, *_), _ in rules.rows(table):
        values, of = table.entrants[who], person(value, who)
        lines.append([str(who), text(of, "countryIso2") or "", meet.names[who].decode(),
                      single, average, is_record(of, event, "single", rules.best(values)),
                      is_record(of, event, "average",
                                rules.average(table.form, event, values))])
    return lines


def labels(value, names):
    """A label for each registered competitor: number, name, and WCA ID and country by the file."""
    made = []
    for who in sorted(names):
        of = person(value, who)
        made.append((str(who), names[who].decode(),
                     f"{text(of, 'wcaId') or ''} {text(of, 'countryIso2') or ''}"))
    return made


# ---- what is asked about a time


def doubts(value, event, who, entrants, times):
    """What the file lets one ask of the times of a card, in hundredths with their penalties, None
    for what is no time: the word that confirms it, and the question."""
    if event in ("333fm", "333mbf"):
        return []
    own = best(person(value, who), event, "single")
    field = [best(one, event, "single") for one in listed(value, "persons") or []
             if accepted(one) and whole(member(one, "registrantId")) in entrants]
    field = min((one for one in field if one), default=None)
    made = []
    for place, time in enumerate(times, 1):
        for word, bound, share, words in (
                ("best", own, (10, 8), "is less than 0.8 of {}, this competitor's best"),
                ("field", field, (2, 1), "is less than half of {}, the best in this round")):
            if time is not None and bound is not None and share[0] * time < share[1] * bound:
                made.append((f"{word}-{place}", f"{rules.printed(time, event)} "
                             + words.format(rules.printed(bound, event))
                             + " by the competition's file: is it right?"))
    return made


# ---- before results are sent in


def open_lines(refused, remarked):
    """The lines of what an export would refuse and of what it would remark, in one list. A round
    with a result that the file lacks is refused, and not left out."""
    lacks = [line for line in refused if line.endswith(": the file has no such round")]
    left_out = [line.replace(": the", ": left out: it has no result, and the") for line in lacks]
    return refused + [line for line in remarked if line not in left_out]
