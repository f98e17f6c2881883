#!/usr/bin/env python3
"""A second program of what a desk makes of a competition in the WCA Competition Interchange Format.

    bench/wcif.py lines FILE [--edition 3] [--cumulative as-single] [--same-names id]
    bench/wcif.py cases stdin|stdout
    bench/wcif.py big

`lines` prints the command lines of a file, or `fault: ` and a text for each fault. `cases` prints
the first part of the input of `files` of tests/bytes, its imports, and what it has to print for
them: the files of examples/wcif and small changes of them. `big` prints examples/wcif/large.json.
It is written from the definition of what a desk holds (docs/FORMATS.md) and uses nothing of the
repository.

    for it in wcif wcif_results results_json; do bench/$it.py cases stdin; done

is the whole input of `files` of tests/bytes, and with `stdout` what it has to print.
"""

import json
import pathlib
import re
import sys
import unicodedata

EXAMPLES = pathlib.Path(__file__).resolve().parent.parent / "examples" / "wcif"

EVENTS = {
    "333": "time", "222": "time", "444": "time", "555": "time", "666": "time", "777": "time",
    "333bf": "time", "333fm": "moves", "333oh": "time", "clock": "time", "minx": "time",
    "pyram": "time", "skewb": "time", "sq1": "time", "444bf": "time", "555bf": "time",
    "333mbf": "multi",
}
FORMATS = {"1": ("bo1", 1), "2": ("bo2", 2), "3": ("bo3", 3), "a": ("ao5", 5), "m": ("mo3", 3)}


def formats_of(event):
    if event in ("666", "777", "333fm"):
        return {"mo3", "bo1", "bo2"}
    if event in ("333bf", "444bf", "555bf", "333mbf"):
        return {"bo1", "bo2", "bo3"}
    return {"ao5", "bo1", "bo2", "bo3"}


def whole(value):
    """A whole number that is not negative, as JSON has it without a point."""
    return value if type(value) is int and value >= 0 else None


def member(value, name):
    return value.get(name) if isinstance(value, dict) else None


def text(value, name):
    found = member(value, name)
    return found if isinstance(found, str) else None


def listed(value, name):
    found = member(value, name)
    return found if isinstance(found, list) else None


def in_range(number, low, high):
    return number is not None and low <= number <= high


def is_name(name):
    """A name of edition 3. (Python's Unicode is older than the program's.)"""
    unseen = any(unicodedata.category(letter) in ("Cc", "Cf", "Co", "Cn", "Zl", "Zp")
                 for letter in name)
    return (1 <= len(name.encode()) <= 160 and not unseen and '"' not in name
            and all(name.split(" ")))


def accepted(person):
    return text(member(person, "registration"), "status") == "accepted"


def ids_of(person):
    ids = listed(member(person, "registration"), "eventIds")
    return None if ids is None else [i if isinstance(i, str) else "" for i in ids]


def desk_names(persons, same_names):
    """The name that a desk gets for each accepted person, by place."""
    given = [text(p, "name") or "" for p in persons]
    many = {}
    for name, person in zip(given, persons):
        if accepted(person):
            many[name] = many.get(name, 0) + 1
    names = {}
    for place, (name, person) in enumerate(zip(given, persons), 1):
        if accepted(person):
            wca_id = text(person, "wcaId")
            told_apart = same_names == "id" and many[name] > 1 and wca_id is not None
            names[place] = name + " " + wca_id if told_apart else name
    return names


def quoted(name):
    """A text in double quotes, with escapes for what is not seen."""
    known = {'"': '\\"', "\\": "\\\\", "\n": "\\n", "\r": "\\r", "\t": "\\t", "\0": "\\0"}
    return '"' + "".join(known.get(c, c if c.isprintable() else "\\u{%x}" % ord(c))
                         for c in name) + '"'


def name_fault(name):
    """What is wrong with a name that a desk refuses."""
    if not name:
        return "the name is missing"
    if len(name.encode()) > 160:
        return "the name has more than 160 bytes"
    if '"' in name:
        return "the name has a double quote"
    return "the name has a space too many, or a character that is not seen"


def person_faults(place, person, persons, names, held):
    out = []
    number = whole(member(person, "registrantId"))
    front = [(i, p) for i, p in enumerate(persons[:place - 1], 1) if accepted(p)]
    if number is None:
        out.append("the registrantId is missing")
    elif not 1 <= number <= 9999:
        out.append("the registrantId is not 1 to 9999")
    elif any(whole(member(p, "registrantId")) == number for _, p in front):
        out.append("another accepted person has this registrantId")
    if not is_name(names[place]):
        out.append(name_fault(names[place]))
    elif any(names[i] == names[place] for i, _ in front):
        out.append("another accepted person has this name")
    ids = ids_of(person)
    if ids is None:
        out.append("no list of events in the registration")
    elif len(ids) > 100:
        out.append("more than 100 events in the registration")
    else:
        for item, event in enumerate(ids, 1):
            if event not in held:
                out.append(f"event {item} of the registration is not held")
            elif event in ids[:item - 1]:
                out.append(f"event {item} of the registration stands there twice")
    name = (text(person, "name") or "").encode()[:160].decode(errors="ignore")
    who = quoted(name) + ("" if number is None else f" ({number})")
    return [f"person {place}, {who}: {fault}" for fault in out]


def settings(event, item, cumulative):
    """The fields of OPEN after the round, and the faults of a round but for its id."""
    faults = []
    unit = EVENTS[event]
    known = FORMATS.get(text(item, "format"))
    if known is None or known[0] not in formats_of(event):
        known = None
        faults.append("the desk has no such format for the event")
    cutoff = member(item, "cutoff")
    cutoff_field = "-"
    if cutoff is not None:
        attempts = whole(member(cutoff, "numberOfAttempts"))
        below = whole(member(cutoff, "attemptResult"))
        most = 4 if known is None else known[1] - 1
        if unit != "multi" and in_range(attempts, 1, most) and in_range(below, 1, 360000):
            cutoff_field = f"{attempts}:{below}"
        else:
            faults.append("the desk cannot hold the cutoff")
    limit = member(item, "timeLimit")
    limit_field = "-"
    if (limit is not None) != (unit == "time"):
        faults.append("the desk cannot hold the time limit")
    elif limit is not None:
        together = member(limit, "cumulativeRoundIds")
        hundredths = whole(member(limit, "centiseconds"))
        if cumulative == "refuse" and together is not None and together != []:
            faults.append("cumulative limit: enter the limit that holds for one attempt")
        elif in_range(hundredths, 1, 360000):
            limit_field = str(hundredths)
        else:
            faults.append("the desk cannot hold the time limit")
    condition = member(item, "advancementCondition")
    advance_field = "final"
    if condition is not None:
        kind, level = text(condition, "type"), whole(member(condition, "level"))
        if kind == "ranking" and in_range(level, 1, 999):
            advance_field = f"top:{level}"
        elif kind == "percent" and in_range(level, 1, 75):
            advance_field = f"pct:{level}"
        elif kind == "attemptResult":
            faults.append("advancement by a result: enter a ranking or a percentage")
        else:
            faults.append("advancement is by a ranking of 1 to 999 or by 1 to 75 percent")
    name = known[0] if known else "?"
    return f"{name} {cutoff_field} {limit_field} {advance_field}", faults


def event_faults(place, event, events, persons, cumulative):
    name = text(event, "id") or ""
    if name not in EVENTS:
        return [f"event {place}: the desk has no such event"]
    out = []
    if any((text(e, "id") or "") == name for e in events[:place - 1]):
        out.append(f"event {place}: the event stands there twice")
    if sum(accepted(p) and name in (ids_of(p) or []) for p in persons) > 999:
        out.append(f"event {place}: more than 999 accepted persons")
    rounds = listed(event, "rounds") or []
    if not rounds:
        out.append(f"event {place}: no rounds")
    elif len(rounds) > 4:
        out.append(f"event {place}: more than 4 rounds")
    else:
        for number, item in enumerate(rounds, 1):
            own = f"{name}-r{number}"
            if text(item, "id") != own:
                out.append(f"{own}: the id is not that of this round")
            out += [f"{own}: {f}" for f in settings(name, item, cumulative)[1]]
    return out


def imported(value, cumulative="refuse", same_names="refuse", edition=4):
    """The command lines, or the faults."""
    persons, events = listed(value, "persons"), listed(value, "events")
    faults = ["no list of persons"] * (persons is None) + ["no list of events"] * (events is None)
    if not faults and len(events) > 100:
        faults = ["more than 100 events"]
    if faults:
        return [], faults
    names = desk_names(persons, same_names)
    held = {text(e, "id") or "" for e in events}
    for place, person in enumerate(persons, 1):
        if accepted(person):
            faults += person_faults(place, person, persons, names, held)
    for place, event in enumerate(events, 1):
        faults += event_faults(place, event, events, persons, cumulative)
    if faults:
        return [], faults
    order = sorted((p["registrantId"], names[i], p) for i, p in enumerate(persons, 1) if i in names)
    lines = [f"EDITION {edition}"]
    lines += [f"REG {number} {name}" for number, name, _ in order]
    for event in events:
        fields, _ = settings(event["id"], event["rounds"][0], cumulative)
        lines.append(f"OPEN {event['id']} 1 {fields}")
    lines += [f"ENT {event} {number}" for number, _, p in order for event in ids_of(p)]
    return lines, []


def later(value, cumulative="refuse"):
    """What is said of rounds that are not opened, as comments, of a file without faults."""
    lines = []
    for event in listed(value, "events"):
        rounds = event["rounds"]
        for number, item in enumerate(rounds, 1):
            fields, _ = settings(event["id"], item, cumulative)
            if number > 1:
                lines.append(f"# OPEN {event['id']} {number} {fields}")
            if fields.endswith(" final") and number < len(rounds):
                lines.append(f"# {event['id']}-r{number}: nobody advances, "
                             "and the file has a next round")
    return lines


def large():
    """200 persons, of whom every tenth has no registration, in all events of a desk."""
    events = []
    for name, unit in EVENTS.items():
        kind = "m" if "mo3" in formats_of(name) else "3" if "ao5" not in formats_of(name) else "a"
        limit = {"centiseconds": 60000, "cumulativeRoundIds": []} if unit == "time" else None
        events.append({"id": name, "extensions": [], "rounds": [{
            "id": f"{name}-r1", "format": kind, "timeLimit": limit, "cutoff": None,
            "advancementCondition": None, "scrambleSetCount": 3, "results": [], "extensions": []}]})
    names = list(EVENTS)
    persons = []
    for k in range(200):
        taken = [names[(k * 7 + j * j) % 17] for j in range(1 + k % 6)]
        registration = {
            "wcaRegistrationId": 5000 + k, "eventIds": list(dict.fromkeys(taken)),
            "status": "pending" if k % 13 == 5 else "accepted", "guests": k % 3, "comments": ""}
        persons.append({
            "registrantId": (k * 37) % 211 + 1,
            "name": f"Person {k // 2 * 2 if k % 50 == 1 else k}",
            "wcaUserId": 7000 + k, "wcaId": None if k % 9 == 4 else f"2020PERS{k:02}",
            "countryIso2": "XX", "gender": "o", "birthdate": "2000-01-01", "avatar": None,
            "roles": [], "registration": None if k % 10 == 7 else registration,
            "assignments": [], "personalBests": [], "extensions": []})
    return {"formatVersion": "1.0", "id": "LargeOpen2026", "name": "Large Open 2026",
            "persons": persons, "events": events, "schedule": {"venues": []}, "extensions": []}


READ = {"persons", "registrantId", "name", "wcaId", "registration", "status", "eventIds", "events",
        "id", "rounds", "format", "timeLimit", "centiseconds", "cumulativeRoundIds", "cutoff",
        "numberOfAttempts", "attemptResult", "advancementCondition", "type", "level"}


def changed(change):
    """The small file without what is not read, and with a change."""
    value = json.loads((EXAMPLES / "small.json").read_text(), object_pairs_hook=lambda pairs: {
        name: member for name, member in pairs if name in READ})
    change(value, value["persons"], value["events"])
    return value


def short(value):
    return json.dumps(value, ensure_ascii=False, separators=(",", ":"))


def large_text():
    """The large file, a person and an event a line."""
    value = large()
    persons = ",\n".join(short(person) for person in value.pop("persons"))
    events = ",\n".join(short(event) for event in value.pop("events"))
    return f'{short(value)[:-1]},\n"persons":[\n{persons}\n],\n"events":[\n{events}\n]}}\n'


def put(found, *path):
    """Puts the last item of the path under the others."""
    *front, name, value = path
    for step in front:
        found = found[step]
    found[name] = value


def on_round(name, value, event=0, item=0):
    return lambda v, p, e: put(e, event, "rounds", item, name, value)


def on_person(place, *path):
    return lambda v, p, e: put(p, place, *path)


def crowd(size):
    def change(v, p, e):
        v["persons"] = [
            {"registrantId": k + 1, "name": f"N {k}",
             "registration": {"status": "accepted", "eventIds": ["333"]}} for k in range(size)]
    return change


def without(event):
    def change(v, p, e):
        e[:] = [it for it in e if it["id"] != event]
        for person in p:
            ids = ids_of(person)
            if event in (ids or []):
                person["registration"]["eventIds"] = [it for it in ids if it != event]
    return change


BOTH = ("as-single", "id")
CHANGES = [
    ("cumulative limit as the limit of one attempt, same names refused", ("as-single", "refuse"),
     lambda v, p, e: None),
    ("same names with IDs, cumulative limit refused", ("refuse", "id"), lambda v, p, e: None),
    ("in edition 3", ("as-single", "id", 3), lambda v, p, e: None),
    ("in edition 3, without multi-blind", ("as-single", "id", 3), without("333mbf")),
    ("without multi-blind", BOTH, without("333mbf")),
    ("no persons", BOTH, lambda v, p, e: v.pop("persons")),
    ("no events", BOTH, lambda v, p, e: put(v, "events", None)),
    ("neither", BOTH, lambda v, p, e: (v.pop("persons"), v.pop("events"))),
    ("empty lists", BOTH, lambda v, p, e: (p.clear(), e.clear())),
    ("101 events", BOTH, lambda v, p, e: put(v, "events", e[:1] * 101)),
    ("nobody accepted", BOTH, lambda v, p, e: [put(q, "registration", None) for q in p]),
    ("a number is missing", BOTH, on_person(0, "registrantId", None)),
    ("a number is a text", BOTH, on_person(0, "registrantId", "3")),
    ("a number is negative", BOTH, on_person(0, "registrantId", -3)),
    ("a number has a point", BOTH, on_person(0, "registrantId", 3.5)),
    ("number 0", BOTH, on_person(0, "registrantId", 0)),
    ("number 10000", BOTH, on_person(0, "registrantId", 10000)),
    ("a number twice", BOTH, on_person(1, "registrantId", 3)),
    ("the number of one who is deleted", BOTH, on_person(1, "registrantId", 5)),
    ("no name", BOTH, on_person(1, "name", None)),
    ("an empty name twice", BOTH, lambda v, p, e: (put(p, 1, "name", ""), put(p, 8, "name", ""))),
    ("a name with two spaces", BOTH, on_person(1, "name", "Bo  Ek")),
    ("a name with a line feed", BOTH, on_person(1, "name", "Bo\nEk")),
    ("a name of 80 bytes", BOTH, on_person(1, "name", "é" * 40)),
    ("a name of 81 bytes", BOTH, on_person(1, "name", "é" * 40 + "x")),
    ("a name of 160 bytes", BOTH, on_person(1, "name", "é" * 80)),
    ("a name of 161 bytes", BOTH, on_person(1, "name", "é" * 80 + "x")),
    ("a name of 160 bytes in edition 3", (*BOTH, 3), on_person(1, "name", "é" * 80)),
    ("with its ID a name has 160 bytes", BOTH,
     lambda v, p, e: (put(p, 0, "name", "x" * 149), put(p, 3, "name", "x" * 149))),
    ("with its ID a name is too long", BOTH,
     lambda v, p, e: (put(p, 0, "name", "x" * 150), put(p, 3, "name", "x" * 150))),
    ("a name with a double quote", BOTH, on_person(1, "name", 'Bo "B" Ek')),
    ("a name with a double quote in edition 3", (*BOTH, 3), on_person(1, "name", 'Bo "B" Ek')),
    ("a name with a space that has no width", BOTH, on_person(1, "name", "Bo\u200bEk")),
    ("a name with a mark that turns the text round", BOTH, on_person(1, "name", "Bo \u202eEk")),
    ("a local form of a name", BOTH, on_person(1, "name", "Bo Ek (โบ เอก)")),
    ("same names, and one has no ID", BOTH, on_person(3, "wcaId", None)),
    ("same names, and none has an ID", BOTH,
     lambda v, p, e: (put(p, 0, "wcaId", None), put(p, 3, "wcaId", None))),
    ("a name with an ID is the name of another", BOTH, on_person(1, "name", "Ann Li 2019LIAN03")),
    ("a registration without events", BOTH, on_person(0, "registration", "eventIds", None)),
    ("101 events in a registration", BOTH,
     on_person(0, "registration", "eventIds", ["333"] * 101)),
    ("events that are not held, or twice", BOTH,
     on_person(0, "registration", "eventIds", ["333", "444", "222", "333", 7])),
    ("everybody is wrong", BOTH,
     lambda v, p, e: [put(q, "registrantId", 10000) or put(q, "name", " ") for q in p]),
    ("an event that the desk has not", BOTH, lambda v, p, e: put(e, 3, "id", "333ft")),
    ("an event twice", BOTH, lambda v, p, e: e.append(e[0])),
    ("no rounds", BOTH, lambda v, p, e: put(e, 0, "rounds", [])),
    ("rounds are null", BOTH, lambda v, p, e: put(e, 0, "rounds", None)),
    ("five rounds", BOTH, lambda v, p, e: put(e, 0, "rounds", e[0]["rounds"] * 2 + e[0]["rounds"])),
    ("999 entrants", BOTH, crowd(999)),
    ("1000 entrants", BOTH, crowd(1000)),
    ("the id of another round", BOTH, on_round("id", "333-r2")),
    ("best of five", BOTH, on_round("format", "5")),
    ("mean of three in 333", BOTH, on_round("format", "m")),
    ("the format is missing, and a cutoff of four", BOTH,
     lambda v, p, e: (put(e, 0, "rounds", 0, "format", None),
                      put(e, 0, "rounds", 0, "cutoff", "numberOfAttempts", 4))),
    ("a cutoff of as many attempts as the format has", BOTH,
     on_round("cutoff", {"numberOfAttempts": 5, "attemptResult": 3000})),
    ("a cutoff of no result", BOTH,
     on_round("cutoff", {"numberOfAttempts": 2, "attemptResult": 0})),
    ("a cutoff in multi-blind", BOTH,
     on_round("cutoff", {"numberOfAttempts": 1, "attemptResult": 3000}, event=1)),
    ("no limit", BOTH, on_round("timeLimit", None)),
    ("a limit above an hour", BOTH,
     on_round("timeLimit", {"centiseconds": 360001, "cumulativeRoundIds": []})),
    ("a limit of an hour", BOTH, on_round("timeLimit", {"centiseconds": 360000})),
    ("a limit in fewest moves", BOTH,
     on_round("timeLimit", {"centiseconds": 360000, "cumulativeRoundIds": []}, event=4)),
    ("a cumulative limit in a later round", ("refuse", "id"),
     on_round("timeLimit", {"centiseconds": 60000, "cumulativeRoundIds": ["222-r2"]}, 3, 1)),
    ("advancement by a result", BOTH,
     on_round("advancementCondition", {"type": "attemptResult", "level": 1500})),
    ("advancement of 76 percent", BOTH,
     on_round("advancementCondition", {"type": "percent", "level": 76})),
    ("advancement of 1000", BOTH,
     on_round("advancementCondition", {"type": "ranking", "level": 1000})),
    ("advancement by a word", BOTH, on_round("advancementCondition", "all")),
]

# what stands in the file, and what is printed: worked out by hand
RAW = [
    ("a byte-order mark at the front", "\ufeff" + '{"persons": [], "events": []}', "EDITION 4\n"),
    ("a bad token", '{"persons":\n [x]}', "no JSON: line 2 column 3\n"),
    ("64 levels", "[" * 64 + "]" * 64, "fault: no list of persons\nfault: no list of events\n"),
    ("65 levels", "[" * 65 + "]" * 65, "too deep\n"),
    ("65 levels of objects and lists", '{"a": [' * 32 + "[]" + "]}" * 32, "too deep\n"),
]


def printed(value, options):
    lines, faults = imported(value, *options)
    lines += [f"fault: {fault}" for fault in faults] or later(value, options[0])
    return "".join(f"{line}\n" for line in lines)


def cases(which):
    files = [(name, ("as-single", "id"), (EXAMPLES / f"{name}.json").read_text())
             for name in ("small", "large")]
    files += [(title, options, short(changed(change)))
              for title, options, change in CHANGES]
    for title, options, body in files:
        limits, names, edition = (*options, 4)[:3]
        ask = f"import {edition} {limits} {names} {title}\n"
        yield f"{ask}{body.rstrip()}\nend\n" if which == "stdin" else (
            f"# {title}\n" + printed(json.loads(body), options))
    for title, body, out in RAW:
        yield f"import 4 refuse refuse {title}\n{body}\nend\n" if which == "stdin" else (
            f"# {title}\n{out}")


def main(arguments):
    if arguments == ["big"]:
        sys.stdout.write(large_text())
    elif arguments[:1] == ["cases"] and arguments[1:] in (["stdin"], ["stdout"]):
        for case in cases(arguments[1]):
            sys.stdout.write(case)
    elif arguments[:1] == ["lines"] and len(arguments) > 1:
        options = dict(zip(arguments[2::2], arguments[3::2]))
        value = json.loads(pathlib.Path(arguments[1]).read_text())
        sys.stdout.write(printed(value, (options.get("--cumulative", "refuse"),
                                         options.get("--same-names", "refuse"),
                                         options.get("--edition", 4))))
    else:
        sys.exit(__doc__)


if __name__ == "__main__":
    main(sys.argv[1:])
