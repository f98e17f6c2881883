#!/usr/bin/env python3
"""A second program of a meet's results in a file of the WCA Competition Interchange Format.

    bench/wcif_results.py file FILE < COMMANDS
    bench/wcif_results.py cases stdin|stdout
    bench/wcif_results.py random FROM TO stdin|stdout

`file` prints the file with the results of the meet that the commands make, or a line `fault: ` for
each thing of the meet that the file has no place for, and a line `note: ` for what is told of the
file. `cases` prints the exports of the input of
`files` of tests/bytes and what it has to print for them, and `random` those of random meets and
files. It is written from the definition (docs/FORMATS.md) over Python's `json` and the meets of
bench/rules.py, and uses nothing of the crates.
"""

import json
import pathlib
import random
import sys

sys.dont_write_bytecode = True
import rules
import wcif

EXAMPLES = pathlib.Path(__file__).resolve().parent.parent / "examples" / "wcif"


# --- JSON with its order, its members that come twice, and the spelling of its numbers -----------


class Members(list):
    """An object: its members in order, each a name and a value."""


class Spelled(str):
    """A number as it is spelled."""


def no_constant(word):
    raise ValueError(word)


def parsed(text):
    return json.loads(text, object_pairs_hook=Members, parse_int=Spelled, parse_float=Spelled,
                      parse_constant=no_constant)


def printed(value):
    if isinstance(value, Members):
        return "{" + ",".join(f"{printed(k)}:{printed(v)}" for k, v in value) + "}"
    if isinstance(value, list):
        return "[" + ",".join(map(printed, value)) + "]"
    if isinstance(value, Spelled):
        return str(value)
    return json.dumps(value, ensure_ascii=False)


def member(value, name):
    """The last member of an object with a name."""
    found = [v for k, v in value if k == name] if isinstance(value, Members) else []
    return found[-1] if found else None


def is_list(value):
    return isinstance(value, list) and not isinstance(value, Members)


def items(value, name):
    found = member(value, name)
    return found if is_list(found) else []


def text(value, name):
    found = member(value, name)
    return found if isinstance(found, str) and not isinstance(found, Spelled) else ""


def id_of(value):
    return text(value, "id")


# --- results -------------------------------------------------------------------------------------


def encoded(value):
    """An attempt, a best or an average: hundredths, moves, hundredths of a move or multi-blind."""
    return Spelled({"DNF": -1, "DNS": -2, "-": 0}.get(value, value))


def results(table):
    """One for each entrant, by place, and at one place in the order of entry."""
    places = table.places()
    for who in table.standings():
        values = table.entrants[who]
        yield Members([
            ("personId", Spelled(who)),
            ("ranking", Spelled(places[who]) if values else None),
            ("attempts", [Members([("result", encoded(value)), ("reconstruction", None)])
                          for value in values]),
            ("best", encoded(rules.best(values) if values else "-")),
            ("average", encoded(rules.average(table.form, table.what, values)))])


def ordered(meet):
    """The rounds of a meet by their ids, in the order of the events and then of the rounds."""
    return {f"{what}-r{which}": meet.rounds[what, which] for what in rules.EVENTS
            for which in range(1, 5) if (what, which) in meet.rounds}


def held_rounds(value):
    """The formats of the file's rounds by their ids: of each id the first."""
    held = {}
    for event in items(value, "events"):
        for item in items(event, "rounds"):
            held.setdefault(id_of(item), text(item, "format"))
    return held


def persons_by_number(value):
    """The persons of the file by their numbers, of each number the first: of all, and of those who
    are accepted."""
    everyone, accepted = {}, {}
    for person in items(value, "persons"):
        number = member(person, "registrantId")
        if isinstance(number, Spelled):
            everyone.setdefault(str(number), person)
            if text(member(person, "registration"), "status") == "accepted":
                accepted.setdefault(str(number), person)
    return everyone, accepted


def faults(meet, given, rounds, value):
    """What the file has no place for; given: the pairs of a number and a name that REG and REN
    gave."""
    held = held_rounds(value)
    everyone, accepted = persons_by_number(value)
    for name, table in rounds.items():
        if name not in held:
            if not any(table.entrants.values()):
                continue
            yield f"{name}: the file has no such round"
        for who in table.standings():
            here = f"{name}: number {who} is {wcif.quoted(meet.names[who].decode())}, and"
            person = accepted.get(str(who), everyone.get(str(who)))
            there = text(person, "name")
            names = (there.encode(), (there + " " + text(person, "wcaId")).encode())
            if person is None:
                yield f"{here} nobody in the file"
            elif str(who) not in accepted:
                yield f"{here} in the file {wcif.quoted(there)}, not accepted"
            elif not any((who, called) in given for called in names):
                yield f"{here} in the file {wcif.quoted(there)}"


FORMATS = {"ao5": "a", "mo3": "m", "bo1": "1", "bo2": "2", "bo3": "3"}


def notes(rounds, value):
    """What is told of a file with results."""
    held = held_rounds(value)
    for name, table in rounds.items():
        if name not in held:
            yield f"{name}: left out: it has no result, and the file has no such round"
            continue
        if not table.closed:
            yield f"{name}: the round still runs"
        if held[name] != FORMATS[table.form]:
            yield f"{name}: the format is {table.form}, and in the file {wcif.quoted(held[name])}"


def within(value, name, change):
    if not isinstance(value, Members):
        return value
    return Members((k, [change(item) for item in v] if k == name and is_list(v) else v)
                   for k, v in value)


def filled(rounds, value):
    def with_results(item):
        table = rounds.get(id_of(item)) if isinstance(item, Members) else None
        if table is None:
            return item
        made = list(results(table))
        found = Members((k, made if k == "results" else v) for k, v in item)
        return found if member(item, "results") is not None or any(
            k == "results" for k, _ in item) else Members(found + [("results", made)])

    return within(value, "events", lambda event: within(event, "rounds", with_results))


def depth(value):
    if isinstance(value, Members):
        return 1 + max((depth(v) for _, v in value), default=0)
    return 1 + max(map(depth, value), default=0) if isinstance(value, list) else 0


def exported(commands, body):
    """Of a meet and a file: the refused commands, all that the file has no place for, what is told
    of the file with the results, and that file."""
    meet = rules.Meet()
    refused, given = [], set()
    for command in commands:
        if meet.apply(command.encode()) is not None:
            refused.append(command)
        elif command.startswith(("REG ", "REN ")):
            who = int(command.split(" ")[1])
            given.add((who, meet.names[who]))
    value = parsed(body.removeprefix("\ufeff"))
    rounds = ordered(meet)
    told = list(faults(meet, given, rounds, value))
    return refused, told, list(notes(rounds, value)), printed(filled(rounds, value)) + "\n"


def wanted(commands, body, running=True):
    """What `export` prints and tells of a meet with a round, and its status."""
    _, missing, told, made = exported(commands, body)
    lines = "".join(line + "\n" for line in missing or told)
    if missing:
        return "", lines, 3
    runs = any(line.endswith(": the round still runs") for line in told)
    return "" if runs and not running else made, lines, 1 if told else 0


# --- cases ---------------------------------------------------------------------------------------


DAY = ["REG 1 Ann Li", "REG 2 Bo Ek", "REG 3 Cy Roe"]
CUBE = ["OPEN 333 1 ao5 2:2000 60000 top:2", "ENT 333 3", "ENT 333 1", "ENT 333 2"]
TRIED = [f"ATT 333 1 {k} {who} {out}" for who, outs in (
    (1, ("T:1500:0", "T:1400:2", "DNF", "T:59990:0", "DNS")), (2, ("T:2100:0", "T:2000:0")))
    for k, out in enumerate(outs, 1)]
DONE = ["OPEN 222 1 bo1 - 60000 final", "ENT 222 1", "ATT 222 1 1 1 DNF", "CLOSE 222 1"]
ACCEPTED = '"registration":{"status":"accepted"}'
PERSONS = '"persons":[' + ",".join(
    '{"registrantId":%d,%s,"name":"%s"}' % (who, ACCEPTED, name)
    for who, name in enumerate(("Ann Li", "Bo Ek", "Cy Roe"), 1)) + "]"


def one(rounds, front="", back=""):
    return "{" + front + PERSONS + ',"events":[{"id":"333","rounds":[' + rounds + "]}]" + back + "}"


# title, commands, file
CASES = [
    ("a round, with attempts, without, and with a cutoff that is not met", DAY + CUBE + TRIED,
     one('{"id":"333-r1","format":"a","results":[]}')),
    ("no meet, and numbers, texts, white space and members as they are", [],
     '{ "b" : 1.0 , "a" : [ 1e2, -0, 0.10, 123456789012345678901234567890, 1E+400 ],\n'
     ' "a" : "\\u0041\\/\\n\\u001f\\u00e9 \\ud83d\\ude00 \\"\\\\ é", "" : {},\n'
     ' "c": [true,false,null]}'),
    ("results are missing", DAY + CUBE, one('{"id":"333-r1","x":1.50}')),
    ("results come twice", DAY + CUBE, one('{"results":null,"id":"333-r1","results":7,"z":[]}')),
    ("results that were there", DAY + CUBE,
     one('{"id":"333-r1","results":[{"personId":1,"ranking":1}],"extensions":[]}')),
    ("the id comes twice", DAY + CUBE, one('{"id":"333-r9","id":"333-r1"}')),
    ("the id of another round is last", DAY + CUBE, one('{"id":"333-r1","id":"333-r9"}')),
    ("rounds with one id", DAY + CUBE, one('{"id":"333-r1"},{"id":"333-r1","results":[]}')),
    ("a round of another event", DAY + CUBE,
     one('{"id":"333-r1"}').replace('"id":"333","', '"id":"222","')),
    ("rounds that the meet has not", DAY + CUBE,
     one('{"id":"333-r1"},{"id":"333-r2","results":[5]},{"id":333},7,null,["333-r1"]')),
    ("rounds and events that are no lists", DAY,
     '{"events":{"rounds":[{"id":"333-r1"}]},"events":[{"rounds":{"id":"333-r1"}},[],1]}'),
    ("a round outside the events", DAY, '{"rounds":[{"id":"333-r1","results":1}],"events":[]}'),
    ("events come twice", DAY + CUBE,
     one('{"id":"333-r1"}', '"events":[{"rounds":[{"id":"333-r1"}]}],')),
    ("the second events lack the round", DAY + CUBE,
     one('{"id":"333-r2"}', '"events":[{"rounds":[{"id":"333-r1"}]}],')),
    ("nobody has a number", DAY + CUBE, one('{"id":"333-r1"}').replace(":2,", ":4,")),
    ("numbers that are spelled otherwise", DAY + CUBE,
     one('{"id":"333-r1"}').replace(":1,", ":1.0,").replace(":2,", ':"2",').replace(
         ":3,", ":3e0,")),
    ("a pending, a deleted and a missing registration", DAY + CUBE,
     one('{"id":"333-r1"}').replace('"accepted"', '"pending"', 1).replace(
         '2,' + ACCEPTED, '2,"registration":{"status":"deleted"}').replace("3," + ACCEPTED, "3")),
    ("a status that is null, a text for a registration, and a status outside", DAY + CUBE,
     one('{"id":"333-r1"}').replace('"accepted"', "null", 1).replace(
         '2,' + ACCEPTED, '2,"registration":"accepted"').replace(
         "3," + ACCEPTED, '3,"status":"accepted"')),
    ("a round that the file lacks, without a result", DAY + DONE + CUBE,
     one('{"id":"222-r1","format":"1"}')),
    ("a round that the file lacks, with a result", DAY + CUBE + DONE,
     one('{"id":"333-r1","format":"a"}')),
    ("a round that is closed", DAY + DONE, one('{"id":"222-r1","format":"1"}')),
    ("closed, and in another format", DAY + DONE, one('{"id":"222-r1","format":"a"}')),
    ("a round that runs, in another format", DAY + CUBE,
     one('{"id":"333-r1","format":"h\\u0007"},{"id":"333-r1","format":"a"}')),
    ("other names, and a name with a WCA ID", DAY + CUBE,
     one('{"id":"333-r1"}').replace("Ann Li", "Ann").replace(
         '"Bo Ek"', '"Bo","wcaId":"Ek"').replace('"Cy Roe"', "null")),
    ("a name that was changed", DAY + ["EDITION 3"] + CUBE + ["REN 1 Ann Lee", "REN 2 Bo",
                                                              "REN 3 Ann Lee"],
     one('{"id":"333-r1"}').replace("Ann Li", "Ann Lee")),
    ("two persons with a number, of whom one has the name", DAY + CUBE,
     one('{"id":"333-r1"}').replace("[{", '[{"registrantId":1,"name":"Al",' + ACCEPTED + "},{", 1)),
    ("the number of a pending person and of an accepted one", DAY + CUBE,
     one('{"id":"333-r1"}').replace(
         '"persons":[', '"persons":[{"registrantId":2,"registration":{"status":"pending"}},')),
    ("no events, no persons", DAY + CUBE + TRIED, "{}"),
    ("no object", DAY + CUBE + TRIED, "[]"),
    ("two rounds", DAY + ["OPEN 222 1 bo3 - - top:2", "ENT 222 1", "ATT 222 1 1 1 DNS"] + CUBE,
     one('{"id":"222-r1"},{"id":"333-r1"}')),
    ("fewest moves", DAY + ["OPEN 333fm 1 mo3 - - final", "ENT 333fm 1", "ENT 333fm 2"]
     + [f"SCR 333fm 1 {k} R U F" for k in (1, 2, 3)]
     + ["ATT 333fm 1 1 1 S:F' U' R'", "ATT 333fm 1 2 1 S:F2 F U' R'", "ATT 333fm 1 3 1 S:F' U' R'",
        "ATT 333fm 1 1 2 S:R"], one('{"id":"333fm-r1"}')),
    ("multi-blind", DAY + ["EDITION 2", "OPEN 333mbf 1 bo3 - - final", "ENT 333mbf 1",
     "ENT 333mbf 2", "ATT 333mbf 1 1 1 M:11:13:3500", "ATT 333mbf 1 2 1 M:1:2:60",
     "ATT 333mbf 1 1 2 M:99:99:1", "ATT 333mbf 1 2 2 M:2:2:5999"], one('{"id":"333mbf-r1"}')),
    ("64 levels", [], "[" * 64 + "]" * 64),
    ("65 levels", [], "[" * 65 + "]" * 65),
    ("65 levels of objects and lists", [], '{"a":[' * 32 + "[]" + "]}" * 32),
    ("a byte-order mark at the front", [], "\ufeff[1]"),
]

# what stands in the file, and where the token begins that is none of JSON: worked out by hand
RAW = [
    ("a bad token", '{"persons":\n [x]}', "no JSON: line 2 column 3\n"),
    ("a number with a zero at the front", "[1,\n 012]", "no JSON: line 2 column 2\n"),
]


def day(chance, lines):
    """A day of a competition: the commands of its import, and then random attempts."""
    meet = rules.Meet()
    commands = list(lines)

    def give(text):
        commands.append(text)
        return meet.apply(text.encode())

    for line in lines:
        meet.apply(line.encode())
    for (what, which), table in list(meet.rounds.items()):
        if what == "333fm":
            for k in range(1, rules.ATTEMPTS[table.form] + 1):
                give(f"SCR 333fm {which} {k} R U F D2 L'")
        for who in list(table.entrants):
            for k in range(1, chance.choice((0, 2, 5, 5, 5)) + 1):
                give(f"ATT {what} {which} {k} {who} {outcome(chance, what)}")
    return commands


def outcome(chance, what):
    kind = chance.random()
    if kind < 0.1:
        return "DNF" if kind < 0.06 else "DNS"
    if what == "333fm":
        return "S:" + chance.choice(("L D2 F' U' R'", "L D2 F' U' R2 R", "L' L2 D2 F' U' R'", "R"))
    if what == "333mbf":
        tried = chance.randint(2, 99)
        return f"M:{chance.randint(0, tried)}:{tried}:{chance.randint(1, 5999)}"
    time = chance.choice((chance.randint(1, 9999), chance.randint(900, 1100),
                          chance.randint(50_000, 999_999)))
    return f"T:{time}:{chance.choice((0, 0, 0, 1, 9))}"


STATUSES = ["accepted"] * 30 + ["pending", "deleted", None]


def random_case(seed):
    """A small meet and a file for it, often without a place for something of the meet."""
    chance = random.Random(seed)
    people = chance.sample(range(1, 9999), chance.randint(1, 6))
    lines = [f"REG {who} P{who}" for who in people]
    events = chance.sample(rules.EVENTS, chance.randint(1, 3))
    lines += ["EDITION 2"] * ("333mbf" in events)
    forms = {what: chance.choice(rules.FORMATS[what]) for what in events}
    for what in events:
        form = forms[what]
        cut = chance.choice(("-", f"1:{chance.randint(1, 3000)}"))
        lines.append(f"OPEN {what} 1 {form} {cut} {chance.choice(('-', '60000'))} top:9")
        lines += [f"ENT {what} {who}" for who in people if chance.random() < 0.8]
    commands = day(chance, lines)
    commands += [f"CLOSE {what} 1" for what in events if chance.random() < 0.7]

    def something():
        return chance.choice((None, True, Spelled("1.0"), Spelled("-0"), "a\"\\\n\u00e9",
                              Members([("k", []), ("k", Spelled("7e1"))]), [[], "x"]))

    def mixed(pairs):
        pairs = pairs + [(f"x{k}", something()) for k in range(chance.randint(0, 2))]
        chance.shuffle(pairs)
        return Members(pairs)

    def round_of(name):
        pairs = [("id", name), ("format", FORMATS[forms[name[:-3]]])]
        pairs = pairs[:chance.choice((1, 2, 2, 2, 2))]
        pairs += [("results", something())] * chance.choice((0, 1, 1, 1, 2))
        return mixed(pairs)

    def event_of(what):
        names = [f"{what}-r1"] + [f"{what}-r2"] * chance.randint(0, 1)
        return mixed([("id", what), ("rounds", [round_of(name) for name in names])])

    kept = [what for what in events if chance.random() < 0.95]
    held = [who for who in people if chance.random() < 0.97] + [None]
    persons = [mixed([("registrantId", None if who is None else Spelled(who)),
                      ("name", f"P{who}" if chance.random() < 0.98 else "P"),
                      ("registration", mixed([("status", chance.choice(STATUSES))]))])
               for who in held]
    value = mixed([("persons", persons), ("events", [event_of(what) for what in kept])])
    text = printed(value)
    return f"random {seed}", commands, text.replace(",", ", ") if chance.random() < 0.5 else text


def stored():
    chance = random.Random(1)
    for name in ("small", "large"):
        body = (EXAMPLES / f"{name}.json").read_text()
        lines, told = wcif.imported(json.loads(body), "as-single", "id")
        assert not told
        yield name, day(chance, lines), body
    yield from CASES
    yield from map(random_case, range(40))


def case_text(case, which):
    title, commands, body = case
    if which == "stdout":
        refused, missing, told, made = exported(commands, body + "\n")
        out = f"# {title}\n" + "".join(f"refused: {command}\n" for command in refused)
        if depth(parsed(body.removeprefix("\ufeff"))) > 64:
            return out + "too deep\n"
        if missing:
            return out + "".join(f"fault: {line}\n" for line in missing)
        return out + made + "".join(f"note: {line}\n" for line in told)
    given = "".join(f"> {command}\n" for command in commands)
    return f"export {title}\n{given}{body.rstrip()}\nend\n"


def main(arguments):
    if arguments[:1] == ["file"] and len(arguments) == 2:
        commands = sys.stdin.read().splitlines()
        case = arguments[1], commands, pathlib.Path(arguments[1]).read_text()
        sys.stdout.write(case_text(case, "stdout"))
    elif arguments[:1] == ["cases"] and arguments[1:] in (["stdin"], ["stdout"]):
        for case in stored():
            sys.stdout.write(case_text(case, arguments[1]))
        for title, body, out in RAW:
            sys.stdout.write(f"export {title}\n{body}\nend\n" if arguments[1] == "stdin"
                             else f"# {title}\n{out}")
    elif arguments[:1] == ["random"] and len(arguments) == 4:
        for seed in range(int(arguments[1]), int(arguments[2])):
            sys.stdout.write(case_text(random_case(seed), arguments[3]))
    else:
        sys.exit(__doc__)


if __name__ == "__main__":
    main(sys.argv[1:])
