#!/usr/bin/env python3
"""A second program of a meet's results as JSON.

    bench/results_json.py meet < COMMANDS
    bench/results_json.py cases stdin|stdout
    bench/results_json.py random FROM TO stdin|stdout

`meet` prints the results of the meet that the commands make. `cases` prints the last part of the
input of `files` of tests/bytes and what it has to print for it, and `random` that of random meets.
It is written from the definition (docs/FORMATS.md) over Python's `json` and the meets of
bench/rules.py, and uses nothing of the crates.
"""

import json
import random
import sys
from pathlib import Path

sys.dont_write_bytecode = True
import rules
import wcif
import wcif_results

UNITS = {"333fm": "moves", "333mbf": "multi-blind"}


def encoded(value):
    """An attempt, a best or an average; None where there is none."""
    return {"DNF": -1, "DNS": -2, "-": None}.get(value, value)


def results(meet, table):
    places = table.places()
    on = set(table.as_next_sees_it().advancing()) if table.closed else ()
    for who in table.standings():
        values = table.entrants[who]
        yield {
            "number": who,
            "name": meet.names[who].decode() if isinstance(meet.names[who], bytes)
            else meet.names[who],
            "place": places[who] if values else None,
            "attempts": [encoded(value) for value in values],
            "best": encoded(rules.best(values) if values else "-"),
            "average": encoded(rules.average(table.form, table.what, values)),
            "advances": who in on}


def advance(wish):
    return {"final": lambda: None, "top": lambda: {"top": wish[1]},
            "pct": lambda: {"percent": wish[1]}}[wish[0]]()


def round_of(meet, what, which):
    table = meet.rounds[what, which]
    cut = None if table.cutoff == "-" else {
        "attempts": table.cutoff[0], "below": table.cutoff[1]}
    return {
        "event": what, "round": which, "format": table.form,
        "unit": UNITS.get(what, "hundredths"), "closed": table.closed, "cutoff": cut,
        "limit": None if table.limit == "-" else table.limit, "advance": advance(table.advance),
        "results": list(results(meet, table))}


def value(meet):
    """All rounds that were opened, in the order of the events and then of the rounds."""
    return {"rounds": [round_of(meet, what, which) for what in rules.EVENTS
                       for which in range(1, 5) if (what, which) in meet.rounds]}


def printed(commands):
    meet = rules.Meet()
    for command in commands:
        meet.apply(command if isinstance(command, bytes) else command.encode())
    return json.dumps(value(meet), ensure_ascii=False, separators=(",", ":"))


# --- cases ---------------------------------------------------------------------------------------


DAY = wcif_results.DAY
# title, commands
CASES = [
    ("no round", DAY),
    ("a round, with attempts, without, and with a cutoff that is not met",
     wcif_results.DAY + wcif_results.CUBE + wcif_results.TRIED),
    ("a round without entrants", ["OPEN 444 1 mo3 - 360000 pct:75"]),
    ("a closed round, and the next one with those who advance",
     [f"REG {who} P{who}" for who in range(1, 10)] + ["OPEN 333 1 ao5 - 60000 top:2"]
     + [f"ENT 333 {who}" for who in range(1, 10)]
     + [f"ATT 333 1 {k} {who} T:{1000 + 10 * who + k}:0" for who in range(1, 10)
        for k in range(1, 6)] + ["CLOSE 333 1", "OPEN 333 2 ao5 1:1000 - final",
                                 "OPEN 333 2 ao5 1:1000 60000 final", "ATT 333 2 1 1 T:1000:0"]),
    ("names with quotes, a backslash, a letter that is none of ASCII and one of four bytes",
     ['REG 1 "A\\b"', "REG 2 \u00c9a \U0001f9e9", "OPEN 222 1 bo1 - 6000 final", "ENT 222 2",
      "ENT 222 1"]),
    ("fewest moves and multi-blind", next(
        case[1] for case in wcif_results.CASES if case[0] == "fewest moves")
     + ["EDITION 2", "OPEN 333mbf 1 bo3 - - final", "ENT 333mbf 3", "ATT 333mbf 1 1 3 M:11:13:3500",
        "ATT 333mbf 1 2 3 M:1:2:60", "ATT 333mbf 1 3 3 DNS"]),
    ("advancement that was changed", DAY + wcif_results.CUBE + ["ADV 333 1 pct:50"]),
    ("refused commands", ["OPEN", "ENT 333 1", "REG 1 Ann Li", "REG 1 Bo Ek", "x" * 700]),
    ("an average of a long time", DAY + ["OPEN 777 1 mo3 - 360000 final", "ENT 777 1"]
     + [f"ATT 777 1 {k} 1 T:{180_000 + k}:0" for k in (1, 2, 3)]),
]


def stored():
    chance = random.Random(1)
    folder = Path(wcif_results.EXAMPLES)
    for name in ("small", "large"):
        lines, told = wcif.imported(json.loads((folder / f"{name}.json").read_text()),
                                    "as-single", "id")
        assert not told
        yield name, wcif_results.day(chance, lines)
    yield from CASES
    for seed in range(40):
        yield wcif_results.random_case(seed)[:2]


def case_text(case, which):
    title, commands = case
    if which == "stdout":
        return f"# {title}\n{printed(commands)}\n"
    return f"results {title}\n" + "".join(f"{command}\n" for command in commands) + "end\n"


def main(arguments):
    if arguments == ["meet"]:
        print(printed(sys.stdin.buffer.read().split(b"\n")))
        return
    if arguments[:1] == ["cases"] and arguments[1:] in (["stdin"], ["stdout"]):
        cases = stored()
    elif arguments[:1] == ["random"] and arguments[3:] in (["stdin"], ["stdout"]):
        cases = (wcif_results.random_case(seed)[:2]
                 for seed in range(int(arguments[1]), int(arguments[2])))
    else:
        sys.exit(__doc__)
    for case in cases:
        sys.stdout.write(case_text(case, arguments[-1]))


if __name__ == "__main__":
    main(sys.argv[1:])
