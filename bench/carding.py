"""What bench/compare draws of edition 4: cards, cards in closed rounds, rounds that are cancelled
and opened again, and remarks. `made` is the competition that is drawn.
"""

import collections

import rules

REMARKS = ["A", "A 14:02", "no penalty, said the judge", "x" * 80, "x" * 81, "é" * 40, "é" * 41,
           "", " A", "A ", "A  B", 'said "no"', "A # B", "#", "# A", "A #", "A\u200bB", "A\tB",
           "สมชาย", "A\u2028"]
ODD_WAS = ["", "1000,", ",1000", "01000", "1000,,DNF", "dnf", "-1", "0", "990599949", "990599950",
           "DNF,DNS,DNF,DNS,DNF", "DNF,DNF,DNF,DNF,DNF,DNF", "-,DNF", "10.00", "T:1000:0", "="]
ODD_NOW = ["", "=", "=/=/=/=/=/=", "DNF/", "/DNF", "-/DNF", "DNF/-", "T:1000:0//DNF", "= / =",
           "DNF,DNS", "DNF/DNF/DNF/DNF/DNF/DNF", "==", "T:1000:0/=", "1000", "S:R/S:R U'/S:",
           "M:2:2:60/T:1000:0", "DNS/DNS/DNS/DNS/DNS", "T:1000:0/S:R"]
# 600 bytes, and one more
LONG = ["CARD 333fm 1 1 - S:R" + " R" * 290, "CARD 333fm 1 1 - S:R2" + " R" * 290,
        "CARD 333fm 1 1 - S:R" + " R" * 288 + " # A", "CARD 333fm 1 1 - S:R" + " R" * 288 + " # AB"]
ODD_LINES = ["CARD", "CARD 333", "CARD 333 1 1", "CARD 333 1 1 -", "CARD 333 1 1 DNF",
             "FIX 333 1 1 - ", "CANCEL", "CANCEL 333", "CANCEL 333 5", "CANCEL 333 1 1",
             "CANCEL 333 1 ", "EDITION 4", "EDITION 5", "EDITION 4 # A", "card 333 1 1 - DNF",
             "STR # A", "ATT # # #"] + LONG


def chosen(chance, *weighted):
    """One of these, each after its weight."""
    return chance.choices(weighted[1::2], weighted[0::2])[0]


def remarked(chance, line):
    """A line, now and then with a remark or with what is nearly one."""
    if chance.random() >= (0.12 if line.split(b" ")[0] in rules.REMARKED else 0.01):
        return line
    mark = chosen(chance, 20, " # ", 1, " #", 1, "# ", 1, "  # ")
    return line + mark.encode() + chosen(chance, 3, "A 14:02", 2, chance.choice(REMARKS)).encode()


# --- the two fields of a card --------------------------------------------------------------------


def settled(made, which, count, text):
    """What an outcome counts, where it may be entered; else a DNF."""
    table, out = made.meet.rounds[made.what, which], rules.outcome(text.encode())
    if out is None or (out[0] in ("T", "S", "M") and out[0] != rules.TAKES.get(made.what, "T")):
        return "DNF"
    if out[0] == "S" and count not in table.scrambles:
        return "DNF"
    return made.meet.settle(made.what, which, count, out)


def grown(made, which, parts, values):
    """These parts of a card and their values, with further attempts up to what is allotted."""
    table = made.meet.rounds[made.what, which]
    parts, values = list(parts), list(values)
    while len(values) < table.allotted(values):
        parts.append(made.outcome(table, len(values) + 1))
        values.append(settled(made, which, len(values) + 1, parts[-1]))
    return parts


def with_another(made, which, values):
    """All attempts as they stand but for one."""
    at = made.chance.randrange(len(values)) if values else 0
    parts = ["="] * len(values)
    parts[at:at + 1] = [made.outcome(made.meet.rounds[made.what, which], at + 1)]
    return parts


def spelled(mark, parts):
    return mark.join(str(part) for part in parts) or "-"


def was_of(made, which, who, values):
    """What stands, or now and then something else."""
    chance = made.chance
    other = list(values)
    if chance.random() < 0.88:
        return spelled(",", values)
    if values:
        other[chance.randrange(len(values))] = chance.choice([1000, 1100, 25, "DNF", "DNS"])
    return chosen(chance, 2, spelled(",", values[:-1]), 2, spelled(",", [*values, "DNF"][:5]),
                  2, spelled(",", other), 2, made.stale.get((which, who), "-"), 1, "-",
                  1, chance.choice(ODD_WAS))


def now_of(made, which, values, closed):
    """The attempts that are to stand: mostly some that may."""
    chance, table = made.chance, made.meet.rounds[made.what, which]
    kept = ["="] * len(values)
    more = made.outcome(table, len(values) + 1)
    kinds = {
        "to the end": lambda: grown(made, which, kept, values),
        "one more": lambda: [*kept, more],
        "another": lambda: with_another(made, which, values),
        "another, to the end": lambda: to_the_end(made, which, values),
        "anew": lambda: grown(made, which, [], []),
        "not begun": lambda: ["DNS"] * (len(values) or 1),
        "the same": lambda: kept,
        "one less": lambda: kept[:-1],
        "none": lambda: [],
        "too many": lambda: [*grown(made, which, kept, values), "DNF"],
        "odd": lambda: [chance.choice(ODD_NOW)],
    }
    weights = {"to the end": 30, "one more": 14, "another": 18, "another, to the end": 6,
               "anew": 12, "not begun": 3, "the same": 4, "one less": 5, "none": 2, "too many": 4,
               "odd": 5}
    if closed:
        weights |= {"to the end": 3, "one more": 3, "another": 34, "another, to the end": 12,
                    "not begun": 16}
    return spelled("/", kinds[chance.choices(list(weights), list(weights.values()))[0]]())


def to_the_end(made, which, values):
    """One attempt is another, and then all are there that are allotted, and no more."""
    parts = with_another(made, which, values)
    others = [value if part == "=" else settled(made, which, count, part)
              for count, (part, value) in enumerate(zip(parts, [*values, None]), 1)]
    table = made.meet.rounds[made.what, which]
    most = table.allotted(others)
    return grown(made, which, parts[:most], others[:most])


# --- commands ------------------------------------------------------------------------------------


def somebody(made, which, likely=()):
    """The number of an entrant, mostly."""
    chance, table = made.chance, made.meet.rounds.get((made.what, which))
    if likely and chance.random() < 0.8:
        return chance.choice(likely)
    if table and table.entrants and chance.random() < 0.95:
        return chance.choice(list(table.entrants))
    return chance.choice([1, 2, 3, 4, 5, 6, 9, 9999])


def card(made, which, likely=(), word="CARD"):
    """A card of somebody; now and then another one over what the first one's writer saw."""
    chance, table = made.chance, made.meet.rounds.get((made.what, which))
    who = somebody(made, which, likely)
    head = f"{word} {made.what} {which} {who}"
    if table is None:
        return made.add(f"{head} - {chance.choice(['DNF', 'T:1000:0', '-'])}")
    values = table.entrants.get(who, [])
    was = was_of(made, which, who, values)
    for _ in range(2 if chance.random() < 0.06 else 1):
        made.add(f"{head} {was} {now_of(made, which, values, table.closed)}")
    made.stale[which, who] = spelled(",", values)
    if made.what == "333fm" and chance.random() < 0.2:
        made.add(f"RSC 333fm {which} {chance.randint(1, 3)} {chance.choice(['R', 'L', 'R U'])}")


def fix(made, which):
    card(made, which, word="FIX")


def not_begun(made, which):
    """Somebody of a closed round has not begun after all, so that it has a competitor less."""
    table = made.meet.rounds.get((made.what, which))
    begun = table.started() if table else []
    if begun:
        who = made.chance.choice(begun)
        values = table.entrants[who]
        first = ["DNS"] * (table.cutoff[0] if table.cutoff != "-" else len(values))
        made.add(f"FIX {made.what} {which} {who} {spelled(',', values)} {spelled('/', first)}")


def cancel(made, which):
    made.add(f"CANCEL {made.what} {which}")


def field(made, which, reader):
    """What a field may have that is read so: mostly what goes with the round."""
    chance, what = made.chance, made.what
    if reader in (rules.EVENT, rules.ROUND, rules.WHO):
        return {rules.EVENT: what, rules.ROUND: which}.get(reader) or somebody(made, which)
    limited = (what not in rules.TAKES) == (chance.random() < 0.9)
    return chance.choice({
        rules.COUNT: [1, 2, 3, 5],
        rules.FORMAT: rules.FORMATS[what],
        rules.cutoff: ["-", "-", "1:1150"],
        rules.limit: ["60000", "1000", "360000"] if limited else ["-"],
        rules.advance: ["final", "top:3", "pct:75"],
        rules.moves: ["R", "L2 U'"],
        rules.outcome: ["DNF", "DNS", "T:1000:0"],
        rules.clear_name: ["Ann Li", "Bo Ek", "No 8"],
        rules.WAS: ["-"],
        rules.NOW: ["DNF", "-"],
    }[reader])


def of_table(made, which):
    """A line of any word of the table but EDITION, its fields by the table alone."""
    words = [word for word in rules.WORDS_OF_FOUR if word != b"EDITION"]
    word = made.chance.choice(words)
    readers, _ = rules.WORDS_OF_FOUR[word]
    fields = [str(field(made, which, reader)) for reader in readers]
    made.add(" ".join([word.decode(), *fields]))


def other(made, which):
    """A line of edition 4, of any kind."""
    kind = chosen(made.chance, 8, card, 6, fix, 2, cancel, 2, of_table, 1, None)
    if kind is None:
        return made.add(made.chance.choice(ODD_LINES))
    kind(made, which if made.chance.random() < 0.7 else made.chance.randint(1, 4))


# --- days ----------------------------------------------------------------------------------------


def opened_again(made, which, entrants):
    """A round is cancelled, something is done to the one before, and it is opened again."""
    chance = made.chance
    for _ in range(chance.randint(0, 3)):
        made.mending(which)
    if made.what == "333fm":
        made.add(f"SCR 333fm {which} 1 R")
    cancel(made, which)
    for _ in range(chance.choice([0, 0, 1, 3]) if which > 1 else 0):
        fix(made, which - 1)
    if which > 1 and chance.random() < 0.3:
        made.add(f"REOPEN {made.what} {which - 1}")
        for _ in range(chance.randint(0, 3)):
            card(made, which - 1)
        made.add(f"CLOSE {made.what} {which - 1}")
    if chance.random() < 0.2:
        other(made, which)
    made.opening(which)
    if which == 1:
        for number in chance.sample(range(1, entrants + 2), entrants):
            made.add(f"ENT {made.what} {number}")
    if made.what == "333fm":
        for count in range(1, chance.choice([2, 4, 6])):
            made.add(f"SCR 333fm {which} {count} R' U' F")


def begin(made, which, entrants):
    """What is done once a round was opened, before attempts are."""
    chance = made.chance
    for _ in range(chance.choice([0, 0, 1, 3])):
        of_table(made, which)
    if which > 1:
        for _ in range(chance.choice([0, 0, 1, 2, 4])):
            fix(made, which - 1)
        for _ in range(chance.choice([0, 0, 1, 3])):
            made.add(f"WDR {made.what} {which} {somebody(made, which)}")
        if chance.random() < 0.2:
            cancel(made, which - 1)
        if chance.random() < 0.2:
            not_begun(made, which - 1)
    if chance.random() < 0.3:
        opened_again(made, which, entrants)
    if which > 1:
        for _ in range(chance.choice([0, 0, 1, 2])):
            fix(made, chance.randint(1, which - 1))


def end(made, which):
    """What is done once a round was closed."""
    chance = made.chance
    for _ in range(chance.choice([0, 0, 1, 2, 5])):
        fix(made, which)
    if chance.random() < 0.1:
        not_begun(made, which)
    if chance.random() < 0.15:
        made.add(f"REOPEN {made.what} {which}")
        for _ in range(chance.randint(0, 3)):
            card(made, which)
        made.add(f"CLOSE {made.what} {which}")
    if chance.random() < 0.05:
        cancel(made, which)


def plain(made, line):
    """A line as it stands, where most of them have to be right."""
    made.lines.append(line.encode())
    made.codes.append(made.meet.apply(line.encode()) or "Done")


def some_result(made):
    """An outcome with a number, mostly another each time."""
    chance = made.chance
    if made.what == "333mbf":
        attempted = chance.randint(2, 40)
        solved = attempted - chance.randint(0, attempted // 4)
        return f"M:{solved}:{attempted}:{chance.randint(100, 5_999)}"
    return f"T:{chance.randint(900, 9_999)}:0"


def chain(made):
    """A day whose rounds have just as many competitors as the rounds after them want."""
    chance, what = made.chance, made.what
    count = chance.choice([8, 9, 16, 16, 16, 17])
    for number in range(1, count + 1):
        plain(made, f"REG {number} No {number}")
    form = chance.choice([form for form in rules.FORMATS[what] if form != "ao5"])
    end = "-" if what in rules.TAKES else "60000"
    for which in range(1, 5):
        wish = chance.choice(["pct:75", "top:12", "top:8", "top:8" if which < 2 else "final"])
        opening = f"OPEN {what} {which} {form} - {end} {wish}"
        plain(made, opening)
        for number in range(1, count + 1 if which == 1 else 1):
            plain(made, f"ENT {what} {number}")
        for _ in range(chance.choice([0, 1, 2]) if which > 1 else 0):
            chosen(chance, 3, not_begun, 2, fix)(made, chance.randint(1, which - 1))
        if which > 1 and chance.random() < 0.3:
            cancel(made, which)
            for _ in range(chance.choice([0, 1])):
                chosen(chance, 2, not_begun, 2, fix)(made, which - 1)
            plain(made, opening)
        table = made.meet.rounds.get((what, which))
        for who in list(table.entrants) if table else []:
            outs = [some_result(made) for _ in range(rules.ATTEMPTS[form])]
            plain(made, f"CARD {what} {which} {who} - {spelled('/', outs)}")
        plain(made, f"CLOSE {what} {which}")
        plain(made, f"ADV {what} {which} final")
        plain(made, f"CLOSE {what} {which}")
        for _ in range(chance.choice([0, 1, 2])):
            chosen(chance, 1, not_begun, 1, fix)(made, which)


def solutions(made):
    """A round of fewest moves of one or two, whose scrambles are set anew between cards."""
    chance = made.chance
    opening = ("OPEN 333fm 1 mo3 - - final", "ENT 333fm 1", "SCR 333fm 1 1 R", "SCR 333fm 1 2 R U")
    for line in ("REG 1 Ann Li", "REG 2 Bo Ek", *opening):
        plain(made, line)
    if chance.random() < 0.3:
        plain(made, "ENT 333fm 2")
    for _ in range(chance.randint(6, 20)):
        table = made.meet.rounds.get(("333fm", 1))
        rescramble = f"RSC 333fm 1 {chance.randint(1, 2)} {chance.choice(['R', 'L', 'R U'])}"
        is_closed = table is not None and table.closed
        word = "FIX" if is_closed else "CARD"
        kind = chosen(chance, 5, "RSC", 4, "card", 3, "struck", 1, "close", 1, "again", 1, "other")
        if kind == "RSC":
            plain(made, rescramble)
        elif kind == "card":
            card(made, 1, word=word)
        elif kind == "struck" and table and table.entrants.get(1):
            values = table.entrants[1]
            parts = ["="] * len(values)
            parts[chance.randrange(len(values))] = chance.choice(["DNF", "S:R'", "=", "="])
            plain(made, f"{word} 333fm 1 1 {spelled(',', values)} {spelled('/', parts)}")
            plain(made, rescramble)
        elif kind == "again":
            for line in ("CANCEL 333fm 1", *opening[:chance.randint(2, 4)]):
                plain(made, line)
        elif kind == "close":
            plain(made, f"{'REOPEN' if is_closed else 'CLOSE'} 333fm 1")
        else:
            made.other(1)


def is_done(made, front):
    return any(line.startswith(front) and code == "Done"
               for line, code in zip(made.lines, made.codes))


def finish(made):
    """What is done at the end of a day: cards too, where none was done before."""
    chance = made.chance
    last = max((which for what, which in made.meet.rounds if what == made.what), default=1)
    if not is_done(made, b"CARD "):
        made.add("EDITION 4")
        if (made.what, last) in made.meet.rounds and made.meet.rounds[made.what, last].closed:
            made.add(f"REOPEN {made.what} {last}")
        for _ in range(4):
            card(made, last)
    for _ in range(chance.choice([0, 1, 3])):
        fix(made, chance.randint(1, last))
    if chance.random() < 0.2:
        cancel(made, last)
        fix(made, max(1, last - 1))


def going(table):
    return set(table.advancing()) if table and table.closed else set()


def corners(made):
    """How often corners of the rules came, counted as the lines are taken once more."""
    meet, seen, cancelled = rules.Meet(), collections.Counter(), set()
    for line in made.lines:
        word, fields = rules.read(line, meet.edition, meet.known) or ("", [])
        place = tuple(fields[:2]) if word in ("CARD", "FIX", "CANCEL", "OPEN") else None
        table = meet.rounds.get(place)
        is_followed = place is not None and (place[0], place[1] + 1) in meet.rounds
        before, code = going(table), meet.apply(line)
        if word in ("CARD", "FIX", "CANCEL"):
            seen[f"{word}{', next open' if is_followed else ''}: {code or 'Done'}"] += 1
        if code is not None:
            continue
        seen["remark"] += rules.without_remark(line) != line and meet.edition == 4
        if word in ("CARD", "FIX"):
            seen["= kept"] += "=" in fields[4]
            seen["all kept"] += fields[4] == ["="] * len(fields[3])
        if word == "FIX" and going(table) != before:
            seen[f"FIX that changes who would advance{', next open' if is_followed else ''}"] += 1
        if word == "CANCEL":
            seen["CANCEL of a round that somebody left"] += bool(table.taken_in)
            seen["CANCEL of a round with scrambles"] += bool(table.scrambles)
            seen["CANCEL of a closed round"] += table.closed
            cancelled.add(place)
        if word == "OPEN":
            seen["OPEN again"] += place in cancelled
    return seen
