"""Each round's sheet at every hundredth position of a log, by the second program of the rules, for
the scripts that compare a whole competition with what desks and boards give."""

import desks
import rules

STEP = 100  # sheets are compared at each of so many positions


class Wanted:
    """What a round's sheet and table are at a position, by the second program of the rules. It is
    new where the round has changed since the position before, and at the log's end."""

    def __init__(self, what, which, position, text, table, is_new):
        self.what, self.which, self.position, self.is_new = what, which, position, is_new
        self.text, self.table = text, table


def by_the_rules(log):
    """Each round's sheet at every hundredth position and at the end."""
    meet, wanted, kept, changed = rules.Meet(), [], {}, set()
    for position, line in enumerate(log, 1):
        if meet.apply(line) is None:
            words = line.decode().split(" ", 3)
            # a command of a round, or one that enters somebody in the first one
            if words[0] not in ("REG", "EDITION"):
                changed.add((words[1], 1 if words[0] == "ENT" else int(words[2])))
        if position % STEP and position < len(log):
            continue
        for what, which in meet.rounds:
            is_new = (what, which) in changed or (what, which) not in kept
            if is_new:
                kept[what, which] = (rules.text_sheet(meet, what, which, 0),
                                     rules.table_sheet(meet, what, which))
            text, table = kept[what, which]
            text = text.replace(b" position 0\n", b" position %d\n" % position, 1)
            wanted.append(Wanted(what, which, position, text, table,
                                 is_new or position == len(log)))
        changed.clear()
    return wanted


def at_a_desk(hall, desk, wanted):
    """Compares each sheet with what a desk gives: how many there were."""
    client = hall.client(desk)
    for it in wanted:
        got = client.sheet(rules.EVENTS.index(it.what) + 1, it.which, it.position)
        desks.expect(f"{it.what} {it.which} at {it.position}, desk {desk}", got, it.text)
    client.close()
    return len(wanted)
