#!/usr/bin/env python3
"""What tests/pages has to print of the board: a second program of the definitions.

    for it in board table; do bench/${it}_views.py < tests/pages/cases/views.in; done

is what tests/pages/cases/views.out holds. Reads the lines that are for the board, of which
tests/pages/board_pages.rt.txt says how they are written. The sheets come from
bench/rules.py, which shares nothing with the crates. Standard library only.
"""

import hashlib
import html
import json
import re
import sys
from pathlib import Path

sys.dont_write_bytecode = True
sys.path.append(str(Path(__file__).resolve().parent.parent / "scripts"))
import beside
import rules

WORDS = {
    "333": "3x3x3 Cube", "222": "2x2x2 Cube", "444": "4x4x4 Cube", "555": "5x5x5 Cube",
    "666": "6x6x6 Cube", "777": "7x7x7 Cube", "333bf": "3x3x3 Blindfolded",
    "333fm": "3x3x3 Fewest Moves", "333oh": "3x3x3 One-Handed", "clock": "Clock",
    "minx": "Megaminx", "pyram": "Pyraminx", "skewb": "Skewb", "sq1": "Square-1",
    "444bf": "4x4x4 Blindfolded", "555bf": "5x5x5 Blindfolded", "333mbf": "3x3x3 Multi-Blind",
}
FOR_EVER = "public, max-age=31536000, immutable"
ROUND = "(%s)-([1-4])" % "|".join(WORDS)
POSITION = "(0|[1-9][0-9]{0,4})"


def escaped(text):
    return html.escape(text, quote=True).replace("&#x27;", "'")


def meet_of(log):
    meet = rules.Meet()
    for text in log:
        meet.apply(text)
    return meet


def table(log, position, what, which):
    """The round's table after so many entries, or none."""
    if position > len(log):
        return None
    meet = meet_of(log[:position])
    if (what, which) not in meet.rounds:
        return None
    return rules.table_sheet(meet, what, which).decode()


def left_out(form, values):
    """The places of the attempts that stand in parentheses."""
    if form != "ao5" or len(values) < 5:
        return ()
    def worth(place):
        value = values[place]
        return value if isinstance(value, int) else float("inf")
    return (min(range(5), key=lambda place: (worth(place), place)),
            max(range(5), key=lambda place: (worth(place), place)))


def in_words(what, which, table):
    part = "Final" if table.advance == ("final",) else f"Round {which}"
    return f"{WORDS[what]}, {part}"


def settings(what, table):
    out = {"a": "average of 5", "m": "mean of 3"}.get(table.form[0], f"best of {table.form[-1]}")
    if table.cutoff != "-":
        out += f", cutoff {rules.printed(table.cutoff[1], what)} in {table.cutoff[0]}"
    if table.limit != "-":
        out += f", limit {rules.printed(table.limit, '333')}"
    kind, *wanted = table.advance
    if kind != "final":
        out += f", top {wanted[0]}{'%' if kind == 'pct' else ''} advance"
    return out


def state(table):
    if not table.closed:
        return "running"
    return "final result" if table.advance == ("final",) else "closed"


def results(table, who, shown):
    """The texts of a line: place, average, best, attempts."""
    values = table.entrants[who]
    place = str(table.places()[who]) if values else ""
    out = left_out(table.form, values)
    attempts = [f"({text})" if at in out else text for at, text in enumerate(shown[2:])]
    return place, shown[0], shown[1], attempts


def is_high(table, who):
    """A place of 1 to 3, with a result."""
    return table.places()[who] <= 3 and any(isinstance(it, int) for it in table.entrants[who])


def section(meet, what, which, position, podium=False):
    table = meet.rounds[what, which]
    going = set(table.as_next_sees_it().advancing())
    head = ["place", "number", "name", "average", "best"]
    head += [str(count) for count in range(1, rules.ATTEMPTS[table.form] + 1)] + ["advances"]
    out = f'<section id="{what}-{which}"><table><caption><h2>{in_words(what, which, table)}</h2>\n'
    out += f'<p class="told">{settings(what, table)}, <strong>{state(table)}</strong></p>'
    said = f"{in_words(what, which, table)}: {settings(what, table)}, {state(table)}"
    out += f'</caption>\n<thead><tr><th scope="col" data-title="{said}">place</th>'
    out += "".join(f'<th scope="col">{name}</th>' for name in head[1:]) + "</tr></thead><tbody>\n"
    for _, who, shown, _ in rules.rows(table):
        if podium and not is_high(table, who):
            continue
        place, average, best, attempts = results(table, who, shown)
        if who in going:
            kind, mark = ("yes", "yes") if table.closed else ("would", "would advance")
        else:
            kind = "no"
            mark = "no" if table.closed and table.advance != ("final",) else ""
        name = escaped(meet.names[who].decode())
        out += f'<tr class="{kind}"><td>{place}</td><td>{who}</td>'
        out += f'<th scope="row" dir="auto"><a href="/person/{who}">{name}</a></th>'
        out += "".join(f"<td>{text}</td>" for text in [average, best, *attempts, mark]) + "</tr>\n"
    return out + below(position)


def absent(meet, table):
    """Who has entered attempts, and none but DNS."""
    out = ""
    for _, who, _, _ in rules.rows(table):
        if set(table.entrants[who]) == {"DNS"}:
            name = escaped(meet.names[who].decode())
            out += f'<p class="absent"><bdi>{name}</bdi> is absent</p>\n'
    return out


def below(position):
    return f'</tbody></table>\n<p class="at">as of result {position}</p></section>\n'


def person(meet, who, position):
    name = escaped(meet.names[who].decode())
    out = '<section class="person"><table><caption>'
    out += f"<h2><bdi>{name}</bdi>, number {who}</h2></caption>\n"
    head = ["round", "place", "average", "best", "attempts", "state"]
    out += "<thead><tr>" + "".join(f'<th scope="col">{name}</th>' for name in head)
    out += "</tr></thead><tbody>\n"
    for what, which in opened(meet):
        table = meet.rounds[what, which]
        for _, other, shown, _ in rules.rows(table):
            if other != who:
                continue
            place, average, best, attempts = results(table, who, shown)
            out += f'<tr><th scope="row"><a href="/{what}-{which}">'
            out += f"{in_words(what, which, table)}</a></th>"
            cells = [place, average, best, "".join(f" {text}" for text in attempts), state(table)]
            out += "".join(f"<td>{text}</td>" for text in cells) + "</tr>\n"
    return out + below(position)


def people(meet, position):
    out = '<section class="people"><table><caption><h2>Competitors</h2></caption>\n<thead><tr>'
    out += '<th scope="col">number</th><th scope="col">name</th></tr></thead><tbody>\n'
    for who in sorted(meet.names):
        out += f'<tr><td>{who}</td><th scope="row" dir="auto"><a href="/person/{who}">'
        out += f"{escaped(meet.names[who].decode())}</a></th></tr>\n"
    return out + below(position)


def podiums(meet, position):
    out = '<p class="told">The first three of each final.</p>\n'
    for what, which in opened(meet):
        if meet.rounds[what, which].advance == ("final",):
            out += section(meet, what, which, position, podium=True)
            out += absent(meet, meet.rounds[what, which])
    return out


def opened(meet):
    return [(what, which) for what in rules.EVENTS for which in range(1, 5)
            if (what, which) in meet.rounds]


def framed(kind, shows, title, links, inside):
    title = escaped(title)
    return f"""<!DOCTYPE html>
<html lang="en"><head><meta charset="utf-8">
<meta name="viewport" content="width=device-width, initial-scale=1">
<title>{shows} - {title}</title><link rel="stylesheet" href="/style.css">
<noscript><meta http-equiv="refresh" content="5"></noscript>
<script src="/update.js" defer></script></head>
<body class="{kind}"><main>
<h1 dir="auto">{title}</h1>
<nav>
<a href="/">all rounds</a>
<a href="/people">find a name</a>
<a href="/podiums">podiums</a>
{links}<a href="/hall">projector</a></nav>
{inside}</main></body></html>
"""


def every_round(kind, shows, title, log):
    meet = meet_of(log)
    links, inside = "", ""
    for what, which in opened(meet):
        words = in_words(what, which, meet.rounds[what, which])
        links += f'<a href="/{what}-{which}">{words}</a>\n'
        inside += section(meet, what, which, len(log))
    inside = inside or '<p class="none">No round is open yet.</p>\n'
    return framed(kind, shows, title, links, inside)


def archive(log):
    """A line for each entry; the ids of the runs are all new."""
    return "".join(text.decode() + "\n" for text in log)


def page(title, log, path):
    """Kind, keeping, position and body of the page at a path, or none."""
    now = len(log)
    if path in ("/", "/hall"):
        kind, shows = ("all", "All rounds") if path == "/" else ("hall", "Projector")
        return "text/html", "no-cache", now, every_round(kind, shows, title, log)
    if path in ("/podiums", "/people"):
        shows, inside = ("Podiums", podiums) if path == "/podiums" else ("Competitors", people)
        shown = inside(meet_of(log), now)
        return "text/html", "no-cache", now, framed("one", shows, title, "", shown)
    if found := re.fullmatch("/person/([1-9][0-9]{0,3})", path):
        meet, who = meet_of(log), int(found[1])
        if who not in meet.names:
            return None
        shows, shown = escaped(meet.names[who].decode()), person(meet, who, now)
        return "text/html", "no-cache", now, framed("one", shows, title, "", shown)
    if path == "/log.txt":
        return "text/plain", "no-cache", now, archive(log)
    found = re.fullmatch(f"/(hall/|at/{POSITION}/)?{ROUND}(\\.csv)?", path)
    if not found or path.startswith("/hall/") and found[5]:
        return None
    position = now if found[2] is None else int(found[2])
    keeping = "no-cache" if found[2] is None else FOR_EVER
    what, which = found[3], int(found[4])
    text = table(log, position, what, which)
    if text is None:
        return None
    if found[5]:
        return "text/csv", keeping, position, text
    kind = "hall" if path.startswith("/hall/") else "one"
    meet = meet_of(log[:position])
    shown = section(meet, what, which, position)
    shows = in_words(what, which, meet.rounds[what, which])
    return "text/html", keeping, position, framed(kind, shows, title, "", shown)


def file_page(title, what, section):
    """A page of a competition's file: its section, and what it is of."""
    title = escaped(title)
    return f"""<!DOCTYPE html>
<html lang="en"><head><meta charset="utf-8">
<meta name="viewport" content="width=device-width, initial-scale=1">
<title>{what} - {title}</title><link rel="stylesheet" href="/style.css"></head>
<body class="one"><main>
<h1 dir="auto">{title}</h1>
<nav>
<a href="/">all rounds</a>
<a href="/people">find a name</a>
<a href="/schedule">schedule</a></nav>
{section}</main></body></html>
"""


def with_head(body):
    """A page of a competition's file, and what is said of it: its tag is of its body."""
    sent = body.encode()
    tag = f"{len(sent)}-{hashlib.sha256(sent).hexdigest()}"
    return f'text/html; charset=utf-8\nno-cache\n"{tag}"\n\n{body}'


def psych(title, value, event):
    """The page of who is registered for an event by a competition's file."""
    words, kinds = WORDS[event], beside.kinds_of(event)
    headings = ["rank", "country", "name", *kinds, "WCA ID"]
    head = "".join(f'<th scope="col">{name}</th>' for name in headings)
    lines = ""
    for rank, country, name, *rest in beside.psych(value, event):
        lines += f"<tr><td>{rank}</td><td>{escaped(country)}</td>"
        lines += f'<th scope="row" dir="auto">{escaped(name)}</th>'
        lines += "".join(f"<td>{escaped(text)}</td>" for text in rest) + "</tr>\n"
    lines = lines or '<tr><td colspan="6">Nobody is registered.</td></tr>\n'
    return file_page(title, words, f"""\
<section class="people"><table><caption><h2>{words}</h2>by the competition's file</caption>
<thead><tr>{head}</tr></thead><tbody>
{lines}</tbody></table></section>
""")


def together(value, what, which):
    """The line of a limit for several attempts together by the file, where the round has one."""
    words = beside.limit_words(value, what, which)
    return f'<p class="together">{escaped(words)}</p>\n' if words else ""


def records(title, value, meet, what, which):
    """The page of which results of a round are personal records by a competition's file."""
    if (what, which) in meet.rounds:
        words = in_words(what, which, meet.rounds[what, which])
        headings = ["number", "country", "name", "single", "average"]
        head = "".join(f'<th scope="col">{name}</th>' for name in headings)
        lines = ""
        for who, country, name, *cells in beside.records(value, meet, what, which):
            lines += f'<tr data-number="{who}"><td>{who}</td><td>{escaped(country)}</td>'
            lines += f'<th scope="row" dir="auto">{escaped(name)}</th>'
            for text, is_record in zip(cells[:2], cells[2:]):
                lines += f'<td class="pr">{text}</td>' if is_record else f"<td>{text}</td>"
            lines += "</tr>\n"
        section = f"""<section class="records"><h2>{words}</h2>
{together(value, what, which)}<table><caption>by the competition's file</caption>
<thead><tr>{head}</tr></thead><tbody>
{lines}</tbody></table></section>
"""
    else:
        section = ('<section class="records"><p>This round has not been opened.</p></section>\n')
    return file_page(title, f"Personal records, {WORDS[what]}, Round {which}", section)


def main():
    title, log, is_board, file = "", [], True, None
    for line in sys.stdin.buffer.read().split(b"\n"):
        if line.startswith(b"pages of "):
            is_board = line == b"pages of the board"
        elif not is_board:
            continue
        elif line.startswith(b"title "):
            title = line[6:].decode()
        elif line.startswith(b"> "):
            log.append(line[2:])
        elif line.startswith(b"file "):
            file = None if line == b"file -" else json.loads(line[5:])
        elif line.startswith(b"get "):
            path = line[4:].decode()
            shown = page(title, log, path)
            out = f"== {path}\n"
            found = re.fullmatch(f"/records/{ROUND}", path)
            if file is not None and path.removeprefix("/psych/") in WORDS:
                out += with_head(psych(title, file, path.removeprefix("/psych/")))
            elif file is not None and found:
                out += with_head(records(title, file, meet_of(log), found[1], int(found[2])))
            elif shown is None:
                out += "none\n"
            else:
                kind, keeping, position, body = shown
                out += f'{kind}; charset=utf-8\n{keeping}\n"{position}-{path}"\n\n{body}'
            sys.stdout.buffer.write(out.encode())


if __name__ == "__main__":
    main()
