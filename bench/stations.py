"""Where a day is entered: score tables, of which a browser without the script is the client, and
typists who give lines to `desk enter-lines`. Neither is left alone with a fault: what was not told
to be entered is entered again, as HALL.md says, until it is.
"""

import http.client
import re
import subprocess
import threading
import time
import urllib.parse

import desks

IDS = 1_000_000  # the ids of station N begin at N times this
PATIENCE = 4  # seconds after which a typist who hears nothing begins again
LONGEST = 240  # seconds that a card may take in all
READS = 15  # seconds in which a score table that was started has read the log
CONTROL = ("OPEN", "CLOSE", "ADV", "SCR", "EDITION")


# --- the plan of a day ---------------------------------------------------------------------------


class Card:
    """Commands that are entered together: a competitor's card, or one command of a round. `after`
    are the cards before it that it needs."""

    def __init__(self, second, station, key):
        self.second, self.station, self.key = second, station, key
        self.lines, self.codes, self.after = [], [], []
        self.first_id = None

    @property
    def is_control(self):
        return self.lines[0].split(" ", 1)[0] in CONTROL


def key_of(line):
    """Event, round and competitor of a command; no competitor where it is of the round itself."""
    word, event, which, *rest = line.split(" ")
    number = {"ATT": 1, "COR": 1, "STR": 0}.get(word)
    return event, which, None if number is None else rest[number]


def cards_of(plan):
    """The cards of a plan, each with what it needs: a command of a round needs all before it of the
    event, a card the last one of these, and what stands of the same competitor."""
    cards = []
    for text in plan.splitlines():
        second, station, code, line = text.split(" ", 3)
        key = (int(second), int(station), key_of(line))
        if not cards or (cards[-1].second, cards[-1].station, cards[-1].key) != key or key[2][
                2] is None:
            cards.append(Card(*key))
        cards[-1].lines.append(line)
        cards[-1].codes.append(code)
    since, control, own = {}, {}, {}
    for card in cards:
        event = card.key[0]
        if card.is_control:
            needed = [*since.pop(event, []), control.get(event)]
            control[event] = card
        else:
            needed = [control.get(event), own.get(card.key)]
            own[card.key] = card
            since.setdefault(event, []).append(card)
        card.after = [it for it in needed if it is not None]
    for station in {card.station for card in cards}:
        at = station * IDS
        for card in cards:
            if card.station == station:
                card.first_id, at = at, at + len(card.lines)
    return cards


class Progress:
    """Which cards are decided, and how long each took."""

    def __init__(self):
        self.decided, self.changed = set(), threading.Condition()
        self.seconds, self.fault = [], None

    def wait_for(self, cards, longest):
        with self.changed:
            if not self.changed.wait_for(
                    lambda: self.fault or all(card in self.decided for card in cards), longest):
                raise desks.Fault(f"a card waited {longest} s for those that it needs")
        if self.fault:
            raise desks.Fault("another station has failed")

    def is_decided(self, card, seconds):
        with self.changed:
            self.decided.add(card)
            self.seconds.append(seconds)
            self.changed.notify_all()

    def has_failed(self, why):
        with self.changed:
            self.fault = self.fault or why
            self.changed.notify_all()


class Station(threading.Thread):
    """Somebody who enters cards, one after the other, each when its time has come and what it needs
    is decided."""

    def __init__(self, cards, progress, begins, times):
        super().__init__(daemon=True)
        self.cards, self.progress, self.begins, self.times = cards, progress, begins, times
        self.again = 0  # how often something was entered again

    def run(self):
        try:
            for card in self.cards:
                time.sleep(max(self.begins + card.second / self.times - time.monotonic(), 0))
                self.progress.wait_for(card.after, 2 * LONGEST)
                start = time.monotonic()
                self.enter(card, start + LONGEST)
                self.progress.is_decided(card, time.monotonic() - start)
        except Exception as why:  # told by the script at its end
            self.progress.has_failed(f"{type(self).__name__}: {why!r}")


# --- a typist ------------------------------------------------------------------------------------


class Typist(Station):
    """Enters lines by `desk enter-lines --wait`. Where that ends early, or says nothing for some
    seconds, the same lines are entered again with the same ids. Keeps where each id stands."""

    def __init__(self, program, config, *more):
        super().__init__(*more)
        self.words = [program, "enter-lines", "--config", config, "--wait", "--patience", "2"]
        self.told = {}

    def enter(self, card, ends):
        text = "".join(f"{line}\n" for line in card.lines).encode()
        while not self.once(card, text):
            self.again += 1
            if time.monotonic() > ends:
                raise desks.Fault(f"{card.lines[0]} was not decided in {LONGEST} s")
            time.sleep(0.2)

    def once(self, card, text):
        """Enters the lines: whether all were told to be decided."""
        words = [*self.words, "--first-id", str(card.first_id)]
        patience = PATIENCE + 0.2 * len(card.lines)
        try:
            ran = subprocess.run(words, input=text, capture_output=True, timeout=patience)
        except subprocess.TimeoutExpired as late:
            self.keep(card, late.stdout or b"")
            return False
        return self.keep(card, ran.stdout) and ran.returncode == 0

    def keep(self, card, said):
        """Keeps what was said: whether it was said of all lines."""
        lines = [line for line in said.decode().split("\n")[:-1] if line.startswith("done ")]
        for line in lines:
            _, number, position, code = line.split()
            number, told = int(number), (int(position), code)
            desks.expect(f"what is told of {number}", told, self.told.setdefault(number, told))
            desks.expect(f"code of {card.lines[number - card.first_id]}", code,
                         card.codes[number - card.first_id])
        return len(lines) == len(card.lines)


# --- a score table -------------------------------------------------------------------------------


def typed(outcome):
    """An outcome as it is typed into a field."""
    if outcome in ("DNF", "DNS"):
        return outcome.lower()
    kind, *numbers = outcome.split(":")
    if kind == "S":
        return numbers[0]
    if kind == "M":
        solved, attempted, seconds = map(int, numbers)
        return f"{solved}/{attempted} {seconds // 60}:{seconds % 60:02}"
    hundredths, penalties = map(int, numbers)
    minutes, rest = divmod(hundredths, 6000)
    shown = f"{minutes}{rest:04}" if minutes else str(rest)
    return shown + "+" * penalties


class Away(Exception):
    """The score table does not answer."""


class AtTable(Station):
    """Enters cards at a score table. Where it does not answer, the card is typed again once it
    does."""

    def __init__(self, address, *more):
        super().__init__(*more)
        self.address, self.stands = address, {}
        self.browser = http.client.HTTPConnection(address, timeout=10)

    def ask(self, method, path, fields=None):
        body = None if fields is None else urllib.parse.urlencode(fields)
        kind = {} if body is None else {"Content-Type": "application/x-www-form-urlencoded"}
        try:
            self.browser.request(method, path, body, kind)
            answer = self.browser.getresponse()
            return answer.status, answer.read().decode()
        except (OSError, http.client.HTTPException) as why:
            self.browser.close()
            raise Away(str(why)) from None

    def enter(self, card, ends):
        event, which, number = card.key
        # a card is all that is on the paper: what stands already is typed again with it
        stands = self.stands.setdefault(card.key, {})
        for line in card.lines:
            words = line.split(" ", 5)
            stands[int(words[3])] = typed(words[5])
        fields = [stands.get(count, "") for count in range(1, 6)]
        while True:
            try:
                return self.once(f"{event}-{which}", number, fields, ends)
            except Away:
                self.again += 1
                if time.monotonic() > ends:
                    raise desks.Fault(f"the score table was away for {LONGEST} s") from None
                time.sleep(0.2)

    def form(self, what, ends):
        """An empty card's token and id. The table may not have the round yet."""
        while True:
            status, text = self.ask("GET", f"/card/{what}")
            if status == 200:
                return hidden(text)
            if status != 404 or time.monotonic() > ends:
                raise desks.Fault(f"GET /card/{what}: {status}")
            time.sleep(0.05)

    def once(self, what, number, attempts, ends):
        filled = {**self.form(what, ends), "round": what, "number": number}
        filled.update({f"a{at}": attempt for at, attempt in enumerate(attempts, 1)})
        status, text = self.ask("POST", "/card", filled)
        if status == 200:  # something is asked about, and is as it should be
            filled = {**filled, **hidden(text)}
            status, text = self.ask("POST", "/card", filled)
        # the table was started again meanwhile, has no room, or has not read the whole log yet
        if status in (403, 503) or (status == 422 and time.monotonic() < ends - LONGEST + READS):
            raise Away(status)
        if status != 303:
            raise desks.Fault(f"card {what} {number} {attempts}: {status} {told_of(text)}")
        pause = 0.02
        while (state := self.state(what, number)) != "saved":
            if state in ("changed", "refused") or time.monotonic() > ends:
                raise desks.Fault(f"card {what} {number} {attempts}: {state}")
            if state == "none":  # it was taken, and is not in the list of a new run
                raise Away(state)
            time.sleep(pause)
            pause = min(1.5 * pause, 0.5)

    def state(self, what, number):
        """What became of the last card of a competitor: waits, saved or refused."""
        status, text = self.ask("GET", f"/card/{what}")
        recent = re.search(r'<section id="recent".*?</section>', text, re.S)
        for line in re.findall(r"<li.*?</li>", recent[0] if recent else "", re.S):
            if f"<b>{number}</b>" in line and f"/card/{what}?" in line:
                found = re.search(r'class="(waits|saved|changed|refused)"', line)
                return found[1] if found else "none"
        return "none"


def hidden(text):
    """Token and id of the first form of a page, what it shows that stands, and what it asks."""
    token = re.search(r'name="token" value="([^"]+)"', text)
    number = re.search(r'name="id" value="(\d+)"', text)
    if not token or not number:
        raise desks.Fault(f"a page has no form: {text[:200]}")
    more = dict(re.findall(r'name="(was|sure)" value="([^"]*)"', text))
    return {"token": token[1], "id": number[1], **more}


def told_of(text):
    """What a page says beside its form."""
    return re.sub(r"\s+", " ", re.sub(r"<[^>]+>", " ", text))[:300]
