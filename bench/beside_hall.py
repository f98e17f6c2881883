"""Boards and score tables beside a hall in which a competition of a file is entered: what
checks/beside and bench/with_file share."""

import http.client
import re
import subprocess
import tempfile
import time
import urllib.error
import urllib.parse
import urllib.request
from pathlib import Path

import desks
import rules
import running

LONGEST = 120  # seconds that anything is waited for


class Program:
    """A board or a score table that listens, with what it said on standard error."""

    def __init__(self, path, folder, hall, *more):
        self.address, = running.free_addresses(1)
        self.said = Path(tempfile.mkstemp(dir=folder)[1])
        words = [path, "--hall", str(desks.HALL), "--to", *hall.addresses, "--listen", self.address]
        with open(self.said, "wb") as said:
            self.process = subprocess.Popen([*words, *map(str, more)], stdout=subprocess.PIPE,
                                            stderr=said, preexec_fn=running.heed_signals)
        line = self.process.stdout.readline().decode()
        if self.address not in line:
            raise desks.Fault(f"{path} did not start: {line!r} {self.said.read_text()!r}")

    def get(self, path, **fields):
        """Status, what is said of the page, and the page."""
        request = urllib.request.Request(f"http://{self.address}{path}", headers=fields)
        try:
            with urllib.request.urlopen(request, timeout=LONGEST) as answer:
                kept = [answer.headers[name] for name in ("Content-Type", "Cache-Control", "ETag")]
                return answer.status, kept, answer.read()
        except urllib.error.HTTPError as fault:
            return fault.code, None, fault.read()

    def post(self, path, fields):
        """The status and the page that a form is answered with."""
        connection = http.client.HTTPConnection(self.address, timeout=LONGEST)
        connection.request("POST", path, urllib.parse.urlencode(fields),
                           {"Content-Type": "application/x-www-form-urlencoded"})
        answer = connection.getresponse()
        page = answer.read()
        connection.close()
        return answer.status, page

    def told(self):
        """The lines on standard error, but for what a busy machine brings: that desks are slow."""
        return [line for line in self.said.read_text().splitlines()
                if not line.endswith("no majority of the hall's desks answers")]

    def end(self):
        if self.process.returncode is None:
            self.process.kill()
            self.process.communicate()


def lines_for(program, path, most):
    """Commands for rounds of the competition, of people with numbers up to this one: one of 333
    with results, closed, and the final after it; one of 444 that is closed; and one of 222 and one
    of 333bf, whose limit is for all attempts together, in which nobody has an attempt."""
    made = run(program, "import", "--wcif", path, "--cumulative", "as-single", "--same-names",
               "id").splitlines()
    words, events = [line.split(" ") for line in made], ("333", "222", "444", "333bf")
    lines = [" ".join(line) for line in words
             if line[0] == "EDITION" or line[0] == "REG" and int(line[1]) <= most
             or line[0] == "OPEN" and line[1] in events and line[2] == "1"
             or line[0] == "ENT" and line[1] in events and int(line[2]) <= most]
    for event, least in (("333", 900), ("444", 3000)):
        entered = [line.split()[2] for line in lines if line.startswith(f"ENT {event} ")]
        for place, who in enumerate(entered):
            times = [least + 97 * ((place * 7 + count * 5) % 12) for count in range(5)]
            # one in nine never came
            lines.append(f"CARD {event} 1 {who} - " + "/".join(f"T:{time}:0" for time in times)
                         if place % 9 else f"WDR {event} 1 {who}")
        lines.append(f"CLOSE {event} 1")
    return [*lines, "OPEN 333 2 ao5 - 60000 final"]


def run(program, *words, **more):
    ran = subprocess.run([program, *map(str, words)], capture_output=True, timeout=LONGEST,
                         text=True, **more)
    desks.expect(f"{words}: {ran.stderr[:500]}", ran.returncode, 0)
    return ran.stdout


class Day:
    """A hall in which people of a competition are entered, those with numbers up to this one."""

    def __init__(self, given, folder, path, most=9999):
        self.hall = desks.Hall(folder, [desks.Program(given.program)] * 3, ["--tick", "100"])
        self.hall.start_all()
        self.lines = lines_for(given.program, path, most)
        run(given.program, "enter-lines", "--hall", desks.HALL, "--desk", 1, "--to",
            self.hall.addresses[0], "--first-id", 1, "--wait", input="\n".join(self.lines))
        self.meet, self.sent = rules.Meet(), {}
        for line in self.lines:
            desks.expect(line, self.meet.apply(line.encode()), None)

    def wait(self, *programs):
        """Waits until all of these have one log, and it is whole. Where desks are slow, a table
        hands a card in at the next one too, and the log has an empty line more."""
        ends = time.monotonic() + LONGEST
        while True:
            lengths = {max(map(int, re.findall(rb"result (\d+)", program.get("/")[2])), default=0)
                       for program in programs}
            if len(lengths) == 1 and lengths.pop() >= len(self.lines):
                return
            if time.monotonic() > ends:
                raise desks.Fault("the log is not whole on a page")
            time.sleep(.05)

    def names(self, event, number):
        held = self.meet.rounds[event, number]
        return {who: self.meet.names[who].decode() for who in held.entrants}
