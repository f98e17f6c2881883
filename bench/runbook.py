"""Runs the runbook, docs/HALL.md, block by block, from a folder that has nothing but the box.

`HOW` says by the first line of each block how it is run, and what it has to print. A block that
does not stand there is a fault.
"""

import http.client
import json
import os
import re
import shutil
import signal
import subprocess
import time
import urllib.parse

import running
import wcif
from desks import Fault, expect

LONGEST = 60  # seconds that anything is waited for
NOBODY = 65_534


# what the organiser has beside the box: a competition's file, and results from a spreadsheet
COMPETITION = {
    "formatVersion": "1.0", "id": "Box2026", "name": "Box 2026",
    "persons": [{"registrantId": number, "name": name, "wcaId": None,
                 "registration": {"status": "accepted", "eventIds": ["333"]}}
                for number, name in ((1, "Ann Li"), (2, "Bo Ek"))],
    "events": [{"id": "333", "rounds": [{
        "id": "333-r1", "format": "a", "cutoff": None, "advancementCondition": None, "results": [],
        "timeLimit": {"centiseconds": 60000, "cumulativeRoundIds": []}}]}]}

RESULTS = "\ufeff# a file from a spreadsheet\r\n\r\n" + "".join(
    f"ATT 333 1 {count} {number} T:{1000 + 10 * count + number}:0\r\n"
    for number in (1, 2) for count in (1, 2, 3, 4, 5) if (number, count) != (2, 5))


def blocks_of(text):
    """The fenced blocks of a document, as lists of lines."""
    blocks, block = [], None
    for line in text.splitlines():
        if line == "```":
            if block is not None:
                blocks.append(block)
            block = [] if block is None else None
        elif block is not None:
            block.append(line)
    return blocks


class Machine:
    """Where the runbook is run: a folder of a bare Debian, or of this machine."""

    def __init__(self, box, root, addresses):
        self.box, self.root, self.addresses = box, root, addresses
        self.started, self.folders = [], []

    def new_folder(self):
        """A folder with what the box has, as on a machine on which it was just unpacked."""
        self.folder = (self.root or self.box.parent) / f"hall-{len(self.folders) + 1}"
        self.folders.append(self.folder)
        shutil.copytree(self.box, self.folder)
        for it in [self.folder, *self.folder.rglob("*")]:
            if os.geteuid() == 0:
                os.chown(it, NOBODY, NOBODY)
        return self.folder

    def words(self, script, folder):
        """The words that run a script of bash as nobody, with nothing of this machine."""
        if self.root:
            front = ["chroot", f"--userspec={NOBODY}:{NOBODY}", "--groups=", str(self.root),
                     "/usr/bin/env", "-i", "PATH=/usr/bin:/bin", "HOME=/nonexistent", "/bin/bash"]
            folder = f"/{folder.name}"
        else:
            front = ["setpriv", f"--reuid={NOBODY}", f"--regid={NOBODY}", "--clear-groups"]
            front = front if os.geteuid() == 0 and shutil.which("setpriv") else []
            front += ["env", "-i", "PATH=/nonexistent", "/bin/bash", "--noprofile", "--norc"]
        return [*front, "-c", f"cd {folder}\n{self.placed(script)}"]

    def placed(self, script):
        for there, here in self.addresses.items():
            script = script.replace(there, here)
        return script

    def begin(self, script, folder=None):
        """Starts a script, and gives it with the file in which its output stands."""
        folder = folder or self.folder
        with open(folder / "said.txt", "ab") as said:
            process = subprocess.Popen(self.words(script, folder), stdin=subprocess.DEVNULL,
                                       stdout=said, stderr=subprocess.STDOUT,
                                       start_new_session=True, preexec_fn=running.heed_signals)
        self.started.append(process)
        return process, folder / "said.txt"

    def run(self, script):
        """Output, standard error and status of a script."""
        ran = subprocess.run(self.words(script, self.folder), capture_output=True, text=True,
                             timeout=LONGEST, stdin=subprocess.DEVNULL)
        return ran.stdout, ran.stderr, ran.returncode

    def close(self):
        for process in self.started:
            try:
                os.killpg(process.pid, signal.SIGKILL)
            except ProcessLookupError:
                pass
            process.wait()
        for folder in self.folders:
            shutil.rmtree(folder)


def wait_for(what, found):
    """Waits until something is found, and gives it."""
    ends = time.monotonic() + LONGEST
    while not (got := found()):
        if time.monotonic() > ends:
            raise Fault(f"{what}: not after {LONGEST} s")
        time.sleep(0.05)
    return got


class Runbook:
    """The blocks of HALL.md, one after the other. `HOW` says by a block's first line how it is
    run."""

    def __init__(self, machine, text):
        self.machine, self.blocks, self.at = machine, blocks_of(text), 0
        self.machine.new_folder()
        self.last, self.of_desks = None, {}

    def run(self):
        while self.at < len(self.blocks):
            block = self.blocks[self.at]
            self.at += 1
            how = self.HOW.get(block[0])
            if how is None:
                raise Fault(f"bench/runbook.py does not say how this block is run: {block}")
            how(self, block)
        return len(self.blocks)

    # --- the kinds of blocks ---

    def told(self, block, wanted, status=0):
        """Runs a block, whose output has to match."""
        out, err, got = self.machine.run("\n".join(block))
        if got != status or not re.fullmatch(wanted, out, re.S):
            raise Fault(f"{block}\n  printed {out!r} and {err!r}, status {got}")
        self.last = out
        return err

    def same(self, block):
        """The output of the block before it, to the byte."""
        expect("what the runbook says is printed", self.last.splitlines(),
               [self.machine.placed(line) for line in block])

    def one_hall(self, block):
        """Three desks side by side, in the background of one shell."""
        process, said = self.machine.begin("\n".join([*block, "wait"]))
        firsts = {f"desk {desk} of 3 len 0" for desk in (1, 2, 3)}
        wait_for("three desks", lambda: firsts <= set(said.read_text().splitlines()))
        self.hall_of_one = process, said

    def stop_all(self):
        """The first hall is stopped, as HALL.md says in its text."""
        self.told([f"./desk stop --desk {desk}" for desk in (1, 2, 3)], r"(ok: desk \d at \S+\n){3}")
        process, said = self.hall_of_one
        expect("status of the desks' shell", process.wait(LONGEST), 0)
        expect("desks that served", len(re.findall(r"^served \d+$", said.read_text(), re.M)), 3)

    def entered(self, block):
        err = self.told(block, "".join(f"done {n} {n - 1} Done\n" for n in range(1, 9)))
        expect("what is said at the end", "8 accepted, 0 refused\n" in err, True)

    def corrected(self, block):
        """A card again, the close, and the sheet, which the next block shows."""
        decided = r"done \d+ 8 Done\ndone \d+ 9 Done\n"
        self.told(block, decided + "333 round 1 ao5 closed .*")
        self.last = re.sub(f"^{decided}", "", self.last)

    # --- a hall of three machines ---

    def a_new_hall(self, block):
        """Three machines, each with the box in a folder of its own, and in it what the first one
        makes for it."""
        self.stop_all()
        self.folders = {desk: self.machine.new_folder() for desk in (3, 2, 1)}
        self.told(block, ".*")
        (self.folders[1] / "competition.json").write_text(json.dumps(COMPETITION))
        (self.folders[1] / "results.txt").write_text(RESULTS)
        for desk, folder in self.folders.items():
            for made in (self.folders[1] / f"for-desk-{desk}").iterdir():
                shutil.copy2(made, folder / made.name)
                if os.geteuid() == 0:
                    os.chown(folder / made.name, NOBODY, NOBODY)

    def serve(self, block, desk):
        """Starts a desk on its machine, by the runbook's words with its own number."""
        [line] = block
        words = line.replace("--desk 1", f"--desk {desk}").replace("desk-1.db", f"desk-{desk}.db")
        process, said = self.machine.begin(f"exec {words}", self.folders[desk])
        wait_for(f"desk {desk}", lambda: f"desk {desk} of 3 len 0" in said.read_text())
        return process

    def make_stores(self, block):
        for desk in (1, 2, 3):
            process = self.serve(block, desk)
            os.killpg(process.pid, signal.SIGINT)
            expect("a desk that Ctrl-C ended", process.wait(LONGEST) in (-2, 130), True)
            (self.folders[desk] / "said.txt").unlink()

    def start_desks(self, block):
        for desk in (1, 2, 3):
            self.of_desks[desk] = self.serve(block, desk)

    def imported(self, block):
        self.told(block, "")
        lines, _ = wcif.imported(COMPETITION)
        expect("the commands of the competition's file",
               (self.folders[1] / "setup.txt").read_text().splitlines(), lines)

    def status(self, block):
        """The status of the second hall, into which setup.txt is entered then, as HALL.md says in
        its text."""
        def asked():
            self.last, _, status = self.machine.run("\n".join(block))
            return status == 0
        wait_for("the status of the hall", asked)
        expect("the status", self.last.splitlines()[-1], "all 3 desks have all 0 commands")
        count = len(wcif.imported(COMPETITION)[0])
        err = self.told(["./desk enter-lines --wait --progress < setup.txt"],
                        r"(done \d+ \d+ Done\n){%d}" % count)
        expect("what is said at the end", f"{count} accepted, 0 refused\n" in err, True)

    def browser(self, first):
        """A browser at the program that this line shows to listen."""
        address = wait_for(first, lambda: re.search(
            rf"{first} at (\S+)\n", (self.folders[1] / "said.txt").read_text()))[1]
        return address, http.client.HTTPConnection(address, timeout=LONGEST)

    def page(self, browser, path, fields=None):
        method = "GET" if fields is None else "POST"
        kind = {} if fields is None else {"Content-Type": "application/x-www-form-urlencoded"}
        body = None if fields is None else urllib.parse.urlencode(fields)
        browser.request(method, path, body, kind)
        answer = browser.getresponse()
        return answer.status, answer.read().decode()

    def table(self, block):
        """The score table: the last attempt of competitor 2 comes in by a card."""
        self.machine.begin(f"exec {block[0]}", self.folders[1])
        self.address, self.of_table = self.browser("scoretable")
        wait_for("the round at the score table",
                 lambda: self.page(self.of_table, "/card/333-1")[0] == 200)

    def enter_card(self):
        """The last attempt, by a card on which all five stand, once the table has the others: a
        card that comes before them would enter them once more."""
        wait_for("the fourth attempt, at the score table", lambda: "<td>10.42</td>" in (
            self.page(self.of_table, "/card/333-1")[1]))
        _, text = self.page(self.of_table, "/card/333-1?number=2")
        fields = dict(re.findall(r'name="(token|id|was)" value="([^"]+)"', text))
        fields |= {"round": "333-1", "number": "2"}
        fields |= {f"a{count}": str(1000 + 10 * count + 2) for count in (1, 2, 3, 4)}
        status, text = self.page(self.of_table, "/card", fields | {"a5": "1052"})
        expect("a card", status, 303)
        wait_for("a card that is saved", lambda: 'class="saved"' in self.page(
            self.of_table, "/card/333-1")[1])

    def by_words(self, block):
        """A competitor, results from a file, and a card that is refused. Then the last result by
        the score table, the close of the round and its sheet."""
        refused = r"done \d+ \d+ UnknownCompetitor: .*\n"
        err = self.told(block, r"(done \d+ \d+ Done\n){10}" + refused, status=1)
        expect("what is said at the end", "9 accepted, 0 refused\n" in err, True)
        self.enter_card()
        self.told(["./desk enter --wait 'CLOSE 333 1'"], r"done \d+ \d+ Done\n")
        self.told(["./desk sheet 333 1"], "333 round 1 ao5 closed .*")
        self.sheet = self.last

    def board(self, block):
        self.machine.begin(f"exec {block[0]}", self.folders[1])
        _, browser = self.browser("board")
        wait_for("the round at the board", lambda: self.page(browser, "/333-1")[0] == 200)
        table, _, _ = self.machine.run("./desk sheet 333 1 --csv")
        wait_for("the desk's table at the board",
                 lambda: self.page(browser, "/333-1.csv") == (200, table))

    def stop(self, block):
        """One desk of the second hall."""
        self.told(block, r"ok: desk 1 at \S+\n")
        expect("a desk that was stopped", self.of_desks[1].wait(LONGEST), 0)

    def archived(self, block):
        """The sheet again, and the competition's file with the results."""
        self.told(block, "333 round 1 ao5 closed .*")
        expect("the sheet of the log", self.last, self.sheet)
        whole = json.loads((self.folders[1] / "competition-results.json").read_text())
        results = whole["events"][0]["rounds"][0]["results"]
        expect("results in the competition's file",
               [(it["personId"], it["ranking"], len(it["attempts"])) for it in results],
               [(1, 1, 5), (2, 2, 5)])

    HOW = {
        "./desk hall-file --hall 7 127.0.0.1:7001 127.0.0.1:7002 127.0.0.1:7003 > hall.toml":
            one_hall,
        "./desk status": status,
        "./desk enter-lines --first-id 1 --wait <<'END'": entered,
        "./desk enter --wait 'CARD 333 1 1 1000,1200,1100,1300,DNF =/=/=/=/T:1150:0'": corrected,
        "333 round 1 ao5 closed position 10": same,
        "./desk hall-file --keys --hall 7 10.0.0.1:7001 10.0.0.2:7001 10.0.0.3:7001": a_new_hall,
        "./desk serve --config hall.toml --desk 1 --store desk-1.db --new-hall": make_stores,
        "./desk import --wcif competition.json > setup.txt": imported,
        "./desk serve --config hall.toml --desk 1 --store desk-1.db --open-sheets": start_desks,
        "./scoretable --listen 127.0.0.1:8081": table,
        "./desk enter --wait 'REG 3 Cy Li'": by_words,
        "./board --listen 127.0.0.1:8080": board,
        "./desk stop --desk 1": stop,
        "./desk log --store desk-1.db > log-1.txt": archived,
    }
