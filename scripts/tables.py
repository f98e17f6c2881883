"""Three desks and two score tables, each a program, for scripts that look at the pages."""

import signal
import subprocess
import time
from pathlib import Path

import running

HALL = 7
LONGEST = 120  # seconds that anything is waited for


class Differs(Exception):
    pass


def expect(what, got, wanted):
    if got != wanted:
        raise Differs(f"{what}\n  wanted {wanted!r}\n  got    {got!r}")


class Hall:
    """Three desks and two score tables, each a program."""

    def __init__(self, program, table, folder):
        self.program, self.of_table, self.folder = program, table, folder
        *self.desks, first, second = running.free_addresses(5)
        self.tables = {"table 1": first, "table 2": second}
        self.config = folder / "hall.toml"
        listed = ", ".join(f'"{address}"' for address in self.desks)
        self.config.write_text(f"hall = {HALL}\ndesks = [{listed}]\n")
        self.running = {}

    def start(self, name, *more):
        kind, number = name.split(" ")
        if kind == "desk":
            words = [self.program, "serve", "--config", str(self.config), "--desk", number,
                     "--store", str(self.folder / f"desk{number}"), "--quiet", *more]
        else:
            words = [self.of_table, "--config", str(self.config), "--listen", self.tables[name],
                     "--journal", str(self.folder / f"journal{number}"), "--title", "Hall"]
        log = open(self.folder / f"{kind}{number}.err", "ab")
        self.running[name] = subprocess.Popen(words, stdout=subprocess.PIPE, stderr=log, text=True)
        if not self.running[name].stdout.readline():
            raise Differs(f"{name} does not start: {Path(log.name).read_text()}")

    def kill(self, name):
        process = self.running.pop(name)
        process.kill()
        process.communicate()

    def ask(self, name, *rest, **more):
        words = [self.program, name, "--hall", str(HALL), "--desk", "1", "--to", self.desks[0]]
        ran = subprocess.run([*words, *rest], capture_output=True, timeout=LONGEST, **more)
        # a line there may say that it waits for a desk
        expect(f"{name} {rest}: {ran.stderr}", ran.returncode, 0)
        return ran.stdout.decode()

    def log(self):
        return [line for line in self.ask("log").splitlines() if line]

    def end(self):
        for process in self.running.values():
            process.send_signal(signal.SIGCONT)
            process.kill()
            process.communicate()

    def enter(self, lines):
        """Enters lines, and waits until they are decided."""
        have = len(self.log())
        first = ["--first-id", str(1_000_000 + have)]
        self.ask("enter-lines", *first, input="\n".join(lines).encode() + b"\n")
        end = time.monotonic() + LONGEST
        while len(self.log()) < have + len(lines):
            if time.monotonic() > end:
                raise Differs("the commands are not decided")
            time.sleep(0.1)
