"""What the checks, trials and benchmarks of halls share whose desks are programs: desks that are
started, killed and stopped, clients that keep their connections, and many clients at once.

Frames are those of docs/FORMATS.md ('Frames on the wire').
"""

import multiprocessing
import os
import signal
import socket
import struct
import subprocess
import sys
import threading
import time
from pathlib import Path

TOP = Path(__file__).resolve().parent.parent
sys.dont_write_bytecode = True
sys.path += [str(TOP / "scripts"), str(TOP / "examples")]
import running
import sealing
from client import (ASK, AWAIT, CODES, FINE, REFUSALS, REFUSED, SHEET, SHEET_TEXT, STOP, SUBMIT,
                    TAKEN, TICK, TOLD)

HALL = 7
PATIENCE = 60  # seconds that anything is waited for
FRAMES = 64  # that a desk takes on one connection
AWAITED = 1  # seconds after which an Await is answered in any case
PAUSE = 0.0005  # seconds between two questions to a program that knows no Await
THREADS = 16  # clients of one process, where there are many


class Fault(Exception):
    """Something is not as it has to be."""


class NoAnswer(Fault):
    """A desk cannot be reached, or has not answered."""


class Refused(Fault):
    """A desk refuses a request. Its text is the name of the refusal."""


def expect(what, got, wanted):
    if got != wanted:
        raise Fault(f"{what}\n  wanted {wanted!r}\n  got    {got!r}")


# --- frames --------------------------------------------------------------------------------------


def frame(desk, kind, body=b"", sender=0, version=1):
    """A frame for a desk, from a client or from another desk."""
    return struct.pack(">IBIBBB", 8 + len(body), version, HALL, sender, desk, kind) + body


def id_of(number):
    return struct.pack(">Q", number)


def entry_of(number, text):
    return id_of(number) + struct.pack(">H", len(text)) + text


def state_of(fields):
    """What an answer to Ask says: unknown, pending, or a position and a code."""
    if fields[8] < 2:
        return ("unknown", "pending")[fields[8]]
    return struct.unpack(">I", fields[9:13])[0], CODES[fields[13]]


def sheet_of(event, number, position, style=0):
    """The fields of a Sheet: event and style by their numbers."""
    return struct.pack(">BBIB", event, number, position, style)


def read_frame(stream, desk):
    """The kind and the fields of the one frame that a desk writes next."""
    data = b""
    while len(data) < 4 or len(data) < 4 + int.from_bytes(data[:4], "big"):
        piece = stream.recv(65536)
        if not piece:
            raise ConnectionError("the connection has ended")
        data += piece
    length, _, hall, sender, to, kind = struct.unpack(">IBIBBB", data[:12])
    expect("length, hall, sender and receiver of an answer", (length, hall, sender, to),
           (len(data) - 4, HALL, desk, 0))
    return kind, data[12:]


# --- one client ----------------------------------------------------------------------------------


class Client:
    """A client of one desk. It keeps a connection for so many frames. An earlier program, which
    serves one connection after the other, has to be asked one frame on each."""

    def __init__(self, address, desk, frames=FRAMES, patience=PATIENCE, key=None):
        host, _, port = address.rpartition(":")
        self.place, self.desk, self.patience, self.key = (host, int(port)), desk, patience, key
        self.frames, self.stream, self.used, self.asked = frames, None, 0, 0

    def connect(self):
        self.stream = socket.create_connection(self.place, self.patience)
        self.stream.setsockopt(socket.IPPROTO_TCP, socket.TCP_NODELAY, 1)
        if self.key:
            self.stream = sealing.Sealed(self.stream, self.key)
        self.used = 0

    def close(self):
        if self.stream is not None:
            self.stream.close()
            self.stream = None

    def written_and_read(self, data):
        if self.stream is None:
            self.connect()
        self.stream.sendall(data)
        return read_frame(self.stream, self.desk)

    def exchange(self, kind, body, wanted, version=1):
        """The fields of the desk's answer to one frame. Where a kept connection has ended, it is
        asked once more, over a new one."""
        was_kept = self.stream is not None
        data = frame(self.desk, kind, body, version=version)
        try:
            try:
                got, fields = self.written_and_read(data)
            except ConnectionError:
                self.close()
                if not was_kept:
                    raise
                got, fields = self.written_and_read(data)
        except OSError as why:
            self.close()
            raise NoAnswer(f"desk {self.desk}: {why}") from None
        self.used, self.asked = self.used + 1, self.asked + 1
        if self.used == self.frames:
            self.close()
        if got == REFUSED:
            raise Refused(REFUSALS[fields[0] - 1])
        expect(f"kind of desk {self.desk}'s answer", got, wanted)
        return fields

    def enter(self, number, text):
        fields = self.exchange(SUBMIT, entry_of(number, text), TAKEN)
        expect(f"id that desk {self.desk} took", fields, id_of(number))

    def state(self, number, version=1):
        """What the desk says of an id: unknown, pending, or a position and a code."""
        fields = self.exchange(ASK, id_of(number), TOLD, version)
        expect(f"id that desk {self.desk} tells of", fields[:8], id_of(number))
        return state_of(fields)

    def awaited(self, number):
        """What the desk says of an id once it is decided, or after a second; an earlier program
        at once."""
        if self.frames == 1:
            time.sleep(PAUSE)
            return self.state(number)
        fields = self.exchange(AWAIT, id_of(number) + bytes([AWAITED]), TOLD, 5)
        expect(f"id that desk {self.desk} tells of", fields[:8], id_of(number))
        return state_of(fields)

    def has(self, number):
        return isinstance(self.state(number), tuple)

    def sheet(self, event, number, position):
        version = 1 if event <= 16 else 2  # multi-blind can be asked for since version 2
        return self.exchange(SHEET, sheet_of(event, number, position), SHEET_TEXT, version)

    def tick(self):
        self.exchange(TICK, b"", FINE)

    def stop(self):
        self.exchange(STOP, b"", FINE)

    def enter_when_room(self, number, text):
        """Enters a command, again where the desk's queue is full."""
        ends = time.monotonic() + self.patience
        while True:
            try:
                return self.enter(number, text)
            except Refused as refused:
                if str(refused) != "Busy" or time.monotonic() > ends:
                    raise
            time.sleep(0.005)

    def decide(self, number, text, ticks=True):
        """Enters a command and waits until it is decided: its position and code. Where a second
        brought nothing, the desk is ticked, unless it ticks itself."""
        self.enter_when_room(number, text)
        start = ticked = time.monotonic()
        while not isinstance(told := self.awaited(number), tuple):
            now = time.monotonic()
            if now > start + self.patience:
                raise Fault(f"desk {self.desk} has not decided {number} after {self.patience} s")
            if ticks and now > ticked + 0.9 * AWAITED:
                self.tick()
                ticked = now
        return told


# --- desks ---------------------------------------------------------------------------------------


class Program:
    """A program `desk`. An earlier one serves one connection after the other."""

    def __init__(self, path, is_earlier=False):
        self.path, self.is_earlier = path, is_earlier

    def options(self, given):
        if self.is_earlier:
            # options that it does not have are left out with their values
            return ["--connections", "1000000", "--patience", "5", *wire_of(given)]
        return list(given)

    def frames(self):
        return 1 if self.is_earlier else FRAMES


def wire_of(options):
    """The option --wire with its value, where it is given."""
    return [word for at, word in enumerate(options) if "--wire" in options[max(at - 1, 0):at + 1]]


def processor_seconds(pid):
    """The processor time of a program so far, in programs and in the system."""
    fields = Path(f"/proc/{pid}/stat").read_text().rpartition(")")[2].split()
    return (int(fields[11]) + int(fields[12])) / os.sysconf("SC_CLK_TCK")


class Hall:
    """Three or five desks, each a program with a file of its own in a folder. All are given the
    same options; `front` are words before the program's own, for each desk; `key` is the path of
    their key's file, where they have one."""

    def __init__(self, folder, programs, options=(), addresses=None, front=lambda desk: [],
                 key=None):
        self.folder, self.front, self.options, self.key = Path(folder), front, options, key
        self.programs = dict(enumerate(programs, 1))
        self.addresses = addresses or running.free_addresses(len(programs))
        self.running = {}
        self.folder.mkdir(parents=True, exist_ok=True)

    def store(self, desk):
        return self.folder / f"desk-{desk}.db"

    def start(self, desk, options=None):
        """Starts a desk: the length of its log, by its first line."""
        program = self.programs[desk]
        words = [*self.front(desk), program.path, "serve", "--hall", str(HALL), "--desk", str(desk)]
        words += ["--store", str(self.store(desk))]
        words += program.options(self.options if options is None else options)
        words += self.key_words()
        with open(self.folder / f"desk-{desk}.said", "ab") as said:
            # a session of its own, so that it ends with whatever stands in front of it
            self.running[desk] = subprocess.Popen([*words, *self.addresses], stderr=said,
                                                  stdout=subprocess.PIPE, start_new_session=True)
        line = self.running[desk].stdout.readline().decode()
        if not line.startswith(f"desk {desk} of {len(self.programs)} len "):
            raise Fault(f"desk {desk} did not start: {line!r} {self.said(desk)}")
        return int(line.split()[-1])

    def key_words(self):
        """The arguments that say which key."""
        return ["--key", str(self.key)] if self.key else []

    def start_all(self):
        return [self.start(desk) for desk in self.programs]

    def said(self, desk):
        """The lines that a desk wrote on standard error, in all its runs."""
        return (self.folder / f"desk-{desk}.said").read_text().splitlines()

    def client(self, desk, **more):
        more = {"frames": self.programs[desk].frames(), **more}
        key = self.key and sealing.key_in(self.key)
        return Client(self.addresses[desk - 1], desk, key=key, **more)

    def connect(self, desk):
        """A bare connection to a desk."""
        host, _, port = self.addresses[desk - 1].rpartition(":")
        return socket.create_connection((host, int(port)), PATIENCE)

    def signal(self, desk, number):
        os.killpg(self.running[desk].pid, number)

    def kill(self, desk):
        self.signal(desk, signal.SIGKILL)
        self.running.pop(desk).communicate()

    def stop(self, desk):
        """Stops a desk: how many connections it has served."""
        self.client(desk).stop()
        process = self.running.pop(desk)
        out = process.communicate(timeout=PATIENCE)[0].decode()
        expect(f"the end of desk {desk}", (out[:7], process.returncode), ("served ", 0))
        return int(out[7:])

    def stop_all(self):
        return {desk: self.stop(desk) for desk in sorted(self.running)}

    def seconds_used(self):
        """The processor seconds of all desks that run."""
        return sum(processor_seconds(process.pid) for process in self.running.values())

    def most_memory(self, desk):
        """The most memory that a desk had in this run, in KiB."""
        status = Path(f"/proc/{self.running[desk].pid}/status").read_text()
        return int(status.partition("VmHWM:")[2].split()[0])

    def run(self, desk, *words, **more):
        """What a run of the desk's program prints, which has to end well."""
        ran = subprocess.run([self.programs[desk].path, *map(str, words)], stdout=subprocess.PIPE,
                             **more)
        expect(f"status of {words}", ran.returncode, 0)
        return ran.stdout

    def log(self, desk):
        """The log of a stopped desk, as lines for a replay."""
        return self.run(desk, "log", "--store", self.store(desk))

    def close(self):
        for desk in list(self.running):
            self.kill(desk)


def round_of(competitors):
    """A round of 3x3x3: so many competitors, a correction, a strike and refusals, each a line."""
    lines = ["OPEN 333 1 ao5 2:1800 60000 top:4"]
    for number in range(1, competitors + 1):
        lines += [f"REG {number} Competitor, number {number}", f"ENT 333 {number}"]
    for attempt in range(1, 6):
        for number in range(1, competitors + 1):
            hundredths = 900 + 97 * ((number * 7 + attempt * 5) % 12)
            lines.append(f"ATT 333 1 {attempt} {number} T:{hundredths}:{attempt % 2}")
    lines += ["COR 333 1 2 3 DNF", "STR 333 1 5", "no command", "REG 13 Competitor, number 1"]
    return lines + ["ATT 333 1 5 5 T:1234:0", "CLOSE 333 1"]


# --- many clients at once ------------------------------------------------------------------------


def text_of(number):
    return b"REG %d Competitor number %d" % (number, number)


def late(seconds):
    """The 99th of 100 of these, which are sorted."""
    return seconds[len(seconds) * 99 // 100]


def entered_by_threads(make, shares, barrier, results):
    """Each share of ids is entered by a client of its own, one id after the other."""
    times, ends = [], []

    def enter(share):
        decide = make()
        barrier.wait(PATIENCE)
        begins = time.monotonic()
        for number in share:
            start = time.monotonic()
            decide(number, text_of(number))
            times.append(time.monotonic() - start)
        ends.append((begins, time.monotonic()))

    threads = [threading.Thread(target=enter, args=(share,)) for share in shares]
    for thread in threads:
        thread.start()
    for thread in threads:
        thread.join()
    results.put((times, ends))


def entered_by_many(make, ids, clients):
    """Enters these ids by so many clients at once, in processes of a few threads each: the seconds
    of it all, and of each id, sorted. `make` gives what decides an id and a text for one client."""
    forks = multiprocessing.get_context("fork")
    barrier, results = forks.Barrier(clients), forks.Queue()
    shares = [ids[at::clients] for at in range(clients)]
    groups = [shares[at:at + THREADS] for at in range(0, clients, THREADS)]
    started = [forks.Process(target=entered_by_threads, args=(make, group, barrier, results))
               for group in groups]
    for process in started:
        process.start()
    times, ends = [], []
    try:
        for _ in started:
            some, of_some = results.get(timeout=10 * PATIENCE)
            times, ends = times + some, ends + of_some
    finally:
        for process in started:
            process.kill()
            process.join()
    expect("ids that clients have entered", len(times), len(ids))
    seconds = max(end for _, end in ends) - min(begin for begin, _ in ends)
    return seconds, sorted(times)


# --- what scripts share --------------------------------------------------------------------------


def words_of(text):
    """The arguments of a script that runs halls of a program, or of an earlier one too."""
    words = running.Words(text)
    words.add_argument("--program", type=running.program, default=running.built("desk"))
    words.add_argument("--earlier", type=running.program)
    return words


def programs_of(given):
    """The program of these arguments, and the earlier one, or None."""
    return Program(given.program), given.earlier and Program(given.earlier)


def run_script(main):
    """Runs a script. What is not as it has to be ends it with a line and status 1; a signal that
    ends it ends what it has started too."""
    signal.signal(signal.SIGTERM, lambda number, _: sys.exit(128 + number))
    try:
        main()
    except Fault as why:
        sys.exit(f"{Path(sys.argv[0]).name}: {why}")


def print_table(headings, rows):
    """Prints rows of texts under headings, the first column to the left."""
    columns = list(zip(headings, *rows))
    widths = [max(map(len, column)) for column in columns]
    for row in (headings, *rows):
        cells = [row[0].ljust(widths[0])]
        cells += [cell.rjust(width) for cell, width in zip(row[1:], widths[1:])]
        print("  ".join(cells), flush=True)
