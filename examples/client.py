#!/usr/bin/env python3
"""A client of a desk, written from docs/FORMATS.md ('Frames on the wire') with Python's standard
library alone. Its words, output, fault lines and statuses are those of `desk`; where the words are
not understood it says so in one line:

    examples/client.py enter  --hall 7 --desk 1 --to 127.0.0.1:7001 5 'ENT 333 1'
    examples/client.py ask    --hall 7 --desk 1 --to 127.0.0.1:7001 5
    examples/client.py sheet  --hall 7 --desk 1 --to 127.0.0.1:7001 333 1 5 --csv
    examples/client.py log    --hall 7 --desk 1 --to 127.0.0.1:7001 --from 5
    examples/client.py status --hall 7 --to 127.0.0.1:7001 127.0.0.1:7002 127.0.0.1:7003

`sheet` without a position gives the newest sheet. `--key FILE` is the hall's key, or its entry key,
if the desks have keys. Files of halls it does not read, and `enter` does not wait.

To write another client: connect to the desk's address, write one frame of kind 16 to 23, `from` 0
and `to` the desk's number, and read four bytes, the length, and then that many bytes. That is the
answer if `from` is the desk that was asked, `to` is 0, hall and kind are the wanted ones, and the
id or the position, if the kind has one, is the one that was asked. A Refused counts from whatever
hall and desk. Anything else, and an end before that, is no answer. A desk answers up to 64 frames
on a connection, in their order, and then closes it. A request over one that the desk has ended
meanwhile was not read: make it again over a new one.

Taken says that the command waits in the desk's queue. Await its id, a second or two each time,
until Told says that it is done; a desk of an earlier program ends the connection at that, and is
asked by Ask. Pending for long: send a Tick. Unknown after Taken, or no answer: send the Submit
again with the same id, since a command that comes twice counts once. Refused 1 and 4: try again
later. So each command has an id of its own, which the client remembers before it sends it. If two
clients choose one, both learn where the first one's command is: call a command done only if the
entry at its position (Log) is this id and this text. For a desk's log ask from position 0 on, and
then from where the entries end that have come, until there are as many as the answer says.
"""

import argparse
import hashlib
import hmac
import os
import re
import secrets
import socket
import stat
import struct
import sys
import time
from argparse import Namespace

EVENTS = """333 222 444 555 666 777 333bf 333fm 333oh clock minx pyram skewb sq1 444bf
555bf 333mbf""".split()
CODES = """Done Unread Repeat UnknownCompetitor NameTaken RoundUnknown RoundOpen RoundsRule
FormatNotAllowed CutoffNotAllowed LimitNotAllowed NoScramble ScrambleThere WrongOutcome Closed
Already Full NotEntered OutOfOrder NoMoreAttempts NoSuchAttempt CutoffLost Unfinished
HasAttempts NotClosed Changed""".split()
REFUSALS = """Busy LogFull BallotsSpent NoMemory Down NotThere NoSuchRound Foreign NotAllowed
HallDiffers""".split()
ROLES = "idle gathering proposing leading".split()
SUBMIT, ASK, SHEET, TICK, STOP, STATUS, LOG, AWAIT = 16, 17, 18, 19, 20, 21, 22, 23
TAKEN, TOLD, SHEET_TEXT, REFUSED, FINE, STANDING, ENTRIES = 32, 33, 34, 35, 36, 37, 38
FIRST, SECOND, THIRD, FOURTH, FIFTH = VERSIONS = 1, 2, 3, 4, 5  # of the wire
CLIENT = 0  # its number
LEAST, MOST = 8, 300_000  # the values of a frame's length
NO_ANSWER = "no answer", 4
MARK = b"DSK1"  # what a sealed stream begins with, in both directions
LABEL = b"DSK1 connection key"
TO_DESK, FROM_DESK = 1, 2  # the directions of records
LONGEST, TAG = 16_384, 32  # bytes of a record's longest body, and of its tag
HAS_KEY, NO_KEY = ("the desk has a key", 3), ("the desk has no key", 3)
OTHER_KEY = "the desk has another key", 3
NOT_UNDERSTOOD = 2  # the status, at wrong words and at `--help`


class Fault(Exception):
    """A fault line, and the status to end with."""


class Wait:
    """For how long a desk is waited for."""

    def __init__(self, given):
        self.until = time.monotonic() + given.patience
        self.fault = Fault(f"no answer from {given.to} (waited {given.patience} s)", 4)

    def left(self):
        """How many seconds are left; TimeoutError where none are."""
        left = self.until - time.monotonic()
        if left <= 0:
            raise TimeoutError
        return left


def read_exactly(stream, count, wait):
    """The next bytes of a connection, that many."""
    bytes_read = b""
    while len(bytes_read) < count:
        try:
            stream.settimeout(wait.left())
            piece = stream.recv(count - len(bytes_read))
        except TimeoutError:
            raise wait.fault from None
        except OSError:
            piece = b""
        if not piece:
            raise Fault(*NO_ANSWER)
        bytes_read += piece
    return bytes_read


def key_text(path):
    """What a key's file has, which nobody else may read."""
    try:
        mode = os.stat(path).st_mode
        if not stat.S_ISREG(mode):
            raise Fault("the key file is a folder, a pipe or a device: name a file", 3)
        if mode & 0o077:
            raise Fault("key file is open to others", 3)
        with open(path, "rb") as file:
            return file.read(68)
    except FileNotFoundError:
        raise Fault("no such key file", 3) from None
    except OSError:
        raise Fault("cannot read the key file", 3) from None


def key_of(path):
    """The key in a file: 64 hexadecimal digits that are not all zeros."""
    text = key_text(path)
    if text.startswith(b"\xef\xbb\xbf"):
        raise Fault("the key file begins with a byte-order mark: copy it again, byte by byte", 3)
    if re.fullmatch(b"[0-9a-fA-F]{64}\n?\r\n", text):
        raise Fault("the key file ends with a carriage return: copy it again, byte by byte", 3)
    if not re.fullmatch(b"[0-9a-fA-F]{64}\n?", text):
        raise Fault("the key file has no key", 3)
    if not text.strip(b"0\n"):
        raise Fault("the key file has only zeros: make a key with 'desk key'", 3)
    return bytes.fromhex(text.decode())


class Plain:
    """A connection without a key."""

    def __init__(self, stream, wait):
        self.stream, self.wait, self.has_read = stream, wait, False

    def write(self, data):
        self.stream.sendall(data)

    def read(self, count):
        data = read_exactly(self.stream, count, self.wait)
        if not self.has_read and data == MARK:  # no frame's length is this number
            raise Fault(*HAS_KEY)
        self.has_read = True
        return data


class Sealed:
    """A connection under a key: a preface in each direction, and then records, each with its
    tag."""

    def __init__(self, stream, wait, key):
        self.stream, self.wait = stream, wait
        self.sent, self.came, self.left = 0, 0, b""
        random = secrets.token_bytes(16)
        stream.sendall(MARK + random)
        preface = self.expected(len(MARK), NO_KEY)
        if preface != MARK:
            raise Fault(*NO_KEY)
        self.key = mac(key, LABEL + random + self.expected(len(random), NO_KEY))

    def expected(self, count, fault):
        """The next bytes. Where the connection ends before they came, that is the fault."""
        try:
            return read_exactly(self.stream, count, self.wait)
        except Fault as why:
            raise (Fault(*fault) if why.args == NO_ANSWER else why) from None

    def tag(self, direction, number, body):
        return mac(self.key, struct.pack(">BQH", direction, number, len(body)) + body)

    def write(self, data):
        for at in range(0, len(data), LONGEST):
            body = data[at:at + LONGEST]
            tag = self.tag(TO_DESK, self.sent, body)
            self.stream.sendall(struct.pack(">H", len(body)) + body + tag)
            self.sent += 1

    def open_record(self):
        fault = NO_ANSWER if self.came else OTHER_KEY
        (length,) = struct.unpack(">H", self.expected(2, fault))
        if not 1 <= length <= LONGEST:
            raise Fault(*fault)
        body, tag = self.expected(length, fault), self.expected(TAG, fault)
        if not hmac.compare_digest(tag, self.tag(FROM_DESK, self.came, body)):
            raise Fault(*fault)
        self.came += 1
        self.left += body

    def read(self, count):
        while len(self.left) < count:
            self.open_record()
        data, self.left = self.left[:count], self.left[count:]
        return data


def mac(key, text):
    return hmac.new(key, text, hashlib.sha256).digest()


def opened(stream, wait, key):
    """A connection that has begun, with the key or without one."""
    return Sealed(stream, wait, key) if key else Plain(stream, wait)


def exchange(given, kind, body, wanted, spoken=FIRST):
    """Sends one frame to a desk, and returns the fields of the wanted answer."""
    hall, desk, wait = given.hall, given.desk, Wait(given)
    host, _, port = given.to.rpartition(":")
    try:
        stream = socket.create_connection((host.strip("[]"), int(port)), wait.left())
    except (OSError, ValueError, OverflowError):
        raise Fault("cannot connect", 4) from None
    with stream:
        inside = struct.pack(">BIBBB", spoken, hall, CLIENT, desk, kind) + body
        try:
            wire = opened(stream, wait, given.key)
            wire.write(struct.pack(">I", len(inside)) + inside)
        except OSError:
            raise Fault(*NO_ANSWER) from None
        (length,) = struct.unpack(">I", wire.read(4))
        if not LEAST <= length <= MOST:
            raise Fault(*NO_ANSWER)
        inside = wire.read(length)
    version, of_hall, sender, to, got = struct.unpack(">BIBBB", inside[:8])
    if version not in VERSIONS:
        raise Fault(*NO_ANSWER)
    fields = inside[8:]
    refusals = REFUSALS if version == FIFTH else REFUSALS[:9]
    if (to, got, len(fields)) == (CLIENT, REFUSED, 1) and 1 <= fields[0] <= len(refusals):
        raise Fault("refused " + REFUSALS[fields[0] - 1], 3)
    if (of_hall, sender, to, got) != (hall, desk, CLIENT, wanted):
        raise Fault(*NO_ANSWER)
    return fields


def enter(given):
    if len(text := given.text.encode("utf-8", "surrogateescape")) > 600:
        raise Fault("text too long", 3)
    entry = struct.pack(">QH", given.id, len(text)) + text
    try:
        taken = exchange(given, SUBMIT, entry, TAKEN, FIFTH)  # which tells each refusal
    except Fault as fault:
        if fault.args != NO_ANSWER:
            raise
        taken = exchange(given, SUBMIT, entry, TAKEN)  # to a desk of an earlier program
    if taken != entry[:8]:
        raise Fault(*NO_ANSWER)
    return b"taken %d\n" % given.id


def ask(given):
    return asked_in(given, FOURTH)  # the earlier ones tell the last codes as Unread


def asked_at_first(given):
    """What became of an id, in the version that each program knows."""
    return asked_in(given, FIRST)


def asked_in(given, version):
    identity = struct.pack(">Q", given.id)
    told = exchange(given, ASK, identity, TOLD, version)
    if told in (identity + b"\0", identity + b"\1"):
        return b"%s %d\n" % ((b"unknown", b"pending")[told[8]], given.id)
    if told[:9] != identity + b"\2" or len(told) != 14 or told[13] >= len(CODES):
        raise Fault(*NO_ANSWER)
    (position,) = struct.unpack(">I", told[9:13])
    return b"done %d %d %s\n" % (given.id, position, CODES[told[13]].encode())


def difference(fields, version):
    """The desk that the asked one has heard to differ, and how, or none."""
    if version < FIFTH or fields[:1] == b"\0":
        if len(fields) != (version == FIFTH):
            raise Fault(*NO_ANSWER)
        return None
    how, desk, value = struct.unpack(">BBI", fields)
    if how == 1:
        return desk, f"has another command at {value}"
    return desk, f"has {value} command{'s' * (value != 1)} and had more"


def standing(given, version=THIRD):
    """How a desk stands: its role, the length of its log, its queue, what it was told, and which
    other desk differs."""
    fields = exchange(given, STATUS, b"", STANDING, version)
    try:
        length, waiting, role, _, _, desks = struct.unpack(">IBBIBB", fields[:12])
        rest = 12 + 4 * desks
        told = struct.unpack(f">{desks}I", fields[12:rest])
        return ROLES[role], length, waiting, told, difference(fields[rest:], version)
    except (struct.error, IndexError):
        raise Fault(*NO_ANSWER) from None


def standing_fully(given):
    """The same in the version that tells which other desk differs."""
    return standing(given, FIFTH)


def sheet(given):
    event = EVENTS.index(given.event) + 1
    position = standing(given)[1] if given.position is None else given.position
    body = struct.pack(">BBIB", event, given.round, position, given.csv)
    asked = given, SHEET, body, SHEET_TEXT
    return exchange(*asked, FIRST if event <= 16 else SECOND)


def part_of_log(given, position):
    """The length of a desk's log, and its entries from a position on, as many as come at once."""
    fields = exchange(given, LOG, struct.pack(">I", position), ENTRIES, THIRD)
    try:
        start, length, count = struct.unpack(">IIH", fields[:10])
        entries, rest = [], fields[10:]
        for _ in range(count):
            number, size = struct.unpack(">QH", rest[:10])
            entries.append((number, rest[10:10 + size]))
            rest = rest[10 + size:]
    except struct.error:
        raise Fault(*NO_ANSWER) from None
    if start != position or rest:
        raise Fault(*NO_ANSWER)
    return length, entries


def log(given):
    """The lines that a replay reads: a text where its id comes for the first time, else nothing."""
    entries, length = [], 0
    while not length or len(entries) < length:
        told, more = part_of_log(given, len(entries))
        if told < length or not more and len(entries) < told:
            raise Fault(*NO_ANSWER)  # a log only grows
        length, entries = told, entries + more
        if not length:
            break
    seen, lines = set(), []
    for number, text in entries:
        lines.append(b"" if number in seen or b"\n" in text else text)
        seen.add(number)
    return b"".join(line + b"\n" for line in lines[getattr(given, "from"):])


def met(given, number, address, question):
    """What is said of the desk of a number, the number of the desk that answers, and how it stands.
    Who is foreign may be another one of the hall."""
    said = "refused Foreign", None, None
    for desk in [number, *(it for it in range(1, 6) if it != number)]:
        asked = Namespace(hall=given.hall, desk=desk, to=address, patience=given.patience, id=1,
                          key=given.key)
        try:
            answer = question(asked)
        except Fault as fault:
            said = fault.args[0], None, None
            if said[0] != "refused Foreign":
                return said
            continue
        name = "" if desk == number else f"this is desk {desk}  "
        if question is asked_at_first:
            return name + "an earlier program", desk, None
        role, length, waiting, _, _ = answer
        noun = "command" if length == 1 else "commands"
        return f"{name}{role}  {length} {noun}  {waiting} waiting", desk, answer
    return said


def first_other(given, rows):
    """Which desk has another command, and where, among the last 400 that all logs have, than the
    first desk that tells its log; or none, in each desk's place."""
    end = min((how[1] for _, _, how in rows if how), default=0)
    start, known, others = max(end - 400, 0), None, []
    for (_, desk, how), address in zip(rows, given.to):
        others.append(None)
        if not how:
            continue
        asked = Namespace(hall=given.hall, desk=desk, to=address, patience=given.patience,
                          key=given.key)
        try:
            _, told = part_of_log(asked, start)
        except Fault:
            continue
        known = told if known is None else known
        for place, (one, other) in enumerate(zip(known, told[:end - start])):
            if one != other and not others[-1]:
                others[-1] = desk, f"has another command at {start + place}"
    return others


def status(given):
    """A line for each desk, and one for what they mean. The status is 0 where a majority answered,
    none lacks a command and none differs, 1 where a majority answered and none differs, and else
    3."""
    rows = []
    for number, address in enumerate(given.to, 1):
        for question in (standing_fully, standing, asked_at_first):
            row = met(given, number, address, question)
            if row[0] != "no answer":
                break
        said = "no answer in time" if row[0].startswith("no answer from") else row[0]
        rows.append((said, *row[1:]))
    others = first_other(given, rows)
    differs = next((other or how[4] for (_, _, how), other in zip(rows, others)
                    if how and (other or how[4])), None)
    answers = {desk: how for _, desk, how in rows if how}
    count = len({desk for _, desk, _ in rows if desk})
    size = max((len(how[3]) for how in answers.values()), default=len(rows))
    most = max((max(how[1], *how[3]) for how in answers.values()), default=0)
    lines = [f"desk {number} of {size}  {row[0]}  {address}"
             for number, (row, address) in enumerate(zip(rows, given.to), 1)]
    if any(row[1] not in (None, number) for number, row in enumerate(rows, 1)):
        lines.append("the addresses are not in the order of the desks")
    lags = [(desk, most - how[1]) for desk, how in sorted(answers.items()) if how[1] < most]
    late = "; ".join(f"desk {desk} is {lag} command{'s' * (lag != 1)} behind" for desk, lag in lags)
    front = f"{count} of {size} desks answer{'s' * (count == 1)}: "
    if differs:
        lines.append(f"desk {differs[0]} {differs[1]}: enter nothing more; "
                     "see HALL, 'Two desks differ'")
    elif 2 * count <= size:
        missing, unasked = size // 2 + 1 - count, size - len(rows)
        more = "another one runs" if missing == 1 else f"{missing} more run"
        what = f"{unasked} {'was' if unasked == 1 else 'were'} not asked"
        lines.append(front + (what if unasked else f"nothing is decided until {more}"))
    elif len(answers) < size:
        lines.append(front + "the hall works" + (late and "; " + late))
    else:
        lines.append(late or f"all {size} desks have all {most} command{'s' * (most != 1)}")
    given.status = 3 if differs or 2 * count <= size else int(bool(lags))
    return "".join(line + "\n" for line in lines).encode()


def bare(kind, given):
    if exchange(given, kind, b"", FINE):
        raise Fault(*NO_ANSWER)
    return b"ok\n"


def tick(given):
    return bare(TICK, given)


def stop(given):
    return bare(STOP, given)


class Words(argparse.ArgumentParser):
    """The parser of words, whose every end is a status of 2."""

    def __init__(self, **more):
        super().__init__(allow_abbrev=False, **more)

    def error(self, message):
        self.exit(message=f"error: {message}\n")

    def exit(self, status=NOT_UNDERSTOOD, message=None):
        super().exit(NOT_UNDERSTOOD, message)


def in_range(low, high):
    """How a number is read: without sign, without leading zeros, and in its range."""
    def number(text):
        if not re.fullmatch("0|[1-9][0-9]*", text) or not low <= int(text) <= high:
            raise argparse.ArgumentTypeError(f"{text} is no number from {low} to {high}")
        return int(text)
    return number


def words():
    parser = Words(description="Asks a desk.")
    does = parser.add_subparsers(required=True)
    for run in (enter, ask, sheet, tick, stop, log, status):
        word = does.add_parser(run.__name__)
        word.set_defaults(run=run, status=0)
        word.add_argument("--hall", type=in_range(0, 2**32 - 1), required=True)
        if run is status:
            word.set_defaults(desk=1)
            word.add_argument("--to", required=True, metavar="ADDR", nargs="+")
        else:
            word.add_argument("--desk", type=in_range(0, 255), required=True)
            word.add_argument("--to", required=True, metavar="ADDR")
        if run is log:
            word.add_argument("--from", type=in_range(0, 65_536), default=0)
        word.add_argument("--patience", type=in_range(1, 3600), default=10, metavar="SECONDS")
        word.add_argument("--key", metavar="FILE")
        if run in (enter, ask):
            word.add_argument("id", type=in_range(1, 2**63 - 1))
        if run is enter:
            word.add_argument("text")
        if run is sheet:
            word.add_argument("event", choices=EVENTS)
            word.add_argument("round", type=in_range(1, 4))
            word.add_argument("position", type=in_range(0, 2**32 - 1), nargs="?")
            word.add_argument("--csv", action="store_true")
    given = parser.parse_args()
    if given.run is status and len(given.to) > 5:
        parser.error("a hall has at most five desks")
    return given


def write(text):
    """Writes to standard output."""
    try:
        with open(1, "wb", closefd=False) as output:
            output.write(text)
    except OSError:
        raise Fault("cannot write", 4) from None


def main():
    try:
        if not 1 <= (given := words()).desk <= 5:
            raise Fault("bad desk number", 3)
        given.key = key_of(given.key) if given.key is not None else None
        write(given.run(given))
    except Fault as fault:
        text, number = fault.args
        print(text, file=sys.stderr)
        return number
    return given.status


if __name__ == "__main__":
    sys.exit(main())
