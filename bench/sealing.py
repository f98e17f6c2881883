"""A connection to a desk under a key, for scripts that ask desks, keys in files, and what may stand
between a client and a desk.

What a sealed stream is says docs/FORMATS.md ('Sealed streams').
"""

import os
import secrets
import socket
import threading
from pathlib import Path

from seals import LABEL, MARK, MOST, TAG, mac, record

TO_DESK, FROM_DESK = 1, 2
RANDOM = 16  # random bytes of each side


def make_key(path, mode=0o600, key=None):
    """Makes a key's file, and gives its path."""
    text = (key or secrets.token_bytes(32)).hex() + "\n"
    path = Path(path)
    path.write_text(text)
    os.chmod(path, mode)
    return path


def key_in(path):
    """The key of a file."""
    return bytes.fromhex(Path(path).read_text().strip())


def connection_key(key, client, desk):
    """The key of a connection, of the hall's key or the entry key and both sides' random bytes."""
    return mac(key, LABEL + client + desk)


def exactly(stream, count):
    """The next bytes of a stream, that many, or fewer where it ends."""
    data = b""
    while len(data) < count and (piece := stream.recv(count - len(data))):
        data += piece
    return data


class Sealed:
    """The client's side of a connection under a key, with the calls of a socket that are used."""

    def __init__(self, stream, key):
        self.stream, self.sent, self.came, self.left = stream, 0, 0, b""
        client = secrets.token_bytes(RANDOM)
        stream.sendall(MARK + client)
        preface = exactly(stream, len(MARK) + RANDOM)
        if preface[:4] != MARK or len(preface) < len(MARK) + RANDOM:
            raise ConnectionError("the desk has no key")
        self.key = connection_key(key, client, preface[4:])

    def sendall(self, data):
        for at in range(0, len(data), MOST):
            self.stream.sendall(record(self.key, TO_DESK, self.sent, data[at:at + MOST]))
            self.sent += 1

    def recv(self, count):
        """The bytes of the next record, or what is left of one; none at the end."""
        if not self.left:
            size = exactly(self.stream, 2)
            body = exactly(self.stream, int.from_bytes(size, "big"))
            tag = exactly(self.stream, TAG)
            if size and size + body + tag != record(self.key, FROM_DESK, self.came, body):
                raise ConnectionError("the desk has another key, or none")
            self.came, self.left = self.came + 1, body
        data, self.left = self.left[:count], self.left[count:]
        return data

    def close(self):
        self.stream.close()


# --- between a client and a desk -----------------------------------------------------------------


class Damage:
    """What is done to one record of a connection, in one direction. A change is of a bit of the
    record's byte `where`, which counts from its end where it is negative."""

    def __init__(self, kind, at, where=2):
        self.kind, self.at, self.where, self.held = kind, at, where, b""

    def passed(self, number, whole):
        """What is handed on in place of the record with this number."""
        if number != self.at:
            data, self.held = whole + self.held, b""
            return data
        if self.kind == "change":
            place = self.where % len(whole)
            return whole[:place] + bytes([whole[place] ^ 1]) + whole[place + 1:]
        if self.kind == "swap":
            self.held = whole
        return {"repeat": whole + whole, "drop": b"", "swap": b""}.get(self.kind, whole)


class Passage(threading.Thread):
    """One direction of a connection: what came from one side is handed on to the other one."""

    def __init__(self, source, target, damage):
        super().__init__(daemon=True)
        self.source, self.target, self.damage = source, target, damage
        self.came, self.number = b"", 0  # all that came, and how many records

    def handed_on(self, data):
        """What of these bytes is handed on now, and what waits for the rest of a record."""
        ready = b""
        while len(data) >= 2:
            end = 2 + int.from_bytes(data[:2], "big") + TAG
            if len(data) < end:
                break
            ready += self.damage.passed(self.number, data[:end])
            self.number, data = self.number + 1, data[end:]
        return ready, data

    def run(self):
        try:
            preface = exactly(self.source, len(MARK) + RANDOM)
            self.came += preface
            self.target.sendall(preface)
            waiting = b""
            while piece := self.source.recv(65536):
                self.came += piece
                if self.damage is None:
                    self.target.sendall(piece)
                else:
                    ready, waiting = self.handed_on(waiting + piece)
                    self.target.sendall(ready)
            self.target.shutdown(socket.SHUT_WR)
        except OSError:
            for each in (self.source, self.target):
                try:
                    each.shutdown(socket.SHUT_RDWR)
                except OSError:
                    pass


class Between(threading.Thread):
    """Stands between clients and a desk, keeps what the clients sent, and may damage a record of
    each connection. `harms` gives what is done to a connection with this number, from 0: the damage
    on the way to the desk, and on the way back, each None where nothing is."""

    def __init__(self, address, harms=lambda number: (None, None)):
        super().__init__(daemon=True)
        host, _, port = address.rpartition(":")
        self.place, self.harms, self.sent = (host, int(port)), harms, []
        self.listener = socket.create_server(("127.0.0.1", 0))
        self.address = f"127.0.0.1:{self.listener.getsockname()[1]}"
        self.start()

    def run(self):
        while True:
            try:
                client, _ = self.listener.accept()
            except OSError:
                return
            try:
                desk = socket.create_connection(self.place)
            except OSError:
                client.close()
                continue
            to_desk, back = self.harms(len(self.sent))
            self.sent.append(Passage(client, desk, to_desk))
            self.sent[-1].start()
            Passage(desk, client, back).start()

    def close(self):
        self.listener.close()
