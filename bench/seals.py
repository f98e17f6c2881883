#!/usr/bin/env python3
"""What `seals` of tests/bytes has to print, worked out by Python's own HMAC and the rules of
sealed streams.

    bench/seals.py < tests/bytes/cases/seals.in          prints what seals.out there has to be

A second program, which shares nothing with the crates: it looks at a whole stream at once where it
can. tests/bytes/seals.rt.txt says what the lines ask for. Standard library only.
"""

import hashlib
import hmac
import sys
from pathlib import Path

sys.dont_write_bytecode = True
sys.path.append(str(Path(__file__).resolve().parent.parent / "scripts"))
import running

MARK = b"DSK1"
LABEL = b"DSK1 connection key"
# what RFC 4231 gives for HMAC-SHA-256 (4.2 to 4.8), by key, message and number of bytes
STANDARD = {
    ("0b*20", "4869205468657265", 32):
        "b0344c61d8db38535ca8afceaf0bf12b881dc200c9833da726e9376c2e32cff7",
    ("4a656665", "7768617420646f2079612077616e7420666f72206e6f7468696e673f", 32):
        "5bdcc146bf60754e6a042426089575c75a003f089d2739839dec58b964ec3843",
    ("aa*20", "dd*50", 32):
        "773ea91e36800e46854db8ebd09181a72959098b3ef8c122d9635514ced565fe",
    ("0102030405060708090a0b0c0d0e0f10111213141516171819", "cd*50", 32):
        "82558a389a443c0ea4cc819899f2083a85f0faa3e578f8077a2e3ff46729665b",
    ("0c*20", "546573742057697468205472756e636174696f6e", 16):
        "a3b6167473100ee06e0c796c2955552b",
    ("aa*131", "54657374205573696e67204c6172676572205468616e20426c6f636b2d53697a65204b6579202d20"
               "48617368204b6579204669727374", 32):
        "60e431591ee0b67f0d8a26aacbf5b77f8e0bc6213728c5140546040f0ee37f54",
    ("aa*131", "5468697320697320612074657374207573696e672061206c6172676572207468616e20626c6f636b"
               "2d73697a65206b657920616e642061206c6172676572207468616e20626c6f636b2d73697a652064"
               "6174612e20546865206b6579206e6565647320746f20626520686173686564206265666f72652062"
               "65696e6720757365642062792074686520484d414320616c676f726974686d2e", 32):
        "9b09ffa71b942fcb27635fbcd5b0e944bfdc63644f0713938a7f51535c3a35e2",
}
DIRECTIONS = {"server": 1, "client": 2}
MOST = 16_384
TAG = 32


def mac(key, text):
    return hmac.new(key, text, hashlib.sha256).digest()


def bytes_of(text):
    data = b""
    for token in text.split():
        digits, _, times = token.partition("*")
        data += bytes.fromhex(digits) * int(times or 1)
    return data


def parts_of(text):
    return [bytes_of(part) for part in text.split("/")]


def record(key, direction, number, body):
    size = len(body).to_bytes(2, "big")
    return size + body + mac(key, bytes([direction]) + number.to_bytes(8, "big") + size + body)


def opened(key, direction, stream):
    """The bodies of a stream, what is left of it, and what ended it."""
    bodies = []
    while len(stream) >= 2:
        size = int.from_bytes(stream[:2], "big")
        if not 1 <= size <= MOST:
            return bodies, b"", "Some(BadLength)"
        end = 2 + size + TAG
        if len(stream) < end:
            break
        body = stream[2:2 + size]
        if record(key, direction, len(bodies), body) != stream[:end]:
            return bodies, b"", "Some(BadTag)"
        bodies.append(body)
        stream = stream[end:]
    return bodies, stream, "None"


def hmac_lines(text):
    count, _, text = text.partition(" ")
    key, message = (part.strip() for part in text.split("/"))
    worked_out = mac(bytes_of(key), bytes_of(message))[:int(count)].hex()
    given = STANDARD.get((key, message, int(count)), worked_out)
    if given != worked_out:
        sys.exit(f"seals.py: RFC 4231 gives {given}, Python {worked_out}")
    return [given]


def key_lines(text):
    hall, client, server = parts_of(text)
    return [it.hex() for it in (mac(hall, LABEL + client + server), MARK + client, MARK + server)]


def preface_lines(text):
    data = bytes_of(text)
    return [data[4:].hex() if data[:4] == MARK else "no preface"]


def seal_lines(text):
    direction, _, text = text.partition(" ")
    key, *bodies = parts_of(text)
    number = 0
    for body in bodies:
        if 1 <= len(body) <= MOST:
            yield record(key, DIRECTIONS[direction], number, body).hex()
            number += 1
        else:
            yield "BadLength"


def open_lines(text):
    direction, _size, text = text.split(" ", 2)
    key, stream = parts_of(text)
    bodies, _rest, fault = opened(key, DIRECTIONS[direction], stream)
    data = b"".join(bodies)
    return [f"{len(data)} bytes, {mac(b'', data).hex()}, {fault}"]


def main():
    running.Words(__doc__).parse_args()
    words = {"hmac": hmac_lines, "key": key_lines, "preface": preface_lines, "seal": seal_lines,
             "open": open_lines}
    for line in sys.stdin.read().splitlines():
        word, _, rest = line.partition(" ")
        print(*(words[word](rest) if word in words else [line]), sep="\n")


if __name__ == "__main__":
    main()
