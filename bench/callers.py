#!/usr/bin/env python3
"""What `callers` of tests/bytes has to print, worked out by Python's own HMAC and the rules of
sealed streams.

    bench/callers.py < tests/bytes/cases/callers.in      prints what callers.out there has to be

A second program, which shares nothing with the crates: it looks at a whole stream at once. It draws
the streams of seeds by the same numbers (SplitMix64). tests/bytes/callers.rt.txt says what the
lines ask for. Standard library only.
"""

import sys
from collections import Counter
from pathlib import Path

sys.dont_write_bytecode = True
sys.path.append(str(Path(__file__).resolve().parent.parent / "scripts"))
sys.path.append(str(Path(__file__).resolve().parent))
import running
from seals import LABEL, MARK, MOST, TAG, bytes_of, mac, opened, record
from streams import Numbers

TO_SERVER, TO_CLIENT = 1, 2
WORDS = ("anyone", "passer", "hall", "entry", "nobody")


def connection_key(key, client, server):
    return mac(key, LABEL + client + server)


def admitted(word, hall, entry, server, stream):
    """What a desk hands on of a stream, who calls, and why nothing more is read."""
    if word == "open":
        return stream, "anyone", "None"
    if len(stream) >= 4 and stream[:4] != MARK:
        if word == "sheets":
            return stream, "passer", "None"
        return b"", "nobody", "Some(Unsealed)"
    if len(stream) >= 20:
        for caller, key in (("hall", hall), ("entry", entry)):
            if key:
                tried = connection_key(key, stream[4:20], server)
                bodies, _, _ = opened(tried, TO_SERVER, stream[20:])
                if bodies:
                    return b"".join(bodies), caller, "None"
    return b"", "nobody", "None"


def handed_lines(handed):
    return f"{len(handed)} bytes, {mac(b'', handed).hex()}"


def doors_of(text):
    """The word of the doors, the two keys, and the other parts of a line."""
    word, _, text = text.partition(" ")
    return word, *(bytes_of(part) for part in text.split("/"))


def called_lines(text):
    _, _, text = text.partition(" ")
    handed, caller, refusal = admitted(*doors_of(text))
    return [handed_lines(handed), f"{caller}, {refusal}"]


def calling_lines(text):
    _, _, text = text.partition(" ")
    key, random, stream = (bytes_of(part) for part in text.split("/"))
    handed, is_open, trouble = b"", False, "None"
    if len(stream) >= 4 and stream[:4] != MARK:
        trouble = "Some(NoKey)"
    elif len(stream) >= 20:
        is_open = True
        tried = connection_key(key, random, stream[4:20])
        bodies, _, fault = opened(tried, TO_CLIENT, stream[20:])
        handed = b"".join(bodies)
        trouble = "None" if fault == "None" else "Some(OtherKey)"
    return [handed_lines(handed), f"open {str(is_open).lower()}, {trouble}"]


def sealed(key, direction, text):
    """The records of bytes: of 16,384 each, and of the rest."""
    bodies = [text[at:at + MOST] for at in range(0, len(text), MOST)]
    return b"".join(record(key, direction, at, body) for at, body in enumerate(bodies))


def answer_lines(text):
    word, hall, entry, server, stream, text = doors_of(text)
    _, caller, _ = admitted(word, hall, entry, server, stream)
    if caller in ("anyone", "passer"):
        return [text.hex()]
    if caller == "nobody":
        return [""]
    key = connection_key({"hall": hall, "entry": entry}[caller], stream[4:20], server)
    return [sealed(key, TO_CLIENT, text).hex()]


def some(numbers, count):
    return bytes(numbers.word() % 256 for _ in range(count))


def joined(records, which, at):
    """The records: one may be left out, come twice, or come after the next one."""
    place = at % max(len(records), 1)
    if records and which == 2:
        del records[place]
    elif records and which == 3:
        records.insert(place, records[place])
    elif records and which == 4:
        records.insert(place + 1, records.pop(place))
    return b"".join(records)


def damaged(stream, which, at, by):
    place = at % max(len(stream), 1)
    if which == 5 and stream:
        changed = bytes([stream[place] ^ (by % 255 + 1)])
        return stream[:place] + changed + stream[place + 1:]
    if which == 6:
        return stream[:place]
    if which in (7, 8):
        return stream + (b"\0\0" if which == 7 else b"\x40\x01") + by.to_bytes(8, "big")
    return stream


def draw_sealed(numbers, hall, entry, server):
    other = some(numbers, 32)
    key = (hall, hall, entry, entry, other)[numbers.below(5)]
    client = some(numbers, 16)
    which, at, by = numbers.below(10), numbers.word(), numbers.word()
    direction = TO_CLIENT if which == 9 else TO_SERVER
    key = connection_key(key, client, server)
    bodies = [some(numbers, 1 + numbers.below(200)) for _ in range(numbers.below(6))]
    records = [record(key, direction, at, body) for at, body in enumerate(bodies)]
    return MARK + client + damaged(joined(records, which, at), which, at, by)


def draw_unsealed(numbers):
    if numbers.below(2) == 0:
        return some(numbers, numbers.below(60))
    random = some(numbers, 16)
    return (MARK + random)[:numbers.below(21)]


def drawn(seed):
    """What a desk with keys of its own hands on of the stream of a seed, and who calls."""
    numbers = Numbers(seed)
    hall, entry, server = some(numbers, 32), some(numbers, 32), some(numbers, 16)
    which = numbers.below(9)
    word = "open" if which == 8 else "sheets" if which % 4 < 2 else "shut"
    if numbers.below(8) == 0:
        stream = draw_unsealed(numbers)
    else:
        stream = draw_sealed(numbers, hall, entry, server)
    handed, caller, _ = admitted(word, hall, entry if which % 2 == 0 else b"", server, stream)
    return handed, caller


def stream_lines(text):
    first, count = map(int, text.split())
    counts, total, mark = Counter(), 0, bytes(32)
    for seed in range(first, first + count):
        handed, caller = drawn(seed)
        counts[caller] += 1
        total += len(handed)
        mark = mac(mark, caller.encode() + handed)
    return [f"{count} streams, {total} bytes handed on, {mark.hex()}",
            ", ".join(f"{counts[word]} {word}" for word in WORDS)]


def main():
    running.Words(__doc__).parse_args()
    words = {"called": called_lines, "calling": calling_lines, "answer": answer_lines,
             "streams": stream_lines}
    for line in sys.stdin.read().splitlines():
        word, _, rest = line.partition(" ")
        print(*(words[word](rest) if word in words else [line]), sep="\n")


if __name__ == "__main__":
    main()
