#!/usr/bin/env python3
"""What is read of a hall's file: a second program of the definition.

    bench/hall_file.py < tests/bytes/cases/hall_files.in > tests/bytes/cases/hall_files.out

Reads the cases, of which tests/bytes/hall_files.rt.txt says how they are written, and writes what
the program has to print for them. TOML is read by Python's tomllib.
"""

import os.path
import re
import sys
import tomllib
import unicodedata
from pathlib import Path

DATA = Path(__file__).parent.parent / "tests/bytes/cases/hall_files.data"
PADDED = b'hall = 7\ndesks = ["a:1", "b:2", "c:3"]\n#'
NOT_TOML = "line 2: not TOML: key with no value, expected `=`"


class Fault(Exception):
    pass


def parsed(data):
    """The members, a TOML error where it is no document: a mark at the front is dropped."""
    text = data.decode().removeprefix("\ufeff")
    members = tomllib.loads(text)
    # tomllib reads a whole number of any size
    for value in members.values():
        if type(value) is int and not -(2**63) <= value < 2**63:
            raise tomllib.TOMLDecodeError("too large (at line 1, column 1)")
    return members


def line_of(data, name):
    """One more than the lines of the longest beginning that is a document without the name."""
    ends = [0] + [place + 1 for place, byte in enumerate(data) if byte == 10]
    for end in reversed(ends):
        try:
            if name not in parsed(data[:end]):
                return 1 + data[:end].count(b"\n")
        except tomllib.TOMLDecodeError:
            pass
    raise AssertionError("the empty document has no member")


def shown(name):
    """A text in quotation marks, with what is not printed escaped."""
    known = {'"': '\\"', "\\": "\\\\", "\n": "\\n", "\r": "\\r", "\t": "\\t", "\0": "\\0"}

    def one(letter):
        if letter in known:
            return known[letter]
        return letter if letter.isprintable() else "\\u{%x}" % ord(letter)

    return '"' + "".join(map(one, name)) + '"'


def is_address(text):
    host, colon, port = text.rpartition(":")
    if not colon or not host or not re.fullmatch("[1-9][0-9]{0,4}", port) or int(port) > 65535:
        return False
    return not any(c.isspace() or unicodedata.category(c) == "Cc" for c in host)


def desks_fault(desks):
    if type(desks) is not list:
        return "not a list of addresses"
    if len(desks) not in (3, 5):
        return f"{len(desks)} addresses, a hall has 3 or 5"
    for place, text in enumerate(desks):
        if type(text) is not str:
            return f"address {place + 1} is not a text"
        if not is_address(text):
            return f"address {place + 1} is not HOST:PORT with a port 1 to 65535"
        if text in desks[:place]:
            return f"address {place + 1} stands there twice"
    return None


def read(data):
    if len(data) > 8192:
        raise Fault("longer than 8192 bytes")
    try:
        members = parsed(data)
    except UnicodeDecodeError as error:
        raise Fault(f"line {1 + data[:error.start].count(10)}: not UTF-8")
    except tomllib.TOMLDecodeError as error:
        raise Fault("line %s: not TOML" % re.search("line ([0-9]+)", str(error)).group(1))
    known = ("hall", "desks", "key")
    others = sorted((name.encode(), name) for name in members if name not in known)
    if others:
        name = others[0][1]
        raise Fault(f"line {line_of(data, name)}: unknown member {shown(name)}")
    for name in ("hall", "desks"):
        if name not in members:
            raise Fault(f"{name}: missing")
        value = members[name]
        fault = None
        if name == "desks":
            fault = desks_fault(value)
        elif type(value) is not int:
            fault = "not a whole number"
        elif not 0 <= value < 2**32:
            fault = "not 0 to 4294967295"
        if fault:
            raise Fault(f"line {line_of(data, name)}: {name}: {fault}")
    key = members.get("key")
    if key is not None and (type(key) is not str or key == ""):
        fault = "empty" if key == "" else "not a text"
        raise Fault(f"line {line_of(data, 'key')}: key: {fault}")
    return members["hall"], members["desks"], key


def hall_lines(hall, desks, key):
    yield f"hall {hall} of {len(desks)}"
    for desk in range(7):
        yield f"{desk} {desks[desk - 1] if 1 <= desk <= len(desks) else '-'}"
    if key is not None:
        yield f"key {key}"


def quoted(text):
    plain = '"' not in text and "\\" not in text
    return f'"{text}"' if plain else f"'{text}'"


def printed(hall, desks, key):
    yield "desks = ["
    for text in desks:
        yield f"    {quoted(text)},"
    yield "]"
    yield f"hall = {hall}"
    if key is not None:
        yield f"key = {quoted(key)}"
    yield "is read back"


def told(data):
    try:
        said = read(data)
    except Fault as fault:
        return [str(fault)]
    return [*hall_lines(*said), *printed(*said)]


def told_path(path):
    if path == "/dev/zero":
        return [f"{path}: longer than 8192 bytes"]
    if not (DATA / path).is_file():
        return [f"{path}: cannot be read"]
    try:
        return list(hall_lines(*read((DATA / path).read_bytes())))
    except Fault as fault:
        text = str(fault)
        return [f"{path}: {NOT_TOML if text.endswith('not TOML') else text}"]


def main():
    lines = sys.stdin.buffer.read().split(b"\n")
    inside, data, out = False, b"", []
    for line in lines:
        if inside and line in (b"end", b"cut"):
            out += told(data if line == b"end" else data[:-1])
            inside = False
        elif inside:
            data += line + b"\n"
        elif line:
            text = line.decode()
            out.append(f"# {text}")
            word, _, rest = text.partition(" ")
            if word == "path":
                out += told_path(rest)
            elif word == "key":
                file, _, key = rest.partition(" ")
                out.append(os.path.join(os.path.dirname(file), key))
            elif word == "pad":
                out += told(PADDED.ljust(int(rest), b"#"))
            inside, data = word == "case", b""
    sys.stdout.write("".join(line + "\n" for line in out))


main()
