"""What the benchmarks of a desk's store share: drivers that are built, and SQLite to set beside
them.

A driver is a small program over the repository's crates. Its text is bench/drivers/NAME.rt.txt. It
is built without a proof, as scripts/unproved.py says, and the program stays in bench/out.
"""

import os
import shutil
import sqlite3
import subprocess
import sys
import tempfile
import time
from pathlib import Path

TOP = Path(__file__).resolve().parent.parent
OUT = TOP / "bench/out"
sys.dont_write_bytecode = True
sys.path.append(str(TOP / "scripts"))
import unproved


# --- the drivers ---------------------------------------------------------------------------------


def driver(name):
    """The program of this driver, which is built first where need be."""
    return unproved.program(name)


def numbers(program, *words):
    """The numbers that a run of the program prints."""
    done = subprocess.run([program, *map(str, words)], capture_output=True, text=True)
    if done.returncode:
        sys.exit(f"{program.name} {' '.join(map(str, words))}: status {done.returncode}: "
                 f"{done.stderr.strip()}")
    return [int(word) for word in done.stdout.split()]


# --- SQLite --------------------------------------------------------------------------------------

# What the store's own connection comes to: a write-ahead log, and a sync of it at each commit.
MODE = "PRAGMA journal_mode=WAL"
SYNC = "PRAGMA synchronous=FULL"
SETTINGS = "journal_mode WAL, synchronous FULL"
DESK = """CREATE TABLE desk (k INTEGER PRIMARY KEY, hall INTEGER NOT NULL, number INTEGER NOT NULL,
 desks INTEGER NOT NULL, promised_round INTEGER NOT NULL, promised_desk INTEGER NOT NULL,
 tried INTEGER NOT NULL,
 vote_pos INTEGER, vote_round INTEGER, vote_desk INTEGER, vote_id INTEGER, vote_body BLOB) STRICT"""
ENTRIES = ("CREATE TABLE entries (pos INTEGER PRIMARY KEY, id INTEGER NOT NULL, "
           "body BLOB NOT NULL) STRICT")


def text_of(number):
    return f"ATT 333 1 1 {number} T:1234:0".encode()


def first_row(desk):
    return ("INSERT INTO desk (k, hall, number, desks, promised_round, promised_desk, tried) "
            f"VALUES (1, 7, {desk}, 3, 0, 0, 0)")


def append(number, schema="main"):
    return (f"INSERT INTO {schema}.entries (pos, id, body) "
            f"VALUES ({number}, {number + 1}, x'{text_of(number).hex()}')")


def vote(pos, round, number, schema="main"):
    return (f"UPDATE {schema}.desk SET promised_round = {round}, promised_desk = 1, "
            f"vote_pos = {pos}, vote_round = {round}, vote_desk = 1, vote_id = {number + 1}, "
            f"vote_body = x'{text_of(number).hex()}'")


def promise(round, schema="main"):
    return f"UPDATE {schema}.desk SET promised_round = {round}, promised_desk = 1"


def try_round(round, schema="main"):
    return f"UPDATE {schema}.desk SET tried = {round}"


def make_tables(path, desk):
    """A desk's file, as an ordinary SQLite makes it."""
    conn = sqlite3.connect(path, isolation_level=None)
    for statement in (MODE, DESK, ENTRIES, first_row(desk)):
        conn.execute(statement)
    conn.close()


def program_of_sqlite():
    return shutil.which("sqlite3")


def name_of_sqlite():
    """What the figures are set beside."""
    if program_of_sqlite():
        version = subprocess.run(["sqlite3", "-version"], capture_output=True, text=True,
                                 check=True).stdout.split()[0]
        return f"the program sqlite3 {version}"
    return (f"Python's module sqlite3, SQLite {sqlite3.sqlite_version}, "
            "since the program sqlite3 is not installed")


def seconds_by_program(path, statements):
    script = "".join(statement + ";\n" for statement in statements).encode()
    start = time.perf_counter()
    done = subprocess.run(["sqlite3", "-batch", "-bail", path], input=script, capture_output=True)
    if done.returncode or done.stderr:
        sys.exit(f"sqlite3: {done.stderr.decode(errors='replace').strip()}")
    return time.perf_counter() - start


def seconds_by_module(path, statements):
    start = time.perf_counter()
    conn = sqlite3.connect(path, isolation_level=None)
    for statement in statements:
        conn.execute(statement)
    conn.close()
    return time.perf_counter() - start


def sqlite_seconds(path, setup, statements):
    """The time of these statements, each a transaction of its own, without that of a run of the
    setup alone."""
    seconds = seconds_by_program if program_of_sqlite() else seconds_by_module
    start = seconds(path, setup)
    return max(seconds(path, setup + statements) - start, 1e-9)


# --- folders -------------------------------------------------------------------------------------


def scratch(folder=OUT):
    """A temporary folder, on the disk of the repository where none is named."""
    Path(folder).mkdir(parents=True, exist_ok=True)
    return tempfile.TemporaryDirectory(prefix="desk-bench-", dir=folder)


def in_memory():
    """A folder in memory, where the system has one."""
    return next((folder for folder in ("/dev/shm",) if os.path.isdir(folder)
                 and os.access(folder, os.W_OK)), None)
