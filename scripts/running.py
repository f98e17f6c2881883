"""What the checks and the benchmarks share: how their arguments are read, and that their programs
are built.

`--help` shows a script's own first text. An invalid argument, or a program that is not built, ends
the script with one line on standard error and status 2.
"""

import argparse
import os
import random
import shutil
import signal
import socket
import sys
from pathlib import Path

TOP = Path(__file__).resolve().parent.parent
# ports below those that the system gives to whoever asks for any
PORTS = range(10_000, 32_768)
# what keeps the ports that this script was given
kept = []


def program(path):
    """The path of a program that can be run."""
    if not (os.path.isfile(path) and os.access(path, os.X_OK)):
        raise argparse.ArgumentTypeError(f"{path} is not a program: run ./desk or ./board")
    return os.path.abspath(path)


def count(text):
    """A number of things, one at least."""
    if int(text) < 1:
        raise ValueError
    return int(text)


def proved(crate):
    """Where the program of a crate stands once it is proved and built."""
    return str(TOP / "crates" / crate / "out" / crate)


def built(crate):
    """Where the program of a crate stands that a script runs: the proved one, or one of the folder
    DESK_PROGRAMS, where the environment names one, as `./check --quick` does."""
    folder = os.environ.get("DESK_PROGRAMS")
    return os.path.join(folder, crate) if folder else proved(crate)


def free_ports(count):
    """Ports of loopback that nobody listens at. No other script here is given them while this one
    runs: where a desk is away, another hall's desk at its address would be taken for it."""
    found = []
    while len(found) < count:
        port, keeper = random.choice(PORTS), socket.socket(socket.AF_UNIX)
        try:
            # a name that no file has, and that goes with this process
            keeper.bind(f"\0a port of desk's checks: {port}")
            socket.create_server(("127.0.0.1", port)).close()
        except OSError:
            keeper.close()
            continue
        kept.append(keeper)
        found.append(port)
    return found


def free_addresses(count):
    """Addresses of such ports."""
    return [f"127.0.0.1:{port}" for port in free_ports(count)]


def heed_signals():
    """Lets signals end a program that is started with this as its first step, even where whoever
    started this script ignores them, as `nohup` and a shell's `&` do: a program begins with what
    its starter ignores."""
    for number in (signal.SIGTERM, signal.SIGINT, signal.SIGHUP):
        signal.signal(number, signal.SIG_DFL)


class Words(argparse.ArgumentParser):
    """The arguments of the script that has this text."""

    def __init__(self, text):
        name = os.path.relpath(os.path.realpath(sys.argv[0]), TOP)
        super().__init__(prog=name, description=text, allow_abbrev=False,
                         formatter_class=argparse.RawDescriptionHelpFormatter)

    def error(self, message):
        self.exit(2, f"{self.prog}: {message}\n")

    def add_program(self, word="program", crate="desk"):
        """An argument for a program; without it, the program that was built."""
        self.add_argument(word, nargs="?", type=program, default=built(crate),
                          metavar=word.upper())

    def add_names(self, names):
        """An argument for any number of these names."""

        def name(text):
            if text not in names:
                raise argparse.ArgumentTypeError(f"{text} is none of {', '.join(names)}")
            return text

        self.add_argument("names", nargs="*", type=name, metavar="NAME")

    def need(self, command):
        """Ends the script where a command that it runs is not on the path."""
        if shutil.which(command) is None:
            self.error(f"{command} is not on the PATH")

    def have_built(self, *crates):
        """Ends the script where a program that it runs was not built."""
        try:
            for crate in crates:
                program(built(crate))
        except argparse.ArgumentTypeError as fault:
            self.error(fault)


def desk(text):
    """The program of a script whose one argument is a program."""
    words = Words(text)
    words.add_program()
    return words.parse_args().program
