"""A storm over a hall: desks that are killed and started again, that hang, and whose network is
cut, one thing after the other as a seed decides.

As root each desk has a network namespace of its own behind a bridge, so that it can be cut off from
everybody or from some of the others alone. Without root all stand on one machine's loopback, and
nothing is cut. Everything is in namespaces of the script's own: nothing of the machine's network is
touched, and the kernel takes it all away when the script has ended, however that was.
"""

import os
import random
import shutil
import signal
import subprocess
import sys
import threading
import time

import desks
import running

INSIDE, YES = "DESK_INSIDE_A_NETWORK", "yes"  # set for a script in namespaces of its own
BRIDGE, FRONT = "hall", "10.77.0"
OWN = f"{FRONT}.254"  # where all but the desks are


# --- a network of one's own ----------------------------------------------------------------------


def own_network():
    """The words that start a script in namespaces of its own, and why they can't be had, or
    None."""
    if os.geteuid() != 0:
        return [], "only root can make network namespaces"
    for name in ("unshare", "ip", "bridge", "mount"):
        if shutil.which(name) is None:
            return [], f"{name} is not on the PATH"
    space = ["unshare", "--net", "--mount", "--pid", "--fork", "--kill-child", "--mount-proc"]
    try_out = f"mount -t tmpfs tmpfs /run && ip link add {BRIDGE} type bridge"
    tried = subprocess.run([*space, "sh", "-c", try_out], capture_output=True, text=True)
    if tried.returncode:
        return [], f"no network namespace with a bridge: {tried.stderr.strip()}"
    return space, None


def enter_network():
    """Starts the script again in namespaces of its own. Returns why that can't be had, or None in
    there."""
    if os.environ.get(INSIDE) == YES:
        return None
    space, why = own_network()
    if why:
        return why
    os.environ[INSIDE] = YES
    os.execvp(space[0], [*space, sys.executable, *sys.argv])


def ip(*words):
    subprocess.run(["ip", *words], check=True, stdin=subprocess.DEVNULL)


class Network:
    """The desks' namespaces, and the bridge to which they are joined."""

    can_cut = True

    def __init__(self, numbers):
        subprocess.run(["mount", "-t", "tmpfs", "tmpfs", "/run"], check=True)
        ip("link", "set", "lo", "up")
        ip("link", "add", BRIDGE, "type", "bridge")
        ip("addr", "add", f"{OWN}/24", "dev", BRIDGE)
        ip("link", "set", BRIDGE, "up")
        for desk in numbers:
            space, port = f"desk{desk}", f"port{desk}"
            ip("netns", "add", space)
            ip("link", "add", port, "type", "veth", "peer", "name", "own", "netns", space)
            ip("link", "set", port, "master", BRIDGE, "up")
            ip("-n", space, "addr", "add", f"{FRONT}.{desk}/24", "dev", "own")
            for each in ("own", "lo"):
                ip("-n", space, "link", "set", each, "up")
        self.addresses = [f"{FRONT}.{desk}:7001" for desk in numbers]

    def front(self, desk):
        """The words before a desk's program."""
        return ["ip", "netns", "exec", f"desk{desk}"]

    def cut_off(self, desk, cut):
        """Cuts a desk off from everybody, or joins it again."""
        ip("link", "set", f"port{desk}", "down" if cut else "up")

    def isolate(self, desk, cut):
        """Isolated desks do not reach each other. All others reach them, and they all others."""
        words = ["bridge", "link", "set", "dev", f"port{desk}", "isolated", "on" if cut else "off"]
        subprocess.run(words, check=True)


class OneMachine:
    """Loopback, where nothing can be cut."""

    can_cut = False

    def __init__(self, numbers):
        self.addresses = running.free_addresses(len(numbers))

    def front(self, desk):
        return []


# --- the storm -----------------------------------------------------------------------------------


class Storm(threading.Thread):
    """What happens to a hall, until it is told to end. `others` are programs beside the desks, each
    with `kill` and `start`."""

    def __init__(self, hall, network, others, seed, pause=2.0):
        super().__init__(daemon=True)
        self.hall, self.network, self.others, self.pause = hall, network, others, pause
        self.chance = random.Random(seed)
        self.is_over, self.fault = threading.Event(), None
        self.happened = []
        self.most = max(len(hall.programs) // 2, 1)  # so many can be away, and the others go on

    def some(self, count):
        return sorted(self.chance.sample(sorted(self.hall.programs), count))

    def wait(self, seconds):
        """Waits, and says whether the storm goes on."""
        return not self.is_over.wait(seconds)

    def kinds(self):
        """What may happen, and how often each does beside the others."""
        kinds = [(self.kill_some, 5), (self.kill_most, 1), (self.kill_all, 1), (self.hang, 2)]
        if self.network.can_cut:
            kinds += [(self.cut_off, 3), (self.part, 2), (self.part_all, 1)]
        if self.others:
            kinds += [(self.kill_other, 2)]
        return kinds

    def run(self):
        try:
            kinds, weights = zip(*self.kinds())
            # the first ones are each of them once, so that a short storm has them all
            first = self.chance.sample(kinds, len(kinds))
            while self.wait(self.pause * (0.5 + self.chance.random())):
                happens = first.pop() if first else self.chance.choices(kinds, weights)[0]
                happens()
        except Exception as why:  # told by the script at its end
            self.fault = why

    def tell(self, what):
        self.happened.append((time.monotonic(), what))

    def for_a_while(self, least, most):
        self.wait(least + (most - least) * self.chance.random())

    def kill(self, numbers):
        for desk in numbers:
            self.hall.kill(desk)
        self.tell(f"killed desk {' and '.join(map(str, numbers))}")
        self.for_a_while(0.3, 2.5)
        for desk in numbers:
            self.hall.start(desk)

    def kill_some(self):
        self.kill(self.some(1 + self.chance.randrange(self.most)))

    def kill_most(self):
        self.kill(self.some(self.most + 1))

    def kill_all(self):
        self.kill(self.some(len(self.hall.programs)))

    def hang(self):
        [desk] = self.some(1)
        self.hall.signal(desk, signal.SIGSTOP)
        self.tell(f"desk {desk} hung")
        self.for_a_while(0.5, 3)
        self.hall.signal(desk, signal.SIGCONT)

    def cut(self, how, what, numbers):
        for desk in numbers:
            how(desk, True)
        self.tell(f"{what} desk {' and '.join(map(str, numbers))}")
        self.for_a_while(0.5, 4)
        for desk in numbers:
            how(desk, False)

    def cut_off(self):
        """One or more desks reach nobody."""
        numbers = self.some(1 + self.chance.randrange(self.most + 1))
        self.cut(self.network.cut_off, "cut off", numbers)

    def part(self):
        """Two desks do not reach each other; each reaches all others."""
        self.cut(self.network.isolate, "parted", self.some(2))

    def part_all(self):
        """No desk reaches another one, and clients reach all."""
        self.cut(self.network.isolate, "parted", self.some(len(self.hall.programs)))

    def kill_other(self):
        other = self.chance.choice(self.others)
        other.kill()
        self.tell(f"killed {other.name}")
        self.for_a_while(0.2, 1.5)
        other.start()

    def end(self):
        """Ends the storm: all desks run again, and reach each other."""
        self.is_over.set()
        self.join()
        if self.fault:
            raise desks.Fault(f"the storm itself failed: {self.fault!r}")

    def counted(self):
        """How often each thing happened."""
        counts = {}
        for _, what in self.happened:
            kind = what.partition(" desk")[0] if "desk" in what else what
            kind = "hung" if what.endswith("hung") else kind
            counts[kind] = counts.get(kind, 0) + 1
        return ", ".join(f"{kind} {count}" for kind, count in sorted(counts.items()))
