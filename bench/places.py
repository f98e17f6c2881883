"""A network of five places for scripts that run as root: each desk has a network namespace with one
device (TUN), and what it sends to another one is read from that device by a process, which hands it
on after a delay, or loses it. So what is lost is sent again by the kernel's own TCP, whatever the
kernel has of its own to delay packets with.

The link of a place may have a rate. What comes faster than that waits, each way for itself, and is
lost where it would wait for longer than half a second.
"""

import ctypes
import fcntl
import heapq
import multiprocessing
import os
import random
import select
import struct
import subprocess
import time

import desks

PORT = 7001
FRONT = "10.77.0"
TUNSETIFF, IFF_TUN, IFF_NO_PI = 0x400454CA, 0x0001, 0x1000
CLONE_NEWNET = 0x40000000
SEED = 1
LONGEST = 0.5  # seconds that a packet waits for a link with a rate


def run(*words):
    subprocess.run(words, check=True, stdin=subprocess.DEVNULL)


def why_not():
    """Why places can't be made here, or None."""
    if os.geteuid() != 0:
        return "only root can make network namespaces"
    return None if os.path.exists("/dev/net/tun") else "there is no /dev/net/tun"


def enter_space(name):
    """Goes on in a network namespace, with this thread."""
    with open(f"/run/netns/{name}") as space:
        if ctypes.CDLL(None, use_errno=True).setns(space.fileno(), CLONE_NEWNET):
            raise OSError(ctypes.get_errno(), f"setns to {name}")


class Link:
    """One way of a place's link with a rate: when what is sent now has gone over it."""

    def __init__(self, bits_a_second):
        self.rate, self.free = bits_a_second, 0.0

    def over(self, moment, packet):
        """When the packet has gone over it that comes at this moment; None where it is lost."""
        begins = max(moment, self.free)
        if begins > moment + LONGEST:
            return None
        self.free = begins + 8 * len(packet) / self.rate
        return self.free


class Network:
    """A namespace for each desk, and a process that hands on what they send to each other. `delay`
    is in milliseconds, one way; `loss` is in percent; `rates` are bits a second of some links."""

    def __init__(self, numbers, delay, loss, rates=None):
        self.delay, self.loss, self.devices = delay / 1000, loss / 100, {}
        self.spaces = {desk: f"desk-{os.getpid()}-{desk}" for desk in numbers}
        self.addresses = [f"{FRONT}.{desk}:{PORT}" for desk in numbers]
        rates = (rates or {}).items()
        self.leaving, self.coming = ({desk: Link(rate) for desk, rate in rates} for _ in "12")
        self.is_away = multiprocessing.Array("b", max(numbers) + 1)
        self.carried = multiprocessing.Array("Q", max(numbers) + 1)  # bytes from and to each place
        self.handing = None
        try:
            for desk in self.spaces:
                self.add(desk)
            self.handing = multiprocessing.get_context("fork").Process(target=self.hand_on)
            self.handing.start()
        except BaseException:
            self.close()
            raise

    def add(self, desk):
        space, device = self.spaces[desk], f"desk{desk}"
        run("ip", "netns", "add", space)
        self.devices[desk] = os.open("/dev/net/tun", os.O_RDWR)
        asked = struct.pack("16sH22x", device.encode(), IFF_TUN | IFF_NO_PI)
        fcntl.ioctl(self.devices[desk], TUNSETIFF, asked)
        run("ip", "link", "set", device, "netns", space)
        run("ip", "-n", space, "addr", "add", f"{FRONT}.{desk}/24", "dev", device)
        for each in (device, "lo"):
            run("ip", "-n", space, "link", "set", each, "up")

    def front(self, desk):
        """The words before a desk's program."""
        return ["ip", "netns", "exec", self.spaces[desk]]

    def cut_off(self, desk, cut):
        """Cuts a place off from all others, or joins it again."""
        self.is_away[desk] = cut

    def arrives(self, sender, receiver, packet, chance):
        """When a packet that is sent now comes to its receiver; None where it is lost."""
        moment = time.monotonic()
        if self.is_away[sender] or self.is_away[receiver] or chance < self.loss:
            return None
        if sender in self.leaving:
            moment = self.leaving[sender].over(moment, packet)
        if moment is not None:
            moment += self.delay
            if receiver in self.coming:
                moment = self.coming[receiver].over(moment, packet)
        if moment is not None:
            for desk in (sender, receiver):
                self.carried[desk] += len(packet)
        return moment

    def hand_on(self):
        """Reads packets, and writes each to the device of its receiver once it has come there."""
        numbers, waiting, count = random.Random(SEED), [], 0
        senders = {device: desk for desk, device in self.devices.items()}
        while True:
            wait = max(waiting[0][0] - time.monotonic(), 0) if waiting else None
            for device in select.select(list(senders), [], [], wait)[0]:
                packet = os.read(device, 65536)
                # of IPv4, for one of the desks by the last byte of its address
                if packet[0] >> 4 != 4 or packet[19] not in self.devices:
                    continue
                moment = self.arrives(senders[device], packet[19], packet, numbers.random())
                if moment is not None:
                    count += 1
                    heapq.heappush(waiting, (moment, count, packet))
            while waiting and waiting[0][0] <= time.monotonic():
                packet = heapq.heappop(waiting)[2]
                os.write(self.devices[packet[19]], packet)

    def close(self):
        if self.handing is not None:
            self.handing.kill()
            self.handing.join()
        for desk, space in self.spaces.items():
            if desk in self.devices:
                os.close(self.devices[desk])
            subprocess.run(["ip", "netns", "del", space], stderr=subprocess.DEVNULL)


class InSpace:
    """A function that runs in a process of its own, in a namespace, and what it puts at its end."""

    def __init__(self, space, target, *given):
        forks = multiprocessing.get_context("fork")
        self.name, self.results = target.__name__, forks.Queue()
        self.process = forks.Process(target=self.run, args=(space, target, given))
        self.process.start()

    def run(self, space, target, given):
        enter_space(space)
        self.results.put(target(*given))

    def result(self, longest):
        ends = time.monotonic() + longest
        # an empty queue and a process that has ended: it failed, and said why
        while self.results.empty() and self.process.is_alive() and time.monotonic() < ends:
            time.sleep(0.05)
        if self.results.empty() and not self.process.is_alive() and self.process.exitcode != 0:
            raise desks.Fault(f"{self.name} has failed")
        if self.results.empty() and time.monotonic() >= ends:
            self.process.kill()
            raise desks.Fault(f"{self.name} has not ended after {longest} s")
        answer = self.results.get(timeout=desks.PATIENCE)
        self.process.join()
        return answer


def in_space(space, target, *given, longest=3600):
    """What a function gives that runs in a namespace."""
    return InSpace(space, target, *given).result(longest)
