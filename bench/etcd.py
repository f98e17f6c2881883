"""Three nodes of etcd, asked over HTTP: what the benchmarks of halls are set beside."""

import base64
import json
import os
import shutil
import signal
import socket
import subprocess
import time

import desks
import running

NODES = 3


def is_installed():
    return shutil.which("etcd") is not None


class Asker:
    """One client of a node, which keeps its connection."""

    def __init__(self, port):
        self.stream = socket.create_connection(("127.0.0.1", port), desks.PATIENCE)
        self.stream.setsockopt(socket.IPPROTO_TCP, socket.TCP_NODELAY, 1)

    def ask(self, path, body):
        """What is answered to these fields, as fields."""
        text = json.dumps(body).encode()
        head = f"POST {path} HTTP/1.1\r\nHost: etcd\r\nContent-Length: {len(text)}\r\n\r\n"
        self.stream.sendall(head.encode() + text)
        head, _, said = self.read_until(lambda data: b"\r\n\r\n" in data).partition(b"\r\n\r\n")
        length = int(head.lower().partition(b"content-length:")[2].split()[0])
        said += self.read_until(lambda data: len(said) + len(data) >= length)
        if not head.startswith(b"HTTP/1.1 200 "):
            raise desks.Fault(f"etcd: {head[:60]!r} {said[:200]!r}")
        return json.loads(said)

    def read_until(self, is_enough):
        data = b""
        while not is_enough(data):
            piece = self.stream.recv(65536)
            if not piece:
                raise desks.NoAnswer("etcd: the connection has ended")
            data += piece
        return data

    def decide(self, number, text):
        """Puts a text under a new key, which is the number."""
        key, value = (base64.b64encode(each).decode() for each in (b"%d" % number, text))
        self.ask("/v3/kv/put", {"key": key, "value": value})


class Nodes:
    """Three nodes with their files in a folder; `front` are words before the program's own."""

    def __init__(self, folder, front=()):
        ports = running.free_ports(2 * NODES)
        self.ports = ports[:NODES]
        peers = [f"http://127.0.0.1:{port}" for port in ports[NODES:]]
        cluster = ",".join(f"n{at}={peer}" for at, peer in enumerate(peers))
        self.running = []
        for at, (port, peer) in enumerate(zip(self.ports, peers)):
            url = f"http://127.0.0.1:{port}"
            words = [*front, "etcd", "--name", f"n{at}", "--data-dir", f"{folder}/n{at}"]
            words += ["--listen-client-urls", url, "--advertise-client-urls", url]
            words += ["--listen-peer-urls", peer, "--initial-advertise-peer-urls", peer]
            words += ["--initial-cluster", cluster, "--initial-cluster-state", "new"]
            silent = {"stdout": subprocess.DEVNULL, "stderr": subprocess.DEVNULL}
            # a session of its own, so that it ends with whatever stands in front of it
            self.running.append(subprocess.Popen(words, **silent, start_new_session=True))
        try:
            self.leader = self.found_leader()
        except BaseException:
            self.close()
            raise

    def found_leader(self):
        """The port of the node that leads, once there is one."""
        ends = time.monotonic() + desks.PATIENCE
        while time.monotonic() < ends:
            for port in self.ports:
                try:
                    status = Asker(port).ask("/v3/maintenance/status", {})
                except (OSError, desks.Fault):
                    continue
                if status.get("leader") and status["leader"] == status["header"]["member_id"]:
                    return port
            time.sleep(0.1)
        raise desks.Fault("etcd has no leader")

    def decider(self):
        return Asker(self.leader).decide

    def seconds_used(self):
        return sum(desks.processor_seconds(process.pid) for process in self.running)

    def close(self):
        for process in self.running:
            os.killpg(process.pid, signal.SIGKILL)
            process.communicate()
