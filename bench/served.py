"""A day of `hx_tape serve` on loopback, for the scripts that measure one."""
import itertools
import os
import socket
import struct
import subprocess
import sys
import tempfile
import time

sys.path.append(os.path.join(os.path.dirname(os.path.abspath(__file__)), "..", "tests"))
from etcds import Etcd  # noqa: E402

HOST = "127.0.0.1"
# More sessions than that are those of an open day.
SESSIONS = 63
# The Enters that fit into one read of a session (4,096 bytes): the most that are submitted under one hold of the lock.
ONE_READ = 78


def setup_text(members, stocks=("ABCD",)):
    lines = ["session HX00000007", "start open"]
    lines += [f"stock {name} 5120000000644e435a20502020314e000000004e" for name in stocks]
    lines += [f"member {n} F{n:03d} U{n:05d} P{n:09d} 1000000" for n in range(1, members + 1)]
    return "\n".join(lines) + "\n"


def free_port(kind):
    with socket.socket(socket.AF_INET, kind) as found:
        found.bind((HOST, 0))
        return found.getsockname()[1]


def frame(kind, payload=b""):
    return struct.pack(">Hc", len(payload) + 1, kind) + payload


def order(number):
    return frame(b"U", struct.pack(">c14scI8sII4scccIcc", b"O", b"%014d" % number, b"B", 100, b"ABCD    ",
                                   100_000 + 100 * (number % 1000), 99_999, b"    ", b"Y", b"O", b"N", 0, b"N", b"R"))


def connected(port):
    """A connection, once the server listens: it makes room for its feed first."""
    for _ in range(100):
        try:
            return socket.create_connection((HOST, port))
        except ConnectionRefusedError:
            time.sleep(0.05)
    return socket.create_connection((HOST, port))


def pieces(items, size):
    """Lists of `size` of them, and of the rest."""
    items = iter(items)
    while some := list(itertools.islice(items, size)):
        yield some


class Member:
    def __init__(self, port, number):
        self.line = connected(port)
        self.line.setsockopt(socket.IPPROTO_TCP, socket.TCP_NODELAY, 1)
        self.rest = b""
        self.number = number

    def log_in(self):
        self.line.sendall(frame(b"L", b"U%05d" % self.number + b"P%09d" % self.number + b" " * 10
                                + b"1".rjust(20)))
        assert self.packet()[:1] == b"A"

    def packet(self):
        while len(self.rest) < 2 or len(self.rest) < 2 + struct.unpack_from(">H", self.rest)[0]:
            more = self.line.recv(1 << 16)
            assert more, "closed"
            self.rest += more
        size, = struct.unpack_from(">H", self.rest)
        packet, self.rest = self.rest[2:2 + size], self.rest[2 + size:]
        return packet

    def reply(self):
        packet = self.packet()
        while packet[:1] == b"H":
            packet = self.packet()
        return packet

    def drain(self):
        """Takes what comes until the line is closed, and throws it away."""
        while self.line.recv(1 << 20):
            pass

    def send(self, messages):
        self.line.sendall(b"".join(frame(b"U", message) for message in messages))

    def send_all(self, messages, answer=b"A"):
        """Sends messages, each of which has one reply of this letter. Some are answered before the next are sent."""
        for some in pieces(messages, ONE_READ):
            self.send(some)
            for _ in some:
                reply = self.reply()
                assert reply[1:2] == answer, reply


class Day:
    """A server with `members` members, each logged in."""

    def __init__(self, program, members, capacity=1_000_000, sync=None, stocks=("ABCD",), words=()):
        self.setup = tempfile.NamedTemporaryFile("w", suffix=".setup")
        self.setup.write(setup_text(members, stocks))
        self.setup.flush()
        self.folder = tempfile.TemporaryDirectory(dir=".")
        self.is_open = members > SESSIONS
        options = ["--open", "--connections-per-address", str(members)] if self.is_open else []
        options += self.journal_words(sync)
        self.feed = socket.socket(socket.AF_INET, socket.SOCK_DGRAM)
        self.feed.setsockopt(socket.SOL_SOCKET, socket.SO_RCVBUF, 1 << 22)
        self.feed.bind((HOST, 0))
        port, requests = free_port(socket.SOCK_STREAM), free_port(socket.SOCK_DGRAM)
        self.server = subprocess.Popen(
            [program, "serve", "--port", str(port), "--feed", str(self.feed.getsockname()[1]), "--requests",
             str(requests), "--sessions", str(members), "--setup", self.setup.name, "--capacity", str(capacity), *options,
             *words],
            stdin=subprocess.PIPE, stdout=subprocess.PIPE, stderr=subprocess.DEVNULL)
        time.sleep(0.3)
        self.members = []
        for number in range(1, members + 1):
            self.members.append(Member(port, number))
            # (a day that is not open begins with its last connection)
            if self.is_open:
                self.members[-1].log_in()
        if not self.is_open:
            for member in self.members:
                member.log_in()

    def journal_words(self, sync):
        """The words of what makes the day durable: a journal, synced as said, or the log of an etcd, or both."""
        self.etcd = None
        words = []
        if sync in ("log", "both"):
            self.etcd = Etcd(self.folder.name)
            self.etcd.start_all()
            words = ["--log", self.etcd.words(), "--writer", "1"]
        if sync and sync != "log":
            words += ["--journal", os.path.join(self.folder.name, "day"), "--sync", "group" if sync == "both" else sync]
        return words

    def operate(self, line):
        """A line of the operator, as on a tape."""
        self.server.stdin.write(line)
        self.server.stdin.flush()

    def processor_seconds(self):
        """What the server has used, and what of it the kernel, for the server."""
        with open(f"/proc/{self.server.pid}/stat") as file:
            fields = file.read().rsplit(")", 1)[1].split()
        own, kernel = int(fields[11]), int(fields[12])
        return (own + kernel) / os.sysconf("SC_CLK_TCK"), kernel / os.sysconf("SC_CLK_TCK")

    def tell_processor(self, orders):
        used, kernel = self.processor_seconds()
        print(f"   an order takes {1e6 * used / orders:.1f} us of a processor, {100 * kernel / used:.0f} % of it in the kernel")

    def close(self):
        """Ends the day: what the server wrote, and its status. The server of an open day is killed."""
        if self.is_open:
            self.server.kill()
        else:
            for member in self.members:
                member.line.sendall(frame(b"O"))
            self.server.stdin.close()
        written = self.server.stdout.read().decode().strip()
        status = self.server.wait()
        if self.etcd:
            self.etcd.stop()
        return written, status

    def end(self):
        written, status = self.close()
        if self.is_open:
            print("   ended, status", status)
        else:
            print("  ", written, "status", status)
