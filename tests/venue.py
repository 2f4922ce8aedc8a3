"""A venue for scripts: a server with a journal, members' lines and a vendor, and what one replay of the day tells."""
import contextlib
import os
import random
import signal
import socket
import struct
import subprocess
import threading
import time

import tapes

HOST = "127.0.0.1"
SESSION = "HX00000008"
STOCKS = ("ABCD",)
END_OF_SESSION = 65535
# How long something is waited for, in seconds.
PATIENCE = 60
# The codes of the hours that are left of a day that begins open.
CLOSING = b"".join(b"%d 0 %s\n" % (86_399_999_000_000 + at, code) for at, code in enumerate((b"51", b"4d", b"45", b"43")))


def setup_text(members, session=SESSION, stocks=STOCKS):
    lines = [f"session {session}", "start open"]
    lines += [f"stock {name} 5120000000644e435a20502020314e000000004e" for name in stocks]
    lines += [f"member {n} {firm(n)} US{n:04d} PASS{n:04d} 10000000" for n in range(1, members + 1)]
    return "\n".join(lines) + "\n"


def firm(number):
    return "F" + "".join(chr(65 + number // 26 ** at % 26) for at in (2, 1, 0))


def free_port(kind):
    with socket.socket(socket.AF_INET, kind) as found:
        found.bind((HOST, 0))
        return found.getsockname()[1]


def frame(kind, payload=b""):
    return struct.pack(">Hc", len(payload) + 1, kind) + payload


class Server:
    """A server with a journal, or what other words say, which can be killed and started again with the same words.

    Its setup has this session and these stocks. It is at `host`, and its feed goes to `vendors`, where those are not at
    127.0.0.1."""

    def __init__(self, program, folder, journal, members, slots=None, more=(), ticks=0, end=1, session=SESSION,
                 stocks=STOCKS, host=HOST, vendors=HOST, feed=None):
        self.program, self.journal, self.session, self.stocks, self.host = program, journal, session, stocks, host
        self.setup = os.path.join(folder, "setup")
        with open(self.setup, "w", encoding="ascii") as file:
            file.write(setup_text(members, session, stocks))
        self.port, self.requests = free_port(socket.SOCK_STREAM), free_port(socket.SOCK_DGRAM)
        self.feed = feed or free_port(socket.SOCK_DGRAM)
        self.words = [program, "serve", "--open", "--end", str(end), *self.addresses(vendors),
                      "--sessions", str(slots or members), "--setup", self.setup,
                      "--capacity", "1000000", "--answers", "100000", "--connections-per-address", "1000",
                      "--tick", str(ticks), *(["--journal", journal] if journal else []), *more]
        self.notices = []
        self.process = None

    def addresses(self, vendors):
        """The words of where it listens, and where its feed goes."""
        if self.host == HOST == vendors:
            return ["--port", str(self.port), "--feed", str(self.feed), "--requests", str(self.requests)]
        return ["--listen", f"{self.host}:{self.port}", "--feed", f"{vendors}:{self.feed}",
                "--requests", f"{self.host}:{self.requests}"]

    def start(self, stdin=subprocess.PIPE):
        self.process = subprocess.Popen(self.words, stdin=stdin, stdout=subprocess.PIPE, stderr=subprocess.PIPE)
        self.reader = threading.Thread(target=self.listen, args=(self.process.stderr,), daemon=True)
        self.reader.start()

    def listen(self, stream):
        for line in stream:
            self.notices.append(line.decode().strip())

    def kill(self):
        self.process.send_signal(signal.SIGKILL)
        self.process.wait()
        self.reader.join()

    def end(self):
        """Ends the day: what was written, and the status."""
        self.process.stdin.write(CLOSING)
        self.process.stdin.flush()
        output = self.process.stdout.read().decode().strip()
        return output, self.process.wait()


def wait_for(what, holds, seconds=PATIENCE):
    """Waits until it holds, and fails if it does not in time."""
    limit = time.monotonic() + seconds
    while not (found := holds()):
        assert time.monotonic() < limit, f"not in {seconds} seconds: {what}"
        time.sleep(0.005)
    return found


def packets_of(line):
    """The packets that come on a line; None if for a while none came."""
    rest = b""
    while True:
        while len(rest) >= 2 and len(rest) >= 2 + (size := struct.unpack(">H", rest[:2])[0]):
            packet, rest = rest[2:2 + size], rest[2 + size:]
            yield packet
        try:
            more = line.recv(65536)
        except socket.timeout:
            yield None
            continue
        except OSError:
            return
        if not more:
            return
        rest += more


def login(number, first, session=""):
    """The login of a member who expects this reply next, to this session or to whichever is there."""
    return frame(b"L", b"US%04d" % number + b"PASS%04d  " % number + session.encode().ljust(10) + b"%20d" % first)


class Orders:
    """Orders at random, with tokens of their own, for these stocks in turn."""

    def __init__(self, name, seed, stocks=STOCKS):
        self.name, self.random, self.sent, self.stocks = name, random.Random(seed), 0, stocks

    def token(self, number):
        return f"{self.name}T{number:08d}"

    def next(self):
        self.sent += 1
        token = self.token(self.sent)
        kind = self.random.random()
        price = 100_000 + 100 * self.random.randrange(-4, 5)
        if kind < 0.7 or self.sent < 5:
            stock = self.stocks[self.sent % len(self.stocks)]
            return tapes.enter(token, self.random.choice("BS"), self.random.randrange(1, 500), stock, price,
                               display=self.random.choice("YN"))
        other = self.token(self.random.randrange(max(1, self.sent - 20), self.sent))
        if kind < 0.85:
            return tapes.replace(other, token, self.random.randrange(1, 500), price, display=self.random.choice("YN"))
        return tapes.cancel(other, self.random.randrange(0, 50))


class Member(threading.Thread):
    """A member who trades at random while the server is there, and comes again when it is not.

    If there are other servers he tries one after the other. A line on which he receives nothing for `patience` times 50
    milliseconds he gives up, and one to a server that knows less than he has received."""

    def __init__(self, server, number, seed, others=(), patience=None):
        super().__init__(daemon=True)
        self.servers, self.patience = (server, *others), patience
        self.number, self.random = number, random.Random(seed)
        self.orders = Orders(f"M{number}", seed, server.stocks)
        # (when he logged in, and at which server; which server knew less than he had, and as which writer)
        self.logins, self.outdated = [], []
        self.received = []
        self.stop, self.quiet, self.failure, self.again = False, threading.Event(), None, 0

    def take(self, number, message):
        """A reply: it is new, or as it was before."""
        if number <= len(self.received):
            if self.received[number - 1] != message:
                self.failure = f"member {self.number}: reply {number} was different before"
        else:
            self.received.append(message)

    def answer(self, packets):
        """The first packet; none if he gives the line up, or it has ended."""
        for idle, packet in enumerate(packets):
            if packet is not None or idle == self.patience:
                return packet
        return None

    def talk(self, line, server):
        from_the_start = self.random.random() < 0.2
        first = 1 if from_the_start else len(self.received) + 1
        line.sendall(login(self.number, first))
        line.settimeout(0.05)
        packets = packets_of(line)
        answer = self.answer(packets)
        if answer is None:
            return False
        if answer[:1] != b"A":
            raise OSError("no login")
        self.logins.append((time.monotonic(), server))
        if int(answer[11:31]) < first and len(self.servers) > 1:
            # (it knows less than he does, so another one has taken over from it)
            self.outdated.append((server, server.writer))
            return False
        if int(answer[11:31]) != first:
            self.failure = f"member {self.number}: asked for reply {first}, and got {answer!r}"
        number, waiting, idle, silent = first, 0, 0, 0
        for packet in packets:
            if packet is None:
                # (some messages have no reply)
                idle, silent = idle + 1, silent + 1
                waiting = 0 if idle % 10 == 0 else waiting
                if silent == self.patience and not self.stop:
                    return False
            elif packet[:1] == b"S":
                self.take(number, packet[1:])
                number += 1
                waiting, silent = max(0, waiting - 1), 0
            elif packet[:1] == b"Z":
                return True
            if not self.stop and waiting < 3:
                line.sendall(frame(b"U", self.orders.next()))
                waiting += 1
                time.sleep(0.001)
        return False

    def run(self):
        while self.failure is None:
            server = self.servers[self.again % len(self.servers)]
            try:
                with socket.create_connection((server.host, server.port), timeout=1) as line:
                    line.setsockopt(socket.IPPROTO_TCP, socket.TCP_NODELAY, 1)
                    if self.talk(line, server):
                        return
            except OSError:
                time.sleep(0.01)
            self.again += 1


class Stayer(threading.Thread):
    """A member's second line, which stays with a server whatever becomes of that."""

    def __init__(self, server, member, name, seed):
        super().__init__(daemon=True)
        self.member, self.orders = member, Orders(name, seed)
        self.first, self.received = len(member.received) + 1, []
        self.line = socket.create_connection((server.host, server.port), timeout=PATIENCE)
        self.line.sendall(login(member.number, self.first))
        self.packets = packets_of(self.line)
        assert next(self.packets)[:1] == b"A", "no login"

    def send(self):
        """Sends orders, whether anybody reads them or not, unless the line has ended."""
        for _ in range(5):
            with contextlib.suppress(OSError):
                self.line.sendall(frame(b"U", self.orders.next()))

    def run(self):
        for packet in self.packets:
            if packet is not None and packet[:1] == b"S":
                self.received.append(packet[1:])
        self.line.close()

    def compare(self):
        """What it received is what the member received."""
        wanted = self.member.received[self.first - 1:][:len(self.received)]
        assert self.received == wanted, f"a line of member {self.member.number} received something else from {self.first} on"


class Vendor(threading.Thread):
    """Listens to the feed, and asks for what he misses.

    If there are other servers he asks the next one when one does not answer. He listens at the server's port of the
    feed, or at `feed`, of the address `host`."""

    def __init__(self, server, seed, others=(), feed=None, host=HOST):
        super().__init__(daemon=True)
        self.servers, self.at, self.random = (server, *others), 0, random.Random(seed)
        self.session = server.session.encode()
        self.socket = socket.socket(socket.AF_INET, socket.SOCK_DGRAM)
        self.socket.setsockopt(socket.SOL_SOCKET, socket.SO_RCVBUF, 1 << 22)
        self.socket.bind((host, feed or server.feed))
        self.socket.settimeout(0.5)
        self.asking = socket.socket(socket.AF_INET, socket.SOCK_DGRAM)
        self.asking.bind((host, 0))
        self.asking.settimeout(0.05)
        self.received, self.failure, self.asked = [], None, 0
        self.ended = threading.Event()

    def take(self, packet):
        """Takes the messages of a packet: each is new, or as it was before."""
        sequence, count = struct.unpack_from(">QH", packet, 10)
        if count in (0, END_OF_SESSION):
            return
        at, number = 20, sequence
        while at < len(packet):
            size, = struct.unpack_from(">H", packet, at)
            message = packet[at + 2:at + 2 + size]
            at += 2 + size
            if number <= len(self.received):
                if self.received[number - 1] != message:
                    self.failure = f"vendor: message {number} was different before"
            elif number == len(self.received) + 1:
                self.received.append(message)
            number += 1

    def ask(self, first, count):
        self.asked += 1
        server = self.servers[self.at]
        try:
            self.asking.sendto(struct.pack(">10sQH", self.session, first, count), (server.host, server.requests))
            self.take(self.asking.recv(2000))
        except OSError:
            self.at = (self.at + 1) % len(self.servers)
            time.sleep(0.005)

    def run(self):
        while not self.ended.is_set():
            try:
                packet = self.socket.recv(2000)
            except OSError:
                continue
            session, sequence, count = struct.unpack_from(">10sQH", packet)
            if session != self.session:
                self.failure = f"vendor: another session, {session!r}"
            self.take(packet)
            while len(self.received) + 1 < sequence and not self.ended.is_set():
                self.ask(len(self.received) + 1, min(60_000, sequence - len(self.received) - 1))
            if self.random.random() < 0.002 and self.received:
                self.ask(self.random.randrange(1, len(self.received) + 1), 100)
            if count == END_OF_SESSION and len(self.received) + 1 == sequence:
                self.ended.set()


def history_of(path):
    with open(path, "rb") as file:
        return b"".join(line + b"\n" for line in file.read().split(b"\n") if line and not line.startswith(b"#")
                        and not line.startswith(b"\0"))


def replayed(program, setup, tape):
    """What a replay of a tape tells: the feed, and each member's replies."""
    done = subprocess.run([program, "replay", "--setup", setup], input=tape, stdout=subprocess.PIPE, check=True)
    feed, replies = [], {}
    for line in done.stdout.split(b"\n"):
        words = line.split()
        if words[:1] == [b"F"]:
            feed.append(bytes.fromhex(words[2].decode()))
        elif words[:1] == [b"M"]:
            replies.setdefault(int(words[1]), []).append(bytes.fromhex(words[3].decode()))
    return feed, replies


def compare_output(program, setup, tape, members, vendor):
    """Compares all that was received with one uninterrupted replay of the day's tape: its events, and the feed's messages."""
    feed, replies = replayed(program, setup, tape)
    assert vendor.failure is None, vendor.failure
    assert vendor.received == feed, f"the vendor has {len(vendor.received)} messages, the replay {len(feed)}"
    for member in members:
        assert member.failure is None, member.failure
        wanted = replies.get(member.number, [])
        assert member.received == wanted, f"member {member.number} has {len(member.received)} replies, the replay {len(wanted)}"
    return tape.count(b"\n"), len(feed)
