#!/usr/bin/env python3
"""A member and a vendor of `hx_tape serve`, with nothing but Python's standard library.

One terminal serves an open day, whose end is the end of the operator's lines (Control-D):

    ./hx_tape serve --open --port 9001 --feed 9002 --requests 9003 --sessions 2 --setup examples/served_day.setup

Another one runs this client, which acts as both members and a vendor who listens to the feed:

    examples/client.py --port 9001 --feed 9002 --requests 9003 --pcap day.pcap

It logs in (SoupBinTCP 3.00), enters a hidden and a displayed order (OUCH 4.2), sells into both, and prints every reply
and every message of the feed (TotalView-ITCH 5.0 in MoldUDP64 1.00 packets) in words. The vendor throws one packet away
and asks for its messages again. With --again it sends no order: both members ask for all their replies, and the vendor for
all messages of the feed, as after a server with a journal was killed and started again. With --pcap it writes all that went over the wires as a capture that Wireshark opens,
with --lines the feed as the lines that a replay of the day's history writes.
"""
import argparse
import socket
import struct
import sys
import threading
import time

HOST = "127.0.0.1"
END_OF_SESSION = 65535


def dollars(price):
    return f"{price // 10000}.{price % 10000:04d}"


def text(field):
    return field.decode("ascii", "replace").rstrip()


# ---- what OUCH says

def enter_order(token, side, shares, stock, price, display, time_in_force=99999, minimum=0):
    """An Enter Order message: 49 bytes."""
    return struct.pack(">c14scI8sII4sccc I cc".replace(" ", ""),
                       b"O", token.ljust(14).encode(), side.encode(), shares, stock.ljust(8).encode(), price,
                       time_in_force, b"    ", display.encode(), b"O", b"N", minimum, b"N", b"R")


def said_of_reference(reference):
    if reference < 1 << 63:
        return f"reference {reference}"
    return f"private reference {reference >> 40 & 0xfff}.{reference & (1 << 40) - 1}"


def reply_in_words(message):
    """An OUCH message to a member, in words."""
    kind, = struct.unpack_from("c", message)
    if kind == b"S":
        return f"system event {chr(message[9])}"
    token = text(message[9:23])
    if kind == b"A":
        side, shares, stock, price = struct.unpack_from(">cI8sI", message, 23)
        reference, = struct.unpack_from(">Q", message, 49)
        return (f"accepted {token}: {side.decode()} {shares} {text(stock)} at {dollars(price)}, "
                f"{said_of_reference(reference)}")
    if kind == b"U":
        shares, = struct.unpack_from(">I", message, 24)
        return f"replaced {text(message[65:79])} by {token}: {shares} shares"
    if kind == b"C":
        shares, = struct.unpack_from(">I", message, 23)
        return f"canceled {token}: {shares} shares, reason {chr(message[27])}"
    if kind == b"E":
        shares, price, flag, match = struct.unpack_from(">IIcQ", message, 23)
        return f"executed {token}: {shares} shares at {dollars(price)}, flag {flag.decode()}, match {match}"
    if kind == b"J":
        return f"rejected {token}: reason {chr(message[23])}"
    return f"message {message.hex()}"


# ---- what ITCH says

def feed_in_words(message):
    """A message of the feed, in words."""
    kind = chr(message[0])
    if kind == "S":
        return f"system event {chr(message[11])}"
    if kind == "R":
        return f"stock {text(message[11:19])}"
    if kind in "AF":
        reference, side, shares, stock, price = struct.unpack_from(">QcI8sI", message, 11)
        firm = f" of {text(message[36:40])}" if kind == "F" else ""
        return f"order {reference}{firm}: {side.decode()} {shares} {text(stock)} at {dollars(price)}"
    if kind == "E":
        reference, shares, match = struct.unpack_from(">QIQ", message, 11)
        return f"order {reference} executed: {shares} shares, match {match}"
    if kind == "X":
        return "order %d: %d shares less" % struct.unpack_from(">QI", message, 11)
    if kind == "D":
        return "order %d is gone" % struct.unpack_from(">Q", message, 11)
    if kind == "U":
        old, new, shares, price = struct.unpack_from(">QQII", message, 11)
        return f"order {old} is now order {new}: {shares} at {dollars(price)}"
    if kind == "P":
        shares, stock, price, match = struct.unpack_from(">I8sIQ", message, 20)
        return f"trade of hidden orders: {shares} {text(stock)} at {dollars(price)}, match {match}"
    return f"message {message.hex()}"


# ---- a capture

class Capture:
    """Writes datagrams and streams as a capture of raw IP packets (pcap, link type 101)."""

    def __init__(self, path):
        self.file = open(path, "wb") if path else None
        self.lock = threading.Lock()
        self.sent = {}
        if self.file:
            self.file.write(struct.pack("<IHHiIII", 0xa1b2c3d4, 2, 4, 0, 0, 65535, 101))

    @staticmethod
    def checksum(data):
        data += b"\0" * (len(data) % 2)
        total = sum(struct.unpack(f">{len(data) // 2}H", data))
        while total >> 16:
            total = (total & 0xffff) + (total >> 16)
        return ~total & 0xffff

    def packet(self, protocol, segment):
        if not self.file:
            return
        address = socket.inet_aton(HOST)
        head = struct.pack(">BBHHHBBH4s4s", 0x45, 0, 20 + len(segment), 0, 0, 64, protocol, 0, address, address)
        head = head[:10] + struct.pack(">H", self.checksum(head)) + head[12:]
        now = time.time()
        with self.lock:
            self.file.write(struct.pack("<IIII", int(now), int(now % 1 * 1e6), *[len(head) + len(segment)] * 2))
            self.file.write(head + segment)
            self.file.flush()

    def datagram(self, source, target, data):
        self.packet(17, struct.pack(">HHHH", source, target, 8 + len(data), 0) + data)

    def stream(self, source, target, data):
        before = self.sent.get((source, target), 1)
        self.sent[(source, target)] = before + len(data)
        head = struct.pack(">HHIIBBHHH", source, target, before, self.sent.get((target, source), 1), 0x50, 0x18, 65535,
                           0, 0)
        address = socket.inet_aton(HOST)
        pseudo = address + address + struct.pack(">BBH", 0, 6, len(head) + len(data))
        head = head[:16] + struct.pack(">H", self.checksum(pseudo + head + data)) + head[18:]
        self.packet(6, head + data)


# ---- a member

class Member:
    """A member's session (SoupBinTCP 3.00)."""

    def __init__(self, port, user, password, capture):
        self.user, self.port, self.capture = user, port, capture
        self.line = socket.create_connection((HOST, port))
        self.line.setsockopt(socket.IPPROTO_TCP, socket.TCP_NODELAY, 1)
        self.own = self.line.getsockname()[1]
        self.rest = b""
        self.login = user.ljust(6).encode() + password.ljust(10).encode() + b" " * 10 + b"1".rjust(20)

    def send(self, kind, payload=b""):
        frame = struct.pack(">Hc", len(payload) + 1, kind) + payload
        self.capture.stream(self.own, self.port, frame)
        self.line.sendall(frame)

    def receive(self):
        """The next packet: its type and its payload. None if the line is closed."""
        while True:
            if len(self.rest) >= 2 and len(self.rest) >= 2 + (size := struct.unpack(">H", self.rest[:2])[0]):
                packet, self.rest = self.rest[2:2 + size], self.rest[2 + size:]
                return packet[:1], packet[1:]
            more = self.line.recv(65536)
            if not more:
                return None
            self.capture.stream(self.port, self.own, more)
            self.rest += more

    def receive_packet(self):
        """The next packet; the program ends if the line is closed."""
        packet = self.receive()
        if packet is None:
            sys.exit(f"{self.user}: the server has closed the line")
        return packet

    def log_in(self):
        self.send(b"L", self.login)
        kind, payload = self.receive_packet()
        if kind != b"A":
            sys.exit(f"{self.user} may not log in: {text(payload)}")
        print(f"{self.user}: logged in to session {text(payload[:10])}, next reply {int(payload[10:])}")

    def replies(self, count):
        """Prints `count` replies, past heartbeats."""
        while count:
            kind, payload = self.receive_packet()
            if kind == b"S":
                print(f"{self.user}: {reply_in_words(payload)}")
                count -= 1

    def all_replies(self):
        """Prints the replies up to the first heartbeat."""
        kind, payload = self.receive_packet()
        while kind == b"S":
            print(f"{self.user}: {reply_in_words(payload)}")
            kind, payload = self.receive_packet()

    def log_out(self):
        self.send(b"O")
        while self.receive():
            pass
        print(f"{self.user}: logged out")


# ---- a vendor

class Vendor(threading.Thread):
    """Listens to the feed (MoldUDP64 1.00), and asks for what it misses."""

    def __init__(self, feed, requests, capture, lose, lines, again):
        super().__init__(daemon=True)
        self.lines, self.again = lines, again
        self.feed, self.requests, self.capture, self.lose = feed, requests, capture, lose
        self.socket = socket.socket(socket.AF_INET, socket.SOCK_DGRAM)
        self.socket.bind((HOST, feed))
        self.asking = socket.socket(socket.AF_INET, socket.SOCK_DGRAM)
        self.asking.bind((HOST, 0))
        self.asking.settimeout(2)
        self.next = 1
        self.ended = threading.Event()

    @staticmethod
    def messages(packet):
        at = 20
        while at < len(packet):
            size, = struct.unpack_from(">H", packet, at)
            yield packet[at + 2:at + 2 + size]
            at += 2 + size

    def take(self, sequence, packet, how):
        for number, message in enumerate(self.messages(packet), sequence):
            if number == self.next:
                print(f"feed {number}{how}: {feed_in_words(message)}")
                self.lines.append(f"F {number} {message.hex()}")
                self.next += 1

    def ask(self, session, count):
        own = self.asking.getsockname()[1]
        request = struct.pack(">10sQH", session, self.next, count)
        self.capture.datagram(own, self.requests, request)
        try:
            self.asking.sendto(request, (HOST, self.requests))
            packet = self.asking.recv(2000)
        except OSError:
            print(f"feed: {count} messages from {self.next} on were lost, and nobody answers any more")
            return False
        self.capture.datagram(self.requests, own, packet)
        self.take(struct.unpack_from(">Q", packet, 10)[0], packet, " (asked for)")
        return True

    def run(self):
        while not self.ended.is_set():
            packet = self.socket.recv(2000)
            self.capture.datagram(self.requests, self.feed, packet)
            session, sequence, count = struct.unpack_from(">10sQH", packet)
            if 0 < count < END_OF_SESSION and self.lose:
                self.lose = False
                print(f"feed: threw the packet with message {sequence} away")
                continue
            while self.next < sequence:
                if not self.ask(session, sequence - self.next):
                    self.next = sequence
            if count == END_OF_SESSION:
                print(f"feed: end of session, next message {sequence}")
                self.ended.set()
            else:
                self.take(sequence, packet, "")
                if self.again and count == 0:
                    self.ended.set()


def main():
    reader = argparse.ArgumentParser(description=__doc__, formatter_class=argparse.RawDescriptionHelpFormatter)
    for name in ("port", "feed", "requests"):
        reader.add_argument(f"--{name}", type=int, required=True)
    reader.add_argument("--pcap", help="the file of a capture")
    reader.add_argument("--lines", help="the file of the feed's messages, as `hx_tape replay` writes them")
    reader.add_argument("--again", action="store_true", help="only ask for what was told before")
    words = reader.parse_args()
    capture = Capture(words.pcap)
    lines = []
    vendor = Vendor(words.feed, words.requests, capture, lose=not words.again, lines=lines, again=words.again)
    vendor.start()
    alpha = Member(words.port, "ALPHA", "PWALPHA", capture)
    bravo = Member(words.port, "BRAVO", "PWBRAVO", capture)
    for member in (alpha, bravo):
        member.log_in()
        if words.again:
            member.all_replies()
            member.log_out()
    if not words.again:
        trade(alpha, bravo)
    vendor.ended.wait()
    if words.lines:
        with open(words.lines, "w", encoding="ascii") as file:
            file.writelines(f"{line}\n" for line in lines)


def trade(alpha, bravo):
    """A hidden and a displayed order, into which the other member sells."""
    alpha.send(b"U", enter_order("HIDDEN", "B", 100, "ABCD", 100000, "N"))
    alpha.send(b"U", enter_order("SHOWN", "B", 100, "ABCD", 100000, "Y"))
    alpha.replies(2)
    bravo.send(b"U", enter_order("SELL", "S", 150, "ABCD", 100000, "N", time_in_force=0))
    bravo.replies(3)
    alpha.replies(2)
    alpha.log_out()
    bravo.log_out()
    print("both have logged out; the day ends once the operator's input has ended")


if __name__ == "__main__":
    main()
