"""A vendor's page for scripts: a day that is served, the screen that watches its feed, and the live orders of the day as
its members know them (OUCH 4.2)."""
import base64
import json
import os
import socket
import struct
import subprocess
import threading
import time
import urllib.error
import urllib.request

import tapes
from venue import HOST, Server, frame, free_port, history_of, login, packets_of, replayed

STOCKS = ("ABCD", "WXYZ")
DIRECTORY = "5120000000644e435a20502020314e000000004e"
MEMBERS = 3


def wait_for(what, holds, seconds=20):
    """Waits until it holds, and fails where it does not in time."""
    limit = time.monotonic() + seconds
    while not (found := holds()):
        assert time.monotonic() < limit, f"not in {seconds} seconds: {what}"
        time.sleep(0.01)
    return found


class Day:
    """A served day with a screen that shows its page."""

    def __init__(self, program, folder):
        self.program, self.journal = program, os.path.join(folder, "day.journal")
        self.operator = os.path.join(folder, "operator")
        self.server = Server(program, folder, self.journal, MEMBERS, more=("--operator", self.operator))
        with open(self.server.setup, encoding="ascii") as file:
            lines = file.read().splitlines()
        index = next(at for at, line in enumerate(lines) if line.startswith("stock"))
        lines[index:index + 1] = [f"stock {name} {DIRECTORY}" for name in STOCKS]
        with open(self.server.setup, "w", encoding="ascii") as file:
            file.write("\n".join(lines) + "\n")
        self.web = free_port(socket.SOCK_STREAM)
        words = [program, "watch", "--feed", str(self.server.feed), "--requests", str(self.server.requests),
                 "--web", str(self.web)]
        self.screen = subprocess.Popen(words, stdout=subprocess.PIPE, stderr=subprocess.PIPE, text=True)
        wait_for("the page", lambda: get(self.web, "/book.json")[0] == 200)
        self.server.start()
        self.lines = []
        for number in range(1, MEMBERS + 1):
            wait_for("the server", lambda: self.connect(number))

    def connect(self, number):
        try:
            line = socket.create_connection((HOST, self.server.port), timeout=5)
        except OSError:
            return False
        line.sendall(login(number, 1))
        assert next(packets_of(line))[:1] == b"A", "no login"
        threading.Thread(target=drain, args=(line,), daemon=True).start()
        self.lines.append(line)
        return True

    def send(self, number, message):
        """A member sends a message: once the journal has it."""
        before = len(self.history().splitlines())
        self.lines[number - 1].sendall(frame(b"U", message))
        wait_for("an event", lambda: len(self.history().splitlines()) > before)

    def say(self, *words):
        done = subprocess.run([self.program, "operate", self.operator, *words], capture_output=True, check=False)
        assert done.returncode == 0, done

    def history(self):
        return history_of(self.journal)

    def published(self):
        """How many messages the feed has, and the live orders, by a replay of the day so far."""
        feed, replies = replayed(self.program, self.server.setup, self.history())
        return len(feed), live_orders(replies)

    def published_all(self, count):
        """How many messages the feed has, once `count` events of members are in the history."""
        wait_for("all events", lambda: self.history().count(b" 1 ") >= count, 60)
        return self.published()[0]

    def end(self):
        output, status = self.server.end()
        assert status == 0, (output, status)
        text, fault = self.screen.communicate(timeout=30)
        assert self.screen.returncode == 0, (self.screen.returncode, fault)
        return text

    def stop(self):
        for process in (self.server.process, self.screen):
            if process is not None and process.poll() is None:
                process.kill()
                process.wait()


def drain(line):
    try:
        while line.recv(65536):
            pass
    except OSError:
        pass


def text(field):
    return field.decode().rstrip()


def live_orders(replies):
    """The live displayed orders by the members' replies: (stock, side, price, shares) each."""
    orders = {}
    for number, messages in replies.items():
        for it in messages:
            kind, token = it[:1], (number, it[9:23])
            if kind in (b"A", b"U"):
                side, shares, stock, price = struct.unpack_from(">cI8sI", it, 23)
                is_shown, is_live = it[48:49] == b"Y", it[64:65] == b"L"
                if kind == b"U":
                    orders.pop((number, it[65:79]), None)
                if is_shown and is_live:
                    orders[token] = [text(stock), side.decode(), price, shares]
            elif kind in (b"E", b"C") and token in orders:
                orders[token][3] -= struct.unpack_from(">I", it, 23)[0]
                if orders[token][3] == 0:
                    del orders[token]
    return list(orders.values())


def depth(orders, stock, side):
    """The shares and orders at each price of a side, the best first."""
    levels = {}
    for name, where, price, shares in orders:
        if (name, where) == (stock, side):
            level = levels.setdefault(price, [price, 0, 0])
            level[1] += shares
            level[2] += 1
    return sorted(levels.values(), reverse=side == "B")


# ---- HTTP and WebSockets, with nothing but sockets

def get(port, path, method="GET", headers=()):
    """The status, the headers and the body of an answer; None if nobody answers."""
    request = urllib.request.Request(f"http://{HOST}:{port}{path}", method=method, headers=dict(headers))
    try:
        with urllib.request.urlopen(request, timeout=10) as answer:
            return answer.status, answer.headers, answer.read()
    except urllib.error.HTTPError as answer:
        return answer.code, answer.headers, answer.read()
    except OSError:
        return None, None, None


def json_of(port, path):
    return json.loads(get(port, path)[2])


class Browser:
    """What is left of a browser without a window: its WebSocket."""

    def __init__(self, port, window=None, more=""):
        self.line = socket.socket()
        if window is not None:
            self.line.setsockopt(socket.SOL_SOCKET, socket.SO_RCVBUF, window)
        self.line.settimeout(10)
        self.line.connect((HOST, port))
        key = base64.b64encode(os.urandom(16)).decode()
        self.line.sendall((f"GET /live HTTP/1.1\r\nHost: {HOST}:{port}\r\nUpgrade: websocket\r\nConnection: Upgrade\r\n"
                           f"Sec-WebSocket-Key: {key}\r\nSec-WebSocket-Version: 13\r\n{more}\r\n").encode())
        self.rest = b""
        while b"\r\n\r\n" not in self.rest:
            self.rest += self.more()
        head, self.rest = self.rest.split(b"\r\n\r\n", 1)
        self.status = int(head.split()[1])
        self.feed, self.stocks, self.times, self.is_closed = None, {}, [], False

    def more(self):
        more = self.line.recv(65536)
        assert more, "the page has closed a line"
        return more

    def take(self, count):
        while len(self.rest) < count:
            self.rest += self.more()
        taken, self.rest = self.rest[:count], self.rest[count:]
        return taken

    def read(self):
        """Reads one frame (RFC 6455, section 5.2)."""
        first, size = self.take(2)
        if size == 126:
            size, = struct.unpack(">H", self.take(2))
        elif size == 127:
            size, = struct.unpack(">Q", self.take(8))
        body = self.take(size)
        if first == 0x88:
            self.is_closed = True
        elif first == 0x89:
            self.line.sendall(bytes([0x8a, 0x80 + len(body)]) + bytes(4) + body)
        elif first == 0x81:
            update = json.loads(body)
            if "session" in update:
                self.feed = update
                self.times.append(time.monotonic())
            else:
                self.stocks[update["stock"]] = update

    def read_until(self, messages):
        while not self.is_closed and (self.feed is None or self.feed["messages"] < messages):
            self.read()

    def close(self):
        self.line.close()
