"""Members who send hidden orders and cancel each, as fast as a server takes them."""
import select
import socket

import tapes
from venue import STOCKS, frame, login

# The bytes of the packets with the replies to an order and to its cancel (OUCH 4.2, Accepted and Canceled).
REPLIES = 3 + 66 + 3 + 28
# The number of orders that are made at a time.
PIECE = 1_000


class Flooder:
    """A member with `orders` orders to send, each with its cancel, who counts the bytes of what comes."""

    def __init__(self, server, number, orders):
        self.number, self.orders, self.sent, self.left = number, orders, 0, orders * REPLIES
        self.line = socket.create_connection((server.host, server.port), timeout=60)
        self.line.sendall(login(number, 1))
        assert self.line.recv(1 << 16)[2:3] == b"A", "no login"
        self.line.setblocking(False)
        self.piece = memoryview(b"")

    def make(self):
        """The next orders, with their cancels."""
        first, self.sent = self.sent, min(self.sent + PIECE, self.orders)
        stock = STOCKS[self.number % len(STOCKS)]
        words = []
        for number in range(first + 1, self.sent + 1):
            token = f"F{self.number:02d}{number:011d}"
            words += [frame(b"U", message) for message in
                      (tapes.enter(token, "B", 100, stock, 100_000, display="N"), tapes.cancel(token))]
        return memoryview(b"".join(words))

    def send(self):
        """Sends what the line takes: whether all is sent."""
        if not self.piece and self.sent < self.orders:
            self.piece = self.make()
        if self.piece:
            self.piece = self.piece[self.line.send(self.piece):]
        return not self.piece and self.sent == self.orders

    def receive(self):
        """Takes what has come: whether all replies have. A heartbeat is a fraction of one."""
        more = self.line.recv(1 << 18)
        assert more, f"member {self.number}: the line ended"
        self.left -= len(more)
        return self.left <= 0


def flood(server, members, orders):
    """Has each of these members send his share of the orders, and waits for their replies."""
    senders = [Flooder(server, number, orders // members) for number in range(1, members + 1)]
    waiting = {sender.line.fileno(): sender for sender in senders}
    poll = select.poll()
    for fd in waiting:
        poll.register(fd, select.POLLIN | select.POLLOUT)
    while waiting:
        for fd, events in poll.poll():
            sender = waiting[fd]
            if events & select.POLLOUT and sender.send():
                poll.modify(fd, select.POLLIN)
            if events & select.POLLIN and sender.receive():
                del waiting[fd]
                poll.unregister(fd)
    for sender in senders:
        sender.line.close()
