"""Tapes in words, for scripts: the lines of the members and of the operator as `replay` reads them (OUCH 4.2)."""
import random

DAY, MARKET, NOW = 99_999, 99_998, 0


def number(value, size):
    return value.to_bytes(size, 'big')


def name(word, size):
    return word.encode().ljust(size)


def line(time, member, payload):
    return b'%d %d %s\n' % (time, member, payload.hex().encode())


def enter(token, side, shares, stock, price, life=DAY, display='Y', minimum=0):
    """An Enter Order Message; the price in 1/10,000 dollar."""
    return (b'O' + name(token, 14) + side.encode() + number(shares, 4) + name(stock, 8) + number(price, 4)
            + number(life, 4) + name('', 4) + display.encode() + b'ON' + number(minimum, 4) + b'NR')


def replace(token, by, shares, price, life=DAY, display='Y', minimum=0):
    """A Replace Order Message."""
    return (b'U' + name(token, 14) + name(by, 14) + number(shares, 4) + number(price, 4) + number(life, 4)
            + display.encode() + b'N' + number(minimum, 4))


def cancel(token, shares=0):
    """A Cancel Order Message: what is to be left of the order."""
    return b'X' + name(token, 14) + number(shares, 4)


def tape(*events):
    """A tape of such events: time, member and payload each."""
    return b''.join(line(*event) for event in events)


# A hidden order has fewer shares than the minimum of the incoming one, and is passed over.
MINIMUM_PASSED_OVER = tape(
    (10, 1, enter('H1', 'B', 200, 'ABCD', 100_000, display='N')),
    (20, 2, enter('G1', 'B', 500, 'ABCD', 100_000, display='N', minimum=500)),
    (30, 3, enter('S1', 'S', 500, 'ABCD', 100_000, display='N', minimum=500)))

# A chain of Replaces trades once; a Replace to what it has executed fails.
CHAIN_THAT_TRADED = tape(
    (10, 1, enter('H1', 'B', 100, 'ABCD', 100_000, display='N')),
    (20, 1, replace('H1', 'H2', 100, 100_100, display='N')),
    (30, 1, replace('H2', 'H3', 100, 100_200, display='N')),
    (40, 1, replace('H3', 'H4', 100, 100_300, display='N')),
    (50, 2, enter('S1', 'S', 1, 'ABCD', 100_300, NOW, 'N')),
    (60, 1, replace('H4', 'H5', 1, 100_300, display='N')))

# Replaces after executions, Replaces that trade, and messages that name no live order or a used token.
REPLACES_THAT_TRADE = tape(
    (10, 1, enter('T1', 'B', 100, 'ABCD', 100_000)),
    (20, 2, enter('S1', 'S', 30, 'ABCD', 100_000, NOW, 'N')),
    (30, 1, replace('T1', 'T2', 150, 100_100)),
    (40, 2, enter('S2', 'S', 200, 'ABCD', 100_200)),
    (50, 1, replace('T2', 'T3', 100, 100_200)),
    (60, 1, replace('T2', 'T4', 100, 100_000)),
    (70, 2, replace('S2', 'S1', 300, 100_200)),
    (80, 1, cancel('T2')))

# Two orders end at one tick, of which one is hidden and has fewer shares than it had.
TWO_END_AT_ONE_TICK = tape(
    (10, 2, enter('H1', 'B', 100, 'ABCD', 100_000, 2, 'N')),
    (20, 1, enter('T1', 'B', 70, 'ABCD', 100_000, 2)),
    (30, 2, cancel('H1', 60)),
    (2_000_000_020, 0, b'K'))


def day_in_turns(rounds):
    """More lines than a pipe holds: each round a buy that rests, a sell that takes a part of it, and a hidden buy."""
    events = []
    for i in range(rounds):
        events += [(10 * i, 1, enter('B%d' % i, 'B', 100, 'ABCD', 100_000)),
                   (10 * i + 1, 2, enter('S%d' % i, 'S', 40, 'ABCD', 100_000, NOW, 'N')),
                   (10 * i + 2, 3, enter('H%d' % i, 'B', 100, 'ABCD', 99_900, display='N'))]
    return tape(*events)


# The two stocks of `market_day`.
TWO_STOCKS = ('ABCD', 'WXYZ')


class Walker:
    """Makes the messages of a day: prices walk, and each member has orders at rest."""

    def __init__(self, members, seed):
        self.rng, self.used = random.Random(seed), 0
        self.middle = dict.fromkeys(TWO_STOCKS, 1_000_000)
        self.resting = {member: [] for member in range(1, members + 1)}

    def token(self):
        self.used += 1
        return '%014d' % self.used

    def shares(self):
        return 100 * self.rng.randrange(1, 10)

    def away(self, stock, buys):
        """A price away from the middle, mostly by a few cents."""
        distance = 100 * (1 + min(int(self.rng.expovariate(0.08)), 400))
        return self.middle[stock] - distance if buys else self.middle[stock] + distance

    def across(self, stock, buys):
        return self.middle[stock] + 300 if buys else self.middle[stock] - 300

    def entered(self, member):
        """An eighth of the orders cross, and a seventh are hidden; most others rest for the day."""
        rng, stock = self.rng, self.rng.choice(TWO_STOCKS)
        if rng.random() < 0.05:
            self.middle[stock] += rng.choice([-100, 100])
        buys, crosses, hidden = rng.random() < 0.5, rng.random() < 0.12, rng.random() < 0.15
        life = NOW if crosses and rng.random() < 0.6 else DAY
        price = self.across(stock, buys) if crosses else self.away(stock, buys)
        token = self.token()
        if life:
            self.resting[member].append((token, stock, buys))
        minimum = 100 if hidden and rng.random() < 0.3 else 0
        return enter(token, 'B' if buys else 'S', self.shares(), stock, price, life, 'N' if hidden else 'Y', minimum)

    def changed(self, member, is_cancel):
        """A cancel or a replace of an order that was at rest, unless it has traded since; mostly of a new one."""
        orders, rng = self.resting[member], self.rng
        newest = len(orders) - 1
        index = rng.randrange(len(orders)) if rng.random() < 0.5 else max(0, newest - int(rng.expovariate(0.2)))
        token, stock, buys = orders[index]
        if is_cancel:
            orders[index] = orders[newest]
            orders.pop()
            return cancel(token)
        new = self.token()
        orders[index] = (new, stock, buys)
        return replace(token, new, self.shares(), self.away(stock, buys))


def market_day(lines, members, seed=1):
    """A day as markets have them: half of the messages enter orders, most of the others cancel them, some replace them."""
    walker, time = Walker(members, seed), 34_200_000_000_000
    for _ in range(lines):
        time += walker.rng.randrange(1, 40_000)
        member, kind = walker.rng.randrange(1, members + 1), walker.rng.random()
        if kind < 0.48 or len(walker.resting[member]) < 3:
            yield line(time, member, walker.entered(member))
        else:
            yield line(time, member, walker.changed(member, kind < 0.88))
