"""An open day on loopback, its members, and strangers that connect from other addresses of 127.0.0.0/8."""
import multiprocessing, os, resource, selectors, socket, struct, subprocess, tempfile, time

TOP = os.path.dirname(os.path.dirname(os.path.abspath(__file__)))
PROGRAM = os.environ.get('HX_TAPE', os.path.join(TOP, 'crates', 'hx_tape', 'out', 'hx_tape'))
SETUP = os.path.join(TOP, 'examples', 'served_day.setup')
HOST = '127.0.0.1'
HOURS = b'1 0 51\n2 0 4d\n3 0 45\n4 0 43\n'
SECONDS = 60


def free_port(kind, host=HOST):
    with socket.socket(socket.AF_INET6 if ':' in host else socket.AF_INET, kind) as found:
        found.bind((host, 0))
        return found.getsockname()[1]


def stranger(number):
    """The address of a stranger, who is none of the members: 127.1.0.0 and those after it."""
    return f'127.{1 + number // 65536}.{number // 256 % 256}.{number % 256}'


def packet(kind, payload=b''):
    return struct.pack('>Hc', len(payload) + 1, kind) + payload


def login(user, password):
    """A Login Request Packet, from the first reply on."""
    return packet(b'L', user.encode().ljust(6) + password.encode().ljust(10) + b' ' * 10 + b'1'.rjust(20))


ALPHA, BRAVO = login('ALPHA', 'PWALPHA'), login('BRAVO', 'PWBRAVO')
NOBODY = login('ALPHA', 'GUESSED')


def connect(port, host=HOST, at=HOST):
    """A connection from this address."""
    line = socket.socket()
    line.settimeout(SECONDS)
    line.bind((host, 0))
    line.connect((at, port))
    return line


def answer(line):
    """The type of the packet that answers a login; nothing where the line was closed."""
    head = b''
    while len(head) < 3:
        more = line.recv(3 - len(head))
        if not more:
            return b''
        head += more
    return head[2:]


def log_out(line):
    line.sendall(packet(b'O'))
    while line.recv(1 << 16):
        pass


def log_in(port, words, host=HOST):
    """Logs in and out, and gives how many seconds it took up to the answer, and the answer."""
    begun = time.perf_counter()
    with connect(port, host) as line:
        line.sendall(words)
        kind = answer(line)
        took = time.perf_counter() - begun
        if kind == b'A':
            log_out(line)
    return took, kind


class Day:
    """A server of an open day, with its notices in a file."""

    def __init__(self, sessions=2, more=(), feeds=None, listen=HOST, requests=HOST):
        self.port, self.requests = free_port(socket.SOCK_STREAM, listen), free_port(socket.SOCK_DGRAM, requests)
        self.errors = tempfile.TemporaryFile('w+')
        feeds = feeds or [f'{HOST}:{free_port(socket.SOCK_DGRAM)}']
        words = [PROGRAM, 'serve', '--open', '--end', '1', '--tick', '0', '--listen', self.at(listen, self.port),
                 '--requests', self.at(requests, self.requests), '--sessions', str(sessions), '--setup', SETUP]
        words += [word for feed in feeds for word in ('--feed', feed)] + list(more)
        self.server = subprocess.Popen(words, stdin=subprocess.PIPE, stdout=subprocess.PIPE, stderr=self.errors)
        self.await_listener(listen)

    def await_listener(self, listen):
        """A member logs in, which takes until the exchange is there, and out again."""
        for _ in range(500):
            try:
                line = socket.create_connection((listen, self.port), timeout=SECONDS)
                break
            except ConnectionRefusedError:
                time.sleep(0.02)
        with line:
            line.sendall(ALPHA)
            assert answer(line) == b'A'
            log_out(line)

    @staticmethod
    def at(host, port):
        return f'[{host}]:{port}' if ':' in host else f'{host}:{port}'

    def notices(self):
        self.errors.seek(0)
        return [line.strip().split('] ', 1)[-1] for line in self.errors]

    def end(self):
        """Ends the day, and gives its last line and its status."""
        self.server.stdin.write(HOURS)
        self.server.stdin.flush()
        output = self.server.stdout.read()
        return output, self.server.wait(SECONDS)

    def stop(self):
        self.server.kill()
        self.server.wait()
        for stream in (self.server.stdin, self.server.stdout, self.errors):
            stream.close()


# What strangers do, each in a process of its own.

def come_and_go(port, count, addresses, begun, done):
    """`count` connections, from `addresses` addresses, each closed as soon as it is there."""
    begun.set()
    for number in range(count):
        try:
            connect(port, stranger(number % addresses)).close()
        except OSError:
            pass
    done.set()


def say_nothing(port, count, addresses, begun, done):
    """`count` connections that are there at once, each of which comes again when it is closed."""
    most = resource.getrlimit(resource.RLIMIT_NOFILE)[1]
    resource.setrlimit(resource.RLIMIT_NOFILE, (most, most))
    lines = selectors.DefaultSelector()

    def come(number):
        try:
            line = connect(port, stranger(number % addresses))
            lines.register(line, selectors.EVENT_READ, number)
        except OSError:
            pass

    for number in range(count):
        come(number)
    begun.set()
    while not done.is_set():
        for key, _ in lines.select(0.05)[:50]:
            lines.unregister(key.fileobj)
            key.fileobj.close()
            come(key.data)
    for key in list(lines.get_map().values()):
        key.fileobj.close()


def drip(port, begun, done):
    """A login of which a byte comes each second."""
    with connect(port, stranger(60_000)) as line:
        for at in range(len(ALPHA)):
            try:
                line.sendall(ALPHA[at:at + 1])
            except OSError:
                break
            begun.set()
            if done.wait(1):
                break


def guess(port, addresses, begun, done):
    """Logins of nobody, one after the other, from `addresses` addresses."""
    number = 0
    lines = []
    while not done.is_set():
        try:
            line = connect(port, stranger(50_000 + number % addresses))
            line.sendall(NOBODY)
            lines.append(line)
        except OSError:
            pass
        begun.set()
        number += 1
        if len(lines) > 100:
            lines.pop(0).close()
        time.sleep(0.005)
    for line in lines:
        line.close()


class Strangers:
    """Runs what strangers do in a process, while the block lasts."""

    def __init__(self, what, *words):
        self.begun, self.done = multiprocessing.Event(), multiprocessing.Event()
        self.process = multiprocessing.Process(target=what, args=(*words, self.begun, self.done), daemon=True)

    def __enter__(self):
        self.process.start()
        self.begun.wait(SECONDS)
        return self

    def __exit__(self, *_):
        self.done.set()
        self.process.join(SECONDS)
